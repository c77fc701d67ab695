// The shortest whole use of a desk: one thread keeps the timers of another. Each wakes the other up by unparking it.
//
//     cargo run --example desk
// SPDX-License-Identifier: MIT OR Apache-2.0
use std::thread;
use timers::desk::{Config, Desk, Error, Line, Word};
use timers::Ticks;

/// Starts two timers, and receives words until both have expired.
fn work(mut line: Line, owner: &thread::Thread) -> Result<(), Error> {
    line.start(Ticks(300), 7)?;
    line.start(Ticks(240), 8)?;
    owner.unpark();
    let mut expired = 0;
    while expired < 2 {
        let word = line.receive();
        if let Some(Word::Expired(timer)) = word {
            println!("{}: {}", timer.deadline, timer.action);
            expired += 1;
        }
        match word {
            Some(_) => owner.unpark(), // the line has room for another word
            None => thread::park(),
        }
    }
    Ok(())
}

fn main() -> Result<(), Error> {
    let (mut desk, mut lines) = Desk::new(1, Config::new(10, 2, 2))?;
    let (line, owner) = (lines.remove(0), thread::current());
    let client = thread::spawn(move || {
        let done = work(line, &owner); // and drops the line
        owner.unpark();
        done
    });
    let mut requests = 0;
    while !desk.line_freed(0) {
        let is_served = desk.serve(0)?;
        requests += usize::from(is_served);
        if is_served | desk.flush_all() {
            client.thread().unpark();
        } else if let (2, Some(tick)) = (requests, desk.wakeup()) {
            // An interval counts from the tick at which its request is served: here both count from 0.
            desk.advance_to(tick)?; // a server sleeps until then first
        } else {
            thread::park();
        }
    }
    client.join().expect("the client has panicked")
}
