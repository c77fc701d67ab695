//! What is dropped of a desk, and clients in threads whose words are counted. Random calls are replayed by
//! replay.rs.
// SPDX-License-Identifier: MIT OR Apache-2.0
#![cfg(feature = "std")]
use std::thread;
use timers::desk::{Config, Desk, Error, Line, Word};
use timers::{Table, Tick, Ticks};

fn turn(desk: &mut Desk) {
    while desk.serve_all(64).unwrap() | desk.flush_all() {}
}

/// A line that is dropped is opened again, and a desk that is dropped abandons its lines.
#[test]
fn what_is_dropped_is_gone() {
    let (mut desk, mut lines) = Desk::new(2, Config::new(100, 4, 4)).unwrap();
    let mut other = lines.pop().unwrap();
    let line = lines.pop().unwrap();
    assert_eq!((line.client(), other.client(), desk.clients()), (0, 1, 2));
    assert_eq!((desk.stop_pending(0), desk.stop_pending(2)), (Err(Error::NotFreed), Err(Error::NoClient)));
    drop(line);
    assert!(desk.line_freed(0) && !desk.line_freed(1));
    let mut line = desk.open(0, 4).unwrap();
    let (_stranger, mut strangers) = Desk::new(2, Config::new(1, 1, 1)).unwrap();
    strangers[1].finish().unwrap();
    assert_eq!(desk.end(1, &mut strangers[1]), Err(Error::OtherLine));
    assert_eq!(other.start(Ticks(1), 1), Ok(1));
    assert_eq!((desk.serve(1), desk.serve(1), desk.serve(2)), (Ok(true), Ok(false), Err(Error::NoClient)));
    drop(desk);
    assert!(line.abandoned() && other.abandoned());
}

/// Sends 2,000 starts, reads two words of each, and returns how many timers expired.
fn work(mut line: Line) -> u64 {
    let (mut sent, mut answered, mut expired) = (0, 0, 0);
    while expired < 2_000 {
        if sent < 2_000 && sent - answered < 8 && sent - expired < 50 {
            match line.start(Ticks(1 + sent % 97), sent) {
                Ok(number) => {
                    sent += 1;
                    assert_eq!(number, sent);
                }
                Err(error) => assert_eq!(error, Error::LineFull),
            }
        }
        match line.receive() {
            Some(Word::Started { number, .. }) => {
                answered += 1;
                assert_eq!(number, answered);
            }
            Some(Word::Expired(timer)) => {
                assert_eq!(timer.action + 1, timer.number);
                expired += 1;
            }
            None => thread::yield_now(),
            Some(word) => panic!("{word:?}"),
        }
    }
    expired
}

fn threads(clients: usize) {
    let (mut desk, lines) = Desk::new(clients, Config::new(100_000, 50, 8)).unwrap();
    desk.reserve().unwrap();
    let workers: Vec<_> = lines.into_iter().map(|line| thread::spawn(|| work(line))).collect();
    while !workers.iter().all(|worker| worker.is_finished()) {
        let is_busy = desk.serve_all(64).unwrap();
        let moved = desk.flush_all();
        desk.advance(Ticks(1)).unwrap();
        if !is_busy && !moved {
            thread::yield_now();
        }
    }
    let expired: u64 = workers.into_iter().map(|worker| worker.join().unwrap()).sum();
    assert_eq!((expired, desk.pending()), (2_000 * clients as u64, 0));
}

#[test]
fn passes_the_last_tick() {
    let mut config = Config::new(1, 1, 1);
    config.first_tick = Tick(16_777_206);
    config.table = Table::Small;
    let (mut desk, mut lines) = Desk::new(1, config).unwrap();
    lines[0].start(Ticks(5), 7).unwrap();
    turn(&mut desk);
    assert_eq!((desk.advance_to(Tick(u64::MAX)), desk.now(), desk.pending()), (Err(Error::ClockEnd), timers::LAST_OF_SMALL, 0));
    assert_eq!(format!("{desk:?} {:?}", lines[0]), "Desk { now: Tick(16777215), pending: 0, .. } Line { client: 0, .. }");
    assert_eq!(format!("{}, {}", Error::Closed, Error::Other(99)), "the desk was closed, status 99");
}

#[test]
fn clients_in_threads_get_all_their_words() {
    threads(1);
    threads(8);
}

#[test]
fn numbers_out_of_range_are_refused() {
    for clients in [0, timers::desk::CLIENTS + 1, 100_000_000_000, usize::MAX] {
        assert_eq!(Desk::new(clients, Config::new(1, 1, 1)).unwrap_err(), Error::OutOfRange);
    }
    for (timers, requests) in [(u64::MAX, 1), (1, u64::MAX), (u64::MAX, u64::MAX)] {
        assert_eq!(Desk::new(1, Config::new(1, timers, requests)).unwrap_err(), Error::OutOfRange);
    }
}
