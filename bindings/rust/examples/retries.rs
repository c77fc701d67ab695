// Packets over a link that loses some. One that is not acknowledged is sent again after 200 ms, then after 400, 800 and so
// on, and given up after five attempts. The timers own the packets: an acknowledgement stops one and gets its packet back.
//
// The link is simulated, and so is the time: a tick is a millisecond, and the clock goes from one deadline to the next.
//
//     cargo run --example retries
// SPDX-License-Identifier: MIT OR Apache-2.0
use std::collections::HashMap;
use timers::{Error, Handle, Tick, Ticks, Timers};

const FIRST_WAIT: u64 = 200;
const ATTEMPTS: u32 = 5;
const ROUND_TRIP: Ticks = Ticks(50);

struct Packet {
    number: u32,
    attempt: u32,
    text: &'static str,
}

/// What comes at a deadline.
enum Event {
    /// The packet was not acknowledged in time.
    Late(Packet),
    /// The acknowledgement of the packet with this number arrives.
    Acknowledged(u32),
}

#[derive(Debug)]
struct Queue {
    timers: Timers<Event>,
    /// The timer of each packet that waits for its acknowledgement.
    waiting: HashMap<u32, Handle>,
}

impl Queue {
    /// Sends a packet. On this link the first three attempts of packet 2 are lost, and all of packet 3.
    fn send(&mut self, packet: Packet) -> Result<(), Error> {
        let lost = match packet.number {
            2 => packet.attempt <= 3,
            3 => true,
            _ => false,
        };
        if !lost {
            self.timers.start(ROUND_TRIP, Event::Acknowledged(packet.number))?;
        }
        let wait = Ticks(FIRST_WAIT << (packet.attempt - 1));
        let number = packet.number;
        let handle = self.timers.start(wait, Event::Late(packet))?;
        self.waiting.insert(number, handle);
        Ok(())
    }

    fn handle(&mut self, now: Tick, event: Event) -> Result<(), Error> {
        match event {
            Event::Acknowledged(number) => {
                let packet = self.waiting.remove(&number).and_then(|handle| self.timers.stop(handle));
                if let Some(Event::Late(Packet { text, attempt, .. })) = packet {
                    println!("{now} ms: {text} has arrived, at attempt {attempt}");
                }
            }
            Event::Late(packet) if packet.attempt == ATTEMPTS => {
                self.waiting.remove(&packet.number);
                println!("{now} ms: {} is given up", packet.text);
            }
            Event::Late(packet) => self.send(Packet { attempt: packet.attempt + 1, ..packet })?,
        }
        Ok(())
    }
}

fn main() -> Result<(), Error> {
    let mut queue = Queue { timers: Timers::new()?, waiting: HashMap::new() };
    for (number, text) in (1..).zip(["tea", "egg", "call"]) {
        queue.send(Packet { number, attempt: 1, text })?;
    }
    while let Some(timer) = queue.timers.take(timers::LAST) {
        queue.handle(timer.deadline, timer.value)?;
    }
    Ok(())
}
