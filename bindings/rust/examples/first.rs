// The shortest whole use: three timers, of which one is stopped.
//
//     cargo run --example first
// SPDX-License-Identifier: MIT OR Apache-2.0
use timers::{Error, Tick, Ticks, Timers};

fn main() -> Result<(), Error> {
    let mut timers = Timers::new()?; // the clock is at tick 0
    timers.start(Ticks(300), "tea")?;
    timers.start(Ticks(240), "egg")?;
    let call = timers.start(Ticks(900), "call")?;
    assert_eq!(timers.stop(call), Some("call"));
    for timer in timers.take_due(Tick(1000)) {
        println!("{}: {}", timer.deadline, timer.value);
    }
    Ok(())
}
