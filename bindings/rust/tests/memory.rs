//! What memory timers take, and that they give it back. One test: it looks at the memory of the whole process.
// SPDX-License-Identifier: MIT OR Apache-2.0
#![cfg(target_os = "linux")]
use timers::{Tick, Ticks, Timers, LAST};

/// The bytes of memory that this process has mapped.
fn mapped() -> usize {
    let pages = std::fs::read_to_string("/proc/self/statm").unwrap();
    pages.split(' ').next().unwrap().parse::<usize>().unwrap() * 4096
}

/// Room for a million timers is 40 MB, and 16 MB for their values. While fewer are held, nothing is added to it.
fn make_room() {
    let (most, before) = (1_000_000, mapped());
    let mut timers = Timers::new().unwrap();
    timers.reserve(most).unwrap();
    let reserved = mapped();
    assert!(reserved - before > 52 * most && reserved - before < 72 * most, "{}", reserved - before);
    for _ in 0..2 {
        for value in 0..most as u64 {
            timers.start(Ticks(1 + value), value).unwrap();
        }
        assert!(mapped() < reserved + (1 << 20), "{} bytes were added", mapped() - reserved);
        assert_eq!(timers.drain().count(), most);
    }
}

/// A timer that comes and goes adds nothing: 500,000 would be 20 MB, and 8 MB of values.
fn use_places_again() {
    let mut timers = Timers::new().unwrap();
    for value in 0..1000 {
        timers.start(Ticks(LAST.0 / 2), value).unwrap();
    }
    let before = mapped();
    for value in 0..500_000 {
        timers.start(Ticks(1), value).unwrap();
        let handle = timers.start(Ticks(2), value).unwrap();
        assert_eq!((timers.stop(handle), timers.take_due(Tick(value + 1)).count()), (Some(value), 1));
    }
    assert!(mapped() < before + (1 << 20), "{} bytes were added", mapped() - before);
}

/// What is dropped or replaced gives its memory back: 60 times 5 MB would be 300 MB.
fn free_what_is_dropped() {
    let before = mapped();
    let mut last = Timers::new().unwrap();
    for round in 0..60 {
        let mut timers = Timers::new().unwrap();
        timers.reserve(100_000).unwrap();
        timers.start(Ticks(1), round).unwrap();
        if round % 2 == 0 {
            last = timers; // and the one before is dropped
        }
    }
    assert_eq!(last.take(LAST).map(|timer| timer.value), Some(58));
    assert!(mapped() < before + (100 << 20), "{} bytes are left", mapped() - before);
}

#[test]
fn room_is_enough_and_is_given_back() {
    make_room();
    use_places_again();
    free_what_is_dropped();
}
