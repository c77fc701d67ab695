//! What is refused and what stands then, limits, and what comes at one tick. replay.rs has the clock.
// SPDX-License-Identifier: MIT OR Apache-2.0
use std::collections::HashSet;
use std::error;
use std::rc::Rc;
use std::thread;
use std::time::Duration;
use timers::{at_least, Error, Handle, Refused, Table, Tick, Ticks, Timers, LAST_OF_SMALL};

/// The tables, each with its last tick.
const TABLES: &[(Table, Tick)] = &[
    // made by tools/facts: tables in tests of Rust
    (Table::Wide, timers::LAST),
    (Table::Smooth, timers::LAST),
    (Table::Small, timers::LAST_OF_SMALL),
];

#[test]
fn a_clock_begins_no_later_than_its_last_tick() {
    for &(table, last) in TABLES {
        assert_eq!(Timers::<u8>::with_table(table, last).unwrap().now(), last);
        assert_eq!(Timers::<u8>::with_table(table, last + Ticks(1)).err(), Some(Error::TooLate));
    }
    assert_eq!((Timers::<u8>::new().unwrap().now(), Table::default()), (Tick(0), Table::Wide));
}

#[test]
fn a_refusal_changes_nothing_and_gives_the_value_back() {
    let mut timers = Timers::with_table(Table::Small, LAST_OF_SMALL - Ticks(9)).unwrap();
    let refused = |error, value| Err(Refused { error, value });
    assert_eq!(timers.start(Ticks(0), 1), refused(Error::ZeroInterval, 1));
    assert_eq!(timers.start(Ticks(10), 2), refused(Error::TooLate, 2));
    assert_eq!(timers.start_at(LAST_OF_SMALL + Ticks(1), 3), refused(Error::TooLate, 3));
    let mut handle = timers.start(Ticks(3), 4).unwrap();
    let started = handle;
    assert_eq!(timers.restart(handle, Ticks(0)), Err(Error::ZeroInterval));
    assert_eq!(timers.restart(handle, Ticks(10)), Err(Error::TooLate));
    assert_eq!(timers.restart_at(handle, Tick(u64::MAX)), Err(Error::TooLate));
    assert_eq!(timers.set_at(&mut handle, Tick(u64::MAX), 5).err(), Some(Refused { error: Error::TooLate, value: 5 }));
    assert_eq!(
        (handle, timers.len(), timers.get(handle), timers.deadline(handle)),
        (started, 1, Some(&4), Some(LAST_OF_SMALL - Ticks(6)))
    );
    assert_eq!(timers.reserve(usize::MAX), Err(Error::NoMemory));
    assert_eq!(timers.stop(handle), Some(4));
    for dead in [handle, Handle::default()] {
        assert_eq!((timers.stop(dead), timers.get(dead), timers.deadline(dead)), (None, None, None));
        assert_eq!(timers.get_mut(dead), None);
        assert_eq!(timers.restart(dead, Ticks(0)), Err(Error::NotPending));
        assert_eq!(timers.restart_at(dead, Tick(0)), Err(Error::NotPending));
        let mut unchanged = dead;
        assert_eq!(timers.set_at(&mut unchanged, Tick(u64::MAX), 6), Err(Refused { error: Error::TooLate, value: 6 }));
        assert_eq!(unchanged, dead);
    }
    assert_eq!((timers.wakeup(), timers.expire()), (None, None));
    assert!(timers.is_empty());
}

#[test]
fn the_work_of_a_timer_stops_another_of_its_tick_in_another_thread() {
    let mut timers = Timers::with_table(Table::Small, Tick(0)).unwrap();
    let values = thread::spawn(move || {
        let first = timers.start(Ticks(1), 10).unwrap();
        let second = timers.start(Ticks(1), 11).unwrap();
        let mut values = Vec::new();
        while let Some(timer) = timers.take(LAST_OF_SMALL) {
            assert_eq!((timer.serial, timers.stop(second)), (first.serial(), Some(11)));
            values.push(timer.value);
        }
        assert_eq!(timers.now(), LAST_OF_SMALL);
        values
    });
    assert_eq!(values.join().unwrap(), [10]);
}

/// An iterator that is dropped early has taken what it gave out, and no more.
#[test]
fn an_iterator_that_is_dropped_leaves_the_rest() {
    let mut timers = Timers::new().unwrap();
    for value in 0..300 {
        timers.start(Ticks(9), value).unwrap();
    }
    assert!(timers.take_due(Tick(9)).take(100).map(|timer| timer.value).eq(0..100));
    assert_eq!((timers.len(), timers.take_due(Tick(8)).count(), timers.len()), (200, 200, 0));
}

#[test]
fn intervals_are_rounded_up() {
    let (ms, us) = (Duration::from_millis, Duration::from_micros);
    assert_eq!((at_least(ms(5), ms(1)), at_least(us(4999), ms(1)), at_least(us(5001), ms(1))), (Ticks(6), Ticks(6), Ticks(7)));
    assert_eq!((at_least(ms(0), ms(1)), at_least(Duration::MAX, Duration::from_nanos(1))), (Ticks(1), Ticks(u64::MAX)));
    assert_eq!(Timers::new().unwrap().start(Ticks(u64::MAX), 1).map_err(Error::from), Err(Error::TooLate));
}

/// A value that is borrowed or stays in its thread is no obstacle to a box of the error alone.
#[test]
fn an_error_is_boxed_without_the_value() {
    fn start(name: &str) -> Result<Handle, Box<dyn error::Error + Send + Sync>> {
        Ok(Timers::new()?.start(Ticks(0), (Rc::new(1), name)).map_err(Error::from)?)
    }
    assert_eq!(start(&String::from("tea")).unwrap_err().downcast_ref(), Some(&Error::ZeroInterval));
}

/// As the README has it: a late loop runs each tick of the grid, or only the last of those that have passed.
#[test]
fn a_period_keeps_its_grid_after_a_stall() {
    let mut timers = Timers::new().unwrap();
    timers.start_at(Tick(10), "all").unwrap();
    timers.start_at(Tick(10), "last").unwrap();
    let mut came = Vec::new();
    for due in [9, 10, 45, 50].map(Tick) {
        while let Some(timer) = timers.take(due) {
            came.push((due.0, timer.deadline.0, timer.value));
            let periods = if timer.value == "all" { 1 } else { (due - timer.deadline).0 / 10 + 1 };
            timers.start_at(timer.deadline + Ticks(periods * 10), timer.value).unwrap();
        }
    }
    let late = [(45, 20, "all"), (45, 20, "last"), (45, 30, "all"), (45, 40, "all")];
    assert_eq!(came[..2], [(10, 10, "all"), (10, 10, "last")]);
    assert_eq!(came[2..6], late);
    assert_eq!(came[6..], [(50, 50, "last"), (50, 50, "all")]);
}

#[test]
fn errors_and_handles_are_as_std_expects() {
    fn boxed() -> Result<Handle, Box<dyn error::Error + Send + Sync>> {
        Ok(Timers::new()?.start(Ticks(0), "tea")?)
    }
    fn plain() -> Result<Handle, Error> {
        Ok(Timers::new()?.start(Ticks(0), "tea")?)
    }
    let refused = boxed().unwrap_err();
    assert_eq!((refused.to_string(), plain()), ("the timer was not started".to_string(), Err(Error::ZeroInterval)));
    let reason = refused.source().unwrap();
    assert_eq!((reason.to_string(), reason.downcast_ref()), ("the interval is 0".to_string(), Some(&Error::ZeroInterval)));
    assert_eq!(format!("{:?}, {}", Error::Due, Error::Other(99)), "Due, status 99");
    let mut timers = Timers::new().unwrap();
    let refused = timers.start(Ticks(0), thread::current()).unwrap_err();
    assert_eq!(format!("{refused:?} {timers:?}"), "Refused { error: ZeroInterval, .. } Timers { now: Tick(0), len: 0, .. }");
    let handle = timers.start(Ticks(1), thread::current()).unwrap();
    assert!(HashSet::from([handle, Handle::default()]).contains(&handle) && handle != Handle::default());
    assert_eq!((handle.serial(), Handle::default().serial()), (1, 0));
}
