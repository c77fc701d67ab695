//! A clock's ticks and times. No test waits for one.
// SPDX-License-Identifier: MIT OR Apache-2.0
#![cfg(feature = "std")]
use std::panic::catch_unwind;
use std::time::{Duration, Instant};
use timers::{Clock, Tick, Ticks, Timers, LAST};

const SECOND: Duration = Duration::from_secs(1);

#[test]
fn a_tick_is_the_first_that_begins_no_earlier() {
    let start = Instant::now();
    let clock = Clock::since(start, Duration::from_millis(10));
    let at = |micros| clock.at(start + Duration::from_micros(micros));
    assert_eq!([at(0), at(1), at(9_999), at(10_000), at(10_001), at(25_000)], [0, 1, 1, 1, 2, 3].map(Tick));
    assert_eq!(start.checked_sub(SECOND).map_or(Tick(0), |earlier| clock.at(earlier)), Tick(0));
    assert_eq!(clock.instant(Tick(3)), Some(start + Duration::from_millis(30)));
}

#[test]
fn ticks_and_instants_agree() {
    let start = Instant::now();
    for tick in [1, 3, 1_000, 999_999_999, 1_000_000_001, 60_000_000_000].map(Duration::from_nanos) {
        let clock = Clock::since(start, tick);
        for number in [0, 1, 2, 59, 1_000_000, 4_000_000_000 / tick.as_secs().max(1)] {
            let number = Tick(number);
            let instant = clock.instant(number).unwrap();
            assert_eq!((clock.at(instant), clock.at(instant + Duration::from_nanos(1))), (number, number + Ticks(1)));
        }
    }
}

/// What is asked for lies between looks at the clock before and after.
#[test]
fn after_counts_from_the_call() {
    for tick in [1, 7, 60_000].map(Duration::from_millis) {
        let clock = Clock::new(tick);
        let before = Instant::now();
        let (tick_before, deadline, now) = (clock.now(), clock.after(SECOND), clock.now());
        let after = Instant::now();
        assert!(clock.at(before + SECOND) <= deadline && deadline <= clock.at(after + SECOND));
        assert!(tick_before <= now && clock.instant(now).unwrap() <= after);
        assert!(clock.instant(deadline).unwrap() >= before + SECOND); // no timer comes early
        assert!(clock.until(deadline + Ticks(1_000_000_000)) >= SECOND);
    }
}

#[test]
fn what_has_begun_is_not_waited_for() {
    let clock = Clock::since(Instant::now(), Duration::from_nanos(1));
    assert_eq!((clock.until(Tick(0)), clock.until(clock.now())), (Duration::ZERO, Duration::ZERO));
    assert!(Clock::since(Instant::now(), SECOND).until(Tick(3600)) > SECOND);
}

#[test]
fn a_clock_that_starts_later_is_at_its_tick_0() {
    let clock = Clock::since(Instant::now() + 3600 * SECOND, SECOND);
    assert_eq!([clock.now(), clock.after(Duration::ZERO), clock.at(Instant::now())], [Tick(0); 3]);
    assert!(clock.until(Tick(0)) > SECOND && clock.after(10 * SECOND) == Tick(0) && clock.after(7200 * SECOND) >= Tick(3600));
}

#[test]
fn a_time_too_far_away_is_refused_by_a_start() {
    let clock = Clock::new(Duration::from_nanos(1));
    assert_eq!((clock.after(Duration::MAX), Clock::new(Duration::MAX).instant(Tick(u64::MAX))), (Tick(u64::MAX), None));
    assert!(Clock::new(SECOND).until(Tick(u64::MAX)) > Duration::from_secs(LAST.0));
    assert_eq!(Clock::new(Duration::MAX).after(SECOND), Tick(1));
    assert!(Timers::new().unwrap().start_at(clock.after(Duration::MAX), "never").is_err());
}

#[test]
fn a_tick_has_a_length() {
    assert!(catch_unwind(|| Clock::new(Duration::ZERO)).is_err());
}
