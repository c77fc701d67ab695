//! A clock of real time, in ticks.
// SPDX-License-Identifier: MIT OR Apache-2.0
use crate::Tick;
use std::time::{Duration, Instant};

const NANOS_OF_SECOND: u128 = 1_000_000_000;

/// A clock of real time in ticks, for the deadlines of [`Timers`](crate::Timers). Tick `n` begins `n` lengths after its
/// start.
///
/// ```
/// use std::time::Duration;
/// use timers::{Clock, Timers};
///
/// let clock = Clock::new(Duration::from_millis(1));
/// let mut timers = Timers::new()?;
/// timers.start_at(clock.after(Duration::from_millis(2)), "tea")?;
/// while let Some(tick) = timers.wakeup() {
///     std::thread::sleep(clock.until(tick));
///     for timer in timers.take_due(clock.now()) {
///         println!("{}", timer.value);
///     }
/// }
/// # Ok::<(), timers::Error>(())
/// ```
///
/// A timer that is started for [`after`](Clock::after) or [`at`](Clock::at), and taken by [`now`](Clock::now), never comes
/// early: all three are rounded towards late. It counts from the call and not from the tick up to which the timers were
/// advanced. A time that is too far away for a tick is `Tick(u64::MAX)`, which a start refuses as
/// [`TooLate`](crate::Error::TooLate).
#[derive(Clone, Copy, Debug, Eq, Hash, PartialEq)]
pub struct Clock {
    start: Instant,
    /// The nanoseconds of a tick, 1 or more.
    tick: u128,
}

impl Clock {
    /// A clock that starts now, with ticks of this length.
    ///
    /// # Panics
    ///
    /// If a tick has no length.
    #[must_use]
    pub fn new(tick: Duration) -> Clock {
        Clock::since(Instant::now(), tick)
    }

    /// A clock whose tick 0 begins at `start`.
    ///
    /// # Panics
    ///
    /// If a tick has no length.
    #[must_use]
    pub fn since(start: Instant, tick: Duration) -> Clock {
        assert!(!tick.is_zero(), "a tick has no length");
        Clock { start, tick: tick.as_nanos() }
    }

    /// The last tick that has begun; 0 before the start.
    #[must_use]
    pub fn now(&self) -> Tick {
        let passed = Instant::now().saturating_duration_since(self.start).as_nanos();
        Tick(u64::try_from(passed / self.tick).unwrap_or(u64::MAX))
    }

    /// The first tick that begins no earlier than `time` from now: the deadline of a time-out.
    #[must_use]
    pub fn after(&self, time: Duration) -> Tick {
        Instant::now().checked_add(time).map_or(Tick(u64::MAX), |instant| self.at(instant))
    }

    /// The first tick that begins no earlier than `instant`; 0 before the start.
    #[must_use]
    pub fn at(&self, instant: Instant) -> Tick {
        let passed = instant.saturating_duration_since(self.start).as_nanos();
        Tick(u64::try_from(passed.div_ceil(self.tick)).unwrap_or(u64::MAX))
    }

    /// When a tick begins; `None` if that is later than an `Instant` can be.
    #[must_use]
    pub fn instant(&self, tick: Tick) -> Option<Instant> {
        self.start.checked_add(self.begins(tick)?)
    }

    /// How long it is until a tick begins: how long to sleep, or to wait for input. Zero if it has begun, which the time-outs
    /// of sockets don't take, and [`Duration::MAX`] if that is later than an `Instant` can be.
    #[must_use]
    pub fn until(&self, tick: Tick) -> Duration {
        self.instant(tick).map_or(Duration::MAX, |instant| instant.saturating_duration_since(Instant::now()))
    }

    /// How long after the start a tick begins.
    fn begins(&self, tick: Tick) -> Option<Duration> {
        let nanos = self.tick.checked_mul(u128::from(tick.0))?;
        let seconds = u64::try_from(nanos / NANOS_OF_SECOND).ok()?;
        Some(Duration::new(seconds, (nanos % NANOS_OF_SECOND) as u32))
    }
}
