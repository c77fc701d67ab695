//! When something is, and how long something takes, in ticks.
// SPDX-License-Identifier: MIT OR Apache-2.0
use core::fmt;
use core::ops::{Add, Sub};

/// A tick of a clock: a deadline, or the present tick. An interval is of [`Ticks`], and neither is taken for the other.
///
/// ```
/// use timers::{Tick, Ticks};
///
/// let deadline = Tick(100) + Ticks(20);
/// assert_eq!((deadline, deadline - Tick(100), deadline - Ticks(5)), (Tick(120), Ticks(20), Tick(115)));
/// assert_eq!((Tick(100) - deadline, Tick(2) - Ticks(3), Tick(u64::MAX) + Ticks(1)), (Ticks(0), Tick(0), Tick(u64::MAX)));
/// assert_eq!(format!("{} {:4}", Tick(100), Ticks(20)), "100   20");
/// ```
///
/// A sum above `u64::MAX` is that, which is after the last tick of each table: a start refuses it as
/// [`TooLate`](crate::Error::TooLate). A difference below 0 is 0.
#[derive(Clone, Copy, Debug, Default, Eq, Hash, Ord, PartialEq, PartialOrd)]
pub struct Tick(pub u64);

/// How many ticks: an interval. A deadline is a [`Tick`].
#[derive(Clone, Copy, Debug, Default, Eq, Hash, Ord, PartialEq, PartialOrd)]
pub struct Ticks(pub u64);

impl Tick {
    /// The tick that C returned; `None` if that says that there is none.
    pub(crate) fn known(tick: u64) -> Option<Tick> {
        Some(Tick(tick)).filter(|&tick| tick != Tick(u64::MAX))
    }
}

impl Add<Ticks> for Tick {
    type Output = Tick;

    fn add(self, ticks: Ticks) -> Tick {
        Tick(self.0.saturating_add(ticks.0))
    }
}

impl Sub<Ticks> for Tick {
    type Output = Tick;

    fn sub(self, ticks: Ticks) -> Tick {
        Tick(self.0.saturating_sub(ticks.0))
    }
}

impl Sub for Tick {
    type Output = Ticks;

    fn sub(self, earlier: Tick) -> Ticks {
        Ticks(self.0.saturating_sub(earlier.0))
    }
}

impl fmt::Display for Tick {
    fn fmt(&self, f: &mut fmt::Formatter<'_>) -> fmt::Result {
        self.0.fmt(f)
    }
}

impl fmt::Display for Ticks {
    fn fmt(&self, f: &mut fmt::Formatter<'_>) -> fmt::Result {
        self.0.fmt(f)
    }
}
