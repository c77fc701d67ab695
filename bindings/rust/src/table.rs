//! The tables of wheels.
// SPDX-License-Identifier: MIT OR Apache-2.0
use crate::Tick;

/// The slots of the wheels, and when their timers move.
#[derive(Clone, Copy, Debug, Default, Eq, Hash, PartialEq)]
pub enum Table {
    // made by tools/facts: tables in Rust
    /// Ten wheels of 64 slots. They take some 6 KB, and are for all but the cases below. The last tick is [`LAST`].
    #[default]
    Wide = 0,
    /// As `Wide`, with twice the slots, and a few moves at a tick. They take some 11 KB, and are for a loop that must
    /// not pause, with some 100,000 timers or more: no tick moves all timers of a bucket. A tick moves at most
    /// 2n/63 + 18, where n is the most that were held since `new` or `clear`. A start, stop or restart takes longer.
    /// The last tick is [`LAST`].
    Smooth = 1,
    /// Six wheels of 16 slots. They take some 1.5 KB, and are for machines with little memory. The last tick is
    /// [`LAST_OF_SMALL`].
    Small = 2,
}

// made by tools/facts: last ticks in Rust
/// The last tick of [`Table::Wide`] and [`Table::Smooth`]: 2^60 - 1.
pub const LAST: Tick = Tick(1_152_921_504_606_846_975);
/// The last tick of [`Table::Small`]: 2^24 - 1, or 4.6 hours of milliseconds.
pub const LAST_OF_SMALL: Tick = Tick(16_777_215);
