#![cfg_attr(feature = "std", doc = include_str!("../README.md"))]
#![cfg_attr(not(feature = "std"), doc = "Timers over hierarchical timing wheels, without std.")]
#![no_std]
#![warn(missing_debug_implementations, missing_docs)]
// SPDX-License-Identifier: MIT OR Apache-2.0
extern crate alloc;
#[cfg(feature = "std")]
extern crate std;

#[cfg(feature = "std")]
mod clock;
#[cfg(feature = "std")]
pub mod desk;
mod error;
mod ffi;
#[cfg(not(feature = "std"))]
mod memory;
mod table;
mod tick;
mod timers;
mod values;

#[cfg(feature = "std")]
pub use clock::Clock;
pub use error::{Error, Refused};
pub use table::*;
pub use tick::{Tick, Ticks};
pub use timers::{at_least, Counts, Handle, Iter, TakeDue, Timer, Timers};
pub use values::Drain;
