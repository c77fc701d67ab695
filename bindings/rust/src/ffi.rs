//! What timers.h declares.
// SPDX-License-Identifier: MIT OR Apache-2.0
use crate::{Counts, Handle};
use core::ffi::c_uint;

/// `struct timers`. It may be moved. It begins as zeros, and only the library writes it.
#[repr(C)]
pub(crate) struct Held {
    at: u64,
    mark: u64,
    last_serial: u64,
}

impl Held {
    pub(crate) const INIT: Held = Held { at: 0, mark: 0, last_serial: 0 };
}

/// `struct timers_expired`.
#[repr(C)]
#[derive(Clone, Copy, Default)]
pub(crate) struct Expired {
    pub(crate) deadline: u64,
    pub(crate) serial: u64,
    pub(crate) action: u64,
}

// All of them: not each is called here.
#[allow(dead_code)]
#[rustfmt::skip]
unsafe extern "C" {
    // made by tools/facts: calls
    pub(crate) fn timers_new(t: *mut Held, table: u32, first_tick: u64) -> c_uint;
    pub(crate) fn timers_free(t: *mut Held);
    pub(crate) fn timers_clear(t: *mut Held);
    pub(crate) fn timers_reserve(t: *mut Held, most: usize) -> c_uint;
    pub(crate) fn timers_start(t: *mut Held, interval: u64, action: u64, handle: *mut Handle) -> c_uint;
    pub(crate) fn timers_start_at(t: *mut Held, deadline: u64, action: u64, handle: *mut Handle) -> c_uint;
    pub(crate) fn timers_restart(t: *mut Held, handle: Handle, interval: u64, action: u64, restarted: *mut Handle) -> c_uint;
    pub(crate) fn timers_restart_at(t: *mut Held, handle: Handle, deadline: u64, action: u64, restarted: *mut Handle) -> c_uint;
    pub(crate) fn timers_set_at(t: *mut Held, handle: *mut Handle, deadline: u64, action: u64) -> c_uint;
    pub(crate) fn timers_stop(t: *mut Held, handle: Handle, action: *mut u64) -> c_uint;
    pub(crate) fn timers_look(t: *const Held, handle: Handle, out: *mut Expired) -> c_uint;
    pub(crate) fn timers_each(t: *const Held, cursor: *mut u64, handle: *mut Handle, out: *mut Expired) -> bool;
    pub(crate) fn timers_tick(t: *mut Held) -> c_uint;
    pub(crate) fn timers_advance(t: *mut Held, most: u64, passed: *mut u64) -> c_uint;
    pub(crate) fn timers_advance_to(t: *mut Held, tick: u64) -> c_uint;
    pub(crate) fn timers_take(t: *mut Held, tick: u64, out: *mut Expired) -> bool;
    pub(crate) fn timers_expire(t: *mut Held, out: *mut Expired) -> bool;
    pub(crate) fn timers_expire_batch(t: *mut Held, out: *mut Expired, room: usize) -> usize;
    pub(crate) fn timers_has_due(t: *const Held) -> bool;
    pub(crate) fn timers_now(t: *const Held) -> u64;
    pub(crate) fn timers_len(t: *const Held) -> usize;
    pub(crate) fn timers_wakeup(t: *const Held) -> u64;
    pub(crate) fn timers_counts(t: *const Held, counts: *mut Counts) -> c_uint;
}
