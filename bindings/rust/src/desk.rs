//! A desk: one thread keeps the timers of up to [`CLIENTS`] others, which send it requests and receive words, without a lock.
//!
//! It is for threads of which none may wait for another. [`Timers`](crate::Timers) of each thread's own are faster.
//!
//! A [`Desk`] is the owner's, and stays in the thread that made it: so it is plain which thread owns it. A [`Line`] is a
//! client's end: it can be sent to the client's thread, and not be shared by two. Both are freed when they are dropped,
//! in any order. Neither wakes the other up: a thread that has nothing to do sleeps until the other unparks it, or asks
//! again after a while.
//!
//! A call that is refused returns an [`Error`], and has changed nothing unless its text says so. Errors are listed in the
//! order in which they are tested.
//!
//! ```
//! use timers::desk::{Config, Desk, Error, Word};
//! use timers::{Tick, Ticks};
//!
//! let (mut desk, mut lines) = Desk::new(1, Config::new(10, 2, 2))?; // one client, which has at most 2 timers and 2 requests
//! let mut line = lines.remove(0); // sent to the client's thread
//! line.start(Ticks(5), 7)?;
//! desk.serve_all(64)?;
//! desk.advance_to(Tick(5))?;
//! desk.flush_all();
//! assert!(matches!(line.receive(), Some(Word::Started { number: 1, .. })));
//! assert!(matches!(line.receive(), Some(Word::Expired(timer)) if timer.action == 7 && timer.deadline == Tick(5)));
//! # Ok::<(), Error>(())
//! ```
//!
//! Who may have which:
//!
//! ```compile_fail,E0277
//! fn is_sent<S: Send>() {}
//! is_sent::<timers::desk::Desk>();
//! ```
//! ```compile_fail,E0277
//! fn is_shared<S: Sync>() {}
//! is_shared::<timers::desk::Line>();
//! ```
//! ```
//! fn is_sent<S: Send>() {}
//! is_sent::<timers::desk::Line>();
//! ```
//!
//! `timers_desk_tick`, `timers_desk_settle` and `timers_desk_end_all` of the C library are not wrapped.

// SPDX-License-Identifier: MIT OR Apache-2.0
use crate::{Table, Tick, Ticks};
use alloc::vec::Vec;
use core::cell::Cell;
use core::error;
use core::ffi::c_uint;
use core::fmt;
use core::marker::PhantomData;
use core::mem::MaybeUninit;
use core::sync::atomic::{AtomicU64, Ordering};

const OK: c_uint = 0;
const IDLE: c_uint = 20;
// made by tools/facts: kinds in Rust
const STARTED: c_uint = 1;
const RESTARTED: c_uint = 2;
const STOPPED: c_uint = 3;
const REFUSED: c_uint = 4;
const EXPIRED: c_uint = 6;
const RETURNED: c_uint = 7;
// by hand
/// The most clients of a desk.
pub const CLIENTS: usize = 64;

crate::error::errors! {
    /// Why a call was refused, or a request.
    #[derive(Clone, Copy, Debug, Eq, PartialEq)]
    // made by tools/facts: errors of desks
    1 NotOpen "no desk or no line is held",
    2 Open "a desk or a line is held already",
    4 NoMemory "out of memory",
    6 NotPending "no timer of the client has this handle",
    7 ZeroInterval "the interval is 0",
    8 TooLate "after the last tick",
    9 SerialsSpent "every serial was used",
    10 ClockEnd "the clock is at its last tick",
    11 Closed "the desk was closed",
    12 Capacity "as many timers are pending as may be",
    13 NoClient "no such client",
    14 NumbersSpent "every number of the client was used",
    17 LineFull "the line is full",
    18 Finished "the line has finished",
    19 OutOfRange "a number of clients, room or configuration is out of range",
    21 NoRoom "the outbox has no room",
    22 OtherLine "the line is another client's, or of another desk",
    23 NotFinished "the line has not finished",
    24 Left "something of the client is left",
    25 NotFreed "the client's line was not freed",
    // by hand
}

fn done<T>(status: c_uint, value: T) -> Result<T, Error> {
    if status == OK {
        Ok(value)
    } else {
        Err(Error::named(status))
    }
}

/// Whether a serve has done a request.
fn served(status: c_uint) -> Result<bool, Error> {
    if status == IDLE {
        Ok(false)
    } else {
        done(status, true)
    }
}

/// What a desk is made with. [`Config::new`] gives room enough for clients that keep to its numbers.
#[derive(Clone, Copy, Debug, Eq, PartialEq)]
#[non_exhaustive]
pub struct Config {
    /// The tick at which the clock begins.
    pub first_tick: Tick,
    /// The most timers that may be pending at a time, of all clients.
    pub capacity: u64,
    /// How many words each client's outbox has room for.
    pub room: u64,
    /// How many requests, and how many words, a line has room for.
    pub line: u64,
    /// The slots of the wheels.
    pub table: Table,
}

impl Config {
    /// For clients that keep at most `timers` timers each, and have at most `requests` requests without an answer: none
    /// of their requests is ever held back for want of room. Numbers that are out of a desk's ranges are refused by
    /// [`Desk::new`].
    #[must_use]
    pub fn new(capacity: u64, timers: u64, requests: u64) -> Config {
        let room = timers.saturating_add(requests).saturating_add(1);
        Config { first_tick: Tick(0), capacity, room, line: requests, table: Table::Wide }
    }
}

/// The name of a client's timer.
#[repr(C)]
#[derive(Clone, Copy, Debug, Default, Eq, Hash, PartialEq)]
pub struct Handle {
    place: u64,
    serial: u64,
}

impl Handle {
    /// Counts the starts and restarts of the desk, from 1.
    #[must_use]
    pub fn serial(self) -> u64 {
        self.serial
    }
}

/// A timer that was handed out.
#[derive(Clone, Copy, Debug, Eq, PartialEq)]
pub struct Timer {
    /// The number of the request that started it.
    pub number: u64,
    /// The serial of its handle.
    pub serial: u64,
    /// The tick at which it expired, or would have.
    pub deadline: Tick,
    /// The action that its request had.
    pub action: u64,
}

/// A word to a client. Each request has one, in their order, and each timer that ran to its end one more.
#[derive(Clone, Copy, Debug, Eq, PartialEq)]
#[non_exhaustive]
pub enum Word {
    /// The timer of a request has started.
    Started {
        /// The number of the request.
        number: u64,
        /// The handle of the timer.
        handle: Handle,
        /// The tick at which it expires.
        deadline: Tick,
        /// The action that the request had.
        action: u64,
    },
    /// The timer of a request has started in place of another.
    Restarted {
        /// The number of the request.
        number: u64,
        /// The handle of the new timer.
        handle: Handle,
        /// The tick at which it expires.
        deadline: Tick,
        /// The action that the request had.
        action: u64,
        /// The serial of the timer that it replaced.
        old: u64,
    },
    /// A timer was stopped.
    Stopped {
        /// The number of the request.
        number: u64,
        /// The serial of the timer.
        serial: u64,
    },
    /// A request was taken and refused. Nothing else changed.
    Refused {
        /// The number of the request.
        number: u64,
        /// The action that the request had; 0 of a stop.
        action: u64,
        /// Why it was refused.
        reason: Error,
    },
    /// A request was not taken.
    NotTaken {
        /// The number of the request.
        number: u64,
        /// The action that the request had; 0 of a stop.
        action: u64,
        /// Why it was not taken.
        reason: Error,
    },
    /// A timer has expired.
    Expired(Timer),
    /// The desk was closed, and returns a timer.
    Returned(Timer),
}

#[repr(C)]
struct RawWord {
    kind: u32,
    reason: u32,
    number: u64,
    handle: Handle,
    deadline: u64,
    action: u64,
    other: u64,
}

impl RawWord {
    fn word(&self) -> Word {
        let RawWord { number, handle, action, .. } = *self;
        let deadline = Tick(self.deadline);
        let timer = Timer { number, serial: handle.serial, deadline, action };
        match self.kind {
            STARTED => Word::Started { number, handle, deadline, action },
            RESTARTED => Word::Restarted { number, handle, deadline, action, old: self.other },
            STOPPED => Word::Stopped { number, serial: handle.serial },
            REFUSED => Word::Refused { number, action, reason: Error::named(self.reason) },
            EXPIRED => Word::Expired(timer),
            RETURNED => Word::Returned(timer),
            _ => Word::NotTaken { number, action, reason: Error::named(self.reason) },
        }
    }
}

#[repr(C)]
struct RawConfig {
    size: u64,
    first_tick: u64,
    capacity: u64,
    room: u64,
    line: u64,
    table: u32,
    unnamed: u32,
}

/// `struct timers_desk`. It may be moved.
#[repr(C)]
struct RawDesk {
    at: u64,
    mark: u64,
    lives: u64,
}

/// `struct timers_line`. It may be moved.
#[repr(C)]
struct RawLine {
    at: u64,
    mark: u64,
    client: u64,
    life: u64,
}

impl RawLine {
    fn none() -> RawLine {
        RawLine { at: 0, mark: 0, client: 0, life: 0 }
    }
}

// All of them: not each is called here.
#[allow(dead_code)]
#[rustfmt::skip]
unsafe extern "C" {
    // made by tools/facts: calls of a desk
    fn timers_desk_new(d: *mut RawDesk, lines: *mut RawLine, clients: usize, config: *const RawConfig) -> c_uint;
    fn timers_desk_free(d: *mut RawDesk);
    fn timers_desk_serve(d: *mut RawDesk, client: usize) -> c_uint;
    fn timers_desk_serve_all(d: *mut RawDesk, most: u64) -> c_uint;
    fn timers_desk_flush_all(d: *mut RawDesk) -> bool;
    fn timers_desk_flush(d: *mut RawDesk, client: usize) -> usize;
    fn timers_desk_tick(d: *mut RawDesk) -> c_uint;
    fn timers_desk_advance(d: *mut RawDesk, most: u64, passed: *mut u64) -> c_uint;
    fn timers_desk_close(d: *mut RawDesk, returned: *mut u64) -> c_uint;
    fn timers_desk_settle(d: *mut RawDesk, client: usize, line: *mut RawLine, standing: *mut u64) -> c_uint;
    fn timers_desk_end(d: *mut RawDesk, client: usize, line: *mut RawLine, unread: *mut u64) -> c_uint;
    fn timers_desk_end_all(d: *mut RawDesk, lines: *mut RawLine, clients: usize, client: *mut u64) -> c_uint;
    fn timers_desk_stop_pending(d: *mut RawDesk, client: usize, stopped: *mut u64) -> c_uint;
    fn timers_desk_open(d: *mut RawDesk, client: usize, line: *mut RawLine, room: usize) -> c_uint;
    fn timers_desk_reserve(d: *mut RawDesk) -> c_uint;
    fn timers_desk_now(d: *const RawDesk) -> u64;
    fn timers_desk_len(d: *const RawDesk) -> usize;
    fn timers_desk_pending(d: *const RawDesk, client: usize) -> usize;
    fn timers_desk_wakeup(d: *const RawDesk) -> u64;
    fn timers_desk_next(d: *const RawDesk) -> u64;
    fn timers_desk_line_freed(d: *mut RawDesk, client: usize) -> bool;
    fn timers_desk_outbox(d: *const RawDesk, client: usize) -> usize;
    fn timers_line_start(line: *mut RawLine, interval: u64, action: u64, number: *mut u64) -> c_uint;
    fn timers_line_start_at(line: *mut RawLine, deadline: u64, action: u64, number: *mut u64) -> c_uint;
    fn timers_line_stop(line: *mut RawLine, handle: Handle, number: *mut u64) -> c_uint;
    fn timers_line_restart(line: *mut RawLine, handle: Handle, interval: u64, action: u64, number: *mut u64) -> c_uint;
    fn timers_line_restart_at(line: *mut RawLine, handle: Handle, deadline: u64, action: u64, number: *mut u64) -> c_uint;
    fn timers_line_receive(line: *mut RawLine, word: *mut RawWord) -> bool;
    fn timers_line_finish(line: *mut RawLine) -> c_uint;
    fn timers_line_ended(line: *const RawLine) -> bool;
    fn timers_line_abandoned(line: *mut RawLine) -> bool;
    fn timers_line_free(line: *mut RawLine);
}

// SAFETY, of each `unsafe` below: this keeps the rules of the header. A `RawDesk` and a `RawLine` begin as the header says
// and are private, so only the library writes them, and what they own has one owner. Each pointer is to an object of this
// call alone. `&mut` and the missing `Sync` make calls come one at a time.

/// How many desks were made.
static DESKS: AtomicU64 = AtomicU64::new(0);

/// The owner's desk. It is neither sent to another thread nor shared.
pub struct Desk {
    held: RawDesk,
    clients: usize,
    alone: PhantomData<*mut ()>,
}

/// A client's end of its line. It can be sent to another thread, and not be shared by two.
pub struct Line {
    held: RawLine,
    /// Nothing of a line belongs to a thread: one at a time uses it, which may change (rule 4 of the header).
    alone: PhantomData<Cell<()>>,
}

impl Line {
    fn of(held: RawLine) -> Line {
        Line { held, alone: PhantomData }
    }
}

impl Desk {
    /// A desk with `clients` clients, 1 to [`CLIENTS`], and the end of each.
    ///
    /// # Errors
    /// `OutOfRange` if a number of the configuration, or of clients, is out of its range; `NoMemory`.
    pub fn new(clients: usize, config: Config) -> Result<(Desk, Vec<Line>), Error> {
        // The library looks at all lines before it refuses so many.
        if clients > CLIENTS {
            return Err(Error::OutOfRange);
        }
        let Config { first_tick, capacity, room, line, table } = config;
        let (size, table) = (core::mem::size_of::<RawConfig>() as u64, table as u32);
        let raw = RawConfig { size, first_tick: first_tick.0, capacity, room, line, table, unnamed: 0 };
        // Each desk counts from another number, so that a line of another desk is refused.
        let lives = DESKS.fetch_add(1, Ordering::Relaxed);
        let mut desk = Desk { held: RawDesk { at: 0, mark: 0, lives }, clients, alone: PhantomData };
        let mut lines: Vec<RawLine> = (0..clients).map(|_| RawLine::none()).collect();
        let status = unsafe { timers_desk_new(&mut desk.held, lines.as_mut_ptr(), clients, &raw) };
        done(status, ())?;
        Ok((desk, lines.into_iter().map(Line::of).collect()))
    }

    /// How many clients there are.
    #[must_use]
    pub fn clients(&self) -> usize {
        self.clients
    }

    /// Serves a client once, and returns whether it had a request. The answer is then in its outbox.
    ///
    /// # Errors
    /// `NoClient`; `NoRoom` if its outbox has no room for more words, also if it has no request. With `NoMemory` its
    /// request is held, and tried first at the next serve.
    pub fn serve(&mut self, client: usize) -> Result<bool, Error> {
        served(unsafe { timers_desk_serve(&mut self.held, client) })
    }

    /// Serves each client up to `most` times, and returns whether a request was done.
    ///
    /// # Errors
    /// With `NoMemory` a request of at least one client is held. Requests of others may have been done.
    pub fn serve_all(&mut self, most: u64) -> Result<bool, Error> {
        served(unsafe { timers_desk_serve_all(&mut self.held, most) })
    }

    /// Moves a client's words into its line, and returns how many have left its outbox.
    pub fn flush(&mut self, client: usize) -> usize {
        unsafe { timers_desk_flush(&mut self.held, client) }
    }

    /// The same for all clients: whether a word has left its outbox.
    pub fn flush_all(&mut self) -> bool {
        unsafe { timers_desk_flush_all(&mut self.held) }
    }

    /// Passes at most `most` ticks, up to the first at which a timer expires, and returns how many. Does not allocate.
    ///
    /// # Errors
    /// `Closed`; `ClockEnd`. Neither if `most` is `Ticks(0)`.
    pub fn advance(&mut self, most: Ticks) -> Result<Ticks, Error> {
        let mut passed = 0;
        let status = unsafe { timers_desk_advance(&mut self.held, most.0, &mut passed) };
        done(status, Ticks(passed))
    }

    /// Passes the ticks up to this one, also those at which timers expire. Does nothing if it has passed.
    ///
    /// # Errors
    /// `Closed`. With `ClockEnd` the ticks up to the last one of the clock have passed.
    pub fn advance_to(&mut self, tick: Tick) -> Result<(), Error> {
        while self.now() < tick {
            self.advance(tick - self.now())?;
        }
        Ok(())
    }

    /// Closes the desk, and returns how many timers were returned. From then on each request is answered by
    /// `Word::NotTaken`.
    ///
    /// # Errors
    /// `Closed`; `NoMemory`, but never after [`Desk::reserve`] has succeeded.
    pub fn close(&mut self) -> Result<u64, Error> {
        let mut returned = 0;
        let status = unsafe { timers_desk_close(&mut self.held, &mut returned) };
        done(status, returned)
    }

    /// Ends the words of a client that has finished, and returns how many it has still to receive.
    ///
    /// # Errors
    /// `NoClient`; `OtherLine` if it is a line of another client or of another desk; `NotFinished`; `Left` if a request
    /// is held or stands in the line, a word waits in the outbox, or a timer is pending.
    pub fn end(&mut self, client: usize, line: &mut Line) -> Result<u64, Error> {
        let mut unread = 0;
        let status = unsafe { timers_desk_end(&mut self.held, client, &mut line.held, &mut unread) };
        done(status, unread)
    }

    /// Stops all pending timers of a client whose line was dropped, and returns how many. Each stop takes a number of
    /// the client. Does not allocate.
    ///
    /// # Errors
    /// `NoClient`; `NotFreed`; `Closed`; `NumbersSpent` if fewer numbers are left than timers are pending.
    pub fn stop_pending(&mut self, client: usize) -> Result<u64, Error> {
        let mut stopped = 0;
        let status = unsafe { timers_desk_stop_pending(&mut self.held, client, &mut stopped) };
        done(status, stopped)
    }

    /// Opens a line for another client, under the number of one whose line was dropped and of which nothing is left. It
    /// has room for `room` requests and as many words, 1 to 65,536.
    ///
    /// # Errors
    /// `NoClient`; `OutOfRange`; `NotFreed`; `Left`; `NumbersSpent`; `NoMemory`.
    pub fn open(&mut self, client: usize, room: usize) -> Result<Line, Error> {
        let mut line = RawLine::none();
        let status = unsafe { timers_desk_open(&mut self.held, client, &mut line, room) };
        done(status, line).map(Line::of)
    }

    /// Makes room for as many timers as may be pending: no serve and no close runs out of memory from then on.
    ///
    /// # Errors
    /// `NoMemory`: the desk may keep a part of the memory.
    pub fn reserve(&mut self) -> Result<(), Error> {
        done(unsafe { timers_desk_reserve(&mut self.held) }, ())
    }

    /// The present tick.
    #[must_use]
    pub fn now(&self) -> Tick {
        Tick(unsafe { timers_desk_now(&self.held) })
    }

    /// How many timers are pending.
    #[must_use]
    pub fn pending(&self) -> usize {
        unsafe { timers_desk_len(&self.held) }
    }

    /// How many timers of a client are pending.
    #[must_use]
    pub fn pending_of(&self, client: usize) -> usize {
        unsafe { timers_desk_pending(&self.held, client) }
    }

    /// How many words wait for a client.
    #[must_use]
    pub fn outbox(&self, client: usize) -> usize {
        unsafe { timers_desk_outbox(&self.held, client) }
    }

    /// A tick before which nothing expires, at most the first deadline, or None if nothing is pending.
    #[must_use]
    pub fn wakeup(&self) -> Option<Tick> {
        Tick::known(unsafe { timers_desk_wakeup(&self.held) })
    }

    /// The first deadline, or None if nothing is pending.
    #[must_use]
    pub fn next_deadline(&self) -> Option<Tick> {
        Tick::known(unsafe { timers_desk_next(&self.held) })
    }

    /// Whether a client's line was dropped.
    #[must_use]
    pub fn line_freed(&mut self, client: usize) -> bool {
        unsafe { timers_desk_line_freed(&mut self.held, client) }
    }
}

impl fmt::Debug for Desk {
    fn fmt(&self, f: &mut fmt::Formatter<'_>) -> fmt::Result {
        f.debug_struct("Desk").field("now", &self.now()).field("pending", &self.pending()).finish_non_exhaustive()
    }
}

impl Drop for Desk {
    fn drop(&mut self) {
        unsafe { timers_desk_free(&mut self.held) }
    }
}

impl Line {
    /// The number of its client.
    #[must_use]
    pub fn client(&self) -> usize {
        self.held.client as usize
    }

    /// Sends the request to start a timer that expires `interval` ticks after it is taken, and returns the request's
    /// number. Its answer is a word. Neither allocates nor waits. After the desk was dropped a request is still accepted
    /// while the line has room, and gets no answer: see [`Line::abandoned`].
    ///
    /// # Errors
    /// `Finished`; `NumbersSpent`; `LineFull`: it may be sent again once the owner has served the client.
    pub fn start(&mut self, interval: Ticks, action: u64) -> Result<u64, Error> {
        let mut number = 0;
        let status = unsafe { timers_line_start(&mut self.held, interval.0, action, &mut number) };
        done(status, number)
    }

    /// Sends the request to start a timer that expires at the tick `deadline`, and returns the request's number.
    ///
    /// # Errors
    /// Those of [`Line::start`].
    pub fn start_at(&mut self, deadline: Tick, action: u64) -> Result<u64, Error> {
        let mut number = 0;
        let status = unsafe { timers_line_start_at(&mut self.held, deadline.0, action, &mut number) };
        done(status, number)
    }

    /// Sends the request to stop a timer.
    ///
    /// # Errors
    /// Those of [`Line::start`].
    pub fn stop(&mut self, handle: Handle) -> Result<u64, Error> {
        let mut number = 0;
        let status = unsafe { timers_line_stop(&mut self.held, handle, &mut number) };
        done(status, number)
    }

    /// Sends the request to stop a timer and start another in its place.
    ///
    /// # Errors
    /// Those of [`Line::start`].
    pub fn restart(&mut self, handle: Handle, interval: Ticks, action: u64) -> Result<u64, Error> {
        let mut number = 0;
        let status = unsafe { timers_line_restart(&mut self.held, handle, interval.0, action, &mut number) };
        done(status, number)
    }

    /// Sends the request to stop a timer and start another in its place that expires at the tick `deadline`.
    ///
    /// # Errors
    /// Those of [`Line::start`].
    pub fn restart_at(&mut self, handle: Handle, deadline: Tick, action: u64) -> Result<u64, Error> {
        let mut number = 0;
        let status = unsafe { timers_line_restart_at(&mut self.held, handle, deadline.0, action, &mut number) };
        done(status, number)
    }

    /// Receives the next word, if one is there.
    #[must_use]
    pub fn receive(&mut self) -> Option<Word> {
        let mut word = MaybeUninit::<RawWord>::uninit();
        if unsafe { timers_line_receive(&mut self.held, word.as_mut_ptr()) } {
            Some(unsafe { word.assume_init() }.word())
        } else {
            None
        }
    }

    /// Ends the requests. Words are still received.
    ///
    /// # Errors
    /// `Finished`.
    pub fn finish(&mut self) -> Result<(), Error> {
        done(unsafe { timers_line_finish(&mut self.held) }, ())
    }

    /// Whether the owner has ended the words, and all were received.
    #[must_use]
    pub fn ended(&self) -> bool {
        unsafe { timers_line_ended(&self.held) }
    }

    /// Whether the desk was dropped, and all words that it had put into the line were received. False if the words were
    /// ended by [`Desk::end`]: then [`Line::ended`] is true once all were received. A client's loop ends if either is.
    #[must_use]
    pub fn abandoned(&mut self) -> bool {
        unsafe { timers_line_abandoned(&mut self.held) }
    }
}

impl fmt::Debug for Line {
    fn fmt(&self, f: &mut fmt::Formatter<'_>) -> fmt::Result {
        f.debug_struct("Line").field("client", &self.client()).finish_non_exhaustive()
    }
}

impl Drop for Line {
    fn drop(&mut self) {
        unsafe { timers_line_free(&mut self.held) }
    }
}
