//! `Timers`, over timers.h.
// SPDX-License-Identifier: MIT OR Apache-2.0
use crate::ffi::{self, Expired as Raw, Held};
use crate::values::{Drain, Values};
use crate::{Error, Refused, Table, Tick, Ticks};
use core::cell::Cell;
use core::ffi::c_uint;
use core::fmt;
use core::iter::FusedIterator;
use core::marker::PhantomData;
use core::mem::{self, MaybeUninit};
use core::time::Duration;

/// The name of a timer of one [`Timers`].
///
/// It is dead once its timer was stopped, restarted, taken or dropped, and never names another one of these `Timers`. In
/// other `Timers` it may name a timer that is there. [`Handle::default`] names none.
#[repr(C)]
#[derive(Clone, Copy, Debug, Default, Eq, Hash, PartialEq)]
pub struct Handle {
    place: u64,
    serial: u64,
}

impl Handle {
    /// Counts the starts and restarts of its `Timers`, from 1.
    #[must_use]
    pub fn serial(self) -> u64 {
        self.serial
    }
}

/// A timer: one that was taken and owns its value, or one that is looked at.
#[derive(Clone, Copy, Debug, Eq, Hash, PartialEq)]
#[non_exhaustive]
pub struct Timer<T> {
    /// The tick at which it expires, or has expired.
    pub deadline: Tick,
    /// The [serial](Handle::serial) of its handle.
    pub serial: u64,
    /// The value that its start was given.
    pub value: T,
}

/// What the wheels have done since they were made.
#[repr(C)]
#[derive(Clone, Copy, Debug, Default, Eq, PartialEq)]
pub struct Counts {
    /// Timers that were started or restarted.
    pub starts: u64,
    /// How often a timer moved, as its bucket was emptied or before.
    pub moves: u64,
}

// SAFETY, of each `unsafe` below: this keeps the rules of the header. `held` begins as zeros and is private, so only the
// library writes it, and what it owns has one owner. Each pointer is to an object of this call alone. `&mut` and the
// missing `Sync` make calls come one at a time.

/// Timers, each with a value, and the clock of ticks that they run by.
///
/// A timer is *pending* until the clock comes to its deadline. Then it has *expired*, and waits to be taken. Timers are
/// taken in the order of their deadlines, and those of one deadline in the order of their starts. Until it is taken a
/// timer can be stopped and restarted, also by the work of one that expired at the same tick.
///
/// The value comes back from [`take`](Timers::take), [`stop`](Timers::stop), [`drain`](Timers::drain), and from a start
/// that is refused. Values that are left are dropped with the `Timers`.
///
/// The clock advances by [`take`](Timers::take), [`take_due`](Timers::take_due), [`advance`](Timers::advance) and
/// [`advance_to`](Timers::advance_to) alone, and never goes back. How long a tick is, you choose: [`Clock`](crate::Clock)
/// has ticks of real time.
///
/// # Costs
///
/// Starts, restarts, stops and looks take constant time, but for a start that makes the arrays grow. A timer takes 40
/// bytes, and its value with a tag, of the most that were ever held at once, and after growing up to twice as much. A
/// million timers that move to a lower wheel at one tick take 10 ms or more.
///
/// # Threads
///
/// `Timers<T>` can be sent to another thread if `T` can, and is never shared by two: put it into a mutex for that.
///
/// ```compile_fail,E0277
/// fn is_shared<S: Sync>() {}
/// is_shared::<timers::Timers<u64>>();
/// ```
/// ```compile_fail,E0277
/// fn is_sent<S: Send>() {}
/// is_sent::<timers::Timers<std::rc::Rc<u64>>>();
/// ```
/// ```
/// fn is_shared<S: Sync>() {}
/// is_shared::<std::sync::Mutex<timers::Timers<u64>>>();
/// ```
///
/// In the forked child of a process with threads, call nothing before `exec`.
pub struct Timers<T> {
    held: Held,
    /// The action of a timer is the slot of its value.
    values: Values<T>,
    /// The library keeps nothing of a thread, so timers may be sent to another one.
    alone: PhantomData<Cell<()>>,
}

impl<T> fmt::Debug for Timers<T> {
    fn fmt(&self, f: &mut fmt::Formatter<'_>) -> fmt::Result {
        f.debug_struct("Timers").field("now", &self.now()).field("len", &self.len()).finish_non_exhaustive()
    }
}

impl<T> Drop for Timers<T> {
    fn drop(&mut self) {
        unsafe { ffi::timers_free(&mut self.held) }
    }
}

/// What `call` writes to its argument, if it returns `TIMERS_OK`.
fn written<A>(call: impl FnOnce(*mut A) -> c_uint) -> Result<A, Error> {
    let mut out = MaybeUninit::uninit();
    Error::of(call(out.as_mut_ptr()))?;
    // SAFETY: at TIMERS_OK each call writes all of what it is given to write.
    Ok(unsafe { out.assume_init() })
}

/// The interval, in ticks of this length, of a time-out that must last no less than `time`. It is rounded up, and has one
/// tick more, since the present tick has begun. If that is above `u64::MAX` it is that, which a start refuses as
/// [`Error::TooLate`].
///
/// ```
/// # use core::time::Duration;
/// assert_eq!(timers::at_least(Duration::from_micros(2500), Duration::from_millis(1)), timers::Ticks(4));
/// ```
///
/// # Panics
///
/// If a tick has no length.
#[must_use]
pub fn at_least(time: Duration, tick: Duration) -> Ticks {
    let ticks = time.as_nanos().div_ceil(tick.as_nanos()) + 1;
    Ticks(u64::try_from(ticks).unwrap_or(u64::MAX))
}

impl<T> Timers<T> {
    /// No timers, on a clock at tick 0 that has ticks for all practical purposes ([`Table::Wide`]).
    ///
    /// It allocates the wheels, and so `Timers` have no `Default`. A struct that has one keeps an `Option`, and makes them at
    /// the first use:
    ///
    /// ```
    /// use timers::{Error, Ticks, Timers};
    ///
    /// #[derive(Default)]
    /// struct Connections {
    ///     timers: Option<Timers<u32>>,
    /// }
    ///
    /// impl Connections {
    ///     fn timers(&mut self) -> Result<&mut Timers<u32>, Error> {
    ///         match &mut self.timers {
    ///             Some(timers) => Ok(timers),
    ///             none => Ok(none.insert(Timers::new()?)),
    ///         }
    ///     }
    /// }
    /// # let mut connections = Connections::default();
    /// # connections.timers()?.start(Ticks(1), 7)?;
    /// # assert_eq!(connections.timers()?.len(), 1);
    /// # Ok::<(), Error>(())
    /// ```
    ///
    /// # Errors
    ///
    /// [`NoMemory`](Error::NoMemory).
    pub fn new() -> Result<Timers<T>, Error> {
        Timers::with_table(Table::Wide, Tick(0))
    }

    /// No timers, on wheels of this table and a clock at `first_tick`.
    ///
    /// # Errors
    ///
    /// [`TooLate`](Error::TooLate) if that is after the last tick of the table; [`NoMemory`](Error::NoMemory).
    pub fn with_table(table: Table, first_tick: Tick) -> Result<Timers<T>, Error> {
        let mut timers = Timers { held: Held::INIT, values: Values::new(), alone: PhantomData };
        Error::of(unsafe { ffi::timers_new(&mut timers.held, table as u32, first_tick.0) })?;
        Ok(timers)
    }

    /// Makes room for `most` timers at once: while fewer are held, no start fails for memory, or allocates.
    ///
    /// # Errors
    ///
    /// [`NoMemory`](Error::NoMemory), also if `most` is above some 4.29 billion. The timers stay as they are, and some of
    /// the room may be there.
    pub fn reserve(&mut self, most: usize) -> Result<(), Error> {
        self.values.reserve(most)?;
        Error::of(unsafe { ffi::timers_reserve(&mut self.held, most) })
    }

    /// Starts a timer whose action is the slot of its value.
    fn start_by(&mut self, value: T, call: impl FnOnce(*mut Held, u64, *mut Handle) -> c_uint) -> Result<Handle, Refused<T>> {
        let (held, values) = (&mut self.held, &mut self.values);
        let started = values.vacancy().and_then(|slot| written(|handle| call(held, slot as u64, handle)));
        match started {
            Ok(handle) => {
                values.put(value);
                Ok(handle)
            }
            Err(error) => Err(Refused { error, value }),
        }
    }

    /// Starts a timer that expires at the tick `deadline`. If that has passed or is the present tick, the timer is due at
    /// once: it has expired, with the present tick as its deadline, and is taken after those that expired before.
    ///
    /// # Errors
    ///
    /// [`TooLate`](Error::TooLate) if the deadline is after the last tick, or the clock is at it;
    /// [`SerialsSpent`](Error::SerialsSpent); [`NoMemory`](Error::NoMemory), which may also come before the others. Nothing
    /// has changed, and the value comes back in [`Refused`].
    pub fn start_at(&mut self, deadline: Tick, value: T) -> Result<Handle, Refused<T>> {
        self.start_by(value, |held, slot, handle| unsafe { ffi::timers_start_at(held, deadline.0, slot, handle) })
    }

    /// Starts a timer that expires `interval` ticks after the present tick, [`now`](Timers::now).
    ///
    /// That is the tick up to which the clock was advanced last. In a loop that sleeps or is late it lies behind the real
    /// time, and the timer would expire too early by as much: use [`start_at`](Timers::start_at) there.
    ///
    /// # Errors
    ///
    /// [`ZeroInterval`](Error::ZeroInterval); then as [`start_at`](Timers::start_at).
    pub fn start(&mut self, interval: Ticks, value: T) -> Result<Handle, Refused<T>> {
        self.start_by(value, |held, slot, handle| unsafe { ffi::timers_start(held, interval.0, slot, handle) })
    }

    /// Restarts a timer, pending or expired, for the tick `deadline`, or at once as [`start_at`](Timers::start_at). It keeps
    /// its value and gets a new handle: the old one is dead. Does not allocate.
    ///
    /// # Errors
    ///
    /// [`NotPending`](Error::NotPending) if no timer has the handle; [`TooLate`](Error::TooLate);
    /// [`SerialsSpent`](Error::SerialsSpent). The timer stays as it is, under its old handle.
    pub fn restart_at(&mut self, handle: Handle, deadline: Tick) -> Result<Handle, Error> {
        let slot = self.look(handle)?.action;
        written(|made| unsafe { ffi::timers_restart_at(&mut self.held, handle, deadline.0, slot, made) })
    }

    /// Restarts a timer, pending or expired, for `interval` ticks after the present tick, as [`start`](Timers::start). It
    /// keeps its value and gets a new handle: the old one is dead. Does not allocate.
    ///
    /// # Errors
    ///
    /// [`NotPending`](Error::NotPending) if no timer has the handle; [`ZeroInterval`](Error::ZeroInterval);
    /// [`TooLate`](Error::TooLate); [`SerialsSpent`](Error::SerialsSpent). The timer stays as it is, under its old handle.
    pub fn restart(&mut self, handle: Handle, interval: Ticks) -> Result<Handle, Error> {
        let slot = self.look(handle)?.action;
        written(|made| unsafe { ffi::timers_restart(&mut self.held, handle, interval.0, slot, made) })
    }

    /// Makes `handle` name a timer with this deadline and value. One that it names already is restarted, and its value
    /// returned. Otherwise one is started. [`Handle::default`] is a handle to begin with.
    ///
    /// # Errors
    ///
    /// [`TooLate`](Error::TooLate); [`SerialsSpent`](Error::SerialsSpent); [`NoMemory`](Error::NoMemory), only if no timer
    /// has the handle. Nothing has changed, and the value comes back in [`Refused`].
    pub fn set_at(&mut self, handle: &mut Handle, deadline: Tick, value: T) -> Result<Option<T>, Refused<T>> {
        let Ok(Raw { action: slot, .. }) = self.look(*handle) else {
            *handle = self.start_at(deadline, value)?;
            return Ok(None);
        };
        match written(|made| unsafe { ffi::timers_restart_at(&mut self.held, *handle, deadline.0, slot, made) }) {
            Ok(made) => {
                *handle = made;
                Ok(Some(mem::replace(self.values.get_mut(slot as usize), value)))
            }
            Err(error) => Err(Refused { error, value }),
        }
    }

    /// Stops a timer, pending or expired, and returns its value; `None` if no timer has the handle.
    pub fn stop(&mut self, handle: Handle) -> Option<T> {
        let slot = written(|action| unsafe { ffi::timers_stop(&mut self.held, handle, action) }).ok()?;
        Some(self.values.take(slot as usize))
    }

    fn look(&self, handle: Handle) -> Result<Raw, Error> {
        written(|out| unsafe { ffi::timers_look(&self.held, handle, out) })
    }

    fn taken(&mut self, raw: Raw) -> Timer<T> {
        Timer { deadline: Tick(raw.deadline), serial: raw.serial, value: self.values.take(raw.action as usize) }
    }

    /// The value of the timer with this handle, pending or expired; `None` if there is none.
    #[must_use]
    pub fn get(&self, handle: Handle) -> Option<&T> {
        let slot = self.look(handle).ok()?.action;
        Some(self.values.get(slot as usize))
    }

    /// The value of the timer with this handle, to be changed; `None` if there is none.
    #[must_use]
    pub fn get_mut(&mut self, handle: Handle) -> Option<&mut T> {
        let slot = self.look(handle).ok()?.action;
        Some(self.values.get_mut(slot as usize))
    }

    /// The deadline of the timer with this handle; `None` if there is none. It is pending if that is after
    /// [`now`](Timers::now), and has expired otherwise.
    #[must_use]
    pub fn deadline(&self, handle: Handle) -> Option<Tick> {
        self.look(handle).ok().map(|raw| Tick(raw.deadline))
    }

    /// All timers with their handles, pending and expired, in no particular order. A whole iteration takes time for the
    /// most timers that were ever held at once.
    #[must_use]
    pub fn iter(&self) -> Iter<'_, T> {
        Iter { timers: self, cursor: 0 }
    }

    /// Takes the next timer that is due by `tick`, and passes the ticks up to its deadline. If an expired one waits, it is
    /// the first of these, and no tick passes.
    ///
    /// `None` means that nothing is due by `tick`. The clock then stands at `tick`, or at its last tick if `tick` is after
    /// that. A `tick` before the present one leaves it where it is.
    ///
    /// Don't take by `u64::MAX` or [`LAST`](crate::LAST) to get the rest: the clock is at its end then, for good. Each later start is
    /// refused ([`TooLate`](Error::TooLate)), also after [`clear`](Timers::clear). [`drain`](Timers::drain) has the rest, and
    /// leaves the clock where it is:
    ///
    /// ```
    /// use timers::{Error, Tick, Ticks, Timers};
    ///
    /// # let mut timers = Timers::new()?;
    /// timers.start(Ticks(5), "tea")?;
    /// assert!(timers.drain().eq(["tea"]));
    /// assert!(timers.start(Ticks(5), "egg").is_ok());
    /// assert!(timers.take(Tick(u64::MAX)).is_some() && timers.take(Tick(u64::MAX)).is_none());
    /// assert_eq!(timers.start(Ticks(5), "call").map_err(Error::from), Err(Error::TooLate)); // and no later one
    /// # Ok::<(), Error>(())
    /// ```
    ///
    /// A loop may start, restart and stop timers between two calls. One that always starts a timer which is due at once
    /// never ends.
    #[must_use = "the timer is taken, and its value dropped"]
    pub fn take(&mut self, tick: Tick) -> Option<Timer<T>> {
        let mut raw = Raw::default();
        unsafe { ffi::timers_take(&mut self.held, tick.0, &mut raw) }.then(|| self.taken(raw))
    }

    /// Takes the first of the expired timers. No tick passes.
    #[must_use = "the timer is taken, and its value dropped"]
    pub fn expire(&mut self) -> Option<Timer<T>> {
        let mut raw = Raw::default();
        unsafe { ffi::timers_expire(&mut self.held, &mut raw) }.then(|| self.taken(raw))
    }

    /// An iterator that takes each timer that is due by `tick`, by [`take`](Timers::take). Those that it has not come to are
    /// not taken. A loop that starts or stops timers calls [`take`](Timers::take) instead. For all that is left call
    /// [`drain`](Timers::drain): a `tick` of `u64::MAX` ends the clock for good.
    pub fn take_due(&mut self, tick: Tick) -> TakeDue<'_, T> {
        TakeDue { timers: self, tick }
    }

    /// Passes at most `most` ticks, stops at the first at which a timer expires, and returns how many were passed.
    ///
    /// # Errors
    ///
    /// [`Due`](Error::Due) if an expired timer waits; [`ClockEnd`](Error::ClockEnd). Neither if `most` is `Ticks(0)`. Nothing has
    /// changed.
    pub fn advance(&mut self, most: Ticks) -> Result<Ticks, Error> {
        written(|passed| unsafe { ffi::timers_advance(&mut self.held, most.0, passed) }).map(Ticks)
    }

    /// Passes the ticks up to this one, up to the first at which a timer expires, or up to the last tick of the clock. Does
    /// nothing if the tick is not after the present one.
    ///
    /// # Errors
    ///
    /// [`Due`](Error::Due) if an expired timer waits; [`ClockEnd`](Error::ClockEnd). Nothing has changed.
    pub fn advance_to(&mut self, tick: Tick) -> Result<(), Error> {
        Error::of(unsafe { ffi::timers_advance_to(&mut self.held, tick.0) })
    }

    /// Removes all timers, pending and expired, and returns their values. The clock stays as it is, and so does the room.
    /// All timers are gone, also if the iterator is dropped early, which drops the values that are left.
    pub fn drain(&mut self) -> Drain<'_, T> {
        unsafe { ffi::timers_clear(&mut self.held) };
        self.values.drain()
    }

    /// Removes all timers, and drops their values. The clock stays as it is, and so does the room.
    pub fn clear(&mut self) {
        drop(self.drain());
    }

    /// How many timers are held, pending or expired.
    #[must_use]
    pub fn len(&self) -> usize {
        self.values.len()
    }

    /// Whether no timer is held.
    #[must_use]
    pub fn is_empty(&self) -> bool {
        self.len() == 0
    }

    /// Whether an expired timer waits to be taken.
    #[must_use]
    pub fn has_due(&self) -> bool {
        unsafe { ffi::timers_has_due(&self.held) }
    }

    /// The present tick: the one up to which the clock was advanced last.
    #[must_use]
    pub fn now(&self) -> Tick {
        Tick(unsafe { ffi::timers_now(&self.held) })
    }

    /// A tick until which the caller may sleep, at most the first deadline; `None` if no timer is held. Takes constant time.
    ///
    /// It may come before the first deadline, since the wheels don't search for that: then [`take`](Timers::take) finds
    /// nothing, and the next call returns a later tick.
    #[must_use]
    pub fn wakeup(&self) -> Option<Tick> {
        Tick::known(unsafe { ffi::timers_wakeup(&self.held) })
    }

    /// The starts and the moves of timers since these were made.
    #[must_use]
    pub fn counts(&self) -> Counts {
        let mut counts = Counts::default();
        // They are written, since the timers are open.
        unsafe { ffi::timers_counts(&self.held, &mut counts) };
        counts
    }
}

/// An iteration over all timers: see [`Timers::iter`].
#[derive(Clone, Debug)]
pub struct Iter<'a, T> {
    timers: &'a Timers<T>,
    cursor: u64,
}

impl<'a, T> Iterator for Iter<'a, T> {
    type Item = (Handle, Timer<&'a T>);

    fn next(&mut self) -> Option<Self::Item> {
        let (mut handle, mut raw) = (Handle::default(), Raw::default());
        let found = unsafe { ffi::timers_each(&self.timers.held, &mut self.cursor, &mut handle, &mut raw) };
        let value = |raw: Raw| self.timers.values.get(raw.action as usize);
        found.then(|| (handle, Timer { deadline: Tick(raw.deadline), serial: raw.serial, value: value(raw) }))
    }
}

impl<T> FusedIterator for Iter<'_, T> {}

impl<'a, T> IntoIterator for &'a Timers<T> {
    type Item = (Handle, Timer<&'a T>);
    type IntoIter = Iter<'a, T>;

    fn into_iter(self) -> Iter<'a, T> {
        self.iter()
    }
}

/// Takes each timer that is due: see [`Timers::take_due`].
#[derive(Debug)]
#[must_use = "nothing is taken before the iterator is asked"]
pub struct TakeDue<'a, T> {
    timers: &'a mut Timers<T>,
    tick: Tick,
}

impl<T> Iterator for TakeDue<'_, T> {
    type Item = Timer<T>;

    fn next(&mut self) -> Option<Timer<T>> {
        self.timers.take(self.tick)
    }
}

impl<T> FusedIterator for TakeDue<'_, T> {}
