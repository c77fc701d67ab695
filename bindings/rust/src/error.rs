//! Why calls on timers are refused.
// SPDX-License-Identifier: MIT OR Apache-2.0
use core::error;
use core::ffi::c_uint;
use core::fmt;

const OK: c_uint = 0;

/// An enum of the statuses that are errors: the number, the name and the text of each, and what else it means.
macro_rules! errors {
    ($(#[$about:meta])* $($number:literal $name:ident $text:literal $($means:literal)?,)*) => {
        $(#[$about])*
        #[non_exhaustive]
        pub enum Error {
            $(#[doc = $text] $(#[doc = ""] #[doc = $means])? $name,)*
            /// A status of a later C library, which was linked in place of the crate's own.
            Other(c_uint),
        }

        impl Error {
            #[cold]
            fn named(status: c_uint) -> Error {
                match status {
                    $($number => Error::$name,)*
                    other => Error::Other(other),
                }
            }
        }

        impl fmt::Display for Error {
            fn fmt(&self, f: &mut fmt::Formatter<'_>) -> fmt::Result {
                match self {
                    $(Error::$name => f.write_str($text),)*
                    Error::Other(status) => write!(f, "status {status}"),
                }
            }
        }

        impl error::Error for Error {}
    };
}
#[cfg(feature = "std")]
pub(crate) use errors;

errors! {
    /// Why a call was refused. Then nothing has changed.
    #[derive(Clone, Copy, Debug, Eq, Hash, PartialEq)]
    // made by tools/facts: errors of timers
    4 NoMemory "out of memory"
        "Memory is out, or there are about 4.29 billion timers (after a `reserve` maybe half as many).",
    5 Due "an expired timer was not yet taken"
        "An expired timer was not yet taken, so the clock can't advance.",
    6 NotPending "no timer has this handle"
        "No timer has this handle: it was stopped, restarted, taken or dropped.",
    7 ZeroInterval "the interval is 0",
    8 TooLate "after the last tick"
        "The tick is after the last one of the clock, or the clock is at its last tick, at which no timer starts.",
    9 SerialsSpent "every serial was used"
        "2^60 - 1 timers were started.",
    10 ClockEnd "the clock is at its last tick",
    // by hand
}

impl Error {
    /// What a status of C says. `Timers` are always open and have a table that is there.
    #[inline]
    pub(crate) fn of(status: c_uint) -> Result<(), Error> {
        if status == OK {
            Ok(())
        } else {
            Err(Error::named(status))
        }
    }
}

/// A start that was refused: why, and the value that it was given.
///
/// In a function that returns an [`Error`], `?` turns it into that and drops the value. Where errors are boxed, `?` boxes the
/// `Refused<T>` with its value: then `T` must own what it has, and be `Send` and `Sync` if the box is. Give the box the
/// [`Error`] alone by `.map_err(Error::from)?`:
///
/// ```
/// use std::rc::Rc;
/// use timers::{Error, Ticks, Timers};
///
/// fn run(name: &str) -> Result<(), Box<dyn std::error::Error + Send + Sync>> {
///     let mut timers = Timers::new()?;
///     timers.start(Ticks(0), (Rc::new(1), name)).map_err(Error::from)?;
///     Ok(())
/// }
/// assert_eq!(run("tea").unwrap_err().downcast_ref(), Some(&Error::ZeroInterval));
/// ```
///
/// Its text has no reason, since its [`source`](error::Error::source) is the [`Error`].
#[derive(Clone, Copy, Eq, PartialEq)]
pub struct Refused<T> {
    /// Why it was refused.
    pub error: Error,
    /// The value, which no timer has.
    pub value: T,
}

impl<T> fmt::Debug for Refused<T> {
    fn fmt(&self, f: &mut fmt::Formatter<'_>) -> fmt::Result {
        f.debug_struct("Refused").field("error", &self.error).finish_non_exhaustive()
    }
}

impl<T> fmt::Display for Refused<T> {
    fn fmt(&self, f: &mut fmt::Formatter<'_>) -> fmt::Result {
        f.write_str("the timer was not started")
    }
}

impl<T> error::Error for Refused<T> {
    fn source(&self) -> Option<&(dyn error::Error + 'static)> {
        Some(&self.error)
    }
}

impl<T> From<Refused<T>> for Error {
    fn from(refused: Refused<T>) -> Error {
        refused.error
    }
}
