use crate::raw::{BAD_COUNT, BAD_SETTINGS, BUSY, CLOSED, FULL, LOAD_TOO_LOW, NO_MEMORY, OVER_MAX};
use crate::raw::{TOO_LONG, TWICE};
use std::fmt;

/// Why a call was refused. It has changed no binding.
#[derive(Clone, Copy, Debug, PartialEq, Eq, Hash)]
#[non_exhaustive]
pub enum Error {
    /// A stripe of the table was held by other threads in all tries.
    Busy,
    /// There is no memory.
    NoMemory,
    /// There is no room for the key, and the table may not grow beyond its greatest size.
    Full,
    /// There is no room for the key, and too few slots are taken for the table to grow.
    LoadTooLow,
    /// The table may not have so many slots.
    OverMax,
    /// A setting is not in its range.
    BadSettings,
    /// A text has more than 64 bytes.
    TooLong,
    /// The handle is in a [`Locked`](crate::Locked) that was forgotten.
    Closed,
    /// One of the keys stands twice.
    Twice,
    /// The keys are none, or more than eight.
    BadCount,
    /// The library gave a code that this crate doesn't know.
    Other(i32),
}

/// What a call gives. With another error it is std's, so that it may be imported in its place.
///
/// ```
/// use cuckoo_map::{Handle, Result};
///
/// fn bound(handle: &mut Handle) -> Result<u64> {
///     handle.len()
/// }
///
/// fn parsed(text: &str) -> Result<u64, std::num::ParseIntError> {
///     text.parse()
/// }
///
/// assert_eq!(bound(&mut Handle::open(100, 1)?.pop().unwrap())?, 0);
/// assert_eq!(parsed("5"), Ok(5));
/// # Ok::<(), cuckoo_map::Error>(())
/// ```
pub type Result<T, E = Error> = std::result::Result<T, E>;

impl Error {
    pub(crate) fn of(code: i32) -> Error {
        match code {
            BUSY => Error::Busy,
            NO_MEMORY => Error::NoMemory,
            FULL => Error::Full,
            LOAD_TOO_LOW => Error::LoadTooLow,
            OVER_MAX => Error::OverMax,
            BAD_SETTINGS => Error::BadSettings,
            TOO_LONG => Error::TooLong,
            CLOSED => Error::Closed,
            TWICE => Error::Twice,
            BAD_COUNT => Error::BadCount,
            other => Error::Other(other),
        }
    }
}

impl fmt::Display for Error {
    fn fmt(&self, to: &mut fmt::Formatter<'_>) -> fmt::Result {
        to.write_str(match self {
            Error::Busy => "other threads held a stripe in all tries",
            Error::NoMemory => "there is no memory",
            Error::Full => "no room, and the table has its greatest size",
            Error::LoadTooLow => "no room, and too few slots are taken for the table to grow",
            Error::OverMax => "the table may not have so many slots",
            Error::BadSettings => "a setting is not in its range",
            Error::TooLong => "a text has more than 64 bytes",
            Error::Closed => "the handle is in a locked table that was forgotten",
            Error::Twice => "a key stands twice",
            Error::BadCount => "the keys are none, or more than eight",
            Error::Other(code) => return write!(to, "the library gave code {code}"),
        })
    }
}

impl std::error::Error for Error {}
