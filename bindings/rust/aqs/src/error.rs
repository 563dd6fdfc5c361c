//! Why a call ended without what it asked for.

use crate::sys;
use std::{error, ffi::CStr, fmt};

/// Why a call ended without what it asked for. Nothing has changed by it.
///
/// ```
/// use aqs::{Error, Mutex, Options};
///
/// let error = Mutex::with(0, Options::new().threads(257)).unwrap_err();
/// assert_eq!(error, Error::OutOfRange);
/// assert_eq!(error.name(), "AQS_OUT_OF_RANGE");
/// assert_eq!(error.to_string(), "a number that the object can't be opened with, or that no thread has");
/// assert_eq!(aqs::last_error(), "threads must be 1 to 256, not 257");
/// ```
#[derive(Clone, Copy, Debug, PartialEq, Eq, Hash)]
#[non_exhaustive]
pub enum Error {
    /// The time was up.
    TimedOut,
    /// The thread was interrupted, before the call or while it waited.
    Interrupted,
    /// A try found nothing to take.
    WouldBlock,
    /// The thread doesn't hold what it unlocks, or doesn't own the lock.
    NotOwner,
    /// The thread, or all readers together, hold the lock as often as they may.
    TooManyHolds,
    /// A semaphore would have more than 2147483647 free permits.
    TooManyPermits,
    /// The thread waits on a condition while it holds the lock to read.
    HoldsRead,
    /// The object was opened with fewer conditions.
    NoSuchCondition,
    /// More than 2147483647 permits in one call.
    BadAmount,
    /// The history is full and kept, or too small for all holds and waiters.
    HistoryFull,
    /// The library got no memory.
    OutOfMemory,
    /// A number that the object can't be opened with, or that no thread has. [`last_error`] says which.
    OutOfRange,
    /// As many threads as the object was opened for hold it or wait for it.
    TooManyThreads,
    /// A buffer was too small.
    NoSpace,
    /// A file couldn't be written.
    IoError,
    /// The thread is already in a call of the object, or its memory was damaged.
    Misuse,
    /// A status that this crate doesn't know.
    Other(i32),
}

// The first status is AQS_OK, which is no error.
const ALL: [Error; 16] = [
    Error::TimedOut,
    Error::Interrupted,
    Error::WouldBlock,
    Error::NotOwner,
    Error::TooManyHolds,
    Error::TooManyPermits,
    Error::HoldsRead,
    Error::NoSuchCondition,
    Error::BadAmount,
    Error::HistoryFull,
    Error::OutOfMemory,
    Error::OutOfRange,
    Error::TooManyThreads,
    Error::NoSpace,
    Error::IoError,
    Error::Misuse,
];

impl Error {
    fn status(self) -> sys::Status {
        match self {
            Error::TimedOut => 1,
            Error::Interrupted => 2,
            Error::WouldBlock => 3,
            Error::NotOwner => 4,
            Error::TooManyHolds => 5,
            Error::TooManyPermits => 6,
            Error::HoldsRead => 7,
            Error::NoSuchCondition => 8,
            Error::BadAmount => 9,
            Error::HistoryFull => 10,
            Error::OutOfMemory => 11,
            Error::OutOfRange => 12,
            Error::TooManyThreads => 13,
            Error::NoSpace => 14,
            Error::IoError => 15,
            Error::Misuse => 16,
            Error::Other(status) => status,
        }
    }

    pub(crate) fn of(status: sys::Status) -> Error {
        ALL.into_iter().find(|it| it.status() == status).unwrap_or(Error::Other(status))
    }

    /// The status's name in `aqs.h`, as `AQS_TIMED_OUT`.
    pub fn name(self) -> &'static str {
        // SAFETY: it returns a text that lasts for good, whatever the number.
        let name = unsafe { CStr::from_ptr(sys::aqs_status_name(self.status())) };
        name.to_str().unwrap_or("no status")
    }
}

impl fmt::Display for Error {
    fn fmt(&self, f: &mut fmt::Formatter<'_>) -> fmt::Result {
        f.write_str(match self {
            Error::TimedOut => "the time was up",
            Error::Interrupted => "the thread was interrupted",
            Error::WouldBlock => "it would have had to wait",
            Error::NotOwner => "the thread doesn't own the lock",
            Error::TooManyHolds => "the lock is held as often as it may be",
            Error::TooManyPermits => "a semaphore would have too many permits",
            Error::HoldsRead => "the thread waits on a condition while it reads",
            Error::NoSuchCondition => "the object was opened with fewer conditions",
            Error::BadAmount => "more than 2147483647 permits in one call",
            Error::HistoryFull => "the history is full",
            Error::OutOfMemory => "the library got no memory",
            Error::OutOfRange => "a number that the object can't be opened with, or that no thread has",
            Error::TooManyThreads => "as many threads as the object was opened for hold it or wait for it",
            Error::NoSpace => "a buffer was too small",
            Error::IoError => "a file couldn't be written",
            Error::Misuse => "the thread is already in a call of the object",
            Error::Other(status) => return write!(f, "status {status} of aqs.h"),
        })
    }
}

impl error::Error for Error {}

/// What the last [`Error::OutOfRange`] of the calling thread was about, as `threads must be 1 to 256, not 257`.
/// Empty if it had none.
pub fn last_error() -> String {
    // SAFETY: it returns a text that stays until the thread's next such error.
    unsafe { CStr::from_ptr(sys::aqs_last_error()) }.to_string_lossy().into_owned()
}

pub(crate) fn check(status: sys::Status) -> Result<(), Error> {
    match status {
        0 => Ok(()),
        _ => Err(Error::of(status)),
    }
}

/// Whether the call got what it asked for. It panics at an error other than a timeout or a failed try.
#[track_caller]
pub(crate) fn taken(status: sys::Status) -> bool {
    match check(status) {
        Ok(()) => true,
        Err(Error::TimedOut | Error::WouldBlock) => false,
        Err(error) => refused(error),
    }
}

#[track_caller]
pub(crate) fn must(status: sys::Status) {
    if let Err(error) = check(status) {
        refused(error);
    }
}

#[cold]
#[track_caller]
pub(crate) fn refused(error: Error) -> ! {
    match error {
        Error::OutOfRange => panic!("aqs: {} ({})", last_error(), error.name()),
        _ => panic!("aqs: {error} ({})", error.name()),
    }
}
