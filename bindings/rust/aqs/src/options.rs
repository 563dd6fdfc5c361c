//! How an object is opened.

use crate::sys;

/// Which new calls queue up after those who wait.
#[derive(Clone, Copy, Debug, PartialEq, Eq)]
pub enum Policy {
    /// None: a new call may take what is free before they do.
    NonFair,
    /// All but tries without a time.
    Fair,
    /// All: a try fails if others wait.
    Strict,
}

impl Policy {
    pub(crate) fn of(number: u32) -> Policy {
        match number {
            0 => Policy::NonFair,
            1 => Policy::Fair,
            _ => Policy::Strict,
        }
    }
}

/// How an object is opened: not fair, for 256 threads, with 16 conditions, and it trims its history, unless
/// these calls say otherwise.
///
/// ```
/// use aqs::{Mutex, Options};
///
/// let mutex = Mutex::with(5, Options::new().fair().keep_history().threads(8)).unwrap();
/// assert_eq!(*mutex.lock(), 5);
/// ```
#[derive(Clone, Copy, Debug, Default, PartialEq, Eq)]
pub struct Options(pub(crate) sys::Options);

/// The most conditions that a lock of the library may have.
pub(crate) const CONDITIONS: u8 = 16;

impl Options {
    /// The defaults.
    pub const fn new() -> Options {
        Options(sys::Options {
            policy: 0,
            when_full: 0,
            history: 0,
            threads: 0,
            conditions: 0,
            heeds_handlers: false,
        })
    }

    /// New calls queue up after those who wait. Tries without a time barge.
    pub const fn fair(mut self) -> Options {
        self.0.policy = 1;
        self
    }

    /// New calls queue up after those who wait. A try fails if others wait.
    pub const fn strict(mut self) -> Options {
        self.0.policy = 2;
        self
    }

    /// Keeps all entries, and refuses new calls if the history is full.
    pub const fn keep_history(mut self) -> Options {
        self.0.when_full = 1;
        self
    }

    /// The most entries that are kept, at least 16.
    pub const fn most_entries(mut self, entries: u32) -> Options {
        self.0.history = entries;
        self
    }

    /// How many threads can hold it or wait for it at a time, 1 to 256. Each takes memory.
    pub const fn threads(mut self, threads: u16) -> Options {
        self.0.threads = threads;
        self
    }

    /// How many [`Condvar`](crate::Condvar)s of a mutex may be waited on at once without sharing a number, 1
    /// to 16. Each takes memory.
    pub const fn conditions(mut self, conditions: u8) -> Options {
        self.0.conditions = conditions;
        self
    }

    /// The same, with the most conditions if it doesn't say how many.
    pub(crate) const fn with_conditions(mut self) -> Options {
        if self.0.conditions == 0 {
            self.0.conditions = CONDITIONS;
        }
        self
    }
}
