//! What is done once.

use crate::error::Error;
use crate::object::calls_of_each_object;
use crate::options::Options;
use crate::raw_mutex::RawMutex;
use std::fmt;
use std::sync::atomic::{AtomicU8, Ordering};

/// How far a [`Once`] is.
#[derive(Clone, Copy, Debug, PartialEq, Eq)]
pub enum OnceState {
    /// Nobody has called it.
    New,
    /// A call of it panicked.
    Poisoned,
    /// A thread is in its call.
    InProgress,
    /// Its call has ended.
    Done,
}

const STATES: [OnceState; 4] = [OnceState::New, OnceState::Poisoned, OnceState::InProgress, OnceState::Done];

impl OnceState {
    fn of(number: u8) -> OnceState {
        STATES.into_iter().find(|&it| it as u8 == number).unwrap_or(OnceState::New)
    }

    /// Whether a call of it panicked.
    pub fn poisoned(self) -> bool {
        self == OnceState::Poisoned
    }

    /// Whether its call has ended.
    pub fn done(self) -> bool {
        self == OnceState::Done
    }
}

/// What is done once, by the thread that comes first. The others wait until it is done.
///
/// ```
/// use aqs::Once;
///
/// static START: Once = Once::new();
///
/// START.call_once(|| println!("once"));
/// assert!(START.state().done());
/// ```
///
/// # Panics
///
/// A call by the thread that is in its call already, where parking_lot would wait for good, a call after one
/// that panicked, and what panics at a [`Mutex`](crate::Mutex).
pub struct Once {
    raw: RawMutex,
    state: AtomicU8,
}

/// What a call leaves, also if it panics.
struct Leaving<'o>(&'o Once, OnceState);

impl Drop for Leaving<'_> {
    fn drop(&mut self) {
        self.0.state.store(self.1 as u8, Ordering::Release);
        self.0.raw.unlock();
    }
}

impl Once {
    /// One with the default options. Its first call opens it.
    pub const fn new() -> Once {
        Once { raw: RawMutex::unopened(Options::new()), state: AtomicU8::new(OnceState::New as u8) }
    }

    /// One with these options, which is open: [`Error::OutOfRange`] or [`Error::OutOfMemory`].
    pub fn with(options: Options) -> Result<Once, Error> {
        Ok(Once { raw: RawMutex::open(options)?, state: AtomicU8::new(OnceState::New as u8) })
    }

    /// How far it is.
    pub fn state(&self) -> OnceState {
        OnceState::of(self.state.load(Ordering::Acquire))
    }

    /// Calls the function, unless that has been done, and waits if another thread does it.
    #[track_caller]
    pub fn call_once(&self, call: impl FnOnce()) {
        if !self.state().done() {
            self.call(|before| {
                assert!(!before.poisoned(), "aqs: a call of this Once panicked before");
                call()
            });
        }
    }

    /// The same, also after a call that panicked.
    #[track_caller]
    pub fn call_once_force(&self, call: impl FnOnce(OnceState)) {
        if !self.state().done() {
            self.call(call);
        }
    }

    #[track_caller]
    fn call(&self, call: impl FnOnce(OnceState)) {
        assert!(!self.raw.is_mine(), "aqs: the thread is in the call of this Once already");
        self.raw.lock();
        let before = self.state();
        let mut leaving = Leaving(self, before);
        if !before.done() {
            leaving.1 = OnceState::Poisoned;
            self.state.store(OnceState::InProgress as u8, Ordering::Relaxed);
            call(before);
            leaving.1 = OnceState::Done;
        }
    }

    calls_of_each_object! { raw.lock }
}

impl Default for Once {
    fn default() -> Once {
        Once::new()
    }
}

impl fmt::Debug for Once {
    fn fmt(&self, f: &mut fmt::Formatter<'_>) -> fmt::Result {
        f.debug_struct("Once").field("state", &self.state()).finish()
    }
}
