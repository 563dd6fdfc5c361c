//! A mutex that its owner may lock again.

use crate::error::Error;
use crate::mutex::{Entry, Mutex};
use crate::object::calls_of_each_object;
use crate::options::Options;
use std::fmt;
use std::time::{Duration, Instant};

/// The value of a [`ReentrantMutex`], which one thread reads until the guard is dropped.
pub type ReentrantMutexGuard<'m, T> = Entry<'m, T>;

/// A mutex that its owner may lock again, and that lends its value for reading alone: a [`Mutex`] whose
/// [`enter`](Mutex::enter) has the name `lock`, as in parking_lot.
///
/// ```
/// use aqs::ReentrantMutex;
/// use std::cell::Cell;
///
/// let count = ReentrantMutex::new(Cell::new(0));
/// let (one, two) = (count.lock(), count.lock());
/// one.set(two.get() + 1);
/// assert_eq!(two.get(), 1);
/// ```
///
/// # Panics
///
/// What panics at a [`Mutex`].
pub struct ReentrantMutex<T: ?Sized> {
    mutex: Mutex<T>,
}

impl<T> ReentrantMutex<T> {
    /// A mutex with the default options. Its first call opens it.
    pub const fn new(value: T) -> ReentrantMutex<T> {
        ReentrantMutex { mutex: Mutex::new(value) }
    }

    /// A mutex with these options, which is open: [`Error::OutOfRange`] or [`Error::OutOfMemory`].
    pub fn with(value: T, options: Options) -> Result<ReentrantMutex<T>, Error> {
        Ok(ReentrantMutex { mutex: Mutex::with(value, options)? })
    }

    /// The value, without the mutex.
    pub fn into_inner(self) -> T {
        self.mutex.into_inner()
    }
}

impl<T: ?Sized> ReentrantMutex<T> {
    /// Takes the value to read it, and waits while another thread has it.
    #[track_caller]
    pub fn lock(&self) -> ReentrantMutexGuard<'_, T> {
        self.mutex.enter()
    }

    /// Takes the value if no other thread has it.
    #[track_caller]
    pub fn try_lock(&self) -> Option<ReentrantMutexGuard<'_, T>> {
        self.mutex.try_enter()
    }

    /// Takes the value, and waits for at most this time.
    #[track_caller]
    pub fn try_lock_for(&self, time: Duration) -> Option<ReentrantMutexGuard<'_, T>> {
        self.mutex.try_enter_for(time)
    }

    /// Takes the value, and waits until a moment at the latest.
    #[track_caller]
    pub fn try_lock_until(&self, moment: Instant) -> Option<ReentrantMutexGuard<'_, T>> {
        self.mutex.try_enter_until(moment)
    }

    /// Whether any thread has the value. Another thread may change that before the caller reads it.
    #[track_caller]
    pub fn is_locked(&self) -> bool {
        self.mutex.is_locked()
    }

    /// Whether the calling thread has the value.
    pub fn is_owned_by_current_thread(&self) -> bool {
        self.mutex.is_mine()
    }

    /// The value, which nobody else can reach.
    pub fn get_mut(&mut self) -> &mut T {
        self.mutex.get_mut()
    }

    calls_of_each_object! { mutex }
}

impl<T: Default> Default for ReentrantMutex<T> {
    fn default() -> ReentrantMutex<T> {
        ReentrantMutex::new(T::default())
    }
}

impl<T> From<T> for ReentrantMutex<T> {
    fn from(value: T) -> ReentrantMutex<T> {
        ReentrantMutex::new(value)
    }
}

impl<T: ?Sized + fmt::Debug> fmt::Debug for ReentrantMutex<T> {
    fn fmt(&self, f: &mut fmt::Formatter<'_>) -> fmt::Result {
        match self.try_lock() {
            Some(guard) => f.debug_struct("ReentrantMutex").field("data", &&*guard).finish(),
            None => f.debug_struct("ReentrantMutex").field("data", &format_args!("<locked>")).finish(),
        }
    }
}
