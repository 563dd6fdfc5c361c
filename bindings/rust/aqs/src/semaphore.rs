//! A semaphore.

use crate::error::{check, must, refused, taken, Error};
use crate::object::{after, calls_of_each_object, Kind, Lazy, Waits};
use crate::options::Options;
use crate::sys::{self, Status};
use std::fmt;
use std::mem;
use std::time::{Duration, Instant};

enum SemaphoreKind {}

// SAFETY: they are the functions of a semaphore.
unsafe impl Kind for SemaphoreKind {
    type Raw = sys::Sem;
    type Start = i32;

    unsafe fn open(place: *mut *mut sys::Sem, permits: i32, options: &sys::Options) -> Status {
        // SAFETY: the caller sees to it.
        unsafe { sys::aqs_sem_open(place, permits, options) }
    }

    unsafe fn close(raw: *mut sys::Sem) {
        // SAFETY: the caller sees to it.
        unsafe { sys::aqs_sem_close(raw) }
    }

    unsafe fn object(raw: *mut sys::Sem) -> *mut sys::Object {
        // SAFETY: the caller sees to it.
        unsafe { sys::aqs_sem_object(raw) }
    }
}

/// Permits that any thread takes and gives.
///
/// ```
/// use aqs::Semaphore;
///
/// static PERMITS: Semaphore = Semaphore::new(2);
///
/// let permit = PERMITS.permit();
/// assert!(!PERMITS.try_acquire(2));
/// drop(permit);
/// PERMITS.acquire(2);
/// PERMITS.release(2);
/// assert_eq!(PERMITS.drain(), 2);
/// ```
///
/// # Panics
///
/// Calls panic where they could never be right: more than 2147483647 permits in one call or free at once,
/// more threads than the semaphore was opened for, a full history that is to be kept.
pub struct Semaphore {
    semaphore: Lazy<SemaphoreKind>,
}

impl Semaphore {
    /// A semaphore with the default options. Its first call opens it. Permits may be below 0: then as many
    /// releases come first.
    pub const fn new(permits: i32) -> Semaphore {
        Semaphore { semaphore: Lazy::new(permits, Options::new()) }
    }

    /// A semaphore with these options, which is open: [`Error::OutOfRange`] or [`Error::OutOfMemory`].
    pub fn with(permits: i32, options: Options) -> Result<Semaphore, Error> {
        Ok(Semaphore { semaphore: Lazy::open(permits, options)? })
    }

    #[track_caller]
    fn take(&self, n: u32, until: Option<Instant>, interruptible: bool) -> Status {
        let semaphore = self.semaphore.get();
        // SAFETY: the semaphore is open.
        unsafe {
            let plain = || sys::aqs_sem_acquire(semaphore, n);
            let interruptibly = || sys::aqs_sem_acquire_interruptibly(semaphore, n);
            let timed = |time| sys::aqs_sem_timedacquire(semaphore, n, time);
            Waits { plain, interruptibly, timed }.all(until, interruptible)
        }
    }

    /// Takes n permits, and waits until they are free. [`permits`](Semaphore::permits) gives them back by
    /// itself.
    #[track_caller]
    pub fn acquire(&self, n: u32) {
        must(self.take(n, None, false));
    }

    /// The same, unless the thread is interrupted.
    #[track_caller]
    pub fn acquire_interruptibly(&self, n: u32) -> Result<(), Error> {
        check(self.take(n, None, true))
    }

    /// The same, for at most this time: [`Error::TimedOut`] or [`Error::Interrupted`].
    #[track_caller]
    pub fn acquire_interruptibly_for(&self, n: u32, time: Duration) -> Result<(), Error> {
        check(self.take(n, after(time), true))
    }

    /// Takes n permits if they are free.
    #[track_caller]
    pub fn try_acquire(&self, n: u32) -> bool {
        // SAFETY: the semaphore is open.
        taken(unsafe { sys::aqs_sem_tryacquire(self.semaphore.get(), n) })
    }

    /// Takes n permits, and waits for at most this time.
    #[track_caller]
    pub fn try_acquire_for(&self, n: u32, time: Duration) -> bool {
        taken(self.take(n, after(time), false))
    }

    /// Takes n permits, and waits until a moment at the latest.
    #[track_caller]
    pub fn try_acquire_until(&self, n: u32, moment: Instant) -> bool {
        taken(self.take(n, Some(moment), false))
    }

    /// Gives n permits, whoever took them.
    #[track_caller]
    pub fn release(&self, n: u32) {
        // SAFETY: the semaphore is open.
        must(unsafe { sys::aqs_sem_release(self.semaphore.get(), n) });
    }

    /// Takes a permit that is given back when the guard is dropped.
    #[track_caller]
    pub fn permit(&self) -> Permits<'_> {
        self.permits(1)
    }

    /// Takes n permits that are given back when the guard is dropped.
    #[track_caller]
    pub fn permits(&self, n: u32) -> Permits<'_> {
        self.acquire(n);
        Permits { semaphore: self, n }
    }

    /// The same if n permits are free.
    #[track_caller]
    pub fn try_permits(&self, n: u32) -> Option<Permits<'_>> {
        self.try_acquire(n).then(|| Permits { semaphore: self, n })
    }

    /// The same, and waits for at most this time.
    #[track_caller]
    pub fn try_permits_for(&self, n: u32, time: Duration) -> Option<Permits<'_>> {
        self.try_acquire_for(n, time).then(|| Permits { semaphore: self, n })
    }

    /// Takes all free permits, and returns how many.
    #[track_caller]
    pub fn drain(&self) -> u32 {
        let mut n = 0;
        // SAFETY: the semaphore is open.
        must(unsafe { sys::aqs_sem_drain(self.semaphore.get(), &mut n) });
        n
    }

    /// The free permits, which may be below 0. Another thread may change them before the caller reads them.
    #[track_caller]
    pub fn available(&self) -> i64 {
        self.look().unwrap_or_else(|error| refused(error))
    }

    fn look(&self) -> Result<i64, Error> {
        let mut permits = 0;
        // SAFETY: the semaphore is open, and the number lives.
        check(unsafe { sys::aqs_sem_getvalue(self.semaphore.get(), &mut permits) })?;
        Ok(permits)
    }

    calls_of_each_object! { semaphore }
}

impl fmt::Debug for Semaphore {
    fn fmt(&self, f: &mut fmt::Formatter<'_>) -> fmt::Result {
        match self.look() {
            Ok(permits) => f.debug_struct("Semaphore").field("available", &permits).finish(),
            Err(_) => f.debug_struct("Semaphore").finish_non_exhaustive(),
        }
    }
}

/// Permits of a semaphore, which are given back when the guard is dropped, by whatever thread.
#[must_use = "the permits are free again if the guard is not kept"]
#[derive(Debug)]
pub struct Permits<'s> {
    semaphore: &'s Semaphore,
    n: u32,
}

impl Permits<'_> {
    /// How many there are.
    pub fn count(&self) -> u32 {
        self.n
    }

    /// Keeps them for good: they are not given back.
    pub fn forget(self) {
        mem::forget(self);
    }
}

impl Drop for Permits<'_> {
    fn drop(&mut self) {
        self.semaphore.release(self.n);
    }
}
