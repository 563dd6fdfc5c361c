//! A latch.

use crate::error::{check, must, refused, taken, Error};
use crate::object::{after, calls_of_each_object, Kind, Lazy, Waits};
use crate::options::Options;
use crate::sys::{self, Status};
use std::fmt;
use std::time::{Duration, Instant};

enum LatchKind {}

// SAFETY: they are the functions of a latch.
unsafe impl Kind for LatchKind {
    type Raw = sys::Latch;
    type Start = u32;

    unsafe fn open(place: *mut *mut sys::Latch, count: u32, options: &sys::Options) -> Status {
        // SAFETY: the caller sees to it.
        unsafe { sys::aqs_latch_open(place, count, options) }
    }

    unsafe fn close(raw: *mut sys::Latch) {
        // SAFETY: the caller sees to it.
        unsafe { sys::aqs_latch_close(raw) }
    }

    unsafe fn object(raw: *mut sys::Latch) -> *mut sys::Object {
        // SAFETY: the caller sees to it.
        unsafe { sys::aqs_latch_object(raw) }
    }
}

/// A gate that opens for good when it has been counted down often enough.
///
/// ```
/// use aqs::Latch;
///
/// let ready = Latch::new(2);
/// std::thread::scope(|scope| {
///     for _ in 0..2 {
///         scope.spawn(|| ready.count_down());
///     }
///     ready.wait();
/// });
/// ```
pub struct Latch {
    latch: Lazy<LatchKind>,
}

impl Latch {
    /// A latch with the default options. Its first call opens it.
    ///
    /// # Panics
    ///
    /// The count is above 2147483647.
    pub const fn new(count: u32) -> Latch {
        assert!(count <= i32::MAX as u32, "aqs: the count of a latch is above 2147483647");
        Latch { latch: Lazy::new(count, Options::new()) }
    }

    /// A latch with these options, which is open: [`Error::OutOfRange`] or [`Error::OutOfMemory`].
    pub fn with(count: u32, options: Options) -> Result<Latch, Error> {
        Ok(Latch { latch: Lazy::open(count, options)? })
    }

    /// Counts down by one. At 0 all who wait go on.
    #[track_caller]
    pub fn count_down(&self) {
        // SAFETY: the latch is open.
        must(unsafe { sys::aqs_latch_count_down(self.latch.get()) });
    }

    #[track_caller]
    fn pass(&self, until: Option<Instant>, interruptible: bool) -> Status {
        let latch = self.latch.get();
        // SAFETY: the latch is open.
        unsafe {
            let plain = || sys::aqs_latch_await(latch);
            let interruptibly = || sys::aqs_latch_await_interruptibly(latch);
            let timed = |time| sys::aqs_latch_timedawait(latch, time);
            Waits { plain, interruptibly, timed }.all(until, interruptible)
        }
    }

    /// Waits until the count is 0.
    #[track_caller]
    pub fn wait(&self) {
        must(self.pass(None, false));
    }

    /// The same, unless the thread is interrupted.
    #[track_caller]
    pub fn wait_interruptibly(&self) -> Result<(), Error> {
        check(self.pass(None, true))
    }

    /// The same, for at most this time: [`Error::TimedOut`] or [`Error::Interrupted`].
    #[track_caller]
    pub fn wait_interruptibly_for(&self, time: Duration) -> Result<(), Error> {
        check(self.pass(after(time), true))
    }

    /// Waits for at most this time. Whether the count is 0.
    #[track_caller]
    pub fn wait_for(&self, time: Duration) -> bool {
        taken(self.pass(after(time), false))
    }

    /// Waits until a moment at the latest. Whether the count is 0.
    #[track_caller]
    pub fn wait_until(&self, moment: Instant) -> bool {
        taken(self.pass(Some(moment), false))
    }

    /// The count. Another thread may lower it before the caller reads it.
    #[track_caller]
    pub fn count(&self) -> u32 {
        self.look().unwrap_or_else(|error| refused(error))
    }

    fn look(&self) -> Result<u32, Error> {
        let mut count = 0;
        // SAFETY: the latch is open, and the number lives.
        check(unsafe { sys::aqs_latch_getcount(self.latch.get(), &mut count) })?;
        Ok(count)
    }

    calls_of_each_object! { latch }
}

impl fmt::Debug for Latch {
    fn fmt(&self, f: &mut fmt::Formatter<'_>) -> fmt::Result {
        match self.look() {
            Ok(count) => f.debug_struct("Latch").field("count", &count).finish(),
            Err(_) => f.debug_struct("Latch").finish_non_exhaustive(),
        }
    }
}
