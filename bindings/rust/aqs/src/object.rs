//! What all objects share: how they are opened, their histories, and calls that wait.

use crate::error::{check, must, refused, Error};
use crate::options::{Options, Policy};
use crate::sys;
use std::os::raw::c_char;
use std::sync::OnceLock;
use std::time::{Duration, Instant};
use std::{hint, ptr, thread};

/// A kind of object of the library.
///
/// # Safety
///
/// The functions are those of one kind in `aqs.h`.
pub(crate) unsafe trait Kind {
    type Raw;
    /// What it is opened with beside its options.
    type Start: Copy;

    /// # Safety
    ///
    /// The place is good for the call.
    unsafe fn open(place: *mut *mut Self::Raw, start: Self::Start, options: &sys::Options) -> sys::Status;
    /// # Safety
    ///
    /// The object is open, and no thread calls it later.
    unsafe fn close(raw: *mut Self::Raw);
    /// # Safety
    ///
    /// The object is open.
    unsafe fn object(raw: *mut Self::Raw) -> *mut sys::Object;
}

struct Handle<K: Kind>(*mut K::Raw);

// SAFETY: any thread may call an open object, at the same time as others.
unsafe impl<K: Kind> Send for Handle<K> {}
// SAFETY: the same.
unsafe impl<K: Kind> Sync for Handle<K> {}

impl<K: Kind> Handle<K> {
    fn open(start: K::Start, options: &Options) -> Result<Handle<K>, Error> {
        let mut raw = ptr::null_mut();
        // SAFETY: the place is good for the call.
        check(unsafe { K::open(&mut raw, start, &options.0) })?;
        Ok(Handle(raw))
    }
}

impl<K: Kind> Drop for Handle<K> {
    fn drop(&mut self) {
        // SAFETY: nobody borrows it, so no thread calls it later.
        unsafe { K::close(self.0) }
    }
}

/// A call that puts a text into a buffer.
type TextOf = unsafe extern "C" fn(*mut sys::Object, *mut c_char, usize, *mut usize) -> sys::Status;

/// An object that its first call opens.
pub(crate) struct Lazy<K: Kind> {
    handle: OnceLock<Handle<K>>,
    start: K::Start,
    options: Options,
}

impl<K: Kind> Lazy<K> {
    pub(crate) const fn new(start: K::Start, options: Options) -> Lazy<K> {
        Lazy { handle: OnceLock::new(), start, options }
    }

    /// The object, opened now.
    pub(crate) fn open(start: K::Start, options: Options) -> Result<Lazy<K>, Error> {
        let handle = OnceLock::from(Handle::open(start, &options)?);
        Ok(Lazy { handle, start, options })
    }

    /// Panics if it can't be opened.
    #[inline]
    #[track_caller]
    pub(crate) fn get(&self) -> *mut K::Raw {
        match self.handle.get() {
            Some(handle) => handle.0,
            None => self.open_now(),
        }
    }

    /// The object, if a call has opened it.
    pub(crate) fn opened(&self) -> Option<*mut K::Raw> {
        self.handle.get().map(|handle| handle.0)
    }

    #[cold]
    #[track_caller]
    fn open_now(&self) -> *mut K::Raw {
        let open = || Handle::open(self.start, &self.options).unwrap_or_else(|error| refused(error));
        self.handle.get_or_init(open).0
    }

    /// The text of the history since the last trim.
    pub(crate) fn history(&self) -> Result<String, Error> {
        self.text(sys::aqs_history_text)
    }

    /// Which thread each seat is.
    pub(crate) fn names(&self) -> Result<String, Error> {
        self.text(sys::aqs_history_names)
    }

    /// A text of the object. Other threads may lengthen it between two tries. So each try has twice the spare
    /// room, until the room is twice the text.
    fn text(&self, call: TextOf) -> Result<String, Error> {
        const NO_SPACE: sys::Status = 14;
        // SAFETY: the object is open.
        let object = unsafe { K::object(self.get()) };
        let mut text: Vec<u8> = Vec::new();
        let mut share = 8;
        loop {
            let (mut length, size) = (0, text.capacity());
            // SAFETY: the object is open, and the buffer has that room.
            let status = unsafe { call(object, text.as_mut_ptr().cast(), size, &mut length) };
            if status == NO_SPACE {
                text = Vec::with_capacity(length + length / share);
                share = (share / 2).max(1);
                continue;
            }
            check(status)?;
            // SAFETY: the call has written as many bytes.
            unsafe { text.set_len(length) };
            // The name of a thread may be cut within a character.
            return Ok(String::from_utf8(text)
                .unwrap_or_else(|error| String::from_utf8_lossy(error.as_bytes()).into_owned()));
        }
    }

    /// Forgets the recorded entries, and returns how many.
    pub(crate) fn trim(&self) -> Result<u64, Error> {
        let mut count = 0;
        // SAFETY: the object is open.
        check(unsafe { sys::aqs_history_trim(K::object(self.get()), &mut count) })?;
        Ok(count)
    }

    /// The policy that it was opened with.
    pub(crate) fn policy(&self) -> Policy {
        // SAFETY: the object is open.
        Policy::of(unsafe { sys::aqs_object_policy(K::object(self.get())) })
    }

    /// How many threads are in the queue.
    #[track_caller]
    pub(crate) fn queue_length(&self) -> u32 {
        self.count(sys::aqs_object_queue_length)
    }

    /// How many threads wait in all.
    #[track_caller]
    pub(crate) fn waiters(&self) -> u32 {
        self.count(sys::aqs_object_waiters)
    }

    #[track_caller]
    fn count(&self, call: unsafe extern "C" fn(*mut sys::Object, *mut u32) -> sys::Status) -> u32 {
        let mut count = 0;
        // SAFETY: the object is open, and the number lives.
        must(unsafe { call(K::object(self.get()), &mut count) });
        count
    }
}

/// The calls that each type has, by the path of its field to the object.
macro_rules! calls_of_each_object {
    ($($field:ident).+) => {
        /// How many threads are in the queue: those that wait for the value, for permits or for the latch.
        /// Others may come or leave before the caller reads it. It records nothing.
        #[track_caller]
        pub fn queue_length(&self) -> u32 {
            self.$($field).+.queue_length()
        }

        /// How many threads wait in all: those in the queue, and those on a [`Condvar`](crate::Condvar).
        /// Others may come or leave before the caller reads it. It records nothing.
        #[track_caller]
        pub fn waiters(&self) -> u32 {
            self.$($field).+.waiters()
        }

        /// The policy that it was opened with.
        pub fn policy(&self) -> crate::Policy {
            self.$($field).+.policy()
        }

        /// The text of the history since the last trim, as `aqs audit` and `aqs draw` read it.
        pub fn history(&self) -> Result<String, Error> {
            self.$($field).+.history()
        }

        /// Which thread each seat of the history is, or was last, as `aqs draw --names` reads it: for each seat
        /// a line with its number and the thread's name, cut to 15 characters.
        pub fn names(&self) -> Result<String, Error> {
            self.$($field).+.names()
        }

        /// Forgets the recorded entries, and returns how many.
        pub fn trim(&self) -> Result<u64, Error> {
            self.$($field).+.trim()
        }
    };
}
pub(crate) use calls_of_each_object;

/// The moment after this time from now. None: never.
pub(crate) fn after(time: Duration) -> Option<Instant> {
    Instant::now().checked_add(time)
}

pub(crate) fn left_of(until: Instant) -> Duration {
    until.saturating_duration_since(Instant::now())
}

/// The milliseconds until a moment, rounded up, as many as a call takes.
fn left(until: Instant) -> i64 {
    let whole = left_of(until).as_nanos().div_ceil(1_000_000);
    i64::try_from(whole).unwrap_or(i64::MAX)
}

pub(crate) fn is_up(until: Option<Instant>) -> bool {
    until.is_some_and(|until| Instant::now() >= until)
}

/// A call that waits in three ways: without end, until an interrupt, and for a number of milliseconds.
pub(crate) struct Waits<P, I, T> {
    pub(crate) plain: P,
    pub(crate) interruptibly: I,
    pub(crate) timed: T,
}

impl<P, I, T> Waits<P, I, T>
where
    P: Fn() -> sys::Status,
    I: Fn() -> sys::Status,
    T: Fn(i64) -> sys::Status,
{
    /// One call. A long time may be up for the library before it is for the caller.
    pub(crate) fn once(&self, until: Option<Instant>, interruptible: bool) -> sys::Status {
        match until {
            Some(until) => (self.timed)(left(until)),
            None if interruptible => (self.interruptibly)(),
            None => (self.plain)(),
        }
    }

    /// Calls until the time is up. An interrupt is left pending, unless it may end the wait.
    pub(crate) fn all(&self, until: Option<Instant>, interruptible: bool) -> sys::Status {
        let mut pending = Pending::default();
        loop {
            let status = self.once(until, interruptible);
            match check(status) {
                Err(Error::Interrupted) if !interruptible => pending.note(),
                Err(Error::TimedOut) if !is_up(until) => {}
                _ => return status,
            }
        }
    }
}

/// An interrupt that ended a call which no interrupt may end. It is pending again afterwards.
#[derive(Default)]
pub(crate) struct Pending(bool);

impl Pending {
    pub(crate) fn note(&mut self) {
        self.0 = true;
    }
}

impl Drop for Pending {
    fn drop(&mut self) {
        if self.0 {
            // SAFETY: any number has an answer, and that of a thread is in range.
            let _set = unsafe { sys::aqs_thread_interrupt(me()) };
        }
    }
}

/// Between two looks for what another thread is about to do.
pub(crate) fn back_off(looks: &mut u32) {
    *looks += 1;
    if *looks < 100 {
        hint::spin_loop()
    } else {
        thread::yield_now()
    }
}

/// What no thread has for a number, and is not what one without a number gets.
pub(crate) const NOBODY: u32 = u32::MAX - 1;

/// The calling thread's number.
#[inline]
pub(crate) fn me() -> u32 {
    // SAFETY: it takes nothing.
    unsafe { sys::aqs_thread_self() }
}
