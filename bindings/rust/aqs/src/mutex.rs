//! A lock round a value.

use crate::error::{check, taken, Error};
use crate::object::{after, calls_of_each_object};
use crate::options::Options;
use crate::raw_mutex::RawMutex;
use std::cell::UnsafeCell;
use std::fmt;
use std::marker::PhantomData;
use std::mem::ManuallyDrop;
use std::ops::{Deref, DerefMut};
use std::time::{Duration, Instant};

/// A lock round a value. Who gets it, and in which order, is decided by proved code.
///
/// [`lock`](Mutex::lock) lets one thread change the value. [`enter`](Mutex::enter) lets one thread read it,
/// and a thread that has entered may enter again, as with a reentrant lock. Threads wait on a
/// [`Condvar`](crate::Condvar) for what others do.
///
/// ```
/// use aqs::Mutex;
///
/// static COUNT: Mutex<u32> = Mutex::new(0);
///
/// std::thread::scope(|scope| {
///     for _ in 0..4 {
///         scope.spawn(|| *COUNT.lock() += 1);
///     }
/// });
/// assert_eq!(*COUNT.lock(), 4);
/// ```
///
/// A panic while a thread has the value leaves the mutex usable, as in parking_lot.
///
/// # Panics
///
/// Calls panic where they could never be right: a lock by the thread that has the value already, more threads
/// than the mutex was opened for, a full history that is to be kept. A `try` by the thread that has the value
/// returns None.
pub struct Mutex<T: ?Sized> {
    raw: RawMutex,
    value: UnsafeCell<T>,
}

// SAFETY: the value goes from thread to thread with the lock, and one thread at a time has it.
unsafe impl<T: ?Sized + Send> Send for Mutex<T> {}
// SAFETY: the same.
unsafe impl<T: ?Sized + Send> Sync for Mutex<T> {}

impl<T> Mutex<T> {
    /// A mutex with the default options. Its first call opens it.
    pub const fn new(value: T) -> Mutex<T> {
        Mutex { raw: RawMutex::unopened(Options::new()), value: UnsafeCell::new(value) }
    }

    /// A mutex with these options, which is open: [`Error::OutOfRange`] or [`Error::OutOfMemory`].
    pub fn with(value: T, options: Options) -> Result<Mutex<T>, Error> {
        Ok(Mutex { raw: RawMutex::open(options)?, value: UnsafeCell::new(value) })
    }

    /// The value, without the mutex.
    pub fn into_inner(self) -> T {
        self.value.into_inner()
    }
}

impl<T: ?Sized> Mutex<T> {
    #[track_caller]
    fn refuse_owner(&self) {
        assert!(!self.raw.is_mine(), "aqs: the thread has this mutex already");
    }

    fn guard(&self) -> MutexGuard<'_, T> {
        MutexGuard { mutex: self, not_send: PhantomData }
    }

    /// Takes the value, and waits until it is free.
    #[track_caller]
    pub fn lock(&self) -> MutexGuard<'_, T> {
        self.refuse_owner();
        self.raw.lock();
        self.guard()
    }

    /// The same, unless the thread is interrupted.
    #[track_caller]
    pub fn lock_interruptibly(&self) -> Result<MutexGuard<'_, T>, Error> {
        self.refuse_owner();
        check(self.raw.lock_until(None, true))?;
        Ok(self.guard())
    }

    /// The same, for at most this time: [`Error::TimedOut`] or [`Error::Interrupted`].
    #[track_caller]
    pub fn lock_interruptibly_for(&self, time: Duration) -> Result<MutexGuard<'_, T>, Error> {
        self.refuse_owner();
        check(self.raw.lock_until(after(time), true))?;
        Ok(self.guard())
    }

    /// Takes the value if it is free. None if any thread has it, also the calling one.
    #[track_caller]
    pub fn try_lock(&self) -> Option<MutexGuard<'_, T>> {
        (!self.raw.is_mine() && taken(self.raw.try_lock())).then(|| self.guard())
    }

    /// Takes the value, and waits for at most this time. The thread that has it gets None at once.
    #[track_caller]
    pub fn try_lock_for(&self, time: Duration) -> Option<MutexGuard<'_, T>> {
        self.try_lock_to(after(time))
    }

    /// Takes the value, and waits until a moment at the latest. The thread that has it gets None at once.
    #[track_caller]
    pub fn try_lock_until(&self, moment: Instant) -> Option<MutexGuard<'_, T>> {
        self.try_lock_to(Some(moment))
    }

    #[track_caller]
    fn try_lock_to(&self, until: Option<Instant>) -> Option<MutexGuard<'_, T>> {
        (!self.raw.is_mine() && taken(self.raw.lock_until(until, false))).then(|| self.guard())
    }

    /// Takes the value to read it. A thread that has entered may enter again.
    ///
    /// ```
    /// use aqs::Mutex;
    ///
    /// fn length(list: &Mutex<Vec<u8>>) -> usize {
    ///     list.enter().len()
    /// }
    ///
    /// let list = Mutex::new(vec![1, 2, 3]);
    /// let entry = list.enter();
    /// assert_eq!(length(&list), entry.len());
    /// ```
    #[track_caller]
    pub fn enter(&self) -> Entry<'_, T> {
        assert!(!self.has_locked(), "aqs: the thread has locked this mutex");
        self.raw.lock();
        self.entry()
    }

    /// Takes the value to read it, if no other thread has it and the calling one hasn't locked it.
    #[track_caller]
    pub fn try_enter(&self) -> Option<Entry<'_, T>> {
        (!self.has_locked() && taken(self.raw.try_lock())).then(|| self.entry())
    }

    /// The same, and waits for at most this time.
    #[track_caller]
    pub fn try_enter_for(&self, time: Duration) -> Option<Entry<'_, T>> {
        self.try_enter_to(after(time))
    }

    /// The same, and waits until a moment at the latest.
    #[track_caller]
    pub fn try_enter_until(&self, moment: Instant) -> Option<Entry<'_, T>> {
        self.try_enter_to(Some(moment))
    }

    #[track_caller]
    fn try_enter_to(&self, until: Option<Instant>) -> Option<Entry<'_, T>> {
        (!self.has_locked() && taken(self.raw.lock_until(until, false))).then(|| self.entry())
    }

    fn has_locked(&self) -> bool {
        self.raw.is_mine() && self.raw.entered().get() == 0
    }

    fn entry(&self) -> Entry<'_, T> {
        self.raw.entered().set(self.raw.entered().get() + 1);
        Entry { mutex: self, not_send: PhantomData }
    }

    /// The value, for a guard without a reference to the mutex.
    pub(crate) fn value(&self) -> *mut T {
        self.value.get()
    }

    pub(crate) fn raw(&self) -> &RawMutex {
        &self.raw
    }

    /// Whether any thread has the value. Another thread may change that before the caller reads it. It
    /// records nothing.
    #[track_caller]
    pub fn is_locked(&self) -> bool {
        self.raw.is_locked()
    }

    /// Whether the calling thread has the value.
    pub fn is_mine(&self) -> bool {
        self.raw.is_mine()
    }

    /// How often the calling thread has the value: 1 if it has locked, and else as often as it has entered. It
    /// records nothing.
    pub fn holds(&self) -> u32 {
        self.raw.holds()
    }

    /// Gives the value up for a guard that was forgotten, as `lock_api::RawMutex::unlock` has to.
    ///
    /// ```
    /// use aqs::Mutex;
    ///
    /// static LOCK: Mutex<()> = Mutex::new(());
    ///
    /// std::mem::forget(LOCK.lock());
    /// // SAFETY: the guard of this thread was forgotten above.
    /// unsafe { LOCK.force_unlock() };
    /// assert!(!LOCK.is_locked());
    /// ```
    ///
    /// # Safety
    ///
    /// The calling thread has locked the mutex, and its guard was forgotten. No reference to the value that the
    /// guard lent is used any more.
    pub unsafe fn force_unlock(&self) {
        self.raw.unlock();
    }

    /// The value, which nobody else can reach.
    pub fn get_mut(&mut self) -> &mut T {
        self.value.get_mut()
    }

    calls_of_each_object! { raw.lock }
}

impl<T: Default> Default for Mutex<T> {
    fn default() -> Mutex<T> {
        Mutex::new(T::default())
    }
}

impl<T> From<T> for Mutex<T> {
    fn from(value: T) -> Mutex<T> {
        Mutex::new(value)
    }
}

impl<T: ?Sized + fmt::Debug> fmt::Debug for Mutex<T> {
    fn fmt(&self, f: &mut fmt::Formatter<'_>) -> fmt::Result {
        match self.try_lock() {
            Some(guard) => f.debug_struct("Mutex").field("data", &&*guard).finish(),
            None => f.debug_struct("Mutex").field("data", &format_args!("<locked>")).finish(),
        }
    }
}

/// What a guard shows of itself is its value.
macro_rules! shows_its_value {
    ($($name:ident)*) => {$(
        impl<T: ?Sized + fmt::Debug> fmt::Debug for $name<'_, T> {
            fn fmt(&self, f: &mut fmt::Formatter<'_>) -> fmt::Result {
                (**self).fmt(f)
            }
        }

        impl<T: ?Sized + fmt::Display> fmt::Display for $name<'_, T> {
            fn fmt(&self, f: &mut fmt::Formatter<'_>) -> fmt::Result {
                (**self).fmt(f)
            }
        }

        // SAFETY: a shared guard lends the value to be read.
        unsafe impl<T: ?Sized + Sync> Sync for $name<'_, T> {}
    )*};
}
pub(crate) use shows_its_value;

shows_its_value! { MutexGuard MappedMutexGuard Entry }

/// The value of a mutex, which one thread has until the guard is dropped.
#[must_use = "the mutex is free again if the guard is not kept"]
pub struct MutexGuard<'m, T: ?Sized> {
    mutex: &'m Mutex<T>,
    not_send: PhantomData<*const ()>,
}

impl<'m, T: ?Sized> MutexGuard<'m, T> {
    pub(crate) fn raw(&self) -> &RawMutex {
        &self.mutex.raw
    }

    /// The mutex of a guard.
    pub fn mutex(guard: &MutexGuard<'m, T>) -> &'m Mutex<T> {
        guard.mutex
    }

    /// Gives the value up, calls a function, and has the value again, also if the function panics.
    pub fn unlocked<R>(guard: &mut MutexGuard<'m, T>, call: impl FnOnce() -> R) -> R {
        struct Again<'r>(&'r RawMutex);
        impl Drop for Again<'_> {
            fn drop(&mut self) {
                self.0.lock();
            }
        }
        guard.raw().unlock();
        let _again = Again(guard.raw());
        call()
    }

    /// Gives the value up, as a drop does: whose it is next is decided by the policy of the mutex. If that is
    /// fair ([`Options::fair`]), no thread that comes later has it before those that wait.
    pub fn unlock_fair(guard: MutexGuard<'m, T>) {
        drop(guard);
    }

    /// Lets a thread that waits for the value have it in between.
    pub fn bump(guard: &mut MutexGuard<'m, T>) {
        MutexGuard::unlocked(guard, || {});
    }

    /// A guard of a part of the value.
    ///
    /// ```
    /// use aqs::{Mutex, MutexGuard};
    ///
    /// let pair = Mutex::new((1, "one"));
    /// let mut first = MutexGuard::map(pair.lock(), |pair| &mut pair.0);
    /// *first += 1;
    /// drop(first);
    /// assert_eq!(*pair.lock(), (2, "one"));
    /// ```
    pub fn map<U: ?Sized>(
        guard: MutexGuard<'m, T>,
        part: impl FnOnce(&mut T) -> &mut U,
    ) -> MappedMutexGuard<'m, U> {
        let mut guard = guard;
        let value: *mut U = part(&mut *guard);
        let raw = &ManuallyDrop::new(guard).mutex.raw;
        MappedMutexGuard { raw, value, lends: PhantomData }
    }

    /// The same if there is such a part, and else the guard again.
    pub fn try_map<U: ?Sized>(
        guard: MutexGuard<'m, T>,
        part: impl FnOnce(&mut T) -> Option<&mut U>,
    ) -> Result<MappedMutexGuard<'m, U>, MutexGuard<'m, T>> {
        let mut guard = guard;
        match part(&mut *guard).map(|it| -> *mut U { it }) {
            Some(value) => {
                let raw = &ManuallyDrop::new(guard).mutex.raw;
                Ok(MappedMutexGuard { raw, value, lends: PhantomData })
            }
            None => Err(guard),
        }
    }
}

impl<T: ?Sized> Deref for MutexGuard<'_, T> {
    type Target = T;

    fn deref(&self) -> &T {
        // SAFETY: the thread has the lock.
        unsafe { &*self.mutex.value.get() }
    }
}

impl<T: ?Sized> DerefMut for MutexGuard<'_, T> {
    fn deref_mut(&mut self) -> &mut T {
        // SAFETY: the thread has the lock, no entry, and no other guard.
        unsafe { &mut *self.mutex.value.get() }
    }
}

impl<T: ?Sized> Drop for MutexGuard<'_, T> {
    fn drop(&mut self) {
        self.raw().unlock();
    }
}

/// A part of the value of a mutex, which one thread has until the guard is dropped.
#[must_use = "the mutex is free again if the guard is not kept"]
pub struct MappedMutexGuard<'m, T: ?Sized> {
    raw: &'m RawMutex,
    value: *mut T,
    lends: PhantomData<&'m mut T>,
}

impl<'m, T: ?Sized> MappedMutexGuard<'m, T> {
    /// A guard of a part of this part.
    pub fn map<U: ?Sized>(
        guard: MappedMutexGuard<'m, T>,
        part: impl FnOnce(&mut T) -> &mut U,
    ) -> MappedMutexGuard<'m, U> {
        let mut guard = guard;
        let value: *mut U = part(&mut *guard);
        let raw = ManuallyDrop::new(guard).raw;
        MappedMutexGuard { raw, value, lends: PhantomData }
    }

    /// The same if there is such a part, and else the guard again.
    pub fn try_map<U: ?Sized>(
        guard: MappedMutexGuard<'m, T>,
        part: impl FnOnce(&mut T) -> Option<&mut U>,
    ) -> Result<MappedMutexGuard<'m, U>, MappedMutexGuard<'m, T>> {
        let mut guard = guard;
        match part(&mut *guard).map(|it| -> *mut U { it }) {
            Some(value) => {
                let raw = ManuallyDrop::new(guard).raw;
                Ok(MappedMutexGuard { raw, value, lends: PhantomData })
            }
            None => Err(guard),
        }
    }
}

impl<T: ?Sized> Deref for MappedMutexGuard<'_, T> {
    type Target = T;

    fn deref(&self) -> &T {
        // SAFETY: the thread has the lock, and the value is part of the mutex's.
        unsafe { &*self.value }
    }
}

impl<T: ?Sized> DerefMut for MappedMutexGuard<'_, T> {
    fn deref_mut(&mut self) -> &mut T {
        // SAFETY: the same, and it has no other guard.
        unsafe { &mut *self.value }
    }
}

impl<T: ?Sized> Drop for MappedMutexGuard<'_, T> {
    fn drop(&mut self) {
        self.raw.unlock();
    }
}

/// The value of a mutex, which one thread reads until the entry is dropped.
#[must_use = "the mutex is free again if the entry is not kept"]
pub struct Entry<'m, T: ?Sized> {
    mutex: &'m Mutex<T>,
    not_send: PhantomData<*const ()>,
}

impl<T: ?Sized> Entry<'_, T> {
    /// Gives the value up, as [`MutexGuard::unlock_fair`].
    pub fn unlock_fair(entry: Self) {
        drop(entry);
    }
}

impl<T: ?Sized> Deref for Entry<'_, T> {
    type Target = T;

    fn deref(&self) -> &T {
        // SAFETY: the thread has the lock, and no guard.
        unsafe { &*self.mutex.value.get() }
    }
}

impl<T: ?Sized> Drop for Entry<'_, T> {
    fn drop(&mut self) {
        let raw = &self.mutex.raw;
        raw.entered().set(raw.entered().get() - 1);
        if raw.entered().get() == 0 {
            raw.unlock();
        } else {
            raw.leave();
        }
    }
}
