//! A read-write lock round a value.

use crate::error::{check, must, taken, Error};
use crate::mutex::shows_its_value;
use crate::object::{after, back_off, calls_of_each_object, is_up, left_of, me, Kind, Lazy, Waits, NOBODY};
use crate::options::Options;
use crate::sys::{self, Status};
use std::cell::UnsafeCell;
use std::fmt;
use std::marker::PhantomData;
use std::mem::ManuallyDrop;
use std::ops::{Deref, DerefMut};
use std::sync::atomic::{AtomicU32, AtomicUsize, Ordering};
use std::sync::{Condvar, Mutex, PoisonError};
use std::time::{Duration, Instant};

enum RwLockKind {}

// SAFETY: they are the functions of a read-write lock.
unsafe impl Kind for RwLockKind {
    type Raw = sys::RwLock;
    type Start = ();

    unsafe fn open(place: *mut *mut sys::RwLock, _start: (), options: &sys::Options) -> Status {
        // SAFETY: the caller sees to it.
        unsafe { sys::aqs_rwlock_open(place, options) }
    }

    unsafe fn close(raw: *mut sys::RwLock) {
        // SAFETY: the caller sees to it.
        unsafe { sys::aqs_rwlock_close(raw) }
    }

    unsafe fn object(raw: *mut sys::RwLock) -> *mut sys::Object {
        // SAFETY: the caller sees to it.
        unsafe { sys::aqs_rwlock_object(raw) }
    }
}

struct RawRwLock {
    lock: Lazy<RwLockKind>,
    /// Who writes. Only that thread writes its own number, so a thread knows of itself.
    writer: AtomicU32,
    /// How many guards read.
    readers: AtomicUsize,
    /// The reader that may go on to write. It changes while its thread reads or writes, or has just done so.
    /// Whoever else comes to write meanwhile leaves again: so nobody writes between its read and its write.
    upgrader: AtomicU32,
    vacancy: Mutex<()>,
    vacant: Condvar,
}

const TIMED_OUT: Status = 1;
const WOULD_BLOCK: Status = 3;

impl RawRwLock {
    const fn new(lock: Lazy<RwLockKind>) -> RawRwLock {
        RawRwLock {
            lock,
            writer: AtomicU32::new(NOBODY),
            readers: AtomicUsize::new(0),
            upgrader: AtomicU32::new(NOBODY),
            vacancy: Mutex::new(()),
            vacant: Condvar::new(),
        }
    }

    fn writes(&self) -> bool {
        self.writer.load(Ordering::Relaxed) == me()
    }

    fn read_holds(&self) -> u32 {
        // SAFETY: the lock is open.
        self.lock.opened().map_or(0, |lock| unsafe { sys::aqs_rwlock_read_holds(lock) })
    }

    #[track_caller]
    fn is_write_locked(&self) -> bool {
        let mut is_locked = false;
        // SAFETY: the lock is open, and the answer lives.
        must(unsafe { sys::aqs_rwlock_is_write_locked(self.lock.get(), &mut is_locked) });
        is_locked
    }

    #[track_caller]
    fn refuse_writer(&self) {
        assert!(!self.writes(), "aqs: the thread writes already");
    }

    fn reads(&self, status: Status) -> Status {
        if status == 0 {
            self.readers.fetch_add(1, Ordering::Relaxed);
        }
        status
    }

    fn wrote(&self, status: Status) -> Status {
        if status == 0 {
            self.writer.store(me(), Ordering::Relaxed);
        }
        status
    }

    fn try_read(&self) -> Status {
        // SAFETY: the lock is open.
        self.reads(unsafe { sys::aqs_rwlock_tryrdlock(self.lock.get()) })
    }

    fn try_write(&self) -> Status {
        // SAFETY: the lock is open.
        let status = unsafe { sys::aqs_rwlock_trywrlock(self.lock.get()) };
        if status == 0 && self.must_leave() {
            return WOULD_BLOCK;
        }
        self.wrote(status)
    }

    /// Whether another thread may go on to write. Then this one, which has just got the lock, has given it up.
    fn must_leave(&self) -> bool {
        let upgrader = self.upgrader.load(Ordering::SeqCst);
        let must = upgrader != NOBODY && upgrader != me();
        if must {
            self.unlock_writer();
        }
        must
    }

    fn read(&self, until: Option<Instant>, interruptible: bool) -> Status {
        let lock = self.lock.get();
        // SAFETY: the lock is open.
        let status = unsafe {
            let plain = || sys::aqs_rwlock_rdlock(lock);
            let interruptibly = || sys::aqs_rwlock_rdlock_interruptibly(lock);
            let timed = |time| sys::aqs_rwlock_timedrdlock(lock, time);
            Waits { plain, interruptibly, timed }.all(until, interruptible)
        };
        self.reads(status)
    }

    fn write(&self, until: Option<Instant>, interruptible: bool) -> Status {
        let lock = self.lock.get();
        let mut looks = 0;
        loop {
            // SAFETY: the lock is open.
            let status = unsafe {
                let plain = || sys::aqs_rwlock_wrlock(lock);
                let interruptibly = || sys::aqs_rwlock_wrlock_interruptibly(lock);
                let timed = |time| sys::aqs_rwlock_timedwrlock(lock, time);
                Waits { plain, interruptibly, timed }.all(until, interruptible)
            };
            if status != 0 || !self.must_leave() {
                return self.wrote(status);
            }
            if is_up(until) {
                return TIMED_OUT;
            }
            back_off(&mut looks);
        }
    }

    // It never lacks memory or room.
    fn stop_reading(&self) {
        self.readers.fetch_sub(1, Ordering::Relaxed);
        // SAFETY: the lock is open, and the thread reads.
        let _given = unsafe { sys::aqs_rwlock_rdunlock(self.lock.get()) };
    }

    fn stop_writing(&self) {
        self.writer.store(NOBODY, Ordering::Relaxed);
        self.unlock_writer();
    }

    // It never lacks memory or room.
    fn unlock_writer(&self) {
        // SAFETY: the lock is open, and the thread writes.
        let _given = unsafe { sys::aqs_rwlock_wrunlock(self.lock.get()) };
    }

    #[track_caller]
    fn refuse_upgrader(&self) {
        self.refuse_writer();
        let is_upgrader = self.upgrader.load(Ordering::SeqCst) == me();
        assert!(!is_upgrader, "aqs: the thread has an upgradable read already");
    }

    /// Whether this thread, which reads, is now the one that may go on to write.
    fn is_upgrader(&self) -> bool {
        self.upgrader.compare_exchange(NOBODY, me(), Ordering::SeqCst, Ordering::SeqCst).is_ok()
    }

    fn try_read_to_upgrade(&self) -> Status {
        let status = self.try_read();
        if status == 0 && !self.is_upgrader() {
            self.stop_reading();
            return WOULD_BLOCK;
        }
        status
    }

    fn read_to_upgrade(&self, until: Option<Instant>) -> Status {
        loop {
            let status = self.read(until, false);
            if status != 0 || self.is_upgrader() {
                return status;
            }
            self.stop_reading();
            if !self.is_vacant_before(until) {
                return TIMED_OUT;
            }
        }
    }

    /// Waits until no thread may go on to write. False if the time is up before.
    fn is_vacant_before(&self, until: Option<Instant>) -> bool {
        let mut guard = self.vacancy.lock().unwrap_or_else(PoisonError::into_inner);
        while self.upgrader.load(Ordering::SeqCst) != NOBODY {
            guard = match until {
                None => self.vacant.wait(guard).unwrap_or_else(PoisonError::into_inner),
                Some(_) if is_up(until) => return false,
                Some(until) => {
                    let waited = self.vacant.wait_timeout(guard, left_of(until));
                    waited.unwrap_or_else(PoisonError::into_inner).0
                }
            };
        }
        true
    }

    /// This thread won't go on to write.
    fn vacate(&self) {
        let guard = self.vacancy.lock().unwrap_or_else(PoisonError::into_inner);
        self.upgrader.store(NOBODY, Ordering::SeqCst);
        drop(guard);
        self.vacant.notify_all();
    }

    /// The reader that may go on to write does so. If it is refused it has nothing any more.
    #[track_caller]
    fn upgrade(&self) {
        self.stop_reading();
        let status = self.write(None, false);
        self.vacate();
        must(status);
    }

    /// The same if nobody else reads before the time is up. Else it reads on, and nobody has written meanwhile.
    #[track_caller]
    fn try_upgrade(&self, write: impl FnOnce() -> Status) -> bool {
        self.stop_reading();
        if write() == 0 {
            self.vacate();
            return true;
        }
        let status = self.read(None, false);
        if status != 0 {
            self.vacate();
        }
        must(status);
        false
    }

    /// The thread that writes goes on as the reader that may write again.
    #[track_caller]
    fn downgrade_to_upgradable(&self) {
        let status = self.read(None, false);
        if status == 0 {
            self.upgrader.store(me(), Ordering::SeqCst);
        }
        self.stop_writing();
        must(status);
    }

    /// The thread that writes goes on as a reader.
    #[track_caller]
    fn downgrade(&self) {
        must(self.read(None, false));
        self.stop_writing();
    }
}

/// A value that many threads read at a time, or one changes.
///
/// ```
/// use aqs::RwLock;
///
/// let lock = RwLock::new(1);
/// *lock.write() += 1;
/// let (one, two) = (lock.read(), lock.read());
/// assert_eq!((*one, *two), (2, 2));
/// assert!(lock.try_read().is_some());
/// assert!(lock.try_write().is_none());
/// ```
///
/// # Panics
///
/// A read or write by the thread that writes already, and what panics at a [`Mutex`](crate::Mutex). A `try`
/// by the thread that writes returns None. A thread that reads and asks to write waits for itself.
pub struct RwLock<T: ?Sized> {
    raw: RawRwLock,
    value: UnsafeCell<T>,
}

// SAFETY: the value goes from thread to thread with the lock.
unsafe impl<T: ?Sized + Send> Send for RwLock<T> {}
// SAFETY: many threads may read, and one at a time may change the value.
unsafe impl<T: ?Sized + Send + Sync> Sync for RwLock<T> {}

impl<T> RwLock<T> {
    /// A lock with the default options. Its first call opens it.
    pub const fn new(value: T) -> RwLock<T> {
        RwLock { raw: RawRwLock::new(Lazy::new((), Options::new())), value: UnsafeCell::new(value) }
    }

    /// A lock with these options, which is open: [`Error::OutOfRange`] or [`Error::OutOfMemory`].
    pub fn with(value: T, options: Options) -> Result<RwLock<T>, Error> {
        Ok(RwLock { raw: RawRwLock::new(Lazy::open((), options)?), value: UnsafeCell::new(value) })
    }

    /// The value, without the lock.
    pub fn into_inner(self) -> T {
        self.value.into_inner()
    }
}

impl<T: ?Sized> RwLock<T> {
    fn reader(&self) -> ReadGuard<'_, T> {
        ReadGuard { lock: self, not_send: PhantomData }
    }

    fn writer(&self) -> WriteGuard<'_, T> {
        WriteGuard { lock: self, not_send: PhantomData }
    }

    /// Takes the value to read it, and waits while somebody writes.
    #[track_caller]
    pub fn read(&self) -> ReadGuard<'_, T> {
        self.raw.refuse_writer();
        must(self.raw.read(None, false));
        self.reader()
    }

    /// The same. A thread that reads already never waits for one that wants to write, by either name.
    #[track_caller]
    pub fn read_recursive(&self) -> ReadGuard<'_, T> {
        self.read()
    }

    /// The same, unless the thread is interrupted.
    #[track_caller]
    pub fn read_interruptibly(&self) -> Result<ReadGuard<'_, T>, Error> {
        self.raw.refuse_writer();
        check(self.raw.read(None, true))?;
        Ok(self.reader())
    }

    /// The same, for at most this time: [`Error::TimedOut`] or [`Error::Interrupted`].
    #[track_caller]
    pub fn read_interruptibly_for(&self, time: Duration) -> Result<ReadGuard<'_, T>, Error> {
        self.raw.refuse_writer();
        check(self.raw.read(after(time), true))?;
        Ok(self.reader())
    }

    /// Takes the value to read it, if nobody writes.
    #[track_caller]
    pub fn try_read(&self) -> Option<ReadGuard<'_, T>> {
        (!self.raw.writes() && taken(self.raw.try_read())).then(|| self.reader())
    }

    /// The same, by the name that it has in parking_lot.
    #[track_caller]
    pub fn try_read_recursive(&self) -> Option<ReadGuard<'_, T>> {
        self.try_read()
    }

    /// Takes the value to read it, and waits for at most this time.
    #[track_caller]
    pub fn try_read_for(&self, time: Duration) -> Option<ReadGuard<'_, T>> {
        self.try_read_to(after(time))
    }

    /// Takes the value to read it, and waits until a moment at the latest.
    #[track_caller]
    pub fn try_read_until(&self, moment: Instant) -> Option<ReadGuard<'_, T>> {
        self.try_read_to(Some(moment))
    }

    #[track_caller]
    fn try_read_to(&self, until: Option<Instant>) -> Option<ReadGuard<'_, T>> {
        (!self.raw.writes() && taken(self.raw.read(until, false))).then(|| self.reader())
    }

    fn upgradable(&self) -> UpgradableReadGuard<'_, T> {
        UpgradableReadGuard { lock: self, not_send: PhantomData }
    }

    /// Takes the value to read it, and perhaps to change it later ([`UpgradableReadGuard::upgrade`]). One
    /// thread at a time may have it so, beside those that read.
    ///
    /// ```
    /// use aqs::{RwLock, UpgradableReadGuard};
    ///
    /// let lock = RwLock::new(1);
    /// let reads = lock.upgradable_read();
    /// assert_eq!((*reads, *lock.read()), (1, 1));
    /// *UpgradableReadGuard::upgrade(reads) += 1;
    /// assert_eq!(*lock.read(), 2);
    /// ```
    #[track_caller]
    pub fn upgradable_read(&self) -> UpgradableReadGuard<'_, T> {
        self.raw.refuse_upgrader();
        must(self.raw.read_to_upgrade(None));
        self.upgradable()
    }

    /// The same, if nobody writes and no thread has the value so.
    #[track_caller]
    pub fn try_upgradable_read(&self) -> Option<UpgradableReadGuard<'_, T>> {
        (!self.raw.writes() && taken(self.raw.try_read_to_upgrade())).then(|| self.upgradable())
    }

    /// The same, and waits for at most this time.
    #[track_caller]
    pub fn try_upgradable_read_for(&self, time: Duration) -> Option<UpgradableReadGuard<'_, T>> {
        self.try_upgradable_read_to(after(time))
    }

    /// The same, and waits until a moment at the latest.
    #[track_caller]
    pub fn try_upgradable_read_until(&self, moment: Instant) -> Option<UpgradableReadGuard<'_, T>> {
        self.try_upgradable_read_to(Some(moment))
    }

    #[track_caller]
    fn try_upgradable_read_to(&self, until: Option<Instant>) -> Option<UpgradableReadGuard<'_, T>> {
        (!self.raw.writes() && taken(self.raw.read_to_upgrade(until))).then(|| self.upgradable())
    }

    /// The value, for a guard without a reference to the lock.
    pub(crate) fn value(&self) -> *mut T {
        self.value.get()
    }

    pub(crate) fn stop_reading(&self) {
        self.raw.stop_reading();
    }

    pub(crate) fn stop_writing(&self) {
        self.raw.stop_writing();
    }

    /// Takes the value to change it, and waits until nobody else has it.
    #[track_caller]
    pub fn write(&self) -> WriteGuard<'_, T> {
        self.raw.refuse_writer();
        must(self.raw.write(None, false));
        self.writer()
    }

    /// The same, unless the thread is interrupted.
    #[track_caller]
    pub fn write_interruptibly(&self) -> Result<WriteGuard<'_, T>, Error> {
        self.raw.refuse_writer();
        check(self.raw.write(None, true))?;
        Ok(self.writer())
    }

    /// The same, for at most this time: [`Error::TimedOut`] or [`Error::Interrupted`].
    #[track_caller]
    pub fn write_interruptibly_for(&self, time: Duration) -> Result<WriteGuard<'_, T>, Error> {
        self.raw.refuse_writer();
        check(self.raw.write(after(time), true))?;
        Ok(self.writer())
    }

    /// Takes the value to change it, if nobody has it.
    #[track_caller]
    pub fn try_write(&self) -> Option<WriteGuard<'_, T>> {
        (!self.raw.writes() && taken(self.raw.try_write())).then(|| self.writer())
    }

    /// Takes the value to change it, and waits for at most this time.
    #[track_caller]
    pub fn try_write_for(&self, time: Duration) -> Option<WriteGuard<'_, T>> {
        self.try_write_to(after(time))
    }

    /// Takes the value to change it, and waits until a moment at the latest.
    #[track_caller]
    pub fn try_write_until(&self, moment: Instant) -> Option<WriteGuard<'_, T>> {
        self.try_write_to(Some(moment))
    }

    #[track_caller]
    fn try_write_to(&self, until: Option<Instant>) -> Option<WriteGuard<'_, T>> {
        (!self.raw.writes() && taken(self.raw.write(until, false))).then(|| self.writer())
    }

    /// Whether any thread reads or writes. Another thread may change that before the caller reads it.
    #[track_caller]
    pub fn is_locked(&self) -> bool {
        self.is_locked_exclusive() || self.raw.readers.load(Ordering::Relaxed) > 0
    }

    /// Whether any thread writes. Another thread may change that before the caller reads it. It records
    /// nothing.
    #[track_caller]
    pub fn is_locked_exclusive(&self) -> bool {
        self.raw.is_write_locked()
    }

    /// Whether the calling thread writes.
    pub fn is_mine(&self) -> bool {
        self.raw.writes()
    }

    /// How often the calling thread reads. It records nothing.
    pub fn read_holds(&self) -> u32 {
        self.raw.read_holds()
    }

    /// The value, which nobody else can reach.
    pub fn get_mut(&mut self) -> &mut T {
        self.value.get_mut()
    }

    calls_of_each_object! { raw.lock }
}

impl<T: Default> Default for RwLock<T> {
    fn default() -> RwLock<T> {
        RwLock::new(T::default())
    }
}

impl<T> From<T> for RwLock<T> {
    fn from(value: T) -> RwLock<T> {
        RwLock::new(value)
    }
}

impl<T: ?Sized + fmt::Debug> fmt::Debug for RwLock<T> {
    fn fmt(&self, f: &mut fmt::Formatter<'_>) -> fmt::Result {
        match self.try_read() {
            Some(guard) => f.debug_struct("RwLock").field("data", &&*guard).finish(),
            None => f.debug_struct("RwLock").field("data", &format_args!("<locked>")).finish(),
        }
    }
}

shows_its_value! { ReadGuard UpgradableReadGuard WriteGuard MappedReadGuard MappedWriteGuard }

/// A value that is read until the guard is dropped.
#[must_use = "the lock is free again if the guard is not kept"]
pub struct ReadGuard<'l, T: ?Sized> {
    lock: &'l RwLock<T>,
    not_send: PhantomData<*const ()>,
}

impl<'l, T: ?Sized> ReadGuard<'l, T> {
    /// Gives the value up, as a drop does: whose it is next is decided by the policy of the lock.
    pub fn unlock_fair(guard: ReadGuard<'l, T>) {
        drop(guard);
    }

    /// A guard of a part of the value.
    pub fn map<U: ?Sized>(guard: ReadGuard<'l, T>, part: impl FnOnce(&T) -> &U) -> MappedReadGuard<'l, U> {
        let value: *const U = part(&*guard);
        let raw = &ManuallyDrop::new(guard).lock.raw;
        MappedReadGuard { raw, value, lends: PhantomData }
    }

    /// The same if there is such a part, and else the guard again.
    pub fn try_map<U: ?Sized>(
        guard: ReadGuard<'l, T>,
        part: impl FnOnce(&T) -> Option<&U>,
    ) -> Result<MappedReadGuard<'l, U>, ReadGuard<'l, T>> {
        match part(&*guard).map(|it| -> *const U { it }) {
            Some(value) => {
                let raw = &ManuallyDrop::new(guard).lock.raw;
                Ok(MappedReadGuard { raw, value, lends: PhantomData })
            }
            None => Err(guard),
        }
    }
}

impl<T: ?Sized> Deref for ReadGuard<'_, T> {
    type Target = T;

    fn deref(&self) -> &T {
        // SAFETY: the thread reads, so nobody writes.
        unsafe { &*self.lock.value.get() }
    }
}

impl<T: ?Sized> Drop for ReadGuard<'_, T> {
    fn drop(&mut self) {
        self.lock.raw.stop_reading();
    }
}

/// A value that is read until the guard is dropped, or changed after it is upgraded.
#[must_use = "the lock is free again if the guard is not kept"]
pub struct UpgradableReadGuard<'l, T: ?Sized> {
    lock: &'l RwLock<T>,
    not_send: PhantomData<*const ()>,
}

impl<'l, T: ?Sized> UpgradableReadGuard<'l, T> {
    /// Goes on to change the value, when those that read have ended: nobody writes in between.
    #[track_caller]
    pub fn upgrade(guard: UpgradableReadGuard<'l, T>) -> WriteGuard<'l, T> {
        let lock = ManuallyDrop::new(guard).lock;
        lock.raw.upgrade();
        lock.writer()
    }

    /// The same if nobody else reads, and else the guard again. Nobody writes meanwhile.
    #[track_caller]
    pub fn try_upgrade(
        guard: UpgradableReadGuard<'l, T>,
    ) -> Result<WriteGuard<'l, T>, UpgradableReadGuard<'l, T>> {
        let lock = ManuallyDrop::new(guard).lock;
        let is_writer = lock.raw.try_upgrade(|| lock.raw.try_write());
        is_writer.then(|| lock.writer()).ok_or_else(|| lock.upgradable())
    }

    /// The same, and waits for at most this time.
    #[track_caller]
    pub fn try_upgrade_for(
        guard: UpgradableReadGuard<'l, T>,
        time: Duration,
    ) -> Result<WriteGuard<'l, T>, UpgradableReadGuard<'l, T>> {
        let lock = ManuallyDrop::new(guard).lock;
        let is_writer = lock.raw.try_upgrade(|| lock.raw.write(after(time), false));
        is_writer.then(|| lock.writer()).ok_or_else(|| lock.upgradable())
    }

    /// Goes on as a reader like others.
    pub fn downgrade(guard: UpgradableReadGuard<'l, T>) -> ReadGuard<'l, T> {
        let lock = ManuallyDrop::new(guard).lock;
        lock.raw.vacate();
        lock.reader()
    }
}

impl<T: ?Sized> Deref for UpgradableReadGuard<'_, T> {
    type Target = T;

    fn deref(&self) -> &T {
        // SAFETY: the thread reads, so nobody writes.
        unsafe { &*self.lock.value.get() }
    }
}

impl<T: ?Sized> Drop for UpgradableReadGuard<'_, T> {
    fn drop(&mut self) {
        self.lock.raw.vacate();
        self.lock.raw.stop_reading();
    }
}

/// A part of a value that is read until the guard is dropped.
#[must_use = "the lock is free again if the guard is not kept"]
pub struct MappedReadGuard<'l, T: ?Sized> {
    raw: &'l RawRwLock,
    value: *const T,
    lends: PhantomData<&'l T>,
}

impl<'l, T: ?Sized> MappedReadGuard<'l, T> {
    /// A guard of a part of this part.
    pub fn map<U: ?Sized>(
        guard: MappedReadGuard<'l, T>,
        part: impl FnOnce(&T) -> &U,
    ) -> MappedReadGuard<'l, U> {
        let value: *const U = part(&*guard);
        MappedReadGuard { raw: ManuallyDrop::new(guard).raw, value, lends: PhantomData }
    }
}

impl<T: ?Sized> Deref for MappedReadGuard<'_, T> {
    type Target = T;

    fn deref(&self) -> &T {
        // SAFETY: the thread reads, and the value is part of the lock's.
        unsafe { &*self.value }
    }
}

impl<T: ?Sized> Drop for MappedReadGuard<'_, T> {
    fn drop(&mut self) {
        self.raw.stop_reading();
    }
}

/// A value that one thread changes until the guard is dropped.
#[must_use = "the lock is free again if the guard is not kept"]
pub struct WriteGuard<'l, T: ?Sized> {
    lock: &'l RwLock<T>,
    not_send: PhantomData<*const ()>,
}

impl<'l, T: ?Sized> WriteGuard<'l, T> {
    /// Gives the value up, as a drop does: whose it is next is decided by the policy of the lock.
    pub fn unlock_fair(guard: WriteGuard<'l, T>) {
        drop(guard);
    }

    /// Goes on as the reader that may write again: nobody writes in between.
    #[track_caller]
    pub fn downgrade_to_upgradable(self) -> UpgradableReadGuard<'l, T> {
        let lock = ManuallyDrop::new(self).lock;
        lock.raw.downgrade_to_upgradable();
        lock.upgradable()
    }

    /// Goes on as a reader: nobody writes in between.
    #[track_caller]
    pub fn downgrade(self) -> ReadGuard<'l, T> {
        let lock = self.lock;
        lock.raw.downgrade();
        let _ = ManuallyDrop::new(self);
        lock.reader()
    }

    /// A guard of a part of the value.
    pub fn map<U: ?Sized>(
        guard: WriteGuard<'l, T>,
        part: impl FnOnce(&mut T) -> &mut U,
    ) -> MappedWriteGuard<'l, U> {
        let mut guard = guard;
        let value: *mut U = part(&mut *guard);
        let raw = &ManuallyDrop::new(guard).lock.raw;
        MappedWriteGuard { raw, value, lends: PhantomData }
    }

    /// The same if there is such a part, and else the guard again.
    pub fn try_map<U: ?Sized>(
        guard: WriteGuard<'l, T>,
        part: impl FnOnce(&mut T) -> Option<&mut U>,
    ) -> Result<MappedWriteGuard<'l, U>, WriteGuard<'l, T>> {
        let mut guard = guard;
        match part(&mut *guard).map(|it| -> *mut U { it }) {
            Some(value) => {
                let raw = &ManuallyDrop::new(guard).lock.raw;
                Ok(MappedWriteGuard { raw, value, lends: PhantomData })
            }
            None => Err(guard),
        }
    }
}

impl<T: ?Sized> Deref for WriteGuard<'_, T> {
    type Target = T;

    fn deref(&self) -> &T {
        // SAFETY: the thread writes, so nobody else has the value.
        unsafe { &*self.lock.value.get() }
    }
}

impl<T: ?Sized> DerefMut for WriteGuard<'_, T> {
    fn deref_mut(&mut self) -> &mut T {
        // SAFETY: the thread writes, so nobody else has the value, and has no other guard.
        unsafe { &mut *self.lock.value.get() }
    }
}

impl<T: ?Sized> Drop for WriteGuard<'_, T> {
    fn drop(&mut self) {
        self.lock.raw.stop_writing();
    }
}

/// A part of a value that one thread changes until the guard is dropped.
#[must_use = "the lock is free again if the guard is not kept"]
pub struct MappedWriteGuard<'l, T: ?Sized> {
    raw: &'l RawRwLock,
    value: *mut T,
    lends: PhantomData<&'l mut T>,
}

impl<'l, T: ?Sized> MappedWriteGuard<'l, T> {
    /// A guard of a part of this part.
    pub fn map<U: ?Sized>(
        guard: MappedWriteGuard<'l, T>,
        part: impl FnOnce(&mut T) -> &mut U,
    ) -> MappedWriteGuard<'l, U> {
        let mut guard = guard;
        let value: *mut U = part(&mut *guard);
        MappedWriteGuard { raw: ManuallyDrop::new(guard).raw, value, lends: PhantomData }
    }
}

impl<T: ?Sized> Deref for MappedWriteGuard<'_, T> {
    type Target = T;

    fn deref(&self) -> &T {
        // SAFETY: the thread writes, and the value is part of the lock's.
        unsafe { &*self.value }
    }
}

impl<T: ?Sized> DerefMut for MappedWriteGuard<'_, T> {
    fn deref_mut(&mut self) -> &mut T {
        // SAFETY: the same, and it has no other guard.
        unsafe { &mut *self.value }
    }
}

impl<T: ?Sized> Drop for MappedWriteGuard<'_, T> {
    fn drop(&mut self) {
        self.raw.stop_writing();
    }
}
