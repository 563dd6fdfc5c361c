//! Guards that have a mutex or a read-write lock in an `Arc`, and borrow nothing.

use crate::mutex::Mutex;
use crate::rwlock::RwLock;
use std::fmt;
use std::marker::PhantomData;
use std::mem;
use std::ops::{Deref, DerefMut};
use std::sync::Arc;
use std::time::Duration;

/// A guard over an `Arc`, and what its drop calls.
macro_rules! arc_guard {
    ($(#[$what:meta])* $name:ident of $lock:ident, $give:expr) => {
        $(#[$what])*
        #[must_use = "the value is free again if the guard is not kept"]
        pub struct $name<T: ?Sized> {
            lock: Arc<$lock<T>>,
            not_send: PhantomData<*const ()>,
        }

        impl<T: ?Sized> $name<T> {
            /// A guard in the place of one that was forgotten.
            fn of<G>(guard: G, lock: &Arc<$lock<T>>) -> $name<T> {
                let lock = Arc::clone(lock);
                mem::forget(guard);
                $name { lock, not_send: PhantomData }
            }
        }

        impl<T: ?Sized> Deref for $name<T> {
            type Target = T;

            fn deref(&self) -> &T {
                // SAFETY: the thread has the lock.
                unsafe { &*self.lock.value() }
            }
        }

        impl<T: ?Sized> Drop for $name<T> {
            fn drop(&mut self) {
                let give: fn(&$lock<T>) = $give;
                give(&self.lock);
            }
        }

        impl<T: ?Sized + fmt::Debug> fmt::Debug for $name<T> {
            fn fmt(&self, f: &mut fmt::Formatter<'_>) -> fmt::Result {
                (**self).fmt(f)
            }
        }

        // SAFETY: a shared guard lends the value to be read.
        unsafe impl<T: ?Sized + Sync> Sync for $name<T> where Arc<$lock<T>>: Sync {}
    };
}

arc_guard! {
    /// The value of a mutex in an `Arc`, which one thread has until the guard is dropped.
    ArcMutexGuard of Mutex, |mutex| mutex.raw().unlock()
}
arc_guard! {
    /// The value of a read-write lock in an `Arc`, which is read until the guard is dropped.
    ArcReadGuard of RwLock, |lock| lock.stop_reading()
}
arc_guard! {
    /// The value of a read-write lock in an `Arc`, which one thread changes until the guard is dropped.
    ArcWriteGuard of RwLock, |lock| lock.stop_writing()
}

impl<T: ?Sized> DerefMut for ArcMutexGuard<T> {
    fn deref_mut(&mut self) -> &mut T {
        // SAFETY: the thread has the lock, no entry, and no other guard.
        unsafe { &mut *self.lock.value() }
    }
}

impl<T: ?Sized> DerefMut for ArcWriteGuard<T> {
    fn deref_mut(&mut self) -> &mut T {
        // SAFETY: the thread writes, so nobody else has the value, and has no other guard.
        unsafe { &mut *self.lock.value() }
    }
}

impl<T: ?Sized> Mutex<T> {
    /// Takes the value as [`lock`](Mutex::lock), and keeps the mutex with it.
    ///
    /// ```
    /// use aqs::Mutex;
    /// use std::sync::Arc;
    ///
    /// let mutex = Arc::new(Mutex::new(1));
    /// let mut guard = mutex.lock_arc();
    /// *guard += 1;
    /// drop(guard);
    /// assert_eq!(*mutex.lock(), 2);
    /// ```
    #[track_caller]
    pub fn lock_arc(self: &Arc<Self>) -> ArcMutexGuard<T> {
        ArcMutexGuard::of(self.lock(), self)
    }

    /// The same if the value is free.
    #[track_caller]
    pub fn try_lock_arc(self: &Arc<Self>) -> Option<ArcMutexGuard<T>> {
        Some(ArcMutexGuard::of(self.try_lock()?, self))
    }

    /// The same, and waits for at most this time.
    #[track_caller]
    pub fn try_lock_arc_for(self: &Arc<Self>, time: Duration) -> Option<ArcMutexGuard<T>> {
        Some(ArcMutexGuard::of(self.try_lock_for(time)?, self))
    }
}

impl<T: ?Sized> RwLock<T> {
    /// Takes the value to read it as [`read`](RwLock::read), and keeps the lock with it.
    #[track_caller]
    pub fn read_arc(self: &Arc<Self>) -> ArcReadGuard<T> {
        ArcReadGuard::of(self.read(), self)
    }

    /// The same if nobody writes.
    #[track_caller]
    pub fn try_read_arc(self: &Arc<Self>) -> Option<ArcReadGuard<T>> {
        Some(ArcReadGuard::of(self.try_read()?, self))
    }

    /// Takes the value to change it as [`write`](RwLock::write), and keeps the lock with it.
    #[track_caller]
    pub fn write_arc(self: &Arc<Self>) -> ArcWriteGuard<T> {
        ArcWriteGuard::of(self.write(), self)
    }

    /// The same if nobody has it.
    #[track_caller]
    pub fn try_write_arc(self: &Arc<Self>) -> Option<ArcWriteGuard<T>> {
        Some(ArcWriteGuard::of(self.try_write()?, self))
    }
}
