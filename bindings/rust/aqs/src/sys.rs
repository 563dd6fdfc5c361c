//! `aqs.h`, declared by hand. `checks/border.py` compares the two.

use std::os::raw::{c_char, c_int};

#[repr(C)]
#[derive(Clone, Copy, Debug, Default, PartialEq, Eq)]
pub struct Options {
    pub policy: u32,
    pub when_full: u32,
    pub history: u32,
    pub threads: u16,
    pub conditions: u8,
    pub heeds_handlers: bool,
}

macro_rules! opaque {
    ($($name:ident)*) => {$(
        #[repr(C)]
        pub struct $name {
            _private: [u8; 0],
        }
    )*};
}

opaque! { Object Lock RwLock Sem Latch }

pub type Status = c_int;

extern "C" {
    pub fn aqs_status_name(status: Status) -> *const c_char;
    pub fn aqs_last_error() -> *const c_char;
    pub fn aqs_thread_self() -> u32;
    pub fn aqs_thread_interrupt(thread: u32) -> Status;
    pub fn aqs_thread_interrupted() -> bool;

    pub fn aqs_lock_open(lock: *mut *mut Lock, options: *const Options) -> Status;
    pub fn aqs_lock_close(lock: *mut Lock);
    pub fn aqs_lock_lock(lock: *mut Lock) -> Status;
    pub fn aqs_lock_lock_interruptibly(lock: *mut Lock) -> Status;
    pub fn aqs_lock_timedlock(lock: *mut Lock, milliseconds: i64) -> Status;
    pub fn aqs_lock_trylock(lock: *mut Lock) -> Status;
    pub fn aqs_lock_unlock(lock: *mut Lock) -> Status;
    pub fn aqs_lock_holds(lock: *mut Lock) -> u32;
    pub fn aqs_lock_is_locked(lock: *mut Lock, is_locked: *mut bool) -> Status;
    pub fn aqs_lock_wait(lock: *mut Lock, condition: u8) -> Status;
    pub fn aqs_lock_wait_interruptibly(lock: *mut Lock, condition: u8) -> Status;
    pub fn aqs_lock_timedwait(lock: *mut Lock, condition: u8, milliseconds: i64) -> Status;
    pub fn aqs_lock_signal(lock: *mut Lock, condition: u8) -> Status;
    pub fn aqs_lock_signal_all(lock: *mut Lock, condition: u8) -> Status;
    pub fn aqs_lock_object(lock: *mut Lock) -> *mut Object;

    pub fn aqs_rwlock_open(lock: *mut *mut RwLock, options: *const Options) -> Status;
    pub fn aqs_rwlock_close(lock: *mut RwLock);
    pub fn aqs_rwlock_rdlock(lock: *mut RwLock) -> Status;
    pub fn aqs_rwlock_rdlock_interruptibly(lock: *mut RwLock) -> Status;
    pub fn aqs_rwlock_timedrdlock(lock: *mut RwLock, milliseconds: i64) -> Status;
    pub fn aqs_rwlock_tryrdlock(lock: *mut RwLock) -> Status;
    pub fn aqs_rwlock_rdunlock(lock: *mut RwLock) -> Status;
    pub fn aqs_rwlock_wrlock(lock: *mut RwLock) -> Status;
    pub fn aqs_rwlock_wrlock_interruptibly(lock: *mut RwLock) -> Status;
    pub fn aqs_rwlock_timedwrlock(lock: *mut RwLock, milliseconds: i64) -> Status;
    pub fn aqs_rwlock_trywrlock(lock: *mut RwLock) -> Status;
    pub fn aqs_rwlock_wrunlock(lock: *mut RwLock) -> Status;
    pub fn aqs_rwlock_read_holds(lock: *mut RwLock) -> u32;
    pub fn aqs_rwlock_is_write_locked(lock: *mut RwLock, is_locked: *mut bool) -> Status;
    pub fn aqs_rwlock_object(lock: *mut RwLock) -> *mut Object;

    pub fn aqs_sem_open(semaphore: *mut *mut Sem, permits: i32, options: *const Options) -> Status;
    pub fn aqs_sem_close(semaphore: *mut Sem);
    pub fn aqs_sem_acquire(semaphore: *mut Sem, n: u32) -> Status;
    pub fn aqs_sem_acquire_interruptibly(semaphore: *mut Sem, n: u32) -> Status;
    pub fn aqs_sem_timedacquire(semaphore: *mut Sem, n: u32, milliseconds: i64) -> Status;
    pub fn aqs_sem_tryacquire(semaphore: *mut Sem, n: u32) -> Status;
    pub fn aqs_sem_release(semaphore: *mut Sem, n: u32) -> Status;
    pub fn aqs_sem_drain(semaphore: *mut Sem, n: *mut u32) -> Status;
    pub fn aqs_sem_getvalue(semaphore: *mut Sem, permits: *mut i64) -> Status;
    pub fn aqs_sem_object(semaphore: *mut Sem) -> *mut Object;

    pub fn aqs_latch_open(latch: *mut *mut Latch, count: u32, options: *const Options) -> Status;
    pub fn aqs_latch_close(latch: *mut Latch);
    pub fn aqs_latch_count_down(latch: *mut Latch) -> Status;
    pub fn aqs_latch_await(latch: *mut Latch) -> Status;
    pub fn aqs_latch_await_interruptibly(latch: *mut Latch) -> Status;
    pub fn aqs_latch_timedawait(latch: *mut Latch, milliseconds: i64) -> Status;
    pub fn aqs_latch_getcount(latch: *mut Latch, count: *mut u32) -> Status;
    pub fn aqs_latch_object(latch: *mut Latch) -> *mut Object;

    pub fn aqs_object_policy(object: *const Object) -> u32;
    pub fn aqs_object_queue_length(object: *mut Object, count: *mut u32) -> Status;
    pub fn aqs_object_waiters(object: *mut Object, count: *mut u32) -> Status;

    pub fn aqs_history_text(
        object: *mut Object,
        buffer: *mut c_char,
        size: usize,
        length: *mut usize,
    ) -> Status;
    pub fn aqs_history_names(
        object: *mut Object,
        buffer: *mut c_char,
        size: usize,
        length: *mut usize,
    ) -> Status;
    pub fn aqs_history_trim(object: *mut Object, count: *mut u64) -> Status;
}
