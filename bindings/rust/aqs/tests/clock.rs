//! Times that are longer than a call of the library waits. The clock goes on by fifty days whenever a thread of
//! these tests reads it, so each call of the library is over before it has slept. This is for x86-64 on Linux.
#![cfg(all(target_os = "linux", target_arch = "x86_64"))]

use aqs::{Condvar, Latch, Mutex, RwLock, Semaphore};
use std::cell::Cell;
use std::thread;
use std::time::{Duration, Instant};

/// A call of the library waits for 4294967295 milliseconds at most, which is less.
const FIFTY_DAYS: i64 = 50 * 86_400;
const TIME: Duration = Duration::from_secs(20 * FIFTY_DAYS as u64);

thread_local! {
    static LEAP: Cell<i64> = const { Cell::new(0) };
    static AHEAD: Cell<i64> = const { Cell::new(0) };
}

#[repr(C)]
struct Time {
    seconds: i64,
    nanoseconds: i64,
}

extern "C" {
    fn syscall(number: i64, ...) -> i64;
}

const CLOCK_GETTIME: i64 = 228;
const MONOTONIC: i32 = 1;

/// In the place of the C library's function.
#[no_mangle]
unsafe extern "C" fn clock_gettime(clock: i32, time: *mut Time) -> i32 {
    let result = syscall(CLOCK_GETTIME, clock, time);
    if clock == MONOTONIC {
        AHEAD.set(AHEAD.get() + LEAP.get());
        (*time).seconds += AHEAD.get();
    }
    result as i32
}

/// Whether a wait in vain lasts until its moment, by this clock.
fn lasts(wait: impl FnOnce() -> bool) -> bool {
    LEAP.set(FIFTY_DAYS);
    let begin = Instant::now();
    let was_in_vain = wait();
    let end = Instant::now();
    LEAP.set(0);
    // The clock went on once more for the second moment.
    was_in_vain && end.duration_since(begin) > TIME
}

#[test]
fn a_time_may_be_longer_than_a_call_waits() {
    let (mutex, lock, permits, latch) = (Mutex::new(()), RwLock::new(()), Semaphore::new(0), Latch::new(1));
    let (own, condvar) = (Mutex::new(()), Condvar::new());
    let waits: [&(dyn Fn() -> bool + Sync); 10] = [
        &|| mutex.try_lock_for(TIME).is_none(),
        &|| mutex.lock_interruptibly_for(TIME).is_err(),
        &|| lock.try_read_for(TIME).is_none(),
        &|| lock.try_write_until(Instant::now() + TIME).is_none(),
        &|| !permits.try_acquire_for(1, TIME),
        &|| permits.acquire_interruptibly_for(1, TIME).is_err(),
        &|| !latch.wait_for(TIME),
        &|| condvar.wait_for(&mut own.lock(), TIME).timed_out(),
        &|| condvar.wait_interruptibly_for(&mut own.lock(), TIME).is_err(),
        &|| condvar.wait_while_for(&mut own.lock(), |_| true, TIME).timed_out(),
    ];
    let (_guard, _writer) = (mutex.lock(), lock.write());
    thread::scope(|scope| {
        scope.spawn(|| {
            for (number, wait) in waits.iter().enumerate() {
                assert!(lasts(wait), "{number}");
            }
        });
    });
}
