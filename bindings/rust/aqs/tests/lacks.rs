//! A library that gets no memory: what a call says, and that the next one works. One allocation fails in a
//! thread that says so, and the others of this process go on.
#![cfg(all(target_os = "linux", target_env = "gnu", target_pointer_width = "64"))]

mod support;

use aqs::{Error, Latch, Mutex, Options, RwLock, Semaphore, Thread};
use std::cell::Cell;
use std::ffi::c_void;
use std::ptr;
use std::sync::mpsc::channel;
use std::thread;
use support::refusal;

thread_local! {
    static LACKS: Cell<bool> = const { Cell::new(false) };
}

extern "C" {
    fn malloc(size: usize) -> *mut c_void;
    fn mmap64(at: *mut c_void, size: usize, may: i32, how: i32, file: i32, offset: i64) -> *mut c_void;
}

/// In the place of the C library's function. What it returns is freed by that library.
#[no_mangle]
extern "C" fn calloc(count: usize, size: usize) -> *mut c_void {
    if LACKS.take() {
        return ptr::null_mut();
    }
    let size = count.saturating_mul(size);
    // SAFETY: it takes any size, and what it gives has that many bytes.
    unsafe {
        let place = malloc(size);
        if !place.is_null() {
            ptr::write_bytes(place.cast::<u8>(), 0, size);
        }
        place
    }
}

/// The same. The standard library calls it by another name.
#[no_mangle]
extern "C" fn mmap(at: *mut c_void, size: usize, may: i32, how: i32, file: i32, offset: i64) -> *mut c_void {
    if LACKS.take() {
        return usize::MAX as *mut c_void;
    }
    // SAFETY: the caller sees to it.
    unsafe { mmap64(at, size, may, how, file, offset) }
}

/// What a call returns that gets no memory when it asks for the first time.
fn without_memory<R>(call: impl FnOnce() -> R) -> R {
    LACKS.set(true);
    let result = call();
    assert!(!LACKS.take(), "it asked for none");
    result
}

const SAID: &str = "aqs: the library got no memory (AQS_OUT_OF_MEMORY)";

fn one_that_is_not_opened_opens_later() {
    let refused = [
        without_memory(|| Mutex::with(0, Options::new()).err()),
        without_memory(|| RwLock::with(0, Options::new()).err()),
        without_memory(|| Semaphore::with(1, Options::new()).err()),
        without_memory(|| Latch::with(1, Options::new()).err()),
    ];
    assert_eq!(refused, [Some(Error::OutOfMemory); 4]);
    let (mutex, lock, permits, latch) = (Mutex::new(0), RwLock::new(0), Semaphore::new(1), Latch::new(1));
    let calls: [&dyn Fn(); 4] =
        [&|| *mutex.lock() += 1, &|| *lock.write() += 1, &|| permits.acquire(1), &|| latch.count_down()];
    for call in calls {
        assert_eq!(without_memory(|| refusal(call)), SAID);
        call();
    }
    assert_eq!((mutex.into_inner(), lock.into_inner(), permits.available(), latch.count()), (1, 1, 0, 0));
}

/// The library has places for some threads, and asks for memory for one more.
fn a_thread_without_a_number_owns_nothing() {
    let (mutex, lock) = (Mutex::new(0), RwLock::new(0));
    drop((mutex.lock(), lock.write()));
    let is_over = std::sync::RwLock::new(());
    thread::scope(|scope| {
        let over = is_over.write().unwrap();
        let (send, receive) = channel();
        let mut found = None;
        while found.is_none() {
            let (sender, mutex, lock, is_over) = (send.clone(), &mutex, &lock, &is_over);
            scope.spawn(move || {
                LACKS.set(true);
                let owns = mutex.is_mine();
                let asks = || refusal(|| assert_eq!(Thread::current(), Thread::current()));
                let has_number = LACKS.take();
                let last = || ([owns, without_memory(|| lock.is_mine())], without_memory(asks));
                sender.send((!has_number).then(last)).unwrap();
                drop(is_over.read());
            });
            found = receive.recv().unwrap();
        }
        drop(over);
        assert_eq!(found, Some(([false; 2], SAID.into())));
    });
}

// One test: threads of another would take numbers, and give them back.
#[test]
fn calls_tell_that_there_is_no_memory() {
    one_that_is_not_opened_opens_later();
    a_thread_without_a_number_owns_nothing();
}
