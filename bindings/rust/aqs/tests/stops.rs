//! A thread is stopped at each of its instructions, some apart, while others go on: no notify is lost between two of
//! them. The processor traps after each instruction of such a thread. This is for x86-64 on Linux.
#![cfg(all(target_os = "linux", target_arch = "x86_64"))]

mod support;

use aqs::{Condvar, Mutex, RwLock, UpgradableReadGuard};
use std::arch::asm;
use std::cell::Cell;
use std::ffi::c_void;
use std::fs;
use std::ptr;
use std::sync::atomic::{AtomicBool, Ordering::SeqCst};
use std::sync::OnceLock;
use std::thread::{self, Scope, ScopedJoinHandle};
use std::time::{Duration, Instant};
use support::until;

/// A stopped thread may have a lock that others wait for. So it goes on after this time, whatever they do.
const LONGEST_STOP: Duration = Duration::from_millis(60);
/// A notify that may end beside a stopped thread has so much time for it.
const PATIENCE: Duration = Duration::from_millis(300);
/// A thread that nobody wakes waits for so long.
const LOST: Duration = Duration::from_secs(20);

/// Where a thread is stopped, and whether it is.
#[derive(Default)]
struct Stop {
    at: usize,
    /// How much longer than others it may last.
    more: Duration,
    has_come: AtomicBool,
    may_go: AtomicBool,
    has_gone: AtomicBool,
}

impl Stop {
    fn at(at: usize) -> Stop {
        Stop { at, ..Stop::default() }
    }

    fn has_come(&self) -> bool {
        self.has_come.load(SeqCst)
    }

    fn ends(&self) {
        self.may_go.store(true, SeqCst);
    }

    fn is_over(&self) -> bool {
        self.has_gone.load(SeqCst)
    }
}

thread_local! {
    static STOP: Cell<*const Stop> = const { Cell::new(ptr::null()) };
    static INSTRUCTION: Cell<usize> = const { Cell::new(0) };
}

type Handler = extern "C" fn(i32, *const c_void, *mut u64);

extern "C" {
    fn signal(number: i32, handler: Handler) -> usize;
}

const SIGTRAP: i32 = 5;
const TRAPS: u64 = 0x100;
/// Where the flags are in what the kernel keeps of a thread while a handler runs, in words of 8 bytes.
const FLAGS: usize = 22;

extern "C" fn on_trap(_number: i32, _what: *const c_void, kept: *mut u64) {
    INSTRUCTION.set(INSTRUCTION.get() + 1);
    // SAFETY: it lives as long as the thread is traced.
    let Some(stop) = (unsafe { STOP.get().as_ref() }) else { return };
    if INSTRUCTION.get() == stop.at {
        let begin = Instant::now();
        stop.has_come.store(true, SeqCst);
        while !stop.may_go.load(SeqCst) && begin.elapsed() < LONGEST_STOP + stop.more {
            thread::sleep(Duration::from_micros(20));
        }
        stop.has_gone.store(true, SeqCst);
        // SAFETY: the thread has them again after the handler, and traps no more.
        unsafe { *kept.add(FLAGS) &= !TRAPS };
    }
}

/// Makes a call that is stopped once, unless that is to be at 0. It returns what the call does.
fn stopped<R>(stop: &Stop, call: impl FnOnce() -> R) -> R {
    if stop.at == 0 {
        return call();
    }
    STOP.set(stop);
    INSTRUCTION.set(0);
    // SAFETY: SIGTRAP has a handler, and the flags are as they were but for the trap flag.
    unsafe { asm!("pushfq", "or qword ptr [rsp], 0x100", "popfq") };
    let result = call();
    // SAFETY: the same.
    unsafe { asm!("pushfq", "and qword ptr [rsp], 0xfffffffffffffeff", "popfq") };
    STOP.set(ptr::null());
    result
}

struct Both {
    mutex: Mutex<()>,
    condvar: Condvar,
}

impl Both {
    fn new() -> Both {
        // SAFETY: the handler looks at its own thread's variables alone.
        unsafe { signal(SIGTRAP, on_trap) };
        let both = Both { mutex: Mutex::new(()), condvar: Condvar::new() };
        // The mutex is open then, and has a place for its numbers.
        assert!(both.condvar.wait_for(&mut both.mutex.lock(), Duration::ZERO).timed_out());
        both
    }

    /// A thread that waits to be notified, and tells how long that took.
    fn waits<'s>(&'s self, scope: &'s Scope<'s, '_>, stop: &'s Stop) -> ScopedJoinHandle<'s, Duration> {
        scope.spawn(|| {
            let mut guard = self.mutex.lock();
            let begin = Instant::now();
            let _timeout = stopped(stop, || self.condvar.wait_for(&mut guard, LOST));
            assert!(self.mutex.is_mine());
            begin.elapsed()
        })
    }

    /// A thread that notifies all, and tells how many those were.
    fn notifies<'s>(&'s self, scope: &'s Scope<'s, '_>, stop: &'s Stop) -> ScopedJoinHandle<'s, usize> {
        scope.spawn(|| stopped(stop, || self.condvar.notify_all()))
    }

    /// Whether so many sleep, and nobody has the mutex.
    fn sleep(&self, count: u32) -> bool {
        self.mutex.waiters() == count && !self.mutex.is_locked()
    }
}

/// The owner gives the mutex up and has it again, while a notify is under way.
#[test]
fn an_owner_comes_and_goes_beside_a_notify() {
    let both = Both::new();
    for at in (1..).step_by(40) {
        let (never, stop) = (Stop::default(), Stop::at(at));
        let took = thread::scope(|scope| {
            let waiter = both.waits(scope, &never);
            until(|| both.sleep(1));
            let guard = both.mutex.lock();
            let notifier = both.notifies(scope, &stop);
            until(|| stop.has_come() || notifier.is_finished());
            drop(guard);
            let guard = both.mutex.lock();
            stop.ends();
            assert_eq!(notifier.join().unwrap(), 1);
            drop(guard);
            waiter.join().unwrap()
        });
        assert!(took < LOST / 2, "stopped at {at}");
        if !stop.has_come() {
            assert!(at > 200);
            return;
        }
    }
}

/// An owner that unlocks is stopped somewhere, and a notify comes meanwhile. Returns whether the notify ended before the
/// stop.
fn notified_while_it_unlocks(both: &Both, stop: &Stop) -> bool {
    let never = Stop::default();
    thread::scope(|scope| {
        let waiter = both.waits(scope, &never);
        until(|| both.sleep(1));
        let owner = scope.spawn(|| {
            let guard = both.mutex.lock();
            stopped(stop, || drop(guard));
        });
        until(|| stop.has_come() || owner.is_finished());
        let notifier = both.notifies(scope, &never);
        let begin = Instant::now();
        until(|| notifier.is_finished() || owner.is_finished() || begin.elapsed() > PATIENCE);
        let is_first = notifier.is_finished() && !stop.is_over();
        stop.ends();
        assert_eq!(notifier.join().unwrap(), 1);
        assert!(waiter.join().unwrap() < LOST / 2, "stopped at {}", stop.at);
        is_first
    })
}

/// An owner gives the mutex up for good while a notify is under way: it makes the signal, or the notify does.
#[test]
fn an_owner_unlocks_beside_a_notify() {
    let both = Both::new();
    let (mut first, mut later) = (0, 0);
    for at in 1.. {
        let stop = Stop { more: 10 * PATIENCE, ..Stop::at(at) };
        match notified_while_it_unlocks(&both, &stop) {
            true => (first, later) = (first + 1, 0),
            false => later += 1,
        }
        // From where it has no owner, a notify waits for the unlock.
        if later == 5 || !stop.has_come() {
            assert!(first > 5 && later == 5, "{first} {later}");
            return;
        }
    }
}

/// A thread begins to wait, beside one that waits already, and is stopped somewhere, and so is one that notifies both.
/// Returns whether the notify had ended before the stop of the other, and found both.
fn notified_while_stopped(both: &Both, of_waiter: &Stop, of_notifier: &Stop) -> bool {
    let never = Stop::default();
    thread::scope(|scope| {
        let first = both.waits(scope, &never);
        until(|| both.sleep(1));
        let waiter = both.waits(scope, of_waiter);
        until(|| of_waiter.has_come() || both.sleep(2));
        let notifier = both.notifies(scope, of_notifier);
        until(|| of_notifier.has_come() || notifier.is_finished());
        let is_over = of_waiter.is_over();
        of_waiter.ends();
        until(|| of_notifier.is_over() || notifier.is_finished() || both.sleep(2));
        of_notifier.ends();
        let count = notifier.join().unwrap();
        until(|| count == 2 || both.condvar.notify_one());
        for it in [first, waiter] {
            assert!(it.join().unwrap() < LOST / 2, "stopped at {} and {}", of_waiter.at, of_notifier.at);
        }
        count == 2 && of_waiter.has_come() && !is_over
    })
}

/// An instruction at which one that begins a wait is still the owner, and can be notified: a few after the first that
/// is found in steps of so many.
fn before_the_sleep(both: &Both, apart: usize) -> Option<usize> {
    for at in (1..).step_by(apart) {
        let stop = Stop::at(at);
        if notified_while_stopped(both, &stop, &Stop::default()) {
            return Some(at + apart / 2);
        }
        if !stop.has_come() {
            break;
        }
    }
    None
}

/// A thread is about to sleep while a notify is under way.
#[test]
fn a_wait_begins_beside_a_notify() {
    let both = Both::new();
    // A build that is optimised has fewer instructions.
    let place = [100, 10].iter().find_map(|&apart| before_the_sleep(&both, apart)).unwrap();
    for at in (1..).step_by(60) {
        let stop = Stop::at(at);
        notified_while_stopped(&both, &Stop::at(place), &stop);
        if !stop.has_come() {
            assert!(at > 200);
            return;
        }
    }
}

/// The file in which the system tells of a thread, as soon as that has said which it is.
#[derive(Default)]
struct Task(OnceLock<String>);

impl Task {
    fn is_mine(&self) {
        let task = fs::read_link("/proc/thread-self").unwrap();
        self.0.set(format!("/proc/{}/stat", task.display())).unwrap();
    }

    /// Whether the thread sleeps: it waits for another one.
    fn sleeps(&self) -> bool {
        let told = self.0.get().and_then(|file| fs::read_to_string(file).ok());
        told.is_some_and(|told| told.rsplit_once(") ").is_some_and(|(_, state)| state.starts_with('S')))
    }
}

/// A reader that goes on to write is stopped somewhere, and another thread tries to write meanwhile. Returns whether
/// that had ended before the stop.
fn tried_while_it_upgrades(stop: &Stop) -> bool {
    let (lock, tries) = (RwLock::new(0), Task::default());
    thread::scope(|scope| {
        let upgrader = scope.spawn(|| {
            let reads = lock.upgradable_read();
            let mut writes = stopped(stop, || UpgradableReadGuard::upgrade(reads));
            *writes += 1;
        });
        until(|| stop.has_come() || upgrader.is_finished());
        let other = scope.spawn(|| {
            tries.is_mine();
            lock.try_write().map(|value| *value)
        });
        // It waits for the other one's turn if that is stopped in it.
        until(|| other.is_finished() || tries.sleeps());
        let is_first = other.is_finished() && stop.has_come() && !stop.is_over();
        stop.ends();
        let found = other.join().unwrap();
        assert!(found != Some(0), "another one writes before the upgrade, which is stopped at {}", stop.at);
        is_first
    })
}

/// Nobody writes between the read of a thread that goes on to write and its write.
#[test]
fn nobody_writes_while_a_reader_goes_on_to_write() {
    // SAFETY: the handler looks at its own thread's variables alone.
    unsafe { signal(SIGTRAP, on_trap) };
    let mut first = 0;
    for at in (1..).step_by(40) {
        let stop = Stop { more: LOST, ..Stop::at(at) };
        first += usize::from(tried_while_it_upgrades(&stop));
        if !stop.has_come() {
            assert!(at > 200 && first > 5, "{at} {first}");
            return;
        }
    }
}
