//! What parking_lot and std have beside mutexes: Once, a barrier, a reentrant mutex, guards over an `Arc`.

mod support;

use aqs::{
    Barrier, Mutex, MutexGuard, Once, OnceState, Options, ReentrantMutex, ReentrantMutexGuard, RwLock,
};
use aqs::{ReadGuard, WriteGuard};
use std::cell::Cell;
use std::sync::atomic::{AtomicU32, Ordering::SeqCst};
use std::sync::Arc;
use std::thread;
use std::time::Instant;
use support::{keep, refusal, SHORT};

fn in_other<R: Send>(call: impl FnOnce() -> R + Send) -> R {
    thread::scope(|scope| scope.spawn(call).join().unwrap())
}

#[test]
fn one_thread_does_what_is_done_once() {
    let (once, count) = (Once::with(Options::new().keep_history()).unwrap(), AtomicU32::new(0));
    assert_eq!(once.state(), OnceState::New);
    thread::scope(|scope| {
        for _ in 0..8 {
            scope.spawn(|| {
                once.call_once(|| {
                    assert_eq!(once.state(), OnceState::InProgress);
                    thread::sleep(SHORT);
                    count.fetch_add(1, SeqCst);
                });
                assert_eq!((count.load(SeqCst), once.state()), (1, OnceState::Done));
            });
        }
    });
    once.call_once_force(|_| unreachable!());
    keep("once", once.history().unwrap());
}

#[test]
fn a_panic_is_told_until_it_is_forced() {
    let once = Once::default();
    assert_eq!(refusal(|| once.call_once(|| panic!("it failed"))), "it failed");
    assert!(once.state().poisoned() && !once.state().done());
    assert!(refusal(|| once.call_once(|| unreachable!())).contains("panicked before"));
    assert_eq!(once.state(), OnceState::Poisoned);
    let mut before = OnceState::New;
    once.call_once_force(|state| before = state);
    assert_eq!((before, once.state()), (OnceState::Poisoned, OnceState::Done));
    let again = Once::new();
    again.call_once(|| {
        assert!(refusal(|| again.call_once(|| ())).contains("in the call of this Once already"));
        assert!(format!("{again:?}").contains("InProgress"));
    });
    assert_eq!(again.state(), OnceState::Done);
}

#[test]
fn threads_meet_and_one_of_them_is_told() {
    let (barrier, leaders, came) =
        (Barrier::with(3, Options::new().keep_history()).unwrap(), AtomicU32::new(0), AtomicU32::new(0));
    thread::scope(|scope| {
        for _ in 0..3 {
            scope.spawn(|| {
                for round in 1..=50 {
                    came.fetch_add(1, SeqCst);
                    leaders.fetch_add(barrier.wait().is_leader().into(), SeqCst);
                    assert!(came.load(SeqCst) >= 3 * round);
                    barrier.wait();
                }
            });
        }
    });
    assert_eq!((leaders.load(SeqCst), came.load(SeqCst), barrier.waiters()), (50, 150, 0));
    assert!(Barrier::new(1).wait().is_leader() && Barrier::new(0).wait().is_leader());
    assert_eq!(format!("{:?}", Barrier::new(2)), "Barrier { parties: 2, .. }");
    keep("barrier", barrier.history().unwrap());
}

#[test]
fn a_thread_that_cannot_come_has_not() {
    let barrier = Barrier::with(1, Options::new().keep_history().most_entries(16)).unwrap();
    let told = refusal(|| (0..100).for_each(|_| assert!(barrier.wait().is_leader())));
    assert!(told.contains("AQS_HISTORY_FULL"), "{told}");
    barrier.trim().unwrap();
    assert!(barrier.wait().is_leader());
}

#[test]
fn the_owner_of_a_reentrant_mutex_locks_it_again() {
    let mut mutex = ReentrantMutex::new(Cell::new(1));
    assert!(!mutex.is_owned_by_current_thread() && !mutex.is_locked());
    let (one, two) = (mutex.lock(), mutex.try_lock().unwrap());
    let (three, four) = (mutex.try_lock_for(SHORT).unwrap(), mutex.try_lock_until(Instant::now()).unwrap());
    one.set(four.get() + 1);
    assert!(mutex.is_owned_by_current_thread() && in_other(|| mutex.is_locked()));
    assert!(in_other(|| mutex.try_lock().is_none() && !mutex.is_owned_by_current_thread()));
    assert!(in_other(
        || mutex.try_lock_for(SHORT).is_none() && mutex.try_lock_until(Instant::now()).is_none()
    ));
    drop((one, two, three));
    assert!(in_other(|| format!("{mutex:?}")).contains("<locked>"));
    ReentrantMutexGuard::unlock_fair(four);
    assert!(in_other(|| mutex.try_lock().is_some()));
    mutex.get_mut().set(7);
    assert_eq!(
        (format!("{mutex:?}"), mutex.into_inner().get()),
        ("ReentrantMutex { data: Cell { value: 7 } }".into(), 7)
    );
    assert_eq!(ReentrantMutex::<u8>::default().into_inner() + ReentrantMutex::from(3).into_inner(), 3);
    let fair = ReentrantMutex::with(0, Options::new().fair()).unwrap();
    assert!(fair.history().unwrap().starts_with("aqs-history 1 lock fair "));
}

#[test]
fn one_that_has_locked_a_mutex_does_not_enter_it() {
    let mutex = Mutex::new(1);
    let guard = mutex.lock();
    assert!(mutex.try_enter().is_none() && mutex.try_enter_for(SHORT).is_none());
    assert!(mutex.try_enter_until(Instant::now()).is_none());
    MutexGuard::unlock_fair(guard);
    let entry = mutex.try_enter().unwrap();
    assert_eq!((*entry, mutex.holds()), (1, 1));
    assert!(mutex.try_lock().is_none());
    drop(entry);
    assert_eq!((mutex.holds(), mutex.is_locked()), (0, false));
}

#[test]
fn a_guard_over_an_arc_keeps_it() {
    let mutex = Arc::new(Mutex::new(vec![1]));
    let mut guard = mutex.lock_arc();
    guard.push(2);
    assert!(mutex.try_lock_arc().is_none() && mutex.try_lock_arc_for(SHORT).is_none());
    assert_eq!((format!("{guard:?}"), Arc::strong_count(&mutex)), ("[1, 2]".into(), 2));
    drop(mutex.clone());
    let mutex = {
        let weak = Arc::downgrade(&mutex);
        drop(mutex);
        weak
    };
    assert_eq!(guard.len(), 2);
    drop(guard);
    assert!(mutex.upgrade().is_none());
    let again = Arc::new(Mutex::new(0));
    *again.try_lock_arc().unwrap() += 1;
    *again.try_lock_arc_for(SHORT).unwrap() += 1;
    assert_eq!(*again.lock(), 2);
    assert!(!again.is_locked());
}

#[test]
fn guards_over_an_arc_read_or_write() {
    let lock = Arc::new(RwLock::new(1));
    let (one, two) = (lock.read_arc(), lock.try_read_arc().unwrap());
    assert_eq!((*one + *two, lock.try_write_arc().is_none()), (2, true));
    drop((one, two));
    let mut writes = lock.write_arc();
    *writes += 1;
    assert!(in_other(|| lock.try_read_arc().is_none() && lock.try_write_arc().is_none()));
    drop(writes);
    *lock.try_write_arc().unwrap() += 1;
    ReadGuard::unlock_fair(lock.read());
    WriteGuard::unlock_fair(lock.write());
    assert_eq!(*lock.read(), 3);
    assert_eq!((lock.read_holds(), lock.is_locked()), (0, false));
}
