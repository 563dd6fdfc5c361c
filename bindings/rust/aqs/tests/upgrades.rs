//! Reads that may go on to write: what they let in, and that nobody writes in between.

mod support;

use aqs::{Options, RwLock, RwLockUpgradableReadGuard, RwLockWriteGuard, UpgradableReadGuard};
use std::sync::atomic::{AtomicBool, Ordering::SeqCst};
use std::thread;
use std::time::Instant;
use support::{keep, refusal, until, SHORT};

fn in_other<R: Send>(call: impl FnOnce() -> R + Send) -> R {
    thread::scope(|scope| scope.spawn(call).join().unwrap())
}

/// What another thread gets: a read, an upgradable read, a write.
fn lets_in<T: Send + Sync>(lock: &RwLock<T>) -> [bool; 3] {
    in_other(|| {
        let reads = lock.try_read().is_some();
        let may_write_later = lock.try_upgradable_read().is_some();
        [reads, may_write_later, lock.try_write().is_some()]
    })
}

#[test]
fn one_thread_has_it_so_beside_readers() {
    let lock = RwLock::new(1);
    let reads = lock.upgradable_read();
    assert_eq!((*reads, lets_in(&lock), lock.is_locked_exclusive()), (1, [true, false, false], false));
    assert!(lock.try_upgradable_read().is_none());
    assert!(in_other(|| lock.try_upgradable_read_for(SHORT).is_none()));
    assert!(in_other(|| lock.try_upgradable_read_until(Instant::now()).is_none()));
    assert!(refusal(|| drop(lock.upgradable_read())).contains("an upgradable read already"));
    drop(reads);
    assert_eq!((lets_in(&lock), lock.is_locked()), ([true; 3], false));
    let writes = lock.write();
    assert!(refusal(|| drop(lock.upgradable_read())).contains("writes already"));
    assert!(lock.try_upgradable_read().is_none() && lock.try_upgradable_read_for(SHORT).is_none());
    drop(writes);
}

#[test]
fn a_reader_goes_on_to_write_and_back() {
    let lock = RwLock::with(1, Options::new().keep_history()).unwrap();
    let mut writes = UpgradableReadGuard::upgrade(lock.upgradable_read());
    *writes += 1;
    assert_eq!((lets_in(&lock), lock.is_mine()), ([false; 3], true));
    let reads = RwLockWriteGuard::downgrade_to_upgradable(writes);
    assert_eq!((*reads, lets_in(&lock), lock.is_mine()), (2, [true, false, false], false));
    let reads = RwLockUpgradableReadGuard::downgrade(reads);
    assert_eq!((*reads, lets_in(&lock)), (2, [true, true, false]));
    drop(reads);
    assert_eq!((lets_in(&lock), lock.read_holds()), ([true; 3], 0));
    keep("upgrades", lock.history().unwrap());
}

#[test]
fn an_upgrade_waits_for_readers_or_leaves_it() {
    let (lock, may_end) = (RwLock::new(0), AtomicBool::new(false));
    thread::scope(|scope| {
        scope.spawn(|| {
            let reads = lock.read();
            until(|| may_end.load(SeqCst));
            drop(reads);
        });
        until(|| lock.is_locked());
        let guard = UpgradableReadGuard::try_upgrade(lock.upgradable_read()).err().unwrap();
        let guard = UpgradableReadGuard::try_upgrade_for(guard, SHORT).err().unwrap();
        assert_eq!((*guard, lets_in(&lock), lock.read_holds()), (0, [true, false, false], 1));
        may_end.store(true, SeqCst);
        *UpgradableReadGuard::upgrade(guard) += 1;
    });
    assert!(UpgradableReadGuard::try_upgrade(lock.upgradable_read()).is_ok());
    assert!(UpgradableReadGuard::try_upgrade_for(lock.upgradable_read(), SHORT).is_ok());
    assert_eq!(lets_in(&lock), [true; 3]);
    assert_eq!(*lock.read(), 1);
}

#[test]
fn one_that_waits_to_read_so_comes_after_the_first() {
    let lock = RwLock::new(0);
    thread::scope(|scope| {
        let first = lock.upgradable_read();
        let others: Vec<_> = (0..3)
            .map(|_| scope.spawn(|| *UpgradableReadGuard::upgrade(lock.upgradable_read()) += 1))
            .collect();
        thread::sleep(SHORT);
        assert!(others.iter().all(|it| !it.is_finished()));
        *UpgradableReadGuard::upgrade(first) += 1;
    });
    assert_eq!(*lock.read(), 4);
}

/// Many threads read, and write if nobody has written meanwhile; others write.
fn nobody_writes_in_between(options: Options) {
    const ROUNDS: u64 = 300;
    let lock = RwLock::with(0, options).unwrap();
    thread::scope(|scope| {
        for _ in 0..3 {
            scope.spawn(|| {
                for _ in 0..ROUNDS {
                    let guard = lock.upgradable_read();
                    let before = *guard;
                    thread::yield_now();
                    let mut guard = UpgradableReadGuard::upgrade(guard);
                    assert_eq!(*guard, before);
                    *guard += 1;
                }
            });
            scope.spawn(|| {
                for _ in 0..ROUNDS {
                    let mut guard = Err(lock.upgradable_read());
                    let before = guard.as_ref().err().map(|it| **it);
                    while let Err(reads) = guard {
                        assert_eq!(Some(*reads), before);
                        guard = UpgradableReadGuard::try_upgrade(reads);
                    }
                    *guard.ok().unwrap() += 1;
                }
            });
            scope.spawn(|| {
                for round in 0..ROUNDS {
                    match round % 3 {
                        0 => *lock.write() += 1,
                        1 => {
                            while lock.try_write().map(|mut it| *it += 1).is_none() {
                                thread::yield_now()
                            }
                        }
                        _ => while lock.try_write_for(SHORT).map(|mut it| *it += 1).is_none() {},
                    }
                }
            });
            scope.spawn(|| {
                for _ in 0..ROUNDS {
                    let guard = lock.read();
                    let before = *guard;
                    thread::yield_now();
                    assert_eq!(*guard, before);
                }
            });
        }
    });
    assert_eq!(*lock.read(), 9 * ROUNDS);
    assert_eq!((lock.is_locked(), lock.waiters()), (false, 0));
}

#[test]
fn nobody_writes_between_a_read_and_its_write() {
    nobody_writes_in_between(Options::new());
}

#[test]
fn nobody_writes_there_in_a_fair_lock_either() {
    nobody_writes_in_between(Options::new().fair());
}
