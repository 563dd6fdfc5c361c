//! The read-write lock as those who know std's or parking_lot's expect it.

mod support;

use aqs::{
    interrupted, Error, MappedRwLockReadGuard, MappedRwLockWriteGuard, Options, RwLock, RwLockReadGuard,
    RwLockWriteGuard, Thread,
};
use std::sync::mpsc::channel;
use std::sync::Arc;
use std::time::Instant;
use std::{panic, thread};
use support::{refusal, until, LONG, SHORT};

#[test]
fn writers_are_alone_and_readers_are_not() {
    static VALUES: RwLock<[u32; 2]> = RwLock::new([0; 2]);
    thread::scope(|scope| {
        for number in 0..8 {
            scope.spawn(move || {
                for round in 0..200 {
                    if (round + number) % 5 == 0 {
                        let mut values = VALUES.write();
                        values[0] += 1;
                        values[1] += 1;
                    } else {
                        let values = VALUES.read();
                        assert_eq!(values[0], values[1]);
                    }
                }
            });
        }
    });
    assert_eq!(*VALUES.read(), [320, 320]);
}

#[test]
fn a_panic_leaves_it_usable() {
    for writes in [true, false] {
        let lock = Arc::new(RwLock::new(1));
        let other = Arc::clone(&lock);
        let ended = thread::spawn(move || {
            if writes {
                let _value = other.write();
                panic!("on purpose");
            }
            let _value = other.read();
            panic!("on purpose");
        });
        assert!(ended.join().is_err());
        *lock.write() += 1;
        assert_eq!(*lock.read(), 2);
    }
}

#[test]
fn tries_tell_readers_from_writers() {
    let lock = RwLock::new(0);
    let reader = lock.read();
    assert!(lock.try_read().is_some() && lock.try_read_recursive().is_some());
    assert!(lock.try_write().is_none() && lock.try_write_for(SHORT).is_none());
    drop(reader);
    let begin = Instant::now();
    let writer = lock.write();
    assert!(lock.try_read().is_none() && lock.try_write().is_none());
    assert!(lock.try_read_for(LONG).is_none() && lock.try_write_for(LONG).is_none());
    assert!(lock.try_read_until(begin + LONG).is_none() && lock.try_write_until(begin + LONG).is_none());
    assert!(begin.elapsed() < LONG);
    drop(writer);
    *lock.try_write().unwrap() += 1;
    *lock.try_write_until(Instant::now() + SHORT).unwrap() += 1;
    assert_eq!(*lock.try_read_until(Instant::now() + SHORT).unwrap(), 2);
}

#[test]
fn a_read_that_failed_is_not_counted() {
    let lock = RwLock::new(0);
    let writer = lock.write();
    thread::scope(|scope| {
        scope.spawn(|| {
            assert!(lock.try_read().is_none() && lock.try_read_for(SHORT).is_none());
            assert_eq!(lock.read_interruptibly_for(SHORT).err(), Some(Error::TimedOut));
        });
    });
    drop(writer);
    assert!(!lock.is_locked());
}

#[test]
fn one_that_stops_writing_leaves_the_next_writer_as_it_is() {
    let (lock, late) = (RwLock::new(()), Instant::now() + 30 * SHORT);
    thread::scope(|scope| {
        for _ in 0..4 {
            scope.spawn(|| {
                while Instant::now() < late {
                    let _guard = lock.write();
                    // One that has woken this thread may go on.
                    thread::yield_now();
                    assert!(lock.is_mine());
                }
            });
        }
    });
}

#[test]
fn a_read_beyond_the_most_is_told() {
    let lock = RwLock::with((), Options::new().most_entries(200_000)).unwrap();
    let readers: Vec<_> = (0..65_535).map(|_| lock.read()).collect();
    assert_eq!(lock.read_interruptibly().err(), Some(Error::TooManyHolds));
    let said = "aqs: the lock is held as often as it may be (AQS_TOO_MANY_HOLDS)";
    assert_eq!((refusal(|| drop(lock.read())), refusal(|| drop(lock.try_read()))), (said.into(), said.into()));
    drop(readers);
    assert_eq!((lock.read_holds(), lock.is_locked()), (0, false));
    assert!(lock.trim().unwrap() >= 2 * 65_535);
}

#[test]
fn the_writer_that_comes_again_is_told() {
    let lock = RwLock::new(0);
    let _writer = lock.write();
    for call in [
        &(|| drop(lock.read())) as &dyn Fn(),
        &|| drop(lock.write()),
        &|| drop(lock.read_recursive()),
        &|| drop(lock.read_interruptibly()),
        &|| drop(lock.read_interruptibly_for(SHORT)),
        &|| drop(lock.write_interruptibly()),
        &|| drop(lock.write_interruptibly_for(SHORT)),
    ] {
        assert!(panic::catch_unwind(panic::AssertUnwindSafe(call)).is_err());
    }
}

#[test]
fn it_says_whether_it_is_locked() {
    let lock = RwLock::new(0);
    assert!(!lock.is_locked() && !lock.is_locked_exclusive());
    let (one, two) = (lock.read(), lock.read_recursive());
    assert!(lock.is_locked() && !lock.is_locked_exclusive());
    drop(one);
    assert!(lock.is_locked());
    drop(two);
    assert!(!lock.is_locked());
    let tried = lock.try_read().unwrap();
    assert!(lock.is_locked());
    drop(tried);
    assert!(!lock.is_locked());
    let writer = lock.write();
    assert!(lock.is_locked() && lock.is_locked_exclusive());
    let reader = RwLockWriteGuard::downgrade(writer);
    assert!(lock.is_locked() && !lock.is_locked_exclusive());
    drop(reader);
    assert!(!lock.is_locked());
    let tried = lock.try_write().unwrap();
    assert!(lock.is_mine() && lock.is_locked());
    drop(tried);
    assert!(!lock.is_mine() && !lock.is_locked());
}

#[test]
fn each_call_takes_its_side() {
    let lock = RwLock::new(0);
    let of_this = || (lock.read_holds(), lock.is_mine(), lock.is_locked_exclusive());
    let reads: [fn(&RwLock<u32>) -> Option<RwLockReadGuard<'_, u32>>; 8] = [
        |lock| Some(lock.read()),
        |lock| Some(lock.read_recursive()),
        |lock| lock.read_interruptibly().ok(),
        |lock| lock.read_interruptibly_for(LONG).ok(),
        |lock| lock.try_read(),
        |lock| lock.try_read_recursive(),
        |lock| lock.try_read_for(LONG),
        |lock| lock.try_read_until(Instant::now() + LONG),
    ];
    for read in reads {
        let reader = read(&lock).unwrap();
        assert_eq!((of_this(), lock.is_locked()), ((1, false, false), true));
        drop(reader);
        assert!(!lock.is_locked());
    }
    let writes: [fn(&RwLock<u32>) -> Option<RwLockWriteGuard<'_, u32>>; 6] = [
        |lock| Some(lock.write()),
        |lock| lock.write_interruptibly().ok(),
        |lock| lock.write_interruptibly_for(LONG).ok(),
        |lock| lock.try_write(),
        |lock| lock.try_write_for(LONG),
        |lock| lock.try_write_until(Instant::now() + LONG),
    ];
    for write in writes {
        let writer = write(&lock).unwrap();
        assert_eq!((of_this(), lock.is_locked()), ((0, true, true), true));
        drop(writer);
        assert!(!lock.is_locked() && !lock.is_mine());
    }
}

#[test]
fn a_reader_reads_again_before_a_waiting_writer() {
    let lock = RwLock::new(1);
    let first = lock.read();
    thread::scope(|scope| {
        let writer = scope.spawn(|| *lock.write() += 1);
        until(|| lock.queue_length() == 1);
        let second = lock.read_recursive();
        assert_eq!((*first, *second, writer.is_finished()), (1, 1, false));
        drop((first, second));
    });
    assert_eq!(lock.into_inner(), 2);
}

#[test]
fn nobody_writes_during_a_downgrade() {
    let lock = RwLock::new(0);
    thread::scope(|scope| {
        for _ in 0..6 {
            scope.spawn(|| {
                for _ in 0..100 {
                    let mut writer = lock.write();
                    *writer += 1;
                    let written = *writer;
                    assert_eq!(*writer.downgrade(), written);
                }
            });
        }
    });
    assert_eq!(lock.into_inner(), 600);
}

#[test]
fn a_downgrade_comes_before_a_waiting_writer() {
    let lock = RwLock::with(0, Options::new().fair()).unwrap();
    let writer = lock.write();
    thread::scope(|scope| {
        scope.spawn(|| *lock.write() += 1);
        until(|| lock.queue_length() == 1);
        let reader = writer.downgrade();
        assert_eq!((*reader, lock.queue_length()), (0, 1));
    });
    assert_eq!(lock.into_inner(), 1);
}

#[test]
fn an_interrupt_waits_beside_a_downgrade() {
    let lock = RwLock::new(1);
    let writer = lock.write();
    Thread::current().interrupt().unwrap();
    let reader = writer.downgrade();
    assert_eq!((*reader, interrupted(), lock.is_mine()), (1, true, false));
}

#[test]
fn a_downgrade_that_is_refused_gives_the_lock_up() {
    let lock = RwLock::with(0, Options::new().keep_history().most_entries(64)).unwrap();
    let writer = lock.write();
    let fill = || refusal(|| while lock.try_read().is_none() {});
    let said = thread::scope(|scope| scope.spawn(fill).join().unwrap());
    assert_eq!(refusal(|| drop(writer.downgrade())), said);
    assert_eq!(said, "aqs: the history is full (AQS_HISTORY_FULL)");
    assert!(!lock.is_mine() && !lock.is_locked());
}

#[test]
fn values_go_in_and_come_out() {
    assert_eq!(RwLock::new(String::from("it")).into_inner(), "it");
    let mut lock = RwLock::from(3);
    *lock.get_mut() += 1;
    assert_eq!(*lock.read(), 4);
    assert_eq!(*RwLock::<u8>::default().read(), 0);
    let items: &RwLock<[u8]> = &RwLock::new([1, 2]);
    items.write()[0] = 5;
    assert_eq!(&*items.read(), &[5, 2][..]);
    let shared = RwLock::new(Arc::new(1));
    let copy = shared.read().clone();
    assert_eq!(Arc::strong_count(&copy), 2);
}

#[test]
fn it_shows_its_value_or_that_it_is_locked() {
    let lock = RwLock::new(vec![1u8, 2]);
    assert_eq!(format!("{lock:?}"), "RwLock { data: [1, 2] }");
    let reader = lock.read();
    assert_eq!(format!("{lock:?} {reader:?}"), "RwLock { data: [1, 2] } [1, 2]");
    drop(reader);
    let writer = lock.write();
    assert_eq!(format!("{lock:?} {writer:?}"), "RwLock { data: <locked> } [1, 2]");
}

#[test]
fn guards_are_shared_with_other_threads() {
    fn is_sync<T: Sync>(_shared: &T) {}
    let lock = RwLock::new(7);
    let reader = lock.read();
    thread::scope(|scope| {
        scope.spawn(|| assert_eq!(*reader, 7));
    });
    is_sync(&RwLockReadGuard::map(reader, |value| value));
    is_sync(&lock.write());
    is_sync(&RwLockWriteGuard::map(lock.write(), |value| value));
}

#[test]
fn parts_of_the_value_are_locked_as_a_whole() {
    let lock = RwLock::new((1, vec![1, 2, 3]));
    let list = RwLockReadGuard::map(lock.read(), |value| &value.1);
    let last = MappedRwLockReadGuard::map(list, |list| &list[2]);
    assert_eq!((*last, lock.is_locked(), lock.try_write().is_none()), (3, true, true));
    drop(last);
    assert!(RwLockReadGuard::try_map(lock.read(), |value| value.1.get(7)).is_err());
    let Ok(item) = RwLockReadGuard::try_map(lock.read(), |value| value.1.get(1)) else {
        panic!("it is there")
    };
    assert_eq!((*item, lock.read_holds(), lock.is_locked()), (2, 1, true));
    drop(item);
    let list = RwLockWriteGuard::map(lock.write(), |value| &mut value.1);
    let mut last = MappedRwLockWriteGuard::map(list, |list| &mut list[2]);
    *last = 9;
    assert!(lock.is_locked_exclusive());
    drop(last);
    assert!(RwLockWriteGuard::try_map(lock.write(), |value| value.1.get_mut(7)).is_err());
    let Ok(item) = RwLockWriteGuard::try_map(lock.write(), |value| value.1.get_mut(2)) else {
        panic!("it is there")
    };
    assert_eq!((*item, lock.is_mine(), lock.is_locked_exclusive()), (9, true, true));
    drop(item);
    assert!(!lock.is_locked());
}

#[test]
fn a_panic_for_a_part_of_the_value_leaves_it_unlocked() {
    let lock = RwLock::new(0);
    let read = || RwLockReadGuard::map(lock.read(), |value| value);
    let written = || RwLockWriteGuard::map(lock.write(), |value| value);
    for call in [
        &(|| drop(RwLockReadGuard::map(lock.read(), |_| -> &u8 { panic!("on purpose") }))) as &dyn Fn(),
        &|| drop(RwLockReadGuard::try_map(lock.read(), |_| -> Option<&u8> { panic!("on purpose") })),
        &|| drop(MappedRwLockReadGuard::map(read(), |_| -> &u8 { panic!("on purpose") })),
        &|| drop(RwLockWriteGuard::map(lock.write(), |_| -> &mut u8 { panic!("on purpose") })),
        &|| drop(RwLockWriteGuard::try_map(lock.write(), |_| -> Option<&mut u8> { panic!("on purpose") })),
        &|| drop(MappedRwLockWriteGuard::map(written(), |_| -> &mut u8 { panic!("on purpose") })),
    ] {
        assert_eq!(refusal(call), "on purpose");
        assert!(!lock.is_locked());
    }
}

#[test]
fn interrupts_end_waits_that_mind_them() {
    let lock = RwLock::new(0);
    let writer = lock.write();
    thread::scope(|scope| {
        let (send, receive) = channel();
        let (lock, sender) = (&lock, &send);
        let waiters: Vec<_> = [true, false]
            .map(|reads| {
                let sender = sender.clone();
                scope.spawn(move || {
                    sender.send(Thread::current()).unwrap();
                    if reads {
                        lock.read_interruptibly().err()
                    } else {
                        lock.write_interruptibly().err()
                    }
                })
            })
            .into();
        for thread in receive.iter().take(2) {
            thread.interrupt().unwrap();
        }
        for waiter in waiters {
            assert_eq!(waiter.join().unwrap(), Some(Error::Interrupted));
        }
    });
    drop(writer);
    Thread::current().interrupt().unwrap();
    assert!(lock.try_read_for(SHORT).is_some() && lock.try_write_for(SHORT).is_some());
    assert_eq!(lock.read_interruptibly_for(SHORT).err(), Some(Error::Interrupted));
}

#[test]
fn a_thread_that_ends_may_still_lock() {
    struct AtTheEnd(RwLock<u32>);
    impl Drop for AtTheEnd {
        fn drop(&mut self) {
            *self.0.write() += 1;
        }
    }
    thread_local! {
        static KEPT: AtTheEnd = const { AtTheEnd(RwLock::new(0)) };
    }
    thread::spawn(|| KEPT.with(|kept| drop(kept.0.read()))).join().unwrap();
}
