//! Each type once: what it lets through, what it refuses, and its history.

mod support;

use aqs::{
    interrupted, Condvar, Entry, Error, Latch, MappedMutexGuard, MappedReadGuard, MappedWriteGuard, Mutex,
    MutexGuard, Options, Permits, Policy, ReadGuard, RwLock, Semaphore, Thread, WriteGuard,
};
use std::cell::Cell;
use std::collections::HashSet;
use std::marker::PhantomData;
use std::rc::Rc;
use std::sync::{mpsc::channel, Barrier};
use std::time::{Duration, Instant};
use std::{panic, thread};
use support::{keep, refusal, until, LONG, SHORT};

fn kept() -> Options {
    Options::new().keep_history().fair()
}

#[test]
fn mutex_lets_one_thread_in() {
    let mutex = Mutex::with(0, kept()).unwrap();
    thread::scope(|scope| {
        for _ in 0..8 {
            scope.spawn(|| {
                for _ in 0..500 {
                    *mutex.lock() += 1;
                }
            });
        }
    });
    let guard = mutex.lock();
    assert_eq!(*guard, 4000);
    thread::scope(|scope| {
        scope.spawn(|| {
            assert!(mutex.try_lock().is_none());
            assert!(mutex.try_lock_for(SHORT).is_none());
            assert_eq!(mutex.lock_interruptibly_for(SHORT).err(), Some(Error::TimedOut));
        });
    });
    drop(guard);
    keep("mutex", mutex.history().unwrap());
    assert!(mutex.trim().unwrap() > 8000);
}

#[test]
fn conditions_hand_items_over() {
    let (not_empty, not_full) = (Condvar::new(), Condvar::new());
    let buffer = Mutex::with(Vec::new(), kept().conditions(2)).unwrap();
    let sum = thread::scope(|scope| {
        let consumers: Vec<_> = (0..2)
            .map(|_| {
                scope.spawn(|| {
                    let mut sum = 0;
                    for _ in 0..500 {
                        let mut items = buffer.lock();
                        not_empty.wait_while(&mut items, |items| items.is_empty());
                        sum += items.pop().unwrap();
                        not_full.notify_one();
                    }
                    sum
                })
            })
            .collect();
        for item in 0..1000u64 {
            let mut items = buffer.lock();
            not_full.wait_while(&mut items, |items| items.len() == 4);
            items.push(item);
            not_empty.notify_all();
        }
        consumers.into_iter().map(|it| it.join().unwrap()).sum::<u64>()
    });
    assert_eq!(sum, 999 * 1000 / 2);
    let mut items = buffer.lock();
    assert!(not_empty.wait_for(&mut items, SHORT).timed_out());
    assert!(items.is_empty());
    drop(items);
    keep("conditions", buffer.history().unwrap());
}

#[test]
fn it_is_said_which_number_is_out_of_range() {
    for (options, said) in [
        (Options::new().threads(257), "threads must be 1 to 256, not 257"),
        (Options::new().conditions(17), "conditions must be 1 to 16, not 17"),
        (Options::new().most_entries(15), "history must be 16 to 4294967295, not 15"),
    ] {
        assert_eq!(Mutex::with(0, options).err(), Some(Error::OutOfRange));
        assert_eq!(aqs::last_error(), said);
    }
    assert!(Mutex::with(0, Options::new().threads(0).most_entries(0)).is_ok());
    assert_eq!(thread::spawn(aqs::last_error).join().unwrap(), "");
}

#[test]
fn seats_have_the_names_of_their_threads() {
    let mutex = Mutex::with(0, kept()).unwrap();
    let guard = mutex.lock();
    // As long as both live no thread of another test has the number of one.
    let names = thread::scope(|scope| {
        let waits = thread::Builder::new().name("waits-for-it".into());
        let count = || {
            *mutex.lock() += 1;
            mutex.names().unwrap()
        };
        let waits = waits.spawn_scoped(scope, count).unwrap();
        until(|| mutex.queue_length() == 1);
        drop(guard);
        waits.join().unwrap()
    });
    assert!(names.contains(" waits-for-it\n") && names.lines().count() == 2, "{names}");
}

#[test]
fn a_bounded_buffer() {
    const EACH: u64 = 20_000;
    let (not_empty, not_full, buffer) = (Condvar::new(), Condvar::new(), Mutex::new(Vec::new()));
    let sum: u64 = thread::scope(|scope| {
        for _ in 0..3 {
            scope.spawn(|| {
                for item in 0..EACH {
                    let mut items = buffer.lock();
                    not_full.wait_while(&mut items, |items| items.len() == 8);
                    items.push(item);
                    not_empty.notify_one();
                }
            });
        }
        let take = || {
            let mut items = buffer.lock();
            not_empty.wait_while(&mut items, |items| items.is_empty());
            not_full.notify_one();
            items.pop().unwrap()
        };
        let takers: Vec<_> =
            (0..3).map(|_| scope.spawn(move || (0..EACH).map(|_| take()).sum::<u64>())).collect();
        takers.into_iter().map(|it| it.join().unwrap()).sum()
    });
    assert_eq!((sum, buffer.lock().len()), (3 * EACH * (EACH - 1) / 2, 0));
}

#[test]
fn who_has_entered_enters_again() {
    let mutex = Mutex::new(5);
    let (one, two) = (mutex.enter(), mutex.enter());
    assert_eq!(*one + *two, 10);
    thread::scope(|scope| {
        scope.spawn(|| assert!(mutex.try_lock().is_none()));
    });
    drop(one);
    thread::scope(|scope| {
        scope.spawn(|| assert!(mutex.try_lock().is_none()));
    });
    drop(two);
    *mutex.lock() += 1;
    assert_eq!(*mutex.enter(), 6);
}

#[test]
fn holds_of_a_thread_are_counted() {
    static NEVER_USED: Mutex<u32> = Mutex::new(0);
    let mutex = Mutex::with(5, kept()).unwrap();
    let of_others = || thread::scope(|scope| scope.spawn(|| mutex.holds()).join().unwrap());
    assert_eq!((NEVER_USED.holds(), mutex.holds()), (0, 0));
    let (one, two) = (mutex.enter(), mutex.enter());
    assert_eq!((mutex.holds(), of_others()), (2, 0));
    drop(one);
    assert_eq!(mutex.holds(), 1);
    drop(two);
    assert_eq!(mutex.holds(), 0);
    let mut guard = mutex.lock();
    assert_eq!((mutex.holds(), of_others()), (1, 0));
    MutexGuard::unlocked(&mut guard, || assert_eq!(mutex.holds(), 0));
    assert_eq!(mutex.holds(), 1);
    drop(guard);
    assert_eq!(mutex.trim(), Ok(8));
}

#[test]
fn holds_of_a_reader_are_counted() {
    static NEVER_USED: RwLock<u32> = RwLock::new(0);
    let lock = RwLock::with(5, kept()).unwrap();
    let of_this = || (lock.read_holds(), lock.is_mine());
    let of_others = || thread::scope(|scope| scope.spawn(of_this).join().unwrap());
    assert_eq!((NEVER_USED.read_holds(), of_this()), (0, (0, false)));
    let (one, two) = (lock.read(), lock.try_read().unwrap());
    assert_eq!((of_this(), of_others()), ((2, false), (0, false)));
    drop(one);
    assert_eq!(of_this(), (1, false));
    drop(two);
    let writer = lock.write();
    assert_eq!((of_this(), of_others()), ((0, true), (0, false)));
    let reader = writer.downgrade();
    assert_eq!(of_this(), (1, false));
    drop(reader);
    assert_eq!(of_this(), (0, false));
    assert_eq!(lock.trim(), Ok(8));
}

#[test]
fn two_guards_never_alias() {
    let mutex = Mutex::new(1);
    let guard = mutex.lock();
    let locks: [&dyn Fn(); 4] = [
        &|| drop(mutex.lock()),
        &|| drop(mutex.lock_interruptibly()),
        &|| drop(mutex.lock_interruptibly_for(SHORT)),
        &|| drop(mutex.enter()),
    ];
    for lock in locks {
        assert!(refusal(lock).contains("this mutex"));
    }
    drop(guard);
    let entry = mutex.enter();
    for lock in &locks[..3] {
        assert!(refusal(lock).contains("has this mutex already"));
    }
    assert_eq!(mutex.holds(), 1);
    drop(entry);
    let lock = RwLock::new(1);
    let writer = lock.write();
    assert!(panic::catch_unwind(panic::AssertUnwindSafe(|| drop(lock.read()))).is_err());
    assert!(panic::catch_unwind(panic::AssertUnwindSafe(|| drop(lock.write()))).is_err());
    drop(writer);
}

#[test]
fn interrupts_end_waits() {
    let mutex = Mutex::with((), kept()).unwrap();
    let guard = mutex.lock();
    thread::scope(|scope| {
        let (send, receive) = channel();
        let waiter = scope.spawn(|| {
            let sender = send;
            sender.send(Thread::current()).unwrap();
            mutex.lock_interruptibly().err()
        });
        let thread = receive.recv().unwrap();
        until(|| mutex.queue_length() == 1);
        thread.interrupt().unwrap();
        assert_eq!(waiter.join().unwrap(), Some(Error::Interrupted));
    });
    drop(guard);
    Thread::current().interrupt().unwrap();
    let begin = Instant::now();
    let mut guard = mutex.lock();
    assert_eq!(Condvar::new().wait_interruptibly_for(&mut guard, LONG), Err(Error::Interrupted));
    assert!(begin.elapsed() < LONG);
    assert!(!interrupted());
    drop(guard);
    keep("interrupts", mutex.history().unwrap());
}

#[test]
fn each_of_300_threads_has_its_number() {
    let all = Barrier::new(300);
    let threads: HashSet<Thread> = thread::scope(|scope| {
        let told = || {
            let thread = Thread::current();
            all.wait();
            thread
        };
        let waiting: Vec<_> = (0..300).map(|_| scope.spawn(told)).collect();
        waiting.into_iter().map(|it| it.join().unwrap()).collect()
    });
    assert_eq!(threads.len(), 300);
}

#[test]
fn read_write_lock_keeps_writers_alone() {
    let lock = RwLock::with([0u64; 2], kept()).unwrap();
    thread::scope(|scope| {
        for _ in 0..4 {
            scope.spawn(|| {
                for _ in 0..300 {
                    let halves = lock.read();
                    assert_eq!(halves[0], halves[1]);
                }
            });
        }
        for _ in 0..2 {
            scope.spawn(|| {
                for _ in 0..100 {
                    let mut halves = lock.write();
                    halves[0] += 1;
                    halves[1] += 1;
                }
            });
        }
    });
    assert_eq!(*lock.read(), [200, 200]);
    keep("rwlock-storm", lock.history().unwrap());
}

#[test]
fn a_writer_that_is_downgraded_lets_readers_in() {
    let lock = RwLock::with(0, kept()).unwrap();
    let writer = lock.write();
    thread::scope(|scope| {
        scope.spawn(|| {
            assert!(lock.try_read().is_none() && lock.try_write().is_none());
            assert!(lock.try_read_for(SHORT).is_none());
            assert_eq!(lock.read_interruptibly_for(SHORT).err(), Some(Error::TimedOut));
        });
    });
    let reader = writer.downgrade();
    thread::scope(|scope| {
        scope.spawn(|| {
            assert!(lock.try_read().is_some() && lock.try_write().is_none());
            assert!(lock.try_write_for(SHORT).is_none());
            assert_eq!(lock.write_interruptibly_for(SHORT).err(), Some(Error::TimedOut));
        });
    });
    drop(reader);
    keep("rwlock", lock.history().unwrap());
}

#[test]
fn semaphore_counts_permits() {
    let permits = Semaphore::with(3, kept().strict()).unwrap();
    permits.acquire(2);
    assert!(!permits.try_acquire(2) && permits.try_acquire(1));
    assert!(!permits.try_acquire_for(1, SHORT));
    assert_eq!(permits.acquire_interruptibly_for(1, SHORT), Err(Error::TimedOut));
    Thread::current().interrupt().unwrap();
    assert_eq!(permits.acquire_interruptibly(1), Err(Error::Interrupted));
    thread::scope(|scope| {
        scope.spawn(|| permits.release(4));
        permits.acquire(4);
    });
    permits.release(6);
    assert_eq!(permits.available(), 6);
    assert_eq!(permits.drain(), 6);
    assert!(panic::catch_unwind(|| permits.acquire(3_000_000_000)).is_err());
    keep("semaphore", permits.history().unwrap());
}

#[test]
fn each_acquire_takes_as_many_as_it_says() {
    let permits = Semaphore::new(15);
    permits.acquire(2);
    assert_eq!((permits.acquire_interruptibly(3), permits.available()), (Ok(()), 10));
    assert_eq!((permits.acquire_interruptibly_for(4, SHORT), permits.available()), (Ok(()), 6));
    assert!(permits.try_acquire_for(2, SHORT) && permits.try_acquire_until(3, Instant::now()));
    assert_eq!(permits.available(), 1);
    assert_eq!(permits.acquire_interruptibly_for(2, SHORT), Err(Error::TimedOut));
    drop((permits.permits(0), permits.try_permits(0)));
    assert!(permits.try_permits(2).is_none() && permits.try_permits_for(2, SHORT).is_none());
    assert_eq!(permits.available(), 1);
}

#[test]
fn permits_may_be_owed_but_never_too_many() {
    let permits = Semaphore::new(-2);
    assert_eq!(permits.available(), -2);
    assert_eq!(format!("{permits:?}"), "Semaphore { available: -2 }");
    permits.release(2);
    assert!(!permits.try_acquire(1) && permits.try_acquire(0));
    permits.release(1);
    assert_eq!((permits.available(), permits.drain(), permits.drain()), (1, 1, 0));
    permits.release(2_147_483_647);
    let said = refusal(|| permits.release(1));
    assert_eq!(said, "aqs: a semaphore would have too many permits (AQS_TOO_MANY_PERMITS)");
    assert_eq!(permits.acquire_interruptibly(2_147_483_648), Err(Error::BadAmount));
    let said = refusal(|| assert!(permits.try_acquire(2_147_483_648)));
    assert_eq!(said, "aqs: more than 2147483647 permits in one call (AQS_BAD_AMOUNT)");
    assert_eq!((permits.available(), permits.drain()), (2_147_483_647, 2_147_483_647));
}

#[test]
fn one_without_a_seat_is_shown_without_a_number() {
    let (permits, latch) = (
        Semaphore::with(0, Options::new().threads(1)).unwrap(),
        Latch::with(1, Options::new().threads(1)).unwrap(),
    );
    let waits: [&(dyn Fn() -> Result<(), Error> + Sync); 2] =
        [&|| permits.acquire_interruptibly(1), &|| latch.wait_interruptibly()];
    let expected = "Semaphore { .. } Latch { .. }";
    let shown = thread::scope(|scope| {
        let (send, receive) = channel();
        for wait in waits {
            let sender = send.clone();
            scope.spawn(move || {
                sender.send(Thread::current()).unwrap();
                assert_eq!(wait(), Err(Error::Interrupted));
            });
        }
        let show = || panic::catch_unwind(|| format!("{permits:?} {latch:?}"));
        let late = Instant::now() + LONG;
        let mut shown = show();
        while shown.as_ref().is_ok_and(|it| it != expected) && Instant::now() < late {
            shown = show();
        }
        for waiter in receive.iter().take(2) {
            waiter.interrupt().unwrap();
        }
        shown.ok()
    });
    assert_eq!(shown.as_deref(), Some(expected));
    assert_eq!(format!("{permits:?} {latch:?}"), "Semaphore { available: 0 } Latch { count: 1 }");
}

#[test]
fn latch_opens_once() {
    let latch = Latch::with(2, Options::new().keep_history()).unwrap();
    assert!(!latch.wait_for(SHORT));
    assert_eq!(latch.wait_interruptibly_for(SHORT), Err(Error::TimedOut));
    assert_eq!(latch.count(), 2);
    thread::scope(|scope| {
        for _ in 0..3 {
            scope.spawn(|| latch.wait());
        }
        latch.count_down();
        latch.count_down();
    });
    latch.count_down();
    latch.wait();
    assert_eq!(latch.wait_interruptibly(), Ok(()));
    keep("latch", latch.history().unwrap());
}

#[test]
fn an_interrupt_ends_no_wait_that_does_not_mind_it() {
    let (permits, latch) = (Semaphore::new(0), Latch::new(1));
    let moment = || Instant::now() + SHORT;
    for wait in [
        &(|| latch.wait_for(SHORT)) as &dyn Fn() -> bool,
        &|| latch.wait_until(moment()),
        &|| permits.try_acquire_for(1, SHORT),
        &|| permits.try_acquire_until(1, moment()),
        &|| permits.try_permits_for(1, SHORT).is_some(),
    ] {
        Thread::current().interrupt().unwrap();
        assert!(!wait() && interrupted());
    }
}

/// Whether an interrupt before a call that waits is pending after it. None: the call panicked.
fn is_left(call: impl Fn() + Sync, waiting: impl Fn() -> u32, give: impl FnOnce()) -> Option<bool> {
    thread::scope(|scope| {
        let waiter = scope.spawn(|| {
            Thread::current().interrupt().unwrap();
            call();
            interrupted()
        });
        until(|| waiting() == 1 || waiter.is_finished());
        give();
        waiter.join().ok()
    })
}

#[test]
fn a_plain_call_leaves_an_interrupt_pending() {
    let (mutex, lock, permits, latch) = (Mutex::new(()), RwLock::new(()), Semaphore::new(0), Latch::new(1));
    for call in [&(|| drop(mutex.lock())) as &(dyn Fn() + Sync), &|| drop(mutex.enter())] {
        let guard = mutex.lock();
        assert_eq!(is_left(call, || mutex.queue_length(), || drop(guard)), Some(true));
    }
    for call in [&(|| drop(lock.read())) as &(dyn Fn() + Sync), &|| drop(lock.write())] {
        let guard = lock.write();
        assert_eq!(is_left(call, || lock.queue_length(), || drop(guard)), Some(true));
    }
    for call in [&(|| permits.acquire(1)) as &(dyn Fn() + Sync), &|| permits.permit().forget()] {
        assert_eq!(is_left(call, || permits.queue_length(), || permits.release(1)), Some(true));
    }
    assert_eq!(is_left(|| latch.wait(), || latch.queue_length(), || latch.count_down()), Some(true));
    let latch = Latch::new(1);
    let ended = || assert_eq!(latch.wait_interruptibly(), Err(Error::Interrupted));
    assert_eq!(is_left(ended, || latch.queue_length(), || latch.count_down()), Some(false));
}

#[test]
fn interruptible_waits_end_at_their_time_or_by_an_interrupt() {
    let (mutex, lock, permits, latch) = (Mutex::new(()), RwLock::new(()), Semaphore::new(0), Latch::new(1));
    let (own, condvar) = (Mutex::new(()), Condvar::new());
    let waits: [&(dyn Fn(Duration) -> Option<Error> + Sync); 6] = [
        &|time| mutex.lock_interruptibly_for(time).err(),
        &|time| lock.read_interruptibly_for(time).err(),
        &|time| lock.write_interruptibly_for(time).err(),
        &|time| permits.acquire_interruptibly_for(1, time).err(),
        &|time| latch.wait_interruptibly_for(time).err(),
        &|time| condvar.wait_interruptibly_for(&mut own.lock(), time).err(),
    ];
    let (_guard, _writer) = (mutex.lock(), lock.write());
    thread::scope(|scope| {
        scope.spawn(|| {
            for wait in waits {
                let begin = Instant::now();
                assert_eq!(wait(SHORT), Some(Error::TimedOut));
                assert!(begin.elapsed() >= SHORT);
                Thread::current().interrupt().unwrap();
                assert_eq!(wait(LONG), Some(Error::Interrupted));
                assert!(!interrupted() && begin.elapsed() < LONG);
            }
        });
    });
}

#[test]
fn options_that_no_object_has_are_refused() {
    let error = Mutex::with((), Options::new().threads(257)).err().unwrap();
    assert_eq!((error, error.name()), (Error::OutOfRange, "AQS_OUT_OF_RANGE"));
    assert_eq!(Latch::with(2_147_483_648, Options::new()).err(), Some(error));
    assert_eq!(Semaphore::with(1, Options::new().conditions(1)).err(), Some(error));
    assert!(panic::catch_unwind(|| Latch::new(2_147_483_648)).is_err());
    assert_eq!(Latch::new(2_147_483_647).count(), 2_147_483_647);
}

#[test]
fn a_history_begins_with_how_its_object_was_opened() {
    let options = Options::new().strict().threads(5).most_entries(99);
    let histories = [
        (Mutex::with(0, options.conditions(3)).unwrap().history(), "lock strict seats 5 conditions 3 cap 99"),
        (RwLock::with(0, options.conditions(2)).unwrap().history(), "rw strict seats 5 conditions 2 cap 99"),
        (Semaphore::with(-4, options).unwrap().history(), "semaphore strict seats 5 permits -4 cap 99"),
        (Latch::with(7, options).unwrap().history(), "latch seats 5 count 7 cap 99"),
        (Mutex::new(0).history(), "lock nonfair seats 256 conditions 16 cap 1024"),
        (RwLock::new(0).history(), "rw nonfair seats 256 conditions 16 cap 1024"),
    ];
    for (history, opened) in histories {
        assert_eq!(history.unwrap(), format!("aqs-history 1 {opened}\nend 0 0\n"));
    }
}

#[test]
fn a_wait_with_a_time_is_one_call() {
    let (mutex, condvar) = (Mutex::with((), kept()).unwrap(), Condvar::new());
    let time = Duration::from_millis(1);
    assert!(condvar.wait_for(&mut mutex.lock(), time).timed_out());
    // It got the mutex, began and ended the wait, had the mutex again, and gave it up.
    assert!(mutex.trim().unwrap() <= 5);
    let _guard = mutex.lock();
    thread::scope(|scope| {
        scope.spawn(|| assert!(mutex.try_lock_for(time).is_none()));
    });
    assert!(mutex.trim().unwrap() <= 3);
}

#[test]
fn a_history_is_whole_while_others_lock() {
    let mutex = Mutex::with(0, Options::new().keep_history()).unwrap();
    let histories: Vec<_> = thread::scope(|scope| {
        scope.spawn(|| (0..20_000).for_each(|_| *mutex.lock() += 1));
        until(|| *mutex.lock() > 5000);
        (0..5).map(|_| mutex.history()).collect()
    });
    for history in histories {
        let text = history.unwrap();
        assert!(text.starts_with("aqs-history ") && text.lines().last().unwrap().starts_with("end "));
    }
}

#[test]
fn threads_that_come_first_together_open_one() {
    let begin = Barrier::new(4);
    let mutexes: Vec<Mutex<u32>> = (0..300).map(|_| Mutex::new(0)).collect();
    thread::scope(|scope| {
        for _ in 0..4 {
            scope.spawn(|| {
                for mutex in &mutexes {
                    begin.wait();
                    *mutex.lock() += 1;
                }
            });
        }
    });
    for mutex in mutexes {
        assert_eq!(mutex.history().unwrap().matches(" gave ").count(), 4);
        assert_eq!(mutex.into_inner(), 4);
    }
}

#[test]
fn each_call_tells_that_the_history_is_full() {
    let options = Options::new().keep_history().most_entries(16);
    let (permits, latch) = (Semaphore::with(1, options).unwrap(), Latch::with(1, options).unwrap());
    let (lock, mutex) = (RwLock::with(0, options).unwrap(), Mutex::with(0, options).unwrap());
    let fills: [&dyn Fn(); 4] = [
        &|| while !permits.try_acquire(2) {},
        &|| while !latch.wait_for(Duration::ZERO) {},
        &|| while lock.try_write().is_some() {},
        &|| while mutex.try_lock().is_some() {},
    ];
    let calls: [&dyn Fn(); 16] = [
        &|| permits.acquire(1),
        &|| permits.release(1),
        &|| assert_eq!(permits.drain(), 1),
        &|| drop(permits.try_permits_for(1, SHORT)),
        &|| permits.acquire_interruptibly(1).unwrap(),
        &|| latch.count_down(),
        &|| latch.wait(),
        &|| assert!(!latch.wait_until(Instant::now())),
        &|| drop(lock.read()),
        &|| drop(lock.write()),
        &|| drop(lock.try_read()),
        &|| drop(lock.try_read_for(SHORT)),
        &|| drop(lock.try_write_until(Instant::now())),
        &|| drop(mutex.lock()),
        &|| drop(mutex.enter()),
        &|| drop(mutex.try_lock_until(Instant::now())),
    ];
    for call in fills.iter().chain(&calls) {
        assert!(refusal(call).contains("HistoryFull") || refusal(call).ends_with("(AQS_HISTORY_FULL)"));
    }
    assert_eq!((permits.available(), latch.count(), latch.trim().is_ok()), (1, 1, true));
    assert!(!lock.is_locked() && !lock.is_mine() && !mutex.is_locked() && !mutex.is_mine());
}

/// Says whether a type is Send and Sync. A method of its own goes before that of a trait.
struct Crosses<T: ?Sized>(PhantomData<T>);

trait Stays {
    fn is_send(&self) -> bool {
        false
    }

    fn is_sync(&self) -> bool {
        false
    }
}

impl<T: ?Sized> Stays for Crosses<T> {}

impl<T: ?Sized + Send> Crosses<T> {
    fn is_send(&self) -> bool {
        true
    }
}

impl<T: ?Sized + Sync> Crosses<T> {
    fn is_sync(&self) -> bool {
        true
    }
}

macro_rules! crosses {
    ($($type:ty),*) => {
        [$({
            let crosses = Crosses::<$type>(PhantomData);
            (crosses.is_send(), crosses.is_sync())
        }),*]
    };
}

#[test]
fn types_cross_threads_as_their_values_may() {
    // A number may be sent and shared, a cell only sent, and a counted pointer neither.
    let locks = crosses![Mutex<u8>, Mutex<Cell<u8>>, Mutex<Rc<u8>>];
    assert_eq!(locks, [(true, true), (true, true), (false, false)]);
    let locks = crosses![RwLock<u8>, RwLock<Cell<u8>>, RwLock<Rc<u8>>];
    assert_eq!(locks, [(true, true), (true, false), (false, false)]);
    // A guard stays in the thread that has the lock.
    let guards = crosses![
        MutexGuard<'static, u8>,
        MappedMutexGuard<'static, u8>,
        Entry<'static, u8>,
        ReadGuard<'static, u8>,
        MappedReadGuard<'static, u8>,
        WriteGuard<'static, u8>,
        MappedWriteGuard<'static, u8>
    ];
    assert_eq!(guards, [(false, true); 7]);
    let guards = crosses![
        MutexGuard<'static, Cell<u8>>,
        MappedMutexGuard<'static, Cell<u8>>,
        Entry<'static, Cell<u8>>,
        ReadGuard<'static, Cell<u8>>,
        MappedReadGuard<'static, Cell<u8>>,
        WriteGuard<'static, Cell<u8>>,
        MappedWriteGuard<'static, Cell<u8>>
    ];
    assert_eq!(guards, [(false, false); 7]);
    assert_eq!(crosses![Condvar, Semaphore, Latch, Permits<'static>, Thread, Error], [(true, true); 6]);
}

#[test]
fn a_mutex_counts_its_queue_and_its_condvars() {
    let (mutex, condvar) = (Mutex::with(false, kept()).unwrap(), Condvar::new());
    let counts = || (mutex.is_locked(), mutex.queue_length(), mutex.waiters());
    assert_eq!(counts(), (false, 0, 0));
    let guard = mutex.lock();
    thread::scope(|scope| {
        assert_eq!(counts(), (true, 0, 0));
        assert_eq!(scope.spawn(counts).join().unwrap(), (true, 0, 0));
        for (more, waiting) in [(1, 1), (2, 3)] {
            for _ in 0..more {
                scope.spawn(|| drop(mutex.lock()));
            }
            until(|| mutex.queue_length() == waiting);
            assert_eq!(scope.spawn(counts).join().unwrap(), (true, waiting, waiting));
        }
        drop(guard);
    });
    assert_eq!(counts(), (false, 0, 0));
    thread::scope(|scope| {
        for _ in 0..2 {
            scope.spawn(|| condvar.wait_while_for(&mut mutex.lock(), |go| !*go, LONG));
        }
        until(|| counts() == (false, 0, 2));
        let mut guard = mutex.lock();
        assert_eq!(counts(), (true, 0, 2));
        *guard = true;
        assert!(condvar.notify_one());
        assert_eq!(counts(), (true, 1, 2));
        assert!(condvar.notify_one());
        assert_eq!(counts(), (true, 2, 2));
    });
    assert_eq!(counts(), (false, 0, 0));
    keep("counted", mutex.history().unwrap());
}

#[test]
fn a_read_write_lock_counts_its_queue() {
    let lock = RwLock::new(0);
    let counts = || (lock.is_locked_exclusive(), lock.queue_length(), lock.waiters());
    let reader = lock.read();
    assert_eq!((counts(), lock.is_locked()), ((false, 0, 0), true));
    thread::scope(|scope| {
        let writer = scope.spawn(|| drop(lock.write()));
        until(|| counts() == (false, 1, 1));
        drop(reader);
        writer.join().unwrap();
        let writer = lock.write();
        assert_eq!(counts(), (true, 0, 0));
        scope.spawn(|| drop(lock.read()));
        scope.spawn(|| drop(lock.read()));
        scope.spawn(|| drop(lock.write()));
        until(|| counts() == (true, 3, 3));
        drop(writer);
    });
    assert_eq!((counts(), lock.is_locked()), ((false, 0, 0), false));
}

#[test]
fn semaphores_and_latches_count_their_queues() {
    let (permits, latch) = (Semaphore::new(0), Latch::new(1));
    let counts = || [permits.queue_length(), permits.waiters(), latch.queue_length(), latch.waiters()];
    assert_eq!(counts(), [0; 4]);
    thread::scope(|scope| {
        for waiting in 1..=3 {
            scope.spawn(|| assert!(permits.try_acquire_for(1, LONG)));
            scope.spawn(|| assert!(latch.wait_for(LONG)));
            until(|| counts() == [waiting; 4]);
        }
        permits.release(3);
        latch.count_down();
    });
    assert_eq!(counts(), [0; 4]);
}

#[test]
fn each_object_knows_its_policy() {
    let ways = [
        (Options::new(), Policy::NonFair),
        (Options::new().fair(), Policy::Fair),
        (Options::new().strict(), Policy::Strict),
    ];
    for (options, policy) in ways {
        assert_eq!(Mutex::with(0, options).unwrap().policy(), policy);
        assert_eq!(RwLock::with(0, options).unwrap().policy(), policy);
        assert_eq!(Semaphore::with(1, options).unwrap().policy(), policy);
    }
    assert_eq!(Mutex::new(0).policy(), Policy::NonFair);
}

#[test]
fn questions_take_a_seat_and_record_nothing() {
    let mutex = Mutex::with(0, kept().threads(1).most_entries(16)).unwrap();
    let guard = mutex.lock();
    let before = mutex.history().unwrap();
    for _ in 0..30 {
        assert!(mutex.is_locked() && mutex.queue_length() + mutex.waiters() == 0);
    }
    assert_eq!(mutex.history().unwrap(), before);
    let asks: [&(dyn Fn() -> u32 + Sync); 3] =
        [&|| u32::from(mutex.is_locked()), &|| mutex.queue_length(), &|| mutex.waiters()];
    for ask in asks {
        thread::scope(|scope| {
            let said = scope.spawn(ask).join().unwrap_err().downcast::<String>().unwrap();
            assert!(said.ends_with("(AQS_TOO_MANY_THREADS)"), "{said}");
        });
    }
    let texts = || (mutex.history().err(), mutex.trim().err());
    let refused = thread::scope(|scope| scope.spawn(texts).join().unwrap());
    assert_eq!(refused, (Some(Error::TooManyThreads), Some(Error::TooManyThreads)));
    drop(guard);
    assert!(!mutex.is_locked());
    let lock = RwLock::with(0, Options::new().threads(1)).unwrap();
    let _reader = lock.read();
    let ask = || refusal(|| assert!(lock.is_locked_exclusive()));
    let said = thread::scope(|scope| scope.spawn(ask).join().unwrap());
    assert!(said.ends_with("(AQS_TOO_MANY_THREADS)"), "{said}");
}

#[test]
fn trimmed_histories_never_fill() {
    let mutex = Mutex::with(0, Options::new().most_entries(256).threads(16)).unwrap();
    for _ in 0..5000 {
        *mutex.lock() += 1;
    }
    assert!(mutex.history().unwrap().lines().count() < 200);
    keep("trimmed", mutex.history().unwrap());
}

#[test]
fn permits_come_back_by_themselves() {
    static PERMITS: Semaphore = Semaphore::new(3);
    let (one, two) = (PERMITS.permit(), PERMITS.permits(2));
    assert_eq!((one.count(), two.count(), PERMITS.available()), (1, 2, 0));
    assert!(PERMITS.try_permits(1).is_none() && PERMITS.try_permits_for(1, SHORT).is_none());
    thread::scope(|scope| {
        scope.spawn(|| drop(two));
        assert_eq!(PERMITS.permits(2).count(), 2);
    });
    assert_eq!(PERMITS.available(), 2);
    assert_eq!(PERMITS.try_permits(2).unwrap().count(), 2);
    assert_eq!(PERMITS.try_permits_for(2, SHORT).unwrap().count(), 2);
    assert_eq!(PERMITS.available(), 2);
    PERMITS.try_permits(1).unwrap().forget();
    drop(one);
    assert_eq!(format!("{PERMITS:?}"), "Semaphore { available: 2 }");
    assert!(PERMITS.try_acquire_until(2, Instant::now()));
}

#[test]
fn a_latch_may_be_static() {
    static LATCH: Latch = Latch::new(3);
    thread::scope(|scope| {
        for _ in 0..3 {
            scope.spawn(|| LATCH.count_down());
        }
        assert!(LATCH.wait_for(LONG) && LATCH.wait_until(Instant::now()));
    });
    assert_eq!(format!("{LATCH:?}"), "Latch { count: 0 }");
}

#[test]
fn times_are_never_cut_short() {
    let (permits, latch) = (Semaphore::new(0), Latch::new(1));
    for microseconds in (1..3000).step_by(101) {
        let (time, begin) = (Duration::from_micros(microseconds), Instant::now());
        assert!(!permits.try_acquire_for(1, time));
        assert!(begin.elapsed() >= time);
        let begin = Instant::now();
        assert!(!latch.wait_for(time));
        assert!(begin.elapsed() >= time);
    }
}

#[test]
fn each_wait_with_a_time_or_a_moment_lasts_so_long() {
    let (mutex, lock, permits, latch) = (Mutex::new(()), RwLock::new(()), Semaphore::new(0), Latch::new(1));
    let (own, condvar) = (Mutex::new(()), Condvar::new());
    // Each is given the same end, as a time and as a moment, and gets nothing.
    let waits: [&(dyn Fn(Duration, Instant) -> bool + Sync); 20] = [
        &|time, _| mutex.try_lock_for(time).is_none(),
        &|_, moment| mutex.try_lock_until(moment).is_none(),
        &|time, _| mutex.lock_interruptibly_for(time).is_err(),
        &|time, _| lock.try_read_for(time).is_none(),
        &|_, moment| lock.try_read_until(moment).is_none(),
        &|time, _| lock.read_interruptibly_for(time).is_err(),
        &|time, _| lock.try_write_for(time).is_none(),
        &|_, moment| lock.try_write_until(moment).is_none(),
        &|time, _| lock.write_interruptibly_for(time).is_err(),
        &|_, moment| !permits.try_acquire_until(1, moment),
        &|time, _| permits.acquire_interruptibly_for(1, time).is_err(),
        &|time, _| permits.try_permits_for(1, time).is_none(),
        &|_, moment| !latch.wait_until(moment),
        &|time, _| latch.wait_interruptibly_for(time).is_err(),
        &|time, _| condvar.wait_for(&mut own.lock(), time).timed_out(),
        &|_, moment| condvar.wait_until(&mut own.lock(), moment).timed_out(),
        &|time, _| condvar.wait_interruptibly_for(&mut own.lock(), time).is_err(),
        &|time, _| condvar.wait_while_for(&mut own.lock(), |_| true, time).timed_out(),
        &|_, moment| condvar.wait_while_until(&mut own.lock(), |_| true, moment).timed_out(),
        &|_, moment| condvar.wait_while_until_internal(&mut own.lock(), |_| true, Some(moment)).timed_out(),
    ];
    let (_guard, _writer) = (mutex.lock(), lock.write());
    thread::scope(|scope| {
        scope.spawn(|| {
            for (number, wait) in waits.iter().enumerate() {
                let moment = Instant::now() + SHORT;
                assert!(wait(SHORT, moment) && Instant::now() >= moment, "{number}");
            }
        });
    });
}
