//! The mutex as those who know std's or parking_lot's expect it.

mod support;

use aqs::{Condvar, Error, MappedMutexGuard, Mutex, MutexGuard, Options, Thread};
use std::sync::atomic::{AtomicU32, Ordering};
use std::sync::Arc;
use std::time::{Duration, Instant};
use std::{mem, panic, thread};
use support::{refusal, until, LONG, SHORT};

#[derive(Debug, PartialEq, Eq)]
struct Only(i32);

struct Counts<'c>(&'c AtomicU32);

impl Drop for Counts<'_> {
    fn drop(&mut self) {
        self.0.fetch_add(1, Ordering::Relaxed);
    }
}

#[test]
fn a_static_opens_at_its_first_call() {
    static TOTAL: Mutex<u64> = Mutex::new(0);
    static CALLS: Mutex<Vec<u64>> = Mutex::new(Vec::new());
    thread::scope(|scope| {
        for number in 0..8 {
            scope.spawn(move || {
                for _ in 0..200 {
                    *TOTAL.lock() += number;
                }
                CALLS.lock().push(number);
            });
        }
    });
    assert_eq!(*TOTAL.lock(), 200 * 28);
    CALLS.lock().sort_unstable();
    assert_eq!(*CALLS.lock(), [0, 1, 2, 3, 4, 5, 6, 7]);
}

#[test]
fn one_that_is_never_called_opens_nothing() {
    let mutexes: Vec<Mutex<u8>> = (0..100_000).map(|_| Mutex::new(1)).collect();
    let sum: u64 = mutexes.into_iter().map(|mutex| u64::from(mutex.into_inner())).sum();
    assert_eq!(sum, 100_000);
}

#[test]
fn the_value_comes_out_once() {
    assert_eq!(Mutex::new(Only(3)).into_inner(), Only(3));
    let mut mutex = Mutex::new(Only(3));
    mutex.get_mut().0 += 1;
    mutex.lock().0 += 1;
    assert_eq!(mutex.into_inner(), Only(5));
    let drops = AtomicU32::new(0);
    let inner = Mutex::new(Counts(&drops)).into_inner();
    assert_eq!(drops.load(Ordering::Relaxed), 0);
    drop(inner);
    drop(Mutex::new(Counts(&drops)));
    assert_eq!(drops.load(Ordering::Relaxed), 2);
}

#[test]
fn defaults_and_values_become_mutexes() {
    assert_eq!(*Mutex::<u32>::default().lock(), 0);
    assert_eq!(*Mutex::from("text").lock(), "text");
    let mutex: Mutex<Vec<u8>> = vec![1, 2].into();
    assert_eq!(mutex.lock().len(), 2);
}

#[test]
fn unsized_values_fit() {
    let mutex: &Mutex<[u8]> = &Mutex::new([1, 2, 3]);
    mutex.lock()[1] = 9;
    assert_eq!(&*mutex.lock(), &[1, 9, 3][..]);
    let shown: Box<Mutex<dyn std::fmt::Display>> = Box::new(Mutex::new(4));
    assert_eq!(shown.lock().to_string(), "4");
}

#[test]
fn it_shows_its_value_or_that_it_is_locked() {
    let mutex = Mutex::new(vec![1u8, 2]);
    assert_eq!(format!("{mutex:?}"), "Mutex { data: [1, 2] }");
    let guard = mutex.lock();
    assert_eq!(format!("{mutex:?}"), "Mutex { data: <locked> }");
    assert_eq!(format!("{guard:?}"), "[1, 2]");
    let part = MutexGuard::map(guard, |items| &mut items[1]);
    assert_eq!((format!("{part:?}"), format!("{part}")), ("2".to_string(), "2".to_string()));
    drop(part);
    let entry = mutex.enter();
    assert_eq!(format!("{entry:?} {mutex:?}"), "[1, 2] Mutex { data: <locked> }");
}

#[test]
fn guards_are_shared_with_other_threads() {
    fn is_sync<T: Sync>(_shared: &T) {}
    let mutex = Mutex::new(7);
    let guard = mutex.lock();
    is_sync(&guard);
    thread::scope(|scope| {
        scope.spawn(|| assert_eq!(*guard, 7));
    });
    drop(guard);
    is_sync(&mutex.enter());
    is_sync(&MutexGuard::map(mutex.lock(), |value| value));
}

#[test]
fn the_owner_tries_in_vain() {
    let mutex = Mutex::new(0);
    let guard = mutex.lock();
    let begin = Instant::now();
    assert!(mutex.try_lock().is_none());
    assert!(mutex.try_lock_for(LONG).is_none());
    assert!(mutex.try_lock_until(Instant::now() + LONG).is_none());
    assert!(begin.elapsed() < LONG);
    drop(guard);
    let entry = mutex.enter();
    assert!(mutex.try_lock().is_none() && mutex.try_lock_for(SHORT).is_none());
    assert_eq!(*mutex.enter(), 0);
    drop(entry);
    *mutex.try_lock().unwrap() += 1;
    *mutex.try_lock_for(SHORT).unwrap() += 1;
    *mutex.try_lock_until(Instant::now()).unwrap() += 1;
    assert_eq!(mutex.into_inner(), 3);
}

#[test]
fn one_that_waits_or_tries_in_vain_is_not_the_owner() {
    let mutex = Mutex::new(());
    let guard = mutex.lock();
    let tries: [&(dyn Fn() -> bool + Sync); 3] = [
        &|| mutex.try_lock().is_some(),
        &|| mutex.try_lock_for(SHORT).is_some(),
        &|| mutex.lock_interruptibly_for(SHORT).is_ok(),
    ];
    for attempt in tries {
        let other = thread::scope(|scope| scope.spawn(|| (attempt(), mutex.is_mine())).join().unwrap());
        assert_eq!((other, mutex.is_mine()), ((false, false), true));
    }
    thread::scope(|scope| {
        scope.spawn(|| drop(mutex.lock()));
        until(|| mutex.queue_length() == 1);
        let owns = mutex.is_mine();
        drop(guard);
        assert!(owns);
    });
}

#[test]
fn one_that_gives_it_up_leaves_the_next_owner_as_it_is() {
    let (mutex, late) = (Mutex::new(()), Instant::now() + 30 * SHORT);
    thread::scope(|scope| {
        for _ in 0..4 {
            scope.spawn(|| {
                while Instant::now() < late {
                    let _guard = mutex.lock();
                    // One that has woken this thread may go on.
                    thread::yield_now();
                    assert!(mutex.is_mine());
                }
            });
        }
    });
}

#[test]
fn one_that_leaves_counts_no_entry_of_the_next_owner() {
    let (mutex, late) = (Mutex::new(()), Instant::now() + 60 * SHORT);
    thread::scope(|scope| {
        for _ in 0..4 {
            scope.spawn(|| {
                while Instant::now() < late {
                    let entry = mutex.enter();
                    // One that has woken this thread may go on.
                    thread::yield_now();
                    drop(entry);
                    // It has nothing, so it may lock.
                    drop(mutex.lock());
                }
            });
        }
    });
}

#[test]
fn one_for_whom_there_is_no_seat_is_told() {
    let mutex = Mutex::with(0, Options::new().threads(1)).unwrap();
    let guard = mutex.lock();
    let calls: [&(dyn Fn() + Sync); 2] = [&|| drop(mutex.try_lock()), &|| drop(mutex.try_enter())];
    for call in calls {
        let said = thread::scope(|scope| scope.spawn(|| refusal(call)).join().unwrap());
        let why = "as many threads as the object was opened for hold it or wait for it";
        assert_eq!(said, format!("aqs: {why} (AQS_TOO_MANY_THREADS)"));
    }
    // A call that may wait waits for a seat.
    thread::scope(|scope| scope.spawn(|| assert!(mutex.try_lock_for(SHORT).is_none())).join().unwrap());
    // None of them has entered.
    assert!(refusal(|| drop(mutex.enter())).contains("has locked this mutex"));
    drop(guard);
    *mutex.lock() += 1;
    assert_eq!(mutex.into_inner(), 1);
}

#[test]
fn it_says_who_has_it() {
    let mutex = Mutex::new(());
    assert!(!mutex.is_locked() && !mutex.is_mine());
    let guard = mutex.lock();
    assert!(mutex.is_locked() && mutex.is_mine());
    thread::scope(|scope| {
        scope.spawn(|| assert!(mutex.is_locked() && !mutex.is_mine()));
    });
    drop(guard);
    assert!(!mutex.is_locked());
    let (one, two) = (mutex.enter(), mutex.enter());
    drop(one);
    assert!(mutex.is_mine());
    drop(two);
    assert!(!mutex.is_locked());
    let ways: [fn(&Mutex<()>) -> Option<MutexGuard<'_, ()>>; 5] = [
        |mutex| mutex.try_lock(),
        |mutex| mutex.try_lock_for(LONG),
        |mutex| mutex.try_lock_until(Instant::now() + LONG),
        |mutex| mutex.lock_interruptibly().ok(),
        |mutex| mutex.lock_interruptibly_for(LONG).ok(),
    ];
    for way in ways {
        let guard = way(&mutex).unwrap();
        assert!(mutex.is_locked() && mutex.is_mine());
        drop(guard);
        assert!(!mutex.is_locked() && !mutex.is_mine());
    }
}

#[test]
fn times_are_never_cut_short() {
    let mutex = Mutex::new(());
    let _guard = mutex.lock();
    thread::scope(|scope| {
        scope.spawn(|| {
            for microseconds in (1..3000).step_by(61) {
                let (time, begin) = (Duration::from_micros(microseconds), Instant::now());
                assert!(mutex.try_lock_for(time).is_none());
                assert!(begin.elapsed() >= time, "{microseconds}");
            }
        });
    });
}

#[test]
fn times_may_be_as_long_as_durations() {
    let mutex = Mutex::new(0);
    let guard = mutex.lock();
    thread::scope(|scope| {
        for time in [Duration::MAX, Duration::from_secs(u64::from(u32::MAX))] {
            let mutex = &mutex;
            scope.spawn(move || *mutex.try_lock_for(time).unwrap() += 1);
        }
        until(|| mutex.queue_length() == 2);
        drop(guard);
    });
    assert_eq!(mutex.into_inner(), 2);
}

#[test]
fn an_interrupt_waits_for_a_call_that_minds_it() {
    let mutex = Mutex::new(());
    let guard = mutex.lock();
    thread::scope(|scope| {
        scope.spawn(|| {
            Thread::current().interrupt().unwrap();
            let begin = Instant::now();
            assert!(mutex.try_lock_for(SHORT).is_none());
            assert!(begin.elapsed() >= SHORT);
            assert_eq!(mutex.lock_interruptibly_for(LONG).err(), Some(Error::Interrupted));
            assert!(!aqs::interrupted());
        });
    });
    drop(guard);
}

#[test]
fn a_panic_leaves_it_usable() {
    let mutex = Arc::new(Mutex::new(1));
    let other = Arc::clone(&mutex);
    let ended = thread::spawn(move || {
        let mut value = other.lock();
        *value = 2;
        panic!("on purpose");
    });
    assert!(ended.join().is_err());
    assert_eq!(*mutex.lock(), 2);
}

/// The trait of this name in `lock_api` has these members.
trait RawMutex {
    const INIT: Self;
    fn lock(&self);
    fn try_lock(&self) -> bool;
    /// # Safety
    ///
    /// The calling thread has the mutex.
    unsafe fn unlock(&self);
    fn is_locked(&self) -> bool;
}

struct Raw(Mutex<()>);

impl RawMutex for Raw {
    const INIT: Raw = Raw(Mutex::new(()));

    fn lock(&self) {
        mem::forget(self.0.lock());
    }

    fn try_lock(&self) -> bool {
        self.0.try_lock().map(mem::forget).is_some()
    }

    unsafe fn unlock(&self) {
        // SAFETY: the guard of this thread was forgotten.
        unsafe { self.0.force_unlock() };
    }

    fn is_locked(&self) -> bool {
        self.0.is_locked()
    }
}

/// Adds under the mutex what a load and a store would lose without it.
fn add_often(raw: &Raw, sum: &AtomicU32) {
    for turn in 0..500 {
        if turn % 2 == 0 || !raw.try_lock() {
            raw.lock();
        }
        sum.store(sum.load(Ordering::Relaxed) + 1, Ordering::Relaxed);
        // SAFETY: the thread has it.
        unsafe { raw.unlock() };
    }
}

#[test]
fn a_raw_mutex_is_written_over_it() {
    static RAW: Raw = Raw::INIT;
    static SUM: AtomicU32 = AtomicU32::new(0);
    thread::scope(|scope| {
        for _ in 0..4 {
            scope.spawn(|| add_often(&RAW, &SUM));
        }
    });
    assert_eq!(SUM.load(Ordering::Relaxed), 4 * 500);
    assert!(!RAW.is_locked() && RAW.try_lock() && RAW.is_locked());
    assert!(!thread::scope(|scope| scope.spawn(|| RAW.try_lock()).join().unwrap()));
    // SAFETY: the thread has it.
    unsafe { RAW.unlock() };
    assert!(!RAW.is_locked());
}

#[test]
fn it_is_unlocked_in_between() {
    let mutex = Mutex::new(0);
    let mut guard = mutex.lock();
    let seen = MutexGuard::unlocked(&mut guard, || {
        let seen = (mutex.is_locked(), mutex.is_mine());
        thread::scope(|scope| scope.spawn(|| *mutex.try_lock().unwrap() += 5).join().unwrap());
        *mutex.lock() += 1;
        seen
    });
    assert_eq!((*guard, seen, mutex.is_mine()), (6, (false, false), true));
    let failed = panic::catch_unwind(panic::AssertUnwindSafe(|| {
        MutexGuard::unlocked(&mut guard, || panic!("on purpose"));
    }));
    assert!(failed.is_err() && mutex.is_mine());
    assert!(std::ptr::eq(MutexGuard::mutex(&guard), &mutex));
}

#[test]
fn parts_of_the_value_are_locked_as_a_whole() {
    let mutex = Mutex::new((1, vec![1, 2, 3]));
    let list = MutexGuard::map(mutex.lock(), |value| &mut value.1);
    let mut last = MappedMutexGuard::map(list, |list| list.last_mut().unwrap());
    *last = 9;
    assert!(mutex.is_locked() && mutex.try_lock().is_none());
    drop(last);
    let Err(guard) = MutexGuard::try_map(mutex.lock(), |value| value.1.get_mut(7)) else {
        panic!("no such item")
    };
    assert!(mutex.is_mine());
    let Ok(list) = MutexGuard::try_map(guard, |value| Some(&mut value.1)) else { panic!("it is there") };
    assert!(mutex.is_mine());
    let Err(list) = MappedMutexGuard::try_map(list, |list| list.get_mut(7)) else { panic!("no such item") };
    assert!(mutex.is_mine());
    let Ok(first) = MappedMutexGuard::try_map(list, |list| list.get_mut(0)) else { panic!("it is there") };
    assert_eq!((*first, mutex.is_mine()), (1, true));
    drop(first);
    assert!(!mutex.is_locked());
    assert_eq!(mutex.into_inner(), (1, vec![1, 2, 9]));
}

#[test]
fn a_panic_for_a_part_of_the_value_leaves_it_unlocked() {
    let mutex = Mutex::new(0);
    let part = || MutexGuard::map(mutex.lock(), |value| value);
    for call in [
        &(|| drop(MutexGuard::map(mutex.lock(), |_| -> &mut u8 { panic!("on purpose") }))) as &dyn Fn(),
        &|| drop(MutexGuard::try_map(mutex.lock(), |_| -> Option<&mut u8> { panic!("on purpose") })),
        &|| drop(MappedMutexGuard::map(part(), |_| -> &mut u8 { panic!("on purpose") })),
        &|| drop(MappedMutexGuard::try_map(part(), |_| -> Option<&mut u8> { panic!("on purpose") })),
    ] {
        assert_eq!(refusal(call), "on purpose");
        assert!(!mutex.is_locked());
    }
}

#[test]
fn faults_have_names() {
    let failed = panic::catch_unwind(|| {
        let mutex = Mutex::new(());
        let (_one, _two) = (mutex.lock(), mutex.lock());
    });
    assert!(failed.unwrap_err().downcast_ref::<&str>().unwrap().contains("has this mutex already"));
    let full = Mutex::with((), Options::new().keep_history().most_entries(16)).unwrap();
    let failed = panic::catch_unwind(panic::AssertUnwindSafe(|| (0..20).for_each(|_| drop(full.lock()))));
    let said = failed.unwrap_err().downcast_ref::<String>().unwrap().clone();
    assert_eq!(said, "aqs: the history is full (AQS_HISTORY_FULL)");
    assert_eq!(full.lock_interruptibly().err(), Some(Error::HistoryFull));
    for call in [&(|| drop(full.try_lock())) as &dyn Fn(), &|| drop(full.try_lock_for(SHORT))] {
        let failed = panic::catch_unwind(panic::AssertUnwindSafe(call));
        assert!(failed.unwrap_err().downcast_ref::<String>().unwrap().ends_with("(AQS_HISTORY_FULL)"));
    }
    assert_eq!(format!("{:?}", Error::HistoryFull), "HistoryFull");
    let error: Box<dyn std::error::Error> = Box::new(Error::OutOfMemory);
    assert_eq!(error.to_string(), "the library got no memory");
    let faults = [
        Mutex::with((), Options::new().threads(300)).err(),
        Mutex::with((), Options::new().conditions(17)).err(),
    ];
    assert_eq!(faults, [Some(Error::OutOfRange); 2]);
    assert!(!full.is_locked() && Condvar::default().notify_all() == 0);
}

#[test]
fn errors_have_the_names_of_their_statuses() {
    let unknown = Error::Other(99);
    assert_eq!((unknown.name(), &*unknown.to_string()), ("no status", "status 99 of aqs.h"));
    for (error, name, part) in [
        (Error::TimedOut, "AQS_TIMED_OUT", "time was up"),
        (Error::Interrupted, "AQS_INTERRUPTED", "was interrupted"),
        (Error::WouldBlock, "AQS_WOULD_BLOCK", "had to wait"),
        (Error::NotOwner, "AQS_NOT_OWNER", "doesn't own"),
        (Error::TooManyHolds, "AQS_TOO_MANY_HOLDS", "held as often"),
        (Error::TooManyPermits, "AQS_TOO_MANY_PERMITS", "too many permits"),
        (Error::HoldsRead, "AQS_HOLDS_READ", "while it reads"),
        (Error::NoSuchCondition, "AQS_NO_SUCH_CONDITION", "fewer conditions"),
        (Error::BadAmount, "AQS_BAD_AMOUNT", "in one call"),
        (Error::HistoryFull, "AQS_HISTORY_FULL", "history is full"),
        (Error::OutOfMemory, "AQS_OUT_OF_MEMORY", "no memory"),
        (Error::OutOfRange, "AQS_OUT_OF_RANGE", "can't be opened"),
        (Error::TooManyThreads, "AQS_TOO_MANY_THREADS", "as many threads"),
        (Error::NoSpace, "AQS_NO_SPACE", "buffer was too small"),
        (Error::IoError, "AQS_IO_ERROR", "couldn't be written"),
        (Error::Misuse, "AQS_MISUSE", "already in a call"),
    ] {
        assert_eq!(error.name(), name);
        assert!(error.to_string().contains(part), "{error}");
    }
}
