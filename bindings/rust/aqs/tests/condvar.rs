//! Condvars: any number for a mutex, notified by any thread, and nothing is lost.

mod support;

use aqs::{interrupted, Condvar, Error, Mutex, MutexGuard, Options, RwLock, Thread};
use std::collections::VecDeque;
use std::sync::atomic::{AtomicBool, AtomicUsize, Ordering};
use std::sync::mpsc::channel;
use std::sync::Arc;
use std::time::{Duration, Instant};
use std::{panic, thread};
use support::{keep, refusal, until, LONG, SHORT};

/// Whether it is so while nobody else has the mutex: a thread that counted itself under it then waits.
fn is_so_under<T>(mutex: &Mutex<T>, is_so: impl Fn() -> bool) -> bool {
    let _guard = mutex.lock();
    is_so()
}

#[test]
fn a_notify_to_nobody_is_not_kept() {
    let (mutex, condvar) = (Mutex::new(()), Condvar::new());
    assert!(!condvar.notify_one());
    assert_eq!(condvar.notify_all(), 0);
    let mut guard = mutex.lock();
    assert!(condvar.wait_for(&mut guard, SHORT).timed_out());
    assert!(condvar.wait_until(&mut guard, Instant::now() + SHORT).timed_out());
    assert_eq!(format!("{condvar:?}"), "Condvar { .. }");
}

#[test]
fn it_says_how_many_it_woke() {
    for owns in [true, false] {
        let (waiting, condvar) = (Mutex::new(0), Condvar::new());
        thread::scope(|scope| {
            for _ in 0..6 {
                scope.spawn(|| {
                    let mut guard = waiting.lock();
                    *guard += 1;
                    condvar.wait(&mut guard);
                });
            }
            until(|| *waiting.lock() == 6);
            let guard = owns.then(|| waiting.lock());
            assert!(condvar.notify_one() && condvar.notify_one());
            assert_eq!(condvar.notify_all(), 4);
            assert!(!condvar.notify_one());
            drop(guard);
        });
    }
}

#[test]
fn those_who_waited_longest_go_first() {
    for beside_an_owner in [false, true] {
        let (woken, condvar) = (Mutex::new(Vec::new()), Condvar::new());
        let waiting = AtomicUsize::new(0);
        thread::scope(|scope| {
            for number in 0..5 {
                let (woken, condvar, waiting) = (&woken, &condvar, &waiting);
                scope.spawn(move || {
                    let mut guard = woken.lock();
                    waiting.fetch_add(1, Ordering::SeqCst);
                    condvar.wait(&mut guard);
                    guard.push(number);
                });
                until(|| is_so_under(woken, || waiting.load(Ordering::SeqCst) == number + 1));
            }
            for number in 0..5 {
                let guard = beside_an_owner.then(|| woken.lock());
                scope.spawn(|| assert!(condvar.notify_one())).join().unwrap();
                drop(guard);
                until(|| woken.lock().len() == number + 1);
            }
        });
        assert_eq!(woken.into_inner(), [0, 1, 2, 3, 4]);
    }
}

#[test]
fn a_notify_moves_no_more_than_it_says() {
    for mutex in [Mutex::new(0), Mutex::with(0, Options::new().conditions(2)).unwrap()] {
        let (one, two) = (Condvar::new(), Condvar::new());
        // The numbers that these waits take are free again afterwards.
        for _ in 0..3 {
            assert!(Condvar::new().wait_for(&mut mutex.lock(), Duration::ZERO).timed_out());
        }
        thread::scope(|scope| {
            scope.spawn(|| one.wait(&mut mutex.lock()));
            until(|| mutex.waiters() == 1);
            let mut guard = mutex.lock();
            assert!(one.notify_one());
            // The other is on its way back, so the condvar has a number.
            assert!(one.wait_for(&mut guard, Duration::ZERO).timed_out());
        });
        let moved = thread::scope(|scope| {
            for condvar in [&one, &one, &two, &two] {
                scope.spawn(|| condvar.wait_for(&mut mutex.lock(), LONG));
            }
            // Who waits for the mutex itself is a waiter too.
            until(|| mutex.waiters() == 4 && mutex.queue_length() == 0);
            let _guard = mutex.lock();
            let calls: [&dyn Fn() -> usize; 4] = [
                &|| one.notify_one().into(),
                &|| two.notify_one().into(),
                &|| one.notify_all(),
                &|| two.notify_all(),
            ];
            calls.map(|call| (call(), mutex.queue_length()))
        });
        assert_eq!(moved, [(1, 1), (1, 2), (1, 3), (1, 4)]);
    }
}

#[test]
fn a_notify_never_waits_for_the_mutex() {
    let (mutex, condvar) = (Mutex::new(false), Condvar::new());
    thread::scope(|scope| {
        let waiter = scope.spawn(|| {
            let mut guard = mutex.lock();
            *guard = true;
            condvar.wait(&mut guard);
        });
        until(|| *mutex.lock());
        // Another thread has the mutex until the notify has returned.
        let guard = mutex.lock();
        scope.spawn(|| assert!(condvar.notify_one())).join().unwrap();
        drop(guard);
        waiter.join().unwrap();
    });
}

#[test]
fn one_that_waits_is_not_the_owner() {
    let (mutex, condvar) = (Mutex::new(()), Condvar::new());
    thread::scope(|scope| {
        let waiter = scope.spawn(|| condvar.wait_for(&mut mutex.lock(), LONG));
        until(|| mutex.waiters() == 1);
        // No thread locks later, so an owner would never make the signal that is due.
        let begin = Instant::now();
        assert!(condvar.notify_one());
        assert!(!waiter.join().unwrap().timed_out() && begin.elapsed() < LONG / 2);
    });
}

#[test]
fn an_owner_makes_the_signals_of_each_condvar() {
    let (mutex, condvars) = (Mutex::new(()), [Condvar::new(), Condvar::new(), Condvar::new()]);
    thread::scope(|scope| {
        let waiters = condvars.each_ref().map(|it| scope.spawn(|| it.wait_for(&mut mutex.lock(), LONG)));
        until(|| mutex.waiters() == 3 && mutex.queue_length() == 0);
        let guard = mutex.lock();
        let notify = || condvars.iter().all(|it| it.notify_one());
        let (were_there, begin) = (scope.spawn(notify).join().unwrap(), Instant::now());
        drop(guard);
        // No thread locks later, but those that are woken.
        assert!(were_there && waiters.map(|it| it.join().unwrap().timed_out()) == [false; 3]);
        assert!(begin.elapsed() < LONG / 2);
    });
}

#[test]
fn one_that_leaves_takes_no_place_of_another() {
    let (mutex, condvar) = (Mutex::new(()), Condvar::new());
    thread::scope(|scope| {
        let first = scope.spawn(|| condvar.wait(&mut mutex.lock()));
        until(|| mutex.waiters() == 1);
        let (send, receive) = channel();
        let (mutex, condvar) = (&mutex, &condvar);
        let second = scope.spawn(move || {
            send.send(Thread::current()).unwrap();
            condvar.wait_interruptibly(&mut mutex.lock())
        });
        until(|| mutex.waiters() == 2);
        assert!(condvar.wait_for(&mut mutex.lock(), SHORT).timed_out() && condvar.notify_one());
        first.join().unwrap();
        // The second is not notified, so an interrupt ends its wait.
        receive.recv().unwrap().interrupt().unwrap();
        assert_eq!((second.join().unwrap(), condvar.notify_all()), (Err(Error::Interrupted), 0));
    });
}

#[test]
fn each_notify_beside_an_owner_counts() {
    // The last of three means all who wait.
    for notifies in [2, 3] {
        let (counts, condvar) = (Mutex::new([0, 0]), Condvar::new());
        thread::scope(|scope| {
            for _ in 0..3 {
                scope.spawn(|| {
                    let mut counts = counts.lock();
                    counts[0] += 1;
                    let _time = condvar.wait_for(&mut counts, LONG);
                    counts[1] += 1;
                });
            }
            until(|| counts.lock()[0] == 3);
            let guard = counts.lock();
            scope.spawn(|| (0..notifies).for_each(|_| assert!(condvar.notify_one()))).join().unwrap();
            drop(guard);
            let late = Instant::now() + LONG / 3;
            while counts.lock()[1] < notifies && Instant::now() < late {
                thread::yield_now();
            }
            let woken = counts.lock()[1];
            condvar.notify_all();
            assert_eq!(woken, notifies);
        });
    }
}

#[test]
fn more_condvars_than_numbers() {
    for conditions in [1, 2, 16] {
        let options = Options::new().conditions(conditions).keep_history();
        let woken = Mutex::with(Vec::new(), options).unwrap();
        let condvars: Vec<Condvar> = (0..20).map(|_| Condvar::new()).collect();
        let waiting = AtomicUsize::new(0);
        thread::scope(|scope| {
            for (number, condvar) in condvars.iter().enumerate() {
                let (woken, waiting) = (&woken, &waiting);
                scope.spawn(move || {
                    let mut guard = woken.lock();
                    waiting.fetch_add(1, Ordering::SeqCst);
                    condvar.wait(&mut guard);
                    guard.push(number);
                });
            }
            until(|| is_so_under(&woken, || waiting.load(Ordering::SeqCst) == 20));
            for (number, condvar) in condvars.iter().enumerate().rev() {
                assert!(condvar.notify_one());
                until(|| woken.lock().last() == Some(&number));
            }
        });
        assert_eq!(*woken.lock(), (0..20).rev().collect::<Vec<_>>());
        keep(&format!("condvars-{conditions}"), woken.history().unwrap());
    }
}

#[test]
fn one_of_two_is_notified_beside_another_of_its_number() {
    let woken = Mutex::with(Vec::new(), Options::new().conditions(1)).unwrap();
    let (own, other) = (Condvar::new(), Condvar::new());
    thread::scope(|scope| {
        for (condvar, number) in [(&other, 1), (&own, 2), (&own, 3)] {
            let woken = &woken;
            scope.spawn(move || {
                let mut guard = woken.lock();
                condvar.wait(&mut guard);
                guard.push(number);
            });
            until(|| woken.waiters() == number);
        }
        assert!(own.notify_one());
        let late = Instant::now() + LONG;
        while woken.lock().is_empty() && Instant::now() < late {
            thread::yield_now();
        }
        let first = woken.lock().clone();
        assert_eq!((own.notify_all(), other.notify_all()), (1, 1));
        assert_eq!(first, [2]);
    });
}

#[test]
#[should_panic(expected = "with another mutex")]
fn a_second_mutex_is_refused() {
    let (one, two, condvar) = (Mutex::new(false), Mutex::new(()), Condvar::new());
    thread::scope(|scope| {
        scope.spawn(|| {
            let mut guard = one.lock();
            *guard = true;
            condvar.wait(&mut guard);
        });
        until(|| *one.lock());
        let tried = panic::catch_unwind(panic::AssertUnwindSafe(|| condvar.wait(&mut two.lock())));
        assert!(condvar.notify_one() && !two.is_locked());
        panic::resume_unwind(tried.unwrap_err());
    });
}

#[test]
#[should_panic(expected = "with another mutex")]
fn one_that_was_notified_has_the_condvar_until_it_is_back() {
    let (one, two, condvar) = (Mutex::new(false), Mutex::new(()), Condvar::new());
    thread::scope(|scope| {
        scope.spawn(|| {
            let mut guard = one.lock();
            *guard = true;
            condvar.wait(&mut guard);
        });
        until(|| *one.lock());
        let guard = one.lock();
        assert!(condvar.notify_one());
        let wait = || condvar.wait_for(&mut two.lock(), SHORT);
        let tried = panic::catch_unwind(panic::AssertUnwindSafe(wait));
        drop(guard);
        panic::resume_unwind(tried.unwrap_err());
    });
}

#[test]
fn mutexes_take_turns() {
    let (one, two, condvar) = (Mutex::new(()), Mutex::new(()), Condvar::new());
    assert!(condvar.wait_for(&mut one.lock(), SHORT).timed_out());
    assert!(condvar.wait_for(&mut two.lock(), SHORT).timed_out());
    drop(one);
    assert!(!condvar.notify_one());
}

#[test]
fn waits_go_on_while_the_value_is_so() {
    let (count, condvar) = (Mutex::new(0), Condvar::new());
    let mut looks = 0;
    condvar.wait_while(&mut count.lock(), |_| {
        looks += 1;
        false
    });
    assert_eq!(looks, 1);
    thread::scope(|scope| {
        scope.spawn(|| {
            for _ in 0..3 {
                *count.lock() += 1;
                condvar.notify_one();
            }
        });
        let mut guard = count.lock();
        condvar.wait_while(&mut guard, |count| *count < 3);
        assert_eq!(*guard, 3);
        assert!(condvar.wait_while_for(&mut guard, |count| *count < 4, SHORT).timed_out());
        let moment = Instant::now() + SHORT;
        assert!(condvar.wait_while_until(&mut guard, |count| *count < 4, moment).timed_out());
        assert!(Instant::now() >= moment);
        let mut looks = 0;
        let is_so = |_: &mut i32| {
            looks += 1;
            true
        };
        assert!(condvar.wait_while_for(&mut guard, is_so, SHORT).timed_out());
        assert_eq!(looks, 1);
        assert!(!condvar.wait_while_for(&mut guard, |count| *count < 3, SHORT).timed_out());
        assert!(!condvar.wait_while_for(&mut guard, |count| *count < 3, Duration::ZERO).timed_out());
    });
}

#[test]
fn interrupts_end_waits_that_mind_them() {
    let (mutex, condvar) = (Mutex::new(()), Condvar::new());
    thread::scope(|scope| {
        let (send, receive) = channel();
        let (mutex, condvar) = (&mutex, &condvar);
        let waiter = scope.spawn(move || {
            let mut guard = mutex.lock();
            send.send(Thread::current()).unwrap();
            let ended = condvar.wait_interruptibly(&mut guard);
            (ended, mutex.is_mine())
        });
        let thread = receive.recv().unwrap();
        drop(mutex.lock());
        thread.interrupt().unwrap();
        assert_eq!(waiter.join().unwrap(), (Err(Error::Interrupted), true));
        assert!(!condvar.notify_one());
    });
    let mut guard = mutex.lock();
    Thread::current().interrupt().unwrap();
    assert!(condvar.wait_for(&mut guard, SHORT).timed_out());
    assert_eq!(condvar.wait_interruptibly_for(&mut guard, LONG), Err(Error::Interrupted));
    assert_eq!(condvar.wait_interruptibly_for(&mut guard, SHORT), Err(Error::TimedOut));
    assert!(!interrupted());
}

#[test]
fn an_interrupt_after_a_notify_is_kept() {
    let (waiter, condvar) = (Mutex::new(None), Condvar::new());
    thread::scope(|scope| {
        let ended = scope.spawn(|| {
            let mut guard = waiter.lock();
            *guard = Some(Thread::current());
            (condvar.wait_interruptibly(&mut guard), interrupted())
        });
        until(|| waiter.lock().is_some());
        // The notify is due when this thread gives the mutex up. The interrupt ends the wait before.
        let guard = waiter.lock();
        scope.spawn(|| assert!(condvar.notify_one())).join().unwrap();
        guard.unwrap().interrupt().unwrap();
        until(|| waiter.queue_length() == 1);
        drop(guard);
        assert_eq!(ended.join().unwrap(), (Ok(()), true));
    });
}

#[test]
fn a_notify_before_the_time_is_up_counts() {
    let (mutex, condvar) = (Mutex::new(()), Condvar::new());
    thread::scope(|scope| {
        let waiter = scope.spawn(|| condvar.wait_for(&mut mutex.lock(), 20 * SHORT));
        until(|| mutex.waiters() == 1);
        // The notify is due when this thread gives the mutex up. The time is up before.
        let guard = mutex.lock();
        let was_there = scope.spawn(|| condvar.notify_one()).join().unwrap();
        until(|| mutex.queue_length() == 1);
        drop(guard);
        assert_eq!((was_there, waiter.join().unwrap().timed_out()), (true, false));
    });
}

#[test]
fn an_interrupt_costs_a_plain_wait_no_place() {
    let (woken, condvar) = (Mutex::new(Vec::new()), Condvar::new());
    let (send, receive) = channel();
    thread::scope(|scope| {
        for number in 0..2 {
            let (woken, condvar, sender) = (&woken, &condvar, send.clone());
            scope.spawn(move || {
                let mut guard = woken.lock();
                sender.send(Thread::current()).unwrap();
                condvar.wait(&mut guard);
                guard.push((number, interrupted()));
            });
            until(|| woken.waiters() == number + 1);
        }
        receive.recv().unwrap().interrupt().unwrap();
        thread::sleep(SHORT);
        for number in 0..2 {
            assert!(condvar.notify_one());
            until(|| woken.lock().len() == number + 1);
        }
    });
    assert_eq!(woken.into_inner(), [(0, true), (1, false)]);
}

/// Fills the history of a mutex that the calling thread has, by tries in vain.
fn fill<T: Send>(mutex: &Mutex<T>) {
    let said = thread::scope(|scope| {
        scope.spawn(|| refusal(|| while mutex.try_lock().is_none() {})).join().unwrap()
    });
    assert_eq!(said, "aqs: the history is full (AQS_HISTORY_FULL)");
}

#[test]
fn a_wait_that_is_refused_changes_nothing() {
    let options = Options::new().keep_history().most_entries(64);
    let (mutex, condvar) = (Mutex::with((), options).unwrap(), Condvar::new());
    let mut guard = mutex.lock();
    fill(&mutex);
    assert_eq!(condvar.wait_interruptibly(&mut guard), Err(Error::HistoryFull));
    assert!(refusal(|| condvar.wait(&mut guard)).ends_with("(AQS_HISTORY_FULL)"));
    let timed = || assert!(!condvar.wait_for(&mut guard, SHORT).timed_out());
    assert!(refusal(timed).ends_with("(AQS_HISTORY_FULL)"));
    assert!(mutex.is_mine() && !condvar.notify_one());
    assert!(condvar.wait_for(&mut Mutex::new(()).lock(), SHORT).timed_out());
}

#[test]
fn a_notify_that_is_refused_changes_nothing() {
    for again in [true, false] {
        let options = Options::new().keep_history().most_entries(64);
        let (mutex, condvar) = (Mutex::with(None, options).unwrap(), Condvar::new());
        let ended = thread::scope(|scope| {
            let waiter = scope.spawn(|| {
                let mut guard = mutex.lock();
                *guard = Some(Thread::current());
                condvar.wait_interruptibly(&mut guard)
            });
            until(|| mutex.waiters() == 1);
            // The waiter is interrupted, but not back, so the signal moves nobody and needs room.
            let guard = mutex.lock();
            guard.unwrap().interrupt().unwrap();
            until(|| mutex.queue_length() == 1);
            fill(&mutex);
            assert!(refusal(|| assert!(condvar.notify_one())).ends_with("(AQS_HISTORY_FULL)"));
            mutex.trim().unwrap();
            assert!(!again || condvar.notify_one());
            drop(guard);
            waiter.join().unwrap()
        });
        assert_eq!(ended, if again { Ok(()) } else { Err(Error::Interrupted) });
    }
}

#[test]
fn a_waiter_gets_the_mutex_in_between() {
    let (waits, condvar) = (Mutex::new(false), Condvar::new());
    thread::scope(|scope| {
        let mut guard = waits.lock();
        scope.spawn(|| {
            let mut guard = waits.lock();
            *guard = true;
            condvar.wait(&mut guard);
        });
        while !condvar.notify_one() {
            MutexGuard::bump(&mut guard);
            thread::yield_now();
        }
        assert!(*guard);
    });
}

/// Numbers that go through a queue with this many places. Each is notified after the mutex is free again.
fn pass_through(
    places: usize,
    ends: usize,
    each: usize,
    time: Option<Duration>,
    options: Options,
    all: bool,
) {
    let queue = Arc::new(Mutex::with(VecDeque::new(), options).unwrap());
    let (not_empty, not_full) = (Condvar::new(), Condvar::new());
    let notify =
        |condvar: &Condvar| if all { condvar.notify_all() } else { usize::from(condvar.notify_one()) };
    let wait = |condvar: &Condvar, guard: &mut MutexGuard<'_, VecDeque<usize>>| match time {
        None => condvar.wait(guard),
        Some(time) => drop(condvar.wait_for(guard, time)),
    };
    let sum = AtomicUsize::new(0);
    thread::scope(|scope| {
        for end in 0..ends {
            let (queue, not_empty, not_full, sum, wait, notify) =
                (&queue, &not_empty, &not_full, &sum, &wait, &notify);
            scope.spawn(move || {
                for number in 0..each {
                    let mut items = queue.lock();
                    while items.len() == places {
                        wait(not_full, &mut items);
                    }
                    items.push_back(end * each + number);
                    drop(items);
                    notify(not_empty);
                }
            });
            scope.spawn(move || {
                for _ in 0..each {
                    let mut items = queue.lock();
                    while items.is_empty() {
                        wait(not_empty, &mut items);
                    }
                    let item = items.pop_front().unwrap();
                    drop(items);
                    notify(not_full);
                    sum.fetch_add(item, Ordering::Relaxed);
                }
            });
        }
    });
    let count = ends * each;
    assert_eq!(sum.into_inner(), count * (count - 1) / 2);
    assert!(queue.lock().is_empty());
}

#[test]
fn no_notify_from_outside_is_lost() {
    for (ends, each) in [(1, 4000), (4, 400)] {
        for all in [false, true] {
            for options in
                [Options::new(), Options::new().fair(), Options::new().strict(), Options::new().conditions(1)]
            {
                pass_through(1, ends, each, None, options, all);
            }
        }
    }
}

#[test]
fn no_notify_is_lost_beside_timeouts() {
    pass_through(2, 4, 400, Some(Duration::from_micros(300)), Options::new().conditions(1), false);
    pass_through(1, 3, 400, Some(Duration::from_micros(100)), Options::new().fair(), false);
}

#[test]
fn a_mutex_may_go_as_soon_as_its_waiter_is_back() {
    for _ in 0..300 {
        let condvar = Condvar::new();
        let done = AtomicBool::new(false);
        thread::scope(|scope| {
            scope.spawn(|| {
                let mutex = Mutex::new(());
                let mut guard = mutex.lock();
                let _timeout = condvar.wait_for(&mut guard, Duration::from_micros(200));
                let owns = mutex.is_mine();
                drop(guard);
                drop(mutex);
                done.store(true, Ordering::SeqCst);
                assert!(owns);
            });
            scope.spawn(|| {
                while !done.load(Ordering::SeqCst) {
                    condvar.notify_one();
                }
            });
        });
    }
}

#[test]
fn owners_that_have_entered_notify() {
    let (mutex, condvar, lock) = (Mutex::new(false), Condvar::new(), RwLock::new(0));
    thread::scope(|scope| {
        scope.spawn(|| {
            let mut guard = mutex.lock();
            *guard = true;
            condvar.wait(&mut guard);
            *lock.write() += 1;
        });
        until(|| *mutex.lock());
        let (one, two) = (mutex.enter(), mutex.enter());
        assert!(condvar.notify_one());
        drop((one, two));
    });
    assert_eq!(lock.into_inner(), 1);
}
