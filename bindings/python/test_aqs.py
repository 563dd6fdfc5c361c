"""Each class: what it lets through, what it refuses, and its history: python3 -m unittest test_aqs.

AQS_HISTORIES names a folder for the histories.
"""
import base64
import contextlib
import copy
import ctypes
import email
import gc
import hashlib
import os
import pathlib
import pickle
import platform
import re
import signal
import subprocess
import sys
import tempfile
import threading
import time
import traceback
import unittest
import weakref
import zipfile
from unittest import mock

import aqs
from aqs import _library, _waiting

HERE = pathlib.Path(__file__).resolve().parent
HEADER = HERE.parent / "c" / "aqs.h"
NUMBERS = {
    "uint8_t": ctypes.c_uint8, "uint32_t": ctypes.c_uint32, "int32_t": ctypes.c_int32,
    "uint64_t": ctypes.c_uint64, "int64_t": ctypes.c_int64,
    "size_t": ctypes.c_size_t, "aqs_thread_t": ctypes.c_uint32, "aqs_status_t": ctypes.c_int,
    "aqs_policy_t": ctypes.c_uint,
    "bool": ctypes.c_bool, "aqs_bool_t": ctypes.c_bool, "void": None,
}
KINDS = (aqs.RLock, aqs.Lock, aqs.Semaphore, aqs.BoundedSemaphore)
LONG = 30


def in_c(declared):
    """The type of a parameter in C: of a number ctypes' own, of a pointer to one a pair, else "pointer"."""
    words = [it for it in declared.split() if it != "AQS_CHECKED"]
    of = NUMBERS.get(words[0])
    return of if "*" not in declared else ("pointer", of) if of and declared.count("*") == 1 else "pointer"


def in_python(declared):
    if not hasattr(declared, "contents"):
        return "pointer" if declared in (ctypes.c_void_p, ctypes.c_char_p) else declared
    return ("pointer", declared._type_) if declared._type_ in NUMBERS.values() else "pointer"


def run_all(count, work):
    threads = [threading.Thread(target=work, args=(it,), daemon=True) for it in range(count)]
    for thread in threads:
        thread.start()
    return threads


def join_all(threads):
    for thread in threads:
        thread.join(LONG)
        assert not thread.is_alive(), "a thread did not end"


def in_other(call):
    """What a call returns in another thread."""
    found = []
    join_all(run_all(1, lambda _number: found.append(call())))
    return found[0]


def raised_in_other(call):
    """The exception of a call in another thread, or None."""

    def tried():
        try:
            call()
        except Exception as error:
            return error
        return None

    return in_other(tried)


def seated(call):
    """Makes a call, again while a question of another thread takes the only seat."""
    while True:
        try:
            return call()
        except aqs.TooManyThreads:
            time.sleep(0.001)


def until(is_so):
    limit = time.monotonic() + LONG
    while not is_so():
        assert time.monotonic() < limit, "it did not come about"
        time.sleep(0.001)


class Tests(unittest.TestCase):
    def keep(self, name, thing):
        text = thing.history()
        self.assertTrue(text.startswith("aqs-history "))
        folder = os.environ.get("AQS_HISTORIES")
        if folder:
            with open(f"{folder}/python-{name}.history", "w", encoding="ascii") as file:
                file.write(text)


class Objects(Tests):
    def test_lock_lets_one_thread_in(self):
        lock, counts = aqs.RLock(policy=aqs.Policy.FAIR, keep_history=True), [0]

        def work(_number):
            for _ in range(300):
                with lock, lock:
                    seen = counts[0]
                    time.sleep(0)
                    counts[0] = seen + 1

        join_all(run_all(4, work))
        self.assertEqual(counts, [1200])
        with lock:
            self.assertFalse(in_other(lambda: lock.acquire(blocking=False)))
            self.assertFalse(in_other(lambda: lock.acquire(timeout=0.01)))
        self.keep("lock", lock)
        self.assertGreater(lock.trim(), 0)

    def test_conditions_hand_items_over(self):
        lock, items, got = aqs.RLock(conditions=2, keep_history=True), [], []

        def take(_number):
            for _ in range(200):
                with lock:
                    lock.wait_for(lambda: items)
                    got.append(items.pop(0))
                    lock.notify(condition=1)

        threads = run_all(2, take)
        for item in range(400):
            with lock:
                lock.wait_for(lambda: len(items) < 3, condition=1)
                items.append(item)
                lock.notify()
        join_all(threads)
        self.assertEqual(sorted(got), list(range(400)))
        with lock:
            self.assertFalse(lock.wait(timeout=0.01))
            lock.notify_all()
        self.keep("conditions", lock)

    def test_a_file_of_names_is_beside_a_history(self):
        lock, latch = aqs.RLock(keep_history=True), aqs.CountDownLatch(1)
        name = pathlib.Path("/proc/thread-self/comm").read_text(encoding="utf-8").strip()[:15].replace(" ", "_")
        with lock:
            threads = run_all(1, lambda _number: in_lock(lock, int))
            until(lambda: lock.queue_length() == 1)
        join_all(threads)
        with tempfile.TemporaryDirectory() as folder:
            for thing in (lock, latch):
                thing.save(pathlib.Path(folder) / "it")
                self.assertEqual((pathlib.Path(folder) / "it").read_text(encoding="utf-8"), thing.history())
                self.assertEqual((pathlib.Path(folder) / "it.names").read_text(encoding="utf-8"), thing.names())
        seats = [line.split(" ") for line in lock.names().splitlines()]
        self.assertEqual([it[1] for it in seats], [name, name])

    def test_a_bounded_buffer(self):
        lock, items, sums, room, each = aqs.RLock(), [], [0] * 3, 8, 20_000
        not_empty, not_full = aqs.Condition(lock), aqs.Condition(lock)

        def put(_number):
            for item in range(each):
                with lock:
                    while len(items) == room:
                        not_full.wait()
                    items.append(item)
                    not_empty.notify()

        def take(number):
            for _ in range(each):
                with lock:
                    while not items:
                        not_empty.wait()
                    sums[number] += items.pop()
                    not_full.notify()

        threads = run_all(3, put) + run_all(3, take)
        for thread in threads:
            thread.join(2 * LONG)
        self.assertEqual((sum(sums), items), (3 * sum(range(each)), []))

    def test_interrupts_end_waits(self):
        lock, told = aqs.RLock(keep_history=True), []

        def wait(_number):
            told.append(aqs.current_thread())
            try:
                lock.acquire(interruptible=True)
            except aqs.Interrupted as error:
                told.append(str(error))

        with lock:
            threads = run_all(1, wait)
            until(lambda: told and lock.queue_length() == 1)
            aqs.interrupt(told[0])
            join_all(threads)
        self.assertRegex(told[1], "^AQS_INTERRUPTED: ")
        aqs.interrupt(aqs.current_thread())
        self.assertTrue(aqs.interrupted())
        self.assertFalse(aqs.interrupted())
        self.keep("interrupts", lock)

    def test_interrupts_leave_other_waits_alone(self):
        permits = aqs.Semaphore(0)
        aqs.interrupt(aqs.current_thread())
        self.assertFalse(permits.acquire(timeout=0.01))
        thread = threading.Timer(0.15, permits.release)
        thread.start()
        self.assertTrue(permits.acquire())
        self.assertTrue(aqs.interrupted())
        thread.join()
        aqs.interrupt(aqs.current_thread())
        with self.assertRaises(aqs.Interrupted):
            permits.acquire(timeout=LONG, interruptible=True)
        self.assertFalse(aqs.interrupted())
        lock = aqs.RLock()
        aqs.interrupt(aqs.current_thread())
        with lock:
            self.assertFalse(lock.wait(0.01))
            with self.assertRaises(aqs.Interrupted):
                lock.wait(interruptible=True)
            self.assertTrue(lock._is_owned())

    def test_read_write_lock(self):
        lock = aqs.RWLock(keep_history=True)
        with lock.read:
            self.assertTrue(in_other(lambda: lock.read.acquire() and lock.read.release() is None))
            self.assertFalse(in_other(lambda: lock.write.acquire(blocking=False)))
            self.assertTrue(lock.read.locked() and not lock.write.locked())
            self.assertTrue(in_other(lock.read.locked) and not in_other(lock.write.locked))
        with lock.write:
            self.assertTrue(in_other(lock.write.locked) and not in_other(lock.read.locked))
            self.assertFalse(in_other(lambda: lock.read.acquire(timeout=0.01)))
            with lock.read:
                self.assertTrue(lock.write._is_owned() and lock.read._is_owned())
                with self.assertRaises(aqs.HoldsRead):
                    lock.write.wait()
        self.assertFalse(lock.read.locked() or lock.write.locked())
        self.keep("rwlock", lock)

    def test_conditions_of_a_read_write_lock(self):
        lock, items, got = aqs.RWLock(keep_history=True), [], []
        not_empty = aqs.Condition(lock.write)

        def take(_number):
            with not_empty:
                not_empty.wait_for(lambda: items)
                got.append(items.pop())
            with lock.write:
                lock.write.wait_for(lambda: len(got) == 3)

        threads = run_all(3, take)
        for item in range(3):
            with lock.write:
                items.append(item)
                not_empty.notify()
        until(lambda: len(got) == 3)
        with lock.write:
            lock.write.notify_all()
        join_all(threads)
        self.assertEqual(sorted(got), [0, 1, 2])
        self.keep("rwlock-conditions", lock)

    def test_semaphore(self):
        permits = aqs.Semaphore(2, policy=aqs.Policy.STRICT, keep_history=True)
        with permits:
            self.assertFalse(permits.acquire(blocking=False, n=2))
            self.assertFalse(permits.acquire(timeout=0.01, n=2))
        permits.release(3)
        self.assertEqual(permits.available(), 5)
        self.assertEqual(permits.drain(), 5)
        self.keep("semaphore", permits)
        owing = aqs.Semaphore(-2, allow_negative=True)
        owing.release(2)
        self.assertFalse(owing.acquire(False))
        owing.release()
        self.assertTrue(owing.acquire(False))

    def test_no_permit_is_given_twice(self):
        for permits, error in ((aqs.BoundedSemaphore(3), ValueError), (aqs.Lock(), RuntimeError)):
            with self.subTest(permits):
                given, refused = [], []

                def give(_number):
                    for _ in range(20):
                        try:
                            permits.release()
                            given.append(None)
                        except error:
                            refused.append(None)

                taken = 0
                while permits.acquire(False):
                    taken += 1
                join_all(run_all(8, give))
                self.assertEqual((len(given), len(refused)), (taken, 160 - taken))
                self.assertEqual(permits.available(), taken)

    def test_a_release_that_is_refused_may_be_made_again(self):
        for kind in (aqs.Lock, aqs.BoundedSemaphore):
            with self.subTest(kind):
                permits = kind(keep_history=True, most_entries=16)
                permits.acquire()
                with self.assertRaises(aqs.HistoryFull):
                    for _ in range(20):
                        permits.acquire(False)
                self.assertRaises(aqs.HistoryFull, permits.release)
                self.assertEqual(permits.trim(), 16)
                permits.release()
                self.assertEqual(permits.available(), 1)

    def test_nothing_is_out_after_a_fork(self):
        for kind, error in ((aqs.Lock, RuntimeError), (aqs.BoundedSemaphore, ValueError)):
            with self.subTest(kind):
                permits = kind()
                for _ in range(2):
                    permits.acquire()
                    permits._at_fork_reinit()
                    self.assertEqual(permits.available(), 1)
                    self.assertRaises(error, permits.release)
                    self.assertEqual(permits.available(), 1)
                with permits:
                    self.assertEqual(permits.available(), 0)
                self.assertEqual(permits.available(), 1)

    def test_latch(self):
        latch = aqs.CountDownLatch(2, keep_history=True)
        threads = run_all(2, lambda _number: latch.wait())
        self.assertFalse(latch.wait(timeout=0.01))
        latch.count_down()
        self.assertEqual(latch.count(), 1)
        latch.count_down()
        join_all(threads)
        self.assertTrue(latch.wait(timeout=10))
        self.keep("latch", latch)

    def counts(self, thing, side=None):
        """Whether it is locked, how many threads are in its queue, and how many wait in all."""
        return (side or thing).locked(), thing.queue_length(), thing.waiters()

    def test_a_lock_counts_its_queue(self):
        both = aqs.RWLock()
        with both.read:
            self.assertEqual(self.counts(both, both.write), (False, 0, 0))
        for thing, side in ((aqs.RLock(), None), (aqs.Lock(), None), (both, both.write)):
            lock, threads = side or thing, []
            with self.subTest(lock):
                self.assertEqual(self.counts(thing, side), (False, 0, 0))
                with lock:
                    self.assertEqual(self.counts(thing, side), (True, 0, 0))
                    for waiting in (1, 3):
                        threads += run_all(waiting - len(threads), lambda _number: in_lock(lock, int))
                        until(lambda: thing.queue_length() == waiting)
                        self.assertEqual(in_other(lambda: self.counts(thing, side)), (True, waiting, waiting))
                join_all(threads)
                self.assertEqual(self.counts(thing, side), (False, 0, 0))

    def test_a_lock_counts_the_holds_of_a_thread(self):
        both = aqs.RWLock()
        for lock in (aqs.RLock(), both.read, both.write):
            with self.subTest(lock):
                self.assertEqual(lock.holds(), 0)
                with lock, lock:
                    self.assertEqual((lock.holds(), in_other(lock.holds)), (2, 0))
                self.assertEqual(lock.holds(), 0)
        with both.write, both.read:
            self.assertEqual((both.write.holds(), both.read.holds()), (1, 1))

    def test_a_lock_counts_those_on_its_conditions(self):
        both = aqs.RWLock()
        for thing, side in ((aqs.RLock(), None), (both, both.write)):
            lock, condition = side or thing, aqs.Condition(side or thing)
            waits = (condition.wait, lambda: lock.wait(condition=1))
            threads = run_all(2, lambda number: in_lock(lock, waits[number]))
            until(lambda: self.counts(thing, side) == (False, 0, 2))
            with lock:
                self.assertEqual(self.counts(thing, side), (True, 0, 2))
                condition.notify()
                self.assertEqual(self.counts(thing, side), (True, 1, 2))
                lock.notify_all(condition=1)
                self.assertEqual(self.counts(thing, side), (True, 2, 2))
            join_all(threads)
            self.assertEqual(self.counts(thing, side), (False, 0, 0))

    def test_each_object_counts_who_waits(self):
        permits, few, latch = aqs.Semaphore(0), aqs.BoundedSemaphore(), aqs.CountDownLatch(1)
        event, barrier = aqs.Event(), aqs.Barrier(4)
        things = (permits, few, latch, event, barrier)
        few.acquire()
        self.assertEqual([thing.waiters() for thing in things], [0] * 5)
        threads = []
        for call in (permits.acquire, lambda: in_lock(few, int), latch.wait, event.wait, barrier.wait):
            threads += run_all(3, lambda _number, call=call: call())
        until(lambda: [thing.waiters() for thing in things] == [3] * 5)
        until(lambda: [thing.queue_length() for thing in things] == [3, 3, 3, 0, 0])
        permits.release(3)
        few.release()
        latch.count_down()
        event.set()
        barrier.wait()
        join_all(threads)
        self.assertEqual([(thing.queue_length(), thing.waiters()) for thing in things], [(0, 0)] * 5)

    def test_each_object_knows_its_policy(self):
        for policy in aqs.Policy:
            things = (aqs.RLock, aqs.Lock, aqs.RWLock, aqs.Semaphore, aqs.BoundedSemaphore, aqs.Event)
            self.assertEqual([thing(policy=policy).policy() for thing in things], [policy] * len(things))
        self.assertEqual([aqs.RLock().policy(), aqs.CountDownLatch(1).policy()], [aqs.Policy.NONFAIR] * 2)

    def test_questions_take_a_seat_and_record_nothing(self):
        lock = aqs.RLock(threads=1, keep_history=True, most_entries=16)
        with lock:
            before = lock.history()
            for _ in range(30):
                self.assertEqual(self.counts(lock), (True, 0, 0))
            self.assertEqual(lock.history(), before)
            for call in (lock.locked, lock.queue_length, lock.waiters, lock.history, lock.trim):
                self.assertIsInstance(raised_in_other(call), aqs.TooManyThreads)
        self.assertEqual(in_other(lambda: self.counts(lock)), (False, 0, 0))

    def test_a_history_that_grows_is_read(self):
        # Three threads lengthen it without pause, as if they had lengthened it by half between two tries.
        lock, is_over, told = aqs.RLock(keep_history=True), threading.Event(), [0]
        once = _library.library.aqs_history_text

        def grow(object_, buffer, size, length):
            longer = told[-1] * 3 // 2
            status = once(object_, buffer, 0 if size < longer else size, length)
            if size < longer:
                length._obj.value = max(length._obj.value, longer)
            told.append(length._obj.value)
            self.assertLess(len(told), 7)
            return status

        def work(_number):
            while not is_over.is_set():
                with lock:
                    pass

        threads, begin, counts = run_all(3, work), time.monotonic(), [0]
        self.addCleanup(join_all, threads)
        self.addCleanup(is_over.set)
        while len(counts) <= 20 or not any(counts) or time.monotonic() < begin + 0.5:
            told[:] = [0]
            lock.trim()
            with mock.patch.object(_library.library, "aqs_history_text", grow):
                text = lock.history()
            lines = text.splitlines()
            numbers = {line.split()[0]: int(line.split()[1]) for line in lines if line[:3] in ("bas", "end")}
            entries = sum(line[0].isdigit() for line in lines)
            self.assertTrue(text.startswith("aqs-history ") and text.endswith("\n"))
            self.assertTrue(lines[-1].startswith("end "))
            self.assertEqual(numbers["end"], numbers.get("base", 0) + entries)
            counts.append(entries)

    def test_event_and_barrier_have_histories(self):
        event = aqs.Event(keep_history=True)
        threads = run_all(3, lambda _number: event.wait())
        until(lambda: len(event._cond._queue) == 3)
        event.set()
        join_all(threads)
        self.keep("event", event)
        barrier, met = aqs.Barrier(3, keep_history=True), []
        join_all(run_all(3, lambda _number: met.extend(barrier.wait() for _ in range(20))))
        self.assertEqual(sorted(met), sorted([0, 1, 2] * 20))
        self.keep("barrier", barrier)

    def test_times_are_never_cut_short(self):
        permits, lock = aqs.Semaphore(0), aqs.RLock()
        with lock:
            waits = {
                "permits": lambda time_: permits.acquire(timeout=time_),
                "a condition": lambda time_: lock.wait(time_),
                "a latch": aqs.CountDownLatch(1).wait,
                "an event": aqs.Event().wait,
            }
            for name, wait in waits.items():
                for microseconds in range(1, 3000, 149):
                    begin = time.monotonic()
                    self.assertFalse(wait(microseconds / 1e6))
                    self.assertGreaterEqual(time.monotonic() - begin, microseconds / 1e6, name)

    def test_times_longer_than_a_slice_are_not_cut_short(self):
        permits, lock = aqs.Semaphore(0), aqs.RLock()
        time_ = 2.5 * _waiting.SLICE.value / 1000
        with lock:
            for wait in (lambda it: permits.acquire(timeout=it), lock.wait, aqs.Event().wait):
                begin = time.monotonic()
                self.assertFalse(wait(time_))
                self.assertGreaterEqual(time.monotonic() - begin, time_)

    def test_times_longer_than_those_of_c(self):
        permits = aqs.Semaphore(0)
        threads = run_all(2, lambda number: permits.acquire(timeout=(2**32, aqs.TIMEOUT_MAX)[number]))
        until(lambda: permits.queue_length() == 2)
        permits.release(2)
        join_all(threads)


class Arguments(Tests):
    """Each mistake that C would have taken for something else."""

    def test_numbers_never_wrap(self):
        few = aqs.BoundedSemaphore(1)
        few.acquire()
        for permits in (aqs.Semaphore(0), few):
            for n in (0, -1, 2**31, 2**32, 2**32 + 1, 2**64):
                self.assertRaises(ValueError, permits.acquire, n=n, blocking=False)
                self.assertRaises(ValueError, permits.release, n)
            self.assertEqual(permits.available(), 0)
        for value in (2**31, 2**32, -1, -(2**31), -(2**32)):
            self.assertRaises(ValueError, aqs.Semaphore, value)
            self.assertRaises(ValueError, aqs.BoundedSemaphore, value)
            self.assertRaises(ValueError, aqs.CountDownLatch, value)
        self.assertRaises(ValueError, aqs.Semaphore, -(2**31) - 1, allow_negative=True)
        for threads in (-1, 257, 65536, 65540):
            self.assertRaises(ValueError, aqs.RLock, threads=threads)
        for conditions in (-1, 17, 256, 257):
            self.assertRaises(ValueError, aqs.RLock, conditions=conditions)
            self.assertRaises(ValueError, aqs.RWLock, conditions=conditions)
        for entries in (-1, 15, 2**32, 2**32 + 16):
            self.assertRaises(ValueError, aqs.CountDownLatch, 1, most_entries=entries)
        for policy in (-1, 3, 2**32):
            self.assertRaises(ValueError, aqs.Semaphore, policy=policy)
        for thread in (-1, 256, 65536, 2**32):
            self.assertRaises(ValueError, aqs.interrupt, thread)
        self.assertFalse(aqs.interrupted())

    def test_a_number_out_of_its_range_is_named(self):
        for options, words in (
            ({"threads": 257}, "threads must be 1 to 256, not 257"),
            ({"conditions": 17}, "conditions must be 1 to 16, not 17"),
            ({"most_entries": 15}, "most_entries must be 16 to 4294967295, not 15"),
        ):
            self.assertRaisesRegex(ValueError, f"^{words}$", aqs.RLock, **options)

    def test_conditions_are_those_of_the_lock(self):
        lock = aqs.RLock(conditions=2)
        with lock:
            for condition in (-1, 2, 256, 2**32):
                self.assertRaises(ValueError, lock.wait, 0, condition=condition)
                self.assertRaises(ValueError, lock.notify, condition=condition)
                self.assertRaises(ValueError, lock.notify_all, condition=condition)

    def test_what_is_no_number_is_refused(self):
        permits, lock = aqs.Semaphore(), aqs.RLock()
        for call in (
            lambda: permits.release(1.5), lambda: permits.acquire(n="1"), lambda: lock.acquire(timeout="1"),
            lambda: permits.acquire(timeout="1"), lambda: aqs.CountDownLatch(1.0),
            lambda: aqs.RLock(threads=2.5),
            lambda: permits.acquire(True, None, 1), lambda: lock.acquire(True, -1, True),
            lambda: aqs.Semaphore(1, True), lambda: aqs.RLock(1), lambda: aqs.interrupt("1"),
        ):
            self.assertRaises(TypeError, call)
        self.assertEqual(permits.available(), 1)
        self.assertFalse(lock.locked())

    def test_blocking_comes_first(self):
        permits = aqs.Semaphore(1)
        self.assertEqual([permits.acquire(False) for _ in range(3)], [True, False, False])
        for kind in KINDS:
            thing = kind()
            thing.acquire()
            self.assertFalse(in_other(lambda: thing.acquire(False)))
            self.assertFalse(in_other(lambda: thing.acquire(0)))
            self.assertFalse(in_other(lambda: thing.acquire(True, 0)))
            self.assertFalse(in_other(lambda: thing.acquire(True, 0.01)))
            thing.release()

    def test_minus_one_is_no_time(self):
        lock = aqs.RWLock()
        for thing in (*(kind() for kind in KINDS), lock.read, lock.write):
            holder = lock.write if thing is lock.read else thing
            for timeout in (-1, -1.0, None):
                with self.subTest(f"{thing} {timeout}"):
                    got = []

                    def take(_number):
                        got.append(thing.acquire(True, timeout))
                        thing.release()

                    with holder:
                        threads = run_all(1, take)
                        time.sleep(0.03)
                        self.assertEqual(got, [])
                    join_all(threads)
                    self.assertEqual(got, [True])

    def test_times_below_zero_are_refused(self):
        lock = aqs.RWLock()
        for thing in (*(kind() for kind in KINDS), lock.read, lock.write):
            for timeout in (-5, -0.5, -1e9, float("nan"), float("-inf")):
                self.assertRaises(ValueError, thing.acquire, timeout=timeout)
            for timeout in (float("inf"), 1e100, aqs.TIMEOUT_MAX + 1):
                self.assertRaises(OverflowError, thing.acquire, timeout=timeout)
            for timeout in (0, 1, 0.5):
                self.assertRaises(ValueError, thing.acquire, False, timeout)
            self.assertTrue(thing.acquire(timeout=aqs.TIMEOUT_MAX))
            thing.release()

    def test_waits_take_times_as_threading_does(self):
        lock = aqs.RLock()
        with lock:
            for wait in (lock.wait, aqs.Event().wait, aqs.CountDownLatch(1).wait):
                self.assertEqual([wait(0), wait(-5), wait(-0.001)], [False] * 3)
                self.assertRaises(OverflowError, wait, 1e100)
                self.assertRaises(ValueError, wait, float("nan"))
            self.assertEqual(lock.wait_for(lambda: 0, -1), 0)
            self.assertEqual(lock.wait_for(lambda: "so", 0), "so")
        for timeout in (0, -5):
            barrier, begin = aqs.Barrier(2, timeout=LONG), time.monotonic()
            self.assertRaises(aqs.BrokenBarrierError, barrier.wait, timeout)
            self.assertLess(time.monotonic() - begin, LONG / 2)

    def test_what_is_not_owned_is_not_released(self):
        lock, both = aqs.RLock(), aqs.RWLock()
        condition = aqs.Condition(lock)
        for call in (
            lock.release, lock.wait, lock.notify, lock.notify_all, lock._release_save, condition.release,
            condition.wait, condition.notify, condition.notify_all, both.read.release, both.write.release,
            both.write.wait, both.write.notify, aqs.Lock().release, lambda: condition.wait_for(lambda: False),
        ):
            self.assertRaises(RuntimeError, call)
        self.assertRaisesRegex(aqs.NotOwner, "un-acquired", lock.release)
        with lock, both.write:
            self.assertIsInstance(raised_in_other(lock.release), RuntimeError)
            self.assertIsInstance(raised_in_other(lambda: both.write.release()), RuntimeError)
            for call in (condition.notify, condition.wait, lock.wait, both.write.wait):
                self.assertIsInstance(raised_in_other(call), RuntimeError)
            self.assertTrue(lock._is_owned() and both.write._is_owned())
        self.assertFalse(lock.locked())

    def test_a_reader_that_would_wait_for_itself_is_told(self):
        lock = aqs.RWLock()
        with lock.read:
            self.assertRaisesRegex(RuntimeError, "wait for itself", lock.write.acquire)
            self.assertFalse(lock.write.acquire(False))
        with lock.write, lock.read, lock.write:
            self.assertEqual(lock.write._recursion_count(), 2)

    def test_faults_are_named(self):
        full = aqs.RLock(keep_history=True, most_entries=16)
        with self.assertRaises(aqs.HistoryFull) as raised:
            for _ in range(20):
                with full:
                    pass
        self.assertRegex(str(raised.exception), "^AQS_HISTORY_FULL: ")
        self.assertEqual(raised.exception.status, _library.HISTORY_FULL)
        self.assertFalse(full.locked())
        most = aqs.Semaphore(2**31 - 1)
        self.assertRaises(aqs.TooManyPermits, most.release)
        self.assertTrue(issubclass(aqs.TooManyPermits, OverflowError))

    def test_a_closed_object_says_so(self):
        for thing, call in (
            *((kind(), "acquire") for kind in KINDS), (aqs.Event(), "set"), (aqs.Barrier(2), "abort"),
            (aqs.CountDownLatch(1), "count_down"),
        ):
            thing.close()
            self.assertRaisesRegex(ValueError, "is closed", getattr(thing, call))
            self.assertRaisesRegex(ValueError, "is closed", thing.history)
            self.assertRaisesRegex(ValueError, "is closed", thing.waiters)
            self.assertIn(type(thing).__name__, repr(thing))
            thing.close()
        lock = aqs.RWLock()
        lock.close()
        self.assertRaisesRegex(ValueError, "is closed", lock.read.acquire)
        self.assertRaisesRegex(ValueError, "is closed", lock.write.acquire)

    def test_who_waits_is_told_of_a_close(self):
        both = (aqs.RWLock(), aqs.RWLock())
        sides = ((both[0], both[0].read, both[0].write), (both[1], both[1].write, both[1].read))
        for timeout in (None, LONG):
            things = ((thing, thing, thing) for thing in (kind() for kind in KINDS))
            for thing, side, other in (*things, *(sides if timeout else ())):
                raised = []
                other.acquire()
                threads = run_all(2, lambda _number: raised.append(self.raised(lambda: side.acquire(timeout=timeout))))
                until(lambda: thing.queue_length() == 2)
                thing.close()
                join_all(threads)
                self.assertEqual([(type(it), str(it)) for it in raised], [(ValueError, "the object is closed")] * 2)
                self.assertRaisesRegex(ValueError, "is closed", side.release)

    def test_who_waits_on_a_condition_is_told_of_a_close(self):
        one, more, both, event, barrier = aqs.RLock(), aqs.RLock(), aqs.RWLock(), aqs.Event(), aqs.Barrier(3)
        for thing, side, wait in (
            (one, one, lambda: one.wait(condition=5)), (more, more, aqs.Condition(more).wait),
            (both, both.write, both.write.wait), (event, None, event.wait), (barrier, None, barrier.wait),
        ):
            raised, handle = [], thing._opened.handle

            def waits(_number):
                for _ in range(2 if side else 0):
                    side.acquire()
                raised.append(self.raised(wait))

            threads = run_all(2, waits)
            lock = side or thing._lock
            until(lambda: (thing.queue_length(), thing.waiters(), lock.locked()) == (0, 2, False))
            thing.close()
            join_all(threads)
            self.assertEqual([(type(it), str(it)) for it in raised], [(ValueError, "the object is closed")] * 2)
            if thing is not both:
                self.assertEqual(_library.library.aqs_lock_trylock(handle), _library.OK)
                _library.library.aqs_lock_unlock(handle)

    def raised(self, call):
        try:
            call()
        except Exception as error:
            return error
        return None

    def test_what_is_wrong_is_named_as_the_caller_named_it(self):
        lock, permits = aqs.RLock(), aqs.Semaphore()
        for call, words in (
            (lambda: lock.acquire(timeout="5"), "timeout must be a number of seconds, not str"),
            (lambda: permits.acquire(timeout="5"), "timeout must be a number of seconds, not str"),
            (lambda: in_lock(lock, lambda: lock.wait("5")), "timeout must be a number of seconds, not str"),
            (lambda: permits.acquire(n="1"), "n must be a whole number, not str"),
            (lambda: aqs.RLock(threads=2.5), "threads must be a whole number, not float"),
        ):
            self.assertRaisesRegex(TypeError, f"^{words}$", call)
        for kind in (*KINDS, aqs.RWLock, aqs.Event, lambda **it: aqs.Barrier(2, **it), lambda **it: aqs.CountDownLatch(1, **it)):
            name = kind.__name__ if isinstance(kind, type) else "Barrier|CountDownLatch"
            words = rf"^({name})\(\) got an unexpected keyword argument 'fair'. Its options: policy, keep_history, "
            self.assertRaisesRegex(TypeError, words, kind, fair=True)

    def test_0_threads_are_the_default(self):
        for kind in (*KINDS, aqs.RWLock, aqs.Event):
            self.assertRegex(kind(threads=0, most_entries=0).history(), "^aqs-history 1 .* seats 256 .*cap 1024\n")

    def test_nothing_is_pickled(self):
        both = aqs.RWLock()
        for thing in (
            *(kind() for kind in KINDS), both, both.read, both.write, aqs.Event(), aqs.Barrier(1), aqs.Condition(),
            aqs.CountDownLatch(1),
        ):
            for call in (pickle.dumps, copy.copy, copy.deepcopy):
                if not (isinstance(thing, aqs.Condition) and call is copy.copy):
                    self.assertRaisesRegex(TypeError, "^cannot pickle '[A-Z]\\w+' object$", call, thing)

    def test_older_names_are_there_too(self):
        event, condition, woken = aqs.Event(), aqs.Condition(), []
        self.assertFalse(event.isSet())
        event.set()
        self.assertTrue(event.isSet())

        def wait(_number):
            with condition:
                woken.append(condition.wait(LONG))

        threads = run_all(2, wait)
        until(lambda: len(condition._queue) == 2)
        with condition:
            condition.notifyAll()
        join_all(threads)
        self.assertEqual(woken, [True, True])
        version = re.search(r'(?m)^version = "(.*)"$', (HERE / "pyproject.toml").read_text(encoding="utf-8"))
        self.assertEqual(aqs.__version__, version[1])

    def test_a_lock_that_another_thread_owns_is_not_closed(self):
        for lock in (aqs.RLock(), aqs.RWLock()):
            side = lock if isinstance(lock, aqs.RLock) else lock.read
            with side:
                self.assertIsInstance(raised_in_other(lock.close), RuntimeError)
            lock.close()

    def test_a_close_waits_for_calls_under_way(self):
        latch, got = aqs.CountDownLatch(1), []
        threads = run_all(3, lambda _number: got.append(latch.wait(timeout=0.3)))
        until(lambda: latch.queue_length() == 3)
        latch.close()
        join_all(threads)
        self.assertEqual(got, [False] * 3)

    def test_what_is_dropped_is_freed(self):
        for kind in (aqs.RLock, aqs.RWLock, aqs.Lock, aqs.Condition, aqs.Semaphore, aqs.Event):
            thing = kind()
            seen = weakref.ref(thing)
            del thing
            self.assertIsNone(seen(), kind)
        gc.collect()

    def test_locks_that_are_dropped_while_owned_cost_no_thread(self):
        def drop(_number):
            lock, both = aqs.RLock(), aqs.RWLock()
            lock.acquire()
            both.read.acquire()

        for _ in range(10):
            join_all(run_all(30, drop))
        self.assertLess(in_other(aqs.current_thread), 64)

    def test_reprs_say_the_state(self):
        lock = aqs.RLock()
        self.assertRegex(repr(lock), "^<unlocked aqs.RLock object count=0 at 0x")
        with lock, lock:
            self.assertRegex(repr(lock), "^<locked aqs.RLock object count=2 at 0x")
        self.assertRegex(repr(aqs.Semaphore(3)), "^<aqs.Semaphore at 0x.*: value=3>$")
        self.assertRegex(repr(aqs.CountDownLatch(3)), "^<aqs.CountDownLatch at 0x.*: count=3>$")
        both = aqs.RWLock()
        with both.write:
            self.assertRegex(repr(both), "^<aqs.RWLock at 0x.*: locked to write>$")
        with both.read:
            self.assertRegex(repr(both), "^<aqs.RWLock at 0x.*: 1 readers>$")
            self.assertRegex(repr(both.read), "^<read side of an aqs.RWLock, 1 readers, at 0x")
        self.assertRegex(repr(both.write), "^<write side of an aqs.RWLock, count=0, at 0x")

    def test_reprs_raise_nothing(self):
        permits, lock, told = aqs.Semaphore(0, threads=1), aqs.Lock(), []

        def wait(_number):
            told.append(aqs.current_thread())
            with contextlib.suppress(aqs.Interrupted):
                seated(lambda: permits.acquire(interruptible=True))

        threads = run_all(1, wait)
        until(lambda: re.search("^<aqs.Semaphore at 0x.*: AQS_TOO_MANY_THREADS: ", repr(permits)))
        aqs.interrupt(told[0])
        join_all(threads)
        permits.close()
        self.assertRegex(repr(permits), "^<aqs.Semaphore at 0x.*: closed>$")
        lock.close()
        self.assertRegex(repr(lock), "^<closed aqs.Lock object at 0x")


class Conditions(Tests):
    def waiters(self, lock, conditions, woken):
        """A thread for each condition, which waits on it. They have gone to sleep."""

        def wait(number):
            with lock:
                conditions[number].wait()
                woken.append(number)

        threads = run_all(len(conditions), wait)
        until(lambda: sum(len(it._queue) for it in set(conditions)) == len(conditions))
        with lock:
            pass
        return threads

    def test_notify_wakes_as_many_as_it_says(self):
        for condition in (aqs.Condition(), aqs.Condition(aqs.Lock()), aqs.Condition(threading.Lock())):
            woken = []

            def wait(number):
                with condition:
                    condition.wait()
                    woken.append(number)

            threads = []
            for number in range(6):
                threads.append(threading.Thread(target=wait, args=(number,)))
                threads[-1].start()
                until(lambda: len(condition._queue) == number + 1)
            for n, now in ((2, [0, 1]), (0, [0, 1]), (-3, [0, 1]), (1, [0, 1, 2]), (2**32, [0, 1, 2, 3, 4, 5])):
                with condition:
                    condition.notify(n)
                until(lambda: len(woken) == len(now))
                time.sleep(0.01)
                self.assertEqual(sorted(woken), now)
            join_all(threads)

    def test_a_notify_to_nobody_is_not_recorded(self):
        lock = aqs.RLock(keep_history=True)
        condition = aqs.Condition(lock)
        with lock:
            before = lock.history()
            for notify in (condition.notify, condition.notify_all, lock.notify, lock.notify_all):
                notify()
            self.assertEqual(lock.history(), before)

    def test_more_conditions_than_numbers(self):
        for numbers in (1, 2, 16):
            lock, woken = aqs.RLock(conditions=numbers, keep_history=True), []
            conditions = [aqs.Condition(lock) for _ in range(20)]
            threads = self.waiters(lock, conditions, woken)
            for number in range(19, -1, -1):
                with lock:
                    conditions[number].notify()
                until(lambda: woken and woken[-1] == number)
            join_all(threads)
            self.assertEqual(woken, list(range(19, -1, -1)))
            self.assertEqual(lock._numbers.users, [0] * numbers)
            self.keep(f"shared-{numbers}", lock)

    def test_a_notify_of_a_shared_number_finds_its_waiter(self):
        lock, woken = aqs.RLock(conditions=1), []
        other, own = aqs.Condition(lock), aqs.Condition(lock)
        threads = self.waiters(lock, [other], woken)
        threads += self.waiters(lock, [own, own], woken)
        with lock:
            own.notify()
        until(lambda: woken)
        time.sleep(0.01)
        self.assertEqual((len(woken), len(own._queue), len(other._queue)), (1, 1, 1))
        with lock:
            own.notify()
            other.notify()
        join_all(threads)

    def test_who_has_left_takes_no_notify(self):
        condition, woken = aqs.Condition(), []
        with condition:
            self.assertFalse(condition.wait(0.01))
            self.assertFalse(condition.wait_for(lambda: False, 0.01))
        threads = self.waiters(condition, [condition], woken)
        with condition:
            condition.notify()
        join_all(threads)
        self.assertEqual(woken, [0])

    def test_an_interrupt_before_a_notify_is_kept(self):
        lock, told, seen = aqs.RLock(), [], []
        condition = aqs.Condition(lock)

        def wait(_number):
            with lock:
                told.append(aqs.current_thread())
                seen.extend((condition.wait(interruptible=True), aqs.interrupted()))

        threads = run_all(1, wait)
        until(lambda: len(condition._queue) == 1)
        with lock:
            aqs.interrupt(told[0])
            until(lambda: lock.queue_length() == 1)
            condition.notify()
        join_all(threads)
        self.assertEqual(seen, [True, True])

    def test_a_wait_by_a_number_is_recorded_by_it(self):
        for lock in (aqs.RLock(conditions=4, keep_history=True), aqs.RWLock(conditions=4, keep_history=True)):
            side, woken = lock if isinstance(lock, aqs.RLock) else lock.write, []
            condition = aqs.Condition(side)
            threads = self.waiters(side, [condition], woken)  # by 0, which the others share with it
            with side:
                for number in (3, 0, 2, 0):
                    self.assertFalse(side.wait(0.01, condition=number))
                condition.notify()
            join_all(threads)
            self.assertEqual(re.findall(r"(?m) await (\d+) ", lock.history()), ["0", "3", "0", "2", "0"])

    def test_a_time_does_not_begin_anew_at_a_notify(self):
        for condition in (aqs.RLock(), aqs.RWLock().write, aqs.Condition(), aqs.Condition(threading.Lock())):
            moments = []

            def wait(_queue, until_, _interruptible):
                moments.append(until_)
                return True

            with condition, mock.patch.object(condition, "_wait", wait):
                self.assertTrue(condition.wait_for(lambda: len(moments) == 3, LONG))
            self.assertEqual(moments, [moments[0]] * 3)

    def test_objects_and_numbers_go_together(self):
        lock, woken = aqs.RLock(conditions=1), []
        condition = aqs.Condition(lock)
        threads = self.waiters(lock, [condition], woken)

        def wait(_number):
            with lock:
                lock.wait()
                woken.append("number")

        threads += run_all(1, wait)
        until(lambda: 0 in lock._queues and len(lock._queues[0]) == 1)
        with lock:
            lock.notify()
        until(lambda: woken == ["number"])
        with lock:
            condition.notify_all()
        join_all(threads)
        self.assertEqual(woken, ["number", 0])

    def test_a_wait_keeps_its_holds(self):
        lock = aqs.RLock()
        with lock, lock, lock:
            thread = threading.Timer(0.02, in_lock, (lock, lambda: lock.notify()))
            thread.start()
            self.assertTrue(lock.wait(LONG))
            self.assertEqual(lock._recursion_count(), 3)
        self.assertFalse(lock.locked())
        thread.join()

    def test_threading_condition_over_a_lock_of_the_library(self):
        for lock in (aqs.RLock(), aqs.Lock()):
            condition, seen = threading.Condition(lock), []

            def wait(_number):
                with condition:
                    seen.append(condition.wait_for(lambda: seen, LONG))

            threads = run_all(2, wait)
            until(lambda: len(condition._waiters) == 2)
            with condition:
                seen.append("go")
                condition.notify_all()
            join_all(threads)
            self.assertEqual((seen[0], len(seen)), ("go", 3))

    def test_signals_and_timeouts_lose_nothing(self):
        lock, permits, got = aqs.RLock(conditions=1, keep_history=True), [0], []
        conditions = [aqs.Condition(lock) for _ in range(3)]

        def take(number):
            for _ in range(60):
                with lock:
                    while not permits[0]:
                        conditions[number % 3].wait(0.0005 * (number + 1))
                    permits[0] -= 1
                    got.append(number)

        threads = run_all(6, take)
        for number in range(360):
            with lock:
                permits[0] += 1
                conditions[number % 3].notify()
        join_all(threads)
        self.assertEqual((len(got), permits), (360, [0]))
        self.keep("signals-and-timeouts", lock)


def in_lock(lock, call):
    with lock:
        call()


class CtrlC(Tests):
    """KeyboardInterrupt ends a wait of the main thread soon, and nothing is lost by it."""

    def setUp(self):
        before = signal.signal(signal.SIGINT, signal.default_int_handler)
        self.addCleanup(signal.signal, signal.SIGINT, before)

    def ended(self, call, after=0.15):
        """Seconds that the call took, which Ctrl-C ended."""
        timer = threading.Timer(after, os.kill, (os.getpid(), signal.SIGINT))
        begin = time.monotonic()
        with self.assertRaises(KeyboardInterrupt):
            timer.start()
            call()
            time.sleep(LONG)
        timer.join()
        return time.monotonic() - begin

    def held(self, thing):
        """Another thread has it until the test ends."""
        taken, free = threading.Event(), threading.Event()

        def hold(_number):
            with thing:
                taken.set()
                free.wait(LONG)

        threads = run_all(1, hold)
        taken.wait(LONG)
        self.addCleanup(join_all, threads)
        self.addCleanup(free.set)
        return thing

    def test_it_ends_each_wait(self):
        both, other = aqs.RWLock(), aqs.RWLock()
        self.held(both.write)
        self.held(other.read)
        lock, plain, latch = self.held(aqs.RLock()), self.held(aqs.Lock()), aqs.CountDownLatch(1)
        permits, few, barrier = aqs.Semaphore(0), aqs.BoundedSemaphore(0), aqs.Barrier(2)
        waits = {
            "RLock": lock.acquire, "RLock, timed": lambda: lock.acquire(timeout=LONG), "Lock": plain.acquire,
            "Lock, with": plain.__enter__, "read": both.read.acquire, "write": other.write.acquire,
            "Semaphore": permits.acquire, "Semaphore, timed": lambda: permits.acquire(timeout=LONG),
            "BoundedSemaphore": few.acquire, "latch": latch.wait, "Event": aqs.Event().wait,
            "Barrier": barrier.wait,
            "Condition": lambda: own_wait(aqs.Condition()),
            "Condition of a Lock": lambda: own_wait(aqs.Condition(aqs.Lock())),
        }
        for name, call in waits.items():
            with self.subTest(name):
                self.assertLess(self.ended(call), LONG / 2)
        self.assertEqual((permits.available(), few.available(), latch.count()), (0, 0, 1))
        self.assertEqual(barrier.n_waiting, 0)
        self.assertFalse(lock._is_owned() or both.read._is_owned() or other.write._is_owned())

    def race(self, rounds, take, give):
        """Ctrl-C and what a wait is for come at about the same time. How often the wait was ended by
        Ctrl-C."""
        ended = 0
        for number in range(rounds):
            after = 0.001 + 0.0001 * (number % 30)
            sender = threading.Timer(after, os.kill, (os.getpid(), signal.SIGINT))
            giver = threading.Timer(0.0025, give)
            try:
                try:
                    giver.start()
                    sender.start()
                    take(number)
                finally:
                    join_all([giver, sender])
                    time.sleep(0)
            except KeyboardInterrupt:
                ended += 1
                join_all([giver])
        return ended

    def test_a_permit_is_never_lost(self):
        permits, taken = aqs.Semaphore(0), []

        def take(number):
            if permits.acquire(timeout=0.02):
                taken.append(number)

        def give():
            permits.release()

        ended = self.race(150, take, give)
        self.assertGreater(ended, 0)
        lost = 150 - permits.available() - len(taken)
        # Before 3.11, Ctrl-C may also come between the return and the next statement, as with threading.
        self.assertIn(lost, range(1 if sys.version_info >= (3, 11) else 4))

    def test_a_lock_is_given_back(self):
        lock = aqs.RLock()
        stop = threading.Event()

        def hold(_number):
            while not stop.is_set():
                with lock:
                    time.sleep(0.001)
                time.sleep(0)

        threads = run_all(1, hold)
        self.race(60, lambda _number: lock.acquire() and lock.release(), lambda: None)
        while lock._is_owned():
            lock.release()
        stop.set()
        join_all(threads)
        self.assertFalse(lock.locked())
        self.assertTrue(in_other(lambda: lock.acquire(timeout=5) and lock.release() is None))

    def test_a_notify_goes_to_another(self):
        lock, woken = aqs.RLock(), []
        condition = aqs.Condition(lock)

        def fail(*_arguments):
            with lock:
                condition.notify()
            raise KeyboardInterrupt

        signal.signal(signal.SIGINT, fail)

        def wait(_number):
            with lock:
                woken.append(condition.wait(LONG))

        def send(_number):
            until(lambda: len(condition._queue) == 2)
            os.kill(os.getpid(), signal.SIGINT)

        threads = []
        with self.assertRaises(KeyboardInterrupt):
            with lock:
                threads = run_all(1, wait) + run_all(1, send)
                condition.wait(LONG)
        join_all(threads)
        self.assertEqual(woken, [True])

    def test_what_was_just_taken_is_given_back(self):
        both, run = aqs.RWLock(), _waiting.run

        def fail(*arguments):
            run(*arguments)
            raise KeyboardInterrupt

        for thing in (*(kind() for kind in KINDS), both.read, both.write):
            for call in (thing.acquire, lambda: thing.acquire(timeout=LONG)):
                with mock.patch("aqs._waiting.run", fail), self.assertRaises(KeyboardInterrupt):
                    call()
            self.assertTrue(in_other(lambda: thing.acquire(timeout=1) and thing.release() is None), thing)
        lock = aqs.Lock()
        with mock.patch("aqs._semaphores.run", fail):
            self.assertRaises(KeyboardInterrupt, lock.acquire)
        self.assertRaises(RuntimeError, lock.release)
        self.assertTrue(in_other(lambda: lock.acquire(False) and lock.release() is None))

    def test_a_notify_that_ctrl_c_overtakes_goes_to_another(self):
        lock, woken, turn = aqs.RLock(), [], _waiting.turn
        condition = aqs.Condition(lock)

        def fail(*arguments):
            status = turn(*arguments)
            if threading.current_thread() is not threading.main_thread():
                return status
            while len(condition._queue) < 2:
                turn(*arguments)
            condition._queue.notify(lock, 1)
            raise KeyboardInterrupt

        def wait(_number):
            with lock:
                woken.append(condition.wait(LONG))

        with mock.patch("aqs._locks.turn", fail), self.assertRaises(KeyboardInterrupt), lock:
            threads = run_all(1, wait)
            condition.wait()
        join_all(threads)
        self.assertEqual(woken, [True])

    def test_a_handler_may_call_what_its_thread_is_inside(self):
        event, barrier = aqs.Event(), aqs.Barrier(1)
        with event._cond, barrier._cond:
            event.set()
            self.assertEqual(barrier.wait(), 0)
            self.assertFalse(event._cond.acquire(False))
            self.assertRaises(RuntimeError, event._cond.acquire)
            self.assertRaises(ValueError, event._cond.acquire, False, 5)
        self.assertTrue(event.wait())

    def test_a_handler_may_set_an_event(self):
        event = aqs.Event()
        signal.signal(signal.SIGINT, lambda *_arguments: event.set())
        timer = threading.Timer(0.05, os.kill, (os.getpid(), signal.SIGINT))
        timer.start()
        begin = time.monotonic()
        self.assertTrue(event.wait(LONG))
        self.assertLess(time.monotonic() - begin, LONG / 2)
        timer.join()

    def test_it_leaves_an_interrupt_pending(self):
        permits, condition = aqs.Semaphore(0), aqs.Condition()
        for thing, call in ((permits, permits.acquire), (condition._lock, lambda: own_wait(condition))):

            def send(_number):
                until(lambda: thing.waiters() == 1)
                os.kill(os.getpid(), signal.SIGINT)

            aqs.interrupt(aqs.current_thread())
            threads = run_all(1, send)
            self.assertRaises(KeyboardInterrupt, call)
            join_all(threads)
            self.assertTrue(aqs.interrupted())

    def test_what_was_held_before_stays_held(self):
        both, run = aqs.RWLock(), _waiting.run

        def fail(*arguments):
            run(*arguments)
            raise KeyboardInterrupt

        for lock in (aqs.RLock(), both.read, both.write):
            counted, writer = lock._set_count, both.write if lock is both.read else lock

            def count(holds):
                counted(holds)
                if holds != 1:
                    raise KeyboardInterrupt

            with lock:
                for place in ("aqs._waiting.run", "aqs._locks.run"):
                    with mock.patch(place, fail), self.assertRaises(KeyboardInterrupt):
                        lock.acquire(place == "aqs._waiting.run")
                with mock.patch.object(lock, "_set_count", count):
                    self.assertRaises(KeyboardInterrupt, lock.acquire)
                self.assertEqual(lock.holds(), 1)
                self.assertFalse(in_other(lambda: writer.acquire(False)))
            lock.acquire()
            with mock.patch.object(lock, "_set_count", count):
                self.assertRaises(KeyboardInterrupt, lock.release)
            self.assertEqual(lock.holds(), 0)
            self.assertTrue(in_other(lambda: writer.acquire(False) and writer.release() is None))

    def test_as_many_permits_are_given_back_as_were_taken(self):
        run = _waiting.run

        def fail(*arguments):
            run(*arguments)
            raise KeyboardInterrupt

        for permits in (aqs.Semaphore(5), aqs.BoundedSemaphore(5)):
            note = permits._note

            def noted(*arguments):
                note(*arguments)
                raise KeyboardInterrupt

            patches = (
                mock.patch("aqs._waiting.run", fail), mock.patch("aqs._locks.run", fail),
                mock.patch.object(permits, "_note", noted),
            )
            for patch, blocking in zip(patches, (True, False, True)):
                with patch, self.assertRaises(KeyboardInterrupt):
                    permits.acquire(blocking, n=3)
                self.assertEqual(permits.available(), 5)
        self.assertRaises(ValueError, permits.release)

    def test_a_release_is_made_or_was_not_begun(self):
        for kind, error, name, made in (
            (aqs.Lock, RuntimeError, "run_taking", 1), (aqs.BoundedSemaphore, ValueError, "run", 2),
        ):
            run = getattr(_waiting, name)
            for last in range(1, made + 1):
                permits, calls = kind(), []

                def fail(*arguments):
                    status = run(*arguments)
                    calls.append(status)
                    if len(calls) == last:
                        raise KeyboardInterrupt
                    return status

                permits.acquire()
                with mock.patch(f"aqs._semaphores.{name}", fail):
                    self.assertRaises(KeyboardInterrupt, permits.release)
                self.assertEqual((calls, permits.available()), ([0] * made, 1))
                self.assertRaises(error, permits.release)
                with permits:
                    self.assertEqual(permits.available(), 0)
            permits = kind(keep_history=True, most_entries=16)
            permits.acquire()
            with self.assertRaises(aqs.HistoryFull):
                for _ in range(20):
                    permits.acquire(False)
            calls, last = [], 1
            with mock.patch(f"aqs._semaphores.{name}", fail):
                self.assertRaises(KeyboardInterrupt, permits.release)
            permits.trim()
            permits.release()
            self.assertEqual(permits.available(), 1)

    def test_an_interrupt_of_the_slice_before_it_stays_pending(self):
        permits, condition, run = aqs.Semaphore(0), aqs.Condition(), _waiting.run

        def fail(*arguments):
            self.assertEqual(run(*arguments), _library.INTERRUPTED)
            raise KeyboardInterrupt

        with condition:
            for call in (permits.acquire, condition.wait, lambda: condition.wait(LONG)):
                for arguments in ({}, {"interruptible": True}):
                    if call not in (permits.acquire, condition.wait) and arguments:
                        continue
                    aqs.interrupt(aqs.current_thread())
                    with mock.patch("aqs._waiting.run", fail), self.assertRaises(KeyboardInterrupt):
                        call(**arguments)
                    self.assertTrue(aqs.interrupted())
                    self.assertFalse(aqs.interrupted())

    def test_a_wait_beside_the_lock_ends_with_the_lock(self):
        lock, both = aqs.RLock(), aqs.RWLock()
        for condition, thing, side, other in (
            (threading.Condition(lock), lock, lock, lock),
            (aqs.Condition(both.read), both, both.read, both.write),
        ):
            holds = []

            def hold(_number):
                with other:
                    with condition:
                        condition.notify()
                    until(lambda: thing.queue_length() == 1)
                    os.kill(os.getpid(), signal.SIGINT)
                    time.sleep(0.02)

            with self.assertRaises(KeyboardInterrupt), condition, condition:
                threads = run_all(1, hold)
                try:
                    condition.wait(LONG)
                finally:
                    holds.append(side.holds())
            join_all(threads)
            self.assertEqual((holds, side.holds()), ([2], 0))
            self.assertTrue(in_other(lambda: other.acquire(False) and other.release() is None))

    def test_other_threads_go_on(self):
        permits, got = aqs.Semaphore(0), []
        threads = run_all(2, lambda _number: got.append(permits.acquire()))
        self.ended(lambda: None, 0.02)
        permits.release(2)
        join_all(threads)
        self.assertEqual(got, [True, True])


def own_wait(condition):
    with condition:
        condition.wait()


class Options(Tests):
    """How an object is opened, and that nothing of it is forgotten."""

    def things(self, **options):
        return [
            *(kind(**options) for kind in KINDS), aqs.RWLock(**options), aqs.Event(**options),
            aqs.Barrier(1, **options), aqs.CountDownLatch(2**31 - 1, **options),
        ]

    def calls(self, things):
        """A call of each thing, which may be made any number of times."""
        lock, plain, permits, few, both, event, barrier, latch = things
        return (
            lambda: in_lock(lock, int), lambda: plain.acquire(False), permits.release,
            lambda: few.acquire(False), lambda: in_lock(both.write, int), event.set, barrier.wait,
            latch.count_down,
        )

    def test_each_option_reaches_each_object(self):
        for policy in aqs.Policy:
            things = self.things(policy=policy, threads=3, most_entries=20)
            for thing in things:
                wanted = policy.name.lower() if thing is not things[-1] else ""
                self.assertRegex(thing.history(), rf"^aqs-history 1 \w+ {wanted}.*seats 3 .*cap 20\n")
        for thing in (aqs.RLock(conditions=3), aqs.RWLock(conditions=3), aqs.Event(conditions=3)):
            self.assertRegex(thing.history(), "^aqs-history 1 .* conditions 3 ")
        for gate in (aqs.Event(), aqs.Barrier(1)):
            self.assertRegex(gate.history(), "^aqs-history 1 .* conditions 1 ")
        usual = "^aqs-history 1 lock nonfair seats 256 conditions 16 cap 1024\n"
        self.assertRegex(aqs.RLock().history(), usual)

    def test_a_history_is_kept_only_if_that_is_asked_for(self):
        for call in self.calls(self.things(most_entries=16)):
            for _ in range(40):
                call()
        for call in self.calls(self.things(most_entries=16, keep_history="yes")):
            with self.assertRaises(aqs.HistoryFull):
                for _ in range(40):
                    call()

    def test_a_trim_makes_room_again(self):
        for kind in (aqs.Lock, aqs.BoundedSemaphore):
            permits = kind(keep_history=True, most_entries=16)
            for _ in range(40):
                in_lock(permits, int)
                self.assertEqual(permits.trim(), 2)

    def test_the_last_of_each_range_is_taken(self):
        most = 2**31 - 1
        for thing in self.things(threads=256, most_entries=2**32 - 1):
            self.assertRegex(thing.history(), "seats 256 .*cap 4294967295\n")
        for permits in (aqs.Semaphore(most), aqs.BoundedSemaphore(most)):
            self.assertTrue(permits.acquire(n=most))
            self.assertEqual(permits.available(), 0)
            permits.release(most)
            self.assertEqual(permits.available(), most)
        self.assertEqual(aqs.Semaphore(-(2**31), allow_negative=True).available(), -(2**31))
        self.assertEqual([aqs.CountDownLatch(count).count() for count in (0, most)], [0, most])
        for parties in (0, -1):
            self.assertRaises(ValueError, aqs.Barrier, parties)
        self.assertEqual(aqs.TIMEOUT_MAX, threading.TIMEOUT_MAX)

    def test_permits_are_counted_by_their_number(self):
        few = aqs.BoundedSemaphore(3)
        few.acquire(n=2)
        self.assertRaises(ValueError, few.release, 3)
        self.assertEqual(few.available(), 1)
        few.release(2)
        self.assertRaises(ValueError, few.release)
        owing = aqs.Semaphore(-2, allow_negative=True)
        self.assertEqual(owing.available(), -2)
        owing.release(6)
        self.assertEqual((owing.drain(), owing.available()), (4, 0))


class Refusals(Tests):
    """What is left after a call that was refused."""

    def full(self, call):
        """Makes a call until the history is full. How often that was."""
        for made in range(1000):
            try:
                call()
            except aqs.HistoryFull:
                return made
        self.fail("it is never full")

    def test_an_acquire_changes_no_hold(self):
        both = aqs.RWLock(keep_history=True, most_entries=32)
        for lock in (aqs.RLock(keep_history=True, most_entries=32), both.read, both.write):
            holds = self.full(lock.acquire)
            self.assertEqual(lock.holds(), holds)
            for _ in range(holds):
                lock.release()
            self.assertRaises(aqs.NotOwner, lock.release)
            self.assertFalse(lock.locked())
            if lock is both.read:
                both.trim()

    def test_a_notify_may_be_made_again(self):
        for notify in (aqs.Condition.notify, aqs.Condition.notify_all):
            lock, woken = aqs.RLock(), []
            condition = aqs.Condition(lock)

            def wait(_number):
                with lock:
                    woken.append(condition.wait(LONG))

            threads = run_all(2, wait)
            until(lambda: len(condition._queue) == 2)
            with lock:
                refused = {"_one": lambda *_: _library.HISTORY_FULL, "_all": lambda *_: _library.HISTORY_FULL}
                with mock.patch.multiple(aqs.RLock, **refused):
                    self.assertRaises(aqs.HistoryFull, notify, condition)
                self.assertEqual(len(condition._queue), 2)
                notify(condition)
                condition.notify()
            join_all(threads)
            self.assertEqual(woken, [True, True])

    def test_a_gate_that_can_not_notify_stays_as_it_is(self):
        event, action = aqs.Event(), mock.Mock()
        barrier, woken = aqs.Barrier(2, action), []
        threads = run_all(1, lambda _number: woken.append(event.wait(LONG)))
        threads += run_all(1, lambda _number: woken.append(barrier.wait(LONG)))
        until(lambda: event.waiters() == barrier.waiters() == 1)
        full = _library.error_of(_library.HISTORY_FULL)
        for gate, call in (
            (event, event.set), (barrier, barrier.wait), (barrier, barrier.abort), (barrier, barrier.reset),
        ):
            with mock.patch.object(gate._lock, "_signal_all", side_effect=full):
                self.assertRaises(aqs.HistoryFull, call)
            self.assertFalse(event.is_set() or barrier.broken or action.called or woken)
            self.assertEqual((barrier.n_waiting, event.waiters()), (1, 1))
        event.set()
        self.assertEqual((barrier.wait(), action.call_count), (1, 1))
        join_all(threads)
        self.assertEqual(sorted(woken), [0, 1])

    def test_a_wait_leaves_no_ticket(self):
        both = aqs.RWLock()
        lock = aqs.RLock(keep_history=True, most_entries=16)

        def full():
            self.full(lambda: lock.acquire(False))
            try:
                lock.wait(LONG)
            finally:
                while lock.holds() > 1:
                    lock.release()
                lock.trim()

        def reads():
            with both.read:
                both.write.wait(LONG)

        def interrupted():
            aqs.interrupt(aqs.current_thread())
            both.write.wait(LONG, interruptible=True)

        for side, call, error in (
            (lock, full, aqs.HistoryFull), (both.write, reads, aqs.HoldsRead),
            (both.write, interrupted, aqs.Interrupted),
        ):
            with side:
                self.assertRaises(error, call)
                self.assertEqual((side.holds(), side._numbers.users), (1, [0] * 16))
                self.assertEqual(len(side._queues[0]), 0)

    def test_who_may_not_notify_takes_nothing(self):
        for lock in (aqs.Lock(), threading.Lock(), aqs.RLock(), aqs.RWLock().read):
            condition = aqs.Condition(lock)
            for call in (condition.notify, condition.notify_all, condition.wait):
                self.assertRaises(RuntimeError, call)
            self.assertTrue(in_other(lambda: condition.acquire(False) and condition.release() is None))
        with lock, condition, aqs.RLock() as has:
            self.assertTrue(has)
            self.assertRaises(TypeError, condition.notify, 1.5)
            self.assertRaises(ValueError, condition.acquire, timeout=-5)

    def test_a_condition_tells_its_lock_of_an_error(self):
        lock, error = mock.MagicMock(), ValueError()
        lock.__exit__.return_value = False
        with self.assertRaises(ValueError), aqs.Condition(lock):
            raise error
        self.assertEqual(lock.__exit__.call_args[0][:2], (ValueError, error))

    def test_a_reader_does_not_wait_for_itself_with_a_time(self):
        lock = aqs.RWLock()
        with lock.read:
            self.assertRaisesRegex(RuntimeError, "wait for itself", lock.write.acquire, timeout=0.01)
            self.assertEqual((lock.read.holds(), lock.write.holds()), (1, 0))

    def test_a_lock_that_fails_to_be_given_up_leaves_the_condition(self):
        class Refusing:
            def _is_owned(self):
                return True

            def release(self):
                raise OSError

        condition = aqs.Condition(Refusing())
        self.assertRaises(OSError, condition.wait)
        self.assertIsNone(in_other(condition.notify))
        self.assertFalse(condition._queue._monitor.locked())

    def test_each_call_is_told_of_its_refusal(self):
        permits, latch = aqs.Semaphore(0, threads=1), aqs.CountDownLatch(1, threads=1)
        both, over, told = aqs.RWLock(threads=1), threading.Event(), []
        waits = (permits.acquire, latch.wait)

        def wait(number):
            told.append(aqs.current_thread())
            with contextlib.suppress(aqs.Interrupted):
                seated(lambda: waits[number](interruptible=True))

        def write(_number):
            seated(both.write.acquire)
            over.wait(LONG)
            both.write.release()

        threads = run_all(2, wait) + run_all(1, write)
        for thing in (permits, latch, both):
            until(lambda: isinstance(raised_in_other(thing.waiters), aqs.TooManyThreads))
        for call in (
            permits.available, permits.release, permits.drain, lambda: permits.acquire(False), latch.count,
            latch.count_down, latch.waiters, both.write.locked, lambda: both.write.acquire(False),
            lambda: both.read.acquire(False),
        ):
            self.assertRaises(aqs.TooManyThreads, call)
        self.assertEqual((both.read.holds(), both.write.holds()), (0, 0))
        over.set()
        for thread in told:
            aqs.interrupt(thread)
        join_all(threads)
        self.assertEqual((permits.available(), latch.count(), both.write.locked()), (0, 1, False))

    def test_who_is_refused_the_lock_again_leaves_it_to_its_owner(self):
        lock = aqs.RLock()
        refusing = lock._calls._replace(plain=lambda _handle: _library.HISTORY_FULL)
        with lock, mock.patch.object(lock, "_calls", refusing):
            self.assertIsInstance(raised_in_other(lambda: lock._acquire_restore(2)), aqs.HistoryFull)
            self.assertEqual((lock.holds(), in_other(lock.holds)), (1, 0))

    def test_a_second_hold_that_is_refused_is_told(self):
        both = aqs.RWLock()
        for lock in (aqs.RLock(), both.read, both.write):
            plain, statuses = lock._calls.plain, [_library.HISTORY_FULL, _library.OK]

            def refused(handle):
                return plain(handle) or statuses.pop()

            with mock.patch.object(lock, "_calls", lock._calls._replace(plain=refused)):
                self.assertRaises(aqs.HistoryFull, lock._acquire_restore, 3)
            self.assertEqual((lock.holds(), statuses), (1, []))
            lock.release()
            lock._unlock(lock._opened.handle)
            self.assertFalse(lock.locked())

    def test_a_permit_that_cannot_be_counted_is_given_back(self):
        release, statuses = _library.library.aqs_sem_release, [_library.OUT_OF_MEMORY]

        def refused(*arguments):
            return statuses.pop() if statuses else release(*arguments)

        few = aqs.BoundedSemaphore(2)
        with mock.patch.object(_library.library, "aqs_sem_release", refused):
            self.assertRaises(aqs.OutOfMemory, few.acquire)
        self.assertEqual(few.available(), 2)
        self.assertRaises(ValueError, few.release)

    def test_nothing_is_said_of_what_was_never_opened(self):
        said = []
        with mock.patch("sys.unraisablehook", said.append):
            for kind in (*KINDS, aqs.RWLock, aqs.Event):
                self.assertRaises(ValueError, kind, threads=257)
            for lock in (aqs.RLock(), aqs.RWLock()):
                sides = [lock] if isinstance(lock, aqs.RLock) else [lock.read, lock.write]
                sides[-1].acquire()
                sides[0].acquire()
                lock.close()
                self.assertEqual([side.holds() for side in sides], [0] * len(sides))
            del lock, sides
            gc.collect()
        self.assertEqual(said, [])

    def test_a_number_that_memory_lacks_for_is_none(self):
        with mock.patch.object(_library.library, "aqs_thread_self", lambda: _library.NO_THREAD):
            self.assertRaises(aqs.OutOfMemory, aqs.current_thread)


class Closing(Tests):
    """When the memory of an object is freed, and that it is."""

    @contextlib.contextmanager
    def closed(self):
        """The kinds of the objects that are closed meanwhile."""
        closed = []

        def closing(kind, close):
            return lambda handle: (closed.append(kind), close(handle))

        with contextlib.ExitStack() as stack:
            for kind in ("lock", "rwlock", "sem", "latch"):
                name = f"aqs_{kind}_close"
                call = closing(kind, getattr(_library.library, name))
                stack.enter_context(mock.patch.object(_library.library, name, call))
            yield closed

    def test_each_object_is_freed_once(self):
        for kind, freed in (
            (aqs.RLock, ["lock"]), (aqs.RWLock, ["rwlock"]), (aqs.Semaphore, ["sem"]), (aqs.Event, ["lock"]),
            (aqs.Lock, ["sem"]), (aqs.BoundedSemaphore, ["sem"] * 2), (aqs.Condition, ["lock"]),
            (lambda: aqs.Barrier(2), ["lock"]), (lambda: aqs.CountDownLatch(1), ["latch"]),
            (lambda: aqs.Condition(threading.Lock()), ["lock"]),
        ):
            for is_closed in (False, True):
                with self.closed() as closed:
                    thing = kind()
                    if is_closed and hasattr(thing, "close"):
                        thing.close()
                        self.assertEqual(closed, freed)
                        thing.close()
                    del thing
                    self.assertEqual(closed, freed)

    def test_what_a_fork_leaves_behind_is_not_freed(self):
        for kind in (*KINDS, aqs.Event):
            with self.closed() as closed:
                thing = kind()
                thing._at_fork_reinit()
                self.assertEqual(closed, [])

    def test_an_object_stays_until_its_question_is_answered(self):
        questions = {
            "policy": "aqs_object_policy", "queue_length": "aqs_object_queue_length",
            "waiters": "aqs_object_waiters", "history": "aqs_history_text", "trim": "aqs_history_trim",
            "available": "aqs_sem_getvalue",
        }
        for question, name in questions.items():
            with self.closed() as closed:
                permits, seen, call = aqs.Semaphore(), [], getattr(_library.library, name)

                def closing(*arguments):
                    permits.close()
                    seen.append(len(closed))
                    return call(*arguments)

                with mock.patch.object(_library.library, name, closing):
                    getattr(permits, question)()
                self.assertEqual((seen, closed), ([0], ["sem"]), question)

    def test_who_holds_a_lock_closes_it_alone(self):
        for lock in (aqs.RLock(), aqs.RWLock()):
            for side in [lock] if isinstance(lock, aqs.RLock) else [lock.read, lock.write]:
                with side:
                    self.assertIsInstance(raised_in_other(lock.close), RuntimeError)
                    self.assertEqual(side.holds(), 1)
        for gate in (aqs.Event(), aqs.Barrier(2)):
            with gate._cond:
                self.assertIsInstance(raised_in_other(gate.close), RuntimeError)

    def test_threads_that_close_what_they_hold_give_their_numbers_back(self):
        def close(_number):
            kinds = (aqs.RLock, aqs.RWLock, aqs.Event, aqs.RWLock)
            lock, both, event, dropped = (kind(threads=1) for kind in kinds)
            for side in (lock, lock, both.write, both.read, both.read, event._cond, dropped.write):
                side.__enter__()
            for thing in (lock, both, event):
                thing.close()

        for _ in range(3):
            join_all(run_all(30, close))
        self.assertLess(in_other(aqs.current_thread), 64)

    def test_a_later_thread_is_not_the_one_that_has_ended(self):
        lock, both = aqs.RLock(), aqs.RWLock()
        for side in (lock, both.read):
            in_other(side.acquire)
        for _ in range(5):
            for side in (lock, both.read):
                self.assertEqual(in_other(side.holds), 0)
                self.assertIsInstance(raised_in_other(side.release), aqs.NotOwner)


class Interrupts(Tests):
    """An interrupt ends the calls that heed it, and stays for the others."""

    def after_one(self, call):
        """What a call returns after an interrupt of its thread, or "ended", and whether the interrupt is
        still there. In this thread, and in another."""

        def tried():
            aqs.interrupt(aqs.current_thread())
            try:
                return call(), aqs.interrupted()
            except aqs.Interrupted:
                return "ended", aqs.interrupted()

        return [tried(), in_other(tried)]

    def test_each_acquire(self):
        for kind in (*KINDS, lambda: aqs.RWLock().read, lambda: aqs.RWLock().write):
            for named in ({}, {"timeout": LONG}):
                thing = kind()
                with self.subTest(f"{thing} {named}"):
                    heeds = {"interruptible": True, **named}
                    ended = self.after_one(lambda: thing.acquire(**heeds) and thing.release())
                    self.assertEqual(ended, [("ended", False)] * 2)
                    has = self.after_one(lambda: thing.acquire(**named) and thing.release())
                    self.assertEqual(has, [(None, True)] * 2)
                    self.assertTrue(in_other(lambda: thing.acquire(False) and thing.release() is None))
                    self.assertEqual(getattr(thing, "available", lambda: 1)(), 1)

    def test_each_wait(self):
        lock = aqs.RLock()
        for owner in (lock, aqs.RWLock().write, aqs.Condition(lock), aqs.Condition(aqs.Lock())):
            for call in (owner.wait, lambda *it, **named: owner.wait_for(lambda: False, *it, **named)):
                for time_ in (1, None):

                    def waits():
                        with owner:
                            try:
                                call(time_, interruptible=True)
                            finally:
                                assert owner._is_owned()

                    self.assertEqual(self.after_one(waits), [("ended", False)] * 2)

            def waits_on():
                with owner:
                    return owner.wait(0.01)

            self.assertEqual(self.after_one(waits_on), [(False, True)] * 2)

    def test_each_gate(self):
        latch, event, barrier = aqs.CountDownLatch(1), aqs.Event(), aqs.Barrier(2)
        for time_ in (1, None):
            ended = self.after_one(lambda: latch.wait(time_, interruptible=True))
            self.assertEqual(ended, [("ended", False)] * 2)

        def breaks():
            barrier.reset()
            try:
                barrier.wait(0.01)
            except aqs.BrokenBarrierError:
                return "broken"

        self.assertEqual(self.after_one(lambda: latch.wait(0.01)), [(False, True)] * 2)
        self.assertEqual(self.after_one(lambda: event.wait(0.01)), [(False, True)] * 2)
        self.assertEqual(self.after_one(breaks), [("broken", True)] * 2)


class Waiting(Tests):
    """Who waits for how long, in which order, and who is woken."""

    def waiting(self, condition, count):
        """As many threads wait on a condition, in the order of their numbers, and note what they get."""
        threads, woken = [], []

        def wait(number):
            with condition:
                woken.append((number, condition.wait(LONG)))

        for number in range(count):
            threads.append(threading.Thread(target=wait, args=(number,), daemon=True))
            threads[-1].start()
            until(lambda: len(condition._queue) == number + 1)
        return threads, woken

    def test_only_the_main_thread_waits_in_slices(self):
        permits, lock = aqs.Semaphore(0, keep_history=True), aqs.RLock(keep_history=True)

        def waits(_number):
            with lock:
                lock.wait()
            permits.acquire()

        with mock.patch("aqs._waiting.SLICE", ctypes.c_int64(5)):
            threads = run_all(1, waits)
            for thing, goes_on in ((lock, lambda: in_lock(lock, lock.notify)), (permits, permits.release)):
                until(lambda: thing.waiters() == 1)
                time.sleep(0.03)
                goes_on()
            join_all(threads)
        counts = lock.history().count(" await "), permits.history().count(" queued ")
        self.assertEqual(counts, (1, 1))

    def test_no_time_is_rounded_down(self):
        latch, given = aqs.CountDownLatch(1), []

        def run(ran, _function, arguments):
            given.append(arguments[1].value)
            ran.append(_library.OK)
            return _library.OK

        times = (0.0004, 0.0011, 0.05, 5, 2**32)
        still = mock.Mock(monotonic=lambda: 0.0)
        with mock.patch("aqs._waiting.run", run), mock.patch("aqs._waiting.time", still):
            for time_ in (*times, None):
                latch.wait(time_)
            in_other(lambda: [latch.wait(time_) for time_ in times])
        self.assertEqual(given, [1, 2, 50, 100, 100, 100, 1, 2, 50, 5000, 2**32 - 1])

    def test_conditions_share_a_number_only_if_they_must(self):
        for numbers, users in ((3, [1, 1, 1]), (2, [1, 2]), (4, [0, 1, 1, 1])):
            lock = aqs.RLock(conditions=numbers)
            conditions = [aqs.Condition(lock) for _ in range(3)]
            threads = [it for condition in conditions for it in self.waiting(condition, 2)[0]]
            with lock:
                self.assertEqual(sorted(lock._numbers.users), users)
                for condition in conditions:
                    condition.notify_all()
            join_all(threads)
            self.assertEqual(lock._numbers.users, [0] * numbers)

    def test_a_notify_wakes_no_more_than_it_says(self):
        condition = aqs.Condition()
        threads, woken = self.waiting(condition, 4)
        for n, left in ((1, [0]), (2, [0, 1, 2]), (2, [0, 1, 2, 3])):
            with condition:
                condition.notify(n)
                self.assertEqual(condition._lock.queue_length(), len(left) - len(woken))
            until(lambda: len(woken) == len(left))
            self.assertEqual(sorted(woken), [(number, True) for number in left])
        join_all(threads)

    def test_who_was_notified_is_not_too_late(self):
        for condition in (aqs.Condition(), aqs.Condition(aqs.Lock())):
            with mock.patch("aqs._conditions.is_up", lambda _until: True):
                threads, woken = self.waiting(condition, 2)
                with condition:
                    condition.notify()
                    condition.notify()
                join_all(threads)
            self.assertEqual(sorted(woken), [(0, True), (1, True)])

    def test_the_main_thread_is_behind_others_after_a_slice(self):
        condition, first, woken = aqs.Condition(), [], []

        def wait(_number):
            with condition:
                first.extend(condition._queue._tickets)
                woken.append(condition.wait(LONG))
                condition.notify()

        def notified():
            with condition:
                is_behind = len(condition._queue) == 2 and condition._queue._tickets[0] not in first
                if is_behind:
                    condition.notify()
            return is_behind

        with mock.patch("aqs._waiting.SLICE", ctypes.c_int64(10)), condition:
            threads = run_all(1, wait) + run_all(1, lambda _number: until(notified))
            self.assertTrue(condition.wait(LONG))
            self.assertEqual(woken, [True])
        join_all(threads)

    def test_a_handler_may_notify_as_a_wait_begins_anew(self):
        condition = aqs.Condition()
        queue, drop, notified = condition._queue, condition._queue._drop, []

        def dropping(ticket):
            drop(ticket)
            if not notified:
                notified.append(None)
                condition.notify()

        with mock.patch("aqs._waiting.SLICE", ctypes.c_int64(10)), mock.patch.object(queue, "_drop", dropping), condition:
            self.assertTrue(condition.wait(LONG))

    def test_a_predicate_is_asked_again_after_the_time(self):
        for condition in (aqs.RLock(), aqs.Condition(), aqs.Condition(threading.Lock())):
            answers = iter((0, "late"))
            with condition:
                self.assertEqual(condition.wait_for(lambda: next(answers), 0.001), "late")

    def test_no_notify_comes_before_its_waiter(self):
        condition, threads = aqs.Condition(threading.Lock()), []
        release = condition._release_save

        def releasing():
            release()
            threads.extend(run_all(1, lambda _number: in_lock(condition, condition.notify)))
            threads[0].join(0.1)

        with mock.patch.object(condition, "_release_save", releasing), condition:
            self.assertTrue(condition.wait(LONG))
        join_all(threads)

    def test_who_is_woken_holds_up_no_notify(self):
        condition = aqs.Condition(threading.Lock())
        threads, woken = self.waiting(condition, 2)
        with condition:
            condition.notify()
            time.sleep(0.02)
            monitor = condition._queue._monitor
            self.assertTrue(monitor.acquire(timeout=LONG) and monitor.release() is None)
            condition.notify()
        join_all(threads)
        self.assertEqual(sorted(woken), [(0, True), (1, True)])

    def test_a_wait_beside_the_lock_gives_all_holds_up(self):
        lock, both = aqs.RLock(), aqs.RWLock()
        for condition, side, other in (
            (threading.Condition(lock), lock, lock), (aqs.Condition(both.read), both.read, both.write),
        ):

            def notify(_number):
                with other:
                    pass
                with condition:
                    condition.notify()

            with condition, condition:
                threads = run_all(1, notify)
                self.assertTrue(condition.wait(LONG))
                self.assertEqual(side.holds(), 2)
                self.assertFalse(in_other(lambda: other.acquire(False)))
            join_all(threads)
            self.assertTrue(in_other(lambda: other.acquire(False) and other.release() is None))

    def test_who_has_a_lock_next_keeps_it(self):
        for lock in (aqs.RLock(), aqs.RWLock().write):
            unlock, threads, told = lock._unlock, [], []
            begun, over = threading.Event(), threading.Event()

            def hold(_number):
                with lock:
                    begun.set()
                    over.wait(LONG)
                    told.append(lock.holds())

            def unlocking(handle):
                status = unlock(handle)
                threads.extend(run_all(1, hold))
                begun.wait(LONG)
                return status

            lock.acquire()
            with mock.patch.object(lock, "_unlock", unlocking):
                lock.release()
            over.set()
            join_all(threads)
            self.assertEqual((told, lock.locked()), ([1], False))

    def test_who_waits_does_not_own(self):
        lock = aqs.RLock()
        condition = aqs.Condition(lock)
        threads, _ = self.waiting(condition, 1)
        until(lambda: lock.waiters() == 1)
        self.assertRegex(repr(condition), "^<Condition[(]<unlocked aqs.RLock object count=0 at 0x.*>, 1[)]>$")
        in_lock(condition, condition.notify)
        join_all(threads)

    def test_an_action_that_fails_breaks_the_barrier(self):
        told, faults = [], [SystemExit()]

        def act():
            if faults:
                raise faults.pop()

        barrier = aqs.Barrier(2, act)

        def meet(_number):
            try:
                told.append(barrier.wait(LONG))
            except (SystemExit, aqs.BrokenBarrierError) as error:
                told.append((type(error), barrier.broken))

        join_all(run_all(2, meet))
        self.assertEqual(set(told), {(SystemExit, True), (aqs.BrokenBarrierError, True)})
        self.assertEqual((barrier.broken, barrier.n_waiting), (True, 0))
        self.assertRaises(aqs.BrokenBarrierError, barrier.wait)
        self.assertRegex(repr(barrier), "^<aqs.Barrier at 0x.*: broken>$")
        barrier.reset()
        told.clear()
        join_all(run_all(2, meet))
        self.assertEqual(sorted(told), [0, 1])


class Forks(Tests):
    """What a child of a fork finds."""

    def in_child(self, call):
        """Makes a call in a child, which must end without an exception."""
        child = os.fork()
        if not child:
            status = 1
            try:
                signal.alarm(2 * LONG)
                call()
                status = 0
            except BaseException:
                traceback.print_exc()
            finally:
                os._exit(status)
        self.assertEqual(os.waitpid(child, 0), (child, 0))

    def test_nobody_of_the_parent_waits_there(self):
        own, beside = aqs.Condition(), aqs.Condition(threading.Lock())
        for condition in (own, beside):
            woken, begun, over = [], threading.Event(), threading.Event()

            def wait(number):
                with condition:
                    woken.append((number, condition.wait(LONG)))

            def notifies():
                condition._at_fork_reinit()
                assert len(condition._queue) == 0
                with condition:
                    thread = threading.Thread(target=wait, args=("child",), daemon=True)
                    thread.start()
                until(lambda: len(condition._queue) == 1)
                with condition:
                    condition.notify()
                thread.join(LONG)
                assert woken == [("child", True)], woken

            def notifying(_number):
                with getattr(condition._queue, "_monitor", aqs.RLock()):
                    begun.set()
                    over.wait(LONG)

            threads = run_all(1, wait)
            until(lambda: len(condition._queue) == 1)
            with condition:
                threads += run_all(1, notifying)
                begun.wait(LONG)
                self.in_child(notifies)
                over.set()
                condition.notify()
            join_all(threads)
            self.assertEqual(woken, [(0, True)])

    def test_no_queue_of_the_parent_is_there(self):
        lock, event, barrier, woken = aqs.RLock(), aqs.Event(), aqs.Barrier(2), []

        def wait(_number):
            with lock:
                woken.append(lock.wait(LONG))

        def wakes():
            for thing in (lock, event, barrier):
                thing._at_fork_reinit()
            assert not event._cond._queue and not barrier._cond._queue
            threads = run_all(1, wait)
            until(lambda: lock.waiters() == 1)
            in_lock(lock, lock.notify)
            join_all(threads)

        threads = run_all(1, wait) + run_all(1, lambda _number: event.wait())
        threads += run_all(1, lambda _number: barrier.wait())
        until(lambda: lock.waiters() == event.waiters() == barrier.waiters() == 1)
        self.in_child(wakes)
        in_lock(lock, lock.notify)
        event.set()
        barrier.wait()
        join_all(threads)
        self.assertEqual(woken, [True])

    def test_the_thread_that_forked_is_the_main_one_there(self):
        def ended_early():
            """Whether a signal ends a wait of the child soon. Its exception is raised in the main thread alone."""
            signal.signal(signal.SIGALRM, signal.default_int_handler)
            signal.setitimer(signal.ITIMER_REAL, 0.1)
            begin = time.monotonic()
            try:
                aqs.Semaphore(0).acquire(timeout=4)
            except KeyboardInterrupt:
                return time.monotonic() - begin < 3
            return False

        def fork():
            child = os.fork()
            if child == 0:
                os._exit(0 if ended_early() else 1)
            return os.waitpid(child, 0)[1]

        self.assertEqual(in_other(fork), 0)

    def test_what_is_opened_anew_is_as_at_first(self):
        options = {"policy": aqs.Policy.STRICT, "threads": 3, "most_entries": 20}
        things = [kind(**options) for kind in (*KINDS, aqs.Event)] + [aqs.Semaphore(7, **options)]
        for thing in things:
            before = thing.history()
            getattr(thing, "acquire", int)()
            thing._at_fork_reinit()
            self.assertEqual(thing.history(), before)
        lock = things[0]
        with lock:
            self.assertEqual((lock.holds(), lock._numbers.users), (1, [0] * 16))


class Loading(Tests):
    def python(self, code, **environment):
        words = [sys.executable, "-B", "-c", code]
        settings = {**os.environ, **environment}
        return subprocess.run(words, cwd=HERE, env=settings, capture_output=True, text=True, timeout=60)

    def test_a_missing_library_says_what_to_run(self):
        ran = self.python("import aqs", AQS_SO="/nowhere/libaqs.so")
        self.assertEqual(ran.returncode, 1)
        last = ran.stderr[ran.stderr.index("ImportError"):]
        self.assertIn("/nowhere/libaqs.so", last)
        self.assertIn("make -C bindings/c", last)
        self.assertIn("AQS_SO", last)

    def test_the_first_library_that_is_there_is_taken(self):
        places = ["/room/python/aqs/libaqs.so", "/room/c/out/libaqs.so", "libaqs.so"]
        for place in places:
            tried = []

            def opened(name):
                tried.append(name)
                if name != place:
                    raise OSError(name)
                return _library.library

            here = mock.patch.object(_library, "__file__", "/room/python/aqs/_library.py")
            with here, mock.patch("ctypes.CDLL", opened), mock.patch.dict(os.environ):
                os.environ.pop("AQS_SO", None)
                self.assertIs(_library._load(), _library.library)
            self.assertEqual(tried, places[: places.index(place) + 1])

    def test_the_wheel_has_the_library(self):
        with tempfile.TemporaryDirectory() as room:
            words = [sys.executable, "-B", str(HERE / "wheel_backend.py"), room]
            made = subprocess.run(words, capture_output=True, text=True, timeout=60, check=True)
            with zipfile.ZipFile(f"{room}/{made.stdout.strip()}") as wheel:
                self.assertIsNone(wheel.testzip())
                record = wheel.read("aqs-0.1.0.dist-info/RECORD").decode()
                recorded = {line.split(",")[0]: line.split(",")[1:] for line in record.split()}
                self.assertEqual(recorded.pop("aqs-0.1.0.dist-info/RECORD"), ["", ""])
                found = {name: wheel.read(name) for name in wheel.namelist() if name in recorded}
                self.assertEqual(len(found) + 1, len(wheel.namelist()))
                for name, data in found.items():
                    digest = base64.urlsafe_b64encode(hashlib.sha256(data).digest()).decode().rstrip("=")
                    self.assertEqual(recorded[name], [f"sha256={digest}", str(len(data))], name)
                self.check_words_of_wheel(made.stdout, wheel)
                wheel.extractall(room)
            code = "import aqs; print(aqs.Semaphore(2).available(), aqs._library.library._name)"
            settings = {name: value for name, value in os.environ.items() if name != "AQS_SO"}
            words = [sys.executable, "-B", "-c", code]
            ran = subprocess.run(words, cwd=room, env=settings, capture_output=True, text=True, timeout=60)
            self.assertEqual(ran.stdout, f"2 {os.path.realpath(room)}/aqs/libaqs.so\n", ran.stderr)

    def check_words_of_wheel(self, name, wheel):
        """They are those of pyproject.toml, and of the file's name."""
        project = (HERE / "pyproject.toml").read_text(encoding="utf-8")
        about, words = (
            email.message_from_bytes(wheel.read(f"aqs-0.1.0.dist-info/{file}")) for file in ("METADATA", "WHEEL")
        )
        for key in ("Name", "Version", "Requires-Python", "Summary"):
            word = {"Summary": "description"}.get(key, key.lower())
            self.assertIn(f'\n{word} = "{about[key]}"\n', project)
        self.assertEqual((about["Metadata-Version"], words["Wheel-Version"]), ("2.1", "1.0"))
        self.assertEqual(words["Root-Is-Purelib"], "false")
        self.assertEqual(name, f"aqs-{about['Version']}-{words['Tag']}.whl\n")
        self.assertEqual(words["Tag"], f"py3-none-linux_{platform.machine()}")
        files = {f"aqs/{file.name}" for file in (HERE / "aqs").iterdir() if file.suffix in (".py", ".typed")}
        self.assertEqual({it for it in wheel.namelist() if "dist-info" not in it}, files | {"aqs/libaqs.so"})

    def test_a_wheel_has_the_library_that_is_named(self):
        with tempfile.TemporaryDirectory() as room:
            words = [sys.executable, "-B", str(HERE / "wheel_backend.py")]
            settings = {**os.environ, "AQS_SO": f"{room}/named.so"}
            given = {"cwd": room, "env": settings, "capture_output": True, "text": True, "timeout": 60}
            ran = subprocess.run(words, **given)
            self.assertEqual((ran.returncode, os.listdir(room)), (1, []))
            self.assertRegex(ran.stderr, f"^{re.escape(room)}/named.so is missing: .*make -C bindings/c.*AQS_SO")
            pathlib.Path(room, "named.so").write_bytes(b"named")
            ran = subprocess.run(words, **given)
            with zipfile.ZipFile(f"{room}/{ran.stdout.strip()}") as wheel:
                self.assertEqual(wheel.read("aqs/libaqs.so"), b"named")

    def test_a_child_has_no_waiters_of_its_parent(self):
        code = (
            "import aqs, os, threading, time\n"
            "lock, woken = aqs.RLock(conditions=2), []\n"
            "condition = aqs.Condition(lock)\n"
            "def wait():\n"
            "    with lock:\n"
            "        woken.append(condition.wait(30))\n"
            "def waiter():\n"
            "    thread = threading.Thread(target=wait)\n"
            "    thread.start()\n"
            "    while lock.waiters() < 1:\n"
            "        time.sleep(0.001)\n"
            "    return thread\n"
            "def wake(thread):\n"
            "    with lock:\n"
            "        condition.notify()\n"
            "    thread.join(20)\n"
            "    return woken, lock._numbers.users\n"
            "threads = [waiter()]\n"
            "child = os.fork()\n"
            "if child == 0:\n"
            "    condition._at_fork_reinit()\n"
            "    os._exit(7 if wake(waiter()) == ([True], [0, 0]) else 1)\n"
            "print(os.WEXITSTATUS(os.waitpid(child, 0)[1]), wake(*threads))\n"
        )
        ran = self.python(code)
        self.assertEqual(ran.stdout, "7 ([True], [0, 0])\n", ran.stderr)

    def test_threads_that_wait_at_the_end_do_no_harm(self):
        code = (
            "import aqs, threading, time\n"
            "permits, lock = aqs.Semaphore(0), aqs.RLock()\n"
            "lock.acquire()\n"
            "for call in (permits.acquire, lock.acquire):\n"
            "    threading.Thread(target=call, daemon=True).start()\n"
            "while permits.queue_length() + lock.queue_length() < 2:\n"
            "    time.sleep(0.001)\n"
        )
        ran = self.python(code)
        self.assertEqual((ran.returncode, ran.stderr), (0, ""))


class Declarations(unittest.TestCase):
    def test_they_are_those_of_the_header(self):
        text = re.sub(r"/\*.*?\*/", "", HEADER.read_text(encoding="ascii"), flags=re.S)
        compared = 0
        for result, name, taken in re.findall(r"(?m)^([\w ]+ \*?)(aqs_\w+)\(([^)]*)\);$", text):
            function = getattr(_library.library, name)
            if function.argtypes is not None:
                wanted = [in_c(it.strip()) for it in taken.split(",") if it != "void"]
                self.assertEqual([in_python(it) for it in function.argtypes], wanted, name)
                self.assertEqual(in_python(function.restype), in_c(result), name)
                compared += 1
        self.assertGreater(compared, 50)

    def test_each_status_is_that_of_the_header(self):
        text = re.sub(r"/\*.*?\*/", "", HEADER.read_text(encoding="ascii"), flags=re.S)
        names = re.findall(r"\bAQS_\w+", re.search(r"typedef enum \{([^}]*)\} aqs_status_t;", text)[1])
        kinds = {
            "INTERRUPTED": (aqs.Interrupted,), "NOT_OWNER": (aqs.NotOwner, RuntimeError),
            "TOO_MANY_HOLDS": (aqs.TooManyHolds, OverflowError), "HOLDS_READ": (aqs.HoldsRead, RuntimeError),
            "TOO_MANY_PERMITS": (aqs.TooManyPermits, OverflowError),
            "TOO_MANY_THREADS": (aqs.TooManyThreads, RuntimeError),
            "HISTORY_FULL": (aqs.HistoryFull, RuntimeError), "OUT_OF_MEMORY": (aqs.OutOfMemory, MemoryError),
            "NO_SUCH_CONDITION": (aqs.NoSuchCondition, ValueError),
        }
        for status, name in enumerate(names):
            own, *bases = kinds.get(name[4:], (aqs.Error,))
            error = _library.error_of(status)
            self.assertEqual((type(error), error.status), (own, status))
            self.assertTrue(all(isinstance(error, it) for it in (aqs.Error, *bases)), name)
            words = "the call was refused" if own is aqs.Error else own.__doc__
            self.assertEqual(str(error), f"{name}: {words}")
            self.assertEqual(getattr(_library, name[4:], status), status, name)
        self.assertEqual(_library.NO_THREAD, 2**32 - 1)

    def test_each_name_of_the_package_is_there(self):
        self.assertEqual([name for name in aqs.__all__ if not hasattr(aqs, name)], [])
        self.assertIs(aqs.Latch, aqs.CountDownLatch)

    def test_the_package_says_that_it_has_types(self):
        self.assertTrue((HERE / "aqs" / "py.typed").is_file())


if __name__ == "__main__":
    unittest.main()
