"""How rows are played, and what is seen of a lock in C that loses a wake."""
import os
import shutil
import subprocess
import tempfile
import unittest

import stops
from debugger import FOR_EVER, Wrong, acted_on

# Four threads at a lock of one word: 0 is free, 1 taken, and 2 taken while threads may sleep.
LOCK = r"""
#include <linux/futex.h>
#include <pthread.h>
#include <stdatomic.h>
#include <stdint.h>
#include <sys/syscall.h>
#include <time.h>
#include <unistd.h>
static _Alignas(8) _Atomic uint32_t word;
static void futex(int what, uint32_t value) { syscall(SYS_futex, &word, what, value, NULL, NULL, 0); }
static void mark(long number, long came) {
    struct timespec time = {0, number * 16 + came + 1};
    nanosleep(&time, NULL);
}
static void lock(void) {
    uint32_t was = 0;
    if (atomic_compare_exchange_strong(&word, &was, 1)) return;
    while (GO_TO_SLEEP != 0) futex(FUTEX_WAIT_PRIVATE, 2);
}
static void unlock(void) {
    if (FREE == 2) futex(FUTEX_WAKE_PRIVATE, 1);
}
static void *work(void *number) {
    for (;;) {
        mark((long)number, 0);
        lock();
        mark((long)number, 1);
        unlock();
    }
}
int main(void) {
    pthread_t threads[4];
    for (long it = 0; it < 4; it++) pthread_create(&threads[it], NULL, work, (void *)it);
    pthread_join(threads[0], NULL);
}
"""
RIGHT = {"GO_TO_SLEEP": "atomic_exchange(&word, 2)", "FREE": "atomic_exchange(&word, 0)"}
IN_TWO_STEPS = "({ uint32_t now = atomic_load(&word); atomic_store(&word, 0); now; })"
LEAVES_NO_TRACE = "(was = 0, atomic_compare_exchange_strong(&word, &was, 1) ? 0 : was)"
TWICE = "({ uint32_t was = atomic_exchange(&word, 0); if (was == 1) atomic_store(&word, 0); was; })"
ROWS = ["0! 1 0 1", "0 1! 0 1", "0 0! 1 0 1", "0 1! 0 0 1 0", "0 1 2! 0 1 2"]


class Instructions(unittest.TestCase):
    def acts(self, code, **registers):
        numbers = {"rcx": 1, "rsp": 4, "rbp": 5, "rdi": 7, "r12": 12, "r13": 13, "r9": 9}
        values = {numbers[name]: value for name, value in registers.items()}
        return acted_on(bytes.fromhex(code) + bytes(16), values.__getitem__)

    def test_where_an_instruction_acts(self):
        self.assertEqual(self.acts("f0480fb111", rcx=800), 800)  # lock cmpxchg [rcx], rdx
        self.assertEqual(self.acts("f0480fc14708", rdi=800), 808)  # lock xadd [rdi+8], rax
        self.assertEqual(self.acts("f048836dfc04", rbp=800), 796)  # lock sub qword [rbp-4], 4
        self.assertEqual(self.acts("f0490fc10424", r12=800), 800)  # lock xadd [r12], rax
        self.assertEqual(self.acts("f0490fc14500", r13=800), 800)  # lock xadd [r13], rax
        self.assertEqual(self.acts("f04a810cc900020000", rcx=800, r9=3), 824)  # lock or qword [rcx+r9*8], 512
        self.assertEqual(self.acts("4887842400010000", rsp=800), 1056)  # xchg [rsp+256], rax

    def test_others_do_not_count(self):
        self.assertIsNone(self.acts("488b01", rcx=800))  # mov rax, [rcx]
        self.assertIsNone(self.acts("4887c1"))  # xchg rcx, rax
        self.assertIsNone(self.acts("f0480fc10500000000"))  # lock xadd [rip], rax


class Rows(unittest.TestCase):
    def test_each_row_names_threads_that_are_there(self):
        for mode, kind in (("locks", stops.Lock), ("seats", stops.Seat)):
            for row in stops.ROWS[mode]:
                with self.subTest(row):
                    self.assertRegex(row, r"^\d(z|~|!\d*|[<>]\d+)?( \d(z|~|!\d*|[<>]\d+)?)*$")
                    self.assertTrue(all(int(it[0]) < kind.threads for it in row.split()))


class Seats(unittest.TestCase):
    def seat(self, *calls):
        """Returns a seat at which calls begin, as 4, and end, as (4, 0)."""
        seat = stops.Seat()
        for it in calls:
            seat.end(*it) if isinstance(it, tuple) else seat.begin(it)
        return seat

    def test_a_permit_is_taken_once(self):
        self.seat(4, (4, 0), 0, (0, stops.PERMIT), 3, (3, stops.DEADLINE))
        with self.assertRaises(Wrong):
            self.seat(4, (4, 0), 0, (0, stops.PERMIT), 3, (3, stops.PERMIT))

    def test_calls_that_overlap_may_act_in_either_order(self):
        for came in (stops.DEADLINE, stops.PERMIT):
            self.seat(4, 3, (3, came), (4, 0))

    def test_an_interrupt_comes_before_a_permit(self):
        self.seat(4, (4, 0), 6, (6, 0), 1, (1, stops.INTERRUPTED), 3, (3, stops.PERMIT))
        with self.assertRaises(Wrong):
            self.seat(4, (4, 0), 6, (6, 0), 1, (1, stops.PERMIT))

    def test_who_sleeps_beside_a_signal_that_it_takes_sleeps_for_good(self):
        self.seat(0, 6, (6, 0)).check([0])
        self.seat(0).check([0])
        for asleep, signal in ((1, 6), (0, 4)):
            with self.assertRaises(Wrong):
                self.seat(asleep, signal, (signal, 0)).check([asleep])


class Sleeps(unittest.TestCase):
    def test_the_park_of_one_thread_has_a_limit_and_no_other_sleep_has(self):
        stops.Lock().sleeps(0, FOR_EVER)
        stops.Seat().sleeps(1, FOR_EVER)
        stops.Seat().sleeps(2, stops.DAY - 1)
        for kind, number, seconds in ((stops.Lock, 0, 1), (stops.Seat, 1, stops.DAY), (stops.Seat, 2, FOR_EVER)):
            with self.assertRaises(Wrong):
                kind().sleeps(number, seconds)


@unittest.skipUnless(shutil.which("gcc") and os.uname().machine == "x86_64", "no gcc for x86-64")
class Plays(unittest.TestCase):
    def why(self, rows, **changed):
        """Returns why a row fails of a lock in C, or None."""
        with tempfile.TemporaryDirectory() as room:
            words = [f"-D{name}={text}" for name, text in {**RIGHT, **changed}.items()]
            command = ["gcc", "-O1", "-pthread", *words, "-xc", "-", "-o", f"{room}/lock"]
            subprocess.run(command, input=LOCK, text=True, check=True)
            plays = stops.Plays(f"{room}/lock", "locks")
            try:
                return next((why for why in map(plays.tried, rows) if why), None)
            finally:
                plays.end()

    def test_a_lock_that_loses_no_wake_passes(self):
        self.assertIsNone(self.why(ROWS))

    def test_a_wake_that_is_lost_is_seen(self):
        self.assertEqual(self.why(["0 1! 0 1", "0 0! 1 0 1"], FREE=IN_TWO_STEPS), "sleep for good: [1]")

    def test_a_thread_that_does_not_sleep_is_seen(self):
        with self.assertRaises(Wrong):
            self.why(ROWS, GO_TO_SLEEP=LEAVES_NO_TRACE)

    def test_two_that_have_the_lock_are_seen(self):
        self.assertEqual(self.why(["0 0! 1 0 2"], FREE=TWICE), "threads 1 and 2 have the lock")


if __name__ == "__main__":
    unittest.main()
