"""Tests that a check which fails, breaks off or counts nothing is counted as failed."""
import sys
import unittest

import by_program


def counts(code):
    return by_program.counts([sys.executable, "-c", code])[1:]


class Counts(unittest.TestCase):
    def test_the_last_line_counts(self):
        self.assertEqual(counts("print('1 passed, 1 failed'); print('20 passed, 0 failed')"), (20, 0))
        self.assertEqual(counts("print('20 passed, 3 failed'); exit(1)"), (20, 3))

    def test_what_breaks_off_has_failed(self):
        self.assertEqual(counts("print('20 passed, 0 failed', flush=True); raise OSError"), (0, 1))
        self.assertEqual(counts("print('20 passed, 0 failed'); exit(1)"), (20, 1))
        self.assertEqual(counts("print('20 passed, 0 failed', end='')"), (0, 1))

    def test_what_counts_nothing_has_failed(self):
        self.assertEqual(counts("print('0 passed, 0 failed')"), (0, 1))
        self.assertEqual(counts(""), (0, 1))

    def test_a_seed_chooses_the_same_again(self):
        self.assertEqual(list(by_program.checks("1a")), list(by_program.checks("1a")))
        self.assertNotEqual(list(by_program.checks("1a")), list(by_program.checks("1b")))


if __name__ == "__main__":
    unittest.main()
