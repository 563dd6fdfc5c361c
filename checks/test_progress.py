"""Tests that what a terminal shows of a line is read as a terminal shows it."""
import unittest

import progress

WIPE = b"\r" + b" " * 23 + b"\r"
SIZE = 612_000_000


def told(said, size=SIZE):
    return progress.is_told(progress.shown(said)[1], size)


class Shown(unittest.TestCase):
    def test_lines_that_are_wiped(self):
        said = b"aqs: 50 of 612 MB read" + WIPE + b"aqs: 100 of 612 MB read" + WIPE
        self.assertEqual(progress.shown(said), (b"", [b"aqs: 50 of 612 MB read", b"aqs: 100 of 612 MB read"]))
        self.assertTrue(told(said))

    def test_what_comes_after_a_line_stands_alone(self):
        self.assertEqual(progress.shown(b"aqs: 50 MB read" + WIPE + b"aqs: cut short\n")[0], b"aqs: cut short\n")

    def test_a_line_that_is_not_wiped(self):
        self.assertNotEqual(progress.shown(b"aqs: 50 of 612 MB read\r")[0], b"")
        self.assertNotEqual(progress.shown(b"aqs: 50 of 612 MB read\r        \r")[0], b"")
        self.assertNotEqual(progress.shown(b"aqs: 100 MB read\raqs: cut short\n")[0], b"aqs: cut short\n")

    def test_lines_that_say_something_else(self):
        self.assertFalse(told(b""))
        self.assertFalse(told(b"aqs: 50 MB read" + WIPE))
        self.assertFalse(told(b"aqs: 50 of 611 MB read" + WIPE))
        self.assertFalse(told(b"aqs: 49 of 612 MB read" + WIPE))
        self.assertFalse(told(b"aqs: 50 of 612 MB read" + WIPE, None))
        self.assertFalse(told(b"aqs: 50 of 612 MB read" + WIPE + b"aqs: 50 of 612 MB read" + WIPE))
        self.assertTrue(told(b"aqs: 50 MB read" + WIPE, None))


class Texts(unittest.TestCase):
    def test_long_texts_are_as_long_as_they_are_to_be(self):
        for text in progress.long_steps(100_000), progress.long_history(100_000):
            self.assertTrue(100_000 <= len(text) < 110_000)


if __name__ == "__main__":
    unittest.main()
