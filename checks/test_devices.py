"""Tests that a program which reads behind its end is seen, and that one which ends early is counted as failed."""
import contextlib
import io
import sys
import unittest

import devices


def at_a_terminal(code, text, patience=10):
    return devices.at_a_terminal(sys.executable, ["-c", code], text, patience)


class Terminals(unittest.TestCase):
    def test_a_program_that_asks_once_ends(self):
        code = "import os, sys; read = lambda: os.read(0, 65536)\nwhile read(): pass\nsys.exit(3)"
        self.assertEqual(at_a_terminal(code, b"a line\nand another\n"), (3, b"", b""))
        self.assertEqual(at_a_terminal(code, b""), (3, b"", b""))

    def test_a_program_that_asks_twice_is_still_reading(self):
        code = "import os; read = lambda: os.read(0, 65536)\nwhile read(): pass\nread()"
        self.assertIsNone(at_a_terminal(code, b"a line\n", patience=1))


class Flow(unittest.TestCase):
    def test_programs_that_end_early_have_failed(self):
        for program in ["/bin/false", "/bin/true"]:
            told = io.StringIO()
            with contextlib.redirect_stdout(told):
                self.assertEqual(devices.main([program, "0.01"]), 1)
            self.assertRegex(told.getvalue(), r"\n[02] passed, [13] failed\n\Z")
