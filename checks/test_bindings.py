"""How the step of the bindings makes the library, and reads what make check prints."""
import contextlib
import io
import os
import pathlib
import sys
import tempfile
import types
import unittest
from unittest import mock

import bindings

sys.path.append(f"{bindings.ROOT}/bindings")
import check


class Numbers(unittest.TestCase):
    def test_the_last_line_counts(self):
        self.assertEqual(bindings.numbers_of("ok: one\n3 passed, 1 failed\n"), (3, 1))

    def test_a_run_that_stopped_counts_nothing(self):
        self.assertIsNone(bindings.numbers_of("ok: one\n"))
        self.assertIsNone(bindings.numbers_of(""))


class Making(unittest.TestCase):
    def test_libraries_that_stand_are_not_made_anew(self):
        for is_built, stand in ((True, False), (False, True), (True, True)):
            with mock.patch.object(bindings, "stand_below", return_value=stand):
                words, time = bindings.making(is_built)
            self.assertEqual((words[1], words[-1]), ("build", bindings.CORE))
            self.assertIn("staticlib", words)
            self.assertIn("some minutes", time)

    def test_other_libraries_are_proved_first(self):
        with mock.patch.object(bindings, "stand_below", return_value=False):
            words, time = bindings.making(False)
        self.assertEqual(words, ["rt", "lib"])
        self.assertIn("40 minutes", time)


class Standing(unittest.TestCase):
    """Libraries stand unless one is missing, or has a source that is newer."""

    def setUp(self):
        folder = tempfile.TemporaryDirectory()
        self.addCleanup(folder.cleanup)
        self.below = [self.library(f"{folder.name}/{name}") for name in ("low", "high")]
        self.crate = types.SimpleNamespace(below=lambda: self.below)

    def library(self, folder):
        made = types.SimpleNamespace(folder=folder, rlib=f"{folder}/out/rlib/it.rlib")
        for file, time in ((f"{folder}/src/lib.rt", 100), (f"{folder}/proofs/deep/It.antt", 200)):
            self.write(file, time)
        self.write(f"{made.rlib}/format", 300)
        return made

    def write(self, file, time):
        os.makedirs(os.path.dirname(file), exist_ok=True)
        pathlib.Path(file).touch()
        os.utime(file, (time, time))

    def test_all_stand(self):
        self.assertTrue(bindings.stand_below(self.crate))

    def test_one_is_missing(self):
        os.remove(f"{self.below[1].rlib}/format")
        self.assertFalse(bindings.stand_below(self.crate))

    def test_a_source_is_newer(self):
        for file in ("src/lib.rt", "proofs/deep/It.antt", "specs/Lib.antt"):
            self.setUp()
            self.write(f"{self.below[0].folder}/{file}", 400)
            self.assertFalse(bindings.stand_below(self.crate), file)


class Log(unittest.TestCase):
    """What the prover prints is shown only if it fails."""

    def made(self, script):
        words = [sys.executable, "-c", script]
        with tempfile.TemporaryDirectory() as folder, contextlib.redirect_stdout(io.StringIO()) as said:
            with mock.patch.multiple(bindings, CORE=f"{folder}/core.a", LOG=f"{folder}/log", ROOT=folder):
                os.makedirs(f"{folder}/crates/aqs_c")
                with mock.patch.object(bindings, "making", return_value=(words, "soon")):
                    return bindings.made(False), said.getvalue()

    def test_one_that_was_made(self):
        is_made, said = self.made("print('error[of a quick pass]'); open('../../core.a', 'w')")
        self.assertTrue(is_made)
        self.assertNotIn("error", said)
        self.assertIn("soon", said)

    def test_one_that_was_not(self):
        is_made, said = self.made("import sys; print('error[true]', file=sys.stderr); sys.exit(3)")
        self.assertFalse(is_made)
        self.assertIn("error[true]", said)
        self.assertIn("status 3", said)


class Callers(unittest.TestCase):
    """How check.py goes on after a test that fails."""

    def counted(self, *how):
        with contextlib.redirect_stdout(io.StringIO()) as said:
            tests = check.Tests("", *how)
            with contextlib.suppress(check.Ended):
                tests.count("one", True)
                tests.run("two", ["false"])
                tests.run("three", ["true"])
        return tests.passed, tests.failed, said.getvalue().split("\n")[0]

    def test_all_tests_are_run(self):
        self.assertEqual(self.counted(), (2, 1, "ok: one"))

    def test_or_none_after_one_that_fails(self):
        self.assertEqual(self.counted(True), (1, 1, "ok: one"))

    def test_a_test_that_hangs_is_ended(self):
        with contextlib.redirect_stdout(io.StringIO()) as said, self.assertRaises(check.Ended):
            check.Tests("", True).run("two", ["sleep", "60"], 0.1)
        self.assertEqual(said.getvalue(), "FAILED: two\nit did not end in 0.1 seconds\n")


if __name__ == "__main__":
    unittest.main()
