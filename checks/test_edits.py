"""How edits of the bindings are made, chosen, tried and counted."""
import contextlib
import io
import os
import pathlib
import tempfile
import time
import unittest
from unittest import mock

import edits

SOURCE = "int one(void) { return 1; }\nint two(void) { return 2; }\n"


def edited(text):
    return edits.edited(text, {"aqs.c": SOURCE}.__getitem__)


class Edits(unittest.TestCase):
    def test_pairs_of_lines_are_replaced_one_after_the_other(self):
        path, text = edited("file: aqs.c\nold: return 1;\nnew: return 2 + 0;\nold: return 2;\nnew:\n")
        self.assertEqual((path, text), ("aqs.c", "int one(void) { return 2 + 0; }\nint two(void) {  }\n"))

    def test_what_is_not_there_once_is_refused(self):
        for old in ("return 3;", "return"):
            with self.assertRaisesRegex(ValueError, "times"):
                edited(f"file: aqs.c\nold: {old}\nnew: other\n")

    def test_what_changes_nothing_is_refused(self):
        for text in ("", "file: aqs.c\n", "file: aqs.c\nold: return 1;\nnew: return 1;\n"):
            with self.assertRaisesRegex(ValueError, "nothing"):
                edited(text)

    def test_a_line_out_of_its_place_is_refused(self):
        with self.assertRaisesRegex(ValueError, "before it"):
            edited("file: aqs.c\nnew: other\n")


class Samples(unittest.TestCase):
    def test_a_seed_decides_the_order(self):
        names = [str(it) for it in range(50)]
        self.assertEqual(sorted(edits.in_order(names, "a")), sorted(names))
        self.assertEqual(edits.in_order(names, "a"), edits.in_order(names[::-1], "a"))
        self.assertNotEqual(edits.in_order(names, "a"), edits.in_order(names, "b"))


class Runs(unittest.TestCase):
    def test_the_last_line_says_why(self):
        with tempfile.TemporaryDirectory() as room:
            self.assertEqual(edits.run(["sh", "-c", "echo one; echo two >&2; exit 3"], room, 9), (False, "two"))
            self.assertEqual(edits.run(["true"], room, 9), (True, "no word"))
            self.assertEqual(edits.run(["sh", "-c", "kill -11 $$"], room, 9), (False, "no word (signal 11)"))
            self.assertEqual(edits.run(["sh", "-c", "echo $IT"], room, 9, IT="it"), (True, "it"))

    def test_what_takes_too_long_is_ended_with_all_that_it_started(self):
        with tempfile.TemporaryDirectory() as room:
            ran = edits.run(["sh", "-c", "sleep 60 & echo $! > pid; wait"], room, 0.5)
            self.assertEqual(ran, (False, "it did not end in 0.5 seconds"))
            pid, until = int(pathlib.Path(room, "pid").read_text()), time.monotonic() + 9
            while self.lives(pid) and time.monotonic() < until:
                time.sleep(0.01)
            self.assertFalse(self.lives(pid))

    def lives(self, pid):
        """Whether there is such a process, other than one that nobody has waited for."""
        try:
            return ") Z" not in pathlib.Path(f"/proc/{pid}/stat").read_text()
        except OSError:
            return False


class OneFile(edits.Tree):
    """A tree of one file, whose test sees the word 'bad'."""

    def found(self, name):
        return self.room / f"{name}.edit", self.room

    def copy(self, name, number):
        return self.copied(self.room / "base", self.room / f"{name}.{number}")

    def seen_by(self, copy, name, path, text):
        if "none" in text:
            raise ValueError("it is not built")
        return "a test: so" if "bad" in text else None


class Trees(unittest.TestCase):
    def tried(self, edit):
        with tempfile.TemporaryDirectory() as room:
            os.makedirs(f"{room}/base")
            pathlib.Path(room, "it.c").write_text("good\n")
            pathlib.Path(room, "one.edit").write_text(edit)
            said = OneFile(room, "core").tried("one")
            self.assertEqual(sorted(os.listdir(room)), ["base", "it.c", "one.edit"])
            return said

    def test_the_test_that_sees_an_edit_is_named(self):
        is_seen, said = self.tried("file: it.c\nold: good\nnew: bad\n")
        self.assertTrue(is_seen)
        self.assertRegex(said, r"^seen in \d+ s: one: by a test: so$")

    def test_an_edit_that_no_test_sees_is_told(self):
        is_seen, said = self.tried("file: it.c\nold: good\nnew: better\n")
        self.assertFalse(is_seen)
        self.assertRegex(said, r"^NOT SEEN in \d+ s: one$")

    def test_an_edit_that_cannot_be_made_or_built_is_bad(self):
        for edit in ("file: it.c\nold: bad\nnew: good\n", "file: it.c\nold: good\nnew: none\n", "file: other.c\n"):
            is_seen, said = self.tried(edit)
            self.assertFalse(is_seen)
            self.assertTrue(said.startswith(f"{edits.BAD}: one: "), said)


class Tries(unittest.TestCase):
    def counted(self, said, seen_at):
        """The numbers for one edit that is seen at this try, and how often it was tried."""
        tree = mock.Mock()
        tree.tried.side_effect = [(number == seen_at, said) for number in range(1, edits.TRIES + 2)]
        return edits.tried_all(tree, ["one"], 1, None), tree.tried.call_count

    def test_what_no_test_sees_is_tried_again(self):
        with mock.patch("builtins.print"):
            self.assertEqual(self.counted("a word", 1), ([1, 0], 1))
            self.assertEqual(self.counted("a word", edits.TRIES), ([1, 0], edits.TRIES))
            self.assertEqual(self.counted("a word", edits.TRIES + 1), ([0, 1], edits.TRIES))
            self.assertEqual(self.counted("BAD EDIT: why", 2), ([0, 1], 1))

    def test_none_is_begun_after_its_time(self):
        tree = mock.Mock()
        tree.tried.return_value = True, "a word"
        clock = mock.Mock(side_effect=[0, 1, 2, 3, 4])
        with mock.patch("builtins.print"):
            self.assertEqual(edits.tried_all(tree, ["one", "two", "three", "four"], 1, 2, clock), [2, 0])


class Programs(unittest.TestCase):
    def ran(self, words, make):
        said = io.StringIO()
        with contextlib.redirect_stdout(said):
            status = edits.main(words, "usage", lambda names: names or ["one", "two"], make, 60)
        return status, said.getvalue().splitlines()

    def test_the_last_line_counts(self):
        tree = mock.Mock()
        tree.tried.side_effect = lambda name, _number: (name == "one", f"of {name}")
        status, said = self.ran([], lambda *_: tree)
        self.assertEqual((status, said[-1]), (1, "1 seen, 1 not seen"))
        status, said = self.ran(["--sample", "a", "one"], lambda *_: tree)
        self.assertEqual((status, said[-1]), (0, "1 seen, 0 not seen"))

    def test_files_that_fail_as_they_stand_are_told(self):
        def fail(*_):
            raise ValueError("it fails as it stands")

        status, said = self.ran([], fail)
        self.assertEqual((status, said), (1, ["nothing is tried: it fails as it stands", "0 seen, 1 not seen"]))


if __name__ == "__main__":
    unittest.main()
