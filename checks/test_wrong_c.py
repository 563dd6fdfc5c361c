"""How wrong bodies of the C side are judged. `test_edits.py` has what they share with others."""
import pathlib
import tempfile
import unittest

import edits
import wrong_c


class Edits(unittest.TestCase):
    def test_each_edit_can_be_made(self):
        names = wrong_c.names_of([])
        self.assertGreater(len(names), 60)
        for name in names:
            with self.subTest(name):
                text = (wrong_c.EDITS / f"{name}.edit").read_text()
                path, _ = edits.edited(text, lambda path: (wrong_c.C / path).read_text())
                self.assertIn(path, ("aqs.c", "aqs_over.c", "aqs.hpp"))


class FakeTree(wrong_c.Tree):
    """A tree whose tests are shell scripts."""

    def __init__(self, room, scripts):
        self.room, self.scripts = pathlib.Path(room), scripts

    def made(self, folder, target):
        script = self.scripts.get(pathlib.Path(target).name)
        if script is None:
            return False, "no rule"
        path = pathlib.Path(folder, target)
        path.parent.mkdir(exist_ok=True)
        path.write_text(f"#!/bin/sh\n{script}\n")
        path.chmod(0o755)
        return True, ""


class Verdicts(unittest.TestCase):
    def fault(self, scripts, tests):
        with tempfile.TemporaryDirectory() as room:
            return FakeTree(room, scripts).fault(pathlib.Path(room), tests)

    def test_the_first_test_that_fails_is_named(self):
        scripts = {"good": "exit 0", "bad": "echo why; exit 1"}
        self.assertEqual(self.fault(scripts, ("good", "bad", "missing")), "bad: why")

    def test_no_test_that_fails_is_no_fault(self):
        self.assertIsNone(self.fault({"good": "test \"$1\" = kept && test -d kept"}, ("good FOLDER",)))

    def test_a_test_that_is_not_built_says_nothing(self):
        with self.assertRaisesRegex(ValueError, "missing is not built"):
            self.fault({}, ("missing",))


if __name__ == "__main__":
    unittest.main()
