"""How wrong bodies of the callers are found and judged. `test_edits.py` has what they share with others."""
import contextlib
import io
import pathlib
import tempfile
import unittest
from unittest import mock

import edits
import wrong_callers

PASSED = "ok: the library is built\nleft out: one: why\nok: two\n2 passed, 0 failed\n"
FAILED = "ok: the library is built\nFAILED: three\nFAIL: test_it (test_aqs.It)\nFAILED (failures=1)\n\n1 passed, 1 failed\n"


class Edits(unittest.TestCase):
    def test_each_edit_can_be_made(self):
        with mock.patch("shutil.which", return_value="/usr/bin/tool"):
            names = wrong_callers.names_of([])
        self.assertEqual({it.split("/")[0] for it in names}, {*wrong_callers.CALLERS})
        self.assertGreater(len(names), 30)
        tree = wrong_callers.Tree.__new__(wrong_callers.Tree)
        for name in names:
            with self.subTest(name):
                file, folder = tree.found(name)
                edits.edited(file.read_text(), lambda path: (folder / path).read_text())

    def test_words_name_callers_and_edits(self):
        with mock.patch("shutil.which", return_value="/usr/bin/tool"):
            found = wrong_callers.names_of(["rust", "java/one"])
        self.assertEqual(found[-1], "java/one")
        self.assertEqual({it.split("/")[0] for it in found[:-1]}, {"rust"})

    def test_a_caller_without_its_tools_is_left_out(self):
        said = io.StringIO()
        with mock.patch("shutil.which", return_value=None), contextlib.redirect_stdout(said):
            self.assertEqual(wrong_callers.names_of(["rust"]), [])
        self.assertEqual(said.getvalue(), "left out: rust: cargo is missing\n")


class Verdicts(unittest.TestCase):
    def test_no_test_that_fails_is_no_fault(self):
        self.assertIsNone(wrong_callers.fault_in(PASSED))

    def test_the_test_that_fails_is_named_with_what_it_says(self):
        self.assertEqual(wrong_callers.fault_in(FAILED), "three: FAIL: test_it (test_aqs.It)")
        said = "FAILED: four\none\ntwo\n0 passed, 1 failed\n"
        self.assertEqual(wrong_callers.fault_in(said), "four: two")
        self.assertEqual(wrong_callers.fault_in("FAILED: five\n\n0 passed, 1 failed\n"), "five: no word")

    def test_what_is_not_built_says_nothing(self):
        for name in ("the library is built", "the Java tests are built"):
            with self.assertRaisesRegex(ValueError, f"^{name}: error: no$"):
                wrong_callers.fault_in(f"FAILED: {name}\nerror: no\n0 passed, 1 failed\n")

    def test_a_run_that_breaks_off_says_nothing(self):
        for said in ("", "ok: one\nTraceback\nOSError: no\n"):
            with self.assertRaisesRegex(ValueError, "broke off"):
                wrong_callers.fault_in(said)


class Copies(unittest.TestCase):
    def test_only_the_caller_is_a_copy(self):
        with tempfile.TemporaryDirectory() as room:
            tree = wrong_callers.Tree.__new__(wrong_callers.Tree)
            tree.room, tree.core, tree.base = pathlib.Path(room), "core", pathlib.Path(room, "base")
            for caller in wrong_callers.CALLERS:
                copy = tree.copy(f"{caller}/one", 1)
                there = {it.name: it.is_symlink() for it in (copy / "bindings").iterdir()}
                wanted = {"c": True, "check.py": False, "pthread": True, caller: False}
                self.assertEqual(there, wanted)
                self.assertFalse((copy / "bindings" / caller / "wrong-bodies").exists())
                self.assertTrue((copy / "checks" / "rules.py").is_file())

    def test_python_that_is_none_is_not_built(self):
        tree = wrong_callers.Tree.__new__(wrong_callers.Tree)
        with self.assertRaisesRegex(ValueError, "invalid syntax"):
            tree.seen_by(None, "python/one", "aqs/_it.py", "a b\n")


class Trees(unittest.TestCase):
    """Callers pass as they stand before edits are tried, but not in a sample."""

    def made(self, fault, is_sample):
        tree = mock.Mock(room=pathlib.Path("room"))
        tree.fault.side_effect = fault
        with mock.patch.object(wrong_callers, "Tree", return_value=tree):
            return wrong_callers.made("room", "core", ["rust/one", "rust/two", "java/one"], is_sample), tree

    def test_a_caller_that_fails_as_it_stands_is_told(self):
        with self.assertRaisesRegex(ValueError, "rust as it stands fails: a test: why"):
            self.made(lambda _copy, caller: "a test: why" if caller == "rust" else None, False)

    def test_each_caller_is_tested_once(self):
        _, tree = self.made(lambda _copy, _caller: None, False)
        self.assertEqual([it.args[1] for it in tree.fault.call_args_list], ["java", "rust"])

    def test_a_sample_tests_none(self):
        _, tree = self.made(lambda _copy, _caller: "a test: why", True)
        self.assertEqual(tree.fault.call_count, 0)


if __name__ == "__main__":
    unittest.main()
