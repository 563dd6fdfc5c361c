"""How edits of Rattle that a test must see are made, chosen and judged."""
import tempfile
import unittest
from unittest import mock

import seen_by_tests
from kit import rt

PASSED = "test one::a ... ok\ntest one::b ... ok\n\ntest result: ok. 2 passed; 0 failed\nchecked: ended status=0\n"
FAILED = "test one::a ... ok\ntest one::b ... FAILED\n\ntest result: FAILED. 1 passed; 1 failed\n"


class Edits(unittest.TestCase):
    def test_each_edit_can_be_made_and_its_tests_are_there(self):
        crates = {it.name: it for it in rt.rtlib.crates_below(seen_by_tests.ROOT)}
        found = seen_by_tests.names()
        self.assertGreater(len(found), 15)
        for name in found:
            with self.subTest(name):
                self.assertTrue(all(it.startswith("src/") for it in seen_by_tests.made(name)))
                text = seen_by_tests.text_of(name)
                by = seen_by_tests.seen_by(name, text)
                self.assertTrue(by == seen_by_tests.STOPS or crates[by].has_tests())
                words = ("file: ", "old: ", "new:", "by: ", "by chance")
                self.assertEqual([it for it in text.splitlines() if not it.startswith(words)], [])

    def test_a_crates_own_tests_see_an_edit_unless_it_names_others(self):
        self.assertEqual(seen_by_tests.seen_by("permit/one", "file: src/lib.rt\n"), "permit")
        self.assertEqual(seen_by_tests.seen_by("permit/one", "by: test_threads\nfile: src/lib.rt\n"), "test_threads")


class Samples(unittest.TestCase):
    def test_a_seed_decides_the_order_and_what_is_seen_by_chance_or_elsewhere_has_no_part(self):
        lines = ("by chance\n", "by: test_threads\n", "", "", "")
        texts = {f"permit/{it}": lines[it % 5] for it in range(50)}
        with mock.patch.object(seen_by_tests, "text_of", texts.__getitem__):
            orders = [seen_by_tests.in_order(texts, seed) for seed in ("a", "a", "b")]
        self.assertEqual(orders[0], orders[1])
        self.assertNotEqual(orders[0], orders[2])
        self.assertEqual(sorted(orders[0]), sorted(it for it in texts if not texts[it]))


class Runs(unittest.TestCase):
    def test_the_tests_that_failed_are_named(self):
        self.assertEqual(seen_by_tests.failures(PASSED), set())
        self.assertEqual(seen_by_tests.failures(FAILED), {"one::b"})

    def test_where_no_test_ran_nothing_is_known(self):
        for said in ("", "src/lib.rt:1:1: error[e]: no\nrun=none proved=no\n"):
            with self.assertRaisesRegex(ValueError, "no test ran"):
                seen_by_tests.failures(said)


class Verdicts(unittest.TestCase):
    def tried(self, said, before=PASSED, edit="permit/one"):
        """What is said of an edit whose tests say this, and those without it something else."""
        def run(crate, tree):
            self.assertEqual(crate, "permit")
            return before if tree.endswith("base") else said

        with tempfile.TemporaryDirectory() as room:
            with mock.patch.object(seen_by_tests.Trials, "copied", lambda self, name: f"{room}/{name}"):
                with mock.patch.object(seen_by_tests, "made", lambda name: {}):
                    with mock.patch.object(seen_by_tests, "text_of", lambda name: ""):
                        return seen_by_tests.Trials(room, run).tried(edit)

    def test_a_test_that_fails_sees_the_edit(self):
        is_seen, said = self.tried(FAILED)
        self.assertTrue(is_seen)
        self.assertRegex(said, r"^seen in \d+ s: permit/one: by one::b of permit$")

    def test_no_test_that_fails_sees_nothing(self):
        is_seen, said = self.tried(PASSED)
        self.assertFalse(is_seen)
        self.assertRegex(said, r"^NOT SEEN in \d+ s: permit/one$")

    def test_a_test_that_fails_without_the_edit_sees_nothing(self):
        self.assertFalse(self.tried(FAILED, before=FAILED)[0])

    def test_an_edit_that_is_not_built_is_bad(self):
        is_seen, said = self.tried("error[e0308]: mismatched types\n")
        self.assertFalse(is_seen)
        self.assertTrue(said.startswith(f"{seen_by_tests.BAD}: permit/one: no test ran: error"))


if __name__ == "__main__":
    unittest.main()
