"""Tests of the ledger: a line stands for one wrong body, and for one state of all that its refusal depends on."""
import os
import tempfile
import types
import unittest
from unittest import mock

import ledger
import wrong_bodies
from trial import Result

SOURCE = """\
pub fn one() -> u32
    ensures { result ≡ 1 }
{
    1
}

pub fn two() -> u32
    ensures { result ≡ 2 }
{
    2
}
"""
EDIT = "file: src/lib.rt\nold:     1\nnew:     3\n"
INTERFACE = """\
impl Clock {
pub fn now ( & self ) -> u64
    ensures { } ;
}
"""
WHOLE = """\
impl Clock {
# [ inline ( always ) ] pub fn now ( & self ) -> u64
    ensures { result ≡ self.now } ;
# [ cold ] fn wind ( & mut self )
    ensures { self.new ≡ 0 } ;
}
"""


class Lines(unittest.TestCase):
    def setUp(self):
        room = tempfile.TemporaryDirectory()
        self.addCleanup(room.cleanup)
        self.root = room.name
        for name in ("low", "high"):
            self.write(f"{name}/src/lib.rt", SOURCE)
            self.write(f"{name}/proofs/one/Answers.antt", "one")
            self.write(f"{name}/proofs/two/Answers.antt", "two")
            self.write(f"{name}/out/{name}.rlib/lang/src/lib.rt", "contracts")
            self.write(f"{name}/out/{name}.rlib/lang/antt/proofs/Lemmas.antt", "lemmas")
            self.write(f"{name}/out/{name}.rlib/lang/antt/proofs/one/Answers.antt", "one")
        self.write("high/wrong-bodies/one.is_three.edit", EDIT)
        self.low = self.crate("low", [])
        self.high = self.crate("high", [self.low])
        for name in ("kit_sum", "judges_sum"):
            made = mock.patch.object(ledger, name, lambda: b"same")
            made.start()
            self.addCleanup(made.stop)

    def write(self, path, text):
        os.makedirs(os.path.dirname(f"{self.root}/{path}"), exist_ok=True)
        with open(f"{self.root}/{path}", "w", encoding="utf-8") as it:
            it.write(text)

    def crate(self, name, below):
        folder = f"{self.root}/{name}"
        return types.SimpleNamespace(
            name=name, folder=folder, rlib=f"{folder}/out/{name}.rlib", said={"name": name}, is_program=False,
            of_kit=["std"], below=lambda: below,
        )

    def sum(self):
        [made] = ledger.sums(self.high, {}).values()
        return made

    def changes(self, path, text):
        """Returns whether a file's new text changes the wrong body's sum."""
        before = self.sum()
        self.write(path, text)
        return self.sum() != before

    def test_what_a_refusal_depends_on_changes_its_sum(self):
        self.assertTrue(self.changes("high/src/lib.rt", SOURCE.replace("    1\n", "    1 + 0\n    1\n")))
        self.write("high/src/lib.rt", SOURCE)
        self.assertTrue(self.changes("high/proofs/one/Answers.antt", "another"))
        self.assertTrue(self.changes("high/out/high.rlib/lang/src/lib.rt", "other contracts"))
        self.assertTrue(self.changes("low/out/low.rlib/lang/src/lib.rt", "other contracts"))
        self.assertTrue(self.changes("low/out/low.rlib/lang/antt/proofs/Lemmas.antt", "other lemmas"))
        self.assertTrue(self.changes("high/wrong-bodies/one.is_three.edit", EDIT.replace("3", "4")))

    def test_another_function_and_its_proof_change_nothing(self):
        self.assertFalse(self.changes("high/src/lib.rt", SOURCE.replace("    2\n", "    4 - 2\n")))
        self.assertFalse(self.changes("high/proofs/two/Answers.antt", "another"))
        self.assertFalse(self.changes("low/src/lib.rt", SOURCE.replace("    2\n", "    4 - 2\n")))
        self.assertFalse(self.changes("low/out/low.rlib/lang/antt/proofs/one/Answers.antt", "another"))

    def test_of_a_crate_below_only_what_is_public_counts(self):
        self.write("low/out/low.rlib/interface/lang/src/lib.rt", INTERFACE)
        path = "low/out/low.rlib/lang/src/lib.rt"
        self.write(path, WHOLE)
        self.assertFalse(self.changes(path, WHOLE.replace("self.new ≡ 0", "self.new ≡ 1")))
        self.assertFalse(self.changes(path, WHOLE.replace("# [ inline ( always ) ] ", "")))
        self.assertTrue(self.changes(path, WHOLE.replace("result ≡ self.now", "result ≡ 0")))
        self.assertTrue(self.changes("low/out/low.rlib/interface/lang/src/lib.rt", INTERFACE.replace("now", "then")))

    def test_of_a_wrong_bodys_own_crate_all_contracts_count(self):
        self.write("high/out/high.rlib/interface/lang/src/lib.rt", INTERFACE)
        path = "high/out/high.rlib/lang/src/lib.rt"
        self.write(path, WHOLE)
        self.assertTrue(self.changes(path, WHOLE.replace("self.new ≡ 0", "self.new ≡ 1")))

    def test_a_kit_with_another_logic_changes_the_sum_and_one_with_the_same_does_not(self):
        mock.patch.stopall()
        kits = ("kit-a logic 1", "kit-b logic 1", "kit-a logic 2")
        with mock.patch.object(ledger, "kit", side_effect=kits):
            made = [ledger.kit_sum() for _ in kits]
        self.assertEqual(made[0], made[1])
        self.assertNotEqual(made[0], made[2])

    def test_a_kit_is_known_by_its_whole_line(self):
        self.write("kits.txt", "# kits\nkit-a logic 1\n")
        with mock.patch.object(ledger, "KITS", f"{self.root}/kits.txt"):
            for name, known in (("kit-a logic 1", True), ("kit-a", False), ("kit-b logic 1", False)):
                with mock.patch.object(ledger, "kit", lambda: name):
                    self.assertEqual(ledger.is_tried_with(), known)

    def test_a_program_and_functions_that_share_a_proof_are_read_whole(self):
        self.write("high/proofs/+both/Proof.antt", "both")
        self.assertTrue(self.changes("high/src/lib.rt", SOURCE.replace("    2\n", "    4 - 2\n")))

    def test_lines_are_read_as_they_were_written(self):
        self.assertEqual(ledger.lines_of(self.high), {})
        lines = {"one.is_three.edit": self.sum(), "another.edit": "0" * 24}
        ledger.write(self.high, lines)
        self.assertEqual(ledger.lines_of(self.high), lines)

    def of(self, lines, results=()):
        return wrong_bodies.Ledger(self.high, ledger.sums(self.high, {}), lines, dict(results))

    def test_a_wrong_body_stands_by_its_line_or_by_a_trial(self):
        [edit] = ledger.sums(self.high, {})
        name = os.path.basename(edit)
        self.assertTrue(self.of({name: self.sum()}).is_refused(edit))
        self.assertFalse(self.of({name: "0" * 24}).is_refused(edit))
        self.assertFalse(self.of({}).is_refused(edit))
        missed = {edit: Result(False, True, "")}
        self.assertFalse(self.of({name: self.sum()}, missed).is_refused(edit))
        self.assertEqual(self.of({name: self.sum()}, missed).renewed(), {})
        limited = {edit: Result(True, True, "", True)}
        self.assertTrue(self.of({}, limited).is_refused(edit))
        self.assertEqual(self.of({}, limited).renewed(), {})
        self.assertEqual(self.of({}, {edit: Result(True, True, "")}).renewed(), {name: self.sum()})

    def test_a_line_of_the_judges_before_stands_until_its_wrong_body_is_tried_again(self):
        [(edit, earlier)] = ledger.earlier_sums(self.high, {"kit": b"same"}).items()
        name = os.path.basename(edit)
        self.assertEqual(len(earlier), len(ledger.EARLIER))
        self.assertNotIn(self.sum(), earlier)
        for made in earlier:
            stands = self.of({name: made})
            stands.earlier = {edit: earlier}
            self.assertTrue(stands.is_refused(edit) and stands.is_of_before(edit))
            self.assertEqual(stands.renewed(), {name: made})
            stands.results[edit] = Result(True, True, "")
            self.assertEqual(stands.renewed(), {name: self.sum()})
            stands.results[edit] = Result(False, True, "")
            self.assertEqual(stands.renewed(), {})
        self.assertFalse(self.of({name: self.sum()}).is_of_before(edit))

    def test_lines_and_wrong_bodies_must_match(self):
        self.assertEqual(len(self.of({}).faults()), 1)
        self.assertEqual(len(self.of({"one.is_three.edit": "", "gone.edit": ""}).faults()), 1)
        self.write("high/wrong-bodies/notes.txt", "")
        self.assertEqual(len(self.of({"one.is_three.edit": ""}).faults()), 1)

    def test_the_seed_decides_the_order_of_a_sample(self):
        for number in range(9):
            self.write(f"high/wrong-bodies/one.is_{number}.edit", EDIT.replace("3", str(number)))
        lines = {os.path.basename(it): made for it, made in ledger.sums(self.high, {}).items()}
        orders = [[it for _, it in wrong_bodies.in_order([self.of(lines)], seed)] for seed in ("a", "a", "b")]
        self.assertEqual(orders[0], orders[1])
        self.assertNotEqual(orders[0], orders[2])
        self.assertEqual(len(orders[0]), 10)


if __name__ == "__main__":
    unittest.main()
