"""Tests that the library is taken first, that the program is then made in that repository, and proved if asked for."""
import os
import pathlib
import tempfile
import unittest
from unittest import mock

import own_repository


def commands(steps):
    return [it[1] for it in steps if it[0] == "run"]


class Plan(unittest.TestCase):
    def test_the_library_comes_first_and_the_program_into_its_repository(self):
        first, program, later = own_repository.plan(False)
        self.assertEqual([first[0], program[0], later[0]], [".", own_repository.OWN, "."])
        self.assertTrue(any("tools/take.sh" in it for it in commands(first[1])))
        self.assertIn(f"git init -q {own_repository.OWN}", commands(first[1]))
        self.assertTrue(any("rt try" in it for it in commands(program[1])))
        self.assertTrue(any("tools/take.sh" in it for it in commands(later[1])))

    def test_what_is_printed_is_looked_at(self):
        first, program, _ = own_repository.plan(False)
        self.assertTrue(any(it[0] == "run" and it[2] for it in first[1]))
        self.assertTrue(any(it[0] == "run" and it[2] for it in program[1]))

    def test_a_proof_is_made_only_when_asked_for(self):
        proofs = [[it for it in commands(own_repository.plan(it)[2][1]) if "rt ci" in it] for it in (False, True)]
        self.assertEqual([len(it) for it in proofs], [0, 1])

    def test_the_proof_names_no_crate_which_rt_refuses_in_a_gate(self):
        proofs = [it for it in commands(own_repository.plan(True)[2][1]) if "rt ci" in it]
        self.assertEqual(proofs, [f"(cd {own_repository.OWN} && rt ci)"])


class Kept(unittest.TestCase):
    def test_a_store_has_a_crate_if_its_entry_is_no_older_than_the_library(self):
        with tempfile.TemporaryDirectory() as room, mock.patch.object(own_repository, "ROOT", room):
            self.assertFalse(own_repository.is_kept(f"{room}/store", "locks"))
            built = pathlib.Path(room, "crates/locks/out/rlib/locks.rlib")
            entry = pathlib.Path(room, "store/proof-locks-1")
            for it in (built, entry):
                it.mkdir(parents=True)
            (built / "format").write_text("")
            for seconds, is_kept in ((-1, False), (0, True), (1, True)):
                moment = os.path.getmtime(built / "format") + seconds
                os.utime(entry, (moment, moment))
                self.assertEqual(own_repository.is_kept(f"{room}/store", "locks"), is_kept)


if __name__ == "__main__":
    unittest.main()
