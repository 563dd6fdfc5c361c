"""Tests that tools/loop.py writes the invariants that the examples are proved with, and refuses what it cannot write."""
import pathlib
import subprocess
import sys
import tempfile
import unittest

TOP = pathlib.Path(__file__).resolve().parent.parent
LOOP = TOP / "tools" / "loop.py"
sys.path.insert(0, str(TOP / "tools"))
import loop

# Functions whose proofs have no other invariants than those that the program writes.
PROVED = (
    ("example_loops", "rounds::add_often"), ("example_loops", "told::work"), ("example_loops", "changed::take"),
    ("example_loops", "working::take"), ("example_loops", "working::work"), ("example_loops", "submitting::submit_each"),
    ("example_barrier", "barrier::Barrier::wait_for"), ("example_barrier", "visit_often"),
)

HEAD = """fn go<R: Wait>(rt: &R, parking: &ThreadParking, door: &Mutex<u8>, own: &mut Pass)
    requires { CanLock door.now parking.now own.old }
{
"""


class Written(unittest.TestCase):
    def test_what_the_examples_are_proved_with(self):
        for crate, path in PROVED:
            with self.subTest(path):
                folder = TOP / "crates" / crate
                file = folder.joinpath("proofs", *path.split("::"), "Invariants.antt")
                source = loop.source_of(folder, path).read_text(encoding="utf-8")
                self.assertEqual(loop.invariants(crate, path, source), file.read_text(encoding="utf-8"))

    def test_a_loop_with_a_variable_over_an_endless_iterator(self):
        said = loop.invariants("mine", "go", HEAD + "    for nth in rt.forever() {\n        step(rt, door);\n    }\n}\n")
        self.assertIn("invariant-loop-nth g l =\n    (goal.iterator-loop-nth g).can_next l.nth-iterator ×", said)
        self.assertIn("× CanLock l.fn.door l.fn.parking l.own\n", said)

    def test_a_guard_within_another_loop_is_not_kept(self):
        first = "    for _ in 0..2 {\n        let mut guard = Mutex::lock(own, door, rt, parking)?;\n    }\n"
        said = loop.invariants("mine", "go", HEAD + first + "    for nth in 0..3 {\n        step(rt, door);\n    }\n}\n")
        self.assertNotIn("Guards", said)
        self.assertEqual(said.count("= CanLock l.fn.door l.fn.parking l.own\n"), 2)


class Program(unittest.TestCase):
    def run_in(self, room, *words):
        return subprocess.run([sys.executable, "-B", LOOP, *words], cwd=room, capture_output=True, text=True)

    def test_it_writes_a_file_once_and_never_replaces_it(self):
        with tempfile.TemporaryDirectory() as room:
            source = pathlib.Path(room, "mine/src/main.rt")
            source.parent.mkdir(parents=True)
            source.write_text((TOP / "crates/example_loops/src/rounds.rt").read_text(encoding="utf-8"))
            file = pathlib.Path(room, "mine/proofs/add_often/Invariants.antt")
            self.assertEqual(self.run_in(room, "mine", "add_often").returncode, 0)
            self.assertIn("use Rattle.mine.proofs.add_often.Given as goal\n", file.read_text(encoding="utf-8"))
            file.write_text("own\n")
            self.assertIn("is there", self.run_in(room, "mine", "add_often").stderr)
            self.assertEqual(file.read_text(), "own\n")

    def test_what_it_cannot_write_it_says(self):
        with tempfile.TemporaryDirectory() as room:
            source = pathlib.Path(room, "mine/src/main.rt")
            source.parent.mkdir(parents=True)
            source.write_text("fn go(\n    number: u64,\n)\n{\n}\n")
            for path, why in (("stay", "no function"), ("go", "no CanLock"), ("other::go", "there is no")):
                ran = self.run_in(room, "mine", path)
                self.assertEqual((ran.returncode, ran.stdout), (1, ""))
                self.assertIn(why, ran.stderr)


if __name__ == "__main__":
    unittest.main()
