"""Tests that tools/take.sh takes what a crate needs, updates it, and refuses without a change what it must."""
import os
import pathlib
import shutil
import signal
import subprocess
import tempfile
import unittest

TAKE = pathlib.Path(__file__).resolve().parent.parent / "tools" / "take.sh"
LINES = "# Below.\nlow: slab\nmiddle: low\n\nlocks: middle low  # the head\nprogram: locks\nparts staticlib: low\n"


def write(path, text):
    path = pathlib.Path(path)
    path.parent.mkdir(parents=True, exist_ok=True)
    path.write_text(text, encoding="utf-8")


def tree(top):
    """Returns the files below a folder with their texts, but for those of git."""
    files = (it for it in pathlib.Path(top).rglob("*") if it.is_file() and ".git" not in it.parts)
    return {str(it.relative_to(top)): it.read_text(encoding="utf-8") for it in files}


class Taking(unittest.TestCase):
    def setUp(self):
        room = tempfile.TemporaryDirectory(prefix="take-")
        self.addCleanup(room.cleanup)
        self.source, self.own = pathlib.Path(room.name, "source"), pathlib.Path(room.name, "my own")
        for name in ("low", "middle", "locks", "program", "parts"):
            write(self.source / f"crates/{name}/src/lib.rt", f"// {name}\n")
            write(self.source / f"crates/{name}/out/kept", "made by rt")
        write(self.source / "crates.txt", LINES)
        for name in ("HANDLES", "LICENSE-MIT", "LICENSE-APACHE"):
            write(self.source / name, "Handles allowed: Threads, Wait.\n")
        os.mkdir(self.source / "tools")
        for name in (TAKE, TAKE.with_name("needed.sh")):
            shutil.copy(name, self.source / "tools")
        subprocess.run(["git", "init", "-q", self.own], check=True)
        shutil.copy(self.source / "HANDLES", self.own)
        write(self.own / "crates.txt", "# Mine.\nmine: locks\n")

    def take(self, *words):
        return subprocess.run(
            [self.source / "tools/take.sh", *(words or ["my own"])], capture_output=True, text=True, timeout=60,
            cwd=self.own.parent,
        )

    def taken(self, *words):
        ran = self.take(*words)
        self.assertEqual((ran.returncode, ran.stderr), (0, ""))
        return ran.stdout

    def refused(self, why, *words):
        before = tree(self.own)
        ran = self.take(*words)
        self.assertEqual(ran.returncode, 1)
        self.assertIn(why, ran.stderr)
        self.assertEqual((ran.stderr.count("\n"), ran.stdout, tree(self.own)), (1, "", before))


class Copies(Taking):
    def test_a_crate_and_what_it_needs_with_their_lines(self):
        self.assertIn("take: locks and all that it needs\ntake: 3 crates\n", self.taken())
        names = {f"crates/{name}/src/lib.rt" for name in ("low", "middle", "locks")}
        self.assertEqual({it for it in tree(self.own) if it.startswith("crates/")}, names)
        lines = (self.own / "crates.txt").read_text().split("\n")
        self.assertEqual(lines[:2], ["# Mine.", "mine: locks"])
        self.assertEqual(lines[3:6], ["locks: middle low", "low: slab", "middle: low"])

    def test_the_sums_are_those_of_the_files(self):
        self.taken()
        ran = subprocess.run(["sha256sum", "--check", "--quiet", "tunicschist/VERSION"], cwd=self.own)
        self.assertEqual(ran.returncode, 0)
        self.assertTrue((self.own / "tunicschist/LICENSE-MIT").is_file())

    def test_into_the_folder_in_which_it_is_called(self):
        ran = subprocess.run([self.source / "tools/take.sh", "."], cwd=self.own, capture_output=True, text=True)
        self.assertEqual((ran.returncode, ran.stderr), (0, ""))

    def test_another_crate_than_locks(self):
        self.taken(self.own, "parts")
        self.assertIn("\nparts staticlib: low\n", (self.own / "crates.txt").read_text())

    def test_again_changes_nothing(self):
        self.taken()
        first = tree(self.own)
        self.taken()
        self.assertEqual(tree(self.own), first)


class Updates(Taking):
    def test_files_that_changed_came_and_went(self):
        self.taken()
        write(self.own / "crates/mine/src/main.rt", "// mine\n")
        write(self.source / "crates/low/src/lib.rt", "// lower\n")
        write(self.source / "crates/low/src/more.rt", "// more\n")
        write(self.source / "crates.txt", LINES.replace("middle low ", "low "))
        self.taken()
        found = tree(self.own)
        self.assertEqual(found["crates/low/src/lib.rt"], "// lower\n")
        self.assertEqual(found["crates/mine/src/main.rt"], "// mine\n")
        self.assertIn("crates/low/src/more.rt", found)
        self.assertNotIn("crates/middle/src/lib.rt", found)
        self.assertNotIn("middle", found["crates.txt"])

    def test_what_a_check_kept_there_is_no_change(self):
        self.taken()
        write(self.own / "crates/low/out/kept", "made by rt")
        self.taken()
        self.assertTrue((self.own / "crates/low/out/kept").is_file())

    def test_a_run_that_was_cut_off_is_completed(self):
        self.taken()
        whole = tree(self.own)
        ready = self.own / ".tunicschist.ready"
        for name in ("crates/low", "crates/locks"):
            shutil.copytree(self.own / name, ready / name)
        shutil.rmtree(self.own / "crates/low")
        shutil.move(self.own / "crates.txt", ready / "crates.txt")
        shutil.move(self.own / "tunicschist", ready / "tunicschist")
        write(self.own / "crates.txt", "# Mine.\nmine: locks\n")
        write(ready / "gone", "")
        self.taken()
        self.assertEqual(tree(self.own), whole)

    def test_a_run_that_is_killed_anywhere_leaves_what_the_next_completes(self):
        self.taken()
        whole = tree(self.own)
        for milliseconds in range(4, 200, 14):
            ran = subprocess.Popen(
                [self.source / "tools/take.sh", self.own], stdout=subprocess.DEVNULL, stderr=subprocess.DEVNULL,
                start_new_session=True,
            )
            try:
                ran.wait(milliseconds / 1000)
            except subprocess.TimeoutExpired:
                os.killpg(ran.pid, signal.SIGKILL)
                ran.wait()
            self.taken()
            self.assertEqual(tree(self.own), whole)


class Refusals(Taking):
    def test_wrong_words(self):
        for words in ([], ["--help"], [self.own, "locks", "more"], [self.own, "../locks"]):
            ran = subprocess.run([self.source / "tools/take.sh", *words], capture_output=True, text=True)
            self.assertEqual((ran.returncode, ran.stderr), (2, "usage: tools/take.sh DIR [CRATE]\n"))

    def test_no_such_folder_or_crate(self):
        self.refused("there is no folder", self.own / "nowhere")
        self.refused("there is no crate slab", self.own, "slab")

    def test_a_folder_that_is_no_repository_of_the_kit(self):
        os.rename(self.own / ".git", self.own / "git")
        self.refused("is not the top of a git repository")
        os.rename(self.own / "git", self.own / ".git")
        os.remove(self.own / "HANDLES")
        self.refused("does not allow Threads and Wait")
        os.remove(self.own / "crates.txt")
        self.refused("has no crates.txt")

    def test_this_repository(self):
        self.refused("lies in the repository that is to be taken", self.source)

    def test_a_crate_of_the_same_name(self):
        write(self.own / "crates/low/src/lib.rt", "// not from there\n")
        self.refused("crates/low is there, and was not taken from here")
        shutil.rmtree(self.own / "crates")
        write(self.own / "crates.txt", "low: slab\n")
        self.refused("has a crate low of its own")

    def test_what_was_changed_added_or_removed_since(self):
        self.taken()
        write(self.own / "crates/low/src/lib.rt", "// mended\n")
        self.refused("crates/low/src/lib.rt was changed since it was taken")
        write(self.own / "crates/low/src/lib.rt", "// low\n")
        write(self.own / "crates/low/src/own.rt", "// mine\n")
        self.refused("crates/low/src/own.rt was added to a crate that was taken")
        os.remove(self.own / "crates/low/src/own.rt")
        os.remove(self.own / "crates/middle/src/lib.rt")
        self.refused("crates/middle/src/lib.rt was changed since it was taken")

    def test_lines_that_were_changed(self):
        self.taken()
        lines = (self.own / "crates.txt").read_text()
        write(self.own / "crates.txt", lines.replace("low: slab", "low: slab itoa"))
        self.refused("the lines between the marks")
        write(self.own / "crates.txt", lines.replace("# End of Tunicschist\n", ""))
        self.refused("of the two marks")
        write(self.own / "crates.txt", lines)
        os.remove(self.own / "tunicschist/VERSION")
        self.refused("tunicschist/VERSION is gone")


if __name__ == "__main__":
    unittest.main()
