#!/usr/bin/env python3
"""Tries the wrong bodies of the callers in other languages and of the recorder:
checks/wrong_callers.py [--sample SEED] [--core FILE] [--jobs N] [CALLER | CALLER/NAME..]

No proof covers bindings/java, pthread, python and rust, so tests must see what is wrong there. Each edit
bindings/CALLER/wrong-bodies/NAME.edit is made on a copy, and the tests run that `make -C bindings check` runs for this
caller, until one fails (bindings/check.py --until-one-fails). One that no test sees is tried twice more, since threads
meet otherwise in each run. An edit that still none sees fails, and so does one that can't be made or built. First the
files as they stand must pass, but not in a sample, before which bindings.py has shown that. A caller for which the
machine has no tools is left out, and told. Those of C++ are among the wrong bodies of C (wrong_c.py).

--sample SEED   begins none after 45 seconds of processor time; the seed, which is the commit's hash, decides which
--core FILE     the proved library, if it is not crates/aqs_c/out/libaqs_c.a
--jobs N        how many are tried at a time

The last line is 'N seen, M not seen'.
"""
import os
import re
import shutil
import sys

import edits
from edits import BINDINGS, FOLDER, ROOT

# Each caller, and the tools that its tests need beside those of C.
CALLERS = {"java": ("javac", "java"), "pthread": (), "python": (), "rust": ("cargo",)}
SAMPLE = 45  # seconds of processor time
JOBS = 2
SECONDS = 1800  # of all tests of a caller. Each has a limit of its own
PROGRAM = ROOT / "crates" / "aqs" / "out" / "aqs"
FAILED = re.compile(r"(?m)^FAILED: (.*)$")
COUNTED = re.compile(r"\d+ passed, \d+ failed")
BUILT = re.compile(r" (is|are) built$")
# The line that says most in what a failed test prints, in the words of each language. Else the last one does.
TELLING = re.compile(r"(?m)^((FAIL|ERROR): |---- .* ----$|.*(AssertionError|not so: )|test/\S+:\d+: ).*")
WIDEST = 200


def fault_in(told):
    """Returns which test failed in what check.py printed, with a line that it said, or None. What isn't built raises
    ValueError, and so does a run that counted nothing."""
    lines = told.strip().splitlines()
    if not lines or not COUNTED.fullmatch(lines[-1]):
        raise ValueError(f"check.py broke off: {edits.last_line(told)}")
    failed = FAILED.search(told)
    if not failed:
        return None
    more = told[failed.end() : told.rindex(lines[-1])]
    telling = TELLING.search(more)
    said = f"{failed[1]}: {telling[0] if telling else edits.last_line(more)}"[:WIDEST]
    if BUILT.search(failed[1]):
        raise ValueError(said)
    return said


class Tree(edits.Tree):
    """The callers over a library that is built once. Each edit is tried in a copy of its caller."""

    def __init__(self, room, core):
        super().__init__(room, core)
        self.base = self.room / "base"
        (self.base / "bindings").mkdir(parents=True)
        self.copied(BINDINGS / "c", self.base / "bindings" / "c")
        is_made, said = self.made(self.base / "bindings" / "c")
        if not is_made:
            raise ValueError(f"the library is not built: {said}")

    def copy_of(self, caller, to):
        """Makes a tree with a copy of a caller, in which all else is as it stands."""
        (to / "bindings").mkdir(parents=True)
        (to / "checks").symlink_to(ROOT / "checks")
        (to / "bindings" / "c").symlink_to(self.base / "bindings" / "c")
        shutil.copy2(BINDINGS / "check.py", to / "bindings")
        self.copied(BINDINGS / caller, to / "bindings" / caller, "target")
        if caller != "pthread":  # whose tests check.py imports
            (to / "bindings" / "pthread").symlink_to(BINDINGS / "pthread")
        return to

    def fault(self, copy, caller):
        """Returns which test of a caller fails in a copy, with what it says, or None."""
        words = [sys.executable, "-B", copy / "bindings" / "check.py", "--until-one-fails", caller]
        program = os.environ.get("AQS", str(PROGRAM))
        _, told = edits.output(words, copy, SECONDS, CORE=self.core, AQS=program)
        return fault_in(told)

    def found(self, name):
        caller, _, edit = name.partition("/")
        return BINDINGS / caller / FOLDER / f"{edit}.edit", BINDINGS / caller

    def copy(self, name, number):
        return self.copy_of(name.split("/")[0], self.room / f"{name.replace('/', '.')}.{number}")

    def seen_by(self, copy, name, path, text):
        caller = name.split("/")[0]
        if path.endswith(".py"):
            try:
                compile(text, path, "exec")
            except SyntaxError as error:
                raise ValueError(str(error)) from error
        (copy / "bindings" / caller / path).write_text(text)
        return self.fault(copy, caller)


def tools_lack(caller):
    return [it for it in CALLERS[caller] if not shutil.which(it)]


def of_caller(caller):
    """Returns the edits of a caller, as CALLER/NAME. There are none to try if the machine lacks its tools."""
    if tools_lack(caller):
        print(f"left out: {caller}: {', '.join(tools_lack(caller))} is missing", flush=True)
        return []
    return [f"{caller}/{it.stem}" for it in sorted((BINDINGS / caller / FOLDER).glob("*.edit"))]


def names_of(words):
    """Returns the edits that words stand for: a caller for all of its own."""
    return [name for it in words or CALLERS for name in (of_caller(it) if it in CALLERS else [it])]


def made(room, core, names, is_sample):
    """Returns a tree whose callers pass their tests as they stand."""
    tree = Tree(room, core)
    for caller in sorted({it.split("/")[0] for it in names} & {*CALLERS} if not is_sample else ()):
        said = tree.fault(tree.copy_of(caller, tree.room / caller), caller)
        if said:
            raise ValueError(f"{caller} as it stands fails: {said}")
    return tree


def processor_time():
    """Returns the processor time of all commands that have ended."""
    used = os.times()
    return used.children_user + used.children_system


if __name__ == "__main__":
    sys.exit(edits.main(sys.argv[1:], __doc__, names_of, made, SAMPLE, processor_time, JOBS))
