#!/usr/bin/env python3
"""Tries the wrong bodies of the C side: checks/wrong_c.py [--sample SEED] [--core FILE] [--jobs N] [NAME..]

No proof covers bindings/c/aqs.c, aqs_over.c and aqs.hpp, so tests must see what is wrong there. Each edit
bindings/c/wrong-bodies/NAME.edit is made on a copy, which is built over the proved library, and the tests run until
one fails: those in C++ for aqs.hpp, and those in C for the others. One that no test sees is tried twice more, since
threads meet otherwise in each run. An edit that still none sees fails, and so does one that can't be made or built.
First the files as they stand must pass each test.

--sample SEED   tries as many as go into a minute and a half; the seed, which is the commit's hash, decides which
--core FILE     the proved library, if it is not crates/aqs_c/out/libaqs_c.a
--jobs N        how many are tried at a time

The last line is 'N seen, M not seen'.
"""
import sys

import edits
from edits import BINDINGS, FOLDER

C = BINDINGS / "c"
EDITS = C / FOLDER
SAMPLE = 90  # seconds
TEST_SECONDS = 620  # more than any test has before its own alarm
# The tests with the words that they get, those first that say most in the least time. FOLDER takes histories.
TESTS = (
    "answers", "memory", "wakes", "statuses", "seats", "thread_numbers", "or_abort", "over", "interrupts", "limits",
    "histories", "range", "named FOLDER", "gates", "crowded", "bounded FOLDER", "eintr", "handlers", "forks", "crowd",
    "calls FOLDER", "times", "closes", "waits", "stops", "storms FOLDER 4 200", "storms FOLDER 16 60",
)
TESTS_OF_CPP = ("members", "guards FOLDER", "durations", "plain", "any", "bounded_cpp FOLDER", "statics")


class Tree(edits.Tree):
    """The tests, built but for aqs.c. Each edit is tried in a copy."""

    def __init__(self, room, core):
        super().__init__(room, core)
        self.base = self.copied(C, self.room / "base")

    def fault(self, folder, tests=TESTS):
        """Returns which test of a copy fails, with what it says, or None. It builds each test as its turn comes."""
        (folder / "kept").mkdir(exist_ok=True)
        for words in tests:
            name, *rest = words.split()
            is_made, said = self.made(folder, f"out/{name}")
            if not is_made:
                raise ValueError(f"{name} is not built: {said}")
            rest = ["kept" if it == "FOLDER" else it for it in rest]
            passed, said = edits.run([folder / "out" / name, *rest], folder, TEST_SECONDS)
            if not passed:
                return f"{name}: {said}"
        return None

    def found(self, name):
        return EDITS / f"{name}.edit", C

    def copy(self, name, number):
        return self.copied(self.base, self.room / f"{name}.{number}")

    def seen_by(self, copy, name, path, text):
        (copy / path).write_text(text)
        return self.fault(copy, TESTS_OF_CPP if path == "aqs.hpp" else TESTS)


def names_of(words):
    return words or sorted(it.stem for it in EDITS.glob("*.edit"))


def made(room, core, _names, _is_sample):
    """Returns a tree whose files pass their tests as they stand."""
    tree = Tree(room, core)
    said = tree.fault(tree.base, (*TESTS, *TESTS_OF_CPP))
    if said:
        raise ValueError(f"the file as it stands fails: {said}")
    return tree


if __name__ == "__main__":
    sys.exit(edits.main(sys.argv[1:], __doc__, names_of, made, SAMPLE))
