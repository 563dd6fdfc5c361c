#!/usr/bin/env python3
"""Does what docs/OWN_REPOSITORY.md says: checks/own_repository.py [--prove]      at the top of the repository

It makes an empty repository, takes the library into it by tools/take.sh, and goes through the program of
docs/FIRST_HOUR.md there. The commands are those of the two pages, exactly as they are written: `first_hour.py` says
how they are read. With --prove it proves the program there too, by rt ci, which takes a minute or two, since rt ci has
kept what it proved here. If it kept nothing (some kits don't, and a full disk is another reason), that proof would take
an hour: it is left out, and printed. That rt ci names no crate, since with a name it refuses where the environment says
CI=true.

The last line is 'N passed, M failed', where a command counts as one.
"""
import glob
import os
import re
import sys
import tempfile

import first_hour
from gate import ROOT
from kit import rt

PAGE = first_hour.PAGE.parent / "OWN_REPOSITORY.md"
OWN = "queues"
PROOF = re.compile(r"\brt ci\b")


def is_kept(store, crate):
    """Returns whether a store of proofs has the crate as it was built in this repository: its entry is no older."""
    built = f"{ROOT}/crates/{crate}/out/rlib/{crate}.rlib/format"
    times = [os.path.getmtime(it) for it in glob.glob(f"{store}/proof-{crate}-*")]
    return os.path.isfile(built) and max(times, default=0) >= os.path.getmtime(built)


def plan(proves):
    """Returns what is to be done, in order, each as the folder and its steps. The program is made after section 1."""
    begins, rest = PAGE.read_text(encoding="utf-8").split("\n## 2.", 1)
    program = first_hour.steps_of(first_hour.PAGE.read_text(encoding="utf-8"))
    later = [it for it in first_hour.steps_of(rest) if proves or it[0] != "run" or not PROOF.search(it[1])]
    return [(".", first_hour.steps_of(begins)), (OWN, program), (".", later)]


def main(words):
    if words not in ([], ["--prove"]):
        sys.exit(__doc__)
    passed = failed = 0
    proves = words == ["--prove"] and is_kept(getattr(rt, "STORE", "no store"), "locks")
    if words and not proves:
        print("left out: the proof in the new repository: rt ci kept no proofs on this machine", flush=True)
    with tempfile.TemporaryDirectory(prefix="own-repository-") as room:
        os.symlink(ROOT, f"{room}/tunicschist")
        for folder, steps in plan(proves):
            good, bad = first_hour.followed(steps, f"{room}/{folder}")
            passed, failed = passed + good, failed + bad
            if not good or bad:  # what comes after rests on it, and pages without commands show nothing
                failed = failed or 1
                break
    print(f"{passed} passed, {failed} failed")
    return 1 if failed else 0


if __name__ == "__main__":
    sys.exit(main(sys.argv[1:]))
