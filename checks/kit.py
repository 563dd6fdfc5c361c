"""The kit's rt as a module, so that crates, edits and checks are read here as rt itself reads them."""
import importlib.machinery
import importlib.util
import os
import re
import shutil
import sys
import threading

# What the checks take of rt. A kit that lacks any of these is told at once, and not in the middle of a run.
USED = ("KIT", "checked", "free", "must_fail", "processors", "read_edit", "rtlib")
MEMORY = 2_000_000_000  # of a check
# An error of a proof, with the lines in which the kit goes on with it.
BROKEN = re.compile(r"(?m)^\S+:\d+:\d+: error: .*(?:\n[ \t]+\S.*)+")


def in_whole_lines(text):
    """Returns what a check said with each error in one line: the word that tells its kind may stand in the second."""
    return BROKEN.sub(lambda it: re.sub(r"\s*\n\s+", " ", it[0]), text)


def at_once(rt):
    """Returns how many checks run at the same time."""
    fixed = os.environ.get("RT_JOBS", "")  # as rt ci reads it
    return int(fixed) if fixed.isdigit() else max(1, min(rt.processors(), rt.free() // MEMORY))


def in_turn(checked, most):
    """Returns a check that waits while `most` run, and says each error in one line."""
    turns = threading.BoundedSemaphore(most)

    def check(*words, **more):
        with turns:
            ran = checked(*words, **more)
        ran.stdout = in_whole_lines(ran.stdout)
        return ran

    return check


def load():
    path = os.path.realpath(shutil.which("rt") or "/opt/rattle/bin/rt")
    loader = importlib.machinery.SourceFileLoader("rt", path)
    made = importlib.util.module_from_spec(importlib.util.spec_from_loader("rt", loader))
    sys.modules["rt"] = made
    loader.exec_module(made)
    lacking = [name for name in USED if not hasattr(made, name)]
    if lacking:
        sys.exit(f"checks: {path} has no {', '.join(lacking)}: these checks were written for another kit")
    made.checked = in_turn(made.checked, at_once(made))  # which must_fail calls too
    return made


rt = load()
AT_ONCE = at_once(rt)
# What rt.must_fail returns first: of some kits the kind of the verdict, of others only whether the prover refuses.
REFUSED, AT_LIMIT = getattr(rt, "REFUSED", True), getattr(rt, "AT_LIMIT", None)
