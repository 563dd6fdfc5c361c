#!/usr/bin/env python3
"""All checks from nothing: `.ci/run`, or checks/gate.py [--write].

First what the repository may take (`budget.py`). Then plain rt ci: each proof, each test and program, and the few wrong
bodies of must-fail/. After that, over what it built, the program answers the files of examples/ and cases/
(`examples.py`), and random, spoilt and endless texts, storms of threads and failing devices (`by_program.py`). Threads at
a lock and at a seat are stopped at each step on a word that they share (`stops.py`). Then four steps at the same time. The page of the first hour is followed by the letter (`first_hour.py`), also in a repository
that has only taken the library (`own_repository.py`). The library for C is built, and its callers in other languages
are tested (`bindings.py`). The wrong bodies of wrong-bodies/ are held to their ledger, of which a sample is tried again
(`wrong_bodies.py`). Then the archive of the release is used as users without the kit would, and so is one that is made of
what was built (`archive.py`). A sample of real programs is fetched and run over the library where the network has them (`clients.py`). Last, a sample of the wrong bodies of the C side
is tried, while nothing else runs, since its tests measure times (`wrong_c.py`). The commit's hash decides which, and
which texts. --write writes the ledger's lines anew.

What a step prints goes to a file. The output begins with the last line of each step, how long it took, and of one that
failed what it said of that. Then comes what rt ci printed, and once more what failed.

A clean clone is checked where it is. A tree in which checks have left their out/ is copied without it first. The last
line is 'N passed, M failed' for all of this, and the status is 1 if anything failed.
"""
import glob
import os
import re
import shutil
import subprocess
import sys
import tempfile
import time
from concurrent.futures import ThreadPoolExecutor, as_completed

HERE = os.path.dirname(os.path.realpath(__file__))
ROOT = os.path.dirname(HERE)
COUNTED = r"(\d+) passed, (\d+) failed"
REFUSED = r"(\d+) refused, (\d+) not refused"
SEEN = r"(\d+) seen, (\d+) not seen"
SAYS_WHY = re.compile(
    r"FAILED|NOT (PROVED|REFUSED|SEEN)|BAD EDIT|nothing is tried|failed: |[1-9]\d* failed|disagrees|differ"
    r"|: it (ended|did not)|(no|a) line (in|and)"
)
MOST, AFTER, WIDEST = 40, 3, 400  # lines that say why a step failed, those shown after each, and their letters


def copied(to):
    """Copies the tree without what git and earlier checks keep."""
    ignored = shutil.ignore_patterns(".git", "out", "__pycache__")
    shutil.copytree(ROOT, to, ignore=ignored, symlinks=True)
    os.mkdir(f"{to}/.git")  # the mark of a repository's top, and the place of rt ci's lock
    return to


def seed():
    """Returns the commit's hash."""
    ran = subprocess.run(["git", "rev-parse", "HEAD"], cwd=ROOT, capture_output=True, text=True)
    return ran.stdout.strip() or "no commit"


def why(lines):
    """Returns the lines that say why a step failed, with some after each, or its last lines if none does."""
    shown = {at + more for at, it in enumerate(lines) if SAYS_WHY.search(it) for more in range(AFTER + 1)}
    found = [it for at, it in enumerate(lines) if at in shown]
    return [it.rstrip()[:WIDEST] for it in (found or lines)[-MOST:]]


class Log:
    """Keeps what each step prints in a file of a folder, says what came of it, and shows a dot a minute meanwhile."""

    def __init__(self, folder, out=sys.stdout):
        self.folder, self.out, self.shown = folder, out, time.monotonic()

    def say(self, text):
        print(f"checks: {text}", file=self.out, flush=True)

    def go_on(self):
        if time.monotonic() > self.shown + 60:
            self.shown = time.monotonic()
            print(".", file=self.out, flush=True)

    def path(self, name):
        return f"{self.folder}/{name.replace(' ', '-')}.log"


def run(words, folder, log, name):
    """Runs a command. Returns its status, the lines that it printed, and what it took, in words."""
    begun = time.monotonic()
    ran = subprocess.Popen(
        words, cwd=folder, stdin=subprocess.DEVNULL, stdout=subprocess.PIPE, stderr=subprocess.STDOUT, text=True,
        errors="replace",
    )
    lines = []
    with ran.stdout as printed, open(log.path(name), "w", encoding="utf-8", errors="replace") as file:
        for line in printed:
            print(line, end="", file=file, flush=True)
            lines.append(line)
            log.go_on()
    _, status, used = os.wait4(ran.pid, 0)
    ran.returncode = os.waitstatus_to_exitcode(status)
    took, processors = (time.monotonic() - begun) / 60, (used.ru_utime + used.ru_stime) / 60
    return ran.returncode, lines, f"{took:.1f} minutes, {processors:.1f} processor minutes"


def timed(words, folder, last_line, log):
    """Runs a step, says what came of it and how long it took, and returns the two numbers of its last line, and the
    lines that say why it failed."""
    name = os.path.basename(words[2]) if words[0] == sys.executable else " ".join(words)
    status, lines, took = run(words, folder, log, name)
    last = next((it.strip() for it in reversed(lines) if it.strip()), "")
    good, bad = counted(status, last, last_line)
    log.say(f"{name}: {last[:WIDEST]}; status {status}, {took}")
    return good, bad, [f"{name}: {it}" for it in why(lines)] if bad else []


def counted(status, last, last_line):
    """Returns the two numbers of a step's last line. One that stopped before its end, or counted nothing, failed."""
    found = re.fullmatch(last_line, last)
    good, bad = (int(found[1]), int(found[2])) if found else (0, 0)
    return good, bad + 1 if status and not bad or not found else bad


def own_tests(tree, log):
    """Runs the tests of checks/, and returns how many failed as a step's numbers do."""
    words = [sys.executable, "-B", "-m", "unittest", "discover", "--buffer", f"{tree}/checks"]
    status, lines, took = run(words, tree, log, "tests of checks")
    log.say(f"the tests of checks/: status {status}; {took}")
    return 0, int(status != 0), [f"the tests of checks/: {it.rstrip()}" for it in lines[-MOST:]] if status else []


def together(steps, folder, log):
    """Runs steps at the same time, and returns their numbers as they end."""
    with ThreadPoolExecutor() as pool:
        for ended in as_completed([pool.submit(timed, words, folder, last_line, log) for words, last_line in steps]):
            yield ended.result()


def steps(tree):
    """Returns the steps over a tree that come one after the other, each with the form of its last line."""
    python, program = [sys.executable, "-B"], f"{tree}/crates/aqs/out/aqs"
    yield [*python, f"{tree}/checks/budget.py"], COUNTED
    yield ["rt", "ci"], COUNTED
    yield [*python, f"{tree}/checks/examples.py", program], COUNTED
    yield [*python, f"{tree}/checks/by_program.py", program, seed()], COUNTED
    yield [*python, f"{tree}/checks/stops.py", f"{tree}/crates/test_stops/out/test_stops"], COUNTED


def last_steps(tree, is_written):
    """Returns the steps that come after these, and do not disturb one another."""
    python, more = [sys.executable, "-B"], ["--write"] if is_written else []
    yield [*python, f"{tree}/checks/first_hour.py"], COUNTED
    yield [*python, f"{tree}/checks/own_repository.py", "--prove"], COUNTED
    yield [*python, f"{tree}/checks/bindings.py", "--built", f"{tree}/crates/aqs/out/aqs"], COUNTED
    yield [*python, f"{tree}/checks/wrong_bodies.py", "--built", "--sample", seed(), *more], REFUSED


def over_what_was_built(tree):
    """Returns the steps that use what the steps before have built: as an archive, and under real programs."""
    yield [sys.executable, "-B", f"{tree}/checks/archive.py"], COUNTED
    yield [sys.executable, "-B", f"{tree}/checks/archive.py", f"{tree}/crates/aqs/out/aqs"], COUNTED
    yield [sys.executable, "-B", f"{tree}/bindings/clients/clients.py", "--sample"], COUNTED


def alone(tree):
    """Returns the step that measures times, for which the machine is to be quiet."""
    yield [sys.executable, "-B", f"{tree}/checks/wrong_c.py", "--sample", seed()], SEEN


def checked(tree, is_written):
    log = Log(tempfile.mkdtemp(prefix="gate-log-"))
    log.say(f"what each step prints is in {log.folder}")
    passed, failed, reasons = 0, 0, []
    one_by_one = lambda steps: (timed(words, tree, last_line, log) for words, last_line in steps)
    at_once, last = together(last_steps(tree, is_written), tree, log), [*over_what_was_built(tree), *alone(tree)]
    for numbers in ([own_tests(tree, log)], one_by_one(steps(tree)), at_once, one_by_one(last)):
        for good, bad, said in numbers:
            passed, failed, reasons = passed + good, failed + bad, reasons + said
            print("".join(f"checks: {it}\n" for it in said), end="", flush=True)
    with open(log.path("rt ci"), encoding="utf-8") as printed:
        shutil.copyfileobj(printed, sys.stdout)
    print("".join(f"checks: {it}\n" for it in reasons), end="")
    print(f"{passed} passed, {failed} failed", flush=True)
    return 1 if failed else 0


def main(words):
    is_written = words == ["--write"]
    if words and not is_written:
        sys.exit(__doc__)
    if not glob.glob(f"{ROOT}/crates/*/out"):
        return checked(ROOT, is_written)
    with tempfile.TemporaryDirectory(prefix="gate-") as room:
        tree = copied(f"{room}/tree")
        status = checked(tree, is_written)
        for path in glob.glob("crates/*/wrong-bodies/refused.txt", root_dir=tree) if is_written else []:
            shutil.copyfile(f"{tree}/{path}", f"{ROOT}/{path}")
    return status


if __name__ == "__main__":
    sys.exit(main(sys.argv[1:]))
