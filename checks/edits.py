"""Edits that make code wrong, of which tests must see each: how they are made, chosen, tried and counted.

An edit has a line 'file: PATH', and for each text that it replaces the lines 'old: TEXT' and 'new: TEXT'. Each old text
must be unique in the file, and each new one is put in before the next old one is looked for. `wrong_c.py` and
`wrong_callers.py` try those of the bindings, and `seen_by_tests.py` those of Rattle.
"""
import argparse
import hashlib
import os
import pathlib
import shutil
import signal
import subprocess
import tempfile
import time
from concurrent.futures import ThreadPoolExecutor

ROOT = pathlib.Path(__file__).resolve().parent.parent
BINDINGS = ROOT / "bindings"
CORE = ROOT / "crates" / "aqs_c" / "out" / "libaqs_c.a"
FOLDER = "wrong-bodies"
TRIES = 3
BAD = "BAD EDIT"


def edited(text, read):
    """Returns the path and the new text of the file that an edit changes. `read` gives the text of a path. An edit that
    can't be made raises ValueError."""
    path, old, new = None, None, None
    for line in text.splitlines():
        word, _, rest = line.partition(": ")
        if word == "file":
            path, new = rest, read(rest)
            was = new
        elif word == "old":
            old = rest
        elif word == "new" or line == "new:":
            if new is None or old is None:
                raise ValueError("a line 'new:' has no file or no 'old:' before it")
            if new.count(old) != 1:
                raise ValueError(f"a text is there {new.count(old)} times: {old.strip()}")
            new, old = new.replace(old, rest), None
    if new is None or new == was:
        raise ValueError("it changes nothing")
    return path, new


def in_order(names, seed):
    """Returns the names in the order that a seed decides."""
    return sorted(names, key=lambda name: hashlib.sha256(f"{seed} {name}".encode()).digest())


def output(words, folder, seconds, **environment):
    """Runs a command, and returns its status and what it printed. One that takes longer is ended with all that it
    started, and has no status."""
    how = {"stdin": subprocess.DEVNULL, "stdout": subprocess.PIPE, "stderr": subprocess.STDOUT, "errors": "replace"}
    ran = subprocess.Popen(
        [str(it) for it in words], cwd=folder, start_new_session=True, env={**os.environ, **environment}, **how)
    try:
        told, _ = ran.communicate(timeout=seconds)
    except subprocess.TimeoutExpired:
        os.killpg(ran.pid, signal.SIGKILL)
        ran.communicate()
        return None, f"it did not end in {seconds} seconds"
    return ran.returncode, told


def last_line(told):
    return (told.strip().splitlines() or ["no word"])[-1]


def run(words, folder, seconds, **environment):
    """Runs a command, and returns whether it succeeded, and the last line that it printed."""
    status, told = output(words, folder, seconds, **environment)
    ending = f" (signal {-status})" if status is not None and status < 0 else ""
    return status == 0, last_line(told) + ending


class Tree:
    """Copies of the bindings in a room. Each edit is tried in one of its own."""

    def __init__(self, room, core):
        self.room, self.core = pathlib.Path(room), core

    def copied(self, folder, to, *ignored):
        """Copies a folder, with what was built there but without wrong bodies and what else is ignored."""
        shutil.copytree(folder, to, ignore=shutil.ignore_patterns(FOLDER, "__pycache__", *ignored), symlinks=True)
        return to

    def made(self, folder, *targets):
        """Builds targets of a copy of bindings/c or of what stands beside it."""
        return run(["make", "-s", f"CORE={self.core}", *targets], folder, 300)

    def found(self, name):
        """Returns the file of an edit, and the folder in which its paths begin."""
        raise NotImplementedError

    def copy(self, name, number):
        """Makes a copy for a try of an edit, which has this number."""
        raise NotImplementedError

    def seen_by(self, copy, name, path, text):
        """Puts a text into a copy, and returns which test fails there, with what it says, or None. A copy that can't
        be built raises ValueError."""
        raise NotImplementedError

    def tried(self, name, number=1):
        """Tries an edit: returns whether it is seen, and what is said of it."""
        begun, copy = time.monotonic(), None
        try:
            file, folder = self.found(name)
            path, text = edited(file.read_text(), lambda it: (folder / it).read_text())
            copy = self.copy(name, number)
            said = self.seen_by(copy, name, path, text)
        except (OSError, ValueError) as error:
            return False, f"{BAD}: {name}: {error}"
        finally:
            if copy:
                shutil.rmtree(copy, ignore_errors=True)
        took = f"in {time.monotonic() - begun:.0f} s"
        return bool(said), f"seen {took}: {name}: by {said}" if said else f"NOT SEEN {took}: {name}"


def tried_all(tree, names, jobs, most, clock=time.monotonic):
    """Tries edits, some at a time, and begins none after so many seconds of a clock. Returns how many were seen, and
    how many not."""
    begun, numbers = clock(), [0, 0]

    def go_on(name):
        if most and clock() - begun > most:
            return
        for number in range(1, TRIES + 1):
            is_seen, said = tree.tried(name, number)
            print(said, flush=True)
            if is_seen or said.startswith(BAD):
                break
        numbers[not is_seen] += 1

    with ThreadPoolExecutor(jobs) as pool:
        for it in [pool.submit(go_on, name) for name in names]:
            it.result()
    return numbers


def main(words, usage, names_of, make, most, clock=time.monotonic, jobs=4):
    """Tries the edits that the words of a command name, or all. `names_of` returns those that some words stand for,
    and `make` a tree, after the files passed their tests as they stand. `most` and `clock` bound a sample."""
    parser = argparse.ArgumentParser(usage=usage)
    parser.add_argument("--sample")
    parser.add_argument("--core", default=str(CORE))
    parser.add_argument("--jobs", type=int, default=min(jobs, len(os.sched_getaffinity(0))))
    parser.add_argument("names", nargs="*")
    given = parser.parse_args(words)
    names = names_of(given.names)
    if given.sample:
        names = in_order(names, given.sample)
    with tempfile.TemporaryDirectory(prefix="aqs-wrong-") as room:
        try:
            tree = make(room, os.path.abspath(given.core), names, bool(given.sample))
        except ValueError as why:
            print(f"nothing is tried: {why}", flush=True)
            print("0 seen, 1 not seen", flush=True)
            return 1
        seen, others = tried_all(tree, names, given.jobs, most if given.sample else None, clock)
    print(f"{seen} seen, {others} not seen", flush=True)
    return 1 if others else 0
