#!/usr/bin/env python3
"""The callers in other languages: checks/bindings.py [--library | [--built] [PROGRAM]].

Builds crates/aqs_c/out/libaqs_c.a if it is missing. If the libraries below it stand as rt ci left them, and their
sources are no newer, they are neither proved nor touched again. --built says that they do. Otherwise rt lib proves
them too. With --library that is all.

Else the headers are compared with what the library exports (`border.py`). Then `make check` in bindings/ runs the tests
of C, C++, Rust, Python and Java, the sanitizers, and the audit of the histories by PROGRAM (crates/aqs/out/aqs). What
the machine has no tools for is left out, and printed. C and C++ must be there. The last line is 'N passed, M failed'.
"""
import os
import re
import shutil
import subprocess
import sys

import border
from kit import rt

HERE = os.path.dirname(os.path.realpath(__file__))
ROOT = os.path.dirname(HERE)
CORE = f"{ROOT}/crates/aqs_c/out/libaqs_c.a"
LOG = f"{ROOT}/crates/aqs_c/out/library.log"
SHOWN = 40
PROGRAM = f"{ROOT}/crates/aqs/out/aqs"
NEEDED = ("make", "cc", "c++", "ar")
MINUTES = 60
COUNTED = r"(\d+) passed, (\d+) failed"
PARTS = ("src", "specs", "proofs")


def newest(folder):
    """When a source of a crate was last changed."""
    files = [f"{at}/{it}" for part in PARTS for at, _, names in os.walk(f"{folder}/{part}") for it in names]
    return max(map(os.path.getmtime, files), default=0)


def stand_below(crate):
    """Whether each library below a crate is built, and its sources are no newer than that."""
    return all(
        os.path.isfile(f"{it.rlib}/format") and newest(it.folder) <= os.path.getmtime(f"{it.rlib}/format")
        for it in crate.below()
    )


def making(is_built):
    """The words that prove and build the library, and how long that takes. rt lib would make the libraries below it
    anew, since rt ci leaves none of the stamps that it looks for, and whatever reads them at the same time would
    fail."""
    crate = next(it for it in rt.rtlib.crates_below(ROOT) if it.name == "aqs_c")
    if not is_built and not stand_below(crate):
        return ["rt", "lib"], "it proves all libraries below too: some 40 minutes of processor time from nothing"
    words = crate.words(["--jobs", "1"], keeps=False)
    words = [rt.rtlib.RATTLE, "build", *words, "--toolchain", f"{rt.KIT}/toolchain", "-o", CORE]
    return words, "the libraries below are proved: some minutes"


def made(is_built):
    """Whether the proved library is there, or could be made. What the prover prints on the way goes to a file: some of
    it looks like errors, and is none."""
    if os.path.isfile(CORE):
        return True
    words, time = making(is_built)
    os.makedirs(os.path.dirname(CORE), exist_ok=True)
    print(f"bindings: the proved library is missing: {os.path.basename(words[0])} {words[1]} makes it", flush=True)
    print(f"bindings: {time}. What it prints is in {os.path.relpath(LOG)}", flush=True)
    with open(LOG, "w", encoding="utf-8") as log:
        how = {"stdin": subprocess.DEVNULL, "stdout": log, "stderr": subprocess.STDOUT}
        ran = subprocess.run(words, cwd=f"{ROOT}/crates/aqs_c", check=False, **how)
    is_good = ran.returncode == 0 and os.path.isfile(CORE)
    if not is_good:
        with open(LOG, encoding="utf-8", errors="replace") as log:
            print("".join(log.readlines()[-SHOWN:]), flush=True)
        print(f"bindings: it was not made: status {ran.returncode}", flush=True)
    return is_good


def numbers_of(told):
    """The two numbers of the last line, or None."""
    lines = told.strip().splitlines()
    found = re.fullmatch(COUNTED, lines[-1]) if lines else None
    return (int(found[1]), int(found[2])) if found else None


def checked(program, is_built):
    lacking = [tool for tool in NEEDED if not shutil.which(tool)]
    if lacking:
        print(f"bindings: {', '.join(lacking)} is missing: nothing was built", flush=True)
        return 0, 1
    if not made(is_built):
        return 0, 1
    ran = subprocess.Popen(
        ["make", "-s", "--no-print-directory", "-C", f"{ROOT}/bindings", "check"], stdin=subprocess.DEVNULL,
        stdout=subprocess.PIPE, stderr=subprocess.STDOUT, text=True, errors="replace",
        env={**os.environ, "AQS": program},
    )
    try:
        told, _ = ran.communicate(timeout=60 * MINUTES)
    except subprocess.TimeoutExpired:
        ran.kill()
        print(f"bindings: make check did not end in {MINUTES} minutes", flush=True)
        return 0, 1
    found = numbers_of("\n".join(line for line in told.splitlines() if not line.startswith("make")))
    print("\n".join(line for line in told.splitlines() if not re.fullmatch(COUNTED, line)), flush=True)
    tests, headers = found or (0, 1), border.checked()
    return tests[0] + headers[0], tests[1] + headers[1]


def main(words):
    if words == ["--library"]:
        return 0 if made(False) else 1
    is_built = words[:1] == ["--built"]
    given = words[1:] if is_built else words
    if len(given) > 1:
        sys.exit(__doc__)
    passed, failed = checked(os.path.abspath(given[0]) if given else PROGRAM, is_built)
    print(f"{passed} passed, {failed} failed", flush=True)
    return 1 if failed else 0


if __name__ == "__main__":
    sys.exit(main(sys.argv[1:]))
