#!/usr/bin/env python3
"""Real programs over the library: clients.py [--sample] [NAME..]

Fetches programs by the system's package manager, makes them use libaqs, builds them and runs them: `cpython`,
`parking_lot`, `leveldb`; with no name all of them. What was fetched and built is kept in out/. --sample is for a check
that has little time: it takes at most two minutes. A program that can't be fetched, or for which no time was left, is
left out: one line says which and why, and that is no failure. The last line is 'N passed, M failed'.
"""
import pathlib
import sys

HERE = pathlib.Path(__file__).resolve().parent
sys.path[:0] = [str(HERE), str(HERE.parent)]
import check
import common
import cpython
import fetch
import leveldb
import parking_lot

OUT = HERE / "out"
CLIENTS = {"cpython": cpython.run, "parking_lot": parking_lot.run, "leveldb": leveldb.run}
SAMPLE_SECONDS = 110


def run(tests, packages, names, is_sample):
    """Runs each client, and tells which were left out, and why. Without a network a sample has none."""
    left_out = {}
    for name in names:
        try:
            if is_sample:
                packages.prepare()
            CLIENTS[name](tests, packages, OUT, is_sample)
        except common.LeftOut as error:
            left_out.setdefault(str(error), []).append(name)
    for why, which in left_out.items():
        tests.left_out(", ".join(which), why)


def main(words):
    is_sample = words[:1] == ["--sample"]
    names = words[1:] if is_sample else words
    if any(name not in CLIENTS for name in names):
        sys.exit(__doc__)
    OUT.mkdir(parents=True, exist_ok=True)
    tests = check.Tests(str(OUT))
    if tests.run("the library is built", ["make", "-s", "-C", str(check.C)], check.MINUTES * 60):
        if is_sample:
            common.limit(SAMPLE_SECONDS)
        run(tests, fetch.Packages(OUT / "packages"), names or list(CLIENTS), is_sample)
    print(f"{tests.passed} passed, {tests.failed} failed", flush=True)
    return 1 if tests.failed else 0


if __name__ == "__main__":
    sys.exit(main(sys.argv[1:]))
