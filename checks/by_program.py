#!/usr/bin/env python3
"""Checks by the built program, one after the other: checks/by_program.py PROGRAM SEED.

- `limits.py`: each limit at its value and one past it, and long texts.
- `columns.py`: summaries in columns of long histories.
- `devices.py`: devices that fail, a terminal, and ever less memory.
- `progress.py`: the line on a terminal that says how much of a long text was read.
- `leaks.py`: what each run takes and gives back, if this machine has a C compiler.
- `memory.py`: requests for memory, reads and writes that fail, one at a time, if it has one.
- `growth.py`: how time and memory grow with the input and with the seats.
- `storms.py`: two short storms of threads.
- `fuzz.py`: random texts, others each day.
- `misspelt.py`: texts that are spoilt in one way each, and where they are wrong.
- `spoilt.py`: two examples with each byte changed.
- `page.py`: the pages of `aqs draw --page`, under node and in a browser, where this machine has them.
- `java.py`: scenarios on the JDK of this machine, if it has one.

The seed, as the hash of a commit, chooses the examples, the storms and the scenarios. Each check has a line
with its numbers, its seconds and those of processors. What a check that failed has printed stands above its
line. The last line is 'N passed, M failed'.
"""

import pathlib
import re
import resource
import shutil
import subprocess
import sys
import time
import zlib

import java

HERE = pathlib.Path(__file__).resolve().parent
MINUTES = 30


def checks(seed):
    """The words of each check behind the program."""
    number = str(zlib.crc32(seed.encode()))
    yield ["limits.py"]
    yield ["columns.py", number]
    yield ["devices.py"]
    yield ["progress.py"]
    if shutil.which("cc"):
        yield ["leaks.py"]
        yield ["memory.py"]
    yield ["growth.py"]
    yield ["storms.py", "2", "16", "4", number]
    yield ["storms.py", "1", "64", "8", number]
    yield ["fuzz.py", "4000"]
    yield ["misspelt.py", "2000"]
    yield ["spoilt.py", seed]
    yield ["page.py"]
    if java.has_jdk():
        yield ["java.py", "200", number]


def processor_seconds():
    used = resource.getrusage(resource.RUSAGE_CHILDREN)
    return used.ru_utime + used.ru_stime


def counts(words):
    """What a check printed, and how much passed and failed by its last line. One that broke off failed."""
    try:
        done = subprocess.run(words, stdout=subprocess.PIPE, stderr=subprocess.STDOUT, timeout=60 * MINUTES)
    except subprocess.TimeoutExpired as error:
        return error.output or b"", 0, 1
    found = re.search(rb"^(\d+) passed, (\d+) failed\n\Z", done.stdout, re.M)
    passed, failed = (int(found[1]), int(found[2])) if found else (0, 0)
    is_good = done.returncode == 0 and passed > 0
    return done.stdout, passed, failed if is_good or failed else 1


def main(program, seed):
    passed = failed = 0
    if not java.has_jdk():
        print("java.py: no JDK on this machine, so nothing is compared with one")
    if not shutil.which("cc"):
        print("leaks.py, memory.py: no C compiler on this machine, so no allocation is counted or refused")
    for name, *words in checks(seed):
        begun, used = time.monotonic(), processor_seconds()
        told, good, bad = counts([sys.executable, "-B", HERE / name, program, *words])
        passed, failed = passed + good, failed + bad
        if bad:
            print(told.decode(errors="backslashreplace"), end="")
        spent, used = time.monotonic() - begun, processor_seconds() - used
        numbers = f"{good} passed, {bad} failed, {spent:.0f} s, {used:.0f} s of processors"
        print(f"{' '.join([name, *words])}: {numbers}", flush=True)
    print(f"{passed} passed, {failed} failed")
    return 0 if passed and not failed else 1


if __name__ == "__main__":
    if len(sys.argv) != 3:
        sys.exit(__doc__)
    sys.exit(main(*sys.argv[1:]))
