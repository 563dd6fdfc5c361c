#!/usr/bin/env python3
"""Each run of the program gives back all memory that it took: checks/leaks.py PROGRAM.

Each case of cases/ is run: every command, every fault of a text and every refusal are among them. So are a closed
output, a full disk and ever less memory. The example programs that were built beside PROGRAM are run too. `counted.c` counts meanwhile: the blocks of memory that the program takes and
gives back, its reads and its writes. A run from a file reads once for each 64 kB of it and twice more at most, and so
it writes, but for a script's run, which writes each object apart. Without a C compiler the check says so, and nothing
is counted. The last line is 'N passed, M failed'.
"""

import concurrent.futures
import dataclasses
import os
import pathlib
import re
import resource
import shutil
import subprocess
import sys
import tempfile

import cases

HERE = pathlib.Path(__file__).resolve().parent
SECONDS = 300
PIECE = 1 << 16  # bytes of a read and of a write
LONGEST_LINE = 255  # bytes that a write may lack, as the next line might not fit
MORE = 2  # reads and writes that a text may take beside those
PARTS = 4  # writes of a run for each of its objects
SIZES = range(1 << 20, 24 << 20, 1 << 18)  # bytes of data that a program may have
STEPS = b"aqs-steps 1 lock fair seats 200 conditions 16 cap 4096\n" + b"0 acquire x 1\n0 give x 1\n" * 900 + b"end 1800\n"


@dataclasses.dataclass
class Counts:
    """What a run took and gave back, in blocks of memory; how often it read, wrote and asked for memory; and what it
    wrote."""

    taken: int
    given: int
    reads: int
    writes: int
    requests: int
    told: bytes = b""


def library(folder):
    """Builds the library that counts."""
    made = f"{folder}/counted.so"
    words = [shutil.which("cc"), "-std=c11", "-O2", "-Wall", "-Werror", "-shared", "-fPIC", "-o", made]
    subprocess.run([*words, HERE / "counted.c", "-ldl"], check=True)
    return made


def counted(program, library, words, text, output=subprocess.PIPE, limit=None, named=b""):
    """The counts of a run, or None if the system did not load the program."""
    files = tempfile.NamedTemporaryFile(), tempfile.NamedTemporaryFile(), tempfile.NamedTemporaryFile()
    with files[0] as given, files[1] as names, files[2] as told:
        for file, bytes_ in ((given, text), (names, named)):
            file.write(bytes_)
            file.flush()
            file.seek(0)
        words = [{"FILE": given.name, "NAMES": names.name}.get(word, word) for word in words]
        environment = {"LD_PRELOAD": library, "COUNTED": told.name}
        bound = limit and (lambda: resource.setrlimit(resource.RLIMIT_DATA, (limit, limit)))
        ran = subprocess.run(
            [program, *words], stdin=given, stdout=output, stderr=subprocess.DEVNULL, env=environment,
            timeout=SECONDS, preexec_fn=bound,
        )
        line = told.read().split()
    return Counts(*map(int, line), ran.stdout or b"") if len(line) == 5 else None


def fault(counts, size, more=MORE, files=1):
    """None, or what is wrong with the counts of a run on so many files of some size, which may take so many writes more."""
    if counts is None:
        return "it ended before its end"
    if counts.taken != counts.given:
        return f"it took {counts.taken} blocks and gave {counts.given} back"
    if counts.reads > size // PIECE + files * MORE:
        return f"{counts.reads} reads for {size} bytes"
    objects = len(re.findall(rb"^object ", counts.told, re.M))
    if counts.writes > len(counts.told) // (PIECE - LONGEST_LINE) + more + PARTS * objects:
        return f"{counts.writes} writes for {len(counts.told)} bytes"
    return None


def of_case(program, library, case):
    """A run that is late leaves its threads, and so what they have."""
    text, more = case.input(), PARTS if "--object" in case.words else MORE
    counts = counted(program, library, case.words, text, named=case.names())
    if counts and "--timeout" in case.words and case.status == 1:
        counts = dataclasses.replace(counts, given=counts.taken)
    files = 2 if any("NAMES" in word or word.startswith("--names") for word in case.words) else 1
    return f"{case.file}, line {case.line}: {case.name}", fault(counts, len(text), more, files)


def of_devices(program, library):
    """An output that nobody reads, and a full disk."""
    if os.path.exists("/dev/full"):
        with open("/dev/full", "wb") as full:
            yield "a full disk", fault(counted(program, library, ["replay"], STEPS, full), len(STEPS))
    reader, writer = os.pipe()
    os.close(reader)
    yield "a closed output", fault(counted(program, library, ["replay"], STEPS, writer), len(STEPS))
    os.close(writer)


def of_little_memory(program, library):
    """Ever less memory, until the system does not load the program."""
    for words in (["replay"], ["replay", "--history"]):
        for size in SIZES:
            counts = counted(program, library, words, STEPS, limit=size)
            if counts is not None:
                yield f"{' '.join(words)} with {size} bytes", fault(counts, len(STEPS))


def of_examples(program, library):
    """Each example program, with its input. What it reads and writes is its own matter."""
    for given in sorted(HERE.parent.glob("crates/example_*/stdin")):
        example = pathlib.Path(program).parent / f"../../{given.parent.name}/out/{given.parent.name}"
        if example.exists():
            counts = counted(example, library, [], given.read_bytes())
            yield given.parent.name, fault(counts and dataclasses.replace(counts, reads=0, writes=0), 0)


def results(program, library):
    every = [case for file in cases.all_files() for case in cases.read(file.read_text(encoding="utf-8"), file.name)]
    with concurrent.futures.ThreadPoolExecutor(os.cpu_count()) as pool:
        yield from pool.map(lambda case: of_case(program, library, case), every)
    yield from of_devices(program, library)
    yield from of_little_memory(program, library)
    yield from of_examples(program, library)


def main(program):
    passed = failed = 0
    with tempfile.TemporaryDirectory() as folder:
        for name, wrong in results(program, library(folder)):
            passed, failed = passed + (wrong is None), failed + (wrong is not None)
            if wrong is not None:
                print(f"FAILED: {name}: {wrong}")
    print(f"{passed} passed, {failed} failed")
    return 1 if failed or not passed else 0


if __name__ == "__main__":
    if len(sys.argv) != 2:
        sys.exit(__doc__)
    sys.exit(main(os.path.abspath(sys.argv[1])))
