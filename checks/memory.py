#!/usr/bin/env python3
"""Requests for memory, reads and writes that fail, one at a time: checks/memory.py PROGRAM.

Of each command on a text of each object the first request for memory is refused, then the second, and so on, until a
run meets no refusal. A run that was refused memory says so, writes nothing, and gives back all that it took. Only a
request of the reader of command lines may be in vain, and one of the first reading of a wrong text, which `explain`
reads again to find the fault. Of the calls of a script some may lack memory: the run text
counts them. So each read of a text fails in turn, and each write of a long answer: what was written before it is a
beginning of the answer.

Steps and calls take no memory but for pages of entries and lists of answers: of thousands of random steps, by few
threads and by many, at each object, and of a script's calls this counts the requests. `counted.c` counts and refuses.
Without a C compiler the check says so. The last line is 'N passed, M failed'.
"""

import concurrent.futures
import json
import os
import pathlib
import subprocess
import sys
import tempfile
from collections import namedtuple

import columns
import crowds
import leaks
import rules
import runs

EXAMPLES = pathlib.Path(__file__).resolve().parent.parent / "examples"
SECONDS = 60
PAGE = 1024  # entries of a page
LISTS = 32  # requests of lists that grow to thousands of answers
IN_VAIN = 4  # requests of the reader of command lines that it can do without
CALLS = 12  # requests of a script's calls that it can do without: a list that cannot grow by much grows by little
KEPT = 2  # blocks of a thread that the kit keeps if it lacks memory for the list of what threads return, beside its list
MORE = 4  # requests of a longer run text
NO_MEMORY = (5, b"", b"aqs: out of memory\n")
READ_FAILED = (4, b"", b"aqs: read failed\n")
NOT_READ = b"cannot read standard input: "
NO_OBJECT = b'{"verdict":"not read","file":"standard input","reason":"'
WRITE_FAILED = (4, b"aqs: write failed\n")
# The calls of one thread at an object of each kind. Two of them are not recorded. Each object but the last is trimmed.
SCRIPT = {
    "objects": [["a", "lock fair seats 1 conditions 1 cap 16"], ["b", "semaphore nonfair seats 1 permits 2 cap 16"],
                ["c", "latch seats 1 count 3 cap 16"], ["d", "rw nonfair seats 1 conditions 0 cap 16"]],
    "threads": [{"repeat": 1, "calls": [
        "a acquire x 1", "a await-timed 0 0", "a trim", "a give x 1", "b give s 5", "b acquire s 1", "b trim", "b drain",
        "a give x 2", "c give s 1", "c trim", "c trim", "d trim", "d drain", "d acquire s 1"]}],
}
LEAST_REQUESTS = 20  # of a run that leaves files
NO_CALLS = {**SCRIPT, "threads": [{"repeat": 1, "calls": []}]}
WITH_FILES = json.dumps(NO_CALLS).encode()
PAIRS = b"0 acquire x 1\n1 look\n0 give x 1\n"
LONG = 5000  # pairs, whose answers take several writes
MANY = 100_000  # pairs, whose entries take many pages
Run = namedtuple("Run", "answer counts")


def pairs(count):
    return b"aqs-steps 1 lock nonfair seats 2 conditions 0 cap 4294967295\n" + PAIRS * count + b"end %d\n" % (3 * count)


def run(program, library, words, text, **fails):
    """The answer of a run, and what it asked for: blocks taken and given back, reads, writes and requests."""
    with tempfile.NamedTemporaryFile() as told, tempfile.TemporaryFile() as given:
        given.write(text)
        given.seek(0)  # a file, of which each run reads the same pieces
        environment = {"LD_PRELOAD": library, "COUNTED": told.name}
        environment.update((name, str(number)) for name, number in fails.items())
        done = subprocess.run([program, *words], stdin=given, capture_output=True, env=environment, timeout=SECONDS)
        counts = leaks.Counts(*map(int, told.read().split()))
    return Run((done.returncode, done.stdout, done.stderr), counts)


def wrong_texts():
    """Texts of each kind in which something is wrong: a first line, a line, the end."""
    header = b"lock fair seats 2 conditions 1 cap 16\n"
    yield b"lock\n"
    yield b"aqs-steps 1 " + header + b"0 lok\nend 1\n"
    yield b"aqs-history 1 " + header + b"0 0 got x\nend 1 1\n"
    yield b"aqs-history 2 " + header + b"base 1\nseat 0 calls 1 x 2 s 1\n"
    yield b"aqs-history 2 " + header + b"base 1\nseat 0 calls 1 x 1 s 0\nseat 1 calls 0 x 0 s 0\nline 0 back\n"
    for part, calls in ("lock fair", []), (header.decode().strip(), ["a get x 1"]), (header.decode().strip(), [1]):
        threads = [{"repeat": 1, "calls": calls}, {"repeat": 1, "calls": []}]
        yield json.dumps({"objects": [["a", part]], "threads": threads}).encode()
    yield b'{"objects": [], "threads": [}'


def commands():
    """Commands, and a text for each: of each object, with a base and without, legal and not, right and wrong."""
    names = ("bounded_buffer", "downgrade", "latch_counts_down", "request_of_none_and_drain", "trim_behind_a_sleeper")
    texts = [file.read_bytes() for file in sorted(EXAMPLES.glob("*.steps")) if file.stem in names]
    for text in [*texts, pairs(700)]:
        yield ["replay"], text
        yield ["replay", "--history"], text
    histories = [rules.replay(text, True)[1] for text in texts]
    histories += [file.read_bytes() for file in sorted(EXAMPLES.glob("*.history"))]
    for text in histories:
        for words in ("audit",), ("draw",), ("draw", "--page"), ("explain",), ("summary",):
            yield [*words], text
        for name in ("audit", "explain", "summary"):
            yield [name, "--json"], text
        yield ["audit", "-o", "/dev/null"], text
    for words in ("draw",), ("draw", "--page"):
        yield [*words, "--names", "/dev/stdin", str(EXAMPLES / "handed_over.history")], b"0 main\n1 parser\n"
    for part in "lock fair seats 3 conditions 2", "semaphore fair seats 3 permits 2":  # long enough for a summary
        yield ["draw"], columns.history(part, columns.SUMMED + 1, 0, "memory").encode()
    last = ["explain", "--at", str(2 * PAGE - 1)]  # its state is that after two pages of entries
    yield last, rules.replay(pairs(PAGE), True)[1]
    for text in wrong_texts():
        yield ["explain"], text
        yield ["explain", "--json"], text
    yield ["run"], json.dumps(SCRIPT).encode()
    yield ["run", "--unrecorded"], json.dumps(SCRIPT).encode()
    yield ["run", "--object", "d"], json.dumps(NO_CALLS).encode()
    yield ["run", "--timeout", "60000"], json.dumps(NO_CALLS).encode()


def makes_calls(words):
    return words in (["run"], ["run", "--unrecorded"])


def lacks_memory(words, answer):
    """Whether an answer is that of a run that was refused memory. A script's calls may have been."""
    if makes_calls(words) and answer[0] == 0:
        is_listed = "--unrecorded" in words
        return not answer[2] and runs.judged(SCRIPT, answer[1], lacks_memory=True, is_listed=is_listed) is None
    return answer == NO_MEMORY or words[0] == "run" and answer == (4, b"", b"aqs: thread 0 not started\n")


def refused(program, library, words, text):
    """What is wrong if each request in turn is refused, or None."""
    whole, in_vain = run(program, library, words, text), 0
    for number in range(whole.counts.requests):
        answer, counts = run(program, library, words, text, REFUSED=number)
        kept = KEPT + ("--unrecorded" in words) if words[0] == "run" and answer == NO_MEMORY else 0
        if not 0 <= counts.taken - counts.given <= kept:
            return f"request {number}: it took {counts.taken} blocks and gave {counts.given} back"
        in_vain += answer == whole.answer
        if answer != whole.answer and not lacks_memory(words, answer):
            return f"request {number}: {answer}"
    spared = IN_VAIN + (CALLS if makes_calls(words) else 0)
    return f"{in_vain} requests in vain" if in_vain > spared or in_vain == whole.counts.requests else None


def is_unread(words, answer):
    """Whether an answer is that of a run that could not read its text. An explanation says why."""
    if words[0] != "explain":
        return answer == READ_FAILED
    told = answer[1].startswith(NO_OBJECT if "--json" in words else NOT_READ)
    return told and (answer[0], answer[2]) == (1, b"") and answer[1].count(b"\n") == 1


def unread(program, library, words, text):
    """What is wrong if each read in turn fails, or None. No read comes after the last."""
    reads = run(program, library, words, text).counts.reads
    answers = [run(program, library, words, text, READ=number).answer for number in range(reads)]
    is_told = reads and all(is_unread(words, answer) for answer in answers)
    return None if is_told else f"{reads} reads: {answers}"[:400]


def unwritten(program, library, words, text):
    """What is wrong if each write in turn fails, or None."""
    whole, longest = run(program, library, words, text), -1
    for number in range(whole.counts.writes):
        status, told, error = run(program, library, words, text, WRITE=number).answer
        if (status, error) != WRITE_FAILED or not whole.answer[1].startswith(told) or len(told) <= longest:
            return f"write {number}: {status}, {error}, {len(told)} bytes after {longest}"
        longest = len(told)
    return None if whole.counts.writes > 2 else f"{whole.counts.writes} writes"


def hungry(program, library, part):
    """What is wrong with the requests of thousands of random steps at an object, and of their history, or None."""
    steps, _, history, _ = crowds.crowd(part, 1)[0]
    no_steps, no_entries = f"aqs-steps 1 {part}\nend 0\n", f"aqs-history 1 {part}\nend 0 0\n"
    given = [(["replay"], steps, no_steps), (["replay", "--history"], steps, no_steps)]
    given += [(words, history, no_entries) for words in (["audit"], ["summary"], ["draw", "--from", "0"])]
    for words, text, empty in given:
        least = run(program, library, words, empty.encode()).counts.requests
        asked = run(program, library, words, text.encode()).counts.requests
        if asked > least + LISTS * (2 if words[0] == "draw" else 1):
            return f"{words}: {asked} requests, and {least} without steps"
    return None


def hungry_pages(program, library):
    """What is wrong with the requests of a history of many pages, or None. The list of pages takes some too."""
    least, asked = (run(program, library, ["replay"], pairs(count)).counts.requests for count in (0, MANY))
    most = least + 2 * MANY // PAGE + LISTS
    return None if asked <= most else f"{asked} requests, and {least} without steps"


def hungry_calls(program, library):
    """What is wrong with the requests of a script whose calls are repeated, or None. Each time folds the entries."""
    asked = []
    for repeat in (1, 300):
        script = {**SCRIPT, "threads": [{**SCRIPT["threads"][0], "repeat": repeat}]}
        asked.append(run(program, library, ["run"], json.dumps(script).encode()).counts.requests)
    return None if asked[1] <= asked[0] + MORE else f"{asked[0]} requests, and {asked[1]} if the calls are repeated"


def files_left(program, library):
    """What is wrong if each request of a run that leaves files is refused in turn, or None. A fault leaves none."""
    number = 0
    while True:
        with tempfile.TemporaryDirectory() as folder:
            words = ["run", "--dir", folder, "-o", f"{folder}/out"]
            answer, counts = run(program, library, words, WITH_FILES, REFUSED=number)
            left = sorted(os.listdir(folder))
        if answer == (0, b"", b"") and left != sorted([*(f"{name}.history" for name, _ in SCRIPT["objects"]), "out"]):
            return f"request {number}: no fault, and {left}"
        if answer != (0, b"", b"") and (left or not lacks_memory(words, answer)):
            return f"request {number}: {answer}, and {left}"
        if number >= counts.requests:
            return None if number > LEAST_REQUESTS else f"{number} requests"
        number += 1


def tries():
    """The checks by their names."""
    for words in (["explain", "/no/such/file"], ["explain", "--json", "/no/such/file"]):
        yield f"{' '.join(words)}, requests", refused, (words, b"")
    yield "files of a run", files_left, ()
    for words, text in commands():
        yield f"{' '.join(words)}, requests, {text[:60]}", refused, (words, text)
        yield f"{' '.join(words)}, reads, {text[:60]}", unread, (words, text)
    for words in ["replay"], ["replay", "--history"]:
        yield f"{' '.join(words)}, writes", unwritten, (words, pairs(LONG))
    for few, some, more, most in crowds.objects():
        for part, _ in (some, most):
            yield f"steps of {part}", hungry, (part,)
    yield "the calls of a script", hungry_calls, ()
    yield "pages", hungry_pages, ()


def results(program, library):
    with concurrent.futures.ThreadPoolExecutor(os.cpu_count()) as pool:
        done = [(name, pool.submit(tried, program, library, *given)) for name, tried, given in tries()]
        yield from ((name, each.result()) for name, each in done)


def main(program):
    passed = failed = 0
    with tempfile.TemporaryDirectory() as folder:
        for name, wrong in results(program, leaks.library(folder)):
            passed, failed = passed + (wrong is None), failed + (wrong is not None)
            if wrong is not None:
                print(f"FAILED: {name}: {wrong}")
    print(f"{passed} passed, {failed} failed")
    return 1 if failed or not passed else 0


if __name__ == "__main__":
    if len(sys.argv) != 2:
        sys.exit(__doc__)
    sys.exit(main(os.path.abspath(sys.argv[1])))
