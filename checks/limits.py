#!/usr/bin/env python3
"""Each limit at its value and one past it, through the program: checks/limits.py PROGRAM.

The limits are those of docs/SPECIFICATION.md. What is past a limit has the fault that is told here, and
nothing is written. A picture of more entries than it shows says so. What is at the limit is answered as checks/rules.py
does, a script as checks/runs.py does. Texts that are larger than any buffer are among them. The last line is
'N passed, M failed'.
"""

import json
import pathlib
import subprocess
import sys

import rules
import runs

REPLAY, AUDIT, RUN = ["replay"], ["audit"], ["run"]
HEADERS = ((REPLAY, "aqs-steps 1 ", "end 0\n"), (AUDIT, "aqs-history 1 ", "end 0 0\n"))


def headers():
    """Object parts: what is within the limits, and what is past one."""
    parts = {
        "lock fair seats {} conditions 0 cap 16": ((1, 256), (0, 257)),
        "lock nonfair seats 1 conditions {} cap 16": ((0, 16), (-1, 17)),
        "lock fair seats 1 conditions 0 cap {}": ((16, 4294967295), (15, 4294967296)),
        "rw fair seats {} conditions 0 cap 16": ((1, 256), (0, 257)),
        "rw nonfair seats 1 conditions {} cap 16": ((0, 16), (-1, 17)),
        "rw fair seats 1 conditions 0 cap {}": ((16, 4294967295), (15, 4294967296)),
        "semaphore fair seats {} permits 0 cap 16": ((1, 256), (0, 257)),
        "semaphore nonfair seats 1 permits {} cap 16": ((-2147483648, 2147483647), (-2147483649, 2147483648)),
        "semaphore fair seats 1 permits 0 cap {}": ((16, 4294967295), (15, 4294967296)),
        "latch seats {} count 0 cap 16": ((1, 256), (0, 257)),
        "latch seats 1 count {} cap 16": ((0, 2147483647), (-1, 2147483648)),
        "latch seats 1 count 0 cap {}": ((16, 4294967295), (15, 4294967296)),
    }
    for part, (within, past) in parts.items():
        for words, name, end in HEADERS:
            for value in within:
                yield words, f"{name}{part.format(value)}\n{end}", None
            for value in past:
                yield words, f"{name}{part.format(value)}\n{end}", "bad header"
        for value in within:
            yield RUN, script([["a", part.format(value)]], value if "seats {}" in part else 1), None
        for value in past:
            yield RUN, script([["a", part.format(value)]], 1), "bad object 0"


def steps(part, lines):
    return f"aqs-steps 1 {part}\n" + "".join(f"{line}\n" for line in lines) + f"end {len(lines)}\n"


def history(part, lines):
    numbered = "".join(f"{number} {line}\n" for number, line in enumerate(lines))
    return f"aqs-history 1 {part}\n{numbered}end {len(lines)} {len(lines)}\n"


def lines():
    """Numbers of steps and entries, and numbers of entries."""
    semaphore, lock = "semaphore fair seats 2 permits 1 cap 32", "lock fair seats 2 conditions 16 cap 32"
    for name in ("acquire s {}", "try s {}", "tryfair s {}", "entryinterrupt s {}", "give s {}"):
        amounts = (0, 2147483647, 2147483648, 4294967295)
        yield REPLAY, steps(semaphore, ["0 " + name.format(n) for n in amounts]), None
        yield REPLAY, steps(semaphore, ["0 " + name.format(4294967296)]), "bad line 2"
    for name in ("await {}", "signal {}", "signalall {}"):
        yield REPLAY, steps(lock, ["0 " + name.format(c) for c in (0, 15, 16, 255)]), None
        yield REPLAY, steps(lock, ["0 " + name.format(256)]), "bad line 2"
    yield REPLAY, steps(lock, ["1 try x 1"]), None
    yield REPLAY, steps(lock, ["2 try x 1"]), "bad line 2"
    for words in ("got s {}", "refused s {} Interrupted", "left s {} timeout", "drained s {}", "signal 0 {}"):
        yield AUDIT, history(semaphore, ["0 " + words.format(2147483647)]), None
        yield AUDIT, history(semaphore, ["0 " + words.format(2147483648)]), "bad line 2"
    ends_call = {"signal {} 0": 1, "await {} 1": 0, "lapse {} timeout": 0, "back {} 1 timeout": 1}
    for words, calls in ends_call.items():
        at_limit = history(lock, ["0 " + words.format(15)])
        yield AUDIT, at_limit.replace("end 1 1", f"end 1 {calls}"), None
        yield AUDIT, history(lock, ["0 " + words.format(16)]), "bad line 2"
    for cap in (16, 20):
        part = f"latch seats 1 count 0 cap {cap}"
        yield AUDIT, history(part, ["0 got s 1"] * cap), None
        yield AUDIT, history(part, ["0 got s 1"] * (cap + 1)), f"bad line {cap + 2}"
        yield REPLAY, steps(part, ["0 acquire s 1"] * (cap + 1)), None


def holds():
    """Hold limits: the last that is granted, and the first that is refused."""
    rw = "rw nonfair seats 2 conditions 0 cap 200000"
    read = ["1 acquire s 1", "1 try s 1", "0 give s 1", "1 acquire s 1"]
    yield REPLAY, steps(rw, ["0 acquire s 1"] * 65536 + read), None
    write = ["0 acquire s 1", "1 try x 1", "0 give x 1", "0 try x 1"]
    yield REPLAY, steps(rw, ["0 acquire x 1"] * 65536 + write), None
    most = "semaphore nonfair seats 2 permits 2147483646 cap 64"
    give = ["0 give s 1", "0 give s 1", "1 drain", "0 give s 2147483647", "0 give s 1", "1 look"]
    yield REPLAY, steps(most, give), None
    least = "semaphore nonfair seats 2 permits -2147483648 cap 64"
    wait = ["0 acquire s 0", "1 give s 2147483647", "1 give s 1", "0 look", "1 give s 2147483647"]
    yield REPLAY, steps(least, wait), None


def script(objects, threads, calls=(), repeat=1):
    works = [{"repeat": repeat, "calls": list(calls)}] + [{"repeat": 1, "calls": []}] * (threads - 1)
    return json.dumps({"objects": objects, "threads": works})


def scripts():
    latch = "latch seats {} count 0 cap 16"
    one = [["a", latch.format(1)]]
    named = lambda count: [[f"o{number}", latch.format(1)] for number in range(count)]
    permits = [["a", "semaphore fair seats 1 permits 0 cap 16"]]
    yield RUN, script(named(64), 1), None
    yield RUN, script(named(65), 1), "bad top"
    yield RUN, script([], 1), "bad top"
    yield RUN, script([["a", latch.format(256)]], 256), None
    yield RUN, script([["a", latch.format(257)]], 257), "bad top"
    yield RUN, script(one, 1, (), 1000000), None
    yield RUN, script(one, 1, (), 1000001), "bad thread 0"
    yield RUN, script(one, 1, (), 0), "bad thread 0"
    yield RUN, script(one, 1, ["a give s 1"] * 10000), None
    yield RUN, script(one, 1, ["a give s 1"] * 10001), "bad thread 0"
    for length, fault in ((1, None), (32, None), (0, "bad object 0"), (33, "bad object 0")):
        yield RUN, script([["a" * length, latch.format(1)]], 1), fault
    for call, within, past in (
        ("a try s {}", 4294967295, 4294967296),
        ("a await {}", 255, 256),
        ("interrupt {}", 0, 1),
        ("a acquire-timed s 0 {}", 4294967295, 4294967296),
    ):
        yield RUN, script(permits, 1, [call.format(within)]), None
        yield RUN, script(permits, 1, [call.format(past)]), "bad call 0 0"
    yield RUN, script(named(3), 2), "bad object 0"


def json_limits():
    """Numbers, depths and lengths of JSON texts."""
    deep = lambda levels: '{"objects":%s,"threads":1}' % ("[" * levels + "]" * levels)
    yield RUN, deep(126), "bad top"
    yield RUN, deep(127), "not JSON"
    for levels in (128, 200, 100_000, 1_000_000):
        yield RUN, "[" * levels + "]" * levels, "not JSON"
        yield RUN, "[" * levels, "not JSON"
    one = [["a", "latch seats 1 count 0 cap 16"]]
    call = "bad call 0 0"
    for levels, fault in ((1, call), (123, call), (124, "not JSON"), (100_000, "not JSON")):
        nested = "[" * levels + "]" * levels
        yield RUN, script(one, 1, ["x"]).replace('"x"', nested), fault
    yield RUN, '{"objects":1E308}', "bad top"
    yield RUN, '{"objects":1E309}', "not JSON"
    # A script of 20 MiB, and one whose bad call stands behind 2 MiB.
    yield RUN, script(one, 1, ["a give s 1"]).replace("[", "[" + " " * (20 << 20), 1), None
    works = [{"repeat": 1, "calls": ["a give s 1"] * 10_000} for _ in range(16)]
    works[15]["calls"][9_999] = "a give s"
    objects = [["a", "latch seats 16 count 0 cap 16"]]
    yield RUN, json.dumps({"objects": objects, "threads": works}), "bad call 15 9999"


def crowds():
    """As many threads, objects and conditions as there may be, all in use."""
    objects = [[f"{number}", "semaphore nonfair seats 256 permits 2 cap 4096"] for number in range(64)]
    calls = lambda number: [f"{number} acquire s 1", f"{number} give s 1"]
    works = [{"repeat": 1, "calls": calls(thread % 64)} for thread in range(256)]
    yield RUN, json.dumps({"objects": objects, "threads": works}), None
    calls = ["a acquire x 1", "a await-timed 15 1", "a signalall 15", "a give x 1"]
    at = lambda condition: [call.replace("15", str(condition)) for call in calls]
    works = [{"repeat": 1, "calls": at(thread % 16)} for thread in range(256)]
    objects = [["a", "lock fair seats 256 conditions 16 cap 4294967295"]]
    yield RUN, json.dumps({"objects": objects, "threads": works}), None
    calls = ["a acquire x 1"] + [f"a await-timed {number} 0" for number in range(17)] + ["a give x 1"]
    yield RUN, script([["a", "rw strict seats 1 conditions 16 cap 64"]], 1, calls), None
    latches = [["start", "latch seats 256 count 255 cap 4096"], ["done", "latch seats 256 count 1 cap 4096"]]
    works = [{"repeat": 1, "calls": ["start give s 1", "done acquire s 1"]}] * 255
    works = works + [{"repeat": 1, "calls": ["start acquire s 1", "done give s 1"]}]
    yield RUN, json.dumps({"objects": latches, "threads": works}), None


def sizes():
    """Each number of seats, and each number of conditions. The last seat acquires, and waits on the last condition."""
    for seats, conditions in [*((seats, seats % 17) for seats in range(1, 257)), *((256, it) for it in range(17))]:
        last = seats - 1
        waits = [f"{last} acquire x 1", *[f"{last} await {conditions - 1}"] * (conditions > 0)]
        yield REPLAY, steps(f"lock fair seats {seats} conditions {conditions} cap 64", waits), None
        yield REPLAY, steps(f"rw nonfair seats {seats} conditions {conditions} cap 64", waits), None
        yield REPLAY, steps(f"semaphore strict seats {seats} permits 1 cap 64", [f"{last} acquire s 1"]), None
        yield REPLAY, steps(f"latch seats {seats} count 0 cap 64", [f"{last} acquire s 1"]), None


def is_so(program, words, text, fault):
    try:
        done = subprocess.run([program, *words], input=text.encode(), capture_output=True, timeout=60)
    except subprocess.TimeoutExpired:
        return False
    answer = (done.returncode, done.stdout, done.stderr)
    read = None if words == RUN else (rules.audit if words == AUDIT else rules.replay)(text.encode())
    if fault is not None:
        return answer == (3, b"", f"aqs: {fault}\n".encode()) and read in (None, answer)
    if words == RUN:
        is_good = (answer[0], answer[2], rules.script_fault(text.encode())) == (0, b"", None)
        return is_good and runs.judged(json.loads(text), answer[1]) is None
    return answer == read and answer[0] < 3


def drawn(program, entries, *words):
    """The picture of a lock that one thread acquires and releases, without the line that says what it shows of it."""
    pairs = ["0 got x 1", "0 gave x 1"] * (entries // 2)
    text = history("lock fair seats 1 conditions 0 cap 4096", pairs).encode()
    done = subprocess.run([program, "draw", *words], input=text, capture_output=True, timeout=60)
    lines = done.stdout.splitlines()
    said = [line for line in lines if line.startswith(b"<text x='8' y='36'>")]
    return [line for line in lines if line not in said], said


def pictures(program):
    """A picture for which nobody chose the entries shows the first 2,000, and says so if there are more."""
    yield "draw 2000 entries", drawn(program, 2000) == drawn(program, 2000, "--from", "0")
    first, said = drawn(program, 2002)
    is_said = len(said) == 1 and b">the first 2000 entries of 2002;" in said[0]
    yield "draw 2002 entries", is_said and first == drawn(program, 2002, "--from", "0", "--to", "1999")[0]


def main(words):
    program = str(pathlib.Path(words[0]).resolve())
    passed = failed = 0
    for name, good in pictures(program):
        passed, failed = passed + good, failed + (not good)
        if not good:
            print(f"failed: {name}")
    for asked, text, fault in (*headers(), *lines(), *holds(), *scripts(), *json_limits(), *crowds(), *sizes()):
        good = is_so(program, asked, text, fault)
        passed, failed = passed + good, failed + (not good)
        if not good:
            print(f"failed: {asked[0]} {text[:200]!r}, {fault}")
    print(f"{passed} passed, {failed} failed")
    return 0 if passed and not failed else 1


if __name__ == "__main__":
    if len(sys.argv) != 2:
        sys.exit(__doc__)
    sys.exit(main(sys.argv[1:]))
