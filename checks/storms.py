#!/usr/bin/env python3
"""Many threads at few objects: checks/storms.py PROGRAM SECONDS [THREADS [OBJECTS [SEED]]].

Scripts by chance, of 64 threads at 4 objects if no number is given, until so many seconds were run. Each
thread holds one object at a time, so that no script waits for ever. Each run is judged by checks/runs.py:
every history is legal, and its entries are the calls of the script's threads. The last line is 'N passed, M
failed'.
"""

import json
import random
import subprocess
import sys
import time

import runs

SECONDS = 120


def objects(chance, threads, count):
    """Objects by name; the latches' counts come later."""
    policy = lambda: chance.choice(("fair", "nonfair", "strict"))
    kinds = [
        lambda: f"lock {policy()} seats {threads} conditions 2 cap 4000000",
        lambda: f"rw {policy()} seats {threads} conditions 1 cap 4000000",
        lambda: f"semaphore {policy()} seats {threads} permits {chance.choice((3, 5, 9))} cap 4000000",
        lambda: f"latch seats {threads} count 0 cap 4000000",
    ]
    return [[f"o-{number}", kinds[number % 4]()] for number in range(count)]


def calls(chance, name, part, threads):
    """Calls that all return: what is acquired is released, and a wait on a condition has a timeout."""
    kind = part.split()[0]
    ms = chance.choice((0, 1, 1, 2))
    if kind == "latch":
        return [f"{name} give s 1", chance.choice((f"{name} acquire s 1", f"{name} acquire-timed s 1 {ms}"))]
    if kind == "semaphore":
        n = chance.choice((1, 1, 2, 3))
        return [f"{name} acquire s {n}", f"{name} give s {n}"]
    if kind == "rw" and chance.random() < 0.5:
        return [f"{name} acquire s 1", f"{name} give s 1"]
    held = [f"{name} acquire x 1"]
    if kind == "rw" and chance.random() < 0.3:
        return held + [f"{name} acquire s 1", f"{name} give x 1", f"{name} give s 1"]
    again = [f"{name} try x 1"] * chance.choice((0, 0, 1, 2))
    waits = [f"{name} await-timed 0 {ms}", f"{name} signal 0", f"{name} signalall 0"]
    waits += [f"interrupt {chance.randrange(threads)}"]
    within = [chance.choice(waits) for _ in range(chance.choice((0, 1, 2)))]
    return held + again + within + [f"{name} give x 1"] * (1 + len(again))


def counts(chance, parts, works):
    """Gives each latch a count. Who counts at it before any other latch does so without waiting for one, so
    the count is at most the number of these threads."""
    latches = [part for part in parts if part[1].startswith("latch")]
    gives = {f"{name} give s 1": name for name, _ in latches}
    first = [next((gives[call] for call in work["calls"] if call in gives), None) for work in works]
    for part in latches:
        count = min(first.count(part[0]), chance.choice((0, 1, 3, len(works))))
        part[1] = part[1].replace("count 0", f"count {count}")


def script(chance, threads, count):
    parts = objects(chance, threads, count)
    works = []
    for _ in range(threads):
        each = []
        for _ in range(chance.randint(2, 6)):
            each += calls(chance, *chance.choice(parts), threads)
        works.append({"repeat": chance.randint(50, 200), "calls": each})
    counts(chance, parts, works)
    return {"objects": parts, "threads": works}


def run(program, said):
    """The run text of a script, or what is wrong with the run: a storm lasts some seconds."""
    try:
        given = json.dumps(said).encode()
        done = subprocess.run([program, "run"], input=given, capture_output=True, timeout=SECONDS)
    except subprocess.TimeoutExpired:
        return b"", f"still waits after {SECONDS} s"
    return done.stdout, (done.returncode or done.stderr) and f"status {done.returncode}, {done.stderr}"


def main(words):
    program, seconds = words[0], float(words[1])
    threads, count, seed = [int(word) for word in words[2:]] + [64, 4, 1][len(words[2:]):]
    chance = random.Random(seed)
    passed = failed = lines = 0
    spent = 0.0
    while spent < seconds:
        said = script(chance, threads, count)
        begun = time.monotonic()
        text, wrong = run(program, said)
        spent += time.monotonic() - begun
        wrong = wrong or runs.judged(said, text)
        passed, failed = passed + (not wrong), failed + bool(wrong)
        lines += text.count(b"\n")
        if wrong:
            print(f"failed: {wrong}\n{json.dumps(said)[:2000]}")
    print(f"{threads} threads at {count} objects: {lines} lines in {spent:.0f} s of runs")
    print(f"{passed} passed, {failed} failed")
    return 0 if passed and not failed else 1


if __name__ == "__main__":
    if not 3 <= len(sys.argv) <= 6:
        sys.exit(__doc__)
    sys.exit(main(sys.argv[1:]))
