#!/usr/bin/env python3
"""seats.py AQS [AQS ..]: what a step of a fair lock costs with few and with many seats.

For each program, each mix and each number of seats: nanoseconds a step of `replay`, and of `audit` on the
history that it leaves, the best of so many runs in turn.
"""
import os
import subprocess
import sys
import tempfile
import time

STEPS = 500_000
SEATS = (2, 4, 256)
RUNS = 7


def hand_overs(seats):
    """Everybody waits: the owner gives, the longest waiter takes, the former owner joins the end."""
    yield from (f"{seat} acquire x 1" for seat in range(seats))
    owner = 0
    while True:
        after = (owner + 1) % seats
        yield f"{owner} give x 1"
        yield f"{after} look"
        yield f"{owner} acquire x 1"
        owner = after


def leaves(seats):
    """Seat 0 keeps the lock: one in the middle of the line leaves it and joins the end."""
    yield from (f"{seat} acquire x 1" for seat in range(seats))
    line = list(range(1, seats))
    while True:
        seat = line.pop(len(line) // 2)
        line.append(seat)
        yield f"{seat} interrupt"
        yield f"{seat} acquire x 1"


def write_steps(path, mix, seats):
    steps = mix(seats)
    with open(path, "w") as out:
        out.write(f"aqs-steps 1 lock fair seats {seats} conditions 0 cap 4000000\n")
        out.writelines(next(steps) + "\n" for _ in range(STEPS))
        out.write(f"end {STEPS}\n")


def run(command, source, target):
    """Seconds of one run."""
    with open(source, "rb") as given, open(target, "wb") as out:
        begin = time.perf_counter()
        subprocess.run(command, stdin=given, stdout=out, check=True)
        return time.perf_counter() - begin


def times(programs, folder, mix, seats):
    """Nanoseconds a step of replay and of audit, for each program."""
    steps, history = os.path.join(folder, "steps"), os.path.join(folder, "history")
    answers = os.path.join(folder, "answers")
    write_steps(steps, mix, seats)
    run([programs[0], "replay", "--history"], steps, history)
    best = {}
    for _ in range(RUNS):
        for program in programs:
            for form, source in (("replay", steps), ("audit", history)):
                taken = run([program, form], source, answers) * 1e9 / STEPS
                best[program, form] = min(taken, best.get((program, form), taken))
    return best


def main(programs):
    print(f"{'mix':10} {'seats':>5} " + " ".join(f"{'replay':>7} {'audit':>6}" for _ in programs))
    with tempfile.TemporaryDirectory() as folder:
        for mix in (hand_overs, leaves):
            for seats in SEATS:
                best = times(programs, folder, mix, seats)
                row = " ".join(f"{best[p, 'replay']:7.0f} {best[p, 'audit']:6.0f}" for p in programs)
                print(f"{mix.__name__:10} {seats:5} {row}", flush=True)


if __name__ == "__main__":
    if len(sys.argv) < 2:
        sys.exit(__doc__)
    main(sys.argv[1:])
