#!/usr/bin/env python3
"""Thousands of random steps by up to 256 threads, through the program: checks/crowds.py PROGRAM [SEED].

For each object and policy one list of steps for each number of threads: more than its history has room for.
`aqs replay` must answer as checks/rules.py does, `aqs replay --history` with its entries, and `aqs audit`
with its totals. The lists of an object must make each entry that it has, and each must have a long queue at
some time. The last line is 'N passed, M failed'.
"""

import concurrent.futures
import os
import pathlib
import random
import sys

import rules
from program import Program

STEPS, CAP, RECENT = 3000, 1200, 8
POLICIES = ("fair", "nonfair", "strict")
# The number of threads, and how many of them are in the queue at a time.
CROWDS = ((5, 3), (17, 10), (60, 30), (256, 100))
AT_A_LATCH = ((5, 3), (17, 10), (60, 30), (256, 40))
NAMES = ("acquire", "try", "tryfair", "entryinterrupt", "give", "look", "expire", "interrupt", "await",
         "signal", "signalall", "drain")
TAKEN = {"got", "trygot", "queued", "granted", "missed", "left", "gave", "refused Interrupted"}
OWNED = {"await", "lapse", "signal", "signalall", "back", "refused NotOwner"}
MADE = {
    "lock": TAKEN | OWNED,
    "rw": TAKEN | OWNED,
    "semaphore": TAKEN | {"drained", "refused TooManyPermits"},
    "latch": TAKEN - {"trygot", "gave"} | {"counted"},
}


def objects():
    """The lists of each object: an object part for each number of threads, and how long the queue must be."""
    for policy in POLICIES:
        for part in (f"lock {policy} seats %d conditions 2", f"rw {policy} seats %d conditions 2",
                     f"semaphore {policy} seats %d permits 3"):
            yield [(f"{part} cap {CAP}" % seats, in_line) for seats, in_line in CROWDS]
    yield [(f"latch seats {seats} count 60 cap {CAP}", in_line) for seats, in_line in AT_A_LATCH]


def step(chance, state, seat):
    """A step of a seat, which most often suits what it does."""
    head, own = state.header, state.holds[seat]
    mode = {"lock": "x", "rw": "s" if own["s"] else chance.choice("xs")}.get(head.kind, "s")
    n = 1
    if head.kind == "semaphore":
        n = chance.choice((0, 1, 2, 2, 3, 3, 4, 2147483647))
    if chance.random() < 0.1:
        names = NAMES
    elif state.arrival_of(seat) or state.is_asleep(seat):
        names = ("look",) * 6 + ("expire", "interrupt")
    elif own["x"]:
        names = ("give",) * 6 + ("acquire", "await", "await", "signal", "signalall")
    elif own["s"]:
        names = ("give",) * (2 if head.kind == "semaphore" else 6) + ("acquire", "drain")
    else:
        names = ("acquire",) * 12 + ("try", "try", "tryfair") + ("give",) * (4 * (head.kind == "latch"))
    name = chance.choice(names)
    if name in ("await", "signal", "signalall"):
        return rules.Step(name, None, None, chance.choice((0, 0, 0, 1, 2)))
    if name in ("look", "expire", "interrupt", "drain"):
        return rules.Step(name, None, None, None)
    return rules.Step(name, mode, n, None)


def spelt(seat, asked):
    words = [str(seat), asked.name]
    words += [] if asked.mode is None else [asked.mode, str(asked.n)]
    return " ".join(words + ([] if asked.at is None else [str(asked.at)]))


def acting(chance, seats, named, recent):
    """The seat of the next step: often the one that was named, or one that did something not long ago."""
    way = chance.randrange(4)
    if way == 0 or not recent:
        return chance.randrange(seats)
    return named if way == 1 and named is not None else chance.choice(recent)


def crowd(part, seed):
    """The texts of a list and its totals, which entries it made, and its longest queue."""
    chance = random.Random(f"{seed} {part}")
    state = rules.State(rules.header_part(part.encode()))
    lines, answers, entries, recent, seen, longest, named = [], [], [], [], set(), 0, None
    for _ in range(STEPS):
        seat = acting(chance, state.header.seats, named, recent[-RECENT:])
        asked = step(chance, state, seat)
        lines.append(spelt(seat, asked) + "\n")
        number, answer = state.entries, state.answer(seat, asked)
        if isinstance(answer, str):
            answers.append(f"- {seat} {answer}\n")
            seen.add(answer)
            continue
        entry, named = answer
        recent.append(seat)
        seen.add(entry.word)
        answers.append(rules.entry_line(number, entry, named))
        entries.append(rules.entry_line(number, entry, None))
        longest = max(longest, len(state.line))
    end = f"end {state.entries} {sum(state.calls)}\n"
    steps = "".join([f"aqs-steps 1 {part}\n", *lines, f"end {STEPS}\n"])
    replay = "".join([f"aqs-replay 1 {part}\n", *answers, end])
    history = "".join([f"aqs-history 1 {part}\n", *entries, end])
    totals = f"legal\nentries {state.entries}\ncalls {sum(state.calls)}\n{state.totals()}"
    return (steps, replay, history, totals), seen, longest


def tried(path, lists, seed):
    """What is wrong with the answers to the lists of an object, or None."""
    program, wrong, made = Program(path), [], set()
    for part, in_line in lists:
        (steps, replay, history, totals), seen, longest = crowd(part, seed)
        made |= seen
        if longest < in_line:
            wrong.append(f"{part}: at most {longest} were in the queue")
        for words, given, wanted in ((["replay"], steps, replay), (["replay", "--history"], steps, history),
                                     (["audit"], history, totals)):
            if program.answer(words, given.encode()) != (0, wanted.encode(), b""):
                wrong.append(f"{part}: another answer to {words}, seed {seed}")
    program.close()
    missing = (MADE[lists[0][0].split(" ")[0]] | {"sleep", "HistoryFull"}) - made
    wrong += [f"{lists[0][0]} and others: no {name}" for name in sorted(missing)]
    return "; ".join(wrong) or None


def results(path, seed=1):
    """For each object what is wrong, or None. The objects run side by side."""
    with concurrent.futures.ProcessPoolExecutor(os.cpu_count()) as pool:
        tries = [pool.submit(tried, path, lists, seed) for lists in objects()]
        yield from (each.result() for each in tries)


def main(words):
    path = str(pathlib.Path(words[0]).resolve())
    passed = failed = 0
    for wrong in results(path, *words[1:]):
        passed, failed = passed + (wrong is None), failed + (wrong is not None)
        if wrong is not None:
            print(f"failed: {wrong}")
    print(f"{passed} passed, {failed} failed")
    return 0 if passed and not failed else 1


if __name__ == "__main__":
    if len(sys.argv) not in (2, 3):
        sys.exit(__doc__)
    sys.exit(main(sys.argv[1:]))
