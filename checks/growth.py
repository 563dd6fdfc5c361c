#!/usr/bin/env python3
"""How time and memory grow with the input: checks/growth.py PROGRAM.

Each command gets a text of some size and one four times as long. It may take five times as long at most. It has the
memory that docs/PERFORMANCE.md says of each entry and answer, and no more. Then the same calls are made in an object
of 2 seats and in one of 256, in which the others are idle, wait in line or sleep: that may take twice as long at
most. Then entries are made with one trim behind them all, and without it: that may take three tenths longer at most.
A trim looks at no entry, but a replay keeps a copy of those that it folds. At last threads wait for a second by the
clock, at each kind of object, and each may take five thousandths of it at most, since a thread that waits sleeps.
All other times are those of the processor. The two runs of a case are made by turns, three times each, and the least
time of each counts. Other work on the machine makes some runs slower, so they are made up to twenty times while one
takes too long beside the other. A run that takes longer than a minute fails. If the example program `example_guards`
was built beside PROGRAM, it prints a history of a lock, which goes through `fits` and `write_text`. If `bench_pairs`
was, it opens and closes locks of 64 seats, and as many of 256: that may take six times as long at most. The last
line is 'N passed, M failed'.
"""

import json
import math
import os
import resource
import signal
import subprocess
import sys
import tempfile
import time
from dataclasses import dataclass

RUNS = 3
MOST = 20  # runs, if the least of the first ones take too long
TRIES = 5  # to see threads asleep
SECONDS = 60
LONGER = 4  # the longer text, in lengths of the shorter
TIMES = 5  # as long as the shorter at most
CROWDED = 2  # with 256 seats as long as with 2 at most
TRIM = 1.3  # with one trim as long as without it at most
ENTRY = 8  # bytes of an entry in memory
ANSWER = 3  # bytes of an answer
WHOLE = 32  # bytes more at most of one of a rare kind, whose line is kept, a trim among them
LISTED = 1.4  # answers stand in lists, which have more room than they use
ITSELF = 3 << 20  # bytes that the program takes with a short text
STACKS = 16 << 20  # and with a thread
THREAD = (8 << 20) + 60_000  # bytes of each further thread of a script, most of them for its stack
EXPLAINED = 52  # bytes of a line of some 17 bytes of which an explanation keeps text and entry
UNRECORDED = 500  # bytes of an answer that no history records: in two lists, and its line in a text
START = 0.01  # seconds that a start may take, whatever it does
CLOSES = 5_000  # locks that are opened and closed
WIDER = 6  # as long with 256 seats as with 64 at most
NAP = 1000  # milliseconds for which threads wait
AWAKE = 0.005  # seconds that each of them may take meanwhile
SLEEPERS = 7  # threads that wait


@dataclass
class Case:
    """A command whose text is made of so many rounds, and the bytes that it and each round may take. A word {} of it
    stands for the number of rounds."""

    name: str
    words: list
    rounds: int
    text: callable
    bytes: float
    itself: int = ITSELF
    program: str = ""  # in place of the one that is measured
    status: int = 0  # with which it ends


def steps(object, first, round, count, last="", form=1):
    """A steps text: what comes first, so many rounds, and what comes last."""
    lines = (first + last).count("\n") + round.count("\n") * count
    return (f"aqs-steps {form} {object}\n" + first + round * count + last + f"end {lines}\n").encode()


PAIR = "0 acquire x 1\n0 give x 1\n"
PERMITS = "0 acquire s 1\n0 give s 1\n"
LOCK = "lock fair seats {} conditions 2 cap 4294967295"
LOCKS = "../../example_guards/out/example_guards"  # from the folder of the program
PAIRS = "../../bench_pairs/out/bench_pairs"


def pairs(count):
    return steps(LOCK.format(2), "", PAIR, count)


def trimmed(count):
    return steps(LOCK.format(2), "", PAIR + "trim\n", count, form=2)


def waits(count):
    """A thread holds the lock, and another waits in line and looks."""
    return steps(LOCK.format(2), "0 acquire x 1\n1 acquire x 1\n", "1 look\n", count)


def script(calls, count):
    objects = [["a", "lock fair seats 1 conditions 0 cap 4294967295"]]
    return json.dumps({"objects": objects, "threads": [{"repeat": count, "calls": calls}]}).encode()


def brief(threads):
    """A script in which each thread makes one call."""
    latch = [["a", f"latch seats {threads} count 1 cap 4096"]]
    return json.dumps({"objects": latch, "threads": [{"repeat": 1, "calls": ["a give s 1"]}] * threads}).encode()


def napping(asks, *objects):
    """A script in which threads make calls that wait. Before that, one thread takes the lock `a`, and lets the others
    begin by the latch `go`. Then it sleeps on a condition of the lock `b`, and gives `a` back."""
    seats = SLEEPERS + 1
    known = [["a", LOCK.format(seats)], ["b", LOCK.format(seats)], ["go", f"latch seats {seats} count 1 cap 64"]]
    holds = ["a acquire x 1", "b acquire x 1", "go give s 1", f"b await-timed 0 {NAP}", "b give x 1", "a give x 1"]
    threads = [{"repeat": 1, "calls": holds}]
    threads += [{"repeat": 1, "calls": ["go acquire s 1", *asks]}] * SLEEPERS
    return json.dumps({"objects": known + [[*it] for it in objects], "threads": threads}).encode()


def naps():
    """For each kind of object that threads wait at, the script."""
    seats = SLEEPERS + 1
    rw, permits = f"rw fair seats {seats} conditions 0 cap 64", f"semaphore fair seats {seats} permits 0 cap 64"
    yield "a lock", napping(["a acquire x 1", "a give x 1"])
    # A wait that does not heed the interrupt that is pending.
    yield "a lock, with an interrupt", napping(["interrupt 1", "a acquire x 1", "a give x 1"])
    # The first reader or writer waits for the lock `a` while it writes, and the others for it.
    yield "a read-write lock", napping(["c acquire x 1", "a acquire x 1", "a give x 1", "c give x 1"], ("c", rw))
    yield "a condition", napping(["b acquire x 1", f"b await-timed 1 {NAP}", "b give x 1"])
    yield "a semaphore", napping([f"c acquire-timed s 1 {NAP}"], ("c", permits))
    yield "a latch", napping([f"c acquire-timed s 1 {NAP}"], ("c", f"latch seats {seats} count 1 cap 64"))


def history(program, text):
    """The history that a replay of steps leaves."""
    return subprocess.run([program, "replay", "--history"], input=text, capture_output=True, check=True).stdout


def beside(program, other):
    """The path of another program."""
    return os.path.normpath(f"{os.path.dirname(program)}/{other}")


def growing(program):
    """The cases of a text that grows."""
    call = ["a acquire x 1", "a give x 1"]
    answered = 2 * (ENTRY + LISTED * ANSWER)
    folded = LISTED * (3 * ANSWER + WHOLE)
    legal = lambda count: history(program, pairs(count))
    on_base = lambda count: history(program, steps(LOCK.format(2), PAIR + "trim\n", PAIR, count, form=2))
    yield Case("replay", ["replay"], 200_000, pairs, answered)
    yield Case("replay, its history", ["replay", "--history"], 200_000, pairs, answered)
    yield Case("replay of looks in vain", ["replay"], 200_000, waits, LISTED * ANSWER)
    yield Case("replay with trims", ["replay"], 100_000, trimmed, folded)
    yield Case("replay with trims, its history", ["replay", "--history"], 100_000, trimmed, folded)
    yield Case("audit", ["audit"], 100_000, legal, 0)
    yield Case("audit on a base", ["audit"], 100_000, on_base, 0)
    yield Case("draw", ["draw"], 20_000, legal, 4096)
    yield Case("draw all", ["draw", "--from", "0"], 20_000, legal, 4096)
    yield Case("draw the first entries on a page", ["draw", "--page"], 20_000, legal, 4 * ENTRY)
    yield Case("explain", ["explain"], 100_000, legal, 2 * EXPLAINED)
    yield Case("explain an entry in the middle", ["explain", "--at", "{}"], 100_000, legal, 2 * EXPLAINED)
    misspelt = lambda count: legal(count).replace(b"\nend ", b"\nedn ")
    yield Case("explain a wrong last line", ["explain"], 20_000, misspelt, 4 * EXPLAINED, status=1)
    no_step = lambda count: pairs(count).replace(b"\nend ", b"\nedn ")
    yield Case("explain a wrong last step", ["explain"], 20_000, no_step, 4 * EXPLAINED, status=1)
    yield Case("summary", ["summary"], 100_000, legal, 0)
    yield Case("summary on a base", ["summary"], 100_000, on_base, 0)
    yield Case("run", ["run"], 100_000, lambda count: script(call, count), 2 * ENTRY, STACKS)
    paired, refused = (lambda count, calls=calls: script(calls, count) for calls in (call, ["a drain"]))
    yield Case("run, the history of one object", ["run", "--object", "a"], 100_000, paired, 2 * ENTRY, STACKS)
    yield Case("run, answers that are listed", ["run", "--unrecorded"], 100_000, refused, UNRECORDED, STACKS)
    yield Case("run by many threads", ["run"], 64, brief, THREAD, STACKS)
    yield Case("run with trims", ["run"], 100_000, lambda count: script([*call, "a trim"], count), 0, STACKS)
    locks = beside(program, LOCKS)
    if os.path.exists(locks):
        words = ["history_in_parts", "{}", "4000000"]
        yield Case("a history of a lock", words, 10_000, lambda _: b"", 4096, program=locks)


def signals(object, seats, count):
    """All seats but the first sleep on a condition. One after another is signalled and sleeps again."""
    sleepers = range(1, seats)
    sleep = "".join(f"{seat} acquire x 1\n{seat} await 0\n" for seat in sleepers)
    wake = "".join(f"0 acquire x 1\n0 signal 0\n0 give x 1\n{seat} look\n{seat} await 0\n" for seat in sleepers)
    return steps(object, sleep, wake, count // len(sleepers))


def crowded(program):
    """For each case its name, its words, and its text for so many seats."""
    count = 300_000
    lock = lambda seats: LOCK.format(seats)
    others = lambda seats, words: "".join(f"{seat} {words}\n" for seat in range(2, seats))
    sleep = lambda seats: "".join(f"{seat} acquire x 1\n{seat} await 0\n" for seat in range(2, seats))
    idle = lambda seats: steps(lock(seats), "", PAIR, count)
    waiting = lambda seats: "0 acquire x 1\n1 acquire x 1\n" + others(seats, "acquire x 1")
    line = lambda seats: steps(lock(seats), waiting(seats), "1 look\n" + PAIR, count)
    looks = lambda seats: steps(lock(seats), waiting(seats), "1 look\n", 2 * count)
    before = lambda seats: "0 acquire x 1\n" + others(seats, "acquire x 1")
    leave = lambda seats: steps(lock(seats), before(seats), "1 acquire x 1\n1 interrupt\n", count)
    nap = "0 acquire x 1\n0 await 0\n0 expire\n0 look\n0 give x 1\n"
    asleep = lambda seats: steps(lock(seats), sleep(seats), nap, count)
    folded = lambda seats: steps(lock(seats), "", PAIR * 200 + "trim\n", count // 200, form=2)
    line_folded = lambda seats: steps(lock(seats), waiting(seats), PAIR * 200 + "trim\n", count // 200, form=2)
    left = "1 acquire x 1\n1 interrupt\n" * 100 + "trim\n"
    left_folded = lambda seats: steps(lock(seats), before(seats), left, count // 400, form=2)
    last_looks = lambda seats: steps(lock(seats), waiting(seats), f"{seats - 1} look\n", 2 * count)
    last_owns = lambda seats: steps(lock(seats), "", PAIR.replace("0 ", f"{seats - 1} "), count)
    permits = lambda seats: steps(f"semaphore fair seats {seats} permits 3 cap 4294967295", "", PERMITS, count)
    conditions = lambda seats: steps(lock(seats).replace("conditions 2", f"conditions {min(seats, 16)}"), "", PAIR, count)
    replayed = [("idle", idle), ("in line", line), ("looks", looks), ("leaving", leave), ("asleep", asleep)]
    replayed += [("looks of the last", last_looks), ("the last owns", last_owns), ("permits", permits)]
    trims = [("trims", folded), ("trims with a line", line_folded), ("trims of a line that seats leave", left_folded)]
    for name, text in [*replayed, *trims]:
        yield f"replay, {name}", ["replay"], text
    told = lambda text: lambda seats: history(program, text(seats))
    handed = lambda last: f"0 acquire x 1\n{last} acquire x 1\n0 give x 1\n{last} look\n{last} give x 1\n"
    two_came = lambda seats: steps(lock(seats), "", handed(seats - 1), count // 3)
    audited = [("idle", idle), ("in line", line), ("leaving", leave), ("asleep", asleep)]
    for name, text in [*audited, ("the last owns", last_owns), ("permits", permits), ("conditions", conditions)]:
        yield f"audit, {name}", ["audit"], told(text)
        yield f"draw, {name}", ["draw", "--from", "0"], told(text)
        yield f"summary, {name}", ["summary"], told(text)
        yield f"explain, {name}", ["explain"], told(text)
    yield "draw, two came", ["draw", "--from", "0"], told(two_came)
    yield "draw, signalled", ["draw", "--from", "0"], told(lambda seats: signals(lock(seats), seats, count))


def folding():
    """For each case its name, and its text with so many trims behind all entries."""
    count = 500_000
    line = "0 acquire x 1\n" + "".join(f"{seat} acquire x 1\n" for seat in range(2, 256))
    comes = "1 acquire x 1\n1 interrupt\n"
    yield "pairs", lambda trims: steps(LOCK.format(2), "", PAIR, count, "trim\n" * trims, form=2)
    yield "a line that a seat leaves", lambda trims: steps(LOCK.format(256), line, comes, count, "trim\n" * trims, form=2)


def once(program, words, text, size, wanted=0):
    """The seconds of one run within so many bytes, or None if it took too long or ended with another status."""
    limit = lambda: resource.setrlimit(resource.RLIMIT_DATA, (size, size))
    with tempfile.TemporaryFile() as given:
        given.write(text)
        given.seek(0)
        ran = subprocess.Popen([program, *words], stdin=given, stdout=subprocess.DEVNULL, preexec_fn=limit)
        signal.signal(signal.SIGALRM, lambda *_: ran.kill())
        signal.alarm(SECONDS)
        _, status, used = os.wait4(ran.pid, 0)
        signal.alarm(0)
        ran.returncode = status
    return used.ru_utime + used.ru_stime if os.waitstatus_to_exitcode(status) == wanted else None


def by_turns(first, second, is_good):
    """The least seconds of two runs, or None if one failed. They are made by turns, again while they are not good."""
    least = [math.inf, math.inf]
    for made in range(1, MOST + 1):
        for place, run in enumerate((first, second)):
            seconds = run()
            if seconds is None:
                return None
            least[place] = min(least[place], seconds)
        if RUNS <= made and is_good(*least):
            break
    return least


def judged(least, is_good, names, room=""):
    """Whether two runs are good, and their numbers."""
    if least is None:
        return False, f"failed{room}, or took more than a minute"
    return is_good(*least), ", ".join(f"{seconds:.3f} s {name}" for seconds, name in zip(least, names))


def grows(program, case):
    """Whether a case grows no more than it may, and the numbers."""

    def run_of(rounds):
        size, text = case.itself + int(rounds * case.bytes), case.text(rounds)
        words = [it.format(rounds) for it in case.words]
        return lambda: once(case.program or program, words, text, size, case.status)

    is_good = lambda short, long: long <= TIMES * short + START
    least = by_turns(run_of(case.rounds), run_of(LONGER * case.rounds), is_good)
    names = f"for {case.rounds} rounds", f"for {LONGER * case.rounds}"
    return judged(least, is_good, names, f" in {case.itself} bytes and {case.bytes} for each round")


def wider(program, runs, seats, times):
    """Whether a run with more seats takes at most so many times as long as one with few, and the numbers."""
    first, second = (lambda it=it: once(program, *it, resource.RLIM_INFINITY) for it in runs)
    is_good = lambda few, many: many <= times * few + START
    return judged(by_turns(first, second, is_good), is_good, [f"with {it} seats" for it in seats])


def is_light(program, text):
    """Whether a trim of all entries costs little beside making them, and the numbers."""
    first, second = (lambda it=it: once(program, ["replay"], it, resource.RLIM_INFINITY) for it in (text(0), text(1)))
    is_good = lambda without, trimmed: trimmed <= TRIM * without + START
    return judged(by_turns(first, second, is_good), is_good, ("without a trim", "with one"))


def is_crowd_borne(program, words, text):
    """Whether 256 seats cost little more than 2, and the numbers."""
    return wider(program, [(words, text(2)), (words, text(256))], (2, 256), CROWDED)


def closes(pairs):
    """Whether a lock is closed without a look of each seat at all seats, and the numbers."""
    return wider(pairs, [(["closes", str(it), str(CLOSES)], b"") for it in (64, 256)], (64, 256), WIDER)


def sleeps(program, script):
    """Whether threads wait as long as they are to, and take hardly any time of the processor, and the numbers."""
    begun = time.monotonic()
    seconds, waited = once(program, ["run"], script, resource.RLIM_INFINITY), time.monotonic() - begun
    if seconds is None:
        return False, "failed, or took more than a minute"
    is_asleep = seconds <= START + SLEEPERS * AWAKE and NAP / 1000 <= waited
    return is_asleep, f"{seconds:.3f} s of the processor in {waited:.3f} s for {SLEEPERS} threads and {NAP} ms"


def asleep(program, script):
    """What the first good try of some says of threads that wait."""
    for _ in range(TRIES):
        is_good, numbers = sleeps(program, script)
        if is_good:
            break
    return is_good, numbers


def main(program):
    results = [(case.name, *grows(program, case)) for case in growing(program)]
    results += [(name, *is_crowd_borne(program, words, text)) for name, words, text in crowded(program)]
    results += [(f"replay, one trim of {name}", *is_light(program, text)) for name, text in folding()]
    pairs = beside(program, PAIRS)
    if os.path.exists(pairs):
        results.append(("locks that are closed", *closes(pairs)))
    results += [(f"run, threads that wait at {name}", *asleep(program, script)) for name, script in naps()]
    for name, is_good, numbers in results:
        print(f"{'good' if is_good else 'FAILED'}: {name}: {numbers}", flush=True)
    failed = sum(not is_good for _, is_good, _ in results)
    print(f"{len(results) - failed} passed, {failed} failed")
    return 1 if failed else 0


if __name__ == "__main__":
    if len(sys.argv) != 2:
        sys.exit(__doc__)
    sys.exit(main(os.path.abspath(sys.argv[1])))
