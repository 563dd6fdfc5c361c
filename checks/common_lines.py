#!/usr/bin/env python3
"""The commonest lines are read faster than others: checks/common_lines.py PROGRAM [LINES].

`common_step` and `common_entry` read such a line without cutting it into words. No contract says that they
find it: what they miss is read word by word, with the same answer. So each of these lines is timed beside one
that is none of them, in texts of so many lines. In neither does the object do anything: a step is refused,
and an entry comes after one that is not legal. A line passes if it takes less than MOST of the other's
processor time, the least of some rounds each, and more than LEAST of it: no line may cost much. By
instructions the ratio is 0.73 at most, and 1 if it is read word by word. Once both took equally long in all
rounds of 200,000 lines, for a reason that was not found. So what doesn't pass is tried once more with LONGER
times as many lines. The last line is 'N passed, M failed'.
"""

import os
import pathlib
import sys
import tempfile
from functools import partial

LEAST, MOST, FEWEST, ROUNDS, LINES, LONGER = 0.2, 0.9, 3, 60, 200_000, 5
SEATS = (0, 7, 10, 42, 99, 100, 199, 254, 255)
LATCH, LOCK = "latch seats 256 count 1 cap 4294967295", "lock fair seats 256 conditions 0 cap 4294967295"
# A common step, another one, and an object that refuses both.
STEPS = [(f"{name} x 1", f"{name} x 2", LATCH)
         for name in ("acquire", "give", "try", "tryfair", "entryinterrupt")]
STEPS += [(f"{name} s 1", f"{name} s 2", LOCK) for name in ("acquire", "give")]
STEPS += [(name, "drain", LATCH) for name in ("look", "expire", "interrupt")]
# A common entry, and another one.
ENTRIES = [(f"{name} {mode} 1", f"{name} {mode} 2") for mode in "xs"
           for name in ("got", "gave", "granted", "queued", "missed", "trygot")]
ENTRIES += [(f"left x 1 {end}", f"left x 2 {end}") for end in ("timeout", "interrupt")]
ENTRIES += [("refused x 1 Interrupted", "refused x 2 Interrupted")]


def steps(words, part, lines, seats=SEATS):
    body = "".join(f"{seats[number % len(seats)]} {words}\n" for number in range(lines))
    return f"aqs-steps 1 {part}\n{body}end {lines}\n".encode()


def entries(words, lines, seats=SEATS):
    body = "".join(f"{number} {seats[number % len(seats)]} {words}\n" for number in range(lines))
    calls = 0 if words.startswith("queued") else lines
    return f"aqs-history 1 {LATCH}\n{body}end {lines} {calls}\n".encode()


def pairs():
    """A name, the words of the command line, and what makes a text of so many common lines, and one of others."""
    for common, other, part in STEPS:
        yield common, ["replay"], partial(steps, common, part), partial(steps, other, part)
    for common, other in ENTRIES:
        yield common, ["audit"], partial(entries, common), partial(entries, other)
    for seat in (3, 30, 250):
        texts = [partial(steps, words, LATCH, seats=(seat,)) for words in ("look", "drain")]
        yield f"a step of seat {seat}", ["replay"], *texts
        texts = [partial(entries, words, seats=(seat,)) for words in ("got x 1", "got x 2")]
        yield f"an entry of seat {seat}", ["audit"], *texts


def seconds(program, words, given):
    """The processor time that the program takes for a file, and its status."""
    with open(os.devnull, "wb") as taken:
        os.lseek(given.fileno(), 0, os.SEEK_SET)
        actions = [(os.POSIX_SPAWN_DUP2, given.fileno(), 0), (os.POSIX_SPAWN_DUP2, taken.fileno(), 1)]
        child = os.posix_spawn(program, [program, *words], {}, file_actions=actions)
        _, status, used = os.wait4(child, 0)
    return used.ru_utime + used.ru_stime, os.waitstatus_to_exitcode(status)


def kept(text):
    """A file with this text."""
    file = tempfile.TemporaryFile()
    file.write(text)
    file.flush()
    return file


def is_fast(program, words, common, other):
    """Whether common lines take less time, and not much less, the least of a few rounds. Other work makes a round
    slower."""
    files, taken = (kept(common), kept(other)), ([], [])
    for number in range(1, ROUNDS + 1):
        for times, given in zip(taken, files):
            time, status = seconds(program, words, given)
            if status not in (0, 1):
                return False
            times.append(time)
        if number >= FEWEST and LEAST * min(taken[1]) < min(taken[0]) < MOST * min(taken[1]):
            return True
    print(f"  {min(taken[0]):.3f} s for common lines, {min(taken[1]):.3f} s for others")
    return False


def results(program, lines=LINES):
    for name, words, *texts in pairs():
        is_found = any(is_fast(program, words, *(text(count) for text in texts)) for count in (lines, LONGER * lines))
        yield f"{words[0]}: {name}", is_found


def main(words):
    program = str(pathlib.Path(words[0]).resolve())
    passed = failed = 0
    for name, good in results(program, *map(int, words[1:])):
        passed, failed = passed + good, failed + (not good)
        if not good:
            print(f"failed: {name}")
    print(f"{passed} passed, {failed} failed")
    return 0 if passed and not failed else 1


if __name__ == "__main__":
    if len(sys.argv) not in (2, 3):
        sys.exit(__doc__)
    sys.exit(main(sys.argv[1:]))
