#!/usr/bin/env python3
"""The parts of a lock that runs on past its cap, audited one after the other:
checks/parts.py EXAMPLE_LOCKS AQS [ROUNDS [ENTRIES]].

The parts are those of `example_guards history_in_parts`. Each is a history text that `aqs audit` must call legal.
Its base must say what the part before it left: so many entries, and of each seat the calls and holds, which
are counted here once more. The last line is 'N passed, M failed'.
"""

import subprocess
import sys
import time


def parts(stream):
    """The history texts of a stream."""
    lines = []
    for line in stream:
        if line.startswith(b"aqs-history ") and lines:
            yield lines
            lines = []
        lines.append(line)
    if lines:
        yield lines


def is_base(line):
    return line.startswith((b"base ", b"seat ", b"line ", b"sleeper "))


def left_by(lines, before):
    """Entries, calls and holds of both seats behind a part, counted from those before it."""
    entries, calls, holds = before[0], list(before[1]), list(before[2])
    for line in lines:
        words = line.split()
        if is_base(line) or words[0] in (b"end", b"aqs-history"):
            continue
        entries += 1
        seat = int(words[1])
        calls[seat] += words[2] != b"queued"
        holds[seat] += {b"got": 1, b"granted": 1, b"gave": -1}.get(words[2], 0)
    return entries, calls, holds


def begins_with(lines, before):
    """Whether a part's base says what was left before it."""
    entries, calls, holds = before
    said = [line for line in lines if is_base(line) and not line.startswith(b"line ")]
    if entries == 0:
        return not said
    seats = [f"seat {seat} calls {calls[seat]} x {holds[seat]} s 0\n".encode() for seat in (0, 1)]
    return said == [f"base {entries}\n".encode(), *seats]


def main():
    program, aqs = sys.argv[1:3]
    rounds, entries = (sys.argv[3:5] + ["200", "37"])[:2] if len(sys.argv) < 5 else sys.argv[3:5]
    begun, before, passed, failed = time.time(), (0, [0, 0], [0, 0]), 0, 0
    lock = subprocess.Popen([program, "history_in_parts", rounds, entries], stdout=subprocess.PIPE)
    for lines in parts(lock.stdout):
        audit = subprocess.run([aqs, "audit"], input=b"".join(lines), capture_output=True)
        good = audit.returncode == 0 and audit.stdout.startswith(b"legal\n") and begins_with(lines, before)
        before = left_by(lines, before)
        passed, failed = passed + good, failed + (not good)
    failed += lock.wait() != 0 or before[0] != 5 * int(rounds) or sum(before[1]) != 4 * int(rounds)
    print(f"{before[0]} entries, {sum(before[1])} calls, {time.time() - begun:.0f} seconds")
    print(f"{passed} passed, {failed} failed")
    return 1 if failed else 0


if __name__ == "__main__":
    sys.exit(main())
