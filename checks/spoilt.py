#!/usr/bin/env python3
"""Examples cut after each byte, and with each byte replaced by other values, through the program:
checks/spoilt.py PROGRAM [SEED [TEXTS]].

A SEED, as the hash of a commit, chooses one script and one other file of examples/. Of each some TEXTS are
made, 12,000 if no number is given: each byte has as many values, first those that mean something, then others
by chance. Of all other files each byte has one value, which the seed chooses. Without a SEED all files are taken,
with all values, which takes an hour.

The program must answer each text as checks/rules.py does: with its first fault and nothing written, or whole.
A script that is still good must be run as checks/runs.py says; one of several threads may wait for ever, so
it has half a second. Each text comes with CR LF, NUL and long numbers too, and with a line of a megabyte.
What disagrees is printed. The last line is 'N passed, M failed'.
"""

import collections
import json
import multiprocessing
import pathlib
import random
import re
import subprocess
import sys

import rules
import runs
from program import Program

EXAMPLES = pathlib.Path(__file__).resolve().parent.parent / "examples"

KINDS = {".steps": ["replay"], ".history": ["audit"], ".script": ["run"]}
MEGABYTE = 1_000_000

# Bytes that mean something in a text or in JSON, and neighbours of these.
TELLING = b"\0\n\r\t !\"'+,-./0123456789:;[\\]{}\x7f\x80\xc3\xff@AXZ_`aefnstxz"

# What is put at the end of a line.
ADDED = (b"\r", b"\x00", b" ", b"\t", b"\n", b"\xff", b"\xc3\xa9", b" " * MEGABYTE, b"0" * MEGABYTE)

# What is put in place of a number; `%b` is the number.
NUMBERS = (b"0%b", b"0" * 40 + b"%b", b"+%b", b"-%b", b"%b.0", b"7" * 40, b"1" + b"0" * 39, b"4294967296",
           b"18446744073709551616", b"9" * 400, b"9" * MEGABYTE)


def wanted(words, text):
    """The answer of the rules; None for a script of several threads, or one that waits for ever."""
    if words != ["run"]:
        return rules.audit(text) if words == ["audit"] else rules.replay(text)
    fault = rules.script_fault(text)
    if fault is not None:
        return 3, b"", f"aqs: {fault}\n".encode()
    script = json.loads(text)
    run_text = runs.alone(script) if len(script["threads"]) == 1 else None
    return None if run_text is None else (0, run_text, b"")


def runs_or_waits(program, text):
    """Whether a good script is run, or still waits after half a second."""
    try:
        done = subprocess.run([program.path, "run"], input=text, capture_output=True, timeout=0.5)
    except subprocess.TimeoutExpired:
        return "waits"
    wrong = runs.judged(json.loads(text), done.stdout)
    if (done.returncode, done.stderr, wrong) == (0, b"", None):
        return "is run"
    return done.returncode, done.stdout, done.stderr


def values_for(at, count, seed):
    """So many values for the byte at a place, those that tell most first."""
    order = list(range(256))
    random.Random(f"{seed} {at}").shuffle(order)
    return sorted(order, key=lambda value: value not in TELLING)[:count]


def changes(text, places, count, seed):
    for at in places:
        yield "cut", text[:at]
        for value in values_for(at, count, seed):
            if value != text[at]:
                yield "byte", text[:at] + bytes([value]) + text[at + 1:]


def others(text):
    """Texts that an enemy would send: line ends, NUL, long lines, long numbers."""
    yield "whole", text
    yield "CR LF", text.replace(b"\n", b"\r\n")
    yield "CR", text.replace(b"\n", b"\r")
    for place in re.finditer(rb"\n", text):
        for added in ADDED:
            yield "line", text[:place.start()] + added + text[place.start():]
    for place in re.finditer(rb"[0-9]+", text):
        before, found, behind = text[:place.start()], place.group(), text[place.end():]
        for number in NUMBERS:
            yield "number", before + number.replace(b"%b", found) + behind


def tried(path, file, places, count, seed):
    """How often each kind of answer came, and what disagrees; places are None for the other texts."""
    text, words = file.read_bytes(), KINDS[file.suffix]
    program = Program(path)
    told, wrong = collections.Counter(), []
    for way, spoilt in others(text) if places is None else changes(text, places, count, seed):
        want = wanted(words, spoilt)
        if want is None:
            answer = runs_or_waits(program, spoilt)
            good, kind = isinstance(answer, str), str(answer)
        else:
            answer = program.answer(words, spoilt)
            fault = re.sub(r" [0-9 ]+$", " ..", want[2].decode().strip())
            good, kind = answer == want, fault or f"status {want[0]}"
        told[words[0], "good text" if way == "whole" else way, kind] += 1
        if not good:
            wrong.append((file.name, words, spoilt[:2000], want, answer))
    program.close()
    return told, wrong


def files_by(seed):
    """The files that get many values: the script and the other file that a seed chooses, or all. And the others. Of
    those with the same content there is one."""
    found = {file.read_bytes(): file for file in sorted(EXAMPLES.iterdir()) if file.suffix in KINDS}
    files = sorted(found.values())
    if seed is None:
        return files, []
    chance = random.Random(seed)
    of_a_kind = lambda is_script: [file for file in files if (file.suffix == ".script") == is_script]
    chosen = [chance.choice(of_a_kind(True)), chance.choice(of_a_kind(False))]
    return chosen, [file for file in files if file not in chosen]


def main(words):
    seed = words[1] if len(words) > 1 else None
    texts = int(words[2]) if len(words) > 2 else 12_000
    parts = []
    chosen, others = files_by(seed)
    for file in chosen:
        length = file.stat().st_size
        count = 256 if seed is None else max(len(TELLING), texts // length)
        parts.append((words[0], file, None, count, seed))
        places = [range(at, min(at + 20, length)) for at in range(0, length, 20)]
        parts += [(words[0], file, some, count, seed) for some in places]
        print(f"{file.name}, {min(count, 255)} values a byte")
    parts += [(words[0], file, range(file.stat().st_size), 1, seed) for file in others]
    print(f"{len(others)} other files, 1 value a byte")
    told, wrong = collections.Counter(), []
    with multiprocessing.Pool() as pool:
        for some, bad in pool.starmap(tried, parts, 1):
            told += some
            wrong += bad
    for (name, way, kind), count in sorted(told.items()):
        print(f"{count} of {name}, {way}: {kind}")
    for file, asked, text, want, answer in wrong[:10]:
        print(f"disagrees: {file} {asked} {text!r}\n  wanted {want!r}\n  answer {answer!r}")
    print(f"{sum(told.values()) - len(wrong)} passed, {len(wrong)} failed")
    return 1 if wrong or not told else 0


if __name__ == "__main__":
    if not 2 <= len(sys.argv) <= 4:
        sys.exit(__doc__)
    sys.exit(main(sys.argv[1:]))
