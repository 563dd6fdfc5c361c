#!/usr/bin/env python3
"""Devices that fail, and lines and texts without end: checks/devices.py PROGRAM [GIGABYTES].

For each of replay, audit, draw, explain and run: input that comes one byte at a time and output that is taken
so, a terminal at which one Ctrl-D ends a text, a text that is cut short or no text, an output that nobody
reads, a full disk, a folder and a file that may not be read as FILE, files that `-o` makes and replaces or
can't, and ever less memory for data until the system does not load the program. Of eight threads each one in
turn is not started. With GIGABYTES, that much of good steps flows through `aqs replay --history` into `aqs
audit` by pipes, and their greatest memory is told. The last line is 'N passed, M failed'.
"""

import collections
import contextlib
import functools
import json
import os
import pathlib
import pty
import resource
import shutil
import signal
import subprocess
import sys
import tempfile
import termios
import threading
import time

import places
import rules
import runs

STEPS = b"""aqs-steps 1 lock fair seats 2 conditions 0 cap 64
0 acquire x 1
1 acquire x 1
0 give x 1
1 look
end 4
"""
SCRIPT = b"""{"objects":[["a","lock fair seats 1 conditions 0 cap 16"]],
 "threads":[{"repeat":1,"calls":["a acquire x 1","a give x 1"]}]}"""
ENDLESS = b"""{"objects":[["a","latch seats 1 count 1 cap 16"]],
 "threads":[{"repeat":1,"calls":["a acquire s 1"]}]}"""
RUN = b"""object a
aqs-history 1 lock fair seats 1 conditions 0 cap 16
0 0 got x 1
1 0 gave x 1
end 2 2
legal
entries 2
calls 2
holds x 0 s 0 line 0 sleepers 0
shares 2
unrecorded 0
"""
HISTORY = rules.replay(STEPS, True)[1]
EXAMPLES = pathlib.Path(__file__).resolve().parent.parent / "examples"
DRAWN = rules.replay((EXAMPLES / "bounded_buffer.steps").read_bytes(), True)[1]
PICTURE = (EXAMPLES / "bounded_buffer.svg").read_bytes()

# The seconds in which threads have made no call.
LATE = 10

# So many pages fewer, and then each of them if the answer is another.
STEP = 64

# What flows from a pipe: so many equal steps at once.
LINES = 30_000
BLOCK = b"255 entryinterrupt s 2147483647\n" * LINES

# The words of each command, its input, and what it writes.
COMMANDS = [
    (["replay"], STEPS, rules.replay(STEPS)[1]),
    (["replay", "--history"], STEPS, HISTORY),
    (["audit"], HISTORY, rules.audit(HISTORY)[1]),
    (["draw"], DRAWN, PICTURE),
    (["explain"], STEPS, places.RIGHT_STEPS),
    (["run"], SCRIPT, RUN),
]
CUT_SHORT = (3, b"", b"aqs: cut short\n")
NOT_JSON = (3, b"", b"aqs: not JSON\n")
READ_FAILED = (4, b"", b"aqs: read failed\n")
WRITE_FAILED = (4, b"aqs: write failed\n")


def run(program, words, text=b"", **how):
    """The status and both outputs, or no status if the program does not end."""
    try:
        done = subprocess.run([program, *words], input=text, capture_output=True, timeout=60, **how)
    except subprocess.TimeoutExpired as stop:
        return None, stop.stdout or b"", stop.stderr or b""
    return done.returncode, done.stdout, done.stderr


def byte_by_byte(program, words, text):
    """The input is written, and the output read, one byte at a time."""
    child = subprocess.Popen([program, *words], bufsize=0, stdin=subprocess.PIPE, stdout=subprocess.PIPE,
                             stderr=subprocess.PIPE)

    def feed():
        for at in range(len(text)):
            child.stdin.write(text[at:at + 1])
        child.stdin.close()

    feeder = threading.Thread(target=feed)
    feeder.start()
    taken = b"".join(iter(lambda: child.stdout.read(1), b""))
    feeder.join()
    error = child.stderr.read()
    return child.wait(), taken, error


def on_full_disk(program, scratch):
    """An output that can't be written: of runs with options, and of what an explanation says of a file."""
    folder = scratch / "full"
    folder.mkdir()
    for words, text in (
        (["run", "--object", "a"], SCRIPT),
        (["run", "--unrecorded"], SCRIPT),
        (["run", "--dir", str(folder), "--object", "a"], SCRIPT),
        (["run", "--timeout", "300"], ENDLESS),
        (["explain", str(scratch / "none")], b""),
        (["explain", "--json", str(scratch / "none")], b""),
        (["manual"], b""),
    ):
        with open("/dev/full", "wb") as full:
            yield f"{' '.join(words)}, a full disk", into(program, words, text, full) == WRITE_FAILED
    yield "no history is left on a full disk", not list(folder.iterdir())


def at_a_terminal(program, words, text, patience=10):
    """The answer to lines that somebody types at a terminal, and one Ctrl-D after them. None if the program
    still reads then. The lines wait in the terminal, which holds 4,095 bytes."""
    keyboard, terminal = pty.openpty()
    modes = termios.tcgetattr(terminal)
    modes[3] &= ~termios.ECHO  # nobody reads what the terminal would show
    termios.tcsetattr(terminal, termios.TCSANOW, modes)
    with open(keyboard, "wb") as typed, open(terminal, "rb") as lines:
        typed.write(text + modes[6][termios.VEOF])
        typed.flush()
        try:
            done = subprocess.run([program, *words], stdin=lines, capture_output=True, timeout=patience)
        except subprocess.TimeoutExpired:
            return None
    return done.returncode, done.stdout, done.stderr


def is_short(words, text, answer):
    """Whether a command says that a text is cut short. An explanation says where."""
    if words == ["explain"]:
        return answer is not None and places.is_told(text, answer)
    return answer == (NOT_JSON if words == ["run"] else CUT_SHORT)


def is_unread(words, name, answer):
    """Whether a command says that its input can't be read. An explanation names it, and says why."""
    if words != ["explain"]:
        return answer == READ_FAILED
    told = answer[1].startswith(f"cannot read {name}: ".encode()) and answer[1].find(b"\n") == len(answer[1]) - 1
    return told and (answer[0], answer[2]) == (1, b"")


def not_waited_for(program, words):
    """The answer to an input that has nothing yet, and that tells a reader so in place of letting it wait."""
    taken, given = os.pipe()
    os.set_blocking(taken, False)
    try:
        done = subprocess.run([program, *words], stdin=taken, capture_output=True, timeout=60)
    finally:
        os.close(taken)
        os.close(given)
    return done.returncode, done.stdout, done.stderr


def terminals(program, words, text, wanted):
    """Whether one Ctrl-D is enough, after a whole text, after one without its last line, and without any."""
    name, lines = " ".join(words), text.splitlines(keepends=True)
    whole = at_a_terminal(program, words, text.rstrip() + b"\n")
    yield f"{name}, a whole text at a terminal", whole == (0, wanted, b"")
    short = b"".join(lines[:-1])
    cut = at_a_terminal(program, words, short)
    yield f"{name}, a text that is cut short at a terminal", is_short(words, short, cut)
    yield f"{name}, no text at a terminal", is_short(words, b"", at_a_terminal(program, words, b""))


def into(program, words, text, output):
    """The status and the error of a program that writes to an output."""
    done = subprocess.run([program, *words], input=text, stdout=output, stderr=subprocess.PIPE, timeout=60)
    return done.returncode, done.stderr


def closed_pipe(program, words, text):
    reading, writing = os.pipe()
    os.close(reading)
    try:
        return into(program, words, text, writing)
    finally:
        os.close(writing)


def within(program, words, text, pages):
    """The answer with so many pages of data: variables, heap and the stacks of threads. The stack of `main`
    is none of them. A limit of the address space stops its growth too, and then the system ends the program.
    """
    size = pages * resource.getpagesize()

    def limit():
        resource.setrlimit(resource.RLIMIT_DATA, (size, size))

    return run(program, words, text, preexec_fn=limit)


def lacks_memory(words, answer):
    """Whether a command says that it lacked memory. The threads of a script may lack it at each call; then
    the run text counts these calls."""
    if answer[0] == 0:
        if words != ["run"] or answer[2]:
            return False
        return runs.judged(json.loads(SCRIPT), answer[1], lacks_memory=True) is None
    return answer in ((5, b"", b"aqs: out of memory\n"), (4, b"", b"aqs: thread 0 not started\n"))


def less_and_less(answer_at, most):
    """The sizes from the most down, in steps of many pages; between two that are answered otherwise, each."""
    above, kept = most, answer_at(most)
    while above > 1:
        below = max(above - STEP, 1)
        answer = answer_at(below)
        if answer != kept or below == 1:
            yield from range(above - 1, below, -1)
        yield below
        above, kept = below, answer


def little_memory(program, words, text, wanted):
    """Whether a command with ever less memory answers as ever, or lacks memory and writes nothing, down to
    the size at which the system does not load the program."""
    answer_at = functools.lru_cache(None)(lambda pages: within(program, words, text, pages))
    most = next(pages for pages in range(2000, 200_000, 2000) if answer_at(pages)[0] == 0)
    lacked = collections.Counter()
    for pages in less_and_less(answer_at, most):
        answer = answer_at(pages)
        if answer == (0, wanted, b""):
            continue
        if not lacks_memory(words, answer):
            told = ", ".join(f"{count} times {said}" for said, count in lacked.items())
            print(f"  {words}: {told}; at {pages} pages {answer[0]} {answer[2][:80]!r}")
            is_ended = answer[0] is not None and (answer[0] == 127 or answer[0] < 0)
            return bool(lacked) and is_ended and not answer[1]
        lacked[answer[2].decode().strip() or "calls that lack memory"] += 1
    return False


def threads_not_started(program, words, count=8):
    """Whether a script of so many threads tells the lowest that the system does not start: with ever less
    memory the last, then the one before it, down to the first. Nothing is written. The threads wait for each other, so
    those that are started make no call either: it would take its time. With a limit the fault is told at once too."""
    script = {"objects": [["a", f"latch seats {count} count {count} cap 64"]], "threads": []}
    script["threads"] = [{"repeat": 1, "calls": ["a give s 1", f"a acquire-timed s 1 {2 * LATE}000"]}] * count
    text, told = json.dumps(script).encode(), []
    answer_at = lambda pages: within(program, words, text, pages)
    most = next(2000 << doubled for doubled in range(10) if answer_at(2000 << doubled)[0] == 0)
    for pages in range(most, 0, -(most // 128)):
        begun, answer = time.monotonic(), answer_at(pages)
        if answer[0] is None or answer[0] == 4 and LATE < time.monotonic() - begun:
            return False
        if answer[0] == 4 and answer not in told:
            told.append(answer)
    return told == [(4, b"", b"aqs: thread %d not started\n" % number) for number in range(count - 1, -1, -1)]


def as_somebody(program, scratch):
    """The program, and how it is run by a user who may not read every file."""
    if os.geteuid():
        return program, {}
    scratch.chmod(0o755)
    own = shutil.copy(program, scratch / "aqs")
    os.chmod(own, 0o755)
    return own, {"user": 65534}


def stops_after(size):
    """What keeps a program from writing more than so many bytes to a file."""
    signal.signal(signal.SIGXFSZ, signal.SIG_IGN)
    resource.setrlimit(resource.RLIMIT_FSIZE, (size, size))


def outputs(program, words, text, wanted, folder):
    """Files that -o names: what is written to them, and what is left after a fault. No other file is left."""
    folder.mkdir()
    out, fine, unwritten = folder / "out", (0, b"", b""), (4, b"", b"aqs: write failed\n")
    to = lambda file, text=text, **how: run(program, [*words, "-o", str(file)], text, **how)
    holds = lambda told: [file.name for file in folder.iterdir()] == ["out"] and out.read_bytes() == told
    yield "a new file", to(out) == fine and holds(wanted)
    out.write_bytes(b"0" * 100_000)
    out.chmod(0o640)
    yield "a longer file", to(out) == fine and holds(wanted)
    yield "a file keeps its permissions", out.stat().st_mode & 0o777 == 0o640
    out.write_bytes(b"before")
    half = to(out, preexec_fn=lambda: stops_after(len(wanted) // 2))
    yield "a file is as it was when writing fails half way", half == unwritten and holds(b"before")
    unread = run(program, [*words, "-o", str(out), str(folder)])
    if words == ["explain"]:
        told = (unread[0], out.read_bytes(), unread[2])
        yield "an input that is not read", unread[1] == b"" and is_unread(words, folder, told)
    else:
        yield "a file is as it was after an input that is not read", unread == READ_FAILED and holds(b"before")
        out.write_bytes(b"before")
        yield "a file is as it was after a fault", to(out, b"")[0] == 3 and holds(b"before")
    (folder / "out.0.part").write_bytes(b"mine")
    yield "a file beside it stays", to(out) == fine and (folder / "out.0.part").read_bytes() == b"mine"
    (folder / "out.0.part").unlink()
    beside = [folder / f"out.{number}.part" for number in range(100)]
    for part in beside[:99]:
        part.write_bytes(b"mine")
    yield "the last name of a file beside it", to(out) == fine and not beside[99].exists()
    beside[99].write_bytes(b"mine")
    yield "no name for a file beside it is left", to(out) == unwritten and out.read_bytes() == wanted
    for part in beside:
        part.unlink()
    out.write_bytes(text)
    yield "the file that is read", run(program, [*words, "-o", str(out), str(out)]) == fine and holds(wanted)
    unmade = {"a folder": folder, "below a file": out / "below", "in no folder": folder / "none" / "out",
              "without a name": "", "with too long a name": folder / ("n" * 300), "a full disk": "/dev/full"}
    for told, file in unmade.items():
        yield told, to(file) == unwritten and holds(wanted)
    out.write_bytes(wanted * 2)
    (folder / "link").symlink_to(out)
    yield "a link is written in its place", to(folder / "link") == fine and (folder / "link").is_symlink()
    (folder / "link").unlink()
    yield "the file of a link", holds(wanted)
    yield "the standard output by its name", to("/dev/stdout") == (0, wanted, b"")
    yield "no file", to("/dev/null") == fine


def guarded_outputs(own, somebody, folder):
    """A file that may not be written is not replaced, nor is one in a folder that may not be written."""
    folder.mkdir()
    kept = folder / "kept"
    kept.write_bytes(b"before")
    kept.chmod(0o444)
    answers = []
    for mode, file in ((0o777, kept), (0o555, folder / "new")):
        folder.chmod(mode)
        answers.append(run(own, ["replay", "-o", str(file)], STEPS, **somebody))
    folder.chmod(0o755)
    left = [file.name for file in folder.iterdir()] == ["kept"] and kept.read_bytes() == b"before"
    yield "an output that may not be written", left and answers == [(4, b"", b"aqs: write failed\n")] * 2


def guarded_folders(own, somebody, folder):
    """A folder of histories that may not be looked into is a bad one, and one that may not be written is not.
    Nothing is left in either."""
    folder.mkdir()
    words = [own, ["run", "--dir", str(folder)], SCRIPT]
    for name, own_mode, mode, wanted in (
        ("looked into", 0o600, 0o744, (2, b"", b"aqs: bad --dir\n")),
        ("written", 0o500, 0o755, (4, b"", b"aqs: write failed\n")),
    ):
        folder.chmod(mode if somebody else own_mode)
        answer = run(*words, **somebody)
        folder.chmod(0o755)
        yield f"a folder that may not be {name}", answer == wanted and not list(folder.iterdir())


def results(program, scratch):
    hidden = scratch / "hidden"
    hidden.write_bytes(STEPS)
    hidden.chmod(0)
    own, somebody = as_somebody(program, scratch)
    for words, text, wanted in COMMANDS:
        name = " ".join(words)
        yield f"{name}, byte by byte", byte_by_byte(program, words, text) == (0, wanted, b"")
        yield from terminals(program, words, text, wanted)
        yield f"{name}, nobody reads", closed_pipe(program, words, text) == WRITE_FAILED
        with open("/dev/full", "wb") as full:
            yield f"{name}, a full disk", into(program, words, text, full) == WRITE_FAILED
        with open(scratch / "in", "wb") as only_written:
            done = subprocess.run([program, *words], stdin=only_written, capture_output=True, timeout=60)
            answer = (done.returncode, done.stdout, done.stderr)
            yield f"{name}, an input that is not read", is_unread(words, "standard input", answer)
        answer = not_waited_for(program, words)
        yield f"{name}, an input that has nothing yet", is_unread(words, "standard input", answer)
        with open("/dev/null", "rb") as only_read:
            answer = into(program, words, text, only_read)
            yield f"{name}, an output that is not written", answer == WRITE_FAILED
        unread = {"of a folder": scratch, "of no file": scratch / "none", "below a file": hidden / "below"}
        for told, file in unread.items():
            yield f"{name} {told}", is_unread(words, file, run(program, [*words, str(file)]))
        answer = run(own, [*words, str(hidden)], **somebody)
        yield f"{name} of a file that may not be read", is_unread(words, hidden, answer)
        yield f"{name}, no input", run(program, words)[0] == (1 if words == ["explain"] else 3)
        for told, good in outputs(program, words, text, wanted, scratch / name):
            yield f"{name} -o, {told}", good
        yield f"{name}, little memory", little_memory(program, words, text, wanted)
    yield from guarded_outputs(own, somebody, scratch / "guarded")
    yield from guarded_folders(own, somebody, scratch / "unseen")
    yield from on_full_disk(program, scratch)
    for words in ["run"], ["run", "--timeout", "60000"]:
        yield f"{' '.join(words)}, threads that are not started", threads_not_started(program, words)


def feed(replay, blocks):
    """Gives a replay so many blocks of good steps, each an entry. If it ends before, it gets no more."""
    with contextlib.suppress(BrokenPipeError), replay.stdin as steps:
        steps.write(b"aqs-steps 1 semaphore fair seats 256 permits 0 cap 4294967295\n")
        for _ in range(blocks):
            steps.write(BLOCK)
        steps.write(b"end %d\n" % (blocks * LINES))


def flow(program, gigabytes):
    """So much of good steps from a pipe into a history text, and from there into its audit."""
    blocks = max(int(gigabytes * 10**9) // len(BLOCK), 1)
    entries = blocks * LINES
    replay = subprocess.Popen([program, "replay", "--history"], stdin=subprocess.PIPE, stdout=subprocess.PIPE)
    audit = subprocess.Popen([program, "audit"], stdin=replay.stdout, stdout=subprocess.PIPE)
    replay.stdout.close()
    feed(replay, blocks)
    written = audit.stdout.read()
    for name, child in (("replay --history", replay), ("audit", audit)):
        _, status, used = os.wait4(child.pid, 0)
        each = used.ru_maxrss * 1024 / entries
        print(f"  {name}: {used.ru_maxrss} kB at most, {each:.2f} bytes an entry, {used.ru_utime:.0f} s")
        yield f"{name} of {gigabytes:g} GB", status == 0
    wanted = f"legal\nentries {entries}\ncalls {entries}\nheld 0 free 0 created 0 unheld 0 line 0\n"
    yield f"{entries} entries are legal", written == wanted.encode()


def main(words):
    program = str(pathlib.Path(words[0]).resolve())
    passed = failed = 0
    with tempfile.TemporaryDirectory() as scratch:
        tries = flow(program, float(words[1])) if len(words) > 1 else results(program, pathlib.Path(scratch))
        for name, good in tries:
            passed, failed = passed + good, failed + (not good)
            if not good:
                print(f"failed: {name}")
    print(f"{passed} passed, {failed} failed")
    return 0 if passed and not failed else 1


if __name__ == "__main__":
    if len(sys.argv) not in (2, 3):
        sys.exit(__doc__)
    sys.exit(main(sys.argv[1:]))
