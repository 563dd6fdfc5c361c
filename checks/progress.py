#!/usr/bin/env python3
"""The line that says how much of a text was read: checks/progress.py PROGRAM.

- Each command reads a text of more than 50 MB with a terminal as standard error: a line is shown there, written over
  itself, and wiped before a byte of the output or of a fault is written. Of a file it says how long the file is.
- With a pipe, a file or nothing as standard error, nothing is written there, and with a terminal the output is the same
  to the byte: to standard output, to a file, and as a JSON object.
- A fault has its one line on a terminal too. A text of 50 MB has no line.
- A run that goes on for 10 seconds says on a terminal how its threads stand, and a pipe is told nothing.

The last line is 'N passed, M failed'.
"""

import concurrent.futures
import os
import pathlib
import pty
import re
import subprocess
import sys
import tempfile
import termios
import threading
import time

SECONDS = 120
STEP = 50_000_000
LINE = rb"aqs: (\d+)(?: of (\d+))? MB read"


class Terminal:
    """A terminal that keeps what is written to it. It ends with the `with` block."""

    def __init__(self):
        self.leader, self.end = pty.openpty()
        modes = termios.tcgetattr(self.end)
        modes[1] &= ~termios.OPOST  # a line break stays one byte
        termios.tcsetattr(self.end, termios.TCSANOW, modes)
        self.said = b""
        self.reading = threading.Thread(target=self.read)

    def read(self):
        while True:
            try:
                some = os.read(self.leader, 1 << 16)
            except OSError:  # nobody has the terminal any more
                return
            if not some:
                return
            self.said += some

    def __enter__(self):
        self.reading.start()
        return self

    def __exit__(self, *_):
        os.close(self.end)
        self.reading.join()
        os.close(self.leader)


def answer(program, words, text=None, on_terminal=True, both=False):
    """The status, the output, and what standard error was given, which is a terminal or a pipe. With both the output
    goes to the terminal too."""
    words = [program, *map(str, words)]
    given = {"stdin": subprocess.DEVNULL} if text is None else {"input": text}
    if not on_terminal:
        done = subprocess.run(words, capture_output=True, timeout=SECONDS, **given)
        return done.returncode, done.stdout, done.stderr
    with Terminal() as seen:
        out = seen.end if both else subprocess.PIPE
        done = subprocess.run(words, stdout=out, stderr=seen.end, timeout=SECONDS, **given)
    return done.returncode, done.stdout, seen.said


def keyboard(program):
    """The program alone on a terminal says that it reads from the keyboard; with another word it does not."""
    told = b"aqs: reads a steps text from the keyboard; aqs manual says what else it does\n"
    for words in ([], ["replay"]):
        with Terminal() as seen:
            os.write(seen.leader, b"\x04")
            done = subprocess.run([program, *words], stdin=seen.end, stdout=subprocess.PIPE, stderr=seen.end, timeout=SECONDS)
        said = seen.said.replace(b"^D\b\b", b"")
        yield f"{words} at a keyboard", (done.returncode, done.stdout) == (3, b"") and (told in said) == (words == [])
    with Terminal() as seen:
        done = subprocess.run([program], stdin=subprocess.DEVNULL, stderr=seen.end, timeout=SECONDS)
    yield "no keyboard", told not in seen.said


def script_of(call):
    """A script whose one thread makes a call of a semaphore that has no permits."""
    objects = '{"objects": [["never", "semaphore fair seats 1 permits 0 cap 16"]], '
    return f'{objects}"threads": [{{"repeat": 1, "calls": ["never {call}"]}}]}}'.encode()


def told_of(call):
    """What a terminal is told of such a run after 10 seconds."""
    return (b"aqs: not ended after 10000 milliseconds; a thread may be about to go on\n"
            b"thread 0 calls 0 of 1 waits in never %s\n"
            b"aqs: the run goes on; Ctrl-C ends it, and --timeout M ends a run after M milliseconds\n" % call.encode())


def long_runs(program):
    """A long run says on a terminal, once, how its threads stand and which option ends it, and goes on."""
    call = "acquire-timed s 1 20000"
    asked = ([], ["--object", "never"], ["--unrecorded"], ["--timeout", "15000"], ["--timeout", "60000"])
    with concurrent.futures.ThreadPoolExecutor(2 * len(asked) + 1) as pool:
        loud, quiet = ([pool.submit(answer, program, ["run", *words], script_of(call), on_terminal=it) for words in asked]
                       for it in (True, False))
        short = pool.submit(answer, program, ["run"], script_of("try s 1"))
    for words, on, off in zip(asked, loud, quiet):
        status, output, said = on.result()
        is_late, wanted = "15000" in words, b"" if "--timeout" in words else told_of(call)
        yield f"run {words}: a pipe is told nothing", off.result() == (is_late, output, b"") and output != b""
        yield f"run {words}: a terminal is told", (status, said) == (is_late, wanted)
    yield "a short run tells nothing", short.result()[::2] == (0, b"")
    with Terminal() as seen:
        run = subprocess.Popen([program, "run"], stdin=subprocess.PIPE, stdout=subprocess.PIPE, stderr=seen.end)
        run.stdin.write(script_of("acquire s 1"))
        run.stdin.close()
        for _ in range(10 * SECONDS):
            if seen.said == told_of("acquire s 1"):
                break
            time.sleep(0.1)
        is_on = run.poll() is None
        run.kill()
        output = run.stdout.read()
        run.wait()
    yield "a run that waits for ever", is_on and (output, seen.said) == (b"", told_of("acquire s 1"))


def shown(said):
    """What a terminal of one line shows at the end, and what it showed before its cursor went back each time."""
    cells, at, lines = [], 0, []
    for byte in said:
        if byte == ord("\r"):
            text = bytes(cells).rstrip(b" ")
            lines += [text] if text else []
            cells, at = list(text), 0
        else:
            cells[at:at + 1] = [byte]
            at += 1
    return bytes(cells), lines


def is_told(lines, size):
    """Whether lines say how much was read, each more than the one before, and of how much."""
    found = [re.fullmatch(LINE, line) for line in lines]
    if not found or None in found:
        return False
    counts = [int(it[1]) for it in found]
    whole = None if size is None else b"%d" % (size // 1_000_000)
    return counts == sorted(set(counts)) and counts[0] == STEP // 1_000_000 and {it[2] for it in found} == {whole}


def long_steps(size):
    """A steps text of a lock with at least so many bytes, which records nothing."""
    step = b"0 give x 2147483647\n"
    count = size // len(step) + 1
    return b"aqs-steps 1 lock fair seats 1 conditions 0 cap 16\n" + step * count + b"end %d\n" % count


def long_history(size):
    """A history of a lock with at least so many bytes."""
    lines, length, number = [], 0, 0
    while length < size:
        pair = b"%d 0 got x 1\n%d 0 gave x 1\n" % (number, number + 1)
        lines.append(pair)
        length, number = length + len(pair), number + 2
    head = b"aqs-history 1 lock fair seats 1 conditions 0 cap %d\n" % number
    return head + b"".join(lines) + b"end %d %d\n" % (number, number)


def long_script(size):
    """A script of one thread with at least so many bytes, most of them blanks."""
    objects = b'{"objects": [["a", "latch seats 1 count 1 cap 16"]],'
    return objects + b" " * size + b'"threads": [{"repeat": 1, "calls": ["a drain"]}]}'


def results(program, scratch):
    history, steps, script = scratch / "long.history", scratch / "long.steps", scratch / "long.script"
    script.write_bytes(long_script(STEP + 10_000_000))
    history.write_bytes(long_history(2 * STEP + 10_000_000))
    steps.write_bytes(long_steps(STEP + 10_000_000))
    for words, file in ((["replay"], steps), (["audit"], history), (["audit", "--json"], history),
                        (["explain"], history), (["explain"], steps), (["explain", "--json"], history),
                        (["summary"], history), (["summary", "--json"], history), (["draw", "--to", "20"], history),
                        (["draw", "--page", "--to", "20"], history), (["run", "--unrecorded"], script)):
        yield from command(program, words, file)
    text = history.read_bytes()
    quiet, told = (answer(program, ["audit"], text, on_terminal=it) for it in (False, True))
    ends, lines = shown(told[2])
    yield "audit of standard input", told[:2] == quiet[:2] and quiet[2] == b"" and ends == b"" and is_told(lines, None)
    yield from into_files(program, history, scratch)
    yield from keyboard(program)
    yield from long_runs(program)
    yield from with_faults(program, text, scratch)
    yield from on_one_terminal(program, history)
    short = scratch / "short.history"
    short.write_bytes(long_history(STEP - 1_000_000))
    yield "a text of less than 50 MB has no line", answer(program, ["audit", short])[2] == b""
    yield "nor has a short one", answer(program, ["replay"], long_steps(0))[2] == b""


def command(program, words, file):
    """A command answers the same with a terminal as with a pipe, and shows the line there alone."""
    quiet = answer(program, [*words, file], on_terminal=False)
    status, output, said = answer(program, [*words, file])
    ends, lines = shown(said)
    name = " ".join(words)
    yield f"{name} of {file.name}: nothing on a pipe", quiet[0] == 0 and quiet[1] != b"" and quiet[2] == b""
    yield f"{name} of {file.name}: the same output", (status, output) == quiet[:2]
    yield f"{name} of {file.name}: the line, {lines}", is_told(lines, file.stat().st_size)
    yield f"{name} of {file.name}: nothing is left of it", ends == b""


def into_files(program, history, scratch):
    """With -o the line is shown as without. A file as standard error has nothing of it."""
    kept, errors = scratch / "kept", scratch / "errors"
    wanted = answer(program, ["summary", history], on_terminal=False)[1]
    status, output, said = answer(program, ["summary", "-o", kept, history])
    ends, lines = shown(said)
    yield "summary -o: the line", is_told(lines, history.stat().st_size) and ends == b""
    yield "summary -o: the output", (status, output, kept.read_bytes()) == (0, b"", wanted)
    with open(errors, "wb") as to:
        done = subprocess.run([program, "summary", history], stdout=subprocess.PIPE, stderr=to, timeout=SECONDS)
    yield "a file as standard error", (done.returncode, done.stdout, errors.read_bytes()) == (0, wanted, b"")


def with_faults(program, text, scratch):
    """A fault behind the line is the one line that is left."""
    spoilt = text[:text.rindex(b"end ")] + b"no end\n"
    quiet, told = (answer(program, ["audit"], spoilt, on_terminal=it) for it in (False, True))
    ends, lines = shown(told[2])
    yield "a fault is one line on a pipe", re.fullmatch(rb"aqs: bad line \d+\n", quiet[2]) is not None
    yield "a fault is the line that is left", (told[0], ends) == (3, quiet[2]) and is_told(lines, None)
    quiet, told = (answer(program, ["replay"], spoilt, on_terminal=it) for it in (False, True))
    yield "a fault of the first line", quiet[2] == shown(told[2])[0] == b"aqs: bad header\n"
    wrong = scratch / "wrong.history"
    wrong.write_bytes(spoilt)
    quiet, told = (answer(program, ["explain", wrong], on_terminal=it) for it in (False, True))
    yield "a place that is wrong", quiet[:2] == told[:2] and quiet[0] == 1 and shown(told[2])[0] == b""


def on_one_terminal(program, history):
    """On one terminal the output begins where the line was, and has nothing of it."""
    wanted = answer(program, ["summary", history], on_terminal=False)[1]
    status, _, said = answer(program, ["summary", history], both=True)
    ends, lines = shown(said)
    good = (status, ends) == (0, wanted) and is_told(lines, history.stat().st_size)
    yield "the output and the line on one terminal", good


def main(program):
    passed = failed = 0
    with tempfile.TemporaryDirectory() as scratch:
        for name, good in results(program, pathlib.Path(scratch)):
            passed, failed = passed + bool(good), failed + (not good)
            if not good:
                print(f"FAILED: {name}")
    print(f"{passed} passed, {failed} failed")
    return 0 if passed and not failed else 1


if __name__ == "__main__":
    if len(sys.argv) != 2:
        sys.exit(__doc__)
    sys.exit(main(sys.argv[1]))
