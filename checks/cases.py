#!/usr/bin/env python3
"""Runs the cases of cases/ through the program: checks/cases.py PROGRAM [FILE..].

A file NAME.cases has blocks of lines, separated by blank lines. A block is a case: what the program is asked,
and all that it answers. A block of comments alone is a comment on what follows.

    # text        a comment; the first one of a case is its name, and says what it shows
    $ words       the words of the command line; the word FILE stands for a file that has the input, and NAMES for one
                  that has the names of seats and conditions
    < line        a line of input
    <| text       input without a line break at its end
    <\\ text       the same, with the escapes of a Python bytes literal
    <* N line     the line N times; \\n in it is a line break
    <# A B line   the line for each number from A to B, which # is in it; #*2+1 is twice that and one
    <@ NAME       the bytes of the file NAME of examples/
    + line        a line of names; +| as above
    > line        a line of standard output; >|, >\\, >*, ># and >@ as above
    >~ line       a line of standard output in which each * stands for some number
    >...          any lines of standard output
    ! words       standard error is the line 'aqs: words'; without it, it is empty
    = N           the exit status; without it, it is 0

The input is given on standard input unless a word is FILE. Where nothing is expected the program writes
nothing. A run text is judged by checks/runs.py too. The last line is 'N passed, M failed', and the status is
0 only if nothing failed and something passed.
"""

import codecs
import concurrent.futures
import json
import os
import pathlib
import re
import shlex
import subprocess
import sys
import tempfile

import runs

SECONDS = 60
SHOWN = 600
TOP = pathlib.Path(__file__).resolve().parent.parent
EXAMPLES = TOP / "examples"
MARK = re.compile(r"(\$|!|=|[<>][|\\*#@]?|>~|>\.\.\.|\+\|?)(?: (.*))?")


# Lines that stand for too much to spell it out before it is needed, and how they begin.
MANY = {"*": r"\d+ ", "#": r"\d+ \d+ "}
PATTERNS = (">~", ">...")


class Unreadable(Exception):
    """A file of cases that doesn't have their form."""


class Case:
    """One case: where it stands, its name, its words, its input, its names, and what is expected. Texts are kept as
    their lines spell them, as marks and texts."""

    def __init__(self, file, line):
        self.file, self.line, self.name = file, line, None
        self.words, self.status, self.error = None, 0, b""
        self.given, self.named, self.expected = [], [], []

    def input(self):
        return b"".join(bytes_of(mark, text) for mark, text in self.given)

    def names(self):
        return b"".join(bytes_of(mark, text) for mark, text in self.named)

    def output(self):
        return b"".join(bytes_of(mark, text) for mark, text in self.expected)

    def is_output(self, text):
        if all(mark not in PATTERNS for mark, _ in self.expected):
            return text == self.output()
        pattern = b"".join(pattern_of(mark, line) for mark, line in self.expected)
        return re.fullmatch(pattern, text) is not None

    def is_run(self, text):
        """Whether a text may be that of a run, if this is a run."""
        is_other = self.words[:1] != ["run"] or "--object" in self.words or self.status != 0
        is_listed = "--unrecorded" in self.words
        return is_other or runs.judged(json.loads(self.input()), text, is_listed=is_listed) is None

    def is_answer(self, status, output, error):
        is_told = (status, error) == (self.status, self.error) and self.is_output(output)
        return is_told and self.is_run(output)


def counted(text):
    """The line of a text 'A B line' for each number."""
    first, last, line = text.split(" ", 2)
    parts = re.split(r"#(?:\*(\d+))?([+-]\d+)?", line)
    shape = "%d".join(part.replace("%", "%%") for part in parts[::3])
    places = [(int(times or 1), int(more or 0)) for times, more in zip(parts[1::3], parts[2::3])]
    for number in range(int(first), int(last) + 1):
        yield shape % tuple([number * times + more for times, more in places])


def broken(line):
    """A line with its end, where \\n is a line break too."""
    return (line.replace("\\n", "\n") + "\n").encode()


def bytes_of(mark, text):
    """The bytes that a line of input or of output stands for."""
    kind = mark[1:]
    if kind == "|":
        return text.encode()
    if kind == "\\":
        return codecs.escape_decode(text.encode())[0]
    if kind == "*":
        count, line = text.split(" ", 1)
        return broken(line) * int(count)
    if kind == "#":
        return b"".join(map(broken, counted(text)))
    if kind == "@":
        return (EXAMPLES / text).read_bytes()
    return f"{kind if kind == '...' else text}\n".encode()


def pattern_of(mark, text):
    """A pattern of the bytes that a line of output stands for."""
    if mark == ">...":
        return rb"(?:.*\n)*"
    pattern = re.escape(bytes_of(mark, text))
    return pattern.replace(rb"\*", rb"-?\d+") if mark == ">~" else pattern


def take(case, line):
    """Adds what a line of a block says to its case."""
    if line.startswith("#"):
        case.name = case.name or line[1:].strip()
        return
    found = MARK.fullmatch(line)
    if found is None:
        raise ValueError("no such line")
    mark, text = found[1], found[2] or ""
    if mark == "$":
        if case.words is not None:
            raise ValueError("a second command line")
        case.words = shlex.split(text)
    elif mark == "!":
        case.error = f"aqs: {text}\n".encode()
    elif mark == "=":
        case.status = int(text)
    else:
        if mark[1:] not in MANY or not re.match(MANY[mark[1:]], text):
            bytes_of(mark, text)
        {"<": case.given, "+": case.named, ">": case.expected}[mark[0]].append((mark, text))


def read(text, file="cases"):
    """The cases of a text, in its order."""
    case, cases = None, []
    for number, line in enumerate([*text.split("\n"), ""], 1):
        if line == "":
            if case is not None and (case.words is not None or case.given or case.expected):
                cases.append(case)
            case = None
            continue
        case = case or Case(file, number)
        try:
            take(case, line)
        except (ValueError, OSError) as error:
            raise Unreadable(f"{file}, line {number}: {line!r}: {error}") from error
    for case in cases:
        if case.name is None or case.words is None:
            raise Unreadable(f"{file}, line {case.line}: a case has a name and a command line")
    return cases


def run(program, words, given, named=b""):
    """The exit status, what went to standard output, and what went to standard error."""
    with tempfile.NamedTemporaryFile() as kept, tempfile.NamedTemporaryFile() as names:
        for file, text in ((kept, given), (names, named)):
            file.write(text)
            file.flush()
        if "FILE" in words:
            given = b""
        words = [{"FILE": kept.name, "NAMES": names.name}.get(word, word) for word in words]
        done = subprocess.run([program, *words], input=given, capture_output=True, timeout=SECONDS)
    return done.returncode, done.stdout, done.stderr


def shown(status, output, error, start):
    """An answer for a reader, from a place in its output on; of a long output a part."""
    text = output[start:start + SHOWN].decode(errors="backslashreplace")
    more = f".. ({len(output)} bytes)\n" if len(output) > start + SHOWN else ""
    before = f".. ({start} bytes)\n" if start else ""
    return f"status {status}, standard error {error!r}, standard output\n{before}{text}{more}"


def first_difference(expected, came):
    """Where the first line begins in which two outputs differ; 0 if they don't."""
    if expected == came:
        return 0
    common = len(os.path.commonprefix([expected, came]))
    return expected.rfind(b"\n", 0, common) + 1


def failure(program, case):
    """None, or what differs: the case, what was expected and what came."""
    try:
        answer = run(program, case.words, case.input(), case.names())
    except subprocess.TimeoutExpired:
        answer = (None, b"", b"no answer within a minute")
    if case.is_answer(*answer):
        return None
    start = first_difference(case.output(), answer[1])
    expected = shown(case.status, case.output(), case.error, start)
    place = f"{case.file}, line {case.line}: {case.name}"
    return f"{place}\n$ {shlex.join(case.words)}\n-- expected {expected}-- came {shown(*answer, start)}"


def results(program, files):
    """For each case of the files its failure, or None. The cases run side by side."""
    cases = [case for file in files for case in read(file.read_text(encoding="utf-8"), file.name)]
    with concurrent.futures.ThreadPoolExecutor(os.cpu_count()) as pool:
        yield from pool.map(lambda case: failure(program, case), cases)


def all_files():
    return sorted((TOP / "cases").glob("*.cases"))


def main(words):
    program = str(pathlib.Path(words[0]).resolve())
    files = [pathlib.Path(word) for word in words[1:]] or all_files()
    passed = failed = 0
    for wrong in results(program, files):
        passed, failed = passed + (wrong is None), failed + (wrong is not None)
        if wrong is not None:
            print(f"failed: {wrong}")
    print(f"{passed} passed, {failed} failed")
    return 0 if passed and not failed else 1


if __name__ == "__main__":
    if len(sys.argv) < 2:
        sys.exit(__doc__)
    sys.exit(main(sys.argv[1:]))
