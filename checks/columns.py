#!/usr/bin/env python3
"""Summaries in columns of long histories: checks/columns.py PROGRAM [SEED].

Random histories of 5,001 to 20,000 entries of each object, one of them with a base, one whose seats and conditions
have names, histories of exactly 5,000 and 5,001 entries, and one whose waits all last as long. One that is not legal
has no summary: entries before the first illegal one are drawn.
`aqs draw` must have the status of `aqs audit`. Every number that its summary shows in a tooltip or a line is counted
here from the entries, by checks/rules.py: for how many entries of each column each seat held, waited in the queue and
slept, how many waited at once, how many entries were refused, the free permits or the count, and the longest waits.
What is drawn of them is measured too: the parts of a column from the lower edge up, and where each column stands. The
last line is 'N passed, M failed'.
"""

import pathlib
import random
import re
import sys
import xml.etree.ElementTree as xml

import crowds
import drawn
import rules
from program import Program

COLUMNS, SUMMED, LONGEST, AROUND = 240, 5000, 5, 10
HIGH = 32  # pixels of what is drawn whole
# The lowest edges of the two rows above those of the seats, and where the seats' rows begin.
QUEUE_EDGE, REFUSED_EDGE, TOP, TOP_WITH_AMOUNTS = 108, 148, 152, 192
PARTS = {"x": "exclusive", "s": "shared", "w": "in line", "z": "asleep"}
CLASSES = {"exclusive": "x", "shared": "s", "in line": "v", "asleep": "z"}
SVG = drawn.SVG
# An object, its seats among whom a crowd moves, and the entries of its history.
OBJECTS = (
    ("lock fair seats 9 conditions 2", 5001),
    ("lock nonfair seats 30 conditions 2", 9000),
    ("rw nonfair seats 6 conditions 1", 20000),
    ("rw strict seats 12 conditions 2", 7300),
    ("semaphore strict seats 8 permits 3", 6100),
    ("latch seats 7 count 4000", 8000),
)
BASED, WRONG, NAMED = 1, 3, 0  # which of them have a base, an illegal entry, and names
NAMES = {("seat", 1): "a<b>&c", ("seat", 3): "reader", ("condition", 0): "not-empty"}


def history(part, size, folded, seed):
    """The text of a random history of so many entries, after a base of so many."""
    chance = random.Random(f"{seed} {part}")
    state = rules.State(rules.header_part(f"{part} cap 1000000".encode()))
    base, lines, recent, named = [], [], [], None
    while len(lines) < size:
        seat = crowds.acting(chance, state.header.seats, named, recent[-crowds.RECENT:])
        number, answer = state.entries, state.answer(seat, crowds.step(chance, state, seat))
        if isinstance(answer, str):
            continue
        entry, named = answer
        recent.append(seat)
        lines.append(rules.entry_line(number, entry, None))
        if folded and state.entries == folded:
            state.trim()
            base, lines = rules.base_lines(state), []
    head = f"aqs-history {2 if base else 1} {state.header.part.decode()}\n"
    return "".join([head, *base, *lines, f"end {state.entries} {sum(state.calls)}\n"])


def spoilt(text):
    """The same history with an entry that cannot come: a seat that comes back from a condition it did not wait on, in
    place of the entry at two thirds."""
    lines = text.splitlines()
    at = len(lines) * 2 // 3
    number, seat, *_ = lines[at].split(" ")
    lines[at] = f"{number} {seat} back 0 1 signalled"
    end = lines[-1].split(" ")
    return "\n".join([*lines[:-1], f"end {end[1]} {calls(lines)}"]) + "\n"


def calls(lines):
    """How many calls the entries of a text end, with those of its base."""
    text = "\n".join([*lines[:-1], "end 0 0"]) + "\n"
    words = [line.split(" ") for line in text.splitlines()]
    based = sum(int(each[3]) for each in words if each[0] == "seat")
    return based + sum(each[2] not in rules.NO_CALL for each in words[1:-1] if each[0].isdigit())


def repeated(size, *words):
    """A lock for which the same entries come again and again."""
    lines = [f"{number} {words[number % len(words)]}" for number in range(size)]
    text = [f"aqs-history 1 lock fair seats 3 conditions 0 cap {size + 2}", *lines]
    return "\n".join([*text, f"end {size} {calls([*text, 'end 0 0'])}", ""])


def pairs(size):
    """A lock that one thread of three acquires and releases."""
    return repeated(size, "1 got x 1", "1 gave x 1")


class Counted:
    """What a summary of a text must say, counted entry by entry."""

    def __init__(self, text, names):
        self.header, read_ = rules.read_history(text.encode())
        self.names, self.folded, self.all = names, read_.folded(), len(read_.entries)
        state, self.entries = read_.start(), []
        self.doing, self.queue, self.amounts = [], [], []
        for entry in read_.entries:
            state.add(entry)
            self.entries.append(entry)
            self.doing.append({(seat, kind, at) for seat, kind, at in drawn.levels(state)})
            self.queue.append(len(state.line))
            self.amounts.append({"semaphore": state.free, "latch": state.count}.get(self.header.kind))
        size = len(self.entries)
        self.span = max(-(-size // COLUMNS), 1)
        self.columns = [range(first, min(first + self.span, size)) for first in range(0, size, self.span)]

    def told(self, column):
        return f"entries {self.folded + column.start} to {self.folded + column.stop - 1}"

    def left(self):
        """The left edge of the first column."""
        return drawn.LEFT_OF_NAMES if any(kind == "seat" for kind, _ in self.names) else drawn.LEFT

    def called(self, seat):
        return drawn.called(self.names, "seat", seat)

    def titles(self):
        """All tooltips."""
        for column in self.columns:
            most = max(self.queue[at] for at in column)
            refused = sum(self.entries[at].word.startswith("refused") for at in column)
            if most:
                yield f"{self.told(column)}: in line at most {most}"
            if refused:
                yield f"{self.told(column)}: refused {refused}"
            amounts = [self.amounts[at] for at in column]
            if self.header.kind in ("semaphore", "latch"):
                word = "free" if self.header.kind == "semaphore" else "count"
                yield f"{self.told(column)}: {word} from {min(amounts)} to {max(amounts)}"
            for seat in range(self.header.seats):
                parts = self.parts(seat, column)
                if any(parts.values()):
                    said = ", ".join(f"{part} {count}" for part, count in parts.items())
                    yield f"seat {self.called(seat)}, {self.told(column)}: {said}"

    def parts(self, seat, column):
        """For how many entries of a column a seat did what."""
        parts = dict.fromkeys(PARTS.values(), 0)
        for at in column:
            for part in {PARTS[kind] for who, kind, _ in self.doing[at] if who == seat}:
                parts[part] += 1
        return parts

    def rows(self):
        came = {entry.seat for entry in self.entries} | {seat for now in self.doing for seat, _, _ in now}
        return [f"seat {self.called(seat)}" for seat in sorted(came)]

    def waits(self):
        """All waits: how long, and where from and to, by seat and condition."""
        begun = {}
        for at, now in enumerate([*self.doing, set()]):
            waiting = {key for key in now if key[1] in "wz"}
            for key in [key for key in begun if key not in waiting]:
                first = begun.pop(key)
                yield at - first, first, at - 1, key
            for key in waiting:
                begun.setdefault(key, at)

    def wait_lines(self):
        last = len(self.entries) - 1
        ranked = sorted(self.waits(), key=lambda wait: (-wait[0], wait[1], wait[3][0]))
        for _, first, end, (seat, kind, at) in ranked[:LONGEST]:
            how = "waited in line" if kind == "w" else f"slept on condition {drawn.called(self.names, 'condition', at)}"
            window = f"--from {self.folded + max(first - AROUND, 0)} --to {self.folded + min(end + AROUND, last)}"
            yield (f"seat {self.called(seat)} {how} from entry {self.folded + first} to entry {self.folded + end}:"
                   f" aqs draw {window}")

    def line(self):
        shown = f"entries {self.folded} to {self.folded + len(self.entries) - 1} of {self.folded + self.all}"
        empty = self.header.seats - len(self.rows())
        left_out = f"; seats without a row: {empty}" if empty else ""
        return f"{shown} in columns of {self.span}; --from and --to draw a part{left_out}"


def heights(group):
    """How high each part of a column is drawn, by its class, the left edges of all, and the lowest edge."""
    parts, left, low = {}, set(), 0
    for path in group.iter(f"{SVG}path"):
        x, y, high = map(int, re.fullmatch("M([0-9]+) ([0-9]+)h4v([0-9]+)h-4z", path.get("d")).groups())
        parts[path.get("class")] = high
        left.add(x)
        low = max(low, y + high)
    return parts, left, low


def is_placed(group, title, counted, rows):
    """Whether a column stands above its entries, and in its row: its lowest edge is that of the row. The amounts are
    drawn from the lowest up, above the lowest edge of their row."""
    _, left, low = heights(group)
    column = (int(re.search("entries ([0-9]+)", title)[1]) - counted.folded) // counted.span
    edges = {"in line": QUEUE_EDGE, "refused": REFUSED_EDGE}
    top = TOP_WITH_AMOUNTS if counted.header.kind in ("semaphore", "latch") else TOP
    edges |= {row: top + 40 * at + 36 for at, row in enumerate(rows)}
    wanted = next((edge for name, edge in edges.items() if title.startswith(f"{name}, ") or f": {name} " in title), None)
    return left == {counted.left() + 4 * column} and low in ([wanted] if wanted else range(TOP, TOP_WITH_AMOUNTS))


def is_high(group, title, size):
    """Whether the parts of a seat's column are as high as the shares that its tooltip tells, up to a pixel."""
    found = re.search(": exclusive ([0-9]+), shared ([0-9]+), in line ([0-9]+), asleep ([0-9]+)$", title)
    counts = list(map(int, found.groups()))
    whole, (parts, *_) = max(size, sum(counts)), heights(group)
    edges = [-(-sum(counts[:at]) * HIGH // whole) for at in range(5)]
    wanted = {name: edges[at + 1] - edges[at] for at, name in enumerate("xsvz") if edges[at + 1] > edges[at]}
    return parts == wanted


def faults(picture, counted):
    """What a summary says otherwise than it should."""
    root = xml.fromstring(picture)
    groups = {drawn.title_of(group): group for group in root.iter(f"{SVG}g")}
    titles = [drawn.title_of(group) for group in root.iter(f"{SVG}g")]
    wanted = list(counted.titles())
    if sorted(titles) != sorted(wanted):
        missing, more = sorted(set(wanted) - set(titles)), sorted(set(titles) - set(wanted))
        yield f"{len(missing)} tooltips are missing, as {missing[:1]}, and {len(more)} are others, as {more[:1]}"
    rows = counted.rows()
    for title, group in groups.items():
        first, last = map(int, re.search("entries ([0-9]+) to ([0-9]+)", title).groups())
        if title.startswith("seat ") and not is_high(group, title, last + 1 - first):
            yield f"other heights of: {title}"
        if not is_placed(group, title, counted, rows):
            yield f"another place of: {title}"
    texts = [each.text or "" for each in root.iter(f"{SVG}text")]
    line = next(each.text for each in root.iter(f"{SVG}text") if each.get("y") == "36")
    if line != counted.line():
        yield f"another line: {line}"
    if [text for text in texts if re.fullmatch(r"seat [0-9]+( \(.*\))?", text)] != rows:
        yield "other rows"
    waits = [text for text in texts if ": aqs draw --from" in text]
    if waits != list(counted.wait_lines()):
        yield f"other waits: {waits}"


def fault_of(program, text, names, words):
    """What is wrong with the picture of a text, or None."""
    audited = program.answer(["audit"], text.encode())[0]
    status, picture, said = program.answer(["draw", *words], text.encode())
    if (status, said) != (audited, b""):
        return f"status {status}, {said}"
    if status == 1:
        return None if drawn.is_drawn(picture, text.encode(), names) else "another picture of what is not legal"
    return next(faults(picture, Counted(text, names)), None)


def named(folder):
    """The words that give the names of a file, which is written."""
    file = pathlib.Path(folder) / "names"
    lines = [f"{'condition ' * (kind == 'condition')}{number} {name}\n" for (kind, number), name in NAMES.items()]
    file.write_text("".join(lines))
    return ["--names", str(file)]


def histories(program, seed):
    """Each history by its name, and what is wrong with its summary."""
    for at, (part, size) in enumerate(OBJECTS):
        text = history(part, size, 1234 if at == BASED else 0, seed)
        text = spoilt(text) if at == WRONG else text
        words = named(program.folder.name) if at == NAMED else []
        yield f"{part}, {size} entries", fault_of(program, text, NAMES if words else {}, words)
    yield "5001 entries", fault_of(program, pairs(SUMMED + 1), {}, [])
    even = repeated(SUMMED + 5, "1 got x 1", "2 queued x 1", "1 gave x 1", "2 granted x 1", "2 gave x 1")
    yield "waits that last as long", fault_of(program, even, {}, [])
    short = pairs(SUMMED).encode()
    first = program.answer(["draw", "--from", "0", "--to", "1999"], short)
    cut = program.answer(["draw"], short)
    said = b"the first 2000 entries of 5000; --from and --to choose others"
    is_same = cut[1].replace(said, b"entries 0 to 1999 of 5000") == first[1] and cut[::2] == first[::2]
    yield "5000 entries", None if said in cut[1] and is_same else "not the first 2,000 entries"
    long = pairs(SUMMED + 1).encode()
    window = program.answer(["draw", "--from", "10", "--to", "30"], long)
    yield "a window", None if b"entries 10 to 30 of 5001" in window[1] else "no picture of the window"


def main(words):
    program = Program(pathlib.Path(words[0]).resolve())
    passed = failed = 0
    for name, wrong in histories(program, words[1] if words[1:] else "1"):
        passed, failed = passed + (wrong is None), failed + (wrong is not None)
        if wrong is not None:
            print(f"failed: {name}: {wrong}")
    program.close()
    print(f"{passed} passed, {failed} failed")
    return 0 if passed and not failed else 1


if __name__ == "__main__":
    if len(sys.argv) not in (2, 3):
        sys.exit(__doc__)
    sys.exit(main(sys.argv[1:]))
