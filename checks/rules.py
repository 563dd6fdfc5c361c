"""The rules of docs/SPECIFICATION.md once more, in Python: what `aqs` must answer to a text.

Written from that page alone, so that a program and a reading of it that share no line can be compared.
`replay(text, history)` and `audit(text)` give the status, the output and the line on standard error.
`script_fault(text)` gives the first fault of a thread script, or None.

checks/rules.py replay [--history] [FILE] and checks/rules.py audit [FILE] answer as `aqs` does, to FILE or to standard
input. They need neither the kit nor a program.
"""
import copy
import json
import re
import sys
from collections import namedtuple

LIMIT = 2147483647
READS = 65535
CONDITIONS = 16

Header = namedtuple("Header", "kind policy seats conditions permits count cap part")
Entry = namedtuple("Entry", "seat word mode n at end")
Arrival = namedtuple("Arrival", "seat mode n back")
Step = namedtuple("Step", "name mode n at")
TRIM = "trim"

FOLDED = 10 ** 15
HELD = 10 ** 25

REFUSALS = ("NotOwner", "TooManyHolds", "TooManyPermits", "Interrupted", "HoldsRead")
NO_CALL = ("queued", "await", "lapse")

# The steps of which one may make an entry of this word.
MAKERS = {
    "got": ("acquire", "tryfair"), "trygot": ("try",), "queued": ("acquire",), "missed": ("try", "tryfair"),
    "granted": ("look", "expire"), "left": ("expire", "interrupt"), "lapse": ("expire", "interrupt"),
    "back": ("look", "expire", "interrupt"), "gave": ("give",), "counted": ("give",), "drained": ("drain",),
    "await": ("await",), "signal": ("signal",), "signalall": ("signalall",),
    "refused": ("acquire", "try", "tryfair", "entryinterrupt", "give", "await", "signal", "signalall"),
}


class TextFault(Exception):
    """The first fault of a text, in the words of its line on standard error."""


def number(word, most):
    """The number that a word spells, if it is at most so much."""
    if not word.isdigit() or word.startswith(b"0") and word != b"0" or len(word) > len(str(HELD)):
        return None
    value = int(word)
    return value if value <= most else None


def signed(word):
    """The opening permits that a word spells."""
    if word.startswith(b"-"):
        value = number(word[1:], LIMIT + 1)
        return -value if value else None
    return number(word, LIMIT)


def header_part(part):
    """The header that an object part spells, or None."""
    words = part.split(b" ")
    if words[0] == b"latch":
        names, kind, policy = words[1::2], "latch", None
        values = words[2::2]
        wanted = [b"seats", b"count", b"cap"]
    else:
        kind = {b"lock": "lock", b"rw": "rw", b"semaphore": "semaphore"}.get(words[0])
        if kind is None or len(words) < 2 or words[1] not in (b"fair", b"nonfair", b"strict"):
            return None
        policy = words[1].decode()
        names, values = words[2::2], words[3::2]
        wanted = [b"seats", b"permits" if kind == "semaphore" else b"conditions", b"cap"]
    if names != wanted or len(values) != 3:
        return None
    seats, cap = number(values[0], 256), number(values[2], 4294967295)
    if not seats or cap is None or cap < 16:
        return None
    middle = {
        "latch": lambda word: number(word, LIMIT),
        "semaphore": signed,
        "lock": lambda word: number(word, CONDITIONS),
        "rw": lambda word: number(word, CONDITIONS),
    }[kind](values[1])
    if middle is None:
        return None
    conditions = middle if kind in ("lock", "rw") else 0
    permits = middle if kind == "semaphore" else 0
    count = middle if kind == "latch" else 0
    return Header(kind, policy, seats, conditions, permits, count, cap, part)


class State:
    """What a history says, entry by entry."""

    def __init__(self, header):
        self.header = header
        self.holds = [{"x": 0, "s": 0} for _ in range(header.seats)]
        self.owning, self.reads = None, 0
        self.free = header.permits
        self.unheld = 0
        self.count = header.count
        self.line = []
        self.in_line = {}
        self.sleepers = [[] for _ in range(header.conditions)]
        self.asleep = set()
        self.saved = {}
        self.ends = {}
        self.folded = 0
        self.entries = 0
        self.calls = [0] * header.seats

    def hold(self, seat, mode, change):
        """Adds to the holds of a seat. One seat at most has X holds."""
        holds = self.holds[seat]
        holds[mode] += change
        if mode == "s":
            self.reads += change
        elif holds["x"] or self.owning == seat:
            self.owning = seat if holds["x"] else None

    def owner(self):
        return self.owning

    def readers(self):
        return self.reads

    def could(self, seat, mode, n):
        """Whether a seat could acquire, and whether it is at the limit."""
        kind = self.header.kind
        if kind == "semaphore":
            return self.free - n >= 0, False
        if kind == "latch":
            return self.count == 0, False
        owner = self.owner()
        if kind == "lock" or mode == "x":
            most = LIMIT if kind == "lock" else READS
            if owner == seat:
                own = self.holds[seat]["x"]
                return own < most, own == most
            return owner is None and (kind == "lock" or self.readers() == 0), False
        if owner is not None and owner != seat:
            return False, False
        readers = self.readers()
        return readers < READS, readers == READS

    def is_held_back(self, seat, mode):
        kind = self.header.kind
        if kind == "latch" or not self.line:
            return False
        if kind in ("lock", "rw") and self.holds[seat]["x"]:
            return False
        if kind == "rw" and mode == "s" and self.holds[seat]["s"]:
            return False
        if self.header.policy in ("fair", "strict"):
            return True
        return kind == "rw" and mode == "s" and self.line[0].mode == "x"

    def arrival_of(self, seat):
        return self.in_line.get(seat)

    def is_asleep(self, seat):
        return seat in self.asleep

    def fault_of(self, seat, step):
        """The fault that is not recorded, apart from room."""
        kind, name = self.header.kind, step.name
        permits = kind in ("semaphore", "latch")
        on_condition = name in ("await", "signal", "signalall")
        if (
            (step.mode == "s" and kind == "lock")
            or (step.mode == "x" and permits)
            or (on_condition and permits)
            or (name == "try" and kind == "latch")
            or (name == "drain" and kind != "semaphore")
        ):
            return "WrongMode"
        if on_condition and step.at >= self.header.conditions:
            return "NoSuchCondition"
        if step.n is not None and (step.n > LIMIT or (step.n != 1 and kind != "semaphore")):
            return "BadAmount"
        is_idle = self.arrival_of(seat) is None and not self.is_asleep(seat)
        if (name in ("look", "expire", "interrupt")) == is_idle:
            return "OutOfPhase"
        return None

    def entry_of(self, seat, step):
        """The entry that a step makes which is no unrecorded fault; None if the seat sleeps on."""
        arrival = self.arrival_of(seat)
        if arrival is not None:
            return self.entry_in_line(arrival, step.name)
        if self.is_asleep(seat):
            if step.name == "look":
                return None
            end = "timeout" if step.name == "expire" else "interrupt"
            at = self.saved[seat][0]
            return Entry(seat, "lapse", "x", 0, at, end)
        return self.entry_of_idle(seat, step)

    def entry_in_line(self, arrival, name):
        seat, mode, n, back = arrival
        goes = self.line[0] == arrival and self.could(seat, mode, n)[0]
        if back:
            if not goes:
                return None
            at, held = self.saved[seat]
            return Entry(seat, "back", "x", held, at, self.ends[seat])
        if name == "interrupt":
            return Entry(seat, "left", mode, n, 0, "interrupt")
        if goes:
            return Entry(seat, "granted", mode, n, 0, None)
        return Entry(seat, "left", mode, n, 0, "timeout") if name == "expire" else None

    def entry_of_idle(self, seat, step):
        name, mode, n, at = step
        plain = lambda word: Entry(seat, word, mode, n, 0, None)
        refused = lambda fault: Entry(seat, "refused " + fault, mode or "x", n if mode else 1, 0, None)
        if name in ("acquire", "try", "tryfair"):
            in_turn = name != "try" or self.header.policy == "strict"
            if in_turn and self.is_held_back(seat, mode):
                return plain("queued" if name == "acquire" else "missed")
            could, at_limit = self.could(seat, mode, n)
            if at_limit:
                return refused("TooManyHolds")
            if could:
                return plain("trygot" if name == "try" else "got")
            return plain("queued" if name == "acquire" else "missed")
        if name == "entryinterrupt":
            return refused("Interrupted")
        if name == "give":
            return self.entry_of_release(seat, mode, n, plain, refused)
        if name == "drain":
            return Entry(seat, "drained", "s", max(self.free, 0), 0, None)
        if self.owner() != seat:
            return refused("NotOwner")
        if name == "await":
            if self.holds[seat]["s"]:
                return refused("HoldsRead")
            return Entry(seat, "await", "x", self.holds[seat]["x"], at, None)
        moved = len(self.sleepers[at])
        return Entry(seat, name, "x", min(moved, 1) if name == "signal" else moved, at, None)

    def entry_of_release(self, seat, mode, n, plain, refused):
        kind = self.header.kind
        if kind == "latch":
            return Entry(seat, "counted", "s", 1, 0, None)
        if kind == "semaphore":
            return refused("TooManyPermits") if self.free + n > LIMIT else plain("gave")
        return plain("gave") if self.holds[seat][mode] else refused("NotOwner")

    def add(self, entry):
        """Follows an entry, and tells whom it names."""
        first = self.line[0] if self.line else None
        could = first is not None and self.could(first.seat, first.mode, first.n)[0]
        self.follow(entry)
        self.entries += 1
        self.calls[entry.seat] += entry.word not in NO_CALL
        head = self.line[0] if self.line else None
        if head is None or head.seat == entry.seat:
            return None
        if head == first and could or not self.could(head.seat, head.mode, head.n)[0]:
            return None
        return head.seat

    def follow(self, entry):
        seat, word, mode, n, at, end = entry
        permits = self.header.kind == "semaphore"
        if word in ("got", "trygot", "granted"):
            if self.header.kind != "latch":
                self.hold(seat, mode, n if permits else 1)
            self.free -= n
        if word in ("granted", "left", "back"):
            self.line.remove(self.in_line.pop(seat))
        if word == "queued":
            self.join(Arrival(seat, mode, n, False))
        elif word == "gave" and permits:
            of_own = min(n, self.holds[seat]["s"])
            self.hold(seat, "s", -of_own)
            self.unheld += n - of_own
            self.free += n
        elif word == "gave":
            self.hold(seat, mode, -1)
        elif word == "drained":
            self.hold(seat, "s", n)
            self.free -= n
        elif word == "counted":
            self.count = max(self.count - 1, 0)
        elif word == "await":
            self.saved[seat] = (at, n)
            self.hold(seat, "x", -self.holds[seat]["x"])
            self.sleep(seat, at)
        elif word == "back":
            self.hold(seat, "x", n)
        elif word == "lapse":
            self.sleepers[at].remove(seat)
            self.asleep.remove(seat)
            self.arrive(seat, end)
        elif word in ("signal", "signalall"):
            self.asleep.difference_update(self.sleepers[at][:n])
            for moved in self.sleepers[at][:n]:
                self.arrive(moved, "signalled")
            del self.sleepers[at][:n]

    def join(self, arrival):
        self.line.append(arrival)
        self.in_line[arrival.seat] = arrival

    def sleep(self, seat, at):
        self.sleepers[at].append(seat)
        self.asleep.add(seat)

    def arrive(self, seat, end):
        self.ends[seat] = end
        self.join(Arrival(seat, "x", 1, True))

    def owed(self):
        permits = self.header.kind in ("semaphore", "latch")
        if permits:
            return len(self.line)
        owed = sum(holds["x"] + holds["s"] for holds in self.holds)
        for arrival in self.line:
            owed += self.saved[arrival.seat][1] + 1 if arrival.back else 2
        for asleep in self.sleepers:
            owed += sum(self.saved[seat][1] + 2 for seat in asleep)
        return owed

    def owed_behind(self, entry):
        """What is owed after an entry."""
        permits = self.header.kind in ("semaphore", "latch")
        word, n, owed = entry.word, entry.n, self.owed()
        if permits:
            return owed + (word == "queued") - (word in ("granted", "left"))
        change = {"got": 1, "trygot": 1, "queued": 2, "granted": -1, "left": -2, "gave": -1, "await": 2,
                  "lapse": -1, "signal": -n, "signalall": -n, "back": -1}
        return owed + change.get(word, 0)

    def answer(self, seat, step):
        """The answer to a step: its entry and whom it names, a fault, or sleep. Entries are followed."""
        fault = self.fault_of(seat, step)
        if fault is not None:
            return fault
        entry = self.entry_of(seat, step)
        if entry is None:
            return "sleep"
        if self.entries - self.folded + 1 + self.owed_behind(entry) > self.header.cap:
            return "HistoryFull"
        return entry, self.add(entry)

    def trim(self):
        """Folds all entries, and tells how many; None if that would be more than may be."""
        if self.entries > FOLDED:
            return None
        count = self.entries - self.folded
        self.folded = self.entries
        return count

    def is_entry(self, entry):
        """Whether an entry is that of some step of its seat."""
        seat = entry.seat
        for name in MAKERS[entry.word.split(" ")[0]]:
            if name in ("acquire", "try", "tryfair", "entryinterrupt", "give"):
                step = Step(name, entry.mode, entry.n, None)
            else:
                step = Step(name, None, None, entry.at)
            if self.fault_of(seat, step) is None and self.entry_of(seat, step) == entry:
                return True
        return False

    def totals(self):
        header, line = self.header, len(self.line)
        if header.kind == "latch":
            return f"count {self.count} line {line}\n"
        shared = self.readers()
        if header.kind == "semaphore":
            created = f"created {header.permits} unheld {self.unheld}"
            return f"held {shared} free {self.free} {created} line {line}\n"
        exclusive = sum(holds["x"] for holds in self.holds)
        asleep = sum(len(asleep) for asleep in self.sleepers)
        return f"holds x {exclusive} s {shared} line {line} sleepers {asleep}\n"


def base_lines(state):
    """The lines of the base that a state has just folded all entries into."""
    kind = state.header.kind
    also = {"semaphore": f" unheld {state.unheld}", "latch": f" count {state.count}"}.get(kind, "")
    lines = [f"base {state.folded}{also}\n"]
    for seat, holds in enumerate(state.holds):
        lines.append(f"seat {seat} calls {state.calls[seat]} x {holds['x']} s {holds['s']}\n")
    for arrival in state.line:
        seat = arrival.seat
        if arrival.back:
            at, saved = state.saved[seat]
            lines.append(f"line {seat} back {at} {saved} {state.ends[seat]}\n")
        else:
            lines.append(f"line {seat} queued {arrival.mode} {arrival.n}\n")
    for at, asleep in enumerate(state.sleepers):
        lines.extend(f"sleeper {at} {seat} {state.saved[seat][1]}\n" for seat in asleep)
    return lines


class BaseReader:
    """The lines of a base, one after the other, each added only if a good base can begin so."""

    def __init__(self, header):
        self.state = State(header)
        self.seats = None
        self.waiting = set()
        self.condition = 0

    def has_all_seats(self):
        return self.seats == self.state.header.seats

    def takes(self, words):
        """Whether a line is the next of a good base. None: it is no line of a base, and the base is whole."""
        if self.seats is None:
            return self.begins(words)
        if not self.has_all_seats():
            return self.takes_seat(words)
        if words[0] == b"line" and self.condition == 0 and not any(self.state.sleepers):
            return self.takes_waiter(words[1:])
        if words[0] == b"sleeper":
            return self.takes_sleeper(words[1:])
        return None

    def begins(self, words):
        header, state = self.state.header, self.state
        wanted = {"semaphore": [b"unheld"], "latch": [b"count"]}.get(header.kind, [])
        if words[0] != b"base" or len(words) != 2 + 2 * len(wanted) or words[2:3] != wanted:
            return False
        state.folded = state.entries = number(words[1], FOLDED) or 0
        if state.folded == 0:
            return False
        if wanted:
            value = number(words[3], HELD if header.kind == "semaphore" else header.count)
            if value is None:
                return False
            if header.kind == "semaphore":
                state.unheld = value
            else:
                state.count = value
        self.seats = 0
        return self.can_be_free()

    def can_be_free(self):
        """Whether the seats that are to come can hold what is missing of the permits."""
        state = self.state
        if state.header.kind != "semaphore":
            return True
        state.free = state.header.permits + state.unheld - state.readers()
        to_come = (state.header.seats - self.seats) * HELD
        return state.free >= min(state.header.permits, 0) and state.free - to_come <= LIMIT

    def takes_seat(self, words):
        state, kind, seat = self.state, self.state.header.kind, self.seats
        if len(words) != 8 or words[::2] != [b"seat", b"calls", b"x", b"s"] or words[1] != b"%d" % seat:
            return False
        calls = number(words[3], state.folded)
        most = {"lock": LIMIT, "rw": READS}.get(kind, 0)
        exclusive = number(words[5], most)
        shared = number(words[7], {"rw": READS, "semaphore": HELD}.get(kind, 0))
        if calls is None or exclusive is None or shared is None:
            return False
        owner, readers = state.owner(), state.readers()
        state.calls[seat] = calls
        state.hold(seat, "x", exclusive)
        state.hold(seat, "s", shared)
        self.seats += 1
        if sum(state.calls) > state.folded:
            return False
        if kind == "semaphore":
            return self.can_be_free()
        if exclusive and (owner is not None or readers):
            return False
        return not (shared and owner is not None) and readers + shared <= READS

    def takes_waiter(self, words):
        state, kind = self.state, self.state.header.kind
        seat = number(words[0], state.header.seats - 1) if words else None
        if seat is None or seat in self.waiting:
            return False
        if len(words) == 4 and words[1] == b"queued":
            n = number(words[3], LIMIT)
            mode = words[2].decode() if words[2] in (b"x", b"s") else None
            modes = {"lock": ("x",), "rw": ("x", "s")}.get(kind, ("s",))
            if mode not in modes or n is None or (n != 1 and kind != "semaphore") or state.holds[seat]["x"]:
                return False
            state.join(Arrival(seat, mode, n, False))
        elif len(words) == 5 and words[1] == b"back" and words[4] in (b"signalled", b"timeout", b"interrupt"):
            if not self.saves(seat, words[2], words[3]):
                return False
            state.arrive(seat, words[4].decode())
        else:
            return False
        self.waiting.add(seat)
        return True

    def saves(self, seat, condition, holds):
        """Whether a seat that sleeps or comes back may have saved so many holds on this condition."""
        header = self.state.header
        at = number(condition, header.conditions - 1) if header.conditions else None
        saved = number(holds, LIMIT if header.kind == "lock" else READS)
        own = self.state.holds[seat]
        if at is None or not saved or own["x"] or own["s"]:
            return False
        self.state.saved[seat] = (at, saved)
        return True

    def takes_sleeper(self, words):
        state = self.state
        if len(words) != 3:
            return False
        seat = number(words[1], state.header.seats - 1)
        if seat is None or seat in self.waiting or not self.saves(seat, words[0], words[2]):
            return False
        at = int(words[0])
        if at < self.condition:
            return False
        self.condition = at
        state.sleep(seat, at)
        self.waiting.add(seat)
        return True


def spelt(entry):
    """The words of an entry."""
    word, mode, n, at, end = entry.word, entry.mode, entry.n, entry.at, entry.end
    if word.startswith("refused "):
        return f"refused {mode} {n} {word[8:]}"
    if word in ("await", "signal", "signalall"):
        return f"{word} {at} {n}"
    if word == "lapse":
        return f"lapse {at} {end}"
    if word == "back":
        return f"back {at} {n} {end}"
    return f"{word} {mode} {n}" + (f" {end}" if word == "left" else "")


def entry_line(entry_number, entry, named):
    wakes = "" if named is None else f" wakes {named}"
    return f"{entry_number} {entry.seat} {spelt(entry)}{wakes}\n"


def step_of(words):
    """The step that words spell, or None."""
    name = words[0].decode("latin1")
    if name in ("acquire", "try", "tryfair", "entryinterrupt", "give"):
        if len(words) == 3 and words[1] in (b"x", b"s"):
            n = number(words[2], 4294967295)
            return None if n is None else Step(name, words[1].decode(), n, None)
    elif name in ("await", "signal", "signalall"):
        if len(words) == 2:
            at = number(words[1], 255)
            return None if at is None else Step(name, None, None, at)
    elif name in ("look", "expire", "interrupt", "drain") and len(words) == 1:
        return Step(name, None, None, None)
    return None


def entry_of(seat, words):
    """The entry of a seat that words spell, or None."""
    name, rest = words[0].decode("latin1"), words[1:]
    mode = rest[0].decode() if rest and rest[0] in (b"x", b"s") else None
    at = number(rest[0], CONDITIONS - 1) if rest else None
    n = number(rest[1], LIMIT) if len(rest) > 1 else None
    last = rest[-1].decode("latin1") if rest else None
    if name in ("got", "trygot", "queued", "granted", "missed", "gave"):
        if len(rest) == 2 and mode and n is not None:
            return Entry(seat, name, mode, n, 0, None)
    elif name == "left":
        if len(rest) == 3 and mode and n is not None and last in ("timeout", "interrupt"):
            return Entry(seat, name, mode, n, 0, last)
    elif name == "refused":
        if len(rest) == 3 and mode and n is not None and last in REFUSALS:
            return Entry(seat, "refused " + last, mode, n, 0, None)
    elif name in ("await", "signal", "signalall"):
        if len(rest) == 2 and at is not None and n is not None:
            return Entry(seat, name, "x", n, at, None)
    elif name == "lapse":
        if len(rest) == 2 and at is not None and last in ("timeout", "interrupt"):
            return Entry(seat, name, "x", 0, at, last)
    elif name == "back":
        ends = ("signalled", "timeout", "interrupt")
        if len(rest) == 3 and at is not None and n is not None and last in ends:
            return Entry(seat, name, "x", n, at, last)
    elif name == "counted" and rest == [b"s", b"1"]:
        return Entry(seat, name, "s", 1, 0, None)
    elif name == "drained" and len(rest) == 2 and mode == "s" and n is not None:
        return Entry(seat, name, "s", n, 0, None)
    return None


class Steps:
    """The lines of a steps text behind its header: steps of seats, and trims in format 2."""

    def __init__(self, header, trims):
        self.header, self.trims, self.steps = header, trims, []

    def is_end(self, line):
        return line == b"end %d" % len(self.steps)

    def takes(self, words):
        if self.trims and words == [b"trim"]:
            self.steps.append(TRIM)
            return True
        seat = number(words[0], self.header.seats - 1)
        step = step_of(words[1:]) if len(words) > 1 else None
        if seat is None or step is None:
            return False
        self.steps.append((seat, step))
        return True


class History:
    """The lines of a history text behind its header: those of its base in format 2, and entries."""

    def __init__(self, header, based):
        self.header, self.entries, self.ended = header, [], 0
        self.base = BaseReader(header) if based else None
        self.is_whole = not based

    def folded(self):
        return self.base.state.folded if self.base else 0

    def start(self):
        """What the entries begin from."""
        return copy.deepcopy(self.base.state) if self.base else State(self.header)

    def is_end(self, line):
        if not self.is_whole and not self.base.has_all_seats():
            return False
        calls = self.ended + (sum(self.base.state.calls) if self.base else 0)
        return line == b"end %d %d" % (self.folded() + len(self.entries), calls)

    def takes(self, words):
        if not self.is_whole:
            taken = self.base.takes(words)
            if taken is not None:
                return taken
            self.is_whole = True
        if len(words) < 3 or words[0] != b"%d" % (self.folded() + len(self.entries)):
            return False
        if len(self.entries) >= self.header.cap:
            return False
        seat = number(words[1], self.header.seats - 1)
        entry = None if seat is None else entry_of(seat, words[2:])
        if entry is None:
            return False
        self.entries.append(entry)
        self.ended += entry.word not in NO_CALL
        return True


def read(text, name, lines_of):
    """A text line by line: its header and its lines, by its format; the first fault is raised."""
    at = text.find(b"\n")
    if at < 0:
        raise TextFault("cut short")
    line, line_number = text[:at], 1
    is_second = line.startswith(name + b"2 ")
    begins = is_second or line.startswith(name + b"1 ")
    header = header_part(line[len(name) + 2:]) if begins else None
    if header is None:
        raise TextFault("bad header")
    lines = lines_of(header, is_second)
    while True:
        line_number += 1
        start, at = at + 1, text.find(b"\n", at + 1)
        if at < 0:
            raise TextFault("cut short")
        line = text[start:at]
        if lines.is_end(line):
            break
        if not lines.takes(line.split(b" ")):
            raise TextFault(f"bad line {line_number}")
    if at + 1 < len(text):
        raise TextFault(f"bad line {line_number + 1}")
    return header, lines


def read_steps(text):
    """The header of a steps text, and its steps."""
    return read(text, b"aqs-steps ", Steps)


def read_history(text):
    """The header of a history text, and its base and entries."""
    return read(text, b"aqs-history ", History)


class Answers:
    """What a replay writes: answers, or the history that they leave."""

    def __init__(self, header, second, history):
        self.state, self.second, self.history = State(header), second, history
        self.base, self.lines = [], []

    def trim(self):
        count = self.state.trim()
        if self.history and count is not None:
            self.base, self.lines = base_lines(self.state) if self.state.folded else [], []
        if not self.history:
            self.lines.append("- TrimFull\n" if count is None else f"- trim {count}\n")

    def step(self, seat, step):
        answer = self.state.answer(seat, step)
        if not isinstance(answer, str):
            entry, named = answer
            self.lines.append(entry_line(self.state.entries - 1, entry, None if self.history else named))
        elif not self.history:
            self.lines.append(f"- {seat} {answer}\n")
        return answer

    def text(self):
        state = self.state
        number_of_format = 2 if (state.folded if self.history else self.second) else 1
        first = f"aqs-{'history' if self.history else 'replay'} {number_of_format} {state.header.part.decode()}\n"
        last = f"end {state.entries} {sum(state.calls)}\n"
        return "".join([first, *self.base, *self.lines, last]).encode()


def replay(text, history=False):
    """What `aqs replay`, with `--history` or without, answers to a text."""
    try:
        header, read_ = read_steps(text)
    except TextFault as fault:
        return 3, b"", f"aqs: {fault}\n".encode()
    answers = Answers(header, read_.trims, history)
    for step in read_.steps:
        if step == TRIM:
            answers.trim()
        else:
            answers.step(*step)
    return 0, answers.text(), b""


def audit(text):
    """What `aqs audit` answers to a text."""
    try:
        _, read_ = read_history(text)
    except TextFault as fault:
        return 3, b"", f"aqs: {fault}\n".encode()
    status, verdict_text = verdict(read_)
    return status, verdict_text, b""


def verdict(read_):
    """The status and the audit text of a history that was read."""
    state = read_.start()
    for at, entry in enumerate(read_.entries):
        if not state.is_entry(entry):
            return 1, f"not legal at {state.folded + at}\n".encode()
        state.add(entry)
    base = f"base {state.folded}\n" if read_.base else ""
    counts = f"entries {state.entries}\ncalls {sum(state.calls)}\n"
    return 0, f"legal\n{base}{counts}{state.totals()}".encode()


def is_call(text, names, threads):
    """Whether a text spells a call of a thread script."""
    words = text.encode("utf-8", "surrogatepass").split(b" ")
    if words[0] == b"interrupt":
        return len(words) == 2 and number(words[1], threads - 1) is not None
    if words[0].decode("utf-8", "surrogatepass") not in names or len(words) < 2:
        return False
    name, rest = words[1], words[2:]
    if name in (b"acquire", b"acquire-interruptible", b"acquire-timed", b"try", b"give"):
        wanted = ["mode", 4294967295]
    elif name in (b"await", b"await-interruptible", b"await-timed", b"signal", b"signalall"):
        wanted = [255]
    elif name in (b"drain", b"trim"):
        wanted = []
    else:
        return False
    if name.endswith(b"-timed"):
        wanted.append(4294967295)
    return len(rest) == len(wanted) and all(
        word in (b"x", b"s") if most == "mode" else number(word, most) is not None
        for word, most in zip(rest, wanted)
    )


def finite(word):
    """A number of JSON; one that no double is near is refused, as the kit's reader does."""
    value = float(word)
    if value in (float("inf"), float("-inf")):
        raise ValueError
    return value


def whole(word):
    """A number without fraction and exponent; `-0` is none that is whole."""
    return int(word) if len(word) < 20 and word != "-0" else finite(word)


def no_constant(_word):
    raise ValueError


def depth(value):
    within = value.values() if isinstance(value, dict) else value if isinstance(value, list) else None
    return 0 if within is None else 1 + max(map(depth, within), default=0)


def json_value(text):
    """The JSON value of bytes, at most 127 lists deep. What Python reads and is none is refused."""
    said = text.decode("utf-8")
    if said.startswith("\ufeff"):
        raise ValueError
    value = json.loads(said, parse_constant=no_constant, parse_float=finite, parse_int=whole)
    if depth(value) > 127:
        raise ValueError
    json.dumps(value, ensure_ascii=False).encode("utf-8")
    return value


def script_fault(text):
    """The first fault of a thread script in the words of standard error, or None."""
    try:
        value = json_value(text)
    except (ValueError, RecursionError):
        return "not JSON"
    if not isinstance(value, dict) or sorted(value) != ["objects", "threads"]:
        return "bad top"
    objects, threads = value["objects"], value["threads"]
    if not all(isinstance(list_, list) for list_ in (objects, threads)):
        return "bad top"
    if not 1 <= len(objects) <= 64 or not 1 <= len(threads) <= 256:
        return "bad top"
    names = set()
    for at, pair in enumerate(objects):
        if not isinstance(pair, list) or len(pair) != 2 or not all(isinstance(word, str) for word in pair):
            return f"bad object {at}"
        name = pair[0]
        header = header_part(pair[1].encode("utf-8"))
        if not re.fullmatch(r"[a-z0-9-]{1,32}", name) or name == "interrupt" or name in names:
            return f"bad object {at}"
        if header is None or header.seats != len(threads):
            return f"bad object {at}"
        names.add(name)
    return thread_fault(threads, names)


def thread_fault(threads, names):
    for at, thread in enumerate(threads):
        if not isinstance(thread, dict) or sorted(thread) != ["calls", "repeat"]:
            return f"bad thread {at}"
        repeat, calls = thread["repeat"], thread["calls"]
        if type(repeat) is not int or not 1 <= repeat <= 1000000:
            return f"bad thread {at}"
        if not isinstance(calls, list) or len(calls) > 10000:
            return f"bad thread {at}"
        for position, call in enumerate(calls):
            if not isinstance(call, str) or not is_call(call, names, len(threads)):
                return f"bad call {at} {position}"
    return None


def main(words):
    """Answers as `aqs replay` and `aqs audit` do, and returns the exit status."""
    options = {"replay": ["--history"], "audit": []}
    command, *more = words or ["replay"]
    named = [word for word in more if not word.startswith("-")]
    given = [word for word in more if word.startswith("-")]
    if len(named) > 1 or len(given) > 1 or not set(given) <= set(options.get(command, ())) or command not in options:
        print("aqs: usage", file=sys.stderr)
        return 2
    try:
        with open(named[0], "rb") if named else sys.stdin.buffer as file:
            text = file.read()
    except OSError:
        print("aqs: read failed", file=sys.stderr)
        return 4
    status, told, error = replay(text, given != []) if command == "replay" else audit(text)
    sys.stdout.buffer.write(told)
    sys.stderr.buffer.write(error)
    return status


if __name__ == "__main__":
    sys.exit(main(sys.argv[1:]))
