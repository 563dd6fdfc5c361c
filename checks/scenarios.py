"""Scenarios: calls on one object, made one at a time, and what the answers of the rules say of each.

A scenario is a text: lines `# ` with its name and what it shows; the object part without its cap; a line for
each call. A call is spelt as in a thread script, with its seat in place of the object's name, or is
`interrupt SEAT`. A timeout is `0`; `short`, which ends before the next call begins; or `long`, which never
ends. `* K` behind a call makes it K times. `hold SEAT` stops a thread that waits: if it is woken it retries
only behind the line `go`, so that others may barge.

`played` makes the steps of each call. A thread that an entry names looks at once, and so on until nobody who
was named has still to look. An interrupt that ends no wait is pending. Then a line says which calls ended and
how, and how the object stands, in the form that checks/java/Scenarios.java writes.
"""
import re
from collections import namedtuple

import rules

CAP = 1000000
LOOKS = 1000
BROKEN = (KeyError, ValueError, IndexError, TypeError, AttributeError)

Scenario = namedtuple("Scenario", "name about part calls")
Told = namedtuple("Told", "lines steps answers designs")

# How a call ends, by the word of the entry that ends it.
ENDS = {"got": "got", "trygot": "got", "granted": "got", "missed": "no", "gave": "done", "counted": "done",
        "signal": "done", "signalall": "done"}
REFUSED = {"NotOwner": "illegal", "TooManyHolds": "limit", "TooManyPermits": "limit",
           "Interrupted": "interrupted"}
BY_END = {"signalled": "done", "timeout": "no", "interrupt": "interrupted"}


class Unfollowed(Exception):
    """An entry that cannot follow those before it."""


def read(text):
    """The scenarios of a text, in its order."""
    for block in re.split(r"\n{2,}", text.strip("\n")):
        lines = block.split("\n")
        about = [line[1:].strip() for line in lines if line.startswith("#")]
        said = [line for line in lines if not line.startswith("#")]
        if said:
            yield Scenario(about[0] if about else "", about[1:], said[0], said[1:])


def spelt(scenario):
    name = [f"# {scenario.name}"] if scenario.name else []
    return "\n".join([*name, scenario.part, *scenario.calls, ""])


def header_of(scenario):
    header = rules.header_part(f"{scenario.part} cap {CAP}".encode())
    if header is None:
        raise ValueError(f"no object part: {scenario.part}")
    return header


def how(entry):
    """How the call of an entry ended."""
    word, _, fault = entry.word.partition(" ")
    if word == "refused":
        return REFUSED.get(fault, fault)
    if word in ("left", "back"):
        return BY_END[entry.end]
    return f"drained {entry.n}" if word == "drained" else ENDS[word]


def seats_told(seats):
    return " ".join(map(str, seats)) or "-"


class Play:
    """A scenario that is played: its steps so far, their answers, and what each thread does. The answers are
    those that are known, and behind them those of `rules.py`."""

    def __init__(self, header, known=()):
        self.header, self.state, self.known = header, rules.State(header), known
        self.steps, self.answers, self.designs = [], [], []
        self.waiting, self.held, self.flags, self.named, self.ended = {}, set(), set(), [], {}

    def step(self, seat, name, mode=None, n=None, at=None):
        """Makes a step, and follows its answer."""
        asked = rules.Step(name, mode, n, at)
        place = len(self.steps)
        self.steps.append((seat, asked))
        if place < len(self.known):
            answer = self.known[place]
            self.answers.append(answer)
            self.follow(answer)
        else:
            answer = self.state.answer(seat, asked)
            self.answers.append(answer)
        if isinstance(answer, str):
            if answer != "sleep":
                self.end(seat, answer)
            return None
        entry, named = answer
        self.after(entry, named)
        return entry

    def follow(self, answer):
        if isinstance(answer, str):
            return
        try:
            self.state.add(answer[0])
        except BROKEN as error:
            raise Unfollowed(str(answer[0])) from error

    def after(self, entry, named):
        """What an entry means for its thread, and for the one that it names."""
        if named is not None and named not in self.named:
            self.named.append(named)
        if entry.word == "lapse":
            self.named.append(entry.seat)
            if self.overtakes(entry.seat):
                self.designs.append("an awaiter that lapsed and overtakes")
        if entry.word not in rules.NO_CALL:
            self.end(entry.seat, how(entry))

    def overtakes(self, seat):
        """Whether a thread that lapsed stands behind others and could acquire, were it not for them."""
        is_behind = len(self.state.line) > 1 and self.header.policy == "nonfair"
        return is_behind and self.state.could(seat, "x", 1)[0]

    def end(self, seat, end):
        self.waiting.pop(seat, None)
        self.ended[seat] = end

    def look(self):
        """Lets each thread that was named and is not held look, until nobody is left."""
        for _ in range(LOOKS):
            free = [seat for seat in self.named if seat not in self.held]
            if not free:
                return
            self.named.remove(free[0])
            self.step(free[0], "look")
        raise Unfollowed("no end of threads that are named")

    def make(self, call):
        """Makes a call, and returns the line that says what it led to."""
        self.ended = {}
        words = call.split(" ")
        if words[0] == "interrupt":
            self.interrupt(int(words[1]))
        elif words[0] == "hold":
            if int(words[1]) not in self.waiting or int(words[1]) in self.held:
                return "busy"
            self.held.add(int(words[1]))
        elif words[0] == "go":
            self.held.clear()
        elif int(words[0]) in self.waiting:
            return "busy"
        else:
            self.designs += filter(None, [design_of_call(self.state, int(words[0]), words[1:])])
            self.call(int(words[0]), words[1:])
        self.look()
        self.designs += filter(None, [design_of_line(self.state)])
        return self.line()

    def call(self, seat, words):
        """Makes a call as often as it says."""
        times = 1
        if "*" in words:
            times, words = int(words[-1]), words[:-2]
        for _ in range(times):
            if seat in self.waiting:
                self.designs.append("a repeated call that waits")
                return
            self.call_once(seat, words)

    def call_once(self, seat, words):
        name, _, way = words[0].partition("-")
        mode, n = (words[1], int(words[2])) if name in ("acquire", "try", "give") else (None, None)
        at = int(words[1]) if name in ("await", "signal", "signalall") else None
        if way and seat in self.flags:
            self.flags.discard(seat)
            self.step(seat, "entryinterrupt", *((mode, n) if mode else ("x", 1)))
            return
        is_now = (way, words[-1]) == ("timed", "0")
        entry = self.step(seat, "tryfair" if is_now and name == "acquire" else name, mode, n, at)
        if entry is None or entry.word not in rules.NO_CALL:
            return
        self.waiting[seat] = way
        if words[-1] == "short":
            self.look()
        if is_now or words[-1] == "short":
            self.step(seat, "expire")

    def interrupt(self, seat):
        """Interrupts a thread. What ends no wait stays pending."""
        if seat in self.held:
            self.designs.append("an interrupt of a thread that is held")
        before = len(self.answers)
        if self.waiting.get(seat):
            self.step(seat, "interrupt")
        if len(self.answers) == before or self.answers[-1] == "sleep":
            self.flags.add(seat)

    def line(self):
        ended = ", ".join(f"{seat} {end}" for seat, end in sorted(self.ended.items())) or "nothing"
        flags = seats_told(seat for seat in sorted(self.flags) if seat not in self.waiting)
        return f"{ended} | {self.stands()} | flags {flags}"

    def stands(self):
        """What the object's observers say. A latch has none of its queue. Only owners can ask who sleeps."""
        state, kind = self.state, self.header.kind
        if kind == "latch":
            return f"count {state.count}"
        if kind == "semaphore":
            return f"free {state.free} | line {seats_told(arrival.seat for arrival in state.line)}"
        is_rw, owner = kind == "rw", state.owner()
        holds = " ".join(self.holds(seat, is_rw) for seat in range(self.header.seats))
        line = seats_told(f"{arrival.seat}{arrival.mode if is_rw else ''}" for arrival in state.line)
        asleep = "?" if owner is None else ", ".join(map(seats_told, state.sleepers)) or "-"
        readers = f"readers {state.readers()} | " if is_rw else ""
        owner = "-" if owner is None else owner
        return f"{readers}owner {owner} | holds {holds} | line {line} | asleep {asleep}"

    def holds(self, seat, is_rw):
        if seat in self.waiting:
            return "."
        holds = self.state.holds[seat]
        return f"{holds['x']}/{holds['s']}" if is_rw else str(holds["x"])


def design_of_call(state, seat, words):
    """The difference by design that a call would meet, or None."""
    name, kind = words[0].partition("-")[0], state.header.kind
    if name == "await" and state.holds[seat]["x"] and state.holds[seat]["s"]:
        return "an await by an owner that reads"
    if kind == "semaphore" and name == "drain" and state.free < 0:
        return "a drain below zero"
    if kind == "semaphore" and name in ("acquire", "try") and wraps(state.free, int(words[2])):
        return "permits that wrap"
    return None


def design_of_line(state):
    """The difference by design that the head of the line is at, or None."""
    head = state.line[0] if state.line else None
    if head is None:
        return None
    kind = state.header.kind
    if kind == "rw" and head.mode == "s" and state.owner() is None and state.readers() == rules.READS:
        return "a queued read at the limit"
    return "permits that wrap" if kind == "semaphore" and wraps(state.free, head.n) else None


def wraps(free, n):
    return free - n < -rules.LIMIT - 1


def play_of(scenario, known):
    """What a scenario is with these answers to its first steps."""
    play, lines = Play(header_of(scenario), known), []
    try:
        for call in scenario.calls:
            lines.append(play.make(call))
    except Unfollowed as error:
        lines.append(f"not followed: {error}")
    return Told(lines, play.steps, play.answers, play.designs)


def step_line(seat, asked):
    words = [str(seat), asked.name]
    words += [] if asked.mode is None else [asked.mode, str(asked.n)]
    return " ".join(words + ([] if asked.at is None else [str(asked.at)]))


def steps_text(scenario, steps):
    lines = [step_line(seat, asked) for seat, asked in steps]
    return "\n".join([f"aqs-steps 1 {scenario.part} cap {CAP}", *lines, f"end {len(lines)}", ""]).encode()


def answer_of(line):
    """The answer that a line of a replay text spells."""
    words = line.split(" ")
    if words[0] == "-":
        return " ".join(words[2:])
    named = None
    if words[-2] == "wakes":
        named, words = int(words[-1]), words[:-2]
    entry = rules.entry_of(int(words[1]), [word.encode() for word in words[2:]])
    if entry is None:
        raise ValueError(f"no answer: {line}")
    return entry, named


def played(scenario, replay):
    """What a scenario is by the answers of a program, which `replay` gives to a steps text.

    Which thread looks next depends on the answers, and the program is asked for all at once. So the steps are
    first made with the answers of `rules.py`. If the program answers otherwise, they are made anew with its
    answers.
    """
    known = []
    while True:
        told = play_of(scenario, known)
        text = replay(steps_text(scenario, told.steps))
        answers = list(map(answer_of, text.decode().split("\n")[1:-2]))
        if len(answers) != len(told.steps):
            raise ValueError(f"{len(answers)} answers to {len(told.steps)} steps")
        if answers == told.answers:
            return told
        same = next(at for at, pair in enumerate(zip(answers, told.answers)) if pair[0] != pair[1])
        known = answers[:same + 1]
