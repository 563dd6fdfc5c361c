"""What `aqs run` must answer to a good thread script, by docs/SPECIFICATION.md alone.

`alone(script)` is the whole run text of a script of one thread. `judged(script, text)` says what is wrong
with the run text of any script: each history must be legal by `rules.py` and have the audit text that follows
it, and the entries of each seat must be those of its thread's calls, in order. Only a call with a fault, or
one for which there may be no room, has none. With `is_listed` both are of a run with `--unrecorded`, whose text
ends with a line for each of these. A script is the value of its JSON text. The program is asked nothing.
"""

import collections
import functools
import re

import rules

PART = re.compile(
    rb"object ([a-z0-9-]+)\n(aqs-history .*?\nend \d+ \d+\n)((?:not )?legal.*?\n)shares (\d+)\n", re.S
)
LAST = re.compile(rb"unrecorded (\d+)\n")
ANSWER = re.compile(r"thread (\d+) call (\d+) .*")

Part = collections.namedtuple("Part", "name history audit shares")

# The entries of a call, each by its word and its end.
AT_ONCE = [("got",), ("refused TooManyHolds",)]
IN_LINE = [("queued", "granted")]
INTERRUPTED = [("refused Interrupted",)]
STRANGER = [("refused NotOwner",)]
ASLEEP = [("await", "back signalled"), ("refused HoldsRead",)] + STRANGER
GIVEN_UP = INTERRUPTED + [("queued", "left interrupt")]
LAPSED = INTERRUPTED + [("await", "lapse interrupt", "back interrupt")]
WAYS = {
    "acquire": AT_ONCE + IN_LINE,
    "acquire-interruptible": AT_ONCE + IN_LINE + GIVEN_UP,
    "acquire-timed": AT_ONCE + IN_LINE + GIVEN_UP + [("queued", "left timeout")],
    "acquire-now": AT_ONCE + INTERRUPTED + [("missed",)],
    "try": [("trygot",), ("missed",), ("refused TooManyHolds",)],
    "give": [("gave",), ("counted",), ("refused TooManyPermits",)] + STRANGER,
    "await": ASLEEP,
    "await-interruptible": ASLEEP + LAPSED,
    "await-timed": ASLEEP + LAPSED + [("await", "lapse timeout", "back timeout")],
    "signal": [("signal",)] + STRANGER,
    "signalall": [("signalall",)] + STRANGER,
    "drain": [("drained",)],
}
BY_INTERRUPT = ("refused Interrupted", "left interrupt", "lapse interrupt")


@functools.lru_cache(None)
def first_step(words):
    """The step that a call begins with if no interrupt is pending; the words are those behind its object."""
    name = words[0].partition("-")[0]
    if words[0] == "acquire-timed" and words[3] == "0":
        name = "tryfair"
    if name in ("acquire", "tryfair", "try", "give"):
        return rules.Step(name, words[1], int(words[2]), None)
    return rules.Step(name, None, None, int(words[1]) if len(words) > 1 else None)


@functools.lru_cache(None)
def ways(header, words):
    """The entries that a call may have, each a list of words and ends, and whether it has a fault instead."""
    step = first_step(words)
    fault = rules.State(header).fault_of(0, step)
    if fault is None:
        return WAYS["acquire-now" if step.name == "tryfair" else words[0]], False
    hears_first = fault == "NoSuchCondition" and words[0] in ("await-interruptible", "await-timed")
    return INTERRUPTED if hears_first else [], True


class Alone:
    """The objects of a script of one thread, whose calls are made one after the other."""

    def __init__(self, script):
        parts = [(name, rules.header_part(part.encode())) for name, part in script["objects"]]
        self.objects = {name: rules.Answers(header, True, True) for name, header in parts}
        self.is_interrupted, self.made, self.unrecorded = False, 0, []

    def make(self, call):
        """Makes a call, and tells whether it ever ends."""
        number, self.made = self.made, self.made + 1
        name, *words = call.split(" ")
        if name == "interrupt":
            self.is_interrupted = True
            return True
        called = self.objects[name]
        if words == ["trim"]:
            called.trim()
            return True
        step = first_step(tuple(words))
        if self.is_interrupted and words[0].endswith(("-interruptible", "-timed")):
            mode, n = (step.mode, step.n) if step.mode else ("x", 1)
            answer = called.step(0, rules.Step("entryinterrupt", mode, n, None))
            self.is_interrupted = isinstance(answer, str)
        else:
            answer = called.step(0, step)
        if isinstance(answer, str):
            self.unrecorded.append(b"thread 0 call %d %s %s\n" % (number, answer.encode(), call.encode()))
        elif answer[0].word in ("queued", "await"):
            return words[0].endswith("-timed") and self.times_out(called)
        return True

    def times_out(self, called):
        """The time of the call is up; one that slept has its lock again."""
        entry, _ = called.step(0, rules.Step("expire", None, None, None))
        return entry.word == "left" or called.step(0, rules.Step("look", None, None, None)) != "sleep"

    def text(self, is_listed):
        parts = []
        for name, called in self.objects.items():
            history, shares = called.text(), sum(called.state.calls)
            audit = rules.audit(history)[1]
            parts.append(b"object %s\n%s%sshares %d\n" % (name.encode(), history, audit, shares))
        parts.append(b"unrecorded %d\n" % len(self.unrecorded))
        return b"".join(parts + self.unrecorded if is_listed else parts)


def alone(script, is_listed=False):
    """The run text of a script of one thread; None if it waits for ever."""
    [thread] = script["threads"]
    run = Alone(script)
    made = (run.make(call) for _ in range(thread["repeat"]) for call in thread["calls"])
    return run.text(is_listed) if all(made) else None


def read(text):
    """The parts of a run text and its unrecorded answers; None if it is no such text."""
    parts, at = [], 0
    while found := PART.match(text, at):
        name, history, audit, shares = found.groups()
        parts.append(Part(name.decode(), history, audit, int(shares)))
        at = found.end()
    last = LAST.fullmatch(text, at)
    return None if last is None else (parts, int(last[1]))


def token(entry):
    return f"{entry.word} {entry.end}" if entry.end else entry.word


def begins(entry, words):
    """Whether an entry can be the first of a call."""
    step = first_step(words)
    if step.mode:
        return (entry.mode, entry.n) == (step.mode, step.n)
    if entry.word.startswith("refused"):
        return (entry.mode, entry.n) == ("x", 1)
    return step.at is None or entry.at == step.at


def recorded(header, calls, entries, may_lack):
    """How many of a thread's calls the entries of its seat are of; None if they are of other calls. Any call
    may have no entry if its entry may lack something."""
    tokens = list(map(token, entries))
    at = count = 0
    for words in calls:
        its_ways, has_fault = ways(header, words)
        for way in its_ways if at < len(tokens) and begins(entries[at], words) else ():
            if way == tuple(tokens[at:at + len(way)]):
                at, count = at + len(way), count + 1
                break
        else:
            if not (has_fault or may_lack):
                return None
    return count if at == len(tokens) else None


class Object:
    """An object of a script: its header, each thread's calls of it, and whether it is trimmed."""

    def __init__(self, part, works):
        self.header, self.calls, self.is_trimmed = rules.header_part(part.encode()), [], False
        for calls, repeat in works:
            self.calls.append([words for words in calls if words != ("trim",)] * repeat)
            self.is_trimmed = self.is_trimmed or ("trim",) in calls
        self.made = sum(map(len, self.calls))

    def is_roomy(self):
        """Whether all entries of all calls, and all that is owed, have room."""
        return 4 * self.made + 3 * self.header.seats < self.header.cap

    def judged(self, part, lacks_memory):
        """What is wrong with a part of a run text, if anything, and the entries that it shows."""
        header, lines = rules.read_history(part.history)
        status, audit = rules.verdict(lines)
        if header != self.header or status or audit != part.audit:
            return f"{audit}, not {part.audit}", lines.entries
        state_calls = int(re.search(rb"\ncalls (\d+)\n", audit)[1])
        if part.shares != state_calls:
            return f"{state_calls} calls, shares {part.shares}", lines.entries
        by_seat = collections.defaultdict(list)
        for entry in lines.entries:
            by_seat[entry.seat].append(entry)
        may_lack = lacks_memory or not self.is_roomy()
        for seat, calls in enumerate(self.calls):
            if not self.is_trimmed and recorded(header, calls, by_seat[seat], may_lack) is None:
                return f"entries of seat {seat} that are not of its calls", lines.entries
        faulty = sum(ways(header, words)[1] for calls in self.calls for words in calls)
        if not may_lack and part.shares < self.made - faulty:
            return f"{part.shares} of {self.made} calls, {faulty} with a fault", lines.entries
        return None, lines.entries


def by_object(thread):
    """The words of the calls of each object in one round, and how often each thread is interrupted in all."""
    calls, interrupts = collections.defaultdict(list), collections.Counter()
    for call in thread["calls"]:
        name, *words = call.split(" ")
        if name == "interrupt":
            interrupts[int(words[0])] += thread["repeat"]
        else:
            calls[name].append(tuple(words))
    return calls, interrupts


def may_answer(header, words):
    """The faults that no history records and that a call of an object may have."""
    fault = None if words == ["trim"] else rules.State(header).fault_of(0, first_step(tuple(words)))
    return [fault] if fault else ["HistoryFull", "OutOfMemory"]


def are_listed(script, lines):
    """Whether lines tell of answers to calls of the script, each at its place and none twice."""
    headers = {name: rules.header_part(part.encode()) for name, part in script["objects"]}
    calls, before = [thread["calls"] * thread["repeat"] for thread in script["threads"]], (-1, 0)
    for line in lines:
        found = ANSWER.fullmatch(line)
        here = (int(found[1]), int(found[2])) if found else before
        if here <= before or here[0] >= len(calls) or here[1] >= len(calls[here[0]]):
            return False
        before, call = here, calls[here[0]][here[1]]
        name, *words = call.split(" ")
        faults = may_answer(headers[name], words) if name in headers else []
        if line not in [f"thread {here[0]} call {here[1]} {fault} {call}" for fault in faults]:
            return False
    return True


def judged(script, text, lacks_memory=False, is_listed=False):
    """What is wrong with the run text of a script, if anything."""
    threads = script["threads"]
    if len(threads) == 1 and not lacks_memory:
        return None if text == alone(script, is_listed) else "not the run text of this thread"
    if is_listed:
        end = text.find(b"\n", text.rfind(b"\nunrecorded ") + 1) + 1
        text, lines = text[:end], text[end:].decode().split("\n")
        is_told = text.endswith(b"\nunrecorded %d\n" % (len(lines) - 1))
        if lines.pop() or not is_told or not are_listed(script, lines):
            return "not the answers of this run"
    run = read(text)
    if run is None or [part.name for part in run[0]] != [name for name, _ in script["objects"]]:
        return "no run text of these objects"
    rounds = [by_object(thread) for thread in threads]
    interrupts = sum((interrupted for _, interrupted in rounds), collections.Counter())
    unrecorded = 0
    for part, (name, header) in zip(run[0], script["objects"]):
        works = [(calls[name], thread["repeat"]) for (calls, _), thread in zip(rounds, threads)]
        called = Object(header, works)
        wrong, entries = called.judged(part, lacks_memory)
        if wrong:
            return f"{name}: {wrong}"
        unrecorded += called.made - part.shares
        interrupts.subtract(entry.seat for entry in entries if token(entry) in BY_INTERRUPT)
    if any(count < 0 for count in interrupts.values()):
        return "more interrupts than were made"
    return None if unrecorded == run[1] else f"{run[1]} unrecorded in place of {unrecorded}"
