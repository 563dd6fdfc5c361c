#!/usr/bin/env python3
"""Stops threads between two steps on a word that they share: checks/stops.py PROGRAM [WORD..]

PROGRAM is crates/test_stops/out/test_stops, whose threads call a word lock, or a seat of a parking, over and over.
`debugger.py` lets one of them run at a time. A row of LOCKS or SEATS has the numbers of the threads that go on, one
after the other, each until its call has ended or it sleeps. At a mark ! the thread is stopped in its call: at first
before it touches a word that threads share, in the next play after it did so once, and so on until the call ends. So
every order of the calls is tried in which it is stopped once there. At !N it is stopped only after N times. At ~ the
first sleep of a call ends at once. At <N a call may touch the words fewer than N times, and at >N it touches them more
often. At z the thread has to be asleep. A thread that sleeps can't go on, so its number is left out. In the end
everybody goes on until all calls have ended, or nobody is awake.

A play fails if a thread sleeps for good, if two have the lock, if the calls at a seat ended as in no order of them, if
a thread runs on and on, if it touches the words often and ends all the same, or if the system is told another limit of
a sleep than the call has. With words, the rows are played that
have one of them. The last line is 'N passed, M failed'.
"""
import os
import sys

from debugger import FOR_EVER, MOST, Process, Wrong

LOCKS = """
0<2 0<3; 0 1>50 0<7 1<4; 0 1 2 0 2z; 0 1 0!1 2 0 1z; 0 1 0!2 2 0 1z; 0! 1 0 1; 0 0! 1 0 1; 0 1! 0 1;
0 1! 0 0 1 0; 0 1! 0 2 1 2; 0 1! 2 1 0; 0 1 2! 0 2; 0 1 2! 0 1 2; 0 1 2! 0 3 2 3; 0 1 0! 1 0; 0 1 0! 2 0;
0 1 0! 2 3 0 1 2; 0 1 2 0! 1 0; 0 1 0 1! 2 1; 0 1 2 0 1! 3 1; 0 1~ 0 1 2! 1 0 2 0; 0 1 2! 0! 2 0;
0 1 2 0! 1! 0 1; 0 1! 0! 1 0
"""
SEATS = """
3<2 4<4 4<2 3<4 6<4 6<2 7<4 7<2; 0>500 4<5 0<8 4<4 6<4; 0! 4 0; 1! 6 1; 1! 4 1; 2! 4 2; 2! 6 2; 0! 6 0 4 0;
1! 4 6 1; 1! 6 4 1; 4 0! 6 0; 4 0! 3 1 0; 4 0! 3 6 0; 4 1! 6 1; 6 1! 4 1; 6 0! 4 0; 0 4 0! 6 0; 1 6 1! 4 1;
0 6 4 0; 0 1 4 0 1; 0 1 6 0 1 0z 4; 0 1! 4 0 1; 4! 0 4; 4! 1 4; 4! 2 4; 4! 6 4; 4! 5 4; 4! 3 4; 4 4! 3 4; 6! 1 6;
6! 4 6; 6! 7 6; 6 7! 4 7; 6 7! 6 7; 6 7! 8 7; 6 7! 1 7; 4 3! 6 3; 4 6 3! 7 3; 0 4! 6 4 0;
0 6! 4 6 0; 2~ 2z 4 2; 0! 4! 0 4; 1! 6! 1 6; 4! 6! 4 6; 0! 4 0 4<4 0
"""

ROWS = {name: [it.strip() for it in text.split(";")] for name, text in (("locks", LOCKS), ("seats", SEATS))}
FEW, LAST = 6, 12  # the first and the last touches after which a thread is stopped
MANY = 10**6  # touches: more than any call's
DAY = 24 * 60 * 60  # seconds after which the park of thread 2 ends
PUT_BACK, TAKEN = 0, 1  # what comes of a call at a lock
FALSE, TRUE, PERMIT, DEADLINE, INTERRUPTED = range(5)  # and at a seat


class Lock:
    """Who has the lock."""

    threads = 4
    probes, relief = [], []  # who calls at the end of a play, and who lets those go on that may sleep

    def __init__(self):
        self.holder = None

    def begin(self, number):
        self.holder = None if self.holder == number else self.holder

    def end(self, number, came):
        if came == TAKEN and self.holder is not None:
            raise Wrong(f"threads {self.holder} and {number} have the lock")
        self.holder = number if came == TAKEN else self.holder

    def sleeps(self, number, seconds):
        """Looks how long a thread may sleep."""
        if seconds != FOR_EVER:
            raise Wrong(f"thread {number} sleeps for {seconds} seconds")

    def goes_on(self, number):
        """Whether a thread that is at a mark has to go on in the end."""
        return self.holder == number

    def check(self, asleep):
        if asleep:
            raise Wrong(f"sleep for good: {asleep}")


class Seat:
    """What a seat may be by the calls that began and ended: its permit, its flag, and the calls that have acted on it
    and not yet ended, with what they leave."""

    threads = 9
    probes, relief = [3, 7], [4, 6]

    def __init__(self):
        self.open, self.states = set(), {(False, False, frozenset())}

    def acts(self, number, permit, flag):
        """Returns what a call leaves that acts on a seat, or None if it waits."""
        if number in (4, 5):
            return True, flag, FALSE
        if number == 6:
            return permit, True, FALSE
        if number in (7, 8):
            return permit, False, TRUE if flag else FALSE
        if number in (1, 2) and flag:
            return permit, False, INTERRUPTED
        if permit:
            return False, flag, PERMIT
        return (permit, flag, DEADLINE) if number == 3 else None

    def spread(self):
        new = self.states
        while new:
            found = set()
            for permit, flag, done in new:
                for number in self.open - {it for it, _ in done}:
                    after = self.acts(number, permit, flag)
                    found |= {(*after[:2], done | {(number, after[2])})} if after else set()
            new = found - self.states
            self.states = self.states | new

    def begin(self, number):
        self.open = self.open | {number}
        self.spread()

    def end(self, number, came):
        self.open = self.open - {number}
        self.states = {(a, b, done - {(number, came)}) for a, b, done in self.states if (number, came) in done}
        if not self.states:
            raise Wrong(f"call {number} ends with {came}, as in no order of the calls")

    def sleeps(self, number, seconds):
        if seconds > DAY if number == 2 else seconds != FOR_EVER:
            raise Wrong(f"thread {number} sleeps for {seconds} seconds")

    def goes_on(self, number):
        return False

    def check(self, asleep):
        """Looks that all who sleep may: none has acted, and none can."""
        may = lambda permit, flag, done: not done and not any(self.acts(it, permit, flag) for it in asleep)
        self.states = {it for it in self.states if may(*it)}
        if not self.states:
            raise Wrong(f"one of these sleeps for good: {asleep}")


class Plays:
    """The plays of a program."""

    def __init__(self, program, mode):
        self.program, self.mode, self.kind = program, mode, {"locks": Lock, "seats": Seat}[mode]
        self.process, self.count, self.looks, self.touched = None, 0, 0, {}
        try:
            self.words = self.find()
        except (Wrong, OSError):
            self.end()
            raise

    def find(self):
        """Returns where the words are: those on which a call acts in one instruction, and at which a thread sleeps."""
        process = self.process = Process(self.program, self.mode, self.kind.threads)
        found = [process.steps(0)] if self.mode == "locks" else []
        found.append(process.sleeps_at(1 if found else 0) & ~7)
        self.looks = process.looks
        self.end()
        return sorted({*found} - {None})

    def end(self):
        if self.process:
            self.process.end()
        self.process = None

    def ready(self, model):
        if self.process is None:
            self.process = Process(self.program, self.mode, self.kind.threads)
        self.process.words = self.words
        self.process.clear()
        self.process.begins, self.process.ends, self.process.sleeps = model.begin, model.end, model.sleeps

    def drain(self, model):
        """Lets threads go on that are awake, until there are none."""
        threads = list(enumerate(self.process.threads))
        while True:
            awake = [n for n, it in threads if it.state in ("stopped", "woken") or model.goes_on(n)]
            if not awake:
                return [n for n, it in threads if it.state == "asleep"]
            self.process.go(awake[0])

    def play(self, row, stops):
        """Plays a row with these stops. Returns how many are reached, up to the first that is not."""
        model, left, reached = self.kind(), list(stops), []
        self.ready(model)
        for move in row.split():
            number, sign, bound = int(move[0]), move[1:2], int(move[2:] or MOST)
            thread = self.process.threads[number]
            if sign == "z" and thread.state != "asleep":
                raise Wrong(f"thread {number} does not sleep")
            stop = None if sign != "!" else (0, bound) if move[2:] else left.pop(0) if left else None
            is_awake = thread.state != "asleep"
            touches = self.process.go(number, stop, sign == "~", bound if sign != "<" else bound - 1) if is_awake else 0
            if sign == ">" and touches <= bound:
                raise Wrong(f"thread {number} sleeps, and has touched the words only {touches} times")
            if move[1:] == "!":
                self.touched[len(reached)] = touches
                reached.append(thread.state == "stopped")
        asleep = self.drain(model)
        model.check(asleep)
        for number in model.probes:
            self.process.go(number)
        for number in model.relief * 2 if asleep else []:
            self.process.go(number)
            asleep = self.drain(model)
        if asleep or any(model.goes_on(n) for n in range(model.threads)):
            self.end()
        return [*reached, False].index(False)

    def stops(self, row, before):
        """Returns the stops of a row's next mark, as lists of which each goes on while they are reached. In the middle
        of many looks one stop is like another."""
        if self.looks:
            return [((0, it) for it in range(FEW)), ((self.looks, it) for it in range(MANY))]
        self.play(row, (*before, (0, MANY)))
        most = self.touched[len(before)]
        return [[(0, it) for it in range(most + 1) if it < FEW or most - LAST <= it]]

    def all_of(self, row, before=()):
        """Plays a row with all stops. Those of the first marks are given. Returns how many are reached at most."""
        if len(before) == sum(it[1:] == "!" for it in row.split()):
            self.count += 1
            return self.play(row, before)
        most = 0
        for way in self.stops(row, before):
            for stop in way:
                reached = self.all_of(row, (*before, stop))
                most = max(most, reached)
                if reached <= len(before):
                    break
        return most

    def tried(self, row):
        """Plays a row with all stops, and returns why one fails, or None."""
        try:
            self.all_of(row)
        except (Wrong, OSError) as why:
            self.end()
            return str(why)
        return None


def told(program, mode, rows):
    """Plays rows, tells what came of each, and returns how many pass and how many fail."""
    passed, failed, plays = 0, 0, None
    try:
        plays = Plays(program, mode) if rows else None
        for row in rows:
            before, why = plays.count, plays.tried(row)
            passed, failed = passed + (not why), failed + bool(why)
            said = f"failed: {mode}: {row}: {why}" if why else f"{mode}: {row}: {plays.count - before} plays"
            print(said, flush=True)
    except PermissionError:
        print(f"left out: {mode}: no program may trace another here", flush=True)
    except (Wrong, OSError) as why:
        print(f"failed: {mode}: {why}", flush=True)
        return passed, failed + 1
    finally:
        if plays:
            plays.end()
    return passed, failed


def main(words):
    if not words:
        sys.exit(__doc__)
    chosen = lambda line: not words[1:] or any(it in line for it in words[1:])
    passed = failed = 0
    for mode, rows in ROWS.items():
        good, bad = told(os.path.realpath(words[0]), mode, [it for it in rows if chosen(f"{mode}: {it}")])
        passed, failed = passed + good, failed + bad
    print(f"{passed} passed, {failed} failed", flush=True)
    return 1 if failed else 0


if __name__ == "__main__":
    sys.exit(main(sys.argv[1:]))
