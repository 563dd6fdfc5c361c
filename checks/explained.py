"""What `aqs explain` must answer to a history text, by the rules of docs/SPECIFICATION.md: the state is counted
from the list, and each step of the seat is tried on it.

`explain(text, at)` gives the status, the output and the line on standard error. `at` is the number of an entry,
or None. For a text that is no right history it gives None: checks/places.py judges what is answered then.
"""

import copy

import rules

COULD = "(What a seat could acquire)."
STEPS = "(Steps)."
NAMES = "(Whom an entry names)."

# What the word of an entry tells, if no other rule decided.
TOLD = {
    "refused NotOwner": f"has no such hold {STEPS}",
    "refused TooManyHolds": f"is at the limit of holds {COULD}",
    "refused TooManyPermits": f"would free more than 2147483647 permits {STEPS}",
    "refused Interrupted": f"had an interrupt pending at entry {STEPS}",
    "refused HoldsRead": f"owns and reads too {STEPS}",
    "gave": f"may release {STEPS}",
    "await": f"owns, and gives up all its exclusive holds {STEPS}",
    "signal": f"owns, and moves the longest sleeper of the condition, if any {STEPS}",
    "signalall": f"owns, and moves all sleepers of the condition {STEPS}",
    "counted": f"counts down, as any seat may {STEPS}",
    "drained": f"takes all free permits {STEPS}",
    "left": f"stops waiting in the queue {STEPS}",
    "lapse": f"stops waiting on its condition {STEPS}",
}


def steps_of(header, n):
    """The steps that are tried for an entry of an amount."""
    n = n if header.kind == "semaphore" else 1
    for mode in "xs":
        for name in ("acquire", "try", "tryfair", "entryinterrupt", "give"):
            yield rules.Step(name, mode, n, None)
    for name in ("look", "expire", "interrupt", "drain"):
        yield rules.Step(name, None, None, None)
    for at in range(header.conditions):
        for name in ("await", "signal", "signalall"):
            yield rules.Step(name, None, None, at)


def step_words(step):
    words = [step.name]
    words += [] if step.mode is None else [step.mode, str(step.n)]
    words += [] if step.at is None else [str(step.at)]
    return " ".join(words)


def held_back(header, first):
    """Who holds a call back."""
    if header.policy == "nonfair":
        return f"asks to read and is held back by the queue: seat {first} is first in it and asks to write {COULD}"
    return f"is held back by a {header.policy} queue: seat {first} is first in it {COULD}"


def waits_on(state, seat):
    """Why a waiter stays where it is."""
    if state.arrival_of(seat) is None:
        return f"waits on a condition {STEPS}"
    first = state.line[0].seat
    if first == seat:
        return f"is first in the queue, and could not acquire what it waits for {STEPS}"
    return f"is not first in the queue, since seat {first} is {STEPS}"


def reason(state, seat, step, made):
    """The rule that decides what a step makes."""
    header = state.header
    if made is None:
        return waits_on(state, seat)
    if made.word in ("got", "trygot"):
        holds = state.holds[seat]
        again = header.kind in ("lock", "rw") and (holds["x"] or holds[made.mode])
        return f"has holds, and could acquire again {COULD}" if again else f"could acquire {COULD}"
    if made.word in ("queued", "missed"):
        in_turn = step.name != "try" or header.policy == "strict"
        if in_turn and state.is_held_back(seat, made.mode):
            return held_back(header, state.line[0].seat)
        return f"could not acquire {COULD}"
    if made.word in ("granted", "back"):
        return f"is first in the queue, and could acquire what it waits for {STEPS}"
    return TOLD[made.word]


def counted(number, one):
    return f"{number} {one}" if number == 1 else f"{number} {one}s"


def who(state, mode):
    """Who owns, or who reads."""
    seats = [seat for seat, holds in enumerate(state.holds) if holds[mode]]
    holds = counted(sum(state.holds[seat][mode] for seat in seats), "hold")
    if not seats:
        return "Nobody owns it." if mode == "x" else "Nobody reads."
    if mode == "x":
        return f"Seat {seats[0]} owns it, with {holds}."
    others = f" and {counted(len(seats) - 1, 'other seat')} read" if len(seats) > 1 else " reads"
    return f"Seat {seats[0]}{others}, with {holds}."


def permits(state, n, about):
    is_, was = "permit is" if state.free == 1 else "permits are", "was" if n == 1 else "were"
    return f"{state.free} {is_} free, and {n} {was} {about}."


def missing(state, n):
    """What an acquire of an amount lacks."""
    if state.header.kind == "semaphore":
        return permits(state, n, "asked for")
    if state.header.kind == "latch":
        return f"The count is {state.count}."
    return who(state, "x" if state.header.kind == "lock" or state.owner() is not None else "s")


def fact(state, seat, step, made):
    """The fact of the state that keeps a step from what it asks for, unless the rule names it."""
    if made is None:
        for at, sleepers in enumerate(state.sleepers):
            if seat in sleepers:
                return f"It is sleeper {sleepers.index(seat) + 1} of {len(sleepers)} on condition {at}."
        return missing(state, state.line[0].n) if state.line[0].seat == seat else None
    if made.word in ("queued", "missed"):
        in_turn = step.name != "try" or state.header.policy == "strict"
        is_back = in_turn and state.is_held_back(seat, made.mode)
        return None if is_back else missing(state, made.n)
    if made.word in ("refused NotOwner", "refused TooManyHolds"):
        return who(state, made.mode)
    if made.word == "refused HoldsRead":
        return who(state, "s")
    if made.word == "refused TooManyPermits":
        return permits(state, made.n, "to be released")
    return None


def way_lines(state, entry, is_legal):
    """What each step of the entry's seat makes, or which steps made a legal entry."""
    seat = entry.seat
    for step in steps_of(state.header, entry.n):
        if state.fault_of(seat, step) is not None:
            continue
        made = state.entry_of(seat, step)
        since = fact(state, seat, step, made)
        sentence = f"Seat {seat} {reason(state, seat, step, made)}{f' {since}' if since else ''}\n"
        if not is_legal:
            told = "sleep" if made is None else rules.spelt(made)
            yield f"could {step_words(step)}: {told}. {sentence}"
        elif made == entry:
            yield f"by {step_words(step)}. {sentence}"


def ready(state):
    """The head of the queue, if it could go."""
    if not state.line:
        return None
    first = state.line[0]
    return first.seat if state.could(first.seat, first.mode, first.n)[0] else None


def naming_line(state, entry):
    """Whom a legal entry names, and why."""
    before, after = ready(state), copy.deepcopy(state)
    after.follow(entry)
    if not after.line:
        return f"names nobody. Nobody is in the queue {NAMES}\n"
    first, now = after.line[0].seat, ready(after)
    if now is None:
        return f"names nobody. Seat {first} is first in the queue, and could not go {NAMES}\n"
    if first == entry.seat:
        return f"names nobody. Seat {first} is first in the queue, and made the entry itself {NAMES}\n"
    if first == before:
        return f"names nobody. Seat {first} is first in the queue, and could go before too {NAMES}\n"
    return f"names {first}. It is first in the queue, could not go before, and can now {NAMES}\n"


def state_lines(state):
    """Who holds what, the amounts, the queue, the sleepers, and who was told."""
    for seat, holds in enumerate(state.holds):
        if holds["x"] or holds["s"]:
            yield f"holds {seat} x {holds['x']} s {holds['s']}\n"
    amount = {"rw": f"readers {state.readers()}\n", "semaphore": f"free {state.free}\n",
              "latch": f"count {state.count}\n"}
    yield amount.get(state.header.kind, "")
    yield from (line for line in rules.base_lines(state) if line.startswith(("line ", "sleeper ")))
    told = ready(state)
    if told is not None:
        yield f"told {told}\n"


def can_fold(state, count):
    """Whether the entries before the place can be folded into the base."""
    most = rules.LIMIT * state.folded
    permits = [state.unheld] + [holds["s"] for holds in state.holds]
    is_modest = state.header.kind != "semaphore" or all(number <= most for number in permits)
    return is_modest and state.folded + count <= rules.FOLDED


def legal_count(read_):
    """How many entries come before the first illegal one."""
    state = read_.start()
    for at, entry in enumerate(read_.entries):
        if not state.is_entry(entry):
            return at
        state.add(entry)
    return len(read_.entries)


def lines(read_, at):
    """The lines about the entry of a number, or else about the first illegal one, or the end."""
    state, legal = read_.start(), legal_count(read_)
    folded, is_legal = state.folded, legal == len(read_.entries)
    yield "legal\n" if is_legal else f"not legal at {folded + legal}\n"
    place = legal if at is None else min(max(at - folded, 0), legal)
    if not can_fold(state, place):
        yield ("not explained. The base has more permits than its entries can have moved, or more entries than "
               "can be folded (What folded entries leave).\n")
        return
    for entry in read_.entries[:place]:
        state.add(entry)
    if place == len(read_.entries):
        yield f"no entry {folded + place}\n"
        yield from state_lines(state)
        return
    entry = read_.entries[place]
    yield f"entry {folded + place} {entry.seat} {rules.spelt(entry)}\n"
    yield from state_lines(state)
    yield from way_lines(state, entry, place < legal)
    if place < legal:
        yield naming_line(state, entry)


def explain(text, at=None):
    """What `aqs explain` answers to a text."""
    try:
        _, read_ = rules.read_history(text)
    except rules.TextFault:
        return None
    answer = "".join(lines(read_, at)).encode()
    return 0 if answer.startswith(b"legal\n") else 1, answer, b""
