"""What `aqs summary` must answer to a history text, by the rules of docs/SPECIFICATION.md: each number is counted
from the list of entries before the first illegal one. Who is in the queue and who holds is what checks/rules.py says.

`summarise(text)` gives the status, the output and the line on standard error.
"""

import rules

TAKES = ("got", "trygot")


def legal_entries(read_):
    """The entries before the first illegal one, and the state after each of them, that of the start first."""
    state, entries, states = read_.start(), [], []
    queues, holds = [len(state.line)], [held(state)]
    waiting = [arrival.seat for arrival in state.line if not arrival.back]
    for entry in read_.entries:
        if not state.is_entry(entry):
            break
        state.add(entry)
        entries.append(entry)
        queues.append(len(state.line))
        holds.append(held(state))
    return entries, waiting, queues, holds


def held(state):
    return [(seat["x"], seat["s"]) for seat in state.holds]


def waits_of(seat, entries, waiting):
    """The waits of a seat in the queue: where each began, and after how many entries the seat waited. One that waits
    in the base waits from the first entry on. A wait ends with the seat's next entry, or lasts on."""
    own = [at for at, entry in enumerate(entries) if entry.seat == seat]
    begun = [0] if seat in waiting else []
    begun += [at for at in own if entries[at].word == "queued"]
    for place, begin in enumerate(begun):
        is_base = seat in waiting and place == 0
        ends = [at for at in own if at > begin or is_base]
        yield begin, (ends[0] if ends else len(entries)) - begin, is_base


def is_new(header, entry, holds):
    """Whether an entry acquires at once, and its seat doesn't hold the lock already."""
    exclusive, shared = holds[entry.seat]
    again = header.kind in ("lock", "rw") and (exclusive or (entry.mode == "s" and shared))
    return entry.word in TAKES and not again


def passes(header, seat, entries, waits, holds):
    """How often another seat acquired at once while this one waited."""
    for at, entry in enumerate(entries):
        inside = any(begin + (not is_base) <= at < begin + length for begin, length, is_base in waits)
        if inside and entry.seat != seat and is_new(header, entry, holds[at]):
            yield at


def ends(entry, how):
    """Whether a call ended in this way."""
    refused = how == "interrupt" and entry.word == "refused Interrupted"
    return refused or entry.end == how and entry.word not in rules.NO_CALL


def seat_line(read_, seat, entries, waiting, holds):
    folded, own = read_.folded(), [entry for entry in entries if entry.seat == seat]
    waits = list(waits_of(seat, entries, waiting))
    longest = max(waits, key=lambda wait: wait[1], default=None)
    told = "0" if longest is None else f"{longest[1]} at {folded + longest[0]}"
    exclusive, shared = holds[-1][seat]
    return (f"seat {seat} calls {sum(entry.word not in rules.NO_CALL for entry in own)}"
            f" took {sum(entry.word in TAKES for entry in own)}"
            f" waited {sum(entry.word == 'queued' for entry in own)} longest {told}"
            f" passed {sum(1 for _ in passes(read_.header, seat, entries, waits, holds))}"
            f" timeouts {sum(ends(entry, 'timeout') for entry in own)}"
            f" interrupts {sum(ends(entry, 'interrupt') for entry in own)} x {exclusive} s {shared}\n")


def lines(read_):
    entries, waiting, queues, holds = legal_entries(read_)
    folded, longest = read_.folded(), max(queues)
    is_legal = len(entries) == len(read_.entries)
    yield "legal\n" if is_legal else f"not legal at {folded + len(entries)}\n"
    if folded:
        yield f"base {folded}\n"
    yield f"entries {folded + len(entries)}\n"
    yield f"handovers {sum(entry.word == 'granted' for entry in entries)}\n"
    place = queues.index(longest)
    yield f"queue {longest}" + (f" at {folded + place - 1}\n" if place else "\n")
    for seat in sorted({entry.seat for entry in entries}):
        yield seat_line(read_, seat, entries, waiting, holds)
    for at in range(read_.header.conditions):
        signals = [entry for entry in entries if entry.word in ("signal", "signalall") and entry.at == at]
        awaits = sum(entry.word == "await" and entry.at == at for entry in entries)
        yield f"condition {at} awaits {awaits} signals {len(signals)} empty {sum(not entry.n for entry in signals)}\n"


def summarise(text):
    """What `aqs summary` answers to a text."""
    try:
        _, read_ = rules.read_history(text)
    except rules.TextFault as fault:
        return 3, b"", f"aqs: {fault}\n".encode()
    answer = "".join(lines(read_)).encode()
    return 0 if answer.startswith(b"legal\n") else 1, answer, b""
