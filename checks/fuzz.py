#!/usr/bin/env python3
"""Random texts through the program: checks/fuzz.py PROGRAM [TEXTS [SEED]].

Two of five texts are good steps: `aqs replay`, `aqs replay --history` and `aqs audit` of that history must
answer as checks/rules.py does, and the history must be legal. A fifth are steps that were spoilt, a fifth
histories that were, in their entries or in their bytes. Each history is drawn too: `aqs draw` must have the
status or the fault of `aqs audit`, and show what checks/drawn.py does. Each is explained, where it is not legal
and at an entry: `aqs explain` must answer as checks/explained.py does, and `aqs summary` as checks/summed.py
does. A fifth are scripts of one thread, of
which one in four was spoilt: `aqs run` must answer as checks/runs.py does, and so must `aqs run --unrecorded`.
The seed is the day if none is given, as 20261127. Whatever disagrees is printed, and the status is 1.
"""

import collections
import datetime
import json
import multiprocessing
import random
import sys

import drawn
import explained
import objects
import page
import places
import rules
import runs
import summed
from program import Program

# How many parts the texts come in, each with a seed of its own.
PARTS = 16

WORDS = ("acquire", "try", "tryfair", "entryinterrupt", "give", "look", "expire", "interrupt", "await",
         "signal", "signalall", "drain")
AMOUNTS = (0, 1, 1, 1, 1, 2, 2, 2, 3, 4, 5, 2147483646, 2147483647, 2147483648)


def header(chance, seats=None):
    """An object part. Most are small, so that threads meet and histories fill up."""
    seats = seats or chance.choice((1, 2, 2, 3, 3, 4, 5, 8, chance.randint(1, 256)))
    cap = chance.choice((16, 17, 20, 32, 64, 100, 1000, 4294967295, chance.randint(16, 4294967295)))
    policy = chance.choice(("fair", "nonfair", "strict"))
    kind = chance.choice(("lock", "lock", "rw", "rw", "semaphore", "semaphore", "latch"))
    if kind == "latch":
        return f"latch seats {seats} count {chance.choice((0, 1, 2, 3, 2147483647))} cap {cap}"
    if kind == "semaphore":
        permits = chance.choice((0, 1, 1, 2, 3, 5, -1, -2, 2147483647, -2147483648, chance.randint(-9, 9)))
        return f"semaphore {policy} seats {seats} permits {permits} cap {cap}"
    return f"{kind} {policy} seats {seats} conditions {chance.choice((0, 1, 1, 2, 3, 16))} cap {cap}"


def amount(chance, kind):
    if kind != "semaphore":
        return chance.choice((1,) * 40 + (0, 2, 4294967295))
    return chance.choice((*AMOUNTS, chance.randint(0, 4294967295)))


def step(chance, state):
    """A seat and a step, most of them such that the seat's phase and the object have it."""
    head = state.header
    seat = chance.randrange(min(head.seats, chance.choice((2, 2, 3, 256))))
    if chance.random() < 0.05:
        name = chance.choice(WORDS)
    elif state.arrival_of(seat) is not None or state.is_asleep(seat):
        name = chance.choice(("look", "look", "look", "expire", "interrupt"))
    else:
        names = ["acquire"] * 3 + ["give"] * 3 + ["try", "tryfair", "entryinterrupt"]
        names += ["await", "await", "signal", "signalall"] if head.conditions else []
        names += ["drain"] if head.kind == "semaphore" else []
        name = chance.choice(names)
    if name in ("await", "signal", "signalall"):
        is_there = head.conditions and chance.random() < 0.95
        at = chance.randrange(head.conditions) if is_there else chance.randint(0, 255)
        return seat, rules.Step(name, None, None, at)
    if name in ("acquire", "try", "tryfair", "entryinterrupt", "give"):
        mode = {"lock": "x", "rw": chance.choice("xs")}.get(head.kind, "s")
        if chance.random() < 0.02:
            mode = chance.choice("xs")
        return seat, rules.Step(name, mode, amount(chance, head.kind), None)
    return seat, rules.Step(name, None, None, None)


def spelt(seat, asked):
    words = [str(seat), asked.name]
    words += [] if asked.mode is None else [asked.mode, str(asked.n)]
    words += [] if asked.at is None else [str(asked.at)]
    return " ".join(words)


def steps_text(chance):
    """A steps text; two of five are of format 2, and have trims."""
    part = header(chance)
    state = rules.State(rules.header_part(part.encode()))
    trims = chance.choice((0, 0, 0, 0.05, 0.2))
    lines = []
    for _ in range(chance.choice((0, 1, 2, 5, 10, 20, 40, 40, 80))):
        if chance.random() < trims:
            state.trim()
            lines.append("trim")
            continue
        seat, asked = step(chance, state)
        state.answer(seat, asked)
        lines.append(spelt(seat, asked))
    return "\n".join([f"aqs-steps {2 if trims else 1} {part}", *lines, f"end {len(lines)}", ""]).encode()


NUMBERS = (b"0", b"1", b"2", b"00", b"-1", b"+1", b"255", b"256", b"2147483647", b"2147483648", b"4294967295",
           b"4294967296", b"18446744073709551615", b"18446744073709551616", b"1" * 40, b"")


def spoilt_bytes(chance, text):
    """One change of a text: a byte, a cut, a line, a word."""
    at = chance.randrange(len(text))
    way = chance.randrange(9)
    if way == 0:
        return text[:at] + bytes([chance.randrange(256)]) + text[at + 1:]
    if way == 1:
        return text[:at]
    if way == 2:
        return text[:at] + text[at + 1:]
    if way == 3:
        return text[:at] + bytes([chance.choice(b"\x00\r\n\t \x7f\x80\xc3\xff019xs-")]) + text[at:]
    if way == 4:
        return text + chance.choice((b"\n", b"end 0\n", b"\x00", b" ", text))
    lines = text.split(b"\n")
    row = chance.randrange(len(lines))
    if way == 5:
        lines[row:row + 1] = []
    elif way == 6:
        lines.insert(row, chance.choice(lines))
    elif way == 7:
        lines[row] += chance.choice((b"\r", b" ", b" x", b"\x00"))
    else:
        words = lines[row].split(b" ")
        words[chance.randrange(len(words))] = chance.choice(NUMBERS + (b"x", b"s", chance.choice(words)))
        lines[row] = b" ".join(words)
    return b"\n".join(lines)


def spoilt_entries(chance, text):
    """A history text that still reads well, with an entry changed, left out, said twice or elsewhere."""
    try:
        head, lines = rules.read_history(text)
    except rules.TextFault:
        return text
    entries = list(lines.entries)
    if not entries:
        return text
    at = chance.randrange(len(entries))
    way = chance.randrange(4)
    if way == 0:
        del entries[at]
    elif way == 1:
        entries.insert(chance.randrange(len(entries) + 1), entries[at])
    elif way == 2:
        other = chance.randrange(len(entries))
        entries[at], entries[other] = entries[other], entries[at]
    else:
        entry = entries[at]
        field = chance.choice(("seat", "n", "mode", "at", "end", "word"))
        other = getattr(chance.choice(entries), field)
        n = max(0, min(rules.LIMIT, entry.n + chance.choice((-1, 1))))
        values = {"seat": chance.randrange(head.seats), "n": n, "at": chance.randrange(16)}
        entries[at] = entry._replace(**{field: values.get(field, other)})
    before = text.split(b"\n")[:-2 - len(lines.entries)]
    return history_text(before, lines, entries)


def history_text(before, lines, entries):
    """The lines before the entries, these entries in place of those that were read, and their end line."""
    state = lines.start()
    for entry in entries:
        before.append(f"{state.entries} {entry.seat} {rules.spelt(entry)}".encode())
        state.entries += 1
    calls = sum(state.calls) + sum(entry.word not in rules.NO_CALL for entry in entries)
    return b"\n".join([*before, f"end {state.entries} {calls}".encode(), b""])


def call(chance, name, state):
    """A call of an object that is at this state, by the one thread of a script. It doesn't wait for ever."""
    if chance.random() < 0.05:
        return "interrupt 0"
    if chance.random() < 0.03:
        return f"{name} trim"
    _, asked = step(chance, state)
    kind = {"tryfair": "acquire", "entryinterrupt": "try"}.get(asked.name, asked.name)
    words = [] if asked.mode is None else [asked.mode, str(asked.n)]
    words += [] if asked.at is None else [str(asked.at)]
    if kind in ("acquire", "await"):
        kind += chance.choice(("", "", "-interruptible", "-timed"))
        entry = None if state.fault_of(0, asked) else state.entry_of(0, asked)
        if kind.endswith("-timed") or entry is not None and entry.word in ("queued", "await"):
            kind = kind.partition("-")[0] + "-timed"
            words.append(str(chance.choice((0, 0, 1))))
    return " ".join([name, kind, *words])


def script_of(chance):
    """A script of one thread that ends, beside the objects as they are then."""
    count = chance.choice((1, 1, 2, 3, 4, 20))
    objects = [[f"o{number}", header(chance, 1)] for number in range(count)]
    script = {"objects": objects, "threads": [{"repeat": 1, "calls": []}]}
    run, calls = runs.Alone(script), script["threads"][0]["calls"]
    for _ in range(chance.choice((0, 1, 5, 20, 40))):
        name = chance.choice(objects)[0]
        made = call(chance, name, run.objects[name].state)
        calls.append(made)
        run.make(made)
    script["threads"][0]["repeat"] = chance.choice((1, 2, 3, 10))
    if runs.alone(script) is None:
        script["threads"][0]["repeat"] = 1
    return script


def script_tries(chance):
    """A run of a random script of one thread. One that was spoilt and might wait for ever is left out."""
    text = json.dumps(script_of(chance), indent=chance.choice((None, 1))).encode()
    if chance.randrange(4) == 0:
        text = spoilt_bytes(chance, text)
    yield ["explain"], text, None
    fault = rules.script_fault(text)
    if fault is not None:
        yield ["run"], text, (3, b"", f"aqs: {fault}\n".encode())
        return
    for options in (), ("--unrecorded",):
        wanted = runs.alone(json.loads(text), bool(options))
        if wanted is not None:
            yield ["run", *options], text, (0, wanted, b"")


def explained_tries(chance, text):
    """An explanation of a history, and one of an entry that chance chooses."""
    told = explained.explain(text)
    yield ["explain"], text, told
    if told is not None:
        yield ["explain", "--json"], text, objects.explain(told)
    at = chance.choice((0, 1, chance.randrange(90), 2 ** 64 - 1))
    yield ["explain", "--at", str(at)], text, explained.explain(text, at)


def object_tries(text):
    """A summary, and both answers that can be objects."""
    summary = summed.summarise(text)
    yield ["summary"], text, summary
    yield ["summary", "--json"], text, objects.summary(summary)
    yield ["audit", "--json"], text, objects.audit(rules.audit(text))


def tries(chance):
    """The words, the text and the wanted answer of each run for one random text."""
    way = chance.randrange(5)
    if way == 4:
        yield from script_tries(chance)
        return
    steps = steps_text(chance)
    if way == 0:
        for _ in range(chance.choice((1, 1, 2, 3))):
            steps = spoilt_bytes(chance, steps) or b"\n"
        yield ["replay"], steps, rules.replay(steps)
        yield ["explain"], steps, None
        return
    history = rules.replay(steps, True)
    if way == 1:
        text = history[1]
        spoil = chance.choice((spoilt_bytes, spoilt_entries, spoilt_entries))
        for _ in range(chance.choice((1, 1, 2, 3))):
            text = spoil(chance, text) or b"\n"
        for name in ("audit", "draw"):
            yield [name], text, rules.audit(text)
        yield from explained_tries(chance, text)
        yield from object_tries(text)
        return
    audited = rules.audit(history[1])
    assert audited[0] == 0, steps
    yield ["replay"], steps, rules.replay(steps)
    yield ["replay", "--history"], steps, history
    yield ["audit"], history[1], audited
    yield ["draw"], history[1], audited
    if chance.random() < 0.25:
        yield ["draw", "--page"], history[1], audited
    yield from explained_tries(chance, history[1])
    yield from object_tries(history[1])


def agrees(words, text, wanted, answer):
    """Whether an answer is the wanted one; a picture and a page must show what their history says."""
    if words[0] == "explain" and wanted is None:
        return places.is_told(text, answer)
    if words == ["draw", "--page"]:
        return (answer[0], answer[2]) == (wanted[0], b"") and page.has_data(answer[1], text)
    if words != ["draw"] or wanted[0] > 1:
        return answer == wanted
    return (answer[0], answer[2]) == (wanted[0], b"") and drawn.is_drawn(answer[1], text)


def fuzz(path, texts, seed):
    """How many runs there were of each kind, and those that disagree."""
    chance = random.Random(seed)
    program = Program(path)
    kinds, wrong = collections.Counter(), []
    for _ in range(texts):
        for words, text, wanted in tries(chance):
            answer = program.answer(words, text)
            kinds[words[0] if "--at" in words else " ".join(words), answer[0]] += 1
            if not agrees(words, text, wanted, answer):
                wrong.append((words, text, wanted, answer))
    program.close()
    return kinds, wrong


def main(words):
    texts = int(words[1]) if len(words) > 1 else 2000
    seed = int(words[2]) if len(words) > 2 else int(datetime.date.today().strftime("%Y%m%d"))
    parts = [(words[0], -(-texts // PARTS), seed * PARTS + number) for number in range(PARTS)]
    kinds, wrong = collections.Counter(), []
    with multiprocessing.Pool() as pool:
        for some, bad in pool.starmap(fuzz, parts, 1):
            kinds += some
            wrong += bad
    for (name, status), count in sorted(kinds.items()):
        print(f"{count} runs of {name}, status {status}")
    for asked, text, wanted, answer in wrong[:10]:
        print(f"disagrees: {asked} {text!r}\n  wanted {wanted!r}\n  answer {answer!r}")
    print(f"seed {seed}")
    print(f"{sum(kinds.values()) - len(wrong)} passed, {len(wrong)} failed")
    return 1 if wrong or not kinds else 0


if __name__ == "__main__":
    if not 2 <= len(sys.argv) <= 4:
        sys.exit(__doc__)
    sys.exit(main(sys.argv[1:]))
