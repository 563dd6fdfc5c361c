"""Whether `aqs explain` says rightly where a text is wrong, by checks/rules.py alone.

`is_told(text, answer)` judges the status, the output and the standard error of `aqs explain` for a text that is no
right history. The page is docs/SPECIFICATION.md, "Where a text is wrong". Nothing here has the program's tables. A line is
right if `rules.py` reads it. The words of the wrong line are continued by the ends of many right lines, to see how many
of them begin a right one. The word after these is the wrong one. What is expected is a phrase for each kind of line. The
example must be right, and begin alike.
"""

import copy
import json
import re

import rules

RIGHT_STEPS = b"a right steps text, which aqs replay answers\n"
RIGHT_SCRIPT = b"a right script, which aqs run runs\n"
SHOWN = 60
PLACE = re.compile(rb"wrong at line (\d+) column (\d+)\n")

# What is expected, by the kind of line.
OBJECT = "and an object: lock, rw, semaphore or latch"
STEPS_HEAD, HISTORY_HEAD = f"aqs-steps 1 or 2, {OBJECT}", f"aqs-history 1 or 2, {OBJECT}"
ANY_HEAD = "the first line of a steps text or of a history text, or a script"
STEP = ("a step (acquire, try, tryfair, entryinterrupt, give, await, signal, signalall, look, expire, interrupt, drain), "
        "trim or end")
BASE = "base, or the line of the next seat"
WAITER = "a waiter (line, sleeper), an entry or end"
ENTRY = ("an entry (got, trygot, queued, granted, missed, gave, left, refused, await, signal, signalall, lapse, back, "
         "counted, drained) or end")
PART = "an object: lock, rw, semaphore or latch, with a seat for each thread"
CALL = ("an object and a call (acquire, acquire-interruptible, acquire-timed, try, give, await, await-interruptible, "
        "await-timed, signal, signalall, drain, trim), or interrupt and a thread")


class Stop:
    """Where a text stops to be right: the line, whether it has a break, which lines are right there, lines that may be,
    and what is expected."""

    def __init__(self, number, line, is_ended, is_right, candidates, expected):
        self.number, self.line, self.is_ended = number, line, is_ended
        self.is_right, self.candidates, self.expected = is_right, candidates, expected

    def words(self):
        return self.line.split(b" ")

    def begins_right(self, words):
        """Whether some right line begins with these words: one of the lines that may be right, with these before
        its end."""
        count = len(words)
        tails = {tuple(line[count:]) for line in self.candidates if len(line) >= count}
        return any(self.is_right(b" ".join([*words, *tail])) for tail in tails if count or tail)

    def place(self):
        """How many words of the line begin a right line."""
        words = self.words()
        return max((count for count in range(len(words) + 1) if self.begins_right(words[:count])), default=None)


def header_lines(name):
    """First lines that are right, as words."""
    for version in (b"1", b"2"):
        for kind in (b"lock", b"rw"):
            for policy in (b"fair", b"nonfair", b"strict"):
                yield b"%s %s %s %s seats 1 conditions 0 cap 16" % (name, version, kind, policy)
        for policy in (b"fair", b"nonfair", b"strict"):
            yield b"%s %s semaphore %s seats 1 permits -1 cap 16" % (name, version, policy)
        yield b"%s %s latch seats 1 count 0 cap 16" % (name, version)


def is_header(name, line):
    begins = any(line.startswith(b"%s %s " % (name, version)) for version in (b"1", b"2"))
    return begins and rules.header_part(line[len(name) + 3:]) is not None


def step_lines(lines):
    for name in ("acquire", "try", "tryfair", "entryinterrupt", "give"):
        for mode in "xs":
            yield f"0 {name} {mode} 0".encode()
    for name in ("await", "signal", "signalall"):
        yield f"0 {name} 0".encode()
    for name in ("look", "expire", "interrupt", "drain"):
        yield f"0 {name}".encode()
    yield b"trim"
    yield b"end %d" % len(lines.steps)


def entry_lines(lines):
    number = lines.folded() + len(lines.entries)
    spelt = ["await 0 0", "signal 0 0", "signalall 0 0", "counted s 1", "drained s 0"]
    for mode in "xs":
        spelt += [f"{name} {mode} 0" for name in ("got", "trygot", "queued", "granted", "missed", "gave")]
        spelt += [f"left {mode} 0 {end}" for end in ("timeout", "interrupt")]
        spelt += [f"refused {mode} 0 {name}" for name in rules.REFUSALS]
    spelt += [f"lapse 0 {end}" for end in ("timeout", "interrupt")]
    spelt += [f"back 0 0 {end}" for end in ("signalled", "timeout", "interrupt")]
    for words in spelt:
        yield f"{number} 0 {words}".encode()
    calls = lines.ended + (sum(lines.base.state.calls) if lines.base else 0)
    yield b"end %d %d" % (number, calls)


def waiter_lines(header):
    """Lines of waiters, for each seat."""
    for seat in range(header.seats):
        yield b"line %d queued x 1" % seat
        yield b"line %d queued s 1" % seat
        for condition in range(header.conditions):
            yield b"line %d back %d 1 signalled" % (seat, condition)
            yield b"sleeper %d %d 1" % (condition, seat)


def base_lines(lines):
    """Lines that a base may go on with."""
    base, header = lines.base, lines.header
    if base.seats is None:
        yield {"semaphore": b"base 1 unheld 0", "latch": b"base 1 count 0"}.get(header.kind, b"base 1")
    elif not base.has_all_seats():
        yield b"seat %d calls 0 x 0 s 0" % base.seats
    else:
        yield from waiter_lines(header)


def is_next(lines, line):
    """Whether a line may come next."""
    return lines.is_end(line) or copy.deepcopy(lines).takes(line.split(b" "))


def expected_in(lines):
    """What is expected after these lines."""
    if isinstance(lines, rules.Steps):
        return STEP
    if lines.is_whole:
        return ENTRY
    return WAITER if lines.base.has_all_seats() else BASE


def candidates_of(lines):
    if isinstance(lines, rules.Steps):
        yield from step_lines(lines)
        return
    if not lines.is_whole:
        yield from base_lines(lines)
    if lines.is_whole or lines.base.has_all_seats():
        yield from entry_lines(lines)


def stop_in(text, names, lines_of):
    """Where a text stops to be right, or None."""
    first, brk, rest = text.partition(b"\n")
    for name in names:
        if brk and is_header(name, first):
            break
    else:
        several = [line.split(b" ") for name in names for line in header_lines(name)]
        expected = ANY_HEAD if len(names) > 1 else STEPS_HEAD if names == [b"aqs-steps"] else HISTORY_HEAD
        is_right = lambda line: any(is_header(name, line) for name in names)
        return Stop(1, first, brk != b"", is_right, several, expected)
    lines = lines_of(rules.header_part(first[len(name) + 3:]), first[len(name) + 1:][:1] == b"2")
    number = 1
    while True:
        number += 1
        line, brk, after = rest.partition(b"\n")
        if brk and lines.is_end(line):
            break
        # What a failed line leaves of the base is not what was before it.
        kept = copy.deepcopy(lines) if isinstance(lines, rules.History) and not lines.is_whole else lines
        if not brk or not lines.takes(line.split(b" ")):
            lines = kept
            several = [one.split(b" ") for one in candidates_of(lines)]
            return Stop(number, line, brk != b"", lambda one: is_next(lines, one), several, expected_in(lines))
        rest = after
    if not after:
        return None
    line, brk, _ = after.partition(b"\n")
    return Stop(number + 1, line, brk != b"", lambda one: False, [], "the end of the text")


def shown(bytes_):
    """Bytes as they are shown: at most so many, those that aren't plain by their numbers."""
    plain = "".join(
        chr(byte) if 32 <= byte < 127 and byte not in b'"\\' else f"\\x{byte:02x}" for byte in bytes_[:SHOWN]
    )
    return '"' + plain + (".." if len(bytes_) > SHOWN else "") + '"'


def found_at(stop, place):
    """What stands at the place."""
    words = stop.words()
    if place == len(words):
        return "the end of the line" if stop.is_ended else "the end of the text"
    if stop.is_ended or place + 1 < len(words):
        return shown(words[place])
    return shown(words[place]) + " and the end of the text" if words[place] else "the end of the text"


def is_expected(stop, place, told):
    """Whether this is what is expected after so many words. After a right line it may be the end of the line, which an
    example tells that ends there."""
    ends = any(len(line) == place for line in stop.candidates)
    front = b" ".join(stop.words()[:place])
    is_end = ends and stop.is_right(front)
    return told == ["the end of the line" if is_end else stop.expected]


def whole_line_told(stop):
    """What must be said of a line that is wrong as a whole, or None."""
    place = f"wrong at line {stop.number} column "
    if stop.place() is None:
        return f"{place}1\nfound {shown(stop.line)}\nexpected {stop.expected}\n".encode()
    if stop.is_ended or not stop.is_right(stop.line):
        return None
    ends = f"{place}{len(stop.line) + 1}\nfound the end of the text\nexpected a line break\nexample "
    return ends.encode() + stop.line + b"\n"


def column_at(words, place):
    """The column of the word at a place, or of the end of the line; the first one is 1."""
    return 1 + sum(len(word) + 1 for word in words[:place]) - (place == len(words))


def is_stop_told(stop, answer):
    """Whether an output says where a text of lines is wrong."""
    whole = whole_line_told(stop)
    if whole is not None:
        return answer == whole
    place = stop.place()
    words = stop.words()
    column = column_at(words, place)
    lines = answer.decode("latin1").split("\n")
    if lines[:2] != [f"wrong at line {stop.number} column {column}", f"found {found_at(stop, place)}"]:
        return False
    told, example = lines[2:-2], lines[-2]
    if lines[-1] != "" or not told or not all(line.startswith("expected ") for line in told):
        return False
    if not example.startswith("example "):
        return False
    example = example[8:].encode("latin1")
    is_alike = example.split(b" ")[:place] == words[:place]
    return is_alike and stop.is_right(example) and is_expected(stop, place, [line[9:] for line in told])


def is_other(text):
    """Whether a text is none of the three, by its beginning."""
    begins = text.startswith((b"aqs-steps", b"aqs-history"))
    return not begins and not text.lstrip(b" \n\r\t").startswith(b"{")


def stop_of(text):
    """Where a text of lines is wrong, or None if it is right."""
    if text.startswith(b"aqs-history"):
        return stop_in(text, [b"aqs-history"], rules.History)
    return stop_in(text, [b"aqs-steps"], rules.Steps)


def is_other_told(text, answer):
    """Whether an output says where a text is wrong that is none of the three."""
    stop = stop_in(b"\0" + text.split(b"\n")[0], [b"aqs-steps", b"aqs-history"], None)
    line, brk, _ = text.partition(b"\n")
    stop.line, stop.is_ended = line, brk != b""
    is_right = stop.is_right
    stop.is_right = lambda one: one == b"{" or is_right(one)
    stop.candidates.append([b"{"])
    return is_stop_told(stop, answer)


def is_told(text, answer):
    """Whether this is what `aqs explain` must answer to a text that is no right history."""
    if text.lstrip(b" \n\r\t").startswith(b"{"):
        return is_script_told(text, answer)
    if is_other(text):
        return (answer[0], answer[2]) == (1, b"") and is_other_told(text, answer[1])
    stop = stop_of(text)
    if stop is None:
        return answer == (0, RIGHT_STEPS, b"")
    return (answer[0], answer[2]) == (1, b"") and is_stop_told(stop, answer[1])


# ---- scripts


TOP = "an object with the keys objects and threads alone: lists with 1 to 64 and 1 to 256 members"
THREAD = ("an object with the keys repeat and calls alone: a whole number from 1 to 1000000, and a list of at most "
          "10000 texts")
NAME = "a name of 1 to 32 characters of a to z, 0 to 9 and -, other than interrupt"


def call_lines():
    for name in (b"acquire", b"acquire-interruptible", b"try", b"give"):
        for mode in (b"x", b"s"):
            yield b"%s %s 0" % (name, mode)
    for mode in (b"x", b"s"):
        yield b"acquire-timed %s 0 0" % mode
    for name in (b"await", b"await-interruptible", b"signal", b"signalall"):
        yield b"%s 0" % name
    yield b"await-timed 0 0"
    yield b"drain"
    yield b"trim"


def call_stop(text, names, threads):
    """The words of a call, and which calls are right."""
    several = [[b"interrupt", b"%d" % (threads - 1)]]
    for name in names:
        several += [[name.encode(), *line.split(b" ")] for line in call_lines()]
    is_right = lambda line: rules.is_call(line.decode("utf-8", "surrogateescape"), names, threads)
    return Stop(0, text.encode("utf-8", "surrogatepass"), True, is_right, several, CALL)


def part_stop(text, threads):
    """The words of an object part, and which parts are right."""
    def is_right(line):
        header = rules.header_part(line)
        return header is not None and header.seats == threads
    several = [line.split(b" ")[2:] for line in header_lines(b"aqs-steps")]
    seats = b"%d" % threads
    several = [[seats if line[at - 1] == b"seats" else word for at, word in enumerate(line)] for line in several]
    return Stop(0, text.encode("utf-8", "surrogatepass"), True, is_right, several, PART)


def is_words_told(stop, where, answer):
    """Whether an output says where words of a script are wrong."""
    place, words = stop.place(), stop.words()
    column = column_at(words, place)
    found = "the end of the text" if place == len(words) else shown(words[place])
    lines = answer.decode("latin1").split("\n")
    told, example = lines[2:-2], lines[-2]
    if lines[:2] != [f"{where} column {column}", f"found {found}"] or lines[-1] != "" or not told:
        return False
    if not all(line.startswith("expected ") for line in told) or not example.startswith("example "):
        return False
    example = example[8:].encode("latin1")
    is_alike = example.split(b" ")[:place] == words[:place]
    return is_alike and stop.is_right(example) and is_expected(stop, place, [line[9:] for line in told])


def is_good_script(example):
    try:
        return rules.script_fault(example.encode("latin1")) is None
    except ValueError:
        return False


def is_object_told(value, at, answer):
    """Whether an output says what is wrong with an object."""
    pair, threads = value["objects"][at], len(value["threads"])
    where = f"wrong at objects[{at}]"
    lines = answer.decode("latin1").split("\n")
    if not isinstance(pair, list) or len(pair) != 2 or not all(isinstance(word, str) for word in pair):
        wanted = [where, "expected a list of two texts: a name and an object"]
        example = json.loads(lines[2][8:]) if len(lines) > 2 else None
        fault = rules.script_fault(json.dumps(dict(value, objects=[example])).encode())
        is_good = fault is None or fault.startswith(("bad thread", "bad call"))
        return lines[:2] == wanted and len(lines) == 4 and is_good
    name = pair[0]
    before = [other[0] for other in value["objects"][:at]]
    if not re.fullmatch(r"[a-z0-9-]{1,32}", name) or name == "interrupt":
        wanted = NAME
    elif name in before:
        wanted = "a name that no object before has"
    else:
        return is_words_told(part_stop(pair[1], threads), where + "[1]", answer)
    found = shown(name.encode("utf-8", "surrogatepass"))
    free = next(f"object-{number}" for number in range(65) if f"object-{number}" not in before)
    return lines == [f"{where}[0] column 1", f"found {found}", f"expected {wanted}", f"example {free}", ""]


def is_call_told(value, thread, at, answer):
    """Whether an output says what is wrong with a call."""
    text = value["threads"][thread]["calls"][at]
    names = [pair[0] for pair in value["objects"]]
    where = f"wrong at threads[{thread}].calls[{at}]"
    if not isinstance(text, str):
        wanted = f'{where}\nexpected a text\nexample "{names[0]} acquire x 1"\n'
        return answer == wanted.encode()
    return is_words_told(call_stop(text, names, len(value["threads"])), where, answer)


def is_json_found(text, line, column, found):
    """Whether this stands at a place of a text that is no JSON."""
    rest = text.split(b"\n")[line - 1:]
    if not 1 <= line <= text.count(b"\n") + 1 or not 1 <= column <= len(rest[0]) + 2:
        return False
    return found in (f"found {shown(rest[0][column - 1:])}", "found the end of the text")


def is_script_fault_told(text, fault, answer):
    lines = answer.decode("latin1").split("\n")
    if fault == "not JSON":
        place = PLACE.match(answer)
        if place is None or lines[2] != "expected a script, which is a JSON text" or len(lines) != 5:
            return False
        is_found = is_json_found(text, int(place[1]), int(place[2]), lines[1])
        return is_found and lines[3].startswith("example ") and is_good_script(lines[3][8:])
    value = rules.json_value(text)
    kind, *numbers = fault.split()[1:]
    if kind == "top":
        is_said = lines[:2] == ["wrong at the top", "expected " + TOP] and len(lines) == 4
        return is_said and is_good_script(lines[2][8:])
    numbers = list(map(int, numbers))
    if kind == "thread":
        is_said = lines[:2] == [f"wrong at threads[{numbers[0]}]", "expected " + THREAD] and len(lines) == 4
        one = {"objects": [["door", "lock fair seats 1 conditions 0 cap 16"]], "threads": [json.loads(lines[2][8:])]}
        return is_said and rules.script_fault(json.dumps(one).encode()) is None
    if kind == "object":
        return is_object_told(value, numbers[0], answer)
    return is_call_told(value, *numbers, answer)


def is_script_told(text, answer):
    """Whether this is what `aqs explain` must answer to a script."""
    fault = rules.script_fault(text)
    if fault is None:
        return answer == (0, RIGHT_SCRIPT, b"")
    try:
        return (answer[0], answer[2]) == (1, b"") and is_script_fault_told(text, fault, answer[1])
    except (ValueError, IndexError):  # an example that is no JSON, or a line that is missing
        return False
