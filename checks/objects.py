"""What `aqs audit`, `explain` and `summary` must answer with `--json`: the same as without it, as one JSON object.

`audit(answer)`, `explain(answer)` and `summary(answer)` take the status, the output and the line on standard error of
an answer in lines, and give those of the object. The page is docs/SPECIFICATION.md, "As JSON". `results` asks the
program both ways about each text of examples/ and cases/, and holds what Python's json reads to what the lines say.
"""

import json
import pathlib
import subprocess
from concurrent.futures import ThreadPoolExecutor

SECONDS = 60
LONGEST = 1_000_000  # bytes of a text that is asked about twice


def spelt(value):
    return (json.dumps(value, separators=(",", ":")) + "\n").encode()


def pairs(words):
    """Names and numbers that follow each other."""
    return {name: int(number) for name, number in zip(words[::2], words[1::2])}


def verdict(line):
    """The members of a verdict."""
    if line == "legal":
        return {"verdict": "legal"}
    return {"verdict": "not legal", "entry": int(line.removeprefix("not legal at "))}


def as_object(answer, value_of):
    """The answer with its lines as an object. One without lines stays."""
    status, told, error = answer
    return (status, spelt(value_of(told.decode().splitlines())), error) if told else answer


def based(value, lines):
    """The object with the number of folded entries, and the lines after it."""
    if lines and lines[0].startswith("base "):
        return dict(value, base=int(lines[0].split()[1])), lines[1:]
    return dict(value, base=0), lines


# ---- an audit


def audit_value(lines):
    value = verdict(lines[0])
    if value["verdict"] == "legal":
        value, (entries, calls, totals) = based(value, lines[1:])
        words = totals.split()
        value.update(pairs(entries.split() + calls.split()))
        value["totals"] = pairs(words[1:] if words[0] == "holds" else words)
    return value


def audit(answer):
    return as_object(answer, audit_value)


# ---- a summary


def row(line):
    """The object of a seat's line."""
    words = line.split()
    at = words.index("longest")
    longest, rest = None, words[at + 2:]
    if rest[0] == "at":
        longest, rest = {"entries": int(words[at + 1]), "at": int(rest[1])}, rest[2:]
    return dict(pairs(words[:at]), longest=longest, **pairs(rest))


def summary_value(lines):
    value, (entries, handovers, queue, *rest) = based(verdict(lines[0]), lines[1:])
    value.update(pairs(entries.split() + handovers.split()))
    words = queue.split()
    value["queue"] = {"longest": int(words[1]), "at": int(words[3]) if len(words) > 2 else None}
    value["seats"] = [row(line) for line in rest if line.startswith("seat ")]
    value["conditions"] = [pairs(line.split()[2:]) for line in rest if line.startswith("condition ")]
    return value


def summary(answer):
    return as_object(answer, summary_value)


# ---- an explanation


def rests(lines, beginning):
    """What follows this beginning in the lines that have it."""
    return [line.removeprefix(beginning) for line in lines if line.startswith(beginning)]


def state(lines):
    """The state before the entry."""
    holds, value = [], {}
    for words in map(str.split, rests(lines, "holds ")):
        holds.append({"seat": int(words[0]), "x": int(words[2]), "s": int(words[4])})
    value["holds"] = holds
    for name in ("readers", "free", "count"):
        value.update({name: int(number) for number in rests(lines, f"{name} ")})
    queue = [rest.split(" ", 1) for rest in rests(lines, "line ")]
    value["line"] = [{"seat": int(seat), "entry": words} for seat, words in queue]
    sleepers = [tuple(map(int, rest.split())) for rest in rests(lines, "sleeper ")]
    value["sleepers"] = [{"condition": at, "seat": seat, "holds": holds} for at, seat, holds in sleepers]
    value["told"] = int(next(iter(rests(lines, "told ")), "0")) if rests(lines, "told ") else None
    return value


def why(told):
    """The rule, and the fact of the state that decides, if one is told."""
    rule, ended, since = told.partition("). ")
    return {"rule": f"{rule}).", "since": since} if ended else {"rule": told}


def ways(lines):
    """The steps that made the entry, and all that the seat could have made."""
    by, could = [], []
    for rest in rests(lines, "by "):
        step, rule = rest.split(". ", 1)
        by.append({"step": step, **why(rule)})
    for rest in rests(lines, "could "):
        step, (made, rule) = rest.split(": ", 1)[0], rest.split(": ", 1)[1].split(". ", 1)
        could.append({"step": step, "entry": None if made == "sleep" else made, **why(rule)})
    return {"by": by, "could": could}


def names(lines):
    """Whom the entry names."""
    for rest in rests(lines, "names "):
        seat, rule = rest.split(". ", 1)
        return {"seat": None if seat == "nobody" else int(seat), "rule": rule}
    return None


def wrong(lines):
    """The object of a text that is wrong."""
    place = lines[0].removeprefix("wrong at ")
    part, _, column = place.partition(" column ")
    number = int(part.removeprefix("line ")) if part.startswith("line ") else None
    value = {"verdict": "wrong", "line": number, "column": int(column) if column else None}
    value["in"] = part if number is None else None
    value["found"] = next(iter(rests(lines, "found ")), None)
    value["expected"] = rests(lines, "expected ")
    value["example"] = next(iter(rests(lines, "example ")), None)
    return value


def explain_value(lines):
    if lines[0].startswith("wrong at "):
        return wrong(lines)
    if lines[0].startswith("a right "):
        return {"verdict": "right", "text": lines[0].removeprefix("a right ").split(",")[0]}
    if lines[0].startswith("cannot read "):
        file, reason = lines[0].removeprefix("cannot read ").split(": ", 1)
        return {"verdict": "not read", "file": file, "reason": reason}
    value, second = verdict(lines[0]), lines[1]
    if second.startswith("not explained. "):
        return dict(value, explained=None, rule=second.removeprefix("not explained. "))
    if second.startswith("no entry "):
        value["explained"] = {"number": int(second.split()[2]), "seat": None, "entry": None}
    else:
        _, number, seat, words = second.split(" ", 3)
        value["explained"] = {"number": int(number), "seat": int(seat), "entry": words}
    return dict(value, state=state(lines), **ways(lines), names=names(lines))


def explain(answer):
    return as_object(answer, explain_value)


# ---- the program


def run(program, words, given=b""):
    done = subprocess.run([program, *words], input=given, capture_output=True, timeout=SECONDS)
    return done.returncode, done.stdout, done.stderr


OBJECTS = {"audit": audit, "explain": explain, "summary": summary}
VALUES = {"audit": audit_value, "explain": explain_value, "summary": summary_value}


def texts(examples, all_cases):
    """The words and the text of each question: all files of examples/, and all cases that are answered in lines."""
    for file in sorted(examples.iterdir()):
        if file.suffix == ".history":
            for name in ("audit", "summary"):
                yield [name], file.read_bytes()
            for at in range(file.read_bytes().count(b"\n")):
                yield ["explain", "--at", str(at)], file.read_bytes()
        if file.suffix in (".history", ".steps", ".script"):
            yield ["explain"], file.read_bytes()
            yield ["explain"], file.read_bytes()[:-1]
    for case in all_cases:
        words = [word for word in case.words if word != "FILE"]
        if words and words[0] in OBJECTS and len(words) < 4 and not {"--json", "-o", "--output"} & set(words):
            if len(case.input()) < LONGEST:
                yield words, case.input()


def agrees(program, words, text):
    """Whether the object says what the lines say, by its bytes and as Python's json reads it."""
    lines, told = run(program, words, text), run(program, [*words, "--json"], text)
    if told != OBJECTS[words[0]](lines):
        return False
    return not told[1] or json.loads(told[1]) == VALUES[words[0]](lines[1].decode().splitlines())


def unread(program, scratch):
    """Files that can't be read, whose names want escapes in JSON."""
    for name in ("none", 'a "quote"', "a \\ backslash", "a\nbreak, a\ttab and \x01", "ä €"):
        file = str(pathlib.Path(scratch) / name)
        status, told, error = run(program, ["explain", "--json", file])
        value = json.loads(told)
        reason = run(program, ["explain", file])[1].decode().removeprefix(f"cannot read {file}: ").rstrip("\n")
        good = value == {"verdict": "not read", "file": file, "reason": reason} and list(value)[0] == "verdict"
        yield f"explain --json of no file {name!r}", good and (status, error) == (1, b"") and told.count(b"\n") == 1


def results(program, examples, all_cases, scratch):
    several = list(texts(examples, all_cases))
    with ThreadPoolExecutor() as pool:
        answers = pool.map(lambda asked: agrees(program, *asked), several)
        for (words, text), good in zip(several, answers):
            yield f"{' '.join(words)} --json of {text[:200]!r}", good
    yield from unread(program, scratch)
