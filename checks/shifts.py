"""Names of calls that an edit shifts.

The prover names the calls of a function by what they call: `new`, `new-2`, `new-3` are the first three calls of a `new`.
An edit that makes one call fewer, or one more, shifts the names of those behind it. What a proof then cites is another
call, and its type does not fit. That says nothing of the contract, so it refuses nothing.
"""
import os
import re

from bodies import FUNCTION, function_at, owner_of

CALL = re.compile(r"\b([a-z_]\w*)(?:::<[^()]*>)?\(")
# A proof's error of a type that does not fit, and where it is.
MISFIT = re.compile(r"(?m)^(?:\./)?(proofs/(\S+)/(?:Answers|Invariants|Proof)\.antt):(\d+):\d+: error: .*but this has type.*")
MARK = " (it cites a call whose name the edit shifted, and that name is not in scope)"


def calls_in(text):
    """Returns how often each name is called in a text."""
    found = {}
    for it in CALL.finditer(text):
        found[it[1]] = found.get(it[1], 0) + 1
    return found


def shifted(old, new):
    """Returns the names of which a text has more calls, or fewer, than it had, and several in one of the two."""
    was, now = calls_in(old), calls_in(new)
    return {it for it in {*was, *now} if was.get(it, 0) != now.get(it, 0) and max(was.get(it, 0), now.get(it, 0)) > 1}


def functions_of(text):
    """Returns the text of each function of a file with its head, by the end of its proof's path."""
    found = {}
    for head in FUNCTION.finditer(text):
        place = function_at(text, head.start())
        if place:
            found["/".join([*owner_of(text, place), place.name])] = text[place.start : place.end]
    return found


def shifted_in(crate, texts):
    """Returns the names that new texts of a crate's files shift, by the end of the proof's path of their function."""
    found = {}
    for file, text in texts.items():
        if file.endswith(".rt"):
            with open(f"{crate.folder}/{file}", encoding="utf-8") as it:
                was = functions_of(it.read())
            for name, new in functions_of(text).items():
                names = shifted(was.get(name, new), new)
                if names:
                    found[name] = names
    return found


def cites(line, names):
    """Returns whether a line of a proof cites a call by one of these names, with a number or without."""
    return any(re.search(rf"\.(?:in_\w+-)?{it}(?:-\d+)?(?![\w-])", line) for it in names)


def line_at(path, number):
    if not os.path.isfile(path):
        return ""
    with open(path, encoding="utf-8") as it:
        return [*it.read().split("\n"), ""][number - 1]


def marked(crate, texts, said):
    """Returns what a check of a crate with new texts said, with a mark at each error that a shifted name made."""
    if not MISFIT.search(said):
        return said
    found = shifted_in(crate, texts)

    def mark(error):
        names = next((found[it] for it in found if f"/{error[2]}".endswith(f"/{it}")), ())
        line = line_at(f"{crate.folder}/{error[1]}", int(error[3]))
        return error[0] + MARK if cites(line, names) else error[0]

    return MISFIT.sub(mark, said)


def over(checked):
    """Returns a check that marks such errors."""

    def check(crate, texts, *words, **more):
        ran = checked(crate, texts, *words, **more)
        ran.stdout = marked(crate, texts, ran.stdout)
        return ran

    return check
