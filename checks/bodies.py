"""Wrong bodies: which function an edit changes, and the text of a crate that has many of them.

They stand in crates/NAME/wrong-bodies/, in the form of rt's must-fail edits. rt ci reads only must-fail/.

A file is read in rt fmt's layout: a function ends with the brace that stands as far in as its first line.
"""
import os
import re
from dataclasses import dataclass

from kit import rt

FOLDER = "wrong-bodies"
EDIT = re.compile(r"[A-Za-z0-9_-][A-Za-z0-9_.-]*\.edit")
FUNCTION = re.compile(r'(?m)^( *)((?:pub(?:\([^)]*\))? |const |unsafe |extern "C" )*)fn (\w+)')
OWNER = re.compile(
    r"(?m)^(?:pub(?:\([^)]*\))? )?(?:unsafe )?(?:trait|impl(?:<[^{]*?>)?) "
    r"(?:(?:\w+::)*(\w+(?:<[^{]*>)?)\s+for )?&?(\w+)"
)
ABOVE = re.compile(r"(?:[^\n]*[^\n{};]\n)*\Z")  # what stands right above a function, as its attributes


@dataclass(eq=False)
class Body:
    """A wrong body of one function."""

    edit: str
    file: str
    start: int  # of the function, in the file as it stands
    end: int
    owner: list  # the name of the type or trait that it is a function of, if any
    path: list  # the names of the crate and of the modules
    name: str
    text: str  # the function with the wrong body
    symbol: str = ""  # as a check names the function
    times: int = 0  # how often it was tried beside others
    first: int = 0  # its lines, in the text that has it beside others
    last: int = 0


@dataclass
class Place:
    """A function in a text: from `start`, with a body from `opens`, up to `end`."""

    start: int
    opens: int
    end: int
    words: str
    name: str
    is_inner: bool


def edits_of(crate):
    """Returns the paths of a crate's wrong bodies, and those of files that are none."""
    folder = f"{crate.folder}/{FOLDER}"
    names = sorted(os.listdir(folder)) if os.path.isdir(folder) else []
    good = [f"{folder}/{it}" for it in names if EDIT.fullmatch(it)]
    return good, [f"{folder}/{it}" for it in names if not EDIT.fullmatch(it) and it != "refused.txt"]


def function_at(text, at):
    """Returns the function around a place, or None: it has a body there, which holds no other function."""
    found = [it for it in FUNCTION.finditer(text) if it.start() <= at]
    if not found:
        return None
    head = found[-1]
    indent = head[1]
    close = text.find(f"\n{indent}}}", head.start())
    behind_clauses = text.find(f"\n{indent}{{\n", head.start(), max(close, 0))
    opens = text.find("{\n", head.start(), max(close, 0))
    if behind_clauses >= 0:
        opens = behind_clauses + len(indent) + 1
    following = FUNCTION.search(text, head.end())
    if close < 0 or opens < 0 or following and following.start() < close:
        return None
    return Place(head.start(), opens + 1, close + len(indent) + 2, head[2], head[3], bool(indent))


def owner_of(text, place):
    """Returns in a list the type that the function at a place belongs to, with its trait."""
    owners = [*OWNER.finditer(text, 0, place.start)] if place.is_inner else []
    return [owners[-1][2] + re.sub(r"\W", "", owners[-1][1] or "")] if owners else []


def body_of(crate, edit):
    """Returns the wrong body that an edit makes, or None where it changes more than one function's body."""
    texts, why = rt.read_edit(edit, crate.folder)
    if why or len(texts) != 1:
        return None
    [(file, new)] = texts.items()
    with open(f"{crate.folder}/{file}", encoding="utf-8") as it:
        old = it.read()
    low = len(os.path.commonprefix([old, new]))
    high = len(os.path.commonprefix([old[low:][::-1], new[low:][::-1]]))
    place = function_at(old, low)
    if not place or not file.startswith("src/") or "const" in place.words:
        return None
    if low < place.opens or len(old) - high > place.end:
        return None
    modules = [it for it in file[len("src/") : -len(".rt")].split("/") if it not in ("lib", "main")]
    start = place.start - len(ABOVE.search(old[: place.start])[0])
    text = new[start : len(new) - (len(old) - place.end)]
    return Body(edit, file, start, place.end, owner_of(old, place), [crate.name, *modules], place.name, text)


def symbol_of(body, known):
    """Returns the function's name in what a check says, or ''.

    A method may stand in another module than its type.
    """
    whole = "::".join([*body.path, *body.owner, body.name])
    ending = "::".join(["", *body.owner, body.name])
    found = [it for it in known if body.owner and it.endswith(ending)]
    return whole if whole in known else found[0] if len(found) == 1 else ""


def composed(crate, bodies):
    """Returns the crate's files with all these bodies, and notes each one's lines."""
    texts = {}
    for file in {it.file for it in bodies}:
        with open(f"{crate.folder}/{file}", encoding="utf-8") as it:
            old = it.read()
        made, at = "", 0
        for body in sorted((it for it in bodies if it.file == file), key=lambda it: it.start):
            made += old[at : body.start]
            body.first = made.count("\n") + 1
            made += body.text
            body.last, at = made.count("\n") + 1, body.end
        texts[file] = made + old[at:]
    return texts
