#!/usr/bin/env python3
"""What the repository may take: checks/budget.py      at the top

budget.txt has a line for each number: its name, the most that it may be, and, where it was raised, why. This counts
each, prints it beside its bound, and fails where a number is above. Who needs more room takes something away in the
same commit, or raises the bound and writes why in a line.

- `crates`: the lines of crates.txt.
- `lines`: of Rattle, definitions and proofs in crates/, tests apart; `lines of tests`: of the crates test_*.
- `words`: of all pages, generated parts apart; `words generated`: of those. `words of NAME`: of one page.
- `reach of NAME`: the lines of the definitions that the contract of a function cites, directly or through others: what
  a reader must believe of it.
- `wide lines`: lines of sources above 110 columns, imports apart.
- `bodies twice`: bodies of three lines and more that stand in two places, tests apart.
- `weak orderings`: steps on a shared word, or imports, that name another ordering than `Ordering::SeqCst`. Such a step
  may be right on this processor and lose a wake on another.
- `calendars`: readings of the calendar's clock, which somebody may set while a call waits by it.

The last line is 'N passed, M failed'.
"""
import functools
import pathlib
import re
import subprocess
import sys
from collections import defaultdict

from believed import DEFINED, NO_DEFINITION, ROOT, Specs, end_of, imports, meant, names
from items import FUNCTION, signature

TABLE = "checks/budget.txt"
COLUMNS, LEAST = 110, 3
GENERATED = re.compile(r"(?s)<!-- made by [^\n]*-->.*?(?=<!-- end -->|\Z)")
IMPORT = re.compile(r"\s*(?:ghost use|use|pub use|//)")
SAID = {"weak orderings": re.compile(r"\bOrdering(?:::(?!SeqCst\b)| as\b)"),
        "calendars": re.compile(r"\bSystemTime\b|\.since_1970\b")}


def tracked(top, *patterns):
    """Returns the files of the repository by these patterns, without what checks made."""
    words = ["git", "ls-files", "--", *patterns]
    ran = subprocess.run(words, cwd=top, capture_output=True, text=True)
    found = [top / it for it in ran.stdout.splitlines()] if ran.returncode == 0 else []
    found = found or [path for it in patterns for path in top.glob(it)]  # a copy without git's files
    return sorted(it for it in {*found} if it.is_file() and "out" not in it.relative_to(top).parts)


def is_of_tests(path, top):
    return path.relative_to(top).parts[1].startswith("test_")


def sources(top):
    """Returns the sources of the crates, and whether each is of tests."""
    return [(it, is_of_tests(it, top)) for it in tracked(top, "crates/**/*.rt", "crates/**/*.antt")]


def count(path):
    return len(path.read_text(encoding="utf-8").splitlines())


def crates(top):
    lines = (top / "crates.txt").read_text(encoding="utf-8").splitlines()
    return sum(bool(it.strip()) and not it.startswith("#") for it in lines)


def words(top):
    """Returns the words of each page by its name: those that were written, and those that were generated."""
    found = {}
    for path in tracked(top, "*.md", "**/*.md"):
        text = path.read_text(encoding="utf-8")
        rest = GENERATED.sub(" ", text)
        found[str(path.relative_to(top))] = len(rest.split()), len(text.split()) - len(rest.split())
    return found


def parts(text):
    """Returns the lines of each definition of a file, by its name."""
    found = defaultdict(int)
    for part in re.split(r"\n(?=\S)", re.sub(r"--[^\n]*", "", text)):
        head = None if part.startswith(NO_DEFINITION) else DEFINED.match(part)
        if head and "◌" not in head[1]:
            found[head[1]] += sum(bool(it.strip()) for it in part.split("\n"))
    return found


def lengths(top):
    """Returns the lines of each definition of the repository, by its path."""
    found = {}
    for path in top.glob("crates/*/specs/**/*.antt"):
        inside = path.relative_to(top).with_suffix("").parts
        module = ".".join((inside[1], *inside[3:]))
        found.update((f"{module}.{it}", lines) for it, lines in parts(path.read_text(encoding="utf-8")).items())
    return found


def contract(top, name):
    """Returns the paths that a function's contract cites. The name is `crate/module Type::function` or the like."""
    file, _, function = name.rpartition(" ")
    crate = file.partition("/")[0]
    path = top / "crates" / crate / "src" / f"{file.partition('/')[2]}.rt"
    text = path.read_text(encoding="utf-8")
    lines, owner = text.split("\n"), ""
    for at, line in enumerate(lines):
        head = re.match(r"impl(?:<.*>)? (?:[^{]* for )?&?(\w+)", line)
        owner = head[1] if head else "" if line.startswith("}") else owner
        found = FUNCTION.match(line)
        if found and "::".join(filter(None, (owner, re.search(r"fn (\w+)", line)[1]))) == function:
            return {*meant(names(signature(lines, at)), imports(text), crate)}
    raise LookupError(f"{name}: no such function")


def reach(top, name, specs, known):
    """Returns the lines of all definitions that a function's contract cites, directly or through others."""
    return sum(known.get(it, 0) for it in specs.reached(contract(top, name)))


def wide(top):
    """Returns the lines of sources that are too wide."""
    for path, is_test in sources(top):
        if path.suffix == ".rt":
            for number, line in enumerate(path.read_text(encoding="utf-8").splitlines(), 1):
                if len(line) > COLUMNS and not IMPORT.match(line):
                    yield f"{path.relative_to(top)}:{number}: {len(line)} columns"


def bodies(path):
    """Returns the bodies of a file's functions that have enough lines, each with its line."""
    lines = path.read_text(encoding="utf-8").splitlines()
    for at, line in enumerate(lines):
        if FUNCTION.match(line):
            head = at + len(signature(lines, at).split("\n"))
            whole = [" ".join(it.split()) for it in lines[head : end_of(lines, at) - 1]]
            body = [it for it in whole if it not in ("", "{") and not it.startswith("//")]
            if len(body) >= LEAST:
                yield "\n".join(body), at + 1


def twice(top):
    """Returns where bodies stand that stand in two places or more, but the first of each."""
    found = defaultdict(list)
    for path, is_test in sources(top):
        if path.suffix == ".rt" and not is_test:
            for body, line in bodies(path):
                found[body].append(f"{path.relative_to(top)}:{line}")
    for places in found.values():
        if len(places) > 1:
            yield f"{places[1]}: its body is that of {places[0]}"


def said(top, pattern):
    """Returns where a source says what a pattern has."""
    for path, _ in sources(top):
        if path.suffix == ".rt":
            for number, line in enumerate(path.read_text(encoding="utf-8").splitlines(), 1):
                if pattern.search(line.partition("//")[0]):
                    yield f"{path.relative_to(top)}:{number}: {line.strip()}"


def table(top):
    """Returns the bounds: name, number, why."""
    for line in (top / TABLE).read_text(encoding="utf-8").splitlines():
        if line.strip() and not line.startswith("#"):
            name, number, why = re.fullmatch(r"(.*): (\d+)(.*)", line).groups()
            yield name, int(number), why.strip()


def counted(top):
    """Returns a function from the name of a number to the number and to where it comes from."""
    pages, found = words(top), sources(top)
    specs, known = Specs(top), lengths(top)
    listed_by = {"wide lines": wide, "bodies twice": twice}
    listed_by |= {name: functools.partial(said, pattern=it) for name, it in SAID.items()}

    def number(name):
        if name == "crates":
            return crates(top), []
        if name in ("lines", "lines of tests"):
            return sum(count(it) for it, is_test in found if is_test == (name != "lines")), []
        if name == "words":
            return sum(it for it, _ in pages.values()), []
        if name == "words generated":
            return sum(it for _, it in pages.values()), []
        if name.startswith("words of "):
            listed = name.removeprefix("words of ").split(" and ")
            return sum(pages.get(it, (0, 0))[0] for it in listed), [it for it in listed if it not in pages]
        if name.startswith("reach of "):
            return reach(top, name.removeprefix("reach of "), specs, known), []
        if name in listed_by:
            places = [*listed_by[name](top)]
            return len(places), places
        raise LookupError(f"{name}: no such number")

    return number


def main():
    number, passed, failed = counted(ROOT), 0, 0
    for name, most, _ in table(ROOT):
        now, places = number(name)
        print(f"{now:>8} of {most:>7}  {name}{'' if now <= most else ': too many'}")
        if now > most:
            print("".join(f"    {it}\n" for it in places), end="")
        passed, failed = passed + (now <= most), failed + (now > most)
    print(f"{passed} passed, {failed} failed")
    return 1 if failed else 0


if __name__ == "__main__":
    sys.exit(main())
