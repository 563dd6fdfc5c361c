#!/usr/bin/env python3
"""Whether all that a reader must believe is cited by a public contract: checks/believed.py      at the top

A definition in specs/ counts as believed: it stands there because a public contract cites it, directly or through
other definitions. What only private contracts cite stands in specs/inner. This goes from the contracts of public
functions, from types, traits and their impls, and from all functions of programs, along the names in definitions, and
prints each definition outside inner/ that it does not reach. A name means what the imports of its file say, or else a
definition of that file, so each of two definitions with one name is reached only by itself. What `using(..)` names is
reached too. Operators are left out. So is a file whose head says that no public clause cites it. TO_MOVE lists what is
still in the wrong place; a name in it that is not fails too.

Some facts of contracts have a hidden meaning: a function can only meet them by a definition that makes the fact, which
the prover would let any function name. MAKERS lists these definitions, and the files that may name them. Any other file
that does, and a maker without a line, fails. The last line is 'N passed, M failed'.
"""
import pathlib
import re
import sys
from collections import namedtuple

from items import FUNCTION, header_end, signature

ROOT = pathlib.Path(__file__).resolve().parent.parent
WORD = r"[^\s(){},.;:\[\]⟨⟩`]+"
NAME = re.compile(rf"{WORD}(?:(?:\.|::){WORD})*")
DEFINED = re.compile(r"(?:(?:pub|abbrev|unfoldable|opaque|data|record)\s+)*([^\s:(){},]+)")
IS_DATA = re.compile(r"(?:(?:pub|abbrev|unfoldable|opaque)\s+)*data\s")
VARIANT = re.compile(r"(?m)^ +(?:pub )?([^\s:(){},=]+) :")
NO_DEFINITION = ("use ", "mod ", "pub use ", "pub mod ", "module ", "--", "unfoldable pub use ", "unfolding ", "infix")
OF_A_TRAIT = re.compile(r"(?:pub )?trait\b|impl\b.* for ")
IMPORT = re.compile(r"\s*(?:ghost use|use|//)")
IMPORTED = re.compile(r"(?m)^\s*(ghost |pub |unfoldable )*use Rattle\.([\w.]+?)(?:\.\{([^}]*)\}| as ([^\s;]+))?;?$")
APART = "No public clause cites this module"
FARTHEST = 4  # modules that pass a name on
TO_MOVE = {  # into inner/ or proofs/, as their crates change
    "acquire_queue.Line.left_by", "history_text.CommonEntry.once", "monitor.Load.holds_by", "monitor.Stepping.answer_of",
    "steps.StepReading.line_at",
}
MAKERS = {
    "frame.Tidied.tidied": ["frame/src/machine/stepping.rt"],
    "monitor.Acquire.asked": ["monitor/src/how.rt"],
    "monitor.Settled.settled": ["monitor/src/interrupts.rt"],
    "permit.Deed.done": ["permit/src/scripted.rt", "permit/src/threads.rt"],
    "word_lock.Woken.woken": ["word_lock/src/lock.rt"],
    "workers.Refused.refused": ["workers/src/start.rt", "workers/src/threads.rt"],
}
MADE = re.compile(r"(?m)^(?:pub )?(\S+) :.*\nunfolding ")

Definition = namedtuple("Definition", "module cites")


def names(text):
    """Returns the names in a text. A name may be a path."""
    return {*NAME.findall(text)}


def path_of(words):
    """Returns a path without the folder: `Rattle.history.specs.Line` is `history.Line`."""
    return words.removeprefix("Rattle.").replace(".specs.", ".", 1)


def imports(text, how=""):
    """Returns the paths that each imported name of a file stands for. `how` is the word before `use`, if only such
    imports are wanted."""
    found = {}
    for before, words, listed, alias in IMPORTED.findall(text):
        module = path_of(words)
        if not before.startswith(how):
            continue
        if not listed:
            found.setdefault(alias or module.rpartition(".")[2], set()).add(module)
        for item in filter(None, map(str.strip, listed.split(","))):
            name, _, other = item.partition(" as ")
            found.setdefault(other or name, set()).add(f"{module}.{name}")
    return found


def definitions(text):
    """Returns the names that each definition of a file cites, by its own name. A definition begins at the margin. The
    variants of a definition count as names of it. Fields don't: they are named only behind a value."""
    found, variants = {}, {}
    for part in re.split(r"\n(?=\S)", re.sub(r"--[^\n]*", "", text)):
        head = None if part.startswith(NO_DEFINITION) else DEFINED.match(part)
        if head and "◌" not in head[1]:
            found.setdefault(head[1], set()).update(names(part))
            if IS_DATA.match(part):
                variants.update((it, {head[1]}) for it in VARIANT.findall(part))
    return {**variants, **found}


def end_of(lines, at):
    """Returns the place after the function that begins in a line."""
    indent = lines[at][: len(lines[at]) - len(lines[at].lstrip())]
    head = at + len(signature(lines, at).split("\n")) - 1
    opens = next((it for it in (head, head + 1) if it < len(lines) and lines[it].endswith("{")), None)
    if opens is None or lines[head].endswith(";"):
        return head + 1
    return next((it for it in range(opens, len(lines)) if lines[it] == f"{indent}}}"), len(lines) - 1) + 1


def cited(text, is_program):
    """Returns the names in the public contracts of a source, and outside its functions."""
    lines, found, at, is_public = text.split("\n"), set(), 0, False
    while at < len(lines):
        line = lines[at]
        if not line.startswith((" ", "}", ">")) and line:
            is_public = bool(OF_A_TRAIT.match(" ".join(lines[at : header_end(lines, at) + 1])))
        function = FUNCTION.match(line)
        if function and (function[2] or is_public or is_program):
            found |= names(signature(lines, at))
        elif not function and not IMPORT.match(line):
            found |= names(line)
        at = end_of(lines, at) if function else at + 1
    return found


def meant(found, imported, module, own=()):
    """Returns the paths that the names of a file may stand for, of which `own` are defined there."""
    for name in found:
        if "::" in name:
            yield path_of(name.replace("::", ".").replace("crate.", f"{module.partition('.')[0]}.", 1))
            continue
        first, _, rest = name.partition(".")
        if first == "Rattle":
            yield path_of(name)
        if first in own:
            yield f"{module}.{first}"
        for path in imported.get(first, ()):
            yield path
            yield f"{path}.{rest.partition('.')[0]}"


class Specs:
    """The definitions of a repository by their paths, and those of each file, but inner ones."""

    def __init__(self, root):
        self.defined, self.imported, self.passed_on, self.files = {}, {}, {}, {}
        for path in sorted(root.glob("crates/*/specs/**/*.antt")):
            parts, text = path.relative_to(root).with_suffix("").parts, path.read_text()
            module = ".".join((parts[1], *parts[3:]))
            self.imported[module], self.passed_on[module] = imports(text), imports(text, "pub ")
            found = definitions(text)
            self.defined.update((f"{module}.{it}", Definition(module, cites)) for it, cites in found.items())
            if "inner" not in parts and APART not in text.split("\nuse")[0]:
                self.files[path.relative_to(root)] = [f"{module}.{it}" for it in found if found[it] and is_whole(it, text)]

    def definition(self, path):
        """Returns the path of the definition that a path leads to, through modules that pass others on."""
        for _ in range(FARTHEST):
            module, _, name = path.rpartition(".")
            if path in self.defined:
                return path
            crate, _, last = module.partition(".")
            further = self.passed_on.get(module, {}).get(name) or self.passed_on.get(f"{crate}.Lib", {}).get(last)
            if not further:
                return None
            path = min(further) if name in self.passed_on.get(module, {}) else f"{min(further)}.{name}"
        return None

    def cites(self, path):
        module, found = self.defined[path]
        own = {it for it in found if f"{module}.{it.partition('.')[0]}" in self.defined}
        return meant(found, self.imported[module], module, {it.partition(".")[0] for it in own})

    def reached(self, start):
        seen, left = set(), [*start]
        while left:
            path = self.definition(left.pop())
            if path and path not in seen:
                seen.add(path)
                left += self.cites(path)
        return seen

    def lost(self, seen):
        """Returns what was not seen, with the file of each."""
        return {it: path for path, found in self.files.items() for it in found if it not in seen}


def is_whole(name, text):
    """Whether a name is defined at the margin."""
    return re.search(rf"(?m)^(?:(?:pub|abbrev|unfoldable|opaque|data|record)\s+)*{re.escape(name)}(?=[\s:(])", text)


def public(root):
    """Returns the paths that public contracts cite."""
    for path in sorted(root.glob("crates/*/src/**/*.rt")):
        crate, text = path.relative_to(root).parts[1], path.read_text()
        is_program = (root / "crates" / crate / "src/main.rt").exists()
        yield from meant(cited(text, is_program), imports(text), crate)


def makers(root):
    """Returns the definitions that make a hidden fact."""
    for path in root.glob("crates/*/specs/**/*.antt"):
        parts = path.relative_to(root).with_suffix("").parts
        yield from (".".join((parts[1], *parts[3:], it)) for it in MADE.findall(path.read_text()))


def naming(root, known):
    """Returns the files that name such a definition, each with its path."""
    for path in [*root.glob("crates/*/src/**/*.rt"), *root.glob("crates/*/[ps]*s/**/*.antt")]:
        text, parts = path.read_text(), path.relative_to(root).parts
        if any(it.rpartition(".")[2] in text for it in known):
            cites = {*meant(names(text), imports(text), parts[1])}
            yield from (("/".join(parts[1:]), it) for it in cites & known)


def main():
    specs = Specs(ROOT)
    lost = specs.lost(specs.reached(public(ROOT)))
    wrong = [f"{path}: no public contract reaches {it.rpartition('.')[2]}" for it, path in lost.items() if it not in TO_MOVE]
    wrong += [f"{it} is in the right place" for it in sorted(TO_MOVE - {*lost})]
    known = {*makers(ROOT)}
    wrong += [f"{path}: it may not name {it}" for path, it in naming(ROOT, known) if path not in MAKERS.get(it, [])]
    wrong += [f"{it} has no line in MAKERS, or makes no hidden fact" for it in sorted(known ^ {*MAKERS})]
    print("".join(f"{it}\n" for it in wrong), end="")
    print(f"{sum(map(len, specs.files.values())) - len(lost)} passed, {len(wrong)} failed")
    return 1 if wrong else 0


if __name__ == "__main__":
    sys.exit(main())
