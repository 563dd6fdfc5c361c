#!/usr/bin/env python3
"""Says whether the pages show what the sources have: README, CONTRIBUTING, docs/, CALLING.md and those of bindings/.

usage: checks/pages.py [--write]      at the top of the repository

- A block of code is cut where a line without indentation follows a blank one. Each part has to stand in some
  file, where it is proved or run, as it stands in the page, but for the indentation of the whole: a block ```rust
  in a source of crates/ or bindings/, ```antt in a file of specs/ or proofs/, and ```c, ```cpp, ```java and
  ```python in a file of that language in bindings/.
- A block without a language, fenced or indented by four, is cut where a line is empty or `...`. Each part has to
  stand in a file of examples/, or in one of cases/ as what is asked or answered.
- A block ```sh is a list of commands and ```text is what they print. They stand only in pages whose commands a
  check runs, exactly as they are written: `RUN` names these pages and the check of each.
- Any other block has a mark in the lines before it, '<!-- not checked: WHY -->'.
- A link leads to a file that is there, and if it names a heading, to that heading.
- A table of contracts has a row for each file that it links, with all public functions of that file.
- A whole program that the check of such a page writes and runs may have a `main` of its own.
- A reference stands between the lines '<!-- made by checks/pages.py: NAMES -->' and '<!-- end -->'. It has what the
  sources of the page's crate say of these types and functions: first what several calls require and ensure, then each
  type, and of each public function its call, the first sentence of its comment, and the clauses that are its own. Of a
  clause of more than 9 words it has the label and the names that begin with a capital (`label: Names`). The name
  `head` stands for the head of the crate. Each name that the crate `locks` passes on has a reference in the page of its
  own crate. Elsewhere no page quotes a contract.

--write writes rows and references anew. The last line is 'N parts and rows, M not as the sources', and the
status is 1 if M is not 0.
"""
import glob
import os
import re
import sys
from collections import Counter
from typing import NamedTuple

import bodies
import items

FENCE = re.compile(r"^( *)```(\w*)$")
INDENTED, ITEM = re.compile(r"^ {4,}\S"), re.compile(r"^ *(?:[-*]|\d+\.) ")
MARK = re.compile(r"^ *<!-- not checked: \S.* -->$")
# Pages whose commands are run, each by its check.
RUN = {"docs/FIRST_HOUR.md": "first_hour.py", "docs/OWN_REPOSITORY.md": "own_repository.py"}
# Where the code of a language stands.
HOMES = {
    "rust": ("crates/*/src/**/*.rt", "bindings/rust/**/*.rs"),
    "antt": ("crates/*/specs/**/*.antt", "crates/*/proofs/**/*.antt"),
    "c": ("bindings/**/*.c", "bindings/**/*.h"),
    "cpp": ("bindings/**/*.cpp", "bindings/**/*.hpp"),
    "java": ("bindings/**/*.java",),
    "python": ("bindings/**/*.py",),
    "": ("examples/*.*", "cases/*.cases"),
}
# What a line of a case begins with, before what is asked or answered.
ASKED = re.compile(r"^[<>+] ?")
LINK = re.compile(r"\]\((?!\w+:)([^()\s#]*)(?:#([^()\s]*))?\)")
HEADING = re.compile(r"(?m)^#+ (.*)$")
ROW = re.compile(r"(?m)^\| \[(src/[\w/]+\.rt)\]\(\1\) \|.*\|$")
QUOTED = re.compile(r"(?ms)^```text\n(.*?)^```$")
CLAUSE = re.compile(r"(?m)^ *(?:requires|ensures)\b")
OPENS, ENDS = "<!-- made by checks/pages.py: %s -->", "<!-- end -->"
MADE = re.compile("(?ms)^" + OPENS % r"([^\n]*)" + r"\n(.*?)^" + ENDS + "$")
PASSED_ON = re.compile(r"(?m)^pub use (\w+)(?:::\w+)*::(?:\{([^}]*)\}|(\w+));")
FACADE = "crates/locks"
PUBLIC = re.compile(r"(?m)^( *)(pub )?(?:const )?fn (\w+)")
BEGINS = re.compile(r"(?m)^ {4}(?=(?:requires|ensures)\b)")
SENTENCE = re.compile(r"(.*?[.!?])(?= [A-Z`]|$)")
CALL = re.compile(r"(?:pub )?(?:const )?(?:unsafe )?fn (\w+)")
CITED = re.compile(r"\b[A-Z]\w{2,}")
LABELLED = re.compile(r"(?:requires|ensures)\*?(?: whole)?(?: (\w+))? \{")
LONG, OWN_MAIN = 9, "fn main("
SEVERAL = (
    "What several of these calls require and ensure; the sources say which. A long clause is told by its name and what it "
    "cites."
)


class Block(NamedTuple):
    """A block of a page: its language, its lines without their indentation, and whether it is marked as not checked."""

    kind: str
    lines: list
    is_marked: bool


def is_marked(lines):
    """Whether the last of these lines that says something is a mark."""
    said = [it for it in lines if it.strip()]
    return bool(said and MARK.match(said[-1]))


def end_of(lines, at, indent):
    """Returns where the block that begins at this line ends, in a page in which fences are indented so."""
    if indent is not None:
        return next((to for to in range(at, len(lines)) if lines[to] == f"{indent}```"), len(lines))
    end = at
    for to in range(at, len(lines)):
        if INDENTED.match(lines[to]):
            end = to + 1
        elif lines[to].strip():
            break
    return end


def blocks(page):
    """Returns the blocks of a page, fenced ones and those that are indented by four."""
    lines, at, found = page.split("\n"), 0, []
    while at < len(lines):
        fence = FENCE.match(lines[at])
        begins = INDENTED.match(lines[at]) and not ITEM.match(lines[at]) and (at == 0 or not lines[at - 1].strip())
        if fence or begins:
            first, indent = (at + 1, fence[1]) if fence else (at, None)
            end = end_of(lines, first, indent)
            cut = len(indent) if fence else 4
            found.append(Block(fence[2] if fence else "", [it[cut:] for it in lines[first:end]], is_marked(lines[:at])))
            at = end
        at += 1
    return found


def parts(block):
    """Returns the parts of a block, each as its lines."""
    between = r"\n\n+(?=\S)" if block.kind else r"\n\n+|\n(?:\.\.\.\n)"
    return [it.split("\n") for it in re.split(between, "\n".join(block.lines).strip("\n")) if it]


def stands(part, source):
    """Whether the lines of a part follow one another in the lines of a source, all indented alike."""
    for at, line in enumerate(source):
        if line.lstrip() == part[0]:
            indent = line[: len(line) - len(part[0])]
            if source[at : at + len(part)] == [indent + it if it else it for it in part]:
                return True
    return False


def lines_of(path):
    with open(path, encoding="utf-8") as it:
        return it.read().split("\n")


def public_functions(text):
    """Returns the public functions of a source, each with its type: those that say so, and those of its traits."""
    found = []
    for it in PUBLIC.finditer(text):
        owners = [*bodies.OWNER.finditer(text, 0, it.start())] if it[1] else []
        is_public = it[2] or owners and "trait " in owners[-1][0]
        if is_public:
            found.append("::".join([*(owner[2] for owner in owners[-1:]), it[3]]))
    return found


def row_of(page, file):
    """Returns the row of a file of the page's crate, or None where no such file stands."""
    path = f"{os.path.dirname(page)}/{file}"
    if not os.path.exists(path):
        return None
    functions = public_functions("\n".join(lines_of(path)))
    return f"| [{file}]({file}) | {', '.join(f'`{it}`' for it in functions)} |"


def first_sentence(doc):
    """Returns the first sentence of a comment."""
    said = " ".join(doc.split("\n\n")[0].split())
    found = SENTENCE.match(said)
    return found[1] if found else said


def cut(text):
    """Returns a function's declaration and its clauses, each in one line."""
    head, *clauses = BEGINS.split(text)
    return " ".join(head.split()), [" ".join(it.split()) for it in clauses]


def bracketed(text, at):
    """Returns where the bracket that opens at a place closes."""
    depth = 0
    for to in range(at, len(text)):
        depth += text[to] in "([{<"
        depth -= text[to] in ")]}" or text[to] == ">" and text[to - 1] not in "-="
        if not depth:
            return to
    return len(text)


def split_at_commas(text):
    """Returns the parts of a list, whose own lists in brackets stay whole."""
    found, at, begins = [], 0, 0
    while at < len(text):
        if text[at] == ",":
            found, begins = [*found, text[begins:at]], at + 1
        at = bracketed(text, at) + 1 if text[at] in "([{<" else at + 1
    return [it.strip() for it in [*found, text[begins:]] if it.strip()]


def call_of(head):
    """Returns how a function is called: its name, the names of what it takes, and what it returns."""
    found = CALL.match(head)
    at = found.end()
    at = bracketed(head, at) + 1 if head[at] == "<" else at
    end = bracketed(head, at)
    taken = [it.split(":")[0].strip() for it in split_at_commas(head[at + 1 : end])]
    names = [re.sub(r"^(mut |&mut |&'\w+ |&)+", "", it) for it in taken]
    returns = re.sub(r" where .*| \{$|;$", "", head[end + 1 :]).strip()
    returns = re.sub(r"(\w+)<'[^<>]*(?:<[^<>]*>[^<>]*)*>", r"\1<..>", returns)
    return f"{found[1]}({', '.join(names)}) {returns}".strip()


def told(clause):
    """Returns a clause as it stands, or what it is named and what it cites if it is long."""
    plain = clause.rstrip("; ")
    label = LABELLED.match(plain)
    if len(plain.split()) <= LONG or not label:
        return f"`{plain}`"
    cited = ",".join(dict.fromkeys(CITED.findall(plain)))
    name = label[1] if label[0].startswith("ensures") else label[0].rstrip(" {")
    return f"`{name or 'result'}: {cited}`" if cited else f"`{name or 'result'}`"


def listed(name, function, shared):
    """Returns the item of a function in a list: what it does, and the clauses that it shares with no other."""
    head, clauses = cut(function.text)
    own = [told(it) for it in clauses if shared[it] == 1]
    says = first_sentence(function.doc)
    owner = f"{name}::" if name and name != function.name else ""
    return " ".join(filter(None, [f"- `{owner}{call_of(head)}`:", says, *(["Own:", "; ".join(own)] if own else [])]))


def functions_of(name, sources):
    """Returns the item of a name and its functions, in the order of the sources, or None where no source has it."""
    found = [it for it in sources if name in it.items]
    if not found:
        return None
    item = found[0].items[name]
    groups = [it for source in [*found, *(it for it in sources if it not in found)] for it in source.groups]
    own = [it for it in groups if it.owner == name and it.functions and it.trait in ("", "Drop")]
    return item, [*item.functions, *(it for group in own for it in group.functions)]


def reference(names, sources):
    """Returns what the sources of a crate say of some types, traits and functions, or None where one lacks."""
    found = [(name, functions_of(name, sources)) for name in names]
    if any(it is None for _, it in found):
        return None
    alone = [(name, item) for name, (item, _) in found if " fn " in f" {item.text}"[:12]]
    every = [*(it for _, (_, functions) in found for it in functions), *(item for _, item in alone)]
    shared = Counter(it for function in every for it in cut(function.text)[1])
    often = [f"- {told(it)}: {count} calls" for it, count in shared.most_common() if count > 3]
    said = [SEVERAL, "\n".join(often)] if often else []
    for name, (item, functions) in found:
        if (name, item) not in alone:
            said += [f"### `{name}`", first_sentence(item.doc), f"```rust\n{item.text}\n```"]
            said += ["\n".join(listed(name, it, shared) for it in functions)] if functions else []
    said += ["### Functions", "\n".join(listed("", item, shared) for _, item in alone)] if alone else []
    return "\n\n".join(it for it in said if it)


def made_of(page, names):
    """Returns the reference of some names, as the sources of the page's crate have it, or None if one lacks."""
    files = sorted(glob.glob(f"{os.path.dirname(page)}/src/**/*.rt", recursive=True))
    texts = ["\n".join(lines_of(it)) for it in files]
    sources = [items.Source(it) for it in texts]
    heads = [items.head_of(text) for file, text in zip(files, texts) if file.endswith("/src/lib.rt")]
    said = heads[0] if names.strip() == "head" else reference(names.split(), sources)
    return None if said is None else f"{said}\n"


def passed_on(top):
    """Returns the crate and the name of each item that the facade passes on."""
    text = "\n".join(lines_of(f"{top}/{FACADE}/src/lib.rt"))
    return [
        (it[1], name.strip()) for it in PASSED_ON.finditer(text) for name in (it[2] or it[3]).split(",") if name.strip()
    ]


def missing(top):
    """Returns, of the names that the facade passes on, those that the page of their crate has no reference of."""
    found = {}
    for crate, name in passed_on(top):
        if crate not in found:
            page = f"{top}/crates/{crate}/CALLING.md"
            text = "\n".join(lines_of(page)) if os.path.exists(page) else ""
            found[crate] = {name for it in MADE.finditer(text) for name in it[1].split()}
        if name not in found[crate]:
            yield f"crates/{crate}/CALLING.md: no reference of {name}"


def anchors_of(text):
    """Returns the names by which links lead to the headings of a page."""
    said = (re.sub(r"[^\w\- ]", "", it).strip().lower() for it in HEADING.findall(text))
    return {it.replace(" ", "-") for it in said}


def dead_links(page, text):
    """Returns the links of a page that lead nowhere in the repository."""
    for it in LINK.finditer(text):
        file = os.path.join(os.path.dirname(page), it[1]) if it[1] else page
        if not os.path.exists(file):
            yield f"{it[1]} is not there"
        elif it[2] and it[2] not in anchors_of("\n".join(lines_of(file))):
            yield f"{it[1]} has no heading {it[2]}"


def strays_of_block(page, block, sources):
    """Returns how many parts a block has, and what is to be said of those that nothing holds."""
    if block.kind in ("sh", "text"):
        is_run = any(page.endswith(f"/{it}") or page == it for it in RUN)
        return 1, [] if is_run or block.is_marked else [f"no check runs this, and no mark says why: {block.lines[0]}"]
    if block.is_marked:
        return 1, []
    if block.kind not in HOMES:
        return 1, [f"a block of {block.kind}, a language that no check knows: {block.lines[0]}"]
    found, files = parts(block), sources(block.kind)
    if block.lines and block.lines[0].startswith("//! ") and any(page.endswith(it) for it in RUN):
        found = [it for it in found if not it[0].startswith(OWN_MAIN)]
    missing_ones = [it[0] for it in found if not any(stands(it, file) for file in files)]
    return len(found), [f"no file has, and no mark says why: {it}" for it in missing_ones]


def strays_of(page, text, sources):
    """Returns how many parts and rows a page has, and what is to be said of those that are not as the sources."""
    made = [*MADE.finditer(text)]
    text = MADE.sub(lambda it: it[2] if it[1] == "head" else "", text)
    rows, count, strays = [*ROW.finditer(text)], 0, []
    for block in blocks(text):
        number, said = strays_of_block(page, block, sources)
        count, strays = count + number, strays + said
    again = "is not as the sources have it: checks/pages.py --write writes it anew"
    strays += [f"the row of {it[1]} {again}" for it in rows if row_of(page, it[1]) != it[0]]
    strays += [f"the reference of {it[1]} {again}" for it in made if made_of(page, it[1]) != it[2]]
    strays += [f"quotes a clause: {it.strip()}" for block in QUOTED.findall(text) for it in CLAUSE.findall(block)]
    return count + len(rows) + len(made), strays


def is_built(path, top):
    """Whether a file lies in a folder out/, where git does not keep it."""
    return "out" in os.path.relpath(path, top).split(os.sep)


def pages_of(top):
    some = ("README.md", "CONTRIBUTING.md", "docs/*.md", "crates/*/CALLING.md", "bindings/**/*.md")
    return sorted(path for it in some for path in glob.glob(f"{top}/{it}", recursive=True) if not is_built(path, top))


def sources_of(top):
    """Returns a function from a language to the lines of each file in which its code stands."""
    kept = {}

    def sources(kind):
        if kind not in kept:
            files = {it for some in HOMES[kind] for it in glob.glob(f"{top}/{some}", recursive=True)}
            kept[kind] = [lines_of(it) for it in sorted(files) if not is_built(it, top)]
            if not kind:
                kept[kind] = [[ASKED.sub("", it) for it in lines] for lines in kept[kind]]
        return kept[kind]

    return sources


def checked(top):
    """Returns how many parts and rows there are, and what is to be said of those that are not as the sources."""
    sources, strays = sources_of(top), [*missing(top)]
    count = len(strays)
    for page in pages_of(top):
        number, found = strays_of(page, "\n".join(lines_of(page)), sources)
        count += number
        strays += [f"{page[len(top) + 1 :]}: {it}" for it in [*found, *dead_links(page, "\n".join(lines_of(page)))]]
    return count, strays


def written(top):
    """Writes the rows and the references of all pages anew."""
    for page in pages_of(top):
        old = "\n".join(lines_of(page))
        new = ROW.sub(lambda it, page=page: row_of(page, it[1]) or it[0], old)
        new = MADE.sub(lambda it, page=page: f"{OPENS % it[1]}\n{made_of(page, it[1]) or it[2]}{ENDS}", new)
        if new != old:
            with open(page, "w", encoding="utf-8") as it:
                it.write(new)


def main(words):
    if words not in ([], ["--write"]):
        sys.exit(__doc__)
    if words:
        written(".")
    count, strays = checked(".")
    for it in strays:
        print(f"checks: {it}")
    print(f"{count} parts and rows, {len(strays)} not as the sources")
    return 1 if strays else 0


if __name__ == "__main__":
    sys.exit(main(sys.argv[1:]))
