"""The public items of a source in Rattle, with what their comments say and with their contracts.

A file is read in rt fmt's layout: an item at the left margin ends with the brace there, and a function's body begins
with a brace alone on its line, or with one at the end of its only line.
"""
import re
from dataclasses import dataclass, field

HEAD = re.compile(r"(?m)^//! ?(.*)$")
TYPE = re.compile(r"pub (struct|enum|trait|type) (\w+)")
IMPL = re.compile(r"impl\b(?:<[^{]*?>)? (?:(?:\w+::)*(\w+)(?:<[^{]*?>)? for )?&?(\w+)")
FUNCTION = re.compile(r"( *)(pub )?(?:const )?fn (\w+)")
LINK = re.compile(r"\[([^\]]*)\]\([\w:]+\)|\[(`[^`\]]*`)\]")


@dataclass
class Item:
    """A type, a trait or a function: its name, what its comment says, and its text up to its body."""

    name: str
    doc: str
    text: str
    functions: list = field(default_factory=list)  # of a trait


@dataclass
class Group:
    """The functions of one impl of a type: the trait's name, or "", and what its comment says."""

    owner: str
    trait: str
    doc: str
    functions: list = field(default_factory=list)


def plain(doc):
    """Returns a comment's lines as Markdown: a link to an item becomes the item's name."""
    return LINK.sub(lambda it: it[1] or it[2], "\n".join(doc)).strip("\n")


def head_of(text):
    """Returns what the head of a crate says."""
    return plain(HEAD.findall(text))


def dedented(lines):
    indent = len(lines[0]) - len(lines[0].lstrip())
    return "\n".join(it[indent:] for it in lines)


def signature(lines, at):
    """Returns the function that begins in a line, with its contract and without its body."""
    indent = lines[at][: len(lines[at]) - len(lines[at].lstrip())]
    for end in range(at, len(lines)):
        if lines[end] in (f"{indent}{{", f"{indent}{{}}"):
            return dedented(lines[at:end])
        if lines[end].endswith(";") and lines[end].startswith(indent):
            return dedented(lines[at : end + 1])
        if lines[end].endswith((" {", " {}")) and (end == at or lines[end].startswith(f"{indent})")):
            return dedented([*lines[at:end], lines[end].rsplit(" {", 1)[0]])
    return dedented(lines[at:])


def header_end(lines, at):
    """Returns the line in which an item's header ends: one with many type parameters takes several lines."""
    return next((to for to in range(at, len(lines)) if lines[to].endswith(("{", ";", "}"))), at)


def declared(lines, at):
    """Returns a type's declaration: an enum whole, and of a struct or a trait its header and public fields."""
    opens = header_end(lines, at)
    end = opens if lines[opens].endswith((";", "}")) else lines.index("}", opens)
    if " enum " in lines[at]:
        return "\n".join(lines[at : end + 1])
    first = "\n".join(lines[at : opens + 1]).rstrip(" {;")
    fields, comment = [], []
    for line in lines[opens + 1 : end] if " struct " in lines[at] else []:
        if line.lstrip().startswith("///"):
            comment.append(line)
            continue
        if re.match(r"    pub (?!\()", line):
            fields += [*comment, line]
        comment = []
    return "\n".join([f"{first} {{", *fields, "}"]) if fields else first


class Source:
    """The items of a file: its types and functions by name, and the groups of functions that its impls have."""

    def __init__(self, text):
        self.items, self.groups = {}, []
        self.doc, self.owner, self.lines = [], None, text.split("\n")
        for at in range(len(self.lines)):
            self.read(at)

    def read(self, at):
        line = self.lines[at]
        bare = line.lstrip()
        if bare.startswith("///"):
            self.doc.append(bare[3:].removeprefix(" "))
            return
        if bare.startswith("#["):
            return
        doc, self.doc = self.doc, []
        if line == "}":
            self.owner = None
        elif function := FUNCTION.match(line):
            self.add_function(function, doc, at)
        elif found := TYPE.match(line):
            item = Item(found[2], plain(doc), declared(self.lines, at))
            self.items[found[2]] = item
            self.owner = item.functions if found[1] == "trait" else None
        elif found := IMPL.match(self.header(at)):
            group = Group(found[2], found[1] or "", plain(doc))
            self.groups.append(group)
            self.owner = group.functions

    def header(self, at):
        """Returns in one line the header of the impl that begins in a line, or that line."""
        end = header_end(self.lines, at) if self.lines[at].startswith("impl") else at
        return " ".join(it.strip() for it in self.lines[at : end + 1])

    def add_function(self, found, doc, at):
        inside, is_public, name = bool(found[1]), bool(found[2]), found[3]
        item = Item(name, plain(doc), signature(self.lines, at))
        if not inside and is_public:
            self.items[name] = item
        elif len(found[1]) == 4 and self.owner is not None and (is_public or self.may_be_private()):
            self.owner.append(item)

    def may_be_private(self):
        """Whether the functions here are public without the word: those of a trait, and of an impl of one."""
        return not self.groups or self.groups[-1].functions is not self.owner or bool(self.groups[-1].trait)
