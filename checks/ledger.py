"""The ledger: wrong bodies that were refused, each with the checksum of all that its refusal depends on.

A refusal is a goal of one function that the prover does not close. It reads that function's text and proof, the
contracts of what it calls, types, definitions and lemmas. It reads no other function's body or proof. rt ci
leaves exactly this in the rlib of each crate: src without bodies, the definitions, and the files of lemmas. We
call it the crate's face. A crate above can call public functions alone. So of a crate below only the public face
counts: the interface that the rlib shows to others, with the clauses of its functions. A wrong body's sum is made of
the kit's logic, of the programs here that judge a trial, of the face of its crate and the public faces of the crates
below, of its function with its proof, and of the edit. It is the same on each machine.

Of the kit only the logic counts: the rules and libraries in which goals are stated. Two kits with one logic may differ
in how they search. No sound search closes a false goal, so a line outlives such a change. A goal that is true and was
only not found could be found by another kit. So KITS names the kits with which every wrong body was tried, and the
gate says if it runs with another.

Programs that judged before took some errors for refusals that are none: those before 29 November 2026 read one line of
each error, and the next did not look for shifted names (shifts.py). Their lines stand until their wrong bodies are
tried again, and the gate says how many there are.

The lines stand in crates/NAME/wrong-bodies/refused.txt, a sum and a name each.
"""
import hashlib
import os
import re

from bodies import FOLDER, body_of, edits_of
from kit import rt

HERE = os.path.dirname(os.path.realpath(__file__))
JUDGES = ("bodies.py", "kit.py", "ledger.py", "said.py", "shifts.py", "trial.py")
# The judges' sums before: of those who read one line of each error, and of those who did not look for shifted names.
EARLIER = (
    bytes.fromhex("0f5664c9e8583ace727f9f819fad5f329a226cb7bd2ec6bd2f8e11fb54638b95"),
    bytes.fromhex("0e6017b40dec5b265bd5aff2e0c46f786aaf6e955de3683f582427944ab6e603"),
)
KITS = f"{HERE}/kits.txt"
SOURCES = ("src", "specs", "proofs")
PROVED_BY = ("lang/antt/specs", "lang/antt/proofs")
WHOLE = "lang/src"
INTERFACE = "interface/lang/src"
FOR_THE_COMPILER = re.compile(rb"# \[ (?:inline|cold)\b[^\]]*\] ")  # attributes that no contract depends on
OF_A_FUNCTION = ("Answers.antt", "Invariants.antt", "Proof.antt")  # the parts of a function's proof, which no other reads
DIGITS = 24


def sum_of(*parts):
    made = hashlib.sha256()
    for it in parts:
        made.update(len(it).to_bytes(8, "big") + it)
    return made.digest()


def read(path):
    with open(path, "rb") as it:
        return it.read()


def files(top, leave_out=()):
    """Returns the names and bytes of all files below a folder, in one list."""
    found = []
    for at, folders, names in os.walk(top):
        folders.sort()
        for name in sorted(names):
            if name not in leave_out:
                path = f"{at}/{name}"
                found += [os.path.relpath(path, top).encode(), read(path)]
    return found


def kit():
    """Returns the kit's line, as rt version prints it."""
    return read(f"{rt.KIT}/KIT-ID").decode().strip()


def kit_sum():
    """Returns a sum of the kit's logic."""
    return sum_of(kit().partition(" ")[2].encode())


def is_tried_with():
    """Whether every wrong body was tried with this kit."""
    return kit() in read(KITS).decode().splitlines()


def judges_sum():
    return sum_of(*[read(f"{HERE}/{it}") for it in JUDGES])


def sources_sum(crate):
    return sum_of(*[it for part in SOURCES for it in (part.encode(), *files(f"{crate.folder}/{part}"))])


def proved_by(crate):
    """Returns the names and bytes of the definitions and lemmas of a crate."""
    return [it for part in PROVED_BY for it in (part.encode(), *files(f"{crate.rlib}/{part}", OF_A_FUNCTION))]


def face(crate):
    """Returns a sum of what a function of a crate reads of it; of a program, which has no rlib, of all its sources."""
    if not os.path.isdir(crate.rlib):
        return sources_sum(crate)
    whole = [FOR_THE_COMPILER.sub(b"", it) for it in files(f"{crate.rlib}/{WHOLE}")]
    return sum_of(*whole, *proved_by(crate))


def head(item):
    """Returns the first line of an item, as the interface writes it."""
    return FOR_THE_COMPILER.sub(b"", item.split(b"\n", 1)[0]).rstrip(b" ;")


def public_items(whole, interface):
    """Returns the items of a source without bodies that the interface shows too, with all their clauses. An item begins
    at the start of a line, and its clauses are indented."""
    shown = {head(line) for line in interface.split(b"\n")}
    items = re.split(rb"\n(?=\S)", whole)
    return [FOR_THE_COMPILER.sub(b"", it) for it in items if head(it) in shown]


def public_face(crate):
    """Returns a sum of what a crate above reads; of an rlib without an interface, its face."""
    top = f"{crate.rlib}/{INTERFACE}"
    if not os.path.isdir(top):
        return face(crate)
    shown = [FOR_THE_COMPILER.sub(b"", it) for it in files(top)]
    whole = dict(zip(*[iter(files(f"{crate.rlib}/{WHOLE}"))] * 2))
    items = [it for name, text in zip(*[iter(shown)] * 2) for it in public_items(whole[name], text)]
    return sum_of(*shown, *items, *proved_by(crate))


def is_read_whole(crate):
    """Whether a crate's wrong bodies depend on all its sources: of a program, and where functions share a proof or a
    macro of the crate writes text."""
    proofs = f"{crate.folder}/proofs"
    shares = any(name.startswith("+") for _, folders, _ in os.walk(proofs) for name in folders)
    return shares or not os.path.isdir(crate.rlib) or b"macro_rules" in b"".join(files(f"{crate.folder}/src"))


def own(crate, edit):
    """Returns a sum of the function that a wrong body changes, with its proof."""
    body = None if is_read_whole(crate) else body_of(crate, edit)
    if not body:
        return sources_sum(crate)
    text = read(f"{crate.folder}/{body.file}").decode()[body.start : body.end]
    ending = "/".join(["", *body.owner, body.name])
    proof = []
    for at, folders, _ in os.walk(f"{crate.folder}/proofs"):
        folders.sort()
        if at.endswith(ending) or f"{ending}/" in at:
            proof += [at[len(crate.folder) :].encode(), *files(at)]
    return sum_of(text.encode(), *proof)


def sums(crate, seen):
    """Returns the sum of each of a crate's wrong bodies, by its path. `seen` keeps what crates share."""
    if not seen:
        seen.update(kit=kit_sum(), judges=judges_sum())
    below = sorted(crate.below(), key=lambda it: it.name)
    for it in below:
        if it.name not in seen:
            seen[it.name] = public_face(it)
    kind = repr((sorted(crate.said.items()), crate.is_program, [*crate.of_kit])).encode()
    faces = [it for dep in below for it in (dep.name.encode(), seen[dep.name])]
    above = sum_of(seen["kit"], seen["judges"], kind, *faces, face(crate))
    return {
        edit: sum_of(above, own(crate, edit), os.path.basename(edit).encode(), read(edit)).hex()[:DIGITS]
        for edit in edits_of(crate)[0]
    }


def earlier_sums(crate, seen):
    """Returns the sums of each of a crate's wrong bodies as the judges before made them. `seen` is what `sums` kept."""
    made = [sums(crate, {**seen, "judges": it}) for it in EARLIER]
    return {edit: {of[edit] for of in made} for edit in made[0]}


def path_of(crate):
    return f"{crate.folder}/{FOLDER}/refused.txt"


def lines_of(crate):
    """Returns the sums of a crate's lines, by the name of the wrong body."""
    try:
        with open(path_of(crate), encoding="utf-8") as it:
            return {name: made for made, name in (line.split() for line in it)}
    except FileNotFoundError:
        return {}


def write(crate, lines):
    with open(path_of(crate), "w", encoding="utf-8") as it:
        it.writelines(f"{made} {name}\n" for name, made in sorted(lines.items()))
