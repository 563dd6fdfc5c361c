#!/usr/bin/env python3
"""Writes the invariants of a function's loops that lock: tools/loop.py CRATE FUNCTION

CRATE is the folder of a crate, as crates/mine. FUNCTION is a function of it with its module and its type, as `sum` in
main.rt or lib.rt, `working::take` in working.rt, or `barrier::Barrier::wait_for`. Its contract requires CanLock, as in
docs/FIRST_HOUR.md. The file is CRATE/proofs/FUNCTION/Invariants.antt. It says of each loop

- if it locks in each round, or calls a function that does: the pass can lock before each round;
- if it keeps a guard: the guard has the value, and its pass holds the lock once;
- if it goes over rt.forever(): besides, that the iterator goes on.

What your loop needs beyond that, add it to the file. A file that is there is not replaced.
"""
import pathlib
import re
import sys

FUNCTION = r"(?m)^( *)(?:pub(?:\(\w+\))? )?fn %s\b"
FOR = re.compile(r"(?m)^( *)for (\w+) in (.+) \{$")
TERM = r"(\([^()]*\)|\S+)"
CAN_LOCK = re.compile(rf"requires[^{{]*\{{[^}}]*?\bCanLock {TERM} {TERM} (\w+)\.old")
SEATS = re.compile(r"\((\w+)\.seats (\w+)\)")
GUARD = re.compile(r"(?m)^( *)let mut (\w+) = Mutex::\w+\(")


class Function:
    """What a function's text says of its lock, its parking, its pass and its loops. CanLock has their names."""

    def __init__(self, text, name):
        begins = re.search(FUNCTION % re.escape(name), text)
        if not begins:
            raise LookupError(f"there is no function {name}")
        ends = re.compile(rf"(?m)^{begins[1]}\}}$").search(text, begins.end())
        self.text = text[begins.start() : ends.end() if ends else len(text)]
        self.is_generic = bool(re.search(rf"fn {re.escape(name)}<", self.text))
        contract = CAN_LOCK.search(self.text[: self.text.find(f"\n{begins[1]}{{")])
        if not contract:
            raise LookupError(f"the contract of {name} requires no CanLock")
        self.lock, places, self.own = contract[1].replace(".now", ""), contract[2].replace(".now", ""), contract[3]
        seats = SEATS.fullmatch(places)
        self.parameter, self.parking = seats.groups() if seats else (None, places)

    def places(self, parking):
        """Returns how many places a parking of the function's kind has, as an invariant says it."""
        return f"(g.{self.parameter}.Parking.seats {parking})" if self.parameter else parking

    def loops(self):
        """Returns of each loop its variable, whether it never ends, and the guard that it keeps, if it does."""
        for it in FOR.finditer(self.text):
            guards = [guard for indent, guard in GUARD.findall(self.text, 0, it.start()) if indent == it[1]]
            yield it[2], it[3].endswith(".forever()"), guards[-1] if guards else None


def invariant(function, variable, is_endless, guard):
    """Returns the two lines or more of a loop's invariant."""
    part = "" if variable == "_" else f"-{variable}"
    iterator = "iterator'" if variable == "_" else f"{variable}-iterator"
    goal = f"(goal.iterator-loop{part} g)" if function.is_generic else f"goal.iterator-loop{part}"
    facts = []
    if is_endless:
        facts.append(f"{goal}.can_next l.{iterator} × {goal}.is_finite l.{iterator}")
    if guard:
        kept = f"l.{guard}"
        facts.append(f"({kept}.pass.ghost_name ≡ l.initial.{guard}.pass.ghost_name)")
        places = function.places(f"{kept}.parking.now")
        facts.append(f"Guards {kept}.lock.now {places} {kept}.pass.now {kept}.slot")
        facts.append(f"IsSame l.fn.{function.own} {kept}.pass.now × (holds {kept}.pass.now ≡ 1)")
    else:
        places = function.places(f"l.fn.{function.parking}")
        facts.append(f"CanLock l.fn.{function.lock} {places} l.{function.own}")
    name, said = f"invariant-loop{part}", "\n    × ".join(facts)
    begins = f"{name} {'g l' if function.is_generic else 'l'} ="
    return f"abbrev pub {name} : goal.{name}\n{begins}" + (f" {said}\n" if len(facts) == 1 else f"\n    {said}\n")


def invariants(crate, path, text):
    """Returns the file of the function with this path, whose source is this text."""
    function = Function(text, path.split("::")[-1])
    loops = [*function.loops()]
    if not loops:
        raise LookupError(f"{path} has no loop `for`")
    keeps = [it for it in loops if it[2]]
    words = ["CanLock"] * (len(keeps) < len(loops)) + ["Guards", "IsSame", "holds"] * bool(keeps)
    used = ["use Rattle.std.proofs.Common.{◌≡◌}\n"] * bool(keeps)
    used.append(f"use Rattle.locks.specs.Calling.{{{', '.join(words)}}}\n")
    used.append(f"use Rattle.{crate}.proofs.{path.replace('::', '.')}.Given as goal\n")
    return "".join(used) + "".join(f"\n{invariant(function, *it)}" for it in loops)


def source_of(folder, path):
    """Returns the source in which a function stands: that of its module, or the root of the crate."""
    modules = [it for it in path.split("::")[:-1] if not it[0].isupper()]
    names = ["/".join(modules) + ".rt"] if modules else ["main.rt", "lib.rt"]
    found = [it for it in (folder / "src" / name for name in names) if it.is_file()]
    if not found:
        raise LookupError(f"there is no {folder}/src/{names[0]}")
    return found[0]


def main(words):
    if len(words) != 2 or words[0].startswith("-"):
        sys.exit(__doc__)
    folder, path = pathlib.Path(words[0]), words[1]
    file = folder.joinpath("proofs", *path.split("::"), "Invariants.antt")
    try:
        text = invariants(folder.resolve().name, path, source_of(folder, path).read_text(encoding="utf-8"))
        if file.exists():
            raise LookupError(f"{file} is there")
    except LookupError as fault:
        sys.exit(f"loop: {fault}")
    file.parent.mkdir(parents=True, exist_ok=True)
    file.write_text(text, encoding="utf-8")
    print(f"loop: {file}")


if __name__ == "__main__":
    main(sys.argv[1:])
