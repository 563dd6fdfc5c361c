"""The trial of a crate's wrong bodies: one by itself, or many in one check, and what isn't settled so alone, by rt's
rules."""
import os
import resource
import shutil
import tempfile
from concurrent.futures import ThreadPoolExecutor
from dataclasses import dataclass

from bodies import body_of, composed, symbol_of
from kit import AT_LIMIT, AT_ONCE, REFUSED, rt
from said import Said
from shifts import over

rt.checked = over(rt.checked)  # which must_fail calls too
ONE_JOB = ["--jobs", "1"]
REFUSALS = (REFUSED, AT_LIMIT)  # by a failing goal, or by a limit of the prover, as rt ci counts them
MOST = 30  # wrong bodies in one check, so that those of a large crate go into several at the same time


@dataclass
class Result:
    """What came of an edit."""

    is_refused: bool
    is_alone: bool
    text: str
    is_by_limit: bool = False  # refused by a limit of the prover, which another machine may not meet


def seconds():
    """Returns the processor time of all checks so far."""
    used = resource.getrusage(resource.RUSAGE_CHILDREN)
    return used.ru_utime + used.ru_stime


def below(symbol, calls):
    found, left = set(), [symbol]
    while left:
        more = calls.get(left.pop(), set()) - found
        found |= more
        left += more
    return found


def picked(left, calls):
    """Returns bodies of different functions, first those tried before, without what stood in their way."""
    chosen, free = {}, set()
    for it in sorted(left, key=lambda it: -it.times):
        under = below(it.symbol, calls) if it.times else set()
        if it.symbol not in chosen and it.symbol not in free and not under & {*chosen} and len(chosen) < MOST:
            chosen[it.symbol] = it
            free |= under
    return [*chosen.values()]


def result_of(kind, text):
    """Returns what a trial by rt's rules came to. A refusal for a name that is gone says nothing of the contract."""
    is_by_name = "only because a proof file names" in text
    return Result(kind in REFUSALS and not is_by_name, True, text.partition(": ")[2], kind == AT_LIMIT)


def tried_by_itself(crate, edit):
    """Tries one wrong body over nothing kept, by a check of its function and what that calls.

    What is not so refused is tried once more over the whole crate.
    """
    body = body_of(crate, edit)
    if body:
        name = "::".join([*(body.owner or body.path[1:]), body.name])  # a method may stand in another module than its type
        ran = rt.checked(crate, composed(crate, [body]), [*ONE_JOB, "--only", name], None)
        said = Said(ran.stdout, ran.returncode)
        body.symbol = symbol_of(body, [*said.verdicts])
        why = said.refused([body]).get(body)
        if why:
            return Result(True, True, why)
    return result_of(*rt.must_fail(crate, edit, ONE_JOB))


class Trial:
    def __init__(self, crate, edits, room, tell):
        self.crate, self.edits, self.room, self.tell = crate, edits, room, tell
        self.results, self.calls = {}, {}

    def check(self, texts, kept):
        ran = rt.checked(self.crate, texts, ONE_JOB, kept)
        return Said(ran.stdout, ran.returncode)

    def over_a_copy(self, work):
        """Gives a call a copy of what the crate's own check kept, so that no wrong body's work is found."""
        with tempfile.TemporaryDirectory(dir=self.room) as copy:
            shutil.copytree(f"{self.room}/kept", copy, dirs_exist_ok=True)
            return work(copy)

    def together(self, group):
        """Tries bodies of different functions in one check, and returns those to be tried so again."""
        said = self.over_a_copy(lambda copy: self.check(composed(self.crate, group), copy))
        for symbol, callees in said.calls.items():
            self.calls.setdefault(symbol, set()).update(callees)
        refused, strays = said.refused(group), said.strays(group)
        for body, why in refused.items():
            self.results[body.edit] = Result(True, False, why)
        again = []
        for body in group:
            body.times += 1
            waits = said.is_judged() and said.calls.get(body.symbol)
            if body not in refused and body.times == 1 and waits:
                again.append(body)
        if strays:
            first = strays[0][:150]
            self.tell(f"a function that no wrong body changes fails too, so each goes alone: {first}")
        self.tell(f"{len(group)} in one check, {len(refused)} refused, {len(again)} once more")
        return again

    def alone(self, edit):
        kind, text = self.over_a_copy(lambda copy: rt.must_fail(self.crate, edit, ONE_JOB, copy))
        if kind not in REFUSALS:
            kind, text = rt.must_fail(self.crate, edit, ONE_JOB)
        return result_of(kind, text)

    def work_off(self, left):
        """Tries bodies together, until each was in a check without what stood in its way."""
        while left:
            group = picked(left, self.calls)
            left = [it for it in left if it not in group] + self.together(group)

    def run(self):
        """Tries all, and returns what came of each edit, in their order."""
        whole = self.check({}, f"{self.room}/kept")
        if whole.status:
            why = "NOT TRIED: the crate is not proved as it stands"
            return [Result(False, True, why) for _ in self.edits]
        bodies = [it for it in (body_of(self.crate, edit) for edit in self.edits) if it]
        known = whole.proved()
        for body in bodies:
            body.symbol = symbol_of(body, known)
        left = [it for it in bodies if it.symbol]
        parts = -(-len(left) // MOST)
        with ThreadPoolExecutor(AT_ONCE) as pool:
            [*pool.map(self.work_off, [left[at::parts] for at in range(parts)])]
            rest = [it for it in self.edits if it not in self.results]
            self.results.update(zip(rest, pool.map(self.alone, rest)))
        return [self.results[it] for it in self.edits]


def tried(crate, edits, tell, begin_with=None):
    """Tries a crate's edits, and returns what came of each.

    `begin_with` is a folder of earlier checks' work, which spares the crate's own proof.
    """
    with tempfile.TemporaryDirectory(prefix="wrong-bodies-") as room:
        if begin_with and os.path.isdir(begin_with):
            shutil.copytree(begin_with, f"{room}/kept")
        return Trial(crate, edits, room, tell).run()
