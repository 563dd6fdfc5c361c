#!/usr/bin/env python3
"""Tries the wrong bodies crates/NAME/wrong-bodies/*.edit, and keeps a ledger of those that were refused.

usage: checks/wrong_bodies.py [--anew] [--earlier] [--sample SEED] [--built] [--write] [NAME..]

At the top of the repository, of all crates or of these.

A wrong body is refused if its function is not proved, and one of that function's own goals fails. An edit that is
refused only because a proof names what it took away counts as not refused: it says nothing of the contract.

A line of the ledger is valid while nothing has changed of all that the refusal depends on (ledger.py). Wrong bodies
without a valid line are tried: a few of a crate each by itself, by a check of their functions alone; more of them many
in one check, since a check reports each function by itself. What is not so refused, since a callee's wrong body stood
in the way, is tried once more without that one, and then alone, by rt's own rules. So are edits that change more than
one function's body.

--anew           tries all, with a valid line or without
--earlier        tries also those that stand by a line of judges before, who took some errors for refusals (ledger.py)
--sample SEED    tries some of those with a valid line again, by themselves, in an order that the seed decides. None is
                 begun after 150 seconds of processor time; with those under way it comes to some five minutes
--built          the libraries stand as rt ci has just left them, and nothing else that earlier checks kept is taken
--write          writes the ledger: a line for each that was refused now, or stands by its line. It needs --built
A file that is no wrong body, a wrong body without a line and a line without a wrong body fail. The last line is
'N refused, M not refused', and the status is 1 if any is not.
"""
import hashlib
import os
import sys
import time
from concurrent.futures import ThreadPoolExecutor
from dataclasses import dataclass, field

sys.dont_write_bytecode = True

import ledger
import selftest
from bodies import edits_of
from kit import AT_ONCE, rt
from trial import ONE_JOB, seconds, tried, tried_by_itself

FEW = 5  # wrong bodies of a crate that are tried each by itself: more go into one check
SAMPLE = 150  # processor seconds, after which no more of the sample are begun
OF_SAMPLE = 2  # of the sample at the same time: each of them goes on behind that moment


def tell(text):
    print(f"checks: {text}", flush=True)


@dataclass
class Ledger:
    """A crate's wrong bodies and its lines."""

    crate: object
    sums: dict  # of each wrong body, by its path
    lines: dict  # of each line, by the wrong body's name
    results: dict = field(default_factory=dict)  # of each trial, by the path
    earlier: dict = field(default_factory=dict)  # of each wrong body the sums as the judges before made them, by its path

    def line(self, edit):
        return self.lines.get(os.path.basename(edit))

    def is_valid(self, edit):
        return self.line(edit) == self.sums[edit] or self.is_of_before(edit)

    def is_of_before(self, edit):
        """Whether a wrong body's line is one of the judges before."""
        return self.line(edit) in self.earlier.get(edit, ())

    def faults(self):
        """Returns what is wrong with the files of the folder and their lines."""
        names = {os.path.basename(it) for it in self.sums}
        bad = [f"{os.path.basename(it)} is no wrong body" for it in edits_of(self.crate)[1]]
        bad += [f"{it} has no line in the ledger" for it in sorted(names - {*self.lines})]
        return bad + [f"{it} has a line and is not there" for it in sorted({*self.lines} - names)]

    def is_refused(self, edit):
        return self.results[edit].is_refused if edit in self.results else self.is_valid(edit)

    def renewed(self):
        """Returns the lines as they are to stand."""
        is_kept = lambda edit: self.is_refused(edit) and not (edit in self.results and self.results[edit].is_by_limit)
        made = lambda edit: self.sums[edit] if edit in self.results else self.line(edit)
        return {os.path.basename(edit): made(edit) for edit in self.sums if is_kept(edit)}

    def note(self, edit, result, took=""):
        self.results[edit] = result
        limit = ", but only by a limit of the prover, so it gets no line" if result.is_by_limit else ""
        verdict = "refused" if result.is_refused else "NOT REFUSED"
        tell(f"{self.crate.name}/{os.path.basename(edit)}: {verdict}{limit}{took}: {result.text}")


def try_together(of, edits, is_built):
    """Tries many wrong bodies of a crate."""
    begin_with = None if is_built else f"{of.crate.folder}/out/incremental"
    said = lambda text: tell(f"{of.crate.name}: {text}")
    for edit, result in zip(edits, tried(of.crate, edits, said, begin_with)):
        of.note(edit, result)


def try_by_itself(of, edit):
    begun = time.monotonic()
    result = tried_by_itself(of.crate, edit)
    if result.text.startswith("NOT TRIED"):  # its check broke off, as when memory is short
        result = tried_by_itself(of.crate, edit)
    of.note(edit, result, f" in {time.monotonic() - begun:.0f} s")


def try_left(ledgers, flags):
    """Tries the wrong bodies without a valid line, and those that the flags ask for, the crates with most first."""
    is_asked = lambda of, it: "--anew" in flags or ("--earlier" in flags and of.is_of_before(it))
    left = {of.crate.name: [it for it in of.sums if is_asked(of, it) or not of.is_valid(it)] for of in ledgers}
    ledgers = sorted(ledgers, key=lambda of: -len(left[of.crate.name]) * of.crate.count(b"\n"))
    with ThreadPoolExecutor(AT_ONCE) as pool:
        begun = []
        for of in ledgers:
            edits = left[of.crate.name]
            if len(edits) > FEW:
                begun.append(pool.submit(try_together, of, edits, "--built" in flags))
            else:
                begun += [pool.submit(try_by_itself, of, it) for it in edits]
        for it in begun:
            it.result()
    return sum(map(len, left.values()))


def in_order(ledgers, seed):
    """Returns the wrong bodies that stand by their lines, in the order that a seed decides."""
    standing = [(of, it) for of in ledgers for it in of.sums if it not in of.results and of.is_valid(it)]
    place = lambda of, it: hashlib.sha256(f"{seed} {of.crate.name} {os.path.basename(it)}".encode()).digest()
    return sorted(standing, key=lambda pair: place(*pair))


def try_sample(ledgers, seed):
    """Tries some of the wrong bodies that stand by their lines, and returns how many."""
    standing, began, begun = in_order(ledgers, seed), seconds(), 0

    def go_on(_):
        nonlocal begun
        while standing and seconds() - began < SAMPLE:
            of, edit = standing.pop(0)
            begun += 1
            try_by_itself(of, edit)

    threads = min(OF_SAMPLE, AT_ONCE)
    with ThreadPoolExecutor(threads) as pool:
        [*pool.map(go_on, range(threads))]
    return begun


def build(crates):
    """Builds these crates' rlibs, and those below them, and says whether they stand."""
    libraries = {it.name: it for crate in crates for it in (*crate.below(), crate) if not (it.is_program or it.is_static)}
    upwards = sorted(libraries.values(), key=lambda it: len(it.below()))
    return not any(it.build_rlib(ONE_JOB, anew=False) for it in upwards)


def lacking(crates, is_built):
    """Returns why the crates can't be tried, or None."""
    if not is_built:
        return None if build(crates) else "a library is not proved"
    libraries = {it.name: it for crate in crates for it in (*crate.below(), crate) if not (it.is_program or it.is_static)}
    found = [name for name, it in libraries.items() if not os.path.exists(it.rlib)]
    return f"the library {found[0]} is not built" if found else None


def judged(ledgers, is_written):
    """Says what fails, writes the ledgers where that is asked, and returns how many are refused, and how much fails."""
    refused, others = 0, 0
    for of in ledgers:
        good = [it for it in of.sums if of.is_refused(it)]
        refused, others = refused + len(good), others + len(of.sums) - len(good)
        if is_written and of.renewed() != of.lines:
            of.lines = of.renewed()
            ledger.write(of.crate, of.lines)
        for fault in of.faults():
            others += 1
            tell(f"{of.crate.name}: {fault}")
    return refused, others


def main(words):
    flags = [it for it in words if it.startswith("--")]
    seed = words[words.index("--sample") + 1] if "--sample" in words[:-1] else None
    names = [it for it in words if it not in flags and it != seed]
    if {*flags} - {"--anew", "--earlier", "--sample", "--built", "--write"} or ("--sample" in flags) != bool(seed):
        sys.exit(__doc__)
    if "--write" in flags and "--built" not in flags:
        sys.exit(__doc__)
    rt.rtlib.guarded()
    at, is_built = time.monotonic(), "--built" in flags
    crates = [it for it in rt.rtlib.crates_below(os.getcwd()) if any(edits_of(it)) or ledger.lines_of(it)]
    crates = [it for it in crates if not names or it.name in names]
    why = lacking(crates, is_built) or selftest.failure(lambda text: tell(f"self-test: {text}"))
    if why:
        tell(f"nothing is tried: {why}")
        return 2
    seen = {}
    ledgers = [Ledger(it, ledger.sums(it, seen), ledger.lines_of(it)) for it in crates]
    for of in ledgers:
        of.earlier = ledger.earlier_sums(of.crate, seen)
    left = try_left(ledgers, flags)
    again = try_sample(ledgers, seed) if seed else 0
    refused, others = judged(ledgers, "--write" in flags)
    tell(f"tried {left} without a valid line or anew, and {again} of the others")
    before = sum(it not in of.results and of.is_of_before(it) for of in ledgers for it in of.sums)
    if before:
        tell(f"{before} stand by trials of judges before: --earlier tries them")
    if not ledger.is_tried_with():
        tell(f"the others stand by trials with other kits than {ledger.kit()}: --anew tries all")
    tell(f"{(time.monotonic() - at) / 60:.1f} minutes, {seconds() / 60:.1f} processor minutes")
    print(f"{refused} refused, {others} not refused", flush=True)
    return 1 if others else 0


if __name__ == "__main__":
    sys.exit(main(sys.argv[1:]))
