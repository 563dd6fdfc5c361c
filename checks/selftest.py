"""Sees that the kit's messages still read as these checks expect, on a small crate with four wrong bodies.

The harmful one must be refused beside the others, by a goal of its own. The three others change nothing that their
contracts say, so they must be told as not refused, though one of them takes away what a proof names, and one shifts the
name of a call that a proof cites. Where the messages of another kit read otherwise one of these fails, and with it the
whole run: else a harmless wrong body could pass for a refused one.
"""
import os
import tempfile

from bodies import FOLDER, edits_of
from kit import rt
from trial import tried, tried_by_itself

SOURCE = """\
//! Five functions.
#![tactic(auto)]

ghost use Rattle.std.specs.Prelude.{◌≡◌, ◌≤◌};

mod other;

/// The smaller of two.
pub fn smaller(a: u32, b: u32) -> u32
    ensures first { result ≤ a }
    ensures second { result ≤ b }
{
    if a < b { a } else { b }
}

/// The same number.
pub fn same(a: u32) -> u32
    ensures { result ≡ a }
{
    let kept = a;
    kept
}

fn lower(n: u32) -> u32
    ensures first { result ≤ n }
    ensures second { result ≤ 7 }
{
    if n < 7 { n } else { 7 }
}

/// At most seven.
pub fn at_most_seven(n: u32) -> u32
    ensures { result ≤ 7 }
{
    lower(n)
}

/// Each number lowered.
pub fn lowered(a: u32, b: u32, c: u32) -> (u32, u32, u32)
    ensures { result.1 ≤ b }
{
    (lower(a), lower(b), lower(c))
}
"""
OTHER = """\
//! A function of the same name, whose promises have other names.
ghost use Rattle.std.specs.Prelude.{◌≤◌};

pub fn lower(n: u32) -> u32
    ensures first { result ≤ n }
    ensures other { result ≤ 7 }
{
    if n < 7 { n } else { 7 }
}
"""
ANSWER = """\
use Rattle.small.proofs.at_most_seven.Goals as goal

pub returns : goal.returns
returns c = c.lower.ensures.second
"""
SHIFTING_ANSWER = """\
use Rattle.small.proofs.lowered.Goals as goal

pub returns : goal.returns
returns c = c.lower-2.ensures.first
"""
HARMFUL = "file: src/lib.rt\nold:     if a < b { a } else { b }\nnew:     if a < b { b } else { a }\n"
HARMLESS = "file: src/lib.rt\nold:     let kept = a;\nnew:     let kept = a / 1;\n"
GONE = "file: src/lib.rt\nold:     lower(n)\nnew:     other::lower(n)\n"
SHIFTING = "file: src/lib.rt\nold: (lower(a),\nnew: (a / 1,\n"


def write(path, text):
    os.makedirs(os.path.dirname(path), exist_ok=True)
    with open(path, "w", encoding="utf-8") as it:
        it.write(text)


def failure(tell):
    """Returns what doesn't read as expected, or None."""
    with tempfile.TemporaryDirectory(prefix="wrong-bodies-self-") as root:
        write(f"{root}/crates.txt", "small:\n")
        write(f"{root}/crates/small/src/lib.rt", SOURCE)
        write(f"{root}/crates/small/src/other.rt", OTHER)
        write(f"{root}/crates/small/proofs/at_most_seven/Answers.antt", ANSWER)
        write(f"{root}/crates/small/proofs/lowered/Answers.antt", SHIFTING_ANSWER)
        write(f"{root}/crates/small/{FOLDER}/at_most_seven.calls_another.edit", GONE)
        write(f"{root}/crates/small/{FOLDER}/lowered.keeps_the_first.edit", SHIFTING)
        write(f"{root}/crates/small/{FOLDER}/same.is_the_same.edit", HARMLESS)
        write(f"{root}/crates/small/{FOLDER}/smaller.is_the_larger.edit", HARMFUL)
        os.makedirs(f"{root}/.git")
        at = os.getcwd()
        os.chdir(root)
        try:
            [crate] = rt.rtlib.crates_below(root)
            edits = edits_of(crate)[0]
            gone, shifting, harmless, harmful = tried(crate, edits, tell)
            gone_alone, shifting_alone, alone = (tried_by_itself(crate, edits[it]) for it in (0, 1, 3))
        finally:
            os.chdir(at)
    if not harmful.is_refused or harmful.is_alone:
        return f"a harmful wrong body is not told as refused beside another: {harmful.text}"
    if not alone.is_refused or "src/lib.rt" not in alone.text:
        return f"a harmful wrong body is not told as refused by itself: {alone.text}"
    if harmless.is_refused:
        return f"a harmless wrong body is told as refused: {harmless.text}"
    if gone.is_refused or gone_alone.is_refused:
        return f"a wrong body is told as refused for a name that it took from a proof: {gone.text}, {gone_alone.text}"
    if shifting.is_refused or shifting_alone.is_refused:
        return f"a wrong body is told as refused for a name that it shifted: {shifting.text}, {shifting_alone.text}"
    return None
