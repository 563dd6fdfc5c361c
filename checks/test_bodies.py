"""Tests of what is read of texts: functions, wrong bodies, and what a check says."""
import os
import tempfile
import types
import unittest

from bodies import Body, body_of, composed, function_at, owner_of, symbol_of
from kit import in_whole_lines
from said import Said
from shifts import MARK, marked, shifted
from trial import picked

TEXT = """\
pub struct Two {
    a: u32,
}

impl Two {
    #[inline]
    pub fn first(&self) -> u32
        ensures { result ≡ self.now.a }
    {
        self.a
    }

    pub fn more(&self) -> u32 {
        self.first()
    }
}
"""
EXPORT = """\
/// A function that C calls.
#[no_mangle]
pub extern "C" fn low_first(two: &Two) -> u32
    ensures { result ≡ two.now.a }
{
    two.first()
}
"""
REFUSED = """\
note: ./src/two.rt:10:9: it is not proved that `result ≡ self.now.a`
proofs/two/Two/more/Answers.antt:3:1: error: the field has no field named b
fn low::two::Two::first: not proved: 1 goal
fn low::two::Two::more: not proved: it calls `low::two::Two::first`
logic=not-proved functions=2
"""


def body(name, edit, at):
    symbol = f"low::two::Two::{name}"
    return Body(edit, "src/two.rt", 0, 0, ["Two"], ["low", "two"], name, "", symbol, 0, at, at + 5)


class Texts(unittest.TestCase):
    def crate(self, edit, source=TEXT):
        room = tempfile.TemporaryDirectory()
        self.addCleanup(room.cleanup)
        os.makedirs(f"{room.name}/src")
        for path, text in (("src/two.rt", source), ("one.edit", edit)):
            with open(f"{room.name}/{path}", "w", encoding="utf-8") as it:
                it.write(text)
        return types.SimpleNamespace(folder=room.name, name="low"), f"{room.name}/one.edit"

    def test_a_function_is_found_by_a_place_in_its_body(self):
        place = function_at(TEXT, TEXT.index("        self.a"))
        self.assertEqual((place.name, TEXT[place.opens : place.end]), ("first", "\n        self.a\n    }"))
        self.assertIsNone(function_at(TEXT, 3))

    def test_a_header_may_take_several_lines(self):
        text = "impl<T: Drop> Drop\n    for Mug<T> {\n    fn drop(self) {\n        pour(self);\n    }\n}\n"
        place = function_at(text, text.index("pour"))
        self.assertEqual(owner_of(text, place), ["MugDrop"])

    def test_a_wrong_body_stands_in_place_of_its_function_with_its_attributes(self):
        crate, edit = self.crate("file: src/two.rt\nold:         self.a\nnew: self.a / 1\n")
        found = body_of(crate, edit)
        self.assertEqual(symbol_of(found, ["low::two::Two::first"]), "low::two::Two::first")
        halved = TEXT.replace("        self.a\n", "self.a / 1\n")
        self.assertEqual(composed(crate, [found])["src/two.rt"], halved)
        self.assertTrue(found.text.startswith("    #[inline]\n"))

    def test_a_function_that_c_calls_is_a_function(self):
        source = TEXT + EXPORT
        crate, edit = self.crate("file: src/two.rt\nold:     two.first()\nnew:     two.first() / 1\n", source)
        found = body_of(crate, edit)
        self.assertEqual((found.name, found.owner), ("low_first", []))
        self.assertEqual(symbol_of(found, ["low::two::low_first"]), "low::two::low_first")
        self.assertTrue(composed(crate, [found])["src/two.rt"].endswith("    two.first() / 1\n}\n"))

    def test_an_edit_of_a_type_or_a_contract_is_no_wrong_body(self):
        of_a_field = "old:     a: u32,\nnew:     a: u64,"
        of_a_clause = "old:         ensures { result ≡\nnew: ensures { 1 ≡"
        for pair in (of_a_field, of_a_clause):
            crate, edit = self.crate(f"file: src/two.rt\n{pair}\n")
            self.assertIsNone(body_of(crate, edit))


class Messages(unittest.TestCase):
    def test_a_body_is_refused_by_a_goal_of_its_own_function_alone(self):
        first, more = body("first", "1", 8), body("more", "2", 14)
        self.assertEqual([it.edit for it in Said(REFUSED, 1).refused([first, more])], ["1"])

    def test_nothing_is_refused_where_another_function_fails_or_the_check_stopped(self):
        more = body("more", "2", 14)
        self.assertEqual(Said(REFUSED, 1).refused([more]), {})
        self.assertEqual(Said(REFUSED, 2).refused([body("first", "1", 8), more]), {})

    def test_an_error_whose_second_line_says_that_a_name_is_gone_refuses_nothing(self):
        first = body("first", "1", 8)
        begin = "proofs/two/Two/first/Answers.antt:4:14: error: `returns`: in this term\n  "
        end = "\nfn low::two::Two::first: not proved: 1 goal\nlogic=not-proved functions=2\n"
        gone, wrong = "record `Lts` has no field `new-3`: it has\n  `new` and `args`", "`a` is not `b`"
        said = lambda why: Said(in_whole_lines(begin + why + end), 1)
        self.assertEqual(said(gone).refused([first]), {})
        self.assertEqual([*said(wrong).refused([first])], [first])

    def test_a_body_tried_again_goes_without_what_stood_in_its_way(self):
        first, more = body("first", "1", 8), body("more", "2", 14)
        self.assertEqual(len(picked([first, more], {})), 2)
        more.times = 1
        self.assertEqual(picked([first, more], {more.symbol: {first.symbol}}), [more])


MADE = """\
pub fn made(alloc: Global) -> Made
    ensures { result.second ≡ [] }
{
    Made {
        first: Vec::new(alloc),
        second: Vec::new(alloc),
        third: Vec::new(alloc),
    }
}
"""
ANSWERS = """\
use Rattle.low.proofs.made.Goals as goal

pub returns : goal.returns
returns c = c.new-2.ensures.items
"""
MISFIT = "proofs/made/Answers.antt:4:13: error: `returns`: expected type `x ≡ []`, but this has type `y ≡ []`"


class Shifts(unittest.TestCase):
    def said(self, new, error=MISFIT):
        """Returns what is made of an error when a text of the crate is new."""
        with tempfile.TemporaryDirectory() as room:
            for path, text in (("src/lib.rt", MADE), ("proofs/made/Answers.antt", ANSWERS)):
                os.makedirs(os.path.dirname(f"{room}/{path}"), exist_ok=True)
                with open(f"{room}/{path}", "w", encoding="utf-8") as it:
                    it.write(text)
            return marked(types.SimpleNamespace(folder=room, name="low"), {"src/lib.rt": new}, error)

    def test_names_are_shifted_by_a_call_more_or_fewer_of_several(self):
        self.assertEqual(shifted("a(b(1), b(2))", "a(b(1), 2)"), {"b"})
        self.assertEqual(shifted("a(b(1))", "a(b(1), b::<u8>(2))"), {"b"})
        self.assertEqual(shifted("a(b(1))", "a(c(2))"), set())
        self.assertEqual(shifted("a(b(1), b(2))", "a(b(2), b(1))"), set())

    def test_a_type_that_does_not_fit_since_a_name_was_shifted_refuses_nothing(self):
        shifting = MADE.replace("Vec::new(alloc)", "Vec::with_capacity(alloc, 9)", 1)
        said = self.said(shifting)
        self.assertEqual(said, MISFIT + MARK)
        it = Body("1", "src/lib.rt", 0, 0, [], ["low"], "made", "", "low::made", 0, 1, 10)
        after = "\nfn low::made: not proved: 1 goal\nlogic=not-proved functions=1\n"
        self.assertEqual(Said(said + after, 1).refused([it]), {})
        self.assertEqual([*Said(MISFIT + after, 1).refused([it])], [it])

    def test_other_errors_and_other_edits_refuse(self):
        self.assertEqual(self.said(MADE.replace("Vec::new(alloc)", "Vec::new(other)", 1)), MISFIT)
        shifting = MADE.replace("Vec::new(alloc)", "Vec::with_capacity(alloc, 9)", 1)
        of_no_type = MISFIT.replace("but this has type", "which is not")
        of_no_call = MISFIT.replace(":4:", ":3:")
        of_another = MISFIT.replace("proofs/made/", "proofs/others/made_up/")
        for error in (of_no_type, of_no_call, of_another):
            self.assertEqual(self.said(shifting, error), error)


if __name__ == "__main__":
    unittest.main()
