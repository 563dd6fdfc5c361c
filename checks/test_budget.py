"""Tests of what the budget counts."""
import contextlib
import io
import pathlib
import tempfile
import unittest
from unittest import mock

import budget

SOURCE = """\
ghost use Rattle.one.specs.Words.{{IsFirst}};

impl<T: Drop, I: Keeps<T>> Two<T, I> {{
    pub fn first(&self) -> u32
        ensures {{ IsFirst result }}
    {{
        let one = 1;
        let two = 2;
        {}
    }}
}}
"""
SPECS = """\
-- what comes first
abbrev pub IsFirst : ℕ → Type 0
IsFirst zero = IsSmall zero
IsFirst n = Unit {0}

pub record IsSmall (n : ℕ) : Type 0 where
  pub less : n ≡ 3

abbrev pub apart : ℕ
apart = 3
"""
FILES = {
    "crates.txt": "# a head\n\none: std\ntest_one: one\n",
    "crates/one/src/lib.rt": SOURCE.format("one + two"),
    "crates/one/src/again.rt": SOURCE.format("one + two"),
    "crates/one/src/other.rt": SOURCE.format("two + one") + "// " + "x" * 120 + "\n" + "y" * 111 + "\n",
    "crates/one/specs/Words.antt": SPECS,
    "crates/test_one/src/lib.rt": SOURCE.format("one + two"),
    "README.md": "Six words stand in this page\n",
    "docs/CALLS.md": "two words\n<!-- made by checks/pages.py: one -->\nthree words more\n<!-- end -->\nlast\n",
}


class Counting(unittest.TestCase):
    def setUp(self):
        folder = tempfile.TemporaryDirectory()
        self.addCleanup(folder.cleanup)
        self.top = pathlib.Path(folder.name)
        for name, text in FILES.items():
            path = self.top / name
            path.parent.mkdir(parents=True, exist_ok=True)
            path.write_text(text, encoding="utf-8")
        self.number = budget.counted(self.top)

    def test_crates_are_the_lines_of_their_list(self):
        self.assertEqual(self.number("crates"), (2, []))

    def test_lines_of_tests_are_apart(self):
        each = len(SOURCE.splitlines())
        self.assertEqual(self.number("lines")[0], 3 * each + 2 + len(SPECS.splitlines()))
        self.assertEqual(self.number("lines of tests")[0], each)

    def test_words_that_were_made_are_apart(self):
        self.assertEqual(self.number("words")[0], 9 + len("<!-- end -->".split()))
        self.assertEqual(self.number("words of README.md")[0], 6)
        self.assertEqual(self.number("words of docs/NONE.md"), (0, ["docs/NONE.md"]))
        self.assertEqual(self.number("words generated")[0], 3 + 6)

    def test_what_a_contract_reaches(self):
        self.assertEqual(self.number("reach of one/lib Two::first")[0], 5)  # not `apart`

    def test_a_line_is_too_wide_beyond_the_last_column(self):
        self.assertEqual(self.number("wide lines"), (1, ["crates/one/src/other.rt:13: 111 columns"]))

    def test_a_body_that_stands_again(self):
        places = ["crates/one/src/lib.rt:4: its body is that of crates/one/src/again.rt:4"]
        self.assertEqual(self.number("bodies twice"), (1, places))

    def test_a_weaker_ordering_by_each_of_its_names(self):
        lines = ["word.load(Ordering::SeqCst)", "word.load(Ordering::Relaxed)", "// as Ordering::Relaxed is"]
        lines += ["use std::sync::atomic::Ordering::{Acquire, Release};", "use std::sync::atomic::Ordering as Order;"]
        (self.top / "crates/one/src/words.rt").write_text("\n".join(lines), encoding="utf-8")
        places = [f"crates/one/src/words.rt:{number}: {lines[number - 1]}" for number in (2, 4, 5)]
        self.assertEqual(self.number("weak orderings"), (3, places))

    def test_each_way_to_the_calendar(self):
        lines = ["use std::time::{Instant, SystemTime};", "Instant::now(rt)", "rt.since_1970()?", "fn since_1970(&self)"]
        (self.top / "crates/one/src/clocks.rt").write_text("\n".join(lines), encoding="utf-8")
        places = [f"crates/one/src/clocks.rt:{number}: {lines[number - 1]}" for number in (1, 3)]
        self.assertEqual(self.number("calendars"), (2, places))

    def test_a_number_that_nobody_counts(self):
        self.assertRaises(LookupError, self.number, "crate")

    def test_what_is_above_its_bound_fails(self):
        table = self.top / budget.TABLE
        table.parent.mkdir()
        for most, status, last in ((2, 0, "1 passed, 0 failed"), (1, 1, "0 passed, 1 failed")):
            table.write_text(f"# a head\ncrates: {most} since it is so\n", encoding="utf-8")
            printed = io.StringIO()
            with mock.patch.object(budget, "ROOT", self.top), contextlib.redirect_stdout(printed):
                self.assertEqual(budget.main(), status)
            self.assertEqual(printed.getvalue().splitlines()[-1], last)


if __name__ == "__main__":
    unittest.main()
