"""Tests that a name, a path, a clause, a wrong body, a step of a walk and a promise that are not there are found."""
import os
import pathlib
import tempfile
import unittest

import names

TOP = os.path.dirname(os.path.dirname(os.path.realpath(__file__)))
SOURCE = """\
impl Cup {
    /// Fills it, as nobody_else_does.
    pub fn fill(&mut self, much: u64) -> Option<u64>
        requires empty { self.old.level ≡ 0 }
        ensures full { IsFull self.new }
    {
        self.pour(much)
    }

    fn pour(&mut self, much: u64) -> Option<u64> {
        Some(much)
    }

    fn serve(&mut self) {
        self.fill(1);
        self.empty();
    }

    fn empty(&mut self) {
        self.level = 0;
    }
}
"""
SPEC = """\
-- A cup that is_not_there yet.
pub record IsFull (cup : Cup) : Type 0 where
  pub level : cup.level ≡ 1
"""


class Pages(unittest.TestCase):
    """A repository with one crate and one wrong body."""

    @classmethod
    def setUpClass(cls):
        cls.room = tempfile.TemporaryDirectory()
        files = {
            "crates/cup/src/lib.rt": SOURCE, "crates/cup/specs/Lib.antt": SPEC, "docs/CUP.md": "# Cups\n",
            "crates/cup/wrong-bodies/Cup.fill.spills.edit": "", "crates/jug/must-fail/leaks.edit": "",
        }
        for path, text in files.items():
            file = pathlib.Path(cls.room.name, path)
            file.parent.mkdir(parents=True, exist_ok=True)
            file.write_text(text, encoding="utf-8")
        cls.sources = names.Sources(cls.room.name)

    @classmethod
    def tearDownClass(cls):
        cls.room.cleanup()

    def said(self, text, page="docs/CUP.md"):
        return names.strays_of(page, text, self.sources)

    def test_a_name_stands_in_a_source_and_not_in_a_comment_alone(self):
        self.assertEqual(self.said("`Cup::fill`, `IsFull`, `level`, `pour()`, `cup`, `spills`"), [])
        self.assertEqual(self.said("`nobody_else_does`"), ["no source has `nobody_else_does`"])
        self.assertEqual(self.said("`is_not_there`"), ["no source has `is_not_there`"])
        self.assertEqual(self.said("`Cup::empty_it`"), ["no source has `Cup::empty_it`"])

    def test_what_is_no_name_is_left(self):
        self.assertEqual(self.said("`0 got x 1`, `--json`, `NAME.cases`, `crates/mine/src`, `_unlock`, `a = b`"), [])

    def test_code_and_what_is_made_is_left(self):
        made = "<!-- made by checks/pages.py: Cup -->\n`nobody`\n<!-- end -->\n"
        self.assertEqual(self.said(f"```rust\nlet `nobody` = 1;\n```\n{made}"), [])

    def test_a_path_leads_to_a_file(self):
        self.assertEqual(self.said("`crates/cup/src/lib.rt`, `src/lib.rt`, `CUP.md`, `crates/*/wrong-bodies/*.edit`"), [])
        self.assertEqual(self.said("`crates/cup/src/main.rt`"), ["no file `crates/cup/src/main.rt`"])
        self.assertEqual(self.said("`crates/*/src/main.rt`"), ["no file `crates/*/src/main.rt`"])

    def test_a_clause_is_one_of_the_function_before_it(self):
        self.assertEqual(self.said("`Cup::fill`, clauses `empty` and `full`"), [])
        self.assertEqual(self.said("clause `full` of `fill`"), [])
        self.assertEqual(self.said("`Cup::fill`, clause `level`"), ["no clause `level` of `fill`"])
        self.assertEqual(self.said("`Cup::pour`, clause `full`"), ["no clause `full` of `pour`"])

    def test_a_field_is_one_of_the_record(self):
        self.assertEqual(self.said("field `level` of `IsFull`"), [])
        self.assertEqual(self.said("field `full` of `IsFull`"), ["no field `full` of `IsFull`"])

    def test_a_wrong_body_is_an_edit_of_the_crate_that_is_named(self):
        self.assertEqual(self.said("Wrong bodies: in `cup` `spills`, in\n`jug` `leaks`."), [])
        self.assertEqual(self.said("Wrong bodies: `sp*`, `leaks`."), [])
        self.assertEqual(self.said("Wrong bodies: in `cup` `leaks`."), ["no wrong body `leaks`"])
        self.assertEqual(self.said("Wrong bodies: in `cup` `fill`."), ["no wrong body `fill`"])
        self.assertEqual(self.said("Wrong bodies: `spills`.\n\nThen `fill`."), [])

    def test_each_function_of_a_walk_calls_the_next(self):
        walk = "<!-- each calls the next -->\n%s\nText.\n"
        self.assertEqual(self.said(walk % "- `cup::Cup::fill` fills\n  - `cup::pour` in it\n"), [])
        turned = walk % "- `cup::pour`\n  - `cup::Cup::fill`\n"
        self.assertEqual(self.said(turned), ["`cup::pour` does not call `Cup::fill`"])
        self.assertEqual(self.said(walk % "- `jug::pour`\n"), ["`jug` has no function `pour`"])
        beside = walk % "- `cup::fill`\n  - `cup::pour`\n- `cup::fill`\n"
        self.assertEqual(self.said(beside), [])

    def test_what_a_function_calls_stands_in_its_order(self):
        walk = "<!-- each calls the next -->\n%s\nText.\n"
        self.assertEqual(self.said(walk % "- `cup::serve`\n  - `cup::fill`\n    - `cup::pour`\n  - `cup::empty`\n"), [])
        turned = walk % "- `cup::serve`\n  - `cup::empty`\n  - `cup::fill`\n"
        self.assertEqual(self.said(turned), ["`cup::serve` calls `fill` before the one that stands above it"])

    def test_what_is_proved_names_a_function_with_a_contract(self):
        page = "# A page\n\n## What is proved\n\n- A cup is full: `Cup::fill`.\n- A cup pours: `Cup::pour`.\n\n## More\n\n- None.\n"
        self.assertEqual(len(self.said(page)), 1)
        self.assertIn("A cup pours", self.said(page)[0])


class Ours(unittest.TestCase):
    """What pages of this repository once said, and no source had."""

    @classmethod
    def setUpClass(cls):
        cls.sources = names.Sources(TOP)

    def said(self, text):
        return names.strays_of("docs/EVIDENCE.md", text, self.sources)

    def test_wrong_bodies_that_never_were(self):
        gone = ("opens_with_a_smaller_sum", "waits_with_a_broken_sum", "unlocks_with_a_broken_sum", "leaves_a_broken_sum_at_a_fault")
        for it in gone:
            self.assertIn(f"no wrong body `{it}`", self.said(f"Wrong bodies: in `example_guards`\n`{it}`."))
            self.assertIn(f"no source has `{it}`", self.said(f"`{it}`"))

    def test_a_wrong_body_that_was_deleted_and_a_lemma_that_is_in_no_file(self):
        self.assertIn("no wrong body `readers_pass_a_strict_line`", self.said("Wrong bodies: in `read_write` `readers_pass_a_strict_line`."))
        self.assertEqual(self.said("`recorded_fits` (by shape)"), ["no source has `recorded_fits`"])

    def test_clauses_that_are_fields_of_a_record(self):
        for it in ("answered", "owed", "fault", "tidied"):
            self.assertEqual(self.said(f"`Core::step`, clause `{it}`."), [f"no clause `{it}` of `step`"])
            self.assertEqual(self.said(f"`Core::step`, field `{it}` of `IsStepped`."), [])

    def test_a_walk_of_a_replay_that_reads_each_line_in_the_general_way(self):
        walk = "<!-- each calls the next -->\n- `driver::replay`\n  - `driver::StepReader::next`\n    - `steps::next_line`\n"
        walk += "  - `frame::Core::step`\n    - `frame::Core::step_alone`\n"
        self.assertEqual(self.said(walk), ["`driver::replay` does not call `Core::step`"])

    def test_each_name_in_the_pages_is_there(self):
        found = [f"{page}: {it}" for page in names.pages_of(self.sources)
                 for it in names.strays_of(page, names.text_of(f"{TOP}/{page}"), self.sources)]
        self.assertEqual(found, [])

    def test_readme_has_promises(self):
        text = names.text_of(f"{TOP}/README.md")
        self.assertTrue(names.PROVED.search(text))


if __name__ == "__main__":
    unittest.main()
