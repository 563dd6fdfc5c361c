"""Tests of what counts as cited by a public contract, and that this repository's definitions are."""
import contextlib
import io
import pathlib
import tempfile
import unittest

import believed

SOURCE = """\
ghost use Rattle.one.specs.Words.{Unseen};

pub trait Asked {
    fn ask(&self) -> u32
        ensures asked { IsAsked result };
    fn again(&self) -> u32
        ensures again { IsAskedAgain result };
}

impl Two {
    pub fn first(&self) -> u32
        ensures { IsFirst result }
    {
        self.hidden()
    }

    fn hidden(&self) -> u32
        ensures { IsHidden result }
    {
        1
    }
}
"""
SPECS = """\
-- What is said of numbers: IsUnseen.
use Rattle.std.specs.Prelude.{ℕ}
unfoldable pub use Rattle.two.specs.Words.{four}

-- the first
abbrev pub IsFirst : ℕ → Type 0
IsFirst zero = IsSmall zero
IsFirst n = Unit {0}

pub record IsSmall (n : ℕ) : Type 0 where
  pub less : n ≡ few

abbrev pub few : ℕ
few = 3

abbrev pub IsHidden : ℕ → Type 0
IsHidden n = Unit {0}
"""
# Two crates, whose files have the names that the third one cites.
CRATES = {
    "one/specs/Words.antt": "abbrev pub IsFirst : Type 0\nIsFirst = few\n\nabbrev pub few : ℕ\nfew = 3\n",
    "two/specs/Words.antt": "abbrev pub IsFirst : Type 0\nIsFirst = Unit {0}\n\nabbrev pub few : ℕ\nfew = 4\n",
    "two/specs/Other.antt": "pub data Way : Type 0 where\n  pub ahead : Way\n\nabbrev pub one : ℕ\none = 1\n",
    "three/specs/Lib.antt": "pub use Rattle.one.specs.Words\npub mod Own\n",
    "three/specs/Own.antt": "pub use Rattle.two.specs.Words.{few as four}\n",
    "three/src/lib.rt": "ghost use {};\n\npub fn first() -> u32\n    ensures {{ {} }}\n{{\n    1\n}}\n",
}


class Names(unittest.TestCase):
    def test_public_functions_and_traits_cite_and_private_functions_do_not(self):
        found = believed.cited(SOURCE, False)
        self.assertTrue({"IsFirst", "IsAsked", "IsAskedAgain"} <= found)
        self.assertFalse({"IsHidden", "Unseen", "hidden"} & found)

    def test_the_functions_of_a_traits_impl_cite_whose_header_takes_several_lines(self):
        head = "impl<T: Drop, U: Drop> Drop\n    for Two<T, U> {{\n    fn drop(self)\n        ensures {{ {} }}\n    {{}}\n}}\n"
        self.assertIn("IsGone", believed.cited(head.format("IsGone"), False))
        head = head.replace("\n    for Two<T, U> {{", " for Two<\n    T,\n    U,\n> {{")
        self.assertIn("IsGone", believed.cited(head.format("IsGone"), False))

    def test_all_functions_of_a_program_cite(self):
        self.assertIn("IsHidden", believed.cited(SOURCE, True))

    def test_a_definition_begins_at_the_margin(self):
        cites = believed.definitions(SPECS)
        self.assertEqual({it for it in cites if believed.is_whole(it, SPECS)}, {"IsFirst", "IsSmall", "few", "IsHidden"})

    def test_a_variant_is_a_name_and_a_field_is_none(self):
        self.assertEqual(believed.definitions(CRATES["two/specs/Other.antt"])["ahead"], {"Way"})
        self.assertNotIn("less", believed.definitions(SPECS))


class Paths(unittest.TestCase):
    def lost(self, imported, contract):
        """What a contract does not reach that cites some names."""
        with tempfile.TemporaryDirectory() as folder:
            root = pathlib.Path(folder)
            for name, text in CRATES.items():
                path = root / "crates" / name
                path.parent.mkdir(parents=True, exist_ok=True)
                path.write_text(text.format(imported, contract) if name.endswith(".rt") else text)
            specs = believed.Specs(root)
            return {*specs.lost(specs.reached(believed.public(root)))}

    def test_a_name_is_the_one_of_the_module_that_is_imported(self):
        lost = self.lost("Rattle.one.specs.Words.{IsFirst}", "IsFirst")
        self.assertEqual(lost, {"two.Words.IsFirst", "two.Words.few", "two.Other.Way", "two.Other.one"})

    def test_a_name_that_is_not_imported_reaches_nothing(self):
        self.assertEqual(len(self.lost("Rattle.one.specs.Words.{IsFirst}", "few")), 6)

    def test_a_module_may_have_another_name(self):
        self.assertNotIn("two.Words.few", self.lost("Rattle.two.specs.Words as words", "words.few"))

    def test_a_name_is_passed_on_by_a_file_and_by_a_crate(self):
        self.assertNotIn("two.Words.few", self.lost("Rattle.three.specs.Own.{four}", "four"))
        self.assertNotIn("one.Words.few", self.lost("Rattle.three.specs.Words.{few}", "few"))

    def test_a_variant_reaches_its_type(self):
        self.assertNotIn("two.Other.Way", self.lost("Rattle.two.specs.Other.{ahead}", "ahead"))

    def test_what_using_names_is_reached(self):
        self.assertNotIn("two.Other.one", self.lost("Rattle.one.specs.Words.{few}", "1 }\n#[using(two::specs::Other::one)] {"))


class Makers(unittest.TestCase):
    FACT = "pub WasRung : ℕ → Type 0\nWasRung bell = Unit {0}\n\n-- for `ring` alone\npub rung : (bell : ℕ) → WasRung bell\n" \
        "unfolding WasRung\nrung bell = tt\n"

    def test_each_file_is_found_that_names_a_maker(self):
        with tempfile.TemporaryDirectory() as folder:
            root = pathlib.Path(folder)
            files = {
                "bell/specs/Rung.antt": self.FACT,
                "bell/src/lib.rt": "#[tactic(auto, using(crate::specs::Rung::rung))]\npub fn ring() {}\n",
                "two/src/lib.rt": "#[tactic(auto, using(bell::specs::Rung::rung))]\nfn silent() {}\n",
                "two/proofs/silent/Answers.antt": "use Rattle.bell.specs.Rung.{rung}\n\npub bell : Unit\nbell = rung 1\n",
                "two/proofs/other/Answers.antt": "use Rattle.two.specs.Rung.{rung}\n\npub bell : Unit\nbell = rung 1\n",
            }
            for name, text in files.items():
                (root / "crates" / name).parent.mkdir(parents=True, exist_ok=True)
                (root / "crates" / name).write_text(text)
            known = {*believed.makers(root)}
            self.assertEqual(known, {"bell.Rung.rung"})
            found = {path for path, _ in believed.naming(root, known)}
            self.assertEqual(found, {"bell/src/lib.rt", "two/src/lib.rt", "two/proofs/silent/Answers.antt"})


class Repository(unittest.TestCase):
    def test_public_contracts_reach_each_definition_outside_inner(self):
        said = io.StringIO()
        with contextlib.redirect_stdout(said):
            status = believed.main()
        self.assertEqual(status, 0, said.getvalue())


if __name__ == "__main__":
    unittest.main()
