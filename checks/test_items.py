"""Tests that a source's public items are read with their comments and contracts, and without their bodies."""
import unittest

import items

TEXT = """\
//! Cups.
//!
//! A [`Cup`] is [filled](Cup::fill) by [`pour`](crate::pour).
#![tactic(auto)]

/// A cup, as [`pour`] fills it.
#[derive(Drop)]
pub struct Cup<T: Drop> {
    /// What it is made of.
    pub clay: T,
    pub(crate) level: u32,
    level_of: u32,
    ghost low: { level < 9 },
}

/// Why it is empty.
pub enum Empty {
    /// It has a hole.
    Hole,
}

/// What holds tea.
pub trait Vessel {
    ghost volume: { Self → ℕ };

    /// How much.
    fn volume(&self) -> u32
        ensures { result ≡ volume self.now };

    fn twice(&self) -> u32 {
        2
    }
}

/// The calls of a cup.
impl<T: Drop> Cup<T> {
    ghost use Rattle.std.specs.Prelude.{ℕ};

    /// Fills it.
    #[inline(always)]
    pub fn fill(&mut self, more: u32)
        requires { more < 9 }
        ensures { self.new.level ≡ more }
    {
        self.level = more;
    }

    pub fn level(&self) -> u32 {
        self.level
    }

    fn hidden(&self) {}

    pub(crate) fn tilt(&self) {
        fn inner() {}
    }
}

impl<T: Drop> Drop for Cup<T> {
    fn drop(self)
        requires { self.level ≡ 0 }
    {}
}

/// A cup with much on it.
pub struct Mug<
    T: Drop,
    U: Drop = Clay,
> {
    pub clay: T,
    paint: U,
}

impl<T: Drop, U: Drop> Mug<
    T,
    U,
> {
    pub fn paint(&self) -> u32 {
        0
    }
}

impl<T: Drop, U: Drop> Drop
    for Mug<T, U> {
    fn drop(self)
        requires { self.paint ≡ 0 }
    {}
}

/// Pours.
pub fn pour<T: Drop>(
    cup: &mut Cup<T>,
) -> u32 {
    0
}
"""


class Source(unittest.TestCase):
    def setUp(self):
        self.source = items.Source(TEXT)

    def functions(self, at):
        return {it.name: it.text for it in self.source.groups[at].functions}

    def test_a_struct_shows_its_public_fields(self):
        cup = self.source.items["Cup"]
        self.assertEqual(cup.doc, "A cup, as `pour` fills it.")
        wanted = "pub struct Cup<T: Drop> {\n    /// What it is made of.\n    pub clay: T,\n}"
        self.assertEqual(cup.text, wanted)

    def test_an_enum_is_whole(self):
        wanted = "pub enum Empty {\n    /// It has a hole.\n    Hole,\n}"
        self.assertEqual(self.source.items["Empty"].text, wanted)

    def test_a_trait_has_its_functions(self):
        vessel = self.source.items["Vessel"]
        self.assertEqual(vessel.text, "pub trait Vessel")
        wanted = ["fn volume(&self) -> u32\n    ensures { result ≡ volume self.now };", "fn twice(&self) -> u32"]
        self.assertEqual([it.text for it in vessel.functions], wanted)

    def test_a_method_has_its_contract_and_no_body(self):
        self.assertEqual(self.source.groups[0].doc, "The calls of a cup.")
        found = self.functions(0)
        self.assertEqual([*found], ["fill", "level"])
        wanted = "pub fn fill(&mut self, more: u32)\n    requires { more < 9 }\n    ensures { self.new.level ≡ more }"
        self.assertEqual(found["fill"], wanted)
        self.assertEqual(found["level"], "pub fn level(&self) -> u32")

    def test_what_a_drop_owes_is_seen(self):
        self.assertEqual((self.source.groups[1].owner, self.source.groups[1].trait), ("Cup", "Drop"))
        self.assertEqual(self.functions(1), {"drop": "fn drop(self)\n    requires { self.level ≡ 0 }"})

    def test_a_header_may_take_several_lines(self):
        wanted = "pub struct Mug<\n    T: Drop,\n    U: Drop = Clay,\n> {\n    pub clay: T,\n}"
        self.assertEqual(self.source.items["Mug"].text, wanted)
        self.assertEqual([(it.owner, it.trait) for it in self.source.groups[2:]], [("Mug", ""), ("Mug", "Drop")])
        self.assertEqual(self.functions(2), {"paint": "pub fn paint(&self) -> u32"})
        self.assertEqual(self.functions(3), {"drop": "fn drop(self)\n    requires { self.paint ≡ 0 }"})

    def test_a_function_of_its_own_has_its_parameters(self):
        wanted = "pub fn pour<T: Drop>(\n    cup: &mut Cup<T>,\n) -> u32"
        self.assertEqual(self.source.items["pour"].text, wanted)

    def test_links_of_comments_are_names(self):
        self.assertEqual(items.head_of(TEXT), "Cups.\n\nA `Cup` is filled by `pour`.")


if __name__ == "__main__":
    unittest.main()
