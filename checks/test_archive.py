"""Tests that README has a command for each language, that the version stands in one place, and that a check of the
archive counts what went wrong."""
import pathlib
import re
import tempfile
import unittest

import archive

LANGUAGES = {"C", "C++", "Rust", "Python", "Java"}


def text(path):
    return (archive.ROOT / path).read_text(encoding="utf-8")


class Readme(unittest.TestCase):
    def test_it_has_a_command_for_each_language(self):
        self.assertEqual(set(archive.openings(text("README.md"))), LANGUAGES)

    def test_a_command_stands_on_its_first_screen_and_others_install(self):
        first, install = archive.typed(text("README.md"))
        self.assertIn("tar -xzf release/", first[0])
        self.assertIn("install.sh", install[0])
        self.assertLess(text("README.md").split("\n").index(f"    {first[-1]}"), 25)


class Version(unittest.TestCase):
    """The version is that of the file VERSION, and what must say it again agrees."""

    def test_what_says_it_again_agrees(self):
        own = archive.version()
        for path in ("bindings/python/pyproject.toml", "bindings/rust/aqs/Cargo.toml"):
            self.assertEqual(re.findall(r'(?m)^version = "(.*)"$', text(path)), [own])
        self.assertEqual(re.findall(r"(?m)^## (\d\S*),", text("CHANGELOG.md"))[0], own)
        self.assertEqual({*re.findall(r"tunicschist-(\d+\.\d+\.\d+)", text("README.md") + text("docs/INSTALL.md"))}, {own})


class Counted(unittest.TestCase):
    def test_a_command_has_to_end_and_print_as_it_is_asked(self):
        with tempfile.TemporaryDirectory() as room:
            checks = archive.Checks(room)
            self.assertTrue(checks.run("prints", ["echo", "42"], printed="42\n"))
            self.assertFalse(checks.run("prints another", ["echo", "43"], printed="42\n"))
            self.assertFalse(checks.run("ends with another status", ["false"]))
            self.assertTrue(checks.run("ends with that status", ["false"], status=1))
            self.assertFalse(checks.run("is not there", [pathlib.Path(room) / "nothing"]))
            self.assertEqual((checks.passed, checks.failed), (2, 3))


if __name__ == "__main__":
    unittest.main()
