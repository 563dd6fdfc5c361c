"""What completes the words of `aqs`, and its man page: that they are made of the manual, know each option, and work in
the shells that this machine has."""

import pathlib
import re
import shutil
import subprocess
import sys
import tempfile
import unittest

TOP = pathlib.Path(__file__).resolve().parent.parent
sys.path.insert(0, str(TOP / "tools"))

import shell

ARGUMENTS = TOP / "crates" / "aqs" / "src" / "arguments.rt"


def completed(*words):
    """What bash completes for a command line, whose last word is at the cursor."""
    line = " ".join(f"'{word}'" for word in words)
    script = f"source {shell.FOLDER / 'aqs.bash'}; COMP_WORDS=({line}); COMP_CWORD={len(words) - 1}; _aqs; "
    done = subprocess.run(["bash", "-c", script + 'printf "%s\\n" "${COMPREPLY[@]}"'], capture_output=True, text=True)
    return done.stdout.split("\n")[:-1]


class Shell(unittest.TestCase):
    def setUp(self):
        self.pages = shell.pages(shell.TEXTS.read_text())

    def test_files_are_as_made(self):
        for name, text in shell.made(shell.TEXTS.read_text()).items():
            self.assertEqual((shell.FOLDER / name).read_text(), text, name)

    def test_all_options_and_commands_of_the_program_are_known(self):
        source = ARGUMENTS.read_text()
        options = {option for found in shell.options_of(self.pages).values() for option, _, _ in found}
        self.assertEqual(options, set(re.findall(r'option\(alloc, "(\w+)"', source)))
        names = set(re.findall(r'Command::new\(alloc, "(\w+)"\)|(?:reader|teller)\(alloc, "(\w+)"\)', source))
        self.assertEqual(set(shell.commands(self.pages)), {one or other for one, other in names} - {"aqs"})

    def test_bash_completes_commands_options_and_files(self):
        self.assertEqual(completed("aqs", "dr"), ["draw"])
        self.assertEqual(completed("aqs", "draw", "--f"), ["--from"])
        self.assertEqual(completed("aqs", "draw", "--from", ""), [""])
        self.assertEqual(completed("aqs", "manual", "re"), ["replay"])
        with tempfile.TemporaryDirectory() as folder:
            name = f"{folder}/a file"
            pathlib.Path(name).touch()
            self.assertEqual(completed("aqs", "audit", f"{folder}/a"), [name])

    def test_the_scripts_have_the_syntax_of_their_shells(self):
        for name, words in (("aqs.bash", ["bash", "-n"]), ("_aqs", ["zsh", "-n"]), ("aqs.fish", ["fish", "-n"])):
            if shutil.which(words[0]):
                subprocess.run([*words, shell.FOLDER / name], check=True)

    def test_the_man_page_has_each_page(self):
        page = (shell.FOLDER / "aqs.1").read_text()
        for name in shell.commands(self.pages):
            if shell.reads_file(name):
                self.assertIn(f".SH AQS {name.upper()}\n", page)
        if shutil.which("man"):
            done = subprocess.run(["man", "--warnings", "-l", "-Tutf8", shell.FOLDER / "aqs.1"], capture_output=True)
            self.assertEqual((done.returncode, done.stderr), (0, b""))


if __name__ == "__main__":
    unittest.main()
