"""Tests of the command line of rules.py, which is all that somebody without the kit has."""
import pathlib
import subprocess
import sys
import unittest

HERE = pathlib.Path(__file__).resolve().parent
EXAMPLES = HERE.parent / "examples"


def told(*words, text=b""):
    """The status and both outputs of a command line."""
    words = [sys.executable, "-B", str(HERE / "rules.py"), *map(str, words)]
    ran = subprocess.run(words, input=text, capture_output=True, timeout=60, check=False)
    return ran.returncode, ran.stdout, ran.stderr


class Words(unittest.TestCase):
    def test_a_steps_text_is_replayed(self):
        answers = (EXAMPLES / "barging.answers").read_bytes()
        self.assertEqual(told("replay", EXAMPLES / "barging.steps"), (0, answers, b""))
        self.assertEqual(told("replay", text=(EXAMPLES / "barging.steps").read_bytes()), (0, answers, b""))

    def test_a_history_is_judged(self):
        status, history, _ = told("replay", "--history", EXAMPLES / "barging.steps")
        self.assertEqual((status, told("audit", text=history)[1].splitlines()[0]), (0, b"legal"))
        self.assertEqual(told("audit", EXAMPLES / "taken_past_the_line.history"), (1, b"not legal at 3\n", b""))

    def test_a_fault_is_one_line(self):
        self.assertEqual(told("audit", text=b"aqs"), (3, b"", b"aqs: cut short\n"))
        self.assertEqual(told("audit", EXAMPLES / "none.history"), (4, b"", b"aqs: read failed\n"))
        for words in ("explain",), ("audit", "--history"), ("replay", "a", "b"):
            self.assertEqual(told(*words), (2, b"", b"aqs: usage\n"))


if __name__ == "__main__":
    unittest.main()
