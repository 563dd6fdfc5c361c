"""Tests that the gate counts a step that fails or breaks off, and says why at the end."""
import io
import pathlib
import sys
import tempfile
import unittest

import gate


def ran(code):
    """The numbers of a step that runs this code of Python, and why it failed."""
    with tempfile.TemporaryDirectory() as folder:
        pathlib.Path(folder, "step.py").write_text(code)
        log = gate.Log(folder, io.StringIO())
        return gate.timed([sys.executable, "-B", f"{folder}/step.py"], folder, gate.COUNTED, log)


class Steps(unittest.TestCase):
    def test_what_passes_says_nothing(self):
        self.assertEqual(ran("print('failed: once'); print('20 passed, 0 failed')"), (20, 0, []))

    def test_what_fails_says_why(self):
        good, bad, said = ran("print('failed: a line'); print('3 ok'); print('20 passed, 1 failed'); exit(1)")
        wanted = ["step.py: failed: a line", "step.py: 3 ok", "step.py: 20 passed, 1 failed"]
        self.assertEqual((good, bad, said), (20, 1, wanted))

    def test_what_comes_before_or_long_after_is_left_out(self):
        lines = ["ok: 1", "go: it ended with status 2", *(f"ok: {number}" for number in range(2, 9))]
        self.assertEqual(gate.why(lines), lines[1 : 2 + gate.AFTER])

    def test_what_breaks_off_shows_its_last_lines(self):
        good, bad, said = ran("print('before'); raise OSError")
        self.assertEqual((good, bad, said[0], said[-1]), (0, 1, "step.py: before", "step.py: OSError"))

    def test_long_lines_are_cut(self):
        lines = [f"failed: {number} " + "x" * 1000 for number in range(100)]
        self.assertEqual((len(gate.why(lines)), {len(it) for it in gate.why(lines)}), (gate.MOST, {gate.WIDEST}))


class Order(unittest.TestCase):
    def test_what_measures_times_comes_alone_and_last(self):
        [(words, last_line)] = gate.alone("tree")
        self.assertEqual(words[2:4], ["tree/checks/wrong_c.py", "--sample"])
        self.assertEqual(gate.counted(0, "7 seen, 0 not seen", last_line), (7, 0))
        self.assertEqual(gate.counted(1, "6 seen, 1 not seen", last_line), (6, 1))


if __name__ == "__main__":
    unittest.main()
