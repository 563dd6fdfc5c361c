"""Tests that the judge of `aqs explain` takes what the cases of cases/places.cases have, and nothing that is nearly it."""

import pathlib
import re
import unittest

import cases
import places

FILE = pathlib.Path(__file__).resolve().parent.parent / "cases" / "places.cases"


def answers():
    """The name, the text and the output of each case whose text is read and wrong."""
    for case in cases.read(FILE.read_text(), FILE.name):
        if case.status == 1 and not case.output().startswith(b"cannot read "):
            yield case.name, case.input(), case.output().decode()


def one_more(number):
    return str(int(number[0]) + 1)


def nearly(output):
    """Outputs that say almost the same."""
    lines = output.split("\n")
    place = re.sub(r"\d+", one_more, lines[0], count=1)
    if place != lines[0]:
        yield [place, *lines[1:]]
    if " column " in lines[0]:
        yield [re.sub(r"(?<=column )\d+", one_more, lines[0]), *lines[1:]]
    for at, line in enumerate(lines[1:-1], 1):
        yield lines[:at] + lines[at + 1:]
        if line.startswith("expected "):
            yield [*lines[:at], line + " or nothing", *lines[at + 1:]]
        if line.startswith("example "):
            yield [*lines[:at], line + " more", *lines[at + 1:]]


class Places(unittest.TestCase):
    def test_each_case_is_taken(self):
        for name, text, output in answers():
            self.assertTrue(places.is_told(text, (1, output.encode(), b"")), name)

    def test_nearly_right_answers_are_refused(self):
        count = 0
        for name, text, output in answers():
            for lines in nearly(output):
                # The kit alone knows where a text stops to be JSON.
                if "which is a JSON text" in output and lines[0] != output.split("\n")[0]:
                    continue
                answer = (1, "\n".join(lines).encode(), b"")
                self.assertFalse(places.is_told(text, answer), f"{name}: {lines}")
                count += 1
        self.assertGreater(count, 300)

    def test_another_status_or_a_line_on_standard_error_is_refused(self):
        for name, text, output in answers():
            for answer in ((0, output.encode(), b""), (1, output.encode(), b"aqs: bad line 2\n")):
                self.assertFalse(places.is_told(text, answer), name)


if __name__ == "__main__":
    unittest.main()
