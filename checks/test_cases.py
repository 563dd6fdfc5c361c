"""Tests the reader of cases, and that a wrong answer fails."""
import json
import os
import pathlib
import stat
import tempfile
import unittest

import cases
import runs

# A program that writes its input and its last word's file, says its first word, and has its second as status.
PROGRAM = '#!/bin/sh\ncat\n[ -z "$3" ] || cat "$3"\n[ -z "$1" ] || echo "aqs: $1" >&2\nexit "${2:-0}"\n'


class Reading(unittest.TestCase):
    def test_a_block_is_a_case_and_comments_are_none(self):
        read = cases.read("# Of two\n\n# One\n# more\n$ a 'b c'\n< x\n> y\n! usage\n= 2\n\n# Two\n$\n", "f")
        self.assertEqual([case.name for case in read], ["One", "Two"])
        first, second = read
        self.assertEqual((first.words, first.input(), first.output()), (["a", "b c"], b"x\n", b"y\n"))
        self.assertEqual((first.error, first.status, first.line), (b"aqs: usage\n", 2, 3))
        self.assertEqual((second.words, second.input(), second.output()), ([], b"", b""))
        self.assertEqual((second.error, second.status), (b"", 0))

    def test_each_way_to_spell_bytes(self):
        text = "# All\n$\n< é \n<\n<| a\n<\\ b\\x00\\r\\n\n<* 2 c\\nd\n"
        text += "<# 9 10 # #*2 #*2+1 #-1\n<@ no_steps.steps\n"
        [case] = cases.read(text)
        steps = (cases.EXAMPLES / "no_steps.steps").read_bytes()
        wanted = "é \n\nab\0\r\nc\nd\nc\nd\n9 18 19 8\n10 20 21 9\n".encode() + steps
        self.assertEqual(case.input(), wanted)
        [case] = cases.read(text.replace("\n<", "\n>"))
        self.assertEqual(case.output(), wanted)

    def test_names_are_a_text_of_their_own(self):
        [case] = cases.read("# a\n$ NAMES\n< x\n+ 0 é\n+| 1 b\n> y\n")
        self.assertEqual((case.input(), case.names(), case.output()), (b"x\n", "0 é\n1 b".encode(), b"y\n"))

    def test_other_lines_are_refused(self):
        blocks = ["# a\n> x", "$ replay"]
        blocks += [f"# a\n$\n{line}" for line in ("x", "<~ x", "$", "= x", "<x", "<* x", "<@ missing", "+* 2 x")]
        for block in blocks:
            with self.assertRaises(cases.Unreadable, msg=block):
                cases.read(block)


class Answers(unittest.TestCase):
    def test_a_star_is_a_number_on_its_lines_alone(self):
        [case] = cases.read("# a\n$\n> *\n>~ *.* x\n")
        for text, good in ((b"*\n1.-20 x\n", True), (b"1\n1.2 x\n", False), (b"*\n1.a x\n", False),
                           (b"*\n1.2 x\n\n", False), (b"*\n1.2 x", False), (b"*\n1,2 x\n", False)):
            self.assertEqual(case.is_answer(0, text, b""), good, text)

    def test_dots_are_any_whole_lines(self):
        [case] = cases.read("# a\n$\n> x\n>...\n> y\n")
        for text, good in ((b"x\ny\n", True), (b"x\n1\n\n2\ny\n", True), (b"x\n1y\n", False),
                           (b"x\n", False)):
            self.assertEqual(case.is_answer(0, text, b""), good, text)

    def test_a_run_is_judged(self):
        thread = '{"repeat":1,"calls":["a acquire s 1"]}'
        script = '{"objects":[["a","latch seats 1 count 0 cap 16"]],"threads":[%s]}' % thread
        [case] = cases.read(f"# a\n$ run\n< {script}\n>...\n")
        text = runs.alone(json.loads(script))
        self.assertTrue(case.is_answer(0, text, b""))
        for old, new in ((b"0 0 got", b"0 0 counted"), (b"shares 1", b"shares 0"), (text, b""),
                         (b"legal", b"not legal at 0"), (b"object a", b"object b")):
            self.assertFalse(case.is_answer(0, text.replace(old, new), b""), new)

    def test_each_part_of_an_answer_counts(self):
        [case] = cases.read("# a\n$\n> x\n! usage\n= 2\n")
        wanted = (2, b"x\n", b"aqs: usage\n")
        self.assertTrue(case.is_answer(*wanted))
        for place, other in ((0, 0), (0, None), (1, b""), (1, b"x"), (1, b"x\nx\n"), (2, b""),
                             (2, b"aqs: usage")):
            answer = (*wanted[:place], other, *wanted[place + 1:])
            self.assertFalse(case.is_answer(*answer), answer)


class Running(unittest.TestCase):
    def setUp(self):
        self.folder = tempfile.TemporaryDirectory()
        self.program = os.path.join(self.folder.name, "program")
        pathlib.Path(self.program).write_text(PROGRAM)
        os.chmod(self.program, stat.S_IRWXU)

    def tearDown(self):
        self.folder.cleanup()

    def failures(self, text):
        file = pathlib.Path(self.folder.name) / "some.cases"
        file.write_text(text)
        return list(cases.results(self.program, [file]))

    def test_a_right_answer_passes_and_a_wrong_one_is_told(self):
        right = "# Right\n$ usage 2\n< x\n> x\n! usage\n= 2\n"
        named = "# From a file\n$ '' 0 FILE\n< x\n> x\n"
        both = "# With names\n$ '' 0 NAMES\n< x\n+ 0 a\n> x\n> 0 a\n"
        self.assertEqual(self.failures(f"{right}\n{named}\n{both}"), [None, None, None])
        for old, new in (("> x", "> y"), ("! usage\n", ""), ("= 2", "= 1"), ("> x\n", "")):
            [failed] = self.failures(right.replace(old, new))
            self.assertIn("some.cases, line 1: Right\n$ usage 2\n-- expected status", failed)
            self.assertIn("-- came status 2, standard error b'aqs: usage\\n', standard output\nx\n", failed)

    def test_a_long_answer_is_told_from_its_first_other_line_on(self):
        [failed] = self.failures("# Long\n$ '' 0\n<* 900 x\n< y\n>* 900 x\n> z\n")
        self.assertIn("standard output\n.. (1800 bytes)\nz\n-- came", failed)
        self.assertIn("standard output\n.. (1800 bytes)\ny\n", failed)


class Files(unittest.TestCase):
    def test_each_file_reads_and_no_name_stands_twice_in_it(self):
        for file in cases.all_files():
            names = [case.name for case in cases.read(file.read_text(encoding="utf-8"), file.name)]
            self.assertEqual(len(names), len(set(names)), file.name)
            self.assertLess(0, len(names), file.name)


if __name__ == "__main__":
    unittest.main()
