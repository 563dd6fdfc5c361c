"""Tests what is said of run texts: of those of one thread all, of others whether they are of their calls."""
import unittest

import runs

LOCK = "lock fair seats 2 conditions 1 cap 64"
TWO = {
    "objects": [["a", LOCK]],
    "threads": [
        {"repeat": 1, "calls": ["a acquire x 1", "a await-timed 0 5", "a give x 1", "interrupt 1"]},
        {"repeat": 1, "calls": ["a acquire-interruptible x 1", "a give x 1", "a give x 2"]},
    ],
}
RUN = b"""object a
aqs-history 1 lock fair seats 2 conditions 1 cap 64
0 0 got x 1
1 0 await 0 1
2 1 got x 1
3 0 lapse 0 timeout
4 1 gave x 1
5 0 back 0 1 timeout
6 0 gave x 1
end 7 5
legal
entries 7
calls 5
holds x 0 s 0 line 0 sleepers 0
shares 5
unrecorded 1
"""
# What is changed, and what stands in its place.
WRONG = {
    "an entry that is not legal": (b"2 1 got", b"2 1 trygot"),
    "an entry of another thread": (b"6 0 gave x 1", b"6 1 refused x 1 NotOwner"),
    "another header": (b"cap 64\n0", b"cap 65\n0"),
    "another object": (b"object a", b"object b"),
    "other totals": (b"line 0 s", b"line 1 s"),
    "other shares": (b"shares 5", b"shares 4"),
    "one more that is not recorded": (b"unrecorded 1", b"unrecorded 2"),
    "a verdict that is not so": (RUN[RUN.index(b"legal"):RUN.index(b"shares")], b"not legal at 3\n"),
    "a line more": (b"unrecorded 1\n", b"unrecorded 1\n\n"),
    "a line less": (b"shares 5\n", b""),
}


def without(text, line, shorter):
    """A run text without an entry, whose numbers are right again."""
    lines = [it for it in text.split(b"\n") if it != line]
    for at, it in enumerate(lines):
        if it[:1].isdigit():
            lines[at] = b"%d %s" % (at - 2, it.split(b" ", 1)[1])
    text = b"\n".join(lines)
    for old, new in shorter:
        assert old in text, old
        text = text.replace(old, new)
    return text


class Judged(unittest.TestCase):
    def test_a_run_of_two_threads_is_good(self):
        self.assertIsNone(runs.judged(TWO, RUN))

    def test_each_change_is_seen(self):
        for name, (old, new) in WRONG.items():
            self.assertIn(old, RUN, name)
            self.assertIsNotNone(runs.judged(TWO, RUN.replace(old, new)), name)

    def test_a_lost_call_is_seen(self):
        counts = [(b"end 7 5", b"end 6 4"), (b"entries 7", b"entries 6"), (b"calls 5", b"calls 4"),
                  (b"shares 5", b"shares 4"), (b"x 0 s 0", b"x 1 s 0"), (b"unrecorded 1", b"unrecorded 2")]
        lost = without(RUN, b"6 0 gave x 1", counts)
        self.assertIn("not of its calls", runs.judged(TWO, lost))
        self.assertIsNone(runs.judged(TWO, lost, lacks_memory=True))

    def test_an_interrupt_that_nobody_made_is_seen(self):
        script = {"objects": [["a", "latch seats 2 count 1 cap 64"]],
                  "threads": [{"repeat": 1, "calls": []} for _ in range(2)]}
        script["threads"][0]["calls"] = ["a acquire-interruptible s 1"]
        text = (b"object a\naqs-history 1 latch seats 2 count 1 cap 64\n0 0 refused s 1 Interrupted\n"
                b"end 1 1\nlegal\nentries 1\ncalls 1\ncount 1 line 0\nshares 1\nunrecorded 0\n")
        self.assertIn("interrupts", runs.judged(script, text))
        script["threads"][1]["calls"] = ["interrupt 0"]
        self.assertIsNone(runs.judged(script, text))

    def test_a_call_may_lack_room_only_where_room_may_be_short(self):
        script = {"objects": [["a", "latch seats 2 count 1 cap 64"]],
                  "threads": [{"repeat": 1, "calls": ["a give s 1"] * 2}, {"repeat": 1, "calls": []}]}
        text = (b"object a\naqs-history 1 latch seats 2 count 1 cap 64\n0 0 counted s 1\nend 1 1\n"
                b"legal\nentries 1\ncalls 1\ncount 0 line 0\nshares 1\nunrecorded 1\n")
        self.assertIn("not of its calls", runs.judged(script, text))
        script["objects"][0][1] = "latch seats 2 count 1 cap 16"
        script["threads"][0]["repeat"] = 8
        text = text.replace(b"cap 64", b"cap 16").replace(b"unrecorded 1", b"unrecorded 15")
        self.assertIsNone(runs.judged(script, text))


class Listed(unittest.TestCase):
    LINES = b"thread 1 call 2 BadAmount a give x 2\n"

    def test_a_line_for_each_answer_is_good(self):
        self.assertIsNone(runs.judged(TWO, RUN + self.LINES, is_listed=True))

    def test_each_change_of_the_lines_is_seen(self):
        self.assertIsNotNone(runs.judged(TWO, RUN, is_listed=True))
        self.assertIsNotNone(runs.judged(TWO, RUN + self.LINES))
        for old, new in (b"thread 1", b"thread 0"), (b"thread 1", b"thread 2"), (b"call 2", b"call 1"), (
                b"call 2", b"call 9"), (b"BadAmount", b"HistoryFull"), (b"x 2", b"x 1"), (b"2\n", b"2"), (
                self.LINES, self.LINES + self.LINES), (self.LINES, b"thread 0 call 3 OutOfMemory interrupt 1\n"):
            self.assertIn(old, self.LINES)
            self.assertIsNotNone(runs.judged(TWO, RUN + self.LINES.replace(old, new), is_listed=True), (old, new))

    def test_the_answers_of_one_thread_are_known(self):
        script = {"objects": [["a", "lock fair seats 1 conditions 0 cap 16"]],
                  "threads": [{"repeat": 2, "calls": ["a try x 1", "a drain"]}]}
        lines = b"thread 0 call 1 WrongMode a drain\nthread 0 call 3 WrongMode a drain\n"
        self.assertEqual(runs.alone(script, True), runs.alone(script) + lines)


class Alone(unittest.TestCase):
    def text_of(self, header, calls, repeat=1):
        return runs.alone({"objects": [["a", header]], "threads": [{"repeat": repeat, "calls": calls}]})

    def test_what_waits_for_ever_has_no_run_text(self):
        latch = "latch seats 1 count 1 cap 16"
        self.assertIsNone(self.text_of(latch, ["a acquire s 1"]))
        self.assertIsNone(self.text_of(latch, ["a acquire-interruptible s 1", "interrupt 0"]))
        self.assertIsNotNone(self.text_of(latch, ["interrupt 0", "a acquire-interruptible s 1"]))
        self.assertIsNotNone(self.text_of(latch, ["a acquire-timed s 1 9", "a give s 1", "a acquire s 1"]))
        lock = "lock fair seats 1 conditions 1 cap 64"
        self.assertIsNone(self.text_of(lock, ["a acquire x 1", "a await 0"]))

    def test_another_text_is_not_that_of_one_thread(self):
        script = {"objects": [["a", "latch seats 1 count 1 cap 16"]],
                  "threads": [{"repeat": 2, "calls": ["a give s 1"]}]}
        text = runs.alone(script)
        self.assertIsNone(runs.judged(script, text))
        for at in range(len(text)):
            changed = text[:at] + b"%c" % (text[at] ^ 1) + text[at + 1:]
            self.assertIsNotNone(runs.judged(script, changed), at)


if __name__ == "__main__":
    unittest.main()
