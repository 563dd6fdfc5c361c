"""Tests of the comparison with a JDK, without one: what scenarios say, what is by design, what is shrunk."""
import pathlib
import random
import re
import unittest

import java
import random_scenarios
import rules
import scenarios
from scenarios import Scenario

HERE = pathlib.Path(__file__).resolve().parent
PAGE = (HERE.parent / "docs" / "SPECIFICATION.md").read_text()


def scenario(part, *calls):
    return Scenario("", [], part, list(calls))


def answers(text):
    return rules.replay(text)[1]


def lines(part, *calls):
    return scenarios.played(scenario(part, *calls), answers).lines


def ends(part, *calls):
    """What each line says of the calls that ended."""
    return [line.partition(" |")[0] for line in lines(part, *calls)]


def file_of(name):
    return list(scenarios.read((HERE / "java" / name).read_text()))


def is_short(each):
    return not any("*" in call for call in each.calls)


class Texts(unittest.TestCase):
    def test_a_text_has_scenarios_with_names(self):
        blocks = ("# of all", "# a\n# why\nlock fair seats 1 conditions 0\n0 try x 1",
                  "\nlatch seats 1 count 1\n0 give s 1\n")
        first, second = scenarios.read("\n\n".join(blocks))
        self.assertEqual(first, Scenario("a", ["why"], "lock fair seats 1 conditions 0", ["0 try x 1"]))
        self.assertEqual(second, Scenario("", [], "latch seats 1 count 1", ["0 give s 1"]))

    def test_a_scenario_needs_an_object(self):
        with self.assertRaises(ValueError):
            lines("lock fair seats 0 conditions 0", "0 try x 1")

    def test_each_answer_is_read(self):
        self.assertEqual(scenarios.answer_of("- 3 sleep"), "sleep")
        entry = rules.Entry(1, "left", "s", 2, 0, "timeout")
        self.assertEqual(scenarios.answer_of("7 1 left s 2 timeout wakes 3"), (entry, 3))
        self.assertEqual(scenarios.answer_of("7 1 left s 2 timeout"), (entry, None))
        with self.assertRaises(ValueError):
            scenarios.answer_of("7 1 left s 2")


class Played(unittest.TestCase):
    def test_who_is_woken_acquires(self):
        told = lines("lock fair seats 2 conditions 0", "0 acquire x 1", "1 acquire x 1", "0 give x 1")
        self.assertEqual(told, ["0 got | owner 0 | holds 1 0 | line - | asleep - | flags -",
                                "nothing | owner 0 | holds 1 . | line 1 | asleep - | flags -",
                                "0 done, 1 got | owner 1 | holds 0 1 | line - | asleep - | flags -"])

    def test_who_is_held_acquires_when_all_go_on(self):
        told = ends("lock nonfair seats 2 conditions 0", "0 acquire x 1", "1 acquire x 1", "hold 1",
                    "0 give x 1", "0 try x 1", "go", "0 give x 1", "hold 1")
        wanted = ["0 got", "nothing", "nothing", "0 done", "0 got", "nothing", "0 done, 1 got", "busy"]
        self.assertEqual(told, wanted)

    def test_a_thread_that_waits_makes_no_call(self):
        told = lines("semaphore fair seats 1 permits 0", "0 acquire s 1", "0 give s 1")
        self.assertEqual(told, ["nothing | free 0 | line 0 | flags -", "busy"])

    def test_each_way_to_end(self):
        told = ends("rw fair seats 3 conditions 1", "0 acquire x 1", "1 acquire-timed s 1 short", "1 try s 1",
                    "1 acquire-timed s 1 0", "1 give s 1", "1 acquire-interruptible x 1", "interrupt 1",
                    "0 await-timed 0 0", "0 await-interruptible 0", "interrupt 0")
        wanted = ["0 got", "1 no", "1 no", "1 no", "1 illegal", "nothing", "1 interrupted", "0 no", "nothing",
                  "0 interrupted"]
        self.assertEqual(told, wanted)

    def test_an_interrupt_that_ends_no_wait_is_pending(self):
        part = "lock fair seats 2 conditions 1"
        told = lines(part, "0 acquire x 1", "1 acquire x 1", "interrupt 1", "0 give x 1", "1 await-timed 0 0")
        self.assertTrue(told[2].endswith("line 1 | asleep - | flags -"))
        self.assertTrue(told[3].endswith("flags 1"))
        self.assertTrue(told[4].startswith("1 interrupted | owner 1 | holds 0 1"))
        behind = lines(part, "1 acquire x 1", "1 await-interruptible 0", "0 acquire x 1", "0 signal 0",
                       "interrupt 1", "0 give x 1")
        self.assertEqual(behind[-1], "0 done, 1 done | owner 1 | holds 0 1 | line - | asleep - | flags 1")

    def test_a_repeated_call_is_one_line(self):
        told = lines("semaphore fair seats 1 permits 9", "0 try s 1 * 7")
        self.assertEqual(told, ["0 got | free 2 | line - | flags -"])
        told = scenarios.played(scenario("latch seats 1 count 1", "0 acquire-timed s 1 long * 2"), answers)
        self.assertTrue(told.designs)


class OtherAnswers(unittest.TestCase):
    """A program that answers otherwise is asked for the steps that its own answers lead to."""

    def test_another_answer_leads_to_other_steps(self):
        asked = []

        def barging(text):
            asked.append(text)
            return answers(text.replace(b" nonfair ", b" fair ")).replace(b" fair ", b" nonfair ")

        each = scenario("semaphore nonfair seats 3 permits 1", "0 acquire s 2", "1 acquire s 1", "2 give s 1",
                        "2 give s 1")
        told = scenarios.played(each, barging)
        self.assertTrue(told.lines[1].startswith("nothing | free 1 | line 0 1"))
        self.assertTrue(told.lines[2].startswith("0 got, 2 done | free 0 | line 1"))
        self.assertGreater(len(asked), 1)

    def test_entries_that_follow_no_history_are_told(self):
        def wrong(text):
            return answers(text).replace(b" got x 1", b" granted x 1")

        each = scenario("lock fair seats 1 conditions 0", "0 acquire x 1", "0 give x 1")
        told = scenarios.played(each, wrong)
        self.assertTrue(told.lines[0].startswith("not followed"))

    def test_a_number_of_answers_is_seen(self):
        with self.assertRaises(ValueError):
            each = scenario("latch seats 1 count 1", "0 give s 1")
            scenarios.played(each, lambda _: b"aqs-replay 1\nend 0 0\n")


class Designs(unittest.TestCase):
    def designs(self, part, *calls):
        return scenarios.played(scenario(part, *calls), answers).designs

    def test_what_is_by_design(self):
        self.assertTrue(self.designs("semaphore fair seats 1 permits -2", "0 drain"))
        self.assertTrue(self.designs("semaphore fair seats 1 permits -2147483648", "0 acquire s 1"))
        both = ("0 acquire x 1", "0 acquire s 1")
        self.assertTrue(self.designs("rw fair seats 1 conditions 1", *both, "0 await 0"))
        lapse = ("0 acquire x 1", "1 acquire x 1", "0 await-timed 0 0")
        self.assertTrue(self.designs("lock nonfair seats 2 conditions 1", *lapse))
        self.assertFalse(self.designs("lock fair seats 2 conditions 1", *lapse))

    def test_no_scenario_of_the_suite_meets_a_design(self):
        for each in filter(is_short, file_of("suite.scenarios")):
            self.assertNotIn("busy", scenarios.played(each, answers).lines, each)
            for one in java.with_policies(each):
                self.assertEqual(scenarios.played(one, answers).designs, [], one)

    def test_each_difference_meets_one_that_the_profile_has(self):
        for each in file_of("differences.scenarios"):
            place = re.search(r"Profile (\d+): ", " ".join(each.about))
            self.assertTrue(f"\n{place[1]}. *" in PAGE, each)
            if is_short(each):
                self.assertEqual(scenarios.played(each, answers).designs, [each.name])

    def test_no_random_scenario_meets_a_design(self):
        for seed in range(30):
            each = random_scenarios.draw(random.Random(seed))
            self.assertEqual(each, random_scenarios.draw(random.Random(seed)))
            if is_short(each):
                self.assertEqual(scenarios.played(each, answers).designs, [])
            held = random_scenarios.draw(random.Random(seed), can_hold=False)
            self.assertFalse(any(call.startswith("hold") for call in held.calls))


class Lifo:
    """In place of a JDK: the rules, but that a signal moves the last of two sleepers. One run may be slow."""

    def __init__(self, is_slow=False):
        self.is_slow = is_slow

    def played(self, many, _short):
        told = [scenarios.played(each, answers).lines for each in many]
        if self.is_slow:
            self.is_slow = False
            return [["nothing"] * len(each) for each in told]
        return [[line.replace("line 1 | asleep 2", "line 2 | asleep 1") for line in each] for each in told]


class Shrunk(unittest.TestCase):
    AWAITS = ("1 acquire x 1", "1 await 0", "2 acquire x 1", "2 await 0", "0 acquire x 1", "0 signal 0")

    def test_the_least_scenario_remains(self):
        part = "lock fair seats 3 conditions 1"
        calls = ("0 try x 1", "0 give x 1", *self.AWAITS[:4], "interrupt 0", *self.AWAITS[4:], "0 give x 1")
        comparison = java.Comparison(answers, Lifo())
        least = comparison.least(scenario(part, *calls))
        self.assertEqual(least.calls, list(self.AWAITS))
        [difference] = comparison.differences([least])
        self.assertEqual((difference.at, difference.call), (5, "0 signal 0"))
        self.assertIn("asleep 2", difference.rules)
        self.assertIn("asleep 1", difference.jdk)

    def test_a_difference_that_does_not_last_is_none(self):
        good = scenario("latch seats 1 count 1", "0 give s 1")
        self.assertEqual(java.Comparison(answers, Lifo(True)).lasting([good]), [])
        bad = scenario("lock fair seats 3 conditions 1", *self.AWAITS)
        [(each, _)] = java.Comparison(answers, Lifo(True)).lasting([good, bad])
        self.assertEqual(each, bad)

    def test_a_line_less_is_a_difference(self):
        each = scenario("latch seats 1 count 1", "0 give s 1", "0 give s 1")
        self.assertIsNone(java.first_difference(each, ["a", "b"], ["a", "b"]))
        self.assertEqual(java.first_difference(each, ["a", "b"], ["a", "c"]), (1, "0 give s 1", "b", "c"))
        self.assertEqual(java.first_difference(each, ["a"], ["a", "c"]).rules, "nothing")


class Jdks(unittest.TestCase):
    def test_a_version_is_read(self):
        for name, version in (("OpenJDK 64-Bit Server VM 17.0.15+6-Debian-1deb12u1", 17),
                              ("OpenJDK 64-Bit Server VM 1.8.0_402-b06", 8)):
            self.assertEqual(java.version_of(name), version)

    def test_some_differences_are_of_later_jdks(self):
        [late] = [each for each in file_of("differences.scenarios") if not java.is_of(each, 8)]
        self.assertTrue(java.is_of(late, 14))

    def test_the_rules_answer_in_place_of_a_program(self):
        text = b"aqs-steps 1 latch seats 1 count 1 cap 16\n0 give s 1\nend 1\n"
        self.assertEqual(java.replay_of(str(HERE / "rules.py"))(text), answers(text))


if __name__ == "__main__":
    unittest.main()
