#!/usr/bin/env python3
"""The rules and the JDK of this machine, call by call: checks/java.py PROGRAM [COUNT [SEED]].

Scenarios are played on the classes of java.util.concurrent by checks/java/Scenarios.java, and their steps are
answered by PROGRAM. Both must say the same of each call: who ended at it and how, who holds what, in which
order the queue and the sleepers stand, which interrupts are pending. `scenarios.py` says what a scenario is.

- Those of checks/java/suite.scenarios are situations of the classes' tests, each fair and non-fair.
- COUNT are random (200 unless it is given), by SEED, or by the day if none is given.
- Those of checks/java/differences.scenarios must differ, since the profile differs from Java there.

What differs, and must not, is played again with longer times, since the machine may have been slow. So is what must
differ and does not. If a random scenario still differs, it is shrunk and printed. PROGRAM may be a Python file with a
function `replay`, as checks/rules.py, in place of the built program. The last line is 'N passed, M failed'. Without a
JDK nothing is compared, and nothing fails.
"""

import collections
import datetime
import importlib.util
import itertools
import pathlib
import random
import re
import shutil
import subprocess
import sys
import tempfile

import random_scenarios
import scenarios
from program import Program

HERE = pathlib.Path(__file__).resolve().parent / "java"

# The short time in milliseconds, and longer ones.
SHORT, LONGER = 5, (20, 100)
MINUTES = 10
SHOWN = 5
BATCH = 1000
# One thread of the compiler and one of the collector are enough.
FLAGS = ("-XX:TieredStopAtLevel=1", "-XX:+UseSerialGC")

Difference = collections.namedtuple("Difference", "at call rules jdk")


def replay_of(path):
    """What answers a steps text: a program, or the function `replay` of a Python file."""
    if path.endswith(".py"):
        spec = importlib.util.spec_from_file_location("asked_rules", path)
        module = importlib.util.module_from_spec(spec)
        spec.loader.exec_module(module)
        return lambda text: module.replay(text)[1]
    program = Program(path)
    return lambda text: program.answer(["replay"], text)[1]


def has_jdk():
    return shutil.which("javac") is not None and shutil.which("java") is not None


class Jdk:
    """The JDK of this machine, with the player of scenarios compiled for it."""

    def __init__(self):
        self.folder = tempfile.TemporaryDirectory()
        words = ["javac", "-nowarn", "-d", self.folder.name, str(HERE / "Scenarios.java")]
        subprocess.run(words, check=True)
        self.name, able = self.run(b"", SHORT)
        self.can_hold, self.has_limit = "hold" in able, "limit" in able

    def run(self, text, short):
        """The lines of a run."""
        words = ["java", *FLAGS, "-cp", self.folder.name, "Scenarios", str(short)]
        ran = subprocess.run(words, input=text, stdout=subprocess.PIPE, check=True, timeout=60 * MINUTES)
        return ran.stdout.decode().splitlines()

    def can_play(self, scenario):
        """JDK 20 and later hold no thread, and JDK 25 has another limit of holds."""
        is_held = any(call.startswith("hold") for call in scenario.calls)
        at_limit = any("*" in call for call in scenario.calls)
        return (self.can_hold or not is_held) and (self.has_limit or not at_limit)

    def played(self, many, short=SHORT):
        """For each scenario the lines of its calls."""
        text = "".join("\n".join([each.part, *each.calls, "end", ""]) for each in many)
        lines = iter(self.run(text.encode(), short)[2:])
        told = [list(itertools.islice(lines, len(each.calls))) for each in many]
        if next(lines, None) is not None or len(told[-1]) < len(many[-1].calls):
            raise ValueError("another number of lines than of calls")
        return told


def version_of(name):
    """The number of a JDK's feature release, of which 8 is spelt 1.8."""
    return int(re.search(r" (?:1\.)?(\d+)\.", name + ".")[1])


def first_difference(scenario, rules, jdk):
    """The first call of which rules and JDK say different things, or None."""
    for at, (call, told) in enumerate(zip(scenario.calls, jdk)):
        said = rules[at] if at < len(rules) else "nothing"
        if said != told:
            return Difference(at, call, said, told)
    return None


class Comparison:
    """A program and a JDK that play the same scenarios, and how often which entry was made."""

    def __init__(self, replay, jdk):
        self.replay, self.jdk, self.made = replay, jdk, collections.Counter()

    def told(self, scenario):
        told = scenarios.played(scenario, self.replay)
        self.made.update(answer[0].word for answer in told.answers if not isinstance(answer, str))
        return told

    def differences(self, many, short=SHORT):
        """For each scenario its first difference, or None."""
        found = []
        for at in range(0, len(many), BATCH):
            some = many[at:at + BATCH]
            told = [self.told(each).lines for each in some]
            found += map(first_difference, some, told, self.jdk.played(some, short))
        return found

    def lasting(self, many):
        """The scenarios that differ, with longer times too, and their differences."""
        found = [(each, bad) for each, bad in zip(many, self.differences(many)) if bad]
        for short in LONGER:
            many = [each for each, _ in found]
            found = [(each, bad) for each, bad in zip(many, self.differences(many, short)) if bad]
        return found

    def least(self, scenario):
        """A scenario that differs and is no longer if any call is left out."""
        size = len(scenario.calls)
        while size:
            fewer = [each for each in without(scenario, size) if not self.told(each).designs]
            found = zip(fewer, self.differences(fewer, LONGER[0]))
            smaller = next((each for each, bad in found if bad), None)
            if smaller is None:
                size //= 2
            else:
                scenario, size = smaller, min(size, len(smaller.calls))
        return scenario


def without(scenario, size):
    """The scenario without so many calls, at each place."""
    calls = scenario.calls
    for at in range(0, len(calls) - size + 1, max(1, size // 2)):
        if size < len(calls):
            yield scenario._replace(calls=calls[:at] + calls[at + size:])


def shown(scenario, bad):
    return f"{scenarios.spelt(scenario)}at call {bad.at}, {bad.call}\n  rules {bad.rules}\n  JDK   {bad.jdk}"


def with_policies(scenario):
    """A scenario with each policy that Java has. A latch has none."""
    kind, policy, *rest = scenario.part.split(" ")
    if kind == "latch":
        return [scenario]
    return [scenario._replace(part=" ".join([kind, policy, *rest])) for policy in ("fair", "nonfair")]


def scenarios_of(name, jdk):
    """The scenarios of a file that this JDK can play."""
    return filter(jdk.can_play, scenarios.read((HERE / name).read_text()))


def suite(comparison):
    """What is wrong with the scenarios of the suite, and how many there are with the policies."""
    many = scenarios_of("suite.scenarios", comparison.jdk)
    many = [each for scenario in many for each in with_policies(scenario)]
    return [shown(each, bad) for each, bad in comparison.lasting(many)], len(many)


def random_ones(comparison, count, seed):
    """What is wrong with random scenarios, and what they are about."""
    chance, jdk = random.Random(seed), comparison.jdk
    many = [random_scenarios.draw(chance, jdk.can_hold, jdk.has_limit) for _ in range(count)]
    found = comparison.lasting(many)
    wrong = []
    for each, _ in found[:SHOWN]:
        least = comparison.least(each)
        bad = comparison.differences([least], LONGER[0])[0]
        wrong.append(shown(least, bad) if bad else f"differs at times:\n{scenarios.spelt(each)}")
    wrong += [f"differs:\n{scenarios.spelt(each)}" for each, _ in found[SHOWN:]]
    calls = sum(len(each.calls) for each in many)
    kinds = collections.Counter(each.part.split(" ")[0] for each in many)
    about = ", ".join(f"{number} of a {kind}" for kind, number in sorted(kinds.items()))
    return wrong, f"{calls} calls; {about}"


def is_of(scenario, version):
    """Whether the difference of a scenario is one of a JDK of this version."""
    found = re.search(r"From JDK (\d+) on", " ".join(scenario.about))
    return not found or version >= int(found[1])


def by_design(comparison):
    """What is wrong with the scenarios that must differ, and how many there are."""
    jdk = comparison.jdk
    many = [each for each in scenarios_of("differences.scenarios", jdk) if is_of(each, version_of(jdk.name))]
    same = many
    for short in (SHORT, *LONGER):
        same = [each for each, bad in zip(same, comparison.differences(same, short)) if not bad]
    return [f"does not differ:\n{scenarios.spelt(each)}" for each in same], len(many)


def main(words):
    if not has_jdk():
        print("no JDK on this machine: nothing is compared\n0 passed, 0 failed")
        return 0
    count = int(words[1]) if len(words) > 1 else 200
    seed = int(words[2]) if len(words) > 2 else int(datetime.date.today().strftime("%Y%m%d"))
    comparison = Comparison(replay_of(words[0]), Jdk())
    print(comparison.jdk.name, flush=True)
    if not (comparison.jdk.can_hold and comparison.jdk.has_limit):
        print("this JDK holds no threads, or has another limit of holds: scenarios with these are left out")
    wrong, played = suite(comparison)
    print(f"{played} scenarios of the suite: {len(wrong)} differ", flush=True)
    more, about = random_ones(comparison, count, seed)
    print(f"{count} random scenarios, seed {seed}: {len(more)} differ; {about}", flush=True)
    same, designs = by_design(comparison)
    print(f"{designs} scenarios that differ by design: {len(same)} don't differ")
    print("entries: " + ", ".join(f"{word} {times}" for word, times in sorted(comparison.made.items())))
    wrong += more + same
    print("".join(f"{each}\n" for each in wrong), end="")
    print(f"{played + count + designs - len(wrong)} passed, {len(wrong)} failed")
    return 1 if wrong else 0


if __name__ == "__main__":
    if not 2 <= len(sys.argv) <= 4:
        sys.exit(__doc__)
    sys.exit(main(sys.argv[1:]))
