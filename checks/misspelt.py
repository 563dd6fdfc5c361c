#!/usr/bin/env python3
"""Where spoilt texts are wrong: checks/misspelt.py PROGRAM [TEXTS] [SEED].

Random steps texts, histories, some of them with a base, and scripts are spoilt in one way each: a word that no line
has, a number that is too great, a seat that the object does not have, a line that is missing, carriage returns, a tab,
bytes that are no UTF-8, a cut, JSON that is none, a name twice. `places.py` judges what `aqs explain` says of each.
Where the spoiling tells by itself which word is wrong, the line and the column that are told must be those of that
word.

So are a few texts that have each kind of line, base, object and call (`whole_texts.py`): each word is replaced, and
each line is ended after each word, left out or written twice.

The last line is 'N passed, M failed'.
"""

import collections
import datetime
import itertools
import json
import multiprocessing
import random
import re
import sys

import explained
import fuzz
import places
import rules
import whole_texts
from program import Program

PARTS = 16
NO_WORD = (b"acqire", b"lok", b"Give", b"ends", b"\xc3\xa9nd", b"--")
TOO_GREAT = b"9" * 40
NO_UTF8 = (b"\xff", b"\xc3(", b"\xe2\x82", b"\xed\xa0\x80")


class Spoilt:
    """A text in which one thing is wrong, and the line and the column of the wrong word, if they are known."""

    def __init__(self, text, place=None):
        self.text, self.place = text, place

    def is_told(self, answer):
        if not places.is_told(self.text, answer):
            return False
        if self.place is None:
            return True
        if b"\nexample " not in answer[1]:  # no example goes on: the whole line is told
            return True
        line, column = self.place
        return answer[1].startswith(b"wrong at line %d column %d\n" % (line, column))


def history_text(chance):
    """A history of random steps; those of format 2 have a base."""
    return rules.replay(fuzz.steps_text(chance), True)[1]


def lines_text(chance):
    return fuzz.steps_text(chance) if chance.randrange(2) else history_text(chance)


def with_word(text, line, place, word):
    """A text in which this stands in place of a word, and where that is."""
    lines = [each.split(b" ") for each in text.split(b"\n")]
    before = lines[line][:place]
    lines[line][place] = word
    return Spoilt(b"\n".join(map(b" ".join, lines)), (line + 1, 1 + sum(len(each) + 1 for each in before)))


def some_word(chance, text, is_fit=lambda word: True):
    """The line and the place of some word, or None."""
    fit = [
        (number, place)
        for number, line in enumerate(text.split(b"\n")[:-1])
        for place, word in enumerate(line.split(b" "))
        if is_fit(word)
    ]
    return chance.choice(fit) if fit else None


def wrong_word(chance):
    text = lines_text(chance)
    return with_word(text, *some_word(chance, text), chance.choice(NO_WORD))


def great_number(chance):
    text = lines_text(chance)
    return with_word(text, *some_word(chance, text, lambda word: word.isdigit()), TOO_GREAT)


def no_seat(chance):
    """A seat that is one too great, in the line of a step or of an entry."""
    text = lines_text(chance)
    seats = re.search(rb"seats (\d+)", text)[1]
    is_history = text.startswith(b"aqs-history")
    lines = [number for number, line in enumerate(text.split(b"\n")) if line[:1].isdigit()]
    if not lines:
        return no_seat(chance)
    return with_word(text, chance.choice(lines), 1 if is_history else 0, seats)


def missing_line(chance):
    lines = lines_text(chance).splitlines(keepends=True)
    del lines[chance.randrange(len(lines))]
    return Spoilt(b"".join(lines))


def few_lines(chance):
    """The first lines alone, in some cases none."""
    lines = lines_text(chance).splitlines(keepends=True)
    return Spoilt(b"".join(lines[:chance.choice((0, 1, 1, 2))]))


def carriage_returns(chance):
    text = lines_text(chance)
    last = text.index(b"\n")
    column = text.rindex(b" ", 0, last) + 2
    return Spoilt(text.replace(b"\n", b"\r\n"), (1, column))


def tab(chance):
    """A tab in place of a space: two words are one."""
    text = lines_text(chance)
    at = chance.choice([at for at, byte in enumerate(text) if byte == 32])
    return Spoilt(text[:at] + b"\t" + text[at + 1:])


def no_utf8(chance):
    text = lines_text(chance) if chance.randrange(3) else script(chance)
    at = chance.randrange(len(text) + 1)
    return Spoilt(text[:at] + chance.choice(NO_UTF8) + text[at:])


def cut(chance):
    text = lines_text(chance) if chance.randrange(3) else script(chance)
    return Spoilt(text[:chance.randrange(len(text))])


def script(chance):
    """A script of one or several threads. It is told of, and not run. Some of its objects have the names that an
    explanation proposes."""
    made = fuzz.script_of(chance)
    [thread] = made["threads"]
    others = chance.choice((0, 0, 1, 3))
    for pair in made["objects"]:
        pair[1] = pair[1].replace("seats 1 ", f"seats {1 + others} ")
    made["threads"] += [dict(thread, calls=chance.sample(thread["calls"], len(thread["calls"]))) for _ in range(others)]
    text = json.dumps(made, indent=chance.choice((None, 1)))
    return re.sub(r"\bo(\d+)\b", chance.choice((r"o\1", r"object-\1")), text).encode()


def no_json(chance):
    """A script with a sign that is missing, or there twice."""
    text = script(chance)
    at = chance.choice([at for at, byte in enumerate(text) if byte in b'{}[],:"'])
    return Spoilt(text[:at] + chance.choice((b"", text[at:at + 1] * 2)) + text[at + 1:])


def wrong_script(chance):
    """A script in which a word of a call or of an object is another, or whose numbers are."""
    text = script(chance)
    found = list(re.finditer(rb"[a-z]+|\d+", text))
    part = chance.choice(found)
    word = chance.choice((b"lok", TOO_GREAT, b"0", b"1", b"x", b""))
    return Spoilt(text[:part.start()] + word + text[part.end():])


def name_twice(chance):
    """A script in which an object has the name of one before."""
    made = json.loads(script(chance))
    objects = made["objects"]
    if len(objects) < 2:
        return name_twice(chance)
    place = chance.randrange(1, len(objects))
    objects[place][0] = objects[chance.randrange(place)][0]
    return Spoilt(json.dumps(made).encode())


def spoilt_lines(text):
    """A text of lines with each word replaced, and each line ended after each word, left out or written twice."""
    lines = text.splitlines(keepends=True)
    for number, line in enumerate(lines):
        before, after = b"".join(lines[:number]), b"".join(lines[number + 1:])
        words = line.rstrip().split(b" ")
        for place, word in enumerate(words):
            yield with_word(text, number, place, TOO_GREAT if word.lstrip(b"-").isdigit() else NO_WORD[0])
            yield Spoilt(before + b" ".join(words[:place]) + b"\n" + after)
        yield Spoilt(before + b" ".join(words) + b" now\n" + after)
        yield Spoilt(before + after)
        yield Spoilt(before + line + line + after)


def spoilt_scripts():
    """A script with each object, thread and call replaced by each of those that are wrong, and with each word of an
    object or a call replaced or left out."""
    for made, place, several in whole_texts.spoilt_members():
        for other in several:
            yield Spoilt(json.dumps(whole_texts.replaced(made, place, other), ensure_ascii=False).encode())


def each_spoilt():
    for text in whole_texts.LINES:
        yield from spoilt_lines(text)
    yield from spoilt_scripts()


WAYS = (wrong_word, wrong_word, great_number, no_seat, missing_line, few_lines, carriage_returns, tab, no_utf8, cut,
        no_json, wrong_script, name_twice)


def texts_of(texts, number, seed):
    """The texts of a part, with the name of their kind: random ones, and its share of the others."""
    chance = random.Random(seed * PARTS + number)
    for _ in range(texts):
        way = chance.choice(WAYS)
        yield way.__name__, way(chance)
    for spoilt in itertools.islice(each_spoilt(), number, None, PARTS):
        yield "each word", spoilt


def tried(path, *which):
    """How many texts of each kind there were, and those of which something else is told."""
    program = Program(path)
    kinds, wrong = collections.Counter(), []
    for name, spoilt in texts_of(*which):
        answer = program.answer(["explain"], spoilt.text)
        right = right_answer(spoilt.text)
        kinds[name, "wrong" if right is None else "right"] += 1
        if answer != right if right else not spoilt.is_told(answer):
            wrong.append((name, spoilt, answer))
    program.close()
    return kinds, wrong


def right_answer(text):
    """The answer to a text that is right in spite of its spoiling, as one whose word was replaced by itself, or None."""
    for told in places.RIGHT_STEPS, places.RIGHT_SCRIPT:
        if not text.startswith(b"aqs-history") and places.is_told(text, (0, told, b"")):
            return 0, told, b""
    return explained.explain(text)


def main(words):
    texts = int(words[1]) if len(words) > 1 else 2000
    seed = int(words[2]) if len(words) > 2 else int(datetime.date.today().strftime("%Y%m%d"))
    parts = [(words[0], -(-texts // PARTS), number, seed) for number in range(PARTS)]
    kinds, wrong = collections.Counter(), []
    with multiprocessing.Pool() as pool:
        for some, bad in pool.starmap(tried, parts, 1):
            kinds += some
            wrong += bad
    for (name, kind), count in sorted(kinds.items()):
        print(f"{count} texts of {name}, {kind}")
    for name, spoilt, answer in wrong[:10]:
        print(f"told otherwise: {name} {spoilt.text!r} at {spoilt.place}\n  answer {answer!r}")
    print(f"seed {seed}")
    print(f"{sum(kinds.values()) - len(wrong)} passed, {len(wrong)} failed")
    return 1 if wrong or not kinds else 0


if __name__ == "__main__":
    if not 2 <= len(sys.argv) <= 4:
        sys.exit(__doc__)
    sys.exit(main(sys.argv[1:]))
