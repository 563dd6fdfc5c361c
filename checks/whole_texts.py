"""A few texts that have each kind of line, base, object and call, for misspelt.py to spoil."""

import copy

# Histories: each line of a base, each kind of entry. Steps texts: each kind of step. The seats of a base add up so that
# each limit of the next one is another than that of the first.
LINES = (
    b"""aqs-history 2 lock strict seats 4 conditions 2 cap 16
base 20
seat 0 calls 3 x 2 s 0
seat 1 calls 4 x 0 s 0
seat 2 calls 5 x 0 s 0
seat 3 calls 6 x 0 s 0
line 1 queued x 1
line 2 back 1 3 signalled
sleeper 1 3 4
20 0 got x 1
21 1 left x 0 timeout
22 2 refused s 1 NotOwner
23 3 await 0 2
24 3 lapse 1 interrupt
25 3 back 1 2 timeout
26 0 signal 15 1
27 0 counted s 1
28 0 drained s 0
29 0 queued s 3
end 30 25
""",
    b"""aqs-history 2 rw nonfair seats 4 conditions 1 cap 16
base 70000
seat 0 calls 3 x 0 s 2
seat 1 calls 4 x 0 s 65530
seat 2 calls 5 x 0 s 0
seat 3 calls 0 x 0 s 0
line 2 queued s 1
line 3 back 0 65535 interrupt
70000 0 gave s 1
end 70001 13
""",
    b"""aqs-history 2 rw fair seats 3 conditions 1 cap 16
base 9
seat 0 calls 1 x 65535 s 2
seat 1 calls 2 x 0 s 0
seat 2 calls 3 x 0 s 0
sleeper 0 1 7
9 0 missed x 1
end 10 7
""",
    b"""aqs-history 2 semaphore fair seats 3 permits -3 cap 16
base 9 unheld 3000000005
seat 0 calls 4 x 0 s 5
seat 1 calls 0 x 0 s 0
seat 2 calls 5 x 0 s 900000000
line 1 queued s 0
9 0 granted s 5
end 10 10
""",
    b"""aqs-history 2 rw strict seats 2 conditions 0 cap 16
base 3
seat 0 calls 1 x 5 s 0
seat 1 calls 1 x 0 s 0
end 3 2
""",
    b"""aqs-history 2 semaphore strict seats 3 permits 7 cap 16
base 5 unheld 3000000000
seat 0 calls 2 x 0 s 4
seat 1 calls 3 x 0 s 2
seat 2 calls 0 x 0 s 852516360
line 0 queued s 2147483647
end 5 5
""",
    b"""aqs-history 2 semaphore fair seats 2 permits 7 cap 16
base 5 unheld 10000000000000000000000000
seat 0 calls 2 x 0 s 10000000000000000000000000
seat 1 calls 3 x 0 s 0
end 5 5
""",
    b"""aqs-history 2 latch seats 2 count 9 cap 16
base 6 count 3
seat 0 calls 4 x 0 s 0
seat 1 calls 2 x 0 s 0
line 1 queued s 1
6 0 counted s 1
end 7 7
""",
    b"""aqs-history 1 lock fair seats 2 conditions 16 cap 16
0 0 trygot x 1
1 1 refused x 2147483647 HoldsRead
2 0 signalall 0 0
end 3 3
""",
    b"""aqs-steps 2 rw strict seats 2 conditions 16 cap 4294967295
0 acquire x 1
1 tryfair s 4294967295
trim
0 await 255
1 look
0 entryinterrupt x 0
1 signalall 0
0 expire
end 8
""",
    b"""aqs-steps 1 semaphore nonfair seats 256 permits -2147483648 cap 16
255 give s 0
end 1
""",
    b"""aqs-steps 1 latch seats 1 count 2147483647 cap 16
0 drain
end 1
""",
)

# Two names are those that an explanation proposes, in the other order, and one begins as an interrupt does.
SCRIPT = {
    "objects": [
        ["interrupt-1", "lock fair seats 3 conditions 2 cap 16"],
        ["object-1", "rw nonfair seats 3 conditions 0 cap 20"],
        ["object-0", "semaphore strict seats 3 permits -2 cap 16"],
        ["gate", "latch seats 3 count 4 cap 16"],
    ],
    "threads": [
        {"repeat": 1, "calls": [
            "interrupt-1 acquire x 1", "object-1 acquire-interruptible s 1", "object-0 acquire-timed s 2 300",
            "gate try s 1", "gate give s 1", "interrupt-1 await 0", "interrupt-1 await-interruptible 1",
            "interrupt-1 await-timed 1 300", "interrupt-1 signal 0", "interrupt-1 signalall 255", "object-0 drain",
            "object-1 trim", "interrupt 2",
        ]},
        {"repeat": 1000000, "calls": []},
        {"repeat": 2, "calls": ["object-1 give x 4294967295"]},
    ],
}

PART = SCRIPT["objects"][0][1]
NAMES = ("", "interrupt", "Door", "do_or", "door ", "d\u00f6r", "d" * 33, "door" * 20, "d" * 32, "0-9", "interrupt-2")
OTHER_OBJECTS = (
    None, "door", [], {"door": PART}, ["door"], ["door", PART, 1], ["door", PART, PART], [1, PART], ["door", 1],
    *([name, PART] for name in NAMES),
)
OTHER_THREADS = (
    None, [], {}, {"repeat": 1}, {"calls": []}, {"repeat": 0, "calls": []}, {"repeat": 1000001, "calls": []},
    {"repeat": 1.5, "calls": []}, {"repeat": "1", "calls": []}, {"repeat": 1, "calls": {}}, {"repeat": 1, "calls": "a"},
    {"repeat": 1, "calls": [], "more": 1},
)
OTHER_CALLS = (
    1, None, [], "", " ", "interrupt", "interrupt ", "interrupt 3", "interrupt x", "interrupt 0 0", "interrupts 0",
    "door acquire x 1", "d\u00f6r acquire x 1", "door" * 20 + " drain", "gate", "gate ", "gate  drain", " gate drain",
)
OTHER_TOPS = (
    {}, {"objects": [], "threads": []}, {"objects": SCRIPT["objects"], "threads": []}, {**SCRIPT, "more": 1},
    {"objects": {}, "threads": SCRIPT["threads"]}, {"objects": SCRIPT["objects"], "threads": {}},
)


def spoilt_words(text):
    """A text of words in which each is replaced or left out, that ends after each, and that has one too many."""
    words = text.split(" ")
    for place, word in enumerate(words):
        other = "9" * 40 if word.lstrip("-").isdigit() else "lok"
        yield " ".join([*words[:place], other, *words[place + 1:]])
        yield " ".join([*words[:place], *words[place + 1:]])
        yield " ".join(words[:place])
    yield text + " now"


def spoilt_members():
    """A script, the place of one of its members, and what may stand there in its stead: for each member."""
    yield SCRIPT, (), OTHER_TOPS
    for at, (name, part) in enumerate(SCRIPT["objects"]):
        again = ([other, part] for other, _ in SCRIPT["objects"])
        yield SCRIPT, ("objects", at), [*OTHER_OBJECTS, *again, *([name, other] for other in spoilt_words(part))]
    for at, thread in enumerate(SCRIPT["threads"]):
        yield SCRIPT, ("threads", at), OTHER_THREADS
        for number, call in enumerate(thread["calls"]):
            yield SCRIPT, ("threads", at, "calls", number), [*spoilt_words(call), *(OTHER_CALLS if number else ())]


def replaced(made, place, other):
    """A copy of a script with something else at a place."""
    if not place:
        return other
    made = copy.deepcopy(made)
    within = made
    for key in place[:-1]:
        within = within[key]
    within[place[-1]] = other
    return made
