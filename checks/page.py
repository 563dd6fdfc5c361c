#!/usr/bin/env python3
"""The pages of `aqs draw --page`: checks/page.py PROGRAM.

- The data of each page are what checks/rules.py makes of the history: its stretches, marks, entries and amounts, and
  who waits before the first entry that is shown.
- The fixed parts are the same in each page. Their policy names the hashes of their style and of their script, and they
  name nothing outside the page.
- The page's script runs under node, over `page_dom.js`. The panel says of an entry what `aqs explain` says of the state
  after it, at ten entries of each history. Keys, buttons, the slider, the search and clicks on bars move it.
- The same with names of seats and conditions, among them such as would end a string or an element: they are data, and
  stand in the panel, the rows, the tooltips and the seats to choose from, and nowhere as code.
- A page of an illegal history opens before the first illegal entry, and says what `aqs explain` says of it.
- A page of 10,000 entries has at most 5 MB, and shows its first entry within a second.
- Where chromium or google-chrome starts, it opens each page: the panel says the same at ten entries, keys and a
  button move it, and nothing is an error. What a screen reader is given has the names. A page of 10,000 entries is
  there within a second.

What is left out for want of node or of a browser is said. The last line is 'N passed, M failed'.

checks/page.py PROGRAM --picture HISTORY N FILE writes what a browser shows after N steps forward, as a PNG file.
"""

import base64
import hashlib
import json
import pathlib
import re
import shutil
import subprocess
import sys
import tempfile

import browser
import drawn
import explained
import rules

TOP = pathlib.Path(__file__).resolve().parent.parent
DOM = TOP / "checks" / "page_dom.js"
SECONDS = 60
MOST_BYTES, MOST_SECONDS = 5_000_000, 1.0
HISTORIES = ["bounded_buffer", "writer_between_readers_fair", "permits_below_zero", "latch_counts_down",
             "taken_past_the_line"]
# Entry 4 moves a sleeper behind a waiter who was in the queue before it.
MOVED = (b"aqs-history 1 lock fair seats 3 conditions 1 cap 64\n0 0 got x 1\n1 0 await 0 1\n2 1 got x 1\n"
         b"3 2 queued x 1\n4 1 signal 0 1\n5 1 gave x 1\n6 2 granted x 1\n7 2 gave x 1\n8 0 back 0 1 signalled\n"
         b"9 0 gave x 1\nend 10 8\n")
# Sleepers on conditions whose numbers have one digit and two.
ON_MANY = (b"aqs-history 1 lock fair seats 3 conditions 16 cap 64\n0 0 got x 1\n1 0 await 10 1\n2 1 got x 1\n"
           b"3 1 await 2 1\n4 2 got x 1\n5 2 await 1 1\nend 6 3\n")
# What the page says that an entry about a condition does.
ABOUT_CONDITIONS = {
    "await": "released all, and waits on {}.",
    "lapse": "gave up its wait on {}, and joined the queue.",
    "signal": "moved the longest waiter of {} to the queue, if there was one.",
    "signalall": "moved all waiters of {} to the queue.",
    "back": "came back from its wait on {}.",
}
# Names that would end a string, an element or a pattern if they were taken for anything else than a name.
WILD = ["</script>", '"]};alert(1)//', "<!--<script>", "\\u003c/script>", "$&$`$'$1$$", "__proto__", "&lt;b&gt;&#39;",
        "'-alert(1)-'", "constructor", '\\"\\n\\', "${alert(1)}", "<img/onerror=1>", "%3Cscript%3E"]


def run(words, given=b""):
    done = subprocess.run([str(word) for word in words], input=given, capture_output=True, timeout=SECONDS)
    return done.returncode, done.stdout, done.stderr


def page_of(program, history, words=()):
    return run([program, "draw", "--page", *words], history)[1].decode()


def parts(page):
    """What stands before the data, the data, and what stands after."""
    data = r"(.*<script type='application/json' id='data'>\n)(\{.*?\}\n)(</script>\n<script>.*)"
    found = re.fullmatch(data, page, re.S)
    return found.groups() if found else (page, "", "")


def is_closed(head, foot):
    """Whether a page's policy allows its own style and script alone, and nothing in it leads elsewhere."""
    style = re.search(r"<style>(.*?)</style>", head, re.S).group(1)
    script = re.search(r"<script>(.*?)</script>", foot, re.S).group(1)
    hashes = [base64.b64encode(hashlib.sha256(text.encode()).digest()).decode() for text in (script, style)]
    policy = (f"default-src 'none'; script-src 'sha256-{hashes[0]}'; style-src 'sha256-{hashes[1]}'; "
              "base-uri 'none'; form-action 'none'")
    if policy not in head:
        print(f"the policy must be: {policy}")
        return False
    outside = (head + foot).replace("'http://www.w3.org/2000/svg'", "")
    return re.search(r"https?:|\bsrc=|\bhref=|url\(|@import|fetch\(|XMLHttp|innerHTML|eval\(", outside) is None


def kinds(key):
    """The kind of a stretch as the data spell it, and its place among the kinds of a seat."""
    _, kind, condition = key
    return (kind, "xswz".index(kind)) if condition is None else (f"z{condition}", 3 + condition)


def named(header, names):
    """The names of a page, those of the object's seats and then of its conditions, or nothing if there are none."""
    def escaped(name):
        return "".join(f"\\u{ord(it):04x}" if it in "&'<>" else it for it in json.dumps(name)[1:-1])
    keys = [("seat", number) for number in range(header.seats)]
    keys += [("condition", number) for number in range(header.conditions)]
    rows = [f',["{kind} {number}","{escaped(names[kind, number])}"]' for kind, number in keys if (kind, number) in names]
    return [',"names":[["of","name"]', *rows, "]"] if rows else []


def called(names, kind, number):
    """What the page calls a seat or a condition."""
    return f"{kind} {drawn.called(names, kind, number)}"


def waiting(state):
    """Who waits, in order."""
    lines = [',"start":{"line":["seat"', *(f",{arrival.seat}" for arrival in state.line)]
    lines.append('],"sleepers":[["condition","seat"]')
    lines += [f",[{at},{seat}]" for at, asleep in enumerate(state.sleepers) for seat in asleep]
    return [*lines, "]}"]


def wanted(text, first=None, last=None, names=None):
    """The data of the page of a history, by the rules. `first` and `last` are those chosen."""
    header, lines = rules.read_history(text)
    state, legal, wrong = lines.start(), [], None
    folded = lines.folded()
    for number, entry in enumerate(lines.entries):
        if not state.is_entry(entry):
            wrong = folded + number
            break
        state.add(entry)
        legal.append(entry)
    is_cut = first is None and last is None and wrong is None and len(lines.entries) > drawn.MOST
    is_known = wrong is not None and (last is None or last >= wrong)
    if first is None and last is None and wrong is not None:
        first, last = max(wrong - drawn.MOST, 0), wrong
    end = drawn.MOST if first is None and last is None else len(legal) if last is None else max(0, last + 1 - folded)
    legal = legal[:end]
    begin = min(max(0, (first or 0) - folded), len(legal))
    state = lines.start()
    for entry in legal[:begin]:
        state.add(entry)
    shown, before = legal[begin:], waiting(state)
    stretches = drawn.bars(lines.start() if begin == 0 else state, shown)
    rows = sorted((end, key[0], kinds(key)[1], kinds(key)[0], start, holds) for key, holds, start, end in stretches)
    why = json.dumps("".join(explained.lines(lines, None)))
    told = [f'{{"header":"{header.part.decode()}"',
            f',"folded":"{folded}","entries":"{folded + len(lines.entries)}","from":{begin},"to":{len(legal)}'
            f',"cut":{str(is_cut).lower()},"wrong":' + ("null" if wrong is None else f'"{wrong}"'),
            f',"why":{why}' if is_known else "", ',"stretches":[["kind","seat","first","last","holds"]']
    told += [f',["{kind}",{seat},{begin + start},{begin + end},"{holds}"]' for end, seat, _, kind, start, holds in rows]
    told += ["]", ',"marks":[["sign","seat","entry"]']
    for number, (entry, sign) in enumerate(zip(legal, drawn.signs(lines.start(), legal))):
        if number >= begin and sign is not None:
            told.append(f',["{sign}",{entry.seat},{number}]')
    told += ["]", ',"amounts":["amount"', *amounts(lines, legal, begin), "]"]
    told += [',"entries_shown":[["seat","words"]']
    told += [f',[{entry.seat},"{rules.spelt(entry)}"]' for entry in shown]
    return "".join([*told, "]", *before, *named(header, names or {}), "}\n"])


def has_data(page, text):
    """Whether a page has the data of a history of which no entries are chosen."""
    return parts(page.decode())[1] == wanted(text)


def amounts(lines, legal, begin):
    """The free permits, or the count, after each entry."""
    state = lines.start()
    for number, entry in enumerate(legal):
        state.add(entry)
        if number >= begin and state.header.kind in ("semaphore", "latch"):
            yield f',"{state.free if state.header.kind == "semaphore" else state.count}"'


def plural(count, word):
    return f"{count} {word}" if count == "1" else f"{count} {word}s"


def panel(explained, names):
    """What the panel must say of the state that `aqs explain` told."""
    lines = [line.split() for line in explained.splitlines()]
    holds = [words for words in lines if words[0] == "holds"]
    amount = {words[0]: words[1] for words in lines if words[0] in ("free", "count", "readers")}
    owners = [f"{called(names, 'seat', words[1])} with {plural(words[3], 'hold')}" for words in holds if words[3] != "0"]
    sharing = [(called(names, "seat", words[1]), words[5]) for words in holds if words[5] != "0"]
    told = []
    if "free" in amount:
        held = [f"{seat} with {plural(count, 'permit')}" for seat, count in sharing]
        told += [f"Held: {', '.join(held) or 'nothing'}", f"Free permits: {amount['free']}"]
    elif "count" in amount:
        told.append(f"Count: {amount['count']}")
    else:
        told.append(f"Owner: {', '.join(owners) or 'nobody'}")
        if "readers" in amount:
            readers = [f"{seat} with {plural(count, 'hold')}" for seat, count in sharing]
            told.append(f"Readers: {', '.join(readers) or 'nobody'}")
    queue = [called(names, "seat", words[1]) for words in lines if words[0] == "line"]
    told.append(f"Queue, first to last: {', '.join(queue) or 'nobody'}")
    asleep = {}
    for words in lines:
        if words[0] == "sleeper":
            asleep.setdefault(words[1], []).append(called(names, "seat", words[2]))
    for at in sorted(asleep, key=int):
        told.append(f"Asleep on {called(names, 'condition', at)}, longest first: {', '.join(asleep[at])}")
    return told


def acted(file, actions):
    """The milliseconds before a page shows something under node, and what it shows then and after each action."""
    status, said, error = run(["node", DOM, file], json.dumps(actions).encode())
    if status != 0:
        print(error.decode())
        return 0.0, []
    milliseconds, *shown = json.loads(said)
    return milliseconds, shown


def state_after(program, history, number, names):
    return panel(run([program, "explain", "--at", number + 1], history)[1].decode(), names)


def entry_line(lines, number, names):
    """How the panel's line about an entry begins. Of an entry about a condition with a name it is all of that line, as
    far as it says what the entry does."""
    entry = lines.entries[number - lines.folded()]
    words = rules.spelt(entry)
    line = f"Entry {number}: {called(names, 'seat', entry.seat)} {words}. It "
    word, at, *_ = [*words.split(), "", ""]
    if word in ABOUT_CONDITIONS and ("condition", int(at)) in names:
        line += ABOUT_CONDITIONS[word].format(called(names, "condition", at))
    return line


def ten(first, last):
    """Ten numbers from the first to the last, or all if there are fewer."""
    return sorted({first + (last - first) * part // 9 for part in range(10)})


def says(shown, program, history, number, names):
    """Whether a panel shows the entry of a number and the state after it."""
    wanted_state = state_after(program, history, number, names)
    begins = entry_line(rules.read_history(history)[1], number, names)
    good = shown["entry"].startswith(begins) and shown["state"] == wanted_state
    if not good:
        print(shown, wanted_state)
    return good


def stepped(program, name, history, words, first, last, scratch, names={}):
    """At ten entries the panel says what `aqs explain` says of the state after them."""
    file = scratch / "page.html"
    file.write_text(page_of(program, history, words))
    numbers = ten(first, last)
    told = json.loads(parts(file.read_text())[1])
    folded = int(told["folded"])
    _, shown = acted(file, [{"set": ["at", str(number - folded)]} for number in numbers])
    for number, at in zip(numbers, shown[1:]):
        yield f"{name} {' '.join(words)}: the panel at entry {number}", says(at, program, history, number, names)
    yield f"{name} {' '.join(words)}: the panel at all ten", len(shown) == len(numbers) + 1


def opens_wrong(program, name, history, scratch):
    """A page of an illegal history opens before its first illegal entry, and explains it."""
    file = scratch / "page.html"
    file.write_text(page_of(program, history))
    lines = rules.read_history(history)[1]
    number = lines.folded() + explained.legal_count(lines)
    _, shown = acted(file, [{"key": "Home"}])
    yield f"{name}: the page opens at its end", says(shown[0], program, history, number - 1, {})
    is_told = shown[0]["wrong"] == f"not legal at entry {number}"
    yield f"{name}: the page explains it", is_told and shown[0]["why"] == "".join(explained.lines(lines, None))
    first = max(number - drawn.MOST, lines.folded())
    yield f"{name}: its first entry", says(shown[1], program, history, first, {})


def moves(program, history, scratch):
    """Keys, buttons, the search and clicks on bars move the panel."""
    file = scratch / "page.html"
    file.write_text(page_of(program, history))
    told = json.loads(parts(file.read_text())[1])
    last, rows = told["to"] - 1, told["entries_shown"][1:]
    seat = rows[last // 2][0]
    later = next(k for k in range(1, last + 1) if rows[k][0] == seat)
    granted = next(k for k in range(later + 1, last + 1) if rows[k][1].startswith("back "))
    actions = [({"key": "ArrowRight"}, 1), ({"key": "ArrowRight"}, 2), ({"key": "ArrowLeft"}, 1),
               ({"key": "End"}, last), ({"key": "ArrowRight"}, last), ({"key": "Home"}, 0),
               ({"key": "ArrowLeft"}, 0), ({"click": "last"}, last), ({"click": "back"}, last - 1),
               ({"click": "forward"}, last), ({"click": "first"}, 0), ({"key": "+"}, 0), ({"key": "-"}, 0),
               ({"click": "nearer"}, 0), ({"click": "farther"}, 0),
               ({"set": ["seat", str(seat)]}, 0), ({"click": "next"}, later), ({"set": ["seat", ""]}, later),
               ({"set": ["kind", "back"]}, later), ({"click": "next"}, granted), ({"key": "Home"}, 0),
               ({"click": "previous"}, 0), ({"bar": 2}, told["stretches"][3][2]),
               ({"set": ["kind", ""]}, told["stretches"][3][2]), ({"key": "Home"}, 0), ({"key": "ArrowRight"}, 1),
               ({"set": ["seat", str(rows[0][0])]}, 1), ({"click": "previous"}, 0), ({"key": "End"}, last),
               ({"click": "back"}, last - 1), ({"set": ["seat", str(rows[last][0])]}, last - 1),
               ({"click": "next"}, last)]
    _, shown = acted(file, [action for action, _ in actions])
    for (action, number), at in zip(actions, shown[1:]):
        yield f"{json.dumps(action)} leads to entry {number}", at["entry"].startswith(f"Entry {number}: ")
    yield "each action was answered", len(shown) == len(actions) + 1
    yield "a search that finds nothing says so", shown[22]["found"] == "No earlier entry is like that."


def opened(program, name, history, seen, scratch, words=(), names={}):
    """In a browser the arrows lead to ten entries, at which the panel says what `aqs explain` says."""
    file = scratch / "page.html"
    file.write_text(page_of(program, history, words))
    told = json.loads(parts(file.read_text())[1])
    folded, last, at = int(told["folded"]), told["to"] - 1, 0
    seen.open(file.as_uri())
    seen.press("Home")
    for place in ten(0, last):
        for _ in range(place - at):
            seen.press("ArrowRight")
        at = place
        good = says(seen.shown(), program, history, folded + place, names)
        yield f"{name}: the panel at entry {folded + place} in a browser", good
        spoken, told = seen.spoken(), state_after(program, history, folded + place, names)
        yield f"{name}: what a screen reader reads at entry {folded + place}", set(told) <= spoken
    for act, place in ((lambda: seen.press("Home"), 0), (lambda: seen.press("End"), last),
                       (lambda: seen.click("back"), last - 1)):
        act()
        shown = seen.shown()["entry"]
        yield f"{name}: {shown!r} is entry {folded + place} in a browser", shown.startswith(f"Entry {folded + place}: ")
    seats = [called(names, "seat", seat) for seat in sorted({seat for seat, _ in told_entries(file)})]
    yield f"{name}: the seats to choose from, in a browser", {"any seat", *seats} <= seen.spoken()
    yield f"{name}: the elements of a page are its own", seen.value("document.querySelectorAll('script,img').length") == 2
    yield f"{name}: errors in a browser: {seen.errors}", seen.errors == []


def told_entries(file):
    """The seats and the words of a page's entries."""
    return json.loads(parts(file.read_text())[1])["entries_shown"][1:]


def opens_soon(program, seen, scratch):
    """A browser shows the first of 10,000 entries within a second."""
    file = scratch / "large.html"
    file.write_text(page_of(program, long_entries(10_000), ["--to", "9999"]))
    seen.open(file.as_uri())
    milliseconds = seen.value("performance.getEntriesByType('navigation')[0].domComplete")
    print(f"10,000 entries: {milliseconds:.0f} ms in a browser")
    is_first = seen.shown()["entry"].startswith("Entry 0: ")
    yield "10,000 entries: its time in a browser", milliseconds <= 1000 * MOST_SECONDS and is_first


def in_browser(program, scratch):
    with browser.Browser(scratch) as seen:
        for name in HISTORIES:
            yield from opened(program, name, history_of(name), seen, scratch)
            names, words = given_names(scratch)
            yield from opened(program, f"{name} with names", history_of(name), seen, scratch, words, names)
        yield from opens_soon(program, seen, scratch)


def make_picture(program, history, number, to):
    """Writes what a browser shows of a history's page at an entry, as a PNG file."""
    with tempfile.TemporaryDirectory() as scratch, browser.Browser(scratch) as seen:
        file = pathlib.Path(scratch) / "page.html"
        file.write_text(page_of(program, history))
        seen.open(file.as_uri())
        for _ in range(number):
            seen.press("ArrowRight")
        pathlib.Path(to).write_bytes(seen.screenshot())


def is_data(program, name, history, words, chosen):
    head, data, foot = parts(page_of(program, history, words))
    told = wanted(history, **chosen)
    good = data == told
    if not good:
        print(f"{data[:600]!r} for {told[:600]!r}")
    yield f"{name} {' '.join(words)}: the data", good
    yield f"{name} {' '.join(words)}: the fixed parts", head != "" and is_closed(head, foot)


def given_names(scratch):
    """Names of three seats in four and of three conditions in four, and the words that give them to a page."""
    keys = [("seat", number) for number in range(256)] + [("condition", number) for number in range(16)]
    kept = [key for place, key in enumerate(keys) if place % 4 != 3]
    names = {key: WILD[place % len(WILD)] for place, key in enumerate(kept[::-1])}
    lines = [f"{'condition ' * (kind == 'condition')}{number} {name}\n" for (kind, number), name in names.items()]
    file = scratch / "given.names"
    file.write_text("".join(lines))
    return names, ["--names", str(file)]


def with_names(program, name, history, scratch):
    """The data of a page with names, and, if node is there, all places where it says a seat or a condition."""
    names, words = given_names(scratch)
    yield f"{name}: the names are names", drawn.names_of((scratch / "given.names").read_bytes()) == names
    yield from is_data(program, f"{name} with names", history, words, {"names": names})
    none = scratch / "none.names"
    none.write_text("")
    same = page_of(program, history) == page_of(program, history, ["--names", str(none)])
    yield f"{name}: a file that names nobody changes nothing", same
    if shutil.which("node") is None:
        return
    last = json.loads(parts(page_of(program, history))[1])["to"] - 1
    yield from stepped(program, f"{name} with names", history, words, 0, last, scratch, names)
    _, shown = acted(scratch / "page.html", [])
    seats = sorted({seat for seat, _ in told_entries(scratch / "page.html")})
    told = [called(names, "seat", seat) for seat in seats]
    yield f"{name}: the rows have names", shown[0]["labels"] == told
    yield f"{name}: the seats to choose from have names", shown[0]["seats"] == ["any seat", *told]
    begins = tuple(f"{called(names, 'seat', seat)} " for seat in seats)
    yield f"{name}: the tooltips have names", all(title.startswith(begins) for title in shown[0]["titles"])
    found = re.compile(r" sleeps on condition (\d+)(.*), entries \d+ to \d+$")
    asleep = [found.search(title) for title in shown[0]["titles"] if " sleeps on " in title]
    told = [f"{it[1]}{it[2]}" == drawn.called(names, "condition", it[1]) for it in asleep]
    yield f"{name}: the tooltips of sleepers have the condition's name", all(told)


def history_of(name):
    kept = TOP / "examples" / f"{name}.history"
    return kept.read_bytes() if kept.exists() else rules.replay(kept.with_suffix(".steps").read_bytes(), True)[1]


def results(program, scratch):
    for name in HISTORIES:
        history = history_of(name)
        count = len(rules.read_history(history)[1].entries)
        yield from is_data(program, name, history, [], {})
        middle = count // 3
        chosen = {"first": middle, "last": count - 2}
        yield from is_data(program, name, history, ["--from", str(middle), "--to", str(count - 2)], chosen)
        yield from with_names(program, name, history, scratch)
    based = (TOP / "examples" / "sleeper_of_a_base.history").read_bytes()
    yield from is_data(program, "sleeper_of_a_base", based, [], {})
    late = long_entries(2_500, wrong=2_301)
    for words, chosen in (([], {}), (["--from", "1"], {"first": 1}), (["--to", "2"], {"last": 2}),
                          (["--from", "2400"], {"first": 2400})):
        yield from is_data(program, "not legal at 2301", late, words, chosen)
    if shutil.which("node") is None:
        print("no node: the page's script is not run")
        return
    for name in HISTORIES:
        history = history_of(name)
        last = json.loads(parts(page_of(program, history))[1])["to"] - 1
        yield from stepped(program, name, history, [], 0, last, scratch)
        yield from stepped(program, name, history, ["--from", str(last // 3)], last // 3, last, scratch)
    for name, history in (("taken", history_of("taken_past_the_line")), ("late", long_entries(2_500, wrong=2_301))):
        yield from opens_wrong(program, name, history, scratch)
    yield from stepped(program, "a sleeper moved by the first entry", MOVED, ["--from", "4"], 4, 9, scratch)
    yield from stepped(program, "sleepers on many conditions", ON_MANY, [], 0, 5, scratch)
    yield from moves(program, history_of("bounded_buffer"), scratch)
    yield from large(program, scratch)
    try:
        yield from in_browser(program, scratch)
    except browser.NotStarted as why:
        print(f"{why}: no page is opened in a browser")


def large(program, scratch):
    """10,000 entries, and a history of more of which none are chosen."""
    file, history = scratch / "large.html", long_entries(10_000)
    file.write_text(page_of(program, history, ["--to", "9999"]))
    milliseconds, shown = acted(file, [{"key": "End"}])
    print(f"10,000 entries: {file.stat().st_size:,} bytes, {milliseconds:.0f} ms under node")
    yield "10,000 entries: its size", file.stat().st_size <= MOST_BYTES
    is_last = shown[1]["entry"].startswith("Entry 9999: ")
    yield "10,000 entries: its time", milliseconds <= 1000 * MOST_SECONDS and is_last
    file.write_text(page_of(program, history))
    _, shown = acted(file, [])
    told = "the first 2000 entries of 10000; --from and --to choose others"
    yield "entries left out are told", shown[0]["part"] == told


def long_entries(count, wrong=None):
    """A history of a lock for which two seats contend, in groups of five entries. With `wrong`, the second entry of a
    group, another seat takes the lock there."""
    group = ["{a} got x 1", "{b} queued x 1", "{a} gave x 1", "{b} granted x 1", "{b} gave x 1"]
    words = [group[n % 5].format(a=n // 5 % 256, b=(n // 5 + 7) % 256) for n in range(count)]
    if wrong is not None:
        words[wrong] = f"{(wrong // 5 + 9) % 256} got x 1"
    calls = sum(not word.split()[1].startswith("queued") for word in words)
    lines = [f"aqs-history 1 lock fair seats 256 conditions 0 cap {count}"]
    lines += [f"{n} {word}" for n, word in enumerate(words)]
    return "\n".join([*lines, f"end {count} {calls}", ""]).encode()


def main(program):
    passed = failed = 0
    with tempfile.TemporaryDirectory() as scratch:
        for name, good in results(program, pathlib.Path(scratch)):
            passed, failed = passed + bool(good), failed + (not good)
            if not good:
                print(f"FAILED: {name}")
    print(f"{passed} passed, {failed} failed")
    return 0 if passed and not failed else 1


if __name__ == "__main__":
    if len(sys.argv) == 6 and sys.argv[2] == "--picture":
        sys.exit(make_picture(sys.argv[1], pathlib.Path(sys.argv[3]).read_bytes(), int(sys.argv[4]), sys.argv[5]))
    if len(sys.argv) != 2:
        sys.exit(__doc__)
    sys.exit(main(sys.argv[1]))
