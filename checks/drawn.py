"""What `aqs draw` must show of a history: the rows, bars, labels, marks and tooltips of docs/SPECIFICATION.md, once
more in Python.

What that page leaves open, the shapes of the marks and the places within a row, is as in the crate `picture`.
"""

import copy
import re
import xml.etree.ElementTree as xml

import explained
import rules
import summed

SVG = "{http://www.w3.org/2000/svg}"
MOST = 2000
# How many entries before the first illegal one are drawn.
NEAR = 40
SHAPES = {
    "missed": "m-3 0a3 3 0 1 0 6 0a3 3 0 1 0 -6 0",
    "refused": "m-3 -3l6 6m0 -6l-6 6",
    "signal": "m0 -4l3 7h-6z",
    "drained": "m0 4l3 -7h-6z",
    "counted": "m-3 -4v8m3 -8v8m3 -8v8",
    "granted": "m-4 0l3 3l5 -6",
    "timeout": "m-4 0a4 4 0 1 0 8 0a4 4 0 1 0 -8 0m4 -3v3h2",
    "interrupt": "m1 -4l-3 4h4l-3 4",
    "barged": "m-4 -4l4 4l-4 4m4 -8l4 4l-4 4",
    "not legal": "m0 -5v5m0 2v2",
}
SAME_SIGN = {"signalall": "signal", "back": "granted"}
# What a tooltip says of a bar: its holds or its condition follow.
STATES = {"x": ", exclusive holds: {}", "s": ", shared holds: {}", "w": ", in line", "z": ", asleep on condition {}"}
# The rows begin here, below the title, what is shown, and the legend; those of a semaphore or a latch below the curve.
TOP, TOP_WITH_CURVE = 92, 180
# The entries begin here, the second if a seat has a name.
LEFT, LEFT_OF_NAMES = 72, 200


def sign_of(entry):
    """What an entry's mark shows, or None. A wait that was given up is marked by how it ended."""
    word = entry.word.split()[0]
    sign = entry.end if word in ("left", "lapse") else SAME_SIGN.get(word, word)
    return sign if sign in SHAPES else None


def barges(state, entry):
    """Whether an entry acquires at once while another seat waits in line for a first acquire. An acquire of a lock by a
    seat that holds it already does not."""
    others = any(arrival.seat != entry.seat and not arrival.back for arrival in state.line)
    return others and summed.is_new(state.header, entry, summed.held(state))


def signs(state, entries):
    """What the mark of each entry shows, or None, from the state before them."""
    for entry in entries:
        yield "barged" if barges(state, entry) else sign_of(entry)
        state.add(entry)


def levels(state):
    """What each seat does, by seat, kind and condition: its number of holds, or 1 if it waits or sleeps."""
    doing = {}
    for seat, holds in enumerate(state.holds):
        doing.update({(seat, mode, None): count for mode, count in holds.items() if count})
    doing.update({(arrival.seat, "w", None): 1 for arrival in state.line})
    for condition, asleep in enumerate(state.sleepers):
        doing.update({(seat, "z", condition): 1 for seat in asleep})
    return doing


def bars(state, entries):
    """Each stretch of entries behind which a seat does the same: what, how often, first and last entry."""
    begun, done = {}, []
    for number, entry in enumerate(entries):
        state.add(entry)
        now = levels(state)
        for key in [key for key, (count, _) in begun.items() if now.get(key) != count]:
            count, first = begun.pop(key)
            done.append((key, count, first, number - 1))
        for key, count in now.items():
            begun.setdefault(key, (count, number))
    return done + [(key, count, first, len(entries) - 1) for key, (count, first) in begun.items()]


def legal_part(lines):
    """The place of the first entry that is drawn, the state before it, those from there on, and the first that isn't
    legal, if there is one."""
    legal = lines.entries[:explained.legal_count(lines)]
    culprit = lines.entries[len(legal):len(legal) + 1]
    begin = max(0, len(legal) - NEAR) if culprit else 0
    state = lines.start()
    for entry in legal[:begin]:
        state.add(entry)
    return begin, state, legal[begin:] if culprit else legal[:MOST], culprit


def is_to_share(kind, seat, first, last, entries):
    """Whether a wait in line is to share: the entry that begins it says so, or the one that ends it, or else the kind
    of the object."""
    near = (entries[number] for number in (first, last + 1) if number < len(entries))
    words = ("queued", "granted", "left")
    said = any(entry.seat == seat and entry.word in words and entry.mode == "s" for entry in near)
    return said or kind in ("semaphore", "latch")


def names_of(text):
    """The names that a text gives, by ("seat", NUMBER) and ("condition", NUMBER), or its first wrong line."""
    *lines, rest = text.split(b"\n")
    names = {}
    for number, line in enumerate(lines, 1):
        found = re.fullmatch(rb"(condition )?(0|[1-9][0-9]{0,2}) ([!-~]{1,15})", line)
        key = found and ("condition" if found[1] else "seat", int(found[2]))
        if not found or key[1] >= (16 if found[1] else 256) or key in names:
            return number
        names[key] = found[3].decode()
    return len(lines) + 1 if rest else names


def called(names, kind, number):
    """A seat or a condition by its number, with the name that it was given."""
    name = names.get((kind, int(number)))
    return f"{number} ({name})" if name else str(number)


def told(number, entry, names):
    """An entry in words."""
    return f"entry {number}: seat {called(names, 'seat', entry.seat)} {rules.spelt(entry)}"


class Place:
    """Where the entries and the rows of a picture are. A seat that has no bar and made no entry has no row."""

    def __init__(self, kind, entries, stretches, culprit, names):
        self.given = names
        self.left = LEFT_OF_NAMES if any(key[0] == "seat" for key in names) else LEFT
        self.step = 20 if len(entries) <= 200 else 8
        self.top = TOP if kind in ("lock", "rw") else TOP_WITH_CURVE
        seats = {seat for (seat, _, _), _, _, _ in stretches} | {entry.seat for entry in [*entries, *culprit]}
        self.rows = {seat: row for row, seat in enumerate(sorted(seats))}

    def x(self, number):
        return self.left + number * self.step

    def y(self, seat):
        return self.top + self.rows[seat] * 40

    def mark(self, number, entry, sign):
        return f"M{self.x(number) + self.step // 2} {self.y(entry.seat) + 34}{SHAPES[sign]}"

    def names(self, seats):
        """What the rows are called, and how many seats have none."""
        names = {(self.y(seat) + 20, f"seat {called(self.given, 'seat', seat)}") for seat in self.rows}
        return names, seats - len(names)


def wanted(text, given):
    """The rows, bars, labels and marks by their places, with their tooltips, the field of the entry that is not legal,
    what names it, and the lines that explain it."""
    header, lines = rules.read_history(text)
    begin, before, shown, culprit = legal_part(lines)
    kept = lines.entries[begin:][:len(shown) + 1 if culprit else MOST]
    folded = lines.folded() + begin
    stretches = bars(copy.deepcopy(before), shown)
    place = Place(header.kind, shown, stretches, culprit, given)
    rects, labels, marks, fields = set(), set(), set(), set()
    for (seat, kind, condition), count, first, last in stretches:
        x, width = place.x(first), (last + 1 - first) * place.step
        y = place.y(seat) + (17 if kind == "s" else 3)
        looks = "v" if kind == "w" and is_to_share(header.kind, seat, first, last, kept) else kind
        digits = str(count if condition is None else condition)
        span = f"entries {folded + first} to {folded + last}; {told(folded + first, shown[first], given)}"
        state = STATES[kind].format(digits if condition is None else called(given, "condition", condition))
        rects.add((looks, x, y, width, f"seat {called(given, 'seat', seat)}{state}, {span}"))
        if kind != "w" and width >= 6 * len(digits) + 4:
            labels.add((x + 4, y + 10, digits if condition is None else f"c{digits}"))
    for at, (entry, sign) in enumerate(zip(shown, signs(before, shown))):
        if sign is not None:
            marks.add((place.mark(at, entry, sign), told(folded + at, entry, given)))
    names = place.names(header.seats)
    if not culprit:
        return names, rects, labels, marks, fields, None, []
    number, height = len(shown), len(place.rows) * 40
    said = told(folded + number, culprit[0], given)
    fields.add((place.x(number), place.top, place.step, height, f"not legal: {said}"))
    marks.add((place.mark(number, culprit[0], "not legal"), None))
    why = "".join(explained.lines(lines, None)).splitlines()
    return names, rects, labels, marks, fields, f"not legal at {said}", why


def shown(picture):
    """The same, as an SVG document has it. What stands above the rows is left out."""
    root = xml.fromstring(picture)
    assert root.tag == f"{SVG}svg"
    rects = {(each.get("class"), *(int(each.get(name)) for name in ("x", "y", "width")), title_of(each))
             for each in root.iter(f"{SVG}rect") if each.get("class") in ("x", "s", "w", "v", "z")}
    labels = {(int(each.get("x")), int(each.get("y")), each.text)
              for each in root.iter(f"{SVG}text") if each.get("class") in ("n", "i")}
    names = {(int(each.get("y")), each.text)
             for each in root.iter(f"{SVG}text") if each.get("x") == "8" and (each.text or "").startswith("seat ")}
    marks = {(each.get("d"), title_of(each)) for each in root.iter(f"{SVG}path") if each.get("class") == "m"}
    marks = {mark for mark in marks if int(re.match("M[0-9]+ ([0-9]+)m", mark[0])[1]) >= TOP}
    fields = {(*(int(each.get(name)) for name in ("x", "y", "width", "height")), title_of(each))
              for each in root.iter(f"{SVG}rect") if each.get("class") == "e"}
    named = next((each.text for each in root.iter(f"{SVG}tspan") if each.get("class") == "f"), None)
    rows = (names, left_out(root))
    return rows, {rect for rect in rects if rect[2] >= TOP}, labels, marks, fields, named, why_of(root, names)


def why_of(root, names):
    """The lines below the rows, which explain what is not legal."""
    below = max((y for y, _ in names), default=TOP_WITH_CURVE)
    return [each.text for each in root.iter(f"{SVG}text") if each.get("x") == "8" and int(each.get("y")) > below + 20]


def left_out(root):
    """How many seats have no row, as the line below the title says it."""
    line = next(each.text for each in root.iter(f"{SVG}text") if each.get("y") == "36")
    found = re.search("; seats without a row: ([0-9]+)$", line)
    return int(found[1]) if found else 0


def title_of(element):
    """The tooltip of an element, or None."""
    title = element.find(f"{SVG}title")
    return None if title is None else title.text


def is_drawn(picture, text, names=None):
    """Whether a picture is an SVG document that shows of a history text what it is to, with these names."""
    try:
        return shown(picture) == wanted(text, names or {})
    except xml.ParseError:
        return False
