#!/usr/bin/env python3
"""Whether the names in the pages exist: checks/names.py      at the top of the repository

A page is README, CONTRIBUTING, CHANGELOG, docs/*.md, cases/README.md, the written part of a CALLING.md, or a page of
bindings/. In each of them, but for blocks of code:

- A name in backticks that looks like one of a source (`a_function`, `a::path`, `record.field`, `Type`, `a_crate`) has
  all its words in some source, comments aside, or in the name of a file. GONE of a page that tells of changes is left.
- A path in backticks (`a/b.rt`, `b.py`) is one of a file of the repository; `*` stands for any part of it. So is one
  below `crates/NAME/` of the page's crate, and one in the page's folder.
- After 'clause' or 'clauses' come names of clauses of the function that is named last before them, or after 'of'. After
  'field' or 'fields' come fields of the record that is named after 'of'.
- After 'Wrong bodies:' come names of edits, up to the end of the paragraph: each is one of the crate that is named last
  by 'in `CRATE`', with a * for any part of it.
- A list after '<!-- each calls the next -->' is a walk: each item begins with `CRATE::function`, and the function of
  the item above it, that stands less far in, calls it. Items below one function stand in the order of its calls.
- Each item of a list under a heading 'What is proved' names a function of a source that has a contract.

The last line is 'N names, M not there', and the status is 1 if M is not 0.
"""
import fnmatch
import functools
import glob
import os
import pathlib
import re
import sys

from items import signature

MADE = re.compile(r"(?ms)^<!-- made by checks/pages.py: [^\n]*\n.*?^<!-- end -->$")
BLOCK = re.compile(r"(?ms)^( *)```.*?^\1```$")
NAME = re.compile(r"`([^`\n]+)`")
ENDINGS = "md|rt|antt|py|sh|js|c|h|cpp|hpp|java|rs|cases|edit"
PATH = re.compile(rf"(?!/|~|\.\.?/|http)[\w.*-]+(?:/[\w.*-]*)+|[\w-]+\.(?:{ENDINGS})")
LIKE_A_NAME = re.compile(r"[A-Za-z_]\w*(?:(?:::|\.)[A-Za-z_]\w*)*(?:\(\))?")
WORD = re.compile(r"[A-Za-z_]\w*")
CLAUSES = re.compile(r"\b(clauses?|fields?)\s+((?:`\w+`(?:,?\s+and\s+|,\s+)?)+)(?:\s+of\s+`([\w:]+)`)?")
SPOKEN = re.compile(r"`((?:\w+::)*\w+)`")
LABEL = re.compile(r"(?m)^ *(?:requires|ensures)(?: whole)? (\w+) \{")
FUNCTION = re.compile(r" *(?:pub(?:\([^)]*\))? )?(?:const |unsafe |extern \"C\" )*fn (\w+)")
RECORD = re.compile(r"(?ms)^(?:pub |abbrev |unfoldable )*record (?:pub )?(\w+).*?(?=^\S|\Z)")
FIELD = re.compile(r"(?m)^ +(?:pub )?(\w+) :")
EDITS = re.compile(r"(?s)Wrong bod(?:y|ies): (.*?)(?=\n\n|\n- |\Z)")
WALK = re.compile(r"(?m)^<!-- each calls the next -->\n\n?((?: *(?:- |  ).*\n)+)")
ITEM = re.compile(r"( *)- `(\w+)::((?:\w+::)*\w+)`")
PROVED = re.compile(r"(?ms)^#+ What is proved\n(.*?)(?=^#|\Z)")
COMMENT = {
    ".rt": re.compile(r"//.*"), ".antt": re.compile(r"--.*"),
    ".py": re.compile(r"(?m)^\s*#.*"), ".sh": re.compile(r"(?m)^\s*#.*"),
}
# Where names stand. A page is no source, and neither is what was built.
SOURCES = (
    "crates/*/src/**/*.rt", "crates/*/specs/**/*.antt", "crates/*/proofs/**/*.antt", "bindings/**/*.*", "checks/*.*",
    "checks/java/*", "tools/**/*", "examples/*", "cases/*", "crates.txt", "crates/*/*.txt", "HANDLES", ".ci/run",
)
# Words of other programs, libraries and languages, and of the kit, which no source here uses.
FOREIGN = set("""
AbstractQueuedSynchronizer await cC clocklock clockwait Condvar CountDownLatch counting_semaphore
CyclicBarrier db_test Deref DerefMut fillrandom FnOnce get_mut GetMut HashMap hasQueuedThread HostRuntime
into_inner LD_LIBRARY_PATH ldconfig liblibc_c.a lock_api lock_tests.py Mutex NOTE OnceLock perf pkg_config
port_stdcxx.h posixtestsuite PREFER_WRITER_NONRECURSIVE quick_exit readrandom readwhilewriting ReentrantMutex
RuledSeqCell RwLock std::mutex std::sync::Mutex stdbool.h tryLock tryRelease unlock_fair UnsafeCell Vec
VecDeque
""".split())
# Names that stand for any, folders that checks make, and the folder of an archive.
HOLES = {"mine", "out", "release", "NAME", "MODULE", "FUNCTION", "VERSION", "CRATE"}
# Pages that tell of what is gone too.
TELLS = {"CHANGELOG.md"}


def text_of(path):
    return pathlib.Path(path).read_text(encoding="utf-8", errors="replace")


class Sources:
    """What the sources below a folder declare and name."""

    def __init__(self, top):
        self.top = top
        self.files = {it for some in ("**/*", ".ci/*") for it in glob.glob(some, root_dir=top, recursive=True)}
        self.files = {it for it in self.files if not {"out", "target"} & set(it.split("/")[:-1])}
        self.endings = {"/".join(it.split("/")[at:]) for it in self.files for at in range(it.count("/") + 1)}
        self.stems = {os.path.splitext(it)[0] for it in self.endings if "/" in it}
        self.words, self.labels, self.bodies, self.fields = set(), {}, {}, {}
        for some in SOURCES:
            for path in glob.glob(f"{top}/{some}", recursive=True):
                self.note(path)
        for path in self.files:
            self.words.update(WORD.findall(path))

    def note(self, path):
        """Notes what a source says."""
        ending = os.path.splitext(path)[1]
        own, is_test = os.path.relpath(path, self.top), os.path.basename(path).startswith("test_names.")
        if not os.path.isfile(path) or ending in (".md", ".png", ".gz", ".svg") or is_test or own not in self.files:
            return
        text = text_of(path)
        code = COMMENT[ending].sub("", text) if ending in COMMENT else text
        self.words.update(WORD.findall(code))
        if ending == ".rt":
            self.note_functions(own.split("/")[1], text.split("\n"))
        elif ending == ".antt":
            for it in RECORD.finditer(text):
                self.fields.setdefault(it[1], set()).update(FIELD.findall(it[0]))

    def note_functions(self, crate, lines):
        for at, line in enumerate(lines):
            it = FUNCTION.match(line)
            if it:
                head = signature(lines, at)
                self.labels.setdefault(it[1], set()).update(LABEL.findall(head))
                if "ensures" in head or "requires" in head:
                    self.labels[it[1]].add("")
                indent = line[: len(line) - len(line.lstrip())]
                ends = (f"{indent}}}", f"{indent}{{}}")
                end = next((to for to in range(at, len(lines)) if lines[to].startswith(ends)), at)
                text = "\n".join(lines[at : end + 1])
                text = text.partition(f"\n{indent}{{\n" if f"\n{indent}{{\n" in text else " {\n")[2]
                text = COMMENT[".rt"].sub("", text)
                self.bodies[crate, it[1]] = self.bodies.get((crate, it[1]), "") + text

    def has_name(self, name):
        """Whether all words of a name stand in some source."""
        plain = name.removesuffix("()")
        return plain in FOREIGN or all(it in self.words or it in FOREIGN for it in WORD.findall(plain))

    def has_path(self, path, page):
        """Whether a path leads to a file: from the top, from the page, or as the end of a path."""
        some = path.rstrip("/")
        if "*" in some:
            return any(fnmatch.fnmatch(it, some) or fnmatch.fnmatch(it, f"*/{some}") for it in self.files)
        near = os.path.normpath(f"{os.path.dirname(page)}/{some}")
        return some in self.endings or near in self.files or some in self.stems

    @functools.cached_property
    def edits(self):
        """The wrong bodies: of each crate or folder of bindings, what each does."""
        found = {}
        for it in self.files:
            words = it.split("/")
            if it.endswith(".edit"):
                found.setdefault(words[1], set()).add(words[-1].removesuffix(".edit").split(".")[-1])
        return found


def said(text):
    """Returns a page without what is made and without blocks of code, in which no name is looked for."""
    return BLOCK.sub("", MADE.sub("", text))


def is_hole(name):
    """Whether a name stands for any, or is a part of one: `NAME.cases`, `crates/mine/src`, `_trylock`, `out/x`."""
    some = re.split(r"\W", name)
    return name[0] == "_" or not HOLES.isdisjoint(some)


def wrong_names(page, text, sources):
    for it in NAME.findall(text):
        if PATH.fullmatch(it):
            if os.path.basename(it) not in FOREIGN and not is_hole(it) and not sources.has_path(it, page):
                yield f"no file `{it}`"
        elif LIKE_A_NAME.fullmatch(it) and not is_hole(it) and not sources.has_name(it):
            yield f"no source has `{it}`"


def spoken_before(text, at):
    """Returns the functions that the item, the row or the paragraph names before a place, the nearest first."""
    begins = max(text.rfind(it, 0, at) for it in ("\n\n", "\n- ", "\n| ", "\n* ", ". "))
    return [it.split("::")[-1] for it in SPOKEN.findall(text[max(begins, 0) : at])][::-1]


def wrong_clauses(text, sources):
    """Yields each clause and field that is named and not there."""
    for it in CLAUSES.finditer(text):
        names = SPOKEN.findall(it[2])
        if it[1].startswith("field"):
            owners = [it[3].split("::")[-1]] if it[3] else [*spoken_before(text, it.start())]
            known = [sources.fields[owner] for owner in owners if owner in sources.fields]
        else:
            owners = [it[3].split("::")[-1]] if it[3] else spoken_before(text, it.start())
            known = [sources.labels[owner] for owner in owners if owner in sources.labels]
        for name in names:
            if not any(name in one for one in known):
                yield f"no {it[1].rstrip('s')} `{name}` of `{', '.join(owners[:3]) or '?'}`"


def wrong_edits(text, sources):
    """Yields each wrong body that is named and not there."""
    everywhere = {name for names in sources.edits.values() for name in names}
    for paragraph in EDITS.findall(text):
        known = everywhere
        for it in re.finditer(r"\bin\s+`(\w+)`|`([\w*]+)`", paragraph):
            if it[1]:
                known = sources.edits.get(it[1], set())
            elif not any(fnmatch.fnmatch(name, it[2]) for name in known):
                yield f"no wrong body `{it[2]}`"


def wrong_walks(text, sources):
    """Yields each function of a walk that is not there, that the one above doesn't call, or that it calls earlier."""
    for walk in WALK.findall(text):
        above = []  # of each item that stands further left: how far, its function, and where it calls its last one
        for indent, crate, path in ITEM.findall(walk):
            name = path.split("::")[-1]
            above = [it for it in above if it[0] < len(indent)]
            if (crate, name) not in sources.bodies:
                yield f"`{crate}` has no function `{path}`"
            elif above:
                caller, last = above[-1][1:]
                calls = re.compile(rf"\b{name}(?:::<[^;{{}}]*?>)?\(")
                places = [it.start() for it in calls.finditer(sources.bodies.get(caller, ""))]
                above[-1][2] = next((it for it in places if it > last), last)
                if not places:
                    yield f"`{'::'.join(caller)}` does not call `{path}`"
                elif places[-1] <= last:
                    yield f"`{'::'.join(caller)}` calls `{path}` before the one that stands above it"
            above.append([len(indent), (crate, name), -1])


def wrong_promises(text, sources):
    """Yields each item under 'What is proved' that names no function with a contract."""
    for section in PROVED.findall(text):
        for item in re.findall(r"(?ms)^- (.*?)(?=^- |^\S(?<!-)|\n\n|\Z)", section):
            names = [it.split("::")[-1] for it in SPOKEN.findall(item)]
            if not any("" in sources.labels.get(it, ()) for it in names):
                yield f"no function with a contract is named: {item[:60]!r}"


def strays_of(page, text, sources):
    """Returns what is to be said of a page."""
    text = said(text)
    names = [] if os.path.basename(page) in TELLS else wrong_names(page, text, sources)
    return [
        *names, *wrong_clauses(text, sources), *wrong_edits(text, sources), *wrong_walks(text, sources),
        *wrong_promises(text, sources),
    ]


def pages_of(sources):
    some = ["*.md", "docs/*.md", "cases/*.md", "crates/*/CALLING.md", *(f"bindings/{it}*.md" for it in ("", "*/", "rust/aqs/"))]
    return sorted({it for one in some for it in glob.glob(one, root_dir=sources.top)} & sources.files)


def main(words):
    top = words[0] if len(words) == 1 else "."
    if len(words) > 1 or top.startswith("-"):
        sys.exit(__doc__)
    sources, count, strays = Sources(top), 0, []
    for page in pages_of(sources):
        text = text_of(f"{top}/{page}")
        count += len(NAME.findall(said(text)))
        strays += [f"{page}: {it}" for it in strays_of(page, text, sources)]
    for it in strays:
        print(f"checks: {it}")
    print(f"{count} names, {len(strays)} not there")
    return 1 if strays or not count else 0


if __name__ == "__main__":
    sys.exit(main(sys.argv[1:]))
