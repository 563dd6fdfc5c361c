#!/usr/bin/env python3
"""Tests the callers of each language:
check.py [--until-one-fails] [c] [pthread] [sanitizers] [rust] [python] [java].

With no words it tests them all. With --until-one-fails the first test that fails is the last, and none has more time
than on a usual machine. It builds the library first, by make. What the machine has no tools for is left out, and told.
Each test has a time limit, since a lost wake would hang. The histories that the tests leave are judged by `aqs audit`,
if the program is built (crates/aqs/out/aqs, or AQS), and else by the rules in Python (checks/rules.py). The last line
is 'N passed, M failed'.
"""
import contextlib
import glob
import importlib.util
import os
import pathlib
import re
import shutil
import subprocess
import sys
import tempfile

HERE = pathlib.Path(__file__).resolve().parent
sys.path[:0] = [str(HERE.parent / "checks"), str(HERE / "pthread")]
import check_recorder
import rules

C = HERE / "c"
OUT = C / "out"
RUST = HERE / "rust" / "aqs"
AQS = os.environ.get("AQS", str(HERE.parent / "crates" / "aqs" / "out" / "aqs"))
# Threads and rounds of the storms: all of them together take some seconds.
STORMS = (("4", "400"), ("16", "120"), ("256", "12"))
UNTIL_ONE_FAILS = "--until-one-fails"
SUM_OF_FACTORIALS = "sum of factorials: 522956313\n"  # of 1 to 12, which the thread pool of Rust finds
SHOWN = 3000
MINUTES = 60
PATIENCE = 5  # how often as long as on a usual machine a command may take on one that is slow, or busy


def has_program():
    return os.access(AQS, os.X_OK)


def judged(file):
    """What the audit of a history says."""
    if not has_program():
        _, told, fault = rules.audit(pathlib.Path(file).read_bytes())
        return (told + fault).decode()
    ran = subprocess.run([AQS, "audit", file], capture_output=True, timeout=60, errors="replace", check=False)
    return ran.stdout + ran.stderr


# Tests of C and C++ that take no words, which the sanitizers run too.
PLAIN = {
    "times": "times that are never over too early",
    "thread_numbers": "numbers of threads that end",
    "closes": "closes right after the last call",
    "or_abort": "calls that end the program",
    "over": "a mutex and a barrier",
    "durations": "durations of any length in C++",
    "range": "what is out of range, NULL and closed objects, numbers of conditions",
    "crowded": "300 threads at each object",
}
# Tests of what each call does, which take no words.
CONTENT = {
    "answers": "which step each call makes, and what it makes of each answer",
    "members": "which call each member of aqs.hpp makes, and what it makes of each status",
    "wakes": "whom each call wakes",
    "interrupts": "what an interrupt does to each call",
    "statuses": "each status, and what is left after it",
    "histories": "texts of histories",
    "waits": "how long each call waits, and who has a processor meanwhile",
    "limits": "limits, and threads that end",
    "seats": "who has which seat, objects without an opening, and conditions as objects",
    "stops": "a thread that is stopped at each instruction of a call",
    "eintr": "what a signal handler does to a call that waits",
    "gates": "who goes through the gate of a lock",
}
# Those of them that the sanitizers run too: a sanitizer takes processor time, and the others stand in for the library.
SANITIZED = ("wakes", "interrupts", "statuses", "histories", "limits", "seats")
# What the linker puts in the place of other functions.
WRAPPED = {
    "thread_numbers": ["pthread_setspecific", "mmap"],
    "handlers": ["syscall"],
    "histories": ["aqs_text_now"],
    "closes": ["aqs_step_now", "aqs_step_at_once", "aqs_begin", "aqs_go_on", "aqs_lock_unlock"],
}


def statuses_are_checked():
    """Whether the compiler warns of each call of aqs.h whose status nobody looks at, and what it says."""
    text = re.sub(r"/\*.*?\*/", "", (C / "aqs.h").read_text(), flags=re.S)
    calls = re.findall(r"aqs_status_t (aqs_\w+)\(([^)]*)\);", text)
    lines = [f"{name}({', '.join(['0'] * len(taken.split(',')))});" for name, taken in calls]
    source = "\n".join(['#include "aqs.h"', "int main(void) {", *lines, "}"])
    words = ["cc", "-std=gnu11", "-c", "-o", "/dev/null", "-Wunused-result", "-I.", "-x", "c", "-"]
    ran = subprocess.run(words, cwd=C, input=source, capture_output=True, text=True, check=False)
    warned = set(re.findall(r"ignoring return value of .(aqs_\w+)", ran.stderr))
    without = [name for name, _ in calls if name not in warned]
    return len(calls) > 40 and not without, f"{ran.stderr}\nnot warned of: {without}"


class Ended(Exception):
    """A test has failed, and no more are asked for."""


class Tests:
    """Counts what passed and what failed, and tells what was left out."""

    def __init__(self, folder, until_one_fails=False):
        self.folder, self.passed, self.failed = folder, 0, 0
        self.until_one_fails, self.patience = until_one_fails, 1 if until_one_fails else PATIENCE

    def count(self, name, is_good, told=""):
        self.passed, self.failed = self.passed + is_good, self.failed + (not is_good)
        print(f"{'ok' if is_good else 'FAILED'}: {name}", flush=True)
        if not is_good:
            print(told[-SHOWN:], flush=True)
            if self.until_one_fails:
                raise Ended
        return is_good

    def left_out(self, name, why):
        print(f"left out: {name}: {why}", flush=True)

    def run(self, name, words, seconds=60, cwd=C, silent=False, says="", **environment):
        """Runs a command. It prints what it `says`. With `silent` it must not complain, as a sanitizer does."""
        try:
            status, output, errors = check_recorder.ran(words, seconds * self.patience, cwd, **environment)
        except OSError as error:
            return self.count(name, False, str(error))
        is_good = status == 0 and not (silent and errors.strip()) and says in output
        return self.count(name, is_good, output + errors)

    def audit(self, name, folder):
        """Judges each history in a folder: they must be legal, and some."""
        files = sorted(glob.glob(f"{folder}/*.history"))
        told = [(file, judged(file)) for file in files]
        bad = [f"{file}: {said}" for file, said in told if not said.startswith("legal")]
        by = "aqs audit" if has_program() else "the rules in Python"
        name = f"{name}, by {by},"
        self.count(f"{len(files)} histories of {name} are legal", bool(files) and not bad, "\n".join(bad))

    def draw(self, name, file, names=None):
        """Draws a history. With the file of names that lies beside it, the picture has one of them at least."""
        if not has_program():
            self.left_out(f"the picture of {name}", f"{AQS} is not built")
            return
        words = [AQS, "draw", *(["--names", names] if names else []), file]
        ran = subprocess.run(words, capture_output=True, timeout=60, errors="replace")
        is_drawn = ran.returncode == 0 and ran.stdout.startswith("<svg")
        given = pathlib.Path(names).read_text().split()[1::2] if names else []
        is_named = not names or any(f" ({it})" in ran.stdout for it in given)
        self.count(f"a picture of {name}", is_drawn and is_named, f"{ran.stderr}\n{given}")

    def histories(self, name):
        folder = os.path.join(self.folder, name)
        os.makedirs(folder, exist_ok=True)
        return folder


def has(*tools):
    return all(shutil.which(tool) for tool in tools)


def check_c(tests):
    if not tests.run("the C and C++ tests are built", ["make", "-s", "-j4", "tests"], 300):
        return
    kept = tests.histories("c")
    tests.run("each call of aqs.h", [OUT / "calls", kept])
    for name, what in {**CONTENT, **PLAIN}.items():
        tests.run(what, [OUT / name], 120)
    tests.run("allocations that fail", [OUT / "memory"])
    tests.run("signal handlers that release, and interrupt", [OUT / "handlers"], 120)
    tests.run("10,000 threads that live at a time", [OUT / "crowd"], 120)
    tests.run("processes that fork while threads make calls", [OUT / "forks"], 120)
    tests.run("names that the library has inside", [OUT / "names"])
    tests.run("a library that is closed under its threads", [OUT / "unload", OUT / "libaqs.so"])
    tests.run("names of seats", [OUT / "named", kept])
    tests.run("bounded buffers of C", [OUT / "bounded", kept], 120)
    tests.run("bounded buffers of C++", [OUT / "bounded_cpp", kept], 120)
    tests.run("static objects of C++ at the exit", [OUT / "statics"])
    tests.run("a condition of any lock, and stop tokens", [OUT / "any"], 90)
    tests.run("guards of C++", [OUT / "guards", kept])
    tests.run("C++11 without exceptions", [OUT / "plain"])
    tests.count("each status has to be looked at", *statuses_are_checked())
    for threads, rounds in STORMS:
        tests.run(f"storms of {threads} threads", [OUT / "storms", kept, threads, rounds], 120)
    tests.run("the cache of C++", [OUT / "lru_cache", f"{kept}/lru-cache.history"])
    tests.run("the first program of C", [OUT / "first"])
    tests.run("the bounded buffer of C", [OUT / "buffer", f"{kept}/buffer.history"])
    tests.audit("C and C++", kept)
    tests.draw("the cache", f"{kept}/lru-cache.history")
    tests.draw("the buffer", f"{kept}/buffer.history")
    check_page(tests)
    check_small_files(tests)
    check_install(tests)


# The whole programs of a page, by their language, and how each is compiled.
PROGRAMS = {"c": ["cc", "-std=gnu11"], "cpp": ["c++", "-std=c++11"]}


def check_page(tests):
    """The whole programs of the page compile and run as they stand there."""
    page = (HERE / "README.md").read_text()
    for language, compiler in PROGRAMS.items():
        blocks = [it for it in re.findall(rf"(?ms)^```{language}\n(.*?)^```$", page) if "int main(" in it]
        if not tests.count(f"the page has a whole program in {language}", len(blocks) == 1):
            continue
        folder = pathlib.Path(tests.histories(f"page-{language}"))
        source, program = folder / f"page.{language}", folder / "page"
        source.write_text(blocks[0])
        words = [*compiler, "-Wall", "-Wextra", "-Werror", "-I.", source, OUT / "libaqs.a", "-pthread"]
        if tests.run(f"it compiles as it stands in the page: {language}", [*words, "-o", program]):
            tests.run(f"it prints what the page says: {language}", [program], cwd=folder, says="5050\n")
    kept = tests.histories("page-c")
    tests.audit("the page", kept)
    tests.draw("the page's history, with names", f"{kept}/jobs.history", f"{kept}/jobs.history.names")


# How many blocks of 512 bytes a file may have: less than the history of the example, or some whole buffers. Then the
# last part of the history may be refused, which the example learns when it closes its file.
SMALL = (("lru_cache", 1), ("buffer", 8), ("buffer", 16), ("buffer", 24))


def check_small_files(tests):
    """The examples succeed if the file of their history is whole, and fail if it isn't."""
    folder = tests.histories("small")
    for example, blocks in SMALL:
        file = f"{folder}/{example}.history"
        words = ["sh", "-c", f"trap '' XFSZ; ulimit -f {blocks}; exec \"$@\"", "sh", OUT / example, file]
        told, is_whole = check_recorder.ran(words), judged(file).startswith("legal")
        name = f"the example {example} tells whether its file, of at most {512 * blocks} bytes, is whole"
        tests.count(name, (told[0] == 0) == is_whole, f"{told}\n{judged(file)}")


def check_install(tests):
    """What `make install` leaves is enough for a program, by the flags that pkg-config gives."""
    with tempfile.TemporaryDirectory() as room:
        if not tests.run("make install", ["make", "-s", "install", f"PREFIX={room}"]):
            return
        flags = flags_of(room)
        if not tests.count("the flags of aqs.pc", f"-I{room}/include" in flags and f"-L{room}/lib" in flags):
            return
        program, kept = f"{room}/calls", tests.histories("shared")
        words = ["cc", "-std=gnu11", "-Itest", "test/calls.c", *flags, "-o", program]
        if tests.run("a program links with what was installed", words):
            tests.run("it finds libaqs.so, and runs", [program, kept])
            os.remove(program)
        if has_program():
            tests.run("the program aqs is installed", [f"{room}/bin/aqs", "audit", f"{kept}/calls-lock.history"])
        tests.run("make uninstall", ["make", "-s", "uninstall", f"PREFIX={room}"])
        left = [it for _, _, files in os.walk(room) for it in files]
        tests.count("it leaves no file", not left, str(left))


def flags_of(prefix):
    """The flags that pkg-config gives for an installed library. Without it the file is read here."""
    folder = f"{prefix}/lib/pkgconfig"
    if has("pkg-config"):
        words = ["pkg-config", "--cflags", "--libs", "aqs"]
        environment = {**os.environ, "PKG_CONFIG_PATH": folder}
        return subprocess.run(words, capture_output=True, env=environment, text=True).stdout.split()
    lines = pathlib.Path(f"{folder}/aqs.pc").read_text().splitlines()
    values = dict(line.split("=", 1) for line in lines if re.match(r"\w+=", line))
    text = " ".join(line.split(": ", 1)[1] for line in lines if line.startswith(("Cflags: ", "Libs: ")))
    while "${" in text:
        text = re.sub(r"\$\{(\w+)\}", lambda it: values[it[1]], text)
    return text.split()


# What a sanitizer is given beside the sources.
SANITIZERS = (
    ("ThreadSanitizer", "thread", {"TSAN_OPTIONS": "halt_on_error=1"}),
    ("AddressSanitizer", "address,undefined", {"ASAN_OPTIONS": "detect_leaks=1"}),
)


def check_sanitizers(tests):
    for name, flag, environment in SANITIZERS:
        check_sanitizer(tests, name, flag, environment)
    check_installed(tests)
    if not has("valgrind"):
        tests.left_out("valgrind", "it is not installed")
        return
    if tests.run("the tests are built for valgrind", ["make", "-s", "-j4", "tests"], 300):
        kept = tests.histories("valgrind")
        words = ["valgrind", "-q", "--error-exitcode=9", "--leak-check=full"]
        tests.run("valgrind: calls", [*words, OUT / "calls", kept], 120, silent=True)
        tests.run("valgrind: allocations that fail", [*words, OUT / "memory"], 120, silent=True)
        storm = [*words, OUT / "storms", kept, "4", "20"]
        tests.run("valgrind: storms of 4 threads", storm, 120, silent=True)
        if not pathlib.Path("/usr/include/valgrind/helgrind.h").is_file():
            tests.left_out("helgrind", "its header is not installed, so the library is built without")
            return
        words = ["valgrind", "-q", "--tool=helgrind", "--suppressions=helgrind.supp", "--error-exitcode=9"]
        storm = [*words, OUT / "storms", kept, "4", "20"]
        tests.run("helgrind: storms of 4 threads", storm, 120, silent=True)
        tests.run("helgrind: the cache of C++", [*words, OUT / "lru_cache"], 120)


def without_slides(flag):
    """ThreadSanitizer wants addresses where it expects them."""
    return ["setarch", "-R"] if flag == "thread" and has("setarch") else []


def built(test, flag, library):
    """The words that build a test with a sanitizer."""
    [source] = C.glob(f"test/{test}.c*")
    compiler = ["gcc", "-std=gnu11"] if source.suffix == ".c" else ["g++", "-std=c++17"]
    wraps = [f"-Wl,--wrap={it}" for it in WRAPPED.get(test, ())]
    return [*compiler, "-O1", "-g", f"-fsanitize={flag}", "-I.", *wraps, source, *library, "-pthread", "-o"]


def check_sanitizer(tests, name, flag, environment):
    folder = tests.histories(flag.split(",")[0])
    library = [OUT / "core.o"]
    for source in ("aqs", "aqs_over"):
        library = [f"{folder}/{source}.o", *library]
        words = ["gcc", "-std=gnu11", "-O1", "-g", f"-fsanitize={flag}", "-I.", "-c", f"{source}.c", "-o", library[0]]
        if not tests.run(f"{name}: {source}.c is built", words, 120):
            return
    kept = [("calls", [folder]), ("storms", [folder, "4", "100"]), ("storms", [folder, "16", "20"])]
    for test, words in [*kept, *[(test, []) for test in (*SANITIZED, *PLAIN)]]:
        program = f"{folder}/{test}"
        if not tests.run(f"{name}: {test} is built", [*built(test, flag, library), program], 120):
            return
        shown = f"{name}: {test} {' '.join(words[1:])}".strip()
        words = [*without_slides(flag), program, *words]
        tests.run(shown, words, 120, silent=True, **environment)
    tests.audit(name, folder)


def check_installed(tests):
    """A program with ThreadSanitizer, and the library as it is installed, which was built without."""
    _, flag, environment = SANITIZERS[0]
    folder = tests.histories("installed")
    for library in ([OUT / "libaqs.a"], [OUT / "libaqs.so", f"-Wl,-rpath,{OUT}"]):
        name = f"ThreadSanitizer in the program alone, with {library[0].name}"
        program = f"{folder}/storms"
        if not tests.run(f"{name}: storms is built", [*built("storms", flag, library), program], 120):
            return
        words = [*without_slides(flag), program, folder, "4", "100"]
        tests.run(f"{name}: storms 4 100", words, 120, silent=True, **environment)


def check_rust(tests):
    if not has("cargo"):
        tests.left_out("Rust", "there is no cargo")
        return
    kept = tests.histories("rust")
    environment = {"AQS_HISTORIES": kept, "CARGO_TARGET_DIR": str(RUST / "target")}
    words = ["cargo", "test", "-q", "--offline"]
    if not tests.run("the Rust tests are built", [*words, "--no-run"], 240, cwd=RUST, **environment):
        return
    tests.run("cargo test", words, 120, cwd=RUST, **environment)
    file = f"{kept}/thread-pool.history"
    words = ["cargo", "run", "-q", "--offline", "--example", "thread_pool", file]
    if tests.run("the thread pool of Rust", words, 240, cwd=RUST, says=SUM_OF_FACTORIALS, **environment):
        tests.draw("the thread pool", file)
    words = ["cargo", "run", "-q", "--offline", "--manifest-path", rust_page(tests)]
    tests.run("it runs as it stands in the page: Rust", words, 240, says="5050\n", **environment)
    words = ["cargo", "run", "-q", "--offline", "--example", "pairs"]
    tests.run("what a pair costs in Rust", words, 240, cwd=RUST, says="Mutex::lock ", **environment)
    tests.audit("Rust", kept)


def page_program(tests, folder, language, mark):
    """The whole program of a caller's page, which has this mark."""
    page = (HERE / folder / "README.md").read_text()
    blocks = [it for it in re.findall(rf"(?ms)^```{language}\n(.*?)^```$", page) if mark in it]
    tests.count(f"the page has a whole program in {language}", len(blocks) == 1)
    return "".join(blocks[:1])


def rust_page(tests):
    """A crate of somebody else, of which the page's program is the whole source."""
    folder = pathlib.Path(tests.histories("page-rust"))
    (folder / "src").mkdir()
    (folder / "src" / "main.rs").write_text(page_program(tests, "rust/aqs", "rust", "fn main("))
    told = f'[package]\nname = "page"\nversion = "0.1.0"\nedition = "2021"\n[dependencies]\naqs = {{ path = "{RUST}" }}\n'
    (folder / "Cargo.toml").write_text(told)
    return folder / "Cargo.toml"


def check_python(tests):
    kept = tests.histories("python")
    program = pathlib.Path(tests.histories("page-python")) / "page.py"
    program.write_text(page_program(tests, "python", "python", "import aqs"))
    environment = {"PYTHONPATH": str(HERE / "python")}
    words = [sys.executable, "-B", program]
    tests.run("it runs as it stands in the page: Python", words, cwd=program.parent, says="5050\n", **environment)
    tests.audit("the page", program.parent)
    file = program.parent / "example.history"
    tests.draw("the page's history, with names", file, f"{file}.names")
    words = [sys.executable, "-B", "-m", "unittest", "-q", *(["-f"] if tests.until_one_fails else [])]
    tests.run("Python", [*words, "test_aqs"], 120, cwd=HERE / "python", AQS_HISTORIES=kept)
    words = [sys.executable, "-B", "bench.py"]
    tests.run("what a pair costs in Python", words, 60, cwd=HERE / "python", says="RLock ")
    tests.audit("Python", kept)
    if importlib.util.find_spec("test") and importlib.util.find_spec("test.lock_tests"):
        tests.run("CPython's own tests of locks", [*words, "test_cpython"], 180, cwd=HERE / "python")
    else:
        tests.left_out("CPython's own tests of locks", "this Python has no test.lock_tests")


def check_java(tests):
    if not has("javac", "java"):
        tests.left_out("Java", "there is no JDK")
        return
    folder, kept = HERE / "java", tests.histories("java")
    if not tests.run("the Java tests are built", ["make", "-s", "tests"], 120, cwd=folder):
        return
    classes = ["-Djava.library.path=out", "-cp", "out/classes:out/tests"]
    # The jar has its own copy of the native library.
    scenarios = ["java", "-cp", "out/aqs.jar:out/tests", "Scenarios", "test/scenarios.txt", kept]
    tests.run("Java: the jar, beside the JDK's classes", scenarios, 240, cwd=folder)
    tests.run("Java: many threads", ["java", *classes, "AqsTest", kept], 240, cwd=folder)
    tests.run("Java: inside", ["java", "-Xcomp", *classes, "aqs.InsideTest"], 240, cwd=folder)
    tests.run("Java: native memory", ["java", "-Xmx32m", *classes, "MemoryTest"], 120, cwd=folder)
    words = ["java", "-Djava.library.path=out/growing", *classes[1:], "GrowingTest"]
    tests.run("Java: a history that grows while it is read", words, 120, cwd=folder)
    room = pathlib.Path(tests.histories("page-java"))
    (room / "Example.java").write_text(page_program(tests, "java", "java", "public class Example"))
    words = ["javac", "-Xlint:all", "-Werror", "-cp", folder / "out" / "aqs.jar", "Example.java"]
    if tests.run("it compiles as it stands in the page: Java", words, cwd=room):
        words = ["java", "-cp", f"{folder / 'out' / 'aqs.jar'}:.", "Example"]
        tests.run("it prints what the page says: Java", words, cwd=room, says="5050\n")
    virtual = java_with_virtual_threads()
    if virtual:
        words = [virtual, "--enable-native-access=ALL-UNNAMED", *classes, "VirtualTest"]
        tests.run("Java: virtual threads are refused", words, 120, cwd=folder)
    else:
        tests.left_out("Java: virtual threads", "no JDK here has them")
    tests.audit("Java", kept)


def java_with_virtual_threads():
    """A program `java` of JDK 21 or later, or None."""
    for java in ("java", *sorted(glob.glob("/usr/lib/jvm/*/bin/java"))):
        told = subprocess.run([java, "-version"], capture_output=True, text=True, check=False).stderr
        version = re.search(r'version "(\d+)', told)
        if version and int(version[1]) >= 21:
            return java
    return None


def check_pthread(tests):
    check_recorder.check(tests, judged)


PARTS = {
    "c": check_c, "pthread": check_pthread, "sanitizers": check_sanitizers, "rust": check_rust, "python": check_python,
    "java": check_java,
}


def check_parts(tests, names):
    # Where nobody has proved the library yet, make does.
    if tests.run("the library is built", ["make", "-s"], 60 * MINUTES):
        for name in names:
            PARTS[name](tests)


def main(words):
    until_one_fails = words[:1] == [UNTIL_ONE_FAILS]
    names = words[1:] if until_one_fails else words
    if any(name not in PARTS for name in names):
        sys.exit(__doc__)
    with tempfile.TemporaryDirectory(prefix="aqs-bindings-") as folder:
        tests = Tests(folder, until_one_fails)
        with contextlib.suppress(Ended):
            check_parts(tests, names or PARTS)
    print(f"{tests.passed} passed, {tests.failed} failed", flush=True)
    return 1 if tests.failed else 0


if __name__ == "__main__":
    sys.exit(main(sys.argv[1:]))
