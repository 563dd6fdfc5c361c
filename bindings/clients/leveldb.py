"""LevelDB, with its mutex and its condition over libaqs: its whole test-suite, and its benchmark on both."""
import concurrent.futures
import os
import pathlib
import re
import statistics
import subprocess
import tempfile

import common
from common import LeftOut

HERE = pathlib.Path(__file__).resolve().parent
C = HERE.parent / "c"
PORT = "port/port_stdcxx.h"
BEGIN, END = "\nclass CondVar;\n", "\ninline bool Snappy_Compress("
HEADERS = (C / "aqs.h", C / "aqs.hpp", HERE / "leveldb" / "aqs_port.h")
# The header opens the namespaces itself.
AROUND = """
}  // namespace port
}  // namespace leveldb
#include "aqs_port.h"
namespace leveldb {
namespace port {
"""
FOLDERS = ("db", "table", "util", "helpers/memenv")
NOT_IN_LIBRARY = ("leveldbutil.cc", "testutil.cc", "histogram.cc", "env_windows.cc")
FLAGS = ["-g0", "-fno-exceptions", "-DLEVELDB_PLATFORM_POSIX=1", "-DHAVE_FDATASYNC=1", "-DHAVE_O_CLOEXEC=1", "-I.",
         "-Iinclude"]
# Operations in all, whatever the number of threads.
OPERATIONS, SHORT = 300_000, 30_000
BENCHMARKS = ("fillrandom", "readrandom", "readwhilewriting")
THREADS = (1, 4, 8, 16)
ROUNDS = 5
TEST_SECONDS = 900
# GNU time, if it is installed.
TIME = "/usr/bin/time"


def patched(text):
    """The port with libaqs in the place of the standard library: its two classes are those of aqs_port.h."""
    if text.count(BEGIN) != 1 or text.count(END) != 1:
        raise ValueError(f"{PORT} is not as the patch wants it")
    begin, end = text.index(BEGIN), text.index(END)
    if not begin < end:
        raise ValueError(f"{PORT} is not as the patch wants it")
    return text[:begin] + AROUND + text[end:]


def tests_in(text):
    """The sources of the tests, by CMakeLists.txt."""
    return [it for it in re.findall(r'leveldb_test\("([^"]+)"\)', text) if "windows" not in it]


def is_of_library(path):
    name = os.path.basename(path)
    return not name.endswith("_test.cc") and name not in NOT_IN_LIBRARY


def library_sources(tree):
    found = [str(path.relative_to(tree)) for folder in FOLDERS for path in sorted((tree / folder).glob("*.cc"))]
    return [path for path in found if is_of_library(path)]


def rate_in(told, name, threads):
    """Operations a second, by what db_bench prints: microseconds of a thread for each operation."""
    found = re.search(rf"(?m)^{name}\s*:\s*([0-9.]+) micros/op", told)
    return threads * 1e6 / float(found[1]) if found else None


class Tree:
    """The sources of LevelDB, built in one way."""

    def __init__(self, tree, out, flags, libraries):
        self.tree, self.out, self.libraries = tree, out, libraries
        self.flags = [*flags, *FLAGS]
        out.mkdir(parents=True, exist_ok=True)

    def object_of(self, source):
        return self.out / f"{source.replace('/', '-')}.o"

    def stands(self, source):
        """Whether the object of a source is newer than the source and our headers."""
        made = self.object_of(source)
        changed = max(path.stat().st_mtime for path in (self.tree / source, self.tree / PORT, *HEADERS))
        return made.exists() and made.stat().st_mtime > changed

    def compile(self, tests, name, sources):
        """Compiles sources, several at a time. Returns whether all could be."""
        def one(source):
            if self.stands(source):
                return ""
            compiler = ["gcc", "-std=c11"] if source.endswith(".c") else ["g++", "-std=c++11"]
            words = [*compiler, *self.flags, "-c", source, "-o", str(self.object_of(source))]
            return common.fault_of(words, self.tree, 300)
        with concurrent.futures.ThreadPoolExecutor(common.jobs()) as pool:
            failed = [told for told in pool.map(one, sources) if told]
        return not failed or tests.count(name, False, "\n".join(failed))

    def archive(self, tests, name):
        sources = library_sources(self.tree)
        if not self.compile(tests, name, sources):
            return False
        objects = [str(self.object_of(source)) for source in sources]
        told = common.fault_of(["ar", "rcs", str(self.out / "libleveldb.a"), *objects], self.tree, 60)
        return not told or tests.count(name, False, told)

    def program(self, name, sources):
        """Links a program. Returns what the linker says."""
        objects = [str(self.object_of(source)) for source in sources]
        words = ["g++", *objects, str(self.out / "libleveldb.a"), *self.libraries, "-pthread"]
        return common.fault_of([*words, "-o", str(self.out / name)], self.tree, 120)


def room_for_data(folder):
    """A folder in memory if there is one."""
    memory = "/dev/shm"
    return tempfile.TemporaryDirectory(prefix="aqs-leveldb-", dir=memory if os.access(memory, os.W_OK) else folder)


def trees(packages, folder):
    """The sources as they are, and those over libaqs."""
    made = {}
    for name in ("std", "aqs"):
        made[name] = packages.source("leveldb", folder / f"leveldb-{name}")
    port = made["aqs"] / PORT
    text, made_at = patched(port.read_text(encoding="utf-8")), port.stat()
    port.write_text(text, encoding="utf-8")
    os.utime(port, ns=(made_at.st_atime_ns, made_at.st_mtime_ns)) # what was built of it stands
    return made


def flags_of(name, gtest):
    ours = [f"-I{C}", f"-I{HERE / 'leveldb'}"] if name == "aqs" else []
    return [*ours, f"-I{HERE / 'leveldb' / 'stand_in'}", f"-isystem{gtest / 'usr/include'}"]


def libraries_of(name, gtest):
    found = [str(path) for stem in ("gmock", "gtest") for path in sorted(gtest.glob(f"usr/lib/*/lib{stem}.a"))]
    return [*found, *([str(C / "out" / "libaqs.a")] if name == "aqs" else [])]


def fault_in_test(program, folder):
    """Why a test program fails, if it fails twice: DBTest.HiddenValuesAreRemoved waits for less than it looks at, and
    fails in some of a hundred runs, over the standard library too."""
    for _ in range(2):
        with room_for_data(folder) as room:
            told = common.fault_of([str(program)], room, TEST_SECONDS, TEST_TMPDIR=room)
        if not told:
            return ""
    return told


def run_tests(tests, tree, out, gtest):
    """The whole test-suite over libaqs, with assertions."""
    built = Tree(tree, out, ["-O1", *flags_of("aqs", gtest)], libraries_of("aqs", gtest))
    sources = tests_in((tree / "CMakeLists.txt").read_text(encoding="utf-8"))
    name = "LevelDB's tests are built over libaqs"
    if not built.archive(tests, name) or not built.compile(tests, name, ["util/testutil.cc", *sources]):
        return
    failed = []
    for source in sources:
        program = pathlib.Path(source).stem
        told = built.program(program, [source, "util/testutil.cc"])
        if told:
            tests.count(f"LevelDB's {program} is linked", False, told)
            return
        told = fault_in_test(built.out / program, out)
        failed += [f"{program}: {told}"] if told else []
    name = f"the {len(sources)} test programs of LevelDB over libaqs"
    tests.count(name, bool(sources) and not failed, "\n".join(failed))


def with_peak(words, told):
    """The command, which also writes the most memory that it had into a file, in kB: what the system says of a child of
    Python is never less than what Python has itself."""
    return [TIME, "-f", "%M", "-o", str(told), *words] if os.access(TIME, os.X_OK) else words


def bench_once(program, benchmark, threads, operations, data):
    """Operations a second, the most memory in kB, and the processor's seconds. None: it failed."""
    used = "fillrandom" if benchmark == "fillrandom" else f"fillrandom,{benchmark}"
    with room_for_data(data) as room:
        peak = pathlib.Path(room) / "peak"
        words = [str(program), f"--benchmarks={used}", f"--threads={threads}", f"--num={operations // threads}",
                 f"--db={room}/db"]
        ran = subprocess.Popen(
            with_peak(words, peak), stdin=subprocess.DEVNULL, stdout=subprocess.PIPE, stderr=subprocess.DEVNULL,
            text=True)
        with ran.stdout as printed:
            told = printed.read()
        _, status, use = os.wait4(ran.pid, 0)
        ran.returncode = os.waitstatus_to_exitcode(status)
        memory = int(peak.read_text(encoding="utf-8").split()[-1]) if peak.exists() else use.ru_maxrss
    rate = rate_in(told, benchmark, threads)
    return (rate, memory, use.ru_utime + use.ru_stime) if ran.returncode == 0 and rate else None


def measured(programs, operations, rounds, data, threads=THREADS):
    """What each program does in each cell, by turns: {(benchmark, threads, name): [..]}."""
    cells = {}
    for _ in range(rounds):
        for benchmark in BENCHMARKS:
            for count in threads:
                for name, program in programs.items():
                    cells.setdefault((benchmark, count, name), []).append(
                        bench_once(program, benchmark, count, operations, data))
    return cells


def table_of(cells, first="std", second="aqs"):
    """The lines of a table: the best operations a second of each, their ratio, and medians of memory and processor
    time."""
    lines = [f"{'':22} {'threads':>7} {first:>9} {second:>9}  ratio   median     MB              seconds"]
    for benchmark, count in dict.fromkeys(key[:2] for key in cells):
        found = [[it for it in cells[benchmark, count, name] if it] for name in (first, second)]
        if not all(found):
            lines.append(f"{benchmark:22} {count:7} failed")
            continue
        best = [max(it[0] for it in of) for of in found]
        middle = [statistics.median(it[0] for it in of) for of in found]
        memory = [statistics.median(it[1] for it in of) / 1024 for of in found]
        seconds = [statistics.median(it[2] for it in of) for of in found]
        lines.append(
            f"{benchmark:22} {count:7} {best[0]:9.0f} {best[1]:9.0f} {best[1] / best[0]:6.2f} "
            f"{middle[1] / middle[0]:8.2f} "
            f"{memory[0]:7.1f} {memory[1]:7.1f} {seconds[0]:8.2f} {seconds[1]:7.2f}")
    return lines


def run_benchmark(tests, of, folder, gtest, is_sample):
    programs = {}
    for name, tree in of.items():
        flags = ["-O2", "-DNDEBUG", *flags_of(name, gtest)]
        built = Tree(tree, folder / f"leveldb-bench-{name}", flags, libraries_of(name, gtest))
        shown = f"LevelDB's benchmark is built over {'libaqs' if name == 'aqs' else 'the standard library'}"
        more = ["util/testutil.cc", "util/histogram.cc", "benchmarks/db_bench.cc"]
        if not built.archive(tests, shown) or not built.compile(tests, shown, more):
            return
        told = built.program("db_bench", more)
        if told:
            tests.count(shown, False, told)
            return
        programs[name] = built.out / "db_bench"
    operations, rounds = (SHORT, 1) if is_sample else (OPERATIONS, ROUNDS)
    cells = measured(programs, operations, rounds, folder, (1, 4) if is_sample else THREADS)
    lines = table_of(cells)
    (folder / "leveldb.txt").write_text("\n".join(lines) + "\n", encoding="utf-8")
    print("\n".join(lines), flush=True)
    failed = [str(key) for key, found in cells.items() if not all(found)]
    tests.count("LevelDB's benchmark ends in each cell", not failed, ", ".join(failed))


def run(tests, packages, folder, is_sample):
    of = trees(packages, folder)
    gtest = packages.unpacked("libgtest-dev", "libgmock-dev")
    if not libraries_of("std", gtest):
        raise LeftOut("libgtest-dev has no static library")
    if not is_sample:
        run_tests(tests, of["aqs"], folder / "leveldb-tests", gtest)
    run_benchmark(tests, of, folder, gtest, is_sample)
