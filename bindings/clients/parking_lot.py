"""parking_lot's own tests of its mutexes, condvar, queues, read-write lock and Once, over this library's crate: `use`
alone changes."""
import pathlib
import re
import shutil

import common
from common import LeftOut

HERE = pathlib.Path(__file__).resolve().parent
CRATE = HERE.parent / "rust" / "aqs"
# Stands in for the crate of that name.
RAND = HERE / "parking_lot_rand"
FILES = ("mutex", "condvar", "rwlock", "remutex", "once")
SECONDS = 600
MANIFEST = """[package]
name = "parking_lot_tests"
version = "0.0.0"
edition = "2021"

[features]
serde = []

[dependencies]
aqs = {{ path = "{crate}" }}
rand = {{ path = "{rand}" }}

[workspace]
"""


def end_of_block(text, begin):
    """Where the block ends whose first brace is the first after `begin`. No brace of these files is in a string."""
    depth = 0
    for at in range(text.index("{", begin), len(text)):
        depth += {"{": 1, "}": -1}.get(text[at], 0)
        if depth == 0:
            return at + 1
    raise ValueError("a block has no end")


def modules_of_tests(text):
    """The modules of a file that are compiled for tests alone, each with its name."""
    found = []
    for match in re.finditer(r"(?m)^#\[cfg\(test\)\]\s*mod (\w+)", text):
        found.append((match[1], text[match.start():end_of_block(text, match.end())]))
    return found


def adapted(text):
    """The tests of a module over this library."""
    return text.replace("use crate::", "use aqs::")


def count_in(told):
    """How many tests passed and failed, by what cargo prints."""
    found = re.findall(r"(?m)^test result: .* (\d+) passed; (\d+) failed", told)
    return sum(int(it[0]) for it in found), sum(int(it[1]) for it in found)


def write_crate(source, room):
    """A crate whose tests are those of parking_lot."""
    shutil.rmtree(room / "tests", ignore_errors=True)
    for folder in ("src", "tests"):
        (room / folder).mkdir(parents=True, exist_ok=True)
    (room / "Cargo.toml").write_text(MANIFEST.format(crate=CRATE, rand=RAND), encoding="utf-8")
    (room / "src" / "lib.rs").write_text("", encoding="utf-8")
    written = 0
    for name in FILES:
        modules = modules_of_tests((source / f"{name}.rs").read_text(encoding="utf-8"))
        text = "\n".join(adapted(body) for _, body in modules)
        (room / "tests" / f"{name}.rs").write_text(text, encoding="utf-8")
        written += len(modules)
    return written


def run(tests, packages, folder, _is_sample):
    if not shutil.which("cargo"):
        raise LeftOut("there is no cargo")
    found = sorted(packages.unpacked("librust-parking-lot-dev").glob("usr/share/cargo/registry/parking_lot-0*/src"))
    if not found:
        raise LeftOut("the package has no sources")
    room = folder / "parking_lot"
    if not write_crate(found[-1], room):
        tests.count("parking_lot has tests", False, str(found[-1]))
        return
    status, told = common.ran(["cargo", "test", "-q", "--offline"], room, SECONDS)
    passed, failed = count_in(told)
    is_good = status == 0 and passed > 0 and failed == 0
    tests.count(f"parking_lot's own tests over the crate: {passed} pass", is_good, told)
