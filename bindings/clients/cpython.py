"""CPython's own tests of locks, timers and queues, with the classes of `threading` replaced."""
import importlib.util
import os
import pathlib
import re
import sys

import common
from common import LeftOut

HERE = pathlib.Path(__file__).resolve().parent
PYTHON = HERE.parent / "python"
SCRIPT = HERE / "cpython" / "aqs_threading.py"
SECONDS = 600
# The tests of test_threading that are of locks, and of threads that start and end by them.
OF_THREADING = ("LockTests", "PyRLockTests", "CRLockTests", "EventTests", "ConditionAsRLockTests", "ConditionTests",
                "SemaphoreTests", "BoundedSemaphoreTests", "BarrierTests", "TimerTests")
# Modules of tests, with the classes or tests that run, or all.
SUITE = (
    ("test_threading", OF_THREADING),
    ("test_queue", ()),
)


def words_of(module, classes):
    """The words after `-m test`: they choose the tests."""
    return [word for name in classes for word in ("-m", f"test.{module}.{name}.*")] + ["-v", module]


def count_in(told):
    """How many tests ran, or none."""
    found = re.findall(r"(?m)^Ran (\d+) tests? in", told)
    return sum(map(int, found))


def suite_of(packages):
    """The folder above the package `test` of the running Python, or None if that has it."""
    if importlib.util.find_spec("test") and importlib.util.find_spec("test.lock_tests"):
        return None
    version = f"{sys.version_info[0]}.{sys.version_info[1]}"
    if not sys.executable.startswith("/usr/bin/"):
        raise LeftOut(f"{sys.executable} has no test.lock_tests, and is no Python of Debian's")
    found = packages.unpacked(f"libpython{version}-testsuite") / "usr" / "lib" / f"python{version}"
    if not (found / "test" / "lock_tests.py").exists():
        raise LeftOut("the package has no test/lock_tests.py")
    return found


def environment_of(suite):
    paths = [str(PYTHON), *([str(suite)] if suite else [])]
    return {"PYTHONPATH": os.pathsep.join(paths), "PYTHONDONTWRITEBYTECODE": "1"}


def run(tests, packages, folder, _is_sample):
    environment = environment_of(suite_of(packages))
    for module, classes in SUITE:
        name = f"CPython's {module} over the classes of this library"
        words = [sys.executable, str(SCRIPT), *words_of(module, classes)]
        status, told = common.ran(words, folder, SECONDS, **environment)
        count = count_in(told)
        tests.count(f"{name}: {count} tests", status == 0 and count > 0, told)
