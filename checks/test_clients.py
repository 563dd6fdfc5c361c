"""How real programs are fetched, patched and judged: no test here needs a network."""
import contextlib
import io
import os
import pathlib
import sys
import tempfile
import time
import unittest
from unittest import mock

sys.path.insert(0, str(pathlib.Path(__file__).resolve().parent.parent / "bindings" / "clients"))
import clients
import common
import cpython
import fetch
import leveldb
import parking_lot

HEADER = """#include <mutex>
namespace leveldb {
namespace port {

class CondVar;

class Mutex {
  friend class CondVar;
  std::mutex mu_;
};

inline bool Snappy_Compress(int) { return false; }

}  // namespace port
}  // namespace leveldb
"""
RELEASE = 'PRETTY_NAME="Debian GNU/Linux 12"\nVERSION_CODENAME=bookworm\nID=debian\n'
TESTS = """use other;
#[cfg(test)]
mod tests {
    use crate::{RwLock, RwLockUpgradableReadGuard, RwLockWriteGuard};

    #[test]
    fn smoke() {
        let l = RwLock::new(());
        drop(l.read());
        drop(l.upgradable_read());
    }

    #[test]
    #[should_panic]
    fn tries() {
        {
            drop(l.read());
        }
        {
            let guard = l.upgradable_read();
            drop(guard);
        }
        {
            drop(l.write());
        }
    }

    #[test]
    fn loops() {
        let lock = RwLockUpgradableReadGuard::upgrade(l.upgradable_read());
    }
}
"""


def told_by(call, *words):
    """What a call prints, and what it returns."""
    with contextlib.redirect_stdout(io.StringIO()) as told:
        returned = call(*words)
    return told.getvalue(), returned


class Commands(unittest.TestCase):
    def setUp(self):
        self.addCleanup(common.limit, None)

    def test_a_command_that_goes_well_has_no_fault(self):
        self.assertEqual(common.fault_of(["true"], "/", 10), "")

    def test_a_fault_has_the_status_and_the_end_of_what_was_said(self):
        told = common.fault_of(["sh", "-c", "seq 10000; echo last >&2; exit 7"], "/", 10)
        self.assertIn("sh: status 7", told)
        self.assertTrue(told.endswith("last\n") and len(told) < 2 * common.SHOWN)

    def test_a_command_that_is_not_there_is_a_fault(self):
        self.assertIn("no-such-command", common.fault_of(["no-such-command"], "/", 10))

    def test_a_command_that_hangs_is_a_fault(self):
        self.assertIn("did not end in 0.1 seconds", common.fault_of(["sleep", "20"], "/", 0.1))

    def test_a_sample_without_time_leaves_out(self):
        common.limit(0.2)
        begun = time.monotonic()
        for _ in range(2):
            with self.assertRaisesRegex(common.LeftOut, "no time"):
                common.ran(["sleep", "20"], "/", 100)
        self.assertLess(time.monotonic() - begun, 10)

    def test_words_of_the_environment_are_passed_on(self):
        self.assertEqual(common.ran(["sh", "-c", "echo $IT"], "/", 10, IT="there"), (0, "there\n"))


class Fetching(unittest.TestCase):
    def setUp(self):
        folder = tempfile.TemporaryDirectory()
        self.addCleanup(folder.cleanup)
        self.packages = fetch.Packages(folder.name)

    def test_the_release_is_known(self):
        self.assertEqual(fetch.release_of(RELEASE), "bookworm")
        for text in (RELEASE.replace("debian", "ubuntu"), "ID=debian\n", ""):
            with self.assertRaises(common.LeftOut):
                fetch.release_of(text)

    def test_sources_are_asked_for_too(self):
        lines = fetch.sources_of("bookworm").splitlines()
        self.assertEqual([line.split()[0] for line in lines], ["deb", "deb-src"])
        self.assertTrue(all(line.endswith(" bookworm main") for line in lines))

    def test_lists_and_what_is_fetched_lie_in_the_folder(self):
        words = self.packages._words()
        for name in ("Dir::Etc::sourcelist", "Dir::State::lists", "Dir::Cache"):
            self.assertTrue(any(word.startswith(f"{name}={self.packages.folder}") for word in words), name)

    def test_the_reason_is_the_line_of_the_error(self):
        self.assertEqual(fetch.reason_in("Reading..\nE: no such package\nmore\n"), "E: no such package")
        self.assertEqual(fetch.reason_in("one\ntwo\n"), "one")
        self.assertTrue(fetch.reason_in(""))

    def test_without_a_network_it_is_asked_once(self):
        with mock.patch.object(fetch, "release_of", return_value="bookworm"), \
                mock.patch.object(fetch.os.path, "exists", return_value=True), \
                mock.patch.object(fetch, "can_reach", return_value=False) as asked:
            for _ in range(3):
                with self.assertRaisesRegex(common.LeftOut, "network"):
                    self.packages.unpacked("some-package")
        self.assertEqual(asked.call_count, 1)

    def test_what_is_there_is_not_fetched_again(self):
        (self.packages.folder / "some-package_1_all.deb").touch()
        with mock.patch.object(fetch, "can_reach", side_effect=AssertionError), \
                mock.patch.object(common, "fault_of", return_value="") as unpacks:
            self.packages.unpacked("some-package")
        self.assertEqual(unpacks.call_args.args[0][:2], ["dpkg-deb", "-x"])


class LevelDB(unittest.TestCase):
    def test_two_classes_of_the_port_are_replaced(self):
        text = leveldb.patched(HEADER)
        self.assertNotIn("std::mutex", text)
        self.assertEqual(text.count('#include "aqs_port.h"'), 1)
        self.assertEqual(text.count("namespace leveldb {"), text.count("}  // namespace leveldb"))
        self.assertTrue(text.endswith(HEADER[HEADER.index("inline bool"):]))

    def test_another_port_is_not_patched(self):
        for text in ("", HEADER.replace("inline bool Snappy_Compress(", "other("), HEADER + HEADER):
            with self.assertRaisesRegex(ValueError, "not as the patch wants"):
                leveldb.patched(text)

    def test_tests_are_those_that_cmake_lists(self):
        text = 'leveldb_test("db/c_test.c")\n  leveldb_test("util/env_windows_test.cc")\nleveldb_test("db/db_test.cc")'
        self.assertEqual(leveldb.tests_in(text), ["db/c_test.c", "db/db_test.cc"])

    def test_the_library_has_no_tests(self):
        names = ("db/db_impl.cc", "db/db_test.cc", "util/testutil.cc", "util/env_windows.cc", "db/leveldbutil.cc")
        self.assertEqual([it for it in names if leveldb.is_of_library(it)], ["db/db_impl.cc"])

    def test_a_rate_is_of_all_threads(self):
        told = "Keys: 16 bytes\nfillrandom   :  4.000 micros/op; 27.9 MB/s\nreadrandom   :  8.000 micros/op; (1 of 2)\n"
        self.assertEqual(leveldb.rate_in(told, "fillrandom", 1), 250_000)
        self.assertEqual(leveldb.rate_in(told, "readrandom", 4), 500_000)
        self.assertIsNone(leveldb.rate_in(told, "readwhilewriting", 1))

    def test_the_table_has_the_best_of_each_and_their_ratio(self):
        cells = {("fillrandom", 4, "std"): [(100, 2048, 1), (200, 2048, 1), (150, 2048, 1)],
                 ("fillrandom", 4, "aqs"): [(190, 4096, 2), None, (50, 4096, 2), (120, 4096, 2)],
                 ("readrandom", 4, "std"): [None], ("readrandom", 4, "aqs"): [(1, 1, 1)]}
        lines = leveldb.table_of(cells)
        self.assertEqual(" ".join(lines[1].split()), "fillrandom 4 200 190 0.95 0.80 2.0 4.0 1.00 2.00")
        self.assertEqual(lines[2].split(), ["readrandom", "4", "failed"])

    def test_a_test_program_fails_if_it_fails_twice(self):
        for told, fault in ((["", "no"], ""), (["no", ""], ""), (["no", "still no"], "still no")):
            with mock.patch.object(common, "fault_of", side_effect=told), tempfile.TemporaryDirectory() as folder:
                self.assertEqual(leveldb.fault_in_test("program", folder), fault)

    def test_an_object_stands_that_is_newer_than_its_source_and_our_headers(self):
        with tempfile.TemporaryDirectory() as folder:
            tree, header = pathlib.Path(folder) / "tree", pathlib.Path(folder) / "aqs.h"
            built = leveldb.Tree(tree, pathlib.Path(folder) / "out", [], [])
            for path, time_ in ((tree / leveldb.PORT, 1), (tree / "db/it.cc", 2), (header, 3)):
                path.parent.mkdir(parents=True, exist_ok=True)
                path.touch()
                os.utime(path, (time_, time_))
            with mock.patch.object(leveldb, "HEADERS", (header,)):
                self.assertFalse(built.stands("db/it.cc"))
                for time_, stands in ((2, False), (4, True)):
                    built.object_of("db/it.cc").touch()
                    os.utime(built.object_of("db/it.cc"), (time_, time_))
                    self.assertEqual(built.stands("db/it.cc"), stands)

    @unittest.skipUnless(os.access(leveldb.TIME, os.X_OK), "GNU time is not installed")
    def test_memory_is_that_of_the_program_alone(self):
        ours = b"x" * (64 << 20)
        for status, rate in ((0, 250_000), (3, None)):
            with tempfile.TemporaryDirectory() as folder:
                program = pathlib.Path(folder) / "db_bench"
                program.write_text(f"#!/bin/sh\necho 'fillrandom : 4.0 micros/op;'\nexit {status}\n", encoding="utf-8")
                program.chmod(0o755)
                found = leveldb.bench_once(program, "fillrandom", 1, 10, folder)
            self.assertEqual(found and found[0], rate)
            self.assertTrue(found is None or 0 < found[1] * 1024 < len(ours))

    def test_cells_are_measured_by_turns(self):
        with mock.patch.object(leveldb, "bench_once", return_value=(1, 1, 1)) as once:
            cells = leveldb.measured({"std": "a", "aqs": "b"}, 10, 2, "/", (1,))
        self.assertEqual([call.args[0] for call in once.call_args_list], ["a", "b"] * 6)
        self.assertTrue(all(len(found) == 2 for found in cells.values()))


class CPython(unittest.TestCase):
    def test_classes_choose_the_tests(self):
        self.assertEqual(
            cpython.words_of("test_x", ("A", "B")), ["-m", "test.test_x.A.*", "-m", "test.test_x.B.*", "-v", "test_x"])
        self.assertEqual(cpython.words_of("test_x", ()), ["-v", "test_x"])

    def test_tests_are_counted(self):
        self.assertEqual(cpython.count_in("Ran 12 tests in 1s\n..\nRan 1 test in 2s\n"), 13)
        self.assertEqual(cpython.count_in("Ran no test"), 0)


class ParkingLot(unittest.TestCase):
    def setUp(self):
        [(self.name, module)] = parking_lot.modules_of_tests(TESTS)
        self.text = parking_lot.adapted(module)

    def test_modules_of_tests_are_found_whole(self):
        self.assertEqual(self.name, "tests")
        self.assertEqual(self.text.count("{"), self.text.count("}"))

    def test_use_alone_changes(self):
        self.assertIn("use aqs::{RwLock, RwLockUpgradableReadGuard, RwLockWriteGuard};", self.text)
        self.assertNotIn("crate::", self.text)

    def test_a_block_without_an_end_is_refused(self):
        with self.assertRaises(ValueError):
            parking_lot.modules_of_tests("#[cfg(test)]\nmod tests {\n")

    def test_results_are_counted(self):
        told = "test result: ok. 12 passed; 0 failed; 0 ignored\n..\ntest result: FAILED. 3 passed; 2 failed; 0\n"
        self.assertEqual(parking_lot.count_in(told), (15, 2))
        self.assertEqual(parking_lot.count_in("error: no"), (0, 0))


class Running(unittest.TestCase):
    """What can't be fetched is told in one line, and is no failure."""

    def setUp(self):
        self.tests = clients.check.Tests("/")
        self.packages = mock.Mock()

    def run_with(self, named, is_sample=False):
        with mock.patch.dict(clients.CLIENTS, named, clear=True):
            return told_by(clients.run, self.tests, self.packages, list(named), is_sample)[0]

    def test_clients_that_are_left_out_share_a_line(self):
        def refuses(*_):
            raise common.LeftOut("there is no network")
        told = self.run_with({"one": refuses, "two": lambda tests, *_: tests.count("it", True), "three": refuses})
        self.assertEqual(told, "ok: it\nleft out: one, three: there is no network\n")
        self.assertEqual((self.tests.passed, self.tests.failed), (1, 0))

    def test_a_sample_without_a_network_runs_nothing(self):
        self.packages.prepare.side_effect = common.LeftOut("there is no network")
        told = self.run_with({"one": mock.Mock(side_effect=AssertionError)}, is_sample=True)
        self.assertEqual(told, "left out: one: there is no network\n")

    def test_a_failure_is_counted(self):
        self.run_with({"one": lambda tests, *_: tests.count("it", False, "why")})
        self.assertEqual(self.tests.failed, 1)

    def test_other_words_are_refused(self):
        for words in (["no-such-client"], ["--sample", "no-such-client"]):
            with self.assertRaises(SystemExit):
                clients.main(words)


if __name__ == "__main__":
    unittest.main()
