"""A header that differs from the exports in any way is found, and the one in bindings/ doesn't differ."""
import pathlib
import shutil
import subprocess
import tempfile
import unittest

import border

# What is planted in aqs_core.h, and what the check says of it.
PLANTED = (
    ("a function of another name", "void aqs_drop(", "void aqs_free(", "aqs_free"),
    ("a parameter too many", "aqs_drop(aqs_pass_t *pass)", "aqs_drop(aqs_pass_t *pass, int n)", "aqs_drop"),
    ("a wider parameter", "uint8_t woke", "uint32_t woke", "aqs_go_on"),
    ("another result", "uint8_t aqs_trim_now", "int aqs_trim_now", "aqs_trim_now"),
    ("a function too many", "void aqs_drop(", "void aqs_more(void);\nvoid aqs_drop(", "aqs_more"),
    ("a narrower field", "uint64_t until", "uint32_t until", "aqs_answer_t"),
    ("fields in another order", "uint16_t seat, wakes", "uint16_t wakes, seat", "aqs_answer_t.seat"),
    ("a field of another type", "bool has_wakes, again", "uint8_t has_wakes; bool again", "has_wakes"),
    ("a field too many", "uint64_t live;", "uint64_t live, more;", "aqs_pass_t"),
    ("a struct too many", "#define AQS_NO_PASS", "typedef struct { int n; } aqs_more_t;\n#define AQS_NO_PASS",
     "aqs_more_t"),
    ("constants in another order", "AQS_KIND_LOCK, AQS_KIND_READ_WRITE", "AQS_KIND_READ_WRITE, AQS_KIND_LOCK",
     "AQS_KIND_LOCK"),
    ("another number", "AQS_CORE_NOT_EMPTY = 254", "AQS_CORE_NOT_EMPTY = 253", "AQS_CORE_NOT_EMPTY"),
    ("a constant too few", ", AQS_WORD_DRAINED", "", "AQS_WORD_DRAINED"),
    ("a constant too many", "AQS_END_SIGNALLED }", "AQS_END_SIGNALLED, AQS_END_MORE }", "AQS_END_MORE"),
    ("faults from 0 on", "AQS_FAULT_NOT_OWNER = 1", "AQS_FAULT_NOT_OWNER", "AQS_FAULT_NOT_OWNER"),
)


class Headers(unittest.TestCase):
    def setUp(self):
        room = tempfile.TemporaryDirectory()
        self.addCleanup(room.cleanup)
        self.room = pathlib.Path(room.name)
        for name in ("aqs.h", "aqs_core.h"):
            shutil.copy(border.HEADERS / name, self.room)

    def plant(self, name, old, new):
        file = self.room / name
        text = file.read_text()
        self.assertEqual(text.count(old), 1, old)
        file.write_text(text.replace(old, new))

    def test_those_of_the_repository_agree(self):
        self.assertEqual(border.differences(), [])
        self.assertEqual(border.rust_differences(), [])
        self.assertEqual(border.copies_differ(), [])

    def test_each_planted_difference_is_found(self):
        for what, old, new, named in PLANTED:
            with self.subTest(what):
                shutil.copy(border.HEADERS / "aqs_core.h", self.room)
                self.plant("aqs_core.h", old, new)
                found = border.differences(include=self.room)
                self.assertTrue(any(named in it for it in found), found)

    def test_the_number_of_threads_is_compared(self):
        self.plant("aqs.h", "#define AQS_THREADS 256", "#define AQS_THREADS 512")
        self.assertIn("AQS_THREADS", "\n".join(border.differences(include=self.room)))

    def test_what_rust_declares_is_compared(self):
        self.plant("aqs.h", "aqs_sem_release(aqs_sem_t *semaphore, uint32_t n)",
                   "aqs_sem_release(aqs_sem_t *semaphore, uint64_t n)")
        self.assertIn("aqs_sem_release", "\n".join(border.rust_differences(include=self.room)))


    def test_numbers_of_other_languages_are_compared(self):
        self.plant("aqs.h", "    AQS_NO_SPACE,", "    AQS_MORE,\n    AQS_NO_SPACE,")
        found = "\n".join(border.copies_differ(include=self.room))
        self.assertIn("object.rs", found)
        self.assertIn("_library.py", found)
        self.plant("aqs.h", "    AQS_TIMED_OUT,", "    AQS_LESS,\n    AQS_TIMED_OUT,")
        found = "\n".join(border.copies_differ(include=self.room))
        self.assertIn("error.rs", found)
        self.assertIn("Native.java", found)


class Sources(unittest.TestCase):
    def test_all_is_read(self):
        read = border.Border(border.ROOT / "crates")
        self.assertEqual(len(read.structs), 6)
        self.assertEqual(len(read.structs["AqsAnswer"]), 15)
        for family in [*border.FAMILIES.values(), "AQS_IS_"]:
            self.assertTrue(any(name.startswith(family) for name in read.numbers), family)


class Names(unittest.TestCase):
    """What a library shows beside the names of aqs.h."""

    def shown(self, source):
        with tempfile.TemporaryDirectory() as room:
            library = pathlib.Path(f"{room}/it.a")
            words = ["cc", "-x", "c", "-c", "-", "-o", f"{room}/it.o"]
            subprocess.run(words, input=source, text=True, check=True)
            subprocess.run(["ar", "rcs", library, f"{room}/it.o"], check=True)
            return border.inner_names(library)

    def test_names_of_aqs_alone(self):
        self.assertEqual(self.shown("int aqs_lock_lock; static int rattle_alloc;"), [])

    def test_another_name(self):
        self.assertEqual(self.shown("int aqs_lock_lock; int rattle_alloc;"), ["it.a shows rattle_alloc"])

    def test_no_name(self):
        self.assertEqual(self.shown("static int rattle_alloc;"), ["it.a shows no names"])


if __name__ == "__main__":
    unittest.main()
