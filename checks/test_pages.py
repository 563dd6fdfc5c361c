"""Tests that README and the pages for callers show what the sources have."""
import os
import unittest

import pages

TOP = os.path.dirname(os.path.dirname(os.path.realpath(__file__)))
AGAIN = "is not as the sources have it: checks/pages.py --write writes it anew"
SOURCE = ["impl Cup {", "    /// Fills it.", "    fn fill(&self) {", "        self.pour();", "    }", "}"]


def nowhere(_kind):
    """No file has any code."""
    return []


def somewhere(_kind):
    return [SOURCE]


class Blocks(unittest.TestCase):
    PAGE = "Text\n```rust\none\n```\n- item\n\n  ```antt\n  two\n\n    three\n  ```\n\n    four\n\n    five\nend\n"

    def test_are_fenced_or_indented(self):
        found = [(it.kind, it.lines) for it in pages.blocks(self.PAGE)]
        self.assertEqual(found, [("rust", ["one"]), ("antt", ["two", "", "  three"]), ("", ["four", "", "five"])])

    def test_a_list_within_a_list_is_no_block(self):
        self.assertEqual(pages.blocks("- one\n\n    - two\n    1. three\n"), [])

    def test_a_mark_stands_right_before_its_block(self):
        mark = "<!-- not checked: a drawing -->"
        page = f"{mark}\n\n```\none\n```\n\n```\ntwo\n```\n{mark}\ntext\n\n    three\n\ntext\n{mark}\n\n    four\n"
        self.assertEqual([it.is_marked for it in pages.blocks(page)], [True, False, False, True])

    def test_a_mark_says_why(self):
        self.assertFalse(pages.blocks("<!-- not checked: -->\n\n    one\n")[0].is_marked)


class Parts(unittest.TestCase):
    def test_code_is_cut_where_another_item_begins(self):
        code = "use cup;\n\nfn fill() {\n    one();\n\n    two();\n}\n"
        block = pages.blocks(f"Text\n```rust\n{code}```\n")[0]
        wanted = [["use cup;"], ["fn fill() {", "    one();", "", "    two();", "}"]]
        self.assertEqual(pages.parts(block), wanted)

    def test_a_text_is_cut_at_an_empty_line_and_at_dots(self):
        block = pages.blocks("```\none\ntwo\n...\nthree\n\nfour\n```\n")[0]
        self.assertEqual(pages.parts(block), [["one", "two"], ["three"], ["four"]])


class Held(unittest.TestCase):
    def held(self, page, text, sources=nowhere):
        return pages.strays_of(page, text, sources)

    def test_code_that_no_file_has_is_a_stray_unless_it_is_marked(self):
        for kind in ("rust", "antt", "c", "cpp", "java", "python", ""):
            text = f"```{kind}\none\n```\n"
            self.assertEqual(self.held("page.md", text)[0], 1)
            self.assertIn("one", self.held("page.md", text)[1][0])
            self.assertEqual(self.held("page.md", f"<!-- not checked: so -->\n{text}"), (1, []))

    def test_code_in_a_list_is_held_too(self):
        good = "- item\n\n  ```rust\n  fn fill(&self) {\n      self.pour();\n  }\n  ```\n"
        self.assertEqual(self.held("page.md", good, somewhere), (1, []))
        self.assertEqual(len(self.held("page.md", good.replace("pour", "spill"), somewhere)[1]), 1)

    def test_commands_stand_in_pages_that_are_run(self):
        for kind in ("sh", "text"):
            text = f"```{kind}\ntrue\n```\n"
            self.assertEqual(self.held("docs/FIRST_HOUR.md", text), (1, []))
            self.assertEqual(len(self.held("docs/EVIDENCE.md", text)[1]), 1)
            self.assertEqual(self.held("docs/EVIDENCE.md", f"<!-- not checked: so -->\n{text}"), (1, []))

    def test_a_language_that_no_check_knows_is_a_stray(self):
        self.assertEqual(len(self.held("page.md", "```perl\n1;\n```\n")[1]), 1)

    def test_each_page_that_is_run_has_its_check(self):
        for page, check in pages.RUN.items():
            with open(f"{TOP}/checks/{check}", encoding="utf-8") as it:
                self.assertIn(os.path.basename(page), it.read())

    def test_a_text_of_a_case_is_held(self):
        sources = pages.sources_of(TOP)
        text = "```\naqs-history 1 lock fair seats 1 conditions 0 cap 16\nend 0 0\n```\n"
        self.assertEqual(self.held("page.md", text, sources), (1, []))
        self.assertEqual(len(self.held("page.md", text.replace("end 0 0", "end 0 1"), sources)[1]), 1)


class Stands(unittest.TestCase):
    def test_a_method_may_lose_its_indentation(self):
        self.assertTrue(pages.stands(["fn fill(&self) {", "    self.pour();", "}"], SOURCE))

    def test_another_line_stands_nowhere(self):
        self.assertFalse(pages.stands(["fn fill(&self) {", "    self.spill();", "}"], SOURCE))

    def test_a_line_indented_otherwise_stands_nowhere(self):
        self.assertFalse(pages.stands(["fn fill(&self) {", "self.pour();", "}"], SOURCE))


class Functions(unittest.TestCase):
    def test_those_of_a_type_and_of_a_trait_are_public(self):
        text = "impl<T> Cup<T> {\n    pub fn fill(&self) {}\n\n    pub(crate) fn tilt(&self) {}\n}\n"
        text += "\npub trait Vessel {\n    fn empty(&self);\n}\n\npub fn pour() {}\n"
        self.assertEqual(pages.public_functions(text), ["Cup::fill", "Vessel::empty", "pour"])


class Links(unittest.TestCase):
    PAGE = f"{TOP}/docs/FIRST_HOUR.md"

    def test_those_to_a_file_and_to_a_heading_are_found(self):
        text = "[a](AQS.md) [b](../README.md#what-is-proved) [c](#6-what-the-contract-says) [d](https://no.example/where)"
        self.assertEqual([*pages.dead_links(self.PAGE, text)], [])

    def test_those_that_lead_nowhere_are_said(self):
        text = "[a](NOWHERE.md) [b](../README.md#what-is-nowhere) [c](#7-loops)"
        self.assertEqual(len([*pages.dead_links(self.PAGE, text)]), 3)


class Rows(unittest.TestCase):
    def test_a_row_without_a_function_of_its_file_is_a_stray(self):
        page = f"{TOP}/crates/script/CALLING.md"
        row = pages.row_of(page, "src/worker.rt")
        self.assertIn("`Worker::repeat`", row)
        self.assertEqual(pages.strays_of(page, f"{row}\n", nowhere), (1, []))
        spoilt = row.replace("`Worker::repeat`, ", "")
        self.assertEqual(pages.strays_of(page, f"{spoilt}\n", nowhere), (1, [f"the row of src/worker.rt {AGAIN}"]))

    def test_a_row_of_no_file_and_a_quoted_clause_are_strays(self):
        page = f"{TOP}/crates/script/CALLING.md"
        row = "| [src/cup.rt](src/cup.rt) | `fill` |"
        self.assertEqual(pages.strays_of(page, f"{row}\n", nowhere), (1, [f"the row of src/cup.rt {AGAIN}"]))
        _, said = pages.strays_of("docs/FIRST_HOUR.md", "```text\nfn fill()\n  ensures: full\n```\n", nowhere)
        self.assertEqual(said, ["quotes a clause: ensures"])


class References(unittest.TestCase):
    PAGE = f"{TOP}/crates/guarded/CALLING.md"

    def test_a_reference_that_is_not_as_the_sources_is_a_stray(self):
        made = pages.made_of(self.PAGE, "TryLockFault")
        text = f"{pages.OPENS % 'TryLockFault'}\n{made}{pages.ENDS}\n"
        self.assertEqual(pages.strays_of(self.PAGE, text, nowhere), (1, []))
        spoilt = text.replace("Missed", "Misses")
        self.assertEqual(pages.strays_of(self.PAGE, spoilt, nowhere), (1, [f"the reference of TryLockFault {AGAIN}"]))

    def test_a_reference_has_the_contracts_of_all_files(self):
        made = pages.made_of(self.PAGE, "Mutex Guard")
        for it in ("Mutex::open(alloc, value, ", "Mutex::lock(pass, lock, rt, parking) -> ", "Guard::wait(self, ", "Guard::drop("):
            self.assertIn(f"- `{it}", made)

    def test_a_clause_of_several_calls_is_said_once(self):
        made = pages.made_of(self.PAGE, "Mutex Guard")
        self.assertEqual(made.count("requires can { CanLock lock.now (P.seats parking.now) pass.old }"), 1)

    def test_a_clause_is_told_by_its_name_and_what_it_cites_if_it_is_long(self):
        long = "ensures kept { IfOk result (λ guard. Kept I.invariant guard.slot × IsSame guard.pass) }"
        self.assertEqual(pages.told(long), "`kept: IfOk,Kept,IsSame`")
        self.assertEqual(pages.told("requires { 1 ≤ seats }"), "`requires { 1 ≤ seats }`")

    def test_a_call_names_what_it_takes_and_what_it_returns(self):
        head = "pub fn lock<'a, F: Fn(&T) -> bool>(pass: &'a mut Pass, pair: (u8, Vec<u8>)) -> Result<Guard<'a, T>, Fault>"
        self.assertEqual(pages.call_of(head), "lock(pass, pair) -> Result<Guard<..>, Fault>")
        self.assertEqual(pages.call_of("fn pour(&mut self);"), "pour(self)")

    def test_a_comment_is_told_by_its_first_sentence(self):
        self.assertEqual(pages.first_sentence("Fills it,\nas in `a.b`. Then it is full.\n\nMore."), "Fills it, as in `a.b`.")

    def test_a_name_that_no_source_has_is_a_stray(self):
        self.assertIsNone(pages.made_of(self.PAGE, "Mutex Cup"))
        text = f"{pages.OPENS % 'Cup'}\n{pages.ENDS}\n"
        self.assertEqual(pages.strays_of(self.PAGE, text, nowhere), (1, [f"the reference of Cup {AGAIN}"]))

    def test_each_name_that_the_facade_passes_on_is_found(self):
        found = pages.passed_on(TOP)
        self.assertIn(("guarded", "Mutex"), found)
        self.assertIn(("history", "Fault"), found)
        self.assertEqual([*pages.missing(TOP)], [])


class Pages(unittest.TestCase):
    def test_readme_and_the_documents_are_pages(self):
        found = pages.pages_of(TOP)
        for page in ("README.md", "docs/PROMISES.md", "crates/monitor/CALLING.md", "bindings/README.md"):
            self.assertIn(f"{TOP}/{page}", found)

    def test_each_caller_and_row_is_as_the_sources(self):
        count, strays = pages.checked(TOP)
        self.assertLess(10, count)
        self.assertEqual(strays, [])


if __name__ == "__main__":
    unittest.main()
