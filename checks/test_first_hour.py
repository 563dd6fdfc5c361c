"""Tests that the steps of a page are done as they stand there, and that a step which goes wrong counts as failed."""
import os
import tempfile
import unittest

import first_hour

PAGE = """\
# A page

```sh
mkdir mine
echo one > mine/list
```

Save this as `mine/src/main.rt`:

```rust
fn main() {}
```

It prints `mine/list`, as here.

```rust
fn shown_only() {}
```

```sh
cat mine/list mine/src/main.rt
```

```text
one
fn main() {}
```

```sh
(cd mine && rt check)
```
"""


def followed(page):
    with tempfile.TemporaryDirectory() as folder:
        return first_hour.followed(first_hour.steps_of(page), folder)


class Steps(unittest.TestCase):
    def test_blocks_are_files_commands_and_what_they_print(self):
        wanted = [
            ("run", "mkdir mine", []),
            ("run", "echo one > mine/list", []),
            ("write", "mine/src/main.rt", "fn main() {}\n"),
            ("run", "cat mine/list mine/src/main.rt", ["one", "fn main() {}"]),
        ]
        self.assertEqual(first_hour.steps_of(PAGE), wanted)

    def test_a_proof_is_made_only_when_asked_for(self):
        steps = first_hour.steps_of(PAGE, proves=True)
        self.assertEqual(steps[-1], ("run", "(cd mine && rt check)", []))

    def test_the_page_has_a_program_and_runs_it(self):
        steps = first_hour.steps_of(first_hour.PAGE.read_text(encoding="utf-8"))
        self.assertIn("crates/mine/src/main.rt", [it[1] for it in steps if it[0] == "write"])
        tries = [it for it in steps if it[0] == "run" and "rt try" in it[1]]
        self.assertTrue(tries and tries[0][2])


class Followed(unittest.TestCase):
    def test_what_is_as_the_page_says_passes(self):
        self.assertEqual(followed(PAGE), (3, 0))

    def test_a_command_that_fails_ends_it(self):
        self.assertEqual(followed(PAGE.replace("mkdir mine", "mkdir mine/other")), (0, 1))

    def test_another_output_fails(self):
        self.assertEqual(followed(PAGE.replace("echo one", "echo two")), (2, 1))

    def test_a_file_is_written_below_the_folder(self):
        with tempfile.TemporaryDirectory() as folder:
            first_hour.followed([("write", "a/b/c.rt", "text\n")], folder)
            self.assertTrue(os.path.isfile(f"{folder}/a/b/c.rt"))


if __name__ == "__main__":
    unittest.main()
