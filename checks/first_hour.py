#!/usr/bin/env python3
"""Does what docs/FIRST_HOUR.md says, by the letter: checks/first_hour.py [--prove]      at the top of the repository

It copies the tree without what git and earlier checks keep, and goes through the page from top to bottom.

- A block ```rust or ```antt after a path and a colon, as in `crates/mine/src/main.rt`: , is written to that file.
- Each line of a block ```sh is a command. It must end with status 0. `rt check` is left out, since on a machine
  that has proved nothing yet it proves all libraries below first; --prove makes it too.
- Each line of a block ```text is one that the command before it must print.

The last line is 'N passed, M failed', where a command counts as one.
"""
import pathlib
import re
import subprocess
import sys
import tempfile
import time

from gate import copied

PAGE = pathlib.Path(__file__).resolve().parent.parent / "docs" / "FIRST_HOUR.md"
BLOCK = re.compile(r"(?ms)(?:`([\w./+-]+)`:\n+)?^```(\w+)\n(.*?)^```$")
PROOF = re.compile(r"\brt check\b")
MINUTES = 10


def steps_of(page, proves=False):
    """Returns what the page says to do: ("write", path, text), and ("run", command, lines that it must print)."""
    steps = []
    for path, kind, text in BLOCK.findall(page):
        if kind in ("rust", "antt") and path:
            steps.append(("write", path, text))
        elif kind == "sh":
            steps += [("run", it, []) for it in text.splitlines() if it.strip()]
        elif kind == "text" and steps and steps[-1][0] == "run":
            steps[-1][2].extend(text.splitlines())
    return [it for it in steps if proves or it[0] != "run" or not PROOF.search(it[1])]


def failure(command, wanted, folder):
    """Returns why a command failed, with what it printed, or None."""
    try:
        ran = subprocess.run(
            ["bash", "-c", command], cwd=folder, stdin=subprocess.DEVNULL, stdout=subprocess.PIPE,
            stderr=subprocess.STDOUT, text=True, errors="replace", timeout=60 * MINUTES,
        )
    except subprocess.TimeoutExpired:
        return f"it did not end within {MINUTES} minutes"
    if ran.returncode:
        return f"it ended with status {ran.returncode}\n{ran.stdout}"
    lacking = [it for it in wanted if it not in ran.stdout.splitlines()]
    return f"it did not print {lacking[0]!r}\n{ran.stdout}" if lacking else None


def followed(steps, folder):
    """Does the steps in a folder, and returns how many commands passed and failed. It stops at the first that fails."""
    passed = 0
    for kind, what, more in steps:
        if kind == "write":
            path = pathlib.Path(folder) / what
            path.parent.mkdir(parents=True, exist_ok=True)
            path.write_text(more, encoding="utf-8")
            continue
        begun = time.monotonic()
        why = failure(what, more, folder)
        print(f"{what}: {time.monotonic() - begun:.0f} s", flush=True)
        if why:
            print(f"checks: {what}: {why}", flush=True)
            return passed, 1
        passed += 1
    return passed, 0


def main(words):
    if words not in ([], ["--prove"]):
        sys.exit(__doc__)
    steps = steps_of(PAGE.read_text(encoding="utf-8"), words == ["--prove"])
    with tempfile.TemporaryDirectory(prefix="first-hour-") as room:
        passed, failed = followed(steps, copied(f"{room}/tree"))
    if not passed:  # a page without commands shows nothing
        failed = 1
    print(f"{passed} passed, {failed} failed")
    return 1 if failed else 0


if __name__ == "__main__":
    sys.exit(main(sys.argv[1:]))
