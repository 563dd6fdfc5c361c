#!/usr/bin/env python3
"""Runs every example and every case through the program: checks/examples.py PROGRAM [FOLDER].

Each pair NAME.steps and NAME.answers is replayed, and each pair NAME.history and NAME.answers audited, from the file.
Cut after any byte but the last, each of them is cut short. The history text of each steps text is legal, and a trim
after each step changes no answer. Each NAME.svg is the picture of NAME.history, or of the history that a replay of
NAME.steps gives, also in the folders of bindings/ that have pictures. With names each history is drawn as `drawn.py`
says. The explanations and summaries of docs/AQS.md, and the examples of `aqs manual`, are what the program writes. The
objects of `--json` say what the lines say (`objects.py`). Each NAME.script is run: the lines outside its histories are
as NAME.answers has them, where * stands for a number that depends on the schedule, and `aqs audit` says the same of
each history. Each NAME.late is a script that never ends, and is run with --timeout 2000. Texts of an enemy follow, the
cases of cases/ (`cases.py`), long random lists of steps (`crowds.py`), and the times of common lines
(`common_lines.py`).
Compared are the exit status, standard output and standard error. The last line is 'N passed, M failed', and
the status is 0 only if nothing failed and something passed.
"""

import concurrent.futures
import functools
import json
import os
import pathlib
import re
import resource
import subprocess
import sys
import tempfile
import time

import cases
import common_lines
import crowds
import drawn
import objects
from program import Program

SECONDS = 60

INPUTS = (".steps", ".history", ".script", ".late")
# Other folders with pictures, each beside its history.
PICTURED = ("bindings/c/examples", "bindings/pthread/pictures")


def run(program, words, given=b""):
    done = subprocess.run([program, *map(str, words)], input=given, capture_output=True, timeout=SECONDS)
    return done.returncode, done.stdout, done.stderr


def pairs(folder):
    """The words, and what the program is to answer, for each file of the folder."""
    inputs = sorted(folder.glob("*.steps")) + sorted(folder.glob("*.history"))
    for file in inputs:
        told = file.with_suffix(".answers")
        if not told.exists():
            continue
        answers = told.read_bytes()
        if file.suffix == ".steps":
            yield ["replay", file], (0, answers, b"")
        else:
            status = 1 if answers.startswith(b"not legal at ") else 0
            yield ["audit", file], (status, answers, b"")


def cuts(program, folder):
    """A steps text or a history that lacks its end is cut short, after whichever byte, and nothing is written."""
    short, running = (3, b"", b"aqs: cut short\n"), Program(program)
    for (command, file), _ in pairs(folder):
        text = file.read_bytes()
        good = all(running.answer([command], text[:length]) == short for length in range(len(text)))
        yield f"{command} {file.name}, cut after each byte", good
    running.close()


def unpaired(folder):
    """Files that are neither an input with its answers, nor answers with their input."""
    for file in sorted(folder.iterdir()):
        read = file.suffix in INPUTS and file.with_suffix(".answers").exists()
        told = file.suffix in (".answers", ".svg") and any(file.with_suffix(s).exists() for s in INPUTS)
        if not (read or told):
            yield file


def parts(text):
    """The lines of a run text outside its histories, and for each history its text and its audit text."""
    outside, audits, is_history, is_audit = [], [], False, False
    for line in text.decode().splitlines(keepends=True):
        if line.startswith("aqs-history "):
            audits.append(["", ""])
            is_history = True
        is_audit = is_audit and not line.startswith("shares ")
        if is_history:
            audits[-1][0] += line
        else:
            outside.append(line.rstrip("\n"))
        if is_audit:
            audits[-1][1] += line
        if is_history and line.startswith("end "):
            is_history, is_audit = False, True
    return outside, audits


def is_told(line, told):
    """Whether a line is as it was told, where each * stands for a number."""
    return re.fullmatch(re.escape(told).replace(r"\*", r"-?\d+"), line) is not None


def runs(program, folder, scratch):
    """Each script is run: its lines outside histories are as told, and each history's audit says the same."""
    for file in sorted(folder.glob("*.script")):
        status, text, error = run(program, ["run", file])
        outside, audits = parts(text)
        told = file.with_suffix(".answers").read_text().splitlines()
        good = len(outside) == len(told) and all(map(is_told, outside, told))
        yield f"run {file.name}", (status, error, good) == (0, b"", True)
        kept = scratch / "run.history"
        for number, (history, audit) in enumerate(audits):
            kept.write_text(history)
            is_same = run(program, ["audit", kept]) == (0, audit.encode(), b"")
            yield f"run {file.name}, audit of object {number}", is_same


def late_runs(program, folder):
    """A script that never ends is told as its threads stand."""
    for file in sorted(folder.glob("*.late")):
        told = run(program, ["run", "--timeout", "2000", file])
        yield f"run --timeout 2000 {file.name}", told == (1, file.with_suffix(".answers").read_bytes(), b"")


def runs_in_time(program):
    """A run that ends in time is told at once, and not when its time is up."""
    words = [program, "run", "--timeout", "600000"]
    several = [subprocess.Popen(words, stdin=subprocess.PIPE, stdout=subprocess.PIPE) for _ in range(32)]
    for child in several:
        child.stdin.write(ONE_THREAD)
        child.stdin.close()
    late = []
    for child in several:
        try:
            child.wait(timeout=SECONDS)
        except subprocess.TimeoutExpired:
            late.append(child)
            child.kill()
            child.wait()
        child.stdout.close()
    yield "runs that end in time are told at once", late == []


def round_trips(program, folder, scratch):
    """The history text of each steps text is legal."""
    for file in sorted(folder.glob("*.steps")):
        status, history, error = run(program, ["replay", file, "--history"])
        kept = scratch / (file.stem + ".history")
        kept.write_bytes(history)
        verdict = run(program, ["audit", kept])
        good = (status, error) == (0, b"") and verdict[0] == 0 and verdict[1].startswith(b"legal\n")
        yield f"replay {file.name} --history, audit", good and verdict[2] == b""


def pictures(program, folder):
    """Each picture is what the program draws of its history."""
    for file in sorted(folder.glob("*.svg")):
        kept = file.with_suffix(".history")
        if kept.exists():
            history = kept.read_bytes()
        else:
            history = run(program, ["replay", file.with_suffix(".steps"), "--history"])[1]
        status = 1 if b">not legal at entry " in file.read_bytes() else 0
        drawn = run(program, ["draw"], history)
        yield f"draw {file.name}", history != b"" and drawn == (status, file.read_bytes(), b"")


def named_pictures(program, folder, scratch):
    """A picture of each history with names, those of half of its seats and conditions."""
    given = scratch / "given.names"
    names = {("seat", seat): f"{seat}<&>{'x' * (seat % 9)}" for seat in range(0, 256, 2)}
    names.update({("condition", at): f"c'{at}\"" for at in range(0, 16, 2)})
    lines = [f"{'condition ' * (kind == 'condition')}{number} {name}\n" for (kind, number), name in names.items()]
    given.write_text("".join(sorted(lines)))
    yield "the names that are given", drawn.names_of(given.read_bytes()) == names
    for file in sorted(folder.glob("*.steps")):
        history = run(program, ["replay", file, "--history"])[1]
        picture = run(program, ["draw", "--names", given], history)
        yield f"draw --names of {file.name}", picture[::2] == (0, b"") and drawn.is_drawn(picture[1], history, names)


def trimmed(program, folder):
    """A trim after each step changes no answer, and folds as many entries as the step made."""
    for file in sorted(folder.glob("*.steps")):
        lines = re.sub(r"cap \d+", "cap 1000000", file.read_text(), count=1).splitlines()
        if not lines[0].startswith("aqs-steps 1 "):
            continue
        status, replay, error = run(program, ["replay"], "\n".join([*lines, ""]).encode())
        lines[0] = lines[0].replace(" 1 ", " 2 ", 1)
        trims = [line for step in lines[1:-1] for line in (step, "trim")]
        text = "\n".join([lines[0], *trims, f"end {len(trims)}", ""])
        wanted = replay.decode().replace(" 1 ", " 2 ", 1).splitlines(keepends=True)
        folds = ["- trim 0\n" if line.startswith("- ") else "- trim 1\n" for line in wanted[1:-1]]
        wanted[1:-1] = [line for pair in zip(wanted[1:-1], folds) for line in pair]
        answer = run(program, ["replay"], text.encode())
        good = (status, error) == (0, b"") and answer == (0, "".join(wanted).encode(), b"")
        yield f"replay {file.name} with a trim after each step", good


def shown(program, folder):
    """The explanations, summaries and objects that docs/AQS.md shows are what the program writes of those files."""
    page = (folder.parent / "docs" / "AQS.md").read_text()
    for words, told in re.findall(r"`aqs ((?:explain|summary|audit --json) [^`]+)`[^`]*```\n(.*?)```", page, re.S):
        done = subprocess.run([program, *words.split()], cwd=folder.parent, capture_output=True, timeout=SECONDS)
        if "--json" in words:
            yield words, json.loads(done.stdout) == json.loads(told) and done.stderr == b""
            continue
        status = 1 if told.startswith("not legal") else 0
        yield words, (done.returncode, done.stdout, done.stderr) == (status, told.encode(), b"")


def manuals(program):
    """The examples of the manual's pages are what the program writes."""
    for name in ("replay", "audit", "explain", "summary", "run"):
        page = run(program, ["manual", name])[1].decode()
        found = re.findall(r"From the text\n\n(.*?\n)\nit writes\n\n((?:  [^\n]*\n)*)", page, re.S)
        yield f"manual {name} has an example", found != []
        for parts in found:
            given, told = (re.sub(r"(?m)^  ", "", part).encode() for part in parts)
            status = 1 if told.startswith((b"not legal", b"wrong at")) else 0
            yield f"an example of manual {name}", run(program, [name], given) == (status, told, b"")


# The options of each command.
OPTIONS = {
    "replay": "--history",
    "audit": "--json",
    "explain": "--at K --json",
    "summary": "--json",
    "draw": "--page --names F --from A --to B",
    "run": "--timeout M --object N --dir D --unrecorded",
}


def manual_options(program, scratch):
    """The page of a command tells its options, and the program takes these and no others."""
    option = re.compile(r"--\w+(?: [A-Z]\b)?")
    every = {each for several in OPTIONS.values() for each in option.findall(several)}
    for name, several in OPTIONS.items():
        own = [*option.findall(several), "--output F"]
        page = run(program, ["manual", name])[1].decode()
        first = " ".join(["aqs", name, *(f"[{each}]" for each in own), "[FILE]\n\n"])
        yield f"the first line of manual {name}", page.startswith(first)
        yield f"the options of manual {name}", re.findall(rf"(?m)^  ({option.pattern})  ", page) == own
        for each in [*sorted(every), "--output F"]:
            words = [name, each.split()[0], *([scratch / "none" / "such"] if " " in each else [])]
            is_usage = run(program, words) == (2, b"", b"aqs: usage\n")
            yield f"{name} {each}", is_usage == (each not in own)


def named_files(program, folder):
    """A file that is named is read in place of standard input."""
    steps, wrong = folder / "acquire_and_give.steps", folder / "taken_past_the_line.history"
    answers = (0, steps.with_suffix(".answers").read_bytes(), b"")
    yield "replay of a file beside an input", run(program, ["replay", steps], wrong.read_bytes()) == answers
    answers = (1, wrong.with_suffix(".answers").read_bytes(), b"")
    yield "audit of a file beside an input", run(program, ["audit", wrong], steps.read_bytes()) == answers


ONE_THREAD = b"""{"objects": [["a", "lock fair seats 1 conditions 0 cap 16"], ["-b", "latch seats 1 count 2 cap 16"]],
 "threads": [{"repeat": 1, "calls": ["a acquire x 1", "-b give s 1", "-b trim"]}]}"""
NOT_LEGAL = b"aqs-history 1 lock fair seats 1 conditions 0 cap 16\n0 0 gave x 1\nend 1 1\n"
BAD_DIR = (2, b"", b"aqs: bad --dir\n")
WRITE_FAILED = (4, b"", b"aqs: write failed\n")


def held(folder):
    """The files of a folder, and what they have."""
    return {file.name: file.read_bytes() for file in folder.iterdir() if file.is_file()}


def left_histories(program, scratch):
    """With --dir a run leaves the history of each object in a folder, and answers as without."""
    folder, whole, kept = scratch / "histories", run(program, ["run"], ONE_THREAD), scratch / "kept"
    folder.mkdir()
    yield "a run with --dir answers as without", run(program, ["run", "--dir", folder], ONE_THREAD) == whole
    yield "a run leaves a file for each object", sorted(held(folder)) == ["-b.history", "a.history"]
    for name, history in held(folder).items():
        told = run(program, ["run", f"--object={name.removesuffix('.history')}"], ONE_THREAD)
        yield f"{name} is the history of the object", told == (0, history, b"") and history in whole[1]
        yield f"{name} is legal", run(program, ["audit", folder / name])[0] == 0
        told = run(program, ["run", f"--object={name.removesuffix('.history')}", "-o", kept], ONE_THREAD)
        yield f"the history of {name} goes to a file", told == (0, b"", b"") and kept.read_bytes() == history
    before = held(folder)
    yield "no file is overwritten", run(program, ["run", "--dir", folder], ONE_THREAD) == BAD_DIR
    yield "all files are as before", held(folder) == before
    for file in folder.iterdir():
        file.unlink()
    refused = ONE_THREAD.replace(b'"-b trim"', b'"-b trim", "-b drain"')
    told = run(program, ["run", "--unrecorded", "--dir", folder, "-o", kept], refused)
    listed = whole[1].replace(b"unrecorded 0\n", b"unrecorded 1\nthread 0 call 3 WrongMode -b drain\n")
    yield "a file, a folder and a list", told == (0, b"", b"") and kept.read_bytes() == listed
    yield "the histories are as without the list", held(folder) == before
    for file in folder.iterdir():
        file.unlink()
    told = run(program, ["run", "--object=a", "--dir", folder, "-o", folder / "a"], ONE_THREAD)
    yield "a file, a folder and an object", told == (0, b"", b"")
    yield "the file has the object's history", held(folder) == {**before, "a": before["a.history"]}


def with_small_files(program, words, given):
    """Runs a program whose files may have only 16 bytes, as on a disk that is nearly full. Python ignores the signal of
    a write beyond that, and so does the program."""
    limit = functools.partial(resource.setrlimit, resource.RLIMIT_FSIZE, (16, 16))
    done = subprocess.run(
        [program, *words], input=given, capture_output=True, timeout=SECONDS, restore_signals=False, preexec_fn=limit
    )
    return done.returncode, done.stdout, done.stderr


def unleft_histories(program, scratch):
    """After a fault a run with --dir leaves nothing, and what was there stays."""
    folder, elsewhere = scratch / "unleft", scratch / "elsewhere"
    folder.mkdir()
    words = ["run", "--dir", folder]
    yield "a file in no folder", run(program, [*words, "-o", scratch / "none" / "out"], ONE_THREAD) == WRITE_FAILED
    yield "a full disk", run(program, [*words, "-o", "/dev/full"], ONE_THREAD) == WRITE_FAILED
    with open("/dev/full", "wb") as full:
        done = subprocess.run([program, *words], input=ONE_THREAD, stdout=full, stderr=subprocess.PIPE, timeout=SECONDS)
    yield "a full standard output", (done.returncode, done.stderr) == (4, b"aqs: write failed\n")
    yield "a history that doesn't fit", with_small_files(program, words, ONE_THREAD) == WRITE_FAILED
    yield "a wrong name", run(program, [*words, "--object=c"], ONE_THREAD) == (2, b"", b"aqs: bad --object\n")
    yield "a wrong script", run(program, words, b"[]") == (3, b"", b"aqs: bad top\n")
    yield "a folder as a script", run(program, [*words, folder]) == (4, b"", b"aqs: read failed\n")
    yield "nothing is left", list(folder.iterdir()) == []
    (folder / "a.history").symlink_to(elsewhere)
    yield "no link is followed", run(program, words, ONE_THREAD) == BAD_DIR and not elsewhere.exists()
    (folder / "a.history").unlink()
    (folder / "-b.history").mkdir()
    yield "a folder in the place of a file", run(program, words, ONE_THREAD) == BAD_DIR
    yield "nothing is left beside it", [file.name for file in folder.iterdir()] == ["-b.history"]


def bytes_of(file):
    """What a file has. One that is not there has nothing."""
    return file.read_bytes() if file.exists() else b""


def waiting(milliseconds):
    """A script of two objects whose run takes so long."""
    objects = [["a", "semaphore fair seats 1 permits 0 cap 16"], ["-b", "latch seats 1 count 2 cap 16"]]
    calls = [f"a acquire-timed s 1 {milliseconds}", "-b give s 1"]
    return json.dumps({"objects": objects, "threads": [{"repeat": 1, "calls": calls}]}).encode()


def other_folders(program, scratch):
    """Folders and files of --dir beside other options, links, and files that an option names twice."""
    folder, link, late = scratch / "named", scratch / "link", scratch / "late"
    for each in (folder, late):
        each.mkdir()
    link.symlink_to(folder)
    whole = run(program, ["run"], ONE_THREAD)
    told = run(program, ["run", "--timeout", "60000", "--dir", link], ONE_THREAD)
    before = held(folder)
    yield "a run that ends in time, with a link to a folder", told == whole
    yield "it leaves a file for each object", sorted(before) == ["-b.history", "a.history"]
    for file in folder.iterdir():
        file.unlink()
    told = run(program, ["run", "--dir", folder, "-o", folder / "a.history"], ONE_THREAD)
    yield "the output in the place of a history", told == (0, b"", b"")
    yield "the history of the other object stays", held(folder) == {**before, "a.history": whole[1]}
    told = run(program, ["run", "--timeout", "300", "--dir", late, "-o", scratch / "standing"], waiting(60000))
    standing = b"not ended after 300 milliseconds; a thread may be about to go on\n"
    is_told = bytes_of(scratch / "standing").startswith(standing)
    yield "a late run goes to a file", told == (1, b"", b"") and is_told
    yield "a late run leaves no history", held(late) == {}


def verdicts(program, scratch):
    """What is no fault goes to the file of -o, though the status is 1."""
    out = scratch / "verdict"
    for words, text in ((["audit"], NOT_LEGAL), (["summary", "--json"], NOT_LEGAL), (["explain"], NOT_LEGAL),
                        (["explain"], b"aqs-steps 1 lock"), (["explain", scratch / "none"], b"")):
        told = run(program, words, text)
        for before in ("a new file", "a file"):
            answer = run(program, [*words, "-o", out], text)
            yield f"{words} into {before}", answer == (1, b"", b"") and (1, bytes_of(out), b"") == told
            out.write_bytes(b"before")
        out.unlink(missing_ok=True)


def when_threads_run(program, words, text, then):
    """The answer of a run, while whose threads run something is done."""
    words = [program, *map(str, words)]
    child = subprocess.Popen(words, stdin=subprocess.PIPE, stdout=subprocess.PIPE, stderr=subprocess.PIPE)
    child.stdin.write(text)
    child.stdin.close()
    child.stdin = None
    while child.poll() is None and len(os.listdir(f"/proc/{child.pid}/task")) < 2:
        time.sleep(0.001)
    then()
    output, error = child.communicate(timeout=SECONDS)
    return child.returncode, output, error


def changed_meanwhile(program, scratch):
    """Files that others make or remove while the threads of a run go on: theirs stay, and the run leaves nothing. An
    output that can't be replaced is as it was."""
    folder, elsewhere, out, old = scratch / "meanwhile", scratch / "left", scratch / "out", scratch / "old"
    for each in (folder, elsewhere):
        each.mkdir()
    mine = folder / "-b.history"
    old.write_bytes(b"before")
    runs = (
        ("a file in the place of the second history", ["run", "--dir", folder], lambda: mine.write_bytes(b"mine")),
        ("a folder in the place of the output", ["run", "--dir", elsewhere, "-o", out], out.mkdir),
        ("a file beside the output that is gone", ["run", "-o", old], (scratch / "old.0.part").unlink),
    )
    with concurrent.futures.ThreadPoolExecutor() as pool:
        answers = list(pool.map(lambda each: when_threads_run(program, each[1], waiting(1200), each[2]), runs))
    for (name, *_), answer in zip(runs, answers):
        yield name, answer == WRITE_FAILED
    yield "the file of somebody else stays alone", held(folder) == {"-b.history": b"mine"}
    yield "no history is left where the output can't be put", held(elsewhere) == {} and held(out) == {}
    yield "nor a file beside the output", not (scratch / "out.0.part").exists()
    yield "what can't be replaced is as it was", bytes_of(old) == b"before"


def situations(folder):
    """The steps texts that the tests in Rattle have stand here, with their answers."""
    source = folder.parent / "crates" / "test_support" / "src" / "examples.rt"
    here = {file.read_text() for file in folder.glob("*.steps") if file.with_suffix(".answers").exists()}
    for text in re.findall(r'^    "(aqs-steps (?:[^"\\]|\\.|\\\n)*)"', source.read_text(), re.M):
        text = re.sub(r"\\\n\s*", "", text).replace("\\n", "\n")
        yield f"a situation of the tests stands in {folder.name}: {text}", text in here


def hostile(program):
    """A line of any length takes no more memory than a short one. JSON that is deep is told as no JSON, and a
    word that isn't UTF-8 as a bad command line."""
    header = b"aqs-steps 1 lock fair seats 2 conditions 0 cap 16\n"
    # The second to fourth end where a window ends.
    for length in (65_000, 65_486, 65_535, 65_536, 200_000, 64_000_000):
        line = b"0" * length
        whole = header + line + b"\n0 give x 1\nend 2\n"
        answer = run(program, ["replay"], whole), run(program, ["replay"], header + line)
        wanted = (3, b"", b"aqs: bad line 2\n"), (3, b"", b"aqs: cut short\n")
        yield f"a line of {length} bytes, and one that is cut", answer == wanted
    yield "a long first line", run(program, ["audit"], line + b"\n") == (3, b"", b"aqs: bad header\n")
    deep = b"[" * 100_000 + b"]" * 100_000
    yield "deep JSON", run(program, ["run"], deep) == (3, b"", b"aqs: not JSON\n")
    yield "a word that is no text", run(program, ["replay", "\udcff"]) == (2, b"", b"aqs: usage\n")


def results(program, folder, scratch):
    for words, wanted in pairs(folder):
        yield " ".join(pathlib.Path(w).name for w in map(str, words)), run(program, words) == wanted
    yield from cuts(program, folder)
    yield from round_trips(program, folder, scratch)
    yield from trimmed(program, folder)
    yield from runs(program, folder, scratch)
    yield from late_runs(program, folder)
    yield from runs_in_time(program)
    yield from pictures(program, folder)
    yield from named_pictures(program, folder, scratch)
    for place in PICTURED:
        yield from pictures(program, folder.parent / place)
    yield from named_files(program, folder)
    yield from manuals(program)
    yield from manual_options(program, scratch)
    if folder.name == "examples":
        yield from left_histories(program, scratch)
        yield from unleft_histories(program, scratch)
        yield from other_folders(program, scratch)
        yield from verdicts(program, scratch)
        yield from changed_meanwhile(program, scratch)
    yield from hostile(program)
    if folder.name == "examples":
        yield from situations(folder)
        yield from shown(program, folder)
        several = [case for file in cases.all_files() for case in cases.read(file.read_text(), file.name)]
        yield from objects.results(program, folder, several, scratch)
    for file in unpaired(folder):
        yield f"{file.name} has its pair", False
    for wrong in [*cases.results(program, cases.all_files()), *crowds.results(program)]:
        yield wrong, wrong is None
    yield from common_lines.results(program)


def main(words):
    program = str(pathlib.Path(words[0]).resolve())
    top = pathlib.Path(__file__).resolve().parent.parent
    folder = pathlib.Path(words[1]) if len(words) > 1 else top / "examples"
    passed = failed = 0
    with tempfile.TemporaryDirectory() as scratch:
        for name, good in results(program, folder, pathlib.Path(scratch)):
            passed, failed = passed + good, failed + (not good)
            if not good:
                print(f"failed: {name}")
    print(f"{passed} passed, {failed} failed")
    return 0 if passed and not failed else 1


if __name__ == "__main__":
    if len(sys.argv) not in (2, 3):
        sys.exit(__doc__)
    sys.exit(main(sys.argv[1:]))
