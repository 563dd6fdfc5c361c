"""The tests of the recorder, for ../check.py: a program of its own runs with and without it, and prints the
same. Each history that it leaves is legal, and shows what the program did."""
import glob
import json
import os
import pathlib
import re
import shutil
import signal
import statistics
import subprocess
import time
from concurrent.futures import ThreadPoolExecutor
from typing import NamedTuple, Optional

HERE = pathlib.Path(__file__).resolve().parent
OUT = HERE / "out"
PROGRAM = str(OUT / "objects_of_each_kind")
RARE_CASES = str(OUT / "rare_cases")
ANSWERS = str(OUT / "answers")
FORKS = str(OUT / "forks")
TIMES = str(OUT / "times")
RECORD = str(OUT / "aqs-record")
CLOCK = pathlib.Path("/sys/devices/system/clocksource/clocksource0/current_clocksource")
LIBRARY = str(OUT / "libaqs_pthread.so")
LEFT = "aqs: not recorded, left to glibc: 1 robust mutexes, 1 objects shared among processes, 1 barriers"
# Threads, rounds, and more words.
RUNS = (("4", "40"), ("300", "3"), ("4", "20", "fork"), ("8", "20"))
SECONDS = 120
MOST_KILOBYTES = 20 * 1024
AT_A_TIME = 4
# What glibc keeps of the case `objects_of_other_kinds`.
KEPT = "4 objects shared among processes, 2 mutexes with priority protocols, 1 spinlocks"


def ran(words, seconds=SECONDS, cwd=None, **environment):
    """The exit status and both outputs of a command, or why there are none. What hangs is killed as a whole."""
    run = subprocess.Popen(
        [str(word) for word in words], cwd=cwd, stdin=subprocess.DEVNULL, stdout=subprocess.PIPE,
        stderr=subprocess.PIPE, errors="replace", env={**os.environ, **environment}, start_new_session=True)
    try:
        output, errors = run.communicate(timeout=seconds)
    except BaseException as stop:
        os.killpg(run.pid, signal.SIGKILL)
        run.communicate()
        if isinstance(stop, subprocess.TimeoutExpired):
            return None, "", f"it did not end in {seconds} seconds"
        raise
    return run.returncode, output, errors


def processes(folder):
    return sorted(path for path in glob.glob(f"{folder}/*") if os.path.isdir(path))


def first_process(folder):
    """The folder of the process that its parent recorded: it used the most objects."""
    return max(processes(folder), key=lambda path: len(os.listdir(path)))


class Line(NamedTuple):
    """A line of an index, with a file if there is one."""

    entries: int
    kept: int
    waits: int
    waited: float
    sleeps: int
    slept: float
    file: Optional[str]


def line_of(text):
    words = text.split()
    file = re.search(r"\d+-[a-z]+-[^/]*?\.history", text)
    kept = int(words[1]) if file else 0
    return Line(
        int(words[0]), kept, int(words[2]), float(words[3]), int(words[4]), float(words[5]), file and file[0])


def index_of(folder):
    """The lines of an index below its two heads."""
    return [line_of(text) for text in pathlib.Path(folder, "index").read_text().splitlines()[2:]]


def entries_in(file):
    """How many entries a history has."""
    return len(re.findall(r"(?m)^\d+ ", pathlib.Path(file).read_text()))


def check_index(tests, name, folder, wanted=("mutex", "rwlock", "semaphore")):
    lines = [line for line in index_of(folder) if line.file]
    entries = [(-line.entries, int(line.file.split("-")[0])) for line in lines]
    files = {line.file for line in lines}
    there = {os.path.basename(file) for file in glob.glob(f"{folder}/*.history")}
    is_good = entries == sorted(entries) and files == there and len(files) > 5
    told = f"{entries}\n{files ^ there}"
    if not tests.count(f"the index of {name} has each file, the busiest first", is_good, told):
        return
    others = [line for line in lines if line.kept != entries_in(f"{folder}/{line.file}")]
    tests.count(f"the index of {name} says how many entries each file has", not others, str(others))
    kinds = {file.split("-")[1] for file in there}
    tests.count(f"{name} recorded each kind", kinds == {*wanted}, str(kinds))


def has_names(history):
    """Whether a file of names lies beside a history, as `aqs draw --names` reads it."""
    names = pathlib.Path(history).with_suffix(".names")
    text = names.read_text() if names.exists() else ""
    return bool(re.fullmatch(r"(\d{1,3} [!-~]{1,15}\n)+", text))


def check_run(tests, words):
    name = f"a recorded program, {' '.join(words)},"
    folder = tests.histories(f"record-{'-'.join(words)}")
    status, output, _ = ran([PROGRAM, *words])
    told = ran([RECORD, "-o", folder, "--", PROGRAM, *words])
    is_same = status == 0 and told[:2] == (status, output) and LEFT in told[2]
    if not tests.count(f"{name} prints what it prints", is_same, f"{status} {output}\n{told}"):
        return
    tests.audit(name, f"{folder}/*")
    others = [file for file in glob.glob(f"{folder}/*/*.history") if not has_names(file)]
    tests.count(f"each history of {name} has names of its threads beside it", not others, str(others))
    process = first_process(folder)
    busiest = pathlib.Path(process, next(line.file for line in index_of(process) if line.file))
    tests.draw(f"the busiest of {name} with names", busiest, busiest.with_suffix(".names"))
    wanted = 1 + 5 * ("fork" in words)
    tests.count(f"{name} left {wanted} folders", len(processes(folder)) == wanted, str(processes(folder)))
    check_index(tests, name, process)


def check_rare_cases(tests):
    """What programs rarely do: each case prints and returns the same recorded. Its histories are legal."""
    for case in ran([RARE_CASES])[1].split():
        name, folder = case.replace("_", " "), tests.histories(f"record-{case}")
        told, recorded = ran([RARE_CASES, case]), ran([RECORD, "-o", folder, "--", RARE_CASES, case])
        if tests.count(f"a program {name}", told[:2] == recorded[:2], f"{told}\n{recorded}"):
            tests.audit(name, f"{folder}/*")
    folder = tests.histories("record-counted")
    told = ran([RECORD, "-o", folder, "--", RARE_CASES, "has_locks_of_other_kinds"])
    is_counted = "2 named semaphores, 1 locks of C11" in told[2]
    tests.count("named semaphores and locks of C11 are counted", is_counted, str(told))
    case = [RARE_CASES, "main_thread_is_cancelled"]
    told = ran([RECORD, "-o", folder, "-e", "0", "--", *case]), ran(case, LD_PRELOAD=LIBRARY)
    tests.count("it ends if nothing is written meanwhile, or at all", told == ((0, "", ""),) * 2, str(told))
    told = ran([RECORD, "-o", folder, "-e", "0", "--", RARE_CASES, "is_asked_as_it_writes"])
    tests.count("it writes again if nothing else makes it", told[:2] == (0, "done\n"), str(told))
    told = ran([RECORD, "-o", folder, "--", RARE_CASES, "destroyed_mutexes_leave_no_memory"], AQS_TIMES="1")
    tests.count("the times of their holds are gone too", told[:2] == (0, "no more memory\n"), str(told))
    told = ran([RECORD, "-o", folder, "--", RARE_CASES, "a_child_with_our_memory_ends"])
    tests.count("the end of such a child isn't its parent's", "left to glibc: 2 spinlocks\n" in told[2], str(told))
    told = ran([RECORD, "-o", "/proc/none/such", "--", RARE_CASES, "standard_error_is_another_file"])
    tests.count("a fault isn't written to a file of the program", told[1] == "0 bytes\n", str(told))


def texts_of(folder):
    """The histories of a process, those of the objects first that were used first."""
    files = sorted(glob.glob(f"{folder}/*.history"), key=lambda file: int(os.path.basename(file).split("-")[0]))
    return [pathlib.Path(file).read_text() for file in files]


def check_what_is_recorded(tests):
    """What is recorded of rare cases whose threads make known calls in a known order."""
    folder = first_process(tests.histories("record-threads_come_one_after_another"))
    seats = [re.findall(r"(?m)^\d+ (\d+) got x 1$", text) for text in texts_of(folder)]
    is_good = seats == [["0", "1", "2"], ["1", "2"]]
    tests.count("a thread has the same number in each history", is_good, str(seats))
    texts = texts_of(first_process(tests.histories("record-a_reader_has_another_seat")))
    seats = [re.findall(r"(?m)^\d+ (\d+) gave s 1$", text) for text in texts if " rw " in text.split("\n")[0]]
    is_good = seats == [["0", "1", "0"], ["0"]]
    tests.count("a reader gives back the seat that it has", is_good, str(seats))
    folder = first_process(tests.histories("record-a_lock_grows_while_it_is_read"))
    [text] = [text for text in texts_of(folder) if " rw " in text]
    seats = re.findall(r"(?m)^\d+ (\d+) gave s 1$", text)
    is_good = seats[0] == "1" and seats[-1] == "0" and len({*seats}) == 6
    tests.count("a reader finds its seat in a lock that has grown", is_good, str(seats))
    folder = first_process(tests.histories("record-two_signals_and_a_broadcast"))
    signals = [re.findall(r"(?m)^\d+ \d+ (signal|signalall) 0 (\d+)$", text) for text in texts_of(folder)]
    is_good = signals == [[*[("signal", "1")] * 2, ("signalall", "4")]]
    tests.count("a signal wakes one thread, and a broadcast those that are left", is_good, str(signals))
    lines = index_of(first_process(tests.histories("record-waits_take_a_known_time")))
    is_good = [(line.waits, line.sleeps) for line in lines] == [(1, 1)]
    is_good = is_good and 50 <= lines[0].waited < 10_000 and 50 <= lines[0].slept < 10_000
    tests.count("the index says how often and how long threads waited and slept", is_good, str(lines))
    lines = index_of(first_process(tests.histories("record-a_child_with_our_memory_is_ended")))
    is_good = [line.entries for line in lines] == [6]
    tests.count("what comes after a child that was ended is recorded", is_good, str(lines))
    check_child(tests, tests.histories("record-child_of_a_process_that_did_much"))


def check_child(tests, folder):
    """The index of a child and its one file say what it did, and nothing of its parent."""
    parent = first_process(folder)
    children = [path for path in processes(folder) if path != parent]
    lines = [index_of(path) for path in children]
    files = [[os.path.basename(file) for file in glob.glob(f"{path}/*.history")] for path in children]
    is_good = [[line[:6] for line in of_one] for of_one in lines] == [[(2, 2, 0, 0.0, 0, 0.0)]]
    is_good = is_good and files == [[lines[0][0].file]] and len(index_of(parent)) > 20
    tests.count("the index of a child has nothing of its parent", is_good, f"{lines}\n{files}")


def record_answers(tests, case, *options):
    """The folder, and what a case of `answers` told without the recorder and with it."""
    folder = tests.histories("".join(["answers-", case, *options]))
    recorded = ran([RECORD, "-o", folder, *options, "--", ANSWERS, case])
    return folder, case, ran([ANSWERS, case]), recorded


def check_answers(tests):
    """What each call answers is the same recorded, also where few entries are kept and nothing is written meanwhile."""
    runs = [(case,) for case in ran([ANSWERS])[1].split()]
    runs += [("one_thread_locks_often", "-k", most) for most in ("1", "4000")]
    full = (
        "full_histories_leave_no_memory", "many_holds_of_one_thread", "many_holds_beside_one_that_waits",
        "tries_fill_a_history")
    runs += [(case, "-k", "64") for case in full]
    runs += [("a_program_rests", "-e", "0")]
    with ThreadPoolExecutor(AT_A_TIME) as pool:
        for folder, case, told, recorded in list(pool.map(lambda run: record_answers(tests, *run), runs)):
            name = f"answers of {os.path.basename(folder)[8:].replace('_', ' ')}"
            tests.count(name, told[0] is not None and told[:2] == recorded[:2], f"{told}\n{recorded}")
            tests.audit(name, f"{folder}/*")
            if case == "objects_of_other_kinds":
                is_told = recorded[2] == f"aqs: not recorded, left to glibc: {KEPT}\n"
                tests.count("objects that glibc keeps are counted", is_told, recorded[2])


def seats_of(text):
    """Which seats got the object of a history, in their order, and how many it has."""
    return re.findall(r"(?m)^\d+ (\d+) got x 1$", text), re.findall(r" seats (\d+) ", text)[0]


def check_numbers(tests):
    folder = tests.histories("answers-threads_share_numbers")
    parent = first_process(folder)
    seats = [seats_of(text) for text in texts_of(parent)]
    is_good = seats == [([*"012322230"], "5"), (["0"], "5"), (["0"], "17")]
    tests.count("threads have the numbers of those that ended, the least first", is_good, str(seats))
    seats = [[seats_of(text) for text in texts_of(path)] for path in processes(folder) if path != parent]
    tests.count("a child numbers its threads anew", seats == [[(["0", "1"], "5")]], str(seats))
    folder = first_process(tests.histories("answers-a_thread_calls_before_the_main_thread"))
    seats = [seats_of(text)[0] for text in texts_of(folder)]
    tests.count("the main thread has the number 0, whoever calls first", seats == [["1", "0"]], str(seats))
    folder = tests.histories("answers-a_child_does_what_was_written")
    entries = sorted([line.entries for line in index_of(path)] for path in processes(folder))
    tests.count("a child writes as much as its parent had written", entries == [[2], [2, 2]], str(entries))


def check_gone(tests):
    """What the index says of objects that are gone: 16 of a place have a file, and so have those that had it before,
    which aren't among the 16."""
    folder = first_process(tests.histories("answers-mutexes_that_are_gone"))
    lines = index_of(folder)
    told = [(line.entries, line.kept, line.waits, line.sleeps) for line in lines]
    wanted = [*[(9, 9, 0, 1)] * 2, (8, 8, 0, 0), *[(5, 5, 0, 1)] * 16, (8020, 0, 0, 4)]
    is_good = told == wanted and all(line.waited == 0 and (line.slept > 0) == (line.sleeps > 0) for line in lines)
    tests.count("the index adds up what is gone and has no file", is_good, str(lines))
    text = pathlib.Path(folder, "index").read_text()
    is_good = "and 4 more of this place, which are gone" in text and ": 19 objects\n" in text
    tests.count("it says how many there were", is_good, text)
    check_index(tests, "a process whose mutexes are gone", folder, ("mutex",))
    text = pathlib.Path(first_process(tests.histories("record-mutexes_go_as_it_writes")), "index").read_text()
    tests.count("it counts what went as it was written", "and 4 more of this place, which are gone" in text, text)
    folder = first_process(tests.histories("answers-destroyed_after_they_were_written"))
    entries = [(line.entries, line.file is not None) for line in index_of(folder)]
    is_good = entries == [(4, True), (4, True), (2, True), (0, False)]
    tests.count("the index has what was destroyed as it was written", is_good, str(entries))
    lines = index_of(first_process(tests.histories("answers-semaphores_that_are_gone")))
    told = [(line.entries, line.waits, line.sleeps, line.slept) for line in lines]
    is_good = told == [*[(2, 1, 0, 0)] * 16, (4, 2, 0, 0)] and lines[-1].waited > 0
    tests.count("the index adds up how often and how long threads waited for what is gone", is_good, str(lines))


def check_counts(tests):
    """How many entries and sleeps the index has of threads whose calls are known, and how many seats their objects."""
    for words, most in (("", 16384), ("-k1", 1000), ("-k4000", 4000)):
        folder = tests.histories(f"answers-one_thread_locks_often{words}")
        parent = first_process(folder)
        [child] = [path for path in processes(folder) if path != parent]
        entries = [[line.entries for line in index_of(path)] for path in (parent, child)]
        is_good = entries == [[12000] * 3, [4] * 3] and all(line.kept <= most for line in index_of(parent))
        tests.count(f"each entry is counted{words}", is_good, str(entries))
    texts = texts_of(first_process(tests.histories("answers-one_thread_locks_often")))
    heads = [text.split(" seats ")[0] for text in texts]
    is_good = heads == [f"aqs-history 1 {kind} nonfair" for kind in ("semaphore", "lock", "rw")]
    tests.count("no object is fair", is_good, str(heads))
    folder = tests.histories("answers-words_that_are_empty")
    told = ran([RECORD, "-o", folder, "--", ANSWERS, "writes_a_little_and_much"], AQS_KEEP="", AQS_EVERY="")
    kept = [line.kept for line in index_of(first_process(folder))]
    tests.count("an empty number is as none", kept == [6002, 2, 2], f"{told} {kept}")
    entries = [line.entries for line in index_of(first_process(tests.histories("answers-objects_of_other_kinds")))]
    tests.count("what glibc keeps is not recorded", entries == [2], str(entries))
    entries = [line.entries for line in index_of(first_process(tests.histories("answers-used_while_it_is_written")))]
    tests.count("what is done while a history is written is written too", entries == [2002] * 24, str(entries))
    folder = first_process(tests.histories("answers-conditions_change_their_mutex"))
    lines = index_of(folder)
    sleeps = [line.sleeps for line in lines]
    awaits = [pathlib.Path(folder, line.file).read_text().count(" await ") for line in lines]
    tests.count("each wait on a condition has a number", sleeps == [23, 3, 2] == awaits, f"{sleeps} {awaits}")
    seats = [seats_of(text)[1] for text in texts_of(folder)]
    tests.count("one that sleeps at a time needs few seats", seats == ["5"] * 3, str(seats))
    texts = texts_of(first_process(tests.histories("answers-tries_fill_a_history-k64")))
    seats = [seats_of(text)[1] for text in texts]
    tests.count("threads that find all held give their seats back", seats == ["5"] * 3, str(seats))
    entries = [line.entries for line in index_of(first_process(tests.histories("answers-objects_have_no_end")))]
    tests.count("memory that is used again is another object", entries == [6, 4, 4, 4, 2, 2, 2], str(entries))
    lines = index_of(first_process(tests.histories("answers-more_come_than_there_are_seats")))
    waits = [line for line in lines if "-semaphore-" in line.file]
    is_good = [(line.sleeps, line.slept) for line in waits] == [(0, 0.0)]
    is_good = is_good and waits[0].waits > 0 and waits[0].waited >= 20
    tests.count("a wait for a permit is no sleep", is_good, str(waits))
    lines = index_of(first_process(tests.histories("answers-each_folded_entry_is_counted")))
    tests.count("each folded entry is counted", [it.entries for it in lines] == [30030, 10030], str(lines))
    [text] = texts_of(first_process(tests.histories("answers-a_folded_history_gets_more_seats")))
    listed = re.findall(r"(?m)^seat (\d+) ", text)
    is_good = listed == [str(seat) for seat in range(17)] and seats_of(text)[1] == "17"
    tests.count("a base lists the seats that came after it", is_good, str(listed))
    [text] = texts_of(first_process(tests.histories("answers-signals_beside_the_owner")))
    signals = re.findall(r"(?m)^\d+ 0 (signal|signalall) (\d+) (\d+)$", text)
    wanted = [("signal", "1", "1")] * 2 + [("signal", "0", "1")] * 2
    wanted += [("signalall", "0", "2"), ("signalall", "1", "2")]
    tests.count("the owner makes the signals of others", signals == wanted, str(signals))


def longest_kept(tests, keeps):
    """How many lines the longest history has of a program that keeps so many entries of each object."""
    folder = tests.histories(f"record-keeps-{keeps}")
    told = ran([RECORD, "-o", folder, "-k", keeps, "--", PROGRAM, "40", "60"])
    tests.count(f"a recorded program that keeps {keeps} entries", told[0] == 0, str(told))
    tests.audit(f"{keeps} entries", f"{folder}/*")
    check_index(tests, f"a program that keeps {keeps} entries", first_process(folder))
    texts = [pathlib.Path(file).read_text() for file in glob.glob(f"{folder}/*/*.history")]
    return max((text.count("\n") for text in texts), default=0)


def check_folded(tests):
    """Histories that keep few entries have a base, or begin anew, and are legal. More than C can count are not few."""
    few, many = longest_kept(tests, "64"), longest_kept(tests, str(2**32))
    tests.count("they are no longer than they may be", 0 < few < 6000 < many, f"{few} {many}")


def waiting(folder, judged):
    """Who waits in a killed program: in the queue of a mutex, on a condition, and for a permit."""
    told = [judged(file) for file in glob.glob(f"{folder}/*/*.history")]
    return {
        "queue": any("holds x 1 s 0 line 2 " in text for text in told),
        "condition": any(text.endswith("sleepers 1\n") for text in told),
        "permit": any("free 0" in text and text.endswith("line 1\n") for text in told),
    }


def check_killed(tests, name, judged, asks, *words, **environment):
    """A program is killed whose threads all wait, or those of its child. What was written by then shows who waits for
    what."""
    folder = tests.histories("-".join(["record-killed", str(asks), *words]))
    ours = {"AQS_RECORD": folder, "LD_PRELOAD": LIBRARY, **environment}
    run = subprocess.Popen(
        [PROGRAM, "4", "5", "hang", *words], stdout=subprocess.PIPE, stderr=subprocess.DEVNULL, text=True,
        env={**os.environ, **ours}, start_new_session=True)
    while run.stdout.readline() not in ("hangs\n", ""):
        pass
    found, until = {}, time.monotonic() + SECONDS
    while not (found and all(found.values())) and time.monotonic() < until:
        if asks:
            os.killpg(run.pid, signal.SIGUSR2)
        time.sleep(0.2)
        found = waiting(folder, judged)
    os.killpg(run.pid, signal.SIGKILL)
    run.wait()
    run.stdout.close()
    found = waiting(folder, judged)
    tests.count(f"a program that is killed left who waits{name}", all(found.values()), str(found))
    tests.audit("a program that was killed", f"{folder}/*")


def check_cost(tests):
    folder = tests.histories("record-many")
    told = ran([RECORD, "-o", folder, "-e", "0", "--", str(OUT / "pairs"), "10000"])
    taken = re.search(r"10000 locks: (\d+) kB", told[1])
    is_good = told[0] == 0 and taken and int(taken[1]) < MOST_KILOBYTES
    tests.count("an object that rests stays as it is", "8 permits, the mutex is held" in told[1], str(told))
    tests.count(f"10,000 locks take less than {MOST_KILOBYTES} kB more", bool(is_good), str(told))
    files = len(glob.glob(f"{folder}/*/*.history"))
    tests.count("each of them left a history", files == 10003, str(files))


def check_forks(tests):
    """A library whose constructor ran before the recorder's locks before each fork. A server forks to save."""
    for words in ((), ("3",)):
        folder = tests.histories("-".join(["record-forks", *words]))
        told = ran([RECORD, "-o", folder, "--", FORKS, *words])
        name = f"forks beside a library of {len(words) and words[0]} other threads that locks before them"
        tests.count(name, told == (0, "10 forks\n", ""), str(told))
        tests.audit(name, f"{folder}/*")
    if not (shutil.which("redis-server") and shutil.which("redis-cli")):
        tests.left_out("a recorded redis-server", "it is not installed")
        return
    folder = tests.histories("record-redis")
    words = ["--port", "0", "--unixsocket", "socket", "--save", "", "--appendonly", "yes", "--dir", folder]
    server = subprocess.Popen(
        [RECORD, "-o", folder, "--", "redis-server", *words], cwd=folder, stdin=subprocess.DEVNULL,
        stdout=subprocess.DEVNULL, stderr=subprocess.DEVNULL, start_new_session=True)
    try:
        is_saved, told = saves(folder)
        status = server.wait(SECONDS) if is_saved else None
    finally:
        if server.poll() is None:
            os.killpg(server.pid, signal.SIGKILL)
            server.wait()
    tests.count("a recorded redis-server saves, rewrites and ends", status == 0, told)
    tests.audit("redis-server", f"{folder}/*")


def saves(folder):
    """Whether the server of a folder answers, saves, rewrites its log, and is asked to end; and what it said."""
    client, told, until = ["redis-cli", "-s", f"{folder}/socket"], [], time.monotonic() + SECONDS
    steps = [("set a 1", "OK"), ("bgsave", "saving started"), ("info persistence", "rdb_bgsave_in_progress:0"),
             ("bgrewriteaof", "rewriting started"), ("info persistence", "aof_rewrite_in_progress:0"), ("get a", "1")]
    for words, wanted in steps:
        while True:
            said = ran([*client, *words.split()], 10)
            told.append(str(said))
            if wanted in said[1] and "rdb_last_bgsave_status:err" not in said[1]:
                break
            if time.monotonic() > until or said[0] is None:
                return False, "\n".join(told)
            time.sleep(0.1)
    ran([*client, "shutdown"], 10)
    return True, "\n".join(told)


def report_of(words):
    """The one process of a report as JSON, or nothing, and all that was said."""
    told = ran([RECORD, *words, "--json"])
    try:
        [process] = json.loads(told[1])
    except ValueError:
        return None, str(told)
    return process if told[0] == 0 else None, str(told)


def is_near(time, *wanted, least=1.0):
    """Whether nanoseconds are so many milliseconds in all, and some for a busy machine."""
    return least * sum(wanted) <= time / 1e6 < 1.3 * sum(wanted) + 100


LATE = 0.6  # a part of the time that a thread may wait less, since it came late


# Cases of `times`: the waits, the longest of them, the holds, the calls and the threads.
KNOWN_TIMES = {
    "a_wait_and_two_holds": ([120], [120, 40], 2, 2),
    "a_reader_and_a_writer": ([120], [160, 40], 4, 2),
    "a_sleep_between_two_holds": ([], [40, 40], 1, 1),
    "a_wait_for_a_permit": ([120], [], 1, 1),
    "twelve_waits": ([10, 10, 120, *[30] * 9], [10, 10, 120, *[30] * 9], 24, 2),
}


def record_times(tests, case):
    folder = tests.histories(f"times-{case}")
    ran([RECORD, "--times", "-e", "0", "-o", folder, "--", TIMES, case])
    return folder


def are_times(process, waits, holds, calls, threads):
    """Whether the one object of a report has such times, and the report such longest waits."""
    [found] = process["objects"]
    is_good = [found["contended"], found["calls"], found["threads"]] == [len(waits), calls, threads]
    is_good = is_good and is_near(found["waited_ns"], *waits, least=LATE) and is_near(found["held_ns"], *holds)
    is_good = is_good and is_near(found["longest_wait_ns"], max(waits, default=0), least=LATE)
    is_good = is_good and is_near(found["longest_hold_ns"], max(holds, default=0))
    by_size = found["waits_by_log2_ns"]
    is_good = is_good and sum(by_size.values()) == len(waits) and (not waits or max(map(int, by_size)) >= 26)
    counted = sum(found["holds_by_log2_ns"].values())
    is_good = is_good and counted >= len(holds) and found["holds"] == counted
    longest, wanted = [wait["ns"] for wait in process["longest_waits"]], sorted(waits, reverse=True)[:10]
    is_good = is_good and len(longest) == len(wanted) and longest == sorted(longest, reverse=True)
    return is_good and all(is_near(it, many, least=LATE) for it, many in zip(longest, wanted))


def check_times_of(tests, case, *wanted):
    """On a busy machine a thread may come too late to wait: then it is tried again."""
    name = case.replace("_", " ")
    for nth in range(3):
        folder = tests.histories(f"times-{case}" if nth == 0 else f"times-{case}-{nth}")
        said = ran([RECORD, "--times", "-o", folder, "--", TIMES, case])
        process, told = report_of(["--report", folder])
        is_good = process is not None and said[:2] == (0, "") and are_times(process, *wanted)
        if is_good:
            break
    tests.count(f"times of {name}", is_good, f"{said}\n{told}")
    is_said = process and f"process {process['process']}: 1 objects, the most waited for first" in said[2]
    tests.count(f"the end of {name} says the report", bool(is_said and "held ms" in said[2]), str(said))


def check_known_times(tests):
    """How long threads of known programs waited and held, in all, at most, and in buckets; and who they were."""
    for case, wanted in KNOWN_TIMES.items():
        check_times_of(tests, case, *wanted)
    folder = tests.histories("times-a_wait_and_two_holds")
    process, told = report_of(["--report", folder])
    wait = process["longest_waits"][0] if process and process["longest_waits"] else None
    if tests.count("a long wait is in the report", wait is not None, told):
        people = wait["thread"]["thread"], wait["thread"]["name"], wait["held_by"]["thread"], wait["held_by"]["name"]
        is_good = people == (1, "the waiter", 0, "times")
        is_good = is_good and str(wait["place_line"]).endswith(f":{line_with('a long wait')}")
        tests.count("a long wait has its thread, its holder and its line", is_good, str(wait))
    names = [pathlib.Path(file).read_text() for file in glob.glob(f"{folder}/*/*.names")]
    is_good = names == ["0 times\n1 the_waiter\n"]
    tests.count("names of threads lie beside a history", is_good, str(names))
    process, told = report_of(["--report", record_times(tests, "three_mutexes")])
    order = [it["object"] for it in process["objects"]] if process else []
    tests.count("the most waited for comes first, then what was held longest", order == [3, 2, 1], told)
    process, told = report_of(["--report", record_times(tests, "a_call_that_is_put_in_line")])
    lines = re.findall(r"\w+\.[hc]:\d+", str(process and process["objects"][0]["place_line"]))
    wanted = [f"check.h:{line_with('in a header', 'check.h')}", f"times.c:{line_with('from here')}"]
    tests.count("a place in a header is told with the source that it came from", lines == wanted, told)


def check_people(tests):
    """Threads that used a lock which is gone are counted, and none is told as a holder that never held. Each hold is
    told, though the lock gets more seats meanwhile."""
    process, told = report_of(["--report", record_times(tests, "mutexes_of_many_threads_are_gone")])
    gone = [it for it in process["objects"] if "gone" in it] if process else []
    is_good = [(it["gone"], it["calls"], it["threads"]) for it in gone] == [(14, 14, 14)]
    tests.count("the threads of all mutexes that are gone are counted", is_good, told)
    process, told = report_of(["--report", record_times(tests, "more_readers_than_seats")])
    counts = [(it["calls"], it["holds"], it["threads"]) for it in process["objects"]] if process else []
    tests.count("holds of a lock that gets more seats are told", counts == [(5, 5, 5)], told)
    process, told = report_of(["--report", record_times(tests, "an_owner_that_ended_is_replaced")])
    waits = [(it["thread"]["thread"], it["held_by"]) for it in process["longest_waits"]] if process else []
    tests.count("who comes after an owner that has ended isn't told as the owner", waits == [(2, None)], told)


def check_short_holds(tests):
    """Holds as short as what the recorder adds to them are as long as the program's own clock says: the medians of many
    mutexes, since a busy machine disturbs some. If it disturbs one clock alone, both are asked again. Other code between
    the holds puts the system's clock out of the processor's caches, so there the processor's own is asked for."""
    cases = {"holds_of_60_nanoseconds": 200, "holds_of_a_microsecond": 200}
    if CLOCK.exists() and CLOCK.read_text() == "tsc\n":
        cases["holds_of_100_nanoseconds_between_other_code"] = 20
    for case, mutexes in cases.items():
        told, is_near = [], False
        while not is_near and len(told) < 8:
            folder = tests.histories(f"times-{case}-{len(told)}")
            said = ran([RECORD, "--times", "-e", "0", "-o", folder, "--", TIMES, case])
            process, _ = report_of(["--report", folder])
            holds = [it["held_ns"] / it["holds"] for it in process["objects"] if it["holds"] == 1000] if process else [0]
            is_near = len(holds) == mutexes and abs(statistics.median(holds) / float(said[1]) - 1) < 0.1
            told.append(f"{said}: {statistics.median(holds)} ns in {len(holds)} mutexes")
        tests.count(case.replace("_", " "), is_near, "\n".join(told))
        off = process and process["taken_off_each_hold_ns"]
        is_said = off and f" add at least {off} ns to each hold: they are taken off.\n" in said[2]
        tests.count(f"what is taken off is said of {case.replace('_', ' ')}", bool(is_said), said[2])


def line_with(text, file="times.c"):
    """The number of the line of a test with a comment."""
    lines = (HERE / "test" / file).read_text().split("\n")
    return 1 + next(i for i, line in enumerate(lines) if f"/* {text} */" in line)


class Hanging:
    """A case of `times` that is recorded until it hangs. At the end it is killed, with all that it started."""

    def __init__(self, tests, case, *, by_script=False, **environment):
        self.folder = tests.histories("-".join(["hangs", case, *environment.values(), *["script"] * by_script]))
        ours = {"AQS_RECORD": self.folder, "LD_PRELOAD": LIBRARY}
        words = [RECORD, "-o", self.folder, "--"] if by_script else []
        self.run = subprocess.Popen(
            [*words, TIMES, case], stdin=subprocess.DEVNULL, stdout=subprocess.PIPE, stderr=subprocess.PIPE, text=True,
            env={**os.environ, **({} if by_script else ours), **environment}, start_new_session=True)
        self.run.stdout.readline()
        self.errors = ""

    def __enter__(self):
        return self

    def __exit__(self, *what):
        if self.run.poll() is None:
            os.killpg(self.run.pid, signal.SIGKILL)
        self.ended()

    def wait_for_waits(self, count):
        """Until so many waits are in the files."""
        until = time.monotonic() + SECONDS
        while time.monotonic() < until:
            files = [pathlib.Path(file).read_text() for file in glob.glob(f"{self.folder}/*/times")]
            if any(text.count("\nnow\t") >= count for text in files):
                return
            time.sleep(0.02)

    def kill(self, number=signal.SIGKILL):
        os.kill(self.run.pid, number)
        return self.ended()

    def ended(self):
        """The status, when the program has ended."""
        try:
            self.errors += self.run.communicate(timeout=SECONDS)[1]
        except (subprocess.TimeoutExpired, ValueError):
            return self.run.poll()
        return self.run.returncode


# Cases that hang: how many threads wait, and the circles that a report may have, as threads and the objects for which
# they wait.
CIRCLES = {
    "two_mutexes_in_opposite_orders": (2, {((1, 1), (0, 2)), ((0, 2), (1, 1))}),
    "a_mutex_that_its_owner_locks": (1, {((0, 1),)}),
    "a_reader_that_wants_to_write": (1, {((0, 1),)}),
    "a_circle_by_one_of_two_readers": (3, {((0, 2), (2, 1)), ((2, 1), (0, 2))}),
    "no_circle_since_one_gives_up": (2, set()),
    "an_owner_that_has_ended": (1, set()),
}


def circles_in(process):
    return [tuple((it["thread"], it["waits_for"]) for it in circle) for circle in process["circles"]]


def check_circle(tests, name, case, process, told):
    """A report has the one circle of a case, or none, and each wait of a thread now as one that lasts."""
    _, wanted = CIRCLES[case]
    circles = circles_in(process) if process else []
    is_good = process and (len(circles) == 1 and circles[0] in wanted if wanted else circles == [])
    tests.count(f"the circle of {name}", bool(is_good), told)
    waits = [it for it in process["waits_now"] if it["ns"] > 0] if process else []
    contended = sum(it["contended"] for it in process["objects"]) if process else 0
    is_good = waits and contended == len(waits) and sum(it["waited_ns"] for it in process["objects"]) > 0
    is_good = is_good and len(process["longest_waits"]) == len(waits)
    if is_good and process["holds_are_timed"] and wanted:
        is_good = sum(it["held_ns"] for it in process["objects"]) >= sum(it["ns"] for it in waits)
    tests.count(f"waits and holds that aren't over count in {name}", bool(is_good), told)


def check_circles(tests):
    """Who waits for whom in programs that hang: as they run, and after they were killed."""
    for case, (count, _) in CIRCLES.items():
        name = case.replace("_", " ")
        with Hanging(tests, case) as hanging:
            hanging.wait_for_waits(count)
            process, told = report_of(["--now", str(hanging.run.pid)])
            check_circle(tests, f"{name}, as it runs", case, process, told)
        with Hanging(tests, case, AQS_TIMES="1") as hanging:
            hanging.wait_for_waits(count)
            hanging.kill()
            process, told = report_of(["--report", hanging.folder])
            check_circle(tests, f"{name}, after a kill", case, process, told)
    check_words(tests)
    check_first_look(tests)
    check_child_that_hangs(tests)
    check_now(tests)


def check_words(tests):
    """The words of a report."""
    told = ran([RECORD, "--report", tests.histories("hangs-two_mutexes_in_opposite_orders-1")])
    first, second, at_first, at_second = [line_with(words) for words in (
        "the first call of the first", "the first call of the second", "waits for the first", "waits for the second")]
    said = (f"thread 0 holds mutex 1 (times.c:{first}) and waits for mutex 2 (times.c:{second}) at "
            f"times.c:{at_second}, which thread 1 holds")
    tests.count("a circle is said with its lines", told[0] == 0 and said in told[1], str(told))
    held = ["which is held by thread 1 (second first, ", f"at times.c:{at_first}, which is held by thread 0 (times, "]
    tests.count("who waits for whom is said", all(words in told[1] for words in held), str(told))
    told = ran([RECORD, "--report", tests.histories("hangs-an_owner_that_has_ended-1")])
    is_good = "(it ended, " in told[1] and "which has ended or was left behind by a fork" in told[1]
    tests.count("an owner that has ended is said to", is_good, str(told))


def check_now(tests):
    """Each report of a program that runs is of now, also if it does nothing meanwhile."""
    with Hanging(tests, "an_owner_that_has_ended") as hanging:
        began, told, asked = time.monotonic(), [], []
        other = pathlib.Path(hanging.folder, f"times.{hanging.run.pid}0")  # of another process, written later
        other.mkdir()
        (other / "times").touch()
        for path in (other, other / "times"):
            os.utime(path, (2**31, 2**31))
        for _ in range(3):
            asked.append(1e9 * (time.monotonic() - began))
            told.append(report_of(["--now", str(hanging.run.pid)]))
            time.sleep(0.5)
        times = [process["waits_now"][0]["ns"] for process, _ in told if process]
        is_good = len(times) == 3 and all(it > then - 4e8 for it, then in zip(times, asked))
        tests.count("a program may be asked again and again", is_good, str(told))
    with Hanging(tests, "two_threads_that_rest") as hanging:
        told = [report_of(["--now", str(hanging.run.pid)]) for _ in range(3)]
        tests.count("a program that rests may be asked too", all(process for process, _ in told), str(told))


def check_first_look(tests):
    """A program that hangs at its beginning is written within its first second, if it has a processor meanwhile."""
    times = []
    for _ in range(3):
        with Hanging(tests, "two_mutexes_in_opposite_orders", AQS_KEEP="1000") as hanging:
            hanging.wait_for_waits(2)
            hanging.kill()
        for process in json.loads(ran([RECORD, "--report", hanging.folder, "--json"])[1] or "[]"):
            times += [wait["ns"] for wait in process["waits_now"]]
    tests.count("a program that hangs is written soon", 0 < min(times, default=0) < 9e8, str(times))


def check_child_that_hangs(tests):
    """A child waits for a mutex whose owner is in its parent alone. It has no helper, and writes before it waits."""
    with Hanging(tests, "a_child_without_the_owner") as hanging:
        hanging.wait_for_waits(1)
        os.killpg(hanging.run.pid, signal.SIGKILL)
    told = ran([RECORD, "--report", hanging.folder, "--json"])
    holders = [it for process in json.loads(told[1] or "[]") for it in process["holders"]]
    is_good = [(it["object"], it["gone"], it["thread"]["thread"]) for it in holders] == [(1, True, 1)]
    tests.count("a child says that the owner is not with it", is_good, str(told))


def check_ends(tests):
    """`kill` of a recorded program and of aqs-record: both end, and what was recorded is whole."""
    for case in ("calls_without_end", "calls_of_two_threads_without_end", "two_mutexes_in_opposite_orders",
                 "one_thread_that_rests", "two_threads_that_rest"):
        name = case.replace("_", " ")
        for by_script in (False, True):
            with Hanging(tests, case, by_script=by_script, AQS_EVERY="0" if by_script else "1") as hanging:
                time.sleep(0.5)
                status = hanging.kill(signal.SIGTERM)
                wanted = 128 + signal.SIGTERM if by_script else -signal.SIGTERM
                who = "aqs-record" if by_script else "the program"
                is_good = status == wanted and not is_running(f"{TIMES} {case}")
                tests.count(f"{who} is ended by SIGTERM in {name}", is_good, f"{status} {hanging.errors}")
            tests.audit(name, f"{hanging.folder}/*")
            lines = index_of(first_process(hanging.folder))
            others = [it for it in lines if it.kept != entries_in(f"{first_process(hanging.folder)}/{it.file}")]
            tests.count(f"the index of {name} is whole", bool(lines) and not others, str(lines))
            is_told = "A circle of process" in hanging.errors
            is_good = is_told == (by_script and case in CIRCLES)
            tests.count(f"the end of {name} says its circle", is_good, hanging.errors)
    folder = tests.histories("record-timeout")
    words = [TIMES, "calls_of_two_threads_without_end"]
    told = ran(["timeout", "1", RECORD, "-o", folder, "--", *words])
    is_good = told[0] == 124 and not is_running(" ".join(words))
    tests.count("timeout ends aqs-record and its program", is_good, str(told))
    is_good = len(index_of(first_process(folder))) == 2
    tests.count("what it recorded is whole", is_good)


def is_running(words):
    """Whether a process has these words."""
    for file in glob.glob("/proc/[0-9]*/cmdline"):
        try:
            if pathlib.Path(file).read_bytes().replace(b"\0", b" ").decode(errors="replace").strip() == words:
                return True
        except OSError:
            pass
    return False


def check_stripped(tests):
    """Without debug information the index is whole, and places have no lines."""
    folder, stripped = tests.histories("record-stripped"), os.path.join(tests.folder, "strip: ped")
    if not shutil.which("strip"):
        tests.left_out("a program without debug information", "there is no strip")
        return
    ran(["strip", "-o", stripped, PROGRAM])
    told = ran([RECORD, "-o", folder, "--", stripped, "4", "3"])
    if tests.count("a recorded program without debug information", told[0] == 0, str(told)):
        check_index(tests, "a program without debug information", first_process(folder))
        files = [os.path.basename(file) for file in glob.glob(f"{folder}/*/*.history")]
        is_good = all(re.fullmatch(r"\d+-[a-z]+-strip__ped\+0x[0-9a-f]+\.history", file) for file in files)
        tests.count("files have plain names", is_good, str(files))


def check_refusals(tests):
    """A folder that can't be made is said once, and the program runs on. The exit status is the program's."""
    told = ran([RECORD, "-o", "/proc/none/such", "--", PROGRAM, "4", "2"])
    is_said = told[0] == 0 and told[2].count("aqs: can't make") == 1
    tests.count("a folder that can't be made is said once", is_said, str(told))
    told = ran([RECORD, "-o", tests.histories("record-status"), "--", "sh", "-c", "exit 7"])
    tests.count("the exit status is the program's", told[0] == 7, str(told))
    tests.count("aqs-record with no program is a fault", ran([RECORD])[0] == 2)
    told = ran([RECORD, "-k", "many", "--", "true"])
    tests.count("aqs-record with a word for a number is a fault", told[0] == 2, str(told))


def check_full_disk(tests):
    """A history that is not written whole doesn't take the place of the one from before, and the fault is told."""
    folder, case = tests.histories("record-full-disk"), "writes_a_little_and_much"
    words = ["sh", "-c", "trap '' XFSZ; ulimit -f 8; exec \"$@\"", "sh", RECORD, "-o", folder, "--", ANSWERS, case]
    told = ran(words)
    is_told = told[:2] == (0, "done\n") and told[2].count("aqs: can't write ") == 1
    tests.count("a history that has no room on the disk is told", is_told, str(told))
    lines = sorted(text.count("\n") for text in texts_of(first_process(folder)))
    tests.count("the one from before stays", lines == [4, 4, 4], str(lines))
    index = pathlib.Path(first_process(folder), "index").read_text()
    tests.count("the index is whole, and has no more", index.count("\n") == 2 + 3, index)
    tests.audit("a full disk", f"{folder}/*")


def check_script(tests):
    """What aqs-record makes of its words and its surroundings, and what it leaves of them."""
    folder, room = tests.histories("record-script"), tests.histories("record-room")
    words = ["sh", "-c", 'printf "%s|" "$@" "$LD_PRELOAD"', "sh", "a b", "", "*"]
    told = ran([RECORD, "-o", folder, "--", *words], LD_PRELOAD="libm.so.6", TMPDIR=room)
    tests.count("words and LD_PRELOAD are kept", told[1] == f"a b||*|{LIBRARY}:libm.so.6|", str(told))
    tests.count("nothing is left in TMPDIR", not os.listdir(room), str(os.listdir(room)))
    told = ran([RECORD, "-o", folder, "--", "sh", "-c", "kill -9 $$"])
    tests.count("a program that is killed", told[0] == 128 + signal.SIGKILL, str(told))
    # If this check was started with SIGINT ignored, a shell in it could not trap SIGINT.
    usual = signal.signal(signal.SIGINT, signal.default_int_handler)
    try:
        told = ran([RECORD, "-o", folder, "--", "sh", "-c", "trap 'exit 7' INT; kill -INT 0; exit 8"])
    finally:
        signal.signal(signal.SIGINT, usual)
    tests.count("a program that ends by Ctrl-C, which is for both", told[0] == 7, str(told))
    told, other = [ran([RECORD, word]) for word in ("-h", "--help")], ran([RECORD, "-x", "--", "true"])
    is_good = told[0] == told[1] and told[0][0] == 0 and told[0][1].startswith("usage: ") and not told[0][2]
    is_good = is_good and other[0] == 2 and other[2].startswith("aqs-record: there is no option -x\nusage: ")
    tests.count("aqs-record says its usage", is_good, f"{told}\n{other}")
    told = [ran([RECORD, *words]) for words in (("-o",), ("--now", "me"), ("--report",))]
    tests.count("an option without its word is a fault", [it[0] for it in told] == [2] * 3, str(told))
    told = [ran([RECORD, *words]) for words in (("--report", room), ("--now", str(os.getpid())))]
    is_good = [it[0] for it in told] == [1] * 2 and all(it[2].startswith("aqs-record: ") for it in told)
    tests.count("what recorded nothing has no report", is_good, str(told))
    asleep = subprocess.Popen(["sleep", "60"], env={**os.environ, "AQS_RECORD": folder})
    times = pathlib.Path(folder, f"sleep.{asleep.pid}", "times")
    times.parent.mkdir()
    times.touch()
    os.utime(times, (2**31, 2**31))
    told = ran([RECORD, "--now", str(asleep.pid)])
    asleep.wait()
    tests.count("a report that isn't whole is a fault", told[0] == 1, str(told))
    told = ran(["sh", "-c", f"echo words | {RECORD} -o{folder} -k100 -e5 -- cat"])
    tests.count("a program has the standard input of aqs-record", told == (0, "words\n", ""), str(told))
    alone = shutil.copy(RECORD, room)
    tests.count("aqs-record without its library", ran([alone, "--", "true"])[0] == 127)
    ignoring = ["sh", "-c", f"trap '' USR2; exec {ANSWERS} reads_beside_sigusr2"]
    told = ran(ignoring), ran([RECORD, "-o", folder, "--", *ignoring])
    is_good = told[0][:2] == told[1][:2] == (0, "it is ignored\n1 byte\n")
    tests.count("a program that ignores SIGUSR2", is_good, str(told))


def record_elsewhere(tests, folder, words, **environment):
    """Records a program that goes to another folder. Its own is there, with a history, names, an index and times."""
    told = ran([*words, ANSWERS, "uses_a_mutex_elsewhere"], cwd=tests.folder, **environment)
    made = processes(os.path.join(tests.folder, folder))
    files = [len(os.listdir(path)) for path in made]
    tests.count(f"what is recorded goes to {folder}", told == (8, "", "") and files == [4], f"{told} {made}")
    return made[0] if made else ""


def check_folders(tests):
    made = record_elsewhere(tests, "made/below", [RECORD, "-o", "made/below//", "--"])
    record_elsewhere(tests, "by/hand", [], AQS_RECORD="by/hand/", LD_PRELOAD=LIBRARY)
    at = f"{tests.folder}/at"
    if tests.run("make install of the recorder", ["make", "-s", "install", f"PREFIX={at}"], cwd=HERE):
        record_elsewhere(tests, "by/installed", [f"{at}/bin/aqs-record", "-o", "by/installed", "--"])
    room = tests.histories("record-nothing")
    for environment in ({}, {"AQS_RECORD": ""}):
        told = ran([ANSWERS, "uses_a_mutex_elsewhere"], cwd=room, LD_PRELOAD=LIBRARY, **environment)
        tests.count("without a folder nothing is recorded", told == (8, "", "") and not os.listdir(room), str(told))
    if made and shutil.which("addr2line"):
        index = pathlib.Path(made, "index")
        text, source = index.read_text(), (HERE / "test" / "answers.c").read_text().split("\n")
        line = 1 + next(i for i, it in enumerate(source) if "/* the first call */" in it)
        tests.count("the index names the line", text.endswith(f"/answers.c:{line}\n"), text)
        ran([RECORD, "-o", "made/below", "--", ANSWERS, "uses_a_mutex_elsewhere"], cwd=tests.folder)
        tests.count("an index of another run stays as it is", index.read_text() == text, index.read_text())
    [line] = index_of(first_process(tests.histories("answers-calls_by_a_name")))
    is_good = re.fullmatch(r"1-mutex-From_A_to_z_09\+0x[0-9a-f]{1,3}\.history", line.file)
    tests.count("a file has the name of the function that called first", bool(is_good), line.file)
    folder = tests.histories("record-address")
    told = ran([RECORD, "-o", folder, "--", ANSWERS, "calls_by_a_name"])
    text = pathlib.Path(first_process(folder), "index").read_text()
    is_good = f"  mutex     {told[2].strip()}  1-mutex-" in text
    tests.count("the index has the address of the mutex", is_good, f"{told}\n{text}")
    names = [os.path.basename(path) for path in processes(tests.histories("answers-executes_another"))]
    is_good = len(names) == 2 and names[1] == f"{names[0]}.2"
    tests.count("a process that executes another has two folders", is_good, str(names))


def check(tests, judged):
    if not tests.run("the recorder is built", ["make", "-s", "all", "tests"], 300, cwd=HERE):
        return
    tests.run("texts that follow each other, and lack memory", [OUT / "texts"])
    tests.run("memory of the recorder's own", [OUT / "heaps"])
    tests.run("who waits for a seat gets the one that comes free", [OUT / "seats"])
    check_refusals(tests)
    check_rare_cases(tests)
    check_what_is_recorded(tests)
    check_answers(tests)
    check_numbers(tests)
    check_gone(tests)
    check_counts(tests)
    check_full_disk(tests)
    check_script(tests)
    check_folders(tests)
    for words in RUNS:
        check_run(tests, words)
    check_folded(tests)
    check_killed(tests, " when asked by SIGUSR2", judged, True, AQS_EVERY="0")
    check_killed(tests, " by itself", judged, False)
    check_killed(tests, " in a child", judged, False, "child")
    check_cost(tests)
    check_forks(tests)
    check_known_times(tests)
    check_people(tests)
    check_short_holds(tests)
    check_circles(tests)
    check_ends(tests)
    check_stripped(tests)
