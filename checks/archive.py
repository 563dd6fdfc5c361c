#!/usr/bin/env python3
"""Uses the archive of a release as somebody without the kit would: checks/archive.py [PROGRAM]      at the top

It takes release/tunicschist-VERSION-x86_64-linux.tar.gz, which is a part of the repository. With PROGRAM, it takes one
that tools/dist.sh makes of what checks/bindings.py has built, with PROGRAM (crates/aqs/out/aqs). In a folder that has
only the archive and examples/ it types the commands of README: those of the first screen, those that install it, and
of each row of the table the one that compiles and runs a program in that language. That of C is
bindings/c/examples/first.c, and each other opens the object as the row says. The sum of each source in SOURCES.sha256
is compared with the commit that the archive names. The installed aqs-record records a program. A file of the archive
that was changed must not be installed, and nothing may be left after --uninstall. A language for which the machine has no tools is left out, and printed. The last
line is 'N passed, M failed'.
"""
import hashlib
import os
import pathlib
import re
import shutil
import subprocess
import sys
import tempfile

ROOT = pathlib.Path(__file__).resolve().parent.parent
ROW = re.compile(r"(?m)^\| (C|C\+\+|Rust|Python|Java) \| `([^`]+)` \| `([^`]+)` \|$")
TYPED = re.compile(r"(?m)^<!-- not checked: archive.py types [^\n]*-->\n\n((?:    .*\n)+)")
SECONDS = 900

RECORDED = """#include <pthread.h>
int main(void) {
    pthread_mutex_t mutex = PTHREAD_MUTEX_INITIALIZER;
    return pthread_mutex_lock(&mutex) || pthread_mutex_unlock(&mutex);
}
"""
CPP = "#include <aqs.hpp>\n#include <mutex>\nint main() { %s std::lock_guard<aqs::mutex> guard(lock); return 0; }\n"
C = """#include <aqs.h>
int main(void) {
    aqs_lock_t *lock;
    %s
    if (status != AQS_OK || aqs_lock_lock(lock) != AQS_OK || aqs_lock_unlock(lock) != AQS_OK) return 1;
    aqs_lock_close(lock);
    return 0;
}
"""
RUST = "fn main() { %s *number.lock() += 1; }\n"
CARGO = '[package]\nname = "first"\nversion = "0.1.0"\nedition = "2021"\n\n[dependencies]\n'
PYTHON = "import aqs\n%s\nwith lock:\n    pass\n"
JAVA = "import aqs.*;\npublic class First {\n    public static void main(String[] words) {\n        %s\n" \
    "        lock.lock();\n        lock.unlock();\n        lock.close();\n    }\n}\n"
TOOLS = {"C": "cc", "C++": "c++", "Rust": "cargo", "Python": "pip", "Java": "javac"}


def version():
    return (ROOT / "VERSION").read_text(encoding="utf-8").strip()


def openings(page):
    """Returns of each language of README's table how a lock is opened, and the command that compiles and runs."""
    return {it[1]: (it[2], it[3]) for it in ROW.finditer(page)}


def typed(page):
    """Returns the blocks of commands that README says are typed here."""
    return [[line.strip() for line in it.splitlines()] for it in TYPED.findall(page)]


class Checks:
    """Counts what passed and what failed, in a folder of its own."""

    def __init__(self, room):
        self.room, self.passed, self.failed = pathlib.Path(room), 0, 0

    def count(self, name, is_good, told=""):
        self.passed, self.failed = self.passed + is_good, self.failed + (not is_good)
        print(f"{'ok' if is_good else 'FAILED'}: {name}", flush=True)
        if not is_good:
            print(told[-3000:], flush=True)
        return is_good

    def run(self, name, words, status=0, printed="", cwd=None, **environment):
        """Runs a command. It has to end with this status, and to print this text."""
        try:
            ran = subprocess.run(
                [str(it) for it in words], cwd=cwd or self.room, stdin=subprocess.DEVNULL, stdout=subprocess.PIPE,
                stderr=subprocess.STDOUT, text=True, errors="replace", timeout=SECONDS,
                env={**os.environ, **{key: str(it) for key, it in environment.items()}},
            )
        except (OSError, subprocess.TimeoutExpired) as fault:
            return self.count(name, False, str(fault))
        return self.count(name, ran.returncode == status and printed in ran.stdout, ran.stdout)

    def left_out(self, name, why):
        print(f"left out: {name}: {why}", flush=True)

    def write(self, name, text):
        path = self.room / name
        path.parent.mkdir(parents=True, exist_ok=True)
        path.write_text(text, encoding="utf-8")
        return path


def environment(room):
    """Returns what README's commands find: a home of their own, and what is installed there."""
    home = pathlib.Path.home()
    return {
        "HOME": room, "PKG_CONFIG_PATH": room / ".local/lib/pkgconfig", "PIP_TARGET": room / "site", "PIP_NO_INDEX": "1",
        "PIP_NO_DEPS": "1", "PIP_DISABLE_PIP_VERSION_CHECK": "1", "PYTHONPATH": room / "site", "CARGO_NET_OFFLINE": "true",
        "CARGO_HOME": os.environ.get("CARGO_HOME", home / ".cargo"),
        "RUSTUP_HOME": os.environ.get("RUSTUP_HOME", home / ".rustup"),
    }


def laid(checks, program):
    """Lays an archive and examples/ into the folder. Returns whether the archive is there and its sum is right."""
    release = checks.room / "release"
    if program:
        checks.run("the archive is made", [ROOT / "tools/dist.sh", release], AQS=program)
    elif (ROOT / "release").is_dir():
        shutil.copytree(ROOT / "release", release)
    (checks.room / "examples").symlink_to(ROOT / "examples")
    name = f"tunicschist-{version()}-x86_64-linux.tar.gz"
    if not checks.count(f"release/{name} is there", (release / name).is_file()):
        return False
    return checks.run("its sum is right", ["sha256sum", "--check", f"{name}.sha256"], cwd=release)


def check_first_screen(checks, commands):
    """Types the commands of the first screen, and compares what the last one prints with the example's answers."""
    wanted = (ROOT / "examples/barging.answers").read_text(encoding="utf-8")
    for command in commands[:-1]:
        checks.run(command, ["bash", "-c", command])
    checks.run(commands[-1], ["bash", "-c", commands[-1]], printed=wanted)


def check_installed(checks, commands):
    """Types the commands that install, and returns whether the program and its man page are there."""
    line = " && ".join(commands)
    checks.run(line, ["bash", "-c", line], printed="installed in", **environment(checks.room))
    prefix = checks.room / ".local"
    return checks.count("the program and its page", (prefix / "bin/aqs").exists() and (prefix / "share/man/man1/aqs.1").exists())


def programs(checks, lines):
    """Writes the program of each language, and returns what each has to print."""
    (checks.room / "bindings/c/examples").mkdir(parents=True)
    shutil.copyfile(ROOT / "bindings/c/examples/first.c", checks.room / "bindings/c/examples/first.c")
    checks.write("opening.c", C % lines["C"][0])
    checks.write("first.cpp", CPP % lines["C++"][0])
    checks.write("Cargo.toml", CARGO)
    checks.write("src/main.rs", RUST % lines["Rust"][0])
    checks.write("first.py", PYTHON % lines["Python"][0])
    checks.write("First.java", JAVA % lines["Java"][0])
    return {"C": "42\n"}


def check_languages(checks, lines):
    printed = programs(checks, lines)
    for language, (_, command) in lines.items():
        if not shutil.which(TOOLS[language]):
            checks.left_out(language, f"there is no {TOOLS[language]}")
            continue
        checks.run(command, ["bash", "-c", command], printed=printed.get(language, ""), **environment(checks.room))
    command = lines["C"][1].replace("bindings/c/examples/first", "opening").replace("first", "opening")
    checks.run(command, ["bash", "-c", command], **environment(checks.room))


def check_record(checks):
    """The installed aqs-record records a program that was built without the library, and aqs audits its history."""
    source, recorded, prefix = checks.write("recorded.c", RECORDED), checks.room / "recorded", checks.room / ".local"
    if checks.run("a program with a mutex is compiled", ["cc", source, "-pthread", "-o", f"{source}.out"]):
        record, said = prefix / "bin/aqs-record", "mutex 1, "
        checks.run("aqs-record records it", [record, "-o", recorded, "--times", "--", f"{source}.out"], printed=said)
        checks.run("aqs-record says what it did", [record, "--report", recorded], printed=said)
        history = next(recorded.glob("*/*.history"), None)
        if checks.count("it left a history", history is not None):
            checks.run("aqs audits that history", [prefix / "bin/aqs", "audit", history], printed="legal")


def check_sources(checks, archive, is_release):
    """Compares the sum of each source with the commit that the archive names."""
    about = dict(it.split(" ", 1) for it in (archive / "VERSION").read_text(encoding="utf-8").splitlines())
    sums = (archive / "SOURCES.sha256").read_bytes()
    checks.count("the archive has this version", about["version"] == version(), about["version"])
    checks.count("SOURCES.sha256 is the one that VERSION names", hashlib.sha256(sums).hexdigest() == about["sources"])
    commit, _, changes = about["commit"].partition(", ")
    if is_release:
        checks.count("the sources of a release are those of a commit", not changes, about["commit"])
    if changes:
        checks.left_out("the sources", "they are of no commit")
        return
    if subprocess.run(["git", "cat-file", "-e", f"{commit}^{{commit}}"], cwd=ROOT, stderr=subprocess.DEVNULL).returncode:
        checks.left_out("the sources", f"this tree's history has no commit {commit}")
        return
    room = checks.room / "commit"
    room.mkdir()
    taken = f"git -C '{ROOT}' archive {commit} crates | tar -xf - -C '{room}'"
    if checks.run(f"the sources of {commit} are taken", ["bash", "-c", taken]):
        words = ["sha256sum", "--check", "--quiet", archive / "SOURCES.sha256"]
        checks.run("each source is as in that commit", words, cwd=room)


def check_refusal(checks, archive):
    """Nothing stays after --uninstall, and nothing is installed of an archive with a changed file."""
    prefix, again = checks.room / ".local", checks.room / "again"
    checks.run("it is uninstalled", [archive / "install.sh", "--uninstall", prefix])
    left = [it for it in prefix.rglob("*") if not it.is_dir()]
    checks.count("nothing of it is left", not left, str(left))
    with open(archive / "lib/libaqs.a", "ab") as it:
        it.write(b"\0")
    checks.run("a changed archive is refused", [archive / "install.sh", again], 1, "not as it was made")
    checks.count("and nothing of it is installed", not again.exists() or not any(again.rglob("*")))


def checked(program):
    """Returns how many checks passed and failed."""
    page = (ROOT / "README.md").read_text(encoding="utf-8")
    lines, blocks = openings(page), typed(page)
    with tempfile.TemporaryDirectory(prefix="archive-") as room:
        checks = Checks(room)
        is_whole = checks.count("README has commands, and a row for each language", len(blocks) == 2 and len(lines) == 5)
        if is_whole and laid(checks, program):
            check_first_screen(checks, blocks[0])
            if check_installed(checks, blocks[1]):
                check_languages(checks, lines)
                check_record(checks)
            archive = checks.room / f"tunicschist-{version()}"
            check_sources(checks, archive, not program)
            check_refusal(checks, archive)
    return checks.passed, checks.failed


def main(words):
    if len(words) > 1:
        sys.exit(__doc__)
    passed, failed = checked(os.path.abspath(words[0]) if words else None)
    print(f"{passed} passed, {failed} failed")
    return 1 if failed else 0


if __name__ == "__main__":
    sys.exit(main(sys.argv[1:]))
