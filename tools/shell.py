#!/usr/bin/env python3
"""Makes the man page of `aqs`, and what completes its words in bash, zsh and fish: tools/shell.py [--write]

All is made from the pages of `aqs manual`, which stand in crates/aqs/src/texts.rt: the commands and what they do
from the overview, the options of a command and what they do from its page. --write writes the files of tools/shell/.
Without it the files must be what is made. The last line is 'N files, M not as made', and the status is 1 if M is not 0.
"""

import pathlib
import re
import sys

TOP = pathlib.Path(__file__).resolve().parent.parent
TEXTS = TOP / "crates" / "aqs" / "src" / "texts.rt"
FOLDER = TOP / "tools" / "shell"

NAME, FILE, DIRECTORY = "N", "F", "D"  # what a page writes where an option takes no number
CONSTANT = re.compile(r'(?ms)^pub const (\w+): &\[u8\] = b"(.*?[^\\])";')
# A row of the overview, and one of an option: a name, and what it does, which may go on in the next lines.
ROW = re.compile(r"(?m)^  aqs (\w+)((?: \[[^\]]*\])*) {2,}(\S.*(?:\n {30,}\S.*)*)$")
OPTION = re.compile(r"(?m)^  --(\w+)( [A-Z])? {2,}(\S.*(?:\n {10,}\S.*)*)$")


def plain(text):
    """The text that a byte string of Rust spells."""
    text = re.sub(r"\\\n *", "", text)
    named = {"n": "\n", "\\": "\\", '"': '"'}
    return re.sub(r"\\(?:x([0-9a-f]{2})|(.))", lambda at: chr(int(at[1], 16)) if at[1] else named[at[2]], text)


def pages(source):
    """The pages by the names of their constants."""
    return {name: plain(text) for name, text in CONSTANT.findall(source)}


def joined(text):
    """Lines of a table's cell as one."""
    return " ".join(text.split())


def commands(pages_):
    """The name of each command, and what it does in its first row."""
    found = {}
    for name, _, told in ROW.findall(pages_["OVERVIEW"]):
        found.setdefault(name, joined(told))
    return found


def options(page):
    """The options of a command: the name, what follows it, if anything, and what it does, in a sentence."""
    return [(name, value.strip(), joined(told).split(". ")[0]) for name, value, told in OPTION.findall(page)]


def options_of(pages_):
    return {name: options(pages_.get(name.upper(), "")) for name in commands(pages_)}


def reads_file(name):
    return name not in ("manual", "about")


# ---- the man page


def roff(line):
    """A line as roff has it."""
    line = line.replace("\\", "\\e").replace("-", "\\-")
    return "\\&" + line if line.startswith((".", "'")) else line


def literal(text):
    """Lines as they stand."""
    return "\n".join([".nf", *map(roff, text.rstrip("\n").split("\n")), ".fi"])


def man_page(pages_):
    parts = ['.TH AQS 1 "" Tunicschist "Tunicschist"', ".SH NAME"]
    first, _, rest = pages_["OVERVIEW"].partition("\n\n")
    summary = joined(first).removeprefix("aqs ").rstrip(".")
    parts += ["aqs \\- " + roff(summary), ".SH SYNOPSIS", literal(rest.partition("\n\n")[0])]
    parts += [".SH DESCRIPTION", literal(rest.partition("\n\n")[2])]
    for name in commands(pages_):
        page = pages_.get(name.upper())
        if page and reads_file(name):
            parts += [f".SH AQS {name.upper()}", literal(page)]
    return "\n".join([*parts, ".SH ABOUT", literal(pages_["ABOUT"]), ""])


# ---- completions


def bash(pages_):
    names = " ".join(commands(pages_))
    readers = [name for name in commands(pages_) if reads_file(name)]
    lines = [
        "# Completes the words of aqs in bash. Made by tools/shell.py.",
        "_aqs() {",
        "    local word=${COMP_WORDS[COMP_CWORD]} before=${COMP_WORDS[COMP_CWORD-1]} options=",
        "    COMPREPLY=()",
        "    if ((COMP_CWORD == 1)); then",
        f'        COMPREPLY=($(compgen -W "{names}" -- "$word"))',
        "        return",
        "    fi",
        "    case ${COMP_WORDS[1]} in",
    ]
    numbered = set()
    for name, found in options_of(pages_).items():
        numbered.update("--" + option for option, value, _ in found if value not in ("", FILE, DIRECTORY))
        if found:
            lines.append(f'        {name}) options="{" ".join("--" + option for option, _, _ in found)}" ;;')
    lines += [
        f'        manual) COMPREPLY=($(compgen -W "{" ".join(readers)}" -- "$word")); return ;;',
        "        about) return ;;",
        "    esac",
        f"    case $before in {'|'.join(sorted(numbered))}) return ;; esac",
        "    case $word in",
        '        -*) COMPREPLY=($(compgen -W "$options" -- "$word")) ;;',
        '        *) mapfile -t COMPREPLY < <(compgen -f -- "$word") ;;',
        "    esac",
        "}",
        "complete -o filenames -F _aqs aqs",
        "",
    ]
    return "\n".join(lines)


def quoted(text):
    """A text in single quotes, as shells have it."""
    return "'" + text.replace("'", "'\\''") + "'"


def zsh_told(text):
    """What zsh shows beside a word. Brackets and colons mean something there."""
    return re.sub(r"([\[\]:])", r"\\\1", text)


# What zsh completes after an option.
ZSH = {"": "", NAME: ":name:", FILE: ":file:_files", DIRECTORY: ":folder:_files -/"}


def zsh(pages_):
    lines = ["#compdef aqs", "# Completes the words of aqs in zsh. Made by tools/shell.py.", "", "local -a commands"]
    lines.append("commands=(")
    lines += ["    " + quoted(f"{name}:{zsh_told(told)}") for name, told in commands(pages_).items()]
    lines += [")", "if ((CURRENT == 2)); then", "    _describe command commands", "    return", "fi"]
    lines += ["local command=$words[2]", "shift words", "((CURRENT--))", "case $command in"]
    for name, found in options_of(pages_).items():
        told = [
            quoted(f"--{option}[{zsh_told(text)}]" + ZSH.get(value, ":number:"))
            for option, value, text in found
        ]
        if name == "manual":
            readers = " ".join(one for one in commands(pages_) if reads_file(one))
            told.append(quoted(f":command:({readers})"))
        elif reads_file(name):
            told.append("'*:file:_files'")
        if told:
            lines.append(f"    {name}) _arguments {' '.join(told)} ;;")
    return "\n".join([*lines, "esac", ""])


def fish(pages_):
    none = "not __fish_seen_subcommand_from " + " ".join(commands(pages_))
    lines = ["# Completes the words of aqs in fish. Made by tools/shell.py."]
    for name, told in commands(pages_).items():
        lines.append(f"complete -c aqs -f -n {quoted(none)} -a {name} -d {quoted(told)}")
    for name, found in options_of(pages_).items():
        seen = quoted(f"__fish_seen_subcommand_from {name}")
        for option, value, told in found:
            takes = {"": "", FILE: " -r", DIRECTORY: " -r"}.get(value, " -x")
            lines.append(f"complete -c aqs -n {seen} -l {option}{takes} -d {quoted(told)}")
    readers = " ".join(one for one in commands(pages_) if reads_file(one))
    lines.append(f"complete -c aqs -f -n '__fish_seen_subcommand_from manual' -a {quoted(readers)}")
    lines.append("complete -c aqs -f -n '__fish_seen_subcommand_from about'")
    return "\n".join([*lines, ""])


def made(source):
    """The text of each file."""
    pages_ = pages(source)
    return {"aqs.1": man_page(pages_), "aqs.bash": bash(pages_), "_aqs": zsh(pages_), "aqs.fish": fish(pages_)}


def main(words):
    files = made(TEXTS.read_text(encoding="utf-8"))
    if words == ["--write"]:
        FOLDER.mkdir(exist_ok=True)
        for name, text in files.items():
            (FOLDER / name).write_text(text, encoding="utf-8")
    wrong = [name for name, text in files.items()
             if not (FOLDER / name).is_file() or (FOLDER / name).read_text(encoding="utf-8") != text]
    for name in wrong:
        print(f"tools/shell/{name} is not as tools/shell.py makes it: tools/shell.py --write")
    print(f"{len(files)} files, {len(wrong)} not as made")
    return 1 if wrong else 0


if __name__ == "__main__":
    if sys.argv[1:] not in ([], ["--write"]):
        sys.exit(__doc__)
    sys.exit(main(sys.argv[1:]))
