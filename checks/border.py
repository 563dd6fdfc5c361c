#!/usr/bin/env python3
"""Compares the headers for C with what the proved library exports: checks/border.py.

The exports, structs and numbers are read from the sources of crates/aqs_c and of the crates below it. They become
a file in C, which declares all of them once more and includes the headers. So the C compiler compares names, the
number and types of parameters and results, the fields of each struct with their places, and each constant. What a
header declares beyond that is found by its name. The declarations of the Rust crate in bindings/, and the numbers of
statuses in Rust, Python and Java, are compared with aqs.h in the same way. The last line is 'N passed, M failed'.
"""
import pathlib
import re
import subprocess
import sys

ROOT = pathlib.Path(__file__).resolve().parent.parent
HEADERS = ROOT / "bindings" / "c"
ARCHIVE = ROOT / "crates" / "aqs_c" / "out" / "libaqs_c.a"
LIBRARY = HEADERS / "out" / "libaqs.a"
RUST = ROOT / "bindings" / "rust" / "aqs" / "src"
# Where other languages have numbers of aqs.h, and in what form.
COPIES = (
    (RUST / "error.rs", r"Error::(\w+) => (\d+),"),
    (RUST / "object.rs", r"const (\w+): sys::Status = (\d+);"),
    (ROOT / "bindings" / "python" / "aqs" / "_library.py", r"(?m)^ *([A-Z_]+) = (\d+)$"),
    (ROOT / "bindings" / "java" / "src" / "aqs" / "Native.java", r"\b([A-Z_]+) = (\d+)[,;]"),
)
# Of Java only the list of statuses: other numbers follow it.
JAVA = r"static final int OK = 0,[^;]*;"
NUMBERED = ["history/src/entry.rt", "history/src/fault.rt", "aqs_c/src/answers.rt", "aqs_c/src/calls.rt",
            "aqs_c/src/opening.rt", "aqs_c/src/steps.rt"]
# Enums of which a variant's place is its number (`entry.end as u8`).
BY_PLACE = ("End", "Mode")

# The constants of each enum begin so.
FAMILIES = {
    "Word": "AQS_WORD_", "End": "AQS_END_", "Mode": "AQS_MODE_", "Fault": "AQS_FAULT_", "Step": "AQS_STEP_",
    "Request": "AQS_CALL_", "How": "AQS_HOW_", "Woke": "AQS_WOKE_", "Policy": "AQS_CORE_",
    "Object": "AQS_KIND_",
}
# Constants whose names in C aren't those of the sources.
OTHERWISE = {
    "AQS_MODE_X": "AQS_MODE_EXCLUSIVE", "AQS_MODE_S": "AQS_MODE_SHARED", "AQS_IS_WAITS": "AQS_IS_WAITING",
    "AQS_CALL_AWAIT_ON": "AQS_CALL_AWAIT", "AQS_WOKE_INTERRUPTED": "AQS_WOKE_INTERRUPT",
    "AQS_CORE_NON_FAIR": "AQS_CORE_NONFAIR",
}
OPENING = {
    "OPENED": None, "OUT_OF_MEMORY": "AQS_FAULT_OUT_OF_MEMORY", "NOT_EMPTY": "AQS_CORE_NOT_EMPTY",
    "OUT_OF_RANGE": "AQS_CORE_OUT_OF_RANGE",
}
# What aqs_core.h defines for its own use.
OF_C = {"AQS_CORE_H", "AQS_NO_PASS"}

TYPES = {
    "u8": "uint8_t", "u16": "uint16_t", "u32": "uint32_t", "u64": "uint64_t", "i32": "int32_t", "i64": "int64_t",
    "usize": "size_t", "bool": "_Bool", "c_char": "char", "Status": "aqs_status_t", "RwLock": "aqs_rwlock_t",
}


def words_of(name):
    """TryGot as TRY_GOT."""
    return re.sub(r"(?<!^)(?=[A-Z])", "_", name).upper()


def c_name(name):
    """AqsAnswer as aqs_answer_t, and so is a type of the Rust crate."""
    known = TYPES.get(name)
    return known or f"aqs_{words_of(name.removeprefix('Aqs')).lower()}_t"


def c_types(text):
    """The types in C of a parameter, of which a slice makes two and the allocator none."""
    text = text.strip()
    if text == "Global":
        return []
    if text == "*mut u8":
        return ["void *"]
    slice_ = re.fullmatch(r"&mut \[(\w+)\]", text)
    if slice_:
        return [f"{c_name(slice_[1])} *", "size_t"]
    for mark, form in ((r"&mut |\*mut ", "{} *"), (r"\*const |&", "const {} *")):
        pointer = re.match(mark, text)
        if pointer:
            return [form.format(*c_types(text[pointer.end():]))]
    return [c_name(text)]


def parameters(text):
    return [it for part in re.findall(r"\w+: ([^,]+)(?:,|$)", text.strip()) for it in c_types(part)]


def functions(text, form):
    """The functions of this form, by name, each as a declaration in C."""
    found = {}
    for name, taken, result in re.findall(form + r" fn (\w+)\(([^)]*)\)(?: -> ([\w* ]+\w))?", text):
        returned = c_types(result)[0] if result else "void"
        found[name] = f"{returned} {name}({', '.join(parameters(taken)) or 'void'});"
    return found


def fields(text, structs):
    """The fields of a struct, with those of the structs in it in their places."""
    text = re.sub(r"ghost \w+: \{[^}]*\}(?: by \{[^}]*\})?,|ghost \w+: \w+,|//.*", "", text)
    found = []
    for name, of in re.findall(r"(\w+): ([^,]+),", text):
        found += structs[of] if of in structs else [(name, it) for it in c_types(of)]
    return found


def structs_of(texts):
    """Each struct that C sees: its fields, by name and type."""
    form = r"#\[repr\(C\)\]\n(?:#\[[^\n]*\]\n)*pub struct (\w+) \{\n(.*?)\n\}"
    bodies = dict(re.findall(form, "\n".join(texts), re.S))
    structs = {}
    for name in sorted(bodies, key=lambda it: any(other in bodies[it] for other in bodies if other != it)):
        structs[name] = fields(bodies[name], structs)
    return structs


def numbers_of(path, text):
    """The constants of a source, by their names in C."""
    pairs = re.findall(r"\b(\w+)::(\w+)(?:\(_\))? => (\d+),", text)
    made = re.findall(r"\b(\d+) => (?:\{[^=]*?)?Some\((\w+)::(\w+)", text)
    pairs += [(of, name, number) for number, of, name in made]
    for of, body in re.findall(r"pub enum (\w+) \{\n(.*?)\n\}", text, re.S):
        pairs += [(of, name, at) for at, name in enumerate(re.findall(r"(?m)^    (\w+),", body)) if of in BY_PLACE]
    found = {}
    for of, name, number in pairs:
        if of in FAMILIES:
            found.setdefault(FAMILIES[of] + words_of(name), set()).add(int(number))
    for name, number in re.findall(r"const (\w+): u8 = (\d+);", text):
        known = OPENING[name] if path.endswith("opening.rt") else f"AQS_IS_{name}"
        if known:
            found.setdefault(known, set()).add(int(number))
    for name, number in re.findall(r"const (\w+): u32 = (\d+);", text):
        found.setdefault(f"AQS_{name}", set()).add(int(number))
    return {OTHERWISE.get(name, name): numbers for name, numbers in found.items()}


class Border:
    """What the sources say: exports, structs and constants."""

    def __init__(self, crates):
        texts = [path.read_text() for path in sorted((crates / "aqs_c" / "src").glob("*.rt"))]
        self.exports = {}
        for text in texts:
            self.exports.update(functions(text, r'pub extern "C"'))
        self.structs = {it: of for it, of in structs_of(texts).items() if it.startswith("Aqs")}
        self.numbers = {}
        for path in NUMBERED:
            for name, numbers in numbers_of(path, (crates / path).read_text()).items():
                self.numbers.setdefault(name, set()).update(numbers)
        limits = (crates / "history" / "src" / "limits.rt").read_text()
        self.threads = int(re.search(r"const MOST_SEATS: \w+ = (\d+);", limits)[1])

    def as_c(self):
        lines = ['#include "aqs.h"', '#include "aqs_core.h"', *self.exports.values()]
        for name, of in self.structs.items():
            lines += struct_as_c(c_name(name), of)
        for name, numbers in self.numbers.items():
            lines += [same(f"{name} == {number}", name) for number in sorted(numbers)]
        return [*lines, same(f"AQS_THREADS == {self.threads}", "AQS_THREADS")]


def same(fact, of):
    return f'_Static_assert({fact}, "{of}");'


def struct_as_c(name, of):
    """The struct once more. Each field must have the type and place of the header's, which has no others."""
    yield f"struct own_{name} {{ {' '.join(f'{kind} {it};' for it, kind in of)} }};"
    yield same(f"sizeof({name}) == sizeof(struct own_{name})", name)
    for it, kind in of:
        yield same(f"offsetof({name}, {it}) == offsetof(struct own_{name}, {it})", f"{name}.{it}")
        yield same(f"__builtin_types_compatible_p(__typeof__((({name} *)0)->{it}), {kind})", f"{name}.{it}")
    yield f"extern {name} whole_{name}; {name} whole_{name} = {{ {', '.join('0' for _ in of)} }};"


def compiled(lines, include):
    """What the compiler says of these lines: nothing where all agrees."""
    flags = ["-std=gnu11", "-fsyntax-only", "-Wall", "-Wextra", "-Werror", f"-I{include}"]
    text = "\n".join([*lines, ""])
    ran = subprocess.run(["cc", *flags, "-x", "c", "-"], input=text, capture_output=True, text=True)
    said = [line for line in ran.stderr.splitlines() if "error" in line]
    return said if said or not ran.returncode else ["the C compiler failed"]


def without_comments(text):
    return re.sub(r"/\*.*?\*/", "", text, flags=re.S)


def beyond(text, border):
    """What the header declares that the sources don't."""
    text = without_comments(text)
    more = set(re.findall(r"\b(aqs_\w+)\(", text)) - set(border.exports)
    more |= set(re.findall(r"\} (aqs_\w+_t);", text)) - {c_name(it) for it in border.structs}
    more |= set(re.findall(r"\bAQS_\w+", text)) - set(border.numbers) - OF_C
    return [f"aqs_core.h alone has {name}" for name in sorted(more)]


def differences(crates=ROOT / "crates", include=HEADERS):
    """How aqs_core.h differs from the exports."""
    border = Border(crates)
    header = (include / "aqs_core.h").read_text()
    return compiled(border.as_c(), include) + beyond(header, border)


def rust_differences(declared=RUST / "sys.rs", include=HEADERS):
    """How the Rust crate's declarations differ from aqs.h."""
    text = declared.read_text()
    lines = ['#include "aqs.h"', *functions(text, "pub").values()]
    enums = {"policy": "aqs_policy_t", "when_full": "aqs_when_full_t"}
    options = fields(re.search(r"pub struct Options \{\n(.*?)\n\}", text, re.S)[1], {})
    options = [(name, enums.get(name, of)) for name, of in options]
    return compiled([*lines, *struct_as_c("aqs_options_t", options)], include)


def copies_differ(include=HEADERS):
    """How the numbers of statuses and policies in other languages differ from those of aqs.h."""
    lines = ['#include "aqs.h"']
    for file, form in COPIES:
        text = file.read_text()
        if file.suffix == ".java":
            text = "".join(re.findall(JAVA, text))
        found = re.findall(form, text)
        lines += [same(f"AQS_{name if name.isupper() else words_of(name)} == {n}", file.name) for name, n in found]
        if not found:
            lines.append(f"#error {file.name} has no numbers")
    return compiled(lines, include)


def symbols_differ(archive=ARCHIVE):
    """How the names that the built library defines differ from the exports."""
    ran = subprocess.run(["nm", "-g", "--defined-only", archive], capture_output=True, text=True)
    named = set(re.findall(r" T (aqs_\w+)$", ran.stdout, re.M))
    exports = set(Border(ROOT / "crates").exports)
    return [f"{name} isn't in both the library and its sources" for name in sorted(named ^ exports)]


def inner_names(library=LIBRARY):
    """What the library for programs defines for all to see, and doesn't begin with aqs_."""
    ran = subprocess.run(["nm", "-g", "--defined-only", library], capture_output=True, text=True)
    named = re.findall(r"^[0-9a-f]+ \w (\w+)$", ran.stdout, re.M)
    inner = [f"{library.name} shows {it}" for it in sorted(named) if not it.startswith("aqs_")]
    return inner if named else [f"{library.name} shows no names"]


CHECKS = (
    ("aqs_core.h declares what crates/aqs_c exports", differences),
    ("the library defines these names", symbols_differ),
    ("libaqs.a shows no other names", inner_names),
    ("the Rust crate declares what aqs.h does", rust_differences),
    ("Rust, Python and Java have the numbers of aqs.h", copies_differ),
)


def checked():
    """Prints each check, and returns how many passed and how many failed."""
    passed, made = 0, 0
    for name, check in CHECKS:
        needs = {symbols_differ: ARCHIVE, inner_names: LIBRARY}.get(check)
        if needs and not needs.is_file():
            print(f"left out: {name}: {needs} isn't built", flush=True)
            continue
        made += 1
        found = check()
        print("\n".join([f"{'FAILED' if found else 'ok'}: {name}", *found]), flush=True)
        passed += not found
    return passed, made - passed


if __name__ == "__main__":
    numbers = checked()
    print(f"{numbers[0]} passed, {numbers[1]} failed")
    sys.exit(1 if numbers[1] else 0)
