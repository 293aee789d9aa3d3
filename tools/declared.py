#!/usr/bin/env python3
"""Generates the service's declarations of the proved library from the library's source.

    tools/declared.py             writes service/src/book/library/declared.rs
    tools/declared.py --check     compares that file with what would be written: a step of the gate

It declares each exported function of the crate book_c with its parameters, the fields of `Answer` and `Handle`, the statuses, and
the limit of series in a flush. A slice is declared as a pointer and a length. The allocator's handle has no size and is left out.
An unknown type is an error.
"""
import re
import subprocess
import sys
from typing import NoReturn

from tooling.crates import ROOT
from tooling.files import text_of, write

LIBRARY = f"{ROOT}/crates/book_c/src"
LIMITS = f"{ROOT}/crates/metric_events/src/limits.rt"
WRITTEN = f"{ROOT}/service/src/book/library/declared.rs"

HEAD = """//! What crosses between the service and the proved library: written by `tools/declared.py` from the source of the library
//! (`crates/book_c`). Who changes that runs it; `make test` compares. The service has no use for some of it.
"""
# An exported function up to its body or contract, each of which begins on a line of its own.
EXPORT = re.compile(r'((?:^///[^\n]*\n)*)^#\[unsafe\(no_mangle\)\]\npub extern "C" fn (\w+)\((.*?)\)(?: -> (\w+))?\n', re.M | re.S)
STATUS = re.compile(r"((?:^///[^\n]*\n)+)^pub const (\w+): u32 = (\d+);\n", re.M)
STRUCT = r"((?:^///[^\n]*\n)+)^#\[repr\(C\)\]\n(?:#[^\n]*\n)*^pub struct {} {{\n(.*?)^}}"
FIELD = re.compile(r"^    (?:pub )?(\w+): ([\w* ]+),$", re.M)
LIMIT = re.compile(r"((?:^///[^\n]*\n)+)^pub const MAX_TAKEN: \w+ = ([\d_]+);", re.M)
# A type without size, which is not passed at all.
NO_SIZE = "Global"
PLAIN = ("bool", "u32", "u64", "usize")
LENT = {"&mut Handle": "*mut Handle", "&mut Answer": "*mut Answer"}
SLICE = re.compile(r"&(mut )?\[(u8|u64)\]$")


def crossing(name: str, kind: str) -> list[str]:
    """How the service declares a parameter: not at all, as one parameter, or as a pointer and a length."""
    if kind == NO_SIZE:
        return []
    if kind in PLAIN:
        return [f"{name}: {kind}"]
    if kind in LENT:
        return [f"{name}: {LENT[kind]}"]
    if slice_of := SLICE.match(kind):
        how = "mut" if slice_of.group(1) else "const"
        return [f"{name}: *{how} {slice_of.group(2)}", f"{name}_length: usize"]
    wrong(f"{name}: {kind} is a type that the service can't declare")


def functions() -> str:
    lines = []
    for about, name, parameters, answer in EXPORT.findall(text_of(f"{LIBRARY}/lib.rt")):
        pairs = [it.strip().split(": ", 1) for it in parameters.split(",") if it.strip()]
        crossed = [text for name_of, kind in pairs for text in crossing(name_of, kind)]
        if answer and answer not in PLAIN:
            wrong(f"{name} returns {answer}")
        lines.append(f"{about}pub(super) fn {name}({', '.join(crossed)}){' -> ' + answer if answer else ''};\n")
    return 'extern "C" {\n' + "\n".join(lines) + "}\n"


def struct(file: str, name: str, traits: str, who: str) -> str:
    """A struct of the library, with the fields that have a size."""
    found = re.search(STRUCT.format(name), text_of(f"{LIBRARY}/{file}"), re.M | re.S)
    if not found:
        wrong(f"{file} has no struct {name}")
    fields = [(field, kind) for field, kind in FIELD.findall(found.group(2)) if kind != NO_SIZE]
    return f"{found.group(1)}#[repr(C)]\n{traits}pub({who}) struct {name} {{\n" \
        + "".join(f"pub({who}) {field}: {kind},\n" for field, kind in fields) + "}\n"


def statuses() -> str:
    found = STATUS.findall(text_of(f"{LIBRARY}/statuses.rt"))
    if len({number for _, _, number in found}) != len(found):
        wrong("two statuses have one number")
    consts = "\n".join(f"{about}pub const {name}: u32 = {number};" for about, name, number in found)
    named = ", ".join(name for _, name, _ in found)
    return "/// What a call answers with, in `Answer::status` or by itself.\n#[allow(dead_code)]\n" \
        f"pub(in crate::book) mod status {{\n{consts}\n" \
        f"/// All of them.\n#[cfg(test)]\npub const ALL: [u32; {len(found)}] = [{named}];\n}}\n"


def most_taken() -> str:
    found = LIMIT.search(text_of(LIMITS))
    if not found:
        wrong("the limits have no MAX_TAKEN")
    about, number = found.groups()
    return f"{about}pub(in crate::book) const MAX_TAKEN: usize = {number};\n"


def wrong(why: str) -> NoReturn:
    sys.exit(f"tools/declared.py: {why}")


def declared() -> str:
    traits = "#[derive(Clone, Copy, Debug, Default, PartialEq, Eq)]\n"
    parts = [HEAD, struct("handle.rt", "Handle", "", "super"), struct("answers.rt", "Answer", traits, "in crate::book"),
             statuses(), most_taken(), "#[allow(dead_code)]\n" + functions()]
    command = ["rustfmt", "--edition", "2021", "--config-path", f"{ROOT}/service/rustfmt.toml"]
    laid_out = subprocess.run(command, input="\n".join(parts), stdout=subprocess.PIPE, text=True, check=False)
    if laid_out.returncode:
        wrong("rustfmt does not read what is to be declared")
    return laid_out.stdout


def main(words: list[str]) -> int:
    text = declared()
    if words == ["--check"]:
        if text_of(WRITTEN) != text:
            wrong("service/src/book/library/declared.rs is not what the library's source says: run tools/declared.py")
    elif words:
        sys.exit(f"usage: {sys.argv[0]} [--check]")
    else:
        write(WRITTEN, text)
    return 0


if __name__ == "__main__":
    sys.exit(main(sys.argv[1:]))
