#!/usr/bin/env python3
"""Lists all tests, each by its own head: the scripts of tests/, the crates of tests, the tests of the service.

    tools/tried.py [WORD]

With a word it lists only tests with the word in their name or head; with `tools`, `bench` or `demo` the commands of that folder.
"""
import glob
import os
import re
import sys
import textwrap
from collections.abc import Iterator

from tooling.crates import ROOT, read_crates
from tooling.files import content
from tooling.heads import commands, first_paragraph, head_of

RUST_HEAD = re.compile(r"(?://!.*\n)+")
TEST = re.compile(r"#\[(?:tokio::)?test\b")
# Folders with commands that test nothing.
OTHERS = ("tools", "bench", "demo")
# A file of the service that contains only tests.
OF_TESTS = re.compile(r"service/tests/|/tests/|tests\.rs$")


def of_rust(path: str) -> str:
    head = RUST_HEAD.search(content(path).decode())
    return first_paragraph(re.sub(r"^//! ?", "", head[0], flags=re.MULTILINE)) if head else ""


def scripts(folder: str) -> Iterator[tuple[str, str]]:
    for path in commands(folder):
        yield path, head_of(path)


def crates() -> Iterator[tuple[str, str]]:
    for crate in read_crates().values():
        if any(TEST.search(content(it).decode()) for it in crate.files() if it.endswith(".rt")):
            yield crate.folder, of_rust(f"{crate.folder}/src/{'main' if crate.is_program else 'lib'}.rt")


def of_service() -> Iterator[tuple[str, str]]:
    for path in sorted(glob.glob(f"{ROOT}/service/**/*.rs", recursive=True)):
        if OF_TESTS.search(path) and (TEST.search(content(path).decode()) or path.endswith("main.rs")):
            yield path, of_rust(path)


def main(words: list[str]) -> int | str:
    if len(words) > 1:
        return __doc__
    is_folder = bool(words) and words[0] in OTHERS
    listed = scripts(words[0]) if is_folder else [*scripts("tests"), *crates(), *of_service()]
    for path, head in listed:
        name = os.path.relpath(path, ROOT)
        if is_folder or not words or words[0] in name or words[0] in head:
            print(textwrap.fill(f"{name}: {head}", 118, subsequent_indent="    "))
    return 0


if __name__ == "__main__":
    sys.exit(main(sys.argv[1:]))
