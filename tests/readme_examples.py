#!/usr/bin/env python3
"""What the READMEs show is what is run: each crate's example is a file of crates/example_tests, whose tests the gate
runs, and the script of docs/GATEWAY.md has the replies of the built program play.

    tests/readme_examples.py PROGRAM

PROGRAM is the built play. The last line counts the examples and those that are wrong; where there is one the
status is 1.
"""
import os
import re
import subprocess
import sys
from collections.abc import Iterator
from typing import Any

from testing import ROOT
from tooling.files import text_of

CRATE_BLOCK = re.compile(r"^## Example\n.*?^```rust\n(.*?)^```$", re.MULTILINE | re.DOTALL)
PAGE = "docs/GATEWAY.md"
PLAY_BLOCK = re.compile(r"^\$ (printf .*\| )bin/play\n(.*?)^```$", re.MULTILINE | re.DOTALL)


def crate_examples() -> Iterator[tuple[str, list[Any], list[Any]]]:
    """Of each README of a crate that promises something its path, the examples there, and the one that is run."""
    for name in sorted(os.listdir(f"{ROOT}/crates")):
        readme = f"crates/{name}/README.md"
        if os.path.isfile(f"{ROOT}/{readme}") and "## What is proved" in text_of(f"{ROOT}/{readme}"):
            path = f"crates/example_tests/src/uses_{name}.rt"
            ran = text_of(f"{ROOT}/{path}") if os.path.isfile(f"{ROOT}/{path}") else None
            yield readme, CRATE_BLOCK.findall(text_of(f"{ROOT}/{readme}")), [ran]


def play_examples(program: str) -> Iterator[Any]:
    """Of each script of a page what is shown as its replies, and what the program replies."""
    for number, (before, shown) in enumerate(PLAY_BLOCK.findall(text_of(f"{ROOT}/{PAGE}")), 1):
        command = f'{before}"$0"'
        ran = subprocess.run(["sh", "-c", command, program], stdout=subprocess.PIPE, timeout=60)
        yield f"{PAGE}, script {number}", shown, ran.stdout.decode()


def main(words: list[str]) -> int:
    if len(words) != 1 or not os.access(words[0], os.X_OK):
        sys.exit(f"usage: {sys.argv[0]} PROGRAM")
    scripts = list(play_examples(os.path.abspath(words[0])))
    examples = [*crate_examples(), *scripts]
    wrong = [where for where, shown, ran in examples if shown != ran]
    if not scripts:
        wrong.append(f"{PAGE}: no script of play")
    for where in wrong:
        print(f"wrong: {where}")
    print(f"{len(examples)} examples, {len(wrong)} wrong")
    return 1 if wrong else 0


if __name__ == "__main__":
    sys.exit(main(sys.argv[1:]))
