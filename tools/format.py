#!/usr/bin/env python3
"""Formats the code of the crates as `rt fmt` does, and breaks wide lines of proofs.

    tools/format.py [--check] [CRATE ..]

Formats the named crates, or all. Lines of proofs with more than 100 columns are broken. With --check it changes nothing and names
the files that are not formatted and the lines with more than 100 columns. The last line counts them; the status is 1 if there are any.
"""
import os
import re
import subprocess
import sys
from collections.abc import Iterator

from tooling.crates import ROOT, Crate, named
from tooling.narrow import narrowed
from tooling.prover import Prover

CHECK = "--check"
# The files that the formatter knows.
LAID_OUT = (".rt", ".antt")
# The limit of columns. Lines may be wider if they contain a text, an attribute of the prover, or an import of one name.
COLUMNS = 100
# The limit of rounds of breaking and formatting.
ROUNDS = 9
WIDE = re.compile(r'"|\\$|^ *#!?\[|^(ghost |pub )?use [^,]*$')


def lay_out(crates: list[Crate], how: str) -> list[str]:
    """The lines that `rattle fmt` prints for all files, one for each fault. `rt fmt` calls it for each crate."""
    files = [os.path.relpath(file, ROOT) for crate in crates for file in crate.files() if file.endswith(LAID_OUT)]
    ran = subprocess.run([f"{Prover().kit}/bin/rattle", "fmt", how, *files], cwd=ROOT, stdout=subprocess.PIPE, stderr=subprocess.STDOUT,
                         text=True, check=False)
    lines = ran.stdout.splitlines()
    if bool(ran.returncode) != bool(lines):
        sys.exit(f"rattle fmt had status {ran.returncode}, and said {lines}")
    return lines


def too_wide(crate: Crate) -> Iterator[str]:
    """The lines of a crate that are too wide, each as file and number."""
    for file in crate.files():
        for number, line in enumerate(lines_of(file), 1):
            if len(line) > COLUMNS and not WIDE.search(line):
                yield f"{os.path.relpath(file, ROOT)}:{number}: more than {COLUMNS} columns"


def lines_of(file: str) -> list[str]:
    with open(file, encoding="utf-8") as opened:
        return opened.read().split("\n")


def narrow(crate: Crate) -> bool:
    """Breaks the wide lines of a crate's proofs. Returns whether there were any."""
    changed = False
    for file in crate.files():
        lines = lines_of(file)
        after = [part for line in lines for part in narrowed(line, COLUMNS)]
        if file.endswith(".antt") and after != lines:
            changed = True
            with open(file, "w", encoding="utf-8") as opened:
                opened.write("\n".join(after))
    return changed


def main(words: list[str]) -> int:
    names = [it for it in words if it != CHECK]
    crates = named(names)
    if CHECK in words:
        faults = [*lay_out(crates, "--check"), *(place for crate in crates for place in too_wide(crate))]
    else:
        faults = lay_out(crates, "--write")
        # The formatter indents broken lines anew, and the result may be too wide again.
        for _ in range(ROUNDS):
            if faults or not any([narrow(crate) for crate in crates]):
                break
            faults = lay_out(crates, "--write")
        faults += [place for crate in crates for place in too_wide(crate)]
    print("\n".join([*faults, f"{len(crates)} crates, {len(faults)} files or lines that are not laid out"]))
    return 1 if faults else 0


if __name__ == "__main__":
    sys.exit(main(sys.argv[1:]))
