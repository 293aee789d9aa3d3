#!/usr/bin/env python3
"""Checks the Python of tools/, tests/, bench/ and demo/: types by mypy, style by flake8, and that each command has a head.

    tools/python.py [--check]

setup.cfg configures both. A command needs a head because `make tried` lists it by its head. The command never writes anything, with
--check or without. The last line counts the faults; the status is 1 if there are any.
"""
import os
import subprocess
import sys

from tooling.crates import OUT, ROOT
from tooling.heads import commands, head_of

# Each folder, with the folders whose modules it imports.
FOLDERS: dict[str, tuple[str, ...]] = {"tools": (), "tests": ("tools", "demo"), "bench": ("tests", "tools"), "demo": ("tests", "tools")}


def run(folder: str, command: list[str], path: str = "") -> int:
    """Runs a program on a folder. Returns 1 if the program finds a fault, and 0 otherwise."""
    environment = {**os.environ, "MYPYPATH": path}
    try:
        ran = subprocess.run([*command, folder], cwd=ROOT, env=environment, check=False)
    except FileNotFoundError:
        sys.exit(f"there is no {command[0]}: tools/needs test installs it")
    return min(ran.returncode, 1)


def without_head(folder: str) -> int:
    """Prints the commands of a folder that have no head, and returns their number."""
    names = [os.path.basename(path) for path in commands(folder) if not head_of(path)]
    for name in names:
        print(f"{folder}/{name} has no head")
    return len(names)


def main(words: list[str]) -> int:
    if words not in ([], ["--check"]):
        sys.exit("usage: tools/python.py [--check]")
    faults = 0
    for folder, others in FOLDERS.items():
        faults += without_head(folder)
        faults += run(folder, ["flake8"])
        # One cache for all folders, so that mypy reads a module that several import only once.
        faults += run(folder, ["mypy", "--cache-dir", f"{OUT}/mypy"], ":".join((folder, *others)))
    print(f"{len(FOLDERS)} folders of Python, {faults} with faults")
    return 1 if faults else 0


if __name__ == "__main__":
    sys.exit(main(sys.argv[1:]))
