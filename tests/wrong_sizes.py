#!/usr/bin/env python3
"""Builds wrong gateways: for each a check of tests/gateway_sizes.py must find the mistake.

    tests/wrong_sizes.py [NAME ..]

Each file wrong_sizes/NAME.edit makes a gateway that answers `no memory` although there is some, which no contract
excludes. `check:` names
the check that must find it. The other lines are `file:`, `old:` and `new:`, as in an edit of a crate; the old text must
occur exactly once
in the file. All edits, or the named ones, are tried one after another: tests/testing/unproved.py builds the gateway without a proof in
out/wrong_sizes. `none` is the unchanged gateway, which must pass all checks.

It prints a line for each. The last line counts those that were found and not found; the status is 0 if all were found.
"""
import os
import re
import shutil
import subprocess
import sys
import time

from testing import ROOT
from testing import unproved

EDITS = f"{ROOT}/tests/wrong_sizes"
FOLDER = f"{ROOT}/out/wrong_sizes"
TEST = f"{ROOT}/tests/gateway_sizes.py"
NONE = "none"
LIMIT = 1200


def copy_crates() -> None:
    """Copies the crates as they are."""
    shutil.rmtree(FOLDER, ignore_errors=True)
    shutil.copytree(f"{ROOT}/crates", f"{FOLDER}/crates", ignore=shutil.ignore_patterns("out"))
    for name in ("crates.txt", "HANDLES"):
        shutil.copy(f"{ROOT}/{name}", f"{FOLDER}/{name}")


def apply(name: str) -> str | None:
    """Applies an edit to the copy, and returns its check. A wrong edit ends the script."""
    check = path = old = None
    with open(f"{EDITS}/{name}.edit", encoding="utf-8") as edit:
        lines = edit.read().splitlines()
    for line in lines:
        key, _, text = line.partition(":")
        text = text.removeprefix(" ")
        if key == "check":
            check = text
        elif key == "file":
            path = f"{FOLDER}/{text}"
        elif key == "old":
            old = text
        elif key == "new":
            with open(path, encoding="utf-8") as file:
                whole = file.read()
            if whole.count(old) != 1:
                sys.exit(f"{name}: its old text is in the file {whole.count(old)} times: {old}")
            with open(path, "w", encoding="utf-8") as file:
                file.write(whole.replace(old, text))
    return check


def built() -> str:
    """The path of the copy's gateway. Ends the script if it cannot be built."""
    program, said = unproved.build(FOLDER, f"{FOLDER}/gateway")
    return program or sys.exit(f"the gateway could not be built:\n{said}")


def seen(program: str, checks: list[str | None]) -> str | None:
    """The first check that fails, or None."""
    ran = subprocess.run([TEST, program, *checks], stdout=subprocess.PIPE, text=True, timeout=LIMIT, check=False)
    failed = re.search(r"^failed: (.*)$", ran.stdout, re.MULTILINE)
    if failed or ran.returncode:
        return failed.group(1) if failed else f"status {ran.returncode}"
    return None


def main(names: list[str]) -> int:
    names = names or [NONE, *sorted(it.removesuffix(".edit") for it in os.listdir(EDITS))]
    right = 0
    for name in names:
        begun = time.monotonic()
        copy_crates()
        checks = [] if name == NONE else [apply(name)]
        fault = seen(built(), checks)
        is_right = (fault is None) == (name == NONE)
        right += is_right
        words = {True: "passed" if name == NONE else "found", False: "FAILED" if name == NONE else "NOT FOUND"}[is_right]
        print(f"{words}: {name}, {time.monotonic() - begun:.0f} s: {(fault or '')[:200]}", flush=True)
    print(f"{right} found, {len(names) - right} not found")
    return 0 if right == len(names) else 1


if __name__ == "__main__":
    sys.exit(main(sys.argv[1:]))
