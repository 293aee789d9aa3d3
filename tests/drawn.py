#!/usr/bin/env python3
"""Tests that tools/pictures.py and tools/promise.py find faults in the pictures, their words and the reading list.

    tests/drawn.py

Each line is a check: the test changes something in a copy, and the tool must say what is wrong. The last line counts passes and failures.
The status is 1 if one failed.
"""
import contextlib
import functools
import importlib
import io
import os
import shutil
import sys
import tempfile
from collections.abc import Callable, Sequence

from testing import ROOT
from testing.checks import Checks

DESCRIBED = "docs/pictures/{}.drawn"
# For each fault the file, a text in it with its replacement, and what the tool must say.
PICTURES = (
    ("a picture that was changed by hand", "docs/pictures/life.svg", ">stored<", ">kept<", "docs/pictures/life.svg"),
    ("other words beside a picture", "docs/MODEL.md", "![The life of a point.", "![A point.", "docs/MODEL.md"),
    ("a crate that uses another one", "crates.txt", "gateway_options: decimals clap", "gateway_options: bucket_lanes decimals clap",
     "docs/pictures/crates.svg"),
    ("a picture that no page shows", "docs/MODEL.md", "](pictures/life.svg)", "](life.svg)", "life"),
    ("an arrow between laws that no proof has", DESCRIBED.format("laws"), "arrow proved priming.bottom recovery.top",
     "arrow proved priming.bottom striking.top", "striking"),
    ("a law's arrow that is missing", DESCRIBED.format("laws"), "arrow proved closing.bottom marking.top\n", "", "marking"),
    ("words that are cut", DESCRIBED.format("life"), "stored / waits", "stored / waits as long as it has to", "no room for"),
    ("words over others", DESCRIBED.format("life"), "words 202 122", "words 290 122", "over one another"),
    ("words over a box", DESCRIBED.format("life"), "words 12 240", "words 12 215", "over the edge"),
    ("a line through words", DESCRIBED.format("life"), "words 202 122 quiet end", "words 214 122 quiet end", "a line goes through"),
    ("a line that means nothing", DESCRIBED.format("life"), "arrow plain 12,75", "arow plain 12,75", "arow plain 12,75"),
)
PROMISE = (
    ("a number that is not counted", "docs/PROOFS.md", " definitions, ", "1 definitions, ", "has to say"),
    ("a reading list in another order", "docs/PROOFS.md", "1. `series_id/specs/Texts`", "1. `series_id/specs/Values`", "in this order"),
)


def copy(folder: str) -> None:
    for name in ("tools", "docs"):
        shutil.copytree(f"{ROOT}/{name}", f"{folder}/{name}", ignore=shutil.ignore_patterns("__pycache__"))
    for name in ("README.md", "crates.txt"):
        shutil.copy(f"{ROOT}/{name}", folder)
    os.symlink(f"{ROOT}/crates", f"{folder}/crates")


def said(check: Callable[[], object]) -> tuple[object, str]:
    """The status of a tool's check and what it prints."""
    out = io.StringIO()
    with contextlib.redirect_stdout(out):
        try:
            end = check()
        except SystemExit as it:
            end = it.code
    return (1, f"{out.getvalue()}{end}") if isinstance(end, str) else (end or 0, out.getvalue())


def run(checks: Checks, folder: str, tool: str, check: Callable[[], object], cases: Sequence[tuple[str, str, str, str, str]]) -> None:
    status, text = said(check)
    checks.true(f"{tool} takes what is there", status == 0, text)
    for what, name, old, new, expected in cases:
        with open(f"{folder}/{name}", encoding="utf-8") as file:
            before = file.read()
        with open(f"{folder}/{name}", "w", encoding="utf-8") as file:
            file.write(before.replace(old, new, 1))
        status, text = said(check)
        checks.true(f"{tool} refuses {what}", old in before and status == 1 and expected in text, text)
        with open(f"{folder}/{name}", "w", encoding="utf-8") as file:
            file.write(before)


def main() -> int:
    checks = Checks()
    with tempfile.TemporaryDirectory() as folder:
        copy(folder)
        # The tools of the copy. They read the crates only once, since no case changes them.
        sys.path.insert(0, f"{folder}/tools")
        pictures, promise = (importlib.import_module(name) for name in ("pictures", "promise"))
        setattr(promise, "laws", functools.cache(promise.laws))
        run(checks, folder, "pictures.py", lambda: pictures.main(["--check"]), PICTURES)
        whole = promise.Promise()
        run(checks, folder, "promise.py", lambda: promise.check(whole), PROMISE)
    return checks.end()


if __name__ == "__main__":
    sys.exit(main())
