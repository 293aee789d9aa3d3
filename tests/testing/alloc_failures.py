"""Runs a program while the preloaded library fail_alloc.c makes its allocations fail. A growth is a call that asks for more memory."""
from __future__ import annotations

import concurrent.futures
import itertools
import os
import re
import subprocess
import sys
import threading
from collections.abc import Callable, Sequence
from typing import NamedTuple

from testing import TESTS

FORMS = ("alone", "from")
SECONDS = 60


class Run(NamedTuple):
    """A run's exit status and output, how many growths it made, and how many of them failed."""

    status: int | str
    out: bytes
    err: bytes
    growths: int | None
    refused: int | None


class Refusing:
    """The library, compiled into a folder. It also keeps the counts that each thread's last run left there."""

    def __init__(self, folder: str) -> None:
        self.folder = folder
        self.library = os.path.join(folder, "fail_alloc.so")
        source = f"{TESTS}/fail_alloc.c"
        command = ["gcc", "-O1", "-Wall", "-Wextra", "-Werror", "-shared", "-fPIC"]
        subprocess.run(command + ["-o", self.library, source, "-ldl"], check=True)

    def counts_path(self) -> str:
        return os.path.join(self.folder, f"counts{threading.get_ident()}")

    def environment(self, growth: int, form: str) -> dict[str, str]:
        """The environment of a run in which this growth fails. Growth 0 lets every growth succeed and only counts them."""
        return dict(os.environ, LD_PRELOAD=self.library, REFUSE_GROWTH=str(growth),
                    REFUSE_FORM=form, REFUSE_COUNTS=self.counts_path())

    def counts(self) -> tuple[int, int] | tuple[None, None]:
        """The counts that the last run of this thread left, or (None, None) if the run was killed."""
        path = self.counts_path()
        try:
            with open(path) as file:
                found = re.fullmatch(r"growths (\d+) refused (\d+)\n", file.read())
            os.remove(path)
        except FileNotFoundError:
            found = None
        return (int(found[1]), int(found[2])) if found else (None, None)

    def counted(self, words: Sequence[str], given: bytes) -> list[tuple[int, bytes]]:
        """The standard output of a run in which no growth fails, as the pieces that were written, each with the number
        of growths before it."""
        path = os.path.join(self.folder, f"writes{threading.get_ident()}")
        environment = dict(self.environment(0, "alone"), REFUSE_WRITES=path)
        done = subprocess.run(words, input=given, stdout=subprocess.PIPE, timeout=SECONDS, env=environment, check=True)
        out, pieces = done.stdout, []
        with open(path) as file:
            for growths, size in re.findall(r"growths (\d+) bytes (\d+)\n", file.read()):
                pieces.append((int(growths), out[:int(size)]))
                out = out[int(size):]
        return pieces

    def run(self, words: Sequence[str], given: bytes, growth: int, form: str = "alone") -> Run:
        try:
            done = subprocess.run(words, input=given, capture_output=True, timeout=SECONDS,
                                  env=self.environment(growth, form))
        except subprocess.TimeoutExpired:
            return Run("no end", b"", b"", None, None)
        return Run(done.returncode, done.stdout, done.stderr, *self.counts())


def plain(words: Sequence[str], given: bytes) -> Run:
    """Runs the program without the library."""
    done = subprocess.run(words, input=given, capture_output=True, timeout=SECONDS)
    return Run(done.returncode, done.stdout, done.stderr, None, 0)


def program_named(words: Sequence[str], more: str = "") -> str:
    """The path of the program on the command line; ends the script with its usage if there is none."""
    if not words or not os.access(words[0], os.X_OK) or (len(words) > 1 and not more):
        sys.exit(f"usage: {sys.argv[0]} PROGRAM{more}")
    return words[0]


def in_turn(run_once: Callable[[int, str], Run]) -> None:
    """Makes one run for each growth of a complete run and each form, in parallel. Then goes on with later growths until
    none fails in a run."""
    growths = run_once(0, "alone").growths or 0
    for form in FORMS:
        with concurrent.futures.ThreadPoolExecutor(os.cpu_count()) as pool:
            list(pool.map(run_once, range(1, growths + 1), itertools.repeat(form)))
        for growth in itertools.count(growths + 1):
            run = run_once(growth, form)
            if run.refused == 0 or run.status == "no end":
                break


class Counts:
    """Counts runs and how they ended."""

    def __init__(self, what: str) -> None:
        self.what = what
        self.lock = threading.Lock()
        self.runs = self.refused = self.failed = 0
        self.ways: dict[str, int] = {}

    def add(self, run: Run, way: str | None, fault: object = None) -> None:
        """Counts a run under the way in which it ended, or, if `way` is None, as a failure that is printed."""
        with self.lock:
            self.runs += 1
            if run.refused is None or run.refused:
                self.refused += 1
            if way is None:
                self.failed += 1
                print(f"failed: {fault}", flush=True)
            else:
                self.ways[way] = self.ways.get(way, 0) + 1

    def end(self) -> int:
        """Prints the last lines of the script and returns its exit status."""
        ways = ", ".join(f"{count} {way}" for way, count in sorted(self.ways.items()))
        print(f"{self.what}: {ways}")
        passed = self.runs - self.failed
        print(f"{passed} passed, {self.failed} failed, {self.refused} with a refusal", flush=True)
        return 0 if self.failed == 0 and self.refused > 0 else 1
