#!/usr/bin/env python3
"""Counts the instructions in user mode that a point costs the gateway, and how many of them are the tree's.

    bench/instructions.py [--gateway FILE] [--beside NAME,..] [--points N,..] [--kinds sum,histogram]

The rows, the programs and the posts are those of bench/gateway.py, over 200 series and two senders, with the C library's
allocator. Each program runs under valgrind (callgrind), so nothing else on the machine changes a count; the kernel's
instructions are not in it. A first load warms what a program keeps of earlier posts up, and is not counted.

The tree is what serde_json makes of a body: made is all that the gateway's calls of it take, given back all that its drop
takes, each with the memory that they ask for and free. A buffer that is filled by one instruction for many bytes counts as
many as it has bytes, so the share of these is shown too.
"""
import argparse
import collections
import os
import re
import shutil
import subprocess
import tempfile
from collections.abc import Iterable
from typing import NamedTuple

from measuring import ROOT, loading, plain
from measuring.loading import Posts, Senders
from measuring.process import numbers
from measuring.running import bare, path

ROWS = [("sum", 1), ("sum", 20), ("sum", 1000), ("histogram", 20)]
SERIES, SENDERS, RECEIVERS = 200, 2, 2
# Of a row: about so many points.
POINTS = 8000
LEAST_REQUESTS = 8
# Functions by what they do. A call within one of its own kind has another name there, and is not counted twice.
MADE = re.compile(r"serde_json::de::read_(members|items|value)(::<.*>)?$")
GIVEN_BACK = re.compile(r"otlp_read::serde_json\+\+value\+\+Value\+Destruct::drop$")
FILLED = re.compile(r"__memset_")


class Counts(NamedTuple):
    whole: int
    made: int
    given_back: int
    filled: int


class Profile:
    """What callgrind has written of one load: the instructions of each function alone, and those of its calls."""

    def __init__(self, path: str) -> None:
        self.alone: collections.Counter[str] = collections.Counter()
        self.calls: collections.Counter[tuple[str, str]] = collections.Counter()
        self.names: dict[str, str] = {}
        with open(path, encoding="utf-8") as lines:
            self.read(lines)

    def read(self, lines: Iterable[str]) -> None:
        function = called = None
        is_call = False
        for line in lines:
            if line.startswith("fn="):
                function = self.name(line[3:])
            elif line.startswith("cfn="):
                called = self.name(line[4:])
            elif line.startswith("calls="):
                is_call = True
            elif function and re.match(r"[+*-]?\d* \d+$", line):
                count = int(line.split()[1])
                if is_call:
                    self.calls[function, called] += count
                else:
                    self.alone[function] += count
                is_call = False

    def name(self, text: str) -> str:
        number, name = re.match(r"\((\d+)\)(?: (.*))?$", text.rstrip("\n")).groups()
        return self.names.setdefault(number, name)

    def whole(self) -> int:
        return sum(self.alone.values())

    def within(self, kind: re.Pattern[str]) -> int:
        """What these functions take themselves."""
        return sum(count for name, count in self.alone.items() if kind.match(name))

    def entered(self, kind: re.Pattern[str]) -> int:
        """What calls of these functions take that come from any other function."""
        return sum(count for (caller, called), count in self.calls.items()
                   if kind.match(called) and not kind.match(caller.partition("'")[0]))


def count(words: list[str], kind: str, points: int) -> tuple[Counts, int]:
    """The instructions of a load, and how many points it had."""
    requests = max(POINTS // points // SENDERS, LEAST_REQUESTS) * SENDERS
    with tempfile.TemporaryDirectory() as folder:
        traced = ["valgrind", "--tool=callgrind", f"--callgrind-out-file={folder}/out", "--quiet", *words]
        with bare([*traced, "--receivers", str(RECEIVERS)], dict(os.environ)) as (port, process):
            senders = Senders(port, SENDERS, Posts(kind, points, SERIES, "json", "each"))
            senders.make_series()
            senders.load(requests)
            order(process, "--zero")
            loaded = senders.load(requests)
            order(process, "--dump")
        if loaded.failed:
            raise SystemExit(f"{loaded.failed} requests failed")
        profile = Profile(f"{folder}/out.1")
    counts = Counts(profile.whole(), profile.entered(MADE), profile.entered(GIVEN_BACK), profile.within(FILLED))
    return counts, loaded.requests * points


def order(process: subprocess.Popen[bytes], word: str) -> None:
    words = ["callgrind_control", word, str(process.pid)]
    subprocess.run(words, stdout=subprocess.DEVNULL, stderr=subprocess.DEVNULL, check=True)


def main() -> None:
    parser = argparse.ArgumentParser(description=__doc__.split("\n", maxsplit=1)[0])
    parser.add_argument("--gateway", type=path, default=f"{ROOT}/bin/gateway")
    parser.add_argument("--totxegun", help="as in the other scripts; not used")
    parser.add_argument("--beside", type=lambda text: text.split(","), default=["plain", "plain-tree", "plain-answers"])
    parser.add_argument("--points", type=numbers)
    parser.add_argument("--kinds", type=lambda text: text.split(","), default=["sum"])
    arguments = parser.parse_args()
    if not shutil.which("valgrind"):
        raise SystemExit("left out: it needs the package valgrind")
    loading.build()
    programs = {"gateway": [arguments.gateway, "serve", "--connections", "1000000"]}
    programs |= {name: [built, "serve"] for name in arguments.beside if (built := plain.build(name))}
    rows = [(kind, points) for kind in arguments.kinds for points in arguments.points or []] or ROWS
    print(f"{'instructions a point':26}{'':16}{'all':>9}{'tree made':>11}{'given back':>12}{'filled':>8}")
    for kind, points in rows:
        for name, words in programs.items():
            counts, whole = count(words, kind, points)
            each = [f"{it / whole:,.0f}" for it in counts]
            tree = f"{each[1]:>11}{each[2]:>12}" if name == "gateway" else " " * 23
            row = f"{kind}s, {points:,} a request"
            print(f"{row:26}{name:16}{each[0]:>9}{tree}{each[3]:>8}", flush=True)


if __name__ == "__main__":
    main()
