#!/usr/bin/env python3
"""Runs the program play while each growth of its memory fails in turn.

Call: tests/alloc_failures_play.py PROGRAM [SCRIPT..], with the path of the built play; it needs gcc.

For each tests/scripts/NAME.script, and each k from 1 until no growth fails in a run, the test runs the script twice: in one run growth
k alone fails, in the other all from k on. The full run must print NAME.replies. Two lines are added to each script, which show the
store at its end. A full run counts which line's growth k is.
  - A run in which no growth failed is the full run.
  - If all growths from k on fail, the run ends with `play: no memory` after the replies to the lines before, which are those of the
    full run.
  - If k alone fails, the run may end in the same way, if it was the text of the reply that failed. Or the reply to the line is
    `refused no-memory`, if the command may take memory, and the other replies are those of a run without the line; a `wire` may also
    have taken its flush and given it back. Or all replies are those of the full run, if the command can do without the memory.
    Hence a command that takes no memory has no growth except that of its reply.
If a line was refused because growth k alone failed, the script runs once more with that line twice. The second time it must be
answered in full, and so must all other lines: as in the full run, except for what a `wire` has given back.
The last line counts runs that passed and failed. The status is 0 if none failed.
"""
from __future__ import annotations

import bisect
import collections
import concurrent.futures
import glob
import itertools
import os
import re
import sys
import tempfile

from testing import TESTS
from testing.alloc_failures import FORMS, Counts, Refusing, Run, plain, program_named

PROBE = [b"report", b"take 1000"]
NO_MEMORY = b"refused no-memory\n"
TAKES_MEMORY = {b"admit", b"post", b"take", b"wire", b"report", b"hold", b"lift", b"round", b"past"}
# Commands that give back unneeded room of an identity, or ask for the room of all points at once. They succeed without it.
DOES_WITHOUT = {b"admit", b"post"}
# From this many growths on, one of them is that for all points of a body: if it fails, each point asks for its own room.
ROOM = 2


def lines_of(text: bytes) -> list[bytes]:
    lines = text.split(b"\n")
    return lines[:-1] if lines[-1] == b"" else lines


def verb(line: bytes) -> bytes:
    return line.split(b" ")[0]


class Player:
    """A script with its full run, the runs without one line, and the script with one line twice."""

    def __init__(self, refusing: Refusing, program: str, name: str, script: list[bytes],
                 size: int | None = None) -> None:
        self.refusing = refusing
        self.program = program
        self.name = name
        # The last line is not a command. It makes the input as long as that of a script with a line twice.
        size = size or len(b"".join(script)) + len(script) + max(map(len, script)) + 3
        pad = b"-" * (size - len(b"".join(script)) - len(script) - 1)
        self.size = size
        self.script = script + [pad]
        self.given = b"".join(line + b"\n" for line in self.script)
        counted = self.counted(self.script)
        self.growths = [growths for growths, _ in counted]
        self.replies = [reply for _, reply in counted]
        self.known: dict[int, list[bytes]] = {}
        self.twice: dict[int, Player] = {}

    def counted(self, lines: list[bytes]) -> list[tuple[int, bytes]]:
        """The reply to each line, with the number of growths before it was written. Each reply is one write."""
        pieces = self.refusing.counted([self.program], b"".join(line + b"\n" for line in lines))
        assert len(pieces) == len(lines), self.name
        return pieces

    def run(self, growth: int, form: str) -> Run:
        return self.refusing.run([self.program], self.given, growth, form)

    def place_of(self, growth: int) -> int:
        """The position of the line to which this growth belongs."""
        return bisect.bisect_left(self.growths, growth)

    def with_twice(self, place: int) -> Player:
        """The script with the line at this position twice."""
        if place not in self.twice:
            lines = self.script[:-1]
            script = lines[:place + 1] + lines[place:]
            name = f"{self.name} with line {place} twice"
            self.twice[place] = Player(self.refusing, self.program, name, script, self.size)
        return self.twice[place]

    def stand_ins(self, place: int) -> list[list[bytes]]:
        """What the line at this position may have done if it was refused: nothing, or, if it is a `wire`, a Take and its GiveBack."""
        flush = re.match(rb"flush (\d+)\n", self.replies[place])
        if verb(self.script[place]) != b"wire" or not flush:
            return [[]]
        return [[], [b"take" + self.script[place][4:], b"back " + flush[1]]]

    def refused(self, place: int) -> list[bytes]:
        """The outputs that the script may have if the line at this position alone is refused."""
        if place not in self.known:
            self.known[place] = []
            before, after = self.script[:place], self.script[place + 1:]
            for stand_in in self.stand_ins(place):
                replies = [reply for _, reply in self.counted(before + stand_in + after)]
                whole = replies[:place] + [NO_MEMORY] + replies[place + len(stand_in):]
                self.known[place].append(b"".join(whole))
        return self.known[place]

    def way_of(self, run: Run, growth: int, form: str) -> tuple[str | None, str | None]:
        """The way in which a run ended in which this growth was to fail, or None and what is wrong."""
        full = (0, b"".join(self.replies), b"")
        ended = (run.status, run.out, run.err)
        if run.refused == 0:
            return ("without refusal", None) if ended == full else (None, "no refusal, but not the full run")
        place = self.place_of(growth)
        if ended == (1, b"".join(self.replies[:place]), b"play: no memory\n"):
            return "ended", None
        command = verb(self.script[place]) if place < len(self.script) else b""
        if form == "alone" and ended == full and command in DOES_WITHOUT:
            return "did without", None
        if form == "alone" and command in TAKES_MEMORY and ended in [(0, out, b"") for out in self.refused(place)]:
            return "refused a line", None
        return None, f"not what may be where line {place} finds no memory: {ended}"

    def bodies(self) -> list[int]:
        """The positions of the bodies that are admitted."""
        lines = enumerate(zip(self.script, self.replies))
        return [place for place, (line, reply) in lines if verb(line) == b"post" and reply.startswith(b"batch ")]


def play_again(counts: Counts, player: Player, growth: int) -> None:
    """Runs the script with the line twice that was refused because this growth alone failed."""
    twice = player.with_twice(player.place_of(growth))
    run = twice.run(growth, "alone")
    way, fault = twice.way_of(run, growth, "alone")
    made_again = "refused a line and made it again" if way == "refused a line" else None
    counts.add(run, made_again, f"{twice.name}, growth {growth}: {fault or way}")


def play_all(refusing: Refusing, counts: Counts, program: str, path: str) -> None:
    """Makes all runs of a script."""
    name = os.path.basename(path).removesuffix(".script")
    with open(path, "rb") as file:
        script = lines_of(file.read())
    with open(path.removesuffix(".script") + ".replies", "rb") as file:
        wanted = file.read()
    player = Player(refusing, program, name, script + PROBE)
    whole = plain([program], b"\n".join(script) + b"\n" if script else b"")
    is_right = (whole.status, whole.out, whole.err) == (0, wanted, b"")
    counts.add(whole, "without refusal" if is_right else None, f"{name}: {whole.out!r}")
    done_without: collections.Counter[int] = collections.Counter()
    for form in FORMS:
        for growth in itertools.count(1):
            run = player.run(growth, form)
            way, fault = player.way_of(run, growth, form)
            counts.add(run, way, f"{name}, growth {growth} {form}: {fault}")
            done_without[player.place_of(growth)] += way == "did without"
            if way == "refused a line":
                play_again(counts, player, growth)
            if run.refused == 0 or run.status == "no end":
                break
    without_room = [place for place in player.bodies() if done_without[place] < ROOM]
    counts.add(whole, None if without_room else "without refusal", f"{name}: lines {without_room} want room for all points")


def main(program: str, *paths: str) -> int:
    scripts = paths or sorted(glob.glob(f"{TESTS}/scripts/*.script"))
    counts = Counts("play")
    with tempfile.TemporaryDirectory() as folder:
        refusing = Refusing(folder)
        with concurrent.futures.ThreadPoolExecutor(os.cpu_count()) as pool:
            jobs = [pool.submit(play_all, refusing, counts, program, path) for path in scripts]
            for job in jobs:
                job.result()
    return counts.end()


if __name__ == "__main__":
    sys.exit(main(program_named(sys.argv[1:], " [SCRIPT..]"), *sys.argv[2:]))
