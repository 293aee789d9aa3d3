#!/usr/bin/env python3
"""Proves and builds crates and all crates below them, step by step, into bin/.

    tools/build.py [CRATE ..]

Without arguments it builds play, gateway and book_c, which is the library that the service links. Crates that don't depend on
each other are proved in parallel, as far as processors and memory allow. A crate is skipped if neither it nor a crate below it has
changed since it was proved, also after an interrupt.

The library of book_c goes to out/book/libbook.a; with TOTXEGUN_BOOK=$PWD/out/book cargo links it into the service. Only the
library that `make prove` makes counts. The logs are in out/logs. Status 0: everything is proved and built.
"""
import hashlib
import os
import shlex
import shutil
import sys
import time
from collections.abc import Collection, Iterable

from tooling.crates import OUT, ROOT, Crate, Digests, named
from tooling.files import content
from tooling.prover import Prover, made_by, room_of
from tooling.steps import GIGABYTE, Failed, Step, Steps, locked, shown
from service import install

PROGRAMS = ["play", "gateway"]
# The crate of the library that the service links, and where this command puts the library.
LIBRARY = "book_c"
TRIED = f"{OUT}/book/libbook.a"
# A check of a crate takes one to two gigabytes for what it loads, and about a megabyte for each line.
LEAST_MEMORY = 3 * GIGABYTE // 2
LINE_MEMORY = GIGABYTE // 1000
MOST_MEMORY = 4 * GIGABYTE
# More jobs save little time, and each takes memory.
MOST_JOBS = 3


class Building:
    """Knows which crates are built as they are now, and makes the steps for the others."""

    def __init__(self) -> None:
        self.digests = Digests()
        self.prover = Prover()
        self.known: dict[str, bool] = {}

    def is_built(self, crate: Crate) -> bool:
        """Whether the crate's build is of its current sources, over the current builds of the crates below."""
        if crate.name not in self.known:
            is_made = all(map(self.is_built, crate.below)) and os.path.exists(made_by(crate))
            self.known[crate.name] = is_made and content(mark_of(crate)).startswith(self.inputs(crate))
        return self.known[crate.name]

    def inputs(self, crate: Crate) -> bytes:
        """A digest of all inputs of a crate's build: its sources, and the marks of the crates below."""
        whole = hashlib.sha256(self.digests.of(crate).encode())
        for below in crate.below:
            whole.update(content(mark_of(below)))
        return whole.hexdigest().encode()

    def step(self, crate: Crate, among: Collection[Crate]) -> Step:
        lines = crate.lines()
        return Step(
            crate.name,
            lambda step: self.build(crate, step),
            f"tools/build.py {crate.name}",
            after=[it.name for it in crate.below if it in among],
            weight=lines,
            memory=min(LEAST_MEMORY + LINE_MEMORY * lines, MOST_MEMORY),
            most_jobs=MOST_JOBS,
        )

    def build(self, crate: Crate, step: Step) -> str:
        """Proves a crate and builds it."""
        # The time makes each mark unique: a library fits only those very builds of the crates below over which it was built.
        mark = b"%s %d\n" % (self.inputs(crate), time.time_ns())
        with locked(crate.folder):
            shutil.rmtree(room_of(crate), ignore_errors=True)
            os.makedirs(room_of(crate))
            for command in self.prover.build(crate, step.jobs):
                if step.run(command, crate.folder) != 0:
                    raise Failed("not proved")
            with open(mark_of(crate), "wb") as file:
                file.write(mark)
        return "proved"


def mark_of(crate: Crate) -> str:
    return f"{room_of(crate)}/mark"


def steps_for(crates: Iterable[Crate], building: Building) -> tuple[list[Step], int]:
    """The steps that build these crates and all below them, and how many crates these are."""
    wanted: list[Crate] = []
    for crate in crates:
        wanted += [it for it in [*crate.all_below(), crate] if it not in wanted]
    missing = [crate for crate in wanted if not building.is_built(crate)]
    return [building.step(crate, missing) for crate in missing], len(wanted)


def hand_over(crate: Crate) -> str | None:
    """Copies a program to bin/ or the static library to out/book, and returns the path. Returns None for a library that only crates use."""
    if crate.is_program:
        install(made_by(crate), crate.name)
        return f"bin/{crate.name}"
    if not crate.is_static:
        return None
    os.makedirs(os.path.dirname(TRIED), exist_ok=True)
    shutil.copy2(made_by(crate), TRIED)
    return os.path.relpath(TRIED, ROOT)


def main(names: list[str]) -> int:
    crates = named(names or [*PROGRAMS, LIBRARY])
    begun = time.monotonic()
    with locked(OUT):
        steps, whole = steps_for(crates, Building())
        if len(steps) < whole:
            print(f"{whole - len(steps)} of {whole} crates are proved and have not changed", flush=True)
        if not Steps(steps).run():
            return 1
    built = " and ".join(shlex.quote(it) for it in map(hand_over, crates) if it)
    print(f"{built or 'the libraries'}: built in {shown(time.monotonic() - begun)}")
    return 0


if __name__ == "__main__":
    sys.exit(main(sys.argv[1:]))
