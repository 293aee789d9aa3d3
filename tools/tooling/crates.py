"""The crates of this repository, as crates.txt lists them."""
from __future__ import annotations

import hashlib
import os
import subprocess
import sys
from collections.abc import Iterable, Iterator

from tooling.files import content

ROOT = os.path.dirname(os.path.dirname(os.path.dirname(os.path.realpath(__file__))))
# Where commands write, except into bin/ and the crates' own folders. Git ignores it.
OUT = f"{ROOT}/out"
# The parts of a crate that a check reads.
PARTS = ("src", "specs", "proofs")


class Crate:
    """A crate: its folder, its line in crates.txt, and the crates of this repository that it uses."""

    def __init__(self, name: str, line: str, below: list[Crate]) -> None:
        self.name = name
        self.line = line
        self.below = below
        self.folder = f"{ROOT}/crates/{name}"
        self.is_program = os.path.isfile(f"{self.folder}/src/main.rt")
        # A static library, which C can call and no crate can use.
        self.is_static = "staticlib" in line.partition(":")[0].split()

    def uses(self) -> list[str]:
        """The names of the toolchain's libraries that the crate uses, without the standard library."""
        own = [it.name for it in self.below]
        return [it for it in self.line.partition(":")[2].split() if it not in own]

    def all_below(self) -> list[Crate]:
        """Every crate that this one is built over, lowest first."""
        found: list[Crate] = []
        for crate in self.below:
            found += [it for it in [*crate.all_below(), crate] if it not in found]
        return found

    def files(self) -> Iterator[str]:
        """The files that a check of the crate reads, in a fixed order."""
        for part in PARTS:
            for at, folders, names in os.walk(f"{self.folder}/{part}"):
                folders.sort()
                yield from (f"{at}/{name}" for name in sorted(names))

    def lines(self) -> int:
        """The number of the crate's lines of code."""
        return sum(1 for file in self.files() if file.endswith(".rt") for _ in open(file, "rb"))

    def edits(self) -> list[str]:
        """The files of the crate's edits: those that the gate tries, and those that are tried apart."""
        folders = [f"{self.folder}/{it}" for it in ("must-fail", "more-edits")]
        return [
            f"{folder}/{name}"
            for folder in folders
            if os.path.isdir(folder)
            for name in sorted(os.listdir(folder))
            if name.endswith(".edit")
        ]


def read_crates() -> dict[str, Crate]:
    """All crates by name, lowest first."""
    lines = {}
    with open(f"{ROOT}/crates.txt", encoding="utf-8") as file:
        for line in file:
            line = line.partition("#")[0].strip()
            if line:
                lines[line.partition(":")[0].split()[0]] = line
    crates: dict[str, Crate] = {}

    def add(name: str) -> Crate:
        if name not in crates:
            uses = [it for it in lines[name].partition(":")[2].split() if it in lines]
            crates[name] = Crate(name, lines[name], [add(it) for it in uses])
        return crates[name]

    for name in lines:
        add(name)
    return crates


def named(names: Iterable[str]) -> list[Crate]:
    """The crates with these names, or all crates if there are no names; lowest first. An unknown name ends the command."""
    known, names = read_crates(), list(names)
    unknown = [name for name in names if name not in known]
    if unknown:
        sys.exit(f"crates.txt lists no crate {' '.join(unknown)}")
    return [known[name] for name in names or known]


class Digests:
    """A digest of everything that a crate is made of: its files, its line in crates.txt, the toolchain, and the same of
    the crates below."""

    def __init__(self) -> None:
        version = subprocess.run(["rt", "version"], stdout=subprocess.PIPE, check=True)
        self.toolchain = version.stdout
        self.known: dict[str, str] = {}

    def of(self, crate: Crate) -> str:
        if crate.name not in self.known:
            digest = hashlib.sha256(self.toolchain + crate.line.encode())
            for file in crate.files():
                digest.update(os.path.relpath(file, crate.folder).encode() + b"\0")
                digest.update(hashlib.sha256(content(file)).digest())
            for below in crate.below:
                digest.update(self.of(below).encode())
            self.known[crate.name] = digest.hexdigest()
        return self.known[crate.name]
