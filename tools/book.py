#!/usr/bin/env python3
"""Checks that the library in book/ is the one that book/PROVENANCE names, and that it was proved from the current sources.

    tools/book.py --check

It takes a second and needs no prover. PROVENANCE has the library's checksum, the digest of each crate and of the files beside
the crates that the prover reads, the commit, the toolchain, and the result of the gate that proved everything. Only `make prove`
writes it.

Status 0: library and sources are as PROVENANCE says. Status 1: one line for each difference says what to do.
"""
import hashlib
import os
import platform
import sys
from collections.abc import Iterator

from tooling.crates import PARTS, ROOT, Crate, read_crates
from tooling.files import content, text_there

FOLDER = f"{ROOT}/book"
LIBRARY = f"{FOLDER}/libbook.a"
PROVENANCE = f"{FOLDER}/PROVENANCE"
# Files outside the crates that `rt ci` reads.
BESIDE = ("crates.txt", "HANDLES")
# What `rt ci` reads of a crate: the parts that a check reads, the must-fail edits, and data for a program's run.
OF_GATE = (*PARTS, "must-fail", "data")
OF_RUN = ("stdin", "stdout", "args", "status")
# The processor that the library is compiled for.
PROCESSOR = "x86_64"


def other_processor() -> str | None:
    """Why nothing can be built on this machine: the library is for another processor. None if it is for this one."""
    found = platform.machine()
    if found == PROCESSOR:
        return None
    return f"totxegun runs on Linux on x86-64: the proved library in book/ is for that processor, and this machine is {found}"


def digest_of(data: bytes) -> str:
    return hashlib.sha256(data).hexdigest()


def files_of(crate: Crate) -> Iterator[str]:
    """The files of a crate that `rt ci` reads, in a fixed order."""
    for part in OF_GATE:
        for at, folders, names in os.walk(f"{crate.folder}/{part}"):
            folders.sort()
            yield from (f"{at}/{name}" for name in sorted(names))
    yield from (f"{crate.folder}/{name}" for name in OF_RUN if os.path.isfile(f"{crate.folder}/{name}"))


def digest_of_crate(crate: Crate) -> str:
    whole = hashlib.sha256()
    for file in files_of(crate):
        whole.update(os.path.relpath(file, crate.folder).encode() + b"\0" + hashlib.sha256(content(file)).digest())
    return whole.hexdigest()


def sources() -> dict[str, str]:
    """The digest of each crate, and of each file beside the crates, by path."""
    found = {name: digest_of(content(f"{ROOT}/{name}")) for name in BESIDE}
    for crate in read_crates().values():
        found[f"crates/{crate.name}"] = digest_of_crate(crate)
    return found


def provenance() -> dict[str, str]:
    """The lines of PROVENANCE by their first word, which is the path for a source."""
    lines = (line.split(maxsplit=1) for line in text_there(PROVENANCE).splitlines())
    said = {words[0]: words[1] for words in lines if len(words) == 2}
    return said


def changed_sources() -> list[str]:
    """The paths of sources that PROVENANCE does not have as they are: changed, new or deleted."""
    found, said = sources(), provenance()
    gone = [name for name in said if (name.startswith("crates/") or name in BESIDE) and name not in found]
    return [*(name for name, digest in found.items() if said.get(name) != digest), *gone]


def fault_of_library() -> str | None:
    """Why the library in book/ must not be linked, in one line; None if its checksum is that of PROVENANCE."""
    if not os.path.isfile(LIBRARY) or not os.path.isfile(PROVENANCE):
        return "book/libbook.a or book/PROVENANCE is missing: `git checkout book` brings both back"
    found, wanted = digest_of(content(LIBRARY)), provenance().get("sha256")
    if found == wanted:
        return None
    return f"book/libbook.a has the sha256 {found}, and book/PROVENANCE says {wanted}: `git checkout book` brings back the proved one"


def fault_of_sources() -> str | None:
    """Why the library is not the proof's result for these sources, in one line; None if no source has changed."""
    changed = changed_sources()
    if not changed:
        return None
    return f"book/libbook.a was proved and built of other sources than {', '.join(changed)}: `make prove` proves these and makes it anew"


def main(words: list[str]) -> int:
    if words != ["--check"]:
        sys.exit(f"usage: {sys.argv[0]} --check")
    faults = list(filter(None, [fault_of_library(), fault_of_sources()]))
    for it in faults:
        print(f"tools/book.py: {it}", file=sys.stderr)
    if not faults:
        said = provenance()
        print(f"book/libbook.a is what {said['revision']} yields, proved by {said['toolchain']}")
    return 1 if faults else 0


if __name__ == "__main__":
    sys.exit(main(sys.argv[1:]))
