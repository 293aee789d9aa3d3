#!/usr/bin/env python3
"""Checks and tests one part, in seconds to two minutes: tools/quick.py NAME

NAME is a crate, or a folder or file of service/src. For a crate it runs the crate's check over what an earlier check has kept, and
the tests of each crate above it, unproved. For a part of the service it runs clippy and the tests of that part. It prints each
command and how long it took; the status is 1 after the first that fails. This is not the gate: CONTRIBUTING.md says what else to run.
"""
import os
import subprocess
import sys
import time

from tooling.crates import ROOT, Crate, read_crates
from tooling.files import content
from tooling.steps import shown

SOURCE = f"{ROOT}/service/src"


def commands_of_crate(crate: Crate, crates: dict[str, Crate]) -> list[tuple[list[str], str]]:
    """The commands, each with the folder in which it runs."""
    above = [it for it in crates.values() if crate in (it, *it.all_below()) and has_tests(it)]
    return [([f"{ROOT}/tools/check.py", crate.name], ROOT), *((["rt", "try", "--test"], it.folder) for it in above)]


def has_tests(crate: Crate) -> bool:
    return any(b"#[test]" in content(file) for file in crate.files())


def commands_of_service(part: str) -> list[tuple[list[str], str]]:
    """The same for a part of the service, given by its path below src."""
    module = part.removesuffix(".rs").removesuffix("/mod").replace("/", "::")
    cargo = f"{ROOT}/tools/cargo"
    return [
        ([cargo, "clippy", "--all-targets", "--", "-D", "warnings"], ROOT),
        ([cargo, "test", "--lib", f"{module}::"], ROOT),
    ]


def commands(name: str) -> list[tuple[list[str], str]]:
    crates = read_crates()
    if name in crates:
        return commands_of_crate(crates[name], crates)
    part = name.removeprefix("service/").removeprefix("src/").strip("/")
    if part and (os.path.exists(f"{SOURCE}/{part}") or os.path.exists(f"{SOURCE}/{part}.rs")):
        return commands_of_service(part)
    sys.exit(f"{sys.argv[0]}: {name!r} is no crate of crates.txt, and no part of service/src")


def main(words: list[str]) -> int:
    if len(words) != 1:
        sys.exit(f"usage: {sys.argv[0]} NAME, of a crate or of a part of service/src")
    begun = time.monotonic()
    for words, folder in commands(words[0]):
        at = time.monotonic()
        shown_words = " ".join(os.path.relpath(it, ROOT) if it.startswith(ROOT) else it for it in words)
        print(f"{os.path.relpath(folder, ROOT)}: {shown_words}", flush=True)
        if subprocess.run(words, cwd=folder, check=False).returncode:
            return 1
        print(f"    {shown(time.monotonic() - at)}", flush=True)
    print(f"done in {shown(time.monotonic() - begun)}")
    return 0


if __name__ == "__main__":
    sys.exit(main(sys.argv[1:]))
