#!/usr/bin/env python3
"""Checks one crate over the libraries that `make core` has built, and over what the crate's last check has kept.

    tools/check.py CRATE [FLAG ..]

Crates below that are not built yet are proved and built first. The flags go to the prover: `--allow-holes` prints each open goal
and goes on, `--only PATH` checks one function. If nothing has changed, a check takes seconds. The status is the prover's.
This is not the gate: `make prove` proves from nothing.
"""
import os
import subprocess
import sys

from tooling.crates import OUT, read_crates
from tooling.steps import Steps, locked
from build import MOST_JOBS, Building, steps_for


def main(words: list[str]) -> int:
    known = read_crates()
    if not words or words[0] not in known:
        sys.exit("usage: tools/check.py CRATE [FLAG ..], with a crate of crates.txt")
    crate = known[words[0]]
    building = Building()
    with locked(OUT):
        steps, _ = steps_for(crate.below, building)
        if not Steps(steps).run():
            return 1
    kept = f"{OUT}/check/{crate.name}"
    os.makedirs(kept, exist_ok=True)
    return subprocess.run([*building.prover.check(crate, MOST_JOBS, kept), *words[1:]], cwd=crate.folder).returncode


if __name__ == "__main__":
    sys.exit(main(sys.argv[1:]))
