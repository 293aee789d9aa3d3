#!/usr/bin/env python3
"""Builds the service's release profile into bin/totxegun, from book/ and service/, without the prover.

    tools/service.py

It installs missing Debian packages, checks the proved library in book/, and compiles. Each step prints what it does and how long it
took. If one fails, a line says what is wrong, and the status is 1.
"""
import os
import shutil
import subprocess
import sys
import time

from tooling.crates import ROOT
from tooling.steps import shown
from book import fault_of_library, other_processor

PROGRAM = "totxegun"
BIN = f"{ROOT}/bin"
# Cargo's folder for each profile, and about how many minutes a full build takes on 4 idle cores.
FOLDERS = {"dev": "debug", "release": "release"}
MINUTES = {"dev": 2, "release": 5}


def made(profile: str) -> str:
    """The path of the program that cargo builds with a profile."""
    target = os.environ.get("CARGO_TARGET_DIR") or f"{ROOT}/service/target"
    return f"{target}/{FOLDERS[profile]}/{PROGRAM}"


def is_done(*words: str) -> bool:
    """Whether a command of tools/ succeeds. If it fails, it prints why."""
    return subprocess.run([f"{ROOT}/tools/{words[0]}", *words[1:]], check=False).returncode == 0


def fault() -> str | None:
    """Why the service cannot be built here, as far as this is known before anything is installed or compiled; None if it can."""
    if found := other_processor():
        return found
    return None if os.environ.get("TOTXEGUN_BOOK") else fault_of_library()


def build(profile: str) -> str | None:
    """Builds the program if its sources have changed, and returns its path; None if that fails."""
    if found := fault():
        print(found, file=sys.stderr)
        return None
    if not is_done("cargo", "--found") or not is_done("needs", "service"):
        return None
    if not os.path.exists(made(profile)):
        print(f"compiling {PROGRAM} ({profile}): about {MINUTES[profile]} minutes on 4 idle cores, the first time", flush=True)
    begun = time.monotonic()
    if not is_done("cargo", "build", "--quiet", "--profile", profile):
        print(f"{PROGRAM} could not be compiled: the lines above say why", file=sys.stderr)
        return None
    print(f"compiled in {shown(time.monotonic() - begun)}", flush=True)
    return made(profile)


def install(program: str, name: str) -> None:
    """Replaces a program in bin/. Renaming works even while the old program is running."""
    os.makedirs(BIN, exist_ok=True)
    shutil.copy2(program, f"{BIN}/{name}.new")
    os.replace(f"{BIN}/{name}.new", f"{BIN}/{name}")


def main(words: list[str]) -> int:
    if words:
        sys.exit(f"usage: {sys.argv[0]}")
    program = build("release")
    if not program:
        return 1
    install(program, PROGRAM)
    print(f"bin/{PROGRAM}: {subprocess.run([program, 'version'], stdout=subprocess.PIPE, text=True, check=True).stdout.strip()}")
    return 0


if __name__ == "__main__":
    sys.exit(main(sys.argv[1:]))
