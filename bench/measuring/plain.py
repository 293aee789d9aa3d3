"""Builds the plain programs of bench/plain, offline, from the crates that Debian's packages install."""
import os
import shutil
import subprocess

from measuring import ROOT

SOURCE = f"{ROOT}/bench/plain"
BUILT = f"{ROOT}/out/plain"
PACKAGES = [f"librust-{crate}-dev" for crate in ("serde-json", "serde-derive", "httparse", "ahash-0.7", "hashbrown")]
# For each program the profile that it is built by.
PROGRAMS = {"plain": "release", "plain-tree": "release", "plain-answers": "release", "plain-fast": "fast"}


def build(name: str) -> str | None:
    """The program with this name, or None after a line that says that it cannot be built."""
    if name not in PROGRAMS:
        raise SystemExit(f"{name} is no plain program: {', '.join(PROGRAMS)}")
    profile = PROGRAMS[name]
    cargo = shutil.which("cargo")
    words = ["build", "--offline", "--quiet", "--profile", profile, "--bin", name]
    if not cargo or subprocess.run([cargo, *words], cwd=SOURCE, check=False).returncode:
        print(f"left out: {name}; it needs cargo and the packages {' '.join(PACKAGES)}", flush=True)
        return None
    return os.path.join(BUILT, profile, name)
