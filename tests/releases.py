#!/usr/bin/env python3
"""Tests what tools/release.py refuses, and what it commits and tags. It runs in a clone and builds nothing.

    tests/releases.py

Each line is a check; the last line counts passes and failures. The status is 1 if one failed.
"""
import os
import re
import subprocess
import sys
import tempfile

from testing.checks import Checks
from testing.clone import Clone

# The same tool without the steps that take long.
RELEASE = "import sys; sys.path.insert(0, 'tools'); import release; release.make = lambda version: None; release.main([sys.argv[1]])"


class Released(Clone):
    """The repository that is to be released."""

    def pass_gate(self) -> None:
        self.write("out/passed", self.git("rev-parse", "HEAD") + "\n")

    def release(self, version: str) -> str:
        """What the tool prints to standard error; "" if it released."""
        ran = subprocess.run([sys.executable, "-c", RELEASE, version], cwd=self.folder, stderr=subprocess.PIPE, text=True, check=False)
        return ran.stderr.strip()


def refusals(checks: Checks, clone: Released, last: str, version: str) -> None:
    clone.write("new", "")
    checks.true("a change that is not committed is refused", "not committed" in clone.release(version), "taken")
    os.remove(f"{clone.folder}/new")
    checks.true("a revision on which no gate has passed is refused", "gate has not passed" in clone.release(version), "taken")
    clone.pass_gate()
    for wrong in (last, "0.1.0", "1", "1.2.x"):
        checks.true(f"the version {wrong} is refused", "comes after" in clone.release(wrong), "taken")
    clone.git("commit", "--quiet", "--allow-empty", "--message", "later")
    checks.true("a gate that has passed on an earlier revision does not count", "gate has not passed" in clone.release(version), "taken")
    clone.pass_gate()


def released(checks: Checks, clone: Released, last: str, version: str) -> None:
    checks.same("it is released", "", clone.release(version))
    checks.same("the commit has the tag", f"v{version}", clone.git("tag", "--points-at", "HEAD"))
    checks.same("nothing is left uncommitted", "", clone.git("status", "--porcelain"))
    checks.true("CHANGELOG names version and day",
                re.search(rf"^## {version}, \d{{4}}-\d\d-\d\d$", clone.read("CHANGELOG.md"), re.M), "not there")
    checks.true("CHANGELOG has nothing unreleased", "## Unreleased" not in clone.read("CHANGELOG.md"), "there")
    for name in ("VERSION", "service/Cargo.toml", "service/Cargo.lock", "README.md", "docs/OPERATING.md"):
        text = clone.read(name)
        checks.true(f"{name} names it", version in text and f"totxegun_{last}" not in text, "not there")
    checks.same("once more changes nothing", ("", f"Version {version}"), (clone.release(version), clone.git("log", "-1", "--format=%s")))
    clone.git("commit", "--quiet", "--allow-empty", "--message", "later")
    clone.pass_gate()
    further = f"{version[:-1]}{int(version[-1]) + 1}"
    checks.true("without changes in CHANGELOG the next one is refused", "CHANGELOG.md has no line" in clone.release(further), "taken")


def main() -> int:
    checks = Checks()
    with tempfile.TemporaryDirectory() as folder:
        clone = Released(folder)
        if "## Unreleased" not in clone.read("CHANGELOG.md"):
            clone.write("CHANGELOG.md", clone.read("CHANGELOG.md").replace("\n## ", "\n## Unreleased\n\n- A change.\n\n## ", 1))
            clone.git("commit", "--quiet", "--all", "--message", "a change")
        last = clone.read("VERSION").strip()
        major, minor, _ = map(int, last.split("."))
        version = f"{major}.{minor + 1}.0"
        refusals(checks, clone, last, version)
        released(checks, clone, last, version)
    return checks.end()


if __name__ == "__main__":
    sys.exit(main())
