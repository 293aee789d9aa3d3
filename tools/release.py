#!/usr/bin/env python3
"""Makes a release of the current commit: tools/release.py VERSION

The tree must be clean, and `make test` must have passed on this commit here. In CHANGELOG.md `Unreleased` becomes VERSION, and each
file that names the last version gets the new one; the script commits and tags that. Then it builds everything: out/release gets the
package, the image, the lists of their parts, and SHA256SUMS. Nothing is pushed. If the commit already has the tag, only the files are
made. Status 1: a line says why there is no release.
"""
import datetime
import os
import re
import shutil
import subprocess
import sys

from tooling.crates import OUT, ROOT
from tooling.files import text_of, write
from gate import PASSED, clean_revision

MADE = f"{OUT}/release"
CHANGELOG = f"{ROOT}/CHANGELOG.md"
FORM = re.compile(r"\d+\.\d+\.\d+")
UNRELEASED = "## Unreleased\n"
# The files that name the version, each with the text around it.
NAMING = (
    ("VERSION", "{}"),
    ("service/Cargo.toml", 'version = "{}"'),
    ("service/Cargo.lock", 'name = "totxegun"\nversion = "{}"'),
    ("README.md", "totxegun_{}_"),
    ("docs/OPERATING.md", "totxegun_{}_"),
)


class Refused(Exception):
    """Why nothing is released."""


def git(*words: str) -> str:
    return subprocess.run(["git", *words], cwd=ROOT, stdout=subprocess.PIPE, text=True, check=True).stdout.strip()


def check(version: str) -> None:
    """Refuses unless everything is ready for a version after the last one."""
    last = text_of(f"{ROOT}/VERSION").strip()
    if not FORM.fullmatch(version) or numbers(version) <= numbers(last):
        raise Refused(f"a version is three numbers, and comes after {last}: {version} does not")
    revision = clean_revision()
    if not revision:
        raise Refused("there are changes that are not committed: git status names them")
    if not os.path.exists(PASSED) or text_of(PASSED).strip() != revision:
        raise Refused(f"the gate has not passed here on {revision[:12]}: make test")
    if UNRELEASED not in text_of(CHANGELOG):
        raise Refused(f"CHANGELOG.md has no line `{UNRELEASED.strip()}`: it says what this version changes")


def numbers(version: str) -> list[int]:
    return [int(it) for it in version.split(".")]


def name(version: str, day: str) -> None:
    """Replaces the last version's number in all files that name it."""
    last = text_of(f"{ROOT}/VERSION").strip()
    for file, around in NAMING:
        text = text_of(f"{ROOT}/{file}")
        if around.format(last) not in text:
            raise Refused(f"{file} does not have `{around.format(last)}`")
        write(f"{ROOT}/{file}", text.replace(around.format(last), around.format(version)))
    write(CHANGELOG, text_of(CHANGELOG).replace(UNRELEASED, f"## {version}, {day}\n", 1))


def tag(version: str) -> None:
    git("commit", "--all", "--quiet", "--message", f"Version {version}")
    git("tag", "--annotate", f"v{version}", "--message", f"Version {version}")


def is_tagged(version: str) -> bool:
    return f"v{version}" in git("tag", "--points-at", "HEAD").split()


def make(version: str) -> None:
    """Builds the files of the release."""
    shutil.rmtree(MADE, ignore_errors=True)
    os.makedirs(MADE)
    for command in (["tools/service.py"], ["tools/deb.py"], ["tools/image"], ["tools/contents.py", "bin/totxegun", MADE]):
        subprocess.run(command, cwd=ROOT, check=True)
    for file in (f"totxegun_{version}_amd64.deb", f"totxegun_{version}_image.tar"):
        shutil.copy(f"{OUT}/{file}", MADE)
    names = sorted(os.listdir(MADE))
    sums = subprocess.run(["sha256sum", *names], cwd=MADE, stdout=subprocess.PIPE, text=True, check=True).stdout
    write(f"{MADE}/SHA256SUMS", sums)
    print(f"{os.path.relpath(MADE)}: {', '.join(names)}, SHA256SUMS. To publish: git push --follow-tags")


def main(words: list[str]) -> None:
    if len(words) != 1 or not words[0]:
        sys.exit("usage: make release VERSION=X.Y.Z")
    version = words[0]
    try:
        if not is_tagged(version):
            check(version)
            name(version, datetime.datetime.now(datetime.timezone.utc).date().isoformat())
            tag(version)
        make(version)
    except (Refused, subprocess.CalledProcessError) as why:
        sys.exit(f"tools/release.py: {why}")


if __name__ == "__main__":
    main(sys.argv[1:])
