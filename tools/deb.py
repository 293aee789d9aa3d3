#!/usr/bin/env python3
"""Makes a Debian package of the program in bin/, or of the program in another folder.

    tools/deb.py [FOLDER]

Writes out/totxegun_VERSION_amd64.deb and compiles nothing: tools/install installs the program into a folder, and debhelper makes
the package by packaging/debian. All times in it are the day of the newest version in CHANGELOG.md, so that the same program
gives the same bytes. The last lines have the package's size and checksum, and say whether the book in it was proved. Status 1:
a line says what failed. The log is out/logs/deb.log.
"""
import datetime
import email.utils
import hashlib
import os
import re
import shutil
import subprocess
import sys
import textwrap
import time

from tooling.crates import OUT, ROOT
from tooling.files import text_of
from tooling.steps import LOGS, end_of, shown
from pages import Wrong, version

WORK = f"{OUT}/deb"
LOG = f"{LOGS}/deb.log"
MAINTAINER = re.compile(r"^Maintainer: (.*)$", re.MULTILINE)
ITEM = re.compile(r"^- (.*)$", re.MULTILINE)


def second_of(day: str) -> int:
    """Noon of a day in UTC, as seconds since 1970."""
    return int(datetime.datetime.fromisoformat(f"{day}T12:00:00+00:00").timestamp())


def changelog() -> str:
    """CHANGELOG.md in the form of debian/changelog."""
    maintainer = MAINTAINER.search(text_of(f"{ROOT}/packaging/debian/control"))[1]
    # The headings of older versions also have the revision after the day.
    parts = re.split(r"^## (\S+), (\S+).*$", text_of(f"{ROOT}/CHANGELOG.md"), flags=re.MULTILINE)[1:]
    entries: list[str] = []
    days: list[str] = []
    for number, day, text in zip(parts[::3], parts[1::3], parts[2::3]):
        items = "".join(f"{textwrap.fill(item, 78, initial_indent='  * ', subsequent_indent='    ')}\n" for item in ITEM.findall(text))
        # Debian requires times in order: of two versions of one day the older gets an earlier hour.
        when = email.utils.formatdate(second_of(day) - 3600 * days.count(day))
        days.append(day)
        entries.append(f"totxegun ({number}) unstable; urgency=medium\n\n{items}\n -- {maintainer}  {when.replace('-0000', '+0000')}\n")
    return "\n".join(entries)


def proof(programs: str) -> str:
    """What the packaged program says about its book."""
    ran = subprocess.run([f"{programs}/totxegun", "version"], stdout=subprocess.PIPE, text=True, check=True)
    return ran.stdout.strip()


def prepare(folder: str, programs: str) -> bool:
    """Makes the package's source tree. Returns False if tools/install or tools/contents.py fails; they print why."""
    shutil.rmtree(WORK, ignore_errors=True)
    shutil.copytree(f"{ROOT}/packaging/debian", f"{folder}/debian")
    with open(f"{folder}/debian/changelog", "w", encoding="utf-8") as file:
        file.write(changelog())
    places = {"DESTDIR": f"{folder}/installed", "PREFIX": "/usr", "SYSCONFDIR": "/etc", "UNITDIR": "/lib/systemd/system"}
    if subprocess.run([f"{ROOT}/tools/install", programs], env={**os.environ, **places}, check=False).returncode:
        return False
    words = [f"{programs}/totxegun", f"{folder}/installed/usr/share/doc/totxegun"]
    return subprocess.run([f"{ROOT}/tools/contents.py", *words], stdout=subprocess.DEVNULL, check=False).returncode == 0


def build(folder: str, second: int) -> bool:
    """Runs debhelper, and returns whether it made the package."""
    os.makedirs(LOGS, exist_ok=True)
    with open(LOG, "wb") as log:
        words = ["dpkg-buildpackage", "--build=binary", "--no-sign"]
        ran = subprocess.run(words, cwd=folder, stdin=subprocess.DEVNULL, stdout=log, stderr=log,
                             env={**os.environ, "SOURCE_DATE_EPOCH": str(second)}, check=False)
    return ran.returncode == 0


def main(words: list[str]) -> int:
    if len(words) > 1:
        sys.exit(f"usage: {sys.argv[0]} [FOLDER]")
    begun = time.monotonic()
    if subprocess.run([f"{ROOT}/tools/needs", "deb"], check=False).returncode:
        return 1
    try:
        number, day = version()
    except Wrong as why:
        print(f"tools/deb.py: {why}", file=sys.stderr)
        return 1
    folder, programs = f"{WORK}/totxegun-{number}", os.path.abspath(words[0]) if words else f"{ROOT}/bin"
    if not prepare(folder, programs):
        return 1
    if not build(folder, second_of(day)):
        print("\n".join(end_of(LOG)), file=sys.stderr)
        print(f"tools/deb.py: debhelper failed; the log is {os.path.relpath(LOG)}", file=sys.stderr)
        return 1
    name = f"totxegun_{number}_amd64.deb"
    os.replace(f"{WORK}/{name}", f"{OUT}/{name}")
    with open(f"{OUT}/{name}", "rb") as file:
        digest = hashlib.file_digest(file, "sha256").hexdigest()
    print(f"{os.path.relpath(f'{OUT}/{name}')}: {os.path.getsize(f'{OUT}/{name}'):,} bytes, made in {shown(time.monotonic() - begun)}")
    print(f"sha256 {digest}")
    print(f"in it is {proof(programs)}")
    return 0


if __name__ == "__main__":
    sys.exit(main(sys.argv[1:]))
