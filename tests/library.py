#!/usr/bin/env python3
"""Tests what commands say if the service cannot or must not be built from a clone because of the library, its sources or the machine.

    tests/library.py

In a clone it changes a byte of book/libbook.a and a line of a crate, adds and removes a crate, and takes away Rust, Debian's packages,
the port and the processor. Each time the commands must say in one line what to do, with status 1, before anything is installed or
compiled, and leave nothing behind. Nothing is built.

Each line is a check; the last line counts passes and failures. The status is 1 if one failed.
"""
import contextlib
import os
import platform
import re
import shutil
import socket
import subprocess
import sys
import tempfile
from collections.abc import Iterator

from testing.checks import Checks
from testing.clone import Clone

LIBRARY = "book/libbook.a"
PROVENANCE = "book/PROVENANCE"
# A crate that no other crate uses, one of its files, and a line to change in it.
CRATE = "play"
SOURCE = f"crates/{CRATE}/src/main.rt"
CHECK = ["tools/book.py", "--check"]
CI = [".ci/run"]
# Folders that exist if a command began to compile or to install.
LEFT = ("out", "bin", "service/target")
NOBODY = "65534"
# Lines that make itself adds, also if it runs under another make.
MAKE = re.compile(r"make(\[\d+\])?: ")


class Tried:
    """Runs commands in the clone."""

    def __init__(self, checks: Checks, clone: Clone, folder: str) -> None:
        self.checks = checks
        self.clone = clone
        self.folder = folder

    def refused(self, what: str, command: list[str], *wanted: str, path: str = "") -> None:
        """Checks that the command prints one line with these words, has status 1, and leaves nothing behind."""
        environment = {**os.environ, "PATH": path or os.environ["PATH"], "PYTHONDONTWRITEBYTECODE": "1"}
        environment.pop("TOTXEGUN_BOOK", None)
        ran = subprocess.run(command, cwd=self.clone.folder, env=environment, stdin=subprocess.DEVNULL, stdout=subprocess.PIPE,
                             stderr=subprocess.STDOUT, text=True, check=False)
        lines = [line for line in ran.stdout.splitlines() if not MAKE.match(line)]
        said = len(lines) == 1 and all(word in lines[0] for word in wanted)
        left = [name for name in LEFT if os.path.exists(f"{self.clone.folder}/{name}")]
        self.checks.true(what, ran.returncode and said and not left, f"status {ran.returncode}, left {left}, said {ran.stdout[-2000:]!r}")

    def taken(self, what: str) -> None:
        ran = subprocess.run(["tools/book.py", "--check"], cwd=self.clone.folder, stdout=subprocess.PIPE, stderr=subprocess.STDOUT,
                             text=True, check=False)
        self.checks.same(what, (0, 1), (ran.returncode, ran.stdout.count("\n")))

    @contextlib.contextmanager
    def changed(self, name: str, content: bytes | None) -> Iterator[None]:
        """Replaces or removes a file while the context lasts."""
        path = f"{self.clone.folder}/{name}"
        kept = open(path, "rb").read() if os.path.exists(path) else None
        self.put(path, content)
        try:
            yield
        finally:
            self.put(path, kept)

    @staticmethod
    def put(path: str, content: bytes | None) -> None:
        if content is None:
            os.remove(path)
            return
        os.makedirs(os.path.dirname(path), exist_ok=True)
        with open(path, "wb") as file:
            file.write(content)

    def bytes_of(self, name: str) -> bytes:
        with open(f"{self.clone.folder}/{name}", "rb") as file:
            return file.read()


def library(tried: Tried) -> None:
    tried.taken("the library is that of PROVENANCE, and of these crates")
    whole = bytearray(tried.bytes_of(LIBRARY))
    whole[len(whole) // 2] ^= 1
    with tried.changed(LIBRARY, bytes(whole)):
        for command in (CHECK, CI, *(["make", "-s", it] for it in ("test", "build", "serve"))):
            tried.refused(f"{' '.join(command)}: a library of which a byte was changed", command, LIBRARY, "git checkout book")
    with tried.changed(PROVENANCE, None):
        tried.refused("make build: there is no PROVENANCE", ["make", "-s", "build"], PROVENANCE, "git checkout book")


def sources(tried: Tried) -> None:
    with tried.changed(SOURCE, tried.bytes_of(SOURCE) + b"// One more line.\n"):
        for command in (CHECK, CI, ["make", "-s", "test"]):
            tried.refused(f"{' '.join(command)}: a crate of which a line was changed", command, f"crates/{CRATE}", "make prove")
    with tried.changed("crates/play/src/more.rt", b"// A new file.\n"):
        tried.refused("a crate that has a file more", CHECK, f"crates/{CRATE}:", "make prove")
    lines = tried.bytes_of("crates.txt")
    with tried.changed("crates.txt", lines + b"later: decimals\n"):
        tried.refused("a crate that PROVENANCE does not have", CHECK, "crates.txt, crates/later:", "make prove")
    with tried.changed("crates.txt", b"".join(line for line in lines.splitlines(True) if not line.startswith(b"play:"))):
        tried.refused("a crate that is gone", CHECK, "crates.txt, crates/play:", "make prove")
    with tried.changed("HANDLES", b"Handles allowed: none.\n"):
        tried.refused("other handles", CHECK, "HANDLES:", "make prove")
    tried.taken("all as before")


def machine(tried: Tried) -> None:
    if platform.machine() == "x86_64" and shutil.which("setarch"):
        for command in ("serve", "build", "test"):
            tried.refused(f"make {command}: another processor", ["setarch", "i686", "make", "-s", command], "x86-64", "i686")
    programs = f"{tried.folder}/programs"
    os.makedirs(programs)
    for folder in ("/usr/bin", "/bin", os.path.dirname(sys.executable)):
        for name in os.listdir(folder):
            if name not in ("cargo", "dpkg") and not os.path.lexists(f"{programs}/{name}"):
                os.symlink(f"{folder}/{name}", f"{programs}/{name}")
    tried.refused("make serve: there is no Rust", ["make", "-s", "serve"], "install Rust", path=programs)
    for name, status in (("cargo", 0), ("dpkg", 1)):
        Tried.put(f"{programs}/{name}", f"#!/bin/sh\nexit {status}\n".encode())
        os.chmod(f"{programs}/{name}", 0o755)
    if os.getuid() == 0:
        words = ["setpriv", f"--reuid={NOBODY}", f"--regid={NOBODY}", "--clear-groups", "make", "-s", "serve"]
        tried.refused("make serve: packages are missing, and it is not root", words, "only root", "apt-get install", path=programs)
    with socket.create_server(("127.0.0.1", 0)) as taken:
        port = taken.getsockname()[1]
        tried.refused("the port is taken", ["tools/serve.py", str(port)], f"port {port}", "is taken")


def main() -> int:
    checks = Checks()
    with tempfile.TemporaryDirectory() as folder:
        os.chmod(folder, 0o755)
        tried = Tried(checks, Clone(f"{folder}/clone"), folder)
        library(tried)
        sources(tried)
        machine(tried)
    return checks.end()


if __name__ == "__main__":
    sys.exit(main())
