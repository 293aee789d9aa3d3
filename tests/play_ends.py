#!/usr/bin/env python3
"""The ends of the built program play, of which no contract speaks: what is on standard error, and the status.

Call: tests/play_ends.py PROGRAM, with the path of the built program.

  - a closed standard output: play: cannot write, status 1
  - 16,777,217 bytes of input, one too many: play: input too long, status 1, and no reply
  - 16,777,216 bytes of input: a reply, nothing on standard error, status 0
  - a standard input that can't be read: play: cannot read, status 1, and no reply
Each line is a check; the last line counts passes and failures. The status is 0 if none failed.
"""
import os
import subprocess
import sys
import tempfile
from typing import Any

from testing.checks import Checks

MOST = 16_777_216


def play(program: str, given: bytes | int, out: int = subprocess.PIPE) -> tuple[int, bytes, bytes]:
    """Status, replies and standard error of a run on this input, a file or bytes."""
    words: dict[str, Any] = {"input": given} if isinstance(given, bytes) else {"stdin": given}
    ran = subprocess.run([program], stdout=out, stderr=subprocess.PIPE, check=False, **words)
    return ran.returncode, ran.stdout, ran.stderr


def play_closed(program: str) -> tuple[int, bytes]:
    """The same, with a script and a closed standard output."""
    words = ["sh", "-c", 'exec "$0" >&-', program]
    ran = subprocess.run(words, input=b"report\n", stderr=subprocess.PIPE, check=False)
    return ran.returncode, ran.stderr


def main(program: str) -> int:
    checks = Checks()
    checks.same("closed output", (1, b"play: cannot write\n"), play_closed(program))
    too_long = (1, b"", b"play: input too long\n")
    checks.same("one byte too many", too_long, play(program, bytes(MOST + 1)))
    checks.same("as many bytes as may be", (0, b"bad command\n", b""), play(program, bytes(MOST)))
    with tempfile.TemporaryDirectory() as folder:
        opened = os.open(folder, os.O_RDONLY)
        checks.same("a folder as input", (1, b"", b"play: cannot read\n"), play(program, opened))
        os.close(opened)
    return checks.end()


if __name__ == "__main__":
    if len(sys.argv) != 2:
        sys.exit(__doc__)
    sys.exit(main(sys.argv[1]))
