"""Builds an unproved gateway with run-time checks: `rt try` builds and runs it, and this module copies the program while it runs."""
import os
import shutil
import subprocess
import tempfile
import time
from collections.abc import Sequence

from testing import loopback
from tooling.files import text_there

# The timeout of a build on a busy machine, in seconds; `rt try` requires one.
BUILD = 1800


def build(root: str, folder: str) -> Sequence[str | None]:
    """Builds the gateway of the repository `root` into `folder`. Returns (path, None), or (None, output) if the build fails."""
    port = loopback.free_port()
    # The gateway would end after one connection, and none is made, so it runs until it is terminated.
    words = ["serve", "--connections", "1", "--backend", "127.0.0.1:9", "--listen", f"127.0.0.1:{port}"]
    shutil.rmtree(folder, ignore_errors=True)
    os.makedirs(folder)
    with tempfile.TemporaryFile() as log:
        # With a process group of its own, an interrupt of the terminal reaches only this script; `rt` ends its own children.
        trying = subprocess.Popen(["rt", "try", "--seconds", str(BUILD), "--", *words], cwd=f"{root}/crates/gateway",
                                  stdin=subprocess.DEVNULL, stdout=log, stderr=log, start_new_session=True)
        try:
            command = command_that_listens(trying, port, words)
            if command:
                return keep(command, folder), None  # copied while `rt` runs, which deletes the program when it ends
        finally:
            trying.terminate()
            trying.wait()
        log.seek(0)
        return None, log.read().decode(errors="replace")


def command_that_listens(trying: subprocess.Popen[bytes], port: int, words: list[str]) -> list[str] | None:
    """The command line of the gateway that `rt try` runs, without the gateway's own arguments, as soon as it listens."""
    command = None
    # Another program may have taken the port meanwhile, so a listener is not enough: the gateway's process must exist too.
    while trying.poll() is None and not (command and listens(port)):
        time.sleep(0.5)
        command = command_with(words)
    return command


def command_with(words: list[str]) -> list[str] | None:
    """The words before `words` in a process whose command line ends with them. The arguments of `rt` itself differ."""
    for pid in filter(str.isdecimal, os.listdir("/proc")):
        line = text_there(f"/proc/{pid}/cmdline").split("\0")[:-1]
        at = len(line) - len(words)
        if at > 0 and line[at:] == words and line[at - 1].endswith("/program") and os.path.isfile(line[at - 1]):
            return line[:at]
    return None


def keep(command: list[str] | None, folder: str) -> str:
    """Copies the program, and returns the path of a script that runs the copy with the same words before it."""
    shutil.copyfile(command[-1], f"{folder}/program")
    os.chmod(f"{folder}/program", 0o755)
    words = " ".join([*command[:-1], f'"{folder}/program"'])
    with open(f"{folder}/gateway", "w", encoding="utf-8") as file:
        file.write(f'#!/bin/sh\nexec {words} "$@"\n')
    os.chmod(f"{folder}/gateway", 0o755)
    return f"{folder}/gateway"


def listens(port: int) -> bool:
    """Whether someone listens, by the kernel's table: the gateway would serve a test connection."""
    return f"0100007F:{port:04X} 00000000:0000 0A" in text_there("/proc/net/tcp")
