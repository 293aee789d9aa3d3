"""Parts of scripts that run programs with the files of operate/: processes that always end, edited copies of those
files, a small disk, and requests to a gateway."""
import contextlib
import ctypes
import http.client
import os
import shutil
import signal
import subprocess
import sys
import tempfile
from collections.abc import Callable, Iterable, Mapping, Sequence
from typing import Any, NoReturn

from testing import ROOT
from testing.checks import Checks
from testing.loopback import SECONDS, Gateway
from testing.service import wait_until

OPERATE = f"{ROOT}/operate"
CONNECTIONS = 1_000_000
# From <sched.h>.
CLONE_NEWNS = 0x20000
os.environ["PATH"] += ":/usr/sbin:/sbin"


def missing(programs: Iterable[str], *files: str) -> list[str]:
    """Those of these programs and files that do not exist."""
    return [word for word in programs if not shutil.which(word)] + [file for file in files if not os.path.exists(file)]


def run_script(seconds: int, work: Callable[..., None], names: Sequence[str] = ("PROGRAM",)) -> NoReturn:
    """Runs `work(program, .., checks, stack)` for a script whose first arguments are programs, and exits with its
    status. Always cleans up. An error, a SIGTERM, or a run longer than `seconds` is a failed check."""
    programs = sys.argv[1:len(names) + 1]
    if len(programs) < len(names) or not all(os.access(program, os.X_OK) for program in programs):
        sys.exit(f"usage: {sys.argv[0]} {' '.join(names)}")
    checks = Checks()

    def stop(number: int, frame: object) -> NoReturn:
        raise TimeoutError("no end in time" if number == signal.SIGALRM else "stopped")
    signal.signal(signal.SIGALRM, stop)
    signal.signal(signal.SIGTERM, stop)
    signal.alarm(seconds)
    try:
        with contextlib.ExitStack() as stack:
            try:
                work(*[os.path.abspath(program) for program in programs], checks, stack)
            finally:
                signal.alarm(0)
    except (OSError, subprocess.SubprocessError) as error:  # TimeoutError is an OSError too.
        checks.same("the script goes on", "no error", f"{type(error).__name__}: {error}")
    sys.exit(checks.end())


def listens(port: int) -> bool:
    """Reads the kernel's table, because the gateway would count a test connection."""
    with open("/proc/net/tcp") as table:
        return f":{port:04X} 00000000:0000 0A" in table.read()


def folder(stack: contextlib.ExitStack) -> str:
    """A new folder that other users can read."""
    path = tempfile.mkdtemp(prefix="operate-")
    stack.callback(shutil.rmtree, path, ignore_errors=True)
    os.chmod(path, 0o755)
    return path


def own_disk(stack: contextlib.ExitStack, path: str, size: int | str) -> bool:
    """Mounts a tmpfs of this size on a folder, visible only to this process and those it starts. Returns whether that is permitted."""
    if ctypes.CDLL(None).unshare(CLONE_NEWNS) != 0:
        return False
    mounts = ["--make-rprivate", "/"], ["-t", "tmpfs", "-o", f"size={size}", "tmpfs", path]
    if any(subprocess.run(["mount", *words], stderr=subprocess.DEVNULL, check=False).returncode for words in mounts):
        return False
    stack.callback(lambda: subprocess.run(["umount", "--lazy", path], check=False))
    return True


def end_group(process: subprocess.Popen[Any]) -> None:
    """Kills a process that leads a group, with all processes of the group."""
    with contextlib.suppress(ProcessLookupError):
        os.killpg(process.pid, signal.SIGKILL)
    process.wait(SECONDS)


def started(stack: contextlib.ExitStack, words: Sequence[str], log: str) -> subprocess.Popen[bytes]:
    """Starts a process with a group of its own; its output is appended to the log."""
    with open(log, "ab") as out:
        process = subprocess.Popen(words, stdout=out, stderr=out, stdin=subprocess.DEVNULL, start_new_session=True)
    stack.callback(end_group, process)
    return process


def end_gateway(gateway: Gateway) -> None:
    """Kills the gateway and discards its output."""
    gateway.process.kill()
    gateway.process.communicate(timeout=SECONDS)


def gateway_at(stack: contextlib.ExitStack, program: str, backend: int, *options: str) -> Gateway:
    """Starts a gateway and returns when it listens."""
    gateway = Gateway(program, backend, CONNECTIONS, options=options)
    stack.callback(end_gateway, gateway)
    if not wait_until(lambda: listens(gateway.port) or gateway.process.poll() is not None):
        raise TimeoutError("the gateway does not listen")
    if gateway.process.poll() is not None:
        raise OSError(f"the gateway has ended: {gateway.process.stderr.read()!r}")
    return gateway


def shipped(name: str, replaced: Mapping[str, str]) -> str:
    """The text of a file of operate/ with these words replaced. Each must occur in it."""
    with open(f"{OPERATE}/{name}") as file:
        return with_replaced(file.read(), replaced)


def with_replaced(text: str, replaced: Mapping[str, str]) -> str:
    for old, new in replaced.items():
        if old not in text:
            raise OSError(f"there is no {old} in {text[:60]!r}")
        text = text.replace(old, new)
    return text


def ask(port: int, method: str, path: str, body: bytes | str | None = None,
        headers: Mapping[str, str] | None = None) -> tuple[int, str]:
    """The status and text of an answer."""
    connection = http.client.HTTPConnection("127.0.0.1", port, timeout=SECONDS)
    with contextlib.closing(connection):
        connection.request(method, path, body, headers or {})
        answer = connection.getresponse()
        return answer.status, answer.read().decode()


def posting(sender: str) -> dict[str, str]:
    """The headers of a sender's post."""
    return {"Content-Type": "application/json", "x-sender": sender}


def flush_all(port: int) -> None:
    """Flushes until nothing is left."""
    for _ in range(1000):
        if "nothing" in ask(port, "POST", "/flush")[1]:
            return
    raise OSError("flushes do not end")
