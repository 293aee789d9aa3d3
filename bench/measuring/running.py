"""Runs the service and the bare gateway for the scripts of this folder."""
import argparse
import contextlib
import os
import re
import subprocess
import tempfile
from collections.abc import Iterator

from measuring import ROOT
from testing.loopback import free_port
from testing.service import Service, wait_until
from testing.shipped import listens, shipped

NOBODY = "127.0.0.1:9"
SET = re.compile(r"^Environment=(\w+=\S+)$", re.MULTILINE)


class Measured(Service):
    """A service with further environment variables at its start."""

    environment: dict[str, str] = {}

    def rename(self, names: dict[str, str]) -> None:
        """Gives options the names that an older program has for them; with none, it does not get the option and its value."""
        words = iter(self.words)
        self.words = []
        for word in words:
            name = names.get(word.removeprefix("--"), word.removeprefix("--")) if word.startswith("--") else word
            if name:
                self.words.append(f"--{name}" if word.startswith("--") else word)
            else:
                next(words)
        settings = ((key.removeprefix("TOTXEGUN_").lower().replace("_", "-"), value) for key, value in self.settings.items())
        renamed = ((names.get(key, key), value) for key, value in settings)
        self.settings = {f"TOTXEGUN_{key.upper().replace('-', '_')}": value for key, value in renamed if key}


def path(word: str) -> str:
    return os.path.abspath(word)


def options(about: str) -> argparse.ArgumentParser:
    """Adds the options of a script that runs the service."""
    parser = argparse.ArgumentParser(description=about)
    parser.add_argument("--totxegun", type=path, default=f"{ROOT}/bin/totxegun")
    parser.add_argument("--gateway", type=path, default=f"{ROOT}/bin/gateway")
    parser.add_argument("--data", default=f"{ROOT}/out/bench")
    parser.add_argument("--options", type=str.split, default=[])
    parser.add_argument("--earlier", type=path)
    parser.add_argument("--renamed", type=lambda text: text.split("=", 1), action="append", default=[])
    parser.add_argument("--set", type=lambda text: text.split("=", 1), action="append", default=[])
    return parser


def start(one: Measured) -> None:
    """Starts the service and waits until it is ready."""
    one.start(one.environment)
    if not one.wait_ready(300):
        raise SystemExit(f"the service is not ready: {one.last_lines()}")


@contextlib.contextmanager
def service(arguments: argparse.Namespace, *words: str, sink: str | None = None, is_earlier: bool = False) -> Iterator[Measured]:
    """A service that is not started yet, on a folder of its own, with these options more, and what the shipped unit sets in its
    environment. An earlier one has its gateway beside it, and its own options alone. One that is not named as today has the names of
    `--renamed`."""
    os.makedirs(arguments.data, exist_ok=True)
    with tempfile.TemporaryDirectory(prefix="service-", dir=arguments.data) as folder:
        data, sink = f"{folder}/data", sink or f"sqlite:{folder}/sink.db"
        program, more = arguments.totxegun, arguments.options
        if is_earlier:
            program, more = f"{arguments.earlier}/totxegun", ["--gateway", f"{arguments.earlier}/gateway"]
        one = Measured(program, data, sink, *words, *more)
        if is_earlier or getattr(arguments, "is_other", False):
            one.rename(dict(arguments.renamed))
        one.environment = dict([pair.split("=", 1) for pair in SET.findall(shipped("totxegun.service", {}))] + arguments.set)
        try:
            yield one
        finally:
            one.kill()


@contextlib.contextmanager
def serving(arguments: argparse.Namespace, *words: str, sink: str | None = None, is_earlier: bool = False) -> Iterator[Measured]:
    """A service that is ready."""
    with service(arguments, *words, sink=sink, is_earlier=is_earlier) as one:
        start(one)
        yield one


def processes(one: Service) -> list[int]:
    """The process of a service, and those that an earlier version has started."""
    found = []
    for task in os.listdir(f"/proc/{one.process.pid}/task"):
        with contextlib.suppress(FileNotFoundError), open(f"/proc/{one.process.pid}/task/{task}/children", encoding="ascii") as file:
            found += file.read().split()
    return [one.process.pid, *sorted({int(pid) for pid in found})]


@contextlib.contextmanager
def bare(words: list[str], environment: dict[str, str]) -> Iterator[tuple[int, subprocess.Popen[bytes]]]:
    """A gateway, bare or plain, by its words up to `serve`: its port and its process."""
    port = free_port()
    words = [*words, "--backend", NOBODY, "--listen", f"127.0.0.1:{port}"]
    process = subprocess.Popen(words, env=environment, stdout=subprocess.DEVNULL)
    try:
        if not wait_until(lambda: listens(port)):
            raise SystemExit(f"{words[0]} does not listen")
        yield port, process
    finally:
        process.kill()
        process.wait()
