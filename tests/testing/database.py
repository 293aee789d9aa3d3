"""A PostgreSQL server in a folder of its own."""
import glob
import json
import os
import re
import shutil
import signal
import subprocess
import tempfile
import time
from typing import Any

# PostgreSQL refuses to run as root.
NOBODY = 65534
SECONDS = 60
TOTALS = """
select coalesce(json_agg(json_build_object('name', name, 'attributes', attributes, 'program', resource->>'service.instance.id',
    'total', total, 'count', coalesce(count, 0), 'buckets', buckets)), '[]') from totxegun.totals"""


def initdb() -> str | None:
    """The path of the latest PostgreSQL's initdb, which Debian does not put on PATH; None if PostgreSQL is not installed."""
    found = sorted(glob.glob("/usr/lib/postgresql/*/bin/initdb"), key=lambda path: int(re.search(r"\d+", path)[0]))
    return found[-1] if found else shutil.which("initdb")


def end(process: subprocess.Popen[bytes] | None, number: int = signal.SIGTERM) -> None:
    if process is not None and process.poll() is None:
        process.send_signal(number)
    if process is not None:
        process.wait(SECONDS)


class Database:
    """A PostgreSQL server in a new folder. It listens on a Unix socket only."""

    def __init__(self) -> None:
        self.programs = os.path.dirname(initdb())
        self.folder = tempfile.mkdtemp(prefix="demo-")
        os.chmod(self.folder, 0o711)
        self.identity: dict[str, Any] = {}
        if os.geteuid() == 0:
            os.chown(self.folder, NOBODY, NOBODY)
            self.identity = {"user": NOBODY, "group": NOBODY, "extra_groups": []}
        self.address = f"postgres://postgres@/postgres?host={self.folder}"
        self.process: subprocess.Popen[bytes] = None
        self.run("initdb", "-U", "postgres", "-A", "trust", "-E", "UTF8", "--locale=C", "-N", "-D", f"{self.folder}/data")

    def run(self, program: str, *words: str) -> str:
        done = subprocess.run([f"{self.programs}/{program}", *words], cwd=self.folder, capture_output=True, text=True,
                              check=False, **self.identity)
        if done.returncode:
            raise RuntimeError(f"{program}: {done.stderr.strip()}")
        return str(done.stdout)

    def start(self) -> None:
        words = [f"{self.programs}/postgres", "-D", f"{self.folder}/data", "-k", self.folder, "-c", "listen_addresses="]
        with open(f"{self.folder}/log", "ab") as log:
            self.process = subprocess.Popen(words, cwd=self.folder, stdin=subprocess.DEVNULL, stdout=log, stderr=log,
                                            **self.identity)

    def wait_ready(self) -> None:
        until = time.monotonic() + SECONDS
        while self.ask("select 1") is None:
            if time.monotonic() > until:
                raise RuntimeError(f"PostgreSQL has not started: {self.folder}/log")
            time.sleep(0.1)

    def crash(self) -> None:
        """Stops all of its processes at once, without a checkpoint, so that the next start has to recover from the log."""
        end(self.process, signal.SIGQUIT)

    def ask(self, query: str) -> str | None:
        """The single value of a query's answer, or None if the server does not answer."""
        try:
            return self.run("psql", "-h", self.folder, "-U", "postgres", "-XAtq", "-c", query).strip()
        except RuntimeError:
            return None

    def totals(self) -> list[Any]:
        """The totals of each series, in the form in which the demo's programs write their own."""
        answer = self.ask(TOTALS)
        totals: list[Any] = json.loads(answer) if answer else []
        return totals

    def close(self) -> None:
        self.crash()
        shutil.rmtree(self.folder, ignore_errors=True)
