"""Pairs of PostgreSQL servers, a primary and its synchronous standby, on this machine or on two machines of a test."""
from __future__ import annotations

import contextlib
import os
import signal
import subprocess
import tempfile
import time
from collections.abc import Sequence

from testing.database import NOBODY, initdb
from testing.loopback import free_port
from testing.machines import Machine
from testing.service import wait_until

PORT = 5432
SETTINGS = ("shared_buffers = 32MB", "wal_keep_size = 128MB", "max_wal_size = 512MB",
            "wal_sender_timeout = 5s", "wal_receiver_timeout = 5s", "wal_retrieve_retry_interval = 500ms", "hot_standby = on",
            "max_connections = 120")
HOSTS = ("host all all all trust", "host replication all all trust")
# The standby has a name here. With `*` a running pg_basebackup would count as a standby, but nobody can promote it.
NAMED = "synchronous_standby_names = 'standby'"
# The timeout of PostgreSQL's commands, in seconds.
LIMIT = 120


def as_nobody() -> list[str]:
    """The words that drop root, since PostgreSQL refuses to run as root."""
    return ["setpriv", f"--reuid={NOBODY}", f"--regid={NOBODY}", "--clear-groups"] if os.geteuid() == 0 else []


class Server:
    """A PostgreSQL server in a folder of its own."""

    def __init__(self, machine: Machine | None = None) -> None:
        self.programs = os.path.dirname(initdb())
        self.folder = tempfile.mkdtemp(prefix="store-")
        self.host, self.port = (machine.address, PORT) if machine else ("127.0.0.1", free_port())
        self.before = [*(machine.on() if machine else []), *as_nobody()]
        self.machine = machine
        self.process: subprocess.Popen[bytes] = None
        if os.geteuid() == 0:
            os.chown(self.folder, NOBODY, NOBODY)

    def run(self, program: str, *words: str) -> str:
        command = [*self.before, f"{self.programs}/{program}", *words]
        done = subprocess.run(command, cwd=self.folder, capture_output=True, text=True, check=False, timeout=LIMIT,
                              env={**os.environ, "PGCONNECT_TIMEOUT": "5"})
        if done.returncode:
            raise RuntimeError(f"{program}: {done.stderr.strip()}")
        return done.stdout.strip()

    def make(self, settings: Sequence[str] = ()) -> None:
        self.run("initdb", "-U", "postgres", "-A", "trust", "-E", "UTF8", "--locale=C", "-N", "-D", f"{self.folder}/data")
        self.append("postgresql.conf", *SETTINGS, *settings)
        self.append("pg_hba.conf", *HOSTS)

    def append(self, name: str, *lines: str) -> None:
        with open(f"{self.folder}/data/{name}", "a", encoding="utf-8") as file:
            file.write("\n".join(lines) + "\n")

    def be_standby_of(self, primary: Server) -> None:
        """Makes this server a synchronous standby: from then on the primary waits for it at each commit."""
        place = f"host={primary.host} port={primary.port} user=postgres application_name=standby"
        if not wait_until(lambda: self.is_copy_of(place), LIMIT):
            raise RuntimeError("the standby can't be made")
        self.append("postgresql.conf", NAMED)
        self.start()
        if primary.ask("show synchronous_standby_names") == "":
            primary.append("postgresql.conf", NAMED)
            primary.ask("select pg_reload_conf()")
        if not wait_until(primary.has_standby, LIMIT):
            raise RuntimeError("the standby has not come")

    def is_copy_of(self, place: str) -> bool:
        """Whether the base backup succeeded. On a busy machine the primary may close the connection, and then it did not."""
        subprocess.run(["rm", "-rf", f"{self.folder}/data"], check=True)
        with contextlib.suppress(RuntimeError):
            self.run("pg_basebackup", "-d", place, "-R", "-X", "stream", "-c", "fast", "-D", f"{self.folder}/data")
            return True
        return False

    def has_standby(self) -> bool:
        return self.ask("select count(*) from pg_stat_replication where sync_state in ('sync', 'quorum')") == "1"

    def begin(self) -> None:
        # A killed server leaves these files. The process ID in them may belong to another process by now, and PostgreSQL would not start.
        for left in ("data/postmaster.pid", f".s.PGSQL.{self.port}.lock"):
            with contextlib.suppress(FileNotFoundError):
                os.unlink(f"{self.folder}/{left}")
        hosts = "*" if self.machine else self.host
        words = [*self.before, f"{self.programs}/postgres", "-D", f"{self.folder}/data", "-k", self.folder, "-h", hosts, "-p",
                 str(self.port)]
        with open(f"{self.folder}/log", "ab") as log:
            self.process = subprocess.Popen(words, cwd=self.folder, stdin=subprocess.DEVNULL, stdout=log, stderr=log)

    def start(self) -> None:
        self.begin()
        if not wait_until(self.has_started, LIMIT):
            with open(f"{self.folder}/log", encoding="utf-8", errors="replace") as file:
                raise RuntimeError(f"PostgreSQL does not start: {file.read()[-1000:]}")

    def has_started(self) -> bool:
        """Starts the server again if it has ended: a child of the killed server may still hold its shared memory, which
        makes a start fail."""
        if self.process.poll() is not None:
            self.begin()
        return self.ask("select 1") == "1"

    def ask(self, query: str) -> str | None:
        """The single value of a query's answer, or None if the server does not answer."""
        with contextlib.suppress(RuntimeError, subprocess.TimeoutExpired):
            return self.run("psql", "-h", self.host, "-p", str(self.port), "-U", "postgres", "-XAtq", "-c", query)
        return None

    def kinds(self, kind: str) -> list[int]:
        """The process IDs of its children whose command line has `kind` in it."""
        pids = subprocess.run(["ps", "-o", "pid=,args=", "--ppid", str(self.process.pid)], capture_output=True, text=True,
                              check=False).stdout
        return [int(line.split()[0]) for line in pids.splitlines() if kind in line]

    def kill(self) -> None:
        """Kills the server and its children with SIGKILL."""
        if self.process is not None:
            for pid in [self.process.pid, *self.kinds("")]:
                send(pid, signal.SIGKILL)
            self.process.wait()
            self.process = None
            time.sleep(0.1)

    def close(self) -> None:
        self.kill()
        subprocess.run(["rm", "-rf", self.folder], check=False)


def send(pid: int, number: int) -> None:
    with contextlib.suppress(ProcessLookupError):
        os.kill(pid, number)


class Pair:
    """Two servers, one of which accepts writes at a time."""

    def __init__(self, *machines: Machine, settings: Sequence[str] = ()) -> None:
        self.all = [Server(machine) for machine in machines or (None, None)]
        self.primary, self.standby = self.all
        self.primary.make(settings)
        self.primary.start()
        self.lead()
        places = ",".join(f"{server.host}:{server.port}" for server in self.all)
        self.address = f"postgres://postgres@{places}/postgres"

    def lead(self) -> None:
        """Points the virtual address at the primary."""
        if self.primary.machine:
            self.primary.machine.be_led_to()

    def make_standby(self) -> None:
        self.standby.be_standby_of(self.primary)

    def ask(self, query: str) -> str | None:
        return self.primary.ask(query)

    def restart(self) -> None:
        self.primary.kill()
        self.primary.start()

    def promote(self) -> None:
        """Makes the standby the primary."""
        self.standby.run("pg_ctl", "promote", "-w", "-t", str(LIMIT), "-D", f"{self.standby.folder}/data")
        self.primary, self.standby = self.standby, self.primary
        self.lead()

    def go_over(self) -> None:
        self.primary.kill()
        self.promote()
        self.make_standby()

    def hold(self, seconds: int) -> None:
        for number in (signal.SIGSTOP, signal.SIGCONT):
            for pid in self.standby.kinds("walreceiver"):
                send(pid, number)
            if number == signal.SIGSTOP:
                time.sleep(seconds)

    def close(self) -> None:
        for server in self.all:
            server.close()
