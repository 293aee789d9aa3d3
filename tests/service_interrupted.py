#!/usr/bin/env python3
"""Interrupts the service at each call on its files.

    tests/service_interrupted.py TOTXEGUN [EVERY [WAY ..]]

It needs gcc. A preloaded library (interrupt_files.c) counts the calls that write, sync, truncate, rename, delete or create files in the
service's folder. A run is four senders' posts with flushes, a quarantine, a release, and an end by SIGTERM. For each call of such a run
the test makes the run again and interrupts it there, in each of these ways or in the named ones. With EVERY each way interrupts only each
EVERY-th call, beginning at another call than the way before, so that together they cover many calls:
  - before, middle, behind: the process is killed before the call, after half of the write, or after the call;
  - ENOSPC, EIO: the call fails; if it is a write or a sync, the service must end;
  - cut: the power fails: each file keeps only what was synced, and each folder the names that it had then;
  - torn: the power fails, and all names and half of each file's unsynced bytes are kept;
  - twice: the process is killed there, and again at one of the first calls of the next start;
  - late: it is killed there, and at a later call of the next start the power fails: what the earlier run wrote and did not sync is
    gone, unless the start has synced it;
  - held: the call is a sync of the journal, and is held back; meanwhile the service goes on up to a sync of another file, after which
    the power fails. If no such sync comes, it fails five seconds later.
Then the service starts without the library, and the run goes on: each sender retries what was not answered, and each
order is repeated. At
the end the sink, a SQLite file, must have each point once that a sender knows to be accepted; the service must answer duplicates like the
first time, late ones too, and report no fault.

Further runs, for each sixth of these calls and in the ways without a loss of power, use `--durability process`. A last
run forgets what was
synced, and must fail: this shows that the test sees a loss of power.

A line for each run that failed; the last line counts passes and failures. The status is 0 if none failed.
"""
import concurrent.futures
import os
import shutil
import subprocess
import sys
import tempfile
import threading
import time
from collections.abc import Iterator, Sequence

from testing import TESTS
from testing.service import Sender, Service, SqliteSink, Value, add_points, differences, is_whole, overlaps, told_to_all, wait_until
from tooling.files import content

WAYS = ("before", "middle", "behind", "ENOSPC", "EIO", "cut", "torn", "twice", "late", "held")
POWER = ("cut", "torn", "late", "held", "forgetful")
FAULTS = ("ENOSPC", "EIO")
SYNCS = ("fsync", "fdatasync")
WRITES_AND_SYNCS = ("write", "pwrite", "writev", *SYNCS)
# The timeout of a step, in seconds, after which the service neither ends nor answers.
SECONDS = 60
SENDERS = "ABCD"
# A letter is a post of this sender. What comes after it is ordered once the post is answered or interrupted.
SCRIPT = ("A", "B", "A", "D/flush", "B", "C", "/quarantine/sender-B", "A", "/flush", "C", "A", "/flush", "C",
          "/release/sender-B", "B", "/flush", "A", "B", "C")
# In memory, unless TMPDIR says otherwise: only what the library has seen synced counts as durable.
FOLDERS = "/dev/shm" if os.access("/dev/shm", os.W_OK) and not os.environ.get("TMPDIR") else None


class Failed(Exception):
    """Why a run failed."""


def build(folder: str) -> str:
    """Compiles the library into a folder."""
    library = os.path.join(folder, "interrupt_files.so")
    command = ["gcc", "-O1", "-Wall", "-Wextra", "-Werror", "-Wno-unused-result", "-shared", "-fPIC"]
    subprocess.run(command + ["-o", library, os.path.join(TESTS, "interrupt_files.c")], check=True)
    return library


# --------------------------------------------------------------------------------------------------------------------
# A loss of power


def lose_power(data: str, shadow: str, is_torn: bool) -> None:
    """Replaces the folder by what a loss of power would leave of it, according to the library's notes."""
    left = f"{data}.left"
    leave(data, left, shadow, is_torn)
    shutil.rmtree(data)
    os.rename(left, data)


def leave(folder: str, left: str, shadow: str, is_torn: bool) -> None:
    """Copies what is left of a folder."""
    os.mkdir(left)
    names = synced_names(folder, shadow)
    if is_torn:
        names = {name: os.stat(f"{folder}/{name}").st_ino for name in os.listdir(folder)}
    for name, inode in names.items():
        path = f"{folder}/{name}"
        if os.path.isdir(path):
            leave(path, f"{left}/{name}", shadow, is_torn)
        else:
            with open(f"{left}/{name}", "wb") as file:
                file.write(left_bytes(path if is_torn else None, f"{shadow}/file-{inode}"))


def synced_names(folder: str, shadow: str) -> dict[str, int]:
    """The names that a folder had when it was last synced, with the numbers of their files."""
    try:
        with open(f"{shadow}/folder-{os.stat(folder).st_ino}", encoding="utf-8") as file:
            lines = [line.rstrip("\n").split(" ", 1) for line in file]
    except FileNotFoundError:
        return {}
    return {name: int(inode) for inode, name in lines}


def left_bytes(path: str | None, kept: str) -> bytes:
    """The synced bytes of a file; if it is torn, also the first half of what has changed since."""
    synced = content(kept)
    if path is None:
        return synced
    now = content(path)
    before = synced.ljust(len(now), b"\0")
    changed = [place for place in range(0, len(now), 256) if now[place:place + 256] != before[place:place + 256]]
    if not changed:
        return synced
    places = [place for start in changed for place in range(start, min(start + 256, len(now))) if now[place] != before[place]]
    middle = places[len(places) // 2]
    return now[:middle] + before[middle:]


# --------------------------------------------------------------------------------------------------------------------
# A run


class Run:
    """One run of the script, in a folder of its own."""

    def __init__(self, program: str, library: str, folder: str, at: int, way: str, durable: str) -> None:
        self.folder, self.at, self.way = folder, at, way
        self.data, self.shadow, self.log = f"{folder}/data", f"{folder}/shadow", f"{folder}/calls"
        os.mkdir(self.data)
        os.mkdir(self.shadow)
        self.sink = SqliteSink(f"{folder}/sink.db")
        self.service = Service(program, self.data, self.sink.address, "--durability", durable, "--flush-interval", "1h",
                               "--admin", f"unix:{folder}/admin.sock")
        self.senders = {name: Sender(self.service, name, seconds=5) for name in SENDERS}
        self.library = library
        # The call at which each start is interrupted; later starts run without the library.
        second = {"twice": at % 12 + 1, "late": at * 7 % 40 + 1}
        self.stages = [at, second[way]] if way in second else [at]
        self.until = time.monotonic() + SECONDS
        self.reviving = threading.Lock()

    def start(self) -> None:
        environment = {"LD_PRELOAD": self.library, "INTERRUPT_FOLDER": self.data, "INTERRUPT_LOG": self.log}
        if self.way in POWER:
            environment["INTERRUPT_SHADOW"] = self.shadow
        if self.way == "forgetful":
            environment["INTERRUPT_FORGETS"] = "1"
        if self.stages:
            environment["INTERRUPT_AT"] = str(self.stages[0])
            environment["INTERRUPT_HOW"] = self.way if self.way in ("middle", "behind", "held", *FAULTS) else "before"
        self.service.start(environment if self.stages else None)

    def revive(self) -> None:
        """Starts the service again if it has ended."""
        if time.monotonic() > self.until:
            raise Failed("no end in time")
        with self.reviving:
            self.start_until_it_runs()

    def start_until_it_runs(self) -> None:
        while not self.service.is_running():
            if len(self.stages) == 1 and self.way in POWER:
                lose_power(self.data, self.shadow, self.way == "torn")
            self.stages = self.stages[1:]
            self.start()
            if not self.service.wait_ready(SECONDS) and not self.stages:
                raise Failed("it does not start again")

    def step(self, step: str) -> None:
        """A post or an operator's order, repeated until it is done."""
        self.until = time.monotonic() + SECONDS
        self.revive()
        sender, order = self.senders.get(step[0]), step.lstrip(SENDERS)
        with concurrent.futures.ThreadPoolExecutor(1) as pool:
            posted = pool.submit(self.post, sender) if sender else None
            if posted and order:
                wait_until(lambda: posted.done() or self.is_interrupted(), SECONDS)
            if order:
                self.order(order)
            if posted:
                posted.result()

    def is_interrupted(self) -> bool:
        return self.at > 0 and os.path.exists(self.log)

    def post(self, sender: Sender) -> None:
        if not sender.post(sender.next_points(), self.revive):
            raise Failed(f"a post was answered {sender.surprises[-1]}")

    def order(self, step: str) -> None:
        while True:
            status, text = self.service.asked("POST", step, seconds=10)
            if status == 200 or (status == 400 and b"quarantined" in text):
                return
            if status not in (None, 503):
                raise Failed(f"{step} was answered {status} {text!r}")
            time.sleep(0.02)
            self.revive()

    def make(self) -> None:
        """Makes the whole run. Raises Failed."""
        self.start()
        self.service.wait_ready(SECONDS)
        for step in SCRIPT:
            self.step(step)
        status, _ = self.service.end(20)
        if status != 0 and not self.stages:
            raise Failed(f"SIGTERM ended it with status {status}")
        if status == 0 and self.went_on():
            raise Failed("it went on behind a fault of the disk")
        self.revive()
        self.step("/flush")
        self.look()

    def look(self) -> None:
        """Checks the end of the run. Raises Failed."""
        if not wait_until(self.service.is_drained, SECONDS):
            raise Failed("the sink does not get all")
        found: dict[str, Value] = {}
        points = self.sink.points()
        add_points(found, points)
        wrong = differences(told_to_all(self.senders.values()), found) or overlaps(points) or self.service.faults()
        repeats = [sender.late_repeat() for sender in self.senders.values()]
        wrong = wrong or [str(repeat) for repeat in repeats if not is_whole(repeat)]
        wrong = wrong or [f"the sink refused {letter}" for letter in os.listdir(f"{self.data}/dead-letters")]
        if wrong:
            raise Failed(str(wrong))

    def went_on(self) -> bool:
        """Whether a write or a sync failed and the service went on. It may go on without the record of acts."""
        if self.way not in FAULTS or not os.path.exists(self.log):
            return False
        _, call, path = self.calls()[0].split(" ", 2)
        return call in WRITES_AND_SYNCS and path != "/acts.jsonl" and bool(self.stages)

    def calls(self) -> list[str]:
        """The calls that the library noted: all of an uninterrupted run, otherwise those at which it was interrupted."""
        with open(self.log, encoding="utf-8") as file:
            return file.read().splitlines()


class Runs:
    """All runs, and how they ended."""

    def __init__(self, program: str, library: str, folder: str) -> None:
        self.program, self.library, self.folder = program, library, folder
        self.lock = threading.Lock()
        self.passed = self.failed = self.interrupted = 0

    def one(self, at: int, way: str, durable: str) -> list[str]:
        """Makes a run and counts it. Returns its calls."""
        calls, fault = self.made(at, way, durable)
        self.count(at, f"{way}, {durable},", calls, fault)
        return calls

    def made(self, at: int, way: str, durable: str = "disk") -> tuple[list[str], str | None]:
        """Makes a run. Returns its calls, and what is wrong with it."""
        folder = tempfile.mkdtemp(dir=self.folder)
        run = Run(self.program, self.library, folder, at, way, durable)
        fault = None
        try:
            run.make()
        except Failed as failed:
            fault = f"{failed}; {run.service.last_lines(8)}"
        except Exception as error:  # An error of the test counts as a failed run, with its place.
            fault = f"{type(error).__name__} {error}"
        finally:
            run.service.kill()
        calls = run.calls() if os.path.exists(run.log) else []
        shutil.rmtree(folder, ignore_errors=True)
        return calls, fault

    def forgetful(self, at: int) -> None:
        """A loss of power at this call, as if no sync of a file had had any effect. Such a run must fail."""
        calls, fault = self.made(at, "forgetful")
        self.count(at, "forgetful", calls, None if fault else "a power loss without syncs is not seen")

    def count(self, at: int, way: str, calls: list[str], fault: str | None) -> None:
        with self.lock:
            self.interrupted += bool(at and calls)
            if fault is None:
                self.passed += 1
            else:
                self.failed += 1
                print(f"failed: {way} call {', '.join(calls) if at else at}: {fault}", flush=True)


def is_sync_of_journal(call: str) -> bool:
    _, name, path = call.split(" ")
    return name in SYNCS and "/journal/" in path


def places_of(calls: list[str], every: int, ways: Sequence[str]) -> Iterator[tuple[int, str]]:
    """Where and how runs are interrupted: at least once in each way."""
    for number, way in enumerate(ways):
        places = [at for at, call in enumerate(calls, 1) if way != "held" or is_sync_of_journal(call)]
        first = number % max(1, min(every, len(places)))
        yield from ((at, way) for at in places[first::every])


def main(program: str, every: int = 1, ways: Sequence[str] = WAYS) -> int:
    with tempfile.TemporaryDirectory(dir=FOLDERS, prefix="interrupted-") as folder:
        runs = Runs(program, build(folder), folder)
        calls, written = (runs.one(0, "before", durable) for durable in ("disk", "process"))
        print(f"note: {len(calls)} calls in a run without interruption, {len(written)} with --durability process", flush=True)
        places = [(*place, "disk") for place in places_of(calls, every, ways)]
        places += [(*place, "process") for place in places_of(written, every * 6, [way for way in ways if way not in POWER])]
        with concurrent.futures.ThreadPoolExecutor(os.cpu_count()) as pool:
            list(pool.map(lambda place: runs.one(*place), places))
        runs.forgetful(len(calls) * 3 // 4)
    print(f"note: {runs.interrupted} runs were interrupted")
    print(f"{runs.passed} passed, {runs.failed} failed", flush=True)
    return 0 if runs.failed == 0 and runs.interrupted else 1


if __name__ == "__main__":
    if len(sys.argv) < 2:
        sys.exit(f"usage: {sys.argv[0]} TOTXEGUN [EVERY [WAY ..]]")
    sys.exit(main(os.path.abspath(sys.argv[1]), int((sys.argv[2:3] or ["1"])[0]), sys.argv[3:] or WAYS))
