#!/usr/bin/env python3
"""Interrupts a period's close, adjustment and reopening at each call on the files of the SQLite sink.

    tests/close_interrupted.py TOTXEGUN [EVERY [WAY ..]]

It needs gcc. A preloaded library (interrupt_files.c) counts the calls that write, sync, truncate or delete files in the sink's folder.
For each of them, or each EVERY-th, the test makes a run that is interrupted there, in each of these ways or in the named ones:
before, middle, behind: the process is killed before the call, after half of the write, or after the call; ENOSPC, EIO: the call fails.
Then the service starts without the library, and the run goes on: each order is repeated until it is done.

A run closes an hour of which the sink has points, posts more of it, adjusts it and reopens it. After each of these steps the sink must
have the hour as it was closed, the late points once, and one adjustment; at the end nothing is closed.

A line for each run that failed; the last line counts passes and failures. The status is 0 if none failed.
"""
from __future__ import annotations

import concurrent.futures
import contextlib
import json
import os
import shutil
import sqlite3
import sys
import tempfile
import time
from collections.abc import Callable, Sequence
from typing import Any

from testing.service import JSON, Answer, Service, ask, in_json, wait_until
from service_interrupted import Failed, build

WAYS = ("before", "middle", "behind", "ENOSPC", "EIO")
SECONDS = 60
HOUR = 3600 * 10**9
# 2026-11-05 13:00. The sink has 5 of this hour before it is closed, and 7 arrive late.
FIRST = 498_301 * HOUR
NAME, SHOWN = "2026-11-05T13", "2026-11-05 13:00Z"


def post(service: Interrupted, start: int, value: int) -> Answer:
    body = in_json([("orders", start, start + 10, value)])
    return ask(service.listen, "POST", "/v1/metrics", body, {"Content-Type": JSON, "x-sender": "A"})


class Interrupted(Service):
    """A service that restarts without the library after it has ended."""

    def until(self, what: Callable[[], tuple[Any, Any]], is_done: Callable[[Any, Any], object]) -> None:
        """Repeats an order until it is done."""
        until = time.monotonic() + SECONDS
        while True:
            if not self.is_running():
                self.start()
                self.wait_ready()
            answer = what()
            if is_done(*answer):
                return
            if time.monotonic() > until:
                raise Failed(f"the last answer is {answer}; {self.last_lines(5)}")
            time.sleep(0.02)

    def order_done(self, path: str, **asked: object) -> None:
        body = json.dumps(asked).encode() if asked else b""
        self.until(lambda: self.asked("POST", path, 10, body), lambda status, _: status == 200)


class Runs:
    def __init__(self, program: str, folder: str) -> None:
        self.program, self.folder, self.library = program, folder, build(folder)
        self.passed = self.failed = self.interrupted = 0
        self.base = f"{folder}/base"
        os.makedirs(f"{self.base}/sink")
        self.fill()

    def service(self, folder: str) -> Interrupted:
        return Interrupted(self.program, f"{folder}/data", f"sqlite:{folder}/sink/sink.db", "--flush-interval", "1h", "--admin",
                           f"unix:{folder}/admin.sock")

    def fill(self) -> None:
        """Posts and flushes what each run begins with."""
        service = self.service(self.base)
        service.start()
        service.wait_ready()
        status, text = post(service, FIRST + 1, 5)
        if status != 200 or service.order("/flush") != 200 or not wait_until(service.is_drained):
            raise Failed(f"the first post: {status} {text!r}")
        service.end()

    def one(self, at: int, way: str) -> tuple[list[str], str | None]:
        """Makes one run. Returns its calls, and what is wrong."""
        folder = tempfile.mkdtemp(dir=self.folder)
        for name in ("data", "sink"):
            shutil.copytree(f"{self.base}/{name}", f"{folder}/{name}", ignore=lambda *_: ["lock"])
        service, log, fault = self.service(folder), f"{folder}/calls", None
        how = way if way in ("middle", "behind", "ENOSPC", "EIO") else "before"
        orders = {"INTERRUPT_AT": str(at), "INTERRUPT_HOW": how} if at else {}
        try:
            service.start({"LD_PRELOAD": self.library, "INTERRUPT_FOLDER": f"{folder}/sink", "INTERRUPT_LOG": log, **orders})
            service.wait_ready()
            self.make(service, folder)
        except Failed as failed:
            fault = str(failed)
        except Exception as error:  # An error of the test counts as a failed run, with its place.
            fault = f"{type(error).__name__} {error}"
        finally:
            service.kill()
        calls = []
        with contextlib.suppress(FileNotFoundError), open(log, encoding="utf-8") as file:
            calls = file.read().splitlines()
        shutil.rmtree(folder, ignore_errors=True)
        return calls, fault

    def make(self, service: Interrupted, folder: str) -> None:
        """Makes the run's steps. Raises Failed."""
        service.order_done(f"/close/{NAME}?force")
        self.look(folder, 1, (), 0)
        # Also if this is a retry because the first answer was lost.
        service.until(lambda: post(service, FIRST + 100, 7), lambda status, text: (status, text) == (200, b"{}"))
        service.order_done("/flush")
        service.until(lambda: (service.is_drained(), None), lambda is_drained, _: is_drained)
        self.look(folder, 1, (7,), 0)
        service.order_done("/v1/adjustments", series="1", hour=NAME, value=-2, reason="twice")
        self.look(folder, 1, (7,), -2)
        service.order_done(f"/reopen/{NAME}")
        self.look(folder, 0, (7,), -2)
        if service.faults() or os.listdir(f"{folder}/data/dead-letters"):
            raise Failed(f"{service.faults()} {os.listdir(f'{folder}/data/dead-letters')}")

    @staticmethod
    def look(folder: str, closed: int, late: Sequence[int], corrected: int) -> None:
        with contextlib.closing(sqlite3.connect(f"file:{folder}/sink/sink.db?mode=ro", uri=True)) as database:
            found = [database.execute(query).fetchall() for query in (
                "select count(*) from closed_periods",
                f"select coalesce(sum(total), 0) from by_hour where hour = '{SHOWN}'",
                f"select total from late where belongs_to = '{SHOWN}' and total <> 0",
                "select coalesce(sum(adjustments), 0), sum(total_adjusted) from totals",
                "select total from totals")]
        total = 5 + sum(late)
        wanted = [[(closed,)], [(5,)], [(one,) for one in late], [(corrected, total + corrected)], [(total,)]]
        if found != wanted:
            raise Failed(f"the sink has {found} in the place of {wanted}")

    def count(self, at: int, way: str) -> None:
        calls, fault = self.one(at, way)
        self.interrupted += bool(calls)
        if fault is None:
            self.passed += 1
        else:
            self.failed += 1
            print(f"failed: {way} call {at} {', '.join(calls)}: {fault}", flush=True)


def main(program: str, every: int = 1, ways: Sequence[str] = WAYS) -> int:
    with tempfile.TemporaryDirectory(prefix="closed-") as folder:
        runs = Runs(program, folder)
        calls, fault = runs.one(0, "before")
        print(f"note: {len(calls)} calls in a run without interruption", flush=True)
        if fault:
            print(f"failed: without interruption: {fault}", flush=True)
            runs.failed += 1
        places = [(at, way) for at in range(1, len(calls) + 1, every) for way in ways]
        with concurrent.futures.ThreadPoolExecutor(os.cpu_count()) as pool:
            list(pool.map(lambda place: runs.count(*place), places))
    print(f"note: {runs.interrupted} runs were interrupted")
    print(f"{runs.passed} passed, {runs.failed} failed", flush=True)
    return 0 if runs.failed == 0 and runs.interrupted else 1


if __name__ == "__main__":
    if len(sys.argv) < 2:
        sys.exit(f"usage: {sys.argv[0]} TOTXEGUN [EVERY [WAY ..]]")
    sys.exit(main(os.path.abspath(sys.argv[1]), int((sys.argv[2:3] or ["1"])[0]), sys.argv[3:] or WAYS))
