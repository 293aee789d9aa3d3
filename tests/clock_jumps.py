#!/usr/bin/env python3
"""Sets the service's clock an hour ahead, an hour back, and right again, while senders with right clocks post.

    tests/clock_jumps.py TOTXEGUN [SECONDS]

It needs gcc: a preloaded library (set_clock.c) adds to the time of day. In each of five periods of SECONDS (2) the service is killed
once and restarted. While its clock is ahead, all points are accepted; while it is behind, points are left out, and their senders are
told so. While the clock is ahead, the present hour is closed, which has already ended by that clock: points that arrive for it later
count in a later hour.

At the end the SQLite file must have, for each sender, what was accepted, and for each hour what the senders counted: for the closed hour
what it had then, and the rest as late. Each line is a check; the last line counts passes and failures. The status is 0 if none failed.
"""
import contextlib
import os
import sqlite3
import struct
import subprocess
import sys
import tempfile
import threading
import time
from collections.abc import Callable
from typing import Any

from testing import TESTS
from testing.checks import Checks
from testing.service import JSON, Sender, Service, in_json, wait_until

HOUR = 3600 * 10**9
SENDERS = 3
TIMES = (0, HOUR, 0, -HOUR, 0)


class Clock:
    """The service's clock, this many nanoseconds ahead."""

    def __init__(self, folder: str) -> None:
        self.library, self.path = f"{folder}/set_clock.so", f"{folder}/ahead"
        command = ["gcc", "-O1", "-Wall", "-Wextra", "-Werror", "-shared", "-fPIC", f"{TESTS}/set_clock.c", "-o", self.library]
        subprocess.run(command, check=True)
        self.set(0)

    def set(self, ahead: int) -> None:
        """Sets the clock at once, in the file that the library has mapped."""
        with open(self.path, "r+b" if os.path.exists(self.path) else "wb", buffering=0) as file:
            file.write(struct.pack("<q", ahead))

    def environment(self) -> dict[str, str]:
        return {"LD_PRELOAD": self.library, "SET_CLOCK": self.path}


class PresentSender(Sender):
    """Posts one point at a time, which ends now. Counts by hour what was accepted, and how many points were said to be ahead."""

    def __init__(self, service: Service, number: int) -> None:
        super().__init__(service, number)
        self.time = time.time_ns()
        self.hours: dict[int, int] = {}
        self.ahead = 0

    def post_one(self) -> None:
        start, self.time = self.time, time.time_ns()
        value = self.chance.randrange(1, 1000)
        headers = {"Content-Type": JSON, "x-sender": self.name}
        body = in_json([(self.name, start, self.time, value)])
        status, text = self.try_once(body, headers)
        while status in (None, 503):
            time.sleep(0.02)
            status, text = self.try_once(body, headers)
        self.note_answer(status, text, value)

    def note_answer(self, status: int, text: bytes, value: int) -> None:
        self.posts += 1
        if status == 200 and b"ahead of time: its clock is " in text:
            self.ahead += 1
        elif (status, text) == (200, b"{}"):
            hour = (self.time - 1) // HOUR
            self.hours[hour] = self.hours.get(hour, 0) + value
        else:
            self.surprises.append((status, text))

    def run(self, ends: threading.Event) -> None:
        while not ends.is_set():
            self.post_one()
            time.sleep(0.005)


def go_on(service: Service, clock: Clock, senders: list[PresentSender], seconds: float) -> bool:
    """Lets senders post this long, with a kill in between."""
    time.sleep(seconds / 2)
    service.kill()
    service.start(clock.environment())
    posts = [sender.posts for sender in senders]
    is_ready = service.wait_ready()
    # Each post is answered before the clock changes. Otherwise nobody knows which clock a retry was judged by.
    if not is_ready or not wait_until(lambda: all(sender.posts > before + 2 for sender, before in zip(senders, posts))):
        return False
    time.sleep(seconds / 2)
    return True


def settled(senders: list[PresentSender]) -> list[int]:
    """What each sender had accepted when no post under the earlier clock is in flight any more."""
    posts = [sender.posts for sender in senders]
    wait_until(lambda: all(sender.posts > before + 1 for sender, before in zip(senders, posts)))
    return [sum(sender.hours.values()) for sender in senders]


def close(service: Service, hour: str) -> tuple[bool, bytes | int | None]:
    """Closes an hour while posts go on, so that points which the sink does not have yet are late. Returns the answer."""
    service.order("/flush")
    wait_until(service.is_drained)
    status, text = service.asked("POST", f"/close/{hour}?force")
    return status == 200, text


def shown(hour: int | None) -> str:
    return time.strftime("%Y-%m-%dT%H", time.gmtime(hour * 3600))


def main(program: str, seconds: float = 2.0) -> int:
    checks = Checks()
    with tempfile.TemporaryDirectory(prefix="clock-") as folder:
        clock, path = Clock(folder), f"{folder}/sink.db"
        service = Service(program, f"{folder}/data", f"sqlite:{path}", "--flush-interval", "100ms")
        service.start(clock.environment())
        service.wait_ready()

        def ask(query: str, *words: str) -> list[tuple[Any, ...]]:
            with contextlib.closing(sqlite3.connect(f"file:{path}?mode=ro", uri=True)) as database:
                return database.execute(query, words).fetchall()

        senders, ends = [PresentSender(service, number) for number in range(SENDERS)], threading.Event()
        threads = [threading.Thread(target=sender.run, args=(ends,)) for sender in senders]
        for thread in threads:
            thread.start()
        closed = before = None
        try:
            for ahead in TIMES:
                clock.set(ahead)
                taken = settled(senders)
                went_on = go_on(service, clock, senders, seconds)
                checks.true(f"it goes on with a clock that is {ahead // HOUR} hours ahead", went_on, service.last_lines())
                more = [sum(sender.hours.values()) > was for sender, was in zip(senders, taken)]
                checks.same("points are taken, unless it is behind", [ahead >= 0] * SENDERS, more)
                if ahead > 0 and closed is None:
                    closed = time.time_ns() // HOUR
                    checks.true("the present hour is closed by it", *close(service, shown(closed)))
                    before = ask("select total(total) from by_hour where hour = ?", shown(closed).replace("T", " ") + ":00Z")
        finally:
            ends.set()
            for thread in threads:
                thread.join()
        service.order("/flush")
        checks.true("the sink gets all", wait_until(service.is_drained), service.last_lines())
        look(checks, ask, senders, closed, before)
        checks.same("nothing is that must not be", [], service.faults())
        checks.same("no request is put aside", [], os.listdir(f"{folder}/data/dead-letters"))
        checks.same("SIGTERM ends it", 0, service.end()[0])
    return checks.end()


def look(checks: Checks, ask: Callable[..., list[tuple[Any, ...]]], senders: list[PresentSender], closed: int | None,
         before: Any) -> None:
    checks.same("no answer is another", [], [sender.surprises[:1] for sender in senders if sender.surprises])
    ahead = [sender.ahead for sender in senders]
    checks.true(f"points were left out: {ahead}", all(ahead), ahead)
    wanted = {sender.name: sum(sender.hours.values()) for sender in senders}
    checks.same("each sender's total", wanted, {name: total for name, total in ask("select name, total from totals")})
    name = shown(closed).replace("T", " ") + ":00Z"
    checks.same("the closed hour stays", before, ask("select total(total) from by_hour where hour = ?", name))
    late = "select coalesce(sum(total), 0) from late where belongs_to = ?"
    in_hour = sum(sender.hours.get(closed, 0) for sender in senders)
    checks.same("and the rest of it came late", in_hour - int(before[0][0]), ask(late, name)[0][0])


if __name__ == "__main__":
    if len(sys.argv) < 2:
        sys.exit(f"usage: {sys.argv[0]} TOTXEGUN [SECONDS]")
    sys.exit(main(os.path.abspath(sys.argv[1]), *map(float, sys.argv[2:3])))
