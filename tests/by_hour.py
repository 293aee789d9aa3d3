#!/usr/bin/env python3
"""Tests sums by hour and month, with senders that post in time, late, and many hours at once.

    tests/by_hour.py TOTXEGUN [SECONDS] [SEED]

Two services run for SECONDS (15), one with a SQLite file and one with PostgreSQL (left out if it is not installed). Four senders of each
go through a month, over a month's end: in steps of minutes, in posts of up to 48 hours, and with points that end at a full hour or
cover one; in JSON and protobuf, compressed or not. Each retries a post until it is answered, while the service is killed and flushed.
Now and then a sender posts a point that is a year ahead: the service leaves it out, and it must do no harm.

At the end the sink must have, by series and hour and for each bucket, what the senders counted: a point counts in the hour in which it
ends. The same holds by month, and no stored interval covers the end of an hour unless a point did. Each line is a check; the last
line counts passes and failures. The status is 0 if none failed.
"""
import contextlib
import json
import os
import random
import sqlite3
import sys
import tempfile
import threading
import time
from collections.abc import Sequence
from typing import Any

from testing.checks import Checks
from testing.database import Database, initdb
from testing.service import BOUNDS, Bursts, Point, Post, Sender, Service, added

MINUTE, HOUR, DAY = (60 * 10**9, 3600 * 10**9, 86_400 * 10**9)
SENDERS = 4
SECONDS = 15
PATIENCE = 120
# The senders go through this much time, and end some days ago.
LONG = 31 * DAY
# A limit that gives two books. Both may wait for a database with a request for each hour.
SERIES = "16000"
ROWS = "select name, {hour}, total, buckets from {by_hour}"
MONTHS = "select name, {month}, total from {by_month}"
CROSSING = "select count(*) from {span} where start_ns / {HOUR} < (end_ns - 1) / {HOUR}"


class HourlySender(Sender):
    """Adds up points by the hour in which they end; `edges` counts points that cover the end of an hour."""

    def __init__(self, service: Service, number: int, seed: str) -> None:
        super().__init__(service, number, seed)
        self.end = time.time_ns() - 3 * DAY  # one post may cover two days
        self.time = self.end - LONG + self.chance.randrange(HOUR)
        self.hours: dict[tuple[str, int], Any] = {}
        self.edges = self.lumps = self.ahead = 0

    def next_points(self) -> list[tuple[str, int, int, Any]]:
        """A post of one moment, or of many hours at once."""
        if self.chance.random() < 0.05:
            self.lumps += 1
            return [point for _ in range(self.chance.randrange(2, 49)) for point in self.at_once(HOUR)]
        return self.at_once(self.chance.choice([MINUTE, 7 * MINUTE, 40 * MINUTE]))

    def at_once(self, step: int) -> list[tuple[str, int, int, Any]]:
        start, self.time = self.time, self.time + step
        kind = self.chance.random()
        if kind < 0.1:
            self.time -= self.time % HOUR  # at a full hour
        if self.time <= start:
            self.time = start + step
        if kind < 0.8:
            start = max(start, (self.time - 1) // HOUR * HOUR)  # within its hour
        buckets = tuple(self.chance.randrange(5) for _ in range(len(BOUNDS) + 1))
        value = self.chance.randrange(1, 1000)
        self.edges += 2 * (start // HOUR < (self.time - 1) // HOUR)
        return [(f"{self.name}.sum", start, self.time, value), (f"{self.name}.histogram", start, self.time, (buckets, value))]

    def note(self, points: Sequence[Point], last: Post) -> None:
        super().note(points, last)
        for name, _, end, value in points:
            key = name, (end - 1) // HOUR
            self.hours[key] = added(self.hours.get(key), value)

    def post_ahead(self) -> None:
        """Posts a point that is a year ahead, of a series that goes on."""
        start = time.time_ns() + 365 * DAY + HOUR
        status, text = self.try_once(*self.encoded([(f"{self.name}.sum", start, start + 10, 1)]))
        if status == 200:
            self.ahead += 1
            if b"its clock is 365d ahead" not in text:
                self.surprises.append((status, text))

    def run(self, until: float, bursts: Bursts) -> None:
        while time.monotonic() < until and self.time < self.end:
            bursts.are_on.wait()
            if not self.post(self.next_points()):
                return
            if self.posts % 30 == 1:
                self.post_ahead()


class File:
    """A SQLite file and its queries."""

    words = {"hour": "unixepoch(hour) / 3600", "by_hour": "by_hour", "month": "substr(month, 1, 7)", "by_month": "by_month",
             "span": "intervals"}

    def __init__(self, folder: str) -> None:
        self.path = f"{folder}/hours.db"
        self.address = f"sqlite:{self.path}"

    def ask(self, query: str) -> Any:
        with contextlib.closing(sqlite3.connect(f"file:{self.path}?mode=ro", uri=True)) as database:
            return database.execute(query).fetchall()

    def close(self) -> None:
        """Does nothing."""


class Server(Database):
    """A PostgreSQL server and its queries."""

    words = {"hour": "extract(epoch from hour)::bigint / 3600", "by_hour": "totxegun.by_hour",
             "month": "to_char(month at time zone 'UTC', 'YYYY-MM')", "by_month": "totxegun.by_month", "span": "totxegun.intervals"}

    def __init__(self, _: object) -> None:
        super().__init__()
        self.start()
        self.wait_ready()

    def ask(self, query: str) -> Any:
        if not query.startswith("select name") and "count(*)" not in query:
            return super().ask(query)
        rows = super().ask(f"select coalesce(json_agg(row), '[]') from (select to_json(one) as row from ({query}) as one) as rows")
        return [tuple(row.values()) for row in json.loads(rows)]


def counted(total: Any, buckets: Any) -> Any:
    """The value of a sum, or a histogram's buckets and sum."""
    if buckets is None:
        return int(total)
    listed = json.loads(buckets) if isinstance(buckets, str) else buckets
    return tuple(map(int, listed)), int(total)


def differences(wanted: dict[Any, Any], found: dict[Any, Any]) -> list[str]:
    keys = [key for key in sorted(wanted.keys() | found.keys()) if wanted.get(key) != found.get(key)]
    return [f"{key}: counted {wanted.get(key)}, in the sink {found.get(key)}" for key in keys[:4]]


def by_month(hours: dict[Any, Any]) -> dict[Any, Any]:
    months: dict[Any, Any] = {}
    for (name, hour), value in hours.items():
        key = name, time.strftime("%Y-%m", time.gmtime(hour * 3600))
        months[key] = months.get(key, 0) + (value if isinstance(value, int) else value[1])
    return months


def trouble(service: Service, until: float, chance: random.Random, bursts: Bursts) -> None:
    while time.monotonic() < until:
        bursts.before(chance.choice([0.2, 0.7, 1.5]))
        if chance.random() < 0.5:
            service.order("/flush", 5)
        else:
            service.kill()
            service.start()


def run(checks: Checks, program: str, folder: str, sink: File | Server, seconds: int, seed: int) -> None:
    kind = type(sink).__name__
    service = Service(program, f"{folder}/data-{kind}", sink.address, "--flush-interval", "1s", "--max-series", SERIES)
    service.start()
    checks.true(f"{kind}: the service is ready", service.wait_ready(), service.last_lines())
    senders = [HourlySender(service, number, f"{kind} {seed}") for number in range(SENDERS)]
    until = time.monotonic() + seconds
    bursts = Bursts()
    threads = [threading.Thread(target=sender.run, args=(until, bursts)) for sender in senders]
    threads.append(threading.Thread(target=trouble, args=(service, until, random.Random(f"{kind} {seed}"), bursts)))
    for thread in threads:
        thread.start()
    for thread in threads:
        thread.join()
    checks.true(f"{kind}: all is delivered", service.has_delivered_all(PATIENCE), service.last_lines())
    look(checks, kind, sink, senders)
    checks.same(f"{kind}: nothing that must not be", [], service.faults())
    checks.same(f"{kind}: it ends", 0, service.end()[0])


def look(checks: Checks, kind: str, sink: File | Server, senders: list[HourlySender]) -> None:
    surprises = [surprise for sender in senders for surprise in sender.surprises]
    checks.same(f"{kind}: no answer is a surprise", [], surprises[:3])
    wanted = {key: value for sender in senders for key, value in sender.hours.items()}
    rows = sink.ask(ROWS.format(**sink.words))
    found = {(name, hour): counted(total, buckets) for name, hour, total, buckets in rows}
    posts, lumps, ahead = (sum(getattr(sender, what) for sender in senders) for what in ("posts", "lumps", "ahead"))
    what = f"{len(wanted)} sums by hour of {posts} posts, {lumps} of them of many hours, are those of the senders"
    checks.same(f"{kind}: {what}", [], differences(wanted, found))
    months = {(name, month): int(total) for name, month, total in sink.ask(MONTHS.format(**sink.words))}
    checks.same(f"{kind}: and by month", [], differences(by_month(wanted), months))
    # A stored interval crosses the end of an hour only if a point did. There may be fewer of them, because such points are joined.
    crossing = int(sink.ask(CROSSING.format(HOUR=HOUR, **sink.words))[0][0])
    edges = sum(sender.edges for sender in senders)
    checks.true(f"{kind}: {crossing} spans of two hours, {edges} points", crossing <= edges, "an hour is crossed")
    checks.true(f"{kind}: it was tried: {lumps} posts of many hours, {ahead} of a clock ahead", lumps and ahead, "too few")


def main(program: str, seconds: int = SECONDS, seed: int | None = None) -> int:
    checks = Checks()
    seed = seed if seed is not None else random.randrange(10**6)
    print(f"note: seed {seed}")
    with tempfile.TemporaryDirectory(prefix="by-hour-") as folder:
        sinks: list[type[File] | type[Server]] = [File]
        if checks.has("sums by hour in PostgreSQL", *([] if initdb() else ["initdb"])):
            sinks.append(Server)
        with contextlib.ExitStack() as closing:
            for make in sinks:
                sink = make(folder)
                closing.callback(sink.close)
                run(checks, program, folder, sink, seconds, seed)
    return checks.end()


if __name__ == "__main__":
    if not 2 <= len(sys.argv) <= 4:
        sys.exit(f"usage: {sys.argv[0]} TOTXEGUN [SECONDS] [SEED]")
    sys.exit(main(os.path.abspath(sys.argv[1]), *[int(word) for word in sys.argv[2:]]))
