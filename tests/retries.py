#!/usr/bin/env python3
"""Senders that retry as SDKs and Collectors do, while the service is killed again and again: what each was answered is what the sink has.

    tests/retries.py TOTXEGUN [POSTS [KILLS [SEED]]] [--instances N]

Eight senders post (2,000 posts together, with 40 kills), two in each of these ways:
  - the same body until it is answered, as an SDK does within its time, and a Collector with one consumer;
  - cumulative points, each body twice at most: then it is dropped, and the next one says it again, as SDKs do by default;
  - the next body before the repeat of one that got no answer, as a Collector with two consumers;
  - the last two bodies once more though they were answered, as a Collector whose queue is on disk and that was killed.
Each also goes away now and then before it is answered, as after a timeout. A point's value is a power of four, so the total of a series
says of each of its points whether the sink has it, once or twice.

One service has its files in a folder, and is killed before, within or behind a call that writes, syncs, renames, deletes or makes one
of them, drawn by SEED. Of several instances (--instances 3) over a store in PostgreSQL one or more are killed at any time, and senders
go to another one that is left; each request has two resources, and so two shards.

Then each point of a post that was answered 200, and was not named there, is in the sink once, and none that was refused by name or
with its whole post. Only a body that was overtaken by the next one may be refused at all, as duplicate or late. It needs gcc, and
PostgreSQL for several instances; without them it is left out, with status 77.

Each line is one check; the last line counts those that passed and failed, and the status is 0 where none failed.
"""
import argparse
import contextlib
import http.client
import os
import random
import re
import shutil
import subprocess
import sys
import tempfile
import threading
import time
from collections.abc import Callable, Sequence
from typing import NamedTuple

from testing.checks import Checks
from testing.database import initdb
from testing.service import (AGAIN, JSON, PROTOBUF, WHOLE, Answer, OtlpSink, Point, Post, Sender, Service, Sink, SqliteSink, Value,
                             add_points, by_resource, in_json, in_protobuf, wait_until)
from service_interrupted import build
from store import instance
from testing.servers import Pair

POSTS, KILLS = 2_000, 40
SHARDS = "6"
# Powers of four in 63 bits: so many posts has a series.
OF_A_SERIES = 31
PATIENCE = 120
# So many calls on files go with so many posts, before more is known.
CALLS, OF_POSTS = 200, 100
FIRST_AT = 100
REFUSED = re.compile(rb"(\d+) points? (?:is|are) refused")
CUMULATIVE = b'"aggregationTemporality": 2'


class Batch(NamedTuple):
    """Points that go in one body."""

    points: list[Point]
    post: Post


class Retrying(Sender):
    """One that repeats a body until it is answered. What became of each point is kept, by its series: of those in `refused` the sink
    has none, and all of `taken`."""

    def __init__(self, services: Sequence[Service], number: int, seed: object, over: threading.Event) -> None:
        super().__init__(services[0], f"{type(self).__name__.lower()}-{number}", seed, seconds=5)
        self.services, self.over = services, over
        self.generation = self.count = 0
        self.values: dict[tuple[str, int], int] = {}
        self.taken: set[tuple[str, int]] = set()
        self.refused: set[tuple[str, int]] = set()

    def next_batch(self) -> Batch:
        """A point of each of two series, which are new after so many."""
        number = self.count % OF_A_SERIES
        self.generation += number == 0
        self.count += 1
        self.time += 20
        names = [f"{self.name}.{self.generation}.{which}" for which in "ab"]
        points: list[Point] = [(name, self.time, self.time + 10, 4 ** number) for name in names]
        self.values |= {(name, self.time): 4 ** number for name in names}
        return Batch(points, self.encoded(points))

    def encoded(self, points: Sequence[Point]) -> Post:
        kind = self.chance.choice([JSON, PROTOBUF])
        headers = {"Content-Type": kind, "x-sender": self.name}
        if len(self.services) > 1:
            return by_resource(kind, {point[0]: [point] for point in points}), headers
        return (in_json if kind == JSON else in_protobuf)(points), headers

    def ask(self, batch: Batch) -> Answer:
        """The answer to one attempt, if it is waited for."""
        if self.chance.random() < 0.05:
            self.go_away(batch)
            return None, b"not waited for"
        answer = self.try_once(*batch.post)
        if answer[0] in (None, *AGAIN):
            self.change()
        return answer

    def go_away(self, batch: Batch) -> None:
        """Sends a body, and does not wait for the answer."""
        connection = self.connection or http.client.HTTPConnection(self.host, self.service.listen, timeout=self.seconds)
        with contextlib.suppress(OSError, http.client.HTTPException):
            connection.request("POST", "/v1/metrics", *batch.post)
        connection.close()
        self.change()

    def change(self) -> None:
        self.close()
        self.connection = None
        self.service = self.chance.choice(self.services)

    def answered(self, batch: Batch, attempts: int = 1_000_000, may_be_late: bool = False) -> bool:
        """Repeats it until it is answered: whether it was, in so many attempts."""
        until = time.monotonic() + PATIENCE
        for attempt in range(attempts):
            status, text = self.ask(batch)
            if status not in (None, *AGAIN):
                self.keep(batch, status, text, may_be_late)
                return True
            self.repeats += 1
            if time.monotonic() > until:
                self.surprises.append((status, f"no answer within {PATIENCE} s: {text!r}".encode()))
                self.over.set()
                return False
            time.sleep(min(0.01 * (attempt + 1), 0.1))
        return False

    def keep(self, batch: Batch, status: int | None, text: bytes, may_be_late: bool) -> None:
        names = {point[0] for point in batch.points}
        refused: set[str] = set()
        if status == 400:
            refused = names
        elif text not in WHOLE:
            refused = {name for name in names if f"`{name}`".encode() in text}
        named = sum(map(int, REFUSED.findall(text)))
        is_expected = not refused or may_be_late and b"duplicate or late" in text
        if status not in (200, 400) or not is_expected or status == 200 and named != len(refused):
            self.surprises.append((status, text))
        self.posts += 1
        for name, start, _, _ in batch.points:
            (self.refused if name in refused else self.taken).add((name, start))

    def go_on(self) -> None:
        self.answered(self.next_batch())

    def wrong(self, totals: dict[str, Value]) -> list[str]:
        """The points of which the sink has something else than was answered."""
        found: list[str] = []
        for (name, start), value in self.values.items():
            total = totals.get(name, 0)
            times = total // value % 4 if isinstance(total, int) else -1
            found += self.differs((name, start), times)
        return found

    def differs(self, point: tuple[str, int], times: int) -> list[str]:
        told = "taken" if point in self.taken else "refused" if point in self.refused else "nothing"
        allowed = {"taken": (1,), "refused": (0,), "nothing": (0, 1)}[told]
        return [] if times in allowed else [f"{point[0]} from {point[1]}: told {told}, and the sink has it {times} times"]


class Dropping(Retrying):
    """Its points are cumulative, and a body that is not answered is dropped."""

    def encoded(self, points: Sequence[Point]) -> Post:
        begin = self.time - 20 * ((self.count - 1) % OF_A_SERIES)
        totals: list[Point] = [(name, begin, end, (4 * value - 1) // 3) for name, _, end, value in points if isinstance(value, int)]
        body = in_json(totals) if len(self.services) == 1 else by_resource(JSON, {point[0]: [point] for point in totals})
        return body.replace(b'"aggregationTemporality": 1', CUMULATIVE), {"Content-Type": JSON, "x-sender": self.name}

    def go_on(self) -> None:
        batch = self.next_batch()
        # The last one of a series says all of it.
        self.answered(batch, 1_000_000 if self.count % OF_A_SERIES == 0 else 2)

    def end(self) -> None:
        while self.count % OF_A_SERIES and not self.surprises:
            self.go_on()

    def differs(self, point: tuple[str, int], times: int) -> list[str]:
        """What was dropped is in what was said later."""
        return [] if times == 1 else [f"{point[0]} from {point[1]}: the sink has it {times} times"]


class Overtaking(Retrying):
    """The next body comes before the repeat of one that got no answer."""

    def go_on(self) -> None:
        first = self.next_batch()
        if self.chance.random() < 0.7:
            self.answered(first)
            return
        self.go_away(first)
        self.answered(self.next_batch())
        self.answered(first, may_be_late=True)


class Queueing(Retrying):
    """Now and then it repeats the last two bodies that were answered."""

    def __init__(self, services: Sequence[Service], number: int, seed: object, over: threading.Event) -> None:
        super().__init__(services, number, seed, over)
        self.last_two: list[Batch] = []

    def go_on(self) -> None:
        batch = self.next_batch()
        self.answered(batch)
        self.last_two = [*self.last_two[-1:], batch]
        if self.chance.random() < 0.3:
            for again in self.last_two:
                self.answered(again)


WAYS = (Retrying, Dropping, Overtaking, Queueing)


class Run:
    """Services, senders, and how often something was killed."""

    def __init__(self, arguments: argparse.Namespace, services: Sequence[Service], sink: Sink) -> None:
        self.services, self.sink, self.wanted = services, sink, arguments
        self.chance = random.Random(f"kills {arguments.seed}")
        self.over = threading.Event()
        self.senders = [way(services, number, arguments.seed, self.over) for number in range(2) for way in WAYS]
        self.kills = self.calls = 0
        # At which of its calls the service that runs is killed.
        self.next_at = FIRST_AT

    def posts(self) -> int:
        return sum(sender.posts for sender in self.senders)

    def is_done(self) -> bool:
        return self.over.is_set() or self.posts() >= self.wanted.posts and self.kills >= self.wanted.kills

    def post(self, sender: Retrying) -> None:
        while not self.is_done():
            sender.go_on()
        if isinstance(sender, Dropping):
            sender.end()

    def go(self, kill: Callable[[], object]) -> None:
        """Senders post while services are killed so often, and started again."""
        threads = [threading.Thread(target=self.post, args=(sender,)) for sender in self.senders]
        for thread in threads:
            thread.start()
        while not self.is_done():
            if self.kills < self.wanted.kills:
                kill()
                self.kills += 1
            else:
                time.sleep(0.05)
        for thread in threads:
            thread.join()

    def kill_at_a_call(self, library: str) -> None:
        """The only service ends at one of its calls on files, and is started to end at another one."""
        (service,) = self.services
        begun = time.monotonic()
        while service.is_running() and not self.over.is_set() and time.monotonic() < begun + PATIENCE:
            time.sleep(0.002)
        service.kill()
        self.calls += self.next_at
        # By how many calls went with the posts until now: so kills and posts come to their ends together.
        posts = max(self.wanted.posts - self.posts(), 1) / max(self.wanted.kills - self.kills, 1)
        calls = posts * (self.calls + CALLS) / (self.posts() + OF_POSTS)
        self.next_at = self.chance.randrange(1, max(int(2 * calls), 40))
        how = self.chance.choice(["before", "middle", "behind"])
        is_last = self.kills + 1 >= self.wanted.kills
        service.start(None if is_last else interrupting(service, library, self.next_at, how))

    def kill_at_any_time(self) -> None:
        """One instance or more, by chance all, are killed and started again."""
        time.sleep(self.chance.uniform(0, 2))
        victims = self.chance.sample(self.services, self.chance.choice([1, 1, 1, 2, len(self.services)]))
        for one in victims:
            one.kill()
        time.sleep(self.chance.choice([0, 0, 1]))
        for one in victims:
            one.start()


def interrupting(service: Service, library: str, at: int, how: str) -> dict[str, str]:
    return {"LD_PRELOAD": library, "INTERRUPT_FOLDER": service.data, "INTERRUPT_AT": str(at), "INTERRUPT_HOW": how}


def look(checks: Checks, run: Run, seconds: float) -> None:
    senders = run.senders
    names = ", ".join(f"{type(one).__name__.lower()} {one.posts} and {one.repeats}" for one in senders)
    print(f"note: {run.posts()} posts, {sum(one.repeats for one in senders)} repeats, {run.kills} kills in {seconds:.0f} s; posts and "
          f"repeats: {names}; {sum(len(one.refused) for one in senders)} points were overtaken and refused", flush=True)
    checks.same("no answer was another than it may be", [], [it for one in senders for it in one.surprises][:3])
    for service in run.services:
        checks.true("all is delivered", service.has_delivered_all(PATIENCE), service.last_lines())
    wrong: list[str] = []

    def agree() -> bool:
        totals: dict[str, Value] = {}
        add_points(totals, run.sink.points())
        wrong[:] = [it for one in senders for it in one.wrong(totals)]
        return not wrong

    points = sum(len(one.taken) for one in senders)
    checks.true(f"the sink has each of {points} points that were taken once, and none that was refused", wait_until(agree, 30), wrong[:5])
    checks.same("the services found nothing that must not be", [], [fault for one in run.services for fault in one.faults()])
    for service in run.services:
        checks.same("it ends by SIGTERM", 0, service.end(PATIENCE)[0])


def over_a_folder(checks: Checks, arguments: argparse.Namespace, folder: str) -> None:
    sink = SqliteSink(f"{folder}/sink.db")
    os.mkdir(f"{folder}/data")
    # A first point of a cumulative series counts from its start.
    service = Service(arguments.totxegun, f"{folder}/data", sink.address, "--flush-interval", "1s", "--initial-value", "keep")
    library = build(folder)
    try:
        service.start()
        checks.true("it is ready", service.wait_ready(), service.last_lines())
        service.kill()
        service.start(interrupting(service, library, FIRST_AT, "before"))
        begun = time.monotonic()
        run = Run(arguments, [service], sink)
        run.go(lambda: run.kill_at_a_call(library))
        checks.true("it is ready at the end", service.wait_ready(PATIENCE), service.last_lines())
        look(checks, run, time.monotonic() - begun)
    finally:
        service.kill()


def over_a_store(checks: Checks, arguments: argparse.Namespace, folder: str) -> None:
    with contextlib.ExitStack() as stack:
        store, sink = Pair(), OtlpSink(arguments.seed)
        stack.callback(store.close)
        stack.callback(sink.close)
        subprocess.run([arguments.totxegun, "store", "init", store.address, "--shards", SHARDS], check=True, capture_output=True)
        store.make_standby()
        names = [f"i{number}" for number in range(arguments.instances)]
        services = [instance(arguments.totxegun, folder, name, store, sink, "--initial-value", "keep") for name in names]
        for one in services:
            stack.callback(one.kill)
            one.start()
        checks.true("all are ready", all(one.wait_ready() for one in services), services[0].last_lines())
        begun = time.monotonic()
        run = Run(arguments, services, sink)
        run.go(run.kill_at_any_time)
        checks.true("all are ready at the end", all(one.wait_ready(PATIENCE) for one in services), services[0].last_lines())
        look(checks, run, time.monotonic() - begun)


def main(arguments: argparse.Namespace) -> int:
    checks = Checks()
    is_alone = arguments.instances == 1
    lacks = [name for name in ("gcc",) if is_alone and not shutil.which(name)] + ([] if is_alone or initdb() else ["postgresql"])
    if checks.has("senders that retry", *lacks):
        with tempfile.TemporaryDirectory(prefix="retries-") as folder:
            (over_a_folder if is_alone else over_a_store)(checks, arguments, folder)
    return checks.end()


if __name__ == "__main__":
    parser = argparse.ArgumentParser(description=__doc__.split("\n", maxsplit=1)[0])
    parser.add_argument("totxegun", type=lambda word: os.path.abspath(word))
    parser.add_argument("posts", type=int, nargs="?", default=POSTS)
    parser.add_argument("kills", type=int, nargs="?", default=KILLS)
    parser.add_argument("seed", nargs="?", default="1")
    parser.add_argument("--instances", type=int, default=1)
    sys.exit(main(parser.parse_args()))
