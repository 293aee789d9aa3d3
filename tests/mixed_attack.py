#!/usr/bin/env python3
"""Honest senders beside all that others can do to the service by posting, reading and being slow.

    tests/mixed_attack.py TOTXEGUN [SECONDS] [SEED] [--stalls] [--only NAME,..]

Honest senders post at a steady rate, each post until it is answered, on connections that they keep. For the first quarter of
the seconds (40, at most two minutes of it) they are alone; for the rest attackers are at work, all of them or those that are
named (`--only`): posts of which the last point is refused, of known series and of ever new ones, floods of cumulative
points, others' series, bodies that come a byte a second or not to their end, gzip of empty members, long bodies and deep ones,
connections that say nothing, and readers of every page. With --stalls, which needs root, the service's folder is on a file
system of its own that stands still for a second or two now and then; posts of that time are not timed.

Then: the service has never ended by itself and has no faults; the honest senders' 99th percentile is at most three times what
it was alone, or 20 ms; memory was bounded by what docs/OPERATING.md says; and the sink has what the honest senders were told
is taken, series by series.

Each line is one check; the last line counts those that passed and failed, and the status is 1 if one failed.
"""
import argparse
import contextlib
import dataclasses
import gzip
import json
import multiprocessing
import os
import random
import socket
import sys
import tempfile
import time
from collections.abc import Callable, Sequence
from multiprocessing.synchronize import Event
from typing import Any, NamedTuple

from testing.checks import Checks
from testing.own_disk import OwnDisk
from testing.service import (JSON, Point, Sender, Service, SqliteSink, Value, add_points, ask, differences, field, in_json,
                             in_protobuf, wait_until)

SECONDS = 40
ALONE_PART, MOST_ALONE = 0.25, 120
SENDERS = 4
# Posts a second of each honest sender.
RATE = 25
MOST_TIMES, LEAST_BOUND = 3, 0.020
MEBIBYTE = 1 << 20
BOOKS, POSTS, SERIES = 192 * MEBIBYTE, 64 * MEBIBYTE, 20_000
# What else it takes, as docs/OPERATING.md, "Memory", says: each connection, a checkpoint for each series, and everything else.
CONNECTIONS, OF_A_CONNECTION, OF_A_SERIES, OWN = 1024, 64 << 10, 2 << 10, 32 * MEBIBYTE
# Attackers leave the processors to others, as they would from machines of their own.
NICE = 15
# After a stall posts that waited are answered; those of this time are not timed.
AFTER_STALL = 3


class Target(NamedTuple):
    """Where an attacker finds the service, and until when it goes on."""

    listen: int
    operate: int
    over: Event
    seed: str


# --------------------------------------------------------------------------------------------------------------------
# Honest senders


class Honest(Sender):
    """A sender that notes when each of its posts was due, and how long its answer took from then."""

    def go_on(self, over: Event) -> list[tuple[float, float]]:
        times: list[tuple[float, float]] = []
        due = time.monotonic()
        while not over.is_set():
            time.sleep(max(0.0, due - time.monotonic()))
            self.post(self.next_points())
            times.append((due, time.monotonic() - due))
            due = max(due + 1 / RATE, time.monotonic() - 1)
        return times


@dataclasses.dataclass
class Listens:
    """As much of a service as a sender knows."""

    listen: int


def be_honest(listen: int, number: int, seed: str, over: Event, results: Any) -> None:
    sender = Honest(Listens(listen), number, seed, seconds=30)
    times = sender.go_on(over)
    results.put((times, sender.told, sender.surprises, sender.repeats))


# --------------------------------------------------------------------------------------------------------------------
# Attackers: each goes on until it is over; what they are answered counts for nothing


def request(body: bytes, sender: str, kind: str = JSON, encoding: str = "", length: int | None = None) -> bytes:
    lines = ["POST /v1/metrics HTTP/1.1", "Host: 127.0.0.1", f"Content-Type: {kind}", f"x-sender: {sender}",
             f"Content-Length: {len(body) if length is None else length}"]
    lines += [f"Content-Encoding: {encoding}"] if encoding else []
    return "\r\n".join([*lines, "", ""]).encode() + body


def read_answer(connection: socket.socket) -> bool:
    """Whether something came: the end of an answer is not looked for, since one is short."""
    return bool(connection.recv(65536))


def post_again(target: Target, bodies: Callable[[], bytes], pause: float = 0.0) -> None:
    """Posts one body after another on a connection that is kept as long as the service keeps it."""
    while not target.over.is_set():
        with contextlib.suppress(OSError), socket.create_connection(("127.0.0.1", target.listen), 5) as connection:
            while not target.over.is_set():
                connection.sendall(bodies())
                if not read_answer(connection):
                    break
                time.sleep(pause)
        time.sleep(0.02)


def sums(name: str, count: int, start: int, end: int) -> list[Point]:
    return [(f"{name}.{number}", start, end, 1) for number in range(count)]


def refused_posts(target: Target) -> None:
    """Good points of known series, and a last one that is out of order."""
    first = request(in_json(sums("refused", 20, 1000, 2000)), "refused")
    bad = request(in_json([*sums("refused", 19, 3000, 4000), ("refused.19", 1500, 4000, 1)]), "refused")
    bodies = iter([first])
    post_again(target, lambda: next(bodies, bad))


def refused_series(target: Target) -> None:
    """New series in each post, of which the last point is out of order."""
    post_again(target, new_series(target, "refused-series"), 0.01)


def new_series(target: Target, sender: str) -> Callable[[], bytes]:
    chance = random.Random(f"{sender} {target.seed}")
    last = ("known.0", 1000, 2000, 1)
    bodies = iter([request(in_json([last]), sender)])

    def make() -> bytes:
        names = sums(f"{sender}.{chance.randrange(10 ** 12)}", 400, 3000, 4000)
        return request(in_protobuf([*names, ("known.0", 1500, 4000, 1)]), sender, "application/x-protobuf")

    return lambda: next(bodies, None) or make()


def taken_series(target: Target) -> None:
    """New series in each post, as many as the service takes of one sender."""
    chance = random.Random(f"taken {target.seed}")
    post_again(target, lambda: request(in_json(sums(f"taken.{chance.randrange(10 ** 12)}", 100, 1000, 2000)), "taken"), 0.05)


def others_series(target: Target) -> None:
    """Points of series that an honest sender has."""
    chance = random.Random(f"others {target.seed}")

    def make() -> bytes:
        name = f"sender-{chance.randrange(SENDERS)}.sum.0"
        return request(in_json([*sums("others", 5, 1000, 2000), (name, 10 ** 15, 10 ** 15 + 10, 1)]), "others")

    post_again(target, make)


def cumulative(target: Target) -> None:
    """Many cumulative points, each post with a later one of each series."""
    now = [time.time_ns()]

    def make() -> bytes:
        start = now[0]
        time_now = time.time_ns()
        points = [{"startTimeUnixNano": str(start), "timeUnixNano": str(time_now), "asInt": str(time_now - start),
                   "attributes": [{"key": "k", "value": {"stringValue": str(number)}}]} for number in range(500)]
        metric = {"name": "flood", "sum": {"aggregationTemporality": 2, "isMonotonic": True, "dataPoints": points}}
        return request(json.dumps({"resourceMetrics": [{"scopeMetrics": [{"metrics": [metric]}]}]}).encode(), "cumulative")

    post_again(target, make, 0.01)


def slow_bodies(target: Target) -> None:
    """Fifty bodies that come a byte a second."""
    connections: list[socket.socket] = []
    while not target.over.is_set():
        while len(connections) < 50:
            with contextlib.suppress(OSError):
                one = socket.create_connection(("127.0.0.1", target.listen), 5)
                one.sendall(request(b"{", "slow", length=100_000))
                connections.append(one)
        for one in connections[:]:
            try:
                one.sendall(b" ")
            except OSError:
                connections.remove(one)
        time.sleep(1)


def half_bodies(target: Target) -> None:
    """Bodies of which the sender goes away."""
    while not target.over.is_set():
        with contextlib.suppress(OSError), socket.create_connection(("127.0.0.1", target.listen), 5) as one:
            one.sendall(request(b'{"resourceMetrics":[', "half", length=50_000))
        time.sleep(0.02)


def empty_members(target: Target) -> None:
    """Gzip of 100,000 members that have nothing in them."""
    body = request(gzip.compress(b"", 9, mtime=0) * 100_000, "gzip", encoding="gzip")
    post_again(target, lambda: body, 0.5)


def long_bodies(target: Target) -> None:
    """Four mebibytes of JSON: of one text, of many empty values, and nested deep; and as much of protobuf."""
    size = 4 * MEBIBYTE - 1000
    bodies = [request(b'{"a":"' + b"a" * size + b'"}', "long"), request(b"[" + b"{}," * (size // 3) + b"{}]", "long"),
              request(b"[" * size, "long"), request(field(1, b"") * (size // 2), "long", "application/x-protobuf")]
    chance = random.Random(f"long {target.seed}")
    post_again(target, lambda: chance.choice(bodies), 0.2)


def silent_connections(target: Target) -> None:
    """Four hundred connections that say nothing, made again as they are closed."""
    connections: list[socket.socket] = []
    while not target.over.is_set():
        with contextlib.suppress(OSError):
            while len(connections) < 400 and not target.over.is_set():
                connections.append(socket.create_connection(("127.0.0.1", target.listen), 5))
                connections[-1].setblocking(False)
        for one in connections[:]:
            with contextlib.suppress(BlockingIOError):
                if not is_open(one):
                    connections.remove(one)
        time.sleep(0.5)


def is_open(connection: socket.socket) -> bool:
    try:
        return connection.recv(1) != b""
    except BlockingIOError:
        return True
    except OSError:
        return False


def readers(target: Target) -> None:
    """Every page that may be read at TCP, one after another."""
    pages = ["/", "/series", "/totals", "/status", "/metrics", "/report", "/readyz", "/healthz"]
    while not target.over.is_set():
        for page in pages:
            ask(target.operate, "GET", page, seconds=10)


def slow_readers(target: Target) -> None:
    """Twenty readers of the totals that don't read what they asked for."""
    while not target.over.is_set():
        with contextlib.ExitStack() as stack:
            for _ in range(20):
                with contextlib.suppress(OSError):
                    one = stack.enter_context(socket.create_connection(("127.0.0.1", target.operate), 5))
                    one.sendall(b"GET /totals HTTP/1.1\r\nHost: 127.0.0.1\r\n\r\n")
            target.over.wait(5)


ATTACKERS = (refused_posts, refused_series, taken_series, others_series, cumulative, slow_bodies, half_bodies, empty_members,
             long_bodies, silent_connections, readers, readers, slow_readers)


def attack(which: Callable[[Target], None], target: Target) -> None:
    os.nice(NICE)
    which(target)


# --------------------------------------------------------------------------------------------------------------------
# The run


def percentile(times: Sequence[float], part: float) -> float:
    return sorted(times)[min(len(times) - 1, int(len(times) * part))]


def peak_memory(service: Service) -> int:
    with open(f"/proc/{service.process.pid}/status", encoding="utf-8") as file:
        return 1024 * next(int(line.split()[1]) for line in file if line.startswith("VmHWM:"))


class Run:
    """Honest senders for all of the time, attackers after the first part of it."""

    def __init__(self, arguments: argparse.Namespace, service: Service, disk: OwnDisk | None) -> None:
        self.service = service
        self.disk = disk
        self.seed = arguments.seed
        self.alone = min(arguments.seconds * ALONE_PART, MOST_ALONE)
        self.seconds = arguments.seconds
        self.attackers = [it for it in ATTACKERS if not arguments.only or it.__name__ in arguments.only]
        self.context = multiprocessing.get_context("fork")
        self.stalls: list[tuple[float, float]] = []
        self.told: dict[str, Value] = {}
        self.surprises: list[Any] = []
        self.repeats = 0
        self.times: list[tuple[float, float]] = []
        self.begun = self.attacked = 0.0

    def go(self) -> None:
        honest_over, over = self.context.Event(), self.context.Event()
        results = self.context.Queue()
        honest = [self.context.Process(target=be_honest, args=(self.service.listen, number, self.seed, honest_over, results))
                  for number in range(SENDERS)]
        self.begun = time.monotonic()
        for it in honest:
            it.start()
        time.sleep(self.alone)
        self.attacked = time.monotonic()
        target = Target(self.service.listen, self.service.operate, over, self.seed)
        attackers = [self.context.Process(target=attack, args=(it, target), daemon=True) for it in self.attackers]
        for it in attackers:
            it.start()
        self.wait(over)
        over.set()
        honest_over.set()
        for _ in honest:
            times, told, surprises, repeats = results.get(timeout=120)
            self.times += times
            self.told |= told
            self.surprises += surprises
            self.repeats += repeats
        for it in [*honest, *attackers]:
            it.join(30)

    def wait(self, over: Event) -> None:
        left = self.seconds - self.alone
        if self.disk is None:
            time.sleep(left)
            return
        until = time.monotonic() + left
        chance = random.Random(f"stalls {self.seed}")
        while time.monotonic() < until:
            time.sleep(min(chance.uniform(8, 20), max(0.0, until - time.monotonic())))
            begun = time.monotonic()
            with self.disk.frozen():
                time.sleep(chance.choice([1, 1, 2, 4]))
            self.stalls.append((begun, time.monotonic() + AFTER_STALL))

    def timed(self, is_attacked: bool) -> list[float]:
        """How long answers took of posts that were due in that part, and not while the disk stood still."""
        return [took for due, took in self.times
                if (due >= self.attacked) == is_attacked and due >= self.begun + 1
                and not any(begun - 1 <= due <= end for begun, end in self.stalls)]


def look(checks: Checks, run: Run) -> None:
    service = run.service
    checks.true("the service has not ended", service.is_running(), service.last_lines())
    # Readers that were cut off a moment ago may still have all of their places.
    wait_until(lambda: ask(service.operate, "GET", "/metrics")[0] == 200, 30)
    checks.same("it found nothing that must not be", [], service.faults())
    checks.same("honest senders had no other answer than to come again", [], run.surprises[:3])
    alone, attacked = run.timed(False), run.timed(True)
    before, after = percentile(alone, 0.99), percentile(attacked, 0.99)
    print(f"note: alone {len(alone)} posts, median {1000 * percentile(alone, 0.5):.1f} ms, 99th {1000 * before:.1f} ms; attacked "
          f"{len(attacked)}, median {1000 * percentile(attacked, 0.5):.1f} ms, 99th {1000 * after:.1f} ms, slowest "
          f"{1000 * max(attacked):.0f} ms; {run.repeats} repeats, {len(run.stalls)} stalls", flush=True)
    bound = max(MOST_TIMES * before, LEAST_BOUND)
    checks.true("their 99th percentile is at most three times that alone, or 20 ms", after <= bound, f"{after:.4f} s, bound {bound:.4f} s")
    memory, most = peak_memory(service), BOOKS + POSTS + CONNECTIONS * OF_A_CONNECTION + SERIES * OF_A_SERIES + OWN
    print(f"note: memory {memory / MEBIBYTE:.0f} MiB at most, bound {most / MEBIBYTE:.0f} MiB", flush=True)
    checks.true("memory was bounded", memory <= most, f"{memory / MEBIBYTE:.0f} MiB, bound {most / MEBIBYTE:.0f} MiB")


def compare(checks: Checks, run: Run, sink: SqliteSink) -> None:
    checks.true("all is delivered", run.service.has_delivered_all(), run.service.last_lines())
    found: dict[str, Value] = {}
    add_points(found, (point for point in sink.points() if point[0] in run.told))
    checks.same(f"the sink has what the honest senders were told, {len(run.told)} series", [], differences(run.told, found))
    status, _ = run.service.end()
    checks.same("it ends by SIGTERM with status 0", 0, status)


def main(arguments: argparse.Namespace) -> int:
    checks = Checks()
    with contextlib.ExitStack() as stack:
        folder = stack.enter_context(tempfile.TemporaryDirectory(prefix="attack-"))
        disk = stack.enter_context(OwnDisk(folder)) if arguments.stalls else None
        sink = SqliteSink(f"{folder}/sink.db")
        words = ["--flush-interval", "2s", "--max-series", str(SERIES), "--max-memory", str(BOOKS), "--max-bytes", str(POSTS)]
        service = Service(arguments.totxegun, f"{disk.folder if disk else folder}/data", sink.address, *words)
        service.log = f"{folder}/log"
        try:
            service.start()
            checks.true("it is ready", service.wait_ready(), service.last_lines())
            run = Run(arguments, service, disk)
            run.go()
            wait_until(lambda: service.is_ready(), 30)
            look(checks, run)
            compare(checks, run, sink)
        finally:
            service.kill()
    return checks.end()


if __name__ == "__main__":
    parser = argparse.ArgumentParser(description=__doc__.split("\n", maxsplit=1)[0])
    parser.add_argument("totxegun", type=lambda word: os.path.abspath(word))
    parser.add_argument("seconds", type=float, nargs="?", default=SECONDS)
    parser.add_argument("seed", nargs="?", default="1")
    parser.add_argument("--stalls", action="store_true")
    parser.add_argument("--only", type=lambda text: text.split(","), default=[])
    sys.exit(main(parser.parse_args()))
