#!/usr/bin/env python3
"""Measures instances over a store in PostgreSQL with a synchronous standby, and compares them with one over a folder.

    bench/several_machines.py [--totxegun FILE] [--parts NAME,..] [--rows NAME,..] [--senders N,..] [--parties NAME,..] [--runs N]
                              [--seconds N] [--series N] [--shards N] [--times N] [--after N] [--size N] [--data DIR]

FILE is bin/totxegun by default, as `make build` makes it. The parts take about ten minutes:

  - posts: posts a second, the median and the 99th percentile of a post, and the WAL that the primary writes for one, with 64 and 512
    senders, by rows json-1, json-20 and protobuf-103. Parties: disk, a folder with --durability disk; store, an instance over a store
    of SHARDS shards (12). A ratio is to disk's run beside it.
  - wal: for a post of 1 point (or of the first of ROWS), with each number of senders, the records of that WAL by kind, and posts and
    rows in each commit. These do not depend on the machine's load, except through how many posts join a commit.
  - takeover: two instances have 10,000 series, and 32 senders post to one of them. The other is killed: seconds from the kill until the
    first and the last sender of its shards is answered. It comes back and is ended by SIGTERM: the longest time that a sender of a shard
    that is handed over waits.
  - size: the table of journals and outboxes, with its indexes, while 64 senders post 20 points each for SIZE (120) seconds.

All servers, folders and the load are on this machine. The files are in DIR (out/bench), so on one disk. The sink is an OTLP sink in this
process. It prints what it measures on this machine and checks nothing.
"""
import argparse
import contextlib
import os
import re
import signal
import statistics
import subprocess
import sys
import tempfile
import threading
import time
from collections.abc import Iterator, Sequence

from measuring import loading
from measuring.loading import Loaded, Posts, Senders, rounded
from measuring.process import file_system, numbers, spread
from measuring.running import Measured, options, start

from testing.loopback import free_port
from testing.servers import Pair
from testing.service import JSON, OtlpSink, Point, Post, Sender, Service, by_resource, wait_until

ROWS = {"json-1": ("json", 1), "json-20": ("json", 20), "protobuf-103": ("protobuf", 103)}
PARTIES = ("disk", "store")
PARTS = ("posts", "wal", "takeover", "size")
# As one would set a server of this load; the standby has them from it.
SETTINGS = ("shared_buffers = 256MB", "max_wal_size = 4GB", "max_connections = 200")
WAL = "select pg_current_wal_lsn() - '0/0'"
PLACE = "select pg_current_wal_lsn()"
# A line of pg_waldump --stats=record: a kind, how many, and their bytes with the pages that they have.
RECORDS = re.compile(r"^(\S+)\s+(\d+) \(.*\)\s+(\d+) \([^)]*\)$", re.MULTILINE)
# Fewer bytes a post are not worth a word.
LEAST_BYTES = 0.5
TABLE = "select pg_total_relation_size('totxegun_store.piece')"
# Of each sender, so that what a run begins with does not count.
LEAST_POSTS = 20
PROBES, SERIES = 32, 10_000
# Who waits for longer had its shard taken over.
LONG = 1
SETTLED_WITHIN = 120
# Seconds between two looks at a table.
BETWEEN = 5


class Stores:
    """A database with a standby, made when it is needed: a store in it, new each time."""

    def __init__(self, stack: contextlib.ExitStack, program: str, shards: int) -> None:
        self.stack, self.program, self.shards = stack, program, shards
        self.pair: Pair | None = None

    def new(self) -> Pair:
        if self.pair is None:
            self.pair = Pair(settings=SETTINGS)
            self.stack.callback(self.pair.close)
            self.pair.make_standby()
        self.pair.ask("drop schema if exists totxegun_store cascade")
        subprocess.run([self.program, "store", "init", self.pair.address, "--shards", str(self.shards)], check=True,
                       stdout=subprocess.DEVNULL)
        return self.pair


def wal(pair: Pair | None) -> int:
    return int(float(pair.ask(WAL))) if pair else 0


@contextlib.contextmanager
def instances(arguments: argparse.Namespace, sink: OtlpSink, names: str, pair: Pair | None) -> Iterator[list[Measured]]:
    """As many as there are names, over a store in this database; without one, one over a folder."""
    with tempfile.TemporaryDirectory(prefix="machines-", dir=arguments.data) as folder:
        all_of_them: list[Measured] = []
        for name in names:
            words = ["--durability", "disk"]
            if pair:
                words = ["--store", pair.address, "--instance", name, "--peer", f"127.0.0.1:{free_port()}"]
            all_of_them.append(Measured(arguments.totxegun, f"{folder}/{name}", sink.address, *words, *arguments.options))
            all_of_them[-1].environment = dict(arguments.set)
        try:
            for one in all_of_them:
                start(one)
            yield all_of_them
        finally:
            for one in all_of_them:
                one.kill()


# --------------------------------------------------------------------------------------------------------------------
# Posts


def run(arguments: argparse.Namespace, stores: Stores, sink: OtlpSink, party: str, row: str,
        clients: int) -> tuple[Loaded, float]:
    """Of one run: what was loaded, and bytes of WAL a post."""
    encoding, points = ROWS[row]
    pair = stores.new() if party == "store" else None
    with instances(arguments, sink, "a", pair) as (one,):
        senders = Senders(one.listen, clients, Posts("sum", points, max(arguments.series, clients), encoding, "kept"))
        senders.make_series()
        tried = senders.load(LEAST_POSTS * clients)
        count = max(tried.requests / tried.seconds * arguments.seconds, LEAST_POSTS * clients)
        before = wal(pair)
        loaded = senders.load(rounded(int(count), clients))
        return loaded, (wal(pair) - before) / loaded.requests


def measure_posts(arguments: argparse.Namespace, stores: Stores, sink: OtlpSink) -> None:
    for row in arguments.rows:
        for clients in arguments.senders:
            runs: dict[str, list[tuple[Loaded, float]]] = {party: [] for party in arguments.parties}
            for _ in range(arguments.runs):
                for party, of_it in runs.items():
                    of_it.append(run(arguments, stores, sink, party, row, clients))
            print(f"\n{row}, {clients} senders", flush=True)
            for party, of_it in runs.items():
                print_party(party, of_it, runs.get("disk"))


def print_party(party: str, runs: list[tuple[Loaded, float]], beside: list[tuple[Loaded, float]] | None) -> None:
    rates = [loaded.requests / loaded.seconds for loaded, _ in runs]
    line = f"  {party}: posts/s {spread(rates, ',.0f')}"
    if beside and beside is not runs:
        ratios = [rate / (other.requests / other.seconds) for rate, (other, _) in zip(rates, beside)]
        line += f", {spread(ratios, '.2f')} of disk's"
    line += f"; ms of a post: median {spread([loaded.median / 1e3 for loaded, _ in runs], '.2f')}"
    line += f", 99th {spread([loaded.last / 1e3 for loaded, _ in runs], '.2f')}"
    if party == "store":
        line += f"; WAL {spread([written for _, written in runs], ',.0f')} bytes a post"
    failed = sum(loaded.failed for loaded, _ in runs)
    print(line + (f"; {failed} FAILED" if failed else ""), flush=True)


# --------------------------------------------------------------------------------------------------------------------
# What the WAL of a post has


def records(pair: Pair, begin: str, end: str) -> dict[str, tuple[int, int]]:
    """Of each kind how many there are between two places, and their bytes."""
    said = pair.primary.run("pg_waldump", "-p", f"{pair.primary.folder}/data/pg_wal", "-s", begin, "-e", end, "--stats=record")
    return {kind: (int(count), int(size)) for kind, count, size in RECORDS.findall(said)}


def measure_wal(arguments: argparse.Namespace, stores: Stores, sink: OtlpSink) -> None:
    encoding, points = ROWS[arguments.rows[0]]
    for clients in arguments.senders:
        pair = stores.new()
        with instances(arguments, sink, "a", pair) as (one,):
            senders = Senders(one.listen, clients, Posts("sum", points, max(arguments.series, clients), encoding, "kept"))
            senders.make_series()
            senders.load(LEAST_POSTS * clients)
            begin = pair.ask(PLACE)
            posts = senders.load(10 * LEAST_POSTS * clients).requests
            found = records(pair, begin, pair.ask(PLACE))
        print_wal(f"{arguments.rows[0]}, {clients} senders, {arguments.shards} shards", posts, found)


def print_wal(what: str, posts: int, found: dict[str, tuple[int, int]]) -> None:
    commits, rows = (sum(count for kind, (count, _) in found.items() if kind.startswith(begin))
                     for begin in ("Transaction/COMMIT", "Heap/INSERT"))
    print(f"\nWAL of {what}: {sum(size for _, size in found.values()) / posts:.0f} bytes a post, {posts / max(commits, 1):.1f} posts and"
          f" {rows / max(commits, 1):.1f} rows a commit", flush=True)
    for kind, (count, size) in sorted(found.items(), key=lambda one: -one[1][1]):
        if size / posts >= LEAST_BYTES:
            print(f"  {kind}: {count / posts:.2f} a post, {size / posts:.1f} bytes a post, {size / count:.0f} each", flush=True)


# --------------------------------------------------------------------------------------------------------------------
# Takeover and hand-over


class Probe(Sender):
    """Posts points of a resource of its own on and on to one instance: when it was answered."""

    def __init__(self, service: Service, number: int) -> None:
        super().__init__(service, number, seconds=20)
        self.answered: list[float] = []

    def encoded(self, points: Sequence[Point]) -> Post:
        return by_resource(JSON, {self.name: points}), {"Content-Type": JSON, "x-sender": self.name}

    def run(self, stop: threading.Event) -> None:
        while not stop.is_set():
            self.post(self.next_points())
            self.answered.append(time.monotonic())

    def gap(self, since: float) -> tuple[float, float]:
        """The longest time without an answer after that, and how long after it that ended."""
        times = [since, *(at for at in self.answered if at >= since)]
        return max(((later - sooner, later - since) for sooner, later in zip(times, times[1:])), default=(0, 0))


@contextlib.contextmanager
def probing(service: Service) -> Iterator[list[Probe]]:
    probes, stop = [Probe(service, number) for number in range(PROBES)], threading.Event()
    threads = [threading.Thread(target=probe.run, args=(stop,)) for probe in probes]
    for thread in threads:
        thread.start()
    try:
        yield probes
    finally:
        stop.set()
        for thread in threads:
            thread.join()


def settled(pair: Pair, shards: int) -> None:
    """Once each of two instances has half of the shards, or nearly."""
    owners = "select count(*) from totxegun_store.shard where owner = '{}'"
    if not wait_until(lambda: all(int(pair.ask(owners.format(name))) >= shards // 4 for name in "ab"), SETTLED_WITHIN):
        raise SystemExit("two instances have not shared the shards out")


def measure_takeover(arguments: argparse.Namespace, stores: Stores, sink: OtlpSink) -> None:
    pair = stores.new()
    firsts: list[float] = []
    lasts: list[float] = []
    waits: list[float] = []
    with instances(arguments, sink, "ab", pair) as (lost, stays):
        Senders(stays.listen, PROBES, Posts("sum", 100, SERIES, "protobuf", "kept")).make_series()
        with probing(stays) as probes:
            for _ in range(arguments.times):
                settled(pair, stores.shards)
                begun = time.monotonic()
                lost.kill()
                time.sleep(arguments.after)
                ends = [end for gap, end in (probe.gap(begun) for probe in probes) if gap > LONG]
                firsts, lasts = firsts + [min(ends, default=0)], lasts + [max(ends, default=0)]
                start(lost)
                settled(pair, stores.shards)
                begun = time.monotonic()
                lost.end()
                time.sleep(1)
                waits.append(max(probe.gap(begun)[0] for probe in probes))
                start(lost)
    print(f"\ntakeover with {SERIES} series, {PROBES} senders: s after a kill until the first is answered {spread(firsts, '.1f')}, the last"
          f" {spread(lasts, '.1f')}; hand-over: the longest wait {spread(waits, '.2f')} s", flush=True)


# --------------------------------------------------------------------------------------------------------------------
# Size


def measure_size(arguments: argparse.Namespace, stores: Stores, sink: OtlpSink) -> None:
    pair = stores.new()
    sizes: list[float] = []
    posts, until = 0, time.monotonic() + arguments.size
    with instances(arguments, sink, "a", pair) as (one,):
        senders = Senders(one.listen, 64, Posts("sum", 20, arguments.series, "json", "kept"))
        senders.make_series()
        loaded = senders.load(64 * LEAST_POSTS)
        while time.monotonic() < until:
            loaded = senders.load(rounded(int(loaded.requests / loaded.seconds * BETWEEN), 64))
            posts += loaded.requests
            sizes.append(int(pair.ask(TABLE)) / 1e6)
    rest = sizes[len(sizes) // 4:] or [0]
    print(f"\nsize over {arguments.size:.0f} s, {posts} posts of 20 points: MB after a quarter of it {statistics.median(rest):,.0f}"
          f" ({min(rest):,.0f} .. {max(rest):,.0f}), at the end {sizes[-1] if sizes else 0:,.0f}", flush=True)


def main() -> None:
    parser = options(__doc__.split("\n", maxsplit=1)[0])

    def words(text: str) -> list[str]:
        return text.split(",")

    parser.add_argument("--parts", type=words, default=PARTS)
    parser.add_argument("--rows", type=words, default=list(ROWS))
    parser.add_argument("--senders", type=numbers, default=[64, 512])
    parser.add_argument("--parties", type=words, default=list(PARTIES))
    parser.add_argument("--runs", type=int, default=1)
    parser.add_argument("--seconds", type=float, default=4)
    parser.add_argument("--series", type=int, default=800)
    parser.add_argument("--shards", type=int, default=12)
    parser.add_argument("--times", type=int, default=3)
    parser.add_argument("--after", type=float, default=12)
    parser.add_argument("--size", type=float, default=120)
    arguments = parser.parse_args()
    loading.build()
    os.makedirs(arguments.data, exist_ok=True)
    tempfile.tempdir = arguments.data
    print(f"{arguments.totxegun}, {len(os.sched_getaffinity(0))} processors, {arguments.runs} runs in turn, {arguments.shards} shards, "
          f"all on {file_system(arguments.data)}", flush=True)
    signal.signal(signal.SIGTERM, lambda *_: sys.exit(1))
    measures = {"posts": measure_posts, "wal": measure_wal, "takeover": measure_takeover, "size": measure_size}
    with contextlib.ExitStack() as stack:
        sink = OtlpSink()
        stack.callback(sink.close)
        stores = Stores(stack, arguments.totxegun, arguments.shards)
        for part in arguments.parts:
            measures[part](arguments, stores, sink)


if __name__ == "__main__":
    main()
