#!/usr/bin/env python3
"""Prints how long the service takes for what happens seldom, and what it writes.

    bench/service_times.py checkpoint|kill|replay|memory|backlog|bytes [--totxegun FILE] [--earlier FOLDER] [--renamed NEW=OLD]*
                           [--series N,..] [--posts N,..] [--points N,..] [--among N] [--requests N] [--times N]
                           [--durability WHAT] [--data DIR] [--options WORDS]

  checkpoint  the pause of a checkpoint in which each series (1,000, 10,000 and 100,000) has a new point, as the service counts it,
              and how long the order takes
  kill        kill -9 after a checkpoint, and a start: until the books are primed with so many series, as the service counts it;
              and until a post is answered 200 again
  replay      kill -9 with so many posts (10,000 and 100,000) of so many points (1, 20 and 103) in no group, over so many series
              (`--among`, 800), each of which a group has, and a start: the same two times, and the posts that were replayed
  memory      what is resident, and what the book counts, with so many series (1,000, 10,000 and 100,000) that each had a point
              three times, which SQLite has: half a minute behind the last, in JSON and in protobuf, and behind a kill and a start
  backlog     a start with so many requests (1,000,000) in the outbox, which this script writes: until it is ready
  bytes       bytes on disk for each point (10,000 posts of 20 points, 800 series, a flush after each tenth of them): of the
              journal, and of the outbox against the bytes that were forwarded

The program is bin/totxegun where none is named, `--durability` is process. FOLDER has totxegun and gateway of a revision whose
service starts a gateway (1383c49c): checkpoint, kill and replay are done to it too, in turn, with up to 10,000 series. Each is
done `--times` times (5; a replay and a backlog once): the median, and the least and the most in brackets. It prints what it measures on
this machine and checks nothing.
"""
import argparse
import contextlib
import glob
import json
import os
import re
import struct
import time
import zlib
from collections.abc import Iterator

from measuring import loading
from measuring.loading import MOST_POINTS, Loaded, Posts, Senders
from measuring.process import memory, numbers, spread
from measuring.running import Measured, options, service, serving, start
from testing.loopback import free_port
from testing.service import ask

# Nothing is flushed but by an order.
BY_ORDER = ("--flush-interval", "1h")
CLIENTS = 8
SERIES = 800
# How long nothing is posted before memory is looked at.
REST = 30
# As the service has room for where nothing is said.
MOST_SERIES = 100_000
# So many series an earlier service takes.
EARLIER_SERIES = 10_000
# Of the outbox that is written.
IN_GROUP, SEGMENT = 10, 16 << 20
HEADER, END, SNAPSHOT, GROUP, ITEM, COMMIT = 1, 3, 16, 17, 18, 19


def metric(one: Measured, name: str) -> float:
    """A number of the service's page."""
    page = ask(one.operate, "GET", "/metrics")[1].decode()
    return float(re.search(rf"^totxegun_{name} (\S+)$", page, re.MULTILINE)[1])


def order(one: Measured, path: str) -> None:
    status = one.order(path, 600)
    if status != 200:
        raise SystemExit(f"POST {path} was answered {status}: {one.last_lines()}")


def posted_all(senders: Senders, requests: int) -> Loaded:
    """So many posts, each of which has to be taken."""
    loaded = senders.load(requests)
    if loaded.failed:
        raise SystemExit(f"{loaded.failed} of {loaded.requests} posts were not answered 200")
    return loaded


def of_each_series(one: Measured, series: int) -> Senders:
    """Senders whose posts have a point of each of their series."""
    return Senders(one.listen, CLIENTS, Posts("sum", series // CLIENTS, series, "json", "kept"))


def parties(arguments: argparse.Namespace, series: int) -> Iterator[tuple[str, bool]]:
    """The service, and the earlier one where it is asked for and takes so many series: its name, and whether it is the earlier."""
    yield "", False
    if arguments.earlier and series <= EARLIER_SERIES:
        yield "earlier: ", True


def started(arguments: argparse.Namespace, is_earlier: bool) -> contextlib.AbstractContextManager[Measured]:
    return serving(arguments, *BY_ORDER, "--durability", arguments.durable, is_earlier=is_earlier)


def checkpoint(arguments: argparse.Namespace) -> None:
    for series in arguments.series:
        for name, is_earlier in parties(arguments, series):
            with started(arguments, is_earlier) as one:
                senders = of_each_series(one, series)
                pauses: list[float] = []
                orders: list[float] = []
                for _ in range(arguments.times + 1):
                    posted_all(senders, CLIENTS)
                    before, begun = metric(one, "checkpoint_pause_seconds_sum"), time.monotonic()
                    order(one, "/flush")
                    orders.append((time.monotonic() - begun) * 1e3)
                    pauses.append((metric(one, "checkpoint_pause_seconds_sum") - before) * 1e3)
                print(f"{name}{series:,} series: a checkpoint holds posts for {spread(pauses[1:], '.1f')} ms, and takes"
                      f" {spread(orders[1:], '.1f')} ms", flush=True)


def first_answer(one: Measured, number: int) -> None:
    """Posts until an answer is 200, a series of its own."""
    point = {"asInt": "1", "startTimeUnixNano": str(10 * number + 10), "timeUnixNano": str(10 * number + 20)}
    total = {"aggregationTemporality": 1, "isMonotonic": True, "dataPoints": [point]}
    body = json.dumps({"resourceMetrics": [{"scopeMetrics": [{"metrics": [{"name": "again", "sum": total}]}]}]}).encode()
    headers = {"Content-Type": "application/json", "x-sender": "again"}
    while ask(one.listen, "POST", "/v1/metrics", body, headers, seconds=600)[0] != 200:
        time.sleep(0.002)


def killed(one: Measured, number: int) -> tuple[float, float]:
    """Kills it: the seconds until a start has all, as the service counts them, by either name, and until an answer."""
    one.kill()
    begun = time.monotonic()
    one.start(one.environment)
    first_answer(one, number)
    return metric(one, "(?:last_recovery_duration_seconds|recovery_seconds_sum)"), time.monotonic() - begun


def kill(arguments: argparse.Namespace) -> None:
    for series in arguments.series:
        for name, is_earlier in parties(arguments, series):
            with started(arguments, is_earlier) as one:
                senders = of_each_series(one, series - CLIENTS)
                found: list[tuple[float, float]] = []
                for number in range(arguments.times):
                    posted_all(senders, CLIENTS)
                    order(one, "/flush")
                    found.append(killed(one, number))
                print(f"{name}{series:,} series: it is primed in {spread([it[0] * 1e3 for it in found], '.0f')} ms; a post is answered"
                      f" {spread([it[1] * 1e3 for it in found], '.0f')} ms after the start", flush=True)


def replayed(one: Measured) -> int:
    """How many posts the second start has put in: its log says so a moment after."""
    said: list[str] = []
    while len(said) < 2:
        time.sleep(0.01)
        said = re.findall(r"is ready .*posts=(\d+)", one.last_lines(1000))
    return int(said[-1])


def replay(arguments: argparse.Namespace) -> None:
    series = arguments.among
    for posts in arguments.posts:
        for points in arguments.points:
            for name, is_earlier in parties(arguments, series):
                with started(arguments, is_earlier) as one:
                    senders = Senders(one.listen, CLIENTS, Posts("sum", points, series, "json", "kept"))
                    senders.make_series()
                    order(one, "/flush")
                    posted_all(senders, posts)
                    counted, answered = killed(one, 0)
                    print(f"{name}{posts:,} posts of {points} points, {series:,} series: {replayed(one):,} replayed in {counted:.2f} s; a"
                          f" post is answered {answered:.2f} s after the start", flush=True)


def at_rest(one: Measured) -> str:
    """What it has, in words, half a minute after it has delivered all."""
    while not one.is_drained():
        time.sleep(0.2)
    time.sleep(REST)
    resident, book = memory(one.process.pid), metric(one, "memory_bytes")
    return f"{resident / 1e6:.0f} MB are resident, the book counts {book / 1e6:.0f}"


def resident(arguments: argparse.Namespace) -> None:
    for series in arguments.series:
        for encoding in ("json", "protobuf"):
            with serving(arguments, "--durability", arguments.durable, "--max-series", str(max(series, MOST_SERIES))) as one:
                senders = Senders(one.listen, CLIENTS, Posts("sum", min(series // CLIENTS, MOST_POINTS), series, encoding, "kept"))
                for _ in range(3):
                    senders.make_series()
                    order(one, "/flush")
                print(f"{series:,} series, {encoding}: {at_rest(one)};", end=" ", flush=True)
                one.kill()
                start(one)
                print(f"behind a start {at_rest(one)}", flush=True)


def record(kind: int, *parts: bytes) -> bytes:
    """A record of a file, as service/src/storage/records.rs has it."""
    inner = bytes([kind]) + b"".join(parts)
    return struct.pack("<II", len(inner), zlib.crc32(inner)) + inner


def packed(value: bytes) -> bytes:
    raw = zlib.compressobj(5, zlib.DEFLATED, -15)
    return raw.compress(value) + raw.flush()


def segments(folder: str) -> list[str]:
    return sorted(glob.glob(f"{folder}/*.seg"))


def forwarded_body() -> bytes:
    """A request of one point, as a gateway forwards it."""
    point = {"asInt": "1", "attributes": [{"key": "http.route", "value": {"stringValue": "/a"}}], "startTimeUnixNano": "10",
             "timeUnixNano": "20"}
    metric_ = {"name": "requests", "sum": {"aggregationTemporality": 1, "dataPoints": [point], "isMonotonic": True}, "unit": "1"}
    scope = {"metrics": [metric_], "scope": {"attributes": [], "name": "io.opentelemetry.http", "version": "2.9.0"}}
    return json.dumps({"resourceMetrics": [{"resource": {"attributes": []}, "scopeMetrics": [scope]}]}, separators=(",", ":")).encode()


def write_outbox(folder: str, epoch: str, journal: int, requests: int) -> int:
    """Segments that have so many requests, none of which was delivered; their bytes."""
    for old in segments(folder):
        os.remove(old)
    body, none = packed(forwarded_body()), packed(b'{"known":[],"new":[]}')
    next_one, number, size = 1, 0, 0
    while next_one <= requests:
        number += 1
        state = {"epoch": epoch, "next": next_one, "acknowledged": 0, "journal": journal, "quarantined": [], "series": []}
        out = [record(HEADER, b"totxegun", struct.pack("<HBQ", 1, 2, number)), record(SNAPSHOT, packed(json.dumps(state).encode()))]
        length = sum(map(len, out))
        while next_one <= requests and length < SEGMENT:
            items = b"".join(record(ITEM, struct.pack("<Q", item), body) for item in range(next_one, next_one + IN_GROUP))
            group = record(GROUP, struct.pack("<QQQQ", next_one, IN_GROUP, len(items), int(time.time())), epoch.encode())
            out += [group, items, record(COMMIT, struct.pack("<QQQ", next_one, IN_GROUP, journal), none)]
            length += sum(map(len, out[-3:]))
            next_one += IN_GROUP
        out.append(record(END, struct.pack("<Q", length)))
        with open(f"{folder}/{number:012}.seg", "wb") as file:
            size += file.write(b"".join(out))
    return size


def backlog(arguments: argparse.Namespace) -> None:
    sink = f"http://127.0.0.1:{free_port()}/v1/metrics"
    with service(arguments, *BY_ORDER, "--durability", arguments.durable, sink=sink) as one:
        start(one)
        one.end()
        with open(f"{one.data}/version", encoding="ascii") as file:
            epoch = re.search(r"epoch (\w+)", file.read())[1]
        journal = int(os.path.basename(segments(f"{one.data}/shard-0/journal")[-1]).split(".")[0])
        size = write_outbox(f"{one.data}/shard-0/outbox", epoch, journal, arguments.requests)
        took: list[float] = []
        for _ in range(arguments.times):
            begun = time.monotonic()
            start(one)
            took.append(time.monotonic() - begun)
            waiting = one.status()["shards"][0]["waiting"]
            one.kill()
        print(f"{waiting:,} requests in the outbox, {size >> 20} MB: ready in {spread(took, '.2f')} s", flush=True)


def bytes_of(path: str) -> tuple[int, int]:
    """How many bytes the bodies of a segment of the outbox have, unpacked, and how many all its records have."""
    with open(path, "rb") as file:
        content = file.read()
    at = total = 0
    while at + 8 < len(content):
        length, = struct.unpack_from("<I", content, at)
        if length == 0:  # What is written ahead.
            break
        if content[at + 8] == ITEM:
            total += len(zlib.decompress(content[at + 17:at + 8 + length], -15))
        at += 8 + length
    return total, at


def bytes_written(arguments: argparse.Namespace) -> None:
    sink = f"http://127.0.0.1:{free_port()}/v1/metrics"
    with serving(arguments, *BY_ORDER, "--durability", arguments.durable, sink=sink) as one:
        senders = Senders(one.listen, CLIENTS, Posts("sum", 20, SERIES, "json", "kept"))
        points = journal = bodies = 0
        for _ in range(10):
            before = one.status()["shards"][0]["journal"]["bytes"]
            loaded = posted_all(senders, arguments.posts[0] // 10)
            points, bodies = points + 20 * loaded.requests, bodies + loaded.bytes
            journal += one.status()["shards"][0]["journal"]["bytes"] - before
            order(one, "/flush")
        waiting = one.status()["shards"][0]["waiting"]
        forwarded, outbox = map(sum, zip(*map(bytes_of, segments(f"{one.data}/shard-0/outbox"))))
        print(f"{points:,} points in {bodies:,} bytes of posts: the journal has {journal / points:.1f} bytes a point; {waiting} requests of"
              f" {forwarded:,} bytes that are forwarded take {outbox:,} bytes of the outbox, 1 of {forwarded / outbox:.1f}", flush=True)


COMMANDS = {"checkpoint": checkpoint, "kill": kill, "replay": replay, "memory": resident, "backlog": backlog, "bytes": bytes_written}


def main() -> None:
    parser = options(__doc__.split("\n", maxsplit=1)[0])
    parser.add_argument("command", choices=COMMANDS)
    parser.add_argument("--series", type=numbers, default=[1000, 10_000, 100_000])
    parser.add_argument("--posts", type=numbers, default=[10_000, 100_000])
    parser.add_argument("--points", type=numbers, default=[1, 20, 103])
    parser.add_argument("--among", type=int, default=SERIES)
    parser.add_argument("--requests", type=int, default=1_000_000)
    parser.add_argument("--times", type=int, default=5)
    parser.add_argument("--durability", default="process")
    arguments = parser.parse_args()
    loading.build()
    COMMANDS[arguments.command](arguments)


if __name__ == "__main__":
    main()
