#!/usr/bin/env python3
"""Counts the instructions in user mode of a cumulative post beside a delta one, and the bytes of a snapshot with runs and without.

    bench/cumulative.py [--totxegun FILE] [--series N]

A row is a kind of point, how many a post has, and the encoding. The service runs under valgrind (callgrind), so nothing else
on the machine changes a count; the kernel's instructions are not in it, nor are those of flushes: there is one behind each
load. A first load warms up what is known of series, and is not counted. Two senders post 200 series.

The snapshot is the first segment of the outbox that a start writes, of so many series (10,000) that had a post and a flush, by
its bytes for each series.
"""
import argparse
import glob
import os
import shutil
import tempfile

from measuring import loading
from measuring.loading import Posts, Senders
from measuring.running import Measured, options, serving, start
from testing.service import wait_until
from instructions import Profile, order

ROWS = [("sum", 1, "protobuf"), ("sum", 20, "protobuf"), ("sum", 103, "protobuf"), ("histogram", 20, "protobuf"), ("sum", 20, "json"),
        ("histogram", 20, "json")]
SERIES, SENDERS = 200, 2
POINTS, LEAST_REQUESTS = 6000, 40
WORDS = ["--durability", "process", "--initial-value", "keep", "--flush-interval", "1h", "--threads", "2"]


def profiled(arguments: argparse.Namespace, kind: str, points: int, encoding: str, all_points: int = POINTS,
             series: int = SERIES) -> tuple[Profile, int]:
    """What a load of about so many points takes, and how many posts it has."""
    requests = max(all_points // points // SENDERS, LEAST_REQUESTS) * SENDERS
    with tempfile.TemporaryDirectory() as folder:
        traced = ["valgrind", "--tool=callgrind", f"--callgrind-out-file={folder}/out", "--quiet"]
        one = Measured(arguments.totxegun, f"{folder}/data", f"sqlite:{folder}/sink.db", *WORDS, before=traced)
        try:
            start(one)
            senders = Senders(one.listen, SENDERS, Posts(kind, points, series, encoding, "kept"))
            senders.make_series()
            senders.load(requests)
            order(one.process, "--zero")
            loaded = senders.load(requests)
            order(one.process, "--dump")
        finally:
            one.kill()
        if loaded.failed:
            raise SystemExit(f"{loaded.failed} requests failed")
        return Profile(f"{folder}/out.1"), loaded.requests


def count(arguments: argparse.Namespace, kind: str, points: int, encoding: str) -> float:
    """The instructions of a post."""
    profile, posts = profiled(arguments, kind, points, encoding)
    return profile.whole() / posts


def snapshot(arguments: argparse.Namespace, kind: str) -> float:
    """The bytes of a snapshot for each series."""
    with serving(arguments, *WORDS) as one:
        senders = Senders(one.listen, SENDERS, Posts(kind, 100, arguments.series, "protobuf", "kept"))
        senders.make_series()
        one.order("/flush")
        if not wait_until(one.is_drained):
            raise SystemExit("the sink has not all of it")
        one.kill()
        start(one)
        latest = max(glob.glob(f"{one.data}/shard-0/outbox/*"), key=os.path.getmtime)
        return float(os.path.getsize(latest) / arguments.series)


def main() -> None:
    parser = options(__doc__.split("\n", maxsplit=1)[0])
    parser.add_argument("--series", type=int, default=10_000)
    arguments = parser.parse_args()
    if not shutil.which("valgrind"):
        raise SystemExit("left out: it needs the package valgrind")
    loading.build()
    for kind in ("sum", "histogram"):
        both = [snapshot(arguments, name) for name in (kind, f"cumulative-{kind}")]
        print("bytes of a snapshot for each series of a {}: {:.0f}, with its run {:.0f}".format(kind, *both), flush=True)
    print(f"{'instructions a post':32}{'delta':>12}{'cumulative':>12}{'ratio':>7}")
    for kind, points, encoding in ROWS:
        delta, cumulative = (count(arguments, name, points, encoding) for name in (kind, f"cumulative-{kind}"))
        row = f"{kind}s, {points} a post, {encoding}"
        print(f"{row:32}{delta:>12,.0f}{cumulative:>12,.0f}{cumulative / delta:>7.2f}", flush=True)


if __name__ == "__main__":
    main()
