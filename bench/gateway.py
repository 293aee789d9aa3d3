#!/usr/bin/env python3
"""Prints what the gateway takes for each point and request under load, beside plain programs of the same job.

    bench/gateway.py [--gateway FILE] [--points N,..] [--kinds sum,histogram] [--series N,..]
                     [--senders N,..] [--receivers N,..] [--beside NAME,..] [--allocators NAME,..]
                     [--preload FILE] [--environment NAME=VALUE]* [--runs N] [--seconds N] [--kept] [--calls]

FILE is bin/gateway, as `make core` makes it, where none is named. With no option the rows are sums of 1, 20 and 1,000
points a request and histograms of 20 (11 buckets each), over 800 series, with 8 senders and 2 receivers, beside `plain` and
with the C library's allocator; else each of the points with each of the kinds, series and so on that are named.

The plain programs are of bench/plain, whose src/lib.rs says what they are: plain, plain-tree, plain-answers, plain-fast. None proves or
undoes anything, or keeps a journal. What can't be built is left out, and a line says so.

An allocator is given to all programs of a row alike: libc; tuned, which is libc with GLIBC_TUNABLES' tcache_count and
MALLOC_TRIM_THRESHOLD_; mimalloc, tcmalloc, jemalloc, by Debian's packages libmimalloc2.0, libtcmalloc-minimal4 and
libjemalloc2. --preload names another library and --environment what it or the C library reads: these are a row `own`.

The programs run in turn, each run in a fresh process whose series are there already, and of about so many seconds. Figures
are medians of the runs; a ratio is of the gateway's run to the plain program's beside it, its median, and the least and the
most in brackets. A median and a 99th percentile of a request are as a sender sees them with all others beside it. With
--kept the last run ends by 20 loads more, and bytes kept are what the process has grown by over these. --calls counts system
calls by strace. It prints what it measures on this machine and checks nothing.
"""
import argparse
import os
import re
import shutil
import signal
import statistics
import subprocess
import tempfile
from collections.abc import Iterable, Iterator
from typing import NamedTuple

from measuring import loading, plain
from measuring.allocators import add_options, environment, names_there, shown
from measuring.loading import Posts, Senders, rounded
from measuring.process import memory, numbers, processor_seconds, spread
from measuring.running import bare, options

DEFAULT_ROWS = [("sum", 1), ("sum", 20), ("sum", 1000), ("histogram", 20)]
LEAST_POSTS = 10
# How many requests of so many points are looked for in the first second.
FIRST_POINTS = 20_000
# A run that is traced is many times slower.
TRACED_REQUESTS = 400
KEPT_LOADS = 20
# So few that the gateway's round, of 32,000 connections, does not end within them.
KEPT_REQUESTS, BEFORE_KEPT = 1200, 4000


class Row(NamedTuple):
    kind: str
    points: int
    series: int
    senders: int
    receivers: int
    allocator: str


class Figures(NamedTuple):
    a_point: float
    a_request: float
    a_second: float
    points_a_second: float
    median: float
    last: float
    kept: float
    failed: float


class Program(NamedTuple):
    words: list[str]
    environment: dict[str, str]


def measure(program: Program, row: Row, requests: int, is_kept: bool) -> Figures:
    """The figures of one run."""
    words = [*program.words, "--receivers", str(row.receivers)]
    with bare(words, program.environment) as (port, process):
        senders = Senders(port, row.senders, Posts(row.kind, row.points, row.series, "json", "each"))
        senders.make_series()
        seconds, before = processor_seconds(process.pid), memory(process.pid)
        loaded = senders.load(rounded(requests, row.senders))
        seconds = processor_seconds(process.pid) - seconds
        points = loaded.requests * row.points
        kept = (memory(process.pid) - before) / points
        failed = loaded.failed
        if is_kept:
            kept, more = kept_over(senders, process.pid, row)
            failed += more
    a_second = loaded.requests / loaded.seconds
    return Figures(seconds / points * 1e6, seconds / loaded.requests * 1e6, a_second, a_second * row.points, loaded.median,
                   loaded.last, kept, failed)


def kept_over(senders: Senders, pid: int, row: Row) -> tuple[float, int]:
    """What the process grows by over more loads, by points, and how many requests failed."""
    before, points, failed = memory(pid), 0, 0
    for _ in range(KEPT_LOADS):
        loaded = senders.load(rounded(min(KEPT_REQUESTS, FIRST_POINTS // row.points), row.senders))
        points, failed = points + loaded.requests * row.points, failed + loaded.failed
    return (memory(pid) - before) / points, failed


def calls_a_request(program: Program, row: Row) -> str:
    """The system calls of each request by name, the most frequent ones first."""
    words = [*program.words, "--receivers", str(row.receivers)]
    with bare(words, program.environment) as (port, process), tempfile.NamedTemporaryFile("r") as table:
        senders = Senders(port, row.senders, Posts(row.kind, row.points, row.series, "json", "each"))
        senders.make_series()
        words = ["strace", "-f", "-c", "-o", table.name, "-p", str(process.pid)]
        tracer = subprocess.Popen(words, stderr=subprocess.PIPE, text=True)
        if "attached" not in tracer.stderr.readline():
            return "strace can't attach"
        whole = senders.load(rounded(TRACED_REQUESTS, row.senders)).requests
        tracer.send_signal(signal.SIGINT)
        tracer.communicate()
        found = re.findall(r"^ *[\d.]+ +[\d.]+ +\d+ +(\d+) +(?:\d+ +)?(\w+)$", table.read(), re.M)
    counts = sorted(((int(count) / whole, name) for count, name in found if name != "total"), reverse=True)
    names = ", ".join(f"{name} {count:.1f}" for count, name in counts if count >= 0.05)
    return f"{sum(count for count, _ in counts):.1f}: {names}"


def in_turn(programs: dict[str, Program], row: Row, arguments: argparse.Namespace) -> dict[str, list[Figures]]:
    """The figures of each program, by runs."""
    first = rounded(max(FIRST_POINTS // row.points // 4, LEAST_POSTS * row.senders), row.senders)
    requests = {name: int(measure(program, row, first, False).a_second * arguments.seconds) for name, program in programs.items()}
    runs: dict[str, list[Figures]] = {name: [] for name in programs}
    for number in range(arguments.runs):
        for name, program in programs.items():
            is_kept = arguments.kept and number == arguments.runs - 1
            count = min(requests[name], BEFORE_KEPT) if is_kept else requests[name]
            runs[name].append(measure(program, row, max(count, LEAST_POSTS * row.senders), is_kept))
    return runs


def print_row(row: Row, programs: dict[str, Program], arguments: argparse.Namespace) -> None:
    """Measures and prints a line for each program, and one of ratios for each plain one."""
    points = f"{row.points:,} point{'s' if row.points > 1 else ''} a request"
    print(f"\n{row.kind}s, {points}, {row.series:,} series, {row.senders} senders, {row.receivers} receivers, {row.allocator}")
    print(f"{'':16}us a point  us a request  requests/s   points/s  median us  99th us  bytes kept a point", flush=True)
    runs = in_turn(programs, row, arguments)
    for name, figures in runs.items():
        it = Figures(*(statistics.median(column) for column in zip(*figures)))
        it = it._replace(kept=figures[-1].kept if arguments.kept else it.kept)
        failed = sum(one.failed for one in figures)
        print(f"  {name:14}{it.a_point:10.2f}  {it.a_request:12.1f}  {it.a_second:10,.0f} {it.points_a_second:10,.0f}  {it.median:9,.0f}"
              f"  {it.last:7,.0f}  {it.kept:18,.0f}" + (f"  {failed} FAILED" if failed else ""))
    ours = runs["gateway"]
    for name, theirs in runs.items():
        if name != "gateway":
            print(f"  to {name}'s: {ratios(ours, theirs)}")
    for name, program in programs.items() if arguments.calls else ():
        print(f"  {name:14} system calls a request {calls_a_request(program, row)}", flush=True)


def ratios(ours: list[Figures], theirs: list[Figures]) -> str:
    def of(name: str) -> str:
        return spread([getattr(one, name) / max(getattr(other, name), 1e-9) for one, other in zip(ours, theirs)], ".2f")
    return f"processor time {of('a_point')}, requests/s {of('a_second')}, median {of('median')}, 99th {of('last')}"


def words(text: str) -> list[str]:
    return [word for word in text.split(",") if word]


def given() -> argparse.Namespace:
    parser = options(__doc__.split("\n", maxsplit=1)[0])
    parser.add_argument("--points", type=numbers)
    parser.add_argument("--kinds", type=words)
    parser.add_argument("--series", type=numbers, default=[800])
    parser.add_argument("--senders", type=numbers, default=[8])
    parser.add_argument("--receivers", type=numbers, default=[2])
    parser.add_argument("--beside", type=words, default=["plain"])
    add_options(parser, ["libc"])
    parser.add_argument("--runs", type=int, default=5)
    parser.add_argument("--seconds", type=float, default=1)
    parser.add_argument("--kept", action="store_true")
    parser.add_argument("--calls", action="store_true")
    return parser.parse_args()


def rows(arguments: argparse.Namespace, allocators: Iterable[str]) -> Iterator[Row]:
    named = arguments.points or arguments.kinds
    each = [(kind, points) for kind in arguments.kinds or ["sum"] for points in arguments.points or [20]]
    for kind, points in each if named else DEFAULT_ROWS:
        for series in arguments.series:
            for senders in arguments.senders:
                for receivers in arguments.receivers:
                    for allocator in allocators:
                        yield Row(kind, points, series, senders, receivers, allocator)


def main() -> None:
    arguments = given()
    loading.build()
    beside = {name: plain.build(name) for name in arguments.beside}
    if arguments.calls and not shutil.which("strace"):
        print("no strace: the system calls are left out")
        arguments.calls = False
    print(f"{arguments.gateway}, {len(os.sched_getaffinity(0))} processors, {arguments.runs} runs in turn")
    allocators = {name: environment(name, arguments) for name in names_there(arguments)}
    for name, its in allocators.items():
        print(f"{name}: {shown(its)}")
    for row in rows(arguments, allocators):
        its = allocators[row.allocator]
        programs = {"gateway": Program([arguments.gateway, "serve", "--connections", "1000000"], its)}
        programs |= {name: Program([path, "serve"], its) for name, path in beside.items() if path}
        print_row(row, programs, arguments)


if __name__ == "__main__":
    main()
