#!/usr/bin/env python3
"""Prints how long a post waits over the end of a round: the workers end, the audit is made, the round is closed.

    bench/round_end.py [PROGRAM] [POINTS,POSTS ..]

PROGRAM is bin/gateway where none is named. Each POINTS,POSTS is a run of its own: a round of so many posts with
so many points each, of 9,997 series, posted by four processes. The last posts of the round and the first of the next
one come from one sender, one after another, so that one of them waits over the end. It prints what it measures on this machine and
checks nothing.
"""
import multiprocessing
import socket
import subprocess
import sys
import time

from measuring import ROOT
from measuring.process import memory, processor_seconds, program_at
from testing.loopback import free_port, posted, read_all
from testing.service import wait_until
from testing.shipped import listens

DEFAULT_RUNS = ["1,32000", "20,20000", "1000,400", "1000,1000"]
# With that of the last sender, no more than a gateway has.
SERIES = 9_996
PROCESSES = 4
# The last posts of a round, and the first of the next one, come one after another.
LAST = 40
FIRST = 10


class Sender:
    """Posts points of its own series, in order."""

    def __init__(self, port: int, number: int, series: int) -> None:
        self.port = port
        self.number = number
        self.times = [0] * series
        self.next = 0

    def body(self, points: int) -> bytes:
        metrics = []
        for _ in range(points):
            place = self.next % len(self.times)
            start = 10 + self.times[place]
            self.times[place] += 10
            self.next += 1
            point = f'{{"asInt":"1","startTimeUnixNano":"{start}","timeUnixNano":"{start + 10}"}}'
            whole = f'{{"aggregationTemporality":1,"isMonotonic":true,"dataPoints":[{point}]}}'
            metrics.append(f'{{"name":"m{self.number}.{place}","sum":{whole}}}')
        return f'{{"resourceMetrics":[{{"scopeMetrics":[{{"metrics":[{",".join(metrics)}]}}]}}]}}'.encode()

    def post(self, points: int) -> float:
        """How many seconds the answer took."""
        request = posted(self.body(points), f"s{self.number}")
        begun = time.monotonic()
        with socket.create_connection(("127.0.0.1", self.port)) as stream:
            stream.sendall(request)
            answer = read_all(stream)
        if not answer.startswith(b"HTTP/1.1 200"):
            sys.exit(f"a post was answered {answer[:200]!r}")
        return time.monotonic() - begun


def fill(port: int, number: int, posts: int, points: int) -> None:
    sender = Sender(port, number, SERIES // PROCESSES)
    for _ in range(posts):
        sender.post(points)


def run(program: str, points: int, posts: int) -> None:
    port = free_port()
    words = ["serve", "--backend", "127.0.0.1:9", "--connections", "1000000", "--receivers", "4"]
    words += ["--listen", f"127.0.0.1:{port}", "--round", str(posts)]
    gateway = subprocess.Popen([program, *words], stdout=subprocess.DEVNULL)
    try:
        wait_until(lambda: listens(port))
        each = (posts - LAST) // PROCESSES
        senders = [multiprocessing.Process(target=fill, args=(port, n, each, points)) for n in range(PROCESSES)]
        for sender in senders:
            sender.start()
        for sender in senders:
            sender.join()
        last = Sender(port, PROCESSES, 1)
        before = [last.post(1) for _ in range(posts - each * PROCESSES - 1)]
        kept = memory(gateway.pid) >> 20
        used = processor_seconds(gateway.pid)
        over = [last.post(1) for _ in range(FIRST)]
        time.sleep(1)
        used = processor_seconds(gateway.pid) - used
        print(
            f"{points} points a post, {each * PROCESSES * points} points in the round, {kept} MB: a post waits "
            f"{max(over) * 1000:.0f} ms over its end ({max(before) * 1000:.1f} ms before); {used:.2f} s of processor time",
            flush=True,
        )
    finally:
        gateway.kill()
        gateway.wait()


def main(words: list[str]) -> None:
    program = f"{ROOT}/bin/gateway"
    if words and "," not in words[0]:
        program, words = words[0], words[1:]
    for each in words or DEFAULT_RUNS:
        points, posts = map(int, each.split(","))
        run(program_at(program), points, posts)


if __name__ == "__main__":
    main(sys.argv[1:])
