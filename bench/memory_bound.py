#!/usr/bin/env python3
"""A gateway whose address space is used up: what is answered, and whether all that was accepted is forwarded.

    bench/memory_bound.py [--gateway FILE] [--bounds MB,..] [--allocators NAME,..] [--preload FILE]
                          [--environment NAME=VALUE]* [--flush-each POSTS] [--posts N] [--points N] [--seconds N]

1,200 posts of 1,000 points, in rounds of 600 connections, under a bound of 400, of 260 and of 200 MB. With --flush-each a
flush is ordered behind so many posts, as a service does that flushes by time; else at the first refusal, and in each case
until nothing is left at the end. A run is broken off after so many seconds (120). Allocators are those of bench/gateway.py.
"""
import argparse
import collections
import contextlib
import json
import os
import subprocess
import time

from measuring.allocators import add_options, environment, names_there
from measuring.process import memory, numbers
from measuring.running import options
from testing.loopback import BackEnd, free_port, sent_points
from testing.service import wait_until
from testing.shipped import ask, listens, posting

ROUND = 600
# What a body has in the place of its times.
START, END = "1000003", "9000009"
FIRST_TIME, TIME = 1_000_000, 10


def template(points: int) -> str:
    """A body of a point for each of so many series, over one span."""
    one = {"asInt": "1", "startTimeUnixNano": START, "timeUnixNano": END}
    total = {"aggregationTemporality": 1, "isMonotonic": True, "dataPoints": [one]}
    metrics = [{"name": f"requests.{place}", "sum": total} for place in range(points)]
    return json.dumps({"resourceMetrics": [{"scopeMetrics": [{"metrics": metrics}]}]})


class Run:
    """A gateway under a bound, and what it answered."""

    def __init__(self, arguments: argparse.Namespace, megabytes: int, its_environment: dict[str, str]) -> None:
        self.arguments = arguments
        self.back_end, self.port = BackEnd(), free_port()
        self.gateway = subprocess.Popen(
            ["prlimit", f"--as={megabytes << 20}", arguments.gateway, "serve", "--backend", f"127.0.0.1:{self.back_end.port}",
             "--listen", f"127.0.0.1:{self.port}", "--connections", "1000000", "--receivers", "4", "--round", str(ROUND)],
            env=its_environment, stdout=subprocess.DEVNULL)
        self.accepted = self.most = 0
        self.answers: collections.Counter[str] = collections.Counter()
        self.end = "its end"

    def flush(self) -> bool:
        """Orders flushes until nothing is left; not behind one that is refused."""
        for _ in range(100):
            status, text = ask(self.port, "POST", "/flush")
            if status != 200 or "nothing" in text:
                self.answers[f"flush {status} {text}" if status != 200 else "flush"] += 1
                return status == 200
        return False

    def post_all(self) -> None:
        text, until = template(self.arguments.points), time.monotonic() + self.arguments.seconds
        for number in range(self.arguments.posts):
            if time.monotonic() > until:
                self.end = f"broken off at post {number:,}"
                return
            start = FIRST_TIME + TIME * self.accepted
            body = text.replace(START, str(start)).replace(END, str(start + TIME))
            status, answer = ask(self.port, "POST", "/v1/metrics", body, posting("A"))
            is_first = status != 200 and not any(key.startswith("post") for key in self.answers)
            self.answers[f"post {status} {answer}" if answer != "{}" else "200"] += 1
            self.accepted += status == 200
            every = self.arguments.flush_each
            if (every and number % every == every - 1) or (is_first and not every):
                self.flush()

    def go(self) -> None:
        try:
            wait_until(lambda: listens(self.port) or self.gateway.poll() is not None)
            self.post_all()
            self.most = memory(self.gateway.pid, "VmPeak")
            while not self.flush() and self.end == "its end":
                self.end = "its last flush is refused"
        except OSError as error:
            with contextlib.suppress(subprocess.TimeoutExpired):
                self.gateway.wait(2)
            self.end = f"the gateway is gone: {error}, status {self.gateway.poll()}"
        self.gateway.kill()
        self.gateway.wait()

    def say(self) -> str:
        points = self.arguments.points
        forwarded = sum(value for text in self.back_end.bodies for value, _, _ in sent_points(text))
        self.back_end.close()
        answers = ", ".join(f"{count} {answer}" for answer, count in self.answers.items())
        return (f"accepted {self.accepted * points:,}, forwarded {forwarded:,}, address space {self.most >> 20} MB;"
                f" answers {answers}; {self.end}")


def main() -> None:
    parser = options(__doc__.split("\n", maxsplit=1)[0])
    parser.add_argument("--bounds", type=numbers, default=[400, 260, 200])
    add_options(parser, ["libc", "tcmalloc"])
    parser.add_argument("--flush-each", type=int, default=0)
    parser.add_argument("--posts", type=int, default=1200)
    parser.add_argument("--points", type=int, default=1000)
    parser.add_argument("--seconds", type=float, default=120)
    arguments = parser.parse_args()
    os.makedirs(arguments.data, exist_ok=True)
    for name in names_there(arguments):
        its_environment = environment(name, arguments)
        for megabytes in arguments.bounds:
            run = Run(arguments, megabytes, its_environment)
            run.go()
            print(f"{name}, {megabytes} MB: {run.say()}", flush=True)


if __name__ == "__main__":
    main()
