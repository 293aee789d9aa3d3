#!/usr/bin/env python3
"""Tests that commands at any of two instances that share a store reach the shards of both, or say where to ask.

    tests/orders_anywhere.py TOTXEGUN

Two instances share the eight shards of a store, and deliver to another database of the same server. At either of them the test flushes,
quarantines, releases, asks for status and closes a period: each command must cover all shards. A series is forgotten by the instance that
has its shard; the other one sends the command on, also over TCP with a token. A sender is renamed in the shards of both. One instance is
stopped while the other is asked, and killed: the new name has what was taken over. Without PostgreSQL the test is left out.

Each line is a check; the last line counts passes and failures. The status is 0 if none failed.
"""
import datetime
import hashlib
import json
import os
import re
import signal
import subprocess
import sys
import tempfile
import time
from collections.abc import Callable
from typing import Any

ROOT = os.path.dirname(os.path.dirname(os.path.abspath(__file__)))
sys.path.insert(1, f"{ROOT}/demo")

from testing.checks import Checks  # noqa: E402
from testing.loopback import free_port  # noqa: E402
from testing.database import initdb  # noqa: E402
from testing.servers import Server  # noqa: E402
from testing.service import DELTA, JSON, Service, ask, wait_until  # noqa: E402
from testing.shards import IN_THE_END, come_to_rest, owners  # noqa: E402

SHARDS, PROCESSES = 8, 24
TOKEN = "a-token-of-an-operator"
# Commands that need a token, because an instance may send them on to another over TCP.
BY_TOKEN = ("forget",)
METRICS = ("shards_owned", "shard_term", "shards_without_owner", "longest_without_owner_seconds", "instances", "heartbeat_age_seconds",
           "store_copies", "store_copies_asked", "store_unknown_outcome_seconds", "forwarded_posts_total", "store_writes_total",
           "takeovers_total", "hand_overs_total", "shards_lost_total")


class Both:
    """Instances a and b, and the server of their store."""

    def __init__(self, program: str, folder: str) -> None:
        self.program, self.server = program, Server()
        self.server.make()
        self.server.start()
        self.server.ask("create database metrics")
        at = f"postgres://postgres@127.0.0.1:{self.server.port}"
        self.sink = f"{at}/metrics"
        self.store = f"{at}/postgres"
        self.token, self.tokens = f"{folder}/token", f"{folder}/tokens"
        with open(self.token, "w", encoding="utf-8") as file:
            file.write(TOKEN)
        with open(self.tokens, "w", encoding="utf-8") as file:
            file.write(f"ann sha256:{hashlib.sha256(TOKEN.encode()).hexdigest()}\n")
        self.made = self.run("store", "init", self.store, "--shards", str(SHARDS))
        self.all = [self.instance(folder, name) for name in "ab"]

    def instance(self, folder: str, name: str) -> Service:
        peer = f"127.0.0.1:{free_port()}"
        return Service(self.program, f"{folder}/{name}", self.sink, "--store", self.store, "--store-copies", "1", "--instance",
                       name, "--peer", peer, "--flush-interval", "1h", "--admin-tokens", self.tokens)

    def run(self, *words: str, at: Service | None = None) -> tuple[int, str]:
        """The status and the output of a command, run at an instance if one is given."""
        place = [] if at is None else ["--data", at.data, *(["--token", self.token] if words[0] in BY_TOKEN else [])]
        done = subprocess.run([self.program, *words, *place], capture_output=True, text=True, check=False, timeout=180)
        return done.returncode, done.stdout + done.stderr

    def status(self, at: Service) -> Any:
        code, text = self.run("status", "--json", at=at)
        return json.loads(text) if code == 0 else {"shards": [], "cluster": {"instances": []}}

    def at_rest(self) -> bool:
        """Waits until each shard is at its home. Returns whether that happened."""
        return come_to_rest(self.server, SHARDS, "ab")

    def in_the_end(self, *words: str, at: Service, is_said: Callable[[int, str], object] = lambda code, text: code == 0) -> tuple[int, str]:
        """Repeats a command until `is_said` accepts the result, since a shard may just be moving. Returns the last result."""
        said: list[tuple[int, str]] = []

        def is_done() -> object:
            said.append(self.run(*words, at=at))
            return is_said(*said[-1])

        wait_until(is_done, IN_THE_END)
        return said[-1]

    def post(self, at: Service, second: int, sender: str = "A") -> list[int | None]:
        """Posts a point for each process to one instance, and returns the statuses. Retries a post while its shard has no owner."""
        return [self.post_one(at, self.body(second, number), sender) for number in range(PROCESSES)]

    @staticmethod
    def body(second: int, number: int) -> bytes:
        end = (int(time.time()) - 40 * 86_400 + second) * 10**9
        point = {"startTimeUnixNano": str(end - 10**9), "timeUnixNano": str(end), "asInt": "1"}
        metric = {"name": "m", "sum": {"aggregationTemporality": DELTA, "isMonotonic": True, "dataPoints": [point]}}
        resource = {"attributes": [{"key": "service.instance.id", "value": {"stringValue": f"p{number}"}}]}
        return json.dumps({"resourceMetrics": [{"resource": resource, "scopeMetrics": [{"metrics": [metric]}]}]}).encode()

    @staticmethod
    def post_one(at: Service, body: bytes, sender: str) -> int | None:
        said: list[int | None] = [503]

        def is_answered() -> bool:
            said.append(ask(at.listen, "POST", "/v1/metrics", body, {"Content-Type": JSON, "x-sender": sender})[0])
            return said[-1] != 503

        wait_until(is_answered, IN_THE_END)
        return said[-1]

    def total(self) -> str:
        """What the sink has."""
        return self.of_sink("select coalesce(sum(total), 0) from totxegun.totals")

    def of_sink(self, query: str) -> str:
        words = ("-h", "127.0.0.1", "-p", str(self.server.port), "-U", "postgres", "-d", "metrics", "-XAtqc")
        return self.server.run("psql", *words, query)

    def close(self) -> None:
        for one in self.all:
            one.kill()
        self.server.close()


def flushes(checks: Checks, both: Both, first: Service, second: Service) -> None:
    checks.same("posts to one are taken, wherever their shards are", [200] * PROCESSES, both.post(first, 0))
    code, text = both.in_the_end("flush", at=second)
    checks.true("a flush at the other is of all shards", code == 0 and "requests went into the outbox" in text, text)
    checks.true("the sink has all", wait_until(lambda: both.total() == str(PROCESSES)), both.total())


def quarantines(checks: Checks, both: Both, first: Service, second: Service) -> None:
    def named() -> list[Any]:
        return [shard.get("quarantined") for shard in both.status(second)["shards"]]

    checks.same("a sender is quarantined at one", 0, both.in_the_end("quarantine", "A", at=first)[0])
    checks.same("and refused in all shards", [403] * PROCESSES, both.post(second, 10))
    checks.true("the status of the other has it in each", wait_until(lambda: named() == [["A"]] * SHARDS), named())
    checks.same("it is lifted at the other", 0, both.in_the_end("release", "A", at=second)[0])
    checks.same("and taken in all", [200] * PROCESSES, both.post(first, 10))
    for one, who in ((first, "(at "), (second, "(at ")):
        with open(f"{one.data}/acts.jsonl", encoding="utf-8") as file:
            acts = [json.loads(line) for line in file]
        there = [act for act in acts if who in act["who"] and "outcome" in act]
        checks.true(f"{one.data[-1]} has written down what the other was asked", there, acts)


def shows(checks: Checks, both: Both, first: Service, second: Service) -> None:
    def seen() -> tuple[set[str], int, int]:
        cluster = both.status(second)["cluster"]
        instances = cluster["instances"]
        return ({one["name"] for one in instances}, sum(one["shards"] for one in instances),
                cluster["database"]["copies"])

    checks.true("the status has both instances, whose shards are all, and the database",
                wait_until(lambda: seen() == ({"a", "b"}, SHARDS, 1)), seen())
    code, text = both.run("status", at=first)
    checks.true("it is printed", code == 0 and "last beat" in text and "Database of the store" in text, text)
    _, page = ask(first.operate, "GET", "/")
    checks.true("the page has it", b"<h2>Instances</h2>" in page and b"<h2>Shards</h2>" in page, page[-2000:])

    def reported() -> int:
        reports = [one.asked("GET", "/report")[1].decode().splitlines() for one in both.all]
        return sum(line.startswith("series") for report in reports for line in report)

    checks.true("the reports of both are of all shards", wait_until(lambda: reported() == PROCESSES), reported())
    _, metrics = ask(first.operate, "GET", "/metrics")
    missing = [name for name in METRICS if f"\ntotxegun_{name}" not in metrics.decode()]
    checks.same("the metrics of the cluster are there", [], missing)


def closes(checks: Checks, both: Both, first: Service, second: Service) -> None:
    month = (datetime.datetime.now(datetime.timezone.utc).replace(day=1) - datetime.timedelta(days=1)).strftime("%Y-%m")
    code, text = both.in_the_end("close", month, at=second, is_said=lambda code, text: "not flushed" in text)
    checks.true("what is not flushed at the other keeps a month open", code != 0 and "not flushed" in text, text)
    code, text = both.in_the_end("close", month, "--flush", at=second)
    checks.true("it is closed with a flush of both", code == 0, text)
    checks.same("and opened at the other", 0, both.in_the_end("reopen", month, at=first)[0])
    checks.same("the sink has all", str(2 * PROCESSES), both.total())


def forgets(checks: Checks, both: Both, first: Service, second: Service) -> None:
    code, text = both.run("forget", "m", at=first)
    checks.true("several are not meant", code != 0 and f"{PROCESSES} series are named so" in text, text)
    for process in range(4):
        code, text = both.run("forget", f"m{{service.instance.id=p{process}}}", at=(first, second)[process % 2])
        checks.true("one is forgotten where it is", code == 0 and "1 series is forgotten" in text, text)
    code, text = both.run("forget", "m", "--all", at=second)
    forgotten = sum(int(count) for count in re.findall(r"(\d+) series (?:is|are) forgotten", text))
    checks.true("all others are, by the one and the other", code == 0 and forgotten == PROCESSES - 4, text)
    checks.same("another sender has them", [200] * PROCESSES, both.post(first, 20, "B"))


def stops(checks: Checks, both: Both, first: Service, second: Service) -> None:
    second.signal(signal.SIGSTOP)
    code, text = both.in_the_end("flush", at=first)
    checks.true("a flush while one stands still is of all shards once they have moved", code == 0, text)
    second.signal(signal.SIGCONT)
    checks.true("both have shards again", both.at_rest(), both.run("status", at=first)[1])
    code, text = both.in_the_end("senders", "rename", "B", "C", at=first, is_said=lambda code, text: "C's now" in text)
    checks.true("a sender is renamed in the shards of both", code == 0 and " of B are C's now" in text, text)
    second.kill()
    text = both.run("status", at=first)[1]
    are_moved = set(owners(both.server).values()) == {"a"}
    checks.true("who does not answer is named, until all shards have moved", "nothing is known of it" in text or are_moved, text)
    code, text = both.run("close", "2020-01", at=first)
    checks.true("so nothing is closed, or all is known again", code != 0 or "done" in text, text)
    code, text = both.in_the_end("flush", at=first)
    checks.true("a flush waits for its shards", code == 0, text)
    checks.same("the old name has none of the shards that were taken over", [400] * PROCESSES, both.post(first, 30, "B"))
    checks.same("the new name has all", [200] * PROCESSES, both.post(first, 30, "C"))
    checks.same("they are flushed", 0, both.in_the_end("flush", at=first)[0])
    checks.true("the sink has all", wait_until(lambda: both.total() == str(4 * PROCESSES)), both.total())
    of_sender = "select sender, count(*) from totxegun.series group by 1"
    checks.same("and the new name", f"C|{PROCESSES}", both.of_sink(of_sender))


def main(words: list[str]) -> int:
    if len(words) != 1:
        sys.exit(__doc__.split("\n\n")[1].strip())
    checks = Checks()
    if not checks.has("commands at any instance", *[] if initdb() else ["postgresql"]):
        return checks.end()
    with tempfile.TemporaryDirectory() as folder:
        both = Both(os.path.abspath(words[0]), folder)
        try:
            checks.same("a store is made", 0, both.made[0])
            for one in both.all:
                one.start()
            checks.true("they are ready", all(one.wait_ready() for one in both.all), [one.last_lines() for one in both.all])
            checks.true("they share the shards", both.at_rest(), both.run("status", at=both.all[0])[1])
            for tried in (flushes, quarantines, shows, closes, forgets, stops):
                tried(checks, both, *both.all)
            checks.same("no faults", [], both.all[0].faults())
        finally:
            both.close()
    return checks.end()


if __name__ == "__main__":
    sys.exit(main(sys.argv[1:]))
