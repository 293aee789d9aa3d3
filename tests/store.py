#!/usr/bin/env python3
"""Tests the program over a store in PostgreSQL with a synchronous standby.

    tests/store.py PROGRAM [SECONDS [SEED]]

For SECONDS (30) senders post requests of two resources, and so for two shards, to an instance, while the instance is killed, stopped and
ended, and the servers of the store are killed, promoted and held. For the second half there are two instances, which take shards from each
other. Then the sink must have what senders know to be accepted. Rows of shards that the store has lost are reported. Without PostgreSQL
the test is left out.

Each line is a check; the last line counts passes and failures. The status is 0 if none failed.
"""
import json
import os
import random
import signal
import subprocess
import sys
import tempfile
import threading
import time
from collections.abc import Callable, Sequence
from typing import Protocol

ROOT = os.path.dirname(os.path.dirname(os.path.abspath(__file__)))
sys.path.insert(1, f"{ROOT}/demo")

from testing.checks import Checks  # noqa: E402
from testing.loopback import free_port  # noqa: E402
from testing.database import initdb  # noqa: E402
from testing.servers import Pair  # noqa: E402
from testing.service import (JSON, PROTOBUF, Answer, OtlpSink, Point, Post, Sender, Service, Told, Value, add_points,  # noqa: E402
                     by_resource, differences, overlaps, told_to_all, wait_until)

SENDERS = 6


class OfTwoShards(Sender):
    """A sender whose sums have one resource and whose histograms another."""

    def encoded(self, points: Sequence[Point]) -> Post:
        kind = self.chance.choice([JSON, PROTOBUF])
        groups: dict[str, list[Point]] = {}
        for point in points:
            groups.setdefault(point[0].rpartition(".")[0], []).append(point)
        return by_resource(kind, groups), {"Content-Type": kind, "x-sender": self.name}


class AtAny(OfTwoShards):
    """Posts to one instance, and to another one if there is no answer."""

    def __init__(self, instances: Sequence[Service], number: int) -> None:
        super().__init__(instances[0], number)
        self.instances = instances

    def try_once(self, body: bytes, headers: dict[str, str]) -> Answer:
        answer = super().try_once(body, headers)
        if answer[0] in (None, 503):
            self.close()
            self.connection = None
            self.service = self.chance.choice(self.instances)
        return answer


def try_starts(checks: Checks, program: str, store: Pair, folder: str) -> None:
    """Starts that are refused, each with its reason."""
    def run(*words: str) -> tuple[int, str]:
        done = subprocess.run([program, *words], capture_output=True, text=True, check=False, timeout=60)
        return done.returncode, done.stdout + done.stderr

    peer, listen, operate = (f"127.0.0.1:{free_port()}" for _ in range(3))
    words = ["serve", "--data", f"{folder}/x", "--store", store.address, "--instance", "x", "--peer", peer, "--listen", listen,
             "--admin", operate, "--listen-grpc", "off"]
    sink = ["--sink", "http://127.0.0.1:1/"]
    for what, line, part in (("a store that was not made", [*words, *sink], "store init"),
                             ("a SQLite file", [*words, "--sink", f"sqlite:{folder}/s"], "SQLite file"),
                             ("no sink", words, "--sink"),
                             ("no shards", ["store", "init", store.address, "--shards", "0"], "--shards")):
        status, text = run(*line)
        checks.true(f"{what} is refused by name", status in (1, 2) and part in text, text)
    status, text = run("store", "init", store.address)
    checks.true("a store is made, of 12 shards", status == 0 and text.startswith("a store of 12 shards in "), text)
    status, text = run("store", "init", store.address)
    checks.true("it is made once", status == 1 and "has a store already" in text, text)
    status, text = run(*words, *sink)
    checks.true("a store that can lose what it said is refused", status == 1 and "--store-copies 1" in text, text)


class Addressed(Protocol):
    address: str


def instance(program: str, folder: str, name: str, store: Pair, sink: Addressed, *more: str) -> Service:
    peer = f"127.0.0.1:{free_port()}"
    return Service(program, f"{folder}/{name}", sink.address, "--store", store.address, "--instance", name, "--peer", peer,
                   "--flush-interval", "1s", *more)


def trouble(chance: random.Random, store: Pair, instances: Sequence[Service]) -> str:
    """Makes something happen to an instance or a server."""
    one = chance.choice(instances)
    kind = chance.choice(["kill", "kill", "stop", "end", "restart", "hold", "go over"])
    if kind == "kill":
        one.kill()
        one.start()
    elif kind == "end":
        one.end()
        one.start()
    elif kind == "stop":
        one.signal(signal.SIGSTOP)
        time.sleep(chance.choice([1, 6]))
        one.signal(signal.SIGCONT)
    elif kind == "restart":
        store.restart()
    elif kind == "hold":
        store.hold(3)
    else:
        store.go_over()
    return kind


class GivesUp(Exception):
    """A post was not answered for so long that the program has failed."""


def post_while(senders: Sequence[Sender], work: Callable[[], object], seconds: float = 60) -> bool:
    """Senders post while `work` runs. Returns whether each post was answered, at the latest this many seconds later."""
    stop, late = threading.Event(), threading.Event()
    answered: list[Sender] = []

    def between() -> None:
        if late.is_set():
            raise GivesUp()

    def posts(sender: Sender) -> None:
        try:
            while not stop.is_set():
                sender.post(sender.next_points(), between)
            answered.append(sender)
        except GivesUp:
            pass

    threads = [threading.Thread(target=posts, args=(sender,)) for sender in senders]
    for thread in threads:
        thread.start()
    try:
        work()
        stop.set()
        ends = time.monotonic() + seconds
        for thread in threads:
            thread.join(max(0, ends - time.monotonic()))
    finally:
        stop.set()
        late.set()
        for thread in threads:
            thread.join()
    return len(answered) == len(senders)


def troubles(seconds: float, chance: random.Random, store: Pair, instances: Sequence[Service], done: list[str]) -> None:
    """Makes trouble for this many seconds."""
    until = time.monotonic() + seconds
    while time.monotonic() < until:
        time.sleep(2)
        done.append(trouble(chance, store, instances))


def compare(checks: Checks, instances: Sequence[Service], senders: Sequence[Sender], sink: Told) -> None:
    def missing() -> list[str]:
        found: dict[str, Value] = {}
        add_points(found, sink.points())
        return differences(told_to_all(senders), found)

    # Each instance flushes its own shards once a second.
    wait_until(lambda: not missing())
    checks.true("the sink has what senders were told", not missing(), [missing(), *[one.last_lines() for one in instances]])
    points = sink.points()
    checks.same("nothing counts twice", [], overlaps(points))
    checks.same("no post was answered otherwise", [], [sender.surprises[:2] for sender in senders if sender.surprises])
    checks.same("no faults", [], [fault for one in instances for fault in one.faults()])
    checks.same("a key brings the same bytes", [], sink.wrong())


def load(checks: Checks, program: str, store: Pair, folder: str, seconds: float, seed: float, sink: OtlpSink) -> None:
    chance = random.Random(seed)
    first, second = (instance(program, folder, name, store, sink) for name in "ab")
    first.start()
    senders = [AtAny([first], number) for number in range(SENDERS)]
    done: list[str] = []

    def meanwhile(instances: Sequence[Service]) -> Callable[[], None]:
        return lambda: troubles(seconds / 2, chance, store, instances, done)

    try:
        checks.true("an instance serves", first.wait_ready(), first.last_lines())
        if not first.is_running():
            return
        checks.true("each post is answered", post_while(senders, meanwhile([first])), first.last_lines(30))
        compare(checks, [first], senders, sink)
        second.start()
        for sender in senders:
            sender.instances = [first, second]
        checks.true("each post is answered by two", post_while(senders, meanwhile([first, second])),
                    [first.last_lines(30), second.last_lines(30)])
        compare(checks, [first, second], senders, sink)
        posts, repeats = sum(one.posts for one in senders), sum(one.repeats for one in senders)
        print(f"{posts} posts, {repeats} repeats, {terms(store)} terms; {', '.join(done)}", flush=True)
        for one in (first, second):
            status = one.end()[0]
            checks.true("it ends", status == 0, f"status {status}: {one.last_lines(30)}")
        owners = store.primary.ask("select string_agg(distinct owner, ',') from totxegun_store.shard")
        checks.same("all shards are handed over", "", owners)
    finally:
        for one in (first, second):
            one.kill()


def terms(store: Pair) -> int:
    """How often shards were taken."""
    return int(store.ask("select sum(term) from totxegun_store.shard") or 0)


def waiting(service: Service) -> int:
    """How many requests wait for the sink."""
    return sum(shard["waiting"] for shard in service.status()["shards"])


def try_lost_rows(checks: Checks, program: str, store: Pair, folder: str, sink: OtlpSink) -> None:
    """A shard of which the store has lost rows must not be served. The reason is shown, and nobody tries to take the shard all the time."""
    one = instance(program, folder, "c", store, sink)
    sink.mood(["busy"])
    one.start()
    try:
        checks.true("an instance serves whose sink is busy", one.wait_ready(), one.last_lines())
        if not one.is_running():
            return
        sender = OfTwoShards(one, SENDERS)
        sender.post(sender.next_points())
        checks.true("its requests wait", wait_until(lambda: waiting(one) > 0), one.last_lines())
        one.kill()
        outboxes = "select shard, file from totxegun_store.file where name like 'outbox/%'"
        lost = store.ask(f"with gone as (delete from totxegun_store.piece where (shard, file) in ({outboxes}) returning shard) "
                         "select count(distinct shard) from gone")
        one.start()

        def says() -> bool:
            status = one.status()
            return status is not None and "instance c can't open it: outbox/" in json.dumps(status)

        checks.true("status says which files have lost something", wait_until(says), one.last_lines())
        time.sleep(2)
        before = terms(store)
        time.sleep(9)
        # The next attempt comes after ten seconds, and each further one later.
        taken = terms(store) - before
        checks.true("it is not taken all the time", taken <= int(lost or 0), f"{taken} times, of {lost} shards")
    finally:
        one.kill()


def try_repeat_without_its_standby(checks: Checks, program: str, store: Pair, folder: str) -> None:
    """A request with an unknown outcome, which a restart of the sink's server shows, must count as delivered only after
    the standby has it too."""
    sink = f"postgres://postgres@{store.primary.host}:{store.primary.port}/postgres"
    service = Service(program, f"{folder}/sink", sink, "--flush-interval", "1s")
    service.start()
    try:
        checks.true("a service with a PostgreSQL sink is ready", service.wait_ready(), service.last_lines())
        sender = Sender(service, SENDERS)
        sender.post(sender.next_points())
        checks.true("its requests are delivered", service.has_delivered_all(), service.last_lines())
        store.standby.kill()
        sender.post(sender.next_points())
        waits = "select count(*) > 0 from pg_stat_activity where wait_event = 'SyncRep' and query = 'COMMIT'"
        checks.true("the next one waits for the standby", wait_until(lambda: store.ask(waits) == "t"), service.last_lines())
        store.restart()
        checks.same("it can be read then", "t", store.ask("select count(*) > 2 from totxegun.requests"))
        checks.true("what one server alone has is not taken", not wait_until(lambda: waiting(service) < 2, 8), service.last_lines())
        store.standby.start()
        checks.true("it is taken once both have it", service.has_delivered_all(), service.last_lines())
    finally:
        service.end()


def main(words: list[str]) -> int:
    if not 1 <= len(words) <= 3:
        sys.exit(__doc__.split("\n\n")[1].strip())
    program = os.path.abspath(words[0])
    seconds, seed = (float(word) for word in (words[1:] + ["30", "1"][len(words) - 1:]))
    checks = Checks()
    if not checks.has("a store", *[] if initdb() else ["postgresql"]):
        return checks.end()
    store, sink = Pair(), OtlpSink(seed)
    with tempfile.TemporaryDirectory() as folder:
        try:
            try_starts(checks, program, store, folder)
            store.make_standby()
            load(checks, program, store, folder, seconds, seed, sink)
            try_lost_rows(checks, program, store, folder, sink)
            try_repeat_without_its_standby(checks, program, store, folder)
        finally:
            store.close()
            sink.close()
    return checks.end()


if __name__ == "__main__":
    sys.exit(main(sys.argv[1:]))
