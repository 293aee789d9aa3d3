#!/usr/bin/env python3
"""Runs three instances over a store, each on a machine of its own, while machines and the network between them fail.

    tests/several_machines.py TOTXEGUN [SECONDS [SEED,..]] [--sink otlp|postgres] [--long] [--other TOTXEGUN] [--keep FOLDER]

Machines are network namespaces: three instances, a primary and its synchronous standby, and haproxy, which distributes posts in turn.
Senders post requests of two resources, and so for two shards, through haproxy or for a while each to one instance, and retry each post
until it is answered. For SECONDS (90) faults happen to machines, drawn by SEED, each kind once before one comes again:

  - an instance is killed, with or without its folder; all are killed; one is stopped for a while; one ends and hands over its shards
  - an instance is a zombie: it is stopped while it delivers, until others have its shards, and then goes on with the sink's answers
  - packets from one machine to another are lost: between instance and servers, two instances, haproxy and instance, or instance and
    sink, also in one direction only
  - the primary is killed; it is lost, unplugged, or cut off while it lives, and the standby is promoted; its commits are cancelled while
    they wait for the standby, and then it is lost; the standby goes and comes back; the two are cut off from each other; both are away

The clocks of two instances are an hour ahead and an hour late. Instances have two versions: TOTXEGUN, and a copy that reports another
version, or the program after --other. For half of the time the sink is an OTLP sink, and then the database of the store, on other
machines. With --long faults last up to a minute, and the store is away for two; the sink is checked every four minutes.

At the end the sink must have, for each series and bucket, what the senders know to be accepted; no intervals may
overlap, and each key must
have had the same bytes each time. With --keep all logs stay in FOLDER, with the times of the faults. It needs root for the machines,
PostgreSQL, haproxy, ip and gcc; if one is missing, a line says so and the status is 77. Each other line is a check; the last line counts
passes and failures. The status is 1 if one failed.
"""
import argparse
import collections
import contextlib
import datetime
import itertools
import json
import os
import random
import shutil
import signal
import subprocess
import sys
import tempfile
import threading
import time
from collections.abc import Callable, Iterable, Iterator, Sequence
from typing import Any

from testing.checks import Checks
from clock_jumps import HOUR, Clock
from testing.database import initdb
from testing.machines import LED, OWN, Machine, Router, may_have_machines
from testing.servers import LIMIT, Pair
from testing.service import Answer, OtlpSink, Point, Service, Value, add_points, differences, overlaps, told_to_all, wait_until
from several_trouble import OfMachines, OfServers, Trouble, befall
from store import OfTwoShards, post_while


LISTEN, OPERATE, PEER = 4318, 4319, 4320
SHARDS, SENDERS = "12", 8
SINKS = ("otlp", "postgres")
# One for each sink. With these two, each kind of trouble comes once if each run has most of a minute.
SEEDS = "59,28"
# How many senders post through the balancer. The others stay with an instance without an answer for one of these times, in seconds.
BALANCED = 5
PATIENCE = [0, 1, 5, 15]
LONG_PHASE = 240
# In seconds; long enough for a busy machine.
IN_THE_END = 300
MOODS = ["well"] * 6 + ["late", "busy", "lose"]
VERSIONS = "select string_agg(distinct version, ' and ') from totxegun_store.instance"
# What an instance never writes.
NEVER = ("panicked", "no longer has data that it reported as durable", "another process sends heartbeats under this")
HAPROXY = """
global
    maxconn 1000
defaults
    mode http
    timeout connect 2s
    timeout client 60s
    timeout server 30s
    timeout queue 5s
    retries 3
    retry-on conn-failure
    option redispatch
frontend senders
    bind {address}:{listen}
    default_backend instances
backend instances
    balance roundrobin
    option httpchk GET /readyz
    default-server check port {operate} inter 500ms fall 2 rise 1
"""


class Instance(Service):
    """An instance on a machine of its own. Like its unit would, a thread restarts it after it has ended."""

    def __init__(self, machine: Machine, folder: str, store: Any, sink: Any, clock: Clock, programs: Sequence[str],
                 note: Callable[[str], object]) -> None:
        options = ["--store", store.address, "--instance", machine.name, "--peer", f"{machine.address}:{PEER}", "--peer-plain"]
        options += ["--flush-interval", "1s", "--max-ahead", "off"]
        super().__init__(programs[0], f"{folder}/{machine.name}", sink.address, *options, host=machine.address, ports=(LISTEN, OPERATE),
                         before=machine.on())
        self.machine, self.clock, self.programs = machine, clock, programs
        self.place = self.words.index(programs[0])
        self.is_wanted, self.starts, self.note = False, 0, note
        # One thread starts it after a fault, and another after it has ended by itself.
        self.starting = threading.Lock()

    def begin(self, chance: random.Random) -> None:
        """Starts it in either version."""
        self.words[self.place] = chance.choice(self.programs)
        self.is_wanted = True
        self.go_on()

    def go_on(self) -> None:
        with self.starting:
            if self.is_wanted and not self.is_running():
                ended = self.process and self.process.returncode
                self.starts += 1
                self.start(self.clock.environment())
                self.note(f"{self.machine.name} is started, process {self.process.pid}; the one before had status {ended}")

    def leave(self) -> None:
        """From now on nobody starts it until `begin`."""
        with self.starting:
            self.is_wanted = False

    def vanish(self, with_folder: bool) -> None:
        self.leave()
        self.kill()
        if with_folder:
            shutil.rmtree(self.data, ignore_errors=True)


class Balancer:
    """haproxy: asks each instance whether it accepts posts, and distributes posts in turn."""

    def __init__(self, machine: Machine, folder: str, instances: Sequence[Instance]) -> None:
        self.host, self.listen, self.machine = machine.address, LISTEN, machine
        text = HAPROXY.format(address=machine.address, listen=LISTEN, operate=OPERATE)
        text += "".join(f"    server {one.machine.name} {one.host}:{LISTEN}\n" for one in instances)
        with open(f"{folder}/haproxy.cfg", "w", encoding="ascii") as file:
            file.write(text)
        with open(f"{folder}/haproxy.log", "wb") as log:
            words = machine.on("haproxy", "-db", "-f", file.name)
            self.process = subprocess.Popen(words, stdin=subprocess.DEVNULL, stdout=log, stderr=log)


# Where a sender posts to.
Door = Balancer | Instance


class OverMachines(OfTwoShards):
    """Posts to one address. If its instance gives no answer for a while, it goes to another one."""

    def __init__(self, doors: Sequence[Door], number: int, seed: str) -> None:
        super().__init__(doors[0], number, seed)
        self.doors, self.refused = doors, 0
        self.choose()

    def choose(self) -> None:
        door, self.patience = self.chance.choice(self.doors), self.chance.choice(PATIENCE)
        self.service, self.host = door, door.host

    def try_once(self, body: bytes, headers: dict[str, str]) -> Answer:
        answer = super().try_once(body, headers)
        self.refused = self.refused + 1 if answer[0] in (None, 503) else 0
        # A retry comes each 0.2 s.
        if self.refused > 5 * self.patience:
            self.close()
            self.connection, self.refused = None, 0
            self.choose()
        return answer


def other_version(program: str, folder: str) -> str:
    """A copy of the program that reports another version. Instances know each other's version only from this report."""
    with open(program, "rb") as file:
        text = file.read()
    with open(os.path.join(os.path.dirname(os.path.dirname(os.path.abspath(__file__))), "VERSION"), "rb") as file:
        version = file.read().strip()
    copy = f"{folder}/totxegun"
    with open(copy, "wb") as file:
        file.write(text.replace(version, version[:-1] + bytes([version[-1] ^ 1])))
    os.chmod(copy, 0o755)
    return copy


class PostgresSink:
    """The database of the store, at the virtual address of the server that accepts writes."""

    SPANS = """select coalesce(json_agg(json_build_array(name, start_ns::text, end_ns::text, value::text, sum, buckets::bigint[])), '[]')
        from totxegun.intervals join totxegun.series on series.id = intervals.series"""

    def __init__(self, store: Pair) -> None:
        self.store = store
        self.moods: Sequence[str] = []
        self.address = f"postgres://postgres@{LED}/postgres"

    def points(self) -> list[Point]:
        return [(name, int(start), int(end), int(value) if buckets is None else (tuple(map(int, buckets)), total))
                for name, start, end, value, total, buckets in json.loads(self.store.ask(self.SPANS) or "[]")]

    def mood(self, moods: Sequence[str]) -> None:
        """Does nothing: it has no moods."""

    def wrong(self) -> list[str]:
        return []

    def close(self) -> None:
        pass


def kept_folder(keep: str | None, name: str) -> str | None:
    """A new folder in the one that is to be kept, or None."""
    if keep:
        os.makedirs(keep, exist_ok=True)
        return tempfile.mkdtemp(prefix=f"{name}-", dir=keep)
    return None


class World:
    """All machines, and the processes on them."""

    def __init__(self, stack: contextlib.ExitStack, what: str, arguments: argparse.Namespace, seed: str, store: Callable[..., Any],
                 machines: Iterable[str], sink: str = "otlp") -> None:
        self.what, self.program, self.has_others = what, arguments.totxegun, False
        self.folder = kept_folder(arguments.keep, sink) or stack.enter_context(tempfile.TemporaryDirectory(prefix="machines-"))
        self.router = Router(stack)
        self.store: Any = store(*map(self.router.machine, machines))
        stack.callback(self.store.close)
        self.sink: Any = OtlpSink(seed, OWN) if sink == "otlp" else PostgresSink(self.store)
        stack.callback(self.sink.close)
        programs = [self.program, arguments.other or other_version(self.program, self.folder)]
        self.instances = [self.instance(name, ahead, programs) for name, ahead in zip("abc", (0, HOUR, -HOUR))]
        self.balancer = Balancer(self.router.machine("balancer"), self.folder, self.instances)
        doors: list[Sequence[Door]] = [[self.balancer]] * BALANCED + [self.instances] * (SENDERS - BALANCED)
        self.senders = [OverMachines(these, number, seed) for number, these in enumerate(doors)]

    def instance(self, name: str, ahead: int, programs: Sequence[str]) -> Instance:
        os.mkdir(f"{self.folder}/clock-{name}")
        clock = Clock(f"{self.folder}/clock-{name}")
        clock.set(ahead)
        return Instance(self.router.machine(name), self.folder, self.store, self.sink, clock, programs, self.note)

    def note(self, text: str) -> None:
        """Notes an event and its time for whoever looks for a cause; the clocks of instances differ."""
        with open(f"{self.folder}/befell.log", "a", encoding="utf-8") as file:
            file.write(f"{datetime.datetime.now(datetime.timezone.utc):%H:%M:%S.%f} {text}\n")

    def keep_logs(self) -> None:
        """Keeps the logs of the servers with those of the instances."""
        for server in self.store.all:
            shutil.copyfile(f"{server.folder}/log", f"{self.folder}/server-{server.machine.name}.log")

    def ask(self, query: str) -> str | None:
        answer: str | None = self.store.ask(query)
        return answer

    def points(self) -> list[Point]:
        """The points in the sink that these senders have posted."""
        return [point for point in self.sink.points() if not self.has_others or point[0].startswith("sender-")]

    def missing(self) -> list[str]:
        """The series of which the sink does not have what senders know to be accepted."""
        found: dict[str, Value] = {}
        add_points(found, self.points())
        return differences(told_to_all(self.senders), found)

    def is_ready(self) -> bool:
        return all(one.is_ready() for one in self.instances)

    def last_lines(self) -> str:
        return "".join(f"\n{one.machine.name}: {one.last_lines(8)}" for one in self.instances)

    def wrote(self) -> list[str]:
        """The lines in logs that no instance may write."""
        found: list[str] = []
        for one in self.instances:
            with open(one.log, encoding="utf-8", errors="replace") as file:
                found += [line.strip() for line in file if any(words in line for words in NEVER)]
        return found[:5]


def wait_for(what: Callable[[], object], seconds: float = IN_THE_END) -> bool:
    """wait_until with a timeout for conditions that take long to check."""
    def is_so() -> object:
        found = what()
        if not found:
            time.sleep(0.5)
        return found

    return wait_until(is_so, seconds)


def compare(checks: Checks, world: World) -> None:
    world.sink.mood(["well"])
    checks.true(f"{world.what}: the sink has what senders were told", wait_for(lambda: not world.missing()),
                [world.missing(), world.last_lines()])
    senders = world.senders
    checks.same(f"{world.what}: no spans overlap", [], overlaps(world.points()))
    checks.same(f"{world.what}: a key brings the same bytes", [], world.sink.wrong())
    checks.same(f"{world.what}: no post was answered otherwise", [], [it for sender in senders for it in sender.surprises][:3])
    checks.same(f"{world.what}: the service found nothing wrong", [], [fault for one in world.instances for fault in one.faults()])
    checks.same(f"{world.what}: what no instance writes", [], world.wrote())


def phase(checks: Checks, world: World, troubles: Sequence[Trouble], seconds: float) -> None:
    faults: list[str] = []
    world.sink.mood(MOODS)
    answered = post_while(world.senders, lambda: faults.extend(befall(world, troubles, seconds)), IN_THE_END)
    checks.same(f"{world.what}: what befell them was done", [], faults)
    checks.same(f"{world.what}: posts are answered", [], [it for one in troubles for it in one.silences])
    checks.true(f"{world.what}: each post is answered", answered, world.last_lines())
    checks.true(f"{world.what}: all are ready", wait_for(world.is_ready), world.last_lines())
    compare(checks, world)


@contextlib.contextmanager
def serving(checks: Checks, world: World, seed: str) -> Iterator[bool]:
    """Runs the instances over a new store while the context lasts. Yields whether they serve."""
    words = [world.program, "store", "init", world.store.address, "--shards", SHARDS]
    made = subprocess.run(words, capture_output=True, text=True, check=False, timeout=LIMIT)
    checks.same(f"{world.what}: a store is made", (0, ""), (made.returncode, made.stderr))
    world.store.make_standby()
    for one in world.instances:
        one.begin(random.Random(seed))
    serves = wait_for(world.is_ready)
    checks.true(f"{world.what}: they serve", serves, world.last_lines())
    yield serves
    if serves:
        end(checks, world)


def end(checks: Checks, world: World) -> None:
    """All instances, which hand over all that they have."""
    terms, versions = world.ask("select sum(term) from totxegun_store.shard"), world.ask(VERSIONS)
    print(f"note: {sum(one.posts for one in world.senders)} posts, {sum(one.repeats for one in world.senders)} repeats, {terms} terms,"
          f" {sum(one.starts for one in world.instances)} starts, versions {versions}", flush=True)
    for one in world.instances:
        one.leave()
        status, seconds = one.end(IN_THE_END)
        checks.true(f"{world.what}: {one.machine.name} ends", status == 0, f"status {status} after {seconds:.0f} s: {one.last_lines()}")
    owners = world.ask("select string_agg(distinct owner, ',') from totxegun_store.shard")
    checks.same(f"{world.what}: all shards are handed over", "", owners)


def cut_twice(world: World) -> list[int]:
    """How many rules there are while a way is cut twice, once, and no longer: two faults may cut the same way."""
    way = world.instances[0].machine.address, OWN
    counts: list[int] = []

    def count() -> None:
        rules = subprocess.run(["ip", "rule"], capture_output=True, text=True, check=True, timeout=LIMIT).stdout
        counts.append(rules.count("blackhole"))

    with world.router.cut(way):
        with world.router.cut(way):
            count()
        count()
    count()
    return counts


def run_over(checks: Checks, arguments: argparse.Namespace, stack: contextlib.ExitStack, sink: str, seed: str, seconds: float) -> None:
    world = World(stack, f"several machines, {sink}", arguments, seed, Pair, "ps", sink)
    if arguments.keep:
        stack.callback(world.keep_logs)
    checks.same(f"{world.what}: a way that is cut twice at a time", [1, 1, 0], cut_twice(world))
    troubles = [of(world, seed, arguments.long) for of in (OfMachines, OfServers)]
    with serving(checks, world, seed) as serves:
        until = time.monotonic() + seconds
        while serves and (left := until - time.monotonic()) > 0 and not checks.failed:
            phase(checks, world, troubles, min(left, LONG_PHASE))
    counts = collections.Counter(kind for one in troubles for kind in one.done)
    print("note: " + ", ".join(f"{kind} {count}" for kind, count in sorted(counts.items())), flush=True)


def work(checks: Checks, arguments: argparse.Namespace, _: object) -> None:
    seeds = itertools.cycle(arguments.seed.split(","))
    for sink, seed in zip(arguments.sink, seeds):
        with contextlib.ExitStack() as of_it:
            run_over(checks, arguments, of_it, sink, seed, arguments.seconds / len(arguments.sink))


def missing(*more: str) -> list[str]:
    """The needed programs that are missing."""
    programs = ("haproxy", "gcc", "setpriv", *more)
    return [*([] if initdb() else ["postgresql"]), *(program for program in programs if not shutil.which(program)),
            *([] if may_have_machines() else ["network namespaces"])]


def options(about: str, seconds: float = 90) -> argparse.Namespace:
    parser = argparse.ArgumentParser(description=about.split("\n", maxsplit=1)[0])
    parser.add_argument("totxegun", type=lambda word: os.path.abspath(word))
    parser.add_argument("seconds", type=float, nargs="?", default=seconds)
    parser.add_argument("seed", nargs="?", default=SEEDS)
    parser.add_argument("--sink", choices=SINKS, action="append")
    parser.add_argument("--long", action="store_true")
    parser.add_argument("--other", type=lambda word: os.path.abspath(word))
    parser.add_argument("--keep", type=lambda word: os.path.abspath(word))
    arguments = parser.parse_args()
    arguments.sink = arguments.sink or SINKS
    return arguments


def run(what: str, work: Callable[[Checks, argparse.Namespace, contextlib.ExitStack], object], arguments: argparse.Namespace,
        *lacking: str) -> int:
    """Does the work, and ends all that it started, even if it is stopped."""
    checks = Checks()
    if checks.has(what, *lacking):
        signal.signal(signal.SIGTERM, lambda *_: sys.exit(1))
        with contextlib.ExitStack() as stack:
            work(checks, arguments, stack)
    return checks.end()


if __name__ == "__main__":
    sys.exit(run("several machines", work, options(__doc__), *missing()))
