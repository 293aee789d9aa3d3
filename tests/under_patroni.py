#!/usr/bin/env python3
"""Runs the set-up of docs/SEVERAL_MACHINES.md, whose leader's machine is cut off for a minute, comes back, and is lost in the end.

    tests/under_patroni.py TOTXEGUN [CUTS [SECONDS]] [--keep FOLDER]

Machines are network namespaces, as in tests/several_machines.py. Each of three runs what the page says; the test reads the settings and
commands from the page: etcd, PostgreSQL under Patroni, haproxy and an instance. On a fourth machine haproxy balances posts. Three
programs on OpenTelemetry's SDK for Go post through it, one by gRPC, if the SDK is installed, and senders that repeat each post until it
is answered. Then, CUTS times (3), the leader's machine is cut off from all others for SECONDS (60), and comes back. After that it is cut
off from the other two alone, so the balancer still reaches its instance; its PostgreSQL is killed; a standby is cut off; an instance is
not reached by the other instances; the leader's machine is lost with its disk, and replaced as the page says. A leader must not lead
again because it comes back, and each time all three must stream again.

At the end the sink must have, by series and bucket, what senders were told and what the programs counted. A note says after how many
seconds posts were taken again. It needs what tests/several_machines.py needs, patroni, etcd-server, etcd-client, nftables, openssl and
curl; if one is missing, a line says so and the status is 77. Each other line is a check; the last line counts passes and failures. The
status is 1 if one failed.
"""
import argparse
import contextlib
import json
import os
import random
import re
import shlex
import signal
import subprocess
import sys
import tempfile
import threading
import time
from collections.abc import Callable, Iterator
from typing import Any

import sdk_go
from testing import ROOT
from testing.checks import Checks
from clock_jumps import Clock
from testing.machines import Machine, Router, both_ways
from testing.page_machines import ETCD, NAMES, PASSWORD, PATRONI, POSTGRES, Node, PageMachines, block, log_to, of_machine
from testing.servers import LIMIT, send
from testing.service import ask
from several_machines import (IN_THE_END, LISTEN, PEER, SENDERS, Balancer, Instance, OverMachines, PostgresSink, World, end, kept_folder,
                              missing, other_version, phase, run, wait_for)
from several_trouble import Trouble

WHAT = "by the page's letter"
LISTEN_GRPC = 4317
SDK_SECONDS = 90
BETWEEN = 5


class Addressed:
    """What an instance is told of the store and of its sink is the page's."""

    address = ""


class PageInstance(Instance):
    """What the page has people start on a machine."""

    def __init__(self, node: Node, folder: str, programs: list[str], note: Callable[[str], object]) -> None:
        os.makedirs(f"{folder}/instances/clock-{node.name}")
        clock = Clock(f"{folder}/instances/clock-{node.name}")
        super().__init__(node.machine, f"{folder}/instances", Addressed, Addressed, clock, programs, note)
        self.settings = {"PGPASSWORD": PASSWORD, "TOTXEGUN_KEEP_INTERVALS": "forever"}
        words = shlex.split(of_machine(block("totxegun serve --store"), node.name, node.machines))
        words[0], words[words.index("--data") + 1] = programs[0], self.data
        words = [f"{folder}/tls/{word}" if re.fullmatch(r"[\w.]+\.(pem|crt|key)", word) else word for word in words]
        # Points of these senders end in 1970.
        self.words = [*node.machine.on(), *words, "--flush-interval", "1s", "--max-ahead", "off"]
        self.place = self.words.index(programs[0])


class PageBalancer(Balancer):
    """The page's, with the defaults that it names."""

    def __init__(self, machine: Machine, folder: str) -> None:
        self.host, self.listen, self.machine = machine.address, LISTEN, machine
        with open(f"{ROOT}/operate/haproxy.cfg", encoding="utf-8") as file:
            defaults = re.search(r"^defaults\n.*?(?=^frontend)", file.read(), re.MULTILINE | re.DOTALL)
        with open(f"{folder}/balancer.cfg", "w", encoding="utf-8") as file:
            file.write(defaults[0] + block("frontend senders"))
        self.process = log_to(f"{folder}/balancer.log", machine.on("haproxy", "-db", "-f", file.name))


class Metrics:
    """The database of the sink."""

    def __init__(self, machines: PageMachines) -> None:
        self.machines = machines

    def ask(self, query: str) -> str | None:
        return self.machines.ask(query, "metrics")

    def rows(self, instance: str) -> Any:
        return json.loads(self.ask(sdk_go.TOTALS.format(instance)) or "[]")


class PageWorld(World):
    """The page's machines, and what runs there."""

    def __init__(self, stack: contextlib.ExitStack, arguments: argparse.Namespace) -> None:
        self.what, self.program, self.has_others = WHAT, os.path.abspath(arguments.totxegun), False
        self.folder = kept_folder(arguments.keep, "page") or stack.enter_context(tempfile.TemporaryDirectory(prefix="page-"))
        os.chmod(self.folder, 0o755)
        self.router = Router(stack)
        machines = [self.router.machine(name) for name in (*NAMES, "balancer")]
        self.store: PageMachines = PageMachines(*machines, folder=self.folder)
        stack.callback(self.store.close)
        self.metrics: Any = Metrics(self.store)
        self.sink: Any = PostgresSink(self.metrics)
        self.make_certificates()
        programs = [self.program, other_version(self.program, self.folder)]
        self.instances = [PageInstance(node, self.folder, programs, self.note) for node in self.store.nodes]
        self.balancer = PageBalancer(machines[-1], self.folder)
        self.senders = [OverMachines([self.balancer], number, "page") for number in range(SENDERS)]

    def make_certificates(self) -> None:
        os.mkdir(f"{self.folder}/tls")
        subprocess.run(["sh", "-ec", block('new="-x509')], cwd=f"{self.folder}/tls", capture_output=True, check=True, timeout=LIMIT)

    def make_store(self) -> tuple[int, str]:
        os.mkdir(f"{self.folder}/bin")
        os.symlink(self.program, f"{self.folder}/bin/totxegun")
        text = of_machine(block("CREATE ROLE totxegun LOGIN"), "a", self.store.machines)
        environment = {**os.environ, "PATH": f"{self.folder}/bin:{os.environ['PATH']}", "PGPASSWORD": PASSWORD}
        made = subprocess.run(self.store.machines[0].on("sh", "-ec", text), capture_output=True, text=True, check=False, timeout=LIMIT,
                              env=environment)
        return made.returncode, made.stderr

    def answered(self) -> list[int]:
        return [one.posts for one in self.senders]


class Watch:
    """When each sender has an answer to a post that it began after this."""

    def __init__(self, world: PageWorld) -> None:
        self.world, self.begun, self.before = world, time.monotonic(), world.answered()
        self.first = self.last = 0.0
        self.thread = threading.Thread(target=self.look, daemon=True)
        self.thread.start()

    def look(self) -> None:
        while not self.last and time.monotonic() - self.begun < IN_THE_END:
            have = [now >= before + 2 for now, before in zip(self.world.answered(), self.before)]
            since = time.monotonic() - self.begun
            self.first = self.first or since * any(have)
            self.last = since * all(have)
            time.sleep(0.1)


class OfPage(Trouble):
    """In this order; after each, all three stream."""

    def __init__(self, world: PageWorld, cuts: int, seconds: float) -> None:
        super().__init__(world, "page", False)
        self.of: PageWorld = world
        self.store: PageMachines = world.store
        self.cuts, self.seconds = cuts, seconds
        self.leader: Node = None

    def kinds(self) -> list[Callable[[], object]]:
        return [*[self.machine_cut_off] * self.cuts, self.cut_off_from_machines, self.postgres_killed, self.standby_cut_off,
                self.unreached, self.machine_lost]

    def go_on(self, until: float) -> None:
        for kind in self.kinds():
            time.sleep(BETWEEN)
            self.done.append(kind.__name__)
            self.leader = self.store.leader()
            self.of.note(f"{kind.__name__}: {self.leader.name} leads")
            with self.taken_again(kind.__name__):
                kind()
                seconds = self.store.become_whole()
            print(f"note: {WHAT}, {kind.__name__}: all stream {seconds:.0f} s after it ended", flush=True)

    @contextlib.contextmanager
    def taken_again(self, what: str) -> Iterator[None]:
        watch = Watch(self.of)
        yield
        watch.thread.join(IN_THE_END)
        times = f"of the first sender after {watch.first:.1f} s, of each after {watch.last:.1f} s"
        print(f"note: {WHAT}, {what}: posts are taken again, {times}", flush=True)

    def cut_off(self, *others: Machine) -> None:
        leader = self.leader
        with self.of.router.cut(*both_ways(leader.machine, *others)):
            time.sleep(self.seconds)
        # What is wrong with its return shows in the first looks of its Patroni.
        for _ in range(20):
            time.sleep(0.5)
            if any(node.members().get(leader.name, ("",))[0] == "leader" for node in self.store.others(leader)):
                self.silences.append(f"{leader.name} leads again once it is back")
                return

    def machine_cut_off(self) -> None:
        self.cut_off(*(node.machine for node in self.store.others(self.leader)), self.of.balancer.machine)

    def cut_off_from_machines(self) -> None:
        self.cut_off(*(node.machine for node in self.store.others(self.leader)))

    def postgres_killed(self) -> None:
        for pid in self.leader.pids("postgres"):
            send(pid, signal.SIGKILL)

    def standby_cut_off(self) -> None:
        gone, stays = self.store.others(self.leader)
        with self.of.router.cut(*both_ways(gone.machine, self.leader.machine, stays.machine, self.of.balancer.machine)):
            time.sleep(self.seconds)

    def unreached(self) -> None:
        """By the other instances alone: the balancer, and the database by which all see who beats, go on."""
        one = self.store.others(self.leader)[0]
        one.refuse(PEER)
        time.sleep(self.seconds)
        one.guard()

    def machine_lost(self) -> None:
        """The page's commands are given on another machine, and then the lost one is set up as at first."""
        leader = self.leader
        one = self.of.instances[NAMES.index(leader.name)]
        one.leave()
        leader.be_lost()
        one.vanish(with_folder=True)
        time.sleep(self.seconds)
        other = self.store.others(leader)[0]
        found = ""
        for line in of_machine(block("member remove ID"), leader.name, self.store.machines).splitlines():
            if "member remove" in line:
                line = line.replace(" ID", " " + re.search(rf"(\w+), \w+, {leader.name},", found)[1])
            # The page asks a machine that is there.
            line = re.sub(r"--endpoints=\S+", f"--endpoints=http://{other.host}:2379", line)
            found = subprocess.run(other.machine.on(*shlex.split(line)), capture_output=True, text=True, check=True, timeout=LIMIT).stdout
        leader.begin("existing")
        one.begin(self.chance)


class Sdk:
    """Programs on the SDK for Go, each in its own encoding and temporality."""

    def __init__(self, folder: str, door: Balancer) -> None:
        self.folder, self.door = folder, door
        self.program, self.fault = sdk_go.build(folder)
        self.running: list[subprocess.Popen[bytes]] = []

    def start(self) -> None:
        kinds = (("json", sdk_go.DELTA), ("protobuf", sdk_go.CUMULATIVE), ("grpc", sdk_go.CUMULATIVE))
        for number, (encoding, temporality) in enumerate(kinds):
            places = ["-url", f"http://{self.door.host}:{LISTEN}/v1/metrics", "-grpc", f"{self.door.host}:{LISTEN_GRPC}"]
            words = [self.program, "-encoding", encoding, *places, "-instance", f"i-{number}", "-sender", f"shop-{number}",
                     "-temporality", str(temporality), "-seconds", str(SDK_SECONDS), "-descriptors", f"{self.folder}/descriptors",
                     "-out", f"{self.folder}/{number}.json"]
            self.running.append(log_to(f"{self.folder}/{number}.log", words))

    def compare(self, checks: Checks, metrics: Any) -> None:
        for number, one in enumerate(self.running):
            checks.same(f"{WHAT}: program {number} ends", 0, one.wait(IN_THE_END))
            with open(f"{self.folder}/{number}.json", encoding="utf-8") as file:
                said = json.load(file)
            told = {part: said[part] for part in ("totals", "buckets")}

            def differs() -> list[str]:
                return sdk_go.difference(told, sdk_go.found_of(metrics, number)[0])

            wait_for(lambda: not differs())
            checks.same(f"{WHAT}: the sink has what program {number} counted", [], differs())
            checks.true(f"{WHAT}: and it did count", len(told["totals"]) > 5 and not said["gave_up"], said)


def look_around(checks: Checks, world: PageWorld) -> None:
    """What the page's firewall lets in, and the metrics of its alerts."""
    node, balancer = world.store.nodes[0], world.balancer.machine
    for port, is_open in ((ETCD, False), (POSTGRES, False), (PATRONI, True)):
        asked = subprocess.run(balancer.on("curl", "-sm2", f"http://{node.host}:{port}/"), capture_output=True, check=False, timeout=LIMIT)
        checks.same(f"{WHAT}: the balancer reaches port {port}", is_open, asked.returncode == 0)
    page = ask(PATRONI, "GET", "/metrics", host=node.host)[1].decode()
    named = set(re.findall(r"patroni_\w+", block("alert: PatroniStandbyMissing")))
    checks.same(f"{WHAT}: Patroni has what its alerts name", (True, set()), (len(named) > 1, {one for one in named if one not in page}))


def work(checks: Checks, arguments: argparse.Namespace, stack: contextlib.ExitStack) -> None:
    world = PageWorld(stack, arguments)
    print(f"note: {WHAT}: all stream {world.store.become_whole():.0f} s after the start", flush=True)
    checks.same(f"{WHAT}: a store is made", (0, ""), world.make_store())
    look_around(checks, world)
    lacking = sdk_go.missing()
    sdk = Sdk(world.folder, world.balancer) if checks.has("the SDK for Go", *lacking) else None
    if sdk:
        checks.same(f"{WHAT}: the program on the SDK for Go is built", "", sdk.fault)
    for one in world.instances:
        one.begin(random.Random("page"))
    serves = wait_for(world.is_ready)
    checks.true(f"{WHAT}: they serve", serves, world.last_lines())
    if not serves:
        return
    if sdk and not sdk.fault:
        world.has_others = True
        sdk.start()
    phase(checks, world, [OfPage(world, arguments.cuts, arguments.seconds)], 0)
    if sdk and not sdk.fault:
        sdk.compare(checks, world.metrics)
    end(checks, world)


def options() -> argparse.Namespace:
    parser = argparse.ArgumentParser(description=__doc__.split("\n", maxsplit=1)[0])
    parser.add_argument("totxegun", type=lambda word: os.path.abspath(word))
    parser.add_argument("cuts", type=int, nargs="?", default=3)
    parser.add_argument("seconds", type=float, nargs="?", default=60)
    parser.add_argument("--keep", type=lambda word: os.path.abspath(word))
    return parser.parse_args()


if __name__ == "__main__":
    sys.exit(run(WHAT, work, options(), *missing("patroni", "etcd", "etcdctl", "nft", "openssl", "curl")))
