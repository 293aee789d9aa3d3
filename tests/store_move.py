#!/usr/bin/env python3
"""Moves a folder into a store, and kills the move at each step.

    tests/store_move.py PROGRAM [KILLS [SEED]]

The folder has everything that there can be: series whose senders go on, cumulative ones among them; posts that are in no group; waiting
requests, one of which the sink already has; a dead letter; a quarantined sender with posts; and the sink that it was started with.
`totxegun store move` moves it into a store in PostgreSQL, and services go on over the store. KILLS (60) times a move of a copy is killed,
before or after a call on the folder's files (by the library interrupt_files.c, which needs gcc) or a request to the server, drawn by SEED
(1); or such a call fails. Then services start on the folder, or on the store, or on neither, and the same command again must move
everything: the sink must have what senders know to be accepted, once. Without PostgreSQL the test is left out.

Each line is a check; the last line counts passes and failures. The status is 0 if none failed.
"""
import concurrent.futures
import contextlib
import itertools
import json
import os
import random
import shutil
import signal
import socket
import subprocess
import sys
import tempfile
import threading
import time
from collections.abc import Iterable, Mapping, Sequence
from typing import Any

ROOT = os.path.dirname(os.path.dirname(os.path.abspath(__file__)))
sys.path.insert(1, f"{ROOT}/demo")

from testing.checks import Checks  # noqa: E402
from testing.loopback import free_port  # noqa: E402
from testing.database import initdb  # noqa: E402
from testing.service import (JSON, PROTOBUF, OtlpSink, Point, Post, Sender, Service, Value, add_points, differences, field,  # noqa: E402
                             fixed, in_json, in_protobuf, overlaps, told_to_all, wait_until)
from service_interrupted import build  # noqa: E402
from testing.servers import Server  # noqa: E402

SHARDS = "4"
SENDERS = 4
ONE_COPY = ("--store-copies", "1")
CUMULATIVE = 2
# Numbers the databases: each move has its own.
NUMBERS = itertools.count(1)
# What a copy of a folder does not have.
LEFT = shutil.ignore_patterns("lock", "admin.sock")
# What the log of a service says once it listens.
STARTED = "the addresses for senders and operators"
# At which request a move is killed, and whether before the server has it or after it.
Kill = tuple[int, str]
# The name of a way to kill a move, with the way: at a request, or at a call, by additions to its environment.
Way = tuple[str, Kill | None, dict[str, str] | None]


class OfShards(Sender):
    """A sender whose sums have one resource and whose histograms another, in both encodings."""

    service: Service

    def encoded(self, points: Sequence[Point]) -> Post:
        is_json = self.chance.random() < 0.5
        parts = [self.resource(kind, [point for point in points if f".{kind}." in point[0]], is_json)
                 for kind in ("sum", "histogram")]
        body = json.dumps({"resourceMetrics": parts}).encode() if is_json else b"".join(parts)
        return body, {"Content-Type": JSON if is_json else PROTOBUF, "x-sender": self.name}

    def resource(self, kind: str, points: Sequence[Point], is_json: bool) -> Any:
        name = f"{self.name}.{kind}"
        if is_json:
            [part] = json.loads(in_json(points))["resourceMetrics"]
            attributes = [{"key": "service.instance.id", "value": {"stringValue": name}}]
            return {"resource": {"attributes": attributes}, **part}
        attribute = field(1, field(1, b"service.instance.id") + field(2, field(1, name.encode())))
        return field(1, field(1, attribute) + scopes(in_protobuf(points)))


def scopes(request: bytes) -> bytes:
    """The content of the only resource in a short request."""
    at = 1
    while request[at] > 127:
        at += 1
    return request[at + 1:]


class Running(Sender):
    """A sender of a cumulative series."""

    service: Service

    def __init__(self, service: Service, number: int) -> None:
        super().__init__(service, number)
        self.name = f"running-{number}"
        self.begun = self.at = time.time_ns()
        self.value = 0

    def next_points(self) -> list[Point]:
        self.at = max(self.at + 1000, time.time_ns())
        add = self.chance.randrange(1, 100)
        self.value += add
        return [(f"{self.name}.total", self.begun, self.at, add)]

    def encoded(self, points: Sequence[Point]) -> Post:
        [(name, start, end, _)] = points
        point = fixed(2, "<Q", start) + fixed(3, "<Q", end) + fixed(6, "<q", self.value)
        data = field(7, field(1, point) + field(2, CUMULATIVE) + field(3, 1))
        attribute = field(1, field(1, b"service.instance.id") + field(2, field(1, self.name.encode())))
        request = field(1, field(1, attribute) + field(2, field(2, field(1, name.encode()) + data)))
        return request, {"Content-Type": PROTOBUF, "x-sender": self.name}


def post_all(senders: Iterable[OfShards | Running], times: int = 1) -> None:
    for _ in range(times):
        for sender in senders:
            def between(sender: OfShards | Running = sender) -> None:
                if not sender.service.is_running():
                    raise Failed(f"it has ended: {sender.service.last_lines()}")
            sender.post(sender.next_points(), between)


class Filled:
    """A folder with everything that there can be."""

    def __init__(self, program: str, folder: str, checks: Checks) -> None:
        self.sink, self.data = OtlpSink(), f"{folder}/filled"
        service = Service(program, self.data, self.sink.address, "--flush-interval", "1h", "--cumulative", "on")
        service.start()
        checks.true("a service fills a folder", service.wait_ready(), service.last_lines())
        self.senders: list[OfShards | Running] = [OfShards(service, number) for number in range(SENDERS)]
        self.senders += [Running(service, number) for number in range(2)]
        post_all(self.senders, 3)
        service.order("/flush")
        wait_until(service.is_drained)
        self.sink.mood(["refuse"])
        post_all(self.senders)
        service.order("/flush")
        wait_until(lambda: service.is_drained() and os.listdir(f"{self.data}/dead-letters"))
        self.sink.mood(["lose"])
        post_all(self.senders)
        service.order("/flush")
        wait_until(lambda: len(self.sink.taken) > 1)
        self.sink.mood(["busy"])
        post_all(self.senders)
        service.order("/flush")
        self.held = self.senders[SENDERS - 1]
        post_all([self.held], 2)
        service.order(f"/quarantine/{self.held.name}")
        others = [sender for sender in self.senders if sender is not self.held]
        post_all(others)
        service.order("/flush")
        post_all(others, 2)
        service.kill()
        self.sink.mood(["well"])
        # The copies are made from what is there now.
        self.told, self.taken = told_to_all(self.senders), dict(self.sink.taken)

    def go_on(self, checks: Checks, what: str, instance: Service) -> None:
        """Runs a service over what was moved: nothing may be missing, and nothing may count twice."""
        instance.start()
        checks.true(f"{what}: it serves", instance.wait_ready(), instance.last_lines())
        for sender in self.senders:
            sender.close()
            sender.connection, sender.service = None, instance
        body, headers = self.held.encoded(self.held.next_points())
        wait_until(lambda: self.held.try_once(body, headers)[0] != 503)  # until its shard is taken
        checks.same(f"{what}: a quarantined sender stays so", 403, self.held.try_once(body, headers)[0])
        post_all([sender for sender in self.senders if sender is not self.held], 2)

    def compare(self, checks: Checks, what: str, instance: Service, held_too: bool) -> None:
        instance.order("/flush")

        def missing() -> list[str]:
            found: dict[str, Value] = {}
            told = told_to_all(self.senders)
            add_points(found, self.sink.points())
            if not held_too:
                told = {name: value for name, value in told.items() if not name.startswith(f"{self.held.name}.")}
                found = {name: value for name, value in found.items() if not name.startswith(f"{self.held.name}.")}
            return differences(told, found)

        wait_until(lambda: not missing(), 30)
        checks.same(f"{what}: the sink has what senders were told", [], missing())
        checks.same(f"{what}: nothing counts twice", [], overlaps(self.sink.points()))
        checks.same(f"{what}: a key brings the same bytes", [], self.sink.wrong())
        checks.same(f"{what}: no faults", [], instance.faults())


# --------------------------------------------------------------------------------------------------------------------
# What is there


def addresses() -> list[str]:
    """Where a service listens that is there for a moment."""
    return ["--listen", f"127.0.0.1:{free_port()}", "--listen-grpc", "off", "--admin", f"127.0.0.1:{free_port()}"]


def run(program: str, *words: str, environment: Mapping[str, str] | None = None, seconds: float = 120) -> tuple[int, str]:
    done = subprocess.run([program, *words], capture_output=True, text=True, check=False, timeout=seconds,
                          env=dict(os.environ, **environment or {}))
    return done.returncode, done.stdout + done.stderr


# --------------------------------------------------------------------------------------------------------------------
# Kills


class Counting:
    """A proxy that counts a program's requests to a server, and kills the program at one of them: before the server
    gets it, or after the server has done it."""

    def __init__(self, port: int) -> None:
        self.to, self.at, self.way = port, 0, "before"
        self.lock, self.count = threading.Lock(), 0
        self.process: subprocess.Popen[str] = None
        self.listener = socket.create_server(("127.0.0.1", 0))
        self.port = self.listener.getsockname()[1]
        threading.Thread(target=self.accept, daemon=True).start()

    def accept(self) -> None:
        with contextlib.suppress(OSError):
            while True:
                client, _ = self.listener.accept()
                server = socket.create_connection(("127.0.0.1", self.to))
                threading.Thread(target=self.up, args=(client, server), daemon=True).start()

    def begin(self, process: subprocess.Popen[str], at: int, way: str) -> None:
        with self.lock:
            self.process, self.at, self.way, self.count = process, at, way, 0

    def end(self) -> int:
        with self.lock:
            self.at = 0
            return self.count

    def is_due(self) -> bool:
        with self.lock:
            self.count += 1
            return self.count == self.at

    def kill(self) -> None:
        with contextlib.suppress(ProcessLookupError):
            os.kill(self.process.pid, signal.SIGKILL)

    def up(self, client: socket.socket, server: socket.socket) -> None:
        held = threading.Event()
        threading.Thread(target=self.down, args=(server, client, held), daemon=True).start()
        try:
            rest = exactly(client, 4)
            server.sendall(rest + exactly(client, int.from_bytes(rest, "big") - 4))
            while True:
                head = exactly(client, 5)
                message = head + exactly(client, int.from_bytes(head[1:], "big") - 4)
                if head[:1] in (b"S", b"Q") and self.is_due():
                    if self.way == "after":
                        held.set()
                        server.sendall(message)
                        time.sleep(0.2)
                    self.kill()
                    raise EOFError
                server.sendall(message)
        except (OSError, EOFError):
            for one in (client, server):
                with contextlib.suppress(OSError):
                    one.shutdown(socket.SHUT_RDWR)

    @staticmethod
    def down(server: socket.socket, client: socket.socket, held: threading.Event) -> None:
        with contextlib.suppress(OSError):
            while piece := server.recv(1 << 16):
                if held.is_set():
                    continue
                client.sendall(piece)

    def close(self) -> None:
        self.listener.close()


def exactly(source: socket.socket, length: int) -> bytes:
    found = b""
    while len(found) < length:
        piece = source.recv(length - len(found))
        if not piece:
            raise EOFError
        found += piece
    return found


class Failed(Exception):
    """Why a run failed."""


class Moves:
    """Moves copies of a folder, each into a database of its own."""

    def __init__(self, program: str, server: Server, folder: str, filled: Filled, checks: Checks) -> None:
        self.program, self.server, self.folder, self.filled, self.checks = program, server, folder, filled, checks
        self.library = build(folder)

    def address(self, name: str, port: int | None = None) -> str:
        return f"postgres://postgres@127.0.0.1:{port or self.server.port}/{name}"

    def database(self) -> str:
        name = f"m{next(NUMBERS)}"
        self.server.ask(f"create database {name}")
        status, text = run(self.program, "store", "init", self.address(name), "--shards", SHARDS)
        if status:
            raise Failed(text)
        return name

    def move(self, words: Sequence[str], proxy: Counting | None = None, kill: Kill = (0, "before"),
             environment: Mapping[str, str] | None = None) -> tuple[int, str, int]:
        """Makes a move that may be killed. Returns its status, its text and the number of its requests."""
        with subprocess.Popen([self.program, "store", "move", *words, *ONE_COPY], stdout=subprocess.PIPE, stderr=subprocess.STDOUT,
                              text=True, env=dict(os.environ, **environment or {})) as process:
            if proxy:
                proxy.begin(process, *kill)
            try:
                text = process.communicate(timeout=120)[0]
            finally:
                process.kill()
        return process.returncode, text, proxy.end() if proxy else 0

    def look(self, address: str, folder: str) -> None:
        """Checks that services start on the folder, on the store, or on neither, as both say."""
        status, text = run(self.program, "store", "check", address)
        if status:
            raise Failed(f"store check: {text}")
        is_filling, has_all = "is being moved into this store" in text, "it has all of the folder" in text
        status, said = run(self.program, "check", folder)
        if status and "was moved into the store" not in said:
            raise Failed(f"check: {said}")
        if has_all and status == 0 or status and not is_filling and not has_all:
            raise Failed(f"which of both counts? {text} {said}")
        if self.starts_on("--data", folder) != (status == 0):
            raise Failed(f"a service starts on the folder, or does not: {text} {said}")
        if (is_filling or has_all) and self.starts_on("--data", f"{folder}.x", "--store", address) != has_all:
            raise Failed(f"a service starts on the store, or does not: {text} {said}")

    def starts_on(self, *place: str) -> bool:
        """Whether a service would start there."""
        words = [*place, "--sink", "http://127.0.0.1:1/", *addresses()]
        if "--store" in words:
            words += ["--instance", "x", "--peer", f"127.0.0.1:{free_port()}", *ONE_COPY]
        with tempfile.TemporaryFile("w+") as log, subprocess.Popen([self.program, "serve", *words], stdout=log, stderr=log) as process:
            try:
                def said() -> str:
                    log.seek(0)
                    return log.read()

                wait_until(lambda: process.poll() is not None or STARTED in said())
                text = said()
            finally:
                process.kill()
        if STARTED in text:
            return True
        if process.returncode == 1 and ("store move" in text or "moved into" in text or "deliver" in text):
            return "deliver" in text
        raise Failed(f"it did not start, and did not say why: {text}")

    def one(self, kill: Kill | None = None, calls: Mapping[str, str] | None = None) -> tuple[int, int]:
        """Makes a move that is killed and repeated. Returns the numbers of its requests and calls."""
        place, proxy = tempfile.mkdtemp(dir=self.folder), Counting(self.server.port)
        folder, log = f"{place}/data", f"{place}/calls"
        name = self.database()
        address = self.address(name, proxy.port)
        shutil.copytree(self.filled.data, folder, ignore=LEFT)
        words = ["--from", folder, address]
        environment = {"LD_PRELOAD": self.library, "INTERRUPT_FOLDER": folder, "INTERRUPT_LOG": log, "INTERRUPT_AT": "0", **(calls or {})}
        status, text, requests = self.move(words, proxy, kill or (0, "before"), environment)
        if status and not kill and not calls:
            raise Failed(text)
        if status:
            self.look(address, folder)
            status, text, _ = self.move(words)
            if status:
                raise Failed(f"called again: {text}")
        self.look(address, folder)
        self.deliver(address, f"{place}/instance")
        proxy.close()
        self.server.ask(f"drop database {name} with (force)")
        made = 0
        with contextlib.suppress(FileNotFoundError), open(log, encoding="utf-8") as file:
            made = len(file.read().splitlines())
        shutil.rmtree(place)
        return requests, made

    def deliver(self, address: str, data: str) -> None:
        """Checks that the whole folder is in the store: an instance delivers what senders know to be accepted, with the
        dead letter and the quarantined posts."""
        sink = OtlpSink()
        sink.taken = dict(self.filled.taken)
        over = Service(self.program, data, sink.address, "--store", address, "--instance", "a", "--peer",
                       f"127.0.0.1:{free_port()}", "--cumulative", "on", "--flush-interval", "1h", "--new-sink", *ONE_COPY)
        over.start()
        try:
            held = self.filled.held.name
            if not over.wait_ready() or not wait_until(lambda: over.order(f"/release/{held}") == 200):
                raise Failed(f"an instance: {over.last_lines()}")
            letters = json.loads(over.asked("GET", "/dead-letters")[1])
            if len(letters) != len(os.listdir(f"{self.filled.data}/dead-letters")):
                raise Failed(f"letters: {letters}")
            for letter in letters:
                over.asked("POST", f"/dead-letters/{letter['key']}/resend")
            over.order("/flush")

            def missing() -> list[str]:
                found: dict[str, Value] = {}
                add_points(found, sink.points())
                return differences(self.filled.told, found)

            wait_until(lambda: not missing(), 30)
            if faults := [*missing(), *overlaps(sink.points()), *sink.wrong(), *over.faults()]:
                raise Failed(f"the sink: {faults[:3]}")
        finally:
            over.kill()
            sink.close()

    def kills(self, kills: int, chance: random.Random) -> None:
        try:
            requests, calls = self.one()
        except Failed as failed:
            return self.checks.true("it is moved", False, failed)
        self.checks.true(f"it is moved, by {requests} requests and {calls} calls on files", True, "")
        ways: list[Way] = [(f"{way} request {at}", (at, way), None) for at in range(1, requests + 1) for way in ("before", "after")]
        ways += [(f"{way} call {at}", None, {"INTERRUPT_AT": str(at), "INTERRUPT_HOW": way}) for at in range(1, calls + 1)
                 for way in ("before", "middle", "behind", "ENOSPC")]
        ways = chance.sample(ways, min(kills, len(ways)))

        def try_one(way: Way) -> str | None:
            try:
                self.one(*way[1:])
                return None
            except Failed as failed:
                return f"{way[0]}: {failed}"
            except Exception as error:  # An error of the test counts as a failed run, with its place.
                return f"{way[0]}: {type(error).__name__} {error}"

        with concurrent.futures.ThreadPoolExecutor(4) as pool:
            faults = [fault for fault in pool.map(try_one, ways) if fault]
        return self.checks.same(f"{len(ways)} times it was killed, and then went on", [], faults[:5])


# --------------------------------------------------------------------------------------------------------------------


def go_there(checks: Checks, program: str, moves: Moves, filled: Filled, folder: str) -> None:
    """Runs services over the store."""
    data = f"{folder}/data"
    shutil.copytree(filled.data, data, ignore=LEFT)
    name = moves.database()
    address = moves.address(name)
    running = Service(program, data, filled.sink.address, "--cumulative", "on", "--flush-interval", "1h")
    running.start()
    running.wait_ready()
    checks.true("a folder in use is refused", "in use" in moves.move(["--from", data, address])[1], "")
    running.kill()
    shutil.rmtree(data)
    shutil.copytree(filled.data, data, ignore=LEFT)
    peer = f"127.0.0.1:{free_port()}"
    options = ["--store", address, "--instance", "a", "--peer", peer, "--cumulative", "on", "--flush-interval", "1h", *ONE_COPY]
    status, text = run(program, "serve", "--data", data, "--sink", filled.sink.address, *options, *addresses())
    checks.true("no instance starts in a folder with what nobody would deliver",
                status == 1 and f"totxegun store move --from {data} {address}" in text, text)
    status, text, _ = moves.move(["--from", data, address])
    checks.true("it is moved", status == 0 and "counts in its place" in text, text)
    checks.true("no service starts on the folder any more", not moves.starts_on("--data", data), "it went on")
    status, text = run(program, "serve", "--data", f"{folder}/x", "--sink", "http://127.0.0.1:1/", *options, *addresses())
    checks.true("another sink than the folder's is refused", status == 1 and "the instances of this store deliver to" in text, text)
    over = Service(program, data, filled.sink.address, *options)  # the store has what the folder had
    filled.go_on(checks, "over the store", over)
    letters = json.loads(over.asked("GET", "/dead-letters")[1])
    for letter in letters:
        over.asked("POST", f"/dead-letters/{letter['key']}/resend")
    checks.true("a request that was refused is sent again", letters, letters)
    filled.compare(checks, "over the store", over, False)
    over.order(f"/release/{filled.held.name}")
    post_all([filled.held])
    filled.compare(checks, "with what was held", over, True)
    checks.same("it ends", 0, over.end()[0])
    status, text, _ = moves.move(["--from", data, address])
    checks.true("what was moved is known", status == 0 and "before, and" in text, text)
    shutil.rmtree(data)
    shutil.copytree(filled.data, data, ignore=LEFT)
    status, text, _ = moves.move(["--from", data, address])
    checks.true("nothing is moved into a store that is used", status == 1 and "is not empty" in text, text)


def main(words: list[str]) -> int:
    if not 1 <= len(words) <= 3:
        sys.exit(__doc__.split("\n\n")[1].strip())
    program, (kills, seed) = os.path.abspath(words[0]), words[1:] + ["60", "1"][len(words) - 1:]
    checks, chance = Checks(), random.Random(seed)
    if not checks.has("a store", *[] if initdb() else ["postgresql"]):
        return checks.end()
    server = Server()
    with tempfile.TemporaryDirectory(prefix="moved-") as folder:
        try:
            server.make()
            server.start()
            filled = Filled(program, folder, checks)
            moves = Moves(program, server, folder, filled, checks)
            go_there(checks, program, moves, filled, folder)
            moves.kills(int(kills), chance)
            filled.sink.close()
        finally:
            server.close()
    return checks.end()


if __name__ == "__main__":
    sys.exit(main(sys.argv[1:]))
