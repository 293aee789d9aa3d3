#!/usr/bin/env python3
"""Runs the service under load while it is killed and stopped.

    tests/service_load.py TOTXEGUN [SECONDS] [SEED] [--max-series N,..] [--stalls]

Four runs take a quarter of SECONDS (60) each: with `--durability disk` and `process`, with an OTLP sink and a SQLite file. Now and then
the service starts with another number of books, because it gets another --max-series of those named (8000, 30000 and 100000).

Senders post sums and histograms in JSON and protobuf, compressed or not, on connections that they keep, and retry each post until it is
answered. Now and then one posts to a series of another sender, and is refused. Meanwhile the service is killed, also twice in a row, or
stopped for a while; senders are quarantined and released; the OTLP sink answers late, with 503, with 400, not at all,
or accepts a request
and loses the answer. With --stalls, which needs root, the service's folder is on a file system of its own that is frozen for 1 to 30
seconds now and then. Meanwhile `/healthz` must answer, and `/readyz` must say why no posts are accepted; sometimes the service is killed
before the disk goes on.

At the end a duplicate of an accepted post must be answered like the first time. SIGTERM must end the service within ten seconds with
status 0, although the sink does not answer. A second start must deliver everything, dead letters are sent again, and the sink must have,
for each series and bucket, what the senders know to be accepted.

Each line is a check; the last line counts passes and failures. The status is 0 if none failed.
"""
import argparse
import contextlib
import json
import os
import random
import signal
import sys
import tempfile
import threading
import time
from collections.abc import Callable, Sequence
from typing import Any

from testing.checks import Checks
from testing.own_disk import OwnDisk
from testing.service import (AGAIN, JSON, OtlpSink, Sender, Service, Sink, SqliteSink, Told, Value, add_points, differences, in_json,
                             is_whole, overlaps, told_to_all, wait_until)

SENDERS = 6
SECONDS = 60
MOODS = ["well"] * 6 + ["late", "busy", "silent", "lose", "refuse"]
TIME_TO_END = 10
STALLS = [1, 1, 3, 5, 10, 30]
# The service reports a stall when a call has taken two seconds; before that a post or a heartbeat must have begun the call.
SEEN_AFTER = 6
NO_ANSWER = b"the disk does not answer"


class Trouble:
    """Events that befall the service while senders post, one after another, drawn by chance."""

    def __init__(self, service: Service, senders: list[Sender], seed: str, max_series: list[int], disk: OwnDisk | None) -> None:
        self.service = service
        self.senders = senders
        self.max_series = max_series
        self.chance = random.Random(f"trouble {seed}")
        self.quarantined: set[str] = set()
        self.counts: dict[str, int] = {}
        self.events = [self.kill_service, self.kill_twice, self.change_books, self.stop_service, self.flush, self.quarantine, self.lift]
        self.disk = disk
        self.silences: list[str] = []  # what the service failed to say while the disk stalled
        if disk is not None:
            self.events += [self.stall]

    def go_on(self, until: float) -> None:
        while time.monotonic() < until:
            event = self.chance.choice(self.events)
            self.counts[event.__name__] = self.counts.get(event.__name__, 0) + 1
            event()
            self.let_post(self.chance.choice([0, 5, 20, 20, 100]), until)

    def let_post(self, count: int, until: float) -> None:
        """Waits until this many more posts were answered, for at most three seconds."""
        wanted = count + sum(sender.posts for sender in self.senders)
        wait_until(lambda: sum(sender.posts for sender in self.senders) >= wanted or time.monotonic() > until, 3)

    def start(self) -> None:
        """Starts the service if it is not running; otherwise senders would retry for ever."""
        if not self.service.is_running():
            self.service.start()

    def kill_service(self) -> None:
        self.service.kill()
        self.start()

    def kill_twice(self) -> None:
        """Kills the service, and again while it is starting."""
        self.kill_service()
        time.sleep(self.chance.choice([0, 0.01, 0.05, 0.2]))
        self.kill_service()

    def change_books(self) -> None:
        """Starts it with another number of books. The first of two such starts is killed."""
        self.service.words[-1] = str(self.chance.choice(self.max_series))
        self.kill_twice()

    def stop_service(self) -> None:
        self.service.signal(signal.SIGSTOP)
        time.sleep(self.chance.choice([0.05, 0.3, 1.0]))
        self.service.signal(signal.SIGCONT)

    def stall(self) -> None:
        """Freezes the disk for a while. The service may be killed meanwhile."""
        is_serving, is_written = self.service.is_ready(), self.is_taken_of_some()
        until = time.monotonic() + self.chance.choice(STALLS)
        with self.disk.frozen():
            begun = time.monotonic()
            while time.monotonic() < until:
                if is_serving:
                    self.look(time.monotonic() - begun, is_written)
                time.sleep(0.5)
            is_killed = self.chance.random() < 0.3
            if is_killed:
                self.service.signal(signal.SIGKILL)
        if is_killed:
            self.kill_service()

    def is_taken_of_some(self) -> bool:
        """Whether posts of some sender are accepted. If all are quarantined, nothing is written, and no call stalls."""
        status = self.service.status()
        quarantined = {sender for shard in status["shards"] for sender in shard["quarantined"]} if status else set()
        return len(quarantined) < len(self.senders)

    def look(self, seconds: float, is_written: bool) -> None:
        """Checks what the service says after the disk has been frozen this long."""
        status, _ = self.service.asked("GET", "/healthz", 2)
        if status != 200:
            self.silences.append(f"/healthz {status} after {seconds:.1f} s")
        if seconds > SEEN_AFTER and is_written:
            status, text = self.service.asked("GET", "/readyz", 2)
            if status != 503 or NO_ANSWER not in text:
                self.silences.append(f"/readyz {status} {text!r} after {seconds:.1f} s")

    def flush(self) -> None:
        self.service.order("/flush", 5)

    def quarantine(self) -> None:
        sender = f"sender-{self.chance.randrange(SENDERS)}"
        self.quarantined.add(sender)
        self.service.order(f"/quarantine/{sender}", 5)

    def lift(self) -> None:
        """Releases a sender. An order without an answer may or may not have been done, so `lift_all` repeats it at the end."""
        if self.quarantined:
            self.service.order(f"/release/{self.chance.choice(sorted(self.quarantined))}", 5)

    def lift_all(self) -> bool:
        """Whether the service says that nobody is quarantined."""
        def is_done() -> bool:
            status = self.service.status()
            left = [sender for shard in status["shards"] for sender in shard["quarantined"]] if status else [None]
            for sender in filter(None, left):
                self.service.order(f"/release/{sender}", 5)
            return not left
        return wait_until(is_done)


def intrude(sender: Sender, senders: list[Sender]) -> None:
    """Now and then posts to a series of another sender, which must be refused."""
    if sender.chance.random() > 0.05:
        return
    other = sender.chance.choice([it for it in senders if it is not sender])
    name = f"{other.name}.sum.0"
    if name in other.told:
        body = in_json([(name, sender.time, sender.time + 10, 1)])
        status, text = sender.try_once(body, {"Content-Type": JSON, "x-sender": sender.name})
        if status not in (None, *AGAIN) and not (status == 400 and b"other writer" in text):
            sender.surprises.append((status, text))


def post_meanwhile(senders: Sequence[Sender], is_over: Callable[[], object],
                   between: Callable[[Sender], object] = lambda sender: None) -> list[threading.Thread]:
    """Starts threads in which senders post until it is over. Each ends after an answered post."""
    def go_on(sender: Sender) -> None:
        while not is_over():
            sender.post(sender.next_points())
            between(sender)
    threads = [threading.Thread(target=go_on, args=(sender,), daemon=True) for sender in senders]
    for thread in threads:
        thread.start()
    return threads


def load(checks: Checks, what: str, service: Service, sink: Sink, seconds: float, seed: str, max_series: list[int],
         disk: OwnDisk | None) -> list[Sender]:
    """Runs senders and trouble at once. Returns the senders."""
    service.start()
    checks.true(f"{what}: it is ready", service.wait_ready(), service.last_lines())
    until = time.monotonic() + seconds
    senders = [Sender(service, number, seed) for number in range(SENDERS)]
    trouble = Trouble(service, senders, seed, max_series, disk)
    threads = post_meanwhile(senders, lambda: time.monotonic() > until, lambda sender: intrude(sender, senders))
    sink.mood(MOODS)
    trouble.go_on(until)
    trouble.start()
    checks.true(f"{what}: it is ready again", service.wait_ready(), service.last_lines())
    checks.true(f"{what}: all senders are released", trouble.lift_all(), service.status())
    if disk is not None:
        checks.same(f"{what}: it answered while the disk stood still", [], trouble.silences[:3])
    for thread in threads:
        thread.join(SECONDS)
    checks.true(f"{what}: all posts are answered", not any(thread.is_alive() for thread in threads), service.last_lines())
    print(f"note: {what}: {sum(sender.posts for sender in senders)} posts, {sum(sender.repeats for sender in senders)} repeats, "
          + ", ".join(f"{count} {name}" for name, count in sorted(trouble.counts.items())), flush=True)
    return senders


def letters(service: Service) -> Any:
    """The keys of what the sink has refused, or nothing where the service does not say."""
    status, body = service.asked("GET", "/dead-letters")
    return [letter["key"] for letter in json.loads(body)] if status == 200 else None


def send_letters_again(service: Service) -> bool:
    """Sends the dead letters again. Returns whether the sink took them."""
    def is_done() -> bool:
        left = letters(service)
        for key in left or ():
            service.order(f"/dead-letters/{key}/resend")
        return bool(left == [])
    return wait_until(is_done)


def repeat_late(checks: Checks, what: str, senders: Sequence[Sender]) -> None:
    repeats = [sender.late_repeat() for sender in senders]
    checks.true(what, all(map(is_whole, repeats)), repeats)


def end(checks: Checks, what: str, service: Service, sink: Sink, senders: list[Sender]) -> None:
    """Ends the service, starts it again, and checks the sink."""
    surprises = [surprise for sender in senders for surprise in sender.surprises]
    checks.same(f"{what}: no post was answered otherwise", [], surprises[:3])
    repeat_late(checks, f"{what}: late repeats are answered as the first time", senders)
    checks.same(f"{what}: the service found nothing that must not be", [], service.faults())
    sink.mood(["silent"])
    status, seconds = service.end()
    checks.true(f"{what}: SIGTERM ends it with status 0 in {TIME_TO_END} s", status == 0 and seconds <= TIME_TO_END,
                f"status {status}, {seconds:.1f} s: {service.last_lines()}")
    sink.mood(["well"])
    service.start()
    checks.true(f"{what}: it starts again", service.wait_ready(), service.last_lines())
    repeat_late(checks, f"{what}: and again", senders)
    service.order("/flush")
    checks.true(f"{what}: all is delivered", wait_until(service.is_drained), service.status())
    if isinstance(sink, SqliteSink):
        # The sink refuses an interval that it already has, which means that a point was counted twice.
        checks.same(f"{what}: the sink has refused nothing", [], letters(service))
    checks.true(f"{what}: what was refused is taken", send_letters_again(service), service.last_lines())
    compare(checks, what, sink, senders)
    service.end()


def compare(checks: Checks, what: str, sink: Told, senders: Sequence[Sender]) -> None:
    points = sink.points()
    found: dict[str, Value] = {}
    add_points(found, points)
    checks.same(f"{what}: no spans of a series overlap at the sink", [], overlaps(points))
    checks.same(f"{what}: a key brings the same bytes", [], sink.wrong())
    wanted = told_to_all(senders)
    checks.same(f"{what}: the sink has what the senders were told, {len(wanted)} series", [], differences(wanted, found))


def run(checks: Checks, program: str, durable: str, kind: str, seconds: float, seed: str, max_series: list[int],
        stalls: bool) -> None:
    what = f"{durable}, {kind}"
    with contextlib.ExitStack() as stack:
        folder = stack.enter_context(tempfile.TemporaryDirectory(prefix="service-"))
        disk = stack.enter_context(OwnDisk(folder)) if stalls else None
        sinks: dict[str, Callable[[], Sink]] = {"OTLP": lambda: OtlpSink(seed), "SQLite": lambda: SqliteSink(f"{folder}/sink.db")}
        sink = sinks[kind]()
        words = ["--durability", durable, "--flush-interval", "1s", "--max-series", str(max_series[0])]
        place = folder if disk is None else disk.folder
        service = Service(program, f"{place}/data", sink.address, *words)
        service.log = f"{folder}/log"
        try:
            senders = load(checks, what, service, sink, seconds, seed, max_series, disk)
            end(checks, what, service, sink, senders)
        finally:
            service.kill()
            sink.close()


def main(arguments: argparse.Namespace) -> int:
    checks = Checks()
    print(f"note: seed {arguments.seed}", flush=True)
    for durable, kind in (("disk", "OTLP"), ("disk", "SQLite"), ("process", "OTLP"), ("process", "SQLite")):
        run(checks, arguments.totxegun, durable, kind, arguments.seconds / 4, f"{arguments.seed} {durable} {kind}",
            arguments.max_series, arguments.stalls)
    return checks.end()


if __name__ == "__main__":
    parser = argparse.ArgumentParser(description=__doc__.split("\n", maxsplit=1)[0])
    parser.add_argument("totxegun", type=lambda word: os.path.abspath(word))
    parser.add_argument("seconds", type=float, nargs="?", default=SECONDS)
    parser.add_argument("seed", nargs="?", default="1")
    parser.add_argument("--max-series", type=lambda text: [int(word) for word in text.split(",")], default=[8_000, 30_000, 100_000])
    parser.add_argument("--stalls", action="store_true")
    sys.exit(main(parser.parse_args()))
