#!/usr/bin/env python3
"""OpenTelemetry's SDK for Go, as Debian has it, over kills of the service: what its programs counted beside it is in the sink.

    tests/sdk_go.py TOTXEGUN [SECONDS]

Twelve programs count at once, each with the SDK's own instruments, aggregation and clock: four send JSON, four protobuf, four
call gRPC by its own client for Go. Half of them have whole numbers and the default bounds of histograms, the others durations
in seconds, as the conventions have them, which the service takes in microseconds; these name no sender, and the service finds
it in their resource. Half of each are cumulative, as the SDK is by default, and half delta. Each has counters that are asked,
up and down too, and a gauge, which goes to another receiver, as does a counter of doubles in euros. A batch is sent again as
the specification says. Each program ends or is killed, and begins anew; meanwhile the service is killed for so many seconds (8),
and the database where it is PostgreSQL. At the end the sink has, by program, series and bucket, what the programs counted, of
one that was killed what it was answered, or that with the batch that was under way; and no point was rejected. All of it goes
into a SQLite file first, and then into PostgreSQL, where that is there.

The exporter is in tests/sdk_go: Debian's package of the SDK has none. It needs golang-go, golang-opentelemetry-otel-dev,
golang-google-grpc-dev and python3-protobuf; if one is missing, a line says so and the status is 77. Each other line is a check; the
last line counts passes and failures. The status is 1 if one failed.
"""
import contextlib
import glob
import json
import os
import re
import shutil
import sqlite3
import subprocess
import sys
import tempfile
import time
from typing import Any

from testing import ROOT, TESTS
from testing.checks import Checks
from testing.database import Database, initdb
from testing.loopback import free_port
from testing.service import Service
from handed_on import Receiver
from protobuf_bodies import HAS_LIBRARY, file_of_definitions

CACHE = os.path.join(ROOT, "out", "go")
GOPATH = "/usr/share/gocode"
PACKAGES = {"golang-opentelemetry-otel-dev": "go.opentelemetry.io/otel/sdk/metric",
            "golang-google-grpc-dev": "google.golang.org/grpc", "golang-google-protobuf-dev": "google.golang.org/protobuf"}
SECONDS = 8
DELTA, CUMULATIVE = 1, 2
# How each program sends: the encoding, whether compressed, whether it measures seconds, and its temporality.
PROGRAMS = [(encoding, packed, in_seconds, temporality)
            for encoding, packed in (("json", False), ("protobuf", True), ("grpc", False)) for in_seconds in (False, True)
            for temporality in (DELTA, CUMULATIVE)]
# The end of each program, round by round.
ENDS, IS_KILLED = "ends", "is killed"
ROUNDS = (ENDS, IS_KILLED, ENDS)
TOTALS = """
select coalesce(json_agg(json_build_array(name, unit, attributes, total, buckets)), '[]') from totxegun.totals
where resource->>'service.instance.id' = '{}'"""
# The answers that a sender may get while the service is killed.
EXPECTED = ("200", "503", "no answer", "no whole answer", "OK", "Unavailable", "Unavailable with RetryInfo", "Canceled",
            "DeadlineExceeded")


def missing() -> list[str]:
    found = [] if shutil.which("go") else ["golang-go"]
    found += [package for package, path in PACKAGES.items() if not os.path.isdir(f"{GOPATH}/src/{path}")]
    return found + ([] if HAS_LIBRARY else ["python3-protobuf"])


def build(folder: str) -> tuple[str, str]:
    """Builds the program, and writes OTLP's messages beside it. Returns its path and the compiler's errors, "" if it compiled."""
    program = f"{folder}/sender"
    with open(f"{folder}/descriptors", "wb") as file:
        file.write(file_of_definitions())
    environment = dict(os.environ, GO111MODULE="off", GOPATH=GOPATH, GOCACHE=CACHE, GOFLAGS="-p=2")
    # Most of the work is gRPC and protobuf, which are compiled quickly: they send little.
    words = ["-ldflags=-s -w", "-gcflags=google.golang.org/...=-N -l -dwarf=false"]
    built = subprocess.run(["go", "build", *words, "-o", program, *glob.glob(f"{TESTS}/sdk_go/*.go")], env=environment,
                           capture_output=True, text=True, check=False)
    return program, built.stderr if built.returncode else ""


def start(program: str, folder: str, service: Service, grpc: int, number: int, round_: Any,
          seconds: float) -> subprocess.Popen[bytes]:
    encoding, packed, in_seconds, temporality = PROGRAMS[number]
    words = [program, "-encoding", encoding, "-url", f"http://127.0.0.1:{service.listen}/v1/metrics",
             "-grpc", f"127.0.0.1:{grpc}", "-instance", f"i-{number}", "-seconds", str(seconds),
             "-descriptors", f"{folder}/descriptors", "-out", f"{folder}/{number}-{round_}.json",
             "-temporality", str(temporality), "-tally", f"{folder}/{number}-{round_}.tally"]
    words += ["-gzip"] if packed else []
    words += ["-in-seconds"] if in_seconds else ["-sender", f"shop-{number}"]
    with open(f"{folder}/{number}.log", "ab") as log:
        return subprocess.Popen(words, stdin=subprocess.DEVNULL, stdout=log, stderr=log)


class File:
    """A SQLite file as the sink."""

    name = "SQLite"

    def __init__(self, folder: str, file: str = "sink.db") -> None:
        self.path = f"{folder}/{file}"
        self.address = f"sqlite:{self.path}"

    def rows(self, instance: str) -> Any:
        """Each series of a program: name, unit, attributes, total and buckets."""
        query = "select name, unit, attributes, total, buckets from totals where resource like ?"
        with contextlib.closing(sqlite3.connect(f"file:{self.path}?mode=ro", uri=True)) as database:
            rows = database.execute(query, (f'%"{instance}"%',)).fetchall()
        return [(name, unit, json.loads(attributes), total, counts and json.loads(counts))
                for name, unit, attributes, total, counts in rows]

    def kill(self) -> None:
        """Does nothing: a file has no process."""

    def close(self) -> None:
        """Does nothing."""


class Postgres:
    """A PostgreSQL server of its own."""

    name = "PostgreSQL"

    def __init__(self, _: object) -> None:
        self.database = Database()
        self.address = self.database.address
        self.database.start()
        self.database.wait_ready()

    def rows(self, instance: Any) -> Any:
        return json.loads(self.database.ask(TOTALS.format(instance)))

    def kill(self) -> None:
        self.database.crash()
        time.sleep(0.1)
        self.database.start()

    def close(self) -> None:
        self.database.close()


def trouble(service: Service, sink: Any, seconds: float) -> int:
    """Kills the service; every other kill comes soon after a start."""
    until, kills = time.monotonic() + seconds, 0
    while time.monotonic() < until:
        time.sleep(0.1 if kills % 2 else 0.7)
        service.kill()
        if kills % 3 == 1:
            sink.kill()
        time.sleep(0.2)
        service.start()
        kills += 1
        service.wait_ready()
    return kills


def add(all_: Any, told: Any) -> None:
    for key, count in told["totals"].items():
        all_["totals"][key] = all_["totals"].get(key, 0) + count
    for key, counts in told["buckets"].items():
        before = all_["buckets"].get(key, [0] * len(counts))
        all_["buckets"][key] = [one + other for one, other in zip(before, counts)]


def told_of(folder: str, number: int) -> tuple[list[dict[str, Any]], dict[str, Any]]:
    """What a program counted in all rounds, in each form that it may have, and what it was answered."""
    ways: list[dict[str, Any]] = [{"totals": {}, "buckets": {}} for _ in range(2)]
    answers: dict[str, Any] = {"answers": {}, "rejected": 0, "gave_up": 0}
    for round_, end in enumerate(ROUNDS):
        with open(f"{folder}/{number}-{round_}.{'json' if end == ENDS else 'tally'}", encoding="utf-8") as file:
            told = json.load(file)
        for way, of_way in zip(ways, ("Answered", "Sending")):
            add(way, told if end == ENDS else told[of_way])
        if end == ENDS:
            for key, count in told["answers"].items():
                answers["answers"][key] = answers["answers"].get(key, 0) + count
            for name in ("rejected", "gave_up"):
                answers[name] += told[name]
    return ways, answers


def found_of(sink: File, number: int) -> tuple[dict[str, Any], set[tuple[str, str]]]:
    """What the sink has of a program: totals and buckets by name and route, and the units."""
    found: dict[str, Any] = {"totals": {}, "buckets": {}}
    units: set[tuple[str, str]] = set()
    for name, unit, attributes, total, counts in sink.rows(f"i-{number}"):
        key = f"{name} {attributes['http.route']}"
        found["totals"][key] = int(total)
        units.add((name, unit))
        if counts is not None:
            found["buckets"][key] = [int(count) for count in counts]
    return found, units


def difference(told: Any, found: Any) -> list[str]:
    """The first series that differ."""
    told, found = ({(part, key): value for part, values in of.items() for key, value in values.items()} for of in (told, found))
    wrong = [key for key in sorted(told.keys() | found.keys()) if told.get(key) != found.get(key)]
    return [f"{key}: counted {told.get(key)}, in the sink {found.get(key)}" for key in wrong[:3]]


def compare(checks: Checks, what: str, sink: Any, number: int, folder: str) -> None:
    (ways, answers), (found, units) = told_of(folder, number), found_of(sink, number)
    checks.true(f"{what}: there are totals", len(found["totals"]) > 10, found["totals"])
    wrong = [difference(way, found) for way in ways]
    checks.true(f"{what}: the sink has its totals and buckets", [] in wrong, wrong)
    _, _, in_seconds, _ = PROGRAMS[number]
    if in_seconds:
        wanted = {("http.server.request.duration", "us"), ("worker.busy", "us"), ("worker.ticks", "s")}
        checks.same(f"{what}: doubles are in the finer unit", wanted, {one for one in units if one[1]})
    checks.same(f"{what}: nothing was rejected", 0, answers["rejected"])
    surprises = [answer for answer in answers["answers"] if answer not in EXPECTED]
    checks.same(f"{what}: no answer surprises", ([], 0), (surprises, answers["gave_up"]))
    print(f"note: {what}: {answers['answers']}", flush=True)


def look_at_others(checks: Checks, receiver: Receiver) -> None:
    """What is not added up is at the other receiver: of each program, in its own encoding."""
    for number, (encoding, _, in_seconds, _) in enumerate(PROGRAMS):
        names = [b"queue.length", b"i-%d" % number] + ([] if in_seconds else [b"money"])
        kind = "json" if encoding == "json" else "protobuf"
        found = [body for content, body in receiver.bodies if kind in content and all(name in body for name in names)]
        checks.true(f"the other receiver has the gauge of program {number}", len(found) > 3, len(found))
    counted = [body for _, body in receiver.bodies if b"http.server" in body or b"work." in body]
    checks.same("it has nothing that is counted here", [], counted[:1])


def rounds(checks: Checks, program: str, folder: str, service: Service, grpc: int, sink: Any, seconds: float) -> int:
    """Runs all programs, which end or are killed. Returns how often the service was killed."""
    kills = 0
    for round_, end in enumerate(ROUNDS):
        programs = [start(program, folder, service, grpc, number, round_, seconds / len(ROUNDS) if end == ENDS else 600)
                    for number in range(len(PROGRAMS))]
        kills += trouble(service, sink, seconds / len(ROUNDS))
        if end == IS_KILLED:
            for one in programs:
                one.kill()
        statuses = [one.wait(120) for one in programs]
        checks.same(f"each program {end}", {0 if end == ENDS else -9}, set(statuses))
    return kills


def run(checks: Checks, totxegun: str, seconds: float, folder: str, program: str, sink: Any) -> None:
    grpc, receiver = free_port(), Receiver()
    service = Service(totxegun, f"{folder}/data", sink.address, "--flush-interval", "1s", "--listen-grpc",
                      f"127.0.0.1:{grpc}", "--sender-from", "service.instance.id", "--log-rejected", "2",
                      "--forward-unsupported", f"http://127.0.0.1:{receiver.port}")
    try:
        service.start()
        checks.true("the service is ready", service.wait_ready(), service.last_lines())
        kills = rounds(checks, program, folder, service, grpc, sink, seconds)
        checks.true(f"{sink.name}: all is delivered after {kills} kills", service.has_delivered_all(), service.last_lines())
        for number, (encoding, packed, in_seconds, temporality) in enumerate(PROGRAMS):
            what = f"{sink.name}, {encoding}{', gzip' if packed else ''}, {'seconds' if in_seconds else 'whole numbers'}"
            what += f", {'delta' if temporality == DELTA else 'cumulative'}"
            compare(checks, what, sink, number, folder)
        # The service counts these since its last start.
        rounded = service.status()["rounded"]
        checks.true("sums of doubles were rounded by next to nothing",
                    all(one["rule"] == "s=1000000:us" and one["together"] < 0.01 for one in rounded), rounded)
        checks.same("the service found nothing that must not be", [], service.faults())
        with open(service.log, encoding="utf-8", errors="replace") as file:
            log = file.read()
        checks.true("the log calls no point rejected", not re.search("points? (is|are) not taken", log), service.last_lines())
        look_at_others(checks, receiver)
        ended = service.end()
        checks.true("SIGTERM ends the service", ended[0] == 0 and ended[1] < 10, ended)
    finally:
        service.kill()
        receiver.close()
        sink.close()


def main(totxegun: str, seconds: int | str = SECONDS) -> int:
    checks = Checks()
    if checks.has("the SDK for Go", *missing()):
        with tempfile.TemporaryDirectory(prefix="sdk-") as folder:
            program, fault = build(folder)
            checks.same("the program is built", "", fault)
            kinds: list[type[File] | type[Postgres]] = [File, Postgres] if initdb() else [File]
            for kind in kinds:
                place = f"{folder}/{kind.name}"
                os.makedirs(place)
                shutil.copy(f"{folder}/descriptors", place)
                if not fault:
                    run(checks, totxegun, float(seconds), place, program, kind(place))
    return checks.end()


if __name__ == "__main__":
    if len(sys.argv) < 2:
        sys.exit(f"usage: {sys.argv[0]} TOTXEGUN [SECONDS]")
    sys.exit(main(os.path.abspath(sys.argv[1]), *sys.argv[2:3]))
