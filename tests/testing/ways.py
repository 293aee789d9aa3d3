"""Ways to post for tests/clients.py: each client library has a series of its own, and counts what was accepted."""
import contextlib
import decimal
import gzip
import http.client
import json
import os
import random
import re
import shutil
import signal
import subprocess
import tempfile
import threading
import time
import urllib.error
import urllib.request
from collections.abc import Callable, Mapping, Sequence
from typing import Any

from testing import TESTS
from testing.checks import Checks
from testing.service import DELTA, JSON, PROTOBUF, in_json
from tooling.files import content

HERE = f"{TESTS}/clients"
AGAIN = (429, 502, 503, 504)
# The body of an answer that rejects no point.
WHOLE = {JSON: b"{}", PROTOBUF: b""}
PAUSE = 0.05
# Status, Retry-After and body of an answer; the status is None if there is no answer.
Attempt = tuple[int | None, str | bytes | None, bytes]
# How many bodies are written for each way that reads them from files.
BODIES = 600
WRK_CONNECTIONS = 2
MICROSECONDS = 1_000_000
# How to see whether an optional program is usable: a command, and what its output must match.
NODE = (["node", "--version"], re.compile(r"v(1[89]|[2-9]\d)\."))
JAVA = (["java", "--list-modules"], re.compile(r"java\.net\.http@(.|\n)*jdk\.compiler@"))


def span(place: int) -> tuple[int, int]:
    return 1000 + place * 10, 1010 + place * 10


def in_seconds(points: Sequence[tuple[str, int, int, float]]) -> bytes:
    """A request whose values are fractions of a second."""
    metrics = [{"name": name, "unit": "s", "sum": {"aggregationTemporality": DELTA, "isMonotonic": True, "dataPoints": [
        {"startTimeUnixNano": str(start), "timeUnixNano": str(end), "asDouble": value}]}} for name, start, end, value in points]
    return json.dumps({"resourceMetrics": [{"scopeMetrics": [{"metrics": metrics}]}]}).encode()


def by_library(message: Any, points: Sequence[tuple[str, int, int, int]]) -> bytes:
    """A request serialised by Google's protobuf library."""
    request = message()
    metrics = request.resource_metrics.add().scope_metrics.add().metrics
    for name, start, end, value in points:
        data = metrics.add(name=name).sum
        data.aggregation_temporality, data.is_monotonic = DELTA, True
        data.data_points.add(start_time_unix_nano=start, time_unix_nano=end, as_int=value)
    body: bytes = request.SerializeToString()
    return body


class Way(threading.Thread):
    """A thread that posts points of one series and retries each post until it is accepted. It runs until `stop` is set."""

    points_of_a_post = 1
    connections = 0

    def __init__(self, series: str, port: int,
                 stop: threading.Event, encode: Callable[[Sequence[Any]], bytes] = in_json,
                 kind: str = JSON, headers: Mapping[str, str] | None = None) -> None:
        super().__init__(daemon=True)
        self.series, self.port, self.encode, self.whole = series, port, encode, WHOLE[kind]
        self.headers = {"Content-Type": kind, "x-sender": series, **(headers or {})}
        self.has_to_stop = stop
        self.taken = self.repeats = 0
        self.sum: float = 0
        self.surprise: str | None = None

    def points(self) -> Sequence[tuple[str, int, int, float]]:
        """The points of the next post."""
        first = self.taken * self.points_of_a_post
        return [(self.series, *span(first + more), 1 + self.taken % 9) for more in range(self.points_of_a_post)]

    def note(self, points: Sequence[tuple[str, int, int, float]]) -> None:
        self.sum += sum(value for *_, value in points)

    def run(self) -> None:
        while not self.has_to_stop.is_set():
            points = self.points()
            self.post(self.encode(points))
            if self.surprise:
                return
            self.note(points)
            self.taken += 1
            time.sleep(PAUSE)

    def post(self, body: bytes) -> None:
        """Retries the body until it is answered."""
        while True:
            status, after, text = self.once(body)
            if status is not None and status not in AGAIN:
                break
            self.repeats += 1
            time.sleep(float(after or 0.2))
        if (status, text) != (200, self.whole):
            self.surprise = f"{status} {text!r}"

    def once(self, body: bytes) -> Attempt:
        """Status, Retry-After and body of one attempt; the status is None if there is no answer."""
        raise NotImplementedError

    def read(self) -> None:
        """Does nothing; an external program's figures are read from its file."""


class Kept(Way):
    """Python's http.client over one connection."""

    connection: http.client.HTTPConnection | None = None

    def once(self, body: bytes) -> Attempt:
        try:
            if self.connection is None:
                self.connection = http.client.HTTPConnection("127.0.0.1", self.port, timeout=60)
                self.connections += 1
            self.connection.request("POST", "/v1/metrics", body, self.headers)
            answer = self.connection.getresponse()
            return answer.status, answer.headers["Retry-After"], answer.read()
        except (OSError, http.client.HTTPException):
            self.connection = None
            return None, None, b""


class InSeconds(Kept):
    """Kept, with values in seconds of this many digits; the expected sum is in microseconds."""

    def __init__(self, series: str, port: int, stop: threading.Event, digits: int) -> None:
        super().__init__(series, port, stop, in_seconds)
        self.chance, self.digits = random.Random(digits), digits
        self.exact = self.rounded_by = decimal.Decimal(0)
        self.rounded = 0

    def points(self) -> Sequence[tuple[str, int, int, float]]:
        return [(self.series, *span(self.taken), round(self.chance.random(), self.digits))]

    def note(self, points: Sequence[tuple[str, int, int, float]]) -> None:
        for *_, value in points:
            exact = decimal.Decimal(repr(value)) * MICROSECONDS
            whole = exact.to_integral_value(decimal.ROUND_HALF_EVEN)
            self.sum += int(whole)
            self.exact += exact
            self.rounded_by += abs(exact - whole)
            self.rounded += exact != whole


class Urllib(Way):
    """Python's urllib, which opens a connection for each post."""

    def once(self, body: bytes) -> Attempt:
        request = urllib.request.Request(f"http://127.0.0.1:{self.port}/v1/metrics", body, self.headers)
        try:
            with urllib.request.urlopen(request, timeout=60) as answer:
                return answer.status, None, answer.read()
        except urllib.error.HTTPError as error:
            return error.code, error.headers["Retry-After"], error.read()
        except OSError:
            return None, None, b""


class Curl(Way):
    """One curl process for each post; with --retry, curl itself obeys Retry-After. The response must contain `head`."""

    def __init__(self, *words: Any, options: list[str], head: bytes = b"HTTP/1.1 200", **more: Any) -> None:
        super().__init__(*words, **more)
        self.options, self.head = options, head

    def once(self, body: bytes) -> Attempt:
        with tempfile.TemporaryDirectory(prefix="curl-") as folder:
            words = ["curl", "-sS", "-X", "POST", "-D", f"{folder}/head", "-o", f"{folder}/body", "-w", "%{http_code}"]
            headers = [f"-H{name}: {value}" for name, value in self.headers.items()]
            ran = subprocess.run([*words, *headers, *self.options, f"http://127.0.0.1:{self.port}/v1/metrics"], input=body,
                                 stdout=subprocess.PIPE, stderr=subprocess.DEVNULL, check=False, timeout=120)
            if ran.returncode != 0:
                return None, None, b""
            head, text = (content(f"{folder}/{name}") for name in ("head", "body"))
        after = re.search(rb"(?i)\nretry-after: (\d+)", head)
        if ran.stdout == b"200" and self.head not in head:
            self.surprise = f"no {self.head!r} in {head!r}"
        return int(ran.stdout), after[1] if after else None, text


class Large(Curl):
    """Posts of 20 points, more than 1 KiB."""

    points_of_a_post = 20


class External:
    """A way that another program runs. Its figures come from the file that the program writes."""

    def __init__(self, series: str, folder: str) -> None:
        self.series, self.path = series, f"{folder}/{series}"
        self.taken = self.sum = self.repeats = self.connections = 0
        self.surprise: bytes | None = None

    def read(self) -> None:
        with contextlib.suppress(ValueError):  # the program is just writing it
            self.taken, self.sum, self.repeats, self.connections = map(int, content(self.path).split())
        self.surprise = content(f"{self.path}.surprise") or None


def own_ways(port: int, stop: threading.Event, message: Any) -> list[Way]:
    """The ways of curl and of Python."""
    again = ["--retry", "60"]

    def protobuf(points: Sequence[Any]) -> bytes:
        return by_library(message, points)
    packed: dict[str, Any] = {"encode": lambda points: gzip.compress(protobuf(points)), "kind": PROTOBUF,
                              "headers": {"Content-Encoding": "gzip"}}
    in_protobuf: dict[str, Any] = {"encode": protobuf, "kind": PROTOBUF}
    given = (port, stop)
    return [
        Curl("curl.json", *given, options=["--data-binary", "@-", *again]),
        Curl("curl.protobuf.gzip", *given, options=["--data-binary", "@-", *again], **packed),
        Large("curl.expect", *given, options=["--data-binary", "@-", *again], head=b"HTTP/1.1 100",
              headers={"Expect": "100-continue"}),
        Curl("curl.http1.0", *given, options=["--data-binary", "@-", "-0", *again]),
        Curl("curl.chunked", *given, options=["-T", "-"], headers={"Transfer-Encoding": "chunked"}),
        Kept("python.kept.json", *given), Kept("python.kept.protobuf", *given, **in_protobuf),
        Urllib("python.urllib.json", *given), Urllib("python.urllib.protobuf", *given, **in_protobuf),
        InSeconds("python.seconds.7", *given, 7), InSeconds("python.seconds.9", *given, 9)]


class Programs:
    """The ways of Node and Java, if they are installed."""

    ALL = {"node": (NODE, ["node", f"{HERE}/client.mjs"], ["node.http", "node.fetch"]),
           "java": (JAVA, ["java", "-Xmx128m", "-XX:TieredStopAtLevel=1", f"{HERE}/Client.java"], ["java.default", "java.http1"])}

    def __init__(self, port: int, folder: str, message: Any) -> None:
        self.folder = folder
        self.left_out: list[str] = []
        self.ways: list[External] = []
        self.running: dict[str, subprocess.Popen[bytes]] = {}
        os.mkdir(f"{folder}/bodies")
        for name, ((asked, said), words, ways) in self.ALL.items():
            if not shutil.which(name) or not said.search(subprocess.run(asked, stdout=subprocess.PIPE, text=True, check=False).stdout):
                self.left_out.append(name)
                continue
            self.ways += [External(f"{way}.{kind}", folder) for way in ways for kind in ("json", "protobuf")]
            for way in ways:
                write_bodies(f"{folder}/bodies", f"{way}.protobuf", message)
            with open(f"{folder}/{name}.log", "wb") as log:
                self.running[name] = subprocess.Popen([*words, str(port), folder, str(PAUSE)], stdin=subprocess.DEVNULL,
                                                      stdout=log, stderr=log)

    def end(self) -> dict[str, tuple[int | str, bytes]]:
        """The status and the end of the log of each program that failed."""
        with open(f"{self.folder}/stop", "wb"):
            pass
        found: dict[str, tuple[int | str, bytes]] = {}
        for name, process in self.running.items():
            status: int | str
            try:
                status = process.wait(60)
            except subprocess.TimeoutExpired:
                process.kill()
                status = "no end"
            if status != 0:
                found[name] = (status, content(f"{self.folder}/{name}.log")[-500:])
        return found

    def kill(self) -> None:
        for process in self.running.values():
            process.kill()
            process.wait()


def write_bodies(folder: str, series: str, message: Any) -> None:
    for place in range(BODIES):
        with open(f"{folder}/{series}.{place}", "wb") as file:
            file.write(by_library(message, [(series, *span(place), 1 + place % 9)]))


# --------------------------------------------------------------------------------------------------------------------
# wrk


class Wrk:
    """A run of wrk. Counts for each series the accepted posts, the answers 503 and all other answers."""

    def __init__(self, port: int, folder: str, name: str) -> None:
        self.path, many = f"{folder}/{name}", str(WRK_CONNECTIONS)
        words = ["wrk", "-t", many, "-c", many, "-d", "600s", "--timeout", "60s", "-s", f"{HERE}/load.lua",
                 f"http://127.0.0.1:{port}/v1/metrics", "--", name, self.path]
        self.process = subprocess.Popen(words, stdin=subprocess.DEVNULL, stdout=subprocess.DEVNULL, stderr=subprocess.DEVNULL)

    def end(self, checks: Checks, what: str) -> None:
        self.process.send_signal(signal.SIGINT)
        checks.same(f"{what} ends", 0, self.process.wait(90))
        *lines, (_, completed, errors) = [line.split() for line in content(self.path).decode().splitlines()]
        self.series: dict[str, tuple[int, ...]] = {name: tuple(map(int, counts)) for name, *counts in lines}
        self.taken = {name: taken for name, (taken, _, _) in self.series.items()}
        checks.same(f"{what}: no answer is another one, and no connection fails", (0, 0),
                    (sum(others for *_, others in self.series.values()), int(errors)))
        checks.same(f"{what}: it has counted each of its requests", int(completed), sum(sum(counts) for counts in self.series.values()))
        checks.true(f"{what}: each connection has posted", min(self.taken.values()) > 0, self.series)

    def kill(self) -> None:
        self.process.kill()
        self.process.wait()
