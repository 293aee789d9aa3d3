"""Parts that tests of the service share: its process, senders that retry and add up what was accepted, and sinks that a test can read."""
import contextlib
import gzip
import http.client
import http.server
import json
import os
import random
import signal
import socket
import sqlite3
import struct
import subprocess
import threading
import time
import zlib
from collections.abc import Callable, Iterable, Iterator, Mapping, Sequence
from typing import Any, Protocol

from testing.loopback import free_port

DELTA = 1
SECONDS = 60
BOUNDS = [1, 5, 25]
JSON, PROTOBUF = "application/json", "application/x-protobuf"
# The bodies of an answer that rejects no point, neither a new one nor a duplicate: in JSON, and in protobuf.
WHOLE = (b"{}", b"")
# Statuses after which a sender retries.
AGAIN = (403, 429, 502, 503, 504)
# A value is a whole number for a monotonic sum and (buckets, sum) for a histogram. A point is a name, a start, an end and a value.
Value = int | tuple[tuple[int, ...], float]
Point = tuple[str, int, int, Value]
# A post is a body with its headers. An answer is a status with its body, or None with the reason why there is no answer.
Post = tuple[bytes, dict[str, str]]
Answer = tuple[int | None, bytes]


class AtSocket(http.client.HTTPConnection):
    """An HTTP connection over a Unix socket."""

    def __init__(self, path: str, seconds: float = 20) -> None:
        super().__init__("localhost", timeout=seconds)
        self.path = path

    def connect(self) -> None:
        self.sock = socket.socket(socket.AF_UNIX)
        self.sock.settimeout(self.timeout)
        self.sock.connect(self.path)


def ask(port: int | str, method: str, path: str, body: bytes | str = b"", headers: Mapping[str, str] | None = None,
        seconds: float = 20, host: str = "127.0.0.1") -> Answer:
    """The status and body of an answer, or (None, reason). `port` may be the path of a Unix socket."""
    connection = AtSocket(port, seconds) if isinstance(port, str) else http.client.HTTPConnection(host, port, timeout=seconds)
    try:
        connection.request(method, path, body, headers or {})
        answer = connection.getresponse()
        return answer.status, answer.read()
    except (OSError, http.client.HTTPException) as error:
        return None, f"{type(error).__name__} {error}".encode()
    finally:
        connection.close()


def wait_until(what: Callable[[], object], seconds: float = SECONDS) -> bool:
    """Returns whether `what` came true in time. The pause between two tries grows, since a try may start a process."""
    until, pause = time.monotonic() + seconds, 0.01
    while not what():
        if time.monotonic() > until:
            return False
        time.sleep(pause)
        pause = min(1.1 * pause, 0.1)
    return True


def is_stopped(pid: int) -> bool:
    """Whether all threads of a process are stopped. A process that is gone counts as stopped."""
    with contextlib.suppress(OSError):
        for thread in os.listdir(f"/proc/{pid}/task"):
            with open(f"/proc/{pid}/task/{thread}/stat", encoding="utf-8") as file:
                if file.read().rpartition(")")[2].split()[0] not in "TXZ":
                    return False
    return True


# --------------------------------------------------------------------------------------------------------------------
# The program


class Service:
    """A process of the service on a data folder, which a test can kill and start again. The words `before` run it on
    another machine, whose address is `host`."""

    def __init__(self, program: str, data: str, sink: str, *options: str, host: str = "127.0.0.1",
                 ports: tuple[int, int] | None = None, before: Sequence[str] = ()) -> None:
        self.host = host
        self.listen, self.operate = ports or (free_port(), free_port())
        places = ["--listen", f"{host}:{self.listen}", "--admin", f"{host}:{self.operate}"]
        places += [] if host.startswith("127.") else ["--behind-proxy"]
        places += [] if "--listen-grpc" in options else ["--listen-grpc", "off"]
        self.words = [*before, program, "serve", "--data", data, "--sink", sink, *places, *options]
        # Points of these tests end in 1970, so a finite age would delete their intervals. Old versions do not know the
        # setting, hence only if a database needs it.
        self.settings = {} if sink.startswith("http") else {"TOTXEGUN_KEEP_INTERVALS": "forever"}
        self.log = f"{data}.log"
        elsewhere = [word.removeprefix("unix:") for word in options if word.startswith("unix:")]
        self.data, self.socket = data, [*elsewhere, f"{data}/admin.sock"][0]
        self.process: subprocess.Popen[bytes] = None

    def start(self, environment: Mapping[str, str] | None = None) -> None:
        with open(self.log, "ab") as log:
            self.process = subprocess.Popen(self.words, stdin=subprocess.DEVNULL, stdout=log, stderr=log,
                                            env=dict(os.environ, **self.settings, **environment or {}))

    def is_running(self) -> bool:
        return self.process is not None and self.process.poll() is None

    def asked(self, method: str, path: str, seconds: float = 20, body: bytes = b"") -> Answer:
        """What the admin addresses answer, of which the socket takes orders."""
        is_order = method == "POST" or path.startswith(("/dead-letters", "/late", "/report"))
        at: int | str = self.socket if is_order and os.path.exists(self.socket) else self.operate
        return ask(at, method, path, body, seconds=seconds, host=self.host)

    def is_ready(self) -> bool:
        return self.asked("GET", "/readyz", 2)[0] == 200

    def wait_ready(self, seconds: float = SECONDS) -> bool:
        """Whether the service accepted posts in time; False at once if the process ends."""
        return wait_until(lambda: not self.is_running() or self.is_ready(), seconds) and self.is_running()

    def signal(self, number: int) -> None:
        """Sends a signal. After SIGSTOP it waits until all threads have stopped, since the others run on until one of them receives it."""
        if self.is_running():
            self.process.send_signal(number)
            if number == signal.SIGSTOP:
                wait_until(lambda: is_stopped(self.process.pid), 5)

    def kill(self) -> None:
        """Kills the process with SIGKILL."""
        if self.process is not None:
            self.signal(signal.SIGKILL)
            self.process.wait()

    def end(self, seconds: float = SECONDS) -> tuple[int | None, float]:
        """Ends the process by SIGTERM; returns its status and the seconds it took. The status is None if it had to be killed."""
        begun = time.monotonic()
        self.signal(signal.SIGTERM)
        try:
            return self.process.wait(seconds), time.monotonic() - begun
        except subprocess.TimeoutExpired:
            self.kill()
            return None, time.monotonic() - begun

    def order(self, path: str, seconds: float = SECONDS) -> int | None:
        """Sends an operator's order and returns the status."""
        return self.asked("POST", path, seconds)[0]

    def status(self) -> Any:
        status, body = self.asked("GET", "/status")
        return json.loads(body) if status == 200 else None

    def is_drained(self) -> bool:
        """Whether the service is ready and the outbox of each shard is empty."""
        status = self.status()
        return status is not None and status["ready"] and all(shard["waiting"] == 0 for shard in status["shards"])

    def has_delivered_all(self, seconds: float = SECONDS) -> bool:
        """Flushes and waits until the sink has everything. A process that has just started refuses the order, and with
        nothing flushed `is_drained` alone would hold at once."""
        return wait_until(lambda: self.order("/flush") == 200, seconds) and wait_until(self.is_drained, seconds)

    def faults(self) -> list[str]:
        """The lines of `totxegun_faults_total` that are not 0, which must never happen."""
        status, page = self.asked("GET", "/metrics")
        lines = page.decode().splitlines() if status == 200 else ["no metrics"]
        return [line for line in lines if line.startswith("totxegun_faults_total") and not line.endswith(" 0")] or (
            lines if status != 200 else [])

    def last_lines(self, count: int = 12) -> str:
        """The end of the log, to be shown for a failed check."""
        with open(self.log, encoding="utf-8", errors="replace") as file:
            return "".join(file.readlines()[-count:])


# --------------------------------------------------------------------------------------------------------------------
# Points and their sums


def added(total: Value | None, value: Value) -> Value:
    """A total (None at the beginning) with a value added."""
    if total is None:
        return value
    if isinstance(total, int) and isinstance(value, int):
        return total + value
    assert isinstance(total, tuple) and isinstance(value, tuple), f"{total} and {value}"
    return tuple(a + b for a, b in zip(total[0], value[0])), total[1] + value[1]


def add_points(totals: dict[str, Value], points: Iterable[Point]) -> None:
    for name, _, _, value in points:
        totals[name] = added(totals.get(name), value)


def metrics_in_json(points: Sequence[Point]) -> list[Any]:
    metrics = []
    for name, start, end, value in points:
        point: dict[str, Any] = {"startTimeUnixNano": str(start), "timeUnixNano": str(end)}
        if isinstance(value, int):
            kind, more = "sum", {"isMonotonic": True}
            point["asInt"] = str(value)
        else:
            kind, more = "histogram", {}
            point |= {"bucketCounts": [str(count) for count in value[0]], "count": str(sum(value[0])), "sum": value[1],
                      "explicitBounds": BOUNDS}
        metrics.append({"name": name, kind: {"aggregationTemporality": DELTA, "dataPoints": [point], **more}})
    return metrics


def in_json(points: Sequence[Point]) -> bytes:
    """A JSON request with these points."""
    return json.dumps({"resourceMetrics": [{"scopeMetrics": [{"metrics": metrics_in_json(points)}]}]}).encode()


def varint(number: int) -> bytes:
    out = b""
    while number > 127:
        out += bytes([number & 127 | 128])
        number >>= 7
    return out + bytes([number])


def field(number: int, value: int | bytes) -> bytes:
    """A field of protobuf: bytes, or a small number."""
    if isinstance(value, int):
        return varint(number << 3) + varint(value)
    return varint(number << 3 | 2) + varint(len(value)) + value


def fixed(number: int, form: str, value: float) -> bytes:
    """A field of eight bytes."""
    return varint(number << 3 | 1) + struct.pack(form, value)


def metrics_in_protobuf(points: Sequence[Point]) -> bytes:
    metrics = b""
    for name, start, end, value in points:
        point = fixed(2, "<Q", start) + fixed(3, "<Q", end)
        if isinstance(value, int):
            data = field(7, field(1, point + fixed(6, "<q", value)) + field(2, DELTA) + field(3, 1))
        else:
            point += fixed(4, "<Q", sum(value[0])) + fixed(5, "<d", value[1])
            point += field(6, struct.pack(f"<{len(value[0])}Q", *value[0])) + field(7, struct.pack(f"<{len(BOUNDS)}d", *BOUNDS))
            data = field(9, field(1, point) + field(2, DELTA))
        metrics += field(2, field(1, name.encode()) + data)
    return metrics


def in_protobuf(points: Sequence[Point]) -> bytes:
    """The same request in protobuf."""
    return field(1, field(2, metrics_in_protobuf(points)))


def by_resource(kind: str, groups: Mapping[str, Sequence[Point]]) -> bytes:
    """A request with several resources, each named by its `service.instance.id`, in JSON or protobuf."""
    if kind == JSON:
        key = "service.instance.id"
        resources = [{"resource": {"attributes": [{"key": key, "value": {"stringValue": name}}]},
                      "scopeMetrics": [{"metrics": metrics_in_json(points)}]} for name, points in groups.items()]
        return json.dumps({"resourceMetrics": resources}).encode()
    body = b""
    for name, points in groups.items():
        attribute = field(1, b"service.instance.id") + field(2, field(1, name.encode()))
        body += field(1, field(1, field(1, attribute)) + field(2, metrics_in_protobuf(points)))
    return body


def forwarded_points(body: bytes) -> Iterator[Point]:
    """The points of a JSON request that the service sent to the sink."""
    for resource in json.loads(body)["resourceMetrics"]:
        for scope in resource["scopeMetrics"]:
            for metric in scope["metrics"]:
                for kind in ("sum", "histogram"):
                    for one in metric.get(kind, {}).get("dataPoints", ()):
                        yield metric["name"], int(one["startTimeUnixNano"]), int(one["timeUnixNano"]), forwarded_value(one)


def forwarded_value(one: Any) -> Value:
    if "asInt" in one:
        return int(one["asInt"])
    return tuple(int(count) for count in one["bucketCounts"]), one["sum"]


def overlaps(points: Iterable[Point]) -> list[str]:
    """The names of series with two intervals that overlap, which means that something was counted twice."""
    last: dict[str, int] = {}
    found: set[str] = set()
    for name, start, end, _ in sorted(points):
        if start < last.get(name, 0):
            found.add(name)
        last[name] = end
    return sorted(found)


def differences(wanted: Mapping[str, object], found: Mapping[str, object]) -> list[str]:
    """Descriptions of the first series that differ; empty if none does."""
    names = [name for name in sorted(wanted.keys() | found.keys()) if wanted.get(name) != found.get(name)]
    return [f"{name}: senders were told {wanted.get(name)}, the sink has {found.get(name)}" for name in names[:5]]


# --------------------------------------------------------------------------------------------------------------------
# Senders


class Listening(Protocol):
    """What a sender needs from a service."""

    listen: int


class Sender:
    """Posts points of its own series over a connection that it keeps, and retries each post until it is answered.
    `told` has the accepted points, added up by series."""

    def __init__(self, service: Listening, number: int | str, seed: object = 0, seconds: float = 3) -> None:
        self.service, self.host = service, "127.0.0.1"
        self.name = f"sender-{number}"
        self.chance = random.Random(f"{seed} {number}")
        self.seconds = seconds
        self.connection: http.client.HTTPConnection = None
        self.time = 1_000_000_000
        self.told: dict[str, Value] = {}
        self.surprises: list[Answer] = []
        self.posts = self.repeats = 0
        # The last post that was accepted; `late_repeat` sends it again.
        self.last: Post = None

    def next_points(self) -> list[Point]:
        """Two or four points, one sum and one histogram for each of one or two numbers. Each interval begins at the end
        of the one before or later."""
        points: list[Point] = []
        for which in range(self.chance.randrange(1, 3)):
            start = self.time + self.chance.choice([0, 0, 5])
            value = self.chance.randrange(1, 1000)
            buckets = tuple(self.chance.randrange(5) for _ in range(len(BOUNDS) + 1))
            points.append((f"{self.name}.sum.{which}", start, start + 10, value))
            points.append((f"{self.name}.histogram.{which}", start, start + 10, (buckets, value)))
        self.time += 20
        return points

    def encoded(self, points: Sequence[Point]) -> Post:
        """A body with its headers: JSON or protobuf, compressed or not."""
        kind, write = self.chance.choice([(JSON, in_json), (PROTOBUF, in_protobuf)])
        body, headers = write(points), {"Content-Type": kind, "x-sender": self.name}
        if self.chance.random() < 0.3:
            body, headers["Content-Encoding"] = gzip.compress(body, 1), "gzip"
        return body, headers

    def try_once(self, body: bytes, headers: dict[str, str]) -> Answer:
        """The answer to one attempt on the kept connection, or (None, reason)."""
        try:
            if self.connection is None:
                self.connection = http.client.HTTPConnection(self.host, self.service.listen, timeout=self.seconds)
            self.connection.request("POST", "/v1/metrics", body, headers)
            answer = self.connection.getresponse()
            return answer.status, answer.read()
        except (OSError, http.client.HTTPException) as error:
            self.connection.close()
            self.connection = None
            return None, type(error).__name__.encode()

    def post(self, points: Sequence[Point], between: Callable[[], object] = lambda: None) -> bool:
        """Retries a post until it is answered, and returns whether it was accepted. Calls `between` before each retry."""
        body, headers = self.encoded(points)
        for attempt in range(1_000_000):
            status, text = self.try_once(body, headers)
            if status == 200:
                if text not in WHOLE:
                    self.surprises.append((status, text))
                self.note(points, (body, headers))
                return True
            if status is not None and status not in AGAIN:
                self.surprises.append((status, text))
                return False
            self.repeats += 1
            time.sleep(min(0.01 * (attempt + 1), 0.2))
            between()
        return False

    def note(self, points: Sequence[Point], last: Post) -> None:
        self.posts += 1
        add_points(self.told, points)
        self.last = last

    def late_repeat(self) -> Answer:
        """The answer to a duplicate of the last accepted post. Raises TimeoutError if none comes in time."""
        until = time.monotonic() + SECONDS
        while self.last:
            answer = self.try_once(*self.last)
            if answer[0] not in (None, *AGAIN):
                return answer
            if time.monotonic() > until:
                raise TimeoutError(f"a repeat of the last post of {self.name} is not answered within {SECONDS} s: {answer}")
            time.sleep(0.1)
        return 200, WHOLE[0]

    def close(self) -> None:
        if self.connection is not None:
            self.connection.close()


def is_whole(answer: Answer) -> bool:
    """Whether the answer rejects no point."""
    return answer[0] == 200 and answer[1] in WHOLE


class Bursts:
    """Decides when senders post: from shortly before each fault until it is over, so that faults meet posts in flight.
    In between they wait."""

    SECONDS = 0.3

    def __init__(self) -> None:
        self.are_on = threading.Event()
        self.are_on.set()

    def before(self, pause: float) -> None:
        """Waits this long. Senders post for the last part of it only."""
        self.are_on.clear()
        time.sleep(max(pause - self.SECONDS, 0))
        self.are_on.set()
        time.sleep(min(pause, self.SECONDS))


def told_to_all(senders: Iterable[Sender]) -> dict[str, Value]:
    """What all senders know to be accepted, by series."""
    return {name: total for sender in senders for name, total in sender.told.items()}


# --------------------------------------------------------------------------------------------------------------------
# Sinks


class Told(Protocol):
    """What a test can ask a sink."""

    def points(self) -> list[Point]: ...

    def wrong(self) -> list[str]: ...


class Sink(Told, Protocol):
    """What the two sinks below and the sinks of other scripts have."""

    address: str

    def mood(self, moods: Sequence[str]) -> None: ...

    def close(self) -> None: ...


class SqliteSink:
    """The SQLite database that the service writes."""

    def __init__(self, path: str) -> None:
        self.path = path
        self.address = f"sqlite:{path}"

    def points(self) -> list[Point]:
        if not os.path.exists(self.path):
            return []
        database = sqlite3.connect(f"file:{self.path}?mode=ro", uri=True)
        rows = database.execute("select name, start_ns, end_ns, value, sum, buckets from intervals"
                                " join series on series.id = intervals.series").fetchall()
        database.close()
        return [(name, int(start), int(end), value if buckets is None else (tuple(map(int, json.loads(buckets))), total))
                for name, start, end, value, total, buckets in rows]

    def mood(self, moods: Sequence[str]) -> None:
        """Does nothing: a file always accepts."""

    def wrong(self) -> list[str]:
        return []

    def close(self) -> None:
        pass


class OtlpSink:
    """An OTLP/HTTP sink that counts each key once. It draws one of its moods for each request: `well`, `late` (answers
    after 0.3 s), `busy` (503), `refuse` (400), `deny` (401), `silent` (drops the request and the connection), `lose`
    (accepts, and drops the connection)."""

    def __init__(self, seed: object = 0, host: str = "127.0.0.1") -> None:
        self.chance = random.Random(f"sink {seed}")
        self.moods: Sequence[str] = ["well"]
        self.lock = threading.Lock()
        self.taken: dict[str, bytes] = {}
        self.read: dict[str, list[Point]] = {}
        self.seen: dict[str, int] = {}
        self.broken: list[str] = []
        sink = self

        class Handler(http.server.BaseHTTPRequestHandler):
            protocol_version = "HTTP/1.1"

            def handle(self) -> None:
                with contextlib.suppress(ConnectionError):  # The service may be killed during a request.
                    super().handle()

            def do_POST(self) -> None:
                sink.serve(self)

            def log_message(self, *_: object) -> None:
                pass

        self.server = http.server.ThreadingHTTPServer((host, 0), Handler)
        self.server.daemon_threads = True
        threading.Thread(target=self.server.serve_forever, daemon=True).start()
        self.address = f"http://{host}:{self.server.server_port}/v1/metrics"

    def mood(self, moods: Sequence[str]) -> None:
        self.moods = moods

    def serve(self, request: http.server.BaseHTTPRequestHandler) -> None:
        body = request.rfile.read(int(request.headers["Content-Length"]))
        key = request.headers["Idempotency-Key"]
        with self.lock:
            mood = self.chance.choice(self.moods)
            self.look_at(key, body)
            if mood in ("well", "late", "lose"):
                self.taken.setdefault(key, body)
        if mood == "late":
            time.sleep(0.3)
        if mood in ("silent", "lose"):
            request.close_connection = True
            return
        request.send_response({"busy": 503, "refuse": 400, "deny": 401}.get(mood, 200))
        if mood == "busy":
            request.send_header("Retry-After", "0")
        request.send_header("Content-Length", "2")
        request.end_headers()
        request.wfile.write(b"{}")

    def look_at(self, key: str | None, body: bytes) -> None:
        """Checks that each request with the same key has the same bytes."""
        if not key:
            self.broken.append("a request without a key")
        elif self.seen.setdefault(key, zlib.crc32(body)) != zlib.crc32(body):
            self.broken.append(f"other bytes under the key {key}")

    def points(self) -> list[Point]:
        with self.lock:
            for key in self.taken.keys() - self.read.keys():
                self.read[key] = list(forwarded_points(self.taken[key]))
            return [point for key in self.taken for point in self.read[key]]

    def wrong(self) -> list[str]:
        return self.broken

    def close(self) -> None:
        self.server.shutdown()
        self.server.server_close()
