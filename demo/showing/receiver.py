"""Another receiver of OTLP, which keeps of each program the last value of its gauge: such as a Collector would be."""
import http.server
import json
import struct
import threading
from collections.abc import Callable, Iterator

from testing.loopback import free_port

GAUGE = "shop.queue"
# Program, metric, time and value.
GaugePoint = tuple[str, str, int, int]


class Receiver:
    """Has what it was sent: by program when its last value was measured, and that; and how many points these were."""

    def __init__(self) -> None:
        self.last: dict[str, tuple[int, int]] = {}
        self.points = 0
        self.others: list[str] = []
        self.port = free_port()
        receiver = self

        class Handler(http.server.BaseHTTPRequestHandler):
            protocol_version = "HTTP/1.1"

            def do_POST(self) -> None:
                body = self.rfile.read(int(self.headers["Content-Length"]))
                read = in_json if "json" in self.headers["Content-Type"] else in_protobuf
                for point in read(body):
                    receiver.take(*point)
                self.send_response(200)
                self.send_header("Content-Length", "0")
                self.end_headers()

            def log_message(self, *_: object) -> None:
                pass

        self.server = http.server.ThreadingHTTPServer(("127.0.0.1", self.port), Handler)
        threading.Thread(target=self.server.serve_forever, daemon=True).start()

    def take(self, program: str, name: str, time: int, value: int) -> None:
        if name != GAUGE:
            self.others.append(name)
            return
        self.points += 1
        self.last[program] = max(self.last.get(program, (0, 0)), (time, value))

    def value(self, program: str) -> int | None:
        return self.last.get(program, (0, None))[1]

    def close(self) -> None:
        self.server.shutdown()
        self.server.server_close()


def in_json(body: bytes) -> Iterator[GaugePoint]:
    """The points of a request: program, metric, time, value. What is no gauge has no value."""
    for resource in json.loads(body)["resourceMetrics"]:
        program = next(one["value"]["stringValue"] for one in resource["resource"]["attributes"] if one["key"] == "service.instance.id")
        for scope in resource["scopeMetrics"]:
            for metric in scope["metrics"]:
                for point in metric.get("gauge", {"dataPoints": [{}]})["dataPoints"]:
                    yield program, metric["name"], int(point.get("timeUnixNano", 0)), int(point.get("asInt", 0))


def in_protobuf(body: bytes) -> Iterator[GaugePoint]:
    """The same. The numbers of fields are those of opentelemetry/proto/metrics/v1/metrics.proto."""
    for resource in every(body, 1):
        attributes = {first(pair, 1): first(first(pair, 2, b""), 1) for pair in every(first(resource, 1), 1)}
        for scope in every(resource, 2):
            for metric in every(scope, 2):
                for point in every(first(metric, 5, b"\n\0"), 1):
                    time, value = (struct.unpack("<q", first(point, number, bytes(8)))[0] for number in (3, 6))
                    yield attributes[b"service.instance.id"].decode(), first(metric, 1).decode(), time, value


def every(message: bytes, number: int) -> Iterator[bytes]:
    """Each value of a field that has a length or eight bytes."""
    at = 0
    while at < len(message):
        key, at = varint(message, at)
        kinds: dict[int, Callable[[], tuple[int, int]]] = {
            0: lambda: (0, varint(message, at)[1]), 1: lambda: (8, at), 2: lambda: varint(message, at)}
        length, at = kinds[key & 7]()
        if key >> 3 == number:
            yield message[at:at + length]
        at += length


def first(message: bytes, number: int, default: bytes = None) -> bytes:
    return next(every(message, number), default)


def varint(message: bytes, at: int) -> tuple[int, int]:
    """A number, and where it ends."""
    number, shift = 0, 0
    while True:
        byte = message[at]
        number |= (byte & 127) << shift
        at, shift = at + 1, shift + 7
        if byte < 128:
            return number, at
