#!/usr/bin/env python3
"""Posts by each example of docs/COLLECTOR.md as its sender would.

    tests/collector.py TOTXEGUN

The test reads the endpoint, headers, compression and encoding of each example, and posts cumulative points by them over
HTTP or gRPC, as an
SDK or a Collector does. Each must be accepted, and the sink must have it under the name that the example gives its sender. A duplicate
after a kill of the service, as a queue on disk sends it, must count once. A Collector's settings must lose nothing: no batch in memory, a
queue on disk, one consumer, endless retries; and a request of the page's size must be below the limit. It needs PyYAML and
python3-grpcio; without them everything is left out, with status 77.

Each line is a check; the last line counts passes and failures. The status is 0 if none failed.
"""
import gzip
import importlib.util
import os
import re
import sqlite3
import sys
import tempfile
import time
import urllib.parse
from typing import Any

# Debian's packages are for Debian's Python.
if importlib.util.find_spec("grpc") is None and os.path.realpath(sys.executable) != os.path.realpath("/usr/bin/python3"):
    os.execv("/usr/bin/python3", ["/usr/bin/python3", *sys.argv])

from testing import ROOT
from testing.checks import Checks
from testing.loopback import free_port
from testing.service import PROTOBUF, Service, ask, field, fixed, wait_until
from tooling.files import text_of

PAGE = f"{ROOT}/docs/COLLECTOR.md"
HTTP, GRPC = 4318, 4317
CUMULATIVE = 2
METHOD = "/opentelemetry.proto.collector.metrics.v1.MetricsService/Export"
# From the page: "2,000 points with ten attributes is some 1 MB".
POINTS, ATTRIBUTES, LIMIT = 2_000, 10, 4 << 20
# A cumulative series begins when its process begins.
START = time.time_ns() - 60 * 10**9


class Way:
    """How a sender posts, as an example describes it."""

    def __init__(self, endpoint: str, headers: dict[str, str], is_packed: bool) -> None:
        self.endpoint, self.headers, self.is_packed = urllib.parse.urlsplit(endpoint), headers, is_packed

    def post(self, service: Service, port: int, body: bytes) -> str:
        """Posts a body. Returns "" if everything was accepted, and the answer otherwise."""
        if self.endpoint.port == GRPC:
            return self.call(port, body)
        headers = {"Content-Type": PROTOBUF, **self.headers, **({"Content-Encoding": "gzip"} if self.is_packed else {})}
        status, text = ask(service.listen, "POST", self.endpoint.path, gzip.compress(body) if self.is_packed else body, headers)
        return "" if (status, text) == (200, b"") else f"{status} {text!r}"

    def call(self, port: int, body: bytes) -> str:
        import grpc
        packing = grpc.Compression.Gzip if self.is_packed else grpc.Compression.NoCompression
        with grpc.insecure_channel(f"127.0.0.1:{port}") as channel:
            call = channel.unary_unary(METHOD, request_serializer=bytes, response_deserializer=bytes)
            try:
                answer = call(body, timeout=20, metadata=tuple(self.headers.items()), compression=packing)
                return "" if answer == b"" else repr(answer)
            except grpc.RpcError as error:
                return f"{error.code().name} {error.details()}"


def blocks(kind: str) -> list[str]:
    return re.findall(rf"^```{kind}\n(.*?)^```$", text_of(PAGE), re.DOTALL | re.MULTILINE)


def of_sdk(block: str) -> tuple[Way, dict[str, str]]:
    """How an SDK with these environment variables posts, and its resource."""
    variables = dict(line.split("=", 1) for line in block.splitlines() if line)
    name = "OTEL_EXPORTER_OTLP_METRICS_"
    pairs = [pair.split("=", 1) for pair in variables[f"{name}HEADERS"].split(",")]
    headers = {key: urllib.parse.unquote(value) for key, value in pairs}
    resource = dict(pair.split("=", 1) for pair in variables["OTEL_RESOURCE_ATTRIBUTES"].split(","))
    return Way(variables[f"{name}ENDPOINT"], headers, variables.get(f"{name}COMPRESSION") == "gzip"), resource


def of_collector(exporter: str, settings: dict[str, Any]) -> Way:
    """Over HTTP a Collector adds the path to its endpoint; for gRPC the endpoint is a host and a port."""
    endpoint = settings["endpoint"]
    whole = f"{endpoint}/v1/metrics" if exporter.startswith("otlphttp") else f"http://{endpoint}"
    return Way(whole, settings["headers"], settings["compression"] == "gzip")


def text_attribute(key: str, value: str) -> bytes:
    return field(1, key.encode()) + field(2, field(1, value.encode()))


def request(resource: dict[str, str], name: str, total: int, points: int = 1) -> bytes:
    """A request with the present cumulative totals of series of this resource."""
    end = START + total * 10**9
    data = b""
    for number in range(points):
        more = [text_attribute(f"some.attribute.{key}", f"a value of some length {number}") for key in range(ATTRIBUTES)]
        data += field(1, b"".join(field(7, it) for it in (more if points > 1 else [])) + fixed(2, "<Q", START) + fixed(3, "<Q", end)
                      + fixed(6, "<q", total))
    metric = field(2, field(1, name.encode()) + field(7, data + field(2, CUMULATIVE) + field(3, 1)))
    attributes = b"".join(field(1, text_attribute(*pair)) for pair in resource.items())
    return field(1, field(1, attributes) + field(2, metric))


def senders_in(path: str) -> dict[str, tuple[str, int]]:
    """For each instance the sender of its series `orders`, and the series' total."""
    database = sqlite3.connect(f"file:{path}?mode=ro", uri=True)
    rows = database.execute("select resource ->> '$.\"service.instance.id\"', sender, total_low from series join series_totals"
                            " on series_totals.series = series.id where name = 'orders'").fetchall()
    database.close()
    return {instance: (sender, total) for instance, sender, total in rows}


def look_at_collector(checks: Checks, texts: list[str]) -> list[tuple[str, Way]]:
    import yaml
    ways = []
    for text in texts:
        settings = yaml.safe_load(text)
        checks.same("no batch is in memory alone", None, settings.get("processors"))
        for exporter, its in settings["exporters"].items():
            queue, retry = its["sending_queue"], its["retry_on_failure"]
            checks.same(f"{exporter}: its queue is on the disk, with one consumer", (True, 1, "file_storage"),
                        (queue["enabled"], queue["num_consumers"], queue["storage"]))
            checks.same(f"{exporter}: it sends again for ever", (True, "0s"), (retry["enabled"], retry["max_elapsed_time"]))
            ways.append((exporter, of_collector(exporter, its)))
    whole = yaml.safe_load(texts[0])
    named = {*whole["service"]["extensions"], *(it for part in whole["service"]["pipelines"]["metrics"].values() for it in part)}
    there = {name for part in ("extensions", "receivers", "exporters") for name in whole[part]}
    checks.same("what the pipeline names is there, and all that is there is used", there, named)
    return ways


def run(checks: Checks, program: str, folder: str) -> None:
    port = free_port()
    service = Service(program, f"{folder}/data", f"sqlite:{folder}/sink.db", "--listen-grpc", f"127.0.0.1:{port}")
    ways = [(f"SDK {number}", *of_sdk(block)) for number, block in enumerate(blocks("sh"), 1)]
    ways += [(exporter, way, {"service.instance.id": exporter}) for exporter, way in look_at_collector(checks, blocks("yaml"))]
    checks.same("there are four examples", 4, len(ways))
    service.start()
    try:
        checks.true("the service is ready", service.wait_ready(), service.last_lines())
        for total in (1, 5):
            for name, way, resource in ways:
                checks.same(f"{name}: its post is taken", "", way.post(service, port, request(resource, "orders", total)))
        # As if the answer had been lost.
        service.kill()
        service.start()
        checks.true("it is ready again", service.wait_ready(), service.last_lines())
        for name, way, resource in ways:
            checks.same(f"{name}: a repeat is answered as the first time", "", way.post(service, port, request(resource, "orders", 5)))
        _, way, resource = ways[2]
        long = request(resource, "long", 5, POINTS)
        checks.true("a request of the page's size is some 1 MB", 700_000 < len(long) < LIMIT // 2, len(long))
        checks.same("it is taken", "", way.post(service, port, long))
        service.order("/flush")
        wanted = {resource["service.instance.id"]: (way.headers["x-sender"], 4) for _, way, resource in ways}
        there = wait_until(lambda: os.path.exists(f"{folder}/sink.db") and senders_in(f"{folder}/sink.db") == wanted, 20)
        checks.true("the sink has what came after each first point, under the sender's name", there, senders_in(f"{folder}/sink.db"))
    finally:
        service.kill()


def main(program: str) -> int:
    checks = Checks()
    packages = {"python3-yaml": "yaml", "python3-grpcio": "grpc"}
    if checks.has("the examples for senders", *(package for package, name in packages.items() if not importlib.util.find_spec(name))):
        with tempfile.TemporaryDirectory(prefix="collector-") as folder:
            run(checks, program, folder)
    return checks.end()


if __name__ == "__main__":
    if len(sys.argv) != 2:
        sys.exit(f"usage: {sys.argv[0]} TOTXEGUN")
    sys.exit(main(os.path.abspath(sys.argv[1])))
