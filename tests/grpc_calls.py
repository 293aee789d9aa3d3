#!/usr/bin/env python3
"""Tests OTLP over gRPC with gRPC's own client for Python.

    tests/grpc_calls.py TOTXEGUN

The sink must have what a call brings, compressed or not. A duplicate, a series of another sender and a quarantined sender are refused as
over HTTP, and the log names both senders of a series. A message that is too long, expands to too much, is of another method or has
another compression is refused. An expired deadline, a cancelled call, a client that goes away, bytes that are not
HTTP/2, and kills of the
service must leave each point counted once, and so must SIGTERM after an expired deadline. At the end SIGTERM must end the service while
connections are open.

It needs python3-grpcio; if it is missing, a line says so and the status is 77. Each other line is a check; the last line counts passes
and failures. The status is 1 if one failed.
"""
import contextlib
import importlib.util
import os
import signal
import socket
import sys
import tempfile
import threading
import time
from typing import Any

# Debian's package is for Debian's Python.
if importlib.util.find_spec("grpc") is None and os.path.realpath(sys.executable) != os.path.realpath("/usr/bin/python3"):
    os.execv("/usr/bin/python3", ["/usr/bin/python3", *sys.argv])

from testing.checks import Checks
from testing.loopback import free_port
from testing.service import PROTOBUF, Service, SqliteSink, Value, add_points, ask, in_protobuf, overlaps, wait_until

try:
    import grpc
except ImportError:
    grpc = None

METHOD = "/opentelemetry.proto.collector.metrics.v1.MetricsService/Export"
MOST = 4 << 20
RETRY_INFO = b"type.googleapis.com/google.rpc.RetryInfo"
CALLS = 300


class Client:
    """A channel of its own, with the name and the text of each call's status."""

    def __init__(self, port: int) -> None:
        options = [("grpc.max_send_message_length", -1), ("grpc.use_local_subchannel_pool", 1),
                   ("grpc.initial_reconnect_backoff_ms", 50), ("grpc.max_reconnect_backoff_ms", 200)]
        self.channel = grpc.insecure_channel(f"127.0.0.1:{port}", options=options)

    def begin(self, body: bytes, sender: str = "A", method: str = METHOD, seconds: int = 20, packing: str | None = None) -> Any:
        call = self.channel.unary_unary(method, request_serializer=bytes, response_deserializer=bytes)
        return call.future(body, timeout=seconds, metadata=[("x-sender", sender)] if sender else None, compression=packing)

    def call(self, body: bytes, **how: Any) -> Any:
        return said(self.begin(body, **how))

    def close(self) -> None:
        self.channel.close()


def said(call: Any) -> tuple[str, str]:
    try:
        return "OK", call.result()
    except grpc.RpcError as error:
        return error.code().name, error.details()


def refusals(checks: Checks, client: Client) -> None:
    """Calls that are not of the method, and messages that are not accepted."""
    for what, wanted, how in (
            ("another method", "UNIMPLEMENTED", {"body": b"", "method": METHOD.replace("metrics", "trace")}),
            ("deflate", "UNIMPLEMENTED", {"body": b"a" * 2000, "packing": grpc.Compression.Deflate}),
            ("a message that is no protobuf", "INVALID_ARGUMENT", {"body": b"\xff"}),
            ("a name that is none", "INVALID_ARGUMENT", {"body": b"", "sender": "a b"}),
            ("a message that is too long", "RESOURCE_EXHAUSTED", {"body": bytes(MOST + 1)}),
            ("a message of 40 MiB", "RESOURCE_EXHAUSTED", {"body": bytes(10 * MOST)}),
            ("a bomb", "RESOURCE_EXHAUSTED", {"body": bytes(25 * MOST), "packing": grpc.Compression.Gzip}),
            ("the longest message", "INVALID_ARGUMENT", {"body": bytes(MOST)})):
        found = client.call(**how)
        checks.true(f"{what} is {wanted}", found[0] == wanted and found[1], found)


def one_point(place: int, value: int = 1, name: str = "calls") -> list[tuple[str, int, int, int]]:
    return [(name, place * 10 + 1, place * 10 + 11, value)]


def as_over_http(checks: Checks, service: Service, client: Client) -> None:
    """Calls and posts of the same series: each must know what the other brought."""
    first = in_protobuf(one_point(0, 5))
    checks.same("a call is taken", ("OK", b""), client.call(first))
    checks.same("its repeat is answered as the first time", ("OK", b""), client.call(first))
    headers = {"Content-Type": PROTOBUF, "x-sender": "A"}
    status, text = ask(service.listen, "POST", "/v1/metrics", first, headers)
    checks.same("over HTTP too", (200, b""), (status, text))
    found = client.call(in_protobuf(one_point(0, 6)))
    checks.true("what is late is refused", found[0] == "INVALID_ARGUMENT" and "duplicate or late" in found[1], found)
    checks.same("a packed call is taken", ("OK", b""),
                client.call(in_protobuf(one_point(1, 7)), packing=grpc.Compression.Gzip))
    service.order("/flush")
    found = client.call(in_protobuf(one_point(2)), sender="B")
    checks.true("another's series is refused", found[0] == "INVALID_ARGUMENT" and "other writer" in found[1], found)

    def is_told() -> bool:
        with open(service.log, encoding="utf-8", errors="replace") as file:
            return any("the series is another sender's" in line and 'sender="B" owner="A"' in line for line in file)
    checks.true("the log names both senders", wait_until(is_told, 10), service.last_lines())
    service.order("/quarantine/A")
    checks.same("a quarantined sender is refused", ("PERMISSION_DENIED", "quarantined"), client.call(in_protobuf(one_point(2))))
    service.order("/release/A")


def broken_off(checks: Checks, service: Service, client: Client, grpc_port: int) -> None:
    """Calls that end before they are answered; each is retried until it is answered."""
    bodies = {sender: in_protobuf(one_point(2, 1, name)) for sender, name in
              (("A", "calls"), ("C", "cancelled"), ("D", "gone"))}
    service.signal(signal.SIGSTOP)
    late = client.call(bodies["A"], seconds=0.5)
    cancelled = client.begin(bodies["C"], sender="C")
    gone = Client(grpc_port)
    gone.begin(bodies["D"], sender="D")
    time.sleep(0.3)
    cancelled.cancel()
    gone.close()
    service.signal(signal.SIGCONT)
    checks.same("a deadline that passes", "DEADLINE_EXCEEDED", late[0])
    for sender, body in bodies.items():
        found = client.call(body, sender=sender)
        checks.same(f"the repeat of {sender} is taken, or was", ("OK", b""), found)
    for junk in (b"GET / HTTP/1.1\r\n\r\n", b"PRI * HTTP/2.0\r\n\r\nSM\r\n\r\n" + b"\xff" * 300, os.urandom(5000)):
        with socket.create_connection(("127.0.0.1", grpc_port), 5) as raw:
            raw.settimeout(5)
            with contextlib.suppress(OSError):  # the service may close the connection before all is sent
                raw.sendall(junk)
                raw.shutdown(socket.SHUT_WR)
                while raw.recv(4096):
                    pass
    checks.same("what is no HTTP/2 ends its connection alone", "OK", client.call(in_protobuf(one_point(3)))[0])


def over_kills(checks: Checks, service: Service, client: Client) -> None:
    """Calls, one after another, each retried until it is answered, while the service is killed."""
    answers: dict[str, int] = {}
    has_retry_info: list[bool] = []

    def go_on() -> None:
        for place in range(10, 10 + CALLS):
            for _ in range(10_000):
                call = client.begin(in_protobuf(one_point(place, 1, "killed")), sender="K", seconds=3)
                name, text = said(call)
                answers[name] = answers.get(name, 0) + 1
                if name == "UNAVAILABLE" and text in ("recovering", "stopping"):
                    details = dict(call.trailing_metadata()).get("grpc-status-details-bin", b"")
                    has_retry_info.append(RETRY_INFO in details)
                if name == "OK":
                    break
                time.sleep(0.01)

    calling = threading.Thread(target=go_on, daemon=True)
    calling.start()
    kills = 0
    while calling.is_alive() and kills < 4:
        time.sleep(0.5)
        service.kill()
        service.start()
        service.wait_ready()
        kills += 1
    calling.join(120)
    checks.true("all calls are answered", not calling.is_alive(), service.last_lines())
    checks.true("who may try again is told when", all(has_retry_info), has_retry_info)
    expected = {"OK", "UNAVAILABLE", "DEADLINE_EXCEEDED", "CANCELLED"}
    checks.true(f"no other status over {kills} kills", set(answers) <= expected, answers)
    print(f"note: {answers}, {len(has_retry_info)} with RetryInfo", flush=True)


def timed(service: Service, client: Client, count: int = 200) -> None:
    """Prints how long a call takes compared with a post over HTTP, one after another. It checks nothing."""
    import http.client
    bodies = [[in_protobuf(one_point(place, 1, name)) for place in range(count)] for name in ("timed.grpc", "timed.http")]
    begun = time.monotonic()
    for body in bodies[0]:
        client.call(body, sender="T")
    middle = time.monotonic()
    connection = http.client.HTTPConnection("127.0.0.1", service.listen, timeout=20)
    for body in bodies[1]:
        connection.request("POST", "/v1/metrics", body, {"Content-Type": PROTOBUF, "x-sender": "T"})
        connection.getresponse().read()
    connection.close()
    by_grpc, by_http = middle - begun, time.monotonic() - middle
    print(f"note: {1000 * by_grpc / count:.2f} ms a call, {1000 * by_http / count:.2f} ms a post, of Python's clients", flush=True)


def given_up_at_the_end(checks: Checks, service: Service, port: int) -> None:
    """A stopped service continues with an expired deadline and a SIGTERM. Whatever its last flush has of the call must
    be in the journal too, so that the next run recognises the duplicate."""
    client, body = Client(port), in_protobuf(one_point(0, 3, "last"))
    client.call(in_protobuf(one_point(0, 1, "timed.last")), sender="T")  # there is a connection
    service.signal(signal.SIGSTOP)
    late = client.call(body, sender="L", seconds=0.3)
    client.close()
    threading.Timer(0.5, service.signal, (signal.SIGCONT,)).start()
    status, seconds = service.end()
    checks.true("SIGTERM waits for a call that was given up", status == 0 and seconds < 10, (late, status, seconds))
    service.start()
    checks.true("the service is ready again", service.wait_ready(), service.last_lines())
    client = Client(port)
    found = client.call(body, sender="L")
    checks.same("the repeat is taken, or was", ("OK", b""), found)
    client.close()


def in_the_sink(checks: Checks, service: Service, sink: SqliteSink) -> None:
    service.order("/flush")
    checks.true("all is delivered", wait_until(service.is_drained), service.last_lines())
    points = sink.points()
    found: dict[str, Value] = {}
    add_points(found, points)
    checks.same("no spans overlap", [], overlaps(points))
    # 5 and 7, the late one, the one after the junk.
    checks.same("each point is counted once", {"calls": 14, "cancelled": 1, "gone": 1, "killed": CALLS, "last": 3},
                {name: total for name, total in found.items() if not name.startswith("timed")})


def run(checks: Checks, totxegun: str, folder: str) -> None:
    sink, port = SqliteSink(f"{folder}/sink.db"), free_port()
    service = Service(totxegun, f"{folder}/data", sink.address, "--listen-grpc", f"127.0.0.1:{port}")
    try:
        service.start()
        checks.true("the service is ready", service.wait_ready(), service.last_lines())
        client = Client(port)
        refusals(checks, client)
        as_over_http(checks, service, client)
        broken_off(checks, service, client, port)
        over_kills(checks, service, client)
        timed(service, client)
        given_up_at_the_end(checks, service, port)
        in_the_sink(checks, service, sink)
        checks.same("the service found nothing that must not be", [], service.faults())
        with socket.create_connection(("127.0.0.1", port), 5):
            status, seconds = service.end()
        checks.true("SIGTERM ends it while connections are open", status == 0 and seconds < 10, (status, seconds))
        client.close()
    finally:
        service.kill()


def main(totxegun: str) -> int:
    checks = Checks()
    if checks.has("calls of gRPC", *(() if grpc else ("python3-grpcio",))):
        with tempfile.TemporaryDirectory(prefix="grpc-") as folder:
            run(checks, totxegun, folder)
    return checks.end()


if __name__ == "__main__":
    if len(sys.argv) != 2:
        sys.exit(f"usage: {sys.argv[0]} TOTXEGUN")
    sys.exit(main(os.path.abspath(sys.argv[1])))
