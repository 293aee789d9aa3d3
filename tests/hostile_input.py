#!/usr/bin/env python3
"""Bad input, broken connections and a back end that breaks off, over loopback against the gateway.

Call: tests/hostile_input.py PROGRAM, with the path of the built gateway.

  - Input that is no request, and bodies that are no metrics, have their whole answers, each read by a
    client that sends all the while; the report shows that nothing was taken.
  - A client that breaks off within its message is not answered; one that ends its side there, at each place, is told that the
    request is malformed. Nothing was taken of either.
  - The back end closes in the middle of flush 1, a later point of the series is admitted meanwhile, and
    flush 2 forwards one point over both with their sum.
  - A back end that does not answer holds one flusher: another flush and the receivers go on.
Each line is a check; the last line counts passes and failures. The status is 0 if none failed.
"""
import os
import socket
import struct
import sys
import threading

from testing.checks import Checks
from testing.loopback import SECONDS, BackEnd, Gateway, is_whole, ordered, point, posted, read_all, response, sent_points

JSON = b"application/json"
MALFORMED = response(b"400 Bad Request", JSON, b'{"message":"malformed request"}')
TOO_LONG = response(b"413 Payload Too Large", JSON, b'{"message":"body too long"}')
NOT_JSON = response(b"400 Bad Request", JSON, b'{"message":"not JSON"}')
WRONG_SHAPE = response(b"400 Bad Request", JSON, b'{"message":"wrong shape"}')
DONE = response(b"200 OK", JSON, b"{}")
EMPTY = response(b"200 OK", b"text/plain", b"end\n")

POST = b"POST /v1/metrics HTTP/1.1\r\nContent-Type: application/json\r\n"
CHUNKED = POST + b"Transfer-Encoding: chunked\r\n\r\n"
NUMBER_POINT = b'{"resourceMetrics":[{"scopeMetrics":[{"metrics":[{"sum":{"dataPoints":[{},5]}}]}]}]}'
MORE = b"more" * 100_000

# Each input with its whole answer.
INPUTS = [
    ("an endless run of a", b"a" * 2_000_000, MALFORMED),
    ("two lengths", POST + b"Content-Length: 2\r\nContent-Length: 2\r\n\r\n{}" + MORE, MALFORMED),
    ("a length and chunks", POST + b"Content-Length: 2\r\nTransfer-Encoding: chunked\r\n\r\n"
     b"2\r\n{}\r\n0\r\n\r\n" + MORE, MALFORMED),
    ("chunks of 4,194,304 bytes and 1", CHUNKED + b"400000\r\n" + b" " * 4_194_304 + b"\r\n1\r\n" + MORE,
     TOO_LONG),
    ("a length of 4,194,305", POST + b"Content-Length: 4194305\r\n\r\n" + b" " * 4_194_305, TOO_LONG),
    ("65 headers", b"GET /report HTTP/1.1\r\n" + b"a: b\r\n" * 65 + b"\r\n" + MORE, MALFORMED),
    ("64 headers", b"GET /report HTTP/1.1\r\n" + b"a: b\r\n" * 64 + b"\r\n", EMPTY),
    ("version 2.0", b"GET /report HTTP/2.0\r\n\r\n" + MORE, MALFORMED),
    ("a chunk without its end", CHUNKED + b"2\r\n{}xx" + MORE, MALFORMED),
    ("127 nested arrays", posted(b"[" * 127 + b"]" * 127), WRONG_SHAPE),
    ("128 nested arrays", posted(b"[" * 128 + b"]" * 128), NOT_JSON),
    ("a body that is not UTF-8", posted(b'"\xff"'), NOT_JSON),
    ("a resource that is null", posted(b'{"resourceMetrics":[null]}'), WRONG_SHAPE),
    ("a point that is a number", posted(NUMBER_POINT), WRONG_SHAPE),
]


def break_off(gateway: Gateway, part: bytes) -> None:
    """Sends a part of a message and resets the connection."""
    connection = gateway.connect()
    connection.sendall(part)
    connection.setsockopt(socket.SOL_SOCKET, socket.SO_LINGER, struct.pack("ii", 1, 0))
    connection.close()


def end_early(gateway: Gateway, part: bytes) -> bytes | str:
    """Sends a part of a message and nothing more. Returns the answer."""
    connection = gateway.connect()
    if connection is None:
        return "no connection"
    with connection:
        connection.sendall(part)
        connection.shutdown(socket.SHUT_WR)
        return read_all(connection)


def bad_inputs(program: str, checks: Checks) -> None:
    """The inputs, and messages that break off or end early, at one gateway."""
    message = posted(point(10, 20, 5))
    cuts = [1, 30, len(message) - 100, len(message) - 1]
    gateway = Gateway(program, 9, len(INPUTS) + len(cuts) + len(message))
    for name, request, answer in INPUTS:
        checks.same(name, answer, gateway.ask(request))
    for cut in cuts:
        break_off(gateway, message[:cut])
    others = [end for end in range(1, len(message)) if end_early(gateway, message[:end]) != MALFORMED]
    checks.same("an end at each place of a message", [], others)
    checks.same("the report after all that", EMPTY, gateway.ask(ordered("GET /report")))
    checks.same("the end", (0, b"end\nadmitted 0 acknowledged 0\n", b""), gateway.end())


class HalfBackEnd(BackEnd):
    """A back end that stops in the middle of the first request, and then closes."""

    def __init__(self) -> None:
        self.reached = threading.Event()
        self.released = threading.Event()
        super().__init__()

    def answer(self, connection: socket.socket) -> None:
        if self.reached.is_set():
            return super().answer(connection)
        part = connection.recv(100)
        assert not is_whole(part)
        self.reached.set()
        self.released.wait(SECONDS)
        return None


def later(gateway: Gateway, request: bytes, answers: list[bytes | str]) -> threading.Thread:
    """Sends a request in a thread of its own."""
    def ask() -> None:
        answers.append(gateway.ask(request))
    thread = threading.Thread(target=ask)
    thread.start()
    return thread


def turn(act: str, flush: int) -> bytes:
    text = f'{{"act":"{act}","flush":"{flush}","points":"1"}}'
    return response(b"200 OK", JSON, text.encode())


def broken_flush(program: str, checks: Checks) -> None:
    back_end = HalfBackEnd()
    gateway = Gateway(program, back_end.port, 4)
    checks.same("a point", DONE, gateway.ask(posted(point(10, 20, 5))))
    first: list[bytes | str] = []
    second: list[bytes | str] = []
    order = later(gateway, ordered("POST /flush"), first)
    checks.same("the back end gets flush 1", True, back_end.reached.wait(SECONDS))
    post = later(gateway, posted(point(20, 30, 5)), second)
    post.join(SECONDS)
    checks.same("a later point meanwhile", [DONE], second)
    back_end.released.set()
    order.join(SECONDS)
    checks.same("flush 1 comes back", [turn("returned", 1)], first)
    checks.same("flush 2", turn("settled", 2), gateway.ask(ordered("POST /flush")))
    bodies = [sent_points(body) for body in back_end.bodies]
    checks.same("what flush 2 sent", [[(10, 10, 30)]], bodies)
    report = (b"series a monotonic owner A frontier 30 accepted 2,10,0 acknowledged 2,10,0 dropped 0,0,0 "
              b"in-flight 0,0,0 stored 0,0,0 quarantined 0,0,0\nend\nadmitted 2 acknowledged 2\n")
    checks.same("the end of it", (0, report, b""), gateway.end())
    back_end.close()


def series(name: str, acknowledged: str, in_flight: str, stored: str) -> bytes:
    """A line of the report: a sum with one point of 5."""
    return (f"series {name} monotonic owner A frontier 20 accepted 1,5,0 acknowledged {acknowledged} dropped "
            f"0,0,0 in-flight {in_flight} stored {stored} quarantined 0,0,0\n").encode()


def held_flusher(program: str, checks: Checks) -> None:
    back_end = HalfBackEnd()
    gateway = Gateway(program, back_end.port, 5, options=["--flushers", "2"])
    checks.same("a point of a", DONE, gateway.ask(posted(point(10, 20, 5))))
    first: list[bytes | str] = []
    order = later(gateway, ordered("POST /flush"), first)
    checks.same("the back end holds flush 1", True, back_end.reached.wait(SECONDS))
    checks.same("a point of b", DONE, gateway.ask(posted(point(10, 20, 5, "b"))))
    checks.same("flush 2 goes on", turn("settled", 2), gateway.ask(ordered("POST /flush")))
    settled = series("b", "1,5,0", "0,0,0", "0,0,0")
    sent = series("a", "0,0,0", "1,5,0", "0,0,0")
    report = response(b"200 OK", b"text/plain", sent + settled + b"end\n")
    checks.same("the report meanwhile", report, gateway.ask(ordered("GET /report")))
    back_end.released.set()
    order.join(SECONDS)
    checks.same("flush 1 is given back", [turn("returned", 1)], first)
    text = series("a", "0,0,0", "0,0,0", "1,5,0") + settled + b"end\nadmitted 2 acknowledged 1\n"
    checks.same("the end of both", (0, text, b""), gateway.end())
    back_end.close()


def main(program: str) -> int:
    checks = Checks()
    bad_inputs(program, checks)
    broken_flush(program, checks)
    held_flusher(program, checks)
    return checks.end()


if __name__ == "__main__":
    if len(sys.argv) != 2 or not os.access(sys.argv[1], os.X_OK):
        sys.exit(f"usage: {sys.argv[0]} PROGRAM")
    sys.exit(main(sys.argv[1]))
