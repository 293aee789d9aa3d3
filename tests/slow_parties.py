#!/usr/bin/env python3
"""Slow senders, a slow reader and a back end that hangs, over loopback against the gateway.

Call: tests/slow_parties.py PROGRAM, with the path of the built gateway; `tests/slow_parties.py PROGRAM all`
runs the crowd of 24 too, which takes three minutes.

  - With rounds of 20 connections: a sender that stalls in its head, one that stalls in its body, one that
    sends a byte a second, and one that never reads its answer. The others of the round are served at once,
    and the next round begins once the slow one's seconds are over.
  - A sender that takes 45 seconds for its body is served.
  - 8 stalled senders hold 8 receivers: the next sender is served once their seconds are over; with `all`
    so many thrice.
  - Bodies of 9, 20 and 50 MB are refused, each read by a client that sends all before it reads.
  - A refused sender that keeps its side open reads the end of its answer at once, and holds its receiver
    for five seconds. Where its request was read whole, it holds none.
  - The gateway is stopped and goes on while nobody has come, in the middle of a head, of a body and of an
    answer, and while a back end has not answered: each request is answered all the same.
  - Two orders to a back end that hangs: posts and the report are answered by the receivers that are left.
All run side by side, in a little more than a minute, nearly all of it waiting. Each line is a check; the last line counts passes and
failures. The status is 0 if none failed.
"""
import http.client
import os
import signal
import socket
import sys
import threading
import time
from collections.abc import Callable
from typing import Any

from testing.checks import Checks
from testing.loopback import BackEnd, Gateway, ordered, point, posted, read_all, response
from testing.service import wait_until
from testing.shipped import listens

# How long a request and an answer may take by docs/FORMATS.md, and the test's tolerance.
REQUEST_SECONDS = 60
ANSWER_SECONDS = 30
REFUSED_SECONDS = 5
SLACK = 6
AT_ONCE = 5

ROUND = 20
DONE = response(b"200 OK", b"application/json", b"{}")
NOBODY = 9


def asked(gateway: Gateway, request: bytes) -> tuple[bytes | str, float]:
    """The whole answer, and the seconds that it took."""
    begin = time.monotonic()
    connection = gateway.connect()
    if connection is None:
        return "no connection", 0.0
    with connection:
        connection.settimeout(4 * REQUEST_SECONDS)
        answer: bytes | str
        try:
            connection.sendall(request)
            answer = read_all(connection)
        except OSError as error:
            answer = f"{type(error).__name__} {error}"
    return answer, time.monotonic() - begin


def batch(number: int, name: str = "a") -> bytes:
    """A post of one point, after those with lower numbers."""
    return posted(point(10 * number + 10, 10 * number + 20, 1, name))


def report(points: int, name: str = "a") -> bytes:
    """What the gateway prints at the end of this many batches."""
    frontier = 10 * points + 10
    return (f"series {name} monotonic owner A frontier {frontier} accepted {points},{points},0 acknowledged 0,0,0 "
            f"dropped 0,0,0 in-flight 0,0,0 stored {points},{points},0 quarantined 0,0,0\nend\n"
            f"admitted {points} acknowledged 0\n").encode()


def end_of(gateway: Gateway) -> Any:
    """The status and the output, after the gateway has ended."""
    out, err = gateway.process.communicate(timeout=4 * REQUEST_SECONDS)
    return gateway.process.returncode, out, err


class Slow(threading.Thread):
    """A slow sender: what it does on its connection, what it read at last, and the seconds until then."""

    def __init__(self, connection: socket.socket | None, act: Callable[[socket.socket], None]) -> None:
        super().__init__(daemon=True)
        self.connection = connection
        self.act = act
        self.read: bytes | str = None
        self.seconds: float = None
        self.start()

    def run(self) -> None:
        begin = time.monotonic()
        with self.connection:
            self.connection.settimeout(4 * REQUEST_SECONDS)
            try:
                self.act(self.connection)
                self.read = read_all(self.connection)
            except OSError as error:
                self.read = type(error).__name__
        self.seconds = time.monotonic() - begin


def stall_in_head(connection: socket.socket) -> None:
    connection.sendall(b"POST /v1/metrics HTTP/1.1\r\nContent-Le")


def stall_in_body(connection: socket.socket) -> None:
    connection.sendall(b"POST /v1/metrics HTTP/1.1\r\nContent-Length: 9\r\n\r\n{")


def trickle(connection: socket.socket) -> None:
    """Sends a byte a second until the connection is closed."""
    connection.sendall(b"POST /v1/metrics HTTP/1.1\r\nContent-Length: 900\r\n\r\n")
    for _ in range(900):
        connection.sendall(b" ")
        time.sleep(1)


def late(connection: socket.socket) -> None:
    """Completes a body after three quarters of its time."""
    request = batch(0, "late")
    connection.sendall(request[:-100])
    time.sleep(REQUEST_SECONDS * 3 / 4)
    connection.sendall(request[-100:])


def slow_sender(program: str, checks: Checks, what: str, act: Callable[[socket.socket], None]) -> None:
    """A slow sender in the first round, and the posts of others."""
    posts = ROUND + 4
    gateway = Gateway(program, NOBODY, 1 + posts, options=["--round", str(ROUND), "--receivers", "4"])
    slow = Slow(gateway.connect(), act)
    time.sleep(0.5)
    answers = [asked(gateway, batch(number)) for number in range(posts)]
    slow.join(SLACK)
    checks.same(f"{what}: all others are answered", [DONE] * posts, [answer for answer, _ in answers])
    seconds = [took for _, took in answers]
    checks.between(f"{what}: the others of its round are served at once", 0, AT_ONCE, max(seconds[:ROUND - 1]))
    checks.between(f"{what}: the next round begins once its seconds are over", REQUEST_SECONDS - SLACK,
                   REQUEST_SECONDS + SLACK, seconds[ROUND - 1])
    checks.true(f"{what}: it gets no answer", slow.read in (b"", "ConnectionResetError", "BrokenPipeError"), slow.read)
    checks.same(f"{what}: the end", (0, report(posts), b""), end_of(gateway))


def late_sender(program: str, checks: Checks) -> None:
    gateway = Gateway(program, NOBODY, 1)
    slow = Slow(gateway.connect(), late)
    slow.join(2 * REQUEST_SECONDS)
    checks.same("a sender that takes 45 seconds is served", DONE, slow.read)
    checks.same("a late sender: the end", (0, report(1, "late"), b""), end_of(gateway))


def never_reads(connection: socket.socket) -> None:
    """Asks for the report and reads nothing until long after an answer's time is over."""
    connection.sendall(ordered("GET /report"))
    time.sleep(ANSWER_SECONDS + 3 * SLACK)


def narrow(gateway: Gateway) -> socket.socket:
    """A connection with a small receive buffer."""
    connection = socket.socket()
    connection.setsockopt(socket.IPPROTO_TCP, socket.TCP_MAXSEG, 536)
    connection.setsockopt(socket.SOL_SOCKET, socket.SO_RCVBUF, 4096)
    connection.connect(("127.0.0.1", gateway.port))
    return connection


def many_series(count: int) -> bytes:
    """A body with one point of each of this many series."""
    one = '{{"name":"s{:04}","sum":{{"aggregationTemporality":1,"isMonotonic":true,"dataPoints":[{{"asInt":"1",' \
          '"startTimeUnixNano":"10","timeUnixNano":"20"}}]}}}}'
    metrics = ",".join(one.format(number) for number in range(count))
    return posted(('{"resourceMetrics":[{"scopeMetrics":[{"metrics":[' + metrics + "]}]}]}").encode())


def slow_reader(program: str, checks: Checks) -> None:
    """A client that never reads its answer, which is longer than the sockets' buffers."""
    posts = ROUND + 4
    gateway = Gateway(program, NOBODY, 2 + posts, options=["--round", str(ROUND), "--receivers", "4"])
    checks.same("a slow reader: 9,000 series", DONE, asked(gateway, many_series(9000))[0])
    Slow(narrow(gateway), never_reads)
    time.sleep(0.5)
    answers = [asked(gateway, batch(number)) for number in range(posts)]
    checks.same("a slow reader: all others are answered", [DONE] * posts, [answer for answer, _ in answers])
    seconds = [took for _, took in answers]
    checks.between("a slow reader: the others of its round are served at once", 0, AT_ONCE,
                   max(seconds[:ROUND - 2]))
    checks.between("a slow reader: the next round begins once its seconds are over", ANSWER_SECONDS - SLACK,
                   ANSWER_SECONDS + SLACK, seconds[ROUND - 2])
    status, out, err = end_of(gateway)
    checks.same("a slow reader: the end", (0, b"end", f"admitted {9000 + posts} acknowledged 0".encode(), b""),
                (status, *out.splitlines()[-2:], err))


def crowd(program: str, checks: Checks, count: int, seconds: float) -> None:
    """This many senders stall at 8 receivers, and one more comes."""
    gateway = Gateway(program, NOBODY, count + 1, options=["--receivers", "8"])
    slow = [Slow(gateway.connect(), stall_in_body) for _ in range(count)]
    time.sleep(0.5)
    answer, took = asked(gateway, batch(0))
    checks.same(f"{count} stalled senders: one more is answered", DONE, answer)
    checks.between(f"{count} stalled senders: within {seconds} seconds", 0, seconds + SLACK, took)
    for one in slow:
        one.join(SLACK)
    checks.same(f"{count} stalled senders: the end", (0, report(1), b""), end_of(gateway))


def long_bodies(program: str, checks: Checks) -> None:
    """A client that sends everything before it reads."""
    sizes = (9, 20, 50)
    gateway = Gateway(program, NOBODY, len(sizes))
    for size in sizes:
        client = http.client.HTTPConnection("127.0.0.1", gateway.port, timeout=REQUEST_SECONDS)
        wait_until(lambda: listens(gateway.port))
        found: tuple[int, bytes] | str
        try:
            client.request("POST", "/v1/metrics", b" " * (size * 1_000_000), {"Content-Type": "application/json"})
            answer = client.getresponse()
            found = answer.status, answer.read()
        except OSError as error:
            found = type(error).__name__
        client.close()
        checks.same(f"a body of {size} MB is refused", (413, b'{"message":"body too long"}'), found)
    checks.same("long bodies: the end", (0, b"end\nadmitted 0 acknowledged 0\n", b""), end_of(gateway))


def refused_sender(program: str, checks: Checks) -> None:
    """A sender that is refused, keeps its side open and says nothing more."""
    gateway = Gateway(program, NOBODY, 2, options=["--receivers", "1"])
    with gateway.connect() as connection:
        begin = time.monotonic()
        connection.settimeout(REQUEST_SECONDS)
        connection.sendall(b"no request\r\n\r\n")
        answer = read_all(connection)
        checks.true("a refused sender: it is answered", answer.startswith(b"HTTP/1.1 400 "), answer)
        checks.between("a refused sender: its answer ends at once", 0, REFUSED_SECONDS / 2, time.monotonic() - begin)
        checks.same("a refused sender: the next one is answered", DONE, asked(gateway, batch(0))[0])
        checks.between("a refused sender: once its seconds are over", REFUSED_SECONDS - 1, REFUSED_SECONDS + SLACK,
                       time.monotonic() - begin)
    checks.same("a refused sender: the end", (0, report(1), b""), end_of(gateway))


def refused_whole(program: str, checks: Checks) -> None:
    """Senders whose whole request is refused, and who keep their side open and say nothing more."""
    refused = [
        ("out of order", batch(0), b'{"message":"out of order: point 0, frontier 20"}'),
        ("no JSON", posted(b"{"), b'{"message":"not JSON"}'),
        ("another name", ordered("POST /lift/B"), b'{"message":"not quarantined"}'),
    ]
    gateway = Gateway(program, NOBODY, 1 + 2 * len(refused), options=["--receivers", "1"])
    checks.same("a whole request: one before", DONE, asked(gateway, batch(0))[0])
    for number, (what, request, text) in enumerate(refused, 1):
        with gateway.connect() as connection:
            begin = time.monotonic()
            connection.settimeout(REQUEST_SECONDS)
            connection.sendall(request)
            wanted = response(b"400 Bad Request", b"application/json", text)
            checks.same(f"a whole request, {what}: it is refused", wanted, read_all(connection))
            checks.same(f"a whole request, {what}: the next one is answered", DONE, asked(gateway, batch(number))[0])
            checks.between(f"a whole request, {what}: at once", 0, REFUSED_SECONDS / 2, time.monotonic() - begin)
    checks.same("a whole request: the end", (0, report(1 + len(refused)), b""), end_of(gateway))


def stop_and_go(gateway: Gateway) -> None:
    """Stops the gateway while it waits, and continues it."""
    for pause in (signal.SIGSTOP, signal.SIGCONT):
        time.sleep(0.5)
        gateway.process.send_signal(pause)
    time.sleep(0.5)


class LateBackEnd(BackEnd):
    """A back end that takes requests, and answers them after it is released."""

    def __init__(self) -> None:
        self.released = threading.Event()
        super().__init__()

    def answer(self, connection: socket.socket) -> None:
        self.released.wait(REQUEST_SECONDS)
        super().answer(connection)


def stopped(program: str, checks: Checks) -> None:
    """The gateway is stopped and continued while it waits for each thing."""
    back_end = LateBackEnd()
    gateway = Gateway(program, back_end.port, 6, options=["--receivers", "2"])
    wait_until(lambda: listens(gateway.port))
    stop_and_go(gateway)
    checks.same("stopped while nobody has come: a post", DONE, asked(gateway, many_series(9000))[0])
    for number, (what, end) in enumerate((("a head", 20), ("a body", -100))):
        request = batch(number)
        with gateway.connect() as connection:
            connection.settimeout(REQUEST_SECONDS)
            connection.sendall(request[:end])
            stop_and_go(gateway)
            answer: bytes | str
            try:
                connection.sendall(request[end:])
                answer = read_all(connection)
            except OSError as error:
                answer = type(error).__name__
        checks.same(f"stopped in {what}: it is answered", DONE, answer)
    whole = asked(gateway, ordered("GET /report"))[0]
    with narrow(gateway) as connection:
        connection.settimeout(REQUEST_SECONDS)
        connection.sendall(ordered("GET /report"))
        stop_and_go(gateway)
        answer = read_all(connection)
    checks.true("stopped in an answer: it is whole", answer == whole, f"{len(answer)} of {len(whole)} bytes")
    turns = []
    order = threading.Thread(target=lambda: turns.append(asked(gateway, ordered("POST /flush"))[0]))
    order.start()
    stop_and_go(gateway)
    back_end.released.set()
    order.join(REQUEST_SECONDS)
    settled = response(b"200 OK", b"application/json", b'{"act":"settled","flush":"1","points":"1000"}')
    checks.same("stopped before a back end answers: the flush is settled", [settled], turns)
    status, out, err = end_of(gateway)
    # Both points of the first series were forwarded as one.
    checks.same("stopped: the end", (0, b"admitted 9002 acknowledged 1001", b""), (status, out.splitlines()[-1], err))
    back_end.close()


class HungBackEnd(BackEnd):
    """A back end that takes requests, and answers none until it is released."""

    def __init__(self) -> None:
        self.released = threading.Event()
        super().__init__()

    def answer(self, connection: socket.socket) -> None:
        self.released.wait(REQUEST_SECONDS)


def hung_back_end(program: str, checks: Checks) -> None:
    back_end = HungBackEnd()
    gateway = Gateway(program, back_end.port, 24, options=["--receivers", "4"])
    checks.same("a hung back end: a post before", DONE, asked(gateway, batch(0))[0])
    turns: list[bytes | str] = []
    orders = [threading.Thread(target=lambda: turns.append(asked(gateway, ordered("POST /flush"))[0]))
              for _ in range(2)]
    for order in orders:
        order.start()
    time.sleep(0.5)
    answers = [asked(gateway, batch(number)) for number in range(1, 20)]
    answers.append(asked(gateway, ordered("GET /report")))
    checks.same("a hung back end: posts are answered", [DONE] * 19, [answer for answer, _ in answers[:-1]])
    last = answers[-1][0]
    checks.true("a hung back end: the report is", isinstance(last, bytes) and last.startswith(b"HTTP/1.1 200 OK\r\n"), last)
    checks.between("a hung back end: all at once", 0, AT_ONCE, max(took for _, took in answers))
    checks.same("a hung back end: the orders wait", [], turns)
    back_end.released.set()
    for order in orders:
        order.join(AT_ONCE)
    checks.true("a hung back end: both are given back once it is released",
                len(turns) == 2 and all(isinstance(turn, bytes) and b'{"act":"returned",' in turn for turn in turns), turns)
    checks.same("a hung back end: one more post", DONE, asked(gateway, batch(20))[0])
    checks.same("a hung back end: the end", (0, report(21), b""), end_of(gateway))
    back_end.close()


def main(program: str, long: bool) -> int:
    checks = Checks()
    cases = [
        (slow_sender, "a sender that stalls in its head", stall_in_head),
        (slow_sender, "a sender that stalls in its body", stall_in_body),
        (slow_sender, "a sender of a byte a second", trickle),
        (late_sender,),
        (slow_reader,),
        (crowd, 8, REQUEST_SECONDS),
        (long_bodies,),
        (refused_sender,),
        (refused_whole,),
        (stopped,),
        (hung_back_end,),
    ]
    if long:
        cases.append((crowd, 24, 3 * REQUEST_SECONDS))

    def run(case: Any, *words: str) -> None:
        try:
            case(program, checks, *words)
        except Exception as error:
            checks.same(case.__name__, "no exception", repr(error))

    threads = [threading.Thread(target=run, args=case) for case in cases]
    for thread in threads:
        thread.start()
    for thread in threads:
        thread.join()
    return checks.end()


if __name__ == "__main__":
    if len(sys.argv) not in (2, 3) or sys.argv[2:] not in ([], ["all"]) or not os.access(sys.argv[1], os.X_OK):
        sys.exit(f"usage: {sys.argv[0]} PROGRAM [all]")
    sys.exit(main(sys.argv[1], len(sys.argv) == 3))
