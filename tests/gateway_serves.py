#!/usr/bin/env python3
"""The gateway over loopback, as a sender and a back end see it.

Call: tests/gateway_serves.py PROGRAM, with the path of the built gateway. It needs curl, as tests/needs installs it.

  - bodies are posted: whole, in chunks, empty, out of order, of another type, by a quarantined sender, too long
  - flushes are ordered from a back end that settles, returns and drops them; what it got is compared byte by byte
  - the report is read, and printed at the end
  - flushes to nobody and to a back end that says nothing back are returned
  - rounds of one connection differ from rounds of a thousand, and flushes of one series from larger ones
  - senders that go away or say nothing do not keep others from being served
  - faults of the command line, of the address, of a connection and of standard output end the program with their
    text and status
What is wanted is written out from docs/FORMATS.md. Each line is a check; the last line counts passes and failures. The status is 0 if
none failed. How long a slow party may take is in tests/slow_parties.py.
"""
import json
import os
import resource
import shutil
import socket
import struct
import subprocess
import sys
import tempfile
from collections.abc import Sequence
from typing import Any

from testing.checks import LEFT_OUT, Checks
from testing.loopback import SECONDS, BackEnd, Gateway, free_port, point, read_all, response
from testing.service import wait_until
from testing.shipped import listens

# The discard port, on which nobody listens. It is never given to a gateway.
NOBODY = 9
JSON = ["-H", "Content-Type: application/json"]
FROM_A = [*JSON, "-H", "x-sender: A"]
METRICS = "/v1/metrics"
AGAIN = "out of order: point 0, frontier 20"
SETTLED = '{"act":"settled","flush":"1","points":"1"}'
RETURNED = '{"act":"returned","flush":"1","points":"1"}'
TOO_LONG = response(b"413 Payload Too Large", b"application/json", b'{"message":"body too long"}')


def message(text: str) -> str:
    return f'{{"message":"{text}"}}'


def line(name: str = "req", owner: str = "A", frontier: int = 20, stored: str = "0,0,0", **rows: str) -> str:
    """A line of the report, with the rows that are accepted, acknowledged and dropped."""
    row = {"accepted": "0,0,0", "acknowledged": "0,0,0", "dropped": "0,0,0", **rows}
    told = " ".join(f"{key} {it}" for key, it in row.items())
    return f"series {name} monotonic owner {owner} frontier {frontier} {told} in-flight 0,0,0 stored {stored} quarantined 0,0,0"


def report(*lines: str) -> str:
    return "\n".join([*lines, "end", ""])


STORED = report(line(accepted="1,5,0", stored="1,5,0"))


def body(start: int, end: int, value: int, name: str = "req") -> list[str]:
    return ["--data-binary", point(start, end, value, name).decode()]


def forwarded(port: int, start: int, end: int, value: int) -> bytes:
    """The request, head and body, that forwards one point of the sum req."""
    one = {"asInt": str(value), "attributes": [], "startTimeUnixNano": str(start), "timeUnixNano": str(end)}
    total = {"aggregationTemporality": 1, "dataPoints": [one], "isMonotonic": True}
    scope = {"metrics": [{"name": "req", "sum": total, "unit": ""}], "scope": {"attributes": [], "name": "", "version": ""}}
    request = {"resourceMetrics": [{"resource": {"attributes": []}, "scopeMetrics": [scope]}]}
    text = json.dumps(request, separators=(",", ":"))
    return (f"POST {METRICS} HTTP/1.1\r\nHost: 127.0.0.1:{port}\r\nContent-Type: application/json\r\n"
            f"Content-Length: {len(text)}\r\nConnection: close\r\n\r\n{text}").encode()


class Served:
    """A gateway with its back end; curl asks it."""

    def __init__(self, checks: Checks, program: str, connections: int, answers: list[bytes | None] | None = None,
                 options: Sequence[str] = ()) -> None:
        self.checks = checks
        self.back_end = None if answers is None else BackEnd(answers)
        self.back_at = NOBODY if answers is None else self.back_end.port
        self.gateway = Gateway(program, self.back_at, connections, options=options)
        until_it_listens(self.gateway)

    def ask(self, what: str, wanted: str, path: str, *words: str, status: int = 200) -> None:
        """Checks the answer to a request by curl with these words."""
        address = f"http://127.0.0.1:{self.gateway.port}{path}"
        found = subprocess.run(["curl", "-s", "-m", "60", "-w", "%{http_code}", *words, address],
                               capture_output=True, text=True, check=False).stdout
        self.checks.same(what, f"{wanted}{status}", found)

    def post(self, what: str, wanted: str, *words: str, status: int = 200) -> None:
        self.ask(what, wanted, METRICS, *words, status=status)

    def order(self, what: str, wanted: str, path: str) -> None:
        self.ask(what, wanted, path, "-X", "POST")

    def end(self, what: str, printed: str) -> None:
        """Checks that it ends well, and that its back end got nothing more."""
        self.checks.same(what, (0, printed.encode(), b""), self.gateway.end())
        self.close()

    def close(self) -> None:
        if self.back_end:
            self.back_end.close()


def until_it_listens(gateway: Gateway) -> None:
    wait_until(lambda: listens(gateway.port) or gateway.process.poll() is not None)


def connected(port: int) -> socket.socket:
    return socket.create_connection(("127.0.0.1", port), SECONDS)


def posts_and_flushes(checks: Checks, program: str) -> None:
    """What senders, an operator and a back end do with one gateway."""
    answers = [b"200 OK\r\n", b"503 Busy\r\nRetry-After: 2\r\n", b"400 Bad\r\n"]
    one = Served(checks, program, 20, answers)
    one.post("a body is posted", "{}", *FROM_A, *body(10, 20, 5))
    one.post("an empty body", "{}", *JSON, "-d", "{}")
    done = response(b"200 OK", b"application/json", b"{}")
    with connected(one.gateway.port) as client:
        client.sendall(b"POST /v1/metrics HTTP/1.1\r\nContent-Type: application/json\r\nContent-Length: 2\r\n\r\n{}")
        checks.same("the bytes of an answer", done, read_all(client))
    one.post("the same body again", message(AGAIN), *FROM_A, *body(10, 20, 5), status=400)
    from_b = [*JSON, "-H", "x-sender: B", *body(20, 30, 5)]
    one.post("another sender", message("other writer: point 0"), *from_b, status=400)
    protobuf = ["-H", "Content-Type: application/x-protobuf", "-d", "x"]
    one.post("another content type", message("only uncompressed application/json"), *protobuf, status=415)
    one.ask("another path", message("no such path"), "/v1/traces", *JSON, "-d", "{}", status=404)
    one.ask("another method", message("wrong method"), METRICS, status=405)
    one.order("a flush that is settled", SETTLED, "/flush")
    one.order("a flush of nothing", '{"act":"nothing"}', "/flush")
    one.order("a sender is quarantined", "{}", "/quarantine/A")
    one.post("a quarantined sender", message("quarantined"), *FROM_A, *body(20, 30, 7), status=403)
    one.order("a sender is released", "{}", "/lift/A")
    chunked = ["-H", "Transfer-Encoding: chunked"]
    one.post("a body in chunks", "{}", *FROM_A, *chunked, *body(20, 30, 7))
    returned = '{"act":"returned","flush":"2","points":"1","retryAfter":"2"}'
    one.order("a flush that is returned", returned, "/flush")
    one.order("a flush that is dropped", '{"act":"dropped","flush":"3","points":"1"}', "/flush")
    last = report(line(frontier=30, accepted="2,12,0", acknowledged="1,5,0", dropped="1,7,0"))
    one.ask("the report", last, "/report")
    too_long_bodies(checks, one)
    one.end("the end", f"{last}admitted 2 acknowledged 1\n")
    again = forwarded(one.back_at, 20, 30, 7)
    wanted = [forwarded(one.back_at, 10, 20, 5), again, again]
    checks.same("what the back end got: settled, returned, dropped", wanted, one.back_end.requests)


def too_long_bodies(checks: Checks, one: Served) -> None:
    with tempfile.NamedTemporaryFile() as file:
        file.write(b"{}" + b" " * 5_000_000)
        file.flush()
        words = [*JSON, "-H", "Expect:", "--data-binary", f"@{file.name}"]
        one.post("a body that is too long", message("body too long"), *words, status=413)
    with connected(one.gateway.port) as client:
        head = b"POST /v1/metrics HTTP/1.1\r\nContent-Type: application/json\r\nContent-Length: 6000000\r\n\r\n"
        client.sendall(head + b" " * 6_000_000)
        checks.same("a body that is too long is sent whole, and then the answer read", TOO_LONG, read_all(client))
    connected(one.gateway.port).close()


def nobody_behind(checks: Checks, program: str) -> None:
    one = Served(checks, program, 2)
    one.post("a body for nobody", "{}", *FROM_A, *body(10, 20, 5))
    one.order("a flush to nobody", RETURNED, "/flush")
    one.end("nobody", f"{STORED}admitted 1 acknowledged 0\n")


def one_series_a_flush(checks: Checks, program: str) -> None:
    one = Served(checks, program, 3, options=["--flush-series", "1"])
    one.post("a series", "{}", *JSON, *body(10, 20, 5))
    one.post("another series", "{}", *JSON, *body(10, 20, 5, "res"))
    one.order("a flush of one series", RETURNED, "/flush")
    rows = [line(name, "-", accepted="1,5,0", stored="1,5,0") for name in ("req", "res")]
    one.end("one series a flush", f"{report(*rows)}admitted 2 acknowledged 0\n")

    one = Served(checks, program, 5, [], ["--flush-series", "1"])
    one.post("one series of two: a body", "{}", *JSON, *body(10, 20, 5))
    one.post("one series of two: another", "{}", *JSON, *body(10, 20, 7, "res"))
    one.order("one series of two: a flush takes one", SETTLED, "/flush")
    one.order("one series of two: the next takes the other", SETTLED.replace('"flush":"1"', '"flush":"2"'), "/flush")
    one.order("one series of two: nothing is left", '{"act":"nothing"}', "/flush")
    one.gateway.end()
    one.close()
    sent = [[name for name in (b'"name":"req"', b'"name":"res"') if name in it] for it in one.back_end.bodies]
    checks.same("one series of two: what was sent", [[b'"name":"req"'], [b'"name":"res"']], sent)


def rounds(checks: Checks, program: str) -> None:
    one = Served(checks, program, 3, options=["--round", "1"])
    one.post("a body in a round of its own", "{}", *FROM_A, *body(10, 20, 5))
    one.post("the same body in the next round", message(AGAIN), *FROM_A, *body(10, 20, 5), status=400)
    one.ask("the report of the last round", STORED, "/report")
    one.end("rounds of one connection", f"{STORED}admitted 1 acknowledged 0\n")

    # What is reported of a point in the round after the one that settled it, and in the same round.
    for length, text in (("1", report(line())), ("1000", report(line(accepted="1,5,0", acknowledged="1,5,0")))):
        what = f"rounds of {length}"
        one = Served(checks, program, 4, [], ["--round", length])
        one.post(f"{what}: a body", "{}", *FROM_A, *body(10, 20, 5))
        one.order(f"{what}: a flush", SETTLED, "/flush")
        one.ask(f"{what}: a report", text, "/report")
        one.ask(f"{what}: a later report", text, "/report")
        one.end(what, f"{text}admitted 1 acknowledged 1\n")


def silent_parties(checks: Checks, program: str) -> None:
    one = Served(checks, program, 5, [None])
    one.post("a body for a back end without an answer", "{}", *FROM_A, *body(10, 20, 5))
    one.order("a flush without an answer", RETURNED, "/flush")
    checks.same("what it got", [forwarded(one.back_at, 10, 20, 5)], one.back_end.requests)
    gone = connected(one.gateway.port)
    gone.setsockopt(socket.SOL_SOCKET, socket.SO_LINGER, struct.pack("ii", 1, 0))
    gone.sendall(b"POST /v1/metrics HTTP/1.1\r\nContent-Length: 9\r\n\r\n{")
    gone.close()
    silent = connected(one.gateway.port)
    one.ask("a request behind one that goes away and one that says nothing", STORED, "/report")
    silent.close()
    one.end("a silent sender", f"{STORED}admitted 1 acknowledged 0\n")


def run(program: str, words: Sequence[str | bytes], **more: Any) -> tuple[int, bytes, bytes]:
    """The status, standard output and standard error of a run."""
    ran = subprocess.run([program, *words], stdout=subprocess.PIPE, stderr=subprocess.PIPE, timeout=SECONDS, check=False, **more)
    return ran.returncode, ran.stdout, ran.stderr


def faulty_lines(checks: Checks, program: str) -> None:
    serve: list[str | bytes] = ["serve", "--backend", f"127.0.0.1:{NOBODY}"]
    faulty: tuple[tuple[str, str, list[str | bytes]], ...] = (
        ("no such subcommand", "error: unrecognized subcommand 'sing'", ["sing"]),
        ("no number of connections", "error: the following required arguments were not provided:", serve),
        ("too many connections",
         "error: invalid value '1000001' for '--connections <N>': 1000001 is not in 0..=1000000",
         [*serve, "--connections", "1000001"]),
        ("flushes of no series", "error: invalid value '0' for '--flush-series <N>': 0 is not in 1..=1000",
         [*serve, "--connections", "0", "--flush-series", "0"]),
        ("an argument that is no text", "error: invalid UTF-8 was detected in one or more arguments",
         ["serve", "--backend", b"\xff", "--connections", "0"]),
        ("a call for help", "Serves senders, forwards what is flushed, and prints the report at its end",
         ["serve", "--help"]),
    )
    for what, text, words in faulty:
        status, printed, error = run(program, words)
        checks.same(what, (2, b"", text), (status, printed, error.decode().partition("\n")[0]))


def ends(checks: Checks, program: str) -> None:
    serve = ["serve", "--backend", f"127.0.0.1:{NOBODY}"]
    here = ["--listen", "127.0.0.1:0"]
    none = (0, b"end\nadmitted 0 acknowledged 0\n", b"")
    checks.same("no connection", none, run(program, [*serve, "--connections", "0", *here]))
    cannot_listen = (1, b"", b"gateway: cannot listen\n")
    nowhere = run(program, [*serve, "--connections", "1", "--listen", "nowhere"])
    checks.same("no address", cannot_listen, nowhere)
    with socket.create_server(("127.0.0.1", free_port())) as taken:
        address = f"127.0.0.1:{taken.getsockname()[1]}"
        checks.same("an address that is taken", cannot_listen, run(program, [*serve, "--connections", "1", "--listen", address]))
    cannot_accept = (1, b"", b"gateway: cannot accept\n")
    # The limit allows its three standard files and the listener only.
    no_room = run(program, [*serve, "--connections", "1", *here],
                  preexec_fn=lambda: resource.setrlimit(resource.RLIMIT_NOFILE, (4, 4)))
    checks.same("no room for a connection", cannot_accept, no_room)
    # Eight receivers wait. One of them serves a request and has no room for the next, and the others stop waiting.
    one = Served(checks, program, 100, options=["--receivers", "8"])
    resource.prlimit(one.gateway.process.pid, resource.RLIMIT_NOFILE, (3, 3))
    subprocess.run(["curl", "-s", "-m", "60", "-o", os.devnull, f"http://127.0.0.1:{one.gateway.port}/report"], check=False)
    checks.same("no more room while others wait", cannot_accept, one.gateway.end())
    words = ["sh", "-c", 'exec "$0" "$@" >&-', program, *serve, "--connections", "0", *here]
    status, _, error = run(words[0], words[1:])
    checks.same("closed output", (1, b"gateway: cannot write\n"), (status, error))


def main(program: str) -> int:
    if not shutil.which("curl"):
        print("left out: all, missing: curl")
        return LEFT_OUT
    checks = Checks()
    for part in (posts_and_flushes, nobody_behind, one_series_a_flush, rounds, silent_parties, faulty_lines, ends):
        part(checks, program)
    return checks.end()


if __name__ == "__main__":
    if len(sys.argv) != 2:
        sys.exit(__doc__)
    sys.exit(main(sys.argv[1]))
