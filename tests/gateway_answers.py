#!/usr/bin/env python3
"""What the gateway answers, byte by byte, each request sent whole and a byte at a time; and what it makes of replies and lines.

Call: tests/gateway_answers.py PROGRAM, with the path of the built gateway.

  - requests of one fault and of several: path, method, sender, content and body count in this order
  - requests that are served: without points, in chunks cut at every place, with foreign points, again, over a limit;
    each is answered though the sender keeps its side open
  - two quarantined senders, of which one is released
  - each reply of a back end, whole and broken off, with what becomes of its flush and what it was sent
  - lines that are served, and lines that are faulty
What is wanted is written out from docs/FORMATS.md. Each line is a check; the last line counts passes and failures. The status is 0 if
none failed.
"""
import json
import socket
import subprocess
import sys
from collections.abc import Sequence

from testing.checks import Checks
from testing.loopback import SECONDS, BackEnd, Gateway, ordered, point, posted, read_all, response

# A port on which nobody listens.
NOBODY = 9
JSON = b"application/json"
POST = b"POST /v1/metrics HTTP/1.1\r\n"
TYPED = POST + b"Content-Type: application/json\r\n"
TWO = b"Content-Length: 2\r\n\r\n"
CHUNKED = TYPED + b"Transfer-Encoding: chunked\r\n\r\n"
EMPTY = CHUNKED + b"2\r\n{}\r\n0\r\n\r\n"
DONE = response(b"200 OK", JSON, b"{}")
WITHOUT_POINTS = b'{"resourceMetrics":[]}'
METHOD = b"405 Method Not Allowed", "wrong method"
CONTENT = b"415 Unsupported Media Type", "only uncompressed application/json"
PATH = b"404 Not Found", "no such path"
BAD = b"400 Bad Request"
SENDER = BAD, "bad sender"
NOT_JSON = BAD, "not JSON"

# Each request with its status and message.
REFUSED: Sequence[tuple[bytes, tuple[bytes, str]]] = (
    (ordered("POST /v1/traces"), PATH),
    (ordered("GET /v1/metrics"), METHOD),
    (ordered("POST /report"), METHOD),
    (ordered("GET /flush"), METHOD),
    (ordered("get /report"), METHOD),
    (POST + b"Content-Type: application/x-protobuf\r\n" + TWO + b"{}", CONTENT),
    (TYPED + b"Content-Encoding: gzip\r\n" + TWO + b"{}", CONTENT),
    (POST + TWO + b"{}", CONTENT),
    (TYPED + b"Content-Length: 4194305\r\n\r\n", (b"413 Payload Too Large", "body too long")),
    (b"POST /v1/metrics HTTP/2.0\r\n\r\n", (BAD, "malformed request")),
    (TYPED + b"x-sender: a b\r\n" + TWO + b"{}", SENDER),
    (TYPED + b"x-sender: a\r\nX-Sender: a\r\n" + TWO + b"{}", SENDER),
    (ordered("POST /quarantine/"), SENDER),
    (ordered("POST /lift/?A"), SENDER),
    (ordered("POST /lift/A"), (BAD, "not quarantined")),
    (TYPED + TWO + b"[1", NOT_JSON),
    (TYPED + b"Content-Length: 0\r\n\r\n", NOT_JSON),
    (TYPED + TWO + b"[]", (BAD, "wrong shape")),
    # Requests with several faults: the first of path, method, sender, content and body is answered.
    (b"GET /v1/traces HTTP/1.1\r\nx-sender: a b\r\n\r\n", PATH),
    (b"PUT /v1/metrics HTTP/1.1\r\nContent-Type: text/plain\r\nx-sender: a b\r\n" + TWO + b"[1", METHOD),
    (POST + b"Content-Type: text/plain\r\nx-sender: a b\r\n" + TWO + b"[1", SENDER),
    (POST + b"Content-Type: text/plain\r\n" + TWO + b"[1", CONTENT),
)
# The method of a path, for requests with another one.
ALLOWED = {b"/v1/metrics": b"POST", b"/flush": b"POST", b"/report": b"GET"}

SERVED = (
    ("no byte but two braces", TYPED + TWO + b"{}"),
    ("no resource", TYPED + b"Content-Length: 22\r\n\r\n" + WITHOUT_POINTS),
    ("a media type in another case, with a parameter, and no encoding",
     POST + b"Content-Type: Application/JSON; charset=utf-8\r\nContent-Encoding: Identity\r\n" + TWO + b"{}"),
    ("chunks", EMPTY),
)

# What a back end replies, and what then becomes of its flush; after a reply that breaks off nothing is known.
REPLIES: Sequence[tuple[bytes, str, str]] = (
    (b"HTTP/1.1 204 No Content\r\n\r\n", "settled", ""),
    (b"HTTP/1.1 299 Fine\r\n\r\n", "settled", ""),
    (b"HTTP/1.1 302 Found\r\n\r\n", "returned", ""),
    (b"HTTP/1.1 400 Bad Request\r\n\r\n", "dropped", ""),
    (b"HTTP/1.1 502 Bad Gateway\r\nRetry-After: 2\r\n\r\n", "returned", ""),
    (b"HTTP/1.1 503 Service Unavailable\r\nRetry-After:  2 \r\nretry-after: 3\r\n\r\nbody", "returned", "2"),
    (b"HTTP/1.1 503 Service Unavailable\r\nRetry-After: soon\r\n\r\n", "returned", ""),
    (b"HTTP/1.1 429 Too Many Requests\r\nRetry-After: 18446744073709551615\r\n\r\n", "returned", "18446744073709551615"),
    (b"HTTP/1.0 200\r\n\r\n", "settled", ""),
    (b"HTTP/2 200\r\n\r\n", "returned", ""),
    *((b"HTTP/1.1 200 OK\r\n\r\n"[:count], "returned", "") for count in range(19)),
)

SERVE = ["serve", "--backend", f"127.0.0.1:{NOBODY}"]
NONE = [*SERVE, "--connections", "0"]
ANYWHERE = ["--listen", "127.0.0.1:0"]
# The greatest and the least value of each number.
LINES: Sequence[list[str]] = (
    [*NONE, *ANYWHERE],
    [*NONE, *ANYWHERE, "--round", "32000", "--flushers=4", "--receivers", "8", "--flush-series", "1000"],
    ["serve", "--flush-series", "1", "--listen=127.0.0.1:0", "--connections", "0", "--backend=b:9", "--round=1",
     "--flushers", "1", "--receivers=1"],
)
OUTSIDE = {"receivers": ("0", "9", "+2", "two"), "flushers": ("0", "5"), "flush-series": ("0", "1001"),
           "round": ("0", "32001", "", "-1"), "connections": ("1000001", "+1", "-1")}
FAULTY: Sequence[list[str]] = (
    [], ["sing"], ["-h"], ["help"], ["serve"], ["serve", "--help"], ["serve", "--connections", "0"], SERVE,
    *([*SERVE, *([] if name == "connections" else ["--connections", "0"]), f"--{name}", value]
      for name, values in OUTSIDE.items() for value in values),
    ["rehearse", "-h"], ["rehearse", "--senders", "0"], ["rehearse", "--senders", "5"], ["rehearse", "--batches", "0"],
    ["rehearse", "--batches", "101"], ["rehearse", "--senders", "2", "--senders", "2"], ["rehearse", "--backend", "b:9"],
    ["rehearse", "more"], ["--receivers", "2", "rehearse"],
    # An option may occur only once.
    *([*NONE, f"--{name}=1", f"--{name}=1"] for name in ("backend", "connections", "receivers", "round", "flushers")),
    [*NONE, *ANYWHERE, *ANYWHERE],
)


def refusal(status: bytes, message: str, allow: bytes = b"") -> bytes:
    return response(status, JSON, f'{{"message":"{message}"}}'.encode(), allow and b"Allow: " + allow + b"\r\n")


def byte_by_byte(request: bytes) -> list[bytes]:
    return [request[at:at + 1] for at in range(len(request))]


def report(*rows: str) -> bytes:
    return "".join(f"{row}\n" for row in (*rows, "end")).encode()


def row(name: str, owner: str, frontier: int, **words: str) -> str:
    names = ("accepted", "acknowledged", "dropped", "in-flight", "stored", "quarantined")
    told = " ".join(f"{it} {words.get(it.replace('-', '_'), '0,0,0')}" for it in names)
    return f"series {name} monotonic owner {owner} frontier {frontier} {told}"


def empty_book(checks: Checks, program: str) -> None:
    """Sends requests that change nothing to one gateway, whole and byte by byte."""
    asked = [*((f"refused: {it[:60]!r}", it, refusal(*why, allow=ALLOWED[it.split()[1]] if why == METHOD else b""))
               for it, why in REFUSED), *((what, it, DONE) for what, it in SERVED)]
    gateway = Gateway(program, NOBODY, 2 * len(asked) + len(EMPTY) + 2)
    for what, request, wanted in asked:
        checks.same(what, wanted, gateway.ask(request))
        checks.same(f"{what}, a byte at a time", wanted, gateway.ask(*byte_by_byte(request)))
    others = [cut for cut in range(1, len(EMPTY)) if gateway.ask(EMPTY[:cut], EMPTY[cut:]) != DONE]
    checks.same("chunks in two pieces, cut at every place", [], others)
    nothing = gateway.connect()
    if nothing:
        nothing.shutdown(socket.SHUT_WR)
        checks.same("a sender that says nothing", b"", read_all(nothing))
        nothing.close()
    checks.same("nothing was entered", response(b"200 OK", b"text/plain", report()), gateway.ask(ordered("GET /report")))
    nobody = gateway.connect()
    if nobody:
        nobody.close()
    checks.same("the end of it", (0, report() + b"admitted 0 acknowledged 0\n", b""), gateway.end())


def posts(checks: Checks, program: str) -> None:
    """Points that are accepted, refused and rejected; and two senders, one of which is released."""
    gauge = {"name": "g", "gauge": {"dataPoints": [{}, {}, {}]}}
    with_gauge = json.loads(point(10, 20, 5))
    with_gauge["resourceMetrics"][0]["scopeMetrics"][0]["metrics"].append(gauge)
    foreign = b'{"partialSuccess":{"errorMessage":"points outside the profile","rejectedDataPoints":"3"}}'
    b_point = posted(point(10, 20, 7, "b"), "B")
    held = report(row("a", "A", 20, accepted="1,5,0", quarantined="1,5,0"),
                  row("b", "B", 20, accepted="1,7,0", quarantined="1,7,0"))
    released = report(row("a", "A", 20, accepted="1,5,0", quarantined="1,5,0"),
                      row("b", "B", 20, accepted="1,7,0", stored="1,7,0"))
    turn = b'{"act":"returned","flush":"%d","points":"1"}'
    asked = (
        ("foreign points are counted", posted(json.dumps(with_gauge).encode()), response(b"200 OK", JSON, foreign)),
        ("a repeat", posted(point(10, 20, 5)), refusal(BAD, "out of order: point 0, frontier 20")),
        ("a sum over its limit", posted(point(20, 30, 2**63 - 1)), refusal(b"503 Service Unavailable", "too large")),
        ("A is quarantined", ordered("POST /quarantine/A"), DONE),
        ("A again", ordered("POST /quarantine/A"), refusal(BAD, "already quarantined")),
        ("a post of A", posted(point(20, 30, 5)), refusal(b"403 Forbidden", "quarantined")),
        ("a post of B", b_point, DONE),
        ("B is quarantined", ordered("POST /quarantine/B"), DONE),
        ("nothing is left to take", ordered("POST /flush"), response(b"200 OK", JSON, b'{"act":"nothing"}')),
        ("the report of both, with a query", ordered("GET /report?all"), response(b"200 OK", b"text/plain", held)),
        ("B is released", ordered("POST /lift/B"), DONE),
        ("the report of A alone", ordered("GET /report"), response(b"200 OK", b"text/plain", released)),
        ("A is refused still", posted(point(20, 30, 5)), refusal(b"403 Forbidden", "quarantined")),
        ("what B has is taken", ordered("POST /flush"), response(b"200 OK", JSON, turn % 1)),
        ("B again", ordered("POST /quarantine/B"), DONE),
        ("A is released", ordered("POST /lift/A"), DONE),
        ("what A has is taken", ordered("POST /flush"), response(b"200 OK", JSON, turn % 2)),
        ("A once more", ordered("POST /lift/A"), refusal(BAD, "not quarantined")),
        ("a later post of A", posted(point(20, 30, 5)), DONE),
        ("a later post of B", posted(point(20, 30, 7, "b"), "B"), refusal(b"403 Forbidden", "quarantined")),
    )
    # With rounds of three connections, quarantined points are carried into the next round and stay quarantined.
    for length in ("32000", "3"):
        gateway = Gateway(program, NOBODY, len(asked), options=["--round", length, "--receivers", "2"])
        for what, request, wanted in asked:
            checks.same(f"{what}, in rounds of {length}", wanted, gateway.ask(request))
        last = [row("a", "A", 30, accepted="2,10,0", stored="2,10,0"), row("b", "B", 20, accepted="1,7,0", quarantined="1,7,0")]
        checks.same(f"the end, in rounds of {length}", (0, report(*last)), (gateway.process.wait(SECONDS), printed(gateway)))


def printed(gateway: Gateway) -> bytes:
    """The report that the gateway has printed, without the line that counts."""
    lines = gateway.end()[1].splitlines(keepends=True)
    return b"".join(it for it in lines if not it.startswith(b"admitted "))


class Replying(BackEnd):
    """A back end that replies these bytes, one reply after another, and closes."""

    def __init__(self, replies: Sequence[bytes]) -> None:
        super().__init__()
        self.replies = list(replies)

    def answer_to(self, body: bytes) -> bytes | None:
        self.bodies.append(body)
        return None

    def answer(self, connection: socket.socket) -> None:
        super().answer(connection)
        connection.sendall(self.replies.pop(0))


def replies(checks: Checks, program: str) -> None:
    """Posts a point and orders a flush for each reply."""
    back_end = Replying([reply for reply, _, _ in REPLIES])
    gateway = Gateway(program, back_end.port, 2 * len(REPLIES))
    pending = 0
    for at, (reply, act, after) in enumerate(REPLIES):
        taken = gateway.ask(posted(point(10 * at + 10, 10 * at + 20, 1)))
        text = f'{{"act":"{act}","flush":"{at + 1}","points":"1"' + (f',"retryAfter":"{after}"' if after else "") + "}"
        turned = gateway.ask(ordered("POST /flush"))
        checks.same(f"a reply {reply!r}", (DONE, response(b"200 OK", JSON, text.encode())), (taken, turned))
        pending = pending + 1 if act == "returned" else 0
        wanted = (pending if act == "returned" else None)
        sent = json.loads(back_end.bodies[-1])["resourceMetrics"][0]["scopeMetrics"][0]["metrics"][0]["sum"]["dataPoints"]
        checks.true(f"what it was sent before {reply!r}", len(sent) == 1 and (wanted is None or int(sent[0]["asInt"]) == wanted), sent)
    gateway.end()
    back_end.close()


def lines(checks: Checks, program: str) -> None:
    """Command lines that serve nobody and end, and faulty ones."""
    for words in (*LINES, *FAULTY):
        ran = subprocess.run([program, *words], capture_output=True, timeout=SECONDS, check=False)
        wanted = (2, b"") if words in FAULTY else (0, b"end\nadmitted 0 acknowledged 0\n")
        checks.same(f"gateway {' '.join(words)}", (*wanted, bool(words in FAULTY)), (ran.returncode, ran.stdout, bool(ran.stderr)))


def main(program: str) -> int:
    checks = Checks()
    for part in (empty_book, posts, replies, lines):
        part(checks, program)
    return checks.end()


if __name__ == "__main__":
    if len(sys.argv) != 2:
        sys.exit(__doc__)
    sys.exit(main(sys.argv[1]))
