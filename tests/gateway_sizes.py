#!/usr/bin/env python3
"""The gateway over loopback at sizes near its limits: nothing is answered `no memory`, and each answer is right.

    tests/gateway_sizes.py PROGRAM [CHECK ..]

No contract excludes a false answer `no memory`, so what is named as a limit is met here through the gateway: 12 seats,
which is as many as its options give, 10,000 series and 1,000 quarantined senders over the ends of rounds, 1,000 and 60,000
points in a post, bodies of 4,194,304 bytes, one of them in chunks of 64 KiB, and flushes of 1,000 series with 4 MB of text.

All checks, or those that are named. The last line counts passes and failures. The status is 0 if none failed. tests/wrong_sizes.py
tries wrong gateways.
"""
import json
import sys
from collections.abc import Callable, Iterable, Sequence

from testing import loopback
from testing.checks import Checks
from testing.loopback import BackEnd, Gateway, ordered, posted

# In seconds; long enough for a gateway with run-time checks on a busy machine.
loopback.SECONDS = 180
MOST_BODY = 4_194_304
WRITE = 65_536
LONG = "z" * 3_900
DONE = b"HTTP/1.1 200 OK\r\n"


def points(first: int, count: int) -> list[dict[str, int]]:
    """This many points of value 1, one after another."""
    return [{"asInt": 1, "startTimeUnixNano": at, "timeUnixNano": at + 1} for at in range(first, first + count)]


def body(metrics: Iterable[tuple[str, list[dict[str, int]]]]) -> bytes:
    """A request with these metrics: a name and points for each."""
    sums = [{"name": name, "sum": {"aggregationTemporality": 1, "dataPoints": those}} for name, those in metrics]
    return json.dumps({"resourceMetrics": [{"scopeMetrics": [{"metrics": sums}]}]}, separators=(",", ":")).encode()


class Asked:
    """A gateway, and the requests that got another answer than wanted."""

    def __init__(self, program: str, connections: int, receivers: int = 1, flushers: int = 1, round: int = 32_000,
                 answers: Sequence[bytes] = ()) -> None:
        self.back_end = BackEnd(answers)
        self.wrong: list[tuple[str, bytes | str]] = []
        words = ["--receivers", str(receivers), "--flushers", str(flushers), "--round", str(round)]
        self.gateway = Gateway(program, self.back_end.port, connections, options=words)

    def ask(self, what: str, request: bytes, holds: Callable[[bytes], bool]) -> None:
        answer = self.gateway.ask(request)
        if not isinstance(answer, bytes) or not holds(answer):
            self.wrong.append((what, answer[:200]))

    def post(self, what: str, text: bytes) -> None:
        self.ask(what, posted(text), lambda answer: answer.startswith(DONE) and answer.endswith(b"\r\n\r\n{}"))

    def order(self, what: str, act: str, flush: int, count: int) -> None:
        end = f'{{"act":"{act}","flush":"{flush}","points":"{count}"}}'.encode()
        self.ask(what, ordered("POST /flush"), lambda answer: answer.endswith(b"\r\n\r\n" + end))

    def end(self, checks: Checks, what: str, last: str) -> None:
        """Checks that all answers were as wanted, and that the gateway ended with this line."""
        status, out, err = self.gateway.end()
        self.back_end.close()
        is_right = (status, err, self.wrong) == (0, b"", []) and out.endswith(f"end\n{last}\n".encode())
        checks.true(what, is_right, (status, err, out[-60:], self.wrong[:3]))


def seats(program: str, checks: Checks) -> None:
    for receivers, flushers in ((8, 4), (8, 2), (1, 4)):
        it = Asked(program, 1, receivers, flushers)
        it.ask("report", ordered("GET /report"), lambda answer: answer.endswith(b"\r\n\r\nend\n"))
        it.end(checks, f"{receivers} receivers and {flushers} flushers", "admitted 0 acknowledged 0")


def series(program: str, checks: Checks) -> None:
    """The most series and quarantined senders, over a round for each 1,000 connections."""
    it = Asked(program, 10 + 2_000 + 2 + 10, round=1_000)
    for k in range(10):
        it.post(f"series of post {k}", body((f"s{k}{i:03}", points(10, 1)) for i in range(1_000)))
    it.ask("report", ordered("GET /report"), lambda answer: answer.count(b"\nseries s") == 10_000 and answer.endswith(b"\nend\n"))
    for line in ("quarantine", "lift"):
        for i in range(1_000):
            it.ask(f"{line} {i}", ordered(f"POST /{line}/h{i}"), lambda answer: answer.startswith(DONE))
    it.ask("report", ordered("GET /report"), lambda answer: answer.count(b"\nseries s") == 10_000 and answer.endswith(b"\nend\n"))
    for k in range(1, 11):
        it.order(f"flush {k}", "settled", k, 1_000)
    it.end(checks, "10,000 series, 1,000 quarantined senders, rounds", "admitted 10000 acknowledged 10000")


def rounds(program: str, checks: Checks) -> None:
    """Ends of rounds with the most series."""
    it = Asked(program, 10 + 8, round=1)
    for k in range(10):
        it.post(f"series of post {k}", body((f"s{k}{i:03}", points(10, 1)) for i in range(1_000)))
    for _ in range(8):
        it.ask("report", ordered("GET /report"), lambda answer: answer.count(b"\nseries s") == 10_000)
    it.end(checks, "18 rounds with up to 10,000 series", "admitted 10000 acknowledged 0")


def batches(program: str, checks: Checks) -> None:
    """Posts of many points."""
    it = Asked(program, 4)
    it.post("1,000 points", body([("a", points(10, 1_000))]))
    it.post("60,000 points", body([("b", points(10, 60_000))]))
    it.post("30 points of 2,000 series", body((f"s{i}", points(10, 30)) for i in range(2_000)))
    it.ask("report", ordered("GET /report"), lambda answer: b"\nseries b sum owner A frontier 60010 accepted 60000,60000,0 " in answer)
    it.end(checks, "posts of 1,000 and of 60,000 points", "admitted 121000 acknowledged 0")


def bodies(program: str, checks: Checks) -> None:
    """The longest body, in writes of 64 KiB."""
    it = Asked(program, 2)
    for name in ("a", "b"):
        text = body([(name, points(10, 1_000))])
        text += b" " * (MOST_BODY - len(text))
        if name == "a":
            it.post("4 MiB", text)
            continue
        pieces = [text[at:at + WRITE] for at in range(0, MOST_BODY, WRITE)]
        head = b"POST /v1/metrics HTTP/1.1\r\nContent-Type: application/json\r\nx-sender: A\r\nTransfer-Encoding: chunked\r\n\r\n"
        whole = head + b"".join(b"%x\r\n%s\r\n" % (len(piece), piece) for piece in pieces) + b"0\r\n\r\n"
        it.ask("4 MiB in chunks", whole, lambda answer: answer.startswith(DONE) and answer.endswith(b"\r\n\r\n{}"))
    it.end(checks, "bodies of 4,194,304 bytes", "admitted 2000 acknowledged 0")


def flushes(program: str, checks: Checks) -> None:
    """Flushes of 1,000 series with much text, one of which comes back and is sent again."""
    it = Asked(program, 5 + 4, answers=[b"503 Service Unavailable\r\n"])
    for k in range(5):
        it.post(f"long names {k}", body((f"{LONG}{k}{i:03}", points(10, 1)) for i in range(200)))
    it.order("flush 1", "returned", 1, 1_000)
    it.order("flush 2", "settled", 2, 1_000)
    it.post("again", body((f"{LONG}0{i:03}", points(11, 1)) for i in range(200)))
    it.order("flush 3", "settled", 3, 200)
    lengths = [len(text) for text in it.back_end.bodies]
    it.end(checks, "flushes of 4 MB", "admitted 1200 acknowledged 1200")
    is_whole = len(lengths) == 3 and lengths[0] == lengths[1] > 4_000_000 > lengths[2] > 780_000
    checks.true("the back end got them whole", is_whole, lengths)


CHECKS = {it.__name__: it for it in (seats, series, rounds, batches, bodies, flushes)}


def main(program: str, names: list[str]) -> int:
    checks = Checks()
    for name in names or CHECKS:
        CHECKS[name](program, checks)
    return checks.end()


if __name__ == "__main__":
    if len(sys.argv) < 2 or not set(sys.argv[2:]) <= set(CHECKS):
        sys.exit(f"usage: tests/gateway_sizes.py PROGRAM [CHECK ..], with checks of {' '.join(CHECKS)}")
    sys.exit(main(sys.argv[1], sys.argv[2:]))
