#!/usr/bin/env python3
"""The program play at its limits and one past them: no reply says that there is no memory, and each is right.

Call: tests/sizes.py PROGRAM, with the path of the built play.

No contract excludes a false `no-memory`. So each size that a store may have stands here once: 10,000
series in a batch and in a report, flushes of 1,000 of them, 1,000 quarantined senders over the end of a
round, 6,000 pending points and 1,100 batches of one series, 12,000 points in a body, 64 live flushes,
1,024 open batches, 65,536 entries, 110 rounds, texts of 4,096 bytes, 128 attributes and values of a list, 255 bounds.
What is one more of these is refused.
The last line counts checks that passed and failed. The status is 0 if none failed.
"""
import json
import subprocess
import sys
from collections.abc import Sequence
from typing import Any

from testing.checks import Checks

SECONDS = 60
LONG = "z" * 4096


def attribute(key: str, value: dict[str, Any] | dict[str, str]) -> dict[str, Any]:
    return {"key": key, "value": value}


def point(start: int, **more: Any) -> dict[str, Any]:
    return {"asInt": "1", "startTimeUnixNano": start, "timeUnixNano": start + 1, **more}


def post(name: str, points: list[dict[str, Any]], field: str = "sum", unit: str = "",
         resource: Sequence[dict[str, Any]] = ()) -> str:
    """The line that posts these points of one metric."""
    data = {"aggregationTemporality": 1, "dataPoints": points}
    scope = {"metrics": [{"name": name, "unit": unit, field: data}]}
    body = {"resource": {"attributes": list(resource)}, "scopeMetrics": [scope]}
    return "post A " + json.dumps({"resourceMetrics": [body]}, separators=(",", ":"))


class Script:
    """Lines, each with the beginning of its reply and the number of the reply's lines."""

    def __init__(self) -> None:
        self.lines: list[str] = []
        self.wanted: list[tuple[str, int]] = []
        self.batches = 0

    def say(self, line: str, begins: str, count: int = 1) -> None:
        self.lines.append(line)
        self.wanted.append((begins, count))

    def bring(self, line: str, behind: str = "") -> None:
        self.batches += 1
        self.say(line, f"batch {self.batches}{behind}\n")

    def admit(self, line: str, behind: str = "") -> None:
        self.bring(line, behind)
        self.say(f"confirm {self.batches}", f"confirmed {self.batches}\n")

    def flush(self, number: int, points: int) -> None:
        """A flush of this many series, each of which is sent as one point."""
        self.say(f"take {points}", f"flush {number} points {points}\npoint ", 1 + points)

    def run(self, program: str, checks: Checks, what: str) -> None:
        text = "".join(line + "\n" for line in self.lines)
        run = subprocess.run([program], input=text.encode(), capture_output=True, timeout=SECONDS)
        replies = run.stdout.decode().splitlines(keepends=True)
        wrong = []
        for line, (begins, count) in zip(self.lines, self.wanted):
            reply, replies = "".join(replies[:count]), replies[count:]
            if not reply.startswith(begins) or reply.count("\n") != count:
                wrong.append((line[:60], reply[:60]))
        is_right = (run.returncode, run.stderr, replies, wrong) == (0, b"", [], [])
        checks.true(what, is_right, (run.returncode, run.stderr, replies[:3], wrong[:3]))


def series(program: str, checks: Checks) -> None:
    """The most series and quarantined senders."""
    it = Script()
    it.say("admit A " + " ".join(f"s{i:05} 10 20 1" for i in range(10_001)), "refused too-many-series\n")
    it.admit("admit A " + " ".join(f"s{i:04} 10 20 1" for i in range(10_000)))
    it.say("admit A s0000 20 30 1 t 20 30 1", "refused too-many-series\n")
    it.say("report", "series s0000 sum owner A frontier 20 accepted 1,1,0 ", 10_001)
    for flush in range(1, 11):
        it.flush(flush, 1_000)
        it.say(f"ok {flush}", f"settled {flush}\n")
    for i in range(1_000):
        it.say(f"hold h{i}", f"held h{i}\n")
    it.say("hold one-more", "refused full\n")
    it.say("round", "round 2\n")
    it.say("admit A t 20 30 1", "refused too-many-series\n")
    it.say("past", "past s0000 sum acknowledged 1,1,0 dropped 0,0,0\n", 10_001)
    for i in range(1_000):
        it.say(f"lift h{i}", f"lifted h{i}\n")
    it.run(program, checks, "10,000 series and 1,000 quarantined senders")


def points(program: str, checks: Checks) -> None:
    """Many points and batches of a series, and many rounds."""
    it = Script()
    for k in range(6):
        it.admit(post("a", [point(20 + 1_000 * k + i) for i in range(1_000)]), " foreign 0")
    it.admit(post("b", [point(20 + i) for i in range(12_000)]), " foreign 0")
    for i in range(1_100):
        it.admit(f"admit A c {20 + i} {21 + i} 1")
    it.flush(1, 3)
    it.say("ok 1", "settled 1\n")
    for number in range(2, 111):
        it.say("round", f"round {number}\n")
    it.run(program, checks, "6,000 points, 1,100 batches and 12,000 points of a series, 110 rounds")


def open_ends(program: str, checks: Checks) -> None:
    """The most open batches and live flushes."""
    it = Script()
    for i in range(1_024):
        it.bring(f"admit A s{i % 65:02} {20 + i} {21 + i} 1")
    for flush in range(1, 65):
        it.flush(flush, 1)
    it.say("take 1", "refused full\n")
    it.say("hold A", "held A\n")
    it.say("take 1", "nothing\n")
    it.say("lift A", "lifted A\n")
    it.say("admit A s00 5000 5001 1", "refused full\n")
    for flush in range(1, 65):
        it.say(f"back {flush}", f"returned {flush}\n")
    for batch in range(1_024, 0, -1):
        it.say(f"undo {batch}", f"undone {batch}\n")
    it.say("report", "end\n")
    it.run(program, checks, "1,024 open batches and 64 live flushes")


def entries(program: str, checks: Checks) -> None:
    """The most entries of a round, the last of which is reserved for the end of a live flush."""
    it = Script()
    it.admit("admit A s 10 20 1")
    it.flush(1, 1)
    for _ in range(65_532 // 2):
        it.say("hold B", "held B\n")
        it.say("lift B", "lifted B\n")
    it.say("admit A s 20 30 1", "refused full\n")
    it.say("hold B", "refused full\n")
    it.say("back 1", "returned 1\n")
    it.say("take 1", "refused full\n")
    it.say("round", "round 2\n")
    it.flush(2, 1)
    it.say("ok 2", "settled 2\n")
    it.admit("admit A s 20 30 1")
    it.run(program, checks, "65,536 entries of a round")


def counted(bounds: int, start: int, least: int) -> dict[str, Any]:
    """A histogram's point with `least` points in its first bucket, and one more in each further bucket."""
    counts = list(range(least, least + bounds + 1))
    return {"startTimeUnixNano": start, "timeUnixNano": start + 10, "count": sum(counts), "sum": start,
            "explicitBounds": list(range(bounds)), "bucketCounts": counts}


def rows(program: str, checks: Checks) -> None:
    """Rows of each length, added, subtracted and moved."""
    it, lines = Script(), []
    lengths = [*range(1, 30), 255]
    for bounds in lengths:
        name = f"h{bounds:03}"
        for start, least in ((10, 5), (20, 7)):
            it.admit(post(name, [counted(bounds, start, least)], field="histogram"), " foreign 0")
        it.bring(post(name, [counted(bounds, 30, 2**40)], field="histogram"), " foreign 0")
        it.say(f"undo {it.batches}", f"undone {it.batches}\n")
    it.flush(1, len(lengths))
    it.say("back 1", "returned 1\n")
    it.flush(2, len(lengths))
    it.say("drop 2", "dropped 2\n")
    for bounds in lengths:
        name = f"h{bounds:03}"
        it.admit(post(name, [counted(bounds, 40, 1)], field="histogram"), " foreign 0")
        zeros = ",".join(["0"] * (bounds + 4))
        first, again = ([*map(str, words)] for words in
                        ([2, 0, 30, *range(12, 14 + 2 * bounds, 2)], [1, 0, 40, *range(1, 2 + bounds)]))
        both = [str(int(one) + int(other)) for one, other in zip(first, again)]
        lines.append(f"series {name} histogram[{';'.join(map(str, range(bounds)))}] owner A frontier 50 "
                     f"accepted {','.join(both)} acknowledged {zeros} dropped {','.join(first)} in-flight {zeros} "
                     f"stored {','.join(again)} quarantined {zeros}\n")
    it.say("report", "".join(lines) + "end\n", len(lines) + 1)
    it.run(program, checks, "rows of 5 to 33 and of 259 words")


def texts(program: str, checks: Checks) -> None:
    """The longest texts, sets, lists and bounds."""
    pairs = [attribute(f"k{i}", {"stringValue": "v"}) for i in range(127)]
    pairs.append(attribute("l", {"arrayValue": {"values": [{"stringValue": LONG}] * 128}}))
    histogram = {"startTimeUnixNano": 1, "timeUnixNano": 2, "count": 256, "sum": 1,
                 "explicitBounds": list(range(255)), "bucketCounts": ["1"] * 256}
    it = Script()
    named = [attribute(LONG, {"stringValue": LONG})]
    it.admit(post("w", [point(20, attributes=pairs)], unit=LONG, resource=named), " foreign 0")
    it.admit(post(LONG, [histogram], field="histogram"), " foreign 0")
    one_more = [attribute("k128", {"stringValue": "v"})]
    longer = attribute("k", {"arrayValue": {"values": [{}] * 129}})
    bounds = {"explicitBounds": list(range(256)), "bucketCounts": ["1"] * 257, "count": 257}
    too_long: list[list[dict[str, Any]]] = [
        pairs + one_more, [longer], [attribute(LONG + "z", {"stringValue": ""})], [attribute("k", {"stringValue": LONG + "z"})]]
    for attributes in too_long:
        it.say(post("w", [point(30, attributes=attributes)]), "nothing foreign 1\n")
    it.say(post("w", [point(30)], unit=LONG + "z"), "nothing foreign 1\n")
    it.say(post("w", [{**histogram, **bounds}], field="histogram"), "nothing foreign 1\n")
    it.say("wire 1000", "flush 1\n{", 2)
    it.say("report", "series ", 3)
    it.run(program, checks, "texts, attributes, lists and bounds at their limits")


def main(program: str) -> int:
    checks = Checks()
    series(program, checks)
    points(program, checks)
    open_ends(program, checks)
    entries(program, checks)
    rows(program, checks)
    texts(program, checks)
    return checks.end()


if __name__ == "__main__":
    if len(sys.argv) != 2:
        sys.exit("usage: tests/sizes.py PROGRAM")
    sys.exit(main(sys.argv[1]))
