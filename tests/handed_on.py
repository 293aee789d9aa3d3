#!/usr/bin/env python3
"""Tests one address for everything that an SDK sends: doubles and seconds are counted in whole numbers of a finer unit
without any setting, and points of other types are forwarded to another receiver.

    tests/handed_on.py TOTXEGUN [SEED]

First the units: sums and histograms of doubles, in both encodings, over kills and flushes. The sink must have what this program added up
in exact numbers, each metric in the unit in which it was first accepted, also if whole numbers came first, and if an earlier run had
`--integer-unit off`. Then exponential histograms of random values, delta and cumulative, at several scales: the sink must have each
value in the bucket of `--exponential` that contains it. Then `--forward-unsupported`: a receiver must get the gauges of each post
byte for byte and once each, through a second service too. No answer may reject them, no metric may count them as rejected, and
neither a receiver that stalls nor one that is gone may delay a post.

Each line is a check; the last line counts passes and failures. The status is 1 if one failed.
"""
import bisect
import collections
import contextlib
import decimal
import http.server
import json
import os
import random
import sqlite3
import struct
import sys
import tempfile
import threading
import time
from collections.abc import Sequence
from typing import Any

from testing.checks import Checks
from testing.loopback import free_port
from testing.service import JSON, PROTOBUF, Answer, Service, ask, field, fixed, varint, wait_until

DELTA, CUMULATIVE = 1, 2
BOUNDS = [0.005, 0.25, 5]
POSTS = 60


def nearest(value: float, factor: int) -> int:
    """A value in the finer unit, rounded to the nearest whole number, half to even."""
    exact = decimal.Decimal(repr(value)) * factor
    return int(exact.to_integral_value(rounding=decimal.ROUND_HALF_EVEN))


# --------------------------------------------------------------------------------------------------------------------
# Requests: metrics are (name, unit, kind, [value ..]), of a histogram's point (buckets, sum)


# Name, unit, kind, and the values of the points.
Metric = tuple[str, str, str, Sequence[Any]]


def json_point(kind: str, value: Any, start: int) -> dict[str, Any]:
    point = {"startTimeUnixNano": str(start), "timeUnixNano": str(start + 10)}
    if kind == "histogram":
        return point | {"count": str(sum(value[0])), "sum": value[1], "bucketCounts": value[0], "explicitBounds": BOUNDS}
    return point | ({"asInt": str(value)} if isinstance(value, int) else {"asDouble": value})


def in_json(metrics: Sequence[Metric], start: int) -> dict[str, Any]:
    made = []
    for name, unit, kind, values in metrics:
        data: dict[str, Any] = {"dataPoints": [json_point(kind, value, start) for value in values]}
        data |= {} if kind == "gauge" else {"aggregationTemporality": DELTA}
        made.append({"name": name, "unit": unit, "description": "of a test", kind: data})
    return {"resourceMetrics": [{"schemaUrl": "u", "scopeMetrics": [{"scope": {"name": "s"}, "metrics": made}]}]}


def binary_point(kind: str, value: Any, start: int) -> bytes:
    point = fixed(2, "<Q", start) + fixed(3, "<Q", start + 10)
    if kind == "histogram":
        point += fixed(4, "<Q", sum(value[0])) + fixed(5, "<d", value[1])
        return point + field(6, struct.pack("<4Q", *value[0])) + field(7, struct.pack("<3d", *BOUNDS))
    return point + (fixed(6, "<q", value) if isinstance(value, int) else fixed(4, "<d", value))


def in_protobuf(metrics: Sequence[Metric], start: int) -> bytes:
    made = b""
    for name, unit, kind, values in metrics:
        data = b"".join(field(1, binary_point(kind, value, start)) for value in values)
        data += b"" if kind == "gauge" else field(2, DELTA)
        head = field(1, name.encode()) + field(2, b"of a test") + field(3, unit.encode())
        made += field(2, head + field({"gauge": 5, "sum": 7, "histogram": 9}[kind], data))
    return field(1, field(1, b"") + field(2, field(1, field(1, b"s")) + made) + field(3, b"u"))


class Posts:
    """Posts in both encodings in turn; each post is later than the one before."""

    def __init__(self, service: Service, sender: str = "A") -> None:
        self.service, self.sender, self.start = service, sender, 1000

    def post(self, metrics: Sequence[Metric], encoding: str | None = None) -> tuple[int | None, int, str]:
        """The status, how many points are rejected, and why."""
        self.start += 10
        encoding = encoding or (JSON if self.start // 10 % 2 else PROTOBUF)
        body = json.dumps(in_json(metrics, self.start)).encode() if encoding == JSON else in_protobuf(metrics, self.start)
        headers = {"Content-Type": encoding, "x-sender": self.sender}
        status, answer = ask(self.service.listen, "POST", "/v1/metrics", body, headers)
        if encoding == PROTOBUF:
            return status, len(answer), answer.decode(errors="replace")
        said = json.loads(answer).get("partialSuccess", {})
        return status, int(said.get("rejectedDataPoints", 0)), said.get("errorMessage", "")


def totals(path: str) -> dict[str, dict[str, int]]:
    """For each name in a sink the units and their totals."""
    with contextlib.closing(sqlite3.connect(f"file:{path}?mode=ro", uri=True)) as database:
        rows = database.execute("select name, unit, total from totals").fetchall()
    found: dict[str, dict[str, int]] = {}
    for name, unit, total in rows:
        found.setdefault(name, {})[unit] = found.get(name, {}).get(unit, 0) + int(total)
    return found


def flushed(checks: Checks, service: Service, what: str) -> None:
    service.order("/flush")
    checks.true(f"{what}: all is delivered", wait_until(service.is_drained), service.last_lines())


def again(checks: Checks, service: Service, options: Sequence[str] = ()) -> None:
    service.kill()
    service.words = [*service.words[:-2], *options] if options else service.words
    service.start()
    checks.true("it is ready again after a kill", service.wait_ready(), service.last_lines())


# --------------------------------------------------------------------------------------------------------------------
# The parts


def units(checks: Checks, totxegun: str, chance: random.Random, folder: str) -> None:
    sink = f"{folder}/units.db"
    service = Service(totxegun, f"{folder}/units", f"sqlite:{sink}", "--flush-interval", "1h", "--integer-unit", "auto")
    try:
        service.start()
        checks.true("the service is ready", service.wait_ready(), service.last_lines())
        posts, wanted, wrong = Posts(service), {"busy": 0, "latency": 0, "ticks": 0, "size": 0, "share": 0}, []
        for number in range(POSTS):
            busy = chance.choice([chance.expovariate(10), chance.randrange(5)]) if number else 0.1
            sums = [0, chance.expovariate(3)] if number else [3.0]  # whole by chance
            size, share = chance.expovariate(0.001), chance.choice([0.5, 1.0, 0.123456])
            buckets = [chance.randrange(5) for _ in range(4)]
            metrics: list[Metric] = [("busy", "s", "sum", [busy]), ("latency", "s", "histogram", [(buckets, chance.choice(sums))]),
                       ("ticks", "s", "sum", [number]), ("size", "By", "sum", [size]), ("share", "1", "sum", [share])]
            answer = posts.post(metrics)
            wrong += [answer] if answer[:2] != (200, 0) else []
            wanted["busy"] += nearest(busy, 10**6)
            wanted["latency"] += sum(buckets)
            wanted["ticks"] += number
            wanted["size"] += nearest(size, 1)
            wanted["share"] += nearest(share, 10**6)
            if number % 10 == 4:
                again(checks, service)
            if number % 20 == 9:
                service.order("/flush")
        checks.same("all is taken", [], wrong[:2])
        later = [posts.post([("ticks", "s", "sum", [0.5])], encoding) for encoding in (JSON, PROTOBUF)]
        named = "the value 0.5 s of `ticks` is a double, and it was first taken in whole s"
        checks.true("doubles behind whole numbers are foreign by name, in both encodings",
                    all(status == 200 and named in why for status, _, why in later), later)
        flushed(checks, service, "units")
        found, kind = totals(sink), {"busy": "us", "latency": "us", "ticks": "s", "size": "By", "share": "[ppm]"}
        checks.same("each metric is in one unit", {name: [unit] for name, unit in kind.items()},
                    {name: list(units) for name, units in found.items()})
        added = {name: found[name][kind[name]] for name in wanted if name in found and name != "latency"}
        checks.same("its totals are what was added up here", {name: wanted[name] for name in added}, added)
        with contextlib.closing(sqlite3.connect(sink)) as database:
            count = database.execute("select count from totals where name = 'latency'").fetchone()[0]
        checks.same("the histogram has all values", wanted["latency"], int(count))
        checks.same("the service found nothing that must not be", [], service.faults())
    finally:
        service.kill()


def kept_units(checks: Checks, totxegun: str, folder: str) -> None:
    """A folder of an earlier version, and other options."""
    sink = f"{folder}/kept.db"
    service = Service(totxegun, f"{folder}/kept", f"sqlite:{sink}", "--flush-interval", "1h", "--integer-unit", "off")
    try:
        service.start()
        service.wait_ready()
        posts = Posts(service)
        posts.post([("wait", "s", "sum", [2]), ("age", "ms", "sum", [2])])
        again(checks, service, ["--integer-unit", "auto"])
        metrics = [("wait", "s", "sum", [2, 0.5]), ("age", "s", "sum", [0.25]), ("new", "s", "sum", [0.25])]
        checks.same("a metric goes on in its unit, a new one is in a finer one", (200, 1), posts.post(metrics, JSON)[:2])
        service.order("/flush")
        again(checks, service, ["--integer-unit", "s=ns"])
        posts.post([("new", "ms", "sum", [0.25]), ("wait", "s", "sum", [0.5])])
        flushed(checks, service, "other options")
        wanted = {"wait": {"s": 4, "ns": 500_000_000}, "age": {"ms": 252}, "new": {"us": 250_250}}
        checks.same("a rule wins, and without one the unit stays", wanted, totals(sink))
    finally:
        service.kill()


# --------------------------------------------------------------------------------------------------------------------
# Exponential histograms: values are whole microseconds, and sent in seconds

# In seconds. Each is a power of four, and so an edge also where the base is that.
EXPONENTIAL = [0.25, 1, 4, 16, 1024]
COARSEST = -1


def index_of(value: int, scale: int) -> int:
    """The bucket of a value over zero: over base^index, up to base^(index + 1). Both sides are raised, so that all is whole."""
    if scale < 0:
        return index_of(value, 0) >> -scale
    value, unit = int(value ** 2**scale), int((10**6) ** 2**scale)
    index = value.bit_length() - unit.bit_length() - 2
    while value * 2 ** max(0, -index - 1) > unit * 2 ** max(0, index + 1):
        index += 1
    return index


def buckets_of(values: list[int], scale: int) -> tuple[int, list[int]]:
    """Where the buckets begin, and their counts."""
    counts = collections.Counter(index_of(value, scale) for value in values if value)
    first = min(counts, default=0)
    return first, [counts[index] for index in range(first, max(counts, default=first - 1) + 1)]


def exponential_in_json(name: str, values: list[int], scale: int,
                        start: int, end: int,
                        temporality: int) -> dict[str, Any]:
    first, counts = buckets_of(values, scale)
    point = {"startTimeUnixNano": str(start), "timeUnixNano": str(end), "count": str(len(values)), "sum": sum(values) / 1e6,
             "scale": scale, "zeroCount": str(values.count(0)), "positive": {"offset": first, "bucketCounts": list(map(str, counts))}}
    data = {"aggregationTemporality": temporality, "dataPoints": [point]}
    return {"name": name, "unit": "s", "exponentialHistogram": data}


def signed(number: int) -> int:
    return number * 2 if number >= 0 else -number * 2 - 1


def exponential_in_protobuf(name: str, values: list[int], scale: int,
                            start: int, end: int, temporality: int) -> bytes:
    first, counts = buckets_of(values, scale)
    point = fixed(2, "<Q", start) + fixed(3, "<Q", end) + fixed(4, "<Q", len(values)) + fixed(5, "<d", sum(values) / 1e6)
    point += field(6, signed(scale)) + fixed(7, "<Q", values.count(0))
    point += field(8, field(1, signed(first)) + field(2, b"".join(map(varint, counts))))
    return field(1, name.encode()) + field(3, b"s") + field(10, field(1, point) + field(2, temporality))


def post_exponential(service: Service, encoding: str, *points: tuple[str, list[int], int, int, int, int]) -> Answer:
    if encoding == JSON:
        metrics = [exponential_in_json(*one) for one in points]
        body = json.dumps({"resourceMetrics": [{"scopeMetrics": [{"metrics": metrics}]}]}).encode()
    else:
        body = field(1, field(2, b"".join(field(2, exponential_in_protobuf(*one)) for one in points)))
    return ask(service.listen, "POST", "/v1/metrics", body, {"Content-Type": encoding})


def drawn_values(chance: random.Random) -> list[int]:
    """Some of them are on bounds, or beside."""
    drawn = [int(chance.lognormvariate(0, 3) * 1e6) for _ in range(chance.randrange(9))]
    return [*drawn, chance.choice([0, 10**6 // 4, 10**6, 10**6 + 1, 4 * 10**6, 4 * 10**6 - 1])]


def exponential(checks: Checks, totxegun: str, chance: random.Random, folder: str) -> None:
    sink, begin = f"{folder}/exponential.db", 1000
    service = Service(totxegun, f"{folder}/exponential", f"sqlite:{sink}", "--flush-interval", "1h", "--initial-value", "keep",
                      "--exponential", ",".join(map(str, EXPONENTIAL)))
    try:
        service.start()
        checks.true("the service is ready", service.wait_ready(), service.last_lines())
        all_: list[int] = []
        wrong: list[Answer] = []
        last = begin
        for number in range(POSTS):
            drawn, now = drawn_values(chance), last + 10
            all_ += drawn
            scales = [chance.randrange(COARSEST, 5) for _ in range(2)]
            answer = post_exponential(service, JSON if number % 2 else PROTOBUF, ("delta", drawn, scales[0], last, now, DELTA),
                                      ("cumulative", all_, scales[1], begin, now, CUMULATIVE))
            wrong += [answer] if answer not in ((200, b""), (200, b"{}")) else []
            last = now
            if number % 10 == 4:
                again(checks, service)
            if number % 20 == 9:
                service.order("/flush")
        checks.same("exponential histograms are taken", [], wrong[:2])
        for encoding in (JSON, PROTOBUF):
            status, text = post_exponential(service, encoding, ("delta", [2 * 10**6], COARSEST - 1, last, last + 10, DELTA))
            named = b"of the exponential histogram `delta` the bucket 0 of scale -2 has the bound 4 within" in text
            checks.true("one that has a bound within is foreign by name", status == 200 and named, text)
        flushed(checks, service, "exponential histograms")
        counts = [0] * (len(EXPONENTIAL) + 1)
        for value in all_:
            counts[bisect.bisect_left(EXPONENTIAL, value / 1e6)] += 1
        with contextlib.closing(sqlite3.connect(sink)) as database:
            rows = database.execute("select name, unit, total, buckets from totals order by name").fetchall()
        found = [(name, unit, int(total), [int(count) for count in json.loads(buckets)]) for name, unit, total, buckets in rows]
        checks.same("each value is in its bucket", [(name, "us", sum(all_), counts) for name in ("cumulative", "delta")], found)
        checks.same("the service found nothing that must not be", [], service.faults())
    finally:
        service.kill()


class Receiver:
    """Takes what comes, or stalls."""

    def __init__(self) -> None:
        self.bodies: list[tuple[str, bytes]] = []
        self.stalls, self.port = threading.Event(), free_port()
        receiver = self

        class Handler(http.server.BaseHTTPRequestHandler):
            protocol_version = "HTTP/1.1"

            def do_POST(self) -> None:
                body = self.rfile.read(int(self.headers["Content-Length"]))
                while receiver.stalls.is_set():
                    time.sleep(0.05)
                receiver.bodies.append((self.headers["Content-Type"], body))
                with contextlib.suppress(OSError):
                    self.send_response(200)
                    self.send_header("Content-Length", "0")
                    self.end_headers()

            def log_message(self, *_: Any) -> None:
                pass

        self.server = http.server.ThreadingHTTPServer(("127.0.0.1", self.port), Handler)
        threading.Thread(target=self.server.serve_forever, daemon=True).start()

    def got(self) -> tuple[bytes, list[Any]]:
        """All that came in protobuf, and each in JSON."""
        binary = b"".join(body for kind, body in self.bodies if kind == PROTOBUF)
        return binary, [json.loads(body) for kind, body in self.bodies if kind == JSON]

    def close(self) -> None:
        self.stalls.clear()
        self.server.shutdown()
        self.server.server_close()


def count_of(service: Service, name: str) -> float:
    """The sum of a metric's values, and whether it is there."""
    page = service.asked("GET", "/metrics")[1].decode()
    return sum(float(line.rpartition(" ")[2]) for line in page.splitlines() if line.startswith(name))


def hands_on(checks: Checks, totxegun: str, chance: random.Random, folder: str) -> None:
    receiver = Receiver()
    second = Service(totxegun, f"{folder}/second", f"sqlite:{folder}/second.db", "--forward-unsupported",
                     f"http://127.0.0.1:{receiver.port}")
    service = Service(totxegun, f"{folder}/first", f"sqlite:{folder}/first.db", "--flush-interval", "1h",
                      "--forward-unsupported", f"http://127.0.0.1:{second.listen}")
    try:
        for one in (second, service):
            one.start()
            checks.true("a service that passes on is ready", one.wait_ready(), one.last_lines())
        posts, answers, binary, texts, points = Posts(service), [], b"", [], 0
        for number in range(POSTS):
            gauges = [("load", "1", "gauge", [chance.random(), 5][:chance.randrange(1, 3)]), ("heat", "Cel", "gauge", [chance.random()])]
            euros = ("money", "EUR", "sum", [1.25])
            metrics: list[Metric] = [gauges[0], ("sold", "{item}", "sum", [number]), gauges[1], ("busy", "s", "sum", [0.25])]
            metrics += [euros] if number % 3 == 0 else []
            left = [*gauges, *([euros] if number % 3 == 0 else [])]
            answers.append(posts.post(metrics))
            points += sum(len(values) for *_, values in left)
            if posts.start // 10 % 2:
                texts.append(in_json(left, posts.start))
            else:
                binary += in_protobuf(left, posts.start)
        checks.same("no point is rejected", {(200, 0, "")}, set(answers))
        taken = 'totxegun_unsupported_points_total{outcome="taken"}'
        checks.true("all is handed on", wait_until(lambda: count_of(second, taken) >= points),
                    (points, second.last_lines()))
        found = receiver.got()
        checks.true("the receiver has each post's points as they came, each once", found == (binary, texts),
                    (len(found[0]), len(binary), len(found[1]), len(texts)))
        for one in (service, second):
            checks.same("none of them is called rejected", 0, count_of(one, "totxegun_rejected_points_total{"))
        checks.same("nothing of it is lost", 0, sum(count_of(service, f'totxegun_unsupported_points_total{{outcome="{outcome}"}}')
                                                    for outcome in ("refused", "lost", "dropped")))
        service.order("/flush")
        wait_until(service.is_drained)
        checks.same("the sums are counted here", {"sold": {"{item}": sum(range(POSTS))}, "busy": {"us": POSTS * 250_000}},
                    totals(f"{folder}/first.db"))
        bad = posts.post([("sold", "{item}", "sum", [1]), ("sold", "{item}", "gauge", [1])], JSON)
        checks.same("a post that has both is taken", (200, 0), bad[:2])
        away(checks, service, second, receiver, posts)
    finally:
        service.kill()
        second.kill()
        receiver.close()


def away(checks: Checks, service: Service, second: Service, receiver: Receiver, posts: Posts) -> None:
    """The receiver stalls, and then is gone."""
    receiver.stalls.set()
    second.signal(19)  # it stops
    gauges = [("load", "1", "gauge", [0.5] * 2000)]
    begun, slowest, statuses = time.monotonic(), 0.0, set()
    while time.monotonic() - begun < 60 and not count_of(service, 'totxegun_unsupported_points_total{outcome="dropped"}'):
        for _ in range(20):
            before = time.monotonic()
            statuses.add(posts.post(gauges, PROTOBUF)[0])
            slowest = max(slowest, time.monotonic() - before)
    lost = sum(count_of(service, f'totxegun_unsupported_points_total{{outcome="{outcome}"}}') for outcome in ("lost", "dropped"))
    checks.true("what finds no room is dropped, with a count", lost > 0, service.last_lines())
    checks.same("posts are taken meanwhile", {200}, statuses)
    checks.true("and none is held up", slowest < 3, slowest)
    second.kill()
    checks.true("who is gone loses what waits", wait_until(
        lambda: count_of(service, 'totxegun_unsupported_points_total{outcome="lost"}') > 0, 30), service.last_lines())
    with open(service.log, encoding="utf-8", errors="replace") as file:
        lines = [line for line in file if "were not forwarded" in line]
    checks.true("the log says so, a line a minute at most", 1 <= len(lines) <= 3, lines[:4])
    checks.same("it ends when it is told to", 0, service.end()[0])


def main(totxegun: str, seed: str = "1") -> int:
    checks, chance = Checks(), random.Random(seed)
    with tempfile.TemporaryDirectory(prefix="handed-on-") as folder:
        units(checks, totxegun, chance, folder)
        kept_units(checks, totxegun, folder)
        exponential(checks, totxegun, chance, folder)
        hands_on(checks, totxegun, chance, folder)
    return checks.end()


if __name__ == "__main__":
    if len(sys.argv) < 2:
        sys.exit(f"usage: {sys.argv[0]} TOTXEGUN [SEED]")
    sys.exit(main(os.path.abspath(sys.argv[1]), *sys.argv[2:3]))
