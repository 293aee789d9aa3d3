#!/usr/bin/env python3
"""The service answers the same JSON as the bare gateway does, but for what it takes point by point, and forwards the same points.

    tests/same_answers.py TOTXEGUN GATEWAY [POSTS] [SEED]

So many posts (4,000; some 8 in 10 bring a series, and the single book may have 8,000) of a few senders go to a bare
gateway and to two services, one of a single book and one of many. They are drawn by chance: sums and histograms of many
identities, points in and out of order, repeats, others' series, foreign points of each kind, containers of another
type, what is no JSON, deep nesting, names that are none; and now and then a sender is quarantined or released, and all
are flushed. Each answer has to have the same status, the gateway's text, and the same count of foreign points; what
each flush forwards has to have the same points, of a single book in the same bytes; at the end the reports have the
same series, owners, frontiers and pending sums. A last part has more series than the service may have.

What differs, and why (`DIFFERENT`): a post that the gateway refuses for one of its series the service takes but for the points
that their series refuse, since one wrong clock may not cost others their points; and what it has taken before it answers as the
first time, since else nobody could tell it from a loss. What it has to take is asked of the gateway point by point, which then
has the same.

The service's texts may go on where the gateway's end: with the causes of foreign points, with a series, with a limit. For `out of
order` it says `duplicate or late` (`RENAMED`). Where it reads JSON by the protobuf mapping, its text is another (`wrong shape`,
`not JSON`): of these the status alone is compared.

Each line is a check; the last line counts passes and failures. The status is 0 if none failed.
"""
import collections
import contextlib
import http.client
import json
import random
import re
import sys
import tempfile
from collections.abc import Callable, Iterator
from typing import Any

from testing.checks import Checks
from testing.loopback import BackEnd
from testing.service import JSON, Answer, OtlpSink, Service, ask, wait_until
from testing.shipped import flush_all, gateway_at, run_script

POSTS = 4_000
SECONDS, PATIENCE = 3600, 120
SENDERS = [f"sender-{number}" for number in range(5)]
# Of each sender; in all fewer than a book takes.
SERIES = 60
MOST_SERIES = 8_000
# One post in so many.
FLUSH, ORDER, STRANGE, FOREIGN = 400, 20, 12, 6
DELTA = 1
OWN_TEXTS = ("not JSON", "wrong shape")
# What the gateway refuses a whole post for, and what the service says of the points that are refused so.
DIFFERENT = {"out of order: ": "late, or a duplicate", "other writer: ": "refused alone"}
# How the gateway calls a point that begins before its series ends, and how the service does.
RENAMED = ("out of order", "duplicate or late")
# The data of a metric, in the order in which its points are read.
KINDS = ("gauge", "exponentialHistogram", "summary", "sum", "histogram")
LINE = re.compile(r"^(series .*) accepted \S+ acknowledged \S+ dropped \S+ in-flight \S+ (stored \S+ quarantined \S+)$")


# --------------------------------------------------------------------------------------------------------------------
# Requests


def attributes(chance: random.Random, most: int = 3) -> list[dict[str, Any]]:
    """A list of attributes, in any order."""
    values: list[dict[str, Any]] = [
              {}, {"stringValue": chance.choice(["", "a", "\u00e4\u20ac", 'a "b" \\ \n'])}, {"boolValue": chance.random() < 0.5},
              {"intValue": chance.choice(["0", "-5", "007", 9, str(2**63 - 1)])},
              {"arrayValue": {"values": [{"stringValue": "x"}, {"intValue": "1"}, {}]}}, {"arrayValue": {}}]
    keys = chance.sample(["a", "b", "http.route", "\u00fc"], chance.randrange(most + 1))
    return [{"key": key, "value": chance.choice(values)} for key in keys]


class Series:
    """What identifies it, and where its points are by now."""

    def __init__(self, chance: random.Random, name: str) -> None:
        self.name, self.unit = name, chance.choice(["", "1", "ms"])
        self.resource, self.scope = attributes(chance), {"name": chance.choice(["", "lib"]), "attributes": attributes(chance, 1)}
        self.attributes = attributes(chance)
        self.kind = chance.choice(["sum", "counter", "histogram", "histogram"])
        self.bounds = sorted(chance.sample(range(-50, 50), chance.randrange(5)))
        self.time = 1000

    def point(self, chance: random.Random, start: int) -> tuple[dict[str, Any], int]:
        end = start + chance.choice([1, 10, 10, 10, 25])
        point: dict[str, Any] = {"startTimeUnixNano": str(start), "timeUnixNano": chance.choice([str(end), end]),
                                 "attributes": self.attributes}
        if self.kind != "histogram":
            least = 0 if self.kind == "counter" else -1000
            point["asInt"] = chance.choice([str, int])(chance.choice([0, 5, 2**40, chance.randrange(least, 1000)]))
        else:
            counts = [chance.randrange(5) for _ in range(len(self.bounds) + 1)] if self.bounds or chance.random() < 0.5 else []
            point |= {"count": str(sum(counts)), "bucketCounts": list(map(str, counts)), "explicitBounds": self.bounds}
            if chance.random() < 0.7:
                point["sum"] = chance.randrange(1000)
        if chance.random() < 0.1:
            point |= {"flags": chance.choice([0, 2]), "exemplars": [], "unknown": {"a": [1.5, None]}}
        return point, end

    def metric(self, points: list[dict[str, Any]]) -> dict[str, Any]:
        data: dict[str, Any] = {"aggregationTemporality": DELTA, "dataPoints": points}
        if self.kind == "histogram":
            return {"name": self.name, "unit": self.unit, "histogram": data}
        return {"name": self.name, "unit": self.unit, "sum": data | ({"isMonotonic": True} if self.kind == "counter" else {})}


def foreign(chance: random.Random, point: dict[str, Any], data: dict[str, Any]) -> None:
    """Makes a point foreign, or all of its metric."""
    deeds: list[Callable[[], object]] = [
        lambda: point.update(flags=1), lambda: point.update(timeUnixNano=point["startTimeUnixNano"]),
        lambda: point.pop("startTimeUnixNano"), lambda: point.update(startTimeUnixNano="-1"), lambda: point.update(attributes="a"),
        lambda: point.update(attributes=[{"key": "a"}, {"key": "a"}]), lambda: point.update(asDouble=0.5),
        lambda: point.update(attributes=[{"key": "a", "value": {"doubleValue": 1.5}}]),
        lambda: point.update(attributes=[{"key": "a", "value": {"stringValue": "x" * 4097}}]),
        lambda: point.update(bucketCounts=["1", "2", "3", "4", "5", "6", "7"], asInt=str(2**63)),
        lambda: point.update(count=str(2**64), asInt="x"), lambda: data.update(aggregationTemporality=2),
        lambda: data.update(isMonotonic="yes", aggregationTemporality=0)]
    chance.choice(deeds)()


def request(chance: random.Random, chosen: list[Series]) -> dict[str, Any]:
    """A request with a few points of these series, which go on unless it is one out of order."""
    groups: list[dict[str, Any]] = []
    for series in chosen:
        start = series.time + chance.choice([0, 0, 0, 0, 0, 5])
        if chance.random() < 0.03:
            start = max(1, start - chance.choice([1, 10, 900]))
        points: list[dict[str, Any]] = []
        for _ in range(chance.choice([1, 1, 1, 2, 3])):
            point, start = series.point(chance, start)
            points.append(point)
        series.time = max(series.time, start)
        metric = series.metric(points)
        if chance.random() < 1 / FOREIGN:
            kind = "histogram" if series.kind == "histogram" else "sum"
            foreign(chance, chance.choice(points), metric[kind])
            if chance.random() < 0.2:
                metric[chance.choice(["gauge", "summary", "exponentialHistogram"])] = {"dataPoints": [{}, {}]}
        group = {"resource": {"attributes": series.resource}, "scopeMetrics": [{"scope": series.scope, "metrics": [metric]}]}
        if groups and chance.random() < 0.5:
            groups[-1]["scopeMetrics"][-1]["metrics"].append(metric)  # another series then, of the resource before
        else:
            groups.append(group)
    return {"resourceMetrics": groups}


def places(value: Any, path: tuple[Any, ...] = ()) -> Iterator[tuple[Any, ...]]:
    """Each container below a value, by its path."""
    for key, one in value.items() if isinstance(value, dict) else enumerate(value):
        if isinstance(one, (dict, list)):
            yield (*path, key)
            yield from places(one, (*path, key))


def nested(depth: int) -> str:
    return "[" * depth + "]" * depth


def strange(chance: random.Random, body: dict[str, Any]) -> bytes:
    """What is no request, or one with something that nobody reads."""
    text = json.dumps(body)
    deep = nested(chance.choice([3, 60, 120, 124, 125, 126, 127, 128, 129, 200, 5000]))
    kind = chance.randrange(9)
    if kind == 0:
        return text[:chance.randrange(len(text))].encode()
    if kind == 1:
        return text.encode() + chance.choice([b" ", b"\n\n", b"x", b"{}", b"\0", b"\xff"])
    if kind == 2:
        return chance.choice([b"", b"{}", b"[]", b"null", b"1", b'"a"', b"\xef\xbb\xbf{}", b'{"resourceMetrics":null}', b"{'a':1}",
                              b'{"a":01}'])
    if kind == 3:
        return text.replace('"resourceMetrics"', f'"deep": {deep}, "resourceMetrics"', 1).encode()
    if kind == 4:
        return text.replace('"startTimeUnixNano"', f'"deep": {deep}, "startTimeUnixNano"', 1).encode()
    if kind == 5:
        at = chance.randrange(len(text))
        return text[:at].encode() + chance.choice([b"\xff", b"\xc3", b"\\ud800", b"\x01", b","]) + text[at:].encode()
    *path, last = chance.choice(list(places(body)))
    where: Any = body
    for key in path:
        where = where[key]
    where[last] = chance.choice([None, "a", 5, True, [], {}, [None], [[]], ["a"]])
    return json.dumps(body).encode()


# --------------------------------------------------------------------------------------------------------------------
# Who is asked


class Bare:
    """The gateway, and a back end that keeps what it forwards."""

    def __init__(self, stack: contextlib.ExitStack, program: str) -> None:
        self.back_end = BackEnd()
        stack.callback(self.back_end.close)
        self.port = self.orders = gateway_at(stack, program, self.back_end.port).port

    def post(self, body: bytes, headers: dict[str, Any]) -> Answer:
        status, text = ask(self.port, "POST", "/v1/metrics", body, headers, PATIENCE)
        if status is None:
            raise OSError(f"the gateway does not answer: {text!r} to {body[:200]!r}")
        return status, text

    def order(self, path: str) -> Answer:
        return ask(self.port, "POST", path.replace("/release/", "/lift/"))

    def flushed(self) -> list[bytes]:
        """The requests that a flush forwards."""
        self.back_end.bodies.clear()
        flush_all(self.port)
        return list(self.back_end.bodies)


class Served:
    """A service whose books take so many series, and a sink."""

    def __init__(self, stack: contextlib.ExitStack, program: str, max_series: int) -> None:
        self.sink = OtlpSink()
        stack.callback(self.sink.close)
        data = stack.enter_context(tempfile.TemporaryDirectory(prefix="same-"))
        self.service = Service(program, f"{data}/data", self.sink.address, "--flush-interval", "1h", "--durability", "process",
                               "--max-series", str(max_series), "--sender-series", "1000000",  # a gateway has no shares
                               "--integer-unit", "off", "--cumulative", "off")
        stack.callback(self.service.kill)
        self.service.start()
        if not self.service.wait_ready():
            raise OSError(f"the service is not ready: {self.service.last_lines()}")
        self.orders = self.service.socket
        self.connection: http.client.HTTPConnection = None

    def post(self, body: bytes, headers: dict[str, Any]) -> Answer:
        if self.connection is None:
            self.connection = http.client.HTTPConnection("127.0.0.1", self.service.listen, timeout=PATIENCE)
        self.connection.request("POST", "/v1/metrics", body, headers)
        answer = self.connection.getresponse()
        text = answer.read()
        if answer.will_close:
            self.connection = None
        return answer.status, text

    def order(self, path: str) -> Answer:
        return ask(self.orders, "POST", path)

    def flushed(self) -> list[bytes]:
        self.sink.taken.clear()
        if self.service.order("/flush") != 200 or not wait_until(self.service.is_drained):
            raise OSError(f"what was flushed is not delivered: {self.service.last_lines()}")
        return list(self.sink.taken.values())


def is_same(wanted: Answer, found: Answer) -> bool:
    """Of a refusal the service's answer has a code beside the message; a text that goes on does so after a colon."""
    if wanted[0] != found[0] or wanted[1] == b"{}":
        return wanted == found
    here, there = (json.loads(answer[1]) for answer in (wanted, found))
    if wanted[0] == 200:
        here, there = here["partialSuccess"], there["partialSuccess"]
        return here["rejectedDataPoints"] == there["rejectedDataPoints"] and goes_on(here["errorMessage"], there["errorMessage"])
    message = here["message"]
    return goes_on(message, there["message"]) or (wanted[0] == 400 and message in OWN_TEXTS)


def goes_on(text: str, longer: str) -> bool:
    text = text.replace(*RENAMED) if text.startswith(RENAMED[0]) else text
    return longer == text or longer.startswith(f"{text}: ")


def is_different(answer: Answer) -> bool:
    """Whether the gateway refuses a whole post for one of its series."""
    message = json.loads(answer[1]).get("message", "")
    return answer[0] == 400 and any(message.startswith(begin) for begin in DIFFERENT)


def lists_of(request: dict[str, Any]) -> Iterator[tuple[str, list[Any]]]:
    """Each list of points, with the name of its metric."""
    for group in request.get("resourceMetrics") or []:
        for part in group.get("scopeMetrics") or []:
            for metric in part.get("metrics") or []:
                for kind in KINDS:
                    if metric.get(kind) and metric[kind].get("dataPoints"):
                        yield json.dumps(metric.get("name")), metric[kind]["dataPoints"]


def points_in(body: bytes) -> Iterator[tuple[str, str, bytes]]:
    """Each point: its metric, what it says, and the request with that point alone."""
    request = json.loads(body)
    lists = [(name, points, list(points)) for name, points in lists_of(request)]
    for _, points, _ in lists:
        points.clear()
    for name, points, found in lists:
        for point in found:
            points.append(point)
            yield name, json.dumps(point, sort_keys=True), json.dumps(request).encode()
            points.clear()


class PointByPoint:
    """What the gateway says of each point of a post by itself, and how many of those that are late are duplicates."""

    def __init__(self) -> None:
        self.foreign = self.taken = self.refused = 0
        # At least and at most.
        self.duplicates = [0, 0]

    def is_answer(self, wanted: Answer, found: Answer) -> bool:
        if self.taken == 0 and self.duplicates[0] == 0 and found[0] == 400:
            return goes_on(json.loads(wanted[1])["message"], json.loads(found[1])["message"])
        if found[0] != 200 or self.taken + self.duplicates[1] == 0:
            return False
        rejected = int(json.loads(found[1]).get("partialSuccess", {}).get("rejectedDataPoints", 0)) - self.foreign
        return self.refused - self.duplicates[1] <= rejected <= self.refused - self.duplicates[0]


class Known:
    """What was taken: of each metric its last post, if that is known for sure, and all its points."""

    def __init__(self) -> None:
        self.last: dict[str, list[str]] = {}
        self.all: set[tuple[str, str]] = set()

    def note(self, points: list[tuple[str, str]], is_sure: bool) -> None:
        self.all |= set(points)
        for name in {name for name, _ in points}:
            self.last[name] = [point for one, point in points if one == name] if is_sure else []

    def duplicates(self, late: list[tuple[str, str]]) -> list[int]:
        """How many of these are duplicates, at least and at most."""
        least = 0
        for name in {name for name, _ in late}:
            of_it = [point for one, point in late if one == name]
            least += len(of_it) if of_it == self.last.get(name) else 0
        return [least, sum(one in self.all for one in late)]


def points_of(bodies: list[bytes]) -> list[str]:
    """Each point by its series and its span, as it is forwarded."""
    found: list[str] = []
    for body in bodies:
        for group in json.loads(body)["resourceMetrics"]:
            for part in group["scopeMetrics"]:
                for metric in part["metrics"]:
                    kind = "sum" if "sum" in metric else "histogram"
                    data = metric[kind]
                    of = [group["resource"], part["scope"], metric["name"], metric["unit"], kind, data.get("isMonotonic")]
                    found += [json.dumps([*of, point], sort_keys=True) for point in data["dataPoints"]]
    return sorted(found)


def series_of(report: bytes) -> tuple[list[str], list[str]]:
    """What no round forgets: of each series owner, frontier and what is pending."""
    lines = report.decode().splitlines()
    return lines[-1:], sorted(" ".join(LINE.match(line).groups()) for line in lines[:-1])


# --------------------------------------------------------------------------------------------------------------------
# The run


class Run:
    def __init__(self, checks: Checks, bare: Bare, services: dict[str, Served], seed: str) -> None:
        self.checks, self.bare, self.services = checks, bare, services
        self.chance = random.Random(f"same answers {seed}")
        self.series = {sender: [Series(self.chance, f"{sender}.{number}") for number in range(SERIES)] for sender in SENDERS}
        self.last: dict[str, bytes] = {}
        self.known = Known()
        self.answers: collections.Counter[str] = collections.Counter()
        self.wrong: list[tuple[Any, ...]] = []

    def parties(self) -> dict[str, Bare | Served]:
        return {"gateway": self.bare, **self.services}

    def post(self, body: bytes, sender: bytes | str) -> None:
        headers = {"Content-Type": JSON, "x-sender": sender}
        wanted = self.bare.post(body, headers)
        text = json.loads(wanted[1])
        self.answers[f"{wanted[0]} {re.sub(r'[0-9]+', 'N', text.get('message', 'taken'))}"] += 1
        self.answers["foreign"] += "partialSuccess" in text
        by_point = self.by_point(body, headers) if is_different(wanted) else None
        if wanted[0] == 200:
            self.known.note([(name, point) for name, point, _ in points_in(body)], wanted[1] == b"{}")
        for name, service in self.services.items():
            found = service.post(body, headers)
            if not (by_point.is_answer(wanted, found) if by_point else is_same(wanted, found)):
                self.wrong.append((name, sender, body[:300], wanted, found, by_point and vars(by_point)))

    def by_point(self, body: bytes, headers: dict[str, Any]) -> PointByPoint:
        """Posts each point by itself to the gateway, which has what the service has to take then."""
        found, taken, late = PointByPoint(), [], []
        for name, point, single in points_in(body):
            status, text = self.bare.post(single, headers)
            if status == 200 and text == b"{}":
                taken.append((name, point))
            elif status == 200:
                found.foreign += 1
            else:
                found.refused += 1
                if b"out of order" in text:
                    late.append((name, point))
        found.taken = len(taken)
        found.duplicates = self.known.duplicates(late)
        found.duplicates[1] += sum(one in taken for one in late if one not in self.known.all)
        self.known.note(taken, found.foreign == 0)
        self.answers["apart"] += found.taken > 0
        self.answers["duplicates"] += found.duplicates[0]
        return found

    def one(self) -> None:
        """A post of a sender, mostly of its own series."""
        chance, sender = self.chance, self.chance.choice(SENDERS)
        if sender in self.last and chance.random() < 0.05:
            self.post(self.last[sender], sender)
            return
        whose = chance.choice(SENDERS) if chance.random() < 0.04 else sender
        made = request(chance, chance.sample(self.series[whose], chance.choice([1, 1, 2, 3, 8, 20])))
        if chance.random() < 1 / STRANGE:
            self.post(strange(chance, made), sender)
        elif chance.random() < 0.01:
            self.post(json.dumps(made).encode(), chance.choice(["a b", "x" * 65, "\u00e4", ""]).encode("latin-1"))
        else:
            self.last[sender] = json.dumps(made).encode()
            self.post(self.last[sender], sender)

    def order(self) -> None:
        """A quarantine or its end, which may be refused; of who has posted: of others the service says that nothing is known."""
        path = f"/{self.chance.choice(['quarantine'] + ['release'] * 8)}/{self.chance.choice(sorted(self.last) or SENDERS[:1])}"
        found = {name: party.order(path) for name, party in self.parties().items()}
        if len({status for status, _ in found.values()}) > 1:
            self.wrong.append((path, found))
        self.answers[f"{found['gateway'][0]} to an order"] += 1

    def flush(self) -> None:
        bodies = {name: party.flushed() for name, party in self.parties().items()}
        wanted = points_of(bodies["gateway"])
        self.answers["forwarded points"] += len(wanted)
        for name in self.services:
            found = points_of(bodies[name])
            if found != wanted:
                self.wrong.append((name, "forwards", len(wanted), len(found), sorted(set(found) ^ set(wanted))[:2]))
        if bodies["one book"] != bodies["gateway"]:
            pairs = zip(bodies["gateway"], bodies["one book"])
            self.wrong.append(("one book", "forwards other bytes", len(bodies["gateway"]), len(bodies["one book"]),
                               [(a[:200], b[:200]) for a, b in pairs if a != b][:1]))

    def go(self, posts: int) -> None:
        for number in range(1, posts + 1):
            self.one()
            if self.chance.random() < 1 / ORDER:
                self.order()
            if number % FLUSH == 0:
                self.flush()
            if len(self.wrong) > 20:
                break
        for sender in SENDERS:
            for party in self.parties().values():
                party.order(f"/release/{sender}")

    def reports(self) -> dict[str, tuple[list[str], list[str]]]:
        return {name: series_of(ask(party.orders, "GET", "/report")[1]) for name, party in self.parties().items()}

    def past_the_limit(self) -> None:
        """More series than the service may have: until then it answers as the gateway does, and then it takes no new ones."""
        service = self.services["one book"]
        self.services = {"one book": service}

        def body(first: int, count: int) -> bytes:
            made = [Series(self.chance, f"many.{number}") for number in range(first, first + count)]
            return json.dumps(request(random.Random(1), made)).encode()

        for first in range(0, 900, 300):
            self.post(body(first, 300), "many")
        self.flush()
        headers = {"Content-Type": JSON, "x-sender": "many"}
        # Series that a flush has may be counted twice until the service counts again.
        is_room = wait_until(lambda: service.post(body(2 * MOST_SERIES, 1), headers)[0] == 200)
        # Few at a time: a post may bring no more than there is room for.
        answers = [service.post(body(first, 200), headers) for first in range(MOST_SERIES, 2 * MOST_SERIES, 200)]
        statuses = [status for status, _ in answers]
        self.checks.true("over --max-series the service takes no post with new series", is_room and {503} == set(statuses[-5:])
                         and all(b"too many series" in text for status, text in answers if status != 200), answers[-5:])

    def look(self, what: str) -> None:
        self.checks.same(f"{what}: each answer and each flush is that of the gateway", [], self.wrong[:3])
        self.wrong.clear()


def work(totxegun: str, gateway: str, checks: Checks, stack: contextlib.ExitStack) -> None:
    posts, seed = int((sys.argv[3:4] or [str(POSTS)])[0]), (sys.argv[4:5] or ["1"])[0]
    services = {"one book": Served(stack, totxegun, MOST_SERIES), "many books": Served(stack, totxegun, 100_000)}
    run = Run(checks, Bare(stack, gateway), services, seed)
    run.go(posts)
    run.look(f"{posts} posts, seed {seed}")
    wanted = run.reports()
    for name in services:
        checks.true(f"{name}: the report has the gateway's series", wanted[name] == wanted["gateway"],
                    [line for line in wanted[name][1] if line not in wanted["gateway"][1]][:3])
    run.flush()
    run.look("a last flush")
    run.past_the_limit()
    run.look("until the service has as many series as it may")
    checks.same("the services found nothing that must not be", [], [it for one in services.values() for it in one.service.faults()])
    expected = ["200 taken", "400 out of order: point N, frontier N", "400 other writer: point N", "403 quarantined", "400 wrong shape",
                "400 not JSON", "400 bad sender", "foreign", "forwarded points", "apart", "duplicates"]
    checks.same("each kind of answer was there", [], [it for it in expected if not run.answers[it]])
    print(f"note: {dict(run.answers)}", flush=True)


if __name__ == "__main__":
    run_script(SECONDS, work, ("TOTXEGUN", "GATEWAY"))
