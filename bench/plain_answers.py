#!/usr/bin/env python3
"""Whether plain-answers answers as the gateway does, byte for byte.

    bench/plain_answers.py [GATEWAY [BODIES [SEED]]]

GATEWAY is bin/gateway where none is named. Both programs get the same requests, one after another: the posts and
quarantines of tests/scripts, the messages of tests/hostile_input.py, each rule of docs/FORMATS.md, part 1, and then so
many bodies (3,000) in which a value was put in place of another. Each difference is printed; the last line counts those
that were alike and not, and the status is 0 where all were.
"""
import collections
import contextlib
import copy
import glob
import json
import os
import random
import re
import sys
from collections.abc import Iterable, Iterator
from typing import Any

from measuring import ROOT
from measuring.plain import build
from testing.checks import Checks
from testing.loopback import Gateway, ordered, posted
from testing.shipped import CONNECTIONS, end_gateway
from hostile_input import INPUTS

BODIES = 3000
NOBODY = 9
SPAN = {"startTimeUnixNano": "10", "timeUnixNano": "20"}
HISTOGRAM = {**SPAN, "count": "7", "sum": 30, "bucketCounts": ["1", "2", "4"], "explicitBounds": [0, 5]}


def metrics(*all_of_them: Any, resource: Any = None,
            scope: Any = None) -> dict[str, Any]:
    group = {"scopeMetrics": [{"metrics": list(all_of_them)} | ({"scope": scope} if scope is not None else {})]}
    return {"resourceMetrics": [group | ({"resource": resource} if resource is not None else {})]}


def sums(*points: dict[str, Any], name: Any = "s", temporality: Any = 1,
         **more: Any) -> dict[str, Any]:
    return {"name": name, "sum": {"aggregationTemporality": temporality, "dataPoints": list(points), **more}}


def histograms(*points: dict[str, Any],
               name: str = "h") -> dict[str, Any]:
    return {"name": name, "histogram": {"aggregationTemporality": 1, "dataPoints": list(points)}}


def sum_of(value: Any, **more: Any) -> dict[str, Any]:
    return metrics(sums({**SPAN, "asInt": value, **more}))


# Values that are tried where a whole number, a text, a container or nothing is wanted.
VALUES = [0, 1, 5, -1, 2**53, 2**53 + 1, 2**63 - 1, 2**63, -2**63, 2**64 - 1, 2**64, 5.0, 1.5, "5", "-5", "+5", " 5", "", "05", "5.0",
          "-0", "9223372036854775808", "18446744073709551616", "x" * 4096, "x" * 4097, True, False, None, [], {}, [1], [None],
          {"a": 1}, [{}], [[]]]
TEXTS = ['[1', '', 'null', '[]', '{}x', '[1e999]', '{"a":1e999}', '{"a":"\\ud800"}', '{"a":"\\ud83d\\ude00"}', '{"resourceMetrics":null}',
         '{"resourceMetrics":5,"resourceMetrics":[]}', '{"resourceMetrics":[],"resourceMetrics":5}', '{"a":' * 126 + '1' + '}' * 126,
         '{"a":' * 127 + '1' + '}' * 127, '{"a":' * 128 + '1' + '}' * 128, '{"a":-0}', '{"a":01}', '{"a":"\t"}', ' { } ', '\ufeff{}',
         '{"resource\\u004detrics":7}']
ATTRIBUTES = [
    [], [{}], [{"key": "a"}], [{"key": "a", "value": None}], [{"key": 5, "value": {}}], [{"value": {"stringValue": "x"}}],
    [{"key": "a", "value": {"stringValue": "x", "intValue": 1}}], [{"key": "a", "value": {"stringValue": "x", "intValue": None}}],
    [{"key": "a", "value": {"doubleValue": 1}}], [{"key": "a", "value": {"doubleValue": None}}],
    [{"key": "a", "value": {"bytesValue": "x"}}], [{"key": "a", "value": {"kvlistValue": {}}}],
    [{"key": "a", "value": {"arrayValue": {}}}], [{"key": "a", "value": {"arrayValue": {"values": [{"intValue": "3"}, {}]}}}],
    [{"key": "a", "value": {"arrayValue": {"values": [{"arrayValue": {}}]}}}], [{"key": "a", "value": {"arrayValue": {"values": [None]}}}],
    [{"key": "a", "value": {"arrayValue": {"values": 5}}}], [{"key": "a", "value": {"arrayValue": {"values": [{}] * 129}}}],
    [{"key": "a", "value": {}}, {"key": "a", "value": {"intValue": 1}}],
    [{"key": f"k{number}", "value": {}} for number in range(128)], [{"key": f"k{number}", "value": {}} for number in range(129)],
    [{"key": "x" * 4097, "value": {}}], [{"key": "b", "value": {"boolValue": True}}, {"key": "a", "value": {"intValue": "-7"}}],
]


def written_by_rules() -> Iterator[Any]:
    """Bodies that try each rule."""
    for value in VALUES:
        yield sum_of(value)
        yield sum_of(1, startTimeUnixNano=value)
        yield sum_of(1, timeUnixNano=value)
        yield sum_of(1, flags=value)
        yield sum_of(1, asDouble=value)
        yield metrics(sums({**SPAN, "asInt": 1}, isMonotonic=value))
        yield metrics(sums({**SPAN, "asInt": 1}, temporality=value))
        yield metrics(sums({**SPAN, "asInt": 1}, name=value))
        yield metrics(sums({**SPAN, "asInt": 1}), scope=value)
        yield metrics(sums({**SPAN, "asInt": 1}), scope={"name": value})
        yield metrics(sums({**SPAN, "asInt": 1}), resource=value)
        yield metrics(sums({**SPAN, "asInt": 1}), resource={"attributes": value})
        yield metrics({"gauge": value}), metrics({"summary": {"dataPoints": value}}), metrics(value)
        yield metrics({"name": "both", "sum": sums({**SPAN, "asInt": 1})["sum"], "gauge": value})
        for field in ("count", "sum", "bucketCounts", "explicitBounds"):
            yield metrics(histograms({**HISTOGRAM, field: value}))
    for attributes in ATTRIBUTES:
        yield sum_of(1, attributes=attributes)
        yield metrics(sums({**SPAN, "asInt": 1}), resource={"attributes": attributes}, scope={"attributes": attributes})
    yield metrics(histograms({**SPAN, "count": 3}, {**SPAN, "count": "3", "bucketCounts": ["3"]}, {**SPAN}, name="one bucket"))
    bounds = list(range(256))
    yield metrics(histograms({**SPAN, "count": "0", "bucketCounts": [0] * 256, "explicitBounds": bounds[:255]}, name="255"))
    yield metrics(histograms({**SPAN, "count": "0", "bucketCounts": [0] * 257, "explicitBounds": bounds}, name="256"))
    yield metrics(histograms({**HISTOGRAM, "explicitBounds": [5, 0]}, {**HISTOGRAM, "explicitBounds": [5, 5]}, name="order"))
    yield metrics(sums({"startTimeUnixNano": 50, "timeUnixNano": 60, "asInt": 1}, {"startTimeUnixNano": 55, "timeUnixNano": 70, "asInt": 1},
                       name="within a batch"))
    large = [{"startTimeUnixNano": 10 * at, "timeUnixNano": 10 * at + 9, "asInt": str(2**62)} for at in range(1, 4)]
    yield metrics(sums(*large, name="large", isMonotonic=True))
    yield metrics(sums(*large, {"startTimeUnixNano": 1, "timeUnixNano": 2, "asInt": 1}, name="large, and out of order"))
    exact = [{"startTimeUnixNano": 10 * at, "timeUnixNano": 10 * at + 9, "count": 1, "sum": 2**53} for at in range(1, 3)]
    yield metrics(histograms(*exact, name="large histogram"))
    full = [{"startTimeUnixNano": 10 * at, "timeUnixNano": 10 * at + 9, "count": str(2**63)} for at in range(1, 3)]
    yield metrics(histograms(*full, name="large count"))


def of_scripts() -> Iterator[bytes]:
    """The posts and quarantines of the stored scripts, each script with senders and names of its own."""
    for file in sorted(glob.glob(f"{ROOT}/tests/scripts/*.script")):
        with open(file, encoding="utf-8", errors="surrogateescape", newline="\n") as lines:
            for line in lines:
                word, _, rest = line.rstrip("\n").partition(" ")
                sender, _, body = rest.partition(" ")
                if word == "post":
                    yield posted(body.encode("utf-8", "surrogateescape"), sender)
                elif word in ("hold", "lift"):
                    yield ordered(f"POST /{'quarantine' if word == 'hold' else 'lift'}/{sender}")


def messages() -> Iterator[bytes]:
    """Heads of each kind."""
    yield from (ordered(line) for line in ("GET /v1/metrics", "POST /report", "PUT /flush", "POST /nowhere", "get /report", "GET /flush?x",
                                           "POST /v1/metrics", "POST /quarantine/", "POST /quarantine/a%20b", "POST /lift/nobody",
                                           "POST /quarantine/q", "POST /quarantine/q", "GET /lift/q", "POST /lift/q?x", "POST /lift/q",
                                           "POST /flush/x", "POST /quarantine", "OPTIONS /v1/metrics", "POST /lift/" + "x" * 65))
    for fields in ("Content-Type: text/plain", "content-type: APPLICATION/json ; charset=utf-8", "Content-Type: application/jsonx",
                   "Content-Type: application/json\r\nContent-Encoding: gzip",
                   "Content-Type: application/json\r\nContent-Encoding: Identity",
                   "Content-Type: application/json\r\nContent-Type: text/plain", "Content-Type: application/json\r\nx-sender:",
                   "Content-Type: application/json\r\nx-sender: a b", "Content-Type: application/json\r\nx-sender: a\r\nx-sender: a",
                   "Content-Type: application/json\r\nx-sender:   a  ", "Content-Type: application/json\r\nx-sender: " + "x" * 65,
                   "Content-Type: text/plain\r\nx-sender: /"):
        yield f"POST /v1/metrics HTTP/1.1\r\n{fields}\r\nContent-Length: 2\r\n\r\n{{}}".encode()
    older, kind = b"POST /v1/metrics HTTP/1.0\r\n", b"Content-Type: application/json\r\n"
    chunks = b"1\r\n{\r\n1;x=y\r\n}\r\n0\r\nt: u\r\n\r\n"
    yield older + kind + b"Transfer-Encoding: chunked\r\n\r\n0\r\n\r\n"
    yield older.replace(b"1.0", b"1.1") + kind + b"Transfer-Encoding: Chunked\r\n\r\n" + chunks
    yield older.replace(b"1.0", b"1.1") + kind + b"Transfer-Encoding: gzip, chunked\r\n\r\n" + chunks
    for length in (b"+2", b"", b"2x", b"0002", b"99999999999999999999999"):
        yield older + kind + b"Content-Length: " + length + b"\r\n\r\n{}"


def places(value: Any, path: tuple[Any, ...] = ()) -> Iterator[tuple[Any, ...]]:
    """The paths of all values in a value."""
    yield path
    for key in value if isinstance(value, dict) else range(len(value)) if isinstance(value, list) else ():
        yield from places(value[key], (*path, key))


def changed(chance: random.Random, body: dict[str, Any]) -> Any:
    """The body with a value put in place of one or two others."""
    body = copy.deepcopy(body)
    for _ in range(chance.randrange(1, 3)):
        path = chance.choice(list(places(body))[1:])
        at: Any = body
        for key in path[:-1]:
            at = at[key]
        at[path[-1]] = chance.choice(VALUES)
    return body


def by_chance(count: int, seed: str) -> Iterator[Any]:
    """Bodies in which a value is put in place of another; their points go on in time, or not."""
    chance = random.Random(seed)
    text = {"key": "route", "value": {"stringValue": "/a"}}
    for number in range(count):
        def spans() -> dict[str, Any]:
            start = 1000 + 10 * number + chance.choice([0, 0, 0, -10])
            attributes = [text, {"key": "b", "value": {"intValue": "1"}}]
            return {"startTimeUnixNano": str(start), "timeUnixNano": str(start + 10), "attributes": attributes}
        one = sums({**spans(), "asInt": "5"}, {**spans(), "asInt": 7, "attributes": []}, name="a", isMonotonic=True)
        other = histograms({**HISTOGRAM, **spans()}, name="b")
        body = metrics(one, other, {"name": "g", "gauge": {"dataPoints": [{}, {"asDouble": 1.5}]}},
                       resource={"attributes": [text]}, scope={"name": "x", "version": "1"})
        yield changed(chance, body) if chance.random() < 0.8 else body


def shown(request: bytes) -> str:
    text = request.decode("utf-8", "replace")
    return text if len(text) < 1500 else f"{text[:1500]} .. {len(text)} in all"


def kind_of(answer: bytes | str) -> str:
    """The status of an answer, and its text without numbers."""
    if isinstance(answer, str):
        return answer
    head, _, body = answer.decode().partition("\r\n\r\n")
    message = re.search('essage":"([^"]*)', body)
    return f"{head[9:12]} {re.sub('[0-9]+', 'N', message[1]) if message else body[:20]}"


def compare(checks: Checks, what: str, programs: list[Gateway], requests: Iterable[bytes]) -> None:
    """Puts the requests to both; prints those that are answered otherwise."""
    alike = count = 0
    kinds: collections.Counter[str] = collections.Counter()
    for request in requests:
        ours, theirs = (program.ask(request) for program in programs)
        count += 1
        kinds[kind_of(ours)] += 1
        alike += ours == theirs
        if ours != theirs:
            print(f"{shown(request)}\n  the gateway: {ours!r}\n  plain-answers: {theirs!r}")
    checks.same(f"{what}, {count} requests", count, alike)
    print(f"note: {', '.join(f'{number} {kind}' for kind, number in kinds.most_common())}", flush=True)


def main(gateway: str = f"{ROOT}/bin/gateway", count: int | str = BODIES, seed: str = "1") -> int:
    program = build("plain-answers")
    if program is None:
        return 77
    checks = Checks()
    with contextlib.ExitStack() as stack:
        programs = [Gateway(path, NOBODY, CONNECTIONS) for path in (os.path.abspath(gateway), program)]
        for one in programs:
            stack.callback(end_gateway, one)
        compare(checks, "messages", programs, messages())
        compare(checks, "hostile messages", programs, (request for _, request, _ in INPUTS if not request.startswith(b"GET /report")))
        compare(checks, "the scripts", programs, of_scripts())
        compare(checks, "texts", programs, (posted(text.encode(), "texts") for text in TEXTS))
        bodies = (body for rules in written_by_rules() for body in (rules if isinstance(rules, tuple) else (rules,)))
        compare(checks, "each rule", programs, (posted(json.dumps(body).encode(), f"rule-{number}") for number, body in enumerate(bodies)))
        compare(checks, "by chance", programs, (posted(json.dumps(body).encode(), "chance") for body in by_chance(int(count), seed)))
        many = [metrics(*(sums({**SPAN, "asInt": 1}, name=f"many.{at}.{one}") for one in range(1000))) for at in range(11)]
        compare(checks, "too many series", programs, (posted(json.dumps(body).encode(), "many") for body in many))
        compare(checks, "too many quarantined", programs, (ordered(f"POST /quarantine/q{number}") for number in range(1001)))
    return checks.end()


if __name__ == "__main__":
    sys.exit(main(*sys.argv[1:]))
