#!/usr/bin/env python3
"""What bodies mean to the program play, worked out by hand: which is none and why, which points are foreign, what a row has.

    tests/readings.py PROGRAM

Each body is posted by itself; a batch is reported, and undone before the next. The last line counts checks that passed and failed. The
status is 0 if none failed.
"""
import subprocess
import sys

from testing.checks import Checks

SPAN = '"startTimeUnixNano":"10","timeUnixNano":"20"'


def request(metrics: str) -> str:
    return f'{{"resourceMetrics":[{{"scopeMetrics":[{{"metrics":[{metrics}]}}]}}]}}'


def sums(points: str, name: str = "a") -> str:
    """A request of one sum with these data points."""
    return request(f'{{"name":"{name}","sum":{{"aggregationTemporality":1,"dataPoints":[{points}]}}}}')


def of_value(value: str) -> str:
    return sums(f'{{{SPAN},"asInt":{value}}}')


def of_fields(fields: str) -> str:
    return sums(f'{{"asInt":1,{SPAN},{fields}}}')


def histogram(fields: str) -> str:
    return request(f'{{"name":"h","histogram":{{"aggregationTemporality":1,"dataPoints":[{{{SPAN},{fields}}}]}}}}')


NOT_JSON = ["", "[1", "{}x", "[1e999]", "[" * 128 + "]" * 128, '"\udcff"']
WRONG_SHAPE = [
    "[]", "null", "[" * 127 + "]" * 127, '{"resourceMetrics":{}}', '{"resourceMetrics":[null]}',
    '{"resourceMetrics":[{"resource":1},{}]}', '{"resourceMetrics":[{"resource":1},2]}',
    '{"resourceMetrics":[{"scopeMetrics":"x"}]}', '{"resourceMetrics":[{"scopeMetrics":[{"scope":[]}]}]}', request("[]"),
    request('{"summary":1,"gauge":{"dataPoints":{}}}'), request('{"summary":[]}'), request('{"sum":{"dataPoints":[{},7]}}'),
]
# Bodies without a point of the profile, and how many foreign ones they have.
POINT = '{"asInt":1,"startTimeUnixNano":1,"timeUnixNano":2}'
SUM = f'"sum":{{"aggregationTemporality":1,"dataPoints":[{POINT}]}}'
FOREIGN = [
    ("{}", 0), ('{"resourceMetrics":null,"other":[1]}', 0),
    (f'{{"resourceMetrics":[{{"scopeMetrics":[{{"scope":{{"name":7}},"metrics":[{{{SUM}}}]}},{{"metrics":[{{}}]}}]}}]}}', 1),
    ('{"resourceMetrics":[{"resource":{"attributes":[{"key":"k","value":{"doubleValue":1}}]},'
     f'"scopeMetrics":[{{"metrics":[{{{SUM}}}]}}]}}]}}', 1),
    (request(f'{{{SUM},"gauge":{{}}}}'), 1), (request(f'{{{SUM.replace(":1,", ":2,", 1)}}}'), 1),
    (request(f'{{{SUM.replace(":1,", ":1.0,", 1)}}}'), 1),
    (request('{"exponentialHistogram":{"dataPoints":[{}]}},{"summary":{"dataPoints":[{},{}]}}'), 3),
    *((sums(point), 1) for point in (
        '{"asInt":1,"timeUnixNano":"20"}', '{"asInt":1,"startTimeUnixNano":0,"timeUnixNano":"20"}',
        '{"asInt":1,"startTimeUnixNano":20,"timeUnixNano":20}',
        '{"asInt":1,"startTimeUnixNano":1,"timeUnixNano":"18446744073709551616"}')),
    *((of_value(value), 1) for value in (
        '"+5"', '" 5"', '""', '"-"', '"5.0"', "5.0", "5e0", "-0", "null", "true", '"9223372036854775808"',
        "-9223372036854775808", "18446744073709551615")),
    *((of_fields(fields), 1) for fields in (
        '"flags":1', '"flags":4294967296', '"asDouble":{}', '"attributes":{}', '"attributes":[null]',
        '"attributes":[{},{"key":""}]', '"attributes":[{"value":{"boolValue":true,"intValue":1}}]',
        '"attributes":[{"value":{"arrayValue":{"values":[null]}}}]', '"attributes":[{"value":{"kvlistValue":0}}]',
        '"attributes":[{"value":{"arrayValue":{"values":[{"arrayValue":{}}]}}}]')),
    *((histogram(fields), 1) for fields in (
        '"count":8,"sum":30,"bucketCounts":[1,2,0,4],"explicitBounds":[0,5,10]',
        '"count":7,"bucketCounts":[1,2,4],"explicitBounds":[0,5,10]',
        '"count":7,"bucketCounts":[1,2,0,4],"explicitBounds":[0,5,5]',
        '"count":7,"bucketCounts":[1,2,0,4],"explicitBounds":[0,5.0,10]',
        '"count":7,"bucketCounts":[1,2,null,4],"explicitBounds":[0,5,10]',
        '"count":7,"explicitBounds":[0,5,10]', '"count":1,"sum":-1', '"count":1,"sum":9007199254740993',
        '"count":0,"bucketCounts":[0,0],"explicitBounds":[9007199254740993]', '"count":"18446744073709551616"',
        '"count":0,"bucketCounts":["18446744073709551616"]',
        '"count":"18446744073709551615","bucketCounts":["18446744073709551615",1],"explicitBounds":[0]',
        '"count":0,"bucketCounts":["18446744073709551615",1],"explicitBounds":[0]')),
]
# Bodies of one series: its kind, how many foreign points they have, and the row of the others.
BOUNDS = '"explicitBounds":[0,5,10]'
ROWS = [
    *((of_value(value), "sum", 0, [1, *row]) for value, row in (
        ('"5"', [5, 0]), ("5", [5, 0]), ("-5", [0, 5]), ('"007"', [7, 0]), ('"-0"', [0, 0]), ('"-09"', [0, 9]),
        ('"9223372036854775807"', [2**63 - 1, 0]), ("-9223372036854775807", [0, 2**63 - 1]))),
    *((of_fields(fields), "sum", 0, [1, 1, 0]) for fields in (
        '"flags":"2"', '"asDouble":null', '"count":"x","attributes":null', '"attributes":[{}]',
        '"attributes":[{"value":{"arrayValue":{"values":[{},{"intValue":"-9223372036854775808"},{"stringValue":"x"}]}}}]')),
    (sums('{"asInt":1,"startTimeUnixNano":"0010","timeUnixNano":18446744073709551615}'), "sum", 0, [1, 1, 0]),
    (request('{"name":"g","gauge":{"dataPoints":[{},{}]}},{"name":"s","sum":{"aggregationTemporality":1,"dataPoints":['
             f'{{"asDouble":1.5,{SPAN}}},{{"asInt":1,{SPAN}}}]}}}}'), "sum", 3, [1, 1, 0]),
    (sums(f'{{"asInt":1,{SPAN},"attributes":[{{"key":"b","value":{{"intValue":1}}}},{{"key":"a","value":{{"stringValue":"x"}}}}]}},'
          '{"asInt":2,"startTimeUnixNano":20,"timeUnixNano":30,"attributes":[{"key":"a","value":{"stringValue":"x"}},'
          '{"key":"b","value":{"intValue":"1"}}]},{"asInt":3,"startTimeUnixNano":30,"timeUnixNano":40,"attributes":['
          '{"key":"a"},{"key":"a"}]}'), "sum", 1, [2, 3, 0]),
    (histogram(f'"count":7,"sum":30,"bucketCounts":["1",2,"0",4],{BOUNDS}'), "histogram[0;5;10]", 0, [1, 0, 30, 1, 2, 0, 4]),
    (histogram('"count":"2","bucketCounts":[0,1,1,0],"explicitBounds":[-1,5,10],"min":1'), "histogram[-1;5;10]", 0,
     [1, 1, 0, 0, 1, 1, 0]),
    (histogram('"count":3,"sum":"0"'), "histogram[]", 0, [1, 0, 0, 3]),
    (histogram('"bucketCounts":[],"explicitBounds":null'), "histogram[]", 0, [1, 1, 0, 0]),
    (histogram('"count":3,"bucketCounts":[3]'), "histogram[]", 0, [1, 1, 0, 3]),
    (histogram('"count":"9223372036854775808"'), "histogram[]", 0, [1, 1, 0, 2**63]),
    (histogram('"count":18446744073709551615,"sum":9007199254740992,"bucketCounts":["18446744073709551615","0"],'
               '"explicitBounds":[0]'), "histogram[0]", 0, [1, 0, 2**53, 2**64 - 1, 0]),
]


def main(program: str) -> int:
    checks = Checks()
    lines: list[str] = []
    wanted: list[tuple[str, str]] = []

    def say(line: str, reply: str) -> None:
        lines.append(line)
        wanted.append((line, reply))

    for body in NOT_JSON:
        say(f"post A {body}", "refused not-json")
    for body in WRONG_SHAPE:
        say(f"post A {body}", "refused wrong-shape")
    for body, foreign in FOREIGN:
        say(f"post A {body}", f"nothing foreign {foreign}")
    for number, (body, kind, foreign, row) in enumerate(ROWS, 1):
        say(f"post A {body}", f"batch {number} foreign {foreign}")
        say("report", f" {kind} owner A | accepted {','.join(map(str, row))} ")
        wanted.append((body, "end"))
        say(f"undo {number}", f"undone {number}")
    script = "".join(f"{line}\n" for line in lines).encode("utf-8", "surrogateescape")
    ran = subprocess.run([program], input=script, capture_output=True, check=False)
    checks.same("it ends", (0, b""), (ran.returncode, ran.stderr))
    replies = ran.stdout.decode().splitlines()
    checks.same("replies", len(wanted), len(replies))
    for (line, want), reply in zip(wanted, replies):
        is_right = all(part in reply for part in want.split("|")) if "|" in want else reply == want
        checks.true(f"{line[:120]!r}", is_right, (want, reply))
    return checks.end()


if __name__ == "__main__":
    if len(sys.argv) != 2:
        sys.exit("usage: tests/readings.py PROGRAM")
    sys.exit(main(sys.argv[1]))
