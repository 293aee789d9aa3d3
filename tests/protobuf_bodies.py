#!/usr/bin/env python3
"""Bodies as protobuf's own library writes them, and what comes of them read by its reader.

    tests/protobuf_bodies.py TOTXEGUN
    tests/protobuf_bodies.py GATEWAY gateway

Each round makes a few requests of random sums, histograms and points outside the profile, with the messages of the OTLP
definitions, which are built here by their names and numbers. A gateway alone gets them in JSON as the writer writes it, or
with whole doubles written as whole numbers, as JavaScript writes them; what it forwards is read strictly. The service gets
them in protobuf too, and in JSON with names of fields and enums as in the definitions, packed or not, and its sink gets
protobuf. The answers count the foreign points. One flush then forwards for each series one point, over all its spans, with
its values, buckets and sums added up here.

It needs python3-protobuf; if it is missing, a line says so and the status is 77. Each other line is a check; the last line counts
passes and failures. The status is 1 if one failed.
"""
import contextlib
import gzip
import importlib.util
import json
import os
import random
import sys
import tempfile
from typing import Any

# Debian's package is for Debian's Python.
if importlib.util.find_spec("google") is None and os.path.realpath(sys.executable) != os.path.realpath("/usr/bin/python3"):
    os.execv("/usr/bin/python3", ["/usr/bin/python3", *sys.argv])

from testing.checks import Checks
from testing.loopback import BackEnd
from testing.service import JSON, PROTOBUF, OtlpSink, Service, ask, wait_until
from testing.shipped import flush_all, gateway_at, run_script

try:
    from google.protobuf import descriptor_pb2, descriptor_pool, json_format, message_factory
    HAS_LIBRARY = True
except ImportError:
    HAS_LIBRARY = False

ROUNDS = 120
SEED = 20_231
# Of each message its fields: name, number, type, and how many there are (one, many, maybe, or the name of
# its oneof).
MESSAGES = {
    "AnyValue": ["string_value 1 string value", "bool_value 2 bool value", "int_value 3 int64 value",
                 "double_value 4 double value", "array_value 5 ArrayValue value", "kvlist_value 6 KeyValueList value",
                 "bytes_value 7 bytes value"],
    "ArrayValue": ["values 1 AnyValue many"],
    "KeyValueList": ["values 1 KeyValue many"],
    "KeyValue": ["key 1 string one", "value 2 AnyValue one"],
    "InstrumentationScope": ["name 1 string one", "version 2 string one", "attributes 3 KeyValue many",
                             "dropped_attributes_count 4 uint32 one"],
    "Resource": ["attributes 1 KeyValue many", "dropped_attributes_count 2 uint32 one"],
    "NumberDataPoint": ["start_time_unix_nano 2 fixed64 one", "time_unix_nano 3 fixed64 one", "as_double 4 double value",
                        "as_int 6 sfixed64 value", "attributes 7 KeyValue many", "flags 8 uint32 one"],
    "HistogramDataPoint": ["start_time_unix_nano 2 fixed64 one", "time_unix_nano 3 fixed64 one", "count 4 fixed64 one",
                           "sum 5 double maybe", "bucket_counts 6 fixed64 many", "explicit_bounds 7 double many",
                           "attributes 9 KeyValue many", "flags 10 uint32 one", "min 11 double maybe",
                           "max 12 double maybe"],
    "Gauge": ["data_points 1 NumberDataPoint many"],
    "Sum": ["data_points 1 NumberDataPoint many", "aggregation_temporality 2 AggregationTemporality one",
            "is_monotonic 3 bool one"],
    "Histogram": ["data_points 1 HistogramDataPoint many", "aggregation_temporality 2 AggregationTemporality one"],
    "Metric": ["name 1 string one", "description 2 string one", "unit 3 string one", "gauge 5 Gauge data",
               "sum 7 Sum data", "histogram 9 Histogram data"],
    "ScopeMetrics": ["scope 1 InstrumentationScope one", "metrics 2 Metric many", "schema_url 3 string one"],
    "ResourceMetrics": ["resource 1 Resource one", "scope_metrics 2 ScopeMetrics many", "schema_url 3 string one"],
    "ExportMetricsServiceRequest": ["resource_metrics 1 ResourceMetrics many"],
    "ExportMetricsPartialSuccess": ["rejected_data_points 1 int64 one", "error_message 2 string one"],
    "ExportMetricsServiceResponse": ["partial_success 1 ExportMetricsPartialSuccess one"],
}
TEMPORALITIES = ["UNSPECIFIED", "DELTA", "CUMULATIVE"]
DELTA, CUMULATIVE = 1, 2


def add_field(message: Any, words: str) -> None:
    """Adds the field that a line of MESSAGES describes."""
    name, number, kind, how = words.split()
    field = message.field.add(name=name, number=int(number))
    field.label = field.LABEL_REPEATED if how == "many" else field.LABEL_OPTIONAL
    if kind in MESSAGES:
        field.type, field.type_name = field.TYPE_MESSAGE, f".otlp.{kind}"
    elif kind == "AggregationTemporality":
        field.type, field.type_name = field.TYPE_ENUM, f".otlp.{kind}"
    else:
        field.type = getattr(field, f"TYPE_{kind.upper()}")
    if how == "maybe":
        field.proto3_optional = True
        how = f"_{name}"
    if how not in ("one", "many"):
        if how not in [oneof.name for oneof in message.oneof_decl]:
            message.oneof_decl.add(name=how)
        field.oneof_index = [oneof.name for oneof in message.oneof_decl].index(how)


def definitions() -> Any:
    """The messages as a file of definitions."""
    file = descriptor_pb2.FileDescriptorProto(name="otlp.proto", package="otlp", syntax="proto3")
    enum = file.enum_type.add(name="AggregationTemporality")
    for number, name in enumerate(TEMPORALITIES):
        enum.value.add(name=f"AGGREGATION_TEMPORALITY_{name}", number=number)
    for name, fields in MESSAGES.items():
        message = file.message_type.add(name=name)
        for words in fields:
            add_field(message, words)
    return file


def file_of_definitions() -> bytes:
    """The messages as `protoc` would write them."""
    whole: bytes = descriptor_pb2.FileDescriptorSet(file=[definitions()]).SerializeToString()
    return whole


def message_classes() -> dict[str, Any]:
    """The class of each message."""
    pool = descriptor_pool.DescriptorPool()
    pool.Add(definitions())
    get = getattr(message_factory, "GetMessageClass", None) or message_factory.MessageFactory(pool).GetPrototype
    return {name: get(pool.FindMessageTypeByName(f"otlp.{name}")) for name in MESSAGES}


TEXTS = ["", "a", "service.name", "µs/ß", "😀 and \u0000", 'quote " and \\', "\u2028 line", "x" * 300]


def fill_value(chance: random.Random, value: Any, deep: bool = True) -> None:
    """Fills in a value that the profile allows."""
    kind = chance.randrange(6 if deep else 4)
    if kind == 1:
        value.string_value = chance.choice(TEXTS)
    elif kind == 2:
        value.bool_value = chance.random() < 0.5
    elif kind == 3:
        value.int_value = chance.choice([0, -1, 2**63 - 1, -2**63, chance.getrandbits(40)])
    elif kind > 3:
        value.array_value.SetInParent()
        for _ in range(chance.randrange(3)):
            fill_value(chance, value.array_value.values.add(), False)


def fill_attributes(chance: random.Random, attributes: Any, first: int | None = None) -> None:
    """Adds a few attributes with different keys."""
    for key in chance.sample(TEXTS, chance.randrange(4)):
        entry = attributes.add(key=key)
        fill_value(chance, entry.value)
    if first is not None:
        attributes.add(key="round").value.int_value = first


def value_of(value: Any) -> tuple[Any, Any]:
    """The part of a value that identifies it."""
    kind = value.WhichOneof("value")
    if kind == "array_value":
        return kind, tuple(value_of(one) for one in value.array_value.values)
    return kind, kind and getattr(value, kind)


def attributes_of(attributes: Any) -> frozenset[Any]:
    return frozenset((entry.key, value_of(entry.value)) for entry in attributes)


def fill_point(chance: random.Random, metric: Any, start: int, whole: bool) -> bool:
    """Adds a point to the metric. Returns whether the profile allows it, which depends on whether doubles are written as whole numbers."""
    data = getattr(metric, metric.WhichOneof("data"))
    point = data.data_points.add(start_time_unix_nano=start, time_unix_nano=start + chance.randrange(1, 10))
    fill_attributes(chance, point.attributes)
    if metric.HasField("histogram"):
        bounds = sorted(chance.sample(range(-2**53, 2**53) if chance.random() < 0.3 else range(20), chance.randrange(5)))
        point.explicit_bounds.extend(bounds)
        point.bucket_counts.extend(chance.choice([0, 7, 2**50]) for _ in range(len(bounds) + 1))
        point.count = sum(point.bucket_counts)
        if chance.random() < 0.5:
            point.sum = chance.choice([0, 30, 2**50])
            point.min = point.max = 1.5
        good = whole or not (point.HasField("sum") or bounds)
    elif chance.random() < 0.9:
        point.as_int = chance.choice([0, 5, 2**60])
        if not metric.sum.is_monotonic:
            point.as_int *= chance.choice([-1, 1])
        good = metric.HasField("sum")
    else:
        point.as_double = chance.choice([0.5, 1.0])
        good = False
    if chance.random() < 0.05:
        point.flags = 1
        good = False
    return good and data.aggregation_temporality == DELTA


def fill_metric(chance: random.Random, metric: Any, number: int) -> None:
    metric.name, metric.unit = f"m{number}", chance.choice(["", "1", "µs"])
    metric.description = chance.choice(TEXTS)
    kind = chance.choice(["sum", "sum", "histogram", "histogram", "gauge"])
    getattr(metric, kind).SetInParent()
    if kind != "gauge":
        getattr(metric, kind).aggregation_temporality = DELTA if chance.random() < 0.9 else CUMULATIVE
    if kind == "sum":
        metric.sum.is_monotonic = chance.random() < 0.5


def fill_request(chance: random.Random, request: Any, number: int, start: int, whole: bool) -> tuple[list[Any], int]:
    """Fills in a request. Returns its points of the profile as they are forwarded, and how many others it has."""
    points: list[Any] = []
    foreign = 0
    for which in range(chance.randrange(1, 3)):
        group = request.resource_metrics.add(schema_url=chance.choice(TEXTS))
        fill_attributes(chance, group.resource.attributes, 1000 * number + which)
        for _ in range(chance.randrange(1, 3)):
            part = group.scope_metrics.add()
            part.scope.name, part.scope.version = chance.choice(TEXTS), f"{len(group.scope_metrics)}"
            fill_attributes(chance, part.scope.attributes)
            for name in range(chance.randrange(1, 4)):
                metric = part.metrics.add()
                fill_metric(chance, metric, name)
                for _ in range(chance.randrange(1, 3)):
                    start += 10
                    if fill_point(chance, metric, start, whole):
                        points.append(point_of(group, part, metric, -1))
                    else:
                        foreign += 1
    return points, foreign


def later(request: Any, shift: int, points: list[Any]) -> list[Any]:
    """The same points, this much later."""
    for group in request.resource_metrics:
        for part in group.scope_metrics:
            for metric in part.metrics:
                for point in getattr(metric, metric.WhichOneof("data")).data_points:
                    point.start_time_unix_nano += shift
                    point.time_unix_nano += shift
    return [(series, (start + shift, end + shift), value) for series, (start, end), value in points]


def point_of(group: Any, part: Any, metric: Any, place: int) -> tuple[Any, Any, Any]:
    """A point of the profile as it is forwarded: its series, its interval, and its value or (buckets, sum)."""
    kind = metric.WhichOneof("data")
    data = getattr(metric, kind)
    point = data.data_points[place]
    scope = (part.scope.name, part.scope.version, attributes_of(part.scope.attributes))
    if kind == "sum":
        what, value = ("sum", data.is_monotonic), point.as_int
    else:
        what = ("histogram", tuple(point.explicit_bounds))
        value = (tuple(point.bucket_counts), point.sum if point.HasField("sum") else None)
    series = (attributes_of(group.resource.attributes), scope, metric.name, metric.unit, what,
              attributes_of(point.attributes))
    return series, (point.start_time_unix_nano, point.time_unix_nano), value


def added(points: list[Any]) -> dict[Any, Any]:
    """One point for each series, over all intervals and of all values."""
    found: dict[Any, Any] = {}
    for series, (start, end), value in points:
        if series not in found:
            found[series] = (start, end), value
            continue
        (first, _), before = found[series]
        if series[4][0] == "sum":
            value += before
        else:
            total = None if value[1] is None or before[1] is None else value[1] + before[1]
            value = tuple(a + b for a, b in zip(value[0], before[0])), total
        found[series] = (first, end), value
    return found


def whole_numbers(value: Any) -> Any:
    """The JSON value with whole doubles as whole numbers."""
    if isinstance(value, dict):
        return {name: whole_numbers(one) for name, one in value.items()}
    if isinstance(value, list):
        return [whole_numbers(one) for one in value]
    return int(value) if isinstance(value, float) and value.is_integer() else value


def written(request: Any, how: str) -> tuple[str, bytes]:
    """The media type and the bytes of a request."""
    if how == "protobuf":
        return PROTOBUF, request.SerializeToString()
    if how == "JSON with the names of the definitions":
        return JSON, json_format.MessageToJson(request, preserving_proto_field_name=True).encode()
    text = json_format.MessageToJson(request, use_integers_for_enums=True)
    return JSON, (json.dumps(whole_numbers(json.loads(text))) if how == "JSON with whole numbers" else text).encode()


class Alone:
    """The gateway, and a back end that keeps what it forwards."""

    writings = ("JSON", "JSON with whole numbers")
    packs = False

    def __init__(self, stack: contextlib.ExitStack, gateway: str) -> None:
        self.back_end = BackEnd()
        stack.callback(self.back_end.close)
        self.port = gateway_at(stack, gateway, self.back_end.port).port

    def reads(self, how: str) -> bool:
        """Whether the gateway accepts whole doubles in this form."""
        return how == "JSON with whole numbers"

    def forwarded(self, message: Any) -> list[Any]:
        """The points that one flush forwards. Unknown names and wrong types are errors."""
        self.back_end.bodies.clear()
        flush_all(self.port)
        return [json_format.Parse(body, message(), ignore_unknown_fields=False) for body in self.back_end.bodies]


class Served:
    """The service, and a sink that gets protobuf."""

    writings = ("protobuf", "JSON", "JSON with whole numbers", "JSON with the names of the definitions")
    packs = True

    def __init__(self, stack: contextlib.ExitStack, totxegun: str) -> None:
        self.sink = OtlpSink()
        stack.callback(self.sink.close)
        data = stack.enter_context(tempfile.TemporaryDirectory(prefix="bodies-"))
        # Only orders flush.
        self.service = Service(totxegun, f"{data}/data", self.sink.address, "--sink-protobuf", "--flush-interval", "1h",
                               "--integer-unit", "off", "--cumulative", "off")
        stack.callback(self.service.kill)
        self.service.start()
        if not self.service.wait_ready():
            raise OSError(f"the service is not ready: {self.service.last_lines()}")
        self.service.order("/flush")  # the first flush is due at once
        self.port = self.service.listen

    def reads(self, how: str) -> bool:
        return True

    def forwarded(self, message: Any) -> list[Any]:
        self.sink.taken.clear()
        if self.service.order("/flush") != 200 or not wait_until(self.service.is_drained):
            raise OSError(f"what was flushed is not delivered: {self.service.last_lines()}")
        return [message.FromString(body) for body in self.sink.taken.values()]


def points_in(requests: list[Any]) -> list[Any]:
    found: list[Any] = []
    for request in requests:
        for group in request.resource_metrics:
            for part in group.scope_metrics:
                for metric in part.metrics:
                    data = getattr(metric, metric.WhichOneof("data"))
                    if data.aggregation_temporality != DELTA:
                        raise OSError("a forwarded point is not delta")
                    found += [point_of(group, part, metric, place) for place in range(len(data.data_points))]
    return found


def rejected(response: Any, kind: str, text: bytes) -> int:
    """How many points the answer counts as rejected."""
    said = response.FromString(text) if kind == PROTOBUF else json_format.Parse(text, response(), ignore_unknown_fields=False)
    return int(said.partial_success.rejected_data_points)


def one_round(classes: dict[str, Any], checks: Checks, party: Alone | Served, number: int) -> tuple[int, int]:
    """Posts requests in one form, one after another, and flushes them."""
    chance = random.Random(SEED + number)
    how = party.writings[number % len(party.writings)]
    request = classes["ExportMetricsServiceRequest"]()
    points, foreign = fill_request(chance, request, number, 10**18, party.reads(how))
    wanted: list[Any] = []
    answers: list[object] = []
    alike: list[object] = []
    for post in range(chance.randrange(1, 4)):
        if post:
            points = later(request, 10**6, points)
        kind, body = written(request, how)
        headers = {"Content-Type": kind, "x-sender": "A"}
        if party.packs and chance.random() < 0.3:
            body, headers["Content-Encoding"] = gzip.compress(body), "gzip"
        status, text = ask(party.port, "POST", "/v1/metrics", body, headers)
        answers.append((status, rejected(classes["ExportMetricsServiceResponse"], kind, text) if status == 200 else text))
        alike.append((200, foreign))
        wanted += points
    found = points_in(party.forwarded(classes["ExportMetricsServiceRequest"]))
    what = f"round {number}, {how}: {len(added(wanted))} series, {foreign} foreign points a request"
    checks.same(f"{what}: the answers", alike, answers)
    checks.true(f"{what}: what is forwarded", (len(found), added(found)) == (len(added(wanted)), added(wanted)),
                differences(added(wanted), added(found)))
    return len(added(wanted)), foreign


def differences(wanted: dict[Any, Any], found: dict[Any, Any]) -> object:
    """The first of the series that differ."""
    return next(((series, wanted.get(series), found.get(series)) for series in {**wanted, **found}
                 if wanted.get(series) != found.get(series)), "a series is forwarded twice")


def work(program: str, checks: Checks, stack: contextlib.ExitStack) -> None:
    if not checks.has("all", *([] if HAS_LIBRARY else ["python3-protobuf"])):
        return
    classes = message_classes()
    party: Alone | Served = Alone(stack, program) if sys.argv[2:] == ["gateway"] else Served(stack, program)
    counts = [one_round(classes, checks, party, number) for number in range(ROUNDS)]
    checks.same("series and foreign points were there", (True, True),
                (sum(count for count, _ in counts) > ROUNDS, sum(foreign for _, foreign in counts) > ROUNDS))


if __name__ == "__main__":
    run_script(240, work)
