#!/usr/bin/env python3
"""A bridge from totxegun to InfluxDB 1.x, which has no OTLP: it takes forwarded requests and writes them as lines.

    operate/influxdb.py PORT INFLUXDB DATABASE
    totxegun serve --sink http://127.0.0.1:PORT/v1/metrics ..

INFLUXDB is HOST:PORT, and its database is there. A point of InfluxDB is told by its measurement, its tags and its time: here
by the series and the end of the span, so a request that is written twice leaves each point once. It is answered 200 once
InfluxDB has it on disk, which is so with `wal-fsync-delay` at 0. A number past 63 bits is refused. totxegun has to serve without
--sink-protobuf and --sink-gzip. 1.6.7 was run.

A tag for each attribute of the point and the resource, in which a backslash is shown as `/` and a line's end as a space; and
`series_id`, a digest that tells two series apart for good. A name that InfluxDB can't have has `_` before it: an empty one, a
metric's that begins with `#`, which would be a comment, or with a tab or NUL, and an attribute's that is `time`. Fields:
`value` of a sum; `count`, `sum`, `bucket_0`, .. of a histogram; `start`, where the span begins.
"""
import hashlib
import http.client
import http.server
import json
import sys
import urllib.parse

MOST = 2**63 - 1
# InfluxDB takes 25 MB at a time by default, and ends the connection at more.
PIECE = 4 << 20


class Refused(Exception):
    """What InfluxDB can't hold."""


def escaped(text, signs):
    text = text.replace("\\", "/").replace("\n", " ")
    for sign in signs:
        text = text.replace(sign, "\\" + sign)
    return text


def tags_of(attributes):
    """The attributes of a list as pairs: an array, and what is no text, as JSON."""
    for one in attributes:
        kind, value = next(iter(one["value"].items()), (None, ""))
        text = str(value) if kind in ("stringValue", "intValue") else json.dumps(value)
        if kind and text:
            yield one["key"], text


def metric_of(name):
    return escaped(f"_{name}" if not name or name[0] in "#\t\0" else name, ", ")


def key_of(name):
    return escaped(f"_{name}" if name in ("", "time") else name, ",= ")


def fields_of(point):
    if "asInt" in point:
        fields = {"value": point["asInt"]}
    else:
        fields = {"count": point["count"], **{f"bucket_{place}": count for place, count in enumerate(point["bucketCounts"])}}
        if "sum" in point:
            fields["sum"] = point["sum"]
    fields["start"] = point["startTimeUnixNano"]
    if any(not -MOST <= int(number) <= MOST for number in [*fields.values(), point["timeUnixNano"]]):
        raise Refused("a number past 63 bits")
    return ",".join(f"{name}={int(number)}i" for name, number in fields.items())


def lines_of(request):
    for of_resource in request["resourceMetrics"]:
        resource = of_resource["resource"]["attributes"]
        for of_scope in of_resource["scopeMetrics"]:
            for metric in of_scope["metrics"]:
                kind = "sum" if "sum" in metric else "histogram"
                for point in metric[kind]["dataPoints"]:
                    identity = [resource, of_scope["scope"], metric["name"], metric["unit"], kind,
                                metric[kind].get("isMonotonic"), point.get("explicitBounds"), point["attributes"]]
                    series = hashlib.sha256(json.dumps(identity, sort_keys=True).encode()).hexdigest()[:32]
                    tags = {key_of(name): text for name, text in [*tags_of(resource), *tags_of(point["attributes"])]}
                    tags["series_id"] = series
                    shown = "".join(f",{name}={escaped(text, ',= ')}" for name, text in sorted(tags.items()))
                    yield f"{metric_of(metric['name'])}{shown} {fields_of(point)} {point['timeUnixNano']}"


def pieces_of(lines):
    """The lines as bodies, each of one line at least."""
    piece, size = [], 0
    for line in map(str.encode, lines):
        if piece and size + len(line) >= PIECE:
            yield b"\n".join(piece)
            piece, size = [], 0
        piece.append(line)
        size += len(line) + 1
    yield b"\n".join(piece)


def write(influxdb, database, lines):
    """The status and text for totxegun: 200 once InfluxDB has all, 503 where it is to come again."""
    connection = http.client.HTTPConnection(influxdb, timeout=20)
    path = "/write?" + urllib.parse.urlencode({"db": database, "precision": "ns"})
    try:
        for piece in list(pieces_of(lines)):  # nothing is written of what is refused
            connection.request("POST", path, piece)
            answer = connection.getresponse()
            text = answer.read().decode(errors="replace")
            # What was written stays, and is written again to the same points.
            if answer.status != 204:
                return (400 if answer.status in (400, 413) else 503), f"InfluxDB: {answer.status} {text.strip()}"
    except (OSError, http.client.HTTPException) as error:
        return 503, f"InfluxDB: {error}"
    finally:
        connection.close()
    return 200, ""


def handler(influxdb, database):
    class Handler(http.server.BaseHTTPRequestHandler):
        protocol_version = "HTTP/1.1"

        def do_POST(self):
            body = self.rfile.read(int(self.headers["Content-Length"]))
            try:
                status, text = self.taken(body)
            except Refused as why:
                status, text = 400, str(why)
            answer = json.dumps({"message": text} if text else {}).encode()
            self.send_response(status)
            self.send_header("Content-Type", "application/json")
            self.send_header("Content-Length", str(len(answer)))
            self.end_headers()
            self.wfile.write(answer)

        def taken(self, body):
            # It waits until totxegun is started without these.
            if self.headers.get_content_type() != "application/json" or "Content-Encoding" in self.headers:
                return 503, "the bridge reads JSON that is not packed: leave --sink-protobuf and --sink-gzip out"
            return write(influxdb, database, lines_of(json.loads(body)))

        def log_message(self, *_):
            pass

    return Handler


if __name__ == "__main__":
    if len(sys.argv) != 4:
        sys.exit(__doc__)
    http.server.ThreadingHTTPServer(("127.0.0.1", int(sys.argv[1])), handler(*sys.argv[2:])).serve_forever()
