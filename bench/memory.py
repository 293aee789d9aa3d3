#!/usr/bin/env python3
"""Prints how much memory and processor time the script program needs for each accepted point.

    bench/memory.py [PROGRAM [POINTS ..]]

PROGRAM is bin/play, as `make core` makes it, where none is named; POINTS are 2000 and 20000.

The requests look like those of a real exporter: 200 points of 200 series each, ten attributes of
the resource, three of the point. Each series gets one point a request, so after the first request
every point is of a known series. It prints what it measures on this machine and checks nothing.
"""
import json
import os
import subprocess
import sys
import tempfile
import time
from typing import Any

from measuring.process import memory

SERIES = 200
COUNTS = [2_000, 20_000]
FLUSHES = 10


def attribute(key: str, value: str) -> dict[str, Any]:
    return {"key": key, "value": {"stringValue": value}}


def point(series: int, request: int) -> dict[str, Any]:
    return {
        "attributes": [
            attribute("http.request.method", "GET"),
            attribute("http.response.status_code", "200"),
            attribute("http.route", f"/api/v1/customers/{series}/orders"),
        ],
        "startTimeUnixNano": str(10 * request + 1),
        "timeUnixNano": str(10 * request + 10),
        "asInt": "7",
    }


def body(request: int) -> str:
    """The JSON text of one request, on one line."""
    resource = [
        attribute(f"k8s.deployment.label.{number}", f"value-of-label-{number}")
        for number in range(10)
    ]
    metric = {
        "name": "http.server.request.count",
        "unit": "{request}",
        "sum": {
            "aggregationTemporality": 1,
            "isMonotonic": True,
            "dataPoints": [point(series, request) for series in range(SERIES)],
        },
    }
    scope = {"name": "io.opentelemetry.http", "version": "2.9.0"}
    whole = {
        "resourceMetrics": [
            {
                "resource": {"attributes": resource},
                "scopeMetrics": [{"scope": scope, "metrics": [metric]}],
            }
        ]
    }
    return json.dumps(whole, separators=(",", ":"))


def script(points: int, flushes: int) -> str:
    """Requests with so many points, and then so many flushes, each given back."""
    lines = [f"post A {body(request)}" for request in range(points // SERIES)]
    for flush in range(1, flushes + 1):
        lines += ["take 1000", f"back {flush}"]
    return "\n".join(lines) + "\n" if lines else ""


def run(program: str, text: str) -> tuple[int, float]:
    """Peak memory in bytes and processor time in seconds of a run over the text."""
    with tempfile.TemporaryFile() as stdin:
        stdin.write(text.encode())
        stdin.seek(0)
        child = subprocess.Popen([program], stdin=stdin, stdout=subprocess.DEVNULL)
        # The memory that wait4 returns counts this process too, before it became the program.
        peak = 0
        while True:
            peak = max(peak, memory(child.pid, "VmHWM"))
            done, status, usage = os.wait4(child.pid, os.WNOHANG)
            if done:
                break
            time.sleep(0.002)
    if status != 0:
        sys.exit(f"{program} ended with status {status}")
    return peak, usage.ru_utime + usage.ru_stime


def main() -> None:
    program = sys.argv[1] if len(sys.argv) > 1 else "bin/play"
    counts = [int(word) for word in sys.argv[2:]] or COUNTS
    empty, _ = run(program, "")
    last = (0, empty)
    for points in counts:
        posts = script(points, 0)
        peak, seconds = run(program, posts)
        print(
            f"{points} points: {(peak - empty) // points} bytes a point at the peak"
            f" (of them {len(posts) // points} the script itself),"
            f" {(peak - last[1]) // (points - last[0])} for each after {last[0]} points,"
            f" post {seconds / points * 1e6:.1f} us a point"
        )
        last = (points, peak)
    points = counts[0]
    _, seconds = run(program, script(points, 0))
    _, longer = run(program, script(points, FLUSHES))
    print(
        f"{points} points: take and back"
        f" {(longer - seconds) / FLUSHES * 1e3:.1f} ms a flush of {SERIES} series"
    )


if __name__ == "__main__":
    main()
