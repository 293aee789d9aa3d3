#!/usr/bin/env python3
"""Posts to the service with clients of several languages, each of which counts what was accepted.

    tests/clients.py TOTXEGUN

The clients are curl (JSON; gzipped protobuf; more than 1 KiB after `Expect: 100-continue`; HTTP/1.0; in chunks from standard input),
wrk on kept connections, Python (http.client on a kept connection, urllib), Node (http with an agent, fetch) and Java (HttpClient with
its defaults, which asks for HTTP/2, and with HTTP/1.1). Python, Node and Java post JSON, and protobuf that Python's library has
written. Each way has a series of its own, and after a 503 retries as Retry-After says.

First wrk runs alone, and each answer must be 200. Then all clients post at once, while the small disk of the service's folder is full
twice. The sink must have what each client counted. wrk breaks off a post at its end, so for wrk it must have what the service counted.
Two ways post fractions of a second: the service must report for each of their series by how much it rounded.

It needs curl, wrk, python3-protobuf and root's right to mount; if one is missing, a line says so and the status is 77. Each other line
is a check; the last line counts passes and failures and names the clients that are not installed. The status is 1 if one failed.
"""
import contextlib
import importlib.util
import os
import re
import shutil
import subprocess
import sys
import tempfile
import threading
import time
from typing import Any

# Debian's packages are for Debian's Python.
if importlib.util.find_spec("google") is None and os.path.realpath(sys.executable) != os.path.realpath("/usr/bin/python3"):
    os.execv("/usr/bin/python3", ["/usr/bin/python3", *sys.argv])

from testing.checks import Checks
from testing.service import Service, SqliteSink, Value, add_points, ask, differences, overlaps, wait_until
from testing.shipped import own_disk
from testing.ways import BODIES, External, InSeconds, Programs, Wrk, own_ways
from protobuf_bodies import HAS_LIBRARY, message_classes

RULE = "s=1000000:us"
# In seconds; long enough for a busy machine.
PATIENCE = 180
LEAST_POSTS = 200
# The sizes of the disk and of the file that fills it. The service keeps 64 MiB of any disk free.
DISK, FILL = 256 << 20, 200 << 20


def metrics(service: Service) -> dict[str, float]:
    """The value of each metric, by its name with labels."""
    _, page = ask(service.operate, "GET", "/metrics")
    lines = [line.rsplit(" ", 1) for line in page.decode().splitlines() if not line.startswith("#")]
    return {name: float(value) for name, value in lines}


def accepted(service: Service) -> float:
    """How many posts the service has answered with 200."""
    return metrics(service)['totxegun_requests_total{code="200",reason=""}']


def is_settled(service: Service) -> bool:
    """Whether no post is being handled any more: the service may accept one that wrk has broken off."""
    counts = [-1.0]

    def is_still() -> bool:
        time.sleep(0.7)
        counts.append(accepted(service))
        return counts[-1] == counts[-2] and not metrics(service)["totxegun_post_bytes_in_flight"]
    return wait_until(is_still, PATIENCE)


def totals(checks: Checks, what: str, service: Service, sink: SqliteSink) -> Any:
    """The sink's totals of each series, after a flush."""
    checks.true(f"{what}: within {PATIENCE} s no post is under way", is_settled(service), service.last_lines())
    service.order("/flush")
    checks.true(f"{what}: all is delivered", wait_until(service.is_drained), service.last_lines())
    points = sink.points()
    found: dict[str, Value] = {}
    checks.same(f"{what}: no span is in the sink twice", [], overlaps(points))
    add_points(found, points)
    return found


def compare_wrk(checks: Checks, what: str, told: dict[str, int], found: Any, accepted: float) -> None:
    """Checks that each series has what was answered, or one post more if wrk broke it off at the end, and that the service counted all."""
    found = {name: found.get(name, 0) for name in told}
    checks.true(f"{what}: of each series the sink has what was answered, or one post more",
                all(found[name] - told[name] in (0, 1) for name in told), (told, found))
    checks.same(f"{what}: the sink has as many posts as the service took", accepted, sum(found.values()))


def alone(checks: Checks, service: Service, sink: SqliteSink, folder: str, stack: contextlib.ExitStack) -> dict[str, int]:
    wrk = Wrk(service.listen, folder, "wrk.alone")
    stack.callback(wrk.kill)
    time.sleep(0.5)
    wait_until(lambda: accepted(service) > LEAST_POSTS, PATIENCE)
    wrk.end(checks, "wrk alone")
    checks.same("wrk alone: each answer is 200", 0, sum(repeats for _, repeats, _ in wrk.series.values()))
    found = totals(checks, "wrk alone", service, sink)
    compare_wrk(checks, "wrk alone", wrk.taken, found, accepted(service))
    return wrk.taken


def turned_away(service: Service) -> float:
    return sum(count for name, count in metrics(service).items() if re.match(r'totxegun_requests_total.*code="503"', name))


def read(ways: list[Any]) -> list[Any]:
    for way in ways:
        way.read()
    return ways


def have_more(ways: list[Any], than: dict[str, int]) -> bool:
    """Whether each way has had two more posts accepted since."""
    def has(way: Any) -> bool:
        out_of_bodies = isinstance(way, External) and way.taken == BODIES
        return bool(way.taken > than.get(way.series, 0) + 1 or out_of_bodies or way.surprise)
    return wait_until(lambda: all(has(way) for way in read(ways)), PATIENCE)


def fill_disk(checks: Checks, service: Service, ways: list[Any], folder: str, which: int) -> None:
    """Fills the disk until posts are turned away, and makes room again, after which each way must go on."""
    before = turned_away(service)
    with open(f"{folder}/fill", "wb") as file:
        os.posix_fallocate(file.fileno(), 0, FILL)
    is_full = wait_until(lambda: turned_away(service) > before + len(ways), PATIENCE)
    os.remove(f"{folder}/fill")
    checks.true(f"disk full, {which}: posts are turned away", is_full, service.last_lines())
    taken = {way.series: way.taken for way in read(ways)}
    checks.true(f"disk full, {which}: each way goes on", have_more(ways, taken),
                [(way.series, taken[way.series], way.taken, way.surprise) for way in ways])


def beside(checks: Checks, service: Service, ways: list[Any], folder: str, stack: contextlib.ExitStack) -> Wrk:
    """Runs all clients at once over a disk that is full twice."""
    checks.true("each way posts", have_more(ways, {}), [(way.series, way.taken, way.surprise) for way in ways])
    wrk = Wrk(service.listen, folder, "wrk.beside")
    stack.callback(wrk.kill)
    for which in (1, 2):
        time.sleep(0.7)
        fill_disk(checks, service, ways, folder, which)
    time.sleep(1.2)  # a client that got Retry-After waits this long
    wrk.end(checks, "wrk beside the others")
    return wrk


def compare_rounding(checks: Checks, totxegun: str, service: Service, ways: list[InSeconds], found: Any) -> None:
    """Compares the service's report on the series in seconds with what was counted here."""
    (rounded,) = service.status()["rounded"]
    wanted = {way.series: (way.rounded, round(float(way.rounded_by), 6)) for way in ways}
    checks.same("status has by how much each series was rounded", (RULE, len(ways), wanted),
                (rounded["rule"], rounded["series"],
                 {one["metric"]: (one["values"], round(one["together"], 6)) for one in rounded["greatest"]}))
    order = [one["together"] for one in rounded["greatest"]]
    checks.same("the one that was rounded by most comes first", sorted(order, reverse=True), order)
    greatest = metrics(service)[f'totxegun_greatest_rounding_units{{rule="{RULE}"}}']
    checks.same("the metric has the most", max(order), greatest)
    checks.true("no total is further from the truth", all(abs(found[way.series] - way.exact) <= way.rounded_by for way in ways),
                [(way.series, way.exact, way.rounded_by, found[way.series]) for way in ways])
    text = subprocess.run([totxegun, "status", "--data", service.data], stdout=subprocess.PIPE, text=True,
                          check=False).stdout
    checks.true("totxegun status shows them", all(re.search(rf"(?m)^\d+\.\d{{3}} us +[\d,]+ +{way.series}\b", text) for way in ways), text)


def run(checks: Checks, totxegun: str, folder: str, stack: contextlib.ExitStack) -> list[str]:
    """Runs the test, and returns the clients that are not installed."""
    sink, stop = SqliteSink(f"{folder}/sink.db"), threading.Event()
    service = Service(totxegun, f"{folder}/data", sink.address, "--flush-interval", "1s", "--integer-unit", "s=us")
    stack.callback(service.kill)
    service.start()
    checks.true("the service is ready", service.wait_ready(PATIENCE), service.last_lines())
    of_wrk = alone(checks, service, sink, folder, stack)
    message = message_classes()["ExportMetricsServiceRequest"]
    own = own_ways(service.listen, stop, message)
    programs = Programs(service.listen, folder, message)
    stack.callback(programs.kill)
    stack.callback(stop.set)
    for way in own:
        way.start()
    ways: list[Any] = [*own, *programs.ways]
    wrk = beside(checks, service, ways, folder, stack)
    of_wrk |= wrk.taken
    stop.set()
    checks.same("the programs end", {}, programs.end())
    for way in own:
        way.join(PATIENCE)
    compare(checks, totxegun, service, sink, read(ways), of_wrk)
    repeats = sum(way.repeats for way in ways) + sum(repeats for _, repeats, _ in wrk.series.values())
    checks.true("some posts were repeated", repeats > 0, repeats)
    ended = service.end()
    checks.true("SIGTERM ends the service", ended[0] == 0 and ended[1] < 10, ended)
    print(f"note: {sum(way.taken for way in ways)} posts in {len(ways)} ways, {sum(of_wrk.values())} by wrk; {repeats} answers"
          " were 503", flush=True)
    return programs.left_out


def compare(checks: Checks, totxegun: str, service: Service, sink: SqliteSink, ways: list[Any], of_wrk: dict[str, int]) -> None:
    checks.same("no answer surprises", {}, {way.series: way.surprise for way in ways if way.surprise})
    found = totals(checks, "all", service, sink)
    of_ways = {name: total for name, total in found.items() if name not in of_wrk}
    checks.same("the sink has what each way has counted", [], differences({way.series: way.sum for way in ways}, of_ways))
    compare_wrk(checks, "wrk", of_wrk, found, accepted(service) - sum(way.taken for way in ways))
    checks.same("kept connections are kept", {}, {way.series: way.connections for way in ways if way.connections > 1})
    others = {name: count for name, count in metrics(service).items() if re.match(r'totxegun_requests_total.*code="(?!200|503)', name)}
    checks.same("no post was answered otherwise than 200 and 503", {}, others)
    checks.same("the service found nothing that must not be", [], service.faults())
    compare_rounding(checks, totxegun, service, [way for way in ways if isinstance(way, InSeconds)], found)


def missing() -> list[str]:
    programs = [name for name in ("curl", "wrk", "mount") if not shutil.which(name)]
    return programs + ([] if HAS_LIBRARY else ["python3-protobuf"])


def main(totxegun: str) -> int:
    checks = Checks()
    if not checks.has("all clients", *missing()):
        return checks.end()
    with tempfile.TemporaryDirectory(prefix="clients-") as folder, contextlib.ExitStack() as stack:
        if not checks.has("all clients", *([] if own_disk(stack, folder, DISK) else ["the right to mount"])):
            return checks.end()
        left_out = run(checks, totxegun, folder, stack)
    names = "".join(f"; {name} left out" for name in left_out)
    print(f"{checks.passed} passed, {checks.failed} failed{names}", flush=True)
    return 1 if checks.failed else 0


if __name__ == "__main__":
    if len(sys.argv) != 2:
        sys.exit(f"usage: {sys.argv[0]} TOTXEGUN")
    sys.exit(main(os.path.abspath(sys.argv[1])))
