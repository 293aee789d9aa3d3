#!/usr/bin/env python3
"""Tests InfluxDB as a back end, with the bridge operate/influxdb.py.

    tests/influxdb.py TOTXEGUN [SECONDS] [SEED]

Senders post to totxegun, whose sink is the bridge, while totxegun, the bridge and InfluxDB are killed. At the end InfluxDB must have, for
each series and bucket, what the senders know to be accepted. Without InfluxDB everything is left out, with status 77.

Each line is a check; the last line counts passes and failures. The status is 0 if none failed.
"""
import importlib.util
import json
import os
import random
import shutil
import subprocess
import sys
import tempfile
import threading
import time
import urllib.parse
from types import ModuleType
from typing import Any

from testing import ROOT
from testing.checks import Checks
from testing.loopback import free_port
from testing.service import Sender, Service, ask, differences, told_to_all, wait_until

BRIDGE = os.path.join(ROOT, "operate", "influxdb.py")
SECONDS = 20
SENDERS = 3
DATABASE = "totals"
ODD = "odd"
LONG = "long"
SETTINGS = """\
reporting-disabled = true
bind-address = "127.0.0.1:{more}"
[meta]
  dir = "{folder}/meta"
[data]
  dir = "{folder}/data"
  wal-dir = "{folder}/wal"
[http]
  bind-address = "127.0.0.1:{port}"
  log-enabled = false
[monitor]
  store-enabled = false
"""


class Program:
    """A program that can be killed and started again."""

    def __init__(self, words: list[str], log: str) -> None:
        self.words, self.log = words, log
        self.process: subprocess.Popen[bytes] = None

    def start(self) -> None:
        with open(self.log, "ab") as log:
            self.process = subprocess.Popen(self.words, stdin=subprocess.DEVNULL, stdout=log, stderr=log)

    def kill(self) -> None:
        self.process.kill()
        self.process.wait()


class InfluxDb(Program):
    def __init__(self, folder: str) -> None:
        self.port = free_port()
        os.makedirs(folder)
        with open(f"{folder}/influxdb.conf", "w", encoding="utf-8") as file:
            file.write(SETTINGS.format(folder=folder, port=self.port, more=free_port()))
        super().__init__(["influxd", "-config", f"{folder}/influxdb.conf"], f"{folder}/log")

    def ask(self, query: str, database: str = DATABASE) -> Any:
        path = urllib.parse.urlencode({"db": database, "q": query, "epoch": "ns"})
        status, body = ask(self.port, "POST", f"/query?{path}")
        return json.loads(body)["results"][0].get("series", []) if status == 200 else None

    def totals(self) -> Any:
        """What InfluxDB has of each metric: a number, or (buckets, sum) for a histogram."""
        found = {}
        for one in self.ask("select sum(*) from /.*/"):
            row = {name.removeprefix("sum_"): number for name, number in zip(one["columns"], one["values"][0])}
            if row.get("value") is not None:
                found[one["name"]] = row["value"]
            else:
                buckets = sorted((name for name, number in row.items() if name.startswith("bucket_") and number is not None))
                found[one["name"]] = tuple(row[name] for name in buckets), row["sum"]
        return found


def bridge_module() -> ModuleType:
    spec = importlib.util.spec_from_file_location("bridge", BRIDGE)
    bridge = importlib.util.module_from_spec(spec)
    spec.loader.exec_module(bridge)
    return bridge


def request(names: list[str], key: str, value: str) -> dict[str, Any]:
    """A request with a point for each name, with one attribute."""
    attributes = [{"key": key, "value": {"stringValue": value}}]
    point = {"asInt": "5", "startTimeUnixNano": "1", "timeUnixNano": "2", "attributes": attributes}
    data = {"aggregationTemporality": 1, "dataPoints": [point], "isMonotonic": True}
    metrics = [{"name": name, "unit": "", "sum": data} for name in names]
    scope = {"metrics": metrics, "scope": {"attributes": [], "name": "", "version": ""}}
    return {"resourceMetrics": [{"resource": {"attributes": []}, "scopeMetrics": [scope]}]}


def odd_names(checks: Checks, influxdb: InfluxDb) -> None:
    """Checks that each point is there, even if InfluxDB cannot store its names unchanged."""
    bridge = bridge_module()
    influxdb.ask(f"create database {ODD}")
    names = [("#metric", "a"), ("", "a"), ("a,b= c", "a,b= c"), ("b", ""), ("c", "time"), ("d", "a\\"), ("d", "a/"),
             ("e\n", "a\n"), ("f", "#"), ("\t", "a"), ("\0g", "a")]
    for name, key in names:
        lines = bridge.lines_of(request([name], key, "x"))
        checks.same(f"{name!r} with {key!r} is written", (200, ""), bridge.write(f"127.0.0.1:{influxdb.port}", ODD, lines))
    found = influxdb.ask("select value from /.*/", ODD)
    checks.same("all of them are there", len(names), sum(len(one["values"]) for one in found))


def long_request(checks: Checks, influxdb: InfluxDb) -> None:
    """A request of 36 MB of lines; InfluxDB accepts 25 MB at a time."""
    bridge = bridge_module()
    influxdb.ask(f"create database {LONG}")
    names = [f"m{number}" for number in range(3000)]
    lines = bridge.lines_of(request(names, "key", "v" * 12_000))
    checks.same("a long request is written", (200, ""), bridge.write(f"127.0.0.1:{influxdb.port}", LONG, lines))
    found = influxdb.ask("select value from /.*/", LONG)
    checks.same("all of it is there", len(names), sum(len(one["values"]) for one in found))


def other_forms(checks: Checks, port: int) -> None:
    """Requests in another form must wait until the service is started as the bridge requires."""
    for headers in ({"Content-Type": "application/x-protobuf"}, {"Content-Type": "application/json", "Content-Encoding": "gzip"}):
        wait_until(lambda: ask(port, "POST", "/v1/metrics", b"\n\0", headers)[0] is not None)
        status, body = ask(port, "POST", "/v1/metrics", b"\n\0", headers)
        checks.true(f"{headers} waits, and is told why", status == 503 and b"--sink-protobuf" in body, (status, body))


def trouble(service: Service, bridge: Program, influxdb: InfluxDb, until: float, chance: random.Random) -> None:
    while time.monotonic() < until:
        time.sleep(chance.uniform(0.5, 2))
        victim = chance.choice(["service", "bridge", "influxdb"])
        if victim == "service":
            service.kill()
            service.start()
        else:
            program = bridge if victim == "bridge" else influxdb
            program.kill()
            time.sleep(chance.uniform(0, 1))
            program.start()


def run(checks: Checks, program: str, folder: str, seconds: float, seed: int) -> None:
    influxdb = InfluxDb(f"{folder}/influxdb")
    port = free_port()
    bridge = Program([sys.executable, BRIDGE, str(port), f"127.0.0.1:{influxdb.port}", DATABASE], f"{folder}/bridge.log")
    service = Service(program, f"{folder}/data", f"http://127.0.0.1:{port}/v1/metrics", "--flush-interval", "1s")
    try:
        influxdb.start()
        is_made = wait_until(lambda: influxdb.ask(f"create database {DATABASE}") is not None)
        checks.true("InfluxDB is there", is_made, influxdb.log)
        odd_names(checks, influxdb)
        long_request(checks, influxdb)
        bridge.start()
        other_forms(checks, port)
        service.start()
        checks.true("the service is ready", service.wait_ready(), service.last_lines())
        until = time.monotonic() + seconds
        senders = [Sender(service, number, seed) for number in range(SENDERS)]

        def go_on(sender: Sender) -> None:
            while time.monotonic() < until:
                sender.post(sender.next_points())
                time.sleep(0.02)

        threads = [threading.Thread(target=go_on, args=(sender,), daemon=True) for sender in senders]
        for thread in threads:
            thread.start()
        trouble(service, bridge, influxdb, until, random.Random(seed))
        for thread in threads:
            thread.join()
        checks.true("it is flushed", wait_until(lambda: service.order("/flush") == 200), service.last_lines())
        checks.true("all is delivered", wait_until(service.is_drained), service.status())
        checks.same("nothing was refused", 0, service.status()["dead_letters"])
        checks.true("InfluxDB is there again", wait_until(lambda: influxdb.ask("show databases") is not None), influxdb.log)
        told = told_to_all(senders)
        posts, repeats = (sum(getattr(sender, count) for sender in senders) for count in ("posts", "repeats"))
        print(f"note: {posts} posts, {repeats} repeats", flush=True)
        checks.same(f"InfluxDB has what the senders were told, {len(told)} series", [], differences(told, influxdb.totals()))
    finally:
        service.kill()
        for one in (bridge, influxdb):
            if one.process:
                one.kill()


def main(program: str, seconds: int | str = SECONDS, seed: int | str = 1) -> int:
    checks = Checks()
    if checks.has("InfluxDB", *[name for name in ("influxd",) if not shutil.which(name)]):
        print(f"note: seed {seed}", flush=True)
        with tempfile.TemporaryDirectory(prefix="influxdb-") as folder:
            run(checks, program, folder, float(seconds), int(seed))
    return checks.end()


if __name__ == "__main__":
    if len(sys.argv) < 2:
        sys.exit(f"usage: {sys.argv[0]} TOTXEGUN [SECONDS] [SEED]")
    sys.exit(main(os.path.abspath(sys.argv[1]), *sys.argv[2:4]))
