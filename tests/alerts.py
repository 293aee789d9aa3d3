#!/usr/bin/env python3
"""Tests the alerts and the dashboard of operate/ with a real Prometheus.

    tests/alerts.py TOTXEGUN

Prometheus scrapes three services, and an instance over a store in PostgreSQL. Its rules are those of operate/alerts.yml with minutes
shortened to seconds. The test causes each alert's condition; the alert must fire, and clear after the cause ends. Each query of
operate/dashboard.json must be accepted and use metrics that exist. `promtool` checks the rules, the metrics page, and by
tests/alerts_by_time.yml and alerts_by_day.yml the times at which alerts fire. Without Prometheus everything is left out, with status
77; without PostgreSQL the store's part.

Each line is a check; the last line counts passes and failures. The status is 0 if none failed.
"""
import contextlib
import functools
import http.client
import json
import os
import re
import shutil
import signal
import subprocess
import sys
import tempfile
import threading
import time
import urllib.parse
from collections.abc import Callable, Sequence
from typing import Any

from testing import ROOT, TESTS
from testing.checks import Checks
from testing.database import initdb
from testing.loopback import free_port
from testing.servers import Pair
from testing.service import JSON, Answer, OtlpSink, Service, ask, in_json, wait_until
from testing.shipped import own_disk
from tooling.files import write

OPERATE = os.path.join(ROOT, "operate")
SECONDS = 120
# Folders in memory, and with a disk of its own if the machine permits one, so that nobody else changes the free space.
FOLDERS = "/dev/shm" if os.access("/dev/shm", os.W_OK) else None
DISK = 2 << 30
# How much of the disk the test's file takes, and how much is free when the alert fires.
FILL, NEARLY_FULL = 96 << 20, 48 << 20
SERIES = 20
# SeriesNearLimit fires above MOST_SERIES. One sender may have nine tenths of the limit, and one book takes 10,000
# series, so there is no room for the series of the last of these senders.
MOST_SERIES, MANY_SENDERS = 1_000, 12
TOO_MANY = [in_json([(f"more.{sender}.{number}", 10, 20, 1) for number in range(MOST_SERIES * 9 // 10)])
            for sender in range(MANY_SENDERS)]
RAISE = "update totxegun_store.shard set term = term + 9 where shard = 1"
# The points a second that a sender may post, and the points of the post that exceeds this quota.
POINTS, MUCH = 100, 3_000
SHORT = ((r"for: \d+[mh]", "for: 1s"), (r"\[\d+[mhd]\]", "[6s]"), (r"offset 1[hd]", "offset 6s"), (r"> 300", "> 3"),
         (r"> 0\.9", f"> {SERIES / MOST_SERIES}"), (r"> 30\n", "> 3\n"), (r"> 10\n", "> 3\n"))
SCRAPES = """\
global: {{scrape_interval: 500ms, scrape_timeout: 500ms, evaluation_interval: 500ms}}
rule_files: [alerts.yml]
scrape_configs:
- job_name: totxegun
  static_configs: [{{targets: [{targets}]}}]
"""
METRIC = re.compile(r"\btotxegun_\w+")


class Sink(OtlpSink):
    """A sink that can also accept a request and reject one of its points."""

    def serve(self, request: Any) -> None:
        if self.moods != ["part"]:
            super().serve(request)
            return
        request.rfile.read(int(request.headers["Content-Length"]))
        answer = b'{"partialSuccess":{"rejectedDataPoints":"1","errorMessage":"too old"}}'
        request.send_response(200)
        request.send_header("Content-Length", str(len(answer)))
        request.end_headers()
        request.wfile.write(answer)


class Prometheus:
    """Prometheus with these services as targets and shortened rules."""

    def __init__(self, folder: str, services: list[Service], free: int) -> None:
        self.port = free_port()
        with open(f"{OPERATE}/alerts.yml", encoding="utf-8") as file:
            rules = file.read()
        for long, short in (*SHORT, (r"< 1e9", f"< {free - NEARLY_FULL}")):
            rules, count = re.subn(long, short, rules)
            assert count, f"no rule has {long}"
        write(f"{folder}/alerts.yml", rules)
        targets = ", ".join(f'"127.0.0.1:{service.operate}"' for service in services)
        write(f"{folder}/prometheus.yml", SCRAPES.format(targets=targets))
        words = [f"--config.file={folder}/prometheus.yml", f"--storage.tsdb.path={folder}/tsdb",
                 f"--web.listen-address=127.0.0.1:{self.port}"]
        with open(f"{folder}/prometheus.log", "wb") as log:
            self.process = subprocess.Popen(["prometheus", *words], stdin=subprocess.DEVNULL, stdout=log, stderr=log)

    def ask(self, path: str, **words: str) -> Any:
        """The answer of its API, or None if it gives none."""
        status, body = ask(self.port, "GET", f"/api/v1/{path}?{urllib.parse.urlencode(words)}")
        return json.loads(body) if status in (200, 400, 422) else None

    def is_up(self, count: int) -> bool:
        """Whether it has scraped all targets."""
        answer = self.ask("query", query='sum(up{job="totxegun"})')
        return bool(answer and answer["data"]["result"] and answer["data"]["result"][0]["value"][1] == str(count))

    def fires(self, alert: str, service: Service) -> bool:
        found = self.ask("alerts")
        alerts = found["data"]["alerts"] if found else ()
        return any(one["labels"]["alertname"] == alert and one["state"] == "firing"
                   and one["labels"].get("instance", f"127.0.0.1:{service.operate}") == f"127.0.0.1:{service.operate}"
                   for one in alerts)

    def close(self) -> None:
        self.process.terminate()
        self.process.wait()


class Causes:
    """Causes that make a service's alerts fire and clear."""

    def __init__(self, checks: Checks, prometheus: Prometheus, service: Service, sink: Sink | None = None) -> None:
        self.checks, self.prometheus, self.service, self.sink = checks, prometheus, service, sink
        self.time = time.time_ns() - 10**15
        # How many senders already have all the series that they may have.
        self.has_many = 0

    def post(self, sender: str = "A", value: int = 1, names: Sequence[str] = ("a",), start: int | None = None) -> int | None:
        start = start or self.time
        self.time = max(self.time, start + 10)
        body = in_json([(name, start, start + 10, value) for name in names])
        return ask(self.service.listen, "POST", "/v1/metrics", body, {"Content-Type": JSON, "x-sender": sender})[0]

    def sees(self, alerts: Any, cause: str, begin: Callable[[], object], end: Callable[[], object]) -> None:
        """Checks that none of these alerts fires before the cause, that all fire after it, and that all clear after its end."""
        alerts = [f"Totxegun{alert}" for alert in alerts.split()]
        fired = set()

        def firing() -> list[str]:
            return [alert for alert in alerts if self.prometheus.fires(alert, self.service)]

        def have_fired() -> bool:
            fired.update(firing())
            return len(fired) == len(alerts)

        before = firing()
        begin()
        wait_until(have_fired, SECONDS)
        end()
        wait_until(lambda: not firing(), SECONDS)
        self.checks.same(f"{' and '.join(alerts)}, by {cause}: fires and clears", ([], sorted(alerts), []),
                         (before, sorted(fired), firing()))

    def sees_repeated(self, alerts: str, cause: str, deed: Callable[[], object], every: float = 0.3) -> None:
        """The same for a cause that must be repeated until the alerts fire."""
        over = threading.Event()

        def repeat() -> None:
            while not over.wait(every):
                deed()

        thread = threading.Thread(target=repeat, daemon=True)

        def end() -> None:
            over.set()
            thread.join()

        self.sees(alerts, cause, thread.start, end)

    # Causes at a sink that answers as the test wants

    def deliver(self) -> None:
        self.post()
        self.service.order("/flush")

    def in_mood(self, *moods: str) -> None:
        self.sink.mood(list(moods))
        self.deliver()

    def settle_letters(self, deed: str) -> None:
        self.sink.mood(["well"])
        _, body = self.service.asked("GET", "/dead-letters")
        for letter in json.loads(body):
            self.service.order(f"/dead-letters/{letter['key']}/{deed}")

    def of_sink(self) -> None:
        self.sees("SinkBehind", "a sink that is down", lambda: self.in_mood("busy"), lambda: self.sink.mood(["well"]))
        self.sees("SinkDenies", "a sink that lets nobody in", lambda: self.in_mood("deny"), lambda: self.sink.mood(["well"]))
        self.sees("DeadLetters", "a request that is refused", lambda: self.in_mood("refuse"),
                  lambda: self.settle_letters("resend"))
        self.sees("Fault", "a point that the sink rejects", lambda: self.in_mood("part"), lambda: self.settle_letters("drop"))
        self.sees("Down", "a service that is killed", self.service.kill, self.service.start)

    # Causes at senders and the disk

    def post_many(self) -> None:
        self.post("B", names=[f"many.{number}" for number in range(2 * SERIES)])
        self.service.order("/flush")

    def forget(self) -> None:
        """Waits until the series have expired, and posts more series than one sender may have: this makes the service
        delete expired series."""
        time.sleep(2)
        body = in_json([(f"more.{number}", 10, 20, 1) for number in range(MOST_SERIES)])
        ask(self.service.listen, "POST", "/v1/metrics", body, {"Content-Type": JSON, "x-sender": "C"})

    def post_too_many(self) -> Answer:
        """Posts more series than the book has room for, and returns the refusal. The first call also posts the series
        that fill the book."""
        for number in range(self.has_many, MANY_SENDERS):
            headers = {"Content-Type": JSON, "x-sender": f"C{number}"}
            answer = ask(self.service.listen, "POST", "/v1/metrics", TOO_MANY[number], headers)
        self.has_many = MANY_SENDERS - 1
        return answer

    def post_much(self) -> Answer:
        """Posts 3,000 points of one series."""
        start = self.time = self.time + 10 * MUCH
        body = in_json([("much", start + 10 * number, start + 10 * number + 10, 1) for number in range(MUCH)])
        return ask(self.service.listen, "POST", "/v1/metrics", body, {"Content-Type": JSON, "x-sender": "D"})

    def of_senders(self, fill: str) -> None:
        self.sees("NotFlushed", "nothing that flushes", self.post, lambda: self.service.order("/flush"))
        self.sees("PointsRejected", "a value that is not whole", self.post_foreign, lambda: None)
        self.sees("Quarantine", "a quarantine", lambda: self.service.order("/quarantine/A"),
                  lambda: self.service.order("/release/A"))
        self.sees("SeriesNearLimit", "many series", self.post_many, self.forget)
        self.sees("DiskNearlyFull", "a file", lambda: take_disk(fill), lambda: os.remove(fill))

    def post_foreign(self) -> None:
        body = in_json([("a", self.time, self.time + 10, 1)]).replace(b'"asInt": "1"', b'"asDouble": 1.5')
        ask(self.service.listen, "POST", "/v1/metrics", body, {"Content-Type": JSON, "x-sender": "A"})

    # Refused posts

    def post_ahead(self) -> None:
        """Posts a point whose time is a day ahead. The service leaves it out, so it does not make later points duplicates."""
        body = in_json([("ahead", now := time.time_ns() + 86_400 * 10**9, now + 10, 1)])
        ask(self.service.listen, "POST", "/v1/metrics", body, {"Content-Type": JSON, "x-sender": "A"})

    def post_slowly(self) -> None:
        """Sends the body two seconds after the head."""
        self.time += 10
        body = in_json([("slow", self.time - 10, self.time, 1)])
        connection = http.client.HTTPConnection("127.0.0.1", self.service.listen, timeout=20)
        connection.putrequest("POST", "/v1/metrics")
        for name, value in {"Content-Type": JSON, "x-sender": "E", "Content-Length": str(len(body))}.items():
            connection.putheader(name, value)
        connection.endheaders()
        time.sleep(2)
        connection.send(body)
        connection.getresponse().read()
        connection.close()

    def of_refusals(self) -> None:
        self.sees_repeated("ClockOff", "a clock that is ahead", self.post_ahead)
        self.post("A")
        self.sees_repeated("PostsRefused", "another sender of a series", lambda: self.post("B"))
        self.sees_repeated("PostsRefused", "a clock that went back", lambda: self.post("A", start=10**9))
        self.sees_repeated("SenderOverQuota", "a sender that posts more than it may", self.post_much)
        self.sees_repeated("SlowAnswers", "a sender that is slow to send", self.post_slowly)
        # Last, because after it no sender gets a new series.
        self.sees_repeated("PostsTurnedAway", "more series than there may be", self.post_too_many)

    # Causes at a store

    def of_store(self, store: Pair) -> None:
        walreceivers = store.standby.kinds("walreceiver")
        self.sees("StoreInDoubt FewCopies", "a standby that stands still", lambda: stop(walreceivers, signal.SIGSTOP),
                  lambda: stop(walreceivers, signal.SIGCONT))
        self.sees_repeated("TermsGoUp", "a shard that is taken again and again", lambda: store.primary.ask(RAISE), every=12)
        self.service.kill()
        holder = hold_row(store)
        self.service.start()
        self.sees("NoOwner", "a shard that can't be taken", lambda: None, lambda: let_go(store, holder))


def stop(pids: list[int], number: int) -> None:
    for pid in pids:
        os.kill(pid, number)


def hold_row(store: Pair) -> subprocess.Popen[bytes]:
    """A session that locks the row of shard 0."""
    place = ("-h", "127.0.0.1", "-p", str(store.primary.port), "-U", "postgres", "-XAtqc")
    words = ("set application_name = 'holder'; begin; select 1 from totxegun_store.shard where shard = 0 for update; "
             "select pg_sleep(600)")
    holder = subprocess.Popen([f"{store.primary.programs}/psql", *place, words], stdout=subprocess.DEVNULL,
                              stderr=subprocess.DEVNULL)
    sleeps = "select count(*) from pg_stat_activity where application_name = 'holder' and wait_event = 'PgSleep'"
    wait_until(lambda: store.primary.ask(sleeps) == "1")
    return holder


def let_go(store: Pair, holder: subprocess.Popen[bytes]) -> None:
    store.primary.ask("select pg_terminate_backend(pid) from pg_stat_activity where application_name = 'holder'")
    holder.wait()


def take_disk(path: str) -> None:
    with open(path, "wb") as file:
        os.posix_fallocate(file.fileno(), 0, FILL)


def promtool(checks: Checks, what: str, *words: str, given: bytes = b"", folder: str = OPERATE) -> None:
    done = subprocess.run(["promtool", *words], input=given, cwd=folder, capture_output=True, check=False)
    checks.same(f"promtool: {what}", 0, done.returncode) if not given else checks.same(
        f"promtool says nothing of {what}", (0, b"", b""), (done.returncode, done.stdout, done.stderr))


def instance_of_store(program: str, folder: str, sink: Sink, closing: contextlib.ExitStack) -> tuple[Pair, Service]:
    """A store with a standby, and an instance over it."""
    store = Pair()
    closing.callback(store.close)
    subprocess.run([program, "store", "init", store.address, "--shards", "4"], check=True, capture_output=True)
    store.standby.be_standby_of(store.primary)
    peer = f"127.0.0.1:{free_port()}"
    words = ("--store", store.address, "--instance", "a", "--peer", peer, "--flush-interval", "1s")
    return store, Service(program, f"{folder}/instance", sink.address, *words)


def look_at_dashboard(checks: Checks, prometheus: Prometheus, page: bytes, has_store: bool) -> None:
    """Checks that each query of the dashboard uses metrics that exist, and that Prometheus accepts it."""
    with open(f"{OPERATE}/dashboard.json", encoding="utf-8") as file:
        panels = json.load(file)["panels"]
    of_machines = {target["expr"] for panel in panels if panel["title"].startswith("Several machines") for target in panel["targets"]}
    queries = {target["expr"] for panel in panels for target in panel["targets"]} - (set() if has_store else of_machines)
    names = {line.split()[2] for line in page.decode().splitlines() if line.startswith("# TYPE")}
    unknown = [name for query in queries for name in METRIC.findall(query)
               if name not in names and re.sub("_(bucket|sum|count)$", "", name) not in names]
    checks.same(f"the dashboard's {len(queries)} queries are of metrics that are there", [], unknown)

    def answer(query: str) -> Any:
        told = query.replace("$__rate_interval", "5s").replace("$job", "totxegun").replace("$instance", ".*")
        return prometheus.ask("query", query=told)

    def has_rows(query: str) -> bool:
        found = answer(query)
        return bool(found and found["data"]["result"])

    answers = {query: answer(query) for query in sorted(queries)}
    wrong = [(query, found) for query, found in answers.items() if not found or found["status"] != "success"]
    checks.same("Prometheus takes each of them", [], wrong)
    if has_store:
        empty = [query for query in sorted(of_machines) if not wait_until(functools.partial(has_rows, query), 10)]
        checks.same(f"each of {len(of_machines)} of several machines has rows", [], empty)


def run(checks: Checks, program: str, folder: str) -> None:
    sink = Sink()
    every, series = ("--flush-interval", "1s"), ("--max-series", str(MOST_SERIES))
    services = [Service(program, f"{folder}/sink", sink.address, *every),
                Service(program, f"{folder}/senders", f"sqlite:{folder}/senders.db", "--flush-interval", "1h",
                        "--series-ttl", "1s", *series),
                Service(program, f"{folder}/refusals", f"sqlite:{folder}/refusals.db", *every, *series,
                        "--sender-points", str(POINTS))]
    with contextlib.ExitStack() as closing:
        closing.callback(sink.close)
        store = None
        if checks.has("alerts of a store", *[] if initdb() else ["postgresql"]):
            store, instance = instance_of_store(program, folder, sink, closing)
            services.append(instance)
        for service in services:
            closing.callback(service.kill)
            service.start()
        checks.true("the services are ready", all(service.wait_ready() for service in services), services[0].last_lines())
        prometheus = Prometheus(folder, services, shutil.disk_usage(folder).free)
        closing.callback(prometheus.close)
        checks.true("Prometheus scrapes them", wait_until(lambda: prometheus.is_up(len(services))), "it does not")
        first, second, third, *fourth = [Causes(checks, prometheus, service, sink) for service in services]
        threads = [threading.Thread(target=first.of_sink), threading.Thread(target=third.of_refusals),
                   threading.Thread(target=second.of_senders, args=(f"{folder}/fill",))]
        threads += [threading.Thread(target=one.of_store, args=(store,)) for one in fourth]
        for thread in threads:
            thread.start()
        for thread in threads:
            thread.join()
        pages = [ask(service.operate, "GET", "/metrics")[1] for service in services]
        for page in pages:
            promtool(checks, "the page of metrics", "check", "metrics", given=page)
        look_at_dashboard(checks, prometheus, pages[1] + b"".join(pages[3:]), store is not None)


def main(program: str) -> int:
    checks = Checks()
    missing = [name for name in ("prometheus", "promtool") if not shutil.which(name)]
    if checks.has("alerts and dashboard", *missing):
        promtool(checks, "the rules are rules", "check", "rules", "alerts.yml")
        promtool(checks, "they fire and clear when they should", "test", "rules",
                 f"{TESTS}/alerts_by_time.yml", f"{TESTS}/alerts_by_day.yml")
        with tempfile.TemporaryDirectory(prefix="alerts-", dir=FOLDERS) as folder, contextlib.ExitStack() as stack:
            own_disk(stack, folder, DISK)
            run(checks, program, folder)
    return checks.end()


if __name__ == "__main__":
    if len(sys.argv) != 2:
        sys.exit(f"usage: {sys.argv[0]} TOTXEGUN")
    sys.exit(main(os.path.abspath(sys.argv[1])))
