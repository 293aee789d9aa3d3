#!/usr/bin/env python3
"""Runs the demo briefly: programs on OpenTelemetry's SDK, PostgreSQL and Prometheus, while everything between them is killed.

    tests/demo.py TOTXEGUN [SECONDS] [SEED]

The programs use each kind of instrument, and configure only the address, so their points are cumulative. At the end the counts of the
programs, the database and Prometheus must be equal, by series and bucket; the SDK must have logged no error; the gauges must be at the
other receiver; no alert of operate/ may have fired; each query of operate/dashboard.json that is not about several machines must have
rows; and the picture of the run must be drawn. If a program is missing, a line says so, and the status is 77.

Each line is a check; the last line counts passes and failures. The status is 0 if none failed.
"""
import json
import os
import shutil
import subprocess
import sys
import tempfile
import xml.dom.minidom

from testing import ROOT
from testing.checks import Checks
from testing.database import initdb
from testing.service import ask
from tooling.files import text_of
from showing.play import VICTIMS, Play
from showing.scraped import torn
from picture import draw
from run import LIBRARIES, build_sender

SECONDS = 25
SERIES = 30
BASE_UNIT = b'use base unit "seconds" instead of "microseconds"'
# Only these may show a kill, while it lasts.
OF_KILLS = {"TotxegunDown", "TotxegunPostsTurnedAway"}
GO_PACKAGES = {"golang-opentelemetry-otel-dev": "go.opentelemetry.io/otel/sdk/metric",
               "golang-google-protobuf-dev": "google.golang.org/protobuf/encoding/protowire"}


def missing() -> list[str]:
    """The packages that are missing."""
    found = [name for name in ("go", "prometheus") if not shutil.which(name)]
    found += [name for name, path in GO_PACKAGES.items() if not os.path.exists(f"{LIBRARIES}/src/{path}")]
    return found if initdb() else [*found, "postgresql"]


def look(checks: Checks, play: Play, folder: str) -> None:
    rows = play.rows()
    checks.true("the programs posted", all(shop.said[0] > 0 for shop in play.shops), [shop.said for shop in play.shops])
    logs = {shop.name: text_of(f"{play.folder}/{shop.name}.log") for shop in play.shops}
    checks.same("they, and the SDK in them, logged no error", {name: "" for name in logs}, logs)
    killed = {victim for _, victim in play.kills}
    checks.true("something was killed", killed, play.kills)
    print(f"note: {[shop.said for shop in play.shops]}, killed {', '.join(sorted(killed))} of {', '.join(VICTIMS)}", flush=True)
    differ = [row for row in rows if row[-1]]
    checks.same(f"the programs, PostgreSQL and Prometheus have the same series, {SERIES} of them", SERIES, len(rows))
    checks.same("they have the same in each series", [], differ[:3])
    look_at_others(checks, play)
    count, wrong = torn(play.prometheus, play.database)
    checks.true("Prometheus scraped the totals", count >= 5, count)
    checks.same("each scrape is a state of the database", [], wrong[:1])
    for path in ("/metrics", "/totals"):
        status, page = ask(play.service.operate, "GET", path)
        told = subprocess.run(["promtool", "check", "metrics"], input=page, capture_output=True, check=False)
        lines = [line for line in (told.stdout + told.stderr).splitlines() if path == "/metrics" or not line.endswith(BASE_UNIT)]
        checks.same(f"promtool says nothing of {path}, but to count in base units what senders do not", (200, []), (status, lines))
    look_at_dashboard(checks, play)
    checks.same("the service found nothing that must not be", [], play.service.faults())
    play.write_samples(f"{folder}/samples.json")
    draw(f"{folder}/samples.json", f"{folder}/picture.svg")
    drawn = xml.dom.minidom.parse(f"{folder}/picture.svg").getElementsByTagName("path")
    checks.true("the picture is drawn", len(drawn) >= 5, len(drawn))


def look_at_dashboard(checks: Checks, play: Play) -> None:
    with open(f"{ROOT}/operate/dashboard.json", encoding="utf-8") as file:
        panels = [panel for panel in json.load(file)["panels"] if not panel["title"].startswith("Several machines")]
    queries = [target["expr"] for panel in panels for target in panel["targets"]]
    made = {query: query.replace("$__rate_interval", "30s").replace("$job", "totxegun").replace("$instance", ".*") for query in queries}
    empty = [query for query, asked in made.items() if not play.prometheus.found(asked)]
    checks.same(f"each of {len(queries)} queries of the dashboard has rows", [], empty)


def look_at_others(checks: Checks, play: Play) -> None:
    gauges = play.gauges()
    checks.same("the last values of the gauges are at the other receiver", [own for _, own, _ in gauges], [there for *_, there in gauges])
    checks.true("it has most of them", play.receiver.points > sum(shop.said[0] for shop in play.shops) // 2, play.receiver.points)
    checks.same("it has nothing else", [], play.receiver.others[:3])
    checks.same("no alert fired", [], play.prometheus.alerts("firing"))
    checks.same("none but those of kills is about to", [], sorted({*play.prometheus.alerts("pending")} - OF_KILLS))
    page = play.service.asked("GET", "/metrics")[1].decode()
    foreign = [line for line in page.splitlines() if line.startswith("totxegun_rejected_points_total{") and not line.endswith(" 0")]
    checks.same("no point was left out", [], foreign)


def main(program: str, seconds: int | str = SECONDS, seed: int | str = 1) -> int:
    checks = Checks()
    if not checks.has("the demo", *missing()):
        return checks.end()
    sender = build_sender()
    checks.true("the programs that post are built", sender, sender)
    print(f"note: seed {seed}", flush=True)
    with tempfile.TemporaryDirectory(prefix="demo-test-") as folder:
        play = Play(program, sender, f"{folder}/run", float(seconds), int(seed))
        try:
            play.begin()
            play.go()
            look(checks, play, folder)
        finally:
            play.close()
    return checks.end()


if __name__ == "__main__":
    if len(sys.argv) < 2:
        sys.exit(f"usage: {sys.argv[0]} TOTXEGUN [SECONDS] [SEED]")
    sys.exit(main(os.path.abspath(sys.argv[1]), *sys.argv[2:4]))
