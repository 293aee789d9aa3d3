"""The processes of the demo, each in a folder of its own: Prometheus and the programs that post."""
import json
import os
import signal
import subprocess
import threading
import urllib.parse
import urllib.request
from typing import Any

from showing import ROOT
from testing.database import SECONDS, end
from testing.loopback import free_port

RULES = f"{ROOT}/operate/alerts.yml"
SCRAPES = """\
global: {{scrape_interval: 1s, scrape_timeout: 1s, evaluation_interval: 1s}}
rule_files: ["{rules}"]
scrape_configs:
- job_name: totxegun
  static_configs: [{{targets: ["127.0.0.1:{operate}"]}}]
- job_name: totals
  metrics_path: /totals
  honor_labels: true
  static_configs: [{{targets: ["127.0.0.1:{operate}"]}}]
"""


class Prometheus:
    """Prometheus, which scrapes both pages of the admin address each second and has the shipped alerts."""

    def __init__(self, folder: str, operate: int) -> None:
        self.port = free_port()
        os.makedirs(folder)
        with open(f"{folder}/prometheus.yml", "w", encoding="utf-8") as file:
            file.write(SCRAPES.format(operate=operate, rules=RULES))
        words = [f"--config.file={folder}/prometheus.yml", f"--storage.tsdb.path={folder}/data",
                 f"--web.listen-address=127.0.0.1:{self.port}"]
        with open(f"{folder}/log", "wb") as log:
            self.process = subprocess.Popen(["prometheus", *words], stdin=subprocess.DEVNULL, stdout=log, stderr=log)

    def ask(self, query: str) -> list[tuple[dict[str, str], float]] | None:
        """The samples of an answer as (labels, value), or None if there is no answer."""
        found = self.found(query)
        return found and [(one["metric"], float(one["value"][1])) for one in found]

    def ask_series(self, query: str) -> list[tuple[dict[str, str], list[tuple[float, str]]]] | None:
        """The series of an answer as (labels, [(when, value), ..]), or None if there is no answer."""
        found = self.found(query)
        return found and [(one["metric"], one["values"]) for one in found]

    def alerts(self, state: str) -> list[str]:
        """The names of the alerts that were in this state at any time."""
        of_state = f'count by (alertname) (count_over_time(ALERTS{{alertstate="{state}"}}[1h]))'
        return sorted(labels["alertname"] for labels, _ in self.ask(of_state) or [])

    def found(self, query: str) -> Any:
        path = urllib.parse.urlencode({"query": query})
        try:
            with urllib.request.urlopen(f"http://127.0.0.1:{self.port}/api/v1/query?{path}", timeout=10) as answer:
                return json.load(answer)["data"]["result"]
        except (OSError, ValueError):
            return None

    def close(self) -> None:
        end(self.process)


class Shop:
    """A program with OpenTelemetry's SDK that also counts by itself. It is only told where to post."""

    def __init__(self, program: str | None, folder: str, listen: int, name: str, encoding: str, seconds: float,
                 seed: int) -> None:
        self.name, self.encoding = name, encoding
        self.own = f"{folder}/{name}.json"
        # How many posts were answered, how many attempts were not, how many posts were given up, and what was ordered.
        self.said = [0, 0, 0, 0]
        words = ["-instance", name, "-encoding", encoding, "-out", self.own, "-seconds", str(seconds), "-seed", str(seed)]
        environment = {**os.environ, "OTEL_EXPORTER_OTLP_ENDPOINT": f"http://127.0.0.1:{listen}"}
        with open(f"{folder}/{name}.log", "wb") as log:
            self.process = subprocess.Popen([program, *words], stdin=subprocess.DEVNULL, stdout=subprocess.PIPE, stderr=log,
                                            env=environment)
        threading.Thread(target=self.listen, daemon=True).start()

    def listen(self) -> None:
        for line in self.process.stdout:
            self.said = [int(word) for word in line.split()]

    def told(self) -> tuple[list[dict[str, Any]], int]:
        """Its own counts after it has ended, and the last value of its gauge."""
        if self.process.wait(SECONDS) != 0:
            raise RuntimeError(f"{self.name} has ended with status {self.process.returncode}: {self.own[:-5]}.log")
        with open(self.own, encoding="utf-8") as file:
            told = json.load(file)
        return [{**one, "program": self.name} for one in told["totals"]], told["gauge"]

    def close(self) -> None:
        end(self.process, signal.SIGKILL)
