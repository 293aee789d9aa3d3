"""One run: programs post, other processes are killed meanwhile, and the results are read at the end."""
import itertools
import json
import os
import random
import shutil
import threading
import time
from typing import Any

from showing import scraped
from showing.parts import Prometheus, Shop
from showing.receiver import Receiver
from showing.scraped import Attributes, Series, Total
from testing.database import SECONDS, Database
from testing.service import Service, wait_until

SHOPS = (("shop-1", "protobuf"), ("shop-2", "json"))
# Each of these is killed once at first, then any of them.
VICTIMS = ("service", "database")
# Seconds between two kills, and how long a killed process is down.
BETWEEN = (2.5, 5.5)
DOWN = (0.2, 1.5)
# A database is down for longer, so that requests wait for it.
DATABASE_DOWN = (2, 5)
# Nothing is killed in the last seconds.
LAST = 3
SAMPLE = 0.2
ORDERED = "select coalesce(sum(total), 0) from totxegun.totals where name = 'shop.orders'"

# A series; what the program, the database and Prometheus have of it; and by how much these differ.
Row = tuple[str, str, Attributes, Total | None, Total | None, Total | None, int]


class Play:
    """The stage and all that is on it."""

    def __init__(self, totxegun: str | None, sender: str | None, folder: str, seconds: float, seed: int) -> None:
        shutil.rmtree(folder, ignore_errors=True)
        os.makedirs(folder)
        self.folder, self.seconds, self.seed = folder, seconds, seed
        self.chance = random.Random(f"demo {seed}")
        self.kills: list[tuple[float, str]] = []
        self.samples: list[dict[str, Any]] = []
        self.shops: list[Shop] = []
        self.prometheus: Prometheus = None
        self.sender = sender
        self.database = Database()
        self.receiver = Receiver()
        self.service = Service(totxegun, f"{folder}/data", self.database.address, "--flush-interval", "1s",
                               "--forward-unsupported", f"http://127.0.0.1:{self.receiver.port}")

    def begin(self) -> None:
        self.database.start()
        self.database.wait_ready()
        self.service.start()
        if not self.service.wait_ready():
            raise RuntimeError(f"totxegun has not started: {self.service.last_lines()}")
        self.prometheus = Prometheus(f"{self.folder}/prometheus", self.service.operate)
        self.begun = time.monotonic()
        self.shops = [Shop(self.sender, self.folder, self.service.listen, name, encoding, self.seconds, self.seed * 10 + place)
                      for place, (name, encoding) in enumerate(SHOPS)]

    def go(self) -> None:
        """Posts and kills. Returns once the programs have ended and the database has what was forwarded."""
        is_over = threading.Event()
        watching = [threading.Thread(target=self.watch, args=(is_over,), daemon=True),
                    threading.Thread(target=self.watch_database, args=(is_over,), daemon=True)]
        self.ordered = 0
        for thread in watching:
            thread.start()
        self.trouble()
        for shop in self.shops:
            shop.process.wait(SECONDS)
        if not wait_until(lambda: self.service.order("/flush") == 200) or not wait_until(self.service.is_drained):
            raise RuntimeError(f"the outbox is not empty: {self.service.status()}")
        self.took = time.monotonic() - self.begun
        time.sleep(3 * SAMPLE)
        is_over.set()
        for thread in watching:
            thread.join()

    def trouble(self) -> None:
        until = self.begun + self.seconds - LAST
        first = self.chance.sample(VICTIMS, len(VICTIMS))
        while True:
            time.sleep(self.chance.uniform(*BETWEEN))
            if time.monotonic() > until:
                return
            victim = first.pop() if first else self.chance.choice(VICTIMS)
            self.kills.append((round(self.at(), 2), victim))
            self.kill(victim)

    def kill(self, victim: str) -> None:
        """As by `kill -9`. Who is killed is started again."""
        if victim == "service":
            self.service.kill()
            time.sleep(self.chance.uniform(*DOWN))
            self.service.start()
        if victim == "database":
            self.database.crash()
            time.sleep(self.chance.uniform(*DATABASE_DOWN))
            self.database.start()

    def at(self) -> float:
        return time.monotonic() - self.begun

    def watch(self, is_over: threading.Event) -> None:
        """A sample each moment: posts that were answered, what was ordered, and how the service is."""
        while not is_over.wait(SAMPLE):
            status = self.service.status()
            self.samples.append({
                "at": round(self.at(), 2), "ready": bool(status and status["ready"]),
                "waiting": status["shards"][0]["waiting"] if status else None,
                "posts": [shop.said[0] for shop in self.shops], "ordered": sum(shop.said[3] for shop in self.shops),
                "database": self.ordered})

    def watch_database(self, is_over: threading.Event) -> None:
        """What the database has of the orders. It stands while the database is down."""
        while not is_over.wait(SAMPLE):
            answer = self.database.ask(ORDERED)
            if answer:
                self.ordered = int(answer)

    def rows(self) -> list[Row]:
        """Each series: program, name, what the program, the database and Prometheus have, and how far these differ."""
        counted = {key(one): values(one) for shop in self.shops for one in shop.told()[0]}
        found = {key(one): values(one) for one in self.database.totals()}
        wait_until(lambda: scraped.last(self.prometheus, found) == found, 20)
        shown = scraped.last(self.prometheus, found)
        all_keys = sorted(counted.keys() | found.keys())
        return [(*one, counted.get(one), found.get(one), shown.get(one),
                 differ(counted.get(one), found.get(one)) + differ(found.get(one), shown.get(one))) for one in all_keys]

    def gauges(self) -> list[tuple[str, int, int | None]]:
        """Of each program the last value of its gauge, and what the other receiver has."""
        told = [(shop.name, shop.told()[1]) for shop in self.shops]
        wait_until(lambda: all(self.receiver.value(name) == value for name, value in told), 10)
        return [(name, value, self.receiver.value(name)) for name, value in told]

    def write_samples(self, path: str) -> None:
        told = {"seed": self.seed, "seconds": self.seconds, "programs": [f"{name}, {encoding}" for name, encoding in SHOPS],
                "kills": self.kills, "samples": self.samples}
        with open(path, "w", encoding="utf-8") as file:
            json.dump(told, file)

    def close(self) -> None:
        for shop in self.shops:
            shop.close()
        if self.prometheus:
            self.prometheus.close()
        self.service.end()
        self.database.close()
        self.receiver.close()


def key(one: dict[str, Any]) -> Series:
    return one["program"], one["name"], tuple(sorted(one["attributes"].items()))


def values(one: dict[str, Any]) -> Total:
    return int(one["total"]), int(one["count"]), tuple(int(count) for count in one["buckets"] or ())


def differ(one: Total | None, other: Total | None) -> int:
    """How far two totals are apart, bucket by bucket; what only one has is apart by all of it."""
    (total, count, buckets), (total2, count2, buckets2) = one or (0, 0, ()), other or (0, 0, ())
    pairs = itertools.zip_longest(buckets, buckets2, fillvalue=0)
    return abs(total - total2) + abs(count - count2) + sum(abs(a - b) for a, b in pairs)
