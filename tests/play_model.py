#!/usr/bin/env python3
"""The program play beside a model of its commands, on scripts that are drawn.

Call: tests/play_model.py PROGRAM [COUNT [SEED]], with the path of the built program; 300 scripts of seed 1.

The model keeps no totals: each accepted point stands alone, with the place where it is, and rows are added up
when they are asked for. It has all commands but `post`. Scripts go to the limits of numbers and of the store,
repeat numbers that were given and what has ended, and break lines.
The last line counts the scripts whose replies were the model's, byte by byte, and those whose were not; of these
the first reply that differs is shown. The status is 0 where there is none.
"""
import functools
import inspect
import json
import random
import re
import subprocess
import sys
from collections.abc import Callable, Iterable, Iterator, Sized

I64, U64 = 2**63 - 1, 2**64 - 1
# Of a store: series, open batches, live flushes, quarantined senders, entries of a round.
SERIES, BATCHES, FLUSHES, SENDERS, ENTRIES = 10_000, 1024, 64, 1000, 65_536
NAME = re.compile(r"[A-Za-z0-9._-]{1,64}")
# How often it was added, and what was added and taken away.
Words = list[int]
ZERO = [0, 0, 0]


class Refused(Exception):
    """With what stands behind `refused` in the reply."""


class Bad(Exception):
    """A line that is no command."""


def require(holds: bool, why: str) -> None:
    if not holds:
        raise Refused(why)


def added(rows: Iterable[Words]) -> Words:
    return [sum(words) for words in zip(ZERO, *rows)]


class Point:
    def __init__(self, batch: int, start: int, end: int, row: Words) -> None:
        self.batch, self.start, self.end, self.row = batch, start, end, row
        self.place: int | str = "home"  # or the number of its flush, "acknowledged", "dropped"


class Series:
    def __init__(self, owner: str) -> None:
        self.owner = owner
        self.points: list[Point] = []
        self.began = 0  # where it ended when the round began
        self.past: list[Words] = None  # what earlier rounds acknowledged and dropped, where it is older than the round

    def frontier(self) -> int:
        return max([self.began, *(it.end for it in self.points)])

    def home(self) -> list[Point]:
        return [it for it in self.points if it.place == "home"]

    def at(self, *places: int | str) -> Words:
        return added(it.row for it in self.points if it.place in places)

    def accepted(self) -> Words:
        return added(it.row for it in self.points)

    def begin_round(self) -> None:
        self.began = self.frontier()
        past = self.past or [ZERO, ZERO]
        self.past = [added([before, self.at(place)]) for before, place in zip(past, ("acknowledged", "dropped"))]
        home = self.home()
        self.points = [Point(0, home[0].start, home[-1].end, self.at("home"))] if home else []


class Store:
    def __init__(self) -> None:
        self.series: dict[str, Series] = {}
        self.open: dict[int, list[Point]] = {}
        self.live: dict[int, list[str]] = {}
        self.held: set[str] = set()
        self.batches = self.flushes = self.entries = 0
        self.round = 1

    def sorted(self) -> list[tuple[str, Series]]:
        return sorted(self.series.items())

    def require_room(self, ended_later: Sized, limit: int) -> None:
        """An entry for what is begun, one for its end, and one for the end of all else that was begun."""
        owed = len(self.open) + len(self.live) + len(self.held)
        require(len(ended_later) < limit and self.entries + owed + 2 <= ENTRIES, "full")

    def admit(self, sender: str, points: list[tuple[str, int, int, Words]]) -> str:
        require(sender not in self.held, "quarantined")
        self.require_room(self.open, BATCHES)
        frontiers: dict[str, int] = {}
        rows: dict[str, Words] = {}
        for i, (name, start, end, row) in enumerate(points):
            there = self.series.get(name)
            require(not there or there.owner == sender, f"other-writer {i}")
            frontier = frontiers.get(name, there.frontier() if there else 0)
            require(start >= frontier, f"out-of-order {i} {frontier}")
            frontiers[name] = end
            rows[name] = added([rows[name] if name in rows else there.accepted() if there else ZERO, row])
        require(len(self.series.keys() | rows.keys()) <= SERIES, "too-many-series")
        require(all(max(row) <= I64 for row in rows.values()), "too-large")
        self.entries += 1
        self.batches += 1
        self.open[self.batches] = [Point(self.batches, *point[1:]) for point in points]
        for (name, *_), point in zip(points, self.open[self.batches]):
            self.series.setdefault(name, Series(sender)).points.append(point)
        return f"batch {self.batches}"

    def confirm(self, batch: int) -> str:
        require(batch in self.open, "not-open")
        self.entries += 1
        del self.open[batch]
        return f"confirmed {batch}"

    def undo(self, batch: int) -> str:
        require(batch in self.open, "not-open")
        require(all(it.place == "home" for it in self.open[batch]), "taken")
        self.confirm(batch)
        for name, it in self.sorted():
            it.points = [point for point in it.points if point.batch != batch]
            if not it.points and it.past is None:
                del self.series[name]
        return f"undone {batch}"

    def take(self, most: int) -> tuple[int, list[tuple[str, int, int, Words]]] | None:
        """The flush and its points, or nothing."""
        flying = {name for names in self.live.values() for name in names}
        names = [name for name, it in self.sorted() if it.home() and it.owner not in self.held and name not in flying]
        if not names:
            return None
        self.require_room(self.live, FLUSHES)
        self.entries += 1
        self.flushes += 1
        self.live[self.flushes] = names[:most]
        taken = []
        for name in names[:most]:
            home = self.series[name].home()
            taken.append((name, home[0].start, home[-1].end, self.series[name].at("home")))
            for point in home:
                point.place = self.flushes
        return self.flushes, taken

    def end(self, flush: int, place: str) -> str:
        require(flush in self.live, "not-live")
        self.entries += 1
        for name in self.live.pop(flush):
            for point in self.series[name].points:
                point.place = place if point.place == flush else point.place
        return {"acknowledged": "settled", "dropped": "dropped", "home": "returned"}[place] + f" {flush}"

    def hold(self, sender: str) -> str:
        require(sender not in self.held, "already")
        self.require_room(self.held, SENDERS)
        self.entries += 1
        self.held.add(sender)
        return f"held {sender}"

    def lift(self, sender: str) -> str:
        require(sender in self.held, "not-held")
        self.entries += 1
        self.held.remove(sender)
        return f"lifted {sender}"

    def next_round(self) -> str:
        require(not self.open, "batch-open")
        require(not self.live, "flush-live")
        self.entries = 0
        self.round += 1
        for _, it in self.sorted():
            it.begin_round()
        return f"round {self.round}"


def words(row: Words) -> str:
    return ",".join(map(str, row))


def report(store: Store) -> Iterator[str]:
    for name, it in store.sorted():
        home = words(it.at("home"))
        stored, quarantined = (words(ZERO), home) if it.owner in store.held else (home, words(ZERO))
        yield (f"series {name} sum owner {it.owner} frontier {it.frontier()} accepted {words(it.accepted())}"
               f" acknowledged {words(it.at('acknowledged'))} dropped {words(it.at('dropped'))}"
               f" in-flight {words(it.at(*store.live))} stored {stored} quarantined {quarantined}")
    yield "end"


def past(store: Store) -> Iterator[str]:
    for name, it in store.sorted():
        if it.past:
            yield f"past {name} sum acknowledged {words(it.past[0])} dropped {words(it.past[1])}"
    yield "end"


def forwarded(points: list[tuple[str, int, int, Words]]) -> str:
    """The request of a flush. All have one resource and one scope, without attributes or a name."""
    metrics = [{"name": name, "unit": "", "sum": {"aggregationTemporality": 1, "isMonotonic": False, "dataPoints": [{
        "asInt": str(row[1] - row[2]), "attributes": [], "startTimeUnixNano": str(start), "timeUnixNano": str(end),
    }]}} for name, start, end, row in points]
    scope = {"attributes": [], "name": "", "version": ""}
    resource = {"resource": {"attributes": []}, "scopeMetrics": [{"metrics": metrics, "scope": scope}]}
    return json.dumps({"resourceMetrics": [resource]}, separators=(",", ":"), sort_keys=True)


def number(word: str, least: int = 0, most: int = U64) -> int:
    if not re.fullmatch("-?[0-9]+" if least < 0 else "[0-9]+", word) or not least <= int(word) <= most:
        raise Bad
    return int(word)


def named(word: str) -> str:
    if not NAME.fullmatch(word):
        raise Bad
    return word


def admit(store: Store, sender: str, *words_of_points: str) -> list[str]:
    if not words_of_points or len(words_of_points) % 4:
        raise Bad
    four = zip(*[iter(words_of_points)] * 4)
    points = [(named(a), number(b), number(c), number(d, -(2**63), I64)) for a, b, c, d in four]
    named(sender)
    for _, start, end, value in points:
        require(1 <= start < end, "bad-span")
        require(abs(value) <= I64, "point-too-large")
    return [store.admit(sender, [(a, b, c, [1, max(value, 0), max(-value, 0)]) for a, b, c, value in points])]


def take(store: Store, most: str, *, wire: bool = False) -> list[str]:
    flush = store.take(number(most, 1, 1000))
    if not flush:
        return ["nothing"]
    if wire:
        return [f"flush {flush[0]}", forwarded(flush[1])]
    points = [f"point {name} ({start},{end}] {words(row)}" for name, start, end, row in flush[1]]
    return [f"flush {flush[0]} points {len(points)}", *points]


def answer(store: Store, flush: str, status: str, retry: str | None = None) -> list[str]:
    """What the back end's answer does to the flush; a third word is the value of Retry-After."""
    which = number(flush)
    code = 0 if status == "none" and retry is None else number(status, 0, 65_535)
    if retry == "":
        raise Bad
    again = code in (429, 502, 503, 504)
    place = "acknowledged" if 200 <= code <= 299 else "dropped" if 400 <= code <= 599 and not again else "home"
    knows = code in (429, 503) and re.fullmatch("[0-9]+", retry or "") and int(retry) <= U64
    return [store.end(which, place) + (f" after {int(retry)}" if knows else "")]


COMMANDS: dict[str, Callable[..., list[str]]] = {
    "admit": admit,
    "take": take,
    "wire": lambda store, most: take(store, most, wire=True),
    "ok": lambda store, flush: [store.end(number(flush), "acknowledged")],
    "back": lambda store, flush: [store.end(number(flush), "home")],
    "drop": lambda store, flush: [store.end(number(flush), "dropped")],
    "answer": answer,
    "undo": lambda store, batch: [store.undo(number(batch))],
    "confirm": lambda store, batch: [store.confirm(number(batch))],
    "hold": lambda store, sender: [store.hold(named(sender))],
    "lift": lambda store, sender: [store.lift(named(sender))],
    "report": lambda store: list(report(store)),
    "round": lambda store: [store.next_round()],
    "past": lambda store: list(past(store)),
}


@functools.cache
def takes(command: Callable[..., list[str]], count: int) -> bool:
    """Whether it has so many words behind it."""
    try:
        return bool(inspect.signature(command).bind(None, *[None] * count))
    except TypeError:
        return False


def replies(script: list[str]) -> Iterator[list[str]]:
    """The reply of each line."""
    store = Store()
    for line in script:
        verb, *rest = line.split(" ")
        command = COMMANDS.get(verb)
        try:
            yield command(store, *rest) if command and takes(command, len(rest)) else ["bad command"]
        except Bad:
            yield ["bad command"]
        except Refused as refused:
            yield [f"refused {refused}"]


class Draw:
    """What is drawn for one script: few senders and names, time that mostly goes on, and numbers that were given."""

    STATUSES = ("200", "299", "300", "400", "429", "500", "502", "503", "504", "599", "600", "0", "none", "65536")
    RETRIES = ("", "", " 2", " 0", " 007", f" {U64}", f" {U64 + 1}", " soon", " none", " -1", " ")
    BROKEN = ("", " ", "0", "-", "x", "\t", "\r", "/", "a" * 65, str(U64 + 1), "-5", "none", "\x80")

    def __init__(self, seed: str) -> None:
        self.of = random.Random(seed)
        self.senders = self.of.sample(["A", "B", "-", "s" * 64], self.of.randint(1, 3))
        self.names = self.of.sample(["x", "y", "a.b", "Z_0", "n" * 64], self.of.randint(1, 4))
        self.owners = {name: self.of.choice(self.senders) for name in self.names}
        self.time = self.of.choice([1, 10, 10, 10, 10, U64 - 99])
        self.batches = self.flushes = 1
        self.large = self.of.choice([0, 0, 0.1, 0.5])

    def point(self, name: str) -> str:
        start = max(0, self.time + self.of.choice([0] * 8 + [1, -1]))
        end = min(start + self.of.choice([1] * 8 + [2, 3, 0]), U64)
        self.time = max(self.time, end)
        large = self.of.random() < self.large
        value = self.of.choice([0, I64, I64 - 1, -I64, 2**62, -(2**63)]) if large else self.of.randint(-9, 9)
        return f"{name} {start} {end} {value}"

    def admit(self) -> str:
        self.batches += 1
        sender = self.of.choice(self.senders)
        names = [it for it in self.names if self.owners[it] == sender or self.of.random() < 0.1]
        count = self.of.choice([1, 1, 2, 4])
        return " ".join(["admit", sender, *(self.point(self.of.choice(names)) for _ in range(count) if names)])

    def recent(self, given: int) -> int:
        return max(0, given - self.of.choice([0, 1, 1, 2, 2, 3, 5]))

    def line(self) -> str:
        drawn = self.of.random()
        if drawn < 0.35:
            return self.admit()
        if drawn < 0.5:
            self.flushes += self.of.choice([0, 1])  # not each takes something
            return f"{self.of.choice(['take', 'take', 'wire'])} {self.of.choice([1, 1, 2, 1000])}"
        if drawn < 0.6:
            return f"answer {self.recent(self.flushes)} {self.of.choice(self.STATUSES)}{self.of.choice(self.RETRIES)}"
        if drawn < 0.7:
            return f"{self.of.choice(['ok', 'back', 'drop'])} {self.recent(self.flushes)}"
        if drawn < 0.8:
            return f"{self.of.choice(['undo', 'confirm'])} {self.recent(self.batches)}"
        if drawn < 0.9:
            return f"{self.of.choice(['hold', 'lift', 'lift'])} {self.of.choice(self.senders)}"
        return self.of.choice(["report", "past", "round"])

    def broken(self, line: str) -> str:
        at = self.of.randint(0, len(line))
        return line[:at] + self.of.choice(self.BROKEN) + line[at + self.of.choice([0, 0, 1, 2]):]

    def end_of_round(self) -> list[str]:
        ends = [f"{self.of.choice(['ok', 'back', 'drop'])} {flush}" for flush in range(1, self.flushes + 9)]
        return [*ends, *(f"confirm {batch}" for batch in range(1, self.batches + 1)), "report", "round", "past"]

    def history(self) -> list[str]:
        script: list[str] = []
        for _ in range(self.of.randint(5, 100)):
            line = self.line()
            script.append(self.broken(line) if self.of.random() < 0.05 else line)
            if self.of.random() < 0.02:
                script += self.end_of_round()
        return [*script, "report", "past"]

    def limits(self) -> list[str]:
        """Up to a limit of the store and over it, and then anything."""
        near = self.of.choice([-1, 0, 1])
        points = [f"n{i} 1 2 1" for i in range(SERIES + near)]
        self.batches, self.flushes = self.of.choice([1, BATCHES]), self.of.choice([1, FLUSHES])
        begun = self.of.choice([
            [" ".join(["admit A", *points])],
            [f"admit A {it}" for it in points[:BATCHES + near]],
            [" ".join(["admit A", *points[:FLUSHES + 1]]), *["take 1"] * (FLUSHES + near)],
            [f"hold s{i}" for i in range(SENDERS + near)],
            ["hold q", "lift q"] * (ENTRIES // 2 - self.of.randint(1, 8)),
        ])
        return [*begun, *(self.line() for _ in range(60)), "report"]


def fault(program: str, script: list[str]) -> str | None:
    """What is wrong with the program's replies, if anything is."""
    ran = subprocess.run([program], input="\n".join(script).encode("latin-1"), capture_output=True, check=False)
    found = ran.stdout.decode("latin-1").splitlines(keepends=True)
    for line, reply in zip(script, replies(script)):
        wanted = [f"{it}\n" for it in reply]
        if found[:len(wanted)] != wanted:
            return f"{line[:200]!r}: wanted {wanted[:3]}, found {found[:3]}"
        del found[:len(wanted)]
    return f"{found[:3]} behind the last reply, {ran}" if found or ran.stderr or ran.returncode else None


def main(program: str, count: int = 300, seed: int = 1) -> int:
    failed = 0
    for script in range(count):
        drawn = Draw(f"{seed} {script}")
        wrong = fault(program, drawn.limits() if script % 20 == 19 else drawn.history())
        if wrong:
            failed += 1
            print(f"failed: script {script} of seed {seed}: {wrong}", flush=True)
    print(f"{count - failed} passed, {failed} failed")
    return 1 if failed else 0


if __name__ == "__main__":
    if len(sys.argv) not in (2, 3, 4):
        sys.exit(__doc__)
    sys.exit(main(sys.argv[1], *map(int, sys.argv[2:])))
