#!/usr/bin/env python3
"""Restores a store from a dump, and promotes a standby that lacks the last seconds.

    tests/store_goes_back.py PROGRAM

Senders post to an instance, and the sink has what they know to be accepted. Then the store goes back to an earlier state, and they go on,
with new senders beside them. What the new senders know to be accepted must be in the sink: in an OTLP receiver that recognises
duplicates by their keys, and in a PostgreSQL database. The database must also have what the other senders know to be accepted: what was
delivered before the store went back, and what came afterwards. The program must say what the sink has beyond the store. A shard whose rows
are gone is not served until an operator has permitted it. Without PostgreSQL the test is left out.

Each line is a check; the last line counts passes and failures. The status is 0 if none failed.
"""
import json
import os
import re
import subprocess
import sys
import tempfile
from collections.abc import Callable, Sequence
from typing import Protocol

sys.path.insert(1, f"{os.path.dirname(os.path.dirname(os.path.abspath(__file__)))}/demo")

from store import Addressed, OfTwoShards, instance  # noqa: E402
from testing.checks import Checks  # noqa: E402
from testing.database import initdb  # noqa: E402
from testing.servers import Pair, Server  # noqa: E402
from testing.service import OtlpSink, Sender, Service, Value, add_points, differences, told_to_all, wait_until  # noqa: E402

POSTS = 12


class HasTotals(Addressed, Protocol):
    """A sink, and its totals by series."""

    def totals(self) -> dict[str, Value]: ...

    def close(self) -> None: ...


class ByKeys(OtlpSink):
    """A receiver that recognises a duplicate by its key alone."""

    def totals(self) -> dict[str, Value]:
        found: dict[str, Value] = {}
        add_points(found, self.points())
        return found


class InPostgres:
    """A database on a server of its own, which does not go back."""

    def __init__(self) -> None:
        self.server = Server()
        self.server.make()
        self.server.start()
        self.address = f"postgres://postgres@{self.server.host}:{self.server.port}/postgres"

    def totals(self) -> dict[str, Value]:
        row = "json_build_object('name', name, 'total', total::text, 'buckets', buckets)"
        rows = json.loads(self.server.ask(f"select coalesce(json_agg({row}), '[]') from totxegun.totals") or "[]")
        return {one["name"]: (tuple(one["buckets"]), int(one["total"])) if one["buckets"] else int(one["total"]) for one in rows}

    def close(self) -> None:
        self.server.close()


class Dump:
    """A dump of the store, which can be restored."""

    name = "put back from a dump"

    def __init__(self, store: Pair) -> None:
        self.store, self.at = store, ("-h", store.primary.host, "-p", str(store.primary.port), "-U", "postgres")
        self.file = f"{store.primary.folder}/dump"

    def begin(self) -> None:
        self.store.primary.run("pg_dump", *self.at, "-n", "totxegun_store", "-f", self.file, "postgres")

    def end(self) -> None:
        self.store.ask("drop schema totxegun_store cascade")
        self.store.primary.run("psql", *self.at, "-q", "-v", "ON_ERROR_STOP=1", "-d", "postgres", "-f", self.file)


class Lag:
    """An asynchronous standby that stands still from some moment on."""

    name = "in the place of which comes a standby that lags"

    def __init__(self, store: Pair) -> None:
        self.store = store
        store.make_standby()
        store.primary.append("postgresql.conf", "synchronous_standby_names = ''")
        store.standby.append("postgresql.conf", "synchronous_standby_names = ''")
        store.ask("select pg_reload_conf()")

    def begin(self) -> None:
        """The standby has everything up to this moment."""
        is_behind = "select count(*) from pg_stat_replication where replay_lsn < pg_current_wal_lsn()"
        wait_until(lambda: self.store.ask(is_behind) == "0")
        self.store.standby.kill()

    def end(self) -> None:
        self.store.primary.kill()
        self.store.standby.start()
        self.store.promote()


def post(checks: Checks, what: str, senders: Sequence[Sender]) -> None:
    taken = [sender.post(sender.next_points()) for _ in range(POSTS) for sender in senders]
    checks.true(f"{what} are answered 200", all(taken), [sender.surprises[:1] for sender in senders if sender.surprises])


def restored(program: str, store: Pair, *words: str) -> tuple[int, str]:
    done = subprocess.run([program, "store", "restored", *words, store.address], capture_output=True, text=True, check=False,
                          timeout=60)
    return done.returncode, done.stdout + done.stderr


def go_back(checks: Checks, program: str, folder: str, of: Callable[[Pair], Dump | Lag], sink: HasTotals) -> None:
    store = Pair()
    try:
        subprocess.run([program, "store", "init", store.address], check=True, capture_output=True)
        way = of(store)
        one = instance(program, folder, "a", store, sink)
        one.words += ["--store-copies", "1"]
        try:
            goes_back(checks, program, one, way, sink)
        finally:
            one.kill()
    finally:
        store.close()


def goes_back(checks: Checks, program: str, one: Service, way: Dump | Lag, sink: HasTotals) -> None:
    what = f"a store {way.name}, {type(sink).__name__}"
    one.start()
    checks.true(f"{what}: an instance serves", one.wait_ready(), one.last_lines())
    before, after = ([OfTwoShards(one, number) for number in range(first, first + 6)] for first in (0, 100))
    post(checks, "its first posts", before)
    checks.true("they are delivered", one.has_delivered_all(), one.last_lines())
    post(checks, "posts that it may still have in its journal", before)
    way.begin()
    post(checks, "posts that it will not have", before)
    checks.true("they are delivered", one.has_delivered_all(), one.last_lines())
    if isinstance(way, Dump):
        one.kill()
    way.end()
    if isinstance(way, Dump):
        status, text = restored(program, way.store)
        checks.true("the store is told that it went back", status == 0 and "goes on with what it has" in text, text)
        one.start()
    checks.true("the instance serves again", one.wait_ready(), one.last_lines())
    post(checks, "posts of new senders", after)
    post(checks, "posts of the others", before)
    checks.true("all are delivered", one.has_delivered_all(), one.last_lines())
    lost = differences(told_to_all(after), {name: total for name, total in sink.totals().items() if name in told_to_all(after)})
    checks.same("what new senders were told is in the sink", [], lost[:3])
    if isinstance(sink, InPostgres):
        lost = differences(told_to_all(before), {name: of for name, of in sink.totals().items() if name in told_to_all(before)})
        checks.same("so is what the others were told before and afterwards", [], lost[:3])
        with open(one.log, encoding="utf-8") as log:
            said = re.findall(r"the store was restored to an earlier state: .* requests=(\d+) since=\"20\S+ \S+\" until=\"20", log.read())
        checks.true("the log says what the sink has beyond it", len(said) > 0, one.last_lines(30))
        page = one.asked("GET", "/metrics")[1].decode()
        ahead = sum(float(number) for number in re.findall(r"^totxegun_sink_ahead_requests{.*} (\S+)", page, re.MULTILINE))
        checks.same("a metric says how many requests", sum(int(number) for number in said), int(ahead))


def is_said(one: Service, part: str) -> bool:
    def says() -> bool:
        status = one.status()
        return status is not None and part in json.dumps(status)
    return wait_until(says)


# Which rows are gone, how the test removes them, how the program names that, and what an operator then types.
GONE: Sequence[tuple[str, str, str, Sequence[str]]] = (
    ("files", "delete from totxegun_store.piece; delete from totxegun_store.file", "although the shard had files", ()),
    ("a piece", "delete from totxegun_store.piece where number = (select min(number) from totxegun_store.piece)",
     "totxegun store restored --anew 0", ("--anew", "0")))


def begin_anew(checks: Checks, program: str, folder: str, sink: HasTotals) -> None:
    """Removes the rows of a shard's files, and then those of one piece."""
    store = Pair()
    one = instance(program, folder, "b", store, sink)
    one.words += ["--store-copies", "1"]
    try:
        subprocess.run([program, "store", "init", store.address, "--shards", "1"], check=True, capture_output=True)
        one.start()
        checks.true("an instance serves a shard", one.wait_ready(), one.last_lines())
        sender = OfTwoShards(one, 200)
        post(checks, "its posts", [sender])
        checks.true("they are delivered", one.has_delivered_all(), one.last_lines())
        for what, gone, part, words in GONE:
            status, text = restored(program, store)
            checks.true("while an instance runs it can't be said", status == 1 and "in use by b" in text, text)
            one.kill()
            store.ask(gone)
            one.start()
            checks.true(f"status names {what} that are gone", is_said(one, part), one.last_lines())
            taken = "select term from totxegun_store.shard"
            before = int(store.ask(taken))
            answer = sender.try_once(*sender.encoded(sender.next_points()))
            checks.true("no post is taken meanwhile", answer[0] in (None, 503), answer)
            wait_until(lambda: False, 6)
            checks.true("it is not taken all the time", int(store.ask(taken)) - before <= 1, one.last_lines())
            one.kill()
            status, text = restored(program, store, *words)
            checks.true("it begins with nothing", status == 0 and "shard 0 begins with nothing" in text, text)
            one.start()
            checks.true("it is served once an operator has said so", one.wait_ready(), one.last_lines())
            new = OfTwoShards(one, f"201.{what[:1]}")
            post(checks, "posts of a new sender", [new])
            checks.true("they are delivered", one.has_delivered_all(), one.last_lines())
            found = {name: total for name, total in sink.totals().items() if name in new.told}
            checks.same("they are in the sink", [], differences(new.told, found)[:3])
    finally:
        one.kill()
        store.close()


def main(words: list[str]) -> int:
    if len(words) != 1:
        sys.exit(__doc__.split("\n\n")[1].strip())
    program, checks = os.path.abspath(words[0]), Checks()
    if not checks.has("a store", *[] if initdb() else ["postgresql"]):
        return checks.end()
    kinds: Sequence[Callable[[], HasTotals]] = (ByKeys, InPostgres)
    ways: Sequence[Callable[[Pair], Dump | Lag]] = (Dump, Lag)
    for number, (way, kind) in enumerate((way, kind) for way in ways for kind in kinds):
        sink = kind()
        with tempfile.TemporaryDirectory() as folder:
            try:
                go_back(checks, program, folder, way, sink)
                if number == 0:
                    begin_anew(checks, program, folder, sink)
            finally:
                sink.close()
    return checks.end()


if __name__ == "__main__":
    sys.exit(main(sys.argv[1:]))
