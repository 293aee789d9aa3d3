#!/usr/bin/env python3
"""Runs the statements of docs/QUERIES.md on generated data, and its example of a month that is billed and closed.

    tests/queries.py PROGRAM [SERIES [DAYS]]

The hours of DAYS (35) days of SERIES (250) series, up to the end of November, are put into a SQLite file and a PostgreSQL database whose
schemas the program has made. The result of each statement must equal plain sums of the same numbers. The time of each statement and the
bytes of a row are printed. Then the example is done as on the page: its commands and statements, with shops that post. PostgreSQL is left
out if it is not installed.

Each line is a check; the last line counts passes and failures. The status is 0 if none failed.
"""
import collections
import datetime
import hashlib
import json
import os
import re
import shlex
import sqlite3
import subprocess
import sys
import tempfile
import time
from collections.abc import Callable, Iterator, Sequence
from typing import Any

from testing import ROOT
from testing.checks import Checks
from testing.database import Database, initdb
from testing.service import JSON, Service, ask

NAMES = ("shop.revenue", "shop.orders", "shop.visits", "shop.wait", "shop.items")
WAIT = NAMES.index("shop.wait")
BOUNDS = (5, 10, 25, 50, 100, 250, 500, 1000, 2500, 5000)
UTC = datetime.timezone.utc
DAYS = int(sys.argv[3]) if len(sys.argv) > 3 else 35
FIRST = datetime.datetime(2026, 12, 1, tzinfo=UTC) - datetime.timedelta(DAYS)
# The limit of days of intervals.
DAYS_OF_SPANS = 35
LATE = 3
SERIES = 250
NOVEMBER = datetime.datetime(2026, 11, 1, tzinfo=UTC), datetime.datetime(2026, 12, 1, tzinfo=UTC)
HOURS = range(int(FIRST.timestamp()) // 3600, int(FIRST.timestamp()) // 3600 + DAYS * 24)


class Series:
    """What the series of this number is, and what it counted in each hour."""

    def __init__(self, number: int) -> None:
        self.number = number
        self.name = NAMES[number % len(NAMES)]
        place = number // len(NAMES)
        self.shop, self.customer = f"s{place % 10}", f"c{place // 10}"
        self.instance = f"i{place % 7}"
        self.kind = "histogram" if self.name == "shop.wait" else "sum"
        self.attributes = {"customer": self.customer, "shop": self.shop}
        self.resource = {"service.instance.id": self.instance, "service.name": "shop"}

    def value(self, hour: int) -> int:
        return (self.number * 7919 + hour * 104729 + self.number % 89 * hour) % 9973

    def buckets(self, hour: int) -> list[int]:
        """The higher the fewer, in some series and on some days more than in others."""
        fewer = self.number % 4 + hour // 24 % 3 * 4
        return [(self.number + hour * 3 + place * 4) % 11 // (1 + place * fewer // 2) for place in range(len(BOUNDS) + 1)]


# The same numbers in SQL, by `n` and `h`.
VALUE = "((n * 7919 + h * 104729 + n % 89 * h) % 9973)"
BUCKETS = [f"((n + h * 3 + {place} * 4) % 11 / (1 + {place} * (n % 4 + h / 24 % 3 * 4) / 2))" for place in range(len(BOUNDS) + 1)]
COUNT = "(" + " + ".join(BUCKETS) + ")"


def at(hour: int) -> datetime.datetime:
    return datetime.datetime.fromtimestamp(hour * 3600, UTC)


def month_of(day: int) -> int:
    """Since 1970."""
    date = datetime.date(1970, 1, 1) + datetime.timedelta(day)
    return (date.year - 1970) * 12 + date.month - 1


def page() -> str:
    with open(f"{ROOT}/docs/QUERIES.md", encoding="utf-8") as file:
        return file.read()


def made(program: str, folder: str, sink: str) -> None:
    """Makes a sink by starting the program."""
    service = Service(program, f"{folder}/data", sink)
    service.start()
    is_ready = service.wait_ready()
    status, _ = service.end()
    if not is_ready or status != 0:
        raise RuntimeError(f"the service has not made {sink}: {service.last_lines()}")


def statements() -> dict[int, dict[str, str]]:
    """For each question the statement for each database."""
    parts = re.split(r"^## (\d+)\. .*$", page().partition(EXAMPLE)[0], flags=re.M)[1:]
    questions: dict[int, dict[str, str]] = {}
    for number, text in zip(parts[::2], parts[1::2]):
        found = re.findall(r"(?:^(SQLite|PostgreSQL):\n\n)?^```sql\n(.*?)^```$", text, flags=re.M | re.S)
        both = {which: sql for which, sql in found if which}
        questions[int(number)] = both or {"SQLite": found[0][1], "PostgreSQL": found[0][1]}
    return questions


# Beside the questions: each hour of a month of one name, added up from the hours of its series.
MONTH_BY_HOUR = """
select hour, sum(total) as total, sum(total_adjusted) as total_adjusted from by_hour
where name = 'shop.revenue' and hour >= '2026-11-01' and hour < '2026-12-01' group by hour order by hour"""


def asked() -> dict[int, dict[str, str]]:
    """Of each question, and of number 0."""
    return statements() | {0: {"SQLite": MONTH_BY_HOUR, "PostgreSQL": MONTH_BY_HOUR}}


class Plain:
    """The results by plain sums."""

    def __init__(self, series: range) -> None:
        self.series = [Series(number) for number in series]

    def of(self, name: str) -> list[Series]:
        return [one for one in self.series if one.name == name]

    def november(self) -> list[int]:
        return [hour for hour in HOURS if NOVEMBER[0] <= at(hour) < NOVEMBER[1]]

    def sums(self, name: str, hours: list[int], key: Callable[[Series, int], Any]) -> collections.Counter[Any]:
        """By what `key` says of a series and an hour."""
        sums: collections.Counter[Any] = collections.Counter()
        for one in self.of(name):
            for hour in hours:
                sums[key(one, hour)] += one.value(hour)
        return sums

    def answers(self) -> Iterator[tuple[int, list[Any]]]:
        november = self.november()
        hours = self.sums("shop.revenue", november, lambda _, hour: hour)
        yield 0, [(at(hour).strftime("%Y-%m-%d %H:00Z"), total, total) for hour, total in sorted(hours.items())]
        revenue = self.sums("shop.revenue", november, lambda one, hour: (at(hour).date(), one.shop))
        yield 1, [(str(day), shop, total) for (day, shop), total in sorted(revenue.items())]
        owed = self.sums("shop.revenue", november, lambda one, _: one.customer)
        yield 2, self.greatest_first(owed)
        orders = self.sums("shop.orders", november, lambda _, hour: hour)
        most = min(orders, key=lambda hour: (-orders[hour], hour))
        yield 3, [(at(most).strftime("%Y-%m-%d %H:00Z"), orders[most])]
        yield 4, self.one_day()
        all_of = {in_order(one.attributes): sum(map(one.value, HOURS)) for one in self.of("shop.revenue")}
        yield 5, sorted(all_of.items(), key=lambda row: -row[1])[:10]
        days = self.sums("shop.orders", november, lambda _, hour: at(hour).date())
        week = datetime.timedelta(7)
        yield 6, [(str(day), days[day], days[day] - days[day - week] if day - week in days else None) for day in sorted(days)]
        yield 7, self.quantiles(HOURS, lambda one, _: one.shop)
        yield 8, self.quantiles(november, lambda _, hour: str(at(hour).date()))
        yield 9, self.greatest_first(self.sums("shop.orders", november, lambda one, _: one.instance))
        in_berlin = [hour for hour in HOURS if (at(hour) + datetime.timedelta(hours=1)).strftime("%Y-%m") == "2026-11"]
        yield 11, sorted(self.sums("shop.revenue", in_berlin, lambda one, _: one.shop).items())

    @staticmethod
    def greatest_first(sums: dict[Any, int]) -> list[tuple[Any, int]]:
        return sorted(sums.items(), key=lambda row: (-row[1], row[0]))

    def one_day(self) -> list[tuple[str, str, int]]:
        day = [hour for hour in HOURS if at(hour).date() == datetime.date(2026, 11, 15)]
        rows = []
        for name in NAMES:
            of_one = [one for one in self.of(name) if one.customer == "c3" and one.kind == "sum"]
            rows += [(at(hour).strftime("%Y-%m-%d %H:00Z"), name, sum(one.value(hour) for one in of_one)) for hour in day if of_one]
        return sorted(rows)

    def quantiles(self, hours: Sequence[int], key: Callable[[Series, int], Any]) -> list[tuple[Any, int | None]]:
        sums: dict[Any, list[int]] = collections.defaultdict(lambda: [0] * (len(BOUNDS) + 1))
        for one in self.of("shop.wait"):
            for hour in hours:
                sums[key(one, hour)] = [a + b for a, b in zip(sums[key(one, hour)], one.buckets(hour))]
        return [(of, self.quantile(buckets)) for of, buckets in sorted(sums.items())]

    @staticmethod
    def quantile(buckets: list[int]) -> int | None:
        so_far = 0
        for bound, count in zip((*BOUNDS, None), buckets):
            so_far += count
            if so_far * 20 >= sum(buckets) * 19:
                return bound
        return None


class Lite:
    """A SQLite file of the program, filled by SQL."""

    def __init__(self, program: str, folder: str, count: int) -> None:
        made(program, folder, f"sqlite:{folder}/metrics.db")
        self.file = sqlite3.connect(f"{folder}/metrics.db", isolation_level=None)
        self.file.executescript("pragma journal_mode = off; pragma synchronous = off; pragma temp_store = memory")
        self.file.execute("begin")
        self.series(count)
        self.hours(count)
        self.file.create_aggregate("added", 1, Added)  # type: ignore[arg-type]
        self.file.create_function("month_of", 1, month_of, deterministic=True)
        for day in range(HOURS[0] // 24, HOURS[-1] // 24 + 1):
            self.longer("day", str(day), f"hours where hour between {day * 24} and {day * 24 + 23}")
        self.longer("month", "month_of(day)", "days")
        self.written()
        self.totals()
        self.late()
        self.file.execute("commit")

    def series(self, count: int) -> None:
        rows = [
            (
                one.number, one.name, "1", one.kind, one.kind == "sum", json.dumps(list(BOUNDS) if one.kind == "histogram" else []),
                json.dumps(one.attributes, separators=(",", ":")), json.dumps(one.resource, separators=(",", ":")), "shop", "1", "{}",
            )
            for one in map(Series, range(1, count + 1))
        ]
        self.file.executemany("insert into series values (?, randomblob(32), '', ?, ?, ?, ?, ?, ?, ?, ?, ?, ?, null)", rows)
        metrics = [(place + 1, name, "histogram" if place == WAIT else "sum", place != WAIT) for place, name in enumerate(NAMES)]
        self.file.executemany("insert into metrics values (?, ?, ?, ?, '1')", metrics)

    def hours(self, count: int) -> None:
        """An hour after the other, as they are taken."""
        bucket_list = "'[' || " + " || ',' || ".join(BUCKETS) + " || ']'"
        for hour in HOURS:
            self.file.execute(
                f"""with recursive numbers (n, h) as (select 1, ?1 union all select n + 1, h from numbers where n < ?2)
                insert into hours select h, n % 5 + 1, n, 360, 0, {VALUE}, 0, iif(n % 5 = {WAIT}, {COUNT}, 0), 0,
                iif(n % 5 = {WAIT}, {bucket_list}, null), 0 from numbers""",
                (hour, count),
            )
            self.file.execute("insert into utc_hours values (?, ?)", (hour, at(hour).strftime("%Y-%m-%d %H:00Z")))
        self.file.execute(
            """insert into metric_hours select hour, metric, sum(points), 0, sum(total_low), 0, sum(count_low), 0
            from hours group by 1, 2"""
        )

    def longer(self, unit: str, time_of: str, rows: str) -> None:
        self.file.execute(
            f"""insert into {unit}s
            select {time_of}, metric, series, sum(points), 0, sum(total_low), 0, sum(count_low), 0, added(buckets), 0
            from {rows} group by 1, 2, 3"""
        )

    def written(self) -> None:
        for unit, date in (("day", "date(day * 86400, 'unixepoch')"), ("month", "date('1970-01-01', '+' || month || ' months')")):
            self.file.execute(f"insert into utc_{unit}s select {unit}, {date} from (select distinct {unit} from {unit}s)")

    def totals(self) -> None:
        self.file.execute(
            """insert into series_totals select series, sum(points), 1, ?, 0, sum(total_low), 0, sum(count_low), 0, added(buckets), 1, 0
            from months group by series""",
            (HOURS[-1] * 3_600_000_000_000,),
        )

    def late(self) -> None:
        """A flush each ten seconds, with an interval; some came hours later."""
        first = max(HOURS[0], HOURS[-1] + 1 - DAYS_OF_SPANS * 24)
        seconds = range(first * 3600, HOURS[-1] * 3600, 10)
        rows = [
            (number, number, second + (LATE * 3600 if number % 100_000 == 7 else 1), (second - 10) * 10**9, second * 10**9)
            for number, second in enumerate(seconds, 1)
        ]
        self.file.executemany("insert into requests values (?, 0, 'e', ?, ?, 1, zeroblob(32), null, ?, ?)", rows)
        self.file.executemany("insert into interval_rows values (?, 1, 0, 10000000000, 5, null, null, null)", [(row[0],) for row in rows])
        self.taken_late = [row for row in rows if row[0] % 100_000 == 7]

    def late_rows(self) -> list[tuple[str, str, str, int]]:
        return [
            (
                at((row[4] - 1) // 3_600_000_000_000).strftime("%Y-%m-%d %H:00Z"), Series(1).name,
                datetime.datetime.fromtimestamp(row[2], UTC).strftime("%Y-%m-%d %H:%M:%S"), 5,
            )
            for row in self.taken_late
        ]

    def ask(self, sql: str) -> tuple[list[Any], float]:
        began = time.process_time()
        rows = self.file.execute(sql).fetchall()
        return rows, time.process_time() - began

    def row_bytes(self, table: str) -> float:
        """The bytes of a row with its indexes."""
        pages = "select sum(pgsize) from dbstat where name in (select name from sqlite_master where tbl_name = ?)"
        return float(self.file.execute(f"select 1.0 * ({pages}) / count(*) from {table}", (table,)).fetchone()[0])


class Added:
    """Buckets, added up."""

    def __init__(self) -> None:
        self.all: list[int] = None

    def step(self, text: str) -> None:
        if text is not None:
            found = json.loads(text)
            self.all = [a + b for a, b in zip(self.all, found)] if self.all else found

    def finalize(self) -> str | None:
        return json.dumps(self.all, separators=(",", ":")) if self.all else None


# Hours, days and months of the same numbers, as a service would have written them: `h`, `n`.
FILL = f"""
set search_path to totxegun;
set timezone to 'UTC';
insert into series (digest, identity, is_exact, name, unit, kind, is_monotonic, bounds, attributes, resource, scope_name, scope_version,
    scope_attributes)
select sha256(n::text::bytea), n::text, true, (array[{", ".join(f"'{name}'" for name in NAMES)}])[n % 5 + 1], '1',
    case n % 5 when {WAIT} then 'histogram' else 'sum' end, n % 5 <> {WAIT},
    case n % 5 when {WAIT} then array[{", ".join(map(str, BOUNDS))}]::bigint[] end,
    jsonb_build_object('shop', 's' || n / 5 % 10, 'customer', 'c' || n / 50),
    jsonb_build_object('service.instance.id', 'i' || n / 5 % 7, 'service.name', 'shop'), 'shop', '1', '{{}}'
from generate_series(1::bigint, :count) as numbers(n);
insert into metrics select distinct on (metric) metric, name, kind, is_monotonic, unit from series;
alter table past_hours disable trigger add_to_day;
insert into past_hours
select n, 360, 0, h, {VALUE}, case n % 5 when {WAIT} then {COUNT} else 0 end,
    case n % 5 when {WAIT} then array[{", ".join(BUCKETS)}]::numeric[] end
from generate_series({HOURS[0]}::bigint, {HOURS[-1]}) as hours(h), generate_series(1::bigint, :count) as numbers(n);
alter table past_hours enable trigger add_to_day;
create temporary table many as select series, hour / 24 as day, place, sum(bucket) as count
from past_hours, unnest(buckets) with ordinality as one(bucket, place) group by 1, 2, 3;
create index on many (series, day);
insert into past_days select series, points, 0, day, total, sums.count, (
    select array_agg(many.count order by place) from many where many.series = sums.series and many.day = sums.day
) from (
    select series, hour / 24 as day, sum(points) as points, sum(total) as total, sum(past_hours.count) as count
    from past_hours group by series, hour / 24
) as sums;
insert into series_totals (series, points, first_start_ns, last_end_ns, total, count, buckets, hour, before_points, before_total,
    before_count, before_buckets, life, floor_ns)
select series, points, 1, {HOURS[-1] + 1} * 3600000000000, total, sums.count, buckets, {HOURS[-1]}, points, total, sums.count,
    buckets, 1, 0
from (
    select series, sum(points) as points, sum(total) as total, sum(past_days.count) as count, (
        select array_agg(one.count order by place)
        from (select place, sum(many.count) as count from many where many.series = past_days.series group by 1) as one
    ) as buckets
    from past_days group by series
) as sums;
insert into metric_hours select metric, hour, sum(points), sum(total), sum(past_hours.count)
from past_hours join series on series.id = past_hours.series group by 1, 2;
analyze;
"""


class Postgres:
    """A database of the program, filled by SQL."""

    def __init__(self, program: str, folder: str, count: int) -> None:
        self.server = Database()
        self.server.start()
        self.server.wait_ready()
        made(program, folder, self.server.address)
        self.psql(FILL.replace(":count", str(count)))
        self.psql("vacuum totxegun.past_hours")

    def psql(self, sql: str) -> str:
        return self.server.run("psql", "-h", self.server.folder, "-U", "postgres", "-XAtq", "-v", "ON_ERROR_STOP=1", "-c", sql)

    def ask(self, sql: str) -> list[tuple[Any, ...]]:
        """Times are given as SQLite writes them."""
        statement = sql.strip().rstrip(";")
        answer = self.psql(f"set search_path to totxegun; set timezone to 'UTC'; select json_agg(found) from ({statement}) as found")
        return [tuple(self.written(*cell) for cell in row.items()) for row in json.loads(answer)]

    @staticmethod
    def written(name: str, cell: Any) -> Any:
        if name == "hour":
            return cell[:16].replace("T", " ") + "Z"
        return cell[:10] if name == "day" else cell

    def row_bytes(self, table: str) -> float:
        return float(self.psql(f"set search_path to totxegun; select pg_total_relation_size('{table}') / count(*)::float from {table}"))


def in_order(attributes: Any) -> str:
    return json.dumps(attributes if isinstance(attributes, dict) else json.loads(attributes), sort_keys=True)


def compare(checks: Checks, what: str, number: int, wanted: list[Any], rows: list[Any]) -> None:
    if number == 5:
        rows = [(in_order(attributes), total) for attributes, total in rows]
    checks.true(f"{what}, question {number}: {len(rows)} rows", rows and rows == wanted, f"wanted {wanted[:3]}, found {rows[:3]}")


def try_lite(checks: Checks, program: str, folder: str, count: int, wanted: dict[int, list[Any]]) -> None:
    lite = Lite(program, folder, count)
    wanted = wanted | {10: lite.late_rows()}
    for number, sqls in asked().items():
        rows, seconds = lite.ask(sqls["SQLite"])
        compare(checks, "SQLite", number, wanted[number], rows)
        print(f"note: it took {seconds:.2f} s of processor time", flush=True)
    say_sizes("hours", "interval_rows", of=lite)


def try_postgres(checks: Checks, program: str, folder: str, count: int, wanted: dict[int, list[Any]]) -> None:
    postgres = Postgres(program, folder, count)
    try:
        for number, sqls in asked().items():
            if number in wanted:
                began = time.monotonic()
                rows = postgres.ask(sqls["PostgreSQL"])
                compare(checks, "PostgreSQL", number, wanted[number], rows)
                print(f"note: it took {time.monotonic() - began:.2f} s by the clock", flush=True)
        look_at_plan(checks, postgres)
        say_sizes("past_hours", "past_days", of=postgres)
    finally:
        postgres.server.close()


def say_sizes(*tables: str, of: Lite | Postgres) -> None:
    sizes = (f"{of.row_bytes(table):.1f} of {table}" for table in tables)
    print(f"note: bytes of a row with its indexes: {', '.join(sizes)}", flush=True)


def look_at_plan(checks: Checks, postgres: Postgres) -> None:
    """Of a month of one metric neither rows nor other hours are read."""
    plan = postgres.psql(f"set search_path to totxegun; set timezone to 'UTC'; explain (analyze, buffers, costs off) {MONTH_BY_HOUR}")
    index = r"Index Only Scan using past_hour_at on .*\n +Index Cond: (.*)\n"
    scans = re.findall(index + r"(?: +Filter: \(hour >= \$0\)\n)?(.*)\n", plan)
    is_by_time = scans and scans[0][0].count("to_timestamp(") == 2 and scans[0][1].strip() == "Heap Fetches: 0"
    checks.true("PostgreSQL: a month by hour is read of the index alone, by time", is_by_time, plan)
    print(f"note: {re.search(r'Buffers: .*', plan)[0]}", flush=True)


# --------------------------------------------------------------------------------------------------------------------
# A month that is billed and closed


EXAMPLE = "## Bill three shops"
# The months of the page, in the place of which are the last one and this one.
PAGE_MONTHS = "2026-10", "2026-11"
# What shops have counted: shop, day, hour and cents; then what comes after the month is closed.
COUNTED = [("s1", 1, 0, 1000), ("s2", 5, 13, 500), ("s2", 6, 0, 200), ("s3", 28, 23, 77)]
LATE_COUNTED = ("s3", 28, 23, 40)


def blocks() -> Iterator[Any]:
    """The example's blocks: ("sql", text) or ("shell", [command, ..])."""
    text = page().partition(EXAMPLE)[2]
    for kind, block in re.findall(r"^```(sql)?\n(.*?)^```$", text, flags=re.M | re.S):
        yield ("sql", block) if kind else ("shell", re.findall(r"^\$ totxegun (.*)$", block, flags=re.M))


class Bill:
    """The example with a service of its own; `ask` gives the rows of a statement."""

    def __init__(self, checks: Checks, program: str, folder: str, what: str, sink: str,
                 query: Callable[[str], list[list[Any]]]) -> None:
        self.checks, self.program, self.folder, self.what, self.sink, self.query = checks, program, folder, what, sink, query
        this = datetime.datetime.now(UTC).replace(day=1, hour=0, minute=0, second=0, microsecond=0)
        self.last = (this - datetime.timedelta(days=1)).replace(day=1)
        self.months = self.last.strftime("%Y-%m"), this.strftime("%Y-%m")
        self.service = Service(program, f"{folder}/bill", sink, "--flush-interval", "1h")
        self.exported: list[tuple[str, str]] = []

    def of_today(self, text: str) -> str:
        """The text with the last month and this one in place of the page's, of which one may be the other's."""
        months = dict(zip(PAGE_MONTHS, self.months))
        return re.sub("|".join(PAGE_MONTHS), lambda found: months[found[0]], text)

    def post(self, shop: str, day: int, hour: int, cents: int, minute: int = 0) -> None:
        start = int(self.last.replace(day=day, hour=hour, minute=minute).timestamp()) * 10**9
        point: dict[str, Any] = {
            "asInt": str(cents), "startTimeUnixNano": str(start), "timeUnixNano": str(start + 60 * 10**9),
            "attributes": [{"key": "shop", "value": {"stringValue": shop}}],
        }
        metric = {"name": "shop.revenue", "unit": "ct", "sum": {"aggregationTemporality": 1, "isMonotonic": True, "dataPoints": [point]}}
        body = json.dumps({"resourceMetrics": [{"scopeMetrics": [{"metrics": [metric]}]}]})
        status, text = ask(self.service.listen, "POST", "/v1/metrics", body, {"Content-Type": JSON, "x-sender": shop})
        self.checks.same(f"{self.what}: a post of {shop} is taken", 200, status if status == 200 else text)

    def totxegun(self, line: str) -> tuple[str, str]:
        """What a command of the page prints, with the status."""
        line, _, _ = self.of_today(line).partition(" > ")
        words = shlex.split(line)
        words += ["--sink", self.sink] if words[0] == "export" else []
        words += ["--data", f"{self.folder}/bill"]
        done = subprocess.run([self.program, *words], capture_output=True, text=True, check=False, env=dict(os.environ))
        self.checks.same(f"{self.what}: totxegun {line}", 0, done.returncode if done.returncode == 0 else done.stderr)
        return done.stdout, done.stderr

    def run(self) -> None:
        self.service.start()
        if not self.service.wait_ready():
            raise RuntimeError(self.service.last_lines())
        for one in COUNTED:
            self.post(*one)
            self.service.order("/flush")
        try:
            self.steps(list(blocks()))
        finally:
            self.service.end()

    def steps(self, all_blocks: Any) -> None:
        (_, bill), (_, find), (_, adjust), (_, close), (_, again), (_, late) = all_blocks
        bill = self.of_today(bill)
        self.same("what each owes", [["s1", 1000, 0, 1000], ["s2", 700, 0, 700], ["s3", 77, 0, 77]], bill, wait=True)
        self.same("the series of an hour", [[2, 500]], self.of_today(find))
        for _ in range(2):
            all_said = [self.totxegun(line)[0] for line in adjust]
        self.checks.true(f"{self.what}: the same adjustment again", "is there already" in all_said[0], all_said)
        self.post("s1", 2, 0, 5)
        refused = subprocess.run([self.program, "close", self.months[0], "--data", f"{self.folder}/bill"],
                                 capture_output=True, text=True, check=False)
        self.checks.true(f"{self.what}: a close names what waits", refused.returncode == 1 and "--flush" in refused.stderr, refused)
        for line in close:
            self.exported.append(self.totxegun(line))
        wanted = [["s1", 1005, 0, 1005], ["s2", 700, -250, 450], ["s3", 77, 0, 77]]
        self.same("the closed month", wanted, bill)
        self.post(*LATE_COUNTED, minute=30)
        self.service.order("/flush")
        for line in again:
            said = self.totxegun(line)[0]
            self.checks.true(f"{self.what}: counted elsewhere", "since its own hour is closed" in said, said)
        zone = "Z" if self.what == "SQLite" else ""
        rows = [[f"{self.months[0]}-05 13:00{zone}", "s2", 0, 125], [f"{self.months[0]}-28 23:00{zone}", "s3", 40, 0]]
        self.same("what is late", rows, self.of_today(late), wait=True)
        self.same("the closed month is as it was", wanted, bill)
        self.exports(close[-1])
        self.acts()

    def exports(self, line: str) -> None:
        """The same bytes again, whose digest is what is said of them."""
        again = self.totxegun(line)
        self.checks.same(f"{self.what}: an export again", self.exported[-1], again)
        digest = hashlib.sha256(again[0].encode()).hexdigest()
        self.checks.true(f"{self.what}: its digest and count", f"3 rows, sha256 {digest}, {self.months[0]}, closed by" in again[1], again)
        head, *rows = again[0].splitlines()
        self.checks.same(f"{self.what}: its rows", 3, len(rows))
        objects = [json.loads(line) for line in self.totxegun(line.replace("--csv", "--json"))[0].splitlines()]
        total_adjusted = sorted((one["attributes"]["shop"], one["total"], one["adjustments"], one["total_adjusted"]) for one in objects)
        wanted = [("s1", "1005", "0", "1005"), ("s2", "700", "-250", "450"), ("s3", "77", "0", "77")]
        self.checks.same(f"{self.what}: as JSON", wanted, total_adjusted)
        self.checks.same(f"{self.what}: its head", list(objects[0]), head.split(","))

    def acts(self) -> None:
        with open(f"{self.folder}/bill/acts.jsonl", encoding="utf-8") as file:
            acts = [json.loads(line) for line in file]
        done = [act["action"] for act in acts if act.get("outcome", "").startswith("done: ")]
        self.checks.same(f"{self.what}: acts", ["adjust", "adjust", "close", "adjust"], done)
        whos = {act["who"] for act in acts}
        self.checks.true(f"{self.what}: who did them", len(whos) == 1 and "" not in whos, whos)

    def same(self, what: str, wanted: Sequence[Sequence[object]], sql: str, wait: bool = False) -> None:
        """Deliveries may take a moment."""
        until = time.monotonic() + 20
        rows = self.query(sql)
        while wait and rows != wanted and time.monotonic() < until:
            time.sleep(0.1)
            rows = self.query(sql)
        self.checks.same(f"{self.what}: {what}", wanted, rows)


def bill_lite(checks: Checks, program: str, folder: str) -> None:
    path = f"{folder}/bill.db"

    def query(sql: str) -> list[list[Any]]:
        file = sqlite3.connect(path)
        try:
            return [list(row) for row in file.execute(sql)]
        finally:
            file.close()

    Bill(checks, program, folder, "SQLite", f"sqlite:{path}", query).run()


def bill_postgres(checks: Checks, program: str, folder: str) -> None:
    server = Database()
    server.start()
    server.wait_ready()

    def query(sql: str) -> list[list[Any]]:
        sql = f"set search_path to totxegun; set timezone to 'UTC'; select json_agg(found) from ({sql.strip().rstrip(';')}) as found"
        answer = server.run("psql", "-h", server.folder, "-U", "postgres", "-XAtq", "-v", "ON_ERROR_STOP=1", "-c", sql)
        rows = [list(row.values()) for row in json.loads(answer.strip() or "[]") or []]
        return [[cell[:16].replace("T", " ") if isinstance(cell, str) else cell for cell in row] for row in rows]

    try:
        Bill(checks, program, folder, "PostgreSQL", server.address, query).run()
    finally:
        server.close()


def main() -> int:
    program = os.path.abspath(sys.argv[1])
    count = int(sys.argv[2]) if len(sys.argv) > 2 else SERIES
    checks = Checks()
    wanted = dict(Plain(range(1, count + 1)).answers())
    checks.same("the page has eleven questions", list(range(1, 12)), sorted(statements()))
    with tempfile.TemporaryDirectory() as folder:
        try_lite(checks, program, folder, count, wanted)
        bill_lite(checks, program, folder)
    if checks.has("PostgreSQL", *[] if initdb() else ["postgresql"]):
        with tempfile.TemporaryDirectory() as folder:
            try_postgres(checks, program, folder, count, wanted)
            bill_postgres(checks, program, folder)
    return checks.end()


if __name__ == "__main__":
    sys.exit(main())
