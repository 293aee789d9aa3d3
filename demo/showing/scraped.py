"""What Prometheus has of the programs' series, beside what the database has."""
import json
from collections.abc import Iterable

from showing.parts import Prometheus
from testing.database import Database

# What Prometheus calls the programs' metrics, and what it calls the parts of a histogram.
NAMES = {"shop.orders": "shop_orders_total", "shop.order.value": "shop_order_value", "shop.sent": "shop_sent_bytes_total",
         "shop.request.duration": "shop_request_duration_microseconds", "shop.carts": "shop_carts",
         "shop.visits": "shop_visits_total", "shop.stock": "shop_stock"}
HISTOGRAMS = ("shop.order.value", "shop.request.duration")
# Each point of each request, in the order in which they were taken: a request is one transaction, and a view has no xmin.
POINTS = """
select coalesce(json_agg(json_build_array(interval_rows.xmin::text::bigint, name, resource->>'service.instance.id', attributes,
    coalesce(value, sum), coalesce(interval_rows.count, (select sum(one) from unnest(totxegun.bucket_counts(counts)) as one), 0))
    order by interval_rows.xmin::text::bigint), '[]')
from totxegun.interval_rows join totxegun.series on series.id = interval_rows.series"""

Attributes = tuple[tuple[str, str], ...]
# Program, name and attributes; and its total, count and buckets.
Series = tuple[str, str, Attributes]
Total = tuple[int, int, tuple[int, ...]]
# The value of each series by its name in Prometheus.
State = dict[Series, int]


def attributes_of(labels: dict[str, str]) -> Attributes:
    return tuple((name, labels[name]) for name in ("payment", "route") if name in labels)


def last(prometheus: Prometheus, like: Iterable[Series]) -> dict[Series, Total]:
    """The last scrape of these series: (total, count, buckets) each, as the database's."""
    samples: dict[Series, dict[float, int]] = {}
    for labels, value in prometheus.ask('{__name__=~"shop_.*"}') or []:
        bounds = samples.setdefault((labels["__name__"], labels["instance"], attributes_of(labels)), {})
        bounds[float(labels.get("le", "inf"))] = int(value)
    found: dict[Series, Total] = {}
    for program, name, attributes in like:
        parts = {end: samples.get((NAMES[name] + end, program, attributes), {}) for end in ("", "_bucket", "_sum", "_count")}
        if name in HISTOGRAMS:
            below = [count for _, count in sorted(parts["_bucket"].items())]
            buckets = tuple(more - less for less, more in zip([0, *below], below))
            found[program, name, attributes] = only(parts["_sum"]), only(parts["_count"]), buckets
        else:
            found[program, name, attributes] = only(parts[""]), 0, ()
    return found


def only(bounds: dict[float, int]) -> int:
    return next(iter(bounds.values()), 0)


def states(database: Database) -> list[State]:
    """What the database had behind each of its requests, as a page of totals shows it."""
    totals: State = {}
    found: list[State] = [{}]
    number = None
    for request, name, program, attributes, total, count in json.loads(database.ask(POINTS)):
        if request != number:
            number = request
            found.append(totals)
            totals = dict(totals)
        where = tuple(sorted(attributes.items()))
        parts = {"_sum": total, "_count": count} if name in HISTOGRAMS else {"": total}
        for end, value in parts.items():
            key = NAMES[name] + end, program, where
            totals[key] = totals.get(key, 0) + int(value)
    return [*found, totals]


def scrapes(prometheus: Prometheus) -> list[State]:
    """Each scrape of totals, in order of time."""
    found: dict[float, State] = {}
    for labels, samples in prometheus.ask_series('{__name__=~"shop_.*",__name__!~".*_bucket"}[1h]') or []:
        for at, value in samples:
            found.setdefault(at, {})[labels["__name__"], labels["instance"], attributes_of(labels)] = int(float(value))
    return [found[at] for at in sorted(found)]


def torn(prometheus: Prometheus, database: Database) -> tuple[int, list[State]]:
    """How many scrapes there are, and those that are no state of the database, or an earlier one than the one before."""
    all_states, place = states(database), 0
    wrong: list[State] = []
    all_scrapes = scrapes(prometheus)
    for scrape in all_scrapes:
        behind = next((at for at in range(place, len(all_states)) if all_states[at] == scrape), None)
        if behind is None:
            wrong.append(scrape)
        else:
            place = behind
    return len(all_scrapes), wrong
