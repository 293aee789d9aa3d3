#!/usr/bin/env python3
"""Prints what the service takes for a post beside the bare gateway, and beside an earlier service, in one run.

    bench/service.py [--totxegun FILE] [--gateway FILE] [--earlier FOLDER] [--other FILE] [--senders N,..] [--series N] [--rows NAME,..]
                     [--parties NAME,..] [--connections kept|each] [--runs N] [--seconds N] [--share N] [--data DIR] [--options WORDS]
                     [--set NAME=VALUE]* [--renamed NEW=OLD]* [--sink sqlite|postgres]

The programs are bin/totxegun and bin/gateway, as `make build` and `make core` make them, where none is named. Rows: json-1, json-20,
protobuf-103, gzip-103, grpc-1, grpc-103, by the encoding and the points of a post, over 800 series, and cumulative-103, which is
protobuf. Parties: gateway, which is the bare one, process and disk, which are the service with this durability and a SQLite file
as its sink, or with --sink postgres a database of a server that runs beside, whose processor time is not counted; `--set
TOTXEGUN_FLUSH_INTERVAL=250ms` has each run deliver. More options of it are in WORDS, and --set sets more of its environment than the
shipped unit does, such as LD_PRELOAD. process-tls and disk-tls are the same over TLS 1.3, on connections that shake hands wholly,
and their ratios are to those without. FOLDER has totxegun and gateway of a revision whose service starts a gateway (1383c49c): it
is measured as earlier-process and earlier-disk too. The other FILE is a totxegun of another revision, measured as other-process
and so on. Both get the options of today: `--renamed durability=durable` says that theirs is named so, and `--renamed listen-grpc=`
that they have none. The bare gateway has four receivers, tcmalloc where that is installed, a connection a request, over TCP, and protobuf's
points as JSON: it reads no other. The services get kept connections, a sender each, or with `each` one for each post, but for
gRPC. The folder of a service is made in DIR, which is out/bench where none is named: the disk that `disk` waits for.

The parties run in turn, each run in fresh processes whose series are there already, and of about so many seconds. With a share
below 1 posts come at that share of the rate that a party has taken at most, evenly: what a post takes then is not its wait for others.
Figures are medians over the runs, with the least and the most in brackets; a ratio is one of a run of the service to the
run beside it. Processor time is all of a service's, an earlier one's gateway counted, with what flushing, journal and outbox
take meanwhile.
"""
import argparse
import contextlib
import os
import subprocess

from measuring import loading
from measuring.allocators import environment, shown
from measuring.loading import Loaded, Posts, Senders, rounded
from measuring.process import file_system, numbers, processor_seconds, spread
from measuring.running import bare, options, path, processes, serving
from testing.database import Database
from testing.loopback import free_port

# A row of the service alone.
CUMULATIVE = "cumulative-103"
# Each row with what is posted, and how many posts a second are looked for where it is not known yet.
ROWS = {"json-1": ("json", 1, 4000), "json-20": ("json", 20, 1000), "protobuf-103": ("protobuf", 103, 300), "gzip-103": ("gzip", 103, 300),
        "grpc-1": ("grpc", 1, 4000), "grpc-103": ("grpc", 103, 300), CUMULATIVE: ("protobuf", 103, 300)}
SERVICE = ["process", "disk"]
PARTIES = ["gateway", *SERVICE]
EARLIER = "earlier-"
OTHER = "other-"
OVER_TLS = "-tls"
# Of the bare gateway.
RECEIVERS = ["--receivers", "4"]
# Of each sender, so that what a run begins with does not count.
LEAST_POSTS = 50


class Figures:
    """Those of one run. A post's processor time in microseconds."""

    def __init__(self, seconds: float, loaded: Loaded) -> None:
        self.processor = seconds / loaded.requests * 1e6
        self.a_second = loaded.requests / loaded.seconds
        self.median, self.last = loaded.median, loaded.last
        self.failed = loaded.failed


class Databases:
    """A PostgreSQL server, with a database for each run."""

    def __init__(self) -> None:
        self.server = Database()
        self.server.start()
        self.server.wait_ready()
        self.count = 0

    def fresh(self) -> str:
        """The address of one that has nothing yet."""
        self.count += 1
        self.server.run("createdb", "-h", self.server.folder, "-U", "postgres", f"run{self.count}")
        return f"postgres://postgres@/run{self.count}?host={self.server.folder}"

    def close(self) -> None:
        self.server.close()


def measured(port: int, pids: list[int], clients: int, posts: Posts, requests: int, period: float) -> Figures:
    """The figures of a load on these processes."""
    senders = Senders(port, clients, posts)
    senders.make_series()
    before = sum(map(processor_seconds, pids))
    loaded = senders.load(rounded(requests, clients), period)
    return Figures(sum(map(processor_seconds, pids)) - before, loaded)


def certificate(folder: str) -> list[str]:
    """The options by which a service has a certificate, which is made where there is none."""
    certificate, key = f"{folder}/bench.pem", f"{folder}/bench.key"
    if not os.path.exists(certificate):
        subprocess.run(["openssl", "req", "-x509", "-newkey", "ec", "-pkeyopt", "ec_paramgen_curve:prime256v1", "-nodes", "-keyout", key,
                        "-out", certificate, "-subj", "/CN=bench", "-addext", "subjectAltName=DNS:localhost"],
                       check=True, capture_output=True)
    return ["--tls-cert", certificate, "--tls-key", key]


def run(party: str, arguments: argparse.Namespace, row: str, clients: int, requests: int, period: float) -> Figures:
    """The figures of one run."""
    encoding, points, _ = ROWS[row]
    connections = arguments.connections
    with contextlib.ExitStack() as stack:
        if party == "gateway":
            words = [arguments.gateway, "serve", "--connections", "1000000", *RECEIVERS]
            port, gateway = stack.enter_context(bare(words, environment("tcmalloc")))
            pids, encoding, connections = [gateway.pid], "json", "each"
        else:
            grpc = free_port()
            durability = party.removeprefix(EARLIER).removeprefix(OTHER).removesuffix(OVER_TLS)
            words = ["--durability", durability, "--listen-grpc", f"127.0.0.1:{grpc}"]
            if party.endswith(OVER_TLS):
                words += certificate(arguments.data)
                connections += OVER_TLS
            its = arguments
            if party.startswith(OTHER):
                its = argparse.Namespace(**vars(arguments) | {"totxegun": arguments.other, "is_other": True})
            sink = arguments.databases and arguments.databases.fresh()
            one = stack.enter_context(serving(its, *words, sink=sink, is_earlier=party.startswith(EARLIER)))
            port, pids = grpc if encoding == "grpc" else one.listen, processes(one)
        kind = "cumulative-sum" if row == CUMULATIVE else "sum"
        posts = Posts(kind, points, arguments.series, encoding, connections)
        return measured(port, pids, clients, posts, requests, period)


def print_row(arguments: argparse.Namespace, row: str, clients: int) -> None:
    """Runs the parties in turn, and prints a line for each."""
    runs: dict[str, list[Figures]] = {party: [] for party in arguments.parties}
    requests = {party: int(ROWS[row][2] * arguments.seconds) for party in arguments.parties}
    periods: dict[str, float] = dict.fromkeys(arguments.parties, 0)
    for number in range(arguments.runs + 1):  # The first one finds how many requests take the time.
        for party in arguments.parties:
            count = requests[party] if number else requests[party] // 4
            figures = run(party, arguments, row, clients, max(count, LEAST_POSTS * clients), periods[party])
            if number:
                runs[party].append(figures)
            else:
                a_second = figures.a_second * arguments.share
                requests[party] = int(a_second * arguments.seconds)
                periods[party] = clients / a_second if arguments.share < 1 else 0
    print(f"\n{row}, {clients} senders", flush=True)
    for party, all_of_it in runs.items():
        print_party(party, all_of_it)
        for other in ("gateway", EARLIER + party, OTHER + party, party.removesuffix(OVER_TLS)):
            if party not in ("gateway", other) and other in runs and not party.startswith((EARLIER, OTHER)):
                print_ratios(other, runs[other], all_of_it)


def print_party(party: str, runs: list[Figures]) -> None:
    def of(name: str, form: str) -> str:
        return spread([getattr(it, name) for it in runs], form)
    failed = sum(it.failed for it in runs)
    print(f"  {party}: us a post {of('processor', '.1f')}; posts/s {of('a_second', ',.0f')}; us of a post: median"
          f" {of('median', ',.0f')}, 99th {of('last', ',.0f')}" + (f"; {failed} FAILED" if failed else ""), flush=True)


def print_ratios(name: str, others: list[Figures], runs: list[Figures]) -> None:
    pairs = list(zip(others, runs))
    processor = [its.processor / ours.processor for ours, its in pairs]
    a_second = [its.a_second / ours.a_second for ours, its in pairs]
    median = [(its.median - ours.median) / 1e3 for ours, its in pairs]
    last = [(its.last - ours.last) / 1e3 for ours, its in pairs]
    print(f"    to {name}: processor time {spread(processor, '.2f')}, posts/s {spread(a_second, '.2f')}; ms more: median"
          f" {spread(median, '.2f')}, 99th {spread(last, '.2f')}", flush=True)


def main() -> None:
    parser = options(__doc__.split("\n", maxsplit=1)[0])
    parser.add_argument("--other", type=path)
    parser.add_argument("--senders", type=numbers, default=[8, 64])
    parser.add_argument("--series", type=int, default=800)
    parser.add_argument("--rows", type=lambda text: text.split(","), default=[row for row in ROWS if row != CUMULATIVE])
    parser.add_argument("--parties", type=lambda text: text.split(","), default=PARTIES)
    parser.add_argument("--connections", choices=("kept", "each"), default="kept")
    parser.add_argument("--runs", type=int, default=5)
    parser.add_argument("--seconds", type=float, default=1)
    parser.add_argument("--share", type=float, default=1)
    parser.add_argument("--sink", choices=("sqlite", "postgres"), default="sqlite")
    arguments = parser.parse_args()
    if arguments.earlier:
        arguments.parties += [EARLIER + party for party in arguments.parties if party in SERVICE]
    if arguments.other:
        arguments.parties += [OTHER + party for party in arguments.parties if not party.startswith(("gateway", EARLIER))]
    loading.build()
    os.makedirs(arguments.data, exist_ok=True)
    print(f"{arguments.totxegun}, {arguments.gateway}, {len(os.sched_getaffinity(0))} processors, {arguments.runs} runs in turn, the"
          f" folder on {file_system(arguments.data)}; the bare gateway has {' '.join(RECEIVERS)}, and {shown(environment('tcmalloc'))}",
          flush=True)
    with contextlib.ExitStack() as stack:
        arguments.databases = None
        if arguments.sink == "postgres":
            arguments.databases = stack.enter_context(contextlib.closing(Databases()))
        for row in arguments.rows:
            for clients in arguments.senders:
                print_row(arguments, row, clients)


if __name__ == "__main__":
    main()
