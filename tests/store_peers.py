#!/usr/bin/env python3
"""Instances beside each other over one store, and what they do where one of them is in trouble.

    tests/store_peers.py PROGRAM

They speak TLS with each other, and let nobody else in; a start waits for the store; without it posts are turned away at
once; a shard that one can't open goes to another; what `--integer-unit auto` has decided stays where the shard goes; the sink is the
one that the store knows; one whose clock is wrong has no shards; of two processes of one name the later one ends; a server that
asks for no standby any more is seen. Left out without PostgreSQL, openssl or gcc.

Each line is a check; the last line counts passes and failures. The status is 0 if none failed.
"""
import http.client
import json
import os
import shutil
import signal
import subprocess
import sys
import tempfile
import time
from typing import Any

ROOT = os.path.dirname(os.path.dirname(os.path.abspath(__file__)))
sys.path.insert(1, f"{ROOT}/demo")

from clock_jumps import Clock  # noqa: E402
from testing.checks import Checks  # noqa: E402
from testing.loopback import free_port  # noqa: E402
from testing.database import initdb  # noqa: E402
from testing.servers import Pair, Server  # noqa: E402
from testing.service import DELTA, JSON, OtlpSink, Service, wait_until  # noqa: E402
from testing.shards import IN_THE_END, come_to_rest, places  # noqa: E402

SHARDS = 8
SECOND = 1_000_000_000
# The status and the text of an answer, or (None, "").
Said = tuple[int | None, str]


class Store:
    """One server, which is said to be enough."""

    def __init__(self) -> None:
        self.server = Server()
        self.server.make()
        self.server.start()
        self.address = f"postgres://postgres@127.0.0.1:{self.server.port}/postgres"

    def ask(self, query: str) -> str | None:
        return self.server.ask(query)

    def term(self, shard: int) -> int:
        return int(self.ask(f"select term from totxegun_store.shard where shard = {shard}"))

    def owners(self) -> list[str]:
        return (self.ask("select string_agg(owner, ',' order by shard) from totxegun_store.shard") or "").split(",")


class Instance(Service):
    """One over the store, under a name."""

    def __init__(self, program: str, folder: str, name: str, store: Store, sink: str, *words: str) -> None:
        self.name, self.peer = name, f"localhost:{free_port()}"
        super().__init__(program, f"{folder}/{name}", sink, "--store", store.address, "--store-copies", "1", "--instance", name,
                         "--peer", self.peer, "--flush-interval", "1s", *words)

    def post(self, resource: str, value: int | float, name: str = "a", unit: str = "1", sender: str = "s") -> Said:
        """The status and the text of an answer, or None."""
        return post(self.listen, request(resource, value, name, unit), sender)

    def posted(self, body: str) -> Said:
        """The same once somebody has its shard."""
        said: list[Said] = []

        def is_heard() -> bool:
            said.append(post(self.listen, body))
            return said[-1][0] != 503

        wait_until(is_heard, IN_THE_END)
        return said[-1]

    def shards(self) -> list[int]:
        answer = self.asked("GET", "/status")
        return [shard["shard"] for shard in json.loads(answer[1])["shards"]] if answer and answer[0] == 200 else []


LAST: dict[tuple[str, str], int] = {}


def request(resource: str, value: int | float, name: str = "a", unit: str = "1") -> str:
    """A point that goes on where the last one of this series ended."""
    key = (resource, name)
    start = LAST.get(key, int(time.time()) * SECOND - 100 * SECOND)
    LAST[key] = start + SECOND // 100
    point: dict[str, Any] = {"startTimeUnixNano": str(start), "timeUnixNano": str(LAST[key])}
    if isinstance(value, float):
        point["asDouble"] = value
    else:
        point["asInt"] = str(value)
    metric = {"name": name, "unit": unit, "sum": {"aggregationTemporality": DELTA, "isMonotonic": True, "dataPoints": [point]}}
    attributes = [{"key": "service.instance.id", "value": {"stringValue": resource}}]
    return json.dumps({"resourceMetrics": [{"resource": {"attributes": attributes}, "scopeMetrics": [{"metrics": [metric]}]}]})


def post(port: int, body: str, sender: str = "s") -> Said:
    connection = http.client.HTTPConnection("127.0.0.1", port, timeout=60)
    try:
        connection.request("POST", "/v1/metrics", body, {"Content-Type": JSON, "x-sender": sender})
        answer = connection.getresponse()
        return answer.status, answer.read().decode()
    except OSError:
        return None, ""
    finally:
        connection.close()


def openssl(folder: str, line: str) -> None:
    subprocess.run(["openssl", *line.split()], cwd=folder, check=True, capture_output=True)


def certificates(folder: str) -> None:
    """`ca` with `a` and `b` of it for localhost, and `x` of `strange`."""
    new = "-x509 -newkey ec -pkeyopt ec_paramgen_curve:prime256v1 -nodes -days 2"
    for name in ("ca", "strange"):
        openssl(folder, f"req {new} -keyout {name}.key -out {name}.pem -subj /CN={name}")
    for name, by in (("a", "ca"), ("b", "ca"), ("x", "strange")):
        openssl(folder, f"req {new} -keyout {name}.key -out {name}.pem -subj /CN={name} -CA {by}.pem -CAkey {by}.key"
                        " -addext basicConstraints=CA:FALSE -addext subjectAltName=DNS:localhost")


def of_tls(folder: str, name: str, by: str = "ca") -> list[str]:
    return ["--peer-ca", f"{folder}/{by}.pem", "--peer-cert", f"{folder}/{name}.pem", "--peer-key", f"{folder}/{name}.key"]


def settled(store: Store, *names: str) -> bool:
    """Each shard is at its place among these."""
    return come_to_rest(store.server, SHARDS, names)


def ended(checks: Checks, what: str, *instances: Instance) -> None:
    for one in instances:
        checks.same(f"{what}: {one.name} ends", 0, one.end()[0])


def try_refused(checks: Checks, program: str, folder: str, store: Store, sink: OtlpSink) -> None:
    """Starts that end at once, each with what to do."""
    words = ["serve", "--data", f"{folder}/r", "--store", store.address, "--store-copies", "1", "--instance", "r", "--listen",
             f"127.0.0.1:{free_port()}", "--listen-grpc", "off", "--admin", f"127.0.0.1:{free_port()}", "--sink", sink.address]
    port = free_port()
    wrong = store.address.rpartition("/")[0] + "/nowhere"
    for what, line, status, part in (
            ("a peer's address beyond loopback", [*words, "--peer", f"0.0.0.0:{port}"], 2, "--peer-ca"),
            ("TLS for an IP address", [*words, "--peer", f"127.0.0.1:{port}", *of_tls(folder, "a")], 1, "no IP address"),
            ("a certificate of a root that others do not know",
             [*words, "--peer", f"localhost:{port}", *of_tls(folder, "x")], 1, "--peer-ca can't be used"),
            ("a database that is not there", [*words, "--peer", f"127.0.0.1:{port}", "--store", wrong], 1, "3D000"),
            ("a store that was not made", [*words, "--peer", f"127.0.0.1:{port}"], 1, "store init")):
        if what.startswith("a database"):
            line[line.index("--store") + 1] = wrong
            line = line[:-2]
        done = subprocess.run([program, *line], capture_output=True, text=True, check=False, timeout=60)
        text = done.stdout + done.stderr
        checks.true(f"{what} is refused by name", done.returncode == status and part in text, f"{done.returncode}: {text}")


def try_tls(checks: Checks, program: str, folder: str, store: Store, sink: OtlpSink) -> None:
    """Two talk; a third with a stranger's certificate, and who speaks plainly, are told nothing."""
    one, other = (Instance(program, folder, name, store, sink.address, *of_tls(folder, name)) for name in "ab")
    for instance in (one, other):
        instance.start()
    checks.true("two over TLS have their shards", settled(store, "a", "b"), [one.last_lines(), other.last_lines()])
    resources = [f"r{number}" for number in range(40)]
    answers = [instance.posted(request(resource, 1)) for resource in resources for instance in (one, other)]
    checks.same("posts are brought over TLS", {200}, {status for status, _ in answers})
    secret = store.ask("select secret from totxegun_store.cluster")
    for what, line in (("a stranger's certificate", ["--cacert", "ca.pem", "--cert", "x.pem", "--key", "x.key"]),
                       ("none", ["--cacert", "ca.pem"])):
        done = subprocess.run(["curl", "-sS", *line, "-H", f"totxegun-secret: {secret}", "-d", "{}",
                               f"https://{other.peer}/internal/post"], cwd=folder, capture_output=True, text=True, check=False)
        checks.true(f"with the secret, but {what}, nobody is let in", done.returncode != 0, done.stdout)
    for what, head, wanted in (("the secret", secret, "400"), ("another", "another", "401")):
        done = subprocess.run(["curl", "-sS", "-o", "/dev/null", "-w", "%{http_code}", "--cacert", "ca.pem", "--cert", "a.pem",
                               "--key", "a.key", "-H", f"totxegun-secret: {head}", "-d", "{}",
                               f"https://{other.peer}/internal/post"], cwd=folder, capture_output=True, text=True, check=False)
        checks.same(f"with a certificate and {what}", wanted, done.stdout)
    ended(checks, "over TLS", one, other)


def try_no_store(checks: Checks, program: str, folder: str, store: Store, sink: OtlpSink) -> None:
    """A start waits for the store, and a running instance says no at once."""
    store.server.kill()
    one = Instance(program, folder, "a", store, sink.address)
    one.start()
    asked = wait_until(lambda: one.asked("GET", "/healthz") and one.asked("GET", "/healthz")[0] == 200)
    checks.true("it starts without the store, and is well", asked, one.last_lines())
    checks.same("it is not ready", 503, one.asked("GET", "/readyz")[0])
    status, text = one.post("r0", 1)
    checks.true("posts are turned away", status == 503 and "the store does not answer" in text, (status, text))
    checks.true("the log says so", "can't be used yet, retrying" in one.last_lines(50), one.last_lines())
    store.server.start()
    checks.true("it goes on once the store is there", one.wait_ready() and settled(store, "a"), one.last_lines())
    checks.true("posts are taken", wait_until(lambda: one.post("r0", 1)[0] == 200), one.last_lines())
    for pid in [store.server.process.pid, *store.server.kinds("")]:
        os.kill(pid, signal.SIGSTOP)
    checks.true("a store that stands still is seen", wait_until(lambda: one.post("r0", 1)[0] == 503, IN_THE_END), one.last_lines())
    begun = time.monotonic()
    answers = [one.post(f"r{number}", 1) for number in range(10)]
    took = time.monotonic() - begun
    checks.same("at the door", {503}, {status for status, _ in answers})
    checks.true("at once", took < 10, f"10 posts in {took:.1f} s")
    for pid in [store.server.process.pid, *store.server.kinds("")]:
        os.kill(pid, signal.SIGCONT)
    checks.true("all goes on", wait_until(lambda: one.post("r1", 1)[0] == 200), one.last_lines())
    ended(checks, "after the store was away", one)


def refusing(instance: Instance, shard: int) -> set[str]:
    """Those that an instance's status says can't open a shard."""
    status = instance.status() or {"cluster": {"instances": []}}
    words = f"it can't open shard {shard}:"
    return {one["name"] for one in status["cluster"]["instances"] if (one["trouble"] or "").startswith(words)}


def try_broken_shard(checks: Checks, program: str, folder: str, store: Store, sink: OtlpSink) -> None:
    """The book of one instance has no room for what a shard has."""
    one = Instance(program, folder, "a", store, sink.address)
    one.start()
    checks.true("one has all", settled(store, "a") and one.wait_ready(), one.last_lines())
    checks.true("posts are taken", wait_until(lambda: one.post("r2", 1)[0] == 200), one.last_lines())
    shard = max(one.shards(), key=lambda shard: int(store.ask(
        f"select coalesce(sum(length), 0) from totxegun_store.piece where shard = {shard}")))
    ended(checks, "before a shard is broken", one)
    of_shard = f"totxegun_store.piece where shard = {shard}"
    for what, broken in (("a byte is another", f"update totxegun_store.piece set length = octet_length(bytes) where shard = {shard};"
                          " update totxegun_store.piece set bytes = set_byte(bytes, 0, 255 - get_byte(bytes, 0))"
                          f" where shard = {shard}"),
                         ("a row is gone", f"delete from {of_shard} and number = (select min(number) from {of_shard})")):
        saved = store.ask("select string_agg(format('(%s,%s,%s,%s,%s,%L)', shard, file, number, place, length, bytes), ',') "
                          f"from {of_shard}")
        store.ask(broken)
        one, other = (Instance(program, folder, name, store, sink.address) for name in "ab")
        nobody_opens(checks, what, store, shard, one, other)
        store.ask(f"delete from {of_shard};"
                  f" insert into totxegun_store.piece (shard, file, number, place, length, bytes) values {saved}")
        serve_again(checks, what, store, one, other)


def nobody_opens(checks: Checks, what: str, store: Store, shard: int, one: Instance, other: Instance) -> None:
    """All but this shard are served, and why is shown."""
    for instance in (one, other):
        instance.start()
    refused = "select count(*) from totxegun_store.instance where told like '%" + f'"{shard}":' + "%'"
    checks.true(f"{what}: both refuse a shard that nobody can open", wait_until(lambda: store.ask(refused) == "2", IN_THE_END),
                [store.ask("select * from totxegun_store.instance"), one.last_lines(), other.last_lines()])
    checks.true(f"{what}: the others are served", wait_until(lambda: store.owners().count("") == 1
                                                             and {"a", "b"} <= set(store.owners()), IN_THE_END), store.owners())

    def shows(instance: Instance) -> bool:
        return wait_until(lambda: refusing(instance, shard) == {"a", "b"}, IN_THE_END)

    for instance in (one, other):
        checks.true(f"{what}: {instance.name} shows that both can't open it", shows(instance), instance.status())
    term, begun = store.term(shard), time.monotonic()
    time.sleep(5)
    most = 3 + (time.monotonic() - begun) / 5
    checks.true(f"{what}: it is not thrown to and fro", store.term(shard) - term <= most, (term, store.term(shard)))
    checks.true(f"{what}: both go on", one.is_running() and other.is_running(), [one.last_lines(), other.last_lines()])


def serve_again(checks: Checks, what: str, store: Store, one: Instance, other: Instance) -> None:
    checks.true(f"{what}: once it is mended it is opened", wait_until(lambda: "" not in store.owners(), IN_THE_END), store.owners())
    checks.true(f"{what}: and serves", wait_until(lambda: one.post("r2", 1)[0] == 200, IN_THE_END), one.last_lines())
    ended(checks, f"{what}, and mended", one, other)


def series(instance: Instance) -> dict[int, int]:
    """Of each shard how many series it has, once all say so."""
    said: list[dict[int, int]] = []

    def is_whole() -> bool:
        shards = (instance.status() or {"shards": []})["shards"]
        said.append({shard["shard"]: shard["series"] for shard in shards if "unknown" not in shard})
        return len(said[-1]) == SHARDS

    wait_until(is_whole, IN_THE_END)
    return said[-1]


def shard_of(instance: Instance, resource: str) -> int:
    """The shard that a new resource is in: it has one series more."""
    before = series(instance)
    found: list[int] = []
    instance.posted(request(resource, 1, "probe"))

    def is_seen() -> bool:
        now = series(instance)
        found[:] = [shard for shard in now if now[shard] > before.get(shard, now[shard])]
        return len(found) == 1

    wait_until(is_seen, IN_THE_END)
    return found[0]


def try_units(checks: Checks, program: str, folder: str, store: Store, sink: OtlpSink) -> None:
    """What was decided at one instance is so at the next: else its series would be another, and a repeat would count twice."""
    one, other = (Instance(program, folder, name, store, sink.address) for name in "ab")
    for instance in (one, other):
        instance.start()
    checks.true("two have their shards", settled(store, "a", "b"), [one.last_lines(), other.last_lines()])
    resources = [f"resource-{number:02}" for number in range(12)]
    of_shards = places(range(SHARDS), "ab")
    homes = {of_shards[shard_of(one, resource)]: resource for resource in resources}
    checks.same("each has a resource", {"a", "b"}, set(homes))
    # The one that takes over has taken the name in whole seconds, in a shard of its own.
    checks.same("whole numbers come first at the one", 200, other.posted(request(homes["b"], 7, "whole", "s"))[0])
    body = request(homes["a"], 0.25, "whole", "s")
    status, text = one.posted(body)
    checks.true("and doubles at the other", status == 200 and "rejected" not in text, (status, text))
    one.kill()
    checks.true("it takes over", settled(store, "b") and wait_until(other.is_ready), other.last_lines())
    status, text = other.posted(body)
    checks.same("the repeat is known", (200, "{}"), (status, text))
    ended(checks, "units", other)


def try_sink(checks: Checks, program: str, folder: str, store: Store, sink: OtlpSink) -> None:
    """The store remembers the sink, and another is taken while nobody else runs."""
    second = OtlpSink(2)
    one, other = (Instance(program, folder, name, store, sink.address) for name in "ab")
    try:
        one.start()
        checks.true("one has all", settled(store, "a") and one.wait_ready(), one.last_lines())
        for words, part in (((), "--new-sink"), (("--new-sink",), "runs: stop ")):
            wrong = Instance(program, folder, "b", store, second.address, *words)
            wrong.start()
            checks.true("another sink is refused by name", wait_until(lambda: not wrong.is_running(), 90)
                        and part in wrong.last_lines(20), wrong.last_lines())
        ended(checks, "with the former sink", one)
        new = Instance(program, folder, "b", store, second.address, "--new-sink")
        new.start()
        checks.true("it is taken while nobody runs", settled(store, "b") and new.wait_ready(), new.last_lines())
        other.start()
        checks.true("the former one is refused from then on", wait_until(lambda: not other.is_running(), 90),
                    other.last_lines())
        ended(checks, "with the new sink", new)
    finally:
        second.close()


def try_clock(checks: Checks, program: str, folder: str, store: Store, sink: OtlpSink) -> None:
    """Of two one's clock is set ahead by more than a tenth of --max-ahead, and right again."""
    os.mkdir(f"{folder}/clock")
    clock = Clock(f"{folder}/clock")
    one, other = (Instance(program, folder, name, store, sink.address, "--max-ahead", "100s") for name in "ab")
    one.start()
    other.start(clock.environment())
    checks.true("two have their shards", settled(store, "a", "b"), [one.last_lines(), other.last_lines()])
    clock.set(23 * SECOND // 2)
    checks.true("one whose clock is wrong hands all over", settled(store, "a"), [store.owners(), other.last_lines()])
    ready = other.asked("GET", "/readyz")
    checks.true("it is not ready, and says why", ready[0] == 503 and b"the clock of this instance is wrong" in ready[1], ready)
    wrong = "this instance's clock is 11 s ahead of those of the others and the store"
    checks.true("the log says by how much", wrong in other.last_lines(50), other.last_lines())
    trouble = {one["name"]: one["trouble"] or "" for one in (other.status() or {"cluster": {"instances": []}})["cluster"]["instances"]}
    checks.true("so does the status", trouble.get("b", "").startswith(wrong) and not trouble.get("a"), trouble)
    page = other.asked("GET", "/metrics")[1]
    checks.true("and a metric", any(line.startswith(b"totxegun_clock_off_seconds 1") for line in page.splitlines()), page[-500:])
    answers = [other.posted(request(f"r{number}", 1)) for number in range(20)]
    checks.same("what is posted there is brought to the other, which takes it", {(200, "{}")}, set(answers))
    clock.set(0)
    checks.true("it has shards again once its clock is right", settled(store, "a", "b") and other.wait_ready(), other.last_lines())
    ended(checks, "clocks", one, other)


def try_namesake(checks: Checks, program: str, folder: str, store: Store, sink: OtlpSink) -> None:
    """A second process is started under the name of one that runs, on another machine."""
    one = Instance(program, folder, "a", store, sink.address)
    one.start()
    checks.true("one has all", settled(store, "a") and one.wait_ready(), one.last_lines())
    terms = store.ask("select sum(term) from totxegun_store.shard")
    os.mkdir(f"{folder}/other")
    later = Instance(program, f"{folder}/other", "a", store, sink.address)
    later.start()
    checks.true("the later one ends", wait_until(lambda: not later.is_running(), IN_THE_END), later.last_lines())
    checks.true("by a status, and a line", later.process.returncode == 2 and "already uses the name a" in later.last_lines(),
                [later.process.returncode, later.last_lines()])
    checks.same("no shard was taken", terms, store.ask("select sum(term) from totxegun_store.shard"))
    checks.true("the other goes on", one.is_ready() and one.posted(request("r3", 1))[0] == 200, one.last_lines())
    one.kill()
    one.start()
    checks.true("one that starts again after a kill is no later one", settled(store, "a") and one.wait_ready(), one.last_lines())
    time.sleep(3)
    ended(checks, "after a namesake", one)


def try_copies(checks: Checks, program: str, folder: str, _: Store, sink: OtlpSink) -> None:
    """Its server asks for no standby any more while it runs."""
    pair = Pair()
    try:
        subprocess.run([program, "store", "init", pair.address, "--shards", "4"], check=True, capture_output=True)
        pair.make_standby()
        one = Service(program, f"{folder}/copies", sink.address, "--store", pair.address, "--instance", "a", "--peer",
                      f"localhost:{free_port()}")
        one.start()
        serves = one.wait_ready() and wait_until(lambda: post(one.listen, request("r1", 1))[0] == 200)
        checks.true("an instance over two servers", serves, one.last_lines())
        pair.primary.ask("alter system set synchronous_standby_names = ''")
        pair.primary.ask("select pg_reload_conf()")
        begun = time.monotonic()
        checks.true("that no standby is named is seen", wait_until(lambda: one.asked("GET", "/readyz")[0] == 503, 10), one.last_lines())
        took = time.monotonic() - begun
        checks.true("within a second", took < 1, took)
        status, text = post(one.listen, request("r1", 1))
        checks.true("posts are turned away", status == 503 and "the store has too few copies" in text, (status, text))
        database = (one.status() or {"cluster": {}})["cluster"].get("database", {})
        checks.true("the status says so", database.get("copies") == 1 and "synchronous_standby_names" in (database["why"] or ""), database)
        checks.true("and the log", "ERROR the store has too few copies" in one.last_lines(50), one.last_lines())
        pair.primary.ask("alter system reset synchronous_standby_names")
        pair.primary.ask("select pg_reload_conf()")
        goes_on = wait_until(lambda: post(one.listen, request("r1", 1))[0] == 200)
        checks.true("all goes on once one is", goes_on and one.is_ready(), one.last_lines())
        checks.same("it ends", 0, one.end()[0])
    finally:
        pair.close()


def main(words: list[str]) -> int:
    if len(words) != 1:
        sys.exit(__doc__.split("\n\n")[1].strip())
    program = os.path.abspath(words[0])
    checks = Checks()
    needed = (("postgresql", initdb()), ("openssl", shutil.which("openssl")), ("gcc", shutil.which("gcc")))
    missing = [name for name, there in needed if not there]
    if not checks.has("a store", *missing):
        return checks.end()
    store, sink = Store(), OtlpSink(1)
    with tempfile.TemporaryDirectory() as folder:
        try:
            certificates(folder)
            try_refused(checks, program, folder, store, sink)
            done = subprocess.run([program, "store", "init", store.address, "--shards", str(SHARDS)], check=False)
            checks.same("a store is made", 0, done.returncode)
            for part in (try_tls, try_no_store, try_broken_shard, try_units, try_clock, try_namesake, try_copies, try_sink):
                part(checks, program, folder, store, sink)
        finally:
            sink.close()
            store.server.close()
    return checks.end()


if __name__ == "__main__":
    sys.exit(main(sys.argv[1:]))
