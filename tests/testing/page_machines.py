"""Three machines and a balancer's that are set up by the letter of docs/SEVERAL_MACHINES.md: what it has people write and type, with a
test's addresses, folders and password in the place of its own."""
import contextlib
import json
import os
import re
import shlex
import shutil
import subprocess
import time
from collections.abc import Sequence

import yaml

from testing import ROOT
from testing.database import NOBODY
from testing.machines import NETWORK, Machine
from testing.servers import LIMIT, as_nobody
from testing.service import ask, wait_until

ETCD, PATRONI, POSTGRES = 2379, 8008, 5432
NAMES = "abc"
PASSWORD = "secret"
# Until all have what the page says that they have, from nothing.
WHOLE_WITHIN = 300


def blocks() -> list[str]:
    with open(f"{ROOT}/docs/SEVERAL_MACHINES.md", encoding="utf-8") as file:
        return re.findall(r"^```\w*\n(.*?)^```", file.read(), re.MULTILINE | re.DOTALL)


def block(part: str) -> str:
    """The only one with this part."""
    found = [text for text in blocks() if part in text]
    if len(found) != 1:
        raise ValueError(f"the page has {len(found)} blocks with {part!r}")
    return found[0]


def of_machine(text: str, name: str, machines: Sequence[Machine]) -> str:
    """What the page writes for machine `a`, for another one: that one and `a` change places, whatever is said of them. This process,
    which is the router, stands for Prometheus."""
    place = {"a": name, name: "a"}
    named = re.sub(r"(?<![\w.-])([abc])(?=[.=\s]|$)", lambda found: place.get(found[1], found[1]), text)
    by_name = {one.name: one.address for one in machines}
    addresses = {f"10.0.0.2{number}": by_name[place.get(one, one)] for number, one in enumerate(NAMES, 1)}
    prometheus = by_name[name].rpartition(".")[0] + ".1"
    addresses["10.0.0.20"] = f"{machines[len(NAMES)].address}, {prometheus}"
    named = re.sub(r"10\.0\.0\.2[0123]", lambda found: addresses[found[0]], named)
    return named.replace("10.0.0.0/24", f"{NETWORK}.0.0/16").replace('".."', f'"{PASSWORD}"').replace("'..'", f"'{PASSWORD}'")


def log_to(path: str, words: Sequence[str], environment: dict[str, str] | None = None) -> subprocess.Popen[bytes]:
    with open(path, "ab") as log:
        return subprocess.Popen(words, cwd="/", stdin=subprocess.DEVNULL, stdout=log, stderr=log,
                                env={**os.environ, **environment} if environment else None)


class Node:
    """A machine of the page's three: etcd, PostgreSQL under Patroni, and haproxy, by which it reaches the primary as `db`. Nobody else
    reaches what is for them alone."""

    def __init__(self, name: str, machines: Sequence[Machine], folder: str) -> None:
        self.name, self.machines = name, machines
        self.machine = machines[NAMES.index(name)]
        self.host, self.folder = self.machine.address, f"{folder}/{name}"
        self.etcd = dict(line.split("=", 1) for line in self.text("# /etc/default/etcd").splitlines() if "=" in line)
        self.etcd["ETCD_DATA_DIR"] = f"{self.folder}/etcd"
        self.began: list[subprocess.Popen[bytes]] = []

    def text(self, part: str) -> str:
        return of_machine(block(part), self.name, self.machines)

    def begin(self, state: str = "new") -> None:
        """As systemd has it at a start of the machine; on what its folder has, which may be nothing."""
        os.makedirs(self.folder, exist_ok=True)
        os.chown(self.folder, NOBODY, NOBODY)
        patroni = yaml.safe_load(self.text("# /etc/patroni/config.yml"))
        places = {"data_dir": f"{self.folder}/data", "pgpass": f"{self.folder}/pgpass"}
        # All machines have one disk here, and so one folder of sockets.
        settings = {"unix_socket_directories": self.folder, "shared_buffers": "32MB"}
        patroni["postgresql"].update(**places, parameters=settings)
        self.write("patroni.yml", yaml.safe_dump(patroni))
        self.write("haproxy.cfg", self.text("option httpchk OPTIONS /primary"))
        self.guard()
        etcd = {**self.etcd, "ETCD_INITIAL_CLUSTER_STATE": state}
        self.run("etcd", self.machine.on("etcd"), etcd)
        self.run("haproxy", self.machine.on("haproxy", "-db", "-f", f"{self.folder}/haproxy.cfg"))
        self.begin_patroni()

    def guard(self) -> None:
        """Its firewall is the page's, whatever it was before."""
        self.write("nftables.conf", "flush ruleset\n" + self.text("table inet totxegun"))
        subprocess.run(self.machine.on("nft", "-f", f"{self.folder}/nftables.conf"), check=True, timeout=LIMIT)

    def refuse(self, port: int) -> None:
        """Nobody reaches this port until it is guarded again."""
        rule = ("insert", "rule", "inet", "totxegun", "input", "tcp", "dport", str(port), "drop")
        subprocess.run(self.machine.on("nft", *rule), check=True, timeout=LIMIT)

    def begin_patroni(self) -> None:
        # Else what PostgreSQL's clients look for at home can't be read.
        self.run("patroni", self.machine.on(*as_nobody(), "patroni", f"{self.folder}/patroni.yml"), {"HOME": self.folder})

    def write(self, name: str, text: str) -> None:
        with open(f"{self.folder}/{name}", "w", encoding="utf-8") as file:
            file.write(text)

    def run(self, name: str, words: Sequence[str], environment: dict[str, str] | None = None) -> None:
        self.began.append(log_to(f"{self.folder}.{name}.log", words, environment))

    def be_lost(self) -> None:
        """All that runs there, and its disk."""
        self.machine.kill()
        for one in self.began:
            one.wait()
        self.began.clear()
        shutil.rmtree(self.folder, ignore_errors=True)

    def pids(self, *names: str) -> list[int]:
        """Its processes of these names."""
        found = []
        for pid in self.machine.processes():
            with contextlib.suppress(OSError), open(f"/proc/{pid}/comm", encoding="ascii") as file:
                found += [pid] if file.read().strip() in names else []
        return found

    def members(self) -> dict[str, tuple[str, str, int]]:
        """Role, state and timeline of each, as Patroni here has them."""
        status, text = ask(PATRONI, "GET", "/cluster", seconds=3, host=self.host)
        members = json.loads(text)["members"] if status == 200 else ()
        return {one["name"]: (one["role"], one["state"], one.get("timeline", 0)) for one in members}

    def last_lines(self) -> str:
        with open(f"{self.folder}.patroni.log", encoding="utf-8", errors="replace") as file:
            return "".join(file.readlines()[-10:])


def is_whole(members: dict[str, tuple[str, str, int]]) -> bool:
    """As the page says: a leader with two synchronous standbys, that go on from the same history."""
    roles = sorted(role for role, _, _ in members.values())
    histories = {timeline for _, _, timeline in members.values()}
    return roles == ["leader", "sync_standby", "sync_standby"] and len(histories) == 1 and all(
        state == "running" for _, state, _ in members.values())


class PageMachines:
    """The page's three and the balancer's, in this order, and who of them leads."""

    def __init__(self, *machines: Machine, folder: str) -> None:
        self.machines, self.folder = machines, folder
        hosts = "127.0.0.1 localhost\n" + "".join(f"{one.address} {one.name}.example\n" for one in machines)
        for one in machines:
            one.has_hosts(hosts + (shlex.split(block("/etc/hosts"))[1] + "\n") * (one.name in NAMES))
        self.nodes = [Node(name, machines, folder) for name in NAMES]
        for node in self.nodes:
            node.begin()

    def ask(self, query: str, database: str = "totxegun") -> str | None:
        """By `db`, of the first machine that has it."""
        environment = {**os.environ, "PGPASSWORD": PASSWORD, "PGCONNECT_TIMEOUT": "5", "PGOPTIONS": "-c statement_timeout=60s"}
        for node in self.nodes:
            words = node.machine.on("psql", "-h", "db", "-U", "postgres", "-XAtq", "-c", query, database)
            done = subprocess.run(words, capture_output=True, text=True, check=False, timeout=90, env=environment)
            if done.returncode == 0:
                return done.stdout.strip()
        return None

    def leader(self) -> Node:
        """The one that all say leads."""
        names = {name for node in self.nodes for name, (role, _, _) in node.members().items() if role == "leader"}
        if len(names) != 1:
            raise OSError(f"not one leads: {names}, {[node.last_lines() for node in self.nodes]}")
        return self.nodes[NAMES.index(names.pop())]

    def others(self, node: Node) -> list[Node]:
        return [one for one in self.nodes if one is not node]

    def become_whole(self) -> float:
        """Waits until it is, and says how long that took."""
        begun = time.monotonic()
        if not wait_until(lambda: all(is_whole(node.members()) for node in self.nodes), WHOLE_WITHIN):
            raise OSError(f"Patroni has no leader with two standbys: {[(node.members(), node.last_lines()) for node in self.nodes]}")
        return time.monotonic() - begun

    def close(self) -> None:
        for machine in self.machines:
            machine.kill()
