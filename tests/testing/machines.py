"""Machines of a test: network namespaces joined by a router, which is the network namespace of this process. A test can
have the router drop packets, also in one direction only."""
import contextlib
import os
import shutil
import signal
import subprocess
import threading
from collections import Counter
from collections.abc import Iterator

import own_network

# The network of machine N is 10.77.N.0/24: the machine has .2 and the router .1. This process has an address that is on no link.
NETWORK = "10.77"
OWN = f"{NETWORK}.0.1"
# A virtual address, which the router sends to one machine at a time.
LED = f"{NETWORK}.250.1"
# Priorities of routing rules. The rules that drop packets come before the rule that finds the router's own addresses.
CUT, LOCAL = 10, 1000
# A source address and a destination address.
Way = tuple[str, str]


def ip(*words: object) -> None:
    done = subprocess.run(["ip", *map(str, words)], check=False, capture_output=True, text=True, timeout=20)
    if done.returncode:
        raise OSError(f"ip {' '.join(map(str, words))}: {done.stderr.strip()}")


def on(name: str, *words: str) -> list[str]:
    """The command line that runs a command in a namespace."""
    return ["ip", "netns", "exec", name, *words]


def may_have_machines() -> bool:
    name = f"totxegun-{os.getpid()}-try"
    made = shutil.which("ip") and subprocess.run(["ip", "netns", "add", name], capture_output=True, check=False).returncode == 0
    return bool(made) and subprocess.run(["ip", "netns", "del", name], check=False).returncode == 0


class Machine:
    """A network namespace with an address and all ports of its own."""

    def __init__(self, stack: contextlib.ExitStack, name: str, number: int) -> None:
        self.stack, self.name, self.namespace = stack, name, f"totxegun-{os.getpid()}-{name}"
        self.address = f"{NETWORK}.{number}.2"
        link, router = f"m{number}", f"{NETWORK}.{number}.1"
        ip("netns", "add", self.namespace)
        stack.callback(ip, "netns", "del", self.namespace)
        stack.callback(self.kill)
        ip("link", "add", link, "type", "veth", "peer", "name", "eth0", "netns", self.namespace)
        ip("addr", "add", f"{router}/24", "dev", link)
        ip("link", "set", link, "up")
        ip("-n", self.namespace, "addr", "add", f"{self.address}/24", "dev", "eth0")
        for it in ("lo", "eth0"):
            ip("-n", self.namespace, "link", "set", it, "up")
        ip("-n", self.namespace, "route", "add", "default", "via", router)

    def on(self, *words: str) -> list[str]:
        return on(self.namespace, *words)

    def has_hosts(self, text: str) -> None:
        """What runs there from now on finds this at /etc/hosts."""
        folder = f"/etc/netns/{self.namespace}"
        os.makedirs(folder)
        self.stack.callback(shutil.rmtree, folder, ignore_errors=True)
        with open(f"{folder}/hosts", "w", encoding="ascii") as file:
            file.write(text)

    def be_led_to(self) -> None:
        """From now on the router sends packets for LED to this machine."""
        ip("-n", self.namespace, "addr", "replace", f"{LED}/32", "dev", "lo")
        ip("route", "replace", f"{LED}/32", "via", self.address)

    def processes(self) -> list[int]:
        found = subprocess.run(["ip", "netns", "pids", self.namespace], capture_output=True, text=True, check=False, timeout=20)
        return [int(pid) for pid in found.stdout.split()]

    def kill(self) -> None:
        """Kills all processes in the namespace with SIGKILL."""
        for pid in self.processes():
            with contextlib.suppress(ProcessLookupError):
                os.kill(pid, signal.SIGKILL)


class Router:
    """Forwards packets among machines and to this process, unless a test cuts the way."""

    def __init__(self, stack: contextlib.ExitStack) -> None:
        own_network.enter()
        self.stack = stack
        self.machines: list[Machine] = []
        self.lock = threading.Lock()
        self.lost: Counter[Way] = Counter()
        ip("addr", "add", f"{OWN}/32", "dev", "lo")
        with open("/proc/sys/net/ipv4/ip_forward", "w", encoding="ascii") as file:
            file.write("1")
        ip("rule", "add", "pref", LOCAL, "lookup", "local")
        ip("rule", "del", "pref", 0)

    def machine(self, name: str) -> Machine:
        self.machines.append(Machine(self.stack, name, len(self.machines) + 1))
        return self.machines[-1]

    @contextlib.contextmanager
    def cut(self, *ways: Way) -> Iterator[None]:
        """Drops all packets of these ways while the context lasts. If two contexts cut the same way, it stays cut until both have ended."""
        with contextlib.ExitStack() as ends:
            for way in ways:
                self.lose(way, 1)
                ends.callback(self.lose, way, -1)
            yield

    def lose(self, way: Way, more: int) -> None:
        """Counts cuts by way, since the kernel refuses a second rule with the same selector."""
        with self.lock:
            before, after = self.lost[way], self.lost[way] + more
            if bool(before) != bool(after):
                ip("rule", "add" if after else "del", "pref", CUT, "from", way[0], "to", way[1], *["blackhole"] * bool(after))
            self.lost[way] = after


def both_ways(one: Machine, *others: Machine) -> list[Way]:
    return [way for other in others for way in ((one.address, other.address), (other.address, one.address))]
