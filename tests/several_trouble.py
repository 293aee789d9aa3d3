"""Random faults of several machines: of instances, of the network, and of the two servers of a store."""
import contextlib
import random
import signal
import threading
import time
from collections.abc import Callable, Sequence
from typing import Any, Protocol

from testing.machines import OWN, Machine, Router, Way, both_ways
from testing.servers import Pair
from testing.service import Sender, wait_until

SHORT: list[float] = [0.5, 1, 2, 4]
LONG: list[float] = [1, 2, 5, 10, 20, 40, 60]
AWAY = {False: 6, True: 120}
# Seconds between two faults.
POSTS, POST_WITHIN = [0, 10, 50], 5
# Seconds after a fault in which a machine was unplugged, which takes half a minute to be noticed.
ANSWERED_WITHIN = 150
CANCEL = "select count(pg_cancel_backend(pid)) from pg_stat_activity where wait_event = 'SyncRep'"
# How long others may take to get a zombie's shards; then it goes on anyway.
TAKEN_WITHIN = 30


class OnMachine(Protocol):
    """A process on a machine of its own."""

    machine: Machine


class Instance(OnMachine, Protocol):
    """What a fault needs of an instance."""

    def begin(self, chance: random.Random) -> None: ...

    def go_on(self) -> None: ...

    def leave(self) -> None: ...

    def vanish(self, with_folder: bool) -> None: ...

    def signal(self, number: int) -> None: ...

    def end(self, seconds: float) -> tuple[int | None, float]: ...


class World(Protocol):
    """What a fault needs of all machines. The test decides which store and sink they have."""

    router: Router
    store: Any
    sink: Any

    @property
    def instances(self) -> Sequence[Instance]: ...

    @property
    def balancer(self) -> OnMachine: ...

    @property
    def senders(self) -> Sequence[Sender]: ...

    def note(self, text: str) -> None: ...

    def ask(self, query: str) -> str | None: ...


class Trouble:
    """Kinds of faults, one after another, each once before one comes again."""

    def __init__(self, world: World, seed: str, is_long: bool) -> None:
        self.world, self.is_long = world, is_long
        self.chance = random.Random(f"{type(self).__name__} {seed}")
        self.left: list[Callable[[], object]] = []
        self.done: list[str] = []
        self.fault: str | None = None
        self.silences: list[str] = []

    def kinds(self) -> list[Callable[[], object]]:
        """All kinds in a random order."""
        raise NotImplementedError

    def go_on(self, until: float) -> None:
        while time.monotonic() < until:
            if not self.left:
                self.left = self.kinds()
                self.chance.shuffle(self.left)
            kind = self.left.pop()
            self.done.append(kind.__name__)
            self.world.note(f"{kind.__name__} begins")
            kind()
            self.world.note(f"{kind.__name__} has ended")
            self.let_post(self.chance.choice(POSTS))

    def let_post(self, count: int, seconds: float = POST_WITHIN) -> bool:
        """Whether this many more posts were answered in time."""
        def posts() -> int:
            return sum(sender.posts for sender in self.world.senders)
        wanted = posts() + count

        def is_done() -> bool:
            if posts() >= wanted:
                return True
            time.sleep(0.1)
            return False

        return wait_until(is_done, seconds)

    def guarded(self, until: float) -> None:
        try:
            self.go_on(until)
        except Exception as error:  # noqa: BLE001 A thread's: who waits for it says so.
            self.fault = f"{self.done[-1:]}: {type(error).__name__} {error}"
            self.world.note(self.fault)

    def wait(self) -> None:
        time.sleep(self.chance.choice(LONG if self.is_long else SHORT))

    def cut(self, *ways: Way) -> None:
        self.world.note(f"cut {ways}")
        with self.world.router.cut(*ways):
            self.wait()


class OfMachines(Trouble):
    """Faults of instances, one or all, and of the packets from one machine to another."""

    def kinds(self) -> list[Callable[[], object]]:
        return [self.killed, self.all_killed, self.stopped, self.ended, self.zombie, self.without_servers, self.without_each_other,
                self.unreached, self.without_balancer, self.without_sink, self.one_way]

    def one(self) -> Instance:
        one = self.chance.choice(self.world.instances)
        self.world.note(f"{self.done[-1]}: {one.machine.name}")
        return one

    def servers(self) -> list[Machine]:
        return [server.machine for server in self.world.store.all]

    def killed(self) -> None:
        """The machine is lost, with its folder."""
        one = self.one()
        one.vanish(with_folder=self.chance.random() < 0.5)
        self.wait()
        one.begin(self.chance)

    def all_killed(self) -> None:
        for one in self.world.instances:
            one.vanish(with_folder=False)
        for one in self.world.instances:
            one.begin(self.chance)

    def stopped(self) -> None:
        one = self.one()
        one.signal(signal.SIGSTOP)
        self.wait()
        one.signal(signal.SIGCONT)

    def ended(self) -> None:
        """The instance hands over its shards, and is started in either version."""
        one = self.one()
        one.leave()
        status, seconds = one.end(2 * TAKEN_WITHIN)
        self.world.note(f"{one.machine.name} has ended with status {status} after {seconds:.1f} s")
        one.begin(self.chance)

    def zombie(self) -> None:
        """The instance is stopped while the answers to its requests arrive."""
        one, usual = self.one(), self.world.sink.moods
        self.world.sink.mood(["late"])
        time.sleep(1.2)
        one.signal(signal.SIGSTOP)
        self.world.sink.mood(usual)
        query = f"select count(*) from totxegun_store.shard where owner = '{one.machine.name}'"
        wait_until(lambda: self.world.ask(query) == "0", TAKEN_WITHIN)
        self.wait()
        one.signal(signal.SIGCONT)

    def without_servers(self) -> None:
        """The instance is cut off from the servers; its senders and the other instances still reach it."""
        servers = self.servers()
        self.cut(*both_ways(self.one().machine, *self.chance.choice([servers, servers[:1], servers[1:]])))

    def without_each_other(self) -> None:
        one, other = self.chance.sample(self.world.instances, 2)
        self.cut(*both_ways(one.machine, other.machine))

    def unreached(self) -> None:
        """The other instances cannot reach it; the balancer and the servers can, so it hands over its shards."""
        one = self.one()
        others = [other.machine for other in self.world.instances if other is not one]
        self.cut(*both_ways(one.machine, *others))

    def without_balancer(self) -> None:
        self.cut(*both_ways(self.one().machine, self.world.balancer.machine))

    def without_sink(self) -> None:
        self.cut((self.one().machine.address, OWN))

    def one_way(self) -> None:
        machines = [one.machine for one in self.world.instances]
        one, other = self.chance.choice(machines), self.chance.choice([*machines, self.world.balancer.machine, *self.servers()])
        ways = [(one.address, other.address), (other.address, one.address)]
        self.cut(self.chance.choice(ways))


class OfServers(Trouble):
    """Faults of the servers. After each, one accepts writes and the other is its synchronous standby."""

    def kinds(self) -> list[Callable[[], object]]:
        return [self.restarted, self.lost, self.unplugged, self.cut_off, self.cancelled, self.standby_gone, self.apart, self.away]

    def restarted(self) -> None:
        self.world.store.restart()

    def lost(self) -> None:
        """The primary is lost; its machine comes back as the standby."""
        store: Pair = self.world.store
        store.primary.kill()
        store.promote()
        self.wait()
        store.make_standby()

    def unplugged(self) -> None:
        """The primary is silent from one moment to the next and no instance notices. The other server takes over, with
        a standby on the lost machine."""
        store: Pair = self.world.store
        with self.world.router.cut(*both_ways(store.primary.machine, *(one.machine for one in self.world.instances))):
            store.primary.kill()
            store.promote()
            store.make_standby()
            if not self.let_post(1 + len(self.world.senders), ANSWERED_WITHIN):
                self.silences.append(f"no posts were answered {ANSWERED_WITHIN} s after a server was unplugged")

    def cancelled(self) -> None:
        """The standby is away, and waiting sessions are told that their commits are done. Then the primary is lost with these commits."""
        store: Pair = self.world.store
        with self.world.router.cut(*both_ways(store.primary.machine, store.standby.machine)):
            self.wait()
            for _ in range(3):
                store.ask(CANCEL)
                self.wait()
            store.primary.kill()
        store.promote()
        store.make_standby()

    def cut_off(self) -> None:
        """The old primary lives, and one instance still reaches it, while the standby takes over."""
        store: Pair = self.world.store
        old, stays = store.primary.machine, self.chance.choice(self.world.instances).machine
        others = [one.machine for one in self.world.instances if one.machine is not stays]
        with self.world.router.cut(*both_ways(old, store.standby.machine, *others)):
            self.wait()
            store.promote()
            self.wait()
        store.standby.kill()
        store.make_standby()

    def standby_gone(self) -> None:
        standby = self.world.store.standby
        standby.kill()
        self.wait()
        standby.start()

    def apart(self) -> None:
        store: Pair = self.world.store
        ways = both_ways(store.primary.machine, store.standby.machine)
        self.cut(*self.chance.choice([ways, ways[:1], ways[1:]]))

    def away(self) -> None:
        store: Pair = self.world.store
        for server in store.all:
            server.kill()
        time.sleep(AWAY[self.is_long])
        for server in (store.primary, store.standby):
            server.start()


def befall(world: World, troubles: Sequence[Trouble], seconds: float) -> list[str]:
    """Runs the faults in parallel for this long, and restarts instances that have ended. Returns the errors of the faults themselves."""
    until = time.monotonic() + seconds
    threads = [threading.Thread(target=one.guarded, args=(until,), daemon=True) for one in troubles]
    for thread in threads:
        thread.start()
    while any(thread.is_alive() for thread in threads):
        time.sleep(0.2)
        for one in world.instances:
            with contextlib.suppress(OSError):
                one.go_on()
    return [one.fault for one in troubles if one.fault]
