"""Reads from a store's database which instance owns which shard."""
import hashlib
import json
import time
from collections.abc import Iterable, Sequence

from testing.servers import Server
from testing.service import wait_until

# In seconds; long enough for a busy machine.
IN_THE_END = 180
OWNERS = "select json_object_agg(shard, owner) from totxegun_store.shard"


def places(shards: Sequence[int], names: Iterable[str]) -> dict[int, str]:
    """The home of each shard among the instances with these names, by the rule of service/src/cluster/placement.rs."""
    counts = dict.fromkeys(names, 0)
    each, more = divmod(len(shards), len(counts))
    places: dict[int, str] = {}
    for shard in shards:
        with_room = (name for name, count in counts.items() if count < each + (more > 0))
        name = max(with_room, key=lambda name: (hashlib.sha256(shard.to_bytes(2, "big") + name.encode()).digest(), name))
        counts[name] += 1
        more -= counts[name] > each
        places[shard] = name
    return places


def owners(database: Server) -> dict[int, str]:
    """The owner of each shard ("" if it has none). Empty if the database does not answer."""
    said = json.loads(database.ask(OWNERS) or "{}")
    return {int(shard): owner for shard, owner in said.items()}


def come_to_rest(database: Server, shards: int, names: Iterable[str], seconds: float = IN_THE_END) -> bool:
    """Waits until each shard is owned by its home, after which no shard moves by itself. Returns whether that happened in time."""
    wanted = places(range(shards), names)

    def is_so() -> bool:
        time.sleep(0.5)
        return owners(database) == wanted

    return wait_until(is_so, seconds)
