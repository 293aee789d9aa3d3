#!/usr/bin/env python3
"""Tests the rules of several instances over one store on a model: every order of events, up to a bound.

    tests/cluster_model.py

It needs no program. Two instances share shards whose files are in a store. The owner of a shard has it under a term. It writes to the
store by syncs. A sync has everything written since the last one, in order, under one number; syncs of several shards in one transaction
happen at the same moment. A sender has two posts and retries each until it is answered. A post reaches any instance that believes it is
the owner, or is forwarded there. Either instance may take a shard at any time, so an owner that was stopped or cut off may go on at any
later time. A statement that was sent may be executed at any later time, even if its connection is lost; its sender then repeats it.

The store commits on its primary, and answers after the standby has the commit. A restart of the primary shows commits that the standby
does not have; if the primary is lost and the standby takes over, they are gone. The store may be restored from a dump after all
instances have ended. Then points are excused that neither the store nor the sink has any more, and so are points that the sink has and
the store has again. Meanwhile there are checkpoints, deliveries to a sink and their acknowledgements, hand-overs, and with two shards a
post with a part in each, and a quarantine.

Each state, of the primary, the standby and the sink, is checked for these faults:
  - `answered and gone`: a point that a sender knows to be accepted is neither in a file of the shard nor in the sink;
  - `lost`: such a point is in a group that the outbox has as delivered, or that would go out under another group's key, and is not in
    the sink;
  - `twice`: a point counts twice;
  - `quarantined and taken`: a point is accepted, or sent, after an operator was told that its sender is quarantined;
  - `can't be read`: a file that was removed exists again.

With all rules no state may have a fault. Without any single rule some state must have the fault that WITHOUT names, which shows that
the rule is needed and that the model can see it. The search is breadth-first, so the path that it prints is a shortest one. For each
rule there are also wrong copies of the program without it, in service/wrong: COPIES has their names.

Each line is a check; the last line counts passes and failures. The status is 0 if none failed.
"""
import dataclasses
import gc
import os
import sys
import time
from collections import deque
from collections.abc import Iterable, Iterator
from typing import NamedTuple, TypeVar

from testing.checks import Checks

# The limit of states. A search that reaches it fails.
MOST_STATES = 400_000
GONE, LOST, TWICE, TAKEN, UNREADABLE = "answered and gone", "lost", "twice", "quarantined and taken", "can't be read"


@dataclasses.dataclass(frozen=True)
class Rules:
    """The rules that make several instances exact. Each is a switch, so that the search can turn it off."""

    # A sync locks the shard's row and checks that its own term is there. No clock decides who is the owner.
    a_sync_looks_at_the_term: bool = True
    # That row is never deleted. The keys of written files are no fence, because the files that a late write would
    # conflict with may be gone.
    the_fence_outlives_what_is_removed: bool = True
    # A takeover writes a new term,
    a_takeover_writes_a_term: bool = True
    # even if the last owner has handed the shard over,
    a_hand_over_ends_the_term: bool = True
    # and the new owner reads the files after it wrote the term.
    files_are_read_behind_the_term: bool = True
    # A sync is executed as a whole or not at all.
    a_sync_is_one_transaction: bool = True
    # The next sync begins after the answer to the last one.
    one_sync_at_a_time: bool = True
    # A sync with an unknown outcome is repeated unchanged until an answer arrives.
    a_doubt_is_repeated: bool = True
    # A repeated sync that was already executed still writes something, so its commit waits for the standby.
    a_repeat_is_a_write: bool = True
    # A sync that arrives late, after its repetition and later syncs, changes nothing.
    a_late_copy_changes_nothing: bool = True
    # The store answers after the standby has the commit.
    a_commit_waits_for_the_standby: bool = True
    # A fenced owner answers no post of the shard.
    who_is_lost_answers_nothing: bool = True
    # 200 waits for the sync that has the post,
    an_answer_waits_for_its_sync: bool = True
    # a refusal waits for a sync that begins later,
    a_refusal_waits_for_a_sync: bool = True
    # and the answer to a forwarded post waits in the same way.
    a_forwarded_answer_waits_too: bool = True
    # A post is answered after all of its parts are.
    a_post_is_answered_once_all_parts_are: bool = True
    # All instances map a series to the same shard.
    a_series_has_one_shard: bool = True
    # Every owner of the shard assigns a post to the same series.
    a_post_is_of_the_same_series_everywhere: bool = True
    # A group is delivered after it is committed,
    a_group_is_delivered_behind_its_commit: bool = True
    # under a key from the store, the same for every owner,
    a_key_is_the_stores: bool = True
    # which the sink cannot have yet, although a restored store uses group numbers again,
    an_epoch_is_drawn_at_each_taking: bool = True
    # and is acknowledged after the sink has it.
    the_sink_answers_before_the_ack: bool = True
    # An operator is told of a quarantine after a sync has it,
    a_quarantine_is_told_behind_its_sync: bool = True
    # in each shard.
    a_quarantine_is_told_once_all_shards_have_it: bool = True


class Left(NamedTuple):
    """Events that may still happen."""

    takeovers: int = 0
    # Lost connections with a statement in flight.
    doubts: int = 0
    # Restarts and losses of the primary.
    failures: int = 0
    checkpoints: int = 0
    deliveries: int = 0
    hand_overs: int = 0
    quarantines: int = 0
    # Dumps that are made and restored.
    returns: int = 0


class World(NamedTuple):
    """The posts and the number of shards. For each point (post, shard). The points of a shard are of one series, in order."""

    points: tuple[tuple[int, int], ...]
    shards: int
    tries: int = 2


ONE = World(((0, 0), (1, 0)), 1)
TWO = World(((0, 0), (0, 1)), 2)

# What the search must find without a rule: in which world, within which bounds, and under which name.
WITHOUT = {
    "a_sync_looks_at_the_term": (ONE, Left(takeovers=2), GONE),
    "the_fence_outlives_what_is_removed": (ONE, Left(takeovers=2, checkpoints=1), GONE),
    "a_takeover_writes_a_term": (ONE, Left(takeovers=2), GONE),
    "a_hand_over_ends_the_term": (ONE, Left(takeovers=3, doubts=1, hand_overs=1), GONE),
    "files_are_read_behind_the_term": (ONE, Left(takeovers=2), GONE),
    "a_sync_is_one_transaction": (ONE, Left(takeovers=2, doubts=1, checkpoints=1), GONE),
    "one_sync_at_a_time": (ONE, Left(takeovers=2), GONE),
    "a_doubt_is_repeated": (ONE, Left(takeovers=1, doubts=1), GONE),
    "a_repeat_is_a_write": (ONE, Left(takeovers=1, failures=2), GONE),
    "a_late_copy_changes_nothing": (ONE, Left(takeovers=1, doubts=1, checkpoints=1), UNREADABLE),
    "a_commit_waits_for_the_standby": (ONE, Left(takeovers=1, failures=1), GONE),
    "who_is_lost_answers_nothing": (ONE, Left(takeovers=2), GONE),
    "an_answer_waits_for_its_sync": (ONE, Left(takeovers=1), GONE),
    "a_refusal_waits_for_a_sync": (ONE, Left(takeovers=1), GONE),
    "a_forwarded_answer_waits_too": (ONE, Left(takeovers=1), GONE),
    "a_post_is_answered_once_all_parts_are": (TWO, Left(takeovers=2), GONE),
    "a_series_has_one_shard": (TWO, Left(takeovers=2), TWICE),
    "a_post_is_of_the_same_series_everywhere": (ONE, Left(takeovers=2, doubts=1, checkpoints=1), TWICE),
    "a_group_is_delivered_behind_its_commit": (ONE, Left(takeovers=2, checkpoints=2, deliveries=1), LOST),
    "a_key_is_the_stores": (ONE, Left(takeovers=2, checkpoints=1, deliveries=2), TWICE),
    "an_epoch_is_drawn_at_each_taking": (ONE, Left(takeovers=2, checkpoints=2, deliveries=2, returns=1), LOST),
    "the_sink_answers_before_the_ack": (ONE, Left(takeovers=1, checkpoints=1, deliveries=1), LOST),
    "a_quarantine_is_told_behind_its_sync": (TWO, Left(takeovers=3, quarantines=2), TAKEN),
    "a_quarantine_is_told_once_all_shards_have_it": (TWO, Left(takeovers=2, quarantines=2), TAKEN),
}
# The wrong copies of the program that leave a rule out, files of service/wrong. A test must find the mistake of each.
COPIES = {
    "a_sync_looks_at_the_term": ("owner_writes_though_another_has_the_shard",),
    "the_fence_outlives_what_is_removed": ("key_of_what_is_written_is_the_fence",),
    "a_takeover_writes_a_term": ("takeover_keeps_the_term",),
    "a_hand_over_ends_the_term": ("hand_over_keeps_the_term",),
    # Two things ensure this order: a shard is opened with what the take returned, and the reading connection checks the
    # term. The copy leaves out the second.
    "files_are_read_behind_the_term": ("files_are_read_without_the_term",),
    # A short sync is one statement. Only a long one can be executed in part.
    "a_sync_is_one_transaction": ("long_sync_is_several_transactions",),
    # The writer's lock still sends the statements one after another, but in any order, and each is taken for done.
    "one_sync_at_a_time": ("syncs_are_under_way_at_once",),
    "a_doubt_is_repeated": ("write_in_doubt_is_taken_for_done",),
    # A repetition writes in two ways: it raises the connection epoch, and it locks the shard's row. The copy leaves out the second.
    "a_repeat_is_a_write": ("sync_of_nothing_is_no_write",),
    "a_late_copy_changes_nothing": ("late_write_of_an_own_connection_counts", "numbers_of_an_earlier_owner_are_used_again"),
    "a_commit_waits_for_the_standby": ("commit_without_its_standby_is_answered", "commit_on_one_server_is_believed"),
    "who_is_lost_answers_nothing": ("who_has_lost_the_shard_answers",),
    "an_answer_waits_for_its_sync": ("answer_comes_before_its_post_is_durable", "sync_joins_one_that_began_before"),
    "a_refusal_waits_for_a_sync": ("refusal_comes_before_the_journal_is_durable", "refusal_of_a_lost_shard_is_given"),
    "a_forwarded_answer_waits_too": ("forwarded_answer_comes_before_its_post_is_durable",),
    "a_post_is_answered_once_all_parts_are": ("part_that_may_be_taken_later_is_dropped",),
    "a_series_has_one_shard": ("resource_has_a_shard_by_its_words",),
    "a_post_is_of_the_same_series_everywhere": (
        "shard_is_read_by_what_its_instance_knows", "units_of_a_shard_are_not_known", "instances_read_posts_in_different_ways"),
    "a_group_is_delivered_behind_its_commit": ("request_of_a_store_is_delivered_before_it_is_durable",),
    # Each group keeps the epoch with which it was made, whoever delivers it.
    "a_key_is_the_stores": ("key_of_a_request_is_its_owners",),
    "an_epoch_is_drawn_at_each_taking": ("shard_that_is_taken_keeps_its_epoch",),
    "the_sink_answers_before_the_ack": ("request_is_acknowledged_before_the_sink_has_it",),
    "a_quarantine_is_told_behind_its_sync": ("quarantine_is_told_before_its_sync",),
    "a_quarantine_is_told_once_all_shards_have_it": ("order_counts_where_a_shard_has_not_done_it",),
}
EDITS = f"{os.path.dirname(os.path.dirname(os.path.abspath(__file__)))}/service/wrong"
# With all rules no state may have a fault.
WHOLE = (
    (ONE, Left(takeovers=2, checkpoints=1, deliveries=2, hand_overs=1)),
    (ONE, Left(takeovers=2, doubts=1, checkpoints=1)),
    (ONE, Left(takeovers=1, failures=2, checkpoints=1)),
    (ONE, Left(takeovers=2, failures=1, checkpoints=1, deliveries=1)),
    (TWO, Left(takeovers=3, quarantines=2)),
    (TWO, Left(takeovers=3, hand_overs=1)),
    (ONE, Left(takeovers=2, checkpoints=2, deliveries=2, returns=1)),
)

# --------------------------------------------------------------------------------------------------------------------
# The state

# What is written: `post`, `group` or `drop` with points, `ack` with the number of groups, or `note`.
Write = tuple[str, int]
# The key of a group in the sink is its number; against the rule, also its owner.
Key = int | tuple[int, int]


class Shard(NamedTuple):
    """What the store has of a shard: its row, and the meaning of its files. A set of points is a number with a bit for each point."""

    term: int
    # The owner, or None.
    owner: int
    # Syncs below `first` are removed; `next` is the first that does not exist. Syncs after a gap are in `ahead`, which nobody reads.
    first: int
    next: int
    ahead: frozenset[tuple[int, tuple[Write, ...]]]
    journal: int
    groups: tuple[int, ...]
    acknowledged: int
    is_quarantined: bool
    # A file that was removed exists again.
    is_torn: bool


class Statement(NamedTuple):
    """A statement that was sent to the store."""

    who: int
    shard: int
    # `take`, `sync` or `free`
    kind: str
    term: int
    number: int
    writes: tuple[Write, ...]
    # The points whose answers wait for this statement (NOTE: an operator's), and whether the sender waits for its answer.
    covers: int
    is_awaited: bool


class Owner(NamedTuple):
    """What an instance holds in memory of a shard that it believes it owns."""

    term: int
    # The number of its next sync.
    number: int
    # The points that its book has seen, and those that are in no group yet.
    seen: int
    pending: int
    # What was written since the last sync, and the points whose answers wait for a sync that begins from now on.
    writes: tuple[Write, ...]
    fresh: int
    # The number of syncs in flight, and one with an unknown outcome.
    under_way: int
    doubt: Statement
    # The groups that it may deliver.
    groups: tuple[int, ...]
    acknowledged: int
    is_quarantined: bool
    is_closing: bool


class Taking(NamedTuple):
    """An instance that is taking a shard. `read` is what it read before it wrote the term, against the rule."""

    read: Shard


class State(NamedTuple):
    told: int
    tries: tuple[int, ...]
    # For each instance and shard an owner, an instance that is taking the shard, or None.
    owners: tuple[Owner | Taking | None, ...]
    waiting: tuple[Statement, ...]
    # Executed on the primary, but not yet on the standby.
    local: tuple[Statement, ...]
    # The primary has restarted, and shows commits that the standby does not have.
    is_shown: bool
    primary: tuple[Shard, ...]
    standby: tuple[Shard, ...]
    # (shard, key, points)
    sink: frozenset[tuple[int, Key, int]]
    # The shards whose quarantine is committed; and, from when an operator was told, the points accepted and sent by then.
    noted: int
    quarantine: tuple[int, int]
    # A dump of the store; and after it was restored, how many groups each shard has, and the points that are excused.
    dump: tuple[Shard, ...]
    returned: tuple[int, ...]
    excused: int
    left: Left


NO_SHARD = Shard(0, None, 0, 0, frozenset(), 0, (), 0, False, False)
NOTE = 1 << 16  # NOTE in `covers` is an operator
AGAIN = 100  # added to a key whose number the store has already used before

# What happens, and the statement that it is about, if any.
Label = tuple[str | Statement, ...]
# Each event with the state after it.
Events = Iterator[tuple[Label, State]]
T = TypeVar("T")


def begin_of(world: World, left: Left) -> State:
    shards = (NO_SHARD,) * world.shards
    return State(0, (0,) * len(world.points), (None,) * 2 * world.shards, (), (), False, shards, shards, frozenset(), 0, None, (), (), 0,
                 left)


def put(items: tuple[T, ...], place: int, item: T) -> tuple[T, ...]:
    return items[:place] + (item,) + items[place + 1:]


def spend(state: State, kind: str) -> State | None:
    count = getattr(state.left, kind)
    return state._replace(left=state.left._replace(**{kind: count - 1})) if count else None


def visible(state: State) -> tuple[Shard, ...]:
    return state.primary if state.is_shown else state.standby


def place_of(world: World, who: int, shard: int) -> int:
    return who * world.shards + shard


def with_owner(world: World, state: State, who: int, shard: int, owner: Owner | Taking | None) -> State:
    return state._replace(owners=put(state.owners, place_of(world, who, shard), owner))


def send(state: State, *statements: Statement) -> State:
    return state._replace(waiting=tuple(sorted(state.waiting + statements)))


def all_of(groups: Iterable[int]) -> int:
    points = 0
    for group in groups:
        points |= group
    return points


# --------------------------------------------------------------------------------------------------------------------
# The store


def written(shard: Shard, number: int, writes: tuple[Write, ...]) -> Shard:
    """The shard after a sync's writes."""
    for kind, what in writes:
        if kind == "post":
            shard = shard._replace(journal=shard.journal | what)
        elif kind == "group":
            shard = shard._replace(groups=shard.groups + (what,))
        elif kind == "drop":
            shard = shard._replace(journal=shard.journal & ~what, first=max(shard.first, number))
        elif kind == "ack":
            shard = shard._replace(acknowledged=max(shard.acknowledged, what))
        else:
            shard = shard._replace(is_quarantined=True)
    return shard


def synced(rules: Rules, shard: Shard, one: Statement) -> Shard:
    if not one.writes:
        return shard
    if one.number < shard.first:
        return shard if rules.a_late_copy_changes_nothing else shard._replace(is_torn=rules.the_fence_outlives_what_is_removed)
    if one.number < shard.next:
        return shard
    if one.number > shard.next:
        return shard._replace(ahead=shard.ahead | {(one.number, one.writes)})
    shard = written(shard, one.number, one.writes)._replace(next=one.number + 1)
    for number, writes in sorted(shard.ahead):
        if number == shard.next:
            shard = written(shard, number, writes)._replace(next=number + 1, ahead=shard.ahead - {(number, writes)})
    return shard


def execute(rules: Rules, shard: Shard, one: Statement) -> Shard | None:
    """The shard after a statement, or None if the statement finds no row."""
    if one.kind == "take":
        if shard.term != one.term:
            return None
        is_new = shard.owner is not None or shard.term == 0 or rules.a_hand_over_ends_the_term
        return shard._replace(term=shard.term + is_new, owner=one.who, ahead=frozenset())
    if one.kind == "sync" and not rules.the_fence_outlives_what_is_removed:
        is_free = not one.writes or not shard.first <= one.number < shard.next
        return (shard if one.number < shard.first else synced(rules, shard, one)) if is_free else None
    if shard.term != one.term and (one.kind == "free" or rules.a_sync_looks_at_the_term):
        return None
    return shard._replace(owner=None) if one.kind == "free" else synced(rules, shard, one)


def store_steps(rules: Rules, world: World, state: State) -> Events:
    for place, one in enumerate(state.waiting):
        others = state._replace(waiting=state.waiting[:place] + state.waiting[place + 1:])
        yield from cut_off(rules, world, state, others, one)
        if not state.is_shown and any(other.shard == one.shard for other in state.local):
            continue  # the shard's row is locked until the standby has the commit
        yield from executed(rules, world, others, one)
    if state.primary != state.standby or state.local:
        done = state._replace(standby=state.primary, local=(), is_shown=False)
        for one in state.local:
            done = answered(rules, world, done, one, True)
        yield ("the standby has it",), done
    yield from primary_fails(world, state)


def cut_off(rules: Rules, world: World, state: State, others: State, one: Statement) -> Events:
    """The connection is lost while a statement is in flight; the statement may still be executed."""
    left = spend(state, "doubts")
    if not left or not one.is_awaited:
        return
    late = one._replace(is_awaited=False)
    yield ("the connection is lost of", one), in_doubt(world, send(others._replace(left=left.left), late), one)
    if not rules.a_sync_is_one_transaction and one.writes:
        half = execute(rules, state.primary[one.shard], one._replace(writes=one.writes[-1:]))
        if half:
            shards = put(state.primary, one.shard, half)
            yield ("half is executed, and the connection is lost, of", one), in_doubt(
                world, others._replace(left=left.left, primary=shards, standby=shards), one)


def executed(rules: Rules, world: World, state: State, one: Statement) -> Events:
    after = execute(rules, state.primary[one.shard], one)
    if after is None:
        yield ("no row is found by", one), answered(rules, world, state, one, False)
        return
    is_there = after == state.primary[one.shard]
    primary = put(state.primary, one.shard, after)
    if not rules.a_commit_waits_for_the_standby or is_there and not rules.a_repeat_is_a_write:
        yield ("executed is", one), answered(rules, world, state._replace(primary=primary), one, True)
    elif not state.left.failures and state.primary == state.standby:
        # With no failures left nothing can happen between the commits of primary and standby.
        yield ("executed is", one), answered(rules, world, state._replace(primary=primary, standby=primary), one, True)
    else:
        local = tuple(sorted(state.local + (one,)))
        yield ("executed on the primary is", one), state._replace(primary=primary, local=local)


def primary_fails(world: World, state: State) -> Events:
    left = spend(state, "failures")
    if not left or state.primary == state.standby and not state.waiting:
        return
    cut = left._replace(waiting=(), local=())
    for one in state.waiting + state.local:
        if one.is_awaited:
            cut = in_doubt(world, cut, one)
    if state.primary != state.standby:
        yield ("the primary is killed, and starts again",), cut._replace(is_shown=True)
    yield ("the primary is lost, and the standby takes its place",), cut._replace(primary=state.standby, is_shown=False)


def goes_back(state: State) -> Events:
    """A dump is made when primary and standby are equal, and restored later."""
    if state.left.returns and state.primary == state.standby:
        yield ("a dump is made",), state._replace(dump=state.standby, left=state.left._replace(returns=state.left.returns - 1))
    if state.dump and state.dump != state.standby:
        has = all_of(points for _, _, points in state.sink)
        kept = all_of(shard.journal | all_of(shard.groups) for shard in state.dump)
        excused = state.told & ~has & ~kept | has & kept
        shards = tuple(shard._replace(term=shard.term + 1, owner=None) for shard in state.dump)
        yield ("all end, and the dump is put back",), state._replace(
            owners=(None,) * len(state.owners), waiting=(), local=(), is_shown=False, primary=shards, standby=shards, dump=(),
            returned=tuple(len(shard.groups) for shard in shards), excused=excused)


# --------------------------------------------------------------------------------------------------------------------
# What owners hear of it


def in_doubt(world: World, state: State, one: Statement) -> State:
    owner = state.owners[place_of(world, one.who, one.shard)]
    if isinstance(owner, Owner) and one.kind != "take":
        return with_owner(world, state, one.who, one.shard, owner._replace(doubt=one))
    return with_owner(world, state, one.who, one.shard, None)


def told(rules: Rules, world: World, state: State, points: int) -> State:
    if not rules.a_post_is_answered_once_all_parts_are:
        posts = {post for place, (post, _) in enumerate(world.points) if points >> place & 1}
        points = sum(1 << place for place, (post, _) in enumerate(world.points) if post in posts)
    return state._replace(told=state.told | points)


def told_of_quarantine(rules: Rules, world: World, state: State, shard: int) -> State:
    noted = state.noted | 1 << shard
    if noted == (1 << world.shards) - 1 or not rules.a_quarantine_is_told_once_all_shards_have_it:
        return state._replace(noted=noted, quarantine=state.quarantine or counted_by(state))
    return state._replace(noted=noted)


def counted_by(state: State) -> tuple[int, int]:
    """The points that are accepted, and those that are in groups."""
    sent = all_of(all_of(shard.groups) for shard in state.standby)
    return sent | all_of(shard.journal for shard in state.standby), sent


def answered(rules: Rules, world: World, state: State, one: Statement, is_done: bool) -> State:
    """The answer to a statement arrives."""
    if not one.is_awaited:
        return state
    owner = state.owners[place_of(world, one.who, one.shard)]
    if one.kind == "take":
        assert isinstance(owner, Taking), owner
        shard = owner.read or visible(state)[one.shard]
        return with_owner(world, state, one.who, one.shard, owned(rules, shard, visible(state)[one.shard].term) if is_done else None)
    if not isinstance(owner, Owner):
        return state
    if is_done or not rules.who_is_lost_answers_nothing:
        state = told(rules, world, state, one.covers & ~NOTE)
        if one.covers & NOTE:
            state = told_of_quarantine(rules, world, state, one.shard)
    if not is_done or one.kind == "free":
        return with_owner(world, state, one.who, one.shard, None)
    groups = owner.groups + tuple(what for kind, what in one.writes if kind == "group")
    if not rules.a_group_is_delivered_behind_its_commit:
        groups = owner.groups
    return with_owner(world, state, one.who, one.shard, owner._replace(under_way=owner.under_way - 1, groups=groups))


def owned(rules: Rules, shard: Shard, term: int) -> Owner:
    sent = all_of(shard.groups)
    seen = sent | shard.journal if rules.a_post_is_of_the_same_series_everywhere else 0
    return Owner(term, shard.next, seen, shard.journal, (), 0, 0, None, shard.groups, shard.acknowledged,
                 shard.is_quarantined, False)


# --------------------------------------------------------------------------------------------------------------------
# Instances


def post_steps(rules: Rules, world: World, state: State) -> Events:
    """A sender's next post, or a part of it, reaches an instance that believes it owns the shard."""
    place = next((place for place in range(len(world.points)) if not state.told >> place & 1), None)
    if place is None:
        return
    post = world.points[place][0]
    for point in (it for it in range(len(world.points)) if world.points[it][0] == post and not state.told >> it & 1):
        if state.tries[point] == world.tries:
            continue
        tried = state._replace(tries=put(state.tries, point, state.tries[point] + 1))
        shards = (world.points[point][1],) if rules.a_series_has_one_shard else range(world.shards)
        for shard in shards:
            for who in (0, 1):
                owner = state.owners[place_of(world, who, shard)]
                if isinstance(owner, Owner) and not owner.is_closing and not owner.is_quarantined:
                    yield from posted(rules, world, tried, point, who, shard, owner)


def posted(rules: Rules, world: World, state: State, point: int, who: int, shard: int, owner: Owner) -> Events:
    later = sum(1 << it for it in range(point, len(world.points)) if world.points[it][1] == world.points[point][1])
    is_refused = owner.seen & later
    waits = rules.a_refusal_waits_for_a_sync if is_refused else rules.an_answer_waits_for_its_sync
    bit = 1 << point
    if not is_refused:
        owner = owner._replace(seen=owner.seen | bit, pending=owner.pending | bit, writes=owner.writes + (("post", bit),))
    how = (f"to {'AB'[who]} comes, and is {'out of order' if is_refused else 'taken'}, point {point}",)
    for is_early in {not waits, not rules.a_forwarded_answer_waits_too}:
        if is_early:
            yield how + ("answered at once",), told(rules, world, with_owner(world, state, who, shard, owner), bit)
        else:
            yield how, with_owner(world, state, who, shard, owner._replace(fresh=owner.fresh | bit))


def instance_steps(rules: Rules, world: World, state: State) -> Events:
    for who in (0, 1):
        for shard in range(world.shards):
            owner = state.owners[place_of(world, who, shard)]
            if owner is None:
                yield from take(rules, world, state, who, shard)
            elif isinstance(owner, Owner):
                yield from own(rules, world, state, who, shard, owner)


def take(rules: Rules, world: World, state: State, who: int, shard: int) -> Events:
    left = spend(state, "takeovers")
    is_first = not any(state.owners) and not state.waiting and not any(row.term for row in state.primary)
    if not left or is_first and who:  # the instances are alike, so A comes first
        return
    seen = visible(state)[shard]
    how = (f"{'AB'[who]} takes shard {shard}",)
    if not rules.a_takeover_writes_a_term:
        yield how, with_owner(world, left, who, shard, owned(rules, seen, seen.term))
        return
    early = None if rules.files_are_read_behind_the_term else seen
    taking = with_owner(world, left, who, shard, Taking(early))
    yield how, send(taking, Statement(who, shard, "take", seen.term, 0, (), 0, True))


def own(rules: Rules, world: World, state: State, who: int, shard: int, owner: Owner) -> Events:
    name = "AB"[who]
    if owner.doubt:
        certain = with_owner(world, state, who, shard, owner._replace(doubt=None))
        if rules.a_doubt_is_repeated:
            yield (f"{name} repeats", owner.doubt), send(certain, owner.doubt)
        else:
            yield (f"{name} takes for done", owner.doubt), answered(rules, world, certain, owner.doubt, True)
        return
    yield from sync(rules, world, state, who, shard, owner)
    if owner.is_closing:
        return
    yield from checkpoint(rules, world, state, who, shard, owner)
    yield from deliver(rules, world, state, who, shard, owner)
    left = spend(state, "quarantines")
    if left and not owner.is_quarantined:
        after = owner._replace(is_quarantined=True, writes=owner.writes + (("note", 0),), fresh=owner.fresh | NOTE)
        if rules.a_quarantine_is_told_behind_its_sync:
            yield (f"{name} has a quarantine of shard {shard}",), with_owner(world, left, who, shard, after)
        else:
            quarantined = with_owner(world, left, who, shard, after._replace(fresh=owner.fresh))
            yield (f"{name} says a quarantine of shard {shard}",), told_of_quarantine(rules, world, quarantined, shard)
    left = spend(state, "hand_overs")
    if left:
        yield (f"{name} shuts shard {shard}",), with_owner(world, left, who, shard, owner._replace(is_closing=True))


def sync(rules: Rules, world: World, state: State, who: int, shard: int, owner: Owner) -> Events:
    if owner.under_way >= (1 if rules.one_sync_at_a_time else 2):
        return
    if owner.writes or owner.fresh:
        one = Statement(who, shard, "sync", owner.term, owner.number, owner.writes, owner.fresh, True)
        after = owner._replace(number=owner.number + bool(owner.writes), writes=(), fresh=0, under_way=owner.under_way + 1)
        yield ("sent is", one), send(with_owner(world, state, who, shard, after), one)
    elif owner.is_closing and not owner.under_way:
        one = Statement(who, shard, "free", owner.term, owner.number, (), 0, True)
        yield ("sent is", one), send(with_owner(world, state, who, shard, owner._replace(under_way=1)), one)


def checkpoint(rules: Rules, world: World, state: State, who: int, shard: int, owner: Owner) -> Events:
    left = spend(state, "checkpoints")
    if left and owner.pending and not owner.is_quarantined:
        group = (("group", owner.pending), ("drop", owner.pending))
        after = owner._replace(pending=0, writes=owner.writes + group)
        if not rules.a_group_is_delivered_behind_its_commit:
            after = after._replace(groups=owner.groups + (owner.pending,))
        yield (f"{'AB'[who]} makes a group of {owner.pending:b}",), with_owner(world, left, who, shard, after)


def key_of(rules: Rules, state: State, shard: int, number: int) -> int:
    is_new = bool(state.returned) and number >= state.returned[shard]
    return number + AGAIN if is_new and rules.an_epoch_is_drawn_at_each_taking else number


def deliver(rules: Rules, world: World, state: State, who: int, shard: int, owner: Owner) -> Events:
    """Delivers the first group that is not acknowledged. A lost answer of the sink needs no case: the ack may be lost later."""
    left = spend(state, "deliveries")
    number = owner.acknowledged
    if not left or number == len(owner.groups):
        return
    key: Key = key_of(rules, state, shard, number) if rules.a_key_is_the_stores else (number, who)
    after = owner._replace(acknowledged=number + 1, writes=owner.writes + (("ack", number + 1),))
    acked = with_owner(world, left, who, shard, after)
    if not rules.the_sink_answers_before_the_ack:
        yield (f"{'AB'[who]} acknowledges group {number}, which the sink does not have",), acked
    if any(there[:2] == (shard, key) for there in state.sink):
        yield (f"{'AB'[who]} delivers group {number}, which the sink has",), acked
    else:
        yield (f"{'AB'[who]} delivers group {number}",), acked._replace(sink=state.sink | {(shard, key, owner.groups[number])})


# --------------------------------------------------------------------------------------------------------------------
# What holds


def fault_of(rules: Rules, state: State) -> str | None:
    """The name of the fault, or None."""
    if any(shard.is_torn for shard in state.standby):
        return UNREADABLE
    sets = [points for _, _, points in state.sink]
    sent = {(shard, key if isinstance(key, int) else key[0]) for shard, key, _ in state.sink}
    for place, shard in enumerate(state.standby):
        keys = [(place, key_of(rules, state, place, number)) for number in range(len(shard.groups) + 1)]
        if keys[-1] not in sent:  # otherwise the next group would go out under a key that the sink already has
            sets.append(shard.journal)
        sets += [points for number, points in enumerate(shard.groups) if number >= shard.acknowledged and keys[number] not in sent]
    once = twice = 0
    for points in sets:
        once, twice = once | points, twice | once & points
    if twice & ~state.excused:
        return TWICE
    missing = state.told & ~once & ~state.excused
    if missing:
        return LOST if missing & counted_by(state)[0] else GONE
    if state.quarantine:
        taken, grouped = counted_by(state)
        if taken & ~state.quarantine[0] or grouped & ~state.quarantine[1]:
            return TAKEN
    return None


def steps(rules: Rules, world: World, state: State) -> Events:
    yield from post_steps(rules, world, state)
    yield from instance_steps(rules, world, state)
    yield from store_steps(rules, world, state)
    yield from goes_back(state)


class Found(NamedTuple):
    states: int
    fault: str
    # The labels of the events that lead to it.
    way: tuple[Label, ...]
    is_whole: bool


def explore(rules: Rules, world: World, left: Left) -> Found:
    """A breadth-first search of all states that stops at the first fault."""
    begin = begin_of(world, left)
    parents: dict[State, tuple[State, Label] | None] = {begin: None}
    waiting = deque([begin])
    while waiting and len(parents) < MOST_STATES:
        state = waiting.popleft()
        for label, after in steps(rules, world, state):
            if after in parents:
                continue
            parents[after] = state, label
            fault = fault_of(rules, after)
            if fault:
                return Found(len(parents), fault, way_to(parents, after), False)
            waiting.append(after)
    return Found(len(parents), None, (), not waiting)


def way_to(parents: dict[State, tuple[State, Label] | None], state: State) -> tuple[Label, ...]:
    labels: list[Label] = []
    while parents[state]:
        state, label = parents[state]
        labels.append(label)
    return tuple(reversed(labels))


def text_of(label: Label) -> str:
    what = label[1] if len(label) > 1 else ""
    if isinstance(what, Statement):
        writes = ", ".join(f"{kind} {points:b}" for kind, points in what.writes)
        what = f"{'AB'[what.who]}'s {what.kind} {what.number} of shard {what.shard} under term {what.term}: {writes or 'nothing'}"
    return f"{label[0]} {what}".rstrip()


def main() -> int:
    checks = Checks()
    gc.disable()  # No state refers to itself. Looking for cycles among so many objects takes a tenth of the time.
    for world, left in WHOLE:
        found = explore(Rules(), world, left)
        bounds = ", ".join(f"{count} {kind.replace('_', '-')}" for kind, count in left._asdict().items() if count)
        what = f"all rules kept, {world.shards} shards, {bounds}: {found.states} states, none at fault"
        checks.true(what, found.is_whole and not found.fault, found.fault or "not all states")
        show(found)
    rules = {rule.name for rule in dataclasses.fields(Rules)}
    checks.same("each rule has a case, and a wrong copy of the program", (rules, rules), (set(WITHOUT), set(COPIES)))
    copies = {copy for copies in COPIES.values() for copy in copies}
    checks.same("each copy is there", set(), {copy for copy in copies if not os.path.exists(f"{EDITS}/{copy}.edit")})
    for rule, (world, left, wanted) in WITHOUT.items():
        found = explore(Rules(**{rule: False}), world, left)
        what = f"without `{rule.replace('_', ' ')}`: {wanted}, after {len(found.way)} events"
        checks.true(what, found.fault == wanted, f"{found.fault or 'none at fault'} in {found.states} states")
        show(found)
    print(f"note: {time.process_time():.0f} s of processor time")
    return checks.end()


def show(found: Found) -> None:
    for label in found.way:
        print(f"    {text_of(label)}")


if __name__ == "__main__":
    sys.exit(main())
