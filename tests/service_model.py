#!/usr/bin/env python3
"""Tests the rules of the service on a model: every order of events, up to a bound.

    tests/service_model.py

It needs no program. Two senders have three posts on two series, each of which is in a book of its own: A posts one
point of x, then one of
x and one of y; B posts one of y, so that one of the two senders owns y and the other is refused. Each point of x is of another hour, and
that of y of a third one, so A's second post covers several hours. Posts are in flight at once, answers are lost, and a sender retries
until it is answered. Meanwhile there are checkpoints, a quarantine, a release, and deliveries to a sink. In a separate search the outbox
has x ahead of its time, as a wrong clock leaves it, and an operator rewinds it; A posts after he was told so. Faults happen at any place:
the service is killed, the power fails, a write of the outbox fails.

In each state in which nothing is in flight:
  - a post whose sender was told that it is accepted (200, also as a duplicate) counts exactly once: in the sink, in the outbox, or in
    the books, which have what the journal has;
  - a post whose sender was told that it is refused (`other writer`) does not count;
  - any other post counts once or not at all, with all of its points or none;
  - a late duplicate of an accepted post is recognised and left out.

In each state the pending points of a series, and each request, are of one hour, and requests have a series' points in order.

With all rules no state may break this, over all states of two faults and one checkpoint, of one fault and two checkpoints, and of one of
each with x rewound. Without any single rule some state must, which shows that the rule is needed and that the model can
see it. The search
is breadth-first, so the path that it prints is a shortest one. It takes a minute. crates/service_law proves of a coarser machine that no
state at all breaks this; this model finds a path if a rule is missing.

Each line is a check; the last line counts passes and failures. The status is 0 if none failed.
"""
import dataclasses
import functools
import gc
import sys
import time
from collections import deque
from collections.abc import Iterable, Iterator
from typing import NamedTuple, TypeVar

from testing.checks import Checks

# The limit of states. A search that reaches it fails.
MOST_STATES = 1_000_000

# --------------------------------------------------------------------------------------------------------------------
# The rules


# Compared by identity, because the search's caches compare rules often.
@dataclasses.dataclass(frozen=True, eq=False)
class Rules:
    """The rules that make the service exact. Each is a switch, so that the search can turn it off."""

    # A sender is answered 200 after the record of its post is synced.
    answer_waits_for_journal: bool = True
    # A refusal waits for all records before it. So does the answer to a duplicate, which says that the first attempt is durable.
    refusal_waits_for_journal: bool = True
    # A post is admitted, confirmed and queued for the journal in one step under the lock.
    admission_and_place_are_one_step: bool = True
    # A post is in all books that have one of its series, or in none.
    post_is_in_all_books_or_none: bool = True
    # A checkpoint takes what all books have and rolls the journal, in one step under the same lock.
    take_and_turn_are_one_step: bool = True
    # A group is committed after the records of all its posts are synced.
    journal_before_outbox: bool = True
    # The requests of a group count only if the whole group is there.
    groups_are_whole: bool = True
    # What a checkpoint has taken is in no file yet, so if it cannot be written, the process ends.
    failed_write_ends_the_service: bool = True
    # A new segment gets a number above all that the outbox says are in groups, even if their files are gone.
    segments_are_numbered_after_the_outbox: bool = True
    # A start primes fresh books with each series' owner and frontier.
    fresh_books_are_primed: bool = True
    # Then it replays the posts that no group has, in the journal's order, those of quarantined senders last.
    replay_has_the_journals_order: bool = True
    # At a checkpoint the new segment holds the posts of quarantined senders, which no flush takes.
    quarantined_posts_are_held: bool = True
    # A request is acknowledged in the outbox after the sink has said that it has it.
    sink_answers_before_the_ack: bool = True
    # The pending points of a series are taken before a point of a later hour is added.
    a_later_hour_takes_what_is_pending: bool = True
    # Requests taken that way precede the other requests of their group.
    earlier_hours_go_first: bool = True
    # What a checkpoint has taken is not given back, because a point of a later hour may have been added.
    what_was_taken_is_not_given_back: bool = True
    # A post of several hours is tried as a whole before it is added hour by hour.
    post_of_several_hours_is_tried_whole: bool = True
    # A start syncs what an earlier run wrote before it tells anybody about it.
    files_are_synced_before_they_are_believed: bool = True
    # A rewound frontier is durable before the books have it,
    what_is_put_back_is_durable_first: bool = True
    # which are then filled anew.
    what_is_put_back_fills_the_books: bool = True


# --------------------------------------------------------------------------------------------------------------------
# What is posted

A, B = "A", "B"
X, Y = 0, 1
SERIES = (X, Y)


class Post(NamedTuple):
    sender: str
    # The interval (start, end] of each series of which the post has a point.
    spans: dict[int, tuple[int, int]]


POSTS = (Post(A, {X: (0, 1)}), Post(A, {X: (1, 2), Y: (0, 1)}), Post(B, {Y: (0, 1)}))
# A point is a post's part of one series. A set of points is a number with a bit for each.
POINTS = tuple((post, series) for post, one in enumerate(POSTS) for series in one.spans)
OF_POST = tuple(sum(1 << place for place, (post, _) in enumerate(POINTS) if post == number) for number in range(len(POSTS)))
OF_SERIES = tuple(sum(1 << place for place, (_, series) in enumerate(POINTS) if series == one) for one in SERIES)
# For each series the hour of a point by the point's end.
HOURS = ({1: 0, 2: 1}, {1: 2})
OF_HOUR = tuple(sum(1 << place for place, (post, series) in enumerate(POINTS) if HOURS[series][POSTS[post].spans[series][1]] == hour)
                for hour in range(3))
OF_SENDER = {name: sum(OF_POST[number] for number, post in enumerate(POSTS) if post.sender == name) for name in (A, B)}
# The sender that is quarantined and released.
QUARANTINED = A

# How often a sender tries a post.
MOST_ATTEMPTS = 2

# --------------------------------------------------------------------------------------------------------------------
# The state


class Told:
    """What a sender knows of a post."""

    NOTHING, TAKEN, REFUSED = range(3)
    TEXTS = ("nothing", "that it is taken", "that it is refused")


class Sync:
    """How durable a record is."""

    # In memory, in the queue: a kill loses it, and the books with it.
    QUEUED = 0
    # Written by this run: a loss of power loses it.
    WRITTEN = 1
    # Written by an earlier run and never synced: this run syncs other files.
    LEFT = 2
    SYNCED = 3


class Request(NamedTuple):
    """An attempt at a post that the books have answered and whose answer has not reached the sender."""

    post: int
    # NOTHING if an accepted post is not queued yet, which is against the rule.
    answer: int
    # The youngest record that the answer waits for.
    last: int
    # Whether the sender still waits for the answer.
    is_awaited: bool


class Books(NamedTuple):
    """What the books have in memory. They accept or refuse a post as a whole."""

    # (owner, frontier) of each series, or None if the series is unknown.
    series: tuple[tuple[str, int] | None, ...]
    # Points that were accepted and not flushed.
    pending: int
    # Requests of earlier hours, for the next group.
    earlier: tuple[int, ...]
    is_quarantined: bool


class Record(NamedTuple):
    """A post in the journal."""

    segment: int
    post: int
    # Copied from an earlier segment: it counts only if its segment is the first that is replayed.
    is_held: bool
    sync: int


class Outbox(NamedTuple):
    """What the outbox says."""

    # Sets of points; a request's number is its position, from 1.
    requests: tuple[int, ...]
    # How many of them are acknowledged.
    acknowledged: int
    # The first segment of the journal whose posts are in no group.
    journal: int
    # The owner of each known series; its frontier is that of its requests.
    owners: tuple[str | None, ...]
    is_quarantined: bool
    # Whether x, owned by A, ends ahead of its time.
    is_ahead: bool


class Step:
    """How far a checkpoint is."""

    # With the rule, the step TAKEN takes no time.
    TAKEN, TURNED, COMMITTED, SYNCED = range(4)


class Checkpoint(NamedTuple):
    step: int
    # What was taken from the books: the requests of the group.
    group: tuple[int, ...]


class Left(NamedTuple):
    """What may still happen in this run."""

    faults: int
    checkpoints: int
    # Answers that do not reach a sender, and answers of the sink that do not reach the service.
    lost_answers: int
    lost_takings: int
    quarantines: int
    # How often a series is still to be rewound; A waits for it.
    repairs: int


class State(NamedTuple):
    told: tuple[int, ...]
    attempts: tuple[int, ...]
    requests: tuple[Request, ...]
    # None if the service is down.
    books: Books
    segment: int
    # The queue is the end of the journal.
    journal: tuple[Record, ...]
    outbox: Outbox
    # What a loss of power leaves of the outbox.
    synced_outbox: Outbox
    checkpoint: Checkpoint
    # The points that the sink has once and twice, and the highest number of its requests.
    sink: int
    twice: int
    highest: int
    left: Left


EMPTY_BOOKS = Books((None, None), 0, (), False)
EMPTY_OUTBOX = Outbox((), 0, 1, (None, None), False, False)
AHEAD_OUTBOX = EMPTY_OUTBOX._replace(owners=(A, None), is_ahead=True)
# A time after all intervals.
AHEAD = 9
BEGIN = State(
    told=(Told.NOTHING,) * len(POSTS), attempts=(0,) * len(POSTS), requests=(), books=EMPTY_BOOKS, segment=1, journal=(),
    outbox=EMPTY_OUTBOX, synced_outbox=EMPTY_OUTBOX, checkpoint=None, sink=0, twice=0, highest=0, left=None)
BOUNDS = (Left(2, 1, 1, 1, 1, 0), Left(1, 2, 1, 0, 1, 0), Left(1, 1, 1, 0, 1, 1))

# What happens, and the state after it.
Event = tuple[str, State]
Events = Iterator[Event]
T = TypeVar("T")


def put(items: tuple[T, ...], place: int, item: T) -> tuple[T, ...]:
    """The tuple with another item at this position."""
    return items[:place] + (item,) + items[place + 1:]


def without(items: tuple[T, ...], place: int) -> tuple[T, ...]:
    return items[:place] + items[place + 1:]


def answered(state: State, number: int, told: int) -> State:
    """The sender learns the outcome of its post. The number of its attempts does not matter any more."""
    return state._replace(told=put(state.told, number, told), attempts=put(state.attempts, number, 0))


def with_request(state: State, *requests: Request) -> State:
    """The state with these requests too, sorted, so that their order of arrival makes no new states."""
    return state._replace(requests=tuple(sorted(state.requests + requests)))


def spend(state: State, kind: str) -> Left | None:
    """The budget with one less of a kind, or None if it is used up."""
    return less(state.left, kind)


@functools.cache
def less(left: Left, kind: str) -> Left | None:
    count = getattr(left, kind)
    return left._replace(**{kind: count - 1}) if count else None


# --------------------------------------------------------------------------------------------------------------------
# The books


def answer_of(books: Books, post: int) -> int | None:
    """The books' answer to a post of a sender that is not quarantined."""
    sender, spans = POSTS[post]
    for series in spans:
        known = books.series[series]
        if known and known[0] != sender:
            return Told.REFUSED
    for series, (start, _) in spans.items():
        known = books.series[series]
        if known and start < known[1]:
            # A duplicate: senders send in order, so only a duplicate can be out of order, and it is answered like the first time.
            return None
    return Told.TAKEN


def hour_of(post: int, series: int) -> int:
    return HOURS[series][POSTS[post].spans[series][1]]


def taken(rules: Rules, books: Books, post: int, only: Iterable[int] = SERIES, is_held: bool = False) -> Books:
    """The books after they accept a post, or its part of these series, hour by hour. If `is_held`, a later hour takes nothing."""
    series, pending, earlier = list(books.series), books.pending, books.earlier
    for one in sorted(set(POSTS[post].spans) & set(only), key=lambda one: hour_of(post, one)):
        before = pending & OF_SERIES[one] & sum(OF_HOUR[:hour_of(post, one)])
        if before and rules.a_later_hour_takes_what_is_pending and not is_held:
            earlier, pending = earlier + (before,), pending & ~before
        series[one] = (POSTS[post].sender, POSTS[post].spans[one][1])
        pending |= OF_POST[post] & OF_SERIES[one]
    return books._replace(series=tuple(series), pending=pending, earlier=earlier)


def with_parts(rules: Rules, books: Books, post: int) -> Books:
    """The books with the parts of a refused post that a single book would accept, or with the hours before the refused one."""
    sender, spans = POSTS[post]
    known = {one: books.series[one] or (sender, 0) for one in spans}
    kept = [one for one, (start, _) in spans.items() if known[one][0] == sender and known[one][1] <= start]
    if rules.post_is_in_all_books_or_none:
        refused = min(hour_of(post, one) for one in spans if one not in kept)
        kept = [one for one in kept if hour_of(post, one) < refused]
    return taken(rules, books, post, kept)


def flushable(books: Books) -> int:
    """The points that a flush may take."""
    return books.pending & ~(OF_SENDER[QUARANTINED] if books.is_quarantined else 0)


# --------------------------------------------------------------------------------------------------------------------
# Posts


@functools.cache
def next_post(told: tuple[int, ...], sender: str) -> int | None:
    """The sender's first post without an answer, or None."""
    return next((number for number, one in enumerate(POSTS) if one.sender == sender and not told[number]), None)


def post(rules: Rules, state: State) -> Events:
    """A sender with no attempt in flight posts its next post, and the books are asked."""
    for sender in (A, B) if state.books else ():
        number = next_post(state.told, sender)
        if number is None or state.attempts[number] == MOST_ATTEMPTS or sender == A and state.left.repairs:
            continue
        if any(request.is_awaited and request.post == number for request in state.requests):
            continue
        tried = state._replace(attempts=put(state.attempts, number, state.attempts[number] + 1))
        if not (state.books.is_quarantined and sender == QUARANTINED):
            yield asked(rules, tried, number)


def asked(rules: Rules, state: State, number: int) -> Event:
    """The books accept or refuse the post."""
    if answer_of(state.books, number) != Told.TAKEN:
        return f"post {number} is refused", refused(rules, state, number)
    state = state._replace(books=taken(rules, state.books, number))
    if rules.admission_and_place_are_one_step:
        return f"post {number} is taken, and has its place in the queue", placed(rules, state, number, True)
    return f"post {number} is taken", with_request(state, Request(number, Told.NOTHING, Sync.QUEUED, True))


def placed(rules: Rules, state: State, number: int, is_awaited: bool) -> State:
    """Queues the post's record at the end of the journal."""
    state = state._replace(journal=state.journal + (Record(state.segment, number, False, Sync.QUEUED),))
    if not rules.answer_waits_for_journal:
        return answered(state, number, Told.TAKEN) if is_awaited else state
    return with_request(state, Request(number, Told.TAKEN, Sync.QUEUED, is_awaited))


def refused(rules: Rules, state: State, number: int) -> State:
    """A refusal waits for what is queued before it."""
    answer = answer_of(state.books, number) or Told.TAKEN
    if not (rules.post_is_in_all_books_or_none and rules.post_of_several_hours_is_tried_whole):
        state = state._replace(books=with_parts(rules, state.books, number))
    open_ones = [record.sync for record in state.journal if record.sync in (Sync.QUEUED, Sync.WRITTEN)]
    if rules.refusal_waits_for_journal and open_ones:
        return with_request(state, Request(number, answer, min(open_ones), True))
    return answered(state, number, answer)


def stop_waiting(rules: Rules, state: State) -> Events:
    """A sender times out or its connection breaks, so it never gets the answer to this attempt."""
    left = spend(state, "lost_answers")
    for place, request in enumerate(state.requests if left else ()):
        if request.is_awaited:
            others = state._replace(requests=without(state.requests, place), left=left)
            yield f"the sender of post {request.post} waits no longer", with_request(others, request._replace(is_awaited=False))


def place_late(rules: Rules, state: State) -> Events:
    """Queues an accepted post late, if that is a step of its own."""
    for place, request in enumerate(state.requests):
        if request.answer == Told.NOTHING:
            others = state._replace(requests=without(state.requests, place))
            yield f"post {request.post} has its place in the queue", placed(rules, others, request.post, request.is_awaited)


@functools.cache
def moved(records: tuple[Record, ...], before: int, after: int) -> tuple[Record, ...]:
    return tuple(one._replace(sync=after) if one.sync == before else one for one in records)


def write_journal(rules: Rules, state: State) -> Events:
    """Writes the whole queue, in order."""
    if any(record.sync == Sync.QUEUED for record in state.journal):
        requests = (one._replace(last=Sync.WRITTEN) if one.answer != Told.NOTHING else one for one in state.requests)
        yield "the queue is written to the journal", state._replace(
            journal=moved(state.journal, Sync.QUEUED, Sync.WRITTEN), requests=tuple(sorted(requests)))


def sync_journal(rules: Rules, state: State) -> Events:
    """One sync is for everything that was written, and for everybody who waits for it."""
    if all(record.sync != Sync.WRITTEN for record in state.journal):
        return
    done = [one for one in state.requests if one.last == Sync.WRITTEN]
    synced = state._replace(journal=moved(state.journal, Sync.WRITTEN, Sync.SYNCED),
                            requests=tuple(one for one in state.requests if one not in done))
    for request in done:
        if request.is_awaited:
            synced = answered(synced, request.post, request.answer)
    yield "the journal is synced, and who waits for it is answered", synced


# --------------------------------------------------------------------------------------------------------------------
# Checkpoints


def begin_checkpoint(rules: Rules, state: State) -> Events:
    """Takes everything that may be flushed from the books, one request for each series, and rolls the journal."""
    left = spend(state, "checkpoints")
    if not left or not state.books or state.checkpoint:
        return
    state = all_taken(rules, state._replace(left=left))
    if rules.take_and_turn_are_one_step:
        yield f"{state.checkpoint.group} are taken of the books, and the journal turns", turned(rules, state)
    else:
        yield f"{state.checkpoint.group} are taken of the books", state


def all_taken(rules: Rules, state: State) -> State:
    """A taken flush is settled at once: only the checkpoint has its points from then on."""
    points, earlier = flushable(state.books), state.books.earlier
    group = tuple(points & of for of in OF_SERIES if points & of)
    group = earlier + group if rules.earlier_hours_go_first else group + earlier
    books = state.books._replace(pending=state.books.pending & ~points, earlier=())
    return state._replace(books=books, checkpoint=Checkpoint(Step.TAKEN, group))


def turn_late(rules: Rules, state: State) -> Events:
    """If the roll is a step of its own, posts may come in between."""
    if state.checkpoint and state.checkpoint.step == Step.TAKEN:
        yield "the journal turns", turned(rules, state)


def turned(rules: Rules, state: State) -> State:
    """Begins a new segment for the next posts, which holds what no flush takes. Whether the held posts are copied or
    named makes no difference here: they count if this segment is the first that is replayed."""
    segment = state.segment + 1
    held: tuple[Record, ...] = ()
    if state.books.is_quarantined and rules.quarantined_posts_are_held:
        held = tuple(Record(segment, record.post, True, Sync.QUEUED) for record in replayed(state.outbox, state.journal)
                     if POSTS[record.post].sender == QUARANTINED)
    return state._replace(segment=segment, journal=state.journal + held, checkpoint=state.checkpoint._replace(step=Step.TURNED))


def commit(rules: Rules, state: State) -> Events:
    """Writes what was taken as one group, which names the first segment with posts in no group, and the owners of new series."""
    if not state.checkpoint or state.checkpoint.step != Step.TURNED:
        return
    needed = (one for one in state.journal if one.segment < state.segment or one.is_held)
    if rules.journal_before_outbox and any(record.sync in (Sync.QUEUED, Sync.WRITTEN) for record in needed):
        return
    outbox = state.outbox._replace(requests=state.outbox.requests + state.checkpoint.group, journal=state.segment)
    outbox = with_owners(outbox, state.journal)
    yield "the group is written", state._replace(outbox=outbox, checkpoint=state.checkpoint._replace(step=Step.COMMITTED))
    left = spend(state, "faults")
    if left and not rules.groups_are_whole:
        half = state.outbox._replace(requests=state.outbox.requests + state.checkpoint.group[:1])
        yield "the service is killed while the group is written", ended(state._replace(outbox=half, left=left))
    if left:
        failed = state._replace(left=left)
        after = ended(failed) if rules.failed_write_ends_the_service else failed._replace(checkpoint=None)
        yield "the group can't be written", after


def give_back(rules: Rules, state: State) -> Events:
    """There is no memory to write what was taken. With the rule, the write is tried again or the process ends."""
    left = spend(state, "faults")
    if left and state.checkpoint and state.checkpoint.step == Step.TURNED and not rules.what_was_taken_is_not_given_back:
        books = state.books._replace(pending=state.books.pending | sum(state.checkpoint.group))
        yield "what was taken is given back", state._replace(books=books, checkpoint=None, left=left)


def sync_outbox(rules: Rules, state: State) -> Events:
    if state.checkpoint and state.checkpoint.step == Step.COMMITTED:
        yield "the group is synced", state._replace(
            synced_outbox=state.outbox, checkpoint=state.checkpoint._replace(step=Step.SYNCED))


def end_checkpoint(rules: Rules, state: State) -> Events:
    """Deletes the segments of the group."""
    if state.checkpoint and state.checkpoint.step == Step.SYNCED:
        journal = tuple(record for record in state.journal if record.segment >= state.outbox.journal)
        yield "the checkpoint ends", state._replace(journal=journal, checkpoint=None)


def frontier(outbox: Outbox, series: int) -> int | None:
    """The end of the last forwarded point of a series, or None."""
    points = 0
    for request in outbox.requests:
        points |= request
    ends = [POSTS[post].spans[one][1] for place, (post, one) in enumerate(POINTS) if one == series and points >> place & 1]
    return AHEAD if series == X and outbox.is_ahead else max(ends, default=None)


def with_owners(outbox: Outbox, journal: tuple[Record, ...]) -> Outbox:
    """Adds the owners of the series of a group's posts."""
    owners = list(outbox.owners)
    for series in SERIES:
        if owners[series] is None and frontier(outbox, series) is not None:
            owners[series] = next((POSTS[record.post].sender for record in journal
                                   if record.segment < outbox.journal and series in POSTS[record.post].spans), None)
    return outbox._replace(owners=tuple(owners))


# --------------------------------------------------------------------------------------------------------------------
# Deliveries


def deliver(rules: Rules, state: State) -> Events:
    """The sink gets the first request that is not acknowledged. It accepts a number once. Its answer may be lost."""
    is_committing = state.checkpoint is not None and state.checkpoint.step == Step.COMMITTED
    number = state.outbox.acknowledged + 1
    if not state.books or number > len(state.outbox.requests) - (len(state.checkpoint.group) if is_committing else 0):
        return
    acknowledged = state._replace(outbox=state.outbox._replace(acknowledged=number))
    if not rules.sink_answers_before_the_ack:
        yield f"request {number} is acknowledged, and the sink does not take it", acknowledged
    yield f"the sink takes request {number}", delivered(acknowledged, number)
    left = spend(state, "lost_takings")
    if left and number > state.highest:
        yield f"the sink takes request {number}, and its answer is lost", delivered(state, number)._replace(left=left)


def delivered(state: State, number: int) -> State:
    if number <= state.highest:
        return state
    points = state.outbox.requests[number - 1]
    return state._replace(sink=state.sink | points, twice=state.twice | state.sink & points, highest=number)


# --------------------------------------------------------------------------------------------------------------------
# The operator


def quarantine(rules: Rules, state: State) -> Events:
    """All books get it, and then the outbox notes it; a kill between the two leaves neither."""
    left = spend(state, "quarantines")
    # What was taken for earlier hours is in a group first, since it can't be held any more.
    if left and state.books and not state.checkpoint and not state.outbox.is_quarantined and not state.books.earlier:
        yield f"{QUARANTINED} is quarantined", noted(state._replace(left=left), True)


def lift(rules: Rules, state: State) -> Events:
    if state.books and state.books.is_quarantined and not state.checkpoint:
        yield f"{QUARANTINED} is released", noted(state, False)


def noted(state: State, is_quarantined: bool) -> State:
    """A record of its own, synced at once together with everything written before it."""
    outbox = state.outbox._replace(is_quarantined=is_quarantined)
    return state._replace(books=state.books._replace(is_quarantined=is_quarantined), outbox=outbox, synced_outbox=outbox)


def put_back(rules: Rules, state: State) -> Events:
    """Rewinds x under the lock, when nothing taken from the books is in flight; then the operator is told. A's first
    post is next: x has no other points."""
    left = spend(state, "repairs")
    if not left or not state.books or state.checkpoint:
        return
    outbox = state.outbox._replace(is_ahead=False)
    books = state.books
    if rules.what_is_put_back_fills_the_books:
        books = fresh_books(rules, outbox, state.journal)
    if rules.what_is_put_back_is_durable_first:
        yield "x is put back", state._replace(books=books, outbox=outbox, synced_outbox=outbox, left=left)
    else:
        yield "x is put back in the books", state._replace(books=books, left=left)


# --------------------------------------------------------------------------------------------------------------------
# Ends and beginnings


def replayed(outbox: Outbox, journal: tuple[Record, ...]) -> tuple[Record, ...]:
    """The records that count."""
    return tuple(record for record in journal if record.segment >= outbox.journal
                 and (not record.is_held or record.segment == outbox.journal))


@functools.cache
def fresh_books(rules: Rules, outbox: Outbox, journal: tuple[Record, ...]) -> Books:
    """Primes fresh books, replays the posts that no group has, and then quarantines."""
    known = tuple((owner, frontier(outbox, series)) if owner and frontier(outbox, series) is not None else None
                  for series, owner in enumerate(outbox.owners))
    books = EMPTY_BOOKS._replace(series=known) if rules.fresh_books_are_primed else EMPTY_BOOKS
    records = sorted(replayed(outbox, journal), key=lambda record: outbox.is_quarantined and POSTS[record.post].sender == QUARANTINED)
    for record in records if rules.replay_has_the_journals_order else reversed(records):
        if answer_of(books, record.post) == Told.TAKEN:
            is_held = outbox.is_quarantined and POSTS[record.post].sender == QUARANTINED
            books = taken(rules, books, record.post, is_held=is_held)
    return books._replace(is_quarantined=outbox.is_quarantined)


def kill_service(rules: Rules, state: State) -> Events:
    left = spend(state, "faults")
    if left and state.books:
        yield "the service is killed", ended(state._replace(left=left))


def ended(state: State) -> State:
    """The service ends: books, queue and everything in flight are lost. What was written stays."""
    written = tuple(record for record in state.journal if record.sync != Sync.QUEUED)
    return state._replace(requests=(), books=None, checkpoint=None, journal=moved(written, Sync.WRITTEN, Sync.LEFT))


def lose_power(rules: Rules, state: State) -> Events:
    """What was not synced is lost."""
    left = spend(state, "faults")
    if left:
        journal = tuple(record for record in state.journal if record.sync == Sync.SYNCED)
        yield "the power is lost", ended(state._replace(journal=journal, outbox=state.synced_outbox, left=left))


def start_service(rules: Rules, state: State) -> Events:
    """A start syncs, reads and believes the files. Its segment comes after all that exist or that the outbox names."""
    if state.books:
        return
    journal, synced_outbox = state.journal, state.synced_outbox
    if rules.files_are_synced_before_they_are_believed:
        journal = tuple(record._replace(sync=Sync.SYNCED) for record in journal)
    outbox = state.outbox
    if rules.files_are_synced_before_they_are_believed:
        synced_outbox = outbox
    known = outbox.journal if rules.segments_are_numbered_after_the_outbox else 0
    segment = max([known] + [record.segment for record in journal]) + 1
    yield "the service starts", state._replace(segment=segment, journal=journal, outbox=outbox, synced_outbox=synced_outbox,
                                               books=fresh_books(rules, outbox, journal))


ACTIONS = (post, stop_waiting, place_late, write_journal, sync_journal, begin_checkpoint, turn_late, commit, give_back, sync_outbox,
           end_checkpoint, deliver, quarantine, lift, put_back, kill_service, lose_power, start_service)

# --------------------------------------------------------------------------------------------------------------------
# What holds


def is_quiet(state: State) -> bool:
    return state.books is not None and not state.requests and not state.checkpoint


def counted(state: State) -> list[int]:
    """How often each point counts, if nothing more is posted and nothing fails."""
    waiting = state.outbox.requests[max(state.outbox.acknowledged, state.highest):]
    sets = (state.sink, state.twice, state.books.pending, *state.books.earlier, *waiting)
    return [sum(points >> place & 1 for points in sets) for place in range(len(POINTS))]


def fault_of_hours(state: State) -> str | None:
    """The series whose pending points or requests are of two hours or out of order, or None."""
    group = state.checkpoint.group if state.checkpoint and state.checkpoint.step < Step.COMMITTED else ()
    return fault_of_sets((state.books.pending, *group, *state.books.earlier) if state.books else (), state.outbox.requests)


@functools.cache
def fault_of_sets(pending: tuple[int, ...], requests: tuple[int, ...]) -> str | None:
    for points in (*pending, *requests):
        for series in SERIES:
            if sum(1 for hour in OF_HOUR if points & OF_SERIES[series] & hour) > 1:
                return f"what goes of series {series} as one is of two hours"
    for series in SERIES:
        order = [points & OF_SERIES[series] for points in requests if points & OF_SERIES[series]]
        if order != sorted(order):
            return f"a later hour of series {series} is sent before an earlier one"
    return None


def fault_of(state: State) -> str | None:
    """The fault of a state in which nothing is in flight, or None."""
    counts = counted(state)
    for post, told in enumerate(state.told):
        found = {counts[place] for place, (of, _) in enumerate(POINTS) if of == post}
        wanted = {Told.TAKEN: [{1}], Told.REFUSED: [{0}], Told.NOTHING: [{0}, {1}]}[told]
        if found not in wanted:
            return f"post {post}, told {Told.TEXTS[told]}, counts {sorted(found)}"
        if told == Told.TAKEN and answer_of(state.books, post) == Told.TAKEN:
            return f"a late repeat of post {post} is taken"
    return None


# --------------------------------------------------------------------------------------------------------------------
# The search


class Found(NamedTuple):
    states: int
    fault: str
    # The labels of the actions that lead to it.
    way: tuple[str, ...]
    is_whole: bool


def way_to(parents: dict[State, Event | None], state: State) -> tuple[str, ...]:
    labels: list[str] = []
    while parents[state]:
        label, state = parents[state]
        labels.append(label)
    return tuple(reversed(labels))


def explore(rules: Rules, left: Left) -> Found:
    """A breadth-first search of all states that stops at the first fault."""
    begin = BEGIN._replace(left=left)
    if left.repairs:
        begin = begin._replace(outbox=AHEAD_OUTBOX, synced_outbox=AHEAD_OUTBOX, books=fresh_books(rules, AHEAD_OUTBOX, ()))
    parents: dict[State, Event | None] = {begin: None}
    waiting = deque([begin])
    while waiting and len(parents) < MOST_STATES:
        state = waiting.popleft()
        for label, after in (event for action in ACTIONS for event in action(rules, state)):
            step = label, state
            if parents.setdefault(after, step) is not step:
                continue
            fault = fault_of_hours(after) or (fault_of(after) if is_quiet(after) else None)
            if fault:
                return Found(len(parents), fault, way_to(parents, after), False)
            waiting.append(after)
    return Found(len(parents), None, (), not waiting)


def show(found: Found) -> None:
    for label in found.way:
        print(f"    {label}")


def main() -> int:
    checks = Checks()
    gc.disable()  # No state refers to itself. Looking for cycles among so many objects takes an eighth of the time.
    for left in BOUNDS:
        found = explore(Rules(), left)
        repaired = ", x put back" if left.repairs else ""
        what = (f"all rules kept, {left.faults} faults and {left.checkpoints} checkpoints{repaired}: {found.states} states, "
                "none at fault")
        checks.true(what, found.is_whole, found.fault or "not all states")
        show(found)
    for rule in dataclasses.fields(Rules):
        found = explore(Rules(**{rule.name: False}), BOUNDS[2 if rule.name.startswith("what_is_put_back") else 0])
        name = rule.name.replace("_", " ")
        what = f"without `{name}`: {found.fault}, after {len(found.way)} events"
        checks.true(what, found.fault, f"none at fault in {found.states} states")
        show(found)
    print(f"note: {time.process_time():.0f} s of processor time")
    return checks.end()


if __name__ == "__main__":
    sys.exit(main())
