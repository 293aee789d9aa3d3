#!/usr/bin/env python3
"""The rules of cumulative points, tried on a model of them: every order of events, up to a bound.

    tests/runs_model.py

It needs no program. Three processes count, one in the place of the other, and each is a run: two points of the first, which
counts 1 and then 3; two of the second, which begins when the first ends, and counts 2 and much later 5; and two of the third,
which begins before the second ends, and counts 4 and much later 9. Each may be posted at any time, or be lost; two posts are repeats.
Beside it there are checkpoints, kills, losses of power, and once the series is forgotten; a post may also be refused by the book
for a reason of its own, as where there is no memory.

A run that has been silent for three of its intervals has ended: then one is noted that began before its last point, whichever that
is, and counts from there on.

In each state in which nothing is on its way what was counted of a run is what its last point says that was taken and is there
still: never more, so nothing counts twice; and never less, so that nothing which was taken is lost. A point that is not counted
is refused by name, and a repeat is not, at least of the last two runs. What was forgotten counts from the next point on. And no
point of a series without delta points is ever refused as one of those.

With all rules kept no state breaks this. Without any one of them some state does, and the shortest way to it is printed: so the
rule is needed, and the model can see it.

Each line is a check; the last line counts passes and failures. The status is 0 if none failed.
"""
import dataclasses
import sys
from collections import deque
from collections.abc import Iterator
from typing import NamedTuple, Optional

from testing.checks import Checks

MOST_STATES = 2_000_000


@dataclasses.dataclass(frozen=True)
class Rules:
    """The rules that make runs exact. Each is a switch, so that the search can turn it off."""

    # The last point is read, and what is added is in the journal, under one lock.
    read_and_record_are_one_step: bool = True
    # A post that the book refuses changes no run.
    refused_posts_change_nothing: bool = True
    # A commit has the runs as they were at the turn, not as they are when it is written.
    commit_has_the_runs_of_the_turn: bool = True
    # A commit has runs and frontiers, both or none of them.
    commit_has_runs_and_frontiers: bool = True
    # A start adds an entry of the journal where it is later than the run.
    entries_are_added_once: bool = True
    # The record of a post says what a run is that is new.
    records_say_where_a_run_began: bool = True
    # A first point of a run that began before a forgotten series ended is only noted.
    forgotten_runs_are_only_noted: bool = True
    # A first point from before a forgotten series ended is refused.
    points_from_before_are_refused: bool = True
    # The same point again, or an older one, adds nothing.
    older_points_add_nothing: bool = True
    # An older point of another run is refused by name.
    older_points_of_others_are_named: bool = True
    # Of the run before its start and its last time are kept.
    the_run_before_is_known: bool = True
    # A run that overlaps the one before, which has ended, is only noted.
    overlapping_runs_are_only_noted: bool = True


class Point(NamedTuple):
    """A cumulative point."""

    start: int
    time: int
    value: int


POINTS = (Point(1, 2, 1), Point(1, 4, 3), Point(4, 6, 2), Point(5, 12, 4), Point(4, 40, 5), Point(5, 150, 9))
STARTS = (1, 4, 5)
MOST_REPEATS = 2
# A run that has been silent for this many of its intervals has ended.
SILENT_INTERVALS = 3

# Why a point adds nothing.
COUNTED = "it is counted already"
NAMED = "it is refused by name"


class Entry(NamedTuple):
    """What the journal has of a post: what was added over (begin, point's time], and of which run."""

    number: int
    begin: int
    added: int
    is_more: bool
    is_synced: bool = False
    # It is in a segment before the turn of the last checkpoint that was not committed.
    is_before_turn: bool = False
    # It adds nothing, and says where its run is: what is left out of it.
    left_out: Optional[int] = None


class Run(NamedTuple):
    """The last point of a series that was taken, how often there is one, and the run before."""

    start: int
    time: int
    value: int
    interval: int
    before: tuple[int, int] = (0, 0)


class Posting(NamedTuple):
    """A post whose difference was found, and which has no record yet: against the rule."""

    number: int
    entry: Entry
    run: Run


class Disk(NamedTuple):
    """What lasts beside the journal."""

    run: Optional[Run] = None
    frontier: int = 0
    # What is in groups, by run; and how many of its points it is of.
    counted: tuple[int, ...] = (0, 0, 0)
    # By run, what was left out, since it was only noted.
    left_out: tuple[int, ...] = (0, 0, 0)
    forgotten: int = 0


class State(NamedTuple):
    """All of it."""

    run: Optional[Run] = None
    frontier: int = 0
    journal: tuple[Entry, ...] = ()
    disk: Disk = Disk()
    # A checkpoint that has turned and not committed: its run and frontier.
    turned: Optional[tuple[Run | None, int]] = None
    posting: Optional[Posting] = None
    # Which points were posted, and how many may be once more.
    posts: tuple[bool, ...] = (False,) * len(POINTS)
    repeats: int = MOST_REPEATS
    was_forgotten: bool = False
    faults: int = 0
    fault: str = ""


def run_of(number: int) -> int:
    return STARTS.index(POINTS[number].start)


def run_after(known: Run | None, entry: Entry, start: int, value: int) -> Run:
    """What is kept after an entry: of a start that reads it too."""
    time = POINTS[entry.number].time
    interval = time - (entry.begin if entry.left_out is None else start)
    if entry.is_more and known:
        interval = max(interval, known.interval // 2)
    before = (0, 0) if known is None else known.before if known.start == start else (known.start, known.time)
    return Run(start, time, value, interval, before)


def entry_of(rules: Rules, state: State, number: int) -> Entry | str:
    """What a point adds, or why it adds nothing."""
    point, known, forgotten = POINTS[number], state.run, state.disk.forgotten
    noted = Entry(number, point.time - 1, 0, False, left_out=point.value - come_to(state)[run_of(number)])
    if known is None:
        if rules.points_from_before_are_refused and point.time <= forgotten:
            return NAMED
        is_noted = rules.forgotten_runs_are_only_noted and point.start < forgotten
        return noted if is_noted else Entry(number, point.start, point.value, False)
    if point.time <= known.time and rules.older_points_add_nothing:
        is_of_last = point.start == known.start or not rules.older_points_of_others_are_named
        is_of_before = rules.the_run_before_is_known and known.before[0] == point.start and known.before[1] >= point.time
        return COUNTED if is_of_last or is_of_before else NAMED
    if point.time <= known.time or point.start == known.start:
        return Entry(number, known.time, point.value - known.value, True)
    if point.start >= known.time:
        return Entry(number, point.start, point.value, False)
    if point.time - known.time < SILENT_INTERVALS * known.interval:
        return NAMED
    return noted if rules.overlapping_runs_are_only_noted else Entry(number, known.time, point.value, False)


def counted_of(state: State) -> list[int]:
    """What was counted, by run."""
    counted = list(state.disk.counted)
    for entry in state.journal:
        counted[run_of(entry.number)] += entry.added
    return counted


def come_to(state: State) -> list[int]:
    """The same with what was left out, which an operator is told."""
    both = [counted + left_out for counted, left_out in zip(counted_of(state), state.disk.left_out)]
    for entry in state.journal:
        both[run_of(entry.number)] += entry.left_out or 0
    return both


def fault_of_answer(state: State, number: int, answer: str) -> str:
    """What is wrong with an answer: a point is not counted, and its sender is not told; or is told, and it is counted."""
    if state.run is None:
        return ""
    is_counted = come_to(state)[run_of(number)] >= POINTS[number].value
    if answer == COUNTED:
        return "" if is_counted else f"point {number} is not counted, and nobody is told"
    is_of_last_two = POINTS[number].start in (state.run.start, state.run.before[0])
    return f"point {number} is counted, and refused by name" if is_counted and is_of_last_two else ""


def record(rules: Rules, state: State, entry: Entry, run: Run) -> State:
    """The book is asked, and the journal gets it."""
    if rules.older_points_add_nothing and entry.begin < state.frontier:
        return state._replace(fault="a point is refused as if the series had delta points")
    end = max(POINTS[entry.number].time, state.frontier)
    return state._replace(run=run, frontier=end, journal=state.journal + (entry,))


def steps(rules: Rules, state: State) -> Iterator[tuple[str, State]]:
    """Each event, and the state after it."""
    if state.posting:
        entry, run = state.posting.entry, state.posting.run
        yield "the post has its record", record(rules, state._replace(posting=None), entry, run)
    for number, posts in enumerate(state.posts):
        if posts and state.repeats == 0:
            continue
        tried = state._replace(posts=state.posts[:number] + (True,) + state.posts[number + 1:],
                               repeats=state.repeats - posts)
        found = entry_of(rules, state, number)
        if isinstance(found, str):
            yield f"point {number}: {found}", tried._replace(fault=fault_of_answer(state, number, found))
            continue
        entry, run = found, run_after(state.run, found, POINTS[number].start, POINTS[number].value)
        if state.faults:
            refused = tried._replace(faults=state.faults - 1)
            yield f"point {number} is refused by the book", (
                refused if rules.refused_posts_change_nothing else refused._replace(run=run))
        if not rules.read_and_record_are_one_step and not state.posting:
            yield f"point {number} is read", tried._replace(posting=Posting(number, entry, run))
        yield f"point {number}", record(rules, tried, entry, run)
    if any(not entry.is_synced for entry in state.journal):
        yield "a sync", state._replace(journal=tuple(entry._replace(is_synced=True) for entry in state.journal))
    if state.journal and not state.turned and not state.posting:
        turned = tuple(entry._replace(is_before_turn=True) for entry in state.journal)
        yield "the turn", state._replace(turned=(state.run, state.frontier), journal=turned)
    if state.turned:
        yield "the commit", committed(rules, state)
        yield "the commit while the sender is quarantined", held(state)
    if state.disk.frontier and not state.journal and not state.was_forgotten and not state.posting:
        forgotten = state.disk._replace(run=None, frontier=0, forgotten=state.disk.frontier)
        yield "the series is forgotten", state._replace(disk=forgotten, run=None, frontier=0, was_forgotten=True)
    if state.faults:
        lost = state._replace(faults=state.faults - 1)
        yield "a kill", started(rules, lost, state.journal)
        yield "the power is lost", started(rules, lost, tuple(entry for entry in state.journal if entry.is_synced))


def committed(rules: Rules, state: State) -> State:
    run, frontier = state.turned
    if not rules.commit_has_the_runs_of_the_turn:
        run = state.run
    if not rules.commit_has_runs_and_frontiers:
        run = state.disk.run
    counted, left_out = list(state.disk.counted), list(state.disk.left_out)
    # Journal first: what is in a group is synced.
    for entry in state.journal:
        if entry.is_before_turn:
            counted[run_of(entry.number)] += entry.added
            left_out[run_of(entry.number)] += entry.left_out or 0
    left = tuple(entry for entry in state.journal if not entry.is_before_turn)
    disk = state.disk._replace(run=run, frontier=frontier, counted=tuple(counted), left_out=tuple(left_out))
    return state._replace(disk=disk, journal=left, turned=None)


def held(state: State) -> State:
    """No flush took the posts, which stay; but a commit may have their run."""
    journal = tuple(entry._replace(is_before_turn=False, is_synced=True) for entry in state.journal)
    return state._replace(disk=state.disk._replace(run=state.turned[0]), journal=journal, turned=None)


def started(rules: Rules, state: State, journal: tuple[Entry, ...]) -> State:
    """A start finds what the files have."""
    run, frontier = state.disk.run, state.disk.frontier
    for entry in journal:
        point = POINTS[entry.number]
        frontier = max(frontier, point.time)
        if rules.entries_are_added_once and run and point.time <= run.time:
            continue
        if run and (entry.is_more or not rules.records_say_where_a_run_began):
            run = run_after(run, entry, run.start, run.value + entry.added)
        else:
            run = run_after(run, entry, point.start, point.value)
    journal = tuple(entry._replace(is_before_turn=False) for entry in journal)
    return state._replace(run=run, frontier=frontier, journal=journal, turned=None, posting=None)


def fault_of(state: State) -> str:
    """What is wrong with a state in which nothing is on its way."""
    if state.fault or state.posting:
        return state.fault
    for run, (counted, both) in enumerate(zip(counted_of(state), come_to(state))):
        here = [entry.number for entry in state.journal if run_of(entry.number) == run]
        most = max((POINTS[number].value for number in range(len(POINTS)) if run_of(number) == run and state.posts[number]),
                   default=0)
        if counted > most:
            return f"run {run} counted {counted}, and its sender said {most} at most"
        if state.run and run == STARTS.index(state.run.start) and both != state.run.value:
            return f"run {run} counted or left out {both}, and goes on from {state.run.value}"
        if here and POINTS[here[-1]].time > state.frontier:
            return "the book ends before what it has"
    return ""


def search(rules: Rules) -> tuple[list[str] | None, int]:
    """A shortest way to a state that is wrong, and how many states there are."""
    first = State(faults=2)
    known: dict[State, tuple[State, str] | None] = {first: None}
    queue = deque([first])
    while queue:
        state = queue.popleft()
        fault = fault_of(state)
        if fault:
            return [*way(known, state), fault], len(known)
        for event, after in steps(rules, state):
            if after not in known:
                known[after] = (state, event)
                queue.append(after)
        if len(known) > MOST_STATES:
            return ["there are too many states"], len(known)
    return None, len(known)


def way(known: dict[State, tuple[State, str] | None], state: State) -> Iterator[str]:
    events: list[str] = []
    while known[state]:
        state, event = known[state]
        events.append(event)
    return reversed(events)


def main() -> int:
    checks = Checks()
    found, states = search(Rules())
    checks.same(f"all rules: none of {states:,} states is wrong", None, found)
    for field in dataclasses.fields(Rules):
        found, states = search(dataclasses.replace(Rules(), **{field.name: False}))
        checks.true(f"without `{field.name}` one of {states:,} states is wrong", found and len(found) > 1, found)
        print(f"note: {'; '.join(found or ['none'])}", flush=True)
    return checks.end()


if __name__ == "__main__":
    sys.exit(main())
