#!/usr/bin/env python3
"""How SQL sinks tell what was counted already, tried on a model of one series: every order of events, up to a bound.

    tests/sink_model.py

It needs no program. A folder makes requests, each with a key (shard, epoch, number) and what the series counted in an interval that
begins where the last one ended, or later. Requests are sent in order; an answer may be lost, so that one is sent again; one may be
put aside, as a server's limits do, and is sent again by hand at any time, as is what the sink refused. The folder may be lost, so
that a new one begins anywhere; a copy of it may be put back, which draws a new epoch, or doesn't where nobody can see that it is
one; the series may be put back to an earlier end (a rewind, after which what it counted later counts again), or be forgotten. Other
series of the folder, and of another shard with the same epoch, may be put back too. The folder may be a shard of a store, which draws
a new epoch whenever an instance takes it, also after the store went back: that epoch says from which number of which one it goes on.

A sink keeps of the series where it ends, the life (epochs of a shard) that added to it last, and its floor: above it there is
nothing but what that life has sent since the series was put back. Of each life it keeps which request put the series back last.
In no state has it counted two intervals that overlap, but for what a rewind lets count again: what was made and counted before
it, and what was made and counted after. Where there is one life, and the series is not put back, it takes all. A copy that
nobody could see is assumed to send what waits before it puts something aside, or sends a letter again; a series is assumed to
have nothing that waits, and no letters, when its folder forgets it for its age, and nothing that a server's limits put aside
after that.

With all rules kept no state breaks this. Without any one of them some state does, and the shortest way to it is printed: so the
rule is needed, and the model can see it.

Each line is a check; the last line counts passes and failures. The status is 0 if none failed.
"""
import dataclasses
import itertools
import sys
from collections import deque
from collections.abc import Iterator
from typing import Any, NamedTuple, Optional

from testing.checks import Checks

ALWAYS = 99  # a time after all others
GONE = (-1, -1)  # replaces the identity of a life that another one has replaced


@dataclasses.dataclass(frozen=True)
class Rules:
    """The rules that keep the sink from counting twice. Each is a switch, so that the search can turn it off."""

    # A key is accepted once.
    keys_are_taken_once: bool = True
    # A request that was not added the first time is not added when it is sent again.
    what_was_not_added_never_is: bool = True
    # A request that is sent in order begins at the series' end or later.
    what_is_in_order_begins_at_the_end: bool = True
    # Such a request counts as in order even if a later number was accepted, which then came from a copy that nobody could see.
    only_what_is_sent_by_hand_is_late: bool = True
    # A request that is sent again by hand, after later ones, begins at the floor of its life or later,
    letters_begin_at_the_floor: bool = True
    # but at the series' end if another life added last,
    letters_of_other_lives_begin_at_the_end: bool = True
    # or if it was made before a rewind of the series.
    letters_of_before_a_rewind_begin_at_the_end: bool = True
    # A dead letter that begins at the series' end also moves the floor there.
    letters_at_the_end_move_the_floor: bool = True
    # The floor is where the series ended when its life began to add.
    a_life_has_its_own_floor: bool = True
    # A rewind begins a life of its series, or moves its floor.
    a_rewind_moves_the_floor: bool = True
    # A rewind is a boundary for requests that were made before it.
    a_rewind_is_a_boundary: bool = True
    # An epoch that continues another one belongs to that one's life,
    an_epoch_that_goes_on_is_of_the_life: bool = True
    # unless the sink has later requests of that life.
    an_epoch_that_lacks_some_begins_a_life: bool = True
    # Another request under an accepted key begins a life.
    another_request_of_a_key_begins_a_life: bool = True
    # An operator's order to forget a series is a boundary for requests that were made before it.
    an_order_to_forget_is_a_boundary: bool = True


class Bounds(NamedTuple):
    end: int = 3  # of time
    takes: int = 4  # requests of points in all
    troubles: int = 3


class Request(NamedTuple):
    shard: int
    epoch: int
    number: int
    made: int  # which of all: two lives may give one key twice
    start: int  # of a rewind: the end of the series from then on
    end: Optional[int]  # none of a rewind
    is_of_others: bool = False  # of a rewind: of other series
    goes_on: Optional[tuple[int, int]] = None  # the epoch from which its own goes on, and the last number before


class Folder(NamedTuple):
    epoch: int = 0
    number: int = 1
    frontier: int = 0
    waiting: tuple[Request, ...] = ()
    letters: tuple[Request, ...] = ()
    is_unseen: bool = False  # a copy that nobody could see, and that has not sent what waits
    goes_on: Optional[tuple[int, int]] = None


class Life(NamedTuple):
    """A row of `life`, and of the series the one of `rewind` that has its shard and epoch."""

    shard: int
    epoch: int
    rewound: int  # the number of the last request that put the series back; 0 without one
    id: tuple[int, int] = GONE  # the shard and the first epoch of a life


class Counted(NamedTuple):
    start: int
    end: int
    made: int
    rewinds: int  # how many rewinds the sink had before


class Sink(NamedTuple):
    keys: tuple[tuple[int, int, int, int, bool], ...] = ()  # shard, epoch, number, made, whether it was added
    lives: tuple[Life, ...] = ()
    # Of the series:
    life: Optional[tuple[int, int]] = None  # its id; none without points
    floor: int = 0
    last: int = 0
    counted: tuple[Counted, ...] = ()
    rewinds: tuple[tuple[int, int], ...] = ()  # to, made


class State(NamedTuple):
    folder: Folder = Folder()
    copy: Optional[Folder] = None
    sink: Sink = Sink()
    made: int = 0
    taken: int = 0
    troubles: int = 0
    is_plain: bool = True  # one life, and the series was not put back
    is_aged: bool = False  # the series was forgotten for its age
    has_others: bool = False  # another series was put back: once, since it changes nothing of this one
    epochs: int = 1
    refused: bool = False  # what a plain one should take


def with_one(all_of: tuple[Any, ...], one: Any) -> tuple[Any, ...]:
    """In one order, whichever came first: so there are fewer states."""
    return tuple(sorted((*all_of, one)))


def life_of(rules: Rules, sink: Sink, request: Request) -> tuple[Sink, Life]:
    for life in sink.lives:
        if life[:2] == request[:2]:
            return sink, life
    life = Life(request.shard, request.epoch, 0, begun(rules, sink, request))
    return sink._replace(lives=with_one(sink.lives, life)), life


def begun(rules: Rules, sink: Sink, request: Request) -> tuple[int, int]:
    """The life of an epoch of which nothing came before."""
    own = request[:2]
    if request.goes_on is None or not rules.an_epoch_that_goes_on_is_of_the_life:
        return own
    before, number = request.goes_on
    id_of: dict[tuple[int, ...], tuple[int, int]] = {life[:2]: life.id for life in sink.lives}
    goes_on = id_of.get((request.shard, before), (request.shard, before))
    is_beyond = any(id_of.get(key[:2]) == goes_on and key[2] > number and key[:2] != own for key in sink.keys)
    return own if is_beyond and rules.an_epoch_that_lacks_some_begins_a_life else goes_on


def changed(sink: Sink, life: Life, after: Life) -> Sink:
    return sink._replace(lives=with_one(tuple(one for one in sink.lives if one != life), after))


def begin(sink: Sink, request: Request) -> Sink:
    """What its shard and epoch send from now on is of another life."""
    return sink._replace(life=GONE) if sink.life in {life.id for life in sink.lives if life[:2] == request[:2]} else sink


def rewound(rules: Rules, sink: Sink, request: Request) -> Sink:
    if request.is_of_others:
        return sink
    sink, life = life_of(rules, sink, request)
    is_forgotten = request.start == ALWAYS
    if rules.an_order_to_forget_is_a_boundary if is_forgotten else rules.a_rewind_is_a_boundary:
        others = tuple(one for one in sink.lives if one != life)
        sink = sink._replace(lives=with_one(others, life._replace(rewound=max(life.rewound, request.number))))
    if not is_forgotten:
        sink = sink._replace(rewinds=(*sink.rewinds, (request.start, request.made)))
    if sink.life is None:
        return sink
    last = min(sink.last, request.start)
    if not rules.a_rewind_moves_the_floor:
        return sink._replace(last=last)
    return sink._replace(life=life.id, floor=last, last=last)


def is_of_life(rules: Rules, sink: Sink, life: Life, request: Request) -> bool:
    """Whether it was made by the life of the series, since that was put back."""
    is_same = life.id == sink.life or not rules.letters_of_other_lives_begin_at_the_end
    rewound = max(one.rewound for one in sink.lives if one.id == life.id)
    return is_same and (request.number > rewound or not rules.letters_of_before_a_rewind_begin_at_the_end)


def limit(rules: Rules, sink: Sink, life: Life, request: Request, is_by_hand: bool) -> int:
    is_letter = is_by_hand or not rules.only_what_is_sent_by_hand_is_late
    epochs = {one[:2] for one in sink.lives if one.id == life.id}
    if is_letter and any(key[:2] in epochs and key[2] > request.number for key in sink.keys):
        if is_of_life(rules, sink, life, request):
            return sink.floor if rules.letters_begin_at_the_floor else 0
    elif not rules.what_is_in_order_begins_at_the_end:
        return 0
    return sink.last


def added(rules: Rules, sink: Sink, life: Life, request: Request, is_by_hand: bool) -> Sink:
    assert request.end is not None
    last = max(sink.last, request.end)
    if sink.life is None:
        sink = sink._replace(life=life.id)
    if not is_by_hand:
        keeps = sink.life == life.id or not rules.a_life_has_its_own_floor
        return sink._replace(life=life.id, floor=sink.floor if keeps else sink.last, last=last)
    keeps = is_of_life(rules, sink, life, request) or not rules.letters_at_the_end_move_the_floor
    return sink._replace(floor=sink.floor if keeps else last, last=last)


def deliver(rules: Rules, sink: Sink, request: Request, is_by_hand: bool = False) -> tuple[Sink, bool]:
    """What the sink has then, and whether it has the request."""
    for shard, epoch, number, made, was_added in sink.keys:
        if rules.keys_are_taken_once and (shard, epoch, number) == request[:3]:
            if made == request.made:
                return sink, was_added
            return begin(sink, request) if rules.another_request_of_a_key_begins_a_life else sink, False
    with_key = sink._replace(keys=with_one(sink.keys, (*request[:4], True)))
    if request.end is None:
        return rewound(rules, with_key, request), True
    with_key, life = life_of(rules, with_key, request)
    if sink.life is not None and request.start < limit(rules, sink, life, request, is_by_hand):
        refused = sink._replace(keys=with_one(sink.keys, (*request[:4], False)))
        return refused if rules.what_was_not_added_never_is else sink, False
    counted = with_one(sink.counted, Counted(request.start, request.end, request.made, len(sink.rewinds)))
    return added(rules, with_key, life, request, is_by_hand)._replace(counted=counted), True


def twice(sink: Sink) -> bool:
    """Whether something counts twice that no rewind lets count again."""
    for one, other in itertools.combinations(sink.counted, 2):
        first, second = sorted((one, other), key=lambda counted: counted.rewinds)
        of_both = max(one.start, other.start)
        between = sink.rewinds[first.rewinds:second.rewinds]
        is_again = any(to <= of_both and first.made < made < second.made for to, made in between)
        if of_both < min(one.end, other.end) and not is_again:
            return True
    return False


def sent(rules: Rules, state: State, request: Request, folder: Folder, is_by_hand: bool = False) -> State:
    """Of a request that the folder has no more, but for a letter of it."""
    sink, has = deliver(rules, state.sink, request, is_by_hand)
    is_other = any(key[:3] == request[:3] and key[3] != request.made for key in state.sink.keys)
    folder = folder._replace(is_unseen=folder.is_unseen and bool(folder.waiting) and not is_other)
    if not has:
        folder = folder._replace(letters=with_one(folder.letters, request))
    return state._replace(folder=folder, sink=sink, refused=state.refused or (state.is_plain and not has))


def made(state: State, start: int, end: Optional[int], frontier: int, is_of_others: bool = False) -> State:
    """With a request more that waits."""
    folder = state.folder
    request = Request(0, folder.epoch, folder.number, state.made, start, end, is_of_others, folder.goes_on)
    after = folder._replace(number=folder.number + 1, frontier=frontier, waiting=(*folder.waiting, request))
    return state._replace(folder=after, made=state.made + 1)


def steps(rules: Rules, bounds: Bounds, state: State) -> Iterator[tuple[str, State]]:
    folder = state.folder
    waiting, letters = folder.waiting, folder.letters

    if state.taken < bounds.takes:
        for start in range(folder.frontier, bounds.end):
            after = made(state, start, start + 1, start + 1)
            yield f"({start}, {start + 1}] is taken", after._replace(taken=state.taken + 1)
    if waiting:
        yield f"{shown(waiting[0])} is sent", sent(rules, state, waiting[0], folder._replace(waiting=waiting[1:]))
    if not folder.is_unseen:
        for place, letter in enumerate(letters):
            others = letters[:place] + letters[place + 1:]
            after = sent(rules, state, letter, folder._replace(letters=others), is_by_hand=True)
            yield f"{shown(letter)} is sent by hand", after
    if state.troubles < bounds.troubles:
        for what, after in troubles(rules, bounds, state):
            yield what, after._replace(troubles=state.troubles + 1)


def shown(request: Request) -> str:
    what = f"({request.start}, {request.end}]" if request.end is not None else f"back to {request.start}"
    return f"{request.shard}-{request.epoch}-{request.number} {what}"


def troubles(rules: Rules, bounds: Bounds, state: State) -> Iterator[tuple[str, State]]:
    folder = state.folder
    waiting, letters = folder.waiting, folder.letters
    if waiting:
        first = waiting[0]
        lost, has = deliver(rules, state.sink, first)
        if has and lost != state.sink:
            yield f"{shown(first)} is sent, and the answer is lost", state._replace(sink=lost)
        if first.end is not None and not state.is_aged and not folder.is_unseen:
            aside = folder._replace(waiting=waiting[1:], letters=with_one(letters, first))
            yield f"{shown(first)} is put aside", state._replace(folder=aside)
    another = state._replace(is_plain=False)
    if state.epochs < 2 and state.made:
        fresh = Folder(epoch=state.epochs)
        yield "the folder is lost", another._replace(folder=fresh, epochs=state.epochs + 1)
    if state.epochs < 2 and folder.number > 1:
        taken = folder._replace(epoch=state.epochs, goes_on=(folder.epoch, folder.number - 1))
        yield "another instance takes it", state._replace(folder=taken, epochs=state.epochs + 1)
    if state.copy is None and state.made < 2:
        yield "a copy is made", state._replace(copy=folder)
    if state.copy is not None and state.copy != folder and state.epochs < 2:
        seen = state.copy._replace(epoch=state.epochs)
        yield "the copy is put back", another._replace(folder=seen, epochs=state.epochs + 1)
        goes_on = state.copy._replace(epoch=state.epochs, goes_on=(state.copy.epoch, state.copy.number - 1))
        yield "the store is put back", another._replace(folder=goes_on, epochs=state.epochs + 1)
        unseen = state.copy._replace(is_unseen=True)
        yield "the copy is put back, and nobody sees it", another._replace(folder=unseen, epochs=state.epochs + 1)
    if folder.frontier and not state.has_others:
        state = state._replace(has_others=True)
        yield "another series is put back", made(state, 0, None, folder.frontier, is_of_others=True)
        for number in (1, folder.number):
            beside = Request(1, folder.epoch, number, -1, 0, None, is_of_others=True)
            after = state._replace(sink=deliver(rules, state.sink, beside)[0])
            yield f"a series of another shard is put back by {shown(beside)}", after
        state = state._replace(has_others=False)
    if state.is_plain and folder.frontier:
        for to in range(folder.frontier):
            after = made(state, to, None, to)
            yield f"the series is put back to {to}", after._replace(is_plain=False)
        yield "the series is forgotten by an order", made(state, ALWAYS, None, 0)._replace(is_plain=False)
        if not letters and not waiting:
            forgotten = folder._replace(frontier=0)
            yield "the series is forgotten for its age", another._replace(folder=forgotten, is_aged=True)


def broken(state: State) -> Optional[str]:
    if twice(state.sink):
        return "something counts twice"
    if state.refused:
        return "one life, of which the series was not put back, is refused something"
    return None


def search(rules: Rules, bounds: Bounds) -> tuple[int, Optional[list[str]]]:
    """How many states there are, or the shortest way to one that breaks what is promised."""
    first = State()
    before: dict[State, tuple[Optional[State], str]] = {first: (None, "")}
    todo = deque([first])
    while todo:
        state = todo.popleft()
        for what, after in steps(rules, bounds, state):
            if after in before:
                continue
            before[after] = (state, what)
            fault = broken(after)
            if fault is not None:
                way = [fault]
                at: Optional[State] = after
                while at is not None:
                    at, said = before[at]
                    way.insert(0, said)
                return len(before), way[1:]
            todo.append(after)
    return len(before), None


def main() -> int:
    if len(sys.argv) != 1:
        print(__doc__)
        return 2
    checks = Checks()
    count, way = search(Rules(), Bounds())
    checks.same(f"with all rules no state of {count:,} counts twice, or refuses what one life sends", None, way)
    for rule in dataclasses.fields(Rules):
        count, way = search(dataclasses.replace(Rules(), **{rule.name: False}), Bounds())
        checks.true(f"without `{rule.name}` one of {count:,} states is wrong", way is not None, way)
        print(f"note: {'; '.join(way or ['none'])}", flush=True)
    return checks.end()


if __name__ == "__main__":
    sys.exit(main())
