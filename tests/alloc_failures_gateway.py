#!/usr/bin/env python3
"""Runs the gateway while each growth of its memory fails in turn.

Call: tests/alloc_failures_gateway.py PROGRAM, with the path of the built gateway; it needs gcc.

For each k from 1, until no growth fails in a run, the test runs the gateway twice: in one run growth k alone fails, in the other all
from k on. In each run it makes the exchanges below over loopback.
  - A run in which no growth failed is the full run.
  - In any other run each exchange has the answer that follows from the exchanges before it, or exactly the 503 of `no memory`; if
    growth k alone fails, at most one exchange has it. Each answer is read whole, also while the client still sends.
  - An exchange that got 503 has changed nothing, except that a flush order may have taken its flush, which was then given back, or
    ended by the answer of the back end that received it. If the exchange with the back end found no memory, its flush is given
    back, and the order's answer says so.
  - At the end the gateway prints the report that follows from all this, and how many points were admitted and acknowledged, with
    status 0. Or it ends with `gateway: no memory`, status 1, and prints nothing. It also ends this way, or with
    `gateway: cannot start a thread`, if it cannot start.
The last line counts runs that passed and failed. The status is 0 if none failed.
"""
import copy
import sys
import tempfile
from collections.abc import Callable

from testing.alloc_failures import Counts, Refusing, Run, in_turn, program_named
from testing.loopback import NO_MEMORY, BackEnd, Gateway, ordered, point, posted, response, sent_points

JSON = b"application/json"
DONE = response(b"200 OK", JSON, b"{}")
# JSON may contain blanks. There are so many that a client still sends while the gateway reads.
BLANKS = b" " * 400_000


FAULT = b"400 Bad Request"
# A chunked request, and one with two points of unsupported types.
CHUNKED = (b"POST /v1/metrics HTTP/1.1\r\nContent-Type: application/json\r\nTransfer-Encoding: chunked\r\n\r\n"
           b"2\r\n{}\r\n0\r\n\r\n")
FOREIGN = (b'{"resourceMetrics":[{"scopeMetrics":[{"metrics":[{"name":"g","gauge":{"dataPoints":['
           b'{"asInt":"1","timeUnixNano":"20"},{"asDouble":1.5,"timeUnixNano":"20"}]}}]}]}]}')
# A histogram and a sum with attributes of each type, and a point of the sum `a`.
MIXED = (b'{"resourceMetrics":[{"resource":{"attributes":[{"key":"host","value":{"stringValue":"h"}}]},"scopeMetrics":['
         b'{"scope":{"name":"s","version":"1"},"metrics":[{"name":"h","unit":"ms","histogram":{'
         b'"aggregationTemporality":1,"dataPoints":[{"count":"7","sum":30,"explicitBounds":[0,5,10],'
         b'"bucketCounts":["1","2","0","4"],"startTimeUnixNano":"10","timeUnixNano":"20"}]}},'
         b'{"name":"m","sum":{"aggregationTemporality":1,"dataPoints":[{"attributes":['
         b'{"key":"b","value":{"intValue":"1"}},{"key":"a","value":{"arrayValue":{"values":['
         b'{"stringValue":"x"},{"boolValue":true},{}]}}}],"asInt":"5","startTimeUnixNano":"10",'
         b'"timeUnixNano":"20"}]}}]}]},{"scopeMetrics":[{"metrics":[{"name":"a","sum":{"aggregationTemporality":1,'
         b'"isMonotonic":true,"dataPoints":[{"asInt":"1","startTimeUnixNano":"30","timeUnixNano":"40"}]}}]}]}]}')
PARTIAL = b'{"partialSuccess":{"errorMessage":"points outside the profile","rejectedDataPoints":"2"}}'
MOST = 2**63 - 1


class Store:
    """A model of what a gateway holds of the sum `a`, as docs/FORMATS.md describes it. Rows are (points, value)."""

    def __init__(self) -> None:
        self.frontier = self.start = self.flushes = 0
        self.accepted = self.stored = self.acknowledged = (0, 0)
        self.owner: str | None = None
        self.quarantined: set[str] = set()
        self.sent: list[list[tuple[int, int, int]]] = []

    def post(self, start: int, end: int, value: int, sender: str = "A", place: int = 0) -> bytes:
        """A post of one point, which has this position among the points of its body."""
        if sender in self.quarantined:
            return response(b"403 Forbidden", JSON, b'{"message":"quarantined"}')
        if self.owner not in (None, sender):
            return response(FAULT, JSON, f'{{"message":"other writer: point {place}"}}'.encode())
        if start < self.frontier:
            text = f'{{"message":"out of order: point 0, frontier {self.frontier}"}}'
            return response(FAULT, JSON, text.encode())
        if self.accepted[1] + value > MOST:
            return response(b"503 Service Unavailable", JSON, b'{"message":"too large"}')
        self.start = start if self.stored == (0, 0) else self.start
        self.frontier, self.owner = end, sender
        self.accepted = (self.accepted[0] + 1, self.accepted[1] + value)
        self.stored = (self.stored[0] + 1, self.stored[1] + value)
        return DONE

    def flush(self) -> bytes:
        """A flush. The back end answers the first request with 503 and Retry-After, and all others with 200."""
        return self.turn(True, bool(self.sent), "" if self.sent else ',"retryAfter":"2"')

    def turn(self, sent: bool, settled: bool, wait: str) -> bytes:
        """A flush whose request the back end received or did not receive."""
        if self.stored == (0, 0):
            return response(b"200 OK", JSON, b'{"act":"nothing"}')
        self.flushes += 1
        self.sent += [[(self.stored[1], self.start, self.frontier)]] * sent
        if settled:
            points, value = self.acknowledged
            self.acknowledged = points + self.stored[0], value + self.stored[1]
            self.stored = (0, 0)
        act = "settled" if settled else "returned"
        text = f'{{"act":"{act}","flush":"{self.flushes}","points":"1"{wait}}}'
        return response(b"200 OK", JSON, text.encode())

    def give_back(self) -> None:
        """A flush whose request found no memory."""
        self.flushes += self.stored != (0, 0)

    def quarantine(self) -> bytes:
        self.quarantined.add("B")
        return DONE

    def lift(self) -> bytes:
        if "B" not in self.quarantined:
            return response(FAULT, JSON, b'{"message":"not quarantined"}')
        self.quarantined.remove("B")
        return DONE

    def report(self) -> bytes:
        if self.accepted == (0, 0):
            return b"end\n"
        names = [("accepted", self.accepted), ("acknowledged", self.acknowledged), ("dropped", (0, 0)),
                 ("in-flight", (0, 0)), ("stored", self.stored), ("quarantined", (0, 0))]
        rows = " ".join(f"{name} {points},{value},0" for name, (points, value) in names)
        return f"series a monotonic owner {self.owner} frontier {self.frontier} {rows}\nend\n".encode()

    def ending(self) -> bytes:
        last = f"admitted {self.accepted[0]} acknowledged {self.acknowledged[0]}\n"
        return self.report() + last.encode()


# Each exchange: the request, the store's answer to it, and whether it orders a flush.
Exchange = tuple[bytes, Callable[[Store], bytes], bool]
EXCHANGES: list[Exchange] = [
    (posted(point(10, 20, 5)), lambda store: store.post(10, 20, 5), False),
    (ordered("POST /flush"), Store.flush, True),
    (posted(point(20, 30, 7) + BLANKS), lambda store: store.post(20, 30, 7), False),
    (ordered("POST /quarantine/B"), Store.quarantine, False),
    (posted(MIXED, "B"), lambda store: store.post(30, 40, 1, "B", 2), False),
    (posted(point(10, 20, 5)), lambda store: store.post(10, 20, 5), False),
    (ordered("POST /flush"), Store.flush, True),
    (posted(b"[1"), lambda store: response(FAULT, JSON, b'{"message":"not JSON"}'), False),
    (posted(b"{}"), lambda store: DONE, False),
    (CHUNKED, lambda store: DONE, False),
    (posted(FOREIGN), lambda store: response(b"200 OK", JSON, PARTIAL), False),
    (posted(point(40, 50, MOST)), lambda store: store.post(40, 50, MOST), False),
    (ordered("POST /lift/B"), Store.lift, False),
    (ordered("GET /report"), lambda store: response(b"200 OK", b"text/plain", store.report()), False),
]


def branch(store: Store, serve: Callable[[Store], bytes]) -> tuple[bytes, Store]:
    """A copy of the store after a call, and the call's answer."""
    served = copy.deepcopy(store)
    return serve(served), served


def after(store: Store, exchange: Exchange, answer: bytes | str) -> list[Store]:
    """The stores that an exchange with this answer can lead to from `store`."""
    _, serve, is_order = exchange
    branches = [branch(store, serve)]
    if is_order:
        # If the exchange with the back end found no memory, nobody knows what the back end answered.
        branches += [branch(store, lambda store: store.turn(sent, False, "")) for sent in (True, False)]
    if answer != NO_MEMORY:
        return [served for right, served in branches if answer == right]
    if not is_order:
        return [store]
    returned = copy.deepcopy(store)
    returned.give_back()
    return [store, returned] + [served for _, served in branches]


def exchange_all(refusing: Refusing, program: str, growth: int,
                 form: str) -> tuple[list[bytes | str], list[list[tuple[int, int, int]]], Run]:
    """Makes a run. Returns the answers, the end, and what the back end received."""
    back_end = BackEnd([b"503 Service Unavailable\r\nRetry-After: 2\r\n"])
    environment = refusing.environment(growth, form)
    gateway = Gateway(program, back_end.port, len(EXCHANGES), environment)
    answers: list[bytes | str] = []
    for request, _, _ in EXCHANGES:
        answers.append(gateway.ask(request))
        if answers[-1] == "no connection":
            break
    status, out, err = gateway.end()
    back_end.close()
    growths, refused = refusing.counts()
    bodies = [sent_points(body) for body in back_end.bodies]
    return answers, bodies, Run(status, out, err, growths, refused)


def has_not_started(answers: list[bytes | str], run: Run) -> bool:
    """Whether the gateway ended before it could serve: nobody listens, or the connection is closed at once."""
    faults = (b"gateway: no memory\n", b"gateway: cannot start a thread\n")
    answered = [answer for answer in answers if isinstance(answer, bytes) and answer]
    return (run.status, run.out) == (1, b"") and run.err in faults and not answered


def full_answers() -> list[bytes]:
    store = Store()
    return [serve(store) for _, serve, _ in EXCHANGES]


def way_of(answers: list[bytes | str], bodies: list[list[tuple[int, int, int]]], run: Run,
           form: str) -> tuple[str | None, str | None]:
    """The way in which a run ended, or None and what is wrong."""
    no_memory = (run.status, run.out, run.err) == (1, b"", b"gateway: no memory\n")
    if run.refused and has_not_started(answers, run):
        return "could not start", None
    if form == "alone" and answers.count(NO_MEMORY) > 1:
        return None, f"{answers.count(NO_MEMORY)} answers of no memory"
    if run.refused == 0 and (run.status != 0 or answers != full_answers()):
        return None, f"no refusal, but not the full run: {answers}, {run}"
    stores = [Store()]
    for place, (exchange, answer) in enumerate(zip(EXCHANGES, answers)):
        stores = [new for store in stores for new in after(store, exchange, answer)]
        if not stores:
            return None, f"exchange {place} answers {answer!r}"
    if len(answers) < len(EXCHANGES):
        return None, f"{len(answers)} answers, and then {run}"
    stores = [store for store in stores if store.sent == bodies]
    if not no_memory:
        stores = [store for store in stores if (run.status, run.out, run.err) == (0, store.ending(), b"")]
    if not stores:
        return None, f"the back end got {bodies}, and the end is {run}"
    if run.refused == 0:
        return "without refusal", None
    return ("no report" if no_memory else "answered 503" if NO_MEMORY in answers else "did without"), None


def main(program: str) -> int:
    counts = Counts("gateway")
    with tempfile.TemporaryDirectory() as folder:
        refusing = Refusing(folder)

        def run_once(growth: int, form: str) -> Run:
            answers, bodies, run = exchange_all(refusing, program, growth, form)
            way, fault = way_of(answers, bodies, run, form)
            counts.add(run, way, f"growth {growth} {form}: {fault}")
            return run

        in_turn(run_once)
    return counts.end()


if __name__ == "__main__":
    sys.exit(main(program_named(sys.argv[1:])))
