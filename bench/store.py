#!/usr/bin/env python3
"""Prints what the calls of the store cost by the series that there are and by the batch's points.

    bench/store.py [PROGRAM]

PROGRAM is bin/play, as `make core` makes it, where none is named. Each figure is the processor
time of a script less that of the same script without the calls that are measured, so it holds the
reading of their lines and the writing of their replies too. It prints what it measures on this machine and checks nothing.
"""
import sys

from measuring import ROOT
from measuring.process import program_at, run_seconds

BATCH = 1_000
TIMES = 200
FLUSHES = 10
PAIRS = 5_000
ROUNDS = 4
RUNS = 7
SERIES = [100, 10_000]


def admit(first: int, count: int, start: int) -> str:
    """A batch of one point each of so many series, over one nanosecond."""
    words = (f"s{name:05} {start} {start + 1} 1" for name in range(first, first + count))
    return "admit A " + " ".join(words)


def filled(series: int, start: int = 1) -> list[str]:
    """Batches that bring a point of each of so many series."""
    return [admit(first, min(BATCH, series - first), start) for first in range(0, series, BATCH)]


def round_of(series: int, number: int) -> list[str]:
    """A round of one point of each of so many series, in batches that are confirmed."""
    admits = filled(series, number)
    first = (number - 1) * len(admits) + 1
    return admits + [f"confirm {batch}" for batch in range(first, first + len(admits))]


def thousand(series: int, time: int) -> str:
    """A batch of a thousand points, of as many series as there are up to a thousand."""
    width = min(series, BATCH)
    words: list[str] = []
    for turn in range(BATCH // width):
        start = 10 + time * BATCH + turn
        words += [f"s{name:05} {start} {start + 1} 1" for name in range(width)]
    return "admit A " + " ".join(words)


def seconds(program: str, lines: list[str]) -> float:
    """The processor time of a run over these lines, the least of some runs."""
    text = "".join(line + "\n" for line in lines)
    return min(run_seconds([program], text) for _ in range(RUNS))


def each_of(program: str, before: list[str], calls: list[str]) -> str:
    """The processor time of one of these calls, made behind others."""
    taken = seconds(program, before + calls) - seconds(program, before)
    return f"{taken / len(calls) * 1e3:.3f} ms"


def main() -> None:
    program = program_at(sys.argv[1] if len(sys.argv) > 1 else f"{ROOT}/bin/play")
    for series in SERIES:
        admits = [thousand(series, time) for time in range(TIMES)]
        taken = each_of(program, filled(series), admits)
        print(f"{series} series: an admit of {BATCH} points {taken}")
    before = filled(10_000)
    first = len(before) + 1
    admits = [thousand(10_000, time) for time in range(TIMES)]
    undos = [f"undo {first + time}" for time in reversed(range(TIMES))]
    takes = [f"take {BATCH}"] * FLUSHES
    backs = [f"back {flush}" for flush in range(1, FLUSHES + 1)]
    late = ["admit A " + " ".join(f"s{name:05} 1 2 1" for name in range(BATCH))] * TIMES
    print(f"10000 series: an undo of {BATCH} points {each_of(program, before + admits, undos)}")
    print(f"10000 series: a take of {BATCH} series {each_of(program, before, takes)}")
    print(f"10000 series: a return of {BATCH} series {each_of(program, before + takes, backs)}")
    print(f"10000 series: a refused batch of {BATCH} points {each_of(program, before, late)}")
    pairs = [f"take 1\nback {flush}" for flush in range(1, PAIRS + 1)]
    print(f"10000 series: a take of 1 series and its return {each_of(program, before, pairs)}")
    rounds: list[str] = []
    for number in range(1, ROUNDS + 1):
        rounds += round_of(10_000, number)
        print(f"10000 series: the close of round {number} {each_of(program, rounds, ['round'])}")
        rounds.append("round")
    whole = seconds(program, [admit(0, 10_000, 1)])
    print(f"one batch of 10000 points of as many series {whole:.2f} s")


if __name__ == "__main__":
    main()
