#!/usr/bin/env python3
"""Prints how fast the kernels of rows are, beside plain loops in their place and a copy.

    bench/lanes.py [PROGRAM]

PROGRAM is crates/lane_bench/out/lane_bench, as `rt run` in crates/lane_bench leaves it, where none is
named. A figure is the bytes of one row by the processor time of one call: that of a run of about a
second, the least of three, less that of a run with no call. `total` is a plain loop itself. It prints what it measures on this machine
and checks nothing.
"""
import sys

from measuring import ROOT
from measuring.process import program_at, run_seconds

KERNELS = ["copy", "fits", "add_into", "sub_from", "move_into", "total", "is_zero", "clear"]
PLAIN = {"fits", "add_into", "sub_from", "move_into", "is_zero", "clear"}
WORDS = [3, 11, 259]
WORD_BYTES = 8
CALLS_EACH_TIME = 2
FIRST_TIMES = 200_000
RUNS = 3


def seconds(program: str, name: str, words: int, times: int) -> float:
    """The processor time of a run."""
    return run_seconds([program, name, str(words), str(times)])


def bytes_a_second(program: str, name: str, words: int) -> float:
    """The bytes of one row by the processor time of one call."""
    start = seconds(program, name, words, 0)
    first = max(seconds(program, name, words, FIRST_TIMES) - start, 1e-4)
    times = int(FIRST_TIMES / first)
    took = min(seconds(program, name, words, times) for _ in range(RUNS)) - start
    return words * WORD_BYTES * CALLS_EACH_TIME * times / took


def main() -> None:
    program = program_at(sys.argv[1] if len(sys.argv) > 1 else f"{ROOT}/crates/lane_bench/out/lane_bench")
    print("GB/s       " + "".join(f"{words:>7} words   (plain)" for words in WORDS))
    for kernel in KERNELS:
        cells = ""
        for words in WORDS:
            cells += f"{bytes_a_second(program, kernel, words) / 1e9:13.1f}"
            plain = kernel in PLAIN and bytes_a_second(program, f"plain_{kernel}", words) / 1e9
            cells += f"{plain:10.1f}" if plain else " " * 10
        print(f"{kernel:<11}{cells}")


if __name__ == "__main__":
    main()
