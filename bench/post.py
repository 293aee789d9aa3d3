#!/usr/bin/env python3
"""Prints the instructions in user mode that a post costs the service, and the functions that take most of them.

    bench/post.py [--totxegun FILE] [--rows NAME,..] [--points N] [--series N] [--most N] [--within WORD]

Rows are json-1, json-20 and protobuf-103, as in bench/service.py. The service runs under valgrind (callgrind),
as in bench/cumulative.py, so nothing else on the machine changes a count; the kernel's instructions are not in it, nor are those
of flushes. A row posts so many points (6,000) of so many series (200). A first load warms up what is known of them, and is not
counted.

Of each function, `alone` is what it takes itself, and `all` with what it calls; so many functions (20) are shown by the first, and as
many by the second, or those alone that have WORD in their names.
"""
import argparse
import collections
import shutil

from measuring import loading
from measuring.running import options
from cumulative import POINTS, SERIES, profiled
from instructions import Profile

# As bench/service.py has them.
ROWS = {"json-1": (1, "json"), "json-20": (20, "json"), "protobuf-103": (103, "protobuf")}


def whole(profile: Profile) -> collections.Counter[str]:
    """What each function takes with what it calls. A function that calls itself counts once for each time."""
    all_of_it = collections.Counter(profile.alone)
    for (caller, _), count in profile.calls.items():
        all_of_it[caller] += count
    return all_of_it


def print_row(arguments: argparse.Namespace, row: str) -> None:
    profile, posts = profiled(arguments, "sum", *ROWS[row], arguments.points, arguments.series)
    all_of_it, every = whole(profile), profile.whole()
    print(f"\n{row}: {every / posts:,.0f} instructions a post", flush=True)
    for title, counts in (("alone", profile.alone), ("all", all_of_it)):
        print(f"{title:>10}  share")
        found = [(name, count) for name, count in counts.most_common() if name and arguments.within in name]
        for name, count in found[:arguments.most]:
            print(f"{count / posts:10,.0f}  {count / every:5.1%}  {name[:140]}")


def main() -> None:
    parser = options(__doc__.split("\n", maxsplit=1)[0])
    parser.add_argument("--rows", type=lambda text: text.split(","), default=list(ROWS))
    parser.add_argument("--points", type=int, default=POINTS)
    parser.add_argument("--series", type=int, default=SERIES)
    parser.add_argument("--most", type=int, default=20)
    parser.add_argument("--within", default="")
    arguments = parser.parse_args()
    if not shutil.which("valgrind"):
        raise SystemExit("left out: it needs the package valgrind")
    loading.build()
    for row in arguments.rows:
        print_row(arguments, row)


if __name__ == "__main__":
    main()
