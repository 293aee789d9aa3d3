#!/usr/bin/env python3
"""The rehearsal of the gateway, many times: threads take turns as they like, and it prints the same each time.

Call: tests/gateway_rehearses.py PROGRAM, with the path of the built gateway.

  - the rehearsal with its defaults, 20 times in a row
  - the shortest and the longest, five times each
  - one that is not: a line that is faulty
What is wanted is written out from docs/FORMATS.md. Each line is a check; the last line counts passes and failures. The status is 0 if
none failed.
"""
import subprocess
import sys

from testing.checks import Checks

# How often, how many senders, how many batches each, and the arguments for that.
REHEARSALS: tuple[tuple[int, int, int, list[str]], ...] = (
    (20, 2, 3, []),
    (5, 1, 1, ["--senders", "1", "--batches", "1"]),
    (5, 4, 100, ["--senders", "4", "--batches=100"]),
)
FAULTY = (["--senders", "5"], ["--batches", "0"], ["--connections", "1"])


def wanted(senders: int, batches: int) -> str:
    """What such a rehearsal must print."""
    row = f"{batches},{batches * (batches + 1) // 2},0"
    lines = [f"series req-{sender} monotonic owner s{sender} frontier {10 * batches + 10} accepted {row} acknowledged {row}"
             " dropped 0,0,0 in-flight 0,0,0 stored 0,0,0 quarantined 0,0,0" for sender in range(senders)]
    total = senders * batches
    return "\n".join([*lines, "end", f"admitted {total} acknowledged {total}", ""])


def rehearse(program: str, words: list[str]) -> tuple[int, str, str]:
    ran = subprocess.run([program, "rehearse", *words], capture_output=True, text=True, timeout=120, check=False)
    return ran.returncode, ran.stdout, ran.stderr


def main(program: str) -> int:
    checks = Checks()
    for times, senders, batches, words in REHEARSALS:
        right = (0, wanted(senders, batches), "")
        others = [it for it in (rehearse(program, words) for _ in range(times)) if it != right]
        checks.same(f"{senders} senders of {batches} batches, {times} times", [], others)
    for words in FAULTY:
        status, out, error = rehearse(program, words)
        checks.true(f"rehearse {' '.join(words)} is refused", status == 2 and not out and error, (status, out, error))
    return checks.end()


if __name__ == "__main__":
    if len(sys.argv) != 2:
        sys.exit(__doc__)
    sys.exit(main(sys.argv[1]))
