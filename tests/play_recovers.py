#!/usr/bin/env python3
"""The law of recovery, run on the program play: a lost book and a fresh one stay alike; and what each of its premises is for.

Call: tests/play_recovers.py PROGRAM [COUNT [SEED]], with the path of the built play; 40 histories, seed 1.

A history of thirty steps is lost: posts that are confirmed or undone, flushes, quarantines, ends of rounds. A fresh book is
primed with the owner and the frontier of each series that was sent, and gets the posts that were not, those of quarantined
senders last. Then both go on for thirty steps. After each of them all series have the same owner, the same frontier and the
same pending points, and each flush sends the same points.

Then come the premises, each by two short scripts: what it leaves out is not recovered. Each line is a check; the last line counts
passes and failures. The status is 0 if none failed.
"""
import random
import subprocess
import sys

from play_model import COMMANDS, Refused, Store
from testing.checks import Checks

SENDERS, STEPS = 3, 30


def reply_of(replies: list[str], line: str) -> list[str]:
    """Takes the lines of the next reply, to this line, from those of the program."""
    count = 1
    if line.startswith("take") and replies and replies[0].startswith("flush"):
        count += int(replies[0].rpartition(" ")[2])
    if line == "report":
        count += replies.index("end")
    taken, replies[:count] = replies[:count], []
    return taken


def played(program: str, lines: list[str]) -> list[list[str]]:
    """The program's reply to each line."""
    ran = subprocess.run([program], input="".join(f"{it}\n" for it in lines), capture_output=True, text=True, check=True)
    replies = ran.stdout.splitlines()
    return [reply_of(replies, line) for line in lines] + ([replies] if replies else [])


class Book:
    """The lines that a book gets. What numbers it gives is foretold by the model of tests/play_model.py."""

    def __init__(self) -> None:
        self.store = Store()
        self.lines: list[str] = []

    def say(self, line: str) -> str:
        """The first line of the reply that is foretold."""
        self.lines.append(line)
        verb, *rest = line.split(" ")
        try:
            return COMMANDS[verb](self.store, *rest)[0]
        except Refused as refused:
            return f"refused {refused}"

    def post(self, line: str, end: str = "confirm") -> bool:
        """Whether a batch is taken, which is then ended so."""
        said = self.say(line)
        if said.startswith("batch"):
            self.say(f"{end} {said.partition(' ')[2]}")
        return said.startswith("batch")

    def flush(self, end: str) -> bool:
        """Whether two series at most were taken, whose flush is then ended so."""
        said = self.say("take 2")
        if said != "nothing":
            self.say(f"{end} {said.split(' ')[1]}")
        return said != "nothing"

    def flush_all(self) -> None:
        while self.flush("ok"):
            pass


class Kept:
    """What is kept outside a book: the posts that were not sent, in order; where each series ends in what was posted and sent."""

    def __init__(self) -> None:
        self.posts: list[tuple[int, str]] = []
        self.posted = [0] * 2 * SENDERS
        self.sent = [0] * 2 * SENDERS
        self.held = [False] * SENDERS

    def keep_flush(self) -> None:
        """All is sent but what is of quarantined senders."""
        self.sent = [sent if self.held[name % SENDERS] else posted
                     for name, (sent, posted) in enumerate(zip(self.sent, self.posted))]
        self.posts = [it for it in self.posts if self.held[it[0]]]

    def toggle(self, books: list[Book], sender: int) -> None:
        for book in books:
            book.say(f"{'lift' if self.held[sender] else 'hold'} s{sender}")
        self.held[sender] = not self.held[sender]


def post_of(sender: int, both: bool, clock: int) -> str:
    """Series 0 and 3 are of sender 0, 1 and 4 of sender 1, 2 and 5 of sender 2."""
    second = f" n{sender + SENDERS} {clock} {clock + 1} -7" if both else ""
    return f"admit s{sender} n{sender} {clock} {clock + 2} 5{second}"


def step_lost(book: Book, kept: Kept, draw: random.Random, clock: int) -> None:
    """One step of the book that will be lost."""
    kind, sender = draw.randrange(9), draw.randrange(SENDERS)
    if kind == 0:
        if draw.random() < 0.5:
            book.flush("back")
        book.flush_all()
        kept.keep_flush()
    elif kind == 1:
        kept.toggle([book], sender)
    elif kind == 8:
        book.say("round")
    else:
        both, line = kind in (2, 3), post_of(sender, kind in (2, 3), clock)
        if book.post(line, "undo" if kind == 2 else "confirm") and kind != 2:
            kept.posts.append((sender, line))
            kept.posted[sender] = clock + 2
            kept.posted[sender + SENDERS] = clock + 1 if both else kept.posted[sender + SENDERS]


def recover(book: Book, kept: Kept) -> None:
    """Primes a fresh book, admits again what was pending, and quarantines again, in another order."""
    for name, end in enumerate(kept.sent):
        if end:
            book.post(f"admit s{name % SENDERS} n{name} {end - 1} {end} 0")
    book.flush_all()
    for held in (False, True):
        for sender, line in kept.posts:
            if kept.held[sender] == held:
                book.post(line)
    for sender in reversed(range(SENDERS)):
        if kept.held[sender]:
            book.say(f"hold s{sender}")


def step_both(lost: Book, fresh: Book, kept: Kept, draw: random.Random, clock: int) -> None:
    """One step of both; the round is closed in the one that was lost alone."""
    kind, sender = draw.randrange(9), draw.randrange(SENDERS)
    if kind == 0:
        for end in (draw.choice(["back", "drop"]), "drop", "ok", "ok", "ok"):
            for book in (lost, fresh):
                book.flush(end)
    elif kind == 1:
        kept.toggle([lost, fresh], sender)
    elif kind == 8:
        lost.say("round")
    else:
        for book in (lost, fresh):
            book.post(post_of(sender, kind in (2, 3), clock), "undo" if kind == 2 else "confirm")


def alike(lines: list[str], replies: list[list[str]]) -> list[object]:
    """What has to be the same of both books: whether a post is taken, what a flush sends, and of each series what it stands on."""
    told: list[object] = []
    for line, reply in zip(lines, replies):
        if line.startswith("admit"):
            told.append(reply[0].partition(" ")[0] if reply[0].startswith("batch") else reply[0])
        elif line.startswith("take"):
            told.append(reply[1:])
        elif line == "report":
            told.append([(it[1], it[4], it[6], it[16], it[18]) for it in (row.split(" ") for row in reply[:-1])])
    return told


def recovers(program: str, seed: str) -> tuple[object, int]:
    """What differs, if anything does, and how many posts were admitted again."""
    draw, lost, fresh, kept = random.Random(seed), Book(), Book(), Kept()
    for clock in range(10, 10 + 2 * STEPS, 2):
        step_lost(lost, kept, draw, clock)
    recover(fresh, kept)
    again, begun = len(kept.posts), (len(lost.lines), len(fresh.lines))
    for book in (lost, fresh):
        book.say("report")
    for clock in range(10 + 2 * STEPS, 10 + 4 * STEPS, 2):
        step_both(lost, fresh, kept, draw, clock)
        for book in (lost, fresh):
            book.say("report")
    found = []
    for book, at in zip((lost, fresh), begun):
        replies = played(program, book.lines)
        wrong = [it for it in replies if it[0].startswith(("bad", "refused")) and it != ["refused quarantined"]]
        if wrong or len(replies) != len(book.lines):
            return wrong or "more replies than lines", again
        found.append(alike(book.lines[at:], replies[at:]))
    return [pair for pair in zip(*found) if pair[0] != pair[1]] or None, again


def known_by(value: int) -> list[str]:
    """The series x is made known by a point of this value, which is settled."""
    return [f"admit A x 10 20 {value}", "confirm 1", "take 1", "ok 1"]


ONE = ["admit A x 10 20 5"]
LATE = "refused out-of-order 0 20"
PREMISES = (
    ("a batch of another sender that is not undone is the series' first", ["admit B x 10 20 0", "admit A x 20 30 7"],
     "refused other-writer 0"),
    ("a series that is known to end later refuses what came before", ["admit A x 20 30 0", "admit A x 20 30 7"],
     "refused out-of-order 0 30"),
    ("what made a series known is small", [*known_by(0), "admit A x 20 30 7"], "batch 2"),
    ("what made a series known counts for its limits", [*known_by(2**63 - 1), "admit A x 20 30 7"], "refused too-large"),
    ("an undo of batch 1 removes its point", ["admit A x 1 2 1", "admit A y 1 2 1", "undo 1", "admit A x 1 2 1"], "batch 3"),
    ("of open batches under other numbers it removes another",
     ["admit A y 1 2 1", "admit A x 1 2 1", "undo 1", "admit A x 1 2 1"], "refused out-of-order 0 2"),
    ("a quarantined sender's points are not taken", [*ONE, "hold A", "take 1"], "nothing"),
    ("a quarantine is to be made again", [*ONE, "take 1"], "flush 1 points 1"),
    ("what a live flush has may become pending again", [*ONE, "take 1", "back 1", "take 1"], "flush 2 points 1"),
    ("a fresh book has no live flush", [*known_by(0), "back 1"], "refused not-live"),
    ("a fresh book does not have what it took", [*known_by(0), "take 1"], "nothing"),
    ("a point that is pending at the end of a round is sent", [*ONE, "confirm 1", "round", "take 1"], "flush 1 points 1"),
    ("what is pending does not come after what its round knew", [*known_by(0), *ONE], LATE),
    ("nothing of it was sent, so a fresh book knows nothing", [*ONE, "take 1"], "flush 1 points 1"),
    ("what was settled since rest is known too", [*known_by(5), *ONE], LATE),
    ("a fresh book that knows no more than was known at rest takes it twice", ONE, "batch 1"),
    ("a full journal refuses what comes again", [*["hold B", "lift B"] * 32_768, *ONE], "refused full"),
    ("the next round takes it", [*["hold B", "lift B"] * 32_768, "round", *ONE], "batch 1"),
)


def main(program: str, count: int = 40, seed: int = 1) -> int:
    checks, posts = Checks(), 0
    for history in range(count):
        differs, again = recovers(program, f"{seed} {history}")
        checks.same(f"history {history} of seed {seed}, with {again} posts that come again", None, differs)
        posts += again
    checks.true("many posts come again", posts > 2 * count, posts)
    for what, lines, wanted in PREMISES:
        checks.same(what, wanted, played(program, lines)[-1][0])
    return checks.end()


if __name__ == "__main__":
    if len(sys.argv) not in (2, 3, 4):
        sys.exit(__doc__)
    sys.exit(main(sys.argv[1], *map(int, sys.argv[2:])))
