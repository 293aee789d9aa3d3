#!/usr/bin/env python3
"""Counts from an SDK to a database while everything between them is killed: `make demo`, or `make demo SEED=7 SECONDS=20`.

    demo/run.py [SEED] [SECONDS]

It needs what `tools/needs demo` installs, builds what is missing, and then runs for SECONDS (60): two programs with
OpenTelemetry's SDK in
its default configuration, one posting protobuf and one JSON; totxegun; PostgreSQL in a folder of its own; Prometheus with the alerts of
operate/; and a receiver of the gauges. It kills totxegun and PostgreSQL at random times, drawn by SEED (1). At the end
it prints, by series,
what the programs counted and what PostgreSQL and Prometheus have, and draws a picture of the run. The status is 0 if nothing differs and
no alert fired. All files are in out/demo.
"""
import os
import signal
import subprocess
import sys
import time

from showing import DEMO, ROOT
from showing.play import Play, Row
from showing.scraped import Total, torn
from tooling.steps import interrupt
from picture import draw
from service import build

OUT = f"{ROOT}/out/demo"
LIBRARIES = "/usr/share/gocode"
SHOWN = {"service": "totxegun", "database": "PostgreSQL"}
# For each argument its name, its default and its least value: a shorter run has no kill.
WORDS = (("SEED", 1, 0), ("SECONDS", 60, 10))


def build_sender() -> str | None:
    """The path of the program that posts, built from Debian's Go packages; None if that fails."""
    os.makedirs(OUT, exist_ok=True)
    environment = {**os.environ, "GO111MODULE": "off", "GOPATH": LIBRARIES, "GOCACHE": f"{ROOT}/out/go", "GOFLAGS": ""}
    done = subprocess.run(["go", "build", "-o", f"{OUT}/sender", "."], cwd=f"{DEMO}/sender", env=environment, check=False)
    if done.returncode:
        print("the programs that post could not be built")
        return None
    return f"{OUT}/sender"


def shown(values: Total | None) -> str:
    """A total; for a histogram also the number of its values."""
    if values is None:
        return "-"
    return f"{values[0]:,} in {values[1]:,}" if values[2] else f"{values[0]:,}"


def report(play: Play, rows: list[Row]) -> int:
    """Prints the table and a heading. Returns by how much it differs, and what else is wrong."""
    heads = ("program", "series", "counted", "in PostgreSQL", "in Prometheus", "difference")
    lines = [heads] + [(program, " ".join([name, *(value for _, value in attributes)]), *map(shown, values), f"{apart:,}")
                       for program, name, attributes, *values, apart in rows]
    widths = [max(len(line[place]) for line in lines) for place in range(len(heads))]
    for line in lines:
        cells = [cell.ljust(width) if place < 2 else cell.rjust(width) for place, (cell, width) in enumerate(zip(line, widths))]
        print("  ".join(cells).rstrip())
    difference = sum(row[-1] for row in rows)
    posts, repeats, dropped = (sum(shop.said[place] for shop in play.shops) for place in range(3))
    print(f"\n{posts:,} posts in {play.took:.0f} s; {repeats:,} attempts had no answer, {dropped:,} posts were given up: the next "
          "one had what they said")
    count, wrong = torn(play.prometheus, play.database)
    print(f"{count} scrapes of /totals, of which {len(wrong)} are no state of the database")
    lost = [f"{name} {own}, there {there}" for name, own, there in play.gauges() if own != there]
    print(f"{play.receiver.points:,} points of gauges are at the other receiver; their last values "
          + ("; ".join(["differ", *lost]) if lost else "are the programs'"))
    fired = play.prometheus.alerts("firing")
    print(f"alerts that fired: {', '.join(fired) or 'none'}")
    killed = [victim for _, victim in play.kills]
    print("kills: " + ", ".join(f"{killed.count(victim)} of {what}" for victim, what in SHOWN.items()))
    print(f"difference: {difference:,}, of {len(rows)} series; seed {play.seed}")
    return difference + len(wrong) + len(lost) + len(fired)


def run(seed: int, seconds: float) -> int:
    if subprocess.run([f"{ROOT}/tools/needs", "demo"], check=False).returncode:
        return 1
    program = build("dev")
    sender = program and build_sender()
    if not sender:
        return 1
    begun = time.monotonic()
    play = Play(program, sender, f"{OUT}/run", seconds, seed)
    try:
        print(f"running for {seconds} s, seed {seed}", flush=True)
        play.begin()
        play.go()
        difference = report(play, play.rows())
        play.write_samples(f"{OUT}/samples.json")
        draw(f"{OUT}/samples.json", f"{OUT}/picture.svg")
        print(f"picture: {os.path.relpath(f'{OUT}/picture.svg')}; {time.monotonic() - begun:.0f} s behind the build")
        return 1 if difference else 0
    finally:
        play.close()


def read(words: list[str]) -> list[int]:
    """The seed and the seconds. Ends the script with a line that says what they must be if they are wrong."""
    if len(words) > len(WORDS):
        sys.exit(f"usage: {sys.argv[0]} [SEED] [SECONDS]")
    for (name, _, least), word in zip(WORDS, words):
        if not word.isascii() or not word.isdecimal() or int(word) < least:
            sys.exit(f"demo/run.py: {name} has to be a whole number from {least} on, and is `{word}`: make demo SEED=5 SECONDS=60")
    return [*map(int, words), *(default for _, default, _ in WORDS[len(words):])]


def main(words: list[str]) -> int:
    seed, seconds = read(words)
    for it in (signal.SIGTERM, signal.SIGHUP):
        signal.signal(it, interrupt)
    try:
        return run(seed, seconds)
    except KeyboardInterrupt:
        return 130


if __name__ == "__main__":
    sys.exit(main(sys.argv[1:]))
