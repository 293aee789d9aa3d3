#!/usr/bin/env python3
"""Runs the prover from nothing with all tests of what it sees, and compares the library in book/ with the proofs' result.

    tools/prove.py

`rt ci` proves every crate from nothing, tries the edits of must-fail/ and runs the tests and programs. Then the library is built
over what it has proved and compared with book/libbook.a, byte for byte. The steps below follow: those that need the toolchain, and
the scripts of tests/ that run `play` and `gateway`, which are copied to bin/. If the sources of the crates have changed since
book/PROVENANCE was written and everything passes, it rewrites book/, to be committed. If they have not changed, a library that
differs is a fault.

At the end a table has the processor time of each step, and the line before the last has the sums of the parts. The last line counts
the crates, edits and steps that passed and failed. The status is 0 if none failed. The logs are in out/logs.
"""
import os
import re
import shutil
import subprocess
import sys
import time

from tooling import prover
from tooling.crates import OUT, ROOT, Crate, read_crates
from tooling.files import content, write
from tooling.scripts import networks, show_end, step_of, tool_step
from tooling.steps import Failed, Step, Steps, end_of, end_of_lines, locked, shown
from book import BESIDE, LIBRARY, PROVENANCE, changed_sources, digest_of, fault_of_library, sources
from build import LIBRARY as BOOK
from build import MOST_JOBS, PROGRAMS, TRIED
from gate import CARGO_LIMIT, LINTING, PROGRAM
from service import install

PLAY = "crates/play/out/play"
GATEWAY = "crates/gateway/out/gateway"
# A script of tests/, the program that it runs, about how many seconds it takes, and whether it measures time, so that
# nothing may run beside it. The longest come first.
STEPS = (
    ("slow_parties.py", GATEWAY, 70, False),
    ("gateway_sizes.py", GATEWAY, 30, False),
    ("gateway_answers.py", GATEWAY, 10, False),
    ("gateway_serves.py", GATEWAY, 5, False),
    ("alloc_failures_play.py", PLAY, 20, False),
    ("protobuf_bodies.py", f"{GATEWAY} gateway", 10, False),
    ("alloc_failures_gateway.py", GATEWAY, 10, False),
    ("play_model.py", PLAY, 10, False),
    ("play_recovers.py", PLAY, 5, False),
    ("gateway_rehearses.py", GATEWAY, 5, False),
    ("hostile_input.py", GATEWAY, 5, False),
    ("sizes.py", PLAY, 3, False),
    ("play_ends.py", PLAY, 1, False),
    ("readings.py", PLAY, 1, False),
    ("readme_examples.py", PLAY, 1, False),
    ("gateway_load.py", GATEWAY, 5, True),
)
# Steps that need the toolchain.
TOOL_STEPS = (("crates_are_laid_out", ["tools/format.py", "--check"], 3),)
# This script also runs the service, which is compiled with the profile of the tests over the library that was built here.
OVER_SERVICE = ("same_answers.py", f"{PROGRAM} {GATEWAY}", 100, False)
# How many digits of a commit PROVENANCE has.
DIGITS = 12

COUNTS = re.compile(r"(\d+) passed, (\d+) failed$")
# Lines of `rt ci`: its progress, and faults.
PROVED = re.compile(r"rt: (\w+)(?:: (its tests) are)? proved$")
TRYING = re.compile(r"rt: (\w+): trying its must-fail edits \((\d+)\)$")
WRONG = re.compile(r"rt: .*(NOT PROVED|its tests FAILED)$")
WORTH_SHOWING = re.compile(r"rt: (note: |must-fail .*(NOT REFUSED|BAD EDIT)|\w+ NOT PROVED: )")
BLOCK = re.compile(r"== \w")
IS_TEST = re.compile(rb"#\[test\]")


class Prover:
    """One run of `rt ci`, with its progress."""

    def __init__(self) -> None:
        crates = read_crates().values()
        self.whole = len(crates) + sum(has_tests(crate) for crate in crates)
        self.proved = 0
        self.begun = time.monotonic()
        self.block: list[str] = []
        self.passed, self.failed = 0, 1

    def step(self) -> Step:
        return Step("the prover", self.work, "rt ci", log="ci")

    def work(self, step: Step) -> str:
        if step.run(["rt", "ci"], read_line=lambda line: self.hear(step, line.rstrip("\n"))) != 0:
            raise Failed("rt ci")
        return "proofs, edits, tests and programs"

    def hear(self, step: Step, line: str) -> None:
        if BLOCK.match(line):
            self.block.clear()
        self.block.append(line)
        if PROVED.match(line):
            crate, tests = PROVED.match(line).groups()
            self.proved += 1
            step.count = f"{self.proved} of {self.whole}"
            self.show(step, f"{step.count}  {crate}{': ' + tests if tests else ''} proved")
        elif TRYING.match(line):
            crate, edits = TRYING.match(line).groups()
            self.show(step, f"{' ' * len(step.count)}  {crate}: its edits are tried ({edits})")
        elif WRONG.match(line):
            for it in end_of_lines(self.block):
                step.say(f"    | {it}")
        elif WORTH_SHOWING.match(line):
            step.say(line)
        elif COUNTS.match(line):
            self.passed, self.failed = map(int, COUNTS.match(line).groups())
            step.say(line)

    def show(self, step: Step, text: str) -> None:
        step.say(f"{shown(time.monotonic() - self.begun):>6}  {text}")


def has_tests(crate: Crate) -> bool:
    return any(IS_TEST.search(content(file)) for file in crate.files())


def book_step() -> Step:
    """The step that builds the library over what `rt ci` has proved, and compares it with the one in book/."""
    crate = read_crates()[BOOK]

    def work(step: Step) -> str:
        os.makedirs(f"{crate.folder}/out", exist_ok=True)
        for command in prover.Prover().build(crate, step.jobs, prover.room_of_gate):
            if step.run(command, crate.folder) != 0:
                raise Failed((end_of(step.log) or ["it printed nothing"])[-1])
        os.makedirs(os.path.dirname(TRIED), exist_ok=True)
        shutil.copy2(prover.made_by(crate), TRIED)
        if is_same():
            return "book/libbook.a is what the proofs yield, byte for byte"
        if not changed_sources():
            raise Failed(f"book/libbook.a differs from {os.path.relpath(TRIED, ROOT)}, which the same sources yield: git checkout book")
        return "the sources have changed: book/ is written once all has passed"

    return Step("book_is_built", work, f"tools/build.py {BOOK}", most_jobs=MOST_JOBS)


def is_same() -> bool:
    return content(TRIED) == content(LIBRARY) != b""


def service_step() -> Step:
    """The step that compiles the service over the library that was built here, with the profile of `make test`."""

    def work(step: Step) -> str:
        words = [] if is_same() and not fault_of_library() else ["env", f"TOTXEGUN_BOOK={os.path.dirname(TRIED)}"]
        if step.run(["tools/needs", "service"]) or step.run([*words, *LINTING, "test", "--no-run"], limit=CARGO_LIMIT):
            raise Failed((end_of(step.log) or ["it printed nothing"])[-1])
        return "compiled, not proved"

    return Step("service_is_built", work, "tools/cargo build", weight=200)


def steps_after() -> list[Step]:
    """The steps that run the programs and the library after they are built."""
    before = networks()
    last = step_of(*OVER_SERVICE, before)
    last.after = ["service_is_built"]
    return [*[tool_step(*it) for it in TOOL_STEPS], service_step(), last, *[step_of(*it, before) for it in STEPS]]


def printed(*command: str) -> str:
    return subprocess.run(command, cwd=ROOT, stdout=subprocess.PIPE, text=True, check=True).stdout.strip()


def write_book(gate: str) -> None:
    """Writes the library into book/, with PROVENANCE, which says what it was built from and what proved it."""
    revision = printed("git", "log", "-1", "--format=%H", "--", "crates", *BESIDE)[:DIGITS]
    lines = [
        f"sha256 {digest_of(content(TRIED))}",
        f"revision {revision}",
        f"toolchain {printed('rt', 'version')}",
        f"gate {gate}",
        *(f"{name} {digest}" for name, digest in sources().items()),
    ]
    os.makedirs(os.path.dirname(LIBRARY), exist_ok=True)
    shutil.copyfile(TRIED, f"{LIBRARY}.new")
    os.replace(f"{LIBRARY}.new", LIBRARY)
    write(PROVENANCE, "\n".join(lines) + "\n")
    print("book/libbook.a and book/PROVENANCE are written: commit both")


def main(words: list[str]) -> int:
    if words:
        sys.exit(f"usage: {sys.argv[0]}")
    if changed_sources() and printed("git", "status", "--porcelain", "--", "crates", *BESIDE):
        sys.exit("tools/prove.py: crates/ has changes that are not committed: commit them first, since book/PROVENANCE names the commit")
    proofs = Prover()
    with locked(OUT):
        steps = Steps([proofs.step()])
        steps.run()
    passed, failed, times = proofs.passed, proofs.failed, [steps.processor]
    for later in () if failed else (lambda: [book_step()], steps_after):
        if failed:
            break
        steps = Steps(later())
        steps.run()
        passed, failed = passed + len(steps.passed), failed + len(steps.failed) + len(steps.waiting)
        times.append(steps.processor)
        show_end(steps)
    if not failed:
        for name in PROGRAMS:
            install(prover.made_by(read_crates()[name]), name)
        if changed_sources():
            write_book(f"{passed} passed, 0 failed")
    print(f"processor time of the proofs, the library, and what runs over both: {' + '.join(map(shown, times))}")
    print(f"{passed} passed, {failed} failed")
    return 1 if failed else 0


if __name__ == "__main__":
    sys.exit(main(sys.argv[1:]))
