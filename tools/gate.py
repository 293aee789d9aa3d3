#!/usr/bin/env python3
"""Runs all tests that need no prover: of the sources, of the service, and of the programs around it.

    tools/gate.py

First it refuses to start unless the library in book/ is proved from the current sources (see tools/book.py). Then it runs the steps
listed below. At the end a table has the processor time of each step, and the line before the last has the sum. The last line counts
steps that passed and failed; the status is 0 if none failed. The logs are in out/logs. tools/prove.py tests what the prover sees.
"""
import re
import subprocess
import sys

from tooling.crates import OUT, ROOT
from tooling.files import write
from tooling.scripts import networks, show_end, step_of, tool_step
from tooling.steps import Failed, Step, Steps, end_of, shown
from book import fault_of_library, fault_of_sources, other_processor
from service import made

# The service as cargo's steps below compile it with its tests. The dev profile is used because a release build takes
# twice as long as all of them.
PROGRAM = made("dev")

# Checks of the sources alone: the definitions that docs/PROOFS.md counts and lists, the service's declarations of the
# library, the pictures, the Python, the checksums in Cargo.lock, and whether each wrong copy of the service and each
# edit of the crates can still be applied.
TOOL_STEPS = (
    ("promise_is_counted", ["tools/promise.py", "--check"], 2),
    ("library_is_declared", ["tools/declared.py", "--check"], 1),
    ("words_are_the_fields", ["tools/words.py", "--check"], 5),
    ("pictures_are_drawn", ["tools/pictures.py", "--check"], 2),
    ("python_is_typed", ["tools/python.py", "--check"], 30),
    ("checksums_are_true", ["tools/cargo", "--made-up"], 1),
    ("wrong_copies_can_be_made", ["tools/wrong.py", "--check"], 1),
    ("edits_can_be_made", ["tools/edits.py", "--check"], 1),
)
# Cargo's steps, one after another in one target folder. Each compiles with clippy's compiler, which lints and then
# compiles as rustc does. So `cargo test` also checks what `cargo clippy --all-targets -- -D warnings` does, and nothing
# is compiled twice. Therefore incremental compilation would only cost time.
LINTING = ("env", "RUSTC_WORKSPACE_WRAPPER=clippy-driver", "CLIPPY_ARGS=-Dwarnings", "CARGO_INCREMENTAL=0", "tools/cargo")
CARGO_STEPS = (
    ("service_is_laid_out", ["tools/cargo", "fmt", "--check"]),
    ("service_is_built", [*LINTING, "test", "--no-run"]),
    ("service_tests", [*LINTING, "test"]),
)
# The script, the arguments after the program's path, and about how many seconds it takes.
SERVICE_STEPS: tuple[tuple[str, list[str], int], ...] = (
    ("service_load.py", ["50"], 90),
    ("by_hour.py", ["10"], 50),
    ("clock_jumps.py", ["1"], 20),
    ("service_interrupted.py", ["30"], 60),
    ("retries.py", ["2000", "40"], 40),
    ("close_interrupted.py", ["3"], 60),
    ("behind_proxies.py", [], 60),
    ("store.py", ["60"], 120),
    ("store_goes_back.py", [], 90),
    # Short tests of several machines. `make several` runs more: store_peers.py waits minutes for instances, and
    # under_patroni.py needs etcd and Patroni. Without network namespaces several_machines.py is left out.
    ("orders_anywhere.py", [], 60),
    ("several_machines.py", ["60", "59", "--sink", "otlp"], 100),
    ("store_move.py", ["2"], 60),
    ("demo.py", ["25"], 60),
    ("alerts.py", [], 60),
    ("pages.py", [], 40),
    ("queries.py", [], 60),
    ("influxdb.py", ["15"], 40),
    ("protobuf_bodies.py", [], 40),
    ("handed_on.py", [], 60),
    ("sdk_go.py", ["8"], 60),
    ("tls.py", ["8"], 90),
    ("two_networks.py", ["4"], 40),
    ("web_pages.py", [], 40),
    ("grpc_calls.py", [], 30),
    ("kubernetes.py", [], 10),
    ("collector.py", [], 10),
    ("clients.py", [], 30),
    ("unit_tasks.py", [], 5),
    ("package_installs.py", [], 15),
)
# Scripts that compile a program in Go. They run in turn, since the second one finds what both use in Go's cache.
IN_GO = ("sdk_go.py", "demo.py")
# These run no program.
WITHOUT_PROGRAM = ("service_model.py", "runs_model.py", "sink_model.py", "cluster_model.py", "releases.py", "library.py", "drawn.py",
                   "words.py")
# Of cargo's: they compile, and have all tests of the service in one step.
CARGO_LIMIT = 1800
# Has the commit on which the whole gate has passed here; tools/release.py reads it.
PASSED = f"{OUT}/passed"
# The line that `cargo test` prints after the tests of each binary.
TESTED = re.compile(r"test result: ok\. (\d+) passed")


def cargo_steps() -> list[Step]:
    """Cargo's steps, in order."""
    steps: list[Step] = []
    for name, command in CARGO_STEPS:

        def work(step: Step, command: list[str] = command) -> str:
            if step.run(command, limit=CARGO_LIMIT) != 0:
                raise Failed((end_of(step.log) or ["it printed nothing"])[-1])
            counts = [TESTED.match(line) for line in open(step.log, encoding="utf-8")]
            passed = sum(int(it.group(1)) for it in counts if it)
            return f"{passed} tests passed" if passed else "no fault"

        steps.append(Step(name, work, " ".join(command), after=[it.name for it in steps[-1:]], weight=200))
    return steps


def service_steps(before: list[str]) -> list[Step]:
    """The steps that run scripts; those that run the service wait until it is built."""
    steps = [step_of(it, "", 60, False, []) for it in WITHOUT_PROGRAM]
    for script, words, seconds in SERVICE_STEPS:
        step = step_of(script, " ".join([PROGRAM, *words]), seconds, False, before, "service_")
        step.after = ["service_is_built"]
        if script in IN_GO:
            step.lane = step.lane or "go"
        steps.append(step)
    return steps


def clean_revision() -> str:
    """The current commit, or "" if there are uncommitted changes."""
    return "" if said("git", "status", "--porcelain") else said("git", "rev-parse", "HEAD")


def said(*command: str) -> str:
    """The output of a command, or "" if it fails."""
    ran = subprocess.run(command, cwd=ROOT, stdout=subprocess.PIPE, stderr=subprocess.DEVNULL, text=True, check=False)
    return ran.stdout.strip() if ran.returncode == 0 else ""


def main(words: list[str]) -> int:
    if words:
        sys.exit(f"usage: {sys.argv[0]}")
    if found := other_processor() or fault_of_library() or fault_of_sources():
        sys.exit(f"tools/gate.py: {found}")
    revision = clean_revision()
    before = networks()
    steps = Steps([*[tool_step(*it) for it in TOOL_STEPS], *cargo_steps(), *service_steps(before)])
    steps.run()
    failed = len(steps.failed) + len(steps.waiting)
    show_end(steps)
    if revision and not failed and clean_revision() == revision:
        write(PASSED, f"{revision}\n")
    print(f"processor time: {shown(steps.processor)}")
    print(f"{len(steps.passed)} passed, {failed} failed")
    return 1 if failed else 0


if __name__ == "__main__":
    sys.exit(main(sys.argv[1:]))
