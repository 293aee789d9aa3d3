#!/usr/bin/env python3
"""Builds wrong copies of the service: for each a test must find the mistake.

    tools/wrong.py [NAME ..]
    tools/wrong.py --check            only checks that each can be made and that its test exists: a step of the gate, builds nothing
    tools/wrong.py --right [NAME ..]  checks that their tests pass on the unchanged service; otherwise a test that fails proves nothing

Each file service/wrong/NAME.edit breaks one rule and names the test that must find it: a script of tests/ with the arguments after
its program, or the arguments of `cargo test`. The other lines are `file:`, `old:` and `new:`, as in an edit of a crate; the old text
must occur exactly once in the file. The edits are tried one after another: the copy is built in out/wrong over the library in book/
or in $TOTXEGUN_BOOK, and the test runs on it up to three times, until a check of what was accepted, sent or refused fails. The first
such failure ends the run. A mistake is not found if the copy cannot be built or does not start.

It prints a line for each edit. The last line counts the edits that were found and not found; the status is 0 if all were found.
The logs are in out/logs.
"""
import contextlib
import functools
import os
import re
import shutil
import signal
import subprocess
import sys
import tempfile
import threading
import time
from collections.abc import Iterator
from typing import NamedTuple

from tooling.crates import OUT, ROOT
from tooling.files import content, text_of, write
from tooling.steps import LOGS

EDITS = f"{ROOT}/service/wrong"
FOLDER = f"{OUT}/wrong"
# The dev profile, as for tests, compiles quickly; a copy is built over what the copies before it have compiled.
PROGRAM = f"{FOLDER}/service/target/debug/totxegun"
CARGO = f"{FOLDER}/tools/cargo"
# The parts of service/ that are copied, and other files that the build of its program and tests reads.
PARTS = ("Cargo.toml", "Cargo.lock", "build.rs", "rustfmt.toml", "clippy.toml", "src", "tests")
BESIDE = ("VERSION", "docs/FORMATS.md", "docs/OPERATING.md")
# The library that a copy is linked with.
BOOK = os.path.abspath(os.environ.get("TOTXEGUN_BOOK") or f"{ROOT}/book")
# The limit of runs of a test. Each run of the load test has another seed, which comes after its seconds.
RUNS = 3
LOAD = "service_load.py"
# The beginning of a failed check that proves that the test saw the mistake: something accepted, sent or refused is
# wrong. A check that only says that the service did not start, or was late, does not count.
SEEN = re.compile(r"failed: [^:]*: (?:no post was answered otherwise|late repeats|the service found nothing|no spans|a key brings"
                  r"|posts are answered|the sink has|\[|it went on|a post was answered|.* found 'it serves'$)|test .* FAILED$")
LIMIT = 1200
# The files of a test are kept in memory if this folder exists.
MEMORY = "/dev/shm" if os.access("/dev/shm", os.W_OK) else None


class BadEdit(Exception):
    """Why an edit cannot be applied."""


def copy_service() -> None:
    """Copies the current service over the last copy, and keeps what earlier copies have compiled."""
    os.makedirs(f"{FOLDER}/service", exist_ok=True)
    os.makedirs(f"{FOLDER}/tools", exist_ok=True)
    os.makedirs(f"{FOLDER}/docs", exist_ok=True)
    shutil.copy(f"{ROOT}/tools/cargo", CARGO)
    for path in BESIDE:
        shutil.copy(f"{ROOT}/{path}", f"{FOLDER}/{path}")
    for part in PARTS:
        source, copy = f"{ROOT}/service/{part}", f"{FOLDER}/service/{part}"
        if os.path.isdir(source):
            shutil.rmtree(copy, ignore_errors=True)
            # `shutil.copy` gives the files new times; with the old ones cargo would not see that an edit is gone.
            shutil.copytree(source, copy, copy_function=shutil.copy)
        elif os.path.exists(source):
            shutil.copy(source, copy)


class Edit(NamedTuple):
    test: str
    # The changed text of each file of service/, by its path.
    files: dict[str, str]


def read_edit(name: str) -> Edit:
    test = path = old = ""
    files: dict[str, str] = {}
    for line in content(f"{EDITS}/{name}.edit").decode().splitlines():
        key, _, text = line.partition(":")
        text = text.removeprefix(" ")
        if key == "test":
            test = text
        elif key == "file":
            path = text
        elif key == "old":
            old = text
        elif key == "new":
            whole = files.get(path) or content(f"{ROOT}/service/{path}").decode()
            if whole.count(old) != 1:
                raise BadEdit(f"its old text is in the file {whole.count(old)} times: {old}")
            files[path] = whole.replace(old, text)
        else:
            raise BadEdit(f"what this line says isn't known: {line}")
    return Edit(test, files)


def make(edit: Edit) -> None:
    """Applies an edit to the copy."""
    for path, text in edit.files.items():
        write(f"{FOLDER}/service/{path}", text)


@functools.cache
def names_of_tests(folder: str) -> str:
    """The names of all functions in a folder of service/, one in each line."""
    files = [f"{place}/{file}" for place, _, found in os.walk(f"{ROOT}/service/{folder}") for file in found]
    return "\n".join(name for file in files if file.endswith(".rs") for name in re.findall(r"fn (\w+)", text_of(file)))


def check(name: str) -> None:
    """Raises BadEdit if the edit cannot be applied or its test does not exist."""
    edit = read_edit(name)
    if all(text == content(f"{ROOT}/service/{path}").decode() for path, text in edit.files.items()):
        raise BadEdit("it changes nothing")
    command, *_ = runs(edit.test)
    if command[0] == CARGO:
        folder = "src" if "--lib" in command else f"tests/{command[command.index('--test') + 1]}"
        test = command[-1].rpartition("::")[2]
        if test not in names_of_tests(folder):
            raise BadEdit(f"no test of this name: {test}")


def check_all(names: list[str]) -> int:
    bad = 0
    for name in names:
        try:
            check(name)
        except (BadEdit, OSError) as fault:
            print(f"BAD EDIT {name}: {fault}")
            bad += 1
    print(f"{len(names) - bad} passed, {bad} failed")
    return 1 if bad else 0


def runs(test: str) -> list[list[str]]:
    """The command of each run of a test."""
    if not test:
        raise BadEdit("it names no test")
    script, *words = test.split()
    if script == "cargo":
        return [[CARGO, *words]] * RUNS
    if not os.access(f"{ROOT}/tests/{script}", os.X_OK):
        raise BadEdit(f"no test of this name: {script}")
    command = [f"{ROOT}/tests/{script}", PROGRAM]
    if script != LOAD:
        return [[*command, *words]] * RUNS
    return [[*command, words[0], str(seed), *words[1:]] for seed in range(1, RUNS + 1)]


def end(child: subprocess.Popen[str]) -> None:
    """Kills a test with all processes that it has started."""
    with contextlib.suppress(ProcessLookupError):
        os.killpg(child.pid, signal.SIGKILL)


def run(command: list[str], log: str, folder: str) -> tuple[int, str | None]:
    """Runs a command until it ends or a check has seen the mistake. Returns its status, and the text of that check."""
    # "whole" makes tests that draw a sample of their runs make all: the gate's sample may miss the mistake.
    environment = dict(os.environ, TOTXEGUN_BOOK=BOOK, TOTXEGUN_TESTS="whole", TMPDIR=folder)
    child = subprocess.Popen(command, stdout=subprocess.PIPE, stderr=subprocess.STDOUT, text=True, errors="replace",
                             process_group=0, env=environment)
    clock = threading.Timer(LIMIT, end, [child])
    clock.start()
    seen = None
    with open(log, "a", encoding="utf-8") as file:
        for line in child.stdout:
            file.write(line)
            if not seen and SEEN.match(line):
                seen = line.strip().removeprefix("failed: ")
                end(child)
    clock.cancel()
    return child.wait(), seen


@contextlib.contextmanager
def built(command: list[str], log: str) -> Iterator[str]:
    """Builds what the test runs from the copy, and returns a folder for the test's files."""
    open(log, "w", encoding="utf-8").close()
    words = [*command[1:], "--no-run"] if command[0] == CARGO else ["build"]
    with tempfile.TemporaryDirectory(dir=MEMORY, prefix="wrong-", ignore_cleanup_errors=True) as folder:
        # A server that a test starts runs as another user, who must be able to enter the folder.
        os.chmod(folder, 0o755)
        if run([CARGO, *words, "--quiet"], log, folder)[0] != 0:
            raise BadEdit(f"it can't be built: {log}")
        yield folder


def check_that_finds(name: str) -> str | None:
    """The first check that fails because of the mistake; None if no check does."""
    log = f"{LOGS}/wrong-{name}.log"
    edit = read_edit(name)
    copy_service()
    make(edit)
    commands = runs(edit.test)
    with built(commands[0], log) as folder:
        return next((seen for command in commands if (seen := run(command, log, folder)[1])), None)


def try_right(names: list[str]) -> int:
    """Runs each test once on the unchanged service."""
    copy_service()
    tests = sorted({read_edit(name).test for name in names})
    failed = 0
    for place, test in enumerate(tests):
        command, log = runs(test)[0], f"{LOGS}/wrong-right-{place}.log"
        with built(command, log) as folder:
            status = run(command, log, folder)[0]
        failed += status != 0
        print(f"passes: {test}" if status == 0 else f"FAILS: {test}: {log}", flush=True)
    print(f"{len(tests) - failed} passed, {failed} failed")
    return 1 if failed else 0


def main(names: list[str]) -> int:
    all_names = sorted(file.removesuffix(".edit") for file in os.listdir(EDITS) if file.endswith(".edit"))
    if names == ["--check"]:
        return check_all(all_names)
    os.makedirs(LOGS, exist_ok=True)
    if names[:1] == ["--right"]:
        return try_right(names[1:] or all_names)
    names = names or all_names
    found = 0
    for name in names:
        begun = time.monotonic()
        try:
            check = check_that_finds(name)
        except (BadEdit, OSError) as fault:
            print(f"BAD EDIT {name}: {fault}", flush=True)
            continue
        found += check is not None
        seconds = time.monotonic() - begun
        print(f"{'found' if check else 'NOT FOUND'}: {name}, {seconds:.0f} s: {(check or '')[:200]}", flush=True)
    print(f"{found} found, {len(names) - found} not found", flush=True)
    return 0 if found == len(names) else 1


if __name__ == "__main__":
    sys.exit(main(sys.argv[1:]))
