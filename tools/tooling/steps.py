"""Runs steps in parallel, as far as processors and memory allow, and shows how each ended.

Prints a line for each step when it ends: how long it took and its processor time, which is also the last line of its log;
`show_processor_times` shows a table of all. The processor time lacks processes that nobody waited for, such as those of a database
server that runs in the background. On a terminal a last line shows the running steps. If a step fails, the end of its log is shown,
and the command that repeats the step.
"""
from __future__ import annotations

import contextlib
import fcntl
import os
import queue
import re
import resource
import shutil
import signal
import subprocess
import sys
import threading
import time
from collections.abc import Callable, Iterable, Iterator, Sequence

from tooling.crates import OUT, ROOT

LOGS = f"{OUT}/logs"
GIGABYTE = 1_000_000_000
# The memory that each further job of a check may take.
JOB_MEMORY = 3 * GIGABYTE // 2
# A step gets several jobs if its chain is nearly as long as the longest; if its chain is short, its processes get a lower priority.
NEARLY = 0.9
SHORT = 0.5
END_OF_LOG = 30
MOST_ERRORS = 10
# How long an interrupted step may clean up, in seconds.
TIME_TO_END = 60
# The limit and the use of memory in control groups, version 2 and version 1.
GROUPS = (
    ("/sys/fs/cgroup/memory.max", "/sys/fs/cgroup/memory.current"),
    ("/sys/fs/cgroup/memory/memory.limit_in_bytes", "/sys/fs/cgroup/memory/memory.usage_in_bytes"),
)


class Failed(Exception):
    """Why a step failed, in a few words."""


class Step:
    """A piece of work with a name.

    `work` is called with the step; it returns the note for the step's line, or raises Failed.
    `after` names the steps that must pass before this one begins; `weight` is about how long it takes, compared with others.
    No two steps of the same `lane` run at once, and no step runs beside one that is `alone`.
    The processes of a step that `yields` have a lower priority.
    """

    def __init__(self, name: str, work: Callable[[Step], str], again: str, after: Sequence[str] = (),
                 weight: int = 1, memory: int = 0, most_jobs: int = 1, lane: str | None = None,
                 alone: bool = False, log: str | None = None) -> None:
        self.name = name
        self.work = work
        self.again = again
        self.after = after
        self.weight = weight
        self.memory = memory
        self.most_jobs = most_jobs
        self.lane = lane
        self.alone = alone
        self.jobs = 1
        self.yields = False
        self.count = ""
        self.begun = time.monotonic()
        self.user = self.system = 0.0  # seconds of processor time
        self.say: Callable[[str], object] = print
        self.log = f"{LOGS}/{log or name}.log"

    @property
    def processor(self) -> float:
        return self.user + self.system

    def needs(self, jobs: int) -> int:
        return self.memory + JOB_MEMORY * (jobs - 1) if self.memory else 0

    def run(self, command: Sequence[str], folder: str = ROOT, read_line: Callable[[str], object] | None = None,
            limit: float | None = None) -> int:
        """Runs a command, writes its output to the log, passes each line to `read_line`, and returns the status. Stops
        the command and raises Failed after `limit` seconds."""
        with open(self.log, "a", encoding="utf-8") as log:
            child = CHILDREN.start(["nice", *command] if self.yields else command, folder)
            clock = threading.Timer(limit or threading.TIMEOUT_MAX, CHILDREN.stop, [child])
            clock.daemon = True
            clock.start()
            for line in child.stdout:
                log.write(line)
                if read_line:
                    read_line(line)
            status, used = CHILDREN.end(child)
            self.user += used.ru_utime
            self.system += used.ru_stime
            is_late = limit and not clock.is_alive()
            clock.cancel()
        if is_late:
            raise Failed(f"it had not ended after {limit} s")
        return status


class Children:
    """The processes of all steps. Each leads a process group, so that an interrupt also ends its children. All are in one session,
    because Linux shares the processors among sessions first, and only within a session by priority.
    """

    def __init__(self) -> None:
        self.lock = threading.Lock()
        self.running: set[subprocess.Popen[str]] = set()
        self.is_ending = False

    def start(self, command: Sequence[str], folder: str) -> subprocess.Popen[str]:
        with self.lock:
            if self.is_ending:
                raise Failed("interrupted")
            child = subprocess.Popen(command, cwd=folder, text=True, errors="replace", process_group=0,
                                     stdin=subprocess.DEVNULL, stdout=subprocess.PIPE, stderr=subprocess.STDOUT)
            self.running.add(child)
        return child

    def end(self, child: subprocess.Popen[str]) -> tuple[int, resource.struct_rusage]:
        """Waits for a process. Returns its status and the processor time of the process and of all children that were waited for."""
        os.waitid(os.P_PID, child.pid, os.WEXITED | os.WNOWAIT)
        with self.lock:
            # After wait4 another process may get the number, so `stop` must not signal it any more.
            self.running.discard(child)
            _, status, used = os.wait4(child.pid, 0)
        child.returncode = os.waitstatus_to_exitcode(status)
        return child.returncode, used

    def stop(self, child: subprocess.Popen[str]) -> None:
        """Sends SIGTERM to a process and its group."""
        with self.lock:
            if child in self.running:
                os.killpg(child.pid, signal.SIGTERM)

    def end_all(self) -> None:
        with self.lock:
            self.is_ending = True
            running = [*self.running]
        for child in running:
            self.stop(child)


CHILDREN = Children()


class Board:
    """The output: lines that stay, and on a terminal a last line that changes."""

    def __init__(self, whole: int) -> None:
        self.whole = whole
        self.ended = 0
        self.begun = time.monotonic()
        self.moves = sys.stdout.isatty()

    def say(self, text: str) -> None:
        print(f"\r\033[K{text}" if self.moves else text, flush=True)

    def show(self, running: Iterable[Step]) -> None:
        """Redraws the last line."""
        if self.moves:
            now = time.monotonic()
            words = ", ".join(f"{step.name} {step.count or shown(now - step.begun)}" for step in running)
            line = f"{self.ended} of {self.whole} in {shown(time.monotonic() - self.begun)}: {words}"
            width = shutil.get_terminal_size().columns - 1
            print(f"\r\033[K{line[:width]}", end="", flush=True)

    def clear(self) -> None:
        print("\r\033[K" if self.moves else "", end="", flush=True)

    def show_end(self, step: Step, seconds: float, note: str, passed: bool) -> None:
        self.ended += 1
        place = f"{self.ended:>{len(str(self.whole))}} of {self.whole}"
        times = f"{shown(seconds):>6}  cpu {shown(step.processor):>6}"
        self.say(f"{place}  {step.name:<24} {times}  {note if passed else 'FAILED: ' + note}")
        if not passed and not CHILDREN.is_ending:
            for line in end_of(step.log):
                self.say(f"    | {line}")
            self.say(f"    The whole log is {os.path.relpath(step.log)}. Again: {step.again}")


def shown(seconds: float) -> str:
    """A duration as text."""
    seconds = round(seconds)
    return f"{seconds} s" if seconds < 100 else f"{seconds // 60}:{seconds % 60:02}"


def end_of(log: str) -> list[str]:
    """The end of a log, and the errors before it."""
    try:
        with open(log, encoding="utf-8") as file:
            return end_of_lines([line.rstrip("\n") for line in file])
    except FileNotFoundError:
        return []


def end_of_lines(lines: list[str]) -> list[str]:
    errors = [line for line in lines[:-END_OF_LOG] if ": error" in line]
    return errors[:MOST_ERRORS] + lines[-END_OF_LOG:]


def number_in(file: str) -> int | None:
    """The number in a file; None if it has none or cannot be read."""
    try:
        with open(file, encoding="utf-8") as it:
            return int(it.read())
    except (OSError, ValueError):
        return None


def free_memory() -> int:
    """The memory in bytes that is available on the machine and within its control group."""
    with open("/proc/meminfo", encoding="utf-8") as file:
        free = 1024 * int(re.search(r"MemAvailable:\s+(\d+)", file.read())[1])
    for limit, used in GROUPS:
        most, taken = number_in(limit), number_in(used)
        if most and taken is not None:
            free = min(free, most - taken)
    return free


class Steps:
    """Steps that run as soon as the steps before them have passed, the longest chain first."""

    def __init__(self, steps: list[Step]) -> None:
        self.waiting = list(steps)
        self.running: dict[Step, threading.Thread] = {}
        self.passed: set[str] = set()
        self.failed: list[Step] = []
        self.ends: list[Step] = []
        self.ended: queue.Queue[tuple[Step, float, bool, str]] = queue.Queue()
        self.processors = len(os.sched_getaffinity(0))
        self.memory = free_memory()
        self.board = Board(len(self.waiting))
        self.chain = chains(self.waiting)
        self.waiting.sort(key=lambda step: -self.chain[step.name])

    def run(self) -> bool:
        """Runs all steps, except those after a step that fails. Returns whether all passed."""
        os.makedirs(LOGS, exist_ok=True)
        for it in (signal.SIGINT, signal.SIGTERM, signal.SIGHUP):
            # nohup ignores SIGHUP, and it must stay ignored.
            if it != signal.SIGHUP or signal.getsignal(it) != signal.SIG_IGN:
                signal.signal(it, interrupt)
        try:
            while self.begin_some() or self.running:
                self.board.show(self.running)
                try:
                    self.hear(*self.ended.get(timeout=0.5))
                except queue.Empty:
                    pass
        except KeyboardInterrupt:
            signal.signal(signal.SIGINT, signal.SIG_IGN)
            CHILDREN.end_all()
            for thread in self.running.values():
                thread.join(TIME_TO_END)
            self.board.say("interrupted")
            sys.exit(130)
        self.board.clear()
        if self.waiting:
            self.board.say(f"not begun: {' '.join(step.name for step in self.waiting)}")
        return not self.failed and not self.waiting

    def begin_some(self) -> bool:
        """Begins all steps that can begin now. Returns whether any did."""
        begun = False
        for step in [it for it in self.waiting if self.passed.issuperset(it.after)]:
            jobs = self.jobs_for(step)
            if jobs:
                begun = True
                step.jobs = jobs
                step.yields = step.most_jobs > 1 and self.part(step) < SHORT
                step.say = self.board.say
                self.waiting.remove(step)
                self.running[step] = threading.Thread(target=self.work, args=(step,), daemon=True)
                self.running[step].start()
        return begun

    def jobs_for(self, step: Step) -> int:
        """The number of jobs for a step, as far as memory allows. It is 0 if the step must wait, `most_jobs` if the
        step's chain is nearly the longest, and otherwise what the processors have left, at least 1."""
        if self.running and self.has_to_wait(step):
            return 0
        left = self.processors - sum(it.jobs for it in self.running)
        jobs = step.most_jobs if self.part(step) >= NEARLY else max(1, min(left, step.most_jobs))
        room = self.memory - sum(it.needs(it.jobs) for it in self.running)
        while jobs > 1 and step.needs(jobs) > room:
            jobs -= 1
        return jobs if not self.running or step.needs(jobs) <= room else 0

    def has_to_wait(self, step: Step) -> bool:
        """Whether the step must wait for running steps, whatever memory there is."""
        is_apart = step.alone or any(it.alone for it in self.running)
        is_in_lane = any(it.lane and it.lane == step.lane for it in self.running)
        return is_apart or is_in_lane or len(self.running) >= self.processors

    def part(self, step: Step) -> float:
        """The step's chain as a fraction of the longest chain that is left."""
        return self.chain[step.name] / max(self.chain[it.name] for it in [*self.running, *self.waiting])

    def work(self, step: Step) -> None:
        step.begun = time.monotonic()
        try:
            with open(step.log, "w", encoding="utf-8"):
                pass
            end = (True, step.work(step))
        except Failed as why:
            end = (False, str(why))
        except BaseException as fault:
            end = (False, f"{type(fault).__name__}: {fault}")
        self.ended.put((step, time.monotonic() - step.begun, *end))

    def hear(self, step: Step, seconds: float, passed: bool, note: str) -> None:
        del self.running[step]
        self.ends.append(step)
        if passed:
            self.passed.add(step.name)
        else:
            self.failed.append(step)
        self.board.show_end(step, seconds, note, passed)
        with open(step.log, "a", encoding="utf-8") as log:
            log.write(f"processor time: user {step.user:.1f} s, system {step.system:.1f} s\n")

    @property
    def processor(self) -> float:
        """The processor seconds of all steps that have ended."""
        return sum(step.processor for step in self.ends)

    def show_processor_times(self) -> None:
        """Prints a table of the steps that have ended, the most expensive first."""
        self.board.say(f"{'processor time':<24} {'all':>7} {'user':>7} {'system':>7}  in seconds")
        for step in sorted(self.ends, key=lambda it: -it.processor):
            self.board.say(f"{step.name:<24} {step.processor:7.1f} {step.user:7.1f} {step.system:7.1f}")


def chains(steps: Sequence[Step]) -> dict[str, int]:
    """The weight of each step plus that of the longest chain of steps that wait for it."""
    behind = {step.name: 0 for step in steps}
    weight = {step.name: step.weight for step in steps}
    # Steps are listed after those that they wait for.
    for step in reversed(steps):
        for name in step.after:
            behind[name] = max(behind[name], weight[step.name] + behind[step.name])
    return {name: weight[name] + behind[name] for name in behind}


@contextlib.contextmanager
def locked(folder: str) -> Iterator[None]:
    """Locks a folder while the context lasts, as `rt` does. Waits until nobody else has it locked."""
    os.makedirs(folder, exist_ok=True)
    held = os.open(folder, os.O_RDONLY)
    try:
        try:
            fcntl.flock(held, fcntl.LOCK_EX | fcntl.LOCK_NB)
        except BlockingIOError:
            print(f"waiting for another run in {os.path.relpath(folder)}", flush=True)
            fcntl.flock(held, fcntl.LOCK_EX)
        yield
    finally:
        os.close(held)


def interrupt(*_: object) -> None:
    raise KeyboardInterrupt
