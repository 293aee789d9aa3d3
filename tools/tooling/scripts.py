"""Steps that run a script of tests/ or a command of tools/, and the summary of failed steps."""
import re
import subprocess

from tooling.crates import ROOT
from tooling.steps import Failed, Step, Steps, end_of

# The time limit of a script, in seconds.
STEP_LIMIT = 600
# Gives each step a network namespace, so that no step can take another's port.
OWN_NETWORK = "tools/own_network.py"
# The status of a script that left something out because a program is not installed; its last line says which.
LEFT_OUT = 77
# Lines of a log that name a fault, how many of them the summary shows, and how much of each.
FAULT = re.compile(r"failed:|error|test .* FAILED$")
MOST_FAULTS = 5
FAULT_WIDTH = 600


def networks() -> list[str]:
    """The words before a script that give it a network namespace; empty if this machine does not permit one."""
    ran = subprocess.run([OWN_NETWORK, "true"], cwd=ROOT, stderr=subprocess.DEVNULL)
    return [OWN_NETWORK] if ran.returncode == 0 else []


def step_of(script: str, program: str, seconds: int, is_timed: bool, before: list[str], of: str = "") -> Step:
    """The step that runs a script of tests/ on a program, after the words `before`. Without these words steps share the
    ports, so they run in turn."""
    command = [f"tests/{script}", *program.split()]

    def work(step: Step) -> str:
        status = step.run([*before, *command], limit=STEP_LIMIT)
        last = (end_of(step.log) or ["it printed nothing"])[-1]
        if status not in (0, LEFT_OUT):
            raise Failed(last)
        return f"LEFT OUT: {last}" if status == LEFT_OUT else last

    name = of + script.partition(".")[0].removeprefix(of)
    lane = None if before else "ports"
    return Step(name, work, " ".join(command), weight=seconds, lane=lane, alone=is_timed)


def tool_step(name: str, command: list[str], seconds: int) -> Step:
    """The step that runs a command of tools/."""

    def work(step: Step) -> str:
        status = step.run(command, limit=STEP_LIMIT)
        last = (end_of(step.log) or ["it printed nothing"])[-1]
        if status != 0:
            raise Failed(last)
        return last

    return Step(name, work, " ".join(command), weight=seconds)


def show_faults(step: Step) -> None:
    """Prints the faults in a failed step's log. They come at the end, so that they are seen after a long output."""
    with open(step.log, encoding="utf-8") as log:
        faults = [line.rstrip("\n") for line in log if FAULT.match(line)]
    for line in faults[:MOST_FAULTS]:
        print(f"{step.name}: {line[:FAULT_WIDTH]}")


def show_end(steps: Steps) -> None:
    """Prints the processor time of each finished step, and the faults of those that failed."""
    steps.show_processor_times()
    for step in steps.failed:
        show_faults(step)
