"""Finds the programs that the scripts of this folder measure, and reads what the system says about a process."""
import os
import re
import statistics
import subprocess
import sys
import tempfile
import time
from collections.abc import Sequence

# The kernel's clock of a process's processor time, as the scheduler counts it; clock_getcpuclockid returns the same number.
SCHEDULED = 2


def processor_seconds(pid: int) -> float:
    """The processor time of a process so far, user and system: as in /proc/PID/stat, but in nanoseconds."""
    return time.clock_gettime(~pid << 3 | SCHEDULED)


def memory(pid: int, row: str = "VmRSS") -> int:
    """The memory of a process in bytes: VmRSS is the present value, VmHWM the highest so far. 0 if it has ended."""
    with open(f"/proc/{pid}/status", encoding="ascii") as file:
        found = re.search(rf"^{row}:\s+(\d+)", file.read(), re.MULTILINE)
    return int(found[1]) * 1024 if found else 0


def run_seconds(command: list[str], text: str = "") -> float:
    """The processor time of a whole run with this input."""
    with tempfile.TemporaryFile() as stdin:
        stdin.write(text.encode())
        stdin.seek(0)
        child = subprocess.Popen(command, stdin=stdin, stdout=subprocess.DEVNULL)
        _, status, usage = os.wait4(child.pid, 0)
    if status != 0:
        sys.exit(f"{' '.join(command)} ended with status {status}")
    return float(usage.ru_utime + usage.ru_stime)


def program_at(path: str) -> str:
    """The path of a program. Ends the script if it does not exist."""
    if not os.access(path, os.X_OK):
        sys.exit(f"{sys.argv[0]}: there is no program {path}")
    return path


def numbers(text: str) -> list[int]:
    """A number with commas between thousands."""
    return [int(word) for word in text.split(",")]


def file_system(path: str) -> str:
    """The type of the file system that a file is on."""
    return subprocess.run(["stat", "-f", "-c", "%T", path], stdout=subprocess.PIPE, text=True, check=True).stdout.strip()


def spread(values: Sequence[float], form: str) -> str:
    """The median, with the least and the greatest in brackets if there are several values."""
    middle = f"{statistics.median(values):{form}}"
    return middle if len(values) == 1 else f"{middle} ({min(values):{form}} .. {max(values):{form}})"
