"""Checks: prints a line for each check, and a last line that counts passes and failures."""
import threading

# The exit status of a script that left a part out because a program is not installed.
LEFT_OUT = 77


class Checks:
    """Counts checks that passed and failed. Threads may share it."""

    def __init__(self) -> None:
        self.lock = threading.Lock()
        self.passed = self.failed = 0
        self.left_out = False

    def true(self, what: str, holds: object, found: object) -> None:
        with self.lock:
            if holds:
                self.passed += 1
                print(f"passed: {what}", flush=True)
            else:
                self.failed += 1
                print(f"failed: {what}: {found}", flush=True)

    def same(self, what: str, wanted: object, found: object) -> None:
        self.true(what, wanted == found, f"wanted {wanted!r}, found {found!r}")

    def between(self, what: str, least: float, most: float, seconds: float) -> None:
        self.true(what, least <= seconds <= most, f"{seconds:.1f} seconds")

    def has(self, what: str, *missing: str) -> bool:
        """Returns whether nothing is missing; if something is, prints one line that says what is left out."""
        if missing:
            self.left_out = True
            print(f"left out: {what}, missing: {' '.join(missing)}", flush=True)
        return not missing

    def end(self) -> int:
        """Prints the last line of the script and returns its exit status."""
        if self.passed or self.failed or not self.left_out:
            print(f"{self.passed} passed, {self.failed} failed", flush=True)
        if self.failed:
            return 1
        return LEFT_OUT if self.left_out else 0
