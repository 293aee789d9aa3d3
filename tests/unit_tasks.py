#!/usr/bin/env python3
"""Tests that the shipped unit allows enough threads for the service.

    tests/unit_tasks.py TOTXEGUN

The service starts with the largest --threads, and its threads are counted while senders post. With the threads that
long work may add, they
must be within TasksMax of operate/totxegun.service, because work fails if its thread cannot be started.

Each line is a check; the last line counts passes and failures. The status is 1 if one failed.
"""
import contextlib
import os
import re
import threading

from testing.checks import Checks
from testing.service import Sender, Service
from testing.shipped import folder, run_script, shipped

MOST_THREADS = 64
# The threads of long work: how many of each of these, and of all others together.
LONG_WORK, OTHER_LONG_WORK = 2, 16
SENDERS, POSTS = 8, 40


def threads(service: Service) -> int:
    return len(os.listdir(f"/proc/{service.process.pid}/task"))


def post_all(service: Service) -> list[tuple[int | None, bytes]]:
    """Posts by several senders at once, and returns the unexpected answers."""
    senders = [Sender(service, number) for number in range(SENDERS)]

    def go_on(sender: Sender) -> None:
        for _ in range(POSTS):
            sender.post(sender.next_points())
    posting = [threading.Thread(target=go_on, args=(sender,), daemon=True) for sender in senders]
    for thread in posting:
        thread.start()
    for thread in posting:
        thread.join(60)
    return [it for sender in senders for it in sender.surprises]


def work(totxegun: str, checks: Checks, stack: contextlib.ExitStack) -> None:
    at = folder(stack)
    service = Service(totxegun, f"{at}/data", f"sqlite:{at}/sink.db", "--threads", str(MOST_THREADS))
    service.start()
    stack.callback(service.kill)
    checks.true("it is ready", service.wait_ready(), service.last_lines())
    before = threads(service)
    checks.true(f"it has {MOST_THREADS} threads for senders", before >= MOST_THREADS, before)
    checks.same("posts are taken", [], post_all(service))
    taken = before + LONG_WORK * MOST_THREADS + OTHER_LONG_WORK
    most = int(re.search(r"^TasksMax=(\d+)$", shipped("totxegun.service", {}), re.MULTILINE)[1])
    checks.true("the threads that it has after posts are of these", threads(service) <= taken, (threads(service), taken))
    checks.true(f"the unit has room for them: {taken} of {most}", taken <= most, "")
    checks.same("SIGTERM ends it", 0, service.end()[0])


if __name__ == "__main__":
    run_script(120, work, ("TOTXEGUN",))
