#!/usr/bin/env python3
"""Tests that the shipped unit lets the service know who gives an order.

    tests/who_acts.py TOTXEGUN

The service runs in the user namespace that `PrivateUsers` of operate/totxegun.service gives it: one of its own, which has root alone, if
that is set, and the machine's otherwise. Then root, a user of the socket's group, and root through `sudo` quarantine a sender, and
`acts.jsonl` must name each of them. Needs root.

Each line is a check; the last line counts passes and failures. The status is 1 if one failed, 77 without root.
"""
import contextlib
import json
import os
import re
import subprocess

from testing.checks import Checks
from testing.service import Service
from testing.shipped import folder, run_script, shipped

USER = 12345


def users_of_the_unit() -> list[str]:
    """The words that run a program in the unit's user namespace."""
    found = re.search(r"^PrivateUsers=(\S+)$", shipped("totxegun.service", {}), re.MULTILINE)
    has_own = found is not None and found[1] not in ("no", "false", "off", "0")
    return ["unshare", "--user", "--map-root-user"] if has_own else []


def work(totxegun: str, checks: Checks, stack: contextlib.ExitStack) -> None:
    if not checks.has("who gives an order", *([] if os.geteuid() == 0 else ["root"])):
        return
    at = folder(stack)
    os.chmod(at, 0o755)
    service = Service(totxegun, f"{at}/data", f"sqlite:{at}/sink.db", "--admin", f"unix:{at}/admin.sock", before=users_of_the_unit())
    service.start()
    stack.callback(service.kill)
    checks.true("it is ready", service.wait_ready(), service.last_lines())
    without = {name: text for name, text in os.environ.items() if name != "SUDO_USER"}
    for user, sender, behind in ((0, "A", {}), (USER, "B", {"SUDO_USER": "ann"}), (0, "C", {"SUDO_USER": "ann"})):
        asks = [totxegun, "quarantine", sender, "--admin", f"unix:{at}/admin.sock"]
        said = subprocess.run(["setpriv", f"--reuid={user}", "--regid=0", "--clear-groups", *asks], capture_output=True, text=True,
                              check=False, env=dict(without, **behind))
        wanted = (0, f"done: nothing of {sender} is known yet: its posts will be refused\n")
        checks.same(f"the order of user {user} is taken", wanted, (said.returncode, said.stdout or said.stderr))
    with open(f"{at}/data/acts.jsonl", encoding="utf-8") as file:
        acts = [json.loads(line) for line in file]
    names = {("A", "root"), ("B", f"uid {USER}"), ("C", "ann (as root)")}
    checks.same("each act has who gave it", names, {(act["target"], act["who"]) for act in acts})
    checks.same("SIGTERM ends it", 0, service.end()[0])


if __name__ == "__main__":
    run_script(120, work)
