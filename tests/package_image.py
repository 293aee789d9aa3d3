#!/usr/bin/env python3
"""The image of `make image`, and its program as process 1.

    tests/package_image.py IMAGE

The image is unpacked and run as a container's runtime would: in namespaces of its own for processes, mounts and the network, with
its own user, variables and words, and nothing of this machine but /proc and a few devices. Senders post; SIGTERM ends it in ten
seconds with status 0 and all that was taken in the outbox; a start on the same folder delivers that. The operator asks from
inside, as `exec` does.

Each line is a check; the last line counts passes and failures. The status is 0 if none failed, 77 where
the machine can't have it.
"""
import json
import os
import re
import shutil
import signal
import subprocess
import sys
import tarfile
import tempfile
import time
from typing import Any

from testing import ROOT
from testing.checks import Checks
from testing.service import Sender, SqliteSink, Value, add_points, differences, told_to_all, wait_until
from tooling.files import text_there

LISTEN = 4318
NOBODY = 65534
TIME_TO_END = 10
PROGRAM = "/usr/bin/totxegun"
MADE_OF = [f"/usr/share/doc/totxegun/{name}" for name in ("LICENCES.txt", "totxegun.spdx.json")]
LIBRARY = re.compile(r"/(usr/)?lib(64)?/(x86_64-linux-gnu/)?[\w.+-]+\.so\.\d+$")

# What a runtime gives: processes, and a few devices.
MOUNTS = """\
set -e
mount --make-rprivate /
mkdir -p {root}/proc {root}/dev
mount -t proc proc {root}/proc
mount -t tmpfs -o mode=755 tmpfs {root}/dev
for node in null zero full random urandom tty; do touch {root}/dev/$node; mount --bind /dev/$node {root}/dev/$node; done
exec "$@"
"""


class Service:
    """What a sender has to know of it."""
    listen = LISTEN


def unpacked(image: str, folder: str) -> tuple[dict[str, Any], str]:
    """The image's settings and the folder with its files."""
    with tarfile.open(image) as archive:
        manifest = json.load(archive.extractfile("manifest.json"))[0]
        settings = json.load(archive.extractfile(manifest["Config"]))["config"]
        for layer in manifest["Layers"]:
            with tarfile.open(fileobj=archive.extractfile(layer)) as files:
                files.extractall(f"{folder}/root", filter="fully_trusted", numeric_owner=True)  # type: ignore[call-arg]
    return settings, f"{folder}/root"


class Container:
    """The image's words as process 1 of namespaces of its own."""

    def __init__(self, settings: dict[str, Any], root: str, log: str) -> None:
        self.settings, self.root, self.log = settings, root, log
        self.process: subprocess.Popen[bytes] = None
        self.pid: str = None

    def start(self) -> bool:
        # There is no env inside: variables are set before the root is changed. What the senders post is of 1970.
        variables = [*self.settings["Env"], "TOTXEGUN_KEEP_INTERVALS=forever"]
        inner = ["env", "-i", *variables, "/usr/sbin/chroot", f"--userspec={self.settings['User']}", self.root,
                 *self.settings["Entrypoint"], *self.settings["Cmd"]]
        script = MOUNTS.format(root=self.root)
        words = ["setpriv", "--pdeathsig", "KILL", "unshare", "--pid", "--mount", "--uts", "--ipc", "--fork", "--kill-child",
                 "sh", "-c", script, "sh", *inner]
        with open(self.log, "ab") as log:
            self.process = subprocess.Popen(words, stdin=subprocess.DEVNULL, stdout=log, stderr=log)
        return wait_until(lambda: self.process.poll() is not None or self.is_ready(), 30) and self.process.poll() is None

    def is_ready(self) -> bool:
        children = text_there(f"/proc/{self.process.pid}/task/{self.process.pid}/children").split()
        self.pid = children[0] if children else None
        return self.pid is not None and self.said("status")[0] == 0

    def said(self, *words: str) -> tuple[int, str]:
        """A command of the program inside: its status, and what it printed."""
        inside = ["nsenter", "--target", self.pid, "--mount", "--pid", "--uts", "--ipc", "--root", "--wd", "--", PROGRAM, *words]
        ran = subprocess.run(inside, stdin=subprocess.DEVNULL, stdout=subprocess.PIPE, stderr=subprocess.STDOUT, text=True,
                             check=False, timeout=60, env=dict[str, str]())
        return ran.returncode, ran.stdout

    def stop(self) -> tuple[int | None, float]:
        """As a runtime stops it: the status, and how many seconds it took."""
        begun = time.monotonic()
        os.kill(int(self.pid), signal.SIGTERM)
        try:
            return self.process.wait(60), time.monotonic() - begun
        except subprocess.TimeoutExpired:
            self.end()
            return None, time.monotonic() - begun

    def is_drained(self) -> bool:
        """Whether the sink has all that was flushed."""
        status, text = self.said("status", "--json")
        return status == 0 and all(shard["waiting"] == 0 for shard in json.loads(text)["shards"])

    def end(self) -> None:
        if self.process and self.process.poll() is None:
            self.process.kill()
            self.process.wait()


def look_at_files(checks: Checks, root: str, settings: dict[str, str]) -> None:
    files = {f"{at}/{name}"[len(root):] for at, _, names in os.walk(root) for name in names}
    more = sorted(path for path in files if not LIBRARY.match(path))
    checks.same("it has the program, what all is made of, and nothing else but what it loads", [PROGRAM, *MADE_OF], more)
    checks.same("the data's folder is its user's", NOBODY, os.stat(f"{root}/var/lib/totxegun").st_uid)
    wanted = {"Entrypoint": [PROGRAM], "Cmd": ["serve"], "User": f"{NOBODY}:{NOBODY}", "StopSignal": "SIGTERM",
              "ExposedPorts": {"4318/tcp": {}}, "Volumes": {"/var/lib/totxegun": {}}}
    checks.same("its settings", wanted, {name: settings.get(name) for name in wanted})


def run(checks: Checks, container: Container) -> None:
    checks.true("it serves as process 1", container.start(), text_there(container.log)[-2000:])
    if container.process.poll() is not None:
        return
    status = text_there(f"/proc/{container.pid}/status")
    checks.true("it is process 1", re.search(r"^NSpid:.*\t1$", status, re.M) is not None, status)
    checks.true("of a user without rights", f"Uid:\t{NOBODY}\t" in status and "CapEff:\t0000000000000000" in status, status)
    version = container.said("version")
    checks.true("its version says whether its book was proved", "; book: " in version[1], version)
    senders = [Sender(Service, number) for number in range(3)]
    for sender in senders:
        for _ in range(20):
            sender.post(sender.next_points())
    checks.same("posts are taken", [], [it for sender in senders for it in sender.surprises])
    ended, seconds = container.stop()
    log = text_there(container.log)
    checks.true(f"SIGTERM ends it with status 0 in {TIME_TO_END} s", ended == 0 and seconds <= TIME_TO_END, (ended, seconds))
    checks.true("what was taken is in the outbox then", "all accepted posts are in the outbox" in log, log[-1500:])
    print(f"note: a stop took {seconds:.1f} s", flush=True)
    checks.true("it starts again", container.start(), text_there(container.log)[-2000:])
    checks.true("and delivers", wait_until(container.is_drained), container.said("status", "--json"))
    found: dict[str, Value] = {}
    add_points(found, SqliteSink(f"{container.root}/var/lib/totxegun/metrics.db").points())
    wanted = told_to_all(senders)
    checks.same(f"the sink has what the senders were told, {len(wanted)} series", [], differences(wanted, found))
    checks.same("a second stop", 0, container.stop()[0])


def main(image: str) -> int:
    lacks = [it for it in ("unshare", "nsenter", "setpriv", "chroot") if not shutil.which(it)]
    if os.geteuid() != 0:
        lacks.append("root")
    if not os.path.isfile(image):
        lacks.append(f"{image}: make image makes it")
    if lacks:
        print(f"left out: missing {' '.join(lacks)}")
        return 77
    checks = Checks()
    with tempfile.TemporaryDirectory(prefix="package-") as folder:
        settings, root = unpacked(image, folder)
        look_at_files(checks, root, settings)
        container = Container(settings, root, f"{folder}/log")
        try:
            run(checks, container)
        finally:
            container.end()
    return checks.end()


if __name__ == "__main__":
    if len(sys.argv) != 2:
        sys.exit(f"usage: {sys.argv[0]} IMAGE")
    if "in_own_network" not in os.environ:
        os.environ["in_own_network"] = "yes"
        os.execv(f"{ROOT}/tools/own_network.py",
                 ["own_network.py", sys.executable, os.path.abspath(__file__), os.path.abspath(sys.argv[1])])
    sys.exit(main(sys.argv[1]))
