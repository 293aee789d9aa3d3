#!/usr/bin/env python3
"""A package's life in a Debian of its own, under a running systemd: installed, used, upgraded under load, killed, purged.

    tests/package_lives.py DEB

Debian's base is fetched once by debootstrap, into /var/tmp/totxegun-debian. A copy of it is booted by its own systemd in namespaces of
its own, without the toolchain and without a network but loopback. There settings are written, and
the package is installed as of an earlier version: it has these settings. It serves as the
README's first use shows, and is replaced by DEB while senders post; the program is killed meanwhile. At the end the sink
has, series by series, what the senders were told. A purge leaves what was taken, and says so.

Each line is a check; the last line counts passes and failures. The status is 0 if none failed, 77 where
the machine can't have it.
"""
import contextlib
import os
import re
import shutil
import signal
import subprocess
import sys
import tempfile
import threading
import time

from testing import ROOT
from testing.checks import Checks
from testing.service import Sender, SqliteSink, Value, add_points, ask, differences, is_whole, told_to_all, wait_until
from tooling.files import text_there

BASE = "/var/tmp/totxegun-debian"  # the prover takes no folder here that has links
MIRROR = "http://deb.debian.org/debian"
TRIES = 3  # a mirror may fail at first
PACKAGES = "systemd,systemd-sysv,dbus,libsqlite3-0,libtcmalloc-minimal4,ca-certificates"
OPERATE, LISTEN = 4319, 4318
SENDERS = 4
EARLIER = "0.0.1"
SETTINGS = "/etc/totxegun/totxegun.toml"
SERIES = 90_001
# What the senders post is of 1970.
WRITTEN = f'max-series = {SERIES}\nkeep-intervals = "forever"\n'
# Where a purge may leave something: what was taken, the manager's own books, and what systemd notes of a unit.
MAY_STAY = re.compile(r"/var/lib/(private/totxegun|totxegun$|dpkg/|systemd/|private$)|/var/(log|cache)/|/run/|/tmp/|/proc|/sys|/dev"
                      r"|/etc/(machine-id|hostname|\.pwd\.lock|(passwd|group|shadow|gshadow)-)")
# A control group of its own, so that two of them don't share their units'.
BOOT = """\
set -e
mount --make-rprivate /
mount --bind {root} {root}
mount -t cgroup2 cgroup2 {root}/mnt
mkdir {root}/mnt/{group}
echo 0 > {root}/mnt/{group}/cgroup.procs
umount {root}/mnt
mount -t proc proc {root}/proc
mount -t sysfs -o ro sysfs {root}/sys
mount -t tmpfs -o mode=755 tmpfs {root}/sys/fs/cgroup
mount -t tmpfs -o mode=755 tmpfs {root}/run
mount -t tmpfs -o mode=755 tmpfs {root}/dev
for node in null zero full random urandom tty; do touch {root}/dev/$node; mount --bind /dev/$node {root}/dev/$node; done
mkdir {root}/dev/shm {root}/dev/pts {root}/run/before
ln -s pts/ptmx {root}/dev/ptmx
ln -s /proc/self/fd {root}/dev/fd
cd {root}
pivot_root . run/before
umount -l /run/before
exec env -i container=other PATH=/usr/sbin:/usr/bin:/sbin:/bin unshare --cgroup sh -c '
    mount -t cgroup2 cgroup2 /sys/fs/cgroup && exec /lib/systemd/systemd --show-status=no'
"""
# What it leaves of control groups, which go with nothing else.
LEAVE = """\
mount -t cgroup2 cgroup2 {root}/mnt
[ ! -d {root}/mnt/{group} ] || find {root}/mnt/{group} -depth -type d -exec rmdir {{}} +
"""


class Stands(Exception):
    """The service does not serve, so nothing more can be tried."""


class Debian:
    """A copy of the base, booted."""

    def __init__(self, root: str) -> None:
        self.root = root
        self.group = f"package-{os.getpid()}"
        self.boot: subprocess.Popen[bytes] = None
        self.pid: str = None

    def start(self) -> bool:
        """It ends with this process, however that ends."""
        with open(f"{self.root}.log", "wb") as log:
            words = ["setpriv", "--pdeathsig", "KILL", "unshare", "--mount", "--pid", "--uts", "--ipc", "--fork", "--kill-child"]
            script = BOOT.format(root=self.root, group=self.group)
            self.boot = subprocess.Popen([*words, "sh", "-c", script], stdin=subprocess.DEVNULL, stdout=log, stderr=log)
        return wait_until(self.is_running, 60)

    def is_running(self) -> bool:
        """Whether its systemd has started all that it starts."""
        if self.boot.poll() is not None:
            return True
        children = text_there(f"/proc/{self.boot.pid}/task/{self.boot.pid}/children").split()
        self.pid = children[0] if children else None
        return self.pid is not None and self.said("systemctl", "is-system-running")[1].strip() in ("running", "degraded")

    def said(self, *words: str, seconds: int = 120) -> tuple[int, str]:
        """The status of a command in it, and all that it printed."""
        inside = ["nsenter", "--target", self.pid, "--mount", "--pid", "--uts", "--ipc", "--cgroup", "--root", "--wd", "--"]
        ran = subprocess.run([*inside, "env", "DEBIAN_FRONTEND=noninteractive", *words], stdin=subprocess.DEVNULL,
                             stdout=subprocess.PIPE, stderr=subprocess.STDOUT, text=True, check=False, timeout=seconds)
        return ran.returncode, ran.stdout

    def files(self) -> set[str]:
        """All files of its disk, but those that any use of it writes."""
        found = set()
        for at, folders, names in os.walk(self.root):
            found |= {os.path.join(at, name)[len(self.root):] for name in [*folders, *names]}
        return {path for path in found if not MAY_STAY.match(path)}

    def end(self) -> None:
        if not self.boot:
            return
        self.boot.kill()
        self.boot.wait()
        time.sleep(0.5)  # its processes end after it
        leave = LEAVE.format(root=self.root, group=self.group)
        subprocess.run(["unshare", "--mount", "sh", "-c", leave], check=False)


class Installed:
    """What a sender has to know of the service."""
    listen = LISTEN


def missing(deb: str) -> str:
    """What this machine lacks, or nothing."""
    if os.geteuid() != 0:
        return "root"
    if not os.path.isfile(deb):
        return f"{deb}: make deb makes it"
    lacks = [it for it in ("unshare", "nsenter", "setpriv", "dpkg-deb") if not shutil.which(it)]
    if not os.path.isdir(BASE):
        lacks += [it for it in ("debootstrap",) if not shutil.which(it)]
    return " ".join(lacks)


def fetch_base() -> str:
    """Debian's base, once. Returns what went wrong, or nothing."""
    if os.path.isdir(BASE):
        return ""
    new = f"{BASE}.new"
    for _ in range(TRIES):
        shutil.rmtree(new, ignore_errors=True)
        ran = subprocess.run(["debootstrap", "--variant=minbase", f"--include={PACKAGES}", "bookworm", new, MIRROR],
                             stdin=subprocess.DEVNULL, stdout=subprocess.PIPE, stderr=subprocess.STDOUT, text=True, check=False)
        if ran.returncode == 0:
            os.rename(new, BASE)
            return ""
    return (ran.stdout.splitlines() or ["debootstrap failed"])[-1]


def earlier(deb: str, folder: str) -> str:
    """The same package under an earlier version's number."""
    subprocess.run(["dpkg-deb", "-R", deb, f"{folder}/earlier"], check=True)
    control = f"{folder}/earlier/DEBIAN/control"
    text = re.sub(r"^Version: .*$", f"Version: {EARLIER}", text_there(control), flags=re.MULTILINE)
    with open(control, "w", encoding="utf-8") as file:
        file.write(text)
    subprocess.run(["dpkg-deb", "--root-owner-group", "-Zgzip", "-z1", "-b", f"{folder}/earlier", f"{folder}/earlier.deb"], check=True,
                   stdout=subprocess.DEVNULL)
    return f"{folder}/earlier.deb"


def is_ready() -> bool:
    return ask(OPERATE, "GET", "/readyz", seconds=2)[0] == 200


def install(checks: Checks, debian: Debian, what: str, deb: str) -> None:
    shutil.copy(deb, f"{debian.root}/tmp/package.deb")
    status, said = debian.said("dpkg", "--install", "--force-confold", "/tmp/package.deb")
    checks.true(f"{what}: dpkg installs it", status == 0, said)
    if not wait_until(is_ready, 60):
        raise Stands(f"{what}: it does not serve: {debian.said('journalctl', '--no-pager', '-n', '30')[1]}")
    status, said = debian.said("systemctl", "show", "-P", "ActiveState,SubState,NRestarts,User", "totxegun")
    checks.true(f"{what}: systemd says that it runs", "active" in said.split(), said)


def first_use(checks: Checks, debian: Debian) -> Sender:
    """As the README shows it, with the installed names."""
    sender = Sender(Installed, 99)
    sender.post(sender.next_points())
    status, said = debian.said("totxegun", "flush")
    checks.true("first use: totxegun flush", status == 0 and "went into the outbox" in said, said)
    seen = wait_until(lambda: "sender-99.sum.0" in debian.said("totxegun", "totals")[1], 20)
    checks.true("first use: totxegun totals shows the point", seen, debian.said("totxegun", "totals"))
    status, said = debian.said("totxegun", "status")
    checks.true("first use: totxegun status", status == 0, said)
    status, said = debian.said("totxegun", "version")
    checks.true("first use: totxegun version says whether its book was proved", "; book: " in said, said)
    print(f"note: {said.strip()}", flush=True)
    return sender


def write_settings(debian: Debian) -> None:
    """Before the first start, as docs/OPERATING.md has it."""
    os.makedirs(f"{debian.root}/etc/totxegun")
    with open(f"{debian.root}{SETTINGS}", "w", encoding="utf-8") as file:
        file.write(WRITTEN)


def look_at_settings(checks: Checks, debian: Debian, what: str) -> None:
    checks.same(f"{what}: the settings that were written are there", WRITTEN, text_there(f"{debian.root}{SETTINGS}"))
    said = debian.said("totxegun", "status", "--json")[1]
    most = re.search(r'"series": ?\{"used": ?\d+, ?"limit": ?(\d+)', said)
    checks.same(f"{what}: the service has them", str(SERIES), most and most[1])
    debian.said("systemctl", "reload", "totxegun")
    said = debian.said("journalctl", "--no-pager", "-u", "totxegun", "-n", "5")[1]
    checks.true(f"{what}: a reload reads them anew", "SIGHUP: no setting has changed" in said, said)


def upgrade(checks: Checks, debian: Debian, deb: str) -> list[Sender]:
    """Senders post while the package is replaced, and while the unit's processes are killed."""
    senders = [Sender(Installed, number) for number in range(SENDERS)]
    stop = threading.Event()

    def go_on(sender: Sender) -> None:
        while not stop.is_set():
            sender.post(sender.next_points())
    threads = [threading.Thread(target=go_on, args=(sender,), daemon=True) for sender in senders]
    for thread in threads:
        thread.start()
    time.sleep(2)
    before = sum(sender.posts for sender in senders)
    pid = debian.said("systemctl", "show", "-P", "MainPID", "totxegun")[1]
    install(checks, debian, "an upgrade", deb)
    checks.true("an upgrade: another process serves", debian.said("systemctl", "show", "-P", "MainPID", "totxegun")[1] != pid, pid)
    time.sleep(1)
    status, said = debian.said("systemctl", "kill", "--signal=KILL", "totxegun")
    checks.true("all its processes are killed", status == 0, said)
    time.sleep(1)
    is_there = wait_until(is_ready, 60)
    checks.true("killed: it serves again", is_there, debian.said("systemctl", "status", "totxegun")[1])
    if not is_there:
        raise Stands("killed")
    time.sleep(1)
    stop.set()
    for thread in threads:
        thread.join(60)
    posts, repeats = sum(sender.posts for sender in senders), sum(sender.repeats for sender in senders)
    print(f"note: {posts} posts, {posts - before} after the upgrade's begin, {repeats} repeats", flush=True)
    checks.true("senders posted over the upgrade", posts - before > 10 and not any(it.is_alive() for it in threads), posts)
    checks.same("no post was answered otherwise", [], [it for sender in senders for it in sender.surprises][:3])
    return senders


def compare(checks: Checks, debian: Debian, senders: list[Sender]) -> None:
    repeats = [sender.late_repeat() for sender in senders]
    checks.true("late repeats are answered as the first time", all(map(is_whole, repeats)), repeats)
    debian.said("totxegun", "flush")
    checks.true("all is delivered", wait_until(lambda: '"waiting":0' in debian.said("totxegun", "status", "--json")[1].replace(
        " ", ""), 60), debian.said("totxegun", "status"))
    found: dict[str, Value] = {}
    add_points(found, SqliteSink(f"{debian.root}/var/lib/private/totxegun/metrics.db").points())
    wanted = told_to_all(senders)
    checks.same(f"the sink has what the senders were told, {len(wanted)} series", [], differences(wanted, found))


def purge(checks: Checks, debian: Debian, before: set[str]) -> None:
    status, said = debian.said("dpkg", "--purge", "totxegun")
    checks.true("a purge says what stays", status == 0 and "/var/lib/private/totxegun stays" in said, said)
    checks.true("nothing serves after it", wait_until(lambda: ask(OPERATE, "GET", "/readyz", seconds=2)[0] is None, 10), said)
    checks.same("it leaves nothing but the data", [], sorted(debian.files() - before))
    checks.true("and leaves that", os.path.isfile(f"{debian.root}/var/lib/private/totxegun/metrics.db"), said)


def unit(checks: Checks, debian: Debian) -> None:
    status, said = debian.said("systemd-analyze", "verify", "--man=no", "totxegun.service")
    checks.true("systemd-analyze verify finds nothing", status == 0 and "totxegun" not in said, said)
    said = debian.said("systemd-analyze", "security", "--no-pager", "totxegun.service")[1]
    overall = re.search(r"Overall exposure level.*", said)
    print(f"note: {overall[0] if overall else said[-300:]}", flush=True)


def main(deb: str) -> int:
    checks = Checks()
    signal.signal(signal.SIGTERM, lambda *_: sys.exit(1))  # what was started and copied goes then too
    with tempfile.TemporaryDirectory(prefix="package-", dir=f"{ROOT}/out") as folder, contextlib.ExitStack() as stack:
        debian = Debian(f"{folder}/debian")
        subprocess.run(["cp", "-a", BASE, debian.root], check=True)
        stack.callback(debian.end)
        if not debian.start() or debian.boot.poll() is not None:
            print(f"left out: no systemd could be started here: {text_there(f'{debian.root}.log')[-300:]}")
            return 77
        try:
            live(checks, debian, deb, earlier(deb, folder))
        except Stands as why:
            checks.true("it serves", False, why)
    return checks.end()


def live(checks: Checks, debian: Debian, deb: str, first: str) -> None:
    before = debian.files()
    write_settings(debian)
    install(checks, debian, "a first install", first)
    look_at_settings(checks, debian, "a first install")
    senders = [first_use(checks, debian)]
    unit(checks, debian)
    senders += upgrade(checks, debian, deb)
    look_at_settings(checks, debian, "an upgrade")
    compare(checks, debian, senders)
    if checks.failed:
        print(debian.said("journalctl", "--no-pager", "-u", "totxegun", "-n", "30")[1], flush=True)
    purge(checks, debian, before)


if __name__ == "__main__":
    if len(sys.argv) != 2:
        sys.exit(f"usage: {sys.argv[0]} DEB")
    if "in_own_network" not in os.environ:
        lacks = missing(sys.argv[1]) or fetch_base()  # Debian's mirror is not in that network
        if lacks:
            print(f"left out: missing {lacks}")
            sys.exit(77)
        os.environ["in_own_network"] = "yes"
        os.execv(f"{ROOT}/tools/own_network.py",
                 ["own_network.py", sys.executable, os.path.abspath(__file__), os.path.abspath(sys.argv[1])])
    sys.exit(main(sys.argv[1]))
