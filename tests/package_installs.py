#!/usr/bin/env python3
"""Tests what `make install` installs into a folder, with a service that runs from there.

    tests/package_installs.py TOTXEGUN

The program is put where `make build` would have made it. Then every file must have its place and mode. The service, started as the unit
starts it with the shipped settings, accepts a point, flushes and shows it. The settings name every option, and also start the service
with all defaults written out. User, group and folder are made by the installed files, and a SQLite file there can be read by another user
of the group and by nobody else. Existing settings stay. The manual page names every option of the program, and mandoc finds nothing;
the completion completes; the version says whether the book inside was proved; systemd finds nothing in the unit; and a line says what
is missing.

Each line is a check; the last line counts passes and failures. The status is 0 if none failed, 77 if a part was left out because a
program is not installed.
"""
import json
import os
import re
import shlex
import shutil
import signal
import subprocess
import sys
import tempfile
import time
from collections.abc import Iterator
from typing import Any

from testing import ROOT
from testing.checks import Checks
from testing.loopback import free_port
from testing.service import ask, wait_until
from tooling.files import text_of, write

PLACES = {
    "usr/bin/totxegun": 0o755,
    "usr/share/man/man1/totxegun.1": 0o644,
    "usr/share/bash-completion/completions/totxegun": 0o644,
    "usr/share/fish/vendor_completions.d/totxegun.fish": 0o644,
    "usr/share/zsh/vendor-completions/_totxegun": 0o644,
    "lib/systemd/system/totxegun.service": 0o644,
    "usr/lib/sysusers.d/totxegun.conf": 0o644,
    "usr/lib/tmpfiles.d/totxegun.conf": 0o644,
    "etc/totxegun/totxegun.toml": 0o644,
    "usr/share/doc/totxegun/README.md": 0o644,
    "usr/share/doc/totxegun/OPERATING.md": 0o644,
    "usr/share/doc/totxegun/COLLECTOR.md": 0o644,
    "usr/share/doc/totxegun/QUERIES.md": 0o644,
    "usr/share/doc/totxegun/SEVERAL_MACHINES.md": 0o644,
    "usr/share/doc/totxegun/FORMATS.md": 0o644,
    "usr/share/doc/totxegun/SECURITY.md": 0o644,
    "usr/share/doc/totxegun/examples/haproxy.cfg": 0o644,
    "usr/share/doc/totxegun/examples/alerts.yml": 0o644,
    "usr/share/doc/totxegun/examples/dashboard.json": 0o644,
    "usr/share/doc/totxegun/examples/totxegun.yaml": 0o644,
}
# The limit of the unit's exposure, as `systemd-analyze security` counts it.
EXPOSURE = 1.2
LONG = re.compile(r"^ +(?:-\w, )?--([a-z-]+)", re.MULTILINE)
# A key with its default in a comment, and a table.
SETTING = re.compile(r"^#([a-z-]+) = (.*)$|^(\[sink\])$", re.MULTILINE)
POINT = ('{"resourceMetrics":[{"scopeMetrics":[{"metrics":[{"name":"a","sum":{"aggregationTemporality":1,"isMonotonic":true,'
         '"dataPoints":[{"asInt":"5","startTimeUnixNano":"%d","timeUnixNano":"%d"}]}}]}]}]}')


def ran(words: list[str], **how: Any) -> tuple[int, str]:
    """The status and all output of a program."""
    out = subprocess.run(words, stdin=subprocess.DEVNULL, stdout=subprocess.PIPE, stderr=subprocess.STDOUT, text=True,
                         check=False, timeout=60, **how)
    return out.returncode, out.stdout


def without_settings() -> dict[str, str]:
    return {name: value for name, value in os.environ.items() if not name.startswith("TOTXEGUN_")}


def install(folder: str, program: str, destination: str) -> Any:
    """Runs `make install` as a package would."""
    made = f"{folder}/made"
    os.makedirs(made, exist_ok=True)
    shutil.copy2(program, f"{made}/totxegun")
    places = {"DESTDIR": destination, "PREFIX": "/usr", "SYSCONFDIR": "/etc", "UNITDIR": "/lib/systemd/system"}
    return ran([f"{ROOT}/tools/install", made], env={**without_settings(), **places})


def look_at_files(checks: Checks, root: str) -> None:
    for place, mode in PLACES.items():
        path = f"{root}/{place}"
        found = oct(os.stat(path).st_mode & 0o7777) if os.path.isfile(path) else "nothing"
        checks.same(f"{place} is there", oct(mode), found)
    all_files = {os.path.relpath(f"{at}/{name}", root) for at, _, names in os.walk(root) for name in names}
    more = sorted(it for it in all_files - PLACES.keys() if "/examples/" not in it)
    checks.same("nothing else is", [], more)


def shipped_settings(root: str) -> tuple[list[str], str]:
    """The key of each line of the settings, and a file with those that have a default."""
    keys, lines, table = [], [], ""
    for key, value, head in SETTING.findall(text_of(f"{root}/etc/totxegun/totxegun.toml")):
        table = table or ("sink." if head else "")
        if key:
            keys.append(table + key)
        if head or not re.search('^\\[?"[A-Z:= ]+"\\]?$', value):
            lines.append(head or f"{key} = {value}")
    return keys, "\n".join(lines)


def serve(checks: Checks, what: str, root: str, folder: str, settings: str | None = None) -> None:
    """A first use: a post, a flush, the totals, and SIGTERM."""
    words = shlex.split(re.search(r"^ExecStart=(.*)$", text_of(f"{root}/lib/systemd/system/totxegun.service"), re.M)[1])
    words = [word.replace("%S", folder).replace("/etc/", f"{root}/etc/") for word in words]
    if settings is not None:
        write(f"{folder}/settings.toml", settings)
        words[words.index("--config") + 1] = f"{folder}/settings.toml"
    listen, operate = free_port(), free_port()
    places = {"TOTXEGUN_LISTEN": f"127.0.0.1:{listen}", "TOTXEGUN_ADMIN": f"127.0.0.1:{operate}", "TOTXEGUN_LISTEN_GRPC": "off"}
    environment = {**without_settings(), **places}
    log = f"{folder}/log"
    with open(log, "wb") as out:
        service = subprocess.Popen([f"{root}{words[0]}", *words[1:]], env=environment, stdin=subprocess.DEVNULL, stdout=out,
                                   stderr=out)
    try:
        is_ready = wait_until(lambda: service.poll() is not None or ask(operate, "GET", "/readyz", seconds=2)[0] == 200)
        if not is_ready or service.poll() is not None:
            checks.true(f"{what}: it serves", False, text_of(log)[-2000:])
            return
        now = time.time_ns()
        body = POINT % (now - 10_000_000_000, now)
        headers = {"Content-Type": "application/json", "x-sender": "A"}
        checks.same(f"{what}: a point is taken", 200, ask(listen, "POST", "/v1/metrics", body.encode(), headers)[0])
        program = f"{root}/usr/bin/totxegun"
        at = ["--data", f"{folder}/totxegun"]
        checks.same(f"{what}: a flush", (0, "done: 1 request went into the outbox\n"), ran([program, "flush", *at]))
        is_there = wait_until(lambda: '"total":"5"' in ran([program, "totals", "--json", *at])[1], 20)
        checks.true(f"{what}: the total is shown", is_there, ran([program, "totals", "--json", *at]))
        checks.same(f"{what}: it keeps its files where the unit says", True, os.path.isfile(f"{folder}/totxegun/metrics.db"))
        first = text_of(log).splitlines()[0]
        checks.true(f"{what}: the log's first line is the version", ran([program, "version"])[1].strip() in first, first)
    finally:
        service.send_signal(signal.SIGTERM)
        try:
            status = service.wait(30)
        except subprocess.TimeoutExpired:
            service.kill()
            status = service.wait()
    checks.true(f"{what}: SIGTERM ends it", status == 0, f"status {status}: {text_of(log)}")
    shutil.rmtree(f"{folder}/totxegun")


# The place of a sink's file that a group may read, by the unit's settings.
SHARED = "/var/lib/totxegun-read"
NOBODY = 65534
READER = "import sqlite3, sys; print(sqlite3.connect(f'file:{sys.argv[1]}', uri=True).execute('select total from totals').fetchall())"


def make_shared(checks: Checks, root: str) -> tuple[int, int, int]:
    """Makes the group's folder as systemd would by the installed files. Returns user and group of the service, and the group of readers."""
    for words in (["systemd-sysusers", f"--root={root}"], ["systemd-tmpfiles", f"--root={root}", "--create", f"--prefix={SHARED}"]):
        checks.true(f"{words[0]} takes what is installed", ran(words)[0] == 0, ran(words))
    users = dict(re.findall(r"^([a-z-]+):[^:]*:(\d+):", text_of(f"{root}/etc/passwd"), re.M))
    groups = dict(re.findall(r"^([a-z-]+):[^:]*:(\d+):", text_of(f"{root}/etc/group"), re.M))
    user, group, readers = int(users["totxegun"]), int(groups["totxegun"]), int(groups["totxegun-read"])
    there = os.stat(f"{root}{SHARED}")
    checks.same("the folder is the service's, and its group may look into it", (user, readers, 0o2750),
                (there.st_uid, there.st_gid, there.st_mode & 0o7777))
    unit = text_of(f"{root}/lib/systemd/system/totxegun.service")
    checks.true("the unit may write there", f"\nReadWritePaths=-{SHARED}\n" in unit, unit)
    checks.true("it is that user's by its name", "\nDynamicUser=yes\n" in unit and "\nUser=" not in unit, unit)
    return user, group, readers


def look_at_group(checks: Checks, program: str, root: str, folder: str) -> None:
    """Runs the service as the unit does, with that user and umask."""
    lacks = [name for name in ("setpriv", "systemd-sysusers", "systemd-tmpfiles") if not shutil.which(name)]
    if not checks.has("a reader of the sink's group", *(lacks if os.geteuid() == 0 else ["root"])):
        return
    user, group, readers = make_shared(checks, root)
    own, at = f"{folder}/own", f"{root}{SHARED}"
    for path in (folder, root):
        os.chmod(path, 0o711)
    os.mkdir(own, 0o700)
    os.chown(own, user, group)
    listen, operate = free_port(), free_port()
    words = ["serve", "--data", own, "--sink", f"sqlite:{at}/metrics.db", "--listen", f"127.0.0.1:{listen}",
             "--admin", f"127.0.0.1:{operate}", "--listen-grpc", "off"]

    def read(of_group: int, how: str = "?mode=ro") -> tuple[int, str]:
        as_whom = ["setpriv", f"--reuid={NOBODY}", f"--regid={of_group}", "--clear-groups"]
        return ran([*as_whom, sys.executable, "-c", READER, f"{at}/metrics.db{how}"])

    service = subprocess.Popen([program, *words], env=without_settings(), stdin=subprocess.DEVNULL, stderr=subprocess.DEVNULL,
                               umask=0o077, user=user, group=group, extra_groups=[])
    try:
        checks.true("it serves", wait_until(lambda: ask(operate, "GET", "/readyz", seconds=2)[0] == 200), "not ready")
        now = time.time_ns()
        headers = {"Content-Type": "application/json", "x-sender": "A"}
        ask(listen, "POST", "/v1/metrics", (POINT % (now - 10_000_000_000, now)).encode(), headers)
        ran([program, "flush", "--data", own])
        checks.true("who is of the group reads it", wait_until(lambda: read(readers)[1] == "[(5,)]\n", 20), read(readers))
        checks.true("and no other file of the service", ran(["setpriv", f"--reuid={NOBODY}", f"--regid={readers}", "--clear-groups",
                                                             "ls", own])[0] != 0, own)
        checks.true("nobody else does", read(NOBODY)[0] != 0, read(NOBODY))
    finally:
        service.terminate()
        service.wait(30)
    checks.same("also while the service is stopped", (0, "[(5,)]\n"), read(readers, "?immutable=1"))


def version() -> str:
    return text_of(f"{ROOT}/VERSION").strip()


def look_at_settings(checks: Checks, root: str, program: str, folder: str) -> None:
    """Checks that the file names each option of `config show` once, each with a text, and that it can be used unchanged."""
    keys, defaults = shipped_settings(root)
    file = f"{root}/etc/totxegun/totxegun.toml"
    words = ["--config", file, "--data", folder]
    shown = ran([program, "config", "show", *words], env=without_settings())[1]
    head, sink = shown.split("[sink]\n")
    wanted = [table + key for table, text in (("", head), ("sink.", sink)) for key in re.findall(r"^(?:# )?([a-z-]+) (?:=|is)", text, re.M)]
    checks.true("the program has settings", len(wanted) > 50, shown)
    checks.same("the settings name every one, once", sorted(wanted), sorted(keys))
    bare = [key for key in keys if not re.search(rf"^# \S.*\n#{key.removeprefix('sink.')} = ", text_of(file), re.MULTILINE)]
    checks.same("each with a line of text", [], bare)
    checks.same("the file can be used as it is", 0, ran([program, "config", "check", *words], env=without_settings())[0])
    write(f"{folder}/defaults.toml", defaults)
    of_defaults = ran([program, "config", "show", "--config", f"{folder}/defaults.toml", "--data", folder], env=without_settings())[1]
    bare_values = [re.sub(" # .*", "", text) for text in (shown, of_defaults)]
    differ = [(one, other) for one, other in zip(bare_values[0].splitlines(), bare_values[1].splitlines()) if one != other]
    checks.true("what it says is by default is so", all(one.startswith("# ") for one, _ in differ), differ)


def options_of(page: str) -> Any:
    return sorted(set(re.findall(r"^\.It Fl -([a-z-]+)", page, re.MULTILINE)))


def look_at_kept_settings(checks: Checks, folder: str, program: str) -> None:
    """Checks that existing settings stay."""
    root = f"{folder}/before"
    settings = f"{root}/etc/totxegun/totxegun.toml"
    os.makedirs(os.path.dirname(settings))
    with open(settings, "w", encoding="utf-8") as file:
        file.write("flush-interval = \"7s\"\n")
    status, said = install(folder, program, root)
    checks.true("settings that were there stay, and it is said", status == 0 and "totxegun.toml.new" in said, said)
    checks.same("they are as they were", "flush-interval = \"7s\"\n", text_of(settings))


def look_at_pages(checks: Checks, root: str, program: str) -> None:
    man = f"{root}/usr/share/man/man1"
    page = text_of(f"{man}/totxegun.1")
    commands = json.loads(ran([program, "print", "options"])[1])["commands"]
    wanted = set()
    for words in command_lines(commands):
        wanted |= set(LONG.findall(ran([program, *words, "--help"])[1])) - {"help", "version"}
        checks.true(f"the page has `{' '.join(words)}`", f"\n.It Cm {' '.join(words)}" in page, "it is not there")
    checks.same("the page has every option of the program, and no other", sorted(wanted), options_of(page))
    checks.same("no place is left open", [], re.findall(r"@[A-Z]+@", page))
    if checks.has("the pages' form", *([] if shutil.which("mandoc") else ["mandoc"])):
        for name in sorted(os.listdir(man)):
            # -W style turns on all checks. A reference to another page that is not installed here is no fault.
            status, said = ran(["mandoc", "-T", "lint", "-W", "style", f"{man}/{name}"])
            lines = [line for line in said.splitlines() if f"{name}:" in line and "referenced manual not found" not in line]
            checks.same(f"mandoc finds nothing in {name}", [], lines)


def command_lines(commands: Any, before: Any = ()) -> Iterator[Any]:
    for command in commands:
        if command["commands"]:
            yield from command_lines(command["commands"], (*before, command["name"]))
        else:
            yield [*before, command["name"]]


def look_at_completion(checks: Checks, root: str, program: str, serve_help: str) -> None:
    file = f"{root}/usr/share/bash-completion/completions/totxegun"
    checks.same("the completion is the program's own", ran([program, "print", "completion"])[1], text_of(file))

    def completed(*words: str) -> Any:
        script = f"source {file}; COMP_WORDS=({' '.join(words)}); COMP_CWORD={len(words) - 1}; " \
                 f"_totxegun totxegun {words[-1]!r} {words[-2]!r}; printf '%s\\n' \"${{COMPREPLY[@]}}\""
        return set(ran(["bash", "--norc", "-c", script])[1].split())
    checks.same("it completes an option", {"--flush-interval"}, completed("totxegun", "serve", "--flush"))
    checks.same("it completes a command", {"quarantine"}, completed("totxegun", "qu"))
    checks.same("what is hidden is not completed", set(), completed("totxegun", "pri"))
    options = {f"--{name}" for name in LONG.findall(serve_help)}
    checks.same("it has every option", set(), options - completed("totxegun", "serve", "--"))


def look_at_version(checks: Checks, program: str) -> None:
    status, said = ran([program, "version"], env=without_settings())
    proof = re.match(rf"totxegun {re.escape(version())}; book: (revision \S+, proved by .+|nothing says that it was proved)\n$", said)
    checks.true("the version says whether the book was proved", status == 0 and proof, (status, said))


def look_at_unit(checks: Checks, root: str, folder: str) -> None:
    """Checks the unit with the installed program in the place where systemd would look for it."""
    if not checks.has("the unit", *([] if shutil.which("systemd-analyze") else ["systemd-analyze"])):
        return
    unit = f"{folder}/totxegun.service"
    with open(unit, "w", encoding="utf-8") as file:
        text = text_of(f"{root}/lib/systemd/system/totxegun.service")
        checks.same("the unit has the installed names", [], re.findall(r"/usr/local\S*", text))
        file.write(text.replace("=/usr/bin/", f"={root}/usr/bin/"))
    checks.same("systemd finds nothing in it", (0, ""), ran(["systemd-analyze", "verify", "--man=no", unit]))
    status, said = ran(["systemd-analyze", "security", "--offline=true", f"--threshold={EXPOSURE * 10:.0f}", unit])
    overall = re.search(r"Overall exposure level.*?: ([\d.]+)", said)
    checks.true(f"it is exposed by {EXPOSURE} at most", status == 0 and overall and float(overall[1]) <= EXPOSURE,
                said[-500:])
    print(f"note: exposure {overall[1] if overall else 'unknown'}", flush=True)


def look_at_what_is_missing(checks: Checks, folder: str) -> None:
    os.makedirs(f"{folder}/none")
    status, said = ran([f"{ROOT}/tools/install", f"{folder}/none"])
    checks.true("a missing program is said in one line", status == 1 and said.count("\n") == 1 and "make build" in said, said)
    lone = f"{folder}/path"
    os.makedirs(lone)
    for name in ("sh", "env"):
        os.symlink(shutil.which(name), f"{lone}/{name}")
    status, said = ran(["/bin/sh", f"{ROOT}/tools/toolchain"], env={"PATH": lone})
    checks.true("so is the toolchain", status == 1 and said.count("\n") == 1 and "dac8208d650f15bf" in said, said)
    with open(f"{lone}/rt", "w", encoding="ascii") as file:
        file.write("#!/bin/sh\necho other-kit logic 0000000000000000\n")
    os.chmod(f"{lone}/rt", 0o755)
    status, said = ran(["/bin/sh", f"{ROOT}/tools/toolchain"], env={"PATH": lone})
    checks.true("so is one of another logic", status == 1 and said.count("\n") == 1 and "0000000000000000" in said, said)
    with open(f"{lone}/rt", "w", encoding="ascii") as file:
        file.write("#!/bin/sh\necho other-kit logic dac8208d650f15bf\n")
    checks.same("the kit's name may differ", (0, ""), ran(["/bin/sh", f"{ROOT}/tools/toolchain"], env={"PATH": lone}))
    status, said = ran(["make", "-C", ROOT, "--no-print-directory"])
    targets = re.findall(r"^([a-z]+):.*##", text_of(f"{ROOT}/Makefile"), re.MULTILINE)
    missing = [target for target in targets if f"make {target} " not in said]
    checks.true("make alone prints what there is to make", status == 0 and len(targets) > 8 and not missing, said)


def main(given: str) -> int:
    checks = Checks()
    with tempfile.TemporaryDirectory(prefix="package-") as folder:
        root = f"{folder}/root"
        status, said = install(folder, given, root)
        checks.same("it is installed", (0, ""), (status, said))
        if status:
            return checks.end()
        program = f"{root}/usr/bin/totxegun"
        serve_help = ran([program, "serve", "--help"], env=without_settings())[1]
        look_at_files(checks, root)
        look_at_settings(checks, root, program, folder)
        look_at_pages(checks, root, program)
        look_at_completion(checks, root, program, serve_help)
        look_at_unit(checks, root, folder)
        serve(checks, "as shipped", root, folder)
        serve(checks, "with each default said", root, folder, shipped_settings(root)[1])
        look_at_group(checks, program, root, folder)
        look_at_version(checks, program)
        look_at_kept_settings(checks, folder, given)
        look_at_what_is_missing(checks, folder)
    return checks.end()


if __name__ == "__main__":
    if len(sys.argv) != 2 or not os.access(sys.argv[1], os.X_OK):
        sys.exit(f"usage: {sys.argv[0]} TOTXEGUN")
    sys.exit(main(sys.argv[1]))
