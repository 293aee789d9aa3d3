#!/usr/bin/env python3
"""Runs the service behind a real haproxy, by operate/haproxy.cfg, and a real nginx, by the section in docs/OPERATING.md.

    tests/behind_proxies.py TOTXEGUN [haproxy|nginx ..]

First the names: the proxy ends TLS, and the service names a sender by its token. Another sender's name is refused. haproxy requires a
name, because it spreads senders over several services by it. Then hidden paths, sizes, encodings and HTTP/2. Then senders post over
connections that they keep, and retry each post until it is answered, while the proxy, the service, and both are killed by `kill -9`.
At the end the SQLite sink must have, for each series, what the senders know to be accepted, and each series its own sender.

It needs haproxy, nginx, curl and openssl; if one is missing, a line says so and the status is 77. Each other line is a check; the last
line counts passes and failures. The status is 1 if one failed.
"""
import contextlib
import gzip
import hashlib
import http.client
import os
import re
import ssl
import subprocess
import sys
import threading
from collections.abc import Callable, Mapping
from typing import Any

from testing import ROOT
from testing.checks import Checks
from testing.loopback import SECONDS, free_port
from testing.service import (Value, JSON, PROTOBUF, Bursts, Sender, Service, SqliteSink, add_points, ask, differences, in_json, in_protobuf,
                     overlaps, told_to_all,
                             wait_until)
from testing.shipped import end_group, folder, listens, missing, run_script, shipped, started, with_replaced
from service_load import post_meanwhile

SENDERS = 6
# Before each kill, in seconds.
PAUSE = 1
LIMIT = 4_194_304
HIDDEN = ["/", "/flush", "/report", "/metrics", "/status", "/dead-letters", "/quarantine/sender-1", "//flush", "/%66lush",
          "/v1/metrics/../../flush", "/v1/metrics/"]
# Tokens of names that are not those of the senders.
TOKENS = {"t0ken": "by-token"}
PAGE = os.path.join(ROOT, "docs", "OPERATING.md")


# --------------------------------------------------------------------------------------------------------------------
# Names


def openssl(at: str, *words: str) -> None:
    subprocess.run(["openssl", *words], check=True, cwd=at, capture_output=True, timeout=SECONDS)


def make_names(at: str, senders: int = SENDERS) -> None:
    """Makes the proxy's certificate and the file of --tokens."""
    key = ["-newkey", "ec", "-pkeyopt", "ec_paramgen_curve:prime256v1", "-nodes"]
    openssl(at, "req", "-x509", *key, "-keyout", "ca.key", "-out", "ca.pem", "-subj", "/CN=ca", "-days", "2")
    with open(f"{at}/names", "w") as file:
        file.write("subjectAltName=DNS:localhost,IP:127.0.0.1\n")
    openssl(at, "req", *key, "-keyout", "server.key", "-out", "server.csr", "-subj", "/CN=localhost")
    openssl(at, "x509", "-req", "-in", "server.csr", "-CA", "ca.pem", "-CAkey", "ca.key", "-CAcreateserial", "-extfile", "names",
            "-out", "server.crt", "-days", "2")
    with open(f"{at}/server.pem", "w") as both:
        for part in ("crt", "key"):
            with open(f"{at}/server.{part}") as file:
                both.write(file.read())
    tokens = TOKENS | {f"t0ken-{number}": f"sender-{number}" for number in range(senders)}
    with open(f"{at}/tokens", "w") as file:
        file.writelines(f"{name} sha256:{hashlib.sha256(token.encode()).hexdigest()}\n" for token, name in tokens.items())


# --------------------------------------------------------------------------------------------------------------------
# Proxies


class Proxy:
    """A proxy in front of the service, with a copy of its shipped file or of the page's section. `replaced` has further replacements."""

    def __init__(self, stack: contextlib.ExitStack, kind: str, at: str, listen: int,
                 replaced: Mapping[str, str] | None = None) -> None:
        self.stack, self.kind, self.at = stack, kind, at
        self.port = free_port()
        self.file = f"{at}/{kind}"
        ports = {":4318": f":{listen}", " 4320 ": f" 127.0.0.1:{self.port} ", ":4320": f"127.0.0.1:{self.port}"}
        ports.pop(":4320" if kind == "nginx" else " 4320 ")
        text = shipped("haproxy.cfg", {}) if kind == "haproxy" else self.whole(section_of_nginx())
        with open(self.file, "w") as copy:
            copy.write(with_replaced(text, {**(replaced or {}), **self.own()[kind], **ports, "/etc/totxegun": at}))
        self.process: subprocess.Popen[bytes] = None

    def own(self) -> dict[str, Any]:
        """Replacements: paths, users (which only root can change), and the ports in comments."""
        users = {} if os.getuid() == 0 else {"    user haproxy\n": "", "    group haproxy\n": ""}
        return {"haproxy": {"at port 4320": "", "/run/haproxy": self.at, **users}, "nginx": {}}

    def whole(self, section: str) -> str:
        """nginx's configuration around the section."""
        temporary = "".join(f"{name}_temp_path {self.at}/{name};\n" for name in ("client_body", "proxy", "fastcgi", "uwsgi", "scgi"))
        return (f"pid {self.at}/pid;\nerror_log {self.at}/error.log;\nevents {{ worker_connections 4096; }}\n"
                f"http {{\naccess_log off;\n{temporary}{section}}}\n")

    def start(self) -> None:
        words = {"haproxy": ["haproxy", "-db", "-f", self.file],
                 "nginx": ["nginx", "-p", self.at, "-c", self.file, "-g", "daemon off;"]}[self.kind]
        self.process = started(self.stack, words, f"{self.at}/log")
        if not wait_until(lambda: listens(self.port) or self.process.poll() is not None) or self.process.poll() is not None:
            with open(f"{self.at}/log") as log:
                raise OSError(f"{self.kind} does not start: {log.read()[-1000:]}")

    def kill(self) -> None:
        """Kills all its processes with SIGKILL."""
        end_group(self.process)
        # A worker of nginx may outlive its parent by a moment, and still listens until it ends.
        wait_until(lambda: not listens(self.port))


def section_of_nginx() -> str:
    with open(PAGE, encoding="utf-8") as file:
        return re.search(r"^```\n(server \{.*?)^```$", file.read(), re.DOTALL | re.MULTILINE)[1]


def connection(proxy: Proxy, seconds: float = SECONDS) -> http.client.HTTPSConnection:
    context = ssl.create_default_context(cafile=f"{proxy.at}/ca.pem")
    return http.client.HTTPSConnection("127.0.0.1", proxy.port, timeout=seconds, context=context)


class Poster:
    """Each call posts a point of a series of its own and returns the status, or None if there is no answer."""

    def __init__(self, proxy: Proxy) -> None:
        self.proxy = proxy
        self.number = 0

    def __call__(self, token: str | None = None, path: str = "/v1/metrics", kind: str = JSON, pad: int = 0, packed: bool = False,
                 headers: dict[str, str] | None = None, name: str = "by-token") -> int | None:
        self.number += 1
        point = (f"by-{token}", 10 * self.number, 10 * self.number + 10, 1)
        body = {JSON: in_json, PROTOBUF: in_protobuf}[kind]([point]) + b" " * pad
        headers = {"Content-Type": kind, **({"x-sender": name} if name else {}), **(headers or {})}
        if token:
            headers["Authorization"] = f"Bearer {token}"
        if packed:
            body, headers["Content-Encoding"] = gzip.compress(body), "gzip"
        with contextlib.closing(connection(self.proxy)) as client:
            try:
                client.request("POST", path, body, headers)
                return client.getresponse().status
            except (OSError, http.client.HTTPException):
                return None


class Client(Sender):
    """A sender that posts through the proxy, with its token."""

    def __init__(self, service: Service | None, proxy: Proxy, number: int, seed: float = 0, seconds: float = SECONDS) -> None:
        super().__init__(service, number, seed, seconds)
        self.proxy, self.number = proxy, number

    def try_once(self, body: bytes, headers: dict[str, str]) -> tuple[int | None, bytes]:
        self.connection = self.connection or connection(self.proxy, self.seconds)
        return super().try_once(body, {**headers, "Authorization": f"Bearer t0ken-{self.number}"})


# --------------------------------------------------------------------------------------------------------------------
# What is checked


def owners(service: Service) -> dict[str, str]:
    """The sender of each series, by the report of the service's admin socket."""
    _, report = ask(service.socket, "GET", "/report")
    return dict(re.findall(r"^series (\S+) .* owner (\S+) ", report.decode(), re.MULTILINE))


def names(checks: Checks, proxy: Proxy, service: Service, post: Poster) -> None:
    kind = proxy.kind
    checks.same(f"{kind}: no name but its own", 401, post())
    checks.same(f"{kind}: a token of nobody", 401, post("no"))
    checks.same(f"{kind}: a token in other letters", 401, post("T0KEN"))
    checks.same(f"{kind}: another's name", 403, post("t0ken", name="victim"))
    # haproxy cannot choose one of several services for a sender without a name.
    checks.same(f"{kind}: no name beside a token", 401 if kind == "haproxy" else 200, post("t0ken", name=None))
    checks.same(f"{kind}: a token", 200, post("t0ken"))
    checks.same(f"{kind}: whose these series are", {"by-t0ken": "by-token"}, owners(service))


def encodings(checks: Checks, proxy: Proxy, post: Poster) -> None:
    kind = proxy.kind
    for encoding in (JSON, PROTOBUF):
        for packed in (False, True):
            checks.same(f"{kind}: {encoding}{', packed' * packed}", 200, post("t0ken", kind=encoding, packed=packed))
    checks.same(f"{kind}: the longest body", 200, post("t0ken", pad=LIMIT - 1000))
    checks.same(f"{kind}: a body over that", 413, post("t0ken", pad=LIMIT))
    checks.same(f"{kind}: packed, and over that", 413, post("t0ken", pad=LIMIT, packed=True))
    checks.same(f"{kind}: text", 415, post("t0ken", headers={"Content-Type": "text/plain"}))
    for path in HIDDEN:
        checks.same(f"{kind}: {path} is not there", 404, post("t0ken", path=path))


def by_curl(checks: Checks, proxy: Proxy) -> None:
    """Posts over HTTP/2, and a long body for which curl first waits for 100."""
    with open(f"{proxy.at}/body", "wb") as file:
        file.write(in_json([("by-curl", 10, 20, 1)]) + b" " * 2_000_000)
    asking = ["-H", "Expect: 100-continue", "--expect100-timeout", str(SECONDS)]
    # The second post is a duplicate of the first. nginx does not send 100 over HTTP/2.
    for how, wanted in ((["--http2", "-H", "Expect:"], "200 2"), (["--http1.1", *asking], "200 1.1")):
        checks.same(f"{proxy.kind}: curl {how[0]}", wanted, curl(proxy, "t0ken", *how, "--data-binary", f"@{proxy.at}/body"))
    # A post that is refused before its body is complete must be answered too. It is repeated to find a case without an answer.
    for protocol, version in ("--http2", "2"), ("--http1.1", "1.1"):
        for length, body in (1000, "x" * 1000), (2_000_000, f"@{proxy.at}/body"):
            found = {curl(proxy, "no", protocol, "-H", "Expect:", "--data-binary", body) for _ in range(20)}
            checks.same(f"{proxy.kind}: curl {protocol}, {length} bytes with a token of nobody", {f"401 {version}"}, found)


def curl(proxy: Proxy, token: str, *words: str) -> str:
    """The status and the HTTP version of an answer."""
    run = subprocess.run(
        ["curl", "-s", "-m", str(SECONDS), "-o", "/dev/null", "-w", "%{http_code} %{http_version}",
         "--cacert", f"{proxy.at}/ca.pem", "-H", "Content-Type: application/json", "-H", f"Authorization: Bearer {token}",
         "-H", "x-sender: by-token",
         *words, f"https://localhost:{proxy.port}/v1/metrics"],
        capture_output=True, text=True, timeout=2 * SECONDS, check=False)
    return str(run.stdout)


def kills(proxy: Proxy, service: Service) -> list[Callable[[], None]]:
    """The kills that happen while senders post, one after the other."""
    def kill_proxy() -> None:
        proxy.kill()
        proxy.start()

    def kill_service() -> None:
        service.kill()
        service.start()

    def kill_both() -> None:
        kill_service()
        kill_proxy()

    return [kill_proxy, kill_service, kill_both] * 2


def under_load(checks: Checks, proxy: Proxy, service: Service, sink: SqliteSink) -> None:
    kind = proxy.kind
    before = sink.points() if service.order("/flush") == 200 and wait_until(service.is_drained) else None
    clients = [Client(service, proxy, number) for number in range(SENDERS)]
    bursts, over = Bursts(), threading.Event()
    threads = post_meanwhile(clients, over.is_set, lambda _: bursts.are_on.wait())
    for kill in kills(proxy, service):
        service.wait_ready()
        bursts.before(PAUSE)
        kill()
    over.set()
    checks.true(f"{kind}: the service is ready again", service.wait_ready(), service.last_lines())
    for thread in threads:
        thread.join(SECONDS)
    checks.true(f"{kind}: all posts are answered", not any(thread.is_alive() for thread in threads), service.last_lines())
    checks.same(f"{kind}: no post was answered otherwise", [], [it for client in clients for it in client.surprises][:3])
    checks.true(f"{kind}: each sender repeated a post", all(client.repeats for client in clients), [client.repeats for client in clients])
    checks.same(f"{kind}: all is flushed and delivered", (200, True), (service.order("/flush"), wait_until(service.is_drained)))
    points, wanted = sink.points(), told_to_all(clients)
    found: dict[str, Value] = {}
    add_points(wanted, before)
    add_points(found, points)
    checks.same(f"{kind}: the sink has what the senders were told, {len(wanted)} series", [], differences(wanted, found))
    checks.same(f"{kind}: no spans of a series overlap at the sink", [], overlaps(points))
    checks.same(f"{kind}: each series has its own sender", {name: name.partition(".")[0] for name in told_to_all(clients)},
                {name: owner for name, owner in owners(service).items() if not name.startswith("by-")})
    print(f"note: {kind}: {sum(it.posts for it in clients)} posts, {sum(it.repeats for it in clients)} repeats", flush=True)


def behind(totxegun: str, checks: Checks, kind: str) -> None:
    with contextlib.ExitStack() as stack:
        at = folder(stack)
        make_names(at)
        sink = SqliteSink(f"{at}/sink.db")
        service = Service(totxegun, f"{at}/data", sink.address, "--flush-interval", "1s", "--tokens", f"{at}/tokens")
        stack.callback(service.kill)
        service.start()
        checks.true(f"{kind}: the service is ready", service.wait_ready(), service.last_lines())
        proxy = Proxy(stack, kind, at, service.listen)
        proxy.start()
        post = Poster(proxy)
        names(checks, proxy, service, post)
        encodings(checks, proxy, post)
        by_curl(checks, proxy)
        under_load(checks, proxy, service, sink)
        checks.same(f"{kind}: SIGTERM ends the service", 0, service.end()[0])


def work(totxegun: str, checks: Checks, stack: contextlib.ExitStack) -> None:
    for kind in sys.argv[2:] or ["haproxy", "nginx"]:
        if checks.has(kind, *missing([kind, "curl", "openssl"])):
            behind(totxegun, checks, kind)


if __name__ == "__main__":
    run_script(300, work, ("TOTXEGUN",))
