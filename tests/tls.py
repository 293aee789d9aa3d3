#!/usr/bin/env python3
"""Tests TLS and names at the senders' addresses with real clients.

    tests/tls.py TOTXEGUN [SECONDS]

An address beyond loopback is refused without both, with a text that says what to do. `totxegun token` makes a token that is accepted and
that only its holder has. Then curl, Python and gRPC's client for Python post by certificate and by token, over TLS 1.2 and 1.3. Without
either, with a wrong one, or under another sender's name they are refused as docs/FORMATS.md says. A token and a root
that are removed from
their files stop working. At last programs on OpenTelemetry's SDK for Go count over HTTP and gRPC, by certificate and by
token, and senders
post on kept and on new connections, for SECONDS (8), while the certificate is renewed again and again, once in halves, and handshakes
stall. No post may be lost, each must be answered 200, and the sink must have what they counted, each under its own name.

It needs curl, openssl, python3-grpcio, and what tests/sdk_go.py needs; if one is missing, a line says so and the status is 77. Each
other line is a check; the last line counts passes and failures. The status is 1 if one failed.
"""
import contextlib
import functools
import http.client
import importlib.util
import json
import os
import re
import shutil
import signal
import socket
import ssl
import subprocess
import sys
import tempfile
import threading
import time
from collections.abc import Callable, Sequence
from typing import Any

# Debian's package is for Debian's Python.
if importlib.util.find_spec("grpc") is None and os.path.realpath(sys.executable) != os.path.realpath("/usr/bin/python3"):
    os.execv("/usr/bin/python3", ["/usr/bin/python3", *sys.argv])

from testing.checks import Checks
from testing.loopback import free_port
from testing.service import JSON, PROTOBUF, Point, Service, in_json, in_protobuf, wait_until
from tooling.files import text_of
import alerts
import sdk_go

try:
    import grpc
except ImportError:
    grpc = None

SECONDS = 8
METHOD = "/opentelemetry.proto.collector.metrics.v1.MetricsService/Export"
KEY = ["-newkey", "ec", "-pkeyopt", "ec_paramgen_curve:prime256v1", "-nodes"]
# How each Go program sends, and what names it.
PROGRAMS = [("json", "cert"), ("protobuf", "token"), ("grpc", "cert"), ("grpc", "token")]


# --------------------------------------------------------------------------------------------------------------------
# Certificates and tokens


def openssl(at: str, *words: str) -> None:
    subprocess.run(["openssl", *words], check=True, cwd=at, capture_output=True, timeout=60)


def root(at: str, name: str) -> None:
    openssl(at, "req", "-x509", *KEY, "-keyout", f"{name}.key", "-out", f"{name}.pem", "-subj", f"/CN={name}", "-days", "30")


def signed(at: str, name: str, by: str = "ca", names: str | None = None, days: int = 30) -> None:
    """Makes NAME.pem and NAME.key. The DNS name in a sender's certificate is the sender's name."""
    with open(f"{at}/names", "w", encoding="utf-8") as file:
        file.write(f"subjectAltName={names or f'DNS:{name}'}\nbasicConstraints=CA:FALSE\n")
    openssl(at, "req", *KEY, "-keyout", f"{name}.key", "-out", f"{name}.csr", "-subj", "/CN=other")
    openssl(at, "x509", "-req", "-in", f"{name}.csr", "-CA", f"{by}.pem", "-CAkey", f"{by}.key", "-CAcreateserial",
            "-extfile", "names", "-days", str(days), "-out", f"{name}.pem")


def make_certificates(at: str) -> None:
    for name in ("ca", "other"):
        root(at, name)
    signed(at, "server", names="DNS:localhost,IP:127.0.0.1")
    for name in ("shop-1", "go-cert", "kept"):
        signed(at, name)
    signed(at, "expired", days=-1)
    signed(at, "stranger", by="other")
    with open(f"{at}/roots", "w", encoding="utf-8") as both:
        both.write(text_of(f"{at}/ca.pem") + text_of(f"{at}/other.pem"))


def put(path: str, text: str) -> None:
    """Replaces a file atomically, as anybody who renews a certificate should."""
    with open(f"{path}.new", "w", encoding="utf-8") as file:
        file.write(text)
    os.replace(f"{path}.new", path)


def context(at: str, certificate: str | None = None) -> ssl.SSLContext:
    made = ssl.create_default_context(cafile=f"{at}/ca.pem")
    if certificate:
        made.load_cert_chain(f"{at}/{certificate}.pem", f"{at}/{certificate}.key")
    return made


# --------------------------------------------------------------------------------------------------------------------
# Starts


def refusals(checks: Checks, program: str, at: str) -> None:
    """Each of these starts must be refused with status 2 and its reason."""
    port, beyond = free_port(), "open to other machines"
    tls = ["--tls-cert", f"{at}/server.pem", "--tls-key", f"{at}/server.key"]
    for what, words, status, why in (
            ("an open address", ["--listen", f"0.0.0.0:{port}"], 2, beyond),
            ("an open address of gRPC", ["--listen-grpc", f"[::]:{port}"], 2, beyond),
            ("TLS that names nobody", ["--listen", f"0.0.0.0:{port}", *tls], 2, "post under any name: give --tokens"),
            ("tokens that anybody can read", ["--listen", f"0.0.0.0:{port}", "--tokens", f"{at}/tokens"], 2,
             "read posts: give --tls-cert"),
            ("names by both", ["--tokens", f"{at}/tokens", "--sender-from", "service.name"], 2, "--sender-from"),
            ("a certificate without its key", tls[:2], 2, "--tls-key"),
            ("another's key", [*tls[:3], f"{at}/ca.key"], 1, "does not belong to the first certificate"),
            ("no tokens", ["--tokens", f"{at}/none"], 1, "--tokens can't be used"),
            ("roots that are none", [*tls, "--client-ca", f"{at}/server.key"], 1, "--client-ca has no certificate")):
        words = [program, "serve", "--data", f"{at}/refused", "--admin", "127.0.0.1:0", *words]
        words += [] if "--listen" in words else ["--listen", "127.0.0.1:0"]
        words += [] if "--listen-grpc" in words else ["--listen-grpc", "off"]
        try:
            done = subprocess.run(words, capture_output=True, text=True, timeout=30, check=False)
            checks.true(f"{what}: status {status}, and why", (done.returncode, why in done.stderr) == (status, True), done)
        except subprocess.TimeoutExpired:
            checks.same(f"{what}: status {status}, and why", status, "it serves")


def make_token(program: str, at: str, who: str) -> str:
    """Makes a token, puts its line into the file, and returns the token."""
    done = subprocess.run([program, "token", who], capture_output=True, text=True, timeout=60, check=True)
    with open(f"{at}/tokens", "a", encoding="utf-8") as file:
        file.write(done.stdout)
    return done.stderr.splitlines()[-1]


# --------------------------------------------------------------------------------------------------------------------
# One post


class Clients:
    """Clients, each of which posts one point of a series of its own and returns the status."""

    def __init__(self, at: str, service: Service, callers: int) -> None:
        self.at, self.service, self.callers = at, service, callers
        self.time = 10**9
        # The tokens, after they are made.
        self.collector = self.fleeting = ""

    def body(self, write: Callable[[Sequence[Point]], bytes] = in_json) -> bytes:
        self.time += 10
        return write([(f"one.{self.time}", self.time, self.time + 10, 1)])

    def curl(self, *words: str, host: str = "localhost") -> str:
        """The status, or what curl said if there is none."""
        command = ["curl", "-sS", "-o", "/dev/null", "-w", "%{http_code} %{http_version}", "--cacert", f"{self.at}/ca.pem", *words]
        command += ["-H", f"Content-Type: {JSON}", "-d", self.body().decode(), f"https://{host}:{self.service.listen}/v1/metrics"]
        done = subprocess.run(command, capture_output=True, text=True, timeout=60, check=False)
        return done.stdout if done.returncode == 0 else f"none {done.returncode}"

    def shown(self, name: str) -> list[str]:
        return ["--cert", f"{self.at}/{name}.pem", "--key", f"{self.at}/{name}.key"]

    def python(self, certificate: str | None = None, token: str | None = None, sender: str | None = None) -> Sequence[Any]:
        """The status, the text and the challenge of an answer; all None if there is no answer."""
        headers = {"Content-Type": PROTOBUF}
        headers |= {"Authorization": f"Bearer {token}"} if token else {}
        headers |= {"x-sender": sender} if sender else {}
        made = context(self.at, certificate)
        connection = http.client.HTTPSConnection("localhost", self.service.listen, timeout=20, context=made)
        try:
            connection.request("POST", "/v1/metrics", self.body(in_protobuf), headers)
            answer = connection.getresponse()
            return answer.status, answer.read(), answer.getheader("www-authenticate")
        except OSError as error:
            return None, type(error).__name__.encode(), None
        finally:
            connection.close()

    def call(self, certificate: str | None = None, token: str | None = None, sender: str | None = None) -> tuple[str, str]:
        """The name of gRPC's status, and its text."""
        def part(name: str) -> bytes:
            with open(f"{self.at}/{name}", "rb") as file:
                return file.read()
        pair = (part(f"{certificate}.key"), part(f"{certificate}.pem")) if certificate else (None, None)
        credentials = grpc.ssl_channel_credentials(part("ca.pem"), *pair)
        metadata = [("authorization", f"Bearer {token}")] if token else []
        metadata += [("x-sender", sender)] if sender else []
        options = [("grpc.use_local_subchannel_pool", 1)]
        # localhost and not 127.0.0.1, because the client sends the host as the handshake's server name, which may not
        # be an address (RFC 6066, 3).
        with grpc.secure_channel(f"localhost:{self.callers}", credentials, options=options) as channel:
            call = channel.unary_unary(METHOD, request_serializer=bytes, response_deserializer=bytes)
            try:
                call(self.body(in_protobuf), timeout=20, metadata=metadata)
                return "OK", ""
            except grpc.RpcError as error:
                return error.code().name, error.details()


def post_by_curl(checks: Checks, clients: Clients, token: str) -> None:
    bearer = ["-H", f"Authorization: Bearer {token}"]
    cases: tuple[tuple[str, str, list[str]], ...] = (
            ("a certificate", "200 1.1", clients.shown("shop-1")),
            ("a token", "200 1.1", bearer),
            ("a certificate, TLS 1.2", "200 1.1", [*clients.shown("shop-1"), "--tls-max", "1.2"]),
            ("a token, TLS 1.3", "200 1.1", [*bearer, "--tlsv1.3"]),
            ("TLS 1.1", "none 35", [*bearer, "--tls-max", "1.1", "--ciphers", "ALL:@SECLEVEL=0"]),
            ("HTTP/2 where it is offered", "200 1.1", [*bearer, "--http2"]),
            ("neither", "401 1.1", []),
            ("a wrong token", "401 1.1", ["-H", f"Authorization: Bearer {token}x"]),
            ("a name of its own", "200 1.1", [*clients.shown("shop-1"), "-H", "x-sender: shop-1"]),
            ("another's name", "403 1.1", [*clients.shown("shop-1"), "-H", "x-sender: shop-2"]))
    for what, wanted, words in cases:
        checks.same(f"curl, {what}", wanted, clients.curl(*words))
    elsewhere = ["--resolve", f"example.org:{clients.service.listen}:127.0.0.1"]
    checks.same("curl, another name than the certificate's", "none 60", clients.curl(*bearer, *elsewhere, host="example.org"))
    for name in ("expired", "stranger-alone"):
        checks.true(f"curl, a certificate that is not believed: {name}", clients.curl(*clients.shown(name)).startswith("none"), "taken")


def post_by_python(checks: Checks, clients: Clients, token: str) -> None:
    many = clients.collector
    cases: tuple[tuple[str, tuple[int, str], dict[str, str]], ...] = (
            ("a certificate", (200, "OK"), {"certificate": "shop-1"}),
            ("a token", (200, "OK"), {"token": token}),
            ("a collector's token for another", (200, "OK"), {"token": many, "sender": "shop-77"}),
            ("a certificate under another's name", (403, "PERMISSION_DENIED"), {"certificate": "shop-1", "sender": "shop-2"}),
            ("a token under another's name", (403, "PERMISSION_DENIED"), {"token": token, "sender": "shop-1"}),
            ("a collector's token beyond its names", (403, "PERMISSION_DENIED"), {"token": many, "sender": "else"}),
            ("a wrong token", (401, "UNAUTHENTICATED"), {"token": "t0ken"}),
            ("nothing", (401, "UNAUTHENTICATED"), {}),
            ("a name alone", (401, "UNAUTHENTICATED"), {"sender": "shop-1"}))
    for what, wanted, how in cases:
        status, text, challenge = clients.python(**how)
        code, details = clients.call(**how)
        checks.same(f"Python over HTTP and gRPC, {what}", wanted, (status, code))
        checks.same(f"Python, {what}: the challenge", 'Bearer realm="totxegun"' if status == 401 else None, challenge)
        checks.true(f"Python, {what}: no answer has a token", "t0ken" not in f"{text}{details}" and token not in f"{text}{details}",
                    (text, details))


def what_stops(checks: Checks, clients: Clients, at: str) -> None:
    """Removes a token and a root while connections are kept."""
    headers = {"Content-Type": JSON, "Authorization": f"Bearer {clients.fleeting}"}
    by_token = http.client.HTTPSConnection("localhost", clients.service.listen, timeout=20, context=context(at))
    by_root = http.client.HTTPSConnection("localhost", clients.service.listen, timeout=20, context=context(at, "stranger"))

    def status(connection: http.client.HTTPSConnection,
               headers: dict[str, str]) -> int:
        connection.request("POST", "/v1/metrics", clients.body(), headers)
        answer = connection.getresponse()
        answer.read()
        return answer.status

    def is_refused(connection: http.client.HTTPSConnection, headers: dict[str, str]) -> bool:
        return status(connection, headers) == 401

    both = (by_token, headers), (by_root, {"Content-Type": JSON})
    checks.same("both are taken", [200, 200], [status(*one) for one in both])
    lines = text_of(f"{at}/tokens").splitlines(keepends=True)
    put(f"{at}/tokens", "".join(line for line in lines if not line.startswith("fleeting ")))
    put(f"{at}/clients", text_of(f"{at}/ca.pem"))
    for what, one in zip(("a token", "a root"), both):
        begun = time.monotonic()
        stopped = wait_until(functools.partial(is_refused, *one), 5)
        checks.true(f"{what} that is taken out stops within a second", stopped and time.monotonic() - begun < 1,
                    time.monotonic() - begun)
    put(f"{at}/tokens", "fleeting t0ken\n")
    checks.true("a broken file is a metric", wait_until(
        lambda: 'totxegun_stale_files{option="--tokens"} 1' in clients.service.asked("GET", "/metrics")[1].decode(), 5), "none")
    checks.same("and the one before it is used", 401, status(*both[0]))
    put(f"{at}/tokens", "".join(line for line in lines if not line.startswith("fleeting ")))
    checks.true("until it is sound", wait_until(
        lambda: 'totxegun_stale_files{option="--tokens"} 0' in clients.service.asked("GET", "/metrics")[1].decode(), 5), "none")


# --------------------------------------------------------------------------------------------------------------------
# Load, while the certificate is renewed


class Poster(threading.Thread):
    """Posts until it is stopped, on one connection that it keeps or on a new one each time."""

    def __init__(self, at: str, service: Service, name: str, kept: bool) -> None:
        super().__init__(daemon=True)
        self.at, self.service, self.name, self.kept = at, service, name, kept
        self.over = threading.Event()
        self.told: dict[str, int] = {}
        self.surprises: list[Any] = []

    def connection(self) -> http.client.HTTPSConnection:
        made = context(self.at, "kept")
        return http.client.HTTPSConnection("localhost", self.service.listen, timeout=20, context=made)

    def run(self) -> None:
        connection, start = self.connection(), 1000
        while not self.over.wait(0.01):
            start += 10
            try:
                connection.request("POST", "/v1/metrics", in_json([(self.name, start, start + 10, 1)]), {"Content-Type": JSON})
                answer = connection.getresponse()
                answer.read()
                if answer.status == 200:
                    self.told[self.name] = self.told.get(self.name, 0) + 1
                else:
                    self.surprises.append(answer.status)
            except (OSError, http.client.HTTPException) as error:
                self.surprises.append(f"{type(error).__name__} {error}")
            if not self.kept or self.surprises:
                connection.close()
                connection = self.connection()


def renew(at: str, seconds: float) -> int:
    """Renews the certificate again and again; every other time its key arrives 0.8 s later. Returns how often."""
    until, count = time.monotonic() + seconds, 0
    while time.monotonic() < until:
        os.makedirs(f"{at}/made", exist_ok=True)
        for name in ("ca.pem", "ca.key"):
            shutil.copy(f"{at}/{name}", f"{at}/made/{name}")
        signed(f"{at}/made", "server", names="DNS:localhost,IP:127.0.0.1", days=10 + count)
        for end in ("pem", "key"):
            put(f"{at}/server.{end}", text_of(f"{at}/made/server.{end}"))
            time.sleep(0.8 if count % 2 else 0)
        count += 1
        time.sleep(0.7)
    return count


def start_go(program: str, folder: str, at: str, service: Service, callers: int, number: int, seconds: float,
             token: str) -> subprocess.Popen[bytes]:
    encoding, by = PROGRAMS[number]
    words = [program, "-encoding", encoding, "-url", f"https://localhost:{service.listen}/v1/metrics", "-ca", f"{at}/ca.pem",
             "-grpc", f"localhost:{callers}", "-instance", f"i-{number}", "-seconds", str(seconds),
             "-descriptors", f"{folder}/descriptors", "-out", f"{folder}/{number}.json"]
    words += ["-cert", f"{at}/go-cert.pem", "-key", f"{at}/go-cert.key"] if by == "cert" else ["-token", token]
    with open(f"{folder}/{number}.log", "wb") as log:
        return subprocess.Popen(words, stdin=subprocess.DEVNULL, stdout=log, stderr=log)


def under_load(checks: Checks, folder: str, at: str, service: Service, callers: int, seconds: float, token: str) -> None:
    program, fault = sdk_go.build(folder)
    checks.same("the programs on the SDK for Go are built", "", fault)
    if fault:
        return
    posters = [Poster(at, service, name, name == "load.kept") for name in ("load.kept", "load.new")]
    stalled = [socket.create_connection(("127.0.0.1", service.listen)) for _ in range(100)]
    for poster in posters:
        poster.start()
    programs = [start_go(program, folder, at, service, callers, number, seconds, token) for number in range(len(PROGRAMS))]
    renewed = renew(at, seconds)
    checks.same("the programs end", [0] * len(PROGRAMS), [one.wait(120) for one in programs])
    for poster in posters:
        poster.over.set()
        poster.join(60)
    for one in stalled:
        one.close()
    checks.true(f"all is delivered after {renewed} certificates", service.has_delivered_all(), service.last_lines())
    found = totals(f"{folder}/sink.db")
    for poster in posters:
        checks.same(f"{poster.name}: each post was taken", [], poster.surprises)
        checks.true(f"{poster.name}: there were many", poster.told[poster.name] > 10 * seconds, poster.told)
        checks.same(f"{poster.name}: the sink has them", poster.told[poster.name], found.get(poster.name))
    for number, (encoding, by) in enumerate(PROGRAMS):
        told = json.loads(text_of(f"{folder}/{number}.json"))
        wanted, in_sink = told["totals"], sdk_go.found_of(sdk_go.File(folder), number)[0]["totals"]
        what = f"Go, {encoding} by {by}"
        checks.true(f"{what}: the sink has its totals", len(wanted) > 5 and wanted == in_sink, (wanted, in_sink))
        checks.same(f"{what}: each post was taken", set(), set(told["answers"]) - {"200", "OK"})


def totals(sink: str) -> Any:
    import sqlite3
    with contextlib.closing(sqlite3.connect(f"file:{sink}?mode=ro", uri=True)) as database:
        return {name: int(total) for name, total in database.execute("select name, total from totals where name like 'load.%'")}


def run(checks: Checks, program: str, seconds: float, folder: str) -> None:
    at, callers = f"{folder}/tls", free_port()
    os.mkdir(at)
    make_certificates(at)
    token = make_token(program, at, "shop-2")
    refusals(checks, program, at)
    shutil.copy(f"{at}/roots", f"{at}/clients")
    root(at, "stranger-alone")
    words = ["--flush-interval", "1s", "--listen-grpc", f"0.0.0.0:{callers}", "--tokens", f"{at}/tokens", "--client-ca", f"{at}/clients",
             "--tls-cert", f"{at}/server.pem", "--tls-key", f"{at}/server.key"]
    service = Service(program, f"{folder}/data", f"sqlite:{folder}/sink.db", *words)
    clients = Clients(at, service, callers)
    clients.collector, clients.fleeting = make_token(program, at, "collector/shop-*"), make_token(program, at, "fleeting")
    go = make_token(program, at, "go-token")
    try:
        service.start()
        checks.true("beyond loopback, with TLS and names, it is ready", service.wait_ready(), service.last_lines())
        checks.true("the log says by what senders are named",
                    "senders are named by their certificate, or else by their token, over TLS" in text_of(service.log),
                    service.last_lines())
        post_by_curl(checks, clients, token)
        post_by_python(checks, clients, token)
        what_stops(checks, clients, at)
        under_load(checks, folder, at, service, callers, seconds, go)
        page = service.asked("GET", "/metrics")[1].decode()
        left = [int(line.split()[1]) - time.time() for line in page.splitlines()
                if line.startswith("totxegun_certificate_not_after_timestamp_seconds ")]
        alerts.promtool(checks, "the page of metrics", "check", "metrics", given=page.encode())
        checks.true("the page says when the certificate ends", left and 9 * 86_400 < left[0] < 30 * 86_400, left)
        log = text_of(service.log)
        secret = [word for word in (token, clients.collector, clients.fleeting, go, "t0ken") if word in log]
        checks.same("the log has nothing of a token", [], secret)
        checks.true("the log says who is refused, and why",
                    re.search(r'a post is refused sender="address \S+" .*status=401 answer="the token is not known', log),
                    service.last_lines())
        unused = "so its former content stays in use option=\"--tokens\""
        checks.true("the log says that a file can't be used", unused in log, service.last_lines())
        service.signal(signal.SIGTERM)
        checks.same("SIGTERM ends the service", 0, service.process.wait(60))
    finally:
        service.kill()


def main(totxegun: str, seconds: int | str = SECONDS) -> int:
    checks = Checks()
    missing = [name for name in ("curl", "openssl") if not shutil.which(name)] + ([] if grpc else ["python3-grpcio"])
    if checks.has("TLS by real clients", *missing, *sdk_go.missing()):
        with tempfile.TemporaryDirectory(prefix="tls-") as folder:
            run(checks, totxegun, float(seconds), folder)
    return checks.end()


if __name__ == "__main__":
    if len(sys.argv) < 2:
        sys.exit(f"usage: {sys.argv[0]} TOTXEGUN [SECONDS]")
    sys.exit(main(os.path.abspath(sys.argv[1]), *sys.argv[2:3]))
