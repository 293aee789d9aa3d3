#!/usr/bin/env python3
"""Sets up senders on another machine, word by word as README and OPERATING say.

    tests/two_networks.py TOTXEGUN [SECONDS]

Two machines are network namespaces with a cable between them. On one the test runs the commands of docs/OPERATING.md, "TLS and names",
unchanged except for other folders and the machine's name instead of localhost, and starts the service with the settings that they write.
On the other, for SECONDS (4), a program on OpenTelemetry's SDK for Go posts over HTTP and gRPC with the certificate of shop-1, a Python
program with the token of shop-2, and Java's own HTTP client with either, if there is a JDK. A sender without either, and one without TLS,
must be refused. At the end the sink must have what they counted, each series of its own sender, and the admin address must not be
reachable from there.

It needs openssl, ip, the right to make network namespaces, and what tests/sdk_go.py needs; if one is missing, a line says so and the
status is 77. Each other line is a check; the last line counts passes and failures. The status is 1 if one failed.
"""
import contextlib
import http.client
import json
import os
import re
import shutil
import signal
import socket
import ssl
import subprocess
import sys
import tempfile
import time
from typing import Any

from testing import ROOT
from testing.checks import Checks
from testing.machines import ip, may_have_machines, on
from testing.service import JSON, ask, in_json, wait_until
import sdk_go

PAGE = f"{ROOT}/docs/OPERATING.md"
SECONDS = 4
NAME = "gateway.test"
LISTEN, GRPC, OPERATE = 4318, 4317, 4319
GATEWAY, SHOP = "10.9.0.1", "10.9.0.2"
# The first argument of this script if it runs as a sender on the other machine.
AS_SENDER = "--as-sender"
JAVA = """
import java.net.URI; import java.net.http.*; import java.nio.file.*; import java.security.*; import java.security.cert.*;
import java.security.spec.*; import java.util.*; import javax.net.ssl.*;
public class Post {
    public static void main(String[] words) throws Exception {
        CertificateFactory factory = CertificateFactory.getInstance("X.509");
        KeyStore roots = KeyStore.getInstance("PKCS12"), own = null; roots.load(null, null);
        try (var in = Files.newInputStream(Path.of(words[1]))) { roots.setCertificateEntry("ca", factory.generateCertificate(in)); }
        TrustManagerFactory trust = TrustManagerFactory.getInstance("PKIX"); trust.init(roots);
        KeyManagerFactory keys = KeyManagerFactory.getInstance("PKIX");
        if (words.length > 4) {
            String key = Files.readString(Path.of(words[4])).replaceAll("-----.*-----|\\\\s", "");
            PrivateKey pair = KeyFactory.getInstance("EC").generatePrivate(new PKCS8EncodedKeySpec(Base64.getDecoder().decode(key)));
            own = KeyStore.getInstance("PKCS12"); own.load(null, null);
            try (var in = Files.newInputStream(Path.of(words[3]))) {
                own.setKeyEntry("own", pair, new char[0], new java.security.cert.Certificate[] { factory.generateCertificate(in) });
            }
        }
        keys.init(own, new char[0]);
        SSLContext context = SSLContext.getInstance("TLS"); context.init(keys.getKeyManagers(), trust.getTrustManagers(), null);
        var client = HttpClient.newBuilder().sslContext(context).build();
        for (Path body : Files.list(Path.of(words[2])).sorted().toList()) {
            var request = HttpRequest.newBuilder(URI.create(words[0])).header("Content-Type", "application/json")
                .POST(HttpRequest.BodyPublishers.ofFile(body));
            if (System.getenv("TOKEN") != null) request.header("Authorization", "Bearer " + System.getenv("TOKEN"));
            System.out.println(client.send(request.build(), HttpResponse.BodyHandlers.ofString()).statusCode());
        }
    }
}
"""


# --------------------------------------------------------------------------------------------------------------------
# Machines


def make_machines(stack: contextlib.ExitStack) -> list[str]:
    """Makes two machines and returns their names. Each has the first one's name in an /etc/hosts of its own."""
    names = [f"totxegun-{os.getpid()}-{what}" for what in ("gateway", "shop")]
    for name in names:
        ip("netns", "add", name)
        stack.callback(ip, "netns", "del", name)
        os.makedirs(f"/etc/netns/{name}")
        stack.callback(shutil.rmtree, f"/etc/netns/{name}")
        with open(f"/etc/netns/{name}/hosts", "w", encoding="ascii") as file:
            file.write(f"127.0.0.1 localhost\n{GATEWAY} {NAME}\n")
    ip("-n", names[0], "link", "add", "eth0", "type", "veth", "peer", "name", "eth0", "netns", names[1])
    for name, address in zip(names, (GATEWAY, SHOP)):
        ip("-n", name, "addr", "add", f"{address}/24", "dev", "eth0")
        for it in ("lo", "eth0"):
            ip("-n", name, "link", "set", it, "up")
    return names


# --------------------------------------------------------------------------------------------------------------------
# The service


def commands(folder: str, program: str) -> str:
    """The page's commands for a shell, with other folders, and without the restart of a unit."""
    with open(PAGE, encoding="utf-8") as file:
        block = re.search(r"^```\n(# umask 077; mkdir -p /root/totxegun-ca.*?)^```$", file.read(), re.DOTALL | re.MULTILINE)[1]
    text = re.sub(r"^# ", "", block, flags=re.MULTILINE)
    for old, new in (("/root/totxegun-ca", f"{folder}/ca"), ("/var/lib/private/totxegun", f"{folder}/data"),
                     ("/var/lib/totxegun", f"{folder}/data"),
                     ("/etc/totxegun/totxegun.toml", f"{folder}/totxegun.toml"), ("/tmp/settings", f"{folder}/settings"),
                     ("systemctl restart totxegun\n", ""),
                     ("totxegun token", f"{program} token"), ("localhost", NAME)):
        if old not in text:
            raise OSError(f"docs/OPERATING.md has no {old} in its commands")
        text = text.replace(old, new)
    return text


# --------------------------------------------------------------------------------------------------------------------
# Senders


def post_by_python(at: str, seconds: float) -> None:
    """Posts by token, as the page says without x-sender and with the root that it has. Prints how many points were accepted."""
    context = ssl.create_default_context(cafile=f"{at}/ca.pem")
    headers = {"Content-Type": JSON, "Authorization": f"Bearer {os.environ['TOKEN']}"}
    until, start, taken = time.monotonic() + seconds, 1000, 0
    connection = http.client.HTTPSConnection(NAME, LISTEN, timeout=20, context=context)
    while time.monotonic() < until:
        start += 10
        connection.request("POST", "/v1/metrics", in_json([("python", start, start + 10, 1)]), headers)
        answer = connection.getresponse()
        answer.read()
        taken += answer.status == 200
        time.sleep(0.01)
    print(taken)


def try_without(at: str) -> None:
    """Prints the answers to a sender with neither, over TLS and without."""
    context = ssl.create_default_context(cafile=f"{at}/ca.pem")
    connection = http.client.HTTPSConnection(NAME, LISTEN, timeout=20, context=context)
    connection.request("POST", "/v1/metrics", in_json([("none", 10, 20, 1)]), {"Content-Type": JSON, "x-sender": "shop-1"})
    print(connection.getresponse().status)
    print(ask(LISTEN, "POST", "/v1/metrics", in_json([("none", 10, 20, 1)]), {"Content-Type": JSON}, 5, host=NAME)[0])
    try:
        socket.create_connection((NAME, OPERATE), 2).close()
        print("reached")
    except OSError:
        print("not reached")


def start_go(program: str, folder: str, at: str, machine: str, number: int, encoding: Any,
             seconds: float) -> subprocess.Popen[bytes]:
    words = [program, "-encoding", encoding, "-url", f"https://{NAME}:{LISTEN}/v1/metrics", "-grpc", f"{NAME}:{GRPC}",
             "-instance", f"i-{number}", "-seconds", str(seconds), "-descriptors", f"{folder}/descriptors",
             "-out", f"{folder}/{number}.json", "-ca", f"{at}/ca.pem", "-cert", f"{at}/shop-1.crt", "-key", f"{at}/shop-1.key"]
    with open(f"{folder}/{number}.log", "wb") as log:
        return subprocess.Popen(on(machine, *words), stdin=subprocess.DEVNULL, stdout=log, stderr=log)


def post_by_java(checks: Checks, folder: str, at: str, machine: str, token: str | None) -> list[str]:
    """Posts by Java. Returns the names of its series; none if there is no JDK."""
    if not shutil.which("javac"):
        print("note: no JDK, so Java did not post", flush=True)
        return []
    with open(f"{folder}/Post.java", "w", encoding="utf-8") as file:
        file.write(JAVA)
    built = subprocess.run(["javac", "-d", folder, f"{folder}/Post.java"], capture_output=True, text=True, check=False)
    checks.same("the program in Java is built", "", built.stderr)
    ways: list[tuple[str, list[str], dict[str, str]]] = [
        ("java-1", [f"{at}/shop-1.crt", f"{at}/shop-1.key"], {}), ("java-2", [], {"TOKEN": token})]
    for name, more, environment in ways:
        os.mkdir(f"{folder}/{name}")
        for number in range(3):
            with open(f"{folder}/{name}/{number}", "wb") as file:
                file.write(in_json([(name, 10 * number, 10 * number + 10, 1)]))
        words = ["java", "-cp", folder, "Post", f"https://{NAME}:{LISTEN}/v1/metrics", f"{at}/ca.pem", f"{folder}/{name}", *more]
        done = subprocess.run(on(machine, *words), env={**os.environ, **environment}, capture_output=True, text=True, timeout=120,
                              check=False)
        checks.same(f"Java, {'a certificate' if more else 'a token'}", ["200"] * 3, done.stdout.split() or done.stderr[-800:])
    return ["java-1", "java-2"]


# --------------------------------------------------------------------------------------------------------------------
# What is checked


def run(checks: Checks, totxegun: str, seconds: float, folder: str, stack: contextlib.ExitStack) -> None:
    gateway, shop = make_machines(stack)
    data, at = f"{folder}/data", f"{folder}/ca"
    os.mkdir(data)
    open(f"{folder}/totxegun.toml", "w", encoding="utf-8").close()
    made = subprocess.run(["bash", "-e"], input=commands(folder, totxegun), capture_output=True, text=True, timeout=60, check=False)
    checks.same("the page's commands are done", 0, made.returncode)
    checks.same("what the service may read", sorted(["ca.pem", f"{NAME}.crt", f"{NAME}.key", "tokens"]), sorted(os.listdir(f"{data}/tls")))
    token = next((line for line in made.stderr.splitlines() if re.fullmatch(r"[\w-]{43}", line)), None)
    checks.true("one of them shows a token", token, made.stderr[-800:])
    with open(f"{folder}/log", "wb") as log:
        words = on(gateway, totxegun, "serve", "--data", data, "--listen-grpc", f"0.0.0.0:{GRPC}", "--flush-interval", "1s",
                   "--config", f"{folder}/totxegun.toml", "--keep-intervals", "forever")
        service = subprocess.Popen(words, stdout=log, stderr=log)
    stack.callback(service.kill)

    def said(*words: str) -> str:
        return subprocess.run([totxegun, *words, "--data", data], capture_output=True, text=True, timeout=120, check=False).stdout

    checks.true("the service is ready", wait_until(lambda: "ready, up" in said("status") and "not ready" not in said("status")),
                open(f"{folder}/log", encoding="utf-8").read()[-2000:])
    program, fault = sdk_go.build(folder)
    checks.same("the program on the SDK for Go is built", "", fault)
    programs = [start_go(program, folder, at, shop, number, encoding, seconds) for number, encoding in enumerate(("protobuf", "grpc"))]
    sender = [sys.executable, os.path.abspath(__file__), AS_SENDER, at, str(seconds)]
    python = subprocess.run(on(shop, *sender), env={**os.environ, "TOKEN": token or ""}, capture_output=True, text=True, check=False)
    java = post_by_java(checks, folder, at, shop, token)
    without = subprocess.run(on(shop, *sender[:-1]), capture_output=True, text=True, timeout=60, check=False).stdout.split("\n")
    checks.same("without a name; without TLS; the admin address", ["401", "None", "not reached", ""], without)
    checks.same("the programs in Go end", [0, 0], [one.wait(120) for one in programs])
    said("flush")
    checks.true("all is delivered", wait_until(lambda: json.loads(said("status", "--json"))["shards"][0]["waiting"] == 0), said("status"))
    report = ask(f"{data}/admin.sock", "GET", "/report")[1].decode()
    owners = dict(re.findall(r"^series (\S+) .* owner (\S+) ", report, re.MULTILINE))
    taken = int(python.stdout or 0)
    checks.true("Python posted by its token", taken > 20, python.stderr[-800:])
    totals = {row["name"]: int(row["total"]) for row in map(json.loads, filter(None, said("totals", "--json").split("\n")))}
    checks.same("what Python was told is in the sink", taken, totals.get("python"))
    checks.same("and it is shop-2's", "shop-2", owners.get("python"))
    checks.same("so is Java's, each its own", {"java-1": "shop-1", "java-2": "shop-2"} if java else {},
                {name: owners.get(name) for name in java})
    for number, encoding in enumerate(("protobuf", "grpc")):
        with open(f"{folder}/{number}.json", encoding="utf-8") as file:
            counted = json.load(file)
        found = sdk_go.found_of(sdk_go.File(data, "metrics.db"), number)[0]["totals"]
        checks.true(f"Go, {encoding} by a certificate: the sink has its totals", len(counted["totals"]) > 5 and counted["totals"] == found,
                    (counted, found))
    service.send_signal(signal.SIGTERM)
    checks.same("SIGTERM ends the service", 0, service.wait(60))


def main(totxegun: str, seconds: int | str = SECONDS) -> int:
    checks = Checks()
    missing = [] if shutil.which("openssl") else ["openssl"]
    missing += [] if may_have_machines() else ["network namespaces"]
    if checks.has("senders on another machine", *missing, *sdk_go.missing()):
        with contextlib.ExitStack() as stack:
            folder = stack.enter_context(tempfile.TemporaryDirectory(prefix="networks-"))
            run(checks, totxegun, float(seconds), folder, stack)
    return checks.end()


if __name__ == "__main__":
    if sys.argv[1:2] == [AS_SENDER]:
        if len(sys.argv) > 3:
            post_by_python(sys.argv[2], float(sys.argv[3]))
        else:
            try_without(sys.argv[2])
        sys.exit()
    if len(sys.argv) < 2:
        sys.exit(f"usage: {sys.argv[0]} TOTXEGUN [SECONDS]")
    sys.exit(main(os.path.abspath(sys.argv[1]), *sys.argv[2:3]))
