#!/usr/bin/env python3
"""Tests that foreign pages in a browser (headless Chromium) change and read nothing at the admin address.

    tests/web_pages.py TOTXEGUN

A page of another origin tries every route with every method that a page has: fetch with and without CORS, a form, an image, a script, a
frame. So does a page by DNS rebinding: from the second connection on its own name leads to the service, and its requests then have its
own origin. Neither may see an answer except those of `/healthz`, `/readyz` and `/startupz`; nobody may be quarantined
or released, nothing
flushed, sent again or dropped; and `acts.jsonl` must have no line. The service takes orders over TCP by token, which
the pages do not have;
a page that has one is refused too. Without Chromium everything is left out, with status 77.

Each line is a check; the last line counts passes and failures. The status is 0 if none failed.
"""
import contextlib
import html
import http.server
import json
import os
import re
import socket
import subprocess
import sys
import tempfile
import threading
from typing import Any

from testing.checks import Checks
from testing.service import JSON, Service, ask, in_json, wait_until
from pages import Browser, chromium

KEY = "0-a-1"
SECRET = "s3cret-of-a-letter"
# As `Route::of` has them.
ROUTES = [("POST", path) for path in ("/flush", "/quarantine/A", "/release/B", f"/dead-letters/{KEY}/resend", f"/dead-letters/{KEY}/drop")]
ROUTES += [("GET", path) for path in ("/report", "/metrics", "/totals", "/status", "/dead-letters", f"/dead-letters/{KEY}", "/", "/series",
                                      "/page.js", "/healthz", "/readyz", "/startupz")]
FOR_ALL = ("/healthz", "/readyz", "/startupz")
PAGE = """<!doctype html><title>none</title><body><pre id=told></pre><script>
const routes = %s, place = "%s", token = "%s", told = [];
async function go() {
  for (const [method, path] of routes) {
    for (const how of [{mode: "cors"}, {mode: "no-cors"}, {mode: "cors", headers: {authorization: "Bearer " + token}}]) {
      try {
        const answer = await fetch(place + path, {method, cache: "no-store", ...how});
        told.push([method, path, how.mode, answer.status, await answer.text()]);
      } catch (error) { told.push([method, path, how.mode, 0, ""]); }
    }
    if (method === "POST") {
      const frame = document.createElement("iframe"), form = document.createElement("form");
      frame.name = "at" + path; form.target = frame.name; form.method = "post"; form.action = place + path;
      document.body.append(frame, form); form.submit();
    } else {
      for (const name of ["img", "script", "iframe"]) {
        const element = document.createElement(name); element.src = place + path; document.body.append(element);
      }
    }
  }
  await new Promise(done => setTimeout(done, 1000));
  document.title = "done";
  document.getElementById("told").textContent = JSON.stringify(told);
}
go();
</script>"""


class Rebound:
    """A port that serves the page at first, and is the service's afterwards."""

    def __init__(self, service: Service, page: bytes) -> None:
        self.service, self.page, self.served = service, page, threading.Event()
        self.listener = socket.create_server(("127.0.0.1", 0))
        self.port = self.listener.getsockname()[1]
        threading.Thread(target=self.accept, daemon=True).start()

    def accept(self) -> None:
        while True:
            try:
                stream, _ = self.listener.accept()
            except OSError:
                return
            threading.Thread(target=self.serve, args=(stream,), daemon=True).start()

    def serve(self, stream: Any) -> None:
        """A browser opens connections in advance, so the first request gets the page, not the first connection."""
        with stream, contextlib.suppress(OSError):
            first = stream.recv(65536)
            if not first:
                return
            if not self.served.is_set():
                self.served.set()
                head = f"HTTP/1.1 200 OK\r\nContent-Type: text/html\r\nConnection: close\r\nContent-Length: {len(self.page)}\r\n\r\n"
                stream.sendall(head.encode() + self.page)
                return
            with socket.create_connection(("127.0.0.1", self.service.operate)) as there:
                there.sendall(first)
                back = threading.Thread(target=copy, args=(there, stream), daemon=True)
                back.start()
                copy(stream, there)
                back.join(5)


def copy(source: socket.socket, target: socket.socket) -> None:
    with contextlib.suppress(OSError):
        while part := source.recv(65536):
            target.sendall(part)
        target.shutdown(socket.SHUT_WR)


def told(browser: Browser, place: str) -> Any:
    """What a page got from each route: method, path, mode, status, text."""
    names = "--host-resolver-rules=MAP elsewhere.test 127.0.0.1,MAP rebound.test 127.0.0.1"
    dom = browser.run("--dump-dom", "--virtual-time-budget=20000", names, place=place)
    found = re.search(r"<pre id=\"told\">(.*?)</pre>", dom, re.DOTALL)
    return json.loads(html.unescape(found[1])) if found and found[1] else dom[-500:]


def look(checks: Checks, what: str, found: Any, readable: bool) -> None:
    """Checks what a page got. `readable` says whether the page has the origin of what it asks for."""
    checks.true(f"{what}: the page asked for all", isinstance(found, list) and len(found) == 3 * len(ROUTES), found)
    if not isinstance(found, list):
        return
    read = sorted({path for _, path, _, status, text in found if status == 200})
    checks.same(f"{what}: what it could read", sorted(FOR_ALL) if readable else [], read)
    # A refusal says why, and nothing about the service.
    texts = [text for _, path, _, _, text in found if path not in FOR_ALL and text]
    checks.true(f"{what}: refusals are all that it was shown", all("refused: " in text for text in texts), texts[:3])
    checks.true(f"{what}: no secret is in them", SECRET not in json.dumps(found), texts[:3])


def state(service: Service) -> Any:
    """Everything that an order would change."""
    status = service.status()
    shard = status["shards"][0]
    with open(f"{service.data}/acts.jsonl", encoding="utf-8") as file:
        acts = file.read()
    return acts, shard["quarantined"], shard["series"], status["dead_letters"], json.loads(service.asked("GET", "/dead-letters")[1])


def put_letter(service: Service) -> None:
    letter = {"key": KEY, "since": 1, "reason": SECRET, "bytes": 2}
    with open(f"{service.data}/dead-letters/{KEY}.json", "w", encoding="utf-8") as file:
        file.write(json.dumps(letter) + "\n{}")


def run(checks: Checks, program: str, folder: str) -> None:
    made = subprocess.run([program, "token", "ann"], capture_output=True, text=True, check=True)
    token = made.stderr.split()[-1]
    with open(f"{folder}/operators", "w", encoding="utf-8") as file:
        file.write(made.stdout)
    service = Service(program, f"{folder}/data", f"sqlite:{folder}/sink.db", "--flush-interval", "1h", "--admin-tokens",
                      f"{folder}/operators")
    service.start()
    checks.true("the service is ready", service.wait_ready(), service.last_lines())
    service.end()
    put_letter(service)
    service.start()
    try:
        checks.true("the service is ready again", service.wait_ready(), service.last_lines())
        body = in_json([("a", 10, 20, 1)])
        ask(service.listen, "POST", "/v1/metrics", body, {"Content-Type": JSON, "x-sender": "A"})
        checks.same("an order by the socket", 200, service.order("/quarantine/B"))
        by_token = ask(service.operate, "POST", "/release/C", headers={"Authorization": f"Bearer {token}"})
        checks.same("the token is one", (200, True), (by_token[0], b"it is not quarantined" in by_token[1]))
        before = state(service)
        browser = Browser(folder, service.operate)

        class Elsewhere(http.server.BaseHTTPRequestHandler):
            def do_GET(self) -> None:
                page = (PAGE % (json.dumps(ROUTES), f"http://127.0.0.1:{service.operate}", token)).encode()
                self.send_response(200)
                self.send_header("Content-Type", "text/html")
                self.end_headers()
                self.wfile.write(page)

            def log_message(self, *words: str) -> None:
                pass

        with http.server.ThreadingHTTPServer(("127.0.0.1", 0), Elsewhere) as server:
            threading.Thread(target=server.serve_forever, daemon=True).start()
            found = told(browser, f"http://elsewhere.test:{server.server_address[1]}/")
            server.shutdown()
        look(checks, "another origin", found, readable=False)
        rebound = Rebound(service, (PAGE % (json.dumps(ROUTES), "", token)).encode())
        look(checks, "a rebound name", told(browser, f"http://rebound.test:{rebound.port}/"), readable=True)
        rebound.listener.close()
        checks.same("nothing was changed", before, state(service))
        page = service.asked("GET", "/metrics")[1].decode()
        checks.true("nothing was flushed", 'totxegun_checkpoints_total{outcome="done"} 0' in page,
                    [line for line in page.splitlines() if "checkpoints" in line])
        checks.true("it still takes orders", wait_until(lambda: service.order("/release/B") == 200), service.last_lines())
    finally:
        service.kill()


def main(program: str) -> int:
    checks = Checks()
    if checks.has("pages of somebody else", *([] if chromium() else ["chromium"])):
        with tempfile.TemporaryDirectory(prefix="web-") as folder:
            run(checks, program, folder)
    return checks.end()


if __name__ == "__main__":
    if len(sys.argv) != 2:
        sys.exit(f"usage: {sys.argv[0]} TOTXEGUN")
    sys.exit(main(os.path.abspath(sys.argv[1])))
