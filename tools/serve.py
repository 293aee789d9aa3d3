#!/usr/bin/env python3
"""Compiles what is missing, and runs `totxegun serve` with a SQLite file as its sink.

    tools/serve.py [PORT]

Senders post to 127.0.0.1 on PORT (4318), and call gRPC at the port before it; the next port is the admin API. Accepted points stay
in out/serve/data from run to run. An interrupt ends the service. tools/service.py compiles it with the dev profile and the proved
library in book/. The status is the service's, or 1 if a port is taken or the build fails.
"""
import os
import signal
import socket
import subprocess
import sys
import time

from tooling.crates import OUT
from tooling.steps import interrupt
from service import build

PORT = 4318
FOLDER = f"{OUT}/serve"
TRY = """
Senders post to 127.0.0.1:{port}, a browser reads at 127.0.0.1:{operate}. Post a point, flush, and see the totals:

  curl -w '\\n' -H 'Content-Type: application/json' -H 'x-sender: A' -d '{body}' http://127.0.0.1:{port}/v1/metrics
  {totxegun} flush --data {data}
  {totxegun} totals --data {data}

The next point of this series begins where this one ends, or later. `{totxegun} --help` shows what else there is.
What was taken is in {data}: it is there after a kill, and in the next run. Ctrl-C ends the service.
"""


def body() -> str:
    """A body with one point of a sum, which covers the last ten seconds."""
    now = time.time_ns()
    point = f'{{"asInt":"5","startTimeUnixNano":"{now - 10_000_000_000}","timeUnixNano":"{now}"}}'
    metric = f'{{"name":"a","sum":{{"aggregationTemporality":1,"isMonotonic":true,"dataPoints":[{point}]}}}}'
    return f'{{"resourceMetrics":[{{"scopeMetrics":[{{"metrics":[{metric}]}}]}}]}}'


def is_free(port: int) -> bool:
    with socket.socket() as listener:
        listener.setsockopt(socket.SOL_SOCKET, socket.SO_REUSEADDR, 1)
        try:
            listener.bind(("127.0.0.1", port))
        except OSError:
            return False
    return True


def listens(port: int) -> bool:
    """Whether someone listens, by the kernel's table: the service would serve a test connection."""
    with open("/proc/net/tcp", encoding="ascii") as table:
        return f"0100007F:{port:04X} 00000000:0000 0A" in table.read()


def serve(program: str, port: int) -> int:
    """Runs the service until it ends or is interrupted, and returns its status."""
    words = ["--data", f"{FOLDER}/data", "--flush-interval", "10s"]
    words += ["--listen-grpc", f"127.0.0.1:{port - 1}", "--listen", f"127.0.0.1:{port}", "--admin", f"127.0.0.1:{port + 1}"]
    service = subprocess.Popen([program, "serve", *words], stdin=subprocess.DEVNULL, start_new_session=True)
    try:
        while service.poll() is None and not listens(port):
            time.sleep(0.1)
        if service.poll() is None:
            show = os.path.relpath(program)
            data = os.path.relpath(f"{FOLDER}/data")
            print(TRY.format(port=port, operate=port + 1, body=body(), totxegun=show, data=data), flush=True)
        return service.wait()
    except KeyboardInterrupt:
        service.terminate()
        return service.wait()


def main(words: list[str]) -> int:
    port = int(words[0]) if words else PORT
    for it in (port - 1, port, port + 1):
        if not is_free(it):
            print(f"port {it} of 127.0.0.1 is taken: end what listens there, or call tools/serve.py with another port")
            return 1
    for it in (signal.SIGINT, signal.SIGTERM, signal.SIGHUP):
        signal.signal(it, interrupt)
    try:
        program = build("dev")
    except KeyboardInterrupt:
        print("\nended")
        return 0
    if not program:
        return 1
    os.makedirs(FOLDER, exist_ok=True)
    return serve(program, port)


if __name__ == "__main__":
    sys.exit(main(sys.argv[1:]))
