#!/usr/bin/env python3
"""The gateway under load, as many senders at once and a back end that refuses see it.

    tests/gateway_load.py PROGRAM

Eight senders post 2,000 points of value 1, each on a connection of its own, while flushes are ordered;
the back end refuses one request in three. So what it took plus what is stored at the end is what was
accepted, whatever the order was. The same with a round for each 50 connections; and with one sender that
never ends its request, beside which the others are served by the other receiver.

Each line is a check; the last line counts passes and failures. The status is 0 if none failed.
"""
import re
import socket
import sys
import threading
import time

from testing.checks import Checks
from testing.loopback import BackEnd, Gateway, free_port, point, sent_points
from testing.service import wait_until
from testing.shipped import ask, listens, posting

SENDERS = 8
POSTS = 250
FLUSHES = 50


class RefusingBackEnd(BackEnd):
    """Refuses one request in three, and adds up the values of the others."""

    def __init__(self) -> None:
        self.lock = threading.Lock()
        self.asked = self.took = 0
        super().__init__()

    def answer_to(self, body: bytes) -> bytes:
        with self.lock:
            self.asked += 1
            if self.asked % 3 == 0:
                return b"503 Service Unavailable\r\n"
            self.took += sum(value for value, _, _ in sent_points(body))
        return b"200 OK\r\n"


def post(gateway: Gateway, sender: int, number: int) -> int:
    """The status of a post with one point of value 1 of the sender's own sum."""
    body = point(10 * number + 10, 10 * number + 20, 1, f"m{sender}")
    return ask(gateway.port, "POST", "/v1/metrics", body, posting(f"s{sender}"))[0]


def start(program: str, back_end: int, connections: int, *options: str) -> Gateway:
    """Starts a gateway and returns when it listens."""
    gateway = Gateway(program, back_end, connections, options=options)
    wait_until(lambda: listens(gateway.port))
    return gateway


def load(program: str, checks: Checks, what: str, *options: str) -> None:
    """Runs all senders at once, with flushes meanwhile."""
    back_end = RefusingBackEnd()
    gateway = start(program, back_end.port, SENDERS * POSTS + FLUSHES + 1, *options)
    statuses = []

    def send(sender: int) -> None:
        for number in range(POSTS):
            statuses.append(post(gateway, sender, number))

    def order() -> None:
        for _ in range(FLUSHES):
            statuses.append(ask(gateway.port, "POST", "/flush")[0])
            time.sleep(0.02)

    threads = [threading.Thread(target=send, args=(sender,)) for sender in range(SENDERS)]
    threads.append(threading.Thread(target=order))
    begun = time.monotonic()
    for thread in threads:
        thread.start()
    for thread in threads:
        thread.join()
    seconds = time.monotonic() - begun
    status, report = ask(gateway.port, "GET", "/report")
    ended, out, errors = gateway.end()
    back_end.close()
    printed = out.decode()
    checks.same(f"{what}: every request was answered 200", {200}, set(statuses) | {status})
    checks.same(f"{what}: status", 0, ended)
    checks.same(f"{what}: standard error", b"", errors)
    last = printed.splitlines()[-1]
    admitted, acknowledged = map(int, re.fullmatch(r"admitted (\d+) acknowledged (\d+)", last).groups())
    stored = sum(int(count) for count in re.findall(r"stored (\d+),", printed))
    checks.same(f"{what}: all points were admitted", SENDERS * POSTS, admitted)
    checks.same(f"{what}: what was acknowledged is what the back end took", back_end.took, acknowledged)
    checks.same(f"{what}: the rest is stored", admitted - acknowledged, stored)
    checks.same(f"{what}: the report that was asked for is printed", report, printed[: -len(last) - 1])
    print(f"note: {what}: {len(statuses) / seconds:.0f} requests a second, with clients in python")


def slow(program: str, checks: Checks) -> None:
    """Runs a sender that never ends its request, and others beside it."""
    gateway = start(program, free_port(), 21, "--receivers", "2")
    silent = socket.create_connection(("127.0.0.1", gateway.port))
    silent.sendall(b"POST /v1/metrics HTTP/1.1\r\nContent-Length: 9\r\n\r\n{")
    begun = time.monotonic()
    statuses = {post(gateway, 0, number) for number in range(20)}
    checks.same("beside a slow sender: others are answered", {200}, statuses)
    checks.same("beside a slow sender: without waiting for it", True, time.monotonic() - begun < 20)
    silent.close()
    status, printed, errors = gateway.end()
    checks.same("beside a slow sender: status", (0, b""), (status, errors))
    checks.same("beside a slow sender: last line", b"admitted 20 acknowledged 0", printed.splitlines()[-1])


def main(program: str) -> int:
    checks = Checks()
    load(program, checks, "one round", "--receivers", "8", "--flushers", "4")
    load(program, checks, "rounds of 50", "--receivers", "4", "--flushers", "2", "--round", "50")
    slow(program, checks)
    return checks.end()


sys.exit(main(sys.argv[1]))
