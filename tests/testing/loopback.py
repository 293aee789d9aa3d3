"""Runs the built gateway over loopback, with a client that reads whole answers and a back end with scripted answers."""
import itertools
import json
import os
import socket
import subprocess
import threading
import time
from collections.abc import Iterable, Sequence

SECONDS = 20
NO_MEMORY = (b"HTTP/1.1 503 Service Unavailable\r\nContent-Type: application/json\r\n"
             b"Content-Length: 23\r\nConnection: close\r\n\r\n{\"message\":\"no memory\"}")


# These ports are below the range from which the kernel gives ports to clients, so no client can take a gateway's port.
PORTS = itertools.count(20_000 + os.getpid() % 1000 * 10)
PORTS_LOCK = threading.Lock()


def free_port() -> int:
    """A port on which nobody listens and which no other call in this process has returned."""
    while True:
        with PORTS_LOCK:
            port = next(PORTS)
        with socket.socket() as listener:
            listener.setsockopt(socket.SOL_SOCKET, socket.SO_REUSEADDR, 1)
            try:
                listener.bind(("127.0.0.1", port))
                return port
            except OSError:
                continue


def posted(body: bytes, sender: str = "A") -> bytes:
    """A request that posts this body."""
    head = (f"POST /v1/metrics HTTP/1.1\r\nContent-Type: application/json\r\nx-sender: {sender}\r\n"
            f"Content-Length: {len(body)}\r\n\r\n")
    return head.encode() + body


def point(start: int, end: int, value: int, name: str = "a") -> bytes:
    """A body with one point of the monotonic sum `name`."""
    one = {"asInt": str(value), "startTimeUnixNano": str(start), "timeUnixNano": str(end)}
    total = {"aggregationTemporality": 1, "isMonotonic": True, "dataPoints": [one]}
    scope = {"metrics": [{"name": name, "sum": total}]}
    return json.dumps({"resourceMetrics": [{"scopeMetrics": [scope]}]}).encode()


def ordered(line: str) -> bytes:
    """A request without a body."""
    return f"{line} HTTP/1.1\r\n\r\n".encode()


def response(status: bytes, kind: bytes, body: bytes, allow: bytes = b"") -> bytes:
    """A response with this status line, media type and body."""
    return (b"HTTP/1.1 " + status + b"\r\nContent-Type: " + kind + b"\r\nContent-Length: "
            + str(len(body)).encode() + b"\r\n" + allow + b"Connection: close\r\n\r\n" + body)


class Gateway:
    """A gateway process that ends after this many connections."""

    def __init__(self, program: str, backend: int, connections: int, environment: dict[str, str] | None = None,
                 options: Sequence[str] = ()) -> None:
        self.port = free_port()
        words = [program, "serve", "--backend", f"127.0.0.1:{backend}", "--connections",
                 str(connections), "--listen", f"127.0.0.1:{self.port}", *options]
        self.process = subprocess.Popen(words, stdout=subprocess.PIPE, stderr=subprocess.PIPE,
                                        env=environment)

    def connect(self) -> socket.socket | None:
        """A connection to the gateway, made as soon as it listens, or None if the process has ended."""
        until = time.monotonic() + SECONDS
        while time.monotonic() < until:
            try:
                return socket.create_connection(("127.0.0.1", self.port), SECONDS)
            except ConnectionError:  # Nobody listens yet, or the process has ended.
                if self.process.poll() is not None:
                    return None
                time.sleep(0.002)
        return None

    def ask(self, *pieces: bytes) -> bytes | str:
        """Sends each piece in a packet of its own, and returns the whole answer or a text with the error. It reads while it sends."""
        connection = self.connect()
        if connection is None:
            return "no connection"
        with connection:
            connection.setsockopt(socket.IPPROTO_TCP, socket.TCP_NODELAY, 1)
            sender = threading.Thread(target=send, args=(connection, pieces))
            sender.start()
            try:
                return read_all(connection)
            except OSError as error:
                return f"{type(error).__name__} {error}"
            finally:
                sender.join(SECONDS)

    def end(self) -> tuple[int | str, bytes, bytes]:
        """The exit status and what the process printed."""
        try:
            out, err = self.process.communicate(timeout=SECONDS)
            return self.process.returncode, out, err
        except subprocess.TimeoutExpired:
            self.process.kill()
            out, err = self.process.communicate()
            return "no end", out, err


def send(connection: socket.socket, pieces: Sequence[bytes]) -> None:
    try:
        for piece in pieces:
            connection.sendall(piece)
    except OSError:
        pass  # The gateway may close before it has read everything; the checks look at its answer.


def read_all(connection: socket.socket) -> bytes:
    text = b""
    while piece := connection.recv(65536):
        text += piece
    return text


class BackEnd:
    """A back end that sends these answers in order, and 200 after the last. None closes the connection without an answer."""

    def __init__(self, answers: Iterable[bytes | None] = ()) -> None:
        self.answers = list(answers)
        self.requests: list[bytes] = []
        self.bodies: list[bytes] = []
        self.listener = socket.create_server(("127.0.0.1", 0))
        self.port = self.listener.getsockname()[1]
        self.thread = threading.Thread(target=self.serve, daemon=True)
        self.thread.start()

    def serve(self) -> None:
        serving = []
        while True:
            try:
                connection = self.listener.accept()[0]
            except OSError:
                break
            serving.append(threading.Thread(target=self.serve_one, args=(connection,), daemon=True))
            serving[-1].start()
        for thread in serving:
            thread.join(SECONDS)

    def serve_one(self, connection: socket.socket) -> None:
        with connection:
            self.answer(connection)

    def answer(self, connection: socket.socket) -> None:
        """Reads a whole request, keeps it, and answers."""
        connection.settimeout(SECONDS)
        request = request_of(connection)
        if is_whole(request):
            self.requests.append(request)
            answer = self.answer_to(request.partition(b"\r\n\r\n")[2])
            if answer is not None:
                connection.sendall(answered(answer))

    def answer_to(self, body: bytes) -> bytes | None:
        """Keeps the body and returns the next answer."""
        self.bodies.append(body)
        return self.answers.pop(0) if self.answers else b"200 OK\r\n"

    def close(self) -> None:
        """Ends the thread before closing the listener. Otherwise the thread might accept on a file descriptor that was reused."""
        self.listener.shutdown(socket.SHUT_RDWR)
        self.thread.join(SECONDS)
        self.listener.close()


def request_of(connection: socket.socket) -> bytes:
    """Reads a request until its Content-Length is reached, or until the connection closes."""
    text = b""
    while not is_whole(text):
        piece = connection.recv(65536)
        if not piece:
            break
        text += piece
    return text


def answered(lines: bytes) -> bytes:
    """A response without a body, of a status and header lines."""
    return b"HTTP/1.1 " + lines + b"Content-Length: 0\r\n\r\n"


def is_whole(text: bytes) -> bool:
    head, end, body = text.partition(b"\r\n\r\n")
    if not end:
        return False
    length = next(line for line in head.split(b"\r\n") if line.lower().startswith(b"content-length:"))
    return len(body) >= int(length.split(b":")[1])


def sent_points(body: bytes) -> list[tuple[int, int, int]]:
    """Each point of a forwarded body as (value, start, end)."""
    points = []
    for resource in json.loads(body)["resourceMetrics"]:
        for scope in resource["scopeMetrics"]:
            for metric in scope["metrics"]:
                for one in metric["sum"]["dataPoints"]:
                    points.append((int(one["asInt"]), int(one["startTimeUnixNano"]),
                                   int(one["timeUnixNano"])))
    return points
