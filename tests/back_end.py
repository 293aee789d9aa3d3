#!/usr/bin/env python3
"""A back end for tests: answers one request for each of its arguments, and ends.

    tests/back_end.py FOLDER ANSWER ..

It listens on a free port, which it writes to FOLDER/port. An ANSWER is a status, or a status and the seconds of Retry-After (503,2), or
`none`, which closes the connection without an answer. It writes each request, head and body, byte by byte to FOLDER/request-1,
request-2, ..
"""
import socket
import sys

from testing.loopback import answered, request_of


def bytes_of(answer: str) -> bytes:
    """The bytes of the answer that an argument describes."""
    status, _, seconds = answer.partition(",")
    retry = f"Retry-After: {seconds}\r\n" if seconds else ""
    return answered(f"{status} Answered\r\n{retry}".encode())


def main() -> None:
    folder, *answers = sys.argv[1:]
    listener = socket.create_server(("127.0.0.1", 0))
    with open(f"{folder}/port", "w") as port:
        port.write(str(listener.getsockname()[1]))
    for number, answer in enumerate(answers, 1):
        connection, _ = listener.accept()
        with connection, open(f"{folder}/request-{number}", "wb") as file:
            file.write(request_of(connection))
            if answer != "none":
                connection.sendall(bytes_of(answer))


main()
