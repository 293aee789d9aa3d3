#!/usr/bin/env python3
"""Runs a command in a network namespace of its own, which has only a loopback, on which every port is free.

    tools/own_network.py COMMAND ..

Only root may create one. The status is 125 if that fails, and the command's status otherwise.
"""
import ctypes
import fcntl
import os
import socket
import struct
import sys

# From <sched.h>, <linux/sockios.h> and <net/if.h>.
CLONE_NEWNET = 0x40000000
SIOCSIFFLAGS = 0x8914
IFF_UP = 1
NO_NETWORK = 125


def enter() -> None:
    """Moves this thread, and all processes that it starts from now on, to a new network namespace. Raises OSError if
    that is not permitted."""
    libc = ctypes.CDLL(None, use_errno=True)
    if libc.unshare(CLONE_NEWNET) != 0:
        raise OSError(ctypes.get_errno(), f"no network of its own: {os.strerror(ctypes.get_errno())}")
    with socket.socket(socket.AF_INET, socket.SOCK_DGRAM) as any_socket:
        fcntl.ioctl(any_socket, SIOCSIFFLAGS, struct.pack("16sH22x", b"lo", IFF_UP))


def main(command: list[str]) -> int:
    try:
        enter()
    except OSError as error:
        print(error.strerror, file=sys.stderr)
        return NO_NETWORK
    os.execvp(command[0], command)


if __name__ == "__main__":
    sys.exit(main(sys.argv[1:]))
