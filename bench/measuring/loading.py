"""Posts by load.c for the scripts of this folder."""
import os
import shutil
import subprocess
import sys
from typing import NamedTuple

from measuring import ROOT

MADE = f"{ROOT}/out/bench"
LOAD = f"{MADE}/load"
PACKAGES = ["gcc", "libc6-dev", "zlib1g-dev", "libssl-dev"]

# The points of a post that creates series.
MOST_POINTS = 1000


class Posts(NamedTuple):
    """What is posted: the kind of point, the points of a request, the series, the encoding, and the connections."""

    kind: str
    points: int
    series: int
    encoding: str
    connections: str


class Loaded(NamedTuple):
    """The results of a load: times in seconds and microseconds."""

    requests: int
    failed: int
    seconds: float
    median: float
    last: float
    bytes: int


def build(name: str = "load") -> str:
    """Builds a program of this folder and returns its path. Ends the script if that fails."""
    os.makedirs(MADE, exist_ok=True)
    words = ["gcc", "-O2", "-Wall", "-pthread", "-o", f"{MADE}/{name}", f"{ROOT}/bench/{name}.c", "-lz", "-lssl", "-lcrypto"]
    if not shutil.which("gcc") or subprocess.run(words, check=False).returncode:
        sys.exit(f"{name}.c can't be built; it needs {' '.join(PACKAGES)}")
    return f"{MADE}/{name}"


def rounded(requests: int, clients: int) -> int:
    """This number of requests, rounded up so that each sender has the same number."""
    return -(-requests // clients) * clients


class Senders:
    """Senders of one address, whose points go on from one load to the next."""

    def __init__(self, port: int, clients: int, posts: Posts) -> None:
        self.port, self.clients, self.posts = port, clients, posts
        self.posted = 0

    def load(self, requests: int, period: float = 0) -> Loaded:
        """Posts this many requests, each sender as fast as they are answered, or one in each period of this many seconds."""
        posts = self.posts
        words = [self.port, self.clients, requests, posts.points, posts.series, posts.kind, posts.encoding, posts.connections,
                 self.posted, period * 1e6]
        ran = subprocess.run([LOAD, *map(str, words)], stdout=subprocess.PIPE, text=True, check=True)
        whole, failed, seconds, median, last, size = ran.stdout.split()
        self.posted += int(whole) // self.clients * posts.points
        return Loaded(int(whole), int(failed), float(seconds), float(median), float(last), int(size))

    def make_series(self) -> None:
        """Posts a point of each series, so that later posts are of known series only."""
        each, points = -(-self.posts.series // self.clients), self.posts.points
        self.posts = self.posts._replace(points=min(each, MOST_POINTS))
        self.load(self.clients * -(-each // MOST_POINTS))
        self.posts = self.posts._replace(points=points)
