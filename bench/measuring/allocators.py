"""Selects allocators by name, by a program's environment."""
import argparse
import glob
import os
from collections.abc import Iterator

# The environment variables that an allocator reads.
ALLOCATORS = ("MALLOC_", "GLIBC_TUNABLES", "LD_PRELOAD", "MIMALLOC_", "TCMALLOC_")
# For each name the library that is preloaded and its Debian package.
LIBRARIES = {"mimalloc": ("libmimalloc.so.2", "libmimalloc2.0"), "tcmalloc": ("libtcmalloc_minimal.so.4", "libtcmalloc-minimal4"),
             "jemalloc": ("libjemalloc.so.2", "libjemalloc2")}
TUNED = {"GLIBC_TUNABLES": "glibc.malloc.tcache_count=200", "MALLOC_TRIM_THRESHOLD_": str(64 << 20)}


def add_options(parser: argparse.ArgumentParser, default: list[str]) -> None:
    """Adds the options that select allocators."""
    parser.add_argument("--allocators", type=lambda text: [name for name in text.split(",") if name], default=default)
    parser.add_argument("--preload")
    parser.add_argument("--environment", action="append", default=[])


def library(name: str) -> str | None:
    """The library of an allocator, or None if it is not installed."""
    found = glob.glob(f"/usr/lib/*/{LIBRARIES[name][0]}")
    return found[0] if found else None


def names_there(arguments: argparse.Namespace) -> Iterator[str]:
    """The selected allocators that are installed; a line names each of the others."""
    names = [*arguments.allocators, *(["own"] if arguments.preload or arguments.environment else [])]
    for name in names:
        if name in LIBRARIES and not library(name):
            print(f"left out: {name}; it needs the package {LIBRARIES[name][1]}")
        elif name in ("libc", "tuned", "own", *LIBRARIES):
            yield name
        else:
            raise SystemExit(f"{name} is no allocator: libc, tuned, {', '.join(LIBRARIES)}")


def shown(its_environment: dict[str, str]) -> str:
    """The environment variables that an allocator reads."""
    found = [f"{name}={value}" for name, value in sorted(its_environment.items()) if name.startswith(ALLOCATORS)]
    return " ".join(found) or "nothing for the allocator"


def environment(name: str, arguments: argparse.Namespace | None = None) -> dict[str, str]:
    """A whole environment in which a program uses this allocator."""
    plain = {key: value for key, value in os.environ.items() if not key.startswith(ALLOCATORS)}
    if name == "tuned":
        return plain | TUNED
    if name == "own":
        preload = {"LD_PRELOAD": arguments.preload} if arguments.preload else {}
        return plain | preload | dict(pair.split("=", 1) for pair in arguments.environment)
    return plain | ({"LD_PRELOAD": library(name)} if name in LIBRARIES and library(name) else {})
