"""A file system that a test can freeze: writes to it then block until it is thawed. Needs root."""
from __future__ import annotations

import contextlib
import os
import subprocess
from collections.abc import Iterator
from typing import Any

MEGABYTES = 2000


class OwnDisk:
    """An ext4 file system in a file of this folder, mounted next to that file."""

    def __init__(self, folder: str, megabytes: int = MEGABYTES) -> None:
        self.file = f"{folder}/disk"
        self.folder = f"{folder}/mounted"
        self.megabytes = megabytes

    def __enter__(self) -> OwnDisk:
        os.mkdir(self.folder)
        with open(self.file, "wb") as file:
            file.truncate(self.megabytes << 20)
        run("mkfs.ext4", "-q", self.file)
        run("mount", "-o", "loop", self.file, self.folder)
        return self

    def __exit__(self, *_: Any) -> None:
        run("umount", self.folder)

    @contextlib.contextmanager
    def frozen(self) -> Iterator[None]:
        """Freezes the file system while the context lasts, and thaws it even if the test fails."""
        run("fsfreeze", "--freeze", self.folder)
        try:
            yield
        finally:
            run("fsfreeze", "--unfreeze", self.folder)


def run(*words: str) -> None:
    subprocess.run(words, check=True)
