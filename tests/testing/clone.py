"""A copy of the working tree, with its uncommitted changes, in another folder."""
import os
import shutil
import subprocess

from testing import ROOT


class Clone:
    """A new repository in `folder` with one commit: all tracked and untracked files of this one, as they are now."""

    def __init__(self, folder: str) -> None:
        self.folder = folder
        names = subprocess.run(["git", "ls-files", "-z", "--cached", "--others", "--exclude-standard"], cwd=ROOT,
                               stdout=subprocess.PIPE, check=True)
        for name in filter(None, names.stdout.decode().split("\0")):
            if os.path.isfile(f"{ROOT}/{name}"):
                os.makedirs(os.path.dirname(f"{folder}/{name}"), exist_ok=True)
                shutil.copy2(f"{ROOT}/{name}", f"{folder}/{name}")
        self.git("init", "--quiet")
        self.git("config", "user.name", "nobody")
        self.git("config", "user.email", "nobody@localhost")
        self.git("add", "--all")
        self.git("commit", "--quiet", "--message", "all")

    def git(self, *words: str) -> str:
        return subprocess.run(["git", *words], cwd=self.folder, stdout=subprocess.PIPE, text=True, check=True).stdout.strip()

    def read(self, name: str) -> str:
        with open(f"{self.folder}/{name}", encoding="utf-8") as file:
            return file.read()

    def write(self, name: str, text: str) -> None:
        os.makedirs(os.path.dirname(f"{self.folder}/{name}"), exist_ok=True)
        with open(f"{self.folder}/{name}", "w", encoding="utf-8") as file:
            file.write(text)
