"""The prover's commands for one crate, over libraries that these commands have built here.

`rt check` and `rt lib` keep everything that they check, which helps when one function changes. Their libraries hold whole proofs,
and every check above loads them. From nothing that takes longer. The libraries here hold statements only, as those of `rt ci`, and
nothing is kept except what is built.
"""
import os
import subprocess
from collections.abc import Callable
from tooling.crates import Crate


class Prover:
    """The toolchain's prover, compiler and linker."""

    def __init__(self) -> None:
        page = subprocess.run(["rt", "doc"], stdout=subprocess.PIPE, text=True, check=True)
        self.kit = os.path.dirname(page.stdout.strip())

    def check(self, crate: Crate, jobs: int, kept: str) -> list[str]:
        """The command that checks a crate in its folder, over what an earlier check has kept in `kept`."""
        return [f"{self.kit}/bin/rattle", "check", *self.words(crate, jobs, room_of), "--incremental", kept]

    def build(self, crate: Crate, jobs: int, room: Callable[[Crate], str] | None = None) -> list[list[str]]:
        """The commands that prove and build a crate in its folder, over the libraries of the crates below in their rooms."""
        proving = [f"{self.kit}/bin/rattle", "build", *self.words(crate, jobs, room or room_of)]
        tools = ["--toolchain", f"{self.kit}/toolchain"]
        if crate.is_static:
            return [[*proving, *tools, "-o", made_by(crate)]]
        if not crate.is_program:
            return [[*proving, "--statements", "-o", made_by(crate)]]
        module = f"{made_by(crate)}.o"
        system = [f"{self.kit}/c/{name}" for name in ("libos_c.a", "liblibc_c.a")]
        linking = [f"{self.kit}/bin/rattle-link", "--target", "x86_64-unknown-linux-gnu", *tools]
        return [
            [*proving, *tools, "--backend", "llvm", "-o", module],
            [*linking, "-o", made_by(crate), module, *system],
        ]

    def words(self, crate: Crate, jobs: int, room: Callable[[Crate], str]) -> list[str]:
        """The arguments of a check: with this many jobs, and each library in its crate's room."""
        libraries = f"{self.kit}/rlibs"
        words = ["--crate-name", crate.name, f"src/{'main' if crate.is_program else 'lib'}.rt"]
        if crate.is_static:
            words += ["--crate-type", "staticlib"]
        for use in ("std", *crate.uses()):
            words += ["--extern", f"{use}={libraries}/{use}.rlib"]
        for below in crate.below:
            words += ["--extern", f"{below.name}={room(below)}/{below.name}.rlib"]
        for folder in (libraries, *map(room, crate.all_below())):
            words += ["-L", f"dependency={folder}"]
        words += ["--antt-project", f"{self.kit}/rattle/logic/antt-project.json"]
        words += ["--logic-built", f"{self.kit}/logic_built"]
        return [*words, "--links", f"{crate.name}=", "--jobs", str(jobs)]


def room_of(crate: Crate) -> str:
    """The folder for a crate's build. `rt` allows a library in no other."""
    return f"{crate.folder}/out/rlib/statements"


def room_of_gate(crate: Crate) -> str:
    """The folder in which `rt ci` leaves the library that it has proved."""
    return f"{crate.folder}/out/rlib"


def made_by(crate: Crate) -> str:
    """The path of a crate's build: a program, a static library, or a library for crates."""
    if crate.is_program:
        return f"{crate.folder}/out/{crate.name}"
    if crate.is_static:
        return f"{crate.folder}/out/lib{crate.name}.a"
    return f"{room_of(crate)}/{crate.name}.rlib"
