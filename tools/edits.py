#!/usr/bin/env python3
"""Applies each edit of the crates, in must-fail/ and more-edits/: the prover must refuse every one.

    tools/edits.py [NAME ..]           tries the edits
    tools/edits.py --list [NAME ..]    only lists them: for each crate the file and function that an edit changes, and the mistake
                                       that names the edit; * marks those that the gate tries
    tools/edits.py --check [NAME ..]   only checks that each can be applied to the current sources: a step of the gate

A NAME is a crate, like delta_book, or one edit, like delta_book/count_is_off_by_one. The crates below are proved and built first.
The edits of a crate are tried over a copy of what a check of the unchanged crate has kept.

Edits that change bodies of different functions are tried in one check, since a proof reads only the contracts of other functions.
Such an edit counts as refused if its own function is not proved. An edit is tried alone if it changes more than bodies, or if it
was not refused in such a check. At the end the unchanged crate must be proved over the same kept state, which shows that sharing
the state is sound.

The last lines name the edits that were not refused, and those that were refused only because a proof names something that the
edit removes. The very last line counts. The status is 0 if all were refused. The prover's output is in out/logs/edits-CRATE.log.
"""
from __future__ import annotations

import os
import re
import shutil
import sys
import tempfile
from collections.abc import Collection, Sequence

from tooling.crates import OUT, PARTS, ROOT, Crate, named
from tooling.files import content, write
from tooling.functions import Function, functions_of
from tooling.prover import Prover
from tooling.steps import GIGABYTE, Failed, Step, Steps, locked
from build import MOST_JOBS, Building, steps_for

# With this flag the prover also checks functions that rest on functions that are not proved.
EACH_FUNCTION = "--allow-holes"
# A goal for which the search finds no proof, with a line of its function; and a written proof that does not hold. A
# written proof does not count if it only names something that the edit removed, or rests on such a proof.
UNPROVED = re.compile(r"note: (?:\./)?(src/\S+?):(\d+):\d+: (?:it is not proved|`search` found no proof) ")
NAME_ALONE = r"has no field|is not in scope|has no `|was not admitted"
WRONG = re.compile(rf"(?:\./)?proofs/(\S+)/Answers\.antt:\d+:\d+: error: (?!.*(?:{NAME_ALONE}))")
# The last line of a check that ran to its end, and lines which say that the prover could not read the edit.
REFUSED = re.compile(r"logic=not-proved")
UNREADABLE = re.compile(
    r"(?:\./)?(?:src|specs)/\S+: error(?:\[|: [^`]|: `.*(?:is not in scope|has no field|is no name))"
)
MEMORY = 4 * GIGABYTE
LIST = "--list"
CHECK = "--check"
# The folder of the edits that the gate tries.
OF_GATE = "must-fail"


# For each changed function of a file: its position in the file, and its new lines.
Bodies = dict[tuple[str, str], tuple[int, list[str]]]


class BadEdit(Exception):
    """Why an edit cannot be applied."""


class Edit:
    """An edit, with the changed text of each file."""

    def __init__(self, file: str, folder: str) -> None:
        self.name = name_of(file)
        self.texts: dict[str, str] = {}
        for line in content(file).decode().splitlines():
            key, _, text = line.partition(":")
            text = text.removeprefix(" ")
            if key == "file":
                path = text
                self.texts.setdefault(path, text_of(folder, path))
            elif key == "old":
                old = text
            elif key == "new":
                found = self.texts[path].count(old)
                if found != 1:
                    raise BadEdit(f"its old text is in the file {found} times: {old}")
                self.texts[path] = self.texts[path].replace(old, text)
        self.bodies = self.bodies_of(folder)

    def bodies_of(self, folder: str) -> Bodies:
        """The changed bodies by their functions; empty if the edit changes anything else."""
        bodies: Bodies = {}
        for path, text in self.texts.items():
            before, after = text_of(folder, path).split("\n"), text.split("\n")
            places = functions_of(before), functions_of(after)
            if [it.head(before) for it in places[0]] != [it.head(after) for it in places[1]]:
                return {}
            if outside(before, places[0]) != outside(after, places[1]):
                return {}
            for place, (old, new) in enumerate(zip(*places)):
                if old.inner(before) != new.inner(after):
                    if (path, new.name) in bodies:
                        return {}
                    bodies[path, new.name] = place, new.inner(after)
        return bodies


def outside(lines: list[str], functions: list[Function]) -> list[str]:
    """The lines of a file outside these functions."""
    inside = {k for it in functions for k in range(it.start, it.end + 1)}
    return [line for k, line in enumerate(lines) if k not in inside]


def groups_of(edits: list[Edit]) -> list[list[Edit]]:
    """Groups of edits that can be tried in one check: no two of a group change the same function."""
    groups: list[list[Edit]] = []
    for edit in edits:
        for group in groups:
            if all(edit.bodies.keys().isdisjoint(other.bodies) for other in group):
                group.append(edit)
                break
        else:
            groups.append([edit])
    return groups


class Edits:
    """The edits of one crate, and how many were refused."""

    def __init__(self, crate: Crate, files: list[str], prover: Prover) -> None:
        self.crate = crate
        self.prover = prover
        self.files = files
        self.refused = 0
        self.notes: list[str] = []

    def step(self, among: Collection[str]) -> Step:
        name = self.crate.name
        return Step(
            f"edits of {name}",
            self.work,
            f"make edits NAME={name}",
            after=[it.name for it in self.crate.below if it.name in among],
            # An edit takes a fraction of the time of the crate's own check.
            weight=self.crate.lines() * (1 + len(self.files) // 6),
            memory=MEMORY,
            most_jobs=MOST_JOBS,
            log=f"edits-{name}",
        )

    def work(self, step: Step) -> str:
        kept = f"{OUT}/edits/{self.crate.name}"
        with tempfile.TemporaryDirectory(prefix=f"edits-{self.crate.name}-") as room:
            trial = Trial(self.crate, self.prover, step, room)
            if trial.check({}, kept)[0] != 0:
                raise Failed("the crate itself is not proved")
            shutil.copytree(kept, trial.kept)
            self.try_all(trial)
            if trial.check({})[0] != 0:
                raise Failed("the crate itself is not proved over what the edits have left")
        others = len(self.files) - self.refused
        if others:
            raise Failed(f"{self.refused} refused, {others} not")
        return f"{self.refused} refused"

    def try_all(self, trial: Trial) -> None:
        edits = self.read(trial.folder)
        alone = [edit for edit in edits if not edit.bodies]
        for group in groups_of([edit for edit in edits if edit.bodies]):
            refused = trial.together(group) if len(group) > 1 else set[Edit]()
            self.refused += len(refused)
            alone += [edit for edit in group if edit not in refused]
            self.show(trial.step)
        for edit in alone:
            is_refused, note = trial.alone(edit)
            self.refused += is_refused
            if note:
                self.note(edit.name, note)
            self.show(trial.step)

    def read(self, folder: str) -> list[Edit]:
        edits = []
        for file in self.files:
            try:
                edits.append(Edit(file, folder))
            except BadEdit as fault:
                self.note(name_of(file), f"bad edit: {fault}")
        return edits

    def note(self, name: str, text: str) -> None:
        self.notes.append(f"{self.crate.name}/{name}: {text}")

    def show(self, step: Step) -> None:
        step.count = f"{self.refused} of {len(self.files)}"


class Trial:
    """A copy of a crate in which its edits are tried, over what earlier checks have kept."""

    def __init__(self, crate: Crate, prover: Prover, step: Step, room: str) -> None:
        self.crate = crate
        self.prover = prover
        self.step = step
        self.folder = f"{room}/{crate.name}"
        self.kept = f"{room}/kept"
        for part in PARTS:
            if os.path.isdir(f"{crate.folder}/{part}"):
                shutil.copytree(f"{crate.folder}/{part}", f"{self.folder}/{part}")

    def together(self, group: list[Edit]) -> set[Edit]:
        """The edits of a group that are refused because a function that they change is not proved."""
        texts: dict[str, list[str]] = {}
        for edit in group:
            for (path, _), (place, body) in edit.bodies.items():
                lines = texts.get(path) or text_of(self.folder, path).split("\n")
                function = functions_of(lines)[place]
                texts[path] = lines[: function.body] + body + lines[function.end + 1 :]
        _, said = self.check({path: "\n".join(lines) for path, lines in texts.items()}, flags=[EACH_FUNCTION])
        return {edit for edit in group if any(is_unproved(it, said, texts) for it in edit.bodies)}

    def alone(self, edit: Edit) -> tuple[bool, str]:
        """Whether an edit is refused, and a note if something is wrong with it."""
        status, said = self.check(edit.texts)
        if status == 0:
            return False, "not refused"
        if not any(map(REFUSED.match, said)) or any(map(UNREADABLE.match, said)):
            return False, "bad edit: the prover could not read it"
        is_value = any(UNPROVED.match(line) or WRONG.match(line) for line in said)
        return True, "" if is_value else "refused for a name"

    def check(self, texts: dict[str, str], kept: str | None = None, flags: Sequence[str] = ()) -> tuple[int, list[str]]:
        """The status and the output of a check of the crate with these texts in place of some files."""
        command = [*self.prover.check(self.crate, self.step.jobs, kept or self.kept), *flags]
        before = {path: text_of(self.folder, path) for path in texts}
        said: list[str] = []
        self.write(texts)
        status = self.step.run(command, self.folder, said.append)
        self.write(before)
        return status, said

    def write(self, texts: dict[str, str]) -> None:
        for path, text in texts.items():
            write(f"{self.folder}/{path}", text)


def is_unproved(function: tuple[str, str], said: list[str], texts: dict[str, list[str]]) -> bool:
    """Whether the check's output says that the function itself is not proved, and not just that a name is missing."""
    path, name = function
    bodies = [it for it in functions_of(texts[path]) if it.name == name]
    module = [it for it in path.removesuffix(".rt").split("/")[1:] if it not in ("lib", "main")]
    proofs = re.compile("/".join([*module, rf"(?:[A-Z]\w*/)?{name}"]))
    for line in said:
        goal, proof = UNPROVED.match(line), WRONG.match(line)
        if goal and goal[1] == path and any(it.start < int(goal[2]) <= it.end + 1 for it in bodies):
            return True
        if proof and proofs.fullmatch(proof[1]):
            return True
    return False


def text_of(folder: str, path: str) -> str:
    return content(f"{folder}/{path}").decode()


def asked_for(names: list[str]) -> dict[Crate, list[str]]:
    """The files of the edits with these names, by crate; all edits if there are no names."""
    crates = named(dict.fromkeys(name.partition("/")[0] for name in names))
    edits = {crate: {f"{crate.name}/{name_of(file)}": file for file in crate.edits()} for crate in crates}
    unknown = [name for name in names if "/" in name and not any(name in files for files in edits.values())]
    if unknown:
        sys.exit(f"there is no edit {' '.join(unknown)}: make edits LIST=1 prints all")
    return {
        crate: [file for name, file in files.items() if not names or not {name, crate.name}.isdisjoint(names)]
        for crate, files in edits.items()
        if files
    }


def name_of(file: str) -> str:
    """The name of an edit."""
    return os.path.basename(file).removesuffix(".edit")


def show_list(edits: dict[Crate, list[str]]) -> None:
    """Prints these edits and their number."""
    every, of_gate = 0, 0
    for crate, files in edits.items():
        gate = [file for file in files if f"/{OF_GATE}/" in file]
        every, of_gate = every + len(files), of_gate + len(gate)
        print(f"{crate.name}: {len(files)}, the gate tries {len(gate)}")
        print("\n".join(sorted(f"    {listed(file, crate.folder, file in gate)}" for file in files)))
    print(f"{every} edits, the gate tries {of_gate}")


def listed(file: str, folder: str, is_of_gate: bool) -> str:
    """An edit as a line: the places that it changes, and its mistake."""
    try:
        edit = Edit(file, folder)
    except BadEdit as fault:
        return f"{name_of(file)}: bad edit: {fault}"
    functions = {path: [name for at, name in edit.bodies if at == path] for path in edit.texts}
    places = " and ".join(" ".join([path.removeprefix("src/"), *functions[path]]) for path in sorted(functions))
    return f"{places}: {'* ' if is_of_gate else ''}{edit.name.replace('_', ' ')}"


def wrong_edits(edits: dict[Crate, list[str]]) -> int:
    """Prints the edits that cannot be applied, and returns their number."""
    every = wrong = 0
    for crate, files in edits.items():
        for file in files:
            every += 1
            try:
                Edit(file, crate.folder)
            except BadEdit as fault:
                wrong += 1
                print(f"{os.path.relpath(file, ROOT)}: {fault}")
    print(f"{every - wrong} edits can be made, {wrong} not")
    return wrong


def main(words: list[str]) -> int:
    asked = asked_for([it for it in words if it not in (LIST, CHECK)])
    if LIST in words:
        show_list(asked)
        return 0
    if CHECK in words:
        return 1 if wrong_edits(asked) else 0
    building = Building()
    tried = [Edits(crate, files, building.prover) for crate, files in asked.items()]
    with locked(OUT):
        steps, _ = steps_for([below for edits in tried for below in edits.crate.below], building)
        among = {step.name for step in steps}
        passed = Steps(steps + [edits.step(among) for edits in tried]).run()
    for edits in tried:
        print("".join(f"{note}\n" for note in edits.notes), end="")
    refused = sum(edits.refused for edits in tried)
    print(f"{refused} refused, {sum(len(edits.files) for edits in tried) - refused} not")
    return 0 if passed else 1


if __name__ == "__main__":
    sys.exit(main(sys.argv[1:]))
