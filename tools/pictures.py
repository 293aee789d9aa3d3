#!/usr/bin/env python3
"""Draws the pictures of docs/pictures, each from its description, and writes their alt texts into the pages.

    tools/pictures.py             writes docs/pictures/NAME.svg for each NAME.drawn, and its alt text wherever a page shows it
    tools/pictures.py --check     checks that these files are up to date and that each picture is shown: a step of the gate

A description has a line for each thing. `#` begins a comment, and `/` begins a new line of words:

    size WIDTH HEIGHT
    alt WORDS                                 what the picture says, for readers who do not see it; several lines make one text
    box NAME X Y WIDTH HEIGHT KIND | WORDS    begins with its name, in bold
    frame NAME X Y WIDTH HEIGHT | WORDS       is drawn around boxes
    words X Y KIND ANCHOR | WORDS             KIND is - or bold or quiet, ANCHOR start, middle or end
    arrow KIND END .. | WORDS                 goes from end to end, with the words at its longest part. An END is NAME.SIDE,
                                              with +N or -N to move it from the middle of that side; or X,Y, and without X
                                              or Y it keeps that of the end before
    steps X Y WIDTH STEP COLUMN ..            begins a column: `step KIND | WORDS` is the next box below, and
                                              `kill WORDS | WORDS` a mark after it, with its words in these columns
    crates                                    draws the crates of crates.txt, each above those that it uses; `note CRATE WORDS`
                                              says what a crate is
    laws                                      checks that the arrows of kind `proved` are exactly the pairs of laws in which, by
                                              the proofs, one rests on the other

Status 1: a line names the files that are not up to date, or the fault of a description.
"""
import os
import re
import sys
from typing import Any

from tooling.crates import ROOT, Crate, read_crates
from tooling.files import content
from tooling.layers import Area, Layers, Spot
from tooling.shapes import LINE, PAD, Picture, Wrong, width_of
import promise

FOLDER = f"{ROOT}/docs/pictures"
PAGES = ["README.md", *(f"docs/{it}" for it in sorted(os.listdir(f"{ROOT}/docs")) if it.endswith(".md"))]
SHOWN = re.compile(r"!\[[^\]]*\]\(((?:docs/)?pictures/(\w+)\.svg)\)")
# This crate and the crates after it are for tests only.
FIRST_TEST = "ensure"
SIDES = {"left": (0, 0.5), "right": (1, 0.5), "top": (0.5, 0), "bottom": (0.5, 1)}
END = re.compile(r"(?P<name>\w+)\.(?P<side>left|right|top|bottom)(?P<by>[+-]\d+)?$")


def split(text: str, by: str = "/") -> list[str]:
    return [it.strip() for it in text.split(by)] if text else []


class Description:
    """A description, which is drawn line by line."""

    def __init__(self, name: str) -> None:
        self.name = name
        with open(f"{FOLDER}/{name}.drawn", encoding="utf-8") as file:
            self.lines = [it.rstrip("\n") for it in file if it.strip() and not it.startswith("#")]
        self.alt = " ".join(self.all_of("alt"))
        self.notes = dict(it.split(" ", 1) for it in self.all_of("note"))
        self.crates = shown_crates() if "crates" in self.lines else None
        self.arrows: set[tuple[str, str, str]] = set()
        self.steps: dict[str, Any] = {}

    def all_of(self, word: str) -> list[str]:
        return [it.partition(" ")[2] for it in self.lines if it.startswith(f"{word} ")]

    def draw(self) -> str:
        width, height = map(int, self.all_of("size")[0].split())
        self.picture = Picture(width, height, self.alt)
        self.picture.drawn.append(f"<!-- tools/pictures.py has made this of {self.name}.drawn -->")
        for line in self.lines:
            word, _, rest = line.partition(" ")
            how, _, text = (it.strip() for it in rest.partition("|"))
            try:
                if word not in ("size", "alt", "note"):
                    getattr(self, f"draw_{word}")(how.split(), text)
            except (AttributeError, KeyError, ValueError) as why:
                raise Wrong(f"{line}: {why}") from why
        return self.picture.svg()

    def draw_box(self, how: list[str], text: str) -> None:
        self.picture.box(how[0], area(how[1:5]), how[5], split(text))

    def draw_frame(self, how: list[str], text: str) -> None:
        self.picture.frame(how[0], area(how[1:5]), text)

    def draw_words(self, how: list[str], text: str) -> None:
        x, top, kind, anchor = how
        for at, line in enumerate(split(text)):
            self.picture.words(float(x), float(top) + LINE * at, line, kind.strip("-"), anchor)

    def draw_arrow(self, how: list[str], text: str) -> None:
        kind, *ends = how
        points: list[Spot] = []
        for it in ends:
            end, is_across = self.point(it, points[-1] if points else None)
            if len(points) > 1 and END.match(it) and points[-1][0] != end[0] and points[-1][1] != end[1]:
                points.append((points[-1][0], end[1]) if is_across else (end[0], points[-1][1]))
            points.append(end)
        self.arrows.add((kind, ends[0].partition(".")[0], ends[-1].partition(".")[0]))
        self.picture.line(points, kind.replace("-dashed", " dashed"))
        if text:
            self.label(points, split(text))

    def point(self, end: str, before: Spot | None) -> tuple[Spot, bool]:
        """The position of an arrow's end, and whether the line reaches it from the left or right."""
        at = END.match(end)
        if not at:
            x, _, y = end.partition(",")
            return (float(x) if x else before[0], float(y) if y else before[1]), False
        left, top, right, bottom = self.picture.boxes[at["name"]]
        u, v = SIDES[at["side"]]
        is_across, by = u != 0.5, float(at["by"] or 0)
        return (left + (right - left) * u + (0 if is_across else by), top + (bottom - top) * v + (by if is_across else 0)), is_across

    def label(self, points: list[Spot], lines: list[str]) -> None:
        """Writes the words of a line. If the line is level, the first is above it and the others below; otherwise they are to its right."""
        (a, b), (x, y) = max(zip(points, points[1:]), key=lambda it: abs(it[0][0] - it[1][0]) + abs(it[0][1] - it[1][1]))
        for at, line in enumerate(lines):
            if b == y:
                self.picture.words((a + x) / 2, y - LINE - 3 if at == 0 else y + 2 + LINE * (at - 1), line, "quiet", "middle")
            else:
                self.picture.words(x + PAD, (b + y - LINE * len(lines)) / 2 + LINE * at, line, "quiet")

    def draw_steps(self, how: list[str], _: str) -> None:
        x, y, width, pitch, *columns = map(int, how)
        self.steps = {"x": x, "y": y, "width": width, "pitch": pitch, "columns": columns, "last": None}

    def draw_step(self, how: list[str], text: str) -> None:
        it = self.steps
        lines = split(text)
        top, bottom = it["y"], it["y"] + LINE * len(lines) + PAD
        name = f"step{top}"
        self.picture.box(name, (it["x"], top, it["x"] + it["width"], bottom), how[0], lines)
        if it["last"]:
            self.draw_arrow(["plain", f"{it['last']}.bottom", f"{name}.top"], "")
        it["last"], it["y"], it["bottom"] = name, top + it["pitch"], bottom

    def draw_kill(self, how: list[str], text: str) -> None:
        it = self.steps
        x, y = it["x"] + it["width"] / 2, (it["bottom"] + it["y"]) / 2
        self.picture.cross(x, y)
        self.picture.line([(x + 12, y), (it["columns"][0] - PAD, y)], "killed dashed", False)
        for column, words in zip(it["columns"], (" ".join(how), text)):
            for at, line in enumerate(split(words)):
                self.picture.words(column, y - LINE * len(split(words)) / 2 + LINE * at, line)

    def draw_crates(self, _how: list[str], _text: str) -> None:
        wide = {it.name: max(width_of(it.name, True), width_of(self.notes.get(it.name, ""))) + 2 * PAD for it in self.crates}
        layers = Layers([it.name for it in self.crates], {it.name: [b.name for b in direct(it)] for it in self.crates}, wide)
        places, lines = layers.placed(self.picture.width, self.picture.height, 2 * LINE + PAD)
        for line in lines:
            self.picture.line(line, "plain", False)
        for crate in self.crates:
            kind = "disk" if crate.is_program or crate.is_static else "plain"
            self.picture.box(crate.name, places[crate.name], kind, [crate.name, *split(self.notes.get(crate.name, ""))])

    def draw_laws(self, _how: list[str], _text: str) -> None:
        wrong = {(one, other) for kind, one, other in self.arrows if kind == "proved"} ^ promise.laws()
        if wrong:
            raise Wrong(f"by the proofs other laws rest on one another: {sorted(wrong)}")


def area(how: list[str]) -> Area:
    x, y, width, height = map(float, how)
    return x, y, x + width, y + height


def shown_crates() -> list[Crate]:
    crates = read_crates()
    return [crates[it] for it in list(crates)[:list(crates).index(FIRST_TEST)]]


def direct(crate: Crate) -> list[Crate]:
    """The crates that a crate uses, without those that these use themselves."""
    implied = {it.name for below in crate.below for it in below.all_below()}
    return [it for it in crate.below if it.name not in implied]


def made() -> dict[str, str]:
    """The wanted content of each file, by its path."""
    files: dict[str, str] = {}
    alts: dict[str, str] = {}
    for name in sorted(it.removesuffix(".drawn") for it in os.listdir(FOLDER) if it.endswith(".drawn")):
        it = Description(name)
        try:
            files[f"docs/pictures/{name}.svg"] = it.draw()
        except Wrong as why:
            raise Wrong(f"docs/pictures/{name}.drawn: {why}") from why
        alts[name] = it.alt
    shown: set[str] = set()
    for page in PAGES:
        text = content(f"{ROOT}/{page}").decode()
        shown |= {it[2] for it in SHOWN.finditer(text)}
        files[page] = SHOWN.sub(lambda it: f"![{alts[it[2]]}]({it[1]})" if it[2] in alts else it[0], text)
    if shown != set(alts):
        raise Wrong(f"not both described and shown: {' '.join(sorted(shown ^ set(alts)))}")
    return files


def main(words: list[str]) -> None:
    if words not in ([], ["--check"]):
        sys.exit(__doc__)
    try:
        files = made()
    except Wrong as why:
        sys.exit(f"tools/pictures.py: {why}")
    others = [it for it, text in files.items() if content(f"{ROOT}/{it}") != text.encode()]
    if not words:
        for path in others:
            with open(f"{ROOT}/{path}", "w", encoding="utf-8") as file:
                file.write(files[path])
    elif others:
        sys.exit(f"call tools/pictures.py: not as it makes them: {' '.join(others)}")
    print(f"{len(files) - len(PAGES)} pictures" + (", as they are made" if words else f"; written: {' '.join(others) or 'nothing'}"))


if __name__ == "__main__":
    main(sys.argv[1:])
