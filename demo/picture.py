#!/usr/bin/env python3
"""Draws a run of the demo from its samples, as SVG: demo/picture.py SAMPLES PICTURE"""
import json
import sys
from collections.abc import Iterator, Sequence
from html import escape
from typing import Any

WIDTH, LEFT, RIGHT, TOP = 960, 70, 16, 64
PANEL, GAP = 120, 44
COLORS = ("#0b6e99", "#d9730d")
KILLS = {"service": ("T", "totxegun"), "database": ("P", "PostgreSQL")}
STYLE = """<style>text{font:12px sans-serif;fill:#333}.head{font-size:15px;font-weight:bold}.name{font-weight:bold}
.grid{stroke:#ddd}.kill{stroke:#b00020;stroke-dasharray:3 3;opacity:.6}.down{fill:#b00020;opacity:.1}.mark{fill:#b00020;
font-weight:bold;text-anchor:middle}.right{text-anchor:end}.line{fill:none;stroke-width:1.8}</style>"""

# A moment of the run, as demo/showing/play.py writes it.
Sample = dict[str, Any]


class Panel:
    """A part of the picture with its own axis."""

    def __init__(self, place: int, name: str, end: float, most: float) -> None:
        self.top = TOP + place * (PANEL + GAP)
        self.end, self.most = end, nice(most)
        self.parts = [f'<text x="{LEFT}" y="{self.top - 8}" class="name">{escape(name)}</text>']
        for part in range(3):
            value = self.most * part / 2
            y = self.y(value)
            self.parts.append(f'<line x1="{LEFT}" x2="{WIDTH - RIGHT}" y1="{y:.1f}" y2="{y:.1f}" class="grid"/>')
            self.parts.append(f'<text x="{LEFT - 6}" y="{y + 4:.1f}" class="right">{value:,.0f}</text>')

    def x(self, at: float) -> float:
        return LEFT + at / self.end * (WIDTH - LEFT - RIGHT)

    def y(self, value: float) -> float:
        return self.top + PANEL - value / self.most * PANEL

    def line(self, points: Sequence[tuple[float, float]], color: str, name: str, place: int) -> None:
        """A line through points, in steps, and its name in the panel's head."""
        (at, value), *points = points
        path = f"M{self.x(at):.1f} {self.y(value):.1f}"
        for at, value in points:
            path += f"H{self.x(at):.1f}V{self.y(value):.1f}"
        self.parts.append(f'<path d="{path}" class="line" stroke="{color}"/>')
        x, y = WIDTH - RIGHT - 170 * (2 - place), self.top - 12
        self.parts.append(f'<line x1="{x}" x2="{x + 20}" y1="{y}" y2="{y}" class="line" stroke="{color}"/>')
        self.parts.append(f'<text x="{x + 26}" y="{y + 4}">{escape(name)}</text>')

    def seconds(self) -> None:
        """The axis of time."""
        for at in range(0, int(self.end) + 1, 10):
            self.parts.append(f'<text x="{self.x(at):.1f}" y="{self.top + PANEL + 16}" text-anchor="middle">{at} s</text>')


def nice(most: float) -> int:
    """The next round number that is not smaller."""
    step = 1
    while step * 10 < most:
        step *= 10
    return max(2, next(step * times for times in (1, 2, 3, 4, 6, 8, 10) if step * times >= most))


def rates(samples: list[Sample], which: int) -> list[tuple[float, float]]:
    """The posts of each second."""
    found: list[tuple[float, float]] = []
    last = (0.0, 0)
    for one in samples:
        if one["at"] - last[0] >= 1:
            found.append((last[0], (one["posts"][which] - last[1]) / (one["at"] - last[0])))
            last = one["at"], one["posts"][which]
    return found + [(last[0], 0)]


def downs(samples: list[Sample]) -> Iterator[tuple[float, float]]:
    """The times in which the service accepted no posts."""
    since = None
    for one in samples:
        if since is None and not one["ready"]:
            since = one["at"]
        elif since is not None and one["ready"]:
            yield since, one["at"]
            since = None
    if since is not None:
        yield since, samples[-1]["at"]


def panels(told: dict[str, Any]) -> list[Panel]:
    samples = told["samples"]
    end = samples[-1]["at"]
    speeds = [rates(samples, which) for which in range(len(told["programs"]))]
    posts = Panel(0, "Posts answered a second", end, max(value for speed in speeds for _, value in speed))
    for place, (speed, name) in enumerate(zip(speeds, told["programs"])):
        posts.line(speed, COLORS[place], name, place)
    orders = Panel(1, "Orders", end, max(one["ordered"] for one in samples))
    orders.line([(one["at"], one["ordered"]) for one in samples], COLORS[0], "the programs counted", 0)
    orders.line([(one["at"], one["database"]) for one in samples], COLORS[1], "in PostgreSQL", 1)
    known = [(one["at"], one["waiting"]) for one in samples if one["waiting"] is not None]
    outbox = Panel(2, "Requests that wait in the outbox", end, max(waiting for _, waiting in known))
    outbox.line(known, COLORS[0], "as the service says", 1)
    outbox.seconds()
    return [posts, orders, outbox]


def draw(samples: str, picture: str) -> None:
    with open(samples, encoding="utf-8") as file:
        told = json.load(file)
    drawn = panels(told)
    height = drawn[-1].top + PANEL + 28
    bottom = drawn[-1].top + PANEL
    size = f'viewBox="0 0 {WIDTH} {height}" width="{WIDTH}" height="{height}"'
    parts = [f'<svg xmlns="http://www.w3.org/2000/svg" {size}>', STYLE,
             f'<rect width="{WIDTH}" height="{height}" fill="#fff"/>',
             f'<text x="{LEFT}" y="18" class="head">A run with kills, seed {told["seed"]}</text>',
             f'<text x="{WIDTH - RIGHT}" y="18" class="right">killed: '
             + ", ".join(f"{letter} {name}" for letter, name in KILLS.values()) + "; shaded: no posts are taken</text>"]
    first = drawn[0]
    for since, until in downs(told["samples"]):
        x = first.x(since)
        width = first.x(until) - x
        parts.append(f'<rect x="{x:.1f}" y="{TOP}" width="{width:.1f}" height="{bottom - TOP}" class="down"/>')
    for at, victim in told["kills"]:
        x = first.x(at)
        parts.append(f'<line x1="{x:.1f}" x2="{x:.1f}" y1="{TOP - 28}" y2="{bottom}" class="kill"/>')
        parts.append(f'<text x="{x:.1f}" y="{TOP - 30}" class="mark">{KILLS[victim][0]}</text>')
    parts += [part for panel in drawn for part in panel.parts]
    with open(picture, "w", encoding="utf-8") as file:
        file.write("\n".join([*parts, "</svg>", ""]))


if __name__ == "__main__":
    if len(sys.argv) != 3:
        sys.exit(__doc__)
    draw(*sys.argv[1:])
