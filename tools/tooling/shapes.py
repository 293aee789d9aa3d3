"""Draws boxes, frames, arrows and words as SVG, which follows the reader's light or dark theme.

A picture is refused if a word is cut off, or lies over another word, over a box, or under a line. Widths are those of DejaVu Sans,
which is wider than the font of most browsers.
"""
import html
from collections.abc import Sequence

from tooling.layers import Area, Spot

PAD = 6
SIZE, LINE = 12, 16
# For each kind of box or line the colours of its area and its stroke, in light and in dark.
KINDS = {
    "plain": (("#f6f8fa", "#57606a"), ("#161b22", "#8b949e")),
    "disk": (("#ddf4ff", "#0969da"), ("#0c2d4d", "#58a6ff")),
    "proved": (("#dafbe1", "#1a7f37"), ("#10331c", "#3fb950")),
    "tested": (("#fff8c5", "#9a6700"), ("#3a2c06", "#d29922")),
    "killed": (("#ffebe9", "#cf222e"), ("#4a1114", "#f85149")),
}
# The colours of the background, of words, and of quiet words.
PAGE = (("#ffffff", "#1f2328", "#57606a"), ("#0d1117", "#e6edf3", "#9198a1"))
# Characters whose width is not 0.61 of the font's size.
WIDTHS = {it: width for letters, width in (
    ("ijl|'", 0.28), (" .,:;()[]ftIr-/", 0.4), ("csxyzkvJ", 0.56), ("mMW%@→✕", 0.98), ("wABCDEGHKNOPQRSUVXYZ&", 0.78),
) for it in letters}


class Wrong(Exception):
    """A picture that nobody could read, or a faulty description."""


def width_of(line: str, bold: bool = False, size: int = SIZE) -> float:
    return sum(WIDTHS.get(it, 0.61) for it in line) * size * (1.1 if bold else 1)


def meet(one: Area, other: Area) -> bool:
    """Whether two areas (left, top, right, bottom) overlap in more than an edge."""
    return one[0] < other[2] and other[0] < one[2] and one[1] < other[3] and other[1] < one[3]


def cuts(start: Spot, end: Spot, area: Area) -> bool:
    """Whether a line between two points goes through an area."""
    steps = 50
    return any(
        area[0] < start[0] + (end[0] - start[0]) * it / steps < area[2]
        and area[1] < start[1] + (end[1] - start[1]) * it / steps < area[3]
        for it in range(steps + 1)
    )


def style() -> str:
    def colours(which: int) -> str:
        page, word, quiet = PAGE[which]
        rules = [f".page{{fill:{page}}}text{{fill:{word}}}.quiet{{fill:{quiet}}}"]
        for kind, sides in KINDS.items():
            fill, line = sides[which]
            rules.append(f".{kind}{{fill:{fill};stroke:{line}}}.line.{kind}{{fill:none}}.head.{kind}{{fill:{line};stroke:none}}")
        return "\n".join(rules)

    return (
        f"text{{font:{SIZE}px 'DejaVu Sans',Verdana,sans-serif}}.bold{{font-weight:bold}}.line{{stroke-width:1.5}}"
        f".frame,.dashed{{stroke-dasharray:5 4}}\n{colours(0)}\n"
        f"@media (prefers-color-scheme:dark){{\n{colours(1)}\n}}"
    )


class Picture:
    """A picture as far as it is drawn."""

    def __init__(self, width: int, height: int, alt: str) -> None:
        self.width, self.height, self.alt = width, height, alt
        self.boxes: dict[str, Area] = {}
        self.words_at: list[tuple[Area, str, Area | None]] = []
        self.lines_at: list[tuple[Spot, Spot]] = []
        self.drawn: list[str] = []

    def rectangle(self, area: Area, classes: str) -> None:
        left, top, right, bottom = area
        self.drawn.append(f'<rect x="{left:g}" y="{top:g}" width="{right - left:g}" height="{bottom - top:g}" rx="5" class="{classes}"/>')

    def box(self, name: str, area: Area, kind: str, lines: list[str]) -> None:
        """A box with its name, and a description below it."""
        left, top, right, bottom = self.boxes[name] = area
        self.rectangle(area, kind)
        first = (top + bottom - LINE * len(lines)) / 2
        for at, line in enumerate(lines):
            self.words((left + right) / 2, first + LINE * at, line, "bold" if at == 0 else "quiet", "middle", inside=area)

    def frame(self, name: str, area: Area, line: str) -> None:
        """A border around boxes, with its name in the upper left corner."""
        self.boxes[name] = area
        self.rectangle(area, "frame plain")
        self.words(area[0] + PAD, area[1] + 2, line, "quiet", "start")

    def words(self, x: float, top: float, line: str, kind: str = "", anchor: str = "start", inside: Area | None = None) -> None:
        """A line of words with its upper edge at `top`."""
        width = width_of(line, kind == "bold")
        left = x - width * {"start": 0, "middle": 0.5, "end": 1}[anchor]
        area = (left, top, left + width, top + LINE)
        whole = inside or (0, 0, self.width, self.height)
        if left < whole[0] + 2 or area[2] > whole[2] - 2 or top < whole[1] or area[3] > whole[3]:
            raise Wrong(f"no room for: {line}")
        self.words_at.append((area, line, inside))
        anchored = "" if anchor == "start" else f' text-anchor="{anchor}"'
        self.drawn.append(f'<text x="{x:g}" y="{top + SIZE:g}" class="{kind}"{anchored}>{html.escape(line, quote=False)}</text>')

    def line(self, points: Sequence[Spot], kind: str, has_head: bool = True) -> None:
        """A line through these points, with an arrowhead at its end."""
        self.lines_at += zip(points, points[1:])
        path = "M" + "L".join(f"{x:g} {y:g}" for x, y in points)
        self.drawn.append(f'<path d="{path}" class="line {kind}"/>')
        if has_head:
            (a, b), (x, y) = points[-2:]
            long = ((x - a) ** 2 + (y - b) ** 2) ** 0.5
            u, v = (x - a) / long, (y - b) / long
            back = [(x - 9 * u + s * 4 * v, y - 9 * v - s * 4 * u) for s in (1, -1)]
            corners = " ".join(f"{p:.1f},{q:.1f}" for p, q in [(x, y), *back])
            self.drawn.append(f'<polygon points="{corners}" class="head {kind.split()[0]}"/>')

    def cross(self, x: float, y: float, kind: str = "killed") -> None:
        """A cross of two strokes."""
        self.drawn.append(f'<path d="M{x - 6:g} {y - 6:g}l12 12m0 -12l-12 12" class="line {kind}" style="stroke-width:3"/>')

    def check(self) -> None:
        for at, (area, line, inside) in enumerate(self.words_at):
            for other, said, _ in self.words_at[at + 1:]:
                if meet(area, other):
                    raise Wrong(f"over one another: {line}; {said}")
            for name, box in self.boxes.items():
                is_around = box[0] <= area[0] and box[1] <= area[1] and area[2] <= box[2] and area[3] <= box[3]
                if meet(area, box) and not is_around:
                    raise Wrong(f"over the edge of {name}: {line}")
            for start, end in self.lines_at:
                if cuts(start, end, area):
                    raise Wrong(f"a line goes through: {line}")

    def svg(self) -> str:
        self.check()
        return "\n".join([
            f'<svg xmlns="http://www.w3.org/2000/svg" viewBox="0 0 {self.width} {self.height}" width="{self.width}" '
            f'height="{self.height}" role="img">',
            f"<title>{html.escape(self.alt, quote=False)}</title>", f"<style>{style()}</style>",
            f'<rect width="{self.width}" height="{self.height}" class="page"/>', *self.drawn, "</svg>\n",
        ])
