"""Arranges things in layers, each above all that it rests on, so that few lines cross."""
from collections.abc import Mapping, Sequence


ROUNDS = 24
# The free space between things.
GAP = 18
# A thing, or the place where a line from an upper layer to a lower one passes a layer.
Thing = str | tuple[str, str, int]
# (x, y), from left to right and down.
Spot = tuple[float, float]
Area = tuple[float, float, float, float]


class Layers:
    """Things, lowest first, with what each rests on and how wide each is. A line that passes a layer takes a place in it."""

    def __init__(self, names: Sequence[str], below: Mapping[str, Sequence[str]], wide: Mapping[str, float]) -> None:
        self.wide: dict[Thing, float] = dict(wide.items())
        height = self.heights(names, below)
        self.layers: list[list[Thing]] = [[] for _ in range(max(height.values()) + 1)]
        for it in names:
            self.layers[height[it]].append(it)
        # For each pair of neighbouring layers the joined pairs, upper and lower; and the places that each line passes.
        self.joined: list[tuple[Thing, Thing]] = []
        self.ways: list[list[Thing]] = []
        for upper in names:
            for lower in below[upper]:
                passed = [(upper, lower, at) for at in range(height[upper] - 1, height[lower], -1)]
                for place in passed:
                    self.layers[place[2]].append(place)
                    self.wide[place] = 10
                way: list[Thing] = [upper, *passed, lower]
                self.ways.append(way)
                self.joined += zip(way, way[1:])
        self.order()

    @staticmethod
    def heights(names: Sequence[str], below: Mapping[str, Sequence[str]]) -> dict[str, int]:
        """Each as low as what it rests on allows; then as high as what rests on it allows."""
        height: dict[str, int] = {}
        for it in names:
            height[it] = max((height[lower] + 1 for lower in below[it]), default=0)
        for it in reversed(names):
            above = [height[upper] - 1 for upper in names if it in below[upper]]
            height[it] = min(above, default=height[it])
        return height

    def order(self) -> None:
        """Sorts each layer by the mean position of what its things are joined to, up and down in turn, and keeps the best order."""
        best = None
        for turn in range(ROUNDS):
            steps = self.layers if turn % 2 else list(reversed(self.layers))
            place = {it: (at + 0.5) / len(layer) for layer in self.layers for at, it in enumerate(layer)}
            for layer in steps:
                near = {it: self.beside(it, turn % 2) for it in layer}
                layer.sort(key=lambda it: sum(place[at] for at in near[it]) / len(near[it]) if near[it] else place[it])
                place.update((it, (at + 0.5) / len(layer)) for at, it in enumerate(layer))
            crossed = self.crossings()
            if best is None or crossed < best[0]:
                best = crossed, [list(layer) for layer in self.layers]
        self.layers = best[1]

    def beside(self, it: Thing, is_below: int) -> list[Thing]:
        return [pair[is_below] for pair in self.joined if pair[1 - is_below] == it]

    def crossings(self) -> int:
        place = {it: at for layer in self.layers for at, it in enumerate(layer)}
        level = {it: at for at, layer in enumerate(self.layers) for it in layer}
        return sum(
            level[a] == level[c] and (place[a] - place[c]) * (place[b] - place[d]) < 0
            for at, (a, b) in enumerate(self.joined) for c, d in self.joined[:at]
        )

    def placed(self, width: int, height: int, thick: int) -> tuple[dict[Thing, Area], list[list[Spot]]]:
        """The area of each thing, and the points of each line."""
        middle = self.middles(width)
        apart = (height - thick * len(self.layers)) / (len(self.layers) + 1)
        areas: dict[Thing, Area] = {}
        for at, layer in enumerate(self.layers):
            top = height - (apart + thick) * (at + 1)
            areas.update((it, (middle[it] - self.wide[it] / 2, top, middle[it] + self.wide[it] / 2, top + thick)) for it in layer)
        return areas, [self.line(way, areas) for way in self.ways]

    def middles(self, width: int) -> dict[Thing, int]:
        """The x of each thing's middle: near what it is joined to, in the order of its layer."""
        middle = {it: width * (at + 0.5) / len(layer) for layer in self.layers for at, it in enumerate(layer)}
        for turn in range(ROUNDS):
            for layer in self.layers if turn % 2 else reversed(self.layers):
                near = [self.beside(it, turn % 2) or [it] for it in layer]
                wanted = [sum(middle[other] for other in others) / len(others) for others in near]
                middle.update(zip(layer, self.kept_apart(layer, wanted, width)))
        return {it: round(at) for it, at in middle.items()}

    def kept_apart(self, layer: list[Thing], wanted: list[float], width: int) -> list[float]:
        """Moves things apart that would touch. Averages a layout pushed to the right and one pushed to the left, so
        that both sides move; stays within the width."""
        wide = [self.wide[it] for it in layer]
        to_right = pushed(wanted, wide)
        to_left = [width - it for it in pushed([width - it for it in reversed(wanted)], wide[::-1])][::-1]
        both = [(one + other) / 2 for one, other in zip(to_right, to_left)]
        back = pushed([width - it for it in reversed(pushed(both, wide))], wide[::-1])
        return [width - it for it in reversed(back)]

    @staticmethod
    def line(way: list[Thing], areas: dict[Thing, Area]) -> list[Spot]:
        points: list[Spot] = []
        for at, it in enumerate(way):
            left, top, right, bottom = areas[it]
            points += [((left + right) / 2, top)] if at else []
            points += [((left + right) / 2, bottom)] if at < len(way) - 1 else []
        return points


def pushed(wanted: list[float], wide: list[float]) -> list[float]:
    """Moves each to the right until it touches neither the edge nor its left neighbour."""
    placed: list[float] = []
    free = 0.0
    for at, width in zip(wanted, wide):
        placed.append(max(at, free + GAP + width / 2))
        free = placed[-1] + width / 2
    return placed
