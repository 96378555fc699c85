"""The lattice of the labels, drawn: a line from each label to each one that it covers, which passes no other label."""

from typing import NamedTuple

from .declared import Declared
from .page import Html, joined, tag

LETTER, ROW, GAP, HEIGHT = 8.0, 62.0, 14.0, 24.0
# So wide the labels of a row are at most before they stand in two.
MOST_WIDTH = 840.0
# So often the rows are put in the order of what they are joined to.
SWEEPS = 12
# So small the drawing gets at most before it is moved by a bar.
LEAST_SCALE = 0.75


class Spot(NamedTuple):
    """What stands in a row: a label, or where a line from one label to another passes."""

    label: str
    low: str = ""


def width_of(spot: Spot) -> float:
    """How wide a place in a row is drawn."""
    return 0.0 if spot.low else LETTER * len(spot.label) + 16


def heights_of(found: Declared) -> dict[str, int]:
    """The level of each label: as near below those that cover it as its own lines leave it."""
    heights = {label: found.height(label) for label in found.labels}
    above: dict[str, list[str]] = {label: [] for label in found.labels}
    for label, lows in found.covers.items():
        for low in lows:
            above[low].append(label)
    for label in reversed(found.upwards()):
        if above[label] and len(above[label]) > len(found.covers[label]):
            heights[label] = min(heights[high] for high in above[label]) - 1
    return heights


def rows_of(found: Declared) -> list[list[str]]:
    """The labels in rows from the bottom up. A level that is too wide stands in several."""
    heights = heights_of(found)
    rows: list[list[str]] = []
    for height in sorted(set(heights.values())):
        level = [label for label in found.upwards() if heights[label] == height]
        count = int(sum(width_of(Spot(label)) + GAP for label in level) / MOST_WIDTH) + 1
        rows += [level[first::count] for first in range(min(count, len(level)))]
    return rows


def spots_of(found: Declared, rows: list[list[str]]) -> tuple[list[list[Spot]], dict[tuple[str, str], list[Spot]]]:
    """The rows with the places where lines pass them, and each line by its places from the top down."""
    row_of = {label: number for number, row in enumerate(rows) for label in row}
    spots, paths = [[Spot(label) for label in row] for row in rows], {}
    for high in found.upwards():
        for low in found.covers[high]:
            passed = range(row_of[high] - 1, row_of[low], -1)
            for number in passed:
                spots[number].append(Spot(high, low))
            paths[high, low] = [Spot(high), *(Spot(high, low) for _ in passed), Spot(low)]
    return spots, paths


def joins_of(rows: list[list[Spot]], paths: dict[tuple[str, str], list[Spot]]) -> list[dict[Spot, list[Spot]]]:
    """To which places of the row above each place of a row is joined, row by row."""
    row_of = {spot.label: number for number, row in enumerate(rows) for spot in row if not spot.low}
    up: list[dict[Spot, list[Spot]]] = [{} for _ in rows]
    for path in paths.values():
        for step, (high, low) in enumerate(zip(path, path[1:])):
            up[row_of[path[0].label] - step - 1].setdefault(low, []).append(high)
    return up


def order(rows: list[list[Spot]], paths: dict[tuple[str, str], list[Spot]]) -> None:
    """Puts each row in an order in which fewer lines cross: by the middle of what it is joined to, below and above."""
    up = joins_of(rows, paths)
    down: list[dict[Spot, list[Spot]]] = [{} for _ in rows]
    for number, joins in enumerate(up):
        for low, highs in joins.items():
            for high in highs:
                down[number + 1].setdefault(high, []).append(low)
    for sweep in range(SWEEPS):
        upwards = sweep % 2 == 0
        numbers = range(1, len(rows)) if upwards else range(len(rows) - 2, -1, -1)
        for number in numbers:
            joins, other = (down[number], rows[number - 1]) if upwards else (up[number], rows[number + 1])
            place = {spot: (at + 0.5) / len(other) for at, spot in enumerate(other)}
            own = {spot: (at + 0.5) / len(rows[number]) for at, spot in enumerate(rows[number])}
            middle = {
                spot: sum(place[one] for one in joins[spot]) / len(joins[spot]) if spot in joins else own[spot]
                for spot in rows[number]
            }
            rows[number].sort(key=middle.__getitem__)


class Drawing:
    """Where everything is drawn."""

    def __init__(self, found: Declared) -> None:
        self.rows, self.paths = spots_of(found, rows_of(found))
        order(self.rows, self.paths)
        self.width = max(sum(width_of(spot) + GAP for spot in row) for row in self.rows) + GAP
        self.height = ROW * (len(self.rows) - 1) + HEIGHT + 16
        self.places: list[dict[Spot, tuple[float, float]]] = []
        for number, row in enumerate(self.rows):
            space = (self.width - sum(map(width_of, row))) / (len(row) + 1)
            x, y, placed = space, ROW * (len(self.rows) - 1 - number) + 8 + HEIGHT / 2, {}
            for spot in row:
                placed[spot] = (x + width_of(spot) / 2, y)
                x += width_of(spot) + space
            self.places.append(placed)
        self.row_of = {spot.label: number for number, row in enumerate(self.rows) for spot in row if not spot.low}

    def edge(self, path: list[Spot]) -> Html:
        """A line from a label down to one that it covers; straight down where it passes a row."""
        top, half, points = self.row_of[path[0].label], HEIGHT / 2, []
        for step, spot in enumerate(path):
            x, y = self.places[top - step][spot]
            points += [(x, y - half)] if step else []
            points += [(x, y + half)] if step < len(path) - 1 else []
        told = " ".join(f"{x:.1f},{y:.1f}" for x, y in points)
        return tag("polyline", points=told, stroke="var(--soft)", fill="none")

    def box(self, label: str, hue: str) -> Html:
        """A label on its colour."""
        (x, y), wide = self.places[self.row_of[label]][Spot(label)], width_of(Spot(label))
        corner = {"x": f"{x - wide / 2:.1f}", "y": f"{y - HEIGHT / 2:.1f}"}
        shape = tag("rect", **corner, width=f"{wide:.1f}", height=HEIGHT, rx=3, fill="hsl(var(--hue) var(--tint))")
        middle = {"x": f"{x:.1f}", "y": f"{y + 4.5:.1f}", "text_anchor": "middle"}
        words = tag("text", label, **middle, fill="var(--ink)", textLength=f"{LETTER * len(label):.1f}")
        return tag("g", shape, words, class_=hue)


def drawn(found: Declared, hues: dict[str, str]) -> Html:
    """The drawing, as an element of a page that has the colours of the labels."""
    drawing = Drawing(found)
    svg = tag(
        "svg",
        *map(drawing.edge, drawing.paths.values()),
        *(drawing.box(label, hues[label]) for label in found.upwards()),
        viewBox=f"0 0 {drawing.width:.0f} {drawing.height:.0f}",
        width=f"{drawing.width:.0f}",
        height=f"{drawing.height:.0f}",
        style=f"--least: {drawing.width * LEAST_SCALE:.0f}px",
        role="img",
        aria_label=joined_text(found),
    )
    return tag("div", svg, class_="drawing scroll")


def joined_text(found: Declared) -> str:
    """The drawing in words."""
    return "; ".join(f"{label} covers {' '.join(found.covers[label]) or 'nothing'}" for label in found.upwards())
