#!/usr/bin/env python3
"""python3 bench/plot.py [MEASURED] >docs/performance.svg: what bench.py printed, on standard input or in a file, as a
picture. That of docs/performance.md is drawn of bench/measured.txt.

Each piece of work has a plot of the seconds of processor over n, both logarithmic: the program beside C SQLite. All
plots have one scale. The status is 2 where there is no row of the table; then nothing is printed."""

import argparse
import math
import re
import sys
from pathlib import Path
from typing import NamedTuple

sys.dont_write_bytecode = True
sys.path.insert(0, str(Path(__file__).resolve().parent.parent / "tools"))

from mlpages.page import Html, tag
from mlpages.program import Refused, read_text, run_tool

ROW = re.compile(r"\| (.+) \| ([0-9,]+) \| [0-9.]+ s \| ([0-9.]+) s \| \S* *\| [0-9.]+ s \| ([0-9.]+) s \|.*")
WIDE, HIGH, LEFT, TOP, ACROSS = 232, 150, 44, 34, 3
# What takes less was not measured, and is not drawn: Python's clock of a child counts hundredths.
LEAST = 0.005
STYLE = """
text { font: 11px system-ui, "Segoe UI", Roboto, sans-serif; fill: #5d5a54; } .title { fill: #1d1c1a;
  font-weight: 600; } .paper { fill: #fdfcfa; }
.rule { stroke: #e3dfd7; } polyline { fill: none; stroke-width: 2; } .mldb { stroke: #9a2c12; } .plain {
  stroke: #3c6899; stroke-dasharray: 5 3; }
circle { stroke: none; } circle.mldb { fill: #9a2c12; } circle.plain { fill: #3c6899; }
@media (prefers-color-scheme: dark) { text { fill: #a8a297; } .title { fill: #ece8e1; } .paper { fill: #161514; }
  .rule { stroke: #35322e; }
.mldb { stroke: #f0a184; } .plain { stroke: #86aedb; } circle.mldb { fill: #f0a184; } circle.plain { fill: #86aedb; } }
"""


class Point(NamedTuple):
    """What a piece of work took at a size."""

    size: int
    ours: float
    theirs: float


def measured(text: str) -> dict[str, list[Point]]:
    """The points of each piece of work."""
    work: dict[str, list[Point]] = {}
    for line in text.split("\n"):
        found = ROW.fullmatch(line)
        if found:
            point = Point(int(found[2].replace(",", "")), float(found[3]), float(found[4]))
            work.setdefault(found[1], []).append(point)
    if not work:
        raise Refused("there is no row of the table that bench.py prints: give its output")
    return work


class Plot:
    """Draws the points of all work in one scale."""

    def __init__(self, work: dict[str, list[Point]]) -> None:
        self.work = work
        points = [point for each in work.values() for point in each]
        times = [value for point in points for value in (point.ours, point.theirs) if value >= LEAST] or [LEAST]
        self.x = self.decades(min(point.size for point in points), max(point.size for point in points))
        self.y = self.decades(min(times), max(times))

    def decades(self, low: float, high: float) -> range:
        """The powers of ten around some values."""
        return range(math.floor(math.log10(low)), math.floor(math.log10(high) - 1e-9) + 2)

    def at(self, size: float, seconds: float) -> tuple[float, float]:
        """The place of a point."""
        across = (math.log10(size) - self.x[0]) / (self.x[-1] - self.x[0])
        up = (math.log10(seconds) - self.y[0]) / (self.y[-1] - self.y[0])
        return LEFT + across * WIDE, TOP + (1 - up) * HIGH

    def rules(self) -> list[Html]:
        """Lines at the powers of ten, with their numbers."""
        told = []
        for power in self.x:
            x, y = self.at(10.0**power, 10.0 ** self.y[0])
            told += [tag("line", x1=f"{x:.1f}", y1=TOP, x2=f"{x:.1f}", y2=TOP + HIGH, class_="rule"),
                     tag("text", f"{10**power:,}", x=f"{x:.1f}", y=f"{y + 15:.1f}", text_anchor="middle")]
        for power in self.y:
            x, y = self.at(10.0 ** self.x[0], 10.0**power)
            name = f"{10**power:,} s" if power >= 0 else f"{10.0**power:.{-power}f} s"
            told += [tag("line", x1=LEFT, y1=f"{y:.1f}", x2=LEFT + WIDE, y2=f"{y:.1f}", class_="rule"),
                     tag("text", name, x=LEFT - 5, y=f"{y + 4:.1f}", text_anchor="end")]
        return told

    def curve(self, points: list[tuple[float, float]], class_: str) -> list[Html]:
        """A line through points."""
        line = tag("polyline", points=" ".join(f"{x:.1f},{y:.1f}" for x, y in points), class_=class_)
        return [line, *(tag("circle", cx=f"{x:.1f}", cy=f"{y:.1f}", r=3, class_=class_) for x, y in points)]

    def one(self, title: str, points: list[Point], place: int) -> Html:
        """The plot of a piece of work."""
        theirs = self.curve([self.at(point.size, point.theirs) for point in points if point.theirs >= LEAST], "plain")
        ours = self.curve([self.at(point.size, point.ours) for point in points if point.ours >= LEAST], "mldb")
        if len(theirs) == 1:
            theirs = [tag("text", "C SQLite: under 0.005 s", x=LEFT + 8, y=TOP + HIGH - 8)]
        shift = f"translate({place % ACROSS * (LEFT + WIDE + 24)} {32 + place // ACROSS * (TOP + HIGH + 30)})"
        return tag(
            "g", tag("text", title, x=LEFT, y=TOP - 10, class_="title"), *self.rules(), *theirs, *ours, transform=shift
        )

    def drawn(self) -> str:
        """The whole picture."""
        width, height = ACROSS * (LEFT + WIDE + 24), 32 + math.ceil(len(self.work) / ACROSS) * (TOP + HIGH + 30)
        key = [
            tag("line", x1=LEFT, y1=20, x2=LEFT + 28, y2=20, class_="mldb", stroke_width=2),
            tag("text", "mldb", x=LEFT + 34, y=24),
            tag("line", x1=LEFT + 80, y1=20, x2=LEFT + 108, y2=20, class_="plain", stroke_width=2),
            tag("text", "C SQLite", x=LEFT + 114, y=24),
            tag("text", "seconds of processor, over n", x=LEFT + 190, y=24),
        ]
        plots = [self.one(title, points, place) for place, (title, points) in enumerate(self.work.items())]
        return tag(
            "svg",
            Html(f"<style>{STYLE}</style>"),
            tag("rect", width=width, height=height, class_="paper"),
            *key,
            *(Html(f"\n{plot}") for plot in plots),
            xmlns="http://www.w3.org/2000/svg",
            viewBox=f"0 0 {width} {height}",
            width=width,
            height=height,
            role="img",
            aria_label="seconds of processor of mldb and of C SQLite, by the size of the work",
        ) + "\n"


def main() -> str:
    """The picture."""
    parser = argparse.ArgumentParser(
        description=__doc__, formatter_class=argparse.RawDescriptionHelpFormatter, allow_abbrev=False
    )
    parser.add_argument("measured", metavar="MEASURED", nargs="?", default="/dev/stdin")
    return Plot(measured(read_text(parser.parse_args().measured))).drawn()


if __name__ == "__main__":
    run_tool("plot", main)
