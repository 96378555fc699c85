"""A story as one picture: an SVG of its own, light and dark."""

import re

from .page import Html, hue, tag
from .play import Event, Sight, Story, changed
from .program import Refused

LETTER, SIZE, LINE, PAD, GAP, EDGE = 6.7, 11, 21, 5, 22, 20
FONT = 'ui-monospace, "SF Mono", Menlo, Consolas, "DejaVu Sans Mono", monospace'
STYLE = """
text { font: %dpx %s; fill: #1d1c1a; white-space: pre; } .soft { fill: #5d5a54; } .paper { fill: #fdfcfa; } .down {
  fill: #9a2c12; } .thick { font-weight: 600; }
.rule { stroke: #d9d5cc; } .strike { stroke: #1d1c1a; } .arrow { stroke: #9a2c12; stroke-width: 1.5; }
@media (prefers-color-scheme: dark) { text { fill: #ece8e1; } .soft { fill: #a8a297; } .paper { fill: #161514; }
  .down { fill: #f0a184; } .rule { stroke: #3a3733; }
.strike { stroke: #ece8e1; } .arrow { stroke: #f0a184; } }
"""


def wide(text: str) -> float:
    """How wide a text is drawn. Signs of other widths than a letter are made to fit."""
    return LETTER * len(text)


def words(text: str, x: float, y: float, class_: str | None = None) -> Html:
    """A text that begins at a place."""
    return tag(
        "text",
        text,
        x=f"{x:.1f}",
        y=f"{y:.1f}",
        class_=class_,
        textLength=f"{wide(text):.1f}",
        lengthAdjust="spacingAndGlyphs",
    )


def part_of(story: Story, told: str) -> list[int]:
    """The places of the events that the picture shows."""
    found = re.fullmatch(r"([0-9]+)-([0-9]*)", told)
    if not found:
        raise Refused(f"--picture {told}: name the first and the last event, as 3-8")
    last = int(found[2]) if found[2] else len(story.events)
    places = range(max(int(found[1]) - 1, 0), min(last, len(story.events)))
    kept = [place for place in places if changed(story.events, place) or story.events[place].releases]
    if not kept:
        raise Refused(
            f"--picture {told}: none of these events changes what a label sees, or lets a value down: name others"
        )
    return kept


class Picture:
    """Draws from the top down."""

    def __init__(self, story: Story, places: list[int]) -> None:
        self.story, self.kept, self.labels = story, places, story.found.upwards()
        self.hues = {label: f"h{place}" for place, label in enumerate(self.labels)}
        shown = [(relation, sight) for place in places for relation in changed(story.events, place)
                 for sight in story.events[place].sights[relation].values()]
        self.widths: dict[str, list[float]] = {}
        for relation, sight in shown:
            for cells in map(self.texts, sight.rows or []):
                before = self.widths.setdefault(relation, [0.0] * len(cells))
                self.widths[relation] = [max(old, wide(cell) + 2 * PAD) for old, cell in zip(before, cells)]
        self.column = max([120.0, *(sum(each) + 2 * len(each) for each in self.widths.values())])
        longest = max(wide(self.command(story.events[place])) for place in places)
        self.width = max(len(self.labels) * (self.column + GAP) - GAP, longest) + 2 * EDGE
        self.column = (self.width - 2 * EDGE + GAP) / len(self.labels) - GAP
        self.parts: list[Html] = []
        self.y, self.relation = float(EDGE), ""

    def texts(self, row) -> list[str]:
        """The cells of a row."""
        return [*(value for value, _ in row.cells), row.label]

    def command(self, event: Event) -> str:
        """An event as a line."""
        return f"{event.number:>2}  {event.level}  {event.user or event.session}: {event.command}"

    def what(self, event: Event) -> None:
        """An event above what comes of it."""
        level, at = self.command(event).split(event.level, 1), EDGE + wide(f"{event.number:>2}  ")
        self.parts.append(words(level[0].rstrip(), EDGE, self.y + 10, "soft"))
        chip = wide(event.level) + 2 * PAD
        self.parts.append(
            tag(
                "rect",
                x=f"{at - PAD:.1f}",
                y=f"{self.y - 3:.1f}",
                width=f"{chip:.1f}",
                height=LINE - 3,
                rx=2,
                class_=self.hues[event.level],
            )
        )
        self.parts.append(words(event.level, at, self.y + 10, "thick"))
        self.parts.append(words(level[1].lstrip(), at + wide(f"{event.level}  "), self.y + 10))
        self.y += LINE + 2

    def left(self, label: str) -> float:
        """Where a label's column begins."""
        return EDGE + self.labels.index(label) * (self.column + GAP)

    def heads(self) -> None:
        """The names of the labels above their columns."""
        for label in self.labels:
            x = self.left(label)
            self.parts.append(
                tag(
                    "rect",
                    x=f"{x:.1f}",
                    y=f"{self.y:.1f}",
                    width=f"{self.column:.1f}",
                    height=LINE,
                    rx=2,
                    class_=self.hues[label],
                )
            )
            self.parts.append(words(label, x + PAD, self.y + 15, "thick"))
        self.y += LINE + 14

    def sight(self, label: str, relation: str, sight: Sight) -> float:
        """A relation as a label sees it; how high it is."""
        x, y = self.left(label), self.y
        if not sight.rows:
            self.parts.append(
                words("no rows" if sight.rows is not None else "nobody may look", x + PAD, y + 14, "soft")
            )
            return LINE
        for row, is_cover in zip(sight.rows, sight.covers):
            across = x
            classes = [*(label for _, label in row.cells), row.label]
            for text, class_, width in zip(self.texts(row), classes, self.widths[relation]):
                self.parts.append(
                    tag(
                        "rect",
                        x=f"{across:.1f}",
                        y=f"{y:.1f}",
                        width=f"{width:.1f}",
                        height=LINE - 3,
                        rx=2,
                        class_=self.hues[class_],
                    )
                )
                self.parts.append(words(text, across + PAD, y + 13))
                across += width + 2
            if is_cover:
                end = across - 2 - self.widths[relation][-1] - PAD
                self.parts.append(
                    tag(
                        "line",
                        x1=f"{x + PAD:.1f}",
                        y1=f"{y + 9:.1f}",
                        x2=f"{end:.1f}",
                        y2=f"{y + 9:.1f}",
                        class_="strike",
                    )
                )
            y += LINE
        return y - self.y

    def arrow(self, high: str, low: str, what: str) -> None:
        """A value that came down."""
        start, end, y = self.left(high) + self.column, self.left(low), self.y + 18
        text = f"{what} released from {high} to {low}"
        self.parts.append(words(text, (start + end - wide(text)) / 2, y - 6, "down"))
        self.parts.append(
            tag("line", x1=f"{start:.1f}", y1=f"{y:.1f}", x2=f"{end + 6:.1f}", y2=f"{y:.1f}", class_="arrow")
        )
        self.parts.append(tag("path", d=f"M{end:.1f} {y:.1f}l8 -4v8z", class_="down"))
        self.y += 30

    def event(self, place: int) -> None:
        """An event, and what comes of it."""
        event = self.story.events[place]
        self.what(event)
        for arrow in event.releases:
            self.arrow(*arrow)
        relations = changed(self.story.events, place)
        for relation in relations:
            if relation != self.relation:
                self.parts.append(words(relation, EDGE, self.y + 10, "soft"))
                self.y += 16
                self.relation = relation
            self.y += max(self.sight(label, relation, event.sights[relation][label]) for label in self.labels)
        self.y += 12

    def drawn(self) -> str:
        """The whole picture."""
        self.heads()
        for number, place in enumerate(self.kept):
            if number:
                self.parts.append(
                    tag(
                        "line",
                        x1=EDGE,
                        y1=f"{self.y - 8:.1f}",
                        x2=f"{self.width - EDGE:.1f}",
                        y2=f"{self.y - 8:.1f}",
                        class_="rule",
                    )
                )
                self.y += 6
            self.event(place)
        count = len(self.labels)
        light = "".join(f".h{place} {{ fill: hsl({hue(place, count)} 60% 91%); }}\n" for place in range(count))
        dark = "".join(f".h{place} {{ fill: hsl({hue(place, count)} 32% 23%); }} " for place in range(count))
        style = f"{STYLE % (SIZE, FONT)}{light}@media (prefers-color-scheme: dark) {{ {dark}}}\n"
        height = self.y + 8
        paper = tag("rect", width=f"{self.width:.0f}", height=f"{height:.0f}", class_="paper")
        return tag(
            "svg",
            Html(f"<style>{style}</style>"),
            paper,
            *(Html(f"\n{part}") for part in self.parts),
            xmlns="http://www.w3.org/2000/svg",
            viewBox=f"0 0 {self.width:.0f} {height:.0f}",
            width=f"{self.width:.0f}",
            height=f"{height:.0f}",
            role="img",
            aria_label="what each label sees, event by event",
        ) + "\n"


def picture(story: Story, told: str) -> str:
    """The picture of a part of a story."""
    return Picture(story, part_of(story, told)).drawn()
