"""The entries of an audit list, and the page of their counts, each of which leads to its lines."""

import re
from collections import Counter
from datetime import date, timedelta
from typing import NamedTuple

from .page import Html, joined, page, printed, tag
from .program import Refused
from .replies import NAME, VALUE

TIME = r"[0-9]{4}-[0-9]{2}-[0-9]{2}T[0-9]{2}:[0-9]{2}:[0-9]{2}Z"
ENTRY = re.compile(
    rf"{NAME} (?:{NAME}/{NAME} )?entry ({NAME}) (denied|called|released) ({NAME}) ({NAME}) ({VALUE}|{NAME})"
    rf"(?: ({TIME}))?"
)
KINDS = ("called", "released", "denied")
NOUNS = {"called": "calls", "released": "releases", "denied": "denials"}
ONE = {"called": "call", "released": "release", "denied": "denial"}
# The plot over the days; of more days it shows those that have entries.
WIDTH, HEIGHT, MOST_DAYS = 900, 140, 3660
STYLE = """
main { max-width: 60rem; --called: hsl(212 45% 42%); --released: var(--mark); --denied: hsl(40 8% 55%); }
@media (prefers-color-scheme: dark) { main { --called: hsl(212 55% 68%); } }
.counts { width: 100%; } .counts th, .counts td { padding: .3rem .75rem .3rem 0; border-bottom: 1px solid var(--line); }
.counts td:not(:first-child), .counts th:not(:first-child) { text-align: right; width: 5.5rem;
  font-variant-numeric: tabular-nums; }
.counts td.bar { width: 45%; text-align: left; } .counts td:first-child { overflow-wrap: anywhere; }
.bar span { display: inline-block; height: .8rem; vertical-align: middle; }
.called { background: var(--called); fill: var(--called); } .released { background: var(--released);
  fill: var(--released); } .denied { background: var(--denied); fill: var(--denied); }
.key span { display: inline-block; width: .8rem; height: .8rem; vertical-align: baseline; margin: 0 .4rem 0 1rem; }
  .key span:first-child { margin-left: 0; }
.lines { display: none; } .lines:target { display: block; } .lines pre { padding-left: 4.5em; text-indent: -4.5em; }
.lines b { display: inline-block; min-width: 4.5em; text-indent: 0; font-weight: 400; color: var(--soft); }
figure { margin: 1.5rem 0 0; font-size: .8125rem; color: var(--soft); font-variant-numeric: tabular-nums; }
.days { width: 100%; height: 140px; border-bottom: 1px solid var(--line); }
figcaption { display: flex; justify-content: space-between; } figcaption.one { justify-content: center; }
@media (max-width: 40rem) { .counts, .counts tbody { display: block; } .counts thead { display: none; }
  .counts tr { display: grid; grid-template-columns: repeat(3, 1fr); padding: .3rem 0;
  border-bottom: 1px solid var(--line); }
  .counts td { border: 0; padding: .1rem 0; } .counts td:first-child, .counts td.bar { grid-column: 1 / -1; }
  .counts td:not(:first-child) { width: auto; text-align: left; }
  .counts td[data-head]::before { content: attr(data-head) " "; color: var(--soft); font-style: italic;
  font-size: .875rem; } }
@media print { .lines { display: block; } }
"""


class Entry(NamedTuple):
    """An entry: the number of its line, the line, and what it says."""

    number: int
    line: str
    label: str
    kind: str
    user: str
    day: str


def entries_of(text: str) -> tuple[list[Entry], int]:
    """The entries among the lines, and the number of the other lines."""
    found, others = [], 0
    for number, line in enumerate(text.removesuffix("\n").split("\n"), 1):
        parts = ENTRY.fullmatch(line)
        if parts:
            found.append(Entry(number, line, parts[1], parts[2], parts[3], (parts[6] or "")[:10]))
        elif line:
            others += 1
    if not found:
        raise Refused("there is no entry among the lines: give what `mldb turn` or an `audit` printed")
    return found, others


def days_between(days: list[str]) -> list[str]:
    """Each day from the first one to the last one."""
    try:
        first, last = date.fromisoformat(days[0]), date.fromisoformat(days[-1])
    except ValueError:
        return days
    span = (last - first).days
    return [str(first + timedelta(number)) for number in range(span + 1)] if span < MOST_DAYS else days


def counted(number: int, kind: str) -> str:
    """So many of a kind, in words."""
    return f"{number} {NOUNS[kind] if number != 1 else ONE[kind]}"


class AuditPage:
    """Lays entries out."""

    def __init__(self, entries: list[Entry], others: int) -> None:
        self.entries, self.others = entries, others
        self.lists: list[Html] = []

    def count(self, facet: str, key: str, kind: str, chosen: list[Entry]) -> Html | str:
        """A number, which leads to its lines."""
        if not chosen:
            return "0"
        name = f"{facet}-{key or 'none'}-{kind}"
        title = f"{NOUNS[kind]}, {facet} {key or 'without a time'}"
        lines = [tag("pre", tag("b", str(one.number)), printed(one.line)) for one in chosen]
        self.lists.append(
            tag(
                "section",
                tag("h3", title),
                *lines,
                tag("p", tag("a", "back to the numbers", href=f"#{facet}")),
                class_="lines",
                id=name,
            )
        )
        return tag("a", str(len(chosen)), href=f"#{name}")

    def table(self, facet: str, title: str, keys: list[str], most: int) -> Html:
        """The numbers of each day, label or user."""
        heads = tag(
            "tr",
            *(
                tag("th", head, scope="col", class_="bar" if head == "" else None)
                for head in (facet, "", *NOUNS.values())
            ),
        )
        rows = []
        for key in keys:
            mine = [one for one in self.entries if getattr(one, facet) == key]
            split = {kind: [one for one in mine if one.kind == kind] for kind in KINDS}
            bar = joined(
                tag("span", class_=kind, style=f"width: {96 * len(split[kind]) / most:.2f}%")
                for kind in KINDS
                if split[kind]
            )
            rows.append(
                tag(
                    "tr",
                    tag("td", key or "no time"),
                    tag("td", bar, class_="bar"),
                    *(tag("td", self.count(facet, key, kind, split[kind]), data_head=NOUNS[kind]) for kind in KINDS),
                )
            )
        return joined(
            [tag("h2", title, id=facet), tag("table", tag("thead", heads), tag("tbody", *rows), class_="counts")]
        )

    def part(self, facet: str, title: str) -> Html:
        """The numbers by one thing."""
        keys = sorted({getattr(one, facet) for one in self.entries}) if facet != "label" else list(
            dict.fromkeys(one.label for one in self.entries)
        )
        most = max(sum(getattr(one, facet) == key for one in self.entries) for key in keys)
        return self.table(facet, title, keys, most)

    def days(self) -> Html:
        """The numbers by day, and a plot over all days."""
        timed = sorted({one.day for one in self.entries if one.day})
        if not timed:
            return joined([tag("h2", "By day", id="day"), tag("p", "The entries have no times.")])
        days = days_between(timed)
        ends = [tag("span", day) for day in dict.fromkeys((days[0], days[-1]))]
        below = tag("figcaption", *ends, class_="one" if len(ends) == 1 else None)
        return joined([self.part("day", "By day"), tag("figure", *self.plot(days), below)])

    def plot(self, days: list[str]) -> tuple[Html, Html]:
        """A column for each day, from edge to edge, below how high the highest one is."""
        counts = Counter((one.day, one.kind) for one in self.entries)
        most = max(sum(counts[day, kind] for kind in KINDS) for day in days)
        step = WIDTH / len(days)
        bars = []
        for place, day in enumerate(days):
            top = float(HEIGHT)
            for kind in KINDS:
                tall = HEIGHT * counts[day, kind] / most
                top -= tall
                where = {"y": f"{top:.2f}", "height": f"{tall:.2f}", "class_": kind}
                wide = min(max(step * 0.8, 0.5), 72)
                # The first and the last day stand above their names, at the edges.
                left = (WIDTH - wide) * (place / (len(days) - 1) if len(days) > 1 else 0.5)
                told = tag("title", f"{day}: {counted(counts[day, kind], kind)}")
                bars += [tag("rect", told, x=f"{left:.2f}", width=f"{wide:.2f}", **where)] if tall else []
        size = {"viewBox": f"0 0 {WIDTH} {HEIGHT}", "preserveAspectRatio": "none", "role": "img"}
        drawn = tag("svg", *bars, **size, aria_label="entries by day", class_="days")
        return tag("div", f"{most} a day at most"), drawn

    def page(self) -> str:
        """The whole page."""
        totals = ", ".join(counted(sum(one.kind == kind for one in self.entries), kind) for kind in KINDS)
        others = f" Lines that are no entries: {self.others}." if self.others else ""
        key = tag("p", *(part for kind in KINDS for part in (tag("span", class_=kind), NOUNS[kind])), class_="key soft")
        parts = [self.part("user", "By user"), self.part("label", "By label"), self.days()]
        body = joined(
            [
                tag("h1", "Audit list"),
                tag("p", f"{totals}.{others} Each number leads to its lines."),
                key,
                *parts,
                *self.lists,
            ]
        )
        return page("Audit list", body, STYLE)
