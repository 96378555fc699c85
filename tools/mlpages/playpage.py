"""The page of a story: an event a row, a column a label."""

from pathlib import PurePath

from . import lattice
from .page import Html, chip, hue, hue_style, hues_of, joined, page, printed, tag, value
from .play import Event, Sight, Story, changed

# So many labels stand side by side; more stand below each other.
MOST_COLUMNS = 8
# A first comment that is longer is no title.
MOST_TITLE = 100
# A value with a longer word is broken anywhere, another one between words alone.
MOST_WORD = 18
# A drawing of the labels that is higher stands at the end.
MOST_HEIGHT = 300

STYLE = """
.event { padding: .9rem 0 1rem; border-top: 1px solid var(--line); scroll-margin-top: 3rem; }
.said { font-style: italic; margin: 0 0 .35rem; }
.what { display: flex; gap: .25rem .7rem; align-items: baseline; flex-wrap: wrap; }
.no { font-variant-numeric: tabular-nums; color: var(--soft); min-width: 1.6em; text-decoration: none;
  font-size: .875rem; }
.what code { flex: 1 1 16rem; }
.columns { display: grid; grid-template-columns: repeat(var(--n), minmax(0, 1fr)); gap: 0 .6rem; margin-top: .55rem; }
.columns > .cell { min-width: 0; }
.columns > .cell > .label { display: none; }
.heads { position: sticky; top: 0; background: var(--paper); margin: 0; padding: .5rem 0; z-index: 1; }
.heads .label { display: block; border-bottom: 2px solid hsl(var(--edge) var(--dot)); border-radius: .2em .2em 0 0; }
.columns pre { font-size: .75rem; }
.columns > .silent::after { content: "\\2013"; color: var(--soft); }
.down { display: grid; grid-template-columns: repeat(var(--n), minmax(0, 1fr)); gap: 0 .6rem; margin-top: .6rem;
  color: var(--mark); }
.arrow { position: relative; text-align: center; border-bottom: 2px solid; padding: 0 1rem .1rem; font-size: .875rem;
  min-width: 0; overflow-wrap: anywhere; }
.arrow::before { content: ""; position: absolute; left: 0; bottom: -6px; border: 5px solid transparent;
  border-left: 0; border-right: 9px solid; }
.arrow .mono { font-weight: 600; }
.sight { margin-top: .9rem; }
.all .first { display: none; }
.rows { border-collapse: separate; border-spacing: 2px; margin: 0 -2px; }
.rows caption { text-align: left; font-size: .875rem; padding: 0 2px; }
.rows th { font-size: .75rem; padding: 0 .2rem; }
.rows td { font-size: .6875rem; line-height: 1.35; padding: .1rem .2rem; border-radius: .15em; vertical-align: top; }
.rows td.long { overflow-wrap: anywhere; min-width: 12em; }
.rows td small { display: block; font-size: .625rem; }
.rows tr.cover td bdi { text-decoration: line-through; text-decoration-thickness: 1.5px; }
.rows td.class { font-weight: 600; font-size: .625rem; line-height: 1.5; }
.none { font-size: .8125rem; color: var(--soft); margin: 0; }
.stage { margin-top: 1.5rem; padding: 1rem 1rem 1.4rem; background: var(--raised); border: 1px solid var(--line);
  border-radius: .4rem; min-height: 22rem; clear: both; }
.controls { display: flex; gap: .75rem; align-items: center; margin-bottom: .9rem; }
.controls input { flex: 1; min-width: 0; accent-color: var(--ink); }
.controls button { font: inherit; color: inherit; background: var(--paper); border: 1px solid var(--line);
  border-radius: .3rem; padding: .1rem .7rem; cursor: pointer; }
.controls output { font-variant-numeric: tabular-nums; min-width: 5.5rem; text-align: right; }
.stage .said { min-height: 1.5em; }
.playing .all .sight { display: none; }
.playing .all .event { cursor: pointer; }
.playing .all .event.current { box-shadow: -1rem 0 0 var(--paper), calc(-1rem - 3px) 0 0 var(--mark); }
.stage .heads { position: static; background: none; padding: .25rem 0; }
.lattice { float: right; margin: 0 0 1rem 1.5rem; }
.lattice svg { max-height: 11rem; width: auto; }
[hidden] { display: none; }
@media print { .stage, .heads { display: none; } .rows td { overflow-wrap: anywhere; }
  .playing .all .sight:not(.first) { display: grid; }
  .playing .all .event.current { box-shadow: none; }
  .columns > .cell > .label { display: inline-block; margin-bottom: .2rem; } }
"""
# Where there is no room for the labels side by side.
STACK = """.columns, .down { display: block; } .heads { display: none; }
  .columns > .cell { display: grid; grid-template-columns: var(--wide) minmax(0, 1fr); gap: .5rem; align-items: start;
  margin-bottom: .5rem; } .columns > .silent { display: none; }
  .columns > .cell > .label { display: block; text-align: center; } .arrow { text-align: left; margin-top: .4rem; }"""
NARROW = """
@media (max-width: %drem) { %s .intro { display: flex; flex-direction: column; } .stage { padding: .75rem; }
  .lattice { float: none; margin: 1rem 0; order: 1; } .controls output { min-width: 0; } }
@media (max-width: 40rem) { .sight > .cell { grid-template-columns: minmax(0, 1fr); gap: .2rem; }
  .sight > .cell > .label { justify-self: start; } }
@media print and (max-width: %drem) { .playing .all .sight:not(.first) { display: block; } }
"""
PAPER = "\n@media print { .playing .all .sight:not(.first) { display: block; } }\n"
SCRIPT = """
(() => {
  const events = [...document.querySelectorAll('.all .event')];
  const stage = document.querySelector('.stage');
  if (!events.length) return;
  const slider = stage.querySelector('input'), told = stage.querySelector('output');
  const show = stage.querySelector('.shown');
  const heads = document.querySelector('.heads'), known = new Map();
  const states = events.map(event => {
    for (const sight of event.querySelectorAll('.sight')) known.set(sight.dataset.relation, sight);
    return [...known.values()];
  });
  let now = 0;
  function go(to) {
    now = Math.min(Math.max(to, 1), events.length);
    const event = events[now - 1];
    const parts = [...event.children].filter(part => !part.classList.contains('sight'));
    parts.splice(parts.findIndex(part => part.matches('.lines')), 0, heads);
    show.replaceChildren(...[...parts, ...states[now - 1]].map(part => part.cloneNode(true)));
    slider.value = now;
    told.textContent = now + ' of ' + events.length;
    for (const one of events) one.classList.toggle('current', one === event);
  }
  slider.max = events.length;
  slider.addEventListener('input', () => go(Number(slider.value)));
  stage.querySelector('.back').addEventListener('click', () => go(now - 1));
  stage.querySelector('.forth').addEventListener('click', () => go(now + 1));
  events.forEach((event, at) => event.addEventListener('click', () => { if (!String(getSelection())) go(at + 1); }));
  const keys = { ArrowRight: () => now + 1, ArrowLeft: () => now - 1, Home: () => 1, End: () => events.length };
  document.addEventListener('keydown', key => {
    if (key.target === slider || key.ctrlKey || key.altKey || key.metaKey || !keys[key.key]) return;
    key.preventDefault();
    go(keys[key.key]());
  });
  const asked = () => Number((location.hash.match(/^#e(\\d+)$/) || [])[1]);
  const jump = () => { if (asked()) { go(asked()); scrollTo(0, stage.offsetTop - 8); } };
  addEventListener('hashchange', jump);
  // The browser goes to the event below first.
  if (asked()) addEventListener('load', () => setTimeout(jump));
  stage.hidden = false;
  document.body.classList.add('playing');
  go(1);
  jump();
})();
"""


class PlayPage:
    """Lays a story out."""

    def __init__(self, story: Story) -> None:
        self.story, self.labels = story, story.found.upwards()
        self.hues = hues_of(self.labels)
        self.places = {label: place for place, label in enumerate(self.labels, 1)}
        first = " ".join(story.events[0].said) if story.events else ""
        self.file = PurePath(story.title).name
        self.title = first if 0 < len(first) <= MOST_TITLE else self.file
        self.is_stacked = len(self.labels) > MOST_COLUMNS
        self.is_high = lattice.Drawing(story.found).height > MOST_HEIGHT

    def columns(self, cells: list[Html], class_: str = "", relation: str | None = None) -> Html:
        """Cells of all labels, side by side."""
        return tag("div", *cells, class_=f"columns {class_}", data_relation=relation)

    def heads(self) -> Html:
        """The names of the labels above their columns."""
        names = [
            tag("span", label, class_=f"label {self.hues[label]} edge{self.places[label] - 1}") for label in self.labels
        ]
        return tag("div", *names, class_="columns heads", aria_hidden="true")

    def cell(self, label: str, content: Html, is_silent: bool = False) -> Html:
        """What a label is shown."""
        return tag(
            "div", chip(label, self.hues), content, class_=f"cell{' silent' if is_silent else ''}", data_label=label
        )

    def lines(self, event: Event) -> Html:
        """The lines that each label is shown of an event."""
        cells = []
        for label in self.labels:
            lines = event.cells[label]
            cells.append(self.cell(label, tag("pre", printed("\n".join(lines))), not lines))
        return self.columns(cells, "lines")

    def arrows(self, event: Event) -> Html:
        """What the event let down, each as an arrow from the label up to which it may read."""
        told = []
        for high, low, what in event.releases:
            first, last = sorted((self.places[low], self.places[high]))
            words = joined([tag("span", value(what), class_="mono"), f" released from {high} to {low}"])
            told.append(tag("div", words, class_="arrow", style=f"grid-column: {first} / {last + 1}"))
        return tag("div", *told, class_="down") if told else Html("")

    def rows(self, relation: str, sight: Sight) -> Html:
        """A relation as a label sees it."""
        if sight.rows is None:
            return tag("p", f"{relation}: no user of the policy may look here.", class_="none")
        if not sight.rows:
            return tag("p", f"{relation}: no rows.", class_="none")
        heads = [tag("th", name, scope="col") for _, name, *_ in self.story.found.relations[relation]]
        told = []
        for row, is_cover in zip(sight.rows, sight.covers):
            cells = [
                tag("td", value(what), tag("small", label), class_=f"{self.hues.get(label, '')}{broken(what)}".strip())
                for what, label in row.cells
            ]
            cells.append(tag("td", row.label, class_=f"class {self.hues.get(row.label, '')}"))
            told.append(
                tag("tr", *cells, class_="cover" if is_cover else None, title="a cover story" if is_cover else None)
            )
        shown = tag(
            "table", tag("caption", relation), tag("tr", *heads, tag("th", "class", scope="col")), *told, class_="rows"
        )
        return tag("div", shown, class_="scroll")

    def sights(self, event: Event, place: int) -> list[Html]:
        """The relations that some label sees otherwise behind an event; for the stage all behind the first one."""
        told, news = [], changed(self.story.events, place)
        for relation in self.story.found.relations if place == 0 else news:
            seen = event.sights[relation]
            cells = [self.cell(label, self.rows(relation, seen[label])) for label in self.labels]
            told.append(self.columns(cells, "sight" if relation in news else "sight first", relation))
        return told

    def event(self, event: Event, place: int) -> Html:
        """An event: its comments, its command, and what comes of it."""
        who = f"{event.session} ({event.user})" if event.user else event.session
        what = tag(
            "div", tag("a", str(event.number), class_="no", href=f"#e{event.number}"), chip(event.level, self.hues),
            tag("span", who, class_="soft"), tag("code", printed(event.command)), class_="what",
        )
        said = tag(
            "p", " ".join(event.said), class_="said"
        ) if event.said and " ".join(event.said) != self.title else ""
        parts = [said, what, self.lines(event), self.arrows(event), *self.sights(event, place)]
        return tag("section", *parts, class_="event", id=f"e{event.number}")

    def unseen(self) -> Html:
        """Where no user of the policy may look at a relation."""
        found = self.story.found
        events = self.story.events
        seen = events[-1].sights if events else {}
        told = []
        for relation in found.relations:
            blind = [label for label in self.labels if relation in seen and seen[relation][label].rows is None]
            if blind:
                told.append(
                    tag(
                        "li",
                        f"{relation} at ",
                        joined(part for label in blind for part in (chip(label, self.hues), " ")),
                    )
                )
        return joined([tag("p", "No user of the policy may look at"), tag("ul", *told)]) if told else Html("")

    def stage(self) -> Html:
        """Where the events are played, one after the other."""
        controls = tag(
            "div",
            tag("button", "\u2190", class_="back", type="button", aria_label="back"),
            Html('<input type="range" min="1" value="1" aria-label="event">'),
            tag("button", "\u2192", class_="forth", type="button", aria_label="forward"),
            tag("output", ""),
            class_="controls",
        )
        return tag("section", controls, tag("div", class_="shown"), class_="stage", hidden="hidden")

    def intro(self) -> Html:
        """What the page shows, and whose it is."""
        return tag(
            "header",
            *(
                "" if self.is_high else tag("div", lattice.drawn(self.story.found, self.hues), class_="lattice"),
                tag("h1", self.title),
                tag(
                    "p",
                    "Each column is what the program prints for its label, and below it what that label sees of the "
                    "relation. A value stands on the colour of its class. A row that is struck through is a cover "
                    "story: a row of a higher class stands beside it.",
                ),
                tag(
                    "p",
                    f"{self.file}: {len(self.story.events)} events. Whoever gets this page sees what every label sees.",
                    class_="soft",
                ),
                self.unseen(),
            ),
            class_="intro",
        )

    def page(self) -> str:
        """The whole page."""
        events = [self.event(event, place) for place, event in enumerate(self.story.events)]
        body = joined(
            [
                self.intro(),
                self.stage(),
                tag("h2", "All events", style="clear: both"),
                tag("div", self.heads(), *events, class_="all"),
                joined(
                    [tag("h2", "Labels"), lattice.drawn(self.story.found, self.hues)]
                ) if self.is_high else "",
                tag("footer", f"{self.story.version}. Each column is the output of run --at LABEL, line for line."),
            ]
        )
        count = len(self.labels)
        edges = "".join(f".edge{place} {{ --edge: {hue(place, count)}; }}\n" for place in range(count))
        width = 4 + 13 * count
        narrow = STACK + PAPER if self.is_stacked else NARROW % (width, STACK, width)
        wide = min(max(map(len, self.labels)), 14) * 0.5 + 1
        style = f"main {{ --n: {count}; --wide: {wide}rem; }}\n{STYLE}{hue_style(count)}{edges}{narrow}"
        return page(self.title, body, style, SCRIPT)


def broken(what: str) -> str:
    """The class of a value that may be broken within a word."""
    return " long" if max(map(len, what.split(" "))) > MOST_WORD else ""
