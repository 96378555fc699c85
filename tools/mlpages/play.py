"""A script as a story: what each label is shown of each event, and what it then sees, as the program prints it."""

import re
import tempfile
from collections import Counter
from dataclasses import dataclass, field
from pathlib import Path

from .declared import Declared, access, declared
from .program import MOST_BYTES, Program, Refused, read_text
from .replies import Row, by_event, line_of, rows_of

# The time at the front of a line, where one is.
TIME = re.compile(r'\A"[^"]*"[ \t\r]*')


@dataclass
class Sight:
    """What a label sees of a relation: rows, and whether each is a cover story. Nobody may look where it is None."""

    rows: list[Row] | None
    covers: list[bool]


@dataclass
class Event:
    """A command of the script, the comments above it, what each label is shown of it, and what it sees behind it."""

    number: int
    said: list[str]
    level: str
    session: str
    command: str
    user: str = ""
    cells: dict[str, list[str]] = field(default_factory=dict)
    releases: list[tuple[str, str, str]] = field(default_factory=list)
    sights: dict[str, dict[str, Sight]] = field(default_factory=dict)


@dataclass
class Story:
    """A script that was run."""

    title: str
    found: Declared
    events: list[Event]
    version: str


def events_of(text: str) -> tuple[list[str], list[Event]]:
    """The lines of a script's events, and the events, with the comments above them."""
    lines, events, said = [], [], []
    for line in text.split("\n"):
        plain = line.strip(" \t\r")
        if plain.startswith("#"):
            said.append(plain.lstrip("#").strip())
        elif plain:
            level, session, *command = TIME.sub("", plain).split(None, 2)
            events.append(Event(len(events) + 1, said, level, session, command[0] if command else ""))
            lines.append(plain)
            said = []
    return lines, events


def name_users(events: list[Event], groups: list[list[str]]) -> None:
    """Notes whose session each event is of."""
    users: dict[tuple[str, str], str] = {}
    for event, group in zip(events, groups):
        first = line_of(group[0])
        if first.verb == "opened":
            users[event.level, event.session] = first.rest
        event.user = users.get((event.level, event.session), "")


def fill_columns(
    program: Program, found: Declared, words: list[str], full: list[str], groups: list[list[str]], events: list[Event]
) -> None:
    """Lays what `run --at LABEL` prints beside the events: the lines of all labels say which line is of which."""
    if len(groups) != len(events):
        raise Refused(f"the program answered {len(groups)} of {len(events)} events: is this another version of mldb?")
    for label in found.labels:
        column = program.lines("run", "--at", label, *words)
        shown = {line_of(line).label for line in column}
        if column != [line for line in full if line_of(line).label in shown]:
            raise Refused(f"what `run --at {label}` prints is no part of what `run` prints: no page can lay it out")
        for event, group in zip(events, groups):
            event.cells[label] = [line for line in group if line_of(line).label in shown]
    name_users(events, groups)


def ceilings(program: Program, policy: str, schemes: str, transactions: str | None) -> dict[str, str]:
    """The label up to which each transaction may read."""
    if transactions is None:
        return {}
    lines = program.lines("explain", policy, schemes, transactions, statuses=(0, 1))
    found = (re.match(r" +transaction (\w+) levels \w+ to (\w+) \(", line) for line in lines)
    return {one[1]: one[2] for one in found if one}


def fill_releases(highest: dict[str, str], groups: list[list[str]], events: list[Event]) -> None:
    """Notes what each call let down: from which label, to which, and the value."""
    for event, group in zip(events, groups):
        first = line_of(group[0])
        told = [line_of(line) for line in group[1:]]
        event.releases = [(highest[first.rest], line.label, line.rest) for line in told if line.verb == "release"]


class Watch:
    """Views of every relation at every label behind each event, in sessions that the script does not know."""

    def __init__(self, found: Declared, allowed: dict[tuple[str, str], list[str]], text: str) -> None:
        name = next(name for name in ("play", *(f"play{number}_" for number in range(10_000))) if name not in text)
        number = {user.name: place for place, user in enumerate(found.users)}
        places = [
            (relation, label) for relation in found.relations for label in found.labels if allowed[label, relation]
        ]
        opened = {(label, allowed[label, relation][0]): None for relation, label in places}
        self.opens = [f"{label} {name}{number[user]} open {user}" for label, user in opened]
        self.asks = []
        for relation, label in places:
            view = f"{label} {name}{number[allowed[label, relation][0]]} view {relation} at {label}"
            self.asks += [(relation, label, view), (relation, label, f"{view} highest")]

    def chunks(self, lines: list[str]):
        """Parts of the events such that a script with the views behind them is not too long."""
        size = sum(len(line.encode()) + 1 for line in [*self.opens, *lines])
        room, most = MOST_BYTES - size, sum(len(ask) + 1 for _, _, ask in self.asks)
        if room < most:
            raise Refused("the script is too long for views behind its events: split it, or play a part of it")
        step = room // most if most else max(len(lines), 1)
        return [range(first, min(first + step, len(lines))) for first in range(0, len(lines), step)]

    def script(self, lines: list[str], part: range) -> list[str]:
        """The events up to the end of a part, with the views behind those of the part."""
        told = list(self.opens)
        for number, line in enumerate(lines[: part.stop]):
            told += [line, *(ask for _, _, ask in self.asks if number in part)]
        return told

    def take(self, replies, reply_of: list[list[str]], part: range, events: list[Event]) -> None:
        """Takes the views of a part. The events themselves have to be answered as without them."""
        for _ in self.opens:
            next(replies)
        for number, event in enumerate(events[: part.stop]):
            if next(replies) != reply_of[number]:
                raise Refused(
                    f"event {number + 1} is answered otherwise when views stand between: no page can show both"
                )
            for relation, label, _ in self.asks[::2] if number in part else ():
                rows, highest = rows_of(next(replies)), Counter(rows_of(next(replies)))
                event.sights[relation][label] = Sight(rows, [not highest[row] for row in rows])


def fill_sights(
    program: Program,
    found: Declared,
    watch: Watch,
    words: list[str],
    lines: list[str],
    groups: list[list[str]],
    events: list[Event],
) -> None:
    """Looks at every relation as every label sees it, behind each event."""
    for event in events:
        event.sights = {relation: {label: Sight(None, []) for label in found.labels} for relation in found.relations}
    with tempfile.TemporaryDirectory() as folder:
        path = Path(folder) / "script"
        for part in watch.chunks(lines):
            script = watch.script(lines, part)
            path.write_text("".join(f"{line}\n" for line in script), encoding="utf-8", newline="\n")
            replies = iter(by_event(program.lines("run", *words[:-1], str(path)), script))
            watch.take(replies, groups, part, events)


def play(
    program: Program, policy: str, schemes: str, script: str, transactions: str | None, certificates: str | None
) -> Story:
    """Runs a script, for each label, and with views between."""
    options = [
        word
        for name, path in (("--transactions", transactions), ("--certificates", certificates))
        if path
        for word in (name, path)
    ]
    words = [*options, policy, schemes, script]
    full = program.lines("run", *words)
    found = declared(program, policy, schemes)
    text = read_text(script)
    lines, events = events_of(text)
    groups = by_event(full, lines)
    fill_columns(program, found, words, full, groups, events)
    fill_releases(ceilings(program, policy, schemes, transactions), groups, events)
    watch = Watch(found, access(program, [policy, schemes], found).readers, text)
    fill_sights(program, found, watch, words, lines, groups, events)
    return Story(script, found, events, program.version())


def changed(events: list[Event], place: int) -> list[str]:
    """The relations that some label sees otherwise behind an event than before it."""
    event, before = events[place], events[place - 1] if place else None
    empty = {relation: all(not sight.rows for sight in seen.values()) for relation, seen in event.sights.items()}
    return [
        relation
        for relation, seen in event.sights.items()
        if (seen != before.sights[relation] if before else not empty[relation])
    ]
