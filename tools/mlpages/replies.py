"""Reply lines, as the program prints them."""

import re
from typing import NamedTuple

NAME = r"[A-Za-z][A-Za-z0-9_]*"
TEXT = r'"(?:[^"\\]|\\["\\]|\\x[0-9a-f]{2})*"'
VALUE = rf"(?:-?[0-9]+|null|{TEXT})"
CELL = re.compile(rf"({VALUE}) ({NAME}) \| ")
ROW = re.compile(rf"((?:{VALUE} {NAME} \| )+)({NAME})")
# The lines that go on with the reply of the line above them.
FURTHER = {"row", "line", "unread", "emit", "release", "entry"}
UNDONE = {"denied", "refused"}
# A batch behind any time, with a digit for each text.
BATCH = re.compile(r"\s*(?:0\s*)?[^\s#]+\s+[^\s#]+\s+all\s*\{([^}#]*)\}")
QUOTED = re.compile(TEXT)


class Line(NamedTuple):
    """A reply line: the label that may see it, its session, and what it says."""

    label: str
    session: str
    verb: str
    rest: str


class Row(NamedTuple):
    """A row of a view: its values, each with its class, and the class of the row."""

    cells: tuple[tuple[str, str], ...]
    label: str


def line_of(text: str) -> Line:
    """The parts of a reply line."""
    label, session, verb, *rest = text.split(" ", 3)
    return Line(label, session, verb, rest[0] if rest else "")


def replies_of(lines: list[str]) -> list[list[str]]:
    """The lines of each reply: its first one, and those that go on with it."""
    replies: list[list[str]] = []
    for text in lines:
        if line_of(text).verb in FURTHER:
            replies[-1].append(text)
        else:
            replies.append([text])
    return replies


def commands_in(event: str) -> int:
    """How many commands a line of a script has: of a batch each one that is between its braces."""
    found = BATCH.match(QUOTED.sub("0", event))
    return sum(bool(one.strip()) for one in found[1].split(";")) if found else 1


def by_event(lines: list[str], script: list[str]) -> list[list[str]]:
    """The lines of each event of a script. A batch has a reply for each of its commands, unless it is denied or
    refused."""
    replies, events = replies_of(lines), []
    for event in script:
        count = commands_in(event) if replies and line_of(replies[0][0]).verb not in UNDONE else 1
        if replies:
            events.append([line for reply in replies[:count] for line in reply])
        replies = replies[count:]
    return events + replies


def rows_of(reply: list[str]) -> list[Row]:
    """The rows of a view."""
    found = (ROW.fullmatch(line_of(text).rest) for text in reply[1:])
    return [Row(tuple(CELL.findall(row[1])), row[2]) for row in found if row]


def is_view(reply: list[str]) -> bool:
    """Whether a view was shown, and not denied."""
    return line_of(reply[0]).verb == "view"
