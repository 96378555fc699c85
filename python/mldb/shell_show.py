"""How the shell shows rows: tables as wide as the terminal, CSV, JSON, Markdown. Nothing goes that a terminal obeys."""

from __future__ import annotations

import csv
import io
import json
import re
import unicodedata
from collections.abc import Callable, Sequence
from functools import lru_cache

OBEYED = re.compile(
    "[\x00-\x1f\x7f-\x9f\u061c\u180e\u200b-\u200f\u2028-\u202e\u2060-\u206f\ufeff\ufff9-\ufffb\ud800-\udfff"
    "\U000e0000-\U000e007f]"
)
LEAST_WIDTH = 6
Rows = Sequence[Sequence[object]]


def plain(text: str) -> str:
    """The text with each character that a terminal obeys or does not show as `\\x` or `\\u` and its number."""
    return OBEYED.sub(lambda found: shown_by_number(ord(found[0])), text)


def shown_by_number(code: int) -> str:
    """A character by its number, as tables of `mldb` have it."""
    if code < 256:
        return f"\\x{code:02x}"
    return f"\\u{code:04x}" if code < 65536 else f"\\U{code:08x}"


def plain_lines(text: str) -> str:
    """The same of several lines, of which each stays one."""
    return "\n".join(plain(line) for line in text.split("\n"))


@lru_cache(maxsize=4096)
def character_width(character: str) -> int:
    """How many columns a character takes."""
    if unicodedata.category(character) in ("Mn", "Me"):
        return 0
    return 2 if unicodedata.east_asian_width(character) in "WF" else 1


def width(text: str) -> int:
    """How many columns a text takes."""
    return len(text) if text.isascii() else sum(map(character_width, text))


def padded(text: str, columns: int, right: bool) -> str:
    """A text filled up with blanks."""
    blanks = " " * (columns - width(text))
    return blanks + text if right else text + blanks


def wrapped(text: str, columns: int) -> list[str]:
    """A text in pieces of at most so many columns, cut at blanks where there are some."""
    pieces, rest = [], text
    while width(rest) > columns:
        end = cut(rest, columns)
        blank = rest.rfind(" ", 1, end + 1)
        end = blank if blank > end // 2 else end
        pieces.append(rest[:end])
        rest = rest[end:].removeprefix(" ")
    return [*pieces, rest]


def cut(text: str, columns: int) -> int:
    """How many characters of a text fit into so many columns; one at least, with the marks on it."""
    taken = 0
    for place, character in enumerate(text):
        taken += character_width(character)
        if taken > columns and place:
            return place
    return len(text)


def widths_within(wanted: Sequence[int], most: int) -> list[int]:
    """Widths of columns that fit beside one another: the widest ones give way first. Empty where they cannot."""
    room = most - 3 * (len(wanted) - 1)
    if room < sum(min(one, LEAST_WIDTH) for one in wanted):
        return []
    low, high = 1, max([*wanted, 1])
    while low < high:
        middle = (low + high + 1) // 2
        low, high = (middle, high) if sum(min(one, middle) for one in wanted) <= room else (low, middle - 1)
    found = [min(one, low) for one in wanted]
    spare = room - sum(found)
    for place, one in enumerate(wanted):
        more = min(1, one - found[place], spare)
        found[place] += more
        spare -= more
    return found


def cell(value: object, null: str) -> str:
    """A value as it is shown to people."""
    if value is None:
        return null
    if isinstance(value, bytes):
        return "x'" + value.hex() + "'"
    return plain(value) if isinstance(value, str) else str(value)


def table(names: Sequence[str], rows: Rows, null: str, most: int) -> str:
    """Columns beside one another, no wider than `most` (0: as wide as they are); one value a line where need be."""
    heads = [plain(one) for one in names]
    cells = [[cell(value, null) for value in row] for row in rows]
    wanted = [max(width(row[place]) for row in [heads, *cells]) for place in range(len(heads))]
    widths = widths_within(wanted, most) if most else wanted
    if not widths:
        return upright(heads, cells, most)
    rights = [is_numbers([row[place] for row in rows]) for place in range(len(heads))]
    lines = row_lines(heads, widths, [False] * len(heads))
    lines.append("-+-".join("-" * one for one in widths))
    for row in cells:
        lines += row_lines(row, widths, rights)
    return "".join(line + "\n" for line in lines)


def is_numbers(values: Sequence[object]) -> bool:
    """Whether a column has numbers, and nothing else."""
    there = [one for one in values if one is not None]
    return bool(there) and all(isinstance(one, (int, float)) for one in there)


def row_lines(row: Sequence[str], widths: Sequence[int], rights: Sequence[bool]) -> list[str]:
    """The lines of one row."""
    pieces = [wrapped(text, columns) for text, columns in zip(row, widths)]
    lines = []
    for place in range(max(map(len, pieces), default=0)):
        parts = [one[place] if place < len(one) else "" for one in pieces]
        lines.append(" | ".join(map(padded, parts, widths, rights)).rstrip())
    return lines


def upright(heads: Sequence[str], cells: Sequence[Sequence[str]], most: int) -> str:
    """One value a line."""
    front = max(map(width, heads))
    lines = []
    for number, row in enumerate(cells, 1):
        lines.append(f"-- {number} ".ljust(min(most, 40), "-"))
        for head, text in zip(heads, row):
            first, *others = wrapped(text, max(most - front - 3, 1))
            lines.append(f"{padded(head, front, False)} | {first}".rstrip())
            lines += [" " * front + " | " + other for other in others]
    return "".join(line + "\n" for line in lines)


def as_csv(names: Sequence[str], rows: Rows, null: str) -> str:
    """RFC 4180, with a first line of names."""
    text = io.StringIO(newline="")
    out = csv.writer(text, lineterminator="\n")
    out.writerow(names)
    for row in rows:
        out.writerow([null if one is None else one.hex() if isinstance(one, bytes) else one for one in row])
    return text.getvalue()


def as_json(names: Sequence[str], rows: Rows) -> str:
    """A list of objects, one a line; what a terminal obeys is escaped, which is the same value."""
    lines = []
    for row in rows:
        values = {name: one.hex() if isinstance(one, bytes) else one for name, one in zip(distinct(names), row)}
        text = json.dumps(values, ensure_ascii=False)
        lines.append(OBEYED.sub(lambda found: json.dumps(found[0])[1:-1], text))
    return "[" + ",\n ".join(lines) + "]\n"


def distinct(names: Sequence[str]) -> list[str]:
    """Names of which no two are equal: a second `A` becomes `A:2`."""
    found: list[str] = []
    for name in names:
        times = sum(one == name or one.startswith(name + ":") for one in found)
        found.append(f"{name}:{times + 1}" if times else name)
    return found


def as_markdown(names: Sequence[str], rows: Rows, null: str) -> str:
    """A table of Markdown."""
    lines = [names, ["---"] * len(names), *([cell(value, null) for value in row] for row in rows)]
    safe = [[plain(one).replace("\\", "\\\\").replace("|", "\\|") for one in line] for line in lines]
    return "".join("| " + " | ".join(line) + " |\n" for line in safe)


def shown(mode: str, names: Sequence[str], rows: Rows, null: str, most: int) -> str:
    """Rows in one of the modes."""
    makers: dict[str, Callable[[], str]] = {
        "table": lambda: table(names, rows, null, most),
        "csv": lambda: as_csv(names, rows, "" if null == "null" else null),
        "json": lambda: as_json(names, rows),
        "markdown": lambda: as_markdown(names, rows, null),
    }
    return makers[mode]()


MODES = ("table", "csv", "json", "markdown")
