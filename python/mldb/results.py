"""What a statement found: the types of its columns, and dates where a column's name asks for them."""

import datetime
import re
from collections.abc import Callable, Mapping, Sequence

from mldb.errors import DataError
from mldb.values import BINARY, DATETIME, NUMBER, STRING, Type

ASKED = re.compile(r"(.*?) ?\[(\w+)\]\Z", re.DOTALL)
READERS: dict[str, Callable] = {
    "date": datetime.date.fromisoformat,
    "time": datetime.time.fromisoformat,
    "datetime": datetime.datetime.fromisoformat,
    "timestamp": datetime.datetime.fromisoformat,
}
KINDS = {"int": NUMBER, "text": STRING}
TYPES = {int: NUMBER, float: NUMBER, str: STRING, bytes: BINARY}


def described(names: Sequence[str], rows: list[tuple], kinds: Mapping[str, str]) -> tuple[list[tuple], list[tuple]]:
    """The description of columns, and their rows. A column `AS "Due [date]"` is Due, and has dates."""
    told: list[tuple] = []
    readers: dict[int, Callable] = {}
    for at, name in enumerate(names):
        asked = ASKED.match(name)
        if asked and asked[2].lower() in READERS:
            readers[at] = READERS[asked[2].lower()]
            told.append((asked[1], DATETIME, None, None, None, None, None))
        else:
            told.append((name, _type(name, at, rows, kinds), None, None, None, None, None))
    return told, [_dated(row, readers) for row in rows] if readers else rows


def _type(name: str, at: int, rows: Sequence[tuple], kinds: Mapping[str, str]) -> Type:
    """The type of a column: of its first value, or else of the attribute that has its name."""
    first = next((row[at] for row in rows if row[at] is not None), None)
    return KINDS[kinds.get(name, "text")] if first is None else TYPES[type(first)]


def _dated(row: tuple, readers: Mapping[int, Callable]) -> tuple:
    cells = list(row)
    for at, read in readers.items():
        if cells[at] is not None:
            try:
                cells[at] = read(cells[at])
            except (ValueError, TypeError) as fault:
                raise DataError(f"{cells[at]!r}: no date or time of ISO 8601") from fault
    return tuple(cells)
