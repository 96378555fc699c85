"""Values: what mldb can hold, how a line spells it, and the constructors and types of PEP 249."""

import datetime
import math
import re
import time
from collections.abc import Mapping, Sequence

from mldb.errors import DataError, ProgrammingError

TEXT_BYTES = 8192
LEAST, MOST = -(1 << 63), (1 << 63) - 1
CONTROL = re.compile(r"[\x00-\x1f\x7f]")
ESCAPE = re.compile(r'\\(["\\]|x[0-9a-f]{2})')

Value = int | str | None


def _number(value: int) -> str:
    if not LEAST <= value <= MOST:
        raise DataError(f"{value}: a number has at most 64 bits, with its sign")
    return str(value)


def _text(value: str) -> str:
    size = len(value) if value.isascii() else encoded_size(value)
    if size > TEXT_BYTES:
        raise DataError(f"{value[:20]!r}..: {size} bytes: a text has at most {TEXT_BYTES}")
    return '"' + CONTROL.sub(_escape, value.replace("\\", "\\\\").replace('"', '\\"')) + '"'


def _escape(found: re.Match[str]) -> str:
    return f"\\x{ord(found[0]):02x}"


def encoded_size(value: str) -> int:
    """The bytes of a text, which is refused where it has half a character."""
    try:
        return len(value.encode())
    except UnicodeEncodeError as fault:
        raise DataError(f"{value!r}: half a character, which is no UTF-8") from fault


def spelt(value: object, kind: str | None = None, name: str = "a value") -> str:
    """A value as a line has it. One that the kind does not have is refused, by the name of its attribute."""
    if value is None:
        return "null"
    if isinstance(value, int) and kind != "text":
        return _number(int(value))
    if isinstance(value, str) and kind != "int":
        return _text(value)
    if isinstance(value, (datetime.date, datetime.time)) and kind != "int":
        return _text(dated(value))
    raise DataError(f"{name}: {value!r} is no {kind or 'whole number, text, date or None'}")


def parameter(value: object, is_written: bool) -> object:
    """A parameter as SQLite takes it. What no value can be is refused; a fraction only where the statement writes."""
    if value is None:
        return None
    if isinstance(value, str):
        if not value.isascii():
            encoded_size(value)
        return value
    if isinstance(value, int):
        _number(int(value))
        return int(value)
    if isinstance(value, (datetime.date, datetime.time)):
        return dated(value)
    if isinstance(value, float) and not is_written and math.isfinite(value):
        return value
    told = "a parameter is a whole number, a text, a date or None, and a fraction only of a SELECT"
    raise DataError(f"{value!r}: {told}")


def parameters(given: Sequence | Mapping, is_written: bool) -> Sequence | Mapping:
    """The parameters of a statement as SQLite takes them."""
    if not isinstance(given, (tuple, list)) and isinstance(given, Mapping):
        return {name: parameter(value, is_written) for name, value in given.items()}
    if not isinstance(given, (tuple, list)) and (isinstance(given, (str, bytes)) or not isinstance(given, Sequence)):
        raise ProgrammingError(f"{given!r}: parameters are a sequence, one for each `?`")
    return [parameter(value, is_written) for value in given]


def dated(value: datetime.date | datetime.time) -> str:
    """A date or a time as SQLite's own functions write it, which is ISO 8601 with a blank between."""
    return value.isoformat(" ") if isinstance(value, datetime.datetime) else value.isoformat()


def read(told: str) -> Value:
    """A value that mldb printed."""
    if told == "null":
        return None
    if not told.startswith('"'):
        return int(told)
    return unescaped(told[1:-1])


def _character(found: re.Match) -> str:
    return found[1] if len(found[1]) == 1 else chr(int(found[1][1:], 16))


def unescaped(inside: str) -> str:
    """A text of which the inside of the quotes was printed."""
    return ESCAPE.sub(_character, inside) if "\\" in inside else inside


class Type:
    """A type of PEP 249: what `description` has, which is equal to itself alone."""

    def __init__(self, name: str):
        self.name = name

    def __repr__(self) -> str:
        return f"mldb.{self.name}"


STRING, BINARY, NUMBER, DATETIME, ROWID = (Type(name) for name in ("STRING", "BINARY", "NUMBER", "DATETIME", "ROWID"))

Date = datetime.date
Time = datetime.time
Timestamp = datetime.datetime


def DateFromTicks(ticks: float) -> datetime.date:  # noqa: N802 (the name is the standard's)
    """The date of a number of seconds since the epoch, in local time."""
    return Date(*time.localtime(ticks)[:3])


def TimeFromTicks(ticks: float) -> datetime.time:  # noqa: N802
    """The time of day of a number of seconds since the epoch, in local time."""
    return Time(*time.localtime(ticks)[3:6])


def TimestampFromTicks(ticks: float) -> datetime.datetime:  # noqa: N802
    """Date and time of a number of seconds since the epoch, in local time."""
    return Timestamp(*time.localtime(ticks)[:6])


def Binary(value: bytes) -> bytes:  # noqa: N802
    """Bytes, which mldb cannot hold: a statement that is given them raises DataError."""
    return bytes(value)
