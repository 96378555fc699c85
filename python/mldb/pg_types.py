"""Values as the protocol of PostgreSQL carries them: `int8` and `text`, and what else is sent or summed."""

from __future__ import annotations

import struct
from collections.abc import Callable, Iterable, Sequence

BOOL, BYTEA, NAME, INT8, INT2, INT4, TEXT, OID = 16, 17, 19, 20, 21, 23, 25, 26
FLOAT4, FLOAT8, UNKNOWN, BPCHAR, VARCHAR = 700, 701, 705, 1042, 1043
DATE, TIMESTAMP, TIMESTAMPTZ, NUMERIC = 1082, 1114, 1184, 1700
WHOLE = {INT2: "!h", INT4: "!i", INT8: "!q", OID: "!I"}
FRACTIONS = {FLOAT4: "!f", FLOAT8: "!d"}
TEXTS = {TEXT, VARCHAR, BPCHAR, NAME, UNKNOWN}
TEXTS_ALONE = {DATE, TIMESTAMP, TIMESTAMPTZ}
SIZES = {BOOL: 1, INT2: 2, INT4: 4, INT8: 8, OID: 4, FLOAT4: 4, FLOAT8: 8}
TRUE, FALSE = {"t", "true", "y", "yes", "on", "1"}, {"f", "false", "n", "no", "off", "0"}
KINDS = {"int": INT8, "text": TEXT}
Value = int | float | str | bytes | None


class BadValue(Exception):
    """A parameter or a value that cannot be carried, with its SQLSTATE."""

    def __init__(self, state: str, text: str) -> None:
        super().__init__(text)
        self.state = state


def parameter(data: bytes | None, type_oid: int, is_binary: bool) -> Value:
    """A parameter as the module takes it."""
    if data is None:
        return None
    return from_binary(data, type_oid) if is_binary else from_text(data, type_oid)


def from_binary(data: bytes, type_oid: int) -> Value:
    """A parameter in binary: whole numbers, fractions, booleans, texts; all others are refused."""
    if type_oid in TEXTS:
        return utf8(data)
    form = "!?" if type_oid == BOOL else WHOLE.get(type_oid) or FRACTIONS.get(type_oid)
    if form is None:
        raise BadValue("0A000", f"a parameter of type {type_oid} in binary: send it as text")
    try:
        found = struct.unpack(form, data)[0]
    except struct.error as fault:
        raise BadValue("22P03", f"a parameter of type {type_oid} in binary has {len(data)} bytes") from fault
    return int(found) if type_oid == BOOL else found


def utf8(data: bytes) -> str:
    """A text of a client."""
    try:
        return data.decode()
    except UnicodeDecodeError as fault:
        raise BadValue("22021", f"bytes that are not UTF-8 ({fault.reason})") from fault


def from_text(data: bytes, type_oid: int) -> Value:
    """A parameter in text."""
    text = utf8(data)
    if type_oid in WHOLE:
        return whole(text)
    if type_oid in FRACTIONS or type_oid == NUMERIC:
        return fraction(text)
    if type_oid == BOOL:
        word = text.strip().lower()
        if word not in TRUE | FALSE:
            raise BadValue("22P02", f"no boolean: {text!r}")
        return int(word in TRUE)
    if type_oid in TEXTS | TEXTS_ALONE or type_oid == 0:
        return text
    raise BadValue("0A000", f"a parameter of type {type_oid}: there are whole numbers and texts")


def whole(text: str) -> int:
    """A whole number within 64 signed bits."""
    word = text.strip()
    if not word.lstrip("+-").isascii() or not word.lstrip("+-").isdigit() or len(word) > 40:
        raise BadValue("22P02", f"no whole number: {text!r}")
    found = int(word)
    if not -(1 << 63) <= found < 1 << 63:
        raise BadValue("22003", f"beyond 64 signed bits: {word}")
    return found


def fraction(text: str) -> Value:
    """A number; one without a fraction is a whole one."""
    try:
        return whole(text) if text.strip().lstrip("+-").isdigit() else float(text)
    except ValueError as fault:
        raise BadValue("22P02", f"no number: {text!r}") from fault


def type_of(values: Iterable[object]) -> int:
    """The type of a column that has these values: what all of them are, and text where they differ or there is none."""
    kinds = {type(one) for one in values if one is not None}
    if kinds == {int}:
        return INT8
    if kinds and kinds <= {int, float}:
        return FLOAT8
    return BYTEA if kinds == {bytes} else TEXT


def types_of(rows: Sequence[Sequence[object]], count: int) -> list[int]:
    """The type of each of `count` columns."""
    return [type_of(row[column] for row in rows) for column in range(count)]


def suits(value: object, type_oid: int) -> bool:
    """Whether a client that was told this type can read the value; as text all can be read."""
    if value is None or type_oid == TEXT:
        return True
    if type_oid == INT8:
        return isinstance(value, int)
    return isinstance(value, (int, float)) if type_oid == FLOAT8 else isinstance(value, bytes)


def written(value: object) -> str:
    """A value in text."""
    if isinstance(value, bytes):
        return "\\x" + value.hex()
    if isinstance(value, float):
        return {"inf": "Infinity", "-inf": "-Infinity", "nan": "NaN"}.get(repr(value), repr(value))
    return str(int(value)) if isinstance(value, bool) else str(value)


def carried(value: object, type_oid: int, is_binary: bool) -> bytes | None:
    """A value of a row as bytes; None is null."""
    if value is None:
        return None
    if not suits(value, type_oid):
        text = f"{written(value)[:40]!r} in a column that was told as a number: write CAST(.. AS TEXT)"
        raise BadValue("42804", text)
    if not is_binary or type_oid == TEXT:
        return written(value).encode(errors="backslashreplace")
    if type_oid == BYTEA:
        return value if isinstance(value, bytes) else b""
    pack: Callable[[object], bytes] = lambda one: struct.pack("!q" if type_oid == INT8 else "!d", one)
    return pack(value)
