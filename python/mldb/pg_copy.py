"""COPY .. FROM STDIN and TO STDOUT, in text and CSV: the words of the statement, and rows as lines."""

from __future__ import annotations

from collections.abc import Iterator, Sequence
from dataclasses import dataclass, field

from .pg_sql import Token, name_of, text_inside
from .pg_types import Value, written

TEXT_ESCAPES = {"b": "\b", "f": "\f", "n": "\n", "r": "\r", "t": "\t", "v": "\v"}
TEXT_WRITES = {ord("\\"): "\\\\", 8: "\\b", 9: "\\t", 10: "\\n", 11: "\\v", 12: "\\f", 13: "\\r"}


class BadCopy(Exception):
    """A statement or a line of COPY that is refused, with its SQLSTATE and where its word is in the query, from 1."""

    def __init__(self, state: str, text: str, position: int = 0) -> None:
        super().__init__(text)
        self.state, self.position = state, position


@dataclass
class Copy:
    """One COPY statement. `query` has the tokens of `COPY (query) TO`."""

    relation: str = ""
    columns: list[str] = field(default_factory=list)
    query: list[Token] = field(default_factory=list)
    is_from: bool = False
    is_csv: bool = False
    has_header: bool = False
    delimiter: str = ""
    null: str | None = None
    quote: str = '"'
    escape: str = ""

    def finish(self) -> Copy:
        """What is not said has its usual value."""
        self.delimiter = self.delimiter or ("," if self.is_csv else "\t")
        self.null = self.null if self.null is not None else ("" if self.is_csv else "\\N")
        self.escape = self.escape or self.quote
        if len(self.delimiter) != 1 or len(self.quote) != 1 or len(self.escape) != 1 or self.delimiter in "\r\n\\":
            raise BadCopy("22023", "DELIMITER, QUOTE and ESCAPE are one character each")
        return self


class Reader:
    """The words of a COPY statement, from the front."""

    def __init__(self, tokens: Sequence[Token]) -> None:
        self.tokens, self.at = tokens, 0

    def low(self) -> str:
        """The next word, as key words are compared; empty at the end."""
        return self.tokens[self.at].low if self.at < len(self.tokens) else ""

    def take(self) -> Token:
        """The next word."""
        if self.at >= len(self.tokens):
            last = self.tokens[-1]
            raise BadCopy("42601", "COPY ends too soon", last.at + len(last.text))
        self.at += 1
        return self.tokens[self.at - 1]

    def found(self, word: str) -> bool:
        """Whether the next word is this one; then it is taken."""
        is_there = self.low() == word
        self.at += is_there
        return is_there

    def refuse(self, wanted: str) -> BadCopy:
        """The next word is none that can stand there."""
        token = self.tokens[min(self.at, len(self.tokens) - 1)]
        return BadCopy("42601", f"COPY: {token.text!r} stands where {wanted} is wanted", token.at + 1)

    def name(self) -> str:
        """A name of a relation or a column."""
        found = name_of(self.tokens[self.at]) if self.at < len(self.tokens) else None
        if found is None:
            raise self.refuse("a name")
        self.at += 1
        return found

    def inside(self) -> list[Token]:
        """The tokens up to the parenthesis that closes the one that was taken."""
        depth, found = 1, []
        while depth:
            one = self.take()
            depth += (one.text == "(") - (one.text == ")")
            found.append(one)
        return found[:-1]


def copy_of(tokens: Sequence[Token]) -> Copy:
    """A COPY statement as it is meant."""
    words, copy = Reader(tokens), Copy()
    words.take()
    if words.found("("):
        copy.query = words.inside()
    else:
        copy.relation = words.name()
        if copy.relation.lower() == "public" and words.found("."):
            copy.relation = words.name()
        if words.found("("):
            copy.columns = [found for one in words.inside() if one.text != "," and (found := name_of(one)) is not None]
    copy.is_from = words.found("from")
    if not copy.is_from and not words.found("to") or copy.is_from and copy.query:
        raise words.refuse("TO" if copy.query else "FROM or TO")
    if words.low() not in ("stdin", "stdout"):
        text = "COPY goes by STDIN and STDOUT alone: \\copy of psql takes a file of yours"
        raise BadCopy("0A000", text, words.tokens[words.at - 1].at + 1)
    words.take()
    words.found("with")
    options(words, copy)
    return copy.finish()


def options(words: Reader, copy: Copy) -> None:
    """Both forms: `(FORMAT csv, HEADER true)` and `CSV HEADER DELIMITER ';'`."""
    in_list = words.found("(")
    while words.low() and not (in_list and words.found(")")):
        option(words, copy)
        if in_list and not words.found(",") and words.low() != ")":
            raise words.refuse("a comma or )")
    if words.low():
        raise words.refuse("the end")


def option(words: Reader, copy: Copy) -> None:
    """One option."""
    if words.found("format"):
        copy.is_csv = words.low() == "csv"
        if words.take().low not in ("csv", "text"):
            raise BadCopy("0A000", "COPY: the formats are text and csv", words.tokens[words.at - 1].at + 1)
    elif words.found("csv"):
        copy.is_csv = True
    elif words.found("header"):
        copy.has_header = words.low() not in ("false", "off", "0")
        if words.low() in ("true", "on", "1", "false", "off", "0", "match"):
            words.take()
    elif words.low() in ("delimiter", "null", "quote", "escape"):
        name = words.take().low
        words.found("as")
        setattr(copy, name, text_inside(words.take()))
    elif words.found("encoding"):
        if text_inside(words.take()).lower().replace("-", "") not in ("utf8", "unicode"):
            raise BadCopy("0A000", "COPY: the encoding is UTF8", words.tokens[words.at - 1].at + 1)
    else:
        raise words.refuse("an option of COPY")


Cells = list[str | None]


def lines_of(copy: Copy, data: str) -> Iterator[tuple[int, Cells]]:
    """The rows of what a client sent, each with the number of its first line; without a header."""
    rows = csv_rows(copy, data) if copy.is_csv else text_rows(copy, data)
    for place, one in enumerate(rows):
        if place or not copy.has_header:
            yield one


def text_rows(copy: Copy, data: str) -> Iterator[tuple[int, Cells]]:
    """Rows in text: cells between delimiters, with backslashes."""
    lines = data.split("\n")
    if lines and not lines[-1]:
        lines.pop()
    for number, line in enumerate(lines, 1):
        line = line.removesuffix("\r")
        if line == "\\.":
            return
        yield number, [None if one == copy.null else unescaped(one) for one in text_cells(line, copy.delimiter)]


def text_cells(line: str, delimiter: str) -> list[str]:
    """The cells of a line; a delimiter behind a backslash belongs to its cell."""
    if "\\" not in line:
        return line.split(delimiter)
    cells, start, at = [], 0, 0
    while at < len(line):
        if line[at] == "\\":
            at += 1
        elif line[at] == delimiter:
            cells.append(line[start:at])
            start = at + 1
        at += 1
    return [*cells, line[start:]]


def unescaped(cell: str) -> str:
    """A cell in text without its backslashes."""
    if "\\" not in cell:
        return cell
    out, at = [], 0
    while at < len(cell):
        if cell[at] != "\\" or at + 1 == len(cell):
            out.append(cell[at])
            at += 1
            continue
        letter, at = cell[at + 1], at + 2
        base, most = (16, 2) if letter == "x" else (8, 2)
        size = number_size(cell, at, base, most)
        if letter == "x" and size or letter in "01234567":
            front = "" if letter == "x" else letter
            out.append(chr(int(front + cell[at : at + size], base)))
            at += size
        else:
            out.append(TEXT_ESCAPES.get(letter, letter))
    return "".join(out)


def number_size(cell: str, at: int, base: int, most: int) -> int:
    """How many digits of a base stand there, at most so many."""
    digits = "0123456789abcdef"[:base]
    size = 0
    while size < most and at + size < len(cell) and cell[at + size].lower() in digits:
        size += 1
    return size


def csv_rows(copy: Copy, data: str) -> Iterator[tuple[int, Cells]]:
    """Rows of CSV: an empty cell without quotes is null, one with quotes is an empty text."""
    at, number = 0, 1
    while at < len(data):
        if data.startswith("\\.\n", at) or data[at:] == "\\.":
            return
        cells: Cells = []
        start = at
        while True:
            cell, at = csv_cell(copy, data, at, number)
            cells.append(cell)
            if not data.startswith(copy.delimiter, at):
                break
            at += 1
        end = 2 if data.startswith("\r\n", at) else 1
        if at < len(data) and data[at] not in "\r\n":
            raise BadCopy("22P04", f"line {number}: characters behind a closing quote")
        at += end
        yield number, cells
        number += max(data.count("\n", start, at), 1)


def csv_cell(copy: Copy, data: str, at: int, number: int) -> tuple[str | None, int]:
    """The cell that begins at `at`, and where it ends."""
    if not data.startswith(copy.quote, at):
        end = at
        while end < len(data) and data[end] not in "\r\n" and data[end] != copy.delimiter:
            end += 1
        cell = data[at:end]
        return None if cell == copy.null else cell, end
    out, at = [], at + 1
    while at < len(data):
        one, follows = data[at], data[at + 1 : at + 2]
        if one == copy.escape and follows and follows in (copy.quote, copy.escape):
            out.append(follows)
            at += 2
        elif one == copy.quote:
            return "".join(out), at + 1
        else:
            out.append(one)
            at += 1
    raise BadCopy("22P04", f"line {number}: a quoted cell does not end")


def line_for(copy: Copy, values: Sequence[Value | object]) -> bytes:
    """A row as a client reads it."""
    cells = [cell_for(copy, one) for one in values]
    return (copy.delimiter.join(cells) + "\n").encode(errors="backslashreplace")


def cell_for(copy: Copy, value: object) -> str:
    """A value as a cell."""
    if value is None:
        return copy.null or ""
    text = written(value)
    if not copy.is_csv:
        text = text.translate(TEXT_WRITES)
        return text if copy.delimiter == "\t" else text.replace(copy.delimiter, "\\" + copy.delimiter)
    if text != copy.null and text != "\\." and not any(one in text for one in (copy.delimiter, copy.quote, "\n", "\r")):
        return text
    inside = text.replace(copy.escape, copy.escape * 2) if copy.escape != copy.quote else text
    return copy.quote + inside.replace(copy.quote, copy.escape + copy.quote) + copy.quote
