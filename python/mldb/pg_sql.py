"""SQL as clients of PostgreSQL write it, told as SQLite reads it: tokens, `$1`, `::type`, `E''`, and places of faults.

Nothing is parsed but tokens: what SQLite does not know stays as it is, and SQLite says so."""

from __future__ import annotations

import re
import sqlite3
from collections.abc import Iterable, Iterator, Mapping, Sequence
from dataclasses import dataclass, replace

TOKEN = re.compile(
    r"""(?P<blank>\s+|--[^\n]*)
    | (?P<remark>/\*)
    | (?P<escaped>[eE]'(?:[^'\\]|\\.|'')*')
    | (?P<text>'(?:[^']|'')*')
    | (?P<dollar>\$(?P<tag>(?:[^\W\d]\w*)?)\$.*?\$(?P=tag)\$)
    | (?P<parameter>\$[0-9]+)
    | (?P<quoted>"(?:[^"]|"")*")
    | (?P<word>[^\W\d][\w$]*)
    | (?P<number>[0-9]+(?:\.[0-9]*)?(?:[eE][+-]?[0-9]+)?|\.[0-9]+)
    | (?P<cast>::)
    | (?P<sign><=|>=|<>|!=|\|\||!~\*|!~|~\*|->>|->|.)""",
    re.VERBOSE | re.DOTALL,
)
ESCAPE = re.compile(r"\\(?:x([0-9a-fA-F]{1,2})|u([0-9a-fA-F]{4})|U([0-9a-fA-F]{8})|([0-7]{1,3})|(.))", re.DOTALL)
LETTERS = {"b": "\b", "f": "\f", "n": "\n", "r": "\r", "t": "\t"}
TYPES = {
    **dict.fromkeys(["text", "varchar", "char", "bpchar", "name", "character", "unknown"], "TEXT"),
    **dict.fromkeys("int int2 int4 int8 integer bigint smallint oid bool boolean".split(), "INTEGER"),
    **dict.fromkeys(["float4", "float8", "real", "double", "numeric", "decimal"], "REAL"),
}
ENDS_CASE: dict[str, set[str]] = {"varying": {"character"}, "precision": {"double"}, "time": set()}
WORDS = {"current_catalog", "current_user", "session_user", "user", "current_role", "current_schema"}
DROPPED = {"public", "pg_catalog"}
NO_FUNCTIONS = set(
    """select where and or not in on by having values when then else as from limit offset case distinct all between like
    set""".split()
)
COMPARES = ("=", "<", ">", "<=", ">=", "<>", "!=")
MAIN_VERBS = ("select", "insert", "update", "delete", "values", "replace")


@dataclass(frozen=True)
class Token:
    """A word of SQL: its kind in TOKEN, its text, and where it begins."""

    kind: str
    text: str
    at: int

    @property
    def low(self) -> str:
        """The text as key words and bare names are compared."""
        return self.text.lower()


@dataclass(frozen=True)
class Piece:
    """Text for SQLite, and where in the client's query it comes from."""

    text: str
    at: int
    spaced: bool = True


class Unclosed(Exception):
    """A text, name or remark without its end."""

    def __init__(self, what: str, at: int) -> None:
        super().__init__(f"{what} is not closed")
        self.at = at


def remark_end(sql: str, at: int) -> int:
    """Where the remark that begins at `at` ends; remarks may be inside one another."""
    depth = 0
    for found in re.compile(r"/\*|\*/").finditer(sql, at):
        depth += 1 if found[0] == "/*" else -1
        if depth == 0:
            return found.end()
    raise Unclosed("a remark", at)


def tokens_of(sql: str) -> Iterator[Token]:
    """The tokens of a query, without blanks and remarks."""
    at = 0
    while at < len(sql):
        found = TOKEN.match(sql, at)
        assert found and found.lastgroup
        kind = "dollar" if found.lastgroup == "tag" else found.lastgroup
        if kind == "remark":
            at = remark_end(sql, at)
            continue
        if kind == "sign" and found[0] in "'\"":
            raise Unclosed("a text" if found[0] == "'" else "a name", at)
        if kind != "blank":
            yield Token(kind, found[0], at)
        at = found.end()


def statements_of(sql: str) -> list[list[Token]]:
    """The statements of a query, without their semicolons; empty ones are left out."""
    found: list[list[Token]] = [[]]
    for one in tokens_of(sql):
        if one.text == ";":
            found.append([])
        else:
            found[-1].append(one)
    return [one for one in found if one]


def text_inside(token: Token) -> str:
    """The characters that a text or a quoted name stands for."""
    if token.kind == "dollar":
        size = token.text.index("$", 1) + 1
        return token.text[size:-size]
    if token.kind == "quoted":
        return token.text[1:-1].replace('""', '"')
    if token.kind == "escaped":
        return ESCAPE.sub(escaped, token.text[2:-1].replace("''", "'"))
    return token.text[1:-1].replace("''", "'") if token.kind == "text" else token.text


def escaped(found: re.Match[str]) -> str:
    """What an escape of `E''` stands for."""
    for place, base in ((1, 16), (2, 16), (3, 16), (4, 8)):
        if found[place]:
            return chr(min(int(found[place], base), 0x10FFFF))
    return LETTERS.get(found[5], found[5])


def quoted(text: str) -> str:
    """A text as SQL has it."""
    return "'" + text.replace("'", "''") + "'"


def literal_of(kind: str, text: str) -> str | None:
    """A literal of a type that no CAST of SQLite makes: bytes, and a time of day behind a date as the module has it."""
    if kind == "bytea" and (found := re.fullmatch(r"'\\x((?:[0-9a-fA-F]{2})*)'", text)):
        return f"X'{found[1]}'"
    if kind in ("timestamp", "timestamptz") and re.fullmatch(r"'[0-9]{4}-[0-9]{2}-[0-9]{2}T[^']*'", text):
        return text.replace("T", " ", 1)
    return None


def name_of(token: Token) -> str | None:
    """The name that a token is, if it can be one."""
    return text_inside(token) if token.kind in ("word", "quoted") else None


class Translation:
    """One statement for SQLite, with the way back to the client's text. `order` has the parameter of each `?`."""

    def __init__(self, tokens: Sequence[Token], values: Mapping[str, str], of_catalog: bool = False) -> None:
        self.tokens, self.values, self.of_catalog = tokens, values, of_catalog
        self.pieces: list[Piece] = []
        self.order: list[int] = []
        self.at = self.end = 0
        self.parameters = max((int(one.text[1:]) for one in tokens if one.kind == "parameter"), default=0)
        while self.at < len(tokens):
            self.step(tokens[self.at])

    @property
    def sql(self) -> str:
        """The text for SQLite."""
        return told(self.pieces)

    def peek(self, ahead: int = 1) -> str:
        """The token that stands so far ahead, as key words are compared; empty behind the end."""
        place = self.at + ahead
        return self.tokens[place].low if place < len(self.tokens) else ""

    def put(self, text: str, token: Token, taken: int = 1) -> None:
        """A piece that stands for `taken` tokens from here."""
        self.pieces.append(Piece(text, token.at, token.at != self.end))
        self.at += taken
        last = self.tokens[self.at - 1]
        self.end = last.at + len(last.text)

    def step(self, token: Token) -> None:
        """The next token, with those that belong to it."""
        if token.kind == "cast":
            self.cast(token)
        elif token.kind == "parameter":
            self.order.append(int(token.text[1:]))
            self.put("?", token)
        elif token.kind in ("escaped", "dollar"):
            self.put(quoted(text_inside(token)), token)
        elif token.kind == "word":
            self.word(token)
        elif token.low in ("~", "!~", "~*", "!~*"):
            self.put(" NOT REGEXP " if token.text[0] == "!" else " REGEXP ", token)
        else:
            self.put(token.text, token)

    def word(self, token: Token) -> None:
        """A bare word: a qualifier that SQLite has not, a value of the session, a spelling of PostgreSQL."""
        follows = self.peek()
        if token.low in DROPPED and follows == ".":
            self.at += 2
        elif token.low == "operator" and follows == "(":
            self.operator()
        elif token.low == "array" and follows == "(" and self.of_catalog:
            self.put("NULL", token, self.size_inside(1) + 1)
        elif token.low == "collate" and follows == "pg_catalog":
            self.at += 4
        elif token.low == "ilike":
            self.put("LIKE", token)
        elif token.low == "now" and follows == "(":
            self.put("CURRENT_TIMESTAMP", token, 3)
        elif token.low in self.values and (token.low in WORDS or follows == "(") and not self.behind_dot():
            self.put(quoted(self.values[token.low]), token, 3 if follows == "(" else 1)
        elif token.low in ("date", "timestamp") and follows.startswith("'"):
            self.at += 1
        else:
            self.put(token.text, token)

    def operator(self) -> None:
        """`OPERATOR(pg_catalog.~)`."""
        self.at += 2
        while self.peek(1) == ".":
            self.at += 2
        if self.at < len(self.tokens):
            self.step(self.tokens[self.at])
        self.at += self.peek(0) == ")"

    def size_inside(self, ahead: int) -> int:
        """How many tokens there are from a parenthesis up to the one that closes it."""
        depth = 0
        for place in range(self.at + ahead, len(self.tokens)):
            depth += (self.tokens[place].text == "(") - (self.tokens[place].text == ")")
            if depth == 0:
                return place - self.at - ahead + 1
        return len(self.tokens) - self.at - ahead

    def behind_dot(self) -> bool:
        """Whether this token is the second part of a name."""
        return self.at > 0 and self.tokens[self.at - 1].text == "."

    def cast(self, token: Token) -> None:
        """`X::type`: X is a literal, a name, a call or a thing in parentheses, and has been put already."""
        self.at += 1
        while self.peek(1) == ".":
            self.at += 2
        name = self.peek(0)
        self.at += 1
        if self.peek(0) in ENDS_CASE and name in ENDS_CASE[self.peek(0)]:
            self.at += 1
        if self.peek(0) == "(":
            self.at += self.size_inside(0)
        while self.peek(0) == "[" or self.peek(0) == "]":
            self.at += 1
        known = TYPES.get(name.strip('"'))
        if self.pieces and (made := literal_of(name, self.pieces[-1].text)):
            self.pieces[-1] = replace(self.pieces[-1], text=made)
        elif known and self.pieces:
            place = self.primary()
            self.pieces.insert(place, Piece("CAST(", self.pieces[place].at, self.pieces[place].spaced))
            self.pieces.append(Piece(f"AS {known})", token.at))

    def primary(self) -> int:
        """The piece with which the operand of a cast begins."""
        place = len(self.pieces) - 1
        if self.pieces[place].text.endswith(")"):
            depth = 0
            while place >= 0:
                text = self.pieces[place].text
                depth += text.count(")") * (text in (")",) or text.endswith(")") and text.startswith("AS "))
                depth -= text in ("(", "CAST(")
                if depth <= 0:
                    break
                place -= 1
            place = max(place, 0)
            before = self.pieces[place - 1].text if place else ""
            is_call = re.fullmatch(r"[^\W\d]\w*", before) and before.lower() not in NO_FUNCTIONS
            place -= self.pieces[place].text == "(" and bool(is_call)
        while place >= 2 and self.pieces[place - 1].text == ".":
            place -= 2
        return place

    def origin(self, fault: str) -> int:
        """Where in the client's query SQLite's fault is, from 1; 0 where that is not known."""
        if found := re.match(r'near "(.*)": syntax error', fault, re.DOTALL):
            return self.place_of_syntax(found[1])
        if fault.startswith("incomplete input") and self.tokens:
            return self.tokens[-1].at + len(self.tokens[-1].text) + 1
        if found := re.match(r"(?:no such|ambiguous) \w+(?: name)?: (\S+)", fault):
            return self.place_of_name(found[1].lower().split("."))
        return 0

    def place_of_name(self, parts: Sequence[str]) -> int:
        """Where a name of one or two parts stands first; its last part where the whole does not."""
        names = [(name_of(one) or one.text).lower() for one in self.tokens]
        wanted = [word for part in parts for word in (part, ".")][:-1]
        for place, one in enumerate(self.tokens):
            if names[place : place + len(wanted)] == wanted:
                return one.at + 1
        return self.place_of_name(parts[1:]) if len(parts) > 1 else 0

    def place_of_syntax(self, text: str) -> int:
        """The first place at which the statement up to there has that fault already."""
        with_text = [place for place, one in enumerate(self.pieces) if text and text in one.text]
        base = sqlite3.connect(":memory:")
        try:
            for place in with_text:
                if f'near "{text}"' in fault_of(base, told(self.pieces[: place + 1])):
                    return self.pieces[place].at + 1
        finally:
            base.close()
        return 0


def told(pieces: Iterable[Piece]) -> str:
    """Pieces as one text, with blanks where the client had some."""
    return "".join(" " * one.spaced + one.text for one in pieces).lstrip()


def fault_of(base: sqlite3.Connection, sql: str) -> str:
    """What SQLite says of a statement that is not to be done."""
    try:
        base.execute("EXPLAIN " + sql)
    except (sqlite3.Error, sqlite3.Warning) as fault:
        return str(fault)
    return ""


def verb_of(tokens: Sequence[Token]) -> str:
    """The key word that says what a statement does; behind WITH that of its last part."""
    depth = 0
    for one in tokens:
        depth += (one.text == "(") - (one.text == ")")
        if depth == 0 and one.kind == "word" and one.low in MAIN_VERBS:
            return one.low
        if one.low != "with" and one is tokens[0] and one.text != "(":
            return one.low
    return tokens[0].low if tokens else ""


def parameter_kinds(tokens: Sequence[Token], kinds: Mapping[str, str]) -> dict[int, str]:
    """The kind of each parameter that stands beside an attribute, or for one in an INSERT; `int` behind LIMIT, OFFSET.

    `kinds` has the kind of each attribute by its name in lower case."""
    found: dict[int, str] = {}
    listed = dict(zip(*inserted(tokens)))
    for place, one in enumerate(tokens):
        if one.kind != "parameter":
            continue
        number = int(one.text[1:])
        names = [listed.get(place, "")]
        for sign, side in ((place - 1, place - 2), (place + 1, place + 2)):
            if 0 <= min(sign, side) and max(sign, side) < len(tokens) and tokens[sign].text in COMPARES:
                names.append((name_of(tokens[side]) or "").lower())
        if place and tokens[place - 1].low in ("limit", "offset"):
            found[number] = "int"
        for name in names:
            if name in kinds:
                found.setdefault(number, kinds[name])
    return found


def inserted(tokens: Sequence[Token]) -> tuple[list[int], list[str]]:
    """The places of the values of `INSERT INTO R (A, ..) VALUES (V, ..), ..`, and for each the column it goes to."""
    words = [one.low for one in tokens]
    places: list[int] = []
    names: list[str] = []
    if words[:2] != ["insert", "into"] or "(" not in words or "values" not in words:
        return places, names
    end = words.index(")") if ")" in words else 0
    columns = [(name_of(one) or "").lower() for one in tokens[words.index("(") + 1 : end] if one.text != ","]
    depth, column = 0, 0
    for place in range(words.index("values") + 1, len(tokens)):
        depth += (words[place] == "(") - (words[place] == ")")
        column = 0 if depth == 0 else column + (depth == 1 and words[place] == ",")
        if depth == 1 and column < len(columns) and words[place] not in "(,)":
            places.append(place)
            names.append(columns[column])
    return places, names
