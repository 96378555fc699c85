"""The tokens of SQL, as SQLite reads them."""

import re
from collections.abc import Iterable, Iterator, Sequence
from typing import NamedTuple

TOKEN = re.compile(
    r"""(?P<space>[ \t\n\f\r]+ | --[^\n]* | /\*.*?(?:\*/|\Z))
    | (?P<blob>[xX]'[^']*')
    | (?P<string>'(?:[^']|'')*')
    | (?P<quoted>"(?:[^"]|"")*" | `(?:[^`]|``)*` | \[[^\]]*\])
    | (?P<number>0[xX][0-9a-fA-F]+ | (?:[0-9]+\.?[0-9]*|\.[0-9]+)(?:[eE][+-]?[0-9]+)?)
    | (?P<parameter>\?[0-9]* | [:@$][A-Za-z0-9_$\x80-\U0010ffff]+)
    | (?P<word>[A-Za-z_\x80-\U0010ffff][A-Za-z0-9_$\x80-\U0010ffff]*)
    | (?P<sign>\|\| | << | >> | <= | >= | <> | != | == | ->> | -> | .)""",
    re.DOTALL | re.VERBOSE,
)


class Token(NamedTuple):
    """A token: its kind, a group of TOKEN; its text; in a word, its capitals; where it ends."""

    kind: str
    text: str
    word: str
    end: int

    @property
    def name(self) -> str | None:
        """The name that a bare or quoted identifier means."""
        if self.kind == "word":
            return self.text
        if self.kind == "quoted":
            last = self.text[-1]
            return self.text[1:-1].replace(last * 2, last) if last != "]" else self.text[1:-1]
        return None


def tokens(sql: str) -> list[Token]:
    """The tokens of a statement, without blanks and comments."""
    found = []
    for one in TOKEN.finditer(sql):
        kind, text = one.lastgroup or "", one[0]
        if kind != "space":
            found.append(Token(kind, text, text.upper() if kind == "word" else "", one.end()))
    return found


def at_top(tokens: Sequence[Token]) -> Iterator[tuple[int, Token]]:
    """The tokens outside of parentheses, with their places."""
    depth = 0
    for k, one in enumerate(tokens):
        depth += (one.text == "(") - (one.text == ")")
        if depth == 0 and one.text != ")":
            yield k, one


def numbers(tokens: Iterable[Token]) -> dict[int, int | str]:
    """The parameters, each by where it ends: the number of a `?`, or a name. None of a `?` beside others."""
    asked = [one for one in tokens if one.kind == "parameter"]
    if all(one.text == "?" for one in asked):
        return {one.end: k for k, one in enumerate(asked)}
    return {one.end: one.text[1:] for one in asked if one.text[0] in ":@$"}
