"""What of a statement's WHERE can be asked of mldb: tests of one relation's attributes, joined by AND at its top.

What is asked may find more rows than SQL does, never fewer: SQLite tests each of them again."""

from collections.abc import Sequence
from typing import Any, NamedTuple

from mldb import values
from mldb.catalogue import Attribute, Relation
from mldb.errors import DataError
from mldb.sqltokens import Token, at_top, numbers

SIGNS = {"=": "=", "==": "=", "<": "<", "<=": "<=", ">": ">", ">=": ">="}
TURNED = {"=": "=", "<": ">", "<=": ">=", ">": "<", ">=": "<="}
# Words behind a WHERE; words that make more of it than a list of tests; words of a statement that reads more than the
# rows of one WHERE.
ENDS = {"GROUP", "ORDER", "LIMIT", "HAVING", "WINDOW"}
MORE = {"OR", "BETWEEN", "CASE"}
WIDER = {"JOIN", "UNION", "EXCEPT", "INTERSECT", "WITH"}
MOST_TESTS = 16


class Test(NamedTuple):
    """A test of an attribute against a value, or against a parameter: the number of a `?`, or a name."""

    attribute: Attribute
    sign: str
    value: values.Value
    parameter: int | str | None

    def spelt(self, parameters: Any) -> str | None:
        """The test as mldb has it; None where its value is none that the attribute can have, so that SQLite alone tests
        it."""
        try:
            value = self.value if self.parameter is None else parameters[self.parameter]
            if value is None and self.parameter is not None:
                return None
            return f"{self.attribute.name} {self.sign} {values.spelt(value, self.attribute.kind)}"
        except (DataError, LookupError, TypeError):
            return None


def tests_of(tokens: Sequence[Token], table: str, relation: Relation) -> tuple[Test, ...]:
    """Tests that all rows pass of which a statement over one table makes anything. None are known of one that reads the
    table twice."""
    place = _only_place(tokens, table.lower())
    where = None if place is None else _where(tokens, place)
    if place is None or where is None:
        return ()
    own = {(one.name or "").lower() for one in tokens[place:place + 3]}
    reader = _Reader(tokens, own, relation)
    found = [reader.test(part) for part in _parts(tokens[where + 1:])]
    return tuple(one for one in found if one is not None)[:MOST_TESTS]


def _only_place(tokens: Sequence[Token], table: str) -> int | None:
    """Where the table stands, if that is one place, behind FROM or UPDATE, and nothing else is read."""
    words = [one.word for one in tokens]
    if not WIDER.isdisjoint(words) or words.count("SELECT") > 1 or words.count("FROM") + (words[0] == "UPDATE") != 1:
        return None
    after = [*(one.text for one in tokens[1:]), ""]
    places = [k for k, one in enumerate(tokens) if (one.name or "").lower() == table and after[k] != "."]
    behind = places[1:] if len(places) == 2 and words[places[0] - 1] == "INTO" else places
    return behind[0] if len(behind) == 1 and words[behind[0] - 1] in ("FROM", "UPDATE") else None


def _where(tokens: Sequence[Token], place: int) -> int | None:
    """Where the WHERE is of the table at a place: behind it, its alias, and what an UPDATE sets."""
    is_update = tokens[place - 1].word == "UPDATE"
    first = "SET" if is_update else "WHERE"
    words = [one.word for one in tokens[place + 1:place + 4]]
    between = words[: words.index(first)] if first in words else None
    if between is None or len(between) == 2 and between[0] != "AS":
        return None
    at = place + 1 + len(between)
    if not is_update:
        return at
    return next((at + k for k, one in at_top(tokens[at:]) if one.word == "WHERE"), None)


def _parts(tokens: Sequence[Token]) -> list[Sequence[Token]]:
    """What AND joins at the top of a WHERE; nothing where it is more than that."""
    top = [*at_top(tokens)]
    end = next((k for k, one in top if one.word in ENDS or one.text == ";"), len(tokens))
    inside = [(k, one.word) for k, one in top if k < end]
    if any(word in MORE for _, word in inside):
        return []
    cuts = [-1, *(k for k, word in inside if word == "AND"), end]
    return [tokens[one + 1:two] for one, two in zip(cuts, cuts[1:])]


class _Reader:
    """Reads tests of the attributes of a relation, which may stand behind its own names."""

    def __init__(self, tokens: Sequence[Token], own: set[str], relation: Relation):
        self._own, self._names = own, {one.name.lower(): one for one in relation.attributes}
        self._numbers = numbers(tokens)

    def test(self, part: Sequence[Token]) -> Test | None:
        """A test, if a part is one."""
        if len(part) > 2 and part[0].text == "(" and part[-1].text == ")":
            part = part[1:-1]
        sign = next((k for k, one in enumerate(part) if one.text in SIGNS or one.word == "IS"), None)
        if sign is None:
            return None
        left, right = part[:sign], part[sign + 1:]
        attribute = self._attribute(left)
        if part[sign].word == "IS":
            return Test(attribute, "=", None, None) if attribute and [one.word for one in right] == ["NULL"] else None
        told = SIGNS[part[sign].text]
        if attribute is None:
            attribute, right, told = self._attribute(right), left, TURNED[told]
        value = self._value(right)
        return Test(attribute, told, *value) if attribute and value else None

    def _attribute(self, side: Sequence[Token]) -> Attribute | None:
        """The attribute that is one side of a test."""
        if len(side) == 3 and side[1].text == "." and (side[0].name or "").lower() in self._own:
            side = side[2:]
        return self._names.get((side[0].name or "").lower()) if len(side) == 1 else None

    def _value(self, side: Sequence[Token]) -> tuple[values.Value, int | str | None] | None:
        """The value, or the parameter, that is one side of a test."""
        is_minus = len(side) == 2 and side[0].text == "-" and side[1].kind == "number"
        if len(side) != 1 and not is_minus:
            return None
        one = side[-1]
        if one.kind == "number" and one.text.isdecimal():
            return int(one.text) * (-1 if is_minus else 1), None
        if one.kind == "string":
            return one.text[1:-1].replace("''", "'"), None
        return (None, self._numbers[one.end]) if one.end in self._numbers else None
