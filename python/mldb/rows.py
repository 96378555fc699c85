"""Rows of a view, as its lines print them."""

import re
from functools import cached_property
from typing import NamedTuple

from mldb import values
from mldb.catalogue import Relation
from mldb.errors import InterfaceError, InternalError
from mldb.session import Session, decoded

LABEL = "[A-Za-z][A-Za-z0-9_]*+"
# A text keeps its first quote, by which "null" is told from null.
VALUES = {"int": "(-?[0-9]++|null)", "text": r'("[^"\\\n]*+(?:\\.[^"\\\n]*+)*+|null)"?'}
NULL = "null"


class Rows(NamedTuple):
    """The rows of a view in columns: of each attribute its values and, where they were wanted, their classes; and of
    each row its own."""

    values: list[list]
    labels: list[tuple[str, ...]]
    key_classes: tuple[str, ...]
    classes: tuple[str, ...]


class Reader:
    """Reads the views of a relation in one session."""

    def __init__(self, session: Session, relation: Relation):
        self.session, self.relation = session, relation
        self._front = f"{session.label} {session.label}/{session.user} "
        self._names = " ".join(relation.names)

    @cached_property
    def _lean(self) -> re.Pattern:
        return self._pattern(False)

    @cached_property
    def _full(self) -> re.Pattern:
        return self._pattern(True)

    def _pattern(self, with_labels: bool) -> re.Pattern:
        """A row: values, the class of the key, where they are wanted those of all values, and the class of the row."""
        cells = []
        for number, one in enumerate(self.relation.attributes):
            label = f"({LABEL})" if with_labels or not number else LABEL
            cells.append(f"{VALUES[one.kind]} {label} \\| ")
        return re.compile(f"^{re.escape(self._front)}row {''.join(cells)}({LABEL})$", re.MULTILINE)

    def read(self, answer: bytes, with_labels: bool) -> Rows:
        """The rows of an answer to a view."""
        if not answer.endswith(b"\n=\n"):
            self.session.lines(answer)
        text = decoded(answer[:-3])
        heading, _, body = text.partition("\n")
        if not heading.startswith(f"{self._front}view "):
            self.session.told([heading])
            raise InternalError(f"{heading!r}: no view was answered")
        if heading.partition(": ")[2] != self._names:
            told = f"the schemes have {self._names}, and mldb has {heading.partition(': ')[2]}"
            raise InterfaceError(f"{told}: give the schemes file that it reads")
        found = (self._full if with_labels else self._lean).findall(body)
        if len(found) != (body.count("\n") + 1 if body else 0):
            raise InternalError(f"{self.relation.name}: an answer has lines that are no rows")
        return self._columns(list(zip(*found)), "\\" in body, with_labels)

    def _columns(self, columns: list[tuple[str, ...]], has_escapes: bool, with_labels: bool) -> Rows:
        attributes = self.relation.attributes
        if not columns:
            return Rows([[] for _ in attributes], [()] * len(attributes), (), ())
        if with_labels:
            told, labels = columns[0:-1:2], columns[1:-1:2]
        else:
            told, labels = [columns[0], *columns[2:-1]], [columns[1]]
        kept = [_values(column, one.kind, has_escapes) for column, one in zip(told, attributes)]
        return Rows(kept, list(labels), labels[0], columns[-1])


def _values(column: tuple[str, ...], kind: str, has_escapes: bool) -> list:
    """The values of a column."""
    if kind == "int":
        return [None if one == NULL else int(one) for one in column]
    if has_escapes:
        return [None if one == NULL else values.unescaped(one[1:]) for one in column]
    return [None if one == NULL else one[1:] for one in column]
