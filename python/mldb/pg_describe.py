"""What a statement would give, told before it is done: its columns, over tables of one made row in a SQLite."""

from __future__ import annotations

import sqlite3
import threading
from collections.abc import Iterable, Mapping, Sequence
from typing import Any

from . import pg_types
from .pg_catalog import Shape
from .pg_wire import Column

AFFINITIES = {"INT": pg_types.INT8, "TEXT": pg_types.TEXT, "REAL": pg_types.FLOAT8}
SYNTAX = ("near ", "incomplete input", "unrecognized token")


def quoted_name(name: str) -> str:
    """A name as SQL has it."""
    return '"' + name.replace('"', '""') + '"'


class StandIn:
    """Tables of the same names, columns and kinds as those that the label sees."""

    def __init__(self, shapes: Iterable[Shape]) -> None:
        self.lock = threading.Lock()
        self.base = sqlite3.connect(":memory:", isolation_level=None, check_same_thread=False)
        for shape in shapes:
            kinds = ["INT" if oid == pg_types.INT8 else "TEXT" for _, oid in shape.columns]
            columns = ", ".join(f"{quoted_name(name)} {kind}" for (name, _), kind in zip(shape.columns, kinds))
            values = ", ".join("1" if kind == "INT" else "'a'" for kind in kinds)
            self.base.execute(f"CREATE TABLE {quoted_name(shape.name)} ({columns})")
            self.base.execute(f"INSERT INTO {quoted_name(shape.name)} VALUES ({values})")

    def syntax_fault(self, sql: str) -> str:
        """What is wrong with the form of a statement; empty where nothing is, or where only its names may be."""
        with self.lock:
            try:
                self.base.execute("EXPLAIN " + sql)
            except sqlite3.Error as fault:
                return str(fault) if str(fault).startswith(SYNTAX) else ""
            except sqlite3.Warning:
                return ""
        return ""

    def columns(self, sql: str, types: Sequence[int]) -> list[Column] | None:
        """The columns of a query, with values of the made rows as parameters. None where only the module can tell."""
        values = [1 if one == pg_types.INT8 else "a" for one in types]
        with self.lock:
            try:
                found = self.base.execute(sql, values)
                names = [one[0] for one in found.description or ()]
                seen = pg_types.types_of(found.fetchmany(100), len(names))
                self.base.execute("CREATE TEMP TABLE probe AS " + sql, values)
                kinds = [one[2] for one in self.base.execute("PRAGMA temp.table_info(probe)")]
                self.base.execute("DROP TABLE temp.probe")
            except (sqlite3.Error, sqlite3.Warning):
                return None
        return columns_of(names, [AFFINITIES.get(kind, one) for kind, one in zip(kinds, seen)])


def columns_of(names: Iterable[str], types: Iterable[int]) -> list[Column]:
    """Columns as a client is told of them."""
    return [Column(name, oid, pg_types.SIZES.get(oid, -1)) for name, oid in zip(names, types)]


def shapes_of(relations: Mapping[str, Any]) -> list[Shape]:
    """The tables of a connection: for each relation itself, `R_highest` and `R_classes`."""
    found = []
    for relation in relations.values():
        kinds = [(one.name, pg_types.KINDS[one.kind]) for one in relation.attributes]
        size, keys, label = len(kinds), relation.key_size, pg_types.TEXT
        classes = [pair for one in kinds for pair in (one, (f"{one[0]} class", label))]
        found.append(Shape(relation.name, [*kinds, ("class", label)], keys, size, "r"))
        found.append(Shape(f"{relation.name}_highest", [*kinds, ("class", label)], 0, size, "v"))
        all_classes = [*classes, ("class", label), ("key class", label)]
        found.append(Shape(f"{relation.name}_classes", all_classes, 0, 2 * size, "v"))
    return found


def kinds_of(shapes: Iterable[Shape]) -> Mapping[str, str]:
    """The kind of each column by its name in lower case; without those that have two."""
    found: dict[str, set[int]] = {}
    for shape in shapes:
        for name, oid in shape.columns:
            found.setdefault(name.lower(), set()).add(oid)
    return {name: "int" if oids == {pg_types.INT8} else "text" for name, oids in found.items() if len(oids) == 1}
