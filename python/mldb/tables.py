"""The tables that relations are in SQL."""

from collections.abc import Iterable, Sequence
from typing import NamedTuple

from mldb.catalogue import Relation
from mldb.rows import Rows
from mldb.statements import quoted

FORMS = ("", "_highest", "_classes")
TYPES = {"int": "INTEGER", "text": "TEXT"}
# What is told of a row that is written: its cells, and its number, by SQLite's name that no attribute can have.
TOLD = {"insert": "0, {new}", "update": "old._rowid_, {old}, {new}", "delete": "old._rowid_, {old}"}


class Table(NamedTuple):
    """A table: the relation itself, what holds of it, or its values beside their classes."""

    name: str
    relation: Relation
    form: str
    columns: tuple[str, ...]

    @property
    def insertion(self) -> str:
        """The statement that fills in a row."""
        return f"INSERT INTO {quoted(self.name)} VALUES ({', '.join('?' * len(self.columns))})"

    def creation(self, label: str) -> str:
        """The statement that makes it. What is inserted has the label of the session."""
        kinds = {one.name: TYPES[one.kind] for one in self.relation.attributes}
        columns = [f"{quoted(name)} {kinds.get(name, 'TEXT')}" for name in self.columns]
        if not self.form:
            columns[-1] += f" DEFAULT '{label}'"
        return f"CREATE TABLE {quoted(self.name)} ({', '.join(columns)})"

    def triggers(self) -> list[str]:
        """The statements that make its triggers: while something is noted, a change is noted and not made."""
        old, new = (", ".join(f"{front}.{quoted(one)}" for one in self.columns) for front in ("old", "new"))
        made = []
        for deed, cells in TOLD.items():
            told = f"'{deed}', {len(self.columns)}, {cells.format(old=old, new=new)}"
            name = quoted(f"mldb {deed} {self.name}")
            made.append(f"CREATE TRIGGER {name} BEFORE {deed} ON {quoted(self.name)} WHEN mldb_noting() BEGIN "
                        f"SELECT mldb_note({told}); SELECT RAISE(IGNORE); END")
        return made

    def cells(self, rows: Rows) -> list[Sequence]:
        """The columns of its rows."""
        if self.form == "_classes":
            told = [cells for pair in zip(rows.values, rows.labels) for cells in pair]
            return [*told, rows.classes, rows.key_classes]
        return [*rows.values, rows.classes]


def _tables(relation: Relation) -> list[Table]:
    """The tables of a relation."""
    plain = (*relation.names, "class")
    with_labels = [cell for name in relation.names for cell in (name, f"{name} class")]
    columns = {"_classes": (*with_labels, "class", "key class")}
    return [Table(relation.name + form, relation, form, columns.get(form, plain)) for form in FORMS]


def tables_of(relations: Iterable[Relation]) -> tuple[dict[str, Table], dict[str, str]]:
    """The tables of relations; and those that cannot be, by their lower case names, with the reason."""
    found: dict[str, Table] = {}
    taken: set[str] = set()
    left_out: dict[str, str] = {}
    for relation in relations:
        tables = _tables(relation)
        names = {table.name.lower() for table in tables}
        columns = [name.lower() for name in tables[0].columns]
        if names & taken or relation.name.lower().startswith("sqlite_") or len(set(columns)) < len(columns):
            why = f"{relation.name}: SQL has no names for it: capitals do not count there, and `class` is taken"
            left_out |= dict.fromkeys(names - taken, why)
        else:
            found |= {table.name: table for table in tables}
            taken |= names
    return found, left_out
