"""The copy in SQLite: empty tables, which each statement finds filled with the rows that it reads. What it would change
there is noted."""

import re
import sqlite3
from collections.abc import Iterable, Mapping, Sequence
from typing import Any, NamedTuple

from mldb import statements, values
from mldb.catalogue import Relation
from mldb.errors import NotSupportedError, ProgrammingError
from mldb.pushing import Test, tests_of
from mldb.rows import Reader, Rows
from mldb.session import Session
from mldb.sqltokens import tokens
from mldb.statements import quoted
from mldb.tables import Table, tables_of
from mldb.transaction import Shown, Transaction

DEEDS = {sqlite3.SQLITE_INSERT: "insert", sqlite3.SQLITE_UPDATE: "update", sqlite3.SQLITE_DELETE: "delete"}
# What a statement may begin with; what SQLite would do for others, as VACUUM, it does not always ask about.
STATEMENTS = {"SELECT", "VALUES", "WITH", "INSERT", "REPLACE", "UPDATE", "DELETE", "EXPLAIN"}
ALONE = "SELECT, INSERT, UPDATE and DELETE alone: relations are declared in the schemes file"
ALLOWED = {sqlite3.SQLITE_SELECT, sqlite3.SQLITE_READ, sqlite3.SQLITE_FUNCTION, sqlite3.SQLITE_RECURSIVE}
# What SQLite says where Ctrl-C came while it was at work, in one of the functions below or in that of each tick.
INTERRUPTED = {"interrupted", "user-defined function raised exception"}
NO_TABLE = re.compile(r"no such table: (?:main\.)?(.*)")
PLANS = 256
TICK = 100_000


class Plan(NamedTuple):
    """What a statement does: the tables that it reads; tests that all rows pass which it needs; the relation that it
    writes, and how; the parameters that it assigns as they are."""

    sql: str
    reads: tuple[Table, ...]
    tests: tuple[Test, ...]
    writes: Relation | None
    deed: str | None
    assigned: tuple[int | str, ...] = ()

    def check(self, parameters: Any) -> None:
        """That what is assigned as it is can be held."""
        for one in self.assigned:
            try:
                value = parameters[one]
            except (LookupError, TypeError):
                continue
            if isinstance(value, str):
                values.spelt(value)

    def names_key(self, parameters: Any) -> bool:
        """Whether what is read is the rows of one whole key."""
        told = {one.attribute.name for one in self.tests if one.sign == "=" and one.spelt(parameters)}
        return bool(told) and all(one.name in told for one in self.reads[0].relation.key)


class Note(NamedTuple):
    """A row that a statement would have inserted, updated or deleted."""

    deed: str
    row: int
    old: tuple
    new: tuple


class Local:
    """The copy of a connection."""

    def __init__(self, session: Session, relations: Mapping[str, Relation]):
        self._session = session
        self.tables, self._left_out = tables_of(relations.values())
        self._written = {table.name.lower(): table.relation for table in self.tables.values() if not table.form}
        self._readers = {name: Reader(session, relation) for name, relation in relations.items()}
        self._key_classes: dict[str, tuple[str, ...]] = {}
        self._loaded: dict[str, bytes] = {}
        self._plans: dict[str, Plan] = {}
        self._notes: list[Note] = []
        self._is_noting = self._is_stopped = False
        self._judge: _Judge | None = None
        self.transaction: Transaction | None = None
        self._shown: dict[str, Shown] = {}
        self._db = self._made()
        self._pages = dict(self._db.execute("SELECT rootpage, lower(name) FROM sqlite_master WHERE type = 'table'"))

    def _made(self) -> sqlite3.Connection:
        """The database, with its empty tables."""
        made = sqlite3.connect(":memory:", isolation_level=None, check_same_thread=False)
        made.create_function("mldb_noting", 0, lambda: self._is_noting)
        made.create_function("mldb_note", -1, self._note)
        for table in self.tables.values():
            made.execute(table.creation(self._session.label))
            for trigger in table.triggers() if not table.form else ():
                made.execute(trigger)
        made.set_authorizer(lambda *asked: self._judge.allows(*asked) if self._judge else sqlite3.SQLITE_OK)
        made.set_progress_handler(lambda: self._is_stopped, TICK)
        return made

    def _note(self, deed: str, size: int, row: int, *cells: object) -> None:
        old = () if deed == "insert" else cells[:size]
        self._notes.append(Note(deed, row, old, cells[len(old):]))

    def plan(self, sql: str, parameters: Sequence | Mapping) -> Plan:
        """What a statement does. Nothing is done."""
        if not isinstance(sql, str):
            raise ProgrammingError(f"{sql!r}: a statement is a text")
        found = self._plans.get(sql)
        if found is None:
            values.encoded_size(sql)
            found = self._planned(sql, parameters)
            if len(self._plans) >= PLANS:
                self._plans.pop(next(iter(self._plans)))
            self._plans[sql] = found
        return found

    def _planned(self, sql: str, parameters: Sequence | Mapping) -> Plan:
        words = tokens(sql)
        first = words[0].word if words else ""
        told = statements.with_columns(sql, words, self._written)
        judge = self._judge = _Judge(self.tables)
        try:
            steps = self._db.execute(told if first == "EXPLAIN" else f"EXPLAIN {told}", parameters)
            # A table that is read by USING or NATURAL alone SQLite opens, and does not tell of.
            judge.reads |= {self._pages.get(step[3]) for step in steps if step[1] == "OpenRead"}
        except (sqlite3.Error, sqlite3.Warning) as fault:
            raise judge.refusal or self._fault(fault) from fault
        finally:
            self._judge = None
        if first not in STATEMENTS:
            raise NotSupportedError(ALONE)
        if first == "EXPLAIN":
            return Plan(told, (), (), None, None)
        if judge.deed:
            statements.check_words(words)
        reads = tuple(table for name, table in self.tables.items() if name.lower() in judge.reads)
        tests = tests_of(words, reads[0].name, reads[0].relation) if len(reads) == 1 else ()
        sets = statements.assigned(words) if judge.deed == "update" else ()
        return Plan(told, reads, tests, judge.writes.relation if judge.writes else None, judge.deed, sets)

    def _fault(self, fault: Exception) -> BaseException:
        """What is raised for what SQLite says."""
        if str(fault) in INTERRUPTED:
            return KeyboardInterrupt()
        lacking = NO_TABLE.fullmatch(str(fault))
        return ProgrammingError(self._left_out.get(lacking[1].lower(), str(fault)) if lacking else str(fault))

    def fill(self, plan: Plan, parameters: Sequence | Mapping, with_highest: bool) -> None:
        """Fills the tables that a statement reads; also, where it is wanted, that of the rows which hold of the
        relation that it writes."""
        tests = [told for one in plan.tests if (told := one.spelt(parameters))]
        where = f" where {' and '.join(tests)}" if tests else ""
        reads = [*plan.reads]
        if with_highest and plan.writes and (highest := self.tables[f"{plan.writes.name}_highest"]) not in reads:
            reads.append(highest)
        asked: dict[str, list[Table]] = {}
        for table in reads:
            words = " highest" if table.form == "_highest" else ""
            asked.setdefault(f"view {table.relation.name} at {self._session.label}{words}{where}", []).append(table)
        if asked:
            is_keyed = self.transaction is not None and plan.names_key(parameters)
            for (command, tables), answer in zip(asked.items(), self._answers([*asked])):
                if self._is_stopped:
                    raise KeyboardInterrupt
                if self.transaction is None:
                    self._load([table for table in tables if self._loaded.get(table.name) != answer], answer)
                else:
                    self._load_behind(self.transaction, command if is_keyed else None, tables, answer)

    def _answers(self, commands: list[str]) -> list[bytes]:
        """The answers to views, of one moment; in a transaction those that are kept, where they are of one."""
        kept = self.transaction and self.transaction.kept(commands)
        if kept:
            return kept
        answers = self._session.views(commands)
        front = f"{self._session.label} {self._session.label}/{self._session.user} view ".encode()
        if self.transaction is not None and all(one.startswith(front) for one in answers):
            self.transaction.keep(commands, answers)
        return answers

    def _load(self, tables: list[Table], answer: bytes) -> None:
        """Fills tables with the rows of one answer, which is read once."""
        if tables:
            with_labels = any(table.form == "_classes" for table in tables)
            rows = self._readers[tables[0].relation.name].read(answer, with_labels)
            for table in tables:
                self._put(table, rows)
                self._loaded[table.name] = answer

    def _load_behind(self, transaction: Transaction, keyed: str | None, tables: list[Table], answer: bytes) -> None:
        """Fills tables with the rows of one answer, as they are behind what a transaction writes."""
        relation = tables[0].relation
        read = self._readers[relation.name].read(answer, True)
        if keyed is not None:
            transaction.read(keyed, relation, read)
        for table in tables:
            shown = Shown(read, transaction.merged(read, relation, table.form))
            self._put(table, shown.now)
            self._shown[table.name] = shown

    def _put(self, table: Table, rows: Rows) -> None:
        """Fills a table with rows."""
        self._loaded.pop(table.name, None)
        try:
            with self._db:
                self._db.execute("BEGIN")
                self._db.execute(f"DELETE FROM {quoted(table.name)}")
                self._db.executemany(table.insertion, zip(*table.cells(rows)))
        except sqlite3.Error as fault:
            raise self._fault(fault) from fault
        self._key_classes[table.name] = rows.key_classes

    def shown(self, relation: Relation) -> Shown:
        """The rows of a relation as they were read in the transaction, and as they are in the copy."""
        return self._shown[relation.name]

    def key_class(self, relation: Relation, row: int) -> str:
        """The class of the key of a row of a relation."""
        return self._key_classes[relation.name][row - 1]

    def holding(self, relation: Relation) -> set[tuple]:
        """The rows that hold of a relation: of each its key, its class and the class of its key."""
        name = f"{relation.name}_highest"
        columns = ", ".join(quoted(one) for one in (*relation.names[: relation.key_size], "class"))
        found = self._db.execute(f"SELECT {columns} FROM {quoted(name)} ORDER BY _rowid_")
        return {(*cells, key_class) for cells, key_class in zip(found, self._key_classes[name])}

    def find(self, plan: Plan, parameters: Sequence | Mapping) -> tuple[list[str] | None, list[tuple]]:
        """The names of the columns that a statement finds, and its rows."""
        try:
            found = self._db.execute(plan.sql, parameters)
            return [one[0] for one in found.description] if found.description else None, found.fetchall()
        except (sqlite3.Error, sqlite3.Warning) as fault:
            raise self._fault(fault) from fault

    def note(self, plan: Plan, rows: Iterable[Sequence | Mapping]) -> list[Note]:
        """What a statement would have changed, done for each of some parameters."""
        self._notes, self._is_noting = [], True
        try:
            self._db.executemany(plan.sql, rows)
        except (sqlite3.Error, sqlite3.Warning) as fault:
            raise self._fault(fault) from fault
        finally:
            self._is_noting = False
        return self._notes

    def begin(self) -> None:
        """A statement begins: what was to stop an earlier one is forgotten."""
        self._is_stopped = False

    def interrupt(self) -> None:
        """Ends the statement that is at work, from another thread; one that awaits an answer ends behind it."""
        self._is_stopped = True
        self._db.interrupt()


class _Judge:
    """Hears from SQLite each thing that a statement would do: the tables are taken down, and what mldb has not is
    refused. A table that is only counted has the capitals of the statement."""

    def __init__(self, tables: Mapping[str, Table]):
        self._tables = {name.lower(): table for name, table in tables.items()}
        self.reads: set[str | None] = set()
        self.writes: Table | None = None
        self.deed: str | None = None
        self.refusal: Exception | None = None

    def allows(self, operation: int, one: str | None, two: str | None, _database: str | None,
               inside: str | None) -> int:
        """Whether it may."""
        if (inside or "").startswith("mldb ") or operation in DEEDS and (one or "").startswith("sqlite_"):
            return sqlite3.SQLITE_OK
        if operation in DEEDS:
            return self._changes(self._tables.get((one or "").lower()), one, DEEDS[operation])
        if operation == sqlite3.SQLITE_READ:
            self.reads.add((one or "").lower())
        if operation in ALLOWED and not (two or "").startswith("mldb_"):
            return sqlite3.SQLITE_OK
        self.refusal = NotSupportedError(ALONE)
        return sqlite3.SQLITE_DENY

    def _changes(self, table: Table | None, name: str | None, deed: str) -> int:
        if table is None or table.form:
            self.refusal = ProgrammingError(f"{name}: it is read only: write the relation itself")
            return sqlite3.SQLITE_DENY
        self.writes, self.deed = table, deed
        if deed != "insert":
            self.reads.add(table.name.lower())
        return sqlite3.SQLITE_OK
