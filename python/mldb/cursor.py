"""Cursors: statements, and the rows that they found."""

from collections.abc import Iterable, Iterator, Mapping, Sequence
from functools import partial
from typing import TYPE_CHECKING

from mldb import results, values
from mldb.errors import NotSupportedError, ProgrammingError
from mldb.local import Local, Plan
from mldb.wire import UNDER_WAY
from mldb.writing import Changes, insertions, resumed, send

if TYPE_CHECKING:
    from mldb.connection import Connection


class Cursor:
    """A cursor of PEP 249. All rows of a statement are there when it is done."""

    def __init__(self, connection: "Connection"):
        self.connection = connection
        self.arraysize = 1
        self.lastrowid = None
        self._is_closed = False
        self._forget()

    def _forget(self) -> None:
        self.description: list[tuple] | None = None
        self.rowcount = -1
        self._rows: list[tuple] = []
        self._next = 0

    def _ready(self) -> Local:
        """The copy; the rows of the last statement are given up."""
        if self._is_closed:
            raise ProgrammingError("the cursor is closed: make another")
        self._forget()
        local = self.connection.local()
        local.begin()
        return local

    def execute(self, sql: str, parameters: Sequence | Mapping = ()) -> "Cursor":
        """Does a statement. Where it writes several rows, they are sent one by one: the first that is refused ends
        it."""
        local = self._ready()
        given = values.parameters(parameters, False)
        plan = local.plan(sql, given)
        if plan.deed:
            self.rowcount = self._write(local, plan, [values.parameters(parameters, True)])
        else:
            local.fill(plan, given, False)
            names, rows = local.find(plan, given)
            self._keep(names, rows, plan)
        return self

    def executemany(self, sql: str, rows: Iterable[Sequence | Mapping]) -> "Cursor":
        """Does a statement that writes, for each of some parameters. What reads no relation is one piece of work, of
        which 64 lines are under way. Where a row gives a value that mldb cannot hold, nothing is sent."""
        local = self._ready()
        given = [values.parameters(one, True) for one in rows]
        self.rowcount = 0
        if not given:
            return self
        plan = local.plan(sql, given[0])
        if plan.deed is None:
            raise ProgrammingError("executemany is for INSERT, UPDATE and DELETE")
        if not plan.reads:
            self.rowcount = self._write(local, plan, given)
        else:
            for one in given:
                plan.check(one)
            for row, one in enumerate(given):
                self.rowcount = resumed(partial(self._write, local, plan, [one]), self.rowcount, row)
        return self

    def _write(self, local: Local, plan: Plan, given: Sequence[Sequence | Mapping]) -> int:
        """Does a statement that writes: how many rows it changed."""
        assert plan.writes
        session = self.connection.session()
        for one in given:
            plan.check(one)
        derives = plan.deed == "update" and self.connection.below == "derive"
        local.fill(plan, given[0], derives)
        notes, transaction = local.note(plan, given), local.transaction
        if plan.deed == "insert":
            made = insertions(plan.writes, session.label, notes)
            if transaction is None:
                return send(session, made, UNDER_WAY if len(given) > 1 else 1)
            for note, command in zip(notes, made):
                transaction.insert(plan.writes, note.new[:-1], command)
            return len(made)
        changes = Changes(local, plan.writes, session.label, derives)
        return send(session, changes.commands(notes), 1) if transaction is None else changes.take(notes, transaction)

    def _keep(self, names: Sequence[str] | None, rows: list[tuple], plan: Plan | None = None) -> None:
        if names is not None:
            kinds = {one.name: one.kind for table in plan.reads for one in table.relation.attributes} if plan else {}
            self.description, self._rows = results.described(names, rows, kinds)
            self.rowcount = len(rows)

    def callproc(self, name: str, arguments: Sequence = ()) -> list:
        """Calls a transaction, and returns the arguments. Its rows are (deed, label, value): what it emits and
        releases, and at which label."""
        self._ready()
        session = self.connection.session()
        if self.connection.in_transaction:
            raise NotSupportedError("a call is no part of a transaction: commit or roll back first")
        told = ", ".join(values.spelt(values.parameter(value, True)) for value in arguments)
        first, *lines = session.ask(f"call {name} ({told})")
        session.told([first])
        parts = [line.split(" ", 3) for line in lines]
        rows: list[tuple] = [(deed, label, values.read(value)) for label, _, deed, value in parts]
        self._keep(("deed", "label", "value"), rows)
        return list(arguments)

    @property
    def rownumber(self) -> int | None:
        """The place of the next row, from 0."""
        return None if self.description is None else self._next

    def _found(self) -> list[tuple]:
        """The rows of the last statement."""
        if self._is_closed:
            raise ProgrammingError("the cursor is closed: make another")
        self.connection.session()
        if self.description is None:
            raise ProgrammingError("there are no rows: execute a SELECT first")
        return self._rows

    def fetchone(self) -> tuple | None:
        """The next row."""
        rows, at = self._found(), self._next
        if at >= len(rows):
            return None
        self._next = at + 1
        return rows[at]

    def fetchmany(self, size: int | None = None) -> list[tuple]:
        """The next rows, at most `size` of them, or else `arraysize`."""
        rows, at = self._found(), self._next
        self._next = min(len(rows), at + (self.arraysize if size is None else size))
        return rows[at:self._next]

    def fetchall(self) -> list[tuple]:
        """The rows that are left."""
        rows, at = self._found(), self._next
        self._next = len(rows)
        return rows[at:]

    def scroll(self, value: int, mode: str = "relative") -> None:
        """Goes to another row."""
        rows = self._found()
        if mode not in ("relative", "absolute"):
            raise ProgrammingError(f"{mode!r}: the mode is relative or absolute")
        at = value + (self._next if mode == "relative" else 0)
        if not 0 <= at < len(rows):
            raise IndexError(f"{at}: there are {len(rows)} rows")
        self._next = at

    def __iter__(self) -> Iterator[tuple]:
        return self

    def __next__(self) -> tuple:
        found = self.fetchone()
        if found is None:
            raise StopIteration
        return found

    def nextset(self) -> None:
        """None: a statement has one set of rows."""
        self._found()

    def setinputsizes(self, sizes: Sequence) -> None:
        """Does nothing: values have any size that mldb takes."""

    def setoutputsize(self, size: int, column: int | None = None) -> None:
        """Does nothing: values come whole."""

    def close(self) -> None:
        """Gives the rows up."""
        self._forget()
        self._is_closed = True

    def __enter__(self) -> "Cursor":
        return self

    def __exit__(self, *_: object) -> None:
        self.close()
