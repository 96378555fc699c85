"""Statements of one client of the bridge: what the bridge answers by itself, and what goes to the module."""

from __future__ import annotations

import re
import sqlite3
from collections.abc import Callable, Mapping, Sequence
from dataclasses import dataclass, field
from itertools import pairwise
from typing import Any

from . import pg_catalog, pg_describe, pg_types
from .pg_errors import state_of
from .pg_sql import Token, Translation, Unclosed, name_of, parameter_kinds, statements_of, text_inside, verb_of
from .pg_wire import Column

SETTINGS = {
    "server_version": "15.0",
    "server_encoding": "UTF8",
    "client_encoding": "UTF8",
    "DateStyle": "ISO, MDY",
    "IntervalStyle": "postgres",
    "TimeZone": "UTC",
    "integer_datetimes": "on",
    "standard_conforming_strings": "on",
    "is_superuser": "off",
    "application_name": "",
    "transaction_isolation": "read committed",
    "default_transaction_isolation": "read committed",
    "transaction_read_only": "off",
    "default_transaction_read_only": "off",
    "search_path": "public",
    "in_hot_standby": "off",
    "extra_float_digits": "1",
    "max_identifier_length": "32",
}
TOLD = (*list(SETTINGS)[:10], "session_authorization")
BEGINS, COMMITS, ROLLBACKS = {"begin", "start"}, {"commit", "end"}, {"rollback", "abort"}
GIVES_ROWS = {"select", "values", "show", "call", "explain", "table"}
WRITES = {"insert", "update", "delete", "replace"}
NO_PATTERNS = "SQL here has no ~: write LIKE or GLOB"
NO_TABLE = re.compile(r"no such table: (\w+)")
DECLARED, ALONE = "relations are declared in the schemes file", "the program sees to its store"
NOT_HERE = {
    **dict.fromkeys(["savepoint", "release"], "there are no savepoints"),
    **dict.fromkeys(["create", "drop", "alter"], DECLARED),
    **dict.fromkeys(["grant", "revoke"], "rights are declared in the policy"),
    **dict.fromkeys(["listen", "notify", "unlisten"], "there are no notifications"),
    **dict.fromkeys(["declare", "fetch"], "there are no cursors in SQL: fetch by the protocol"),
    **dict.fromkeys(["vacuum", "analyze"], ALONE),
    "truncate": "write DELETE, which takes rows of this label",
    "lock": "each statement is a change of its own",
    "pragma": "settings of SQLite are the module's",
}


class Refused(Exception):
    """A statement that is refused, with what libpq shows of it."""

    def __init__(self, state: str, text: str, *, position: int = 0, hint: str = "", detail: str = "") -> None:
        super().__init__(text)
        self.state, self.position, self.hint, self.detail = state, position, hint, detail
        self.done = 0


@dataclass
class Result:
    """What a statement gave: its tag, and rows where it has some. `told` has settings that have changed."""

    tag: str
    columns: list[Column] | None = None
    rows: list[tuple] = field(default_factory=list)
    told: dict[str, str] = field(default_factory=dict)
    warning: str = ""


@dataclass
class Prepared:
    """A prepared statement: its tokens, the types of its parameters, and its columns if a client was told of them."""

    tokens: list[Token]
    types: list[int]
    columns: list[Column] | None = None


def query_tokens(sql: str) -> list[list[Token]]:
    """The statements of a query."""
    try:
        return statements_of(sql)
    except Unclosed as fault:
        raise Refused("42601", str(fault), position=fault.at + 1) from fault


def hint_of(fault: Exception, told: Translation | None) -> str:
    """What to write instead, where that is known."""
    if "no such function: REGEXP" in str(fault):
        return NO_PATTERNS
    lacking = NO_TABLE.fullmatch(str(fault))
    if lacking and told and [lacking[1].lower(), "("] in [[one.low, two.low] for one, two in pairwise(told.tokens)]:
        return f"CALL {lacking[1]}(..) calls a stored transaction"
    return ""


class Engine:
    """One connection of the module, as a client of PostgreSQL uses it."""

    def __init__(self, connection: Any, shapes: Sequence[pg_catalog.Shape], label: str, user: str) -> None:
        self.connection, self.shapes = connection, shapes
        self.relations = [one.name for one in shapes]
        self.catalog = pg_catalog.Catalog(shapes, label, user)
        self.stand_in = pg_describe.StandIn(shapes)
        self.kinds: Mapping[str, str] = pg_describe.kinds_of(shapes)
        self.settings = SETTINGS | {"session_authorization": user}
        self.prepared: dict[str, Prepared] = {}
        self.leave: Callable[[], None] = connection.close
        self.state = "I"
        self.kept = 0
        columns = {name.lower() for shape in shapes for name, _ in shape.columns}
        values = {
            **dict.fromkeys(["current_user", "session_user", "user", "current_role"], user),
            **dict.fromkeys(["current_catalog", "current_database"], label),
            "current_schema": "public", "version": "PostgreSQL 15.0, spoken by mldb.pg", "pg_backend_pid": "0",
        }
        self.values = {name: one for name, one in values.items() if name not in columns}

    def translated(self, tokens: Sequence[Token]) -> Translation:
        """A statement for SQLite."""
        return Translation(tokens, self.values, pg_catalog.asks_catalog(tokens, self.relations))

    def run(self, tokens: Sequence[Token], params: Sequence[pg_types.Value] = ()) -> Result:
        """Does one statement. In a transaction that has failed only its end is done."""
        verb = verb_of(tokens)
        if self.state == "E" and verb not in COMMITS | ROLLBACKS:
            raise Refused("25P02", "the transaction has failed: ROLLBACK ends it")
        try:
            return self.method(verb)(tokens, params)
        except Refused:
            self.fail()
            raise
        except sqlite3.Error as fault:
            self.fail()
            raise Refused(state_of(fault), str(fault)) from fault

    def fail(self) -> None:
        """A fault ends a transaction, up to its ROLLBACK."""
        self.state = "E" if self.state == "T" else self.state

    def method(self, verb: str) -> Callable[[Sequence[Token], Sequence[pg_types.Value]], Result]:
        """Who does statements of a verb."""
        if verb in NOT_HERE:
            raise Refused("0A000", f"{verb.upper()}: {NOT_HERE[verb]}")
        if verb in BEGINS:
            return self.begin
        if verb in COMMITS | ROLLBACKS:
            return self.end
        own = {
            "set": self.set, "reset": self.reset, "show": self.show, "discard": self.discard, "prepare": self.prepare,
            "execute": self.execute, "deallocate": self.deallocate, "call": self.call,
        }
        return own.get(verb, self.sql)

    # Transactions

    def begin(self, tokens: Sequence[Token], params: Sequence[pg_types.Value]) -> Result:
        """BEGIN, with any mode."""
        if self.state == "T":
            return Result("BEGIN", warning="there is already a transaction in progress")
        self.state, self.kept = "T", 0
        return Result("BEGIN")

    def end(self, tokens: Sequence[Token], params: Sequence[pg_types.Value]) -> Result:
        """COMMIT and ROLLBACK. Of a transaction that has failed COMMIT is ROLLBACK."""
        if len(tokens) > 1 and tokens[1].low == "to":
            raise Refused("0A000", "there are no savepoints")
        before, kept, self.state = self.state, self.kept, "I"
        self.kept = 0
        if tokens[0].low in COMMITS and before != "E":
            self.guarded(self.connection.commit)
            return Result("COMMIT", warning="" if before == "T" else "there is no transaction in progress")
        if kept or self.is_batch():
            self.rollback(kept)
        return Result("ROLLBACK", warning="" if before != "I" else "there is no transaction in progress")

    def is_batch(self) -> bool:
        """Whether the module keeps changes back up to `commit`."""
        return bool(getattr(self.connection, "in_transaction", False))

    def rollback(self, kept: int) -> None:
        """Undoes what the module can undo, and says what it cannot."""
        try:
            self.connection.rollback()
        except Exception as fault:
            if "NotSupported" not in type(fault).__name__:
                raise self.refused(fault) from fault
            hint = "each statement is kept at once: a stored transaction (CALL) is all or nothing"
            text = f"{kept} row{'s' * (kept != 1)} of this transaction stand and are not undone"
            raise Refused("0A000", text, hint=hint) from fault

    # Settings

    def set(self, tokens: Sequence[Token], params: Sequence[pg_types.Value]) -> Result:
        """SET NAME TO VALUE, of settings that change nothing here."""
        words = [text_inside(one) for one in tokens[1:]]
        if words and words[0].lower() in ("session", "local"):
            words = words[1:]
        if not words or words[0].lower() in ("transaction", "characteristics", "constraints", "role", "authorization"):
            return Result("SET")
        if words[0].lower() == "time" and words[1:2] and words[1].lower() == "zone":
            words[:2] = ["TimeZone", "="]
        if words[0].lower() == "names":
            words = ["client_encoding", "=", *words[1:]]
        name = next((one for one in self.settings if one.lower() == words[0].lower()), words[0])
        value = "".join(words[2:])
        if name == "client_encoding" and value.lower().replace("-", "") not in ("utf8", "unicode", "default"):
            raise Refused("0A000", f"client_encoding {value}: texts are UTF8")
        if name == "client_encoding" or value.lower() == "default":
            value = SETTINGS.get(name, "")
        self.settings[name] = value
        return Result("SET", told={name: value} if name in TOLD else {})

    def reset(self, tokens: Sequence[Token], params: Sequence[pg_types.Value]) -> Result:
        """RESET NAME, RESET ALL."""
        self.settings.update(SETTINGS)
        return Result("RESET")

    def show(self, tokens: Sequence[Token], params: Sequence[pg_types.Value]) -> Result:
        """SHOW NAME, SHOW ALL."""
        wanted = "".join(text_inside(one) for one in tokens[1:]).lower()
        wanted = {"timezone": "timezone", "transactionisolationlevel": "transaction_isolation"}.get(wanted, wanted)
        if wanted == "all":
            rows = sorted((name, value, "") for name, value in self.settings.items())
            columns = pg_describe.columns_of(["name", "setting", "description"], [pg_types.TEXT] * 3)
            return Result("SHOW", columns, list(rows))
        found = [(name, value) for name, value in self.settings.items() if name.lower() == wanted]
        if not found:
            raise Refused("42704", f"there is no setting {wanted}", position=tokens[-1].at + 1)
        return Result("SHOW", pg_describe.columns_of([found[0][0]], [pg_types.TEXT]), [(found[0][1],)])

    def discard(self, tokens: Sequence[Token], params: Sequence[pg_types.Value]) -> Result:
        """DISCARD ALL, as pools send it."""
        self.prepared.clear()
        return Result("DISCARD ALL")

    # Prepared statements in SQL

    def prepare(self, tokens: Sequence[Token], params: Sequence[pg_types.Value]) -> Result:
        """PREPARE NAME [(TYPE, ..)] AS STATEMENT."""
        words = [one.low for one in tokens]
        name = name_of(tokens[1]) if len(tokens) > 1 else None
        if name is None or "as" not in words[2:]:
            raise Refused("42601", "PREPARE NAME [(TYPE, ..)] AS STATEMENT", position=tokens[-1].at + 1)
        if name in self.prepared:
            raise Refused("42P05", f"there is a prepared statement {name} already", position=tokens[1].at + 1)
        inner = list(tokens[words.index("as", 2) + 1 :])
        self.prepared[name] = Prepared(inner, self.parameter_types(inner, ()))
        return Result("PREPARE")

    def execute(self, tokens: Sequence[Token], params: Sequence[pg_types.Value]) -> Result:
        """EXECUTE NAME [(VALUE, ..)]."""
        name = name_of(tokens[1]) if len(tokens) > 1 else None
        if name is None or name not in self.prepared:
            raise Refused("26000", f"there is no prepared statement {name}", position=tokens[-1].at + 1)
        statement = self.prepared[name]
        values = self.literals(tokens[2:])
        if len(values) != len(statement.types):
            raise Refused("42601", f"{name} has {len(statement.types)} parameters, and {len(values)} values are there")
        return self.run(statement.tokens, values)

    def deallocate(self, tokens: Sequence[Token], params: Sequence[pg_types.Value]) -> Result:
        """DEALLOCATE [PREPARE] NAME, DEALLOCATE ALL."""
        name = text_inside(tokens[-1])
        if name.lower() == "all":
            self.prepared.clear()
        elif self.prepared.pop(name, None) is None:
            raise Refused("26000", f"there is no prepared statement {name}", position=tokens[-1].at + 1)
        return Result("DEALLOCATE")

    def literals(self, tokens: Sequence[Token]) -> list[pg_types.Value]:
        """The values of `(1, 'a', null)`: expressions without tables."""
        if not tokens or [one.text for one in tokens] == ["(", ")"]:
            return []
        told = self.translated([Token("word", "select", tokens[0].at), *tokens[1:-1]])
        with self.stand_in.lock:
            return list(self.stand_in.base.execute(told.sql).fetchone())

    def call(self, tokens: Sequence[Token], params: Sequence[pg_types.Value]) -> Result:
        """CALL TRANSACTION(VALUE, ..): rows of what it told."""
        name = name_of(tokens[1]) if len(tokens) > 1 else None
        if name is None or len(tokens) < 4 or tokens[2].text != "(" or tokens[-1].text != ")":
            raise Refused("42601", "CALL TRANSACTION(VALUE, ..)", position=tokens[-1].at + 1)
        if any(one.kind == "parameter" for one in tokens):
            values = [params[int(one.text[1:]) - 1] for one in tokens if one.kind == "parameter"]
        else:
            values = self.literals(tokens[2:])
        cursor = self.connection.cursor()
        self.guarded(lambda: cursor.callproc(name, values))
        return self.rows_of(cursor, "CALL")

    # Statements of the module

    def sql(self, tokens: Sequence[Token], params: Sequence[pg_types.Value]) -> Result:
        """Any other statement: of the catalog, or of the module."""
        told = self.translated(tokens)
        ordered = [params[number - 1] if number <= len(params) else None for number in told.order]
        if told.of_catalog:
            return self.of_catalog(tokens, told, ordered)
        cursor = self.connection.cursor()
        self.guarded(lambda: cursor.execute(told.sql, ordered), told)
        verb = verb_of(tokens)
        if cursor.description is not None:
            return self.rows_of(cursor, "SELECT" if verb in ("select", "values") else verb.upper())
        count = max(cursor.rowcount, 0)
        if verb in WRITES:
            self.wrote(count)
        name = "INSERT 0" if verb == "replace" else {"insert": "INSERT 0"}.get(verb, verb.upper())
        return Result(f"{name} {count}" if verb in WRITES else name)

    def many(self, sql: str, rows: Sequence[Sequence[pg_types.Value]]) -> None:
        """One statement for many rows."""
        try:
            self.guarded(lambda: self.connection.cursor().executemany(sql, rows))
        except Refused:
            self.fail()
            raise
        self.wrote(len(rows))

    def only_reads(self, tokens: Sequence[Token]) -> bool:
        """Whether a statement changes nothing."""
        return verb_of(tokens) in ("select", "values", "show", "explain")

    def interrupt(self) -> None:
        """Asked by another thread: what SQLite does for this connection ends."""
        self.connection.interrupt()

    def wrote(self, count: int) -> None:
        """So many rows have been changed."""
        self.kept += count
        if self.state == "I":
            self.guarded(self.connection.commit)

    def of_catalog(self, tokens: Sequence[Token], told: Translation, params: Sequence[pg_types.Value]) -> Result:
        """A query of the catalog."""
        try:
            names, rows = self.catalog.answer(tokens, told, params)
        except sqlite3.Error as fault:
            text = f"this query of the catalog is not answered ({fault})"
            raise Refused("0A000", text, hint=pg_catalog.INSTEAD) from fault
        return Result(f"SELECT {len(rows)}", pg_describe.columns_of(names, pg_types.types_of(rows, len(names))), rows)

    def rows_of(self, cursor: Any, verb: str) -> Result:
        """The rows of a cursor, with types that suit all their values."""
        rows = self.guarded(cursor.fetchall)
        names = [one[0] for one in cursor.description or ()]
        tag = f"{verb} {len(rows)}" if verb == "SELECT" else verb
        return Result(tag, self.columns(names, rows, cursor.description or ()), rows)

    def columns(self, names: Sequence[str], rows: Sequence[tuple], description: Sequence[Any]) -> list[Column]:
        """Columns of rows; of one without values what the module says of it."""
        types = pg_types.types_of(rows, len(names))
        for place, one in enumerate(description):
            if repr(one[1]).endswith("NUMBER") and all(row[place] is None for row in rows):
                types[place] = pg_types.INT8
        return pg_describe.columns_of(names, types)

    def guarded(self, deed: Callable[[], Any], told: Translation | None = None) -> Any:
        """What the module does, with its exceptions as a client of PostgreSQL reads them."""
        try:
            return deed()
        except KeyboardInterrupt as fault:
            raise Refused("57014", "cancelled by its user") from fault
        except Exception as fault:
            raise self.refused(fault, told) from fault

    def refused(self, fault: Exception, told: Translation | None = None) -> Refused:
        """An exception of the module."""
        if isinstance(fault, Refused):
            return fault
        done = int(getattr(fault, "done", 0) or 0)
        self.kept += done
        detail = f"{done} row{'s' * (done != 1)} of this statement stand" if done else ""
        position = told.origin(str(fault)) if told and getattr(fault, "code", None) is None else 0
        refused = Refused(state_of(fault), str(fault), position=position, hint=hint_of(fault, told), detail=detail)
        refused.done = done
        return refused

    # Descriptions

    def parameter_types(self, tokens: Sequence[Token], given: Sequence[int]) -> list[int]:
        """The types of a statement's parameters: as given, else of the attribute that each stands beside, else text."""
        count = max([len(given), *(int(one.text[1:]) for one in tokens if one.kind == "parameter")])
        kinds = parameter_kinds(tokens, self.kinds)
        types = [pg_types.KINDS[kinds.get(number, "text")] for number in range(1, count + 1)]
        told = [*given, *[0] * (count - len(given))]
        return [mine if one in (0, pg_types.UNKNOWN) else one for one, mine in zip(told, types)]

    def check(self, tokens: Sequence[Token]) -> None:
        """Refuses a statement of which the form is wrong already."""
        told = self.translated(tokens)
        is_sql = verb_of(tokens) in GIVES_ROWS - {"show", "call", "table"} | WRITES and not told.of_catalog
        if is_sql and (fault := self.stand_in.syntax_fault(told.sql)):
            raise Refused("42601", fault, position=told.origin(fault))

    def described(self, statement: Prepared) -> list[Column] | None:
        """The columns of a statement that is not done yet; None where it gives no rows."""
        verb = verb_of(statement.tokens)
        if verb == "show" or pg_catalog.asks_catalog(statement.tokens, self.relations):
            return self.run(statement.tokens, [None] * len(statement.types)).columns
        if verb == "call":
            return pg_describe.columns_of(["deed", "label", "value"], [pg_types.TEXT] * 3)
        if verb not in GIVES_ROWS:
            return None
        told = self.translated(statement.tokens)
        found = self.stand_in.columns(told.sql, [statement.types[number - 1] for number in told.order])
        return found if found is not None else self.run(statement.tokens, [None] * len(statement.types)).columns
