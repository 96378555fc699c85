"""One client of the bridge: its first message, simple and extended queries, COPY."""

from __future__ import annotations

import secrets
import struct
import threading
from collections.abc import Callable, Sequence
from dataclasses import dataclass, field
from functools import partial
from typing import Any

from . import pg_copy, pg_describe, pg_types
from .pg_engine import TOLD, Engine, Prepared, Refused, Result, query_tokens
from .pg_errors import state_of
from .pg_sql import Token, verb_of
from .pg_wire import CANCEL, GSS, PROTOCOL, SSL, Column, Gone, Payload, Wire, WireFault, copy_response, data_row, error
from .pg_wire import message, notice, parameter_description, parameter_status, row_description

BATCH = 1000
CUT = "08006"
Columns = Sequence[tuple[str, int]]


@dataclass
class Portal:
    """A bound statement: its values, how its columns are wanted, and its rows once it is done."""

    statement: Prepared
    values: list[pg_types.Value]
    formats: list[int]
    result: Result | None = None
    columns: list[Column] | None = None
    at: int = 0
    is_done: bool = False


@dataclass
class Clients:
    """Who is connected, by the number and secret with which a cancel request names them."""

    lock: threading.Lock = field(default_factory=threading.Lock)
    at_work: dict[tuple[int, int], Session] = field(default_factory=dict)
    last: int = 0

    def enter(self, session: Session) -> tuple[int, int]:
        """A new client."""
        with self.lock:
            self.last += 1
            key = (self.last, secrets.randbits(31))
            self.at_work[key] = session
            return key

    def leave(self, key: tuple[int, int] | None) -> None:
        """A client that is gone."""
        with self.lock:
            if key is not None:
                self.at_work.pop(key, None)

    def cancel(self, key: tuple[int, int]) -> None:
        """Stops what a client does; whoever does not know its secret stops nothing."""
        with self.lock:
            session = self.at_work.get(key)
        if session is not None:
            session.stop()


class Session:
    """The talk with one client. `connect` makes a connection of the module at a label."""

    def __init__(self, wire: Wire, connect: Callable[[str], Engine], users: Sequence[str], clients: Clients) -> None:
        self.wire, self.connect, self.users, self.clients = wire, connect, users, clients
        self.is_cancelled = threading.Event()
        self.key: tuple[int, int] | None = None
        self.engine: Engine | None = None
        self.statements: dict[str, Prepared] = {}
        self.portals: dict[str, Portal] = {}
        self.is_skipping = False

    def run(self) -> None:
        """The whole talk."""
        try:
            if self.start():
                self.serve()
        except Gone:
            pass
        except WireFault as fault:
            self.last_words("08P01", str(fault))
        finally:
            self.clients.leave(self.key)
            if self.engine is not None:
                self.engine.leave()

    def stop(self) -> None:
        """Another thread asks to stop the statement that is at work."""
        self.is_cancelled.set()
        if self.engine is not None:
            self.engine.interrupt()

    def last_words(self, state: str, text: str) -> None:
        """A fault after which the connection ends."""
        try:
            self.wire.send(error(state, text, severity="FATAL"))
            self.wire.flush()
            self.wire.end()
        except Gone:
            pass

    # The first message

    def start(self) -> bool:
        """Answers first messages up to one that opens a session; whether one did."""
        first = self.wire.startup()
        while first.code in (SSL, GSS):
            self.wire.send(b"N")
            self.wire.flush()
            first = self.wire.startup()
        if first.code == CANCEL:
            if len(first.rest) == 8:
                number, secret = struct.unpack("!ii", first.rest)
                self.clients.cancel((number, secret))
            return False
        if first.code >> 16 != PROTOCOL >> 16:
            self.last_words("0A000", f"protocol {first.code >> 16}.{first.code & 65535}: this is 3.0")
            return False
        return self.open(first.words)

    def open(self, words: dict[str, str]) -> bool:
        """Opens the session at the label that is the name of the database."""
        user = words.get("user", "")
        if user not in self.users:
            self.last_words("28000", f"this bridge is of {self.users[0]}, and not of {user}: each user starts his own")
            return False
        try:
            self.engine = self.connect(words.get("database", user))
        except Exception as fault:  # whatever it is, the client is told of it and the bridge goes on
            hint = "the name of the database is the label, as in psql -h FOLDER LABEL"
            state = "3D000" if type(fault).__name__ == "InterfaceError" else state_of(fault)
            self.wire.send(error(state, str(fault), severity="FATAL", hint=hint))
            self.wire.flush()
            return False
        self.engine.settings["application_name"] = words.get("application_name", "")
        self.greet()
        return True

    def greet(self) -> None:
        """The session is open."""
        assert self.engine
        self.key = self.clients.enter(self)
        self.wire.send(message(b"R", struct.pack("!i", 0)))
        for name in TOLD:
            self.wire.send(parameter_status(name, self.engine.settings[name]))
        self.wire.send(message(b"K", struct.pack("!ii", *self.key)))
        self.ready()

    def ready(self) -> None:
        """The next query may come."""
        assert self.engine
        self.wire.send(message(b"Z", self.engine.state.encode()))
        self.wire.flush()

    # Messages

    def serve(self) -> None:
        """Answers messages up to the last."""
        deeds: dict[bytes, Callable[[Payload], None]] = {
            b"Q": self.query, b"P": self.parse, b"B": self.bind, b"D": self.describe, b"E": self.execute,
            b"C": self.close, b"S": self.sync, b"H": self.flush, **dict.fromkeys((b"d", b"c", b"f"), self.passed_over),
        }
        while True:
            kind, payload = self.wire.receive()
            if kind == b"X":
                return
            if kind not in deeds:
                raise WireFault(f"a message {kind!r}, which is not answered")
            if self.is_skipping and kind not in b"SQ":
                continue
            try:
                deeds[kind](payload)
            except Refused as fault:
                self.tell(fault)
                self.is_skipping = True

    def passed_over(self, payload: Payload) -> None:
        """What is left of a COPY that was refused."""

    def tell(self, fault: Refused) -> None:
        """A refused statement. Where what is behind the bridge is gone, so is the client: it may connect again."""
        assert self.engine
        self.engine.fail()
        if fault.state == CUT:
            self.last_words(fault.state, str(fault))
            raise Gone
        words = str(fault)
        self.wire.send(error(fault.state, words, hint=fault.hint, detail=fault.detail, position=fault.position))

    def guarded(self, deed: Callable[[], Any]) -> Any:
        """What the module or SQLite refuses unexpectedly ends a statement and not the connection."""
        try:
            return deed()
        except (Refused, Gone, WireFault):
            raise
        except pg_types.BadValue as fault:
            raise Refused(fault.state, str(fault)) from fault
        except pg_copy.BadCopy as fault:
            raise Refused(fault.state, str(fault), position=fault.position) from fault
        except Exception as fault:  # the client is told of it
            raise Refused(state_of(fault), str(fault) or type(fault).__name__) from fault

    # Simple queries

    def query(self, payload: Payload) -> None:
        """A text of statements: each is done, up to one that is refused."""
        self.is_skipping = False
        self.is_cancelled.clear()
        sql = payload.text()
        try:
            statements = query_tokens(sql)
            for tokens in statements:
                self.guarded(partial(self.simple, tokens))
            if not statements:
                self.wire.send(message(b"I"))
        except Refused as fault:
            self.tell(fault)
        self.ready()

    def simple(self, tokens: list[Token]) -> None:
        """One statement of a text."""
        assert self.engine
        if verb_of(tokens) == "copy":
            self.copy(tokens)
            return
        result = self.engine.run(tokens)
        if result.columns is not None:
            self.wire.send(row_description(result.columns))
            self.send_rows(result.rows, result.columns, [])
        self.finish(result)

    def send_rows(self, rows: Sequence[tuple], columns: Sequence[Column], formats: Sequence[int]) -> None:
        """Rows, as text or in binary."""
        forms = list(formats) if len(formats) > 1 else [*formats, 0][:1] * len(columns)
        types = [(one.type_oid, form == 1) for one, form in zip(columns, forms)]
        for row in rows:
            if self.is_cancelled.is_set():
                raise Refused("57014", "cancelled by its user")
            cells = [pg_types.carried(one, oid, is_binary) for one, (oid, is_binary) in zip(row, types)]
            self.wire.send(data_row(cells, len(cells)))

    def finish(self, result: Result) -> None:
        """The end of a statement that is done."""
        if result.warning:
            self.wire.send(notice("25P01", result.warning))
        for name, value in result.told.items():
            self.wire.send(parameter_status(name, value))
        self.wire.send(message(b"C", result.tag.encode() + b"\0"))

    # Extended queries

    def parse(self, payload: Payload) -> None:
        """A prepared statement."""
        self.is_cancelled.clear()
        name, sql = payload.text(), payload.text()
        given = [payload.int32() for _ in range(payload.count())]
        payload.end()
        self.guarded(lambda: self.prepare(name, sql, given))
        self.wire.send(message(b"1"))

    def prepare(self, name: str, sql: str, given: Sequence[int]) -> None:
        """Keeps a prepared statement."""
        assert self.engine
        statements = query_tokens(sql)
        if len(statements) > 1:
            raise Refused("42601", "a prepared statement is one statement", position=statements[1][0].at + 1)
        if name and name in self.statements:
            raise Refused("42P05", f"there is a prepared statement {name} already")
        tokens = statements[0] if statements else []
        if tokens:
            self.engine.check(tokens)
        self.statements[name] = Prepared(tokens, self.engine.parameter_types(tokens, given) if tokens else [])

    def statement(self, name: str) -> Prepared:
        """A prepared statement by its name; also of those that PREPARE made."""
        assert self.engine
        found = self.statements.get(name) or (self.engine.prepared.get(name) if name else None)
        if found is None:
            raise Refused("26000", f"there is no prepared statement {name}")
        return found

    def bind(self, payload: Payload) -> None:
        """Values for a prepared statement."""
        portal, name = payload.text(), payload.text()
        formats = [payload.int16() for _ in range(payload.count())]
        values = [payload.value() for _ in range(payload.count())]
        wanted = [payload.int16() for _ in range(payload.count())]
        payload.end()
        statement = self.statement(name)
        if len(values) != len(statement.types):
            raise Refused("08P01", f"{len(values)} values, and the statement has {len(statement.types)} parameters")
        if len(formats) not in (0, 1, len(values)) or any(one not in (0, 1) for one in [*formats, *wanted]):
            raise WireFault("formats that do not fit")
        forms = [formats[place if len(formats) > 1 else 0] == 1 if formats else False for place in range(len(values))]
        bound = self.guarded(lambda: [pg_types.parameter(*one) for one in zip(values, statement.types, forms)])
        self.portals[portal] = Portal(statement, bound, wanted, columns=statement.columns)
        self.wire.send(message(b"2"))

    def describe(self, payload: Payload) -> None:
        """The columns of a prepared statement, or of a bound one, which is done for it if it only reads."""
        assert self.engine
        kind, name = payload.take(1), payload.text()
        if kind == b"S":
            statement = self.statement(name)
            if statement.tokens:
                statement.columns = self.guarded(partial(self.engine.described, statement))
            self.wire.send(parameter_description(statement.types))
            columns = statement.columns
        else:
            columns = self.guarded(lambda: self.portal_columns(self.portal(name)))
        self.wire.send(row_description(columns) if columns is not None else message(b"n"))

    def portal(self, name: str) -> Portal:
        """A bound statement by its name."""
        if name not in self.portals:
            raise Refused("34000", f"there is no portal {name}")
        return self.portals[name]

    def portal_columns(self, portal: Portal) -> list[Column] | None:
        """The columns of a bound statement."""
        assert self.engine
        if portal.columns is None and portal.statement.tokens and self.engine.only_reads(portal.statement.tokens):
            portal.result = self.engine.run(portal.statement.tokens, portal.values)
            portal.columns = portal.result.columns
        elif portal.columns is None and portal.statement.tokens:
            portal.columns = self.engine.described(portal.statement)
        return portal.columns

    def execute(self, payload: Payload) -> None:
        """Does a bound statement, or gives more of its rows."""
        name, most = payload.text(), payload.int32()
        portal = self.portal(name)
        if not portal.statement.tokens:
            self.wire.send(message(b"I"))
            return
        self.guarded(lambda: self.run_portal(portal, most))

    def run_portal(self, portal: Portal, most: int) -> None:
        """At most so many rows of a portal (0: all); the rest stays for the next time."""
        assert self.engine
        if verb_of(portal.statement.tokens) == "copy":
            self.copy(portal.statement.tokens)
            return
        if portal.is_done:
            raise Refused("55000", "the portal is done: bind again")
        if portal.result is None:
            portal.result = self.engine.run(portal.statement.tokens, portal.values)
        result = portal.result
        columns = portal.columns if portal.columns is not None else result.columns
        end = min(portal.at + most, len(result.rows)) if most > 0 else len(result.rows)
        if columns is not None:
            self.send_rows(result.rows[portal.at : end], columns, portal.formats)
        portal.at = end
        if end < len(result.rows):
            self.wire.send(message(b"s"))
            return
        portal.is_done = result.columns is None
        self.finish(result)

    def close(self, payload: Payload) -> None:
        """Forgets a prepared statement or a portal."""
        kind, name = payload.take(1), payload.text()
        (self.statements if kind == b"S" else self.portals).pop(name, None)  # type: ignore[attr-defined]
        self.wire.send(message(b"3"))

    def sync(self, payload: Payload) -> None:
        """The end of a row of messages."""
        assert self.engine
        self.is_skipping = False
        if self.engine.state == "I":
            self.portals.clear()
        self.ready()

    def flush(self, payload: Payload) -> None:
        """The client waits."""
        self.wire.flush()

    # COPY

    def copy(self, tokens: list[Token]) -> None:
        """COPY FROM STDIN or TO STDOUT."""
        assert self.engine
        if self.engine.state == "E":
            raise Refused("25P02", "the transaction has failed: ROLLBACK ends it")
        copy = pg_copy.copy_of(tokens)
        if copy.is_from:
            self.copy_in(copy, tokens)
        else:
            self.copy_out(copy, tokens)

    def columns_for(self, copy: pg_copy.Copy, tokens: Sequence[Token]) -> list[tuple[str, int]]:
        """The columns that a COPY of a relation names, or all its attributes."""
        assert self.engine
        shape = next((one for one in self.engine.shapes if one.name.lower() == copy.relation.lower()), None)
        if shape is None:
            raise Refused("42P01", f"no such table: {copy.relation}", position=tokens[1].at + 1)
        types = {name.lower(): (name, oid) for name, oid in shape.columns}
        for name in copy.columns:
            if name.lower() not in types:
                raise Refused("42703", f"{shape.name} has no column named {name}")
        return [types[name.lower()] for name in copy.columns] or list(shape.columns[: shape.attributes])

    def copy_out(self, copy: pg_copy.Copy, tokens: Sequence[Token]) -> None:
        """Rows of a relation or of a query go to the client."""
        assert self.engine
        if copy.query:
            inner = copy.query
        else:
            names = ", ".join(pg_describe.quoted_name(name) for name, _ in self.columns_for(copy, tokens))
            inner = query_tokens(f"SELECT {names} FROM {pg_describe.quoted_name(copy.relation)}")[0]
        if not self.engine.only_reads(inner):
            raise Refused("0A000", "COPY (..) TO takes a query", position=tokens[0].at + 1)
        result = self.engine.run(inner)
        columns = result.columns or []
        self.wire.send(copy_response(b"H", len(columns)))
        if copy.has_header:
            self.wire.send(message(b"d", pg_copy.line_for(copy, [one.name for one in columns])))
        for row in result.rows:
            self.wire.send(message(b"d", pg_copy.line_for(copy, row)))
        self.wire.send(message(b"c"))
        self.finish(Result(f"COPY {len(result.rows)}"))

    def copy_in(self, copy: pg_copy.Copy, tokens: Sequence[Token]) -> None:
        """Rows of the client go into a relation. All are read, and their cells looked at, before the first is told."""
        columns = self.columns_for(copy, tokens)
        self.wire.send(copy_response(b"G", len(columns)))
        self.wire.flush()
        rows = [self.row_of(number, cells, columns) for number, cells in pg_copy.lines_of(copy, self.copied())]
        self.finish(Result(f"COPY {self.insert(copy, columns, rows)}"))

    def copied(self) -> str:
        """All that a client sends."""
        parts: list[bytes] = []
        while True:
            kind, payload = self.wire.receive()
            if kind == b"d":
                parts.append(payload.rest())
            elif kind == b"c":
                return pg_types.utf8(b"".join(parts))
            elif kind == b"f":
                raise Refused("57014", f"the client stopped COPY: {payload.text()}")
            elif kind not in (b"H", b"S"):
                raise WireFault(f"a message {kind!r} inside COPY")

    def row_of(self, number: int, cells: Sequence[str | None], columns: Columns) -> list[pg_types.Value]:
        """The values of a line."""
        if len(cells) != len(columns):
            wanted = ", ".join(name for name, _ in columns)
            raise Refused("22P04", f"line {number}: {len(cells)} cells, and {len(columns)} are wanted: {wanted}")
        values: list[pg_types.Value] = []
        for one, (name, oid) in zip(cells, columns):
            try:
                values.append(None if one is None else pg_types.whole(one) if oid == pg_types.INT8 else one)
            except pg_types.BadValue as fault:
                raise Refused(fault.state, f"line {number}: {name}: {fault}") from fault
        return values

    def insert(self, copy: pg_copy.Copy, columns: Columns, rows: Sequence[Sequence[pg_types.Value]]) -> int:
        """Tells rows, many at a time; how many."""
        assert self.engine
        names = ", ".join(pg_describe.quoted_name(name) for name, _ in columns)
        sql = f"INSERT INTO {pg_describe.quoted_name(copy.relation)} ({names}) VALUES ({', '.join('?' * len(columns))})"
        for start in range(0, len(rows), BATCH):
            try:
                self.engine.many(sql, rows[start : start + BATCH])
            except Refused as fault:
                done = start + fault.done
                refused = getattr(fault.__cause__, "refused", None)
                place = f"row {start + refused[0][0] + 1}: " if refused else ""
                detail = f"{done} row{'s' * (done != 1)} stand" if done else ""
                raise Refused(fault.state, place + str(fault), detail=detail) from fault
            if self.is_cancelled.is_set():
                raise Refused("57014", f"cancelled by its user: {start + BATCH} rows stand")
        return len(rows)

