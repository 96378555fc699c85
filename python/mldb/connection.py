"""Connections: a session, the relations that it may ask of, and the copy in SQLite that does its SQL."""

import getpass
import os
from collections.abc import Callable, Iterable, Mapping, Sequence
from functools import partial

from mldb import catalogue, errors, values
from mldb.catalogue import Relation
from mldb.cursor import Cursor
from mldb.errors import InterfaceError, NotSupportedError, OperationalError, ProgrammingError
from mldb.local import Local
from mldb.program import Path, Program, serve
from mldb.session import NAME, Session
from mldb.transaction import Transaction
from mldb.wire import ProcessWire, SocketWire, Wire

BELOW = ("leave", "derive")
LEVELS = (None, "BATCH")


class Connection:
    """A session of one user at one label. Each command is a change of its own, and `commit` has nothing to do; or, with
    isolation_level="BATCH", what is written waits for it."""

    Warning, Error = errors.Warning, errors.Error
    InterfaceError, DatabaseError = errors.InterfaceError, errors.DatabaseError
    DataError, OperationalError, IntegrityError = errors.DataError, errors.OperationalError, errors.IntegrityError
    InternalError, ProgrammingError = errors.InternalError, errors.ProgrammingError
    NotSupportedError = errors.NotSupportedError

    def __init__(self, session: Session, relations: dict[str, Relation], below: str, leave: Callable[[], None]):
        if below not in BELOW:
            raise InterfaceError(f"below={below!r}: it is 'leave' or 'derive'")
        self._session, self._leave = session, leave
        self._local: Local | None = None
        self._transaction: Transaction | None = None
        self.label, self.user = session.label, session.user
        self.relations, self.below = relations, below
        self.is_closed = False

    def session(self) -> Session:
        """The session, of a connection that is not closed."""
        if self.is_closed:
            raise ProgrammingError("the connection is closed: connect again")
        return self._session

    def local(self) -> Local:
        """The copy in SQLite, which is made at the first statement."""
        self.session()
        self._local = self._local or Local(self._session, self.relations)
        self._local.transaction = self._transaction
        return self._local

    def ask(self, line: str) -> list[str]:
        """Sends a line of a session as it is: the lines of its answer as they were printed, also where it was denied or
        refused."""
        return self.session().ask(line)

    def command(self, line: str) -> list[str]:
        """Sends a line of a session: what the lines of its reply say. A denied or refused one raises its error."""
        return self.session().command(line)

    def derive(self, relation: str, key: Sequence, key_class: str, from_class: str | None = None, /,
               **changes: object) -> None:
        """Makes a tuple at this label above one of `from_class`, or else of the key's class: a cover story, or the
        truth above one."""
        scheme = self.relations.get(relation)
        if scheme is None or len(key) != scheme.key_size:
            told = f"{relation}: no relation of that name and {len(key)} key attributes: see the schemes"
            raise ProgrammingError(told)
        for label in (key_class, from_class or key_class):
            if not isinstance(label, str) or not NAME.match(label):
                raise ProgrammingError(f"{label!r}: a class is the name of a label")
        kinds = {one.name: one.kind for one in scheme.others}
        if not changes or not kinds.keys() >= changes.keys():
            told = ", ".join(changes) or "no change"
            raise ProgrammingError(f"{told}: name attributes outside the key: {', '.join(kinds) or 'there are none'}")
        told = ", ".join(values.spelt(value, one.kind, one.name) for value, one in zip(key, scheme.key))
        sets = ", ".join(f"{name} = {values.spelt(value, kinds[name], name)}" for name, value in changes.items())
        command = f"update {relation} key ({told}) class {key_class} from {from_class or key_class} set {sets}"
        if self._transaction is None:
            self.session().command(command)
        else:
            self.session()
            self._transaction.blind(scheme, command)

    def cursor(self) -> Cursor:
        """A cursor. All cursors of a connection see the same."""
        self.session()
        return Cursor(self)

    def execute(self, sql: str, parameters: Sequence | Mapping = ()) -> Cursor:
        """A new cursor that has executed a statement."""
        return self.cursor().execute(sql, parameters)

    def executemany(self, sql: str, rows: Iterable[Sequence | Mapping]) -> Cursor:
        """A new cursor that has executed a statement for each row."""
        return self.cursor().executemany(sql, rows)

    def _begin(self, isolation_level: str | None) -> None:
        """Transactions from now on, or none."""
        self._transaction = Transaction(self.label) if isolation_level else None

    @property
    def isolation_level(self) -> str | None:
        """"BATCH" of a connection with transactions, else None."""
        return None if self._transaction is None else "BATCH"

    @property
    def autocommit(self) -> bool:
        """Whether each command is kept when it is done."""
        return self._transaction is None

    @autocommit.setter
    def autocommit(self, value: bool) -> None:
        if value != self.autocommit:
            raise NotSupportedError('connect with isolation_level="BATCH" for transactions, and without it for none')

    @property
    def in_transaction(self) -> bool:
        """Whether something was read or is to be written since the last commit."""
        return self._transaction is not None and self._transaction.has_begun

    def commit(self) -> None:
        """Sends what the transaction writes as one batch: it is done whole, or not at all. It is refused where rows
        that were read by their key, or are changed, do not stand as they did. Without transactions it does nothing."""
        session = self.session()
        batch = self._transaction and self._transaction.batch()
        if batch:
            session.encoded(batch)
            self._begin(self.isolation_level)
            session.command(batch)
        else:
            self._begin(self.isolation_level)

    def rollback(self) -> None:
        """Forgets what the transaction read and would write. Not supported without transactions: each command is kept
        when it is done."""
        self.session()
        if self._transaction is None:
            raise NotSupportedError("each command is kept when it is done: nothing can be taken back")
        self._begin(self.isolation_level)

    def interrupt(self) -> None:
        """Ends the statement that is at work, which raises KeyboardInterrupt. Any thread may call it."""
        if self._local is not None:
            self._local.interrupt()

    def close(self) -> None:
        """Ends the session, where no other connection has it."""
        if not self.is_closed:
            self.is_closed = True
            self._leave()

    def __enter__(self) -> "Connection":
        return self

    def __exit__(self, *_: object) -> None:
        self.close()


def _of_program(program: Program, label: str, user: str, schemes: Path | None, below: str,
                leave_too: Callable[[], None] | None = None) -> Connection:
    """A connection to a program that was started here."""
    relations = program.relations if schemes is None else catalogue.read_schemes(schemes)
    session = program.enter(label, user)

    def leave() -> None:
        try:
            program.leave(session)
        except OperationalError:
            pass
        finally:
            if leave_too:
                leave_too()

    return Connection(session, relations, below, leave)


def _of_own_program(program: Program, label: str, user: str, schemes: Path | None, below: str) -> Connection:
    """A connection to a program that ends with it."""
    try:
        return _of_program(program, label, user, schemes, below, program.close)
    except BaseException:
        program.close()
        raise


def connect(target: Path | Sequence[Path] | Program | None = None, label: str | None = None, *, user: str | None = None,
            schemes: Path | None = None, policy: Path | None = None, store: Path | None = None,
            transactions: Path | None = None, certificates: Path | None = None, program: Path = "mldb",
            below: str = "leave", isolation_level: str | None = None, gateway: bool | None = None,
            timeout: float | None = None) -> Connection:
    """A connection at a label.

    `target` is the path of a gateway's socket; or the words of a command that leads to a gateway, or that is `mldb
    serve` itself (one that has the word `serve`, unless `gateway` says what it is); or a Program that `serve`
    returned. Without one the program is started here, with `policy`, `schemes` and `store`. `user` is else the name
    of the account. `below="derive"` lets an UPDATE of lower rows make tuples above them. With
    `isolation_level="BATCH"` what is written waits for `commit`. `timeout` is of a socket, in seconds."""
    if label is None:
        raise InterfaceError("give a label: connect(target, label, ..)")
    if isolation_level not in LEVELS:
        raise InterfaceError(f"isolation_level={isolation_level!r}: it is None or 'BATCH'")
    made = _connected(target, label, user or getpass.getuser(), schemes, policy, store, transactions, certificates,
                      program, below, gateway, timeout)
    made._begin(isolation_level)
    return made


def _connected(target: Path | Sequence[Path] | Program | None, label: str, user: str, schemes: Path | None,
               policy: Path | None, store: Path | None, transactions: Path | None, certificates: Path | None,
               program: Path, below: str, gateway: bool | None, timeout: float | None) -> Connection:
    if isinstance(target, Program):
        return _of_program(target, label, user, schemes, below)
    if target is None:
        if policy is None or schemes is None:
            raise InterfaceError("give a socket, a command or a program; or policy= and schemes= to start one here")
        own = serve(policy, schemes, store=store, transactions=transactions, certificates=certificates, program=program)
        return _of_own_program(own, label, user, None, below)
    if isinstance(target, (str, os.PathLike)):
        return _of_gateway(partial(SocketWire, os.fspath(target), timeout), label, user, schemes, below)
    words = [os.fspath(word) for word in target]
    if not words:
        raise InterfaceError("give the words of a command: none is there")
    if gateway is False or gateway is None and "serve" in words:
        return _of_own_program(Program(words, schemes), label, user, None, below)
    return _of_gateway(partial(ProcessWire, words), label, user, schemes, below)


def _of_gateway(make: Callable[[], Wire], label: str, user: str, schemes: Path | None, below: str) -> Connection:
    """A connection to a gateway, to which a wire leads."""
    relations = catalogue.read_schemes(schemes) if schemes is not None else {}
    wire = make()
    try:
        session = Session(wire, label, user, is_gateway=True)
        session.open()
        return Connection(session, relations, below, wire.close)
    except BaseException:
        wire.close()
        raise
