"""`mldb serve`, started for one or several connections."""

import os
from collections import Counter
from collections.abc import Sequence

from mldb import catalogue
from mldb.session import Session
from mldb.wire import ProcessWire

Path = str | os.PathLike


class Program:
    """A program at work: each connection to it is a session of its own. It ends at `close`, or at the end of its
    `with`."""

    def __init__(self, command: Sequence[Path], schemes: Path | None = None):
        self.relations = catalogue.read_schemes(schemes) if schemes is not None else {}
        self.wire = ProcessWire([os.fspath(word) for word in command])
        self._sessions: Counter[tuple[str, str]] = Counter()

    def enter(self, label: str, user: str) -> Session:
        """A session of a user at a label, which those connections share that are alike."""
        session = Session(self.wire, label, user, is_gateway=False)
        session.open()
        self._sessions[label, user] += 1
        return session

    def leave(self, session: Session) -> None:
        """Closes a session after its last connection."""
        names = session.label, session.user
        self._sessions[names] -= 1
        if not self._sessions[names]:
            session.ask("close")

    def close(self) -> None:
        """Ends the program, which closes its store."""
        self.wire.close()

    def __enter__(self) -> "Program":
        return self

    def __exit__(self, *_: object) -> None:
        self.close()


def serve(policy: Path, schemes: Path, *, store: Path | None = None, transactions: Path | None = None,
          certificates: Path | None = None, program: Path = "mldb") -> Program:
    """Starts `mldb serve` over a store, or over an empty database in memory. Connections take what is returned as their
    first argument."""
    options = (("--store", store), ("--transactions", transactions), ("--certificates", certificates))
    words = [word for name, path in options if path is not None for word in (name, path)]
    return Program([program, "serve", *words, policy, schemes], schemes)
