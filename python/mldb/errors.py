"""The exceptions of PEP 249. Each has the number, the name and the words of the line that told it, where a line did."""

import re

from mldb import words

REPLY = re.compile(r"(denied|refused) ([0-9]+) ([A-Za-z]+)(?: at [0-9]+)?\Z")
FAULT = re.compile(r"([0-9]+) ([A-Za-z]+) at ([0-9]+)\Z")
MEMORY, UNEXPECTED = 29, 18


class Warning(Exception):  # noqa: A001 (the name is the standard's)
    """Something that is no error; nothing raises it."""


class Error(Exception):
    """What every error of the package is.

    `code` and `name` are those of docs/codes.md, `words` what mldb printed; each is None where no line told the error.
    `column` is the place in the command as it was given, counted from 1. `done` is the number of rows that this
    statement had changed before, `sent` that of the rows that were sent, and `refused` has the places of those among
    them that were refused, with the words of each. Of a wire that was cut `asked` counts the lines that went, and
    `answered` has the answers that came."""

    def __init__(self, message: str, *, code: int | None = None, name: str | None = None, told: str | None = None,
                 column: int | None = None):
        super().__init__(message)
        self.code, self.name, self.words, self.column = code, name, told, column
        self.done = 0
        self.sent = 0
        self.refused: list[tuple[int, str]] = []
        self.asked = 0
        self.answered: list[bytes] = []


class InterfaceError(Error):
    """The package was used in a wrong way."""


class DatabaseError(Error):
    """The database told it, or would."""


class DataError(DatabaseError):
    """A value that mldb cannot hold. Nothing was sent."""


class OperationalError(DatabaseError):
    """A denial; a program, a gateway or a connection that ended; what a transaction read has changed."""


class IntegrityError(DatabaseError):
    """A refused write."""


class InternalError(DatabaseError):
    """An answer that mldb does not give."""


class ProgrammingError(DatabaseError):
    """A line or a statement that is not understood."""


class NotSupportedError(DatabaseError):
    """What mldb, or this package, has not."""


def explained(told: str, code: int) -> str:
    """The words of a line, and what docs/codes.md says of its number."""
    known = words.SESSIONS.get(code)
    return f"{told}: {known.text}" if known else told


def of_reply(told: str) -> Error | None:
    """What is to be raised for the words of a reply, if anything."""
    found = REPLY.match(told)
    if found is None:
        return None
    kind = OperationalError if found[1] == "denied" or int(found[2]) == UNEXPECTED else IntegrityError
    return kind(explained(told, int(found[2])), code=int(found[2]), name=found[3], told=told)


def of_mark(told: str, before: int) -> Error:
    """What is to be raised for the words of a mark; so many bytes stood before the command."""
    found = FAULT.match(told)
    if found is None:
        return ProgrammingError(told, told=told)
    code, column = int(found[1]), int(found[3]) - before
    kind = OperationalError if code == MEMORY else ProgrammingError
    told = f"{code} {found[2]} at {column}"
    return kind(explained(told, code), code=code, name=found[2], told=told, column=column)
