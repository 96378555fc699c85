"""mldb from Python: DB-API 2.0 (PEP 249), and all of SQL at the client.

    import mldb
    db = mldb.connect("/run/mldb/sock", "S", schemes="schemes.toml")
    for row in db.execute("SELECT Starship, Objective FROM SOD_highest WHERE Destination = ?", ("Talos",)):
        print(row)

Every result is made of rows that the label was shown: nothing here decides what a label may see. docs/python.md has
more."""

from mldb.catalogue import Attribute, Relation, read_schemes
from mldb.connection import Connection, connect
from mldb.cursor import Cursor
from mldb.errors import (
    DatabaseError,
    DataError,
    Error,
    IntegrityError,
    InterfaceError,
    InternalError,
    NotSupportedError,
    OperationalError,
    ProgrammingError,
    Warning,
)
from mldb.program import Program, serve
from mldb.values import (
    BINARY,
    DATETIME,
    NUMBER,
    ROWID,
    STRING,
    Binary,
    Date,
    DateFromTicks,
    Time,
    TimeFromTicks,
    Timestamp,
    TimestampFromTicks,
)

__version__ = "2.1.0"
apilevel = "2.0"
threadsafety = 1
paramstyle = "qmark"

__all__ = [
    "Attribute", "BINARY", "Binary", "Connection", "Cursor", "DATETIME", "DataError", "DatabaseError", "Date",
    "DateFromTicks", "Error", "IntegrityError", "InterfaceError", "InternalError", "NUMBER", "NotSupportedError",
    "OperationalError", "Program", "ProgrammingError", "ROWID", "Relation", "STRING", "Time", "TimeFromTicks",
    "Timestamp", "TimestampFromTicks", "Warning", "apilevel", "connect", "paramstyle", "read_schemes", "serve",
    "threadsafety",
]
