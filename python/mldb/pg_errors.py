"""SQLSTATE of what `mldb`, the module and SQLite refuse.

| what | SQLSTATE | reason |
|---|---|---|
| 11, 14 | 23502 | a null where none may be: of the key; above the key class |
| 12, 17 | 23505 | there is such a tuple already: of this key; of this label |
| 13 | 02000 | no such tuple: it has been taken away meanwhile |
| 15 | 55000 | the value comes from a lower tuple, and is changed there |
| 16 | 23514 | the label is outside an attribute's interval, as outside a check |
| 18 | 40001 | what a transaction read has changed: do it again |
| 31, 32 | 08003, 42710 | the session is not open; another connection has it open |
| 33 | 28000 | the policy has no such user |
| 34 | 42883 | no such transaction, as no such function |
| 35 to 39 | 42501 | not certified, no right, no clearance, another label, no trust: all say that one may not |
| 40 | 42P02 | arguments of a call: their number or their kind |
| 21, 22, 30 | 42601 | a line that `mldb` does not read |
| 23 | 42704 | a name that nothing declares |
| 24 | 42804 | a value of another kind |
| 25 | 42701 | a name twice |
| 26 | 54001 | too deep |
| 27, too long | 54000 | too long |
| 28 | 42P17 | labels in the wrong order |
| 29 and want of memory | 53200 | |
| Store, Write; a connection that is cut, a program that ended | 58030; 08006 | the client has to connect again |
| no such label | 3D000 | the name of the database is the label |

What SQLite refuses: 42601 for syntax, 42P01, 42703, 42883, 42702 for names, 22003, 22P02 for values, else XX000."""

from __future__ import annotations

import re

STATES = {
    **dict.fromkeys([11, 14], "23502"), **dict.fromkeys([12, 17], "23505"),
    **dict.fromkeys([21, 22, 30], "42601"), **dict.fromkeys(range(35, 40), "42501"),
    13: "02000", 15: "55000", 16: "23514", 18: "40001", 23: "42704", 24: "42804", 25: "42701", 26: "54001", 27: "54000",
    28: "42P17", 29: "53200", 31: "08003", 32: "42710", 33: "28000", 34: "42883", 40: "42P02",
}
CAUSES = {"Store": "58030", "Write": "58030", "Memory": "53200", "too long": "54000"}
TEXTS = [
    (r'near ".*": syntax error|incomplete input|unrecognized token|syntax error', "42601"),
    (r"no such table", "42P01"),
    (r"no such column|has no column named", "42703"),
    (r"no such function|wrong number of arguments to function", "42883"),
    (r"ambiguous column name", "42702"),
    (r"misuse of aggregate|misuse of window", "42803"),
    (r"interrupted", "57014"),
    (r"too many|parser stack overflow|expression tree is too large|String or BLOB exceeded", "54000"),
    (r"integer overflow", "22003"),
    (r"datatype mismatch", "42804"),
    (r"Incorrect number of bindings", "08P01"),
    (r"\d+ values for \d+ columns|all VALUES must have the same number", "42601"),
    (r"out of memory", "53200"),
    (r"You can only execute one statement", "42601"),
    (r"not authorized|prohibited", "42501"),
    (r"surrogates not allowed|null character|half a character", "22021"),
    (r"UNIQUE constraint", "23505"),
    (r"NOT NULL constraint", "23502"),
]
CLASSES = {
    "InterfaceError": "08P01", "DataError": "22000", "OperationalError": "08006", "IntegrityError": "23000",
    "ProgrammingError": "42000", "NotSupportedError": "0A000", "InternalError": "XX000",
}


def state_of(fault: BaseException) -> str:
    """The SQLSTATE of an exception of the module or of SQLite."""
    code = getattr(fault, "code", None)
    if isinstance(code, int) and code in STATES:
        return STATES[code]
    name = getattr(fault, "name", None)
    if isinstance(name, str) and name in CAUSES:
        return CAUSES[name]
    for pattern, state in TEXTS:
        if re.search(pattern, str(fault)):
            return state
    return next((CLASSES[one.__name__] for one in type(fault).__mro__ if one.__name__ in CLASSES), "XX000")
