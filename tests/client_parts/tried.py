"""What the parts of tests/client share: counts, the program, and things to start."""

import contextlib
import os
import traceback

import mldb

ROOT = os.path.dirname(os.path.dirname(os.path.dirname(os.path.abspath(__file__))))
POLICY, SCHEMES = f"{ROOT}/samples/policy.toml", f"{ROOT}/samples/schemes.toml"
TRANSACTIONS, CERTIFICATES = f"{ROOT}/samples/transactions.txt", f"{ROOT}/samples/certificates.txt"
PROGRAM, STATEMENTS, IS_BRIEF = "", 3000, False
passed = 0
failures = []
AWKWARD = [
    "plain", 'a "quoted" one', '"', '""', "\\", '\\"', "ends with \\", "a, b", "--", "a -- b", ";", "a; b", "  leading",
    "trailing  ", "# no comment",
    "null", "NULL", "close", 'x") values (null, null)', 'insert SOD key ("y") values (null, null)', "U U/ann done",
    "row", " | ", '" U | "', "(",
    "=1+1", "Z\u00fcrich", "\u65e5\u672c\u8a9e", "\U0001f680", "\u2028", "\u0085", "\ufeff", "e\u0301", "\u202e",
    "x" * 8192, "\u00e9" * 4096, "\\x0a", "a\nb", "a\r", "a\tb", "\x7f", "\x1b[2J", "\n",
    "'", "''", "5", "", "it's", "?", "%", "=", "= 22 Expected at 1",
]


class Found(BaseException):
    """A planted fault is found."""


def failed(what, fault=None):
    failures.append(what)
    print(f"not so: {what}", flush=True)
    if fault is not None:
        traceback.print_exception(fault)
    if IS_BRIEF and passed:
        raise Found


def expect(what, got, wanted):
    """Counts whether something is as it should be."""
    global passed
    if got == wanted:
        passed += 1
    else:
        failed(f"{what}: got {got!r}, and not {wanted!r}")


@contextlib.contextmanager
def raises(what, kind, code=None, name=None):
    """Counts whether the error is raised, of just that class and with that number. Gives a list that will have it."""
    global passed
    found = []
    try:
        yield found
    except Exception as fault:  # noqa: BLE001
        found.append(fault)
    got = found[0] if found else None
    if type(got) is kind and (code is None or got.code == code) and (name is None or got.name == name):
        passed += 1
    else:
        failed(f"{what}: raised {type(got).__name__} {got}, and not {kind.__name__} {code or ''} {name or ''}")


def serve(**options):
    """The program, over the samples unless told else."""
    return mldb.serve(options.pop("policy", POLICY), options.pop("schemes", SCHEMES), program=PROGRAM, **options)


class Asked:
    """Takes down the lines that go over a connection."""

    def __init__(self, connection):
        self.lines = []
        self._wire = connection.session().wire
        self._converse = self._wire.converse
        self._wire.converse = self._note

    def _note(self, lines, *more):
        self.lines += [line.decode()[:-1] for line in lines]
        return self._converse(lines, *more)

    def taken(self):
        lines, self.lines = self.lines, []
        return [line.split(" ", 2)[2] for line in lines]
