"""DB-API 2.0, clause by clause, in the order of PEP 249."""

import datetime
import time

import mldb
import tried

INSERT = "INSERT INTO main . CREW AS c VALUES ( 9 , NULL )".split()
ERRORS = {"InterfaceError": mldb.Error, "DatabaseError": mldb.Error, "DataError": mldb.DatabaseError,
          "OperationalError": mldb.DatabaseError,
          "IntegrityError": mldb.DatabaseError, "InternalError": mldb.DatabaseError,
          "ProgrammingError": mldb.DatabaseError,
          "NotSupportedError": mldb.DatabaseError, "Error": Exception, "Warning": Exception}
BAD = [
    ("SELECT ?", (), mldb.ProgrammingError), ("SELECT 1", (1,), mldb.ProgrammingError),
    ("SELECT ?", "a", mldb.ProgrammingError), ("SELEC 1", (), mldb.ProgrammingError),
    ("SELECT 1; SELECT 2", (), mldb.ProgrammingError), ("SELECT ?", 5, mldb.ProgrammingError),
    ("SELECT :a", {"b": 1}, mldb.ProgrammingError),
    ("CREATE TABLE x (a)", (), mldb.NotSupportedError),
    ("CREATE TEMP TABLE x (a)", (), mldb.NotSupportedError), ("DROP TABLE CREW", (), mldb.NotSupportedError),
    ("ATTACH '/tmp/x' AS x", (), mldb.NotSupportedError),
    ("PRAGMA writable_schema = 1", (), mldb.NotSupportedError), ("BEGIN", (), mldb.NotSupportedError),
    ("VACUUM", (), mldb.NotSupportedError), ("VACUUM INTO '/nowhere/x'", (), mldb.NotSupportedError),
    ("REINDEX", (), mldb.NotSupportedError), ("SAVEPOINT x", (), mldb.NotSupportedError),
    *((sql, (), mldb.ProgrammingError) for sql in (None, b"SELECT 1", "", "-- SELECT 1", "SELECT 1\0")),
    *((" ".join(INSERT[:size]), (), mldb.ProgrammingError) for size in range(1, len(INSERT))),
    ("DROP TRIGGER \"mldb insert CREW\"", (), mldb.NotSupportedError),
    ("SELECT mldb_note('insert', 0, 0)", (), mldb.NotSupportedError),
    ("INSERT INTO CREW_highest (Id) VALUES (1)", (), mldb.ProgrammingError),
    ("DELETE FROM CREW_classes", (), mldb.ProgrammingError),
    ("DELETE FROM sqlite_schema", (), mldb.ProgrammingError),
    ("INSERT OR REPLACE INTO CREW (Id) VALUES (1)", (), mldb.NotSupportedError),
    ("REPLACE INTO CREW (Id) VALUES (1)", (), mldb.NotSupportedError),
    ("INSERT INTO CREW (Id) VALUES (1) ON CONFLICT DO NOTHING", (), mldb.NotSupportedError),
    ("UPDATE OR IGNORE CREW SET Post = 'x'", (), mldb.NotSupportedError),
    ("DELETE FROM CREW RETURNING Id", (), mldb.NotSupportedError),
    ("INSERT INTO CREW VALUES (1)", (), mldb.ProgrammingError),
    ("SELECT * FROM nowhere", (), mldb.ProgrammingError),
]


def try_module():
    """Globals and exceptions."""
    tried.expect("globals", (mldb.apilevel, mldb.threadsafety, mldb.paramstyle), ("2.0", 1, "qmark"))
    for name, base in ERRORS.items():
        tried.expect(f"{name}", getattr(mldb, name).__bases__, (base,))
        tried.expect(f"{name} of a connection", getattr(mldb.Connection, name), getattr(mldb, name))
    tried.expect("all names are there", [name for name in mldb.__all__ if not hasattr(mldb, name)], [])


def try_types():
    """Constructors and types."""
    tried.expect("Date", mldb.Date(2026, 11, 30), datetime.date(2026, 11, 30))
    tried.expect("Time", mldb.Time(20, 1, 2), datetime.time(20, 1, 2))
    tried.expect("Timestamp", mldb.Timestamp(2026, 11, 30, 20, 1, 2), datetime.datetime(2026, 11, 30, 20, 1, 2))
    now = 1_800_000_000
    local = time.localtime(now)
    tried.expect("DateFromTicks", mldb.DateFromTicks(now), datetime.date(*local[:3]))
    tried.expect("TimeFromTicks", mldb.TimeFromTicks(now), datetime.time(*local[3:6]))
    tried.expect("TimestampFromTicks", mldb.TimestampFromTicks(now), datetime.datetime(*local[:6]))
    tried.expect("Binary", mldb.Binary(b"a"), b"a")
    types = [mldb.STRING, mldb.BINARY, mldb.NUMBER, mldb.DATETIME, mldb.ROWID]
    tried.expect("types are five", len({*map(repr, types)}), 5)
    tried.expect("equal to themselves alone", [[one == two for two in types].count(True) for one in types], [1] * 5)


def try_cursor(connection):
    """Attributes and methods of a cursor."""
    cursor = connection.cursor()
    tried.expect("at first", (cursor.description, cursor.rowcount, cursor.arraysize, cursor.rownumber,
                              cursor.lastrowid), (None, -1, 1, None, None))
    tried.expect("its connection", cursor.connection is connection, True)
    for work in (cursor.fetchone, cursor.fetchmany, cursor.fetchall, cursor.nextset, lambda: next(cursor),
                 lambda: cursor.scroll(0)):
        with tried.raises("nothing was executed", mldb.ProgrammingError):
            work()
    cursor.executemany("INSERT INTO CREW (Id, Post) VALUES (?, ?)", [(number, f"post {number}") for number in range(5)])
    tried.expect("a write", (cursor.rowcount, cursor.description), (5, None))
    with tried.raises("a write has no rows", mldb.ProgrammingError):
        cursor.fetchall()
    cursor.execute("SELECT Id, Post, NULL AS Lacking, Id * 1.5, class FROM CREW ORDER BY Id")
    tried.expect("description", cursor.description, [
        ("Id", mldb.NUMBER, None, None, None, None, None), ("Post", mldb.STRING, None, None, None, None, None),
        ("Lacking", mldb.STRING, None, None, None, None, None), ("Id * 1.5", mldb.NUMBER, None, None, None, None, None),
        ("class", mldb.STRING, None, None, None, None, None)])
    tried.expect("rowcount", cursor.rowcount, 5)
    tried.expect("fetchone", cursor.fetchone(), (0, "post 0", None, 0.0, "U"))
    tried.expect("rownumber", cursor.rownumber, 1)
    tried.expect("fetchmany", [row[0] for row in cursor.fetchmany(2)], [1, 2])
    tried.expect("fetchmany takes arraysize", [row[0] for row in cursor.fetchmany()], [3])
    cursor.arraysize = 10
    tried.expect("and fewer at the end", [row[0] for row in cursor.fetchmany()], [4])
    tried.expect("at the end", (cursor.fetchone(), cursor.fetchmany(), cursor.fetchall(), list(cursor)),
                 (None, [], [], []))
    try_places(cursor)


def try_places(cursor):
    """Going to rows, of which none is left; and what does nothing; and a cursor that is closed."""
    cursor.scroll(-2)
    tried.expect("scroll", [row[0] for row in cursor.fetchall()], [3, 4])
    cursor.scroll(1, "absolute")
    tried.expect("iteration", [row[0] for row in cursor], [1, 2, 3, 4])
    with tried.raises("scroll beyond", IndexError):
        cursor.scroll(9, "absolute")
    with tried.raises("scroll by another mode", mldb.ProgrammingError):
        cursor.scroll(0, "sideways")
    tried.expect("nextset", cursor.nextset(), None)
    tried.expect("sizes", (cursor.setinputsizes([1]), cursor.setoutputsize(1), cursor.setoutputsize(1, 2)),
                 (None, None, None))
    tried.expect("empty: the kinds of attributes",
                 [one[1] for one in cursor.execute("SELECT Id, Post FROM CREW WHERE 0").description],
                 [mldb.NUMBER, mldb.STRING])
    cursor.close()
    for work in (lambda: cursor.execute("SELECT 1"), cursor.fetchone,
                 lambda: cursor.executemany("DELETE FROM CREW", [()]), lambda: cursor.callproc("Known")):
        with tried.raises("a closed cursor", mldb.ProgrammingError):
            work()


def try_statements(connection):
    """What a statement may be, and how it is wrong."""
    for sql, given, kind in BAD:
        with tried.raises(sql, kind):
            connection.execute(sql, given)
    tried.expect("nothing was done", connection.execute("SELECT count(*) FROM CREW").fetchone(), (5,))
    for sql, wanted in (("VALUES (1), (2)", [(1,), (2,)]), ("SELECT value FROM json_each('[1, 2]')", [(1,), (2,)]),
                        ("SELECT replace('a', 'a', 'b')", [("b",)]),
                        ("SELECT name FROM pragma_table_info('CREW')", [("Id",), ("Post",), ("class",)]),
                        ("SELECT name FROM sqlite_schema WHERE type = 'table' AND name LIKE 'C%' ORDER BY 1",
                         [("CREW",), ("CREW_classes",), ("CREW_highest",)])):
        tried.expect(sql, connection.execute(sql).fetchall(), wanted)
    for sql in ("EXPLAIN QUERY PLAN SELECT * FROM CREW", "EXPLAIN DELETE FROM CREW"):
        tried.expect(sql, connection.execute(sql).description is not None, True)
    tried.expect("a plan does nothing", connection.execute("SELECT count(*) FROM CREW").fetchone(), (5,))
    tried.expect("names", connection.execute("SELECT :a, :b", {"a": 1, "b": "x"}).fetchone(), (1, "x"))


def try_connection(program):
    """Attributes and methods of a connection."""
    with mldb.connect(program, "U", user="ann") as connection:
        tried.expect("commit", connection.commit(), None)
        with tried.raises("rollback", mldb.NotSupportedError):
            connection.rollback()
        tried.expect("each command is kept", connection.autocommit, True)
        connection.autocommit = True
        with tried.raises("autocommit stays", mldb.NotSupportedError):
            connection.autocommit = False
        tried.expect("label and user", (connection.label, connection.user), ("U", "ann"))
        relation = connection.relations["SOD"]
        tried.expect("relations", (relation.names, relation.key_size, relation.attributes[0]),
                     (("Starship", "Objective", "Destination"), 1, mldb.Attribute("Starship", "text", "U", "H", True)))
        cursor = connection.execute("SELECT 1")
        with connection.cursor() as other:
            other.execute("SELECT 2")
            tried.expect("two cursors", (cursor.fetchone(), other.fetchone()), ((1,), (2,)))
    for work in (connection.cursor, connection.commit, connection.rollback, cursor.fetchone,
                 lambda: cursor.execute("SELECT 1"),
                 lambda: connection.ask("audit"), lambda: connection.execute("SELECT 1")):
        with tried.raises("a closed connection", mldb.ProgrammingError):
            work()
    tried.expect("close twice", connection.close(), None)
    for call in (lambda one: one.derive("NOPE", (1,), "U", Post="x"),
                 lambda one: one.derive("CREW", (1, 2), "U", Post="x"), lambda one: one.derive("CREW", (1,), "U"),
                 lambda one: one.derive("CREW", (1,), "U", Id=3), lambda one: one.derive("CREW", (1,), None, Post="x"),
                 lambda one: one.derive("CREW", (1,), "U from U set Post = null", Post="x"),
                 lambda one: one.derive("CREW", (1,), "U", "U set Post = null --", Post="x")):
        with mldb.connect(program, "U", user="ann") as again, tried.raises("derive", mldb.ProgrammingError):
            call(again)


def try_all():
    try_module()
    try_types()
    with tried.serve() as program:
        with mldb.connect(program, "U", user="ann") as connection:
            try_cursor(connection)
            try_statements(connection)
        try_connection(program)
