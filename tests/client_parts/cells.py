"""Awkward values: what goes in comes out, as a value, in a key and in a condition; and what mldb cannot hold is refused
before a byte is sent."""

import datetime
import decimal

import mldb
import tried

LONG = "x" * 8193
REFUSED = ["\ud800", LONG, "\u00e9" * 4097, "\n" * 8193, 1.5, 5.0, float("nan"),
           float("inf"), b"a", bytearray(b"a"),
           1 << 63, -(1 << 63) - 1, decimal.Decimal("1.5"), object(), ("a",)]
BAD_SQL = [
    "INSERT INTO SOD (Starship) SELECT 'good' UNION ALL SELECT printf('%8193d', 1)",
    "INSERT INTO SOD (Starship) VALUES ('a'), (x'00')", "INSERT INTO CREW (Id) VALUES (1), (1.5)",
    "INSERT INTO CREW (Id) VALUES (1), ('one')", "INSERT INTO CREW (Id) VALUES (9223372036854775808)",
    "INSERT INTO SOD (Starship) VALUES ('\ud800')", f"INSERT INTO SOD (Starship) VALUES ('{LONG}')",
    "SELECT '\ud800'",
]
BAD_LINES = ["view SOD at U\nclose", "view SOD at U\n", 'insert SOD key ("\ud800") values (null, null)',
             "# " + "x" * (1 << 20), 5]
NUMBERS = [0, -1, True, (1 << 63) - 1, -(1 << 63)]


def try_values(connection, asked):
    """Each value by a parameter and by a literal."""
    for number, text in enumerate(tried.AWKWARD):
        connection.execute("INSERT INTO SOD (Starship, Objective) VALUES (?, ?)", (text, text))
        literal = "'" + text.replace("'", "''") + "'"
        connection.execute(f"INSERT INTO CREW (Id, Post) VALUES ({number + 10}, {literal})")
        for where, given in (("Starship = ?", (text,)), ("Objective = :text", {"text": text}),
                             (f"Starship = {literal}", ())):
            tried.expect(f"{text!r} by {where}",
                         connection.execute(f"SELECT Starship, Objective FROM SOD WHERE {where}", given).fetchall(),
                         [(text, text)])
        tried.expect(f"{text!r} of a literal", connection.execute("SELECT Post FROM CREW WHERE Id = ?",
                                                                  (number + 10,)).fetchone(), (text,))
        tried.expect(f"{text!r} updated", connection.execute("UPDATE SOD SET Destination = Starship WHERE Starship = ?",
                                                             (text,)).rowcount, 1)
    rows = sorted(connection.execute("SELECT Starship, Destination FROM SOD").fetchall())
    tried.expect("all of them", rows, sorted((text, text) for text in tried.AWKWARD))
    asked.taken()
    connection.execute("DELETE FROM SOD WHERE Starship = ?", (tried.AWKWARD[1],))
    tried.expect("a key as it is spelt", asked.taken()[-1], 'delete SOD key ("a \\"quoted\\" one") class U')
    connection.execute("DELETE FROM SOD"), connection.execute("DELETE FROM CREW")
    for number in NUMBERS:
        connection.execute("INSERT INTO CREW (Id) VALUES (?)", (number,))
        tried.expect(f"{number}", connection.execute("SELECT Id FROM CREW WHERE Id = ?", (number,)).fetchall(),
                     [(int(number),)])
    connection.execute("DELETE FROM CREW")


def try_refused(connection, asked):
    """Nothing is sent, and the rows before are not lost."""
    connection.execute("INSERT INTO SOD (Starship) VALUES ('before')")
    try_parameters(connection, asked)
    for sql in BAD_SQL:
        asked.taken()
        with tried.raises(repr(sql), mldb.DataError):
            connection.execute(sql)
        tried.expect(f"{sql!r:.60}: nothing is sent", asked.taken(), [])
    for line in BAD_LINES:
        asked.taken()
        with tried.raises(f"{line!r:.30} as a line", mldb.DataError):
            connection.ask(line)
        tried.expect(f"{line!r:.30}: nothing is sent", asked.taken(), [])
    tried.expect("all is as before", connection.execute("SELECT * FROM SOD").fetchall(), [("before", None, None, "U")])
    tried.expect("and in CREW", connection.execute("SELECT * FROM CREW").fetchall(), [])
    tried.expect("a fraction asks", connection.execute("SELECT ? > 1, ?", (1.5, "a\nb")).fetchone(), (1, "a\nb"))
    with tried.raises("no number", mldb.DataError):
        connection.execute("SELECT ?", (float("nan"),))


def try_parameters(connection, asked):
    """Bad values where a parameter may stand."""
    for value in REFUSED:
        asked.taken()
        with tried.raises(f"{value!r:.30} as a value", mldb.DataError):
            connection.execute("INSERT INTO SOD (Starship, Objective) VALUES ('bad', ?)", (value,))
        with tried.raises(f"{value!r:.30} among others", mldb.DataError):
            connection.executemany("INSERT INTO SOD (Starship, Objective) VALUES (?, ?)",
                                   [("good", "a"), ("bad", value), ("other", None)])
        tried.expect(f"{value!r:.30}: nothing is sent", asked.taken(), [])
        update = "UPDATE SOD SET Destination = 'x', Objective = ? WHERE Starship = 'before'"
        with tried.raises(f"{value!r:.30} in an update", mldb.DataError):
            connection.execute(update, (value,))
        with tried.raises(f"{value!r:.30} by a name", mldb.DataError):
            connection.execute(update.replace("?", ":v"), {"v": value})
        with tried.raises(f"{value!r:.30} in the second of two updates", mldb.DataError):
            connection.executemany(update, [("good",), (value,)])
        tried.expect(f"{value!r:.30}: nothing is sent of an update", asked.taken(), [])
        with tried.raises(f"{value!r:.30} made in an update", mldb.DataError):
            connection.execute("UPDATE SOD SET Objective = ifnull(NULL, ?) WHERE Starship = 'before'", (value,))
        tried.expect(f"{value!r:.30}: nothing is changed",
                     [line for line in asked.taken() if not line.startswith("view")], [])
        with tried.raises(f"{value!r:.30} derived", mldb.DataError):
            connection.derive("SOD", ("before",), "U", Objective=value)
        with tried.raises(f"{value!r:.30} as an argument", mldb.DataError):
            connection.cursor().callproc("Known", (value,))


def try_dates(connection):
    """Dates go in as texts of ISO 8601, and come out where a column asks for them."""
    day, time = datetime.date(2026, 11, 30), datetime.datetime(2026, 11, 30, 20, 1, 2)
    connection.execute("INSERT INTO SOD (Starship, Objective, Destination) VALUES ('dated', ?, ?)", (day, time))
    found = connection.execute("SELECT Objective, Destination FROM SOD WHERE Objective = ?", (day,)).fetchone()
    tried.expect("as texts", found, ("2026-11-30", "2026-11-30 20:01:02"))
    columns = 'Objective AS "Day [date]", Destination AS "Time [datetime]", NULL AS "None [date]"'
    cursor = connection.execute(f"SELECT {columns} FROM SOD WHERE Starship = 'dated'")
    tried.expect("as dates", cursor.fetchone(), (day, time, None))
    tried.expect("their names", [(one[0], one[1]) for one in cursor.description],
                 [(name, mldb.DATETIME) for name in ("Day", "Time", "None")])
    tried.expect("SQLite's functions",
                 connection.execute("SELECT date(Objective, '+1 day') FROM SOD WHERE Starship = 'dated'").fetchone(),
                 ("2026-12-01",))
    tried.expect("compared", connection.execute("SELECT count(*) FROM SOD WHERE Objective < ?",
                                                (datetime.date(2026, 12, 1),)).fetchone(), (1,))
    with tried.raises("no date", mldb.DataError):
        connection.execute("SELECT Starship AS \"x [date]\" FROM SOD")


def try_all():
    with tried.serve() as program, mldb.connect(program, "U", user="ann") as connection:
        asked = tried.Asked(connection)
        try_values(connection, asked)
        try_refused(connection, asked)
        try_dates(connection)
