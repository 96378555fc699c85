"""Several rows of one statement, each a change of its own: how far they went where one is refused, and how many are
under way."""

import mldb
import tried

INSERT = "INSERT INTO CREW (Id, Post) VALUES (?, ?)"


def told(found):
    """Of an error the rows that are done, that were sent, and that were refused."""
    return (found[0].done, found[0].sent, found[0].refused) if found else None


def try_one(connection):
    """`execute` sends one row at a time."""
    connection.execute("INSERT INTO CREW (Id) VALUES (3)")
    with tried.raises("the third is there", mldb.IntegrityError, 12) as found:
        connection.execute("INSERT INTO CREW (Id) VALUES (1), (2), (3), (4), (5)")
    tried.expect("two are done", told(found), (2, 3, [(2, "refused 12 Duplicate")]))
    tried.expect("and kept", connection.execute("SELECT Id FROM CREW ORDER BY 1").fetchall(), [(1,), (2,), (3,)])
    tried.expect("rows of an update", connection.execute("UPDATE CREW SET Post = 'x' WHERE Id > 1").rowcount, 2)
    tried.expect("rows of a deletion", connection.execute("DELETE FROM CREW").rowcount, 3)


def try_many(connection):
    """`executemany` has up to 64 lines under way, the first alone."""
    cursor = connection.cursor()
    cursor.executemany(INSERT, ((number, f"post {number}") for number in range(200)))
    tried.expect("rows of many", cursor.rowcount, 200)
    with tried.raises("the first is there", mldb.IntegrityError, 12) as found:
        cursor.executemany(INSERT, [(0, None), *((number, None) for number in range(300, 400))])
    tried.expect("nothing else is sent", told(found), (0, 1, [(0, "refused 12 Duplicate")]))
    with tried.raises("some are there", mldb.IntegrityError, 12) as found:
        cursor.executemany(INSERT, [(1000 + number if number not in (5, 7) else number, None) for number in range(500)])
    done, sent, refused = told(found)
    tried.expect("those that were under way are told", (refused, done + 2 == sent, sent < 100),
                 ([(5, "refused 12 Duplicate"), (7, "refused 12 Duplicate")], True, True))
    tried.expect("as they are", connection.execute("SELECT count(*) FROM CREW WHERE Id >= 1000").fetchone(), (done,))
    with tried.raises("a bad row among many", mldb.DataError) as found:
        cursor.executemany(INSERT, [(2000, None), (2001, None), (2002, 1.5)])
    tried.expect("nothing is sent", told(found), (0, 0, []))
    tried.expect("of them", connection.execute("SELECT count(*) FROM CREW WHERE Id >= 2000").fetchone(), (0,))
    cursor.executemany("UPDATE CREW SET Post = ? WHERE Id = ?", [("a", 1), ("b", 2), ("c", -9)])
    tried.expect("many updates", cursor.rowcount, 2)
    with tried.raises("a bad update among many", mldb.ProgrammingError):
        cursor.executemany("SELECT ?", [(1,)])
    cursor.executemany(INSERT, [])
    tried.expect("none", cursor.rowcount, 0)
    with tried.raises("the second is refused", mldb.IntegrityError, 12) as found:
        cursor.executemany("INSERT INTO CREW (Id, Post) SELECT ?, max(Post) FROM CREW", [(5000,), (1,), (5001,)])
    tried.expect("one by one", told(found), (1, 2, [(1, "refused 12 Duplicate")]))
    with tried.raises("too few", mldb.ProgrammingError):
        cursor.executemany(INSERT, [(1,)])


def try_window(connection):
    """Never more than 64 lines without their answers."""
    wire = connection.session().wire
    most, owed, write, answer = 0, 0, wire._write, wire._answer

    def writing(data):
        nonlocal most, owed
        owed += data.count(b"\n")
        most = max(most, owed)
        write(data)

    def answering():
        nonlocal owed
        owed -= 1
        return answer()

    wire._write, wire._answer = writing, answering
    connection.executemany(INSERT, [(number, None) for number in range(-300, 0)])
    wire._write, wire._answer = write, answer
    tried.expect("under way", (most, owed), (64, 0))


def try_all():
    with tried.serve() as program, mldb.connect(program, "U", user="ann") as connection:
        try_one(connection)
        try_many(connection)
        try_window(connection)
