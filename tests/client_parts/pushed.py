"""Which lines a statement asks: tests of one relation go to mldb, a whole key is looked up, and nothing is asked that
SQL would not want."""

import mldb
import tried

ALL, SOME = "view CREW at U", "view CREW at U where "
CASES = [
    ("SELECT * FROM CREW", (), [ALL]),
    ("SELECT count(*) FROM CREW", (), [ALL]),
    ("select count(*) from crew", (), [ALL]),
    ("SELECT EXISTS (SELECT 1 FROM Crew_Highest)", (), ["view CREW at U highest"]),
    ("delete from crew", (), [ALL]),
    ("SELECT 1", (), []),
    ("SELECT * FROM CREW WHERE Id = ?", (7,), [SOME + "Id = 7"]),
    ("select * from crew where id=:n", {"n": 7}, [SOME + "Id = 7"]),
    ("SELECT * FROM CREW c WHERE c.Id = -7 AND 'it''s \"' > \"c\".\"Post\" -- AND Id = 1", (),
     [SOME + 'Id = -7 and Post < "it\'s \\""']),
    ("SELECT * FROM CREW AS c WHERE (Id >= ?) AND Id < ? AND Post IS NULL", (1, 5),
     [SOME + "Id >= 1 and Id < 5 and Post = null"]),
    ("SELECT Post FROM CREW WHERE Id == 1 GROUP BY Post HAVING count(*) = 2 ORDER BY 1 LIMIT 3;", (),
     [SOME + "Id = 1"]),
    ("SELECT Id FROM CREW WHERE Id > 1 AND Post LIKE ? AND abs(Id) = 3", ("a%",), [SOME + "Id > 1"]),
    ("SELECT Id FROM CREW_highest WHERE Id > 1", (), ["view CREW at U highest where Id > 1"]),
    ("SELECT Id FROM CREW_classes WHERE Id > 1 AND \"Post class\" = 'U'", (), [SOME + "Id > 1"]),
    ("UPDATE CREW SET Post = 'a' WHERE Id = ?", (1,), [SOME + "Id = 1"]),
    ("DELETE FROM CREW WHERE Id = ?", (1,), [SOME + "Id = 1"]),
    ("DELETE FROM CREW", (), [ALL]),
    ("INSERT INTO SOD (Starship) SELECT Post FROM CREW WHERE Id = ?", (1,), [SOME + "Id = 1"]),
    ("INSERT INTO main.SOD AS s SELECT Post, NULL, NULL FROM CREW WHERE Id = ?", (1,), [SOME + "Id = 1"]),
    ("SELECT * FROM CREW JOIN SOD ON Post = Starship WHERE Id = 1", (), ["view SOD at U", ALL]),
    ("SELECT * FROM CREW, CREW_classes c WHERE c.Id = 1", (), [ALL]),
    ("SELECT count(*) FROM CREW a JOIN CREW_highest b USING (Id)", (), [ALL, "view CREW at U highest"]),
    ("SELECT Post FROM SOD NATURAL JOIN CREW_highest", (), ["view SOD at U", "view CREW at U highest"]),
    ("INSERT INTO CREW (Id) SELECT Id FROM CREW_highest JOIN CREW_classes USING (Id)", (),
     ["view CREW at U highest", ALL]),
    ("SELECT * FROM CREW WHERE Id = 1 OR Id = 2", (), [ALL]),
    ("SELECT * FROM CREW WHERE Id = 1 AND Post = 'a' OR Id = 2", (), [ALL]),
    ("SELECT * FROM CREW WHERE Id = 2 OR Post = 'a' AND Id = 1", (), [ALL]),
    ("SELECT * FROM CREW WHERE Id = 1 AND (Post = 'a' OR Id = 2)", (), [SOME + "Id = 1"]),
    ("UPDATE CREW SET Post = 'b' WHERE Id = ? AND Post = ? OR Id > ?", (1, "a", 2), [ALL]),
    ("DELETE FROM CREW WHERE Id < ? OR Post IS NULL AND Id = ?", (2, 5), [ALL]),
    ("SELECT * FROM CREW WHERE Id BETWEEN 1 AND Post = 'a'", (), [ALL]),
    ("SELECT * FROM CREW WHERE CASE WHEN Id = 1 AND Post = 'a' THEN 1 END", (), [ALL]),
    ("SELECT * FROM CREW WHERE NOT Id = 1 AND Id = 1 + 1 AND Post = Post", (), [ALL]),
    ("SELECT * FROM CREW WHERE Id <> 1 AND Id IS NOT NULL AND Post = NULL AND Post = ?", (None,), [ALL]),
    ("SELECT * FROM CREW WHERE Id = 1 COLLATE NOCASE AND Post = 5 AND Id = '5' AND Id = 1.0 AND Id < ?", (2.5,), [ALL]),
    ("SELECT * FROM CREW WHERE Post = ? AND Post < ?", ("y" * 8193, "x" * 8193), [ALL]),
    ("SELECT * FROM CREW WHERE Id = 1 UNION SELECT * FROM CREW", (), [ALL]),
    ("SELECT * FROM CREW WHERE Id = 1 AND Post IN (SELECT Starship FROM SOD)", (), ["view SOD at U", ALL]),
    ("SELECT * FROM CREW WHERE Id = 1 AND (Id + 1, Post, class) IN CREW", (), [ALL]),
    ("UPDATE CREW SET Post = s.Starship FROM SOD s WHERE Id = 1 AND s.Starship = Post", (), ["view SOD at U", ALL]),
    ("WITH c AS (SELECT * FROM CREW WHERE Id = 1) SELECT * FROM c", (), [ALL]),
    ("WITH RECURSIVE n(k) AS (SELECT 1 UNION ALL SELECT k + 1 FROM n WHERE k < (SELECT count(*) FROM CREW)) "
     "SELECT * FROM n", (), [ALL]),
]


def try_all():
    with tried.serve() as program, mldb.connect(program, "U", user="ann") as connection:
        asked = tried.Asked(connection)
        for sql, given, views in CASES:
            connection.execute(sql, given)
            wanted = [f"all {{ {'; '.join(views)} }}"] if len(views) > 1 else views
            tried.expect(f"asked of {sql} {given}", asked.taken(), wanted)
        connection.execute("INSERT INTO CREW (Id, Post) VALUES (1, 'a')")
        asked.taken()
        connection.executemany("INSERT INTO CREW (Id) VALUES (?)", [(5,), (6,)])
        tried.expect("nothing is read for rows that are given", asked.taken(),
                     ["insert CREW key (5) values (null)", "insert CREW key (6) values (null)"])
        connection.execute("UPDATE CREW SET Post = 'b' WHERE Id = 1")
        tried.expect("an update", asked.taken(), [SOME + "Id = 1", 'update CREW key (1) class U from U set Post = "b"'])
        connection.execute("UPDATE CREW SET Post = 'b' WHERE Id = 1")
        tried.expect("an update that changes nothing", asked.taken(), [SOME + "Id = 1"])
        tried.expect("counts the row", connection.execute("UPDATE CREW SET Post = 'b' WHERE Id = 1").rowcount, 1)
        try_parsed(connection)


def try_parsed(connection):
    """A relation that was fetched is parsed once in a statement, and not again while it answers the same."""
    connection.execute("DELETE FROM CREW WHERE Id > 1")
    reader, parsed = connection.local()._readers["CREW"], []
    read = reader.read
    reader.read = lambda answer, *more: parsed.append(answer) or read(answer, *more)
    thrice = "SELECT count(*) FROM CREW a JOIN CREW b USING (Id) JOIN CREW_classes c USING (Id) WHERE a.Post = 'b'"
    for what, wanted in (("once in a statement", 1), ("not again while it is the same", 1)):
        tried.expect("its rows", connection.execute(thrice).fetchone(), (1,))
        tried.expect(f"parsed: {what}", len(parsed), wanted)
    connection.execute("INSERT INTO CREW (Id, Post) VALUES (2, 'b')")
    tried.expect("its rows, of which one is new", connection.execute(thrice).fetchone(), (2,))
    tried.expect("parsed: again after a change", len(parsed), 2)
