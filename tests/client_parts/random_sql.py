"""Random statements at one label, and the same ones in sqlite3: the same rows, the same refusals, the same numbers of
rows."""

import random
import sqlite3

import mldb
import tried

WORDS = ["a", "b", "ab", 'x"y', "\\", "it's", "", None, "Z\u00fcrich", "\U0001f680", "null", "5"]
TRUTH = """CREATE TABLE SOD (Starship TEXT NOT NULL, Objective TEXT, Destination TEXT, PRIMARY KEY (Starship))
    WITHOUT ROWID;
CREATE TABLE CREW (Id INTEGER NOT NULL, Post TEXT, PRIMARY KEY (Id)) WITHOUT ROWID"""
TESTS = ["Id = ?", "Id > ?", "Id <= ?", "? < Id", "(Id = ?)", "c.Id = ?", "Id IN (1, ?)", "Id <> ?", "NOT Id = ?",
         "Id + 1 = ?", "Id = -?", "?+1 = Id"]
WORD_TESTS = ["Post = ?", "Post < ?", "Post >= ?", "Post IS ?", "? = Post", "Post LIKE ?", "Post = ? COLLATE NOCASE",
              "Post || '' = ?", "\"Post\" = ?"]
FIXED = ["Post IS NULL", "Post IS NOT NULL", "Post = 'it''s'", "Id = 3", "Id = -2", "Id BETWEEN 2 AND Post = 'a'",
         "Id BETWEEN 1 AND 4",
         "CASE WHEN Id = 1 AND Post = 'a' THEN 1 ELSE Id > 2 END", "'a' = Post", "Post = 5", "Id = '3'", "Post = NULL",
         "3 >= Id"]


class Dice:
    """Random statements. Where a row is inserted that is there, `INSERT` ends at it and keeps what came before."""

    def __init__(self, seed):
        self.rng = random.Random(seed)

    def word(self):
        return self.rng.choice(WORDS)

    def number(self):
        return self.rng.randrange(-3, 12)

    def condition(self):
        """A WHERE of CREW c, and its parameters."""
        parts, given = [], []
        for _ in range(self.rng.choice([1, 1, 2, 2, 3, 4])):
            kind = self.rng.randrange(3)
            part = self.rng.choice([TESTS, WORD_TESTS, FIXED][kind])
            given += [self.number() if kind == 0 else self.word()] * part.count("?")
            parts.append(part)
        signs = [self.rng.choice((" AND ", " AND ", " AND ", " OR ")) for _ in parts[1:]]
        return "".join(word for pair in zip(parts, [*signs, ""]) for word in pair), tuple(given)

    def pushed(self):
        where, given = self.condition()
        return self.rng.choice([
            (f"SELECT Id, Post FROM CREW c WHERE {where}", given),
            (f"SELECT count(*), min(Post), sum(Id) FROM CREW AS c WHERE {where} GROUP BY Post ORDER BY 1, 2", given),
            (f"SELECT Id FROM CREW c WHERE {where} ORDER BY Id DESC LIMIT 2", given),
            (f"UPDATE CREW AS c SET Post = ifnull(Post, '') || '.' WHERE length(ifnull(Post, '')) < 5 AND {where}",
             given),
            (f"DELETE FROM CREW AS c WHERE {where}", given),
            (f"INSERT INTO CREW (Id, Post) SELECT max(Id) + 1, ? FROM CREW c WHERE {where}", (self.word(), *given)),
        ])

    def statement(self):
        return self.rng.choice([*self.changes(), *self.questions(), *[self.pushed] * 7])()

    def changes(self):
        word, number = self.word, self.number
        return [
            lambda: ("INSERT INTO SOD (Starship, Objective, Destination) VALUES (?, ?, ?)", (word(), word(), word())),
            lambda: ("INSERT INTO SOD VALUES (?, ?, NULL)", (word(), word())),
            lambda: ("INSERT INTO CREW (Id, Post) VALUES (?, ?)", (number(), word())),
            lambda: ("INSERT INTO CREW (Post, Id) VALUES (?, ?), (?, ?), (?, ?)",
                     (word(), number(), word(), number(), word(), number())),
            lambda: ("UPDATE SOD SET Objective = ? WHERE Destination = ? OR Starship > ?", (word(), word(), word())),
            lambda: ("UPDATE SOD SET (Objective, Destination) = (Destination, Objective) WHERE Starship = ?",
                     (word(),)),
            lambda: ("UPDATE CREW SET Post = Post || '!' WHERE Id % 3 = ? AND length(Post) < 6", (number() % 3,)),
            lambda: ("UPDATE CREW SET Post = (SELECT max(Objective) FROM SOD WHERE Starship <> ?) WHERE Id = ?",
                     (word(), number())),
            lambda: ("UPDATE CREW SET Post = s.Destination FROM SOD s WHERE s.Starship = CREW.Post", ()),
            lambda: ("DELETE FROM SOD WHERE Objective IS ? AND Starship <> ?", (word(), word())),
            lambda: ("DELETE FROM CREW WHERE Id = ?", (number(),)),
            lambda: ("DELETE FROM CREW WHERE Id IN (SELECT Id FROM CREW ORDER BY Id LIMIT 2) AND Post IS NOT NULL", ()),
            lambda: ("INSERT INTO CREW (Id, Post) SELECT count(*) + 20, max(Objective) FROM SOD", ()),
            lambda: ("INSERT INTO SOD (Starship, Objective) SELECT Post || Id, Post FROM CREW WHERE Id > ? ORDER BY Id",
                     (number(),)),
            lambda: ("INSERT INTO CREW (Id) SELECT a.Id + 30 FROM CREW a JOIN CREW b USING (Post) WHERE a.Id <> b.Id "
                     "AND b.Post = ?", (word(),)),
        ]

    def questions(self):
        word, number = self.word, self.number
        return [
            lambda: ("SELECT Objective, count(*), min(Starship) FROM SOD GROUP BY 1 ORDER BY 1, 2", ()),
            lambda: ("SELECT s.Starship, c.Id FROM SOD s JOIN CREW c ON c.Post = s.Objective ORDER BY 1, 2", ()),
            lambda: ("SELECT s.Starship, c.Id FROM SOD s LEFT JOIN CREW c ON c.Post = s.Starship AND c.Id > ?",
                     (number(),)),
            lambda: ("SELECT Post FROM CREW WHERE Id < ? UNION SELECT Objective FROM SOD WHERE Starship = ?",
                     (number(), word())),
            lambda: ("WITH n AS (SELECT Post, count(*) AS k FROM CREW GROUP BY 1) "
                     "SELECT * FROM n WHERE k > 1 AND Post = ?", (word(),)),
            lambda: ("SELECT Id, row_number() OVER (PARTITION BY Post ORDER BY Id) FROM CREW WHERE Id >= ?",
                     (number(),)),
            lambda: ("SELECT Id, Post FROM CREW WHERE Id = ? AND Post IN (SELECT Starship FROM SOD)", (number(),)),
            lambda: ("SELECT a.Id FROM CREW a, CREW b WHERE a.Id = b.Id + 1 AND b.Id = ?", (number(),)),
            lambda: ("SELECT sum(Id), avg(Id), total(length(Post)) FROM CREW WHERE NOT (Post = ?)", (word(),)),
            lambda: ("SELECT EXISTS (SELECT 1 FROM SOD WHERE Starship = ?)", (word(),)),
            lambda: ("SELECT count(*) FROM SOD JOIN (SELECT Post AS Starship FROM CREW) USING (Starship)", ()),
            lambda: ("SELECT Id FROM CREW NATURAL JOIN (SELECT Id, Post AS p FROM CREW WHERE Post > ?)", (word(),)),
            lambda: ("select count(*) from sod, crew", ()),
        ]


def outcome(work):
    """The rows of a statement in some order, its number of rows, or that it was refused."""
    try:
        done = work()
    except (sqlite3.IntegrityError, mldb.IntegrityError):
        return "refused"
    rows = sorted(done.fetchall(), key=repr) if done.description else None
    return rows, done.rowcount if rows is None else len(rows)


def try_all():
    """One seed, so that each run tries the same."""
    truth, dice = sqlite3.connect(":memory:", isolation_level=None), Dice(5)
    truth.executescript(TRUTH)
    with tried.serve() as program, mldb.connect(program, "U", user="ann") as connection:
        cursor = connection.cursor()
        for number in range(tried.STATEMENTS):
            sql, given = dice.statement()
            wanted = outcome(lambda: truth.execute(sql.replace("INSERT INTO", "INSERT OR FAIL INTO"), given))
            got = outcome(lambda: cursor.execute(sql, given))
            tried.expect(f"random {number}: {sql} {given}", got, wanted)
            if number % 25 == 24:
                for table, columns in (("SOD", "Starship, Objective, Destination"), ("CREW", "Id, Post")):
                    asked = f"SELECT {columns} FROM {table} ORDER BY 1"
                    tried.expect(f"random {number}: {table}", cursor.execute(asked).fetchall(),
                                 truth.execute(asked).fetchall())
                if number % 100 == 99:
                    for asked in ("DELETE FROM SOD WHERE length(Starship) > 3", "DELETE FROM CREW WHERE Id % 2"):
                        cursor.execute(asked), truth.execute(asked)
