"""Transactions: random ones of two connections at one gateway, beside a serial order in sqlite3; and by hand what one
reads, writes, expects and may not do."""

import random
import sqlite3
import tempfile

import gateway
import mldb
import tried

TRUTH = """CREATE TABLE SOD (Starship TEXT NOT NULL, Objective TEXT, Destination TEXT, PRIMARY KEY (Starship))
    WITHOUT ROWID;
CREATE TABLE CREW (Id INTEGER NOT NULL, Post TEXT, PRIMARY KEY (Id)) WITHOUT ROWID"""
TABLES = ("SELECT Starship, Objective, Destination FROM SOD ORDER BY 1", "SELECT Id, Post FROM CREW ORDER BY 1")
BY_KEY = {"SOD": "SELECT * FROM SOD WHERE Starship = ?", "CREW": "SELECT * FROM CREW WHERE Id = ?"}
CHANGED = (mldb.OperationalError, 18)
# Four attributes of a key and fifteen others, as many as a relation may have: a condition has fewer tests.
NAMES = [*(f"K{number}" for number in range(4)), *(f"X{number}" for number in range(15))]
WIDE = "".join(f"""
[[relation.{"key" if name[0] == "K" else "attribute"}]]
name = "{name}"
kind = "{"int" if name in ("K1", "X2") else "text"}"
low = "U"
high = "U"
""" for name in NAMES)


class Ended(Exception):
    """Something is not so, and the rest would be neither."""


def statement(rng):
    """A statement on the rows of one key, and its parameters."""
    number, word = rng.randrange(12), rng.choice(["a", "b", "x\"y", "\\", None])
    return rng.choice([
        ("SELECT Id, Post FROM CREW WHERE Id = ?", (number,)),
        ("SELECT Starship, Objective, Destination FROM SOD WHERE Starship = ?", (f"ship {number}",)),
        ("INSERT INTO CREW (Id, Post) VALUES (?, ?)", (number, word)),
        ("INSERT INTO SOD (Starship, Objective, Destination) VALUES (?, ?, NULL)", (f"ship {number}", word)),
        ("UPDATE CREW SET Post = substr(Post || ?, -9) WHERE Id = ?", (word, number)),
        ("UPDATE SOD SET Destination = Objective, Objective = ? WHERE Starship = ?", (word, f"ship {number}")),
        ("DELETE FROM CREW WHERE Id = ?", (number,)),
        ("DELETE FROM SOD WHERE Starship = ?", (f"ship {number}",)),
    ])


def done(database, sql, given):
    """What a statement finds, or how many rows it changes."""
    found = database.execute(sql, given)
    return found.fetchall() if sql.startswith("SELECT") else found.rowcount


class Worker:
    """A connection; what its transaction did and was told; and the rows of the keys that it read, as they were then."""

    def __init__(self, connection, rng, truth):
        self.connection, self.rng, self.truth = connection, rng, truth
        self.told, self.read = [], {}
        self.asked = tried.Asked(connection)

    def step(self):
        """One more statement."""
        sql, given = statement(self.rng)
        if not sql.startswith("INSERT"):
            look = BY_KEY["CREW" if "CREW" in sql else "SOD"], given[-1:]
            self.read.setdefault(look, self.truth.execute(*look).fetchall())
        self.told.append((sql, given, done(self.connection, sql, given)))

    def forget(self):
        """A transaction has ended."""
        self.told, self.read = [], {}

    def is_kept(self):
        """Commits: whether it was kept, or nothing of one that writes nothing."""
        self.asked.taken()
        try:
            self.connection.commit()
            return True if self.asked.taken() else None
        except (mldb.IntegrityError, mldb.OperationalError) as fault:
            tried.expect("why a commit is refused", fault.code in (12, 18), True)
            return False

    def end(self):
        """Commits: whether it was kept; whether what it read stood still, and no key that it inserts was there; and
        whether it was told what it would have been told alone, at its commit."""
        stands = all(self.truth.execute(*look).fetchall() == rows for look, rows in self.read.items())
        is_kept, fits = self.is_kept(), True
        self.truth.execute("BEGIN")
        try:
            for sql, given, wanted in self.told if is_kept is not None else ():
                fits &= done(self.truth, sql, given) == wanted
        except sqlite3.IntegrityError:
            stands = False
        self.truth.execute("COMMIT" if is_kept else "ROLLBACK")
        self.forget()
        return is_kept, stands, fits


def try_random(gate, count):
    """Two connections, each with a transaction under way. One is kept exactly where what it read stands as it was; then
    it did what it would have done alone, at its commit."""
    rng, kept, written = random.Random(7), 0, 0
    truth = sqlite3.connect(":memory:", isolation_level=None)
    truth.executescript(TRUTH)
    workers = [Worker(gate.connect("ann", "U", isolation_level="BATCH"), rng, truth) for _ in range(2)]
    look = gate.connect("ann", "U")
    for number in range(count):
        worker = rng.choice(workers)
        for _ in range(rng.randrange(1, 5)):
            worker.step()
            rng.choice(workers).step()
        if rng.random() < 0.05:
            worker.connection.rollback()
            worker.forget()
            continue
        is_kept, stands, fits = worker.end()
        if is_kept is not None:
            tried.expect(f"transaction {number}: it is kept where what it read stands", is_kept, stands)
            tried.expect(f"transaction {number}: it did what it would have done alone", fits or not is_kept, True)
            kept, written = kept + is_kept, written + 1
        if is_kept not in (None, stands) or is_kept and not fits:
            raise Ended(number)
        if number % 50 == 49:
            for asked in TABLES:
                tried.expect(f"transaction {number}: {asked}", look.execute(asked).fetchall(),
                             truth.execute(asked).fetchall())
    tried.expect(f"many are kept, and many are not: {kept} of {written}", written // 5 < kept < written * 9 // 10, True)
    for one in workers:
        one.connection.close()
    look.execute("DELETE FROM SOD"), look.execute("DELETE FROM CREW")
    look.close()


def try_alone(program):
    """One transaction: what goes over the wire, and when."""
    ann = mldb.connect(program, "U", user="ann", isolation_level="BATCH")
    look = mldb.connect(program, "U", user="ann")
    asked = tried.Asked(ann)
    tried.expect("no autocommit", (ann.autocommit, look.autocommit, ann.in_transaction), (False, True, False))
    ann.executemany("INSERT INTO SOD VALUES (?, ?, NULL)", [("Enterprise", "Exploration"), ("Voyager", None)])
    tried.expect("writes wait", (asked.taken(), ann.in_transaction), ([], True))
    tried.expect("and are seen", ann.execute("SELECT Starship, class FROM SOD ORDER BY 1").fetchall(),
                 [("Enterprise", "U"), ("Voyager", "U")])
    tried.expect("by nobody else", look.execute("SELECT count(*) FROM SOD").fetchone(), (0,))
    tried.expect("an update of both", ann.execute("UPDATE SOD SET Destination = 'Talos'").rowcount, 2)
    tried.expect("one of one", ann.execute("DELETE FROM SOD WHERE Starship = 'Voyager'").rowcount, 1)
    asked.taken()
    ann.commit()
    lines = asked.taken()
    tried.expect("a commit is a line", (len(lines), lines[0][:6]), (1, "all { "))
    tried.expect("which is done", look.execute("SELECT Starship, Objective, Destination FROM SOD").fetchall(),
                 [("Enterprise", "Exploration", "Talos")])
    asked.taken()
    ann.commit()
    tried.expect("a commit of nothing is no line", asked.taken(), [])
    ann.execute("SELECT * FROM SOD JOIN CREW ON Post = Starship")
    tried.expect("a join is a batch", asked.taken(), ["all { view SOD at U; view CREW at U }"])
    ann.execute("SELECT * FROM SOD, CREW")
    ann.commit()
    tried.expect("what was read is read once, and nothing is kept of it", asked.taken(), [])
    ann.execute("SELECT * FROM CREW"), ann.execute("SELECT * FROM SOD"), ann.execute("SELECT * FROM CREW")
    tried.expect("a view is asked once", asked.taken(), ["view CREW at U", "view SOD at U"])
    ann.execute("SELECT * FROM SOD JOIN CREW ON Post = Starship")
    tried.expect("a join is of one moment, also behind that", asked.taken(), ["all { view SOD at U; view CREW at U }"])
    ann.execute("SELECT * FROM CREW"), ann.execute("SELECT * FROM SOD JOIN CREW ON Post = Starship")
    tried.expect("which is kept", asked.taken(), [])
    ann.rollback()
    ann.execute("DELETE FROM SOD")
    asked.taken()
    ann.rollback()
    tried.expect("a rollback is no line", asked.taken(), [])
    tried.expect("and it forgets", (look.execute("SELECT count(*) FROM SOD").fetchone(), ann.in_transaction),
                 ((1,), False))
    ann.execute("INSERT INTO CREW VALUES (1, 'x')")
    with tried.raises("a call in a transaction", mldb.NotSupportedError):
        ann.cursor().callproc("Count")
    ann.close()
    tried.expect("a close forgets", look.execute("SELECT count(*) FROM CREW").fetchone(), (0,))
    with tried.raises("no such level", mldb.InterfaceError):
        mldb.connect(program, "U", user="ann", isolation_level="SERIALIZABLE")
    with tried.raises("a level is not taken later", AttributeError):
        look.isolation_level = "BATCH"


def try_changed(program):
    """What was read by its key, or is changed, has to stand as it was read."""
    ann = mldb.connect(program, "U", user="ann", isolation_level="BATCH")
    other = mldb.connect(program, "U", user="ann")
    other.execute("DELETE FROM SOD"), other.execute("DELETE FROM CREW")
    other.execute("INSERT INTO CREW VALUES (1, 'a'), (2, NULL)")
    reads = [("SELECT * FROM CREW WHERE Id = 1", True), ("SELECT * FROM CREW WHERE Id = 3", True),
             ("SELECT * FROM CREW WHERE Id = 2", False), ("SELECT * FROM CREW", False),
             ("SELECT * FROM CREW_highest WHERE Id = 1", True), ("UPDATE CREW SET Post = Post || 'b'", True),
             ("DELETE FROM CREW WHERE Id < 2", True), ("UPDATE CREW SET Post = 'z' WHERE Id > 1", False)]
    for sql, is_refused in reads:
        ann.execute(sql)
        ann.execute("INSERT INTO SOD (Starship) VALUES ('s')")
        other.execute("UPDATE CREW SET Post = 'c' WHERE Id = 1")
        other.execute("INSERT INTO CREW VALUES (3, NULL)")
        if is_refused:
            with tried.raises(f"{sql}, and it changes", *CHANGED) as found:
                ann.commit()
            tried.expect(f"{sql}: its words", bool(found) and found[0].words.startswith("refused 18 Unexpected at "),
                         True)
        else:
            ann.commit()
        tried.expect(f"{sql}: all or nothing", other.execute("SELECT count(*) FROM SOD").fetchone(),
                     (int(not is_refused),))
        tried.expect(f"{sql}: it has ended", ann.in_transaction, False)
        other.execute("DELETE FROM SOD"), other.execute("DELETE FROM CREW")
        other.execute("INSERT INTO CREW VALUES (1, 'a'), (2, NULL)")
    ann.execute("INSERT INTO SOD (Starship) VALUES ('s')")
    ann.execute("INSERT INTO CREW VALUES (2, 'there')")
    with tried.raises("a key that is there", mldb.IntegrityError, 12):
        ann.commit()
    tried.expect("nothing of it is kept", other.execute("SELECT count(*) FROM SOD").fetchone(), (0,))
    other.execute("DELETE FROM CREW")


def try_most(program):
    """A commit is of 1,000 commands and 1 MiB at most; of more nothing is sent, and nothing is lost."""
    ann = mldb.connect(program, "U", user="ann", isolation_level="BATCH")
    look = mldb.connect(program, "U", user="ann")
    asked, size = tried.Asked(ann), "SELECT count(*) FROM CREW"
    front, spoken = 'insert CREW key (1000) values ("")', len("U ann all {  }\n")
    each, more = divmod((1 << 20) - spoken + 2, 1000)
    texts = ["x" * (each - len(front) - 2 + (number < more)) for number in range(1000)]
    for what, rows, is_sent in [
        ("1,000 commands of 1 MiB", texts, True), ("a byte more", [*texts[:-1], texts[-1] + "x"], False),
        ("1,001 commands", ["x"] * 1001, False),
    ]:
        ann.executemany("INSERT INTO CREW VALUES (?, ?)", [*enumerate(rows, 1000)])
        asked.taken()
        if is_sent:
            ann.commit()
            tried.expect(f"{what}: the bytes", len(asked.taken()[0]) + len("U ann \n"), 1 << 20)
        else:
            with tried.raises(what, mldb.DataError):
                ann.commit()
            tried.expect(f"{what}: nothing is sent, nothing lost", (len(asked.taken()), ann.in_transaction), (0, True))
            tried.expect(f"{what}: it is seen", ann.execute(size).fetchone(), (len(rows),))
            ann.rollback()
        tried.expect(f"{what}: what is there", look.execute(size).fetchone(), (len(rows) * is_sent,))
        look.ask("all { " + "; ".join(f"delete CREW key ({number}) class U" for number in range(1000, 2000)) + " }")


def try_wide():
    """A row of 19 attributes is expected whole; a stored text that no line can have is not."""
    with tempfile.TemporaryDirectory() as work:
        schemes, policy, store = (f"{work}/{name}" for name in ("schemes.toml", "policy.toml", "fleet.db"))
        with open(schemes, "w", encoding="utf-8") as file:
            file.write(f'version = 1\n\n[[relation]]\nname = "WIDE"\n{WIDE}')
        with open(tried.POLICY, encoding="utf-8") as file, open(policy, "w", encoding="utf-8") as copy:
            copy.write(file.read() + '[[matrix]]\nuser = "ann"\nobject = "WIDE"\nmodes = ["write"]\n')
        files = {"policy": policy, "schemes": schemes, "store": store}
        row = [5 if name in ("K1", "X2") else "y" if name == "X3" else f"{name}\"" for name in NAMES]
        row[6 + 4] = None
        with tried.serve(**files) as program:
            ann = mldb.connect(program, "U", user="ann", isolation_level="BATCH")
            look = mldb.connect(program, "U", user="ann")
            look.execute(f"INSERT INTO WIDE VALUES ({', '.join('?' * len(row))})", row)
            asked = tried.Asked(ann)
            for number, name in enumerate(NAMES[4:], 4):
                ann.execute("UPDATE WIDE SET X14 = 'mine'")
                look.execute(f"UPDATE WIDE SET {name} = ?", (6 if name == "X2" else "z",))
                with tried.raises(f"{name} has changed", *CHANGED):
                    ann.commit()
                look.execute(f"UPDATE WIDE SET {name} = ?", (row[number],))
            ann.execute("UPDATE WIDE SET X14 = 'mine'")
            asked.taken()
            ann.commit()
            [line] = asked.taken()
            tried.expect("each attribute is asked for, once", [line.count(f"({name} = ") for name in NAMES], [1] * 19)
            tried.expect("and it is so", look.execute("SELECT X14 FROM WIDE").fetchone(), ("mine",))
        for text in ("z" * 8193, "z" * 70_000):
            try_unread(files, text)


def try_unread(files, text):
    """Another program wrote a text."""
    is_there = "UPDATE cell SET value = ? WHERE value = ?"
    old, new = (b"\x02" + len(one).to_bytes(4, "big") + one for one in (b"y", text.encode()))
    with sqlite3.connect(files["store"]) as base:
        tried.expect("another program writes", base.execute(is_there, (new, old)).rowcount, 1)
    base.close()
    with tried.serve(**files) as program:
        ann = mldb.connect(program, "U", user="ann", isolation_level="BATCH")
        asked = tried.Asked(ann)
        ann.execute("UPDATE WIDE SET X14 = 'more'")
        asked.taken()
        with tried.raises(f"a text of {len(text)} bytes would be named", mldb.DataError):
            ann.commit()
        tried.expect("nothing is sent, and nothing lost", (asked.taken(), ann.in_transaction), ([], True))
    with sqlite3.connect(files["store"]) as base:
        base.execute(is_there, (old, new))
    base.close()


def try_above(program):
    """Above rows of lower labels."""
    ann = mldb.connect(program, "U", user="ann")
    bob = mldb.connect(program, "S", user="bob", below="derive", isolation_level="BATCH")
    ann.execute("INSERT INTO SOD VALUES ('Enterprise', 'Exploration', NULL), ('Voyager', 'Trade', 'Rigel')")
    whole, highest = ("SELECT Starship, Objective, Destination, class FROM SOD{} ORDER BY 1, 4".format(form)
                      for form in ("", "_highest"))
    bob.execute("UPDATE SOD SET Destination = 'Talos' WHERE Starship = 'Enterprise'")
    bob.execute("UPDATE SOD SET Objective = 'Spying' WHERE Starship = 'Voyager'")
    wanted = [("Enterprise", "Exploration", "Talos", "S"), ("Voyager", "Spying", "Rigel", "S")]
    tried.expect("what is derived holds", bob.execute(highest).fetchall(), wanted)
    seen = bob.execute(whole).fetchall()
    tried.expect("above what it leaves", seen, [*wanted, ("Voyager", "Trade", "Rigel", "U")])
    labels = "SELECT \"Objective class\", \"Destination class\" FROM SOD_classes WHERE class = 'S' ORDER BY Starship"
    of_values = bob.execute(labels).fetchall()
    tried.expect("values keep their classes", of_values, [("U", "S"), ("S", "U")])
    bob.commit()
    tried.expect("and it is so", [bob.execute(one).fetchall() for one in (whole, highest, labels)],
                 [seen, wanted, of_values])
    bob.rollback()
    bob.execute("DELETE FROM SOD WHERE class = 'S'")
    for form in ("", "_highest", "_classes"):
        with tried.raises("behind a delete above lower rows", mldb.NotSupportedError):
            bob.execute(f"SELECT * FROM SOD{form}")
    bob.execute("SELECT * FROM CREW")
    bob.commit()
    tried.expect("until the commit", bob.execute("SELECT Starship, class FROM SOD ORDER BY 1").fetchall(),
                 [("Enterprise", "U"), ("Voyager", "U")])
    bob.derive("SOD", ("Voyager",), "U", Objective="Waiting")
    with tried.raises("behind derive", mldb.NotSupportedError):
        bob.execute(whole)
    bob.commit()
    asked = "SELECT Objective FROM SOD_highest WHERE Starship = 'Voyager'"
    tried.expect("which waits too", bob.execute(asked).fetchall(), [("Waiting",)])
    bob.commit()
    ann.execute("INSERT INTO SOD (Starship, Objective) VALUES ('Odd', ' at S highest')")
    bob.execute("SELECT * FROM SOD WHERE Starship = 'Odd' AND Objective = ' at S highest'")
    bob.execute("INSERT INTO SOD (Starship) VALUES ('New')")
    asked = tried.Asked(bob)
    bob.commit()
    tried.expect("words in a text are not words of a view", "SOD at S highest class" in asked.taken()[0], False)
    bob.execute("UPDATE SOD SET Objective = 'Gone' WHERE Starship = 'Voyager' AND class = 'S'")
    ann.execute("DELETE FROM SOD WHERE Starship = 'Voyager'")
    with tried.raises("a low delete takes it away", *CHANGED):
        bob.commit()


def change(rng, connection):
    """A random change at a label, above rows of others too."""
    key, value = f"ship {rng.randrange(4)}", rng.choice(["a", "b", "c", None])
    match rng.randrange(5):
        case 0:
            connection.execute("INSERT INTO SOD VALUES (?, ?, ?)", (key, value, rng.choice(["a", None])))
        case 1 | 2:
            name = rng.choice(["Objective", "Destination"])
            connection.execute(f"UPDATE SOD SET {name} = ? WHERE Starship = ?", (value or "d", key))
        case 3:
            connection.execute("UPDATE SOD SET Objective = ?, Destination = 'e' WHERE class = ?",
                               (value or "d", connection.label))
        case 4:
            connection.execute("DELETE FROM SOD WHERE Starship = ?", (key,))


def tables(connection):
    """The rows of each table of a relation; nothing of one that the transaction cannot tell."""
    found = []
    for form in ("", "_highest", "_classes"):
        try:
            found.append(sorted(connection.execute(f"SELECT * FROM SOD{form}").fetchall(), key=repr))
        except mldb.NotSupportedError:
            found.append(None)
    return found


def try_as_shown(program):
    """What a transaction shows of what it writes is what then is so, above three labels."""
    rng, compared = random.Random(11), [0, 0, 0]
    lower = [mldb.connect(program, label, user=user, below="derive")
             for label, user in (("U", "ann"), ("M", "mia"), ("S", "bob"))]
    hal = mldb.connect(program, "H", user="hal", below="derive", isolation_level="BATCH")
    for number in range(tried.STATEMENTS // 20):
        try:
            change(rng, rng.choice(lower))
        except mldb.IntegrityError:
            pass
        for _ in range(rng.randrange(1, 4)):
            try:
                change(rng, hal)
            except mldb.NotSupportedError:
                break
        shown = tables(hal)
        try:
            hal.commit()
        except mldb.IntegrityError:
            hal.rollback()
            continue
        now = tables(hal)
        for place, form in enumerate(shown):
            if form is not None:
                tried.expect(f"change {number}: table {place} is as it was shown", now[place], form)
                compared[place] += 1
        hal.rollback()
    tried.expect(f"all are compared: {compared}", min(compared) > tried.STATEMENTS // 200, True)
    hal.execute("DELETE FROM SOD")
    hal.commit()
    for one in (hal, *lower):
        one.close()


def try_all():
    with tried.serve(transactions=tried.TRANSACTIONS, certificates=tried.CERTIFICATES) as program:
        try_alone(program)
        try_changed(program)
        try_most(program)
        try_above(program)
    try_wide()
    with tried.serve() as program:
        try_as_shown(program)
    with tempfile.TemporaryDirectory() as work:
        gate = gateway.Gate(work)
        try:
            try_random(gate, tried.STATEMENTS * 2 // 3)
        finally:
            gate.process.kill()
            gate.process.wait()
