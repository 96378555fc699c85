"""Wires that are cut, programs that end, answers that are late or wrong: an error, and never an answer of somebody
else."""

import os
import signal
import socket
import tempfile
import threading
import time

import mldb
import tried

OPENED = [b"U U/ann denied 31 NoSession\n=\n", b"U U/ann opened ann\n=\n"]
ENDLESS = "WITH RECURSIVE n(k) AS (SELECT 1 UNION ALL SELECT k + 1 FROM n) SELECT count(*) FROM n"
ONE = b'U U/ann view CREW at U: Id Post\nU U/ann row 1 U | "a" U | U\n=\n'


class Played:
    """A gateway that says what it is told to: bytes, something to be awaited or a pause, or None to hang up."""

    def __init__(self, *script):
        self.work = tempfile.TemporaryDirectory()
        self.path = f"{self.work.name}/sock"
        self.door = socket.socket(socket.AF_UNIX)
        self.door.bind(self.path)
        self.door.listen(1)
        self.heard = []
        self.script = [*OPENED, *script]
        threading.Thread(target=self._play, daemon=True).start()

    def _play(self):
        client, _ = self.door.accept()
        with client, client.makefile("rb") as lines:
            lines.readline()
            for said in self.script:
                if callable(said):
                    said()
                    continue
                if isinstance(said, float):
                    time.sleep(said)
                    continue
                if said is None:
                    return
                if not said.startswith(b"more"):
                    self.heard.append(lines.readline())
                client.sendall(said.removeprefix(b"more"))
            lines.readline()

    def connect(self, **options):
        return mldb.connect(self.path, "U", user="ann", schemes=tried.SCHEMES, **options)


def try_cuts():
    """A gateway that hangs up, before, within and behind an answer."""
    for what, script in (("at once", [None]), ("within", [ONE[:40], None]), ("before the mark", [ONE[:-2], None]),
                         ("within the mark", [b"=", None])):
        connection = Played(*script).connect()
        with tried.raises(f"cut {what}", mldb.OperationalError) as found:
            connection.execute("SELECT * FROM CREW")
        with tried.raises(f"cut {what}, again", mldb.OperationalError):
            connection.ask("audit")
        tried.expect(f"cut {what}: says so", "hung up" in str(found), True)
        connection.close()
    done, there = b"U U/ann done\n=\n", b"U U/ann refused 12 Duplicate\n=\n"
    many = "INSERT INTO CREW (Id) VALUES (?)", [(number,) for number in range(33)]
    for what, script, wanted in (("among many", [done, done, done], (3, 33, [])), ("at the first", [], (0, 1, [])),
                                 ("behind a bad one", [done, there, done], (2, 33, [(1, "refused 12 Duplicate")]))):
        connection = Played(*script, None).connect()
        with tried.raises(f"cut {what}", mldb.OperationalError) as found:
            connection.executemany(*many)
        told = found and (found[0].done, found[0].sent, found[0].refused)
        tried.expect(f"cut {what}: which rows stand, and which may", told, wanted)
        with tried.raises(f"cut {what}: then nothing goes", mldb.OperationalError) as found:
            connection.executemany(*many)
        tried.expect(f"cut {what}: none of them", found and (found[0].done, found[0].sent), (0, 0))


def try_refused():
    """A gateway that says why it hangs up."""
    played = Played()
    played.script = [b"= the first line is a label alone, as U\n", None]
    with tried.raises("refused at the door", mldb.OperationalError) as found:
        played.connect()
    tried.expect("its words", found and found[0].words, "the first line is a label alone, as U")


def try_parts():
    """An answer that comes in parts, and several in one."""
    for size in (1, 2, 7):
        parts = [ONE[at:at + size] for at in range(0, len(ONE), size)]
        connection = Played(parts[0], *(piece for part in parts[1:] for piece in (0.0001, b"more" + part))).connect()
        tried.expect(f"parts of {size}", connection.execute("SELECT Id, Post FROM CREW").fetchall(), [(1, "a")])


def try_wrong():
    """Answers that mldb does not give."""
    cases = [(b"=\n", mldb.InternalError), (b"U U/ann done\n=\n", mldb.InternalError),
             (ONE.replace(b"row 1", b"row one"), mldb.InternalError),
             (ONE.replace(b"Id Post", b"Id Name"), mldb.InterfaceError), (b"= too long\n", mldb.ProgrammingError),
             (b"\xff\n=\n", mldb.InternalError),
             (ONE.replace(b"U | U", b"U |  U"), mldb.InternalError), (b"= 29 Memory at 1\n", mldb.OperationalError)]
    for answer, kind in cases:
        with tried.raises(f"{answer[:40]}", kind):
            Played(answer).connect().execute("SELECT * FROM CREW")


def interrupted(what, work):
    """Counts whether something is interrupted, as by Ctrl-C."""
    try:
        work()
        tried.failed(f"{what}: it was not interrupted")
    except KeyboardInterrupt:
        tried.passed += 1


def try_interrupted():
    """Ctrl-C while an answer is awaited, and while SQLite is at work: the next answer is that of the next question."""
    may_answer = threading.Event()
    connection = Played(may_answer.wait, b"U U/ann audit\nU U/ann entry late\n=\n", ONE).connect()
    handler = signal.signal(signal.SIGALRM, signal.default_int_handler)
    try:
        when_it_waits(connection, lambda: os.kill(os.getpid(), signal.SIGALRM))
        interrupted("an answer", lambda: connection.ask("audit"))
        may_answer.set()
        tried.expect("the next one", connection.execute("SELECT Id, Post FROM CREW").fetchall(), [(1, "a")])
        once_at_work(lambda: os.kill(os.getpid(), signal.SIGALRM))
        interrupted("SQL", lambda: connection.execute(ENDLESS))
        once_at_work(connection.interrupt)
        interrupted("SQL, by another thread", lambda: connection.execute(ENDLESS))
        tried.expect("and after it", connection.execute("SELECT 1").fetchone(), (1,))
    finally:
        signal.signal(signal.SIGALRM, handler)
    may_answer = threading.Event()
    connection = Played(may_answer.wait, ONE).connect()
    when_it_waits(connection, lambda: (connection.interrupt(), may_answer.set()))
    interrupted("a view, by another thread", lambda: connection.execute("SELECT * FROM CREW"))
    never = threading.Event()
    connection = Played(never.wait, ONE).connect(timeout=0.2)
    with tried.raises("no answer in time", mldb.OperationalError):
        connection.execute("SELECT * FROM CREW")
    never.set()


def when_it_waits(connection, deed):
    """Does something once, in a thread, when a connection begins to wait for bytes, and a little later."""
    wire, is_waiting = connection.session().wire, threading.Event()
    read = wire._read

    def reading(most):
        wire._read = read
        is_waiting.set()
        return read(most)

    def late():
        is_waiting.wait()
        time.sleep(0.2)
        deed()

    wire._read = reading
    threading.Thread(target=late, daemon=True).start()


def once_at_work(deed):
    """Does something in a thread when this process has been at work for a while."""
    begun = time.process_time()

    def late():
        while time.process_time() < begun + 0.3:
            time.sleep(0.02)
        deed()

    threading.Thread(target=late, daemon=True).start()


def try_programs():
    """Programs that end, are killed, or are none."""
    with tried.serve() as program:
        connection = mldb.connect(program, "U", user="ann")
        os.kill(program.wire._process.pid, signal.SIGKILL)
        with tried.raises("killed", mldb.OperationalError):
            connection.execute("SELECT * FROM CREW")
        connection.close()
    with tried.raises("no program", mldb.OperationalError):
        mldb.serve(tried.POLICY, tried.SCHEMES, program="/nowhere/mldb")
    with tried.raises("a policy that is refused", mldb.OperationalError) as found:
        mldb.connect(None, "U", user="ann", policy=tried.SCHEMES, schemes=tried.SCHEMES, program=tried.PROGRAM)
    tried.expect("says what the program said", "mldb: policy: " in str(found), True)
    with tried.raises("no schemes", mldb.InterfaceError):
        mldb.connect(None, "U", user="ann", policy=tried.POLICY, schemes="/nowhere", program=tried.PROGRAM)
    with tried.raises("no schemes in it", mldb.InterfaceError):
        mldb.read_schemes(tried.POLICY)
    for options in ({"label": None}, {"label": "U"},
                    {"label": "U", "below": "up", "policy": tried.POLICY, "schemes": tried.SCHEMES}, {"label": "U\nS"}):
        with tried.raises(f"{options}", mldb.InterfaceError):
            mldb.connect(None, **{"user": "ann", "program": tried.PROGRAM, **options})
    with tried.raises("a command of no words", mldb.InterfaceError):
        mldb.connect([], "U", user="ann", schemes=tried.SCHEMES)


def try_killed():
    """A program that is killed among many rows: what was answered is in the store, and of the others a first part."""
    with tempfile.TemporaryDirectory() as work:
        words = [tried.PROGRAM, "serve", "--store", f"{work}/fleet.db", tried.POLICY, tried.SCHEMES]
        connection = mldb.connect(words, "U", user="ann", schemes=tried.SCHEMES)
        wire, count = connection.session().wire, 0
        answer = wire._answer

        def answering():
            nonlocal count
            count += 1
            if count == 100:
                os.kill(wire._process.pid, signal.SIGKILL)
            return answer()

        wire._answer = answering
        with tried.raises("killed among many", mldb.OperationalError) as found:
            connection.executemany("INSERT INTO CREW (Id) VALUES (?)", [(number,) for number in range(500)])
        connection.close()
        with mldb.connect(words, "U", user="ann", schemes=tried.SCHEMES) as again:
            rows = [row[0] for row in again.execute("SELECT Id FROM CREW ORDER BY 1")]
        done, sent = (found[0].done, found[0].sent) if found else (0, 0)
        tried.expect("killed: the rows there are the first ones", rows, [*range(len(rows))])
        tried.expect(f"killed: {done} <= {len(rows)} <= {sent}", 99 <= done <= len(rows) <= sent < 200, True)


def try_names():
    """Names that SQL cannot tell apart are left out; the others stay."""
    with tempfile.TemporaryDirectory() as work:
        path, key = f"{work}/schemes.toml", '[[relation.key]]\nname = "K"\nkind = "int"\nlow = "U"\nhigh = "H"\n'
        other = '[[relation.attribute]]\nname = "{}"\nkind = "text"\nlow = "U"\nhigh = "H"\n'
        relations = [("Order", "Group"), ("A", "rowid"), ("a", "x"), ("A_highest", "x"), ("B", "Class"), ("C", "k"),
                     ("sqlite_x", "x")]
        with open(path, "w", encoding="utf-8") as file:
            file.write("version = 1\n" + "".join(f'[[relation]]\nname = "{name}"\n{key}{other.format(one)}' for name,
                                                 one in relations))
        connection = mldb.connect(Played().path, "U", user="ann", schemes=path)
        tables = connection.local().tables
        tried.expect("tables", [*tables],
                     [name + form for name in ("Order", "A") for form in ("", "_highest", "_classes")])
        for name in ("A_highest_highest", "B", "b_classes", "C", "sqlite_x"):
            with tried.raises(name, mldb.ProgrammingError) as found:
                connection.execute(f"SELECT * FROM {name}")
            tried.expect(f"{name}: why", "capitals" in str(found), True)


def try_all():
    try_cuts()
    try_refused()
    try_parts()
    try_wrong()
    try_interrupted()
    try_programs()
    try_killed()
    try_names()
