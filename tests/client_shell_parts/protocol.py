"""The bridge, by messages of PostgreSQL's protocol byte by byte."""

import os
import random
import select
import socket
import struct
import subprocess
import sys

from base import ENVIRONMENT, MLDB, POLICY, SCHEMES, SECONDS, TRANSACTIONS, expect, holds, wait_for, works


class bridge:  # noqa: N801 (it is used as a function)
    """A bridge at work, in a `with`: its folder."""

    def __init__(self, folder, words=None, user="bob", port=5432, policy=POLICY, store=None):
        stored = ["--store", store] if store else []
        words = words or ["--policy", policy, "--schemes", SCHEMES, *TRANSACTIONS, *stored, "--program", MLDB, "--user",
            user]
        self.folder, self.path = folder, f"{folder}/.s.PGSQL.{port}"
        self.line = [sys.executable, "-m", "mldb.pg", "--folder", folder, "--port", str(port), *words]

    def __enter__(self):
        self.process = subprocess.Popen(self.line, env=ENVIRONMENT, stderr=subprocess.PIPE)
        holds("bridge: listens", wait_for(self.path))
        return self.path

    def __exit__(self, *_):
        self.process.terminate()
        expect("bridge: ends at SIGTERM", self.process.wait(SECONDS), 0)
        told = self.process.stderr.read()
        holds("bridge: no fault of its own", b"Traceback" not in told, told)
        holds("bridge: takes its socket away", not os.path.exists(self.path))


class Client:
    """The protocol, byte by byte."""

    def __init__(self, path, label, user, first=None):
        self.door = socket.socket(socket.AF_UNIX)
        self.door.settimeout(SECONDS)
        self.door.connect(path)
        self.lines = self.door.makefile("rb")
        if first is not None:
            self.door.sendall(first)
            return
        words = b"".join(one.encode() + b"\0" for one in ("user", user, "database", label, "client_encoding",
            "UTF8")) + b"\0"
        self.door.sendall(struct.pack("!ii", len(words) + 8, 3 << 16) + words)
        self.greeting = self.until(b"Z")

    def send(self, kind, body=b""):
        self.door.sendall(kind + struct.pack("!i", len(body) + 4) + body)

    def receive(self):
        """One message; an empty letter at the end."""
        try:
            kind = self.lines.read(1)
        except ConnectionResetError:
            return b"", b""
        if not kind:
            return b"", b""
        return kind, self.lines.read(struct.unpack("!i", self.lines.read(4))[0] - 4)

    def until(self, last):
        """Messages up to one of a letter, or to the end."""
        found = []
        while not found or found[-1][0] not in (last, b""):
            found.append(self.receive())
        return found

    def bridge(self):
        """The number of the bridge's process."""
        return struct.unpack("3i", self.door.getsockopt(socket.SOL_SOCKET, socket.SO_PEERCRED, 12))[0]

    def query(self, sql):
        """Names, rows, tags and fault of a simple query, and the state after it."""
        self.send(b"Q", sql.encode() + b"\0")
        return read_answer(self.until(b"Z"))

    def extended(self, sql, values=(), types=(), formats=(), wanted=(), most=0, describe=b"P", name=b""):
        """The same by Parse, Bind, Describe, Execute and Sync."""
        self.send(b"P", name + b"\0" + sql.encode() + b"\0" + struct.pack("!H", len(types)) + b"".join(struct.pack("!i",
            one) for one in types))
        if describe == b"S":
            self.send(b"D", b"S" + name + b"\0")
        self.bind(values, formats, wanted, name)
        if describe == b"P":
            self.send(b"D", b"P\0")
        self.send(b"E", b"\0" + struct.pack("!i", most))
        self.send(b"S")
        return self.until(b"Z")

    def bind(self, values, formats=(), wanted=(), name=b""):
        body = b"\0" + name + b"\0" + struct.pack("!H",
            len(formats)) + b"".join(struct.pack("!h", one) for one in formats)
        body += struct.pack("!H", len(values))
        for one in values:
            body += struct.pack("!i", -1) if one is None else struct.pack("!i", len(one)) + one
        self.send(b"B", body + struct.pack("!H", len(wanted)) + b"".join(struct.pack("!h", one) for one in wanted))

    def close(self):
        self.send(b"X")
        self.door.close()


def cells_of(body):
    """The values of a row."""
    at, found = 2, []
    for _ in range(struct.unpack("!H", body[:2])[0]):
        size = struct.unpack("!i", body[at:at + 4])[0]
        at += 4
        found.append(None if size < 0 else body[at:at + size])
        at += max(size, 0)
    return found


def columns_of(body):
    """Names and types of a description."""
    at, found = 2, []
    for _ in range(struct.unpack("!H", body[:2])[0]):
        end = body.index(b"\0", at)
        found.append((body[at:end].decode(), struct.unpack("!ihihih", body[end + 1:end + 19])[2]))
        at = end + 19
    return found


def fields_of(body):
    """The fields of a fault."""
    return {one[:1].decode(): one[1:].decode() for one in body.split(b"\0") if one}


def read_answer(messages):
    """Columns, rows in text, tags, the fault's fields, the state."""
    columns, rows, tags, fault, state = [], [], [], {}, ""
    for kind, body in messages:
        if kind == b"T":
            columns = columns_of(body)
        elif kind == b"D":
            rows.append([one if one is None else one.decode() for one in cells_of(body)])
        elif kind == b"C":
            tags.append(body[:-1].decode())
        elif kind == b"E":
            fault = fields_of(body)
        elif kind == b"Z":
            state = body.decode()
    return columns, rows, tags, fault, state


STATES = [
    ("insert into SOD (Starship) values ('a')", "23505"), ("insert into SOD (Starship) values (null)", "23502"),
    ("select * form SOD", "42601"),
    ("select 1 from NOPE", "42P01"), ("select nope(1)", "42883"),
    (f"insert into SOD (Starship) values ('{'x' * 8193}')", "22000"), ("create table x (a int)", "0A000"),
    ("select 'x", "42601"), ("savepoint a", "0A000"), ("call Nope()", "42883"), ("copy NOPE to stdout", "42P01"),
    ("execute nope", "26000"),
    ("call Known()", "42501"), ("set client_encoding to latin1", "0A000"), ("show nope", "42704"),
    ("insert into CREW (Id) values (1)", "23514"),
    ("select E'\\x00'", "22021"), ("select E'\\ud800'", "22021"), ("select pg_nope() from pg_class", "0A000"),
    ("delete from SOD_highest", "42000"), ("insert into SOD (Starship) values ('\\x6162'::bytea)", "22000"),
    ("insert into SOD (Starship) values (1.5)", None), ("delete from SOD where Starship = '1.5'", None),
    ("insert into CREW (Id) values (1.5)", "22000"), ("vacuum", "0A000"), ("reindex", "0A000"),
]


def try_protocol(path):
    for code in (80877103, 80877104):
        client = Client(path, "S", "bob", struct.pack("!ii", 8, code))
        expect("protocol: SSL and GSS are answered N", client.lines.read(1), b"N")
        client.door.close()
    client = Client(path, "S", "bob")
    told = dict(body[:-1].decode().split("\0") for kind, body in client.greeting if kind == b"S")
    expect("protocol: settings", (told["server_encoding"], told["standard_conforming_strings"],
        told["integer_datetimes"]), ("UTF8", "on", "on"))
    expect("protocol: insert", client.query("insert into SOD (Starship, Objective) values ('a', 'é'), ('b', null)")[2],
        ["INSERT 0 2"])
    answer = client.query("select Starship, Objective, length(Starship) n, 1.5 f from SOD order by 1")
    expect("protocol: types", answer[0], [("Starship", 25), ("Objective", 25), ("n", 20), ("f", 701)])
    expect("protocol: rows", answer[1:3], ([["a", "é", "1", "1.5"], ["b", None, "1", "1.5"]], ["SELECT 2"]))
    expect("protocol: a null is of any type", client.query("select 1 a, null b, 'x' c, 1.5 d union all "
        "select null, 2, null, null")[0], [("a", 20), ("b", 20), ("c", 25), ("d", 701)])
    expect("protocol: nothing", [kind for kind, _ in (client.send(b"Q", b" ; -- x\0"), client.until(b"Z"))[1]],
        [b"I", b"Z"])
    expect("protocol: several",
        client.query("select 1; update SOD set Objective = 'x' where Starship = 'b'; "
                     "delete from SOD where Starship = 'b'")[2],
           ["SELECT 1", "UPDATE 1", "DELETE 1"])
    answer = client.query("select 1; select nope from SOD; select 2")
    expect("protocol: ends at a fault", (answer[2], answer[3]["C"], answer[3]["P"], answer[4]),
        (["SELECT 1"], "42703", "18", "I"))
    for sql, state in STATES:
        got = client.query(sql)
        expect(f"protocol: {sql}", got[3].get("C"), state)
    expect("protocol: still there", client.query("select 1")[1], [["1"]])
    fault = client.query("select * from Known()")[3]
    expect("protocol: a call as a function", (fault["C"], fault.get("H")),
        ("42P01", "CALL Known(..) calls a stored transaction"))
    expect("protocol: a join by USING", client.query("select count(*) from SOD join SOD_highest using (Starship)")[1],
        [["1"]])
    try_transactions(client)
    try_extended(client)
    client.close()
    try_bad_messages(path)


def try_transactions(client):
    expect("transaction: begin", client.query("begin")[4], "T")
    expect("transaction: a fault", client.query("select nope")[4], "E")
    answer = client.query("select 1")
    expect("transaction: failed", (answer[3]["C"], answer[4]), ("25P02", "E"))
    answer = client.query("commit")
    expect("transaction: ends", (answer[2], answer[4]), (["ROLLBACK"], "I"))
    expect("transaction: nothing to undo",
        client.query("begin; select 1; rollback")[2:3] + client.query("select 1")[4:],
        (["BEGIN", "SELECT 1", "ROLLBACK"], "I"))
    client.query("begin")
    client.query("insert into SOD (Starship) values ('kept')")
    answer = client.query("rollback")
    count = client.query("select count(*) from SOD where Starship = 'kept'")[1]
    holds("transaction: what stands is said", (answer[2], count) == (["ROLLBACK"], [["0"]]) or (answer[3].get("C"),
        count) == ("0A000", [["1"]]), answer)
    expect("transaction: then it has ended", answer[4], "I")
    client.query("delete from SOD where Starship = 'kept'")
    expect("transaction: commit",
        client.query("begin; insert into SOD (Starship) values ('c'); commit; delete from SOD where Starship = 'c'")[2],
           ["BEGIN", "INSERT 0 1", "COMMIT", "DELETE 1"])


def try_extended(client):
    insert = "insert into CREW (Id, Post) values ($1, $2)"
    expect("extended: refused outside the interval", read_answer(client.extended(insert, [b"1", b"x"]))[3].get("C"),
        "23514")
    messages = client.extended("select Starship, length(Starship) from SOD where Starship = $1", [b"a"])
    expect("extended: letters", b"".join(kind for kind, _ in messages), b"12TDCZ")
    expect("extended: rows", read_answer(messages)[1], [["a", "1"]])
    messages = client.extended("select $1 + 1, $2, $3", [struct.pack("!q", 41), struct.pack("!i", -7), "é".encode()],
        (20, 23, 25), (1,), (1,))
    expect("extended: binary", [cells_of(body) for kind, body in messages if kind == b"D"],
        [[struct.pack("!q", 42), struct.pack("!q", -7), "é".encode()]])
    expect("extended: a type in binary that is none here",
        read_answer(client.extended("select $1", [b"\0\0\0\1"], (1082,), (1,)))[3]["C"], "0A000")
    expect("extended: no number", read_answer(client.extended("select 1 from CREW where Id = $1", [b"x"]))[3]["C"],
        "22P02")
    messages = client.extended("select Id, Post, count(*) n from CREW where Id = $1 group by 1, 2", [b"1"],
        describe=b"S")
    types = [struct.unpack("!Hi", body) for kind, body in messages if kind == b"t"]
    expect("extended: described before", (types, [columns_of(body) for kind, body in messages if kind == b"T"]),
           ([(1, 20)], [[("Id", 20), ("Post", 25), ("n", 20)]]))
    expect("extended: no rows of a write", b"".join(kind for kind,
        _ in client.extended("delete from SOD where Starship = $1", [b"zz"])), b"12nCZ")
    try_portals(client)


def try_portals(client):
    """Portals that wait, faults up to Sync, names."""
    messages = client.extended("values (1), (2), (3)", most=2)
    expect("extended: a portal that waits", b"".join(kind for kind, _ in messages), b"12TDDsZ")
    client.query("begin")
    client.extended("values (1), (2), (3)", most=2)
    client.send(b"E", b"\0" + struct.pack("!i", 2))
    client.send(b"S")
    expect("extended: and goes on", b"".join(kind for kind, _ in client.until(b"Z")), b"DCZ")
    client.query("commit")
    messages = client.extended("select * form SOD", [])
    expect("extended: a fault up to Sync", (b"".join(kind for kind, _ in messages), read_answer(messages)[3]["P"]),
        (b"EZ", "10"))
    client.extended("select $1 || 'x'", [b"a"], name=b"kept")
    client.bind([b"b"], name=b"kept")
    client.send(b"E", b"\0" + struct.pack("!i", 0))
    client.send(b"C", b"Skept\0")
    client.bind([b"b"], name=b"kept")
    client.send(b"S")
    messages = client.until(b"Z")
    expect("extended: a name, and its end", (b"".join(kind for kind, _ in messages), read_answer(messages)[3]["C"]),
        (b"2DC3EZ", "26000"))
    expect("extended: too few values", read_answer(client.extended("select $1, $2", [b"a"]))[3]["C"], "08P01")
    expect("extended: PREPARE", client.query("prepare p as select $1 + $2; execute p(40, 2); deallocate p")[1],
        [["42"]])


def try_bad_messages(path):
    client = Client(path, "NOPE", "bob")
    found = fields_of(client.greeting[-2][1])
    expect("protocol: no such label", (found["S"], found["C"]), ("FATAL", "3D000"))
    client = Client(path, "S", "mallory")
    expect("protocol: another's bridge", fields_of(client.greeting[-2][1])["C"], "28000")
    client = Client(path, "S", "bob", struct.pack("!ii", 8, 2 << 16))
    expect("protocol: another version", fields_of(client.until(b"")[0][1])["C"], "0A000")
    for bad in (b"Q" + struct.pack("!i", 3), b"Q" + struct.pack("!i", 1 << 30), b"y" + struct.pack("!i", 4),
        b"Q" + struct.pack("!i", 7) + b"abc",
                b"B" + struct.pack("!i", 6) + b"\0\0", b"Q" + struct.pack("!i", 6) + b"\xff\0"):
        client = Client(path, "S", "bob")
        client.door.sendall(bad)
        messages = client.until(b"")
        expect(f"protocol: {bad[:8]!r}", fields_of(messages[0][1]).get("C"), "08P01")
    pick = random.Random(3)
    for _ in range(60):
        client = Client(path, "S", "bob")
        body = bytes(pick.randrange(256) for _ in range(pick.randrange(30)))
        client.send(pick.choice([b"P", b"B", b"D", b"E", b"C", b"d", b"c", b"H"]), body)
        client.send(b"S")
        last = client.until(b"Z")[-1][0]
        holds("protocol: any bytes are answered", last in (b"Z", b""))
        client.door.close()
    client = Client(path, "S", "bob")
    key = next(body for kind, body in client.greeting if kind == b"K")
    client.send(b"Q", b"with recursive n(i) as (select 1 union all select i + 1 from n) select count(*) from n\0")
    holds("protocol: a statement is at work", works(client.bridge()))
    Client(path, "S", "bob", struct.pack("!ii", 16, 80877102) + struct.pack("!i", struct.unpack("!i",
        key[:4])[0]) + b"\0\0\0\0")
    holds("protocol: cancel without the secret", not select.select([client.door], [], [], 1)[0])
    Client(path, "S", "bob", struct.pack("!ii", 16, 80877102) + key)
    expect("protocol: cancel", read_answer(client.until(b"Z"))[3].get("C"), "57014")
    expect("protocol: and goes on", client.query("select 1")[1], [["1"]])
    client.close()


def try_copy_messages(path):
    client = Client(path, "U", "bob")
    client.send(b"Q", b"copy CREW (Id, Post) from stdin (format csv)\0")
    expect("copy: asks", client.receive()[0], b"G")
    for part in (b"1,x\n2,", b'"y', b' z"\n3,\n'):
        client.send(b"d", part)
    client.send(b"c")
    expect("copy: in pieces", read_answer(client.until(b"Z"))[2], ["COPY 3"])
    client.send(b"Q", b"copy CREW to stdout\0")
    expect("copy: out", b"".join(body for kind, body in client.until(b"Z") if kind == b"d"), b"1\tx\n2\ty z\n3\t\\N\n")
    for sent, state in ((b"x\ty\n", "22P02"), (b"1\n", "22P04"), (b"4\ta\n1\tb\n", "23505")):
        client.send(b"Q", b"copy CREW from stdin\0")
        client.receive()
        client.send(b"d", sent)
        client.send(b"c")
        fault = read_answer(client.until(b"Z"))[3]
        expect(f"copy: {sent!r}", fault.get("C"), state)
    is_told = fault["M"].startswith("row 2: refused 12") and fault["D"] == "1 row stand"
    holds("copy: the row that is refused", is_told, fault)
    client.send(b"Q", b"copy CREW from stdin\0")
    client.receive()
    client.send(b"f", b"no more\0")
    expect("copy: stopped", read_answer(client.until(b"Z"))[3].get("C"), "57014")
    client.query("delete from CREW")
    client.close()
