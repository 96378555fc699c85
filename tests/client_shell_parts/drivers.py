"""The bridge with psql and psycopg2, where they are installed, and its folder."""

import getpass
import os
import re
import shutil
import socket
import subprocess
import sys
import tempfile

from base import ENVIRONMENT, MLDB, POLICY, SAMPLES, SCHEMES, SECONDS, Counts, expect, holds, wait_for
from protocol import Client, bridge, try_copy_messages, try_protocol

PYTHONS = list(dict.fromkeys([sys.executable, "/usr/bin/python3"]))


def psql(folder, *words, label="S", given=None):
    """What psql printed, told and ended with."""
    line = ["psql", "-X", "-h", folder, "-U", "bob", "-A", "-t", *words, label]
    child = subprocess.run(line, input=given, capture_output=True, env=ENVIRONMENT, check=False, timeout=SECONDS,
        text=True)
    return child.returncode, child.stdout, child.stderr


def try_psql(folder):
    if shutil.which("psql") is None:
        Counts.over.append("psql (not installed)")
        return
    expect("psql: -c", psql(folder, "-c", "SELECT count(*) FROM SOD_highest")[:2], (0, "1\n"))
    expect("psql: other capitals", psql(folder, "-c", "select count(*) from sod")[:2], (0, "1\n"))
    status, out, told = psql(folder, "-c", "\\dt")
    expect("psql: \\dt", (status, out), (0, "public|CREW|table|bob\npublic|SOD|table|bob\n"))
    out = psql(folder, "-c", "\\d")[1]
    holds("psql: \\d", "public|SOD_highest|view|bob" in out and out.count("\n") == 6, out)
    out = psql(folder, "-c", "\\d sod")[1]
    holds("psql: \\d NAME", "Starship|text||not null|" in out and "class|text" in out, out)
    holds("psql: \\d of an int", "Id|bigint" in psql(folder, "-c", "\\d crew")[1])
    holds("psql: \\l", "S|bob|UTF8" in psql(folder, "-c", "\\l")[1])
    holds("psql: \\du", "bob" in psql(folder, "-c", "\\du")[1])
    for words in ("\\dv", "\\dn", "\\df", "\\di", "\\dt+", "\\d+ sod", "\\conninfo", "\\dp", "\\d nope"):
        status, out, told = psql(folder, "-c", words)
        holds(f"psql: {words} is answered or says what to type", "ERROR" not in told or "HINT:  type \\dt" in told,
            told)
    status, out, told = psql(folder, "-c", "select * form SOD")
    holds("psql: the place", status == 1 and "LINE 1: select * form SOD\n                 ^" in told, told)
    status, out, told = psql(folder, "-v", "VERBOSITY=verbose", "-c", "insert into SOD (Starship) values ('a')")
    holds("psql: SQLSTATE and words", "ERROR:  23505: refused 12 Duplicate: a tuple has this key" in told, told)
    try_psql_rows(folder)


def try_psql_rows(folder):
    """\\copy, two labels, a script, a join."""
    with tempfile.TemporaryDirectory() as place:
        with open(f"{place}/in.csv", "w", encoding="utf-8") as file:
            file.write("Id,Post\n1,a\n2,\"b, c\"\n3,\n")
        expect("psql: \\copy from", psql(folder, "-c", f"\\copy CREW from '{place}/in.csv' csv header", label="U")[:2],
            (0, "COPY 3\n"))
        expect("psql: \\copy to", psql(folder, "-c",
            f"\\copy (select Id, Post from CREW order by 1) to '{place}/out.csv' csv header", label="U")[:2],
            (0, "COPY 3\n"))
        with open(f"{place}/out.csv", encoding="utf-8") as file:
            expect("psql: the file", file.read(), "Id,Post\n1,a\n2,\"b, c\"\n3,\n")
    expect("psql: two labels", (psql(folder, "-c", "select count(*) from SOD", label="U")[1], psql(folder, "-c",
        "select count(*) from SOD")[1]), ("0\n", "1\n"))
    given = "begin;\nselect 1;\ncommit;\nprepare p (int) as select $1 + 1;\nexecute p(41);\n" \
            "select Starship from SOD \\gdesc\n\\set FETCH_COUNT 2\n"
    out = psql(folder, given=given)[1]
    holds("psql: a script", "1\n" in out and "42\n" in out and "Starship|text" in out, out)
    expect("psql: a join", psql(folder, "-c",
        "select c.Post, count(*) from CREW c left join SOD s on s.Starship = c.Post group by 1 order by 1 desc")[1],
           "b, c|1\na|1\n|1\n")


PSYCOPG = r"""
import datetime, io, sys
import psycopg2, psycopg2.extras
passed = 0
def expect(what, got, wanted):
    global passed
    if got == wanted:
        passed += 1
    else:
        print(f"not so: psycopg2: {what}: got {got!r}, and not {wanted!r}")
db = psycopg2.connect(host=sys.argv[1], dbname="S", user="bob")
cur = db.cursor()
texts = ["it's", 'a "q"', "\\", "\\'", "é日本", "%s", "$1", "--", ";", "/*", "E'x'", "a::b"]
for text in texts:
    cur.execute("INSERT INTO SOD (Starship, Objective, Destination) VALUES (%s, %s, %s)", (text, None, text))
db.commit()
cur.execute("SELECT Starship, Objective, Destination, class FROM SOD WHERE Destination IS NOT NULL")
expect("values", sorted(cur.fetchall()), sorted((one, None, one, "S") for one in texts))
for text in texts:
    cur.execute("SELECT count(*) FROM SOD WHERE Starship = %s", (text,))
    expect("a key", cur.fetchone(), (1,))
cur.execute("UPDATE SOD SET Objective = %s WHERE Starship = %s", (datetime.date(2026, 1, 2), texts[0]))
expect("rowcount", cur.rowcount, 1)
before = datetime.date(2026, 2, 1)
cur.execute("SELECT Objective, 2.5, 7, NULL FROM SOD WHERE Objective < %s AND Starship = %s", (before, texts[0]))
expect("kinds", cur.fetchall(), [("2026-01-02", 2.5, 7, None)])
expect("description", [one[0] for one in cur.description][:1], ["Objective"])
db.commit()
for sql, kind, code in [("INSERT INTO SOD (Starship) VALUES ('\\')", psycopg2.errors.UniqueViolation, "23505"),
                        ("SELECT nope FROM SOD", psycopg2.errors.UndefinedColumn, "42703"),
                        ("SELECT FROM WHERE", psycopg2.errors.SyntaxError, "42601")]:
    try:
        cur.execute(sql)
        expect(sql, "done", "refused")
    except psycopg2.Error as fault:
        expect(sql, (type(fault), fault.pgcode), (kind, code))
    db.rollback()
for value in (b"ab", "\u00e9" * 4097):
    try:
        cur.execute("INSERT INTO SOD (Starship) VALUES (%s)", (value,))
        expect(f"{value!r:.20}", "done", "refused")
    except psycopg2.Error as fault:
        expect(f"{value!r:.20}", (type(fault), fault.pgcode), (psycopg2.errors.DataException, "22000"))
    db.rollback()
at = datetime.datetime(2026, 1, 2, 3, 4, 5)
cur.execute("UPDATE SOD SET Objective = %s WHERE Starship = %s", (at, texts[0]))
cur.execute("SELECT Objective, %s FROM SOD WHERE Starship = %s", (b"ab", texts[0]))
found = cur.fetchone()
expect("a time as the module writes it, and bytes", (found[0], bytes(found[1])), ("2026-01-02 03:04:05", b"ab"))
db.commit()
with db, db.cursor() as other:
    other.executemany("DELETE FROM SOD WHERE Starship = %s", [(one,) for one in texts])
db.autocommit = True
with db.cursor(cursor_factory=psycopg2.extras.DictCursor) as other:
    other.execute("SELECT count(*) AS n FROM SOD")
    expect("by name", other.fetchone()["n"], 1)
low = psycopg2.connect(host=sys.argv[1], dbname="U", user="bob")
low.autocommit = True
cur = low.cursor()
cur.execute("DELETE FROM CREW")
cur.copy_expert("COPY CREW (Id, Post) FROM STDIN", io.StringIO("1\ta\\tb\n".replace("\\t", "-") + "2\t\\N\n"))
psycopg2.extras.execute_values(cur, "INSERT INTO CREW (Id, Post) VALUES %s", [(3, "x"), (4, "y")])
out = io.StringIO()
cur.copy_expert("COPY (SELECT Id, Post FROM CREW ORDER BY 1) TO STDOUT WITH CSV", out)
expect("copy", out.getvalue(), "1,a-b\n2,\n3,x\n4,y\n")
cur.execute("DELETE FROM CREW")
low.close(); db.close()
print(passed)
"""


def try_psycopg(folder):
    found = [one for one in PYTHONS if os.path.exists(one) and subprocess.run([one, "-c", "import psycopg2"],
        capture_output=True, check=False).returncode == 0]
    if not found:
        Counts.over.append("psycopg2 (not installed)")
        return
    child = subprocess.run([found[0], "-c", PSYCOPG, folder], capture_output=True, check=False, timeout=SECONDS,
        text=True)
    print(child.stdout if "not so" in child.stdout else "", end="")
    holds("psycopg2: all is so", child.returncode == 0 and child.stdout.strip() == "25",
        child.stdout[-300:] + child.stderr[-600:])


def try_folders(folder):
    line = bridge(folder).line
    child = subprocess.run(line, capture_output=True, env=ENVIRONMENT, check=False, timeout=SECONDS)
    holds("folder: a second bridge", child.returncode == 2 and b"a bridge is at work there" in child.stderr,
        child.stderr)
    with tempfile.TemporaryDirectory() as other:
        os.chmod(other, 0o755)
        child = subprocess.run(bridge(other).line, capture_output=True, env=ENVIRONMENT, check=False, timeout=SECONDS)
        holds("folder: open to others", child.returncode == 2 and b"chmod 700" in child.stderr, child.stderr)
        os.chmod(other, 0o700)
        with socket.socket(socket.AF_UNIX) as stale:
            stale.bind(f"{other}/.s.PGSQL.5432")
        with bridge(other) as path:
            expect("folder: a stale socket is replaced", Client(path, "S", "bob").query("select 1")[1], [["1"]])
            expect("folder: nobody else", os.stat(path).st_mode & 0o077, 0)


def try_messages():
    with tempfile.TemporaryDirectory() as place, bridge(f"{place}/pg") as path:
        expect("folder: its mode", os.stat(f"{place}/pg").st_mode & 0o777, 0o700)
        try_protocol(path)
        try_copy_messages(path)
        try_folders(f"{place}/pg")


def try_drivers():
    with tempfile.TemporaryDirectory() as place, bridge(f"{place}/pg") as path:
        Client(path, "S", "bob").query("insert into SOD (Starship, Objective) values ('a', 'x')")
        try_psql(f"{place}/pg")
        try_psycopg(f"{place}/pg")


def gateway_policy(folder):
    """A policy in which the account of this test is a user, too."""
    path, name = f"{folder}/policy.toml", getpass.getuser()
    with open(POLICY, encoding="utf-8") as file, open(path, "w", encoding="utf-8") as out:
        out.write(file.read() + f'\n[[user]]\nname = "{name}"\nclearance = "S"\n')
        out.write(f'\n[[matrix]]\nuser = "{name}"\nobject = "SOD"\nmodes = ["read", "append"]\n')
    return path


def start_gate(door, folder):
    """A gateway over an empty store."""
    line = [f"{SAMPLES}/running/mlgate", door, MLDB, "serve", gateway_policy(folder), SCHEMES]
    gate = subprocess.Popen(line, cwd=folder, stderr=subprocess.DEVNULL)
    holds("gateway: listens", wait_for(door))
    return gate


def try_gateway():
    name = getpass.getuser()
    if not re.fullmatch(r"[A-Za-z][A-Za-z0-9_]{0,31}", name):
        Counts.over.append("a gateway (the account's name is no NAME)")
        return
    with tempfile.TemporaryDirectory() as folder:
        door = f"{folder}/sock"
        gate = start_gate(door, folder)
        try:
            line = [sys.executable, "-m", "mldb", "--schemes", SCHEMES, door, "S"]
            given = b"insert into SOD (Starship) values ('a');\nselect count(*) n from SOD;\n" \
                    b"update SOD set Objective = 'x';\n.describe SOD\n"
            child = subprocess.run([*line, "--mode", "csv"], input=given, capture_output=True, env=ENVIRONMENT,
                check=False)
            holds("gateway: rows", child.returncode == 1 and child.stdout.startswith(b"n\n1\n"), child.stdout)
            holds("gateway: a denial in words", b"36 Ds: the matrix does not give" in child.stderr, child.stderr)
            holds("gateway: rights by answers", b"read yes; append yes; write no (36 Ds)" in child.stdout, child.stdout)
            with bridge(folder + "/pg", [door, "--schemes", SCHEMES]) as where:
                client = Client(where, "S", name)
                expect("gateway: bridge", client.query("select count(*) from SOD")[1], [["1"]])
                gate.terminate()
                gate.wait()
                found = client.query("select count(*) from SOD")[3]
                expect("gateway: gone", (found.get("S"), found.get("C")), ("FATAL", "08006"))
                gate = start_gate(door, folder)
                expect("gateway: there again", Client(where, "S", name).query("select count(*) from SOD")[1], [["0"]])
        finally:
            gate.terminate()
            gate.wait()
