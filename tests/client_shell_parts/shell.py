"""The shell through pipes."""

import re
import subprocess
import sys
import tempfile

from base import ENVIRONMENT, MLDB, POLICY, SCHEMES, SECONDS, TRANSACTIONS, TURN, expect, holds


def shell(label, *words, user="bob", given="", policy=POLICY, terminal=False, store=None):
    """The words of a shell that starts a program, or what it printed, told, and ended with."""
    stored = ["--store", store] if store else []
    line = [sys.executable, "-m", "mldb", "--policy", policy, "--schemes", SCHEMES, *TRANSACTIONS, *stored, "--program",
        MLDB, "--user", user, label, *words]
    if terminal:
        return line
    child = subprocess.run(line, input=given.encode(), capture_output=True, env=ENVIRONMENT, check=False,
        timeout=SECONDS)
    return child.returncode, child.stdout.decode(), child.stderr.decode()


def try_shell_words():
    status, out, told = shell("S", "-c", "insert into SOD (Starship) values ('a'); select * from SOD")
    expect("-c", (status, out, told), (0,
        "Starship | Objective | Destination | class\n---------+-----------+-------------+------\n"
                                          "a        | null      | null        | S\n", ""))
    status, out, told = shell("S", "--mode", "csv", "-c", "select 1 a", "-c", "select nope;\nselect 2", "-c",
        "select 3")
    expect("-c: ends at the first fault", (status, out), (1, "a\n1\n"))
    holds("-c: its place", told.startswith("mldb: line 1: no such column: nope") and "\n         ^" in told, told)
    status, out, told = shell("S", given="select 1;\n\nselect *\n  form SOD;\nselect 2;\n", *["--mode", "csv"])
    expect("standard input: goes on", (status, out), (1, "1\n1\n2\n2\n"))
    holds("standard input: the place",
        "mldb: line 4: near \"form\": syntax error" in told or "mldb: line 4: near \"SOD\"" in told, told)
    status, out, told = shell("S", "--bail", given="select nope;\nselect 2;\n")
    expect("--bail", (status, out), (1, ""))
    expect("a last statement without its end", shell("S", "--mode", "csv", given="select 5")[:2], (0, "5\n5\n"))
    expect("nothing", shell("S", given="")[:2], (0, ""))
    for words, wanted in ((["NOPE"], "NOPE"), (["S", "x", "y"], "one SOCKET")):
        child = subprocess.run([*shell("S", terminal=True)[:-1], *words], capture_output=True, env=ENVIRONMENT,
            check=False)
        holds(f"refused words {words}",
            child.returncode == 2 and wanted.encode() in child.stderr and b"Traceback" not in child.stderr,
            child.stderr)
    child = subprocess.run([sys.executable, "-m", "mldb", "S"], capture_output=True, env=ENVIRONMENT, check=False)
    holds("no target", child.returncode == 2 and b"SOCKET" in child.stderr, child.stderr)
    child = subprocess.run(["sh", "-c", 'yes "select 1;" | head -300 | "$@" | head -1', "sh",
        *shell("S", terminal=True)], capture_output=True,
                           env=ENVIRONMENT, check=False)
    holds("a pipe that is closed", b"Traceback" not in child.stderr, child.stderr)


def try_shell_commands():
    given = 'insert SOD key ("Voyager") values (null, "Mars")\nview SOD at S\nview SDO at S\n' \
            'insert SOD key ("Voyager") values (null, null)\n' \
            "view SOD at H\nselect count(*) from SOD_higest;\nselect Objektive from SOD;\n"
    status, out, told = shell("S", given=given)
    expect("commands go as they are", (status, out.splitlines()[:3]),
           (1, ["S S/bob done", "S S/bob view SOD at S: Starship Objective Destination",
           'S S/bob row "Voyager" S | null S | "Mars" S | S']))
    for wanted in ("line 3: 23 UnknownName at 6: ", "Did you mean SOD?", "line 4: 12 Duplicate: a tuple has this key",
        "line 5: 37 Ss: the user's clearance",
                   "Did you mean SOD_highest", "Did you mean Objective?"):
        holds(f"told: {wanted}", wanted in told, told)
    status, out, _ = shell("S",
        given=".tables\n.schema CREW\n.mode\n.code 12\n.code 1\n.label\n.label U\nselect count(*) from SOD;\n.help\n")
    for wanted in ("SOD  SOD_highest  SOD_classes", "CREATE TABLE CREW (Id INTEGER, Post TEXT, class TEXT);",
        "\ntable\n", "12 Duplicate (refused)", "1 NotToml",
                   "1 Store (store)", "S bob\nU bob\n", ".import FILE RELATION", "above it, too"):
        holds(f"points: {wanted}", wanted in out, out)
    expect("points: status", status, 0)
    status, out, told = shell("S",
        given=".nope\n.mode nope\n.import x\n.read /nope\n.code x\n.describe NOPE\n.label NOPE\nselect 1;\n",
        *["--mode", "csv"])
    expect("points: refused, and goes on", (status, out, told.count("mldb: line ")), (1, "1\n1\n", 7))
    status, out, _ = shell("U", given=".describe SOD\n", user="ann")
    holds("describe: what is declared", re.search(r"SOD +\| Starship +\| key \| text \| U to H",
        out) and "ann may write" in out, out)


def try_shell_files():
    with tempfile.TemporaryDirectory() as folder:
        with open(f"{folder}/a.csv", "w", encoding="utf-8") as file:
            file.write('Destination,Starship,Objective\nMars,"a ""q""",\n,b,""\n"x, y",c,d\n')
        with open(f"{folder}/b.csv", "w", encoding="utf-8") as file:
            file.write("1,x\n2,\n2,again\n3,y\n")
        with open(f"{folder}/bad.csv", "w", encoding="utf-8") as file:
            file.write("7,x\n8,y\nnine,z\n")
        with open(f"{folder}/one.sql", "w", encoding="utf-8") as file:
            file.write("select 1;\nselect\nnope;\n.read " + f"{folder}/one.sql\n")
        store = f"{folder}/db"
        status, out, told = shell("S", "--mode", "csv", store=store,
            given=f".import {folder}/a.csv SOD\nselect * from SOD order by 1;\n")
        expect("import", (status, out, told), (0,
            'Starship,Objective,Destination,class\n"a ""q""",,Mars,S\nb,,,S\nc,d,"x, y",S\n', ""))
        expect("import: an empty text is none", shell("S", "--mode", "csv", "-c",
            "select Starship from SOD where Objective = ''", store=store)[1], "Starship\nb\n")
        status, out, told = shell("U", "--mode", "csv", store=store,
            given=f".import {folder}/b.csv CREW\nselect Id from CREW;\n")
        expect("import: the good rows", (status, out), (1, "Id\n1\n2\n3\n"))
        holds("import: the bad row by its line",
            "b.csv: line 3: " in told and "12 Duplicate" in told and "3 of 4 rows" in told, told)
        status, out, told = shell("U", "--mode", "csv", store=store,
            given=f".import {folder}/bad.csv CREW\nselect count(*) from CREW;\n")
        expect("import: none of a bad file", (status, out), (1, "count(*)\n3\n"))
        holds("import: its line", "bad.csv: line 3: Id: no whole number" in told, told)
        status, out, told = shell("S", "--mode", "csv", given=f".read {folder}/one.sql\n")
        holds("read: place and depth",
            status == 1 and f"mldb: {folder}/one.sql: line 3: no such column" in told and "16 deep" in told, told)
        shell("S", "--mode", "csv", "-c", f".output {folder}/out.csv", "-c", "select 1 a, '" + TURN + "' b")
        with open(f"{folder}/out.csv", encoding="utf-8") as file:
            expect("output: a file has the value itself", file.read(), f"a,b\n1,{TURN}\n")
