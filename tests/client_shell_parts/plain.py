"""Parts of shell and bridge that need no program: statements, tables, SQL for SQLite, COPY."""

import csv
import io
import json
import random

from base import TURN, expect, holds


def try_split():
    from mldb.shell_split import items_of

    def kinds(text):
        return [(one.kind, one.text, one.line) for one in items_of(text)]

    expect("split: two statements", kinds("select 1; select ';' ;"),
        [("sql", "select 1;", 1), ("sql", "select ';' ;", 1)])
    expect("split: lines", kinds("-- a\nselect\n'x\n;y';\n\nselect 2"),
        [("sql", "select\n'x\n;y';", 2), ("sql", "select 2", 6)])
    expect("split: a remark alone", kinds("-- a;\n/* b; */"), [])
    expect("split: places", [one.line for one in items_of("\n\nselect 1;\n\n select 2;")], [3, 5])
    for line in ("view SOD at S", "count SOD at S", "audit", "call Known ()",
        'insert SOD key ("a") values (null, null)', "dump SOD",
                 'update SOD key ("a") class U from U set A = 1', 'delete SOD key ("a") class U',
                 "all { view SOD at S }"):
        expect(f"split: {line}", kinds(line), [("command", line, 1)])
    for line in ("insert into SOD values (1);", "update SOD set A = 1;", "delete from SOD;", "select 1;",
        "with x as (select 1) select 1;"):
        expect(f"split: {line}", kinds(line), [("sql", line, 1)])
    expect("split: points and words",
        [one.text for one in items_of(".mode csv\nhelp\nquit\nexit;\nclose\ndescribe SOD")],
           ["mode csv", "help", "quit", "quit", "quit", "describe SOD"])
    expect("split: a command inside a statement", kinds("select\nview\n;"), [("sql", "select\nview\n;", 1)])


def try_show():
    from mldb import shell_show as show

    names, rows = ["Starship", "Id"], [["Enterprise", 5], [None, -77], [f"a{TURN}b\x1b[2J", 1]]
    expect("table", show.table(["A", "B"], [["x", 1], [None, 22]], "null", 0),
        "A    | B\n-----+---\nx    |  1\nnull | 22\n")
    text = show.table(names, rows, "null", 0)
    holds("table: nothing raw", TURN not in text and "\x1b" not in text and "\\u202e" in text and "\\x1b" in text, text)
    pick = random.Random(7)
    for most in (10, 20, 40, 80, 131):
        for _ in range(40):
            cells = [["日本 x"[pick.randrange(4)] * pick.randrange(90) if pick.random() < 0.5 else pick.choice(["",
                "a b c d e f" * 5, None, 7])
                      for _ in range(pick.randrange(1, 7))]]
            lines = show.table([f"name{place}" for place in range(len(cells[0]))], cells, "null", most).splitlines()
            holds(f"table: no wider than {most}", all(show.width(line) <= max(most, 13) for line in lines), lines)
    whole = show.table(["A"], [["x y " * 40]], "null", 30)
    expect("table: nothing is lost", "".join(whole.split()[2:]), "xy" * 40)
    for character in ("\u061c", "\u200b", "\u200e", "\u202a", "\u202e", "\u2066", "\u2069", "\ufeff", "\x00", "\x1b",
        "\x7f", "\x85", "\x9b", "\u2028"):
        holds(f"plain: {character!r}", show.plain(character).isascii() and show.plain(character).startswith("\\"))
    expect("plain: others", show.plain("é日本🚀\u200d"[:4] + "ä"), "é日本🚀ä")
    awkward = ['a"b', "a,b", "", None, 5, "ü\n"]
    expect("csv", next(csv.reader(io.StringIO(show.as_csv(["h"] * 6, [awkward], "")[12:], newline=""))),
        ['a"b', "a,b", "", "", "5", "ü\n"])
    expect("json", json.loads(show.as_json(["a", "b"], [[f"{TURN}\"", None], [1, "é"]])),
        [{"a": f"{TURN}\"", "b": None}, {"a": 1, "b": "é"}])
    holds("json: nothing raw", TURN not in show.as_json(["a"], [[TURN]]))
    expect("json: names twice", list(json.loads(show.as_json(["a", "a"], [[1, 2]]))[0].values()), [1, 2])
    expect("markdown", show.as_markdown(["a"], [["x|y"], [None]], "null"), "| a |\n| --- |\n| x\\|y |\n| null |\n")


def try_sql():
    import sqlite3

    from mldb import pg_sql

    def told(sql, values=None):
        return [pg_sql.Translation(one, values or {}).sql for one in pg_sql.statements_of(sql)]

    base = sqlite3.connect(":memory:")
    base.execute("CREATE TABLE SOD (a, b, n INTEGER)")
    base.execute("INSERT INTO SOD VALUES ('it''s', 'b', 7)")
    for sql, wanted in [
        ("select E'a\\tb\\'c\\x41\\u00e9\\\\'", "a\tb'cAé\\"), ("select $$it's$$", "it's"),
        ("select $q$a$$b$q$", "a$$b"), ("select '7'::int8 + 1", 8),
        ("select n::text || 'x' from public.\"SOD\"", "7x"), ("select (n + 1)::varchar(10)::int + 1 from SOD s", 9),
        ("select s.n::text from SOD s", "7"),
        ("select length(a)::text || '!' from SOD", "4!"), ("select '2026-01-02'::date", "2026-01-02"),
        ("select date '2026-01-02'", "2026-01-02"),
        ("select '2026-01-02T03:04:05'::timestamp", "2026-01-02 03:04:05"),
        ("select hex('\\x61fF'::bytea)", "61FF"), ("select ''::bytea", ""),
        ("select 'A' ilike 'a'", 1), ("select current_user || current_database()", "annS"),
        ("select 1 /* a /* b */ c */ + 1 -- x", 2),
        ("select 5::double precision / 2", 2.5), ("select '{}'::text[]", "{}"),
        ("select coalesce(null, 'x')::text", "x"), ("select 'a;b'", "a;b"),
        ("select true::int", 1), ("select 1.5::numeric(5,2)", 1.5),
    ]:
        got = told(sql, {"current_user": "ann", "current_database": "S"})
        expect(f"sql: {sql}", base.execute(got[0]).fetchone()[0], wanted)
    expect("sql: statements", len(told("select 1;; select ';' ; ")), 2)
    try_places(base)


def try_places(base):
    """Parameters, places of faults, and kinds of parameters."""
    from mldb import pg_sql

    one = pg_sql.Translation(pg_sql.statements_of("select $2, $1, $2")[0], {})
    expect("sql: parameters", (one.sql, one.order, one.parameters), ("select ?, ?, ?", [2, 1, 2], 2))
    for sql, wanted in [("select * form SOD where x", 10), ("select a a a, b from", 12), ("select nope from SOD", 8),
        ("select a from", 14),
                        ("select a, nope.b from SOD", 11), ("select a from NOPE", 15)]:
        tokens = pg_sql.statements_of(sql)[0]
        one = pg_sql.Translation(tokens, {})
        expect(f"sql: place in {sql}", one.origin(pg_sql.fault_of(base, one.sql)), wanted)
    kinds = pg_sql.parameter_kinds(pg_sql.statements_of("insert into R (Id, Post) values ($1, $2), ($3, f($4))")[0],
        {"id": "int", "post": "text"})
    expect("sql: kinds of an insert", (kinds[1], kinds[2], kinds[3]), ("int", "text", "int"))
    kinds = pg_sql.parameter_kinds(pg_sql.statements_of("select 1 from R where Id = $1 and Post > $2 limit $3")[0],
        {"id": "int", "post": "text"})
    expect("sql: kinds of conditions", kinds, {1: "int", 2: "text", 3: "int"})


def try_copy():
    from mldb import pg_copy, pg_sql

    def copy_of(sql):
        return pg_copy.copy_of(pg_sql.statements_of(sql)[0])

    pick = random.Random(11)
    for sql in ("copy r to stdout", "copy r to stdout (format csv)", "copy r to stdout with csv delimiter ';' null 'x'",
        "copy r to stdout delimiter '|'",
                "copy r to stdout (format csv, quote '''', escape '\\')", "copy r to stdout (null '-')"):
        copy = copy_of(sql)
        for _ in range(100):
            texts = ["".join(pick.choices("a\\\"',;|\t\n\r.xN- é", k=pick.randrange(5))) for _ in range(3)]
            cells = [None if pick.random() < 0.2 else one for one in texts]
            if sql.endswith("(null '-')") and "-" in cells or not copy.is_csv and "" == copy.null:
                continue
            line = pg_copy.line_for(copy, cells).decode()
            expect(f"copy: back by {sql}", [row for _, row in pg_copy.lines_of(copy, line)], [cells])
    rows = list(pg_copy.lines_of(copy_of("copy r from stdin csv header"), 'a,b\n,""\n"x ""y""",z\r\n"1\n2",\n'))
    expect("copy: csv", rows, [(2, [None, ""]), (3, ['x "y"', "z"]), (4, ["1\n2", None])])
    expect("copy: text", list(pg_copy.lines_of(copy_of("copy r from stdin"), "a\\tb\t\\N\n\\x41\\101\t\n\\.\nno\n")),
        [(1, ["a\tb", None]), (2, ["AA", ""])])
    expect("copy: columns", copy_of('copy public.r (a, "B") from stdin').columns, ["a", "B"])
    for sql in ("copy r from 'file'", "copy r", "copy r from stdin (format binary)", "copy (select 1) from stdin",
        "copy r from stdin (nope 1)"):
        try:
            copy_of(sql)
            expect(f"copy: refused {sql}", "taken", "refused")
        except pg_copy.BadCopy as fault:
            holds(f"copy: refused {sql}", fault.state in ("0A000", "42601"))
