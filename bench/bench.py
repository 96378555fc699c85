#!/usr/bin/env python3
"""Measures the built program beside C SQLite on the same work, and prints a table.

Each workload is a list of commands, made from a seed. The program runs them as a script. Beside it the same commands
run over the same tables (a node for each tuple, a cell for each element) in plain SQL: Python's `sqlite3`, one
transaction a command, a full sync at each commit in a file. Both have to print the same lines. Nothing is built: the
program is crates/mldb/out/mldb, or the one that --program names.
"""
import argparse
import math
import os
import random
import shutil
import sqlite3
import subprocess
import sys
import tempfile
import time

ROOT = os.path.dirname(os.path.dirname(os.path.abspath(__file__)))
LABELS = {"U": 0, "M": 1, "S": 2, "H": 3}
NAMES = "UMSH"
BELOW = {"U": "U", "M": "UM", "S": "US", "H": "UMSH"}
ABOVE = {"U": "UMSH", "M": "MH", "S": "SH", "H": "H"}
USERS = {"U": ("a", "ann"), "M": ("m", "mia"), "S": ("b", "bob"), "H": ("h", "hal")}
ATTRIBUTES = ("Objective", "Destination")
REFUSED = {12: "Duplicate", 13: "NoTuple", 15: "Inherited", 17: "AlreadyDerived"}
MOST_BYTES = 1_048_576
COLUMNS = ("Starship",) + ATTRIBUTES
TALLY = """transaction Tally levels S to S () {
  var k: int;
  k := 0;
  for r in SOD at S {
    if (r.Destination = "Rigel") {
      k := (k + 1);
    }
  }
  emit k at S;
}
"""
RIGHT = '\n[[matrix]]\nuser = "bob"\nobject = "Tally"\nmodes = ["execute"]\n'

# ---- the work: commands are (level, what, operands)


def opened():
    return [(level, "open") for level in NAMES]


def inserts(n, at=0):
    values = (("Survey", "Mapping", None), ("Talos", "Rigel", "Vulcan"))
    return [("U", "insert", f"{i}", tuple(vs[i % 3] for vs in values)) for i in range(at, at + n)]


def batches(n):
    """The same, a hundred in a batch."""
    ones = inserts(n)
    return [("U", "all", ones[at:at + 100]) for at in range(0, n, 100)]


def instances(n):
    """Tuples of n entities at U, a second one of each above it, and a third one of each tenth."""
    commands = inserts(n)
    commands += [("S", "update", f"{i}", "U", ((1, "Rigel"),)) for i in range(n)]
    commands += [("H", "update", f"{i}", "S", ((0, "Spying"),)) for i in range(0, n, 10)]
    return commands


def mixed(n, seed):
    """Half of them add entities; the others change, raise and take away any. Every 200th looks."""
    dice = random.Random(seed)
    commands = []
    made = 0
    for i in range(1, n + 1):
        key = f"{dice.randrange(made)}" if made else "0"
        what = dice.random()
        if i % 200 == 0:
            level = dice.choice(NAMES)
            commands.append((level, "view", level))
        elif what < 0.5 or not made:
            commands += inserts(1, made)
            made += 1
        elif what < 0.7:
            commands.append(("U", "update", key, "U", ((0, f"o{i}"),)))
        elif what < 0.85:
            level = dice.choice("MSH")
            commands.append((level, "update", key, "U", ((1, f"d{i}"),)))
        else:
            commands.append(("U", "delete", key))
    return commands


class Workload:
    def __init__(self, title, sizes, timed, before=(), in_file=False, calls=False, less=False):
        self.title = title
        self.sizes = sizes
        self.timed = timed
        self.before = before
        self.in_file = in_file
        self.calls = calls
        self.less = less


def workloads(seed, entities):
    sizes, calls, stores = (2000, 4000, 8000), (1000, 2000, 4000), (4000, 8000, 16000)
    views = [(level, "view", level) for level in NAMES] * 13
    stored = lambda n: instances(entities)
    return [
        Workload("n inserts", sizes, inserts),
        Workload("n inserts, file", sizes, inserts, in_file=True),
        Workload("n inserts in batches of 100", sizes, batches),
        Workload("n inserts in batches of 100, file", sizes, batches, in_file=True),
        Workload("n tuples, n above, n/10 higher", sizes, instances),
        Workload("the same, file", sizes, instances, in_file=True),
        Workload("n mixed", sizes, lambda n: mixed(n, seed)),
        Workload("n mixed, file", sizes, lambda n: mixed(n, seed), in_file=True),
        Workload(
            "n calls that read 134 tuples", calls, lambda n: inserts(100) + raised(34) + [("S", "call")] * n, calls=True
        ),
        Workload("opening: n entities, 2.1 n tuples", stores, lambda n: [], before=instances, in_file=True),
        Workload("50 views of n entities", sizes, lambda n: views[:50], before=instances, in_file=True, less=True),
        Workload(
            f"n look-ups by key, {entities:,} entities",
            sizes,
            lambda n: looked_up(n, entities),
            before=stored,
            in_file=True,
            less=True,
        ),
        Workload(
            f"n conditions, {entities:,} entities", (25, 50, 100), conditions, before=stored, in_file=True, less=True
        ),
        Workload("n denied, and an audit", sizes, lambda n: [("U", "view", "S")] * n + [("U", "audit")]),
    ]


def looked_up(n, entities):
    """n look-ups by key, at four levels in turn, spread over the entities."""
    return [(NAMES[i % 4], "view", NAMES[i % 4], 0, f"{i * 7919 % entities}") for i in range(n)]


def conditions(n):
    """n conditions that name no key, at four levels in turn, each of which finds a third or a tenth of the rows, or
    none."""
    asked = [(1, "Vulcan"), (2, "Talos"), (1, "Spying"), (2, "Vega")]
    return [(NAMES[i % 4], "view", NAMES[i % 4], *asked[i // 4 % 4]) for i in range(n)]


def raised(n):
    return [("S", "update", f"{i}", "U", ((1, "Rigel"),)) for i in range(n)]


# ---- as a script


def spelled(value):
    return "null" if value is None else f'"{value}"'


def line_of(command):
    level, what, *rest = command
    session, user = USERS[level]
    head = f"{level} {session} {what}"
    if what == "open":
        return f"{head} {user}\n"
    if what == "all":
        place = len(f"{level} {session} ")
        return f"{head} {{ {'; '.join(line_of(one)[place:-1] for one in rest[0])} }}\n"
    if what == "insert":
        return f"{head} SOD key ({spelled(rest[0])}) values ({', '.join(map(spelled, rest[1]))})\n"
    if what == "update":
        sets = ", ".join(f"{ATTRIBUTES[a]} = {spelled(v)}" for a, v in rest[2])
        return f"{head} SOD key ({spelled(rest[0])}) class U from {rest[1]} set {sets}\n"
    if what == "delete":
        return f"{head} SOD key ({spelled(rest[0])}) class U\n"
    if what == "view":
        test = f" where {COLUMNS[rest[1]]} = {spelled(rest[2])}" if len(rest) > 1 else ""
        return f"{head} SOD at {rest[0]}{test}\n"
    return f"{head} Tally ()\n" if what == "call" else f"{head}\n"


def scripts_of(commands):
    """The commands as scripts of no more bytes than the program takes, each with its sessions opened."""
    first = "".join(map(line_of, opened()))
    scripts, lines, size = [], [first], len(first)
    for line in map(line_of, commands):
        if size + len(line) > MOST_BYTES:
            scripts.append("".join(lines))
            lines, size = [first], len(first)
        lines.append(line)
        size += len(line)
    return scripts + ["".join(lines)]


# ---- in plain SQL

TABLES = """
CREATE TABLE IF NOT EXISTS node (
  rel INTEGER NOT NULL, ent BLOB NOT NULL, kclass INTEGER NOT NULL, label INTEGER NOT NULL,
  class0 INTEGER NOT NULL, class1 INTEGER NOT NULL, PRIMARY KEY (rel, ent, kclass, label)) STRICT;
CREATE TABLE IF NOT EXISTS cell (
  rel INTEGER NOT NULL, ent BLOB NOT NULL, kclass INTEGER NOT NULL, label INTEGER NOT NULL,
  attr INTEGER NOT NULL, value TEXT, PRIMARY KEY (rel, ent, kclass, attr, label)) STRICT;
CREATE TABLE IF NOT EXISTS audit (number INTEGER PRIMARY KEY NOT NULL, bytes TEXT NOT NULL) STRICT;
"""
AT = "rel = 0 AND ent = ? AND kclass = 0"
NODE = f"SELECT class0, class1 FROM node WHERE {AT} AND label = ?"
ADD_NODE = "INSERT INTO node VALUES (0, ?, 0, ?, ?, ?)"
ADD_CELL = "INSERT INTO cell VALUES (0, ?1, 0, ?2, ?3, ?4)"
ADD_CELLS = ADD_CELL + ", (0, ?1, 0, ?2, ?5, ?6)"
ADD_ENTRY = "INSERT INTO audit (bytes) VALUES (?)"


def cell_of(t, a):
    same = " AND ".join(f"{t}{a}.{column} = {t}.{column}" for column in ("rel", "ent", "kclass"))
    return f"JOIN cell {t}{a} ON {same} AND {t}{a}.attr = {a} AND {t}{a}.label = {t}.class{a}"


def covers(a):
    is_same = f"o.class{a} = n.class{a} AND o{a}.value IS n{a}.value"
    return f"(({is_same}) OR (n{a}.value IS NULL AND o{a}.value IS NOT NULL))"


SHOWN = ("n.ent", "n0.value", "n1.value")


def view_text(level, shown, column=None):
    """The tuples that a level sees: those of the labels below that no other one subsumes; of them those with a value in
    a column."""
    low = "(" + ", ".join(str(LABELS[name]) for name in BELOW[level]) + ")"
    test = "" if column is None else f"AND {SHOWN[column]} = ? "
    return f"""SELECT {shown} FROM node n {cell_of('n', 0)} {cell_of('n', 1)}
WHERE n.rel = 0 AND n.label IN {low} {test}
AND ((n0.value IS NOT NULL AND n1.value IS NOT NULL) OR NOT EXISTS (
  SELECT 1 FROM node o {cell_of('o', 0)} {cell_of('o', 1)}
  WHERE o.rel = 0 AND o.ent = n.ent AND o.kclass = n.kclass AND o.label IN {low} AND o.label <> n.label
  AND {covers(0)} AND {covers(1)}))
ORDER BY n.ent, n.kclass, n.label"""


def printed(value):
    return f"""ifnull('"' || {value} || '"', 'null') || ' '"""


def name_of(label):
    return f"substr('{NAMES}', {label} + 1, 1)"


def row_text(level):
    parts = ["CAST(n.ent AS TEXT)", "n0.value", "n1.value"]
    classes = ["n.kclass", "n.class0", "n.class1"]
    row = " || ' | ' || ".join(f"{printed(p)} || {name_of(c)}" for p, c in zip(parts, classes))
    return f"'{level} {level}/{USERS[level][0]} row ' || {row} || ' | ' || {name_of('n.label')}"


class Plain:
    """The same commands over the same tables, each in a transaction of its own, and a batch in one."""

    def __init__(self, path, out):
        self.conn = sqlite3.connect(path, isolation_level=None)
        self.run = self.conn.execute
        if path != ":memory:":
            self.run("PRAGMA journal_mode = WAL")
            self.run("PRAGMA synchronous = FULL")
        self.conn.executescript(TABLES)
        self.out = out
        self.views = {level: view_text(level, row_text(level)) for level in NAMES}
        self.found = {(level, at): view_text(level, row_text(level), at) for level in NAMES for at in range(3)}
        self.tally = view_text("S", "n.ent, n0.value, n1.value")
        self.batched = False

    def perform(self, command):
        level, what, *rest = command
        head = f"{level} {level}/{USERS[level][0]}"
        self.out.write("".join(f"{head} {line}\n" for line in getattr(self, what)(level, *rest)))

    def open(self, level):
        return [f"opened {USERS[level][1]}"]

    def begin(self):
        if not self.batched:
            self.run("BEGIN")

    def end(self, code=None):
        if not self.batched:
            self.run("COMMIT" if code is None else "ROLLBACK")
        return ["done"] if code is None else [f"refused {code} {REFUSED[code]}"]

    def all(self, level, ones):
        self.run("BEGIN")
        self.batched, told = True, []
        for number, (_, what, *rest) in enumerate(ones, 1):
            lines = getattr(self, what)(level, *rest)
            if lines[0].startswith("refused"):
                told = [f"{lines[0]} at {number}"]
                break
            told += lines
        self.batched = False
        self.run("COMMIT" if told[-1] == "done" else "ROLLBACK")
        return told

    def node(self, key, label):
        return self.run(NODE, (key, label)).fetchone()

    def insert(self, level, key, values):
        key, label = key.encode(), LABELS[level]
        self.begin()
        if self.node(key, label):
            return self.end(12)
        self.run(ADD_NODE, (key, label, label, label))
        self.run(ADD_CELLS, (key, label, 0, values[0], 1, values[1]))
        return self.end()

    def update(self, level, key, source, sets):
        key, own, low = key.encode(), LABELS[level], LABELS[source]
        self.begin()
        classes = self.node(key, low)
        if not classes:
            return self.end(13)
        if own == low:
            if any(classes[a] != own for a, _ in sets):
                return self.end(15)
            for a, value in sets:
                self.run(f"UPDATE cell SET value = ? WHERE {AT} AND attr = ? AND label = ?", (value, key, a, own))
            return self.end()
        if self.node(key, own):
            return self.end(17)
        new = list(classes)
        for a, _ in sets:
            new[a] = own
        self.run(ADD_NODE, (key, own, *new))
        cells = [part for pair in sets for part in pair]
        self.run(ADD_CELL if len(sets) == 1 else ADD_CELLS, (key, own, *cells))
        return self.end()

    def delete(self, level, key):
        key = key.encode()
        self.begin()
        if not self.node(key, LABELS[level]):
            return self.end(13)
        high = ", ".join(str(LABELS[name]) for name in ABOVE[level])
        self.run(f"DELETE FROM node WHERE {AT} AND label IN ({high})", (key,))
        self.run(f"DELETE FROM cell WHERE {AT} AND label IN ({high})", (key,))
        return self.end()

    def view(self, level, label, column=None, value=None):
        if label not in BELOW[level]:
            session, user = USERS[level]
            self.run(ADD_ENTRY, (f"entry {level} denied {user} {session} 37",))
            return ["denied 37 Ss"]
        words = "" if column is None else " where"
        self.out.write(f"{level} {level}/{USERS[level][0]} view SOD at {label}{words}: {' '.join(COLUMNS)}\n")
        if column is None:
            rows = self.run(self.views[label])
        else:
            rows = self.run(self.found[label, column], (value if column else value.encode(),))
        self.out.writelines(f"{row}\n" for row, in rows)
        return []

    def call(self, level):
        session, user = USERS[level]
        self.run("BEGIN")
        count = sum(1 for row in self.run(self.tally) if row[2] == "Rigel")
        self.run(ADD_ENTRY, (f"entry {level} called {user} {session} Tally",))
        self.run("COMMIT")
        return ["called Tally", f"emit {count}"]

    def audit(self, level):
        return ["audit"] + [entry for entry, in self.run("SELECT bytes FROM audit ORDER BY number")]


# ---- measuring: seconds by the clock, and of the processor


def timed_program(args, out):
    begin = time.perf_counter()
    with open(out, "wb") as file:
        child = subprocess.Popen(args, stdout=file)
        _, status, used = os.wait4(child.pid, 0)
        child.returncode = os.waitstatus_to_exitcode(status)
    if child.returncode != 0:
        sys.exit(f"bench: {' '.join(args)} ended with {child.returncode}")
    return time.perf_counter() - begin, used.ru_utime + used.ru_stime


def timed_plain(path, commands, out):
    begin, used = time.perf_counter(), time.process_time()
    with open(out, "w") as file:
        plain = Plain(path, file)
        for command in commands:
            plain.perform(command)
        plain.conn.close()
    return time.perf_counter() - begin, time.process_time() - used


class Bench:
    def __init__(self, program, folder, times):
        self.program, self.folder, self.times = program, folder, times
        shutil.copy(f"{ROOT}/samples/schemes.toml", folder)
        with open(f"{ROOT}/samples/policy.toml") as policy:
            self.write("policy.toml", policy.read() + RIGHT)
        self.write("tally.txt", TALLY)
        words = [program, "certify", self.at("policy.toml"), self.at("schemes.toml"), self.at("tally.txt")]
        self.write("certificates.txt", subprocess.run(words, check=True, stdout=subprocess.PIPE, text=True).stdout)

    def at(self, name):
        return os.path.join(self.folder, name)

    def write(self, name, text):
        with open(self.at(name), "w") as file:
            file.write(text)

    def words(self, script, in_file, calls):
        words = [self.program, "run"]
        if in_file:
            words += ["--store", self.at("mldb.db")]
        if calls:
            words += ["--transactions", self.at("tally.txt"), "--certificates", self.at("certificates.txt")]
        self.write("script", script)
        return words + [self.at(name) for name in ("policy.toml", "schemes.toml", "script")]

    def prepare(self, commands):
        for suffix in ("", "-wal", "-shm"):
            for name in ("mldb.db", "plain.db", "mldb.kept", "plain.kept"):
                if os.path.exists(self.at(name + suffix)):
                    os.remove(self.at(name + suffix))
        if not commands:
            return
        for script in scripts_of(commands):
            timed_program(self.words(script, True, False), os.devnull)
        timed_plain(self.at("plain.db"), commands, os.devnull)
        for name in ("mldb", "plain"):
            self.copy(f"{name}.db", f"{name}.kept")

    def copy(self, source, target):
        for suffix in ("", "-wal", "-shm"):
            if os.path.exists(self.at(source + suffix)):
                shutil.copy(self.at(source + suffix), self.at(target + suffix))
            elif os.path.exists(self.at(target + suffix)):
                os.remove(self.at(target + suffix))

    def once(self, work, commands):
        """One run of each; they have to print the same. A store is that of `prepare`, or a new one."""
        if work.in_file:
            self.copy("mldb.kept", "mldb.db")
            self.copy("plain.kept", "plain.db")
        [script] = scripts_of(commands)
        ours = timed_program(self.words(script, work.in_file, work.calls), self.at("ours"))
        path = self.at("plain.db") if work.in_file else ":memory:"
        theirs = timed_plain(path, opened() + commands, self.at("theirs"))
        if subprocess.run(["cmp", self.at("ours"), self.at("theirs")]).returncode != 0:
            sys.exit(f"bench: {work.title}: the two do not print the same")
        return ours + theirs

    def best(self, work, commands):
        runs = [self.once(work, commands) for _ in range(self.times)]
        return [min(column) for column in zip(*runs)]

    def measure(self, work, n):
        self.prepare(work.before(n) if work.before else [])
        found = self.best(work, work.timed(n))
        if work.less:
            found = [max(t - o, 1e-4) for t, o in zip(found, self.best(work, []))]
        return found


def growth(sizes, seconds):
    return math.log(seconds[-1] / seconds[0]) / math.log(sizes[-1] / sizes[0])


def table(bench, works):
    print("| Work | n | mldb | processor | growth | C SQLite | processor | growth | ratio | of the processor |")
    print("|---|---|---|---|---|---|---|---|---|---|")
    for work in works:
        rows = [bench.measure(work, n) for n in work.sizes]
        ours, theirs = (growth(work.sizes, [row[k] for row in rows]) for k in (1, 3))
        for n, (wall, used, plain_wall, plain_used) in zip(work.sizes, rows):
            last = n == work.sizes[-1]
            cells = [
                work.title,
                f"{n:,}",
                f"{wall:.2f} s",
                f"{used:.2f} s",
                f"n^{ours:.2f}" if last else "",
                f"{plain_wall:.2f} s",
                f"{plain_used:.2f} s",
                f"n^{theirs:.2f}" if last else "",
                f"{wall / plain_wall:.2f}",
                f"{used / plain_used:.2f}",
            ]
            print(f"| {' | '.join(cells)} |", flush=True)


def main():
    parser = argparse.ArgumentParser(description=__doc__, formatter_class=argparse.RawDescriptionHelpFormatter)
    parser.add_argument("--program", default=f"{ROOT}/crates/mldb/out/mldb")
    parser.add_argument("--seed", type=int, default=7)
    parser.add_argument("--entities", type=int, default=16000, help="how many the queries are asked of")
    parser.add_argument("--times", type=int, default=3, help="how often each is run; the best is printed")
    parser.add_argument("--only", default="", help="only the workloads whose titles have this in them")
    parser.add_argument("--folder", help="where the files lie meanwhile")
    args = parser.parse_args()
    with tempfile.TemporaryDirectory(dir=args.folder) as folder:
        bench = Bench(args.program, folder, args.times)
        table(bench, [work for work in workloads(args.seed, args.entities) if args.only in work.title])


if __name__ == "__main__":
    main()
