#!/usr/bin/env python3
"""Measures python/mldb beside Python's sqlite3, over the same rows. Usage: bench/client.py [--program PROGRAM] [--rows
N]

Both insert N rows by `executemany`, each a change of its own, in memory and in a file; look rows up by key; and join N
rows with N rows. The program is `mldb serve`, started here; files are in memory where there is /dev/shm. Times are
those of a clock, the best of three. Both have to find the same, and mldb has bounds: 4,000 inserts a second, 0.4 ms a
look-up, 0.5 s a join. The status is 1 where one is missed."""

import argparse
import os
import sqlite3
import sys
import tempfile
import time

ROOT = os.path.dirname(os.path.dirname(os.path.abspath(__file__)))
sys.dont_write_bytecode = True
sys.path.insert(0, f"{ROOT}/python")

import mldb  # noqa: E402

TABLES = """CREATE TABLE SOD (Starship TEXT PRIMARY KEY, Objective TEXT, Destination TEXT);
CREATE TABLE CREW (Id INTEGER NOT NULL PRIMARY KEY, Post TEXT)"""
SHIPS = "INSERT INTO SOD (Starship, Objective, Destination) VALUES (?, ?, ?)"
CREW = "INSERT INTO CREW (Id, Post) VALUES (?, ?)"
LOOK_UP = "SELECT Starship, Objective, Destination FROM SOD WHERE Starship = ?"
JOIN = "SELECT Objective, count(*), sum(Id) FROM CREW JOIN SOD ON Post = Starship GROUP BY 1 ORDER BY 1"
LOOK_UPS, ROUNDS = 1000, 3
# What may be taken at most, in seconds: of an insert, of a look-up, of a join.
BOUNDS = {"insert": 1 / 4000, "look-up": 0.0004, "join": 0.5}


def ships(rows):
    return [(f"ship {number}", f"objective {number % 7}", None if number % 3 else "Talos") for number in range(rows)]


def crew(rows):
    return [(number, f"ship {number * 7919 % rows}") for number in range(rows)]


class Plain:
    """SQLite, of which each statement is a change of its own, on the disk when it is done."""

    def __init__(self, path):
        self.db = sqlite3.connect(path or ":memory:", isolation_level=None)
        self.db.execute("PRAGMA synchronous = FULL")
        self.db.execute("PRAGMA journal_mode = WAL")
        self.db.executescript(TABLES)

    def close(self):
        self.db.close()


class Multilevel:
    """mldb, at the lowest label."""

    def __init__(self, path):
        files = {"policy": f"{ROOT}/samples/policy.toml", "schemes": f"{ROOT}/samples/schemes.toml"}
        self.db = mldb.connect(None, "U", user="ann", store=path, program=PROGRAM, **files)

    def close(self):
        self.db.close()


def timed(work):
    before = time.perf_counter()
    result = work()
    return time.perf_counter() - before, result


def measure(kind, path, rows):
    """The seconds of an insert, of a look-up, of the first join and of one that finds the same views; and what was
    found."""
    made = kind(path)
    try:
        inserting, _ = timed(lambda: made.db.executemany(SHIPS, ships(rows)))
        made.db.executemany(CREW, crew(rows))
        keys = [(f"ship {number * 31 % rows}",) for number in range(LOOK_UPS)]
        looking, found = timed(lambda: [made.db.execute(LOOK_UP, key).fetchall() for key in keys])
        joining, joined = timed(lambda: made.db.execute(JOIN).fetchall())
        again, _ = timed(lambda: made.db.execute(JOIN).fetchall())
        return (inserting / rows, looking / LOOK_UPS, joining, again), (found, joined)
    finally:
        made.close()


def best(kind, in_file, rows):
    """The best of some rounds."""
    times, found = [], None
    for _ in range(ROUNDS):
        with tempfile.TemporaryDirectory(dir="/dev/shm" if os.path.isdir("/dev/shm") else None) as work:
            some, found = measure(kind, f"{work}/bench.db" if in_file else None, rows)
        times.append(some)
    return [min(column) for column in zip(*times)], found


def row(name, memory, file):
    """A row of the table."""
    insert, in_file, look_up = (f"{1e3 * one:.2g}" for one in (memory[0], file[0], memory[1]))
    return f"| {name} | {insert} ({in_file}) | {look_up} | {memory[2]:.2g} ({memory[3]:.2g}) |"


def missed(memory, file):
    """The bounds that are not kept."""
    times = {"insert": max(memory[0], file[0]), "look-up": memory[1], "join": max(memory[2:])}
    return [name for name, bound in BOUNDS.items() if times[name] > bound]


def main():
    global PROGRAM
    parser = argparse.ArgumentParser(description=__doc__, formatter_class=argparse.RawDescriptionHelpFormatter)
    parser.add_argument("--program", default=f"{ROOT}/crates/mldb/out/mldb")
    parser.add_argument("--rows", type=int, default=10_000)
    words = parser.parse_args()
    PROGRAM = os.path.abspath(words.program)
    (memory, found), (file, found_too) = best(Multilevel, False, words.rows), best(Multilevel, True, words.rows)
    (plain, wanted), (plain_file, _) = best(Plain, False, words.rows), best(Plain, True, words.rows)
    if not found == found_too == wanted:
        print("bench/client.py: the two found different rows", file=sys.stderr)
        return 1
    print(f"| {words.rows:,} rows | insert, ms (in a file) | look-up, ms | join, s (again) |\n|---|---|---|---|")
    print(row("mldb", memory, file), row("sqlite3", plain, plain_file), sep="\n")
    for name in missed(memory, file):
        print(f"bench/client.py: {name}: more than {BOUNDS[name]:.2g} s", file=sys.stderr)
    return 1 if missed(memory, file) else 0


if __name__ == "__main__":
    PROGRAM = ""
    sys.exit(main())
