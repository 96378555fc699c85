#!/usr/bin/env python3
"""Measures the built program over large stores, and prints a table: processor time, its growth, and the most memory.

The stores are loaded by `serve`, which takes any number of lines. What is measured is `run` over them: an opening,
updates that are each followed by a view, and views at the top of a chain of labels; and how long it takes to read a
policy of many rights. Nothing is built: the program is crates/mldb/out/mldb, or the one that --program names.
"""
import argparse
import math
import os
import shutil
import subprocess
import sys
import tempfile

ROOT = os.path.dirname(os.path.dirname(os.path.abspath(__file__)))
CHAIN = 20
WRITE = 'modes = ["write"]\n'
TEXT = 'kind = "text"\nlow = "L0"\nhigh = "L19"\n'


def chain_policy():
    """Labels in a chain, by ranks and categories in turn, and a user at each who writes."""
    ranks = ", ".join(f'"R{i}"' for i in range(CHAIN // 2))
    categories = [f'"C{i}"' for i in range(CHAIN // 2)]
    text = f"version = 1\nlevels = [{ranks}]\ncategories = [{', '.join(categories)}]\n"
    for i in range(CHAIN):
        below = ", ".join(categories[: (i + 1) // 2])
        text += f'\n[[label]]\nname = "L{i}"\nlevel = "R{i // 2}"\ncategories = [{below}]\n'
    text += "".join(f'\n[[user]]\nname = "u{i}"\nclearance = "L{i}"\n' for i in range(CHAIN))
    return text + "".join(f'\n[[matrix]]\nuser = "u{i}"\nobject = "R"\n{WRITE}' for i in range(CHAIN))


def chain_schemes():
    key = f'[[relation]]\nname = "R"\n\n[[relation.key]]\nname = "Name"\n{TEXT}'
    return f'version = 1\n\n{key}\n[[relation.attribute]]\nname = "First"\n{TEXT}'


def rights_policy(users, objects, has_lists):
    """Each of these users may read each of these objects: by lists, or by an entry for each pair."""
    people, things = [f"u{i}" for i in range(users)], [f"O{i}" for i in range(objects)]
    quoted = lambda names: ", ".join(f'"{name}"' for name in names)
    declared = ", ".join(f'{{ name = "{user}", clearance = "L" }}' for user in people)
    if has_lists:
        matrix = f'{{ users = [{quoted(people)}], objects = [{quoted(things)}], modes = ["read"] }}'
    else:
        pairs = [(user, thing) for user in people for thing in things]
        matrix = ", ".join(f'{{ user = "{user}", object = "{thing}", modes = ["read"] }}' for user, thing in pairs)
    front = 'version = 1\nlevels = ["L"]\nlabel = [{ name = "L", level = "L" }]\n'
    return f"{front}user = [{declared}]\nmatrix = [{matrix}]\n"


def inserts(n):
    """Of one relation, at the lowest label; the sessions have the names of their users, as `serve` wants."""
    yield "U ann open ann\n"
    for i in range(n):
        yield f'U ann insert SOD key ("{i}") values ("Survey", "Talos")\n'


def chained(n):
    """n entities at the lowest label, and a second tuple of each tenth at each label above it."""
    for i in range(CHAIN):
        yield f"L{i} u{i} open u{i}\n"
    for i in range(n):
        yield f'L0 u0 insert R key ("{i}") values ("Survey")\n'
    for level in range(1, CHAIN):
        for i in range(0, n, 10):
            yield f'L{level} u{level} update R key ("{i}") class L0 from L0 set First = "f{level}"\n'


class Large:
    def __init__(self, program, folder):
        self.program, self.folder = program, folder
        for name in ("policy.toml", "schemes.toml"):
            shutil.copy(f"{ROOT}/samples/{name}", folder)
        self.write("chain.policy", chain_policy())
        self.write("chain.schemes", chain_schemes())

    def at(self, name):
        return os.path.join(self.folder, name)

    def write(self, name, text):
        with open(self.at(name), "w") as file:
            file.write(text)

    def words(self, what, documents):
        return [self.program, what, "--store", self.at("mldb.db"), *map(self.at, documents)]

    def load(self, documents, lines):
        """Makes the store anew; each line has to be done."""
        for suffix in ("", "-wal", "-shm"):
            if os.path.exists(self.at("mldb.db" + suffix)):
                os.remove(self.at("mldb.db" + suffix))
        self.write("lines", "")
        with open(self.at("lines"), "w") as file:
            file.writelines(lines)
        with open(self.at("lines")) as file:
            child = subprocess.Popen(self.words("serve", documents), stdin=file, stdout=subprocess.PIPE, text=True)
            bad = next(
                (line for line in child.stdout if line.startswith("= ") or " refused " in line or " denied " in line),
                None,
            )
            if child.wait() != 0 or bad:
                sys.exit(f"large: the store is not loaded: {bad}")

    def timed(self, documents, script):
        """Seconds of the processor and megabytes of a run."""
        self.write("script", script)
        return self.used(self.words("run", documents) + [self.at("script")])

    def shown(self, policy):
        """The same of reading and showing a policy."""
        self.write("rights.policy", policy)
        self.write("rights.schemes", chain_schemes().replace("L0", "L").replace("L19", "L"))
        return self.used([self.program, "show-policy", self.at("rights.policy"), self.at("rights.schemes")])

    def used(self, words):
        with open(os.devnull, "wb") as file:
            child = subprocess.Popen(words, stdout=file)
            _, status, used = os.wait4(child.pid, 0)
        child.returncode = os.waitstatus_to_exitcode(status)
        if child.returncode != 0:
            sys.exit(f"large: a run ended with {child.returncode}")
        return used.ru_utime + used.ru_stime, used.ru_maxrss / 1024


SAMPLES = ("policy.toml", "schemes.toml")
CHAINED = ("chain.policy", "chain.schemes")
OPEN = "U a open ann\n"
UPDATES = "".join(
    f'U a update SOD key ("{i * 97}") class U from U set Objective = "o{i}"\nU a view SOD at U\n' for i in range(100)
)
TOP = f"L19 t open u19\n" + "L19 t view R at L19\n"


def row(title, n, found, growth=""):
    seconds, most = found
    print(f"| {title} | {n:,} | {seconds:.2f} s | {growth} | {most:.0f} MB |", flush=True)


def openings(large, sizes):
    """Prints a row for each size, and loads the last one last."""
    first = None
    for n in sizes:
        large.load(SAMPLES, inserts(n))
        found = large.timed(SAMPLES, OPEN)
        first = first or (n, found[0])
        growth = "" if n == first[0] else f"n^{math.log(found[0] / first[1]) / math.log(n / first[0]):.2f}"
        row("opening, n tuples", n, found, growth)


def less(found, opening):
    return found[0] - opening[0], found[1]


def main():
    parser = argparse.ArgumentParser(description=__doc__, formatter_class=argparse.RawDescriptionHelpFormatter)
    parser.add_argument("--program", default=f"{ROOT}/crates/mldb/out/mldb")
    parser.add_argument("--most", type=int, default=1_000_000, help="how many tuples the largest store has")
    parser.add_argument("--folder", help="where the files lie meanwhile")
    args = parser.parse_args()
    with tempfile.TemporaryDirectory(dir=args.folder) as folder:
        large = Large(args.program, folder)
        print("| Work | n | processor | growth | memory |")
        print("|---|---|---|---|---|")
        row("a policy of n rights, in one entry of lists", 16_384, large.shown(rights_policy(1024, 16, True)))
        row("the same, in an entry for each", 16_384, large.shown(rights_policy(1024, 16, False)))
        openings(large, [n for n in (33_600, 100_000, 1_000_000) if n <= args.most])
        large.load(SAMPLES, inserts(50_000))
        opening = large.timed(SAMPLES, OPEN)
        row(
            "100 updates, each followed by a view of n rows, less the opening",
            50_000,
            less(large.timed(SAMPLES, OPEN + UPDATES), opening),
        )
        large.load(CHAINED, chained(5_000))
        opening = large.timed(CHAINED, "L19 t open u19\n")
        row(
            f"a view at the top of {CHAIN} labels, n entities, less the opening",
            5_000,
            less(large.timed(CHAINED, TOP), opening),
        )


if __name__ == "__main__":
    main()
