"""Four labels over one store: each table is what the lines of a view say; what a label writes, others see as mldb has
it."""

import csv
import io
import random
import subprocess
import sys

import mldb
import tried

PEOPLE = {"U": "ann", "M": "mia", "S": "bob", "H": "hal"}
WORDS = ["Exploration", 'a "quoted" one', "null", "", "it's | U", "Z\u00fcrich"]


def write(connections, rng):
    """Random writes of all four; what is refused is refused."""
    for _ in range(60):
        label = rng.choice("UMSH")
        connection, key = connections[label], f"ship {rng.randrange(6)}"
        lower = rng.choice({"U": "U", "M": "UM", "S": "US", "H": "UMSH"}[label])
        try:
            match rng.randrange(5):
                case 0 | 1:
                    connection.execute("INSERT INTO SOD VALUES (?, ?, ?)",
                                       (key, rng.choice(WORDS), rng.choice([*WORDS, None])))
                case 2:
                    connection.derive("SOD", (key,), "U", lower, Objective=rng.choice(WORDS))
                case 3:
                    connection.execute("UPDATE SOD SET Destination = ? WHERE Starship = ?", (rng.choice(WORDS), key))
                case 4:
                    connection.execute("DELETE FROM SOD WHERE Starship = ? AND Objective = 'null'", (key,))
        except mldb.IntegrityError:
            pass
    connections["U"].execute("INSERT INTO CREW VALUES (-1, 'null'), (2, NULL)")


def rows2csv(relation, lines):
    """What tools/rows2csv makes of the lines of a view."""
    told = subprocess.run([sys.executable, f"{tried.ROOT}/tools/rows2csv", relation, "--null", "\u2205"],
                          input="".join(f"{one}\n" for one in lines).encode(),
                          capture_output=True, check=True).stdout.decode()
    names, *rows = csv.reader(io.StringIO(told))
    return names, rows


def compare(label, connection):
    """The three tables of each relation beside the lines of its views."""
    for name, relation in connection.relations.items():
        if name == "CREW" and label == "M":
            continue  # mia has no right on it
        names, rows = rows2csv(name, connection.ask(f"view {name} at {label}"))
        cursor = connection.execute(f"SELECT * FROM {name}_classes")
        tried.expect(f"{label}: columns of {name}_classes", [one[0] for one in cursor.description],
                     [*names, "key class"])
        found = cursor.fetchall()
        told = [["\u2205" if cell is None else str(cell) for cell in row[:-1]] for row in found]
        tried.expect(f"{label}: {name}_classes", told, rows)
        tried.expect(f"{label}: key classes of {name}", [row[-1] for row in found], [row[1] for row in rows])
        cursor = connection.execute(f"SELECT * FROM {name}")
        tried.expect(f"{label}: columns of {name}", [one[0] for one in cursor.description], [*relation.names, "class"])
        tried.expect(f"{label}: {name}", cursor.fetchall(), [(*row[0:-2:2], row[-2]) for row in found])
        _, rows = rows2csv(name, connection.ask(f"view {name} at {label} highest"))
        told = [["\u2205" if cell is None else str(cell) for cell in row]
                for row in connection.execute(f"SELECT * FROM {name}_highest")]
        tried.expect(f"{label}: {name}_highest", told, [[*row[0:-1:2], row[-1]] for row in rows])


def try_stories(connections):
    """Whose rows an UPDATE and a DELETE touch, and what derives."""
    low, high = connections["U"], connections["S"]
    for connection in connections.values():
        connection.execute("DELETE FROM SOD")
    low.execute("INSERT INTO SOD VALUES ('Enterprise', 'Exploration', 'Talos'), ('Voyager', 'Trade', NULL)")
    tried.expect("lower rows are left", high.execute("UPDATE SOD SET Objective = 'Spying'").rowcount, 0)
    tried.expect("and not deleted", high.execute("DELETE FROM SOD").rowcount, 0)
    high.below = "derive"
    tried.expect("what derives",
                 high.execute("UPDATE SOD SET Objective = 'Spying' WHERE Starship = 'Enterprise'").rowcount, 1)
    tried.expect("again, it is the own row",
                 high.execute("UPDATE SOD SET Objective = 'Mapping' WHERE Starship = 'Enterprise'").rowcount, 1)
    asked = "SELECT Starship, Objective, class FROM SOD ORDER BY 1, 3"
    below, above = [("Enterprise", "Exploration", "U"), ("Voyager", "Trade", "U")], ("Enterprise", "Mapping", "S")
    tried.expect("the low one sees its own", low.execute(asked).fetchall(), below)
    tried.expect("the high one both", high.execute(asked).fetchall(), [above, *below])
    tried.expect("what holds",
                 high.execute("SELECT Objective FROM SOD_highest WHERE Starship = 'Enterprise'").fetchall(),
                 [("Mapping",)])
    top = connections["H"]
    top.below = "derive"
    tried.expect("from what holds alone",
                 top.execute("UPDATE SOD SET Destination = 'Rigel' WHERE Starship = 'Enterprise'").rowcount, 1)
    found = top.execute("SELECT Objective, Destination FROM SOD WHERE class = 'H'").fetchall()
    tried.expect("and with its values", found, [("Mapping", "Rigel")])
    high.below = "leave"
    try_keys(low, high, asked, below[1])


def try_keys(low, high, asked, left):
    """What does not change, and a key at two labels."""
    with tried.raises("a value that comes from below", mldb.IntegrityError, 15, "Inherited"):
        high.execute("UPDATE SOD SET Destination = 'Mars' WHERE Starship = 'Enterprise'")
    with tried.raises("a key is not changed", mldb.NotSupportedError):
        high.execute("UPDATE SOD SET Starship = 'x' WHERE Starship = 'Enterprise'")
    with tried.raises("a class is not changed", mldb.NotSupportedError):
        high.execute("UPDATE SOD SET class = 'U' WHERE Starship = 'Enterprise'")
    with tried.raises("nor chosen", mldb.NotSupportedError):
        high.execute("INSERT INTO SOD (Starship, class) VALUES ('x', 'U')")
    high.execute("INSERT INTO SOD (Starship, class) VALUES ('Enterprise', 'S')")
    both = "SELECT \"key class\", class FROM SOD_classes WHERE Starship = 'Enterprise' ORDER BY 1, 2"
    found = high.execute(both).fetchall()
    tried.expect("a key at two labels", found, [("S", "S"), ("U", "S"), ("U", "U")])
    tried.expect("an update of both",
                 high.execute("UPDATE SOD SET Objective = 'x' WHERE Starship = 'Enterprise'").rowcount, 2)
    low.execute("DELETE FROM SOD WHERE Starship = 'Enterprise'")
    tried.expect("what a low delete takes along", high.execute(asked).fetchall(), [("Enterprise", "x", "S"), left])


def try_all():
    with tried.serve() as program:
        connections = {label: mldb.connect(program, label, user=user) for label, user in PEOPLE.items()}
        write(connections, random.Random(3))
        for label, connection in connections.items():
            compare(label, connection)
        try_stories(connections)
        for connection in connections.values():
            connection.close()
