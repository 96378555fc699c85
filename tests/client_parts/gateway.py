"""Two users at one `mlgate`, over its socket and by a command that leads there. The kernel that says who connects is
played."""

import os
import signal
import socket
import subprocess
import sys
import tempfile
import threading
import time

import mldb
import tried

MOST_SECONDS = 180
# The gateway over a kernel that takes the name of whoever connects from a file.
PLAYED = """
import pwd, runpy, sys, types
pwd.getpwuid = lambda uid: types.SimpleNamespace(pw_name=open(sys.argv[1] + ".who").read(), pw_uid=uid)
sys.argv = sys.argv[2:]
runpy.run_path(sys.argv[0], run_name="__main__")
"""
# What `nc -NU` does.
RELAY = """
import os, socket, sys, threading
door = socket.socket(socket.AF_UNIX)
door.connect(sys.argv[1])
def back():
    while data := door.recv(65536):
        os.write(1, data)
    os._exit(0)
threading.Thread(target=back, daemon=True).start()
while data := os.read(0, 65536):
    door.sendall(data)
door.shutdown(socket.SHUT_WR)
"""


class Gate:
    """A gateway at work."""

    def __init__(self, work):
        self.path = f"{work}/sock"
        words = [tried.PROGRAM, "serve", "--store", f"{work}/fleet.db", tried.POLICY, tried.SCHEMES]
        gate = [sys.executable, "-c", PLAYED, self.path, f"{tried.ROOT}/samples/running/mlgate", self.path]
        self.be("ann")
        self.process = subprocess.Popen([*gate, *words], cwd=work)
        end = time.monotonic() + MOST_SECONDS
        while not self.listens() and self.process.poll() is None and time.monotonic() < end:
            time.sleep(0.05)

    def listens(self):
        """Whether somebody takes a connection there."""
        with socket.socket(socket.AF_UNIX) as probe:
            return probe.connect_ex(self.path) == 0

    def be(self, user):
        """Whoever connects from now on is this user."""
        with open(f"{self.path}.who", "w", encoding="utf-8") as file:
            file.write(user)

    def connect(self, user, label, target=None, **options):
        self.be(options.pop("really", user))
        more = {"schemes": tried.SCHEMES, "timeout": MOST_SECONDS, **options}
        return mldb.connect(target or self.path, label, user=user, **more)


def try_two(gate):
    """ann at U, bob at S by a command, and ann again."""
    ann = gate.connect("ann", "U")
    bob = gate.connect("bob", "S", [sys.executable, "-c", RELAY, gate.path])
    tried.expect("who and where", (ann.user, ann.label, bob.user, bob.label), ("ann", "U", "bob", "S"))
    ann.executemany("INSERT INTO SOD VALUES (?, ?, ?)", [(f"ship {number}", "Trade", None) for number in range(150)])
    bob.derive("SOD", ("ship 1",), "U", Objective="Spying")
    asked = "SELECT Objective, count(*) FROM SOD_highest GROUP BY 1 ORDER BY 1"
    tried.expect("ann", ann.execute(asked).fetchall(), [("Trade", 150)])
    tried.expect("bob", bob.execute(asked).fetchall(), [("Spying", 1), ("Trade", 149)])
    with tried.raises("a column is that of the command", mldb.ProgrammingError, 23) as found:
        bob.ask("view NOPE at S")
    tried.expect("its place", found and found[0].column, 6)
    again = gate.connect("ann", "U")
    tried.expect("one session", again.ask("audit"), ["U U/ann audit"])
    with tried.raises("a name that is not hers, while her session is open", mldb.InterfaceError):
        gate.connect("bob", "U", really="ann")
    ann.close()
    tried.expect("which stays open", again.execute("SELECT count(*) FROM SOD").fetchone(), (150,))
    again.close()
    with tried.raises("a name that is not hers", mldb.InterfaceError):
        gate.connect("bob", "U", really="ann")
    with tried.raises("a label beyond her", mldb.OperationalError, 37):
        gate.connect("ann", "S")
    try_together(gate, bob)
    return bob


def try_together(gate, bob):
    """Both at once: each gets the answers to his own lines, and sees what his label may."""
    ann, rows, found = gate.connect("ann", "U"), 200, {"ann": [], "bob": []}

    def work(name, connection):
        for number in range(rows):
            connection.execute("INSERT INTO SOD VALUES (?, ?, NULL)", (f"{name} {number}", connection.label))
            asked = "SELECT Starship, class FROM SOD WHERE Starship = ?", (f"{name} {number}",)
            found[name] += connection.execute(*asked).fetchall()

    threads = [threading.Thread(target=work, args=pair) for pair in (("ann", ann), ("bob", bob))]
    for one in threads:
        one.start()
    for one in threads:
        one.join()
    for name, label in (("ann", "U"), ("bob", "S")):
        tried.expect(f"together: {name}", found[name], [(f"{name} {number}", label) for number in range(rows)])
    counts = [one.execute("SELECT count(*) FROM SOD WHERE Objective IN ('U', 'S')").fetchone() for one in (ann, bob)]
    tried.expect("together: what each sees", counts, [(rows,), (2 * rows,)])
    ann.execute("DELETE FROM SOD WHERE Objective = 'U'")
    ann.close()


def try_all():
    with tempfile.TemporaryDirectory() as work:
        gate = Gate(work)
        try:
            bob = try_two(gate)
            gate.process.send_signal(signal.SIGTERM)
            gate.process.wait(60)
            with tried.raises("a gateway that stops", mldb.OperationalError):
                bob.execute("SELECT * FROM SOD")
            with tried.raises("and stays away", mldb.OperationalError):
                bob.execute("SELECT * FROM SOD")
            bob.close()
            with tried.raises("nobody is there", mldb.OperationalError):
                gate.connect("ann", "U")
        finally:
            gate.process.kill()
            gate.process.wait()
        with tried.raises("no socket", mldb.OperationalError):
            mldb.connect(f"{work}/nowhere", "U", user="ann")
        with mldb.connect(None, "U", user="ann", policy=tried.POLICY, schemes=tried.SCHEMES, store=f"{work}/fleet.db",
                          program=tried.PROGRAM) as own:
            tried.expect("what was done is kept", own.execute("SELECT count(*) FROM SOD").fetchone(), (150,))
            other = [tried.PROGRAM, "serve", "--store", f"{work}/fleet.db", tried.POLICY, tried.SCHEMES]
            with tried.raises("two programs at one store", mldb.OperationalError) as found:
                mldb.connect(other, "U", user="ann", schemes=tried.SCHEMES)
            tried.expect("say so", "1 Store" in str(found), True)
