#!/usr/bin/env python3
"""How many lines a second ten people get done: by the gateway and the program alone, with a journal, and with three
machines at one log, all on this machine. Each person sends inserts, and waits for each answer. Usage: python3
bench/lines.py [MLDB [LINES]], as root; three machines need nats-server. The store, the journal and the stream are in
the folder of temporary files (TMPDIR): on a disk each write waits for it."""

import os
import socket
import sys
import tempfile
import time

ROOT = os.path.dirname(os.path.dirname(os.path.abspath(__file__)))
sys.path.insert(0, f"{ROOT}/tests/running")
from machine import PEOPLE, Checks, open_gate  # noqa: E402  (its folder is no package)
from three import Cluster  # noqa: E402

MLDB = os.path.abspath(sys.argv[1] if len(sys.argv) > 1 else f"{ROOT}/crates/mldb/out/mldb")
LINES = int(sys.argv[2]) if len(sys.argv) > 2 else 200
SERVE = ["serve", "--store", "fleet.db", "policy.toml", "schemes.toml"]


def person(path, number):
    """One of ten: a session, and lines one after the other."""
    user = ["ann", "bob"][number % 2]
    os.setuid(PEOPLE[user])
    with socket.socket(socket.AF_UNIX) as door:
        door.connect(path)
        lines = door.makefile("rb")
        door.sendall(f"U\nopen {user}\n".encode())
        for row in range(LINES):
            while not lines.readline().startswith(b"="):
                pass
            door.sendall(f'insert SOD key ("{number} {row}") values (null, "x")\n'.encode())
        while not lines.readline().startswith(b"="):
            pass


def speed(paths):
    """The lines of ten people a second, who take the sockets in turn."""
    began, people = time.monotonic(), []
    for number in range(10):
        pid = os.fork()
        if pid == 0:
            status = 1
            try:
                person(paths[number % len(paths)], number)
                status = 0
            finally:
                os._exit(status)
        people.append(pid)
    if any(os.waitpid(pid, 0)[1] for pid in people):
        sys.exit("a client failed")
    return 10 * (LINES + 1) / (time.monotonic() - began)


def one_machine(filter_words):
    with tempfile.TemporaryDirectory() as folder, open(os.devnull, "wb") as null:
        os.chmod(folder, 0o755)
        for name in ("policy.toml", "schemes.toml"):
            with open(f"{ROOT}/samples/{name}", "rb") as read, open(f"{folder}/{name}", "wb") as written:
                written.write(read.read())
        words = [f"{folder}/sock", *filter_words, MLDB, *SERVE]
        gate = open_gate(f"{ROOT}/samples/running/mlgate", words, folder, f"{folder}/sock", null)
        try:
            return speed([f"{folder}/sock"])
        finally:
            gate.terminate()
            gate.wait()


def three_machines():
    with tempfile.TemporaryDirectory() as folder:
        cluster = Cluster(Checks(), folder, f"{ROOT}/samples/running/cluster/mlstream", MLDB)
        try:
            for place in range(3):
                cluster.start_server(place)
            for place in range(3):
                cluster.start(place)
            cluster.wait("three", lambda: cluster.are_there(0, 1, 2))
            return speed([f"{folder}/{name}/sock" for name in "abc"])
        finally:
            cluster.stop()


print(f"gateway and program: {one_machine([]):.0f} lines a second")
print(f"with a journal: {one_machine([f'{ROOT}/samples/running/mljournal', 'serve', 'journal']):.0f}")
print(f"three machines: {three_machines():.0f}")
