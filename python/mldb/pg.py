"""python3 -m mldb.pg: psql and what speaks like it, over the rows that a label is shown.

Each user runs it as himself, in a folder of his own. The name of the database is the label:

    python3 -m mldb.pg --schemes schemes.toml /run/mldb/sock &
    psql -h ~/.mldb S"""

from __future__ import annotations

import argparse
import contextlib
import os
import signal
import socket
import stat
import struct
import sys
import threading
import time

import mldb

from . import pg_describe, shell_target
from .pg_engine import Engine
from .pg_session import Clients, Session
from .pg_wire import Wire

MOST_PATH = 107
PAUSE = 0.1


class Unable(Exception):
    """Why the bridge cannot stand there, and what to do."""


def own_folder(path: str) -> str:
    """The folder, which nobody else may enter; it is made where there is none."""
    folder = os.path.abspath(os.path.expanduser(path))
    try:
        os.makedirs(folder, mode=0o700, exist_ok=True)
        found = os.stat(folder)
    except OSError as fault:
        raise Unable(f"{folder}: {fault.strerror}: give --folder") from fault
    if found.st_uid != os.getuid():
        raise Unable(f"{folder} belongs to another account: give --folder")
    if stat.S_IMODE(found.st_mode) & 0o077:
        raise Unable(f"{folder} is open to others: chmod 700 {folder}, or give --folder")
    return folder


def door_at(path: str) -> socket.socket:
    """A socket that listens at a path, where no other bridge does."""
    if len(os.fsencode(path)) > MOST_PATH:
        raise Unable(f"{path} is too long for a socket: give a shorter --folder")
    with socket.socket(socket.AF_UNIX) as probe:
        try:
            probe.connect(path)
        except OSError:
            pass
        else:
            raise Unable(f"{path}: a bridge is at work there: end it, or give --port")
    if os.path.lexists(path):
        if not stat.S_ISSOCK(os.lstat(path).st_mode):
            raise Unable(f"{path} is no socket: move it away, or give --port")
        os.remove(path)
    door = socket.socket(socket.AF_UNIX)
    before = os.umask(0o177)
    try:
        door.bind(path)
    except OSError as fault:
        raise Unable(f"{path}: {fault.strerror}") from fault
    finally:
        os.umask(before)
    door.listen(64)
    return door


def is_own(client: socket.socket) -> bool:
    """Whether the account that runs the bridge is at the other side."""
    uid = struct.unpack("3i", client.getsockopt(socket.SOL_SOCKET, socket.SO_PEERCRED, 12))[1]
    return uid in (os.getuid(), 0)


class Bridge:
    """Clients at a door, each in a thread of its own."""

    def __init__(self, target: shell_target.Target) -> None:
        self.target, self.clients = target, Clients()
        self.users = list(dict.fromkeys([target.user, account()]))

    def engine(self, label: str) -> Engine:
        """A connection at a label."""
        connection = self.target.connect(label)
        engine = Engine(connection, pg_describe.shapes_of(connection.relations), label, self.target.user)
        engine.leave = lambda: self.target.guarded(connection.close)
        return engine

    def serve(self, client: socket.socket) -> None:
        """One client, up to its end."""
        with client:
            if is_own(client):
                Session(Wire(client), self.engine, self.users, self.clients).run()

    def listen(self, door: socket.socket) -> None:
        """All clients, one after another at the door."""
        while True:
            try:
                client, _ = door.accept()
            except OSError:  # too many files are open: some will be closed
                time.sleep(PAUSE)
                continue
            threading.Thread(target=self.serve, args=(client,), daemon=True).start()


def account() -> str:
    """The name of the account, as libpq takes it."""
    import pwd

    try:
        return pwd.getpwuid(os.getuid()).pw_name
    except KeyError:
        return str(os.getuid())


def words_of(arguments: list[str]) -> tuple[argparse.Namespace, list[str]]:
    """The command line."""
    before, command = shell_target.split(arguments)
    parser = argparse.ArgumentParser(prog="python3 -m mldb.pg", allow_abbrev=False, description=__doc__,
                                     formatter_class=argparse.RawDescriptionHelpFormatter)
    parser.add_argument("place", metavar="SOCKET", nargs="?", help="the socket of a gateway")
    parser.add_argument("--folder", default="~/.mldb", help="where the socket stands, for psql -h (~/.mldb)")
    parser.add_argument("--port", type=int, default=5432, help="its number, for psql -p (5432)")
    shell_target.add_words(parser)
    return parser.parse_args(before), command


def ended(*_: object) -> None:
    """SIGTERM ends the bridge as Ctrl-C does."""
    raise KeyboardInterrupt


def attend(door: socket.socket, path: str, words: argparse.Namespace, command: list[str]) -> None:
    """Serves at a door up to the end. Its path goes first, so that nobody takes the place of another bridge away."""
    with contextlib.ExitStack() as ends:
        ends.callback(os.remove, path)
        target = shell_target.Target(words, words.place, command)
        ends.pop_all()
        ends.callback(target.close)
        ends.callback(os.remove, path)
        port = f" -p {words.port}" * (words.port != 5432)
        print(f"mldb.pg: psql -h {os.path.dirname(path)}{port} LABEL", file=sys.stderr, flush=True)
        Bridge(target).listen(door)


def main(arguments: list[str]) -> int:
    """The bridge, up to its end."""
    words, command = words_of(arguments)
    signal.signal(signal.SIGTERM, ended)
    try:
        folder = own_folder(words.folder)
        path = f"{folder}/.s.PGSQL.{words.port}"
        with door_at(path) as door:
            attend(door, path, words, command)
    except (Unable, mldb.Error) as fault:
        print(f"mldb.pg: {fault}", file=sys.stderr)
        return 2
    except KeyboardInterrupt:
        return 0
    return 0


if __name__ == "__main__":
    sys.exit(main(sys.argv[1:]))
