"""Where shell and bridge connect to, from the words of their command lines."""

from __future__ import annotations

import argparse
import getpass
import threading
from collections.abc import Callable
from typing import Any

import mldb

HOW = "a gateway's SOCKET, or -- COMMAND WORD.. that leads to one, or --policy and --schemes to start a program here"


def add_words(parser: argparse.ArgumentParser) -> None:
    """The options that say where to."""
    where = parser.add_argument_group("where", HOW)
    where.add_argument("--schemes", metavar="FILE", help="the schemes file: names and kinds of the relations")
    where.add_argument("--policy", metavar="FILE", help="the policy file, to start `mldb serve` here")
    where.add_argument("--store", metavar="FILE", help="the store; else an empty database in memory")
    where.add_argument("--transactions", metavar="FILE")
    where.add_argument("--certificates", metavar="FILE")
    where.add_argument("--program", metavar="PATH", default="mldb", help="the program to start (mldb)")
    where.add_argument("--user", metavar="NAME", help="the user of the session (else the name of the account)")
    below = "what an UPDATE of lower rows does: nothing, or it makes tuples above them"
    where.add_argument("--below", choices=("leave", "derive"), default="leave", help=below)


class Target:
    """What connections are made to. A program that was started here ends at `close`."""

    def __init__(self, words: argparse.Namespace, place: str | None, command: list[str]) -> None:
        self.words, self.place, self.command = words, place, command
        self.user = words.user or getpass.getuser()
        self.program: Any = None
        self.lock = threading.Lock()
        fault = self.fault()
        if fault:
            raise mldb.InterfaceError(fault)
        if words.policy is not None:
            options = {"store": words.store, "transactions": words.transactions, "certificates": words.certificates}
            self.program = mldb.serve(words.policy, words.schemes, program=words.program, **options)

    def fault(self) -> str:
        """What is wrong with the words; empty where nothing is."""
        ways = [self.place is not None, bool(self.command), self.words.policy is not None]
        if sum(ways) != 1:
            return "give one of: the SOCKET of a gateway; -- COMMAND WORD..; --policy FILE --schemes FILE"
        if self.words.schemes is None:
            return "give --schemes FILE: without it nobody knows the relations and their kinds"
        if self.words.policy is None and (self.words.store or self.words.transactions or self.words.certificates):
            return "--store, --transactions and --certificates are of a program that is started here: give --policy"
        return ""

    def connect(self, label: str) -> Any:
        """A connection at a label."""
        where = self.program or self.place or self.command
        with self.lock:
            return mldb.connect(where, label, user=self.user, schemes=self.words.schemes, below=self.words.below)

    def guarded(self, deed: Callable[[], None]) -> None:
        """Does something of a connection while no other one is made or ended."""
        with self.lock:
            deed()

    def close(self) -> None:
        """Ends the program that was started here."""
        if self.program is not None:
            self.program.close()


def split(words: list[str]) -> tuple[list[str], list[str]]:
    """The words before `--`, and the command behind it."""
    place = words.index("--") if "--" in words else len(words)
    return words[:place], words[place + 1 :]
