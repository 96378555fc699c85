"""Typing at a terminal: lines with history and completion, by readline."""

from __future__ import annotations

import contextlib
import glob
import os
import re
import sys
from collections.abc import Callable
from typing import TYPE_CHECKING

from .shell_show import MODES

if TYPE_CHECKING:
    from .shell import Shell

try:
    import readline
except ImportError:  # a Python without it types plain lines
    readline = None  # type: ignore[assignment]

SQL = """SELECT FROM WHERE GROUP BY HAVING ORDER LIMIT OFFSET JOIN LEFT INNER CROSS ON USING AS DISTINCT UNION ALL
EXCEPT INTERSECT WITH RECURSIVE INSERT INTO VALUES UPDATE SET DELETE AND OR NOT NULL IS IN LIKE GLOB BETWEEN EXISTS CASE
WHEN THEN ELSE END CAST ASC DESC OVER PARTITION count( sum( min( max( avg( length( substr( coalesce( date(""".split()
COMMANDS = """view count dump audit call insert update delete all expect at key values class from set highest first
where""".split()
BEHIND_TABLE = re.compile(r"(?i)\b(?:from|join|into|update|view|count|dump|insert|delete)\s+\S*\Z")
LINES = 2000


class Typing:
    """A prompt. Each label has a history of its own, so that a line typed at one does not come up at a lower one."""

    def __init__(self, shell: Shell, keeps: bool) -> None:
        self.shell, self.keeps = shell, keeps
        self.label = ""
        if readline is not None:
            readline.set_completer(self.complete)
            readline.set_completer_delims(" \t\n,;()=<>+*/|'\"")
            readline.parse_and_bind("tab: complete")
            readline.set_auto_history(True)

    def path(self) -> str:
        """The file of a label's history."""
        return os.path.expanduser(f"~/.mldb/history-{self.label}")

    def ask(self, prompt: str) -> str:
        """A line that is typed."""
        if self.label != self.shell.connection.label:
            self.turn()
        return input(prompt) if sys.stdout.isatty() else self.plainly(prompt)

    def plainly(self, prompt: str) -> str:
        """A line that is typed while what is printed goes elsewhere, where the prompt has no place."""
        print(prompt, end="", file=sys.stderr, flush=True)
        line = sys.stdin.readline()
        if not line:
            raise EOFError
        return line.rstrip("\n")

    def turn(self) -> None:
        """Puts the history of one label away, and takes that of another."""
        self.keep()
        self.label = self.shell.connection.label
        if readline is not None:
            readline.clear_history()
            if self.keeps:
                with contextlib.suppress(OSError):
                    readline.read_history_file(self.path())

    def keep(self) -> None:
        """Writes the history, which nobody else may read."""
        if readline is None or not self.keeps or not self.label:
            return
        with contextlib.suppress(OSError):
            os.makedirs(os.path.dirname(self.path()), mode=0o700, exist_ok=True)
            os.close(os.open(self.path(), os.O_CREAT | os.O_WRONLY, 0o600))
            readline.set_history_length(LINES)
            readline.write_history_file(self.path())

    def complete(self, text: str, number: int) -> str | None:
        """readline asks for one word after another."""
        found = self.words(readline.get_line_buffer()[: readline.get_endidx()], text)
        if len(found) == 1 and found[0][-1] not in "(/":
            found = [found[0] + " "]
        return found[number] if number < len(found) else None

    def words(self, line: str, text: str) -> list[str]:
        """What `text`, the last word of a line, may become."""
        if line.lstrip().startswith("."):
            return [one for one in self.behind_point(line.lstrip(), text) if one.lower().startswith(text.lower())]
        tables, names = self.shell.tables(), self.shell.names()
        if BEHIND_TABLE.search(line):
            pool = tables
        elif not line.strip() or line.lstrip() == text:
            pool = [*SQL, *COMMANDS]
        else:
            pool = [*names, "class", *self.shell.labels(), *(SQL if text else []), *(COMMANDS if text else [])]
        if not text:
            pool = [one for one in pool if one not in SQL]
        return matching(pool, text)

    def behind_point(self, line: str, text: str) -> list[str]:
        """The words of a command of the shell."""
        name = line.split()[0]
        if line == text or " " not in line:
            return [f".{one}" for one in self.shell.dots.HELP]
        shell = self.shell
        is_file = len(line.split()) + (not text) < 3
        pools: dict[str, Callable[[], list[str]]] = {
            ".mode": lambda: list(MODES), ".label": shell.labels, ".describe": lambda: list(shell.connection.relations),
            ".schema": shell.tables, ".timer": lambda: ["on", "off"], ".read": lambda: files(text),
            ".output": lambda: files(text),
            ".import": lambda: files(text) if is_file else list(shell.connection.relations),
        }
        return pools.get(name, list)()


def matching(pool: list[str], text: str) -> list[str]:
    """The words that begin so, each once, key words in the case that was typed."""
    found = []
    for one in dict.fromkeys(pool):
        if one.lower().startswith(text.lower()):
            found.append(one.lower() if one in SQL and text.islower() else one)
    return list(dict.fromkeys(found))


def files(text: str) -> list[str]:
    """Files and folders that begin so."""
    found = glob.glob(glob.escape(os.path.expanduser(text)) + "*")
    return [one + "/" if os.path.isdir(one) else one for one in sorted(found)]
