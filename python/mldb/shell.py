"""The shell: does what was typed, shows what came, says where something is wrong."""

from __future__ import annotations

import difflib
import os
import shutil
import signal
import sys
import time
from collections.abc import Callable, Iterable
from typing import Any, TextIO

import mldb

from . import pg_sql, shell_show, words
from .shell_dots import Dots, Leave, Misused
from .shell_split import Item, Splitter, items_of
from .shell_target import Target

UNKNOWN_NAME = 23
NO_RIGHT = 36
DEEPEST = 16
MODES_OF = {
    "insert": "append", "update": "write", "delete": "write", "view": "read", "count": "read", "dump": "read",
    "call": "execute",
}


class Shell:
    """One session at a label, and how its rows are shown."""

    def __init__(self, target: Target, label: str, out: TextIO, told: TextIO) -> None:
        self.target, self.out, self.told = target, out, told
        self.connection: Any = target.connect(label)
        self.mode, self.null = "table", "null"
        self.is_typed = False
        self.is_timed = False
        self.may_stop = False
        self.has_failed = False
        self.depth = 0
        self.source = ""
        self.heard: dict[tuple[str, str], str] = {}
        self.dots = Dots(self)

    # What is shown

    @property
    def is_terminal(self) -> bool:
        """Whether people read what is printed."""
        return self.out.isatty()

    def columns(self) -> int:
        """How wide a table may be; 0 where nobody looks."""
        return shutil.get_terminal_size().columns if self.is_terminal else 0

    def show(self, text: str) -> None:
        """Prints lines. On a terminal nothing goes out that it would obey."""
        self.out.write(shell_show.plain_lines(text) if self.is_terminal else text)
        self.out.flush()

    def tell(self, text: str) -> None:
        """Tells something beside what is printed."""
        self.out.flush()
        self.told.write(shell_show.plain_lines(text) + "\n")
        self.told.flush()

    def fail(self, item: Item | None, text: str) -> None:
        """Tells what is wrong, and where."""
        self.has_failed = True
        if self.is_typed and not self.source:
            self.tell(text)
        else:
            place = f"{self.source + ': ' if self.source else ''}line {item.line}: " if item else ""
            self.tell(f"mldb: {place}{text}")

    # What is done

    def do_all(self, items: Iterable[Item], stops: bool) -> bool:
        """Does things in order; with `stops` up to the first that fails. Whether all were done."""
        for item in items:
            if not self.do(item) and stops:
                return False
        return True

    def do(self, item: Item) -> bool:
        """Does one thing; whether it was done. Where things are typed, Ctrl-C ends it and nothing else."""
        begun = time.monotonic()
        self.may_stop = True
        try:
            {"sql": self.do_sql, "command": self.do_command, "dot": self.do_dot}[item.kind](item)
        except KeyboardInterrupt:
            if self.depth or not self.is_typed:
                raise
            self.fail(item, "interrupted: what was sent before may be done")
            return False
        except Misused as fault:
            self.fail(item, str(fault))
            return False
        except mldb.Error as fault:
            self.fail_at(item, fault)
            return False
        if self.is_timed:
            self.tell(f"{time.monotonic() - begun:.3f} s")
        return True

    def do_dot(self, item: Item) -> None:
        """A command of the shell."""
        self.dots.do(item)

    def do_sql(self, item: Item) -> None:
        """A statement of SQL."""
        cursor = self.connection.execute(item.text.rstrip("; \t\r\n"))
        if cursor.description is not None:
            rows = cursor.fetchall()
            self.show_rows([one[0] for one in cursor.description], rows)
        elif self.is_typed and self.is_terminal:
            self.tell(f"{counted(max(cursor.rowcount, 0), 'row')} changed")
        self.hear_statement(item.text, "yes")

    def show_rows(self, names: list[str], rows: list[tuple]) -> None:
        """Rows in the mode of now."""
        self.show(shell_show.shown(self.mode, names, rows, self.null, self.columns()))
        if self.mode == "table" and self.is_terminal:
            self.tell(f"({counted(len(rows), 'row')})")

    def do_command(self, item: Item) -> None:
        """A command of a session, as it is; what it means if it was denied or refused."""
        lines = self.connection.ask(item.text)
        self.show("".join(line + "\n" for line in lines))
        code = code_of(lines[0]) if lines else None
        self.hear_command(item.text, "no (36 Ds)" if code == NO_RIGHT else "yes" if code is None else "")
        if code is None:
            return
        known = words.SESSIONS.get(code)
        self.fail(item, f"{code} {known.name}: {known.text}" if known else f"{code}")

    # What is wrong, and where

    def fail_at(self, item: Item, fault: Exception) -> None:
        """An exception of the module, with its place in the text and the nearest names."""
        code, column = getattr(fault, "code", None), getattr(fault, "column", None)
        text = str(fault)
        done = getattr(fault, "done", 0)
        if done:
            text += f" ({counted(done, 'row')} of this statement stand)"
        if code == NO_RIGHT and item.kind == "sql":
            self.hear_statement(item.text, "no (36 Ds)")
        place, name = self.place_of(item, text, column)
        near = self.nearest(name) if name and (code == UNKNOWN_NAME or text.startswith("no such")) else []
        if near:
            text += f". Did you mean {' or '.join(near)}?"
        line = item.line + item.text.count("\n", 0, place) if place is not None and item.kind == "sql" else item.line
        self.fail(Item(item.kind, item.text, line), text)
        if place is not None:
            self.point(item.text, place)

    def place_of(self, item: Item, text: str, column: int | None) -> tuple[int | None, str]:
        """Where in its text a thing is wrong, and the name that stands there."""
        if item.kind == "command" and column:
            place = len(item.text.encode()[: column - 1].decode(errors="ignore"))
            tokens = list(pg_sql.TOKEN.finditer(item.text, place))
            return place, tokens[0][0] if tokens else ""
        if item.kind != "sql":
            return None, ""
        try:
            told = pg_sql.Translation([one for one in pg_sql.tokens_of(item.text) if one.text != ";"], {})
        except pg_sql.Unclosed as fault:
            return fault.at, ""
        origin = told.origin(text)
        name = text.split(": ", 1)[1].split(".")[0].split(" ")[0] if text.startswith("no such") and ": " in text else ""
        return (origin - 1, name) if origin else (None, name)

    def point(self, text: str, place: int) -> None:
        """The line of a text with a mark under the place."""
        start = text.rfind("\n", 0, place) + 1
        end = text.find("\n", place)
        line = text[start : end if end >= 0 else len(text)]
        first = max(0, place - start - 50)
        before = shell_show.plain(line[first : place - start])
        self.tell("  " + before + shell_show.plain(line[place - start :])[:50])
        self.tell("  " + " " * shell_show.width(before) + "^")

    def nearest(self, name: str) -> list[str]:
        """The names most like one, without regard to case."""
        by_low = {one.lower(): one for one in [*self.names(), *self.labels()]}
        return [by_low[one] for one in difflib.get_close_matches(name.lower(), by_low, n=2, cutoff=0.6)]

    def names(self) -> list[str]:
        """Tables and attributes."""
        found = dict.fromkeys(self.tables())
        for relation in self.connection.relations.values():
            found.update(dict.fromkeys(relation.names))
        return list(found)

    def tables(self) -> list[str]:
        """The tables that a statement may read."""
        return [name + form for name in self.connection.relations for form in ("", "_highest", "_classes")]

    def labels(self) -> list[str]:
        """The labels that are known here: this one, those of the policy, and those of the relations' intervals."""
        found = dict.fromkeys([self.connection.label, *self.dots.policy_labels()])
        for relation in self.connection.relations.values():
            for one in relation.attributes:
                found.update({one.low: None, one.high: None})
        return list(found)

    # What answers tell of rights

    def hear_command(self, text: str, said: str) -> None:
        """Keeps what the answer to a command of a session tells."""
        verb, *others = text.split(None, 2)
        if said and verb in MODES_OF and others:
            self.heard[others[0], MODES_OF[verb]] = said

    def hear_statement(self, sql: str, said: str) -> None:
        """Keeps what an outcome tells: that all was allowed, or a denial that only one right can have had."""
        try:
            plan = self.connection.local().plan(sql.rstrip("; \t\r\n"), ())
        except (mldb.Error, AttributeError):
            return
        asked = {(one.relation.name, "read") for one in plan.reads}
        if plan.writes is not None and plan.deed:
            asked.add((plan.writes.name, MODES_OF[plan.deed]))
        if said != "yes":
            asked = {one for one in asked if self.heard.get(one) != "yes"}
        if said == "yes" or len(asked) == 1:
            self.heard.update(dict.fromkeys(asked, said))

    # Where it comes from

    def read_lines(self, lines: TextIO, stops: bool) -> None:
        """Does what a file or a pipe has, line by line."""
        splitter = Splitter()
        for line in lines:
            if not self.do_all(splitter.feed(line.rstrip("\n").rstrip("\r")), stops) and stops:
                return
        self.do_all(splitter.rest(), stops)

    def read_file(self, path: str) -> None:
        """Does what a file has, and names it where something is wrong."""
        if self.depth >= DEEPEST:
            raise Misused(f".read {path}: files read one another {DEEPEST} deep")
        before, self.source = self.source, path
        self.depth += 1
        try:
            with open(os.path.expanduser(path), encoding="utf-8-sig", errors="strict") as lines:
                self.read_lines(lines, False)
        except OSError as fault:
            raise Misused(f"{path}: {fault.strerror}") from fault
        except UnicodeDecodeError as fault:
            raise Misused(f"{path}: bytes that are not UTF-8") from fault
        finally:
            self.source = before
            self.depth -= 1

    def run_texts(self, texts: Iterable[str]) -> None:
        """Does what `-c` has, up to the first thing that fails."""
        for text in texts:
            try:
                if not self.do_all(items_of(text), True):
                    return
            except Leave:
                return

    def type_in(self, ask: Callable[[str], str]) -> None:
        """Does what is typed at a terminal, up to its end. `ask` shows a prompt and gives a line. Ctrl-C drops what is
        typed, or ends what is done; it never ends the shell, whenever it comes."""
        self.is_typed = True
        splitter = Splitter()
        who = f"{self.connection.user} at {self.connection.label}"
        self.tell(f"mldb: {who}. SQL ends with ;  .help shows the other commands, .quit leaves.")
        signal.signal(signal.SIGINT, self.stop)
        is_over = False
        while not is_over:
            try:
                self.may_stop = True
                is_over = self.type_line(splitter, ask)
                self.may_stop = False
            except KeyboardInterrupt:
                splitter.forget()
                self.tell("")

    def stop(self, *_: object) -> None:
        """Ctrl-C: once for each line and each thing to do, so that none comes while one is dealt with."""
        if self.may_stop:
            self.may_stop = False
            raise KeyboardInterrupt

    def type_line(self, splitter: Splitter, ask: Callable[[str], str]) -> bool:
        """One line that is typed; whether it was the last."""
        try:
            line = ask("...> " if splitter.is_waiting() else f"{self.connection.label} {self.connection.user}> ")
        except EOFError:
            self.may_stop = False
            self.tell("")
            return True
        try:
            self.do_all(splitter.feed(line), False)
        except Leave:
            return True
        return False

    def at(self, label: str) -> None:
        """Goes on at another label, in a session of its own."""
        fresh = self.target.connect(label)
        self.connection.close()
        self.connection, self.heard = fresh, {}

    def close(self) -> None:
        """Ends the session."""
        try:
            self.connection.close()
        except mldb.Error as fault:
            print(f"mldb: {shell_show.plain(str(fault))}", file=sys.stderr)


def counted(count: int, what: str) -> str:
    """So many of something."""
    return f"{count} {what}{'s' * (count != 1)}"


def code_of(line: str) -> int | None:
    """The number of a denied or refused reply."""
    parts = line.split(" ")
    return int(parts[3]) if len(parts) >= 5 and parts[2] in ("denied", "refused") and parts[3].isdigit() else None
