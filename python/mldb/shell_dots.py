"""Commands of the shell itself, which begin with a point."""

from __future__ import annotations

import os
import shlex
import tomllib
from collections.abc import Callable, Sequence
from typing import TYPE_CHECKING, Any, TextIO

import mldb

from . import pg_copy, pg_types, shell_show, words
from .shell_show import Rows
from .shell_split import Item

if TYPE_CHECKING:
    from .shell import Shell

CHUNK = 1000
ALL_MODES = ("execute", "read", "append", "write")


class Misused(Exception):
    """A command of the shell that is not understood, or cannot be done."""


class Leave(Exception):
    """The end of the shell."""


class Dots:
    """The commands, by their names."""

    HELP = {
        "code": ("NUMBER", "what a number means, in the words of docs/codes.md"),
        "describe": ("[RELATION]", "relations, kinds, intervals, and rights as far as policy or answers tell"),
        "help": ("", "this list"),
        "import": ("FILE RELATION", "rows of a CSV file, whose first line may name attributes; an empty cell is null"),
        "label": ("[LABEL]", "the label and user of the session; with LABEL goes on at that label"),
        "mode": ("[table|csv|json|markdown]", "how rows are shown"),
        "null": ("TEXT", "how null is shown in tables"),
        "output": ("[FILE]", "rows go to a file; without FILE to the screen again"),
        "quit": ("", "leaves (also .exit, close, Ctrl-D)"),
        "read": ("FILE", "does what a file has"),
        "schema": ("[TABLE]", "tables with their columns"),
        "tables": ("", "the names of the tables"),
        "timer": ("on|off", "how long each statement takes"),
    }

    def __init__(self, shell: Shell) -> None:
        self.shell = shell
        self.screen: TextIO = shell.out
        self.policy = self.read_policy()

    def read_policy(self) -> dict[str, Any]:
        """The policy, where its file was given and can be read; nothing is decided by it."""
        path = self.shell.target.words.policy
        try:
            with open(path, "rb") as file:
                return tomllib.load(file)
        except (OSError, ValueError, TypeError):
            return {}

    def policy_labels(self) -> list[str]:
        """The labels that the policy declares."""
        return [str(one.get("name")) for one in self.policy.get("label", [])]

    def do(self, item: Item) -> None:
        """Does one command."""
        try:
            name, *others = shlex.split(item.text) or [""]
        except ValueError as fault:
            raise Misused(f".{item.text}: a quote is not closed") from fault
        name = {"exit": "quit", "q": "quit", "nullvalue": "null", "schemas": "schema"}.get(name, name)
        found = [one for one in self.HELP if one == name] or [one for one in self.HELP if name and one.startswith(name)]
        if len(found) != 1:
            text = f"it may be {', '.join(found)}" if found else "there is no such command: .help shows them"
            raise Misused(f".{name}: {text}")
        forms = self.HELP[found[0]][0].split()
        least = sum(not form.startswith("[") for form in forms)
        if not least <= len(others) <= len(forms) and not (found[0] == "help" and len(others) == 1):
            raise Misused(f"write .{found[0]} {self.HELP[found[0]][0]}".rstrip())
        deed: Callable[[Sequence[str]], None] = getattr(self, "do_" + found[0])
        deed(others)

    def do_quit(self, others: Sequence[str]) -> None:
        """Leaves."""
        raise Leave

    def do_help(self, others: Sequence[str]) -> None:
        """All commands."""
        width = max(len(f".{name} {form}") for name, (form, _) in self.HELP.items())
        lines = [f"{f'.{name} {form}'.ljust(width)}  {text}" for name, (form, text) in self.HELP.items()]
        lines += [
            "",
            "SQL goes over several lines, up to its semicolon. Tables: R (attributes, class), R_highest (without cover",
            "stories), R_classes (a class beside each value).",
            "A line that begins with a command of sessions goes to mldb as it is:",
            "  view, count, dump R ..; audit; call T (..); insert R key (..) values (..); all { ..; .. };",
            "  update R key (..) class K from F set A = ..;",
            "  delete R key (..) class K   (takes every tuple of that key and key class above it, too)",
        ]
        self.shell.show("\n".join(lines) + "\n")

    def do_tables(self, others: Sequence[str]) -> None:
        """The tables, each relation with its forms."""
        names = self.shell.connection.relations
        self.shell.show("".join(f"{name}  {name}_highest  {name}_classes\n" for name in names))

    def do_mode(self, others: Sequence[str]) -> None:
        """How rows are shown."""
        if not others:
            self.shell.show(self.shell.mode + "\n")
        elif others[0] in shell_show.MODES:
            self.shell.mode = others[0]
        else:
            raise Misused(f".mode {others[0]}: there are {', '.join(shell_show.MODES)}")

    def do_null(self, others: Sequence[str]) -> None:
        """How null is shown."""
        self.shell.null = others[0]

    def do_timer(self, others: Sequence[str]) -> None:
        """Whether times are told."""
        if others[0] not in ("on", "off"):
            raise Misused("write .timer on or .timer off")
        self.shell.is_timed = others[0] == "on"

    def do_label(self, others: Sequence[str]) -> None:
        """The label of the session, or another one."""
        if others:
            self.shell.at(others[0])
        connection = self.shell.connection
        self.shell.show(f"{connection.label} {connection.user}\n")

    def do_read(self, others: Sequence[str]) -> None:
        """Does what a file has."""
        self.shell.read_file(others[0])

    def do_output(self, others: Sequence[str]) -> None:
        """Where rows go."""
        if self.shell.out is not self.screen:
            self.shell.out.close()
        self.shell.out = self.screen
        if others:
            try:
                self.shell.out = open(os.path.expanduser(others[0]), "w", encoding="utf-8", newline="")
            except OSError as fault:
                raise Misused(f"{others[0]}: {fault.strerror}") from fault

    def do_code(self, others: Sequence[str]) -> None:
        """What a number means. Some are in several tables."""
        tables = {
            "refused": words.REFUSED, "denied": words.DENIED, "script": words.SCRIPTS, "policy or schemes": words.FILES,
            "certificates": words.CERTIFICATES, "store": words.STORES,
        }
        number = int(others[0]) if others[0].isdigit() else -1
        found = [(what, table[number]) for what, table in tables.items() if number in table]
        if not found:
            raise Misused(f".code {others[0]}: there is no such number in docs/codes.md")
        self.shell.show("".join(f"{number} {one.name} ({what}): {one.text}\n" for what, one in found))

    # Relations

    def relation(self, name: str) -> Any:
        """A relation by its name, without regard to case."""
        relations = self.shell.connection.relations
        for one in relations.values():
            if one.name.lower() == name.lower():
                return one
        near = self.shell.nearest(name)
        text = f"Did you mean {' or '.join(near)}?" if near else ".tables shows them"
        raise Misused(f"{name}: there is no such relation. {text}")

    def do_schema(self, others: Sequence[str]) -> None:
        """Tables as SQL has them."""
        lines = []
        for name, columns in self.columns().items():
            if not others or name.lower() == others[0].lower():
                lines.append(f"CREATE TABLE {name} ({', '.join(columns)});\n")
        if not lines:
            self.relation(others[0])
            raise Misused(f"{others[0]}: there is no such table: .tables shows them")
        self.shell.show("".join(lines))

    def columns(self) -> dict[str, list[str]]:
        """The columns of each table, with their types."""
        found = {}
        for one in self.shell.connection.relations.values():
            own = [f"{name.name} {'INTEGER' if name.kind == 'int' else 'TEXT'}" for name in one.attributes]
            pairs = [part for column, name in zip(own, one.names) for part in (column, f'"{name} class" TEXT')]
            found[one.name] = found[f"{one.name}_highest"] = [*own, "class TEXT"]
            found[f"{one.name}_classes"] = [*pairs, "class TEXT", '"key class" TEXT']
        return found

    def do_describe(self, others: Sequence[str]) -> None:
        """What is declared, and what one may do."""
        relations = [self.relation(others[0])] if others else list(self.shell.connection.relations.values())
        rows = []
        for one in relations:
            for attribute in one.attributes:
                key, classes = "key" if attribute.is_key else "", f"{attribute.low} to {attribute.high}"
                rows.append((one.name, attribute.name, key, attribute.kind, classes))
        names = ["relation", "attribute", "key", "kind", "classes"]
        self.shell.show(shell_show.table(names, rows, "", self.shell.columns()))
        self.shell.show("".join(f"{one.name}: {self.rights(one.name)}\n" for one in relations))
        if not others:
            connection = self.shell.connection
            labels = ", ".join(self.shell.labels())
            self.shell.show(f"{connection.user} at {connection.label}; labels known here: {labels}\n")

    def rights(self, name: str) -> str:
        """The rights to a relation: of the policy if its file was given, else what answers told."""
        user = self.shell.connection.user
        if self.policy:
            entries = self.policy.get("matrix", [])
            of_user = [one for one in entries if user in one.get("users", [one.get("user")])]
            mine = [one["modes"] for one in of_user if name in one.get("objects", [one.get("object")])]
            modes = [mode for some in mine for mode in some]
            return f"{user} may {', '.join(modes)}" if modes else f"{user} has no right"
        told = [f"{mode} {self.shell.heard[name, mode]}" for mode in ALL_MODES if (name, mode) in self.shell.heard]
        return "rights, as answers told: " + ("; ".join(told) if told else "nothing was asked yet")

    # Import

    def do_import(self, others: Sequence[str]) -> None:
        """Rows of a CSV file. All cells are looked at before the first row is told."""
        path, relation = others[0], self.relation(others[1])
        try:
            with open(os.path.expanduser(path), encoding="utf-8-sig", newline="") as file:
                lines = list(pg_copy.lines_of(pg_copy.Copy(is_csv=True).finish(), file.read()))
        except OSError as fault:
            raise Misused(f"{path}: {fault.strerror}") from fault
        except UnicodeDecodeError as fault:
            raise Misused(f"{path}: bytes that are not UTF-8: save it as UTF-8") from fault
        except pg_copy.BadCopy as fault:
            raise Misused(f"{path}: {fault}") from fault
        by_low = {one.name.lower(): one for one in relation.attributes}
        columns = list(relation.attributes)
        first = [(cell or "").strip().lower() for cell in lines[0][1]] if lines else []
        if first and set(first) <= by_low.keys() and len(set(first)) == len(first):
            columns, lines = [by_low[name] for name in first], lines[1:]
        rows = [values_of(path, number, cells, columns) for number, cells in lines]
        self.insert(path, relation.name, [one.name for one in columns], [number for number, _ in lines], rows)

    def insert(self, path: str, relation: str, names: Sequence[str], numbers: Sequence[int], rows: Rows) -> None:
        """Tells the rows; those that are refused are named by their lines, and the others stand."""
        columns = ", ".join(f'"{name}"' for name in names)
        sql = f'INSERT INTO "{relation}" ({columns}) VALUES ({", ".join("?" * len(names))})'
        done, at, faults = 0, 0, 0
        while at < len(rows):
            some = rows[at : at + CHUNK]
            try:
                self.shell.connection.executemany(sql, some)
                done, at = done + len(some), at + len(some)
            except mldb.IntegrityError as fault:
                refused = fault.refused or [(fault.done, str(fault.words or fault))]
                for place, told in refused:
                    self.shell.tell(f"{path}: line {numbers[at + place]}: {told}")
                done, at, faults = done + fault.done, at + max(fault.sent, fault.done + 1), faults + len(refused)
        message = f"{path}: {done} of {len(rows)} rows are in {relation}"
        if faults:
            raise Misused(message)
        if self.shell.is_typed:
            self.shell.tell(message)


def values_of(path: str, number: int, cells: Sequence[str | None], columns: Sequence[Any]) -> list[object]:
    """The values of a line of CSV."""
    if len(cells) != len(columns):
        wanted = ", ".join(one.name for one in columns)
        raise Misused(f"{path}: line {number}: {len(cells)} cells, and {len(columns)} wanted, between commas: {wanted}")
    found: list[object] = []
    for cell, column in zip(cells, columns):
        try:
            found.append(None if cell is None else pg_types.whole(cell) if column.kind == "int" else cell)
            mldb.values.spelt(found[-1], column.kind, column.name)
        except (pg_types.BadValue, mldb.DataError) as fault:
            raise Misused(f"{path}: line {number}: {column.name}: {fault}") from fault
    return found
