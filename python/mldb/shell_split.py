"""What is typed, cut into statements of SQL, commands of sessions, and commands of the shell."""

from __future__ import annotations

import re
from dataclasses import dataclass

NAME = r"[A-Za-z][A-Za-z0-9_]*"
COMMAND = re.compile(
    rf"\s*(?:(?:view|count|audit|call|dump|open)\b|all\s*\{{|(?:insert|update|delete)\s+{NAME}\s+key\b)"
)
LEAVES = {"close", "quit", "exit"}
WORDS = {"help", "describe"} | LEAVES
PART = re.compile(
    r"""'(?:[^']|'')*' | "(?:[^"]|"")*" | `[^`]*` | \[[^\]]*\] | --[^\n]*(?:\n|\Z) | /\*.*?\*/
    | (?P<end>;) | (?P<blank>\s+) | (?P<open>['"`\[] | /\*) | [^'"`\[\-/;\s]+ | .""",
    re.VERBOSE | re.DOTALL,
)


@dataclass(frozen=True)
class Item:
    """One thing to do: `sql`, `command` or `dot`; its text, and the number of the line where it begins."""

    kind: str
    text: str
    line: int


class Splitter:
    """Takes lines, gives what is complete, keeps the rest."""

    def __init__(self) -> None:
        self.kept, self.line, self.first = "", 0, 0

    def is_waiting(self) -> bool:
        """Whether a statement has begun and not ended."""
        return bool(self.kept)

    def forget(self) -> None:
        """Drops a statement that has begun."""
        self.kept = ""

    def feed(self, line: str) -> list[Item]:
        """One more line, without its line feed."""
        self.line += 1
        if not self.kept:
            self.first = self.line
            if single := self.single(line):
                return [single]
        is_first, self.kept = not self.kept, self.kept + line + "\n"
        return self.complete() if is_first or ";" in line else []

    def single(self, line: str) -> Item | None:
        """A line that is a thing by itself."""
        text = line.strip()
        if text.startswith("."):
            return Item("dot", text[1:], self.line)
        if COMMAND.match(line):
            return Item("command", text, self.line)
        first = text.rstrip(";").split(" ", 1)[0]
        if first in WORDS and (first == "help" or first == "describe" or text.rstrip("; ") == first):
            return Item("dot", "quit" if first in LEAVES else text.rstrip(";"), self.line)
        return None

    def complete(self) -> list[Item]:
        """The statements of what is kept that have their semicolon."""
        found: list[Item] = []
        start, at, has_words = 0, 0, False
        while at < len(self.kept):
            part = PART.match(self.kept, at)
            assert part
            if part["open"]:
                has_words = True
                break
            at = part.end()
            if part["end"]:
                found += [self.item(start, at)] if has_words else []
                start, has_words = at, False
            elif not part["blank"] and not part[0].startswith(("--", "/*")):
                has_words = True
        self.first += self.kept.count("\n", 0, start)
        self.kept = self.kept[start:] if has_words else ""
        return found

    def item(self, start: int, end: int) -> Item:
        """A statement; its place is that of its first word."""
        text = self.kept[start:end]
        before = start + len(text) - len(text.lstrip())
        return Item("sql", text.strip(), self.first + self.kept.count("\n", 0, before))

    def rest(self) -> list[Item]:
        """At the end of the input a statement needs no semicolon."""
        text, self.kept = self.kept.strip(), ""
        return [Item("sql", text, self.first)] if text else []


def items_of(text: str) -> list[Item]:
    """All that a text has."""
    splitter = Splitter()
    found = [item for line in text.split("\n") for item in splitter.feed(line)]
    return found + splitter.rest()
