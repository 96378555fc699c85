"""What policy and schemes declare, as the program prints it, and who is let do what, as it answers."""

import re
import tempfile
from dataclasses import dataclass, field
from pathlib import Path

from .program import MOST_BYTES, Program, Refused
from .replies import is_view, line_of, replies_of


@dataclass
class User:
    """A user of the policy."""

    name: str
    clearance: str
    trusted: tuple[str, ...]


@dataclass
class Declared:
    """A policy and its schemes."""

    labels: list[str] = field(default_factory=list)
    covers: dict[str, list[str]] = field(default_factory=dict)
    users: list[User] = field(default_factory=list)
    rights: dict[tuple[str, str], list[str]] = field(default_factory=dict)
    relations: dict[str, list[tuple[str, ...]]] = field(default_factory=dict)
    ignored: list[str] = field(default_factory=list)

    def height(self, label: str) -> int:
        """How many labels the longest chain below a label has."""
        return max((self.height(low) + 1 for low in self.covers[label]), default=0)

    def upwards(self) -> list[str]:
        """The labels, each behind those that it dominates."""
        heights = {label: self.height(label) for label in self.labels}
        return sorted(self.labels, key=lambda label: (heights[label], self.labels.index(label)))

    def below(self, label: str) -> set[str]:
        """A label, and those that it dominates by what `explain` says that it covers."""
        found, left = set(), [label]
        while left:
            one = left.pop()
            if one not in found:
                found.add(one)
                left += self.covers[one]
        return found


def take_line(found: Declared, words: list[str]) -> None:
    """Takes a line of the canonical texts in."""
    match words:
        case ["label", name, *_]:
            found.labels.append(name)
        case ["user", name, clearance, *trusted]:
            found.users.append(User(name, clearance, tuple(trusted)))
        case ["matrix", user, name, *modes]:
            found.rights[user, name] = modes
        case ["relation", name]:
            found.relations[name] = []
        case ["key" | "attribute", _, _, _, _]:
            found.relations[next(reversed(found.relations))].append(tuple(words))


def declared(program: Program, policy: str, schemes: str) -> Declared:
    """Reads a policy and its schemes, by `show-policy` and `explain`."""
    found = Declared()
    for line in program.lines("show-policy", policy, schemes):
        take_line(found, line.split(" "))
    for line in program.lines("explain", policy, schemes, statuses=(0, 1)):
        covered = re.fullmatch(r"  (\w+) covers (\w+(?: \w+)*)", line)
        if covered:
            found.covers[covered[1]] = [] if covered[2] == "nothing" else covered[2].split(" ")
        elif ": no one reads this field" in line:
            found.ignored.append(line)
    if sorted(found.covers) != sorted(found.labels):
        raise Refused("`mldb explain` does not tell what each label covers: is this another version of mldb?")
    return found


def answers(program: Program, files: list[str], options: list[str], blocks: list[list[str]]) -> list[list[str]]:
    """The replies to events over an empty database. A block of them is done in one run, and closes what it opens."""
    scripts, size = [[]], 0
    for block in blocks:
        length = sum(len(line.encode()) + 1 for line in block)
        if size + length > MOST_BYTES - 1024:
            scripts.append([])
            size = 0
        scripts[-1] += block
        size += length
    replies = []
    with tempfile.TemporaryDirectory() as folder:
        path = Path(folder) / "script"
        for lines in scripts:
            path.write_text("".join(f"{line}\n" for line in lines), encoding="utf-8")
            replies += replies_of(program.lines("run", *options, *files, str(path)))
    return replies


@dataclass
class Access:
    """Who may work at a label, and whose view of a relation there is answered and not denied, by label and relation."""

    openers: dict[str, list[str]]
    readers: dict[tuple[str, str], list[str]]

    def highest(self, found: Declared, user: str, relation: str) -> list[str]:
        """The labels at which a user may look at a relation, without those below another one."""
        seen = [label for label in found.upwards() if user in self.readers[label, relation]]
        return [label for label in seen if not any(label in found.below(other) and label != other for other in seen)]


def access(program: Program, files: list[str], found: Declared) -> Access:
    """Who is let look where: each user asks for each relation at each label, over an empty database."""
    told = Access(
        {label: [] for label in found.labels},
        {(label, relation): [] for label in found.labels for relation in found.relations},
    )
    blocks = [
        [
            f"{label} u open {user.name}",
            *(f"{label} u view {relation} at {label}" for relation in found.relations),
            f"{label} u close",
        ]
        for label in found.labels
        for user in found.users
    ]
    replies = iter(answers(program, files, [], blocks))
    for label in found.labels:
        for user in found.users:
            if line_of(next(replies)[0]).verb == "opened":
                told.openers[label].append(user.name)
            # Where the opening is denied, so is each view.
            for relation in found.relations:
                if is_view(next(replies)):
                    told.readers[label, relation].append(user.name)
            next(replies)
    return told
