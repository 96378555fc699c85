"""What a connection with isolation_level="BATCH" has read and would write since its last commit."""

from collections import Counter
from collections.abc import Iterable, Iterator, Sequence
from typing import NamedTuple

from mldb import values
from mldb.catalogue import Relation
from mldb.errors import DataError, NotSupportedError
from mldb.rows import Rows
from mldb.tables import FORMS

MOST_COMMANDS, MOST_TESTS = 1000, 16
# A tuple at the session's label: its key, and the class of that.
Place = tuple[tuple, str]


class Own(NamedTuple):
    """A row at the session's label, as the transaction leaves it: its values, and the class of each."""

    values: tuple
    labels: tuple[str, ...]


class Shown(NamedTuple):
    """The rows of a view as they were read, and as the copy has them behind what the transaction writes."""

    read: Rows
    now: Rows

    def row(self, number: int) -> tuple[Own, str, str]:
        """A row that the copy has, by its number from 1; the class of its key, and its own."""
        at = number - 1
        own = Own(tuple(column[at] for column in self.now.values), tuple(column[at] for column in self.now.labels))
        return own, self.now.key_classes[at], self.now.classes[at]

    def count(self, cells: tuple, label: str) -> int:
        """How many rows of these values and this class were read."""
        return sum((row[0], row[3]) == (cells, label) for row in _rows_of(self.read))


class Transaction:
    """What is read and written until a commit sends it as one batch, or a rollback forgets it."""

    def __init__(self, label: str):
        self._label = label
        self._answers: dict[str, tuple[int, bytes]] = {}
        self._moment = 0
        self._expected: dict[str, tuple[int, Relation, Rows]] = {}
        self._seen: dict[tuple[Relation, tuple, str], int] = {}
        self._own: dict[str, dict[Place, Own | None]] = {}
        self._unknown: set[tuple[str, str]] = set()
        self._commands: list[str] = []

    @property
    def has_begun(self) -> bool:
        """Whether something was read or is to be written."""
        return bool(self._answers or self._commands)

    # ---- what is read

    def kept(self, views: Sequence[str]) -> list[bytes] | None:
        """The answers to views that are kept, where all are of one moment."""
        found = [self._answers.get(one) for one in views]
        moments = {one and one[0] for one in found}
        return [one[1] for one in found if one] if len(moments) == 1 and None not in moments else None

    def keep(self, views: Sequence[str], answers: Sequence[bytes]) -> None:
        """Views that are asked at one moment have these answers."""
        self._moment += 1
        self._answers.update((view, (self._moment, answer)) for view, answer in zip(views, answers))

    def read(self, command: str, relation: Relation, rows: Rows) -> None:
        """A view that names a whole key has these rows, and is to have them when the transaction is kept."""
        self._expected.setdefault(command, (len(rows.classes), relation, rows))

    def merged(self, rows: Rows, relation: Relation, form: str) -> Rows:
        """The rows of a view, read with the class of each value, as they are behind what the transaction writes."""
        if (relation.name, form) in self._unknown:
            told = "a lower row may show where the transaction took one away"
            raise NotSupportedError(f"{relation.name}{form}: {told}: commit before you read it again")
        own = self._own.get(relation.name, {})
        if not own:
            return rows
        kept = [row for row in _rows_of(rows) if not self._is_hidden(row, relation, form, own)]
        new = [(*one, kc, self._label) for (_, kc), one in own.items() if one is not None]
        return _columns(relation, [*kept, *new])

    def _is_hidden(self, row: tuple, relation: Relation, form: str, own: dict[Place, Own | None]) -> bool:
        """Whether a row of the store is changed, taken away, or covered by one of the transaction."""
        cells, labels, key_class, label = row
        key = cells[: relation.key_size]
        if label == self._label and (key, key_class) in own:
            return True
        if form == "_highest" and label != self._label:
            return any(place[0] == key and one is not None for place, one in own.items())
        above = own.get((key, key_class))
        return above is not None and all(
            (value, at) == (over, over_at) or value is None and over is not None
            for value, at, over, over_at in zip(cells, labels, above.values, above.labels))

    # ---- what is written

    def insert(self, relation: Relation, cells: tuple, command: str) -> None:
        """A row at the session's label."""
        own = Own(cells, (self._label,) * len(cells))
        self._own.setdefault(relation.name, {})[(cells[: relation.key_size], self._label)] = own
        self._commands.append(command)

    def change(self, relation: Relation, shown: Shown, row: int, new: tuple, command: str) -> None:
        """A row of what the copy has, by its number, is changed, or, where `new` is empty, taken away."""
        own = self._own.setdefault(relation.name, {})
        before, key_class, label = shown.row(row)
        place = (before.values[: relation.key_size], key_class)
        if label != self._label or place not in own:
            self._seen.setdefault((relation, before.values, label), shown.count(before.values, label))
        self._commands.append(command)
        if new:
            told = zip(before.values, before.labels, new)
            labels = tuple(at if value == now else self._label for value, at, now in told)
            own[place] = Own((*new[:-1],), labels)
            return
        own[place] = None
        forms = FORMS if key_class != self._label else ("_highest",)
        self._unknown |= {(relation.name, form) for form in forms}

    def blind(self, relation: Relation, command: str) -> None:
        """A write of which the copy does not know what it makes."""
        self._unknown |= {(relation.name, form) for form in FORMS}
        self._commands.append(command)

    # ---- the batch

    def batch(self) -> str | None:
        """The line that keeps it, if it writes something: what it expects, and then what it writes."""
        if not self._commands:
            return None
        commands = [*dict.fromkeys(self._expectations()), *self._commands]
        if len(commands) > MOST_COMMANDS:
            told = f"a batch has at most {MOST_COMMANDS} commands, for rows that are written or were read by their key"
            raise DataError(f"{len(commands)}: {told}: commit more often")
        return f"all {{ {'; '.join(commands)} }}"

    def _expectations(self) -> Iterator[str]:
        """What is to stand still as it was read: rows that were read by their key, and those that are changed."""
        for view, (count, relation, rows) in self._expected.items():
            asked = view.removeprefix("view ")
            yield f"expect {count} count {asked}"
            form = " highest" if asked.startswith(f"{relation.name} at {self._label} highest") else ""
            for (cells, label), number in Counter((row[0], row[3]) for row in _rows_of(rows)).items():
                yield self._expectation(number, relation, form, cells, label)
        for (relation, cells, label), number in self._seen.items():
            yield self._expectation(number, relation, "", cells, label)

    def _expectation(self, number: int, relation: Relation, form: str, cells: Sequence, label: str) -> str:
        tests = [f"{one.name} = {values.spelt(value, one.kind, one.name)}"
                 for one, value in zip(relation.attributes, cells)]
        front = f"expect {number} count {relation.name} at {self._label}{form}"
        return f"{front} class = {label} where {joined(tests)}"


def joined(tests: Sequence[str]) -> str:
    """Tests that are all to hold. What is more than a condition may have is joined in parentheses."""
    size = -(-len(tests) // MOST_TESTS)
    parts = [tests[at:at + size] for at in range(0, len(tests), size)]
    return " and ".join(_inside(part) if size > 1 else part[0] for part in parts)


def _inside(tests: Sequence[str]) -> str:
    if len(tests) == 1:
        return f"({tests[0]})"
    half = len(tests) // 2
    return f"({_inside(tests[:half])} and {_inside(tests[half:])})"


def _rows_of(rows: Rows) -> Iterator[tuple[tuple, tuple, str, str]]:
    """The rows of a view: values, their classes, the class of the key and that of the row."""
    return zip(zip(*rows.values), zip(*rows.labels), rows.key_classes, rows.classes)


def _columns(relation: Relation, rows: Iterable[tuple[tuple, tuple, str, str]]) -> Rows:
    found = list(rows)
    if not found:
        return Rows([[] for _ in relation.attributes], [()] * len(relation.attributes), (), ())
    cells, labels, key_classes, classes = zip(*found)
    return Rows([list(column) for column in zip(*cells)], [*zip(*labels)], key_classes, classes)
