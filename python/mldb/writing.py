"""The commands that make in mldb what a statement would have changed in the copy, and how far they went."""

from collections.abc import Callable, Iterable, Sequence

from mldb import values
from mldb.catalogue import Relation
from mldb.errors import Error, NotSupportedError, OperationalError
from mldb.local import Local, Note
from mldb.session import Session
from mldb.transaction import Transaction

DONE, NO_TUPLE = b" done\n=\n", b" refused 13 NoTuple\n=\n"


def insertions(relation: Relation, label: str, notes: Iterable[Note]) -> list[str]:
    """An insert for each row."""
    size, kinds = relation.key_size, [(one.kind, one.name) for one in relation.attributes]
    found = []
    for note in notes:
        if note.new[-1] != label:
            raise NotSupportedError(f"class {note.new[-1]!r}: what is inserted has the label of the session, {label}")
        told = [values.spelt(value, *kind) for value, kind in zip(note.new, kinds)]
        found.append(f"insert {relation.name} key ({', '.join(told[:size])}) values ({', '.join(told[size:])})")
    return found


class Changes:
    """What an UPDATE or DELETE means at a label: rows of its own class are changed, and, where `derives`, above those
    of lower classes that hold an UPDATE makes tuples. Other rows are left as they are."""

    def __init__(self, local: Local, relation: Relation, label: str, derives: bool):
        self._local, self._relation, self._label = local, relation, label
        self._holding = local.holding(relation) if derives else set()

    def commands(self, notes: Iterable[Note]) -> list[str | None]:
        """A command for each row that is changed; None for one that has these values already."""
        return [command for _, command in self._made(notes)]

    def _made(self, notes: Iterable[Note]) -> list[tuple[Note, str | None]]:
        return [(note, self._command(note, key_class)) for note in notes
                if self._is_changed(note, key_class := self._key_class(note))]

    def take(self, notes: Iterable[Note], transaction: Transaction) -> int:
        """Leaves the changes to a transaction: how many rows they are of."""
        made, shown = self._made(notes), self._local.shown(self._relation)
        for note, command in made:
            if command is not None:
                transaction.change(self._relation, shown, note.row, note.new, command)
        return len(made)

    def _key_class(self, note: Note) -> str:
        return self._local.key_class(self._relation, note.row)

    def _is_changed(self, note: Note, key_class: str) -> bool:
        own = note.old[-1]
        if own == self._label:
            return True
        return note.deed == "update" and (*note.old[: self._relation.key_size], own, key_class) in self._holding

    def _command(self, note: Note, key_class: str) -> str | None:
        size = self._relation.key_size
        key = ", ".join(values.spelt(value, one.kind, one.name) for value, one in zip(note.old, self._relation.key))
        front = f"{note.deed} {self._relation.name} key ({key}) class {key_class}"
        if note.deed == "delete":
            return front
        if note.new[:size] != note.old[:size] or note.new[-1] != note.old[-1]:
            raise NotSupportedError("a key or a class is not changed: delete the row, and insert another")
        cells = zip(note.old[size:-1], note.new[size:-1], self._relation.others)
        sets = [f"{one.name} = {values.spelt(new, one.kind, one.name)}" for old, new, one in cells if new != old]
        return f"{front} from {note.old[-1]} set {', '.join(sets)}" if sets else None


def send(session: Session, commands: Sequence[str | None], under_way: int) -> int:
    """Sends the commands of rows: how many rows are done. A row that is not there any more counts as none."""
    places = [k for k, one in enumerate(commands) if one is not None]
    try:
        answers = session.answers([one for one in commands if one is not None], _is_bad, under_way)
    except OperationalError as fault:
        _tell(fault, commands, places[: fault.asked], fault.answered)
        raise
    bad = next(filter(_is_bad, answers), None)
    if bad is None:
        return _done(answers) + len(commands) - len(places)
    try:
        session.told(session.lines(bad))
    except Error as fault:
        _tell(fault, commands, places[: len(answers)], answers)
        raise
    return _done(answers)


def _tell(fault: Error, commands: Sequence[str | None], places: Sequence[int], answers: Sequence[bytes]) -> None:
    """Puts into an error how far the rows went: the commands at some places were sent, and the first were answered."""
    fault.sent = places[-1] + 1 if places else 0
    fault.done = _done(answers) + sum(one is None for one in commands[: fault.sent])
    fault.refused = [(place, _words(answer)) for place, answer in zip(places, answers) if _is_bad(answer)]


def _done(answers: Iterable[bytes]) -> int:
    """How many rows are done."""
    return sum(answer.endswith(DONE) for answer in answers)


def _is_bad(answer: bytes) -> bool:
    """Whether a command was neither done nor without its row."""
    return not answer.endswith(DONE) and not answer.endswith(NO_TUPLE)


def _words(answer: bytes) -> str:
    """The words of an answer of one line, or of its mark."""
    line, _, mark = answer.decode().removesuffix("\n").rpartition("\n")
    return line.split(" ", 2)[2] if line else mark[2:]


def resumed(work: Callable[[], int], done: int, row: int) -> int:
    """The rows done, of some before and those of a further piece of work; an error tells of both."""
    try:
        return done + work()
    except Error as fault:
        fault.done += done
        fault.sent, fault.refused = row + bool(fault.sent), [(row, words) for _, words in fault.refused[:1]]
        raise
