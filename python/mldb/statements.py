"""What the words of a statement ask that SQLite would not refuse and mldb has not; and the columns of an INSERT that
names none."""

from collections.abc import Mapping, Sequence

from mldb.catalogue import Relation
from mldb.errors import NotSupportedError
from mldb.sqltokens import Token, at_top, numbers


def quoted(name: str) -> str:
    """A name as SQL has it."""
    return '"' + name.replace('"', '""') + '"'


def check_words(tokens: Sequence[Token]) -> None:
    """That a statement which writes has no words that mldb has not."""
    words = [one.word for one in tokens]
    pairs = set(zip(words, words[1:]))
    if "RETURNING" in words:
        raise NotSupportedError("RETURNING: it would show rows that mldb may still refuse: ask for them afterwards")
    if {("INSERT", "OR"), ("UPDATE", "OR"), ("REPLACE", "INTO"), ("ON", "CONFLICT")} & pairs:
        told = "OR .., REPLACE, ON CONFLICT: mldb has one answer to a key that is there"
        raise NotSupportedError(f"{told}: catch IntegrityError, and update")


def assigned(tokens: Sequence[Token]) -> tuple[int | str, ...]:
    """The parameters that an UPDATE assigns as they are, by their numbers or names."""
    top, known = [one for _, one in at_top(tokens) if one.text != ";"], numbers(tokens)
    words = [one.word for one in top]
    begin = words.index("SET") if "SET" in words else len(top)
    end = next((k for k in range(begin, len(top)) if words[k] in ("FROM", "WHERE")), len(top))
    cuts = [begin, *(k for k in range(begin, end) if top[k].text == ","), end]
    parts = [top[one + 1:two] for one, two in zip(cuts, cuts[1:])]
    found = [part[2] for part in parts if len(part) == 3 and part[0].name and part[1].text == "="]
    return tuple(known[one.end] for one in found if one.end in known)


def with_columns(sql: str, tokens: Sequence[Token], relations: Mapping[str, Relation]) -> str:
    """An INSERT with the columns of its relation, where it names none. `relations` have lower case names."""
    words, texts = [one.word for one in tokens], [one.text for one in tokens]
    if "INTO" not in words:
        return sql
    at = words.index("INTO") + 1
    at += 2 * (texts[at + 1:at + 2] == ["."])
    relation = relations.get((tokens[at].name or "").lower()) if at < len(tokens) else None
    at += 2 * (words[at + 1:at + 2] == ["AS"])
    if relation is None or words[at + 1:at + 2] not in (["VALUES"], ["SELECT"], ["WITH"]):
        return sql
    end = tokens[at].end
    return f"{sql[:end]} ({', '.join(map(quoted, relation.names))}){sql[end:]}"
