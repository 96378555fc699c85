"""python/mldb/words.py is what docs/codes.md says. `python3 tests/client_parts/words_page.py >python/mldb/words.py`
makes it anew."""

import json
import os
import re
import textwrap

ROOT = os.path.dirname(os.path.dirname(os.path.dirname(os.path.abspath(__file__))))
TABLES = {
    "Refused writes": "REFUSED",
    "Denials": "DENIED",
    "Faults of policy and schemes": "FILES",
    "Faults of scripts and transactions": "SCRIPTS",
    "Faults of certificates": "CERTIFICATES",
    "Faults of stores": "STORES",
}
ITEM = re.compile(r"- `(\d+) (\w+)`(?: \(([^)]*)\))?(?:: (.*))?\Z")
HEAD = '''"""The words of docs/codes.md: per number its name, what it is of, and what it says. tests/client compares
them with the page, and tests/client_parts/words_page.py makes them anew."""

from typing import NamedTuple


class Word(NamedTuple):
    """One number of a table."""

    name: str
    of: str
    text: str


def _table(*rows: tuple[int, str, str, str]) -> dict[int, Word]:
    return {code: Word(name, of, text) for code, name, of, text in rows}


'''
TAIL = '''# The numbers that a session is told: no two tables of these have one number.
SESSIONS = REFUSED | DENIED | SCRIPTS
'''


def plain(text):
    """Words of the page without its marks."""
    return re.sub(r"\[([^\]]*)\]\([^)]*\)", r"\1", text or "").replace("`", "")


def tables(page):
    """The tables of the page: of each its rows."""
    found = {}
    for block in re.split(r"\n(?=- |\n|#)", page):
        block = re.sub(r"\s*\n\s*", " ", block.strip())
        item = ITEM.match(block)
        if block.startswith("## "):
            rows = found.setdefault(TABLES[block[3:]], [])
        elif item:
            rows.append((int(item[1]), item[2], plain(item[3]), plain(item[4])))
    return found


def row_text(code, *words):
    """A row as Python has it."""
    name, of, text = (json.dumps(one, ensure_ascii=False) for one in words)
    if len(f"    ({code}, {name}, {of}, {text}),") <= 116:
        return f"    ({code}, {name}, {of}, {text}),"
    parts = textwrap.wrap(words[-1], 100, drop_whitespace=False, break_on_hyphens=False)
    told = "\n".join(f"        {json.dumps(one, ensure_ascii=False)}" for one in parts)
    return f"    (\n        {code}, {name}, {of},\n{told},\n    ),"


def module(page):
    """The text of the module."""
    told = [f"{name} = _table(\n" + "\n".join(row_text(*row) for row in rows) + "\n)\n" for name,
            rows in tables(page).items()]
    return HEAD + "\n".join(told) + "\n" + TAIL


def read(path):
    with open(f"{ROOT}/{path}", encoding="utf-8") as file:
        return file.read()


def try_all():
    import mldb.words
    import tried

    page = read("docs/codes.md")
    tried.expect("the words are those of the page", read("python/mldb/words.py") == module(page), True)
    for name, rows in tables(page).items():
        tried.expect(f"{name}: some", len(rows) > 3, True)
        told = {code: tuple(words) for code, *words in rows}
        tried.expect(f"{name}", {code: tuple(word) for code, word in getattr(mldb.words, name).items()}, told)
    sizes = [len(mldb.words.REFUSED), len(mldb.words.DENIED), len(mldb.words.SCRIPTS)]
    tried.expect("no number twice", len(mldb.words.SESSIONS), sum(sizes))


if __name__ == "__main__":
    print(module(read("docs/codes.md")), end="")
