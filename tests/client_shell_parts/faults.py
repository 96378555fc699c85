"""Faults that are planted in a copy of the package. Each has to be found by the part that is named with it."""

import os
import shutil
import subprocess
import sys
import tempfile

from base import MLDB, ROOT, holds


FAULTS = [
    ("try_show", "shell_show.py", "def plain(text: str) -> str:",
    "def plain(text: str) -> str:\n    return text\n\n\ndef plain_before(text: str) -> str:"),
    ("try_show", "shell_show.py", "right: bool) -> str:\n", "right: bool) -> str:\n    columns += 40\n"),
    ("try_split", "shell_split.py", 'if part["end"]:', "if False:"),
    ("try_terminal", "shell.py", "            if self.depth or not self.is_typed:\n", "            if True:\n"),
    ("try_terminal", "shell.py", "if self.may_stop:", "if True:"),
    ("try_terminal", "shell.py", "            except KeyboardInterrupt:\n                splitter.forget()",
    "            except ZeroDivisionError:\n                splitter.forget()"),
    ("try_sql", "pg_sql.py", 'if kind == "bytea" and', 'if kind == "none" and'),
    ("try_shell_words", "shell.py", "line = item.line + item.text.count", "line = item.line + 0 * item.text.count"),
    ("try_shell_commands", "shell.py", "cutoff=0.6", "cutoff=1.0"),
    ("try_shell_commands", "shell.py", "return int(parts[3]) if", "return None if"),
    ("try_shell_files", "shell_dots.py", "columns, lines = [by_low[name] for name in first], lines[1:]",
    "lines = lines[1:]"),
    ("try_terminal", "shell_typing.py", "readline.clear_history()", "pass"),
    ("try_messages", "pg_types.py", 'if one is not None}', "}"),
    ("try_messages", "pg_types.py", "if value is None:\n        return None\n    if not suits",
    "if value is None:\n        return b''\n    if not suits"),
    ("try_messages", "pg_errors.py", '[12, 17], "23505"', '[12, 17], "23000"'),
    ("try_copy", "pg_copy.py", "return None if cell == copy.null else cell, end", "return cell, end"),
    ("try_messages", "pg_engine.py", 'self.state = "E" if self.state == "T" else self.state', "pass"),
    ("try_messages", "pg_session.py", "self.is_skipping = True", "self.is_skipping = False"),
    ("try_messages", "pg_session.py", "session = self.at_work.get(key)",
    "session = next(iter(self.at_work.values()), None)"),
    ("try_messages", "pg_session.py", "if user not in self.users:", "if False:"),
    ("try_messages", "pg.py", "if stat.S_IMODE(found.st_mode) & 0o077:", "if False:"),
    ("try_sql", "pg_sql.py", "self.order.append(int(token.text[1:]))", "self.order.append(len(self.order) + 1)"),
    ("try_drivers", "pg_catalog.py", 'self.put("pg_roles", oid=10, rolname=self.user)', "self.user = 'x'"),
]


def plant(number, folder):
    """A copy of the package with one fault in it; whether the fault fits."""
    _, name, before, after = FAULTS[number]
    shutil.copytree(f"{ROOT}/python/mldb", f"{folder}/mldb", ignore=shutil.ignore_patterns("__pycache__"))
    with open(f"{folder}/mldb/{name}", encoding="utf-8") as file:
        text = file.read()
    if text.count(before) != 1:
        return False
    with open(f"{folder}/mldb/{name}", "w", encoding="utf-8") as file:
        file.write(text.replace(before, after))
    return True


def run(part, folder):
    """A part, over a package in a folder."""
    script = os.path.join(ROOT, "tests", "client_shell")
    words = [sys.executable, script, f"--only={part}", MLDB]
    environment = {**os.environ, "MLDB_PYTHON": folder}
    return subprocess.run(words, env=environment, capture_output=True, check=False, text=True)


def try_faults():
    """Each planted fault is found by a run of its part, which finds nothing without one."""
    for part in dict.fromkeys(one[0] for one in FAULTS):
        child = run(part, f"{ROOT}/python")
        holds(f"{part} without a fault", child.returncode == 0, child.stdout[-300:] + child.stderr[-300:])
    for number, (part, name, before, _) in enumerate(FAULTS):
        with tempfile.TemporaryDirectory() as folder:
            is_planted = plant(number, folder)
            holds(f"fault {number} fits {name}", is_planted, before)
            if not is_planted:
                continue
            child = run(part, folder)
            is_found = child.returncode == 1 and ("not so" in child.stdout or "Traceback" in child.stderr)
            holds(f"fault {number} in {name} is found", is_found, child.stdout[-300:] + child.stderr[-300:])
            print(f"{name}: {before.strip().splitlines()[0][:60]}: {'found' if is_found else 'not found'}", flush=True)
