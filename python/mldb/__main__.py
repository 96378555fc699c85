"""python3 -m mldb: a shell for SQL over the rows that a label is shown.

    python3 -m mldb --schemes schemes.toml /run/mldb/sock S
    python3 -m mldb --schemes schemes.toml S -- ssh host nc -NU /run/mldb/sock
    python3 -m mldb --policy policy.toml --schemes schemes.toml --store fleet.db S

Without -c it does what is typed, or what standard input has. The status is 0; 1 if something failed; 2 if it did not
begin."""

from __future__ import annotations

import argparse
import os
import sys

import mldb

from . import shell_show, shell_target
from .shell import Shell
from .shell_dots import Leave
from .shell_typing import Typing


def words_of(arguments: list[str]) -> tuple[argparse.Namespace, list[str]]:
    """The command line."""
    before, command = shell_target.split(arguments)
    parser = argparse.ArgumentParser(prog="python3 -m mldb", allow_abbrev=False, description=__doc__,
                                     formatter_class=argparse.RawDescriptionHelpFormatter)
    parser.add_argument("places", metavar="[SOCKET] LABEL", nargs="+", help="a gateway's socket, if any; a label")
    parser.add_argument("-c", metavar="SQL", dest="texts", action="append", help="do this and end; may be given again")
    parser.add_argument("--mode", choices=shell_show.MODES, default="table", help="how rows are shown (table)")
    parser.add_argument("--null", metavar="TEXT", default="null", help="how null is shown in tables (null)")
    parser.add_argument("--bail", action="store_true", help="end at the first fault of standard input")
    parser.add_argument("--no-history", action="store_true", help="keep no ~/.mldb/history-LABEL")
    shell_target.add_words(parser)
    words = parser.parse_args(before)
    if len(words.places) > 2:
        parser.error(f"{words.places[2]}: one SOCKET and one LABEL; SQL goes behind -c")
    return words, command


def run(shell: Shell, words: argparse.Namespace) -> None:
    """Does what was given, in one of three ways."""
    shell.mode, shell.null = words.mode, words.null
    if words.texts:
        shell.run_texts(words.texts)
    elif sys.stdin.isatty():
        typing = Typing(shell, not words.no_history)
        try:
            shell.type_in(typing.ask)
        finally:
            typing.keep()
    else:
        sys.stdin.reconfigure(encoding="utf-8-sig", errors="surrogateescape")  # type: ignore
        try:
            shell.read_lines(sys.stdin, words.bail)
        except Leave:
            pass


def main(arguments: list[str]) -> int:
    """The shell; its status."""
    words, command = words_of(arguments)
    sys.stdout.reconfigure(encoding="utf-8", errors="backslashreplace")  # type: ignore
    sys.stderr.reconfigure(encoding="utf-8", errors="backslashreplace")  # type: ignore
    try:
        target = shell_target.Target(words, words.places[0] if len(words.places) == 2 else None, command)
    except mldb.Error as fault:
        print(f"mldb: {shell_show.plain(str(fault))}", file=sys.stderr)
        return 2
    try:
        shell = Shell(target, words.places[-1], sys.stdout, sys.stderr)
    except (mldb.Error, KeyboardInterrupt) as fault:
        print(f"mldb: {shell_show.plain(str(fault)) or 'interrupted'}", file=sys.stderr)
        target.close()
        return 2
    try:
        run(shell, words)
    except BrokenPipeError:
        os.dup2(os.open(os.devnull, os.O_WRONLY), sys.stdout.fileno())
        shell.has_failed = True
    except KeyboardInterrupt:
        shell.fail(None, "interrupted: what was sent before may be done")
    finally:
        shell.close()
        target.close()
    return int(shell.has_failed)


if __name__ == "__main__":
    sys.exit(main(sys.argv[1:]))
