"""The program: where it is, and what it prints. No tool decides what a label may see: each asks the program."""

import hashlib
import os
import re
import shutil
import subprocess
import sys
from pathlib import Path

MOST_BYTES = 1_048_576
BESIDE = Path(sys.argv[0]).resolve().parent


class Refused(Exception):
    """What is wrong, where, and what to do."""


def find_program(named: str | None) -> str:
    """The program that is named; or the one beside the tools, of this repository or on PATH."""
    if named:
        found = shutil.which(named) or shutil.which(os.path.abspath(named))
        if not found:
            raise Refused(f"--program {named} is no program: name the path of mldb")
        return os.path.abspath(found)
    for path in (BESIDE / "mldb", BESIDE.parent / "crates/mldb/out/mldb", BESIDE.parent / "bin/mldb"):
        if os.access(path, os.X_OK) and path.is_file():
            return str(path)
    found = shutil.which("mldb")
    if not found:
        raise Refused("there is no mldb beside the tools or on PATH: name it by --program")
    return found


class Program:
    """Calls of the program, each of which is done with what it printed."""

    def __init__(self, named: str | None) -> None:
        self.path = find_program(named)

    def ask(self, *words: str, given: str = "") -> tuple[int, list[str], str]:
        """The status, the lines of standard output, and standard error."""
        try:
            child = subprocess.run([self.path, *words], input=given.encode(), capture_output=True, check=False)
        except OSError as fault:
            raise Refused(f"{self.path} does not start ({fault.strerror}): name another by --program") from fault
        lines = child.stdout.decode(errors="backslashreplace").split("\n")
        return child.returncode, lines[:-1], child.stderr.decode(errors="backslashreplace").strip()

    def lines(self, *words: str, statuses: tuple[int, ...] = (0,)) -> list[str]:
        """The lines of standard output of a call that has to go well."""
        status, lines, told = self.ask(*words)
        if status not in statuses:
            raise Refused(
                f"{told or 'mldb failed'} (status {status} of mldb {' '.join(words)}); "
                "`mldb explain` before these words says more"
            )
        return lines

    def version(self) -> str:
        """The first words of what --version prints."""
        found = re.search(r"mldb \S+(?: \(.*\))?", self.ask("--version")[2])
        return found[0] if found else "mldb, of no version"


def read_text(path: str) -> str:
    """A text that the program reads too."""
    try:
        return Path(path).read_bytes().decode()
    except OSError as fault:
        raise Refused(f"{path} cannot be read ({fault.strerror}): see to the path") from fault
    except UnicodeDecodeError as fault:
        raise Refused(f"{path} is not UTF-8 at byte {fault.start}: save it as UTF-8") from fault


def sum_of(path: str) -> str:
    """The SHA-256 of a file, as sha256sum prints it."""
    try:
        return hashlib.sha256(Path(path).read_bytes()).hexdigest()
    except OSError as fault:
        raise Refused(f"{path} cannot be read ({fault.strerror}): see to the path") from fault


def run_tool(name: str, main) -> None:
    """Runs a tool: prints its page, or says on standard error why there is none, with status 2."""
    sys.stdout.reconfigure(encoding="utf-8", newline="\n")
    sys.stderr.reconfigure(errors="backslashreplace")
    try:
        sys.stdout.write(main())
        sys.stdout.flush()
    except Refused as fault:
        print(f"{name}: {fault}", file=sys.stderr)
        sys.exit(2)
    except BrokenPipeError:
        os.dup2(os.open(os.devnull, os.O_WRONLY), sys.stdout.fileno())
        sys.exit(2)
