"""The built program in a folder of its own, with files, pipes, terminals and stores."""

import contextlib
import os
import shutil
import sqlite3
import subprocess
import tempfile
import termios
import time
import tty
from collections.abc import Collection
from concurrent.futures import ThreadPoolExecutor
from dataclasses import dataclass
from pathlib import Path

MOST_BYTES = 1_048_576
SECONDS = 100


def lines_in(text: str) -> list[str]:
    """The lines of a text, without their ends."""
    return [line.removesuffix("\r") for line in text.removesuffix("\n").split("\n")] if text else []


def text_of(data: bytes) -> str:
    """Bytes as text."""
    return data.decode(errors="backslashreplace")


def indented(data: bytes) -> str:
    """The lines of a text, each after two blanks where it is not empty."""
    return "".join(f"  {line}\n" if line else "\n" for line in lines_in(text_of(data)))


@dataclass(frozen=True)
class Written:
    """What a command wrote, and its status."""

    status: int
    out: bytes
    err: bytes

    @property
    def lines(self) -> list[str]:
        """The lines of standard output."""
        return lines_in(text_of(self.out))

    def ending(self) -> str:
        """The status where it is not 0, and standard error."""
        return (f"  status {self.status}\n" if self.status else "") + indented(self.err)

    def told(self) -> str:
        """The status where it is not 0, standard error, and standard output."""
        return self.ending() + indented(self.out)


def shared_folder(parent: Path, folders: list[Path]) -> Path:
    """A folder with all that is in others, and files with as many and as large transactions as may be, and as long."""
    names = "transaction T levels U to S (p: int at S" + "".join(f", p{n}: int at U" for n in range(1, 64)) + ") {\n"
    names += "".join(f"var x{n}: int;\n" for n in range(1, 65))
    others = "}\n" + "".join(f"transaction T{n} levels U to S () {{ }}\n" for n in range(1, 64))
    blocks = "".join(f"certificate 1 T{n}\nvars\npcs\n" for n in range(1, 64))
    label = " 0:00000000"
    pcs, row = f"pcs{label * 1000}\n", f"row{label * 64}\n"
    texts = {
        "most.transactions": names + "x1 := 1;\n" * 1000 + others,
        "most.certificates": f"certificate 1 T\nvars{label * 64}\n{pcs}{blocks}",
        "most2.transactions": names + "x1 := p;\n" + "x1 := 1;\n" * 998 + "emit x1 at U;\n" + others,
        "most2.certificates": f"certificate 2 T\n{pcs}row 2:00000000{label * 63}\n{row * 999}{blocks}",
        "full": "\n" * MOST_BYTES,
        "long": "\n" * (MOST_BYTES + 1),
    }
    shared = parent / "shared"
    for folder in folders:
        shutil.copytree(folder, shared, dirs_exist_ok=True)
    for name, text in texts.items():
        (shared / name).write_text(text)
    return shared


class Room:
    """A folder that the program runs in, with the files of the tables and the store that the last command left."""

    def __init__(self, program: Path, shared: Path, parent: Path) -> None:
        """A new room, with links to the files that all rooms share."""
        self.program, self.folder = program, Path(tempfile.mkdtemp(dir=parent))
        self.is_left = self.is_read = False
        for path in shared.iterdir():
            (self.folder / path.name).symlink_to(path)

    def put(self, name: str, data: bytes) -> None:
        """Makes a file."""
        path = self.folder / name
        path.unlink(missing_ok=True)
        path.write_bytes(data)

    def read(self, name: str) -> bytes:
        """The bytes of a file."""
        return (self.folder / name).read_bytes()

    def drop_store(self, name: str) -> None:
        """Removes the files of a store."""
        for end in ("", "-wal", "-journal", "-shm"):
            (self.folder / (name + end)).unlink(missing_ok=True)

    def run(self, words: list[str], typed: bytes, terminals: Collection[int] = ()) -> Written:
        """What a command writes that reads these bytes; standard input (0) and standard error (2) may be terminals."""
        store = store_word(words)
        if store is not None and (self.folder / store).is_symlink() and (self.folder / store).is_file():
            # A copy of a file that all rooms share: no command waits for a lock that one in another room has.
            self.put(store, self.read(store))
        return talk([str(self.program), *words[1:]], self.folder, typed, terminals)

    def run_script(self, words: list[str], script: bytes) -> Written:
        """What a command writes whose script is its standard input too."""
        self.put("script", script)
        return self.run(words, script)

    def run_over(self, words: list[str], script: bytes, terminals: Collection[int] = ()) -> Written:
        """The same, where the stores `new` and `beside` are empty, `table` has a table of others, `left` is what the
        last one but `beside` left."""
        self.put("script", script)
        name = store_word(words)
        if name is None:
            return self.run(words, script, terminals)
        path = name if name == "left" and self.is_left else "none/" + name
        if name in ("new", "beside", "table"):
            path = "begun"
            self.drop_store(path)
            if name == "table":
                with contextlib.closing(sqlite3.connect(self.folder / path)) as connection:
                    connection.execute("CREATE TABLE t (a)")
        written = self.run([path if word == name else word for word in words], script, terminals)
        if name in ("new", "table") and (self.folder / path).exists():
            self.keep(path)
        return written

    def keep(self, name: str) -> None:
        """Makes a store the one that is left."""
        self.drop_store("left")
        for path in self.folder.glob(f"{name}*"):
            path.rename(self.folder / path.name.replace(name, "left"))
        self.is_left = True


def store_word(words: list[str]) -> str | None:
    """The word behind `--store`."""
    return next((name for word, name in zip(words, words[1:]) if word == "--store"), None)


class Terminal:
    """A terminal that passes all bytes as they are; a second in which nothing is typed is the end."""

    def __init__(self) -> None:
        self.ours, self.theirs = os.openpty()
        tty.setraw(self.theirs)
        modes = termios.tcgetattr(self.theirs)
        modes[6][termios.VMIN], modes[6][termios.VTIME] = 0, 10
        termios.tcsetattr(self.theirs, termios.TCSANOW, modes)

    def type(self, typed: bytes | memoryview) -> memoryview:
        """Types as much of these bytes as fits there, and gives back the rest."""
        os.set_blocking(self.ours, False)
        left = memoryview(typed)
        with contextlib.suppress(BlockingIOError):
            while left:
                left = left[os.write(self.ours, left):]
        return left

    def type_rest(self, left: memoryview, child: subprocess.Popen[bytes]) -> None:
        """Types what is left, as far as somebody reads it."""
        while left and child.poll() is None:
            left = self.type(left)
            time.sleep(0.001)
        child.wait()
        os.close(self.ours)

    def read(self) -> bytes:
        """Reads what is written there, to its end."""
        read = b""
        # It is an error to read where the other end is closed.
        with contextlib.suppress(OSError):
            while data := os.read(self.ours, 65536):
                read += data
        os.close(self.ours)
        return read


def talk(words: list[str], folder: Path, typed: bytes, terminals: Collection[int]) -> Written:
    """One run of a program in a folder: what it writes where these bytes are typed."""
    typing, told = (Terminal() if stream in terminals else None for stream in (0, 2))
    ends = [terminal.theirs if terminal else subprocess.PIPE for terminal in (typing, told)]
    # Before anybody reads: a machine that is busy for a second is no end.
    left = typing.type(typed) if typing else b""
    child = subprocess.Popen(words, cwd=folder, stdin=ends[0], stdout=subprocess.PIPE, stderr=ends[1])
    for terminal in (typing, told):
        if terminal:
            os.close(terminal.theirs)
    with ThreadPoolExecutor(2) as others:
        if typing:
            others.submit(typing.type_rest, left, child)
        read = others.submit(told.read) if told else None
        try:
            out, err = child.communicate(None if typing else typed, SECONDS)
        except subprocess.TimeoutExpired:
            child.kill()
            out, err = child.communicate()
    return Written(child.returncode, out, read.result() if read else err)
