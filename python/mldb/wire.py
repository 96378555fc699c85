"""Lines to a program or a gateway, and its answers: each is all up to a mark, a line that begins with `=`."""

import os
import shutil
import socket
import subprocess
import tempfile
import threading
from collections import deque
from collections.abc import Callable, Sequence
from functools import partial

from mldb.errors import OperationalError

CHUNK = 1 << 18
UNDER_WAY = 64
END_SECONDS = 30


class Wire:
    """One conversation, which several connections and threads may share: each exchange is whole.

    An exchange that was interrupted while it waited leaves answers that nobody reads: the next one passes over them.
    One that was interrupted while it sent leaves a line that nobody knows: then the wire is cut. `_read` is a function
    of C: an interruption comes before it or behind what keeps its bytes."""

    _read: Callable[[int], bytes]
    _write: Callable[[bytes], None]

    def __init__(self):
        self._lock = threading.RLock()
        self._parts: deque[bytes] = deque()
        self._unread = bytearray()
        self._owed = 0
        self._is_sending = False
        self._cut: str | None = None

    def converse(self, lines: Sequence[bytes], is_bad: Callable[[bytes], bool] | None = None,
                 under_way: int = UNDER_WAY) -> list[bytes]:
        """The answers to lines, of which at most some are under way. Where `is_bad` is given, the first is answered
        before others are sent, and none is sent after a bad answer: then there are fewer answers than lines. An error
        of a wire that is cut has how many were sent, and the answers that came."""
        answers: list[bytes] = []
        sent, most, half = 0, len(lines), max(1, under_way // 2)
        with self._lock:
            self._pass_over()
            try:
                while len(answers) < most:
                    if sent < most and sent - len(answers) <= under_way - half:
                        before, sent = sent, min(1 if is_bad and not sent else sent + half, most)
                        self._send(lines[before:sent])
                    answers.append(self._answer())
                    if is_bad and is_bad(answers[-1]):
                        most = sent
            except OperationalError as fault:
                fault.asked, fault.answered = sent, answers
                raise
        return answers

    def send_first(self, line: bytes) -> None:
        """Sends a line that has no answer."""
        self._send([line])
        self._owed -= 1

    def close(self) -> None:
        """Hangs up."""
        self._cut = self._cut or "the connection is closed"
        self._hang_up()

    def _pass_over(self) -> None:
        """Reads the answers that nobody waits for any more."""
        if self._is_sending and self._cut is None:
            self._cut = "the connection was interrupted while a line was sent: connect again"
        if self._cut is not None:
            raise OperationalError(self._cut)
        while self._owed:
            self._answer()

    def _send(self, lines: Sequence[bytes]) -> None:
        self._is_sending = True
        try:
            self._write(b"".join(lines))
        except OSError as fault:
            self._end(fault)
        self._owed += len(lines)
        self._is_sending = False

    def _answer(self) -> bytes:
        """The next answer, with its mark."""
        seen = 0
        while True:
            while self._parts:
                self._unread += self._parts.popleft()
            mark = 0 if self._unread.startswith(b"=") else self._unread.find(b"\n=", seen) + 1
            end = self._unread.find(b"\n", mark) + 1 if mark or self._unread.startswith(b"=") else 0
            if end:
                answer = bytes(self._unread[:end])
                del self._unread[:end]
                self._owed -= 1
                return answer
            seen = mark - 1 if mark else max(0, len(self._unread) - 1)
            self._more()

    def _more(self) -> None:
        """Waits for bytes. They are read and kept within one call of C, where no interruption comes between."""
        try:
            self._parts.extend(map(self._read, (CHUNK,)))
        except OSError as fault:
            self._end(fault)
        if self._parts and not self._parts[-1]:
            self._end(None)

    def _end(self, fault: OSError | None) -> None:
        self._cut = self._why(fault)
        raise OperationalError(self._cut) from fault

    def _hang_up(self) -> None:
        raise NotImplementedError

    def _why(self, fault: OSError | None) -> str:
        raise NotImplementedError


class SocketWire(Wire):
    """A gateway at a socket of the machine."""

    def __init__(self, path: str, timeout: float | None):
        super().__init__()
        self._path = path
        self._socket = socket.socket(socket.AF_UNIX)
        self._socket.settimeout(timeout)
        try:
            self._socket.connect(path)
        except OSError as fault:
            self._socket.close()
            told = f"{path}: {fault.strerror or fault}: is the gateway at work, and may you use its socket?"
            raise OperationalError(told) from fault
        self._read = self._socket.recv
        self._write = self._socket.sendall

    def _hang_up(self) -> None:
        self._socket.close()

    def _why(self, fault: OSError | None) -> str:
        if isinstance(fault, TimeoutError):
            return f"{self._path}: no answer in time: what was sent may be done; connect again"
        why = f" ({fault.strerror})" if fault else ""
        return f"{self._path}: the gateway hung up{why}: what was sent may be done; connect again"


class ProcessWire(Wire):
    """A command that was started. Ctrl-C does not end it: it ends where its input does."""

    def __init__(self, command: Sequence[str], timeout: float | None = None):
        super().__init__()
        if shutil.which(command[0]) is None:
            raise OperationalError(f"{command[0]}: there is no such program: give its path")
        self._errors = tempfile.TemporaryFile()  # noqa: SIM115 (closed by _hang_up)
        words = ["/bin/sh", "-c", "trap '' INT; exec \"$@\"", "sh", *command]
        self._command = command[0]
        self._process = subprocess.Popen(words, bufsize=0, stdin=subprocess.PIPE, stdout=subprocess.PIPE,
                                         stderr=self._errors)
        assert self._process.stdin and self._process.stdout
        self._to, self._from = self._process.stdin, self._process.stdout
        self._read = partial(os.read, self._from.fileno())
        self._write = self._write_all

    def _write_all(self, data: bytes) -> None:
        view = memoryview(data)
        while view:
            view = view[os.write(self._to.fileno(), view):]

    def _hang_up(self) -> None:
        self._to.close()
        self._wait()
        self._from.close()
        self._errors.close()

    def _wait(self) -> int:
        """The status, of a program that has time to close its store."""
        try:
            return self._process.wait(END_SECONDS)
        except subprocess.TimeoutExpired:
            self._process.kill()
            return self._process.wait()

    def _why(self, fault: OSError | None) -> str:
        self._to.close()
        status = self._wait()
        self._errors.seek(0)
        words = self._errors.read().decode(errors="backslashreplace").strip()
        return f"{self._command} ended with status {status}: {words or 'it said nothing'}"
