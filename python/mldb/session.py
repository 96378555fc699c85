"""A session of one user at one label: its commands, and the lines of their replies."""

import re
from collections.abc import Callable, Sequence

from mldb import errors
from mldb.errors import DataError, InterfaceError, InternalError, ProgrammingError
from mldb.wire import UNDER_WAY, Wire

NAME = re.compile(r"[A-Za-z][A-Za-z0-9_]{0,31}\Z")
LINE_BYTES = 1 << 20
ALREADY_OPEN, EXPECTED, UNKNOWN_NAME = 32, 22, 23


def decoded(answer: bytes) -> str:
    """An answer as a text."""
    try:
        return answer.decode()
    except UnicodeDecodeError as fault:
        raise InternalError(f"{answer[:40]!r}..: an answer is UTF-8") from fault


class Session:
    """What is said over a wire in the name of one user at one label. `front` is what the program wants before each
    command; a gateway says it itself."""

    def __init__(self, wire: Wire, label: str, user: str, is_gateway: bool):
        for what, name in (("label", label), ("user", user)):
            if not isinstance(name, str) or not NAME.match(name):
                raise InterfaceError(f"{what} {name!r}: a name is a letter and up to 31 letters, digits or _")
        self.wire, self.label, self.user = wire, label, user
        self.front = "" if is_gateway else f"{label} {user} "
        self.spoken = len(f"{label} {user} ")
        if is_gateway:
            wire.send_first(f"{label}\n".encode())

    def open(self) -> None:
        """Opens the session where it is not open. `audit` asks without an entry in the audit list, which a denied
        opening makes."""
        try:
            first = self.ask("audit")[:1]
            if not all(line.startswith(f"{self.label} {self.label}/{self.user} ") for line in first):
                raise InterfaceError(f"the gateway knows you by another name than {self.user}: give user=")
            if any(line.endswith(" denied 31 NoSession") for line in first):
                self.command(f"open {self.user}")
        except ProgrammingError as fault:
            if fault.code == UNKNOWN_NAME:
                raise InterfaceError(f"{self.label}: the policy has no such label") from fault
            if fault.code == EXPECTED:
                raise InterfaceError(f"the gateway knows you by another name than {self.user}: give user=") from fault
            raise errors.OperationalError(f"the gateway refuses: {fault}", told=fault.words) from fault
        except errors.OperationalError as fault:
            if fault.code != ALREADY_OPEN:
                raise

    def encoded(self, command: str) -> bytes:
        """A command as a line. What is no line is refused."""
        if not isinstance(command, str) or "\n" in command:
            raise DataError(f"{command!r}: a command is one line, without a line feed")
        try:
            line = f"{self.front}{command}\n".encode()
        except UnicodeEncodeError as fault:
            raise DataError(f"{command!r}: half a character, which is no UTF-8") from fault
        if len(line) + self.spoken - len(self.front) > LINE_BYTES:
            raise DataError(f"{command[:40]!r}..: a line has at most {LINE_BYTES} bytes")
        return line

    def ask(self, command: str) -> list[str]:
        """The lines of the answer to a command, as they were printed. A command that is not understood raises
        ProgrammingError; a denied or refused one has its line."""
        return self.lines(self.wire.converse([self.encoded(command)])[0])

    def lines(self, answer: bytes) -> list[str]:
        """The lines of an answer without its mark."""
        *lines, mark, end = decoded(answer).split("\n")
        if end or not mark.startswith("="):
            raise InternalError(f"{mark!r}: no mark ends the answer")
        if mark != "=":
            raise errors.of_mark(mark[2:], self.spoken)
        return lines

    def command(self, command: str) -> list[str]:
        """What the lines of the reply to a command say, without their first two words. A denied or refused one raises
        its error."""
        return self.told(self.ask(command))

    def told(self, lines: list[str]) -> list[str]:
        """What lines of a reply say. That of one which is denied or refused is raised."""
        try:
            texts = [line.split(" ", 2)[2] for line in lines]
        except IndexError as fault:
            raise InternalError(f"{lines!r:.200}: a line of a reply begins with two words") from fault
        refusal = errors.of_reply(texts[0]) if texts else None
        if refusal:
            raise refusal
        return texts

    def views(self, commands: Sequence[str]) -> list[bytes]:
        """The answers to views. Several are asked as a batch: they are of one moment."""
        if len(commands) < 2:
            return self.answers(commands)
        [answer] = self.answers([f"all {{ {'; '.join(commands)} }}"])
        heading = f"\n{self.label} {self.label}/{self.user} view ".encode()
        first, *found = (b"\n" + answer.removesuffix(b"\n=\n")).split(heading)
        if first or len(found) != len(commands) or not answer.endswith(b"\n=\n"):
            self.told(self.lines(answer))
            raise InternalError(f"{len(found)} views of {len(commands)}: a batch answers each of its commands")
        return [heading[1:] + one + b"\n=\n" for one in found]

    def answers(self, commands: Sequence[str], is_bad: Callable[[bytes], bool] | None = None,
                under_way: int = UNDER_WAY) -> list[bytes]:
        """The answers to commands, of which some are under way; where `is_bad` is given, up to a bad one and those that
        were sent with it."""
        return self.wire.converse([self.encoded(one) for one in commands], is_bad, under_way)
