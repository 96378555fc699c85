"""Messages of PostgreSQL's protocol 3.0: what comes is read and checked here, what goes is made here."""

from __future__ import annotations

import contextlib
import socket
import struct
from collections.abc import Iterable, Sequence
from dataclasses import dataclass

PROTOCOL = 3 << 16
CANCEL, SSL, GSS = 80877102, 80877103, 80877104
MOST_BYTES = 64 << 20
MOST_STARTUP_BYTES = 10_000
END_SECONDS, END_READS = 0.5, 64


class WireFault(Exception):
    """Bytes that are no message of the protocol: the connection cannot go on."""


class Gone(Exception):
    """The other side hung up."""


@dataclass(frozen=True)
class Startup:
    """The first message of a connection: a request of `code`, and the words behind it."""

    code: int
    words: dict[str, str]
    rest: bytes = b""


class Payload:
    """The bytes of one message, taken from the front."""

    def __init__(self, data: bytes) -> None:
        self.data, self.at = data, 0

    def take(self, size: int) -> bytes:
        """The next `size` bytes."""
        if size < 0 or self.at + size > len(self.data):
            raise WireFault("a message ends before its last field")
        self.at += size
        return self.data[self.at - size : self.at]

    def int16(self) -> int:
        """The next number of 16 bits, signed."""
        return struct.unpack("!h", self.take(2))[0]

    def int32(self) -> int:
        """The next number of 32 bits, signed."""
        return struct.unpack("!i", self.take(4))[0]

    def count(self) -> int:
        """The next number of 16 bits, unsigned, as libpq counts parameters."""
        return struct.unpack("!H", self.take(2))[0]

    def text(self) -> str:
        """The next text, up to its zero byte."""
        end = self.data.find(b"\0", self.at)
        if end < 0:
            raise WireFault("a text without its zero byte")
        found = self.take(end - self.at)
        self.at += 1
        return decoded(found)

    def value(self) -> bytes | None:
        """The next value with its length; None is null."""
        size = self.int32()
        return None if size == -1 else self.take(size)

    def rest(self) -> bytes:
        """All that is left."""
        return self.take(len(self.data) - self.at)

    def end(self) -> None:
        """Nothing may be left."""
        if self.at != len(self.data):
            raise WireFault("a message goes on behind its last field")


def decoded(data: bytes) -> str:
    """Bytes as UTF-8."""
    try:
        return data.decode()
    except UnicodeDecodeError as fault:
        raise WireFault(f"bytes that are not UTF-8 ({fault.reason})") from fault


def message(kind: bytes, *parts: bytes) -> bytes:
    """One message of a server."""
    body = b"".join(parts)
    return kind + struct.pack("!i", len(body) + 4) + body


def zero_ended(text: str) -> bytes:
    """A text with its zero byte; a zero inside would cut it, so it is shown."""
    return text.replace("\0", "\\x00").encode(errors="backslashreplace") + b"\0"


@dataclass(frozen=True)
class Column:
    """A column as a client is told of it."""

    name: str
    type_oid: int
    size: int


def row_description(columns: Sequence[Column]) -> bytes:
    """The names and types of the rows that come."""
    parts = [struct.pack("!H", len(columns))]
    for one in columns:
        parts.append(zero_ended(one.name) + struct.pack("!ihihih", 0, 0, one.type_oid, one.size, -1, 0))
    return message(b"T", *parts)


def parameter_description(types: Sequence[int]) -> bytes:
    """The types of the parameters of a prepared statement."""
    return message(b"t", struct.pack("!H", len(types)), *(struct.pack("!i", one) for one in types))


def data_row(values: Iterable[bytes | None], count: int) -> bytes:
    """One row; None is null."""
    parts = [struct.pack("!H", count)]
    for one in values:
        parts.append(struct.pack("!i", -1) if one is None else struct.pack("!i", len(one)) + one)
    return message(b"D", *parts)


def error(
    state: str, text: str, *, severity: str = "ERROR", hint: str = "", detail: str = "", position: int = 0
) -> bytes:
    """A fault, as libpq shows it. `position` counts characters of the query from 1; 0 where it is unknown."""
    fields = [b"S", zero_ended(severity), b"V", zero_ended(severity), b"C", zero_ended(state), b"M", zero_ended(text)]
    for letter, value in ((b"D", detail), (b"H", hint), (b"P", str(position) if position else "")):
        if value:
            fields += [letter, zero_ended(value)]
    return message(b"E", *fields, b"\0")


def notice(state: str, text: str) -> bytes:
    """A warning: what was asked is done all the same."""
    fields = [b"S", zero_ended("WARNING"), b"V", zero_ended("WARNING"), b"C", zero_ended(state), b"M", zero_ended(text)]
    return message(b"N", *fields, b"\0")


def copy_response(kind: bytes, columns: int) -> bytes:
    """Rows go by COPY from now on: `G` to the server, `H` to the client, in text."""
    return message(kind, struct.pack("!bH", 0, columns), struct.pack("!h", 0) * columns)


def parameter_status(name: str, value: str) -> bytes:
    """A setting that a client is told of."""
    return message(b"S", zero_ended(name), zero_ended(value))


class Wire:
    """One connection: messages in and out. What goes is kept until `flush`."""

    def __init__(self, door: socket.socket) -> None:
        self.door, self.kept = door, bytearray()
        self.lines = door.makefile("rb")

    def exactly(self, size: int) -> bytes:
        """The next `size` bytes of the connection."""
        try:
            found = self.lines.read(size)
        except OSError as fault:
            raise Gone from fault
        if len(found) != size:
            raise Gone
        return found

    def startup(self) -> Startup:
        """The first message of a connection, which has no letter."""
        size = struct.unpack("!i", self.exactly(4))[0]
        if not 8 <= size <= MOST_STARTUP_BYTES:
            raise WireFault(f"a first message of {size} bytes")
        payload = Payload(self.exactly(size - 4))
        code = payload.int32()
        words: dict[str, str] = {}
        while code >> 16 == PROTOCOL >> 16 and (name := payload.text()):
            words[name] = payload.text()
        return Startup(code, words, payload.rest())

    def receive(self) -> tuple[bytes, Payload]:
        """The next message: its letter and its bytes."""
        kind = self.exactly(1)
        size = struct.unpack("!i", self.exactly(4))[0]
        if not 4 <= size <= MOST_BYTES:
            raise WireFault(f"a message of {size} bytes: there are at most {MOST_BYTES}")
        return kind, Payload(self.exactly(size - 4))

    def send(self, data: bytes) -> None:
        """Keeps a message for the client; a lot goes at once."""
        self.kept += data
        if len(self.kept) > 1 << 16:
            self.flush()

    def flush(self) -> None:
        """What is kept goes to the client."""
        try:
            self.door.sendall(self.kept)
        except OSError as fault:
            raise Gone from fault
        finally:
            self.kept.clear()

    def end(self) -> None:
        """Lets the client read what was sent last, though it may have sent more than was read."""
        with contextlib.suppress(OSError):
            self.door.shutdown(socket.SHUT_WR)
            self.door.settimeout(END_SECONDS)
            for _ in range(END_READS):
                if not self.door.recv(1 << 16):
                    return
