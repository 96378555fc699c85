"""What mlstream says to its own nats-server: some words of the protocol, with the standard library. A stream of
JetStream is a log that several servers keep; a line of it has a number, and is acknowledged when most of them have it.
It is read from whichever server's copy JetStream takes."""

import collections
import json
import os
import socket
import time

STREAM, SUBJECT = "MLDB", "mldb.lines"
SECONDS = 3
# JetStream's numbers: no such stream; a server could not write the line, and others may have done so.
NOT_THERE, NOT_WRITTEN = 10059, 10077


class Unavailable(Exception):
    """The line is not taken, and will not be."""


class Unknown(Exception):
    """Nobody said whether the line is taken."""


class Elsewhere(Exception):
    """Another server's copy is read than was wanted."""


class Gone(Exception):
    """The stream is not there, or another one is."""


class Server:
    """A connection to one server."""

    def __init__(self, address):
        host, port = address.rsplit(":", 1)
        self.socket = socket.create_connection((host, int(port)), timeout=SECONDS)
        self.file, self.count = self.socket.makefile("rb"), 0
        words = {"verbose": False, "pedantic": False, "headers": True, "no_responders": True, "protocol": 1}
        if "MLDB_STREAM_TOKEN" in os.environ:
            words["auth_token"] = os.environ["MLDB_STREAM_TOKEN"]
        self.name = json.loads(self.line().partition(b" ")[2])["server_name"]
        self.socket.sendall(b"CONNECT " + json.dumps(words).encode() + b"\r\nPING\r\n")
        while self.line() != b"PONG":
            pass
        self.box = self.subscribe()

    def close(self):
        self.file.close()
        self.socket.close()

    def line(self):
        line = self.file.readline()
        if not line.endswith(b"\n"):
            raise ConnectionError("the server has gone")
        if line.startswith(b"-ERR"):
            raise ConnectionError(line.decode(errors="replace").strip())
        return line.strip()

    def subscribe(self, subject=None):
        """A subject whose messages come from now on; one of one's own where none is named."""
        self.count += 1
        subject = subject or f"_INBOX.{os.urandom(12).hex()}"
        self.socket.sendall(f"SUB {subject} {self.count}\r\n".encode())
        return subject

    def publish(self, subject, data, reply="", headers=None):
        if headers is None:
            head = f"PUB {subject} {reply} {len(data)}\r\n".encode()
        else:
            fields = "".join(f"{name}: {value}\r\n" for name, value in headers.items())
            told = f"NATS/1.0\r\n{fields}\r\n".encode()
            head, data = f"HPUB {subject} {reply} {len(told)} {len(told) + len(data)}\r\n".encode(), told + data
        self.socket.sendall(head + data + b"\r\n")

    def next(self):
        """The next message: its reply subject, its first line of headers where it has some, and its data."""
        while True:
            words = self.line().split()
            if words[:1] == [b"PING"]:
                self.socket.sendall(b"PONG\r\n")
            elif words[:1] == [b"MSG"]:
                size = int(words[-1])
                return (words[3].decode() if len(words) == 5 else ""), b"", self.file.read(size + 2)[:size]
            elif words[:1] == [b"HMSG"]:
                top, size = int(words[-2]), int(words[-1])
                data = self.file.read(size + 2)[:size]
                return (words[3].decode() if len(words) == 6 else ""), data.split(b"\r\n")[0], data[top:]

    def ask(self, subject, data=b"", headers=None):
        """The answer to a request. Where nobody is there to take it, it is not taken."""
        self.publish(subject, data, self.box, headers)
        _, status, answer = self.next()
        if status.startswith(b"NATS/1.0 503"):
            raise Unavailable("no server of the stream is there")
        found = json.loads(answer)
        if "error" in found:
            why, number = found["error"].get("description", "refused"), found["error"].get("err_code")
            raise {NOT_THERE: Gone, NOT_WRITTEN: Unknown}.get(number, Unavailable)(why)
        return found

    def follow(self, first):
        """The lines from a number on, each with its number; None where there is none for a second. It ends where a
        server has gone. Which server's copy is read is the server's choice: its name comes first, with no number."""
        box = self.subscribe()
        config = {
            "deliver_subject": box,
            "deliver_policy": "by_start_sequence",
            "opt_start_seq": first,
            "ack_policy": "none",
            "replay_policy": "instant",
            "idle_heartbeat": 1_000_000_000,
        }
        data = json.dumps({"stream_name": STREAM, "config": config}).encode()
        self.publish(f"$JS.API.CONSUMER.CREATE.{STREAM}", data, box)
        held, is_named = collections.deque(), False
        while True:
            reply, status, data = self.next()
            if reply.startswith("$JS.ACK."):
                words = reply.split(".")
                held.append((int(words[5 if len(words) == 9 else 7]), data))
            elif status.startswith(b"NATS/1.0 503") or not status and b'"error"' in data[:200]:
                raise ConnectionError("the stream is not there")
            elif status:
                yield None, b""
            else:
                is_named = True
                yield None, json.loads(data).get("cluster", {}).get("leader", "").encode()
            while is_named and held:
                number, data = held.popleft()
                if number > first:
                    raise ConnectionError(f"line {number} came for line {first}")
                if number == first:
                    yield number, data
                    first += 1


class Log:
    """The stream, by a connection that is made again where it broke."""

    def __init__(self, address, replicas):
        self.address, self.replicas, self.server = address, replicas, None

    def connected(self):
        if self.server is None:
            self.server = Server(self.address)
        return self.server

    def drop(self):
        if self.server is not None:
            self.server.close()
        self.server = None

    def tries(self, work, seconds):
        """What some work gives, tried again for some seconds. A server that has just begun may not know the stream
        yet."""
        until, was_sent, why, gone = time.monotonic() + seconds, False, "the server is not there", None
        while time.monotonic() < until:
            before = was_sent
            try:
                server = self.connected()
                was_sent = True
                return work(server)
            except Gone:
                was_sent, gone = before, gone or time.monotonic()
                if time.monotonic() > gone + SECONDS:
                    raise
                time.sleep(0.5)
                continue
            except Unavailable as fault:
                was_sent, why = before, str(fault)
            except (OSError, ValueError, Unknown) as fault:
                why = str(fault)
            gone = None
            self.drop()
            time.sleep(0.05)
        raise (Unknown if was_sent else Unavailable)(why)

    def put(self, data, name, seconds):
        """The number of a line that is kept by most servers, and whether it was so before. A line that is said again
        with its name is kept once."""
        answer = self.tries(lambda server: server.ask(SUBJECT, data, {"Nats-Msg-Id": name}), seconds)
        return answer["seq"], answer.get("duplicate", False)

    def last(self, seconds):
        """The number of the last line."""
        return self.tries(lambda server: server.ask(f"$JS.API.STREAM.INFO.{STREAM}")["state"]["last_seq"], seconds)

    def make(self, seconds):
        """The stream, if it is not there."""
        config = {
            "name": STREAM,
            "subjects": [SUBJECT],
            "retention": "limits",
            "storage": "file",
            "num_replicas": self.replicas,
            "discard": "new",
            "duplicate_window": 120_000_000_000,
            "max_msgs": -1,
            "max_bytes": -1,
            "max_age": 0,
            "deny_delete": True,
            "deny_purge": True,
        }
        return self.tries(
            lambda server: server.ask(f"$JS.API.STREAM.CREATE.{STREAM}", json.dumps(config).encode()), seconds
        )
