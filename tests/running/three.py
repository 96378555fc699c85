"""Three machines with one log, on the loopback: each a gateway, mlstream and `mldb serve` beside a nats-server, as the
samples of configurations have them. What stands between two servers may be stopped, so that neither hears of the
other."""

import contextlib
import hashlib
import importlib.machinery
import importlib.util
import json
import os
import re
import shutil
import signal
import socket
import subprocess
import sys
import time

from machine import ROOT, open_gate

THERE = "is there, at line"


def free_ports(count):
    """Ports that nobody listens at."""
    doors = [socket.socket() for _ in range(count)]
    for door in doors:
        door.bind(("127.0.0.1", 0))
    ports = [door.getsockname()[1] for door in doors]
    for door in doors:
        door.close()
    return ports


# What stands between two servers. While it is stopped, neither hears of the other.
BETWEEN = """
import asyncio, sys
async def pass_on(reader, writer):
    try:
        while data := await reader.read(1 << 16):
            writer.write(data)
            await writer.drain()
    except OSError:
        pass
    writer.close()
async def open(port, target):
    async def take(reader, writer):
        try:
            other = await asyncio.open_connection("127.0.0.1", target)
        except OSError:
            return writer.close()
        await asyncio.gather(pass_on(reader, other[1]), pass_on(other[0], writer))
    await asyncio.start_server(take, "127.0.0.1", port)
async def main():
    for pair in sys.argv[1:]:
        await open(*map(int, pair.split(":")))
    await asyncio.Event().wait()
asyncio.run(main())
"""


class Cluster:
    """Three servers and three machines, in a folder."""

    def __init__(self, checks, folder, stream, mldb, patience=240):
        self.checks, self.expect, self.patience = checks, checks.expect, patience
        self.folder, self.stream, self.mldb = folder, stream, mldb
        os.chmod(folder, 0o755)
        ports = free_ports(12)
        self.ports, self.routes, self.begun = ports[:3], ports[3:6], [0] * 3
        self.servers, self.gates, self.mended, self.taken, self.is_healed = [None] * 3, [None] * 3, 0, [], False
        self.ways = dict(zip([(a, b) for a in range(3) for b in range(3) if a != b], ports[6:]))
        self.between = {(a, b): self.stand_between(a, b) for a, b in self.ways if a < b}
        for place, name in enumerate("abc"):
            os.makedirs(f"{folder}/{name}/copies")
            os.chmod(f"{folder}/{name}", 0o755)
            for file in ("policy.toml", "schemes.toml"):
                shutil.copy(f"{ROOT}/samples/{file}", f"{folder}/{name}")
            self.certify(place)
            self.configure(place, name)

    def certify(self, place):
        """A certificate of an authority that the three have."""
        home, three = f"{self.folder}/{'abc'[place]}/this", f"{self.folder}/three"
        subject = ["-subj", "/CN=127.0.0.1", "-newkey", "rsa:2048", "-nodes", "-days", "2"]
        authority = ["req", "-x509", *subject, "-keyout", f"{three}.key", "-out", f"{three}.pem"]
        asked = ["-addext", "subjectAltName=IP:127.0.0.1", "-keyout", f"{home}.key", "-out", f"{home}.csr"]
        signed = ["-CA", f"{three}.pem", "-CAkey", f"{three}.key", "-CAcreateserial", "-copy_extensions", "copy"]
        for words in [
            *([] if place else [authority]),
            ["req", *subject, *asked],
            ["x509", "-req", "-in", f"{home}.csr", *signed, "-out", f"{home}.pem"],
        ]:
            subprocess.run(["openssl", *words], check=True, stderr=subprocess.DEVNULL)

    def stand_between(self, a, b):
        pairs = [f"{self.ways[one]}:{self.routes[one[1]]}" for one in ((a, b), (b, a))]
        return subprocess.Popen([sys.executable, "-c", BETWEEN, *pairs], process_group=0)

    def cut_off(self, place, number=signal.SIGSTOP):
        """A server that hears of no other, and of which no other hears; its machine and its people are beside it."""
        for pair, process in self.between.items():
            if place in pair:
                process.send_signal(number)

    def configure(self, place, name):
        """The samples' configuration, with the ports of here."""
        with open(f"{ROOT}/samples/running/cluster/server.conf", encoding="utf-8") as file:
            text = file.read()
        routes = ", ".join(f"nats://127.0.0.1:{port}" for pair, port in self.ways.items() if pair[0] == place)
        for old, new in [
            (r"(?m)^listen: .*", f"listen: 127.0.0.1:{self.ports[place]}"),
            (r"store_dir: \S+", f'store_dir: "{self.folder}/{name}/stream",'),
            (r"listen: 0\.0\.0\.0:\d+", f"listen: 127.0.0.1:{self.routes[place]}"),
            # By another way than those between the servers nobody is reached.
            (r"routes: \[.*\]", f'routes: [{routes}]\n  advertise: "127.0.0.1:1"'),
            (r"/etc/nats/this", f"{self.folder}/{name}/this"), (r"/etc/nats/three", f"{self.folder}/three"),
        ]:
            text, count = re.subn(old, new, text)
            assert count, old
        with open(f"{self.folder}/{name}/server.conf", "w", encoding="utf-8") as file:
            file.write(text)
        shutil.copy(f"{ROOT}/samples/running/cluster/{name}.conf", f"{self.folder}/{name}")

    def start_server(self, place):
        name = "abc"[place]
        log = open(f"{self.folder}/{name}/server.log", "ab")
        self.servers[place] = subprocess.Popen(
            ["nats-server", "-c", f"{self.folder}/{name}/{name}.conf"],
            stdout=log,
            stderr=log,
            process_group=0,
            env=os.environ | {"MLDB_STREAM_TOKEN": "secret"},
        )

    def start(self, place, store="fleet.db"):
        """A gateway with what stands behind it, as the sample of a unit has it."""
        name, home = "abc"[place], f"{self.folder}/{'abc'[place]}"
        if os.path.exists(f"{home}/sock"):
            os.remove(f"{home}/sock")
        with open(f"{ROOT}/samples/running/cluster/machine.conf", encoding="utf-8") as file:
            words = re.findall(r"ExecStart=(\S+ .*)", file.read())[-1].split()
        here = {
            "/run/mldb/sock": f"{home}/sock",
            "/usr/local/bin/mlstream": self.stream,
            "a": name,
            "127.0.0.1:4222": f"127.0.0.1:{self.ports[place]}",
            "/usr/local/bin/mldb": self.mldb,
            "fleet.db": store,
            "/var/lib/mldb/users": f"{home}/users",
        }
        words = [here.get(word, word) for word in words]
        assert set(here.values()) <= set(words), words
        open(f"{home}/users", "a", encoding="utf-8").close()
        os.environ["MLDB_STREAM_TOKEN"] = "secret"
        self.begun[place] = self.log(place).count(THERE)
        self.gates[place] = open_gate(
            f"{ROOT}/samples/running/mlgate", words[1:], home, f"{home}/sock", open(f"{home}/log", "ab")
        )

    def are_there(self, *places):
        return all(self.log(place).count(THERE) > self.begun[place] for place in places)

    def log(self, place):
        if not os.path.exists(f"{self.folder}/{'abc'[place]}/log"):
            return ""
        with open(f"{self.folder}/{'abc'[place]}/log", encoding="utf-8", errors="replace") as file:
            return file.read()

    def wait(self, what, is_so):
        until = time.monotonic() + self.patience
        while not is_so() and time.monotonic() < until:
            time.sleep(0.05)
        if not is_so():
            self.expect(what, "not so: " + " | ".join(self.log(place)[-300:] for place in range(3)), True)
        self.checks.count += 1

    def mend(self):
        """What a unit does: a gateway that ended is started again. And what an administrator does: a server's copy that
        is another goes."""
        for place, name in enumerate("abc"):
            words = f"the copy of the server {name} is not what others have read"
            told = sum(words in self.log(other) for other in range(3))
            if told and place not in self.taken and self.is_healed:
                self.taken.append(place)
                self.servers[place].kill()
                self.servers[place].wait()
                shutil.rmtree(f"{self.folder}/{name}/stream")
                self.start_server(place)
                return
        for place in range(3):
            if self.gates[place].poll() is not None:
                self.mended += 1
                subprocess.run(["flock", f"{self.folder}/{'abc'[place]}/lock", "true"], check=False)
                self.start(place)

    def kill(self, place, with_server):
        """What a machine loses when it stops at once."""
        gate = self.gates[place]
        family = family_of(gate.pid) if gate.poll() is None else []
        for pid in family + ([self.servers[place].pid] if with_server else []):
            with contextlib.suppress(ProcessLookupError):
                os.kill(pid, signal.SIGKILL)
        gate.wait()
        if with_server:
            self.servers[place].wait()
        subprocess.run(["flock", f"{self.folder}/{'abc'[place]}/lock", "true"], check=False)

    def end(self, place):
        self.gates[place].terminate()
        return self.gates[place].wait(self.patience)

    def view(self, place):
        """What a machine's closed store has at each label, its audit list too."""
        given = "".join(
            f"{label} {user} open {user}\n{label} {user} dump SOD\n{label} {user} dump CREW\n{label} {user} audit\n"
            for label, user in (("U", "ann"), ("S", "bob"), ("H", "hal"))
        )
        words = [self.mldb, "serve", "--store", "fleet.db", "policy.toml", "schemes.toml"]
        return subprocess.run(
            words, input=given, cwd=f"{self.folder}/{'abc'[place]}", capture_output=True, text=True, check=False
        ).stdout

    def lines(self, wanted=None):
        """All lines of the stream; with a digest those that give it, since a server's copy may differ."""
        jetstream = self.jetstream()
        log, until = jetstream.Log(f"127.0.0.1:{self.ports[0]}", 3), time.monotonic() + self.patience
        while time.monotonic() < until:
            found, last, chain = [], log.last(self.patience), ""
            try:
                for number, data in log.connected().follow(1):
                    if number is not None:
                        found.append(data)
                        chain = hashlib.sha256(chain.encode() + data).hexdigest()[:32]
                    is_there = number is not None and wanted == (number, chain)
                    if len(found) >= last or number is None and not data or is_there:
                        break
            except OSError:
                pass
            log.drop()
            if wanted in (None, (len(found), chain)):
                return [data.decode().split(" ", 3) for data in found]
        self.expect("the lines that all have done are in the stream", "not there", wanted)
        return [data.decode().split(" ", 3) for data in found]

    def jetstream(self):
        """The module that mlstream has."""
        loader = importlib.machinery.SourceFileLoader("jetstream", f"{ROOT}/samples/running/cluster/jetstream.py")
        module = importlib.util.module_from_spec(importlib.util.spec_from_loader("jetstream", loader))
        loader.exec_module(module)
        return module

    def states(self):
        """How far each ended machine is, and the digest of what it has read."""
        found = []
        for name in "abc":
            with open(f"{self.folder}/{name}/copies/state", encoding="utf-8") as file:
                state = json.load(file)
                found.append((state["number"], state.get("chain")))
        return found

    def stop(self):
        for process in self.between.values():
            process.send_signal(signal.SIGCONT)
        for process in [*self.gates, *self.servers, *self.between.values()]:
            if process is not None and process.poll() is None:
                for pid in family_of(process.pid):
                    try:
                        os.kill(pid, signal.SIGKILL)
                    except ProcessLookupError:
                        pass
                process.wait()


def family_of(pid):
    """A process and those below it."""
    found = [pid]
    for one in found:
        try:
            with open(f"/proc/{one}/task/{one}/children", encoding="ascii") as file:
                found += [int(word) for word in file.read().split()]
        except OSError:
            pass
    return found
