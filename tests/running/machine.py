"""A folder that stands for a machine, on which the commands of a page are tried; and clients of its gateway.

The account's home, /usr/local/bin and the like are folders of a temporary one. `sudo`, `ssh`, `useradd`, `install`,
`visudo`, `systemctl`, `journalctl` and `nc` are played by a few lines of this module, which read the samples as these
programs do. The account mldb and the people are numbers that the machine does not have; so root is wanted, and what
belongs to one cannot be read by another. With `is_real` the commands run as they stand, each in its user's account, in
a mount namespace whose /etc, /var/lib, /var/backups and /usr/local/bin go with it."""

import os
import re
import shutil
import signal
import subprocess
import sys
import threading
import time

ROOT = os.path.dirname(os.path.dirname(os.path.dirname(os.path.abspath(__file__))))
PROMPT = re.compile(r"([a-z-]+)([$#]) (.*)")
# Accounts cannot start what stands in a folder of root's.
PYTHON = "/usr/bin/python3" if os.path.exists("/usr/bin/python3") else sys.executable
# The paths of the pages, and where they are here.
PLACES = {
    "/var/lib/mldb": "home", "/usr/local/bin": "bin", "/etc/sudoers.d": "sudoers.d", "/var/backups": "backups",
    "/etc/systemd/system": "units", "/run/mldb": "socket",
}
# What the gateway writes before a line.
TIME = re.compile(r'\A"\d{4}-\d\d-\d\dT\d\d:\d\d:\d\dZ" ')
PEOPLE = {"ann": 41001, "bob": 41002, "hal": 41003, "zoe": 41004, "j-smith": 41005}
MLDB_UID = 41000

PLAYED = r'''#!/usr/bin/env python3
import glob, os, re, shlex, signal, socket, subprocess, sys, time
work, caller, (name, *words) = os.environ["WORK"], os.environ["CALLER"], [os.path.basename(sys.argv[0]), *sys.argv[1:]]
path = f"{work}/bin:/usr/bin:/bin"
people, mldb, gate = eval(os.environ["PEOPLE"]), int(os.environ["MLDB_UID"]), os.environ["GATE"]
def become(uid):
    os.setgroups([])
    os.setgid(uid)
    os.setuid(uid)
def run(command, *words):
    os.umask(0o022)
    become(mldb)
    os.execve(command, [command, *words], {"PATH": path})
if name == "sudo":
    assert words[:2] == ["-u", "mldb"]
    command = next((f"{d}/{words[2]}" for d in path.split(":") if os.access(f"{d}/{words[2]}", os.X_OK)), words[2])
    rules = [line.partition(" ALL=(mldb) NOPASSWD: ") for line in open(f"{work}/sudoers.d/mldb") if line[0] != "#"]
    granted = [one for who, _, what in rules if who == caller for one in what.strip().split(", ")]
    if caller != "root" and " ".join([command, *words[3:]]) not in granted:
        sys.exit(f"Sorry, user {caller} is not allowed to execute {' '.join(words[2:])} as mldb")
    if not os.access(command, os.X_OK):
        sys.exit(f"sudo: {words[2]}: command not found")
    run(command, *words[3:])
if name == "ssh":
    for line in open(f"{work}/home/.ssh/authorized_keys"):
        command = re.match(r'restrict,command="([^"]*)" \S+ \S+ (\w+)$', line)
        if command and command[2] == caller:
            run("/bin/sh", "-c", command[1])
    sys.exit("Permission denied (publickey).")
if name == "install":
    os.execv("/usr/bin/install", ["install", *(str(mldb) if word == "mldb" else word for word in words)])
if name == "useradd":
    os.makedirs(f"{work}/home")
    os.chown(f"{work}/home", mldb, mldb)
if name == "nc":
    if caller != "root": become(people[caller])
    with socket.socket(socket.AF_UNIX) as door:
        door.connect(words[-1])
        door.sendall(sys.stdin.buffer.read())
        door.shutdown(socket.SHUT_WR)
        while answer := door.recv(1 << 16):
            sys.stdout.buffer.write(answer)
if name == "journalctl":
    assert words[:5] == ["-u", "mlgate", "-o", "cat", "-n"]
    time.sleep(0.5)
    print(*open(f"{work}/log").read().splitlines()[-int(words[5]):], sep="\n")
if name == "systemctl":
    files = [f"{work}/units/mlgate.service", *glob.glob(f"{work}/units/mlgate.service.d/*")]
    unit = [line.strip().partition("=") for file in files for line in open(file) if line[0] not in "#[\n"]
    value, home, pid_file = {key: what for key, _, what in unit}, f"{work}/home", f"{work}/pid"
    if words[0] == "daemon-reload":
        sys.exit(0)
    assert words[-1] == "mlgate", words
    pid = int(open(pid_file).read()) if os.path.exists(pid_file) else 0
    def as_mldb(): become(mldb)
    if words[0] == "stop":
        os.kill(pid, signal.SIGTERM)
        while os.path.exists(f"/proc/{pid}/fd/0"): time.sleep(0.02)
        os.remove(pid_file)
    if words[0] == "reload":
        before = open(f"{work}/log").read()
        for key, _, what in unit:
            if key == "ExecReload":
                command = shlex.split(what.replace("$MAINPID", str(pid)))
                log = open(f"{work}/log", "a")
                done = subprocess.run(command, cwd=home, stdout=log, env={"PATH": path}, preexec_fn=as_mldb)
                if done.returncode: sys.exit("Job for mlgate.service failed.")
        ends, until = len(re.findall("sessions are open", before)), time.monotonic() + 240
        while time.monotonic() < until and len(re.findall("sessions are open", open(f"{work}/log").read())) == ends:
            time.sleep(0.05)
    if words[0] in ("enable", "start"):
        os.makedirs(f"{work}/socket", exist_ok=True)
        os.chown(f"{work}/socket", mldb, mldb)
        command = [os.environ["PYTHON"], "-c", gate, repr(people), *shlex.split(value["ExecStart"])]
        null, log = open(os.devnull), open(f"{work}/log", "a")
        child = subprocess.Popen(
            command,
            cwd=home,
            env={"PATH": path},
            stdin=null,
            stdout=log,
            stderr=log,
            preexec_fn=as_mldb,
            umask=0o077,
            process_group=0,
        )
        open(pid_file, "w").write(str(child.pid))
        while not os.path.exists(f"{work}/socket/sock") and child.poll() is None: time.sleep(0.02)
'''
PLAYED_NAMES = ("sudo", "ssh", "install", "useradd", "visudo", "systemctl", "journalctl", "nc")

# The gateway, over a kernel that knows these people.
GATE = """
import pwd, runpy, sys, types
people = {uid: types.SimpleNamespace(pw_name=name) for name, uid in eval(sys.argv[1]).items()}
pwd.getpwuid = people.__getitem__
sys.argv = sys.argv[2:]
runpy.run_path(sys.argv[0], run_name="__main__")
"""
# A client of the gateway. Where `cut` is given, it stops in the middle of a line and waits.
CLIENT = """
import os, socket, sys
path, label, uid, cut = sys.argv[1:]
os.setuid(int(uid))
with socket.socket(socket.AF_UNIX) as door:
    door.connect(path)
    answers = door.makefile("rb")
    door.sendall(label.encode() + b"\\n")
    for line in sys.stdin.buffer:
        door.sendall(line)
        answer = b"\\n"
        while answer[:1] not in (b"", b"="):
            answer = answers.readline()
            sys.stdout.buffer.write(answer)
    if cut:
        door.sendall(cut.encode())
        answers.read()
"""


class Checks:
    """What was tried, and what was not so."""

    def __init__(self):
        self.count, self.failures, self.is_quiet = 0, [], False

    def expect(self, what, got, wanted):
        self.count += 1
        if got != wanted:
            self.failures.append(what)
            if not self.is_quiet:
                print(f"not so: {what}: got\n{got}\nand not\n{wanted}")

    def end(self):
        """The status, told."""
        is_so = not self.failures and self.count
        print(f"{self.count} checks: all is so" if is_so else f"{len(self.failures)} of {self.count} not so")
        return 1 if self.failures or not self.count else 0


def isolate():
    """Begins this program again in a mount namespace of its own, in which what the pages change is a copy, and people
    have accounts."""
    if os.environ.get("MLDB_APART") != "yes":
        os.execvpe("unshare", ["unshare", "-m", sys.executable, *sys.argv], os.environ | {"MLDB_APART": "yes"})
    for path in ("/etc", "/usr/local/bin", "/var/lib", "/var/backups"):
        copy = f"/mnt{path}"
        subprocess.run(["mount", "-t", "tmpfs", "tmpfs", "/mnt"], check=True)
        os.makedirs(copy)
        if path.startswith("/var"):
            shutil.copymode(path, copy)
        else:
            subprocess.run(["cp", "-a", f"{path}/.", copy], check=True)
        subprocess.run(["mount", "--bind", copy, path], check=True)
    for name in ("ann", "bob", "hal", "zoe"):
        subprocess.run(["useradd", "--no-create-home", name], check=True)


class Machine:
    """A folder that stands for the machine."""

    def __init__(self, work, mldb, is_real=False):
        self.work, self.is_real, self.places = work, is_real, {}
        os.chmod(work, 0o755)
        for name in ("bin", "played", "sudoers.d", "backups", "units", "desk"):
            os.mkdir(f"{work}/{name}")
            os.chmod(f"{work}/{name}", 0o777 if name == "desk" else 0o755)
        if not is_real:
            self.places = {path: f"{work}/{name}" for path, name in PLACES.items()}
            for name in PLAYED_NAMES:
                self.write(f"played/{name}", PLAYED, 0o755)
        os.makedirs(f"{work}/desk/crates/mldb/out")
        shutil.copy(mldb, f"{work}/desk/crates/mldb/out/mldb")
        for folder in ("samples", "tools", "samples/running", "samples/running/cluster"):
            os.mkdir(f"{work}/desk/{folder}")
            for name in os.listdir(f"{ROOT}/{folder}"):
                if os.path.isfile(f"{ROOT}/{folder}/{name}"):
                    self.copy(f"{folder}/{name}")

    def write(self, name, text, mode):
        with open(f"{self.work}/{name}", "w", encoding="utf-8") as file:
            file.write(text)
        os.chmod(f"{self.work}/{name}", mode)

    def copy(self, name):
        """A file of the repository, with the paths of this machine."""
        with open(f"{ROOT}/{name}", encoding="utf-8") as file:
            self.write(f"desk/{name}", self.here(file.read()), os.stat(f"{ROOT}/{name}").st_mode)

    def here(self, text):
        for path, place in self.places.items():
            text = text.replace(path, place)
        return text

    def environment(self, user):
        own = "/usr/bin:" if self.is_real else f"{self.work}/played:{self.work}/bin:"
        names = {
            "WORK": self.work,
            "CALLER": user,
            "PEOPLE": repr(PEOPLE),
            "MLDB_UID": str(MLDB_UID),
            "GATE": GATE,
            "PYTHON": PYTHON,
        }
        return {"PATH": own + os.environ["PATH"], "LC_ALL": "C.UTF-8", **names}

    def start(self, user, command, **how):
        words = ["bash", "-c", self.here(command)]
        if self.is_real and user != "root":
            words = ["runuser", "-u", user, "--", *words]
        return subprocess.Popen(
            words,
            cwd=f"{self.work}/desk",
            env=self.environment(user),
            process_group=0,
            text=True,
            stdout=subprocess.PIPE,
            **how,
        )

    def home(self, name):
        return os.path.join(self.here("/var/lib/mldb"), name)


def transcript(page):
    """The commands of a page, each with its user and what it prints."""
    steps, is_block, is_tried = [], False, False
    with open(f"{ROOT}/docs/{page}", encoding="utf-8") as lines:
        for line in lines:
            prompt = PROMPT.match(line)
            if line.startswith("```"):
                is_block, is_tried = not is_block, False
            elif is_block and prompt:
                steps.append((prompt[1], prompt[3], []))
                is_tried = True
            elif is_tried:
                steps[-1][2].append(line)
    return [(user, command, "".join(lines)) for user, command, lines in steps]


def try_page(checks, machine, page, is_tried=lambda command: True):
    """Each command of a page, in its order, and what it prints."""
    steps = [step for step in transcript(page) if is_tried(step[1])]
    for user, command, wanted in steps:
        child = machine.start(user, command, stdin=subprocess.DEVNULL, stderr=subprocess.STDOUT)
        checks.expect(f"{user}: {command}", child.communicate()[0], wanted)
    print(f"{page}: {len(steps)} commands")


def untimed(line):
    """A line without the time that the gateway writes before it."""
    return TIME.sub("", line)


def batch(name, rows):
    """Commands that insert some rows, each with a key that tells whose it is."""
    return "".join(f'insert SOD key ("{name} {number}") values (null, "{name}")\n' for number in range(rows))


def keys(text, name):
    """The numbers of the keys of a name among rows."""
    return [int(number) for number in re.findall(rf'row "{name} (\d+)" ', text)]


class Client:
    """Somebody at the gateway, with the lines that he types; where `cut` is given, he stops in the middle of it and
    waits."""

    def __init__(self, path, user, level, lines, cut=""):
        words = [sys.executable, "-c", CLIENT, path, level, str(PEOPLE.get(user, user)), cut]
        self.process = subprocess.Popen(
            words, process_group=0, text=True, stdin=subprocess.PIPE, stdout=subprocess.PIPE
        )
        self.reader = threading.Thread(target=self.talk, args=(lines,))
        self.reader.start()

    def talk(self, lines):
        self.answer = self.process.communicate(lines)[0]

    def result(self):
        self.reader.join()
        return self.answer

    def kill(self):
        os.killpg(self.process.pid, signal.SIGKILL)


def open_gate(gate, words, cwd, path, log, people=None):
    """A gateway, behind which somebody can be anybody of the people."""
    command = [sys.executable, "-c", GATE, repr(people or PEOPLE), gate, *words]
    process = subprocess.Popen(command, cwd=cwd, stderr=log, stdout=log, process_group=0)
    until = time.monotonic() + 240
    while not os.path.exists(path) and process.poll() is None and time.monotonic() < until:
        time.sleep(0.01)
    return process
