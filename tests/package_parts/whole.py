"""A root of Debian alone, into which apt installs the package, and in which the installed README and docs/running.md
are followed as they read there: by people with accounts of that root, with its own `sudo`. Lines with `ssh` are left
out."""

import re
import shutil
import socket
import subprocess
import time
from pathlib import Path

PEOPLE = ("ann", "bob", "hal", "zoe")
INCLUDED = "python3,systemd,sudo,cron,netcat-openbsd,man-db"
DOC = "/usr/share/doc/mldb"
PROMPT = re.compile(r"([a-z-]+)([$#]) (.*)")
BLOCK = re.compile(r"```(\w*)\n(.*?)```", re.DOTALL)
# What stands at the prompt of README's shells.
TYPED = re.compile(r"[US] (?:ann|bob)> (.*)")


class Root:
    """A root, and commands in it."""

    def __init__(self, place: Path) -> None:
        self.place = place
        self.folders = {"root": "/usr/share/mldb"}

    def make(self, kept: Path | None) -> str:
        """Makes it, or copies one that was made before; what was said where it failed."""
        words = ["cp", "-a", kept, self.place] if kept else [
            "mmdebstrap", "--variant=apt", f"--include={INCLUDED}", "bookworm", self.place
        ]
        told = subprocess.run([str(word) for word in words], capture_output=True, text=True, check=False)
        return "" if told.returncode == 0 else told.stderr[-300:]

    def run(self, user: str, command: str, given: str = "") -> subprocess.CompletedProcess:
        """A command line of a user, in the folder where he works."""
        folder = self.folders.get(user, f"/home/{user}")
        line = f"cd {folder} && {{ {command}\n}}"
        words = ["chroot", self.place, "runuser", "-u", user, "--", "bash", "-c", line]
        return subprocess.run(
            [str(word) for word in words],
            input=given, capture_output=True, text=True, check=False,
            env={"PATH": "/usr/local/sbin:/usr/local/bin:/usr/sbin:/usr/bin:/sbin:/bin", "LC_ALL": "C.UTF-8"},
        )

    def text(self, path: str) -> str:
        """A file of it."""
        return (self.place / path.lstrip("/")).read_text(encoding="utf-8")


def see_whole(trial, folder: Path, kept: Path | None) -> None:
    """Installs the package, follows the pages, and removes it."""
    root = Root(trial.work / "whole")
    told = root.make(kept)
    trial.expect("there is a root", not told, told)
    if told:
        return
    # sudo looks for the name of the machine.
    (root.place / "etc/hosts").write_text(f"127.0.0.1 localhost {socket.gethostname()}\n", encoding="utf-8")
    # As a machine that is started has it.
    (root.place / "dev/shm").chmod(0o1777)
    subprocess.run(["mount", "-t", "proc", "proc", root.place / "proc"], check=True)
    try:
        see_installed(trial, root, next(folder.glob("*.deb")))
        see_readme(trial, root)
        see_running(trial, root)
        see_gateway(trial, root)
        see_removed(trial, root)
    finally:
        subprocess.run(["umount", "-l", root.place / "proc"], check=False)


def see_installed(trial, root: Root, path: Path) -> None:
    """Installs it by apt, and calls what it brings."""
    shutil.copy(path, root.place / "tmp/mldb.deb")
    told = trial.run("chroot", root.place, "apt-get", "install", "-y", "/tmp/mldb.deb")
    trial.expect("apt installs it", told.returncode == 0, told.stderr[-300:])
    for name in PEOPLE:
        root.run("root", f"useradd --create-home --shell /bin/bash {name}")
    told = root.run("ann", "mldb --version")
    trial.expect("mldb --version", "mldb " in told.stderr + told.stdout, told.stderr)
    told = root.run("ann", "python3 -m mldb --help")
    trial.expect("python3 -m mldb", told.returncode == 0, told.stderr)
    told = root.run("root", "stat -c '%U %a' /var/lib/mldb")
    trial.expect("the account has its folder", told.stdout == "mldb 700\n", told.stdout)
    told = root.run("ann", "man -P cat mldb")
    trial.expect("there is a manual page", "POLICY" in told.stdout, told.stderr)
    for name in ("csv2script", "rows2csv", "dump2script", "mlplay", "mlreport", "mlaudit", "mlgate", "mljournal"):
        told = root.run("ann", f"{name} --help")
        trial.expect(f"{name} starts", "Traceback" not in told.stderr and told.returncode != 127, told.stderr[-200:])


def see_readme(trial, root: Root) -> None:
    """Follows README, as ann."""
    text = root.text(f"{DOC}/README.md")
    lines = text.split("## Try it\n")[1].split("\n")[:10]
    trial.expect("Try it begins with a release", any("apt install" in line for line in lines), lines)
    blocks = [(kind, body) for kind, body in BLOCK.findall(text.split("## Try it\n")[1])]
    first = "\n".join(line for line in blocks[0][1].split("\n") if "apt install" not in line)
    told = root.run("ann", first)
    trial.expect("README's first commands are done", told.returncode == 0, told.stderr)
    root.folders["ann"] = "/home/ann/mldb"
    shown = next(body for _, body in blocks if body.startswith("U U/a view SOD"))
    parts = [part.strip("\n") for part in shown.split("..\n")]
    trial.expect("it prints what README shows", all(part in told.stdout for part in parts), told.stdout)
    see_tour(trial, root, blocks)


def see_tour(trial, root: Root, blocks: list[tuple[str, str]]) -> None:
    """Each command of the tour with what it prints below; what is typed goes to the shell of its session."""
    command, shells = "", {}
    for kind, body in blocks[1:]:
        typed = TYPED.findall(body)
        if kind == "python":
            told = root.run("ann", "PYTHONPATH=python python3 -", body)
            trial.expect("the lines of Python are done", told.returncode == 0, told.stderr[-300:])
            command = told.stdout
        elif body.startswith("mldb shell"):
            shells["U"] = body.strip()
        elif typed and "U" in shells:
            label = body[0] if body[0] == "S" else "U"
            words = shells["U"].replace(" U ann", " S bob") if label == "S" else shells["U"]
            told = root.run("ann", words, "".join(f"{line}\n" for line in typed))
            wanted = [line for line in body.split("\n") if re.match(r"[US] [US]/", line)]
            got = [line for line in told.stdout.split("\n") if line in wanted]
            trial.expect(f"the shell of {label} answers as it reads", got == wanted, (told.stdout, told.stderr))
        elif body.startswith("mldb "):
            told = root.run("ann", body.strip())
            command = told.stdout
        elif command and not body.startswith(("bin/", "U ann>")):
            lines = command.split("\n")
            wanted = [line for line in body.strip("\n").split("\n") if line not in lines]
            trial.expect(f"the tour prints {body.split(chr(10))[0][:40]}", not wanted, (wanted, lines[-12:]))
            command = ""


def see_running(trial, root: Root) -> None:
    """Follows docs/running.md, but for its first block, which the package has done, and what goes by ssh."""
    blocks = [body for _, body in BLOCK.findall(root.text(f"{DOC}/docs/running.md"))]
    trial.expect("the page says what the package has done", "useradd" in blocks[0], blocks[0])
    count = 0
    for body in blocks[1:]:
        steps: list[tuple[str, str, list[str]]] = []
        for line in body.rstrip("\n").split("\n"):
            prompt = PROMPT.match(line)
            if prompt:
                steps.append((prompt[1], prompt[3], []))
            elif steps:
                steps[-1][2].append(line)
        for user, command, wanted in steps:
            if "ssh" in command.split("|")[-1]:
                continue
            told = root.run(user, f"exec 2>&1; {command}")
            got, text = told.stdout, "".join(f"{line}\n" for line in wanted)
            count += 1
            trial.expect(f"running.md, {user}: {command[:60]}", got == text, (got, text))
    trial.expect("running.md has its commands", count > 40, count)


def see_gateway(trial, root: Root) -> None:
    """Whether the unit starts the gateway, by its own line, where its two files are, and not without them."""
    told = root.run("root", "cd / && systemd-analyze verify /usr/lib/systemd/system/mlgate.service")
    trial.expect("systemd takes the unit", told.returncode == 0, told.stderr[-300:])
    unit = root.text("/usr/lib/systemd/system/mlgate.service")
    waits = re.findall(r"AssertPathExists=(\S+)", unit)
    trial.expect("the unit names its two files", len(waits) == 2 and all(root.text(path) for path in waits), waits)
    line = re.search(r"ExecStart=(.*)", unit)[1]
    root.run("root", "install -d -o mldb -g mldb /run/mldb")
    words = ["chroot", root.place, "runuser", "-u", "mldb", "--", "bash", "-c", f"cd /var/lib/mldb && exec {line}"]
    child = subprocess.Popen(
        [str(word) for word in words], stdout=subprocess.DEVNULL, stderr=subprocess.PIPE, text=True
    )
    until = time.monotonic() + 60
    while not (root.place / "run/mldb/sock").exists() and child.poll() is None and time.monotonic() < until:
        time.sleep(0.1)
    told = root.run("hal", r"printf 'H\nopen hal\ncount SOD at H\n' | nc -NU /run/mldb/sock")
    child.terminate()
    said = child.communicate()[1]
    trial.expect("the gateway answers", "H H/hal opened hal" in told.stdout, (told.stdout, told.stderr, said[-300:]))


def see_removed(trial, root: Root) -> None:
    """Removes it, and purges it: stores stay."""
    store = root.place / "var/lib/mldb/fleet.db"
    before = store.read_bytes() if store.is_file() else b""
    trial.expect("there is a store", bool(before))
    for how in ("remove", "purge"):
        told = trial.run("chroot", root.place, "apt-get", how, "-y", "mldb")
        trial.expect(f"apt-get {how} ends well", told.returncode == 0, told.stderr[-300:])
        trial.expect(f"{how}: the program is gone", not (root.place / "usr/bin/mldb").exists())
        trial.expect(f"{how}: the store is as it was", store.is_file() and store.read_bytes() == before)
