"""What all parts share: where things are, and what is counted."""

import os
import socket
import sys
import time

ROOT = os.path.dirname(os.path.dirname(os.path.dirname(os.path.abspath(__file__))))
WORDS = [word for word in sys.argv[1:] if not word.startswith("--")]
MLDB = os.path.abspath(WORDS[0] if WORDS else os.path.join(ROOT, "crates/mldb/out/mldb"))
PYTHON = os.environ.get("MLDB_PYTHON", os.path.join(ROOT, "python"))
SAMPLES = os.path.join(ROOT, "samples")
POLICY, SCHEMES = f"{SAMPLES}/policy.toml", f"{SAMPLES}/schemes.toml"
TRANSACTIONS = ["--transactions", f"{SAMPLES}/transactions.txt", "--certificates", f"{SAMPLES}/certificates.txt"]
ENVIRONMENT = {**os.environ, "PYTHONPATH": PYTHON, "TERM": "xterm", "LC_ALL": "C.UTF-8"}
TURN = "\u202e"
# What is waited for at most, by whatever is expected: far more than a busy machine takes.
SECONDS = 180
# Of an endless statement: it has certainly begun when this much of a processor has gone into it.
WORK_SECONDS = 0.3
sys.path.insert(0, PYTHON)


class Counts:
    """What was so, what was not, and what was passed over."""

    passed = 0
    failed: list[str] = []
    over: list[str] = []


def expect(what, got, wanted):
    """One thing that has to be so."""
    if got == wanted:
        Counts.passed += 1
    else:
        Counts.failed.append(what)
        print(f"not so: {what}: got {got!r}, and not {wanted!r}")


def holds(what, is_so, told=""):
    """One thing that has to be so; `told` is shown where it is not."""
    expect(f"{what}{f' ({told!r:.300})' if not is_so else ''}", bool(is_so), True)


def processor(process):
    """The seconds that a process has had of processors; whether it is still there."""
    with open(f"/proc/{process}/stat", encoding="utf-8") as file:
        words = file.read().rpartition(")")[2].split()
    return (int(words[11]) + int(words[12])) / os.sysconf("SC_CLK_TCK"), words[0] not in "ZX"


def works(process):
    """Waits until a process has been at work for a while since this was called; whether it was."""
    begun, end = processor(process)[0], time.monotonic() + SECONDS
    seconds, is_there = begun, True
    while seconds < begun + WORK_SECONDS:
        if not is_there or time.monotonic() > end:
            return False
        time.sleep(0.02)
        seconds, is_there = processor(process)
    return True


def wait_for(path):
    """Waits for a socket that listens."""
    end = time.monotonic() + SECONDS
    while time.monotonic() < end:
        with socket.socket(socket.AF_UNIX) as probe:
            try:
                probe.connect(path)
                return True
            except OSError:
                time.sleep(0.05)
    return False
