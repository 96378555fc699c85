"""The shell at a terminal. What is expected is waited for, up to a bound that no machine needs, and never a time."""

import codecs
import fcntl
import os
import pty
import select
import signal
import struct
import sys
import tempfile
import termios
import time
import types

from base import ENVIRONMENT, SECONDS, TURN, expect, holds, works
from shell import shell


class Terminal:
    """A shell at a terminal of so many columns."""

    def __init__(self, line, home, columns=80):
        self.process, self.fd = pty.fork()
        if self.process == 0:
            fcntl.ioctl(0, termios.TIOCSWINSZ, struct.pack("HHHH", 40, columns, 0, 0))
            os.environ.update({**ENVIRONMENT, "HOME": home, "INPUTRC": "/dev/null"})
            os.environ.pop("COLUMNS", None)
            signal.signal(signal.SIGINT, signal.SIG_DFL)
            os.execvp(line[0], line)
        self.seen = ""
        self.decoder = codecs.getincrementaldecoder("utf-8")("replace")
        self.is_lost = False

    def read(self):
        """Takes what comes within a moment; whether more may come."""
        if select.select([self.fd], [], [], 0.1)[0]:
            try:
                part = os.read(self.fd, 65536)
            except OSError:
                return False
            self.seen += self.decoder.decode(part)
            return bool(part)
        return True

    def until(self, *wanted):
        """What comes up to the first of some texts; all that came if none does: then none is waited for any more."""
        end = time.monotonic() + (1 if self.is_lost else SECONDS)
        while not any(one in self.seen for one in wanted) and time.monotonic() < end and self.read():
            pass
        ends = [self.seen.find(one) + len(one) for one in wanted if one in self.seen]
        self.is_lost = not ends
        place = min(ends, default=len(self.seen))
        found, self.seen = self.seen[:place], self.seen[place:]
        return found

    def type(self, keys):
        os.write(self.fd, keys.encode())

    def end(self):
        """The status, after what still comes."""
        end = time.monotonic() + SECONDS
        is_open = True
        while time.monotonic() < end:
            is_open = is_open and self.read()
            process, status = os.waitpid(self.process, os.WNOHANG)
            if process:
                os.close(self.fd)
                return os.waitstatus_to_exitcode(status)
            if not is_open:
                time.sleep(0.1)
        os.kill(self.process, signal.SIGKILL)
        os.waitpid(self.process, 0)
        os.close(self.fd)
        return "still there"


class Played:
    """What a shell is over that does nothing: target and connection in one. Who is told something presses Ctrl-C."""

    label, user, relations, words = "S", "bob", {}, types.SimpleNamespace(policy=None)

    def connect(self, label):
        return self

    def execute(self, sql):
        return types.SimpleNamespace(description=None, rowcount=0)

    def ask(self, prompt):
        if not self.lines:
            raise EOFError
        return self.lines.pop(0)

    def write(self, text):
        signal.raise_signal(signal.SIGINT)

    def flush(self):
        pass

    def isatty(self):
        return True


def interrupted_at(moment):
    """A shell in which Ctrl-C is pressed when it comes to so many lines of its own; whether it came as far, and whether
    it went on after it."""
    from mldb import shell as module

    played, seen = Played(), 0
    played.lines = ["select 1;", "select 1; select 2;", ".read /nowhere", "select"]
    one = module.Shell(played, "S", played, played)

    def traced(frame, event, _):
        nonlocal seen
        if frame.f_code.co_filename != module.__file__:
            return None
        seen += event == "line"
        if seen == moment:
            sys.settrace(None)
            signal.raise_signal(signal.SIGINT)
        return traced

    before, handler = sys.gettrace(), signal.getsignal(signal.SIGINT)
    try:
        sys.settrace(traced)
        one.type_in(played.ask)
        sys.settrace(before)
        return seen >= moment, not played.lines
    except KeyboardInterrupt:
        return seen >= moment, False
    finally:
        sys.settrace(before)
        signal.signal(signal.SIGINT, handler)


def try_any_moment():
    """Ctrl-C ends no shell, whenever it comes once there is a prompt."""
    moments = []
    handler = signal.signal(signal.SIGINT, signal.SIG_IGN)
    try:
        while not moments or moments[-1][0]:
            moments.append(interrupted_at(len(moments) + 1))
    finally:
        signal.signal(signal.SIGINT, handler)
    gone = [moment for moment, (_, is_there) in enumerate(moments, 1) if not is_there]
    expect("Ctrl-C: moments after which the shell is gone", gone, [])
    holds("Ctrl-C: some moments", len(moments) > 50, len(moments))


def try_terminal():
    try_any_moment()
    with tempfile.TemporaryDirectory() as home:
        one = Terminal(shell("S", terminal=True), home, 60)
        prompt = "S bob> "
        holds("terminal: prompt", prompt in one.until(prompt))
        try_shown(one, prompt)
        try_stopped(one, prompt)
        one.type(".label U\r")
        holds("terminal: another label", "U bob> " in one.until("U bob> "))
        one.type("\x1b[A\x1b[A\r")
        found = one.until("U bob> ")
        holds("terminal: no line of S comes up at U", "42" not in found and "select" not in found, found)
        one.type("\x04")
        expect("terminal: the status", one.end(), 1)
        try_history(home)
        one = Terminal(shell("S", "--no-history", terminal=True), home)
        one.until(prompt)
        one.type("quit\r")
        expect("terminal: quit", one.end(), 0)


def try_shown(one, prompt):
    """Several lines, Ctrl-C before the end, completion, and how rows are shown."""
    one.type("select 'x' as a,\r")
    holds("terminal: goes on", "...> " in one.until("...> "))
    one.type("\x03")
    holds("terminal: Ctrl-C drops a statement", prompt in one.until(prompt))
    one.type("insert into SOD (Starship, Objective) values ('Enter" + TURN + "prise',\r")
    one.until("...> ")
    one.type("'" + "long text " * 12 + "');\r")
    holds("terminal: changed", "1 row changed" in one.until("changed"))
    one.until(prompt)
    one.type("select * from SOD_hi\t;\r")
    found = one.until("(1 row)")
    holds("terminal: a table is completed", "SOD_highest" in found, found)
    answer = found[found.find("Starship"):]
    holds("terminal: nothing turns a line", TURN not in answer and "\\u202e" in answer, answer)
    lines = answer.replace("\r", "").split("\n")
    holds("terminal: as wide as the screen", all(len(line) <= 60 for line in lines), answer)
    one.until(prompt)
    one.type(".des\tSO\t\r")
    found = one.until("bob may write")
    holds("terminal: a point is completed", ".describe SOD" in found and "bob may write" in found, found)
    one.until(prompt)


def try_stopped(one, prompt):
    """Ctrl-C ends a statement, and nothing else."""
    one.type("with recursive n(i) as (select 1 union all select i + 1 from n) select count(*) from n;\r")
    holds("terminal: a statement is at work", works(one.process))
    one.type("\x03")
    holds("terminal: Ctrl-C ends a statement", "interrupted" in one.until(prompt))
    one.type("view SOD at S\r")
    found = one.until(" | S\r\n")
    holds("terminal: lines of mldb as well", "row " in found and TURN not in found, found)
    one.until(prompt)
    one.type("select 40 + 2 as \t\x15select 40 + 2 as n;\r")
    holds("terminal: goes on after all this", "42" in one.until("42"))
    one.until(prompt)


def try_history(home):
    """What was typed at S is in a file of S, which nobody else may read."""
    path = f"{home}/.mldb/history-S"
    modes = [os.stat(one).st_mode & 0o077 for one in (path, f"{home}/.mldb") if os.path.exists(one)]
    expect("history: a file of a label", modes, [0, 0])
    if os.path.exists(path):
        with open(path, encoding="utf-8") as file:
            holds("history: what was typed", "select 40 + 2 as n;" in file.read())
