"""What is planted in copies of mlstream, and has to be found by tests/running/cluster: a name, and a text with what it
becomes."""

FAULTS = {
    "a line is done before it is in the stream": (
        '            return self.put("line", line, 60)\n',
        "            answer = self.program.ask(line)\n"
        '            self.put("line", line, 60)\n            return answer\n',
    ),
    "a line is not said with its name": (
        'identity, seconds = f"{self.boot}-{self.count}".encode()', 'identity, seconds = b"x-1"'
    ),
    "a line that nobody else has read is done": (
        "mine and any(chain == mine and theirs != copy for chain, theirs in told):", "mine:"
    ),
    "one copy is enough": ("chain == mine and theirs != copy for", "chain == mine for"),
    "other lines than those of two others stand": ("elif mine and len(told) > 1 and", "elif False and"),
    "what is not confirmed is not read again": ("            self.is_astray = True\n", "            pass\n"),
    "who comes to a second machine does not hold": ("(opened|denied 32)", "(opened)"),
    "who leaves closes for all": ("is_held = found[3] == b\"close\" and bool(holders - {origin})", "is_held = False"),
    "the answer is of another line": (
        "            self.answers[identity] = answer\n", "            self.answers[identity] = b'=\\n'\n"
    ),
    "a machine goes on with what it has": (
        '        if not state["is_closed"]:\n            state = self.restore()\n', ""
    ),
    "a copy is under another number": (
        'state = {"number": self.number, "chain": self.chains[self.number],',
        'state = {"number": self.number - 1, "chain": self.chain(self.number - 1),',
    ),
    "the sessions of a copy are forgotten": ('"sessions": sessions}', '"sessions": []}'),
    "sessions of a machine that stopped stay": (
        "        self.close()\n        self.put(\"begin\"", "        self.put(\"begin\""
    ),
    "other files are taken": ("        if self.inside - {origin} and files != self.agreed:", "        if False:"),
    "sums are not compared": ("            if len(others) > 1 and len(set(others)) == 1:", "            if False:"),
    "sums are not told": ("            if not fresh:\n", "            if True:\n"),
    "a line is done as often as it is there": ("        return is_late\n", "        return False\n"),
    "a stream that is gone is made anew": ("            if self.number:\n", "            if False:\n"),
    "a shorter stream is taken": ("        if last < self.number:\n", "        if False:\n"),
    "another stream is not seen": (
        "            if number <= self.number and not was_kept and identity not in self.answers:\n",
        "            if False:\n",
    ),
    "a full disk is not named": (
        "    except OSError as fault:\n        stop(", "    except EOFError as fault:\n        stop("
    ),
    "what is not taken is done here": (
        '            return b"= unavailable\\n"\n', '            return self.program.ask(line)\n'
    ),
    "a store without a copy is taken away": (
        "        if not self.numbers() and os.path.exists(self.store) and not os.path.exists(self.path):",
        "        if False:",
    ),
    "the end is not told": ('            self.put("end", b"", 5)\n', "            pass\n"),
}
