"""What is planted in copies of mljournal, and has to be found by tests/running/journal: a name, and a text with what it
becomes."""

FAULTS = {
    "nothing waits for the disk": ("                os.fdatasync(self.file.fileno())\n", "                pass\n"),
    "others can read the journal": ("    os.umask(0o077)\n", ""),
    "it is ready before the program is": (
        "        self.program().ask(b\"\")\n        notify(\"READY=1\")\n", "        notify(\"READY=1\")\n"
    ),
    "nobody asks the program": (
        "            self.program().ask(b\"\")\n            notify(\"WATCHDOG=1\")\n",
        "            notify(\"WATCHDOG=1\")\n",
    ),
    "what was denied is done again": (
        "        if names_of(line) in self.sessions.names and verb_of(line) in CHANGES:\n",
        "        if verb_of(line) in CHANGES:\n",
    ),
    "audit lists behind a stop are compared": ('b"begin": is_sure and kind in QUIET', 'b"begin": is_sure'),
    "audit lists behind a turn are not compared": ('b"turn": True, ', 'b"turn": is_sure, '),
    "a new journal goes on behind a stale one": ("    if os.path.exists(path):\n        os.remove(path)\n", ""),
    "a line is written down behind its answer": (
        "        self.journal.put(kind, before + line, verb not in READS)\n        answer = self.program.ask(line)\n",
        "        answer = self.program.ask(line)\n        self.journal.put(kind, before + line, verb not in READS)\n",
    ),
    "an answer is told before its sum is there": (
        "        self.journal.put(b\"done\", sum_of(answer), verb == b\"call\")\n",
        "        sys.stdout.buffer.write(answer)\n        sys.stdout.buffer.flush()\n        time.sleep(0.2)\n"
        "        self.journal.put(b\"done\", sum_of(answer), verb == b\"call\")\n        answer = b\"\"\n",
    ),
    "the sum is of the line": ('self.journal.put(b"done", sum_of(answer)', 'self.journal.put(b"done", sum_of(line)'),
    "the chain is not looked at": ('digest != sum_of(last + b" " + rest)', "False"),
    "a digest stands for itself alone": (
        'digest != sum_of(last + b" " + rest)', 'digest != sum_of(last + b" " + rest) and len(digest) != 64'
    ),
    "half a record stays": ("            self.file.truncate(place)\n", "            pass\n"),
    "a write is not done again": ("            self.do(line, b\"again\")\n", ""),
    "a batch is not done again": ('b"delete", b"all", b"call"}', 'b"delete", b"call"}'),
    "a batch is refused without a number": ('f"{refusal} at {number}"', 'f"{refusal}"'),
    "a call is done again": (
        'if verb_of(line) == b"call":\n            self.journal.put', 'if False:\n            self.journal.put'
    ),
    "what is done again is compared": ('None if waiting.kind == b"again" else record.text', "record.text"),
    "sessions stay open at a begin": (
        'yield from (Step(step.record, b"%s %s close" % names) for names in list(sessions.names))', "pass"
    ),
    "a time has no meaning": ("        if step.record.time.decode() > last:\n            return\n", ""),
    "a journal may have two writers": ("fcntl.flock(self.file, fcntl.LOCK_EX | fcntl.LOCK_NB)", "pass"),
    "a new journal begins from nothing": (
        "    new.last = old.last\n    new.put(b\"from\", old.last, True)\n", "    new.put(b\"from\", START, True)\n"
    ),
    "a replay compares nothing": ("        if is_sure and sum_of(answer) != told:", "        if False:"),
    "a turn is not noted": ('    Journal(words.journal).put(b"turn", b"", True)\n', "    Journal(words.journal)\n"),
    "a full disk is passed over": ("            raise Refused(why, 3) from fault\n", "            return\n"),
    "other labels are passed on": ("names[0] not in self.labels", "False"),
    "the list forgets who": ("words.user in (None, user)", "True"),
    "the list forgets the label": ("words.label in (None, label)", "True"),
    "the list forgets when": ("first <= stamp <= last", "True"),
    "files are not summed": ("    return b\" \".join(sums)\n", '    return b"-"\n'),
}
