"""Who can learn what, and by whose hand, as the program answers it."""

import difflib
import re
from dataclasses import dataclass, field
from pathlib import Path

from .declared import Access, Declared, access, answers, declared
from .program import Program, Refused, sum_of
from .replies import line_of

ROLES = ("policy", "schemes", "transactions", "certificates")
HEAD = re.compile(r" +transaction (\w+) levels (\w+) to (\w+) \((.*)\) \{")
RELEASE = re.compile(r" *(\d+)  releases to (\w+): (.*)")
READ = re.compile(r" *\d+ +for \w+ in (\w+) at (\w+) \{")
# The program names no bits of a range that is too large to be counted: here are those of all values that there are.
ANY = re.compile(r"any (integer|text)( or null)?")
BITS = {"integer": 64, "integer or null": 65, "text": 8_193, "text or null": 8_193}
DENIED = {
    "35": "no certificate of it holds",
    "36": "no right to execute it",
    "37": "not cleared so high",
    "38": "no session at its lower label",
    "39": "not trusted between its labels",
    "40": "the arguments do not fit",
    "31": "may not work at its lower label",
}


@dataclass
class Transaction:
    """A stored transaction: its text, its releases, whether a certificate holds, how each user's call is answered."""

    name: str
    low: str
    high: str
    parameters: int
    text: list[str] = field(default_factory=list)
    releases: list[tuple[str, str, str]] = field(default_factory=list)
    total: str = ""
    refusal: list[str] = field(default_factory=list)
    verdict: str = "no certificates were given"
    calls: dict[str, str] = field(default_factory=dict)

    def reads(self) -> list[tuple[str, str]]:
        """The relations that it goes over, and the label whose rows it sees of each."""
        found = (READ.match(line) for line in self.text)
        return list(dict.fromkeys((one[1], one[2]) for one in found if one))

    def callers(self) -> list[str]:
        """Whose call is not denied."""
        return [user for user, reply in self.calls.items() if reply == "called"]

    def denied(self, rights: dict[tuple[str, str], list[str]]) -> list[tuple[str, str]]:
        """Who has a right to it and is denied all the same, and why."""
        return [
            (user, DENIED.get(code, code))
            for user, code in self.calls.items()
            if code != "called" and (user, self.name) in rights
        ]


@dataclass
class Report:
    """What there is to say about a policy, its schemes and its transactions."""

    files: dict[str, str]
    sums: dict[str, str]
    version: str
    found: Declared
    access: Access
    transactions: list[Transaction]
    before: "Report | None" = None

    def warnings(self) -> list[str]:
        """What does not do what somebody may have meant by it."""
        found = self.found
        names = {*found.relations, *(one.name for one in self.transactions)}
        told = [f"{line}" for line in found.ignored]
        told += [
            f"{user.name} has no rights."
            for user in found.users
            if not any(name == user.name for name, _ in found.rights)
        ]
        if "transactions" in self.files:
            told += [
                f"{user} has a right to {name}, which is no relation and no transaction."
                for user, name in found.rights
                if name not in names
            ]
        told += [f"Nobody can call {one.name}: {why_nobody(one)}." for one in self.transactions if not one.callers()]
        return told


def with_bits(what: str) -> str:
    """What a release can tell, with its bits."""
    found = ANY.match(what)
    if not found:
        return what
    how, rest = what[: found.end()], what[found.end() :]
    return f"{how} ({BITS[how.removeprefix('any ')]:,} bits{' at most' if rest else ' a call at most'}){rest}"


def why_nobody(one: Transaction) -> str:
    """Why no user can call a transaction."""
    if one.verdict != "yes":
        return "no certificate of it holds"
    near = [f"{user}: {DENIED.get(code, code)}" for user, code in one.calls.items() if code != "36"]
    return "; ".join(near) or "no user has a right to execute it"


def transactions_of(lines: list[str]) -> list[Transaction]:
    """The transactions, as `explain` tells of them."""
    told: list[Transaction] = []
    for line in lines:
        head, release = HEAD.fullmatch(line), RELEASE.fullmatch(line)
        if head:
            told.append(Transaction(head[1], head[2], head[3], head[4].count(":")))
            part = "text"
        if line.startswith("labels, version") or line.startswith(f"{told[-1].name} is refused:"):
            part = "labels" if line.startswith("labels") else "refusal"
        if release:
            told[-1].releases.append((release[1], release[2], with_bits(release[3])))
        elif "all releases: " in line:
            told[-1].total = line.strip()
        elif part == "text":
            told[-1].text.append(line)
        elif part == "refusal":
            told[-1].refusal.append(line)
    return told


def fill_calls(program: Program, files: dict[str, str], found: Declared, told: list[Transaction]) -> None:
    """Lets each user call each transaction with nulls, over an empty database."""
    blocks = [
        [
            f"{one.low} u open {user.name}",
            f"{one.low} u call {one.name} ({', '.join(['null'] * one.parameters)})",
            f"{one.low} u close",
        ]
        for one in told
        for user in found.users
    ]
    options = [word for role in ROLES[2:] if role in files for word in (f"--{role}", files[role])]
    replies = iter(answers(program, [files["policy"], files["schemes"]], options, blocks))
    for one in told:
        for user in found.users:
            next(replies)
            line = line_of(next(replies)[0])
            one.calls[user.name] = "called" if line.verb == "called" else line.rest.split(" ")[0]
            next(replies)


def report(program: Program, files: dict[str, str]) -> Report:
    """Asks the program all that there is to say."""
    policy, schemes = files["policy"], files["schemes"]
    found = declared(program, policy, schemes)
    told: list[Transaction] = []
    if "transactions" in files:
        told = transactions_of(program.lines("explain", policy, schemes, files["transactions"], statuses=(0, 1)))
        if "certificates" in files:
            verdicts = program.lines(
                "check", policy, schemes, files["transactions"], files["certificates"], statuses=(0, 1)
            )
            for one, line in zip(told, verdicts, strict=True):
                one.verdict = line.removeprefix(f"{one.name} ")
        fill_calls(program, files, found, told)
    sums = {path: sum_of(path) for path in files.values()}
    return Report(files, sums, program.version(), found, access(program, [policy, schemes], found), told)


def report_before(program: Program, files: dict[str, str], folder: str) -> Report:
    """The same of the files of these names in a folder. Transactions and certificates may have come since."""
    older = {}
    for role, path in files.items():
        other = Path(folder) / Path(path).name
        if not other.is_file() and role in ROLES[2:]:
            break
        if not other.is_file():
            raise Refused(
                f"--before {folder}: there is no {other.name}: "
                f"name a folder that has the {role} of before under the same name"
            )
        older[role] = str(other)
    return report(program, older)


def facts(told: Report) -> dict[str, list[str]]:
    """What is so, by whom it concerns."""
    found = told.found
    about: dict[str, list[str]] = {"all": []}
    about["all"] += [
        f"the label {label} covers {' '.join(found.covers[label]) or 'nothing'}" for label in found.upwards()
    ]
    for relation, parts in found.relations.items():
        about["all"] += [
            f"{relation} has the {part} {name}, {kind}, of classes from {low} to {high}"
            for part, name, kind, low, high in parts
        ]
    about["all"] += [
        f"{one.name} goes from {one.low} to {one.high}; its certificate: {holds(one)}" for one in told.transactions
    ]
    for user in found.users:
        mine = about.setdefault(user.name, [])
        mine.append(f"is cleared for {user.clearance}")
        mine += [f"is trusted from {user.trusted[0]} to {user.trusted[1]}"] if user.trusted else []
        mine += [
            f"has {', '.join(modes)} on {name}"
            for (name_of, name), modes in found.rights.items()
            if name_of == user.name
        ]
        for relation in found.relations:
            mine += [
                f"sees {relation} at {label}"
                for label in found.upwards()
                if user.name in told.access.readers[label, relation]
            ]
        mine += [f"can call {one.name}" for one in told.transactions if user.name in one.callers()]
    for one in told.transactions:
        for _, low, what in one.releases if one.callers() else ():
            about.setdefault(f"whoever sees {low}", []).append(
                f"can learn by {one.name}: {what}; called by {', '.join(one.callers())}"
            )
    return about


def holds(one: Transaction) -> str:
    """Whether a certificate of a transaction holds, in words."""
    if one.verdict == "yes":
        return "holds"
    broken = re.fullmatch(r"no (\d+) (\w+)", one.verdict)
    if broken:
        return f"does not hold (rule {broken[2]} at statement {broken[1]})"
    return "there is none" if one.verdict == "no certificate" else one.verdict


def text_changes(told: Report) -> list[tuple[str, list[str], list[str]]]:
    """The lines that went from a transaction's text, and those that came, without their numbers."""
    listed = []
    then = {one.name: one for one in told.before.transactions} if told.before else {}
    for one in told.transactions:
        if one.name in then:
            old, new = ([line.lstrip(" 0123456789") for line in each.text] for each in (then[one.name], one))
            lines = list(difflib.ndiff(old, new))
            gone, came = ([line[2:] for line in lines if line.startswith(sign)] for sign in ("- ", "+ "))
            listed += [(f"the text of {one.name}", gone, came)] if gone or came else []
    return listed


def changes(told: Report) -> list[tuple[str, list[str], list[str]]]:
    """For whom what is no longer so, and what is so now."""
    now, then = facts(told), facts(told.before) if told.before else {}
    listed = []
    for whom in [*now, *(one for one in then if one not in now)]:
        gone = [fact for fact in then.get(whom, []) if fact not in now.get(whom, [])]
        new = [fact for fact in now.get(whom, []) if fact not in then.get(whom, [])]
        if gone or new:
            listed.append((whom, gone, new))
    return listed + text_changes(told)
