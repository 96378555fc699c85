"""The page of a report: labels, users, relations, what can come down, warnings, changes, inputs."""

from pathlib import PurePath

from . import lattice
from .page import Html, chip, hue_style, hues_of, joined, page, table, tag
from .report import Report, Transaction, changes, holds

STYLE = """
.transaction { padding: .2rem 0 1rem; border-top: 1px solid var(--line); }
.transaction:first-of-type { border-top: 0; }
.transaction dl { display: grid; grid-template-columns: 9rem minmax(0, 1fr); gap: .3rem 1rem; margin: .5rem 0; }
.transaction dt { font-style: italic; color: var(--soft); } .transaction dd { margin: 0; overflow-wrap: anywhere; }
.transaction pre { background: var(--raised); border: 1px solid var(--line); border-radius: .3rem;
  padding: .6rem .8rem; margin-top: .6rem; }
.no { color: var(--mark); font-weight: 600; }
ul.plain { list-style: none; padding: 0; margin: .4rem 0; } ul.plain li { padding: .3rem 0;
  border-bottom: 1px solid var(--line); overflow-wrap: anywhere; }
.sum { font-size: .75rem; }
.sign { display: none; }
@media print { .sign { display: block; margin-top: 3rem; padding-bottom: 3rem; border-bottom: 1px solid; } }
@media (max-width: 40rem) { .transaction dl { display: block; } .transaction dd { margin-bottom: .4rem; }
  table.plain, table.plain tbody, table.plain tr, table.plain td { display: block; } table.plain thead {
  display: none; }
  table.plain td { border: 0; padding: .1rem 0; } table.plain tr { padding: .4rem 0;
  border-bottom: 1px solid var(--line); }
  table.plain td::before { content: attr(data-head) " "; color: var(--soft); font-style: italic; font-size: .875rem; } }
"""


class ReportPage:
    """Lays a report out."""

    def __init__(self, told: Report) -> None:
        self.told, self.found = told, told.found
        self.labels = self.found.upwards()
        self.hues = hues_of(self.labels)

    def chips(self, labels: list[str]) -> Html:
        """Labels, one after the other."""
        return joined(part for label in labels for part in (chip(label, self.hues), " "))

    def names(self, names: list[str]) -> str:
        """Names of users."""
        return ", ".join(names) or "nobody"

    def table(self, heads: list[str], rows: list[list]) -> Html:
        """A table whose cells know their heads, for narrow pages."""
        body = [tag("tr", *(tag("td", cell, data_head=head) for head, cell in zip(heads, row))) for row in rows]
        return tag(
            "table",
            tag("thead", tag("tr", *(tag("th", head, scope="col") for head in heads))),
            tag("tbody", *body),
            class_="plain",
        )

    def shorts(self) -> Html:
        """Each release that somebody can call for: who learns what by whose hand."""
        rows = []
        for one in self.told.transactions:
            for _, low, what in one.releases if one.callers() else ():
                learners = self.names(self.told.access.openers[low])
                rows.append(
                    [
                        joined([chip(low, self.hues), f" {learners}"]),
                        what,
                        self.sources(one),
                        self.names(one.callers()),
                        tag("a", one.name, href=f"#t-{one.name}"),
                    ]
                )
        if not rows:
            return tag("p", "Nothing: no user can call a transaction that releases something.")
        return self.table(["Who learns", "What", "Out of", "By whose hand", "Through"], rows)

    def sources(self, one: Transaction) -> Html:
        """What a transaction reads."""
        told = [joined([f"{name} at ", chip(label, self.hues), Html("<br>")]) for name, label in one.reads()]
        return joined(told or ["no relation"])

    def labels_part(self) -> Html:
        """The labels, drawn, and who may work at each."""
        rows = [
            [chip(label, self.hues), self.names(self.told.access.openers[label])] for label in reversed(self.labels)
        ]
        return joined(
            [
                tag("h2", "Labels"),
                tag(
                    "p",
                    "A label sees what the labels below it see. A line goes from each label to those that it covers.",
                ),
                lattice.drawn(self.found, self.hues),
                tag("h3", "Who may work at a label"),
                self.table(["Label", "Users"], rows),
            ]
        )

    def users_part(self) -> Html:
        """The users, highest clearance first."""
        users = sorted(self.found.users, key=lambda user: (-self.labels.index(user.clearance), not user.trusted))
        rows = [[user.name, chip(user.clearance, self.hues), self.interval(user.trusted)] for user in users]
        return joined(
            [
                tag("h2", "Users"),
                tag(
                    "p",
                    "Who is trusted between two labels may call certified transactions that release from the upper one "
                    "to the lower one.",
                ),
                self.table(["User", "Clearance", "Trusted"], rows),
            ]
        )

    def interval(self, trusted: tuple[str, ...]) -> Html | str:
        """Where a user is trusted."""
        return joined([chip(trusted[0], self.hues), " to ", chip(trusted[1], self.hues)]) if trusted else "\u2013"

    def relations_part(self) -> Html:
        """The relations, and who may do what with each, up to which label."""
        parts: list[Html] = [
            tag("h2", "Relations"),
            tag(
                "p",
                "A write gives read and append too. At the highest label a user sees the rows of all labels below it.",
            ),
        ]
        for relation, attributes in self.found.relations.items():
            rows = []
            for user in self.found.users:
                modes = self.found.rights.get((user.name, relation))
                if modes:
                    rows.append(
                        [
                            user.name,
                            ", ".join(modes),
                            self.chips(self.told.access.highest(self.found, user.name, relation)) or "sees nothing",
                        ]
                    )
            classes = [
                joined(
                    [
                        f"{name} ({kind}{', key' if part == 'key' else ''}) ",
                        chip(low, self.hues),
                        " to ",
                        chip(high, self.hues),
                        Html("&ensp; "),
                    ]
                )
                for part, name, kind, low, high in attributes
            ]
            listed = self.table(
                ["User", "Modes", "Highest label"], rows
            ) if rows else tag("p", "Nobody has a right to it.")
            parts += [tag("h3", relation), tag("p", *classes, class_="soft"), listed]
        return joined(parts)

    def transaction(self, one: Transaction) -> Html:
        """What can come down by a transaction."""
        told = [
            joined([f"statement {number}, to ", chip(low, self.hues), f" {what}", Html("<br>")])
            for number, low, what in one.releases
        ]
        told += [Html(f"{one.total}")] if one.total else []
        denied = [f"{user}: {why}" for user, why in one.denied(self.found.rights)]
        verdict = holds(one)
        entries = [
            ("Labels", joined([chip(one.low, self.hues), " to ", chip(one.high, self.hues)])),
            (
                "Releases",
                joined(told) if told else "nothing" if not one.refusal else "not known: no labels are safe for it",
            ),
            ("Reads", self.sources(one)),
            ("Certificate", verdict if verdict == "holds" else tag("span", verdict, class_="no")),
            ("Who can call it", self.names(one.callers())),
            *([("Denied", joined([*(joined([line, Html("<br>")]) for line in denied)]))] if denied else []),
        ]
        listed = tag("dl", *(part for head, cell in entries for part in (tag("dt", head), tag("dd", cell))))
        return tag(
            "section",
            tag("h3", one.name),
            listed,
            tag("pre", "\n".join([*one.text, *one.refusal])),
            class_="transaction",
            id=f"t-{one.name}",
        )

    def transactions_part(self) -> Html:
        """All transactions."""
        if "transactions" not in self.told.files:
            return joined([tag("h2", "Transactions"), tag("p", "None were given: nothing can come down.")])
        head = tag(
            "p",
            "Denied is who has a right to a transaction and cannot call it. Ranges hold whatever is stored; nothing "
            "bounds how often a call is made.",
        )
        return joined([tag("h2", "Transactions"), head, *map(self.transaction, self.told.transactions)])

    def warnings_part(self) -> Html:
        """The warnings."""
        told = self.told.warnings()
        listed = tag("ul", *(tag("li", line) for line in told), class_="plain") if told else tag("p", "None.")
        return joined([tag("h2", "Warnings"), listed])

    def changes_part(self) -> Html:
        """What changed, for whom."""
        if not self.told.before:
            return Html("")
        rows = [[whom, lines(gone), lines(new)] for whom, gone, new in changes(self.told)]
        listed = self.table(["For", "No longer", "Now"], rows) if rows else tag("p", "Nothing of what is said here.")
        return joined([tag("h2", "What changed"), listed])

    def inputs_part(self) -> Html:
        """The inputs with their sums."""
        reports = [("", self.told), *([("before: ", self.told.before)] if self.told.before else [])]
        rows = [[f"{when}{role}", tag("bdi", PurePath(path).name), tag("span", one.sums[path], class_="mono sum")]
                for when, one in reports for role, path in one.files.items()]
        return joined([tag("h2", "Inputs"), self.table(["Role", "File", "SHA-256"], rows)])

    def page(self) -> str:
        """The whole page."""
        count = len(self.labels)
        things = {
            "label": count,
            "user": len(self.found.users),
            "relation": len(self.found.relations),
            "transaction": len(self.told.transactions),
        }
        numbers = ", ".join(f"{number} {name}{'' if number == 1 else 's'}" for name, number in things.items())
        body = joined(
            [
                tag("h1", "Who can learn what, and by whose hand"),
                tag("p", numbers, class_="soft"),
                self.changes_part(),
                tag("h2", "What can come down"),
                tag(
                    "p",
                    "A value comes down by a release alone, in a call of a transaction whose certificate holds. Each "
                    "call and each value is in the audit list.",
                ),
                self.shorts(),
                self.warnings_part(),
                self.labels_part(),
                self.users_part(),
                self.relations_part(),
                self.transactions_part(),
                self.inputs_part(),
                tag(
                    "footer",
                    f"{self.told.version}. Who may do what is how the program answered each user over an empty "
                    "database; ranges and certificates are what mldb explain and mldb check print.",
                ),
                tag("p", "Read and signed:", class_="sign"),
            ]
        )
        style = f"main {{ max-width: 60rem; }}\n{STYLE}{hue_style(count)}"
        return page("Who can learn what, and by whose hand", body, style)


def lines(facts: list[str]) -> Html:
    """Facts below each other."""
    return joined(part for fact in facts for part in (fact, Html("<br>"))) or Html("\u2013")
