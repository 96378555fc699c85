"""Transactions, a second time: how they and commands are spelled, their certificates, and the rules of labels."""

from collections import namedtuple

from model import BOTTOM, spelled

COMMANDS = {
    "open": "open {target}", "close": "close", "audit": "audit", "dump": "dump {relation}",
    "call": "call {target} {values}",
    "view": "view {relation} at {at}{query}", "count": "count {relation} at {at}{query}",
    "all": "all {{ {ones} }}", "expect": "expect {expected} count {relation} at {at}{query}",
    "insert": "insert {relation} key {key} values {values}", "delete": "delete {relation} key {key} class {key_class}",
    "update": "update {relation} key {key} class {key_class} from {start} set {sets}"}
STATEMENTS = {
    "assign": "{target} := {expr};", "emit": "emit {expr} at {label};",
    "release": "release {expr} to {label} into {target};",
    "if": "if {expr} {blocks[0]}{other}", "for": "for {target} in {relation} at {label} {blocks[0]}",
    "insert": "insert {relation} key {key} values {values} at {label}{outcome};",
    "delete": "delete {relation} key {key} class {key_class} at {label}{outcome};",
    "update": "update {relation} key {key} class {key_class} from {start} at {label} set {sets}{outcome};"}


def text_of(tree):
    """An expression, or a value, as it is written."""
    if not isinstance(tree, tuple):
        return spelled(tree)
    if tree[0] in ("constant", "name"):
        return spelled(tree[1]) if tree[0] == "constant" else tree[1]
    return f"not {text_of(tree[1])}" if tree[0] == "not" else f"({text_of(tree[2])} {tree[1]} {text_of(tree[3])})"


def written(one, forms=None):
    """A command or a statement in its form. The tests of a query stand side by side, joined by one word."""
    def tests(tree):
        return f"{tests(tree[2])} {tree[1]} {tests(tree[3])}" if tree[1] == one.joint else text_of(tree)[1:-1]
    query = " highest" * one.highest + (f" class {one.test[0]} {one.test[1]}" if one.test else "")
    query += "" if one.first is None else f" first {one.first}"
    query += f" where {tests(one.where)}" if one.where else ""
    lists = {name: "(" + ", ".join(map(text_of, getattr(one, name))) + ")" for name in ("key", "values")}
    blocks = ["{\n" + "".join(map(written, block)) + "}" for block in one.blocks]
    return (forms or STATEMENTS)[one.verb].format(**vars(one) | lists | {
        "query": query, "expr": text_of(one.expr), "blocks": blocks,
        "outcome": f" as {one.target}" * bool(one.target),
        "ones": "; ".join(written(each, forms)[:-1] for each in one.ones),
        "sets": ", ".join(f"{name} = {text_of(tree)}" for name, tree in one.sets.items()),
        "other": f" else {blocks[1]}" if one.blocks[1:] and one.blocks[1] else ""}) + "\n"


def stamp(event):
    """The time before a line, if it has one."""
    return f"{spelled(event.time)} " if event.time else ""


def line(event):
    """A line of a script, behind its time if it has one."""
    return f"{stamp(event)}{event.label} {event.session} {written(event, COMMANDS)}"


def transaction_text(tx):
    params = ", ".join(f"{name}: {kind} at {label}" for name, kind, label in tx.params)
    body = "".join(f"var {name}: {kind};\n" for name, kind in tx.vars) + "".join(map(written, tx.body))
    return f"transaction {tx.name} levels {tx.low} to {tx.label} ({params}) {{\n{body}}}\n"


class Certificate(namedtuple("Certificate", "version pcs rows")):
    """Labels of statements, and rows of labels of variables: one in version 1, one per statement in version 2."""

    def after(self, one):
        return self.rows[0 if self.version == 1 else one.number - 1]

    def block(self, name):
        def text(label):
            return f"{label.rank}:{sum(1 << bit for bit in label.categories):08x}"
        rows = [("pcs", self.pcs)] + [("row", row) for row in self.rows]
        lines = [("vars", self.rows[0]), rows[0]] if self.version == 1 else rows
        texts = [" ".join([word, *map(text, labels)]) + "\n" for word, labels in lines]
        return f"certificate {self.version} {name}\n" + "".join(texts)


def demands(policy, tx, cert):
    """The lines of the rules, in the order in which the checker asks them: a statement, a rule, a label, and the one
    that has to dominate it; where that one is of the certificate, then its list and its place there."""
    labels, names = policy.labels, [name for name, _ in tx.vars]
    low, high = labels[tx.low], labels[tx.label]
    params = {name: labels[label] for name, _, label in tx.params}

    def label_of(tree, before, rows):
        if tree[0] == "constant":
            return BOTTOM
        if tree[0] == "name":
            name = tree[1].split(".")[0]
            return rows[name] if "." in tree[1] else params[name] if name in params else before[names.index(name)]
        parts = [label_of(part, before, rows) for part in tree[1:] if isinstance(part, tuple)]
        return parts[0] | parts[-1]

    def of_block(block, outer, before, rows):
        for one in block:
            for line in of_statement(one, outer, before, rows):
                yield one.number, *line
            here = {**rows, one.target: labels[one.label]} if one.verb == "for" else rows
            for inner in one.blocks:
                start = cert.after(one) if one.verb == "for" else before
                yield from of_block(inner, cert.pcs[one.number - 1], start, here)
            before = cert.after(one)

    def of_statement(one, outer, before, rows):
        number, after = one.number - 1, cert.after(one)
        pc, at = cert.pcs[number], labels.get(one.label)
        told = label_of(one.expr, before, rows) if one.expr else None
        target = (after[names.index(one.target)], after, names.index(one.target)) if one.target in names else None
        for label in [pc] + (after if cert.version == 2 else []):
            yield "44", label, high
        yield "F8", outer, pc, cert.pcs, number
        if one.verb == "assign":
            yield "F1", pc | told, *target
        if one.verb == "for":
            yield "F3", at, high
        rule = "F2" if one.verb == "if" else "F3"
        for inner in [inner for block in one.blocks for inner in block]:
            yield rule, pc | (told or at), cert.pcs[inner.number - 1], cert.pcs, inner.number - 1
        ends = [cert.after(block[-1]) if block else before for block in one.blocks]
        for row in ends + [before] * (one.verb == "for"):
            for place, label in enumerate(row):
                yield rule, label, after[place], after, place
        if one.key:
            for label in [pc] + [label_of(tree, before, rows) for tree in [*one.key, *one.values, *one.sets.values()]]:
                yield "F4", label, at
            yield "F4", at, high
            if target:
                yield "F4", at, *target
        if one.key_class:
            yield "F5", labels[one.key_class], labels[one.start or one.label]
            yield "F5", labels[one.start or one.label], at
        if one.verb == "release":
            yield "F6", pc, at
            yield "F6", told, high
            yield "F6", at, *target
        if one.verb == "emit":
            yield "F7", pc | told, at
            yield "F7", at, high
        for place, name in enumerate([] if one.blocks else names):
            if name != one.target:
                yield "F9", before[place], after[place], after, place

    for label in cert.rows[0] if cert.version == 1 else []:
        yield 0, "44", label, high
    for label in params.values():
        yield 0, "F8", low, label
        yield 0, "F8", label, high
    yield from of_block(tx.body, low, cert.rows[0] if cert.version == 1 else [BOTTOM] * len(names), {})


def refusal(policy, tx, cert):
    """The first line that is broken, as its statement and rule, or None."""
    if any(len(row) != len(tx.vars) for row in cert.rows):
        return 0, "42"
    if len(cert.pcs) != len(tx.statements) or cert.version == 2 and len(cert.rows) != len(tx.statements):
        return 0, "43"
    return next((line[:2] for line in demands(policy, tx, cert) if not line[2] <= line[3]), None)


def least(policy, tx, version):
    """The least labels with which all those lines hold whose upper label can rise."""
    rows = [[BOTTOM] * len(tx.vars) for _ in (tx.statements if version == 2 else [1])]
    cert, risen = Certificate(version, [BOTTOM] * len(tx.statements), rows), True
    while risen:
        risen = False
        for _, _, label, _, *part in demands(policy, tx, cert):
            if part and not label <= part[0][part[1]]:
                part[0][part[1]] = part[0][part[1]] | label
                risen = True
    return cert


def certify(policy, tx):
    """The least certificate, of version 1 if there is one; or the line that the least labels of version 2 break."""
    for version in (1, 2):
        cert = least(policy, tx, version)
        if refusal(policy, tx, cert) is None:
            return cert, None
    return None, refusal(policy, tx, cert)
