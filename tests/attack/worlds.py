"""Random policies, relations, transactions and events: mostly such that they get far."""

import json
from types import SimpleNamespace

from model import BOTTOM, Attribute, Label, Policy, Relation

COMPARISONS, RELATIONS = ["=", "<>", "<", "<=", ">", ">="], ["REL", "ODD", "where"]
STORED, KINDS = ["Tx0", "Tx1", "Tx2", "Tx3"], ["int", "text"]
POOLS = {"int": [0, 1, 2, -1, 7, 10, 2**63 - 1, -2**63],
         "text": ["", "a", "b", "Vega", 'q"\\', "é #", "x\u0085", "Talos", "a\nb", "\r\n\0\x7f\\x0a", "y" * 1500]}
INSIDE = ["view", "count", "insert", "update", "delete"]  # what may stand in a batch, and what is expected
COMMANDS = ["insert", "view", "call"] * 3 + ["update"] * 4 + ["count", "delete", "dump", "audit", "close"]
STATEMENTS = "assign assign release release emit insert update delete if for if for".split()


def record(verb, **fields):
    """A command or a statement; what it has not is none or empty."""
    lacking = ("label", "target", "relation", "at", "test", "first", "where", "joint", "key_class", "start", "expr",
               "expected", "time")
    blank = dict.fromkeys(lacking) | {"key": (), "values": (), "sets": {}, "blocks": [], "ones": (), "highest": False}
    return SimpleNamespace(**blank | {"verb": verb} | fields)


class Maker:
    """What is random of one trial."""

    def __init__(self, rng):
        self.rng, self.pick, self.sessions, self.stored = rng, rng.choice, "aab", {}
        self.make_policy()
        self.schemes = {}
        for name in RELATIONS[:rng.randint(1, 3)]:
            key = [self.attribute("Id")]
            key += [key[0]._replace(name="Part", kind=self.pick(KINDS))] if self.chance(0.3) else []
            others = [self.attribute(f"A{place}") for place in range(self.pick([0, 1, 2, 2, 3, 3, 4, 15]))]
            self.schemes[name] = Relation(name, key, others)

    def chance(self, part):
        return self.rng.random() < part

    def some(self, items, least, most):
        return self.rng.sample(list(items), min(len(items), self.rng.randint(least, most)))

    def make_policy(self):
        levels, categories = ["Low", "Mid", "High"][:self.rng.randint(1, 3)], ["N", "K", "Z"][:self.rng.randint(0, 3)]
        values, count = [BOTTOM] * self.chance(0.9), min(self.rng.randint(2, 7), len(levels) << len(categories))
        while len(values) < count:
            one = Label(self.rng.randrange(len(levels)), frozenset(self.some(range(len(categories)), 0, 3)))
            values += [one] if one not in values else []
        self.rng.shuffle(values)
        labels = dict(zip(self.some(["U", "M", "S", "H", "count", "highest", "L_1"], 7, 7), values))
        self.policy = policy = Policy(self.rng.randint(1, 2), levels, categories, labels, {}, {})
        rights, self.grants = [["write"]] * 20 + [["read"], ["append"], ["append", "read"]], []
        users = ["ann", "bob", "hal", "tom"]
        for user in users:
            policy.users[user] = self.wide(1, 9)[1], self.wide(0, 9) or []
        while users:
            count = self.pick([1, 1, 1, 2, 4])
            some, users = users[:count], users[count:]
            for targets in self.parts(RELATIONS) + self.parts(STORED):
                modes = self.pick(rights if targets[0] in RELATIONS else [["execute"]])
                self.grants.append((some, targets, modes if self.chance(0.95) else []))
        for some, targets, modes in self.grants:
            policy.matrix.update({(user, target): modes for user in some for target in targets})

    def parts(self, items):
        """A list in parts, one after another."""
        cut = self.rng.randint(1, len(items))
        return [items[:cut]] + ([[one] for one in items[cut:]] if self.chance(0.7) else [items[cut:]] if items[cut:] else [])

    def above(self, low):
        return [label for label in self.policy.labels if self.policy.below(low, label)]

    def below(self, high):
        return self.pick([label for label in self.policy.labels if self.policy.below(label, high)])

    def between(self, low, high):
        return [label for label in self.above(low) if self.policy.below(label, high)]

    def wide(self, least, most):
        """The widest of some intervals, or none."""
        ends = [(low, high) for low in self.policy.labels for high in self.above(low)]
        return max(self.some(ends, least, most), default=None, key=lambda ends: len(self.between(*ends)))

    def attribute(self, name):
        return Attribute(name, self.pick(KINDS), *self.wide(1, 28))

    def value(self, kind):
        return None if self.chance(0.1) else self.pick(POOLS[kind][:4] if self.chance(0.6) else POOLS[kind])

    def values(self, attributes):
        return tuple(self.value(one.kind) for one in attributes)

    def event(self, world, may=lambda label: True):
        """An event of a session whose level may speak: of one command, or of several as one; perhaps with its time."""
        one = self.single(world, may)
        whole = self.batch(world, one) if one.verb in INSIDE and self.chance(0.15) else one
        whole.time = self.time() if self.chance(0.3) else None
        return whole

    def time(self):
        def number(low, high, width=2):
            return f"{self.rng.randint(low, high):0{width}}"
        day = f"{number(0, 9999, 4)}-{number(1, 12)}-{number(1, 31)}"
        return f"{day}T{number(0, 23)}:{number(0, 59)}:{number(0, 59)}Z"

    def batch(self, world, first):
        """A batch of this command and of others at its level."""
        more = [self.single(world, lambda label: label == first.label) for _ in range(self.pick([0, 1, 1, 2, 4]))]
        ones = [first] + [one for one in more if one.verb in INSIDE]
        for one in ones:
            one.session = first.session
            if one.verb == "count" and self.chance(0.7):
                one.verb, one.expected = "expect", self.pick([0, 0, 1, 1, 2, 3])
        self.rng.shuffle(ones)
        return record("all", label=first.label, session=first.session, ones=ones)

    def single(self, world, may):
        """An event of one command."""
        policy, labels, verb = self.policy, list(self.policy.labels), self.pick(COMMANDS)
        relation, name = self.pick(list(self.schemes.values())), self.pick([*self.stored] * 9 + STORED)
        rows, tx = sorted(world.relations[relation.name], key=repr), self.stored.get(name, (None, None))[0]
        if verb in ("update", "delete") and (not rows or not relation.others):
            verb = "insert"
        row = self.pick(rows) if rows and self.chance(0.85) else None
        start = policy.class_of(row) if row and self.chance(0.9) else self.pick(labels)
        wanted = {"update": self.above(start), "delete": [start], "call": [tx.low] if tx else labels}.get(verb, labels)
        levels = list(filter(may, labels))
        level = self.pick([one for one in levels if one in wanted and self.chance(0.95)] or levels)
        one = record(verb, label=level, session=self.pick(self.sessions), relation=relation.name)
        if (level, one.session) not in world.sessions and self.chance(0.95) or self.chance(0.02):
            fit = [user for user, (clearance, _) in policy.users.items() if policy.below(level, clearance)]
            one.target = self.pick(fit if fit and self.chance(0.95) else [*policy.users, "zed"])
            one.target = one.session if one.session in policy.users else one.target
            return record("open", label=level, session=one.session, target=one.target)
        one.key = row.key if row and self.chance(0.8) else self.values(relation.key)
        one.key_class = row.key_class if row and self.chance(0.95) else self.below(start)
        one.start, one.at = start if verb == "update" else None, self.below(level)
        one.at = one.at if self.chance(0.95) else self.pick(labels)
        one.values = self.values(relation.others) if verb == "insert" else ()
        named = self.some(relation.others, 1, self.pick([1, 1, 3])) if verb == "update" else []
        one.sets = {other.name: self.value(other.kind) for other in named}
        if verb == "call":
            given = [self.value(kind) for _, kind, _ in tx.params] if tx else []
            one.target, one.values = name, given if self.chance(0.9) else self.some([1, "a", None], 0, 2)
        if verb in ("view", "count"):
            self.ask(one, relation)
        return one

    def ask(self, one, relation):
        """Makes a view or a count of some of the rows."""
        one.highest, one.joint = self.chance(0.2), self.pick(["and", "or"])
        one.test = (self.pick(COMPARISONS), self.pick(list(self.policy.labels))) if self.chance(0.2) else None
        one.first = self.rng.randint(0, 2) if one.verb == "view" and self.chance(0.1) else None
        for _ in range(self.pick([0, 0, 1, 1, 2])):
            tested = self.pick(relation.attributes())
            right = self.expression(tested.kind, self.names(relation), 1)
            test = "operation", self.pick(COMPARISONS), ("name", tested.name), right
            one.where = ("operation", one.joint, one.where, test) if one.where else test

    @staticmethod
    def names(relation, front=""):
        return {kind: [front + one.name for one in relation.attributes() if one.kind == kind] for kind in KINDS}

    def expression(self, kind, names, depth=2):
        if kind == "truth":
            op = self.pick(COMPARISONS + (["and", "or", "not"] if depth else []))
            inner = "truth" if op in ("and", "or", "not") else self.pick(KINDS)
            left, right = (self.expression(inner, names, depth - 1) for _ in range(2))
            return ("not", left) if op == "not" else ("operation", op, left, right)
        if names[kind] and self.chance(0.7):
            return "name", self.pick(names[kind])
        if kind == "int" and depth > 0 and self.chance(0.4):
            left, right = (self.expression(kind, names, depth - 1) for _ in range(2))
            return "operation", self.pick("+-*"), left, right
        return "constant", self.value(kind)

    def transaction(self, name):
        low, high = self.wide(1, 9)
        labels, tx = self.between(low, high), SimpleNamespace(name=name, low=low, label=high, statements=[])
        tx.params = [(f"p{place}", self.pick(KINDS), self.pick(labels)) for place in range(self.pick([0, 0, 1, 2]))]
        tx.vars = [(f"v{place}", self.pick(["int", "int", "text"])) for place in range(self.rng.randint(0, 3))]
        names = {kind: [one[0] for one in tx.params + tx.vars if one[1] == kind] for kind in KINDS}
        tx.body = self.block(tx, names, 2, 1)
        return tx

    def block(self, tx, names, depth, least=0):
        return [self.statement(tx, names, depth) for _ in range(self.rng.randint(least, 5 if depth == 2 else 3))]

    def statement(self, tx, names, depth):
        def listed(attributes):
            return tuple(self.expression(one.kind, names, 1) for one in attributes)
        verb, kind = self.pick(STATEMENTS[:None if depth else 8]), self.pick(KINDS)
        relation = self.pick(list(self.schemes.values()))
        targets = {kind: [name for name, its in tx.vars if its == kind] for kind in KINDS}
        if verb in ("assign", "release") and not targets[kind] or verb == "update" and not relation.others:
            verb = "emit"
        one = record(verb, number=len(tx.statements) + 1, label=self.pick(self.between(tx.low, tx.label)))
        tx.statements.append(one)
        if verb in ("insert", "update", "delete"):
            start = self.below(one.label) if self.chance(0.95) else self.pick(list(self.policy.labels))
            one.relation, one.key, one.start = relation.name, listed(relation.key), start if verb == "update" else None
            one.key_class = self.below(start if self.chance(0.9) else one.label) if verb != "insert" else None
            one.target = self.pick(targets["int"]) if targets["int"] and self.chance(0.5) else None
            one.values = listed(relation.others) if verb == "insert" else ()
            named = self.some(relation.others, 1, 2) if verb == "update" else []
            one.sets = dict(zip([other.name for other in named], listed(named)))
        elif verb == "for":
            one.relation, one.target = relation.name, f"r{depth}"
            fields = self.names(relation, one.target + ".")
            one.blocks = [self.block(tx, {kind: names[kind] + fields[kind] for kind in KINDS}, depth - 1)]
        elif verb == "if":
            one.expr, one.blocks = self.expression("truth", names), [self.block(tx, names, depth - 1)]
            one.blocks.append(self.block(tx, names, depth - 1) if self.chance(0.3) else [])
        else:
            one.expr, one.target = self.expression(kind, names), self.pick(targets[kind]) if verb != "emit" else None
        return one

    def named(self, field, names):
        """One name, or a list."""
        return {field + "s": names} if len(names) > 1 or self.chance(0.2) else {field: names[0]}

    def documents(self):
        """The policy and the relations as TOML."""
        def tables(name, listed):
            return "".join(f"[[{name}]]\n" + "".join(f"{field} = {json.dumps(one)}\n" for field, one in table.items())
                           for table in listed)
        p, bits = self.policy, self.policy.categories
        users = [{"name": name, "clearance": one} | ({"trusted": trusted} if trusted else {})
                 for name, (one, trusted) in p.users.items()]
        labels = [{"name": name, "level": p.levels[one.rank], "categories": [bits[bit] for bit in one.categories]}
                  for name, one in p.labels.items()]
        rights = [self.named("user", some) | self.named("object", targets) | {"modes": modes}
                  for some, targets, modes in self.grants]
        schemes = policy = f"version = {p.version}\n"
        for one in self.schemes.values():
            key, others = ([attribute._asdict() for attribute in part] for part in (one.key, one.others))
            schemes += tables("relation", [{"name": one.name}]) + tables("relation.key", key)
            schemes += tables("relation.attribute", others)
        policy += f"levels = {json.dumps(p.levels)}\ncategories = {json.dumps(p.categories)}\n"
        return policy + tables("label", labels) + tables("user", users) + tables("matrix", rights), schemes
