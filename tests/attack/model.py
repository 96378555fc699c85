"""The definitions, again: a database is a set of whole tuples, a view is filter and maximum, the machine is a step."""

import operator
import re
from collections import namedtuple

OUTCOMES = {11: "KeyNull", 12: "Duplicate", 13: "NoTuple", 14: "NullAboveKey", 15: "Inherited", 16: "OutOfInterval",
            17: "AlreadyDerived", 18: "Unexpected"}
DENIALS = {31: "NoSession", 32: "AlreadyOpen", 33: "UnknownUser", 34: "UnknownTransaction", 35: "NotCertified",
           36: "Ds", 37: "Ss", 38: "Star", 39: "Trust", 40: "Arguments"}
ARITHMETIC = {"+": operator.add, "-": operator.sub, "*": operator.mul}
ORDERS = {"<": operator.lt, "<=": operator.le, ">": operator.gt, ">=": operator.ge}
MODES = ["execute", "read", "append", "write"]
SERVES = {"insert": {"append", "write"}, "update": {"write"}, "delete": {"write"}, "call": {"execute"}}
TIME = re.compile("[0-9]{4}-([0-9]{2})-([0-9]{2})T([0-9]{2}):([0-9]{2}):([0-9]{2})Z")
CONTROLS, HIGH_CONTROLS = re.compile("[\x00-\x1f\x7f]"), re.compile("[\x80-\x9f]")


class Label(namedtuple("Label", "rank categories")):
    """A rank and a set of categories: `a <= b` where b dominates a, and `a | b` is the join."""

    def __le__(self, other):
        return self.rank <= other.rank and self.categories <= other.categories

    def __or__(self, other):
        return Label(max(self.rank, other.rank), self.categories | other.categories)


BOTTOM = Label(0, frozenset())
Attribute = namedtuple("Attribute", "name kind low high")
Row = namedtuple("Row", "key key_class elements")  # elements: of each attribute outside the key a value and a class


class Policy(namedtuple("Policy", "version levels categories labels users matrix")):
    """Labels by name, in order; users with clearance and trusted interval; rights. A class is the name of a label."""

    def below(self, low, high):
        return self.labels[low] <= self.labels[high]

    def within(self, label, attribute):
        return self.below(attribute.low, label) and self.below(label, attribute.high)

    def number(self, label):
        return list(self.labels).index(label)

    def class_of(self, row):
        """The label that is the join of a tuple's classes."""
        label = self.labels[row.key_class]
        for _, name in row.elements:
            label = label | self.labels[name]
        return next((name for name, declared in self.labels.items() if declared == label), None)

    def view(self, rows, label):
        """Of all tuples, the high ones too, what a level may see of each; and of that what nothing else subsumes."""
        seen = {Row(t.key, t.key_class, tuple(
            one if self.below(one[1], label) else (None, t.key_class) for one in t.elements))
                for t in rows if self.below(t.key_class, label)}
        return self.in_order(s for s in seen if not any(t != s and subsumes(t, s) for t in seen))

    def in_order(self, rows):
        return sorted(rows, key=lambda t: (t.key, self.number(t.key_class), self.number(self.class_of(t))))

    def lattice(self):
        """The lines of levels, categories and labels of the canonical text."""
        lines = [f"level {name}" for name in self.levels] + [f"category {name}" for name in self.categories]
        for name, label in self.labels.items():
            categories = [self.categories[bit] for bit in sorted(label.categories)]
            lines.append(" ".join(["label", name, self.levels[label.rank], *categories]))
        return "".join(line + "\n" for line in lines)

    def schemes(self, relations):
        """The canonical text of relations."""
        return f"schemes {self.version}\n" + "".join(relation.canon() for relation in relations.values())

    def canon(self):
        lines = [" ".join(["user", name, clearance, *trusted]) for name, (clearance, trusted) in self.users.items()]
        for pair, modes in self.matrix.items():
            lines.append(" ".join(["matrix", *pair, *sorted(modes, key=MODES.index)]))
        return f"policy {self.version}\n" + self.lattice() + "".join(line + "\n" for line in lines)


class Relation(namedtuple("Relation", "name key others")):
    def canon(self):
        lines = [f"relation {self.name}"] + [" ".join(["key", *one]) for one in self.key]
        return "".join(line + "\n" for line in lines + [" ".join(["attribute", *one]) for one in self.others])

    def attributes(self):
        return self.key + self.others

    def fields(self, row, front=""):
        names = [front + one.name for one in self.attributes()]
        return dict(zip(names, row.key + tuple(value for value, _ in row.elements)))


def is_time(text):
    """Whether it has the form of a time, with no word on calendars."""
    parts = TIME.fullmatch(text)
    bounds = [(1, 12), (1, 31), (0, 23), (0, 59), (0, 59)]
    return bool(parts) and all(low <= int(part) <= high for part, (low, high) in zip(parts.groups(), bounds))


def subsumes(t, s):
    return (t.key, t.key_class) == (s.key, s.key_class) and all(
        a == b or (a[0] is not None and b[0] is None) for a, b in zip(t.elements, s.elements))


def is_of_kind(value, kind):
    return value is None or (type(value) is int) == (kind == "int")


def is_stored(policy, relation, rows):
    """Whether a set of tuples has the stored form."""
    def is_right(t):
        low, classes = policy.below, [t.key_class] + [name for _, name in t.elements]
        peers = {policy.class_of(s): s for s in rows if (s.key, s.key_class) == (t.key, t.key_class)}
        values = t.key + tuple(value for value, _ in t.elements)
        kinds = list(zip(relation.attributes(), values, [t.key_class] * len(t.key) + classes[1:]))
        return ((len(t.key), len(t.elements)) == (len(relation.key), len(relation.others)) and None not in t.key
                and all(is_of_kind(value, one.kind) and policy.within(name, one) for one, value, name in kinds)
                and all(low(t.key_class, name) and (one is not None or name == t.key_class) for one, name in t.elements)
                and all(low(a, b) or low(b, a) for a in classes for b in classes)
                and all(m in peers for m in classes)
                and all(a == b for m in classes for a, b in zip(t.elements, peers[m].elements) if low(a[1], m)))
    return all(map(is_right, rows))


def operate(op, a, b):
    """An operation of two values, or nulls, or truth values."""
    if op in ("and", "or"):
        return a and b if op == "and" else a or b
    if op in ("=", "<>"):
        return (a == b) == (op == "=")
    if a is None or b is None:
        return None if op in ARITHMETIC else False
    result = (ARITHMETIC | ORDERS)[op](a, b)
    return result if op in ORDERS or -2**63 <= result < 2**63 else None


def value(tree, given):
    """The value of a constant, a name, a negation or an operation."""
    if tree[0] in ("constant", "name"):
        return tree[1] if tree[0] == "constant" else given[tree[1]]
    if tree[0] == "not":
        return not value(tree[1], given)
    return operate(tree[1], value(tree[2], given), value(tree[3], given))


World = namedtuple("World", "relations sessions audit")  # sets of tuples by name; users by level and name; entries


class Site(namedtuple("Site", "policy schemes stored table")):
    """What a run stands on: of each name a transaction and whether it is certified, and whether views are tables."""

    def start(self):
        return World({name: frozenset() for name in self.schemes}, {}, ())

    def entity(self, rows, key, key_class):
        """The tuples of a key and a key class, by their classes."""
        return {self.policy.class_of(t): t for t in rows if (t.key, t.key_class) == (key, key_class)}

    def outcome(self, one, rows, key, sets):
        """The first refusal of an insert, an update or a delete at a label that holds, or 0."""
        w, below, entity = one.label, self.policy.below, self.entity(rows, key, one.key_class)
        inserts, updates, start = one.verb == "insert", one.verb == "update", one.start or w
        relation = self.schemes[one.relation]
        elements = zip(relation.others, entity[w].elements if w in entity else [])
        named = [other for other in relation.others if other.name in sets] if updates else relation.attributes()
        return next((code for code, holds in [
            (11, None in key),
            (13, not inserts and (start not in entity or not below(one.key_class, start) or not below(start, w))),
            (17, updates and start != w and w in entity),
            (12, inserts and w in self.entity(rows, key, w)),
            (15, updates and start == w and any(other in named and label != w for other, (_, label) in elements)),
            (14, updates and None in sets.values() and w != one.key_class),
            (16, (inserts or start != w) and not all(self.policy.within(w, other) for other in named))] if holds), 0)

    def write(self, relations, one, key, values, sets):
        """A write: its outcome, and the relations after it."""
        others, rows, w = self.schemes[one.relation].others, relations[one.relation], one.label
        code, entity = self.outcome(one, rows, key, sets), self.entity(rows, key, one.key_class)

        def renewed(t, may):
            return t._replace(elements=tuple((sets[one.name], w) if one.name in sets and may(element[1]) else element
                                             for one, element in zip(others, t.elements)))
        if code:
            return code, relations
        if one.verb == "insert":
            rows = rows | {Row(key, w, tuple((each, w) for each in values))}
        elif one.verb == "delete":
            rows = rows - {t for label, t in entity.items() if self.policy.below(w, label)}
        elif one.start == w:
            rows = rows - set(entity.values()) | {renewed(t, lambda label: label == w) for t in entity.values()}
        else:
            rows = rows | {renewed(entity[one.start], lambda label: True)}
        return 0, {**relations, one.relation: rows}

    def perform(self, block, relations, given, told):
        """What a block makes of the relations. Variables are set in given; told gets what is emitted and released."""
        for one in block:
            if one.verb == "if":
                relations = self.perform(one.blocks[0 if value(one.expr, given) else 1], relations, given, told)
            elif one.verb == "for":
                for row in self.policy.view(relations[one.relation], one.label):
                    given.update(self.schemes[one.relation].fields(row, one.target + "."))
                    relations = self.perform(one.blocks[0], relations, given, told)
            elif one.key:
                key, values = (tuple(value(tree, given) for tree in trees) for trees in (one.key, one.values))
                sets = {name: value(tree, given) for name, tree in one.sets.items()}
                given[one.target], relations = self.write(relations, one, key, values, sets)
            else:
                given[one.target] = value(one.expr, given)
                if one.verb != "assign":
                    told[one.verb].append((one.label, given[one.target]))
        return relations

    def denials(self, world, event):
        """The numbers of the denials whose conditions hold, in order; the first is told."""
        policy, level, verb = self.policy, event.label, event.verb
        user, (tx, certified) = world.sessions.get((level, event.session)), self.stored.get(event.target, (None, True))
        if verb == "open":
            yield from [32] if user else [33] if event.target not in policy.users else []
            if not policy.below(level, policy.users[event.target][0]):
                yield 37
        elif user is None:
            yield 31
        elif verb == "all":
            for one in event.ones:
                yield from self.denials(world, one)
        elif verb not in ("close", "audit"):
            yield from [34] if verb == "call" and not tx else [] if certified else [35]
            target = event.target if verb == "call" else event.relation
            if not SERVES.get(verb, {"read", "write"}).intersection(policy.matrix.get((user, target), ())):
                yield 36
            clearance, trusted = policy.users[user]
            named = {"insert": [], "dump": [level], "delete": [event.key_class], "call": [tx and tx.label],
                     "update": [event.key_class, event.start]}.get(verb, [event.at])
            if not all(policy.below(label, clearance) for label in named):
                yield 37
            if not (tx.low == level if verb == "call" else all(policy.below(label, level) for label in named)):
                yield 38
            below, values, params = policy.below, event.values, tx.params if tx else []
            if tx and tx.low != tx.label and not (
                    trusted and below(trusted[0], tx.low) and below(tx.label, trusted[1])):
                yield 39
            if tx and (len(values) != len(params) or any(
                    label == tx.low and not is_of_kind(one, kind) for one, (_, kind, label) in zip(values, params))):
                yield 40

    def step(self, world, event):
        """The next world, and the reply: its lines, each with the label that may see it."""
        world, lines = self.answer(world, event)
        return world, [(label, without_controls(line, HIGH_CONTROLS) if self.table else line) for label, line in lines]

    def answer(self, world, event):
        at = event.label, event.session
        code, user = next(self.denials(world, event), 0), world.sessions.get(at)
        if code:
            entries = ((event.label, "denied", user, event.session, code, event.time),) if user else ()
            return world._replace(audit=world.audit + entries), [(event.label, f"denied {code} {DENIALS[code]}")]
        if event.verb == "call":
            return self.call(world, event, user)
        if event.verb == "all":
            return self.batch(world, event)
        if event.verb in ("open", "close"):
            others = {one: who for one, who in world.sessions.items() if one != at}
            world = world._replace(sessions=others if user else others | {at: event.target})
            lines = ["closed"] if user else [f"opened {event.target}"]
        elif event.verb == "audit":
            seen = [entry for entry in world.audit if self.policy.below(entry[0], event.label)]
            lines = ["audit"] + [entry_line(entry) for entry in seen]
        elif event.verb in ("insert", "update", "delete"):
            code, relations = self.write(world.relations, event, event.key, event.values, event.sets)
            world, lines = world._replace(relations=relations), [f"refused {code} {OUTCOMES[code]}" if code else "done"]
        elif event.verb == "dump":
            lines = self.dump(event, world.relations[event.relation])
        else:
            rows = self.found(event, self.policy.view(world.relations[event.relation], event.at))
            lines = [self.met(event, rows)] if event.verb == "expect" else self.shown(event, rows)
        return world, [(event.label, line) for line in lines]

    def batch(self, world, event):
        """Commands in order, each over what those before it left: all of them, or none."""
        now, told = world, []
        for number, one in enumerate(event.ones, 1):
            now, lines = self.answer(now, one)
            if lines[0][1].startswith("refused"):
                return world, [(event.label, f"{lines[0][1]} at {number}")]
            told += lines
        return now, told

    @staticmethod
    def met(event, rows):
        return "done" if len(rows) == event.expected else f"refused 18 {OUTCOMES[18]}"

    def call(self, world, event, user):
        tx, told = self.stored[event.target][0], {"emit": [], "release": []}
        given = {name: one if is_of_kind(one, kind) else None for one, (name, kind, _) in zip(event.values, tx.params)}
        relations = self.perform(tx.body, world.relations, given | {name: None for name, _ in tx.vars}, told)
        entries = [(event.label, "called", user, event.session, tx.name, event.time)]
        entries += [(label, "released", user, event.session, one, event.time) for label, one in told["release"]]
        lines = [(label, f"{word} {spelled(one)}") for word in ("emit", "release") for label, one in told[word]]
        world = world._replace(relations=relations, audit=world.audit + tuple(entries))
        return world, [(event.label, f"called {tx.name}")] + lines

    def stands(self, op, label, other):
        """Whether a label stands to another as a comparison by dominance says."""
        under, over = self.policy.below(label, other), self.policy.below(other, label)
        return {"=": under and over, "<>": not (under and over), "<": under and not over, "<=": under,
                ">": over and not under, ">=": over}[op]

    def found(self, query, rows):
        """The rows of a view that are asked for."""
        name = self.policy.class_of
        if query.highest:
            rows = [t for t in rows if not any(s.key == t.key and self.stands("<", name(t), name(s)) for s in rows)]
        if query.test:
            rows = [t for t in rows if self.stands(query.test[0], name(t), query.test[1])]
        if query.where:
            rows = [t for t in rows if value(query.where, self.schemes[query.relation].fields(t))]
        return rows if query.first is None else rows[:query.first]

    def shown(self, event, rows):
        """The lines of a view or of a count, as rows or as a table."""
        parts = {"highest": event.highest, "class": event.test, "first": event.first is not None, "where": event.where}
        words = [word for word, part in parts.items() if part]
        heading = " ".join([event.verb, event.relation, "at", event.at, *words]) + ":"
        if event.verb == "count":
            return [f"{heading} {len(rows)}"]
        columns = [one.name for one in self.schemes[event.relation].attributes()]
        pairs = [([(part, t.key_class) for part in t.key] + [*t.elements], self.policy.class_of(t)) for t in rows]
        cells = [[f"{spelled(one)} {label}" for one, label in line] + [name] for line, name in pairs]
        if not self.table:
            return [" ".join([heading, *columns])] + ["row " + " | ".join(line) for line in cells]
        lines = [columns + ["class"]] + [[without_controls(cell, HIGH_CONTROLS) for cell in line] for line in cells]
        widths = [max(len(line[place]) for line in lines) for place in range(len(columns))] + [len("class")]
        filled = [" | ".join([cell.ljust(wide) for cell, wide in zip(line, widths[:-1])] + line[-1:]) for line in lines]
        return [heading, filled[0], "-+-".join("-" * wide for wide in widths)] + filled[1:]

    def dump(self, event, rows):
        """The lines of a script that make again what a level sees of a relation."""
        policy, others, lines = self.policy, self.schemes[event.relation].others, [f"dump {event.relation}:"]
        rank = {name: sum(policy.below(other, name) for other in policy.labels) for name in policy.labels}
        low = [t for t in policy.in_order(rows) if policy.below(policy.class_of(t), event.label)]
        for t in sorted(low, key=lambda t: (rank[policy.class_of(t)], policy.number(policy.class_of(t)))):
            name = policy.class_of(t)
            under = max({t.key_class, *(label for _, label in t.elements)} - {name}, key=rank.get, default=None)
            own = [(one.name, element[0]) for one, element in zip(others, t.elements) if element[1] == name]
            front = f"{event.relation} key ({', '.join(map(spelled, t.key))})"
            command = f"insert {front} values ({', '.join(spelled(one) for _, one in own)})"
            if name != t.key_class:
                sets = ", ".join(f"{other} = {spelled(one)}" for other, one in own)
                command = f"update {front} class {t.key_class} from {under} set {sets}"
            texts = [one for one in t.key + tuple(one for _, one in own) if isinstance(one, str)]
            is_read = not any(len(one.encode()) > 8192 for one in texts)
            lines.append(f"{'line' if is_read else 'unread'} {name} {event.session} {command}")
        return lines


def entry_line(entry):
    label, word, user, session, what, time = entry
    names = [without_controls(str(one)) for one in (user, session, what)]
    told = ["entry", label, word, *names[:2], spelled(what) if word == "released" else names[2]]
    return " ".join(told + ([time] if time else []))


def without_controls(text, controls=CONTROLS):
    return controls.sub(lambda one: f"\\x{ord(one[0]):02x}", text)


def spelled(one):
    if one is None or isinstance(one, int):
        return "null" if one is None else str(one)
    return '"' + without_controls(re.sub(r'(["\\])', r"\\\1", one)) + '"'
