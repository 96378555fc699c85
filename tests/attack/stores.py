"""Stores, a second time: values, keys and entries as bytes, and the rows that a database is."""

import sqlite3
from collections import namedtuple

from model import Row, World, is_stored, is_time

TABLES = {"node": "rel, ent, kclass, label, pattern", "cell": "rel, ent, kclass, attr, label, value",
          "audit": "number, bytes", "meta": "version, lattice, schemes"}
WORDS = ["called", "denied", "released"]


def read_store(path):
    """The rows of each table, in order."""
    with sqlite3.connect(path) as base:
        rows = {table: sorted(base.execute(f"SELECT {columns} FROM {table}")) for table, columns in TABLES.items()}
    base.close()
    return rows


def value_bytes(one):
    if isinstance(one, int):
        return b"\1" + one.to_bytes(8, "big", signed=True)
    return b"\0" if one is None else b"\2" + len(one.encode()).to_bytes(4, "big") + one.encode()


def values_of(data):
    """The values that some bytes spell, if they do: whoever reads them spells them again."""
    found = []
    while data:
        size = {0: 1, 1: 9, 2: 5 + int.from_bytes(data[1:5], "big")}[data[0]]
        text = data[5:size].decode() if data[0] == 2 else None
        found.append(int.from_bytes(data[1:size], "big", signed=True) if data[0] == 1 else text)
        data = data[size:]
    return tuple(found)


def short(text):
    return bytes([len(text.encode())]) + text.encode()


class Store(namedtuple("Store", "policy schemes")):
    """A store under a policy and relations."""

    def entry_bytes(self, entry):
        label, word, user, session, what, time = entry
        tail = value_bytes(what) if word == "released" else short(what) if word == "called" else bytes([what])
        tag, stamp = WORDS.index(word) + 1 + 3 * bool(time), (time or "").encode()
        return bytes([tag, self.policy.number(label)]) + stamp + short(user) + short(session) + tail

    def entry_of(self, data):
        kind, time = {tag: WORDS[(tag - 1) % 3] for tag in range(1, 7)}[data[0]], None
        if data[0] > 3:
            time, data = data[2:22].decode(), data[:2] + data[22:]
            if not is_time(time):
                raise ValueError(time)
        user, rest, head = data[3:3 + data[2]].decode(), data[3 + data[2]:], data[:2]
        session, tail = rest[1:1 + rest[0]].decode(), rest[1 + rest[0]:]
        what = tail[1:].decode() if kind == "called" else tail[0] if kind == "denied" else values_of(tail)[0]
        return list(self.policy.labels)[head[1]], kind, user, session, what, time

    def meta(self, version):
        return version, self.policy.lattice(), self.policy.schemes(self.schemes)

    def rows_of(self, world, version=None):
        """The rows of a world, in a store of a version or else of that of the policy."""
        nodes, cells, number = set(), set(), self.policy.number
        for rel, relation in enumerate(self.schemes.values()):
            for t in world.relations[relation.name]:
                at = rel, bytes([len(t.key)]) + b"".join(map(value_bytes, t.key)), number(t.key_class)
                nodes.add((*at, number(self.policy.class_of(t)), bytes(number(label) for _, label in t.elements)))
                for attr, (one, label) in enumerate(t.elements):
                    cells.add((*at, attr, number(label), value_bytes(one)))
        audit = [(count, self.entry_bytes(entry)) for count, entry in enumerate(world.audit, 1)]
        meta = [self.meta(version or self.policy.version)]
        return {"node": sorted(nodes), "cell": sorted(cells), "audit": audit, "meta": meta}

    def world_of(self, rows):
        """The world whose rows these are, or the fault with which the store is refused."""
        versions = [row[0] for row in rows["meta"]]
        if versions not in ([1], [2]):
            return "3 BadRows"
        if rows["meta"] != [self.meta(versions[0])]:
            return "2 OtherPolicy"
        try:
            labels, values = list(self.policy.labels), {row[:5]: row[5] for row in rows["cell"]}
            relations = {name: set() for name in self.schemes}
            for rel, ent, kclass, _, pattern in rows["node"]:
                cells = [values[rel, ent, kclass, attr, label] for attr, label in enumerate(pattern)]
                elements = tuple((values_of(cell)[0], labels[label]) for cell, label in zip(cells, pattern))
                relations[list(self.schemes)[rel]].add(Row(values_of(ent[1:]), labels[kclass], elements))
            world = World(relations, {}, tuple(self.entry_of(row[1]) for row in rows["audit"]))
            is_sound = self.rows_of(world, versions[0]) == rows and all(
                is_stored(self.policy, one, relations[one.name]) for one in self.schemes.values())
        except (LookupError, ValueError):
            return "3 BadRows"
        return world if is_sound else "3 BadRows"
