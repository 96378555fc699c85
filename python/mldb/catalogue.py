"""The relations that a schemes file declares."""

import os
import tomllib
from dataclasses import dataclass
from functools import cached_property

from mldb.errors import InterfaceError


@dataclass(frozen=True)
class Attribute:
    """An attribute: its kind is `int` or `text`, its values have classes from `low` to `high`."""

    name: str
    kind: str
    low: str
    high: str
    is_key: bool


@dataclass(frozen=True)
class Relation:
    """A relation: its attributes, those of the key first."""

    name: str
    attributes: tuple[Attribute, ...]

    @cached_property
    def names(self) -> tuple[str, ...]:
        return tuple(one.name for one in self.attributes)

    @cached_property
    def key_size(self) -> int:
        return sum(one.is_key for one in self.attributes)

    @property
    def key(self) -> tuple[Attribute, ...]:
        return self.attributes[: self.key_size]

    @property
    def others(self) -> tuple[Attribute, ...]:
        return self.attributes[self.key_size:]


def _attributes(found: list[dict], is_key: bool) -> tuple[Attribute, ...]:
    return tuple(Attribute(one["name"], one["kind"], one["low"], one["high"], is_key) for one in found)


def read_schemes(path: str | os.PathLike) -> dict[str, Relation]:
    """The relations of a schemes file, by their names."""
    try:
        with open(path, "rb") as file:
            found = tomllib.load(file)["relation"]
        relations = [Relation(one["name"], _attributes(one["key"], True) + _attributes(one.get("attribute", []), False))
                     for one in found]
    except OSError as fault:
        raise InterfaceError(f"{path}: it cannot be read ({fault.strerror}): see to the path") from fault
    except (ValueError, KeyError, TypeError, AttributeError) as fault:
        told = f"{path}: it is not read as schemes ({fault!r}): `mldb explain POLICY SCHEMES` shows what is wrong"
        raise InterfaceError(told) from fault
    return {one.name: one for one in relations}
