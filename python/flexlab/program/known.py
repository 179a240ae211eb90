"""What a parameter file says of a cluster, as far as its records can be read."""
from __future__ import annotations

import re
from collections.abc import Mapping
from dataclasses import dataclass
from typing import TYPE_CHECKING, NamedTuple, Protocol
from ..toml.places import line_of
from ..base.ranges import NAMES
from ..base.ending import FILE, Stop
from .records import Record, load

if TYPE_CHECKING:
    from ..toml.cluster import Cluster


class HasLine(Protocol):
    """What is said on a line, which is None where that is not known."""

    @property
    def line(self) -> int | str | None: ...


@dataclass(frozen=True)
class Place:
    """A line of another file than one for flexray, or a path with it."""
    line: int | str | None


class Value(NamedTuple):
    """The value of a parameter."""
    value: int
    record: Record


class KnownNode(NamedTuple):
    """A node, as its record has it."""
    key: int | None
    channels: str
    coldstart: str
    record: Record


class KeySlot(NamedTuple):
    """A key slot and whose it is."""
    node: int
    key: int
    record: HasLine


class KnownSlot(NamedTuple):
    """Whose a further slot is."""
    node: int | None
    record: HasLine


def whole(text: str) -> int | None:
    return int(text) if re.fullmatch(r"-?\d{1,18}", text, re.ASCII) else None


def sure(text: str) -> int:
    """The number of a field that flexray took for one; a ValueError where it is none, so that this is another file."""
    found = whole(text)
    if found is None:
        raise ValueError(text)
    return found


class AnyKnown(Protocol):
    """What words about constraints ask of the parameters of a file, and where each of them stands."""

    @property
    def slots(self) -> Mapping[int, KnownSlot]: ...

    def parameter(self, name: str) -> int | None: ...

    def value(self, name: str) -> int: ...

    def line(self, name: str) -> int | str | None: ...

    def keys(self) -> list[KeySlot]: ...


def version_of(records: list[Record]) -> int:
    """The version of a parameter file: 2 where its first record says so."""
    first = records[0].fields if records else []
    return 2 if first[:1] == ["version"] and len(first) == 5 and whole(first[1]) == 2 and not any(first[2:]) else 1


class Known:
    def __init__(self, path: str | None = None) -> None:
        self.path = path
        self.records = load(path) if path else []
        self.values: dict[str, Value] = {}
        self.nodes: dict[int, KnownNode] = {}
        self.slots: dict[int, KnownSlot] = {}
        for record in self.records:
            fields = record.fields + [""] * 5
            first, second = whole(fields[1]), whole(fields[2])
            if fields[0] == "param" and fields[1] in NAMES and second is not None:
                self.values.setdefault(fields[1], Value(second, record))
            elif fields[0] == "node" and first is not None:
                self.nodes.setdefault(first, KnownNode(second, fields[3], fields[4], record))
            elif fields[0] == "slot" and first is not None:
                self.slots.setdefault(first, KnownSlot(second, record))

    def parameter(self, name: str) -> int | None:
        return self.values[name].value if name in self.values else None

    def value(self, name: str) -> int:
        """A parameter that flexray found there."""
        if name not in self.values:
            raise Stop(FILE, f"{self.path}: it has no record of {name}; is it another file than flexray read?")
        return self.values[name].value

    def line(self, name: str) -> int | str | None:
        return self.values[name].record.line if name in self.values else "?"

    def keys(self) -> list[KeySlot]:
        """The key slot of each node that has one."""
        return [KeySlot(number, node.key, node.record) for number, node in self.nodes.items() if node.key is not None]


class KnownToml:
    """The same of a cluster that a TOML file describes, with the lines of that file."""

    def __init__(self, cluster: Cluster) -> None:
        self.cluster = cluster
        self.slots = {slot: KnownSlot(node, self.record("slot", place, "slot"))
                      for place, (slot, node, _, _) in enumerate(cluster.slots)}

    def record(self, table: str, place: int, key: str) -> HasLine:
        return Place(line_of(self.cluster.text, table, place, key))

    def parameter(self, name: str) -> int | None:
        return self.cluster.parameters.get(name)

    def value(self, name: str) -> int:
        return self.cluster.parameters[name]

    def line(self, name: str) -> int | str | None:
        return line_of(self.cluster.text, "limits" if name.startswith("x") else "cluster", None, name)

    def keys(self) -> list[KeySlot]:
        return [KeySlot(node.number, node.key_slot, self.record("node", node.place, "key_slot"))
                for node in self.cluster.nodes.values() if node.key_slot is not None]
