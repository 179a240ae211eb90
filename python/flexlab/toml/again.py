"""The clusters of a study, which are of one TOML file with other numbers: the file is taken apart once, and what no other number
touches is kept from one cluster to the next."""
import operator
from collections.abc import Callable, Iterator, Sequence
from fractions import Fraction
from typing import Any, NamedTuple, TypeVar

from .cluster import Cluster, cluster_of, read_cluster
from .draws import draw, places
from .source import Source, copied
from .values import Table

Made = TypeVar("Made")


def texts(value: object) -> Iterator[str]:
    """The texts in a value of a file, however deep."""
    if isinstance(value, str):
        yield value
    elif isinstance(value, (list, dict)):
        for part in value.values() if isinstance(value, dict) else value:
            yield from texts(part)


class Kept(NamedTuple):
    """What was made of some tables, with all that it hangs on: their values, the numbers that texts among these name, and what
    stands beside; and what is noted as it is made."""
    values: list[object]
    named: dict[str, Fraction | None]
    beside: tuple[object, ...]
    made: Any
    notes: list[str]


class Keeper:
    """Hands out what was made before where it would be made again. A value that is the same one in two clusters was not changed: one that
    is varied or drawn is another object in each."""

    def __init__(self) -> None:
        self.kept: dict[object, Kept] = {}

    def __call__(self, what: object, source: Source, tables: Sequence[Table], beside: tuple[object, ...], make: Callable[[], Made],
                 notes: list[str] | None = None) -> Made:
        values = [value for table in tables for value in table.entries.values()]
        found = self.kept.get(what)
        if found is not None and found.beside == beside and len(values) == len(found.values) and all(
                map(operator.is_, values, found.values)) and all(source.values.get(name) == number for name, number in found.named.items()):
            if notes is not None:
                notes += found.notes
            made: Made = found.made
            return made
        faults, before = len(source.faults), len(notes or ())
        made = make()
        if len(source.faults) == faults:
            names = {text.lstrip("+-").strip() for text in texts(values)}
            named = {name: source.values.get(name) for name in names}
            self.kept[what] = Kept(values, named, beside, made, (notes or [])[before:])
        else:
            self.kept.pop(what, None)
        return made


class Again:
    """Reads the clusters of one file. What two of them share is not to be changed."""

    def __init__(self, path: str) -> None:
        first = Source(path)
        self.path, self.text, self.entries = path, first.text, first.raw
        # A fault of names is told with those of each cluster.
        self.is_faulty = bool(first.faults)
        self.keeper = Keeper()
        # Which tables have numbers that are drawn; the seed is in [run].
        self.drawn = {"run", *(name for name, _, table in places(self.entries) if any(isinstance(value, dict) for value in table.values()))}

    def source(self, changes: dict[str, Fraction], drawing: tuple[int | None, int]) -> Source:
        """The source with these numbers: as `Source` reads it, but that names were checked before."""
        found = Source.__new__(Source)
        found.path, found.text, found.values, found.faults = self.path, self.text, {}, {}
        found.raw, found.entries = self.entries, copied(self.entries)
        for key, number in changes.items():
            found.change(key, number)
        found.drawn = draw(self.path, self.text, {name: table for name, table in found.entries.items() if name in self.drawn}, *drawing)
        found.named()
        return found

    def cluster(self, changes: dict[str, Fraction], drawing: tuple[int | None, int]) -> Cluster:
        """The cluster with these numbers, the one that `read_cluster` reads."""
        if self.is_faulty:
            return read_cluster(self.path, changes, drawing)
        return cluster_of(self.source(changes, drawing), self.keeper)
