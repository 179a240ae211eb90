"""The forms of records in each of flexray's files: which fields, of what kind, in which range, as the specification says, from which
tools/forms writes base/specified.py; and beside it what that does not say, units and which records are second ones."""
from __future__ import annotations

from collections.abc import Iterator, Mapping
from typing import TYPE_CHECKING, NamedTuple
from ..base import specified
from ..base.ranges import NAMES
from .records import Record

if TYPE_CHECKING:
    from .known import Known


class Field(NamedTuple):
    """A field of a record: its name, its kind, and the range of a number where parameters do not decide it."""
    name: str
    kind: str
    least: int | None
    most: int | None
    unit: str


class Form(NamedTuple):
    """How many fields a record of a file has, and by its first field what those behind it are; `bare` has those of a record whose
    second field is empty, where such a one has a form of its own."""
    width: int
    kinds: dict[str, list[Field]]
    bare: Mapping[str, list[Field]] = {}


class Limit(NamedTuple):
    """Which parameter decides the range of a field: each end is so many times its value and a number."""
    parameter: str
    least: tuple[int, int]
    most: tuple[int, int]


class Span(NamedTuple):
    """What a number may be."""
    least: int
    most: int
    unit: str


# Units of numbers by the names of their fields, and of some by their file too.
UNITS = {"FROM": "cycles", "TICKS": "ticks", "LOW": "ticks", "HIGH": "ticks", "SHIFT": "ticks", "START": "ticks", "LENGTH": "ticks",
         "STAMP": "units", "RATE": "microticks", "OFFSET": "microticks", "BIT": "bits", "DOUBLE": "double cycles", "TIME": "macroticks",
         "PPM": "parts per million", "drift COUNT": "double cycles", "power COUNT": "cycles", "trace VALUE": "microticks"}
SPELT = specified.SPELT
LIMITED = {kind: Limit(*told) for kind, told in specified.LIMITED.items()}
NUMERIC = ("number", "node", "key", "value", *LIMITED)
EMPTY = Field("an empty field", "empty", None, None, "")


def described(role: str, field: specified.Field) -> Field:
    name, kind, least, most = field
    return EMPTY if kind == "empty" else Field(name, kind, least, most, UNITS.get(f"{role} {name}", UNITS.get(name, "")))


def form(role: str) -> Form:
    width, *both = specified.RECORDS[role]
    kinds, bare = ({kind: [described(role, field) for field in fields] for kind, fields in forms.items()} for forms in both)
    return Form(width, kinds, bare)


FORMS = {role: form(role) for role in specified.RECORDS}


def says_bytes(fields: list[Field]) -> bool:
    return any(field.kind == "hex" for field in fields)


# The rows of a script about frames on their way, and those of them that harm what a correct node sends: they say no bytes.
OF_FRAMES = tuple(kind for kind, fields in FORMS["script"].kinds.items() if any(field.kind == "channel" for field in fields))
HARMS = tuple(kind for kind in OF_FRAMES if not says_bytes(FORMS["script"].kinds[kind]))
# By which fields a second record is of the same as an earlier one of its kind; rows about frames are one kind.
ONCE: dict[str, dict[str, tuple[str, ...]]] = {
    "params": {"param": ("NAME",), "node": ("ID",), "slot": ("SLOT",)},
    "drift": {"doubles": (), "start": ("NODE",), "length": ("NODE", "FROM"), "delay": ("SENDER", "RECEIVER", "CHANNEL", "FROM")},
    "script": {"arbitrary": ("NODE",), "join": ("NODE",), **dict.fromkeys(OF_FRAMES, ("CYCLE", "SENDER", "RECEIVER", "CHANNEL"))},
    "power": {"cycles": ()},
    "log": {**{kind: () for kind, fields in FORMS["log"].kinds.items() if not says_bytes(fields)}, "delay": ("NODE", "CHANNEL"),
            "arbitrary": ("NODE",)},
}


def form_of(role: str, record: Record) -> list[Field] | None:
    """The descriptions of a record's fields, the first field's not among them, or None for no kind."""
    form, kind = FORMS[role], record.fields[0]
    if kind in form.bare and record.fields[1:2] == [""]:
        return form.bare[kind]
    return form.kinds.get("" if "" in form.kinds else kind)


def spelling(kind: str, fields: list[Field]) -> str:
    """A form as documents have it, `lost,COUNT,,,`: a field that has one value alone is that value."""
    names = ("" if field is EMPTY else str(field.least) if field.least is not None and field.least == field.most else field.name
             for field in fields)
    return ",".join([*([kind] if kind else []), *names])


def spelt(role: str, kind: str) -> str:
    return spelling(kind, FORMS[role].kinds[kind])


def placed(role: str, record: Record) -> Iterator[tuple[int, Field, str]]:
    """(place from 1, description, text) of each field that its form describes."""
    first = 0 if "" in FORMS[role].kinds else 1
    for place, described in enumerate(form_of(role, record) or []):
        if first + place < len(record.fields):
            yield first + place + 1, described, record.fields[first + place]


def span(field: Field, record: Record, cluster: Known) -> Span | None:
    """(least, most, unit) of a numeric field, or None; parameters decide some."""
    _, kind, least, most, unit = field
    if kind == "value":
        found = NAMES.get(record.fields[1])
        return Span(found.least, found.most, found.unit) if found else None
    if kind in LIMITED:
        name, low, high = LIMITED[kind]
        value = cluster.parameter(name)
        return Span(low[0] * value + low[1], high[0] * value + high[1], unit) if value is not None else None
    return Span(least, most, unit) if least is not None and most is not None else None
