"""One value of a TOML file at a time: what it may be, and the refusal with line, key and range."""
from __future__ import annotations

import difflib
import re
from decimal import Decimal
from fractions import Fraction
from collections.abc import Collection, Iterable, Mapping
from typing import TYPE_CHECKING, Any, NoReturn

from ..base.ending import Refused, printable
from .keys import Key, span_of
from .places import line_of
from ..base.numbers import MANY, Beyond
from ..base.ranges import CYCLES
from ..base.units import Number, decimal

if TYPE_CHECKING:
    from .source import Source


def shown(value: object) -> str:
    """A value of a file as it may stand on a line."""
    if isinstance(value, Fraction):
        return str(value.numerator) if value.denominator == 1 else decimal(value, 6).rstrip("0")
    if isinstance(value, Decimal):
        return format(value, "f") if value.is_finite() else str(value)
    if isinstance(value, str):
        return f'"{printable(value)}"'
    if isinstance(value, bool):
        return "true" if value else "false"
    return printable(str(value))


def near(word: str, known: Iterable[str]) -> str | None:
    """The known name that is spelt most like a word, whatever the case of letters, or None."""
    folded = {name.lower(): name for name in sorted(known)}
    found = difflib.get_close_matches(word.lower(), folded, 1, 0.6)
    return folded[found[0]] if found else None


class Table:
    """One table of the file: hands out its values and refuses what does not fit. Keys that are described have their ranges and
    defaults there."""

    def __init__(self, source: Source, name: str, index: int | None, entries: dict[str, object],
                 keys: Collection[str] | Mapping[str, Key] = ()) -> None:
        self.source, self.name, self.index, self.entries, self.keys = source, name, index, entries, keys
        self.described: Mapping[str, Key] = keys if isinstance(keys, Mapping) else {}

    def default(self, key: str) -> tuple[Any] | None:
        """What a key stands for that is left out, or None where it is described as one that has to be there."""
        found = self.described[key].default if key in self.described else None
        return None if found is None else (found,)

    def key(self, key: str | None = None) -> str:
        table = self.name if self.index is None else f"{self.name}[{self.index + 1}]"
        return table if key is None else f"{table}.{printable(key)}"

    def line(self, key: str | None = None) -> int | None:
        return line_of(self.source.text, self.name, self.index, key)

    def refuse(self, key: str | None, why: str) -> NoReturn:
        raise Refused(self.source.path, self.line(key), f"{self.key(key)}: {why}")

    def has(self, key: str) -> bool:
        return key in self.entries

    def take(self, key: str, wanted: str, default: tuple[object] | None) -> object:
        if key in self.entries:
            return self.entries[key]
        for other in self.unknown():
            if near(other, self.keys) == key:
                self.refuse_unknown(other)
        if default is not None:
            return default[0]
        self.refuse(None, f"the key `{key}` is missing: {wanted}")

    def unknown(self) -> list[str]:
        return [key for key in self.entries if key not in self.keys] if self.keys else []

    def refuse_unknown(self, key: str) -> NoReturn:
        like, other = near(key, self.keys), self.source.home(key)
        self.refuse(key, "there is no such key" + (f": it belongs into {other}" if other
                                                   else f"; did you mean `{like}`?" if like
                                                   else f"; it may have {', '.join(sorted(self.keys))}"))

    def number(self, key: str, least: Number, most: Number, unit: str = "", default: tuple[Number] | None = None,
               more: str = "") -> Fraction:
        """A number as an exact fraction, or the name of one of [values], a `-` before it allowed."""
        written = self.written(key)
        if written is not None and least <= written <= most:
            return Fraction(written)
        span = f"a number from {shown(least)} to {shown(most)}{' ' + unit if unit else ''}"
        value = self.plain(key, self.take(key, span, default), span)
        if not least <= value <= most:
            self.refuse(key, f"{shown(value)} is not {span}{more}")
        return value

    def number_of(self, key: str, microtick_ns: Fraction | None = None, macrotick_ns: Fraction | None = None, more: str = "") -> Fraction:
        """The number of a key that is described; the range of a time is converted by how many ns microticks and macroticks have."""
        found = self.described[key]
        ends = found.span() if microtick_ns is None else span_of(found, microtick_ns, macrotick_ns)
        return self.number(key, *ends, found.unit, self.default(key), more)

    def written(self, key: str) -> Number | None:
        """The number that stands at a key, where it is one without more ado: what a message would say is not made for it."""
        value = self.entries.get(key)
        if type(value) is int or type(value) is Fraction:
            return value
        return Fraction(value) if type(value) is Decimal and value.is_finite() else None

    def plain(self, key: str, value: object, span: str) -> Fraction:
        if isinstance(value, str):
            named = re.fullmatch(r"([+-]?)\s*([A-Za-z_]\w*)", value)
            if not named or named.group(2) not in self.source.values:
                known = ", ".join(sorted(self.source.values)) or "none"
                plain = "; write it without quotes" if re.fullmatch(r"[+-]?\d+([.,]\d+)?", value) else ""
                self.refuse(key, f"{shown(value)} is neither {span} nor a name of [values] (there: {known}){plain}")
            number = self.source.values[named.group(2)]
            return -number if named.group(1) == "-" else number
        if isinstance(value, Beyond):
            self.refuse(key, f"{shown(value)} is not {span}: {MANY}")
        if isinstance(value, bool) or not isinstance(value, (int, Decimal, Fraction)):
            self.refuse(key, f"{shown(value)} is not {span}")
        if isinstance(value, Decimal) and not value.is_finite():
            self.refuse(key, f"{shown(value)} is not {span}")
        return Fraction(value)

    def whole(self, key: str, least: int, most: int, unit: str = "", default: tuple[int] | None = None) -> int:
        written = self.written(key)
        if written is not None and written.denominator == 1 and least <= written <= most:
            return int(written)
        span = f"a whole number from {least} to {most}{' ' + unit if unit else ''}"
        value = self.plain(key, self.take(key, span, default), span)
        if value.denominator != 1 or not least <= value <= most:
            self.refuse(key, f"{shown(value)} is not {span}")
        return int(value)

    def whole_of(self, key: str, least: int | None = None, most: int | None = None) -> int:
        """The whole number of a key that is described; an end that is given is that of this cluster."""
        first, last = self.described[key].whole_span()
        least, most = first if least is None else least, last if most is None else most
        return self.whole(key, least, most, self.described[key].unit, self.default(key))

    def flag(self, key: str, default: tuple[bool] | None = None) -> bool:
        value = self.take(key, "true or false", default or self.default(key))
        if not isinstance(value, bool):
            self.refuse(key, f"{shown(value)} is not true or false")
        return value

    def text(self, key: str, wanted: str, default: tuple[str] | None = None) -> str:
        value = self.take(key, wanted, default)
        if not isinstance(value, str):
            self.refuse(key, f"{shown(value)} is not a text of {wanted}")
        return value

    def channels(self, key: str, default: tuple[str] | None = None) -> str:
        value = self.take(key, '"A", "B" or "AB"', default or self.default(key))
        if not isinstance(value, str) or value not in ("A", "B", "AB"):
            self.refuse(key, f'{shown(value)} is not "A", "B" or "AB"')
        return value

    def hexadecimal(self, key: str, most: int) -> str:
        value = self.take(key, "hexadecimal digits", self.default(key))
        if not isinstance(value, str) or not re.fullmatch(r"(?:[0-9A-Fa-f]{2})*", value):
            self.refuse(key, f"{shown(value)} is not text of hexadecimal digits, two a byte")
        if len(value) > most:
            self.refuse(key, f"{len(value)} digits are more than {most}")
        return value

    def nodes(self, key: str, known: Collection[int]) -> list[int]:
        """Node numbers: one, a list, "all", or a text such as "1-4,6"; in ascending order."""
        wanted = 'a node number, a list of them, "all", or a text such as "1-4,6"'
        value = self.take(key, wanted, self.default(key))
        found: set[int] = set()
        if value == "all":
            return sorted(known)
        parts: list[object] = list(value) if isinstance(value, (list, tuple)) else [value]
        if isinstance(value, str):
            parts = [part.strip() for part in value.split(",")]
        for part in parts:
            span = re.fullmatch(r"([0-9]{1,3})(?:\s*-\s*([0-9]{1,3}))?", str(part))
            if isinstance(part, bool) or not span:
                self.refuse(key, f"{shown(part)} is not {wanted}")
            first, last = int(span.group(1)), int(span.group(2) or span.group(1))
            if first > last:
                self.refuse(key, f"{shown(part)} runs backward")
            found.update(range(first, last + 1))
        for node in sorted(found):
            if node not in known:
                self.refuse(key, f"there is no node {node}; nodes are {', '.join(map(str, sorted(known)))}")
        return sorted(found)

    def cycles(self, key: str, cycles: int) -> tuple[int, int]:
        """First and last cycle: one number, "all", "FROM-TO" or "FROM-". They may lie behind the end of the run."""
        wanted = f'a cycle from 0 to {CYCLES[1]}, "all", "FROM-TO" or "FROM-"'
        value = self.take(key, wanted, self.default(key))
        if value == "all":
            return 0, cycles - 1
        span = re.fullmatch(r"([0-9]{1,6})(\s*-\s*([0-9]{1,6})?)?", str(value))
        if isinstance(value, bool) or not span:
            self.refuse(key, f"{shown(value)} is not {wanted}")
        first = int(span.group(1))
        last = first if not span.group(2) else int(span.group(3) or max(first, cycles - 1))
        if last < first:
            self.refuse(key, f"{shown(value)} runs backward")
        if last > CYCLES[1]:
            self.refuse(key, f"{shown(value)} is not {wanted}")
        return first, last
