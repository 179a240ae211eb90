"""A TOML file: its text, its tables, and the numbers that [values] names."""
import contextlib
import re
import tomllib
from decimal import Decimal
from fractions import Fraction
from typing import Any
from collections.abc import Iterator, Mapping
from typing import NoReturn

from .draws import draw
from ..base import files, numbers
from ..base.ending import REFUSED, Refused, Stop, printable
from .keys import TABLES
from .places import line_of
from .values import Table, near, shown

# The seed of a draw, None for that of the file, and its number.
Drawing = tuple[int | None, int]
# The keys that a table may have; of [values] any.
KEYS = {name: tuple(table.keys) for name, table in TABLES.items()}
SINGLE = tuple(name for name, table in TABLES.items() if not table.is_many)
MANY = tuple(name for name, table in TABLES.items() if table.is_many)
# Values are nested less deep than this.
DEEPEST, DEEP = 12, "lists or tables are nested deeper here than any value is"
MOST_TOLD = 100
MOST_BYTES = 4 << 20


def copied(entries: dict[str, Any]) -> dict[str, Any]:
    """The tables of a file, so that a value of one may be changed."""
    return {name: [dict(table) if isinstance(table, dict) else table for table in tables] if isinstance(tables, list)
            else dict(tables) if isinstance(tables, dict) else tables for name, tables in entries.items()}


class Source:
    def __init__(self, path: str, changes: Mapping[str, Fraction] | None = None, drawing: Drawing = (None, 1)) -> None:
        """Reads the file; `changes` are pairs of a key's path and a number that takes its value's place, `drawing` is the
        seed, or None for that of the file, and the number of the draw."""
        self.load(path)
        self.check_names()
        # As the file has them, for who reads it again with other numbers.
        self.raw = copied(self.entries)
        for key, number in (changes or {}).items():
            self.change(key, number)
        self.drawn = draw(path, self.text, self.entries, *drawing)
        self.named()

    def load(self, path: str) -> None:
        """Reads the text and its tables, whatever their names are."""
        self.path = path
        self.values: dict[str, Fraction] = {}
        self.faults: dict[str, Refused] = {}
        try:
            # A byte order mark is none of the text.
            self.text = files.read(path, MOST_BYTES).decode("utf-8-sig")
        except UnicodeDecodeError as fault:
            raise Stop(REFUSED, f"{path}: byte {fault.start} is no UTF-8: have the editor keep the file as UTF-8")
        try:
            self.entries = tomllib.loads(self.text, parse_float=numbers.of_file)
        except tomllib.TOMLDecodeError as fault:
            raise self.no_toml(str(fault))
        except ValueError:
            # Python makes no whole number of thousands of digits.
            raise Refused(path, self.line_with(r"[0-9_]{1000}"), numbers.MANY)
        except RecursionError:
            raise Refused(path, self.line_with(r"(?:[\[{]\s*(?:\w+\s*=\s*)?){20}"), DEEP)
        self.bound()

    def line_with(self, pattern: str) -> int | None:
        """The first line in which a pattern is found."""
        return next((number for number, line in enumerate(self.text.split("\n"), 1) if re.search(pattern, line)), None)

    def bound(self) -> None:
        """Puts a mark in the place of each whole number that has more digits than a value can have, and refuses what is nested
        deeper than any value is."""
        todo: list[tuple[Any, int]] = [(self.entries, 0)]
        while todo:
            holder, depth = todo.pop()
            if depth > DEEPEST:
                raise Refused(self.path, None, DEEP)
            for key, value in list(holder.items() if isinstance(holder, dict) else enumerate(holder)):
                if isinstance(value, int) and abs(value) >= 10**numbers.DIGITS:
                    holder[key] = numbers.Beyond(hex(value))
                elif isinstance(value, (dict, list)):
                    todo.append((value, depth + 1))

    def no_toml(self, fault: str) -> Stop:
        """What ends flexlab where the file is no TOML: the line and its text, and what it may be."""
        place = re.search(r"at line (\d+)", fault)
        if not place:
            return Stop(REFUSED, f"{self.path}: this is not TOML: {printable(fault)}")
        lines = self.text.split("\n")
        text = lines[int(place[1]) - 1].strip() if int(place[1]) <= len(lines) else ""
        hint = "; a number has a point, no comma" if re.search(r"=\s*[+-]?\d+,\d", text) else (
            "; a text has quotes" if re.search(r"=\s*[A-Za-z]", text) and not re.search(r"=\s*(true|false)\b", text) else "")
        return Refused(self.path, int(place[1]), f"this is not TOML: {printable(fault)}: {printable(text)}{hint}")

    @contextlib.contextmanager
    def part(self) -> Iterator[None]:
        """Reads a part of the file: where it is refused the fault is kept, and reading goes on behind it."""
        try:
            yield
        except Refused as fault:
            self.faults.setdefault(fault.line, fault)

    def tell(self) -> None:
        """Ends flexlab where the file has faults, with all of them by line."""
        if self.faults:
            found = [fault.line for fault in sorted(self.faults.values(), key=lambda fault: fault.place or 0)]
            more = [f"{self.path}: and {len(found) - MOST_TOLD} more"] if len(found) > MOST_TOLD else []
            raise Stop(REFUSED, "\nflexlab: ".join(found[:MOST_TOLD] + more))

    def check_names(self) -> None:
        for name, entries in self.entries.items():
            with self.part():
                if name not in KEYS:
                    self.refuse_table(name)
            listed = isinstance(entries, list) and all(isinstance(entry, dict) for entry in entries)
            if name in KEYS and not (listed if name in MANY else isinstance(entries, dict)):
                kind = f"[[{name}]] tables" if name in MANY else f"one table [{name}]"
                raise Refused(self.path, line_of(self.text, name, 0, None), f"`{name}` has to be {kind}")
        for name in KEYS:
            for table in self.tables(name) if name in MANY else [self.plain_table(name)]:
                for key in table.unknown():
                    with self.part():
                        table.refuse_unknown(key)

    @staticmethod
    def home(key: str) -> str | None:
        """The single table that has a key which stands in another one, or None."""
        return next((f"[{name}]" for name in SINGLE if key in KEYS[name]), None)

    def refuse_table(self, name: str) -> NoReturn:
        like = near(name, KEYS)
        hint = f"; did you mean `{like}`?" if like else f"; there are {', '.join(SINGLE + MANY)}"
        raise Refused(self.path, line_of(self.text, name, 0, None), f"there is no table `{printable(name)}`{hint}")

    def change(self, key: str, number: Fraction) -> None:
        """Sets `table.key` or `table[N].key`, N from 1, which has to be there."""
        table, _, entry = key.rpartition(".")
        name, _, place = table.partition("[")
        holder = self.entries.get(name)
        if place:
            rest = place.rstrip("]")
            index = int(rest) if re.fullmatch(r"[0-9]{1,9}", rest) else 0
            holder = holder[index - 1] if isinstance(holder, list) and 1 <= index <= len(holder) else None
        if not isinstance(holder, dict) or entry not in holder:
            raise Stop(REFUSED, f"{self.path}: there is no value `{printable(key)}` to be varied; write TABLE.KEY, or "
                                "TABLE[N].KEY for the Nth table of that name")
        holder[entry] = number

    def named(self) -> None:
        for name, value in self.entries.get("values", {}).items():
            with self.part():
                if isinstance(value, numbers.Beyond):
                    Table(self, "values", None, {}).refuse(name, f"{shown(value)}: {numbers.MANY}")
                if isinstance(value, bool) or not isinstance(value, (int, Decimal, Fraction)) or (
                        isinstance(value, Decimal) and not value.is_finite()):
                    Table(self, "values", None, {}).refuse(name, f"{shown(value)} is not a number")
                self.values[name] = Fraction(value)

    def plain_table(self, name: str) -> Table:
        return Table(self, name, None, self.entries.get(name, {}), TABLES[name].keys)

    def table(self, name: str) -> Table:
        for other in self.entries:
            if name not in self.entries and other not in KEYS and near(other, KEYS) == name:
                self.refuse_table(other)
        return self.plain_table(name)

    def tables(self, name: str) -> list[Table]:
        return [Table(self, name, index, entries, TABLES[name].keys) for index, entries in enumerate(self.entries.get(name, []))]
