"""The tables of the TOML file and their keys: kind, unit, range, default and meaning of each. What is refused, the checks of the
page, the schema for editors and the reference in docs/FLEXLAB.md come from here; tools/keys writes the last three."""
import functools
from collections.abc import Iterator, Mapping
from dataclasses import dataclass
from enum import Enum
from fractions import Fraction
from typing import NamedTuple

from ..base import ranges
from ..base.ranges import FRAME_DIGITS, NAMES
from ..base.units import TICKS, Number

# What a key that is left out stands for; None where it stands for nothing.
Default = Fraction | bool | str | tuple[()] | None


class Kind(Enum):
    """What a value may be."""
    NUMBER = "number"
    WHOLE = "whole number"
    FLAG = "true or false"
    TEXT = "text"
    CHANNELS = "channels"
    NODES = "nodes"
    CYCLES = "cycles"
    BYTES = "hexadecimal digits"


class Bound(NamedTuple):
    """An end of a range in a unit, which need not be that of the key: how many ns have a number of ticks is for the cluster to say."""
    value: Fraction
    unit: str


# How many ns one of a unit has: of units that no cluster changes.
NS = {"ns": Fraction(1), "us": Fraction(1000), "ms": Fraction(1000000)}
# The longest microtick in ns.
LONGEST_MICROTICK = 1000
# Of a node's name: what fits on a page beside its number.
NAME_LENGTH = 128


def sizes(microtick_ns: Number, macrotick_ns: Number | None = None) -> dict[str, Fraction]:
    """How many ns one of each unit of time has, in a cluster whose microtick and macrotick last so long."""
    found = {**NS, "microticks": Fraction(microtick_ns), "ticks": Fraction(microtick_ns) / TICKS}
    return found if macrotick_ns is None else {**found, "macroticks": Fraction(macrotick_ns)}


# Each is itself alone, so that its ranges are soon found again.
@dataclass(frozen=True, eq=False)
class Key:
    """A key of a table. Its range has two ends or none; `narrower` says what else bounds it in a cluster. One that is optional
    has no default and may be left out, one of a choice where another one of it stands."""
    table: str
    name: str
    kind: Kind
    meaning: str
    unit: str = ""
    least: Bound | None = None
    most: Bound | None = None
    default: Default = None
    optional: bool = False
    narrower: str = ""

    def span(self, units: Mapping[str, Fraction] | None = None) -> tuple[Fraction, Fraction]:
        """The least and the greatest value in the key's unit; of a time by how many ns its units have."""
        if self.least is None or self.most is None:
            raise ValueError(f"{self.table}.{self.name} has no range")
        return self.within(self.least, units), self.within(self.most, units)

    def within(self, bound: Bound, units: Mapping[str, Fraction] | None) -> Fraction:
        return bound.value if bound.unit == self.unit else bound.value * (units or NS)[bound.unit] / (units or NS)[self.unit]

    def whole_span(self) -> tuple[int, int]:
        """The range of a whole number, which has that unit."""
        least, most = self.span()
        return int(least), int(most)


@functools.lru_cache(4000)
def span_of(key: Key, microtick_ns: Fraction, macrotick_ns: Fraction | None) -> tuple[Fraction, Fraction]:
    """The range of a key in a cluster whose microtick and macrotick last so long."""
    return key.span(sizes(microtick_ns, macrotick_ns))


# Of each choice exactly one alternative is given, or where it has a default at most one.
Alternative = tuple[str, ...]


class Choice(NamedTuple):
    alternatives: tuple[Alternative, ...]
    needed: bool = True


@dataclass(frozen=True)
class Entry:
    """A table of the file: whether there may be several of it, what it is, its keys by name, its choices, and whether no file is
    without it."""
    name: str
    is_many: bool
    meaning: str
    keys: Mapping[str, Key]
    choices: tuple[Choice, ...] = ()
    is_needed: bool = False

    @property
    def head(self) -> str:
        return f"[[{self.name}]]" if self.is_many else f"[{self.name}]"

    @property
    def required(self) -> tuple[str, ...]:
        """The keys that each table of this name has to have."""
        chosen = {name for choice in self.choices for alternative in choice.alternatives for name in alternative}
        return tuple(key.name for key in self.keys.values()
                     if key.default is None and not key.optional and key.name not in chosen)


AMOUNTS = ("us", "ns", "microticks", "ticks")
# Of the times of a startup, which are whole macroticks.
TIMES = ("ms", "us", "macroticks")


def ranged(table: str, name: str, kind: Kind, least: Number, most: Number, unit: str, meaning: str, *, default: Number | None = None,
           optional: bool = False, narrower: str = "") -> Key:
    """A number whose range has its own unit."""
    return Key(table, name, kind, meaning, unit, Bound(Fraction(least), unit), Bound(Fraction(most), unit),
               None if default is None else Fraction(default), optional, narrower)


def whole(table: str, name: str, span: tuple[int, int], unit: str, meaning: str, *, default: Number | None = None,
          optional: bool = False, narrower: str = "") -> Key:
    return ranged(table, name, Kind.WHOLE, *span, unit, meaning, default=default, optional=optional, narrower=narrower)


def number(table: str, name: str, least: Number, most: Number, unit: str, meaning: str, *, default: Number | None = None,
           optional: bool = False) -> Key:
    return ranged(table, name, Kind.NUMBER, least, most, unit, meaning, default=default, optional=optional)


def plain(table: str, name: str, kind: Kind, meaning: str, *, default: Default = None, optional: bool = False,
          narrower: str = "") -> Key:
    """What is no number."""
    return Key(table, name, kind, meaning, default=default, optional=optional, narrower=narrower)


def times(table: str, prefix: str, span: tuple[int, int], meaning: str, units: tuple[str, ...] = AMOUNTS) -> tuple[Key, ...]:
    """A time in each of these units; the range is one of the last of them."""
    least, most = (Bound(Fraction(end), units[-1]) for end in span)
    return tuple(Key(table, prefix + unit, Kind.NUMBER, meaning, unit, least, most) for unit in units)


def one_of(*names: str, needed: bool = True) -> Choice:
    """Of these keys one is given."""
    return Choice(tuple((name,) for name in names), needed)


def amount_of(prefix: str, units: tuple[str, ...] = AMOUNTS, needed: bool = True) -> Choice:
    return one_of(*(prefix + unit for unit in units), needed=needed)


def parameter(table: str, name: str) -> Key:
    least, most, unit, meaning = NAMES[name]
    return whole(table, name, (least, most), unit, meaning)


def entry(name: str, is_many: bool, meaning: str, *keys: Key, choices: tuple[Choice, ...] = (), is_needed: bool = False) -> Entry:
    return Entry(name, is_many, meaning, {key.name: key for key in keys}, choices, is_needed)


def ends(table: str) -> tuple[Key, Key]:
    return (plain(table, "from", Kind.NODES, "the senders", default="all"),
            plain(table, "to", Kind.NODES, "the receivers", default="all"))


def channels(table: str) -> Key:
    return plain(table, "channels", Kind.CHANNELS, "the channels", default="AB")


def cycles(table: str, default: Default = None) -> Key:
    return plain(table, "cycles", Kind.CYCLES, "the cycles", default=default)


# The greatest, in hundredths of a ppm, with which the microtick of a slow oscillator is at most 1500 ticks too long.
MOST_PPM = Fraction(149825, 100)
LEAST_OFF, MOST_OFF = -333333, 1000000
# A log of a bus analyzer: the greatest time in it, 1000 microticks, and the last even cycle.
MOST_TICKS, MOST_CYCLE = ranges.span("log", "unit", "TICKS")[1], ranges.span("log", "since", "CYCLE")[1]


def ppm(name: str, meaning: str, table: str = "oscillator", default: Number | None = None) -> Key:
    return number(table, name, LEAST_OFF, MOST_OFF, "ppm", meaning, default=default)


def logged(table: str, name: str, meaning: str, least: Bound = Bound(Fraction(0), "ns"), default: Number | None = None,
           optional: bool = False) -> Key:
    """A time of a bus analyzer in ns."""
    return Key(table, name, Kind.NUMBER, meaning, "ns", least, Bound(Fraction(MOST_TICKS), "ticks"),
               None if default is None else Fraction(default), optional)


TABLES: Mapping[str, Entry] = {one.name: one for one in (
    entry("bench", False, "the units of the bench",
          number("bench", "microtick_ns", 1, LONGEST_MICROTICK, "ns", "how long a nominal microtick lasts"),
          number("bench", "bit_rate_mbit", 1, 10, "Mbit/s", "for the warning where a frame is too long for its slot", default=10),
          whole("bench", "start_bits", (1, 15), "bits", "the transmission start sequence, for that warning", default=15), is_needed=True),
    entry("cluster", False, "the parameters of the cluster, in the units of `docs/FORMATS.md`",
          *(parameter("cluster", name) for name in NAMES if not name.startswith("x")),
          choices=(Choice((("pDelayCompensation",), ("pDelayCompensationA", "pDelayCompensationB"))),), is_needed=True),
    entry("limits", False, "what clocks and delays keep to",
          number("limits", "oscillator_ppm", 0, MOST_PPM, "ppm", "the greatest distance of an oscillator from nominal"),
          parameter("limits", "xRateBound"),
          number("limits", "change_ppm_per_cycle", 0, 1499, "ppm", "its greatest change from one cycle to the next, rounded up"),
          parameter("limits", "xChangeBound"), parameter("limits", "xDelayError"),
          *times("limits", "delay_error_", NAMES["xDelayError"][:2], NAMES["xDelayError"].meaning),
          choices=(one_of("oscillator_ppm", "xRateBound"), one_of("change_ppm_per_cycle", "xChangeBound"),
                   one_of("xDelayError", *(f"delay_error_{unit}" for unit in AMOUNTS))), is_needed=True),
    entry("run", False, "the run",
          whole("run", "double_cycles", ranges.DOUBLES, "", "how many double cycles it has"),
          whole("run", "seed", (0, 4294967295), "", "the seed of numbers that are drawn", default=1), is_needed=True),
    entry("values", False, "names of numbers; any key is a name, and a number elsewhere may be that name as a text"),
    entry("node", True, "a node",
          whole("node", "id", ranges.span("params", "node", "ID"), "", "its number"),
          plain("node", "name", Kind.TEXT, "its name, of each node another one; pages, pictures and `--json` have it beside the number",
                optional=True, narrower=f"1 to {NAME_LENGTH} printable characters, no blanks at its ends, no number"),
          plain("node", "channels", Kind.CHANNELS, "the channels at which it is"),
          whole("node", "key_slot", ranges.span("params", "node", "KEY"), "", "the slot of its sync frames; without one it is no sync node",
                optional=True),
          plain("node", "coldstart", Kind.FLAG, "whether it is a coldstart node, which has a key slot", default=False),
          plain("node", "arbitrary", Kind.FLAG, "whether it is arbitrary, and has a key slot", default=False),
          ppm("ppm", "its oscillator, above 0 fast", "node", 0),
          whole("node", "rate", (-2000, 2000), "microticks", "its rate term at the begin", default=0,
                narrower="at most pRateCorrectionOut to both sides"),
          *times("node", "start_", ranges.START, "its first cycle begins so late"),
          choices=(amount_of("start_", needed=False),), is_needed=True),
    entry("slot", True, "a further slot of a node",
          whole("slot", "slot", ranges.span("params", "slot", "SLOT"), "", "the slot"),
          plain("slot", "node", Kind.NODES, "its node, one"),
          whole("slot", "base", ranges.span("params", "slot", "BASE"), "", "the first cycle of each repetition that has it", default=0,
                narrower="below the repetition"),
          whole("slot", "repetition", ranges.span("params", "slot", "REPETITION"), "cycles", "in each so many cycles once", default=1,
                narrower="1, 2, 4, 8, 16, 32 or 64")),
    entry("oscillator", True, "oscillators in some cycles; later tables win, and behind its cycles holds what was said before",
          plain("oscillator", "nodes", Kind.NODES, "whose"), cycles("oscillator", "all"),
          ppm("ppm", "above 0 fast"), ppm("ppm_from", "in the first cycle of a ramp"), ppm("ppm_to", "in its last one"),
          choices=(Choice((("ppm",), ("ppm_from", "ppm_to"))),)),
    entry("delay", True, "delays of frames; later tables win",
          *ends("delay"), channels("delay"),
          whole("delay", "from_cycle", ranges.CYCLES, "", "the cycle from which on it holds", default=0),
          *times("delay", "", ranges.DELAY, "the delay"), choices=(amount_of(""),)),
    entry("two_faced", True, "an arbitrary node that is early for some and late for others; the rest hear nothing of it",
          plain("two_faced", "node", Kind.NODES, "the arbitrary node, one"),
          plain("two_faced", "early", Kind.NODES, "for whom its frames come early", default=()),
          plain("two_faced", "late", Kind.NODES, "for whom they come late", default=()),
          plain("two_faced", "on_time", Kind.NODES, "for whom they come in time", default=()),
          cycles("two_faced", "all"), channels("two_faced"),
          *times("two_faced", "", (0, ranges.SHIFT[1]), "by how much"), choices=(amount_of(""),)),
    entry("say", True, "what an arbitrary node sends",
          plain("say", "node", Kind.NODES, "the arbitrary node, one"),
          plain("say", "to", Kind.NODES, "who hears it", default="all"),
          plain("say", "frame", Kind.BYTES, "the bytes; empty for its regular frame", default="",
                narrower=f"two digits a byte, at most {FRAME_DIGITS} digits"),
          cycles("say"), channels("say"),
          *times("say", "", ranges.SHIFT, "how late it comes, below 0 early"), choices=(amount_of("", needed=False),)),
    entry("lose", True, "frames that are lost", *ends("lose"), cycles("lose"), channels("lose")),
    entry("flip", True, "frames of which a bit is flipped", *ends("flip"), cycles("flip"), channels("flip"),
          whole("flip", "bit", (0, 63 + 16 * NAMES["gPayloadLengthStatic"].most), "", "the bit, 0 the first",
                narrower="below 64 + 16 gPayloadLengthStatic")),
    entry("join", True, "a node that joins",
          plain("join", "node", Kind.NODES, "the node, one that is correct"),
          plain("join", "reference", Kind.NODES, "to whom it listens, one that is correct and has a key slot"),
          whole("join", "double_cycle", ranges.DOUBLE, "", "the double cycle in which it listens; it takes part six cycles behind that "
                "one's first, so with 7 from cycle 20 on")),
    entry("power", True, "of `flexlab power` alone: when nodes are switched on and off; several of a node one behind the other",
          plain("power", "nodes", Kind.NODES, "the nodes", default="all"),
          *times("power", "on_", ranges.POWER, "when they are switched on, 0 where it is left out", TIMES),
          *times("power", "off_", ranges.POWER, "when they are switched off, never where it is left out", TIMES),
          choices=(amount_of("on_", TIMES, needed=False), amount_of("off_", TIMES, needed=False))),
    entry("observer", False, "a bus analyzer (\"Logs\")",
          logged("observer", "resolution_ns", "the steps of its stamps", Bound(Fraction(1, 1000), "ns")),
          number("observer", "drift_ppm", *ranges.span("log", "drift", "PPM"), "ppm",
                 "the greatest distance of its clock from nominal, rounded up"),
          logged("observer", "error_ns", "what a stamp is off beside that, from the least to the most", default=0),
          logged("observer", "jitter_ns", "how much two delays of a node differ, at most; else all that the limits allow", optional=True),
          logged("observer", "flutter_ns", "how much a delay from node to node differs between both cycles of a double cycle, at most; "
                 "else all that the limits allow", optional=True),
          whole("observer", "lost", ranges.LOST, "", "how many correct sync nodes a correct node may miss in a double cycle", default=0),
          logged("observer", "delay_from_ns", "the least delay from a node to its stamp"),
          logged("observer", "delay_to_ns", "the greatest one"),
          plain("observer", "missed_none", Kind.FLAG, "whether it missed no frame", default=False),
          whole("observer", "in_sync_from_cycle", (0, MOST_CYCLE), "", "the cycle of the log in whose double cycle the cluster is in sync",
                optional=True, narrower="even")),
    entry("observer_delay", True, "delays to it from some nodes",
          plain("observer_delay", "nodes", Kind.NODES, "from whom"), channels("observer_delay"),
          logged("observer_delay", "from_ns", "the least delay"), logged("observer_delay", "to_ns", "the greatest one")),
    entry("asc", False, "how ASC files are read (\"ASC files\")",
          plain("asc", "columns", Kind.TEXT, "the names of the columns; those that are common are tried where it is left out",
                optional=True),
          plain("asc", "hexadecimal", Kind.TEXT, "which of the numbers are hexadecimal; found where it is left out", optional=True),
          plain("asc", "sums_are_exact", Kind.FLAG, "whether the sums of relative times are exact", default=False)),
)}


def every() -> Iterator[Key]:
    for table in TABLES.values():
        yield from table.keys.values()
