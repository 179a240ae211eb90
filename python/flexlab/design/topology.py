"""A network as a TOML file describes it before it has parameters: what is wanted of it, its hardware, and its lines, along which
nodes and active stars stand; and how long a frame is under way from each node to each other one."""
import tomllib
from collections.abc import Iterator
from dataclasses import dataclass, field
from decimal import Decimal
from fractions import Fraction
from itertools import combinations
from typing import Any, NoReturn

from ..base import numbers, ranges, units
from ..base.ending import Refused, Stop, printable
from ..base.files import read
from ..toml.keys import MOST_PPM
from ..toml.places import line_of
from ..toml.source import MOST_BYTES, Source
from ..toml.values import Table, near, shown

TOPOLOGY_KEYS: dict[str, tuple[str, ...]] = {
    "goal": ("cycle_us", "slots", "payload_bytes", "arbitrary", "joins"),
    "hardware": ("bit_rate_mbit", "microtick_ns", "start_bits", "oscillator_ppm", "change_ppm_per_cycle", "sender_ns", "receiver_ns",
                 "star_ns", "cable_ns_per_m", "flutter_ns", "sync_nodes"),
    "line": ("channels", "points", "at_m"),
}
# How many sync nodes are wanted beside so many arbitrary ones among them: two know the time of each other, and correct ones have
# to outweigh.
SYNC_NODES = {0: 2, 1: 4, 2: 8}
MOST_FLUTTER = 20000000
MICROTICKS = (Fraction(25, 2), Fraction(25), Fraction(50), Fraction(100))

Span = tuple[Fraction, Fraction]
Pair = tuple[int, int]


@dataclass(frozen=True)
class Goal:
    """What is wanted: times in ns, the payload in two-byte words."""
    cycle_ns: Fraction
    slots: int
    words: int
    arbitrary: int
    joins: bool


@dataclass(frozen=True)
class Hardware:
    """What there is: times in ns, deviations in ticks, which are millionths of a microtick."""
    bit_rate: Fraction
    microticks_ns: tuple[Fraction, ...]
    start_bits: int
    rate: int
    change: int
    flutter_ns: Fraction
    sync_nodes: int


@dataclass
class Network:
    """A goal, the hardware, the nodes with their channels, and of each channel the delays of each pair in ns."""
    path: str
    goal: Goal
    hardware: Hardware
    nodes: dict[int, str]
    delays: dict[str, dict[Pair, Span]]
    notes: list[str] = field(default_factory=list)

    @property
    def sync(self) -> list[int]:
        """The nodes with key slots: the first ones, since how far action points lie apart grows with the last key slot."""
        return sorted(self.nodes)[:self.hardware.sync_nodes]

    def spread(self, channel: str, of_all: bool = False) -> Span:
        """The least and the greatest delay of a channel, of frames of sync nodes or of all nodes."""
        found = [span for (sender, _), span in self.delays[channel].items() if of_all or sender in self.sync]
        return min(low for low, _ in found), max(high for _, high in found)

    @property
    def channels(self) -> list[str]:
        return sorted(self.delays)


class TopologySource(Source):
    """The tables of a topology; values are refused as those of a cluster's file are."""

    def __init__(self, path: str) -> None:
        self.load(path)
        self.check_names()

    def check_names(self) -> None:
        for name, entries in self.entries.items():
            if name not in TOPOLOGY_KEYS:
                like = near(name, TOPOLOGY_KEYS)
                hint = f"; did you mean `{like}`?" if like else f"; there are {', '.join(TOPOLOGY_KEYS)}"
                raise Refused(self.path, line_of(self.text, name, 0, None), f"there is no table `{printable(name)}`{hint}")
            listed = isinstance(entries, list) and all(isinstance(entry, dict) for entry in entries)
            if not (listed if name == "line" else isinstance(entries, dict)):
                kind = "[[line]] tables" if name == "line" else f"one table [{name}]"
                raise Refused(self.path, line_of(self.text, name, 0, None), f"`{name}` has to be {kind}")
        for table in [self.plain_table("goal"), self.plain_table("hardware"), *self.tables("line")]:
            for key in table.unknown():
                with self.part():
                    table.refuse_unknown(key)

    @staticmethod
    def home(key: str) -> str | None:
        return next((f"[{name}]" for name in ("goal", "hardware") if key in TOPOLOGY_KEYS[name]), None)

    def plain_table(self, name: str) -> Table:
        return Table(self, name, None, self.entries.get(name, {}), TOPOLOGY_KEYS[name])

    def table(self, name: str) -> Table:
        return self.plain_table(name)

    def tables(self, name: str) -> list[Table]:
        return [Table(self, name, index, entries, TOPOLOGY_KEYS[name]) for index, entries in enumerate(self.entries.get(name, []))]


def is_topology(path: str) -> bool:
    """Whether a TOML file is one of a topology, by its tables; a file that is none is for another reader to refuse."""
    try:
        entries = tomllib.loads(read(path, MOST_BYTES).decode("utf-8-sig"), parse_float=numbers.of_file)
    except (Stop, ValueError, RecursionError):
        return False
    return "cluster" not in entries


def number(value: Any) -> Fraction | None:
    """A finite number of a TOML file, or None."""
    if isinstance(value, bool) or not isinstance(value, (int, Decimal)) or isinstance(value, Decimal) and not value.is_finite():
        return None
    return Fraction(value)


def span(table: Table, key: str, most: int, unit: str) -> Span:
    """The least and the greatest of a value: [FROM, TO], or one number for both."""
    wanted = f"[FROM, TO] with numbers from 0 to {most} {unit}, or one such number"
    value = table.take(key, wanted, None)
    ends = value if isinstance(value, list) else [value, value]
    found = [number(one) for one in ends]
    first, last = found[0] if found else None, found[-1] if found else None
    if len(found) != 2 or first is None or last is None or not 0 <= first <= most or not 0 <= last <= most:
        table.refuse(key, f"{value} is not {wanted}")
    assert first is not None and last is not None
    if first > last:
        table.refuse(key, f"it runs from {shown(first)} to {shown(last)}, which is backward")
    return first, last


def read_goal(source: TopologySource) -> Goal:
    table = source.plain_table("goal")
    cycle, slots, payload, arbitrary, joins = Fraction(5000), 1, 0, 0, False
    with source.part():
        cycle = table.number("cycle_us", 10, 16000, "us")
    with source.part():
        slots = table.whole("slots", *ranges.PARAMETERS["gNumberOfStaticSlots"][:2])
    with source.part():
        payload = table.whole("payload_bytes", 0, 254, "bytes")
        if payload % 2:
            table.refuse("payload_bytes", f"{payload} is odd, and a payload is of two-byte words")
    with source.part():
        arbitrary = table.whole("arbitrary", 0, 2, "sync nodes", (0,))
    with source.part():
        joins = table.flag("joins", (False,))
    return Goal(cycle * 1000, slots, payload // 2, arbitrary, joins)


def read_microticks(table: Table) -> tuple[Fraction, ...]:
    value = table.take("microtick_ns", "12.5, 25, 50 or 100 ns, or a list of them", None)
    found = [number(one) for one in (value if isinstance(value, list) else [value])]
    if not found or any(one not in MICROTICKS for one in found):
        table.refuse("microtick_ns", f"{value} is not 12.5, 25, 50 or 100 ns, or a list of them")
    return tuple(dict.fromkeys(one for one in found if one is not None))


def read_rate(table: Table, notes: list[str]) -> int:
    """xRateBound: how many ticks a microtick may be off."""
    ppm = table.number("oscillator_ppm", 0, 1500, "ppm")
    if ppm > MOST_PPM:
        notes.append(f"an oscillator that is {shown(ppm)} ppm slow has a microtick that is more than 1500 ticks too long, and xRateBound "
                     "ends there: this is of microticks whose length is within 1500 ppm")
    return min(1500, max(abs(units.length_of(sign * ppm) - units.TICKS) for sign in (1, -1)))


def read_hardware(source: TopologySource, goal: Goal, notes: list[str]) -> tuple[Hardware, dict[str, Span]]:
    table, found = source.plain_table("hardware"), {}
    bit_rate, start_bits, rate, change, flutter, sync = Fraction(10), 15, 0, Fraction(0), Fraction(0), 15
    microticks: tuple[Fraction, ...] = (Fraction(25),)
    with source.part():
        bit_rate = table.number("bit_rate_mbit", 1, 10, "Mbit/s", (Fraction(10),))
    with source.part():
        microticks = read_microticks(table)
    with source.part():
        start_bits = table.whole("start_bits", 1, 15, "bits", (15,))
    with source.part():
        rate = read_rate(table, notes)
    with source.part():
        change = table.number("change_ppm_per_cycle", 0, 1499, "ppm")
    with source.part():
        flutter = table.number("flutter_ns", 0, 2000, "ns", more=": how much a delay differs between the two cycles of a double "
                               "cycle")
    for key, most, unit in (("sender_ns", 1000, "ns"), ("receiver_ns", 1000, "ns"), ("star_ns", 1000, "ns"),
                            ("cable_ns_per_m", 100, "ns a metre")):
        with source.part():
            if key != "star_ns" or table.has(key) or has_stars(source):
                found[key] = span(table, key, most, unit)
    with source.part():
        sync = table.whole("sync_nodes", 2, 15, "nodes")
        if sync < SYNC_NODES[goal.arbitrary]:
            table.refuse("sync_nodes", f"{sync} are too few beside {goal.arbitrary} arbitrary: {SYNC_NODES[goal.arbitrary]} are "
                                       "wanted, the arbitrary ones among them")
        if sync > goal.slots:
            table.refuse("sync_nodes", f"{sync} key slots do not fit into {goal.slots} static slots")
    # A step of an oscillator is between two whole lengths, so a part of a tick counts as a whole one.
    steps = -(-change.numerator // change.denominator)
    return Hardware(bit_rate, microticks, start_bits, rate, steps, flutter, sync), found


def has_stars(source: TopologySource) -> bool:
    points = (table.entries.get("points") for table in source.tables("line"))
    return any(isinstance(point, str) for some in points if isinstance(some, list) for point in some)


@dataclass(frozen=True)
class Line:
    """A cable: of which channels, and where each node (a number) and each star (a name) stands along it, in metres."""
    channels: str
    at: dict[int | str, Fraction]
    table: Table


def read_line(table: Table) -> Line:
    channels = table.channels("channels", ("AB",))
    wanted = "a list of node numbers from 1 to 64 and names of stars, two or more"
    points = table.take("points", wanted, None)
    if not isinstance(points, list) or len(points) < 2 or not all(
            isinstance(point, str) and point or isinstance(point, int) and not isinstance(point, bool) and 1 <= point <= 64
            for point in points):
        table.refuse("points", f"{points} is not {wanted}")
    twice = next((point for point in points if points.count(point) > 1), None)
    if twice is not None:
        table.refuse("points", f"{shown(twice)} stands there twice")
    places = table.take("at_m", "a list of places in metres, one for each of `points`", None)
    metres = [number(place) for place in places] if isinstance(places, list) else []
    if len(metres) != len(points) or any(place is None or not 0 <= place <= 1000 for place in metres):
        table.refuse("at_m", f"it has to be a list of {len(points)} places from 0 to 1000 m, one for each of `points`")
    return Line(channels, {point: place for point, place in zip(points, metres) if place is not None}, table)


def read_lines(source: TopologySource) -> list[Line]:
    found = []
    for table in source.tables("line"):
        with source.part():
            found.append(read_line(table))
    if not source.tables("line"):
        with source.part():
            source.plain_table("line").refuse(None, "the file has no [[line]]")
    return found


class Channel:
    """The lines of one channel, which stars join to a tree."""

    def __init__(self, name: str, lines: list[Line]) -> None:
        self.name, self.lines = name, [line for line in lines if name in line.channels]
        self.on: dict[int | str, list[Line]] = {}
        for line in self.lines:
            for point in line.at:
                self.on.setdefault(point, []).append(line)
        self.check()

    def check(self) -> None:
        """Refuses a node on two lines, a loop, and a point that cannot be reached, by the line of the file."""
        for point, lines in self.on.items():
            if isinstance(point, int) and len(lines) > 1:
                self.refuse(lines[1], f"node {point} is on a line of channel {self.name} already; a star joins lines")
        reached: list[Line] = self.lines[:1]
        while True:
            later = [(line, [other for other in reached if set(line.at) & set(other.at)])
                     for line in self.lines if line not in reached]
            joined = next(((line, others) for line, others in later if others), None)
            if joined is None:
                break
            line, others = joined
            stars = {point for other in others for point in set(line.at) & set(other.at)}
            if len(stars) > 1:
                self.refuse(line, f"it closes a loop on channel {self.name}: stars " + " and ".join(sorted(map(str, stars)))
                            + " are joined already")
            reached.append(line)
        apart = next((line for line in self.lines if line not in reached), None)
        if apart:
            self.refuse(apart, f"it is joined to no other line of channel {self.name}, so frames do not reach it: name a star of "
                               "another line")
        if len(self.nodes) == 1:
            self.refuse(self.lines[0], f"channel {self.name} has a single node, {self.nodes[0]}")

    @staticmethod
    def refuse(line: Line, why: str) -> NoReturn:
        line.table.refuse("points", why)
        raise AssertionError

    @property
    def nodes(self) -> list[int]:
        return sorted(point for point in self.on if isinstance(point, int))

    def paths(self, sender: int) -> Iterator[tuple[int, Fraction, int]]:
        """(node, metres, stars on the way) from a node to each other one."""
        open_: list[tuple[int | str, Fraction, int, Line | None]] = [(sender, Fraction(0), 0, None)]
        seen: set[tuple[int | str, int]] = set()
        while open_:
            point, metres, stars, came = open_.pop()
            for line in self.on[point]:
                if line is came:
                    continue
                for other, place in line.at.items():
                    if other == point or (other, id(line)) in seen:
                        continue
                    seen.add((other, id(line)))
                    far = metres + abs(place - line.at[point])
                    if isinstance(other, int):
                        yield other, far, stars
                    else:
                        open_.append((other, far, stars + 1, line))


def delays_of(channel: Channel, hardware: dict[str, Span]) -> dict[Pair, Span]:
    """The least and the greatest delay of each pair of nodes, in ns: transceivers, stars that are passed, and metres."""
    found, star = {}, hardware.get("star_ns", (Fraction(0), Fraction(0)))
    for sender in channel.nodes:
        for receiver, metres, stars in channel.paths(sender):
            low, high = (hardware["sender_ns"][end] + hardware["receiver_ns"][end] + stars * star[end]
                         + metres * hardware["cable_ns_per_m"][end] for end in (0, 1))
            found[sender, receiver] = low, high
    return found


def read_network(path: str) -> Network:
    """Reads a topology; faults that can be seen at once are told at once."""
    source, notes = TopologySource(path), list[str]()
    goal = read_goal(source)
    hardware, spans = read_hardware(source, goal, notes)
    lines = read_lines(source)
    source.tell()
    channels = {}
    for name in "AB":
        if any(name in line.channels for line in lines):
            channels[name] = Channel(name, lines)
    nodes = {node: "".join(name for name, channel in channels.items() if node in channel.nodes)
             for channel in channels.values() for node in channel.nodes}
    network = Network(path, goal, hardware, dict(sorted(nodes.items())),
                      {name: delays_of(channel, spans) for name, channel in channels.items()}, notes)
    table = source.plain_table("hardware")
    if hardware.sync_nodes > len(nodes):
        table.refuse("sync_nodes", f"{hardware.sync_nodes} of {len(nodes)} nodes cannot be sync nodes")
    for one, other in combinations(network.sync, 2):
        if not set(nodes[one]) & set(nodes[other]):
            raise Refused(path, None, f"nodes {one} and {other} are sync nodes and have no channel in common")
    for node, own in nodes.items():
        for sender in network.sync:
            if sender != node and not set(own) & set(nodes[sender]):
                raise Refused(path, None, f"node {node} has no channel in common with node {sender}, a sync node, so it does not hear "
                                          "it")
    if 2 * MOST_FLUTTER // 2 < hardware.flutter_ns * units.TICKS / min(hardware.microticks_ns):
        table.refuse("flutter_ns", f"{shown(hardware.flutter_ns)} ns are more than 20 microticks, the most that flexray bound takes")
    return network
