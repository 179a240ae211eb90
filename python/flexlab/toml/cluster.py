"""A cluster as a TOML file describes it, in the numbers of flexray's files."""
import json
from collections.abc import Callable, Mapping, Sequence
from dataclasses import dataclass, field
from fractions import Fraction
from typing import NamedTuple, Protocol, TypeVar

from ..base import ranges, units
from ..base.ranges import Parameters
from .keys import AMOUNTS, NAME_LENGTH
from .source import Drawing, Source
from .values import Table, near

# Ticks by the cycle from which on they hold.
Steps = dict[int, int]


class Link(NamedTuple):
    """Frames of a node at another one, on a channel."""
    sender: int
    receiver: int
    channel: str


class FrameAt(NamedTuple):
    """Those of a cycle."""
    cycle: int
    sender: int
    receiver: int
    channel: str


class Fate(NamedTuple):
    """What becomes of such a frame: the first field of its row, its bit or its shift in ticks, and the frame's bytes as digits."""
    kind: str
    value: int | str
    frame: str


class Slot(NamedTuple):
    """A further slot of a node, in each cycle whose rest by the repetition is the base."""
    slot: int
    node: int
    base: int
    repetition: int


class Join(NamedTuple):
    """The double cycle in which a node that joins listens, and to which node."""
    double: int
    reference: int


class Power(NamedTuple):
    """The macroticks at which a node is switched on, and off."""
    on: int
    off: int | None


@dataclass
class Node:
    number: int
    key_slot: int | None
    channels: str
    coldstart: bool
    arbitrary: bool
    ppm: Fraction
    start: int
    rate: int
    place: int = 0
    name: str = ""


@dataclass
class Cluster:
    path: str
    microtick_ns: Fraction
    bit_rate: Fraction
    start_bits: int
    parameters: Parameters
    doubles: int
    nodes: dict[int, Node]
    slots: list[Slot]
    lengths: dict[int, Steps] = field(default_factory=dict)
    delays: dict[Link, Steps] = field(default_factory=dict)
    script: dict[FrameAt, Fate] = field(default_factory=dict)
    joins: dict[int, Join] = field(default_factory=dict)
    drawn: dict[str, Fraction] = field(default_factory=dict)
    power: dict[int, list[Power]] = field(default_factory=dict)
    text: str = ""
    notes: list[str] = field(default_factory=list)

    @property
    def cycles(self) -> int:
        return 2 * self.doubles

    @property
    def arbitrary(self) -> list[int]:
        return [node.number for node in self.nodes.values() if node.arbitrary]

    @property
    def correct(self) -> list[int]:
        return [node.number for node in self.nodes.values() if not node.arbitrary]

    @property
    def macrotick_ns(self) -> Fraction:
        """How long a macrotick lasts by nominal microticks."""
        return self.parameters["pMicroPerCycle"] * self.microtick_ns / self.parameters["gMacroPerCycle"]

    @property
    def names(self) -> dict[int, str]:
        """The names of the nodes that have one."""
        return {node.number: node.name for node in self.nodes.values() if node.name}

    def called(self, number: int) -> str:
        """A node's number, with its name where it has one."""
        name = self.nodes[number].name if number in self.nodes else ""
        return f"{number} ({name})" if name else str(number)

    def common(self, sender: int, receiver: int) -> list[str]:
        return [channel for channel in "AB"
                if channel in self.nodes[sender].channels and channel in self.nodes[receiver].channels]


AMID = ("; if the delays of the cluster spread further, put cluster.pDelayCompensation amid them, or pDelayCompensationA and B amid "
        "those of each channel, and the error is half of what they spread over. Ten microticks are the range of flexray's xDelayError, "
        "and none of the standard: a greater spread wants a longer microtick, or delays that lie nearer together")


def amount(table: Table, prefix: str, microtick_ns: Fraction, default: int | None = None, more: str = "") -> int:
    """Ticks of a time that is given as PREFIXus, PREFIXns, PREFIXmicroticks or PREFIXticks."""
    given = [unit for unit in AMOUNTS if prefix + unit in table.entries]
    if not given and default is not None:
        return default
    if len(given) != 1:
        for other in [] if given else table.unknown():
            if near(other, [prefix + unit for unit in AMOUNTS]):
                table.refuse_unknown(other)
        keys = ", ".join(f"`{prefix}{unit}`" for unit in AMOUNTS)
        table.refuse(prefix + given[1] if given else None, f"it wants one of {keys}, and not {len(given)}")
    unit = given[0]
    value = table.number_of(prefix + unit, microtick_ns, more=more)
    if unit in ("us", "ns"):
        return units.ticks_of_ns(value * (1000 if unit == "us" else 1), microtick_ns)
    return units.ticks_of_microticks(value) if unit == "microticks" else units.rounded(value)


def one_of(table: Table, key: str, other: str) -> bool:
    """Whether the first of two keys is given, of which one has to be."""
    if table.has(key) == table.has(other):
        for misspelt in [] if table.has(key) else table.unknown():
            if near(misspelt, (key, other)):
                table.refuse_unknown(misspelt)
        table.refuse(None, f"it wants `{key}` or `{other}` (ticks), one of both")
    return table.has(key)


def read_limits(source: Source, microtick_ns: Fraction) -> Parameters:
    table = source.table("limits")
    found = {name: ranges.PARAMETERS[name].most for name in ("xRateBound", "xChangeBound", "xDelayError")}
    with source.part():
        if one_of(table, "oscillator_ppm", "xRateBound"):
            ppm = table.number_of("oscillator_ppm", more="; a slower oscillator has a microtick of more than 1500 ticks beside the "
                                  "nominal one. For the standard's 1500 ppm (cClockDeviationMax) take xRateBound = 1500 in place of it")
            found["xRateBound"] = max(abs(units.length_of(sign * ppm) - units.TICKS) for sign in (1, -1))
        else:
            found["xRateBound"] = table.whole_of("xRateBound")
    with source.part():
        if one_of(table, "change_ppm_per_cycle", "xChangeBound"):
            ppm = table.number_of("change_ppm_per_cycle")
            # A step is between two whole lengths, so a part of a tick counts as a whole one.
            found["xChangeBound"] = -(-ppm.numerator // ppm.denominator)
        else:
            found["xChangeBound"] = table.whole_of("xChangeBound")
    with source.part():
        if table.has("xDelayError"):
            for key in (f"delay_error_{unit}" for unit in AMOUNTS):
                if table.has(key):
                    table.refuse(key, "`xDelayError` (ticks) stands beside it: it wants one of both")
            found["xDelayError"] = table.whole_of("xDelayError")
        else:
            found["xDelayError"] = amount(table, "delay_error_", microtick_ns, more=AMID)
    return found


def read_name(table: Table, nodes: dict[int, Node]) -> str:
    """The name of a node, or nothing where it has none."""
    if not table.has("name"):
        return ""
    wanted = f"a text of 1 to {NAME_LENGTH} printable characters, without blanks at its ends"
    name = table.text("name", wanted)
    if not 1 <= len(name) <= NAME_LENGTH or not name.isprintable() or name != name.strip():
        table.refuse("name", f"{shown_name(name)} is not {wanted}")
    if name.isdecimal():
        table.refuse("name", f"{shown_name(name)} is a number, and a node's number is its id")
    for node in nodes.values():
        if node.name == name:
            table.refuse("name", f"node {node.number} has the name {shown_name(name)} already")
    return name


def shown_name(name: str) -> str:
    """A name as a message has it: cut, and what is not printable escaped."""
    return json.dumps(name if len(name) <= NAME_LENGTH else name[:32] + "..")


def read_node(table: Table, nodes: dict[int, Node], microtick_ns: Fraction, rate_limit: int) -> Node:
    """The node of a table, behind those of the tables before it."""
    number = table.whole_of("id")
    if number in nodes:
        table.refuse("id", f"node {number} is there already")
    name = read_name(table, nodes)
    key_slot = table.whole_of("key_slot") if table.has("key_slot") else None
    node = Node(number, key_slot, table.channels("channels"), table.flag("coldstart"),
                table.flag("arbitrary"), table.number_of("ppm"),
                amount(table, "start_", microtick_ns, default=0),
                table.whole_of("rate", -rate_limit, rate_limit), table.index or 0, name)
    if node.coldstart and key_slot is None:
        table.refuse("coldstart", "a coldstart node needs a `key_slot`")
    if node.arbitrary and key_slot is None:
        table.refuse("arbitrary", "an arbitrary node needs a `key_slot`")
    return node


def read_nodes(source: Source, microtick_ns: Fraction, rate_limit: int, keep: "Keep") -> dict[int, Node]:
    nodes: dict[int, Node] = {}
    tables = source.tables("node")
    for at, table in enumerate(tables):
        with source.part():
            beside = microtick_ns, rate_limit, tuple([(node.number, node.name) for node in nodes.values()])
            node = keep(("node", at), source, [table], beside, lambda: read_node(table, nodes, microtick_ns, rate_limit))
            # What is kept stays as it is where this one is found to be arbitrary.
            nodes[node.number] = Node(**vars(node))
    if not tables:
        with source.part():
            source.table("node").refuse(None, "the file has no [[node]]")
    return dict(sorted(nodes.items()))


def read_slots(source: Source, nodes: dict[int, Node]) -> list[Slot]:
    slots: list[Slot] = []
    for table in source.tables("slot"):
        with source.part():
            slot = table.whole_of("slot")
            sender = table.nodes("node", nodes)
            if len(sender) != 1:
                table.refuse("node", "a further slot has one node")
            base = table.whole_of("base")
            repetition = table.whole_of("repetition")
            if repetition not in ranges.REPETITIONS:
                table.refuse("repetition", f"{repetition} is not 1, 2, 4, 8, 16, 32 or 64 cycles")
            if base >= repetition:
                table.refuse("base", f"{base} is not below the repetition, {repetition}")
            if any(slot == known[0] for known in slots):
                table.refuse("slot", f"slot {slot} is there already")
            slots.append(Slot(slot, sender[0], base, repetition))
    return slots


def version_asked(source: Source, table: Table | None) -> int:
    """The version of the files: 2 where each channel has a compensation of its own."""
    of_channels = [name for name in ranges.OF_CHANNELS if table and table.has(name)]
    if table and of_channels and table.has("pDelayCompensation"):
        with source.part():
            table.refuse(of_channels[0], "`pDelayCompensation` stands beside it, which is for both channels: give that one, or "
                                         "`pDelayCompensationA` and `pDelayCompensationB`")
    return 2 if of_channels else 1


def read_parameters(source: Source, microtick_ns: Fraction) -> Parameters:
    """The parameters; one that is refused has its greatest value, with which the rest is read."""
    table: Table | None = None
    found: Parameters = {}
    with source.part():
        table = source.table("cluster")
    for name, parameter in ranges.table(version_asked(source, table)).items():
        if not name.startswith("x"):
            found[name] = parameter.most
            with source.part():
                if table:
                    found[name] = table.whole_of(name)
    with source.part():
        found.update(read_limits(source, microtick_ns))
    return found


def read_cluster(path: str, changes: Mapping[str, Fraction] | None = None, drawing: Drawing = (None, 1)) -> Cluster:
    """Reads a cluster, with its clocks and its script; numbers that are drawn are of this seed and draw. All faults that
    can be seen at once are told at once."""
    return cluster_of(Source(path, changes, drawing))


Made = TypeVar("Made")


class Keep(Protocol):
    """Makes a part of a cluster, by its name, of some tables of a source and of what stands beside; or hands out what was made of the
    same. What is noted as it is made goes into `notes`."""

    def __call__(self, what: object, source: Source, tables: Sequence[Table], beside: tuple[object, ...], make: Callable[[], Made],
                 notes: list[str] | None = None) -> Made: ...


def anew(what: object, source: Source, tables: Sequence[Table], beside: tuple[object, ...], make: Callable[[], Made],
         notes: list[str] | None = None) -> Made:
    """Keeps nothing."""
    return make()


def read_bench(source: Source) -> tuple[Fraction, Fraction, int]:
    """How many ns a microtick has, the bit rate, and the bits of a transmission start sequence."""
    microtick_ns, bit_rate, start_bits = Fraction(1000), Fraction(10), 15
    with source.part():
        bench = source.table("bench")
        bit_rate = bench.number_of("bit_rate_mbit")
        start_bits = bench.whole_of("start_bits")
        microtick_ns = bench.number_of("microtick_ns")
    return microtick_ns, bit_rate, start_bits


def cluster_of(source: Source, keep: Keep = anew) -> Cluster:
    """The cluster of a source."""
    from .rows import read_rows
    doubles = 1
    microtick_ns, bit_rate, start_bits = keep("bench", source, [source.plain_table("bench")], (), lambda: read_bench(source))
    parameters = keep("parameters", source, [source.plain_table("cluster"), source.plain_table("limits")], (microtick_ns,),
                      lambda: read_parameters(source, microtick_ns))
    with source.part():
        doubles = source.table("run").whole_of("double_cycles")
    nodes = read_nodes(source, microtick_ns, parameters["pRateCorrectionOut"], keep)
    if len(nodes) < len(source.entries.get("node", [])) or not nodes:
        source.tell()
    slots = keep("slots", source, source.tables("slot"), tuple(nodes), lambda: read_slots(source, nodes))
    cluster = Cluster(source.path, microtick_ns, bit_rate, start_bits, parameters, doubles, nodes, slots, drawn=source.drawn,
                      text=source.text)
    read_rows(source, cluster, keep)
    source.tell()
    return cluster
