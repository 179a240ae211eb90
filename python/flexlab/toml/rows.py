"""Rows for many nodes and cycles: oscillators, delays, two-faced nodes and what is done to frames."""
import heapq
import functools
from fractions import Fraction
from collections.abc import Iterable
from typing import NamedTuple, TypeVar

from ..base import ranges, units
from ..base.ending import REFUSED, Stop
from ..program.forms import HARMS, OF_FRAMES
from .cluster import Cluster, Fate, FrameAt, Join, Keep, Link, Power, Steps, amount
from .keys import TABLES, TIMES, sizes
from .source import Source
from .values import Table

Default = TypeVar("Default", bound="int | None")


# The shortest rows of each file.
LEAST_BYTES = {"drift": len("delay,1,2,A,0,0\n"), "script": len("say,0,1,2,A,0,\n")}


class Ramp(NamedTuple):
    """The ppm of an oscillator in the first and in the last of some cycles, and linear in between."""
    first: int
    last: int
    begin: Fraction
    end: Fraction


def length(table: Table, key: str, ppm: Fraction) -> int:
    ticks = units.length_of(ppm)
    if not ranges.LENGTH[0] <= ticks <= ranges.LENGTH[1]:
        table.refuse(key, f"a microtick would last {ticks} ticks, which is not from 500000 to 1500000")
    return ticks


def reach(table: Table, cluster: Cluster) -> tuple[int, int]:
    """The cycles of a table, first and last; one that lies wholly behind the end of the run is noted."""
    first, last = table.cycles("cycles", cluster.cycles)
    behind(table, cluster, "cycles", first)
    return first, last


def behind(table: Table, cluster: Cluster, key: str, first: int) -> None:
    if first >= cluster.cycles:
        note(table, cluster, key, f"it lies behind the end of the run, whose last cycle is {cluster.cycles - 1}, and has "
                                  "no effect")


def note(table: Table, cluster: Cluster, key: str, why: str) -> None:
    """A line that warns: the table is taken, and does not do what it may be there for."""
    cluster.notes.append(f"{cluster.path}:{table.line(key)}: {table.key(key)}: {why}")


def read_rows(source: Source, cluster: Cluster, keep: Keep) -> None:
    """All rows of a cluster, whose nodes and parameters are there."""
    def many(*names: str) -> list[Table]:
        return [table for name in names for table in source.tables(name)]

    known = (cluster.cycles, cluster.microtick_ns, cluster.parameters["gPayloadLengthStatic"])
    cluster.script, arbitrary = keep("script", source, many("two_faced", *OF_FRAMES), (*known, described(cluster)),
                                     lambda: read_script(source, cluster), cluster.notes)
    for node in arbitrary:
        cluster.nodes[node].arbitrary = True
    read_joins(source, cluster)
    read_lengths(source, cluster, keep)
    cluster.delays = keep("delays", source, many("delay"), (*known, described(cluster)), lambda: read_delays(source, cluster),
                          cluster.notes)
    read_power(source, cluster)


def described(cluster: Cluster) -> tuple[object, ...]:
    """What rows hang on of the nodes."""
    return tuple([(node.number, node.channels, node.key_slot is None, node.arbitrary) for node in cluster.nodes.values()])


def read_lengths(source: Source, cluster: Cluster, keep: Keep) -> None:
    """For each node which length holds from which cycle on: the node's own, then [[oscillator]] by order."""
    def check(table: Table) -> None:
        with source.part():
            length(table, "ppm", cluster.nodes[table.whole_of("id")].ppm)

    for at, table in enumerate(source.tables("node")):
        keep(("ppm", at), source, [table], (), lambda: check(table))
    ramps = keep("oscillators", source, source.tables("oscillator"), (cluster.cycles, described(cluster)),
                 lambda: read_oscillators(source, cluster), cluster.notes)
    made = 0
    for number, node in cluster.nodes.items():
        if not node.arbitrary:
            plan = (Ramp(0, cluster.cycles - 1, node.ppm, node.ppm), *(row for nodes, row in ramps if number in nodes))
            cluster.lengths[number] = keep(("lengths", number), source, (), (plan, cluster.cycles), lambda: steps(plan, cluster.cycles))
            made += len(cluster.lengths[number])
            make_room(cluster, "drift", made)


def read_oscillators(source: Source, cluster: Cluster) -> list[tuple[list[int], Ramp]]:
    """Each [[oscillator]] in this order: which nodes, and what it says of them."""
    found = []
    for table in source.tables("oscillator"):
        with source.part():
            found.append(read_oscillator(table, cluster))
    return found


def read_oscillator(table: Table, cluster: Cluster) -> tuple[list[int], Ramp]:
    nodes = table.nodes("nodes", cluster.nodes)
    first, last = reach(table, cluster)
    if table.has("ppm"):
        begin = end = table.number_of("ppm")
        if table.has("ppm_from") or table.has("ppm_to"):
            table.refuse("ppm", "it wants `ppm`, or `ppm_from` and `ppm_to`, and not both")
    else:
        begin, end = table.number_of("ppm_from"), table.number_of("ppm_to")
    length(table, "ppm" if table.has("ppm") else "ppm_from", begin)
    length(table, "ppm" if table.has("ppm") else "ppm_to", end)
    if table.entries["nodes"] != "all":
        without_clock(table, "nodes", nodes, cluster)
    return nodes, Ramp(first, last, begin, end)


def without_clock(table: Table, key: str, nodes: list[int], cluster: Cluster) -> list[int]:
    """Notes which of these nodes are arbitrary, and hands back the others."""
    for node in nodes:
        if node in cluster.arbitrary:
            note(table, cluster, key, f"node {node} is arbitrary, so it has no clock and its frames come when they are "
                                      "said to: for it this table has no effect")
    return [node for node in nodes if node not in cluster.arbitrary]


@functools.lru_cache(1000)
def steps(plan: tuple[Ramp, ...], cycles: int) -> Steps:
    """The cycles at which a length changes, each with its length; a ramp is linear in ppm."""
    found: Steps = {}
    before = None
    marks = sorted({0} | {first for first, _, _, _ in plan} | {last + 1 for _, last, _, _ in plan})
    # The row that stands last of those that have a mark counts: it is the first of these.
    coming, now = sorted((row.first, at) for at, row in enumerate(plan)), list[int]()
    coming.reverse()
    for mark, end_mark in zip(marks, marks[1:] + [cycles]):
        if mark >= cycles:
            break
        while coming and coming[-1][0] <= mark:
            heapq.heappush(now, -coming.pop()[1])
        while plan[-now[0]][1] < mark:
            heapq.heappop(now)
        first, last, begin, end = plan[-now[0]]
        for cycle in range(mark, min(end_mark, cycles)) if begin != end else [mark]:
            ppm = begin if last == first else begin + (end - begin) * Fraction(cycle - first, last - first)
            ticks = units.length_of(ppm)
            if ticks != before:
                found[cycle] = before = ticks
    return found


def links(table: Table, cluster: Cluster, senders: Iterable[int], receivers: list[int], channels: str, named: str) -> list[Link]:
    """Pairs of different nodes with a common channel; a single pair that has none is refused."""
    found = [Link(sender, receiver, channel) for sender in senders for receiver in receivers if sender != receiver
             for channel in cluster.common(sender, receiver) if channel in channels]
    if not found:
        table.refuse(named, f"no two of these nodes have a common channel of {channels}")
    return found


def correct_only(table: Table, key: str, cluster: Cluster, why: str) -> list[int]:
    if table.entries.get(key, "all") == "all":
        return cluster.correct
    nodes = table.nodes(key, cluster.nodes)
    for node in nodes:
        if node in cluster.arbitrary:
            table.refuse(key, f"node {node} is arbitrary, and {why}")
    return nodes


def read_delays(source: Source, cluster: Cluster) -> dict[Link, Steps]:
    made = sum(map(len, cluster.lengths.values()))
    for table in source.tables("delay"):
        with source.part():
            senders, receivers = delay_ends(table, cluster, "from"), delay_ends(table, cluster, "to")
            channels = table.channels("channels")
            first = table.whole_of("from_cycle")
            behind(table, cluster, "from_cycle", first)
            ticks = amount(table, "", cluster.microtick_ns)
            if senders and receivers:
                for link in links(table, cluster, senders, receivers, channels, "channels"):
                    times = cluster.delays.setdefault(link, {})
                    made += first not in times
                    times[first] = ticks
                make_room(cluster, "drift", made)
    return cluster.delays


def delay_ends(table: Table, cluster: Cluster, key: str) -> list[int]:
    """The correct nodes at one end of delays; those that are named and arbitrary are noted."""
    if table.entries.get(key, "all") == "all":
        return cluster.correct
    return without_clock(table, key, table.nodes(key, cluster.nodes), cluster)


def read_script(source: Source, cluster: Cluster) -> tuple[dict[FrameAt, Fate], list[int]]:
    """What becomes of frames, and the nodes that are arbitrary since it is said what they say."""
    frame_bits = 8 * (8 + 2 * cluster.parameters["gPayloadLengthStatic"])
    said = []
    for name in ("two_faced", "say"):
        for table in source.tables(name):
            with source.part():
                nodes = table.nodes("node", cluster.nodes)
                if len(nodes) != 1:
                    table.refuse("node", "one node is wanted")
                if cluster.nodes[nodes[0]].key_slot is None:
                    table.refuse("node", f"node {nodes[0]} has no key slot, and an arbitrary node needs one")
                cluster.nodes[nodes[0]].arbitrary = True
                said.append((name, table, nodes[0]))
    for name, table, node in said:
        with source.part():
            (read_two_faced if name == "two_faced" else read_say)(table, cluster, node)
    for name in HARMS:
        for table in source.tables(name):
            with source.part():
                senders = correct_only(table, "from", cluster, "says only what [[say]] says")
                receivers = correct_only(table, "to", cluster, "hears nothing")
                first, last = reach(table, cluster)
                channels = table.channels("channels")
                bit: int | str = table.whole_of("bit", most=frame_bits - 1) if "bit" in TABLES[name].keys else ""
                for link in links(table, cluster, senders, receivers, channels, "channels"):
                    put(table, cluster, link, first, last, Fate(name, bit, ""))
    return cluster.script, cluster.arbitrary


def read_joins(source: Source, cluster: Cluster) -> None:
    """For each node that joins the double cycle in which it listens, and its reference."""
    for table in source.tables("join"):
        with source.part():
            read_join(table, cluster)
    for table in source.tables("join"):
        with source.part():
            reference = one_correct(table, "reference", cluster)
            if reference in cluster.joins:
                table.refuse("reference", f"node {reference} joins itself, and a reference is there from cycle 0 on")


def read_join(table: Table, cluster: Cluster) -> None:
    double = table.whole_of("double_cycle")
    node, reference = one_correct(table, "node", cluster), one_correct(table, "reference", cluster)
    if node in cluster.joins:
        table.refuse("node", f"node {node} joins already")
    if cluster.nodes[node].start or cluster.nodes[node].rate:
        table.refuse("node", f"node {node} has a start or a rate, and both come of what it hears as it joins")
    if node == reference:
        table.refuse("reference", f"node {node} cannot be its own reference")
    if cluster.nodes[reference].key_slot is None:
        table.refuse("reference", f"node {reference} has no key slot, and a reference needs one")
    if not cluster.common(reference, node):
        table.refuse("reference", f"nodes {node} and {reference} have no channel in common")
    behind(table, cluster, "double_cycle", 2 * double)
    cluster.joins[node] = Join(double, reference)


def one_correct(table: Table, key: str, cluster: Cluster) -> int:
    nodes = table.nodes(key, cluster.nodes)
    if len(nodes) != 1:
        table.refuse(key, "one node is wanted")
    if nodes[0] in cluster.arbitrary:
        table.refuse(key, f"node {nodes[0]} is arbitrary, and only correct nodes join")
    return nodes[0]


def make_room(cluster: Cluster, name: str, rows: int) -> None:
    """Ends flexlab where a file would have more rows than its length takes, before they are made: a few lines can ask for
    billions of them."""
    most = ranges.FILE_BYTES // LEAST_BYTES[name]
    if rows > most:
        raise Stop(REFUSED, f"{cluster.path}: {name}.csv would have more than {most} rows, and flexray takes files of at most "
                            f"{ranges.FILE_BYTES} bytes; fewer cycles or nodes make it shorter")


def put(table: Table, cluster: Cluster, link: Link, first: int, last: int, row: Fate) -> None:
    """A row for each of these cycles that the run has."""
    make_room(cluster, "script", len(cluster.script) + min(last, cluster.cycles - 1) + 1 - first)
    for cycle in range(first, min(last, cluster.cycles - 1) + 1):
        if FrameAt(cycle, *link) in cluster.script:
            table.refuse(None, "cycle {}, node {} to node {}, channel {}: another table says something of "
                               "these frames already".format(cycle, *link))
        cluster.script[FrameAt(cycle, *link)] = row


def read_two_faced(table: Table, cluster: Cluster, node: int) -> None:
    first, last = reach(table, cluster)
    channels = table.channels("channels")
    ticks = amount(table, "", cluster.microtick_ns)
    groups: dict[int, int] = {}
    for key, shift in (("early", -ticks), ("late", ticks), ("on_time", 0)):
        for receiver in table.nodes(key, cluster.nodes):
            if receiver in cluster.arbitrary:
                table.refuse(key, f"node {receiver} is arbitrary, and hears nothing")
            if receiver in groups:
                table.refuse(key, f"node {receiver} is in two of `early`, `late` and `on_time`")
            groups[receiver] = shift
    if not groups:
        table.refuse(None, "it wants receivers: `early`, `late` or `on_time`")
    for receiver, shift in groups.items():
        for link in links(table, cluster, [node], [receiver], channels, "channels"):
            put(table, cluster, link, first, last, Fate("say", shift, ""))


def read_say(table: Table, cluster: Cluster, node: int) -> None:
    first, last = reach(table, cluster)
    channels = table.channels("channels")
    receivers = correct_only(table, "to", cluster, "hears nothing")
    ticks = amount(table, "", cluster.microtick_ns, default=0)
    frame = table.hexadecimal("frame", ranges.FRAME_DIGITS)
    for link in links(table, cluster, [node], receivers, channels, "channels"):
        put(table, cluster, link, first, last, Fate("say", ticks, frame))


def read_power(source: Source, cluster: Cluster) -> None:
    """For each node when it is switched on and off, in macroticks; off may be None. Later tables of a node follow it."""
    for table in source.tables("power"):
        with source.part():
            nodes = table.nodes("nodes", cluster.nodes)
            on = macroticks(table, "on", cluster, 0)
            off = macroticks(table, "off", cluster, None)
            if off is not None and off <= on:
                table.refuse(None, f"it is off {off} macroticks after the begin, and on {on}: off has to be later")
            for node in nodes:
                before = cluster.power.setdefault(node, [])
                last = before[-1].off if before else 0
                if before and (last is None or on <= last):
                    table.refuse("nodes", f"node {node} is on already by an earlier table, and tables of a node ascend")
                before.append(Power(on, off))


def macroticks(table: Table, switch: str, cluster: Cluster, default: Default) -> int | Default:
    """The macrotick of a switch that is given as SWITCH_ms, _us or _macroticks."""
    given = [unit for unit in TIMES if table.has(f"{switch}_{unit}")]
    if not given:
        return default
    if len(given) > 1:
        table.refuse(f"{switch}_{given[1]}", "it wants one of " + ", ".join(f"`{switch}_{unit}`" for unit in TIMES))
    lengths = sizes(cluster.microtick_ns, cluster.macrotick_ns)
    value = table.number_of(f"{switch}_{given[0]}", cluster.microtick_ns, cluster.macrotick_ns)
    return units.rounded(value * lengths[given[0]] / cluster.macrotick_ns)
