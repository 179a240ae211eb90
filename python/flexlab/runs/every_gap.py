"""Every gap of a cluster that can be told from its files: the report names the first one alone, and what mends that may leave
another. They are those of docs/PRECISION.md, "Which runs are covered", but for the checks; the count is the first, since no
parameter mends it. The precision asks of the double cycles from the first in sync on alone, so each is told of those from one on."""
from collections.abc import Iterator
from dataclasses import replace

from ..base.ranges import compensation
from ..base.units import TICKS
from ..program.forms import HARMS
from ..toml.cluster import Cluster, Link, Steps

# How many correct sync nodes outweigh so many arbitrary ones.
OUTWEIGH = {0: 1, 1: 3, 2: 6}


def behind(cluster: "Cluster", since: int) -> "Cluster":
    """The cluster by what its files say of the double cycles from one on: the lengths and delays that hold there, and what becomes of
    frames."""
    if not since:
        return cluster
    first = 2 * since

    def later(steps: Steps) -> Steps:
        held = [cycle for cycle in steps if cycle <= first]
        return {**({first: steps[max(held)]} if held else {}), **{cycle: ticks for cycle, ticks in steps.items() if cycle > first}}

    return replace(cluster, lengths={node: later(steps) for node, steps in cluster.lengths.items()},
                   delays={link: later(steps) for link, steps in cluster.delays.items()},
                   script={place: row for place, row in cluster.script.items() if place.cycle >= first})


def count_gap(cluster: "Cluster") -> list[str] | None:
    sync = [node for node in cluster.nodes.values() if node.key_slot is not None and not node.arbitrary]
    correct = sum(node.number not in cluster.joins for node in sync)
    arbitrary = len(cluster.arbitrary)
    return None if correct >= OUTWEIGH.get(arbitrary, correct + 1) else ["count", str(correct), str(arbitrary)]


def length_gap(cluster: "Cluster") -> list[str] | None:
    most = cluster.parameters["xRateBound"]
    found = ((node, cycle, ticks) for node in cluster.correct for cycle, ticks in sorted(cluster.lengths.get(node, {}).items())
             if cycle < cluster.cycles and abs(ticks - TICKS) > most)
    first = next(found, None)
    return first and ["length", *map(str, first)]


def change_gap(cluster: "Cluster") -> list[str] | None:
    most = cluster.parameters["xChangeBound"]
    for node in cluster.correct:
        steps = sorted(cluster.lengths.get(node, {}).items())
        for (_, before), (cycle, ticks) in zip(steps, steps[1:]):
            if cycle < cluster.cycles and abs(ticks - before) > most:
                return ["change", str(node), str(cycle), str(ticks - before)]
    return None


def pairs(cluster: "Cluster") -> Iterator[tuple[int, int]]:
    """Each correct sync node with each other correct node, by their numbers."""
    for sender in cluster.correct:
        if cluster.nodes[sender].key_slot is not None:
            yield from ((sender, receiver) for receiver in cluster.correct if receiver != sender)


def delay_gap(cluster: "Cluster") -> list[str] | None:
    most = cluster.parameters["xDelayError"]
    for sender, receiver in pairs(cluster):
        for channel in cluster.common(sender, receiver):
            wait = compensation(cluster.parameters, channel) * TICKS
            for cycle, ticks in sorted(cluster.delays.get(Link(sender, receiver, channel), {}).items()):
                if cycle < cluster.cycles and abs(ticks - wait) > most:
                    return ["delay", str(sender), str(receiver), channel, str(cycle), str(ticks)]
    return None


def link_gap(cluster: "Cluster", since: int = 0) -> list[str] | None:
    """The first link without a channel that carries its frames in both cycles of a double cycle, from one on."""
    harmed: dict[tuple[int, int], dict[int, set[str]]] = {}
    for (cycle, sender, receiver, channel), row in cluster.script.items():
        if row.kind in HARMS:
            harmed.setdefault((sender, receiver), {}).setdefault(cycle // 2, set()).add(channel)
    for pair in pairs(cluster):
        common = set(cluster.common(*pair))
        broken = [double for double, channels in harmed.get(pair, {}).items() if common <= channels]
        if not common or broken:
            return ["link", str(pair[0]), str(pair[1]), str(min(broken) if common else since)]
    return None


def every_gap(cluster: "Cluster", since: int = 0) -> list[list[str]]:
    """The words of the first gap of each kind, as a report has them behind `covered no`: of the whole run, or of the double cycles from
    one on, as `run .. sharp` has them."""
    asked = behind(cluster, since)
    found = [*(gap(asked) for gap in (count_gap, length_gap, change_gap, delay_gap)), link_gap(asked, since)]
    return [gap for gap in found if gap]


def lost_frames(cluster: "Cluster") -> list[tuple[int, int, int, int, str]]:
    """(sender, first cycle, last cycle, how many at receivers, channels) of the frames that are lost or damaged on their way."""
    found: dict[int, list[tuple[int, str]]] = {}
    for (cycle, sender, _, channel), row in cluster.script.items():
        if row.kind in HARMS:
            found.setdefault(sender, []).append((cycle, channel))
    return [(sender, min(rows)[0], max(rows)[0], len(rows), "".join(sorted({channel for _, channel in rows})))
            for sender, rows in sorted(found.items())]
