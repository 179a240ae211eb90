"""Logs that were written, and the numbers that flexray gives to their frames: docs/OBSERVE.md, "Which frames are used"."""
from __future__ import annotations

from collections.abc import Iterable, Iterator, Mapping
from dataclasses import dataclass, field
from typing import NamedTuple

from ..base.files import read
from ..base.ranges import CYCLES
from ..base.units import TICKS
from ..toml.cluster import Cluster, Node
from .observer import End, is_damaged

# Numbers of cycles are known but for so many.
COUNTS = 64
LAST_CYCLE = CYCLES[1]
# Behind so many cycles without a frame that says where a clock was flexray gives no number.
SILENCE = 30


@dataclass
class Text:
    """A log as it was written for flexray: a unit in ticks, what a stamp is off beside, the clock's drift, and limits of delays, all in
    ticks; and the entries, each its kind, its stamp in units, its channel and its bytes."""
    unit: int = 0
    error: int = 0
    drift: int = 0
    limits: dict[End, tuple[int, int]] = field(default_factory=dict)
    entries: list[tuple[str, int, str, bytes]] = field(default_factory=list)


def text_of(path: str) -> Text:
    found = Text()
    for line in read(path).decode("ascii").splitlines():
        kind, one, two, three, four = line.split(",")
        if kind in ("frame", "head"):
            found.entries.append((kind, int(one), two, bytes.fromhex(three)))
        elif kind == "delay":
            found.limits[End(int(one), two)] = int(three), int(four)
        elif kind in ("unit", "error", "drift"):
            setattr(found, kind, int(one))
    return found


class Sent(NamedTuple):
    """A frame that says where a clock was: its node and slot, the cycle count, its stamp in units, and its channel."""
    node: int
    slot: int
    cycle_count: int
    stamp: int
    channel: str


def senders_of(cluster: Cluster) -> dict[int, Node]:
    """The nodes whose frames say where a clock was, by their key slots."""
    return {node.key_slot: node for node in cluster.nodes.values() if node.key_slot and not node.arbitrary}


def sender_of(cluster: Cluster, keys: Mapping[int, Node], channel: str, data: bytes) -> Node | None:
    """The node of which a frame, where it is not damaged, says where its clock was."""
    node = keys.get((data[0] & 7) << 8 | data[1])
    if node is None or channel not in node.channels or data[2] >> 1 != cluster.parameters["gPayloadLengthStatic"]:
        return None
    return node if (data[0] >> 3 & 3) == 2 + node.coldstart else None


def frames_of(cluster: Cluster, text: Text, may_be_damaged: bool) -> Iterator[Sent]:
    """The frames of a log that say where a clock was."""
    keys = senders_of(cluster)
    for kind, stamp, channel, data in text.entries:
        node = sender_of(cluster, keys, channel, data)
        if node and not (may_be_damaged and is_damaged(channel, data, kind == "frame")):
            yield Sent(node.number, (data[0] & 7) << 8 | data[1], data[4] & 63, stamp, channel)


def numbered(cluster: Cluster, unit: int, frames: Iterable[Sent]) -> Iterator[tuple[Sent, int | None]]:
    """Frames with the numbers of their cycles; None of one that comes at another time, is of a past double cycle, or behind a silence."""
    values, last = cluster.parameters, None
    nominal = values["pMicroPerCycle"] * TICKS
    for frame in frames:
        number = frame.cycle_count
        if last is not None:
            before, earlier = last
            apart = unit * (frame.stamp - earlier.stamp)
            number += COUNTS * ((before + COUNTS // 2 - 1 - number) // COUNTS)
            macroticks = (number - before) * values["gMacroPerCycle"] + (frame.slot - earlier.slot) * values["gdStaticSlot"]
            is_timely = abs(apart - macroticks * nominal // values["gMacroPerCycle"]) <= nominal // 2
            if apart > SILENCE * nominal or not is_timely or not 0 <= number <= LAST_CYCLE or number // 2 < before // 2:
                yield frame, None
                continue
        last = number, frame
        yield frame, number
