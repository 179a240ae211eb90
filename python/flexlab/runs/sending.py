"""What the nodes of a run send, as a capture: the slots of the parameters, the instants of the run's trace."""
from __future__ import annotations

import os
from fractions import Fraction
from collections.abc import Iterator
from typing import NamedTuple

from ..base.ending import DONE, PROGRAM, Stop
from ..base.ranges import Parameters
from ..base.units import rounded
from ..captures.frames import regular_frame
from ..captures.observer import End, Observer, read_observer
from ..captures.packets import Stamped, write_capture
from ..program.report import Row, Trace
from ..toml.cluster import Cluster, Node
from .runs import run_cluster


class Sender(NamedTuple):
    """A slot of a node, in each cycle whose rest by the repetition is the base, and whether it is the key slot."""
    slot: int
    node: Node
    base: int
    repetition: int
    is_key: bool


def senders(cluster: Cluster) -> Iterator[Sender]:
    """Everything that correct nodes send."""
    for node in cluster.nodes.values():
        if node.key_slot and not node.arbitrary:
            yield Sender(node.key_slot, node, 0, 1, True)
    for slot, number, base, repetition in cluster.slots:
        if not cluster.nodes[number].arbitrary:
            yield Sender(slot, cluster.nodes[number], base, repetition, False)


def instant(parameters: Parameters, row: Row, slot: int) -> int:
    """The tick of a slot's action point at a node: start + floor(m (N + r) / G) microticks."""
    macrotick = (slot - 1) * parameters["gdStaticSlot"] + parameters["gdActionPointOffset"]
    micros = macrotick * (parameters["pMicroPerCycle"] + row.rate) // parameters["gMacroPerCycle"]
    return row.start + micros * row.length


def stamp(ns: Fraction, observer: Observer | None, node: Node, channel: str) -> int:
    """What the clock shows that stamps a frame: without an analyzer the nearest nanosecond, else the step of its resolution
    in which the frame comes, with a delay amid its limits."""
    if observer is None:
        return rounded(ns)
    low, high = observer.limits[End(node.number, channel)]
    return int((ns + (low + high) / 2) // observer.resolution * observer.resolution // 1)


def sent(cluster: Cluster, cycles: Trace, observer: Observer | None = None) -> list[Stamped]:
    """Each frame, by time; stamped by an analyzer where one is stated."""
    words = cluster.parameters["gPayloadLengthStatic"]
    found: list[Stamped] = []
    plan = list(senders(cluster))
    for cycle, rows in enumerate(cycles):
        for slot, node, base, repetition, key in plan:
            row = rows.get(node.number)
            if row is None or row.state != "active":
                continue
            ticks = instant(cluster.parameters, row, slot)
            ns = Fraction(ticks) * cluster.microtick_ns / 1000000
            valid = key or cycle % 64 % repetition == base
            for channel in node.channels:
                frame = regular_frame(channel, slot, cycle, words, valid, key, key and node.coldstart)
                found.append(Stamped(stamp(ns, observer, node, channel), channel, frame))
    return sorted(found, key=lambda packet: packet[:2])


def write_run(cluster: Cluster, folder: str, program: str) -> int:
    run = run_cluster(cluster, folder, program)
    packets = sent(cluster, run.cycles, read_observer(cluster))
    for channel, told in run.report.sent.items():
        frames = [frame for _, where, frame in packets if where == channel]
        total = 0
        for frame in frames:
            total ^= int.from_bytes(frame[-3:], "big")
        if (len(frames), f"{total:06X}") != told:
            raise Stop(PROGRAM, f"channel {channel}: {len(frames)} frames with the sum {total:06X} are made, and "
                                f"flexray sent {told[0]} with {told[1]}")
    path, bare = os.path.join(folder, "sent.pcap"), os.path.join(folder, "wireshark.pcap")
    write_capture(path, packets)
    write_capture(bare, [packet._replace(frame=packet.frame[:-3]) for packet in packets])
    print(f"{path}: {len(packets)} frames of correct nodes, as many on each channel and with the sum of frame CRCs "
          "that flexray tells")
    print(f"{bare}: the same without the frame CRC, which Wireshark 4.0 takes for a malformed payload")
    if cluster.arbitrary:
        print("left out: what arbitrary nodes say, which is said to each receiver alone: nodes "
              + ", ".join(map(str, cluster.arbitrary)))
    return DONE
