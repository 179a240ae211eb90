"""What the time stamps of a capture say: the cycle, the jitter of each slot, how far each slot lies off its place, and
what lies between the channels. All are the logger's times: of what its clock is worth they say nothing."""
from __future__ import annotations

import csv
import os
from dataclasses import dataclass
from fractions import Fraction
from math import isqrt
from collections.abc import Callable, Container, Mapping, Sequence
from typing import Any, NamedTuple

from ..base.files import whole
from ..base.units import Number, decimal
from ..toml.cluster import Cluster
from .taken import Taken

SYNC = 0x10
SHOWN = 8


class Moment(NamedTuple):
    """A frame of a cycle, and its instant."""
    cycle: int
    ns: int


class Line(NamedTuple):
    """A line by its slope and its value at 0."""
    slope: Fraction
    first: Fraction


class Share(NamedTuple):
    """The length of a static slot as a part of the cycle, and the highest static ID."""
    part: Fraction
    last: int


class Apart(NamedTuple):
    """How far an ID of channel A lies behind that of B in the cycles in which both have it."""
    id: int
    pairs: int
    least: int
    mean: Fraction
    greatest: int


@dataclass
class Slot:
    """One ID on one channel; times in nanoseconds, of the cycle as the slot itself has it."""
    channel: str
    number: int
    rows: list[Moment]
    cycle: Fraction | None
    least: Fraction | None
    greatest: Fraction | None
    jitter: Fraction | None
    deviation: Fraction | None
    offset: Fraction | None = None


def by_slot(taken: Taken) -> dict[tuple[str, int], list[Moment]]:
    """Each known frame by channel and ID, the first of a cycle alone."""
    found: dict[tuple[str, int], dict[int, int]] = {}
    known = taken.known
    for packet in taken.packets:
        if packet.number in known:
            rows = found.setdefault((packet.channel, known[packet.number].id), {})
            rows.setdefault(taken.cycles[packet.number], packet.ns)
    return {place: [Moment(*row) for row in sorted(rows.items())] for place, rows in sorted(found.items())}


def line_through(rows: Sequence[tuple[int, Number]]) -> Line | None:
    """The line nearest to points of whole numbers, exactly, or None of fewer than two."""
    count = len(rows)
    sum_x, sum_y = sum(x for x, _ in rows), sum(y for _, y in rows)
    width = count * sum(x * x for x, _ in rows) - sum_x * sum_x
    if not width:
        return None
    slope = Fraction(count * sum(x * y for x, y in rows) - sum_x * sum_y, width)
    return Line(slope, (sum_y - slope * sum_x) / count)


def root(value: Fraction) -> Fraction:
    """The square root of a fraction, to a thousandth."""
    return Fraction(isqrt(int(value * 10 ** 6)), 1000)


def slot_of(channel: str, number: int, rows: list[Moment]) -> Slot:
    line = line_through(rows)
    if line is None:
        return Slot(channel, number, rows, None, None, None, None, None)
    steps = [Fraction(ns - before_ns, cycle - before) for (before, before_ns), (cycle, ns) in zip(rows, rows[1:])]
    rest = [ns - line.slope * cycle - line.first for cycle, ns in rows]
    return Slot(channel, number, rows, line.slope, min(steps), max(steps), max(rest) - min(rest),
                root(sum((one * one for one in rest), Fraction(0)) / len(rest)))


def slots_of(taken: Taken) -> list[Slot]:
    return [slot_of(channel, number, rows) for (channel, number), rows in by_slot(taken).items()]


def sync_ids(taken: Taken) -> dict[str, set[int]]:
    """The IDs that a sync frame had, by channel: these are static slots for certain."""
    found: dict[str, set[int]] = {}
    known = taken.known
    for packet in taken.packets:
        if packet.number in known and packet.frame[0] & SYNC:
            found.setdefault(packet.channel, set()).add(known[packet.number].id)
    return found


def place_slots(slots: list[Slot], syncs: Mapping[str, Container[int]], share: Share | None = None) -> dict[str, Fraction]:
    """Sets how far slots lie off their places, by channel, and hands back the length of a slot there.

    A place is one of a grid: the cycle, and a slot for each ID. `share` is the length of a slot as a part of the cycle,
    and the highest static ID; else both are those nearest to the sync slots, of which it takes three.
    """
    lengths: dict[str, Fraction] = {}
    for channel in "AB":
        here = [slot for slot in slots if slot.channel == channel and slot.cycle is not None]
        sure = [slot for slot in here if slot.number in syncs.get(channel, ())]
        if not sure or share is None and len(sure) < 3:
            continue
        cycle = sum((slot.cycle for slot in sure if slot.cycle is not None), Fraction(0)) / len(sure)
        # Where a slot lies in cycle 0, going by the cycle that all have in common.
        begins = {slot.number: sum((ns - cycle * at for at, ns in slot.rows), Fraction(0)) / len(slot.rows) for slot in here}
        if share is None:
            grid = line_through([(slot.number, begins[slot.number]) for slot in sure])
            assert grid is not None
            length, first = grid
        else:
            length = cycle * share.part
            first = sum((begins[slot.number] - length * slot.number for slot in sure), Fraction(0)) / len(sure)
        lengths[channel] = length
        for slot in here:
            off = begins[slot.number] - first - length * slot.number
            if (slot.number <= share.last) if share else abs(off) * 2 < length:
                slot.offset = off
    return lengths


def between(slots: list[Slot]) -> list[Apart]:
    """What lies between the channels, by ID."""
    rows = {(slot.channel, slot.number): dict(slot.rows) for slot in slots}
    found: list[Apart] = []
    for channel, number in sorted(rows):
        if channel == "A" and ("B", number) in rows:
            apart = [ns - rows["B", number][cycle] for cycle, ns in rows["A", number].items() if cycle in rows["B", number]]
            if apart:
                found.append(Apart(number, len(apart), min(apart), Fraction(sum(apart), len(apart)), max(apart)))
    return found


def us(value: Number | None) -> str:
    return "" if value is None else decimal(Fraction(value) / 1000, 3)


def share_of(cluster: Cluster) -> Share:
    """The length of a static slot as a part of the cycle, and the highest static ID."""
    p = cluster.parameters
    return Share(Fraction(p["gdStaticSlot"], p["gMacroPerCycle"]), p["gNumberOfStaticSlots"])


@dataclass
class Timing:
    slots: list[Slot]
    lengths: dict[str, Fraction]
    pairs: list[Apart]
    coarse: bool


def timing(taken: Taken, cluster: Cluster | None = None) -> Timing | None:
    """What the time stamps say, or None where fewer than two frames of an ID have different ones."""
    slots = slots_of(taken)
    if not any(slot.cycle for slot in slots):
        return None
    lengths = place_slots(slots, sync_ids(taken), share_of(cluster) if cluster else None)
    coarse = all(packet.ns % 1000 == 0 for packet in taken.packets)
    return Timing(slots, lengths, between(slots), coarse)


def write_timing(folder: str, found: Timing) -> list[str]:
    paths = [os.path.join(folder, "timing.csv"), os.path.join(folder, "channels.csv")]
    with whole(paths[0], encoding="ascii") as file:
        writer = csv.writer(file, lineterminator="\n")
        writer.writerow(("channel", "id", "frames", "first_cycle", "last_cycle", "cycle_us", "least_cycle_us",
                         "greatest_cycle_us", "jitter_us", "deviation_us", "offset_us"))
        for slot in found.slots:
            writer.writerow((slot.channel, slot.number, len(slot.rows), slot.rows[0][0], slot.rows[-1][0],
                             *map(us, (slot.cycle, slot.least, slot.greatest, slot.jitter, slot.deviation, slot.offset))))
    with whole(paths[1], encoding="ascii") as file:
        writer = csv.writer(file, lineterminator="\n")
        writer.writerow(("id", "pairs", "least_us", "mean_us", "greatest_us"))
        for apart in found.pairs:
            writer.writerow((apart.id, apart.pairs, us(apart.least), us(apart.mean), us(apart.greatest)))
    return paths


def timing_objects(found: Timing | None) -> list[dict[str, Any]]:
    """The times of each ID on each channel, in us; null where nothing is told."""
    def number(value: Number | None) -> float | None:
        return None if value is None else float(us(value))

    return [{"channel": slot.channel, "id": slot.number, "cycle_us": number(slot.cycle), "least_cycle_us": number(slot.least),
             "greatest_cycle_us": number(slot.greatest), "jitter_us": number(slot.jitter),
             "deviation_us": number(slot.deviation), "offset_us": number(slot.offset)}
            for slot in (found.slots if found else ())]


def timing_lines(found: Timing | None, field: Callable[..., list[str]]) -> list[str]:
    """The page's part."""
    if found is None:
        return ["", *field("Times", "no ID has two frames with different time stamps, so of times nothing is told")]
    lines = ["", *field("Times", "of the logger, in us" + ("; its time stamps are whole microseconds" if found.coarse else ""))]
    lines.append(f"{'id':>6}{'':>3}{'cycle':>12}{'least':>11}{'greatest':>11}{'jitter':>9}{'deviation':>11}{'offset':>9}")
    for slot in found.slots:
        numbers = [us(value) or "-" for value in (slot.cycle, slot.least, slot.greatest, slot.jitter, slot.deviation,
                                                  slot.offset)]
        lines.append(f"{slot.number:>6}{slot.channel:>3}{numbers[0]:>12}{numbers[1]:>11}{numbers[2]:>11}{numbers[3]:>9}"
                     f"{numbers[4]:>11}{numbers[5]:>9}")
    if found.pairs:
        lines += ["", f"{'id':>6}{'both':>8}  A less B: least, mean, greatest"]
        lines += [f"{number:>6}{count:>8}  {us(least)}, {us(mean)}, {us(greatest)}"
                  for number, count, least, mean, greatest in found.pairs]
    told = ", ".join(f"{us(length)} on {channel}" for channel, length in sorted(found.lengths.items()))
    grid = (f" ({told} us long)" if told else
            "; for that it takes three sync slots of a channel, or --cluster with the TOML file of the network")
    return lines + ["", *field("", "cycle: from one frame of the ID to the next, by cycle; jitter: from the earliest to the "
                                   "latest, off the line through all of them; deviation: the root of the mean square of that.",
                               f"offset: how far the slot lies behind its place in a grid of slots{grid}")]


def draw_timing(folder: str, found: Timing, name: str) -> list[str]:
    """The cycle over time, and each slot's place beside the line through it."""
    from ..pages.pictures import COLOURS, draw, plain_axes, thinned
    slots = [slot for slot in found.slots if slot.cycle is not None][:SHOWN]
    data, upper, lower = "", list[str](), list[str]()
    for at, slot in enumerate(slots):
        line = line_through(slot.rows)
        assert line is not None
        slope, first = line
        steps = [(cycle, Fraction(ns - before_ns, cycle - before) / 1000)
                 for (before, before_ns), (cycle, ns) in zip(slot.rows, slot.rows[1:])]
        rest = [(cycle, (ns - slope * cycle - first) / 1000) for cycle, ns in slot.rows]
        for kind, rows in (("step", steps), ("rest", rest)):
            data += f"${kind}{at} << end\n" + "".join(f"{x} {decimal(y, 6)}\n" for x, y in thinned(rows)) + "end\n"
        style = f"linecolor '{COLOURS[at % len(COLOURS)]}'"
        title = f"'ID {int(slot.number)} on {slot.channel}'"
        upper.append(f"$step{at} using 1:2 title {title} with lines {style}")
        lower.append(f"$rest{at} using 1:2 title {title} with points pointtype 7 pointsize 0.4 {style}")
    script = (data + plain_axes() + "set multiplot layout 2,1 title 'Times of '.file noenhanced font ',14'\n"
              "set lmargin 12\nset rmargin 18\nset key outside right top Left reverse samplen 2\nset format y '%.3f'\n"
              "set ylabel 'cycle, us'\nplot " + ", \\\n     ".join(upper)
              + "\nset ylabel 'off its own line, us'\nset xlabel 'cycle'\nplot " + ", \\\n     ".join(lower)
              + "\nunset multiplot\n")
    return draw(folder, "timing", script, "1000,720", file=name)
