"""A log for `flexray observe`: the frames of a capture or of a table, and what the TOML file states of the analyzer.

Units are converted and limits rounded outwards; which frame is whole, and what it tells, is for flexray to say.
"""
from __future__ import annotations

import csv
import re
import struct
import sys
from collections.abc import Iterator
from dataclasses import dataclass, field
from fractions import Fraction
from functools import cached_property
from math import gcd
from statistics import median
from typing import Any, NamedTuple
from argparse import Namespace

from ..base import ranges
from .asc import UNPROVED, read_asc
from .blf import MAGIC, MISSING, SHORTER, STRAY, read_blf
from .capture import load, sort_packets, spans
from ..base.ending import NO, REFUSED, USAGE, Refused, Stop, printable
from ..base.files import LONGEST, MIB, check_is_file, named_faults, put, text_of
from ..toml.cluster import Cluster
from ..toml.keys import MOST_TICKS
from ..toml.values import Table
from .frames import crc, frame_crc
from .packets import UNSURE
from ..pages.page import field as lines_of
from ..toml.source import Source
from ..base.units import TICKS, Number, decimal

LAST_STAMP = ranges.TIMES[1]
# So many bytes of what a log may have are left for a row that names a node more arbitrary.
ROOM = 32
WANTED = ("a table [observer] states what is known of the analyzer: resolution_ns, drift_ppm, delay_from_ns and "
          "delay_to_ns; docs/FLEXLAB.md, \"Logs\", has more")
SHORT, FLAWED = "frames that are not as long as they say", "frames without a trailer, with an error flag"
REQUESTED = "frames that may be mere requests to transmit"
LOSSES = (SHORT, FLAWED, UNPROVED, REQUESTED, MISSING, SHORTER, STRAY)
OUTSIDE = "frames before --from or from --to on"
# A counter of stamps has so many values. It is taken to begin anew where a stamp from its last part is followed by one of its first.
WRAP = 1 << 32
WRAP_PART = WRAP >> 6
# Of so many frames it is looked how long cycles and slots are.
SOME = 10_000
UNITS = {"s": Fraction(10**9), "ms": Fraction(10**6), "us": Fraction(1000), "ns": Fraction(1)}


class Limits(NamedTuple):
    """The least and the greatest of something, in ns."""
    low: Fraction
    high: Fraction


class End(NamedTuple):
    """A channel of a node."""
    node: int
    channel: str


class Seen(NamedTuple):
    """A frame with its stamp: its bytes, and whether these are all of them."""
    ns: Fraction
    channel: str
    data: bytes
    is_all: bool


class TableRow(NamedTuple):
    """A row of a CSV file, by its line."""
    line: int
    time: str
    channel: str
    data: str


@dataclass
class Observer:
    """What is stated of an analyzer, in ns and ppm; limits are the least and the greatest delay by node and channel;
    whether it missed no frame; and the cycle of the log, even, in whose double cycle the cluster is in sync. Of the network: how much
    a delay from node to node differs between both cycles of a double cycle, in ns, and how many senders a node may miss there."""
    resolution: Fraction
    drift: int
    error: Fraction
    jitter: Fraction | None
    limits: dict[End, Limits]
    is_whole: bool = False
    since: int | None = None
    flutter: Fraction | None = None
    lost: int = 0


@dataclass
class Frames:
    """The frames of a file that keeps times in steps of so many ns; how many were left out, by reason; the columns that were
    read, where these are not stated by their names; how often a counter of stamps began anew, and how often one fell as far and did
    not; which part of the file was asked for, in words; when its first frame came; and whether frames of key slots may be lost
    beside what these tell."""
    path: str
    step: Fraction
    found: list[Seen]
    left: dict[str, int] = field(default_factory=dict)
    columns: str = ""
    wraps: int = 0
    falls: int = 0
    part: str = ""
    zero: Fraction | None = None
    is_lossy: bool = False

    def leave(self, reason: str, count: int = 1) -> None:
        if count:
            self.left[reason] = self.left.get(reason, 0) + count

    @cached_property
    def is_torn(self) -> bool:
        """Whether frames of key slots may have been left out, or are damaged."""
        return self.is_lossy or any(reason in self.left for reason in LOSSES) or any(
            is_damaged(channel, data, is_all) for _, channel, data, is_all in self.found)


class Log(NamedTuple):
    """A log that was written: its observer, its frames, how many entries it has; its unit in ticks, and what a stamp is off beside it; and
    of how many units all stamps are multiples, 0 where all are 0."""
    observer: Observer
    frames: Frames
    entries: int
    unit: int
    error: int
    grain: int


def is_damaged(channel: str, data: bytes, is_all: bool) -> bool:
    """Whether a CRC of a frame does not fit."""
    number = int.from_bytes(data[:5], "big")
    return crc(11, 0x385, 0x01A, number >> 17 & 0xFFFFF, 20) != number >> 6 & 0x7FF or (
        is_all and frame_crc(channel, data[:-3]) != int.from_bytes(data[-3:], "big"))


def up(value: Number) -> int:
    return -(-Fraction(value) // 1)


# ---- the TOML file


def read_observer(cluster: Cluster) -> Observer | None:
    """The observer that the file of a cluster states, or None where it states none."""
    source, microtick_ns = Source(cluster.path), cluster.microtick_ns
    if "observer" not in source.entries:
        return None
    source.tell()
    table = source.table("observer")
    resolution = table.number_of("resolution_ns", microtick_ns)
    drift = up(table.number_of("drift_ppm"))
    error = table.number_of("error_ns", microtick_ns)
    jitter, flutter = (table.number_of(name, microtick_ns) if table.has(name) else None for name in ("jitter_ns", "flutter_ns"))
    lost = table.whole_of("lost")
    is_whole, since = table.flag("missed_none"), since_of(table)
    all_limits = limits_of(table, "delay_from_ns", "delay_to_ns", microtick_ns)
    found = {End(node.number, channel): all_limits for node in cluster.nodes.values() for channel in node.channels}
    for table in source.tables("observer_delay"):
        own = limits_of(table, "from_ns", "to_ns", microtick_ns)
        channels = table.channels("channels")
        for node in table.nodes("nodes", cluster.nodes):
            found.update({End(node, channel): own for channel in cluster.nodes[node].channels if channel in channels})
    return Observer(resolution, drift, error, jitter, found, is_whole, since, flutter, lost)


def since_of(table: Table) -> int | None:
    if not table.has("in_sync_from_cycle"):
        return None
    since = table.whole_of("in_sync_from_cycle")
    if since % 2:
        table.refuse("in_sync_from_cycle", "it is odd: a double cycle begins with an even cycle")
    return since


def limits_of(table: Table, low: str, high: str, microtick_ns: Fraction) -> Limits:
    found = Limits(table.number_of(low, microtick_ns), table.number_of(high, microtick_ns))
    if found.low > found.high:
        table.refuse(low, f"it is above `{high}`")
    return found


def stated(cluster: Cluster) -> Observer:
    """The observer, or the end of flexlab where the file states none."""
    found = read_observer(cluster)
    if found is None:
        raise Stop(REFUSED, f"{cluster.path}: {WANTED}")
    return found


# ---- frames of a capture


def step_of(path: str, most: int = LONGEST) -> Fraction | None:
    """In steps of how many ns a pcap, pcapng or BLF file keeps its times; None where it does not say it."""
    check_is_file(path)
    with named_faults(path), open(path, "rb") as file:
        data = file.read(1 << 16)
    if data[:4] == MAGIC:
        return Fraction(read_blf(path, most).step)
    if data[:4] in (b"\xd4\xc3\xb2\xa1", b"\xa1\xb2\xc3\xd4"):
        return Fraction(1000)
    if data[:4] in (b"\x4d\x3c\xb2\xa1", b"\xa1\xb2\x3c\x4d"):
        return Fraction(1)
    if data[:4] != b"\x0a\x0d\x0d\x0a" or len(data) < 12:
        return None
    order, at, steps = "<" if data[8:12] == b"\x4d\x3c\x2b\x1a" else ">", 0, list[Fraction]()
    while at + 12 <= len(data):
        kind, length = struct.unpack(order + "II", data[at:at + 8])
        if kind == 1:
            steps.append(interface_step(data[at + 16:at + length - 4], order))
        if length < 12 or kind in (3, 6):
            break
        at += length
    return max(steps, default=None)


def interface_step(options: bytes, order: str) -> Fraction:
    """That of an interface of a pcapng file, by its options: a microsecond where none says so."""
    at = 0
    while at + 4 <= len(options):
        code, length = struct.unpack(order + "HH", options[at:at + 4])
        if code == 9 and length == 1 and at + 4 < len(options):
            exponent = options[at + 4]
            return Fraction(10**9, 2 ** (exponent & 0x7F) if exponent & 0x80 else 10**exponent)
        if code == 0:
            break
        at += 4 + (length + 3) // 4 * 4
    return Fraction(1000)


def capture_frames(path: str, most: int = LONGEST, bus: int | None = None) -> Frames:
    """The frames of a capture. Of one without its frame CRC, or that was cut, the header counts, where the logger saw no
    error. Of a file that does not say its steps, as one that is packed, these are microseconds where its times are."""
    loaded = load(path, most, bus)
    taken, todo = sort_packets(loaded)
    step = Fraction(loaded.step) if loaded.step else step_of(path, most)
    if step is None:
        step = Fraction(1000 if all(packet.ns % 1000 == 0 for packet in taken.packets) else 1)
    frames = Frames(path, max(Fraction(1), step), [])
    cut = [packet for packet in taken.packets if packet.number in taken.damaged and packet.cut and len(packet.frame) >= 5]
    bare = taken.bare + cut
    packets = [(packet, True) for channel in "AB" for packet in todo[channel]]
    packets += [(packet, False) for packet in bare if not packet.flags]
    frames.found = [Seen(Fraction(packet.ns), packet.channel, packet.frame, is_all) for packet, is_all in packets]
    requested = sum(bool(packet.data) and packet.kind == UNSURE for packet in taken.other)
    frames.leave("symbols", len(taken.symbols))
    frames.leave(REQUESTED, requested)
    frames.leave("packets of another kind", len(taken.other) - requested)
    frames.leave(SHORT, len(taken.damaged) - len(cut))
    frames.leave(FLAWED, sum(packet.flags != 0 for packet in bare))
    for reason, count in taken.lost.items():
        frames.leave(reason, count)
    return frames


# ---- frames of a table


def columns_of(words: str) -> dict[str, str]:
    """The names of the columns, as time=NAME,channel=NAME,bytes=NAME."""
    found = dict(part.split("=", 1) for part in words.split(",") if "=" in part)
    if set(found) != {"time", "channel", "bytes"}:
        raise Stop(USAGE, f"--columns: '{printable(words)}' is not of the form time=NAME,channel=NAME,bytes=NAME")
    return found


def table_rows(path: str, columns: dict[str, str], most: int = LONGEST) -> Iterator[tuple[int, str, str, str]]:
    """The rows of a CSV file (by commas, semicolons or tabs) with their line, as (time, channel, bytes)."""
    # A field may be as long as the file.
    csv.field_size_limit(sys.maxsize)
    with text_of(path, most) as file:
        head = file.readline()
        mark = max(",;\t", key=head.count)
        names = [name.strip() for name in next(csv.reader([head], delimiter=mark), [])]
        for column in columns.values():
            if column not in names:
                raise Refused(path, 1, f"there is no column `{printable(column)}`; there are {printable(', '.join(names))}")
        places = [names.index(columns[name]) for name in ("time", "channel", "bytes")]
        reader = csv.reader(file, delimiter=mark)
        try:
            for row in reader:
                if row and len(row) <= max(places):
                    raise Refused(path, reader.line_num + 1, f"it has {len(row)} columns")
                if row:
                    time, channel, data = (row[place].strip() for place in places)
                    yield reader.line_num + 1, time, channel, data
        except csv.Error as fault:
            raise Refused(path, reader.line_num + 1, f"it is no row of a table: {fault}")


def time_of(path: str, line: int, time: str) -> re.Match[str]:
    """The digits of a time; what looks like a number of another form is told as that."""
    number = re.fullmatch(r"[0-9]{1,18}(?:\.([0-9]{1,18}))?", time)
    if number:
        return number
    form = (", since it has a decimal comma: have the table written with points" if re.fullmatch(r"[+-]?[0-9]+,[0-9]+", time) else
            ", since it has marks between thousands: have the table written without them"
            if re.fullmatch(r"[0-9]{1,3}(?:[.,' ][0-9]{3})+(?:[.,][0-9]+)?", time) else "")
    raise Refused(path, line, f"the time '{printable(time)}' is not a number from 0 on{form}")


class Wraps:
    """How often a counter of 32 bits has begun anew, by the whole numbers of a column in the order of the file, in which rows may
    stand a little too late; and how often it fell by more than half of that, and did not."""

    def __init__(self) -> None:
        self.count, self.falls, self.last = 0, 0, 0

    def before(self, time: str) -> int:
        """What the counter had passed when it began anew, before this time."""
        stamp = int(time) if time.isdecimal() else -1
        if self.count and self.last < WRAP_PART and WRAP - WRAP_PART <= stamp < WRAP:
            return (self.count - 1) * WRAP
        if 0 <= stamp < WRAP:
            is_anew = self.last >= WRAP - WRAP_PART and stamp < WRAP_PART
            self.count += is_anew
            self.falls += not is_anew and self.last - stamp > WRAP // 2
            self.last = stamp
        return self.count * WRAP


def table_frames(path: str, columns: dict[str, str], unit: str, most_bytes: int = LONGEST) -> Frames:
    """The frames of a CSV file: bytes are those of a whole frame, of one without its frame CRC, or of a header."""
    frames, most, whole = Frames(path, Fraction(0), []), 0, Wraps()
    for line, time, channel, text in table_rows(path, columns, most_bytes):
        most = max(most, len(time_of(path, line, time)[1] or ""))
        if channel.upper() not in ("A", "B"):
            raise Refused(path, line, f"the channel '{printable(channel)}' is not A or B")
        digits = re.sub(r"[\s:-]", "", text)
        if not re.fullmatch(r"(?:[0-9A-Fa-f]{2})*", digits):
            raise Refused(path, line, f"the bytes '{printable(text)}' are not hexadecimal digits, two a byte")
        data = bytes.fromhex(digits)
        length = 8 + 2 * (data[2] >> 1) if len(data) > 2 else 0
        if len(data) not in (5, length - 3, length) or len(data) < 5:
            frames.leave(SHORT)
        else:
            frames.found.append(Seen((Fraction(time) + whole.before(time)) * UNITS[unit], channel.upper(), data, len(data) == length))
    frames.step, frames.wraps, frames.falls = UNITS[unit] / 10**most, whole.count, whole.falls
    return frames


def asc_frames(path: str, cluster: Any, most: int = LONGEST) -> Frames:
    """The frames of an ASC file, by their headers."""
    step, found, left, columns = read_asc(path, cluster, most)
    frames = Frames(path, step, [Seen(ns, channel, header, False) for ns, channel, header in found], columns=columns)
    for reason, count in left.items():
        frames.leave(reason, count)
    return frames


def read_frames(cluster: Any, path: str, columns: str | None, unit: str, most: int = LONGEST, bus: int | None = None) -> Frames:
    """The frames of a file, by the columns that are named, by its name, or by its first bytes."""
    is_asc = path.lower().endswith(".asc")
    if bus is not None and (columns or is_asc):
        raise Stop(USAGE, f"{path}: it is no BLF file, and --bus is for these")
    if columns:
        return table_frames(path, columns_of(columns), unit, most)
    return asc_frames(path, cluster, most) if is_asc else capture_frames(path, most, bus)


def cut_out(frames: Frames, begin: Fraction | None, end: Fraction | None) -> None:
    """Keeps the frames from one time on and before another, in seconds behind the first frame of the file."""
    zero, giga = min((frame.ns for frame in frames.found), default=Fraction(0)), 10**9
    frames.zero = zero
    if not frames.found or (begin is None and end is None):
        return
    kept = [frame for frame in frames.found if (begin is None or frame.ns >= zero + begin * giga)
            and (end is None or frame.ns < zero + end * giga)]
    frames.leave(OUTSIDE, len(frames.found) - len(kept))
    ends = [f"{word} {decimal(time, 6)} s" for word, time in (("from", begin), ("to", end)) if time is not None]
    frames.part = f"{' '.join(ends)} behind the first frame of the file, which came at {decimal(zero / giga, 6)} s"
    frames.found = kept


# ---- the log


def step_ticks(observer: Observer, step: Fraction, microtick_ns: Fraction) -> tuple[int, int]:
    """The unit of the log in ticks, what a stamp is off beside it, and whether stamps are whole numbers of units."""
    size = TICKS / Fraction(microtick_ns)
    least, most = sorted((observer.resolution, step))
    breadth = (most if most % least == 0 else most + least) * size
    exact = step * size
    is_whole = exact.denominator == 1 and 1 <= exact <= MOST_TICKS
    unit = int(exact) if is_whole else max(1, min(MOST_TICKS, exact // 1))
    return unit, up((breadth - unit if is_whole else breadth) + observer.error * size)


def head_lines(cluster: Cluster, observer: Observer, frames: Frames, unit: int, error: int) -> Iterator[str]:
    size = TICKS / Fraction(cluster.microtick_ns)
    yield from (f"unit,{unit},,,\n", f"drift,{observer.drift},,,\n", f"error,{error},,,\n")
    if observer.jitter is not None:
        yield f"jitter,{up(observer.jitter * size)},,,\n"
    if observer.flutter is not None:
        yield f"flutter,{up(observer.flutter * size)},,,\n"
    if observer.lost:
        yield f"lost,{observer.lost},,,\n"
    if observer.is_whole and not frames.is_torn:
        yield "whole,,,,\n"
    if observer.since is not None:
        yield f"since,{observer.since},,,\n"
    yield from (f"arbitrary,{node},,,\n" for node in cluster.arbitrary)
    for (node, channel), (low, high) in sorted(observer.limits.items()):
        if cluster.nodes[node].key_slot:
            yield f"delay,{node},{channel},{low * size // 1},{up(high * size)}\n"


def entry_lines(cluster: Cluster, frames: Frames, unit: int) -> Iterator[str]:
    """The entries in the order of their stamps, counted from the first frame; frames of other slots are left out."""
    keys = {node.key_slot for node in cluster.nodes.values() if node.key_slot}
    size = TICKS / Fraction(cluster.microtick_ns)
    zero = min(frame.ns for frame in frames.found)
    for ns, channel, data, is_all in sorted(frames.found, key=lambda frame: frame.ns):
        number, stamp = (data[0] & 7) << 8 | data[1], (ns - zero) * size // unit
        if number > cluster.parameters["gNumberOfStaticSlots"]:
            frames.leave("frames of the dynamic segment")
        elif number not in keys:
            frames.leave("frames of static slots that are no key slots")
        elif unit * stamp > LAST_STAMP:
            frames.leave("frames later than a log may have")
        else:
            kind, kept = ("frame", data) if is_all else ("head", data[:5])
            yield f"{kind},{stamp},{channel},{kept.hex().upper()},\n"


def log_of(cluster: Cluster, observer: Observer, frames: Frames) -> tuple[str, Log]:
    """The text of the log, and what is said of it."""
    if not frames.found:
        raise Stop(NO, f"{frames.path}: there is no frame that could be used")
    unit, error = step_ticks(observer, frames.step, cluster.microtick_ns)
    if error > MOST_TICKS:
        raise Stop(REFUSED, f"{cluster.path}: by [observer] and the steps of {frames.path} a stamp is off by {error} "
                            f"ticks, and a log takes at most {MOST_TICKS}")
    lines = list(head_lines(cluster, observer, frames, unit, error))
    size, entries, grain = sum(map(len, lines)), 0, 0
    for line in entry_lines(cluster, frames, unit):
        size += len(line)
        if size > ranges.FILE_BYTES - ROOM:
            frames.leave("frames behind those that fit into a log")
        else:
            lines.append(line)
            entries, grain = entries + 1, gcd(grain, int(line.split(",", 2)[1]))
    return "".join(lines), Log(observer, frames, entries, unit, error, grain)


def other_form(cluster: Cluster, data: bytes) -> str:
    """What a frame of a static slot has otherwise than the file of the cluster."""
    words, length, slot = cluster.parameters["gPayloadLengthStatic"], data[2] >> 1, (data[0] & 7) << 8 | data[1]
    is_sync, is_startup = data[0] & 0x10 != 0, data[0] & 0x08 != 0
    node = next((node for node in cluster.nodes.values() if node.key_slot == slot), None)
    if length != words:
        return f"a payload of {length} words, and `gPayloadLengthStatic` is {words}"
    if node is None:
        return "a sync indicator, and it is no node's key slot" if is_sync else ""
    if not is_sync:
        return "no sync indicator, and it is the key slot of a node"
    if node.coldstart == is_startup:
        return ""
    return ("a startup indicator, and its node is no coldstart node" if is_startup else
            "no startup indicator, and its node is a coldstart node")


def differences(cluster: Cluster, frames: Frames) -> list[str]:
    """What most frames of a slot have otherwise than the file of the cluster, and how long cycles and slots mostly are, where that is
    otherwise: where the log is of another network, it shows here."""
    last = cluster.parameters["gNumberOfStaticSlots"]
    counts: dict[int, int] = {}
    kinds: dict[str, dict[int, int]] = {}
    whole: list[Seen] = []
    for frame in frames.found:
        data = frame.data
        slot = (data[0] & 7) << 8 | data[1]
        if slot > last or is_damaged(frame.channel, data, frame.is_all):
            continue
        counts[slot] = counts.get(slot, 0) + 1
        whole.append(frame)
        if kind := other_form(cluster, data):
            kinds.setdefault(kind, {}).setdefault(slot, 0)
            kinds[kind][slot] += 1
    found = []
    for kind, slots in kinds.items():
        most = [slot for slot, count in slots.items() if 2 * count > counts[slot]]
        if most:
            found.append(f"slot{'s' * (len(most) > 1)} {spans(most)}: {kind}")
    return found + other_times(cluster, sorted(whole[:SOME], key=lambda frame: frame.ns))


def other_times(cluster: Cluster, frames: list[Seen]) -> list[str]:
    """Where cycles or static slots last otherwise than the file of the cluster has it. No clock within its limits makes a hundredth of a
    cycle, and clocks that are a quarter of a slot apart are in no sync."""
    values, cycles, slots = cluster.parameters, list[Fraction](), list[tuple[Fraction, bool]]()
    cycle = values["pMicroPerCycle"] * Fraction(cluster.microtick_ns)
    nominal = cycle * values["gdStaticSlot"] / values["gMacroPerCycle"]
    before: dict[tuple[str, int], tuple[int, Fraction]] = {}
    # The frames of a cycle, by channel: its count, the first slot with its stamp, and the last one.
    spans_there: dict[str, tuple[int, int, Fraction, int, Fraction]] = {}

    def end(count: int, first: int, begin: Fraction, last: int, ns: Fraction) -> None:
        if last > first:
            slots.append(((ns - begin) / (last - first), 4 * abs(ns - begin - (last - first) * nominal) > nominal))

    for frame in frames:
        slot, count, ns = (frame.data[0] & 7) << 8 | frame.data[1], frame.data[4] & 63, frame.ns
        earlier, there = before.get((frame.channel, slot)), spans_there.get(frame.channel)
        if earlier and (count - earlier[0]) % 64 == 1:
            cycles.append(ns - earlier[1])
        before[frame.channel, slot] = count, ns
        if there and there[0] == count and slot > there[3]:
            spans_there[frame.channel] = *there[:3], slot, ns
        else:
            if there:
                end(*there)
            spans_there[frame.channel] = count, slot, ns, slot, ns
    for there in spans_there.values():
        end(*there)
    found = []
    if cycles and 100 * abs(median(cycles) - cycle) > cycle:
        found.append(f"cycles last {decimal(median(cycles) / 1000, 3)} us, and by `pMicroPerCycle` and `microtick_ns` "
                     f"{decimal(cycle / 1000, 3)} us")
    if 2 * sum(is_off for _, is_off in slots) > len(slots):
        length = median(length for length, is_off in slots if is_off)
        found.append(f"static slots last some {decimal(length / 1000, 3)} us, and by `gdStaticSlot` {decimal(nominal / 1000, 3)} us")
    return found


def left_lines(frames: Frames) -> list[str]:
    """Lines of a page: what was taken of a file and what left out, which columns were read, and what became of stamps that fall."""
    left = [f"{count} {reason}" for reason, count in frames.left.items()] or ["nothing"]
    stamps = [f"the counter of 32 bits began anew {frames.wraps} times"] if frames.wraps else []
    if frames.falls:
        stamps.append(f"{frames.falls} fall by more than half of 32 bits, and not from the last to the first 64th of these as those of a "
                      "counter that begins anew: they are sorted")
    found = lines_of("Taken", frames.part) if frames.part else []
    for title, lines in (("Left out", left), ("Columns", [frames.columns] if frames.columns else []), ("Stamps", stamps)):
        found += lines_of(title, *lines) if lines else []
    return found


def taken(cluster: Cluster, words: Namespace) -> tuple[Observer, Frames]:
    """What is stated of the analyzer, and the frames of the file that are asked for."""
    observer, frames = stated(cluster), read_frames(
        cluster, words.file, words.columns, words.time_unit, words.most_mib * MIB, words.bus)
    cut_out(frames, words.begin, words.end)
    return observer, frames


def write_log(cluster: Cluster, path: str, observer: Observer, frames: Frames) -> Log:
    """Writes a log, and hands back what is said of it."""
    text, log = log_of(cluster, observer, frames)
    put(path, text, "ascii")
    return log


def analyzer_words(observer: Observer, frames: Frames) -> str:
    """What is stated of the analyzer, and what the file keeps of it."""
    resolution = max(observer.resolution, frames.step)
    found = f"stamps of {plain(resolution)} ns"
    if resolution > observer.resolution:
        found += f", since the file keeps no more of the {plain(observer.resolution)} ns"
    if observer.error:
        found += f", off by {plain(observer.error)} ns in all beside"
    found += f", its clock within {observer.drift} ppm"
    low, high = min(low for low, _ in observer.limits.values()), max(high for _, high in observer.limits.values())
    found += f", delays from {plain(low)} to {plain(high)} ns"
    if observer.jitter is not None:
        found += f", those of a node within {plain(observer.jitter)} ns"
    if observer.flutter is not None:
        found += f"; a delay from node to node keeps within {plain(observer.flutter)} ns in a double cycle"
    if observer.lost:
        found += f"; a node may miss {observer.lost} sender{'s' * (observer.lost > 1)} in each double cycle"
    if observer.is_whole:
        found += "; it missed no frame" + (", which is not taken where frames are damaged" if frames.is_torn else "")
    return found if observer.since is None else found + f"; the cluster is in sync in the double cycle of cycle {observer.since}"


def plain(ns: Fraction) -> str:
    text = decimal(ns, 3)
    return text.rstrip("0").rstrip(".")
