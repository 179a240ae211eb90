"""Binary logs of a bus analyzer (BLF): objects in containers, and of these the FlexRay frames that were received.

An object keeps the fields of a header, and no frame CRC. The indicators of sync and startup are those that the header CRC shows.
Of the two fields that may have the flags it is the one that agrees with that; it has the other indicators, and that of an error.

What a file has lost is told: it says itself how many objects it has, and nothing but up to three bytes stands between two of them.
"""
import struct
import zlib
from collections.abc import Iterable, Iterator
from dataclasses import dataclass, field
from functools import cached_property
from itertools import groupby
from typing import NamedTuple

from ..base.ending import NO, REFUSED, Stop
from ..base.files import LONGEST, MIB, read, too_long
from .frames import proved_header
from .packets import FRAME, UNSURE, Packet

MAGIC = b"LOGG"
CONTAINER = 10
# Received frames, with how many bytes of fields stand before the payload; those of 41 are other fields.
FRAMES = {41: 32, 50: 44, 66: 84}
FIELDS, OLDER_FIELDS, OLDER = struct.Struct("<4H2I6H4I"), struct.Struct("<HBB4I3H4BH"), 41
STEPS = {1: 10000, 2: 1}
CHANNELS = {1: "A", 2: "B", 3: "AB"}
NULL, SYNC, STARTUP, PREAMBLE, ERROR = 0x01, 0x04, 0x08, 0x10, 0x40
# Of objects 41: what the bits of their state are, and which channels their numbers are, where these are all that there are. The number 1
# alone is A or B. They say nothing of a network.
STATES = {0x01: PREAMBLE, 0x02: SYNC, 0x08: NULL, 0x10: STARTUP}
NUMBERS = {(0,): {0: 1}, (0, 1): {0: 1, 1: 2}, (2,): {2: 2}, (1, 2): {1: 1, 2: 2}}
# Objects that tools put between those that the head of a file counts.
UNCOUNTED = 115
# At most so many bytes stand behind an object, before the next one.
PADDING = 3
COUNT_AT = 32
MISSING = "objects that the file says it has and that are not there"
STRAY = "bytes that are of no object of the file"
SHORTER = "bytes that objects of the file should have and that are not there"
# The error flag that packets of a capture have for a frame that was not coded as it should be.
FLAWED = 0x02


@dataclass
class Received:
    """An object of a frame: its stamp with the code of its step, its fields, and its payload as far as that was kept."""
    code: int
    stamp: int
    fields: tuple[int, ...]
    payload: bytes

    @property
    def channels(self) -> str:
        return CHANNELS.get(self.fields[2], "")

    @property
    def direction(self) -> int:
        return self.fields[3] & 0xFF

    @property
    def length(self) -> int:
        return self.fields[9]

    @property
    def flags(self) -> tuple[int, int]:
        return self.fields[14], self.fields[13]

    @cached_property
    def header(self) -> bytes | None:
        """As one of the two CRCs proves it, or None."""
        slot, one, two, length, _, cycle = self.fields[6:12]
        if length % 2:
            return None
        return proved_header(slot, length // 2, one, cycle & 0xFF) or proved_header(slot, length // 2, two, cycle & 0xFF)

    def is_told(self, flags: int) -> bool:
        """Whether these flags have the indicators of a header that is proved."""
        first = self.header[0] if self.header else 0
        return (flags & SYNC != 0, flags & STARTUP != 0) == (first & 0x10 != 0, first & 0x08 != 0)

    def head(self, flags: int) -> bytes:
        """The five bytes of the header; where no CRC proves it, with neither sync nor startup indicator."""
        slot, kept, _, length, _, cycle = self.fields[6:12]
        head = self.header or bytes([slot >> 8 & 7, slot & 255, length & 0xFE | kept >> 10 & 1, kept >> 2 & 255,
                                     (kept & 3) << 6 | cycle & 63])
        first = (0 if flags & NULL else 0x20) | (0x40 if flags & PREAMBLE else 0)
        return bytes([head[0] & 0x1F | first]) + head[1:]


@dataclass
class Losses:
    """What shows that a file has lost something: a reason with how much."""
    found: dict[str, int] = field(default_factory=dict)

    def add(self, reason: str, count: int) -> None:
        if count > 0:
            self.found[reason] = self.found.get(reason, 0) + count


class Binary(NamedTuple):
    """What a file has: its packets by channels, the longest step of its stamps in ns, and what it has lost."""
    packets: list[Packet]
    step: int
    lost: dict[str, int]


def objects(pieces: Iterable[bytes], losses: Losses) -> Iterator[tuple[int, bytes, int]]:
    """(kind, bytes, length of its header) of objects, with what stands between them left out and counted. What was passed of the
    pieces is not kept."""
    some, data, at, passed = iter(pieces), bytearray(), 0, 0

    def stray(count: int) -> None:
        losses.add(STRAY, count if count > PADDING else 0)

    def reach(end: int) -> bool:
        while len(data) < end:
            piece = next(some, None)
            if piece is None:
                return False
            data.extend(piece)
        return True

    while reach(at + 16):
        found = data.find(b"LOBJ", at)
        if found < 0:
            # Its first letters may stand at the end of the piece.
            left = max(at, len(data) - 3)
            passed += left - at
            del data[:left]
            at = 0
            if not reach(len(data) + 1):
                break
            continue
        stray(passed + found - at)
        passed = 0
        if not reach(found + 16):
            losses.add(SHORTER, found + 16 - len(data))
            return
        head, _, size, kind = struct.unpack_from("<HHII", data, found + 4)
        reach(found + size)
        losses.add(SHORTER, found + size - len(data))
        yield kind, bytes(data[found:found + size]), head
        at = found + max(16, head, size)
        if at > MIB:
            reach(at)
            del data[:at]
            at = 0
    stray(passed + len(data) - at)


def pieces_of(data: bytes) -> Iterator[bytes]:
    """A file in pieces."""
    for at in range(0, len(data), MIB):
        yield data[at:at + MIB]


def unpacked(path: str, item: bytes, head: int, most: int, losses: Losses) -> bytes | None:
    """What a container has, of which not more than so many bytes are made; None of one that is damaged, since of what it unpacks to
    nothing is sure."""
    if len(item) < head + 16:
        return b""
    packing, size = struct.unpack_from("<H6xI", item, head)
    if packing == 0:
        return item[head + 16:]
    try:
        if packing == 2:
            # Of a file that ends too early this is what is there. The size is the file's own word, and 0 would be no limit.
            stream = zlib.decompressobj()
            data = stream.decompress(item[head + 16:], min(size or most + 1, most + 1))
            # The checksum stands behind the last byte.
            if len(data) <= most and not stream.eof and (stream.decompress(stream.unconsumed_tail, 1) or not stream.eof):
                losses.add(SHORTER, max(1, size - len(data)))
            return data
    except zlib.error:
        losses.add(SHORTER, max(1, size))
        return None
    raise Stop(REFUSED, f"{path}: a container of it is packed by a method {packing}, which flexlab does not know")


def contents(path: str, data: bytes, most: int, losses: Losses) -> Iterator[bytes | None]:
    """What the containers of a file have, one after the other, of at most so many bytes in all; None where something is lost."""
    left = most
    for kind, item, head in objects(pieces_of(data), losses):
        piece = unpacked(path, item, head, left, losses) if kind == CONTAINER else item
        left -= len(piece or b"")
        if left < 0:
            raise too_long(path, most, is_capture=True, unpacked=True)
        yield piece


def all_objects(path: str, data: bytes, most: int, losses: Losses) -> Iterator[tuple[int, bytes, int]]:
    """The objects of a file; none goes over what is lost."""
    for _, run in groupby(contents(path, data, most, losses), lambda piece: piece is None):
        yield from objects((piece for piece in run if piece is not None), losses)


def older_fields(item: bytes, head: int) -> tuple[int, ...]:
    """The fields of an object 41 as those of the others, with the number of its channel in place of the channel."""
    number, direction, _, _, _, _, _, slot, crc, state, length, cycle, *_ = OLDER_FIELDS.unpack_from(item, head)
    flags = sum(flag for bit, flag in STATES.items() if state & bit)
    return 0, 1, number, direction, 0, 0, slot, crc, crc, length, length, cycle, 0, flags, flags, 0


def with_channels(path: str, older: list[Received]) -> None:
    """Puts the channels of objects 41 in place of their numbers."""
    numbers = tuple(sorted({frame.fields[2] for frame in older}))
    if older and numbers not in NUMBERS:
        listed = ", ".join(map(str, numbers))
        raise Stop(REFUSED, f"{path}: its objects 41 have the channel numbers {listed}, and it is not known which these are (0 and 1, or 1 "
                            "and 2, are A and B); convert it to ASC in the tool that wrote it")
    for frame in older:
        frame.fields = *frame.fields[:2], NUMBERS[numbers][frame.fields[2]], *frame.fields[3:]


def received(path: str, most: int, losses: Losses) -> list[Received]:
    """The frames of a file in the order in which they stand there."""
    data = read(path, most, is_capture=True)
    length = struct.unpack_from("<I", data, 4)[0] if len(data) >= 8 else len(data)
    stated = struct.unpack_from("<I", data, COUNT_AT)[0] if len(data) >= COUNT_AT + 4 else 0
    found, older, count = list[Received](), list[Received](), 0
    for kind, item, head in all_objects(path, data[length:], most, losses):
        is_whole = len(item) >= 12 and len(item) == struct.unpack_from("<I", item, 8)[0]
        count += is_whole and kind != UNCOUNTED
        if kind in FRAMES and is_whole and len(item) >= max(32, head) + FRAMES[kind]:
            code, stamp = struct.unpack_from("<I4xQ", item, 16)
            fields = older_fields(item, head) if kind == OLDER else FIELDS.unpack_from(item, head)
            if code in STEPS:
                at = head + FRAMES[kind]
                found.append(Received(code, stamp, fields, item[at:at + min(fields[9], fields[10])]))
                older += found[-1:] if kind == OLDER else []
    losses.add(MISSING, stated - count)
    with_channels(path, older)
    return found


def of_bus(path: str, frames: list[Received], bus: int | None) -> list[Received]:
    """The frames of one network. Two numbers of the logger are two networks where both have frames of one channel."""
    numbers = sorted({frame.fields[0] for frame in frames})
    listed = " and ".join(map(str, numbers))
    if bus is not None:
        chosen = [frame for frame in frames if frame.fields[0] == bus]
        if frames and not chosen:
            raise Stop(NO, f"{path}: it has no frame of network {bus}; there are those of {listed}")
        return chosen
    ends = {(frame.fields[0], channel) for frame in frames for channel in frame.channels}
    if len(ends) > len({channel for _, channel in ends}):
        raise Stop(REFUSED, f"{path}: it has frames of the networks {listed}; --bus NUMBER takes those of one")
    return frames


def read_blf(path: str, most: int = LONGEST, bus: int | None = None) -> Binary:
    """What a file has, of one network; it unpacks to at most so many bytes."""
    losses = Losses()
    frames = of_bus(path, received(path, most, losses), bus)
    proved = [frame for frame in frames if frame.header]
    place = max((0, 1), key=lambda place: sum(frame.is_told(frame.flags[place]) for frame in proved))
    found: list[Packet] = []
    for frame in frames:
        kind = FRAME if frame.direction in (0, 1) else UNSURE
        flags = frame.flags[place]
        for channel in frame.channels or "A":
            first = (kind if frame.channels else UNSURE) | (0x80 if channel == "B" else 0)
            data = bytes([first, FLAWED if flags & ERROR else 0]) + frame.head(flags) + frame.payload
            found.append(Packet(len(found) + 1, frame.stamp * STEPS[frame.code], data, frame.length - len(frame.payload)))
    return Binary(found, max((STEPS[frame.code] for frame in frames), default=1), losses.found)
