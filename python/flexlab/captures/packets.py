"""Captures: pcap files of link type FlexRay (210), with the instants in nanoseconds.

A packet is a byte with the channel (0x80 set: B) and the kind (1: a frame, 2: a symbol); of a frame then a
byte of error flags, and the frame's bytes.
"""
import struct
from dataclasses import dataclass
from collections.abc import Iterable
from typing import NamedTuple

from ..base.ending import PROGRAM, Stop
from ..base.files import read, whole

LINK_FLEXRAY = 210
MAGIC_NS = 0xA1B23C4D
# No capture has the third: frames of a BLF file that may be mere requests to transmit.
FRAME, SYMBOL, UNSURE = 1, 2, 3
FLAGS = {0x10: "frame CRC", 0x08: "header CRC", 0x04: "frame end sequence", 0x02: "coding", 0x01: "TSS violation"}


class Stamped(NamedTuple):
    """A frame on a channel, with its instant in nanoseconds."""
    ns: int
    channel: str
    frame: bytes


@dataclass
class Packet:
    number: int
    ns: int
    data: bytes
    cut: int = 0

    @property
    def channel(self) -> str:
        return "B" if self.data[0] & 0x80 else "A"

    @property
    def kind(self) -> int:
        return self.data[0] & 0x7F

    @property
    def flags(self) -> int:
        return self.data[1] & 0x1F if self.kind == FRAME and len(self.data) > 1 else 0

    @property
    def frame(self) -> bytes:
        return self.data[2:]


def write_capture(path: str, packets: Iterable[Stamped]) -> None:
    """Writes (nanoseconds, channel, frame bytes) as packets without error flags, in their order."""
    with whole(path, binary=True) as file:
        file.write(struct.pack("<IHHiIII", MAGIC_NS, 2, 4, 0, 0, 65535, LINK_FLEXRAY))
        for ns, channel, frame in packets:
            data = bytes([FRAME | (0x80 if channel == "B" else 0), 0]) + frame
            file.write(struct.pack("<IIII", ns // 10**9, ns % 10**9, len(data), len(data)) + data)


def read_capture(path: str) -> tuple[int, list[Packet]]:
    """The link type and the packets of a pcap file with nanoseconds, as tshark writes it."""
    return packets_of(path, read(path))


def packets_of(path: str, data: bytes) -> tuple[int, list[Packet]]:
    """Those of the bytes of such a file."""
    order = "<" if data[:4] == struct.pack("<I", MAGIC_NS) else ">"
    if len(data) < 24 or struct.unpack(order + "I", data[:4])[0] != MAGIC_NS:
        raise Stop(PROGRAM, f"{path}: tshark wrote something that is no pcap with nanoseconds")
    link, at = struct.unpack(order + "I", data[20:24])[0] & 0xFFFF, 24
    found: list[Packet] = []
    while at + 16 <= len(data):
        seconds, ns, kept, length = struct.unpack(order + "IIII", data[at:at + 16])
        found.append(Packet(len(found) + 1, seconds * 10**9 + ns, data[at + 16:at + 16 + kept], length - kept))
        at += 16 + kept
    return link, found
