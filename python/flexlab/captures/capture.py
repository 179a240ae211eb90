"""A capture of a FlexRay network taken apart: files for flexray, and a page of what is there."""
import csv
import os
import tempfile
from argparse import Namespace
from collections.abc import Callable, Iterable
from typing import Any

from flexray import NoFrame, texts

from ..program import calls as programs
from ..program.calls import Told
from ..program.report import understood
from .blf import MAGIC, Binary, read_blf
from ..toml.cluster import read_cluster
from ..base.ending import DONE, NO, PROGRAM, REFUSED, USAGE, Stop, printable
from ..base.files import LONGEST, MIB, check_is_file, hold, named_faults, put_bytes, too_long, whole
from .frames import frame_crc
from .packets import FLAGS, FRAME, LINK_FLEXRAY, SYMBOL, Packet, packets_of
from ..pages.machine import printed
from ..pages.page import field as lines_of
from .taken import Ends, Header, Place, Taken
from .timing import Timing, draw_timing, timing, timing_lines, timing_objects, write_timing

PIECE = 1 << 20
LIMIT = 16777216
CYCLES = 200000


def is_text(begin: bytes) -> bool:
    """Whether a file that begins so is lines of text."""
    if begin[:2] in (b"\xff\xfe", b"\xfe\xff"):
        return b"\n" in begin
    return b"\n" in begin and not any(byte < 32 and byte not in b"\t\r\n\f" for byte in begin)


def load(path: str, most: int = LONGEST, bus: int | None = None) -> Binary:
    """The packets of a capture, a BLF file or whatever form tshark reads, by their numbers there; unpacked it has at most so many
    bytes. Of a BLF file they are those of one network of the logger. The step is 0 where it is not known."""
    check_is_file(path)
    with named_faults(path), open(path, "rb") as file:
        begin = file.read(4096)
    first = begin[:4]
    if not first:
        raise Stop(NO, f"{path}: it has 0 bytes, so it is no capture: did the logger write?")
    if is_text(begin):
        raise Stop(REFUSED, f"{path}: it is a text and no capture. `log` and `observe` read tables, whose columns "
                            "--columns time=NAME,channel=NAME,bytes=NAME names, and ASC files, whose names end in .asc")
    if bus is not None and first != MAGIC:
        raise Stop(USAGE, f"{path}: it is no BLF file, and --bus is for these")
    link, taken = (LINK_FLEXRAY, read_blf(path, most, bus)) if first == MAGIC else load_by_tshark(path, most)
    if taken.packets and link != LINK_FLEXRAY:
        raise Stop(REFUSED, f"{path}: its link type is {link}, and FlexRay's is {LINK_FLEXRAY}")
    if not taken.packets and taken.lost:
        lost = ", ".join(f"{count} {reason}" for reason, count in taken.lost.items())
        raise Stop(REFUSED, f"{path}: no packet of it could be read; {lost}")
    if not taken.packets:
        raise Stop(NO, f"{path}: a capture without a packet: was the logger on the bus, and its filter open?")
    return taken


def load_by_tshark(path: str, most: int) -> tuple[int, Binary]:
    """The link type and the packets. The file may be packed, so what comes of it is taken in pieces, and no more than so many
    bytes of it."""
    tshark = programs.helper("tshark")
    status, data, told = programs.stream(tshark, ["-n", "-r", path, "-F", "nsecpcap", "-w", "-"], most)
    if len(data) > most:
        raise too_long(path, most, is_capture=True, unpacked=True)
    if status != 0 and not data:
        raise Stop(REFUSED, f"{path}: tshark does not read it: {printable(told)}")
    if status != 0:
        print(f"{'WARNING':<16}tshark says: {printable(told)}")
    link, packets = packets_of(path, data)
    return link, Binary(packets, 0, {})


def stated(frame: bytes) -> int | None:
    """How many bytes a frame has by its header."""
    return 8 + 2 * (frame[2] >> 1) if len(frame) > 2 else None


def sort_packets(loaded: Binary) -> tuple[Taken, dict[str, list[Packet]]]:
    """Sorts by what a packet is; frames that are as long as they say are still to be looked at."""
    taken = Taken(loaded.packets, lost=loaded.lost)
    todo: dict[str, list[Packet]] = {"A": [], "B": []}
    for packet in loaded.packets:
        if not packet.data or packet.kind not in (FRAME, SYMBOL):
            taken.other.append(packet)
        elif packet.kind == SYMBOL:
            taken.symbols.append(packet)
        elif packet.cut:
            length = len(packet.data) + packet.cut
            taken.damaged[packet.number] = f"the capture kept {len(packet.data)} of its {length} bytes"
        elif stated(packet.frame) == len(packet.frame):
            todo[packet.channel].append(packet)
        elif stated(packet.frame) == len(packet.frame) + 3:
            taken.bare.append(packet)
        else:
            taken.damaged[packet.number] = None
    return taken, todo


def ask(program: str, words: list[str], data: bytes, room: str) -> Told:
    path = os.path.join(room, "bytes")
    put_bytes(path, data)
    return programs.call(program, [*words, path])


def completed(packet: Packet) -> bytes:
    """The bytes of a frame without its frame CRC, with one that is right: so flexray looks at its header."""
    return packet.frame + frame_crc(packet.channel, packet.frame).to_bytes(3, "big")


def check_channel(program: str, channel: str, packets: list[Packet], whole: dict[int, Header], taken: Taken, room: str,
                  bytes_of: Callable[[Packet], bytes] = lambda packet: packet.frame) -> None:
    """Asks flexray capture which packets are whole: piece by piece, behind a fault from the next packet on.

    Where there are many faults pieces are short, since what stands behind a fault is read in vain.
    """
    at, limit = 0, PIECE
    while at < len(packets):
        piece, size = list[Packet](), 0
        while at + len(piece) < len(packets) and size < limit:
            piece.append(packets[at + len(piece)])
            size += len(piece[-1].frame)
        status, text, told = ask(program, ["capture", channel], b"".join(bytes_of(packet) for packet in piece), room)
        if status != 0:
            raise Stop(PROGRAM, f"flexray capture {channel} ended with status {status}: {told}")
        answered = understood(texts.capture, "recording", text)
        found, fault = answered.frames, answered.fault
        for packet, one in zip(piece, found):
            whole[packet.number] = Header(one.id, one.words, one.cycle)
        if fault:
            taken.damaged[piece[len(found)].number] = fault
        elif len(found) != len(piece):
            raise Stop(PROGRAM, f"flexray capture {channel} found {len(found)} of {len(piece)} frames and no fault")
        at += len(found) + (1 if fault else 0)
        limit = max(1, limit // 8) if fault else min(PIECE, limit * 4)


def count_cycles(taken: Taken) -> None:
    """Cycles from the first one's count on: from packet to packet the count goes on by less than 64."""
    last: int | None = None
    known = taken.known
    for packet in taken.packets:
        if packet.number in known:
            count = known[packet.number].cycle
            if last is None:
                last = count
            step = (count - last) % 64
            # A packet of the cycle before may stand behind one of this cycle.
            taken.cycles[packet.number] = last + (step if step < 48 else step - 64)
            last = max(last, taken.cycles[packet.number])
    ends = [Place(cycle, known[number].id) for number, cycle in taken.cycles.items()]
    taken.ends = Ends(min(ends), max(ends)) if ends else None


def take_apart(path: str, program: str, most: int = LONGEST, bus: int | None = None) -> Taken:
    """What became of the packets of a capture."""
    taken, todo = sort_packets(load(path, most, bus))
    with tempfile.TemporaryDirectory() as room:
        for channel in "AB":
            check_channel(program, channel, todo[channel], taken.whole, taken, room)
            check_channel(program, channel, [packet for packet in taken.bare if packet.channel == channel], taken.headed,
                          taken, room, completed)
        for packet in taken.packets:
            if packet.number in taken.damaged and taken.damaged[packet.number] is None:
                status, _, told = ask(program, ["frame", packet.channel], packet.frame, room)
                if status != NO:
                    raise Stop(PROGRAM, f"flexray frame {packet.channel} ended with status {status}: {told}")
                taken.damaged[packet.number] = NoFrame(told).reason
    count_cycles(taken)
    return taken


def write_bytes(folder: str, channel: str, frames: Iterable[bytes]) -> list[str]:
    """The frames of a channel, in as many files as flexray's limit asks for."""
    parts: list[list[bytes]] = [[]]
    size = 0
    for frame in frames:
        if size + len(frame) > LIMIT:
            parts.append([])
            size = 0
        parts[-1].append(frame)
        size += len(frame)
    paths = []
    for number, part in enumerate(parts, 1):
        paths.append(os.path.join(folder, f"{channel}.bin" if number == 1 else f"{channel}-{number}.bin"))
        put_bytes(paths[-1], b"".join(part))
    return paths


def write_vectors(folder: str, taken: Taken) -> tuple[str, int]:
    """A recording for flexray nm: the whole frames with the payload preamble indicator, which alone can count."""
    path, beyond = os.path.join(folder, "vectors.csv"), 0
    with whole(path, encoding="ascii") as file:
        for packet in taken.packets:
            if packet.number in taken.whole and packet.frame[0] & 0x40:
                cycle = taken.cycles[packet.number]
                if not 0 <= cycle < CYCLES or file.tell() > LIMIT - 600:
                    beyond += 1
                    continue
                file.write(f"{cycle},{packet.channel},{packet.frame.hex().upper()}\n")
    return path, beyond


def write_table(folder: str, taken: Taken) -> str:
    path = os.path.join(folder, "frames.csv")
    with whole(path) as file:
        writer = csv.writer(file, lineterminator="\n")
        writer.writerow(("packet", "seconds", "channel", "id", "cycle_count", "cycle", "words", "flags", "checked", "fault"))
        all_known = taken.known
        for packet in taken.packets:
            if packet.number in all_known or packet.number in taken.damaged:
                known: Header | tuple[str, str, str] = all_known.get(packet.number, ("", "", ""))
                checked = "frame" if packet.number in taken.whole else "header" if packet.number in taken.headed else ""
                flags = " and ".join(name for bit, name in FLAGS.items() if packet.flags & bit)
                seconds = f"{packet.ns // 10**9}.{packet.ns % 10**9:09}"
                writer.writerow((packet.number, seconds, packet.channel, known[0], known[2],
                                 taken.cycles.get(packet.number, ""), known[1], flags, checked,
                                 taken.damaged.get(packet.number, "")))
    return path


def repetition(cycles: Iterable[int]) -> int:
    """The greatest of 64, 32, .. 1 with which all these cycles have one rest."""
    return next(every for every in (64, 32, 16, 8, 4, 2, 1) if len({cycle % every for cycle in cycles}) == 1)


def spans(numbers: Iterable[int]) -> str:
    """Numbers as text, runs of them joined, the first twelve."""
    found, rest = list[str](), sorted(numbers)
    while rest:
        last = 0
        while last + 1 < len(rest) and rest[last + 1] == rest[last] + 1:
            last += 1
        found.append(str(rest[0]) if last == 0 else f"{rest[0]}-{rest[last]}")
        rest = rest[last + 1:]
    return ", ".join(found[:12]) + (", .." if len(found) > 12 else "")


def span_of(taken: Taken, number: int) -> tuple[int, int]:
    """The cycles of the capture in which an ID may be expected: slots go by ID, so a capture that begins or
    ends within a cycle has only a part of that cycle's."""
    assert taken.ends is not None
    (first, first_id), (last, last_id) = taken.ends
    return first + (number < first_id), last - (number > last_id)


def missing_of(taken: Taken, number: int, cycles: list[int]) -> tuple[int, list[int]]:
    """In which cycles an ID is missing, by its repetition."""
    every, have = repetition(cycles), set(cycles)
    first, last = span_of(taken, number)
    begin = first + (min(have) - first) % every
    return every, [cycle for cycle in range(begin, last + 1, every) if cycle not in have]


def seen_of(taken: Taken, channel: str) -> dict[int, list[int]]:
    """Of each ID of a channel the cycles of its whole frames, or of those with a right header."""
    seen: dict[int, list[int]] = {}
    known = taken.known
    for packet in taken.packets:
        if packet.number in known and packet.channel == channel:
            seen.setdefault(known[packet.number].id, []).append(taken.cycles[packet.number])
    return seen


def capture_object(path: str, taken: Taken, times: Timing | None) -> dict[str, Any]:
    """A capture as an object: names stand in docs/FLEXLAB.md, "For machines"."""
    ids = []
    for channel in "AB":
        for number, cycles in sorted(seen_of(taken, channel).items()):
            every, missing = missing_of(taken, number, cycles)
            ids.append({"channel": channel, "id": number, "frames": len(cycles), "every": every, "first": min(cycles),
                        "last": max(cycles), "missing": missing, "twice": len(cycles) - len(set(cycles))})
    damaged = [{"packet": packet.number, "channel": packet.channel, "fault": taken.damaged[packet.number]}
               for packet in taken.packets if packet.number in taken.damaged]
    ends = [min(taken.cycles.values()), max(taken.cycles.values())] if taken.cycles else None
    return {"file": path, "packets": len(taken.packets), "whole": len(taken.whole), "damaged": damaged,
            "without_trailer": len(taken.bare), "header_right": len(taken.headed), "symbols": len(taken.symbols),
            "others": len(taken.other), "lost": taken.lost, "cycles": ends, "ids": ids, "times": timing_objects(times)}


def id_lines(taken: Taken, channel: str) -> list[str]:
    seen = seen_of(taken, channel)
    if not seen:
        return []
    found = ["", f"Channel {channel}", f"{'id':>6}{'frames':>9}{'every':>7}{'first':>8}{'last':>8}  missing cycles"]
    for number, cycles in sorted(seen.items()):
        every, missing = missing_of(taken, number, cycles)
        twice = len(cycles) - len(set(cycles))
        found.append(f"{number:>6}{len(cycles):>9}{every:>7}{min(cycles):>8}{max(cycles):>8}  "
                     + (f"{len(missing)}: {spans(missing)}" if missing else "none")
                     + (f"; {twice} twice in a cycle" if twice else ""))
    return found


def damaged_lines(taken: Taken) -> list[str]:
    if not taken.damaged:
        return []
    found, listed = ["", "Damaged"], 0
    for packet in taken.packets:
        if packet.number not in taken.damaged:
            continue
        listed += 1
        if listed > 40:
            found.append(f"  .. and {len(taken.damaged) - 40} more, in frames.csv")
            break
        head = packet.frame
        says = f"id {(head[0] & 7) << 8 | head[1]} cycle {head[4] & 63} by its bytes" if len(head) >= 5 else "no header"
        found.append(f"  packet {packet.number}, channel {packet.channel}, {says}: {taken.damaged[packet.number]}")
    return found


def page_lines(path: str, taken: Taken, beyond: int, times: Timing | None) -> list[str]:
    flagged = [packet for packet in taken.packets if packet.data and packet.flags]
    fine = sum(packet.number in taken.whole for packet in flagged)
    found = lines_of("Capture", f"{path}: {len(taken.packets)} packets")
    found += lines_of("Frames", f"{len(taken.whole)} whole, {len(taken.damaged)} damaged, {len(taken.headed)} without a "
                                "trailer, the frame CRC"
                                + (": of these the header is right, by its CRC, and the payload is not checked by anything"
                                   if taken.headed else ""))
    found += lines_of("Others", f"{len(taken.symbols)} symbols, {len(taken.other)} of another kind")
    found += lines_of("Flagged", f"{len(flagged)} frames have an error flag of the logger, {fine} of them whole")
    if taken.cycles:
        found += lines_of("Cycles", f"{min(taken.cycles.values())} to {max(taken.cycles.values())}, counted on "
                                    "from the first cycle count; a silence of 64 cycles or more is not seen")
    if taken.lost:
        lost = ", ".join(f"{count} {reason}" for reason, count in taken.lost.items())
        found += lines_of("WARNING", f"not all of the file was read: {lost}")
    if taken.bare and not taken.whole:
        found += lines_of("WARNING", "no payload could be checked: have the logger keep the three bytes of the frame CRC")
    listed = [line for channel in "AB" for line in id_lines(taken, channel)]
    found += listed + damaged_lines(taken)
    if taken.known:
        found += timing_lines(times, lines_of)
    if beyond:
        found += lines_of("WARNING", f"{beyond} frames are not in vectors.csv: a cycle from {CYCLES} on, or a file "
                                     "that is too long")
    found.append("")
    if listed:
        found += lines_of("", "every: in one of so many cycles; missing: such cycles of the capture without a whole "
                              "frame of the ID (or one with a right header, where there is no frame CRC).")
    return found + lines_of("Origin", "Which frames are whole, which headers are right, and the faults of others, "
                                      "flexray told; flexlab sorts and counts, and reckons with the time stamps.")


def fold(program: str, width: int, vectors: str) -> str:
    status, text, told = programs.call(program, ["nm", str(width), vectors])
    if status != 0:
        raise Stop(PROGRAM, f"flexray nm ended with status {status}: {told}")
    return text


def capture(words: Namespace, folder: str) -> int:
    if words.nm is not None and not 1 <= words.nm <= 12:
        raise Stop(USAGE, f"--nm: {words.nm} is not from 1 to 12 bytes")
    program = programs.flexray(words.flexray, ["capture"])
    cluster = read_cluster(words.cluster) if words.cluster else None
    taken = take_apart(words.file, program, words.most_mib * MIB, words.bus)
    times = timing(taken, cluster)
    hold(folder)
    files = [path for channel in "AB" for path in write_bytes(folder, channel, [
        packet.frame for packet in taken.packets if packet.number in taken.whole and packet.channel == channel])]
    vectors, beyond = write_vectors(folder, taken)
    files += [vectors, write_table(folder, taken), *(write_timing(folder, times) if times else [])]
    folded = fold(program, words.nm, vectors) if words.nm else None
    if words.json:
        printed({**capture_object(words.file, taken, times), "vectors": folded and folded.splitlines(), "files": files})
        return NO if taken.damaged else DONE
    print("\n".join(page_lines(words.file, taken, beyond, times)))
    print(f"{'Files':<16}{', '.join(files)}")
    if words.pictures and times:
        for path in draw_timing(folder, times, os.path.basename(words.file)):
            print(f"{'Picture':<16}{path}")
    if words.nm:
        print(f"\nNetwork management vectors (flexray nm {words.nm} {vectors})\n{folded}", end="")
    return NO if taken.damaged else DONE
