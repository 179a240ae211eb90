"""Binary logs (BLF): files are written here from runs of `flexlab pcap`, and hold the same frames as its captures."""
import json
import os
import struct
import subprocess
import unittest
import zlib

from bench import Bench, edited, needs
from flexlab.captures import blf, observer, packets
from flexlab.captures.frames import regular_frame

SHORT = edited(("double_cycles = 200", "double_cycles = 10"))
OBSERVER = """
[observer]
resolution_ns = 10
drift_ppm = 20
delay_from_ns = 100
delay_to_ns = 200
"""
RECEIVED, RECEIVED_MORE, CAN, OLDER = 50, 66, 1, 41


def item(kind, body, ns=0, code=2, head=1):
    """An object with a header of one of the three types: 32 bytes, or 40."""
    stamp = ns // 10000 if code == 1 else ns
    more = struct.pack("<IHHQ", code, 0, 0, stamp) + (bytes(8) if head == 2 else b"")
    data = struct.pack("<4sHHII", b"LOBJ", 16 + len(more), head, 16 + len(more) + len(body), kind) + more + body
    return data + bytes(len(data) % 4)


def container(content, packing):
    body = zlib.compress(content) if packing else content
    data = struct.pack("<4sHHIIH6xI4x", b"LOBJ", 16, 1, 32 + len(body), 10, packing, len(content)) + body
    return data + bytes(len(data) % 4)


def frame_item(ns, mask, frame, kind=RECEIVED_MORE, direction=0, code=2, head=1, kept=None, error=False, place="both", crcs=None, bus=1):
    """An object of a received frame, with its flags in both of the fields that may have them, or in one."""
    first, length, kept_crc = frame[0], 2 * (frame[2] >> 1), (frame[2] & 1) << 10 | frame[3] << 2 | frame[4] >> 6
    flags = (not first & 0x20) | 0x02 | bool(first & 0x10) << 2 | bool(first & 0x08) << 3 | error << 6
    payload = frame[5:5 + length][:kept]
    slot = (first & 7) << 8 | frame[1]
    fields = (bus, 1, mask, direction, 0, 0, slot, *(crcs or (kept_crc, kept_crc)), length, len(payload), frame[4] & 63, 0,
              flags if place in ("both", "data") else 0, flags if place in ("both", "flags") else 0, 0)
    more = bytes(40) if kind == RECEIVED_MORE else b""
    rest = b"" if kind == RECEIVED_MORE else bytes(254 - len(payload) + 6)
    return item(kind, struct.pack("<4H2I6H4I", *fields) + more + payload + rest, ns, code, head)


def older_item(ns, number, frame, direction=0, wrong=0):
    """An object 41 of a received frame: its channel is a number, and it keeps 64 bytes of a payload at most."""
    first, length, kept_crc = frame[0], 2 * (frame[2] >> 1), (frame[2] & 1) << 10 | frame[3] << 2 | frame[4] >> 6
    state = bool(first & 0x40) | bool(first & 0x10) << 1 | (not first & 0x20) << 3 | bool(first & 0x08) << 4
    fields = (number, direction, 0, 0, 0, 0, 0, (first & 7) << 8 | frame[1], kept_crc ^ wrong, state, length, frame[4] & 63, 0, 0, 0)
    return item(OLDER, struct.pack("<HBB4I3H4BH", *fields) + frame[5:5 + min(64, length)].ljust(64, b"\0"), ns)


def blf_file(items, packing=2, size=3000):
    """A file whose containers begin and end anywhere within objects."""
    content = b"".join(items)
    parts = b"".join(container(content[at:at + size], packing) for at in range(0, len(content), size))
    date = struct.pack("<8H", 2024, 5, 3, 15, 10, 11, 12, 345)
    head = struct.pack("<4sI4B4BQQII16s16sI", b"LOGG", 144, *bytes(8), 144 + len(parts), 144 + len(content), len(items), 0, date, date, 0)
    return head.ljust(144, b"\0") + parts


class Blf(Bench):
    def sent(self, text=SHORT + OBSERVER):
        """The packets of a run."""
        self.write("net.toml", text)
        self.flexlab("pcap", "net.toml", "-o", "sent")
        return packets.read_capture(self.path("sent", "wireshark.pcap"))[1]

    def keep(self, name, data):
        with open(self.path(name), "wb") as file:
            file.write(data)
        return name

    def items(self, made, **more):
        """Objects of packets, alternately of both kinds and of all three types of headers."""
        return [frame_item(packet.ns, 2 if packet.channel == "B" else 1, packet.frame, kind=(RECEIVED, RECEIVED_MORE)[at % 2],
                           head=1 + at % 3, **more) for at, packet in enumerate(made)]

    def log(self, name):
        """The lines of its log, and what is told of it."""
        told = self.one_line(self.flexlab("log", name, "net.toml", "-o", name + ".csv")[0])
        return self.read(name + ".csv"), told

    @needs("tshark")
    def test_the_log_is_that_of_a_capture(self):
        made = self.sent()
        wanted, told = self.log(os.path.join("sent", "wireshark.pcap"))
        self.assertIn("160 frames of key slots", told)
        for packing in (0, 2):
            self.keep("bus.blf", blf_file(self.items(made), packing))
            self.assertEqual(self.log("bus.blf")[0], wanted)
        found = [json.loads(self.flexlab("observe", "--json", "-o", "seen", name, "net.toml", status=(0, 1))[0])
                 for name in ("bus.blf", "sent/wireshark.pcap")]
        self.assertEqual(found[0], found[1])
        # And tshark, which is another reader, has the same frames of it.
        subprocess.run(["tshark", "-r", self.path("bus.blf"), "-F", "pcapng", "-w", self.path("bus.pcapng")], check=True,
                       capture_output=True)
        self.assertEqual(self.log("bus.pcapng")[0], wanted)

    def test_frames_of_a_capture(self):
        made = self.sent()
        self.keep("bus.blf", blf_file([item(CAN, bytes(16), 5)] + self.items(made)))
        page = self.one_line(self.flexlab("capture", "-o", "lab", "bus.blf")[0])
        self.assertIn(f"0 whole, 0 damaged, {len(made)} without a trailer", page)

    def test_both_channels_in_one(self):
        made = [packet for packet in self.sent() if packet.channel == "A"]
        both = [frame_item(packet.ns, 3, packet.frame) for packet in made]
        self.keep("bus.blf", blf_file(both))
        found = blf.read_blf(self.path("bus.blf")).packets
        self.assertEqual([(packet.ns, packet.channel, packet.frame) for packet in found],
                         [(packet.ns, channel, packet.frame) for packet in made for channel in "AB"])

    def test_indicators_are_those_of_the_crc(self):
        """Whatever the flags say, of two CRCs one has to be right; and flags are those of the field that agrees with it."""
        made = [one for one in self.sent()[:40] if one.frame[0] & 0x20]
        for place in ("data", "flags", "none"):
            self.keep("bus.blf", blf_file([frame_item(one.ns, 1, one.frame, place=place) for one in made]))
            self.assertEqual([one.frame for one in blf.read_blf(self.path("bus.blf"))[0]], [one.frame for one in made], place)
        for place in ("data", "flags"):
            self.keep("bus.blf", blf_file([frame_item(one.ns, 1, one.frame, place=place, error=at == 3) for at, one in enumerate(made)]))
            self.assertEqual([at for at, one in enumerate(blf.read_blf(self.path("bus.blf"))[0]) if one.flags], [3])
            frames = observer.capture_frames(self.path("bus.blf"))
            self.assertEqual((len(frames.found), frames.left, frames.is_torn), (len(made) - 1, {observer.FLAWED: 1}, True))
        kept = (made[0].frame[2] & 1) << 10 | made[0].frame[3] << 2 | made[0].frame[4] >> 6
        for crcs, is_damaged in (((kept, 0), False), ((0, kept), False), ((kept ^ 1, kept ^ 2), True)):
            self.keep("bus.blf", blf_file([frame_item(5, 1, made[0].frame, crcs=crcs)]))
            frames = observer.capture_frames(self.path("bus.blf"))
            self.assertEqual((frames.found[0][2] == made[0].frame, frames.is_torn), (not is_damaged, is_damaged))

    def test_what_is_no_frame_on_the_bus(self):
        made = self.sent()[:9]
        items = self.items(made) + [frame_item(7, 1, made[0].frame, direction=2), frame_item(7, 0, made[0].frame)]
        self.keep("bus.blf", blf_file(items + [frame_item(8, 1, made[0].frame, direction=1)]))
        frames = observer.capture_frames(self.path("bus.blf"))
        self.assertEqual((len(frames.found), frames.left, frames.is_torn), (10, {observer.REQUESTED: 2}, True))

    def test_payloads_that_were_not_kept(self):
        """Of a null frame a logger may keep no payload: its header is one all the same."""
        made = self.sent()[:6]
        self.keep("bus.blf", blf_file(self.items(made, kept=0)))
        frames = observer.capture_frames(self.path("bus.blf"))
        self.assertEqual([found[2] for found in frames.found], [one.frame[:5] for one in made])
        self.assertEqual((frames.left, frames.is_torn), ({}, False))

    def test_steps_of_stamps(self):
        made = self.sent()
        self.keep("bus.blf", blf_file(self.items(made, code=1)))
        self.assertEqual(observer.step_of(self.path("bus.blf")), 10000)
        self.assertIn("stamps of 10000 ns, since the file keeps no more of the 10 ns", self.log("bus.blf")[1])
        self.assertEqual([one.ns for one in blf.read_blf(self.path("bus.blf"))[0]], [one.ns // 10000 * 10000 for one in made])
        self.keep("bus.blf", blf_file(self.items(made[:8]) + self.items(made[8:9], code=1)))
        self.assertEqual(observer.step_of(self.path("bus.blf")), 10000)
        # A step that is unknown says nothing of a time.
        self.keep("bus.blf", blf_file(self.items(made[:8]) + self.items(made[8:9], code=3)))
        self.assertEqual(len(blf.read_blf(self.path("bus.blf"))[0]), 8)

    def test_files_that_are_torn(self):
        made = self.sent()[:30]
        whole = blf_file(self.items(made))
        found = 0
        for end in range(0, len(whole), 97):
            self.keep("bus.blf", whole[:end])
            some = blf.read_blf(self.path("bus.blf"))[0]
            self.assertEqual([one.frame for one in some], [one.frame for one in made[:len(some)]])
            self.assertGreaterEqual(len(some), found)
            found = len(some)
        self.keep("bus.blf", whole[:150])
        self.assertIn(f"no packet of it could be read; 6 {blf.STRAY}, {len(made)} {blf.MISSING}",
                      self.flexlab("log", "bus.blf", "net.toml", status=5)[1])
        self.keep("bus.blf", blf_file([]))
        self.assertIn("a capture without a packet", self.flexlab("log", "bus.blf", "net.toml", status=1)[1])
        self.keep("bus.blf", whole.replace(struct.pack("<H6x", 2), struct.pack("<H6x", 9)))
        self.assertIn("packed by a method 9", self.flexlab("log", "bus.blf", "net.toml", status=5)[1])

    def test_what_a_file_has_lost_is_told(self):
        made = self.sent(SHORT + OBSERVER + "missed_none = true\n")
        whole = blf_file(self.items(made), 0)
        self.keep("bus.blf", whole)
        self.assertEqual(blf.read_blf(self.path("bus.blf")).lost, {})
        self.assertIn("whole,,,,", self.log("bus.blf")[0])
        # The head of an object amid the first container.
        damaged, at = bytearray(whole), whole.index(b"LOBJ", 1500)
        self.assertLess(at, 3000)
        damaged[at:at + 16] = b"\xee" * 16
        # A packed container of which some bytes are others: nothing of it is taken, and no object goes over it.
        packed = blf_file(self.items(made))
        begin = packed.index(b"LOBJ", packed.index(b"LOBJ", packed.index(b"LOBJ") + 4) + 4)
        broken = packed[:begin + 60] + bytes(byte ^ 0x55 for byte in packed[begin + 60:begin + 90]) + packed[begin + 90:]
        for data, reasons in ((bytes(damaged), {blf.STRAY}), (whole[:len(whole) // 2], {blf.SHORTER}),
                              (packed[:len(packed) // 2], {blf.SHORTER}), (broken, {blf.SHORTER, blf.STRAY})):
            self.keep("bus.blf", data)
            lost = blf.read_blf(self.path("bus.blf")).lost
            self.assertEqual(set(lost), reasons | {blf.MISSING})
            kept, wanted = ([(one.ns, one.channel, one.frame) for one in some]
                            for some in (blf.read_blf(self.path("bus.blf")).packets, made))
            self.assertEqual([frame for frame in wanted if frame in kept], kept)
            self.assertEqual(lost[blf.MISSING], len(made) - len(blf.read_blf(self.path("bus.blf")).packets))
            log, told = self.log("bus.blf")
            self.assertNotIn("whole,,,,", log)
            self.assertIn(f"{lost[blf.MISSING]} {blf.MISSING}", told)
            self.assertIn("it missed no frame, which is not taken", told)
            page = self.one_line(self.flexlab("capture", "-o", "lab", "bus.blf")[0])
            for reason, count in lost.items():
                self.assertIn(f"{count} {reason}", page.split("WARNING not all of the file was read: ")[1])
            self.assertEqual(json.loads(self.flexlab("capture", "-o", "lab", "--json", "bus.blf")[0])["lost"], lost)

    def older(self, made, numbers):
        return [older_item(packet.ns, numbers["AB".index(packet.channel)], packet.frame) for packet in made]

    @needs("tshark")
    def test_older_objects(self):
        """Objects 41, as tshark reads them: 0 is channel A, and 1 is B."""
        made = self.sent(SHORT + OBSERVER + "missed_none = true\n")
        self.keep("new.blf", blf_file(self.items(made)))
        wanted = self.log("new.blf")[0]
        self.assertIn("whole,,,,", wanted)
        self.keep("bus.blf", blf_file(self.older(made, (0, 1))))
        self.assertEqual(self.log("bus.blf")[0], wanted)
        subprocess.run(["tshark", "-r", self.path("bus.blf"), "-F", "pcapng", "-w", self.path("bus.pcapng")], check=True,
                       capture_output=True)
        self.assertEqual(self.log("bus.pcapng")[0], wanted)
        # Numbers from 1 on, and one channel of each form.
        self.keep("bus.blf", blf_file(self.older(made, (1, 2))))
        self.assertEqual(self.log("bus.blf")[0], wanted)
        for channel, number in (("A", 0), ("B", 2)):
            self.keep("bus.blf", blf_file([older_item(one.ns, number, one.frame) if one.channel == channel else
                                           frame_item(one.ns, 1 + "AB".index(one.channel), one.frame) for one in made]))
            self.assertEqual(self.log("bus.blf")[0], wanted)

    def test_channels_of_older_objects_that_are_not_known(self):
        made = self.sent()[:8]
        for numbers, listed in (((1, 1), "1"), ((0, 2), "0, 2"), ((3, 4), "3, 4")):
            self.keep("bus.blf", blf_file(self.older(made, numbers)))
            self.assertIn(f"its objects 41 have the channel numbers {listed}, and it is not known which these are",
                          self.flexlab("log", "bus.blf", "net.toml", status=5)[1])

    def test_what_older_objects_keep(self):
        made = self.sent()[:9]
        self.keep("bus.blf", blf_file([older_item(one.ns, 0, one.frame, direction=at % 3) for at, one in enumerate(made)]))
        frames = observer.capture_frames(self.path("bus.blf"))
        self.assertEqual([one[2] for one in frames.found], [one.frame for at, one in enumerate(made) if at % 3 < 2])
        self.assertEqual((frames.left, frames.is_torn), ({observer.REQUESTED: 3}, True))
        # A null frame with a preamble and a payload that is longer than what is kept, and a CRC that does not fit.
        long = regular_frame("A", 9, 5, 100, True, True, True)
        odd = bytes([long[0] & ~0x20 | 0x40]) + long[1:]
        self.keep("bus.blf", blf_file([older_item(5, 0, odd[:-3])]))
        packet, = blf.read_blf(self.path("bus.blf")).packets
        self.assertEqual((packet.frame, packet.cut), (odd[:69], 136))
        frames = observer.capture_frames(self.path("bus.blf"))
        self.assertEqual(([one[2] for one in frames.found], frames.is_torn), ([odd[:69]], False))
        self.keep("bus.blf", blf_file([older_item(5, 0, made[0].frame, wrong=1)]))
        self.assertTrue(observer.capture_frames(self.path("bus.blf")).is_torn)

    def test_one_network_of_several(self):
        made = self.sent()
        self.keep("one.blf", blf_file(self.items(made)))
        wanted = self.log("one.blf")[0]
        self.keep("bus.blf", blf_file(self.items(made) + self.items(made[40:60], bus=7)))
        for words in (("log", "bus.blf", "net.toml"), ("capture", "bus.blf")):
            err = self.flexlab(*words, status=5)[1]
            self.assertIn("it has frames of the networks 1 and 7; --bus NUMBER takes those of one", err)
        self.flexlab("log", "bus.blf", "net.toml", "--bus", "1", "-o", "bus.csv")
        self.assertEqual(self.read("bus.csv"), wanted)
        self.flexlab("capture", "-o", "lab", "bus.blf", "--bus", "7")
        self.assertIn("it has no frame of network 2; there are those of 1 and 7",
                      self.flexlab("log", "bus.blf", "net.toml", "--bus", "2", status=1)[1])
        self.assertIn("it is no BLF file", self.flexlab("log", "sent/wireshark.pcap", "net.toml", "--bus", "1", status=2)[1])
        # A logger that numbers the channels of one network.
        both = [frame_item(one.ns, 1 + "AB".index(one.channel), one.frame, bus=1 + "AB".index(one.channel)) for one in made]
        self.keep("bus.blf", blf_file(both))
        self.assertEqual(len(blf.read_blf(self.path("bus.blf")).packets), len(made))


if __name__ == "__main__":
    unittest.main()
