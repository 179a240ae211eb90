"""Captures: made here, taken apart by flexlab, and looked at by tshark."""
import csv
import os
import subprocess
import unittest

from bench import EXAMPLE, Bench, edited, needs
from flexlab.captures import frames, packets

FRAME = {"A": "1801006F009AE525", "B": "1801006F00716B40"}
FIELDS = ("ch", "fid", "pl", "cc", "sfi", "stfi", "ppi", "hcrc")


def tshark(path, *words):
    ended = subprocess.run(["tshark", "-r", path, *words], capture_output=True, text=True, check=True)
    return ended.stdout


class Frames(Bench):
    def test_the_crcs_of_the_documents(self):
        for channel, written in FRAME.items():
            self.assertEqual(frames.frame_bytes(channel, 1, 0, b"", False, True, True).hex().upper(), written)
        self.assertEqual(frames.frame_bytes("A", 5, 9, b"\x12\x34", True).hex().upper(), "200502B389123475126B")
        self.assertEqual(frames.frame_bytes("A", 1, 0, b"", False)[:5].hex(), "0001" + frames.frame_bytes(
            "A", 1, 0, b"", False)[2:5].hex())

    def test_flexray_finds_every_frame_whole(self):
        made = [frames.regular_frame("B", slot, cycle, words, cycle % 2 == 0, slot < 3, slot == 1)
                for slot, cycle, words in ((1, 0, 0), (2, 63, 127), (1023, 64, 1), (2047, 5, 8))]
        with open(self.path("frames.bin"), "wb") as file:
            file.write(b"".join(made))
        status, out, _ = self.flexray("capture", "B", "frames.bin")
        self.assertEqual(status, 0)
        self.assertIn("frames 4 ", out)
        self.assertIn("fault none", out)


@needs("tshark")
class Captures(Bench):
    def capture(self, made, *words, status=0, name="a.pcap"):
        if name == "a.pcap":
            packets.write_capture(self.path(name), made)
        return self.one_line(self.flexlab("capture", *words, name, status=status)[0])

    def rows(self):
        with open(self.path("a.lab", "frames.csv"), encoding="utf-8", newline="") as file:
            return list(csv.DictReader(file))

    def run_sent(self, text=EXAMPLE):
        self.write("run.toml", text)
        self.flexlab("pcap", "run.toml", "-o", "sent")
        return self.path("sent", "sent.pcap")

    def made(self, cycles=range(70), slots=(1, 2)):
        return [(1000 * (100 * cycle + slot), channel, frames.regular_frame(channel, slot, cycle, 8, True, True, False))
                for cycle in cycles for slot in slots for channel in "AB"]

    def test_what_a_run_sends_comes_back(self):
        path = self.run_sent()
        self.flexlab("capture", path, "-o", "back")
        report = self.read("sent", "report.txt")
        for channel in "AB":
            out = self.flexray("capture", channel, f"back/{channel}.bin")[1]
            self.assertIn("fault none", out)
            crcs = [int(line.split()[-1], 16) for line in out.splitlines() if line.startswith("at ")]
            total = 0
            for crc in crcs:
                total ^= crc
            self.assertIn(f"sent {channel} {len(crcs)} xor {total:06X}\n", report)
            self.assertGreater(len(crcs), 1000)

    def test_tshark_shows_the_same_fields(self):
        path = self.run_sent(edited(("double_cycles = 200", "double_cycles = 100")))
        out = tshark(path, "-T", "fields", *[word for name in FIELDS for word in ("-e", f"flexray.{name}")])
        shown = [line.split("\t") for line in out.splitlines()]
        sent = packets.read_capture(path)[1]
        self.assertEqual(len(shown), len(sent))
        for fields, packet in zip(shown, sent):
            head = packet.frame
            wanted = ["1" if packet.channel == "B" else "0", (head[0] & 7) << 8 | head[1], head[2] >> 1, head[4] & 63,
                      head[0] >> 4 & 1, head[0] >> 3 & 1, head[0] >> 6 & 1,
                      (head[2] & 1) << 10 | head[3] << 2 | head[4] >> 6]
            got = [fields[0]] + [int(value, 0) for value in fields[1:]]
            self.assertEqual(got, wanted)
        self.assertEqual(tshark(self.path("sent", "wireshark.pcap"), "-Y", "_ws.malformed"), "")
        page = self.one_line(self.flexlab("capture", self.path("sent", "wireshark.pcap"))[0])
        self.assertIn("WARNING no payload could be checked", page)
        self.assertIn(f"0 whole, 0 damaged, {len(sent)} without a trailer, the frame CRC: of these the header is right", page)
        # The tables by ID are those of the same frames with their CRC.
        whole = self.one_line(self.flexlab("capture", path)[0])
        for one in (page, whole):
            self.assertIn("Channel A id frames every first last missing cycles 1 200 1 0 199 none", one)
        self.assertEqual(page.split("Channel A")[1].split("Origin")[0], whole.split("Channel A")[1].split("Origin")[0])

    def test_a_halted_node_sends_nothing(self):
        path = self.run_sent(EXAMPLE + '[[oscillator]]\nnodes = 1\ncycles = "200-"\nppm = -1400\n')
        self.assertIn("node 1 halt", self.read("sent", "report.txt"))
        cycles = [packet.frame[1] for packet in packets.read_capture(path)[1]]
        self.assertLess(cycles.count(1), cycles.count(2))

    def test_instants_are_those_of_the_trace(self):
        path = self.run_sent()
        start = next(line.split(",") for line in self.read("sent", "trace.csv").splitlines()
                     if line.startswith("cycle,0,2,"))
        # Node 2: slot 2, its action point at macrotick 60 of 5000, 2400 of 200000 microticks.
        ticks = int(start[3]) + 2400 * int(start[4])
        first = next(packet for packet in packets.read_capture(path)[1] if packet.frame[1] == 2)
        self.assertEqual(first.ns, (ticks * 25 + 500000) // 1000000)

    def test_damaged_missing_and_bare_packets(self):
        made = self.made()
        ns, channel, frame = made[8]
        made[8] = ns, channel, frame[:9] + bytes([frame[9] ^ 4]) + frame[10:]
        ns, channel, frame = made[20]
        made[20] = ns, channel, frame[:-1]
        ns, channel, frame = made[24]
        made[24] = ns, channel, frame[:3] + bytes([frame[3] ^ 1]) + frame[4:]
        ns, channel, frame = made[40]
        made[40] = ns, channel, frame[:-3]
        del made[60]
        page = self.capture(made, status=1)
        self.assertIn("275 whole, 3 damaged, 1 without a trailer", page)
        rows = self.rows()
        faults = {row["packet"]: row["fault"] for row in rows if row["fault"]}
        self.assertEqual(list(faults), ["9", "21", "25"])
        self.assertTrue(faults["9"].startswith("frame crc kept"))
        self.assertEqual(faults["21"], "length stated 24 given 23")
        self.assertTrue(faults["25"].startswith("header crc kept"))
        # Packets 9, 21, 25 and the one that was taken out are of ID 1 on channel A in cycles 2, 5, 6 and 15; that of cycle
        # 10 has no frame CRC, and its header is right.
        self.assertIn("1 66 1 0 69 4: 2, 5-6, 15", page)
        self.assertIn("packet 9, channel A, id 1 cycle 2 by its bytes: frame crc kept", page)
        self.assertEqual(len(rows), 279)
        self.assertEqual({row["packet"]: row["checked"] for row in rows if row["checked"] != "frame"},
                         {"9": "", "21": "", "25": "", "41": "header"})

    def test_a_header_that_is_wrong_without_a_frame_crc(self):
        made = [(ns, channel, frame[:-3]) for ns, channel, frame in self.made(range(4))]
        ns, channel, frame = made[5]
        made[5] = ns, channel, frame[:3] + bytes([frame[3] ^ 1]) + frame[4:]
        page = self.capture(made, status=1)
        self.assertIn("0 whole, 1 damaged, 15 without a trailer", page)
        self.assertIn("packet 6, channel B, id 1 cycle 1 by its bytes: header crc kept", page)
        self.assertEqual(os.path.getsize(self.path("a.lab", "A.bin")), 0)

    def timed(self, *words):
        """Five slots of 50 us in a cycle of 5 ms: slot 4 lies 3 us late and jitters by 2 us, B comes 0.25 us later."""
        made = [(5000000 * cycle + 50000 * slot + (3000 if slot == 4 else 0) + (1000 if slot == 4 and cycle % 2 else 0)
                 - (1000 if slot == 4 and cycle % 2 == 0 else 0) + (250 if channel == "B" else 0), channel,
                 frames.regular_frame(channel, slot, cycle, 8, True, slot != 4, False))
                for cycle in range(100) for slot in (1, 2, 3, 4, 5) for channel in "AB"]
        return self.capture(made, *words)

    def test_what_the_time_stamps_say(self):
        page = self.timed()
        with open(self.path("a.lab", "timing.csv"), encoding="utf-8", newline="") as file:
            rows = {(row["channel"], row["id"]): row for row in csv.DictReader(file)}
        self.assertEqual(len(rows), 10)
        for place in (("A", "1"), ("B", "5")):
            self.assertEqual([rows[place][name] for name in ("cycle_us", "least_cycle_us", "greatest_cycle_us", "jitter_us",
                                                             "offset_us")], ["5000.000"] * 3 + ["0.000", "0.000"])
        four = rows["A", "4"]
        self.assertEqual((four["least_cycle_us"], four["greatest_cycle_us"], four["offset_us"]), ("4998.000", "5002.000", "3.000"))
        self.assertTrue(1.99 <= float(four["jitter_us"]) <= 2.1 and 0.99 <= float(four["deviation_us"]) <= 1.01, four)
        with open(self.path("a.lab", "channels.csv"), encoding="utf-8", newline="") as file:
            pairs = list(csv.DictReader(file))
        self.assertEqual([(row["id"], row["pairs"], row["mean_us"]) for row in pairs],
                         [(str(slot), "100", "-0.250") for slot in range(1, 6)])
        self.assertIn("(50.000 on A, 50.000 on B us long)", page)

    def test_places_by_the_toml_file(self):
        self.write("a.toml", EXAMPLE)
        self.timed("--cluster", self.write("net.toml", EXAMPLE))
        with open(self.path("a.lab", "timing.csv"), encoding="utf-8", newline="") as file:
            self.assertEqual([row["offset_us"] for row in csv.DictReader(file)][:5], ["0.000", "0.000", "0.000", "3.000", "0.000"])

    def test_two_slots_have_no_places(self):
        page = self.capture(self.made(range(5)))
        self.assertIn("for that it takes three sync slots of a channel", page)
        made = [(0, channel, frame) for _, channel, frame in self.made(range(1))]
        self.assertIn("so of times nothing is told", self.capture(made))

    @needs("gnuplot")
    def test_pictures_of_times(self):
        self.timed("--pictures")
        drawn = self.read("a.lab", "timing.svg")
        for told in ("cycle, us", "off its own line, us", "ID 4 on A"):
            self.assertIn(told, drawn)

    def test_pcapng_and_cycles_beyond_64(self):
        packets.write_capture(self.path("plain.pcap"), self.made(range(60, 200)))
        subprocess.run(["tshark", "-r", self.path("plain.pcap"), "-F", "pcapng", "-w", self.path("a.pcapng")],
                       check=True, capture_output=True)
        page = self.capture(None, name="a.pcapng")
        self.assertIn("560 whole, 0 damaged", page)
        self.assertIn("Cycles 60 to 199", page)

    def test_symbols_and_flags(self):
        made = self.made(range(2))
        packets.write_capture(self.path("a.pcap"), made)
        with open(self.path("a.pcap"), "rb") as file:
            data = bytearray(file.read())
        data[24 + 16 + 1] = 0x10
        data += (5).to_bytes(4, "little") + bytes(4) + (2).to_bytes(4, "little") * 2 + bytes([0x02, 30])
        with open(self.path("b.pcap"), "wb") as file:
            file.write(data)
        page = self.capture(None, name="b.pcap")
        self.assertIn("1 symbols", page)
        self.assertIn("1 frames have an error flag of the logger, 1 of them whole", page)

    def test_the_first_and_the_last_frame_are_missed_too(self):
        made = self.made(range(5))
        made[0] = made[0][0], "A", made[0][2][:-1] + bytes([made[0][2][-1] ^ 1])
        page = self.capture(made, status=1)
        self.assertIn("1 4 1 1 4 1: 0 2 5 1 0 4 none", page)
        # A capture that begins and ends within a cycle: ID 1 of the first and ID 2 of the last are not expected.
        page = self.capture(self.made(range(5))[2:-2])
        self.assertIn("1 4 1 1 4 none 2 4 1 0 3 none", page)

    def test_every_fourth_cycle(self):
        page = self.capture(self.made([cycle for cycle in range(1, 200, 4) if cycle not in (21, 25, 101)], (7,)))
        self.assertIn("7 47 4 1 197 3: 21, 25, 101", page)

    def test_network_management_vectors(self):
        made = [(1000 * at, "A", frames.frame_bytes("A", at + 1, 9, bytes([1 << at, 128, 0, 0]), True, preamble=at < 2))
                for at in range(3)]
        page = self.capture(made, "--nm", "2")
        self.assertIn("cycle 9 vector 0380 frames 2 frames 2 ignored 0", page)
        self.assertEqual(self.read("a.lab", "vectors.csv").count("\n"), 2)
        self.flexlab("capture", "--nm", "13", "a.pcap", status=2)

    def test_what_is_no_capture(self):
        self.write("text.pcap", "hello, this is no capture at all\n")
        self.assertIn("it is a text and no capture", self.flexlab("capture", "text.pcap", status=5)[1])
        self.write("other.pcap", "hello\0this is none either\n")
        self.assertIn("tshark does not read it", self.flexlab("capture", "other.pcap", status=5)[1])
        self.assertIn("none.pcap: No such file", self.flexlab("capture", "none.pcap", status=3)[1])
        packets.LINK_FLEXRAY, kept = 1, packets.LINK_FLEXRAY
        try:
            packets.write_capture(self.path("ethernet.pcap"), self.made(range(1)))
        finally:
            packets.LINK_FLEXRAY = kept
        self.assertIn("its link type is 1, and FlexRay's is 210", self.flexlab("capture", "ethernet.pcap", status=5)[1])

    def test_a_capture_without_packets_is_a_failure(self):
        self.write("empty.pcap", "")
        self.assertIn("empty.pcap: it has 0 bytes, so it is no capture", self.flexlab("capture", "empty.pcap", status=1)[1])
        packets.write_capture(self.path("none.pcap"), [])
        self.assertIn("none.pcap: a capture without a packet", self.flexlab("capture", "none.pcap", status=1)[1])

    def test_without_tshark(self):
        self.capture(self.made(range(1)))
        self.assertIn("Debian package tshark", self.flexlab("capture", "a.pcap", status=4, env={"PATH": "/nowhere"})[1])

    def test_a_large_capture(self):
        """Several pieces a channel, and many faults in one of them."""
        made = self.made(range(8000), range(1, 7))
        for at in range(60001, 60800, 2):
            ns, channel, frame = made[at]
            made[at] = ns, channel, frame[:-1] + bytes([frame[-1] ^ 1])
        page = self.capture(made, status=1)
        self.assertIn("95600 whole, 400 damaged", page)
        self.assertIn(".. and 360 more, in frames.csv", page)
        self.assertEqual(os.path.getsize(self.path("a.lab", "A.bin")), 8000 * 6 * 24)
        self.assertEqual(os.path.getsize(self.path("a.lab", "B.bin")), (8000 * 6 - 400) * 24)


if __name__ == "__main__":
    unittest.main()
