"""Text logs (ASC): they are written here from runs of `flexlab pcap`, and tell the same as its captures."""
import json
import os
import unittest

from bench import Bench, edited, needs
from flexlab.captures import asc, observer, packets
from flexlab.toml.cluster import read_cluster
from flexlab.base.ending import REFUSED, Stop

SHORT = edited(("double_cycles = 200", "double_cycles = 10"))
OBSERVER = """
[observer]
resolution_ns = 1
drift_ppm = 20
delay_from_ns = 100
delay_to_ns = 200
"""
HEAD = """date Tue Mar 5 11:14:08 am 2013
base {base}  timestamps {times}
internal events logged
// version 9.0.0
Begin Triggerblock Tue Mar 5 11:14:08 am 2013
   0.000000 Start of measurement
"""
COMMON = "{time} Fr RMSG  0 1 {mask} {slot} {cycle} {way} 0 {flags:x} 5 {crc:x} x {length} {length} {data} 123456 0 0"
OTHER = "{time} FlexRay {crc:03X} {cycle:x} {slot:x} 7 {words:x} {channel} {data}"


def fields_of(packet, decimals=9):
    """What the columns of a row have."""
    frame = packet.frame
    ns = packet.ns // 10 ** (9 - decimals)
    return {"time": f"{ns // 10**decimals:4}.{ns % 10**decimals:0{decimals}}", "channel": packet.channel, "mask": "?AB".index(packet.channel),
            "slot": (frame[0] & 7) << 8 | frame[1], "cycle": frame[4] & 63, "way": "Rx", "words": frame[2] >> 1, "length": 2 * (frame[2] >> 1),
            "crc": (frame[2] & 1) << 10 | frame[3] << 2 | frame[4] >> 6, "flags": frame[0] >> 3, "data": frame[5:].hex(" ")}


def rows_of(made, form=COMMON, decimals=9, **more):
    return [form.format(**{**fields_of(packet, decimals), **more}) for packet in made]


def text_of(rows, base="dec", times="absolute"):
    return HEAD.format(base=base, times=times) + "".join(row + "\n" for row in rows) + "End TriggerBlock\n"


class Asc(Bench):
    def sent(self, text=SHORT + OBSERVER):
        """The packets of a run."""
        self.write("net.toml", text)
        self.flexlab("pcap", "net.toml", "-o", "sent")
        return packets.read_capture(self.path("sent", "wireshark.pcap"))[1]

    def observed(self, name="bus.asc", status=1):
        """What `flexlab observe` tells, but for what was left out, which differs by the form of a file."""
        found = json.loads(self.flexlab("observe", "--json", "-o", "seen", name, "net.toml", status=status)[0])
        found.pop("left_out")
        return found

    def frames(self, rows, **more):
        """What is read of rows."""
        self.write("bus.asc", text_of(rows, **more))
        return observer.asc_frames(self.path("bus.asc"), read_cluster(self.path("net.toml")))

    def refused(self, rows, **more):
        with self.assertRaises(Stop) as found:
            self.frames(rows, **more)
        self.assertEqual(found.exception.status, REFUSED)
        return found.exception.line

    # ---- the same as of a capture

    @needs("tshark")
    def test_common_columns(self):
        made = self.sent()
        self.write("bus.asc", text_of(rows_of(made)))
        self.assertEqual(self.observed(), self.observed(os.path.join("sent", "wireshark.pcap")))
        page = self.one_line(self.flexlab("observe", "-o", "seen", "bus.asc", "net.toml", status=1)[0])
        self.assertIn("Log bus.asc: 160 frames of key slots", page)
        self.assertIn("Columns time Fr RMSG _ _ channels slot cycle direction _ _ _ header_crc _ payload_bytes; "
                      "hexadecimal: header_crc", page)
        self.assertNotIn("\nframe,", self.read("seen", "log.csv"))
        self.assertIn("Columns time Fr", self.flexlab("log", "bus.asc", "net.toml")[0].replace(" " * 9, " "))

    def test_columns_before_the_channels(self):
        made = self.sent()
        wanted = self.frames(rows_of(made)).found
        self.assertEqual(wanted, [(one.ns, one.channel, bytes([one.frame[0] | 0x20]) + one.frame[1:5], False) for one in made])
        for instead in ("", "0 ", "0 0 1 "):
            self.assertEqual(self.frames(rows_of(made, COMMON.replace("0 1 ", instead, 1))).found, wanted)
        self.assertIn("So it is in 200 of the first 200 rows", self.refused(rows_of(made, COMMON.replace("0 1 ", "0 0 0 1 ", 1))))

    @needs("tshark")
    def test_stated_columns(self):
        made = self.sent()
        wanted = self.observed(os.path.join("sent", "wireshark.pcap"))
        columns = 'columns = "time FlexRay header_crc cycle slot _ payload_words channels"\n'
        for more in ("", 'hexadecimal = "header_crc cycle slot payload_words"\n'):
            self.write("net.toml", SHORT + OBSERVER + "[asc]\n" + columns + more)
            self.write("bus.asc", text_of(rows_of(made, OTHER)))
            self.assertEqual(self.observed(), wanted)
        self.write("net.toml", SHORT + OBSERVER + "[asc]\n" + columns + 'hexadecimal = "slot"\n')
        self.assertIn("bus.asc:7: read were", self.refused(rows_of(made, OTHER)))

    @needs("tshark")
    def test_a_fault_is_one_in_both(self):
        made = self.sent(SHORT + OBSERVER + "missed_none = true\nin_sync_from_cycle = 4\n")
        less = [packet for packet in made if packet.frame[1] != 3 or packet.frame[4] & 63 < 11]
        self.write("bus.asc", text_of(rows_of(less)))
        packets.write_capture(self.path("bus.pcap"), [(packet.ns, packet.channel, packet.frame) for packet in less])
        found = self.observed()
        self.assertEqual(found, self.observed("bus.pcap"))
        self.assertEqual((found["faults"][0]["cycle"], found["faults"][0]["kind"], found["verdict"][0]), (11, "missing", "no"))

    # ---- numbers

    def test_bases_are_found(self):
        made = self.sent()
        wanted = self.frames(rows_of(made)).found
        for form in (COMMON, COMMON.replace("{crc:x}", "{crc}"), COMMON.replace("{cycle}", "{cycle:x}"),
                     COMMON.replace("{slot}", "{slot:X}").replace("{length}", "{length:x}").replace("{cycle}", "0x{cycle:x}")):
            for base in ("dec", "hex"):
                with self.subTest(form=form, base=base):
                    frames = self.frames(rows_of(made, form), base=base)
                    self.assertEqual(frames.found, wanted)
                    self.assertEqual("cycle" in frames.columns.split("hexadecimal: ")[1], "cycle:x" in form)

    def test_a_base_of_counts_by_the_times_alone(self):
        """Of a slot that is sent in every 16th cycle hexadecimal counts are 0, 10, 20, 30, which are decimal numbers too."""
        made = [packet for packet in self.sent(edited(("double_cycles = 200", "double_cycles = 40")) + OBSERVER)
                if packet.frame[4] & 15 == 0]
        for form in (COMMON, COMMON.replace("{cycle}", "{cycle:x}")):
            for base in ("dec", "hex"):
                frames = self.frames(rows_of(made, form), base=base)
                self.assertEqual("cycle" in frames.columns.split("hexadecimal: ")[1], "cycle:x" in form)
                self.assertEqual({header[4] & 63 for _, _, header, _ in frames.found}, {0, 16, 32, 48})

    def test_decimal_places(self):
        made = self.sent()
        for decimals in range(1, 10):
            self.assertEqual(self.frames(rows_of(made, decimals=decimals)[:1]).step, 10 ** (9 - decimals))
        # The coarsest of the rows counts, and no other line does.
        rows = rows_of(made[:4]) + rows_of(made[4:5], decimals=6) + ["0.1 CAN 1", *rows_of(made[5:])]
        self.assertEqual(self.frames(rows).step, 1000)
        told = self.one_line(self.flexlab("log", "bus.asc", "net.toml")[0])
        self.assertIn("Analyzer stamps of 1000 ns, since the file keeps no more of the 1 ns", told)
        self.frames(rows_of(made, decimals=4))
        self.assertIn("by [observer] and the steps of bus.asc a stamp is off by", self.flexlab("log", "bus.asc", "net.toml", status=5)[1])

    # ---- other lines

    def test_lines_that_are_no_rows(self):
        made = self.sent()
        wanted = self.frames(rows_of(made)).found
        rows = rows_of(made, COMMON.replace(" x ", " Geschw\u00e4rzt\u00a0\u0085\u00ff "))
        rows[3:3] = ["   0.000300 1  123             Rx   d 8 01 02 03 04 05 06 07 08  Length = 0", "", "// 1.5 a remark",
                     "   0.000310 Fr SPDT 1 1 2 3", "   0.000320 Fr PDU 0 1 1 1 0 Rx 0 e 5 11b x 16 16 00", "base", "   0.5"]
        with open(self.path("bus.asc"), "wb") as file:
            file.write(text_of(rows).replace("\n", "\r\n").encode("latin-1") + b"\xfe\x00\xff\n")
        frames = observer.asc_frames(self.path("bus.asc"), read_cluster(self.path("net.toml")))
        # Four of these have a time, and the start of the measurement has.
        self.assertEqual((frames.found, frames.left), (wanted, {asc.OTHERS: 5}))

    def test_rows_that_are_damaged(self):
        """A row of which anything that is read is another one is left out, and counted."""
        made = self.sent(SHORT + OBSERVER + "missed_none = true\n")
        whole, at = rows_of(made), next(at for at, one in enumerate(made) if (one.frame[1], one.channel) == (4, "A"))
        frames, crc = self.frames(whole), f" {fields_of(made[at])['crc']:x} x"
        self.assertFalse(frames.is_torn)
        for old, new in ((" 1 4 ", " 1 14 "), (" 1 4 ", " 1 0 "), (" 1 4 ", " 1 2052 "), (" x 16 ", " x 18 "), (" x 16 ", " x 17 "),
                         (" Rx ", " Ry "), ("RMSG  0 1 1 ", "RMSG  0 1 4 "), ("RMSG  0 1 1 ", "RMSG  0 1 "), (" x 16 ", " "),
                         (crc, " 7ff x"), (crc, " 17ff x"), (crc, " x"), (" 16 ", " sixteen "), ("0.", "0,")):
            rows = list(whole)
            self.assertIn(old, rows[at])
            rows[at] = rows[at].replace(old, new, 1)
            with self.subTest(new=new):
                less = self.frames(rows)
                self.assertEqual((less.left[asc.UNPROVED], less.is_torn), (1, True))
                self.assertEqual(less.found, frames.found[:at] + frames.found[at + 1:])
        self.assertIn("it missed no frame, which is not taken", self.one_line(self.flexlab("log", "bus.asc", "net.toml")[0]))
        # A row that ends with its frame's payload, or anywhere behind the columns that are read.
        self.assertEqual(self.frames([row.split(" 123456")[0] for row in whole[:9]] + whole[9:]).found, frames.found)

    def test_frames_on_both_channels(self):
        made = [packet for packet in self.sent() if packet.channel == "A"]
        one = self.frames(rows_of(made)).found
        both = self.frames(rows_of(made, mask=3)).found
        self.assertEqual(both, [(ns, channel, header, False) for ns, _, header, _ in one for channel in "AB"])
        self.assertEqual(self.observed()["log"]["judged"], 160)

    def test_directions(self):
        """What the analyzer itself sent is a frame on the bus; what it was asked to send is none yet."""
        made = self.sent()
        wanted = self.frames(rows_of(made)).found
        rows = [row.replace(" Rx ", " Tx ") if packet.frame[1] == 1 else row for row, packet in zip(rows_of(made), made)]
        frames = self.frames([row.replace(" Rx ", " TxRq ") for row in rows_of(made[:10])] + rows)
        self.assertEqual((frames.found, frames.left[asc.REQUESTS], frames.is_torn), (wanted, 10, False))

    # ---- relative times

    def test_relative_times(self):
        made = self.sent()
        wanted = self.frames(rows_of(made)).found
        rows, before = [], 0
        for at, packet in enumerate(made):
            between = before + (packet.ns - before) // 3
            if at % 2:
                rows.append(f"0.{between - before:09} 1  123  Rx  d 1 00")
                before = between
            rows += rows_of([packet], time=f"0.{packet.ns - before:09}")
            before = packet.ns
        self.assertIn("its times are relative, and where each was rounded alone their sum drifts", self.refused(rows, times="relative"))
        self.write("net.toml", SHORT + OBSERVER + "[asc]\nsums_are_exact = true\n")
        frames = self.frames(rows, times="relative")
        self.assertEqual((frames.found, frames.left[asc.OTHERS]), (wanted, sum("123 " in row for row in rows) + 1))
        rows[9] = "x" + rows[9].lstrip()
        self.assertIn("then each row needs its time", self.refused(rows, times="relative"))

    # ---- refusals

    def test_wrong_columns(self):
        made = self.sent()
        crc = f"{fields_of(made[0])['crc']:x}"
        told = self.refused(rows_of(made, COMMON.replace("{slot} {cycle}", "{cycle} {slot}")))
        self.assertIn(f"'0' as slot, '16' as payload_bytes, '{crc}' as header_crc, '1' as cycle, '1' as channels, 'Rx' as direction, "
                      "which is no header", told)
        told = self.refused(rows_of(made, COMMON.replace("{crc:x}", "{crc:x}0")))
        self.assertRegex(told, r"bus\.asc:7: read were '0\.\d{9}' as time, '1' as slot, '16' as payload_bytes, .*\. The CRC of such a header "
                               r"is [0-9A-F]{3} or [0-9A-F]{3} or " + crc.upper() + r" \(plain, with sync, with sync and startup\), and "
                               rf"{crc.upper()}0 stands there\. So it is in 200 of the first 200 rows\.")
        self.assertIn("'RX1' as direction. The CRC is that of such a header, and its time, channels or direction is none",
                      self.refused(rows_of(made, way="RX1")))
        self.assertIn("Their columns are taken to be `time Fr RMSG _ _ channels slot cycle direction _ _ _ header_crc _ payload_bytes`; "
                      'if they are others, state them in [asc]: docs/FLEXLAB.md, "ASC files"', told)

    def test_rows_that_are_half_wrong(self):
        made = self.sent()
        good, bad = rows_of(made), rows_of(made, COMMON.replace("{crc:x}", "7fe"))
        self.assertEqual(self.frames(good[:101] + bad[101:]).left[asc.UNPROVED], 99)
        self.assertIn("bus.asc:107: read were", self.refused(good[:100] + bad[100:]))

    def test_wrong_counts(self):
        """No CRC covers the cycle count: it is held against the times."""
        made = self.sent()
        for form in (COMMON.replace("{cycle}", "{slot}"), COMMON.replace("{cycle}", "0"), COMMON.replace("{mask}", "1")):
            self.assertRegex(self.refused(rows_of(made, form)),
                             r"bus\.asc:\d+: slot 1 goes from cycle count \d+ \(line \d+\) to \d+, and by the times \d cycles of 5 ms went "
                             r"by\. So it is in \d+ of \d+ steps\.")
        self.assertEqual(self.frames(rows_of(made, cycle=99)).left[asc.UNPROVED], 200)
        self.write("net.toml", SHORT.replace("pMicroPerCycle = 200000", "pMicroPerCycle = 500000") + OBSERVER)
        self.assertIn("cycles of 12.5 ms went by", self.refused(rows_of(made)))

    def test_single_wrong_counts_are_for_flexray(self):
        """One that is wrong among many is told as what it is, a contradiction."""
        made = self.sent()
        at = next(at for at, packet in enumerate(made) if packet.frame[4] & 63 == 9 and packet.frame[1] == 2)
        rows = rows_of(made)
        rows[at] = rows_of([made[at]], cycle=30)[0]
        self.write("bus.asc", text_of(rows))
        self.assertEqual([fault["kind"] for fault in self.observed()["faults"]], ["cycle"])

    def test_files_without_rows(self):
        self.sent()
        for text in ("", "\n\n", "date Tue\n// nothing\n"):
            self.write("bus.asc", text)
            self.assertIn("bus.asc: it has no line of an event", self.flexlab("log", "bus.asc", "net.toml", status=1)[1])
        self.assertIn("none of its 2 events has the words 'Fr RMSG' in the columns that are taken for theirs",
                      self.refused(["0.5 1 123 Rx d 0"]))
        self.assertIn("gone.asc: No such file", self.flexlab("log", "gone.asc", "net.toml", status=3)[1])

    def test_what_is_stated_of_columns(self):
        for stated, told in (('columns = "time Fr"', "asc.columns: there is no column `channels`"),
                             ('columns = "time channels slot cycle header_crc"', "it wants one of payload_bytes, payload_words"),
                             ('columns = "time channels slot cycle header_crc payload_bytes payload_words"', "it wants one of"),
                             ('columns = "time channels slot cycle header_crc payload_bytes slot"', "a column is there twice"),
                             ("columns = 3", "asc.columns: 3 is not a text of names of columns"),
                             ('hexadecimal = "slot data"', "asc.hexadecimal: `data` is none of slot, payload_bytes, header_crc, cycle"),
                             ("sums_are_exact = 1", "asc.sums_are_exact: 1 is not true or false"),
                             ("column = 3", "asc.column: there is no such key; did you mean `columns`?")):
            self.write("net.toml", SHORT + OBSERVER + "[asc]\n" + stated + "\n")
            self.assertIn(told, self.refused([]))


if __name__ == "__main__":
    unittest.main()
