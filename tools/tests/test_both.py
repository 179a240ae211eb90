"""Two logs of one history: of right logs each number that flexlab holds has the truth of the run in both; a node that sends each analyzer
something else, a wrong delay limit, a wrong drift and a wrong pairing are told. FLEXLAB_BOTH_LOGS is how many pairs are drawn (4)."""
import json
import os
import random
from fractions import Fraction

from bench import Bench, edited
from flexlab.base.files import parameter_lines
from flexlab.captures import both, observing, packets
from flexlab.program import report
from flexlab.toml.cluster import read_cluster
from flexray import texts
from test_logs import MICROS, instants

LOGS = int(os.environ.get("FLEXLAB_BOTH_LOGS", "4"))
SHORT = edited(("double_cycles = 200", "double_cycles = 20"))
COLUMNS = ("--columns", "time=Time,channel=Channel,bytes=Data", "--time-unit", "ns")
# The example's nodes have the key slots of their numbers, and slots of 50 macroticks.
NODES = (1, 2, 3, 4)


def stated(low=0, high=300, resolution=1, drift=20, more=""):
    return (f"\n[observer]\nresolution_ns = {resolution}\ndrift_ppm = {drift}\njitter_ns = 2\ndelay_from_ns = {low}\n"
            f"delay_to_ns = {high}\n{more}")


class Both(Bench):
    """The frames of a run, as two analyzers stamp them."""

    def send(self, text=SHORT):
        self.write("net.toml", text)
        self.flexlab("pcap", "net.toml", "-o", "sent")
        self.sent = packets.read_capture(self.path("sent", "sent.pcap"))[1]
        zero, count, cycles = self.sent[0].ns, 0, []
        for packet in self.sent:
            # Frames go up in time, so a count goes up with them.
            count += (packet.frame[4] - count) % 64
            cycles.append(count)
        self.frames = [(packet.ns - zero, packet.channel, packet.frame, cycle) for packet, cycle in zip(self.sent, cycles)]

    def table(self, name, delay, ppm=0, base=0, taken=lambda cycle: True, resolution=1):
        """The table of an analyzer: `delay` has that of a node on a channel in a cycle, in ns, and its clock is so many ppm fast."""
        rows = sorted((base + int((ns + delay(data[1], channel, cycle)) * (1 + Fraction(ppm, 10**6))) // resolution * resolution, channel,
                       data.hex()) for ns, channel, data, cycle in self.frames if taken(cycle))
        self.write(name, "Time,Channel,Data\n" + "".join(f"{ns},{channel},{data}\n" for ns, channel, data in rows))

    def observe(self, *words, status=(0, 1), out="seen"):
        return self.flexlab("observe", "a.csv", "a.toml", "--second", "b.csv", "b.toml", *COLUMNS, "-o", out, *words, status=status)

    def both(self, *words):
        found = json.loads(self.observe("--json", *words)[0])
        part, = found["both"]["parts"]
        return part

    def states(self, one, two, text=SHORT):
        self.write("a.toml", text + one)
        self.write("b.toml", text + two)

    def test_logs_that_are_right(self):
        """Nothing is apart, and each number is where both logs have it."""
        self.send()
        cycles = report.read_trace(self.path("sent", "trace.csv"))
        for seed in range(LOGS):
            draw = random.Random(seed)
            with self.subTest(seed=seed):
                heads = []
                for name in "ab":
                    low, breadth, resolution = draw.randrange(400), draw.randrange(2, 400), draw.choice([1, 10, 100])
                    own = {(node, channel): low + draw.randrange(breadth - 1) for node in range(6) for channel in "AB"}
                    chance, drift = random.Random(seed), draw.choice([0, 20, 100])
                    heads.append(stated(low, low + breadth, resolution, drift))
                    self.table(f"{name}.csv", lambda node, channel, _: own[node % 6, channel] + chance.randrange(3), resolution=resolution,
                               ppm=draw.randint(-drift, drift), base=draw.randrange(10**9), taken=lambda _: chance.random() > 0.05)
                self.states(*heads)
                part = self.both()
                self.assertEqual((part["apart"], part["nodes"], part["other_shift"]), ([], [], None))
                self.assertGreater(part["held"]["distance"], 150)
                self.hold(cycles)

    def hold(self, cycles):
        """Holds each number against the trace of the run."""
        witnesses = []
        for name, folder in (("a", "seen"), ("b", os.path.join("seen", "second"))):
            told = report.understood(texts.observation, "log", self.read(folder, "observed.csv"))
            witnesses.append(both.Witness(read_cluster(self.path(f"{name}.toml")), observing.Part(None, told, self.path(folder))))
        for number in both.numbers(*witnesses, 0):
            (kind, node, other), row = number.subject, cycles[number.cycle][number.subject.node]
            if kind == "distance":
                rows = [instants(cycles[number.cycle][one], number.cycle)[(one - 1) * 50 + 10] for one in (node, other)]
                truth = rows[1] - rows[0]
            elif kind == "length":
                truth = (MICROS + row.rate) * row.length
            elif kind == "offset":
                truth = row.offset
            else:
                lengths = [(MICROS + one.rate) * one.length for one in (cycles[number.cycle - 1][node], cycles[number.cycle + 1][node])]
                truth = lengths[1] - lengths[0]
            for limits in (number.one, number.two):
                self.assertTrue(limits.low <= truth <= limits.high, (number, truth))

    def test_a_node_that_tells_each_analyzer_something_else(self):
        self.send()
        self.states(stated(), stated(300, 600, drift=50))
        for late in (700, -700):
            self.table("a.csv", lambda node, channel, cycle: 150 + late * (node == 3 and cycle >= 20))
            self.table("b.csv", lambda node, channel, cycle: 450, ppm=30, base=5 * 10**8)
            page = self.one_line(self.observe(status=1)[0])
            self.assertIn("240 distances of action points, 80 lengths of cycles, 76 offset terms, 76 changes of lengths are limited by "
                          "both logs", page)
            self.assertRegex(page, r"APART cycle 19, node 3: an offset term of -?\d+ to -?\d+ microticks, and by the second log of "
                                   r"-?\d+ to -?\d+; so \d of 19 times; before that they met 9 times")
            self.assertRegex(page, r"cycle 20, nodes 1 and 3: their action points are \d+\.\d+ to \d+\.\d+ us apart, and by the second "
                                   r"log \d+\.\d+ to \d+\.\d+ us; so 20 of 40 times; before that they met 20 times")
            self.assertIn("Which node 3 has part in all of that", page)
            self.assertIn("Together NO: no history of this cluster gives both logs", page)
            self.assertIn("some of it met before, so it changed", page)
            self.assertNotIn("nodes 1 and 2", page)
            part = self.both()
            self.assertEqual(part["nodes"], [3])
            self.assertEqual({(one["node"], one["other"]) for one in part["apart"] if one["kind"] == "distance"}, {(1, 3), (2, 3), (3, 4)})
            rows = self.read("seen", "both.csv").splitlines()
            self.assertEqual(len(rows) - 1, sum(one["times"] for one in part["apart"]))
            self.assertIn("1,distance,20,1,3,", "\n".join(rows))

    def test_a_delay_limit_that_is_wrong(self):
        """All its pairs are apart from the first cycle on, and its terms are not."""
        self.send()
        self.states(stated(), stated(more='[[observer_delay]]\nnodes = 2\nfrom_ns = 900\nto_ns = 1000\n'))
        for name in ("a.csv", "b.csv"):
            self.table(name, lambda node, channel, cycle: 150)
        page = self.one_line(self.observe(status=1)[0])
        self.assertRegex(page, "APART cycle 0, nodes 1 and 2: .* so 40 of 40 times; they never met before")
        self.assertIn("Which node 2 has part in all of that", page)
        self.assertNotIn("it changed", page)
        part = self.both()
        self.assertEqual({(one["kind"], one["node"], one["other"], one["times"]) for one in part["apart"]},
                         {("distance", 1, 2, 40), ("distance", 2, 3, 40), ("distance", 2, 4, 40)})

    def test_a_clock_that_drifts_more(self):
        """Then the lengths of all nodes are apart, and no node is named."""
        self.send()
        self.states(stated(), stated())
        self.table("a.csv", lambda node, channel, cycle: 150, ppm=-20)
        self.table("b.csv", lambda node, channel, cycle: 150, ppm=80)
        part = self.both()
        self.assertEqual({one["node"] for one in part["apart"] if one["kind"] == "length"}, set(NODES))
        self.assertEqual(part["nodes"], [])

    def test_logs_that_begin_apart(self):
        text = edited(("double_cycles = 200", "double_cycles = 60"))
        self.send(text)
        self.states(stated(), stated(), text)
        self.table("a.csv", lambda node, channel, cycle: 150)
        self.table("b.csv", lambda node, channel, cycle: 150, taken=lambda cycle: cycle >= 68)
        part = self.both()
        self.assertTrue(part["apart"])
        self.assertEqual(part["other_shift"], 64)
        self.assertIn("Shift with --shift 64 no offset term would be apart", self.one_line(self.observe(status=1)[0]))
        part = self.both("--shift", "64")
        self.assertEqual((part["apart"], part["held"]["offset"]), ([], 4 * 25))
        self.assertIn("where 64 is added to the cycles of the second", self.one_line(self.observe("--shift", "64")[0]))
        page = self.one_line(self.observe("--shift", "-640", status=1)[0])
        self.assertIn("Together nothing is held: no double cycle is in both logs", page)
        told = self.observe("--shift", "5", status=2)[1]
        self.assertIn("'5' is no multiple of 64", told)

    def test_frames_that_are_damaged_late_or_twice(self):
        """Frames have the numbers that flexray gives them, or flexlab ends in status 8."""
        self.send()
        self.states(stated(), stated())
        draw, spoilt = random.Random(1), []
        for ns, channel, data, cycle in self.frames:
            chance = draw.randrange(12)
            if chance == 0:
                spoilt.append((ns, channel, data[:-1] + bytes([data[-1] ^ 1]), cycle))
            elif chance == 1:
                spoilt += [(ns, channel, data, cycle), (ns + draw.choice([1, 3 * 10**6, 4 * 10**7]), channel, data, cycle)]
            elif chance == 2:
                spoilt.append((ns, "B" if channel == "A" else "A", data, cycle))
            elif chance > 3:
                spoilt.append((ns, channel, data, cycle))
        self.table("b.csv", lambda node, channel, cycle: 150)
        self.frames = spoilt
        self.table("a.csv", lambda node, channel, cycle: 150)
        self.assertGreater(self.both()["held"]["distance"], 50)

    def test_parts_and_other_clusters(self):
        self.send()
        self.states(stated(), stated())
        self.table("a.csv", lambda node, channel, cycle: 150)
        self.table("b.csv", lambda node, channel, cycle: 150 + 2 * 10**8 * (cycle > 20))
        page = self.one_line(self.observe(status=1)[0])
        self.assertIn("Both nothing is held: the logs have not as many parts; cut the files", page)
        self.table("a.csv", lambda node, channel, cycle: 150 + 2 * 10**8 * (cycle > 20))
        found = json.loads(self.observe("--json")[0])
        self.assertEqual([part["apart"] for part in found["both"]["parts"]], [[], []])
        self.assertEqual(len(found["second"]["parts"]), 2)
        self.write("b.toml", SHORT.replace("gdActionPointOffset = 10", "gdActionPointOffset = 11") + stated())
        told = self.observe(status=5)[1]
        self.assertIn("b.toml: it is another cluster than that of a.toml: param,gdActionPointOffset,11,, where that one has "
                      "param,gdActionPointOffset,10,,", told)

    def test_a_microtick_of_another_length(self):
        """The counts are the same, and ticks of the second log would be others."""
        other = edited(("microtick_ns = 25", "microtick_ns = 50"), ("delay_error_us = 0.0125", "delay_error_us = 0.025"), text=SHORT)
        self.states(stated(), "")
        self.assertEqual(*([*parameter_lines(read_cluster(self.write("b.toml", text)))] for text in (SHORT, other + stated())))
        for name in ("a.csv", "b.csv"):
            self.write(name, "")
        self.assertIn("b.toml: it is another cluster than that of a.toml: a microtick of 50 ns where that one has 25 ns",
                      self.observe(status=5)[1])

    def test_a_shift_of_no_second_log(self):
        for name in ("a.toml", "a.csv"):
            self.write(name, "")
        for cycles in ("64", "0"):
            told = self.flexlab("observe", "a.csv", "a.toml", *COLUMNS, "--shift", cycles, status=2)[1]
            self.assertIn("--shift is of a second log, and no --second names one", told)


if __name__ == "__main__":
    from unittest import main
    main()
