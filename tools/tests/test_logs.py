"""Logs of an analyzer, from captures and tables: runs go through `flexlab pcap` and `flexlab observe`, and each limit
is held against the trace. FLEXLAB_OBSERVE_CLUSTERS is how many clusters are taken (6), and FLEXLAB_OBSERVE_ROWS of how many random
logs the page is held against the rows (80)."""
import contextlib
import gzip
import io
import json
import os
import random
import re
import struct
import subprocess
import unittest
from fractions import Fraction
from types import SimpleNamespace

import test_judged
import test_observe
from bench import EXAMPLE, REPOSITORY, Bench, edited, needs
from flexray import texts
from flexray.results import ObservedFault, ObservedMissed, ObservedSender
from flexlab.captures import observed, observer, observing, packets
from flexlab.program import report
from flexlab.captures.frames import frame_bytes

CLUSTERS = int(os.environ.get("FLEXLAB_OBSERVE_CLUSTERS", "6"))
ROWS = int(os.environ.get("FLEXLAB_OBSERVE_ROWS", "80"))
SHORT = edited(("double_cycles = 200", "double_cycles = 10"))
OBSERVER = """
[observer]
resolution_ns = 10
drift_ppm = 20
delay_from_ns = 100
delay_to_ns = 200
"""


class Cluster:
    """What words of contradictions and of a verdict ask of a cluster."""
    microtick_ns = Fraction(25)
    nodes = {}
    arbitrary = ()

    @staticmethod
    def called(number):
        return str(number)


MICROTICK_NS, MACROS, MICROS, TURN = 25, 5000, 200000, 4900


def instants(row, cycle):
    """When a node has each macrotick of a cycle, in ticks."""
    micros, last = MICROS + row.rate, TURN if cycle % 2 else MACROS
    base = TURN * micros // MACROS
    return [row.start + row.length * (at * micros // MACROS if at <= last else
                                      base + (at - TURN) * (micros + row.offset - base) // (MACROS - TURN))
            for at in range(MACROS)]


class Rows(Bench):
    """The page of a log says what its rows say."""
    run_of = test_observe.Observed.run_of

    def told(self, seed):
        """What flexray tells of a random log, with what pages ask of its cluster."""
        draw = random.Random(seed)
        drawn = self.run_of(draw, False, seed % 3 > 0)
        analyzer = test_observe.Analyzer(draw, drawn)
        stated = [f"since,{draw.randrange(3) * 2},,,\n"] * (seed % 4 == 1)
        entries = analyzer.entries(analyzer.rates[0], analyzer.zero, "AB", draw.choice([0, 0, 0.2])) if seed % 2 else analyzer.see(False)
        self.write("log.csv", analyzer.log(entries, *stated))
        rows = [line.split(",") for line in drawn.params().splitlines()]
        cluster = Cluster()
        cluster.nodes = {int(row[1]): SimpleNamespace(key_slot=row[2]) for row in rows if row[0] == "node"}
        return cluster, texts.observation(self.flexray("observe", "params.csv", "log.csv")[1])

    def of_production(self, seed):
        """The same of a log of production shape, some frames of which are not there, or wrong."""
        log = test_judged.Log(seed)
        draw, nodes = log.draw, log.network.nodes
        lost = {(draw.randrange(9), draw.choice(nodes)) for _ in range(draw.choice([0, 0, 1, 5, 60]))}
        errors = {(draw.randrange(9), draw.choice(nodes)): draw.choice([6, 8, 50]) for _ in range(draw.choice([0, 1]))}
        log.rows = log.network.rows(lambda *at: errors.get(at, 0))
        stated = draw.choice(["", f"since,{draw.randrange(3) * 2},,,\n", *[f"lost,{draw.randrange(1, 4)},,,\n"] * 3,
                              "arbitrary,1,,,\nlost,1,,,\n"])
        self.write("log.csv", log.text(lambda *at: at in lost, stated, whole=draw.random() < 0.5))
        self.write("params.csv", log.params(pOffsetCorrectionOut=draw.choice([20, 127, 127])) + "node,60,,A,0\n" * (seed % 7 == 0))
        cluster = Cluster()
        cluster.nodes = {node + 1: SimpleNamespace(key_slot=slot) for node, slot in enumerate(log.network.slots)}
        cluster.nodes[60] = SimpleNamespace(key_slot=None)
        return cluster, texts.observation(self.flexray("observe", "params.csv", "log.csv")[1])

    def test_no_word_is_against_a_row(self):
        said = set()
        for seed in range(ROWS):
            with self.subTest(seed=seed):
                cluster, told = self.of_production(seed) if seed % 2 else self.told(seed // 2)
                lines = observed.skew_lines(cluster, told) + observed.verdict_lines(cluster, told) + observed.fault_lines(cluster, told)
                self.hold(told, self.one_line("\n".join(lines)))
                said |= {told.verdict[0], told.sync[1], told.sync[4], *(["missed"] if "Missed" in "".join(lines) else [])}
        if ROWS >= 80:
            self.assertLessEqual({"no", "over", "open", "within", "partly", "judged", "unseen", "count", "missed"}, said)

    def test_rows_that_may_follow_from_others(self):
        """Of starts, lengths and clocks, behind a term of the double cycle before alone."""
        def of(kind, cycle):
            return words.of(ObservedFault(cycle, None, kind, ("80000000", "-", "-", "40000000")))
        for term, told, kinds in (("offset", "offset term", ("start", "skew")), ("rate", "change of the rate term", ("lengths", "skew"))):
            faults = (ObservedFault(7, 2, term, ("5", "6", "1", "3")),)
            words = observed.Words(Cluster, SimpleNamespace(missed=(), faults=faults, senders=(), last=19))
            for kind in ("start", "lengths", "skew"):
                said = f"at most 1.000 us (which may follow from the {told} of cycle 7)"
                self.assertEqual(said in of(kind, 8), kind in kinds)
                self.assertEqual([("follow" in of(kind, cycle)) for cycle in (6, 7, 9, 10)], [False, False, kind in kinds, False])

    def test_a_node_that_is_gone(self):
        """From which cycle on, at its first row alone; and that the others are not listed, where that is so."""
        def told(last, *rows):
            faults = [ObservedFault(cycle, 2, "missing", (channel, "-", "-", "-")) for cycle, channel in rows]
            senders = [ObservedSender(2, "A", 9, 0, last, 3), ObservedSender(2, "B", 9, 0, 19, 3)]
            words = observed.Words(Cluster, SimpleNamespace(missed=(), faults=faults, senders=senders, last=19))
            return [words.told(fault).removeprefix("its frame on channel ") for fault in faults]
        gone, alone = "A is not there: missing from cycle 8 to the end", "; the first double cycle alone is listed"
        self.assertEqual(told(7, (8, "A"), (9, "A")), [gone + alone, "A is not there"])
        self.assertEqual(told(7, (8, "A"), (8, "B"), (10, "A")), [gone, "B is not there", "A is not there"])
        self.assertEqual(told(17, (18, "A")), [gone.replace("8", "18")])
        self.assertEqual(told(8, (8, "B")), ["B is not there"])
        self.assertEqual(told(12, (8, "A")), ["A is not there"])

    def test_cycles_in_runs(self):
        for numbers, said in (([1, 2, 3, 9], ", 1 to 3, then 9"), ([4], ", 4"), ([1, 3, 5, 7], ", 1, then 3, then 5, then 7"),
                              ([1, 3, 5, 7, 20], ", of double cycles 0 to 3, then 10"),
                              ([1, 5, 9, 13, 17, 21], ", of double cycles 0, then 2, then 4, then 6, and 2 more runs to 10")):
            self.assertEqual(observed.runs_words(numbers), said)

    def hold(self, told, page):
        words = {word: [row.cycle for row in told.cycles if row.says == word] for word in ("within", "over", "open")}
        self.assertEqual(bool(re.search(r"OVER in", page)), bool(words["over"]), page)
        if found := re.search(r"OVER in (\d+) cycles?,( of double cycles)? (\d[^a-z]*(?:(?:to|then) [^a-z]*)*)(and \d+ more runs to \d+, )?the "
                              "clocks", page):
            named = {number for run in re.findall(r"(\d+)(?: to (\d+))?", found[3]) for number in range(int(run[0]), int(run[1] or run[0]) + 1)}
            over = {cycle // 2 for cycle in words["over"]} if found[2] else set(words["over"])
            self.assertEqual(int(found[1]), len(words["over"]))
            self.assertEqual(named, {cycle for cycle in over if cycle <= max(named)} if found[4] else over, page)
            begins = {told.cycles[0].cycle // 2, *(row.double for row in told.spreads[:1])}
            self.assertEqual("may be of a startup" in page, words["over"][0] // 2 in begins)
        self.assertEqual(found is not None, bool(words["over"]), page)
        if found := re.search(r"at least (\S+) us in cycle (\d+); at most (\S+) us", page):
            self.assertLessEqual(Fraction(found[1]), Fraction(found[3]), page)
        verdict = page.split("Verdict ")[1]
        self.assertTrue(verdict.startswith({"no": "NO:", "over": "OVER:", "open": "open:", "within": "in cycles", "partly": "partly:"}[
            told.verdict[0]]), page)
        self.assertEqual("CONTRADICTION" in page, verdict.startswith("NO:"))
        self.assertEqual("nothing contradicts what is stated" in verdict, told.verdict[0] != "no" and told.judged > 0)
        self.assertEqual("no correction is held against the rules" in verdict, told.verdict[0] != "no" and told.judged == 0)
        if found := re.match(r"OVER: in (\d+) cycles? .*; the last is cycle (\d+), with (\d+) cycles? within the precision behind it;", verdict):
            self.assertEqual(tuple(map(int, found.groups())), (int(told.verdict[3]), words["over"][-1],
                                                               sum(cycle > words["over"][-1] for cycle in words["within"])))
        self.assertEqual(found is not None, told.verdict[0] == "over")
        if found := re.match(r"in cycles (\d+) to (\d+) the clocks", verdict):
            self.assertEqual(set(range(int(found[1]), int(found[2]) + 1)) - set(words["within"]), set())
        rows = {row.double: row for row in told.spreads}
        if found := re.match(r"partly: of the judged ones of cycles (\d+) to (\d+) .* precision in (\d+), for certain; of (\d+) it", verdict):
            begin, end, *counts = map(int, found.groups())
            self.assertEqual([sum(begin <= cycle <= end and cycle // 2 in rows for cycle in words[word]) for word in ("within", "open")], counts)
        if found := re.match(r"open: .*; in (\d+) cycles? the clocks", verdict):
            self.assertEqual(int(found[1]), len(words["within"]))
        self.assertEqual(found is not None, told.verdict[0] == "open")
        judged = re.search(r"Judged (\d+) of (\d+) double cycles", page)
        self.assertEqual((int(judged[1]), int(judged[2])), (told.judged, told.doubles))
        self.assertEqual("no double cycle is judged" in page, told.judged == 0 and told.verdict[0] != "no")
        if found := re.search(r"from double cycle (\d+) on; no macroticks of these lie further apart than (\S+) us \(double cycle (\d+)\)", page):
            self.assertEqual(min(rows), int(found[1]))
            most = max(row.apart for row in told.spreads)
            self.assertEqual(rows[int(found[3])].apart, most)
            self.assertLessEqual(most, Fraction(found[2]) * 40 * 1_000_000)
        # Of a log that no run gives no such number is told.
        self.assertEqual(found is not None, bool(rows) and not told.faults)
        # What is advised would change something.
        self.assertTrue("can state where" not in page or (told.sync[4] not in ("count", "lost") and told.cycles), page)
        # Each row of what was missed is there once, with a contradiction or without.
        faults = {(fault.cycle, fault.node, fault.kind) for fault in told.faults}
        alone = [row for row in told.missed if (row.cycle, row.node, row.kind) not in faults]
        self.assertEqual(len(re.findall(r"it missed at least \d+ senders?, by", page)), min(len(alone), observed.MOST_FAULTS))
        self.assertTrue(all(row.least is not None and row.least <= told.lost for row in alone))
        self.assertEqual(observing.status_of(told, None), 0 if told.verdict[0] == "within" else 1)
        if told.verdict[0] in ("within", "partly"):
            self.assertEqual(observing.status_of(told, told.judged), 0)
        with contextlib.redirect_stderr(io.StringIO()) as line:
            self.assertEqual(observing.status_of(told, told.judged + 1), 1 if told.verdict[0] in ("no", "over") else 7)
        self.assertEqual(bool(line.getvalue()), told.verdict[0] not in ("no", "over"))


class Steps(unittest.TestCase):
    def test_rounding_outwards(self):
        for value in (Fraction(1, 3), Fraction(-1, 3), Fraction(1, 2000), Fraction(-1, 2000), Fraction(0), Fraction(5)):
            low, high = Fraction(observed.lower(value)), Fraction(observed.upper(value))
            self.assertTrue(low <= value <= high and high - low <= Fraction(1, 1000), value)
        self.assertEqual((observed.lower(Fraction(-1, 3)), observed.upper(Fraction(-1, 3))), ("-0.334", "-0.333"))
        self.assertEqual((observed.lower(Fraction(1, 3)), observed.upper(Fraction(1, 3))), ("0.333", "0.334"))

    def units(self, resolution, step, microtick, error=0):
        stated = observer.Observer(Fraction(resolution), 20, Fraction(error), None, {})
        return observer.step_ticks(stated, Fraction(step), Fraction(microtick))

    def test_units_of_a_log(self):
        self.assertEqual(self.units(1, 1, 25), (40000, 0))
        self.assertEqual(self.units(10, 1, 25), (40000, 360000))
        self.assertEqual(self.units(1, 1000, 25), (40000000, 0))
        self.assertEqual(self.units(1, 1, 25, 2), (40000, 80000))
        # A resolution that is no number of steps, and a step that is none of resolutions: a stamp was rounded twice.
        self.assertEqual(self.units(Fraction(25, 2), 1, 25), (40000, 500000))
        self.assertEqual(self.units(Fraction(3, 10), 1, 25), (40000, 12000))
        # A step of a part of a tick: stamps are rounded down to units.
        self.assertEqual(self.units(1, 1, 30), (33333, 33334))


@needs("tshark")
class Logs(Bench):
    def sent(self, text=SHORT + OBSERVER):
        self.write("net.toml", text)
        self.flexlab("pcap", "net.toml", "-o", "sent")
        return self.path("sent", "sent.pcap")

    def observed(self, name, *words, folder="seen"):
        return json.loads(self.flexlab("observe", "--json", "-o", folder, *words, name, "net.toml", status=(0, 1))[0])

    def hold(self, found):
        """Holds each limit against the trace of the run, and hands back how many there are."""
        cycles, held = report.read_trace(self.path("sent", "trace.csv")), 0
        unit = Fraction(MICROTICK_NS, 10**9)
        for row in found["cycles"]:
            nodes = [int(node) for node, rows in found["nodes"].items()
                     if any(told["double_cycle"] == row["cycle"] // 2 for told in rows)]
            self.assertEqual(len(nodes), row["senders"])
            if nodes:
                points = [instants(cycles[row["cycle"]][node], row["cycle"]) for node in nodes]
                skew = max(max(at) - min(at) for at in zip(*points)) * unit
                self.assertLessEqual(row["least_us"] - 1e-9, skew, row)
                self.assertTrue(row["most_us"] is None or skew <= row["most_us"] + 1e-9, row)
                held += 1
        for node, rows in found["nodes"].items():
            for told in rows:
                held += self.hold_node(told, *(cycles[2 * told["double_cycle"] + odd][int(node)] for odd in (0, 1)))
        return held

    def hold_node(self, told, even, odd):
        # The clock that stamps is true here.
        for row in (even, odd):
            ppm = Fraction(MICROS * 10**12, (MICROS + row.rate) * row.length) - 10**6
            self.assertTrue(told["least_ppm"] - 1e-9 <= ppm <= told["most_ppm"] + 1e-9, told)
        if told["least_offset"] is not None:
            self.assertTrue(told["least_offset"] <= odd.offset <= told["most_offset"], told)
        return 2

    def test_runs_through_both(self):
        held = 0
        for seed in range(CLUSTERS):
            draw = random.Random(seed)
            text = edited(("double_cycles = 200", f"double_cycles = {draw.randrange(3, 12)}"),
                          ("drift = 150", f"drift = {draw.randrange(190)}"))
            low = draw.randrange(300)
            text += (f"[observer]\nresolution_ns = {draw.choice([1, 10, 12.5, 100, 1000])}\n"
                     f"drift_ppm = {draw.choice([0, 20])}\njitter_ns = {draw.choice([0, 5])}\n"
                     f"delay_from_ns = {low}\ndelay_to_ns = {low + draw.randrange(200)}\n"
                     f"[[observer_delay]]\nnodes = 2\nchannels = \"{draw.choice(['A', 'B', 'AB'])}\"\n"
                     "from_ns = 20\nto_ns = 40\n")
            if draw.random() < 0.5:
                text += '[[join]]\nnode = 4\nreference = 1\ndouble_cycle = 1\n'
            if draw.random() < 0.5:
                text += '[[lose]]\nfrom = 1\nto = 2\ncycles = "2-3"\nchannels = "AB"\n'
            with self.subTest(seed=seed):
                found = self.observed(self.sent(text))
                self.assertEqual(found["log"]["judged"], found["entries"])
                self.assertEqual((found["faults"], found["differs"], found["blame"], found["first"], found["anew_s"]), ([], [], [], None, None))
                # Clocks may begin further apart than the precision.
                self.assertIn(found["verdict"][0], ("within", "partly", "open", "over"))
                held += self.hold(found)
        self.assertGreater(held, 30 * CLUSTERS)

    def test_the_page(self):
        page = self.one_line(self.flexlab("observe", "-o", "seen", self.sent(), "net.toml", status=1)[0])
        self.assertIn("Log sent.pcap: 160 frames of key slots Cluster 6 nodes, 5 with a key slot; cycles of 5.000 ms; a microtick is 25 ns; no "
                      "frame is used of what the file names arbitrary: node 6", page)
        self.assertIn("Analyzer stamps of 10 ns, its clock within 20 ppm, delays from 100 to 200 ns", page)
        self.assertIn("Frames 160 say where a clock was, 0 are damaged", page)
        self.assertIn("Left out 40 frames of static slots that are no key slots", page)
        self.assertIn("Cycles 0 to 19, by the cycle counts: 17 within the precision, 0 over it, 3 open (1, 3 and 19), the last since no next "
                      "double cycle shows its end", page)
        self.assertIn("Precision 4.256 us, the sharp one beside arbitrary nodes where delays flutter by no more than 25 ns: a yardstick, which "
                      "is promised where the checks of flexray bound params.csv sharp 1000000 hold", page)
        self.assertIn("Judged 0 of 10 double cycles, since node 5 has no key slot, so no frame shows its clock; it moves no clock, so leave it "
                      "out of the file; or in_sync_from_cycle of [observer] can state where the cluster is in sync Verdict open: no double "
                      "cycle is judged, since node 5 has no key slot, so no frame shows its clock, so no correction is held against the "
                      "rules; in 17 cycles the clocks of the nodes that sent lay within the precision, for certain", page)
        self.assertNotIn("Not seen", page)
        text = self.flexray("observe", "seen/params.csv", "seen/log.csv")[1]
        self.assertEqual(text, self.read("seen", "observed.csv"))
        self.assertIn("Precision       4.256 us, the sharp one beside", self.read("seen", "observed.txt"))

    def test_what_is_stated_of_the_analyzer(self):
        path = self.sent(SHORT + OBSERVER + "error_ns = 2.5\njitter_ns = 5\nflutter_ns = 12.5\nlost = 2\n")
        told = self.one_line(self.flexlab("log", "-o", "log.csv", path, "net.toml")[0])
        self.assertIn("stamps of 10 ns, off by 2.5 ns in all beside, its clock within 20 ppm, delays from 100 to 200 "
                      "ns, those of a node within 5 ns; a delay from node to node keeps within 12.5 ns in a double cycle; a node may miss 2 "
                      "senders in each double cycle", told)
        # In units of 1 ns: 9 ns of the resolution are left, and the error.
        wanted = ("unit,40000,,,\ndrift,20,,,\nerror,460000,,,\njitter,200000,,,\nflutter,500000,,,\nlost,2,,,\narbitrary,6,,,\n"
                  "delay,1,A,4000000,8000000\n")
        self.assertEqual(self.read("log.csv")[:len(wanted)], wanted)

    def test_clocks_that_begin_far_apart(self):
        path = self.sent(SHORT.replace("start_us = 1.5", "start_us = 20") + OBSERVER)
        page = self.one_line(self.flexlab("observe", "-o", "seen", path, "net.toml", status=1)[0])
        self.assertRegex(page, r"OVER in 20 cycles, 0 to 19, the clocks of the nodes that sent lay further apart than the precision, for "
                               r"certain; cycles at the begin of a log may be of a startup, before the clocks are in sync: --from leaves ")
        self.assertRegex(page, r"Verdict OVER: in 20 cycles .*; the last is cycle 19, with 0 cycles within the precision behind it; no double "
                               r"cycle is judged, so no correction is held against the rules")
        found = json.loads(self.flexlab("observe", "--json", "-o", "seen", path, "net.toml", status=1)[0])
        self.assertEqual(found["cycles"][0]["says"], "over")
        self.assertGreater(self.hold(found), 0)

    def test_double_cycles_that_are_judged(self):
        """Where each node has a key slot and stamps are fine, each double cycle is judged by what the log shows of it."""
        text = edited(("double_cycles = 200", "double_cycles = 10"),
                      ("id = 5\nchannels = \"A\"\n", "id = 5\nchannels = \"A\"\nkey_slot = 5\n"))
        path = self.sent(text + OBSERVER.replace("resolution_ns = 10", "resolution_ns = 1"))
        page = self.one_line(self.flexlab("observe", "-o", "seen", path, "net.toml", status=1)[0])
        self.assertIn("Judged 10 of 10 double cycles, by what is seen and known of them, from double cycle 0 on; no macroticks of these lie "
                      "further apart than", page)
        self.assertRegex(page, r"Verdict partly: of the judged ones of cycles 0 to 19 the clocks of the nodes that sent lay within the precision "
                               r"in \d+, for certain; of \d it is not certain; nothing contradicts what is stated")
        # From the third double cycle on they are in sync.
        page = self.one_line(self.flexlab("observe", "-o", "seen", "--from", "0.0199", path, "net.toml")[0])
        self.assertIn("Judged 8 of 8 double cycles, by what is seen and known of them, from double cycle 2 on", page)
        self.assertIn("Verdict in cycles 4 to 18 the clocks of the nodes that sent lay within the precision; nothing contradicts what is "
                      "stated; node 6 was NOT checked: the file names it arbitrary ", page)

    def test_a_cluster_of_production_shape(self):
        """It is judged by what is seen of it; a node that drops out is told of, too."""
        with open(os.path.join(REPOSITORY, "examples", "sharp", "sharp.toml"), encoding="utf-8") as file:
            text = file.read().replace("double_cycles = 60", "double_cycles = 12") + OBSERVER + "jitter_ns = 5\nmissed_none = true\n"
        path = self.sent(text)
        page = self.one_line(self.flexlab("observe", "-o", "seen", path, "net.toml", status=1)[0])
        self.assertIn("Judged 12 of 12 double cycles, by what is seen and known of them, from double cycle 0 on; no macroticks of these lie "
                      "further apart than", page)
        self.assertNotIn("Numbers", page)
        # Its clocks begin 2 us apart, and the sharp precision is 2.4.
        self.assertRegex(page, r"Verdict partly: of the judged ones of cycles 0 to 23 .* lay within the precision in 22, for certain")
        self.flexlab("observe", "-o", "seen", "--require", "judged=12", path, "net.toml")
        found = json.loads(self.flexlab("observe", "--json", "-o", "seen", path, "net.toml", status=1)[0])
        self.assertEqual([row["double_cycle"] for row in found["spreads"]], list(range(12)))
        self.assertTrue(all(row["apart_us"] >= row["apart"] * 25 / 10**9 for row in found["spreads"]))
        made = [(packet.ns, packet.channel, packet.frame) for packet in packets.read_capture(path)[1]
                if packet.frame[1] != 3 or packet.frame[4] & 63 < 11]
        packets.write_capture(self.path("less.pcap"), made)
        page = self.one_line(self.flexlab("observe", "-o", "seen", "less.pcap", "net.toml", status=1)[0])
        self.assertIn("Verdict NO: no run of this cluster that keeps to what is stated, in which correct nodes hear each other in each double "
                      "cycle and whose frames come", page)
        self.assertRegex(page, r"CONTRADICTION cycle 11, node \d: its frame on channel A is not there")

    def test_a_node_that_drops_out(self):
        """Where the analyzer missed nothing, that is told in the cycle in which it is so, and without that it is not."""
        path = self.sent(SHORT + OBSERVER + "missed_none = true\nin_sync_from_cycle = 4\n")
        made = [packet for packet in packets.read_capture(path)[1]
                if packet.frame[1] != 3 or packet.frame[4] & 63 < 11]
        packets.write_capture(self.path("less.pcap"), [(packet.ns, packet.channel, packet.frame) for packet in made])
        page = self.one_line(self.flexlab("observe", "-o", "seen", "less.pcap", "net.toml", status=1)[0])
        self.assertIn("it missed no frame; the cluster is in sync in the double cycle of cycle 4", page)
        self.assertIn("Verdict NO: no run of this cluster", page)
        self.assertRegex(page, r"CONTRADICTION cycle 11, node \d: its frame on channel A is not there")
        self.assertRegex(page, r"Not seen node \d on channel A in 9 cycles; of its frames the last in cycle 10 ")
        found = json.loads(self.flexlab("observe", "--json", "-o", "seen", "less.pcap", "net.toml", status=1)[0])
        self.assertEqual((found["faults"][0]["cycle"], found["faults"][0]["kind"]), (11, "missing"))
        self.write("net.toml", SHORT + OBSERVER)
        self.assertEqual(self.observed("less.pcap")["faults"], [])
        # Where sync is stated and it is not told whether frames were missed, the cycle before the gap is open.
        self.write("net.toml", SHORT + OBSERVER + "in_sync_from_cycle = 4\n")
        page = self.one_line(self.flexlab("observe", "-o", "seen", "less.pcap", "net.toml", status=1)[0])
        self.assertRegex(page, r"Judged 8 of 10 double cycles, by what is seen and known of them, from double cycle 2 on; .* of the others the "
                               r"one that came farthest is not judged, since node \d")
        self.assertIn("Verdict partly: of the judged ones of cycles 4 to 19 the clocks of the nodes that sent lay within the precision in ", page)
        self.flexlab("observe", "-o", "seen", "--require", "judged=8", "less.pcap", "net.toml")
        line = self.flexlab("observe", "-o", "seen", "--require", "judged=9", "less.pcap", "net.toml", status=7)[1]
        self.assertEqual(line, "flexlab: not met: judged=9: 8 of 10 double cycles are judged\n")
        line = self.flexlab("observe", "-o", "seen", "--require", "covered", "less.pcap", "net.toml", status=2)[1]
        self.assertEqual(line, "flexlab: --require covered: it is none of judged=COUNT\n")
        # Nor where frames were left out, whatever is stated.
        self.write("net.toml", SHORT + OBSERVER + "missed_none = true\n")
        torn = [(packet.ns, packet.channel, packet.frame) for packet in made]
        torn[0] = (*torn[0][:2], torn[0][2][:-1])
        packets.write_capture(self.path("torn.pcap"), torn)
        page = self.one_line(self.flexlab("observe", "-o", "seen", "torn.pcap", "net.toml", status=1)[0])
        self.assertIn("it missed no frame, which is not taken where frames are damaged", page)
        torn[0] = (made[0].ns, made[0].channel, made[0].frame[:-1] + bytes([made[0].frame[-1] ^ 1]))
        packets.write_capture(self.path("torn.pcap"), torn)
        page = self.one_line(self.flexlab("observe", "-o", "seen", "torn.pcap", "net.toml", status=1)[0])
        self.assertIn("it missed no frame, which is not taken where frames are damaged", page)

    def test_contradictions_in_words(self):
        missed = [ObservedMissed(7, 2, "offset", 2), ObservedMissed(7, 2, "rate", None), ObservedMissed(9, 2, "rate", 1)]
        words = observed.Words(Cluster, SimpleNamespace(missed=missed, faults=(), senders=(), last=19))
        for kind, fields, told in (
                ("limit", ("1", "40000", "80000", "120000"), "both its cycles last 0.000 to 0.001 us, and one of the"),
                ("correction", ("500", "501", "-200", "200"), "an offset term of 500 to 501 microticks, and the limit is 200"),
                ("offset", ("5", "6", "1", "3"), "an offset term of 5 to 6 microticks, and by all that were seen it must be 1 to 3, 2 to 5 "
                                                 "too great, unless it missed at least 2 senders"),
                ("rate", ("5", "6", "1", "3"), "a change of the rate term of 5 to 6 microticks, and by all that were seen it must be 1 to 3"),
                ("rate", ("-9", "-6", "-5", "-5"), "and by all that were seen it must be -5, 1 to 4 too small"),
                ("skew", ("80000000", "-", "-", "40000000"), "clocks at least 2.000 us apart, and by what is known at most 1.000 us"),
                ("start", ("80000000", "9", "-", "40000000"), "starts at least 2.000 us apart, and by what is known at most 1.000"),
                ("lengths", ("80000000", "9", "-", "40000000"), "lengths of cycles at least 2.000 us apart"),
                ("length", ("40000000", "80000000", "1", "2"), "a cycle of 1.000 to 2.000 us, and by what is known one of 0.000"),
                ("channels", ("2", "1", "-", "-"), "the stamps of both channels place its clock nowhere"),
                ("twice", ("A", "4", "3", "-"), "its frame on channel A is there twice"),
                ("missing", ("B", "-", "-", "-"), "its frame on channel B is not there"),
                ("stranger", ("B", "9", "3", "-"), "a frame is in its slot 3 on channel B, which it does not have"),
                ("form", ("A", "9", "3", "-"), "the frame in its slot 3 on channel A has another payload length, or another"),
                ("cycle", ("B", "9", "63", "-"), "its frame on channel B comes at another time than its cycle count 63")):
            fault = ObservedFault(7, 2, kind, fields)
            self.assertIn(told, words.of(fault))
            self.assertTrue(words.of(fault).startswith("cycle 7, node 2: "))
            self.assertEqual("unless" in words.of(fault), kind == "offset")
        self.assertTrue(words.of(ObservedFault(9, 2, "rate", ("5", "6", "1", "3"))).endswith("unless it missed at least 1 sender"))

    def test_a_frame_of_another_form(self):
        path = self.sent()
        made = [(packet.ns, packet.channel, packet.frame) for packet in packets.read_capture(path)[1]]
        self.assertEqual(self.observed(path)["numbers"], ["sure"])
        # In the key slot of node 1, and no sync frame.
        made[21:21] = [(made[20][0], "A", frame_bytes("A", 1, 9, bytes(16), True))]
        packets.write_capture(self.path("more.pcap"), made)
        page = self.one_line(self.flexlab("observe", "-o", "seen", "more.pcap", "net.toml", status=1)[0])
        self.assertIn("Verdict NO: no run of this cluster that keeps to what is stated and whose frames come within half a cycle of "
                      "the schedule, and in which no other sender takes the ID of a node, can have given this log", page)
        self.assertRegex(page, r"CONTRADICTION cycle \d, node 1: the frame in its slot 1 on channel A has another payload length")
        self.assertNotIn("Numbers", page)

    def test_numbers_that_are_a_premise(self):
        """Where limits are so wide that clocks near each other could come half a cycle off, that is said."""
        with open(os.path.join(REPOSITORY, "examples", "observe", "observe", "printed.txt"), encoding="ascii") as file:
            text = file.read()
        for word, is_said in (("sure", False), ("premise", True)):
            told = texts.observation(text.replace("numbers,sure", f"numbers,{word}"))
            page = self.one_line("\n".join(observed.verdict_lines(Cluster, told)))
            self.assertEqual("Numbers that each frame comes within half a cycle of the schedule is taken for granted" in page,
                             is_said)

    def test_a_log_of_nobody(self):
        """Where another network is taken for this one, no frame says where a clock was."""
        path = self.sent()
        self.write("net.toml", SHORT.replace("gPayloadLengthStatic = 8", "gPayloadLengthStatic = 9") + OBSERVER)
        page = self.one_line(self.flexlab("observe", "--pictures", "-o", "seen", path, "net.toml", status=1)[0])
        self.assertIn("0 say where a clock was", page)
        self.assertIn("Verdict open: no double cycle is judged, since no frame tells where a clock was, so no correction is held against the "
                      "rules; in 0 cycles", page)
        self.assertIn("Skew of no frame it is told where a clock was, so of clocks nothing is told", page)
        self.assertNotIn("Picture", page)

    def test_without_frame_crcs_it_is_the_same(self):
        self.sent()
        whole, bare = (self.observed(self.path("sent", name), folder=name) for name in ("sent.pcap", "wireshark.pcap"))
        self.assertEqual(whole["cycles"], bare["cycles"])
        self.assertEqual(whole["nodes"], bare["nodes"])
        self.assertIn("\nhead,", self.read("wireshark.pcap", "log.csv"))
        self.assertNotIn("\nhead,", self.read("sent.pcap", "log.csv"))

    def test_the_steps_of_a_file(self):
        path = self.sent()
        with open(path, "rb") as file:
            data = file.read()
        self.assertEqual(observer.step_of(path), 1)
        # The same file as if its stamps were microseconds: the fractions of a second are no more than the step.
        with open(self.path("micro.pcap"), "wb") as file:
            file.write(b"\xd4\xc3\xb2\xa1" + data[4:])
        self.assertEqual(observer.step_of(self.path("micro.pcap")), 1000)
        self.assertIsNone(observer.step_of(self.path("net.toml")))
        for form, step in (("nsecpcap", 1), ("pcap", 1000), ("pcapng", 1)):
            subprocess.run(["tshark", "-r", path, "-F", form, "-w", self.path(form)], check=True, capture_output=True)
            self.assertEqual(observer.step_of(self.path(form)), step, form)
            self.hold(self.observed(self.path(form)))
            # A packed file does not say its steps.
            with gzip.open(self.path("packed"), "wb") as packed, open(self.path(form), "rb") as file:
                packed.write(file.read())
            self.assertEqual(observer.capture_frames(self.path("packed")).step, step, form)
        page = self.one_line(self.flexlab("observe", "-o", "seen", "pcap", "net.toml", status=1)[0])
        self.assertIn("stamps of 1000 ns, since the file keeps no more of the 10 ns", page)

    def test_what_is_left_out(self):
        path = self.sent()
        made = [(packet.ns, packet.channel, packet.frame) for packet in packets.read_capture(path)[1]]
        dynamic = observer_frame(made[0][2], 70)
        made[4:4] = [(made[4][0], "A", dynamic), (made[4][0], "A", made[4][2][:-1])]
        packets.write_capture(self.path("more.pcap"), made[::-1])
        told = self.one_line(self.flexlab("log", "more.pcap", "net.toml", "-o", "log.csv")[0])
        for left in ("1 frames that are not as long as they say", "1 frames of the dynamic segment",
                     "40 frames of static slots that are no key slots"):
            self.assertIn(left, told)
        stamps = [int(line.split(",")[1]) for line in self.read("log.csv").splitlines() if line.startswith("frame,")]
        self.assertEqual((stamps, stamps[0], len(stamps)), (sorted(stamps), 0, 160))

    def test_frames_that_were_cut(self):
        """Of a frame that the capture cut behind its header that counts; of one that was cut within it, nothing."""
        with open(self.sent(), "rb") as file:
            head = file.read(24)
        made = packets.read_capture(self.path("sent", "sent.pcap"))[1]
        for kept in (7, 6):
            with open(self.path("cut.pcap"), "wb") as file:
                file.write(head)
                for at, packet in enumerate(made):
                    data = packet.data[:kept] if at % 2 else packet.data
                    file.write(struct.pack("<IIII", packet.ns // 10**9, packet.ns % 10**9, len(data), len(packet.data)) + data)
            frames = observer.capture_frames(self.path("cut.pcap"))
            self.assertEqual(sorted(data for _, _, data, _ in frames.found),
                             sorted(packet.frame[:5 if at % 2 else None] for at, packet in enumerate(made) if kept == 7 or at % 2 == 0))
            self.assertEqual((frames.left, frames.is_torn), ({}, False) if kept == 7 else ({observer.SHORT: 100}, True))

    def test_tables(self):
        made = packets.read_capture(self.sent())[1]
        for mark, unit, size, digits in ((",", "s", 10**9, 9), (";", "us", 1000, 3)):
            rows = [("Time", "Channel", "Raw data")]
            rows += [(f"{packet.ns // size}.{packet.ns % size:0{digits}}", packet.channel, packet.frame.hex(" "))
                     for packet in made]
            self.write("bus.csv", "".join(mark.join(row) + "\n" for row in rows))
            words = ("--columns", "time=Time,channel=Channel,bytes=Raw data", "--time-unit", unit)
            found = self.observed("bus.csv", *words)
            self.assertEqual(found["cycles"], self.observed(self.path("sent", "sent.pcap"))["cycles"])
            self.assertEqual(found["log"]["judged"], 160)

    def test_a_part_of_a_file(self):
        path = self.sent()
        made = packets.read_capture(path)[1]
        first = made[0].ns
        packets.write_capture(self.path("part.pcap"), [(one.ns, one.channel, one.frame) for one in made
                                                       if first + 25_000_000 <= one.ns < first + 75_500_000])
        self.flexlab("log", "part.pcap", "net.toml", "-o", "wanted.csv")
        told = self.one_line(self.flexlab("log", path, "net.toml", "-o", "log.csv", "--from", "0.025", "--to", "0.0755")[0])
        self.assertEqual(self.read("log.csv"), self.read("wanted.csv"))
        left = len(made) - len(packets.read_capture(self.path("part.pcap"))[1])
        taken = "from 0.025000 s to 0.075500 s behind the first frame of the file, which came at "
        self.assertIn(f"Taken {taken}{first // 10**9}.{first // 1000 % 10**6:06} s Left out {left} {observer.OUTSIDE}", told)
        self.assertIn("there is no frame that could be used", self.flexlab("log", path, "net.toml", "--from", "900", status=1)[1])
        for word in ("-1", "1e3", "0,5", "x"):
            self.assertIn("is no number of seconds", self.flexlab("log", path, "net.toml", f"--from={word}", status=2)[1])
        # So it is judged, and said; what is cut at one end has no other one.
        found = self.observed(path, "--from", "0.025", "--to", "0.0755")
        self.assertEqual((self.read("seen", "log.csv"), found["left_out"][observer.OUTSIDE]), (self.read("wanted.csv"), left))
        self.assertEqual(found["cycles"][0]["cycle"], 4)
        self.assertIn("Taken " + taken, self.one_line(self.read("seen", "observed.txt")))
        page = self.one_line(self.flexlab("observe", "-o", "seen", path, "net.toml", "--to", "0.0755", status=(0, 1))[0])
        self.assertIn("Taken to 0.075500 s behind the first frame", page)
        self.assertNotIn("Taken", self.flexlab("observe", "-o", "seen", path, "net.toml", status=(0, 1))[0])

    def test_a_silence_begins_a_part(self):
        path = self.sent(SHORT + OBSERVER + "missed_none = true\n")
        made = [(one.ns, one.channel, one.frame) for one in packets.read_capture(path)[1]]
        alone = self.observed(path)
        self.assertEqual(alone["parts"], [])
        packets.write_capture(self.path("two.pcap"), made + [(ns + 400_000_000, channel, frame) for ns, channel, frame in made])
        found = self.observed("two.pcap")
        self.assertEqual(len(found["parts"]), 2)
        for part in found["parts"]:
            for name in ("cycles", "nodes", "verdict", "log", "sync"):
                self.assertEqual(part[name], alone[name], name)
            self.assertEqual(self.read(part["folder"], "log.csv").count("whole,,,,"), 1)
        self.assertEqual(found["verdict"], alone["verdict"])
        page = self.one_line(self.flexlab("observe", "-o", "seen", "two.pcap", "net.toml", status=(0, 1))[0])
        self.assertIn("Part 1 of 2, from 0 s to 0.0", page)
        self.assertIn("Part 2 of 2, from 0.4 s to 0.4", page)
        self.assertIn(f"Parts 2, since behind a silence of more than 30 cycles, and where --part cuts, a count begins anew: 2 "
                      f"{alone['verdict'][0]}. Each may be of a history of its own: nothing is said across parts Verdict the worst, of part 1: ",
                      page)
        # What is stated of sync is stated of the first part that has the cycle.
        self.write("net.toml", SHORT + OBSERVER + "in_sync_from_cycle = 4\n")
        self.observed("two.pcap")
        self.assertEqual(["since,4,,," in self.read("seen", f"part-{number}", "log.csv") for number in (1, 2)], [True, False])

    def test_a_log_of_another_network(self):
        """Each value in which it differs is said, and no other one."""
        path = self.sent()
        self.assertEqual(self.observed(path)["differs"], [])
        for change, told in (
                (("gPayloadLengthStatic = 8", "gPayloadLengthStatic = 7"),
                 ["slots 1-4, 10: a payload of 8 words, and `gPayloadLengthStatic` is 7"]),
                (("id = 3\nkey_slot = 3", "id = 3\nkey_slot = 9"), ["slot 3: a sync indicator, and it is no node's key slot"]),
                (("slot = 10\nnode = 1", "slot = 11\nnode = 1"), []),
                (("slot = 10\nnode = 1", "slot = 12\nnode = 1", "id = 5\nchannels", "id = 5\nkey_slot = 10\nchannels"),
                 ["slot 10: no sync indicator, and it is the key slot of a node"]),
                (("id = 1\nkey_slot = 1\nchannels = \"AB\"\ncoldstart = true", "id = 1\nkey_slot = 1\nchannels = \"AB\""),
                 ["slot 1: a startup indicator, and its node is no coldstart node"]),
                (("id = 3\nkey_slot = 3\n", "id = 3\nkey_slot = 3\ncoldstart = true\n"),
                 ["slot 3: no startup indicator, and its node is a coldstart node"]),
                (("pMicroPerCycle = 200000", "pMicroPerCycle = 204000"),
                 ["cycles last 4999.9", "us, and by `pMicroPerCycle` and `microtick_ns` 5100.000 us"]),
                (("pMicroPerCycle = 200000", "pMicroPerCycle = 201000"), []),
                (("gdStaticSlot = 50\ngdActionPointOffset = 10\ngdNIT = 2000", "gdStaticSlot = 60\ngdActionPointOffset = 10\ngdNIT = 1400"),
                 ["static slots last some ", "us, and by `gdStaticSlot` 60.000 us"])):
            with self.subTest(change=change):
                other = edited(("double_cycles = 200", "double_cycles = 10"), text=re.sub(r" +#[^\n]*", "", EXAMPLE))
                self.write("net.toml", edited(*zip(change[::2], change[1::2]), text=other) + OBSERVER)
                page = self.flexlab("observe", "-o", "seen", path, "net.toml", status=(0, 1))[0]
                page = self.one_line(page[:page.index("\nPrecision")] + " Cycles ")
                self.assertEqual("DIFFERS most frames are not as the file of the cluster has them: is the log of another network?" in page,
                                 told != [], page)
                for one in told:
                    self.assertIn(one, page)
                wanted = set(re.findall(r"`\w+`|indicator", " ".join(told)))
                said = page.split("DIFFERS")[1].split(" Cycles ")[0] if told else ""
                self.assertEqual(set(re.findall(r"`\w+`|indicator", said)), wanted)

    def test_a_text_is_no_capture(self):
        self.write("bus.csv", "Time;Channel;Data\n0,5;A;00\n")
        for words in (("capture", "bus.csv"), ("log", "bus.csv", "net.toml"), ("observe", "bus.csv", "net.toml")):
            self.write("net.toml", SHORT + OBSERVER)
            self.assertIn("bus.csv: it is a text and no capture", self.flexlab(*words, status=5)[1])

    def test_a_counter_that_begins_anew(self):
        made = packets.read_capture(self.sent())[1]
        columns = ("--columns", "time=Time,channel=Channel,bytes=Data", "--time-unit", "ns", "-o", "log.csv")
        logs = []
        for begin in (0, (1 << 32) - 20_000_000 - made[0].ns):
            rows = [f"{(begin + one.ns) % (1 << 32)},{one.channel},{one.frame.hex()}" for one in made]
            self.write("bus.csv", "\n".join(["Time,Channel,Data", *rows]) + "\n")
            told = self.one_line(self.flexlab("log", *columns, "bus.csv", "net.toml")[0])
            self.assertEqual("the counter of 32 bits began anew 1 times" in told, begin != 0)
            logs.append(self.read("log.csv"))
        self.assertEqual(*logs)
        # A row of before that stands behind is of before.
        wraps = observer.Wraps()
        self.assertEqual([wraps.before(str(time % (1 << 32))) >> 32 for time in (-6, 5, -1, 10, 20, -2)], [0, 1, 0, 1, 1, 0])
        # One channel behind the other is no counter that begins anew.
        wraps = observer.Wraps()
        self.assertEqual([wraps.before(time) for time in ("100", "3900000000", "100", "3900000000", "0.5")], [0] * 5)
        self.assertEqual((wraps.count, wraps.falls), (0, 1))
        # Neither is a fall behind a silence, which is said; one of less than half is no more than a row that stands too late.
        for stamp, falls in ((3_900_000_000, 1), (1_900_000_000, 0)):
            rows = [f"{one.ns - made[0].ns + (stamp if at < 20 else 100_000_000)},{one.channel},{one.frame.hex()}" for at, one in enumerate(made)]
            self.write("bus.csv", "\n".join(["Time,Channel,Data", *rows]) + "\n")
            told = self.one_line(self.flexlab("log", *columns, "bus.csv", "net.toml")[0])
            self.assertEqual("Stamps 1 fall by more than half of 32 bits, and not from the last to the first 64th of these as those of a "
                             "counter that begins anew: they are sorted" in told, falls > 0)
            self.assertNotIn("began anew", told)

    def test_refusals(self):
        path = self.sent(SHORT)
        self.assertIn("net.toml: a table [observer] states what is", self.flexlab("log", path, "net.toml", status=5)[1])
        for old, new, told in (("drift_ppm = 20", "drift_ppm = 2000", "drift_ppm: 2000 is not a number from 0 to 1000"),
                               ("drift_ppm = 20\n", "", "the key `drift_ppm` is missing"),
                               ("delay_from_ns = 100", "delay_from_ns = 300", "it is above `delay_to_ns`"),
                               ("drift_ppm", "drift", "there is no such key")):
            self.write("net.toml", SHORT + OBSERVER.replace(old, new))
            self.assertIn(told, self.flexlab("log", path, "net.toml", status=5)[1])
        self.write("net.toml", SHORT + OBSERVER)
        columns = ("--columns", "time=Time,channel=Channel,bytes=Data")
        told = self.flexlab("log", "--columns", "time=x", "bus.csv", "net.toml", status=2)[1]
        self.assertIn("is not of the form", told)
        for text, told in (("Time,Bus,Data\n", "bus.csv:1: there is no column `Channel`"),
                           ("Time,Channel,Data\n0.5,C,00\n", "bus.csv:2: the channel 'C' is not A or B"),
                           ("Time,Channel,Data\nx,A,00\n", "bus.csv:2: the time 'x' is not a number"),
                           ("Time,Channel,Data\n1,A,0\n", "bus.csv:2: the bytes '0' are not hexadecimal digits"),
                           ("Time,Channel,Data\n1\n", "bus.csv:2: it has 1 columns")):
            self.write("bus.csv", text)
            self.assertIn(told, self.flexlab("log", *columns, "bus.csv", "net.toml", status=5)[1])
        self.write("bus.csv", "Time,Channel,Data\n1,A,00\n")
        told = self.flexlab("log", *columns, "bus.csv", "net.toml", status=1)[1]
        self.assertIn("there is no frame that could be used", told)

    @needs("gnuplot")
    def test_pictures(self):
        self.flexlab("observe", "--pictures", "-o", "seen", self.sent(), "net.toml", status=1)
        drawn = self.read("seen", "observed-skew.svg") + self.read("seen", "observed-nodes.svg")
        for told in ("the skew lies in between", "precision", "node 4", "rate, ppm", "offset, microticks"):
            self.assertIn(told, drawn)


def observer_frame(data, slot):
    """A frame with another ID, whatever its CRCs are."""
    return bytes([data[0] & 0xF8 | slot >> 8, slot & 255]) + data[2:]


if __name__ == "__main__":
    unittest.main()
