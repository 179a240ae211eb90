"""Which node it may have been: logs of networks whose nodes correct wrongly (tools/tests/clocks_peer.py) are held against each node, and
what is told of it is what another program reckons of that log; hints at what is stated wrongly of an analyzer; and logs in parts.
FLEXLAB_BLAME_LOGS is how many networks are taken (6)."""
import dataclasses
import json
import os
import random
import re
import types
import unittest
import unittest.mock
from fractions import Fraction

import clocks_peer as clocks
import observe_peer as peer
from bench import Bench
from flexlab.captures import blame, hints, observed, observer
from flexlab.toml.cluster import read_cluster
from flexray import results, texts

LOGS = int(os.environ.get("FLEXLAB_BLAME_LOGS", "6"))
COLUMNS = ("--columns", "time=Time,channel=Channel,bytes=Data", "--time-unit", "ns")
HEAD = "node,says,cycle,kind,other,judged,double_cycles"


def toml_of(network, arbitrary=(), channels=lambda node: "AB"):
    """The file of a network, with an analyzer whose stamps are of 1 ns and who knows delays to 1 ns."""
    limits = {"xRateBound": "oscillator_ppm", clocks.CHANGE: "change_ppm_per_cycle", "xDelayError": "delay_error_microticks"}
    values = [(name, value) for name, value in network.values.items() if name not in limits]
    nodes = "".join(f'[[node]]\nid = {node + 1}\nkey_slot = {slot}\nchannels = "{channels(node + 1)}"\ncoldstart = true\n'
                    + "arbitrary = true\n" * (node + 1 in arbitrary) for node, slot in enumerate(network.slots))
    return ("[bench]\nmicrotick_ns = 25\n[cluster]\n" + "".join(f"{name} = {value}\n" for name, value in values)
            + "[limits]\n" + "".join(f"{key} = {network.values[name]}\n" for name, key in limits.items())
            + f"[run]\ndouble_cycles = {network.doubles}\n{nodes}[observer]\nresolution_ns = 1\ndrift_ppm = 0\njitter_ns = 0\n"
            "missed_none = true\ndelay_from_ns = 25\ndelay_to_ns = 26\n")


class Log(Bench):
    def network(self, seed, doubles=20, least=4):
        """A network of so many nodes at least."""
        draw = random.Random(seed)
        while len((found := clocks.any_oscillators(draw, doubles)).slots) < least:
            pass
        return found

    def table(self, network, rows, changed=lambda ns, node, channel: ns, seed=1):
        """The table of an analyzer that sees these rows; `changed` has what it makes of a stamp, None if the frame is not there."""
        keys = {slot: node + 1 for node, slot in enumerate(network.slots)}
        found = []
        for line in network.log(random.Random(seed), rows, 40_000, 40_000).splitlines():
            kind, stamp, channel, data, _ = line.split(",")
            if kind == "head":
                node = keys[(int(data[:2], 16) & 7) << 8 | int(data[2:4], 16)]
                found.append((changed(int(stamp), node, channel), channel, data))
        found = sorted(frame for frame in found if frame[0] is not None)
        self.write("bus.csv", "Time,Channel,Data\n" + "".join(f"{ns},{channel},{data}\n" for ns, channel, data in found))

    def observe(self, *words, status=1):
        return self.flexlab("observe", *COLUMNS, "-o", "seen", "bus.csv", "net.toml", *words, status=status)[0]

    def object(self, *words, status=1):
        return json.loads(self.observe("--json", *words, status=status))

    def held(self, found):
        """Holds what is told of each node against the other program, and hands it back by node."""
        params = peer.Params(peer.rows_of(self.path("seen", "params.csv")))
        for one in found["blame"]:
            log = peer.Log(peer.rows_of(self.path("seen", "log.csv")))
            log.arbitrary.add(one["node"])
            rows = peer.observe(params, log)
            faults, sync = [row for row in rows if row[0] == "fault"], next(row for row in rows if row[0] == "sync")
            self.assertEqual((one["judged"], one["double_cycles"]), (sync[3], sync[4]))
            said = [None if field == "-" else field for field in (
                ["out", faults[0][1], faults[0][3], faults[0][2]] if faults else
                ["left", "-", "-", "-"] if sync[3] else ["open", sync[6], sync[5], sync[7]])]
            self.assertEqual([one[name] for name in ("says", "cycle", "kind", "other")], said)
        lines = self.read("seen", blame.BLAME).splitlines()
        self.assertEqual(lines[0], HEAD)
        self.assertEqual(lines[1:], [",".join("" if one[name] is None else str(one[name]) for name in HEAD.split(","))
                                     for one in found["blame"]])
        return {one["node"]: one["says"] for one in found["blame"]}


def kept_frames(log, network, rows):
    """Stamp, node and channel of each frame, as `table` has them."""
    found = []

    def kept(*frame):
        found.append(frame)
        return frame[0]
    log.table(network, rows, kept)
    return found


class Blame(Log):
    def test_a_node_that_corrects_wrongly(self):
        """It cannot be excluded, since a run in which it is arbitrary gave the log. Mostly all others are out."""
        alone = 0
        for seed in range(LOGS):
            with self.subTest(seed=seed):
                draw, network = random.Random(seed), self.network(seed)
                node = draw.choice(network.nodes)
                self.write("net.toml", toml_of(network))
                self.table(network, network.rows(lambda double, it: 40 if it == node and double >= 12 else 0))
                found = self.object()
                self.assertEqual((found["verdict"][0], found["faults"][0]["kind"]), ("no", "offset"))
                said = self.held(found)
                self.assertEqual(sorted(said), [it + 1 for it in network.nodes])
                self.assertEqual(said[node + 1], "left")
                alone += list(said.values()).count("left") == 1
        self.assertGreater(alone, LOGS // 2)

    def test_the_page(self):
        network = self.network(3)
        self.assertEqual(len(network.slots), 4)
        self.write("net.toml", toml_of(network))
        self.table(network, network.rows(lambda double, it: 40 if it == 1 and double >= 12 else 0))
        page = self.one_line(self.observe())
        self.assertRegex(page, r"CONTRADICTION cycle 25, node 2: an offset term of 4\d to 4\d microticks, and by all that were seen it must "
                               r"be \d to \d+, 3\d to 4\d too great cycle 26: ")
        self.assertRegex(page, r"Blame SUSPECT node 2: without its frames no contradiction is left, and 20 of 20 double cycles are judged; no "
                               r"other single node explains the log, if no frame was lost on the bus and all else is as the verdict has it by "
                               r"so much: by what all others sent its offset term was 3\d to 4\d microticks too great in each of \d double "
                               r"cycles, the first in cycle 25 and the last in cycle 3\d, if by the same each time nodes 1, 3 and 4 are out: "
                               r"there is still cycle 25, node 2, its offset term ")
        by = re.search(r"was (\d+) to (\d+) microticks too great", page)
        self.assertTrue(int(by[1]) <= 40 <= int(by[2]), by[0])
        self.assertNotIn("no other sender takes the ID", page)
        self.assertIn("seen/: params.csv, log.csv, observed.csv, blame.csv, observed.txt", page)
        self.assertIn("Blame           SUSPECT node 2", self.read("seen", "observed.txt"))
        # It is what flexray tells of the log with a row more.
        self.write("log.csv", "arbitrary,2,,,\n" + self.read("seen", "log.csv"))
        self.assertNotIn("\nfault,", self.flexray("observe", "seen/params.csv", "log.csv")[1])

    def test_two_nodes_at_once(self):
        """Then each is out, and the page does not name one."""
        for seed in range(2):
            network = self.network(seed, least=6)
            self.write("net.toml", toml_of(network))
            self.table(network, network.rows(lambda double, it: 60 if it < 2 and double == 12 else 0))
            self.assertEqual(set(self.held(self.object()).values()), {"out"})
            page = self.one_line(self.observe())
            self.assertIn("no node alone was at fault, if all else is as the verdict has it: several were, or a frame was lost", page)
            self.assertNotIn("it is node", page)
            self.assertNotIn("cannot be excluded", page)
            self.assertNotIn("SUSPECT", page)

    def test_where_losses_are_stated(self):
        """What is told of nodes leaves them aside, which the page says; and no node is a suspect."""
        network = self.network(3, least=6)
        self.write("net.toml", toml_of(network) + "lost = 1\n")
        self.table(network, network.rows(lambda double, it: 60 if it == 1 and double >= 12 else 0))
        found = self.object()
        self.assertEqual(([one["node"] for one in found["blame"] if one["says"] != "out"], found["precision"]["lost"]), ([2], 1))
        page = self.one_line(self.observe())
        self.assertIn("Blame as if NO frame was lost, though the file allows a node to miss 1 sender of each double cycle: with such losses no "
                      "node is shown to be out if one node alone was at fault, no frame was lost on the bus, and all else is as the verdict "
                      "has it, it is node 2 node 2 cannot be excluded: ", page)
        self.assertNotIn("SUSPECT", page)
        # A stamp that fits nowhere rests on no loss.
        one = blame.Blamed(4, "out", 7, "limit", 2, 5, 9, "")
        cluster = read_cluster(self.path("net.toml"))
        told = types.SimpleNamespace(lost=1, faults=())
        self.assertIn("with such losses of these only node 4 is out", " ".join(blame.conclusion(cluster, [one], told)))
        self.assertIn("no node is shown to be out", " ".join(blame.conclusion(cluster, [one._replace(kind="form")], told)))

    def test_by_how_much(self):
        """Of a node whose terms alone contradict: what its rows share, or else all of them, each way apart."""
        def said(*rows):
            faults = [results.ObservedFault(cycle, node, kind, tuple(map(str, fields))) for cycle, node, kind, *fields in rows]
            return blame.size_lines(types.SimpleNamespace(faults=faults), 2)
        begin, more = "by so much: by what all others sent its ", (9, 2, "offset", 3, 5, -18, -5)
        two = "in each of 2 double cycles, the first in cycle 7 and the last in cycle 9"
        first = (7, 2, "offset", 23, 26, 0, 10)
        self.assertEqual(said(first), [f"{begin}offset term was 13 to 26 microticks too great in cycle 7"])
        self.assertEqual(said(first, more), [f"{begin}offset term was 13 to 23 microticks too great {two}, if by the same each time"])
        self.assertEqual(said(first, (9, 2, "offset", 3, 5, -1, 1)),
                         [f"{begin}offset term was 2 to 26 microticks too great {two}, not by the same each time"])
        self.assertEqual(said(first, (7, 2, "rate", -4, -4, -1, -1), (8, None, "start", 9, 9, "-", 4)),
                         [f"{begin}offset term was 13 to 26 microticks too great in cycle 7",
                          f"{begin}change of the rate term was 3 microticks too small in cycle 7"])
        self.assertEqual(said(first, (9, 3, "rate", 3, 5, -18, -5)), [])
        self.assertEqual(said((7, 2, "missing", "A", "-", "-", "-")), [])

    def test_nodes_of_which_a_verdict_says_nothing(self):
        """Arbitrary ones, and one that was seen nowhere: also where sync is stated."""
        network = self.network(5, least=8)
        rows = network.rows()
        self.write("net.toml", toml_of(network, arbitrary=(2,)))
        self.table(network, rows)
        page = self.one_line(self.observe(status=(0, 1)))
        self.assertIn("; nothing contradicts what is stated; node 2 was NOT checked: the file names it arbitrary ", page)
        self.assertNotIn("NO cycle", page)
        self.table(network, rows, lambda ns, node, channel: None if node == 4 else ns)
        self.write("net.toml", toml_of(network, arbitrary=(2, 6)))
        page = self.one_line(self.observe())
        self.assertIn("Judged 0 of 20 double cycles, since node 4 was not seen in cycle 0; it was seen in no cycle at all: leave it out of the "
                      "file if it is not in the network; if it is, its silence is the finding, or the analyzer takes none of its frames", page)
        self.assertIn("; node 4 was seen in NO cycle; nodes 2 and 6 were NOT checked: the file names them arbitrary ", page)
        self.write("net.toml", toml_of(network) + "in_sync_from_cycle = 0\n")
        page = self.one_line(self.observe(status=(0, 1)))
        self.assertNotIn("Verdict open", page)
        self.assertIn("; node 4 was seen in NO cycle ", page)

    def test_nodes_that_are_too_few(self):
        """Of three nodes with one arbitrary no double cycle is judged: all of them are open."""
        network = clocks.near_oscillators(random.Random(1), 20)
        self.write("net.toml", toml_of(network))
        self.table(network, network.rows(lambda double, it: 40 if it == 0 and double == 12 else 0))
        found = self.object()
        self.assertEqual(self.held(found), {1: "open", 2: "open", 3: "open"})
        self.assertEqual({one["kind"] for one in found["blame"]}, {"count"})
        self.assertIn("node 1 cannot be excluded: no contradiction is left, but no double cycle is judged, since 2 correct nodes with a "
                      "key slot do not outweigh 1 arbitrary ones", self.one_line(self.observe()))

    def test_beside_a_node_that_is_named(self):
        """A node that the file names arbitrary is held against nothing, and stays arbitrary."""
        network = self.network(5, least=8)
        rows = network.rows(lambda double, it: 60 if it == 4 and double == 12 else 0)
        self.write("net.toml", toml_of(network, arbitrary=(2,)))
        self.table(network, rows)
        found = self.object()
        said = self.held(found)
        self.assertEqual(sorted(said), [1, 3, 4, 5, 6, 7, 8])
        self.assertEqual(said[5], "left")
        self.assertEqual(self.read("seen", "log.csv").count("arbitrary,"), 1)
        self.assertIn("SUSPECT node 5: without its frames no contradiction is left, and 20 of 20 double cycles are judged; no other single "
                      "node beside those that are named arbitrary explains the log", self.one_line(self.observe()))

    def test_when_it_is_asked(self):
        """By itself where a contradiction asks what nodes hear of each other; a node that channels place nowhere is named already."""
        network = self.network(3)
        self.write("net.toml", toml_of(network))
        rows = network.rows()
        self.table(network, rows)
        found = self.object(status=0)
        self.assertEqual((found["verdict"][0], found["blame"]), ("within", []))
        self.assertEqual(self.object("--blame", status=0)["blame"], [])
        self.assertFalse(os.path.exists(self.path("seen", blame.BLAME)))
        # The last frame of a node on channel B comes late.
        last = max(ns for ns, node, channel in kept_frames(self, network, rows) if (node, channel) == (2, "B"))
        self.table(network, rows, lambda ns, node, channel: ns + 5000 * (ns == last and (node, channel) == (2, "B")))
        found = self.object()
        self.assertEqual(([fault["kind"] for fault in found["faults"]], found["blame"]), (["channels"], []))
        self.assertNotIn("Blame", self.observe())
        self.assertEqual(self.held(self.object("--blame")), {1: "out", 2: "left", 3: "out", 4: "out"})
        # What an earlier call left is gone, where it is not asked.
        self.object()
        self.assertFalse(os.path.exists(self.path("seen", blame.BLAME)))

    def test_nodes_without_a_common_channel(self):
        """That they miss each other is said where less is stated, and that nothing follows of a node then."""
        def channels(node):
            return {1: "A", 2: "B"}.get(node, "AB")
        network = self.network(3)
        rows = network.rows(hears=lambda cycle, sender, receiver: {sender, receiver} != {0, 1})
        self.table(network, rows, lambda ns, node, channel: ns if channel in channels(node) else None)
        self.write("net.toml", toml_of(network, channels=channels))
        page = self.one_line(self.observe())
        self.assertIn("UNHEARD nodes 1 and 2 have no common channel, so a node misses 1 sender in each double cycle, and lost of [observer] is "
                      "0: state 1 or more.", page)
        self.assertIn("Verdict NO:", page)
        self.assertIn("Blame nothing follows from what is below, since nodes 1 and 2 have no common channel", page)
        self.assertNotIn("it is node", page)
        self.assertNotIn("SUSPECT", page)
        self.assertEqual(self.object()["unheard"], 1)
        self.write("net.toml", toml_of(network, channels=channels) + "lost = 1\n")
        page = self.one_line(self.observe(status=(0, 1)))
        self.assertNotIn("UNHEARD", page)
        self.assertNotIn("Verdict NO:", page)
        # Arbitrary ones are heard of nobody for certain.
        self.write("net.toml", toml_of(network, (1,), channels))
        self.assertEqual(self.object(status=(0, 1))["unheard"], 0)
        # Three on one channel and one on the other: that one hears none of them.
        self.write("net.toml", toml_of(network, channels=lambda node: "B" if node == 4 else "A"))
        found = observed.deaf_in(read_cluster(self.path("net.toml")))
        self.assertEqual((found.most, len(found.pairs)), (3, 6))
        self.assertIsNone(observed.deaf_in(read_cluster(self.write("net.toml", toml_of(network)))))

    def test_irregular_frames(self):
        """That a frame of another form leaves a contradiction rests on slots that are own, which the page says."""
        network = self.network(3)
        self.write("net.toml", toml_of(network))
        self.table(network, network.rows())
        lines = self.read("bus.csv").splitlines()
        at = next(at for at, line in enumerate(lines) if at > 40 and line.split(",")[1] == "A")
        stamp, channel, data = lines[at].split(",")
        slot = network.slots[2]
        odd = clocks.crc(11, 0x385, 0x01A, 2 << 18 | slot << 7, 20)
        lines.insert(at, f"{stamp},A,{(1 << 37 | (2 << 18 | slot << 7) << 17 | odd << 6 | int(data, 16) & 63).to_bytes(5, 'big').hex()}")
        self.write("bus.csv", "\n".join(lines) + "\n")
        found = self.object("--blame")
        self.assertEqual([fault["kind"] for fault in found["faults"]], ["form"])
        self.assertEqual(self.held(found), {1: "out", 2: "out", 3: "left", 4: "out"})
        self.assertIn("all else is as the verdict has it; a frame of another form, or on a channel that its node does not have, counts "
                      "as a contradiction, which takes for granted that no other sender takes the ID of a node", self.one_line(self.observe("--blame")))

    def test_each_part_and_each_log(self):
        network = self.network(3)
        self.write("net.toml", toml_of(network))
        rows = network.rows(lambda double, it: 40 if it == 1 and double == 14 else 0)
        cut = kept_frames(self, network, rows)[len(kept_frames(self, network, rows)) // 4][0]
        self.table(network, rows, lambda ns, node, channel: ns + 400_000_000 * (ns > cut))
        found = self.object()
        self.assertEqual([[one["says"] for one in part["blame"]] for part in found["parts"]], [[], ["out", "left", "out", "out"]])
        self.assertEqual([os.path.exists(self.path("seen", f"part-{part}", blame.BLAME)) for part in (1, 2)], [False, True])
        self.table(network, rows)
        found = self.object("--second", "bus.csv", "net.toml")
        self.assertEqual(found["blame"], found["second"]["blame"])
        self.assertEqual(len(found["blame"]), 4)
        self.assertEqual(self.read("seen", blame.BLAME), self.read("seen", "second", blame.BLAME))

    def test_a_log_that_is_full(self):
        """There is room for the row."""
        network = self.network(3)
        self.table(network, network.rows())
        cluster = read_cluster(self.write("net.toml", toml_of(network)))
        frames = observer.table_frames(self.path("bus.csv"), observer.columns_of(COLUMNS[1]), "ns")
        for most in range(3000, 3060):
            with unittest.mock.patch.object(observer.ranges, "FILE_BYTES", most):
                text, log = observer.log_of(cluster, observer.stated(cluster), dataclasses.replace(frames, left={}))
            self.assertLess(log.entries, len(frames.found))
            self.assertLessEqual(len(text) + len("arbitrary,2047,,,\n"), most)


class Hints(Log):
    def test_steps_of_an_analyzer(self):
        network = self.network(3)
        rows = network.rows()
        for steps, stated, is_told in ((10, 1, True), (10, 10, False), (10, 5, True), (1, 1, False), (25, 10, True)):
            with self.subTest(steps=steps, stated=stated):
                self.write("net.toml", toml_of(network).replace("resolution_ns = 1\n", f"resolution_ns = {stated}\n"))
                self.table(network, rows, lambda ns, node, channel: ns // steps * steps)
                found = self.object(status=(0, 1))
                self.assertEqual(found["grain"]["units"], steps)
                page = self.one_line(self.observe(status=(0, 1)))
                told = (f"Hint all stamps are multiples of {steps} ns, counted from the first frame: if the analyzer counts in such steps, "
                        f"state resolution_ns = {steps}, which is an error of {steps - 1} units of 1 ns")
                self.assertEqual((told in page, "Hint all stamps" in page), (is_told, is_told))
        # What is advised has the error that is told.
        self.write("net.toml", toml_of(network).replace("resolution_ns = 1\n", "resolution_ns = 25\n"))
        self.assertEqual(self.object(status=(0, 1))["grain"], {"units": 25, "unit_ticks": 40_000, "error_ticks": 24 * 40_000})

    def test_few_stamps_have_no_steps(self):
        network = self.network(3, doubles=1)
        self.write("net.toml", toml_of(network))
        self.table(network, network.rows(), lambda ns, node, channel: ns // 10 * 10)
        lines = self.read("bus.csv").splitlines()
        self.assertEqual(len(lines), 17)
        self.assertEqual(self.object(status=(0, 1))["grain"]["units"], 10)
        self.write("bus.csv", "\n".join(lines[:-1]) + "\n")
        self.assertIsNone(self.object(status=(0, 1))["grain"]["units"])
        self.assertNotIn("Hint", self.observe(status=(0, 1)))

    def test_an_analyzer_that_is_stated_wrongly(self):
        """Where most nodes have a contradiction at once, that is told; where one corrects wrongly it is not."""
        network = self.network(3)
        self.write("net.toml", toml_of(network))
        rows = network.rows()
        self.table(network, rows, lambda ns, node, channel: ns + 200 * (channel == "B"))
        found = self.object()
        self.assertEqual(found["first"], {"double_cycle": 0, "nodes": [1, 2, 3, 4], "of": 4})
        self.assertIn("Hint 4 of 4 nodes have a contradiction in the first double cycle that has one, 0: look first at what is stated of "
                      "the analyzer, as the limits of delays, the error and the drift", self.one_line(self.observe()))
        self.table(network, network.rows(lambda double, it: 40 if it == 1 and double == 12 else 0))
        found = self.object()
        self.assertEqual(found["first"], {"double_cycle": 12, "nodes": [2], "of": 4})
        self.assertNotIn("Hint", self.observe())
        self.table(network, rows)
        self.assertIsNone(self.object(status=0)["first"])

    def test_a_clock_that_is_not_as_stated(self):
        """Where all cycles are longer than oscillators and the analyzer's clock make them, that is said; it contradicts nothing."""
        network = self.network(3)
        self.write("net.toml", toml_of(network))
        rows = network.rows()
        self.table(network, rows, lambda ns, node, channel: ns + ns * 440 // 10**6)
        found, page = self.object(status=(0, 1)), self.one_line(self.observe(status=(0, 1)))
        self.assertEqual(found["faults"], [])
        aside = found["aside"]
        self.assertEqual((aside["of"], 2 * aside["double_cycles"] > 20), (20, True))
        self.assertTrue(-640 < aside["ppm"] < -201, aside)
        self.assertIn(f"Hint in {aside['double_cycles']} of 20 double cycles the cycles of all nodes were slower than nominal ones by ", page)
        self.assertIn("for certain; all this if what is stated is so: see Hint Hint in ", page)
        self.assertIn(" ppm or more, and oscillators within 200 ppm and an analyzer within 0 ppm come to 200: rate terms may", page)
        self.write("net.toml", toml_of(network).replace("drift_ppm = 0", "drift_ppm = 440"))
        self.assertIsNone(self.object(status=(0, 1))["aside"])
        self.table(network, rows)
        self.write("net.toml", toml_of(network))
        self.assertIsNone(self.object(status=(0, 1))["aside"])

    def test_frames_that_may_be_lost(self):
        """How many senders to state as lost, where no node alone was at fault and each term may be right so."""
        network, draw = self.network(3, least=6), random.Random(3)
        # In the first double cycle each node misses two others.
        lost = {(cycle, sender, node) for node in network.nodes
                for sender in draw.sample([other for other in network.nodes if other != node], 2) for cycle in (0, 1)}
        self.write("net.toml", toml_of(network))
        self.table(network, network.rows(hears=lambda *frame: frame not in lost))
        found = self.object()
        self.assertEqual({one["says"] for one in found["blame"]}, {"out"})
        self.assertIn("each term that contradicts may be right, if its node missed some of the others, and at most 2: if frames may have been "
                      "lost on the bus, state lost = 2 in [observer]", self.one_line(self.observe()))
        self.write("net.toml", toml_of(network) + "lost = 2\n")
        self.assertEqual(self.object(status=(0, 1))["faults"], [])

    def test_when_nothing_is_said_of_lost_frames(self):
        """Where a node is left, where a term is right in no way, and where none is asked."""
        def told(*least):
            return types.SimpleNamespace(lost=0, missed=[results.ObservedMissed(7, node, "offset", one)
                                                         for node, one in enumerate(least, 1)],
                                         faults=[results.ObservedFault(7, node, "offset", ()) for node, _ in enumerate(least, 1)])
        out, left = (types.SimpleNamespace(says=says) for says in ("out", "left"))
        for least, blamed, wanted in (((1, 3), (out, out), 3), ((1, 3), (out, left), None), ((1, None), (out, out), None), ((), (out,), None),
                                      ((1,), (), None)):
            self.assertEqual(hints.least_lost(told(*least), blamed), wanted)
        # Where losses are stated, that a node is left leaves them aside.
        stated = told(2, 3)
        stated.lost = 1
        self.assertEqual(hints.least_lost(stated, (out, left)), 3)

    def test_a_node_that_is_two_faced(self):
        """Where most nodes contradict at once and one is left, the hint names that first."""
        network, draw = self.network(3), random.Random(6)
        rows = network.rows(later=lambda cycle, sender, receiver: draw.randrange(-40_000_000, 40_000_000) if sender == 1 else 0)
        self.write("net.toml", toml_of(network))
        self.table(network, rows)
        page = self.one_line(self.observe())
        self.assertIn("it is node 2 or 4 ", page)
        self.assertIn("Hint 3 of 4 nodes have a contradiction in the first double cycle that has one, 2: look first at what Blame leaves, which "
                      "may send other nodes something else than the analyzer; and else at what is stated of the analyzer", page)

    def test_a_count_that_begins_anew(self):
        """From a second startup on: it is said when, and the words that are named make a part of it."""
        network = self.network(3)
        self.write("net.toml", toml_of(network))
        rows = network.rows()
        frames = [ns for ns, _, _ in kept_frames(self, network, rows)]
        begin = frames[len(frames) // 2]
        # Half of them come 7.4 cycles later, with the counts that they had.
        self.table(network, rows, lambda ns, node, channel: ns + 37_000_000 * (ns >= begin))
        found = self.object()
        at = (begin + 37_000_000 - frames[0]) // 1000 / 10**6
        self.assertEqual((found["anew_s"], found["faults"][0]["kind"]), (at, "cycle"))
        page = self.one_line(self.observe())
        self.assertIn(f"from {at:.6f} s of the file on frames come as if they were counted anew", page)
        self.assertIn(f"; --part {at:.6f} observes these as a log of their own", page)
        for words in (("--from", str(at)), ("--to", str(at))):
            part = self.object(*words, status=0)
            self.assertEqual((part["log"]["judged"], part["anew_s"], part["faults"], part["parts"]), (160, None, [], []))
        parts = self.object("--part", f"{at:.6f}", status=0)["parts"]
        self.assertEqual([(part["log"]["judged"], part["anew_s"], part["faults"]) for part in parts], [(160, None, [])] * 2)
        # Of a file that is cut already it is the time of the file.
        self.assertEqual(self.object("--from", "0.02")["anew_s"], at)
        # A frame with another count alone is none, nor is a count that jumps at the end.
        for late in (frames[-4:], frames[100:101]):
            self.table(network, rows, lambda ns, node, channel: ns + 37_000_000 * (ns in late))
            found = self.object()
            self.assertEqual((found["anew_s"], "cycle" in {fault["kind"] for fault in found["faults"]}), (None, True))

    def test_which_is_the_first(self):
        """Nodes by their faults and by their rows; irregular frames and faults of several nodes name none."""
        def told(*faults, senders=(1, 2, 3, 4)):
            return texts.observation(
                "precision,5,7,1,,,,\n" + "".join(f"cycle,{cycle},4,0,1,within,,\n" for cycle in (8, 9))
                + "".join(f"node,4,{node},1,2,-,-,\n" for node in senders) + "".join(f"fault,{fault},-,-,-,-\n" for fault in faults)
                + "log,4,0,0,0,0,0,\nnumbers,sure,,,,,,\nsync,4,judged,1,1,-,-,-\ncycles,8,9,2,0,0,,\n"
                "verdict,within,8,8,,,,\n")
        for faults, senders, wanted, is_most in (
                (("8,1,offset", "9,2,rate"), (1, 2, 3, 4), (4, [1, 2], 4), False),
                (("8,1,offset", "9,2,rate", "9,1,rate", "8,3,limit"), (1, 2, 4), (4, [1, 2, 3], 4), True),
                (("8,1,form", "9,2,stranger", "8,-,skew", "8,3,channels", "10,1,offset"), (1, 2), (4, [3], 3), False),
                (("9,1,channels", "9,2,channels"), (), (4, [1, 2], 2), False),
                (("8,-,skew",), (1, 2, 3), (4, [], 3), False)):
            first = hints.first_of(told(*faults, senders=senders))
            self.assertEqual((*first, first.is_most), (*wanted, is_most))
        self.assertIsNone(hints.first_of(told("8,1,form", "9,2,stranger", "9,3,form")))


class Parts(Log):
    """A log that is cut, at a silence or where --part says so, is one log for each part."""

    def cut(self, changed=lambda ns: ns, wrong=lambda double, node: 0, more=""):
        """A table of 20 double cycles, and when a frame of the middle one comes, in seconds of the file."""
        network = self.network(3)
        self.write("net.toml", toml_of(network) + more)
        rows = network.rows(wrong)
        frames = kept_frames(self, network, rows)
        self.table(network, rows, lambda ns, node, channel: changed(ns - frames[0][0]) + frames[0][0])
        return Fraction(changed(frames[len(frames) // 2][0] - frames[0][0]), 10**9)

    def test_each_is_a_log_of_its_own(self):
        at = float(self.cut())
        found, told = self.object("--part", str(at), status=0), ("cycles", "nodes", "spreads", "senders", "log", "sync", "verdict", "faults")
        logs = [self.read(part["folder"], "log.csv") for part in found["parts"]]
        for place, words in enumerate((("--to", str(at)), ("--from", str(at)))):
            alone = self.object(*words, status=0)
            self.assertEqual(self.read("seen", "log.csv"), logs[place])
            self.assertEqual([alone[name] for name in told], [found["parts"][place][name] for name in told])
        self.assertEqual([part["cycles"][0]["cycle"] for part in found["parts"]], [0, 20])
        self.assertTrue(all(log.count("whole,,,,") == 1 for log in logs))
        page = self.one_line(self.observe("--part", str(at), status=0))
        self.assertRegex(page, rf"^Part 1 of 2, from 0 s to 0\.\d+ s Log .* Part 2 of 2, from {at:g}\d* s to 0\.\d+ s Log .* Parts 2, since .*"
                               r"a count begins anew: 2 within\. Each .* Verdict the worst, of part 1: in cycles 0 to 18 the clocks")
        self.assertIn("and of each part in part-1 to part-2", page)
        # A log of one part says nothing of parts.
        self.assertNotIn("Part", self.observe(status=0))
        self.assertEqual(self.object(status=0)["parts"], [])

    def test_the_worst_verdict(self):
        """It stands at the end, and decides the status; what is before the cut is not contradicted by what is behind it."""
        at = str(float(self.cut(wrong=lambda double, node: 40 if (double, node) == (14, 1) else 0)))
        found = self.object("--part", at)
        self.assertEqual([part["verdict"][0] for part in found["parts"]], ["within", "no"])
        self.assertEqual((found["verdict"], found["faults"][0]["cycle"]), (found["parts"][1]["verdict"], 29))
        page = self.one_line(self.observe("--part", at))
        self.assertRegex(page, "Parts 2, .*: 1 no, 1 within\\. .* Verdict the worst, of part 2: NO: no run .* contradiction is in cycle 29 ")

    def test_at_a_silence_and_where_it_is_said(self):
        """Behind the middle a silence comes, and the log is cut in the first half too."""
        at = self.cut(lambda ns: ns + 400_000_000 * (ns >= 100_000_000))
        found = self.object("--part", "0.05", status=0)
        self.assertEqual([part["cycles"][0]["cycle"] for part in found["parts"]], [0, 10, 20])
        self.assertRegex(self.one_line(self.observe("--part", "0.05", status=0)), rf"Part 3 of 3, from {float(at):g}\d* s to 0\.")
        # It is cut once where both say so, and in the order of times.
        found = self.object("--part", f"{float(at)}", "--part", "0.05", "--part", "0.05", status=0)
        self.assertEqual(len(found["parts"]), 3)

    def test_sync_is_stated_of_the_part_that_has_the_cycle(self):
        for cycle, wanted in ((4, [True, False]), (30, [False, True]), (50, [False, False])):
            at = str(float(self.cut(more=f"in_sync_from_cycle = {cycle}\n")))
            found = self.object("--part", at, status=0)
            self.assertEqual([f"since,{cycle}" in self.read(part["folder"], "log.csv") for part in found["parts"]], wanted)

    def test_times_that_cut_nothing(self):
        self.cut()
        for second in ("0", "900"):
            told = self.flexlab("observe", *COLUMNS, "-o", "seen", "bus.csv", "net.toml", "--part", second, status=2)[1]
            self.assertIn(f"--part {second}: the frames that are taken do not come before it and from it on", told)
        told = self.flexlab("observe", *COLUMNS, "-o", "seen", "bus.csv", "net.toml", "--part", "x", status=2)[1]
        self.assertIn("is no number of seconds", told)


if __name__ == "__main__":
    unittest.main()
