"""From power-on: who leads is what flexray cold tells, the rest what the run of the others tells; and how soon clocks settle."""
import json
import os
import re
import unittest

from bench import EXAMPLE, REPOSITORY, Bench, edited, needs

# The example without its two-faced node, with limits that suffice for nodes that join.
PLAIN = edited(("pRateCorrectionOut = 81", "pRateCorrectionOut = 85"), ("pOffsetCorrectionOut = 320", "pOffsetCorrectionOut = 572"),
               ("gdActionPointOffset = 10", "gdActionPointOffset = 15"), ("double_cycles = 200", "double_cycles = 20"),
               ("key_slot = 3\n", "key_slot = 3\ncoldstart = true\n"))
PLAIN = re.sub(r"# A two-faced node: it.*?\n\n", "", PLAIN, flags=re.S)


def times(page):
    """Of each node its part and its times."""
    return {int(node): (part, *found.split()) for node, part, found in re.findall(
        r"^ +(\d+)  (\w[\w ]*?) {2,}([\d. -]+)$", page, re.M)}


class Power(Bench):
    def power(self, text, *words, status=0):
        self.write("a.toml", text)
        return self.flexlab("power", *words, "a.toml", status=status)[0]

    def test_all_are_switched_on_at_once(self):
        page = self.power(PLAIN)
        told = self.flexray("cold", "a.lab/params.csv", "a.lab/power.csv")[1]
        self.assertEqual(told, self.read("a.lab", "cold.txt"))
        self.assertIn("lead 1 at 30001\nleading 1\n", told)
        self.assertIn("node 1 from 30.001 ms on (macrotick 30001)", page)
        script = self.read("a.lab", "joined", "script.csv")
        self.assertEqual(script, "join,0,2,1,,,\njoin,0,3,1,,,\njoin,3,4,1,,,\njoin,3,5,1,,,\njoin,3,6,1,,,\n")
        # The times are those of the trace: the leader's cycle 0 is at 0 of the run.
        starts = {(int(words[1]), int(words[2])): int(words[3]) for words in (
            line.split(",") for line in self.read("a.lab", "joined", "trace.csv").splitlines()) if words[0] == "cycle"}
        found = times(page)
        for node, cycle in ((2, 6), (3, 6), (4, 12), (5, 12), (6, 12)):
            self.assertEqual(min(at for at, number in starts if number == node), cycle)
            first = min(start for (at, _), start in starts.items() if at == cycle)
            self.assertAlmostEqual(float(found[node][4]), 30.001 + first * 25 / 10 ** 12, delta=0.00051)
        self.assertEqual(found[1], ("leads", "0.000", "0.000", "-", "30.001"))
        self.assertIn(f"All in sync     from {found[6][4]} ms on", page)
        self.assertIn("  covered       yes", page)
        self.assertIn("that it is the one switched on first", self.one_line(page))
        for part in ("Proved", "Seen", "Left out"):
            self.assertIn(f"\n{part} ", page)

    def test_times_of_power(self):
        page = self.power(PLAIN + "[[power]]\nnodes = [1, 3]\non_us = 500\n[[power]]\nnodes = 5\non_ms = 200.5\n")
        self.assertEqual(self.read("a.lab", "power.csv"), "cycles,12,\non,1,500\non,2,0\non,3,500\n")
        found = times(page)
        self.assertEqual((found[2][0], found[1][:2]), ("leads", ("coldstart", "0.500")))
        # Node 5 listens from the first double cycle on that begins behind its switch.
        self.assertTrue(200.5 <= float(found[5][2]) < 210.5)
        self.assertIn(f"from {found[5][4]} ms on", page)

    def test_a_leader_that_is_switched_off(self):
        page = self.power(PLAIN + "[[power]]\nnodes = 1\noff_macroticks = 40000\n[[power]]\nnodes = 2\non_macroticks = 5\n")
        leads = re.findall(r"^lead (\d+) at (\d+)$", self.read("a.lab", "cold.txt"), re.M)
        self.assertEqual([node for node, _ in leads][0], "1")
        self.assertIn(f"node {leads[-1][0]} from {int(leads[-1][1]) / 1000:.3f} ms on", page)
        self.assertIn("and is switched off later", self.one_line(page))
        self.assertIn("node 1 is not in the run: it is off by then", page)
        self.assertNotIn("node,1,", self.read("a.lab", "joined", "params.csv"))

    def test_none_leads(self):
        page = self.one_line(self.power(PLAIN + "[[power]]\nnodes = [1, 2, 3]\non_ms = 1\noff_ms = 20\n", status=1))
        self.assertIn("NOBODY at the end node 1 is on for 19.000 ms, and leading takes 30.001 ms", page)
        page = self.one_line(self.power(PLAIN.replace("coldstart = true\n", ""), status=1))
        self.assertIn("the cluster has no correct coldstart node", page)

    def test_coldstart_nodes_that_do_not_hear_each_other(self):
        text = PLAIN.replace("key_slot = 3\ncoldstart = true", "key_slot = 3")
        text = re.sub(r'(key_slot = 1 .*\nchannels = )"AB"', r'\1"A"', text)
        text = re.sub(r'(key_slot = 2\nchannels = )"AB"', r'\1"B"', text)
        text = text.replace('from = 1\nto = [3, 4]\nchannels = "B"', 'from = 1\nto = [3, 4]\nchannels = "A"')
        page = self.one_line(self.power(text, status=1))
        self.assertIn("nodes 1 and 2 share no channel, so nothing keeps both from leading", page)
        self.assertIn("MORE THAN ONE at the end nodes 1 and 2 all lead", page)
        self.assertIn("Proved nothing of this startup", page)

    def test_no_channel_in_common_with_the_leader(self):
        text = re.sub(r'(key_slot = 1 .*\nchannels = )"AB"', r'\1"B"', PLAIN)
        page = self.one_line(self.power(text))
        self.assertIn("node 5 is not in the run: it has no channel in common with node 1, which leads", page)

    def test_limits_that_do_not_suffice(self):
        page = self.one_line(self.power(PLAIN.replace("pOffsetCorrectionOut = 572", "pOffsetCorrectionOut = 320")))
        self.assertIn("covered NO: nothing is promised by the classical bound", page)
        self.assertIn("check C7 fails, see below", page)
        self.assertRegex(page, r"Checks C1 to C9 hold, those of the precision; .* checks C7 of the classical bound fails; the precision does "
                               r"not rest on them")

    def test_one_coldstart_node(self):
        text = re.sub(r"(key_slot = [23]\n(?:channels = \"AB\"\n)?)coldstart = true\n", r"\1", PLAIN)
        page = self.one_line(self.power(text))
        self.assertIn("WARNING one coldstart node starts no cluster by the standard", page)

    def test_as_json(self):
        found = json.loads(self.power(PLAIN, "--json", "--require", "covered,in-sync"))
        self.assertEqual((found["leader"], found["leads"][0]["macrotick"]), (1, 30001))
        self.assertEqual([node["node"] for node in found["nodes"]], [1, 2, 3, 4, 5, 6])
        self.assertEqual(found["all_in_sync_ms"], max(node["takes_part_ms"] for node in found["nodes"]))
        self.assertTrue(found["run"]["covered"])
        self.power(PLAIN.replace("pOffsetCorrectionOut = 572", "pOffsetCorrectionOut = 320"), "--require", "covered", status=7)

    def test_wrong_tables(self):
        for rows, told in (("nodes = 1\non_ms = 1\noff_ms = 1\n", "off has to be later"),
                           ("nodes = 9\n", "there is no node 9"),
                           ("nodes = 1\non_ms = 1\non_us = 1\n", "power[1].on_us: it wants one of `on_ms`"),
                           ("node = 1\n", "power[1].node: there is no such key; did you mean `nodes`?"),
                           ("nodes = 1\non_ms = 16001\n", "power[1].on_ms: 16001 is not a number from 0 to 16000 ms"),
                           ("nodes = 1\n[[power]]\nnodes = 1\non_ms = 4\n", "node 1 is on already by an earlier table")):
            with self.subTest(rows=rows):
                self.write("a.toml", PLAIN + "[[power]]\n" + rows)
                self.assertIn(told, self.flexlab("power", "a.toml", status=5)[1])

    @needs("gnuplot")
    def test_the_picture(self):
        self.power(PLAIN, "--pictures")
        picture = self.read("a.lab", "power.svg")
        for text in ("node 1 leads", "all in sync", "takes part", "listens"):
            self.assertIn(text, picture)


class Settle(Bench):
    def settle(self, text, *words, status=0):
        self.write("a.toml", text)
        return self.one_line(self.flexlab("settle", *words, "a.toml", status=status)[0])

    def test_it_is_what_flexray_settle_tells(self):
        page = self.settle(PLAIN)
        # Node 2 starts 1.5 us late; the oscillators are 150 ppm fast and slow.
        told = self.flexray("settle", "a.lab/params.csv", "60000000", "60000000")[1]
        double, peak = re.search(r"settles (\d+)", told)[1], int(re.search(r"peak (\d+)", told)[1])
        self.assertIn("first starts lie at most 1.500 us apart, the lengths of the first two cycles 1.500 us (300.00 ppm)", page)
        self.assertIn(f"Classical in sync by the classical bound in double cycle {double} at the latest (cycle {2 * int(double)}, {10 * int(double)}.000 ms)", page)
        self.assertIn(f"further apart than {peak * 25 / 10 ** 9:.3f} us", page)

    def test_as_far_apart_as_is_said(self):
        page = self.settle(PLAIN, "--start-us", "4", "--rate-ppm", "100.5")
        told = self.flexray("settle", "a.lab/params.csv", "160000000", "20100000")[1]
        self.assertIn("in sync by the classical bound in double cycle " + re.search(r"settles (\d+)", told)[1], page)
        self.settle(PLAIN, "--start-us", "x", status=2)
        self.settle(PLAIN, "--start-us", "99999999", status=2)

    def test_when_they_are_in_sharp_sync(self):
        page = self.settle(PLAIN)
        told = self.flexray("settle", "a.lab/params.csv", "60000000", "60000000", "sharp", "0")[1]
        double, peak = re.search(r"alone settles (\d+)", told)[1], int(re.search(r"alone peak (\d+)", told)[1])
        self.assertIn(f"In sync in double cycle {double} at the latest (cycle {2 * int(double)}, {10 * int(double)}.000 ms): "
                      "proved of covered runs that begin so, without arbitrary nodes", page)
        self.assertIn(f"further apart than {peak * 25 / 10 ** 9:.3f} us", page)
        page = self.settle(EXAMPLE)
        told = self.flexray("settle", "a.lab/params.csv", "60000000", "60000000", "sharp", "0")[1]
        self.assertIn(f"In sync in double cycle {re.search(r'beside settles (.*)', told)[1]} at the latest", page)
        self.assertIn("Classical NOT PROVED: a check of the classical bound for the way there fails check C3 for the way fails", page)
        self.assertNotIn("turn pOffsetCorrectionOut", page)
        # In sync by the precision lengths of even cycles count alone.
        page = self.settle(PLAIN + '[[oscillator]]\nnodes = 1\ncycles = "1-"\nppm = 199\n')
        self.assertIn(f"further apart than {peak * 25 / 10 ** 9:.3f} us, ", page)
        self.assertIn("(349.00 ppm)", page)

    def test_a_check_for_the_way_fails(self):
        page = self.settle(edited(("start_us = 1.5", "start_us = 9")), status=1)
        self.assertIn("In sync NOT PROVED: a check for the way there fails check C3 for the way fails", page)
        self.assertIn("Classical NOT PROVED: a check of the classical bound for the way there fails check C3 for the way fails", page)
        self.assertEqual(page.count("give a lower START or RATE"), 2)
        told = self.flexlab("explain", "settle", "a.lab/params.csv", "360000000", "60000000", "sharp", "0")[0]
        self.assertIn("it asks: pOffsetCorrectionOut * Qm >= reach + E1 + Qp", told)
        self.assertEqual(told.count("settles no check 3"), 2)

    def test_nodes_that_join(self):
        self.write("a.toml", PLAIN + "[[join]]\nnode = 5\nreference = 1\ndouble_cycle = 1\n")
        self.assertIn("nodes join it", self.flexlab("settle", "a.toml", status=5)[1])


class Documents(unittest.TestCase):
    def test_every_table_is_told(self):
        from flexlab.toml.source import KEYS
        with open(os.path.join(REPOSITORY, "docs", "FLEXLAB.md"), encoding="utf-8") as file:
            text = file.read()
        for name in KEYS:
            self.assertRegex(text, rf"`\[?\[{name}\]\]?`")


if __name__ == "__main__":
    unittest.main()
