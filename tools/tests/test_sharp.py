"""The sharper bounds: the formulas are those of flexray bound, a run is told by them first, and what the older bound asks
besides is told with what it does to the clocks."""
import itertools
import json
import os
import re
import subprocess
import unittest

from bench import EXAMPLE, FLEXRAY, REPOSITORY, SERIES, Bench, edited, needs, needs_series
from flexlab.runs import least, sharp
from flexlab.runs.every_gap import every_gap
from flexlab.base import ranges
from flexlab.program import report
from flexlab.toml.cluster import read_cluster
from flexlab.base.ending import Stop
from flexray import texts

with open(os.path.join(REPOSITORY, "examples", "sharp", "sharp.toml"), encoding="utf-8") as file:
    PRODUCTION = file.read()
SHORT = ("double_cycles = 60", "double_cycles = 20")
TWO_FACED = '[[two_faced]]\nnode = 4\ncycles = "all"\nearly = [1, 3]\nlate = [2, 5]\nmicroticks = 100\n'
JOINS = "[[join]]\nnode = 7\nreference = 1\ndouble_cycle = 5\n"
# Each delay of the run is the least in even cycles and the greatest in odd ones, and the clocks are perfect.
WALK = [(f"ppm = {ppm}\n", "ppm = 0\n") for ppm in (95, -95, 40, -20, 60, -60, 10, -10)]
EVEN_AND_ODD = "".join(f"[[delay]]\nns = {300 if cycle % 2 else 50}\nfrom_cycle = {cycle}\n" for cycle in range(140))


def produced(*changes):
    return edited(*changes, text=PRODUCTION)


class Case(Bench):
    def page(self, text, *words, series=True):
        self.write("a.toml", text)
        return self.one_line(self.flexlab("run", *words, "a.toml", env={"FLEXRAY_SERIES": SERIES} if series and SERIES else None)[0])

    def cluster(self, text):
        return read_cluster(self.write("a.toml", text))

    def told(self, flutter, *last, folder="a.lab"):
        """What flexray bound prints of the sharper bounds."""
        status, text, _ = self.flexray("bound", f"{folder}/params.csv", "sharp", str(flutter), *last)
        self.assertEqual(status, 0)
        return report.read_sharp_bounds(text)


class Formulas(Case):
    def test_they_are_those_of_flexray_bound(self):
        for text in (EXAMPLE, PRODUCTION, produced(("Damping = 2", "Damping = 0")), produced(("change_ppm_per_cycle = 0",
                                                                                           "change_ppm_per_cycle = 7")),
                     produced(("key_slot = 3\n", "key_slot = 77\n"), ("pRateCorrectionOut = 601", "pRateCorrectionOut = 30"))):
            cluster = self.cluster(text)
            self.flexlab("build", "a.toml")
            for flutter in (0, 1, 2000000, sharp.MOST):
                told, joined = self.told(flutter), self.told(flutter, "join")
                for beside, name in ((False, "alone"), (True, "beside")):
                    last = max(node.key_slot or 0 for node in cluster.nodes.values())
                    found, bounds = least.sharp_bounds_of(cluster.parameters, least.Kind(beside, flutter, last)), told[name]
                    self.assertEqual(found.is_held, bounds.is_held)
                    self.assertEqual([*(found[one] for one in ("lambda", "pi", "precision")), found.lasts],
                                     [bounds.lambda_, bounds.pi, bounds.precision, bounds.lasts])
                    self.assertEqual([(number, least.holds(number, found[number]), *found[number]) for number in range(1, 6)],
                                     bounds.checks)
                    self.assertEqual(bounds.flutter, flutter)
                    bounds = joined[name]
                    self.assertEqual((found["reach"], found.first_rates), (bounds.reach, bounds.lasts))
                    self.assertEqual([(number, least.holds(number, found[number]), *found[number]) for number in range(1, 10)],
                                     bounds.checks)

    def test_the_least_value_that_meets_a_check(self):
        p = dict(self.cluster(produced(("Damping = 2", "Damping = 0"), ("pRateCorrectionOut = 601", "pRateCorrectionOut = 30"),
                                       ("pOffsetCorrectionOut = 127", "pOffsetCorrectionOut = 9"),
                                       ("gdStaticSlot = 24", "gdStaticSlot = 3"),
                                       ("gdActionPointOffset = 4", "gdActionPointOffset = 1"))).parameters)
        kind = least.Kind(True, 3000000, 8)
        for number in range(1, 6):
            name, now, value = least.sharp_advise(number, p, kind)
            self.assertEqual(now, p[name])
            self.assertFalse(least.holds(number, least.sharp_bounds_of({**p, name: value - 1}, kind)[number]), name)
            self.assertTrue(least.holds(number, least.sharp_bounds_of({**p, name: value}, kind)[number]), name)
        self.assertIsNone(least.sharp_advise(4, {**p, "pMicroPerCycle": 4000}, kind)[2])

    def test_values_that_meet_them_all(self):
        for text in (produced(("Damping = 2", "Damping = 0"), ("pOffsetCorrectionOut = 127", "pOffsetCorrectionOut = 9"),
                              ("pRateCorrectionOut = 601", "pRateCorrectionOut = 30"), ("change_ppm_per_cycle = 0",
                                                                                         "change_ppm_per_cycle = 9")), PRODUCTION):
            p, kind = self.cluster(text).parameters, least.Kind(True, 2000000, 8)
            damping = least.least_sharp_damping(p, kind)
            found, why = least.least_sharp(p, kind, damping)
            self.assertIsNone(why)
            sides = least.sharp_bounds_of(found, kind)
            self.assertEqual([least.holds(number, sides[number]) for number in range(1, 6)], [True] * 5)
            self.assertIsNone(sides.lasts)
            self.assertFalse(least.holds(1, least.sharp_bounds_of({**p, "pClusterDriftDamping": damping - 1}, kind)[1]))
        # With both sides equal the first check holds; a microtick is 999,900 ticks at least.
        self.assertEqual([least.least_sharp_damping(p, least.Kind(True, flutter, 8)) for flutter in (999901, 999902)], [2, 3])
        self.assertIn(f"is {ranges.PARAMETERS['gdActionPointOffset'][1]} at most",
                      least.least_sharp({**p, "pMicroPerCycle": 4000}, kind, 2)[1])


class HeldWalks(Case):
    """Where C1 fails by little and oscillators do not change: the borders of what is a held walk, by arithmetic of this test."""

    # Two nodes; of 204,979 microticks a cycle a rate limit of 42 has room for a microtick and a walk of 101 ticks.
    BASE = {"pClusterDriftDamping": 1, "xChangeBound": 0, "pMicroPerCycle": 200000, "pRateCorrectionOut": 601}
    TIGHT = {"pMicroPerCycle": 204979, "pRateCorrectionOut": 42}
    NODES = "node,1,1,A,1\nnode,2,2,A,1\n"
    # Of a run in which one delay flutters by 10 ns, 0.4 microticks.
    DELAYS = "".join(f"[[delay]]\nfrom = 1\nto = 2\nns = {ns}\nfrom_cycle = {cycle}\n" for cycle, ns in ((5, 290), (6, 300)))
    # What is changed, the flutter, and whether the walk is held: each condition met just so, and missed by one.
    BORDERS = (({}, 2, True), ({}, 1, False), ({}, 666600, True), ({}, 666601, False), ({"xChangeBound": 1}, 2, False),
               (TIGHT, 102, True), (TIGHT, 103, False), ({"pClusterDriftDamping": 0}, 2, False),
               ({"pClusterDriftDamping": 2}, 999901, False), ({"pClusterDriftDamping": 2}, 999902, True),
               ({"pClusterDriftDamping": 2}, 1666500, True), ({"pClusterDriftDamping": 2}, 1666501, False))

    def files(self, changes, flutter, script=""):
        """Two clocks that agree, and one delay that flutters so much, in double cycle 1."""
        p = {**self.cluster(PRODUCTION).parameters, **self.BASE, **changes}
        rows = "".join(f"param,{name},{value},,\n" for name, value in p.items())
        wait = p["pDelayCompensation"] * 1000000
        drift = (f"doubles,6,,,,\nstart,1,0,0,,\nstart,2,0,0,,\ndelay,2,1,A,3,{wait + flutter}\ndelay,2,1,A,4,{wait}\n")
        nodes = self.NODES + ("node,3,,A,0\n" if "join" in script else "")
        return p, [self.write(f"{name}.csv", text) for name, text in (("params", rows + nodes), ("drift", drift), ("script", script))]

    @staticmethod
    def walks(p, flutter):
        """For how many double cycles the rate limit holds the walk, None for on and on, and whether it is held."""
        short, damping, change = 1000000 - p["xRateBound"], p["pClusterDriftDamping"], p["xChangeBound"]
        longest = p["pMicroPerCycle"] + p["pRateCorrectionOut"]
        walk = flutter + (2 * longest + p["pOffsetCorrectionOut"] + 1) * change - 1 + (
            short * (1 - damping) if damping else 1000000 + p["xRateBound"])
        room = p["pRateCorrectionOut"] * short - 2 * p["pMicroPerCycle"] * p["xRateBound"]
        return (None if walk <= 0 else room // walk), change == 0 and walk > 0 and 3 * walk < 2 * short and room - walk >= short - 1

    @needs_series
    def test_bound_series_and_report_agree(self):
        for changes, flutter, held in self.BORDERS:
            with self.subTest(changes=changes, flutter=flutter):
                p, paths = self.files(changes, flutter)
                number, is_held = self.walks(p, flutter)
                self.assertEqual(is_held, held)
                lasts = None if held else number
                told = texts.sharp_bound(self.flexray("bound", paths[0], "sharp", str(flutter))[1])
                self.assertEqual((told.lasts, told.alone.checks[0].holds), (lasts, number is None))
                lost = texts.lost_bound(self.flexray("bound", paths[0], "sharp", str(flutter), "lost", "1")[1])
                self.assertEqual(lost.lasts, number)
                series = texts.sharp_series(subprocess.run([SERIES, *paths, "sharp"], capture_output=True, text=True, check=True).stdout)
                told = texts.sharp_report(self.flexray("run", *paths, "sharp")[1])
                self.assertEqual((series.flutter, series.sharp_synced), (flutter, 0))
                for one, covered in ((series, series.sharp_covered), (told, told.covered)):
                    self.assertEqual(one.lasts, lasts if covered else number)
                self.assertEqual(series.sharp_covered, told.covered)
                found = least.sharp_bounds_of(p, least.Kind(False, flutter, 2))
                self.assertEqual((found.lasts, found.walks, found.is_held), (lasts, number, held))

    @needs_series
    def test_a_lost_frame_and_a_node_that_joins_have_the_number(self):
        for script in ("lose,4,2,1,A,,\n", "join,2,3,1,,,\n"):
            with self.subTest(script=script):
                p, paths = self.files({}, 400000, script)
                number = self.walks(p, 400000)[0]
                series = texts.sharp_series(subprocess.run([SERIES, *paths, "sharp"], capture_output=True, text=True, check=True).stdout)
                told = texts.sharp_report(self.flexray("run", *paths, "sharp")[1])
                self.assertEqual(series.sharp_covered, "join" in script, series.sharp_gap)
                if "join" in script:
                    bound = texts.sharp_bound(self.flexray("bound", paths[0], "sharp", "400000", "join")[1])
                    self.assertEqual((bound.lasts, series.lasts), (None, bound.first_rates_last))
                    self.assertIsNotNone(series.lasts)
                else:
                    self.assertEqual((series.lasts, told.lasts), (number, number))

    def test_the_least_damping_with_which_it_lasts(self):
        p = self.cluster(PRODUCTION).parameters
        for flutter in (0, 1, 2, 500000, 666600, 666601, 999901, 999902, 1666500, 1666501, 5000000, sharp.MOST):
            kind = least.Kind(False, flutter, 8)
            damping = least.least_lasting_damping(p, kind)
            on = [least.sharp_bounds_of({**p, "pClusterDriftDamping": value}, kind).lasts is None for value in range(damping + 3)]
            self.assertEqual(on, [False] * damping + [True] * 3, flutter)
            self.assertEqual(least.least_lasting_damping(p, kind, True), least.least_sharp_damping(p, kind))
            tight, why = least.least_sharp({**p, "pRateCorrectionOut": 1}, kind, damping)
            self.assertIsNone(why)
            self.assertIsNone(least.sharp_bounds_of(tight, kind).lasts)
            less = least.sharp_bounds_of({**tight, "pRateCorrectionOut": tight["pRateCorrectionOut"] - 1}, kind)
            self.assertTrue(less.lasts is not None or not least.holds(2, less[2]), flutter)
        # A rate limit without room for a microtick: then C1 has to hold.
        narrow = {**p, "pRateCorrectionOut": 41}
        self.assertEqual([least.least_lasting_damping(narrow, least.Kind(False, flutter, 8)) for flutter in (1, 2)], [1, 2])
        self.assertEqual([least.least_lasting_damping({**p, "xChangeBound": change}, least.Kind(False, 1, 8)) for change in (0, 1)], [1, 2])

    @needs_series
    def test_what_a_page_says(self):
        text, env = produced(SHORT, ("Damping = 2", "Damping = 1")) + self.DELAYS, {"FLEXRAY_SERIES": SERIES}
        page = self.page(text)
        self.assertIn("Covered yes", page)
        self.assertIn("Checks C1 fails, 999901 against 1399900, but the walk is held: no oscillator changes, so where no frame is lost", page)
        for told in ("since C1 fails", "PROVED IN PART", "turn pClusterDriftDamping", "Ways"):
            self.assertNotIn(told, page)
        found = json.loads(self.flexlab("run", "--json", "a.toml", env=env)[0])
        told = found["sharp"]
        self.assertEqual((told["lasts_double_cycles"], told["proved_before_double_cycle"], found["verdict"]["until_cycle"]), (None,) * 3)
        self.assertEqual((told["checks"][0]["holds"], len(told["checks"][0]["told"])), (False, 1))
        table = self.flexlab("precision", "a.toml", env=env)[0]
        self.assertRegex(table, r"\nproved, no arbitrary +\S+ +\S+ +C1 \(held\) +on +100\.0 %")
        self.assertIn("held: C1 fails, but the walk is held, so it lasts", self.one_line(table))
        self.assertNotIn("since C1 fails", table)
        case = json.loads(self.flexlab("case", "a.toml", "--flutter-ns", "10", "--json")[0])
        self.assertIsNone(case["lasts_double_cycles"])
        self.assertIn("it fails, but the walk is held", self.read("a.case.html"))
        self.flexlab("build", "a.toml")
        self.assertIn("C1 fails, 999901 against 1399900, but the walk is held",
                      self.one_line(self.flexlab("explain", "bound", "a.lab/params.csv", "sharp", "400000")[0]))
        self.assertIn("C1 asks for 2 at least",
                      self.one_line(self.flexlab("explain", "bound", "a.lab/params.csv", "sharp", "400000", "join")[0]))

    @needs_series
    def test_where_a_frame_is_lost_the_walk_counts(self):
        lost = '[[lose]]\nfrom = 1\nto = 2\ncycles = 20\n'
        text = produced(SHORT, ("Damping = 2", "Damping = 1")) + self.DELAYS + lost
        self.assertIn("covered through losses: from double cycle 2 on, for 1402 double cycles, the clocks lie no further apart", self.page(text))
        found = json.loads(self.flexlab("run", "--json", "a.toml", env={"FLEXRAY_SERIES": SERIES})[0])["sharp"]
        self.assertEqual((found["covered"], found["lasts_double_cycles"]), (False, 1402))

    @needs_series
    def test_where_frames_are_lost_and_a_node_joins(self):
        """Node 7 listens in double cycle 5. Before it has begun all may be lost, and behind that two frames, but not all; and it is promised
        for as long as the rate limit suffices for first rates."""
        everything, two = '[[lose]]\nfrom = "all"\nto = "all"\ncycles = "{}"\n', '[[lose]]\nfrom = 1\nto = 2\ncycles = "20-23"\n'
        covered = "covered through losses: from double cycle 2 on, to the end, the clocks of nodes that take part lie no further apart than"
        limit = ("pRateCorrectionOut = 601", "pRateCorrectionOut = 41")
        for changes, lost, told in (((), everything.format("10-11"), f"{covered} 1.875 us, the number of double cycle 6"),
                                    ((), two, f"{covered} 1.819 us, the number of double cycle 12"),
                                    ((), everything.format("20-21"), "nothing is proved of this run through losses"),
                                    ((limit,), two, "covered through losses, but C6 fails: the rate limit does not suffice for the first")):
            with self.subTest(changes=changes, lost=lost):
                self.assertIn(told, self.page(produced(SHORT, *changes) + JOINS + lost))

    @needs_series
    def test_ways_are_those_of_a_held_walk(self):
        page = self.page(produced(SHORT, ("Damping = 2", "Damping = 0")) + self.DELAYS)
        self.assertIn("C1 asks for 2 at least; or let delays flutter less", page)
        self.assertIn("a damping of 1 suffices all the same: with that the walk is held", page)
        self.assertIn("1. all checks but C1 hold, and the walk is held, with pClusterDriftDamping = 1. Precision", page)
        self.assertIn("1. all checks hold with pClusterDriftDamping = 2. Precision",
                      self.page(produced(SHORT, ("Damping = 2", "Damping = 0")) + self.DELAYS + JOINS))


class Flutter(Case):
    def flutter(self, *rows, text=PRODUCTION):
        return sharp.flutter_of(self.cluster(text + "".join(f"[[delay]]\nfrom = 1\nto = 2\nticks = {ticks}\nfrom_cycle = {cycle}\n"
                                                            for cycle, ticks in rows)))

    def test_it_is_that_within_double_cycles(self):
        # From node 1 to node 2 a delay is 300 ns, or 12,000,000 ticks; where none is said it is the compensation.
        self.assertEqual(self.flutter(), 0)
        self.assertEqual(self.flutter((2, 11000000), (4, 9000000)), 0)
        self.assertEqual(self.flutter((3, 11000000), (4, 9000000), (9, 9000400)), 1000000)
        self.assertEqual(self.flutter((2, 5000000), (3, 5000300), (4, 9000000), (7, 8999600)), 400)
        self.assertEqual(self.flutter((119, 12000001), (121, 1)), 1)
        without = edited(('[[delay]]\nfrom = "all"\nto = "all"\nns = 175\n', ""), ("to = [2, 3, 4]", "to = [3, 4]"), text=PRODUCTION)
        self.assertEqual(self.flutter((5, 7000009), text=without), 9)
        self.assertEqual(self.flutter((5, 7000009), (5, 6000000), (6, 7000000), text=without), 1000000)
        self.assertEqual(self.flutter((5, 7000009), text=edited(("key_slot = 1\n", ""), ("coldstart = true", "coldstart = false"),
                                                                text=without)), 0)

    def test_its_place_is_the_last_double_cycle_and_the_first_delay_in_it(self):
        def place(text, since=0):
            return sharp.greatest_turn(self.cluster(text), since)

        def steps(*rows):
            return "".join(f"[[delay]]\nfrom = {sender}\nto = {to}\nticks = {ticks}\nfrom_cycle = {cycle}\n" for sender, to, cycle, ticks in rows)

        text = PRODUCTION + steps((3, 1, 7, 6999000), (3, 1, 9, 6998000), (2, 4, 8, 2000000), (2, 4, 9, 2001000), (1, 2, 11, 11999999))
        self.assertEqual(place(text)[:3] + place(text)[4:], (1000, 2, 4, 4))
        self.assertEqual(place(text + TWO_FACED)[:3], (1000, 3, 1))
        self.assertEqual(place(text, 5), (1, 1, 2, "A", 5))
        self.assertIsNone(place(text, 6))
        self.assertEqual(place(text + steps((5, 6, 13, 6999000), (5, 6, 14, 7000000)))[:3], (1000, 5, 6))
        self.assertIsNone(place(PRODUCTION))
        self.assertEqual(sharp.flutters_of(self.cluster(text))[:7], [1000] * 5 + [1, 0])

    def test_from_a_double_cycle_on(self):
        """Gaps of the double cycles from one on: each with the value that holds there."""
        cluster = self.cluster(PRODUCTION + '[[oscillator]]\nnodes = 1\ncycles = "2-5"\nppm = 300\n'
                               '[[lose]]\nfrom = 1\nto = 2\ncycles = "4-5"\n[[delay]]\nfrom = 3\nto = 1\nns = 900\nfrom_cycle = 4\n')
        self.assertEqual([[gap[0] for gap in every_gap(cluster, since)] for since in range(5)],
                         [["length", "change", "delay", "link"]] * 3 + [["delay"]] * 2)
        self.assertEqual([gap[2] for gap in every_gap(cluster, 2)[:2]], ["4", "6"])
        self.assertEqual([every_gap(cluster, since)[-1][-2:] for since in (3, 4)], [["6", "36000000"], ["8", "36000000"]])

    def test_of_which_bounds_a_run_is(self):
        self.assertEqual(sharp.kind_of(self.cluster(PRODUCTION), 5), least.Kind(False, 5, 8))
        # A key slot of an arbitrary node is one too; and no more is stated than flexray bound takes.
        cluster = self.cluster(produced(("key_slot = 4\n", "key_slot = 90\n")) + TWO_FACED)
        self.assertEqual(sharp.kind_of(cluster, 30000000), least.Kind(True, sharp.MOST, 90))


class Pages(Case):
    @needs_series
    def test_a_cluster_of_production_shape(self):
        page = self.page(PRODUCTION)
        bounds = self.told(0)["alone"]
        self.assertEqual((bounds.precision, bounds.gap, bounds.lasts), (36003994, None, None))
        self.assertIn("covered no check 1", self.read("a.lab", "report.txt"))
        self.assertIn("covered NO: nothing is promised by the classical bound of this run", page)
        self.assertIn("Covered yes: while in sync no macroticks of correct nodes lie further apart than the "
                      "precision; that is proved of such runs", page)
        self.assertIn("Precision 0.900 us (36.004 microticks), without arbitrary nodes, for delays that flutter by 0.000 us",
                      page)
        told = report.read_series(self.read("a.lab", "series.csv"))
        first, skew = told.sharp_synced, told.sharp_greatest
        self.assertIn(f"In sync yes, from double cycle {first} on (cycle {2 * first}, {10 * first}.000 ms), and still in sync at the end",
                      page)
        self.assertRegex(page, rf"Skew in sync {skew.ticks * 25 / 10 ** 9:.3f} us at most since it was first in sync, [\d.]+ % of the "
                               rf"precision \(cycle {skew.cycle}, macrotick {skew.macrotick}\) Within yes")
        self.assertRegex(page, r"Later skew .*? % of the precision")
        self.assertIn("before sync, so it is not to be held against the precision", page)
        self.assertIn("C1 to C5 hold, those of the precision; C1 is the tightest, used to 50.0 %; a damping of 1 would "
                      "suffice", page)

    @needs_series
    def test_where_the_checks_hold_no_damping_is_advised(self):
        page = self.page(produced(SHORT))
        self.assertNotIn("Ways", page)
        self.assertNotIn("turn pClusterDriftDamping", page)
        asked = re.search(r"C1, C3 and C4 of the classical bound fail; the precision does not rest on "
                          r"them\. They ask for (.*?) besides; the classical bound is then ([\d.]+) us, and simulated skew ([\d.]+) us at "
                          r"most from cycle (\d+) on, ([\d.]+) times what it is now: that makes the clocks worse", page)
        self.assertIsNotNone(asked, page)
        self.assertGreater(float(asked[5]), 3)
        values = dict(one.split(" = ") for one in asked[1].split(", "))
        self.assertIn("pClusterDriftDamping", values)
        text = produced(SHORT)
        for name, value in values.items():
            text = re.sub(rf"^{name} = \d+", f"{name} = {value}", text, flags=re.M)
        again = self.page(text, "--from", asked[4])
        self.assertIn("Covered yes", again)
        self.assertIn(" checks those of the classical bound hold too", again)
        self.assertIn(f"that flexray run prints: {asked[2]} us", again)
        self.assertIn(f"as asked: {asked[3]} us at most", again)

    @needs_series
    def test_beside_an_arbitrary_node(self):
        page = self.page(produced(SHORT) + TWO_FACED)
        self.assertIn("Covered yes", page)
        self.assertIn("Precision 2.475 us (99.011 microticks), beside arbitrary nodes", page)
        text = re.sub(r"(id = [5-8]\n)key_slot = \d\n(.*\n)coldstart = true\n", r"\1\2", produced(SHORT))
        other = TWO_FACED.replace("node = 4", "node = 3")
        page = self.page(text + "".join(one.replace("[1, 3]", "1").replace("[2, 5]", "2") for one in (TWO_FACED, other)))
        self.assertIn("Covered NO: nothing is promised of this run's precision 2 correct sync nodes do not outweigh 2 "
                      "arbitrary ones", page)

    @needs_series
    def test_the_first_check_decides_how_long_it_is_proved(self):
        page = self.page(produced(("Damping = 2", "Damping = 0"), SHORT))
        self.assertIn("Covered yes", page)
        self.assertIn("proved of 560 double cycles from there (5600.000 ms), since C1 fails and the walk is not held: "
                      "to the end of this run", page)
        self.assertIn("turn pClusterDriftDamping: it is 0, and with all else as it is C1 asks for 1 at least", page)
        self.assertIn("1. all checks hold with pClusterDriftDamping = 1. Precision 0.750 us; covered yes", page)
        page = self.page(produced(*WALK, ("double_cycles = 60", "double_cycles = 70")) + EVEN_AND_ODD)
        self.assertIn("for delays that flutter by 0.250 us the delay of frames of node 1 at node 2 on channel A flutters by 250 ns, last in "
                      "double cycle 69, at cycle 139; a change at an even cycle is no flutter", page)
        first = int(re.search(r"In sync yes, from double cycle (\d+) on", page)[1])
        self.assertRegex(page, r"but for lengths that leave their range from double cycle \d+ on")
        self.assertIn("PROVED IN PART, of 62 double cycles from there (620.000 ms), since C1 fails and the walk is not held: "
                      f"not from cycle {2 * (first + 62)} on", page)
        self.assertIn("C1 asks for 12 at least", page)
        self.assertRegex(page, r"Later skew .*? % of the classical bound; 99 % of cycles")

    @needs_series
    def test_a_walk_that_lasts_for_no_double_cycle(self):
        page = self.page(produced(*WALK, SHORT, ("pRateCorrectionOut = 601", "pRateCorrectionOut = 45")) + EVEN_AND_ODD)
        self.assertEqual(self.told(10000000)["alone"].lasts, 0)
        self.assertIn("NOT PROVED: C1 fails, and the rate limit holds the walk of all rates for no double cycle", page)
        self.assertIn("is proved of no double cycles", page)
        self.assertIn("In sync NOT ALL THE WAY: from double cycle 0 on", page)

    @needs_series
    def test_each_way_holds_and_has_the_skew_that_it_tells(self):
        text = produced(SHORT, ("pOffsetCorrectionOut = 127", "pOffsetCorrectionOut = 50"),
                        ("gdActionPointOffset = 4", "gdActionPointOffset = 1")) + TWO_FACED
        page = self.page(text)
        self.assertIn("Covered NO: nothing is promised of this run's precision check C3 fails, see below", page)
        self.assertRegex(page, r"Later skew .*? % of the classical bound; 99 % of cycles")
        ways = re.findall(r"\d\. (all checks hold with .*?)(?=\d\. all|Frames)", page)
        self.assertEqual(len(ways), 2, page)
        skews = []
        for way in ways:
            told = re.search(r"with (.*?)\. Precision ([\d.]+) us; covered yes; simulated skew ([\d.]+) us at most from cycle "
                             r"(\d+) on", way)
            taken = text
            for name, value in (one.split(" = ") for one in told[1].split(", ")):
                taken, count = re.subn(rf"^{name} = \d+", f"{name} = {value}", taken, flags=re.M)
                self.assertEqual(count, 1, name)
            again = self.page(taken, "--from", told[4])
            self.assertIn("Covered yes", again)
            self.assertIn("C1 to C5 hold, those of the precision", again)
            self.assertIn(f"Precision {told[2]} us", again)
            self.assertIn(f"as asked: {told[3]} us at most", again)
            skews.append(float(told[3]))
        self.assertEqual(skews, sorted(skews))

    @needs("gnuplot")
    @needs_series
    def test_the_picture_has_the_precision_that_is_proved(self):
        page = self.page(produced(SHORT), "--pictures")
        first = re.search(r"In sync yes, from double cycle \d+ on \(cycle (\d+)", page)[1]
        skew = re.search(r"Skew in sync ([\d.]+) us .*?\(cycle (\d+)", page)
        picture, data = self.read("a.lab", "skew.svg"), self.read("a.lab", "skew.gnuplot")
        for told in ("precision, 0.900 us", f"in sync from cycle {first}",
                     f"greatest skew in sync, {skew[1]} us in cycle {skew[2]}"):
            self.assertIn(told, picture)
        self.assertNotIn("12.352", picture)
        self.assertIn(f"$bound0 << end\n{first} 0.900100\n40 0.900100\nend", data)
        self.page(produced(*WALK, ("double_cycles = 60", "double_cycles = 70")) + EVEN_AND_ODD, "--pictures")
        self.assertIn("$bound0 << end\n0 2.400100\n124 2.400100\nend", self.read("a.lab", "skew.gnuplot"))
        skew = re.search(r"Skew in sync ([\d.]+) us .*?\(cycle (\d+)", self.page(EXAMPLE, "--pictures"))
        picture = self.read("a.lab", "skew.svg")
        for told in ("precision, 3.756 us", "classical bound, 7.902 us", "in sync from cycle 4",
                     f"greatest skew in sync, {skew[1]} us in cycle {skew[2]}"):
            self.assertIn(told, picture)

    @needs_series
    def test_sharp_sync_that_is_lost(self):
        page = self.page(produced(SHORT, *WALK) + '[[oscillator]]\nnodes = 1\ncycles = "20-"\nppm = -1400\n')
        cycle, macrotick = report.read_series(self.read("a.lab", "series.csv")).sharp_beyond
        self.assertIn("In sync NOT ALL THE WAY: from double cycle 0 on (cycle 0, 0.000 ms) at first; lost in double cycle 10",
                      page)
        self.assertIn("Within NO: since then the skew was above the precision, first in cycle "
                      f"{cycle}, macrotick {macrotick}", page)

    def test_a_way_counts_where_flexray_says_that_it_holds(self):
        self.write("a.toml", produced(SHORT, ("pOffsetCorrectionOut = 127", "pOffsetCorrectionOut = 20")))
        other = self.write("other", "#!/bin/sh\ncase \"$*\" in\n"
                           f"    *advised*sharp*) {FLEXRAY} \"$@\" | sed 's/alone C3 holds/alone C3 fails/' ;;\n"
                           f"    *) exec {FLEXRAY} \"$@\" ;;\nesac\n")
        os.chmod(other, 0o755)
        page = self.one_line(self.flexlab("run", "--flexray", other, "a.toml")[0])
        self.assertIn("no values of these parameters are found with which all checks hold", page)
        self.assertIn("flexray bound a.lab/advised/1/params.csv: checks fail", page)

    @needs_series
    def test_nodes_that_join(self):
        page = self.page(produced(SHORT) + JOINS)
        self.assertIn("Covered yes: while in sync no macroticks of correct nodes lie further apart than the precision", page)
        self.assertIn("Precision 0.900 us", page)
        self.assertIn("Checks C1 to C9 hold, those of the precision", page)
        self.assertRegex(page, r" checks C1, .* of the classical bound fail; the precision does not rest on")
        page = self.page(produced(SHORT) + JOINS + TWO_FACED)
        self.assertIn("Covered NO: nothing is promised of this run's precision check C7 fails, see below", page)
        self.assertIn("Checks check C7 fails: 126987300 against 136866544; the offset limit has to suffice for the reach of a node that "
                      "joins turn pOffsetCorrectionOut: it is 127, and with all else as it is C7 asks for 137 at least", page)

    def test_without_the_second_program_the_same_is_known(self):
        for text in (produced(SHORT), produced(SHORT) + JOINS):
            page = self.page(text, series=False)
            self.assertIn("Covered yes: while in sync no macroticks of correct nodes lie further apart than the precision", page)
            self.assertIn("Precision 0.900 us", page)
            self.assertRegex(page, r"Skew in sync [\d.]+ us at most since it was first in sync")
        page = self.page(produced(SHORT, *WALK), series=False)
        self.assertIn("Skew in sync 0.400 us at most since it was first in sync", page)
        page = self.page(EXAMPLE, series=False)
        self.assertIn("Covered yes", page)
        self.assertIn(" checks those of the classical bound hold too", page)
        page = self.page(produced(SHORT, ("pOffsetCorrectionOut = 127", "pOffsetCorrectionOut = 9")), series=False)
        self.assertIn("Covered NO: nothing is promised of this run's precision check C3 fails, see below", page)
        page = self.page(edited(("microticks = 0.3", "microticks = 0.7")), series=False)
        self.assertIn("Covered NO: nothing is promised of this run's precision in cycle 4 frames of node 1 travel", page)

    @needs_series
    def test_delays_that_flutter_more_than_any_limit_allows(self):
        text = produced(SHORT) + "[[delay]]\nfrom = 1\nto = 2\nns = 2000\nfrom_cycle = 7\n"
        page = self.page(text)
        self.assertIn("Covered NO: nothing is promised of this run's precision a delay differs by 1.700 us between the two "
                      "cycles of a double cycle", page)
        self.assertIn("without arbitrary nodes, for delays that flutter by 0.500 us", page)
        self.assertIn("xDelayError would have to be 73000000, and is 10000000 at most", page)
        page = self.one_line(self.flexlab("precision", "a.toml", env={"FLEXRAY_SERIES": SERIES})[0])
        self.assertIn("Flutter 0.500 us: how far a delay may differ between the two cycles of a double cycle; the most that flexray "
                      "bound takes", page)
        self.assertIn("nothing is proved of this run, whose delays flutter by 1.700 us", page)

    EARLY = ("[[delay]]\nfrom = 1\nto = 2\nns = 700\nfrom_cycle = 0\n[[delay]]\nfrom = 1\nto = 2\nns = 300\nfrom_cycle = 2\n"
             "[[delay]]\nfrom = 5\nto = 6\nns = 200\nfrom_cycle = 3\n[[delay]]\nfrom = 5\nto = 6\nns = 175\nfrom_cycle = 4\n"
             '[[lose]]\nfrom = 3\nto = 4\ncycles = "0-1"\n')
    LATE = ("[[delay]]\nfrom = 2\nto = 1\nns = 180\nfrom_cycle = 8\n[[delay]]\nfrom = 2\nto = 1\nns = 190\nfrom_cycle = 11\n"
            '[[delay]]\nfrom = 2\nto = 1\nns = 180\nfrom_cycle = 12\n')

    @needs_series
    def test_what_lies_before_sync_does_not_count(self):
        """A delay outside its limit, one that flutters more, and frames that are lost, all before double cycle 2."""
        for series in (True, False):
            page = self.page(produced(SHORT) + self.EARLY + self.LATE, series=series)
            self.assertIn("Verdict proved: from cycle 4 on no macroticks of correct nodes lie further apart than 0.960 us", page)
            self.assertIn("gaps before double cycle 2, the first in sync, do not count; there are some, see below", page)
            self.assertIn("for delays that flutter by 0.010 us the delay of frames of node 2 at node 1 on channel A flutters by 10 ns, last "
                          "in double cycle 5, at cycle 11; a change at an even cycle is no flutter before double cycle 2, the first in sync, "
                          "delays flutter by up to 25 ns: that does not count", page)
            self.assertIn("Gaps in cycle 0 frames of node 1 travel 0.700 us to node 2 on channel A", page)
            self.assertEqual(page.count("that is before double cycle 2, the first in sync: for the precision it is no gap"), 2)
            self.assertNotIn("Losses", page)
            self.assertNotIn("Ways", page)
        found = json.loads(self.flexlab("run", "--json", "--require", "sharply-covered", "a.toml", env={"FLEXRAY_SERIES": SERIES})[0])
        self.assertEqual((found["sharp"]["covered"], found["sharp"]["gaps"], found["gaps"]), (True, [], ["delay 1 2 A 0 28000000", "link 3 4 0"]))
        self.assertEqual(found["sharp"]["flutter"], {"ticks": 400000, "us": 0.01, "delay": {
            "sender": 2, "receiver": 1, "channel": "A", "last_in_double_cycle": 5}})
        page = self.page(produced(SHORT) + self.EARLY + self.LATE + '[[lose]]\nfrom = 3\nto = 4\ncycles = "10-11"\n')
        self.assertIn("Verdict NOT PROVED: in double cycle 5 no channel carries the frames of node 3 to node 4 in both its cycles (cycles 10 and "
                      "11) Cluster", page)
        self.assertIn("frames are lost in 1 of 18 double cycles from double cycle 2 on, the last is double cycle 5", page)

    def test_never_in_sharp_sync(self):
        page = self.page(produced(("double_cycles = 60", "double_cycles = 1")))
        self.assertIn("In sync NEVER: no double cycle of the run is in sync", page)
        self.assertNotIn("Skew in sync", page)

    @needs_series
    def test_a_series_that_does_not_fit(self):
        self.write("a.toml", produced(SHORT))
        self.flexlab("run", "a.toml", env={"FLEXRAY_SERIES": SERIES})
        text = self.read("a.lab", "series.csv")
        for old, new, told in (("\nflutter,0,,,", "\nflutter,5,,,delay 1 2 A 3", "delays flutter by 5 ticks, and by the file it is 0"),
                               ("\nsharp,36003994,alone", "\nsharp,36003993,alone", "tells another sharper precision"),
                               ("\nsharp,36003994,alone", "\nsharp,36003994,beside", "tells another sharper precision"),
                               (",on,,\n", ",7,,\n", "tells another number of double cycles for which sharp sync lasts"),
                               ("\nsharp within,yes", "\nsharp inside,yes", "not understood: sharp inside,yes")):
            with self.subTest(new=new):
                self.assertIn(old, text)
                self.write("series.txt", text.replace(old, new))
                path = self.write("series", f"#!/bin/sh\ncat {self.path('series.txt')}\n")
                os.chmod(path, 0o755)
                self.assertIn(told, self.flexlab("run", "a.toml", env={"FLEXRAY_SERIES": path}, status=6)[1])
        rows = text.replace(",yes,all,", ",no,all,", 1)
        self.write("series.txt", rows)
        self.assertIn("that it is in sharp sync, and the trace does not",
                      self.flexlab("run", "a.toml", env={"FLEXRAY_SERIES": path}, status=6)[1])


class Table(Case):
    def table(self, text, *words):
        self.write("a.toml", text)
        return self.flexlab("precision", *words, "a.toml", env={"FLEXRAY_SERIES": SERIES} if SERIES else None)[0]

    @needs_series
    def test_the_numbers_side_by_side(self):
        page = self.table(produced(SHORT))
        self.assertRegex(page, r"\nthe standard, best case +0\.900 +36\.0 ")
        self.assertRegex(page, r"\nthe standard, worst case +2\.550 +102\.0 ")
        self.assertRegex(page, r"\nproved, no arbitrary +0\.900 +36\.0 +none +on +100\.0 %  from `In sync` on; that of this cluster\n")
        self.assertRegex(page, r"\nproved, beside arbitrary +2\.475 +99\.0 +none +on +275\.0 %  from `In sync` on\n")
        self.assertRegex(page, r"\nthe classical bound +12\.352 +494\.1 +C1, C3, C4 +1372\.2 % ")
        self.assertRegex(page, r"\nsimulated, in sync +0\.\d+ ")
        self.assertIn("Precision proved of this run, without arbitrary nodes: in sync no macroticks", self.one_line(page))

    @needs_series
    def test_another_flutter(self):
        page = self.table(produced(SHORT), "--flutter-ns", "50")
        bounds = self.told(2000000)
        self.assertRegex(page, rf"\nproved, no arbitrary +{bounds['alone'].precision * 25 / 10 ** 9:.3f} +\S+ +C1 +560 ")
        self.assertIn("for 560 double cycles from the first one on (5600.000 ms), since C1 fails and the walk is not held", self.one_line(page))
        page = self.one_line(self.table(produced(*WALK, SHORT) + EVEN_AND_ODD, "--flutter-ns", "249"))
        self.assertIn("nothing is proved of this run, whose delays flutter by 0.250 us", page)
        for words in ("501", "-1", "x", ""):
            self.assertIn("a number from 0 to 500 is wanted", self.flexlab("precision", f"--flutter-ns={words}", "a.toml", status=2)[1])

    @needs_series
    def test_where_nothing_is_proved(self):
        page = self.one_line(self.table(produced(SHORT, ("pOffsetCorrectionOut = 127", "pOffsetCorrectionOut = 20"))))
        self.assertRegex(page, r"Precision nothing is proved of this run, which has a gap \(check 3 \d+ \d+\)")
        page = self.one_line(self.table(produced(SHORT, ("pOffsetCorrectionOut = 127", "pOffsetCorrectionOut = 50")) + JOINS))
        self.assertRegex(page, r"Precision nothing is proved of this run, which has a gap \(check 7 \d+ \d+\)")
        self.assertIn("Precision proved of this run, without arbitrary nodes", self.one_line(self.table(produced(SHORT) + JOINS)))


class Machines(Case):
    @needs_series
    def test_a_run_as_an_object(self):
        self.write("a.toml", produced(SHORT))
        env = {"FLEXRAY_SERIES": SERIES}
        found = json.loads(self.flexlab("run", "--json", "a.toml", env=env)[0])
        told = report.read_series(self.read("a.lab", "series.csv"))
        sharply = found["sharp"]
        self.assertEqual((sharply["covered"], sharply["gap"], sharply["kind"], sharply["flutter"]["ticks"]), (True, None, "alone", 0))
        self.assertEqual((sharply["precision"]["ticks"], sharply["lasts_double_cycles"]), (36003994, None))
        self.assertEqual(sharply["in_sharp_sync"]["double_cycle"], told.sharp_synced)
        self.assertEqual((sharply["skew"]["ticks"], sharply["within_precision"]), (told.sharp_greatest.ticks, True))
        self.assertEqual([check["holds"] for check in sharply["checks"]], [True] * 5)
        self.assertEqual(sharply["gap_told"], [])
        self.assertEqual((found["ways"]["of"], found["ways"]["ways"]), ("sharp precision", []))
        self.assertGreater(found["ways"]["older"]["skew_us"], found["ways"]["skew_now_us"])
        self.flexlab("run", "--require", "sharply-covered,in-sync", "a.toml", env=env)
        self.assertIn("not met: covered:", self.flexlab("run", "--require", "sharply-covered,covered", "a.toml", status=7, env=env)[1])

    @needs_series
    def test_what_is_required_and_not_met(self):
        env = {"FLEXRAY_SERIES": SERIES}
        for text, told in ((produced(SHORT, ("pOffsetCorrectionOut = 127", "pOffsetCorrectionOut = 20")), "sharp covered no check 3 "),
                           (produced(SHORT) + JOINS + TWO_FACED, "sharp covered no check 7 126987300 136866544"),
                           (produced(("double_cycles = 60", "double_cycles = 1")), "never in sharp sync"),
                           (produced(*WALK, ("double_cycles = 60", "double_cycles = 70")) + EVEN_AND_ODD,
                            "what is proved ends before double cycle 6")):
            with self.subTest(told=told):
                self.write("a.toml", text)
                err = self.flexlab("run", "--require", "sharply-covered", "a.toml", status=7, env=env)[1]
                self.assertIn(f"not met: sharply-covered: {told}", err)
        for text, told in ((produced(SHORT, ("pOffsetCorrectionOut = 127", "pOffsetCorrectionOut = 20")), "turn pOffsetCorrectionOut"),
                           (produced(SHORT) + JOINS + TWO_FACED, "turn pOffsetCorrectionOut")):
            self.write("a.toml", text)
            found = json.loads(self.flexlab("run", "--json", "a.toml", env=env)[0])["sharp"]
            self.assertEqual(found["covered"], False)
            self.assertIn(told, " ".join(found["gap_told"]))
        self.write("a.toml", produced(SHORT))
        self.flexlab("run", "--require", "sharply-covered", "a.toml")

    @needs_series
    def test_a_study(self):
        self.write("a.toml", produced(SHORT))
        out = self.flexlab("study", "a.toml", "--vary", "cluster.pOffsetCorrectionOut", "--values", "20,127", "--json",
                           env={"FLEXRAY_SERIES": SERIES})[0]
        runs = json.loads(out)["runs"]
        self.assertEqual([run["sharply_covered"] for run in runs], ["no", "yes"])
        self.assertEqual([run["sharp_precision_us"] for run in runs], ["0.900100"] * 2)
        self.assertRegex(runs[0]["sharp_gap"], r"^check 3 \d+ \d+$")

    def test_an_explanation(self):
        self.write("a.toml", produced(("pOffsetCorrectionOut = 127", "pOffsetCorrectionOut = 60")))
        self.flexlab("build", "a.toml")
        told = self.one_line(self.flexlab("explain", "bound", "a.lab/params.csv", "sharp", "2000000")[0])
        self.assertIn("C1 fails 1999801 2999900 it asks: pClusterDriftDamping * Qm + 1 >= Qm + flutter + J + J1", told)
        self.assertIn("C1 asks for 4 at least", told)
        self.assertRegex(told, r"beside C3 fails \d+ \d+ it asks: pOffsetCorrectionOut \* Qm >= near \+ E1 \+ Qp")
        self.assertNotIn("alone C", told)
        out = self.flexlab("explain", "bound", "a.lab/params.csv", "sharp", "20000001", status=1)[0]
        self.assertIn("20000001 is not a whole number from 0 to 20000000, for FLUTTER", out)


class Losses(Case):
    """What losses cost is stepped here from lambda and pi, one double cycle after the other."""

    def setUp(self):
        super().setUp()
        self.p = self.cluster(PRODUCTION).parameters
        self.flexlab("build", "a.toml")

    def sides(self, alone, reach):
        """Both sides of C3 to C5 with a reach: what they need beyond it is the same as in sync."""
        macros = self.p["gMacroPerCycle"]
        return [(number, left, right + (1 if number == 3 else macros) * (reach - self.near(alone, alone.pi, alone.lambda_)))
                for number, _, left, right in alone.checks[2:]]

    def near(self, alone, starts, lengths):
        p = self.p
        act = 7 * p["gdStaticSlot"] + p["gdActionPointOffset"]  # the eighth slot is the last key slot
        return starts + lengths + act * (lengths + self.changes) // p["gMacroPerCycle"] + self.longest

    def step(self, alone, heard, starts, lengths):
        """By what is heard of both kinds of values, or of offsets and of rates."""
        offsets, rates = (heard, heard) if isinstance(heard, str) else heard
        behind = lengths + alone.pi - alone.lambda_
        return ({"all": behind, "any": starts + lengths + behind, "most": (starts + lengths + 2 * behind + self.longest) // 2}[offsets],
                {"all": alone.lambda_, "any": lengths + alone.lambda_ - self.longest, "most": (lengths + 2 * alone.lambda_) // 2}[rates])

    def costs(self, alone, pattern):
        """The numbers of the double cycles of a pattern, and the greatest reach."""
        spread, apart, reach = (alone.pi, alone.lambda_), [], 0
        for heard in pattern:
            later = self.step(alone, heard, *spread)
            apart.append(max(spread[0] + 2 * spread[1] + self.changes + 2 * self.longest, later[0] + self.longest))
            reach = max(reach, self.near(alone, *spread))
            spread = later
        return apart, reach

    def holds(self, alone, reach):
        return all(least.holds(number, least.Sides(left, right)) for number, left, right in self.sides(alone, reach))

    def test_they_are_those_of_flexray_bound(self):
        self.longest = 1_000_000 + self.p["xRateBound"]
        self.changes = 2 * (self.p["pMicroPerCycle"] + self.p["pRateCorrectionOut"]) * self.p["xChangeBound"]
        for flutter in (0, 3_000_000, sharp.MOST):
            alone, beside = self.told(flutter)["alone"], self.told(flutter)["beside"]
            # From sharp sync on the numbers grow to those beside arbitrary nodes and no further, which stay as they are.
            meeting = [self.costs(alone, pattern) for pattern in itertools.product(("most", "all"), repeat=8)]
            self.assertEqual(self.step(alone, "most", beside.pi, beside.lambda_), (beside.pi, beside.lambda_))
            far = self.near(alone, beside.pi, beside.lambda_)
            seconds = [self.costs(alone, pattern) for pattern in itertools.product(("any", "all"), repeat=8)
                       if all("all" in two for two in zip(pattern, pattern[1:]))]
            longest = next(n for n in itertools.count() if not self.holds(alone, self.costs(alone, ["any"] * n + ["all"])[1])) - 1
            for count in (1, 2, 3, 1000):
                status, text, _ = self.flexray("bound", "a.lab/params.csv", "sharp", str(flutter), "lost", str(count))
                told = texts.lost_bound(text)
                apart, reach = self.costs(alone, ["any"] * count + ["all"] * 4)
                self.assertEqual((status, told.flutter, told.lost, told.precision), (0, flutter, count, alone.precision))
                self.assertEqual((list(told.apart), apart[-1], told.back), (apart[:-1], alone.precision, count + 2))
                self.assertNotIn(alone.precision, apart[:told.back])
                self.assertEqual((told.peak, told.reach), (max(apart), reach))
                self.assertEqual([(one.number, one.left, one.right) for one in told.checks[2:]], self.sides(alone, reach))
                self.assertEqual([one.holds for one in told.checks[2:]],
                                 [least.holds(number, least.Sides(left, right)) for number, left, right in self.sides(alone, reach)])
                crossing, far_crossing = self.costs(alone, ["any"] * count + [("all", "any")] + ["all"] * 4)
                self.assertEqual((told.crossing, told.crossing_holds), (max(crossing), self.holds(alone, far_crossing)))
                self.assertEqual([ticks > alone.precision for ticks in crossing], [True] * (count + 3) + [False] * 2)
                self.assertEqual((told.every_second, told.every_second_holds),
                                 (max(max(apart) for apart, _ in seconds), self.holds(alone, max(reach for _, reach in seconds))))
                self.assertEqual((told.meeting, told.missed, told.meeting_holds), (beside.precision, 2, self.holds(alone, far)))
                self.assertLessEqual(max(max(apart) for apart, _ in meeting), told.meeting)
                self.assertLessEqual(max(reach for _, reach in meeting), far)
                self.assertEqual((told.longest, told.lasts), (longest if longest >= 0 else None, alone.lasts))
                self.assertFalse(alone.is_held)

    @needs_series
    def test_what_a_run_loses(self):
        """Its numbers by what is heard in each double cycle, from the first one in sync on, are stepped here too. Where node 2 misses node 1
        alone lists meet all the same, and where each misses two or three others, the same ones. Where four miss three of the others, and these
        three of them, lists do not meet. A frame of an odd cycle gives an offset value, and both a rate value."""
        self.longest = 1_000_000 + self.p["xRateBound"]
        self.changes = 2 * (self.p["pMicroPerCycle"] + self.p["pRateCorrectionOut"]) * self.p["xChangeBound"]
        folder = os.path.join(REPOSITORY, "examples", "sharp")
        alone = self.told(0)["alone"]
        two_each, three_each = ([(one, two) for two in range(1, 9) for one in [one for one in range(1, 9) if one != two][:share]]
                                for share in (2, 3))
        cliques = [(one, two) for two in range(1, 9) for one in ((5, 6, 7) if two < 5 else (1, 2, 3))]
        cases = [((), [], "all"), ((3,), [(1, 2)], "most"), ((0, 9), [(1, 2)], "most"), (range(10), [(1, 2)], "most"),
                 *((lost, missed, "most") for missed in (two_each, three_each) for lost in ((3,), range(2, 10))),
                 *((lost, cliques, "any") for lost in ((3,), (3, 4), (0, 9), (3, 4, 5)))]
        for (lost, missed, heard), within in itertools.product(cases, ((0,), (1,), (0, 1))):
            script = "".join(f"lose,{2 * double + cycle},{one},{two},{channel},,\n"
                             for double in lost for cycle in within for one, two in missed for channel in "AB")
            path = self.write("script.csv", script)
            told = texts.sharp_series(subprocess.run(
                [SERIES, os.path.join(folder, "params.csv"), os.path.join(folder, "drift.csv"), path, "sharp"],
                capture_output=True, text=True, check=True).stdout)
            doubles, since = len(told.cycles) // 2, 2
            words = [heard if double in lost else "all" for double in range(doubles)]
            counted = [double for double in lost if double >= since]
            kinds = [(word if 1 in within else "all", word) for word in words]
            apart, reach = self.costs(alone, kinds[since:])
            bound = (max(apart), since + apart.index(max(apart))) if self.holds(alone, reach) else (None, None)
            with self.subTest(lost=lost, heard=heard, within=within):
                self.assertEqual(told.sharp_synced, since)
                self.assertEqual(told.losses, (len(counted), max(counted, default=None), *bound))
                self.assertEqual(told.sharp_covered, not counted)
                self.assertEqual(told.cycles.heard[::2], tuple(words))
                self.assertEqual(told.cycles.bounds[1::2],
                                 (None,) * since + (tuple(apart) if bound[0] else (None,) * (doubles - since)))


class Reading(unittest.TestCase):
    def test_what_is_not_understood(self):
        for text in ("", "cycle,in_sync,skew,macrotick,sharp,heard,bound\n0,no,1,2\n", "flutter,-,,,\n"):
            with self.subTest(text=text), self.assertRaises(Stop) as ended:
                report.read_series(text)
            self.assertIn("flexray printed a series that is not understood: ", ended.exception.line)


if __name__ == "__main__":
    unittest.main()
