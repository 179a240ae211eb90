"""Ways to a covered run: the formulas are those of flexray bound, each way holds and is run, and where there are no
values it is said what is in the way."""
import re
import unittest

from bench import EXAMPLE, Bench, edited
from flexlab.runs import least
from flexlab.program import report

# Wide limits, a low damping: what one types first; and a node that joins.
WIDE = (("pClusterDriftDamping = 5", "pClusterDriftDamping = 2"), ("delay_error_us = 0.0125", "delay_error_ns = 40"),
        ("pRateCorrectionOut = 81", "pRateCorrectionOut = 90"))
JOINS = "[[join]]\nnode = 5\nreference = 1\ndouble_cycle = 20\n"


class Formulas(Bench):
    def test_they_are_those_of_flexray_bound(self):
        for changes in ((), WIDE, (("change_ppm_per_cycle = 1", "change_ppm_per_cycle = 7"),
                                   ("pDelayCompensation = 0", "pDelayCompensation = 9"))):
            self.write("a.toml", edited(*changes))
            self.flexlab("build", "a.toml")
            status, text, _ = self.flexray("bound", "a.lab/params.csv", "join")
            self.assertEqual(status, 0)
            told = report.read_bounds(text)
            parameters = {name: int(value) for name, value in re.findall(r"param,(\w+),(\d+)", self.read("a.lab", "params.csv"))}
            found = least.bounds_of(parameters, True)
            self.assertEqual([found[name] for name in ("y1", "lambda", "pi", "precision", "reach")],
                             [told.y1, told.lambda_, told.pi, told.precision, told.reach])
            self.assertEqual([(number, *found[number]) for number in range(1, 10)],
                             [(number, left, right) for number, _, left, right in told.checks])


class Ways(Bench):
    def page(self, text):
        self.write("a.toml", text)
        return self.one_line(self.flexlab("run", "a.toml")[0])

    def taken(self, values, text):
        """The TOML file with values as a page tells them."""
        for name, value in (one.split(" = ") for one in values.split(", ")):
            if name.startswith("limits.delay"):
                text = re.sub(r"^delay_error_\w+ = [\d.]+", f"delay_error_ns = {value}", text, flags=re.M)
            else:
                text, count = re.subn(rf"^{name} = \d+", f"{name} = {value}", text, flags=re.M)
                self.assertEqual(count, 1, name)
        return text

    def test_each_way_holds_and_has_the_skew_that_it_tells(self):
        """Of a cluster that nodes join they are by the checks of the precision, C6 to C9 among them."""
        text = edited(("delay_error_us = 0.0125", "delay_error_ns = 125")) + JOINS
        page = self.page(text)
        ways = re.findall(r"all checks hold with (.*?)\. Precision ([\d.]+) us; covered yes; simulated starts ([\d.]+) us at most "
                          r"from cycle (\d+) on", page)
        self.assertEqual(len(ways), 4)
        self.assertEqual([float(way[2]) for way in ways], sorted(float(way[2]) for way in ways))
        tried = 0
        for values, precision, skew, begin in ways:
            if "limits" in values:
                continue
            self.write("b.toml", self.taken(values, text))
            again = self.one_line(self.flexlab("run", "--from", begin, "b.toml")[0])
            self.assertIn("Checks C1 to C9 hold, those of the precision", again)
            self.assertIn(f"Precision {precision} us", again)
            self.assertIn(f"as asked: {skew} us at most", again)
            tried += 1
        self.assertEqual(tried, 2)

    def test_what_the_older_bound_asks_besides(self):
        """It is told and held to, and no way: the checks of the precision of this cluster hold."""
        text = edited(*WIDE) + JOINS
        page = self.page(text)
        self.assertNotIn("Ways", page)
        asked = re.search(r" checks C1, C7 and C8 of the classical bound fail; the precision does not "
                          r"rest on them\. They ask for (.*?) besides; the classical bound is then ([\d.]+) us, and simulated starts "
                          r"([\d.]+) us at most from cycle (\d+) on, [\d.]+ times what it is now: that makes the clocks worse", page)
        self.write("b.toml", self.taken(asked[1], text))
        again = self.one_line(self.flexlab("run", "--from", asked[4], "b.toml")[0])
        self.assertIn("covered yes", again)
        self.assertIn(" checks those of the classical bound hold too", again)
        self.assertIn(f"that flexray run prints: {asked[2]} us", again)
        self.assertIn(f"as asked: {asked[3]} us at most", again)

    def test_slots_that_do_not_fit(self):
        page = self.page(edited(("delay_error_us = 0.0125", "delay_error_ns = 125")) + JOINS)
        self.assertIn("No values are found with which they hold: 60 static slots of 84 macroticks are 5040, and a cycle has 5000, of "
                      "which the last 43 are for the offset correction: 59 such slots fit", page)

    def test_no_values_at_all(self):
        page = self.page(edited(("gNumberOfStaticSlots = 60", "gNumberOfStaticSlots = 1000"), ("gdStaticSlot = 50", "gdStaticSlot = 4"),
                                ("gdActionPointOffset = 10", "gdActionPointOffset = 2"), ("gdNIT = 2000", "gdNIT = 1000")) + JOINS)
        self.assertIn("no values of these parameters are found with which all checks hold", page)
        self.assertIn("1000 static slots of", page)

    def test_a_limit_that_the_run_needs_is_raised(self):
        page = self.page(edited(("microticks = 0.3", "microticks = 0.7")) + JOINS)
        self.assertIn("covered no", self.read("a.lab", "report.txt"))
        self.assertRegex(page, r"\d\. a delay of this run is 17.5 ns off the compensation, beyond xDelayError, 12.5 ns: "
                               r"all checks hold with limits.delay_error_ns = 17.5, ")

    def test_where_a_run_goes_beyond_a_limit_is_told_beside_a_check_that_fails(self):
        # Behind its tables an oscillator is what it was before them: a ramp that nothing follows ends in a jump.
        page = self.page(edited(WIDE[0], ('nodes = 3\ncycles = "181-"\nppm = 20', 'nodes = 3\ncycles = "300-"\nppm = 20'))
                         + JOINS)
        self.assertIn("check C6 fails", page)
        self.assertIn("Verdict NOT PROVED: in cycle 181 the microtick of node 3 changes by 60 ticks (about ppm), which is more than "
                      "xChangeBound, 1 (and 1 more, below)", page)
        self.assertIn("the microtick of node 3 changes by 60 ticks in cycle 181 of this run, beyond xChangeBound, 1: all checks but C1 "
                      "hold with limits.xChangeBound = 60", page)
        page = self.page(edited(("oscillator_ppm = 200", "oscillator_ppm = 100")) + JOINS)
        self.assertRegex(page, r"\d\. an oscillator of this run is 150 ticks off, beyond xRateBound, 100: all checks hold with "
                               r"limits.xRateBound = 150 \(ticks, about ppm\), pClusterDriftDamping = 2\. ")

    def test_nothing_is_advised_where_all_holds(self):
        self.assertNotIn("Ways", self.page(EXAMPLE))
        self.assertNotIn("Ways", self.page(edited(("pRateCorrectionOut = 81", "pRateCorrectionOut = 85"),
                                                  ("pOffsetCorrectionOut = 320", "pOffsetCorrectionOut = 572"),
                                                  ("gdActionPointOffset = 10", "gdActionPointOffset = 15")) + JOINS))


if __name__ == "__main__":
    unittest.main()
