"""Pictures: there, of the right kind, with what they are to show, for long, lost and unsynced runs too."""
import re
import unittest
from fractions import Fraction

from bench import EXAMPLE, SERIES, Bench, edited, needs, needs_series
from flexlab.base.units import decimal


class Pictures(Bench):
    @needs("gnuplot")
    def test_both_pictures(self):
        self.write("a.toml", EXAMPLE)
        self.flexlab("run", "-p", "a.toml")
        for name in ("skew", "terms"):
            with open(self.path("a.lab", f"{name}.png"), "rb") as file:
                self.assertEqual(file.read(8), b"\x89PNG\r\n\x1a\n")
            self.assertTrue(self.read("a.lab", f"{name}.svg").rstrip().endswith("</svg>"))
        skew, terms = self.read("a.lab", "skew.svg"), self.read("a.lab", "terms.svg")
        report = self.read("a.lab", "report.txt")
        precision = int(re.search(r"^precision (\d+)", report, re.M)[1]) * 25 / 10**9
        self.assertIn(f"classical bound, {precision:.3f} us", skew)
        self.assertIn("in sync from cycle 4", skew)
        for node in range(1, 6):
            self.assertIn(f"node {node}", terms)
        self.assertNotIn("node 6", terms)

    def drawn(self):
        text = self.read("a.lab", "skew.gnuplot").split("$skew << end\n")[1].split("end")[0]
        return dict(line.split() for line in text.splitlines())

    @needs_series
    @needs("gnuplot")
    def test_the_data_are_those_of_the_series(self):
        self.write("a.toml", EXAMPLE)
        self.flexlab("run", "-p", "a.toml", env={"FLEXRAY_SERIES": SERIES})
        self.assertIn("greatest skew of the cycle", self.read("a.lab", "skew.svg"))
        drawn, lines = self.drawn(), self.read("a.lab", "series.csv").splitlines()[1:401]
        self.assertEqual(len(drawn), 400)
        for line in lines:
            cycle, _, skew, *_ = line.split(",")
            self.assertEqual(drawn[cycle], decimal(Fraction(int(skew) * 25, 10**9), 6))

    @needs("gnuplot")
    def test_the_data_are_those_of_the_trace(self):
        self.write("a.toml", EXAMPLE)
        self.flexlab("run", "-p", "a.toml")
        starts = {}
        for line in self.read("a.lab", "trace.csv").splitlines():
            if line.startswith("cycle,"):
                starts.setdefault(int(line.split(",")[1]), []).append(int(line.split(",")[3]))
        drawn = self.drawn()
        self.assertEqual(len(drawn), 400)
        for cycle in (0, 1, 7, 399):
            self.assertEqual(drawn[str(cycle)], decimal(
                Fraction((max(starts[cycle]) - min(starts[cycle])) * 25, 10**9), 6))

    @needs("gnuplot")
    def test_long_lost_and_unsynced_runs(self):
        for text, told in ((edited(("double_cycles = 200", "double_cycles = 2000")), "in sync from cycle 4"),
                           (EXAMPLE + '[[oscillator]]\nnodes = 1\ncycles = "200-"\nppm = -1400\n', "sync lost in "
                                                                                                   "cycle 20"),
                           (edited(("start_us = 1.5", "start_us = 900")), "never in sync")):
            with self.subTest(told=told):
                self.write("a.toml", text)
                self.flexlab("run", "-p", "a.toml")
                self.assertIn(told, self.read("a.lab", "skew.svg"))

    @needs("gnuplot")
    def test_a_node_that_joins(self):
        join = "[[join]]\nnode = {}\nreference = 1\ndouble_cycle = {}\n"
        self.write("a.toml", EXAMPLE + join.format(5, 20) + join.format(3, 20) + join.format(4, 60))
        self.flexlab("run", "-p", "a.toml")
        skew, terms = self.read("a.lab", "skew.svg"), self.read("a.lab", "terms.svg")
        self.assertIn("nodes 3, 5 from cycle 46", skew)
        self.assertIn("node 4 from cycle 126", skew)
        rows = self.read("a.lab", "terms.gnuplot").split("$node5 << end\n")[1].split("end")[0].splitlines()
        self.assertEqual([int(row.split()[0]) for row in rows], list(range(46, 399, 2)))
        for node in range(1, 6):
            self.assertIn(f"node {node}", terms)
        self.write("a.toml", edited(("double_cycles = 200", "double_cycles = 4000")) + join.format(5, 3996))
        self.flexlab("run", "-p", "a.toml")
        self.assertIn("node 5 from cycle 7998", self.read("a.lab", "skew.svg"))

    def test_without_gnuplot(self):
        self.write("a.toml", EXAMPLE)
        self.assertIn("install the Debian package gnuplot-nox", self.flexlab("run", "-p", "a.toml", status=4,
                                                                             env={"PATH": "/nowhere"})[1])


if __name__ == "__main__":
    unittest.main()
