"""The skew by stretches of cycles: the figures of a window, the stretches, the page, the study and the picture."""
import csv
import unittest
from fractions import Fraction

from bench import EXAMPLE, Bench, edited, needs
from flexlab.runs import windows

# 400 cycles: a transient of 8, then 2 us; node 3 changes from cycle 101 on (3 us), and 2.5 us behind it.
SKEW = [40 - 4 * cycle if cycle < 8 else 2 if cycle < 101 else 3 if cycle < 184 else Fraction(5, 2) for cycle in range(400)]


class Figures(unittest.TestCase):
    def test_a_window(self):
        rows = [cycle % 100 for cycle in range(310)]
        found = windows.window(rows, 100, 299, "")
        self.assertEqual((found.first, found.last, found.greatest, found.cycle, found.mean), (100, 299, 99, 199, Fraction(99, 2)))
        # Two of two hundred cycles have 99, and two have 98.
        self.assertEqual(found.most, 98)
        found = windows.window(tuple(rows), 305, 400, "")
        self.assertEqual((found.first, found.last, found.greatest, found.cycle, found.mean, found.settled, found.level),
                         (305, 309, 9, 309, 7, 305, 9))
        self.assertIsNone(windows.window(rows, 310, 400, ""))

    def test_settled(self):
        self.assertEqual(windows.settled((9, 4, 6, 2, 3, 1, 3, 2), 0), (3, 3))
        self.assertEqual(windows.settled([9, 4, 6, 2, 3, 1, 3, 2], 20), (23, 3))
        self.assertEqual(windows.settled([1, 1], 7), (7, 1))
        self.assertEqual(windows.settled([5], 7), (7, 5))


class Pages(Bench):
    def series(self, skew=SKEW):
        """A flexray-series that answers of the example what stands in `skew`, in microseconds."""
        ticks = [int(value * 40000000) for value in skew]
        return self.series_of(ticks, f"greatest,{max(ticks[2:])},2,9,", "synced,yes,,,", "within,no,2,9,")

    def test_before_while_and_after_an_oscillator_changes(self):
        self.write("a.toml", EXAMPLE)
        page = self.flexlab("run", "a.toml", env=self.series())[0]
        told = self.one_line(page)
        self.assertIn("Later skew from cycle 8 on (40.000 ms), where it has settled: 3.000 us at most (cycle 101)", told)
        self.assertIn("99 % of cycles within 3.000 us, the mean is 2.", told)
        self.assertRegex(page, r"\n2-100 +32\.000 +2 +32\.000 +\d\.\d{3} +8 +2\.000  from sync on\n")
        self.assertRegex(page, r"\n101-183 +3\.000 +101 +3\.000 +3\.000 +101 +3\.000  node 3 changes\n")
        self.assertRegex(page, r"\n184-399 +2\.500 +184 +2\.500 +2\.500 +184 +2\.500  after it\n")

    def test_cycles_that_are_asked_for(self):
        self.write("a.toml", EXAMPLE)
        page = self.flexlab("run", "--from", "200", "--cycles", "20-99,101,390-", "a.toml", env=self.series())[0]
        self.assertIn("from cycle 200 on (1000.000 ms), as asked: 2.500 us at most", self.one_line(page))
        for words in (r"20-99 +2\.000", r"101-101 +3\.000", r"390-399 +2\.500"):
            self.assertRegex(page, "\n" + words)
        for words in (("--from", "400"), ("--cycles", "9-3"), ("--cycles", "400"), ("--cycles", "x")):
            self.flexlab("run", *words, "a.toml", status=2)

    def test_without_a_series_it_is_the_starts(self):
        self.write("a.toml", edited(("double_cycles = 200", "double_cycles = 100")))
        page = self.flexlab("run", "a.toml")[0]
        self.assertIn("Later starts    from cycle", page)
        self.assertIn("starts of cycles", page)

    def test_a_node_that_begins_to_take_part(self):
        self.write("a.toml", EXAMPLE + "[[join]]\nnode = 5\nreference = 1\ndouble_cycle = 20\n")
        page = self.flexlab("run", "a.toml")[0]
        self.assertRegex(page, r"\n46-100 .*  with node 5\n")

    def test_a_study_has_it(self):
        self.write("a.toml", EXAMPLE)
        self.flexlab("study", "a.toml", "--vary", "values.drift", "--values", "150", "--cycles", "20-99,100-200,201-",
                     env=self.series())
        with open(self.path("a.study", "study.csv"), encoding="utf-8", newline="") as file:
            line = next(csv.DictReader(file))
        self.assertEqual([line[name] for name in ("later_from_cycle", "later_skew_us", "later_99_us")],
                         ["8", "3.000000", "3.000000"])
        self.assertEqual([line[f"cycles_{name}_us"] for name in ("20-99_greatest", "20-99_mean", "100-200_99", "201-399_mean")],
                         ["2.000000", "2.000000", "3.000000", "2.500000"])
        self.flexlab("study", "a.toml", "--vary", "values.drift", "--values", "150", "--from", "200", "-o", "b.study",
                     env=self.series())
        with open(self.path("b.study", "study.csv"), encoding="utf-8", newline="") as file:
            line = next(csv.DictReader(file))
        self.assertEqual((line["later_from_cycle"], line["later_skew_us"]), ("200", "2.500000"))

    @needs("gnuplot")
    def test_the_second_panel(self):
        self.write("a.toml", EXAMPLE)
        self.flexlab("run", "-p", "a.toml", env=self.series())
        drawn = self.read("a.lab", "skew.svg")
        for told in ("microseconds, magnified", "node 3 changes", "greatest from cycle 8 on, 3.000 us", "classical bound, 7.902 us"):
            self.assertIn(told, drawn)


if __name__ == "__main__":
    unittest.main()
