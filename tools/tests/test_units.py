"""Conversions: the sign of a ppm, exactness, rounding, and that they read back."""
import unittest
from fractions import Fraction

from bench import Bench
from flexlab.base import units


class Units(Bench):
    def test_a_fast_oscillator_has_a_short_microtick(self):
        for ppm, length in ((0, 1000000), (150, 999850), (-150, 1000150), (1000, 999001), (-1000, 1001001),
                            (Fraction(1, 2), 1000000), (Fraction(-3, 2), 1000002), (1000000, 500000),
                            (-333333, 1499999)):
            self.assertEqual(units.length_of(ppm), length, ppm)

    def test_lengths_read_back(self):
        for length in list(range(998400, 1001600)) + [500000, 500001, 1499999, 1500000]:
            self.assertEqual(units.length_of(units.ppm_of(length)), length)
        self.assertGreater(units.ppm_of(999850), 0)
        self.assertLess(units.ppm_of(1000150), 0)

    def test_a_half_is_rounded_away_from_0(self):
        for value, whole in (("1/2", 1), ("-1/2", -1), ("3/2", 2), ("-3/2", -2), ("49/100", 0), ("-49/100", 0),
                             ("5", 5), ("-5", -5), ("2500000000000000001/2", 1250000000000000001)):
            self.assertEqual(units.rounded(Fraction(value)), whole)

    def test_times(self):
        self.assertEqual(units.ticks_of_ns(25, Fraction(25)), 1000000)
        self.assertEqual(units.ticks_of_ns(Fraction("12.5"), Fraction(25)), 500000)
        self.assertEqual(units.ticks_of_ns(1, Fraction("12.5")), 80000)
        self.assertEqual(units.us_of_ticks(252043600, Fraction(25)), Fraction("6.30109"))

    def test_decimals(self):
        for value, digits, text in (("1/3", 3, "0.333"), ("-1/3", 3, "-0.333"), ("-1/3000", 3, "0.000"), ("2", 0, "2"),
                                    ("1999/1000", 2, "2.00"), ("-5/2", 0, "-3")):
            self.assertEqual(units.decimal(Fraction(value), digits), text)
        self.assertEqual(units.signed(Fraction(1, 3), 1), "+0.3")


if __name__ == "__main__":
    unittest.main()
