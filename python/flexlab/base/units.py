"""Exact conversions between the units of a bench and those of flexray, on those of the package flexray.

A tick is a millionth of the nominal microtick. All is done in whole numbers and fractions; where a
result has to be whole it is rounded to the nearest, a half away from 0. The ppm of an oscillator is
that of its frequency, so a positive one makes the microtick shorter:

    length in ticks = 1,000,000 / (1 + ppm / 1,000,000)
"""
from fractions import Fraction

from flexray.units import TICKS, from_microticks as ticks_of_microticks, from_ns as ticks_of_ns, length_of, rounded

__all__ = ["TICKS", "Number", "decimal", "lasting", "length_of", "microseconds", "percent", "ppm_of", "rounded", "signed",
           "ticks_of_microticks", "ticks_of_ns", "us_of_ticks"]

Number = int | Fraction


def ppm_of(length: int) -> Fraction:
    """The ppm by which a frequency is off whose microtick lasts so many ticks, exactly."""
    return Fraction(TICKS * TICKS, length) - TICKS


def us_of_ticks(ticks: Number, microtick_ns: Number) -> Fraction:
    return Fraction(ticks.numerator * microtick_ns.numerator, ticks.denominator * microtick_ns.denominator * TICKS * 1000)


def decimal(value: Number, digits: int) -> str:
    """A number with so many digits behind the point, rounded like all else here."""
    scaled = (2 * abs(value.numerator) * 10 ** digits + value.denominator) // (2 * value.denominator)
    sign = "-" if scaled and value.numerator < 0 else ""
    text = str(scaled).rjust(digits + 1, "0")
    return sign + (text if digits == 0 else text[:-digits] + "." + text[-digits:])


def signed(value: Number, digits: int) -> str:
    text = decimal(value, digits)
    return text if text.startswith("-") else "+" + text


def microseconds(ticks: Number, microtick_ns: Number) -> str:
    return decimal(us_of_ticks(ticks, microtick_ns), 3) + " us"


def lasting(ms: Fraction) -> str:
    """A time in milliseconds, from ten seconds on in seconds."""
    return decimal(ms, 3) + " ms" if ms < 10000 else decimal(ms / 1000, 1) + " s"


def percent(part: Number, whole: int) -> str:
    return "-" if whole == 0 else decimal(Fraction(part * 100, whole), 1) + " %"
