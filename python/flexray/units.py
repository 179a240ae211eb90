"""From the units of a bench to ticks and back.

A tick is a millionth of the nominal microtick, so how long it lasts is up to the cluster: by a microtick of 25 ns a
microsecond has 40,000,000 ticks. All is computed exactly; numbers that have to be whole are rounded to the nearest, a half
away from 0. A number with a decimal point may be given as a text, a Decimal or a Fraction, which are exact.
"""
from __future__ import annotations

import operator
from decimal import Decimal
from fractions import Fraction
from typing import Union

from .library import shown

__all__ = ["TICKS", "Number", "to_us", "to_ns", "to_microticks", "from_us", "from_ns", "from_microticks", "length_of", "ppm_of"]

Number = Union[int, float, str, Decimal, Fraction]

#: The ticks of a nominal microtick.
TICKS = 1_000_000


# Powers of ten beyond this are no size of anything here, and 10 ** 999999999 is not to be computed.
_MOST_POWER = 400


def _exact(name: str, value: Number) -> Fraction:
    """A float is taken for the shortest decimal that it is printed as: 0.1 is a tenth."""
    if type(value) is Fraction:
        return value
    if isinstance(value, bool) or not isinstance(value, (int, float, str, Decimal, Fraction)) and not hasattr(value, "__index__"):
        raise TypeError(f"{name}: {shown(value)} is no number")
    try:
        if isinstance(value, Fraction) or isinstance(value, str) and "/" in value:
            return Fraction(value)
        if hasattr(value, "__index__"):
            return Fraction(operator.index(value))
        told = Decimal(repr(float(value)) if isinstance(value, float) else value)
        if told.is_finite() and abs(told.adjusted()) <= _MOST_POWER:
            return Fraction(told)
    except (ValueError, ArithmeticError):
        pass
    raise ValueError(f"{name}: {shown(value)} is no number that can be reckoned with")


def _lasting(microtick_ns: Number) -> Fraction:
    """The nanoseconds of a microtick."""
    found = _exact("microtick_ns", microtick_ns)
    if found <= 0:
        raise ValueError(f"microtick_ns: {shown(microtick_ns)} is not above 0")
    return found


def rounded(value: Union[int, Fraction]) -> int:
    """The nearest whole number, a half away from 0."""
    if isinstance(value, int):
        return int(value)
    exact = value if isinstance(value, Fraction) else Fraction(value)
    numerator, denominator = exact.numerator, exact.denominator
    found = (2 * abs(numerator) + denominator) // (2 * denominator)
    return found if numerator >= 0 else -found


def to_ns(ticks: int, microtick_ns: Number) -> float:
    """Ticks in nanoseconds, where a microtick lasts so many nanoseconds."""
    return float(_exact("ticks", ticks) * _lasting(microtick_ns) / TICKS)


def to_us(ticks: int, microtick_ns: Number) -> float:
    """Ticks in microseconds, where a microtick lasts so many nanoseconds."""
    return float(_exact("ticks", ticks) * _lasting(microtick_ns) / TICKS / 1000)


def to_microticks(ticks: int) -> float:
    """Ticks in microticks."""
    return float(_exact("ticks", ticks) / TICKS)


def from_ns(nanoseconds: Number, microtick_ns: Number) -> int:
    """Nanoseconds in ticks, the nearest whole one."""
    return rounded(_exact("nanoseconds", nanoseconds) / _lasting(microtick_ns) * TICKS)


def from_us(microseconds: Number, microtick_ns: Number) -> int:
    """Microseconds in ticks, the nearest whole one."""
    return rounded(_exact("microseconds", microseconds) * 1000 / _lasting(microtick_ns) * TICKS)


def from_microticks(microticks: Number) -> int:
    """Microticks in ticks, the nearest whole one."""
    return rounded(_exact("microticks", microticks) * TICKS)


def length_of(ppm: Number) -> int:
    """The ticks of a microtick of an oscillator whose frequency is off by so many ppm: a fast one, above 0, has fewer than
    1,000,000. A ValueError comes of -1,000,000 ppm or less, which is no oscillator."""
    below = TICKS + _exact("ppm", ppm)
    if below <= 0:
        raise ValueError(f"ppm: {shown(ppm)} is not above -1000000")
    return rounded(TICKS * TICKS / below)


def ppm_of(length: int) -> float:
    """The ppm by which a frequency is off whose microtick lasts so many ticks, of which there is one at least."""
    ticks = _exact("length", length)
    if ticks <= 0:
        raise ValueError(f"length: {shown(length)} is not above 0")
    return float(TICKS * TICKS / ticks - TICKS)
