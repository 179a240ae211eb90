"""Numbers of FIBEX and ARXML files, exact, with the line of each that is none."""
import re
from fractions import Fraction

from .xml_file import Element, printable

# Digits and exponents are few: an exact number of a billion digits would take for ever.
NUMBER = re.compile(r"[+-]?\d{1,20}(\.\d{0,60})?([eE][+-]?\d{1,2})?")
HEXADECIMAL = re.compile(r"0[xX][0-9A-Fa-f]{1,8}")
# The lengths of a microtick that controllers have, in ns. Tools write lengths as floats with their noise.
MICROTICKS = (Fraction(25, 2), Fraction(25), Fraction(50), Fraction(100))
NOISE = Fraction(1, 1000000)


def shown(element: Element) -> str:
    return printable(element.text.strip(), 40) or "nothing"


def number(element: Element) -> Fraction:
    """The number of an element's text."""
    text = element.text.strip()
    if HEXADECIMAL.fullmatch(text):
        return Fraction(int(text, 16))
    if not NUMBER.fullmatch(text):
        raise element.refused(f"{shown(element)} is no number")
    return Fraction(text)


def whole(element: Element, least: int, most: int, unit: str = "") -> int:
    found = number(element)
    if found.denominator != 1 or not least <= found <= most:
        raise element.refused(f"{shown(element)} is no whole number from {least} to {most}{' ' + unit if unit else ''}")
    return int(found)


def flag(element: Element) -> bool:
    text = element.text.strip()
    if text not in ("true", "false", "1", "0"):
        raise element.refused(f"{shown(element)} is not true, false, 1 or 0")
    return text in ("true", "1")


def nanoseconds(element: Element, form: str) -> Fraction:
    """A length in ns: FIBEX has microseconds, ARXML seconds."""
    return number(element) * (1000 if form == "FIBEX" else 1000000000)


def microtick(element: Element, form: str) -> Fraction:
    """The length of a microtick: one of those that controllers have."""
    told = nanoseconds(element, form)
    for length in MICROTICKS:
        if abs(told - length) <= length * NOISE:
            return length
    raise element.refused(f"{shown(element)} is {float(told):.6g} ns, the file's unit being taken for "
                          f"{'us' if form == 'FIBEX' else 's'}; a microtick lasts 12.5, 25, 50 or 100 ns")


def near(one: Fraction, other: Fraction) -> bool:
    """Whether two lengths are the same but for the noise of floats."""
    return abs(one - other) <= max(abs(one), abs(other)) * NOISE
