"""Numbers from outside: bounded in their digits before they become numbers, since of a few bytes as 1e999999999 exact arithmetic
would make billions of digits."""
import argparse
import re
from decimal import Decimal, InvalidOperation
from fractions import Fraction

# Digits before the point, and behind it; and how long the text of such a number may be.
DIGITS = 30
LONGEST_TEXT = 100
MANY = f"a number has at most {DIGITS} digits before the point, and as many behind it"


class Beyond:
    """A number of a file with more digits than any value can have."""

    def __init__(self, text: str) -> None:
        self.text = text

    def __str__(self) -> str:
        return self.text


def is_bounded(value: Decimal) -> bool:
    """Whether a number has few enough digits to be reckoned with; those that are not finite are told elsewhere."""
    if not value.is_finite():
        return True
    exponent = value.as_tuple().exponent
    return isinstance(exponent, int) and -DIGITS <= exponent and value.adjusted() < DIGITS


def of_file(text: str) -> Decimal | Beyond:
    """A number with a point or an exponent, as a TOML file has it."""
    if len(text) > LONGEST_TEXT:
        return Beyond(text)
    value = Decimal(text)
    return value if is_bounded(value) else Beyond(text)


def number_of(text: str) -> Fraction:
    """The exact number of a word; ValueError where it is none, or has too many digits."""
    try:
        value = Decimal(text.strip()) if len(text) <= LONGEST_TEXT and text.isascii() else None
    except InvalidOperation:
        value = None
    if value is None or not value.is_finite() or not is_bounded(value):
        raise ValueError(MANY)
    return Fraction(value)


def whole(text: str) -> int:
    """The whole number of a word of the command line."""
    if not re.fullmatch(r"[+-]?[0-9]{1,18}", text):
        raise argparse.ArgumentTypeError(f"{text[:LONGEST_TEXT]!r} is not a whole number of at most 18 digits")
    return int(text)
