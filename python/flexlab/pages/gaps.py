"""The first gap in coverage that a report names, in words, and what closes it."""
from collections.abc import Sequence
from fractions import Fraction
from typing import Protocol

from .advice import OR, SHARP_OR, SHARP_WAY_WHY, SHARP_WHY, WAY_OR, WAY_WHY, WHY, advise, also
from ..base import ranges
from ..base.ranges import Parameters
from ..program.forms import HARMS
from ..runs.least import Kind, sharp_advise
from ..base.units import microseconds, ppm_of, signed


class Described(Protocol):
    """A cluster, as far as gaps speak of it."""

    @property
    def parameters(self) -> Parameters: ...

    @property
    def microtick_ns(self) -> Fraction: ...

    def called(self, number: int) -> str: ...


def check_words(number: int, left: int, right: int, parameters: Parameters, way: bool = False) -> list[str]:
    """A failing check in words, or one of those for the way to sync."""
    why, other = (WAY_WHY, WAY_OR) if way and number in WAY_WHY else (WHY, OR)
    found = [f"check C{number}{' for the way' if way else ''} fails: {left} against {right}; {why[number]}"]
    name, now, value, fits = advise(number, right, parameters)
    found.append(f"turn {name}: it is {now}, and with all else as it is C{number} asks for {value} at least"
                 + ("" if fits else ", which is beyond its range") + f"; or {other[number]}")
    more = also(number, parameters, value)
    return found + ([more] if more else [])


def sharp_check_words(number: int, left: int, right: int, parameters: Parameters, kind: Kind) -> list[str]:
    """A failing check of the sharper bounds in words."""
    name, now, value = sharp_advise(number, parameters, kind)
    asks = f"C{number} asks for {value} at least" if value is not None else f"none of its range meets C{number}"
    found = [f"check C{number} fails: {left} against {right}; {SHARP_WHY[number]}",
             f"turn {name}: it is {now}, and with all else as it is {asks}; or {SHARP_OR[number]}"]
    more = also(number, parameters, value) if value is not None else None
    return found + ([more] if more else [])


def held_words(left: int, right: int) -> str:
    """The first sharper check where it fails and the walk is held."""
    return (f"C1 fails, {left} against {right}, but the walk is held: no oscillator changes, so where no frame is lost lengths come less "
            "than a microtick beyond their range, and the precision is proved on and on")


def sharp_way_words(number: int, left: int, right: int, parameters: Parameters, kind: Kind) -> list[str]:
    """A failing check for the way to sharp sync in words."""
    if number in (1, 2):
        return sharp_check_words(number, left, right, parameters, kind)
    name, now, value, fits = advise(number, right, parameters)
    return [f"check C{number} for the way fails: {left} against {right}; {SHARP_WAY_WHY[number]}",
            f"turn {name}: it is {now}, and with all else as it is C{number} asks for {value} at least"
            + ("" if fits else ", which is beyond its range") + "; or let clocks begin nearer together, so give a lower START or "
            f"RATE, or {SHARP_OR[number]}"]


def gap_words(gap: Sequence[str], cluster: Described) -> list[str]:
    """Lines in words of the words behind `covered no`."""
    kind, numbers = gap[0], [int(word) for word in gap[1:] if word not in ("A", "B")]
    channel = next((word for word in gap[1:] if word in ("A", "B")), "")
    parameters, unit = cluster.parameters, cluster.microtick_ns

    def name_of(place: int) -> str:
        return cluster.called(numbers[place])

    if kind == "check":
        number, left, right = numbers
        return check_words(number, left, right, parameters)
    if kind == "flutter":
        return [f"a delay differs by {microseconds(numbers[0], unit)} between the two cycles of a double cycle, which is more than "
                "any limits.delay_error allows for, twice 10 microticks"]
    if kind == "count":
        return [f"{numbers[0]} correct sync nodes do not outweigh {numbers[1]} arbitrary ones: none needs 1, "
                "one needs 3, two need 6 (nodes that join do not count)"]
    if kind == "length":
        return [f"in cycle {numbers[1]} the oscillator of node {name_of(0)} is off by "
                f"{signed(ppm_of(numbers[2]), 2)} ppm (its microtick lasts {numbers[2]} ticks), which is further than "
                f"xRateBound, {parameters['xRateBound']} ticks",
                "turn limits.oscillator_ppm (or take a better oscillator)"]
    if kind == "change":
        return [f"in cycle {numbers[1]} the microtick of node {name_of(0)} changes by {numbers[2]} ticks (about ppm), "
                f"which is more than xChangeBound, {parameters['xChangeBound']}",
                "turn limits.change_ppm_per_cycle, or let the oscillator change more slowly"]
    if kind == "delay":
        name = ranges.compensation_name(parameters, channel)
        expected = parameters[name] * 1000000
        return [f"in cycle {numbers[2]} frames of node {name_of(0)} travel {microseconds(numbers[3], unit)} to node "
                f"{name_of(1)} on channel {channel}; the compensation is {microseconds(expected, unit)}, and "
                f"xDelayError allows for {microseconds(parameters['xDelayError'], unit)} beside it",
                f"turn limits.delay_error_us, or {name}"]
    return [f"in double cycle {numbers[2]} no channel carries the frames of node {name_of(0)} to node {name_of(1)} in "
            f"both its cycles (cycles {2 * numbers[2]} and {2 * numbers[2] + 1})",
            f"let one channel be free of {' and '.join(f'`{kind}`' for kind in HARMS)} there, or give both nodes channels AB"]
