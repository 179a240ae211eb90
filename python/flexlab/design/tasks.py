"""From what is wanted of a network to tasks of the search: one for each microtick and each choice of compensations."""
from dataclasses import dataclass, replace
from fractions import Fraction

from ..base import ranges
from ..base.ending import REFUSED, Stop
from ..base.units import TICKS, decimal
from ..pages.advice import up
from ..runs.least import Kind
from .solving import DEVIATION, IDLE_BITS, KEPT, Task, compensations


@dataclass(frozen=True)
class Wish:
    """What a design is asked for, of a topology or of a cluster that is there. Times in ns; `delays` are the least and the
    greatest delay of each channel, of sync nodes' frames, `latest_ns` is that of any node's frame."""
    cycle_ns: Fraction
    slots: int
    words: int
    arbitrary: int
    joins: bool
    bit_rate: Fraction
    start_bits: int
    rate: int
    change: int
    flutter_ns: Fraction
    last: int
    delays: tuple[tuple[str, Fraction, Fraction], ...]
    latest_ns: Fraction
    microticks_ns: tuple[Fraction, ...]
    margin_ns: Fraction = Fraction(0)
    free: bool = False
    kept: tuple[tuple[str, int], ...] = ()

    @property
    def kind(self) -> str:
        return "beside" if self.arbitrary else "alone"

    def of_kept(self, name: str) -> int | None:
        return dict(self.kept).get(name)

    @property
    def bits(self) -> int:
        """Of a static frame on the wire: its start, 10 for each byte, 2 at its end."""
        return self.start_bits + 1 + 10 * (8 + 2 * self.words) + 2

    @property
    def bit_ns(self) -> Fraction:
        return 1000 / self.bit_rate


def ticks(ns: Fraction, microtick_ns: Fraction, upward: bool = True) -> int:
    """A time in ticks, outward where it is no whole number."""
    exact = ns / microtick_ns * TICKS
    return up(exact) if upward else exact.numerator // exact.denominator


def standard_slot_ns(wish: Wish) -> Fraction:
    """What the standard asks of a slot beside two action points, by the formula that docs/FLEXLAB.md quotes."""
    low, high = min(low for _, low, _ in wish.delays), max(wish.latest_ns, *(high for _, _, high in wish.delays))
    return (wish.bits + IDLE_BITS) * wish.bit_ns * (1 + DEVIATION) + low + high


def kept_waits(wish: Wish) -> list[int | None]:
    """The compensation that is kept, of each channel."""
    both = wish.of_kept("pDelayCompensation")
    return [own if own is not None else both
            for own in (wish.of_kept(f"pDelayCompensation{name}") for name, _, _ in wish.delays)]


def tasks_of(wish: Wish, path: str = "") -> list[Task]:
    """The tasks; where no microtick has one, what ends flexlab."""
    found, why = [], []
    for unit in wish.microticks_ns:
        micros = wish.cycle_ns / unit
        low, high, _, _ = ranges.PARAMETERS["pMicroPerCycle"]
        if micros.denominator != 1 or not low <= micros <= high:
            why.append(f"a cycle of {decimal(wish.cycle_ns / 1000, 3)} us has {decimal(micros, 3)} microticks of {shown_ns(unit)} ns, "
                       f"and pMicroPerCycle is a whole number from {low} to {high}")
            continue
        spans = [(ticks(low_ns, unit, False), ticks(high_ns, unit)) for _, low_ns, high_ns in wish.delays]
        choices = compensations(spans, kept_waits(wish))
        most = ranges.PARAMETERS["xDelayError"][1]
        good = [choice for choice in choices if choice[0] <= most]
        if not good:
            why.append(spread_words(wish, unit, min((error for error, _ in choices), default=None)))
        for error, waits in good:
            both = waits[0], waits[-1]
            frame = ticks((wish.bits + IDLE_BITS) * wish.bit_ns * (1 + Fraction(wish.rate, TICKS)), unit)
            kind = Kind(bool(wish.arbitrary), ticks(wish.flutter_ns, unit), wish.last)
            found.append(Task(unit, int(micros), wish.slots, wish.words, kind,
                              wish.joins, wish.rate, wish.change, error, both, frame, ticks(wish.latest_ns, unit),
                              None if wish.free else standard_slot_ns(wish), ticks(wish.margin_ns, unit),
                              tuple((name, value) for name, value in wish.kept if name in KEPT)))
    if not found:
        raise Stop(REFUSED, "\nflexlab: ".join(f"{path}: {line}" if path else line for line in why))
    return found


def shown_ns(ns: Fraction) -> str:
    text = decimal(ns, 3)
    return text.rstrip("0").rstrip(".") if "." in text else text


def spread_words(wish: Wish, unit: Fraction, error: int | None) -> str:
    """Why no compensation suffices: the spread of the delays, the limit, and both ways out."""
    most = ranges.PARAMETERS["xDelayError"][1]
    spans = ", ".join(f"{shown_ns(low)} to {shown_ns(high)} ns on channel {name}" for name, low, high in wish.delays)
    lies = ("no compensation from 0 to 200 microticks lies amid them" if error is None else
            f"the best compensation leaves {decimal(Fraction(error, TICKS), 1)} microticks of {shown_ns(unit)} ns")
    return (f"delays are {spans}: {lies}, and xDelayError ends at {decimal(Fraction(most, TICKS), 0)} microticks. Bring the delays of a "
            "channel nearer together (shorter lines, fewer stars), or take a longer microtick")


def nearer(wish: Wish, ns: Fraction) -> Wish:
    """The same network with delays of each channel spread by so much less."""
    def one(low: Fraction, high: Fraction) -> tuple[Fraction, Fraction]:
        cut = min(ns, high - low) / 2
        return low + cut, high - cut
    delays = tuple((name, *one(low, high)) for name, low, high in wish.delays)
    return replace(wish, delays=delays, latest_ns=max(wish.latest_ns - ns / 2, *(high for _, _, high in delays)))
