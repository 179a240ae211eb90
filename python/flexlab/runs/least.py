"""The least values of parameters with which all checks hold, found by the formulas of docs/PRECISION.md, the bounds among them as the
specification has them; that they hold is asked of flexray bound before anything is said of them."""
from dataclasses import dataclass
from fractions import Fraction
from typing import NamedTuple, overload

from ..base import bounds, ranges
from ..base.bounds import TICKS, cycle_change, longest_micro, shortest_micro
from ..base.ranges import Parameters
from ..pages.advice import TURNS, latest_start, up

FITTED = ("xRateBound", "xChangeBound", "xDelayError", "pRateCorrectionOut", "pClusterDriftDamping", "pOffsetCorrectionOut",
          "gdActionPointOffset", "gdStaticSlot")


# Parameters with which all checks hold, or why there are none.
Found = tuple[Parameters | None, str | None]


class Sides(NamedTuple):
    """Both sides of a check."""
    left: int
    right: int


@dataclass
class Numbers:
    """What `flexray bound` prints: bounds by their names, and both sides of checks by their numbers. Of sharper bounds, for how many
    double cycles sync lasts, and first rates do, None where on and on; and `walks`, for how many the rate limit holds the walk, which
    is what counts where frames are lost. Where `is_held` that is a number, and sync lasts on and on all the same."""
    bounds: dict[str, int]
    sides: dict[int, Sides]
    lasts: int | None = None
    first_rates: int | None = None
    walks: int | None = None
    is_held: bool = False

    @overload
    def __getitem__(self, name: int) -> Sides: ...

    @overload
    def __getitem__(self, name: str) -> int: ...

    def __getitem__(self, name: int | str) -> Sides | int:
        return self.sides[name] if isinstance(name, int) else self.bounds[name]


@dataclass(frozen=True)
class Kind:
    """Of which sharper bounds: beside arbitrary sync nodes or without, by how many ticks delays flutter at most, and the
    last key slot."""
    beside: bool
    flutter: int
    last: int

    @property
    def name(self) -> str:
        return "beside" if self.beside else "alone"


def slot_sides(p: Parameters, first: int, apart: int, wait: int | None = None) -> dict[int, Sides]:
    """Both sides of a check of the offset limit, and of the two of slots behind it, for clocks so far apart; `wait` is the greater
    compensation where that is known."""
    wait, rate = ranges.compensation(p) if wait is None else wait, p["xRateBound"]
    longest, shortest, error = TICKS + rate, TICKS - rate, p["xDelayError"] + wait * rate
    macros, left = p["gMacroPerCycle"], p["pMicroPerCycle"] - p["pRateCorrectionOut"]
    point, rest = p["gdActionPointOffset"], p["gdStaticSlot"] - p["gdActionPointOffset"]
    return {first: Sides(p["pOffsetCorrectionOut"] * shortest, apart + error + longest),
            first + 1: Sides((point * left - macros) * shortest, macros * (apart + p["xDelayError"])),
            first + 2: Sides((rest * left - macros) * shortest, macros * (apart + wait * TICKS + p["xDelayError"]))}


def bounds_of(p: Parameters, join: bool = False) -> Numbers:
    """The bounds of a cluster and both sides of its checks, as `flexray bound` prints them."""
    shortest, damping, most = shortest_micro(p), p["pClusterDriftDamping"], p["pRateCorrectionOut"]
    y1, precision, drift = bounds.y1_of(p), bounds.precision_of(p), 2 * p["pMicroPerCycle"] * p["xRateBound"]
    found = Numbers({"y1": y1, "lambda": bounds.lambda_of(p), "pi": bounds.pi_of(p), "precision": precision},
                    {1: Sides(damping * shortest, y1 + 2 * cycle_change(p)), 2: Sides(most * shortest, drift),
                     **slot_sides(p, 3, precision)})
    if join:
        found.bounds["reach"] = reach = bounds.reach_of(p)
        found.sides.update({6: Sides(most * shortest, drift + bounds.follower_error(p)), **slot_sides(p, 7, reach)})
    return found


def sharp_bounds_of(p: Parameters, kind: Kind) -> Numbers:
    """The sharper bounds of a cluster and both sides of their checks, as `flexray bound PARAMS sharp FLUTTER join` prints them;
    with how far action points lie apart, and for how many double cycles sync, first rates and the walk last (None: on and on)."""
    wait = ranges.compensation(p)
    longest, shortest, error, change = longest_micro(p), shortest_micro(p), bounds.arrival_error(p), cycle_change(p)
    micros, damping, most, wide = p["pMicroPerCycle"], p["pClusterDriftDamping"], p["pRateCorrectionOut"], bounds.wide_change(p)
    starts, lengths = bounds.sharp_spread(kind.beside, p, kind.flutter)
    odd, steady = bounds.odd_spread(p, lengths), bounds.steady_error(p, kind.flutter)
    last = (kind.last - 1) * p["gdStaticSlot"] + p["gdActionPointOffset"]
    near = starts + lengths + last * odd // p["gMacroPerCycle"] + longest
    first = lengths + 2 * steady + damping * longest + 4 * change
    begins = starts + 2 * lengths + 4 * change + 2 * error + kind.flutter + 4 * longest
    reach = begins + first + last * (first + 2 * change) // p["gMacroPerCycle"] + longest
    walk = kind.flutter + change + wide - 1 + (shortest - damping * shortest if damping else longest)
    room = most * shortest - 2 * micros * p["xRateBound"]
    counted = kind.flutter + change + longest
    walks = 0 if room < 0 else None if walk <= 0 else room // walk
    is_held = p["xChangeBound"] == 0 and 0 < 3 * walk < 2 * shortest and shortest - 1 + walk <= room
    first_rates = 0 if room < counted else None if walk <= 0 else min(room // walk, (room - counted) // walk + 1)
    return Numbers({"lambda": lengths, "pi": starts, "precision": bounds.precision_by(p, starts, lengths),
                    "near": near, "reach": reach},
                   {1: Sides(damping * shortest + 1, shortest + kind.flutter + change + wide),
                    2: Sides(most * shortest, 2 * micros * p["xRateBound"]), **slot_sides(p, 3, near, wait),
                    6: Sides(most * shortest, 2 * micros * p["xRateBound"] + counted), **slot_sides(p, 7, reach, wait)},
                   None if is_held else walks, first_rates, walks, is_held)


def holds(number: int, sides: Sides) -> bool:
    """Whether a check holds with these sides: of a late arrival the left one has to be greater."""
    return sides.left > sides.right if number in (5, 9) else sides.left >= sides.right


def beyond(name: str, value: int) -> str:
    return f"{name} would have to be {value}, and is {ranges.PARAMETERS[name][1]} at most"


def least_damping(p: Parameters) -> int:
    """The least damping with which C1 holds."""
    _, right = bounds_of(p)[1]
    return up(Fraction(right, TICKS - p["xRateBound"]))


def least_rate(p: Parameters, join: bool) -> int:
    shortest, change = TICKS - p["xRateBound"], 7 * p["xChangeBound"]
    drift = 2 * p["pMicroPerCycle"] * p["xRateBound"]
    found = up(Fraction(drift, shortest))
    if join:
        zero = dict(p, pRateCorrectionOut=0)
        _, right = bounds_of(zero, True)[6]
        found = max(found, up(Fraction(right, shortest - change)) if shortest > change else 10 ** 9)
    return found


def least_sharp_damping(p: Parameters, kind: Kind) -> int:
    """The least damping with which the first sharper check holds, so that lengths do not walk."""
    _, right = sharp_bounds_of(p, kind)[1]
    return up(Fraction(right - 1, TICKS - p["xRateBound"]))


def held_damping(flutter: int, shortest: int) -> int:
    """The least damping with which lengths walk by less than two thirds of the shortest microtick in a double cycle, where
    oscillators do not change."""
    return max(1, (3 * (flutter - 1) - 2 * shortest) // (3 * shortest) + 2)


def held_rate(p: Parameters, flutter: int, damping: int) -> int:
    """The least rate limit with which such a walk is held with this damping, which is above 0."""
    shortest = TICKS - p["xRateBound"]
    return up(Fraction(2 * p["pMicroPerCycle"] * p["xRateBound"] + shortest - 1 + flutter - 1 + (1 - damping) * shortest, shortest))


def least_lasting_damping(p: Parameters, kind: Kind, join: bool = False) -> int:
    """The least damping with which sync lasts on and on, all else as it is: with which the walk is held, or else the first sharper check
    holds. Of nodes that join that check alone counts."""
    damping = held_damping(kind.flutter, TICKS - p["xRateBound"])
    is_held = not join and sharp_bounds_of({**p, "pClusterDriftDamping": damping}, kind).is_held
    return damping if is_held else least_sharp_damping(p, kind)


def sharp_advise(number: int, parameters: Parameters, kind: Kind) -> tuple[str, int, int | None]:
    """The parameter that a failing sharper check asks for, the value it has, and the least that meets the check with all else
    as it is; None where none of its range does."""
    name = TURNS[number]
    now, most = parameters[name], ranges.PARAMETERS[name][1]
    return name, now, next((value for value in range(now, most + 1)
                            if holds(number, sharp_bounds_of({**parameters, name: value}, kind)[number])), None)


def least_sharp(parameters: Parameters, kind: Kind, damping: int, join: bool = False) -> Found:
    """These parameters with this damping, and the least changes by which all sharper checks behind the first hold, those for nodes
    that join too where some do, or why there are none; and by which a walk is held that the damping leaves short enough. Limits and
    slots stand in the right sides too, so they are fitted until nothing changes."""
    p = {**parameters, "pClusterDriftDamping": damping,
         "pRateCorrectionOut": max(parameters["pRateCorrectionOut"], least_rate(parameters, False))}
    if can_be_held(p, kind, join):
        p["pRateCorrectionOut"] = max(p["pRateCorrectionOut"], held_rate(p, kind.flutter, damping))
    before: Parameters | None = None
    name = too_great(p)
    if name:
        return None, beyond(name, p[name])
    while p != before:
        before = dict(p)
        sides = sharp_bounds_of(p, kind)
        if join:
            p["pRateCorrectionOut"] = max(p["pRateCorrectionOut"], up(Fraction(sides[6][1], TICKS - p["xRateBound"])))
        fit_slots(p, sides, 7 if join else 3)
        name = too_great(p)
        if name:
            return None, beyond(name, p[name])
    return schedule(p)


def can_be_held(p: Parameters, kind: Kind, join: bool) -> bool:
    """Whether lengths walk with this damping by so little that a rate limit is there with which the walk is held."""
    damping, most = p["pClusterDriftDamping"], ranges.PARAMETERS["pRateCorrectionOut"][1]
    return (not join and p["xChangeBound"] == 0 and held_damping(kind.flutter, TICKS - p["xRateBound"]) <= damping
            < least_sharp_damping(p, kind) and held_rate(p, kind.flutter, damping) <= most)


def too_great(p: Parameters) -> str | None:
    """The first parameter that is beyond its range, or None."""
    return next((name for name in FITTED if p[name] > ranges.PARAMETERS[name][1]), None)


def fit_slots(p: Parameters, sides: Numbers, first: int) -> None:
    """Raises the offset limit and makes room in the slots, as these sides of checks ask; a value that suffices stays, only
    the action point may move back, where the slot is long enough for both sides of it."""
    shortest, macros = TICKS - p["xRateBound"], p["gMacroPerCycle"]
    micros = p["pMicroPerCycle"] - p["pRateCorrectionOut"]
    p["pOffsetCorrectionOut"] = max(p["pOffsetCorrectionOut"], up(Fraction(sides[first][1], shortest)))
    before = up((Fraction(sides[first + 1][1], shortest) + macros) / micros)
    behind = up((Fraction(sides[first + 2][1] + 1, shortest) + macros) / micros)
    if p["gdStaticSlot"] < before + behind:
        p["gdActionPointOffset"], p["gdStaticSlot"] = before, before + behind
    else:
        p["gdActionPointOffset"] = min(max(p["gdActionPointOffset"], before), p["gdStaticSlot"] - behind)


def least_values(parameters: Parameters, join: bool, damping: int | None = None) -> Found:
    """These parameters with the least changes by which all checks and constraints hold, or why there are none.

    The damping is the given one where it suffices.
    """
    p = dict(parameters)
    p["pRateCorrectionOut"] = max(p["pRateCorrectionOut"], least_rate(p, join))
    name = too_great(p)
    if name:
        return None, beyond(name, p[name])
    p["pClusterDriftDamping"] = max(damping or 0, least_damping(p))
    fit_slots(p, bounds_of(p, join), 7 if join else 3)
    name = too_great(p)
    if name:
        return None, beyond(name, p[name])
    return schedule(p)


def schedule(p: Parameters) -> Found:
    """The rest of the cycle behind the slots, with room for the offset correction, or why they do not fit."""
    macros, slots, slot = p["gMacroPerCycle"], p["gNumberOfStaticSlots"], p["gdStaticSlot"]
    start = latest_start(dict(p, gNumberOfStaticSlots=0))
    if start is None:
        return None, (f"an offset limit of {p['pOffsetCorrectionOut']} microticks leaves no macrotick at which the offset "
                      "correction could start (constraint 4)")
    if slots * slot >= start:
        fit = max(0, (start - 1) // slot)
        return None, (f"{slots} static slots of {slot} macroticks are {slots * slot}, and a cycle has {macros}, of which "
                      f"the last {macros - start} are for the offset correction: "
                      + (f"{fit} such slots fit" if fit else "not even one fits")
                      + "; fewer slots, a longer cycle or lower limits help")
    p["gdNIT"] = macros - slots * slot
    p["gOffsetCorrectionStart"] = min(p["gOffsetCorrectionStart"], start)
    if p["gOffsetCorrectionStart"] <= slots * slot:
        p["gOffsetCorrectionStart"] = start
    return p, None
