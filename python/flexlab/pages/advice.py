"""Which parameter a failing check asks for, and the least value of it alone that meets the sides that
flexray printed (docs/PRECISION.md, "Bounds and checks")."""
from fractions import Fraction
from typing import NamedTuple

from ..base import ranges
from ..base.ranges import Parameters

WHY = {
    1: "the damping has to outweigh what a rate value may be off",
    2: "the rate limit has to suffice for two oscillators at opposite ends",
    3: "the offset limit has to suffice for the precision",
    4: "an early arrival must not fall before its slot",
    5: "a late arrival must not fall behind its slot",
    6: "the rate limit has to suffice for what the first rate of a node that joins may be off",
    7: "the offset limit has to suffice for the reach of a node that joins",
    8: "an early arrival within reach must not fall before its slot",
    9: "a late arrival within reach must not fall behind its slot",
}
FORMULA = {
    1: "pClusterDriftDamping * Qm >= y1 + 2 J",
    2: "pRateCorrectionOut * Qm >= 2 * pMicroPerCycle * xRateBound",
    3: "pOffsetCorrectionOut * Qm >= precision + E1 + Qp",
    4: "(gdActionPointOffset * (pMicroPerCycle - pRateCorrectionOut) - gMacroPerCycle) * Qm "
       ">= gMacroPerCycle * (precision + xDelayError)",
    5: "((gdStaticSlot - gdActionPointOffset) * (pMicroPerCycle - pRateCorrectionOut) - gMacroPerCycle) * Qm "
       "> gMacroPerCycle * (precision + pDelayCompensation * 1000000 + xDelayError)",
    6: "pRateCorrectionOut * Qm >= 2 * pMicroPerCycle * xRateBound + y1 + 4 J",
    7: "pOffsetCorrectionOut * Qm >= reach + E1 + Qp",
    8: "(gdActionPointOffset * (pMicroPerCycle - pRateCorrectionOut) - gMacroPerCycle) * Qm "
       ">= gMacroPerCycle * (reach + xDelayError)",
    9: "((gdStaticSlot - gdActionPointOffset) * (pMicroPerCycle - pRateCorrectionOut) - gMacroPerCycle) * Qm "
       "> gMacroPerCycle * (reach + pDelayCompensation * 1000000 + xDelayError)",
}
LETTERS = ("Qm = 1000000 - xRateBound, Qp = 1000000 + xRateBound, E1 = xDelayError + pDelayCompensation * xRateBound, "
           "J = (pMicroPerCycle + pRateCorrectionOut) * xChangeBound; in a file of version 2 pDelayCompensation is the "
           "greater of both compensations")
OR = {
    1: "lower xChangeBound or xDelayError",
    2: "lower xRateBound, if the oscillators are better",
    3: "lower xChangeBound, xDelayError or pClusterDriftDamping, which widen the precision",
    4: "lower what widens the precision (as for C3), or make a macrotick longer",
    5: "lower what widens the precision (as for C3), or gdActionPointOffset",
    6: "lower xRateBound, xDelayError or xChangeBound",
    7: "lower xChangeBound, xDelayError or pClusterDriftDamping, which widen the reach",
    8: "lower what widens the reach (as for C7), or make a macrotick longer",
    9: "lower what widens the reach (as for C7), or gdActionPointOffset",
}
# The checks for the way to sync have the peak in place of the precision ("The way to sync").
WAY_WHY = {
    3: "the offset limit has to suffice for the peak, the furthest that clocks lie apart on the way to sync",
    4: "an early arrival must not fall before its slot, with clocks as far apart as the peak",
    5: "a late arrival must not fall behind its slot, with clocks as far apart as the peak",
}
WAY_FORMULA = {number: FORMULA[number].replace("precision", "peak") for number in WAY_WHY}
WAY_OR = {number: "let clocks begin nearer together, so give a lower START or RATE (the peak grows with both), or " + text
          for number, text in ((3, OR[3]), (4, OR[4]), (5, OR[5]))}
# The checks of the precision have how far action points lie apart in sync in place of the classical bound ("Where delays flutter
# little").
SHARP_WHY = {
    1: "the damping has to outweigh the rounding of arrivals and what delays flutter, or the rates of all may walk away "
       "together",
    2: WHY[2],
    3: "the offset limit has to suffice for how far action points lie apart in sync",
    **{number: WHY[number] for number in (4, 5, 6, 7, 8, 9)},
}
SHARP_FORMULA = {
    1: "pClusterDriftDamping * Qm + 1 >= Qm + flutter + J + J1", 2: FORMULA[2],
    **{number: FORMULA[number].replace("precision", "near") for number in (3, 4, 5)},
    6: "pRateCorrectionOut * Qm >= 2 * pMicroPerCycle * xRateBound + flutter + J + Qp",
    **{number: FORMULA[number] for number in (7, 8, 9)},
}
SHARP_LETTERS = (LETTERS + "; J1 = (pMicroPerCycle + pRateCorrectionOut + pOffsetCorrectionOut + 1) * xChangeBound, and near is "
                 "how far action points lie apart in sync, reach how far those of a node that follows lie from the others")
SHARP_OR = {
    1: "let delays flutter less within a double cycle, or lower xChangeBound",
    2: OR[2],
    3: "lower xDelayError, xChangeBound, what delays flutter, or pClusterDriftDamping",
    4: "lower these (as for C3), or make a macrotick longer",
    5: "lower these (as for C3), or gdActionPointOffset",
    6: "lower xRateBound, xChangeBound or what delays flutter",
    7: "lower xDelayError, xChangeBound, what delays flutter, or pClusterDriftDamping",
    8: "lower these (as for C7), or make a macrotick longer",
    9: "lower these (as for C7), or gdActionPointOffset",
}
# Those for the way to sync have how far action points lie apart on it; the first one is asked where the walk does not
# last so long.
SHARP_WAY_WHY = {number: WHY[number] if number != 3 else "the offset limit has to suffice for how far action points lie apart on "
                 "the way" for number in (3, 4, 5)}
SHARP_WAY_FORMULA = {number: text.replace("near", "reach") for number, text in SHARP_FORMULA.items()}
SHARP_WAY_LETTERS = SHARP_LETTERS.split(", and near is")[0] + (", and reach is how far action points lie apart on the way to sync")
TURNS = {1: "pClusterDriftDamping", 2: "pRateCorrectionOut", 3: "pOffsetCorrectionOut",
         4: "gdActionPointOffset", 5: "gdStaticSlot", 6: "pRateCorrectionOut", 7: "pOffsetCorrectionOut",
         8: "gdActionPointOffset", 9: "gdStaticSlot"}


class Advice(NamedTuple):
    """The parameter that a failing check asks for, the value it has, the least that meets the check, and whether that is in its
    range."""
    name: str
    now: int
    value: int
    fits: bool


def up(value: Fraction) -> int:
    return -(-value.numerator // value.denominator)


def least(number: int, right: int, parameters: Parameters) -> int:
    """The least value of the check's parameter with which its left side meets this right side."""
    shortest = 1000000 - parameters["xRateBound"]
    macros = parameters["gMacroPerCycle"]
    micros = parameters["pMicroPerCycle"] - parameters["pRateCorrectionOut"]
    if number in (1, 2, 3, 7):
        return up(Fraction(right, shortest))
    if number in (4, 8):
        return up((Fraction(right, shortest) + macros) / micros)
    if number == 6:
        # Its right side has the rate limit too, in seven changes of a cycle.
        change = 7 * parameters["xChangeBound"]
        return up(Fraction(right - change * parameters["pRateCorrectionOut"], shortest - change))
    # C5 and C9 ask for more than their right sides.
    return parameters["gdActionPointOffset"] + up((Fraction(right + 1, shortest) + macros) / micros)


def advise(number: int, right: int, parameters: Parameters) -> Advice:
    """What a failing check with this right side asks for."""
    name = TURNS[number]
    value = least(number, right, parameters)
    return Advice(name, parameters[name], value, value <= ranges.PARAMETERS[name].most)


def latest_start(parameters: Parameters) -> int | None:
    """The latest gOffsetCorrectionStart that meets constraint 4, or None where none behind the slots does."""
    macros = parameters["gMacroPerCycle"]
    room = parameters["pMicroPerCycle"] - parameters["pRateCorrectionOut"] - macros
    if room <= 0:
        return None
    start = macros - up(Fraction(macros * (parameters["pOffsetCorrectionOut"] + 1), room))
    return start if start > parameters["gNumberOfStaticSlots"] * parameters["gdStaticSlot"] else None


def also(number: int, parameters: Parameters, value: int) -> str | None:
    """What else has to fit where that value is taken: constraints of docs/FORMATS.md."""
    if number in (2, 3, 6, 7):
        start = latest_start(dict(parameters, **{TURNS[number]: value}))
        if start is None:
            return "constraint 4 then asks for a gOffsetCorrectionStart within the static slots, which is none"
        if start < parameters["gOffsetCorrectionStart"]:
            return f"constraint 4 then asks for an earlier gOffsetCorrectionStart, {start} at most"
    if number in (5, 9):
        return "constraint 1 then asks for fewer static slots, a shorter gdNIT or a longer cycle"
    return None
