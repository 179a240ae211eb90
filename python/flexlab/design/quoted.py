"""What the standard has besides, by its formulas of appendix B as they are remembered: nothing proved stands beside them."""
from collections.abc import Iterator
from fractions import Fraction

from ..base.units import decimal, rounded
from ..pages.advice import up
from .solving import DEVIATION, Design
from .tasks import Wish

# Strobe offset and voting delay of the decoder, in samples, of which a bit has eight.
STROBE, VOTING, SAMPLES = 5, 2, 8


def decoding_correction(wish: Wish, microtick_ns: Fraction) -> int:
    """pDecodingCorrection: the start of a frame to the strobe of its first byte start, in microticks."""
    samples = Fraction((wish.start_bits + 1 + 1) * SAMPLES + STROBE + VOTING)
    return rounded(samples * wish.bit_ns / SAMPLES / microtick_ns)


def quoted(design: Design, wish: Wish) -> Iterator[tuple[str, str, str]]:
    """(name, value, unit) of each parameter that the formulas give."""
    p, unit = design.parameters, design.task.microtick_ns
    per_macro = Fraction(p["pMicroPerCycle"], p["gMacroPerCycle"])
    precision = design.precision_ns
    yield "gdCycle", decimal(wish.cycle_ns / 1000, 3), "us"
    yield "gdMacrotick", decimal(design.macrotick_ns / 1000, 6), "us"
    yield "gAssumedPrecision", decimal(precision / 1000, 3), "us, the sharp precision"
    yield "pdMaxDrift", str(design.task.drift), "microticks"
    yield "pdListenTimeout", str(2 * (p["pMicroPerCycle"] + design.task.drift)), "microticks"
    accepted = up(precision / (unit * (1 - DEVIATION)))
    yield "pdAcceptedStartupRange", str(accepted), "microticks at least, and gdMaxInitializationError besides"
    decoding = decoding_correction(wish, unit)
    yield "pDecodingCorrection", str(decoding), "microticks"
    for (channel, _, _), wait in zip(wish.delays, (design.task.compensations[0], design.task.compensations[1])):
        behind = Fraction(decoding + wait)
        whole = up(behind / per_macro)
        yield f"pMacroInitialOffset{channel}", str(p["gdActionPointOffset"] + whole), "macroticks"
        yield f"pMicroInitialOffset{channel}", str(rounded(whole * per_macro - behind)), "microticks"
    yield "gOffsetCorrectionMax", decimal(p["pOffsetCorrectionOut"] * unit * (1 - DEVIATION) / 1000, 3), "us"
    yield "gClusterDriftDamping", decimal(p["pClusterDriftDamping"] * unit / 1000, 4), "us"
