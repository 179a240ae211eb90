"""The bounds of a cluster in ticks, as the specification defines them.
Written by tools/forms from the specification of fr_bound."""
from .ranges import Parameters, compensation

# Of a nominal microtick.
TICKS = 1000000


def shortest_micro(p: Parameters) -> int:
    return TICKS - p["xRateBound"]


def arrival_error(p: Parameters) -> int:
    return p["xDelayError"] + compensation(p) * p["xRateBound"]


def longest_micro(p: Parameters) -> int:
    return TICKS + p["xRateBound"]


def cycle_change(p: Parameters) -> int:
    return (p["pMicroPerCycle"] + p["pRateCorrectionOut"]) * p["xChangeBound"]


def y1_of(p: Parameters) -> int:
    return 2 * arrival_error(p) + 2 * longest_micro(p) + 3 * cycle_change(p)


def lambda_of(p: Parameters) -> int:
    return 4 * y1_of(p) + 2 * longest_micro(p) + 4 * p["pClusterDriftDamping"] * longest_micro(p) + 8 * cycle_change(p)


def pi_of(p: Parameters) -> int:
    return 6 * lambda_of(p) + 4 * arrival_error(p) + 8 * longest_micro(p)


def precision_of(p: Parameters) -> int:
    return pi_of(p) + 2 * lambda_of(p) + 2 * longest_micro(p)


def follower_error(p: Parameters) -> int:
    return y1_of(p) + 4 * cycle_change(p)


def reach_of(p: Parameters) -> int:
    return pi_of(p) + 8 * lambda_of(p) + 4 * follower_error(p) + 4 * arrival_error(p) + 8 * longest_micro(p)


def odd_spread(p: Parameters, lengths: int) -> int:
    return lengths + 2 * cycle_change(p)


def wide_change(p: Parameters) -> int:
    return (p["pMicroPerCycle"] + p["pRateCorrectionOut"] + p["pOffsetCorrectionOut"] + 1) * p["xChangeBound"]


def steady_error(p: Parameters, flutter: int) -> int:
    return flutter + longest_micro(p) - 1 + wide_change(p)


def sharp_lambda(beside: bool, p: Parameters, flutter: int) -> int:
    if beside:
        return 4 * steady_error(p, flutter) + 2 * longest_micro(p) + 4 * p["pClusterDriftDamping"] * longest_micro(p) + 4 * cycle_change(p)
    return 2 * steady_error(p, flutter) + longest_micro(p) + 2 * p["pClusterDriftDamping"] * longest_micro(p) + 2 * cycle_change(p)


def sharp_pi(beside: bool, p: Parameters, flutter: int) -> int:
    if beside:
        return 3 * sharp_lambda(True, p, flutter) + 4 * cycle_change(p) + 4 * arrival_error(p) + 7 * longest_micro(p)
    return odd_spread(p, sharp_lambda(False, p, flutter)) + 2 * arrival_error(p) + 3 * longest_micro(p)


def sharp_spread(beside: bool, p: Parameters, flutter: int) -> tuple[int, int]:
    return sharp_pi(beside, p, flutter), sharp_lambda(beside, p, flutter)


def precision_by(p: Parameters, starts: int, lengths: int) -> int:
    return starts + lengths + odd_spread(p, lengths) + 2 * longest_micro(p)
