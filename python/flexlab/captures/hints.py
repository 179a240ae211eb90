"""Hints at what may be stated wrongly of an analyzer, by a log and what flexray tells of it. They are no contradictions, and no proof."""
from __future__ import annotations

from collections.abc import Sequence
from fractions import Fraction
from itertools import islice
from typing import Any, NamedTuple

from flexray.results import Observation

from ..base.units import TICKS
from ..pages.page import field as lines_of
from ..toml.cluster import Cluster
from .blame import Blamed
from .numbering import frames_of, numbered, text_of
from .observed import IRREGULAR, Limits, lower, rates
from .observer import Log, plain

# Of fewer stamps a common divisor may be chance, and of fewer nodes what most of them have.
STAMPS, NODES = 16, 3


class First(NamedTuple):
    """The first double cycle that has contradictions, its nodes that have one, and of how many nodes it says something. Irregular frames
    are left aside: of these no analyzer is the cause."""
    double: int
    nodes: list[int]
    of: int

    @property
    def is_most(self) -> bool:
        return self.of >= NODES and 2 * len(self.nodes) > self.of


def first_of(told: Observation) -> First | None:
    faults = [fault for fault in told.faults if fault.kind not in IRREGULAR]
    if not faults:
        return None
    double = faults[0].cycle // 2
    nodes = {fault.node for fault in faults if fault.cycle // 2 == double and fault.node is not None}
    return First(double, sorted(nodes), len(nodes | {row.node for row in told.nodes if row.double == double}))


def grain_of(log: Log) -> int | None:
    """Of how many units all stamps of a log are multiples, counted from one of them."""
    return log.grain if log.entries >= STAMPS else None


def anew_of(cluster: Cluster, path: str, told: Observation) -> int | None:
    """The stamp from which on frames of a log come as if they were counted anew: none has a number by those before, and the next ones have
    one by this. So it is behind a second startup, and where the analyzer's clock or all counts jumped."""
    if not any(fault.kind == "cycle" for fault in told.faults):
        return None
    text = text_of(path)
    frames = list(frames_of(cluster, text, told.log.damaged > 0))
    last = max((at for at, (_, number) in enumerate(numbered(cluster, text.unit, frames)) if number is not None), default=-1)
    later = [number for _, number in islice(numbered(cluster, text.unit, frames[last + 1:]), STAMPS)]
    return frames[last + 1].stamp if len(later) == STAMPS and None not in later else None


class Aside(NamedTuple):
    """In how many of the double cycles with nodes the cycles of all of these certainly were beyond what oscillators and the analyzer's
    clock make them, to one side: by so many ppm faster than nominal ones or more, or slower."""
    doubles: int
    of: int
    ppm: Fraction


def aside_of(cluster: Cluster, log: Log, told: Observation) -> Aside | None:
    """That, where it is so in most of them."""
    doubles: dict[int, list[Limits]] = {}
    for row in told.nodes:
        doubles.setdefault(row.double, []).extend(rates([row], cluster))
    bound = cluster.parameters["xRateBound"] + log.observer.drift + 1
    faster = [low for rows in doubles.values() if (low := Fraction(min(row.low for row in rows))) > bound]
    slower = [high for rows in doubles.values() if (high := Fraction(max(row.high for row in rows))) < -bound]
    found = max(faster, slower, key=len)
    return Aside(len(found), len(doubles), min(found, key=abs)) if 2 * len(found) > len(doubles) else None


def is_doubted(cluster: Cluster, log: Log, told: Observation) -> bool:
    """Whether a hint doubts what is stated of an analyzer or of oscillators."""
    return is_coarse(log) or aside_of(cluster, log, told) is not None


def is_coarse(log: Log) -> bool:
    """Whether stamps have steps of which no error is stated."""
    grain = grain_of(log)
    return grain is not None and log.error < (grain - 1) * log.unit


def least_lost(told: Observation, blame: Sequence[Blamed]) -> int | None:
    """How many senders nodes have to miss, where each term that contradicts may be right so, and no node alone can have been at fault or
    losses are stated, which that leaves aside."""
    terms = {(fault.cycle, fault.node, fault.kind) for fault in told.faults if fault.kind in ("offset", "rate")}
    least = [row.least for row in told.missed if (row.cycle, row.node, row.kind) in terms]
    if not least or None in least or not blame or not told.lost and any(one.says != "out" for one in blame):
        return None
    return max(count for count in least if count is not None)


def hint_lines(cluster: Cluster, log: Log, told: Observation, anew: int | None, blame: Sequence[Blamed] = ()) -> list[str]:
    found, grain, first = [], grain_of(log), first_of(told)
    if grain and is_coarse(log):
        unit = log.unit * Fraction(cluster.microtick_ns) / TICKS
        found.append(f"all stamps are multiples of {plain(grain * unit)} ns, counted from the first frame: if the analyzer counts in such "
                     f"steps, state resolution_ns = {plain(grain * unit)}, which is an error of {grain - 1} units of {plain(unit)} ns")
    if first and first.is_most:
        where = ("look first at what Blame leaves, which may send other nodes something else than the analyzer; and else "
                 if any(one.says == "left" for one in blame) else "look first ")
        found.append(f"{len(first.nodes)} of {first.of} nodes have a contradiction in the first double cycle that has one, {first.double}: "
                     f"{where}at what is stated of the analyzer, as the limits of delays, the error and the drift")
    if lost := least_lost(told, blame):
        found.append(f"each term that contradicts may be right, if its node missed some of the others, and at most {lost}: if frames may "
                     f"have been lost on the bus, state lost = {lost} in [observer]")
    if aside := aside_of(cluster, log, told):
        bound, drift = cluster.parameters["xRateBound"], log.observer.drift
        way = "faster" if aside.ppm > 0 else "slower"
        found.append(f"in {aside.doubles} of {aside.of} double cycles the cycles of all nodes were {way} than nominal ones by "
                     f"{lower(abs(aside.ppm))} ppm or more, and oscillators within {bound} ppm and an analyzer within {drift} ppm come to "
                     f"{bound + drift}: rate terms may make up the rest, or drift_ppm, oscillator_ppm or microtick_ns is wrong")
    if anew is not None:
        at = lower(seconds_of(cluster, log, anew), 6)
        found.append(f"from {at} s of the file on frames come as if they were counted anew: after a second startup, or where the "
                     f"analyzer's clock or all counts jumped; --part {at} observes these as a log of their own")
    return lines_of("Hint", *found) if found else []


def seconds_of(cluster: Cluster, log: Log, stamp: int) -> Fraction:
    """When a frame of this stamp came, in seconds behind the first frame of the file."""
    begin = min(frame.ns for frame in log.frames.found) - (log.frames.zero or 0)
    return (begin + stamp * log.unit * Fraction(cluster.microtick_ns) / TICKS) / 10**9


def hints_object(cluster: Cluster, log: Log, told: Observation, anew: int | None) -> dict[str, Any]:
    """As an object: names stand in docs/FLEXLAB.md, "For machines"."""
    first = first_of(told)
    return {"grain": {"units": grain_of(log), "unit_ticks": log.unit, "error_ticks": log.error},
            "first": None if first is None else {"double_cycle": first.double, "nodes": first.nodes, "of": first.of},
            "aside": None if (aside := aside_of(cluster, log, told)) is None else {
                "double_cycles": aside.doubles, "of": aside.of, "ppm": float(aside.ppm)},
            "anew_s": None if anew is None else float(lower(seconds_of(cluster, log, anew), 6))}
