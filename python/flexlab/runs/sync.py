"""In which double cycles of a trace the clocks are in sync: numbers that flexray printed, held against
bounds that it printed, by the definition of docs/PROTOCOL.md ("In sync")."""
from collections.abc import Callable, Iterable, Mapping
from typing import Protocol
from ..base.ranges import Parameters
from ..program.report import Row, Rows, Trace
from ..toml.cluster import Join


class Limits(Protocol):
    """Bounds of how far lengths and starts of cycles lie apart in sync, in ticks."""

    @property
    def lambda_(self) -> int: ...

    @property
    def pi(self) -> int: ...


def spread(values: Iterable[int]) -> int:
    known = list(values)
    return max(known) - min(known) if known else 0


def running(rows: Rows) -> list[Row]:
    return [row for row in rows.values() if row.state != "halt"]


def starts_apart(rows: Rows) -> int:
    """How far the starts of a cycle lie apart, of nodes that are active or passive, in ticks."""
    return spread(row.start for row in running(rows))


def is_in_sync(pair: Trace, bounds: Limits, parameters: Parameters) -> bool:
    micros, most = parameters["pMicroPerCycle"], parameters["xRateBound"]
    for rows in pair:
        lengths = [(micros + row.rate) * row.length for row in rows.values()]
        if any(row.state != "active" for row in rows.values()) or spread(lengths) > bounds.lambda_:
            return False
        if any(not micros * (1000000 - most) <= length <= micros * (1000000 + most) for length in lengths):
            return False
    return spread(row.start for row in pair[0].values()) <= bounds.pi


def is_in_sharp_sync(pair: Trace, bounds: Limits, parameters: Parameters) -> bool:
    """By the definition of docs/PRECISION.md ("Where delays flutter little"), each length in its range."""
    micros, most = parameters["pMicroPerCycle"], parameters["xRateBound"]
    lengths = [(micros + row.rate) * row.length for row in pair[0].values()]
    return (all(row.state == "active" for rows in pair for row in rows.values())
            and spread(row.start for row in pair[0].values()) <= bounds.pi and spread(lengths) <= bounds.lambda_
            and all(micros * (1000000 - most) <= length <= micros * (1000000 + most) for length in lengths))


def fits(synced: list[bool], told: int | None, joins: Mapping[int, Join]) -> bool:
    """Whether the told double cycle may be the first one in sync in which no node follows.

    A trace does not say who follows: only nodes that join can, in the two double cycles behind that in which they
    listen.
    """
    good = [at for at, in_sync in enumerate(synced) if in_sync]
    if told is not None and told not in good:
        return False
    early = good if told is None else good[:good.index(told)]
    return all(any(double < at < double + 3 for double, _ in joins.values()) for at in early)


def sync_of(cycles: Trace, bounds: Limits, parameters: Parameters,
            test: Callable[[Trace, Limits, Parameters], bool] = is_in_sync) -> list[bool]:
    """For each double cycle whether it is in sync, or in sharp sync."""
    return [test(cycles[at:at + 2], bounds, parameters) for at in range(0, len(cycles) - 1, 2)]
