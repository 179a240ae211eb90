"""The skew by stretches of cycles: before, while and after an oscillator changes or a node joins, and from when on
it stays within its later level. The numbers are those of flexray-series, the greatest skew of each cycle, or where
that is not installed how far the starts of a cycle lie apart in the trace, which is less."""
from __future__ import annotations

import re
from collections.abc import Iterable, Sequence
from dataclasses import dataclass
from fractions import Fraction
from typing import TYPE_CHECKING, NamedTuple

from ..base.ending import USAGE, Stop
from ..toml.cluster import Cluster
from .sync import starts_apart

if TYPE_CHECKING:
    from .runs import Run

# Changes that lie no further apart are one; what an oscillator did is corrected two double cycles later.
TOGETHER, CORRECTED = 20, 4
MOST = 12


class Change(NamedTuple):
    """The first and the last cycle of a stretch in which oscillators of these nodes change."""
    first: int
    last: int
    nodes: set[int]


class Stretch(NamedTuple):
    """Cycles from the first to the last, and what is so in them."""
    first: int
    last: int
    what: str


@dataclass
class Window:
    first: int
    last: int
    what: str
    greatest: int
    cycle: int
    most: int
    mean: Fraction
    settled: int
    level: int


def skews(run: Run) -> Sequence[int]:
    """That of each cycle, in ticks, from cycle 0 on."""
    return run.series.cycles.skews if run.series and exact(run) else [starts_apart(rows) for rows in run.cycles]


def exact(run: Run) -> bool:
    return bool(run.series and run.series.cycles)


def settled(rows: Sequence[int], first: int) -> tuple[int, int]:
    """The first cycle from which on the skew stays within its level, and that: the greatest of the second half of the rows, of
    which the first one is of this cycle."""
    level = max(rows[len(rows) // 2:])
    # By halves: behind `end` all rows are within the level, and one before `begin` is not, or there is none.
    begin, end = 0, len(rows) // 2
    while begin < end:
        middle = (begin + end) // 2
        if max(rows[middle:end]) <= level:
            end = middle
        else:
            begin = middle + 1
    return first + end, level


def window(rows: Sequence[int], first: int, last: int, what: str) -> Window | None:
    """The figures of the cycles from first to last, or None where there are none of them."""
    rows = rows[first:last + 1]
    if not rows:
        return None
    ordered = sorted(rows)
    # The least skew that no more than one of a hundred cycles is above.
    most = ordered[-(-99 * len(ordered) // 100) - 1]
    return Window(first, first + len(rows) - 1, what, ordered[-1], first + rows.index(ordered[-1]), most,
                  Fraction(sum(rows), len(rows)), *settled(rows, first))


def changes(run: Run) -> tuple[list[Change], list[tuple[int, set[int]]]]:
    """The stretches in which oscillators change, and (cycle, nodes) that begin."""
    marks = sorted((cycle, node) for node, steps in run.cluster.lengths.items() for cycle in steps if cycle)
    found: list[Change] = []
    for cycle, node in marks:
        if found and cycle - found[-1].last <= TOGETHER:
            found[-1] = Change(found[-1].first, cycle, found[-1].nodes | {node})
        else:
            found.append(Change(cycle, cycle, {node}))
    joined: dict[int, set[int]] = {}
    for node in run.cluster.joins:
        begun = run.first_row(node)
        if begun:
            joined.setdefault(begun, set()).add(node)
    return found, sorted(joined.items())


def named(nodes: Iterable[int], cluster: Cluster) -> str:
    """These nodes in words, with the names of those that have one."""
    found = [cluster.called(node) for node in sorted(nodes)]
    return ("node " if len(found) == 1 else "nodes ") + ", ".join(found)


def stretches(run: Run) -> list[Stretch]:
    """Those of the cycles of a run from its first double cycle in sync on."""
    changing, joining = changes(run)
    last = len(run.cycles) - 1
    marks: list[tuple[int, int | None, str]] = [
        (first, min(end + CORRECTED - 1, last), f"{named(nodes, run.cluster)} change{'s' if len(nodes) == 1 else ''}")
        for first, end, nodes in changing]
    at = 2 * run.report.in_sync if run.report.in_sync is not None else 0
    found: list[Stretch] = []
    what = "from sync on" if run.report.in_sync is not None else "from the beginning"
    marks += [(cycle, None, f"with {named(nodes, run.cluster)}") for cycle, nodes in joining]
    points = sorted(marks, key=lambda mark: mark[0])
    for first, end, name in points:
        if first > at:
            found.append(Stretch(at, first - 1, what))
        at = max(at, first)
        if end is None:
            what = f"{name}"
        elif end >= at:
            found.append(Stretch(at, end, name))
            at, what = end + 1, "after it"
    if at <= last:
        found.append(Stretch(at, last, what))
    return found


def windows(run: Run, asked: Iterable[tuple[int, int]] = ()) -> list[Window]:
    """The windows of a run: those that were asked for, or else its stretches."""
    rows = skews(run)
    spans = [Stretch(first, last, "") for first, last in asked] or stretches(run)
    return [found for found in (window(rows, *span) for span in spans) if found]


def later(run: Run, first: int | None = None) -> Window | None:
    """The figures from a cycle on: from the given one, or else from where the first stretch has settled."""
    rows = skews(run)
    if not rows:
        return None
    if first is None:
        spans = stretches(run)
        begun = rows[spans[0].first:spans[0].last + 1] if spans else []
        first = settled(begun, spans[0].first)[0] if begun else 0
    return window(rows, first, len(rows) - 1, "")


def begin_of(cycle: int | None, cluster: Cluster) -> int | None:
    if cycle is not None and not 0 <= cycle < cluster.cycles:
        raise Stop(USAGE, f"--from {cycle}: the run has the cycles 0 to {cluster.cycles - 1}")
    return cycle


def ranges_of(text: str, cluster: Cluster) -> list[tuple[int, int]]:
    """(first, last) of each range of --cycles."""
    found = []
    for part in filter(None, (part.strip() for part in text.split(","))):
        span = re.fullmatch(r"([0-9]{1,6})(-([0-9]{1,6})?)?", part)
        first = int(span[1]) if span else -1
        last = -1 if not span else first if not span[2] else int(span[3] or cluster.cycles - 1)
        if not 0 <= first <= last < cluster.cycles:
            raise Stop(USAGE, f"--cycles {text}: {part} is no range of the cycles 0 to {cluster.cycles - 1}, as 20-99, 20 "
                              "or 20-")
        found.append((first, last))
    return found
