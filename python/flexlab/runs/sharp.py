"""The sharper bounds of a run: what flexray says of them of the double cycles from the first in sharp sync on, and the numbers of
both kinds for the flutter of the run's delays from there on."""
from __future__ import annotations

from collections.abc import Iterator
from dataclasses import dataclass, field, replace
from typing import TYPE_CHECKING, NamedTuple

from flexray.results import Losses, SharpReport

from ..base import ranges
from ..base.bounds import TICKS
from .least import Kind, sharp_bounds_of
from ..program.report import Series, SharpBounds, Skew, Trace, read_sharp_bounds
from ..toml.cluster import Cluster
from .sync import is_in_sharp_sync

if TYPE_CHECKING:
    from .runs import Run

# The greatest flutter that flexray bound takes, twice the greatest delay error; beyond it a run has a delay outside its limit.
MOST = 20000000


class Turn(NamedTuple):
    """By how many ticks the delay of a link on a channel differs between the two cycles of a double cycle."""
    ticks: int
    sender: int
    receiver: int
    channel: str
    double: int


class Told(NamedTuple):
    """What a program says of the sharper bounds of a run: of the double cycles from `synced` on, the first in sharp sync in which no
    node follows, and of the whole run where that is None."""
    who: str
    flutter: int
    turn: Turn | None
    kind: str
    precision: int
    gap: list[str] | None
    synced: int | None
    lasts: int | None
    greatest: Skew | None
    beyond: tuple[int, int] | None
    losses: Losses


def told_by_report(found: SharpReport) -> Told:
    turn = Turn(found.flutter, *found.fluttering) if found.fluttering else None
    beyond = (found.beyond.cycle, found.beyond.macrotick) if found.beyond else None
    return Told("flexray run", found.flutter, turn, found.kind, found.precision, list(found.gaps[0]) if found.gaps else None, found.in_sync,
                found.lasts, found.greatest, beyond, found.losses)


def told_by_series(found: Series) -> Told:
    turn = Turn(found.flutter, *found.fluttering) if found.fluttering else None
    return Told("flexray-series", found.flutter, turn, found.kind, found.precision, list(found.sharp_gap) or None, found.sharp_synced,
                found.lasts, found.sharp_greatest, found.sharp_beyond, found.losses)


@dataclass
class Sharp:
    """Of a run: what a program told; the bounds of both kinds for that flutter or the most that flexray bound takes, those of the run's
    kind, and in which double cycles its trace is in sharp sync."""
    told: Told
    both: dict[str, SharpBounds]
    bounds: SharpBounds
    rows: list[bool] = field(default_factory=list)

    @property
    def flutter(self) -> int:
        return self.told.flutter


def turns(cluster: Cluster, since: int = 0) -> Iterator[Turn]:
    """Each of the double cycles from one on, from a correct sync node to another correct node; by sender, receiver, channel and double
    cycle."""
    for (sender, receiver, channel), steps in sorted(cluster.delays.items()):
        ends = [cluster.nodes[number] for number in (sender, receiver)]
        if ends[0].key_slot is not None and not any(node.arbitrary for node in ends) and channel in cluster.common(sender, receiver):
            before = ranges.compensation(cluster.parameters, channel) * TICKS
            for cycle, ticks in sorted(steps.items()):
                if cycle % 2 == 1 and 2 * since < cycle < cluster.cycles and ticks != before:
                    yield Turn(abs(ticks - before), sender, receiver, channel, cycle // 2)
                before = ticks


def greatest_turn(cluster: Cluster, since: int = 0) -> Turn | None:
    """Of those that differ most the last one, and of several in that double cycle the first; None where no delay differs."""
    found: Turn | None = None
    for turn in turns(cluster, since):
        if found is None or (turn.ticks, turn.double) > (found.ticks, found.double):
            found = turn
    return found


def flutter_of(cluster: Cluster, since: int = 0) -> int:
    """By how many ticks a delay of the run differs at most between the two cycles of a double cycle, from one on."""
    turn = greatest_turn(cluster, since)
    return turn.ticks if turn else 0


def flutters_of(cluster: Cluster) -> list[int]:
    """The same from each double cycle on."""
    found = [0] * (cluster.doubles + 1)
    for turn in turns(cluster):
        found[turn.double] = max(found[turn.double], turn.ticks)
    for double in range(cluster.doubles - 1, -1, -1):
        found[double] = max(found[double], found[double + 1])
    return found[:-1]


def kind_of(cluster: Cluster, flutter: int) -> Kind:
    """Of which sharper bounds a run is."""
    last = max((node.key_slot for node in cluster.nodes.values() if node.key_slot is not None), default=1)
    return Kind(bool(cluster.arbitrary), min(flutter, MOST), last)


def sharp_words(path: str, flutter: int, join: bool = False) -> list[str]:
    """What `bound` is asked for of the sharper bounds, of a cluster that nodes join too."""
    return ["bound", path, "sharp", str(min(flutter, MOST))] + (["join"] if join else [])


class Limits(NamedTuple):
    """How far lengths and starts of cycles lie apart in sharp sync, in ticks."""
    lambda_: int
    pi: int


def sharp_of(cluster: Cluster, told: Told, text: str, cycles: Trace) -> Sharp:
    """The sharper side of a run, by what a program told of it and flexray bound printed for its flutter."""
    both = read_sharp_bounds(text)
    bounds = both[kind_of(cluster, told.flutter).name]
    return Sharp(told, both, bounds, rows_of(cluster, told, bounds, cycles))


def rows_of(cluster: Cluster, told: Told, bounds: SharpBounds, cycles: Trace) -> list[bool]:
    """In which double cycles of a trace clocks are in sharp sync: before the first in which they are by the numbers for the flutter from
    the double cycle itself on."""
    flutters, kind = flutters_of(cluster), kind_of(cluster, 0)
    known: dict[int, Limits] = {told.flutter: Limits(bounds.lambda_, bounds.pi)} if told.flutter <= MOST else {}
    found = []
    for double in range(len(cycles) // 2):
        flutter = flutters[double] if told.synced is None or double < told.synced else told.flutter
        if flutter not in known:
            numbers = sharp_bounds_of(cluster.parameters, replace(kind, flutter=flutter))
            known[flutter] = Limits(numbers["lambda"], numbers["pi"])
        found.append(is_in_sharp_sync(cycles[2 * double:2 * double + 2], known[flutter], cluster.parameters))
    return found


def walks_of(cluster: Cluster, sharp: Sharp) -> int | None:
    """For how many double cycles the rate limit holds the walk of rates, None where on and on: how long sync lasts where it is not
    known to be longer."""
    return sharp_bounds_of(cluster.parameters, kind_of(cluster, sharp.flutter)).walks if sharp.bounds.is_held else sharp.bounds.lasts


def unlike(cluster: Cluster, sharp: Sharp, told: Told) -> str | None:
    """What of that which a program tells does not fit the bounds or the file, or None."""
    turn = greatest_turn(cluster, told.synced or 0)
    by_file = turn.ticks if turn else 0
    if told.flutter != by_file:
        return f"{told.who} says that delays flutter by {told.flutter} ticks, and by the file it is {by_file}"
    if told.turn != turn:
        return f"{told.who} names another delay that flutters most than the file, or another double cycle in which it last does"
    if told.flutter > MOST:
        return None
    if (told.kind, told.precision) != (sharp.bounds.kind, sharp.bounds.precision):
        return f"{told.who} tells another sharper precision than flexray bound"
    lasts = walks_of(cluster, sharp) if told.gap else sharp.bounds.lasts
    if told.synced is not None and told.lasts != lasts:
        return f"{told.who} tells another number of double cycles for which sharp sync lasts than flexray bound"
    return None


# ---- what is known of a run


def since_of(run: Run) -> int:
    """The double cycle from which on gaps and flutter count: the first in sharp sync, and the first of all where there is none."""
    return first_of(run) or 0


def gap_of(run: Run) -> list[str] | None:
    """The words of the first gap of the sharper bounds from there on, or None. Delays that flutter by more than twice the greatest delay
    error have the gap `flutter` here; one of them is outside its limit."""
    return ["flutter", str(run.sharp.flutter)] if run.sharp.flutter > MOST else run.sharp.told.gap


def is_covered(run: Run) -> bool:
    """Whether a run is sharply covered."""
    return gap_of(run) is None


def lasts_of(run: Run) -> int | None:
    """For how many double cycles from the first in sharp sync on the bounds hold, None where on and on: of a run that is not covered
    for as many as the rate limit holds the walk."""
    return run.sharp.bounds.lasts if is_covered(run) else walks_of(run.cluster, run.sharp)


def first_of(run: Run) -> int | None:
    """The first double cycle in sharp sync in which no node follows, or None."""
    return run.sharp.told.synced


def lost_of(run: Run) -> int | None:
    """The first double cycle behind that one that is not in sharp sync, or None."""
    first = first_of(run)
    return None if first is None else next((at for at in range(first, len(run.sharp.rows)) if not run.sharp.rows[at]), None)


def ends_of(run: Run) -> int | None:
    """The double cycle behind the last one of which the sharper precision is proved, from the first in sharp sync on; None
    where it is proved to the end of the run."""
    first, lasts = first_of(run), lasts_of(run)
    return None if first is None or lasts is None or first + lasts >= run.report.doubles else first + lasts


def skew_of(run: Run) -> Skew | None:
    """(skew, cycle, macrotick) of the greatest skew since the first double cycle in sharp sync, None where there is none."""
    return run.sharp.told.greatest


def is_within(run: Run) -> bool | None:
    """Whether the skew stayed within the sharper precision since then; None where there is no such double cycle."""
    skew = skew_of(run)
    return None if skew is None else skew.ticks <= run.sharp.bounds.precision
