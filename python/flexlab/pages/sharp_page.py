"""The lines of a page that tell of the precision: how far the clocks of this run lie apart where delays flutter little."""
from __future__ import annotations

from fractions import Fraction
from collections.abc import Callable
from typing import TYPE_CHECKING

from .gaps import gap_words, held_words, sharp_check_words
from ..runs.least import least_lasting_damping, least_sharp_damping
from ..runs.every_gap import every_gap
from ..runs.sharp import (ends_of, first_of, flutter_of, gap_of, is_covered, is_within, kind_of, lasts_of, lost_of, since_of,
                          skew_of)
from ..base.units import decimal, lasting, microseconds, percent, us_of_ticks

if TYPE_CHECKING:
    from ..runs.runs import Run
    from ..runs.sharp import Sharp
    from ..toml.cluster import Cluster

Lines = Callable[..., list[str]]

KINDS = {"alone": "without arbitrary nodes", "beside": "beside arbitrary nodes"}


def kind_words(sharp: Sharp, unit: Fraction) -> str:
    return f"{KINDS[sharp.bounds.kind]}, for delays that flutter by {microseconds(sharp.bounds.flutter, unit)}"


def ns_words(ticks: int, unit: Fraction) -> str:
    return f"{decimal(us_of_ticks(ticks, unit) * 1000, 3).rstrip('0').rstrip('.')} ns"


def flutter_words(run: Run) -> list[str]:
    """Which delay flutters, and until when; and what does not count since it lies before sync."""
    turn, cluster, since = run.sharp.told.turn, run.cluster, since_of(run)
    found = []
    if turn is not None:
        found.append(f"the delay of frames of node {cluster.called(turn.sender)} at node {cluster.called(turn.receiver)} on channel "
                     f"{turn.channel} flutters by {ns_words(turn.ticks, cluster.microtick_ns)}, last in double cycle {turn.double}, at "
                     f"cycle {2 * turn.double + 1}; a change at an even cycle is no flutter")
    early = flutter_of(cluster)
    if early > run.sharp.flutter:
        found.append(f"before double cycle {since}, the first in sync, delays flutter by up to {ns_words(early, cluster.microtick_ns)}: "
                     "that does not count")
    return found


def early_words(run: Run) -> list[str]:
    """That gaps before sync do not count, where there are some."""
    since = since_of(run)
    early = since and every_gap(run.cluster) != every_gap(run.cluster, since)
    return [f"gaps before double cycle {since}, the first in sync, do not count; there are some, see below"] if early else []


def covered_words(run: Run) -> list[str]:
    """Sentences on whether the run is covered."""
    gap = gap_of(run)
    if gap is None:
        never = first_of(run) is None
        return ["yes; but what is proved begins with the first double cycle in sync, and there is none" if never else
                "yes: while in sync no macroticks of correct nodes lie further apart than the precision; that is proved of such "
                "runs", *early_words(run)]
    words = gap_words(gap, run.cluster) if gap[0] != "check" else [f"check C{gap[1]} fails, see below"]
    return ["NO: nothing is promised of this run's precision", *words]


def sync_words(run: Run, ms_of_cycle: Callable[[int, Cluster], Fraction]) -> str:
    first, lost, cluster = first_of(run), lost_of(run), run.cluster
    if first is None:
        return "NEVER: no double cycle of the run is in sync"

    def place(double: int) -> str:
        return f"cycle {2 * double}, {decimal(ms_of_cycle(2 * double, cluster), 3)} ms"

    ends = ends_of(run)
    if lost is None:
        return f"yes, from double cycle {first} on ({place(first)}), and still in sync at the end"
    # As long as the walk lasts, lengths may leave their range; nothing else of sync is lost.
    if is_covered(run) and lost < (run.report.doubles if ends is None else ends):
        return (f"yes, from double cycle {first} on ({place(first)}), but for lengths that leave their range from double cycle "
                f"{lost} on ({place(lost)})")
    return f"NOT ALL THE WAY: from double cycle {first} on ({place(first)}) at first; lost in double cycle {lost} ({place(lost)})"


def lasting_words(run: Run, ms_of_cycle: Callable[[int, Cluster], Fraction]) -> str | None:
    """For how long what is proved holds, where the first check fails; None where it is to the end of the run. Where nodes join it
    is so as long as the rate limit suffices for first rates too."""
    lasts, end = run.sharp.bounds.lasts, ends_of(run)
    if lasts is None or not is_covered(run) or first_of(run) is None:
        return None
    if not lasts:
        return "NOT PROVED: C1 fails, and the rate limit holds the walk of all rates for no double cycle"
    told = (f"{lasts} double cycles from there ({lasting(ms_of_cycle(2 * lasts, run.cluster))}), since {run.sharp.bounds.ending}")
    if end is None:
        return f"proved of {told}: to the end of this run"
    return f"PROVED IN PART, of {told}: not from cycle {2 * end} on"


def skew_lines(run: Run, field: Lines) -> list[str]:
    """How far clocks lay apart since they were first in sync."""
    skew, sharp, unit = skew_of(run), run.sharp, run.cluster.microtick_ns
    if skew is None:
        return []
    found = field("Skew in sync", f"{microseconds(skew.ticks, unit)} at most since it was first in sync, "
                                  f"{percent(skew.ticks, sharp.bounds.precision)} of the precision (cycle {skew.cycle}, macrotick "
                                  f"{skew.macrotick})")
    if is_within(run):
        return found + field("Within", "yes: since then the skew was never above the precision")
    place = ""
    if sharp.told.beyond:
        place = ", first in cycle {}, macrotick {}".format(*sharp.told.beyond)
    return found + field("Within", f"NO: since then the skew was above the precision{place}")


def losses_lines(run: Run, field: Lines) -> list[str]:
    """How far the clocks may come apart through frames that are lost."""
    losses, cluster, since = run.sharp.told.losses, run.cluster, since_of(run)
    if not losses.doubles:
        return []
    where = (f"frames are lost in {losses.doubles} of {run.report.doubles - since} double cycles"
             + (f" from double cycle {since} on" if since else "") + f", the last is double cycle {losses.last}")
    first, lasts = first_of(run), lasts_of(run)
    if losses.bound is None:
        return field("Losses", where, "nothing is proved of this run through losses")
    if first is None or lasts == 0:
        limit = ("C6 fails: the rate limit does not suffice for the first rate of a node that joins" if cluster.joins else
                 "C1 fails, and the rate limit holds the walk for no double cycle")
        why = "never in sync" if first is None else limit
        return field("Losses", where, f"covered through losses, but {why}: nothing is promised")
    span = "to the end" if lasts is None else f"for {lasts} double cycles"
    whose = "the clocks of nodes that take part" if cluster.joins else "the clocks"
    return field("Losses", where, f"covered through losses: from double cycle {first} on, {span}, {whose} lie no further apart than "
                                  f"{microseconds(losses.bound, cluster.microtick_ns)}, the number of double cycle {losses.double}")


def sharp_lines(run: Run, field: Lines, ms_of_cycle: Callable[[int, Cluster], Fraction]) -> list[str]:
    """The lines of the page."""
    bounds, unit = run.sharp.bounds, run.cluster.microtick_ns
    proved = lasting_words(run, ms_of_cycle)
    found = field("In sync", sync_words(run, ms_of_cycle), *([proved] if proved else []))
    found += field("Covered", *covered_words(run))
    found += field("Precision", f"{microseconds(bounds.precision, unit)} ({decimal(Fraction(bounds.precision, 1000000), 3)} "
                                f"microticks), {kind_words(run.sharp, unit)}", *flutter_words(run))
    return found + skew_lines(run, field) + losses_lines(run, field)


def check_lines(run: Run, field: Lines) -> list[str]:
    """The checks of the precision: those that fail, or which is the tightest."""
    bounds, p = run.sharp.bounds, run.cluster.parameters
    kind, found = kind_of(run.cluster, run.sharp.flutter), list[str]()
    lasting = least_lasting_damping(p, kind, bool(run.cluster.joins))
    for check in bounds.failing:
        if check.number == 1 and bounds.is_held:
            words = [held_words(check.left, check.right)]
        else:
            words = sharp_check_words(check.number, check.left, check.right, p, kind)
        if check.number == 1 and bounds.lasts is not None:
            if lasting < least_sharp_damping(p, kind):
                words.append(f"a damping of {lasting} suffices all the same: with that the walk is held")
            words.append(f"without that the precision is proved of {bounds.lasts or 'no'} double cycles from the first in sync on")
        found += field("" if found else "Checks", *words)
    if found:
        return found
    tight = max(bounds.checks, key=lambda check: Fraction(check.right, check.left) if check.left else Fraction(0))
    count = len(bounds.checks)
    less = f"; a damping of {lasting} would suffice" if lasting < p["pClusterDriftDamping"] else ""
    return field("Checks", f"C1 to C{count} hold, those of the precision; C{tight.number} is the tightest, used to "
                           f"{percent(tight.right, tight.left)}{less}")
