"""The one verdict in front of a page: whether it is proved how far the clocks of the run lie apart, from when on, and by which
bound; and where it is not, why."""
from dataclasses import dataclass
from typing import TYPE_CHECKING

from ..base.units import microseconds
from ..runs.every_gap import every_gap
from ..runs.sharp import ends_of, first_of, gap_of, is_covered, since_of
from .gaps import gap_words

if TYPE_CHECKING:
    from ..runs.runs import Run


@dataclass(frozen=True)
class Verdict:
    """`ticks` is what clocks are proved to lie apart at most from `cycle` on, up to `until`
    where the proof ends before the run."""
    proved: bool
    told: str
    ticks: int | None = None
    cycle: int | None = None
    until: int | None = None


def verdict_of(run: "Run") -> Verdict:
    """By the precision where that is proved of the run, else by the classical bound."""
    unit, first, older = run.cluster.microtick_ns, first_of(run), run.report.in_sync
    if is_covered(run) and first is not None and run.sharp.bounds.lasts != 0:
        ticks, until = run.sharp.bounds.precision, ends_of(run)
        span = f"from cycle {2 * first} on" if until is None else f"from cycle {2 * first} to {2 * until - 1}, and no further"
        return Verdict(True, f"proved: {span} no macroticks of correct nodes lie further apart than {microseconds(ticks, unit)}, the "
                             "precision", ticks, 2 * first, None if until is None else 2 * until)
    if run.report.gap is None and older is not None:
        ticks = run.report.precision
        return Verdict(True, f"proved by the classical bound alone: from cycle {2 * older} on no macroticks of correct nodes lie further "
                             f"apart than {microseconds(ticks, unit)}", ticks, 2 * older)
    if is_covered(run):
        why = "no double cycle is in sync" if first is None else "C1 fails, and the rate limit holds the walk for no double cycle"
        return Verdict(False, f"NOT PROVED: nothing is, since {why}")
    gap, told = gap_of(run), gaps_told(run, since_of(run))
    if run.sharp.bounds.gap:
        told.append(f"check C{run.sharp.bounds.gap[1]} fails")
    if told:
        return Verdict(False, f"NOT PROVED: {told[0]}" + (f" (and {len(told) - 1} more, below)" if len(told) > 1 else ""))
    if gap is not None:
        return Verdict(False, f"NOT PROVED: {gap_words(gap, run.cluster)[0]}")
    return Verdict(False, "NOT PROVED: no double cycle of the run is in sync")


def gaps_told(run: "Run", since: int = 0) -> list[str]:
    """The first line of each gap that the files have besides the checks, the count first; of the double cycles from one on."""
    return [gap_words(gap, run.cluster)[0] for gap in every_gap(run.cluster, since)]


def verdict_object(run: "Run") -> dict[str, object]:
    found = verdict_of(run)
    return {"proved": found.proved, "told": found.told, "ticks": found.ticks, "from_cycle": found.cycle, "until_cycle": found.until}
