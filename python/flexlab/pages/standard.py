"""The precisions of one cluster side by side: the standard's formulas, the precision without and beside arbitrary nodes,
the classical bound, and what was simulated."""
from dataclasses import dataclass
from fractions import Fraction

from ..runs import sharp
from ..base import ranges
from ..base.ending import USAGE, Stop
from ..base.numbers import number_of
from .page import field, ms_of_cycle
from ..base.ranges import Parameters
from ..program.report import Bounds, SharpBounds, read_sharp_bounds
from ..runs.runs import Run, answer
from .sharp_page import KINDS
from .verdict import verdict_of
from ..base.units import Number, decimal, lasting, microseconds, percent, rounded, us_of_ticks
from ..runs.windows import exact, later

TICKS = 1000000
# The standard's appendix on parameter constraints: microticks of its worst and of its best case, and how many for each
# microtick of damping, with that many times the greatest propagation delay.
WORST, WORST_DAMPING, WORST_DELAYS = 38, 20, 2
BEST, BEST_DAMPING, BEST_DELAYS = 12, 6, 1


@dataclass
class Row:
    """A number of the table; what fails of its checks and for how many double cycles it holds, where it has such."""
    name: str
    ticks: Number
    what: str
    fails: str = ""
    lasts: str = ""


def greatest_delay(parameters: Parameters) -> int:
    """The longest that a frame may travel by the parameters, in ticks."""
    return ranges.compensation(parameters) * TICKS + parameters["xDelayError"]


def by_formula(parameters: Parameters, microticks: int, damping: int, delays: int) -> int:
    """(microticks + damping times the cluster's) longest microticks, and so many greatest delays, in ticks."""
    longest = TICKS + parameters["xRateBound"]
    return (microticks + damping * parameters["pClusterDriftDamping"]) * longest + delays * greatest_delay(parameters)


def flutter_asked(text: str | None, run: Run) -> int:
    """Ticks of --flutter-ns, or the flutter of the run's own delays, at most what flexray bound takes."""
    if text is None:
        return run.sharp.bounds.flutter
    try:
        ticks = rounded(number_of(text) / run.cluster.microtick_ns * TICKS)
    except ValueError:
        ticks = -1
    if not 0 <= ticks <= sharp.MOST:
        most = decimal(us_of_ticks(sharp.MOST, run.cluster.microtick_ns) * 1000, 3).rstrip("0").rstrip(".")
        raise Stop(USAGE, f"--flutter-ns {text}: a number from 0 to {most} is wanted")
    return ticks


def sharp_for(run: Run, program: str, flutter: int) -> dict[str, SharpBounds]:
    """The sharper bounds of both kinds for this flutter."""
    if flutter == run.sharp.bounds.flutter:
        return run.sharp.both
    return read_sharp_bounds(answer(program, sharp.sharp_words(run.files[0], flutter)))


def failing(bounds: Bounds | SharpBounds) -> str:
    held = isinstance(bounds, SharpBounds) and bounds.is_held
    return ", ".join(f"C{check.number}" + (" (held)" if held and check.number == 1 else "") for check in bounds.failing) or "none"


def simulated(run: Run) -> list[Row]:
    found = []
    if run.in_sync_skew:
        found.append(Row("simulated, classical sync", run.in_sync_skew.ticks, f"the greatest skew, in cycle {run.in_sync_skew.cycle}"))
    skew = None if run.cluster.joins else sharp.skew_of(run)
    if skew:
        found.append(Row("simulated, in sync", skew.ticks, f"the greatest skew, in cycle {skew.cycle}"))
    figures = later(run, run.begin)
    if figures:
        name = "simulated, later" if exact(run) else "starts, later"
        found += [Row(name, figures.greatest, f"the greatest from cycle {figures.first} on"),
                  Row(name, figures.most, "99 % of these cycles are within"), Row(name, figures.mean, "their mean")]
    return found


def rows(run: Run, both: dict[str, SharpBounds], worst: int = WORST) -> tuple[list[Row], int]:
    """Each number of the table, and the one of this cluster that others are held against."""
    p = run.cluster.parameters
    found = [Row("the standard, best case", by_formula(p, BEST, BEST_DAMPING, BEST_DELAYS),
                 f"({BEST} + {BEST_DAMPING} damping) microticks + the greatest delay"),
             Row("the standard, worst case", by_formula(p, worst, WORST_DAMPING, WORST_DELAYS),
                 f"({worst} + {WORST_DAMPING} damping) microticks + {WORST_DELAYS} greatest delays")]
    for kind, bounds in both.items():
        mine = kind == run.sharp.bounds.kind and not run.cluster.joins
        found.append(Row(f"proved, {'no' if kind == 'alone' else 'beside'} arbitrary", bounds.precision,
                         "from `In sync` on" + ("; that of this cluster" if mine else ""), failing(bounds),
                         "on" if bounds.lasts is None else str(bounds.lasts)))
    found.append(Row("the classical bound", run.report.precision, "from sync by that bound on", failing(run.bounds)))
    own = run.report.precision if run.cluster.joins else both[run.sharp.bounds.kind].precision
    return found + simulated(run), own


def compared(run: Run, program: str, worst: int = WORST, flutter_ns: str | None = None) -> str:
    """The page."""
    cluster, unit = run.cluster, run.cluster.microtick_ns
    p, flutter = cluster.parameters, flutter_asked(flutter_ns, run)
    both = sharp_for(run, program, flutter)
    lines = field("Verdict", verdict_of(run).told)
    lines += field("Cluster", f"a cycle of {decimal(ms_of_cycle(1, cluster), 3)} ms, damping {p['pClusterDriftDamping']}, "
                              f"oscillators within {p['xRateBound']} ticks (about ppm), frames travel "
                              f"{microseconds(greatest_delay(p), unit)} at most, by the parameters")
    since = sharp.since_of(run)
    own = ("the most that flexray bound takes" if run.sharp.flutter > sharp.MOST else
           "the greatest of this run" + (f" from double cycle {since} on, the first in sync" if since else ""))
    lines += field("Flutter", f"{microseconds(flutter, unit)}: how far a delay may differ between the two cycles of a double "
                              f"cycle; {own if flutter_ns is None else 'as asked'}")
    table, mine = rows(run, both, worst)
    lines += ["", f"{'precision':<26}{'us':>9}{'microticks':>12}{'fails':>13}{'lasts':>9}{'part':>10}"]
    for row in table:
        lines.append(f"{row.name:<26}{decimal(us_of_ticks(row.ticks, unit), 3):>9}{decimal(Fraction(row.ticks, TICKS), 1):>12}"
                     f"{row.fails:>13}{row.lasts:>9}{percent(row.ticks, mine):>10}  {row.what}")
    held = "held: C1 fails, but the walk is held, so it lasts. " if any("held" in row.fails for row in table) else ""
    lines += ["", *field("", f"fails: which of its checks do. {held}lasts: for how many double cycles it holds, on: on and on. part: of "
                             + ("the classical bound." if cluster.joins else "the precision of this cluster."))]
    lines += field("Precision", sharp_words(run, both[run.sharp.bounds.kind], flutter))
    return "\n".join(lines + field("Classical", older_words(run)) + closing_lines(worst)) + "\n"


def sharp_words(run: Run, bounds: SharpBounds, flutter: int) -> str:
    """Whether the precision of this cluster is proved of this run, with delays that flutter so much."""
    gap = sharp.gap_of(run)
    if gap and gap[0] == "check" or bounds.gap:
        gap = bounds.gap
    if run.sharp.flutter > flutter:
        return f"nothing is proved of this run, whose delays flutter by {microseconds(run.sharp.flutter, run.cluster.microtick_ns)}"
    if gap is not None:
        return f"nothing is proved of this run, which has a gap ({' '.join(gap)})"
    told = (f"proved of this run, {KINDS[bounds.kind]}: in sync no macroticks of correct nodes lie further apart than its "
            "number")
    if bounds.lasts is None:
        return told
    return told + (f", for {bounds.lasts} double cycles from the first one on "
                   f"({lasting(ms_of_cycle(2 * bounds.lasts, run.cluster))}), since {bounds.ending}")


def older_words(run: Run) -> str:
    """Whether the classical bound is proved of this run."""
    failing_checks = [f"C{check.number}" for check in run.bounds.failing]
    if failing_checks:
        verb = "fails" if len(failing_checks) == 1 else "fail"
        return f"nothing of this cluster is proved by the classical bound, since {', '.join(failing_checks)} {verb}"
    if run.report.gap is not None:
        return (f"nothing of this run is proved by the classical bound, since it has a gap ({' '.join(run.report.gap)}); of the "
                "cluster its checks hold")
    return "in sync by it, no macroticks of correct nodes lie further apart than the classical bound: that is proved too"


def closing_lines(worst: int) -> list[str]:
    return (field("The standard", "its formulas, of the appendix on parameter constraints, say how near clocks come in "
                                  "the long run: the best case without a faulty node, the worst with one. No proof "
                                  "stands beside them, nor which oscillators and starts they are of. They are quoted "
                                  "here, not proved; hold them against your copy of the standard, and name another "
                                  f"constant than {worst} by --standard")
            + field("They differ", "what is proved here is of every double cycle from sync on, the first ones too, in which "
                                   "clocks may still lie as far apart as sync allows; it counts an oscillator that changes, "
                                   "delays that differ, and up to two nodes that say anything. The simulated numbers are of "
                                   "this one run. docs/PRECISION.md, \"Beside the standard\", has more; `flexlab worst` looks "
                                   "for the run that comes closest to the classical bound"))
