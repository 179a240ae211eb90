"""The page of a run: flexray's numbers in the units of a bench, and what they say."""
from __future__ import annotations

from fractions import Fraction
from typing import TYPE_CHECKING

from .gaps import gap_words
from .model import warnings
from ..program.calls import coming
from ..runs.every_gap import every_gap, lost_frames
from ..runs.sharp import ends_of, first_of, is_covered, since_of
from .sharp_page import check_lines, sharp_lines
from .verdict import verdict_of
from ..runs.sync import starts_apart
from ..base.units import Number, decimal, microseconds, percent, ppm_of, signed, us_of_ticks
from ..runs.ways import older_lines, way_lines
from ..runs.windows import MOST, exact, later, windows
from ..toml.cluster import Cluster

if TYPE_CHECKING:
    from ..runs.runs import Run

ORIGIN = ("Every number here is one that flexray printed, converted, divided or held against another. flexlab "
          "computes no answer of its own.")


def ms_of_cycle(cycle: int, cluster: Cluster) -> Fraction:
    return Fraction(cycle) * cluster.parameters["pMicroPerCycle"] * cluster.microtick_ns / 1000000


def field(name: str, *lines: str) -> list[str]:
    found, label = list[str](), name
    for line in lines:
        room, words = 96 - 16, list[str]()
        for word in line.split(" "):
            if words and len(" ".join(words + [word])) > room:
                found.append(f"{label:<16}" + " ".join(words))
                label, words = "", []
            words.append(word)
        found.append(f"{label:<16}" + " ".join(words))
        label = ""
    return found


def head_lines(run: Run) -> list[str]:
    cluster, report = run.cluster, run.report
    length = ms_of_cycle(1, cluster)
    return field("Cluster", f"{report.nodes} nodes, {report.sync} sync nodes, {report.arbitrary} arbitrary; "
                            f"{2 * report.doubles} cycles of {decimal(length, 3)} ms, "
                            f"{decimal(ms_of_cycle(cluster.cycles, cluster), 3)} ms in all; a microtick is "
                            f"{decimal(cluster.microtick_ns, 3).rstrip('0').rstrip('.')} ns"
                 ) + drawn_lines(cluster)


def drawn_lines(cluster: Cluster) -> list[str]:
    """The numbers that were drawn, as the file would have them."""
    if not cluster.drawn:
        return []
    told = ", ".join(f"{name} = {decimal(value, 6).rstrip('0').rstrip('.')}" for name, value in cluster.drawn.items())
    return field("Drawn", told)


def classical_lines(run: Run) -> list[str]:
    """What flexray run prints by the classical bound, one below the other under its name."""
    report, unit = run.report, run.cluster.microtick_ns
    microticks = decimal(Fraction(report.precision, 1000000), 3)
    return (field("Classical", f"the bound that flexray run prints: {microseconds(report.precision, unit)} ({microticks} microticks), "
                               "computed from the parameters")
            + classical_sync_lines(run) + classical_skew_lines(run) + older_lines(run, field))


def classical_sync_lines(run: Run) -> list[str]:
    cluster, report = run.cluster, run.report
    if report.in_sync is None:
        found = field("  in sync", "NEVER: no double cycle of the run is in sync by it")
    else:
        cycle = 2 * report.in_sync
        begin = (f"from double cycle {report.in_sync} on (cycle {cycle}, "
                 f"{decimal(ms_of_cycle(cycle, cluster), 3)} ms)")
        if run.lost is None:
            found = field("  in sync", f"yes, {begin}, and still in sync at the end")
        elif run.at_end:
            found = field("  in sync", f"NOT ALL THE WAY: first {begin}; lost in double cycle {run.lost} (cycle "
                                       f"{2 * run.lost}), and in sync again at the end")
        else:
            found = field("  in sync", f"NOT AT THE END: {begin} at first; lost in double cycle {run.lost} (cycle "
                                       f"{2 * run.lost}, {decimal(ms_of_cycle(2 * run.lost, cluster), 3)} ms)")
    if report.gap is None:
        what = ("yes: while in sync no macroticks of correct nodes lie further apart than the bound; that is "
                "proved of such runs" if report.in_sync is not None else
                "yes; but what is proved begins with the first double cycle in sync, and there is none")
        return found + field("  covered", what)
    words = gap_words(report.gap, cluster) if report.gap[0] != "check" else [f"check C{report.gap[1]} fails, see below"]
    return found + field("  covered", "NO: nothing is promised by the classical bound of this run", *words)


def classical_skew_lines(run: Run) -> list[str]:
    report, unit = run.report, run.cluster.microtick_ns
    if run.in_sync_skew:
        skew = run.in_sync_skew
        since = "" if run.lost is None else " since it was first in sync"
        return field("  skew in sync", f"{microseconds(skew.ticks, unit)} at most{since}, {percent(skew.ticks, report.precision)} of the "
                                       f"bound (cycle {skew.cycle}, macrotick {skew.macrotick})") + within_lines(run, skew.ticks)
    if report.in_sync is None:
        return []
    apart = max(starts_apart(rows) for rows in run.cycles[2 * report.in_sync:])
    return field("  skew in sync", f"not known within cycles; starts of cycles lie {microseconds(apart, unit)} "
                                   f"apart at most, {percent(apart, report.precision)} of the bound")


def skew_lines(run: Run) -> list[str]:
    report, unit = run.report, run.cluster.microtick_ns
    found = later_lines(run)
    if run.cycles:
        apart = max(starts_apart(rows) for rows in run.cycles[-2:])
        precision, name = held_against(run, len(run.cycles) - 2)
        found += field("At the end", f"starts of the last two cycles lie {microseconds(apart, unit)} apart at most, "
                                     f"{percent(apart, precision)} of the {name}")
    return found + field("Greatest skew", f"{microseconds(report.skew, unit)} over the whole run (cycle {report.cycle}, "
                                          f"macrotick {report.macrotick}){early_words(run)}")


def early_words(run: Run) -> str:
    """Against what the greatest skew of the run is not to be held, since it lies before."""
    covered = is_covered(run)
    first, bound = (first_of(run), "the precision") if covered else (run.report.in_sync, "the classical bound")
    if first is None:
        return f": not in sync, so it is not to be held against {bound}"
    return f": before sync, so it is not to be held against {bound}" if run.report.cycle < 2 * first else ""


def within_lines(run: Run, skew: int) -> list[str]:
    """Whether the skew stayed within the classical bound since the first double cycle in sync."""
    if skew <= run.report.precision:
        return field("  within", "yes: since it was first in sync the skew was never above the bound")
    place = ""
    if run.series and run.series.beyond:
        place = ", first in cycle {}, macrotick {}".format(*run.series.beyond)
    return field("  within", f"NO: since it was first in sync the skew was above the bound{place}")


def held_against(run: Run, cycle: int) -> tuple[int, str]:
    """What the skew of cycles from this one on is held against: the precision where that is proved of them, else the classical bound."""
    first = first_of(run)
    if is_covered(run) and first is not None and cycle >= 2 * first and ends_of(run) is None:
        return run.sharp.bounds.precision, "precision"
    return run.report.precision, "classical bound"


def later_lines(run: Run) -> list[str]:
    """The skew behind the transient: from where it has settled on, or from the cycle that was asked for."""
    found, unit = later(run, run.begin), run.cluster.microtick_ns
    if found is None:
        return []
    why = "where it has settled" if run.begin is None else "as asked"
    precision, name = held_against(run, found.first)
    return field("Later skew" if exact(run) else "Later starts",
                 f"from cycle {found.first} on ({decimal(ms_of_cycle(found.first, run.cluster), 3)} ms), {why}: "
                 f"{microseconds(found.greatest, unit)} at most (cycle {found.cycle}), "
                 f"{percent(found.greatest, precision)} of the {name}; 99 % of cycles within "
                 f"{microseconds(found.most, unit)}, the mean is {microseconds(found.mean, unit)}")


def window_lines(run: Run) -> list[str]:
    """The skew by stretches of cycles."""
    found, unit = windows(run, run.asked), run.cluster.microtick_ns
    if not found:
        return []
    lines = ["", f"{'skew of cycles' if exact(run) else 'starts of cycles':<18}{'greatest':>10}{'in cycle':>10}"
                 f"{'99 %':>9}{'mean':>9}{'settled':>9}{'within':>9}"]
    for one in found[:MOST]:
        values: tuple[Number, ...] = one.greatest, one.most, one.mean, one.level
        numbers = [decimal(us_of_ticks(value, unit), 3) for value in values]
        lines.append((f"{f'{one.first}-{one.last}':<18}{numbers[0]:>10}{one.cycle:>10}{numbers[1]:>9}{numbers[2]:>9}"
                      f"{one.settled:>9}{numbers[3]:>9}  {one.what}").rstrip())
    if len(found) > MOST:
        lines.append(f".. and {len(found) - MOST} more")
    return lines + ["", *field("", "in us. settled: the cycle from which on the skew stays within its later level, the "
                                   "greatest of the second half of these cycles.")]


def bracketed(name: str) -> str:
    """A name as it stands behind a node's number in a sentence."""
    return f"({name}) " if name else ""


def node_lines(run: Run) -> list[str]:
    parameters = run.cluster.parameters

    def name_of(node: int) -> str:
        return run.cluster.nodes[node].name

    found = ["", f"{'node':>4} {'state':<8}{'ppm at first':>14}{'ppm at last':>13}{'microtick':>11}"
                 f"{'rate':>7}{'offset':>8}"]
    for node, (state, _, rate, offset) in sorted(run.report.ends.items()):
        first, last = run.microticks_of(node)
        found.append(f"{node:>4} {state:<8}{signed(ppm_of(first), 2):>14}{signed(ppm_of(last), 2):>13}"
                     f"{last:>11}{rate:>7}{offset:>8}  {name_of(node)}".rstrip())
    for node in run.cluster.arbitrary:
        found.append(f"{node:>4} {bracketed(name_of(node))}arbitrary: it says what the script has it say, and has no clock")
    for node, (double, reference) in sorted(run.cluster.joins.items()):
        found.append(f"{node:>4} {bracketed(name_of(node))}joins: it listens to node {run.cluster.called(reference)} in double cycle "
                     f"{double}, and " + joined_words(run.first_row(node), run.cluster))
    limits = f"limits {parameters['pRateCorrectionOut']} and {parameters['pOffsetCorrectionOut']}"
    return found + ["", *field("", "ppm: of the frequency, read back from the trace; above 0 the oscillator is "
                                   "fast and its microtick shorter than 1,000,000 ticks. A tick is about 1 ppm, and "
                                   "flexray has whole ones.",
                               f"rate, offset: the correction terms at the end, in microticks ({limits}); above 0 they "
                               "lengthen the cycle.")]


def joined_words(cycle: int | None, cluster: Cluster) -> str:
    if cycle is None:
        return "takes no part in this run"
    return f"takes part from cycle {cycle} on ({decimal(ms_of_cycle(cycle, cluster), 3)} ms)"


def gap_lines(run: Run) -> list[str]:
    """What of the files lies outside the limits, all of it: the report names the first gap alone. Before sync it is no gap of the
    precision, which may have a later one of the same kind."""
    gaps, since = every_gap(run.cluster), since_of(run)
    behind = every_gap(run.cluster, since) if since else gaps
    found: list[str] = []
    for gap in [*gaps, *(gap for gap in behind if gap not in gaps)] if behind != gaps or gaps != [run.report.gap] else []:
        early = [f"that is before double cycle {since}, the first in sync: for the precision it is no gap"] if gap not in behind else []
        found += field("" if found else "Gaps", *gap_words(gap, run.cluster), *early)
    return found


def lost_lines(run: Run) -> list[str]:
    """The frames that are lost or damaged on their way, by sender, and who joins by one of these senders."""
    found: list[str] = []
    for sender, first, last, count, channels in lost_frames(run.cluster):
        joining = [node for node, (_, reference) in sorted(run.cluster.joins.items()) if reference == sender]
        on = "channels A and B" if channels == "AB" else f"channel {channels}"
        text = (f"{count} times a frame of node {run.cluster.called(sender)} does not reach a receiver, or is damaged, in cycles "
                f"{first} to {last} on {on}")
        if joining:
            text += f"; it is the reference of {'node' if len(joining) == 1 else 'nodes'} {', '.join(map(str, joining))}"
        found += field("" if found else "Lost", text)
    return found


def frame_lines(run: Run) -> list[str]:
    report = run.report
    bad = {name: count for name, count in report.heard.items() if name not in ("stored", "plain") and count}
    sent = ", ".join(f"{count} sent on {channel}" for channel, (count, _) in sorted(report.sent.items()))
    found = field("Frames", sent + f"; {report.heard['stored']} sync frames measured"
                  + ("".join(f", {count} {name}" for name, count in bad.items()) or ", none refused"))
    if report.cut:
        found += field("Cut", f"correction terms outside their limit: {report.cut}")
    return found


def page(run: Run) -> str:
    found = field("Verdict", verdict_of(run).told) + head_lines(run) + sharp_lines(run, field, ms_of_cycle)
    found += skew_lines(run) + check_lines(run, field) + gap_lines(run) + classical_lines(run)
    if run.ways:
        found += way_lines(run.ways, run.cluster, field)
    found += frame_lines(run) + lost_lines(run)
    found += window_lines(run) + node_lines(run)
    for line in [*warnings(run.cluster), *run.cluster.notes]:
        found += field("WARNING", line)
    if not run.series:
        found += field("Not installed", f"flexray-series, which prints the skew of each cycle: {coming()}. Without it the picture has "
                                        "how far the starts of cycles lie apart")
    begin = "nodes run from cycle 0 or join" if run.cluster.joins else "all nodes run from cycle 0"
    found += field("Left out", f"the dynamic segment, the duration of frames, wakeup and startup: {begin}, with one "
                               "set of parameters")
    found += field("Origin", ORIGIN)
    return "\n".join(found) + "\n"
