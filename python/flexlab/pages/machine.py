"""What machines read: a run as one JSON object, and what was required of it."""
from __future__ import annotations

import json
import re
from fractions import Fraction
from collections.abc import Callable, Iterable
from typing import Any, NamedTuple, TYPE_CHECKING

from ..base.ending import DONE, UNMET, USAGE, Stop, printable
from .gaps import check_words, gap_words, held_words, sharp_check_words
from .model import warnings
from .page import ms_of_cycle
from ..program.report import Bounds, Skew
from .verdict import gaps_told, verdict_object
from ..runs.every_gap import every_gap, lost_frames
from ..runs.sharp import ends_of, first_of, gap_of, is_within, kind_of, lasts_of, lost_of, since_of, skew_of
from ..base.ranges import Parameters
from ..base.units import Number, decimal, ppm_of, us_of_ticks
from ..base.version import version
from ..runs.ways import OlderChecks
from ..runs.windows import exact, later, windows


if TYPE_CHECKING:
    from ..runs.runs import Run
    from ..runs.ways import Checks, Way, Ways
    from ..runs.windows import Window
    from ..toml.cluster import Cluster

# An object as JSON has it.
Object = dict[str, Any]


class Required(NamedTuple):
    """What is required of a run, and of `within` how many microseconds."""
    name: str
    limit: Fraction | None


def printed(found: Object) -> None:
    """Prints an object, as all of them begin with the version."""
    print(json.dumps({"version": version(), **found}, indent=1))


def us(ticks: Number | None, cluster: Cluster) -> float | None:
    return None if ticks is None else float(decimal(us_of_ticks(ticks, cluster.microtick_ns), 6))


def ms(cycle: int | None, cluster: Cluster) -> float | None:
    return None if cycle is None else float(decimal(ms_of_cycle(cycle, cluster), 6))


def skew_object(skew: Skew | None, cluster: Cluster) -> Object | None:
    if not skew:
        return None
    return {"ticks": skew.ticks, "us": us(skew.ticks, cluster), "cycle": skew.cycle, "macrotick": skew.macrotick}


def within(run: Run) -> bool | None:
    """Whether the skew stayed within the precision since the first double cycle in sync; None where it is not known."""
    return run.in_sync_skew.ticks <= run.report.precision if run.in_sync_skew else None


def checks_of(bounds: Bounds, parameters: Parameters) -> list[Object]:
    return [{"check": f"C{check.number}", "holds": check.holds, "left": check.left, "right": check.right,
             **({} if check.holds else {"told": check_words(check.number, check.left, check.right, parameters)})}
            for check in bounds.checks]


def sync_object(first: int | None, lost: int | None, cluster: Cluster) -> Object:
    cycle = None if first is None else 2 * first
    return {"double_cycle": first, "cycle": cycle, "ms": ms(cycle, cluster), "lost_in_double_cycle": lost}


def sharp_object(run: Run) -> Object:
    """The sharper side of a run."""
    cluster, bounds, gap, turn = run.cluster, run.sharp.bounds, gap_of(run), run.sharp.told.turn
    kind, p = kind_of(cluster, run.sharp.flutter), cluster.parameters
    told = gap_words(gap, cluster) if gap and gap[0] != "check" else []
    if gap and gap[0] == "check":
        number, left, right = map(int, gap[1:])
        told = sharp_check_words(number, left, right, p, kind)
    return {"covered": gap is None, "gap": gap and " ".join(gap),
            "gap_told": told, "gaps": [" ".join(one) for one in every_gap(cluster, since_of(run))],
            "kind": bounds.kind,
            "flutter": {"ticks": run.sharp.flutter, "us": us(run.sharp.flutter, cluster),
                        "delay": turn and {"sender": turn.sender, "receiver": turn.receiver, "channel": turn.channel,
                                           "last_in_double_cycle": turn.double}},
            "precision": {"ticks": bounds.precision, "us": us(bounds.precision, cluster)},
            "in_sharp_sync": sync_object(first_of(run), lost_of(run), cluster),
            "in_sync": sync_object(first_of(run), lost_of(run), cluster),
            "lasts_double_cycles": lasts_of(run), "proved_before_double_cycle": ends_of(run),
            "skew": skew_object(skew_of(run), cluster), "within_precision": is_within(run),
            "checks": [{"check": f"C{check.number}", "holds": check.holds, "left": check.left, "right": check.right,
                        **({} if check.holds else {"told": [held_words(check.left, check.right)] if check.number == 1 and bounds.is_held
                                                   else sharp_check_words(check.number, check.left, check.right, p, kind)})}
                       for check in bounds.checks]}


def classical_object(run: Run) -> Object:
    """What flexray run prints of the classical bound; these stand beside the other fields of a run too."""
    cluster, report = run.cluster, run.report
    return {"covered": report.gap is None, "gap": report.gap and " ".join(report.gap),
            "gap_told": gap_words(report.gap, cluster) if report.gap else [],
            "in_sync": {**sync_object(report.in_sync, run.lost, cluster), "at_end": run.at_end},
            "precision": {"ticks": report.precision, "us": us(report.precision, cluster)},
            "skew_in_sync": skew_object(run.in_sync_skew, cluster), "within_precision": within(run),
            "checks": checks_of(run.bounds, cluster.parameters)}


def nodes_of(run: Run) -> list[Object]:
    found = []
    for number, (state, after, rate, offset) in sorted(run.report.ends.items()):
        first, last = run.microticks_of(number)
        found.append({"node": number, "state": state, "next_ticks": after, "rate": rate, "offset": offset,
                      "microtick_ticks": last, "ppm_first": float(decimal(ppm_of(first), 3)),
                      "ppm_last": float(decimal(ppm_of(last), 3))})
    return found


def window_object(one: Window, cluster: Cluster) -> Object:
    """The skew of a stretch of cycles."""
    return {"first": one.first, "last": one.last, "what": one.what, "greatest_us": us(one.greatest, cluster),
            "cycle": one.cycle, "within_99_percent_us": us(one.most, cluster), "mean_us": us(one.mean, cluster),
            "settled": one.settled, "level_us": us(one.level, cluster)}


def later_object(run: Run) -> Object | None:
    found = later(run, run.begin)
    return {**window_object(found, run.cluster), "of": "skew" if exact(run) else "starts"} if found else None


def drawn_object(cluster: Cluster) -> dict[str, float]:
    return {name: float(decimal(value, 6)) for name, value in cluster.drawn.items()}


def way_object(way: Way, checks: Checks | type[OlderChecks], cluster: Cluster) -> Object:
    return {"first": way.first, "parameters": way.changed, "precision_us": us(way.bounds.precision, cluster),
            "covered": checks.gap(way.run) is None, "skew_us": us(way.skew, cluster)}


def ways_object(ways: Ways | None, cluster: Cluster) -> Object | None:
    """The ways to checks that hold, the one with the least skew first, why there are none of others, and what the older bound
    asks besides, where the sharper one is gone by."""
    if not ways:
        return None
    return {"of": ways.checks.name.lower(), "from_cycle": ways.begin, "skew_now_us": us(ways.skew, cluster),
            "ways": [{**way_object(way, ways.checks, cluster),
                      **({"lasts_double_cycles": way.bounds.lasts} if hasattr(way.bounds, "lasts") else {})}
                     for way in ways.held],
            "refused": [why for why, _ in ways.refused],
            "older": ways.older and way_object(ways.older, OlderChecks, cluster), "no_older": ways.no_older or None}


def run_object(run: Run) -> Object:
    """A run as an object: names and units stand in docs/FLEXLAB.md, "For machines"."""
    cluster, report, classical = run.cluster, run.report, classical_object(run)
    return {
        "file": cluster.path, "folder": run.folder,
        "cluster": {"nodes": report.nodes, "sync_nodes": report.sync, "arbitrary": cluster.arbitrary,
                    "double_cycles": report.doubles, "cycle_ms": ms(1, cluster),
                    "microtick_ns": float(cluster.microtick_ns), "parameters": cluster.parameters,
                    "names": cluster.names},
        "verdict": verdict_object(run), "gaps": [" ".join(gap) for gap in every_gap(cluster)], "gaps_told": gaps_told(run),
        "lost": [{"sender": sender, "first_cycle": first, "last_cycle": last, "times": count, "channels": channels}
                 for sender, first, last, count, channels in lost_frames(cluster)],
        **classical, "classical": classical, "sharp": sharp_object(run),
        "greatest_skew": skew_object(Skew(report.skew, report.cycle, report.macrotick), cluster), "ways": ways_object(run.ways, cluster),
        "later_skew": later_object(run),
        "skew_of_cycles": [window_object(one, cluster) for one in windows(run, run.asked)], "drawn": drawn_object(cluster),
        "sent": {channel: {"frames": count, "xor": total} for channel, (count, total) in sorted(report.sent.items())},
        "heard": report.heard, "cut": report.cut, "nodes": nodes_of(run),
        "joins": [{"node": node, "reference": reference, "double_cycle": double, "takes_part_from": run.first_row(node)}
                  for node, (double, reference) in sorted(cluster.joins.items())],
        "warnings": [*warnings(cluster), *cluster.notes],
    }


def wanted(text: str | None) -> list[Required]:
    """What `--require` asks for: pairs of a name and, of `within`, microseconds."""
    found = []
    for part in filter(None, (text or "").split(",")):
        span = re.fullmatch(r"within=([0-9]{1,30}(?:\.[0-9]{1,30})?)", part)
        if part not in ("covered", "in-sync", "sharply-covered") and not span:
            raise Stop(USAGE, f"--require {printable(text or '')}: {printable(part)} is none of covered, in-sync, within=USEC, "
                              "sharply-covered")
        found.append(Required(part, Fraction(span[1]) if span else None))
    return found


def sharp_verdict(run: Run) -> str | None:
    """Why a run is not sharply covered, or is not proved to be to its end from the first double cycle in sharp sync on."""
    gap = gap_of(run)
    if gap:
        return "sharp covered no " + " ".join(gap)
    if first_of(run) is None:
        return "never in sharp sync"
    return None if ends_of(run) is None else f"what is proved ends before double cycle {ends_of(run)}"


def verdicts(run: Run, asked: Iterable[Required]) -> dict[str, str | None]:
    """Of each that is required whether it is met, and why not."""
    report, cluster = run.report, run.cluster
    found: dict[str, str | None] = {}
    for name, limit in asked:
        if name == "covered":
            why = None if report.gap is None else "covered no " + " ".join(report.gap)
        elif name == "sharply-covered":
            why = sharp_verdict(run)
        elif name == "in-sync":
            why = None if run.at_end and run.lost is None and report.in_sync is not None else (
                "never in sync" if report.in_sync is None else f"sync was lost in double cycle {run.lost}")
        elif not run.in_sync_skew:
            why = "the skew in sync is not known" if report.in_sync is not None else "never in sync"
        else:
            skew = us_of_ticks(run.in_sync_skew.ticks, cluster.microtick_ns)
            why = None if limit is None or skew <= limit else f"the skew in sync is {decimal(skew, 6)} us"
        found[name] = why
    return found


def ended(run: Run, asked: Iterable[Required], say: Callable[[str], None]) -> int:
    """The status of a run of which something is required; what is not met is told by `say`."""
    unmet = {name: why for name, why in verdicts(run, asked).items() if why}
    for name, why in unmet.items():
        say(f"{name}: {why}")
    return UNMET if unmet else DONE
