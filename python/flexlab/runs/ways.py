"""Ways to a covered run: limits as low as the run needs, and the parameters that the checks then ask for. Each is run
before it is told of, since what makes the proof hold may leave the clocks further apart in fact."""
from __future__ import annotations

import os
import shutil
from copy import deepcopy
from dataclasses import dataclass, field
from fractions import Fraction
from collections.abc import Callable, Collection, Iterator
from typing import TYPE_CHECKING, NamedTuple, Protocol

from ..program import calls as programs
from ..base.bounds import TICKS
from ..base.files import write_files
from ..base.ranges import OF_CHANNELS, Parameters, compensation_name, version_of
from .least import Found, can_be_held, held_damping, least_damping, least_sharp, least_sharp_damping, least_values
from ..program.report import Bounds, SharpBounds, read_bounds, read_sharp_bounds
from .every_gap import behind
from .sharp import first_of, gap_of, kind_of, since_of
from ..toml.cluster import Cluster, Link
from ..base.units import decimal, lasting, microseconds, percent, rounded, us_of_ticks
from .windows import exact, later, skews, window

if TYPE_CHECKING:
    from .runs import Run

# A way is run for as many double cycles at most, and held against as many of the run.
LONGEST = 1000
LIMITS = ("xRateBound", "xChangeBound", "xDelayError")


Lines = Callable[..., list[str]]


class Runs(Protocol):
    """What runs a cluster."""

    def __call__(self, cluster: Cluster, folder: str, program: str, begin: int | None = None) -> Run: ...


class Change(NamedTuple):
    """The greatest change of a microtick from one cycle to the next, in ticks, of which node and in which cycle."""
    ticks: int
    node: int | None
    cycle: int | None


class Refused(NamedTuple):
    """Why there is no way, and the sentences on the limits that it would have begun from."""
    why: str | None
    told: list[str]


class Begin(NamedTuple):
    """Limits to begin from, and sentences on them."""
    limits: Parameters
    told: list[str]


class Candidate(NamedTuple):
    """Parameters, or why there are none, and sentences on the limits that they begin from."""
    parameters: Parameters | None
    why: str | None
    told: list[str]


@dataclass
class Way:
    changed: Parameters
    first: list[str]
    bounds: Bounds | SharpBounds
    run: Run
    skew: int = 0


@dataclass
class Ways:
    """The ways to checks that hold, why there are none of others, what the older bound asks besides, and the skew now; `since` is the
    double cycle from which on the run needs other limits than in all of it, or 0."""
    checks: Checks
    wanted: bool = False
    held: list[Way] = field(default_factory=list)
    refused: list[Refused] = field(default_factory=list)
    older: Way | None = None
    no_older: str = ""
    begin: int = 0
    skew: int = 0
    span: str = ""
    since: int = 0


class OlderChecks:
    """The checks of flexray bound, those for nodes that join too where some do. Delays count much in them, so that the
    compensation amid the delays is tried at once."""
    name, amid = "Precision", (True,)

    def __init__(self, run: Run) -> None:
        self.words = ["join"] if run.cluster.joins else []
        self.failing = {check.number for check in run.bounds.failing}

    def least(self, parameters: Parameters) -> Iterator[Found]:
        own = parameters["pClusterDriftDamping"]
        for damping in dict.fromkeys((own, min(own, least_damping(parameters)))):
            yield least_values(parameters, bool(self.words), damping)

    def read(self, text: str) -> Bounds | None:
        """The bounds, where all checks hold."""
        bounds = read_bounds(text)
        return None if bounds.failing else bounds

    @staticmethod
    def gap(run: Run) -> list[str] | None:
        return run.report.gap

    @staticmethod
    def since(_: Run) -> int:
        """The double cycle from which on limits have to be kept."""
        return 0

    @staticmethod
    def first(run: Run) -> int | None:
        return run.report.in_sync


class SharpChecks:
    """The checks of the sharper bounds of the kind that the script has, for the flutter of the run. Another compensation is
    tried where there is no way without."""
    name, amid = "Sharp precision", (False, True)

    def __init__(self, run: Run) -> None:
        self.kind = kind_of(run.cluster, run.sharp.flutter)
        self.join = bool(run.cluster.joins)
        self.words = ["sharp", str(self.kind.flutter), *(["join"] if self.join else [])]
        self.failing = run.sharp.bounds.missing

    def least(self, parameters: Parameters) -> Iterator[Found]:
        """With the damping as it is, and with the least by which sync lasts on and on, where the walk can be held or else C1 holds;
        where nothing else fails the damping has to suffice."""
        own, least = parameters["pClusterDriftDamping"], held_damping(self.kind.flutter, TICKS - parameters["xRateBound"])
        if not can_be_held({**parameters, "pClusterDriftDamping": least}, self.kind, self.join):
            least = least_sharp_damping(parameters, self.kind)
        for damping in (max(own, least),) if self.failing == {1} else dict.fromkeys((own, least)):
            yield least_sharp(parameters, self.kind, damping, self.join)

    def read(self, text: str) -> SharpBounds | None:
        """The bounds, where all checks behind the first hold."""
        bounds = read_sharp_bounds(text)[self.kind.name]
        return None if bounds.gap else bounds

    @staticmethod
    def gap(run: Run) -> list[str] | None:
        return gap_of(run)

    @staticmethod
    def since(run: Run) -> int:
        """The double cycle from which on limits have to be kept."""
        return since_of(run)

    @staticmethod
    def first(run: Run) -> int | None:
        return first_of(run)


Checks = OlderChecks | SharpChecks


def shortened(cluster: Cluster, doubles: int) -> Cluster:
    """The cluster over its first double cycles alone."""
    found, cycles = deepcopy(cluster), 2 * doubles
    found.doubles = doubles
    found.lengths = {node: {cycle: ticks for cycle, ticks in steps.items() if cycle < cycles} for node, steps in found.lengths.items()}
    found.delays = {link: {cycle: ticks for cycle, ticks in steps.items() if cycle < cycles} for link, steps in found.delays.items()}
    found.script = {place: row for place, row in found.script.items() if place.cycle < cycles}
    return found


def delays_of(cluster: Cluster) -> list[tuple[str, int]]:
    """The delays, each behind the name of its compensation, that the run has from correct sync nodes to correct nodes, of links
    whose delay is said."""
    found = []
    for sender in cluster.correct:
        for receiver in cluster.correct:
            if sender != receiver and cluster.nodes[sender].key_slot is not None:
                for channel in cluster.common(sender, receiver):
                    name = compensation_name(cluster.parameters, channel)
                    found += [(name, ticks) for ticks in cluster.delays.get(Link(sender, receiver, channel), {}).values()]
    return found


def greatest_change(cluster: Cluster) -> Change:
    """The greatest change of a microtick from one cycle to the next, 0 of no node where there is none."""
    changes = (Change(abs(ticks - before), node, cycle) for node, steps in cluster.lengths.items()
               for (_, before), (cycle, ticks) in zip(sorted(steps.items()), sorted(steps.items())[1:]))
    return max(changes, key=lambda change: change.ticks, default=Change(0, None, None))


def needs(cluster: Cluster) -> Parameters:
    """The limits that this run needs, the delay error for the compensation as it is."""
    rate = max((abs(ticks - TICKS) for steps in cluster.lengths.values() for ticks in steps.values()), default=0)
    change = greatest_change(cluster).ticks
    error = max((abs(ticks - cluster.parameters[name] * TICKS) for name, ticks in delays_of(cluster)), default=0)
    return {"xRateBound": rate, "xChangeBound": change, "xDelayError": error}


def amid(cluster: Cluster) -> tuple[dict[str, int], int] | None:
    """The compensations amid the delays of the run, and the delay error that then suffices; None where no delay is said."""
    delays: dict[str, list[int]] = {}
    for name, ticks in delays_of(cluster):
        delays.setdefault(name, []).append(ticks)
    if not delays:
        return None
    waits = {name: min(200, max(0, rounded(Fraction(min(some) + max(some), 2 * TICKS)))) for name, some in delays.items()}
    return waits, max(max(max(some) - waits[name] * TICKS, waits[name] * TICKS - min(some)) for name, some in delays.items())


def passed(cluster: Cluster, need: Parameters) -> list[str]:
    """A sentence for each stated limit that this run goes beyond."""
    p, unit = cluster.parameters, cluster.microtick_ns
    found: list[str] = []
    if need["xRateBound"] > p["xRateBound"]:
        found.append(f"an oscillator of this run is {need['xRateBound']} ticks off, beyond xRateBound, {p['xRateBound']}")
    if need["xChangeBound"] > p["xChangeBound"]:
        ticks, node, cycle = greatest_change(cluster)
        found.append(f"the microtick of node {cluster.called(node or 0)} changes by {ticks} ticks in cycle {cycle} of this run, beyond "
                     f"xChangeBound, {p['xChangeBound']}")
    if need["xDelayError"] > p["xDelayError"]:
        off, stated = (decimal(us_of_ticks(ticks, unit) * 1000, 1) for ticks in (need["xDelayError"], p["xDelayError"]))
        found.append(f"a delay of this run is {off} ns off the compensation, beyond xDelayError, {stated} ns")
    return found


def starting_points(cluster: Cluster, failing: Collection[int], with_amid: bool = True) -> list[Begin]:
    """What to begin from: limits as they are stated, or as far as this run goes beyond them, and lower, as far
    as this run allows for it. How far oscillators are off matters where the rate limit is too small alone."""
    p, need, unit = cluster.parameters, needs(cluster), cluster.microtick_ns
    stated = {name: max(p[name], need[name]) for name in LIMITS}
    beyond = passed(cluster, need)
    found = [Begin(stated, beyond)]
    middle = amid(cluster) if with_amid else None
    delay = None
    if middle and middle[1] < stated["xDelayError"]:
        delays = [ticks for _, ticks in delays_of(cluster)]
        low, high = (decimal(us_of_ticks(ticks, unit) * 1000, 1) for ticks in (min(delays), max(delays)))
        delay = {**stated, **middle[0], "xDelayError": middle[1]}
        if middle[1] <= p["xDelayError"] < need["xDelayError"]:
            beyond = beyond[:-1]
        span = decimal(us_of_ticks(max(delays) - min(delays), unit) * 1000, 1)
        found.append(Begin(delay, [*beyond, f"your delays span {span} ns ({low} to {high} ns): put the compensation amid "
                                   + ("them" if version_of(p) == 1 else "those of each channel")]))
    lower = {**(delay or stated)}
    told = list(found[-1].told)
    for name, words in (("xChangeBound", "no oscillator of this run changes by more than {} ppm a cycle"),
                        ("xRateBound", "none of this run is further off than {} ppm")):
        if need[name] < lower[name] and (name != "xRateBound" or not {2, 6}.isdisjoint(failing)):
            lower[name] = need[name]
            told.append(words.format(need[name]))
    if lower != found[-1].limits:
        found.append(Begin(lower, told))
    return found


def candidates(cluster: Cluster, checks: Checks, with_amid: bool, seen: list[Parameters | str | None]) -> Iterator[Candidate]:
    """Each set of parameters once, and none as they are."""
    for limits, told in starting_points(cluster, checks.failing, with_amid):
        for found, why in checks.least(dict(cluster.parameters, **limits)):
            if (found or why) not in seen:
                seen.append(found or why)
                yield Candidate(found, why, told)


def weigh(run: Run, program: str, run_cluster: Runs) -> Ways | None:
    """The ways to a covered run, each run, the one with the least skew first, by the sharper checks; and what the older ones
    would ask besides. None where neither is wanted."""
    cluster = run.cluster
    checks: Checks = SharpChecks(run)
    asked = behind(cluster, checks.since(run))
    wanted = bool(checks.failing or passed(asked, needs(asked)))
    if not wanted and not run.bounds.failing:
        return None
    mine = later(run, run.begin)
    begin = mine.first if mine else 0
    doubles = min(cluster.doubles, max(LONGEST, begin + 1))
    mine = window(skews(run), begin, 2 * doubles - 1, "")
    whole = doubles == cluster.doubles
    found = Ways(checks, wanted, begin=begin, skew=mine.greatest if mine else 0,
                 span=f"from cycle {begin} " + ("on" if whole else f"to {2 * doubles - 1}"),
                 since=checks.since(run) if needs(asked) != needs(cluster) else 0)
    shutil.rmtree(os.path.join(run.folder, "advised"), ignore_errors=True)
    tries = Tries(run, program, run_cluster, begin, doubles)
    seen: list[Parameters | str | None] = [cluster.parameters]
    for with_amid in checks.amid if wanted else ():
        for candidate in () if found.held else candidates(asked, checks, with_amid, seen):
            way, why = tries.tried(checks, candidate, str(len(found.held) + 1))
            if way:
                found.held.append(way)
            else:
                found.refused.append(Refused(why, candidate.told))
    # A run that is never in sync has no later skew to go by.
    found.held.sort(key=lambda way: (checks.gap(way.run) is not None, checks.first(way.run) is None, way.skew))
    if run.bounds.failing:
        ask_older(found, run, tries)
    return found


def ask_older(found: Ways, run: Run, tries: Tries) -> None:
    """What the older bound asks besides the best way, or besides the parameters as they are where no way is wanted."""
    older = OlderChecks(run)
    base = dict(run.cluster.parameters, **(found.held[0].changed if found.held else {}))
    limits = starting_points(tries.with_values(base), older.failing)[0].limits
    found.older, why = tries.tried(older, Candidate(*next(older.least(dict(base, **limits))), []), "older", base)
    found.no_older = why or ""


@dataclass
class Tries:
    """Runs of the cluster with other values, over its first double cycles."""
    run: Run
    program: str
    run_cluster: Runs
    begin: int
    doubles: int

    def with_values(self, parameters: Parameters) -> Cluster:
        other = shortened(self.run.cluster, self.doubles)
        other.parameters = parameters
        return other

    def tried(self, checks: Checks, candidate: Candidate, name: str, base: Parameters | None = None) -> tuple[Way | None, str | None]:
        """(the way, None) where its checks hold, else (None, why not)."""
        parameters = candidate.parameters
        if parameters is None:
            return None, candidate.why
        before = base or self.run.cluster.parameters
        folder = os.path.join(self.run.folder, "advised", name)
        path = write_files(self.with_values(parameters), folder)[0]
        status, text, line = programs.call(self.program, ["bound", path, *checks.words])
        bounds = checks.read(text) if status == 0 else None
        if bounds is None:
            return None, f"flexray bound {path}: {line or 'checks fail'}"
        changed = {key: value for key, value in parameters.items() if value != before[key]}
        way = Way(changed, candidate.told, bounds, self.run_cluster(self.with_values(parameters), folder, self.program,
                                                                    begin=self.run.begin))
        figures = later(way.run, self.begin)
        way.skew = figures.greatest if figures else 0
        return way, None


def value_words(name: str, value: int, cluster: Cluster) -> str:
    """A value as the TOML file has it."""
    unit = cluster.microtick_ns
    if name == "xDelayError":
        return f"limits.delay_error_ns = {decimal(us_of_ticks(value, unit) * 1000, 3).rstrip('0').rstrip('.')}"
    if name in ("xRateBound", "xChangeBound"):
        return f"limits.{name} = {value} (ticks, about ppm)"
    return f"{name} = {value}"


def values_words(changed: Parameters, cluster: Cluster) -> str:
    """Values as the TOML file has them, limits first."""
    order = ["pDelayCompensation", *OF_CHANNELS, *LIMITS]
    return ", ".join(value_words(name, changed[name], cluster)
                     for name in [*(name for name in order if name in changed), *(name for name in changed if name not in order)])


def skew_words(way: Way, ways: Ways, unit: Fraction) -> str:
    """The skew that a way leaves, beside what it is now."""
    what = "simulated skew" if exact(way.run) else "simulated starts"
    text = f"{what} {microseconds(way.skew, unit)} at most {ways.span}"
    share = percent(way.skew, ways.skew)
    if share == "100.0 %":
        return text + ", as it is now"
    if ways.skew and way.skew > ways.skew:
        return text + f", {decimal(Fraction(way.skew, ways.skew), 2)} times what it is now"
    return text + (f", {share} of what it is now" if ways.skew else "")


def lasting_words(way: Way, cluster: Cluster) -> str:
    """Of sharper bounds for how long they hold, where that ends."""
    bounds = way.bounds
    if isinstance(bounds, Bounds) or bounds.lasts is None:
        return ""
    return f" for {bounds.lasts} double cycles ({lasting(2 * bounds.lasts * cycle_ms(cluster))}), since {bounds.ending}"


def cycle_ms(cluster: Cluster) -> Fraction:
    return Fraction(cluster.parameters["pMicroPerCycle"]) * cluster.microtick_ns / 1000000


def way_words(way: Way, ways: Ways, cluster: Cluster) -> str:
    unit, gap = cluster.microtick_ns, ways.checks.gap(way.run)
    text = "; ".join(way.first) + ": " if way.first else ""
    text += "all checks hold" if not way.bounds.failing else "all checks but C1 hold"
    text += ", and the walk is held," if isinstance(way.bounds, SharpBounds) and way.bounds.is_held else ""
    text += f" with {values_words(way.changed, cluster)}. Precision {microseconds(way.bounds.precision, unit)}"
    text += lasting_words(way, cluster)
    text += "; covered yes" if gap is None else f"; covered no ({' '.join(gap)})"
    text += f"; {skew_words(way, ways, unit)}" + ("" if ways.checks.first(way.run) is not None else "; never in sync")
    ends = way.run.report.ends
    still = sum(end.rate == 0 for end in ends.values())
    if still and way.changed.get("pClusterDriftDamping", 0) > cluster.parameters["pClusterDriftDamping"]:
        text += f"; the damping leaves {still} of {len(ends)} rate terms 0 at the end"
    if "gdNIT" in way.changed and way.changed["gdNIT"] < cluster.parameters["gdNIT"]:
        text += "; a shorter gdNIT leaves less for dynamic segment and symbol window"
    return text


def way_lines(ways: Ways, cluster: Cluster, field_: Lines) -> list[str]:
    """Lines of the page: what may be turned, each way run, the least skew first."""
    unit = cluster.microtick_ns
    if not ways.wanted:
        return []
    if not ways.held:
        found = field_("Ways", "no values of these parameters are found with which all checks hold, with limits that this "
                               "run keeps:")
        for why, told in ways.refused:
            found += field_("", f"- {'; '.join(told) + ': ' if told else ''}{why}")
        return found
    found = field_("Ways", f"to checks that hold, each tried by flexray bound and run (files in advised/), the least "
                           f"simulated skew first; now it is {microseconds(ways.skew, unit)} {ways.span}. "
                           "A lower limit is a promise that your oscillators and cables have to keep"
                           + (f"; what lies before double cycle {ways.since}, the first in sync, does not count" if ways.since else ""))
    for number, way in enumerate(ways.held, 1):
        found += field_("", f"{number}. {way_words(way, ways, cluster)}")
    for why, told in ways.refused:
        found += field_("", f"none {'where ' + '; '.join(told) if told else 'with the limits as stated'}: {why}")
    return found


def named_checks(numbers: list[int]) -> str:
    names = [f"C{number}" for number in numbers]
    return names[0] if len(names) == 1 else ", ".join(names[:-1]) + " and " + names[-1]


def older_lines(run: Run, field_: Lines) -> list[str]:
    """The line of the checks of the classical bound: whether they hold, or what they ask besides, and what that does to the clocks."""
    failing, ways, unit = [check.number for check in run.bounds.failing], run.ways, run.cluster.microtick_ns
    if not failing:
        return field_("  checks", "those of the classical bound hold too")
    text = (f"{named_checks(failing)} of the classical bound {'fails' if len(failing) == 1 else 'fail'}; the precision does not rest "
            "on them")
    if ways is None or ways.older is None:
        return field_("  checks", text + (f". No values are found with which they hold: {ways.no_older}" if ways else ""))
    way, besides = ways.older, " besides the first way" if ways.held else " besides"
    asks = f"They ask for {values_words(way.changed, run.cluster)}{besides}" if way.changed else "They hold with the first way too"
    text += f". {asks}; the classical bound is then {microseconds(way.bounds.precision, unit)}, and {skew_words(way, ways, unit)}"
    damped = way.changed.get("pClusterDriftDamping", 0) > run.cluster.parameters["pClusterDriftDamping"]
    if damped and way.skew > ways.skew:
        text += ": that makes the clocks worse, since damping is taken off each rate term (docs/PRECISION.md)"
    return field_("  checks", text)
