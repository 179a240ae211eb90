"""The page of `flexlab observe`: what flexray tells of a log, in microseconds and ppm, and its pictures."""
from __future__ import annotations

from dataclasses import asdict
from fractions import Fraction
from collections.abc import Callable, Sequence
from typing import Any, NamedTuple

from flexray.results import Observation, ObservedFault, ObservedMissed, ObservedNode, ObservedSender

from ..toml.cluster import Cluster
from .observer import Log, analyzer_words, differences, left_lines, plain
from ..runs.sharp import MOST as MOST_FLUTTER
from ..pages.page import field as lines_of
from ..pages.page import ms_of_cycle
from ..pages.pictures import COLOURS, POINTS, draw, node_label, node_texts, plain_axes
from ..base.units import TICKS, Number, decimal, us_of_ticks

FATES = ("say where a clock was", "are damaged", "are of arbitrary nodes", "tell nothing of a clock",
         "come at another time than their cycle count has it or are of a past double cycle or of none",
         "come behind a silence of more than 30 cycles")
MOST_FAULTS = 8
# How many open cycles, and how many runs of cycles over the precision, the page names.
MOST_NAMED = 4
# Kinds of contradictions to that each whole frame with the ID of a node is one that it sends.
IRREGULAR = ("stranger", "form")
# Kinds of contradictions that ask nothing of what nodes hear of each other: by itself each names a node.
ALWAYS = ("channels", "limit", "correction", "twice", "cycle", *IRREGULAR)
TERMS = {"offset": "offset term", "rate": "change of the rate term"}
# Of which terms at the end of a double cycle it goes how far apart clocks are in the next one, by what is known from the one before.
BEFORE = {"start": ("offset",), "lengths": ("rate",), "skew": ("offset", "rate")}
ORIGIN = ("Every limit here is one that flexray printed, converted and rounded outwards: it holds in every run of the "
          "cluster that can have given the log, if what is stated of the analyzer and of the oscillators is so. "
          "flexlab computes no answer of its own.")


class Limits(NamedTuple):
    """Limits of a number in a cycle or a double cycle."""
    at: int
    low: Number
    high: Number


# ---- rounding outwards


def lower(value: Number, digits: int = 3) -> str:
    return decimal(Fraction(Fraction(value) * 10**digits // 1, 10**digits), digits)


def upper(value: Number, digits: int = 3) -> str:
    text = lower(-Fraction(value), digits)
    return text[1:] if text.startswith("-") else text if Fraction(text) == 0 else "-" + text


def ppm_of_cycle(length: int, cluster: Cluster) -> Fraction:
    """The ppm by which a cycle of so many ticks is faster than the nominal one; the analyzer's clock is the measure."""
    return Fraction(cluster.parameters["pMicroPerCycle"] * TICKS * TICKS, length) - TICKS


def rates(rows: list[ObservedNode], cluster: Cluster) -> list[Limits]:
    """Limits of the ppm of a node, by its double cycles."""
    return [Limits(row.double, ppm_of_cycle(row.length_high, cluster), ppm_of_cycle(row.length_low, cluster)) for row in rows]


def by_node(told: Observation) -> dict[int, list[ObservedNode]]:
    """The double cycles of each node, by its number."""
    found: dict[int, list[ObservedNode]] = {}
    for row in told.nodes:
        found.setdefault(row.node, []).append(row)
    return dict(sorted(found.items()))


def offset_of(row: ObservedNode) -> Limits | None:
    """Limits of the offset term of a node, where its next double cycle shows it."""
    if row.offset_low is None or row.offset_high is None:
        return None
    return Limits(row.double, row.offset_low, row.offset_high)


# ---- contradictions


class Excess(NamedTuple):
    """By how many microticks a term was too great, or too small: what was seen less what it must be."""
    low: int
    high: int
    way: str


def excess_of(fault: ObservedFault) -> Excess | None:
    if fault.kind not in TERMS or "-" in fault.fields:
        return None
    low, high, least, most = map(int, fault.fields)
    if low > most:
        return Excess(low - most, high - least, "too great")
    return Excess(least - high, most - low, "too small") if high < least else None


class Words:
    """Contradictions in words, with numbers in microseconds and microticks; `missed` has how many senders a node must have missed."""

    def __init__(self, cluster: Cluster, told: Observation) -> None:
        self.cluster, self.unit, self.faults, self.last = cluster, cluster.microtick_ns, told.faults, told.last
        self.missed = {(row.cycle, row.node, row.kind): row for row in told.missed}
        self.ends = {(row.node, row.channel): row.last for row in told.senders}

    def us(self, low: str, high: str) -> str:
        """A pair of numbers of ticks; the upper one may not be known."""
        most = "no limit" if high in ("-", "") else f"{upper(us_of_ticks(int(high), self.unit))} us"
        return f"{lower(us_of_ticks(int(low), self.unit))} to {most}"

    def beyond(self, what: str, fields: Sequence[str]) -> str:
        return (f"{what} at least {lower(us_of_ticks(int(fields[0]), self.unit))} us apart, and by what is known at most "
                f"{upper(us_of_ticks(int(fields[3]), self.unit))} us")

    def of(self, fault: ObservedFault) -> str:
        node = "" if fault.node is None else f", node {self.cluster.called(fault.node)}"
        return f"cycle {fault.cycle}{node}: {self.told(fault)}"

    def unless(self, fault: ObservedFault) -> str:
        """How many senders its node may have missed instead."""
        row = None if fault.node is None else self.missed.get((fault.cycle, fault.node, fault.kind))
        return "" if row is None or row.least is None else f", unless it missed at least {senders(row.least)}"

    def too_much(self, fault: ObservedFault) -> str:
        excess = excess_of(fault)
        return "" if excess is None else f", {span(excess.low, excess.high)} {excess.way}"

    def behind(self, fault: ObservedFault) -> str:
        """That a term of the double cycle before contradicts already: what is known here takes for granted that it was right."""
        before = 2 * (fault.cycle // 2) - 1
        kind = next((row.kind for row in self.faults if row.cycle == before and row.kind in BEFORE[fault.kind]), None)
        return "" if kind is None else f" (which may follow from the {TERMS[kind]} of cycle {before})"

    def gone(self, fault: ObservedFault) -> str:
        """That no frame of its node comes on the channel any more, at the first row that says it is not there."""
        rows = [row.cycle for row in self.faults if (row.node, row.kind, row.fields[0]) == (fault.node, "missing", fault.fields[0])]
        end = None if fault.node is None else self.ends.get((fault.node, fault.fields[0]))
        if end is None or self.last is None or end >= fault.cycle or fault.cycle != min(rows):
            return ""
        alone = max(rows) // 2 == fault.cycle // 2 < self.last // 2
        return f": missing from cycle {end + 1} to the end" + ("; the first double cycle alone is listed" if alone else "")

    def told(self, fault: ObservedFault) -> str:
        kind, fields = fault.kind, fault.fields
        one, two, three, four = fields
        if kind == "channels":
            return "the stamps of both channels place its clock nowhere"
        if kind == "limit":
            if int(one) > int(two):
                return "its stamps of this double cycle contradict each other"
            return f"both its cycles last {self.us(one, two)}, and one of the cluster {self.us(three, four)}"
        if kind == "correction":
            if int(one) > int(two):
                return "its stamps here and in the next double cycle contradict each other"
            return f"an offset term of {one} to {two} microticks, and the limit is {four}"
        if kind == "twice":
            return f"its frame on channel {one} is there twice"
        if kind == "cycle":
            return f"its frame on channel {one} comes at another time than its cycle count {three} says"
        if kind == "stranger":
            return f"a frame is in its slot {three} on channel {one}, which it does not have"
        if kind == "form":
            return (f"the frame in its slot {three} on channel {one} has another payload length, or another sync or startup "
                    "indicator, than its frames there")
        if kind == "missing":
            return f"its frame on channel {one} is not there{self.gone(fault)}"
        if kind == "length":
            return f"a cycle of {self.us(one, two)}, and by what is known one of {self.us(three, four)}"
        if kind in ("offset", "rate"):
            step = "an offset term" if kind == "offset" else "a change of the rate term"
            seen, must = span(int(one), int(two)), span(int(three), int(four))
            return f"{step} of {seen} microticks, and by all that were seen it must be {must}{self.too_much(fault)}{self.unless(fault)}"
        what = {"skew": "clocks", "start": "starts", "lengths": "lengths of cycles"}[kind]
        return self.beyond(what, fields) + self.behind(fault)


def span(low: int, high: int) -> str:
    return f"{low} to {high}" if low < high else str(low)


def listed(names: Sequence[str], last: str = "and") -> str:
    return ", ".join(names[:-1]) + (f" {last} " if names[:-1] else "") + names[-1]


def nodes_words(cluster: Cluster, nodes: Sequence[int]) -> str:
    return f"node{'s' * (len(nodes) > 1)} {listed([cluster.called(node) for node in nodes])}"


def runs_of(numbers: Sequence[int]) -> list[tuple[int, int]]:
    """Cycles as runs of such that follow each other: the first and the last of each."""
    found = list[tuple[int, int]]()
    for number in numbers:
        if found and found[-1][1] == number - 1:
            found[-1] = (found[-1][0], number)
        else:
            found.append((number, number))
    return found


def senders(count: int) -> str:
    return f"{count} sender{'s' * (count > 1)}"


def cycles(count: int) -> str:
    return f"{count} cycle{'s' * (count != 1)}"


def some_lines(title: str, lines: list[str]) -> list[str]:
    """The first ones, and how many more there are."""
    more = [f"and {len(lines) - MOST_FAULTS} more, in observed.csv"] if len(lines) > MOST_FAULTS else []
    return lines_of(title, *lines[:MOST_FAULTS], *more) if lines else []


def fault_lines(cluster: Cluster, told: Observation) -> list[str]:
    """What contradicts the log; and what does not, where a node may have missed senders."""
    words, faults = Words(cluster, told), {(fault.cycle, fault.node, fault.kind) for fault in told.faults}

    def of(row: ObservedMissed) -> str:
        return (f"cycle {row.cycle}, node {cluster.called(row.node)}: it missed at least {senders(row.least or 0)}, by the "
                f"{TERMS[row.kind]} that was seen")
    return (some_lines("CONTRADICTION", [words.of(fault) for fault in told.faults])
            + some_lines("Missed", [of(row) for row in told.missed if (row.cycle, row.node, row.kind) not in faults]))


def why_unjudged(cluster: Cluster, told: Observation, why: Sequence[str]) -> str:
    """Why a double cycle is not judged: the last three fields of a `sync` row."""
    kind, cycle, number = why
    node = "" if number == "-" else cluster.called(int(number))
    if kind == "count":
        few = len({row.node for row in told.senders})
        many = sum(bool(one.key_slot) for one in cluster.nodes.values()) - few
        return f"{few} correct nodes with a key slot do not outweigh {many} arbitrary ones"
    if kind == "lost":
        return "beside arbitrary nodes none is judged where a node may miss senders"
    if kind == "unseen":
        if not node:
            return "no frame tells where a clock was"
        return (f"node {node} was not seen in cycle {cycle}" if cluster.nodes[int(number)].key_slot
                else f"node {node} has no key slot, so no frame shows its clock")
    if kind == "fault":
        return f"there is a contradiction in cycle {cycle}" + (f", node {node}" if node else "")
    return ("starts and lengths of cycles may lie so far apart that a correction is cut or a frame misses its slot, by checks 2 to 5"
            if kind == "reach" else
            "lengths of cycles may lie further beyond their range than the rate limit follows") + f", in cycle {cycle}"


def advice(cluster: Cluster, told: Observation, why: Sequence[str]) -> str:
    """What may make a double cycle judged, where none is."""
    if why[0] in ("count", "lost") or not told.cycles:
        return ""
    node, aside = cluster.nodes.get(int(why[2])) if why[2] != "-" else None, ""
    if why[0] == "unseen" and node and not node.key_slot:
        aside = "it moves no clock, so leave it out of the file; or "
    elif why[0] == "unseen" and not any(row.frames for row in told.senders if str(row.node) == why[2]):
        return ("; it was seen in no cycle at all: leave it out of the file if it is not in the network; if it is, its silence is the "
                "finding, or the analyzer takes none of its frames. in_sync_from_cycle of [observer] can state where the cluster, this "
                "node too, is in sync, and does not hide that")
    elif why[0] == "reach":
        aside = "they do so by what is stated of the analyzer too: state closer delays and finer steps if that is true; or "
    elif why[0] == "drift":
        aside = "they do so by the drift of the analyzer too: state a lesser drift_ppm if that is true; or "
    return f"; {aside}in_sync_from_cycle of [observer] can state where the cluster is in sync"


def kept(told: Observation) -> str:
    """What a run keeps to where its nodes hear each other as the log says."""
    return (f"in which no node misses more than {senders(told.lost)} of a double cycle" if told.lost else
            "in which correct nodes hear each other in each double cycle")


def judged_lines(cluster: Cluster, told: Observation) -> list[str]:
    """Which double cycles are judged, and how far clocks lie apart in these."""
    why = told.sync[4:]
    if not told.spreads:
        return lines_of("Judged", f"0 of {told.doubles} double cycles, since {why_unjudged(cluster, told, why)}"
                                  + advice(cluster, told, why))
    most, unit = max(told.spreads, key=lambda row: row.apart), cluster.microtick_ns
    text = (f"{told.judged} of {told.doubles} double cycles, by what is seen and known of them, from double cycle "
            f"{told.spreads[0].double} on")
    if not told.faults:
        text += (f"; no macroticks of these lie further apart than {upper(us_of_ticks(most.apart, unit))} us (double cycle {most.double}), "
                 f"in every run that keeps to what is stated and {kept(told)}")
    if why[0] != "-":
        text += f"; of the others the one that came farthest is not judged, since {why_unjudged(cluster, told, why)}"
    return lines_of("Judged", text)


def beside_verdict(cluster: Cluster, told: Observation, is_doubted: bool) -> str:
    """What a verdict does not say: which nodes were seen nowhere or are not checked, and that a hint doubts what is stated."""
    silent = sorted({row.node for row in told.senders} - {row.node for row in told.senders if row.frames}) if told.cycles else []
    text = f"; {nodes_words(cluster, silent)} {'was' if len(silent) == 1 else 'were'} seen in NO cycle" if silent else ""
    if told.verdict[0] == "no":
        return text
    if wild := cluster.arbitrary:
        were, them = ("was", "it") if len(wild) == 1 else ("were", "them")
        text += f"; {nodes_words(cluster, wild)} {were} NOT checked: the file names {them} arbitrary"
    return text + ("; all this if what is stated is so: see Hint" if is_doubted else "")


def verdict_text(cluster: Cluster, told: Observation, is_doubted: bool = False) -> str:
    """The verdict in words, and what it does not say."""
    return verdict_alone(cluster, told) + beside_verdict(cluster, told, is_doubted)


def verdict_alone(cluster: Cluster, told: Observation) -> str:
    verdict, clocks = told.verdict, "the clocks of the nodes that sent lay"
    unheld = "no correction is held against the rules"
    kept_to = "; nothing contradicts what is stated" if told.judged else f"; no double cycle is judged, so {unheld}"
    if verdict[0] == "within":
        return f"in cycles {verdict[1]} to {verdict[2]} {clocks} within the precision{kept_to}"
    if verdict[0] == "no":
        alone = ", and in which no other sender takes the ID of a node," if verdict[2] in IRREGULAR else ""
        heard = "" if verdict[2] in ALWAYS else f", {kept(told)}"
        return (f"NO: no run of this cluster that keeps to what is stated{heard} and whose frames come within half a cycle of the "
                f"schedule{alone} can have given this log; the first contradiction is in cycle {verdict[1]}")
    if verdict[0] == "over":
        low = lower(us_of_ticks(int(verdict[2]), cluster.microtick_ns))
        last = max(row.cycle for row in told.cycles if row.says == "over")
        behind = sum(row.cycle > last and row.says == "within" for row in told.cycles)
        return (f"OVER: in {cycles(int(verdict[3]))} {clocks} further apart than the precision, for certain; in the first of them, cycle "
                f"{verdict[1]}, at least {low} us; the last is cycle {last}, with {cycles(behind)} within the precision behind it{kept_to}")
    if verdict[0] == "partly":
        return (f"partly: of the judged ones of cycles {verdict[1]} to {verdict[2]} {clocks} within the precision in {verdict[3]}, for "
                f"certain; of {verdict[4]} it is not certain{kept_to}")
    return (f"open: no double cycle is judged, since {why_unjudged(cluster, told, verdict[1:4])}, so {unheld}; "
            f"in {cycles(told.within)} {clocks} within the precision, for certain")


def verdict_lines(cluster: Cluster, told: Observation, is_doubted: bool = False) -> list[str]:
    """What the log comes to."""
    found = lines_of("Numbers", "that each frame comes within half a cycle of the schedule is taken for granted: the limits that are "
                                "stated do not suffice to be sure of it of clocks near each other") if told.numbers[0] == "premise" else []
    return found + judged_lines(cluster, told) + lines_of("Verdict", verdict_text(cluster, told, is_doubted))


# ---- the page


def skew_lines(cluster: Cluster, told: Observation) -> list[str]:
    unit = cluster.microtick_ns
    if not told.cycles:
        return lines_of("Skew", "of no frame it is told where a clock was, so of clocks nothing is told")
    known = [(row.high, row.cycle) for row in told.cycles if row.high is not None]
    least = max(told.cycles, key=lambda row: row.low)
    text = f"at least {lower(us_of_ticks(least.low, unit))} us in cycle {least.cycle}"
    if least.high is None:
        text += ", of which no upper limit is known"
    if known:
        high, cycle = max(known, key=lambda row: row[0])
        text += (f"; at most {upper(us_of_ticks(high, unit))} us (cycle {cycle}) in the {len(known)} cycles of "
                 "which that is known")
    found = lines_of("Skew", text)
    return found + over_lines(told)


def over_lines(told: Observation) -> list[str]:
    """In which cycles the skew was over the precision, in runs."""
    over = [row.cycle for row in told.cycles if row.says == "over"]
    if not over:
        return []
    begins = {told.cycles[0].cycle // 2, *(row.double for row in told.spreads[:1])}
    start = ("; cycles at the begin of a log may be of a startup, before the clocks are in sync: --from leaves them out"
             if over[0] // 2 in begins else "")
    return lines_of("OVER", f"in {cycles(len(over))}{runs_words(over)}, the clocks of the nodes that sent lay further apart than the "
                            f"precision, for certain{start}")


def runs_words(numbers: Sequence[int]) -> str:
    """Cycles as runs; or, where these are many, the double cycles that have such."""
    runs, of = runs_of(numbers), ", "
    if len(runs) > MOST_NAMED:
        runs, of = runs_of(sorted({number // 2 for number in numbers})), ", of double cycles "
    more = f", and {len(runs) - MOST_NAMED} more runs to {runs[-1][1]}" if len(runs) > MOST_NAMED else ""
    return of + ", then ".join(span(*run) for run in runs[:MOST_NAMED]) + more


def node_lines(cluster: Cluster, told: Observation) -> list[str]:
    if not told.nodes:
        return []
    found = ["", f"{'node':>4}  {'double cycles':>13}  {'ppm from':>10} {'to':>10}  {'offset term from':>16} {'to':>6}"]
    for node, rows in by_node(told).items():
        ppm = rates(rows, cluster)
        low, high = lower(min(row.low for row in ppm)), upper(max(row.high for row in ppm))
        terms = [term for row in rows if (term := offset_of(row))]
        least, most = (str(min(term.low for term in terms)), str(max(term.high for term in terms))) if terms else ("-", "-")
        found.append(f"{node:>4}  {len(rows):>13}  {low:>10} {high:>10}  {least:>16} {most:>6}"
                     + (f"  {cluster.names[node]}" if node in cluster.names else ""))
    return found + [""] + lines_of(
        "", "ppm: how much faster its cycles were than nominal ones, rate correction included, by the analyzer's "
            "clock, in all its double cycles. Offset terms are microticks.")


def unseen_lines(cluster: Cluster, told: Observation) -> list[str]:
    """Which senders have cycles of the log without a frame."""
    def ends(row: ObservedSender) -> str:
        if row.first is None or row.last is None:
            return ": no frame of it is there"
        before, behind = row.first > told.cycles[0].cycle, row.last < told.cycles[-1].cycle
        found = [f"the first in cycle {row.first}"] * before + [f"the last in cycle {row.last}"] * behind
        return f"; of its frames {' and '.join(found)}" if found else ""
    rows = [row for row in told.senders if row.missed]
    return lines_of("Not seen", *(f"node {cluster.called(row.node)} on channel {row.channel} in {cycles(row.missed)}{ends(row)}"
                                  for row in rows)) if rows else []


class Deaf(NamedTuple):
    """Nodes that are not arbitrary and have no common channel, by pairs of which the second has a key slot; and of how many such one of
    them hears nothing, at most."""
    pairs: list[tuple[int, int]]
    most: int

    def words(self, cluster: Cluster) -> str:
        one, other = min(sorted(pair) for pair in self.pairs)
        return (f"nodes {cluster.called(one)} and {cluster.called(other)} have no common channel"
                + (", as some others" if len({frozenset(pair) for pair in self.pairs}) > 1 else ""))


def deaf_in(cluster: Cluster) -> Deaf | None:
    correct = [node for node in cluster.nodes.values() if not node.arbitrary]
    pairs = [(node.number, other.number) for node in correct for other in correct
             if node is not other and other.key_slot and not set(node.channels) & set(other.channels)]
    return Deaf(pairs, max(sum(one == node for one, _ in pairs) for node, _ in pairs)) if pairs else None


def deaf_lines(cluster: Cluster, told: Observation) -> list[str]:
    """That nodes miss more than is stated, by the channels that the file gives them."""
    deaf = deaf_in(cluster)
    if deaf is None or deaf.most <= told.lost:
        return []
    stated = "that is stated nowhere" if cluster.arbitrary else f"lost of [observer] is {told.lost}: state {deaf.most} or more"
    return lines_of("UNHEARD", f"{deaf.words(cluster)}, so a node misses {senders(deaf.most)} in each double cycle, and {stated}. In no "
                               "run of this cluster nodes hear each other as the lines below take for granted: contradictions may be of "
                               "that alone")


def cycles_line(told: Observation) -> list[str]:
    """Which cycles the log has, and what is told of how many; open ones by name, where they are few."""
    if not told.cycles:
        return []
    last, opened = told.cycles[-1], [str(row.cycle) for row in told.cycles if row.says == "open"]
    named = f" ({listed(opened)})" if 0 < len(opened) <= MOST_NAMED else ""
    end = ", the last since no next double cycle shows its end" if last.says == "open" and last.high is None else ""
    return lines_of("Cycles", f"{told.cycles[0].cycle} to {last.cycle}, by the cycle counts: {told.within} within the precision, "
                              f"{told.over} over it, {told.open} open{named}{end}")


def page_lines(cluster: Cluster, told: Observation, log: Log, name: str, more: Sequence[str] = (), is_doubted: bool = False) -> list[str]:
    """The page of a log, with more lines behind its contradictions; whether a hint among them doubts what is stated."""
    frames, keys = log.frames, sum(node.key_slot is not None for node in cluster.nodes.values())
    found = lines_of("Log", f"{name}: {log.entries} frames of key slots")
    wild = ", ".join(map(cluster.called, cluster.arbitrary))
    found += lines_of("Cluster", f"{len(cluster.nodes)} nodes, {keys} with a key slot; cycles of {decimal(ms_of_cycle(1, cluster), 3)} ms; "
                                 f"a microtick is {plain(cluster.microtick_ns)} ns"
                                 + (f"; no frame is used of what the file names arbitrary: node {wild}" if wild else ""))
    found += lines_of("Analyzer", analyzer_words(log.observer, frames)) + deaf_lines(cluster, told)
    found += lines_of("Frames", ", ".join(f"{count} {fate}" for count, fate in zip(asdict(told.log).values(), FATES)))
    found += left_lines(frames)
    if differs := differences(cluster, frames):
        found += lines_of("DIFFERS", "most frames are not as the file of the cluster has them: is the log of another network?", *differs)
    found += cycles_line(told) + unseen_lines(cluster, told)
    precision, flutter = (us_of_ticks(ticks, cluster.microtick_ns) for ticks in (told.precision, told.flutter))
    asked = f", which is promised where the checks of flexray bound params.csv sharp {told.flutter} hold"
    promised, beside = asked if told.flutter <= MOST_FLUTTER else "", " beside arbitrary nodes" if wild else ""
    found += lines_of("Precision", f"{decimal(precision, 3)} us, the sharp one{beside} where delays flutter by no more than "
                                   f"{plain(1000 * flutter)} ns: a yardstick{promised}")
    return [*found, *skew_lines(cluster, told), *verdict_lines(cluster, told, is_doubted), *fault_lines(cluster, told), *more,
            *node_lines(cluster, told), *lines_of("Origin", ORIGIN)]


def observed_object(cluster: Cluster, told: Observation, log: Log) -> dict[str, Any]:
    """A log as an object: names stand in docs/FLEXLAB.md, "For machines"."""
    def us(ticks: int | None, rounded: Callable[[Number, int], str]) -> float | None:
        return None if ticks is None else float(rounded(us_of_ticks(ticks, cluster.microtick_ns), 6))
    return {
        "names": cluster.names, "entries": log.entries, "left_out": log.frames.left, "differs": differences(cluster, log.frames),
        "precision": {"ticks": told.precision, "flutter_ticks": told.flutter, "lost": told.lost},
        "log": asdict(told.log), "said": {"within": told.within, "over": told.over, "open": told.open}, "verdict": told.verdict,
        "judged": told.judged, "double_cycles": told.doubles, "sync": told.sync, "numbers": told.numbers,
        "faults": [{**asdict(fault), "told": Words(cluster, told).told(fault)} for fault in told.faults],
        "missed": [asdict(row) for row in told.missed], "unheard": deaf.most if (deaf := deaf_in(cluster)) else 0,
        "spreads": [{"double_cycle": row.double, "starts": row.starts, "lengths": row.lengths, "beyond": row.beyond, "apart": row.apart,
                     "apart_us": us(row.apart, upper)} for row in told.spreads],
        "senders": [asdict(row) for row in told.senders],
        "cycles": [{"cycle": row.cycle, "senders": row.senders, "least_us": us(row.low, lower), "most_us": us(row.high, upper),
                    "says": row.says} for row in told.cycles],
        "nodes": {str(node): [{"double_cycle": row.double, "least_ppm": float(lower(ppm.low)), "most_ppm": float(upper(ppm.high)),
                               "least_offset": row.offset_low, "most_offset": row.offset_high}
                              for row, ppm in zip(rows, rates(rows, cluster))]
                  for node, rows in by_node(told).items()}}


# ---- pictures


def thinned(rows: list[Limits]) -> list[Limits]:
    """At most so many rows: of each stretch the one with the greatest upper limit."""
    width = -(-len(rows) // POINTS)
    return [max(rows[at:at + width], key=lambda row: row.high) for at in range(0, len(rows), width)]


def data(name: str, rows: list[Limits]) -> str:
    lines = (" ".join(decimal(value, 6) for value in row) + "\n" for row in thinned(rows))
    return f"${name} << end\n" + "".join(lines) + "end\n"


def skew_script(cluster: Cluster, told: Observation) -> str:
    unit = cluster.microtick_ns
    rows = [Limits(row.cycle, us_of_ticks(row.low, unit), us_of_ticks(row.high, unit)) for row in told.cycles if row.high is not None]
    precision = decimal(us_of_ticks(told.precision, unit), 6)
    apart = [Limits(2 * row.double, us_of_ticks(row.apart, unit), us_of_ticks(row.apart, unit)) for row in told.spreads]
    judged = ("     $apart using 1:3 title 'no further apart, as judged' with points pointtype 7 pointsize 0.4 linecolor '#e69f00', \\\n"
              if apart else "")
    return (data("skew", rows) + (data("apart", apart) if apart else "") + plain_axes()
            + "set title 'Limits of the skew in '.file noenhanced font ',14'\n"
            "set xlabel 'cycle'\nset ylabel 'microseconds'\nset yrange [0:*]\n"
            "set key outside bottom center horizontal\nset style fill solid 0.35 noborder\n"
            "plot $skew using 1:2:3 title 'the skew lies in between' with filledcurves linecolor '#0072b2', \\\n"
            "     $skew using 1:3 title 'at most' with lines linewidth 1.2 linecolor '#0072b2', \\\n"
            "     $skew using 1:2 title 'at least' with lines linewidth 1.2 linecolor '#009e73', \\\n"
            f"{judged}     {precision} title 'precision' with lines linewidth 2 linecolor '#b00020'\n")


def nodes_script(cluster: Cluster, told: Observation) -> str:
    """Two panels: limits of each node's rate, and of its offset terms."""
    found, panels = "", (("rate", "ppm"), ("offset", "microticks"))
    parts: dict[str, dict[int, list[Limits]]] = {"rate": {}, "offset": {}}
    for node, rows in by_node(told).items():
        parts["rate"][node] = rates(rows, cluster)
        parts["offset"][node] = [term for row in rows if (term := offset_of(row))]
    for what, nodes in parts.items():
        found += "".join(data(f"{what}{node}", rows) for node, rows in nodes.items() if rows)
    found += plain_axes() + "set multiplot layout 2,1 title 'Rates and offset terms in '.file noenhanced font ',14'\n"
    found += "set xlabel 'double cycle'\nset key outside right top\n"
    for what, unit in panels:
        plots = [f"${what}{node} using 1:(($2+$3)/2):2:3 title {node_label(node)} noenhanced with yerrorlines pointtype 7 "
                 f"pointsize 0.3 linecolor '{COLOURS[at % len(COLOURS)]}'"
                 for at, (node, limits) in enumerate(parts[what].items()) if limits]
        if plots:
            found += f"set ylabel '{what}, {unit}'\nplot " + ", \\\n     ".join(plots) + "\n"
    return found + "unset multiplot\n"


def draw_observed(cluster: Cluster, told: Observation, folder: str, name: str) -> list[str]:
    drawn: list[str] = []
    if any(row.high is not None for row in told.cycles):
        drawn += draw(folder, "observed-skew", skew_script(cluster, told), file=name)
    if told.nodes:
        drawn += draw(folder, "observed-nodes", nodes_script(cluster, told), "1000,860", file=name, **node_texts(cluster))
    return drawn
