"""The run of a cluster that comes closest to its precision: oscillators, delays, starts and the words of arbitrary
nodes are searched for, and each candidate is judged by flexray run. What is found is a lower bound of the worst case
beside the proved upper one; it proves nothing."""
from __future__ import annotations

import copy
import os
import random
import tempfile
import threading
import time
from collections.abc import Callable, Iterator
from dataclasses import dataclass, field
from typing import NamedTuple
from argparse import Namespace

from ..base import ranges
from ..base.ending import DONE, NO, USAGE, Stop
from ..base.files import make_folder, parameter_lines, put
from ..pages.gaps import gap_words
from ..pages.page import field as lines_of
from ..program.report import Report, read_bounds, read_report
from ..toml.cluster import Cluster, Link
from .runs import answer, keep
from ..base.units import microseconds, percent, ppm_of, signed

TICKS = 1000000
EARLY, AMID, LATE = -1, 0, 1
CAMPS = {EARLY: "early", AMID: "amid", LATE: "late"}
MOST_CAMP = 8
NEAR = 60
START = 2 * TICKS


class LinkIn(NamedTuple):
    """Frames of a node at another one, on a channel, in cycles of this parity."""
    sender: int
    receiver: int
    channel: str
    parity: int


class SaidTo(NamedTuple):
    """What an arbitrary node says to a receiver in cycles of this parity."""
    arbitrary: int
    receiver: int
    parity: int


@dataclass
class Trial:
    """A candidate: of each correct node its camp, its start and by how many ticks its microtick is off its limit; of
    single links, and of what an arbitrary node says to a receiver, what is other than the camp asks for."""
    camps: dict[int, int]
    starts: dict[int, int] = field(default_factory=dict)
    off: dict[int, int] = field(default_factory=dict)
    links: dict[LinkIn, int] = field(default_factory=dict)
    said: dict[SaidTo, int | None] = field(default_factory=dict)


class Best(NamedTuple):
    """The greatest skew that was found, and the candidate that has it."""
    skew: int
    trial: Trial


class Edge(NamedTuple):
    """The files of a run whose two clocks of a pair begin as far apart as they may."""
    drift: str
    script: str
    pair: tuple[int, int]


class Bench:
    """The cluster that is searched, and how a candidate of it is judged."""

    def __init__(self, cluster: Cluster, program: str, doubles: int) -> None:
        self.cluster, self.program, self.doubles, self.runs = cluster, program, doubles, 0
        self.parameters = "".join(parameter_lines(cluster))
        with tempfile.TemporaryDirectory() as room:
            path = os.path.join(room, "params.csv")
            put(path, self.parameters, "ascii")
            self.bounds = read_bounds(answer(program, ["bound", path]))
        self.p, self.cycles = cluster.parameters, 2 * doubles
        self.shift = self.reachable()

    def reachable(self) -> int:
        """How early or late an arbitrary node may be so that its frame falls into its slot at every clock in sync."""
        p, left = self.p, self.p["pMicroPerCycle"] - self.p["pRateCorrectionOut"]
        point, slot, macros = p["gdActionPointOffset"], p["gdStaticSlot"], p["gMacroPerCycle"]
        room = min(point * left // macros - 2, (slot - point) * left // macros - 2 - ranges.compensation(p))
        return max(0, min(self.bounds.precision + 4 * TICKS, room * (TICKS - p["xRateBound"])))

    def length(self, trial: Trial, node: int, cycle: int) -> int:
        """The microtick of a node: at its limit in the last cycle, and until then as far on the way as it may be."""
        most, camp = self.p["xRateBound"], trial.camps[node]
        if camp == AMID:
            return TICKS + trial.off.get(node, 0)
        away = trial.off.get(node, 0) + self.p["xChangeBound"] * (self.cycles - 1 - cycle)
        return TICKS + camp * max(most - away, -most)

    def heard(self, trial: Trial, receiver: int, link: Link, parity: int) -> int:
        """By how much of the delay error a frame is late to a receiver in even or odd cycles."""
        camp = trial.camps[receiver] if parity else -trial.camps[receiver]
        return trial.links.get(LinkIn(*link, parity), camp)

    def said_to(self, trial: Trial, arbitrary: int, receiver: int, parity: int) -> int | None:
        """What an arbitrary node says to a receiver: late, early, or nothing (None)."""
        said = SaidTo(arbitrary, receiver, parity)
        if said in trial.said:
            return trial.said[said]
        camp = trial.camps[receiver]
        if camp == AMID:
            if len(self.cluster.arbitrary) == 1:
                return None
            camp = EARLY if self.cluster.arbitrary.index(arbitrary) % 2 else LATE
        return camp if parity else -camp

    def drift(self, trial: Trial) -> Iterator[str]:
        yield f"doubles,{self.doubles},,,,\n"
        micros, limit = self.p["pMicroPerCycle"], self.p["pRateCorrectionOut"]
        for node in self.cluster.correct:
            # The first rates make the first lengths equal, so that the clocks are in sync from the beginning.
            first = self.length(trial, node, 0)
            rate = max(-limit, min(limit, (2 * micros * (TICKS - first) + first) // (2 * first)))
            yield f"start,{node},{trial.starts.get(node, 0)},{rate},,\n"
        for node in self.cluster.correct:
            before = None
            for cycle in range(self.cycles):
                ticks = self.length(trial, node, cycle)
                if ticks != before:
                    yield f"length,{node},{cycle},{ticks},,\n"
                before = ticks
        for sender, receiver, channel in self.links():
            before = None
            for cycle in range(self.cycles):
                late = self.heard(trial, receiver, Link(sender, receiver, channel), cycle % 2)
                wait = ranges.compensation(self.p, channel) * TICKS
                ticks = max(0, wait + late * self.p["xDelayError"])
                if ticks != before:
                    yield f"delay,{sender},{receiver},{channel},{cycle},{ticks}\n"
                before = ticks

    def links(self) -> Iterator[Link]:
        for sender in self.cluster.correct:
            if self.cluster.nodes[sender].key_slot is not None:
                for receiver in self.cluster.correct:
                    if receiver != sender:
                        for channel in self.cluster.common(sender, receiver):
                            yield Link(sender, receiver, channel)

    def script(self, trial: Trial) -> Iterator[str]:
        yield from (f"arbitrary,{node},,,,,\n" for node in self.cluster.arbitrary)
        for cycle in range(self.cycles):
            for node in self.cluster.arbitrary:
                for receiver in self.cluster.correct:
                    late = self.said_to(trial, node, receiver, cycle % 2)
                    if late is not None:
                        for channel in self.cluster.common(node, receiver):
                            yield f"say,{cycle},{node},{receiver},{channel},{late * self.shift},\n"

    def judge(self, drift: str, script: str, room: str) -> Report:
        """The report of a run of these two files."""
        paths = [os.path.join(room, f"{name}.csv") for name in ("params", "drift", "script")]
        for path, text in zip(paths, (self.parameters, drift, script)):
            put(path, text, "ascii")
        self.runs += 1
        return read_report(answer(self.program, ["run", *paths]))

    def run(self, trial: Trial, room: str) -> Report:
        return self.judge("".join(self.drift(trial)), "".join(self.script(trial)), room)


def worth(report: Report) -> int:
    """The greatest skew where it is one in sync of a covered run, else nothing."""
    return report.skew if report.gap is None and report.in_sync == 0 else -1


def edge(bench: Bench) -> Edge:
    """One double cycle in which two clocks begin as far apart as `in sync` allows, in their starts
    and in their lengths."""
    cluster, p = bench.cluster, bench.p
    pair = next(((one, other) for one in cluster.correct for other in cluster.correct
                 if one != other and cluster.common(one, other)
                 and (cluster.nodes[one].key_slot or cluster.nodes[other].key_slot)), None)
    if pair is None:
        raise Stop(NO, f"{cluster.path}: no two correct nodes, one of them a sync node, have a channel in common, so there "
                       "are no clocks that could lie apart")
    micros, most = p["pMicroPerCycle"], p["xRateBound"]
    wanted = min(bench.bounds.lambda_, 2 * micros * most)
    apart = wanted // TICKS
    low, high = apart // 2, apart - apart // 2
    near = [TICKS + step for step in range(-min(NEAR, most), min(NEAR, most) + 1)]
    best = max(((micros + high) * slow - (micros - low) * fast, fast, slow) for fast in near for slow in near
               if micros * (TICKS - most) <= (micros - low) * fast and (micros + high) * slow <= micros * (TICKS + most)
               and (micros + high) * slow - (micros - low) * fast <= wanted)
    drift = "doubles,1,,,,\n"
    for node in cluster.correct:
        start, rate = {pair[0]: (0, -low), pair[1]: (bench.bounds.pi, high)}.get(node, (bench.bounds.pi // 2, 0))
        drift += f"start,{node},{start},{rate},,\n"
    drift += "".join(f"length,{node},0,{ticks},,\n" for node, ticks in zip(pair, best[1:]))
    return Edge(drift, "".join(f"arbitrary,{node},,,,,\n" for node in cluster.arbitrary), pair)


def divisions(correct: list[int]) -> Iterator[dict[int, int]]:
    """Each division into early nodes, late ones and the rest, by how many there are."""
    for early in range(1, min(len(correct), MOST_CAMP + 1)):
        for late in range(1, min(len(correct) - early, MOST_CAMP) + 1):
            yield {node: EARLY if at < early else LATE if at >= len(correct) - late else AMID
                   for at, node in enumerate(correct)}


def changed(trial: Trial, bench: Bench, draw: random.Random) -> Trial:
    """The trial with one to three things changed."""
    found, correct, links = copy.deepcopy(trial), bench.cluster.correct, list(bench.links())
    for _ in range(draw.randint(1, 3)):
        node, what = draw.choice(correct), draw.random()
        if what < 0.3:
            found.starts[node] = draw.randint(0, START)
        elif what < 0.6:
            found.off[node] = draw.randint(0, min(NEAR, bench.p["xRateBound"]))
        elif what < 0.8 and links:
            found.links[LinkIn(*draw.choice(links), draw.randint(0, 1))] = draw.choice((EARLY, AMID, LATE))
        elif what < 0.95 and bench.cluster.arbitrary:
            late = draw.choice((EARLY, LATE, None))
            found.said[SaidTo(draw.choice(bench.cluster.arbitrary), node, draw.randint(0, 1))] = late
        else:
            found.camps[node] = draw.choice((EARLY, AMID, LATE))
    return found


def climb(bench: Bench, begin: Best, budget: int, seed: int, until: float, room: str, stop: threading.Event) -> Best:
    """The best that is found from a begin on: a change is kept where it is no worse than now, less an allowance that falls to
    nothing as the runs go on."""
    draw, best, now = random.Random(seed), begin, begin
    for turn in range(budget):
        if time.monotonic() > until or stop.is_set():
            break
        trial = changed(now.trial, bench, draw)
        skew = worth(bench.run(trial, room))
        if skew >= now.skew - TICKS // 2 * (budget - turn) // budget and skew >= 0:
            now = Best(skew, trial)
        if skew > best.skew:
            best = Best(skew, trial)
    return best


def by_hand(bench: Bench, until: float, most: int) -> Best | None:
    """The best division into camps, with limits everywhere."""
    best: Best | None = None
    with tempfile.TemporaryDirectory() as room:
        for camps in divisions(bench.cluster.correct):
            if bench.runs > most or time.monotonic() > until:
                break
            trial = Trial(camps)
            skew = worth(bench.run(trial, room))
            if skew > (best.skew if best else -1):
                best = Best(skew, trial)
    return best


def who(bench: Bench, trial: Trial) -> Iterator[str]:
    """What each node is in the worst run, in the units of a bench."""
    unit = bench.cluster.microtick_ns
    for node in bench.cluster.correct:
        first, last = (bench.length(trial, node, cycle) for cycle in (0, bench.cycles - 1))
        yield (f"node {bench.cluster.called(node)}: {CAMPS[trial.camps[node]]}; its oscillator is off by "
               f"{signed(ppm_of(first), 2)} ppm at first and {signed(ppm_of(last), 2)} ppm in the last cycle; it starts "
               f"{microseconds(trial.starts.get(node, 0), unit)} late\n")
        for parity, name in ((0, "even"), (1, "odd")):
            heard = sorted((link[0], link[2], bench.heard(trial, node, link, parity)) for link in bench.links()
                           if link[1] == node)
            told = ", ".join(f"node {sender} on {channel} {CAMPS[late]}" for sender, channel, late in heard)
            yield f"  hears in {name} cycles: {told or 'nobody'}\n"
            for arbitrary in bench.cluster.arbitrary:
                late = bench.said_to(trial, arbitrary, node, parity)
                yield (f"  is told in {name} cycles by node {arbitrary}: "
                       + ("nothing\n" if late is None else f"{CAMPS[late]} by {microseconds(bench.shift, unit)}\n"))


def judged(bench: Bench, drift: str, script: str) -> Report:
    """The report of a run of these two files."""
    with tempfile.TemporaryDirectory() as room:
        return bench.judge(drift, script, room)


def write(bench: Bench, folder: str, drift: str, script: str, told: str) -> None:
    """Writes the files of a run."""
    make_folder(folder)
    for name, text in (("params.csv", bench.parameters), ("drift.csv", drift), ("script.csv", script), ("who.txt", told)):
        keep(folder, name, text)


def side_by_side(seeds: range, work: Callable[[int, str, threading.Event], Best]) -> list[tuple[int, Best]]:
    """What comes of each seed, each in a thread and a folder of its own. ^C ends this, whatever the threads do: they look for it,
    and what they still write is away with the folder."""
    found: list[tuple[int, Best]] = []
    faults: list[BaseException] = []
    stop = threading.Event()
    with tempfile.TemporaryDirectory(ignore_cleanup_errors=True) as room:
        def one(seed: int) -> None:
            try:
                place = os.path.join(room, str(seed))
                make_folder(place)
                found.append((seed, work(seed, place, stop)))
            except BaseException as fault:  # pylint: disable=broad-except
                faults.append(fault)
                stop.set()

        threads = [threading.Thread(target=one, args=(seed,), daemon=True) for seed in seeds]
        try:
            for thread in threads:
                thread.start()
            for thread in threads:
                thread.join()
        except BaseException:
            stop.set()
            end = time.monotonic() + 0.5
            for thread in threads:
                thread.join(max(0, end - time.monotonic()))
            raise
    if faults:
        raise faults[0]
    return found


def search(cluster: Cluster, program: str, words: Namespace) -> tuple[Bench, Best | None, Best | None]:
    """(bench, by hand, best): the searched cluster with its best division and the best run that was found."""
    bench = Bench(cluster, program, words.double_cycles)
    until = time.monotonic() + words.seconds
    hand = by_hand(bench, until, words.runs)
    if hand is None:
        return bench, hand, hand
    budget, begin = max(0, words.runs - bench.runs), hand

    def work(seed: int, room: str, stop: threading.Event) -> Best:
        return climb(bench, begin, budget, seed, until, room, stop)

    found = side_by_side(range(words.seed, words.seed + words.jobs), work)
    # Of equals it is that of the first seed, whichever thread is done first.
    return bench, hand, max(sorted(found, key=lambda one: one[0]), key=lambda one: one[1].skew)[1]


def check_words(words: Namespace) -> None:
    for name, value, least, most in (("runs", words.runs, 1, 1000000), ("seconds", words.seconds, 1, 1000000),
                                     ("jobs", words.jobs, 1, 256), ("double-cycles", words.double_cycles, 2, 1000)):
        if not least <= value <= most:
            raise Stop(USAGE, f"--{name} {value}: it has to be from {least} to {most}")


def left_out(cluster: Cluster) -> tuple[str, ...]:
    return ("nodes that join: here all nodes run from cycle 0",) if cluster.joins else ()


def worst(cluster: Cluster, folder: str, program: str, words: Namespace) -> int:
    check_words(words)
    begin, unit, first = time.monotonic(), cluster.microtick_ns, Bench(cluster, program, 1)
    if first.bounds.failing:
        named = ", ".join(f"C{check.number}" for check in first.bounds.failing)
        raise Stop(NO, f"{cluster.path}: {named} of the classical bound fails, so no run of this cluster is covered by it, and "
                       "the search is of such runs: `flexlab run` tells what it asks for, and of the precision")
    drift, script, pair = edge(first)
    told = (f"nodes {pair[0]} and {pair[1]} begin as far apart as `in sync` allows: their starts by pi, the lengths of their "
            "cycles by lambda, as near as whole ticks come to it. There is one double cycle.\n")
    report = judged(first, drift, script)
    if report.gap is not None:
        raise Stop(NO, f"{cluster.path}: no run of this cluster is covered: " + "; ".join(gap_words(report.gap, cluster)))
    bench, hand, best = search(cluster, program, words)
    page = lines_of("Classical bound", f"{microseconds(report.precision, unit)} ({report.precision} ticks), which no macroticks of "
                                       "correct nodes lie further apart than in sync: that is proved")
    page += lines_of("Edge of sync", *edge_words(first, report))
    if best is None or hand is None:
        page += lines_of("Worst found", "nothing: no candidate was covered and in sync from the beginning")
    else:
        page += lines_of("By hand", f"{microseconds(hand.skew, unit)}, {percent(hand.skew, report.precision)}: the best division "
                                    "of the nodes into camps, with limits everywhere")
        found = "".join(bench.drift(best.trial)), "".join(bench.script(best.trial))
        kept = judged(bench, *found)
        write(bench, os.path.join(folder, "kept"), *found, "".join(who(bench, best.trial)))
        page += lines_of("Worst found", f"{microseconds(kept.skew, unit)}, {percent(kept.skew, kept.precision)} (cycle "
                                        f"{kept.cycle}, macrotick {kept.macrotick}): clocks that begin together, and are "
                                        "driven apart")
    for line in left_out(cluster):
        page += lines_of("Left out", line)
    page += lines_of("Origin", "Each skew is one that flexray run printed of a run that it calls covered and in sync from "
                               "double cycle 0 on. A search proves nothing: there may be a worse run, up to the precision.")
    text = "\n".join(page) + "\n"
    write(first, os.path.join(folder, "edge"), drift, script, told)
    keep(folder, "worst.txt", text)
    print(text, end="")
    print(f"{'Search':<16}{first.runs + bench.runs} runs of flexray in {time.monotonic() - begin:.1f} s, seed {words.seed}")
    print(f"{'Files':<16}{folder}/edge and {folder}/kept: params.csv, drift.csv, script.csv, who.txt")
    return DONE


def edge_words(bench: Bench, report: Report) -> Iterator[str]:
    unit, p = bench.cluster.microtick_ns, bench.p
    yield (f"{microseconds(report.skew, unit)}, {percent(report.skew, report.precision)} (cycle {report.cycle}, macrotick "
           f"{report.macrotick}): clocks that begin as far apart as `in sync` allows")
    reach = 2 * p["pMicroPerCycle"] * p["xRateBound"]
    if reach < bench.bounds.lambda_:
        need = -(-bench.bounds.lambda_ // (2 * p["pMicroPerCycle"]))
        yield (f"oscillators within {p['xRateBound']} ticks (about ppm) cannot make lengths differ by lambda: it takes "
               f"{need} for that, so the bound is out of reach here")
