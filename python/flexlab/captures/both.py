"""Two logs of one history: what both limit of one number has to meet. Where it does not, something that is stated of an analyzer is
false: no history gives both logs. This is code of flexlab, tested and not proved. Lengths of cycles and offset terms are those that
flexray printed; distances of action points, which it does not print, follow here from the stamps of the logs."""
from __future__ import annotations

import os
from argparse import Namespace
from collections.abc import Iterator
from dataclasses import dataclass, field
from itertools import combinations, zip_longest
from typing import Any, NamedTuple

from flexray.results import ObservedNode

from ..base.ending import NO, REFUSED, Stop
from ..base.files import hold, make_folder, parameter_lines
from ..base.units import TICKS, us_of_ticks
from ..pages.machine import printed
from ..pages.page import field as lines_of
from ..program import calls as programs
from ..runs.runs import keep
from ..toml.cluster import Cluster, read_cluster
from .observed import MOST_FAULTS, lower, upper
from .numbering import COUNTS, frames_of, numbered, text_of
from .observer import End, plain
from .observing import Part, Seen, least_judged, parts_object, seen_in

# The second log's files, in the folder of the first.
SECOND = "second"
ORIGIN = ("Lengths and offset terms are those that flexray printed. Distances of action points are reckoned by flexlab, from the "
          "stamps and from the limits of delays: that is tested, and not proved.")
KINDS = {"distance": "distances of action points", "length": "lengths of cycles", "offset": "offset terms",
         "change": "changes of lengths"}


class Interval(NamedTuple):
    """From the least to the greatest that a number can be."""
    low: int
    high: int

    @property
    def is_some(self) -> bool:
        return self.low <= self.high

    def meets(self, other: Interval) -> bool:
        return self.low <= other.high and other.low <= self.high


class Subject(NamedTuple):
    """Whose numbers of a kind are held: a node's, or those of a pair of nodes."""
    kind: str
    node: int
    other: int | None = None


class Apart(NamedTuple):
    """A number of a cycle that the logs limit otherwise, with its limits by both."""
    subject: Subject
    cycle: int
    one: Interval
    two: Interval


@dataclass
class Course:
    """What became of the numbers of a subject, in the order of cycles: how many were held, how many met before the first one that did
    not, and those that did not."""
    held: int = 0
    before: int = 0
    apart: list[Apart] = field(default_factory=list)

    def add(self, number: Apart) -> None:
        self.held += 1
        if not number.one.meets(number.two):
            self.apart.append(number)
        elif not self.apart:
            self.before += 1


def up(number: int, by: int) -> int:
    """A quotient, rounded up."""
    return -(-number // by)


class Clock:
    """Readings of an analyzer's clock beside ticks, rounded outwards."""

    def __init__(self, drift: int) -> None:
        self.drift = drift

    def least(self, ticks: int) -> int:
        """The least reading that so many ticks are."""
        return ticks * (TICKS + self.drift if ticks < 0 else TICKS - self.drift) // TICKS

    def most(self, ticks: int) -> int:
        return -self.least(-ticks)

    def ticks(self, low: int, high: int) -> Interval:
        """How many ticks readings from one to another are."""
        return Interval(up(low * TICKS, TICKS - self.drift if low < 0 else TICKS + self.drift),
                        high * TICKS // (TICKS + self.drift if high < 0 else TICKS - self.drift))


class Witness:
    """A log, with the numbers of its cycles, and what it limits."""

    def __init__(self, cluster: Cluster, part: Part) -> None:
        self.cluster, self.part, self.text = cluster, part, text_of(os.path.join(part.folder, "log.csv"))
        self.clock, self.rows = Clock(self.text.drift), {(row.double, row.node): row for row in part.told.nodes}
        # The first stamp of a node in a cycle, by channel.
        self.stamps: dict[tuple[int, int], dict[str, int]] = {}
        self.frames: dict[End, list[int]] = {}
        # By cycle the nodes whose clock it shows, in the order of their slots.
        self.shown: dict[int, list[int]] = {}
        self.number_frames()
        for cycle, node in sorted(self.stamps, key=lambda at: (at[0], cluster.nodes[at[1]].key_slot)):
            if (cycle // 2, node) in self.rows:
                self.shown.setdefault(cycle, []).append(node)
        for row in part.told.senders:
            ours = self.frames.get(End(row.node, row.channel), [])
            if (row.frames, row.first, row.last) != (len(ours), ours[0] if ours else None, ours[-1] if ours else None):
                raise ValueError(f"{part.folder}: flexray numbers the frames of node {row.node} on channel {row.channel} otherwise")

    def number_frames(self) -> None:
        """Gives frames the numbers of their cycles, as flexray does."""
        for frame, number in numbered(self.cluster, self.text.unit, frames_of(self.cluster, self.text, self.part.told.log.damaged > 0)):
            if number is not None:
                self.stamps.setdefault((number, frame.node), {}).setdefault(frame.channel, frame.stamp)
                self.frames.setdefault(End(frame.node, frame.channel), []).append(number)

    def place(self, cycle: int, node: int) -> Interval:
        """Between which readings a node's action point lies, by all channels: flexray's `channels`, where that is empty."""
        text, ways = self.text, list[Interval]()
        for channel, stamp in self.stamps[cycle, node].items():
            low, high = text.limits[End(node, channel)]
            at = text.unit * stamp
            ways.append(Interval(at - self.clock.most(high), at + text.unit + text.error - self.clock.least(low)))
        return Interval(max(way.low for way in ways), min(way.high for way in ways))

    def distances(self, cycle: int, nodes: list[int]) -> Iterator[Interval]:
        """How much later the action point of the second of each two nodes lies, in ticks."""
        for one, two in combinations([self.place(cycle, node) for node in nodes], 2):
            yield self.clock.ticks(two.low - one.high, two.high - one.low)

    def length(self, row: ObservedNode) -> Interval:
        return self.clock.ticks(row.length_low, row.length_high)

    def offset(self, row: ObservedNode) -> Interval | None:
        return None if row.offset_low is None or row.offset_high is None else Interval(row.offset_low, row.offset_high)

    def change(self, row: ObservedNode) -> Interval | None:
        """How much longer the even cycle of the next double cycle is, where that is known, in ticks."""
        onward = self.rows.get((row.double + 1, row.node))
        return None if onward is None else self.clock.ticks(onward.length_low - row.length_high, onward.length_high - row.length_low)


# ---- two logs


def numbers(one: Witness, two: Witness, shift: int) -> Iterator[Apart]:
    """All numbers of a history that both logs limit, by the cycles of the first; those of the second are so many less."""
    for cycle, shown in one.shown.items():
        there = two.shown.get(cycle - shift, ())
        nodes = [node for node in shown if node in there]
        both = zip(one.distances(cycle, nodes), two.distances(cycle - shift, nodes))
        for pair, limits in zip(combinations(nodes, 2), both):
            yield Apart(Subject("distance", *pair), cycle, *limits)
    for (double, node), row in one.rows.items():
        if beside := two.rows.get((double - shift // 2, node)):
            yield Apart(Subject("length", node), 2 * double, one.length(row), two.length(beside))
            for kind, first, second in (("offset", one.offset(row), two.offset(beside)), ("change", one.change(row), two.change(beside))):
                if first and second:
                    yield Apart(Subject(kind, node), 2 * double + 1, first, second)


def held(one: Witness, two: Witness, shift: int) -> dict[Subject, Course]:
    """What became of each number, by its subject. What a log contradicts by itself is not held against the other one."""
    found: dict[Subject, Course] = {}
    for number in numbers(one, two, shift):
        if number.one.is_some and number.two.is_some:
            found.setdefault(number.subject, Course()).add(number)
    return found


def other_shift(one: Witness, two: Witness, taken: int) -> int | None:
    """By how many cycles the second log may be behind instead, where at least half of the shorter one then is in both and no offset
    term of these is apart."""
    first, second = ({key: Interval(row.offset_low, row.offset_high) for key, row in log.rows.items()
                      if row.offset_low is not None and row.offset_high is not None} for log in (one, two))
    if not first or not second:
        return None
    begins, ends = [min(log)[0] for log in (first, second)], [max(log)[0] for log in (first, second)]
    wanted, half = min(end - begin for begin, end in zip(begins, ends)) / 2, COUNTS // 2
    for turn in sorted(range(up(begins[0] - ends[1], half), (ends[0] - begins[1]) // half + 1), key=abs):
        common = min(ends[0], ends[1] + half * turn) - max(begins[0], begins[1] + half * turn)
        if COUNTS * turn != taken and common >= wanted and all(
                limits.meets(second.get((double - half * turn, node), limits)) for (double, node), limits in first.items()):
            return COUNTS * turn
    return None


# ---- in words


def plural(count: int, word: str) -> str:
    return f"{count} {word}" + ("s" if count != 1 else "")


def count_text(courses: dict[Subject, Course]) -> str:
    """How many numbers are held, by their kinds."""
    counts = {kind: sum(course.held for subject, course in courses.items() if subject.kind == kind) for kind in KINDS}
    return ", ".join(f"{count} {KINDS[kind]}" for kind, count in counts.items())


def limits_text(cluster: Cluster, number: Apart) -> str:
    """What both logs say of a number."""
    def us(limits: Interval) -> str:
        low, high = (us_of_ticks(ticks, cluster.microtick_ns) for ticks in limits)
        return f"{lower(low)} to {upper(high)} us"
    subject, node = number.subject, cluster.called(number.subject.node)
    if subject.other is not None:
        return (f"cycle {number.cycle}, nodes {node} and {cluster.called(subject.other)}: their action points are {us(number.one)} "
                f"apart, and by the second log {us(number.two)}")
    if subject.kind == "length":
        return f"cycle {number.cycle}, node {node}: its cycles last {us(number.one)}, and by the second log {us(number.two)}"
    if subject.kind == "change":
        return f"cycle {number.cycle}, node {node}: its cycles get longer by {us(number.one)}, and by the second log {us(number.two)}"
    return (f"cycle {number.cycle}, node {node}: an offset term of {number.one.low} to {number.one.high} microticks, and by the second "
            f"log of {number.two.low} to {number.two.high}")


def course_text(course: Course) -> str:
    """How often the logs limit such a number otherwise, and whether they once did not."""
    text = f"so {len(course.apart)} of {course.held} times"
    return text + (f"; before that they met {plural(course.before, 'time')}" if course.before else "; they never met before")


def culprits(courses: dict[Subject, Course]) -> list[int]:
    """The nodes that have part in every number that is apart, and not in each that could be."""
    apart = [subject for subject, course in courses.items() if course.apart]
    nodes = {node for subject in courses for node in (subject.node, subject.other) if node is not None}
    return sorted(node for node in nodes if apart and len(nodes) > 2 and all(node in (subject.node, subject.other) for subject in apart))


class Told(NamedTuple):
    """What two logs come to, of the parts of this number: what is held, and another shift at which no offset term would be apart."""
    number: int
    courses: dict[Subject, Course]
    instead: int | None

    @property
    def apart(self) -> list[Course]:
        """Those that are apart somewhere, the first of them first."""
        return sorted((course for course in self.courses.values() if course.apart), key=lambda course: course.apart[0].cycle)


def both_lines(cluster: Cluster, told: list[Told], shift: int) -> list[str]:
    """The page of two logs."""
    if not told:
        return lines_of("Both", "nothing is held: the logs have not as many parts; cut the files")
    found = list[str]()
    for part in told:
        found += lines_of("Part", f"{part.number} of {len(told)} of both logs") if len(told) > 1 else []
        found += told_lines(cluster, part, shift)
    return found + lines_of("Origin", ORIGIN)


def told_lines(cluster: Cluster, told: Told, shift: int) -> list[str]:
    """What the logs of two parts come to."""
    courses, apart = told.courses, told.apart
    found = lines_of("Both", f"{count_text(courses)} are limited by both logs"
                     + (f", where {shift} is added to the cycles of the second" if shift else ""))
    if not courses:
        return found + lines_of("Together", "nothing is held: no double cycle is in both logs; --shift states how much later the second "
                                            "one begins than its cycle counts say")
    if not apart:
        return found + lines_of("Together", "both may be logs of one history: what they limit meets")
    some = [f"{limits_text(cluster, course.apart[0])}; {course_text(course)}" for course in apart[:MOST_FAULTS]]
    if len(apart) > MOST_FAULTS:
        some.append(f"and {len(apart) - MOST_FAULTS} more, in both.csv")
    found += lines_of("APART", *some)
    if nodes := culprits(courses):
        found += lines_of("Which", f"node{'s' * (len(nodes) > 1)} {', '.join(map(cluster.called, nodes))} " + (
            "has part in all of that" if len(nodes) == 1 else "have part in all of that"))
    if told.instead is not None:
        found += lines_of("Shift", f"with --shift {told.instead} no offset term would be apart")
    began = any(course.before for course in apart)
    return found + lines_of(
        "Together", "NO: no history of this cluster gives both logs, if what is stated of both analyzers is so and their cycles are paired "
        "as they are. A node may send each analyzer something else, or a limit of a delay, a drift, an error or the cluster itself is wrong"
        + ("; some of it met before, so it changed, unless it lies at the edge of its limits" if began else ""))


# ---- the request


def both_rows(told: list[Told]) -> Iterator[str]:
    """A line for each number that is apart."""
    yield "part,kind,cycle,node,other,least,most,second_least,second_most\n"
    for part in told:
        for course in part.apart:
            for (kind, node, other), cycle, one, two in course.apart:
                yield ",".join(map(str, (part.number, kind, cycle, node, "" if other is None else other, *one, *two))) + "\n"


def both_object(told: list[Told], shift: int) -> dict[str, Any]:
    """Two logs as an object: names stand in docs/FLEXLAB.md, "For machines"."""
    return {"shift": shift, "parts": [{
        "held": {kind: sum(course.held for subject, course in part.courses.items() if subject.kind == kind) for kind in KINDS},
        "apart": [{"kind": course.apart[0].subject.kind, "node": course.apart[0].subject.node, "other": course.apart[0].subject.other,
                   "cycle": course.apart[0].cycle, "least": course.apart[0].one.low, "most": course.apart[0].one.high,
                   "second_least": course.apart[0].two.low, "second_most": course.apart[0].two.high,
                   "times": len(course.apart), "of": course.held, "met_before": course.before} for course in part.apart],
        "nodes": culprits(part.courses), "other_shift": part.instead} for part in told]}


def hold_both(one: Seen, two: Seen, shift: int) -> list[Told]:
    """What both files come to, part by part; nothing, where they have not as many."""
    found = []
    for number, parts in enumerate(zip(one.parts, two.parts) if len(one.parts) == len(two.parts) else (), 1):
        first, second = (Witness(seen.cluster, part) for seen, part in zip((one, two), parts))
        courses = held(first, second, shift)
        is_apart = any(course.apart for course in courses.values())
        found.append(Told(number, courses, other_shift(first, second, shift) if is_apart else None))
    return found


def same_cluster(one: Cluster, two: Cluster) -> None:
    """Ends flexlab where both files have other parameters or nodes, or microticks of another length: ticks are parts of these."""
    for first, second in zip_longest(parameter_lines(one), parameter_lines(two), fillvalue="nothing"):
        if first != second:
            raise Stop(REFUSED, f"{two.path}: it is another cluster than that of {one.path}: {second.strip()} where that one has "
                                f"{first.strip()}")
    if one.microtick_ns != two.microtick_ns:
        raise Stop(REFUSED, f"{two.path}: it is another cluster than that of {one.path}: a microtick of {plain(two.microtick_ns)} ns "
                            f"where that one has {plain(one.microtick_ns)} ns")


def observe_both(words: Namespace, folder: str) -> int:
    """Observes two files, and holds them against each other."""
    wanted, shift, (capture, toml) = least_judged(words.require), words.shift or 0, words.second
    program, one, two = programs.flexray(words.flexray), read_cluster(words.cluster), read_cluster(toml)
    same_cluster(one, two)
    hold(folder)
    place = os.path.join(folder, SECOND)
    make_folder(place)
    first = seen_in(program, one, words, folder)
    second = seen_in(program, two, Namespace(**{**vars(words), "file": capture, "cluster": toml}), place)
    told = hold_both(first, second, shift)
    lines = both_lines(one, told, shift)
    keep(folder, "both.csv", "".join(both_rows(told)))
    keep(folder, "both.txt", "\n".join(lines) + "\n")
    drawn = first.drawn() + second.drawn() if words.pictures else []
    if words.json:
        printed({**parts_object(one, first.parts), "folder": folder, "pictures": drawn,
                 "second": {**parts_object(two, second.parts), "folder": place}, "both": both_object(told, shift)})
    else:
        print("\n".join([*first.page, "", *lines_of("Second log", capture), *second.page, "", *lines]))
        print(f"{'Files':<16}{folder}/: {first.files}, both.csv, both.txt; {SECOND}/: {second.files}")
        for path in drawn:
            print(f"{'Picture':<16}{path}")
    is_held = told and all(part.courses and not part.apart for part in told)
    statuses = [seen.status(wanted) for seen in (first, second)]
    return NO if NO in statuses or not is_held else max(statuses)
