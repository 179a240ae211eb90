"""What calls answer. All times are in ticks, a millionth of a nominal microtick, where nothing else is said; each answer has
the text as the program prints it, which `print(answer.text, end="")` shows."""
from __future__ import annotations

from collections.abc import Iterator, Sequence
from dataclasses import dataclass, field
from typing import NamedTuple, overload

__all__ = ["Check", "Bound", "SharpSide", "SharpBound", "LostBound", "Skew", "Sent", "Heard", "NodeEnd", "Report", "Losses",
           "Fluttering", "SharpReport", "SeriesCycle", "SeriesCycles", "Series", "SharpSeries", "CycleRow", "Deviation", "Join",
           "Trace", "Verdict", "SharpVerdict", "Failing", "Failure", "ObservedCycle", "ObservedNode", "ObservedFault",
           "ObservedMissed", "ObservedSender", "ObservedSpread", "LogCounts", "Observation", "FailedCheck", "Settled", "SharpWay",
           "SharpSettled", "PowerOn", "Lead", "Startup", "Frame", "CapturedFrame", "Capture", "Vector", "Vectors", "Upgraded"]


@dataclass(frozen=True)
class Check:
    """A check of a cluster, C1 to C9: it holds where `left` is enough for `right`. Sides of C4, C5, C8 and C9 are ticks times
    macroticks, all others ticks."""

    number: int
    holds: bool
    left: int
    right: int


@dataclass(frozen=True)
class Bound:
    """The bounds of a cluster (docs/PRECISION.md), with `reach` where it was asked for nodes that join."""

    text: str = field(repr=False)
    y1: int
    lambda_: int
    pi: int
    precision: int
    checks: tuple[Check, ...]
    reach: int | None = None

    @property
    def failing(self) -> tuple[Check, ...]:
        return tuple(check for check in self.checks if not check.holds)


@dataclass(frozen=True)
class SharpSide:
    """The sharper bounds of runs without arbitrary sync nodes, `alone`, or beside such nodes."""

    lambda_: int
    pi: int
    precision: int
    checks: tuple[Check, ...]
    reach: int | None = None

    @property
    def failing(self) -> tuple[Check, ...]:
        return tuple(check for check in self.checks if not check.holds)


@dataclass(frozen=True)
class SharpBound:
    """The sharper bounds where delays flutter by at most `flutter`. `lasts` is for how many double cycles they hold, None
    where they do on and on. Where `joins`, each side has its reach and the checks from 6 to 9 too, and `first_rates_last` is
    for how many double cycles the rate limit suffices for the rate that a node begins to follow with, None for on and on."""

    text: str = field(repr=False)
    flutter: int
    alone: SharpSide
    beside: SharpSide
    lasts: int | None
    joins: bool = False
    first_rates_last: int | None = None


@dataclass(frozen=True)
class LostBound:
    """How far clocks come apart where any frames are lost in `lost` double cycles in a row, and all is heard in each later one;
    without arbitrary sync nodes. `apart` is by double cycle, up to `back`, from which on it is `precision`. `crossing` is for as many
    odd cycles and the even ones behind them, and `crossing_holds` whether the checks from 3 to 5 hold for that. `every_second` is for
    ever, where all is heard in one of any two in a row, and `every_second_holds` whether the checks from 3 to 5 hold for that.
    `meeting` is for ever too, where each node misses the frames of `missed` other sync nodes at most in each double cycle and none
    is damaged, and `meeting_holds` whether these checks hold for that. `longest` is how many in a row they bear, None where they
    fail though nothing is lost; `lasts` is by the walk of lengths alone, so a number where `SharpBound` has None since the walk is
    held."""

    text: str = field(repr=False)
    flutter: int
    lost: int
    lambda_: int
    pi: int
    precision: int
    apart: tuple[int, ...]
    peak: int
    reach: int
    checks: tuple[Check, ...]
    lasts: int | None
    back: int
    crossing: int
    crossing_holds: bool
    every_second: int
    every_second_holds: bool
    meeting: int
    missed: int
    meeting_holds: bool
    longest: int | None

    @property
    def failing(self) -> tuple[Check, ...]:
        return tuple(check for check in self.checks if not check.holds)


@dataclass(frozen=True)
class Skew:
    """How far nodes lie apart at most: the ticks, and the first cycle and macrotick at which they do."""

    ticks: int
    cycle: int
    macrotick: int


@dataclass(frozen=True)
class Sent:
    """The frames of a channel: how many correct nodes sent, and the exclusive or of their frame CRCs."""

    frames: int
    xor: int


@dataclass(frozen=True)
class Heard:
    """The answers of correct nodes to frames that came to them, by what became of these (docs/FORMATS.md)."""

    stored: int
    outside: int
    damaged: int
    id: int
    cycle: int
    length: int
    plain: int


@dataclass(frozen=True)
class NodeEnd:
    """A node behind the last cycle: its state, the start of the cycle that would come next, its terms in microticks."""

    node: int
    state: str
    next: int
    rate: int
    offset: int


@dataclass(frozen=True)
class Report:
    """The report of a run. `gap` is empty where the run is covered, else the words of the first gap, as `("check", "1",
    "999801", "1500300")`. `in_sync` is the first double cycle in sync, None where none is."""

    text: str = field(repr=False)
    nodes: int
    sync: int
    arbitrary: int
    doubles: int
    precision: int
    covered: bool
    gap: tuple[str, ...]
    in_sync: int | None
    greatest: Skew
    sent_a: Sent
    sent_b: Sent
    heard: Heard
    cut: int
    ends: tuple[NodeEnd, ...]


class Losses(NamedTuple):
    """What a run loses from its first double cycle in sharp sync on, and in all of it where there is none: in how many double cycles,
    and the last one. `bound` is the greatest bound of a double cycle, and `double` the first with it: in the `lasts` double cycles from
    the first in sharp sync on no skew is above the bound of its own. Both are None where the run is not covered through losses. (`lost`
    of a series is something else: where sync is lost.)"""

    doubles: int
    last: int | None
    bound: int | None
    double: int | None


class Fluttering(NamedTuple):
    """Where delays flutter most: the delay of the `sender`'s frames at the `receiver` on a `channel`, and `double`, the last double cycle
    in which one flutters so; of several delays in it the first."""

    sender: int
    receiver: int
    channel: str
    double: int


@dataclass(frozen=True)
class SharpReport:
    """What the sharper bounds say of a run, and its report. `kind` is `alone` or `beside`. `in_sync` is the first double cycle in sync,
    by the bounds for the flutter from itself on, None where none is. All else is of the double cycles from that one on, and of the whole
    run where there is none: `flutter`, with its place `fluttering`, None where it is 0; `gaps`, with the words of each gap that is told,
    and empty where the run is covered; `lasts`, for how many double cycles something is proved if the run is covered or has a bound
    through losses, None where to the end, and where `in_sync` is None. `greatest` is the greatest skew since then, `within` whether none
    was above the precision, None where none is in sync, and `beyond` the first that was."""

    text: str = field(repr=False)
    flutter: int
    precision: int
    kind: str
    covered: bool
    gaps: tuple[tuple[str, ...], ...]
    in_sync: int | None
    lasts: int | None
    greatest: Skew | None
    within: bool | None
    beyond: Skew | None
    losses: Losses
    report: Report
    fluttering: Fluttering | None = None


class SeriesCycle(NamedTuple):
    """A cycle of a series: whether its double cycle is in sync, and its greatest skew, which is 0 at macrotick 0 where no node
    runs. `sharp` is whether it is in sharp sync; `heard` is `all` if from each sync node to each other node one channel carries those of
    both cycles, else the worse of offsets and rates: `most` if lists meet, `any` if it is poor, and `all` if nothing is missed but
    frames of nodes that join, or at them, too early to count; `bound` its number in ticks where the run is covered through losses:
    in the double cycles that are promised no skew is above it. It is None before the first one in sharp sync. All three are None in
    a series that was not asked for them."""

    cycle: int
    in_sync: bool
    skew: int
    macrotick: int
    sharp: bool | None = None
    heard: str | None = None
    bound: int | None = None


class SeriesCycles(Sequence[SeriesCycle]):
    """The cycles of a series, one by one; and by its columns, each a tuple with a value of each cycle. `sharp`, `heard` and `bounds`
    are empty in a series that was not asked for them."""

    __slots__ = ("in_sync", "skews", "macroticks", "sharp", "heard", "bounds")

    def __init__(self, in_sync: tuple[bool, ...], skews: tuple[int, ...], macroticks: tuple[int, ...],
                 sharp: tuple[bool, ...] = (), heard: tuple[str, ...] = (), bounds: tuple[int | None, ...] = ()) -> None:
        self.in_sync, self.skews, self.macroticks = in_sync, skews, macroticks
        self.sharp, self.heard, self.bounds = sharp, heard, bounds

    @property
    def columns(self) -> tuple[tuple[bool, ...], tuple[int, ...], tuple[int, ...], tuple[bool, ...], tuple[str, ...],
                               tuple[int | None, ...]]:
        return self.in_sync, self.skews, self.macroticks, self.sharp, self.heard, self.bounds

    def __len__(self) -> int:
        return len(self.skews)

    def __iter__(self) -> Iterator[SeriesCycle]:
        none = [None] * len(self.skews)
        return map(SeriesCycle, range(len(self.skews)), self.in_sync, self.skews, self.macroticks, self.sharp or none, self.heard or none,
                   self.bounds or none)

    @overload
    def __getitem__(self, at: int) -> SeriesCycle: ...

    @overload
    def __getitem__(self, at: slice) -> tuple[SeriesCycle, ...]: ...

    def __getitem__(self, at: int | slice) -> SeriesCycle | tuple[SeriesCycle, ...]:
        places = range(len(self.skews))[at]
        return self._of(places) if isinstance(places, int) else tuple(map(self._of, places))

    def _of(self, cycle: int) -> SeriesCycle:
        return SeriesCycle(cycle, self.in_sync[cycle], self.skews[cycle], self.macroticks[cycle],
                           self.sharp[cycle] if self.sharp else None, self.heard[cycle] if self.heard else None,
                           self.bounds[cycle] if self.bounds else None)

    def __eq__(self, other: object) -> bool:
        return isinstance(other, SeriesCycles) and self.columns == other.columns

    def __hash__(self) -> int:
        return hash(self.columns)

    def __repr__(self) -> str:
        return f"<{len(self)} cycles>"


@dataclass(frozen=True)
class Series:
    """The skew of each cycle. `greatest` is since the first double cycle in sync, `within` whether the skew stayed within the
    precision since then, `beyond` the first cycle and macrotick at which it did not; None where no double cycle is in sync.
    `synced` is whether the last double cycle is in sync, `lost` the one from which on none is."""

    text: str = field(repr=False)
    cycles: SeriesCycles = field(repr=False)
    greatest: Skew | None
    synced: bool
    lost: int | None
    within: bool | None
    beyond: tuple[int, int] | None


@dataclass(frozen=True)
class SharpSeries(Series):
    """A series held against the sharper precision too. `kind` is `alone` or `beside`; `sharp_synced` the first double cycle in
    sharp sync. `flutter` with its place `fluttering`, gaps, losses and figures are of the double cycles from there on, as in a
    `SharpReport`; `lasts` is for how many of them something is proved if the run is covered or has a bound through losses, None where to
    the end, and where `sharp_synced` is None."""

    flutter: int
    precision: int
    kind: str
    sharp_covered: bool
    sharp_gap: tuple[str, ...]
    sharp_synced: int | None
    lasts: int | None
    sharp_greatest: Skew | None
    sharp_within: bool | None
    sharp_beyond: tuple[int, int] | None
    losses: Losses
    fluttering: Fluttering | None = None


class CycleRow(NamedTuple):
    """A cycle of a node: its start and the length of its microtick in ticks, its terms in microticks, its state."""

    cycle: int
    node: int
    start: int
    length: int
    rate: int
    offset: int
    state: str


class Deviation(NamedTuple):
    """What a node measured of the sync frame of a slot, in microticks; above 0 it came late."""

    cycle: int
    receiver: int
    slot: int
    channel: str
    microticks: int


@dataclass(frozen=True)
class Join:
    """A node that joins: it listens to its reference in this double cycle."""

    node: int
    reference: int
    double: int


@dataclass(frozen=True)
class Trace:
    """What each node did and measured, cycle by cycle. `text` is a trace file, which `check` takes."""

    text: str = field(repr=False)
    doubles: int
    arbitrary: tuple[int, ...]
    joins: tuple[Join, ...]
    cycles: tuple[CycleRow, ...] = field(repr=False)
    deviations: tuple[Deviation, ...] = field(repr=False)


@dataclass(frozen=True)
class Verdict:
    """Whether a trace is lawful and covered. Where it is not, `line` says why: the record that breaks a law, or the first gap;
    `record` is the number of that record, None of a gap, and the other fields are None."""

    text: str = field(repr=False)
    passes: bool
    line: str = ""
    record: int | None = None
    nodes: int | None = None
    arbitrary: int | None = None
    doubles: int | None = None
    precision: int | None = None
    in_sync: int | None = None
    greatest: Skew | None = None


@dataclass(frozen=True)
class SharpVerdict:
    """What the sharper bounds promise of a recorded trace. `kind` is `alone`, `alike` or `beside`; `checks` are the first three of that
    kind. `in_sync` is the first double cycle in sync with each length in its range, None where none is, and `lasts` for how many from
    there on that is promised, None where to the end, and where `in_sync` is None. `unlike` is the first double cycle from there on in
    which an arbitrary node is not alike, None of other kinds. `greatest` is the greatest skew since then, `within` whether none was
    above the precision, None where none is in sync, and `beyond` the first that was. Where the trace does not pass, `line` says why, as
    of a `Verdict`, `record` is the number of the record that breaks a law, and the other fields are None."""

    text: str = field(repr=False)
    passes: bool
    line: str = ""
    record: int | None = None
    flutter: int | None = None
    kind: str | None = None
    precision: int | None = None
    checks: tuple[Check, ...] | None = None
    in_sync: int | None = None
    lasts: int | None = None
    unlike: int | None = None
    greatest: Skew | None = None
    within: bool | None = None
    beyond: Skew | None = None


@dataclass(frozen=True)
class Failing:
    """A line of an answer that says that something does not hold: a check, of the bounds of a `side` (`alone`, `beside`, or empty
    where it is of both or the older ones) and, where `is_way`, of the way to sync; the first gap of a run, as in a report; or the
    fault of a recording."""

    line: str
    check: FailedCheck | None = None
    side: str = ""
    is_way: bool = False
    gap: tuple[str, ...] = ()
    fault: str | None = None


@dataclass(frozen=True)
class Failure:
    """A line on standard error (docs/FORMATS.md). `role` is which file it is about, empty where none is; `kind` one of `usage`,
    `read fault`, `too long`, `write fault`, `no memory`, `record`, `missing`, `constraint`, `incomplete`, `frame`, `breach` and
    `gap`.

    `number` is that of a record or a constraint, or after how many records rows are missing. `words` has the reason of a refused
    record; the name that is missing; the fault of a frame, as `("length", "12", "9")`; the law that a record of a trace breaks, as
    `("deviation", "99", "-6", "4")`; or a gap, as in a report.
    """

    line: str
    kind: str
    role: str = ""
    number: int | None = None
    words: tuple[str, ...] = ()


@dataclass(frozen=True)
class ObservedCycle:
    """A cycle by a log: at some macrotick the clocks of so many senders lie at least `low` ticks apart, and at none
    more than `high`, None where nothing limits it. `says` is `over` where `low` is above the precision, else `within`
    where `high` is at most the precision, else `open`."""

    cycle: int
    senders: int
    low: int
    high: int | None
    says: str


@dataclass(frozen=True)
class ObservedNode:
    """A sender in a double cycle by a log: both its cycles last from `length_low` to `length_high` ticks of the
    analyzer's clock before its offset correction, and the offset term that it applied at their end is from `offset_low`
    to `offset_high` microticks; None where the node is no sender of the next double cycle."""

    double: int
    node: int
    length_low: int
    length_high: int
    offset_low: int | None
    offset_high: int | None


@dataclass(frozen=True)
class LogCounts:
    """The entries of a log: how many say where a clock was (`judged`); how many are `damaged`; are of nodes that the
    log names `arbitrary`; tell nothing of a clock, or are irregular (`other`); come at another time than their number has
    it, or are of a double cycle that is past or of no cycle (`stray`); and come `behind` a silence of more than 30
    cycles."""

    judged: int
    damaged: int
    arbitrary: int
    other: int
    stray: int
    behind: int


@dataclass(frozen=True)
class ObservedFault:
    """A contradiction of a log in a cycle, of a node or of several (None): its kind, and the four fields A to D, as
    docs/FORMATS.md has them."""

    cycle: int
    node: int | None
    kind: str
    fields: tuple[str, ...]


@dataclass(frozen=True)
class ObservedMissed:
    """What a node applied in a judged double cycle, an `offset` or a `rate` by its kind, can only be if it missed at least so many of the
    other senders there; None where it can be in no way."""

    cycle: int
    node: int
    kind: str
    least: int | None


@dataclass(frozen=True)
class ObservedSender:
    """How many frames of a node are there on a channel, in which cycles the first and the last, and in how many none."""

    node: int
    channel: str
    frames: int
    first: int | None
    last: int | None
    missed: int


@dataclass(frozen=True)
class ObservedSpread:
    """A double cycle that is judged, in ticks: starts and even lengths of correct nodes lie no further apart than `starts` and
    `lengths`, lengths no further `beyond` their range, and no macroticks of the double cycle further `apart`."""

    double: int
    starts: int
    lengths: int
    beyond: int
    apart: int


@dataclass(frozen=True)
class Observation:
    """What a log tells of the clocks. `precision` is that of the first line, in ticks, as the skews of `cycles` and the `flutter` of
    delays are that it is judged by; a node may miss so many senders of a double cycle as `lost` says. `nodes` has each sender of each
    double cycle. `first` and `last` are the numbers of the first and the last of `cycles`, None where there are none, and `within`,
    `over` and `open` how many of them say so. `faults` are what contradicts the rules, `missed` how many senders nodes must have
    missed, `senders` which frames are there; `numbers`, `sync` and `verdict` have the fields of these rows. `judged` is how many of the
    `doubles` double cycles are judged by their own numbers, which `spreads` has."""

    text: str = field(repr=False)
    precision: int
    flutter: int
    lost: int
    cycles: tuple[ObservedCycle, ...] = field(repr=False)
    nodes: tuple[ObservedNode, ...] = field(repr=False)
    log: LogCounts
    first: int | None
    last: int | None
    within: int
    over: int
    open: int
    faults: tuple[ObservedFault, ...]
    senders: tuple[ObservedSender, ...] = field(repr=False)
    numbers: tuple[str, ...]
    sync: tuple[str, ...]
    verdict: tuple[str, ...]
    judged: int
    doubles: int
    missed: tuple[ObservedMissed, ...]
    spreads: tuple[ObservedSpread, ...] = field(repr=False)


@dataclass(frozen=True)
class FailedCheck:
    """The check for the way to sync that fails, with both its sides."""

    number: int
    left: int
    right: int


@dataclass(frozen=True)
class Settled:
    """How soon clocks that begin apart are in sync: in double cycle `double` at the latest, from 0, on a way with no two
    macroticks further apart than `peak`; or `failed`, the check that keeps this from being proved."""

    text: str = field(repr=False)
    start: int
    rate: int
    peak: int
    double: int | None
    failed: FailedCheck | None


@dataclass(frozen=True)
class SharpWay:
    """The same of sharp sync, without arbitrary sync nodes (`alone`) or beside them."""

    peak: int
    double: int | None
    failed: FailedCheck | None


@dataclass(frozen=True)
class SharpSettled:
    """How soon clocks that begin apart are in sharp sync."""

    text: str = field(repr=False)
    start: int
    rate: int
    flutter: int
    alone: SharpWay
    beside: SharpWay


@dataclass(frozen=True)
class PowerOn:
    """How long it takes at most from the first power-on: until a node leads, and until all are in sharp sync that join it in its
    first double cycle; or `failed`, the check that keeps this from being proved."""

    text: str = field(repr=False)
    flutter: int
    leads: int
    synced: int | None
    failed: FailedCheck | None


@dataclass(frozen=True)
class Lead:
    """A node begins to lead a startup, at this macrotick from the begin of the run."""

    node: int
    macrotick: int


@dataclass(frozen=True)
class Startup:
    """Who leads a startup. `apart` has the first two coldstart nodes that share no channel, None where all do; `leading` the
    nodes that lead at the end."""

    text: str = field(repr=False)
    coldstart: int
    cycles: int
    apart: tuple[int, int] | None
    leads: tuple[Lead, ...]
    leading: tuple[int, ...]


@dataclass(frozen=True)
class Frame:
    """A frame: `null_frame` is True where the payload is not valid, so `null 0` in the text. `words` is the payload's length
    in two-byte words."""

    text: str = field(repr=False)
    channel: str
    id: int
    words: int
    cycle: int
    reserved: bool
    preamble: bool
    null_frame: bool
    sync: bool
    startup: bool
    header_crc: int
    frame_crc: int
    payload: bytes


@dataclass(frozen=True)
class CapturedFrame:
    """A frame of a recording: the place of its first byte, from 0."""

    place: int
    id: int
    words: int
    cycle: int
    crc: int


@dataclass(frozen=True)
class Capture:
    """The frames of a recording up to the first fault. `bytes` is how many they have together; `fault` says what stands at
    `fault_place`, None where nothing is left."""

    text: str = field(repr=False)
    frames: tuple[CapturedFrame, ...]
    bytes: int
    fault: str | None
    fault_place: int | None


@dataclass(frozen=True)
class Vector:
    """The network management vector of a cycle, of so many frames."""

    cycle: int
    vector: bytes
    frames: int


@dataclass(frozen=True)
class Vectors:
    """The vectors of a recording; `frames` counted, `ignored` did not."""

    text: str = field(repr=False)
    cycles: tuple[Vector, ...]
    frames: int
    ignored: int


@dataclass(frozen=True)
class Upgraded:
    """Parameters as a file of version 2; `text` is a parameter file."""

    text: str
