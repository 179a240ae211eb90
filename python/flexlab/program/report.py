"""What flexray printed, as the pages have it: bounds, reports, traces and series. The package flexray takes the texts apart."""
from collections.abc import Callable, Iterable, Sequence
from dataclasses import dataclass, field
from typing import NamedTuple, TypeVar

from flexray import results, texts

from ..base.ending import PROGRAM, Stop

# As the package has them.
Skew = results.Skew
Row = results.CycleRow
Series = results.SharpSeries


class Check(NamedTuple):
    """A check of a cluster: it holds where its left side is enough for the right one."""
    number: int
    holds: bool
    left: int
    right: int


@dataclass
class Bounds:
    y1: int = 0
    lambda_: int = 0
    pi: int = 0
    precision: int = 0
    reach: int | None = None
    checks: list[Check] = field(default_factory=list)

    @property
    def failing(self) -> list[Check]:
        return [check for check in self.checks if not check.holds]


Text = TypeVar("Text")
Parsed = TypeVar("Parsed")


def understood(parse: Callable[[Text], Parsed], what: str, text: Text) -> Parsed:
    """A text of flexray taken apart, or the end of flexlab where it is none."""
    try:
        return parse(text)
    except texts.Strange as fault:
        raise Stop(PROGRAM, f"flexray printed a {what} that is not understood: {fault.line}")


def checks_of(told: Sequence[results.Check]) -> list[Check]:
    return [Check(check.number, check.holds, check.left, check.right) for check in told]


def read_bounds(text: str) -> Bounds:
    told = understood(texts.bound, "bound", text)
    return Bounds(told.y1, told.lambda_, told.pi, told.precision, told.reach, checks_of(told.checks))


@dataclass
class SharpBounds:
    """The sharper bounds of one kind, `alone` or `beside` arbitrary nodes, where delays flutter so much; for how many double
    cycles sync lasts, and where nodes join first rates too, None where on and on; and the reach where nodes join."""
    kind: str
    flutter: int = 0
    lambda_: int = 0
    pi: int = 0
    precision: int = 0
    reach: int | None = None
    checks: list[Check] = field(default_factory=list)
    lasts: int | None = None

    @property
    def failing(self) -> list[Check]:
        return [check for check in self.checks if not check.holds]

    @property
    def gap(self) -> list[str] | None:
        """The words of the first check behind C1 that fails, or None: C1 decides how long the bounds hold, and is no gap."""
        return next((["check", str(check.number), str(check.left), str(check.right)] for check in self.failing if check.number != 1), None)

    @property
    def is_held(self) -> bool:
        """Whether C1 fails, and the bounds hold on and on all the same, since the walk is held."""
        return self.lasts is None and not all(check.holds for check in self.checks if check.number == 1)

    @property
    def missing(self) -> set[int]:
        """The numbers of the checks that fail, without C1 where the walk is held."""
        return {check.number for check in self.failing} - ({1} if self.is_held else set())

    @property
    def ending(self) -> str:
        """Why they hold for a number of double cycles alone. Of nodes that join C1 has to hold, whether the walk is held or not."""
        return "C1 fails" + (" and the walk is not held" if self.reach is None else "")


def read_sharp_bounds(text: str) -> dict[str, SharpBounds]:
    """What `bound PARAMS sharp FLUTTER` printed, also with `join` behind it: the bounds of each kind."""
    told = understood(texts.sharp_bound, "bound", text)
    lasts = told.first_rates_last if told.joins else told.lasts
    return {kind: SharpBounds(kind, told.flutter, side.lambda_, side.pi, side.precision, side.reach, checks_of(side.checks), lasts)
            for kind, side in (("alone", told.alone), ("beside", told.beside))}


class Sent(NamedTuple):
    """The frames of a channel: how many correct nodes sent, and the exclusive or of their frame CRCs, as digits."""
    frames: int
    xor: str


class NodeEnd(NamedTuple):
    """A node behind the last cycle: its state, the start of the cycle that would come next, its terms in microticks."""
    state: str
    next: int
    rate: int
    offset: int


@dataclass
class Report:
    nodes: int = 0
    sync: int = 0
    arbitrary: int = 0
    doubles: int = 0
    precision: int = 0
    gap: list[str] | None = None
    in_sync: int | None = None
    skew: int = 0
    cycle: int = 0
    macrotick: int = 0
    sent: dict[str, Sent] = field(default_factory=dict)
    heard: dict[str, int] = field(default_factory=dict)
    cut: int = 0
    ends: dict[int, NodeEnd] = field(default_factory=dict)


def read_report(text: str) -> Report:
    return report_of(understood(texts.report, "report", text))


def read_sharp_report(text: str) -> tuple[results.SharpReport, Report]:
    """What `run PARAMS DRIFT SCRIPT sharp` printed: what the sharper bounds say of the run, and its report."""
    told = understood(texts.sharp_report, "report", text)
    return told, report_of(told.report)


def report_of(told: results.Report) -> Report:
    sent = {channel: Sent(one.frames, f"{one.xor:06X}") for channel, one in (("A", told.sent_a), ("B", told.sent_b))}
    ends = {end.node: NodeEnd(end.state, end.next, end.rate, end.offset) for end in told.ends}
    return Report(told.nodes, told.sync, told.arbitrary, told.doubles, told.precision, None if told.covered else list(told.gap),
                  told.in_sync, told.greatest.ticks, told.greatest.cycle, told.greatest.macrotick, sent, dict(vars(told.heard)), told.cut,
                  ends)


# The rows of a cycle by node, and those of each cycle.
Rows = dict[int, Row]
Trace = list[Rows]


def read_trace(path: str) -> Trace:
    """The `cycle` rows of a trace: for each cycle the rows by node."""
    with open(path, encoding="ascii", errors="replace") as file:
        return understood(trace_of, "trace", file)


def trace_of(lines: Iterable[str]) -> Trace:
    cycles: Trace = []
    for row in texts.cycle_rows(lines):
        if row.cycle == len(cycles):
            cycles.append({})
        cycles[row.cycle][row.node] = row
    return cycles


def read_series(text: str) -> Series:
    """What `flexray-series .. sharp` printed."""
    return understood(texts.sharp_series, "series", text)
