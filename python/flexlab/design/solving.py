"""The least parameters with which all that is asked of a cluster holds, by exact arithmetic.

Of one length of the macrotick five parameters are free: damping, both correction limits, the action point, and what is behind it in
a slot. Every demand on them is a least value of one, and none of these falls where another of the five grows. So from the bottom of
all ranges each is raised to what is asked of it until nothing asks for more: what comes out lies in each parameter at or below every
other solution, and so do precision and slot length, which grow with them. Macroticks are tried through, all of them.

Sync lasts on and on by either of two demands on the damping: C1, or a walk that is held, which takes a microtick of damping less, and
asks the rate limit for room. Where there may be one both are tried, and the better design is taken."""
import heapq
from collections.abc import Iterable, Iterator
from dataclasses import dataclass, field, replace
from fractions import Fraction
from functools import cached_property

from ..base import ranges
from ..base.units import TICKS
from ..pages.advice import latest_start, up
from ..runs.least import Kind, Numbers, held_damping, held_rate, sharp_bounds_of

# The greatest deviation of an oscillator by the standard (cClockDeviationMax), and the bits of idle behind a frame
# (cChannelIdleDelimiter).
DEVIATION, IDLE_BITS = Fraction(15, 10000), 11
# Of the standard: the shortest and the longest macrotick in ns, and how many microticks it has at least.
MACROTICK_NS, MICRO_PER_MACRO = (1000, 6000), 40
BEHIND = "behind"
FREE = ("pClusterDriftDamping", "pRateCorrectionOut", "pOffsetCorrectionOut", "gdActionPointOffset", BEHIND)
LEAST = {"pClusterDriftDamping": 0, "pRateCorrectionOut": 1, "pOffsetCorrectionOut": 1, "gdActionPointOffset": 1, BEHIND: 1}
MOST = {**{name: ranges.PARAMETERS[name][1] for name in FREE if name != BEHIND},
        BEHIND: ranges.PARAMETERS["gdStaticSlot"][1] - 1}
# What of a kept set of parameters is fixed, but for the macroticks and compensations, which are tried through.
KEPT = ("pClusterDriftDamping", "pRateCorrectionOut", "pOffsetCorrectionOut", "gdActionPointOffset", "gdStaticSlot")
CHOSEN = {"gMaxWithoutClockCorrectionPassive": 2, "gMaxWithoutClockCorrectionFatal": 4, "pAllowHaltDueToClock": 1,
          "pAllowPassiveToActive": 2}
PURPOSES = ("precision", "slot", "slots", "free")

# The names of demands that are not checks of flexray; of a held walk `flexray bound` says how long sync lasts.
MAX_DRIFT, SLOT, FRAME, HELD = "pdMaxDrift", "standard slot", "frame", "held walk"


@dataclass(frozen=True)
class Task:
    """What a design has to meet at one length of the microtick, with one choice of compensations. Ticks but for what is named
    otherwise; `standard_ns` is what the standard asks of a slot beside two action points, None where it is left out; `held` is whether
    the walk has to be held in place of C1."""
    microtick_ns: Fraction
    micros: int
    slots: int
    words: int
    kind: Kind
    join: bool
    rate: int
    change: int
    error: int
    compensations: tuple[int, int]
    frame: int
    latest: int
    standard_ns: Fraction | None
    margin: int = 0
    kept: tuple[tuple[str, int], ...] = ()
    held: bool = False

    @cached_property
    def with_held_walk(self) -> "Task | None":
        """The same with a held walk in place of C1; None where oscillators change, a node joins, or C1 asks for no more damping."""
        quick, kept = TICKS - self.rate, dict(self.kept).get("pClusterDriftDamping")
        by_check = -(-(quick + self.kind.flutter - 1) // quick)
        if self.join or self.change or self.damping == by_check or kept is not None and kept >= by_check:
            return None
        return replace(self, held=True)

    @cached_property
    def damping(self) -> int:
        """The least with which a walk is held where oscillators do not change."""
        return held_damping(self.kind.flutter, TICKS - self.rate)

    @cached_property
    def compensation(self) -> int:
        return max(self.compensations)

    @cached_property
    def drift(self) -> int:
        return max_drift(self.micros)

    @cached_property
    def slot(self) -> tuple[int, int]:
        """What the standard asks of a slot beside two action points, as a share of the cycle."""
        assert self.standard_ns is not None
        share = self.standard_ns / (self.micros * self.microtick_ns * (1 - DEVIATION))
        return share.numerator, share.denominator

    def base(self, macros: int) -> dict[str, int]:
        """Parameters with all that is free at the least of its range, or kept."""
        kept = dict(self.kept)
        p = {"gMacroPerCycle": macros, "pMicroPerCycle": self.micros, "gNumberOfStaticSlots": self.slots, "gdStaticSlot": 2,
             "gdNIT": 1, "gPayloadLengthStatic": self.words, "gOffsetCorrectionStart": macros - 1, **CHOSEN,
             "xRateBound": self.rate, "xChangeBound": self.change, "xDelayError": self.error,
             "pDelayCompensation": self.compensation}
        for name in FREE:
            if name != BEHIND:
                p[name] = kept.get(name, LEAST[name])
        return p


@dataclass(frozen=True)
class Raise:
    """A step of the chain: with all else as in `before` this parameter at one less than `value` does not meet a demand."""
    name: str
    parameter: str
    value: int
    before: dict[str, int]
    behind: int


@dataclass(frozen=True)
class NoDesign:
    """Why there is none at some macroticks: which demand asks for how much of what."""
    name: str
    parameter: str
    value: int | None = None


@dataclass
class Design:
    """A least solution: its parameters, and what its task was; `behind` is what lies behind the action point of a slot."""
    task: Task
    parameters: dict[str, int]
    behind: int
    bounds: Numbers

    @property
    def macrotick_ns(self) -> Fraction:
        return self.task.micros * self.task.microtick_ns / self.parameters["gMacroPerCycle"]

    @property
    def precision_ns(self) -> Fraction:
        return self.bounds["precision"] * self.task.microtick_ns / TICKS

    @property
    def slot_ns(self) -> Fraction:
        return self.parameters["gdStaticSlot"] * self.macrotick_ns

    @property
    def free(self) -> int:
        """Macroticks between the last static slot and the offset correction."""
        p = self.parameters
        return p["gOffsetCorrectionStart"] - p["gNumberOfStaticSlots"] * p["gdStaticSlot"]

    @property
    def fitting(self) -> int:
        """How many such slots the cycle has room for, 1,023 at most."""
        return min(ranges.PARAMETERS["gNumberOfStaticSlots"][1],
                   (self.parameters["gOffsetCorrectionStart"] - 1) // self.parameters["gdStaticSlot"])

    def order(self, purpose: str) -> tuple[Fraction | int, ...]:
        """By what designs are put in order, the best first; at last by the longest macrotick."""
        macros, unit, cycle = self.parameters["gMacroPerCycle"], self.task.microtick_ns, self.task.micros
        precision = Fraction(self.bounds["precision"] * unit.numerator, unit.denominator * TICKS)
        slot, room = (Fraction(count * cycle * unit.numerator, macros * unit.denominator)
                      for count in (self.parameters["gdStaticSlot"], -self.free))
        if purpose == "slot":
            return slot, precision, room, macros
        if purpose == "slots":
            return -self.fitting, precision, slot, macros
        if purpose == "free":
            return room, precision, slot, macros
        return precision, slot, room, macros


def demands(p: dict[str, int], behind: int, task: Task) -> list[tuple[str, str, int]]:
    """(name, parameter, the least value that it asks for) of each demand, at these parameters."""
    sides, quick = sharp_bounds_of(p, task.kind), TICKS - task.rate
    macros, left, point = p["gMacroPerCycle"], p["pMicroPerCycle"] - p["pRateCorrectionOut"], p["gdActionPointOffset"]
    first, margin = 7 if task.join else 3, task.margin
    if task.held:
        found = [(HELD, "pClusterDriftDamping", task.damping),
                 (HELD, "pRateCorrectionOut", held_rate(p, task.kind.flutter, task.damping))]
    else:
        found = [("C1", "pClusterDriftDamping", -(-(sides[1][1] - 1) // quick))]
    found.append(("C2", "pRateCorrectionOut", -(-sides[2][1] // quick)))
    if task.join:
        found.append(("C6", "pRateCorrectionOut", -(-sides[6][1] // quick)))
    if task.standard_ns is not None:
        found.append((MAX_DRIFT, "pRateCorrectionOut", task.drift))
    found.append((f"C{first}", "pOffsetCorrectionOut", -(-(sides[first][1] + margin) // quick)))
    if left <= 0:
        return found + [(f"C{first + 1}", "gdActionPointOffset", MOST["gdActionPointOffset"] + 1)]
    early, late = (sides[first + at][1] + macros * (margin + quick) for at in (1, 2))
    found.append((f"C{first + 1}", "gdActionPointOffset", -(-early // (quick * left))))
    found.append((f"C{first + 2}", BEHIND, late // (quick * left) + 1))
    # A frame has to end in the slot of each receiver: its arrival is as late as any, and its bits come behind.
    later = macros * (max(0, task.latest - task.compensation * TICKS - task.error) + task.frame)
    found.append((FRAME, BEHIND, (late + later) // (quick * left) + 1))
    if task.standard_ns is not None:
        share, whole = task.slot
        found.append((SLOT, BEHIND, point - (-macros * share // whole)))
    return found


def max_drift(micros: int) -> int:
    """pdMaxDrift of the standard, by its formula, which stands as the least rate limit too."""
    return up(2 * micros * DEVIATION / (1 - DEVIATION))


def put(p: dict[str, int], behind: int, parameter: str, value: int, task: Task) -> tuple[dict[str, int], int]:
    """Parameters with another value of one; the slot is as long as both parts of it where it is not kept."""
    found = dict(p)
    if parameter == BEHIND:
        behind = value
    else:
        found[parameter] = value
    found["gdStaticSlot"] = dict(task.kept).get("gdStaticSlot", found["gdActionPointOffset"] + behind)
    return found, behind


def least(task: Task, macros: int, chain: list[Raise] | None = None) -> Design | NoDesign:
    """The least solution with these macroticks a cycle, or why there is none; `chain` takes the steps to it."""
    kept = dict(task.kept)
    p, behind = put(task.base(macros), LEAST[BEHIND], BEHIND, LEAST[BEHIND], task)
    while True:
        wanted: dict[str, tuple[int, str]] = {}
        for name, parameter, value in demands(p, behind, task):
            now = behind if parameter == BEHIND else p[parameter]
            if value > max(now, wanted.get(parameter, (now, ""))[0]):
                wanted[parameter] = value, name
        if not wanted:
            break
        before, rest = p, behind
        for parameter, (value, name) in wanted.items():
            if parameter in kept or value > MOST[parameter]:
                return NoDesign(name, parameter, value)
            if chain is not None:
                chain.append(Raise(name, parameter, value, before, rest))
            p, behind = put(p, behind, parameter, value, task)
    return closed(task, p, behind)


def closed(task: Task, p: dict[str, int], behind: int) -> Design | NoDesign:
    """A least solution with what follows it in the cycle, or why that has no room."""
    slot = p["gdActionPointOffset"] + behind
    if slot > p["gdStaticSlot"]:
        return NoDesign("kept", "gdStaticSlot", slot)
    if p["gdStaticSlot"] > ranges.PARAMETERS["gdStaticSlot"][1]:
        return NoDesign("range", "gdStaticSlot", p["gdStaticSlot"])
    found = dict(p)
    start = latest_start(found)
    if start is None:
        return NoDesign("room", "gMacroPerCycle")
    found["gOffsetCorrectionStart"] = start
    found["gdNIT"] = found["gMacroPerCycle"] - found["gNumberOfStaticSlots"] * found["gdStaticSlot"]
    return Design(task, found, found["gdStaticSlot"] - found["gdActionPointOffset"], sharp_bounds_of(found, task.kind))


def best_at(task: Task, macros: int, purpose: str) -> Design | NoDesign:
    """The least solution with these macroticks by C1 or by a held walk, the better one where there are both."""
    plain = least(task, macros)
    held = least(task.with_held_walk, macros) if task.with_held_walk else None
    if isinstance(held, Design) and isinstance(plain, Design):
        return min(held, plain, key=lambda one: one.order(purpose))
    return held if held is not None and (isinstance(held, Design) or isinstance(plain, NoDesign) and plain.name == "C1") else plain


def binding(design: Design) -> dict[str, list[str]]:
    """Of each free parameter the demands that one less would not meet; none where it is kept or the least of its range."""
    found: dict[str, list[str]] = {name: [] for name in FREE}
    kept = dict(design.task.kept)
    for name, parameter, value in demands(design.parameters, design.behind, design.task):
        now = design.behind if parameter == BEHIND else design.parameters[parameter]
        if value == now and parameter not in kept and not (parameter == BEHIND and "gdStaticSlot" in kept) and value > LEAST[parameter]:
            found[parameter].append(name)
    return found


def compensations(delays: list[tuple[int, int]], kept: Iterable[int | None] = (None, None)) -> list[tuple[int, tuple[int, ...]]]:
    """(error, compensation of each channel) of which no other is better for a channel's least and greatest delay in ticks: for
    each error that some compensation has the least ones that it suffices for, where the latest arrival is earlier than that of
    every smaller error."""
    most = ranges.OF_CHANNELS["pDelayCompensationA"][1]
    spans = list(zip(delays, kept))
    errors = sorted({max(high - wait * TICKS, wait * TICKS - low) for (low, high), own in spans
                     for wait in (range(most + 1) if own is None else (own,))})
    found: list[tuple[int, tuple[int, ...]]] = []
    earliest: int | None = None
    for error in errors:
        waits = []
        for (low, high), own in spans:
            wait = max(0, -(-(high - error) // TICKS)) if own is None else own
            if wait > most or max(high - wait * TICKS, wait * TICKS - low) > error:
                break
            waits.append(wait)
        latest = max(waits, default=0) * TICKS + error
        if len(waits) == len(spans) and (earliest is None or latest < earliest):
            found.append((error, tuple(waits)))
            earliest = latest
    return found


def macroticks(task: Task, whole: bool = False, kept: int | None = None) -> Iterator[int]:
    """The numbers of macroticks a cycle that are tried: of 1 to 6 us, each of 40 microticks or more."""
    cycle = task.micros * task.microtick_ns
    least_, most = up(cycle / MACROTICK_NS[1]), min(int(cycle / MACROTICK_NS[0]), task.micros // MICRO_PER_MACRO)
    low, high, _, _ = ranges.PARAMETERS["gMacroPerCycle"]
    for macros in range(max(low, least_), min(high, most) + 1) if kept is None else (kept,):
        if not whole or task.micros % macros == 0:
            yield macros


@dataclass
class Found:
    """What a search found: the best designs, how many there are, and of others how often each demand was in the way."""
    best: list[Design] = field(default_factory=list)
    count: int = 0
    tried: int = 0
    refused: dict[NoDesign, int] = field(default_factory=dict)


def search(tasks: Iterable[Task], purpose: str = "precision", top: int = 2, whole: bool = False, kept: int | None = None) -> Found:
    """The best designs of all macroticks and compensations."""
    found = Found()

    def designs() -> Iterator[Design]:
        for task in tasks:
            for macros in macroticks(task, whole, kept):
                found.tried += 1
                one = best_at(task, macros, purpose)
                if isinstance(one, Design):
                    found.count += 1
                    yield one
                else:
                    why = NoDesign(one.name, one.parameter)
                    found.refused[why] = found.refused.get(why, 0) + 1

    found.best = heapq.nsmallest(top, designs(), key=lambda one: one.order(purpose))
    return found
