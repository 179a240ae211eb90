"""What other hardware, or another wish, would make of a design; and where there is none, the nearest wish that has one."""
from collections.abc import Callable, Iterator
from dataclasses import dataclass, replace
from fractions import Fraction

from ..base.ending import Stop
from ..base.units import TICKS, decimal
from .solving import Design, Found, Task, best_at, macroticks, search
from .tasks import Wish, nearer, shown_ns, tasks_of

# By how much each premise is turned, to tell what it costs.
SPREAD_NS, FLUTTER_NS = Fraction(100), Fraction(10)


@dataclass
class Turned:
    """Another wish in words, and the best design of it with the same macroticks where these do, else with any; None where there
    is none, and then why."""
    what: str
    design: Design | None
    why: str = ""


def best_of(wish: Wish, purpose: str, macros: int | None, whole: bool) -> tuple[Design | None, str]:
    """The best design of a wish: with these macroticks, or with any where there is none."""
    try:
        tasks = tasks_of(wish)
    except Stop as stop:
        return None, stop.line
    for kept in dict.fromkeys((macros, wish.of_kept("gMacroPerCycle"))):
        found = search(tasks, purpose, 1, whole, kept)
        if found.best:
            return found.best[0], ""
    return None, why_none(found)


def why_none(found: Found) -> str:
    """Which demand is in the way at most lengths of the macrotick."""
    if not found.refused:
        return "no number of macroticks is left"
    first = max(found.refused, key=lambda why: found.refused[why])
    return f"{first.name} is in the way" if first.name not in ("room", "kept", "range") else "slots and correction have no room"


def wishes(wish: Wish, design: Design) -> Iterator[tuple[str, Wish]]:
    """Each premise turned alone."""
    unit = design.task.microtick_ns
    if max(high - low for _, low, high in wish.delays) >= SPREAD_NS:
        yield f"delays of each channel spread by {shown_ns(SPREAD_NS)} ns less", nearer(wish, SPREAD_NS)
    if wish.flutter_ns:
        if wish.flutter_ns > FLUTTER_NS:
            yield f"delays flutter by {shown_ns(FLUTTER_NS)} ns less", replace(wish, flutter_ns=wish.flutter_ns - FLUTTER_NS)
        yield "delays do not flutter", replace(wish, flutter_ns=Fraction(0))
    else:
        yield "delays flutter by 1 ns", replace(wish, flutter_ns=Fraction(1))
        yield f"delays flutter by {shown_ns(FLUTTER_NS)} ns", replace(wish, flutter_ns=FLUTTER_NS)
    if wish.change:
        yield "oscillators change by 1 ppm a cycle less", replace(wish, change=wish.change - 1)
    else:
        yield "oscillators change by 1 ppm a cycle", replace(wish, change=1)
    if wish.rate:
        yield "oscillators half as far off", replace(wish, rate=-(-wish.rate // 2))
    if (unit / 2) * 2 in (25, 50, 100) and wish.of_kept("pDelayCompensation") is None:
        yield f"microticks of {shown_ns(unit / 2)} ns", replace(wish, microticks_ns=(unit / 2,))
    if "pClusterDriftDamping" not in dict(wish.kept):
        more = design.parameters["pClusterDriftDamping"] + 1
        yield "a damping of one more", replace(wish, kept=(*wish.kept, ("pClusterDriftDamping", more)))
    if wish.arbitrary:
        yield "no arbitrary node", replace(wish, arbitrary=0)
    else:
        yield "beside an arbitrary node", replace(wish, arbitrary=1)
    yield "no node joins" if wish.joins else "nodes join", replace(wish, joins=not wish.joins)


def turned(wish: Wish, design: Design, purpose: str, whole: bool) -> list[Turned]:
    """What each premise costs, or would buy."""
    found = []
    for what, other in wishes(replace(wish, microticks_ns=(design.task.microtick_ns,)), design):
        one, why = best_of(other, purpose, design.parameters["gMacroPerCycle"], whole)
        found.append(Turned(what, one, why.replace("\nflexlab: ", "; ")))
    return found


def has_design(tasks: list[Task], whole: bool, kept: int | None) -> bool:
    return any(isinstance(best_at(task, macros, "precision"), Design) for task in tasks for macros in macroticks(task, whole, kept))


def halved(low: int, high: int, good: Callable[[int], bool]) -> int | None:
    """The greatest of a range that is good, where those below a good one are; None where the least is not."""
    if not good(low):
        return None
    while low < high:
        middle = (low + high + 1) // 2
        low, high = (middle, high) if good(middle) else (low, middle - 1)
    return low


def nearest(wish: Wish, whole: bool) -> Iterator[str]:
    """Each of fewer slots, less payload and a longer cycle alone, by halving, with which there is a design."""
    kept = wish.of_kept("gMacroPerCycle")

    def good(other: Wish) -> bool:
        try:
            return has_design(tasks_of(other), whole, kept)
        except Stop:
            return False

    slots = halved(wish.last, wish.slots - 1, lambda count: good(replace(wish, slots=count)))
    if slots is not None:
        yield f"{slots} slots in place of {wish.slots}"
    words = halved(0, wish.words - 1, lambda count: good(replace(wish, words=count))) if wish.words else None
    if words is not None:
        yield f"{2 * words} bytes in place of {2 * wish.words}"
    # The greatest share of 16 ms that a cycle may be shorter by, in steps of 100 us.
    step = Fraction(100000)
    most = int((16 * 10 ** 6 - wish.cycle_ns) / step)
    if kept is None and most > 0:
        shorter = halved(0, most - 1, lambda count: good(replace(wish, cycle_ns=wish.cycle_ns + step * (most - count))))
        if shorter is not None:
            yield f"a cycle of {decimal((wish.cycle_ns + step * (most - shorter)) / 1000, 0)} us in place of " \
                  f"{decimal(wish.cycle_ns / 1000, 0)} us"


def ticks_ns(ticks: int | Fraction, design: Design) -> Fraction:
    return Fraction(ticks) * design.task.microtick_ns / TICKS
