"""The page of a design, its object for machines, and its TOML file."""
from collections.abc import Iterator
from dataclasses import dataclass, field as made
from fractions import Fraction
from typing import Any

from ..base import ranges
from ..base.units import TICKS, decimal, rounded
from ..base.version import version
from ..pages.page import field
from ..runs.least import Numbers, holds
from .buying import Turned, ticks_ns
from .confirming import OTHERS, Confirmed, Neighbour, Step, parameters_of
from .quoted import quoted
from .solving import BEHIND, CHOSEN, HELD, Design, Found, NoDesign
from .tasks import Wish, shown_ns

ORIGIN = ("the search is exact arithmetic of flexlab over the sides of checks that flexray bound prints; that they hold, and that they "
          "fail at one less, is what flexray bound printed. That no other set is better rests on that arithmetic (docs/FLEXLAB.md, "
          "\"A design\")")
LEFT_OUT = ("losses: how many double cycles in which frames are lost it withstands is no goal yet; startup, wakeup, the dynamic segment "
            "and the symbol window, for which the rest of the cycle is; delays of each receiver apart, since one error is of all")
PURPOSE = {"precision": "the least precision, then the shortest slot", "slot": "the shortest slot, then the least precision",
           "slots": "the most slots that fit into the cycle, then the least precision",
           "free": "the longest time behind the slots, then the least precision"}


@dataclass
class Answer:
    """All that a page of a design tells."""
    path: str
    wish: Wish
    purpose: str
    nodes: str
    found: Found
    confirmed: list[Confirmed] = made(default_factory=list)
    turned: list[Turned] = made(default_factory=list)
    nearest: list[str] = made(default_factory=list)
    chain: list[Step] = made(default_factory=list)
    notes: list[str] = made(default_factory=list)
    now: Numbers | None = None

    @property
    def best(self) -> Confirmed:
        return self.confirmed[0]


def us(ns: Fraction) -> str:
    return decimal(ns / 1000, 3) + " us"


def kind_words(wish: Wish) -> str:
    beside = {0: "without arbitrary nodes", 1: "beside an arbitrary node", 2: "beside two arbitrary nodes"}[wish.arbitrary]
    return beside + (", for nodes that join too" if wish.joins else "")


def named(parameter: str) -> str:
    return "behind the action point" if parameter == BEHIND else parameter


def asked_lines(answer: Answer) -> list[str]:
    wish = answer.wish
    units = " or ".join(shown_ns(unit) for unit in wish.microticks_ns)
    lines = field("Asked", f"{answer.nodes}; {wish.slots} static slots of {2 * wish.words} bytes in a cycle of {us(wish.cycle_ns)}, "
                           f"{kind_words(wish)}; {PURPOSE[answer.purpose]}")
    lines += field("Hardware", f"microticks of {units} ns, oscillators within {wish.rate} ticks (about ppm) that change by {wish.change} "
                               f"a cycle, delays that flutter by {shown_ns(wish.flutter_ns)} ns within a double cycle")
    if wish.kept:
        lines += field("Kept", ", ".join(f"{name} = {value}" for name, value in wish.kept))
    return lines


def delay_lines(answer: Answer) -> list[str]:
    """Of each channel its delays, and the compensation that lies amid them."""
    task, lines = answer.best.design.task, list[str]()
    for (channel, low, high), wait in zip(answer.wish.delays, task.compensations):
        lines += field("" if lines else "Delays", f"channel {channel}: {shown_ns(low)} to {shown_ns(high)} ns; the compensation is {wait} "
                                                  f"microticks ({shown_ns(wait * task.microtick_ns)} ns)")
    return lines + field("", f"none lies further off than {decimal(Fraction(task.error, TICKS), 3)} microticks "
                             f"({decimal(ticks_ns(task.error, answer.best.design), 1)} ns, xDelayError)")


def verdict_words(answer: Answer) -> str:
    design = answer.best.design
    fixed = "with what is kept, " if answer.wish.kept else ""
    hold = "all checks but C1 hold by flexray bound, the walk is held" if design.task.held else "all checks hold by flexray bound"
    least = "the least proved precision that there is" if answer.purpose == "precision" else "proved"
    return (f"yes: {us(design.precision_ns)} is {least}, {fixed}{kind_words(answer.wish)}; {hold}, and with "
            "each free parameter at one less what is named beside it fails")


def least_words(one: Neighbour) -> str:
    """By what a parameter is the least."""
    if one.kept:
        return "kept"
    if not one.by:
        return "the least of its range"
    program = [name for name in one.by if name not in (*OTHERS, HELD)]
    others = [OTHERS[name] for name in one.by if name in OTHERS]
    told = []
    if one.lasts is not None:
        told.append(f"at {one.value} the walk is not held: sync lasts {one.lasts} double cycles")
    if one.check:
        told.append(f"at {one.value} {one.check[0]} fails: {one.check[1]} against {one.check[2]}")
    elif program:
        told.append(f"{' and '.join(program)} with the margin")
    return "; ".join(told + others)


def parameter_lines(answer: Answer) -> list[str]:
    design = answer.best.design
    p, unit, macrotick = design.parameters, design.task.microtick_ns, design.macrotick_ns
    lengths = {"pClusterDriftDamping": unit, "pRateCorrectionOut": unit, "pOffsetCorrectionOut": unit, "gdActionPointOffset": macrotick,
               BEHIND: macrotick, "gdStaticSlot": macrotick, "gdNIT": macrotick, "gOffsetCorrectionStart": macrotick}
    by = {one.parameter: least_words(one) for one in answer.best.neighbours}
    rows = [("gMacroPerCycle", p["gMacroPerCycle"], f"a macrotick lasts {decimal(macrotick / 1000, 6)} us"),
            *((named(name), design.behind if name == BEHIND else p[name], by.get(name, "the least of its range"))
              for name in ("pClusterDriftDamping", "pRateCorrectionOut", "pOffsetCorrectionOut", "gdActionPointOffset", BEHIND)),
            ("gdStaticSlot", p["gdStaticSlot"], "the action point and what is behind it"),
            ("gdNIT", p["gdNIT"], "all behind the static slots"),
            ("gOffsetCorrectionStart", p["gOffsetCorrectionStart"], f"{design.free} macroticks behind the slots, "
                                                                    f"{us(design.free * macrotick)}, are free before it")]
    lines = ["", f"{'parameter':<25}{'value':>7}{'us':>11}  least, since at one less"]
    for name, value, told in rows:
        size = lengths.get(BEHIND if name == named(BEHIND) else name)
        text = decimal(value * size / 1000, 3) if size else ""
        lines.append(f"{name:<25}{value:>7}{text:>11}  {told}".rstrip())
    return lines


def slack_ns(design: Design, number: int, left: int, right: int) -> Fraction:
    """By how much a check holds, as a time: the sides of those of slots are of all macroticks of a cycle."""
    scale = design.parameters["gMacroPerCycle"] if number in (4, 5, 8, 9) else 1
    return ticks_ns(Fraction(left - right, scale), design)


def check_lines(answer: Answer) -> list[str]:
    design, lines = answer.best.design, ["", f"{'check':<7}{'left':>20}{'right':>20}{'slack us':>12}  binds"]
    bound = {name for one in answer.best.neighbours if not one.kept for name in one.by}
    for number, _, left, right in answer.best.bounds.checks:
        lines.append(f"C{number:<6}{left:>20}{right:>20}{decimal(slack_ns(design, number, left, right) / 1000, 3):>12}"
                     f"  {'yes' if f'C{number}' in bound else ''}".rstrip())
    return lines


def figures(design: Design) -> tuple[str, str, str]:
    return (decimal(design.precision_ns / 1000, 3), decimal(design.slot_ns / 1000, 3),
            decimal(design.free * design.macrotick_ns / 1000, 3))


def turned_lines(answer: Answer) -> list[str]:
    best = answer.best.design
    lines = ["", f"{'what it costs, or would buy':<48}{'precision':>10}{'slot':>9}{'free':>10}   us"]
    lines.append(f"{'as designed':<48}{figures(best)[0]:>10}{figures(best)[1]:>9}{figures(best)[2]:>10}")
    for one in answer.turned:
        if one.design is None:
            lines.append(f"{one.what:<48}{'none':>10}")
        else:
            precision, slot, free = figures(one.design)
            lines.append(f"{one.what:<48}{precision:>10}{slot:>9}{free:>10}")
    for one in answer.turned:
        if one.design is None:
            lines += field("", f"none with {one.what}: {one.why}")
    return lines


def other_lines(answer: Answer) -> list[str]:
    """The next designs and in what they differ from the best."""
    lines, best = [], answer.best.design
    for number, one in enumerate(answer.confirmed[1:], 2):
        design = one.design
        mine, other = parameters_of(best.task, best.parameters), parameters_of(design.task, design.parameters)
        differs = ", ".join(f"{name} {value}" for name, value in other.items() if mine.get(name) != value)
        precision, slot, free = figures(design)
        lines += field("Second best" if number == 2 else f"{number}.", f"{precision} us, a slot of {slot} us, {free} us free: {differs}")
    return lines + field("Designs", f"{answer.found.count} of {answer.found.tried} sets of macroticks and compensations have one, each "
                                    "the least there is of it")


def quoted_lines(answer: Answer) -> list[str]:
    lines = ["", *field("", "Of the standard, by formulas quoted from memory, not proved; hold them against your copy:")]
    for name, value, unit in quoted(answer.best.design, answer.wish):
        lines.append(f"  {name:<26}{value:>12} {unit}")
    return lines


def held_lines(answer: Answer) -> list[str]:
    """Why a design is one though C1 fails of it."""
    design = answer.best.design
    if not design.task.held:
        return []
    left, right = design.bounds[1]
    short = decimal(Fraction(right - left, TICKS), 3)
    return field("Held walk", f"C1 fails by {short} microticks, but the walk is held: oscillators do not change, and lengths walk by less "
                              "than two thirds of a microtick in a double cycle, so they come less than one beyond their range, for which "
                              f"the rate limit has room. Where frames are lost it is proved of {design.bounds.walks} double cycles only; "
                              "a damping of one more meets C1")


def note_lines(answer: Answer) -> Iterator[str]:
    wish = answer.wish
    if not wish.flutter_ns:
        much = "more than a tick" if wish.joins or wish.change else "two thirds of a microtick"
        yield from field("WARNING", f"delays that flutter by nothing at all are stated, and no transceiver keeps that: with {much} of it a "
                                    "damping of one more is asked for (below), so state what your hardware has")
    for note in answer.notes:
        yield from field("WARNING", note)
    if not wish.free:
        yield from field("Quoted", "slot length and pRateCorrectionOut keep to two formulas of the standard too, quoted from memory; "
                                   "--free leaves them out")


def page(answer: Answer) -> str:
    """The page of a design."""
    lines = field("Verdict", verdict_words(answer)) + asked_lines(answer) + delay_lines(answer)
    design = answer.best.design
    if answer.now is not None:
        lines += field("Now", f"the file's own parameters have {us(ticks_ns(answer.now['precision'], design))}"
                              + ("" if all(holds(number, answer.now[number]) or number == 1 and answer.now.is_held and not answer.wish.joins
                                           for number in (1, 2, 3, 4, 5))
                                 else ", and a check fails with them"))
    lines += field("Precision", f"{us(design.precision_ns)} ({decimal(Fraction(design.bounds['precision'], TICKS), 3)} microticks), "
                                "proved from sync on")
    lines += field("Slots", f"{us(design.slot_ns)} each; {design.fitting} of them would fit into the cycle")
    lines += held_lines(answer) + parameter_lines(answer) + check_lines(answer) + turned_lines(answer) + [""] + other_lines(answer)
    for number, one in enumerate(answer.chain):
        lines += field("" if number else "Chain", f"{one.file or 'no file'}: {named(one.parameter)} to {one.value}: {one.told}")
    lines += [*note_lines(answer), *quoted_lines(answer), "", *field("Left out", LEFT_OUT), *field("Origin", ORIGIN)]
    return "\n".join(lines) + "\n"


def why_words(why: NoDesign) -> str:
    if why.name == "room":
        return "slots and offset correction have no room in the cycle"
    if why.name == "kept":
        return "the kept gdStaticSlot is too short for action point and what is behind it"
    who = "a held walk" if why.name == HELD else OTHERS.get(why.name, why.name)
    return f"{who} asks for more {named(why.parameter)} than its range or what is kept allows"


def no_page(answer: Answer) -> str:
    """The page where there is no design."""
    lines = field("Verdict", "NO: no parameters within their ranges keep all checks") + asked_lines(answer)
    for number, (why, count) in enumerate(sorted(answer.found.refused.items(), key=lambda one: -one[1])):
        lines += field("" if number else "In the way", f"of {count} of {answer.found.tried} sets of macroticks and compensations: "
                                                       f"{why_words(why)}")
    lines += field("Nearest", "; or ".join(answer.nearest) if answer.nearest else
                   "fewer slots, less payload or a longer cycle alone do not help")
    for note in answer.notes:
        lines += field("WARNING", note)
    return "\n".join(lines + field("Origin", ORIGIN)) + "\n"


# ---- for machines


def number_us(ns: Fraction) -> float:
    return float(decimal(ns / 1000, 6))


def design_object(design: Design) -> dict[str, Any]:
    return {"precision": {"ticks": design.bounds["precision"], "us": number_us(design.precision_ns)}, "slot_us": number_us(design.slot_ns),
            "macrotick_us": number_us(design.macrotick_ns), "free_us": number_us(design.free * design.macrotick_ns),
            "fitting_slots": design.fitting, "microtick_ns": float(design.task.microtick_ns),
            "parameters": parameters_of(design.task, design.parameters)}


def cost_object(one: Turned) -> dict[str, Any]:
    """What other hardware, or another wish, would come to."""
    if one.design is None:
        return {"what": one.what, "precision_us": None, "why": one.why}
    return {"what": one.what, "precision_us": number_us(one.design.precision_ns), "slot_us": number_us(one.design.slot_ns)}


def answer_object(answer: Answer) -> dict[str, Any]:
    """A design as an object: names and units stand in docs/FLEXLAB.md, "For machines"."""
    wish, found = answer.wish, answer.found
    head = {"file": answer.path, "found": bool(answer.confirmed), "for": answer.purpose, "kind": wish.kind, "join": wish.joins,
            "flutter_ns": float(wish.flutter_ns), "kept": dict(wish.kept), "designs": found.count, "tried": found.tried,
            "delays": [{"channel": name, "from_ns": float(low), "to_ns": float(high)} for name, low, high in wish.delays],
            "warnings": answer.notes}
    if not answer.confirmed:
        return {**head, "in_the_way": [{"demand": why.name, "parameter": named(why.parameter), "count": count, "told": why_words(why)}
                                       for why, count in sorted(found.refused.items(), key=lambda one: -one[1])],
                "nearest": answer.nearest}
    best = answer.best
    return {**head, "design": design_object(best.design),
            "least_by": [{"parameter": named(one.parameter), "one_less": one.value, "by": one.by,
                          "check": one.check and {"check": one.check[0], "left": one.check[1], "right": one.check[2]},
                          **({} if one.lasts is None else {"lasts_double_cycles": one.lasts})}
                         for one in best.neighbours],
            "checks": [{"check": f"C{number}", "holds": held, "left": left, "right": right,
                        "slack_us": number_us(slack_ns(best.design, number, left, right))}
                       for number, held, left, right in best.bounds.checks],
            "costs": [cost_object(one) for one in answer.turned],
            "others": [design_object(one.design) for one in answer.confirmed[1:]],
            "chain": [{"parameter": named(one.parameter), "value": one.value, "by": one.name, "told": one.told, "file": one.file}
                      for one in answer.chain],
            "quoted": {name: value for name, value, _ in quoted(best.design, wish)}}


# ---- its TOML file


def toml_of(answer: Answer, nodes: dict[int, str], sync: list[int],
            delays: dict[str, dict[tuple[int, int], tuple[Fraction, Fraction]]]) -> str:
    """The cluster of a design as a TOML file for `flexlab run`: oscillators from one limit to the other, delays amid theirs."""
    design = answer.best.design
    task, wish = design.task, answer.wish
    lines = [f"# Designed by flexlab {version()} from {answer.path}: {us(design.precision_ns)} is proved,",
             f"# {kind_words(wish)}, for delays that flutter by {shown_ns(wish.flutter_ns)} ns.", "", "[bench]",
             f"microtick_ns = {shown_ns(task.microtick_ns)}", f"bit_rate_mbit = {shown_ns(wish.bit_rate)}",
             f"start_bits = {wish.start_bits}", "", "[cluster]"]
    remarks = {"pMicroPerCycle": f"a cycle of {us(wish.cycle_ns)}",
               "gMacroPerCycle": f"a macrotick of {decimal(design.macrotick_ns / 1000, 6)} us", "gdStaticSlot": us(design.slot_ns),
               "gdNIT": "all behind the static slots", **dict.fromkeys(CHOSEN, "chosen")}
    for name, value in parameters_of(task, design.parameters).items():
        if not name.startswith("x"):
            lines.append(f"{name} = {value}" + (f"    # {remarks[name]}" if name in remarks else ""))
    lines += ["", "[limits]", f"xRateBound = {task.rate}", f"xChangeBound = {task.change}",
              f"xDelayError = {task.error}    # {decimal(ticks_ns(task.error, design), 1)} ns", "", "[run]", "double_cycles = 100"]
    fastest, count = min(task.rate, 1497), len(nodes)
    for place, (number, channels) in enumerate(nodes.items()):
        ppm = rounded(fastest - Fraction(2 * fastest * place, max(1, count - 1)))
        lines += ["", "[[node]]", f"id = {number}", f'channels = "{channels}"', f"ppm = {ppm}"]
        if number in sync:
            lines += [f"key_slot = {sync.index(number) + 1}", "coldstart = true"]
    for channel, pairs in delays.items():
        for (sender, receiver), (low, high) in pairs.items():
            lines += ["", "[[delay]]", f"from = {sender}", f"to = {receiver}", f'channels = "{channel}"',
                      f"ns = {shown_ns((low + high) / 2)}"]
    lines += said_lines(answer, sync)
    return "\n".join(lines) + "\n"


def said_lines(answer: Answer, sync: list[int]) -> Iterator[str]:
    """A two-faced node for those that are arbitrary in the wish, for the reader to put in."""
    for number in sync[len(sync) - answer.wish.arbitrary:] if answer.wish.arbitrary else []:
        correct = [node for node in sync if node < sync[len(sync) - answer.wish.arbitrary]]
        middle = len(correct) // 2
        yield from ("", f"# Take the comment signs away, and node {number} says two things:", "# [[two_faced]]", f"# node = {number}",
                    f"# early = {correct[:middle]}", f"# late = {correct[middle:]}", "# us = 1.5")


def of_range(name: str, value: int) -> str | None:
    """Why a kept value is none of its parameter, or None."""
    low, high, unit, _ = ranges.NAMES[name]
    return None if low <= value <= high else f"{name} is from {low} to {high}{' ' + unit if unit else ''}"
