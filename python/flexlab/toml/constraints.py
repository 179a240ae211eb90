"""The eight constraints of a cluster's parameters with the numbers put in (docs/FORMATS.md)."""
from __future__ import annotations

from collections.abc import Iterator
from typing import TYPE_CHECKING
from ..base import ranges
from ..pages.advice import latest_start

if TYPE_CHECKING:
    from ..program.known import AnyKnown


def with_lines(known: AnyKnown, *names: str) -> str:
    return "; ".join(f"line {known.line(name)}: {name} {known.parameter(name)}" for name in names)


def explain_constraint(number: int, known: AnyKnown) -> list[str]:
    """Lines that say what the constraint asks and what the file has."""
    value = known.value
    if number == 1:
        slots, slot, rest = value("gNumberOfStaticSlots"), value("gdStaticSlot"), value("gdNIT")
        macros = value("gMacroPerCycle")
        return ["gMacroPerCycle = gNumberOfStaticSlots * gdStaticSlot + gdNIT",
                f"{macros} is not {slots} * {slot} + {rest} = {slots * slot + rest}: "
                f"{macroticks(abs(macros - slots * slot - rest))} too "
                + ("many" if macros > slots * slot + rest else "few") + " in gMacroPerCycle, so "
                + (f"gdNIT = {macros - slots * slot} is one way" if 0 < macros - slots * slot <= 15999
                   else "fewer or shorter static slots are wanted"),
                with_lines(known, "gMacroPerCycle", "gNumberOfStaticSlots", "gdStaticSlot", "gdNIT")]
    if number == 2:
        return ["gdActionPointOffset < gdStaticSlot",
                f"{value('gdActionPointOffset')} is not below {value('gdStaticSlot')}",
                with_lines(known, "gdActionPointOffset", "gdStaticSlot")]
    if number == 3:
        segment = value("gNumberOfStaticSlots") * value("gdStaticSlot")
        return ["gNumberOfStaticSlots * gdStaticSlot < gOffsetCorrectionStart < gMacroPerCycle",
                f"gOffsetCorrectionStart, {value('gOffsetCorrectionStart')}, is not above {segment} and below "
                f"{value('gMacroPerCycle')}",
                with_lines(known, "gNumberOfStaticSlots", "gdStaticSlot", "gOffsetCorrectionStart", "gMacroPerCycle")]
    if number == 4:
        micros, rate = value("pMicroPerCycle"), value("pRateCorrectionOut")
        macros, start, limit = value("gMacroPerCycle"), value("gOffsetCorrectionStart"), value("pOffsetCorrectionOut")
        left, right = (micros - rate) * (macros - start), macros * (macros - start + limit + 1)
        return ["(pMicroPerCycle - pRateCorrectionOut) * (gMacroPerCycle - gOffsetCorrectionStart) >= "
                "gMacroPerCycle * (gMacroPerCycle - gOffsetCorrectionStart + pOffsetCorrectionOut + 1): every "
                "macrotick keeps a microtick, however the terms are",
                f"({micros} - {rate}) * ({macros} - {start}) = {left} is less than "
                f"{macros} * ({macros} - {start} + {limit} + 1) = {right}",
                room_words(known),
                with_lines(known, "pMicroPerCycle", "pRateCorrectionOut", "gMacroPerCycle", "gOffsetCorrectionStart",
                           "pOffsetCorrectionOut")]
    if number == 5:
        return ["gMaxWithoutClockCorrectionPassive <= gMaxWithoutClockCorrectionFatal",
                f"{value('gMaxWithoutClockCorrectionPassive')} is above {value('gMaxWithoutClockCorrectionFatal')}",
                with_lines(known, "gMaxWithoutClockCorrectionPassive", "gMaxWithoutClockCorrectionFatal")]
    if number == 6:
        keys = known.keys()
        named = ", ".join(str(node) for node, _, _ in keys) or "none"
        return ["1 to 15 nodes have a key slot", f"{len(keys)} have one: {named}"]
    if number == 7:
        return ["key slots are static slots, and all different", *faulty_keys(known)]
    return ["a further slot is a static slot and no key slot", *faulty_slots(known)]


def room_words(known: AnyKnown) -> str:
    """The values of one parameter alone with which constraint 4 holds."""
    names = ("gMacroPerCycle", "pMicroPerCycle", "pRateCorrectionOut", "pOffsetCorrectionOut", "gNumberOfStaticSlots",
             "gdStaticSlot")
    values = {name: known.value(name) for name in names}
    macros, rest = values["gMacroPerCycle"], values["gMacroPerCycle"] - known.value("gOffsetCorrectionStart")
    start = latest_start(values)
    most = (values["pMicroPerCycle"] - values["pRateCorrectionOut"]) * rest // macros - rest - 1
    ways = [f"gOffsetCorrectionStart = {start} or earlier is one way"] if start is not None else []
    if most >= ranges.PARAMETERS["pOffsetCorrectionOut"][0]:
        ways.append(f"pOffsetCorrectionOut = {most} or lower is {'another' if ways else 'one way'}")
    return ", ".join(ways) or ("no gOffsetCorrectionStart behind the static slots and no pOffsetCorrectionOut helps: "
                               "pMicroPerCycle is wanted greater")


def macroticks(count: int) -> str:
    return f"{count} macrotick" + ("" if count == 1 else "s")


def broken(known: AnyKnown) -> list[int]:
    """The numbers of the constraints that do not hold, where every parameter is known."""
    value, keys = known.value, known.keys()
    macros, slots = value("gMacroPerCycle"), value("gNumberOfStaticSlots") * value("gdStaticSlot")
    start = value("gOffsetCorrectionStart")
    rest = macros - start
    holds = {
        1: macros == slots + value("gdNIT"),
        2: value("gdActionPointOffset") < value("gdStaticSlot"),
        3: slots < start < macros,
        4: ((value("pMicroPerCycle") - value("pRateCorrectionOut")) * rest
            >= macros * (rest + value("pOffsetCorrectionOut") + 1)),
        5: value("gMaxWithoutClockCorrectionPassive") <= value("gMaxWithoutClockCorrectionFatal"),
        6: 1 <= len(keys) <= 15, 7: not list(faulty_keys(known)), 8: not list(faulty_slots(known)),
    }
    return [number for number, held in holds.items() if not held]


def faulty_keys(known: AnyKnown) -> Iterator[str]:
    most = known.value("gNumberOfStaticSlots")
    seen: dict[int, int] = {}
    for node, key, record in known.keys():
        if key > most:
            yield f"line {record.line}: node {node} has key slot {key}, and there are {most} static slots"
        if key in seen:
            yield f"line {record.line}: node {node} has key slot {key}, as node {seen[key]} has"
        seen.setdefault(key, node)


def faulty_slots(known: AnyKnown) -> Iterator[str]:
    most, keys = known.value("gNumberOfStaticSlots"), {key: node for node, key, _ in known.keys()}
    for slot, (node, record) in known.slots.items():
        if slot > most:
            yield f"line {record.line}: slot {slot} of node {node} is none of the {most} static slots"
        if slot in keys:
            yield f"line {record.line}: slot {slot} of node {node} is the key slot of node {keys[slot]}"
