"""The parameters of a cluster: range, unit and meaning of each, as docs/FORMATS.md has them. Ranges are those of the specification,
from which tools/forms writes specified.py."""
from collections.abc import Mapping
from typing import NamedTuple

from . import specified


class Parameter(NamedTuple):
    """The least and the greatest value of a parameter, its unit, and what it is."""
    least: int
    most: int
    unit: str
    meaning: str


# Values of parameters by their names.
Parameters = dict[str, int]

# In a file of version 2 each channel has a compensation of its own.
CHANNELS = {f"pDelayCompensation{channel}": channel for channel in "AB"}
# The unit of each, and what it is.
MEANT = {
    "gMacroPerCycle": ("macroticks", "a cycle"),
    "pMicroPerCycle": ("microticks", "a cycle, before correction"),
    "gNumberOfStaticSlots": ("slots", "static slots a cycle"),
    "gdStaticSlot": ("macroticks", "a static slot"),
    "gdActionPointOffset": ("macroticks", "from the start of a static slot to its action point"),
    "gdNIT": ("macroticks", "the rest of the cycle after the static slots"),
    "gPayloadLengthStatic": ("two-byte words", "the payload of a static frame"),
    "gOffsetCorrectionStart": ("macroticks", "the macrotick at which the offset correction starts"),
    "gMaxWithoutClockCorrectionPassive": ("double cycles", "without a correction term, until a node is passive"),
    "gMaxWithoutClockCorrectionFatal": ("double cycles", "without a correction term, until a node may halt"),
    "pAllowHaltDueToClock": ("", "whether a node may halt: 1 yes, 0 no"),
    "pAllowPassiveToActive": ("double cycles", "good ones until a passive node is active; 0: never"),
    "pClusterDriftDamping": ("microticks", "by which the rate term is damped toward 0"),
    "pOffsetCorrectionOut": ("microticks", "the limit of the offset term"),
    "pRateCorrectionOut": ("microticks", "the limit of the rate term"),
    "pDelayCompensation": ("microticks", "taken off each measured arrival"),
    "xRateBound": ("ticks", "the greatest distance of a microtick's length from nominal"),
    "xChangeBound": ("ticks", "the greatest change of that length from one cycle to the next"),
    "xDelayError": ("ticks", "the greatest distance of a delay from the compensation"),
}
PARAMETERS = {name: Parameter(*ends, *MEANT.get(name, ("", ""))) for name, ends in specified.RANGES.items() if name not in CHANNELS}
OF_CHANNELS = {name: Parameter(*specified.RANGES[name], PARAMETERS["pDelayCompensation"].unit,
                               f"taken off each arrival measured on channel {channel}") for name, channel in CHANNELS.items()}
NAMES = {**PARAMETERS, **OF_CHANNELS}


def table(version: int) -> dict[str, Parameter]:
    """The parameters of a file of this version, in the order of its table."""
    if version == 1:
        return PARAMETERS
    names = [other for name in PARAMETERS for other in (OF_CHANNELS if name == "pDelayCompensation" else (name,))]
    return {name: NAMES[name] for name in names}


def version_of(parameters: Mapping[str, int]) -> int:
    """The version of the file that has these parameters."""
    return 1 if "pDelayCompensation" in parameters else 2


def compensation_name(parameters: Mapping[str, int], channel: str) -> str:
    """The name of the parameter that is the compensation of a channel."""
    return "pDelayCompensation" if version_of(parameters) == 1 else "pDelayCompensation" + channel


def compensation(parameters: Mapping[str, int], channel: str | None = None) -> int:
    """The delay compensation of a channel in microticks; without one the greater of both."""
    return max(parameters[compensation_name(parameters, one)] for one in channel or "AB")


def span(role: str, kind: str, name: str) -> tuple[int, int]:
    """The range of a number of a record."""
    for field, _, least, most in specified.RECORDS[role][1][kind]:
        if field == name and least is not None and most is not None:
            return least, most
    raise KeyError(name)


DOUBLES = span("drift", "doubles", "COUNT")
DOUBLE = span("script", "join", "DOUBLE")
CYCLES = span("script", "say", "CYCLE")
LENGTH = span("drift", "length", "TICKS")
DELAY = span("drift", "delay", "TICKS")
# How many senders a node may miss, of fifteen with key slots.
LOST = span("log", "lost", "COUNT")
START = span("drift", "start", "TICKS")
POWER = span("power", "on", "TIME")
# Of a run's ticks, and of a log's units.
TIMES = span("log", "frame", "STAMP")
SHIFT = span("script", "say", "SHIFT")
# Of the bytes of a frame, as digits.
FRAME_DIGITS = specified.FRAME_DIGITS
REPETITIONS = (1, 2, 4, 8, 16, 32, 64)
FILE_BYTES = 16777216
