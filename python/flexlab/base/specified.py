"""What the specification says: the range of each parameter, and the form of each record of a file.
Written by tools/forms from specs/Holding.antt of seven crates, and what these name."""
from __future__ import annotations

# A field: its name, its kind, and the ends of its range where that is of numbers.
Field = tuple[str, str, 'int | None', 'int | None']
EMPTY: Field = ("", "empty", None, None)
# The least and the greatest value of each parameter.
RANGES = {
    "gMacroPerCycle": (10, 16000),
    "pMicroPerCycle": (10, 640000),
    "gNumberOfStaticSlots": (1, 1023),
    "gdStaticSlot": (2, 1000),
    "gdActionPointOffset": (1, 63),
    "gdNIT": (1, 15999),
    "gPayloadLengthStatic": (0, 127),
    "gOffsetCorrectionStart": (1, 15999),
    "gMaxWithoutClockCorrectionPassive": (1, 15),
    "gMaxWithoutClockCorrectionFatal": (1, 15),
    "pAllowHaltDueToClock": (0, 1),
    "pAllowPassiveToActive": (0, 31),
    "pClusterDriftDamping": (0, 100),
    "pOffsetCorrectionOut": (1, 16000),
    "pRateCorrectionOut": (1, 2000),
    "pDelayCompensation": (0, 200),
    "pDelayCompensationA": (0, 200),
    "pDelayCompensationB": (0, 200),
    "xRateBound": (0, 1500),
    "xChangeBound": (0, 1500),
    "xDelayError": (0, 10000000),
}
# Fields that are words: which.
SPELT: dict[str, tuple[str, ...]] = {
    "channels": ("A", "B", "AB"),
    "channel": ("A", "B"),
    "state": ("active", "passive", "halt"),
}
# Fields whose range a parameter decides: how many times its value, and which number, each end is.
LIMITED: dict[str, tuple[str, tuple[int, int], tuple[int, int]]] = {
    "rate": ("pRateCorrectionOut", (-1, 0), (1, 0)),
    "bit": ("gPayloadLengthStatic", (0, 0), (16, 63)),
    "offset": ("pOffsetCorrectionOut", (-1, 0), (1, 0)),
}
# Of the bytes of a frame, as digits.
FRAME_DIGITS = 524
# Of each file how many fields a record has, and by its first field those behind it; then those of a record whose
# second field is empty, where such a one has a form of its own.
RECORDS: dict[str, tuple[int, dict[str, tuple[Field, ...]], dict[str, tuple[Field, ...]]]] = {
    "params": (5, {
        "version": (("VERSION", "number", 2, 2), EMPTY, EMPTY, EMPTY),
        "param": (("NAME", "name", None, None), ("VALUE", "value", None, None), EMPTY, EMPTY),
        "node": (
            ("ID", "number", 1, 64), ("KEY", "key", 1, 1023), ("CHANNELS", "channels", None, None), ("COLD", "number", 0, 1)),
        "slot": (
            ("SLOT", "number", 1, 1023), ("NODE", "node", 1, 64), ("BASE", "number", 0, 63), ("REPETITION", "number", 1, 64)),
    }, {}),
    "drift": (6, {
        "doubles": (("COUNT", "number", 1, 100000), EMPTY, EMPTY, EMPTY, EMPTY),
        "start": (("NODE", "node", 1, 64), ("TICKS", "number", 0, 1000000000000), ("RATE", "rate", None, None), EMPTY, EMPTY),
        "length": (("NODE", "node", 1, 64), ("FROM", "number", 0, 199999), ("TICKS", "number", 500000, 1500000), EMPTY, EMPTY),
        "delay": (
            ("SENDER", "node", 1, 64), ("RECEIVER", "node", 1, 64), ("CHANNEL", "channel", None, None),
            ("FROM", "number", 0, 199999), ("TICKS", "number", 0, 1000000000)),
    }, {}),
    "script": (7, {
        "arbitrary": (("NODE", "node", 1, 64), EMPTY, EMPTY, EMPTY, EMPTY, EMPTY),
        "say": (
            ("CYCLE", "number", 0, 199999), ("SENDER", "node", 1, 64), ("RECEIVER", "node", 1, 64),
            ("CHANNEL", "channel", None, None), ("SHIFT", "number", -1000000000000, 1000000000000), ("BYTES", "hex", None, None)),
        "lose": (
            ("CYCLE", "number", 0, 199999), ("SENDER", "node", 1, 64), ("RECEIVER", "node", 1, 64),
            ("CHANNEL", "channel", None, None), EMPTY, EMPTY),
        "flip": (
            ("CYCLE", "number", 0, 199999), ("SENDER", "node", 1, 64), ("RECEIVER", "node", 1, 64),
            ("CHANNEL", "channel", None, None), ("BIT", "bit", None, None), EMPTY),
        "join": (("DOUBLE", "number", 0, 99999), ("NODE", "node", 1, 64), ("REFERENCE", "node", 1, 64), EMPTY, EMPTY, EMPTY),
    }, {}),
    "power": (3, {
        "cycles": (("COUNT", "number", 1, 1000), EMPTY),
        "on": (("NODE", "node", 1, 64), ("TIME", "number", 0, 16000000)),
        "off": (("NODE", "node", 1, 64), ("TIME", "number", 0, 16000000)),
    }, {}),
    "vectors": (3, {
        "": (("CYCLE", "number", 0, 199999), ("CHANNEL", "channel", None, None), ("BYTES", "hex", None, None)),
    }, {}),
    "log": (5, {
        "unit": (("TICKS", "number", 1, 1000000000), EMPTY, EMPTY, EMPTY),
        "drift": (("PPM", "number", 0, 1000), EMPTY, EMPTY, EMPTY),
        "error": (("TICKS", "number", 0, 1000000000), EMPTY, EMPTY, EMPTY),
        "jitter": (("TICKS", "number", 0, 1000000000), EMPTY, EMPTY, EMPTY),
        "since": (("CYCLE", "number", 0, 199998), EMPTY, EMPTY, EMPTY),
        "flutter": (("TICKS", "number", 0, 1000000000), EMPTY, EMPTY, EMPTY),
        "lost": (("COUNT", "number", 0, 14), EMPTY, EMPTY, EMPTY),
        "whole": (EMPTY, EMPTY, EMPTY, EMPTY),
        "arbitrary": (("NODE", "node", 1, 64), EMPTY, EMPTY, EMPTY),
        "delay": (
            ("NODE", "node", 1, 64), ("CHANNEL", "channel", None, None), ("LOW", "number", 0, 1000000000),
            ("HIGH", "number", 0, 1000000000)),
        "frame": (
            ("STAMP", "number", 0, 900000000000000000), ("CHANNEL", "channel", None, None), ("BYTES", "hex", None, None), EMPTY),
        "head": (
            ("STAMP", "number", 0, 900000000000000000), ("CHANNEL", "channel", None, None), ("BYTES", "hex", None, None), EMPTY),
    }, {
        "delay": (EMPTY, EMPTY, ("LOW", "number", 0, 1000000000), ("HIGH", "number", 0, 1000000000)),
    }),
    "trace": (8, {
        "run": (("DOUBLES", "number", 1, 100000), EMPTY, EMPTY, EMPTY, EMPTY, EMPTY, EMPTY),
        "arbitrary": (("NODE", "node", 1, 64), EMPTY, EMPTY, EMPTY, EMPTY, EMPTY, EMPTY),
        "join": (
            ("NODE", "node", 1, 64), ("REFERENCE", "node", 1, 64), ("DOUBLE", "number", 0, 99999), EMPTY, EMPTY, EMPTY, EMPTY),
        "cycle": (
            ("CYCLE", "number", 0, 199999), ("NODE", "node", 1, 64), ("START", "number", 0, 900000000000000000),
            ("LENGTH", "number", 500000, 1500000), ("RATE", "rate", None, None), ("OFFSET", "offset", None, None),
            ("STATE", "state", None, None)),
        "dev": (
            ("CYCLE", "number", 0, 199999), ("RECEIVER", "node", 1, 64), ("SLOT", "number", 1, 1023),
            ("CHANNEL", "channel", None, None), ("VALUE", "number", -1000000, 1000000), EMPTY, EMPTY),
    }, {}),
}
