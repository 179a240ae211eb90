"""The requests of both programs as functions. Each answers a frozen dataclass, or raises one of `flexray.errors`.

A file is given as its bytes, as its text (a `str`), or as a path (a `pathlib.Path`, or any other `os.PathLike`), which is read
here. So `flexray.run(Path("params.csv"), drift_bytes, "")` has an empty script.
"""
from __future__ import annotations

import os
from typing import Union

from . import texts
from .errors import BY_STATUS, FlexrayError, NoFrame, ReadFault, Usage
from .library import DONE, MOST, NO, Answer, given_bytes, request, series_request, shown, whole
from .results import (Bound, Capture, Frame, LostBound, Observation, PowerOn, Report, Series, Settled, SharpBound, SharpReport,
                      SharpSeries, SharpSettled, SharpVerdict, Startup, Trace, Upgraded, Vectors, Verdict)

__all__ = ["Input", "Raw", "bound", "sharp_bound", "lost_bound", "run", "sharp_run", "series", "sharp_series", "trace", "check",
           "sharp_check", "observe", "settle", "sharp_settle", "power_on", "cold", "frame", "capture", "nm", "make", "upgrade"]

#: A file of records: its bytes, its text, or its path.
Input = Union[bytes, bytearray, memoryview, str, "os.PathLike[str]"]
#: A file of raw bytes, or its path.
Raw = Union[bytes, bytearray, memoryview, "os.PathLike[str]"]


#: What the program writes where words are no request.
_USAGE = "usage: flexray COMMAND WORDS"
# The ranges of the numbers among the words (docs/FORMATS.md).
_TICKS, _FLUTTER, _WIDTH, _SEED, _DOUBLES = (0, 1_000_000_000_000), (0, 20_000_000), (1, 12), (0, 4_294_967_295), (1, 10_000)
_LOST = (1, 1_000)


def _content(role: str, given: Input, raw: bool = False) -> bytes:
    if isinstance(given, os.PathLike):
        try:
            with open(given, "rb") as file:
                # One byte more than a file may have, so that a longer one is answered by TooLong and not read whole.
                return file.read(MOST + 1)
        except OSError as fault:
            raise ReadFault(f"{role}: read fault") from fault
        except ValueError as fault:
            raise ValueError(f"{role}: {fault} in the path {shown(os.fspath(given))}") from fault
    if isinstance(given, str):
        if raw:
            raise TypeError(f"{role} is raw bytes: give them as bytes (bytes.fromhex makes them of digits), or a path as "
                            "pathlib.Path(...)")
        if given and "," not in given and "\n" not in given:
            raise ValueError(f"{role}: {shown(given)} is no text of records; a path is given as pathlib.Path({shown(given)})")
        try:
            return given.encode()
        except UnicodeEncodeError as fault:
            raise ValueError(f"{role}: the text has a half of a pair of surrogates at {fault.start}; give the bytes") from fault
    return given_bytes(role, given, f"give its bytes, {'' if raw else 'its text, '}or its path as pathlib.Path(...)")


def _text(answer: Answer) -> str:
    if answer.status != DONE:
        raise BY_STATUS.get(answer.status, FlexrayError)(answer.line)
    return answer.text


def _asked(*words: object, **files: Input) -> str:
    return _text(_answered(words, files))


def _answered(words: tuple[object, ...], files: dict[str, Input]) -> Answer:
    return request([str(word) for word in words], *(_content(role, given) for role, given in files.items()))


def _whole(name: str, value: int, least_most: tuple[int, int]) -> int:
    """A number among the words: True, 1.5 and "7 sharp 0" are none."""
    found, (least, most) = whole(name, value), least_most
    if not least <= found <= most:
        raise Usage(_USAGE, f"{name}: {shown(found)} is not from {least} to {most}")
    return found


def _channel(channel: str) -> str:
    if not isinstance(channel, str):
        raise TypeError(f'channel: {shown(channel)} is neither "A" nor "B"')
    if channel not in ("A", "B"):
        raise Usage(_USAGE, f"channel: {shown(channel)} is neither A nor B")
    return channel


def _join(join: bool) -> list[str]:
    if not isinstance(join, bool):
        raise TypeError(f"join: {shown(join)} is neither True nor False")
    return ["join"] if join else []


def bound(params: Input, *, join: bool = False) -> Bound:
    """The bounds and checks of a cluster's parameters; with `join` the reach and the checks of one that nodes join too."""
    return texts.bound(_asked("bound", "first", *_join(join), params=params))


def sharp_bound(params: Input, flutter: int = 0, *, join: bool = False) -> SharpBound:
    """The sharper bounds where delays flutter by at most so many ticks, 0 to 20,000,000; with `join` the reach and the checks
    of a cluster that nodes join too."""
    return texts.sharp_bound(_asked("bound", "first", "sharp", _whole("flutter", flutter, _FLUTTER), *_join(join), params=params))


def lost_bound(params: Input, flutter: int = 0, count: int = 1) -> LostBound:
    """How far clocks come apart where any frames are lost in so many double cycles in a row, 1 to 1,000, and delays flutter by at
    most so many ticks, 0 to 20,000,000; without arbitrary sync nodes."""
    return texts.lost_bound(_asked("bound", "first", "sharp", _whole("flutter", flutter, _FLUTTER), "lost", _whole("count", count, _LOST),
                                   params=params))


def upgrade(params: Input) -> Upgraded:
    """The parameters as a file of version 2, with a delay compensation for each channel."""
    return texts.upgraded(_asked("upgrade", "first", params=params))


def run(params: Input, drift: Input, script: Input = b"") -> Report:
    """Runs the cluster, and answers the report; without a script nothing is done to frames, and no node is arbitrary."""
    return texts.report(_asked("run", "first", "second", "third", params=params, drift=drift, script=script))


def sharp_run(params: Input, drift: Input, script: Input = b"") -> SharpReport:
    """Runs the cluster, and answers what the sharper bounds say of the run, for the flutter of its own delays, and the report."""
    return texts.sharp_report(_asked("run", "first", "second", "third", "sharp", params=params, drift=drift, script=script))


def trace(params: Input, drift: Input, script: Input = b"") -> Trace:
    """Runs the cluster, and answers what each node did and measured, cycle by cycle."""
    return texts.trace(_asked("trace", "first", "second", "third", params=params, drift=drift, script=script))


def series(params: Input, drift: Input, script: Input = b"") -> Series:
    """Runs the cluster, and answers the greatest skew of each cycle."""
    files = {"params": params, "drift": drift, "script": script}
    return texts.series(_text(series_request(["first", "second", "third"], *(_content(*pair) for pair in files.items()))))


def sharp_series(params: Input, drift: Input, script: Input = b"") -> SharpSeries:
    """The same, held against the sharper precision too, for the flutter of the run's own delays."""
    files = {"params": params, "drift": drift, "script": script}
    return texts.sharp_series(_text(series_request(["first", "second", "third", "sharp"],
                                                   *(_content(*pair) for pair in files.items()))))


def check(params: Input, trace: Input) -> Verdict:
    """Whether a recorded trace is lawful and covered. One that does not pass is an answer, and raises nothing."""
    answer = _answered(("check", "first", "second"), {"params": params, "trace": trace})
    return texts.failed_verdict(answer.line) if answer.status == NO else texts.verdict(_text(answer))


def sharp_check(params: Input, trace: Input) -> SharpVerdict:
    """What the sharper bounds promise of a recorded trace that no node joins. One that does not pass raises nothing."""
    answer = _answered(("check", "first", "second", "sharp"), {"params": params, "trace": trace})
    return texts.failed_sharp_verdict(answer.line) if answer.status == NO else texts.sharp_verdict(_text(answer))


def observe(params: Input, log: Input) -> Observation:
    """What the log of a bus analyzer, each frame with a stamp of its one clock, tells of the cluster's clocks: limits
    of the skew of each cycle in ticks, and of each sender's cycle lengths in ticks and offset terms in microticks."""
    return texts.observation(_asked("observe", "first", "second", params=params, log=log))


def _spread(start: int, rate: int) -> tuple[int, int]:
    return _whole("start", start, _TICKS), _whole("rate", rate, _TICKS)


def settle(params: Input, start: int, rate: int) -> Settled:
    """How soon clocks are in sync whose first starts, and first lengths of cycles, lie at most so many ticks apart."""
    return texts.settled(_asked("settle", "first", *_spread(start, rate), params=params))


def sharp_settle(params: Input, start: int, rate: int, flutter: int = 0) -> SharpSettled:
    """How soon they are in sharp sync, where delays flutter by at most so many ticks."""
    return texts.sharp_settled(_asked("settle", "first", *_spread(start, rate), "sharp", _whole("flutter", flutter, _FLUTTER),
                                      params=params))


def power_on(params: Input, flutter: int = 0) -> PowerOn:
    """How long it takes from the first power-on until all are in sharp sync that join the leader in its first double cycle."""
    return texts.power_on(_asked("settle", "first", "power", _whole("flutter", flutter, _FLUTTER), params=params))


def cold(params: Input, power: Input) -> Startup:
    """Who leads the startup of a cluster whose nodes are switched as the power file says."""
    return texts.startup(_asked("cold", "first", "second", params=params, power=power))


def frame(channel: str, data: Raw) -> Frame:
    """The frame that these bytes are on channel A or B; raises NoFrame where they are none."""
    answer = request(["frame", _channel(channel), "first"], _content("frame", data, raw=True))
    if answer.status == NO:
        raise NoFrame(answer.line)
    return texts.frame(_text(answer))


def capture(channel: str, data: Raw) -> Capture:
    """The frames one behind the other in a recording of channel A or B, up to the first fault."""
    return texts.capture(_text(request(["capture", _channel(channel), "first"], _content("capture", data, raw=True))))


def nm(width: int, vectors: Input) -> Vectors:
    """The network management vectors of a recording, of 1 to 12 bytes."""
    return texts.vectors(_asked("nm", _whole("width", width, _WIDTH), "first", vectors=vectors))


def make(seed: int, doubles: int) -> Report:
    """The report of the cluster of eight nodes that a seed makes, over so many double cycles."""
    return texts.report(_asked("make", _whole("seed", seed, _SEED), _whole("doubles", doubles, _DOUBLES)))
