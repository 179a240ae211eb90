"""What a call raises where the program would end with another status than Done."""
from __future__ import annotations

import re

__all__ = ["FlexrayError", "NoFrame", "Usage", "ReadFault", "Refused", "NoMemory", "TooLong", "LibraryMissing"]


class FlexrayError(Exception):
    """The least that all of these are. `line` is what the program writes on standard error, `status` its exit status."""

    status = 0

    def __init__(self, line: str) -> None:
        super().__init__(line)
        self.line = line


class NoFrame(FlexrayError):
    """The bytes given to `frame` are no frame on that channel. `reason` is the first fault, as `header crc kept 1F1 computed
    2F2`."""

    status = 1

    def __init__(self, line: str) -> None:
        super().__init__(line)
        self.reason = line.partition(": ")[2]


class Usage(FlexrayError):
    """The words are no request: a number among them is outside its range, or a channel is neither A nor B. The message names the
    argument and its range; `line` is the program's."""

    status = 2

    def __init__(self, line: str, told: str = "") -> None:
        super().__init__(line)
        if told:
            self.args = (told,)


class ReadFault(FlexrayError):
    """A path that was given could not be read; the cause is an OSError. `role` is which file it was to be."""

    status = 3

    def __init__(self, line: str) -> None:
        super().__init__(line)
        self.role = line.partition(":")[0]


class Refused(FlexrayError):
    """A file is not accepted by its rules (docs/FORMATS.md).

    `role` is `params`, `drift`, `script`, `trace`, `log`, `power` or `vectors`. `record` is the number of the refused
    record, from 1, and `reason` the first reason that holds of it, as `OutOfRange`. Where it is no single record,
    `record` is None and `reason` what the file lacks: `missing NAME`, `constraint NUMBER` or `incomplete ROWS`.
    """

    status = 5

    def __init__(self, line: str) -> None:
        super().__init__(line)
        self.role, _, rest = line.partition(": ")
        found = re.fullmatch(r"record (\d+): (\w+)", rest)
        self.record: int | None = int(found[1]) if found else None
        self.reason: str = found[2] if found else rest


class NoMemory(FlexrayError, MemoryError):
    """Memory ran out within the library."""

    status = 6


class TooLong(FlexrayError):
    """A file has more than 16,777,216 bytes. `role` is which one."""

    status = 7

    def __init__(self, line: str) -> None:
        super().__init__(line)
        self.role = line.partition(":")[0]


class LibraryMissing(FlexrayError, ImportError):
    """The shared object `libflexray.so.0` is not found."""


BY_STATUS = {2: Usage, 3: ReadFault, 5: Refused, 6: NoMemory, 7: TooLong}
