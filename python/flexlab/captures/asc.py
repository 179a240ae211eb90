"""Text logs of a bus analyzer (ASC): rows of frames, whose fields their header CRC shows.

The columns of such a log differ from tool to tool, so they are stated, or common ones are tried. None is believed: a row counts
where the header CRC in it is that of its slot and payload length, with some sync and startup indicators. What the CRC does not
cover are the cycle count, which is held against the times, and the channels.
"""
import re
from dataclasses import dataclass
from fractions import Fraction
from itertools import product
from typing import Any
from collections.abc import Iterator
from typing import NamedTuple

from ..base.ending import NO, REFUSED, Stop, printable
from ..base.files import LONGEST, text_of
from .frames import header_crcs, proved_header
from ..toml.cluster import Cluster
from ..toml.source import Source
from ..toml.values import Table

LENGTHS = {"payload_bytes": 2, "payload_words": 1}
NEEDED = ("time", "channels", "slot", "cycle", "header_crc")
# What a tool writes between `RMSG` and the channels differs, as a client, the number of a cluster; and so further back.
COMMON = tuple(f"time Fr RMSG {'_ ' * before}channels slot cycle direction _ _ _ header_crc _ payload_bytes"
               for before in (2, 1, 3, 0))
CHANNELS = {"1": "A", "2": "B", "3": "AB", "A": "A", "B": "B", "AB": "AB"}
FRAMES, REQUEST = ("rx", "tx"), "txrq"
UNPROVED, OTHERS = "rows that their header CRC does not fit", "lines of other events"
REQUESTS = "rows of transmit requests, which are no frames on the bus"
TRIED, SILENT = 1000, 30
HINT = 'state them in [asc]: docs/FLEXLAB.md, "ASC files"'


# For each number of a row the bases in which it may be, and one for each.
Choices = list[tuple[int, ...]]
Bases = tuple[int, ...]


class Time(NamedTuple):
    """A time in picoseconds, with how many decimal places of a second it has."""
    ps: int
    places: int


class Numbers(NamedTuple):
    """Slot, words of the payload and header CRC; None for what is no number."""
    slot: int | None
    words: int | None
    crc: int | None


@dataclass
class Layout:
    """A form of rows, as a text: the places of columns that are read, and of words that each row has."""
    text: str
    places: dict[str, int]
    fixed: dict[int, str]

    @property
    def numbers(self) -> tuple[str, str, str, str]:
        """The columns of slot, payload length, header CRC and cycle count."""
        return "slot", next(name for name in LENGTHS if name in self.places), "header_crc", "cycle"

    @property
    def end(self) -> int:
        return max(*self.places.values(), *self.fixed) + 1

    def takes(self, words: list[str]) -> bool:
        return bool(words) and all(at < len(words) and words[at] == word for at, word in self.fixed.items())

    def word(self, words: list[str], name: str) -> str:
        """What stands in a column; where the row ends before it, a text that is nothing."""
        at = self.places[name]
        return words[at] if at < len(words) else "-"


@dataclass
class Line:
    """A line that has the form of rows: its picoseconds with their decimal places, None where it has no time."""
    number: int
    time: Time | None
    words: list[str]


@dataclass
class Row:
    """A row that is proved; its header has the cycle count 0, and the count is the word that stands in its column."""
    line: int
    time: Time
    channels: str
    direction: str
    slot: int
    header: bytes
    count: str


@dataclass
class Log:
    base: int = 10
    is_relative: bool = False
    others: int = 0


class Counted(NamedTuple):
    """A row with its cycle count."""
    row: Row
    cycle: int


class Step(NamedTuple):
    """From a row of a sync frame to the next one of its slot and channel: how many cycles went by, and whether the counts say so."""
    one: Counted
    two: Counted
    passed: int
    is_told: bool


class Headed(NamedTuple):
    """The header of a frame, with its time."""
    ns: Fraction
    channel: str
    header: bytes


class AscFile(NamedTuple):
    """The step of the times in ns; the frames; how many lines were left out, by reason; and the columns."""
    step: Fraction
    frames: list[Headed]
    left: dict[str, int]
    columns: str


# ---- the TOML file


def read_layouts(cluster: Cluster) -> tuple[list[Layout], list[str] | None, bool]:
    """The layouts to be tried; which numbers are hexadecimal, None where that is to be found; and whether the sums of relative
    times are exact."""
    table = Source(cluster.path).table("asc")
    layouts = [layout_of(table, text) for text in ([table.text("columns", "names of columns")] if table.has("columns") else COMMON)]
    hexadecimal = None
    if table.has("hexadecimal"):
        hexadecimal = table.text("hexadecimal", "names of columns").split()
        for name in hexadecimal:
            if name not in layouts[0].numbers:
                table.refuse("hexadecimal", f"`{name}` is none of {', '.join(layouts[0].numbers)}")
    return layouts, hexadecimal, table.flag("sums_are_exact")


def layout_of(table: Table, text: str) -> Layout:
    words = text.split()
    names = [word for word in words if word in (*NEEDED, *LENGTHS, "direction")]
    for name in NEEDED:
        if name not in names:
            table.refuse("columns", f"there is no column `{name}`")
    if sum(name in LENGTHS for name in names) != 1:
        table.refuse("columns", f"it wants one of {', '.join(LENGTHS)}")
    if len(set(names)) < len(names):
        table.refuse("columns", "a column is there twice")
    return Layout(text, {word: at for at, word in enumerate(words) if word in names},
                  {at: word for at, word in enumerate(words) if word not in names and word != "_"})


# ---- the lines


def picoseconds(word: str) -> Time | None:
    """A time in seconds, with its decimal places; None where it is none."""
    found = re.fullmatch(r"(\d{1,9})(?:\.(\d{1,12}))?", word, re.ASCII)
    return Time(int(found[1]) * 10**12 + int((found[2] or "").ljust(12, "0")), len(found[2] or "")) if found else None


def read_lines(path: str, layouts: list[Layout], most: int = LONGEST) -> tuple[Log, list[Line]]:
    """What the head of a file says, and its lines that have the form of rows. A relative time is that since the event before."""
    log, lines, clock = Log(), list[Line](), 0
    end = max(layout.end for layout in layouts)
    with text_of(path, most) as file:
        for number, text in enumerate(file, 1):
            # Blanks of other scripts divide no columns.
            line = text.encode("ascii", "replace").decode("ascii")
            words = line.split(None, end)[:end]
            head = re.match(r"\s*base\s+(hex|dec)\b(.*)", line, re.I)
            if head:
                log.base, log.is_relative = 16 if head[1].lower() == "hex" else 10, "relative" in head[2].lower()
            layout = next((layout for layout in layouts if layout.takes(words)), None)
            told = picoseconds(layout.word(words, "time") if layout else words[0]) if words else None
            if told:
                clock = told.ps + (clock if log.is_relative else 0)
            if layout:
                lines.append(Line(number, told and Time(clock, told.places), words))
            elif told:
                log.others += 1
    return log, lines


# ---- what of a row its CRC proves


def whole(word: str, base: int) -> int | None:
    return int(word, base) if re.fullmatch(r"(?:0[xX])?[0-9A-Fa-f]{1,6}" if base == 16 else r"[0-9]{1,6}", word) else None


def numbers_of(layout: Layout, bases: Bases, words: list[str]) -> Numbers:
    """Slot, words of the payload and header CRC; None for what is no number."""
    slot, length, kept = (whole(layout.word(words, name), base) for name, base in zip(layout.numbers, bases))
    size = LENGTHS[layout.numbers[1]]
    return Numbers(slot, None if length is None or length % size else length // size, kept)


def proved(layout: Layout, bases: Bases, line: Line) -> Row | None:
    """A line as a row, or None where it is none or its CRC does not fit it."""
    slot, words, crc = numbers_of(layout, bases, line.words)
    if slot is None or words is None or crc is None:
        return None
    header = proved_header(slot, words, crc, 0)
    channels = CHANNELS.get(layout.word(line.words, "channels"))
    direction = layout.word(line.words, "direction").lower() if "direction" in layout.places else FRAMES[0]
    if header and line.time and channels and direction in (*FRAMES, REQUEST):
        return Row(line.number, line.time, channels, direction, slot, header, layout.word(line.words, "cycle"))
    return None


def bases_of(log: Log, hexadecimal: list[str] | None, layout: Layout) -> Choices:
    """In which bases each number may be, that of the file first."""
    if hexadecimal is None:
        return [(log.base, 26 - log.base)] * 4
    return [(16 if name in hexadecimal else 10,) for name in layout.numbers]


def chosen(path: str, log: Log, lines: list[Line], layouts: list[Layout], hexadecimal: list[str] | None) -> tuple[Layout, Bases]:
    """The layout, and the bases of its first numbers, by which most rows are proved; that has to be more than half."""
    some = lines[:TRIED]
    ways: list[tuple[Layout, Bases]] = [(layout, bases) for layout in layouts
                                        for bases in product(*bases_of(log, hexadecimal, layout)[:3])]
    # Where as many are proved, it is the way by which more have the numbers of a header, for what is told of them.
    layout, bases = max(ways, key=lambda way: (sum(proved(way[0], way[1], line) is not None for line in some),
                                               sum(None not in numbers_of(way[0], way[1], line.words) for line in some)))
    wrong = [line for line in some if proved(layout, bases, line) is None]
    if 2 * len(wrong) >= len(some):
        raise Stop(REFUSED, f"{path}:{wrong[0].number}: {told_wrong(layout, bases, wrong[0].words)}. So it is in {len(wrong)} of "
                            f"the first {len(some)} rows. Their columns are taken to be `{layout.text}`; if they are others, {HINT}")
    return layout, bases


def told_wrong(layout: Layout, bases: Bases, words: list[str]) -> str:
    """What was read of a row that is not proved, and what its CRC would have to be."""
    names = [name for name in ("time", *layout.numbers, "channels", "direction") if name in layout.places]
    told = "read were " + ", ".join(f"'{printable(layout.word(words, name))}' as {name}" for name in names)
    slot, length, kept = numbers_of(layout, bases, words)
    if slot is None or length is None or kept is None or not 1 <= slot <= 2047 or length > 127:
        return f"{told}, which is no header"
    if kept in header_crcs(slot, length):
        return f"{told}. The CRC is that of such a header, and its time, channels or direction is none"
    crcs = " or ".join(f"{value:03X}" for value in header_crcs(slot, length))
    return f"{told}. The CRC of such a header is {crcs} (plain, with sync, with sync and startup), and {kept:03X} stands there"


# ---- the cycle counts, which no CRC covers


def counted(rows: list[Row], base: int) -> list[Counted]:
    """Rows with their cycle counts."""
    found = ((row, whole(row.count, base)) for row in rows)
    return [Counted(row, count) for row, count in found if count is not None and count < 64]


def steps(rows: list[Counted], cycle: Fraction) -> Iterator[Step]:
    """Those of rows in the order of their times."""
    last: dict[tuple[int, str], Counted] = {}
    for two in sorted((one for one in rows if one.row.header[0] & 0x10), key=lambda one: one.row.time.ps):
        for channel in two.row.channels:
            one = last.get((two.row.slot, channel))
            if one:
                passed = round((two.row.time.ps - one.row.time.ps) / cycle)
                if passed <= SILENT:
                    yield Step(one, two, passed, passed >= 1 and (two.cycle - one.cycle - passed) % 64 == 0)
            last[two.row.slot, channel] = two


def with_cycles(path: str, rows: list[Row], bases: Bases, cycle: Fraction) -> tuple[list[Counted], int]:
    """Rows with their counts, and the base in which these go up with the times; more than half of the steps have to."""
    tried = [(counted(rows, base), base) for base in bases]
    found, base = max(tried, key=lambda way: (sum(step.is_told for step in steps(way[0], cycle)), len(way[0])))
    told = list(steps(found, cycle))
    wrong = [step for step in told if not step.is_told]
    if wrong and 2 * len(wrong) >= len(told):
        (one, before), (two, count), passed, _ = wrong[0]
        raise Stop(REFUSED, f"{path}:{two.line}: slot {two.slot} goes from cycle count {before} (line {one.line}) to {count}, and by "
                            f"the times {passed} cycles of {float(cycle / 10**9):g} ms went by. So it is in {len(wrong)} of "
                            f"{len(told)} steps. Is that the cycle, and are these the columns of times, channels and counts? If "
                            f"they are others, {HINT}")
    return found, base


# ---- all


def read_asc(path: str, cluster: Any, most: int = LONGEST) -> tuple[Fraction, list[Any], dict[str, int], str]:
    """The step of the times in ns; frames as (ns, channel, header); how many lines were left out, by reason; and the columns."""
    layouts, hexadecimal, are_sums_exact = read_layouts(cluster)
    log, lines = read_lines(path, layouts, most)
    if not lines and not log.others:
        raise Stop(NO, f"{path}: it has no line of an event")
    if not lines:
        raise Stop(REFUSED, f"{path}: none of its {log.others} events has the words {' '.join(layouts[0].fixed.values())!r} in the "
                            f"columns that are taken for theirs, `{layouts[0].text}`; if they are others, {HINT}")
    if log.is_relative and not (are_sums_exact and all(line.time for line in lines)):
        raise Stop(REFUSED, f"{path}: its times are relative, and where each was rounded alone their sum drifts: log with absolute "
                            "ones, or state sums_are_exact in [asc]; then each row needs its time")
    layout, bases = chosen(path, log, lines, layouts, hexadecimal)
    rows = [row for row in (proved(layout, bases, line) for line in lines) if row]
    sent = [row for row in rows if row.direction != REQUEST]
    cycle = cluster.parameters["pMicroPerCycle"] * Fraction(cluster.microtick_ns) * 1000
    found, base = with_cycles(path, sent, bases_of(log, hexadecimal, layout)[3], cycle)
    frames = [Headed(Fraction(row.time.ps, 1000), channel, row.header[:4] + bytes([row.header[4] | count]))
              for row, count in found for channel in row.channels]
    left = {UNPROVED: len(lines) - len(rows) + len(sent) - len(found), REQUESTS: len(rows) - len(sent), OTHERS: log.others}
    step = Fraction(10**9, 10 ** min((row.time.places for row, _ in found), default=0))
    hexadecimal = [name for name, one in zip(layout.numbers, (*bases, base)) if one == 16]
    return AscFile(step, frames, left, f"{layout.text}; hexadecimal: {' '.join(hexadecimal) or 'none'}")
