"""The printed texts, taken apart. The forms of most lines are in `lines`, which comes from the specification; a line that fits none is a
fault of this module."""
from __future__ import annotations

import functools
import re
from collections.abc import Iterable, Iterator

from .lines import (APART, AT, CHECK, COLDSTART, CONNECTED, COUNTED, COVERED, CUT, FIRST_RATES, FRAMES, GAP, HEARD, KIND, LASTS, LEAD,
                    LONGEST, NODE, NODES, PEAK, PRECISION, SENT, SETTLES, SHARP_GAP, SHARP_LOST, SHARP_PRECISION, SHARP_SKEW,
                    SHARP_SYNC, SHARP_WITHIN, SHARPLY_STATED, SKEW, STATED, SYNC, TRACE, TRACED_SYNC, TRACED_WITHIN, UNLIKE)
from .results import (Bound, Capture, CapturedFrame, Check, CycleRow, Deviation, FailedCheck, Failing, Failure, Fluttering, Frame,
                      Heard, Join, Lead, LogCounts, Losses, LostBound, NodeEnd, Observation, ObservedCycle, ObservedFault,
                      ObservedMissed, ObservedNode, ObservedSender, ObservedSpread, PowerOn, Report, Sent, Series, SeriesCycles,
                      Settled, SharpBound, SharpReport, SharpSeries, SharpSettled, SharpSide, SharpVerdict, SharpWay, Skew, Startup,
                      Trace, Upgraded, Vector, Vectors, Verdict)


class Strange(ValueError):
    """A line that is of no form that is known here, or the end of a text that is too short."""

    def __init__(self, line: str) -> None:
        super().__init__(f"flexray printed what this module does not understand: {line}")
        self.line = line


class _Lines:
    """The lines of a text, taken one after the other by their form."""

    def __init__(self, text: str) -> None:
        self.lines = text.splitlines()
        self.at = 0

    @property
    def more(self) -> bool:
        return self.at < len(self.lines)

    def maybe(self, form: str) -> tuple[str, ...] | None:
        """The groups of the next line, where it has this form."""
        found = re.fullmatch(form, self.lines[self.at]) if self.more else None
        if found is None:
            return None
        self.at += 1
        return found.groups()

    def take(self, form: str) -> tuple[str, ...]:
        found = self.maybe(form)
        if found is None:
            line = self.lines[self.at] if self.more else "the end of the text"
            raise Strange(line)
        return found

    def one(self, form: str) -> int:
        return int(self.take(form)[0])

    def every(self, form: str) -> list[tuple[str, ...]]:
        found = []
        while (groups := self.maybe(form)) is not None:
            found.append(groups)
        return found


def _numbers(groups: tuple[str, ...]) -> tuple[int, ...]:
    return tuple(int(group) for group in groups)


def _checks(groups: list[tuple[str, ...]]) -> tuple[Check, ...]:
    return tuple(Check(int(number), holds == "holds", int(left), int(right)) for number, holds, left, right in groups)


def _values(told: str) -> tuple[int, ...]:
    """The numbers in what is one of several texts."""
    return _numbers(tuple(re.findall(r"-?\d+", told)))


def _gap(told: str) -> tuple[bool, tuple[str, ...]]:
    """Of `yes`, or of `no` with a gap behind it."""
    _, *gap = told.split()
    return not gap, tuple(gap)


def _last(told: str) -> int | None:
    """A number of double cycles; None for a word in its place."""
    return _values(told)[0] if _values(told) else None


def _within(told: str) -> tuple[bool | None, Skew | None]:
    """Whether a skew is within, and the first that is not; None where there is none to be held against it."""
    place = _values(told)
    return None if told == "-" else not place, Skew(*place) if place else None


def bound(text: str) -> Bound:
    lines = _Lines(text)
    y1, lambda_, pi, precision = (lines.one(rf"{name} (\d+)") for name in ("y1", "lambda", "pi", "precision"))
    checks = lines.every(CHECK)
    reach = lines.one(r"reach (\d+)") if lines.more else None
    return Bound(text, y1, lambda_, pi, precision, _checks(checks + lines.every(CHECK)), reach)


def sharp_bound(text: str) -> SharpBound:
    """With the lines of a cluster that nodes join, where they are there."""
    lines = _Lines(text)
    flutter = lines.one(r"flutter (\d+)")
    kinds = ("alone", "beside")
    numbers = {kind: tuple(lines.one(rf"{kind} {name} (\d+)") for name in ("lambda", "pi", "precision")) for kind in kinds}
    both = lines.every(CHECK)
    sides = {}
    for kind in kinds:
        lambda_, pi, precision = numbers[kind]
        sides[kind] = SharpSide(lambda_, pi, precision, _checks(both + lines.every(f"{kind} {CHECK}")))
    lasts = _last(lines.take(LASTS)[0])
    rates, joins = None, lines.more
    if joins:
        reaches = {kind: lines.one(rf"{kind} reach (\d+)") for kind in kinds}
        both = lines.every(CHECK)
        for kind in kinds:
            more = _checks(both + lines.every(f"{kind} {CHECK}"))
            side = sides[kind]
            sides[kind] = SharpSide(side.lambda_, side.pi, side.precision, side.checks + more, reaches[kind])
        rates = _last(lines.take(FIRST_RATES)[0])
    return SharpBound(text, flutter, sides["alone"], sides["beside"], lasts, joins, rates)


def lost_bound(text: str) -> LostBound:
    lines = _Lines(text)
    flutter, lost = lines.one(r"flutter (\d+)"), lines.one(r"lost (\d+)")
    lambda_, pi, precision = (lines.one(rf"alone {name} (\d+)") for name in ("lambda", "pi", "precision"))
    apart = tuple(int(ticks) for _, ticks in lines.every(APART))
    peak, reach = lines.one(r"peak (\d+)"), lines.one(r"reach (\d+)")
    checks = _checks(lines.every(CHECK))
    lasts = _last(lines.take(LASTS)[0])
    back = lines.one(r"back (\d+)")
    crossing, crosses = lines.take(r"crossing (\d+)( fails)?")
    second, fails = lines.take(r"every second (\d+)( fails)?")
    meeting, missed, parts = lines.take(r"meeting (\d+) (\d+)( fails)?")
    longest = lines.take(LONGEST)[0]
    return LostBound(text, flutter, lost, lambda_, pi, precision, apart, peak, reach, checks, lasts, back,
                     int(crossing), not crosses, int(second), not fails, int(meeting), int(missed), not parts,
                     None if longest == "none" else int(longest))


def _skew_line(lines: _Lines) -> Skew:
    return Skew(*_numbers(lines.take(SKEW)))


def _in_sync(lines: _Lines) -> int | None:
    return _last(lines.take(SYNC)[0])


def report(text: str) -> Report:
    lines = _Lines(text)
    nodes, sync, arbitrary, doubles = _numbers(lines.take(NODES))
    precision = lines.one(PRECISION)
    covered, gap = _gap(lines.take(COVERED)[0])
    in_sync, greatest = _in_sync(lines), _skew_line(lines)
    sent_a, sent_b = (Sent(int(frames), int(xor, 16)) for _, frames, xor in (lines.take(SENT), lines.take(SENT)))
    heard, cut = Heard(*_numbers(lines.take(HEARD))), lines.one(CUT)
    nodes_at_end = tuple(NodeEnd(int(node), state, int(start), int(rate), int(offset))
                         for node, state, start, rate, offset in lines.every(NODE))
    return Report(text, nodes, sync, arbitrary, doubles, precision, covered, gap, in_sync, greatest, sent_a, sent_b, heard, cut,
                  nodes_at_end)


# Where delays flutter most, as it stands behind a flutter above 0.
FLUTTERING = r"delay (\d+) (\d+) ([AB]) (\d+)"


def _flutter(lines: _Lines, before: str, between: str) -> tuple[int, Fluttering | None]:
    """The flutter of a run and its place, which there is where it is above 0."""
    none, ticks, *place = lines.take(rf"{before}(?:(0){between.strip()}|([1-9]\d*){between}{FLUTTERING})")
    if none:
        return 0, None
    sender, receiver, channel, double = place
    return int(ticks), Fluttering(int(sender), int(receiver), channel, int(double))


def sharp_report(text: str) -> SharpReport:
    lines = _Lines(text)
    flutter, fluttering = _flutter(lines, "sharp flutter ", " ")
    precision, kind = lines.take(SHARP_PRECISION)
    gaps = tuple(tuple(gap.split()) for (gap,) in lines.every(SHARP_GAP))
    if not gaps:
        lines.take(r"sharp covered yes")
    synced, *lasts = lines.take(SHARP_SYNC)[0].split()
    greatest = Skew(*_numbers(lines.take(SHARP_SKEW))) if lasts else None
    within, beyond = _within(lines.take(SHARP_WITHIN)[0])
    doubles, last, told = lines.take(SHARP_LOST)
    bound = _values(told)
    losses = Losses(int(doubles), _known(last), *(bound or (None, None)))
    below = "".join(f"{line}\n" for line in lines.lines[lines.at:])
    return SharpReport(text, flutter, int(precision), kind, not gaps, gaps, int(synced) if lasts else None,
                       _last(*lasts) if lasts else None, greatest, within, beyond, losses, report(below), fluttering)


def _losses(doubles: str, last: str, bound: str, double: str) -> Losses:
    return Losses(int(doubles), None if last == "-" else int(last), int(bound) if bound else None, int(double) if double else None)


def _greatest(lines: _Lines, name: str, comma: str) -> Skew | None:
    groups = lines.take(rf"{name},(?:-,-,-|(\d+),(\d+),(\d+)){comma}")
    return Skew(*_numbers(groups)) if groups[0] else None


def _within_row(lines: _Lines, name: str, comma: str) -> tuple[bool | None, tuple[int, int] | None]:
    told, cycle, macrotick = lines.take(rf"{name},(?:(yes|-),,|no,(\d+),(\d+)){comma}")
    return (None if told == "-" else told == "yes"), ((int(cycle), int(macrotick)) if cycle else None)


def series(text: str) -> Series:
    cycles, lines = _cycles(text, "cycle,in_sync,skew,macrotick\n", 4)
    return Series(text, cycles, *_ends(lines, ""))


TRUTHS, KINDS_HEARD = frozenset(("yes", "no")), frozenset(("all", "most", "any"))


def _cycles(text: str, head: str, width: int) -> tuple[SeriesCycles, _Lines]:
    """The rows of the cycles, from 0 on, of so many fields each, and the lines behind them. They are taken apart column by column,
    since a study has a series for each run."""
    if not text.startswith(head):
        raise Strange(text.partition("\n")[0])
    end = text.find("greatest,")
    if end < 0:
        raise Strange("the end of the text")
    rows = text[len(head):end]
    # The line feeds are a column of their own: a row that has a field more or less moves one of them into another column.
    words = rows.replace("\n", ",\n,").split(",")
    columns = [words[at:-1:width + 1] for at in range(width + 1)]
    numbers, in_sync, skews, macroticks = columns[:4]
    without: list[list[str]] = [[], [], []]
    (sharp, heard, bounds), feeds = columns[4:width] or without, columns[width]
    # Double cycles before the first in sharp sync have no number, and none has one where the run is not covered through losses.
    unbound = next((at for at, word in enumerate(bounds) if word != "-"), len(bounds))
    if (words[-1] or len(words) != (width + 1) * len(numbers) + 1 or set(feeds) - {"\n"} or not TRUTHS.issuperset(in_sync + sharp)
            or not KINDS_HEARD.issuperset(heard) or numbers != _numbers_to(len(numbers))
            or not (_are_digits(skews) and _are_digits(macroticks) and _are_digits(bounds[unbound:]))):
        raise Strange(_strange_row(rows, width))
    ticks: tuple[int | None, ...] = (None,) * unbound + tuple(map(int, bounds[unbound:]))
    return (SeriesCycles(tuple([word == "yes" for word in in_sync]), tuple(map(int, skews)), tuple(map(int, macroticks)),
                         tuple([word == "yes" for word in sharp]), tuple(heard), ticks), _Lines(text[end:]))


@functools.lru_cache(maxsize=1)
def _numbers_to(count: int) -> list[str]:
    """The numbers of so many cycles, which are those of all series of a study."""
    return list(map(str, range(count)))


def _are_digits(column: list[str]) -> bool:
    """Whether each field of a column is some digits."""
    joined = "".join(column)
    return not column or joined.isascii() and joined.isdigit() and "" not in column


def _strange_row(rows: str, width: int) -> str:
    """The first of these rows that has not its form, or no number behind one that has."""
    form = r"(\d+),(?:yes|no),\d+,\d+" + (r",(?:yes|no),(?:all|most|any),(?:-|\d+)" if width > 4 else "")
    lines = rows.split("\n")
    matches = (re.fullmatch(form, line, re.ASCII) for line in lines)
    is_bound = False
    for at, (line, found) in enumerate(zip(lines, matches)):
        # Behind a row with a number none is without.
        if not found or found[1] != str(at) or is_bound and line.endswith(",-"):
            return line
        is_bound = width > 4 and not line.endswith(",-")
    return lines[-1]


def _ends(lines: _Lines, comma: str) -> tuple[Skew | None, bool, int | None, bool | None, tuple[int, int] | None]:
    greatest = _greatest(lines, "greatest", comma)
    synced, lost = lines.take(rf"synced,(?:(yes),|no,(\d+)),{comma}")
    within, beyond = _within_row(lines, "within", comma)
    return greatest, synced == "yes", int(lost) if lost else None, within, beyond


def sharp_series(text: str) -> SharpSeries:
    cycles, lines = _cycles(text, "cycle,in_sync,skew,macrotick,sharp,heard,bound\n", 7)
    ends = _ends(lines, ",")
    flutter, fluttering = _flutter(lines, "flutter,", ",,,")
    precision, kind = lines.take(r"sharp,(\d+),(alone|beside),,")
    covered, gap = lines.take(rf"sharp covered,(?:(yes),,,|no,,,{GAP})")
    synced, lasts = lines.take(r"sharp synced,(?:-,|(\d+),(on|\d+)),,")
    greatest = _greatest(lines, "sharp greatest", ",")
    within, beyond = _within_row(lines, "sharp within", ",")
    losses = _losses(*lines.take(r"lost,(\d+),(-|\d+),(?:-,-|(\d+),(\d+))"))
    return SharpSeries(text, cycles, *ends, flutter, int(precision), kind, covered == "yes", tuple(gap.split()) if gap else (),
                       int(synced) if synced else None, None if lasts in (None, "on") else int(lasts), greatest, within, beyond, losses,
                       fluttering)


def _cycle_row(line: str) -> CycleRow:
    try:
        _, cycle, node, start, length, rate, offset, state = line.split(",")
        return CycleRow(int(cycle), int(node), int(start), int(length), int(rate), int(offset), state)
    except ValueError as fault:
        raise Strange(line) from fault


def cycle_rows(lines: Iterable[str]) -> Iterator[CycleRow]:
    """The `cycle` rows alone, of a trace that is too long to be held."""
    for line in lines:
        if line.startswith("cycle,"):
            yield _cycle_row(line.rstrip("\n"))


def trace(text: str) -> Trace:
    """Taken apart by its commas alone, since a trace may have millions of rows."""
    doubles, arbitrary, joins, cycles, deviations = 0, [], [], [], []
    for line in text.splitlines():
        kind, *words = line.split(",")
        try:
            if kind == "cycle":
                cycles.append(_cycle_row(line))
            elif kind == "dev":
                deviations.append(Deviation(int(words[0]), int(words[1]), int(words[2]), words[3], int(words[4])))
            elif kind == "run":
                doubles = int(words[0])
            elif kind == "arbitrary":
                arbitrary.append(int(words[0]))
            elif kind == "join":
                joins.append(Join(int(words[0]), int(words[1]), int(words[2])))
            else:
                raise ValueError(kind)
        except (IndexError, ValueError) as fault:
            raise Strange(line) from fault
    return Trace(text, doubles, tuple(arbitrary), tuple(joins), tuple(cycles), tuple(deviations))


def verdict(text: str) -> Verdict:
    lines = _Lines(text)
    nodes, arbitrary, doubles = _numbers(lines.take(TRACE))
    precision = lines.one(PRECISION)
    return Verdict(text, True, "", None, nodes, arbitrary, doubles, precision, _in_sync(lines), _skew_line(lines))


def _record(line: str) -> int | None:
    found = re.match(r"trace: record (\d+) ", line)
    return int(found[1]) if found else None


def failed_verdict(line: str) -> Verdict:
    return Verdict("", False, line, _record(line))


def sharp_verdict(text: str) -> SharpVerdict:
    lines = _Lines(text)
    flutter, (kind,) = lines.one(r"flutter (\d+)"), lines.take(KIND)
    precision, checks = lines.one(PRECISION), _checks(lines.every(CHECK))
    synced, *lasts = lines.take(TRACED_SYNC)[0].split()
    unlike = lines.maybe(UNLIKE)
    greatest = _skew_line(lines) if lasts else None
    within, beyond = _within(lines.take(TRACED_WITHIN)[0])
    return SharpVerdict(text, True, "", None, flutter, kind, precision, checks, int(synced) if lasts else None,
                        _last(*lasts) if lasts else None, int(unlike[0]) if unlike else None, greatest, within, beyond)


def failed_sharp_verdict(line: str) -> SharpVerdict:
    return SharpVerdict("", False, line, _record(line))


# ---- what does not hold, by its line alone

FAILING = re.compile(rf"(alone |beside )?(?:C(\d) fails|(?:settles|synced) no check (\d)) (-?\d+) (-?\d+)|covered no {GAP}|"
                     r"fault \d+ (.+)",
                     re.ASCII)


def failing(text: str) -> Iterator[Failing]:
    """The lines of an answer, of whatever request, that say that something does not hold."""
    for line in text.splitlines():
        found = FAILING.fullmatch(line)
        if found is None:
            continue
        side, bound_check, way_check, left, right, gap, fault = found.groups()
        number = bound_check or way_check
        yield Failing(line, FailedCheck(int(number), int(left), int(right)) if number else None, (side or "").strip(), bool(way_check),
                      tuple(gap.split()) if gap else (), fault)


ROLE = "(frame|params|drift|script|trace|log|power|capture|vectors)"
FRAME_FAULT = (r"short \d+|header crc kept [0-9A-F]+ computed [0-9A-F]+|length stated \d+ given \d+|"
               r"frame crc kept [0-9A-F]+ computed [0-9A-F]+|zero id|startup without sync")
BREACH = (r"(?:start|rate|offset) -?\d+ expected -?\d+|state [a-z]+ expected [a-z]+|silent [a-z]+|"
          r"deviation -?\d+ expected -?\d+ to -?\d+|apart \d+")
# Of each kind of a line on standard error its form, with groups by their names.
FAILURES = tuple((kind, re.compile(form, re.ASCII)) for kind, form in (
    ("usage", "usage:.*"), ("no memory", "no memory"), ("write fault", "write fault"),
    ("read fault", f"(?P<role>{ROLE}): read fault"), ("too long", f"(?P<role>{ROLE}): too long"),
    ("record", rf"(?P<role>{ROLE}): record (?P<number>\d{{1,18}}): (?P<words>[A-Z][A-Za-z]+)"),
    ("missing", rf"(?P<role>{ROLE}): missing (?P<words>\w+)"),
    ("constraint", r"(?P<role>params): constraint (?P<number>[1-8])"),
    ("incomplete", r"(?P<role>trace): incomplete (?P<number>\d{1,18})"),
    ("frame", f"(?P<role>frame): (?P<words>{FRAME_FAULT})"),
    ("breach", rf"(?P<role>trace): record (?P<number>\d{{1,18}}) (?P<words>{BREACH})"),
    ("gap", rf"(?P<role>trace): not covered (?P<words>{GAP}|join \d+)")))


def failure(line: str) -> Failure:
    """A line on standard error."""
    for kind, form in FAILURES:
        found = form.fullmatch(line)
        if found:
            named = found.groupdict()
            number = named.get("number")
            return Failure(line, kind, named.get("role", ""), int(number) if number else None, _words(kind, named.get("words", "")))
    raise Strange(line)


def _words(kind: str, text: str) -> tuple[str, ...]:
    """The words of a line on standard error without those between its values."""
    words = text.split()
    if kind == "frame" and words[0] in ("header", "frame"):
        return " ".join(words[:2]), words[3], words[5]
    if kind == "frame" and words[0] in ("zero", "startup"):
        return (text,)
    return tuple(word for word in words if word not in ("stated", "given", "expected", "to"))


NUMBER = r"(-?\d+)"
KNOWN = r"(-|-?\d+)"
OBSERVED_CYCLE = rf"cycle,(\d+),(\d+),{NUMBER},{KNOWN},(over|within|open),,"
OBSERVED_NODE = rf"node,(\d+),(\d+),{NUMBER},{NUMBER},{KNOWN},{KNOWN},"
OBSERVED_FAULT = r"fault,(\d+),(-|\d+),([a-z]+),(-|A|B|-?\d+),(-|-?\d+),(-|-?\d+),(-|-?\d+)"
OBSERVED_MISSED = r"missed,(\d+),(\d+),(offset|rate),(-|\d+),,,"
OBSERVED_SPREAD = r"spread,(\d+),(\d+),(\d+),(\d+),(\d+),,"
OBSERVED_SENDER = r"sender,(\d+),(A|B),(\d+),(-|\d+),(-|\d+),(\d+),"


def _known(group: str) -> int | None:
    return None if group == "-" else int(group)


def observation(text: str) -> Observation:
    lines = _Lines(text)
    precision, flutter, lost = _numbers(lines.take(r"precision,(\d+),(\d+),(\d+),,,,"))
    cycles: list[ObservedCycle] = []
    nodes: list[ObservedNode] = []
    faults: list[ObservedFault] = []
    missed: list[ObservedMissed] = []
    spreads: list[ObservedSpread] = []
    begun = -1
    while lines.at > begun:
        begun = lines.at
        cycles.extend(ObservedCycle(int(cycle), int(senders), int(low), _known(high), says)
                      for cycle, senders, low, high, says in lines.every(OBSERVED_CYCLE))
        nodes.extend(ObservedNode(int(double), int(node), int(low), int(high), _known(least), _known(most))
                     for double, node, low, high, least, most in lines.every(OBSERVED_NODE))
        faults.extend(ObservedFault(int(cycle), _known(node), kind, tuple(fields))
                      for cycle, node, kind, *fields in lines.every(OBSERVED_FAULT))
        missed.extend(ObservedMissed(int(cycle), int(node), kind, _known(least))
                      for cycle, node, kind, least in lines.every(OBSERVED_MISSED))
        spreads.extend(ObservedSpread(*_numbers(groups)) for groups in lines.every(OBSERVED_SPREAD))
    senders = tuple(ObservedSender(int(node), channel, int(frames), _known(begin), _known(end), int(none))
                    for node, channel, frames, begin, end, none in lines.every(OBSERVED_SENDER))
    log = LogCounts(*_numbers(lines.take(r"log,(\d+),(\d+),(\d+),(\d+),(\d+),(\d+),")))
    numbers, sync = _row(lines, "numbers"), _row(lines, "sync")
    judged, doubles = int(sync[2]), int(sync[3])
    first, last, *told = lines.take(r"cycles,(-|\d+),(-|\d+),(\d+),(\d+),(\d+),,")
    within, over, neither = map(int, told)
    return Observation(text, precision, flutter, lost, tuple(cycles), tuple(nodes), log, _known(first), _known(last), within, over, neither,
                       tuple(faults), senders, numbers, sync, _row(lines, "verdict"), judged, doubles, tuple(missed), tuple(spreads))


def _row(lines: _Lines, word: str) -> tuple[str, ...]:
    """The fields of a row with this first word, without the empty ones."""
    return tuple(part for part in lines.take(rf"{word},([^\n]*)")[0].split(",") if part)


def _way(lines: _Lines, before: str) -> tuple[int, int | None, FailedCheck | None]:
    peak = lines.one(before + PEAK)
    double, *sides = _values(lines.take(before + SETTLES)[0])
    return (peak, None, FailedCheck(double, *sides)) if sides else (peak, double, None)


def settled(text: str) -> Settled:
    lines = _Lines(text)
    start, rate = _numbers(lines.take(STATED))
    return Settled(text, start, rate, *_way(lines, ""))


def sharp_settled(text: str) -> SharpSettled:
    lines = _Lines(text)
    start, rate, flutter = _numbers(lines.take(SHARPLY_STATED))
    return SharpSettled(text, start, rate, flutter, SharpWay(*_way(lines, "alone ")), SharpWay(*_way(lines, "beside ")))


def power_on(text: str) -> PowerOn:
    lines = _Lines(text)
    flutter, leads = lines.one(r"flutter (\d+)"), lines.one(r"leads (\d+)")
    synced = lines.maybe(r"alone synced (\d+)")
    if synced is not None:
        return PowerOn(text, flutter, leads, int(synced[0]), None)
    failed = lines.take(r"alone synced no check (\d) (-?\d+) (-?\d+)")
    return PowerOn(text, flutter, leads, None, FailedCheck(*_numbers(failed)))


def startup(text: str) -> Startup:
    lines = _Lines(text)
    coldstart, cycles = _numbers(lines.take(COLDSTART))
    apart = _values(lines.take(CONNECTED)[0])
    leads = tuple(Lead(*_numbers(groups)) for groups in lines.every(LEAD))
    leading = tuple(int(node) for (node,) in lines.every(r"leading (\d+)"))
    if not leading:
        lines.take("leading none")
    return Startup(text, coldstart, cycles, (apart[0], apart[1]) if apart else None, leads, leading)


def frame(text: str) -> Frame:
    bits = " ".join(rf"{name} ([01])" for name in ("reserved", "preamble", "null", "sync", "startup"))
    found = _Lines(text).take(rf"frame ([AB]) id (\d+) words (\d+) cycle (\d+) {bits} header ([0-9A-F]{{3}}) "
                              r"crc ([0-9A-F]{6}) payload (-|[0-9A-F]+)")
    reserved, preamble, valid, sync, coldstart = (bit == "1" for bit in found[4:9])
    number, words, cycle = _numbers(found[1:4])
    return Frame(text, found[0], number, words, cycle, reserved, preamble, not valid, sync, coldstart, int(found[9], 16),
                 int(found[10], 16), b"" if found[11] == "-" else bytes.fromhex(found[11]))


def capture(text: str) -> Capture:
    lines = _Lines(text)
    frames = tuple(CapturedFrame(int(place), int(number), int(words), int(cycle), int(crc, 16))
                   for place, number, words, cycle, crc in lines.every(AT))
    _, count = _numbers(lines.take(FRAMES))
    place, fault = lines.take(r"fault (?:none|(\d+) (.+))")
    return Capture(text, frames, count, fault, int(place) if place else None)


def vectors(text: str) -> Vectors:
    lines = _Lines(text)
    cycles = tuple(Vector(int(cycle), bytes.fromhex(vector), int(frames)) for cycle, vector, frames in
                   lines.every(r"cycle (\d+) vector ([0-9A-F]+) frames (\d+)"))
    return Vectors(text, cycles, *_numbers(lines.take(COUNTED)))


def upgraded(text: str) -> Upgraded:
    return Upgraded(text)
