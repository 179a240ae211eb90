"""A run of a study by what flexray and flexray-series print of it, without a trace: so the figures of a run that keeps no files cost
what these two need, and by the sharper bounds alone what one call of flexray does. Where they do not suffice, a run is one as `run`
makes it."""
import operator
import os
from collections.abc import Callable, Iterable
from typing import NamedTuple

from flexray.results import SharpReport

from ..base import ranges
from ..base.files import delay_lines, length_lines, parameter_lines, script_lines, start_lines
from ..program import calls as programs
from ..program.report import Bounds, Report, Series, SharpBounds, Skew, read_report, read_series, read_sharp_bounds, read_sharp_report
from ..toml.again import Again
from ..toml.cluster import Cluster
from .runs import Run
from .sharp import MOST, Sharp, kind_of, sharp_words, told_by_report, told_by_series, unlike

NAMES = ("params.csv", "drift.csv", "script.csv")
SPELT = ("first", "second", "third")
# How many sets of bounds are kept: they are the same in all runs whose parameters are.
BOUNDS = 1000


class Caller:
    """What a process of a study keeps from run to run: the file, the programs or the library, bounds, and the texts that were the
    same in the run before."""

    def __init__(self, program: str, path: str, room: str) -> None:
        self.program, self.second, self.room = program, programs.series(program), room
        self.clusters = Again(path)
        self.bounds: dict[tuple[bytes, int, bool], dict[str, SharpBounds]] = {}
        self.written: list[bytes | None] = [None, None, None]
        self.made: dict[object, tuple[tuple[object, ...], bytes]] = {}

    def text(self, name: object, of: tuple[object, ...], lines: Callable[[], Iterable[str]]) -> bytes:
        """The text of some lines, which is made anew where they are of other objects than before."""
        found = self.made.get(name)
        if found is None or len(of) != len(found[0]) or not all(map(operator.is_, of, found[0])):
            found = self.made[name] = of, "".join(lines()).encode("ascii")
        return found[1]

    def texts(self, cluster: Cluster) -> list[bytes] | None:
        """The three files of a cluster, as `write_files` writes them; None where one is too long."""
        nodes = cluster.nodes.values()
        described = [value for node in nodes for value in (node.number, node.key_slot, node.channels, node.coldstart)]
        params = self.text("params", (cluster.parameters, cluster.slots, *described), lambda: parameter_lines(cluster))
        drift = ["".join(start_lines(cluster)).encode("ascii")]
        drift += [self.text(number, (steps,), lambda: length_lines(number, steps)) for number, steps in cluster.lengths.items()]
        drift.append(self.text("delays", (cluster.delays,), lambda: delay_lines(cluster.delays)))
        # Nodes that join have other rows in each cluster.
        joins = [cluster.joins] if cluster.joins else []
        script = self.text("script", (cluster.script, *joins, *cluster.arbitrary), lambda: script_lines(cluster))
        found = [params, b"".join(drift), script]
        return None if max(map(len, found)) > ranges.FILE_BYTES else found

    def answer(self, program: str, words: list[str], texts: list[bytes]) -> str | None:
        """What a program prints of these files, whose names stand in the words; None where it fails."""
        request = programs.by_library(program)
        if request is not None:
            found = request([SPELT[NAMES.index(word)] if word in NAMES else word for word in words], *texts)
            return found.text if found.status == 0 else None
        for place, (name, text) in enumerate(zip(NAMES, texts)):
            if text is not self.written[place] and text != self.written[place]:
                with open(os.path.join(self.room, name), "wb") as file:
                    file.write(text)
                self.written[place] = text
        status, printed, _ = programs.call(program, [os.path.join(self.room, word) if word in NAMES else word for word in words])
        return printed if status == 0 else None

    def sharp(self, cluster: Cluster, flutter: int, texts: list[bytes]) -> dict[str, SharpBounds] | None:
        """The sharper bounds of both kinds, asked once for the same parameters."""
        key = texts[0], min(flutter, MOST), bool(cluster.joins)
        if key not in self.bounds:
            text = self.answer(self.program, sharp_words(NAMES[0], flutter, bool(cluster.joins)), texts[:1])
            if text is None:
                return None
            if len(self.bounds) >= BOUNDS:
                self.bounds.clear()
            self.bounds[key] = read_sharp_bounds(text)
        return self.bounds[key]


def is_plain(cluster: Cluster) -> bool:
    """Whether a trace tells of a run nothing more that a study has: who joins when stands in the trace alone."""
    return not cluster.joins and bool(cluster.correct)


def run_of(cluster: Cluster, caller: Caller, begin: int | None, is_short: bool = False) -> Run | None:
    """A run by its report with what the sharper bounds say of it or, but where a short answer is wanted, by its report and its series;
    None where these do not tell all, or a call fails, which the longer way then tells."""
    texts = caller.texts(cluster) if is_short or caller.second and is_plain(cluster) else None
    printed = caller.answer(caller.program, ["run", *NAMES, *(["sharp"] if is_short else [])], texts) if texts else None
    if printed is None or texts is None:
        return None
    series = None
    if is_short:
        found, report = read_sharp_report(printed)
        told = told_by_report(found)
    else:
        assert caller.second is not None
        report, printed = read_report(printed), caller.answer(caller.second, [*NAMES, "sharp"], texts)
        if printed is None:
            return None
        series = read_series(printed)
        told = told_by_series(series)
    both = caller.sharp(cluster, told.flutter, texts)
    if both is None:
        return None
    sharp = Sharp(told, both, both[kind_of(cluster, told.flutter).name])
    run = Run(cluster, "", Bounds(), report, [], [], begin=begin, sharp=sharp)
    if unlike(cluster, sharp, told):
        return None
    if series is None:
        run.in_sync_skew = skew_of(report)
        return run
    return with_series(run, series)


class Short(NamedTuple):
    """A run by one call: its report, and what the sharper bounds say of it."""
    report: Report
    sharp: SharpReport


def short_of(cluster: Cluster, caller: Caller) -> Short | None:
    """That of a run; None where the call fails, or delays flutter by more than flexray bound takes, which the longer way then tells."""
    texts = caller.texts(cluster)
    printed = caller.answer(caller.program, ["run", *NAMES, "sharp"], texts) if texts else None
    if printed is None:
        return None
    told, report = read_sharp_report(printed)
    return Short(report, told) if told.flutter <= MOST else None


def skew_of(report: Report, since: int | None = None, greatest: Skew | None = None) -> Skew | None:
    """The greatest skew in sync, where that of the run lies in sync, or that since an earlier double cycle does."""
    if report.in_sync is None:
        return None
    if report.cycle >= 2 * report.in_sync:
        return Skew(report.skew, report.cycle, report.macrotick)
    known = greatest is not None and since is not None and since <= report.in_sync and greatest.cycle >= 2 * report.in_sync
    return greatest if known else None


def with_series(run: Run, series: Series) -> Run | None:
    """The run with what its series tells, or None where that does not fit what the others told."""
    cycles, in_sync = series.cycles, list(series.cycles.in_sync[::2])
    synced = in_sync.index(True) if True in in_sync else None
    skew = series.greatest if synced is not None else None
    if len(cycles) != run.cluster.cycles or synced != run.report.in_sync or synced is not None and skew is None:
        return None
    # Of a run without a trace it is told how many cycles it has, and not what is in them.
    run.series, run.in_sync_skew, run.cycles, run.synced = series, skew, [{}] * len(cycles), in_sync
    run.sharp.rows = list(cycles.sharp[::2])
    return run
