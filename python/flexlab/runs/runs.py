"""One run of a cluster: its files, what flexray says of them, and what of it a page shows."""
from __future__ import annotations

import os
from dataclasses import dataclass, field
from typing import IO, TYPE_CHECKING

from flexray import texts

from ..program import calls as programs
from ..toml.constraints import broken, explain_constraint
from ..base.ending import NO, PROGRAM, Stop
from ..base.files import put, whole, write_files
from ..program.known import KnownToml
from ..program.report import Bounds, Report, Series, Skew, Trace, read_bounds, read_series, read_sharp_report, read_trace
from ..toml.cluster import Cluster
from .settled import skew_in_sync
from .sharp import Sharp, Told, sharp_of, sharp_words, told_by_report, told_by_series, unlike
from .sync import fits, sync_of

if TYPE_CHECKING:
    from .ways import Ways


@dataclass
class Run:
    cluster: Cluster
    folder: str
    bounds: Bounds
    report: Report
    cycles: Trace
    synced: list[bool]
    sharp: Sharp
    in_sync_skew: Skew | None = None
    series: Series | None = None
    ways: Ways | None = None
    files: list[str] = field(default_factory=list)
    begin: int | None = None
    asked: list[tuple[int, int]] = field(default_factory=list)

    @property
    def lost(self) -> int | None:
        """The first double cycle behind the first in sync that is not in sync."""
        if self.report.in_sync is None:
            return None
        return next((at for at in range(self.report.in_sync, len(self.synced)) if not self.synced[at]), None)

    def first_row(self, node: int) -> int | None:
        """The first cycle in which a node has a row, or None."""
        return next((cycle for cycle, rows in enumerate(self.cycles) if node in rows), None)

    def microticks_of(self, node: int) -> tuple[int, int]:
        """The lengths of the microtick of a node that takes part, in its first and in the last cycle."""
        return next(rows[node].length for rows in self.cycles if node in rows), self.cycles[-1][node].length

    @property
    def at_end(self) -> bool:
        return bool(self.synced) and self.synced[-1]


def broken_constraints(told: str, cluster: Cluster) -> Stop | None:
    """What ends flexlab where this line says that flexray refuses the parameters of a TOML file for a constraint: each one that is
    broken, by its lines."""
    try:
        line = texts.failure(told)
    except texts.Strange:
        return None
    if line.kind != "constraint" or line.number is None:
        return None
    known = KnownToml(cluster)
    found = [f"{cluster.path}: flexray refuses the parameters that come of it: {told}"]
    for number in [line.number, *(other for other in broken(known) if other != line.number)]:
        asks, *rest = explain_constraint(number, known)
        found += [f"constraint {number} asks: {asks}", *("  " + line for line in rest)]
    return Stop(NO, "\n".join(found))


def answer(program: str, words: list[str], out: IO[bytes] | None = None, cluster: Cluster | None = None) -> str:
    """What flexray prints; a refusal ends flexlab, with the explanation of it, by the TOML file where it is of one."""
    status, text, told = programs.call(program, words, out)
    stop = broken_constraints(told, cluster) if status == 5 and cluster else None
    if stop:
        raise stop
    if status == 5:
        from ..pages.explain import explain_line
        raise Stop(NO, f"flexray {' '.join(words)}\n{told}\n" + "\n".join(explain_line(told, words)))
    if status != 0:
        raise Stop(PROGRAM, f"flexray {' '.join(words)} ended with status {status}: {told}")
    return text


def keep(folder: str, name: str, text: str) -> None:
    """Writes a text into a folder, as a file of this name."""
    put(os.path.join(folder, name), text)


def bound_words(cluster: Cluster, path: str) -> list[str]:
    """What `bound` is asked for: of a cluster that nodes join also the checks for that."""
    return ["bound", path, "join"] if cluster.joins else ["bound", path]


def run_cluster(cluster: Cluster, folder: str, program: str, begin: int | None = None) -> Run:
    """Writes the files, calls bound, run, trace and flexray-series, and gathers what they say."""
    paths = write_files(cluster, folder)
    told = answer(program, bound_words(cluster, paths[0]), cluster=cluster)
    keep(folder, "bound.txt", told)
    bounds = read_bounds(told)
    sharply, report = read_sharp_report(answer(program, ["run", *paths, "sharp"]))
    keep(folder, "report.txt", sharply.report.text)
    trace = os.path.join(folder, "trace.csv")
    with whole(trace, binary=True) as out:
        answer(program, ["trace", *paths], out)
    cycles = read_trace(trace)
    synced = sync_of(cycles, bounds, cluster.parameters)
    if not fits(synced, report.in_sync, cluster.joins) and cycles and cluster.correct:
        first = next((at for at, good in enumerate(synced) if good), None)
        raise Stop(PROGRAM, f"flexray says in sync {report.in_sync}, and its trace says {first}")
    sharp = call_sharp(cluster, folder, paths[0], cycles, program, told_by_report(sharply))
    run = Run(cluster, folder, bounds, report, cycles, synced, sharp, files=paths, begin=begin)
    run.series = call_series(program, paths, folder)
    if run.series and synced != list(run.series.cycles.in_sync[::2]) and cycles:
        raise Stop(PROGRAM, "flexray-series says of a double cycle that it is in sync, and the trace does not, or back")
    run.in_sync_skew = find_skew(run, program)
    if run.series:
        sharp.told = told_by_series(run.series)
        why = unlike(cluster, sharp, sharp.told)
        if why is None and cycles and list(run.series.cycles.sharp[::2]) != sharp.rows:
            why = "flexray-series says of a double cycle that it is in sharp sync, and the trace does not, or back"
        if why:
            raise Stop(PROGRAM, why)
    return run


def call_sharp(cluster: Cluster, folder: str, path: str, cycles: Trace, program: str, told: Told) -> Sharp:
    text = answer(program, sharp_words(path, told.flutter, bool(cluster.joins)))
    keep(folder, "sharp.txt", text)
    sharp = sharp_of(cluster, told, text, cycles)
    why = unlike(cluster, sharp, told)
    if why is None and cycles and cluster.correct and not fits(sharp.rows, told.synced, cluster.joins):
        why = f"flexray says in sharp sync {told.synced}, and its trace says another double cycle"
    if why:
        raise Stop(PROGRAM, why)
    return sharp


def call_series(program: str, paths: list[str], folder: str) -> Series | None:
    second = programs.series(program)
    if not second:
        return None
    text = answer(second, [*paths, "sharp"])
    keep(folder, "series.csv", text)
    return read_series(text)


def find_skew(run: Run, program: str) -> Skew | None:
    """(skew, cycle, macrotick) of the greatest skew from the first double cycle in sync on."""
    report = run.report
    if report.in_sync is None:
        return None
    if run.series and run.series.greatest:
        return run.series.greatest
    if report.cycle >= 2 * report.in_sync:
        return Skew(report.skew, report.cycle, report.macrotick)
    return skew_in_sync(run.cluster, run.cycles, report.in_sync, program, run.folder)
