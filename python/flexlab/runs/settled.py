"""The greatest skew in sync where the report's lies before: flexray runs the cluster once more, begun as it
stood in its first double cycle in sync. That counts only where the trace of that run is, row for row, the
rest of the first one's."""
import copy
import os

from ..program import calls as programs
from ..base.files import whole, write_files
from ..program.report import Skew, Trace, read_report, read_trace
from ..toml.cluster import Cluster, Steps


def moved(steps: Steps, cycle: int) -> Steps:
    """Rows that hold from a cycle on, counted from another cycle."""
    before = [at for at in steps if at <= cycle]
    found = {0: steps[max(before)]} if before else {}
    found.update({at - cycle: ticks for at, ticks in steps.items() if at > cycle})
    return found


def begun_at(cluster: Cluster, cycles: Trace, double: int) -> tuple[Cluster, int]:
    """The cluster as it stood at a double cycle, and the tick that is its 0."""
    cycle = 2 * double
    later = copy.deepcopy(cluster)
    later.doubles -= double
    zero = min(row.start for row in cycles[cycle].values())
    for number, row in cycles[cycle].items():
        later.nodes[number].start, later.nodes[number].rate = row.start - zero, row.rate
    later.joins = {node: join._replace(double=join.double - double) for node, join in cluster.joins.items()
                   if node not in cycles[cycle]}
    later.lengths = {node: moved(steps, cycle) for node, steps in cluster.lengths.items()}
    later.delays = {link: moved(steps, cycle) for link, steps in cluster.delays.items()}
    later.script = {at._replace(cycle=at.cycle - cycle): row for at, row in cluster.script.items() if at.cycle >= cycle}
    return later, zero


def same(cycles: Trace, rest: Trace, cycle: int, zero: int) -> bool:
    """Whether a trace is the rest of another one, from this cycle on, in which its tick 0 is that tick."""
    return len(cycles) == cycle + len(rest) and all(
        cycles[cycle + number].get(node) == row._replace(cycle=cycle + number, start=row.start + zero)
        for number, rows in enumerate(rest) for node, row in rows.items())


def skew_in_sync(cluster: Cluster, cycles: Trace, double: int, program: str, folder: str) -> Skew | None:
    """(skew, cycle, macrotick) from that double cycle on, or None where the second run is not the rest."""
    if any(at < double and node not in cycles[2 * double] for node, (at, _) in cluster.joins.items()):
        return None
    later, zero = begun_at(cluster, cycles, double)
    paths = write_files(later, os.path.join(folder, "in-sync"))
    status, text, _ = programs.call(program, ["run", *paths])
    if status != 0:
        return None
    trace = os.path.join(folder, "in-sync", "trace.csv")
    with whole(trace, binary=True) as out:
        if programs.call(program, ["trace", *paths], out)[0] != 0:
            return None
    report = read_report(text)
    if not same(cycles, read_trace(trace), 2 * double, zero):
        return None
    return Skew(report.skew, report.cycle + 2 * double, report.macrotick)
