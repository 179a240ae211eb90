"""A startup from power-on: flexray cold tells who leads; a run in which the leader runs and the others join it tells when
all are in sync. Two models one after the other: what lies between them is said on the page."""
from __future__ import annotations

import copy
import os
import sys
from dataclasses import dataclass, field
from fractions import Fraction
from argparse import Namespace
from collections.abc import Callable, Iterable, Iterator
from typing import Any, NamedTuple

from flexray import results, texts

from ..base import ranges
from ..base.ending import DONE, NO
from ..pages.machine import ended, printed, run_object, wanted
from ..pages.page import ORIGIN, classical_lines, gap_lines, lost_lines, ms_of_cycle, field as lines_of
from ..pages.sharp_page import check_lines, sharp_lines
from ..pages.verdict import verdict_of
from .sharp import first_of, is_covered
from ..program.calls import flexray
from ..program.report import understood
from ..toml.cluster import Cluster, Join, Power
from .runs import Run, answer, bound_words, keep, run_cluster
from ..base.files import hold, whole, write_files
from ..base.units import decimal

LISTENING, RESOLVING = 2, 4


class Part(NamedTuple):
    """What part a node takes, and when, in milliseconds, it is on, listens, follows and takes part."""
    node: int
    part: str
    on: Fraction
    listens: Fraction | None
    follows: Fraction | None
    takes_part: Fraction | None

    @property
    def times(self) -> tuple[Fraction | None, ...]:
        return self.on, self.listens, self.follows, self.takes_part


class Phase(NamedTuple):
    """What a node, by its place, does from one time to another, in milliseconds."""
    at: int
    name: str
    begun: Fraction
    until: Fraction


@dataclass
class Startup:
    cluster: Cluster
    power: dict[int, list[Power]]
    cycles: int
    cold: results.Startup
    leader: int | None = None
    lead_at: int = 0
    listens: dict[int, int] = field(default_factory=dict)
    out: dict[int, str] = field(default_factory=dict)
    run: Run | None = None

    @property
    def joined(self) -> Run:
        """The run that the others join, which there is where one node leads."""
        assert self.run is not None
        return self.run

    def ms(self, macroticks: int) -> Fraction:
        """Milliseconds of so many nominal macroticks."""
        return macroticks * self.cluster.macrotick_ns / 1000000

    def of_cycle(self, cycle: int | None) -> Fraction | None:
        """When a cycle of the run begins, by the first of its nodes, in milliseconds from the begin."""
        if cycle is None or cycle >= len(self.joined.cycles):
            return None
        ticks = min(row.start for row in self.joined.cycles[cycle].values())
        return self.ms(self.lead_at) + Fraction(ticks) * self.cluster.microtick_ns / 10 ** 12

    @property
    def first_on(self) -> int:
        return min(times[0].on for node, times in self.power.items() if node in coldstart(self.cluster))

    @property
    def synced(self) -> int | None:
        """The first double cycle that is in sync with all that are to join it, or None."""
        run = self.joined
        rows = [row for node in self.listens if (row := run.first_row(node)) is not None]
        if len(rows) < len(self.listens):
            return None
        begin = -(-max(rows, default=0) // 2)
        return next((at for at in range(begin, len(run.synced)) if run.synced[at]), None)


def coldstart(cluster: Cluster) -> list[int]:
    return [node.number for node in cluster.nodes.values() if node.coldstart and not node.arbitrary]


def power_of(cluster: Cluster) -> dict[int, list[Power]]:
    """When each node is switched; one that no [[power]] names is on from 0."""
    return {number: cluster.power.get(number, [Power(0, None)]) for number in cluster.nodes}


def write_power(cluster: Cluster, power: dict[int, list[Power]], folder: str) -> tuple[str, int]:
    """Writes power.csv, with as many cycles as the last switch and a startup behind it take."""
    nodes = coldstart(cluster)
    last = max([time for node in nodes for times in power[node] for time in times if time is not None], default=0)
    cycles = min(1000, last // cluster.parameters["gMacroPerCycle"] + 12)
    path = os.path.join(folder, "power.csv")
    with whole(path, encoding="ascii") as file:
        file.write(f"cycles,{cycles},\n")
        for node in nodes:
            for on, off in power[node]:
                file.write(f"on,{node},{on}\n" + (f"off,{node},{off}\n" if off is not None else ""))
    return path, cycles


def joining(startup: Startup) -> Cluster:
    """The cluster whose leader runs from where it begins to lead, and which the others join, each when it can."""
    cluster, leader, length = startup.cluster, startup.cold.leading[0], 2 * startup.cluster.parameters["gMacroPerCycle"]
    later = copy.deepcopy(cluster)
    later.joins = {}
    for number in cluster.correct:
        later.nodes[number].start = later.nodes[number].rate = 0
        times = [one for one in startup.power[number] if one.off is None or one.off > startup.lead_at]
        if number == leader:
            pass
        elif not times:
            startup.out[number] = "it is off by then"
        elif not cluster.common(leader, number):
            startup.out[number] = f"it has no channel in common with node {leader}, which leads"
        else:
            startup.listens[number] = -(-max(0, times[0].on - startup.lead_at) // length)
    # By the standard a node that is no coldstart node integrates where it hears two; the second one takes part in the
    # third double cycle behind that in which it listens.
    followers = [startup.listens[number] for number in coldstart(cluster) if number in startup.listens]
    for number, double in startup.listens.items():
        if number not in coldstart(cluster):
            startup.listens[number] = max(double, min(followers) + 3) if followers else double
    later.joins = {number: Join(double, leader) for number, double in startup.listens.items()}
    later.doubles = min(ranges.DOUBLES[1], max([cluster.doubles, *(double + 8 for double in startup.listens.values())]))
    return without(later, startup.out)


def without(cluster: Cluster, numbers: Iterable[int]) -> Cluster:
    """The cluster without some nodes, and without what is said of them."""
    cluster.nodes = {number: node for number, node in cluster.nodes.items() if number not in numbers}
    cluster.slots = [row for row in cluster.slots if row.node not in numbers]
    cluster.lengths = {number: steps for number, steps in cluster.lengths.items() if number not in numbers}
    cluster.delays = {link: steps for link, steps in cluster.delays.items() if not set(link[:2]) & set(numbers)}
    cluster.script = {place: row for place, row in cluster.script.items() if not set(place[1:3]) & set(numbers)}
    return cluster


def begin(cluster: Cluster, folder: str, program: str) -> Startup:
    """The startup of a cluster: who leads, and where one does, the run that the others join."""
    paths = write_files(cluster, folder)
    answer(program, bound_words(cluster, paths[0]), cluster=cluster)
    power = power_of(cluster)
    path, cycles = write_power(cluster, power, folder)
    text = answer(program, ["cold", paths[0], path])
    keep(folder, "cold.txt", text)
    startup = Startup(cluster, power, cycles, understood(texts.startup, "startup", text))
    if len(startup.cold.leading) == 1:
        startup.leader = startup.cold.leading[0]
        startup.lead_at = max(lead.macrotick for lead in startup.cold.leads if lead.node == startup.leader)
        startup.run = run_cluster(joining(startup), os.path.join(folder, "joined"), program)
    return startup


def why_none(startup: Startup) -> list[str]:
    """Why no node, or more than one, leads after the last macrotick."""
    cluster, nodes = startup.cluster, coldstart(startup.cluster)
    need = (LISTENING + RESOLVING) * cluster.parameters["gMacroPerCycle"] + 1
    if not nodes:
        return ["the cluster has no correct coldstart node: give some with a key slot `coldstart = true`"]
    if len(startup.cold.leading) > 1:
        named = " and ".join(map(str, startup.cold.leading))
        return [f"nodes {named} all lead: they do not hear each other, since they share no channel; give them one in common"]
    found = []
    for node in nodes:
        on, off = startup.power[node][-1]
        if off is not None and off - on < need:
            found.append(f"node {node} is on for {decimal(startup.ms(off - on), 3)} ms, and leading takes "
                         f"{decimal(startup.ms(need), 3)} ms of listening and collision resolution at least")
        elif off is not None:
            found.append(f"node {node} is switched off at {decimal(startup.ms(off), 3)} ms")
    return found or [f"the startup has {startup.cycles} cycles, which do not suffice"]


def shown(value: Fraction | None) -> str:
    return "-" if value is None else decimal(value, 3)


def table(startup: Startup) -> list[Part]:
    """The part of each node."""
    found: list[Part] = []
    for number in startup.cluster.nodes:
        on = startup.ms(startup.power[number][0].on)
        if number == startup.leader:
            led = startup.ms(startup.lead_at)
            found.append(Part(number, "leads", on, on, None, led))
        elif number in startup.cluster.arbitrary:
            found.append(Part(number, "arbitrary", on, None, None, None))
        elif number in startup.out:
            found.append(Part(number, "not there", on, None, None, None))
        else:
            double = startup.listens[number]
            part = "coldstart" if startup.cluster.nodes[number].coldstart else "sync" if (
                startup.cluster.nodes[number].key_slot) else "no key slot"
            found.append(Part(number, part, on, startup.of_cycle(2 * double), startup.of_cycle(2 * double + 2),
                              startup.of_cycle(startup.joined.first_row(number))))
    return found


def table_lines(startup: Startup) -> list[str]:
    found = ["", f"{'node':>4}  {'part':<12}{'on':>10}{'listens':>12}{'follows':>12}{'takes part':>12}   ms"]
    for row in table(startup):
        found.append((f"{row.node:>4}  {row.part:<12}{shown(row.on):>10}" + "".join(f"{shown(time):>12}" for time in row.times[1:])
                      + "        " + startup.cluster.nodes[row.node].name).rstrip())
    found.append("")
    for number, why in sorted(startup.out.items()):
        found += lines_of("", f"node {startup.cluster.called(number)} is not in the run: {why}")
    for number in startup.cluster.arbitrary:
        found += lines_of("", f"node {startup.cluster.called(number)} is arbitrary: it is left off until one leads, since nothing is "
                              "promised of a faulty coldstart node, and then says what the file has it say")
    for number, times in sorted(startup.power.items()):
        off = [time for _, time in times if time is not None and time > startup.lead_at]
        if off and number in startup.joined.cluster.nodes:
            found += lines_of("", f"node {startup.cluster.called(number)} is switched off at {shown(startup.ms(off[0]))} ms: the run "
                                  "does not have that, in it nobody leaves")
    return found


def head_lines(startup: Startup) -> list[str]:
    cold, nodes = startup.cold, coldstart(startup.cluster)
    leads = [(lead.node, lead.macrotick) for lead in cold.leads]
    apart = (f"nodes {cold.apart[0]} and {cold.apart[1]} share no channel, so nothing keeps both from leading"
             if cold.apart else "every two share a channel")
    found = lines_of("Coldstart", f"{len(nodes)} correct coldstart nodes"
                     + (f" ({', '.join(map(str, nodes))})" if nodes else "") + (f"; {apart}" if len(nodes) > 1 else ""))
    if len(nodes) == 1:
        found += lines_of("WARNING", "one coldstart node starts no cluster by the standard: it asks for a second one that "
                                     "follows, and better for a third")
    if nodes:
        found += lines_of("Power-on", f"the first coldstart node is on at {shown(startup.ms(startup.first_on))} ms; all times "
                                      "are counted from 0 of the file, by nominal macroticks until a node leads")
    for node, time in leads:
        last = max(at for other, at in leads if other == node)
        later = "" if node in cold.leading and time == last else ", and is switched off later"
        found += lines_of("Leads", f"node {startup.cluster.called(node)} from {shown(startup.ms(time))} ms on (macrotick {time}){later}")
    return found


def sync_lines(startup: Startup) -> list[str]:
    run, synced = startup.joined, startup.synced
    late = [number for number in startup.listens if run.first_row(number) is None]
    if synced is None:
        why = (f"nodes {', '.join(map(str, late))} take no part in {run.cluster.cycles} cycles" if late
               else "no double cycle with all of them is in sync")
        found = lines_of("All in sync", f"NO: {why}")
    else:
        time = startup.of_cycle(2 * synced) or Fraction(0)
        found = lines_of("All in sync", f"from {shown(time)} ms on, {shown(time - startup.ms(startup.first_on))} ms after the "
                                        f"first coldstart node was switched on (cycle {2 * synced} of the run)")
        lost = next((at for at in range(synced, len(run.synced)) if not run.synced[at]), None)
        if lost is not None:
            found += lines_of("", f"but sync was lost in double cycle {lost} of the run ({shown(startup.of_cycle(2 * lost))} ms)")
    found += sharp_lines(run, lines_of, ms_of_cycle)
    return found + check_lines(run, lines_of) + gap_lines(run) + classical_lines(run) + lost_lines(run)


def proved_lines(startup: Startup) -> list[str]:
    cold, nodes = startup.cold, coldstart(startup.cluster)
    plain = all(off is None for number, times in startup.power.items() if number in nodes for _, off in times)
    found = []
    if nodes and not cold.apart:
        found.append("that at most one node leads at a time, whenever which is switched")
        if plain and len(startup.cold.leads) == 1:
            found.append("that it is the one switched on first (of equals that with the least key slot), six cycles and one "
                         "macrotick after that, since none is switched off")
    if startup.run and startup.run.report.gap is None and startup.run.report.in_sync is not None:
        double = startup.run.report.in_sync
        found.append(f"what `Classical` says, from cycle {2 * double} of the run on, and that a node which listens in double cycle "
                     f"e of the run, {double} or later, takes part from its cycle 2 e + 6 on")
    sharply = first_of(startup.run) if startup.run and is_covered(startup.run) else None
    if sharply is not None:
        found.append(f"what `Covered` says, from cycle {2 * sharply} of the run on")
    text = "; ".join(found) if found else "nothing of this startup"
    if not startup.run:
        return lines_of("Proved", text)
    return lines_of("Proved", text) + lines_of("Seen", "all else here, of these files: in particular that a node takes part "
                                                       "which listens before the run is in sync")


LEFT_OUT = ("wakeup; that a coldstart node follows a leader already in the four cycles before it leads, as the standard has "
            "it (here it listens from then on, so a network may be four cycles sooner); the consistency checks of leading and "
            "of integrating nodes, and how often one may try (gColdstartAttempts); noise; that clocks differ before one leads. "
            "Nodes that are no coldstart nodes listen once a second coldstart node takes part.")


def verdict_words(startup: Startup) -> str:
    """In a sentence who leads, when all are in sync, and what is proved of the run then."""
    if startup.leader is None:
        return "NO: no node leads at the end" if not startup.cold.leading else "NO: more than one node leads at the end"
    if startup.synced is None:
        synced = "but not all come into sync"
    else:
        synced = f"and all are in sync from {shown(startup.of_cycle(2 * startup.synced))} ms on"
    return f"node {startup.cluster.called(startup.leader)} leads, {synced}; of the run then {verdict_of(startup.joined).told}"


def page(startup: Startup) -> str:
    found = lines_of("Verdict", verdict_words(startup)) + head_lines(startup)
    if startup.leader is None:
        found += lines_of("Leads", "NOBODY at the end" if not startup.cold.leading else "MORE THAN ONE at the end",
                          *why_none(startup))
    else:
        found += sync_lines(startup) + table_lines(startup)
    found += proved_lines(startup) + lines_of("Left out", LEFT_OUT) + lines_of("Origin", ORIGIN)
    return "\n".join(found) + "\n"


def startup_object(startup: Startup) -> dict[str, Any]:
    """A startup as an object: names stand in docs/FLEXLAB.md, "For machines"."""
    def number(value: Fraction | None) -> float | None:
        return None if value is None else float(decimal(value, 6))

    found: dict[str, Any] = {
        "file": startup.cluster.path, "verdict": verdict_words(startup), "names": startup.cluster.names,
        "coldstart_nodes": coldstart(startup.cluster),
        "no_common_channel": startup.cold.apart,
        "leads": [{"node": lead.node, "macrotick": lead.macrotick, "ms": number(startup.ms(lead.macrotick))}
                  for lead in startup.cold.leads],
        "leader": startup.leader, "why_none": why_none(startup) if startup.leader is None else [],
    }
    if startup.run:
        synced = startup.synced
        found.update({
            "all_in_sync_ms": None if synced is None else number(startup.of_cycle(2 * synced)),
            "first_on_ms": number(startup.ms(startup.first_on)), "left_out_nodes": startup.out,
            "nodes": [{"node": row.node, "part": row.part, **{name: number(time) for name, time in zip(
                ("on_ms", "listens_ms", "follows_ms", "takes_part_ms"), row.times)}}
                for row in table(startup)],
            "run": run_object(startup.run)})
    return found


COLOURS = {"waits": "#d9d9d9", "listens": "#56b4e9", "follows": "#e69f00", "takes part": "#009e73"}


def spans(startup: Startup, end: Fraction) -> Iterator[Phase]:
    """What the nodes do, until the end of the picture."""
    for at, (_, part, on, listens, follows, takes) in enumerate(table(startup)):
        all_marks = (("waits" if part != "leads" else "listens", on), ("listens", listens), ("follows", follows), ("takes part", takes))
        marks = [(name, time) for name, time in all_marks if time is not None]
        for (name, time), (_, behind) in zip(marks, [*marks[1:], ("", end)]):
            if min(behind, end) > time:
                yield Phase(at, name, time, min(behind, end))


def draw_startup(startup: Startup, folder: str) -> list[str]:
    from ..pages.pictures import draw, node_label, node_texts, plain_axes
    rows, synced = table(startup), startup.synced
    last = max(time for row in rows for time in row.times if time is not None)
    ready = startup.of_cycle(2 * synced) if synced is not None else None
    end = max(last, ready or 0) + startup.ms(4 * startup.cluster.parameters["gMacroPerCycle"])
    found = list(spans(startup, end))
    lines = []
    for name in COLOURS:
        data = "".join(f"{decimal(begun, 6)} {at} {decimal(begun, 6)} {decimal(until, 6)} {at - 0.3:.1f} {at + 0.3:.1f}\n"
                       for at, phase, begun, until in found if phase == name) or "NaN NaN NaN NaN NaN NaN\n"
        lines.append(f"${name.replace(' ', '')} << end\n{data}end")
    lines += [plain_axes() + "set title 'Startup of '.file noenhanced font ',14'",
              "set xlabel 'milliseconds from power-on'", "set bmargin 6\nset key at screen 0.5, 0.02 bottom center horizontal",
              f"set xrange [0:{decimal(end, 3)}]\nset yrange [{len(rows)}:-1] noreverse\nunset grid",
              "set ytics (" + ", ".join(f"{node_label(row[0])} {at}" for at, row in enumerate(rows)) + ") noenhanced",
              "set style fill solid noborder"]
    led = decimal(startup.ms(startup.lead_at), 6)
    lines += [f"set arrow 1 from {led}, graph 0 to {led}, graph 1 nohead linecolor '#555555' dashtype 3",
              f"set label 1 'node {startup.leader} leads' at {led}, graph 0.97 offset 0.8,0 textcolor '#555555'"]
    if ready is not None:
        at = decimal(ready, 6)
        lines += [f"set arrow 2 from {at}, graph 0 to {at}, graph 1 nohead linecolor '#a67c2d' dashtype 3",
                  f"set label 2 'all in sync' at {at}, graph 0.97 right offset -0.8,0 textcolor '#8a6420'"]
    lines.append("plot " + ", \\\n     ".join(
        f"${name.replace(' ', '')} using 1:2:3:4:5:6 with boxxyerror linecolor '{colour}' title '{name}'"
        for name, colour in COLOURS.items()))
    return draw(folder, "power", "\n".join(lines) + "\n", f"1000,{220 + 40 * len(rows)}",
                file=os.path.basename(startup.cluster.path), **node_texts(startup.cluster))


def power(words: Namespace, folder: str, complain: Callable[[str], None]) -> int:
    """The request `power`."""
    from ..toml.cluster import read_cluster
    asked = wanted(words.require)
    cluster = read_cluster(words.file)
    hold(folder)
    startup = begin(cluster, folder, flexray(words.flexray))
    text = page(startup)
    keep(folder, "power.txt", text)
    drawn = draw_startup(startup, folder) if words.pictures and startup.run else []
    if words.json:
        printed({**startup_object(startup), "pictures": drawn})
    else:
        sys.stdout.write(text)
        print(f"{'Files':<16}{folder}/: power.csv, cold.txt, power.txt" + ("; joined/ has those of the run"
                                                                           if startup.run else ""))
        for path in drawn:
            print(f"{'Picture':<16}{path}")
    if startup.leader is None:
        return NO
    return ended(startup.joined, asked, complain) if asked else DONE
