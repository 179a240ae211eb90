"""Pictures of a run by gnuplot: the skew over time beside the precision, and each node's terms."""
from __future__ import annotations

import os
import re
import tempfile
from fractions import Fraction
from collections.abc import Sequence
from typing import TYPE_CHECKING, NamedTuple

from ..program import calls as programs
from ..base.ending import PROGRAM, Stop, printable
from ..base.files import put, put_bytes, read
from .page import ms_of_cycle
from ..runs.sharp import ends_of, first_of, is_covered, lost_of, skew_of
from ..base.units import decimal, us_of_ticks
from ..runs.windows import changes, exact, later, skews
from ..program.report import Skew
from ..toml.cluster import Cluster

if TYPE_CHECKING:
    from ..runs.runs import Run

COLOURS = ("#0072b2", "#d55e00", "#009e73", "#cc79a7", "#e69f00", "#56b4e9", "#7f3f00", "#555555")
POINTS = 1500
NAME_ROOM = 20
KEY = "set bmargin 6\nset key at screen 0.5, 0.02 bottom center vertical maxrows 2 Left reverse samplen 2 width 2"
UPPER = ("set tmargin 5\nset bmargin 6\nset key at screen 0.5, 0.475 bottom center vertical maxrows 2 Left reverse samplen 2 "
         "width 2")


# A value of a cycle.
Point = tuple[int, Fraction]


class Bound(NamedTuple):
    """A line that the skew is held against, in microseconds, from a first cycle to a last one."""
    name: str
    us: Fraction
    span: tuple[int, int]
    colour: str


class Marks(NamedTuple):
    """The first cycle from which on something is so, what that is, and the greatest skew with what it is in."""
    first: int | None
    what: str
    skew: Skew | None
    name: str


def thinned(rows: Sequence[Point]) -> list[Point]:
    """At most so many rows: of each stretch of cycles the greatest value is kept."""
    width = -(-len(rows) // POINTS)
    return [max(rows[at:at + width], key=lambda row: row[1]) for at in range(0, len(rows), width)]


def literal(text: str) -> str:
    """A text from outside as gnuplot takes it as nothing but a text: of ASCII only letters, digits, blanks and `._-` stand as they
    are, and the rest by its octal number. Quotes alone do not do it: gnuplot loses count of those that stand in each other, and then
    puts in what a variable has for its name behind @."""
    shown = printable(os.fsencode(text).decode("utf-8", "replace"))
    # A digit behind a number would be taken for one of its own.
    return '"' + re.sub(r"[^\w ._-][0-9]*", by_numbers, shown) + '"'


def by_numbers(found: re.Match[str]) -> str:
    """ASCII characters by their octal numbers; others as they are."""
    return "".join(f"\\{ord(one):03o}" if one.isascii() else one for one in found[0])


def draw(folder: str, name: str, script: str, size: str = "1000,560", **texts: str) -> list[str]:
    """Runs gnuplot for SVG and for PNG, on a script that is kept beside them, and hands back their paths.

    This is the one way by which text from outside comes to gnuplot: as `texts`, variables of a string each, set at the head of
    the script. A script itself has fixed words and numbers, and gnuplot works in a folder of its own on files of fixed names.
    """
    gnuplot = programs.helper("gnuplot")
    width, height = size.split(",")
    head = {"svg": f'set terminal svg size {size} dynamic background "white" font "DejaVu Sans,13"',
            "png": f'set terminal pngcairo size {width},{height} background "white" font "DejaVu Sans,11"'}
    named = "".join(f"{variable} = {literal(text)}\n" for variable, text in texts.items())
    drawn = []
    with tempfile.TemporaryDirectory(prefix="flexlab-picture-") as room:
        for kind, terminal in head.items():
            text = f"set encoding utf8\n{terminal}\nset output '{name}.{kind}'\n{named}{script}"
            put(os.path.join(room, f"{name}.gnuplot"), text)
            # By -d it reads no settings of the user, which could draw other pictures or run a command.
            status, _, told = programs.call(gnuplot, ["-d", f"{name}.gnuplot"], cwd=room)
            picture = os.path.join(room, f"{name}.{kind}")
            if status != 0 or not os.path.isfile(picture) or not os.path.getsize(picture):
                raise Stop(PROGRAM, f"gnuplot on {os.path.join(folder, name)}.gnuplot ended with status {status}: {told}")
            drawn.append(os.path.join(folder, f"{name}.{kind}"))
            put(os.path.join(folder, f"{name}.gnuplot"), text)
            put_bytes(drawn[-1], read(picture))
    return drawn


def node_texts(cluster: Cluster) -> dict[str, str]:
    """The variables of the nodes, node1 and so on, for `draw`: the number of each with its name."""
    return {f"node{number}": f"{number} {shortened(node.name)}".rstrip() for number, node in cluster.nodes.items()}


def node_label(*nodes: int, more: str = "") -> str:
    """The label of nodes in a picture, with their names, as an expression of their variables; to be written with `noenhanced`,
    since names are of any characters."""
    return f"'{'node' if len(nodes) == 1 else 'nodes'} '." + ".', '.".join(f"node{int(node)}" for node in nodes) + (
        f".'{more}'" if more else "")


def shortened(name: str) -> str:
    """A name as there is room for it in a picture."""
    return name if len(name) <= NAME_ROOM else name[:NAME_ROOM - 2] + ".."


def skew_rows(run: Run) -> tuple[list[Point], str]:
    """(cycle, microseconds) of each cycle, and what they are."""
    unit = run.cluster.microtick_ns
    return ([(cycle, us_of_ticks(skew, unit)) for cycle, skew in enumerate(skews(run))],
            "greatest skew of the cycle" if exact(run) else "how far the starts of the cycle lie apart")


def plain_axes() -> str:
    return ("set border 3 linecolor '#555555'\nset tics nomirror textcolor '#333333'\n"
            "set grid ytics linecolor '#e3e3e3' linetype 1\nset key textcolor '#333333'\n")


def precisions(run: Run) -> list[Bound]:
    """The lines that the skew is held against: the precision where that is proved of the run, from sync on, and the classical bound
    where that is or nothing is."""
    unit, first, last = run.cluster.microtick_ns, sharp_cycle(run), len(run.cycles)
    found: list[Bound] = []
    if first is not None:
        ends = ends_of(run)
        end = last if ends is None else 2 * ends
        found.append(Bound("precision", us_of_ticks(run.sharp.bounds.precision, unit), (first, end), "#009e73"))
    if run.report.gap is None or first is None:
        found.append(Bound("classical bound", us_of_ticks(run.report.precision, unit), (0, last), "#b00020"))
    return found


def sharp_cycle(run: Run) -> int | None:
    """The first cycle in sync of a run of which the precision is proved, or None."""
    first = first_of(run) if is_covered(run) else None
    return None if first is None else 2 * first


def marks(run: Run) -> Marks:
    """Of sync where the precision is drawn, else of sync by the classical bound."""
    if sharp_cycle(run) is not None:
        return Marks(sharp_cycle(run), "in sync", skew_of(run), "in sync")
    first = None if run.report.in_sync is None else 2 * run.report.in_sync
    return Marks(first, "in sync by the classical bound", run.in_sync_skew,
                 "in sync by that bound" if run.lost is None else "since sync by that bound")


def lost_double(run: Run) -> int | None:
    """The double cycle in which that sync is lost: where the precision is drawn, one behind those of which it is proved."""
    if sharp_cycle(run) is None:
        return run.lost
    lost, ends = lost_of(run), ends_of(run)
    return lost if lost is not None and ends is not None and lost >= ends else None


def skew_script(run: Run) -> str:
    """Two panels over the same cycles: the skew beside the precision, and in the scale of what it is later."""
    report, unit = run.report, run.cluster.microtick_ns
    rows, what = skew_rows(run)
    bounds = precisions(run)
    precision = max(value for _, value, _, _ in bounds)
    most, last = max([row[1] for row in rows] + [us_of_ticks(report.skew, unit)]), len(run.cycles)
    top = max(most, precision) * 115 / 100
    wide = most > 20 * precision
    lines = ["$skew << end\n" + "".join(f"{cycle} {decimal(value, 6)}\n" for cycle, value in thinned(rows)) + "end",
             plain_axes() + "set multiplot layout 2,1 title 'Clock skew of '.file noenhanced font ',14'",
             "set xlabel 'cycle'", f"set ylabel 'microseconds{', a logarithmic scale' if wide else ''}'",
             f"set xrange [0:{last}]\nset x2range [0:{decimal(ms_of_cycle(last, run.cluster), 3)}]",
             "set x2tics nomirror\nset x2label 'milliseconds'\nset border 7\nset lmargin 9",
             "set logscale y" if wide else f"set yrange [0:{decimal(top, 6)}]",
             UPPER]
    first, what_begins, dot, name = marks(run)
    if first is not None:
        lines += [f"set object 1 rectangle from graph 0, graph 0 to first {first}, graph 1 fillcolor '#f3e9d8' "
                  "fillstyle solid noborder behind" if first else "",
                  f"set arrow 1 from {first}, graph 0 to {first}, graph 1 nohead linecolor '#a67c2d' dashtype 3",
                  f"set label 1 '{what_begins} from cycle {first}' at {first}, graph 0.93 offset 0.8,0 "
                  "textcolor '#8a6420'"]
    else:
        lines.append("set label 1 'never in sync' at graph 0.02, graph 0.93 textcolor '#b00020'")
    found = lost_double(run)
    if found is not None:
        lost = 2 * found
        lines += [f"set arrow 2 from {lost}, graph 0 to {lost}, graph 1 nohead linecolor '#b00020' dashtype 3",
                  f"set label 2 'sync lost in cycle {lost}' at {lost}, graph 0.86 offset 0.8,0 textcolor '#b00020'"]
    lines += join_lines(run)
    lines += [f"$bound{at} << end\n" + "".join(f"{cycle} {decimal(value, 6)}\n" for cycle in span) + "end"
              for at, (_, value, span, _) in enumerate(bounds)]
    plots = [*(f"$bound{at} using 1:2 title '{name}, {decimal(value, 3)} us' with lines linewidth 2 linecolor '{colour}'"
               for at, (name, value, _, colour) in enumerate(bounds)),
             f"$skew using 1:2 title '{what}' with lines linewidth 1.5 linecolor '#0072b2'"]
    if dot:
        value = us_of_ticks(dot.ticks, unit)
        lines.append(f"$point << end\n{dot.cycle} {decimal(value, 6)}\nend")
        plots.append(f"$point using 1:2 title 'greatest skew {name}, {decimal(value, 3)} us in cycle {dot.cycle}' "
                     "with points pointtype 7 pointsize 1.1 linecolor '#d55e00'")
    return ("\n".join(lines) + "\nplot " + ", \\\n     ".join(plots) + "\n" + near_panel(run) + "unset multiplot\n")


def near_panel(run: Run) -> str:
    """The panel in the scale of the later skew, with the stretches in which oscillators change."""
    found, unit = later(run, run.begin), run.cluster.microtick_ns
    if found is None:
        return ""
    top = max(us_of_ticks(found.greatest, unit), Fraction(1, 1000)) * 140 / 100
    lines = ["unset logscale y", f"set yrange [0:{decimal(top, 6)}]", "unset x2label", "set tmargin 2", "set bmargin 5",
             "set ylabel 'microseconds, magnified'", "unset label", "unset object 1"]
    changing, _ = changes(run)
    for at, (first, end, nodes) in enumerate(changing[:8]):
        label = node_label(*sorted(nodes), more=" changes" if len(nodes) == 1 else " change")
        lines += [f"set object {20 + at} rectangle from {first}, graph 0 to {end + 1}, graph 1 fillcolor '#e3eef7' "
                  "fillstyle solid noborder behind",
                  f"set label {20 + at} {label} noenhanced at {first}, graph 0.93 "
                  "offset 0.5,0 textcolor '#3b6ea5'"]
    data = [(Fraction(found.greatest), "greatest", "'#d55e00' dashtype 2"), (found.mean, "mean", "'#777777' dashtype 3")]
    plots = ["$skew using 1:2 notitle with lines linewidth 1.5 linecolor '#0072b2'"]
    plots += [f"[{found.first}:{found.last + 1}] {decimal(us_of_ticks(value, unit), 6)} title '{name} from cycle "
              f"{found.first} on, {decimal(us_of_ticks(value, unit), 3)} us' with lines linewidth 1.2 linecolor {style}"
              for value, name, style in data]
    return "\n".join(lines) + "\nset key at screen 0.5, 0.01 bottom center maxrows 1\nplot " + ", \\\n     ".join(
        plots) + "\n"


def join_lines(run: Run) -> list[str]:
    """Where nodes that join begin to take part: a node that listens or follows has no row."""
    found = []
    for at, (cycle, nodes) in enumerate(sorted(begun(run).items())):
        label = node_label(*nodes, more=f" from cycle {cycle}")
        height = f"graph {decimal(Fraction(84 - 6 * (at % 4), 100), 2)}"
        found += [f"set arrow {10 + at} from {cycle}, graph 0 to {cycle}, graph 1 nohead linecolor '#009e73' "
                  "dashtype 3",
                  f"set label {10 + at} {label} noenhanced at {cycle}, {height} offset 0.8,0 "
                  "textcolor '#00694d'"]
    return found


def begun(run: Run) -> dict[int, list[int]]:
    """The nodes that joined, by the cycle from which on they have rows."""
    found: dict[int, list[int]] = {}
    for node in sorted(run.cluster.joins):
        cycle = run.first_row(node)
        if cycle is not None:
            found.setdefault(cycle, []).append(node)
    return found


def terms_script(run: Run) -> str:
    nodes = sorted(run.report.ends)
    parameters, lines = run.cluster.parameters, list[str]()
    step = 2 * -(-len(run.cycles) // (2 * POINTS))
    for node in nodes:
        told = [cycle for cycle in range(0, len(run.cycles) - 1, step) if node in run.cycles[cycle]]
        data = "".join(f"{cycle} {run.cycles[cycle][node].rate} {run.cycles[cycle + 1][node].offset}\n"
                       for cycle in told or [run.first_row(node) or 0])
        lines.append(f"$node{node} << end\n{data}end")
    lines.append(plain_axes() + "set multiplot layout 2,1 title 'Correction terms of '.file noenhanced font ',14'")
    lines.append(f"set xrange [0:{len(run.cycles)}]\nset lmargin 10\nset rmargin 14\n"
                 "set key outside right top Left reverse samplen 2")
    for column, name, limit in ((2, "rate term", "pRateCorrectionOut"), (3, "offset term", "pOffsetCorrectionOut")):
        lines += [f"set ylabel '{name}, microticks'",
                  "set xlabel 'cycle'" if column == 3 else "unset xlabel",
                  f"set label 3 '{limit}: {parameters[limit]}' at graph 0.99, graph 0.94 right textcolor '#777777'",
                  "plot " + ", \\\n     ".join(
                      f"$node{node} using 1:{column} title {node_label(node)} noenhanced with steps linewidth 1.6 linecolor "
                      f"'{COLOURS[at % len(COLOURS)]}' dashtype {1 + at // len(COLOURS)}"
                      for at, node in enumerate(nodes))]
    return "\n".join(lines) + "\nunset multiplot\n"


def draw_run(run: Run) -> list[str]:
    """Draws both pictures into the run's folder, and hands back their paths."""
    if not run.cycles:
        return []
    file = os.path.basename(run.cluster.path)
    return (draw(run.folder, "skew", skew_script(run), "1000,860", file=file, **node_texts(run.cluster))
            + draw(run.folder, "terms", terms_script(run), "1000,720", file=file, **node_texts(run.cluster)))
