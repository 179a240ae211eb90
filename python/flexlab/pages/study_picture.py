"""The picture of a study: skew over the values of its first key, or over the share of its draws."""
import os
from fractions import Fraction
from typing import NamedTuple

from ..base.ending import DONE
from .pictures import COLOURS, KEY, POINTS, draw, plain_axes
from ..runs.study import Line, Plan, worth
from ..base.units import decimal


class Curve(NamedTuple):
    """The results of runs over a number that is written, with a name."""
    name: str
    points: list[tuple[str, Line]]


def curves(plan: Plan, good: list[Line]) -> list[Curve]:
    """Curves over the values of the first key, of the worst draw, one for each choice of the others; or, of draws alone, over the
    share of the runs."""
    if not plan["keys"]:
        order = list(enumerate(sorted(good, key=worth), 1))
        # Of many runs every so many, and the worst.
        some = order[::-max(1, len(order) // POINTS)][::-1]
        return [Curve("", [(decimal(Fraction(100 * at, len(order)), 3), line) for at, line in some])]
    found: dict[str, dict[str, Line]] = {}
    for line in good:
        others = ", ".join(f"{key} {line[key]}" for key in plan["keys"][1:])
        best = found.setdefault(others, {})
        x = line[plan["keys"][0]]
        if x not in best or worth(best[x]) < worth(line):
            best[x] = line
    return [Curve(name, sorted(best.items(), key=lambda one: Fraction(one[0]))) for name, best in found.items()]


def row(x: str, line: Line, later: str) -> str:
    """A line of the data: x, the precision, the skews in sync, greatest and later, and that of a run that is not covered."""
    greatest = line["greatest_skew_us"]
    return (f"{x} {line['precision_us']} {line['skew_in_sync_us'] or 'NaN'} {greatest} {line.get(later) or 'NaN'} "
            f"{'NaN' if line['covered'] == 'yes' else greatest}\n")


def picture(folder: str, plan: Plan, lines: dict[int, Line]) -> list[str]:
    good = [line for line in lines.values() if line["status"] == DONE]
    if not good:
        return []
    of = os.path.basename(plan.get("file", "flexray make"))
    drawn = curves(plan, good)
    key = plan["keys"][0] if plan["keys"] else "% of the runs, the worst at the right"
    title, names = f"{len(good)} runs of {of}", {}
    if plan["keys"] and plan["draws"] > 1:
        title += f", the worst of {plan['draws']} draws"
    joined = "points" if "make" in plan else "linespoints"
    blocks, plots = [], []
    # Without the skew of each cycle that in sharp sync stands in the place of the later one.
    later, what = ("later_skew_us", "later skew") if any(line.get("later_skew_us") for line in good) else (
        "sharp_skew_us", "skew in sharp sync")
    for at, (name, points_) in enumerate(drawn[:8]):
        rows = "".join(row(x, line, later) for x, line in points_)
        blocks.append(f"$runs{at} << end\n{rows}end\n")
        if len(drawn) == 1:
            plots += [f"$runs{at} using 1:2 title 'precision' with lines linewidth 2 linecolor '#b00020'",
                      f"$runs{at} using 1:4 title 'greatest skew of the run' with {joined} pointtype 6 linecolor '#999999'",
                      f"$runs{at} using 1:3 title 'greatest skew in sync' with {joined} pointtype 7 linewidth 1.5 "
                      "linecolor '#0072b2'"]
            if any(line["covered"] != "yes" for line in good):
                plots.append(f"$runs{at} using 1:6 title 'not covered' with points pointtype 2 pointsize 1.6 "
                             "linecolor '#b00020'")
        if any(line.get(later) for _, line in points_):
            names[f"curve{at}"] = what + (f", {name}" if name else "")
            plots.append(f"$runs{at} using 1:5 title curve{at} noenhanced with {joined} "
                         f"pointtype 7 pointsize 0.6 linecolor '{COLOURS[(at + 2) % len(COLOURS)]}'")
    if not plots:
        return []
    return draw(folder, "study", "".join(blocks) + plain_axes() + (
        "set title heading noenhanced font ',14'\nset xlabel key noenhanced\nset ylabel 'microseconds'\n"
        "set offsets graph 0.02, graph 0.02, 0, 0\nset yrange [0:*]\n" + KEY + "\nplot "
        + ", \\\n     ".join(plots) + "\n"), heading=title, key=key, **names)
