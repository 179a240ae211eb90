"""A design held against the program: `flexray bound` has to print the bounds that were reckoned, and to refuse each parameter at one
less by the check that was named."""
import os
import tempfile
from dataclasses import dataclass, field

from ..base import files, ranges
from ..base.ending import NO, PROGRAM, Stop
from ..pages.advice import latest_start
from ..program import calls as programs
from ..program.report import SharpBounds, read_sharp_bounds
from ..runs.least import Sides, holds
from ..runs.sharp import sharp_words
from .solving import BEHIND, FRAME, FREE, HELD, LEAST, MAX_DRIFT, SLOT, Design, Raise, Task, binding, least, put

# What a demand is where it is no check of flexray.
OTHERS = {MAX_DRIFT: "pdMaxDrift of the standard, quoted", SLOT: "the slot length of the standard, quoted",
          FRAME: "a frame has to end in its slot"}


@dataclass
class Neighbour:
    """A free parameter at one less than the design has it: by which demands that is refused, and the check of the program that
    fails there, with both sides; None where no check of the program is named. Where the walk is not held there it is for how many
    double cycles sync lasts."""
    parameter: str
    value: int
    by: list[str]
    check: tuple[str, int, int] | None = None
    kept: bool = False
    lasts: int | None = None


@dataclass
class Step:
    """A step of the chain as it was confirmed; the file is None where the demand is no check of the program."""
    name: str
    parameter: str
    value: int
    told: str
    file: str | None = None


@dataclass
class Confirmed:
    """What the program said of a design."""
    design: Design
    bounds: SharpBounds
    neighbours: list[Neighbour]
    chain: list[Step] = field(default_factory=list)


@dataclass(frozen=True)
class Nodes:
    """The nodes of a file of parameters: (number, key slot or None, channels, whether it is a coldstart node)."""
    rows: tuple[tuple[int, int | None, str, bool], ...]
    slots: tuple[tuple[int, int, int, int], ...] = ()


def parameters_of(task: Task, p: dict[str, int]) -> dict[str, int]:
    """The parameters of a file, in its order: of version 2 where both channels have a compensation of their own."""
    first, second = task.compensations
    values = {**p, "pDelayCompensation": first, "pDelayCompensationA": first, "pDelayCompensationB": second}
    return {name: values[name] for name in ranges.table(1 if first == second else 2)}


def params_text(parameters: dict[str, int], nodes: Nodes) -> str:
    """A file of parameters, as docs/FORMATS.md has it."""
    lines = ["version,2,,,"] if "pDelayCompensationA" in parameters else []
    lines += [f"param,{name},{value},," for name, value in parameters.items()]
    lines += [f"node,{number},{key or ''},{channels},{int(cold)}" for number, key, channels, cold in nodes.rows]
    lines += [f"slot,{slot},{node},{base},{repetition}" for slot, node, base, repetition in nodes.slots]
    return "\n".join(lines) + "\n"


def asked(program: str, task: Task, p: dict[str, int], nodes: Nodes, path: str) -> SharpBounds:
    """What the program prints of these parameters, of the task's kind."""
    files.put(path, params_text(parameters_of(task, p), nodes), "ascii")
    words = sharp_words(path, task.kind.flutter, task.join)
    status, text, told = programs.call(program, words)
    if status == 5:
        raise Stop(NO, f"flexray {' '.join(words)}\n{told}: the key slots and the offset correction do not fit into this cycle")
    if status != 0:
        raise Stop(PROGRAM, f"flexray {' '.join(words)} ended with status {status}: {told}")
    return read_sharp_bounds(text)[task.kind.name]


def failing(bounds: SharpBounds, name: str) -> tuple[str, int, int] | None:
    """A check by its name with both sides, where the program says that it fails."""
    return next(((name, check.left, check.right) for check in bounds.failing if f"C{check.number}" == name), None)


def unlike(design: Design, bounds: SharpBounds) -> str | None:
    """What of the program's bounds does not fit those that were reckoned, or None."""
    for name, told in (("precision", bounds.precision), ("lambda", bounds.lambda_), ("pi", bounds.pi)):
        if design.bounds[name] != told:
            return f"{name} {told}, and reckoned are {design.bounds[name]}"
    for number, held, left, right in bounds.checks:
        wanted = number != 1 or not design.task.held
        if design.bounds[number] != (left, right) or held != wanted or holds(number, Sides(left, right)) != wanted:
            return f"C{number} {'holds' if held else 'fails'} {left} {right}, and reckoned are {tuple(design.bounds[number])}"
    if bounds.lasts is not None:
        return f"that it lasts {bounds.lasts} double cycles"
    return None


def with_rest(p: dict[str, int]) -> dict[str, int]:
    """Parameters with the tail of the cycle that they leave."""
    start = latest_start(p)
    if start is None:
        raise Stop(NO, "the key slots and the offset correction do not fit into this cycle")
    return {**p, "gOffsetCorrectionStart": start, "gdNIT": p["gMacroPerCycle"] - p["gNumberOfStaticSlots"] * p["gdStaticSlot"]}


def neighbour(program: str, design: Design, parameter: str, by: list[str], nodes: Nodes, path: str) -> Neighbour:
    """One parameter at one less, asked of the program; where a check of it is named, that one has to fail."""
    task = design.task
    value = (design.behind if parameter == BEHIND else design.parameters[parameter]) - 1
    kept = parameter in dict(task.kept) or parameter == BEHIND and "gdStaticSlot" in dict(task.kept)
    checks = [name for name in by if name not in OTHERS]
    if kept or not checks:
        return Neighbour(parameter, value, by, kept=kept)
    p, _ = put(design.parameters, design.behind, parameter, value, task)
    bounds = asked(program, task, with_rest(p), nodes, path)
    check = next((found for found in (failing(bounds, name) for name in checks) if found), None)
    lasts = bounds.lasts if HELD in by else None
    if check is None and lasts is None and not task.margin:
        raise Stop(PROGRAM, f"flexray bound does not refuse {parameter} at {value}, which {' and '.join(checks)} should")
    return Neighbour(parameter, value, by, check, lasts=lasts)


def step(program: str, design: Design, one: Raise, number: int, nodes: Nodes, folder: str) -> Step:
    """A step of the chain, as a file of which the program prints that the check fails, or how long sync lasts: that with what the
    design has of damping and rate limit, since either falls short alone."""
    task = design.task
    if one.name in OTHERS:
        return Step(one.name, one.parameter, one.value, OTHERS[one.name])
    own = {name: design.parameters[name] for name in ("pClusterDriftDamping", "pRateCorrectionOut")} if one.name == HELD else {}
    p, _ = put({**one.before, **own}, one.behind, one.parameter, one.value - 1, task)
    name = f"{number:02}-{one.name.split()[0]}.csv"
    bounds = asked(program, task, with_rest(p), nodes, os.path.join(folder, name))
    if one.name == HELD and bounds.lasts is not None:
        return Step(one.name, one.parameter, one.value, f"the walk is not held, lasts {bounds.lasts}", name)
    check = failing(bounds, one.name)
    if check is None:
        if not task.margin:
            raise Stop(PROGRAM, f"flexray bound does not refuse {one.parameter} at {one.value - 1}, which {one.name} should")
        return Step(one.name, one.parameter, one.value, "by the margin that is asked for", name)
    return Step(one.name, one.parameter, one.value, f"{one.name} fails {check[1]} {check[2]}", name)


def certificate(program: str, design: Design, nodes: Nodes, folder: str) -> list[Step]:
    """Writes the chain of a design: files of parameters, each of which the program refuses by the check of its name, and
    chain.txt, which says of each step what it shows."""
    chain: list[Raise] = []
    least(design.task, design.parameters["gMacroPerCycle"], chain)
    files.hold(folder)
    found = [step(program, design, one, number, nodes, folder) for number, one in enumerate(chain, 1)]
    asked(program, design.task, design.parameters, nodes, os.path.join(folder, "design.csv"))
    words = " ".join(sharp_words("FILE", design.task.kind.flutter, design.task.join))
    lines = [f"Each file is one of flexray {words}; of kind {design.task.kind.name} it prints what stands behind it.",
             "With all else no greater than in any solution the parameter is one too low there, so it is raised to the value.", ""]
    lines += [f"{one.file or '-':<16}{one.parameter if one.parameter != BEHIND else 'behind the action point':<24} to "
              f"{one.value:<7} {one.told}" for one in found]
    hold = "all checks but C1 hold, and the walk is held: lasts on" if design.task.held else "all checks hold"
    files.put(os.path.join(folder, "chain.txt"), "\n".join([*lines, f"{'design.csv':<16}{hold}"]) + "\n")
    return found


def confirm(program: str, design: Design, nodes: Nodes) -> Confirmed:
    """Has the program say of a design that all checks hold, and of each parameter at one less that one fails."""
    with tempfile.TemporaryDirectory(prefix="flexlab-design-") as room:
        path = os.path.join(room, "params.csv")
        bounds = asked(program, design.task, design.parameters, nodes, path)
        why = unlike(design, bounds)
        if why:
            raise Stop(PROGRAM, f"flexray bound tells of a design {why}")
        by = binding(design)
        return Confirmed(design, bounds, [neighbour(program, design, name, by[name], nodes, path) for name in FREE
                                          if by[name] or name in dict(design.task.kept) or LEAST[name] > 0])
