"""The request `case`: a page for a safety case. It states what is claimed of a cluster, on which premises and who has to see to each,
by which evidence, and what is not covered. All numbers are those that flexray printed, converted, rounded so that nothing is said
that is not proved."""
import argparse
import hashlib
import html
import os
import re
import shlex
import subprocess
import sys
from collections.abc import Iterable
from dataclasses import dataclass, field
from fractions import Fraction

from ..base import ranges
from ..base.ending import DONE, FILE, NO, PROGRAM, REFUSED, USAGE, Stop
from ..base.files import parameter_lines, put, put_new
from ..base.units import TICKS, decimal, lasting, ppm_of, us_of_ticks
from ..base.version import version
from ..program import calls
from ..program.report import SharpBounds, read_sharp_bounds
from ..runs.every_gap import every_gap
from ..runs.least import Kind
from ..runs.runs import broken_constraints
from ..runs.sharp import MOST, flutter_of
from ..toml.cluster import Cluster, read_cluster
from .advice import SHARP_WHY
from .gaps import gap_words, sharp_check_words
from .machine import printed
from .page import ms_of_cycle

# How many correct sync nodes outweigh so many arbitrary ones.
CORRECT = {0: 1, 1: 3, 2: 6}
LAWS = {False: ("files_keep_sharp_precision", "crates/fr_sharp/src/files.rt", "FilesKeepSharpPrecision",
                "crates/fr_sharp/specs/SharpStatement.antt"),
        True: ("joined_files_keep_sharp_precision", "crates/fr_sharp/src/joined_files.rt", "JoinedFilesKeepSharpPrecision",
               "crates/fr_sharp/specs/JoinedFiles.antt")}
NOT_COVERED = (
    "Wake-up, and the startup until the cluster is in sync (that it comes into it is premise P9).",
    "The dynamic segment, the symbol window and network management; what frames carry, and what hosts make of it.",
    "How long a frame is: in the model it is one instant. Bit coding, sampling, collisions and bus guardians.",
    "Frames with four or more inverted bits that pass both CRCs: one, two or three are always seen.",
    "More arbitrary nodes than are claimed, and one that sends outside its own slot.",
    "FlexRay 3.0: external synchronization, clusters of type TT-L and TT-E.",
    "Whether a premise holds. The program computes what follows from them, and nothing of real parts.",
    "A qualification of this tool: what confidence in it rests on is listed as evidence, and the level is yours to decide.",
)


@dataclass
class Premise:
    number: int
    text: str
    value: str
    who: str


@dataclass
class Evidence:
    """Calls of the program with what they printed."""
    words: list[str]
    text: str


@dataclass
class Case:
    """What the page states."""
    cluster: Cluster
    arbitrary: int
    flutter: int
    join: bool
    bounds: SharpBounds
    program: str
    parameters: str
    calls: list[Evidence] = field(default_factory=list)

    @property
    def keys(self) -> list[int]:
        return keys_of(self.cluster)


def keys_of(cluster: Cluster) -> list[int]:
    """The sync nodes that are there from the beginning: those that join outweigh nobody."""
    return [node.number for node in cluster.nodes.values() if node.key_slot is not None and node.number not in cluster.joins]


def upper_us(ticks: int, cluster: Cluster) -> str:
    """Microseconds of so many ticks, rounded up: what is claimed is not less than what is proved."""
    thousandths = us_of_ticks(ticks, cluster.microtick_ns) * 1000
    return decimal(Fraction(-(-thousandths.numerator // thousandths.denominator), 1000), 3)


def lower(value: Fraction, digits: int) -> str:
    """A number rounded down: what is asked of hardware is not less than what the proof asks."""
    scale = 10 ** digits
    return decimal(Fraction(value * scale // 1, scale), digits)


def sha256(data: bytes) -> str:
    return hashlib.sha256(data).hexdigest()


def sha256_of(path: str) -> str:
    try:
        with open(path, "rb") as file:
            return hashlib.file_digest(file, "sha256").hexdigest()
    except OSError as fault:
        raise Stop(FILE, f"{path}: {fault.strerror}")


# ---- what is stated


def claim(case: Case) -> list[str]:
    cluster, bounds = case.cluster, case.bounds
    precision = upper_us(bounds.precision, cluster)
    with_whom = {0: "No sync node is arbitrary.",
                 1: "Beside the correct nodes stands at most one arbitrary sync node, which may say anything in its own slot, and "
                    "something else to each receiver.",
                 2: "Beside the correct nodes stand at most two arbitrary sync nodes, each of which may say anything in its own slot, and "
                    "something else to each receiver."}[case.arbitrary]
    span = (f"to the end of the run, of up to {ranges.CYCLES[1] + 1:,} cycles" if bounds.lasts is None else
            f"for the {bounds.lasts} double cycles from there on ({lasting(ms_of_cycle(2 * bounds.lasts, cluster))})")
    found = [f"From each double cycle in sync on, {span}, no two corresponding macroticks of correct nodes lie further apart than "
             f"{precision} us ({bounds.precision} ticks), no correction term is cut or missing, and each correct node is "
             "active.", with_whom]
    if case.join:
        found.append("Nodes may join: one that listens in a double cycle e in that time, in which no node follows yet or later, takes part "
                     "from "
                     "cycle 2 e + 6 on, and the claim is of all that take part.")
    return found


def delays(case: Case) -> str:
    """The delays of each channel that the error allows for, in ns."""
    p, unit, found = case.cluster.parameters, case.cluster.microtick_ns, []
    for channel in sorted({channel for node in case.cluster.nodes.values() for channel in node.channels}):
        wait = ranges.compensation(p, channel) * TICKS
        low, high = (us_of_ticks(ticks, unit) * 1000 for ticks in (max(0, wait - p["xDelayError"]), wait + p["xDelayError"]))
        found.append(f"channel {channel}: {decimal(Fraction(-(-low * 1000 // 1), 1000), 3)} to {lower(high, 3)} ns")
    return "; ".join(found)


def premises(case: Case) -> list[Premise]:
    cluster, p = case.cluster, case.cluster.parameters
    ppm = min(abs(ppm_of(TICKS + sign * p["xRateBound"])) for sign in (1, -1))
    flutter = lower(us_of_ticks(case.flutter, cluster.microtick_ns) * 1000, 3)
    imported = re.findall(r"(?m)^# SHA-256 of [^\n]{1,200}: ([0-9a-f]{64})$", cluster.text)
    correct = len(case.keys) - case.arbitrary
    rows = [
        ("Each oscillator of a correct node is never further off its nominal frequency, over temperature, ageing and supply.",
         f"{lower(Fraction(ppm), 3)} ppm (xRateBound, {p['xRateBound']} ticks)", "hardware: data sheets, qualification of parts"),
        ("No oscillator changes by more from one cycle to the next.", f"{p['xChangeBound']} ticks, about ppm (xChangeBound)",
         "hardware: thermal and supply design"),
        ("Each delay from a correct sync node to a correct node lies within these limits: cables, transceivers, stars, and what is left of "
         "the decoding correction.", f"{delays(case)} (xDelayError, {p['xDelayError']} ticks)", "network: topology, data sheets, "
                                                                                                "measurement"),
        ("A delay differs by no more between the two cycles of a double cycle.", f"{flutter} ns ({case.flutter} ticks)",
         "network: jitter of transceivers and stars, measurement"),
        (f"At most {case.arbitrary} of the {len(case.keys)} sync nodes behave otherwise than the rules; the other {correct} and all nodes "
         "without "
         f"a key slot keep them, silicon and drivers included. At least {CORRECT[case.arbitrary]} correct sync nodes are there from the "
         "beginning.", f"sync nodes {', '.join(cluster.called(node) for node in case.keys)}",
         "system: fault hypothesis, FMEA; supplier of the controllers"),
        ("In each double cycle every correct sync node's frames reach every other correct node in both its cycles, undamaged, on a channel "
         "that "
         "both have.", "no such loss", "system: error rates, EMC"),
        ("All nodes are configured with these parameters, and with no external clock correction.",
         f"params.csv, SHA-256 {sha256(case.parameters.encode('ascii'))}"
         + "".join(f"; imported of a file with SHA-256 {one}" for one in imported[:8]), "integration: read back the configuration of each "
                                                                                        "ECU"),
        ("The program that printed the evidence is one whose functions were proved before it was built.",
         f"{os.path.basename(case.program)}, SHA-256 {sha256_of(case.program)}", "you: build it from the sources by the gate, and compare"),
        ("The cluster comes into sync.", "seen or proved otherwise", "test: flexlab settle, power or observe; startup tests on the "
                                                                     "bus"),
    ]
    return [Premise(number, *row) for number, row in enumerate(rows, 1)]


def toolchain() -> str:
    """The toolchain of the sources, as the file TOOLCHAIN names it."""
    path = os.path.join(os.path.dirname(os.path.realpath(__file__)), "..", "..", "..", "TOOLCHAIN")
    try:
        with open(path, encoding="ascii") as file:
            return file.readline().strip()
    except (OSError, UnicodeDecodeError):
        return "named in the file TOOLCHAIN of the sources"


def rests_on(case: Case) -> list[tuple[str, str]]:
    law, place, statement, specs = LAWS[case.join]
    return [
        ("Statement", f"{statement} ({specs}), word by word in docs/STATEMENT.md"),
        ("Theorem", f"{law} ({place}): of all parameters, clocks, delays and scripts that are sharply "
                    f"covered{' to join' if case.join else ''}"),
        ("What is printed", "is the answer that the rules give, for every file: the clause `ends` of `flexray` (docs/PROMISES.md)"),
        ("Gate", ".ci/run of the sources proves every function of every crate, builds both programs and holds them to worked cases"),
        ("Kit", toolchain()),
        ("Trusted", "the toolchain with its prover and compilers, the C library, the crates by their contracts, and the machine "
                    "(docs/PROMISES.md, \"What is trusted\")"),
        ("Only tested", "flexlab, which made this page of what the program printed; it computes no answer of its own"),
    ]


def broken_by_file(case: Case) -> list[str]:
    """Where the run that the file describes does not keep a premise in some cycle: the claim is of that run only if that is before sync."""
    return [gap_words(gap, case.cluster)[0] for gap in every_gap(case.cluster) if gap[0] != "count"]


def check_rows(case: Case) -> list[tuple[str, str, str, str]]:
    held = "; it fails, but the walk is held: no oscillator changes, so lengths come less than a microtick beyond their range"
    return [(f"C{number}", SHARP_WHY[number] + (held if number == 1 and case.bounds.is_held else ""), f"{left} and {right}",
             f"{lower(Fraction(100 * right, left), 1)} %" if left else "-") for number, _, left, right in case.bounds.checks]


def hashes(case: Case, path: str) -> list[tuple[str, str]]:
    return [(os.path.basename(path), sha256_of(path)), ("params.csv, as flexlab build writes it", sha256(case.parameters.encode("ascii"))),
            *((f"what `flexray {' '.join(one.words)}` printed", sha256(one.text.encode("utf-8"))) for one in case.calls),
            (os.path.basename(case.program), sha256_of(case.program))]


# ---- the page

STYLE = """
:root { color-scheme: light; }
body { font: 11pt/1.45 "DejaVu Sans", Arial, sans-serif; max-width: 60rem; margin: 2rem auto; padding: 0 1rem; color: #1a1a1a; }
h1 { font-size: 1.5rem; } h2 { font-size: 1.15rem; margin-top: 2rem; border-bottom: 1px solid #999; }
table { border-collapse: collapse; width: 100%; }
th, td { border: 1px solid #999; padding: .3rem .5rem; text-align: left; vertical-align: top; overflow-wrap: anywhere; }
th, td:first-child { overflow-wrap: normal; }
.premises th:last-child { width: 18%; }
.checks td:last-child { white-space: nowrap; }
th { background: #eee; }
.claim { border-left: 4px solid #0072b2; padding: .2rem 1rem; }
code { font-family: monospace; overflow-wrap: anywhere; }
@page { size: A4; margin: 18mm; }
@media print {
  body { margin: 0; max-width: none; font-size: 9.5pt; }
  h2 { break-after: avoid; }
  tr { break-inside: avoid; }
  th { background: #eee !important; print-color-adjust: exact; }
}
"""


def cells(row: Iterable[str], tag: str = "td") -> str:
    return "<tr>" + "".join(f"<{tag}>{html.escape(cell)}</{tag}>" for cell in row) + "</tr>"


def table(heads: Iterable[str], rows: Iterable[Iterable[str]], kind: str = "plain") -> str:
    inside = "\n".join(cells(row) for row in rows)
    return f"<table class=\"{kind}\"><thead>{cells(heads, 'th')}</thead><tbody>{inside}</tbody></table>"


def page(case: Case, path: str) -> str:
    name = html.escape(os.path.basename(path))
    nodes = [(str(node.number), node.name or "-", str(node.key_slot or "-"), node.channels) for node in case.cluster.nodes.values()]
    parameters = [(key, str(value), unit) for key, value, unit in (
        (key, value, ranges.NAMES[key][2]) for key, value in case.cluster.parameters.items())]
    broken = broken_by_file(case)
    own = ("<p>The run that the file itself describes does not keep them in all of its cycles. The claim is of that run only if all of "
           "this lies before it is in sync:</p><ul>"
           + "".join(f"<li>{html.escape(line)}</li>" for line in broken) + "</ul>") if broken else ""
    sections = [
        ("Claim", "<div class=\"claim\">" + "".join(f"<p>{html.escape(line)}</p>" for line in claim(case)) + "</div>"
         + "<p>A double cycle is an even cycle with the odd one behind it. It is in sync where every correct node is active, "
           f"and starts and lengths of their cycles lie within {case.bounds.pi} and {case.bounds.lambda_} ticks of each other (pi and "
           "lambda), "
           "each length in its range (docs/GLOSSARY.md).</p>"),
        ("Premises, and who has to see to each", "<p>The claim holds where all of these do, and says nothing where one does not. "
         "What oscillators, delays and frames do before that double cycle in sync does not count.</p>"
         + table(("", "Premise", "Value", "Who sees to it", "Shown by"),
                 ((f"P{one.number}", one.text, one.value, one.who, "") for one in premises(case)), "premises")
         + own),
        ("Evidence: what the claim rests on", table(("", ""), rests_on(case))),
        ("Evidence: the checks", "<p>As the program printed them: each holds where its left side is at least its right one, C5 and C9 "
         "where it is greater.</p>"
         + table(("Check", "What it asks", "Both sides", "Used"), check_rows(case), "checks")),
        ("Evidence: how to print it "
         "again", "<p>" + "<br>".join(f"<code>{html.escape(shlex.join(words))}</code>" for words in again(case, path))
         + "</p>" + table(("What", "SHA-256"), hashes(case, path))),
        ("Not covered", "<ul>" + "".join(f"<li>{html.escape(line)}</li>" for line in NOT_COVERED) + "</ul>"),
        ("The cluster", table(("Node", "Name", "Key slot", "Channels"), nodes)
         + f"<p>A microtick lasts {decimal(case.cluster.microtick_ns, 3)} ns; a tick is a millionth of it.</p>"
         + table(("Parameter", "Value", "Unit"), parameters)),
    ]
    body = "\n".join(f"<h2>{at}. {html.escape(title)}</h2>\n{inside}" for at, (title, inside) in enumerate(sections, 1))
    return (f"<!DOCTYPE html>\n<html lang=\"en\"><head><meta charset=\"utf-8\"><title>Clock synchronization of {name}</title>\n"
            f"<style>{STYLE}</style></head><body>\n<h1>Clock synchronization of {name}</h1>\n<p>A page for a safety case, by flexlab "
            f"{html.escape(version())} of what <code>flexray</code> printed. It states what is proved and on which premises; the argument "
            f"around it is yours.</p>\n{body}\n</body></html>\n")


def again(case: Case, path: str) -> list[list[str]]:
    return [["flexlab", "build", os.path.basename(path), "-o", "."], *(["flexray", *one.words] for one in case.calls)]


# ---- the request


def asked_of(program: str, words: list[str], params: str, cluster: Cluster) -> str:
    """What the program itself prints: its file's hash stands on the page, so no library answers in its place."""
    try:
        ended = subprocess.run([program, *(params if word == "params.csv" else word for word in words)], capture_output=True, check=False,
                               stdin=subprocess.DEVNULL)
    except OSError as fault:
        raise Stop(PROGRAM, f"{program}: {fault.strerror}")
    told = ended.stderr.decode("utf-8", "replace").strip()
    stop = broken_constraints(told, cluster) if ended.returncode == 5 else None
    if stop:
        raise stop
    if ended.returncode:
        raise Stop(PROGRAM, f"flexray {' '.join(words)} ended with status {ended.returncode}: {told}")
    return ended.stdout.decode("utf-8")


def flutter_asked(text: str, cluster: Cluster) -> int:
    """Ticks of --flutter-ns, rounded up, and no fewer than the delays of the file flutter."""
    if not re.fullmatch(r"\d{1,6}(?:\.\d{1,9})?", text, re.ASCII):
        raise Stop(USAGE, f"--flutter-ns {text[:40]}: a number of nanoseconds is wanted")
    ticks = Fraction(text) / cluster.microtick_ns * TICKS
    found = -(-ticks.numerator // ticks.denominator)
    if found > MOST:
        most = decimal(MOST * cluster.microtick_ns / TICKS, 3)
        raise Stop(USAGE, f"--flutter-ns {text}: at most {most} ns, 20 microticks, is taken")
    if found < flutter_of(cluster):
        raise Stop(REFUSED, f"{cluster.path}: its delays flutter by "
                            f"{decimal(us_of_ticks(flutter_of(cluster), cluster.microtick_ns) * 1000, 3)} ns, more than --flutter-ns "
                            f"{text}")
    return found


def stated(words: argparse.Namespace, params: str) -> Case:
    cluster = read_cluster(words.file)
    arbitrary = len(cluster.arbitrary) if words.arbitrary is None else words.arbitrary
    if arbitrary < len(cluster.arbitrary):
        raise Stop(REFUSED, f"{cluster.path}: it has {len(cluster.arbitrary)} arbitrary nodes, more than --arbitrary {arbitrary}")
    keys = len(keys_of(cluster))
    if keys - arbitrary < CORRECT.get(arbitrary, keys + 1):
        raise Stop(NO, f"{cluster.path}: nothing is proved beside {arbitrary} arbitrary nodes of {keys} sync nodes that do not join: none "
                       "asks "
                       "for 1 correct one, one for 3, two for 6")
    program, join = os.path.realpath(calls.flexray(words.flexray, ["bound"])), bool(cluster.joins) or words.join
    flutter, text = flutter_asked(words.flutter_ns, cluster), "".join(parameter_lines(cluster))
    put(params, text, "ascii")
    sharp = ["bound", "params.csv", "sharp", str(flutter), *(["join"] if join else [])]
    told = asked_of(program, sharp, params, cluster)
    kind = Kind(arbitrary > 0, flutter, max(node.key_slot for node in cluster.nodes.values() if node.key_slot is not None))
    bounds = read_sharp_bounds(told)[kind.name]
    failing = [check for check in bounds.failing if check[0] != 1]
    if failing:
        faults = "\n".join(line for number, _, left, right in failing
                           for line in sharp_check_words(number, left, right, cluster.parameters, kind))
        raise Stop(NO, f"{cluster.path}: nothing can be claimed:\n{faults}")
    if bounds.lasts == 0:
        raise Stop(NO, f"{cluster.path}: nothing can be claimed: C1 fails, and the rate limit holds the walk of all rates for no double "
                       "cycle")
    return Case(cluster, arbitrary, flutter, join, bounds, program, text, [Evidence(sharp, told)])


def write_case(words: argparse.Namespace) -> int:
    """The request."""
    import tempfile
    path = words.out or os.path.splitext(words.file)[0] + ".case.html"
    if os.path.exists(path):
        raise Stop(FILE, f"{path}: File exists, and is not written over; name another one by -o")
    with tempfile.TemporaryDirectory() as room:
        case = stated(words, os.path.join(room, "params.csv"))
    text = page(case, words.file)
    put_new(path, text)
    if words.json:
        printed({"written": path, "claim": claim(case), "precision_ticks": case.bounds.precision,
                 "precision_us": float(upper_us(case.bounds.precision, case.cluster)), "lasts_double_cycles": case.bounds.lasts,
                 "arbitrary": case.arbitrary, "flutter_ticks": case.flutter, "joins": case.join,
                 "premises": [{"premise": f"P{one.number}", "text": one.text, "value": one.value, "who": one.who}
                              for one in premises(case)],
                 "broken_by_the_file": broken_by_file(case), "evidence": dict(rests_on(case)),
                 "checks": [{"check": f"C{number}", "holds": held, "left": left, "right": right}
                            for number, held, left, right in case.bounds.checks],
                 "sha256": dict(hashes(case, words.file)), "again": [shlex.join(one) for one in again(case, words.file)],
                 "not_covered": list(NOT_COVERED)})
        return DONE
    for line in broken_by_file(case):
        print(f"flexlab: note: the run that {words.file} describes keeps not all premises: {line}", file=sys.stderr)
    sys.stdout.write("\n".join(claim(case)) + f"\n{path}: written, with {len(premises(case))} premises and what each asks; print it from a "
                                              "browser\n")
    return DONE
