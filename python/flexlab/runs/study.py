"""Studies: one run for each point of a grid of values, each draw, or each seed of make, side by side in copies of this process, and over
several hosts by GNU parallel."""
import base64
import contextlib
import csv
import functools
import hashlib
import itertools
import json
import math
import multiprocessing
import os
import re
import shlex
import shutil
import signal
import socket
import subprocess
import sys
import tempfile
import threading
import time
import zlib
from decimal import Decimal
from fractions import Fraction
from typing import TYPE_CHECKING, Any, NamedTuple
from argparse import Namespace
from collections.abc import Collection, Iterator, Sequence

from ..program import calls as programs
from . import sharp
from ..toml.draws import SEED
from ..base.ending import DONE, FILE, MISSING, NO, PROGRAM, STOPPED, USAGE, Stop, printable
from ..base.files import alone, make_folder, named_faults, put, read, whole
from ..base.numbers import MANY, number_of
from ..pages.machine import printed
from ..base.units import Number, decimal, percent, us_of_ticks
from ..program.report import Report
from .runs import Run
from .windows import Window

if TYPE_CHECKING:
    from flexray.results import SharpReport
    from ..toml.cluster import Cluster
    from .quick import Caller

# What a study is, and the results of a run: objects as JSON has them.
Plan = dict[str, Any]
Line = dict[str, Any]


class Point(NamedTuple):
    """A run: its number from 1, the values of the keys, and the number of the draw."""
    number: int
    values: list[str]
    draw: int


COLUMNS = ("status", "covered", "in_sync_double", "in_sync_at_end", "precision_us", "skew_in_sync_us",
           "percent_of_precision", "later_from_cycle", "later_skew_us", "later_99_us", "later_mean_us",
           "greatest_skew_us", "greatest_cycle", "greatest_macrotick", "cut", "gap", "sharply_covered", "sharp_gap",
           "sharp_precision_us", "in_sharp_sync_double", "sharp_skew_us", "seconds", "told")
# Columns of numbers, of which each may be empty.
NUMBERS = tuple(name for name in COLUMNS if name.endswith("_us"))
# By which column runs are the worst: the first that a run has.
WORST = ("later_skew_us", "sharp_skew_us", "skew_in_sync_us", "greatest_skew_us")
MOST = 10000000
MOST_RESULTS = 16 << 30
LONGEST_PLAN = 90000
SHOWN = 200
MAKE_NS = Fraction(25)
# How many go side by side; beside a number GNU parallel takes a part of the processors, and more or less than there are.
JOBS, JOBS_OF_PARALLEL = r"[1-9][0-9]{0,3}", r"[1-9][0-9]{0,3}(?:\.[0-9]{1,3})?%|[+-][0-9]{1,3}(?:%)?"


def listed(text: str, option: str) -> list[Fraction]:
    """The exact numbers of a list, 1,2.5,4 or FROM:TO:STEP."""
    try:
        if ":" in text:
            first, last, step = (number_of(part) for part in text.split(":"))
            if step <= 0 or last < first or (last - first) / step >= MOST:
                raise ValueError
            return [first + step * at for at in range(int((last - first) / step) + 1)]
        return [number_of(part) for part in text.split(",")]
    except ValueError:
        raise Stop(USAGE, f"{option} {printable(text)}: a list of numbers is wanted, as 50,100,150 or FROM:TO:STEP with STEP "
                          f"above 0, of at most {MOST}; {MANY}")


def written(value: Number) -> str:
    return decimal(value, 6).rstrip("0").rstrip(".")


def keep_of(text: str) -> int | None:
    """How many of the worst runs keep a folder; None for all."""
    found = re.fullmatch(r"worst:(\d{1,7})", text)
    if not found and text not in ("all", "none"):
        raise Stop(USAGE, f"--keep {text}: it has to be all, none or worst:COUNT, as worst:10")
    return int(found[1]) if found else None if text == "all" else 0


def plan_of(words: Namespace) -> Plan:
    """What a study is: kept in its folder, so that another one is not mixed into it."""
    vary, lists = words.vary or [], words.values or []
    drawn = words.draws is not None
    if words.seeds and (words.file or vary or drawn) or not words.seeds and (
            not words.file or not (vary or drawn) or len(vary) != len(lists)):
        raise Stop(USAGE, "study: it wants FILE.toml with --vary KEY --values LIST, once or several times for a grid, or "
                          "with --draws COUNT, or --seeds LIST alone")
    keep_of(words.keep)
    if words.jobs is not None and not re.fullmatch(f"{JOBS}|{JOBS_OF_PARALLEL}", words.jobs):
        raise Stop(USAGE, f"--jobs {printable(words.jobs)}: a number from 1 to 9999 is wanted, or as GNU parallel takes it, as 50%")
    if words.seeds:
        seeds = listed(words.seeds, "--seeds")
        for value in seeds:
            if value.denominator != 1 or not 0 <= value <= 4294967295:
                raise Stop(USAGE, f"--seeds: {written(value)} is not a whole number from 0 to 4294967295")
        if not 1 <= words.doubles <= 10000:
            raise Stop(USAGE, f"--doubles: {words.doubles} is not from 1 to 10000")
        return {"make": words.doubles, "keys": ["seed"], "values": [[written(value) for value in seeds]], "draws": 1}
    if len(set(vary)) != len(vary):
        raise Stop(USAGE, "--vary: a key is there twice")
    if drawn and not 1 <= words.draws <= MOST:
        raise Stop(USAGE, f"--draws: {words.draws} is not from 1 to {MOST}")
    if words.seed is not None and not SEED[0] <= words.seed <= SEED[1]:
        raise Stop(USAGE, f"--seed: {words.seed} is not from {SEED[0]} to {SEED[1]}")
    from ..toml.source import Source
    values = [[written(value) for value in listed(text, "--values")] for text in lists]
    runs = math.prod(map(len, values)) * (words.draws or 1)
    if runs > MOST:
        raise Stop(USAGE, f"study: these are {runs} runs, and a study has at most {MOST}")
    source = Source(words.file, {key: Fraction(Decimal(some[0])) for key, some in zip(vary, values)}, (words.seed, 1))
    if drawn and not source.drawn:
        raise Stop(USAGE, f"--draws: {words.file} has no number that is drawn, as ppm = {{ uniform = [-100, 100] }}")
    return {"file": os.path.abspath(words.file), "text": source.text, "keys": vary, "values": values,
            "draws": words.draws or 1, "drawn": sorted(source.drawn), "seed": words.seed, "from": words.begin,
            "cycles": words.cycles, **({} if words.figures == "all" else {"figures": words.figures})}


def count_of(plan: Plan) -> int:
    found: int = plan["draws"]
    for some in plan["values"]:
        found *= len(some)
    return found


def points(plan: Plan) -> Iterator[Point]:
    """Each run; draws go fastest."""
    for number, (*values, draw) in enumerate(itertools.product(*plan["values"], range(1, plan["draws"] + 1)), 1):
        yield Point(number, values, draw)


def folder_for(words: Namespace) -> str:
    found: str = words.out or (os.path.splitext(words.file)[0] + ".study" if words.file else "make.study")
    return found


def begin(folder: str, plan: dict[str, Any]) -> None:
    """Writes the plan, or finds that the folder has the same one."""
    path = os.path.join(folder, "study.json")
    kept_plan = {**plan, "text": hashlib.sha256(plan.get("text", "").encode()).hexdigest()}
    if not os.path.exists(path):
        put(path, json.dumps(kept_plan, indent=1))
        return
    try:
        found = json.loads(read(path))
    except (ValueError, RecursionError):
        raise Stop(FILE, f"{path}: it is no plan of a study, so which study {folder} has is not known; name another folder by --out, "
                         "or remove this one")
    if found != kept_plan:
        raise Stop(USAGE, f"{folder} has another study (of other values, or the TOML file was changed since); name "
                          "another folder by --out, or remove this one")


def results_path(folder: str) -> str:
    return os.path.join(folder, "study.jsonl")


def is_line(line: object, plan: dict[str, Any]) -> bool:
    """Whether this is a line of results of this study, as `run_one` makes them."""
    if not isinstance(line, dict) or set(COLUMNS) - set(line) or any(type(value) not in (str, int) for value in line.values()):
        return False
    if not (type(line.get("run")) is int and 1 <= line["run"] <= count_of(plan) and type(line["status"]) is int):
        return False
    values = [line.get(key) for key in plan["keys"]] + [line[name] for name in NUMBERS if line[name] != ""]
    return all(isinstance(value, str) and re.fullmatch(r"-?[0-9]{1,30}(?:\.[0-9]{1,6})?", value) for value in values) and (
        line["status"] != DONE or line["precision_us"] != "" != line["greatest_skew_us"]) and (
        all(re.fullmatch(r"[a-z_0-9-]{1,60}", name) for name in set(line) - {*plan["keys"], *plan.get("drawn", [])}))


def kept_lines(folder: str, plan: dict[str, Any]) -> dict[int, dict[str, Any]]:
    """The results by run; a line that was cut where the study was stopped, or that is none of this study, is none."""
    found = {}
    if os.path.exists(results_path(folder)):
        for text in read(results_path(folder), MOST_RESULTS).splitlines():
            try:
                line = json.loads(text)
            except (ValueError, RecursionError):
                continue
            if is_line(line, plan):
                found[line["run"]] = line
    return found


def range_order(name: str) -> tuple[int, str]:
    """Columns of ranges of cycles go by the first cycle."""
    return int(name.removeprefix("cycles_").partition("-")[0]), name


def write_results(folder: str, plan: Plan, lines: dict[int, Line]) -> str:
    """study.jsonl in the order of the runs, and the same as study.csv."""
    ranges = sorted({name for line in lines.values() for name in line if name.startswith("cycles_")}, key=range_order)
    names = ["run", *plan["keys"], *(["draw"] if plan.get("drawn") else []), *plan.get("drawn", []), *COLUMNS, *ranges]
    path = os.path.join(folder, "study.csv")
    with whole(results_path(folder)) as results, whole(path) as table:
        writer = csv.writer(table, lineterminator="\n")
        writer.writerow(names)
        for number in sorted(lines):
            results.write(json.dumps(lines[number]) + "\n")
            writer.writerow(lines[number].get(name, "") for name in names)
    return path


def told_line(line: Line) -> str:
    if line["status"] != DONE:
        return f"failed with status {line['status']}: {line['told']}"
    sync = "never in sync" if line["in_sync_double"] == "never" else f"in sync from {line['in_sync_double']}"
    if line["in_sync_at_end"] == "no":
        sync += ", not at the end"
    skew = (f"skew in sync {line['skew_in_sync_us']} us ({line['percent_of_precision']} % of the precision)"
            if line["skew_in_sync_us"] else f"greatest skew {line['greatest_skew_us']} us, before sync")
    later = (f", later {line['later_skew_us']} us" if line.get("later_skew_us") else
             f", in sharp sync {line['sharp_skew_us']} us" if line.get("sharp_skew_us") else "")
    gap = f" ({line['gap']})" if line["gap"] else ""
    sharply = f", sharply covered {line['sharply_covered']}" if line.get("sharply_covered") else ""
    return f"{sync}, covered {line['covered']}{gap}, {skew}{later}{sharply}"


def named(plan: Plan, line: Line) -> str:
    return ", ".join(f"{key} {line[key]}" for key in [*plan["keys"], *(["draw"] if plan.get("drawn") else [])])


def measured(run_report: Report, unit: Fraction, in_sync_skew: int | None, at_end: bool | None, later: Window | None = None) -> Line:
    report = run_report
    skew = in_sync_skew
    return {
        "covered": "yes" if report.gap is None else "no",
        "in_sync_double": "never" if report.in_sync is None else report.in_sync,
        "in_sync_at_end": "" if at_end is None else "yes" if at_end else "no",
        "precision_us": decimal(us_of_ticks(report.precision, unit), 6),
        "skew_in_sync_us": "" if skew is None else decimal(us_of_ticks(skew, unit), 6),
        "percent_of_precision": "" if skew is None else percent(skew, report.precision).split()[0],
        **({"later_from_cycle": later.first, "later_skew_us": decimal(us_of_ticks(later.greatest, unit), 6),
            "later_99_us": decimal(us_of_ticks(later.most, unit), 6),
            "later_mean_us": decimal(us_of_ticks(later.mean, unit), 6)} if later else {}),
        "greatest_skew_us": decimal(us_of_ticks(report.skew, unit), 6),
        "greatest_cycle": report.cycle, "greatest_macrotick": report.macrotick, "cut": report.cut,
        "gap": " ".join(report.gap or []),
    }


def sharply(run: Run, unit: Fraction) -> Line:
    """The columns of the sharper bounds."""
    first, skew = sharp.first_of(run), sharp.skew_of(run)
    return {**shortly(run, unit),
            "in_sharp_sync_double": "never" if first is None else first,
            "sharp_skew_us": "" if skew is None else decimal(us_of_ticks(skew.ticks, unit), 6)}


def sharply_told(told: "SharpReport", unit: Fraction) -> Line:
    """The same by what flexray prints of them in front of a report."""
    return {"sharply_covered": "yes" if told.covered else "no", "sharp_gap": "" if told.covered else " ".join(told.gaps[0]),
            "sharp_precision_us": decimal(us_of_ticks(told.precision, unit), 6),
            "in_sharp_sync_double": "never" if told.in_sync is None else told.in_sync,
            "sharp_skew_us": "" if told.greatest is None else decimal(us_of_ticks(told.greatest.ticks, unit), 6)}


def known_end(run_report: Report, joins: bool) -> bool | None:
    """Whether clocks are in sync at the end of a run, where its report tells; a covered run that came into sync stays so: that is
    proved."""
    if joins:
        return None
    return False if run_report.in_sync is None else True if run_report.gap is None else None


def shortly(run: Run, unit: Fraction) -> Line:
    """Those of them that a short answer has."""
    gap = sharp.gap_of(run)
    return {"sharply_covered": "yes" if gap is None else "no", "sharp_gap": " ".join(gap or []),
            "sharp_precision_us": decimal(us_of_ticks(run.sharp.bounds.precision, unit), 6)}


def has_text(path: str, plan: Plan) -> bool:
    """Whether this machine has the TOML file as it was when the study began."""
    try:
        with open(path, encoding="utf-8-sig", newline="") as file:
            return bool(plan["machine"] == socket.gethostname() and file.read() == plan["text"])
    except (OSError, UnicodeDecodeError):
        return False


CALLERS: dict[tuple[int, str], "Caller"] = {}


@contextlib.contextmanager
def room_of(plan: Plan) -> Iterator[None]:
    """The room of a study, in which each process of it has a folder; gone at its end."""
    with tempfile.TemporaryDirectory(prefix="flexlab-study-", ignore_cleanup_errors=True) as plan["room"]:
        yield


def caller_of(plan: Plan) -> "Caller":
    """What this process keeps from run to run, with a folder of its own in the room of the study."""
    from .quick import Caller
    key = os.getpid(), plan["room"]
    if key not in CALLERS:
        own = os.path.join(plan["room"], str(os.getpid()))
        os.makedirs(own, exist_ok=True)
        path = plan["file"]
        if not has_text(path, plan):
            path = os.path.join(own, os.path.basename(path))
            with open(path, "w", encoding="utf-8", newline="") as file:
                file.write(plan["text"])
        CALLERS[key] = Caller(plan["flexray"], path, own)
    return CALLERS[key]


def run_whole(cluster: "Cluster", plan: Plan, begin: int | None, folder: str | None) -> Run:
    """A run as `run` makes it, but for its traces; its files are gone where no folder is named."""
    from .runs import run_cluster
    with contextlib.ExitStack() as done:
        if folder is None:
            # In the room of the study, which is gone at its end also where this process is ended before.
            folder = os.path.join(done.enter_context(tempfile.TemporaryDirectory(dir=plan["room"])), "run")
        make_folder(folder)
        found = run_cluster(cluster, folder, plan["flexray"], begin=begin)
        for name in ("trace.csv", os.path.join("in-sync", "trace.csv")):
            if os.path.exists(os.path.join(folder, name)):
                os.remove(os.path.join(folder, name))
    return found


@functools.lru_cache(1000)
def number_said(text: str) -> Fraction:
    """The number of a value of a plan: of the same one the same, so that what hangs on it is known again."""
    return Fraction(Decimal(text))


def measure(plan: Plan, values: Sequence[str], number: int, folder: str | None) -> tuple[Line, dict[str, str]]:
    """(columns, what was drawn) of a run; where a folder keeps it, or it has no series, it is one as `run` makes it."""
    from ..program.report import read_report
    from .quick import run_of, skew_of
    from .runs import answer
    from .windows import begin_of, later, ranges_of, windows
    if "make" in plan:
        report = read_report(answer(plan["flexray"], ["make", values[0], str(plan["make"])]))
        known = skew_of(report)
        at_end = True if report.in_sync is not None and report.gap is None else None
        return measured(report, MAKE_NS, known.ticks if known else None, at_end), {}
    caller = caller_of(plan)
    changes = {key: number_said(value) for key, value in zip(plan["keys"], values)}
    cluster = caller.clusters.cluster(changes, (plan["seed"], number))
    spans = ranges_of(plan.get("cycles") or "", cluster)
    begin = begin_of(plan.get("from"), cluster)
    figures = plan.get("figures")
    unit, more = cluster.microtick_ns, {name: written(value) for name, value in cluster.drawn.items()}
    if figures == "sharp":
        return sharp_measure(cluster, plan, begin, folder), more
    is_short = figures == "report"
    run = None if folder and not is_short else run_of(cluster, caller, begin, is_short)
    if run is None or folder:
        whole_run = run_whole(cluster, plan, begin, folder)
        run = run or whole_run
    for one in windows(run, spans) if spans and not is_short else ():
        for name, ticks in (("greatest", Fraction(one.greatest)), ("99", Fraction(one.most)), ("mean", one.mean)):
            more[f"cycles_{one.first}-{one.last}_{name}_us"] = decimal(us_of_ticks(ticks, unit), 6)
    in_sync_skew = run.in_sync_skew.ticks if run.in_sync_skew else None
    if is_short:
        return {**measured(run.report, unit, in_sync_skew, None), **shortly(run, unit)}, more
    found = measured(run.report, unit, in_sync_skew, run.at_end, later(run, run.begin))
    return {**found, **sharply(run, unit)}, more


def sharp_measure(cluster: "Cluster", plan: Plan, begin: int | None, folder: str | None) -> Line:
    """The columns that `flexray run .. sharp` prints, of a run by that one call; its files where a folder keeps it."""
    from .quick import short_of, skew_of
    unit, short = cluster.microtick_ns, short_of(cluster, caller_of(plan))
    whole_run = run_whole(cluster, plan, begin, folder) if folder or short is None else None
    if short is not None:
        report, first, greatest, columns = short.report, short.sharp.in_sync, short.sharp.greatest, sharply_told(short.sharp, unit)
    else:
        assert whole_run is not None
        report, first, greatest, columns = whole_run.report, sharp.first_of(whole_run), sharp.skew_of(whole_run), sharply(whole_run, unit)
    skew = skew_of(report, first, greatest)
    return {**measured(report, unit, skew.ticks if skew else None, known_end(report, bool(cluster.joins))), **columns}


def run_folder(folder: str, number: int) -> str:
    return os.path.join(folder, "runs", f"{number:05}")


def run_one(plan: Plan, number: int, values: Sequence[str], draw: int, folder: str | None = None) -> Line:
    """The results of one run, as a line has them."""
    begun = time.monotonic()
    line: Line = {"run": number, **dict(zip(plan["keys"], values))}
    part = folder and f"{folder}.part"
    if plan.get("drawn"):
        line["draw"] = draw
    line.update(dict.fromkeys(COLUMNS, ""), status=DONE)
    try:
        columns, drawn = measure(plan, values, draw, part)
        line.update(columns)
        line.update(drawn)
    except Stop as stop:
        if stop.status == FILE:
            # That says nothing of the run: the study ends, and goes on with it.
            raise
        line.update(status=stop.status, told=stop.line.replace("\n", "; "))
    if folder and part and os.path.isdir(part):
        # A folder of a run is there once it is whole.
        with named_faults(folder):
            shutil.rmtree(folder, ignore_errors=True)
            os.rename(part, folder)
    line["seconds"] = f"{time.monotonic() - begun:.2f}"
    return line


def packed(plan: Plan) -> str:
    """The plan without its lists, as one word of a command: so another machine needs no file of it."""
    text = json.dumps({name: value for name, value in plan.items() if name not in ("values", "room")})
    found = base64.urlsafe_b64encode(zlib.compress(text.encode(), 9)).decode()
    if len(found) > LONGEST_PLAN:
        raise Stop(USAGE, f"{plan['file']} is too long for a study: {len(found)} bytes as a word, and {LONGEST_PLAN} can "
                          "be handed on")
    return found


def run_several(packed_plan: str, jobs: list[str]) -> int:
    """What GNU parallel calls: some runs, each NUMBER:VALUE,..:DRAW, and a line of results of each on standard output."""
    try:
        plan = json.loads(zlib.decompress(base64.urlsafe_b64decode(packed_plan)))
    except (ValueError, zlib.error, RecursionError):
        raise Stop(USAGE, "study-run: this is no plan of a study, which `flexlab study` hands on")
    if not os.access(plan["flexray"], os.X_OK):
        plan["flexray"] = programs.flexray()
    here = plan["machine"] == socket.gethostname() and plan["keep"] == "all" and "make" not in plan
    with room_of(plan):
        for job in jobs:
            number, values, draw = job.split(":")
            folder = run_folder(plan["folder"], int(number)) if here else None
            print(json.dumps(run_one(plan, int(number), values.split(",") if values else [], int(draw), folder)), flush=True)
    return DONE


class Results:
    """The results as they come: kept at once, and told, of a large study now and then."""

    def __init__(self, folder: str, plan: Plan, lines: dict[int, Line]) -> None:
        self.plan, self.lines, self.total = plan, lines, count_of(plan)
        self.every = 1 if self.total <= SHOWN else self.total // (100 if sys.stdout.isatty() else 10)
        self.begun, self.there = time.monotonic(), len(lines)
        self.path = results_path(folder)
        with named_faults(self.path):
            # Nothing of a line is kept back that would have to be written later.
            self.file = open(self.path, "ab", buffering=0)
        # What a stopped study left of a line is none, and no line begins behind it.
        self.is_cut = os.path.getsize(self.path) > 0

    def take(self, line: Line) -> None:
        text = json.dumps(line) + "\n"
        with named_faults(self.path):
            left = (b"\n" if self.is_cut else b"") + text.encode("ascii")
            self.is_cut = True
            # What there is no room for is not written, and the rest of it is told.
            while left:
                left = left[self.file.write(left) or 0:]
        self.is_cut = False
        self.lines[line["run"]] = line
        if self.every == 1:
            print(f"run {line['run']} of {self.total}: {named(self.plan, line)}: {told_line(line)}", flush=True)
        elif len(self.lines) % self.every == 0:
            taken, done = time.monotonic() - self.begun, len(self.lines) - self.there
            print(f"{len(self.lines)} of {self.total} runs, {taken:.0f} s; "
                  f"{taken * (self.total - len(self.lines)) / done:.0f} s are left", flush=True)


def words_of(option: str, text: str) -> list[str]:
    """The words of an option that is handed on to another program, as a shell would divide them."""
    try:
        return shlex.split(text)
    except ValueError:
        raise Stop(USAGE, f"{option} {printable(text)}: a quotation in it is not closed, or nothing stands behind a backslash")


# What begins with - would be an option of ssh.
HOST = re.compile(r"(?:[1-9][0-9]*/)?(?P<address>[^/\s-][^/\s]*)")


def hosts_of(words: Namespace) -> list[str]:
    """The hosts as GNU parallel has them."""
    found = [host for host in (host.strip() for host in (words.hosts or "").split(",")) if host]
    for host in found:
        if not HOST.fullmatch(host):
            raise Stop(USAGE, f"--hosts: {host} is neither HOST nor COUNT/HOST, as in host1,8/host2,: where : is this machine")
    return found


def host_options(words: Namespace, hosts: list[str]) -> list[str]:
    """What GNU parallel is told of hosts: it looks which of them answer, shares the runs out, and tries one again elsewhere."""
    if hosts and not words_of("--ssh", words.ssh):
        raise Stop(USAGE, "--ssh: a command is wanted that reaches a host, as ssh")
    ssh = f"{words.ssh} -o BatchMode=yes -o ConnectTimeout=15" if words.ssh == "ssh" else words.ssh
    return ["--ssh", ssh, "--sshlogin", ",".join(hosts), "--filter-hosts", "--retries", "3"] if hosts else []


def jobs_of(plan: Plan, todo: Collection[int]) -> Iterator[str]:
    for number, values, draw in points(plan):
        if number in todo:
            yield f"{number}:{','.join(values)}:{draw}\n"


def beside_of(words: Namespace) -> int:
    """How many runs go side by side."""
    return int(words.jobs) if re.fullmatch(JOBS, words.jobs or "") else os.cpu_count() or 1


def kept_folder(folder: str, plan: Plan, number: int) -> str | None:
    return run_folder(folder, number) if plan["keep"] == "all" and "make" not in plan else None


# What ends a study.
ENDING = (signal.SIGINT, signal.SIGTERM)


class Forked:
    """A run in a copy of this process."""

    plan: Plan = {}
    folder = ""

    @staticmethod
    def begin(reads: int, writes: int) -> None:
        """^C and SIGTERM are for the process that was called: it ends the others. They end too where it is gone, and with it the last
        one that could write into the pipe."""
        signal.signal(signal.SIGINT, signal.SIG_IGN)
        signal.signal(signal.SIGTERM, signal.SIG_DFL)
        signal.pthread_sigmask(signal.SIG_UNBLOCK, ENDING)
        os.close(writes)
        threading.Thread(target=Forked.watch, args=(reads,), daemon=True).start()

    @staticmethod
    def watch(reads: int) -> None:
        """Ends this process once the pipe ends. It would not do so by itself: whoever ends while it hands on its results keeps the lock
        that the others wait for."""
        os.read(reads, 1)
        os.kill(os.getpid(), signal.SIGKILL)

    @staticmethod
    def run(job: Point) -> Line:
        number, values, draw = job
        return run_one(Forked.plan, number, values, draw, kept_folder(Forked.folder, Forked.plan, number))


def run_forked(folder: str, plan: Plan, todo: Collection[int], words: Namespace, results: Results) -> None:
    """Runs what is to be done in copies of this process, as many as go side by side."""
    Forked.plan, Forked.folder = plan, folder
    count = min(beside_of(words), len(todo))
    jobs = (point for point in points(plan) if point[0] in todo)
    pipe = os.pipe()
    # A signal waits until there is whom to end, and until the copies know what it is to them.
    mask = signal.pthread_sigmask(signal.SIG_BLOCK, ENDING)
    try:
        with multiprocessing.get_context("fork").Pool(count, Forked.begin, pipe) as pool:
            signal.pthread_sigmask(signal.SIG_SETMASK, mask)
            for line in pool.imap_unordered(Forked.run, jobs, max(1, min(50, len(todo) // (8 * count)))):
                results.take(line)
    finally:
        signal.pthread_sigmask(signal.SIG_SETMASK, mask)
        for end in pipe:
            os.close(end)


def end_parallel(ended: subprocess.Popen[str]) -> None:
    """Ends GNU parallel and what it started: at the first signal it would wait for that, at the second it ends it."""
    for _ in range(2):
        ended.terminate()
        with contextlib.suppress(subprocess.TimeoutExpired):
            ended.wait(0.2)
    ended.kill()


def run_all(folder: str, plan: Plan, todo: Collection[int], words: Namespace, results: Results) -> None:
    """Runs what is to be done: in copies of this process, or, over hosts and with options of its own, by GNU parallel."""
    if not words.hosts and not words.parallel and re.fullmatch(JOBS, words.jobs or "1"):
        run_forked(folder, plan, todo, words, results)
        return
    flexlab, hosts, parallel = os.path.realpath(sys.argv[0]), hosts_of(words), programs.helper("parallel")
    # A shell reads the command, of this machine or of another one.
    called = [words.host_flexlab or flexlab] if hosts else [sys.executable, flexlab]
    # A program that is started takes some runs, so that in a large study starting it does not weigh.
    several = max(1, min(500, len(todo) // (8 * beside_of(words) * max(1, len(hosts)))))
    wanted = [parallel, "--will-cite", "--line-buffer", *(["--jobs", words.jobs] if words.jobs else []),
              *host_options(words, hosts),
              *words_of("--parallel", words.parallel), "--max-args", str(several),
              f"{shlex.join([*called, 'study-run', packed(plan)])} {{}}"]
    with tempfile.TemporaryFile("w+") as jobs:
        jobs.writelines(jobs_of(plan, todo))
        jobs.seek(0)
        with subprocess.Popen(wanted, stdin=jobs, stdout=subprocess.PIPE, text=True) as ended:
            try:
                for text in ended.stdout or ():
                    try:
                        line = json.loads(text)
                    except ValueError:
                        line = None
                    if not is_line(line, plan):
                        print(printable(text.rstrip()), file=sys.stderr)
                        continue
                    results.take(line)
            except BaseException:
                end_parallel(ended)
                raise
    if hosts and ended.returncode == 255:
        raise Stop(MISSING, "GNU parallel has no host to run on: see above; `:` is this machine")
    if ended.returncode > 101:
        raise Stop(PROGRAM, f"GNU parallel ended with status {ended.returncode}")


def worth(line: Line) -> Fraction:
    """The number by which a run is the worst."""
    return next((Fraction(line[name]) for name in WORST if line.get(name)), Fraction(-1))


def worst_first(lines: dict[int, Line]) -> list[Line]:
    good = [line for line in lines.values() if line["status"] == DONE]
    return sorted(good, key=lambda line: (-worth(line), line["run"]))


def keep_worst(folder: str, plan: Plan, lines: dict[int, Line]) -> None:
    """Runs the worst runs again, for their files; the same words give the same run."""
    most = keep_of(plan["keep"])
    if "make" in plan:
        return
    chosen = {line["run"] for line in worst_first(lines)[:most]}
    for number, values, draw in points(plan):
        if number in chosen and not os.path.exists(run_folder(folder, number)):
            run_one(plan, number, values, draw, run_folder(folder, number))


def summary(folder: str, plan: Plan, lines: dict[int, Line]) -> None:
    """What the page says of all runs."""
    order = worst_first(lines)
    if not order:
        return
    covered, sharply_covered = (sum(line.get(name) == "yes" for line in order) for name in ("covered", "sharply_covered"))
    both = f"{covered} of them covered"
    both += f", {sharply_covered} sharply" if any(line.get("sharply_covered") for line in order) else ""
    name = next(name for name in WORST if order[0].get(name))
    values = sorted(worth(line) for line in order)
    most = values[-(-99 * len(values) // 100) - 1]
    what = {"later_skew_us": "later skew", "sharp_skew_us": "skew in sharp sync", "skew_in_sync_us": "skew in sync",
            "greatest_skew_us": "greatest skew"}[name]
    print(f"{'Runs':<16}{len(order)} of {count_of(plan)}, {both}; {what} {decimal(values[-1], 3)} us at "
          f"most, 99 % of runs within {decimal(most, 3)} us, the mean is {decimal(sum(values, Fraction(0)) / len(values), 3)} us")
    worst = order[0]
    kept = run_folder(folder, worst["run"])
    print(f"{'Worst run':<16}{worst['run']}: {named(plan, worst)}: {what} {decimal(values[-1], 3)} us"
          + (f"; files in {kept}/" if os.path.isdir(kept) else ""))


def study(words: Namespace) -> int:
    """A study; as JSON its lines go to standard output, and what is told meanwhile to standard error."""
    if not words.json:
        return run_study(words)[0]
    with contextlib.redirect_stdout(sys.stderr):
        status, folder, plan, lines = run_study(words)
    printed({"folder": folder, "keys": plan["keys"], "runs": [lines[number] for number in sorted(lines)],
             "failed": sum(line["status"] != DONE for line in lines.values()), "missing": count_of(plan) - len(lines),
             "worst": [line["run"] for line in worst_first(lines)[:1]]})
    return status


def run_study(words: Namespace) -> tuple[int, str, Plan, dict[int, Line]]:
    """The status, the folder, the plan and the lines by their numbers. Where another study works in the folder it waits for it, and
    then has its lines."""
    program = programs.flexray(words.flexray)
    plan, folder = plan_of(words), folder_for(words)
    with alone(folder):
        begin(folder, plan)
        with room_of(plan):
            return run_held(words, program, plan, folder)


def run_held(words: Any, program: str, plan: dict[str, Any], folder: str) -> tuple[int, str, dict[str, Any], dict[int, Any]]:
    """The same, in a folder that is held."""
    plan.update(flexray=program, folder=os.path.abspath(folder), machine=socket.gethostname(), keep=words.keep)
    lines, total = kept_lines(folder, plan), count_of(plan)
    kept = {number for number, line in lines.items() if line["status"] == DONE or not words.again}
    todo = set(range(1, total + 1)) - kept
    if kept:
        print(f"{len(kept)} of {total} runs are there already")
    if "make" not in plan:
        caller_of(plan)
    results = Results(folder, plan, lines)
    try:
        if todo:
            run_all(folder, plan, todo, words, results)
    except KeyboardInterrupt:
        write_results(folder, plan, lines)
        print(f"flexlab: stopped after {len(lines)} of {total} runs; the same words go on", file=sys.stderr)
        return STOPPED, folder, plan, lines
    finally:
        results.file.close()
    keep_worst(folder, plan, lines)
    print(f"{'Table':<16}{write_results(folder, plan, lines)}, and as JSON lines {results_path(folder)}")
    summary(folder, plan, lines)
    from ..pages.study_picture import picture
    try:
        for path in picture(folder, plan, lines):
            print(f"{'Picture':<16}{path}")
    except Stop as stop:
        print(f"{'Picture':<16}none: {stop.line}")
    failed = [line for line in lines.values() if line["status"] != DONE]
    missing = total - len(lines)
    if failed:
        print(f"{'Failed':<16}{len(failed)} of {total} runs, which are lines with their status, as run {failed[0]['run']}: "
              f"{failed[0]['told']}")
    if missing:
        print(f"{'Missing':<16}{missing} of {total} runs, which were not answered, since a host or GNU parallel ended; the "
              "same words go on")
    return (NO if failed or missing else DONE), folder, plan, lines
