"""The words of flexlab: its requests, their options, and how each ends."""
from __future__ import annotations

import argparse
import contextlib
import io
import os
import shlex
import shutil
import signal
import sys
import traceback
from collections.abc import Callable
from typing import TYPE_CHECKING, NoReturn

from ..base.ending import DONE, FAULT, FILE, STATUSES, STOPPED, USAGE, Ended, Stop, printable
from ..base.files import HELD, hold, put_new
from ..base.numbers import whole
from ..base.version import version

if TYPE_CHECKING:
    from fractions import Fraction

    from _typeshed import SupportsWrite

    from ..toml.cluster import Cluster

RAW = argparse.RawDescriptionHelpFormatter
PROGRAM_HELP = "the program flexray (else: $FLEXRAY, the one built in this repository, or the one on the path)"


def mebibytes(text: str) -> int:
    """The count of --most-mib."""
    count = whole(text)
    if not 1 <= count <= 1 << 20:
        raise argparse.ArgumentTypeError(f"{count} is not from 1 to {1 << 20}")
    return count


def seconds(text: str) -> Fraction:
    """A time of --from, --to and --part."""
    import re
    from fractions import Fraction
    if not re.fullmatch(r"[0-9]{1,9}(?:\.[0-9]{1,9})?", text):
        raise argparse.ArgumentTypeError(f"'{printable(text)}' is no number of seconds from 0 on, as 1.25")
    return Fraction(text)


def shift(text: str) -> int:
    """The cycles of --shift."""
    import re
    if not re.fullmatch(r"-?[0-9]{1,6}", text) or int(text) % 64:
        raise argparse.ArgumentTypeError(f"'{printable(text)}' is no multiple of 64")
    return int(text)


class Parser(argparse.ArgumentParser):
    """A parser whose texts are written like all others: what cannot be written is told."""

    def _print_message(self, message: str | None, file: SupportsWrite[str] | None = None) -> None:
        if message:
            (file or sys.stderr).write(message)

    def error(self, message: str) -> NoReturn:
        super().error(told(message))


def parser() -> argparse.ArgumentParser:
    top = Parser(
        prog="flexlab", formatter_class=RAW, epilog=STATUSES, allow_abbrev=False,
        description="Tools around flexray, in the units of a bench. flexlab computes no answer of its own: what it "
                    "shows are numbers\nthat flexray printed, converted, divided or compared; design searches by arithmetic of its "
                    "own, and flexray\nconfirms what it finds. docs/FLEXLAB.md has more.")
    top.add_argument("-V", "--version", action="version", version=f"flexlab {version()}")
    requests = top.add_subparsers(dest="request", metavar="REQUEST", required=True)

    def request(name: str, does: str, more: str = "") -> argparse.ArgumentParser:
        found = requests.add_parser(name, help=does, formatter_class=RAW, epilog=STATUSES, allow_abbrev=False,
                                    description=f"{does[0].upper()}{does[1:]}.{more}")
        found.set_defaults(does=name)
        return found

    new = request("new", "write a commented example of a cluster")
    new.add_argument("file", metavar="FILE.toml", help="a file that is not there yet, or - for standard output")

    read_in = request("import", "make a cluster of FIBEX or ARXML files",
                      "\nEach number of the TOML file that is written has its line there. Oscillators and delays are in no such file, and\n"
                      "are asked. All files of one system are given together.")
    read_in.add_argument("files", metavar="FILE", nargs="+", help="FIBEX 2 to 4, or ARXML 3 and 4")
    read_in.add_argument("-o", "--out", metavar="OUT.toml", help="the file to be written, which is not there yet (FILE.toml beside the "
                         "first file), or - for standard output")
    read_in.add_argument("--cluster", metavar="NAME", help="which FlexRay cluster, where there are several")
    read_in.add_argument("--take", metavar="ECU", help="where controllers differ, the values of this ECU's for all")
    read_in.add_argument("--leave-out", metavar="ECU", action="append", help="an ECU that is no node; several times")
    read_in.add_argument("--oscillator-ppm", metavar="PPM", help="no oscillator is ever further off")
    read_in.add_argument("--change-ppm", metavar="PPM", help="none changes by more from one cycle to the next")
    read_in.add_argument("--delay-ns", metavar="FROM-TO", help="how long frames are under way at least and at most, as 50-300")
    for channel in "ab":
        read_in.add_argument(f"--delay-{channel}-ns", metavar="FROM-TO", help=f"the same, of channel {channel.upper()} alone")
    read_in.add_argument("--set", metavar="NAME=NUMBER", action="append", help="a parameter that the file has not")
    read_in.add_argument("--map", metavar="RENAMED.toml", help="other names of elements: [fibex] and [arxml] with keys of the table of "
                                                               "names")
    read_in.add_argument("--chip", choices=("e-ray",), help="the files are dumps of registers of such controllers, one a node: lines of "
                         "ADDRESS VALUE or NAME VALUE")
    read_in.add_argument("--list", action="store_true", help="print the FlexRay clusters and their nodes, and write nothing")

    write_back = request("export", "put changed parameters of a cluster back into the FIBEX or ARXML file that it came from",
                         "\nOnly changed numbers are other bytes in the new file, and those that follow from them. A file that was "
                         "changed\nsince it was imported is refused, and so are other nodes, key slots and frames.")
    write_back.add_argument("file", metavar="FILE", help="the file that was imported; it is not written over")
    write_back.add_argument("--from", dest="source", metavar="CLUSTER.toml", required=True, help="the cluster as it is wanted")
    write_back.add_argument("-o", "--out", metavar="NEW", help="the file to be written, which is not there yet (FILE with .new before its "
                            "ending)")
    write_back.add_argument("--cluster", metavar="NAME", help="which FlexRay cluster, where there are several")
    write_back.add_argument("--leave-out", metavar="ECU", action="append", help="an ECU that is no node, as import had it")
    write_back.add_argument("--map", metavar="RENAMED.toml", help="other names of elements, as import had them")
    write_back.add_argument("--anyway", action="store_true", help="take a file that changed since; leave what follows in a way that is "
                                                                  "not known")

    build = request("build", "write the three files of a cluster for flexray",
                    "\nIt has flexray bound say whether the parameters keep their constraints.")
    run = request("run", "run a cluster and print its page",
                  "\nIt writes the three files, calls flexray bound, run and trace, and flexray-series where that is "
                  "installed.")
    pcap = request("pcap", "write what the nodes of a run send as a capture for Wireshark",
                   "\nLink type FlexRay (210), one packet a frame, at the instants of the run's trace. What arbitrary\n"
                   "nodes say is left out, since it is said to each receiver alone.")
    for one in (build, run, pcap):
        one.add_argument("file", metavar="FILE.toml")
        one.add_argument("-o", "--out", metavar="FOLDER", help="where files go (FILE.lab beside the TOML file)")
    for one in (build, run, pcap):
        one.add_argument("--flexray", metavar="PROGRAM", help=PROGRAM_HELP)
    run.add_argument("-p", "--pictures", action="store_true",
                     help="draw skew and correction terms, by gnuplot, as SVG and PNG")

    run.add_argument("--from", dest="begin", metavar="CYCLE", type=whole,
                     help="take the later skew from this cycle on (else from where it has settled)")
    run.add_argument("--cycles", metavar="RANGES", default="",
                     help="the skew of these cycles, as 20-99,100-200,201- (else of stretches between changes)")

    precision = request("precision", "print the precisions of a cluster: the standard's formulas, proved, simulated",
                        "\nIt runs the cluster as `run` does.")
    precision.add_argument("file", metavar="FILE.toml")
    precision.add_argument("-o", "--out", metavar="FOLDER", help="where files go (FILE.lab beside the TOML file)")
    precision.add_argument("--from", dest="begin", metavar="CYCLE", type=whole,
                           help="take the later skew from this cycle on (else from where it has settled)")
    precision.add_argument("--standard", metavar="MICROTICKS", type=whole, default=38,
                           help="the constant of the standard's worst case (38)")
    precision.add_argument("--flutter-ns", metavar="NS",
                           help="by how much a delay may differ between the two cycles of a double cycle (else as in the file)")
    precision.add_argument("--flexray", metavar="PROGRAM", help=PROGRAM_HELP)

    design = request("design", "find the parameters of a topology with the least precision that is proved",
                     "\nOf a topology (lines, stars, oscillators, payloads), or around the cluster of a TOML file. It tells what binds "
                     "each\nparameter, what other hardware would buy, and the second best; flexray bound confirms each design, and "
                     "refuses\neach of its parameters at one less.")
    design.add_argument("file", metavar="FILE.toml", help="a topology, or a cluster that is there")
    design.add_argument("--for", dest="purpose", choices=("precision", "slot", "slots", "free"), default="precision",
                        help="what is best: the least precision, the shortest slot, the most slots in the cycle, or the most time behind "
                             "the slots (precision)")
    design.add_argument("--keep", metavar="NAME=VALUE", action="append",
                        help="a parameter that is as it is, as gMacroPerCycle=3636; several times for several")
    design.add_argument("--free", action="store_true",
                        help="leave out the two formulas of the standard, of the slot length and of pdMaxDrift")
    design.add_argument("--margin-ns", metavar="NS", help="so much is to be left in the checks of offset limit and slots (0)")
    design.add_argument("--flutter-ns", metavar="NS",
                        help="by how much a delay may differ between the two cycles of a double cycle (else as in the file)")
    design.add_argument("--whole-macroticks", action="store_true", help="only macroticks of a whole number of microticks")
    design.add_argument("--top", metavar="COUNT", type=whole, default=2, help="so many designs, the best ones (2)")
    design.add_argument("--certificate", metavar="FOLDER",
                        help="write the parameter files of the chain there, each of which flexray bound refuses as is said")
    design.add_argument("-o", "--out", metavar="OUT.toml", help="write the design of a topology as a cluster, for `flexlab run`")
    design.add_argument("--flexray", metavar="PROGRAM", help=PROGRAM_HELP)

    worst = request("worst", "look for the run of a cluster that comes closest to its precision",
                    "\nIt searches oscillators, delays, starts and the words of arbitrary nodes, has flexray judge each "
                    "candidate,\nand writes the worst as files to be run again: edge/ and kept/.")
    worst.add_argument("file", metavar="FILE.toml")
    worst.add_argument("-o", "--out", metavar="FOLDER", help="where files go (FILE.worst beside the TOML file)")
    worst.add_argument("--runs", metavar="COUNT", type=whole, default=600, help="at most so many runs of a seed (600)")
    worst.add_argument("--seconds", metavar="COUNT", type=whole, default=120, help="stop after so many seconds (120)")
    worst.add_argument("--seed", metavar="SEED", type=whole, default=1, help="of the search (1); the same finds the same")
    worst.add_argument("--double-cycles", metavar="COUNT", type=whole, default=16, help="of a candidate (16)")
    worst.add_argument("--jobs", metavar="COUNT", type=whole, default=1, help="seeds side by side, the best wins (1)")
    worst.add_argument("--flexray", metavar="PROGRAM", help=PROGRAM_HELP)

    case = request("case", "write a page for a safety case: claim, premises, evidence, and what is not covered",
                   "\nThe claim is of all runs that keep to the premises, and no run is made. One HTML file, to be printed.")
    case.add_argument("file", metavar="FILE.toml")
    case.add_argument("--flutter-ns", metavar="NS", required=True,
                      help="by how much a delay may differ between the two cycles of a double cycle: a promise of the hardware")
    case.add_argument("--arbitrary", metavar="COUNT", type=whole, choices=(0, 1, 2),
                      help="how many sync nodes may be arbitrary: 0, 1 or 2 (else as many as the file has)")
    case.add_argument("--join", action="store_true", help="nodes may join (else where the file has [[join]])")
    case.add_argument("-o", "--out", metavar="OUT.html", help="the page, which is not there yet (FILE.case.html)")
    case.add_argument("--flexray", metavar="PROGRAM", help=PROGRAM_HELP)

    for one in (run, pcap, precision):
        one.add_argument("--seed", metavar="SEED", type=whole, help="of numbers that are drawn (else `seed` of [run], else 1)")
        one.add_argument("--draw", metavar="NUMBER", type=whole, default=1, help="which draw of them (1)")
    power = request("power", "tell who leads a startup, and when all are in sync, from power-on",
                    "\nIt asks flexray cold who leads, has the leader run and the others join it, and prints a page in\n"
                    "milliseconds from power-on. Who is switched on when is said by [[power]]; all at 0 else.")
    settle = request("settle", "tell how soon clocks that begin apart are in sync at the latest",
                     "\nBy flexray settle, for the nodes of the file as they begin there, or as far apart as is said.")
    for one in (power, settle):
        one.add_argument("file", metavar="FILE.toml")
        one.add_argument("-o", "--out", metavar="FOLDER", help="where files go (FILE.lab beside the TOML file)")
        one.add_argument("--flexray", metavar="PROGRAM", help=PROGRAM_HELP)
    power.add_argument("-p", "--pictures", action="store_true", help="draw who does what when, by gnuplot")
    settle.add_argument("--start-us", metavar="USEC", help="how far the first starts may lie apart")
    settle.add_argument("--rate-ppm", metavar="PPM", help="how far the first lengths of cycles may lie apart")
    for one in (run, power):
        one.add_argument("--require", metavar="LIST",
                         help="some of sharply-covered, and by the classical bound covered,in-sync,within=USEC (the skew in sync): "
                              "status 7 where one is not met")

    explain = request("explain", "explain a refusal of flexray, a check that fails or a gap",
                      "\nWORDS are those that flexray had: flexlab explain run params.csv drift.csv script.csv\n"
                      "It calls flexray with them, unless the line is given.")
    explain.add_argument("--line", metavar="LINE", help="the line that flexray wrote on standard error")
    explain.add_argument("--flexray", metavar="PROGRAM", help=PROGRAM_HELP)
    explain.add_argument("words", metavar="WORDS", nargs="+")

    study = request("study", "run a cluster for each value of a list or a grid, each draw, or each seed of make",
                    "\nSide by side, also on other hosts by GNU parallel. The folder has study.csv and study.jsonl, a line a run,\na "
                    "picture, and a folder of each run that is kept. A study that was stopped goes on with the same words; runs\nthat have "
                    "a line are not run again. A failed run is a line with its status.")
    study.add_argument("file", metavar="FILE.toml", nargs="?", help="the cluster; without it, seeds by --seeds")
    study.add_argument("--vary", metavar="KEY", action="append",
                       help="TABLE.KEY or TABLE[N].KEY, as values.drift or node[2].ppm; several, each with its --values, make "
                            "a grid")
    study.add_argument("--values", metavar="LIST", action="append", help="as 50,100,150 or FROM:TO:STEP, as 50:200:25")
    study.add_argument("--draws", metavar="COUNT", type=whole,
                       help="so many draws of the numbers that the file has drawn, as ppm = { uniform = [-100, 100] }")
    study.add_argument("--seed", metavar="SEED", type=whole, help="of the draws (else `seed` of [run], else 1)")
    study.add_argument("--seeds", metavar="LIST", help="seeds of flexray make, as 1:20:1 or 1,7,9")
    study.add_argument("--doubles", metavar="COUNT", type=whole, default=50, help="double cycles of make (50)")
    study.add_argument("--from", dest="begin", metavar="CYCLE", type=whole,
                       help="take the later skew from this cycle on (else from where each run has settled)")
    study.add_argument("--cycles", metavar="RANGES", default="",
                       help="columns of the skew of these cycles too, as 20-99,100-200,201-; with all figures alone")
    study.add_argument("--figures", choices=("all", "sharp", "report"), default="all",
                       help="sharp: without the later skew and that of --cycles, by one call of flexray run .. sharp a run, which is "
                            "faster; report: only what flexray run tells (all)")
    study.add_argument("--keep", metavar="RUNS", default="worst:3",
                       help="runs that keep their files: all, none or worst:COUNT (worst:3)")
    study.add_argument("-o", "--out", metavar="FOLDER", help="where files go (FILE.study beside the TOML file)")
    study.add_argument("--jobs", metavar="COUNT", help="runs side by side (one a processor)")
    study.add_argument("--again", action="store_true", help="run failed runs of a stopped study again")
    study.add_argument("--hosts", metavar="LIST",
                       help="share the runs over hosts that have flexlab, as host1,8/host2,: where : is this machine; they "
                            "need no folder in common")
    study.add_argument("--host-flexlab", metavar="COMMAND", help="what flexlab is called there (the path that it has here)")
    study.add_argument("--ssh", metavar="COMMAND", default="ssh", help="what reaches a host (ssh)")
    study.add_argument("--parallel", metavar="OPTIONS", default="",
                       help="further options of GNU parallel, as --parallel='--load 80%%'")
    study.add_argument("--flexray", metavar="PROGRAM", help=PROGRAM_HELP)

    capture = request("capture", "take a capture of a FlexRay network apart",
                      "\nA pcap or pcapng file of link type FlexRay (210), read by tshark, or a BLF file. It writes the files of "
                      "flexray\ncapture (A.bin, B.bin) and of flexray nm (vectors.csv), and prints which frames are "
                      "there, missing and\ndamaged. Whether a frame is whole is what flexray says of it.")
    capture.add_argument("file", metavar="FILE")
    capture.add_argument("-o", "--out", metavar="FOLDER", help="where files go (FILE.lab beside the capture)")
    capture.add_argument("--nm", metavar="WIDTH", type=whole, help="fold network management vectors of 1 to 12 bytes too")
    capture.add_argument("--cluster", metavar="FILE.toml", help="the network, for the places of its static slots")
    capture.add_argument("-p", "--pictures", action="store_true",
                         help="draw cycles and jitter over time, by gnuplot, as SVG and PNG")
    capture.add_argument("--flexray", metavar="PROGRAM", help=PROGRAM_HELP)

    log = request("log", "write the log of flexray observe from a capture",
                  "\n[observer] of the TOML file states what is known of the analyzer. Captures are pcap and pcapng files of "
                  "link type\nFlexRay (210), read by tshark; BLF files; ASC files, whose rows have to fit their header CRC, by columns "
                  "that are\nfound or that [asc] states; or CSV files, of which --columns names the columns.")
    observe = request("observe", "tell what a capture says for certain of the cluster's clocks",
                      "\nIt writes the log as `log` does, asks flexray observe, and prints a page in microseconds and ppm: limits of "
                      "the skew,\nof each node's rate and offset terms. It ends in status 0 where the verdict is within, and else in "
                      "status 1;\nwith --second in status 0 where both verdicts are within, each part has numbers that both logs limit, "
                      "and none of\nthem is apart.")
    for one in (log, observe):
        one.add_argument("file", metavar="CAPTURE")
        one.add_argument("cluster", metavar="CLUSTER.toml")
        one.add_argument("--columns", metavar="LIST", help="of a CSV file: time=NAME,channel=NAME,bytes=NAME")
        one.add_argument("--time-unit", metavar="UNIT", choices=("s", "ms", "us", "ns"), default="s",
                         help="of its times: s, ms, us or ns (s)")
        one.add_argument("--from", dest="begin", metavar="SECONDS", type=seconds,
                         help="take frames from so long behind the first one of the file on")
        one.add_argument("--to", dest="end", metavar="SECONDS", type=seconds, help="take frames that come earlier than so long behind it")
    log.add_argument("-o", "--out", metavar="LOG", help="the file to be written (CAPTURE.log.csv beside the capture)")

    observe.add_argument("--second", nargs=2, metavar=("CAPTURE", "CLUSTER.toml"),
                         help="the log of another analyzer, and the same cluster with its [observer]: both logs are held against each "
                              "other; --columns, --time-unit, --bus, --from, --to and --part hold for both captures")
    observe.add_argument("--shift", metavar="CYCLES", type=shift,
                         help="with --second: how much later the second log begins than its cycle counts say, a multiple of 64 (0), "
                              "of all parts")
    observe.add_argument("--part", metavar="SECONDS", type=seconds, action="append",
                         help="what comes from so long behind the first frame of the file on is a log of its own, as behind a restart; as "
                              "often as it is given")
    observe.add_argument("-o", "--out", metavar="FOLDER", help="where files go (CAPTURE.lab beside the capture)")
    observe.add_argument("-p", "--pictures", action="store_true", help="draw skew, rates and offset terms, by gnuplot")
    observe.add_argument("--blame", action="store_true",
                         help="name each node arbitrary in turn, and tell with which of them a contradiction is left; without it that is "
                              "done where a contradiction asks what nodes hear of each other")
    observe.add_argument("--require", metavar="judged=COUNT",
                         help="status 0 where the verdict is partly, too, and status 7 where fewer double cycles are judged; where it "
                              "is no or over the status stays 1")
    observe.add_argument("--flexray", metavar="PROGRAM", help=PROGRAM_HELP)

    for one in (capture, log, observe):
        one.add_argument("--most-mib", metavar="COUNT", type=mebibytes, default=256,
                         help="take captures of up to so many MiB, of packed ones what they unpack to (256)")
        one.add_argument("--bus", metavar="NUMBER", type=whole, help="of a BLF file with several networks, take the one of this number")

    for one in (read_in, write_back, case, run, power, design, explain, study, capture, observe):
        one.add_argument("--json", action="store_true", help="print one JSON object in place of the page")

    one = requests.add_parser("study-run", add_help=False)
    one.set_defaults(does="study-run")
    one.add_argument("plan")
    one.add_argument("runs", nargs="+")
    requests.metavar = "{new,import,export,build,run,power,settle,precision,case,design,worst,explain,study,capture,log,observe,pcap}"
    return top


def folder_of(words: argparse.Namespace, ending: str = ".lab") -> str:
    out: str = words.out or os.path.splitext(words.file)[0] + ending
    return out


def cluster_of(words: argparse.Namespace) -> Cluster:
    """The cluster of the file; numbers that are drawn are those of --seed and --draw."""
    from ..toml.cluster import read_cluster
    return read_cluster(words.file, None, (words.seed, words.draw))


def called() -> str:
    """What flexlab is called as here: by its name where that is on the path, else by its path. That of a package is called by
    what is in bin."""
    path, folder = sys.argv[0], os.path.dirname(os.path.realpath(sys.argv[0]))
    if os.path.exists(os.path.join(folder, "..", "stamp")):
        path = os.path.normpath(os.path.join(folder, "..", "..", "..", "bin", "flexlab"))
    found = shutil.which("flexlab")
    return "flexlab" if found and os.path.realpath(found) == os.path.realpath(path) else path


def do_new(words: argparse.Namespace) -> int:
    with open(os.path.join(os.path.dirname(os.path.dirname(__file__)), "toml", "example.toml"), encoding="utf-8") as file:
        text = file.read()
    if words.file == "-":
        sys.stdout.write(text)
        return DONE
    put_new(words.file, text.replace("THIS.toml", os.path.basename(words.file)))
    print(f"{words.file}: written; next: {called()} run {shlex.quote(words.file)}")
    return DONE


def do_import(words: argparse.Namespace) -> int:
    from ..imports.importing import import_files
    return import_files(words, called())


def do_export(words: argparse.Namespace) -> int:
    from ..imports.export import export_file
    return export_file(words)


def do_build(words: argparse.Namespace) -> int:
    from ..program import calls as programs
    from ..toml.cluster import read_cluster
    from ..base.files import write_files
    from ..runs.runs import answer, bound_words
    cluster = read_cluster(words.file)
    hold(folder_of(words))
    paths = write_files(cluster, folder_of(words))
    for path in paths:
        print(path)
    for line in cluster.notes:
        print(f"flexlab: warning: {line}", file=sys.stderr)
    try:
        program = programs.flexray(words.flexray, ["bound"])
    except Stop as stop:
        if words.flexray:
            raise
        print(f"flexlab: warning: the constraints of the parameters are not checked: {stop.line}", file=sys.stderr)
        return DONE
    answer(program, bound_words(cluster, paths[0]), cluster=cluster)
    return DONE


def do_run(words: argparse.Namespace) -> int:
    from ..program import calls as program
    from ..pages.page import page
    from ..runs.runs import keep, run_cluster
    from ..pages.machine import ended, printed, run_object, wanted
    from ..runs.ways import weigh
    from ..runs.windows import begin_of, ranges_of
    asked = wanted(words.require)
    cluster, folder = cluster_of(words), folder_of(words)
    begin, spans = begin_of(words.begin, cluster), ranges_of(words.cycles, cluster)
    hold(folder)
    run = run_cluster(cluster, folder, program.flexray(words.flexray), begin=begin)
    run.asked, run.ways = spans, weigh(run, program.flexray(words.flexray), run_cluster)
    text = page(run)
    keep(folder, "page.txt", text)
    drawn: list[str] = []
    if words.pictures:
        from ..pages.pictures import draw_run
        drawn = draw_run(run)
    if words.json:
        printed({**run_object(run), "pictures": drawn})
        return ended(run, asked, complain)
    sys.stdout.write(text)
    print(f"{'Files':<16}{folder}/: params.csv, drift.csv, script.csv, bound.txt, report.txt, trace.csv, page.txt")
    for path in drawn:
        print(f"{'Picture':<16}{path}")
    return ended(run, asked, complain)


def complain(line: str) -> None:
    print(f"flexlab: not met: {line}", file=sys.stderr)


def do_power(words: argparse.Namespace) -> int:
    from ..runs.startup import power
    return power(words, folder_of(words), complain)


def do_settle(words: argparse.Namespace) -> int:
    from ..runs.settling import settle
    return settle(words, folder_of(words))


def do_precision(words: argparse.Namespace) -> int:
    from ..program import calls as program
    from ..runs.runs import keep, run_cluster
    from ..pages.standard import compared
    from ..runs.windows import begin_of
    cluster, folder = cluster_of(words), folder_of(words)
    begin = begin_of(words.begin, cluster)
    hold(folder)
    given = program.flexray(words.flexray)
    text = compared(run_cluster(cluster, folder, given, begin=begin), given, words.standard, words.flutter_ns)
    sys.stdout.write(text)
    keep(folder, "precision.txt", text)
    return DONE


def do_design(words: argparse.Namespace) -> int:
    from ..design.request import design
    return design(words)


def do_case(words: argparse.Namespace) -> int:
    from ..pages.case import write_case
    return write_case(words)


def do_worst(words: argparse.Namespace) -> int:
    from ..program import calls as program
    from ..toml.cluster import read_cluster
    from ..runs.worst import worst
    cluster, folder = read_cluster(words.file), folder_of(words, ".worst")
    hold(folder)
    return worst(cluster, folder, program.flexray(words.flexray, ["run"]), words)


def do_pcap(words: argparse.Namespace) -> int:
    from ..program import calls as program
    from ..runs.sending import write_run
    cluster, folder = cluster_of(words), folder_of(words)
    hold(folder)
    return write_run(cluster, folder, program.flexray(words.flexray))


def do_explain(words: argparse.Namespace) -> int:
    from ..pages.explain import explain
    return explain(words.words, words.line, words.flexray, words.json)


def do_study(words: argparse.Namespace) -> int:
    from ..runs.study import study
    return study(words)


def do_study_run(words: argparse.Namespace) -> int:
    from ..runs.study import run_several
    return run_several(words.plan, words.runs)


def do_capture(words: argparse.Namespace) -> int:
    from ..captures.capture import capture
    return capture(words, folder_of(words))


def do_log(words: argparse.Namespace) -> int:
    from ..toml.cluster import read_cluster
    from ..captures.observer import analyzer_words, left_lines, taken, write_log
    from ..pages.page import field
    path = folder_of(words, ".log.csv")
    cluster = read_cluster(words.cluster)
    log = write_log(cluster, path, *taken(cluster, words))
    print("\n".join(field("Log", f"{path}: {log.entries} frames of key slots")
                    + field("Analyzer", analyzer_words(log.observer, log.frames)) + left_lines(log.frames)))
    return DONE


def do_observe(words: argparse.Namespace) -> int:
    from ..captures.both import observe_both
    from ..captures.observing import observe
    if words.shift is not None and not words.second:
        raise Stop(USAGE, "--shift is of a second log, and no --second names one")
    return (observe_both if words.second else observe)(words, folder_of(words))


DO: dict[str, Callable[[argparse.Namespace], int]] = {
    "new": do_new, "import": do_import, "export": do_export, "case": do_case, "build": do_build, "run": do_run, "power": do_power,
    "settle": do_settle, "pcap": do_pcap, "explain": do_explain, "study": do_study, "precision": do_precision,
    "design": do_design, "worst": do_worst, "study-run": do_study_run, "capture": do_capture, "log": do_log, "observe": do_observe}


def joined(arguments: list[str]) -> list[str]:
    """The words, with the value of an option that may begin with `-` joined to it."""
    found, rest = list[str](), list(arguments)
    while rest:
        word = rest.pop(0)
        takes = word in ("--values", "--seeds", "--seed", "--parallel", "--line", "--ssh", "--shift") and rest
        found.append(f"{word}={rest.pop(0)}" if takes else word)
    return found


def check_names(words: argparse.Namespace) -> None:
    """Ends flexlab where the name of a file or folder has a control character: it could stand for a line of its own."""
    for key in ("file", "files", "out", "cluster", "second", "source", "map", "flexray"):
        given = getattr(words, key, None)
        for name in given if isinstance(given, list) else [given] if given else []:
            if any(not one.isprintable() and not "\udc80" <= one <= "\udcff" for one in name):
                raise Stop(USAGE, f"{printable(name)}: a name with a control character, as a line feed, is not taken: rename it")
        # A program would take it for an option. Standard output is none of a file, and the cluster of a file has a name.
        if key in ("file", "out", "cluster") and given and given.startswith("-") and words.does != "new" and not (
                words.does == "import" and given == "-" or words.does in ("import", "export") and key == "cluster"):
            setattr(words, key, os.path.join(".", given))


def told(line: str) -> str:
    """The line of an ending, as it may stand on a terminal; where it is several, each by itself."""
    return "\n".join("".join(printable(one) if not one.isprintable() else one for one in part) for part in line.split("\n"))


def done(words: argparse.Namespace) -> int:
    """Does what the words ask, and hands back the exit status, whatever comes."""
    try:
        check_names(words)
        return DO[words.does](words)
    except Stop as stop:
        print(f"flexlab: {told(stop.line)}", file=sys.stderr)
        return stop.status
    except OSError as fault:
        print(f"flexlab: {told(str(fault.filename or 'standard output'))}: {fault.strerror}", file=sys.stderr)
        return FILE
    except KeyboardInterrupt:
        if words.does != "study-run":
            print("flexlab: stopped", file=sys.stderr)
        return STOPPED
    except MemoryError:
        print("flexlab: no memory is left for this; fewer cycles, nodes or frames take less", file=sys.stderr)
        return FAULT
    except Exception as fault:  # pylint: disable=broad-except
        if os.environ.get("FLEXLAB_DEBUG"):
            traceback.print_exc()
        place = traceback.extract_tb(fault.__traceback__)[-1]
        print(f"flexlab: a fault of flexlab {version()}, which is to be reported, with its words and files: "
              f"{type(fault).__name__} in {os.path.basename(place.filename)}, line {place.lineno}: {printable(str(fault))}",
              file=sys.stderr)
        return FAULT
    finally:
        HELD.close()


def flushed(status: int) -> int:
    """The status, or that of a file where standard output does not take what was printed."""
    try:
        sys.stdout.flush()
    except OSError as fault:
        return unwritten(fault)
    return status


def unwritten(fault: OSError) -> int:
    """The status where standard output does not take what is printed."""
    # What is left of it would be tried once more at the end.
    os.dup2(os.open(os.devnull, os.O_WRONLY), sys.stdout.fileno())
    print(f"flexlab: standard output: {fault.strerror}", file=sys.stderr)
    return FILE


def end(*_: object) -> NoReturn:
    """What SIGTERM does."""
    raise Ended


def end_by_signal() -> NoReturn:
    """Ends as who sends SIGTERM expects it: by that signal."""
    with contextlib.suppress(OSError):
        sys.stdout.flush()
    signal.signal(signal.SIGTERM, signal.SIG_DFL)
    os.kill(os.getpid(), signal.SIGTERM)
    raise Ended


def main(arguments: list[str]) -> int:
    """Does what the words ask, and hands back the exit status."""
    signal.signal(signal.SIGPIPE, signal.SIG_DFL)
    if signal.getsignal(signal.SIGINT) is not signal.SIG_IGN:
        signal.signal(signal.SIGINT, signal.default_int_handler)
    try:
        if signal.getsignal(signal.SIGTERM) is signal.SIG_DFL:
            signal.signal(signal.SIGTERM, end)
        return answered(arguments)
    except Ended:
        end_by_signal()


def answered(arguments: list[str]) -> int:
    """The same, but for signals."""
    # Names of files have the bytes that they have.
    for stream in (sys.stdout, sys.stderr):
        if isinstance(stream, io.TextIOWrapper):
            stream.reconfigure(errors="surrogateescape")
    try:
        words = parser().parse_args(joined(arguments))
    except SystemExit as ended:
        return flushed(USAGE if ended.code else DONE)
    except OSError as fault:
        return unwritten(fault)
    except KeyboardInterrupt:
        print("flexlab: stopped", file=sys.stderr)
        return STOPPED
    return flushed(done(words))
