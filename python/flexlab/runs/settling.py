"""How soon clocks that begin apart are in sync at the latest: flexray settle, asked and answered in the units of a bench."""
import re
from fractions import Fraction
from argparse import Namespace

from ..base.ending import DONE, NO, REFUSED, USAGE, Stop
from ..base.numbers import MANY, number_of
from ..base.files import hold, write_files
from flexray import texts

from ..pages.gaps import check_words, sharp_way_words
from ..pages.page import ORIGIN, field, ms_of_cycle
from ..program.calls import flexray
from ..program.report import read_bounds, read_sharp_bounds, understood
from ..toml.cluster import Cluster, Steps
from .runs import answer, bound_words
from .sharp import flutter_of, kind_of, sharp_words
from ..pages.sharp_page import KINDS
from .sync import spread
from ..base.units import decimal, microseconds, percent, rounded, ticks_of_ns

MOST = 1000000000000


def length_at(steps: Steps, cycle: int) -> int:
    return steps[max(at for at in steps if at <= cycle)]


def lengths(cluster: Cluster, cycle: int) -> list[int]:
    """How long the correct nodes' cycles are at first, in ticks."""
    micros = cluster.parameters["pMicroPerCycle"]
    return [(micros + cluster.nodes[node].rate) * length_at(cluster.lengths[node], cycle) for node in cluster.correct]


def given(text: str, option: str, size: int) -> int:
    """Ticks of a number of an option."""
    try:
        number = number_of(text) if re.fullmatch(r"[0-9]+(\.[0-9]+)?", text) else Fraction(-1)
    except ValueError:
        number = Fraction(-1)
    if number < 0:
        raise Stop(USAGE, f"{option} {text}: a number from 0 on is wanted; {MANY}")
    ticks = rounded(number * size)
    if ticks > MOST:
        raise Stop(USAGE, f"{option} {text}: it is more than {MOST} ticks, the most that flexray settle takes")
    return ticks


def asked(cluster: Cluster, words: Namespace) -> tuple[int, int]:
    """START and RATE in ticks: as they are said, or those of the file."""
    micros = cluster.parameters["pMicroPerCycle"]
    start = (given(words.start_us, "--start-us", ticks_of_ns(1000, cluster.microtick_ns)) if words.start_us
             else spread(cluster.nodes[node].start for node in cluster.correct))
    rate = (given(words.rate_ppm, "--rate-ppm", micros) if words.rate_ppm
            else max(spread(lengths(cluster, cycle)) for cycle in (0, 1)))
    return start, rate


def beyond(cluster: Cluster) -> list[int]:
    """The nodes whose first cycles are longer or shorter than their limit allows for at rate 0: the premise asks for that."""
    micros, most = cluster.parameters["pMicroPerCycle"], cluster.parameters["xRateBound"]
    return [node for cycle in (0, 1) for node, length in zip(cluster.correct, lengths(cluster, cycle))
            if not micros * (1000000 - most) <= length <= micros * (1000000 + most)]


def settle(words: Namespace, folder: str) -> int:
    """The request `settle`."""
    from ..toml.cluster import read_cluster
    cluster = read_cluster(words.file)
    if cluster.joins:
        raise Stop(REFUSED, f"{cluster.path}: nodes join it ([[join]]), and how soon clocks settle is proved of runs that no "
                            "node joins; `flexlab run` and `flexlab power` tell of others")
    program = flexray(words.flexray, ["settle"])
    hold(folder)
    paths = write_files(cluster, folder)
    answer(program, bound_words(cluster, paths[0]), cluster=cluster)
    start, rate = asked(cluster, words)
    found = field("Begin", f"first starts lie at most {microseconds(start, cluster.microtick_ns)} apart, the lengths of the first two "
                           f"cycles {microseconds(rate, cluster.microtick_ns)} "
                           f"({decimal(Fraction(rate, cluster.parameters['pMicroPerCycle']), 2)} ppm)"
                           + ("" if words.start_us and words.rate_ppm else ", as the file has them"))
    sharply, first = sharp_lines(program, cluster, paths[0], start, rate if words.rate_ppm else spread(lengths(cluster, 0)))
    older, second = older_lines(program, cluster, paths[0], start, rate, sharply)
    verdict = ("proved of covered runs, and of covered ones by the classical bound" if sharply and older else
               "proved of covered runs" if sharply else "proved by the classical bound alone" if older else "NOT PROVED by either bound")
    found = field("Verdict", f"{verdict}, that clocks which begin so come into sync") + found + first + second
    outside = beyond(cluster)
    if outside and not words.rate_ppm:
        found += field("WARNING", f"the first cycles of nodes {', '.join(map(str, sorted(set(outside))))} are longer or shorter "
                                  "than their oscillators alone make them: the premise does not hold of this file")
    found += field("Left out", "the startup before: these clocks run already. `flexlab power` tells when the nodes that "
                               "join a leader are in sync; the two times do not add up, since nodes that join are in sync "
                               "when they take part")
    print("\n".join(found + field("Origin", ORIGIN)))
    return DONE if sharply or older else NO


def way_lines(cluster: Cluster, double: int | None, peak: int, precision: int, name: str) -> list[str]:
    """How far clocks lie apart on the way, where that is proved."""
    furthest = f"{microseconds(peak, cluster.microtick_ns)}, {percent(peak, precision)} of the {name}"
    if double is None:
        return field("Peak", f"{furthest}: how far they may lie apart on the way")
    return field("On the way", f"no two macroticks lie further apart than {furthest}")


def latest(cluster: Cluster, double: int) -> str:
    return (f"in double cycle {double} at the latest (cycle {2 * double}, "
            f"{decimal(2 * double * ms_of_cycle(1, cluster), 3)} ms): ")


def sharp_lines(program: str, cluster: Cluster, path: str, start: int, rate: int) -> tuple[bool, list[str]]:
    """(whether it is proved, lines) of when clocks are in sync, of the kind and the flutter of the file."""
    flutter = flutter_of(cluster)
    kind = kind_of(cluster, flutter)
    bounds = read_sharp_bounds(answer(program, sharp_words(path, flutter)))[kind.name]
    told = understood(texts.sharp_settled, "way to sync",
                      answer(program, ["settle", path, str(start), str(rate), *sharp_words(path, flutter)[2:]]))
    way = told.beside if kind.beside else told.alone
    what = f"{KINDS[kind.name]}, for delays that flutter by {microseconds(flutter, cluster.microtick_ns)}"
    if way.failed:
        why = sharp_way_words(way.failed.number, way.failed.left, way.failed.right, cluster.parameters, kind)
        found = field("In sync", "NOT PROVED: a check for the way there fails", *why)
    else:
        found = field("In sync", latest(cluster, way.double or 0) + f"proved of covered runs that begin so, {what}")
    return not way.failed, found + way_lines(cluster, way.double, way.peak, bounds.precision, "precision")


def older_lines(program: str, cluster: Cluster, path: str, start: int, rate: int, sharply: bool) -> tuple[bool, list[str]]:
    """(whether it is proved, lines) of when clocks are in sync by the classical bound; what to turn for it is told where nothing is
    proved by the other one."""
    bounds = read_bounds(answer(program, ["bound", path]))
    told = understood(texts.settled, "way to sync", answer(program, ["settle", path, str(start), str(rate)]))
    if told.failed:
        why = check_words(told.failed.number, told.failed.left, told.failed.right, cluster.parameters, True)
        found = field("Classical", "NOT PROVED: a check of the classical bound for the way there fails", *why[:1 if sharply else None])
    else:
        found = field("Classical", "in sync by the classical bound " + latest(cluster, told.double or 0)
                      + "proved of runs that it covers and that begin so, with all correct nodes active")
    return not told.failed, found + way_lines(cluster, told.double, told.peak, bounds.precision, "classical bound")
