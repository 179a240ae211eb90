"""The request `design`."""
import argparse
import os
import re
import sys
from fractions import Fraction

from ..base.ending import DONE, FILE, NO, USAGE, Stop
from ..base.files import put_new
from ..base.units import TICKS
from ..pages.machine import printed
from ..program import calls as programs
from ..runs.least import sharp_bounds_of
from ..toml.cluster import Cluster, read_cluster
from .buying import nearest, turned
from .confirming import Nodes, certificate, confirm
from .design_page import Answer, answer_object, no_page, of_range, page, toml_of
from .solving import KEPT, search
from .tasks import Wish, tasks_of
from .topology import Network, is_topology, read_network

KEEPABLE = ("gMacroPerCycle", *KEPT, "pDelayCompensation", "pDelayCompensationA", "pDelayCompensationB")
MOST_TOP = 50


def kept_of(words: argparse.Namespace) -> tuple[tuple[str, int], ...]:
    """What --keep fixes, each parameter once."""
    found: dict[str, int] = {}
    for text in words.keep or []:
        match = re.fullmatch(r"(\w+)=([0-9]{1,6})", text)
        if not match or match[1] not in KEEPABLE:
            raise Stop(USAGE, f"--keep {text}: it has to be NAME=VALUE, NAME one of {', '.join(KEEPABLE)}")
        why = of_range(match[1], int(match[2]))
        if why or match[1] in found:
            raise Stop(USAGE, f"--keep {text}: {why or 'it is kept twice'}")
        found[match[1]] = int(match[2])
    return tuple(found.items())


def nanoseconds(text: str | None, option: str, most: int) -> Fraction | None:
    """The ns of an option, or None where it is not given."""
    if text is None:
        return None
    if not re.fullmatch(r"[0-9]{1,6}(\.[0-9]{1,6})?", text) or Fraction(text) > most:
        raise Stop(USAGE, f"{option} {text}: a number from 0 to {most} is wanted")
    return Fraction(text)


def wish_of_network(network: Network) -> Wish:
    goal, hardware = network.goal, network.hardware
    return Wish(goal.cycle_ns, goal.slots, goal.words, goal.arbitrary, goal.joins, hardware.bit_rate, hardware.start_bits, hardware.rate,
                hardware.change, hardware.flutter_ns, len(network.sync),
                tuple((name, *network.spread(name)) for name in network.channels),
                max(network.spread(name, True)[1] for name in network.channels), hardware.microticks_ns)


def wish_of_cluster(cluster: Cluster) -> Wish:
    """The same goal, limits and key slots as a cluster that is there; delays are as far off its compensations as its limits
    allow."""
    from ..runs.sharp import flutter_of, kind_of
    p, unit = cluster.parameters, cluster.microtick_ns
    flutter = flutter_of(cluster)
    error = p["xDelayError"] * unit / TICKS
    delays = []
    for channel in sorted(set("".join(node.channels for node in cluster.nodes.values()))):
        wait = p[f"pDelayCompensation{channel}" if f"pDelayCompensation{channel}" in p else "pDelayCompensation"] * unit
        delays.append((channel, max(Fraction(0), wait - error), wait + error))
    return Wish(p["pMicroPerCycle"] * unit, p["gNumberOfStaticSlots"], p["gPayloadLengthStatic"], min(2, len(cluster.arbitrary)),
                bool(cluster.joins), cluster.bit_rate, cluster.start_bits, p["xRateBound"], p["xChangeBound"], flutter * unit / TICKS,
                kind_of(cluster, flutter).last, tuple(delays), max(high for _, _, high in delays), (unit,))


def nodes_of_network(network: Network) -> Nodes:
    sync = network.sync
    return Nodes(tuple((number, sync.index(number) + 1 if number in sync else None, channels, number in sync)
                       for number, channels in network.nodes.items()))


def nodes_of_cluster(cluster: Cluster) -> Nodes:
    return Nodes(tuple((node.number, node.key_slot, node.channels, node.coldstart) for node in cluster.nodes.values()),
                 tuple(cluster.slots))


def nodes_words(nodes: Nodes) -> str:
    sync = [row for row in nodes.rows if row[1] is not None]
    channels = "".join(sorted(set("".join(row[2] for row in nodes.rows))))
    on = f"channel {channels}" if len(channels) == 1 else "channels A and B"
    return f"{len(nodes.rows)} nodes on {on}, {len(sync)} of them sync nodes"


def write_new(path: str, text: str) -> None:
    """Writes a file that is not there yet."""
    if os.path.lexists(path):
        raise Stop(FILE, f"{path}: it is there already, and a design is not written over another file")
    put_new(path, text)


def design(words: argparse.Namespace) -> int:
    """Prints the page of the best design of a topology, or around a cluster that is there; status 1 where there is none."""
    kept = kept_of(words)
    margin = nanoseconds(words.margin_ns, "--margin-ns", 100000)
    flutter = nanoseconds(words.flutter_ns, "--flutter-ns", 2000)
    if not 1 <= words.top <= MOST_TOP:
        raise Stop(USAGE, f"--top {words.top}: a number from 1 to {MOST_TOP} is wanted")
    network = read_network(words.file) if is_topology(words.file) else None
    cluster = None if network else read_cluster(words.file)
    if words.out and not network:
        raise Stop(USAGE, f"--out: {words.file} is a cluster and no topology; put the parameters of the page into it")
    if words.out and os.path.exists(words.out):
        raise Stop(FILE, f"{words.out}: it is there already, and a design is not written over another file")
    if network:
        wish, nodes, notes = wish_of_network(network), nodes_of_network(network), list(network.notes)
    else:
        assert cluster is not None
        wish, nodes, notes = wish_of_cluster(cluster), nodes_of_cluster(cluster), list(cluster.notes)
    changes = {"margin_ns": margin or Fraction(0), "free": words.free, "kept": kept}
    wish = Wish(**{**wish.__dict__, **changes, **({} if flutter is None else {"flutter_ns": flutter})})
    program = programs.flexray(words.flexray, ["bound"])
    macros = wish.of_kept("gMacroPerCycle")
    found = search(tasks_of(wish, words.file), words.purpose, max(2, words.top), words.whole_macroticks, macros)
    answer = Answer(words.file, wish, words.purpose, nodes_words(nodes), found, notes=notes)
    if not found.best:
        answer.nearest = list(nearest(wish, words.whole_macroticks))
        printed(answer_object(answer)) if words.json else sys.stdout.write(no_page(answer))
        return NO
    answer.confirmed = [confirm(program, one, nodes) for one in found.best]
    best = answer.best.design
    answer.turned = turned(wish, best, words.purpose, words.whole_macroticks)
    if cluster is not None:
        answer.now = sharp_bounds_of(cluster.parameters, best.task.kind)
    if words.certificate:
        answer.chain = certificate(program, best, nodes, words.certificate)
    if network and words.out:
        write_new(words.out, toml_of(answer, network.nodes, network.sync, network.delays))
    if words.json:
        printed({**answer_object(answer), "written": words.out})
        return DONE
    sys.stdout.write(page(answer))
    for name, path in (("Written", words.out), ("Certificate", words.certificate and os.path.join(words.certificate, "chain.txt"))):
        if path:
            print(f"{name:<16}{path}")
    return DONE
