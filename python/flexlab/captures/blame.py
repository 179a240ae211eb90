"""Which node it may have been. A log with a contradiction is observed again for each node, with that node named arbitrary: then no history
in which it alone is at fault gives the log, if a contradiction is left. That is told by flexray, and proved. The other nodes cannot be
excluded, and no more is said of them."""
from __future__ import annotations

import os
import re
import tempfile
from collections.abc import Iterator, Sequence
from typing import Any, NamedTuple

from flexray import texts
from flexray.results import Observation

from ..base.files import put_bytes, read
from ..pages.page import field as lines_of
from ..program.report import understood
from ..runs.runs import answer
from ..toml.cluster import Cluster
from .observed import ALWAYS, IRREGULAR, TERMS, Words, deaf_in, excess_of, listed, nodes_words, senders, span, why_unjudged

BLAME = "blame.csv"
OWN = ("; a frame of another form, or on a channel that its node does not have, counts as a contradiction, which takes for granted that no "
       "other sender takes the ID of a node")


class Blamed(NamedTuple):
    """What is told of a log in which this node is named arbitrary too: `out` if there is a contradiction still, with the cycle, the kind
    and the node of the first one; `left` if there is none and double cycles are judged; `open` if none is, with the reason, its cycle and
    its node. In words it is `told`."""
    node: int
    says: str
    cycle: int | None
    kind: str | None
    other: int | None
    judged: int
    double_cycles: int
    told: str


def is_asked(told: Observation, always: bool) -> bool:
    """Whether a log is held against each node: where it has contradictions, and that is asked for or one of them asks what nodes hear of
    each other."""
    return any(always or fault.kind not in ALWAYS for fault in told.faults)


def number(field: str) -> int | None:
    return None if field == "-" else int(field)


def blamed_as(cluster: Cluster, node: int, told: Observation) -> Blamed:
    """A node, by what is told of the log with this node named arbitrary. A fault that is not irregular says more."""
    if told.faults:
        first = next((fault for fault in told.faults if fault.kind not in IRREGULAR), told.faults[0])
        return Blamed(node, "out", first.cycle, first.kind, first.node, told.judged, told.doubles, Words(cluster, told).of(first))
    if told.judged:
        return Blamed(node, "left", None, None, None, told.judged, told.doubles,
                      f"no contradiction is left, and {told.judged} of {told.doubles} double cycles are judged")
    kind, cycle, other = told.sync[4:7]
    return Blamed(node, "open", number(cycle), kind, number(other), told.judged, told.doubles,
                  f"no contradiction is left, but no double cycle is judged, since {why_unjudged(cluster, told, (kind, cycle, other))}")


def blamed(program: str, cluster: Cluster, params: str, log: str) -> list[Blamed]:
    """Each node with a key slot that the file does not name arbitrary, by the log with one row more in its head, and without that of what
    nodes may miss: beside arbitrary nodes nothing is judged with it."""
    found, text = [], re.sub(rb"(?m)^lost,[0-9]+,,,\n", b"", read(log), count=1)
    with tempfile.TemporaryDirectory() as room:
        path = os.path.join(room, "log.csv")
        for node in sorted(node.number for node in cluster.nodes.values() if node.key_slot and not node.arbitrary):
            put_bytes(path, f"arbitrary,{node},,,\n".encode() + text)
            told = answer(program, ["observe", params, path], cluster=cluster)
            found.append(blamed_as(cluster, node, understood(texts.observation, "log", told)))
    return found


# ---- in words


SHORT = {
    "skew": "clocks too far apart", "start": "starts too far apart", "lengths": "lengths of cycles too far apart",
    "length": "the length of a cycle", "offset": "its offset term", "rate": "the change of its rate term", "missing": "no frame of it",
    "channels": "its stamps on both channels", "limit": "its stamps", "correction": "its offset term",
    "twice": "a frame that is there twice", "cycle": "a frame at another time", "stranger": "a frame that it does not send",
    "form": "a frame of another form"}


def out_lines(cluster: Cluster, found: Sequence[Blamed]) -> list[str]:
    """Those that are out, by the contradiction that is left."""
    reasons = dict[tuple[int | None, str | None, int | None], list[int]]()
    for one in found:
        if one.says == "out":
            reasons.setdefault((one.cycle, one.kind, one.other), []).append(one.node)
    return [f"{nodes_words(cluster, nodes)} {'is' if len(nodes) == 1 else 'are'} out: there is still cycle {cycle}"
            + ("" if other is None else f", node {cluster.called(other)}") + f", {SHORT[kind or '']}"
            for (cycle, kind, other), nodes in reasons.items()]


def size_lines(told: Observation, node: int) -> list[str]:
    """By how much the terms of a node were wrong where they contradict, if those of no other node do."""
    terms = [fault for fault in told.faults if fault.kind in TERMS]
    if any(fault.node != node for fault in terms):
        return []
    ways, found = dict[tuple[str, str], list[tuple[int, int, int]]](), list[str]()
    for fault in terms:
        if excess := excess_of(fault):
            ways.setdefault((fault.kind, excess.way), []).append((fault.cycle, excess.low, excess.high))
    for (kind, way), rows in ways.items():
        low, high = max(row[1] for row in rows), min(row[2] for row in rows)
        same = ", if by the same each time" if len(rows) > 1 else ""
        if low > high:
            low, high, same = min(row[1] for row in rows), max(row[2] for row in rows), ", not by the same each time"
        where = (f"in cycle {rows[0][0]}" if len(rows) == 1 else
                 f"in each of {len(rows)} double cycles, the first in cycle {rows[0][0]} and the last in cycle {rows[-1][0]}")
        found.append(f"by so much: by what all others sent its {TERMS[kind]} was {span(low, high)} microticks {way} {where}{same}")
    return found


def conclusion(cluster: Cluster, found: Sequence[Blamed], told: Observation) -> list[str]:
    """What follows of all nodes, as if no frame was lost; and whether anything does with the losses that the file allows."""
    if deaf := deaf_in(cluster):
        return [f"nothing follows from what is below, since {deaf.words(cluster)}"]
    left, beside = [one for one in found if one.says != "out"], " beside those that are named arbitrary" if cluster.arbitrary else ""
    own, lines = OWN if any(one.kind in IRREGULAR for one in found) else "", list[str]()
    if told.lost:
        firm = [one.node for one in found if one.kind in ALWAYS and one.kind not in IRREGULAR and one.says == "out"]
        lines.append(f"as if NO frame was lost, though the file allows a node to miss {senders(told.lost)} of each double cycle: with such "
                     "losses " + (f"of these only {nodes_words(cluster, firm)} {'is' if len(firm) == 1 else 'are'} out" if firm
                                  else "no node is shown to be out"))
    if not left:
        lines.append(f"no node alone{beside} was at fault, if all else is as the verdict has it: several were, or a frame was lost on the "
                     f"bus, or the analyzer or something that is stated is wrong{own}")
    elif len(left) > 1 or told.lost:
        names = listed([cluster.called(one.node) for one in left], "or")
        lines.append(f"if one node alone{beside} was at fault, no frame was lost on the bus, and all else is as the verdict has it, it is "
                     f"node {names}{own}")
    else:
        lines.append(f"SUSPECT node {cluster.called(left[0].node)}: without its frames {left[0].told}; no other single node{beside} "
                     f"explains the log, if no frame was lost on the bus and all else is as the verdict has it{own}")
        lines += size_lines(told, left[0].node)
    return lines


def blame_lines(cluster: Cluster, found: Sequence[Blamed], told: Observation) -> list[str]:
    """What follows of all nodes, and then what is told of each."""
    if not found:
        return []
    lines = conclusion(cluster, found, told)
    named = [] if any(line.startswith("SUSPECT") for line in lines) else [one for one in found if one.says != "out"]
    return lines_of("Blame", *lines, *(f"node {cluster.called(one.node)} cannot be excluded: {one.told}" for one in named),
                    *out_lines(cluster, found))


def blame_rows(found: Sequence[Blamed]) -> Iterator[str]:
    yield "node,says,cycle,kind,other,judged,double_cycles\n"
    for one in found:
        yield ",".join("" if field is None else str(field) for field in one[:-1]) + "\n"


def blame_object(found: Sequence[Blamed]) -> list[dict[str, Any]]:
    """As an object: names stand in docs/FLEXLAB.md, "For machines"."""
    return [one._asdict() for one in found]
