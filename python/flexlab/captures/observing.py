"""The request `flexlab observe`: a log as one or in parts, what flexray tells of each, and which node it may have been."""
from __future__ import annotations

import contextlib
import os
import re
import sys
from argparse import Namespace
from collections.abc import Sequence
from dataclasses import replace
from fractions import Fraction
from typing import Any, NamedTuple

from flexray import texts
from flexray.results import Observation

from ..base.ending import DONE, NO, UNMET, USAGE, Stop, printable
from ..base.files import hold, make_folder, parameter_lines, put
from ..pages.machine import printed
from ..pages.page import field as lines_of
from ..program import calls as programs
from ..program.report import understood
from ..runs.runs import answer, keep
from ..toml.cluster import Cluster, read_cluster
from .blame import BLAME, Blamed, blame_lines, blame_object, blame_rows, blamed, is_asked
from .hints import anew_of, hint_lines, hints_object, is_doubted
from .numbering import SILENCE
from .observed import draw_observed, observed_object, page_lines, verdict_text
from .observer import Frames, Log, Observer, taken, write_log
from .parts import WORST, begins, parts_of, said, span_of

LOG = "log.csv"


def least_judged(text: str | None) -> int | None:
    """How many double cycles `--require judged=COUNT` wants to be judged."""
    if text is None:
        return None
    if not re.fullmatch(r"judged=[0-9]{1,9}", text):
        raise Stop(USAGE, f"--require {printable(text)}: it is none of judged=COUNT")
    return int(text.removeprefix("judged="))


def status_of(told: Observation, wanted: int | None) -> int:
    """Done where all is judged to the end and within the precision, or, where so many double cycles have to be judged, where these are
    and nothing is contradicted or over it."""
    word = told.verdict[0]
    if wanted is None or word in ("no", "over"):
        return DONE if word == "within" else NO
    if told.judged < wanted:
        print(f"flexlab: not met: judged={wanted}: {told.judged} of {told.doubles} double cycles are judged", file=sys.stderr)
        return UNMET
    return NO if word == "open" else DONE


class Part(NamedTuple):
    """A log and what flexray tells of it, with the folder that has both."""
    log: Log
    told: Observation
    folder: str
    blame: Sequence[Blamed] = ()
    anew: int | None = None

    def page(self, cluster: Cluster, name: str) -> list[str]:
        more = blame_lines(cluster, self.blame, self.told) + hint_lines(cluster, self.log, self.told, self.anew, self.blame)
        return page_lines(cluster, self.told, self.log, name, more, is_doubted(cluster, self.log, self.told))

    def verdict(self, cluster: Cluster) -> str:
        return verdict_text(cluster, self.told, is_doubted(cluster, self.log, self.told))

    def object(self, cluster: Cluster) -> dict[str, Any]:
        return {**observed_object(cluster, self.told, self.log), "blame": blame_object(self.blame),
                **hints_object(cluster, self.log, self.told, self.anew)}


def asked(program: str, cluster: Cluster, params: str, folder: str, log: tuple[Observer, Frames]) -> Part:
    """Writes a log into the folder, and asks flexray for what it tells."""
    path = os.path.join(folder, LOG)
    written = write_log(cluster, path, *log)
    text = answer(program, ["observe", params, path], cluster=cluster)
    keep(folder, "observed.csv", text)
    return Part(written, understood(texts.observation, "log", text), folder)


def all_parts(program: str, cluster: Cluster, params: str, folder: str, seconds: Sequence[Fraction], observer: Observer,
              frames: Frames) -> list[Part]:
    """The log as one, or each of its parts, where frames come behind a silence or it is cut at some seconds. What is stated of sync in a
    cycle is said of the first part that has the cycle."""
    cuts = said(frames, seconds)
    one = asked(program, cluster, params, folder, (observer, replace(frames, left=dict(frames.left))))
    cuts += begins(cluster, frames) if cuts or one.told.log.behind else []
    if not cuts:
        return [one]
    found, since = list[Part](), observer.since
    for number, some in enumerate(parts_of(frames, cuts), 1):
        place = os.path.join(folder, f"part-{number}")
        make_folder(place)
        part = asked(program, cluster, params, place, (replace(observer, since=None), replace(some, left=dict(some.left))))
        told = part.told
        if since is not None and told.first is not None and told.last is not None and told.first <= since <= told.last:
            part, since = asked(program, cluster, params, place, (replace(observer, since=since), some)), None
        found.append(part)
    return found


def with_blame(program: str, cluster: Cluster, params: str, part: Part, always: bool) -> Part:
    """A part with what is told of each node, which goes into its folder; one of an earlier call goes away."""
    path, log = os.path.join(part.folder, BLAME), os.path.join(part.folder, LOG)
    part = part._replace(anew=anew_of(cluster, log, part.told))
    if not is_asked(part.told, always):
        with contextlib.suppress(FileNotFoundError):
            os.unlink(path)
        return part
    found = blamed(program, cluster, params, log)
    put(path, "".join(blame_rows(found)), "ascii")
    return part._replace(blame=found)


def pages_of(cluster: Cluster, parts: list[Part], name: str) -> list[str]:
    """The page of a log, or those of its parts, each behind its span, and then how their verdicts are."""
    pages = [part.page(cluster, name) for part in parts]
    if len(parts) == 1:
        return pages[0]
    found, verdicts, worst = list[str](), [part.told.verdict[0] for part in parts], worst_of(parts)
    for number, (page, part) in enumerate(zip(pages, parts), 1):
        found += lines_of("Part", f"{number} of {len(parts)}, {span_of(part.log.frames)}") + page + [""]
    counts = ", ".join(f"{verdicts.count(word)} {word}" for word in WORST if word in verdicts)
    found += lines_of("Parts", f"{len(parts)}, since behind a silence of more than {SILENCE} cycles, and where --part cuts, a count begins "
                               f"anew: {counts}. Each may be of a history of its own: nothing is said across parts")
    return found + lines_of("Verdict", f"the worst, of part {worst + 1}: {parts[worst].verdict(cluster)}")


def worst_of(parts: list[Part]) -> int:
    """The place of the first part whose verdict is worst."""
    return min(range(len(parts)), key=lambda place: WORST.index(parts[place].told.verdict[0]))


def parts_object(cluster: Cluster, parts: list[Part]) -> dict[str, Any]:
    """That of the part whose verdict is worst, and of several parts all of them."""
    found = [part.object(cluster) for part in parts]
    several = [{**one, "span": span_of(part.log.frames), "folder": part.folder} for one, part in zip(found, parts)]
    return {**found[worst_of(parts)], "parts": several if len(parts) > 1 else []}


class Seen(NamedTuple):
    """A file, and what flexray tells of its log, or of those of its parts."""
    cluster: Cluster
    parts: list[Part]
    name: str

    @property
    def page(self) -> list[str]:
        return pages_of(self.cluster, self.parts, self.name)

    @property
    def files(self) -> str:
        several = "" if len(self.parts) == 1 else f", and of each part in part-1 to part-{len(self.parts)}"
        blame = f", {BLAME}" if any(part.blame for part in self.parts) else ""
        return f"params.csv, log.csv, observed.csv{blame}, observed.txt{several}"

    def drawn(self) -> list[str]:
        return [path for part in self.parts for path in draw_observed(self.cluster, part.told, part.folder, self.name)]

    def status(self, wanted: int | None) -> int:
        statuses = [status_of(part.told, wanted) for part in self.parts]
        return NO if NO in statuses else max(statuses)


def seen_in(program: str, cluster: Cluster, words: Namespace, folder: str) -> Seen:
    """Asks flexray for what the file tells, whose log and text go into the folder, with its page."""
    params = os.path.join(folder, "params.csv")
    put(params, "".join(parameter_lines(cluster)), "ascii")
    parts = all_parts(program, cluster, params, folder, words.part or [], *taken(cluster, words))
    seen = Seen(cluster, [with_blame(program, cluster, params, part, words.blame) for part in parts], os.path.basename(words.file))
    keep(folder, "observed.txt", "\n".join(seen.page) + "\n")
    return seen


def observe(words: Namespace, folder: str) -> int:
    wanted = least_judged(words.require)
    program, cluster = programs.flexray(words.flexray), read_cluster(words.cluster)
    hold(folder)
    seen = seen_in(program, cluster, words, folder)
    drawn = seen.drawn() if words.pictures else []
    if words.json:
        printed({**parts_object(cluster, seen.parts), "folder": folder, "pictures": drawn})
    else:
        print("\n".join(seen.page))
        print(f"{'Files':<16}{folder}/: {seen.files}")
        for path in drawn:
            print(f"{'Picture':<16}{path}")
    return seen.status(wanted)
