"""A log in parts: behind a silence of more than 30 cycles frames have no numbers, so what comes there is a log of its own; and where it is
said so, as behind a restart, one begins too. Nothing is said across parts: not that the cluster went on, and not that clocks kept time."""
from __future__ import annotations

from collections.abc import Iterator, Sequence
from dataclasses import replace
from fractions import Fraction
from itertools import pairwise

from ..base.ending import USAGE, Stop
from ..base.units import decimal
from ..pages.page import ms_of_cycle
from ..toml.cluster import Cluster
from .numbering import SILENCE, sender_of, senders_of
from .observer import Frames, is_damaged

# The words of a verdict, the worst first.
WORST = ("no", "over", "open", "partly", "within")


def begins(cluster: Cluster, frames: Frames) -> list[Fraction]:
    """When the frames behind each such silence begin, in ns of the file."""
    keys = senders_of(cluster)
    times = sorted(ns for ns, channel, data, is_all in frames.found
                   if sender_of(cluster, keys, channel, data) and not is_damaged(channel, data, is_all))
    longest = SILENCE * ms_of_cycle(1, cluster) * 10**6
    return [later for earlier, later in pairwise(times) if later - earlier > longest]


def said(frames: Frames, seconds: Sequence[Fraction]) -> list[Fraction]:
    """Where --part cuts, in ns of the file; frames come before each of these times, and from it on."""
    found, times = list[Fraction](), [frame.ns for frame in frames.found]
    for second in seconds:
        at = (frames.zero or Fraction(0)) + second * 10**9
        if not times or not min(times) < at <= max(times):
            raise Stop(USAGE, f"--part {short(second)}: the frames that are taken do not come before it and from it on")
        found.append(at)
    return found


def parts_of(frames: Frames, cuts: Sequence[Fraction]) -> Iterator[Frames]:
    """The frames between the cuts. What was left out of the file is said of the first part; frames that are lost anywhere make no part one
    that misses none."""
    found = sorted(frames.found, key=lambda frame: frame.ns)
    for place, (begin, end) in enumerate(pairwise([None, *sorted(set(cuts)), None])):
        some = [frame for frame in found if (begin is None or frame.ns >= begin) and (end is None or frame.ns < end)]
        if place == 0:
            yield replace(frames, found=some, left=dict(frames.left), is_lossy=frames.is_torn)
        elif some:
            yield replace(frames, found=some, left={}, wraps=0, falls=0, part="", is_lossy=frames.is_torn)


def short(seconds: Fraction) -> str:
    text = decimal(seconds, 6)
    return text.rstrip("0").rstrip(".")


def span_of(frames: Frames) -> str:
    """From when to when a part goes, in seconds behind the first frame of the file."""
    times, zero = [frame.ns for frame in frames.found], frames.zero or Fraction(0)
    return f"from {short((min(times) - zero) / 10**9)} s to {short((max(times) - zero) / 10**9)} s"
