#!/usr/bin/env python3
"""What `flexray observe PARAMS LOG` prints, reckoned by another program: plain Python and whole numbers, after
docs/FORMATS.md and the definitions in specs/ of crates fr_bound, fr_course, fr_sightings, fr_observe, fr_judging and fr_findings.

    observe_peer.py PARAMS LOG

It takes files that are accepted, and says nothing of others. A pair (low, high) is an interval of readings of the
observer's clock, in ticks of that clock.
"""
import csv
import os
import sys
from typing import NamedTuple

sys.path.insert(0, os.path.join(os.path.dirname(os.path.dirname(os.path.dirname(os.path.realpath(__file__)))), "python"))

from flexlab.captures.frames import crc, frame_crc  # noqa: E402

MILLION = 1_000_000
KINDS = ("judged", "damaged", "arbitrary", "other", "stray", "behind")
# A frame in the slot of a node that does not send it: on a channel that the node does not have, or of another form.
IRREGULAR = ("stranger", "form")


def up(number, by):
    return -(-number // by)


def rows_of(path):
    with open(path, newline="", encoding="latin-1") as file:
        return [row for row in csv.reader(file) if row]


class Known(NamedTuple):
    """What is known of a double cycle, in ticks: starts and even lengths of its nodes lie no further apart, and lengths no further beyond
    their range."""
    starts: int
    lengths: int
    beyond: int


def met_of(known, other):
    """The lesser of each two numbers, where something is known."""
    return other if known is None else Known(*map(min, known, other))


class Params:
    """A parameter file."""

    def __init__(self, rows):
        value = {row[1]: int(row[2]) for row in rows if row[0] == "param"}
        # Of each node its number, its key slot, its channels, and whether it is a coldstart node; of further slots the
        # nodes.
        self.nodes = [(int(row[1]), int(row[2]) if row[2] else None, row[3], row[4] == "1")
                      for row in rows if row[0] == "node"]
        self.further = {int(row[1]): int(row[2]) for row in rows if row[0] == "slot"}
        self.macros, self.micros = value["gMacroPerCycle"], value["pMicroPerCycle"]
        self.rate_out, self.correction = value["pRateCorrectionOut"], value["gOffsetCorrectionStart"]
        self.static, self.words = value["gNumberOfStaticSlots"], value["gPayloadLengthStatic"]
        self.slot, self.action = value["gdStaticSlot"], value["gdActionPointOffset"]
        self.rate_bound, self.change = value["xRateBound"], value["xChangeBound"]
        self.delay_error, self.damping = value["xDelayError"], value["pClusterDriftDamping"]
        self.offset_out = value["pOffsetCorrectionOut"]
        ways = ("pDelayCompensation", "pDelayCompensationA", "pDelayCompensationB")
        self.widest = max(value[name] for name in ways if name in value)
        self.shortest, self.longest = MILLION - self.rate_bound, MILLION + self.rate_bound
        self.arrival = self.delay_error + self.widest * self.rate_bound
        self.step = (self.micros + self.rate_out) * self.change
        self.room = max(self.rate_out * self.shortest - 2 * self.micros * self.rate_bound, 0)
        self.last_action = self.action_point(max([1] + [key for _, key, _, _ in self.nodes if key]))

    def action_point(self, slot):
        return (slot - 1) * self.slot + self.action

    def frame_of(self, slot):
        """Of a static slot its node, that node's channels, and the sync and startup indicators of its frames there; None
        where the slot is of no node."""
        if slot > self.static:
            return None
        for node, key, channels, coldstart in self.nodes:
            if slot == key:
                return node, channels, (1, int(coldstart))
            if self.further.get(slot) == node:
                return node, channels, (0, 0)
        return None

    def key_nodes(self):
        """The nodes with a key slot: number, slot, channels."""
        return [(node, key, channels) for node, key, channels, _ in self.nodes if key is not None]


class Log:
    """A log file."""

    def __init__(self, rows):
        self.unit = self.drift = self.jitter = self.flutter = self.since = self.each = None
        self.error, self.lost, self.whole, self.arbitrary, self.delays, self.entries = 0, 0, False, set(), {}, []
        for row in rows:
            kind = row[0]
            if kind in ("unit", "drift", "error", "jitter", "flutter", "lost", "since"):
                setattr(self, kind, int(row[1]))
            elif kind == "whole":
                self.whole = True
            elif kind == "arbitrary":
                self.arbitrary.add(int(row[1]))
            elif kind == "delay" and row[1]:
                self.delays[int(row[1]), row[2]] = int(row[3]), int(row[4])
            elif kind == "delay":
                self.each = int(row[3]), int(row[4])
            else:
                self.entries.append((kind, int(row[1]), row[2], bytes.fromhex(row[3])))

    def limits(self, node, channel):
        return self.delays.get((node, channel), self.each)

    def jitter_of(self, node, channel):
        low, high = self.limits(node, channel)
        return high - low if self.jitter is None else min(self.jitter, high - low)


def lengths_apart(error, damping, longest, change, beside):
    """How far even lengths lie apart in sharp sync, from how far a rate value is off and what a cycle changes, in ticks."""
    return (2 if beside else 1) * (2 * error + longest + 2 * damping * longest + 2 * change)


def starts_apart(lengths, arrival, longest, change, beside):
    """How far starts do, from how far lengths lie apart and the error of an arrival."""
    return 3 * lengths + 4 * change + 4 * arrival + 7 * longest if beside else lengths + 2 * change + 2 * arrival + 3 * longest


class Bounds:
    """The numbers of a double cycle, in ticks, by what its nodes hear of each other: `clean`, all of all; `meeting`, beside arbitrary
    nodes; `poor`, where some may be missed; None where that is not told."""

    def __init__(self, params, log):
        self.params, flutter = params, 2 * params.delay_error if log.flutter is None else log.flutter
        arbitrary = sum(node in log.arbitrary for node, _, _ in params.key_nodes())
        enough = arbitrary <= 2 and len(params.key_nodes()) - arbitrary >= (1, 3, 6)[arbitrary]
        self.unheard = "lost" if enough else "count"
        self.heard = ("meeting" if arbitrary else "poor" if log.lost else "clean") if enough and not (arbitrary and log.lost) else None
        later = (params.micros + params.rate_out + params.offset_out + 1) * params.change
        self.flutter, self.error = flutter, flutter + params.longest - 1 + later
        # By how much rate corrections set lengths apart that were equal, and lambda of the sharper precision.
        alone, self.sharp = (lengths_apart(self.error, params.damping, params.longest, params.step, beside)
                             for beside in (False, self.heard in ("meeting", None)))
        self.corrected = alone - params.longest
        damped = params.shortest - params.damping * params.shortest if params.damping else params.longest
        self.walk = flutter + params.step + later - 1 + damped

    def synced(self):
        """What is known of a double cycle in sharp sync."""
        params = self.params
        return Known(starts_apart(self.sharp, params.arrival, params.longest, params.step, self.heard in ("meeting", None)), self.sharp, 0)

    def odd(self, lengths):
        """How far lengths of odd cycles lie apart, where those of even ones lie so far apart."""
        return lengths + 2 * self.params.step

    def here(self, known):
        """How far macroticks lie apart by its own starts and lengths."""
        return known.starts + known.lengths + self.odd(known.lengths) + 2 * self.params.longest

    def behind(self, known):
        """What is known of the next double cycle."""
        (starts, lengths, beyond), arrival, longest = known, self.params.arrival, self.params.longest
        if self.heard == "meeting":
            starts = (starts + lengths + 2 * self.odd(lengths) + 4 * arrival + 7 * longest) // 2
            lengths = (lengths + self.sharp) // 2
        else:
            lost = self.heard == "poor"
            starts = lost * (starts + lengths) + self.odd(lengths) + 2 * arrival + 3 * longest
            lengths = lengths + self.corrected if lost else self.sharp
        return Known(starts, lengths, max(beyond + self.walk, 0))

    def apart(self, known):
        """How far macroticks lie apart in a double cycle."""
        return max(self.here(known), self.behind(known).starts + self.params.longest)

    def unfit(self, known):
        """Why a double cycle of which so much is known is not judged by it: one of the checks 2 to 5 fails with how far its action
        points lie apart, or the rate limit can't follow its lengths."""
        p, (starts, lengths, beyond) = self.params, known
        reach = starts + lengths + p.last_action * self.odd(lengths) // p.macros + p.longest
        front, clear = p.macros * (reach + p.delay_error), p.micros - p.rate_out
        if not (p.rate_out * p.shortest >= 2 * p.micros * p.rate_bound and p.offset_out * p.shortest >= reach + p.arrival + p.longest
                and (p.action * clear - p.macros) * p.shortest >= front
                and ((p.slot - p.action) * clear - p.macros) * p.shortest > front + p.macros * p.widest * MILLION):
            return 3, "reach"
        return (4, "drift") if beyond + max(self.walk, 0) > p.room else None


# ---- sightings


def header_of(kind, channel, data):
    """(sync, startup, slot, words, count) of an entry's bytes, where they are whole."""
    if len(data) < 5:
        return None
    number = int.from_bytes(data[:5], "big")
    sync, startup = number >> 36 & 1, number >> 35 & 1
    slot, words, kept, count = number >> 24 & 0x7FF, number >> 17 & 0x7F, number >> 6 & 0x7FF, number & 0x3F
    if crc(11, 0x385, 0x01A, number >> 17 & 0xFFFFF, 20) != kept or slot == 0 or (startup and not sync):
        return None
    if len(data) != (5 if kind == "head" else 8 + 2 * words):
        return None
    if kind == "frame" and frame_crc(channel, data[:-3]) != int.from_bytes(data[-3:], "big"):
        return None
    return sync, startup, slot, words, count


def judgement(params, log, kind, channel, data):
    """What an entry is: a word, and what is judged, or irregular, has its node, slot and cycle count."""
    header = header_of(kind, channel, data)
    if header is None:
        return "damaged", None
    *indicators, slot, words, count = header
    owner = params.frame_of(slot)
    if owner is None:
        return "other", None
    node, channels, wanted = owner
    if node in log.arbitrary:
        return "arbitrary", None
    if channel not in channels:
        return "stranger", (node, slot, count)
    if (words, *indicators) != (params.words, *wanted):
        return "form", (node, slot, count)
    return ("judged", (node, slot, count)) if wanted[0] else ("other", None)


def sightings(params, log):
    """The sightings (number, node, slot, channel, stamp), how many entries became what, and of the others those that
    contradict the log, each as (number of the sighting before, node, kind, channel, stamp, count or slot): frames that
    came at another time than their cycle count says, and irregular ones."""
    seen, tally, untimely, irregular = [], dict.fromkeys(KINDS, 0), [], []
    nominal = params.micros * MILLION
    for kind, stamp, channel, data in log.entries:
        word, judged = judgement(params, log, kind, channel, data)
        if word in IRREGULAR:
            node, slot, _ = judged
            if seen and log.unit * (stamp - seen[-1][4]) > 30 * nominal:
                word = "behind"
            else:
                irregular += [(seen[-1][0], node, word, channel, stamp, slot)] if seen else []
                word = "other"
        elif judged:
            node, slot, number = judged
            if seen:
                last, _, last_slot, _, last_stamp = seen[-1]
                apart, count = log.unit * (stamp - last_stamp), number
                number = count + 64 * ((last + 31 - count) // 64)
                ahead = params.action_point(slot) - params.action_point(last_slot)
                scheduled = ((number - last) * params.macros + ahead) * nominal // params.macros
                is_timely = abs(apart - scheduled) <= nominal // 2
                if apart > 30 * nominal:
                    word = "behind"
                elif not is_timely:
                    word = "stray"
                    untimely.append((last, node, "cycle", channel, stamp, count))
                elif not 0 <= number <= 199_999 or number // 2 < last // 2:
                    word = "stray"
            if word == "judged":
                seen.append((number, node, slot, channel, stamp))
        tally[word] += 1
    return seen, tally, untimely, irregular


# ---- courses


class Clock:
    """Readings of the observer's clock, and the numbers of the cluster in them."""

    def __init__(self, params, log):
        self.drift, self.macros, self.correction = log.drift, params.macros, params.correction
        shortest, longest = MILLION - params.rate_bound, MILLION + params.rate_bound
        self.allowed = (self.least((params.micros - params.rate_out) * shortest),
                        self.most((params.micros + params.rate_out) * longest))
        self.change = self.most((params.micros + params.rate_out) * params.change)
        self.micro_low, self.micro_high = self.least(shortest), self.most(longest)

    def ticks(self, low, high):
        """How many ticks such readings are, at least and at most."""
        return self.least_ticks(low), self.most_ticks(high)

    def least(self, ticks):
        return ticks * (MILLION + self.drift if ticks < 0 else MILLION - self.drift) // MILLION

    def most(self, ticks):
        return -self.least(-ticks)

    def least_ticks(self, reading):
        return up(reading * MILLION, MILLION - self.drift if reading < 0 else MILLION + self.drift)

    def most_ticks(self, reading):
        return -self.least_ticks(-reading)

    def micros(self, low, high):
        return (up(low, self.micro_low if low < 0 else self.micro_high),
                high // (self.micro_high if high < 0 else self.micro_low))


def meet(ways):
    return (max(low for low, _ in ways), min(high for _, high in ways)) if ways else None


class Seen:
    """What the sightings of one double cycle tell."""

    def __init__(self, params, log, clock, seen):
        self.params, self.log, self.clock, self.seen, self.stamps = params, log, clock, seen, {}
        for number, node, _, channel, stamp in seen:
            self.stamps.setdefault((node, channel, number % 2), stamp)

    def box(self, node, odd):
        """Where the action point of a node lies in one of both cycles."""
        ways = []
        for channel in "AB":
            if (node, channel, odd) in self.stamps:
                at = self.log.unit * self.stamps[node, channel, odd]
                low, high = self.log.limits(node, channel)
                ways.append((at - self.clock.most(high), at + self.log.unit + self.log.error - self.clock.least(low)))
        return meet(ways)

    def span(self, node, odd, other, other_odd):
        """How much later it lies in a cycle of another double cycle, or of this one."""
        ways = []
        for channel in "AB":
            if (node, channel, odd) in self.stamps and (node, channel, other_odd) in other.stamps:
                long = self.log.unit * (other.stamps[node, channel, other_odd] - self.stamps[node, channel, odd])
                off = self.log.unit + self.log.error + self.clock.most(self.log.jitter_of(node, channel))
                ways.append((long - off, long + off))
        return meet(ways)

    def course(self, node, key):
        """The course of a node: intervals of its action points, of how far they lie apart, of the length of its
        cycles."""
        even, odd, span = self.box(node, 0), self.box(node, 1), self.span(node, 0, self, 1)
        allowed, change = self.clock.allowed, self.clock.change
        course = {"action": self.params.action_point(key), "apart": allowed, "length": allowed}
        if even is None and odd is None:
            return None
        if odd is None:
            return {**course, "even": even, "odd": (even[0] + allowed[0], even[1] + allowed[1])}
        if even is None:
            return {**course, "even": (odd[0] - allowed[1], odd[1] - allowed[0]), "odd": odd}
        low, high = meet([allowed, (odd[0] - even[1], odd[1] - even[0])] + ([span] if span else []))
        course.update(
            even=(max(even[0], odd[0] - high), min(even[1], odd[1] - low)),
            odd=(max(odd[0], even[0] + low), min(odd[1], even[1] + high)),
            apart=(low, high), length=(max(low - change, allowed[0]), min(high + change, allowed[1])))
        return course

    def sender(self, node, key):
        """The course of a node, where each of its intervals has a number."""
        course = self.course(node, key)
        is_there = course and all(course[name][0] <= course[name][1] for name in ("even", "odd", "apart", "length"))
        return course if is_there else None


# ---- skews and terms


def corners(clock, course):
    """The starts of both cycles, and where the offset correction would start in them."""
    macros, action, turn = clock.macros, course["action"], clock.correction - course["action"]
    (even_low, even_high), (odd_low, odd_high), (low, high) = course["even"], course["odd"], course["length"]
    rest, micro = macros - action, clock.micro_high

    def between(before):
        """What lies so many macroticks before the odd action point, and the others behind the even one."""
        return ((before * even_low + (macros - before) * odd_low) // macros - clock.change,
                up(before * even_high + (macros - before) * odd_high, macros) + clock.change)

    start, turned = between(action), between(macros - turn)
    return {
        "even start": (even_low - up(action * high, macros), even_high - action * low // macros + micro),
        "odd start": (max(even_low + rest * low // macros, odd_low - up(action * high, macros), start[0]),
                      min(even_high + up(rest * high, macros), odd_high - action * low // macros, start[1]) + micro),
        "even turn": (max(even_low + turn * low // macros, turned[0]),
                      min(even_high + up(turn * high, macros), turned[1]) + micro),
        "odd turn": (odd_low + turn * low // macros, odd_high + up(turn * high, macros) + micro),
    }


def spread(ways):
    """How far points in these intervals lie apart, at least and at most."""
    pairs = [(one, two) for at, one in enumerate(ways) for place, two in enumerate(ways) if at != place]
    return max([0] + [one[0] - two[1] for one, two in pairs]), max([0] + [one[1] - two[0] for one, two in pairs])


def skews(clock, courses, onward):
    """Limits of the skew of the even and of the odd cycle; None is what is not known."""
    if not courses:
        return (0, None), (0, None)
    at, micro = [corners(clock, course) for course in courses], clock.micro_high
    low, high = {}, {}
    for name in at[0]:
        low[name], high[name] = spread([corner[name] for corner in at])
    even = max(low["even start"], low["even turn"] - micro), max(high["even start"], high["odd start"]) + micro
    least = clock.least_ticks(max(low["odd start"], low["odd turn"] - micro))
    most = None
    if all(onward):
        behind = spread([corners(clock, course)["even start"] for course in onward])[1]
        most = clock.most_ticks(max(high["odd start"], high["odd turn"] + micro, behind) + micro)
    return (clock.least_ticks(even[0]), clock.most_ticks(even[1])), (least, most)


def offset(clock, course, onward, span):
    """Limits of the offset term, in microticks."""
    action, rest = course["action"], clock.macros - course["action"]
    low, high = onward["even"][0] - course["odd"][1], onward["even"][1] - course["odd"][0]
    if span:
        low, high = max(low, span[0]), min(high, span[1])
    (here_low, here_high), (next_low, next_high) = course["length"], onward["length"]
    low -= up(action * next_high, clock.macros) + up(rest * here_high, clock.macros) + clock.micro_high
    high -= action * next_low // clock.macros + rest * here_low // clock.macros - clock.micro_high
    return clock.micros(low, high)


# ---- what a node must have computed


class Value:
    """The values that a node can have measured, and their midpoint."""

    def __init__(self, params, clock, bounds):
        self.params, self.clock, self.bounds = params, clock, bounds

    def microticks(self, low, high, error, is_placed):
        """From which whole number to which such a value lies: what is told of it in readings, and by how many ticks it may be off. One
        that places ticks is not below them."""
        low, high = self.clock.ticks(low, high)
        low, high, shortest, longest = low - error, high + error, self.params.shortest, self.params.longest
        by = shortest if low < 0 else longest
        return up(low, by) if is_placed else low // by, high // (longest if high < 0 else shortest)

    def deviation(self, receiver, sender):
        """The odd macrotick of the receiver at which the sender sends, and the deviation of the sender's frame."""
        ahead, macros, micro = sender["action"] - receiver["action"], self.clock.macros, self.clock.micro_high
        (low, high), (short, long) = receiver["odd"], receiver["length"]
        if ahead < 0:
            short, long = long, short
        at = low + ahead * short // macros - micro, high + up(ahead * long, macros) + micro
        return self.microticks(sender["odd"][0] - at[1], sender["odd"][1] - at[0], self.params.arrival, False)

    def rate(self, receiver, sender):
        """By how many microticks more than its own cycle the receiver places both action points of the sender."""
        return self.microticks(sender["apart"][0] - receiver["length"][1], sender["apart"][1] - receiver["length"][0],
                               self.bounds.error, True)

def discarded(count):
    return 0 if count < 3 else 1 if count < 8 else 2


def half(total):
    return total // 2 if total >= 0 else -(-total // 2)


def midpoint(values):
    values, off = sorted(values), discarded(len(values))
    return half(values[off] + values[len(values) - 1 - off])


def middle(known, further, lost):
    """The least and the greatest midpoint of these values and of up to so many further ones, where up to so many of them were missed, and
    not all; None where nothing limits it."""
    lows, highs, found = sorted(low for low, _ in known), sorted(high for _, high in known), []
    for missed in range(min(lost, len(known) - 1) + 1):
        for more in range(further + 1):
            ends = discarded(len(known) - missed + more)
            if more > ends:
                return None
            found.append((half(lows[ends - more] + lows[-1 - ends - missed]), half(highs[ends + missed] + highs[more - ends - 1])))
    return min(low for low, _ in found), max(high for _, high in found)


def step(clock, course, onward):
    """Limits of the next rate term less the one before, in microticks."""
    return clock.micros(onward["length"][0] - course["length"][1] - clock.change,
                        onward["length"][1] - course["length"][0] + clock.change)


# ---- contradictions


class Double:
    """A double cycle of a log: what its own sightings tell, and those of the double cycles before and behind it."""

    def __init__(self, params, log, clock, bounds, double, before, here, behind, offending, ends):
        self.params, self.log, self.clock, self.bounds, self.double, self.ends = params, log, clock, bounds, double, ends
        self.before, self.here, self.behind, self.offending = before, here, behind, offending
        self.keys = [(node, key, channels) for node, key, channels in params.key_nodes() if node not in log.arbitrary]
        # Each node that was seen with its course, and its course in the next double cycle.
        self.active = [(node, here.sender(node, key), behind.sender(node, key)) for node, key, _ in self.keys
                       if here.sender(node, key)]
        courses = [course for _, course, _ in self.active]
        self.skews = skews(clock, courses, [onward for _, _, onward in self.active])
        self.starts = clock.ticks(*spread([corners(clock, course)["even start"] for course in courses]))
        self.lengths = clock.ticks(*spread([course["length"] for course in courses]))
        self.proper = params.micros * params.shortest, params.micros * params.longest

    def term(self, node, course, onward):
        return offset(self.clock, course, onward, self.here.span(node, 1, self.behind, 0)) if onward else None

    def own(self):
        """What no run gives, and none that sends its own frames alone in its slots: (cycle, node, kind, A, B, C, D)."""
        found, even = [], 2 * self.double
        for node, _, _ in self.keys:
            boxes = [self.here.box(node, odd) for odd in (0, 1)]
            found += [(even + odd, node, "channels", *box) for odd, box in enumerate(boxes) if box and box[0] > box[1]]
            if all(box and box[0] <= box[1] for box in boxes):
                span = self.here.span(node, 0, self.here, 1)
                apart = [(boxes[1][0] - boxes[0][1], boxes[1][1] - boxes[0][0])] + ([span] if span else [])
                low, high = meet([self.clock.allowed, *apart])
                if low > high:
                    found.append((even, node, "limit", *meet(apart), *self.clock.allowed))
        limit = self.params.offset_out
        for node, course, onward in self.active:
            term = self.term(node, course, onward)
            if term and (term[0] > term[1] or term[0] > limit or term[1] < -limit):
                found.append((even + 1, node, "correction", *term, -limit, limit))
        for number, node, _, channel, stamp in self.here.seen:
            first = self.here.stamps[node, channel, number % 2]
            if first != stamp:
                found.append((number, node, "twice", channel, stamp, first))
        return found + self.offending

    def untold(self, own):
        """Why it does not tell of the clocks of all nodes, with what contradicts it whatever the run: (how far it came, reason, cycle,
        node)."""
        for node, key, _, _ in self.params.nodes:
            boxes = [self.here.box(node, odd) is not None for odd in (0, 1)]
            if node not in self.log.arbitrary and (key is None or not all(boxes)):
                return 1, "unseen", 2 * self.double + boxes[0], node
        return (2, "fault", own[0][0], own[0][1]) if own else None

    def skewed(self, apart):
        """Skews that are certainly greater."""
        return [(2 * self.double + odd, "-", "skew", low, "-" if high is None else high, "-", apart)
                for odd, (low, high) in enumerate(self.skews) if low > apart]

    def beyond(self, known):
        """Starts and lengths that certainly lie further apart or beyond their range."""
        even, (least, most) = 2 * self.double, self.proper
        found = [(even, "-", kind, *apart, "-", bound)
                 for kind, apart, bound in (("start", self.starts, known.starts), ("lengths", self.lengths, known.lengths))
                 if apart[0] > bound]
        least, most = least - known.beyond, most + known.beyond
        for node, course, _ in self.active:
            long = self.clock.ticks(*course["length"])
            if long[0] > most or long[1] < least:
                found.append((even, node, "length", *long, least, most))
        return found

    def seen(self):
        """What its own stamps tell of it, where nothing keeps them from that."""
        ways = [self.clock.ticks(*course["length"]) for _, course, _ in self.active]
        beyond = [max(self.proper[0] - low, high - self.proper[1]) for low, high in ways]
        return Known(max(self.starts[1], 0), max(self.lengths[1], 0), max([0] + beyond))

    def measured(self, kind):
        """Of each node what was seen of a term, and what it can have measured of itself and of the others."""
        value = Value(self.params, self.clock, self.bounds)
        for node, course, onward in self.active:
            others = [other for number, other, _ in self.active if number != node]
            if kind == "offset":
                yield node, self.term(node, course, onward), [(0, 0)] + [value.deviation(course, other) for other in others]
            else:
                yield node, onward and step(self.clock, course, onward), [(0, 0)] + [value.rate(course, other) for other in others]

    def terms(self, kind):
        """Of each term that is not the one that was computed, by how many of the others its node may have missed: where more may have been,
        limits are no narrower."""
        further, more, ways = len(self.params.key_nodes()) - len(self.active), kind == "rate" and self.params.damping, []
        measured = [one for one in self.measured(kind) if one[1]]
        for lost in range(max(len(self.active), self.log.lost + 1)):
            ways.append({})
            for node, seen, known in measured:
                if computed := middle(known, further, lost):
                    low, high = computed[0] - more, computed[1] + more
                    if seen[1] < low or high < seen[0]:
                        ways[lost][node] = 2 * self.double + 1, node, kind, *seen, low, high
            measured = [one for one in measured if one[0] in ways[lost]]
        return ways

    def missed(self, ways):
        """How many of the others a node must have missed: where nothing contradicts that; and a dash where there is no such number."""
        return [["missed", *told[:3], next((least for least in range(len(self.active)) if node not in ways[least]), "-")]
                for node, told in (ways[0] if self.active else {}).items()]

    def missing(self):
        """Frames that are not there of nodes that sent in the double cycle before."""
        if not self.log.whole:
            return []
        seen, even = {node for _, node, _, _, _ in self.before.seen}, 2 * self.double
        return [(even + odd, node, "missing", channel) for node, _, channels in self.keys if node in seen
                for odd in (0, 1) for channel in channels
                if self.ends[0] < even + odd < self.ends[1] and (node, channel, odd) not in self.here.stamps]

    def lines(self, limit):
        lines = [["cycle", 2 * self.double + odd, len(self.active), low, "-" if high is None else high,
                  says(limit, low, high)] for odd, (low, high) in enumerate(self.skews)]
        for node, course, onward in self.active:
            lines.append(["node", self.double, node, *course["length"],
                          *(self.term(node, course, onward) or ("-", "-"))])
        return lines


# ---- the text


def says(limit, low, high):
    return "over" if low > limit else "within" if high is not None and high <= limit else "open"


def are_numbers_sure(params, log):
    """Whether each frame of a run whose nodes start near each other certainly comes within half a cycle of the schedule: 36 lawful cycles,
    16 offset terms, two roundings, the delay, the reading, and the starts of two nodes are no further off together."""
    off = (36 * (params.rate_out * params.longest + params.micros * params.rate_bound) + 16 * params.offset_out * params.longest
           + 2 * params.longest + 31 * params.micros * log.drift + log.unit + log.error + params.offset_out * params.shortest)
    return all(2 * (off + log.limits(node, channel)[1]) <= params.micros * MILLION
               for node, _, channels in params.key_nodes() if node not in log.arbitrary for channel in channels)


def sender_lines(params, log, seen):
    """Of each sender and channel how many frames are there, in which cycles, and in how many of the log none."""
    lines, span = [], range(seen[0][0], seen[-1][0] + 1) if seen else range(0)
    for node, _, channels in params.key_nodes():
        for channel in channels if node not in log.arbitrary else "":
            cycles = [number for number, sender, _, on, _ in seen if (sender, on) == (node, channel)]
            ends = (cycles[0], cycles[-1]) if cycles else ("-", "-")
            lines.append(["sender", node, channel, len(cycles), *ends, len(set(span) - set(cycles))])
    return lines


class Progress:
    """What is known behind some double cycles: of the next one, the first contradiction, what rows say, and which are judged."""

    def __init__(self, params, log):
        self.log, self.bounds = log, Bounds(params, log)
        self.limit = self.bounds.here(self.bounds.synced())
        self.first, self.over, self.why = None, [], None
        self.doubles, self.judged, self.gaps, self.known = 0, [], 0, None

    def pass_double(self, double):
        """Its lines with those of its contradictions and of its own numbers."""
        lines, own = double.lines(self.limit), double.own()
        self.doubles += 1
        found, why, numbers = self.judge(double, own) if self.bounds.heard else ([], (0, self.bounds.unheard, "-", "-"), [])
        if why:
            self.why = why if self.why is None or self.why[0] < why[0] else self.why
            self.gaps += bool(self.judged)
        else:
            self.judged += [(line[1], line[5]) for line in lines if line[0] == "cycle"]
        found = own + found
        self.first = self.first or (found[0] if found else None)
        self.over += [line for line in lines if line[0] == "cycle" and line[5] == "over"]
        return lines + [["fault", *fault, *["-"] * (7 - len(fault))] for fault in found] + numbers

    def judge(self, double, own):
        """What contradicts it beside its own faults, why it is not judged, and what its nodes missed with what it is judged by."""
        bounds, untold, known = self.bounds, double.untold(own), self.known
        if self.log.since == 2 * double.double:
            known = met_of(known, bounds.synced())
        met = known if untold else met_of(known, double.seen())
        unfit = bounds.unfit(met) if met else None
        why = None if met and not unfit else untold or (*unfit, 2 * double.double, "-")
        moved, terms, numbers, self.known = [], [], [], None
        if not why:
            moved += double.skewed(bounds.apart(met))
            for ways in (double.terms("offset"), double.terms("rate")):
                terms += ways[self.log.lost].values()
                numbers += double.missed(ways)
            numbers.append(["spread", double.double, *met, bounds.apart(met)])
        if known:
            moved += double.beyond(known)
            terms += double.missing()
        if not why and not moved:
            self.known = bounds.behind(met)
        return moved + terms, why, numbers

    def sync_fields(self):
        first = (self.judged[0][0] // 2, "judged") if self.judged else ("-", "open")
        why = self.why or (None if self.judged else (0, "unseen", "-", "-"))
        return [*first, len(self.judged) // 2, self.doubles, *(why[1:] if why else "---")]

    def verdict(self):
        if self.first:
            cycle, node, kind, *_ = self.first
            return ["no", cycle, kind, node]
        if self.over:
            return ["over", self.over[0][1], self.over[0][3], len(self.over)]
        if not self.judged:
            return ["open", *(self.why or (0, "unseen", "-", "-"))[1:]]
        *rows, (last, _) = self.judged
        words = [word for _, word in self.judged]
        if not self.gaps and all(word == "within" for _, word in rows):
            return ["within", self.judged[0][0], last - 1]
        return ["partly", self.judged[0][0], last, words.count("within"), words.count("open"), len(words) // 2, self.doubles]


def observe(params, log):
    """The lines of the text, each a list of its fields, without the empty ones at its end."""
    clock, (seen, tally, untimely, irregular) = Clock(params, log), sightings(params, log)
    doubles, offending, progress = {}, {}, Progress(params, log)
    lines = [["precision", progress.limit, progress.bounds.flutter, log.lost]]
    for one in seen:
        doubles.setdefault(one[0] // 2, []).append(one)
    for one in untimely + irregular:
        offending.setdefault(one[0] // 2, []).append(one)
    parts, span = {}, range(min(doubles), max(doubles) + 1) if seen else ()
    for double in [*(span[0] - 1 for _ in span[:1]), *span, *(last + 1 for last in span[-1:])]:
        parts[double] = Seen(params, log, clock, doubles.get(double, []))
    for double in span:
        lines += progress.pass_double(Double(params, log, clock, progress.bounds, double, parts[double - 1], parts[double],
                                             parts[double + 1], offending.get(double, []), (seen[0][0], seen[-1][0])))
    words = [line[5] for line in lines if line[0] == "cycle"]
    lines += sender_lines(params, log, seen)
    lines.append(["log", *(tally[kind] for kind in KINDS)])
    lines.append(["numbers", "sure" if are_numbers_sure(params, log) else "premise"])
    lines.append(["sync", *progress.sync_fields()])
    ends = (2 * span[0], 2 * span[-1] + 1) if seen else ("-", "-")
    lines.append(["cycles", *ends, *(words.count(word) for word in ("within", "over", "open"))])
    lines.append(["verdict", *progress.verdict()])
    return lines


def text_of(lines):
    """The text: records of eight fields."""
    return "".join(",".join(map(str, line)) + "," * (8 - len(line)) + "\n" for line in lines)


if __name__ == "__main__":
    sys.stdout.write(text_of(observe(Params(rows_of(sys.argv[1])), Log(rows_of(sys.argv[2])))))
