"""Random runs in which frames are lost, and what docs/PRECISION.md, "Where frames are lost", says of each double cycle, reckoned by
plain Python and whole numbers from the files alone: `bench/losses` and `test_losses` hold it against the skew of every cycle.

A run is of production shape, but that macroticks may be longer: a cycle of 5 ms at a microtick of 25 ns, 2 to 10 correct nodes with a key
slot that begin near each other, delays around the compensation, frames that are lost or damaged in some double cycles, and up to two
arbitrary nodes that are early for some and late for others, or say anything. One or two nodes may join it.
"""
import itertools
from typing import NamedTuple

from clocks_peer import CHANGE, PRODUCTION
from flexlab.program.forms import FORMS
from observe_peer import lengths_apart, starts_apart

# The row of a script by which a bit of a frame is inverted on its way.
DAMAGED = next(word for word, fields in FORMS["script"].kinds.items() if any(field.name == "BIT" for field in fields))
MILLION = 1_000_000
# What frames are lost in a double cycle with losses: of each frame on a channel the share, or all of them; of one node at one other;
# of a few nodes at each other one; or channel A's in the even cycle and channel B's in the odd one. Or all of them, while oscillators change
# and some nodes without a key slot hear nobody; those of its odd cycle and the next even one; of its even cycle alone, or its odd one. Or
# those of two of eight sync nodes at each node, not the same; a share of all, while arbitrary nodes are silent now and then or for ever;
# or those of nodes that join or at them, and some others', in the double cycles around.
KINDS = {"bursts": 1, "twentieths": 0.05, "halves": 0.5, "all": 1, "one": 0, "few": 0, "crossed": 0, "deaf": 1, "crossing": 1, "evens": 1,
         "odds": 1, "eight": 0, "silent": 0, "around": 0}
# Of which cycles, counted from the even one, a burst takes all.
BURSTS = {"crossing": (1, 2), "evens": (0,), "odds": (1,)}
# Those of runs that no node joins, and of runs that some do: then none may hear nobody.
ALONE, JOINING = ([kind for kind in KINDS if kind != other] for other in ("around", "deaf"))
# What is heard in a double cycle decides how its numbers go on: of offsets starts, and of rates lengths.
CLEAN, MEETING, POOR = "clean", "meeting", "poor"
# The word of its column where a frame is lost is that of the worse of both kinds, which is the later one here.
WORDS = {CLEAN: "all", MEETING: "most", POOR: "any"}


def discarded(count):
    """How many of so many values a midpoint leaves out at each end."""
    return 0 if count < 3 else 1 if count < 8 else 2


class Numbers:
    """Those of a cluster for a flutter, beside arbitrary nodes or without: lambda, pi, the checks by a reach, the walk, and whether it is
    held."""

    def __init__(self, values, last_slot, flutter, beside=False):
        self.values, self.flutter, self.beside = values, flutter, beside
        v, bound = values, values["xRateBound"]
        self.longest, self.shortest = MILLION + bound, MILLION - bound
        self.arrival = v["xDelayError"] + v["pDelayCompensation"] * bound
        change = v[CHANGE]
        self.change = (v["pMicroPerCycle"] + v["pRateCorrectionOut"]) * change
        later = (v["pMicroPerCycle"] + v["pRateCorrectionOut"] + v["pOffsetCorrectionOut"] + 1) * change
        damping = v["pClusterDriftDamping"]
        self.value = flutter + self.longest - 1 + later
        self.alone, self.lengths = (lengths_apart(self.value, damping, self.longest, self.change, one) for one in (False, beside))
        self.starts = starts_apart(self.lengths, self.arrival, self.longest, self.change, beside)
        self.precision = self.apart(self.starts, self.lengths)
        self.action = (last_slot - 1) * v["gdStaticSlot"] + v["gdActionPointOffset"]
        walk = flutter + self.change + later - 1 + (self.longest if damping == 0 else -(damping - 1) * self.shortest)
        room = v["pRateCorrectionOut"] * self.shortest - 2 * v["pMicroPerCycle"] * bound
        self.walk, self.room = walk, room
        self.lasts = 0 if room < 0 else None if walk <= 0 else room // walk
        # Not a tick changes, lengths walk by 1 to 2/3 of a microtick less 1, and with almost one beyond and a walk more are in the limit.
        self.is_held = not change and walk > 0 and 3 * walk < 2 * self.shortest and self.shortest - 1 + walk <= room

    def follows(self, deaf):
        """Whether the rate limit suffices for how far lengths may lie beyond their range behind each double cycle, by whether some node is
        deaf in it: the walk, for as many as it lasts; and two changes of a cycle in the place of the walk where one is, which the walk
        takes back later where it is below 0."""
        on, strayed = max(0, self.walk), 0
        for passed, keeps in enumerate(deaf, 1):
            strayed = strayed + max(0, 2 * self.change - on) if keeps else max(0, strayed + min(0, self.walk))
            if min(passed, self.lasts or 0) * on + strayed > self.room:
                return False
        return True

    def behind(self, kinds, starts, lengths):
        """Starts and lengths of the next double cycle."""
        odd = lengths + 2 * self.change
        more = odd + 2 * self.arrival + 3 * self.longest
        return ({CLEAN: more, MEETING: (starts + lengths + 2 * odd + 4 * self.arrival + 7 * self.longest) // 2,
                 POOR: starts + lengths + more}[kinds.offsets],
                {CLEAN: self.alone, MEETING: (lengths + 2 * self.alone) // 2, POOR: lengths + self.alone - self.longest}[kinds.rates])

    def apart(self, starts, lengths):
        return starts + 2 * lengths + 2 * self.change + 2 * self.longest

    def near(self, starts, lengths):
        return starts + lengths + self.action * (lengths + 2 * self.change) // self.values["gMacroPerCycle"] + self.longest

    def by(self, heard, listened=()):
        """The number of each double cycle by what is heard from the first one on, and the reach, which takes in whoever follows; nodes
        listen in so manieth double cycles, those before the first one below 0."""
        spread, follow = (self.starts, self.lengths), Follow(self, MEETING if self.beside else CLEAN, self.starts, self.lengths)
        apart, reach = [], 0
        for double, what in enumerate(heard):
            later = self.behind(what, *spread)
            apart.append(max(self.apart(*spread), later[0] + self.longest))
            near = [self.near(*spread)]
            near += [self.near(*follow.first)] if double - 1 in listened else []
            near += [self.near(follow.second, spread[1])] if double - 2 in listened else []
            reach = max(reach, *near)
            follow.go_on(what.offsets, spread, later)
            spread = later
        return apart, reach

    @property
    def first_rates(self):
        """For how many double cycles the rate limit suffices for first rates, None for on and on."""
        spare = self.room - self.flutter - self.change - self.longest
        return 0 if spare < 0 else None if self.walk <= 0 else min(self.lasts, spare // self.walk + 1)

    def hold(self, reach):
        """Whether the checks 2 to 5 hold with a reach."""
        v, macros, clear = self.values, self.values["gMacroPerCycle"], self.values["pMicroPerCycle"] - self.values["pRateCorrectionOut"]

        def front(macroticks):
            return (macroticks * clear - macros) * self.shortest

        late = reach + v["xDelayError"]
        return (v["pRateCorrectionOut"] * self.shortest >= 2 * v["pMicroPerCycle"] * v["xRateBound"]
                and v["pOffsetCorrectionOut"] * self.shortest >= reach + self.arrival + self.longest
                and front(v["gdActionPointOffset"]) >= macros * late
                and front(v["gdStaticSlot"] - v["gdActionPointOffset"]) > macros * (late + v["pDelayCompensation"] * MILLION))


class Follow:
    """How far the clocks of nodes that follow may lie from the others in a double cycle: starts and lengths of those in their first one,
    and starts of those in their second one."""

    def __init__(self, numbers, offsets, starts, lengths):
        self.numbers = numbers
        self.first = self.begun(starts, lengths)
        self.second = self.nearer(offsets, starts, lengths)

    def begun(self, starts, lengths):
        """Behind a double cycle whose nodes with rows lie so far apart: what was counted from two frames, and where it begins."""
        n = self.numbers
        rate = lengths + 2 * n.value + n.values["pClusterDriftDamping"] * n.longest + 4 * n.change
        return starts + 2 * lengths + 4 * n.change + 2 * n.arrival + n.flutter + 4 * n.longest, rate

    def nearer(self, offsets, starts, lengths):
        """Behind its first double cycle: as near as what it heard of offsets brings it."""
        n, odd = self.numbers, self.first[1] + 2 * self.numbers.change
        if offsets == MEETING:
            return (starts + lengths + 2 * odd + 4 * n.arrival + 7 * n.longest) // 2
        own = odd + 2 * n.arrival + 3 * n.longest
        return own if offsets == CLEAN else own + starts + lengths

    def go_on(self, offsets, rows, later):
        """To the next double cycle, by what is heard of offsets in this one, and starts and lengths of the nodes with rows in both."""
        self.second = self.nearer(offsets, *rows)
        starts, lengths = self.begun(*rows)
        self.first = starts, max(lengths, later[1])


class Kinds(NamedTuple):
    """How starts go on, by what is heard of offsets, and lengths, by what is heard of rates."""
    offsets: str
    rates: str


class Heard(NamedTuple):
    """What is heard in a double cycle: whether between any two correct nodes one channel carries the frames of both its cycles; how its
    numbers go on; and whether each correct node trusts its lists, or nothing at all can reach it. Where nodes join, whether of each kind
    all is heard, or each that has begun trusts its list."""
    is_whole: bool
    kinds: Kinds
    is_trusted: bool

    @property
    def word(self):
        """That of its column."""
        return "all" if self.is_whole else WORDS[max(self.kinds, key=list(WORDS).index)]


def lists_of(double):
    """The cycles of a double cycle by which an offset value comes, and those of a rate value."""
    return (2 * double + 1,), (2 * double, 2 * double + 1)


class Traffic:
    """What becomes of the frames of correct nodes: of each node its key slot, if it has one, and its channels; which are arbitrary;
    the passages (cycle, sender, receiver, channel) that are lost, or come damaged, or in which an arbitrary node says something; and of
    correct nodes that join the double cycle in which each listens."""

    def __init__(self, nodes, arbitrary=(), lost=(), damaged=(), said=(), joins=()):
        self.nodes, self.arbitrary, self.lost, self.damaged = nodes, frozenset(arbitrary), set(lost), set(damaged)
        self.said = set(said)
        self.receivers = [node for node in nodes if node not in self.arbitrary]
        self.senders = [node for node in self.receivers if nodes[node][0]]
        self.joins = dict(joins)

    def has(self, surely, cycles, one, two):
        """Whether a receiver has a value of a sender, surely or perhaps, from one channel in each of these cycles."""
        gone = self.lost | self.damaged if surely else self.lost - self.damaged
        return one == two or any(all((cycle, one, two, channel) not in gone for cycle in cycles)
                                 for channel in "AB" if channel in self.nodes[one][1] and channel in self.nodes[two][1])

    def may_reach(self, cycles, one, two):
        """Whether something may come of a node with a key slot, on one channel in each of these cycles."""
        if one not in self.arbitrary:
            return self.has(False, cycles, one, two)
        return any(all((cycle, one, two, channel) in self.said for cycle in cycles) for channel in "AB")

    def is_deaf(self, cycles, two):
        """Whether a receiver has no key slot, and nothing can reach it."""
        return not self.nodes[two][0] and not any(slot and self.may_reach(cycles, one, two) for one, (slot, _) in self.nodes.items())

    def lacking(self, double):
        """The receivers that are deaf in a double cycle for offset values or for rate values."""
        return {two for two in self.receivers for cycles in lists_of(double) if self.is_deaf(cycles, two)}

    def bears(self, since):
        """Whether each correct node trusts its lists in each double cycle from one on, or is deaf: not in that one, and in fewer double
        cycles in a row than make it passive. Where nodes join none may be deaf."""
        if self.joins:
            return all(self.heard(double).is_trusted for double in range(since, self.doubles))
        lacking = {}
        for double in range(self.doubles):
            lacking = {node: lacking.get(node, 0) + 1 for node in self.lacking(double)}
            if double < since:
                continue
            most = max(lacking.values(), default=0)
            if not self.heard(double).is_trusted or most and (
                    double == since or most >= self.values["gMaxWithoutClockCorrectionPassive"]):
                return False
        return True

    @property
    def staying(self):
        """The correct senders that do not join."""
        return [node for node in self.senders if node not in self.joins]

    @property
    def liars(self):
        """The arbitrary sync nodes."""
        return [node for node in self.nodes if node in self.arbitrary and self.nodes[node][0]]

    def begun(self, double):
        """The correct nodes that may have values in a double cycle: those that do not join, and those that listened before it."""
        return [node for node in self.receivers if node not in self.joins or self.joins[node] < double]

    def sending(self, double):
        """The correct nodes that may send in it: one that joins does from the third double cycle behind the one in which it listens."""
        return {node for node in self.senders if node not in self.joins or self.joins[node] + 3 <= double}

    def kind_of(self, double, cycles):
        """What is heard in a double cycle of the values that come by one channel in each of these cycles; and whether that is borne: each
        node trusts its list or is deaf, or, where nodes join, all is heard or each that has begun trusts its list. Of nodes that join no
        value counts but where all is heard; what they may send makes a list longer, so that it discards more."""
        begun, staying = self.begun(double), set(self.staying)
        sure = {two: {one for one in self.senders if self.has(True, cycles, one, two)} for two in begun}
        counted = {two: sure[two] & staying for two in begun}
        further = {two: sum(self.may_reach(cycles, one, two) for one in self.liars) for two in begun}
        cut = {two: discarded(sum(self.has(False, cycles, one, two) for one in self.senders) + further[two]) for two in begun}
        is_all = all(sure[two] >= self.sending(double) for two in begun)
        meets = all(counted.values()) and all(len(counted[one] & counted[two]) > cut[one] + cut[two]
                                              for one, two in itertools.combinations(begun, 2))
        trusting = [two for two in begun if counted[two] and further[two] <= discarded(len(counted[two]) + further[two])]
        is_borne = (is_all or trusting == begun if self.joins else
                    all(two in trusting or self.is_deaf(cycles, two) for two in begun))
        return CLEAN if is_all and not self.liars else MEETING if is_all or meets else POOR, is_borne

    def heard(self, double):
        """An offset value is of the odd cycle, a rate value of both."""
        (offsets, bears_offsets), (rates, bears_rates) = (self.kind_of(double, cycles) for cycles in lists_of(double))
        return Heard(all(self.has(True, lists_of(double)[1], one, two) for one in self.senders for two in self.receivers),
                     Kinds(offsets, rates), bears_offsets and bears_rates)

    def outweighs(self):
        """Whether the correct senders that do not join are enough for the arbitrary ones."""
        return len(self.liars) < 3 and len(self.staying) >= (1, 3, 6)[len(self.liars)]


class Run(Traffic):
    """A random run; `kind` says what is lost, and `joining` how many nodes join at most."""

    def __init__(self, draw, kind, most_doubles=12, liars=None, joining=0):
        self.draw, self.kind = draw, kind
        compensation, error = draw.choice([(7, 5), (7, 5), (4, 2), (3, 1)])
        bound, change = draw.choice([(100, 0), (100, 1), (300, 0), (50, 0)]) if kind != "deaf" else (100, draw.choice([1, 1, 2, 3]))
        # Macroticks of 1.375 us, of 5, or of 25: the fewer a cycle has, the sooner its skew is found.
        macros, slots, slot, action, more = draw.choice([(3636, 91, 24, 4, 3), *2 * [(1000, 60, 12, 2, 3)], *5 * [(200, 30, 4, 1, 1)]])
        action += draw.choice([0, 0, 1, more])
        self.values = {
            **PRODUCTION, "gMacroPerCycle": macros, "gNumberOfStaticSlots": slots, "gdStaticSlot": slot, "gdActionPointOffset": action,
            "gdNIT": macros - slots * slot, "gOffsetCorrectionStart": macros - macros // 36, CHANGE: change,
            "pOffsetCorrectionOut": draw.choice([127, 127, 200, 300]), "pClusterDriftDamping": draw.choice([0, 1, 2, 2, 2, 4]),
            "pDelayCompensation": compensation, "xRateBound": bound, "xDelayError": error * MILLION}
        if kind == "deaf":
            # A rate limit that suffices for little more than the range, or for much.
            self.values["pRateCorrectionOut"] = draw.choice([41, 41, 42, 45, 601])
        self.share = KINDS[kind]
        if liars is None:
            # Where all frames of a sender are lost, nobody trusts what is left beside an arbitrary node.
            liars = 0 if kind == "deaf" else draw.choice([0, 0, 0, 0, 0, 0, 1, 2] if self.share > 0.1 else [0, 0, 1, 1, 1, 2])
        self.doubles, count = draw.randrange(6, most_doubles + 1), draw.randrange(*((2, 9), (2, 9), (5, 11))[liars]) + liars
        if kind == "silent":
            self.share, liars = draw.choice([0.05, 0.5, 1, 1]), draw.choice([1, 1, 2])
            count = draw.randrange(*((3, 9), (6, 11))[liars - 1]) + liars
        if joining:
            # What follows lies further apart: with room for it, as a rule, and others enough beside it.
            count = min(12, count + draw.choice([1, 2, 2, 3]))
            self.values["gdActionPointOffset"] = action + more if action < slot - 2 - more else action
            self.values["pOffsetCorrectionOut"] = draw.choice([127, 200, 300, 300, 450])
        if kind == "eight":
            count = 8
        channels = draw.choice(["A", "AB", "AB", "mixed"]) if kind != "crossed" else draw.choice(["AB", "AB", "AB", "mixed"])
        slots = sorted(draw.sample(range(1, 20), count))
        # Of each node its key slot and its channels; all share channel A.
        nodes = {node: (slots[node - 1] if node <= count else None, draw.choice(["A", "AB"]) if channels == "mixed" else channels)
                 for node in range(1, count + 1 + (draw.choice([1, 1, 2]) if kind == "deaf" else draw.random() < 0.3))}
        super().__init__(nodes, draw.sample(range(1, count + 1), liars))
        self.references = self.draw_joins(joining)
        self.links = [link for one in self.senders for link in self.links_of(one)]
        # Of each double cycle how far a delay differs in it, at most.
        self.differs = [0] * self.doubles
        self.clocks(change)
        self.losses()

    def draw_joins(self, most):
        """Nodes that join, early or late, as long as others stay that outweigh the arbitrary ones; of each its reference."""
        draw = self.draw
        for node in draw.sample(self.receivers, min(len(self.receivers), draw.randint(1, most))) if most else ():
            if node not in self.senders or len(self.staying) > (1, 3, 6)[len(self.arbitrary)]:
                self.joins[node] = draw.choice([draw.randrange(self.doubles), draw.randrange(self.doubles - 4)])
        return {node: draw.choice(self.staying) for node in sorted(self.joins)}

    def flutter(self, since):
        """That of the double cycles from one on."""
        return max(self.differs[since:])

    def numbers(self, since):
        """Those for the flutter from a double cycle on."""
        return Numbers(self.values, max(slot for slot, _ in self.nodes.values() if slot), self.flutter(since), bool(self.arbitrary))

    def links_of(self, one):
        return [(one, two, channel) for two in self.receivers if two != one for channel in "AB"
                if channel in self.nodes[one][1] and channel in self.nodes[two][1]]

    def params(self):
        return ("".join(f"param,{name},{value},,\n" for name, value in self.values.items())
                + "".join(f"node,{node},{slot or ''},{channels},{int(bool(slot))}\n" for node, (slot, channels) in self.nodes.items()))

    def clocks(self, change):
        """The drift: oscillators, and delays that may differ in the cycles of a double cycle."""
        draw, values, lines = self.draw, self.values, [f"doubles,{self.doubles},,,,\n"]
        # Of each node its microticks, and of each link its delays: of cycle 0, and of others that have another one.
        self.lengths, self.delays = {}, {}
        bound, micros = values["xRateBound"], values["pMicroPerCycle"]
        apart, is_settled = draw.choice([1, 8, 40]) * MILLION, draw.random() < 0.7
        for node in self.receivers:
            length = MILLION + draw.choice([-bound, bound, draw.randint(-bound, bound)])
            rate = -round(micros * (length - MILLION) / length) if is_settled else 0
            start = draw.randrange(apart)
            lines += [f"start,{node},{start},{rate},,\n"] if node not in self.joins else []
            for cycle in range(2 * self.doubles if change else 1):
                lines.append(f"length,{node},{cycle},{length},,\n")
                self.lengths.setdefault(node, []).append(length)
                length = max(MILLION - bound, min(MILLION + bound, length + draw.randint(-change, change)))
        middle, error = values["pDelayCompensation"] * MILLION, values["xDelayError"]
        most = draw.choice([0, 0, 0, 100_000, 900_000])
        for one, two, channel in self.links:
            delay = max(0, middle + draw.choice([-error, error, draw.randint(-error, error)]))
            lines.append(f"delay,{one},{two},{channel},0,{delay}\n")
            self.delays[one, two, channel] = {0: delay}
            for double in range(self.doubles) if most and draw.random() < 0.3 else ():
                other = max(0, middle - error, min(middle + error, delay + draw.randint(-most, most)))
                self.differs[double] = max(self.differs[double], abs(other - delay))
                self.delays[one, two, channel][2 * double + 1] = other
                lines += [f"delay,{one},{two},{channel},{2 * double + 1},{other}\n"]
                lines += [f"delay,{one},{two},{channel},{2 * double + 2},{delay}\n"] if double + 1 < self.doubles else []
        self.drift = "".join(lines)

    def losses(self):
        """The script: what arbitrary nodes say, and which frames are lost, or come damaged."""
        draw = self.draw
        # Whoever takes part by joining trusts nothing where all is lost: mostly that is before.
        last = min(self.joins.values()) if self.joins and self.share > 0.1 and draw.random() < 0.8 else self.doubles
        for double in self.with_losses():
            self.lost |= set(self.lost_in(double)) if double <= last else set()
        rows = sorted(self.lost)
        share = draw.choice([0, 0.1, 0.1, 0.5]) if self.kind != "deaf" else 0
        self.damaged = {at for at in rows if draw.random() < share}
        self.script = "".join(f"arbitrary,{node},,,,,\n" for node in sorted(self.arbitrary))
        self.script += "".join(f"join,{self.joins[node]},{node},{reference},,,\n" for node, reference in self.references.items())
        self.script += "".join(
            f"{DAMAGED},{cycle},{one},{two},{channel},{draw.randrange(64)},\n" if (cycle, one, two, channel) in self.damaged
            else f"lose,{cycle},{one},{two},{channel},,\n" for cycle, one, two, channel in rows)
        rows = [row for node in sorted(self.arbitrary) for row in self.told_by(node)]
        self.said = {(int(cycle), int(one), int(two), channel) for _, cycle, one, two, channel, *_ in (row.split(",") for row in rows)}
        self.script += "".join(rows)

    def lost_in(self, double):
        """What is lost in a double cycle, or, where a burst crosses into the next one, from its odd cycle on."""
        draw, share = self.draw, self.share
        cycles = [2 * double + odd for odd in draw.choice([(0,), (1,), (0, 1), (0, 1)])]
        if self.kind == "crossed":
            pairs = [link[:2] for link in self.links if draw.random() < 0.2]
            return [(2 * double + (channel == "B"), *pair, channel) for *pair, channel in self.links if tuple(pair) in pairs]
        if self.kind in BURSTS:
            cycles = [cycle for cycle in (2 * double + after for after in BURSTS[self.kind]) if cycle < 2 * self.doubles]
        if self.kind == "one":
            pairs = [draw.choice(self.links)[:2]] if self.links else []
        elif self.kind == "few":
            most, are_alike = draw.choice([1, 1, 2, 2, 3]), draw.random() < 0.5
            pairs = [(one, two) for two in self.receivers
                     for one in draw.sample(self.senders, min(len(self.senders), most if are_alike else draw.randint(0, most)))]
        elif self.kind == "eight":
            pairs = self.two_missed()
        elif self.kind == "around":
            pairs = self.lost_around(double)
        else:
            pairs = [link[:2] for link in self.links]
        return [(cycle, *link) for link in self.links if link[:2] in pairs for cycle in cycles if share in (0, 1) or draw.random() < share]

    def two_missed(self):
        """Pairs by which each node misses two senders: those behind it, or any two."""
        draw, is_turning, pairs = self.draw, self.draw.random() < 0.5, set()
        for place, two in enumerate(self.receivers):
            others = [one for one in self.senders if one != two]
            missed = [others[(place + more) % len(others)] for more in (0, 1)] if is_turning else draw.sample(others, 2)
            pairs.update((one, two) for one in missed)
        return pairs

    def lost_around(self, double):
        """Pairs around nodes that join: all to one that has not begun, but mostly its reference's, and else one sender or two; all from one
        before it takes part, and else some; and one pair of any."""
        draw = self.draw
        pairs = {draw.choice(self.links)[:2]} if self.links else set()
        for node, listens in self.joins.items():
            others = [one for one in self.senders if one != node]
            if double > listens:
                pairs.update((one, node) for one in draw.sample(others, min(len(others), draw.choice([0, 1, 1, 2]))))
            else:
                pairs.update((one, node) for one in others if one != self.references[node] or draw.random() < 0.1)
            pairs.update((node, two) for two in self.receivers if double < listens + 3 or draw.random() < 0.2)
        return pairs

    def told_by(self, node):
        """What an arbitrary node says where it is not silent: where it may be, for ever, in some double cycles or in those in which frames
        are lost, in one cycle of each, to some nodes, or on one channel in even cycles and the other one in odd ones."""
        rows, draw = self.said_by(node), self.draw
        if self.kind != "silent":
            return rows
        how, half = draw.choice(["ever", "ever", "doubles", "losing", "losing", "cycle", "some", "channels"]), draw.randrange(2)
        some = {"doubles": {double for double in range(self.doubles) if draw.random() < 0.5}, "losing": {at[0] // 2 for at in self.lost},
                "some": {two for two in self.receivers if draw.random() < 0.5}}.get(how, ())

        def is_silent(cycle, two, channel):
            return (how == "ever" or cycle // 2 in some and how in ("doubles", "losing") or how == "cycle" and cycle % 2 == half
                    or how == "some" and two in some or how == "channels" and (channel == "B") != cycle % 2)

        return [row for row in rows for _, cycle, _, two, channel, *_ in [row.split(",")] if not is_silent(int(cycle), int(two), channel)]

    def said_by(self, node):
        """What an arbitrary node says: early to some and late to others, else in the odd cycle than in the even one; now and then nothing,
        something at any time, or bytes that are no frame of it."""
        draw, most = self.draw, self.draw.choice([2, 10, 40, 100]) * MILLION
        shifts = {two: [draw.choice([-most, most]) for _ in (0, 1)] for two in self.receivers}
        for cycle in range(2 * self.doubles):
            for _, two, channel in self.links_of(node):
                chance = draw.random()
                shift = shifts[two][cycle % 2] if chance < 0.8 else draw.randint(-10 * most, 10 * most)
                if chance < 0.95:
                    yield f"say,{cycle},{node},{two},{channel},{shift},{'300504E0E1CAFE00057B3E86' if chance > 0.92 else ''}\n"

    def with_losses(self):
        """Double cycles in which some are."""
        draw, found, double = self.draw, [], self.draw.randrange(4)
        if draw.random() < (0.5 if self.kind == "eight" else 0.15):
            return range(self.doubles)
        if self.kind == "around" and self.joins:
            around = {listens + after for listens in self.joins.values() for after in range(-1, 6)}
            return [double for double in range(self.doubles) if double in around and draw.random() < 0.7]
        while double < self.doubles:
            found += range(double, min(self.doubles, double + draw.choice([1, 1, 1, 2, 2, 3])))
            double = found[-1] + draw.choice([2, 3, 3, 4, 6])
        return found


def cliques(doubles=20):
    """The files of four nodes of which two never hear the third and two never the first, with fast clocks here and slow ones there: each
    midpoint is of three values, and the two camps go apart while all are active."""
    nodes = "".join(f"node,{node},{node},A,{int(node < 3)}\n" for node in range(1, 5))
    drift = f"doubles,{doubles},,,,\n" + "".join(
        f"start,{node},{start},{rate},,\nlength,{node},0,{length},,\n"
        for node, start, rate, length in ((1, 0, 17, 999_902), (2, 0, 16, 999_903), (3, 20_002_398, -16, 1_000_097),
                                          (4, 20_002_398, -17, 1_000_098)))
    drift += "".join(f"delay,{one},{two},A,0,{12 * MILLION if two > 2 and two != one else 2 * MILLION}\n"
                     for one in range(1, 5) for two in range(1, 5) if one != two)
    script = "".join(f"lose,{cycle},{one},{two},A,,\n" for cycle in range(2 * doubles) for one, two in ((1, 3), (1, 4), (3, 1), (3, 2)))
    return "".join(f"param,{name},{value},,\n" for name, value in PRODUCTION.items()) + nodes, drift, script


# ---- what a run shows


class Series:
    """The text of flexray-series PARAMS DRIFT SCRIPT sharp: the rows of cycles by their columns, and the lines behind them."""

    def __init__(self, text):
        head, *rows = [line.split(",") for line in text.splitlines()]
        self.columns, self.cycles, self.lines = head, [], {}
        for row in rows:
            if row[0].isdigit():
                self.cycles.append(dict(zip(head, row)))
            else:
                self.lines[row[0]] = row[1:]

    def skew(self, double):
        return max(int(self.cycles[2 * double + odd]["skew"]) for odd in (0, 1))

    @property
    def synced(self):
        """The first double cycle in sharp sync, if there is one."""
        found = self.lines["sharp synced"][0]
        return None if found == "-" else int(found)


def rows_of(run, trace):
    """The rows of `flexray trace` by cycle and node: start, length, rate and offset term, and state."""
    rows = [{} for _ in range(2 * run.doubles)]
    for line in trace.splitlines():
        kind, *fields = line.split(",")
        if kind == "cycle":
            rows[int(fields[0])][int(fields[1])] = *map(int, fields[2:6]), fields[6]
    return rows


def in_sharp_sync(run, rows):
    """The double cycles in sharp sync by the numbers for the flutter from each on."""
    micros, bound = run.values["pMicroPerCycle"], run.values["xRateBound"]
    for double in range(run.doubles):
        numbers, (even, odd) = run.numbers(double), [list(of_cycle.values()) for of_cycle in rows[2 * double:2 * double + 2]]
        starts, lengths = [row[0] for row in even], [(micros + row[2]) * row[1] for row in even]
        if (all(row[4] == "active" for row in even + odd) and max(starts) - min(starts) <= numbers.starts
                and max(lengths) - min(lengths) <= numbers.lengths
                and all(abs(length - micros * MILLION) <= micros * bound for length in lengths)):
            yield double


def begins(run, rows, node):
    """Whether a node that joins begins to follow: by two frames of its reference on one channel, with a first rate in its limit and a
    first start that is not below 0."""
    v, double, reference = run.values, run.joins[node], run.references[node]
    cycles, slot = (2 * double, 2 * double + 1), run.nodes[reference][0]
    macrotick, wait = (slot - 1) * v["gdStaticSlot"] + v["gdActionPointOffset"], v["pDelayCompensation"]

    def passed(rate):
        return macrotick * (v["pMicroPerCycle"] + rate) // v["gMacroPerCycle"]

    for channel in "AB":
        delays = run.delays.get((reference, node, channel))
        if delays and not any((cycle, reference, node, channel) in run.lost for cycle in cycles):
            came = [start + passed(rate) * length + delays.get(cycle, delays[0])
                    for cycle in cycles for start, length, rate, _, _ in [rows[cycle][reference]]]
            even, odd = (run.lengths[node][min(cycle, len(run.lengths[node]) - 1)] for cycle in cycles)
            rate = (came[1] - came[0]) // even - v["pMicroPerCycle"]
            return abs(rate) <= v["pRateCorrectionOut"] and came[1] + (v["pMicroPerCycle"] + rate - passed(rate) - wait) * odd >= 0
    return False


def following(run, rows):
    """The double cycles in which a node that joins follows; and those in which one perhaps does, as it never has a row, and may have
    stopped in its first one already."""
    surely, perhaps = set(), set()
    for node, double in run.joins.items():
        if double < run.doubles and begins(run, rows, node):
            surely.add(double + 1)
            is_seen = double + 3 < run.doubles and node in rows[2 * double + 6]
            (surely if is_seen else perhaps).add(double + 2)
    return surely, perhaps - surely


def exact_skews(run, rows):
    """The skew of each cycle over all its macroticks, by the rows of its trace, of the nodes that run."""
    macros, turn, micros = (run.values[name] for name in ("gMacroPerCycle", "gOffsetCorrectionStart", "pMicroPerCycle"))
    found = []
    for cycle, nodes in enumerate(rows):
        instants = []
        for start, length, rate, offset, state in nodes.values():
            if state == "halt":
                continue
            long, last = micros + rate, turn if cycle % 2 else macros - 1
            base = turn * long // macros
            instants.append([start + length * (at * long // macros if at <= last else
                                               base + (at - turn) * (long + offset - base) // (macros - turn)) for at in range(macros)])
        found.append(max((max(at) - min(at) for at in zip(*instants)), default=0))
    return found


def hold(run, series, trace, is_exact=False):
    """Holds what the series of a run tells against what is reckoned here, and each double cycle's skew against its number. All is of the
    double cycles from the first in sharp sync on, and of the whole run where there is none. What does not fit ends in AssertionError.
    Hands back whether the run is covered through losses, how many double cycles were held, in how many of them frames are lost, and the
    greatest share of its number that a skew had."""
    rows, heard = rows_of(run, trace), [run.heard(double) for double in range(run.doubles)]
    surely, perhaps = following(run, rows)
    synced = [double for double in in_sharp_sync(run, rows) if double not in surely]
    first = series.synced
    before = [double for double in synced if first is None or double < first]
    assert perhaps.issuperset(before) and (first is None or first in synced), (first, synced, perhaps)
    since = first or 0
    numbers, later = run.numbers(since), heard[since:]
    apart, reach = numbers.by([one.kinds for one in later], [double - since for double in run.joins.values()])
    deaf = [bool(run.lacking(double)) and not run.joins for double in range(since, run.doubles)]
    is_covered = run.outweighs() and run.bears(since) and numbers.follows(deaf) and numbers.hold(reach)
    lost = [double for double, one in enumerate(later, since) if not one.is_whole]
    told = series.lines["lost"]
    assert int(series.lines["flutter"][0]) == numbers.flutter, (series.lines["flutter"], numbers.flutter)
    kind = "beside" if run.arbitrary else "alone"
    assert series.lines["sharp"][:2] == [str(numbers.precision), kind], (series.lines["sharp"], numbers.precision, kind)
    wanted = [str(len(lost)), str(lost[-1]) if lost else "-",
              *([str(max(apart)), str(since + apart.index(max(apart)))] if is_covered else "--")]
    assert told[:4] == wanted, (told, wanted)
    if "bound" in series.columns:
        hold_columns(series, heard, {double: bound for double, bound in enumerate(apart, since) if is_covered and first is not None})
    if is_exact:
        skews = exact_skews(run, rows)
        assert skews == [int(row["skew"]) for row in series.cycles], "the skew of the trace is another one"
    count = losing = 0
    share = 0.0
    if is_covered and first is not None:
        lasts = numbers.first_rates if run.joins else None if numbers.is_held and not lost else numbers.lasts
        assert series.lines["sharp synced"][1] == ("on" if lasts is None else str(lasts)), series.lines["sharp synced"]
        end = run.doubles if lasts is None else min(run.doubles, first + lasts)
        share = keep(series, first, apart[:end - first])
        count, losing = end - first, sum(not one.is_whole for one in heard[first:end])
        assert end < run.doubles or all(row[4] == "active" for cycle in rows[2 * first:] for row in cycle.values()), "a node is not active"
        left = [node for node, double in run.joins.items() if first <= double < min(end - 2, run.doubles - 3)
                and node not in rows[2 * double + 6] and begins(run, rows, node)]
        assert not left, f"nodes that began to follow were left behind: {left}"
    return is_covered, count, losing, share


def keep(series, first, bounds):
    """Holds the skew of double cycles from the first one on against these numbers, and hands back the greatest share of one."""
    share = 0.0
    for double, bound in enumerate(bounds, first):
        assert series.skew(double) <= bound, f"double cycle {double}: {series.skew(double)} is above {bound}"
        share = max(share, series.skew(double) / bound)
    return share


def hold_columns(series, heard, bounds):
    """The columns of what is heard, and of the numbers, of the double cycles that have one."""
    for at, row in enumerate(series.cycles):
        assert row["heard"] == heard[at // 2].word, (at, row["heard"], heard[at // 2])
        assert row["bound"] == str(bounds.get(at // 2, "-")), (at, row["bound"], bounds)
