"""Clocks of correct nodes that hear each other, with a node whose offset correction may be wrong: plain Python and whole
numbers, after docs/PROTOCOL.md. Without such a node the rows are those of `flexray trace`, which a test holds; with it they
are those of a network that the program, whose nodes keep the rules, never runs. An analyzer sees them all.

Every node is a coldstart node on both channels and hears all others that send, without delay where none is given; no frame is lost
where that is not said.
"""
import os
import sys

sys.path.insert(0, os.path.join(os.path.dirname(os.path.dirname(os.path.dirname(os.path.realpath(__file__)))), "python"))

from flexlab.captures.frames import crc  # noqa: E402
from observe_peer import midpoint  # noqa: E402

MILLION = 1_000_000
# A cluster with a cycle of 5 ms, a macrotick of 1 us and a microtick of 25 ns, whose oscillators lie within 200 ppm and do
# not change, and the least damping that the checks take.
VALUES = {
    "gMacroPerCycle": 5000, "pMicroPerCycle": 200000, "gNumberOfStaticSlots": 160, "gdStaticSlot": 30,
    "gdActionPointOffset": 7, "gdNIT": 200, "gPayloadLengthStatic": 0, "gOffsetCorrectionStart": 4900,
    "gMaxWithoutClockCorrectionPassive": 2, "gMaxWithoutClockCorrectionFatal": 4, "pAllowHaltDueToClock": 1,
    "pAllowPassiveToActive": 2, "pClusterDriftDamping": 3, "pOffsetCorrectionOut": 254, "pRateCorrectionOut": 81,
    "pDelayCompensation": 0, "xRateBound": 200, "xDelayError": 0,
}
# By how much a length changes from one cycle to the next, at most.
CHANGE = "xChangeBound"
VALUES[CHANGE] = 0
# A cluster of production shape.
PRODUCTION = {
    **VALUES, "gMacroPerCycle": 3636, "gNumberOfStaticSlots": 91, "gdStaticSlot": 24, "gdActionPointOffset": 4, "gdNIT": 1452,
    "gPayloadLengthStatic": 8, "gOffsetCorrectionStart": 3536, "gMaxWithoutClockCorrectionPassive": 4, "gMaxWithoutClockCorrectionFatal": 8,
    "pOffsetCorrectionOut": 127, "pRateCorrectionOut": 601, "pClusterDriftDamping": 2, "pDelayCompensation": 7, "xRateBound": 100,
    "xDelayError": 5 * MILLION}


class Network:
    """A run of so many double cycles: of each node its key slot, the ticks of its microtick, and those of its first start; `delays`
    has those of a node's frames at another one."""

    def __init__(self, slots, lengths, starts, doubles, values=None, delays=None):
        self.values, self.doubles, self.delays = values or VALUES, doubles, delays or {}
        self.slots, self.lengths, self.starts = slots, lengths, starts
        self.nodes = range(len(slots))
        self.macros, self.micros = self.values["gMacroPerCycle"], self.values["pMicroPerCycle"]
        first = self.values["gdActionPointOffset"]
        self.actions = [(slot - 1) * self.values["gdStaticSlot"] + first for slot in slots]

    def params(self):
        return ("".join(f"param,{name},{value},,\n" for name, value in self.values.items())
                + "".join(f"node,{node + 1},{slot},AB,1\n" for node, slot in enumerate(self.slots)))

    def drift(self):
        return f"doubles,{self.doubles},,,,\n" + "".join(
            f"length,{node + 1},0,{self.lengths[node]},,\nstart,{node + 1},{self.starts[node]},0,,\n" for node in self.nodes) + "".join(
            f"delay,{one + 1},{other + 1},{channel},0,{ticks}\n" for (one, other), ticks in self.delays.items() for channel in "AB")

    def position(self, macrotick, rate):
        return macrotick * (self.micros + rate) // self.macros

    def instant(self, node, row):
        """When a node sends in a cycle."""
        start, length, rate, _ = row
        return start + self.position(self.actions[node], rate) * length

    def deviations(self, cycle, rows, senders, later, hears):
        """Of each node what it measures of the others that send and that it hears, by their numbers, in a cycle."""
        sent, late = [self.instant(node, row) for node, row in enumerate(rows)], self.values["pDelayCompensation"]
        return [{other: (sent[other] + self.delays.get((other, node), 0) + later(cycle, other, node) - start) // length
                 - self.position(self.actions[other], rate) - late for other in senders if other != node and hears(cycle, other, node)}
                for node, (start, length, rate, _) in enumerate(rows)]

    def rate_after(self, rate, values):
        """The next rate term: the sum is taken toward 0 by the damping, and cut to its limit."""
        total, damping, limit = rate + midpoint(values), self.values["pClusterDriftDamping"], self.values["pRateCorrectionOut"]
        total = max(total - damping, 0) if total > 0 else min(total + damping, 0)
        return max(-limit, min(limit, total))

    def rows(self, wrong=lambda double, node: 0, wrong_rate=lambda double, node: 0, sends=lambda double, node: True,
             later=lambda cycle, sender, receiver: 0, hears=lambda cycle, sender, receiver: True):
        """Of each cycle the rows (start, tick length, rate term, offset term) of all nodes; the offset term of a node, or the rate term
        that it computes, is so many microticks too great in a double cycle as `wrong` and `wrong_rate` say; a node that does not
        send is not heard in that double cycle. A frame comes so many ticks later in a cycle as `later` says, and where `hears` says so
        it does not."""
        found, starts, rates, limit = [], list(self.starts), [0] * len(self.slots), self.values["pOffsetCorrectionOut"]
        for double in range(self.doubles):
            even = [(starts[node], self.lengths[node], rates[node], 0) for node in self.nodes]
            starts = [start + (self.micros + rate) * length for start, length, rate, _ in even]
            senders = [node for node in self.nodes if sends(double, node)]
            odd = [(starts[node], self.lengths[node], rates[node], 0) for node in self.nodes]
            before, behind = (self.deviations(2 * double + at, rows, senders, later, hears) for at, rows in enumerate((even, odd)))
            terms = [max(-limit, min(limit, midpoint([0, *behind[node].values()]) + wrong(double, node))) for node in self.nodes]
            found += [even, [(starts[node], self.lengths[node], rates[node], terms[node]) for node in self.nodes]]
            starts = [start + (self.micros + rate + term) * length for start, length, rate, term in found[-1]]
            rates = [self.rate_after(rates[node], [0] + [behind[node][other] - early for other, early in before[node].items()
                                                         if other in behind[node]]) + wrong_rate(double, node) for node in self.nodes]
        return found

    def head(self, node, cycle, kept={}):
        """The header bytes of its sync frame, in hexadecimal digits."""
        first = 3 << 18 | self.slots[node] << 7 | self.values["gPayloadLengthStatic"]
        if first not in kept:
            kept[first] = 1 << 37 | first << 17 | crc(11, 0x385, 0x01A, first, 20) << 6
        return (kept[first] | cycle % 64).to_bytes(5, "big").hex().upper()

    def log(self, draw, rows, unit, width=0, drift=0, sends=lambda double, node: True, off=None):
        """The log of an analyzer that misses nothing, with a clock of which it states a drift of so many ppm, and that is as much off or
        less, or by `off`: delays are the same for all, but for so many ticks that it states as their range, and a stamp is of the unit in
        which the frame came. A node has no frames there in a double cycle in which it does not send."""
        low, zero = MILLION, draw.randrange(10**9, 10**10)
        if off is None:
            off = draw.randint(-drift, drift) if drift else 0
        later = {(node, channel): low + draw.randint(0, width) for node in self.nodes for channel in "AB"}
        seen = sorted((self.instant(node, row) + later[node, channel] + zero, node, channel, cycle)
                      for cycle, of_cycle in enumerate(rows) for node, row in enumerate(of_cycle) if sends(cycle // 2, node)
                      for channel in "AB")
        return (f"unit,{unit},,,\ndrift,{drift},,,\ndelay,,,{low},{low + width}\njitter,0,,,\nwhole,,,,\n"
                + "".join(f"head,{at * (MILLION + off) // MILLION // unit},{channel},{self.head(node, cycle)},\n"
                          for at, node, channel, cycle in seen))


def near_oscillators(draw, doubles):
    """A network in which an offset term of node 1 that is a microtick too great is told soon, seen to 1 ns: its oscillator is
    16 ppm faster than that of node 2, and that one as much faster than that of node 3. Their cycles lie some 3.2 microticks
    apart, which the damping of 3 takes for no difference mostly, so the rate term of node 1 is now 0, now 1. The action
    points lie at fifths of the cycle: see bench/figures.md."""
    middle = MILLION + draw.randrange(-150, 151)
    return Network([34, 150, 84], [middle - 16, middle, middle + 16], [draw.randrange(3 * MILLION) for _ in range(3)], doubles)


def any_oscillators(draw, doubles):
    """A network of 3 to 8 nodes with oscillators and slots as they come."""
    count = draw.randrange(3, 9)
    return Network(draw.sample(range(1, VALUES["gNumberOfStaticSlots"] + 1), count),
                   [MILLION + draw.randrange(-200, 201) for _ in range(count)],
                   [draw.randrange(3 * MILLION) for _ in range(count)], doubles)


def production(draw, doubles, counts=(2, 9), changes=(0, 0, 1), dampings=(0, 1, 2, 2, 3), delays=((7, 5), (7, 5), (4, 2), (3, 1))):
    """A network of production shape: all start near each other, and delays lie around their compensation, as far as is stated; `delays`
    has pairs of both, in microticks, of which one is taken."""
    count, (compensation, error) = draw.randrange(*counts), draw.choice(delays)
    values = {**PRODUCTION, "pClusterDriftDamping": draw.choice(dampings), "pDelayCompensation": compensation,
              "xDelayError": error * MILLION, CHANGE: draw.choice(changes)}
    bound, near = values["xRateBound"], draw.choice([1, 8, 40]) * MILLION
    delays = {(one, other): compensation * MILLION + draw.choice([-1, 1]) * draw.choice([error * MILLION, draw.randrange(error * MILLION)])
              for one in range(count) for other in range(count) if one != other} if error else {}
    return Network(draw.sample(range(1, 21), count), [MILLION + draw.randint(-bound, bound) for _ in range(count)],
                   [draw.randrange(1, near) for _ in range(count)], doubles, values, delays)
