"""What `flexray observe` tells of logs: beside another program that reckons it, and beside the runs that gave the logs.

Random runs (nodes that join, frames that are lost, an arbitrary node) are seen by random observers, and logs have what
is no sighting: damaged and foreign frames, counts that jump, the stamps of a second clock, a silence. No interval may
miss the truth.

FLEXRAY_OBSERVE_RUNS is how many runs are taken (40).
"""
import os
import random
import unittest
from fractions import Fraction

import clocks_peer as clocks
import observe_peer as peer
from bench import REPOSITORY, Bench, example_call
from flexlab.captures.frames import crc, frame_bytes

RUNS = int(os.environ.get("FLEXRAY_OBSERVE_RUNS", "40"))
MILLION = peer.MILLION
EXAMPLE = os.path.join(REPOSITORY, "examples", "observe")
FIXED = {"gMaxWithoutClockCorrectionPassive": 2, "gMaxWithoutClockCorrectionFatal": 4, "pAllowHaltDueToClock": 1,
         "pAllowPassiveToActive": 2, "pOffsetCorrectionOut": 200, "pRateCorrectionOut": 60, "pDelayCompensation": 0}


def header_bytes(slot, words, sync, startup, count):
    """The five bytes of a header with its CRC, whatever the indicators are."""
    first = sync << 19 | startup << 18 | slot << 7 | words
    return (1 << 37 | first << 17 | crc(11, 0x385, 0x01A, first, 20) << 6 | count % 64).to_bytes(5, "big")


def instants(values, cycle, row):
    """When a node has each macrotick of a cycle, by its row."""
    start, length, rate, term = row
    macros, turn = values["gMacroPerCycle"], values["gOffsetCorrectionStart"]
    micros = values["pMicroPerCycle"] + rate
    last, base = turn if cycle % 2 else macros - 1, turn * micros // macros
    return [start + length * (at * micros // macros if at <= last else
                              base + (at - turn) * (micros + term - base) // (macros - turn))
            for at in range(macros)]


def skew(values, cycle, rows):
    """The greatest distance of a macrotick of some nodes, by their rows."""
    return max(max(at) - min(at) for at in zip(*(instants(values, cycle, row) for row in rows)))


class Cluster:
    """A random cluster and its run: parameters, drift and script as files, and the rows of its trace."""

    def __init__(self, draw, is_long, is_fit=False):
        """`is_fit`: with parameters with which many double cycles can be judged."""
        self.doubles = draw.randrange(24, 40) if is_long else draw.randrange(2, 7)
        macros = 400 if is_long else draw.choice([400, 500, 1000])
        slot, count, further = max(20, macros // 20), draw.randrange(1, 5 if is_long else 7), draw.randrange(0, 4)
        static = min(count + further, (macros - 40) // slot)
        nit = macros - static * slot
        self.values = {
            "gMacroPerCycle": macros, "pMicroPerCycle": macros * draw.choice([20, 40]), "gNumberOfStaticSlots": static,
            "gdStaticSlot": slot, "gdActionPointOffset": draw.randrange(3, 9), "gdNIT": nit,
            "gPayloadLengthStatic": draw.randrange(6), "gOffsetCorrectionStart": macros - nit // 2,
            "pClusterDriftDamping": draw.randrange(4), "xRateBound": draw.choice([50, 200, 1000]),
            "xChangeBound": draw.choice([0, 0, 1]), "xDelayError": draw.choice([0, 500000]), **FIXED}
        if is_fit:
            self.values.update(pMicroPerCycle=40 * macros, gdActionPointOffset=draw.randrange(8, 11), xRateBound=draw.choice([50, 200]),
                               pClusterDriftDamping=4, xDelayError=draw.choice([0, 200000]), pOffsetCorrectionOut=400)
        slots = draw.sample(range(1, static + 1), static)
        # Of each node its number, key slot, channels, and whether it is a coldstart node.
        self.nodes = [(node, slots.pop(), draw.choice(["A", "AB", "AB"]), draw.randrange(2))
                      for node in range(1, count + 1)]
        self.free = slots[1:]
        self.further = [(slots[0], draw.randrange(1, count + 1))] if slots else []
        self.arbitrary = count if count > 2 and draw.random() < 0.5 else None
        self.joins = [count - 1] if count > 3 and draw.random() < 0.4 else []
        self.correct = [node for node in self.nodes if node[0] != self.arbitrary]
        # A node that sends no sync frames.
        self.silent = [f"node,{count + 1},,{draw.choice(['A', 'AB'])},0\n"] if draw.random() < 0.4 else []

    def params(self):
        return ("".join(f"param,{name},{value},,\n" for name, value in self.values.items())
                + "".join(f"node,{number},{key},{channels},{cold}\n" for number, key, channels, cold in self.nodes)
                + "".join(self.silent) + "".join(f"slot,{slot},{node},0,2\n" for slot, node in self.further))

    def pairs(self):
        return [(one[0], two[0], channel) for one in self.correct for two in self.correct for channel in "AB"
                if one != two and channel in one[2] and channel in two[2]]

    def drift(self, draw):
        bound, change, lines = self.values["xRateBound"], self.values["xChangeBound"], [f"doubles,{self.doubles},,,,\n"]
        # Some clocks begin far apart.
        latest = draw.choice([3, 3, 3, 300]) * MILLION
        for node, _, _, _ in self.correct:
            length = MILLION - bound + draw.randrange(2 * bound + 1)
            for cycle in range(2 * self.doubles if change else 1):
                lines.append(f"length,{node},{cycle},{length},,\n")
                length = max(MILLION - bound, min(MILLION + bound, length + draw.randrange(-change, change + 1)))
            if node not in self.joins:
                lines.append(f"start,{node},{draw.randrange(1, latest)},0,,\n")
        lines += [f"delay,{one},{two},{channel},0,{draw.randrange(self.values['xDelayError'] + 1)}\n"
                  for one, two, channel in self.pairs()]
        return "".join(lines)

    def script(self, draw):
        lines = [f"arbitrary,{self.arbitrary},,,,,\n"] if self.arbitrary else []
        lines += [f"join,{draw.randrange(2)},{node},1,,,\n" for node in self.joins]
        pairs, self.lost = self.pairs(), set()
        if pairs and draw.random() < 0.4:
            for cycle in sorted(draw.sample(range(2 * self.doubles), 2)):
                self.lost.add((cycle, *draw.choice(pairs)))
        return "".join(lines + ["lose,{},{},{},{},,\n".format(*lost) for lost in sorted(self.lost)])

    def missed(self, double, node):
        """How many correct senders a node misses there: no channel carries the frames of both cycles."""
        own = dict((number, channels) for number, _, channels, _ in self.nodes)
        return sum(all(any((2 * double + odd, number, node, channel) in self.lost for odd in (0, 1)) for channel in channels
                       if channel in own[node]) for number, _, channels, _ in self.correct if number != node)

    @property
    def most_missed(self):
        return max(self.missed(double, node) for double in range(self.doubles) for node, _, _, _ in self.correct)

    @property
    def is_outweighing(self):
        """Whether the correct sync nodes that do not join outweigh arbitrary ones."""
        return len(self.correct) - len(self.joins) >= (3 if self.arbitrary else 1)

    def take(self, trace):
        """The rows (start, tick length, rate term, offset term, state) of a trace, by cycle and node."""
        fields = [line.split(",") for line in trace.splitlines() if line.startswith("cycle,")]
        self.rows = {(int(row[1]), int(row[2])): (*map(int, row[3:7]), row[7]) for row in fields}

    def instant(self, cycle, node, macrotick):
        """When a node has a macrotick before the offset correction."""
        start, length, rate, _, _ = self.rows[cycle, node]
        return start + macrotick * (self.values["pMicroPerCycle"] + rate) // self.values["gMacroPerCycle"] * length

    def skew(self, cycle, nodes):
        """The greatest distance of a macrotick of these nodes."""
        return skew(self.values, cycle, [self.rows[cycle, node][:4] for node in nodes])


class Analyzer:
    """A random observer of a cluster: its clock, the delays to it, and the log that it writes."""

    def __init__(self, draw, cluster):
        self.draw, self.cluster = draw, cluster
        self.unit = draw.choice([40_000, 400_000, 4_000_000, 40_000_000, 123_457])
        self.drift, self.error = draw.choice([0, 20, 50, 1000]), draw.choice([0, 0, 30_000])
        self.jitter, self.first = draw.choice([None, 0, 20_000]), draw.randrange(3)
        self.rates, self.zero, self.limits, self.middle = [self.any_rate()], draw.randrange(10**12, 10**13), {}, {}
        for node, _, channels, _ in cluster.nodes:
            for channel in channels:
                low = draw.randrange(10 * MILLION)
                self.limits[node, channel] = low, low + draw.choice([0, 100_000, 5 * MILLION])
                self.middle[node, channel] = draw.randint(*self.limits[node, channel])

    def any_rate(self):
        return 1 + Fraction(self.draw.randrange(-1000, 1001) * self.drift, 1000 * MILLION)

    def stamp(self, instant, rate, zero):
        """A stamp that an instant may have: the reading lies within a unit and the error behind it."""
        reading = rate * instant + zero
        return self.draw.randint(-((self.unit + self.error - reading) // self.unit), reading // self.unit)

    def delay(self, node, channel):
        low, high = self.limits[node, channel]
        if self.jitter is None:
            return self.draw.randint(low, high)
        off = self.draw.randint(-(self.jitter // 2), self.jitter // 2)
        return min(max(self.middle[node, channel] + off, low), high)

    def entries(self, rate, zero, channels, lost):
        """(stamp, kind, channel, bytes) of what correct nodes send, by a clock."""
        found, cluster = [], self.cluster
        words, action = cluster.values["gPayloadLengthStatic"], cluster.values["gdActionPointOffset"]
        for node, key, has, cold in cluster.correct:
            macrotick = (key - 1) * cluster.values["gdStaticSlot"] + action
            for cycle in range(self.first, 2 * cluster.doubles):
                for channel in set(has) & set(channels):
                    row = cluster.rows.get((cycle, node))
                    if row is None or row[4] != "active" or self.draw.random() < lost:
                        continue
                    stamp = self.stamp(cluster.instant(cycle, node, macrotick) + self.delay(node, channel), rate, zero)
                    if self.draw.random() < 0.3:
                        payload = self.draw.randbytes(2 * words)
                        data = frame_bytes(channel, key, cycle, payload, True, True, cold == 1)
                        found.append((stamp, "frame", channel, data))
                    else:
                        found.append((stamp, "head", channel, header_bytes(key, words, 1, cold, cycle)))
        return sorted(found, key=lambda entry: entry[0])

    def foreign(self, entry):
        """An entry beside another one that is no sighting: damaged, of another form, of another sender, or of a count
        that jumps."""
        draw, cluster = self.draw, self.cluster
        stamp, kind, channel, data = entry
        words, static = cluster.values["gPayloadLengthStatic"], cluster.values["gNumberOfStaticSlots"]
        _, key, _, cold = draw.choice(cluster.correct)
        of_arbitrary = [node[1] for node in cluster.nodes if node[0] == cluster.arbitrary]
        further = [slot for slot, _ in cluster.further]
        slots = [static + 1 + draw.randrange(1000)] + cluster.free + further + 4 * of_arbitrary
        made = [
            (kind, data[:3] + bytes([data[3] ^ 1 << draw.randrange(8)]) + data[4:]),
            (kind, data[:-1]),
            *(("head", header_bytes(draw.choice(slots), words, 1, 0, draw.randrange(64))) for _ in range(3)),
            ("head", header_bytes(key, words + 1, 1, cold, draw.randrange(64))),
            ("head", header_bytes(key, words, 0, 0, draw.randrange(64))),
            ("head", header_bytes(key, words, 1, 1 - cold, draw.randrange(64))),
        ]
        if len(self.rates) == 1:
            # By the stamp of another clock such a count may be one that comes in time.
            made.append(("head", data[:4] + bytes([data[4] & 0xC0 | (data[4] + draw.randrange(1, 64)) & 0x3F])))
        kind, data = draw.choice(made)
        return stamp, kind, channel, data

    def others(self, entries):
        """Entries beside these that the cluster may send and that are no sync frames: in its further slots, in static slots
        of which the parameters say nothing, and in the dynamic segment."""
        draw, cluster, found = self.draw, self.cluster, []
        words, static = cluster.values["gPayloadLengthStatic"], cluster.values["gNumberOfStaticSlots"]
        channels = {node: has for node, _, has, _ in cluster.nodes}
        for stamp, _, channel, data in entries:
            made = [(slot, words, 0) for slot, node in cluster.further if channel in channels[node]]
            made += [(slot, draw.randrange(128), draw.randrange(2)) for slot in [static + 1 + draw.randrange(1000), *cluster.free[:1]]]
            found += [(stamp, "head", channel, header_bytes(slot, long, sync, 0, data[4])) for slot, long, sync in made
                      if draw.random() < 0.2]
        return found

    def irregular(self, entry):
        """An entry beside another one, in the slot of a node that does not send it so, and the fault that it is but for its
        cycle: node, kind, channel, stamp, slot."""
        draw, cluster, stamp = self.draw, self.cluster, entry[0]
        words = cluster.values["gPayloadLengthStatic"]
        channels = {node: has for node, _, has, _ in cluster.nodes}
        slots = [(node, slot, 1, cold) for node, slot, _, cold in cluster.nodes]
        node, slot, sync, cold = draw.choice(slots + [(node, slot, 0, 0) for slot, node in cluster.further])
        channel, count = draw.choice("AB"), draw.randrange(64)
        if channel not in channels[node] and draw.random() < 0.5:
            form = words, sync, cold
        elif sync:
            form = draw.choice([(words + 1, 1, cold), (words, 0, 0), (words, 1, 1 - cold)])
        else:
            form = draw.choice([(words + 1, 0, 0), (words, 1, 0), (words, 1, 1)])
        if draw.random() < 0.3:
            data = frame_bytes(channel, slot, count, draw.randbytes(2 * form[0]), True, form[1] == 1, form[2] == 1)
            made = stamp, "frame", channel, data
        else:
            made = stamp, "head", channel, header_bytes(slot, *form, count)
        return made, (node, "form" if channel in channels[node] else "stranger", channel, stamp, slot)

    def see(self, is_long):
        """The entries of a log."""
        draw, lost, channels = self.draw, self.draw.choice([0, 0, 0.1, 0.5]), "AB"
        if draw.random() < 0.2:
            # Another analyzer's clock, of which the zero lies more than half a cycle off, has the stamps of channel B.
            channels, far = "A", draw.choice([-1, 1]) * draw.randrange(60, 2000)
            self.rates.append(self.any_rate())
            zero = self.zero + far * self.cluster.values["pMicroPerCycle"] * MILLION // 100
            found = self.entries(self.rates[1], zero, "B", lost)
        else:
            found = []
        found = sorted(found + self.entries(self.rates[0], self.zero, channels, lost), key=lambda entry: entry[0])
        if is_long and len(found) > 8 and draw.random() < 0.7:
            # A silence of more than thirty cycles.
            begin = found[draw.randrange(1, len(found) // 3)][0]
            silent = 32 * self.cluster.values["pMicroPerCycle"] * MILLION // self.unit
            found = [entry for entry in found if not begin < entry[0] <= begin + silent]
        found += [self.foreign(draw.choice(found)) for _ in range(len(found) // 8)]
        return sorted(found, key=lambda entry: entry[0])

    def log(self, entries, *stated):
        """A log of these entries; `stated` are more records of its head."""
        lines = [*stated, f"unit,{self.unit},,,\ndrift,{self.drift},,,\n"]
        lines += [f"error,{self.error},,,\n"] if self.error else []
        lines += [f"jitter,{self.jitter},,,\n"] if self.jitter is not None else []
        lines += [f"arbitrary,{self.cluster.arbitrary},,,\n"] if self.cluster.arbitrary else []
        delays = [f"delay,{node},{channel},{low},{high}\n" for (node, channel), (low, high) in self.limits.items()]
        # Limits of no node in particular are those of the node that has none.
        last = "delay,,,{},{}\n".format(*list(self.limits.values())[-1])
        lines += [*delays[:-1], last] if self.draw.random() < 0.5 else delays
        lines += [f"{kind},{stamp},{channel},{data.hex().upper()},\n" for stamp, kind, channel, data in entries]
        return "".join(lines)


def rows_of(text, *words):
    """The rows of a text, or those that begin with one of these words."""
    rows = [line.split(",") for line in text.splitlines()]
    return [row for row in rows if row[0] in words] if words else rows


class Told(Bench):
    """The texts."""

    def told(self, log, status=0):
        """What the program tells, which is what the other program reckons."""
        self.write("log.csv", log)
        ended, text, line = self.flexray("observe", "params.csv", "log.csv")
        self.assertEqual(ended, status, line)
        if status:
            self.assertEqual(text, "")
            return line
        params, log = peer.Params(peer.rows_of(self.path("params.csv"))), peer.Log(peer.rows_of(self.path("log.csv")))
        self.assertEqual(text, peer.text_of(peer.observe(params, log)))
        self.verdict_fits(text)
        return text

    def verdict_fits(self, text):
        """The last line says what the rows before it say, whatever it rests on; and of a term that is missed by more senders than the log
        states, or in no way, there is a contradiction, and of no other one."""
        cycles, faults, (head,) = rows_of(text, "cycle"), rows_of(text, "fault"), rows_of(text, "precision")
        (sync,), (verdict,) = (rows_of(text, word) for word in ("sync", "verdict"))
        judged, doubles, spread = int(sync[3]), int(sync[4]), [int(row[1]) for row in rows_of(text, "spread")]
        self.assertEqual(2 * doubles, len(cycles))
        # Those that are judged have a row of their own numbers.
        self.assertEqual(spread, sorted(set(spread)))
        rows = [row for row in cycles if int(row[1]) // 2 in spread]
        is_through = bool(spread) and spread == list(range(spread[0], int(cycles[-1][1]) // 2 + 1))
        self.assertEqual(sync[1:3], [str(spread[0]), "judged"] if spread else ["-", "open"])
        self.assertEqual(2 * judged, len(rows))
        told = [row[1:4] for row in rows_of(text, "missed") if row[4] == "-" or int(row[4]) > int(head[3])]
        self.assertEqual(sorted(told), sorted(row[1:4] for row in faults if row[3] in ("offset", "rate")))
        self.assertEqual(sync[5] == "-", judged == doubles and doubles > 0)
        over, words = [row for row in cycles if row[5] == "over"], [row[5] for row in rows]
        if faults:
            wanted = ["no", faults[0][1], faults[0][3], faults[0][2]]
        elif over:
            wanted = ["over", over[0][1], over[0][3], str(len(over))]
        elif not rows:
            wanted = ["open", *(sync[5:] if sync[5] != "-" else ())]
        elif is_through and set(words[:-1]) == {"within"}:
            wanted = ["within", rows[0][1], rows[-2][1]]
        else:
            wanted = ["partly", rows[0][1], rows[-1][1], *map(str, (words.count("within"), words.count("open"), judged, doubles))]
        self.assertEqual(verdict[1:], wanted + [""] * (7 - len(wanted)))


class Observed(Told):
    """The texts, and the intervals in them."""

    def run_of(self, draw, is_long=False, is_fit=False):
        """A cluster with the rows of its trace."""
        cluster = Cluster(draw, is_long, is_fit)
        self.write("params.csv", cluster.params())
        self.write("drift.csv", cluster.drift(draw))
        self.write("script.csv", cluster.script(draw))
        status, trace, line = self.flexray("trace", "params.csv", "drift.csv", "script.csv")
        self.assertEqual((status, line), (0, ""))
        cluster.take(trace)
        return cluster

    def hold(self, cluster, rates, text):
        """Holds each interval of a text against the trace, and hands back how many there are."""
        fields, held, senders = rows_of(text), 0, {}
        for row in fields:
            if row[0] == "node":
                senders.setdefault(int(row[1]), []).append(int(row[2]))
        for row in fields:
            if row[0] == "cycle":
                cycle, nodes = int(row[1]), senders.get(int(row[1]) // 2, [])
                self.assertEqual(int(row[2]), len(nodes))
                if nodes:
                    self.between(row, row[3], cluster.skew(cycle, nodes), row[4])
                    held += 1
            elif row[0] == "node":
                held += self.hold_node(cluster, rates, row)
        return held

    def hold_node(self, cluster, rates, row):
        double, node = int(row[1]), int(row[2])
        for cycle in (2 * double, 2 * double + 1):
            _, length, rate, _, _ = cluster.rows[cycle, node]
            long = (cluster.values["pMicroPerCycle"] + rate) * length
            # Which clock it was is not told where there were two.
            self.assertTrue(any(int(row[3]) <= clock * long <= int(row[4]) for clock in rates), row)
        if row[5] != "-":
            self.between(row, row[5], cluster.rows[2 * double + 1, node][3], row[6])
        return 2 if row[5] == "-" else 3

    def between(self, row, low, number, high):
        self.assertLessEqual(int(low), number, row)
        if high != "-":
            self.assertLessEqual(number, int(high), row)

    def test_the_worked_row(self):
        for name in ("params.csv", "log.csv"):
            with open(os.path.join(EXAMPLE, name), encoding="ascii") as file:
                self.write(name, file.read())
        self.assertEqual(self.told(self.read("log.csv")), example_call("observe/observe").text.decode())

    def test_random_runs(self):
        tally, said, held = dict.fromkeys(peer.KINDS, 0), dict.fromkeys(("within", "over", "open"), 0), 0
        for seed in range(RUNS):
            with self.subTest(seed=seed):
                draw = random.Random(seed)
                is_long = seed % 5 == 0
                cluster = self.run_of(draw, is_long)
                analyzer = Analyzer(draw, cluster)
                text = self.told(analyzer.log(analyzer.see(is_long)))
                held += self.hold(cluster, analyzer.rates, text)
                log, cycles = rows_of(text, "log", "cycles")
                for at, kind in enumerate(tally, 1):
                    tally[kind] += int(log[at])
                for at, word in enumerate(said, 3):
                    said[word] += int(cycles[at])
        if RUNS != 40:
            print(f"{RUNS} runs, {held} intervals, entries {tally}, cycles {said}")
        # None of it was left out by chance.
        self.assertGreater(min(*tally.values(), *said.values()), 0, (tally, said))
        self.assertGreater(held, 20 * RUNS)

    def seen(self, seed, is_long=False):
        """A run and its log without anything beside it: each frame of correct nodes on both channels, by one clock."""
        draw = random.Random(seed)
        cluster = self.run_of(draw, is_long)
        analyzer = Analyzer(draw, cluster)
        return cluster, analyzer, analyzer.entries(analyzer.rates[0], analyzer.zero, "AB", 0)

    def test_a_log_that_is_not_sorted(self):
        _, analyzer, entries = self.seen(1)
        at = next(at for at in range(1, len(entries)) if entries[at - 1][0] < entries[at][0])
        entries[at - 1:at + 1] = entries[at], entries[at - 1]
        record = len(analyzer.log([]).splitlines()) + at + 1
        self.assertEqual(self.told(analyzer.log(entries), status=5), f"log: record {record}: Role")

    def test_a_count_that_jumps(self):
        """From some frame on all counts are off: from there on all are strays, and what was told before stays true."""
        for seed in range(8):
            cluster, analyzer, entries = self.seen(seed)
            at = len(entries) // 2
            off = random.Random(seed).randrange(1, 64)
            jumped = [(stamp, "head", channel, data[:4] + bytes([data[4] & 0xC0 | (data[4] + off) & 0x3F]))
                      for stamp, _, channel, data in entries[at:]]
            text = self.told(analyzer.log(entries[:at] + jumped))
            self.assertIn(f"\nlog,{at},0,0,0,{len(entries) - at},0,\n", text)
            self.assertGreater(self.hold(cluster, analyzer.rates, text), 0)

    def test_a_silence(self):
        cluster, analyzer, entries = self.seen(3, is_long=True)
        begin, long = entries[len(entries) // 8][0], cluster.values["pMicroPerCycle"] * MILLION // analyzer.unit
        before, behind = ([entry for entry in entries if is_there(entry[0])] for is_there in (
            lambda stamp: stamp <= begin, lambda stamp: stamp > begin + 31 * long))
        text = self.told(analyzer.log(before + behind))
        self.assertIn(f"\nlog,{len(before)},0,0,0,0,{len(behind)},\n", text)
        self.assertGreater(len(behind), 0)
        self.assertGreater(self.hold(cluster, analyzer.rates, text), 0)

    def test_two_clocks_that_are_near(self):
        """Where every node has both channels and no frame is lost, two clocks of which the zeros lie further apart than
        stamps and delays leave open place no node: nothing is within."""
        tried = 0
        for seed in range(40):
            cluster, analyzer, entries = self.seen(seed)
            if all(channels == "AB" for _, _, channels, _ in cluster.correct):
                tried += 1
                room = 2 * (analyzer.unit + analyzer.error + 20 * MILLION)
                entries = [(stamp + (-(-room // analyzer.unit) if channel == "B" else 0), kind, channel, data)
                           for stamp, kind, channel, data in entries]
                text = self.told(analyzer.log(sorted(entries, key=lambda entry: entry[0])))
                self.assertNotIn("node,", text)
                self.assertEqual(rows_of(text, "cycles")[0][3:5], ["0", "0"])
        self.assertGreater(tried, 3)

    def test_a_log_without_entries(self):
        _, analyzer, _ = self.seen(2)
        text = self.told(analyzer.log([]))
        self.assertIn("\nlog,0,0,0,0,0,0,\n", text)
        self.assertTrue(text.endswith("sync,-,open,0,0,unseen,-,-\ncycles,-,-,0,0,0,,\nverdict,open,unseen,-,-,,,\n"))

    # ---- verdicts

    def correct_rows(self, cluster, double):
        """The rows of both cycles of all correct nodes, and of those that are silent, where each has both and is active."""
        nodes = [node for node, _, _, _ in cluster.correct] + [len(cluster.nodes) + 1] * bool(cluster.silent)
        rows = [[cluster.rows.get((2 * double + odd, node)) for node in nodes] for odd in (0, 1)]
        return rows if all(row and row[4] == "active" for of_cycle in rows for row in of_cycle) else None

    def lies_in(self, cluster, double, known):
        """Whether starts and even lengths of a double cycle lie no further apart than that, and no further beyond their range."""
        values, rows = cluster.values, self.correct_rows(cluster, double)
        if rows is None:
            return False
        starts, micros, bound = [row[0] for row in rows[0]], values["pMicroPerCycle"], values["xRateBound"]
        lengths = [(micros + rate) * length for _, length, rate, _, _ in rows[0]]
        return (max(starts) - min(starts) <= known.starts and max(lengths) - min(lengths) <= known.lengths
                and min(lengths) >= micros * (MILLION - bound) - known.beyond and max(lengths) <= micros * (MILLION + bound) + known.beyond)

    def test_lawful_runs_are_not_contradicted(self):
        """Whatever was lost on the bus, as is stated, or on the way to the observer, of what correct nodes sent: and each number that a
        double cycle is judged by is so, and that of senders that a node missed."""
        told = dict.fromkeys(("within", "open", "judged", "stated", "known", "missed", "whole", "untimely", "sure", "premise", "timely"), 0)
        for seed in range(RUNS):
            with self.subTest(seed=seed):
                draw = random.Random(seed)
                cluster = self.run_of(draw, seed % 5 == 0, seed % 4 > 0)
                analyzer, lost = Analyzer(draw, cluster), draw.choice([0, 0, 0.1, 0.5])
                entries = analyzer.entries(analyzer.rates[0], analyzer.zero, "AB", lost)
                entries = sorted(entries + analyzer.others(entries), key=lambda entry: entry[0])
                stated = [word for word in ("whole,,,,\n" * (not lost), draw.choice(["", "flutter,0,,,\n"])) if word]
                missed = draw.choice([cluster.most_missed, cluster.most_missed, 0])
                stated += [f"lost,{missed},,,\n"] * (missed > 0)
                # The cycle of the run that has number 0 in the log.
                first = min((cycle for (cycle, _), row in cluster.rows.items() if cycle >= analyzer.first), default=0)
                zero, synced = first - first % 64, self.bounds_of(analyzer, stated).synced()
                there = [double for double in range(zero // 2, cluster.doubles) if self.lies_in(cluster, double, synced)]
                if there and draw.random() < 0.5:
                    stated.append(f"since,{2 * draw.choice(there) - zero},,,\n")
                    told["stated"] += 1
                text = self.told(analyzer.log(entries, *stated))
                faults = rows_of(text, "fault")
                # A small cluster whose clocks lie far apart can send when a log does not take it for timely.
                told["untimely"] += any(row[3] == "cycle" for row in faults)
                kinds = {row[3] for row in faults}
                self.assertEqual(kinds & {"channels", "limit", "correction", "twice", *peer.IRREGULAR}, set())
                numbers, sync, verdict = rows_of(text, "numbers", "sync", "verdict")
                if cluster.is_outweighing and cluster.most_missed <= missed:
                    self.assertEqual(kinds - {"cycle"}, set())
                    if not kinds:
                        told["known"] += self.are_so(cluster, text, zero)
                        told["missed"] += len(rows_of(text, "missed"))
                    if numbers[1] == "sure" and self.is_near(cluster, first // 2):
                        self.assertEqual(faults, [])
                        told["timely"] += 1
                for word in (numbers[1], sync[2], verdict[1]):
                    told[word] = told.get(word, 0) + 1
                told["whole"] += not lost
        if RUNS != 40:
            print(f"{RUNS} lawful runs: {told}")
        self.assertGreater(min(told[word] for word in ("within", "open", "judged", "stated", "known", "timely")), 0, told)

    def bounds_of(self, analyzer, stated):
        """The bounds of a log of its own and the run's parameters."""
        return peer.Bounds(peer.Params(peer.rows_of(self.path("params.csv"))),
                           peer.Log([line.split(",") for line in analyzer.log([], *stated).splitlines()]))

    def is_near(self, cluster, first):
        """Whether starts lie no further apart than offset corrections reach, from a double cycle on."""
        most = cluster.values["pOffsetCorrectionOut"] * (MILLION - cluster.values["xRateBound"])
        for double in range(first, cluster.doubles):
            starts = [row[0] for (cycle, _), row in cluster.rows.items() if cycle == 2 * double]
            if starts and max(starts) - min(starts) > most:
                return False
        return True

    def are_so(self, cluster, text, zero):
        """Holds the numbers that double cycles are judged by, and what nodes missed, against the run; hands back how many are judged."""
        for row in rows_of(text, "spread"):
            number, *known, apart = map(int, row[1:6])
            double = number + zero // 2
            self.assertTrue(self.lies_in(cluster, double, peer.Known(*known)), row)
            for odd, rows in enumerate(self.correct_rows(cluster, double)):
                self.assertLessEqual(skew(cluster.values, odd, [row[:4] for row in rows]), apart, row)
        for row in rows_of(text, "missed"):
            self.assertLessEqual(int(row[4]), cluster.missed((int(row[1]) + zero) // 2, int(row[2])), row)
        return len(rows_of(text, "spread"))

    def exact(self, seed):
        """A run of correct nodes that miss no frame, seen by an exact analyzer that misses nothing, from its first cycle on; None
        where the run is none."""
        draw = random.Random(seed)
        cluster = self.run_of(draw, is_long=True, is_fit=True)
        if cluster.arbitrary or cluster.joins or cluster.silent or len(cluster.nodes) < 3 or cluster.most_missed:
            return None
        analyzer = Analyzer(draw, cluster)
        analyzer.unit, analyzer.error, analyzer.jitter, analyzer.drift, analyzer.first = 40_000, 0, 0, 20, 0
        analyzer.rates = [analyzer.any_rate()]
        analyzer.limits = {way: (low, low + 40_000) for way, (low, _) in analyzer.limits.items()}
        analyzer.middle = {way: low for way, (low, _) in analyzer.limits.items()}
        return cluster, analyzer

    def exact_log(self, analyzer, change=None):
        """Its log; `change` makes other bytes of those of an entry by its slot and cycle, or none."""
        cluster, entries = analyzer.cluster, []
        long = cluster.values["pMicroPerCycle"] * MILLION
        for stamp, kind, channel, data in analyzer.entries(analyzer.rates[0], analyzer.zero, "AB", 0):
            cycle = (stamp * analyzer.unit - analyzer.zero) // long
            if change:
                data = change((data[0] & 7) << 8 | data[1], cycle, data[:5])
            if data:
                entries.append((stamp, "head" if len(data) == 5 else kind, channel, data))
        return analyzer.log(entries, "whole,,,,\n")

    def test_planted_faults(self):
        """What a node does against the rules from some cycle on is told of that node, in that cycle."""
        tried = dict.fromkeys(("offset", "correction", "rate", "limit", "missing", "cycle"), 0)
        for seed in range(1000, 1000 + max(60, RUNS // 4)):
            found = None if all(tried.values()) and RUNS == 40 else self.exact(seed)
            if found is None:
                continue
            cluster, analyzer = found
            text = self.told(self.exact_log(analyzer))
            sync, = rows_of(text, "sync")
            self.assertEqual(rows_of(text, "fault"), [])
            if sync[1] == "-" or int(sync[1]) > 3 or sync[5] != "-":
                continue
            lawful, draw = dict(cluster.rows), random.Random(seed)
            for kind in tried:
                cluster.rows = dict(lawful)
                node, slot, _, _ = draw.choice(cluster.correct)
                cycle = 2 * draw.randrange(5, cluster.doubles - 3) + 1
                with self.subTest(seed=seed, kind=kind):
                    change = self.plant(kind, cluster, node, slot, cycle)
                    faults = rows_of(self.told(self.exact_log(analyzer, change)), "fault")
                    self.assertEqual(faults[0][3], kind)
                    wanted = cycle + (kind in ("limit", "missing"))
                    if kind == "cycle":
                        # The first frame that has another count is of the first slot; it is told behind the last sighting.
                        node = min(cluster.correct, key=lambda it: it[1])[0]
                        self.assertEqual(faults[0][6], str((cycle + 8) % 64))
                    self.assertEqual(faults[0][1:3], [str(wanted), str(node)])
                    tried[kind] += 1
        if RUNS != 40:
            print(f"planted faults told: {tried}")
        self.assertGreater(min(tried.values()), 0, tried)

    def plant(self, kind, cluster, node, slot, cycle):
        """Plants a fault of a node at the end of an odd cycle, and hands back what becomes of the bytes of entries."""
        if kind == "missing":
            return lambda number, at, data: None if number == slot and at > cycle else data
        if kind == "cycle":
            return lambda number, at, data: data if at <= cycle else data[:4] + bytes([data[4] & 0xC0 | (data[4] + 7) & 63])
        for at in range(cycle, 2 * cluster.doubles):
            start, length, rate, term, state = cluster.rows[at, node]
            if at == cycle:
                term += {"offset": 12, "correction": 500}.get(kind, 0)
            elif kind == "rate":
                rate += 40
            elif kind == "limit":
                length += length // 50
            cluster.rows[at, node] = start, length, rate, term, state
            if (at + 1, node) in cluster.rows:
                long = cluster.values["pMicroPerCycle"] + rate + (term if at % 2 else 0)
                cluster.rows[at + 1, node] = start + long * length, *cluster.rows[at + 1, node][1:]
        return None

    def test_irregular_frames(self):
        """What is in the slot of a node that does not send it so is told behind the first sighting, up to a silence, with the
        number of the sighting before it; and no other rows change but those of entries, sync and verdict."""
        told = dict.fromkeys(("stranger", "form", "further", "before", "behind", "arbitrary"), 0)
        for seed in range(3000, 3000 + RUNS):
            cluster, analyzer, entries = self.seen(seed, is_long=seed % 5 == 0)
            lawful = rows_of(self.told(analyzer.log(entries)))
            counts = next(row for row in lawful if row[0] == "log")
            if any(row[0] == "fault" for row in lawful) or counts[1:] != [str(len(entries)), *"00000", ""]:
                # A small cluster that is not in sync.
                continue
            with self.subTest(seed=seed):
                silence = 30 * cluster.values["pMicroPerCycle"] * MILLION // analyzer.unit
                ends = [(entries[0][0] - 1,), (entries[-1][0] + silence,), (entries[-1][0] + silence + 1,)]
                made = [analyzer.irregular(analyzer.draw.choice(entries)) for _ in range(1 + len(entries) // 8)]
                made += [analyzer.irregular(end) for end in ends]
                both = sorted([(entry, None) for entry in entries] + made, key=lambda one: one[0][0])
                wanted, number, tally = [], None, [len(entries), 0, 0, 0, 0, 0]
                for (stamp, _, _, data), fault in both:
                    if fault is None:
                        count = data[4] & 63
                        number = count if number is None else number + (count - number + 32) % 64 - 32
                    elif fault[0] == cluster.arbitrary:
                        tally[2] += 1
                        told["arbitrary"] += 1
                    elif stamp == ends[2][0]:
                        tally[5] += 1
                        told["behind"] += 1
                    else:
                        tally[3] += 1
                        told["before"] += number is None
                        told["further"] += fault[4] in dict(cluster.further)
                        if number is not None:
                            told[fault[1]] += 1
                            wanted.append(["fault", *map(str, (number, *fault)), "-"])
                text = rows_of(self.told(analyzer.log([entry for entry, _ in both])))
                wanted.sort(key=lambda row: int(row[1]) // 2)
                self.assertEqual([row for row in text if row[0] == "fault"], wanted)
                self.assertEqual([row for row in text if row[0] == "log"], [["log", *map(str, tally), ""]])
                words = ("fault", "missed", "spread", "log", "sync", "verdict")
                self.assertEqual(*([row for row in rows if row[0] not in words] for rows in (text, lawful)))
                sync = next(row for row in text if row[0] == "sync")
                self.assertNotIn(sync[1], {str(int(row[1]) // 2) for row in wanted})
                first = wanted[0][1:4] if wanted else None
                self.assertEqual(text[-1][1:5], ["no", first[0], first[2], first[1]] if first else lawful[-1][1:5])
        self.assertGreater(min(told.values()), 0, told)

    def faults_of(self, network, draw, rows):
        """Cycle, node and kind of what is told of a network where stamps are of 1 ns and delays known to 1 ns."""
        found = rows_of(self.told(network.log(draw, rows, 40_000, 40_000)), "sync", "fault")
        self.assertIn(["sync", "judged"], [[row[0], row[2]] for row in found])
        return [(int(row[1]), row[2], row[3]) for row in found if row[0] == "fault"]

    def traced(self, network, more=""):
        """The rows that the program runs of it, with more rows of its drift file."""
        for name, text in (("params.csv", network.params()), ("drift.csv", network.drift() + more), ("script.csv", "")):
            self.write(name, text)
        status, trace, line = self.flexray("trace", "params.csv", "drift.csv", "script.csv")
        self.assertEqual((status, line), (0, ""))
        fields, count = rows_of(trace, "cycle"), len(network.slots)
        self.assertEqual({row[7] for row in fields}, {"active"})
        found = [tuple(map(int, row[3:7])) for row in fields]
        return [found[at:at + count] for at in range(0, len(found), count)]

    def test_one_microtick_too_many(self):
        """A node that corrects its offset by one microtick too many, in the network of bench/figures.md: it is told of this
        node in each double cycle behind which its rate term falls, which is one in five, and in no other one."""
        for seed in range(6):
            with self.subTest(seed=seed):
                draw = random.Random(seed)
                network = clocks.near_oscillators(draw, 24)
                lawful = network.rows()
                self.assertEqual(self.traced(network), lawful)
                self.assertEqual(self.faults_of(network, draw, lawful), [])
                begin = draw.randrange(8, 13)
                fall = next(double for double in range(begin, 24) if self.falls(lawful, double))
                # From some double cycle on; and once, where it is told and where it is not.
                for wrong in (range(begin, 23), [fall], [fall + 1]):
                    rows = network.rows(lambda double, node, wrong=wrong: int(node == 0 and double in wrong))
                    falls = [double for double in wrong if self.falls(rows, double)]
                    self.assertEqual(self.faults_of(network, draw, rows), [(2 * double + 1, "1", "offset") for double in falls])
                    self.assertEqual(falls[:1], [fall] if fall in wrong else [])
                self.assertLess(fall, begin + 5)

    def falls(self, rows, double):
        """Whether the rate term of the first node falls behind a double cycle."""
        return rows[2 * double][0][2] > rows[2 * double + 2][0][2]

    def test_five_microticks_too_many_or_too_few(self):
        """Of any node, and once: told of this node in its cycle."""
        for seed in range(20):
            with self.subTest(seed=seed):
                draw = random.Random(seed)
                network, begin = clocks.any_oscillators(draw, 16), draw.randrange(10, 14)
                wrong, error = draw.choice(network.nodes), draw.choice([-5, 5])
                self.write("params.csv", network.params())
                rows = network.rows(lambda double, node: error if (double, node) == (begin, wrong) else 0)
                self.assertEqual(self.faults_of(network, draw, rows), [(2 * begin + 1, str(wrong + 1), "offset")])

    def test_an_oscillator_beyond_its_limit(self):
        """From its last even cycle on it is 700 ppm slow, and 200 are allowed: no rate term makes cycles as long, which is told
        of this node in this cycle."""
        for seed in range(4):
            with self.subTest(seed=seed):
                draw = random.Random(seed)
                begin = draw.randrange(8, 13)
                network = clocks.any_oscillators(draw, begin + 1)
                node = draw.choice(network.nodes)
                rows = self.traced(network, f"length,{node + 1},{2 * begin},1000700,,\n")
                self.assertEqual(self.faults_of(network, draw, rows), [(2 * begin, str(node + 1), "limit")])

    def test_sync_that_is_stated_wrongly(self):
        """Where clocks begin further apart than the sharper bounds, and the log states that they are in sync, that is told."""
        found = set()
        for seed in range(2000, 2060):
            draw = random.Random(seed)
            cluster = self.run_of(draw, is_fit=True)
            analyzer = Analyzer(draw, cluster)
            analyzer.first, bounds = 0, self.bounds_of(analyzer, [])
            if bounds.heard and not bounds.unfit(bounds.synced()) and not cluster.joins and not self.lies_in(cluster, 0, bounds.synced()):
                entries = analyzer.entries(analyzer.rates[0], analyzer.zero, "AB", 0)
                text = self.told(analyzer.log(entries, "since,0,,,\n"))
                self.assertIn("\nsync,0,judged,", text)
                found.update(row[3] for row in rows_of(text, "fault"))
        self.assertTrue({"skew", "start"} <= found, found)

    def test_numbers_that_are_sure(self):
        """What a log states of its analyzer decides, too, and each statement that is wider makes it no surer."""
        told = {"sure": 0, "premise": 0}
        for seed in range(RUNS):
            _, analyzer, entries = self.seen(seed)
            words = []
            for analyzer.error in (0, 300_000_000, 600_000_000, 1_000_000_000):
                words.append(rows_of(self.told(analyzer.log(entries[:1])), "numbers")[0][1])
            self.assertEqual(words, sorted(words, reverse=True))
            for word in words:
                told[word] += 1
        self.assertGreater(min(told.values()), 0, told)

    def test_a_frame_that_is_there_twice(self):
        _, analyzer, entries = self.seen(4)
        stamp, kind, channel, data = entries[len(entries) // 2]
        again = entries[:len(entries) // 2 + 1] + [(stamp + 1, kind, channel, data)] + entries[len(entries) // 2 + 1:]
        fault = rows_of(self.told(analyzer.log(sorted(again, key=lambda entry: entry[0]))), "fault")[0]
        self.assertEqual(fault[3:7], ["twice", channel, str(stamp + 1), str(stamp)])


if __name__ == "__main__":
    unittest.main()
