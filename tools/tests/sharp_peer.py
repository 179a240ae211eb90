"""What `flexray run .. sharp` and `flexray-series .. sharp` say of a run, reckoned from its three files and its trace by plain Python
and whole numbers, after docs/PRECISION.md and docs/FORMATS.md: every line, but for the report behind those of `run .. sharp`. And small
random runs to hold the programs against it: oscillators, delays and losses go beyond what is allowed before the clocks are in sharp
sync, and behind.

DOUBLE is the first double cycle in which no node follows that is in sharp sync by the numbers for T(DOUBLE), where T(k) is the flutter of
the double cycles from k on. All that is told is of the double cycles from DOUBLE on, and of all where there is none.
"""
from clocks_peer import CHANGE, PRODUCTION
from losses_peer import CLEAN, DAMAGED, Follow, MEETING, MILLION, Numbers, Traffic

CHANNELS = "AB"


class Files(Traffic):
    """Three files, taken apart: of each node its key slot and its channels, of each microtick and each delay its steps, and what becomes
    of frames."""

    def __init__(self, params, drift, script):
        rows = [[line.split(",") for line in text.splitlines() if line] for text in (params, drift, script)]
        self.values = {row[1]: int(row[2]) for row in rows[0] if row[0] == "param"}
        nodes = {int(row[1]): (int(row[2]) if row[2] else None, row[3]) for row in rows[0] if row[0] == "node"}
        self.doubles = next(int(row[1]) for row in rows[1] if row[0] == "doubles")
        self.lengths, self.delays = {}, {}
        for row in rows[1]:
            if row[0] == "length":
                self.lengths.setdefault(int(row[1]), {})[int(row[2])] = int(row[3])
            elif row[0] == "delay":
                self.delays.setdefault((int(row[1]), int(row[2]), row[3]), {})[int(row[4])] = int(row[5])
        gone = {word: {(int(row[1]), int(row[2]), int(row[3]), row[4]) for row in rows[2] if row[0] == word} for word in ("lose", DAMAGED, "say")}
        super().__init__(nodes, (int(row[1]) for row in rows[2] if row[0] == "arbitrary"), gone["lose"] | gone[DAMAGED],
                         gone[DAMAGED], gone["say"])
        self.joins.update((int(row[2]), int(row[1])) for row in rows[2] if row[0] == "join" and int(row[2]) not in self.arbitrary)
        self.beside = bool(self.liars)

    def length(self, node, cycle):
        return at(self.lengths.get(node, {}), cycle, MILLION)

    def delay(self, link, cycle):
        return at(self.delays.get(link, {}), cycle, self.values["pDelayCompensation"] * MILLION)

    def pairs(self):
        """Each correct node with a key slot with each other correct one, in their order."""
        return [(one, two) for one in sorted(self.senders) for two in sorted(self.receivers) if one != two]

    def links(self):
        """The same by channels that both have."""
        return [(one, two, channel) for one, two in self.pairs() for channel in CHANNELS
                if channel in self.nodes[one][1] and channel in self.nodes[two][1]]

    def fluttering(self, since):
        """(ticks, double cycle, sender, receiver, channel) of the greatest flutter of the double cycles from one on: the last double cycle
        with it, and the first such delay in that one; None where no delay flutters."""
        found = [(abs(self.delay(link, 2 * double + 1) - self.delay(link, 2 * double)), double, link)
                 for link in self.links() for double in range(since, self.doubles)]
        ticks = max((ticks for ticks, _, _ in found), default=0)
        last = max((double for one, double, _ in found if one == ticks), default=None)
        return (ticks, last, *min(link for one, double, link in found if (one, double) == (ticks, last))) if ticks else None

    def flutter(self, since):
        """T of a double cycle."""
        return (self.fluttering(since) or (0,))[0]

    def gaps(self, since):
        """The first gap of each kind of the double cycles from one on, in their order, as their words."""
        v, first, end, found = self.values, 2 * since, 2 * self.doubles, []
        correct = sum(node not in self.joins for node in self.senders)
        liars = len(self.liars)
        if liars > 2 or correct < (1, 3, 6)[liars]:
            found.append(f"count {correct} {liars}")
        lengths = [(node, cycle, self.length(node, cycle)) for node in sorted(self.receivers) for cycle in range(first, end)]
        found += [f"length {node} {cycle} {ticks}" for node, cycle, ticks in lengths if abs(ticks - MILLION) > v["xRateBound"]][:1]
        # Into the first cycle that is asked of a change does not count.
        changes = [(node, cycle, ticks - self.length(node, cycle - 1)) for node, cycle, ticks in lengths if cycle > first]
        found += [f"change {node} {cycle} {ticks}" for node, cycle, ticks in changes if abs(ticks) > v[CHANGE]][:1]
        middle = v["pDelayCompensation"] * MILLION
        delays = [(*link, cycle, self.delay(link, cycle)) for link in self.links() for cycle in range(first, end)]
        found += [f"delay {one} {two} {channel} {cycle} {ticks}" for one, two, channel, cycle, ticks in delays
                  if abs(ticks - middle) > v["xDelayError"]][:1]
        return found + [f"link {one} {two} {double}" for one, two in self.pairs() for double in range(since, self.doubles)
                        if not self.has(True, (2 * double, 2 * double + 1), one, two)][:1]


def at(steps, cycle, before):
    """What steps give in a cycle."""
    known = [step for step in steps if step <= cycle]
    return steps[max(known)] if known else before


class Sharp(Numbers):
    """Those of a cluster for a flutter with both sides of each check, also of those of nodes that join, and how long first rates last."""

    def __init__(self, files, flutter):
        super().__init__(files.values, max(slot for slot, _ in files.nodes.values() if slot), flutter, files.beside)
        v = self.values
        self.reach = self.near(*Follow(self, MEETING if files.beside else CLEAN, self.starts, self.lengths).first)
        self.drift, self.first_rate = 2 * v["pMicroPerCycle"] * v["xRateBound"], flutter + self.change + self.longest

    def slots(self, number, apart):
        """Three checks from a number on, by how far action points lie apart: (number, left, right)."""
        v, macros = self.values, self.values["gMacroPerCycle"]
        clear, error, wait = v["pMicroPerCycle"] - v["pRateCorrectionOut"], v["xDelayError"], v["pDelayCompensation"]
        ahead, behind = v["gdActionPointOffset"], v["gdStaticSlot"] - v["gdActionPointOffset"]
        return [(number, v["pOffsetCorrectionOut"] * self.shortest, apart + self.arrival + self.longest),
                (number + 1, (ahead * clear - macros) * self.shortest, macros * (apart + error)),
                (number + 2, (behind * clear - macros) * self.shortest, macros * (apart + wait * MILLION + error))]

    def failing(self, joins):
        """The checks from 2 on that fail, as words."""
        limit = self.values["pRateCorrectionOut"] * self.shortest
        asked = [(2, limit, self.drift), *self.slots(3, self.near(self.starts, self.lengths))]
        if joins:
            asked += [(6, limit, self.drift + self.first_rate), *self.slots(7, self.reach)]
        return [f"check {number} {left} {right}" for number, left, right in asked if left < right or number in (5, 9) and left == right]


class Rows:
    """The rows of a trace: of each cycle those of the nodes that have one."""

    def __init__(self, files, trace):
        self.values, self.cycles = files.values, [{} for _ in range(2 * files.doubles)]
        for line in trace.splitlines():
            kind, *fields = line.split(",")
            if kind == "cycle":
                cycle, node, start, length, rate, offset = map(int, fields[:6])
                self.cycles[cycle][node] = start, length, rate, offset, fields[6]
        # A node that joins listens in a double cycle, follows in the next two, and takes part then.
        self.followed = {double + ago for node, double in files.joins.items() for ago in (1, 2)
                         if double + 3 >= files.doubles or any(node in rows for rows in self.cycles[2 * double + 6:])}

    def is_in_sync(self, double, starts, lengths, is_sharp):
        even, odd = self.cycles[2 * double:2 * double + 2]
        v = self.values
        micros, bound = v["pMicroPerCycle"], v["xRateBound"]
        for rows in (even,) if is_sharp else (even, odd):
            spans = [(micros + rate) * length for _, length, rate, _, _ in rows.values()]
            if max(spans) - min(spans) > lengths or not all(abs(span - micros * MILLION) <= micros * bound for span in spans):
                return False
        begins = [row[0] for row in even.values()]
        return max(begins) - min(begins) <= starts and all(row[4] == "active" for rows in (even, odd) for row in rows.values())

    def skews(self, cycle):
        """How far the macroticks of a cycle lie apart, of nodes that run."""
        v = self.values
        macros, turn, micros = v["gMacroPerCycle"], v["gOffsetCorrectionStart"], v["pMicroPerCycle"]
        instants = []
        for start, length, rate, offset, state in self.cycles[cycle].values():
            if state != "halt":
                long, last = micros + rate, turn if cycle % 2 else macros - 1
                base = turn * long // macros
                instants.append([start + length * (tick * long // macros if tick <= last else
                                                   base + (tick - turn) * (long + offset - base) // (macros - turn))
                                 for tick in range(macros)])
        return [max(one) - min(one) for one in zip(*instants)] or [0] * macros


class Texts:
    """What the programs print of a run."""

    def __init__(self, files, trace):
        self.files, self.rows, self.sharp = files, Rows(files, trace), {}
        self.doubles = range(files.doubles)
        self.flutters = [files.flutter(double) for double in self.doubles]
        self.double = next((double for double in self.doubles if double not in self.rows.followed
                            and self.is_in_sharp_sync(double, self.flutters[double])), None)
        self.since = self.double or 0
        self.numbers, gaps = self.numbers_for(self.flutters[self.since]), files.gaps(self.since)
        self.gaps = self.numbers.failing(bool(files.joins)) + gaps
        self.heard = [files.heard(double) for double in self.doubles]
        later = self.heard[self.since:]
        apart, reach = self.numbers.by([one.kinds for one in later], [double - self.since for double in files.joins.values()])
        deaf = [bool(files.lacking(double)) and not files.joins for double in range(self.since, files.doubles)]
        is_through = (files.bears(self.since) and self.numbers.follows(deaf) and self.numbers.hold(reach)
                      and all(gap.startswith("link") for gap in gaps))
        self.bounds = apart if is_through else []
        self.skews = [self.rows.skews(cycle) for cycle in range(2 * files.doubles)]
        self.older = older_numbers(files.values)
        self.synced = [self.rows.is_in_sync(double, *self.older[:2], False) for double in self.doubles]

    def numbers_for(self, flutter):
        if flutter not in self.sharp:
            self.sharp[flutter] = Sharp(self.files, flutter)
        return self.sharp[flutter]

    def is_in_sharp_sync(self, double, flutter):
        numbers = self.numbers_for(flutter)
        return self.rows.is_in_sync(double, numbers.starts, numbers.lengths, True)

    @property
    def lasts(self):
        """For how many double cycles it is promised."""
        if self.files.joins:
            return self.numbers.first_rates
        return None if not self.gaps and self.numbers.is_held else self.numbers.lasts

    def greatest(self, double):
        """(ticks, cycle, macrotick) of the greatest skew since a double cycle, the first with it."""
        places = [(max(skews), -cycle, -skews.index(max(skews))) for cycle, skews in enumerate(self.skews) if cycle >= 2 * double]
        ticks, cycle, macrotick = max(places)
        return ticks, -cycle, -macrotick

    def beyond(self, double, limit):
        """The same of the first skew above a limit, or None."""
        return next(((skew, cycle, tick) for cycle, skews in enumerate(self.skews) if cycle >= 2 * double
                     for tick, skew in enumerate(skews) if skew > limit), None)

    def lost(self):
        """(how many double cycles lose frames, the last one, the greatest number, the first double cycle with it)."""
        lost = [double for double in self.doubles if double >= self.since and not self.heard[double].is_whole]
        most = max(self.bounds, default=None)
        return len(lost), lost[-1] if lost else None, most, None if most is None else self.since + self.bounds.index(most)

    def series(self):
        """The text of `flexray-series PARAMS DRIFT SCRIPT sharp`."""
        lines = ["cycle,in_sync,skew,macrotick,sharp,heard,bound"]
        for cycle, skews in enumerate(self.skews):
            double = cycle // 2
            by = double if self.double is None else min(double, self.double)
            bound = self.bounds[double - self.double] if self.bounds and self.double is not None and double >= self.double else None
            lines.append(f"{cycle},{yes(self.synced[double])},{max(skews)},{skews.index(max(skews))},"
                         f"{yes(self.is_in_sharp_sync(double, self.flutters[by]))},{self.heard[double].word},{known(bound)}")
        first = next((double for double in self.doubles if self.synced[double] and double not in self.rows.followed), None)
        lines += [f"greatest,{commas(self.greatest(first) if first is not None else '---')},", f"synced,{self.synced_words()},,",
                  self.within_line("within", first, self.older[2])]
        place = self.files.fluttering(self.since)
        lines += [f"flutter,{self.flutters[self.since]},,,{flutter_words(place)}",
                  f"sharp,{self.numbers.precision},{'beside' if self.files.beside else 'alone'},,",
                  f"sharp covered,no,,,{self.gaps[0]}" if self.gaps else "sharp covered,yes,,,",
                  "sharp synced,-,,," if self.double is None else f"sharp synced,{self.double},{on(self.lasts)},,",
                  f"sharp greatest,{commas(self.greatest(self.double) if self.double is not None else '---')},",
                  self.within_line("sharp within", self.double, self.numbers.precision), f"lost,{commas(map(known, self.lost()))}"]
        return "".join(f"{line}\n" for line in lines)

    def within_line(self, name, first, limit):
        if first is None:
            return f"{name},-,,,"
        beyond = self.beyond(first, limit)
        return f"{name},yes,,," if beyond is None else f"{name},no,{beyond[1]},{beyond[2]},"

    def synced_words(self):
        out = next((double for double in reversed(self.doubles) if self.synced[double]), -1) + 1
        return "yes," if out == self.files.doubles else f"no,{out}"

    def report(self):
        """The lines in front of the report of `flexray run PARAMS DRIFT SCRIPT sharp`."""
        place, lost = self.files.fluttering(self.since), self.lost()
        lines = [f"sharp flutter {self.flutters[self.since]} {flutter_words(place)}".rstrip(),
                 f"sharp precision {self.numbers.precision} {'beside' if self.files.beside else 'alone'}",
                 *([f"sharp covered no {gap}" for gap in self.gaps] or ["sharp covered yes"]),
                 "sharp in sync no" if self.double is None else f"sharp in sync {self.double} {on(self.lasts)}"]
        if self.double is None:
            lines.append("sharp within -")
        else:
            lines.append("sharp greatest skew {} cycle {} macrotick {}".format(*self.greatest(self.double)))
            beyond = self.beyond(self.double, self.numbers.precision)
            lines.append("sharp within yes" if beyond is None else "sharp within no {} cycle {} macrotick {}".format(*beyond))
        lines.append(f"sharp lost {lost[0]} last {known(lost[1])} bound " + ("-" if lost[2] is None else f"{lost[2]} double {lost[3]}"))
        return "".join(f"{line}\n" for line in lines)


def older_numbers(values):
    """Those by which clocks are classically in sync: pi, lambda and the precision."""
    v = values
    longest = MILLION + v["xRateBound"]
    arrival = v["xDelayError"] + v["pDelayCompensation"] * v["xRateBound"]
    change = (v["pMicroPerCycle"] + v["pRateCorrectionOut"]) * v[CHANGE]
    value = 2 * arrival + 2 * longest + 3 * change
    lengths = 4 * value + 2 * longest + 4 * v["pClusterDriftDamping"] * longest + 8 * change
    starts = 6 * lengths + 4 * arrival + 8 * longest
    return starts, lengths, starts + 2 * lengths + 2 * longest


def yes(holds):
    return "yes" if holds else "no"


def on(lasts):
    return "on" if lasts is None else str(lasts)


def known(number):
    return "-" if number is None else str(number)


def commas(words):
    return ",".join(map(str, words))


def flutter_words(place):
    return "delay {2} {3} {4} {1}".format(*place) if place else ""


# ---- small random runs


class Run:
    """The texts of the files of a random run of few nodes and double cycles. Its clocks begin further apart than sharp sync takes, as a
    rule; and delays, oscillators and frames do what is a gap or a flutter in some cycles, be they before that or behind."""

    def __init__(self, draw):
        self.draw, self.doubles = draw, draw.choice([1, 3, 4, 5, 6, 6, 7, 7, 8, 8])
        liars = draw.choice([0, 0, 0, 0, 1])
        self.count, self.channels = draw.randint(2, 4) + 2 * liars, draw.choice(["A", "AB", "AB"])
        self.values = {**PRODUCTION, "gMacroPerCycle": 200, "gNumberOfStaticSlots": 12, "gdStaticSlot": 8, "gdActionPointOffset": 3,
                       "gdNIT": 104, "gOffsetCorrectionStart": 194, CHANGE: draw.choice([0, 0, 0, 1]),
                       "pClusterDriftDamping": draw.choice([0, 1, 2, 2, 4]), "pOffsetCorrectionOut": draw.choice([60, 127, 200, 300]),
                       "pRateCorrectionOut": draw.choice([41, 45, *4 * [601]]), "xDelayError": draw.choice([1, 3, 5]) * MILLION}
        self.keyed = range(1, self.count + 1)
        # The last node may have no key slot, and join.
        self.extra = self.count + 1 if draw.random() < 0.35 else None
        self.joiner = self.extra if self.extra and self.doubles > 4 and draw.random() < 0.6 else None
        self.liars = sorted(draw.sample(self.keyed, liars))
        self.correct = [node for node in [*self.keyed, *([self.extra] if self.extra else [])] if node not in self.liars]
        self.params = "".join(f"param,{name},{value},,\n" for name, value in self.values.items()) + "".join(
            f"node,{node},{node if node in self.keyed else ''},{self.channels},{int(node in self.keyed)}\n"
            for node in [*self.keyed, *([self.extra] if self.extra else [])])
        self.drift, self.script = self.clocks() + "".join(self.delays()), "".join(self.losses())

    def clocks(self):
        draw, bound, micros, change = self.draw, self.values["xRateBound"], self.values["pMicroPerCycle"], self.values[CHANGE]
        apart, lines = draw.choice([5, 25, 40, 40, 60, 60, 80]) * MILLION, [f"doubles,{self.doubles},,,,\n"]
        for node in self.correct:
            length = MILLION + draw.choice([-bound, bound, draw.randint(-bound, bound)])
            if node != self.joiner:
                rate = -round(micros * (length - MILLION) / length) if draw.random() < 0.7 and self.values["pRateCorrectionOut"] > 50 else 0
                lines.append(f"start,{node},{draw.randrange(apart)},{rate},,\n")
            odd = draw.randrange(2 * self.doubles) if draw.random() < 0.08 else None
            for cycle in range(2 * self.doubles):
                shown = length + draw.choice([-2, 2, 4 * bound]) if cycle == odd else length
                lines.append(f"length,{node},{cycle},{shown},,\n")
                length = max(MILLION - bound, min(MILLION + bound, length + draw.randint(-change, change)))
        return "".join(lines)

    def delays(self):
        """Each delay has some steps, at even cycles and at odd ones; now and then one beyond what is allowed."""
        draw, middle, error = self.draw, self.values["pDelayCompensation"] * MILLION, self.values["xDelayError"]
        wide, many = draw.choice([0, 1000, 500_000, 3 * MILLION]), draw.choice([0, 0.3, 0.3, 1])
        steps = {(one, two, channel): {0: middle + draw.randint(-error, error)} for one in self.keyed for two in self.correct
                 for channel in self.channels if one != two and one not in self.liars}
        is_alike = draw.random() < 0.4
        for row in steps.values():
            for cycle in range(1, 2 * self.doubles):
                if draw.random() < many / (2 if cycle % 2 else 4):
                    # Where steps are alike the last one is told, and of several delays the first.
                    step = draw.choice([-wide, wide]) if is_alike else draw.randint(-wide, wide)
                    row[cycle] = max(middle - error, min(middle + error, row[0] + step))
        for _ in range(draw.choice([0, 0, 0, 1, 2])):
            # A wide one, in an early double cycle or in any; now and then it is a gap.
            row, double = draw.choice(list(steps.values())), draw.choice([0, 1, draw.randrange(self.doubles)])
            if double < self.doubles:
                far = middle + draw.choice([-1, 1]) * draw.choice([error, error, error, error + 1, 2 * error])
                row.update({2 * double + draw.choice([0, 1, 1, 1]): max(0, far), 2 * double + 2: row[0]})
        return [f"delay,{one},{two},{channel},{cycle},{ticks}\n" for (one, two, channel), row in steps.items()
                for cycle, ticks in sorted(row.items()) if cycle < 2 * self.doubles]

    def losses(self):
        draw, most = self.draw, draw_most(self.draw)
        yield from (f"arbitrary,{node},,,,,\n" for node in self.liars)
        joins = draw.randrange(self.doubles - 3) if self.joiner else None
        if joins is not None:
            yield f"join,{joins},{self.joiner},{min(node for node in self.correct if node in self.keyed)},,,\n"
        for double in sorted(draw.sample(range(self.doubles), min(self.doubles, most))):
            share = draw.choice([0.1, 0.5, 1])
            for cycle in (2 * double, 2 * double + 1):
                for one in self.keyed:
                    for two in self.correct:
                        # What a node that joins hears is not lost: then it joins.
                        if one != two and one not in self.liars and two != self.joiner and draw.random() < share:
                            word, last = draw.choice([("lose", ","), ("lose", ","), (DAMAGED, f"{draw.randrange(40)},")])
                            yield from (f"{word},{cycle},{one},{two},{channel},{last}\n" for channel in self.channels
                                        if draw.random() < 0.9)
        for node in self.liars:
            shift = draw.choice([2, 10, 40]) * MILLION
            yield from (f"say,{cycle},{node},{two},{channel},{draw.choice([-shift, shift])},\n" for cycle in range(2 * self.doubles)
                        for two in self.correct for channel in self.channels if draw.random() < 0.9)


def draw_most(draw):
    """In how many double cycles frames are lost."""
    return draw.choice([0, 0, 1, 1, 2, 8])
