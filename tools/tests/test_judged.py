"""What `flexray observe` tells of clusters of production shape, whose double cycles are judged by their own numbers: beside another
program that reckons it, and beside the clocks that gave the logs. FLEXRAY_JUDGED_LOGS is how many logs of each kind are taken (12).
"""
import os
import random
import unittest

import clocks_peer as clocks
import observe_peer as peer
import test_observe as observing
from test_observe import rows_of

LOGS = int(os.environ.get("FLEXRAY_JUDGED_LOGS", "12"))
MILLION = peer.MILLION


class Log:
    """A network of production shape, and the log of an analyzer that may know little."""

    def __init__(self, seed, doubles=9, **more):
        self.draw = random.Random(seed)
        self.network = clocks.production(self.draw, doubles, **more)
        self.unit, self.width, self.drift = self.draw.choice([40_000, 400_000]), 40_000, self.draw.choice([0, 0, 20])
        self.rows = self.network.rows()

    def params(self, **changed):
        self.network.values.update(changed)
        return self.network.params()

    def text(self, lost=lambda double, node: False, stated="", sends=lambda double, node: True, whole=True):
        """Its log, of which the frames of a node in a double cycle are lost; `stated` is more of its head."""
        slots = {slot: node for node, slot in enumerate(self.network.slots)}
        text = self.network.log(self.draw, self.rows, self.unit, self.width, self.drift, sends)

        def is_there(line):
            kind, *fields = line.split(",")
            data = bytes.fromhex(fields[2]) if kind == "head" else b""
            return not data or not lost((data[4] & 63) // 2, slots[(data[0] & 7) << 8 | data[1]])

        lines = [line for line in text.splitlines() if is_there(line)]
        return "".join(f"{line}\n" for line in [*stated.splitlines(), *lines] if whole or line != "whole,,,,")

    def fluttering(self, flutter):
        """How much later a frame comes in a cycle: up to so many ticks toward the compensation, drawn anew in each."""
        middle, kept = self.network.values["pDelayCompensation"] * MILLION, {}

        def later(*frame):
            if frame not in kept:
                kept[frame] = (-1 if self.network.delays[frame[1:]] > middle else 1) * self.draw.randint(0, flutter)
            return kept[frame]
        return later

    def missing(self, most):
        """Which frames are lost: of each double cycle and receiver those of up to so many senders, in either cycle or in both."""
        lost = set()
        for double in range(self.network.doubles):
            for node in self.network.nodes:
                others = [other for other in self.network.nodes if other != node]
                for sender in self.draw.sample(others, min(len(others), self.draw.randrange(most + 1))):
                    lost |= {(2 * double + odd, sender, node) for odd in self.draw.choice([(0,), (1,), (0, 1)])}
        return lost


class Judged(observing.Told):
    """Texts of these logs."""

    def told_of(self, log, text, **changed):
        self.write("params.csv", log.params(**changed))
        return self.told(text)

    def holds(self, log, told, nodes=None):
        """Holds each row `spread` against the clocks of nodes, and hands back how many there are."""
        network, spread = log.network, rows_of(told, "spread")
        micros, bound = network.micros, network.values["xRateBound"]
        for row in spread:
            double, starts, lengths, beyond, apart = map(int, row[1:6])
            both = [[log.rows[2 * double + odd][node] for node in nodes or network.nodes] for odd in (0, 1)]
            begun = [start for start, _, _, _ in both[0]]
            self.assertLessEqual(max(begun) - min(begun), starts, row)
            long = [(micros + rate) * length for _, length, rate, _ in both[0]]
            self.assertLessEqual(max(long) - min(long), lengths, row)
            self.assertLessEqual(max(long), micros * (MILLION + bound) + beyond, row)
            self.assertGreaterEqual(min(long), micros * (MILLION - bound) - beyond, row)
            for odd, rows in enumerate(both):
                self.assertLessEqual(observing.skew(network.values, odd, rows), apart, row)
        return len(spread)

    def test_lawful_runs(self):
        """All is judged from the first double cycle on, nothing contradicts it, and each number holds."""
        for seed in range(LOGS):
            with self.subTest(seed=seed):
                log = Log(seed, 6)
                told = self.told_of(log, log.text())
                self.assertEqual(rows_of(told, "fault"), [])
                self.assertEqual([int(row[1]) for row in rows_of(told, "spread")], list(range(6)))
                # Clocks may begin further apart than the sharp precision.
                says = [row[5] for row in rows_of(told, "cycle")]
                wanted = "over" if "over" in says else "within" if set(says[:-1]) == {"within"} else "partly"
                self.assertEqual(rows_of(told, "verdict")[0][1], wanted)
                self.assertEqual(set(says[4:-1]), {"within"})
                self.assertEqual(self.holds(log, told), 6)

    def test_a_number_that_is_too_small(self):
        """Of each kind what the run has is held, and a tick less is not."""
        log = Log(3, 6)
        row, micros, bound = rows_of(self.told_of(log, log.text()), "spread")[2], log.network.micros, log.network.values["xRateBound"]
        both = [log.rows[2 * int(row[1]) + odd] for odd in (0, 1)]
        begun, long = [start for start, _, _, _ in both[0]], [(micros + rate) * length for _, length, rate, _ in both[0]]
        beyond = max(max(long) - micros * (MILLION + bound), micros * (MILLION - bound) - min(long))
        apart = max(observing.skew(log.network.values, odd, rows) for odd, rows in enumerate(both))
        for place, number in enumerate((max(begun) - min(begun), max(long) - min(long), beyond, apart), 2):
            row[place] = str(number)
            self.assertEqual(self.holds(log, ",".join(row)), 1)
            with self.assertRaises(AssertionError):
                self.holds(log, ",".join([*row[:place], str(number - 1), *row[place + 1:]]))

    def test_delays_that_flutter(self):
        """As far as is stated: nothing is contradicted, and each number holds. Where they flutter further than is stated, that is told."""
        told = 0
        for seed in range(LOGS):
            for flutter in (0, MILLION // 2, MILLION):
                with self.subTest(seed=seed, flutter=flutter):
                    log = Log(seed, 6)
                    log.rows = log.network.rows(later=log.fluttering(flutter))
                    text = self.told_of(log, log.text(stated=f"flutter,{flutter},,,\n"))
                    self.assertEqual(rows_of(text, "precision")[0][2], str(flutter))
                    self.assertEqual(rows_of(text, "fault"), [])
                    self.assertEqual(self.holds(log, text), 6)
            log = Log(seed, counts=(3, 9), changes=(0,), delays=((7, 5),))
            log.unit, log.drift = 40_000, 0
            log.rows = log.network.rows(later=log.fluttering(4 * MILLION))
            told += bool(rows_of(self.told_of(log, log.text(stated="flutter,0,,,\n")), "fault"))
        self.assertGreater(told, LOGS // 2)

    def test_nodes_that_miss_frames(self):
        """Of as many senders as is stated: nothing is contradicted, each number holds, and each node missed at least as many as is told of
        it. Where that is not stated it is told of some."""
        rows, faults = 0, 0
        for seed in range(2 * LOGS):
            for lost in (1, 2):
                with self.subTest(seed=seed, lost=lost):
                    log = Log(seed, counts=(3, 9))
                    missing = log.missing(lost)
                    log.rows = log.network.rows(hears=lambda *frame, missing=missing: frame not in missing)
                    text = self.told_of(log, log.text(stated=f"lost,{lost},,,\n"))
                    self.assertEqual(rows_of(text, "precision")[0][3], str(lost))
                    self.assertEqual(rows_of(text, "fault"), [])
                    self.assertGreater(self.holds(log, text), 6)
                    for _, cycle, node, _, least, *_ in rows_of(text, "missed"):
                        both = {sender for at, sender, receiver in missing if at // 2 == int(cycle) // 2 and receiver == int(node) - 1}
                        self.assertLessEqual(int(least), len(both))
                        rows += 1
                    faults += bool(rows_of(self.told_of(log, log.text()), "fault"))
        self.assertGreater(min(rows, faults), 0)

    def test_a_run_of_the_program(self):
        """The clocks of these tests are those of the program, where no node is wrong."""
        log = Log(3, 6)
        for name, text in (("params.csv", log.params()), ("drift.csv", log.network.drift()), ("script.csv", "")):
            self.write(name, text)
        status, trace, line = self.flexray("trace", "params.csv", "drift.csv", "script.csv")
        self.assertEqual((status, line), (0, ""))
        rows = [tuple(map(int, row[3:7])) for row in rows_of(trace, "cycle")]
        self.assertEqual(rows, [row for of_cycle in log.rows for row in of_cycle])

    def test_what_the_analyzer_did_not_see(self):
        """Where some frames are not in the log, a double cycle goes by what is known of the one before; one that comes behind none such is
        not judged, and the log says why. None is contradicted."""
        reasons, judged = dict.fromkeys(("unseen", "reach", "drift"), 0), 0
        for seed in range(100, 100 + 2 * LOGS):
            with self.subTest(seed=seed):
                log = Log(seed)
                draw, changed = log.draw, {}
                lost = {(draw.randrange(9), draw.choice(log.network.nodes)) for _ in range(draw.choice([1, 3, 12]))}
                kind = draw.choice(["lost", "joins", "reach", "drift"])
                if kind == "joins":
                    lost |= {(double, 0) for double in range(draw.randrange(1, 8))}
                elif kind == "reach":
                    changed["pOffsetCorrectionOut"] = draw.choice([20, 30, 40])
                elif kind == "drift":
                    changed["pRateCorrectionOut"] = draw.choice([41, 45, 60])
                told = self.told_of(log, log.text(lambda double, node, lost=lost: (double, node) in lost, whole=False), **changed)
                if kind in ("lost", "joins"):
                    self.assertEqual(rows_of(told, "fault"), [])
                    judged += self.holds(log, told)
                reason = rows_of(told, "sync")[0][5]
                reasons[reason] = reasons.get(reason, 0) + 1
        self.assertGreater(min(judged, *(reasons[word] for word in ("unseen", "reach", "drift"))), 0, (judged, reasons))

    def test_a_node_that_joins(self):
        """It is heard from some double cycle on: from there on all is judged, and nothing is missing."""
        for seed in range(200, 200 + LOGS):
            with self.subTest(seed=seed):
                log = Log(seed, counts=(3, 9))
                begin = log.draw.randrange(1, 7)

                def sends(double, node, begin=begin):
                    return node > 0 or double >= begin

                log.rows = log.network.rows(sends=sends)
                told = self.told_of(log, log.text(sends=sends))
                self.assertEqual(rows_of(told, "fault"), [])
                self.assertEqual([int(row[1]) for row in rows_of(told, "spread")], list(range(begin, 9)))
                self.holds(log, told)

    def test_beside_an_arbitrary_node(self):
        """One whose frames are heard and that does what it likes, and that the log names."""
        judged = 0
        for seed in range(300, 300 + LOGS):
            with self.subTest(seed=seed):
                log = Log(seed, counts=(4, 9))
                errors = [log.draw.randrange(-20, 21) for _ in range(9)]
                log.rows = log.network.rows(wrong=lambda double, node, errors=errors: errors[double] if node == 0 else 0)
                told = self.told_of(log, log.text(stated="arbitrary,1,,,\n"))
                self.assertEqual(rows_of(told, "fault"), [])
                judged += self.holds(log, told, log.network.nodes[1:])
        self.assertGreater(judged, LOGS)

    def test_too_few_beside_arbitrary_nodes(self):
        """Nothing is judged, for that reason."""
        log = Log(400, counts=(3, 4))
        told = self.told_of(log, log.text(stated="arbitrary,1,,,\n"))
        self.assertEqual((rows_of(told, "spread"), rows_of(told, "verdict")[0][1:3]), ([], ["open", "count"]))

    def test_lost_beside_arbitrary_nodes(self):
        """Nor is anything judged where enough may miss senders beside them, for another reason."""
        log = Log(401, counts=(4, 5))
        told = self.told_of(log, log.text(stated="lost,1,,,\narbitrary,1,,,\n"))
        self.assertEqual((rows_of(told, "spread"), rows_of(told, "verdict")[0][1:3]), ([], ["open", "lost"]))

    def test_planted_faults(self):
        """What a node does against the rules is told of it, in its double cycle; what the others do is not."""
        tried = dict.fromkeys(("offset", "rate", "missing"), 0)
        for seed in range(500, 500 + 2 * LOGS):
            for kind in tried:
                with self.subTest(seed=seed, kind=kind):
                    log = Log(seed, counts=(3, 9))
                    draw, network, begin = log.draw, log.network, log.draw.randrange(2, 7)
                    wrong, error = draw.choice(network.nodes), draw.choice([-1, 1]) * draw.randrange(40, 60)

                    def erring(double, node, wrong=wrong, begin=begin, error=error):
                        return error if (double, node) == (begin, wrong) else 0

                    def sends(double, node, wrong=wrong, begin=begin, kind=kind):
                        return kind != "missing" or node != wrong or double <= begin

                    words = {"offset": {"wrong": erring}, "rate": {"wrong_rate": erring}, "missing": {"sends": sends}}
                    log.rows = network.rows(**words[kind])
                    # No loss that may be stated explains as much.
                    told = self.told_of(log, log.text(sends=sends, stated=f"lost,{seed % 3},,,\n"))
                    faults = [row[1:4] for row in rows_of(told, "fault")]
                    cycle = 2 * begin + (2 if kind == "missing" else 1)
                    self.assertEqual(faults[:1], [[str(cycle), str(wrong + 1), kind]])
                    self.assertEqual({row[1] for row in faults if row[2] == kind}, {str(wrong + 1)})
                    tried[kind] += 1
        self.assertEqual(set(tried.values()), {2 * LOGS})

    def test_what_is_known_from_before(self):
        """A clock that jumps, or another length, in a double cycle in which another node was not seen, or in that before one: told by
        what is known from the double cycle before."""
        kinds = set()
        for seed in range(600, 600 + 3 * LOGS):
            with self.subTest(seed=seed):
                log = Log(seed, counts=(3, 9))
                draw, begin = log.draw, log.draw.randrange(2, 7)
                node, unseen = draw.sample(list(log.network.nodes), 2)
                far, faster = draw.choice([(60, 0), (-60, 0), (0, 60), (0, 30), (0, -60)])
                hidden = draw.choice([(begin, unseen), (begin - 1, node)])
                for cycle in range(2 * begin, 18):
                    rows = list(log.rows[cycle])
                    start, length, rate, term = rows[node]
                    rows[node] = start + (far + faster * (cycle - 2 * begin)) * MILLION, length, rate + faster, term
                    log.rows[cycle] = rows
                told = self.told_of(log, log.text(lambda double, at, hidden=hidden: (double, at) == hidden, whole=False))
                faults = rows_of(told, "fault")
                self.assertTrue(all(2 * begin - 1 <= int(row[1]) for row in faults), faults)
                kinds |= {row[3] for row in faults}
        self.assertLessEqual({"skew", "start", "lengths", "length"}, kinds)

    def test_random_logs(self):
        """Whatever is in a log: both programs tell the same."""
        words = dict.fromkeys(("spread", "fault", "missed"), 0)
        for seed in range(700, 700 + 4 * LOGS):
            with self.subTest(seed=seed):
                log = Log(seed)
                draw, nodes = log.draw, log.network.nodes
                errors = {(draw.randrange(9), draw.choice(nodes)): draw.randrange(-40, 41) for _ in range(draw.randrange(3))}
                rates = {(draw.randrange(9), draw.choice(nodes)): draw.randrange(-20, 21) for _ in range(draw.randrange(2))}
                lost = {(draw.randrange(9), draw.choice(nodes)) for _ in range(draw.choice([0, 0, 1, 5]))}
                log.unit, log.width, log.drift = draw.choice([40_000, 4_000_000]), draw.choice([0, 4_000_000]), draw.choice([0, 50, 1000])
                missing = log.missing(draw.choice([0, 0, 1, 3]))
                log.rows = log.network.rows(lambda *at, errors=errors: errors.get(at, 0), lambda *at, rates=rates: rates.get(at, 0),
                                            lambda *at, lost=lost: at not in lost,
                                            hears=lambda *frame, missing=missing: frame not in missing)
                stated = draw.choice(["", "", f"since,{2 * draw.randrange(6)},,,\n", f"arbitrary,{1 + draw.choice(nodes)},,,\n"])
                stated += draw.choice(["", "", f"lost,{draw.choice([0, 1, 2, 14])},,,\n"])
                stated += draw.choice(["", f"flutter,{draw.choice([0, 1, MILLION, 20 * MILLION, 1000 * MILLION])},,,\n"])
                stated += draw.choice(["", f"error,{draw.choice([1, MILLION])},,,\n"])
                changed = {"pOffsetCorrectionOut": draw.choice([40, 60, 127]), "pRateCorrectionOut": draw.choice([45, 601]),
                           "pClusterDriftDamping": draw.randrange(3)}
                told = self.told_of(log, log.text(lambda *at, lost=lost: at in lost, stated, whole=draw.random() < 0.5), **changed)
                for word in words:
                    words[word] += bool(rows_of(told, word))
        self.assertGreater(min(words.values()), 0, words)


if __name__ == "__main__":
    unittest.main()
