"""Runs that lose frames keep within the number of each double cycle, which is reckoned by another program from their files alone.
`bench/losses` tries as many as one likes; FLEXRAY_LOSS_RUNS is how many are tried here (14)."""
import itertools
import os
import random
import subprocess
import unittest

import losses_peer
from bench import FLEXRAY, SERIES, Bench, needs_series
from clocks_peer import CHANGE, PRODUCTION
from flexray import texts

RUNS = int(os.environ.get("FLEXRAY_LOSS_RUNS", "14"))
DRIFT = "doubles,2,,,,\n"
CHANGING = {CHANGE: 1, "pRateCorrectionOut": 41, "pOffsetCorrectionOut": 300, "gdActionPointOffset": 9}
EACH = range(1, 9)
CLEAN, MEETING, POOR = (losses_peer.Kinds(kind, kind) for kind in (losses_peer.CLEAN, losses_peer.MEETING, losses_peer.POOR))
# With so many sync nodes, of which so many are arbitrary, each other one may miss so many of the others in each double cycle, and lists
# meet; and so many a single one may, where the others miss none.
EACH_MAY_MISS = ([None, None, 0, 1, 0, 1, 1, 2, 2, 3, 3, 4, 3, 4, 4, 5],
                 [None] * 4 + [0, 0, 1, 1, 2, 2, 3, 2, 3, 3, 4, 4], [None] * 8 + [0, 1, 1, 2, 2, 3, 3, 4])
ONE_MAY_MISS = [None, None, 1, 1, 2, 3, 4, 5, 4, 5, 6, 7, 8, 9, 10, 11]


def others(count, two):
    return [one for one in range(1, count + 1) if one != two]


def first(shares, count=8):
    """The first others that each receiver misses, where it misses so many."""
    return {two: others(count, two)[:share] for two, share in shares.items()}


def behind(count, share):
    """So many others that each of so many nodes misses: those behind it, in turn. Any two far enough apart miss none in common."""
    return {two: [(two + more) % count + 1 for more in range(share)] for two in range(1, count + 1)}


def each_misses(count, most):
    """Every way in which each of so many nodes misses so many others at most."""
    shares = [[dict([(two, chosen)]) for share in range(most + 1) for chosen in itertools.combinations(others(count, two), share)]
              for two in range(1, count + 1)]
    return ({two: chosen for share in way for two, chosen in share.items()} for way in itertools.product(*shares))


class Bordering(Bench):
    """How much may be lost until lists meet no longer, or are trusted no longer, by what is reckoned here."""

    def traffic(self, count, missed, liars=0, damaged=(), cycles=(1,), says=None):
        """So many nodes, of which the last ones are arbitrary; each of some receivers misses some of the others, or has their frames
        damaged, in these cycles. The arbitrary ones say something to so many others, to all where that is not given, in both cycles."""
        traffic = losses_peer.Traffic({node: (node, "A") for node in range(1, count + 1)}, range(count - liars + 1, count + 1))
        for found, shares in ((traffic.lost, missed), (traffic.damaged, damaged)):
            found |= {(cycle, one, two, "A") for two, ones in dict(shares).items() for one in ones for cycle in cycles}
        for at, liar in enumerate(sorted(traffic.arbitrary)):
            told = traffic.receivers if says is None else traffic.receivers[:says[at]]
            traffic.said |= {(cycle, liar, two, "A") for two in told for cycle in (0, 1)}
        return traffic

    def heard(self, *words, **named):
        """What is heard of the first double cycle."""
        found = self.traffic(*words, **named).heard(0)
        return found.word, found.kinds, found.is_trusted

    def test_how_many_may_be_missed(self):
        every = {two: others(8, two) for two in EACH}
        for what, wanted in (
                # Of eight each may miss two. With three any two lists together discard two of two in common.
                (self.heard(8, behind(8, 2)), ("most", MEETING)), (self.heard(8, behind(8, 3)), ("any", POOR)),
                # Where all miss the same three, five are in common; and a single one may miss more.
                (self.heard(8, first(dict.fromkeys(EACH, 3))), ("most", MEETING)), (self.heard(8, first({1: 4})), ("most", MEETING)),
                (self.heard(8, first({1: 5})), ("any", POOR)), (self.heard(8, {1: [2, 3, 4], 2: [5, 6, 7]}), ("any", POOR)),
                # Of four one may miss two of the others, so that it discards none; two may not miss one each, unless it is the same.
                (self.heard(4, first({2: 2})), ("most", MEETING)), (self.heard(4, {2: [1], 3: [4]}), ("any", POOR)),
                (self.heard(4, {2: [1], 3: [1]}), ("most", MEETING)),
                # A frame that is damaged may come all the same: then its list discards more.
                (self.heard(8, {}, damaged=behind(8, 2)), ("any", POOR)), (self.heard(8, {}, damaged=behind(8, 1)), ("most", MEETING)),
                # An offset value is of the odd cycle, a rate value of both: each counts by itself.
                (self.heard(8, every), ("any", POOR)), (self.heard(8, every, cycles=(0, 1)), ("any", POOR)),
                (self.heard(8, every, cycles=(0,)), ("any", losses_peer.Kinds("clean", "poor"))),
                (self.heard(8, behind(8, 2), cycles=(0,)), ("most", losses_peer.Kinds("clean", "meeting"))),
                # Of two nodes neither has the other's, or one has, or both.
                (self.heard(2, {1: [2], 2: [1]}), ("any", POOR)), (self.heard(2, {1: [2]}), ("most", MEETING)),
                (self.heard(2, {}), ("all", CLEAN)), (self.heard(1, {}), ("all", CLEAN))):
            with self.subTest(what=what, wanted=wanted):
                self.assertEqual(what, (*wanted, True))

    def test_offsets_may_be_heard_less_than_rates(self):
        """Of rates nodes 1 and 2 have each other's alone, and discard none. Of offsets each has one more, and discards one."""
        traffic = self.traffic(4, {1: [3], 2: [4]})
        self.assertEqual(traffic.heard(0).kinds, POOR)
        traffic.lost |= {(0, 4, 1, "A"), (0, 3, 2, "A")}
        self.assertEqual(traffic.heard(0).kinds, losses_peer.Kinds("poor", "meeting"))

    def test_each_channel_by_itself(self):
        """A frame on each channel in another cycle gives an offset value, and no rate value; and one on the other channel gives both."""
        traffic = losses_peer.Traffic({node: (node, "AB") for node in EACH})
        traffic.lost = {(channel == "B", one, two, channel) for one, two in itertools.permutations(EACH, 2) for channel in "AB"}
        self.assertEqual(traffic.heard(0)[:2], (False, losses_peer.Kinds("clean", "poor")))
        traffic.lost = {(cycle, one, two, "B") for one, two in itertools.permutations(EACH, 2) for cycle in (0, 1)}
        self.assertEqual(traffic.heard(0)[:2], (True, CLEAN))

    def test_which_clusters_meet(self):
        """Each way in which each node misses so many, for few nodes, and any ways for more, whatever arbitrary nodes say to whom; and of
        one more that nodes miss in turn lists meet no longer, or nobody trusts them."""
        draw = random.Random(3)
        for count, liars in itertools.product(range(2, 16), range(3)):
            most, correct = EACH_MAY_MISS[liars][count], count - liars
            if most is None:
                continue
            ways = each_misses(correct, most) if count < 6 else (
                {two: draw.sample(others(correct, two), draw.choice([most, most, draw.randint(0, most)])) for two in range(1, correct + 1)}
                for _ in range(40))
            for missed in itertools.chain(ways, [behind(correct, most)]):
                says = [draw.choice([0, correct, draw.randint(0, correct)]) for _ in range(liars)]
                with self.subTest(count=count, liars=liars, missed=missed, says=says):
                    kind, is_borne = self.traffic(count, missed, liars, says=says).kind_of(0, (1,))
                    self.assertTrue(is_borne and kind != "poor")
            kind, is_borne = self.traffic(count, behind(correct, most + 1), liars).kind_of(0, (1,))
            self.assertFalse(is_borne and kind != "poor", (count, liars))

    def test_how_many_a_single_node_may_miss(self):
        draw = random.Random(4)
        for count in range(2, 16):
            for share in range(count):
                chosen = [others(count, 1)[:share], draw.sample(others(count, 1), share)]
                kinds = {self.traffic(count, {1: missed}).kind_of(0, (1,))[0] for missed in chosen}
                with self.subTest(count=count, share=share):
                    self.assertEqual(kinds, {"clean" if not share else "meeting" if share <= ONE_MAY_MISS[count] else "poor"})

    def test_flexray_bound_says_so_of_each_number_of_sync_nodes(self):
        """With so many missed by each lists meet, and with one more they do not. Of one node nothing can be missed."""
        for count in range(1, 16):
            params = self.write("params.csv", "".join(f"param,{name},{value},,\n" for name, value in PRODUCTION.items())
                                + "".join(f"node,{node},{node},A,1\n" for node in range(1, count + 1)))
            missed = texts.lost_bound(self.flexray("bound", params, "sharp", "0", "lost", "1")[1]).missed
            with self.subTest(count=count):
                self.assertEqual(missed, EACH_MAY_MISS[0][count] or 0)
                self.assertEqual(self.heard(count, behind(count, missed))[0], "most" if missed else "all")
                if count > 1:
                    self.assertEqual(self.heard(count, behind(count, missed + 1))[0], "any")

    def test_beside_arbitrary_nodes(self):
        """Where all is heard lists meet at best. They are trusted as long as all that may be of arbitrary nodes is discarded."""
        for what, wanted in (
                (self.heard(4, {}, 1), ("all", MEETING, True)), (self.heard(4, {1: [2]}, 1), ("any", POOR, True)),
                (self.heard(4, {1: [2, 3]}, 1), ("any", POOR, False)), (self.heard(3, {}, 1), ("all", MEETING, True)),
                (self.heard(2, {}, 1), ("all", MEETING, False)), (self.heard(8, {1: [2, 3], 2: [4, 5]}, 1), ("most", MEETING, True)),
                (self.heard(8, {1: [2, 3, 4], 2: [5, 6, 7]}, 1), ("any", POOR, True)), (self.heard(8, {}, 2), ("all", MEETING, True)),
                (self.heard(8, {1: [2]}, 2), ("most", MEETING, False)), (self.heard(10, {1: [2, 3], 2: [3]}, 2), ("most", MEETING, True)),
                (self.heard(10, {1: [2, 3], 2: [4, 5]}, 2), ("any", POOR, True)),
                (self.heard(10, {1: [2, 3, 4]}, 2), ("most", MEETING, False)),
                # One that says nothing counts as none, but that all is heard costs as beside one that does.
                (self.heard(4, {}, 1, says=[0]), ("all", MEETING, True)), (self.heard(4, {1: [2]}, 1, says=[0]), ("most", MEETING, True)),
                (self.heard(4, {1: [2, 3]}, 1, says=[0]), ("any", POOR, True)),
                (self.heard(8, {1: [2]}, 2, says=[0, 0]), ("most", MEETING, True)),
                # One that says something to some counts there alone.
                (self.heard(4, {1: [2, 3]}, 1, says=[1]), ("any", POOR, False)),
                (self.heard(4, {2: [1, 3]}, 1, says=[1]), ("any", POOR, True)),
                (self.heard(8, {1: [2]}, 2, says=[1, 0]), ("most", MEETING, True)),
                (self.heard(8, {1: [2]}, 2, says=[1, 1]), ("most", MEETING, False)),
                (self.heard(2, {}, 1, says=[0]), ("all", MEETING, True))):
            with self.subTest(what=what, wanted=wanted):
                self.assertEqual(what, wanted)

    def test_when_an_arbitrary_node_may_be_heard(self):
        """For an offset value it says something in the odd cycle, for a rate value in both, on one channel. Where 1 hears nobody else it
        may be misled by that."""
        for said, offsets, rates in (((), True, True), (((0, "A"),), True, True), (((1, "A"),), False, True), (((1, "B"),), False, True),
                                     (((0, "A"), (1, "B")), False, True), (((0, "B"), (1, "B")), False, False)):
            traffic = losses_peer.Traffic({node: (node, "AB") for node in (1, 2, 3, 4)}, [4])
            traffic.lost = {(cycle, one, 1, channel) for cycle in (0, 1) for one in (2, 3) for channel in "AB"}
            traffic.said = {(cycle, 4, 1, channel) for cycle, channel in said}
            with self.subTest(said=said):
                self.assertEqual([traffic.kind_of(0, cycles)[1] for cycles in losses_peer.lists_of(0)], [offsets, rates])

    def test_where_nodes_join(self):
        """Eight nodes, of which 8 joins; and 9, without a key slot, which joins too. Who has begun needs a value of one that does not."""
        every = {two: others(9, two) for two in range(1, 10)}

        def but(node):
            return {two: [one for one in ones if (one, two) != (1, node)] for two, ones in every.items()}

        for joins, lost, liars, says, wanted in (
                # Before it has begun nobody need hear it, nor it anybody; and before it sends nobody need hear it.
                ({8: 1}, {}, 0, None, ("all", CLEAN, True)), ({8: 0}, {1: [8], 2: [8], 8: EACH[:7]}, 0, None, ("all", CLEAN, True)),
                ({8: -2}, {1: [8], 2: [8]}, 0, None, ("all", CLEAN, True)), ({8: -3}, {1: [8], 2: [8]}, 0, None, ("most", MEETING, True)),
                ({8: 0}, {8: [1]}, 0, None, ("all", CLEAN, True)), ({8: -1}, {8: [1]}, 0, None, ("most", MEETING, True)),
                ({8: 0}, every, 0, None, ("any", POOR, True)), ({8: 0, 9: 0}, every, 0, None, ("any", POOR, True)),
                # Behind that its own value does not count.
                ({8: -1}, every, 0, None, ("any", POOR, False)), ({8: -1}, but(8), 0, None, ("any", POOR, True)),
                ({9: -1}, but(9), 0, None, ("any", POOR, True)), ({9: -1}, every, 0, None, ("any", POOR, False)),
                # Of the seven that stay two lists, each with a value of node 8 perhaps, may miss two each where some is in common.
                ({8: 0}, {1: [2, 3], 2: [1, 3]}, 0, None, ("most", MEETING, True)),
                ({8: 0}, {1: [2, 3], 2: [4, 5]}, 0, None, ("most", MEETING, True)),
                ({8: 0}, {1: [2, 3, 4], 2: [5, 6]}, 0, None, ("any", POOR, True)),
                ({8: 0}, {1: [2, 3], 8: [4, 5, 6]}, 0, None, ("most", MEETING, True)),
                ({8: -1}, {1: [2, 3], 8: [4, 5, 6]}, 0, None, ("any", POOR, True)),
                # Beside an arbitrary node all is heard as where lists meet, however few stay.
                ({8: 0, 4: 0, 3: 0}, {}, 1, None, ("all", MEETING, True)), ({8: 0}, first({1: 2}), 1, None, ("most", MEETING, True)),
                ({8: 0}, first({1: 3}), 1, None, ("any", POOR, True)), ({8: 0}, first({1: 5}), 1, None, ("any", POOR, False)),
                ({8: 0}, {8: EACH[:6]}, 1, None, ("most", MEETING, True)), ({8: 0}, first({1: 3}), 1, [0], ("most", MEETING, True)),
                ({8: 0}, first({1: 5}), 1, [0], ("any", POOR, True))):
            traffic = losses_peer.Traffic({node: (node if node < 9 else None, "A") for node in range(1, 10 if 9 in joins else 9)},
                                          [7] * liars, joins=joins)
            traffic.lost = {(cycle, one, two, "A") for cycle in (0, 1) for two, ones in lost.items() for one in ones}
            traffic.said = {(cycle, 7, two, "A") for cycle in (0, 1) for two in traffic.receivers} if liars and says is None else set()
            with self.subTest(joins=joins, lost=lost, liars=liars, says=says):
                found = traffic.heard(0)
                self.assertEqual((found.word, found.kinds, found.is_trusted), wanted)
                self.assertEqual(found.is_whole, not lost)

    def test_what_bursts_cost(self):
        """One that takes an odd cycle and the next even one counts for starts once, for lengths twice; an even cycle for lengths alone."""
        for values in (PRODUCTION, {**PRODUCTION, **CHANGING}):
            n = losses_peer.Numbers(values, 8, 0)
            kept, rates = n.precision, losses_peer.Kinds("clean", "poor")
            once = kept + 4 * n.lengths + 2 * n.arrival + 2 * n.change + n.longest
            self.assertEqual(n.by([POOR, rates, CLEAN, CLEAN, CLEAN, CLEAN])[0][1:],
                             [once, kept + 5 * n.lengths - 5 * n.longest, kept + 2 * n.lengths - 2 * n.longest, kept, kept])
            self.assertEqual(n.by([POOR, CLEAN, CLEAN, CLEAN])[0][1:], [once, kept + n.lengths - n.longest, kept])
            self.assertEqual(n.by([rates, CLEAN, CLEAN, CLEAN])[0],
                             [kept, kept + 2 * (n.lengths - n.longest), kept + n.lengths - n.longest, kept])

    def test_a_reach_takes_in_whoever_follows(self):
        """By the numbers of the first double cycle behind the one in which a node listens, and of the second."""
        numbers = losses_peer.Numbers(PRODUCTION, 8, 0)
        alone = numbers.by([CLEAN] * 4)
        reaches = [numbers.by([CLEAN] * 4, [listened])[1] for listened in (-3, -2, -1, 0, 2, 3)]
        self.assertEqual(reaches[0], alone[1])
        self.assertEqual(reaches[5], alone[1])
        self.assertEqual(reaches[2:5], [max(reaches)] * 3)
        self.assertTrue(alone[1] < reaches[1] < reaches[2])
        self.assertEqual(numbers.by([CLEAN] * 4, [0])[0], alone[0])

    def test_how_long_a_node_may_be_deaf(self):
        """A microtick changes by a tick in each cycle. The limit has 995,900 ticks beyond the range; a deaf double cycle takes 400,082 of them,
        and each other one gives 599,518 back. Without damping all walk further than by changes, and nothing comes back."""
        numbers = losses_peer.Numbers({**PRODUCTION, **CHANGING}, 8, 0)
        self.assertEqual((numbers.room, 2 * numbers.change, numbers.walk), (995_900, 400_082, -599_518))
        for deaf, wanted in (("dd", True), ("ddd", False), ("dd.d", True), ("dd.dd", False), ("dd..dd", True), ("d.d.d.d.d.d", True)):
            with self.subTest(deaf=deaf):
                self.assertEqual(numbers.follows([one == "d" for one in deaf]), wanted)
        walking = losses_peer.Numbers({**PRODUCTION, **CHANGING, "pClusterDriftDamping": 0}, 8, 0)
        self.assertGreater(walking.walk, 2 * walking.change)
        self.assertTrue(walking.follows([True] * 100))


@needs_series
class Losses(Bench):
    def series(self, *texts):
        paths = [self.write(f"{name}.csv", text) for name, text in zip(("params", "drift", "script"), texts)]
        return losses_peer.Series(subprocess.run([SERIES, *paths, "sharp"], capture_output=True, text=True, check=True).stdout)

    def flexray_of_run(self, word, *words):
        paths = [self.path(f"{name}.csv") for name in ("params", "drift", "script")]
        return subprocess.run([FLEXRAY, word, *paths, *words], capture_output=True, text=True, check=True).stdout

    def test_each_double_cycle_keeps_its_number(self):
        kinds, held, losing, covered, beside = losses_peer.ALONE, 0, 0, 0, 0
        for seed in range(RUNS):
            run = losses_peer.Run(random.Random(seed), kinds[seed % len(kinds)], 12)
            with self.subTest(seed=seed):
                told = self.series(run.params(), run.drift, run.script)
                is_exact = seed % 5 == 0
                found = losses_peer.hold(run, told, self.flexray_of_run("trace"), is_exact)
                if is_exact:
                    count, last, bound, place = told.lines["lost"]
                    self.assertIn(f"\nsharp lost {count} last {last} bound {bound}{'' if bound == '-' else f' double {place}'}\n",
                                  self.flexray_of_run("run", "sharp"))
                covered, held, losing = covered + found[0], held + found[1], losing + found[2]
                beside += found[0] and bool(run.arbitrary)
        self.assertGreater(covered, RUNS // 5)
        self.assertLess(covered, RUNS)
        self.assertGreater(losing, RUNS // 2)
        self.assertGreater(beside, RUNS // 15)

    def test_each_double_cycle_of_a_run_that_nodes_join_keeps_its_number(self):
        covered = losing = 0
        kinds = losses_peer.JOINING
        for seed in range(RUNS):
            run = losses_peer.Run(random.Random(seed), kinds[seed % len(kinds)], 12, joining=2)
            with self.subTest(seed=seed):
                told = self.series(run.params(), run.drift, run.script)
                found = losses_peer.hold(run, told, self.flexray_of_run("trace"), seed % 5 == 0)
                count, last, bound, place = told.lines["lost"]
                self.assertIn(f"\nsharp lost {count} last {last} bound {bound}{'' if bound == '-' else f' double {place}'}\n",
                              self.flexray_of_run("run", "sharp"))
                covered, losing = covered + found[0], losing + found[2]
        self.assertGreater(covered, RUNS // 5)
        self.assertLess(covered, RUNS)
        self.assertGreater(losing, RUNS // 2)

    def test_words_at_the_border(self):
        """What the program says of losses that are as many as may be, and of one more; and of what a silent node leaves."""
        params = "".join(f"param,{name},{value},,\n" for name, value in PRODUCTION.items())
        for count, liar, missed, wanted in (
                (8, False, behind(8, 2), "most"), (8, False, behind(8, 3), "any"), (8, False, first(dict.fromkeys(EACH, 3)), "most"),
                (4, False, {2: [1, 3]}, "most"), (4, False, {2: [1], 3: [4]}, "any"), (4, False, {2: [1], 3: [1]}, "most"),
                (4, True, {}, "all"), (4, True, {1: [2]}, "any"), (4, "silent", {1: [2]}, "most"),
                (8, True, {1: [2, 3], 2: [4, 5]}, "most"), (8, True, {1: [2, 3, 4], 2: [5, 6, 7]}, "any")):
            nodes = "".join(f"node,{node},{node},A,1\n" for node in range(1, count + 1))
            script = f"arbitrary,{count},,,,,\n" if liar else ""
            script += "".join(f"lose,3,{one},{two},A,,\n" for two, ones in missed.items() for one in ones)
            if liar is True:
                script += "".join(f"say,{cycle},{count},{two},A,0,\n" for cycle in range(4) for two in range(1, count))
            with self.subTest(count=count, liar=liar, missed=missed):
                told = self.series(params + nodes, DRIFT, script)
                self.assertEqual([row["heard"] for row in told.cycles], ["all", "all", wanted, wanted])

    def test_the_least_offset_limit_of_a_run_that_a_node_joins(self):
        """Node 8 listens in double cycle 4. The reach that the limit has to suffice for is of its first double cycle, or, where frames are
        lost in that, of its second one; or of the others alone, where it has not begun, or much is lost later."""
        every, branch = list(itertools.permutations(EACH, 2)), [(one, two) for one, two in itertools.permutations(EACH, 2) if one > 2]
        nodes, found = "".join(f"node,{node},{node},A,1\n" for node in EACH), []
        for lost in ({}, {5: branch}, {3: every}, {3: every, 5: branch}, {5: branch, 6: branch, 7: branch}):
            script = "join,4,8,1,,,\n" + "".join(f"lose,{cycle},{one},{two},A,,\n" for double in lost for cycle in (2 * double, 2 * double + 1)
                                                 for one, two in lost[double])
            heard = [POOR if double in lost else CLEAN for double in range(12)]
            reaches = [losses_peer.Numbers(PRODUCTION, 8, 0).by(heard, listened)[1] for listened in ((), (4,))]
            found.append(reaches[0] < reaches[1])
            least = next(limit for limit in range(1, 1000)
                         if losses_peer.Numbers({**PRODUCTION, "pOffsetCorrectionOut": limit}, 8, 0).hold(reaches[1]))
            for limit, is_covered in ((least, True), (least - 1, False)):
                params = "".join(f"param,{name},{value},,\n" for name, value in {**PRODUCTION, "pOffsetCorrectionOut": limit}.items())
                with self.subTest(lost=list(lost), limit=limit):
                    told = self.series(params + nodes, "doubles,12,,,,\n", script)
                    self.assertEqual(told.lines["lost"][2] != "-", is_covered)
        self.assertEqual(found, [True, True, True, True, False])

    def test_a_deaf_node_at_the_border(self):
        """Node 9 hears nobody in double cycles of a run whose oscillators change: of as many in a row as the rate limit follows the run is
        covered through losses, of one more it is not."""
        params = "".join(f"param,{name},{value},,\n" for name, value in {**PRODUCTION, **CHANGING}.items())
        params += "".join(f"node,{node},{node},A,1\n" for node in EACH) + "node,9,,A,0\n"
        for deaf, is_covered in (((3, 4), True), ((3, 4, 5), False), ((3, 4, 6), True), ((3, 4, 6, 7), False)):
            script = "".join(f"lose,{2 * double + odd},{one},9,A,,\n" for double in deaf for odd in (0, 1) for one in EACH)
            with self.subTest(deaf=deaf):
                told = self.series(params, "doubles,12,,,,\n", script)
                self.assertEqual(told.lines["lost"][0], str(len(deaf)))
                self.assertEqual(told.lines["lost"][2] != "-", is_covered)

    def test_what_does_not_fit_is_found(self):
        """A skew above a number, and a frame that is lost and not reckoned so."""
        run = losses_peer.Run(random.Random(5), "bursts", 12, 0)
        told = self.series(run.params(), run.drift, run.script)
        trace = self.flexray_of_run("trace")
        losses_peer.hold(run, told, trace)
        losses_peer.keep(told, 0, [told.skew(double) for double in range(run.doubles)])
        with self.assertRaisesRegex(AssertionError, r"double cycle \d+: \d+ is above \d+"):
            losses_peer.keep(told, 0, [told.skew(double) - (double == 3) for double in range(run.doubles)])
        run.lost = set()
        with self.assertRaises(AssertionError):
            losses_peer.hold(run, told, trace)

    def test_cliques_are_not_covered(self):
        """Two camps of four nodes, of which nobody is deaf, come apart further than any number; the run is not covered through losses."""
        told = self.series(*losses_peer.cliques())
        self.assertEqual(told.lines["lost"][:4], ["20", "19", "-", "-"])
        self.assertEqual(told.lines["sharp covered"][0], "no")
        self.assertGreater(told.skew(19), 20 * int(told.lines["sharp"][0]))

    def test_cliques_that_a_fifth_node_joins(self):
        """Where a fifth node hears both camps and is heard by them lists meet in each double cycle: the run is covered through losses."""
        params, drift, script = losses_peer.cliques()
        told = self.series(params + "node,5,5,A,0\n", drift + "start,5,10000000,0,,\n", script)
        self.assertEqual({row["heard"] for row in told.cycles}, {"most"})
        bound = 3 * int(told.lines["sharp"][0])
        self.assertEqual(told.lines["lost"][:2], ["20", "19"])
        self.assertLess(int(told.lines["lost"][2]), bound)
        self.assertLess(max(told.skew(double) for double in range(20)), int(told.lines["lost"][2]))


if __name__ == "__main__":
    unittest.main()
