"""Designs: the ten topologies and random goals, held against a brute force, against the program, and against a run."""
import itertools
import json
import os
import random
import re
import shutil
import unittest
from dataclasses import replace
from fractions import Fraction

from bench import FLEXRAY, REPOSITORY, SERIES, Bench, needs_series

from flexlab.base.units import TICKS, decimal
from flexlab.design import solving
from flexlab.design.confirming import Nodes, confirm, parameters_of
from flexlab.design.request import nodes_of_network, wish_of_network
from flexlab.design.solving import BEHIND, Design, NoDesign, Raise, Task, best_at, compensations, least, search
from flexlab.design.tasks import Wish, tasks_of
from flexlab.design.topology import read_network
from flexlab.runs.least import Kind, Sides, holds, sharp_bounds_of

EXAMPLES = os.path.join(REPOSITORY, "examples", "design")
# Of each topology its precision in ns, damping, both limits, macroticks a cycle, slot and action point; None where delays spread
# too far. The figures were reckoned by another program before this one was written.
WANTED = {
    "01-pair": ("0.632", 1, 601, 23, 4852, 28, 1), "02-bus": ("0.705", 1, 601, 28, 4839, 28, 1),
    "03-star": ("2.119", 1, 601, 82, 4773, 30, 2), "04-two-stars": None, "05-star-and-bus": ("2.175", 1, 601, 126, 3133, 21, 2),
    "06-fast": None, "07-truck": ("1.860", 1, 601, 41, 4784, 53, 1), "08-flight": ("2.015", 1, 1923, 77, 8268, 41, 1),
    "09-resonators": ("0.762", 1, 601, 31, 4968, 29, 1), "10-restless": ("3.950", 3, 601, 218, 2752, 21, 3),
}
NAMES = ("pClusterDriftDamping", "pRateCorrectionOut", "pOffsetCorrectionOut", "gMacroPerCycle", "gdStaticSlot",
         "gdActionPointOffset")
BUS = """[goal]
cycle_us = 1000
slots = 20
payload_bytes = 16

[hardware]
microtick_ns = 25
oscillator_ppm = 100
change_ppm_per_cycle = 0
sender_ns = [20, 80]
receiver_ns = [20, 80]
star_ns = [80, 200]
cable_ns_per_m = [5, 6]
flutter_ns = 5
sync_nodes = 4

[[line]]
points = [1, 2, 3, 4]
at_m = [0, 2, 4, 6]
"""


def random_task(chance, micros=2000):
    """A task whose parameters are small, so that all of them can be tried."""
    return Task(Fraction(25), micros, chance.randint(1, 3), chance.randint(0, 2),
                Kind(chance.random() < 0.5, chance.choice((0, 0, 2, 40000, 900000)), chance.randint(1, 3)), chance.random() < 0.5,
                chance.choice((0, 5, 50, 300)), chance.choice((0, 0, 1, 3)), chance.choice((0, 400000, 900000)),
                (chance.randint(0, 2),) * 2,
                chance.choice((0, 1500000, 9000000)), 0, chance.choice((None, Fraction(500))), chance.choice((0, 0, 100000)))


def is_walk_held(task, p):
    """Whether lengths walk, by less than two thirds of the shortest microtick, and the rate limit has room for almost one and that."""
    short, damping = TICKS - task.rate, p["pClusterDriftDamping"]
    walk = task.kind.flutter - 1 + (short - damping * short if damping else TICKS + task.rate)
    room = p["pRateCorrectionOut"] * short - 2 * p["pMicroPerCycle"] * task.rate
    return not task.join and not task.change and 0 < 3 * walk < 2 * short and room - walk >= short - 1


def meets(task, p, behind):
    """Whether these parameters meet all that is asked, by the sides of the checks and by the formulas as docs/FLEXLAB.md has them."""
    sides, macros = sharp_bounds_of(p, task.kind), p["gMacroPerCycle"]
    margin = task.margin
    for number in (1, 2, 3, 4, 5, 6, 7, 8, 9) if task.join else (1, 2, 3, 4, 5):
        left, right = sides[number]
        right += 0 if number in (1, 2, 6) else margin * (1 if number in (3, 7) else macros)
        if not (is_walk_held(task, p) if task.held and number == 1 else holds(number, Sides(left, right))):
            return False
    # The last arrival and the bits behind it end before the slot does, by the shortest microticks in the longest slot.
    apart = sides["reach" if task.join else "near"] + margin
    latest = max(task.latest, task.compensation * TICKS + task.error)
    left = (behind * (task.micros - p["pRateCorrectionOut"]) - macros) * (TICKS - task.rate)
    if not left > macros * (apart + latest + task.frame):
        return False
    if task.standard_ns is not None:
        macrotick = task.micros * task.microtick_ns / macros
        deviation = Fraction(15, 10000)
        if p["gdStaticSlot"] < 2 * p["gdActionPointOffset"] + task.standard_ns / (macrotick * (1 - deviation)):
            return False
        if p["pRateCorrectionOut"] < 2 * task.micros * deviation / (1 - deviation):
            return False
    return True


def at(task, macros, values):
    """The parameters of five values, and what is behind the action point."""
    p = {**task.base(macros), **dict(zip(NAMES[:3], values[:3])), "gdActionPointOffset": values[3], "gdStaticSlot": values[3] + values[4]}
    return p, values[4]


def five(design):
    p = design.parameters
    return tuple(p[name] for name in NAMES[:3]) + (p["gdActionPointOffset"], design.behind)


class LeastSolutions(unittest.TestCase):
    def brute(self, seed, count, reach):
        """Random tasks: each point of a box from the bottom of all ranges that meets what is asked lies in each part at or above
        what is found, which meets it itself."""
        chance, found, points, held = random.Random(seed), 0, 0, 0
        for _ in range(count):
            task = random_task(chance)
            macros = chance.randint(10, 50)
            task = task.with_held_walk or task if chance.random() < 0.7 else task
            one = least(task, macros)
            if isinstance(one, NoDesign):
                continue
            found, held = found + 1, held + task.held
            values = five(one)
            self.assertTrue(meets(task, *at(task, macros, values)), (task, macros, values))
            box = [range(max(low, value - reach), value + 2) for low, value in zip((0, 1, 1, 1, 1), values)]
            for point in itertools.product(*box):
                points += 1
                if any(mine < value for mine, value in zip(point, values)):
                    self.assertFalse(meets(task, *at(task, macros, point)), (task, macros, values, point))
        return found, points, held

    def test_no_point_that_meets_all_lies_below(self):
        found, points, held = self.brute(1, 60, 2)
        self.assertGreater(found, 15)
        self.assertGreater(points, 5000)
        self.assertGreater(held, 2)

    def test_a_held_walk_is_taken_where_it_is_better(self):
        """No point that meets all by C1 or by a held walk has a lower precision, or a shorter slot by that purpose."""
        chance, held = random.Random(8), 0
        for _ in range(24):
            task = replace(random_task(chance), change=0, join=False)
            task = replace(task, kind=replace(task.kind, flutter=chance.choice((2, 40000, 660000, 700000, 999998, 1200000))))
            macros, purpose = chance.randint(10, 50), chance.choice(("precision", "slot"))
            one = best_at(task, macros, purpose)
            if isinstance(one, NoDesign):
                continue
            self.assertTrue(meets(one.task, *at(one.task, macros, five(one))))
            held += one.task.held
            box = [range(4), *(range(max(1, value - 2), value + 2) for value in five(one)[1:])]
            for point in itertools.product(*box):
                if purpose == "slot" and point[3] + point[4] >= one.parameters["gdStaticSlot"]:
                    continue
                p, behind = at(task, macros, point)
                if purpose == "slot" or sharp_bounds_of(p, task.kind)["precision"] < one.bounds["precision"]:
                    self.assertFalse(meets(task, p, behind) or meets(replace(task, held=True), p, behind), (task, macros, five(one), point))
        self.assertGreater(held, 5)

    def test_from_the_bottom_of_all_ranges(self):
        """One goal, and all sets of the five parameters from the bottom on."""
        task = Task(Fraction(25), 2000, 1, 0, Kind(False, 0, 1), False, 5, 0, 0, (0, 0), 0, 0, None)
        best = least(task, 20)
        self.assertIsInstance(best, Design)
        values, good = five(best), []
        box = [range(low, value + 2) for low, value in zip((0, 1, 1, 1, 1), values)]
        for point in itertools.product(*box):
            if meets(task, *at(task, 20, point)):
                good.append(point)
        self.assertEqual(tuple(min(part) for part in zip(*good)), values)
        self.assertIn(values, good)

    def test_all_macroticks(self):
        """The best of a search is the best of all macroticks, each by its own brute force over slots."""
        chance = random.Random(3)
        for _ in range(6):
            task = random_task(chance)
            found = search([task], "slot", 1)
            slots = []
            for macros in range(10, 51):
                one = least(task, macros)
                if isinstance(one, Design):
                    slots.append(one.slot_ns)
            self.assertEqual([one.slot_ns for one in found.best], [min(slots)] if slots else [])
            self.assertEqual(found.count, len(slots))

    def test_no_limit_falls_where_a_parameter_grows(self):
        chance, compared = random.Random(4), 0
        for _ in range(300):
            task = random_task(chance, 20000)
            macros = chance.randint(100, 500)
            low = [chance.randint(0, 5), chance.randint(1, 80), chance.randint(1, 300), chance.randint(1, 20), chance.randint(1, 80)]
            high = [value + chance.choice((0, 0, 1, 7)) for value in low]
            for (name, parameter, mine), (_, _, other) in zip(solving.demands(*at(task, macros, low), task),
                                                              solving.demands(*at(task, macros, high), task)):
                self.assertLessEqual(mine, other, (task, name, parameter, low, high))
                compared += 1
        self.assertGreater(compared, 1500)

    def test_no_compensations_are_better(self):
        """Of a grid of compensations none is better in error, error with deviation and latest arrival at once."""
        chance = random.Random(5)
        for _ in range(40):
            spans = []
            for _ in range(2):
                low = chance.randint(0, 8000000)
                spans.append((low, low + chance.randint(0, 9000000)))
            taken = [(error, error + max(waits) * TICKS) for error, waits in compensations(spans)]
            for waits in itertools.product(range(25), repeat=2):
                error = max(max(high - wait * TICKS, wait * TICKS - low) for (low, high), wait in zip(spans, waits))
                latest = error + max(waits) * TICKS
                self.assertTrue(any(mine <= error and late <= latest for mine, late in taken), (spans, waits))

    def test_a_kept_parameter_is_a_constant(self):
        task = Task(Fraction(25), 200000, 40, 8, Kind(False, 40000, 8), False, 100, 0, 5000000, (7, 7), 1060106000, 0, None)
        one = least(task, 3636)
        kept = replace(task, kept=(("gdStaticSlot", 30),))
        other = least(kept, 3636)
        self.assertEqual((one.parameters["gdStaticSlot"], other.parameters["gdStaticSlot"]), (22, 30))
        self.assertEqual(other.bounds["precision"], one.bounds["precision"])
        short = least(replace(task, kept=(("gdStaticSlot", 20),)), 3636)
        self.assertEqual((short.name, short.parameter), ("kept", "gdStaticSlot"))
        low = least(replace(task, kept=(("pClusterDriftDamping", 1),)), 3636)
        self.assertEqual((low.name, low.parameter, low.value), ("C1", "pClusterDriftDamping", 2))

    def test_the_chain(self):
        """Each step of a chain is one that the parameter needs, and the last values are those of the design."""
        task = Task(Fraction(25), 200000, 40, 8, Kind(True, 40000, 8), True, 100, 1, 5000000, (7, 7), 1060106000, 0, None)
        chain = []
        one = least(task, 3636, chain)
        self.assertIsInstance(one, Design)
        last = {step.parameter: step.value for step in chain}
        self.assertEqual(last[BEHIND], one.behind)
        self.assertTrue(all(one.parameters[name] == value for name, value in last.items() if name != BEHIND))
        for step in chain:
            self.assertIsInstance(step, Raise)
            p, behind = solving.put(step.before, step.behind, step.parameter, step.value - 1, task)
            self.assertFalse(meets(task, p, behind), step)


class Topologies(Bench):
    def test_the_ten(self):
        """Each is confirmed by the program, which refuses each parameter at one less by the check that is named."""
        for name, wanted in WANTED.items():
            path = os.path.join(EXAMPLES, f"{name}.toml")
            with self.subTest(name=name):
                if wanted is None:
                    err = self.flexlab("design", path, status=5)[1]
                    self.assertIn("xDelayError ends at 10 microticks. Bring the delays of a channel nearer together", err)
                    continue
                network = read_network(path)
                wish = wish_of_network(network)
                # All macroticks of a cycle of 16 ms take some ten seconds: bench/design tries them.
                kept = wanted[4] if name == "08-flight" else None
                best = search(tasks_of(wish), "precision", 1, kept=kept).best[0]
                self.assertEqual((decimal(best.precision_ns / 1000, 3), *(best.parameters[key] for key in NAMES)), wanted)
                self.held(wish, confirm(FLEXRAY, best, nodes_of_network(network)), network)

    def held(self, wish, told, network):
        """Holds a design against the program by files that are written here."""
        p, kind = parameters_of(told.design.task, told.design.parameters), wish.kind
        flutter = wish.flutter_ns / told.design.task.microtick_ns * TICKS
        words = ["sharp", str(-(-flutter.numerator // flutter.denominator)), *(["join"] if wish.joins else [])]

        def asked(changed):
            rows = "".join(f"param,{name},{value},,\n" for name, value in changed.items())
            version = "version,2,,,\n" if "pDelayCompensationA" in changed else ""
            nodes = "".join(f"node,{node},{node},AB,1\n" for node in range(1, network.hardware.sync_nodes + 1))
            status, text, line = self.flexray("bound", self.write("params.csv", version + rows + nodes), *words)
            self.assertEqual(status, 0, line)
            return [line for line in text.splitlines() if re.match(rf"(?:{kind} )?C\d", line)], text

        lines, text = asked(p)
        self.assertEqual([line.split()[-4] for line in lines if " holds " not in line], ["C1"] if told.design.task.held else [], text)
        self.assertIn(f"{kind} precision {told.design.bounds['precision']}\n", text)
        self.assertIn("lasts on\n", text)
        named = [one for one in told.neighbours if one.check or one.lasts is not None]
        self.assertGreaterEqual(len(named), 2)
        for one in named:
            changed = dict(p)
            if one.parameter == BEHIND:
                changed["gdStaticSlot"] -= 1
            else:
                changed[one.parameter] -= 1
                changed["gdStaticSlot"] -= one.parameter == "gdActionPointOffset"
            changed["gdNIT"] = changed["gMacroPerCycle"] - changed["gNumberOfStaticSlots"] * changed["gdStaticSlot"]
            lines, text = asked(changed)
            self.assertTrue(one.check is None or any(line.endswith("{} fails {} {}".format(*one.check)) for line in lines), (one, lines))
            self.assertTrue(one.lasts is None or f"lasts {one.lasts}\n" in text, (one, text))

    def test_the_example(self):
        """The page that stands beside the example."""
        for name in os.listdir(EXAMPLES):
            shutil.copy(os.path.join(EXAMPLES, name), self.path(name))
        with open(self.path("flexlab.words"), encoding="utf-8") as file:
            words = file.read().splitlines()
        self.assertEqual(self.flexlab(*words)[0], self.read("printed.txt"))

    def test_a_certificate(self):
        """Each file of the chain is refused by the check of its name, and the design by none."""
        self.write("bus.toml", BUS)
        out = self.flexlab("design", "bus.toml", "--free", "--certificate", "chain")[0]
        self.assertIn("chain/chain.txt", out)
        files = sorted(name for name in os.listdir(self.path("chain")) if name.endswith(".csv"))
        self.assertGreaterEqual(len(files), 4)
        for name in files:
            text = self.flexray("bound", self.path("chain", name), "sharp", "200000")[1]
            failing = re.findall(r"^(?:alone )?(C\d) fails", text, re.M)
            if name == "design.csv":
                self.assertEqual((failing, "\nlasts on\n" in text), (["C1"], True))
            elif "held" in name:
                self.assertRegex(text, r"\nlasts [1-9]\d*\n")
            else:
                self.assertIn(name[3:5], failing)

    def test_what_is_best(self):
        self.write("bus.toml", BUS)
        found = {purpose: json.loads(self.flexlab("design", "bus.toml", "--json", "--for", purpose)[0])["design"]
                 for purpose in ("precision", "slot", "slots", "free")}
        self.assertEqual(min(one["precision"]["us"] for one in found.values()), found["precision"]["precision"]["us"])
        self.assertEqual(min(one["slot_us"] for one in found.values()), found["slot"]["slot_us"])
        self.assertEqual(max(one["fitting_slots"] for one in found.values()), found["slots"]["fitting_slots"])
        self.assertEqual(max(one["free_us"] for one in found.values()), found["free"]["free_us"])
        whole = json.loads(self.flexlab("design", "bus.toml", "--json", "--whole-macroticks")[0])["design"]["parameters"]
        self.assertEqual(whole["pMicroPerCycle"] % whole["gMacroPerCycle"], 0)

    def test_what_is_kept(self):
        self.write("bus.toml", BUS)
        found = json.loads(self.flexlab("design", "bus.toml", "--json", "--keep", "gMacroPerCycle=800", "--keep",
                                        "pClusterDriftDamping=4")[0])
        p = found["design"]["parameters"]
        self.assertEqual((p["gMacroPerCycle"], p["pClusterDriftDamping"], found["kept"]),
                         (800, 4, {"gMacroPerCycle": 800, "pClusterDriftDamping": 4}))
        none = json.loads(self.flexlab("design", "bus.toml", "--json", "--keep", "pClusterDriftDamping=0", status=1)[0])
        self.assertEqual([(one["demand"], one["parameter"]) for one in none["in_the_way"]], [("held walk", "pClusterDriftDamping")])
        self.write("bus.toml", BUS.replace("change_ppm_per_cycle = 0", "change_ppm_per_cycle = 1"))
        none = json.loads(self.flexlab("design", "bus.toml", "--json", "--keep", "pClusterDriftDamping=1", status=1)[0])
        self.assertEqual([(one["demand"], one["parameter"]) for one in none["in_the_way"]], [("C1", "pClusterDriftDamping")])
        for words, told in ((("--keep", "gdNIT=3"), "NAME one of"), (("--keep", "gdStaticSlot=0"), "is from 2 to 1000"),
                            (("--keep", "gdStaticSlot=9", "--keep", "gdStaticSlot=9"), "kept twice"), (("--top", "0"), "from 1 to 50"),
                            (("--margin-ns", "x"), "from 0 to 100000")):
            self.assertIn(told, self.flexlab("design", "bus.toml", *words, status=2)[1])

    def test_a_margin_is_left(self):
        self.write("bus.toml", BUS)
        plain, wide = (json.loads(self.flexlab("design", "bus.toml", "--json", "--margin-ns", ns, "--keep", "gMacroPerCycle=800")[0])
                       for ns in ("0", "400"))
        self.assertLess(min(one["slack_us"] for one in plain["checks"] if one["check"] == "C3"), 0.025)
        for one in wide["checks"]:
            if one["check"] in ("C3", "C4", "C5"):
                self.assertGreaterEqual(one["slack_us"], 0.4)

    def test_where_there_is_none(self):
        self.write("bus.toml", BUS.replace("slots = 20", "slots = 400"))
        out = self.one_line(self.flexlab("design", "bus.toml", "--keep", "gMacroPerCycle=800", status=1)[0])
        self.assertIn("Verdict NO: no parameters within their ranges keep all checks", out)
        self.assertIn("slots and offset correction have no room in the cycle", out)
        slots = int(re.search(r"Nearest (\d+) slots in place of 400", out)[1])
        for count, status in ((slots, 0), (slots + 1, 1)):
            self.write("bus.toml", BUS.replace("slots = 20", f"slots = {count}"))
            self.flexlab("design", "bus.toml", "--keep", "gMacroPerCycle=800", status=status)

    def test_around_a_cluster(self):
        sharp = os.path.join(REPOSITORY, "examples", "sharp", "sharp.toml")
        out = self.one_line(self.flexlab("design", sharp, "--keep", "gMacroPerCycle=3636", "--flutter-ns", "1")[0])
        self.assertIn("Verdict yes: 0.756 us is the least proved precision that there is, with what is kept", out)
        self.assertIn("all checks but C1 hold by flexray bound, the walk is held, and with each free parameter at one less", out)
        self.assertIn("Held walk C1 fails by 0.040 microticks, but the walk is held: oscillators do not change", out)
        self.assertRegex(out, r"pClusterDriftDamping 1 0\.025 at 0 the walk is not held: sync lasts \d+ double cycles")
        self.assertIn("Now the file's own parameters have 0.906 us", out)
        self.assertIn("is a cluster and no topology", self.flexlab("design", sharp, "-o", "x.toml", status=2)[1])

    def test_faults_are_told_by_line(self):
        for old, new, line, told in (
                ("slots = 20", "slots = 0", 3, "goal.slots: 0 is not a whole number from 1 to 1023"),
                ("payload_bytes = 16", "payload_bytes = 15", 4, "goal.payload_bytes: 15 is odd"),
                ("microtick_ns = 25", "microtick_ns = 30", 7, "hardware.microtick_ns: 30 is not 12.5, 25, 50 or 100 ns"),
                ("sender_ns = [20, 80]", "sender_ns = [80, 20]", 10, "hardware.sender_ns: it runs from 80 to 20, which is backward"),
                ("receiver_ns", "reciever_ns", 11, "hardware.reciever_ns: there is no such key; did you mean `receiver_ns`?"),
                ("flutter_ns = 5\n", "", 6, "hardware: the key `flutter_ns` is missing"),
                ("sync_nodes = 4", "sync_nodes = 5", 15, "hardware.sync_nodes: 5 of 4 nodes cannot be sync nodes"),
                ("payload_bytes = 16", "payload_bytes = 16\narbitrary = 2", 16, "hardware.sync_nodes: 4 are too few beside 2 arbitrary: 8"),
                ("at_m = [0, 2, 4, 6]", "at_m = [0, 2]", 19, "line[1].at_m: it has to be a list of 4 places"),
                ("points = [1, 2, 3, 4]", "points = [1, 2, 3, 1]", 18, "line[1].points: 1 stands there twice"),
                ("flutter_ns = 5", "flutter_ns = 501", 14, "hardware.flutter_ns: 501 ns are more than 20 microticks"),
                ("[[line]]", "[[lines]]", 17, "there is no table `lines`; did you mean `line`?"),
                ("[[line]]", '[[line]]\npoints = [5, "S"]\nat_m = [0, 1]\n\n[[line]]', 22,
                 "line[2].points: it is joined to no other line of channel A"),
                ("[[line]]", '[[line]]\npoints = ["S", "T"]\nat_m = [0, 1]\n\n[[line]]\npoints = ["T", "S"]\nat_m = [0, 1]\n\n[[line]]', 22,
                 "line[2].points: it closes a loop on channel A: stars S and T are joined already"),
                ("[[line]]", '[[line]]\npoints = [1, "S"]\nat_m = [0, 1]\n\n[[line]]', 22,
                 "line[2].points: node 1 is on a line of channel A already; a star joins lines")):
            with self.subTest(new=new):
                self.assertIn(old, BUS)
                self.write("bus.toml", BUS.replace(old, new, 1))
                err = self.flexlab("design", "bus.toml", status=5)[1]
                self.assertIn(f"bus.toml:{line}: {told}", err)
        self.write("bus.toml", "not = [toml")
        self.assertIn("this is not TOML", self.flexlab("design", "bus.toml", status=5)[1])
        self.flexlab("design", "not-there.toml", status=3)

    def test_nothing_is_written_over(self):
        self.write("bus.toml", BUS)
        self.write("out.toml", "mine")
        self.assertIn("there already", self.flexlab("design", "bus.toml", "-o", "out.toml", status=3)[1])
        self.assertEqual(self.read("out.toml"), "mine")

    def test_a_run_of_a_design(self):
        """The cluster of a design runs as it is promised; with its delays from the least to the greatest, too."""
        for name, change in (("both", ("", "")), ("one", ("[[line]]", '[[line]]\nchannels = "A"'))):
            self.write(f"{name}.toml", BUS.replace(*change))
            found = json.loads(self.flexlab("design", f"{name}.toml", "--json", "-o", f"{name}-out.toml")[0])
            low, high = found["delays"][0]["from_ns"], found["delays"][0]["to_ns"]
            text, ends = self.read(f"{name}-out.toml"), itertools.cycle((low, high))
            wide = re.sub(r"^ns = .*$", lambda _: f"ns = {next(ends)}", text, flags=re.M)
            self.assertNotEqual(text, wide)
            for cluster in (text, wide):
                self.write("run.toml", cluster)
                run = json.loads(self.flexlab("run", "run.toml", "--json")[0])
                self.assertLessEqual(run["sharp"]["precision"]["ticks"], found["design"]["precision"]["ticks"])
                self.assertTrue(all(check["holds"] for check in run["sharp"]["checks"]))
                self.assertIsNotNone(run["sharp"]["in_sharp_sync"]["double_cycle"])
                self.assertEqual(run["warnings"], [])

    @needs_series
    def test_a_design_is_sharply_covered(self):
        self.write("bus.toml", BUS)
        self.flexlab("design", "bus.toml", "-o", "out.toml")
        run = json.loads(self.flexlab("run", "out.toml", "--json", env={"FLEXRAY_SERIES": SERIES})[0])
        self.assertEqual((run["sharp"]["covered"], run["sharp"]["within_precision"]), (True, True))


class Tasks(unittest.TestCase):
    def wish(self, **changes):
        base = {"cycle_ns": Fraction(5000000), "slots": 40, "words": 8, "arbitrary": 0, "joins": False, "bit_rate": Fraction(10),
                "start_bits": 11, "rate": 100, "change": 0, "flutter_ns": Fraction(1), "last": 8,
                "delays": (("A", Fraction(50), Fraction(300)), ("B", Fraction(50), Fraction(300))), "latest_ns": Fraction(300),
                "microticks_ns": (Fraction(25),)}
        return Wish(**{**base, **changes})

    def test_lists_of_microticks(self):
        tasks = tasks_of(self.wish(microticks_ns=(Fraction(25), Fraction(50))))
        self.assertEqual({task.microtick_ns for task in tasks}, {25, 50})
        # A longer microtick rounds more.
        best = search(tasks, "precision", 1).best[0]
        self.assertEqual(best.task.microtick_ns, 25)

    def test_random_goals_by_the_program(self):
        """Designs of random goals, each held by the program, and refused at one less."""
        chance, count, refused = random.Random(6), 0, 0
        for _ in range(12):
            last = chance.randint(2, 8)
            wish = self.wish(arbitrary=chance.choice((0, 1)), joins=chance.random() < 0.5, rate=chance.choice((5, 100, 1500)),
                             change=chance.choice((0, 0, 2)), flutter_ns=Fraction(chance.choice((0, 1, 25, 60))), last=last,
                             free=chance.random() < 0.5, slots=chance.randint(10, 40),
                             delays=tuple((name, Fraction(low), Fraction(low + chance.randint(0, 300)))
                                          for name, low in (("A", chance.randint(0, 200)), ("B", chance.randint(0, 200)))))
            nodes = Nodes(tuple((number, number, "AB", True) for number in range(1, last + 1)))
            macros = chance.randint(2000, 5000)
            found = search(tasks_of(wish), "precision", 1, kept=macros)
            for one in found.best:
                told = confirm(FLEXRAY, one, nodes)
                count += 1
                refused += sum(neighbour.check is not None for neighbour in told.neighbours)
        self.assertGreaterEqual(count, 8)
        self.assertGreaterEqual(refused, 2 * count)


if __name__ == "__main__":
    unittest.main()
