"""The page of a run: what it says of sync, coverage, skew and checks, and that its numbers are flexray's."""
import os
import re
import subprocess
import sys
import unittest
from fractions import Fraction

from bench import EXAMPLE, FLEXLAB, SERIES, Bench, edited, needs_series
from flexlab.runs import sync


# Limits of the example that suffice for nodes that join.
WIDE = (("pRateCorrectionOut = 81", "pRateCorrectionOut = 85"),
        ("pOffsetCorrectionOut = 320", "pOffsetCorrectionOut = 572"),
        ("gdActionPointOffset = 10", "gdActionPointOffset = 15"))


class Pages(Bench):
    def page(self, text, *words, env=None):
        self.write("a.toml", text)
        return self.one_line(self.flexlab("run", *words, "a.toml", env=env)[0])

    def files(self, folder="a.lab"):
        return [self.path(folder, f"{name}.csv") for name in ("params", "drift", "script")]

    def test_the_example(self):
        page = self.page(EXAMPLE)
        report = self.read("a.lab", "report.txt")
        self.assertEqual(self.flexray("run", *self.files()), (0, report, ""))
        double = int(re.search(r"^in sync (\d+)$", report, re.M)[1])
        precision = Fraction(re.search(r"^precision (\d+)$", report, re.M)[1])
        self.assertIn("covered yes", report)
        self.assertIn(f"in sync yes, from double cycle {double} on (cycle {2 * double}, {10 * double}.000 ms), and "
                      "still in sync at the end", page)
        self.assertIn("covered yes:", page)
        self.assertIn(f"Classical the bound that flexray run prints: {float(precision * 25 / 10**9):.3f} us", page)
        self.assertIn("within yes", page)
        self.assertIn("C1 to C5 hold", page)
        self.assertNotIn("WARNING", page)

    def test_ppm_is_read_back_with_its_sign(self):
        page = self.page(EXAMPLE)
        self.assertRegex(page, r"1 active \+150\.02 \+150\.02 999850 ")
        self.assertRegex(page, r"2 active -149\.98 -149\.98 1000150 ")
        self.assertRegex(page, r"3 active -40\.00 \+20\.00 999980 ")
        self.assertIn("6 arbitrary", page)
        # A fast clock has more microticks in a cycle, so its rate term is positive.
        rates = {int(node): int(rate) for node, rate in re.findall(r"^node (\d+) \S+ next \d+ rate (-?\d+)",
                                                                  self.read("a.lab", "report.txt"), re.M)}
        self.assertGreater(rates[1], 0)
        self.assertLess(rates[2], 0)

    def test_the_skew_in_sync_is_that_of_the_rest_of_the_run(self):
        page = self.page(edited(("drift = 150", "drift = 200")))
        self.assertIn("before sync, so it is not to be held against the precision", page)
        told = re.search(r"skew in sync ([\d.]+) us at most, ([\d.]+) % of the bound \(cycle (\d+)", page)
        report = self.read("a.lab", "report.txt")
        first = 2 * int(re.search(r"^in sync (\d+)$", report, re.M)[1])
        self.assertGreaterEqual(int(told[3]), first)
        again = self.flexray("run", *self.files("a.lab/in-sync"))[1]
        skew = int(re.search(r"^greatest skew (\d+)", again, re.M)[1])
        self.assertEqual(told[1], f"{float(Fraction(skew * 25, 10**9)):.3f}")
        self.assertLess(skew, int(re.search(r"^greatest skew (\d+)", report, re.M)[1]))

    def test_sync_that_is_lost(self):
        page = self.page(EXAMPLE + '[[oscillator]]\nnodes = 1\ncycles = "200-"\nppm = -1400\n')
        self.assertRegex(page, r"in sync NOT AT THE END: from double cycle \d+ on .* lost in double cycle 10\d ")
        self.assertIn("covered NO: nothing is promised", page)
        self.assertIn("within NO", page)
        self.assertRegex(page, r"skew in sync [\d.]+ us at most since it was first in sync, 1\d\d\.\d % of the bound")
        self.assertIn("in cycle 200 the oscillator of node 1 is off by -1400.04 ppm (its microtick lasts 1001402 "
                      "ticks)", page)

    def test_sync_that_is_lost_by_a_passive_node(self):
        page = self.page(edited(("early = [1, 3, 5]", "early = [1, 3]"))
                         + '[[lose]]\nfrom = "all"\nto = 5\nchannels = "A"\ncycles = "100-103"\n')
        rows = self.read("a.lab", "trace.csv").splitlines()
        self.assertEqual({row.split(",")[2] for row in rows if row.endswith("passive")}, {"5"})
        self.assertIn("lost in double cycle 52 (cycle 104), and in sync again at the end", page)

    def test_never_in_sync(self):
        page = self.page(edited(("start_us = 1.5", "start_us = 900"), ("double_cycles = 200", "double_cycles = 91"),
                                ('cycles = "181-"', "cycles = 181")))
        self.assertIn("in sync NEVER", page)
        self.assertIn("there is none", page)

    def test_a_node_that_joins(self):
        join = "[[join]]\nnode = 5\nreference = 1\ndouble_cycle = {}\n"
        page = self.page(edited(*WIDE) + join.format(20))
        self.assertIn("covered yes", self.read("a.lab", "report.txt"))
        self.assertIn("C1 to C9 hold", page)
        self.assertRegex(page, r"5 active \+0\.00 \+0\.00 1000000 ")
        self.assertIn("5 joins: it listens to node 1 in double cycle 20, and takes part from cycle 46 on (230.000 ms)",
                      page)
        self.assertIn("nodes run from cycle 0 or join", page)
        rows = [line.split(",")[1] for line in self.read("a.lab", "trace.csv").splitlines()
                if re.match(r"cycle,\d+,5,", line)]
        self.assertEqual(rows, [str(cycle) for cycle in range(46, 400)])
        page = self.page(edited(*WIDE) + join.format(20)
                         + '[[lose]]\nfrom = 1\nto = 5\nchannels = "A"\ncycles = 41\n')
        self.assertIn("5 joins: it listens to node 1 in double cycle 20, and takes no part in this run", page)
        self.assertIn("no channel carries the frames of node 1 to node 5 in both its cycles (cycles 40 and 41)", page)
        page = self.page(EXAMPLE + join.format(20))
        self.assertIn("check C6 fails, see below", page)
        self.assertIn("all checks hold with", page)

    def test_frames_and_skew_beside_a_node_that_joins(self):
        text = edited(*WIDE) + "[[join]]\nnode = 4\nreference = 1\ndouble_cycle = 20\n"
        self.write("a.toml", text)
        self.assertIn("as many on each channel", self.flexlab("pcap", "a.toml")[0])
        # From its first double cycle in sync on the run is run again, and there too the node joins.
        page = self.page(edited(("drift = 150", "drift = 200"), text=text))
        self.assertIn("before sync, so it is not to be held against the precision", page)
        self.assertRegex(page, r"skew in sync [\d.]+ us at most")
        first = int(re.search(r"^in sync (\d+)$", self.read("a.lab", "report.txt"), re.M)[1])
        self.assertEqual(self.read("a.lab", "in-sync", "script.csv").splitlines()[1], f"join,{20 - first},4,1,,,")

    def test_the_first_sync_of_a_run_that_nodes_join(self):
        yes, no = True, False
        for synced, told, joins, fits in (((yes, yes), 0, {}, yes), ((yes, yes), 1, {}, no), ((no, no), None, {}, yes),
                                          ((yes, no), None, {}, no), ((no, yes, yes, yes), 3, {5: (0, 1)}, yes),
                                          ((yes, yes, yes, yes), 3, {5: (0, 1)}, no), ((no, yes), 0, {}, no),
                                          ((no, yes, yes), None, {5: (0, 1)}, yes)):
            with self.subTest(synced=synced, told=told):
                self.assertEqual(sync.fits(synced, told, joins), fits)

    def test_gaps_in_words(self):
        for changes, more, told in (
                ((), '[[oscillator]]\nnodes = 4\ncycles = "9-"\nppm = 60\n', "in cycle 9 the microtick of node 4 "
                                                                             "changes by -40 ticks"),
                (("microticks = 0.3", "microticks = 0.7"), "", "frames of node 1 travel 0.018 us to node 2 on "
                                                               "channel A"),
                ((), '[[lose]]\nfrom = 2\nto = 4\ncycles = 50\n', "in double cycle 25 no channel carries the "
                                                                  "frames of node 2 to "
                                                              "node 4 in both its cycles (cycles 50 and 51)"),
                (("late = [2, 4]", "late = 4"), "[[say]]\nnode = 2\nto = 1\ncycles = 9\n", "3 correct sync nodes "
                                                                                           "do not outweigh 2 "
                                                                                           "arbitrary ones")):
            with self.subTest(told=told):
                page = self.page(edited(*([changes] if changes else [])) + more)
                self.assertIn("covered NO", page)
                self.assertIn(told, page)

    def test_advice_is_tried_and_holds(self):
        page = self.page(edited(("pClusterDriftDamping = 5", "pClusterDriftDamping = 1"),
                                ("pOffsetCorrectionOut = 320", "pOffsetCorrectionOut = 60")))
        self.assertIn("check C1 fails:", page)
        self.assertIn("turn pClusterDriftDamping: it is 1, and with all else as it is C1 asks for 2 at least", page)
        found = re.search(r"all checks hold with ((?:\w+ = \d+(?:, )?)+)", page)
        self.assertIsNotNone(found, page)
        text, values = EXAMPLE, dict(re.findall(r"(\w+) = (\d+)", found[1]))
        for name, value in values.items():
            text = re.sub(rf"^{name} = \d+", f"{name} = {value}", text, flags=re.M)
        self.assertIn("C1 to C5 hold", self.page(text))
        lower = re.sub(r"^pOffsetCorrectionOut = \d+", "pOffsetCorrectionOut = "
                                                       f"{int(values['pOffsetCorrectionOut']) - 1}",
                       text, flags=re.M)
        self.assertIn("check C3 fails", self.page(lower))

    def test_advice_has_room_for_the_limit(self):
        late = (("pOffsetCorrectionOut = 320", "pOffsetCorrectionOut = 60"),
                ("gOffsetCorrectionStart = 4900", "gOffsetCorrectionStart = 4998"))
        page = self.page(edited(*late))
        told = re.search(r"asks for an earlier gOffsetCorrectionStart, (\d+) at most", page)
        self.assertIsNotNone(told, page)
        self.assertIn(f"all checks hold with gOffsetCorrectionStart = {told[1]}, pOffsetCorrectionOut = 125. ", page)
        for start, status in ((int(told[1]), 0), (int(told[1]) + 1, 1)):
            self.write("a.toml", edited(("pOffsetCorrectionOut = 320", "pOffsetCorrectionOut = 125"),
                                        ("gOffsetCorrectionStart = 4900", f"gOffsetCorrectionStart = {start}")))
            self.flexlab("run", "a.toml", status=status)

    def test_each_check_has_its_parameter(self):
        for old, new, told in (
                ("pClusterDriftDamping = 5", "pClusterDriftDamping = 1", "C1 fails"),
                ("pRateCorrectionOut = 81", "pRateCorrectionOut = 70", "turn pRateCorrectionOut: it is 70"),
                ("pOffsetCorrectionOut = 320", "pOffsetCorrectionOut = 100", "turn pOffsetCorrectionOut: it is 100"),
                ("gdActionPointOffset = 10", "gdActionPointOffset = 2", "turn gdActionPointOffset: it is 2"),
                ("gdActionPointOffset = 10", "gdActionPointOffset = 48", "turn gdStaticSlot: it is 50, and with "
                                                                         "all else as it is C5 asks for 52 at least")):
            with self.subTest(new=new):
                self.assertIn(told, self.page(edited((old, new))))

    def test_the_model_leaves_out_how_long_a_frame_is(self):
        page = self.page(edited(("gPayloadLengthStatic = 8", "gPayloadLengthStatic = 127")))
        self.assertIn("WARNING a static frame does not fit into its slot: 2633 bits and 11 of idle last 264.400 "
                      "us", page)
        self.assertIn("behind the action point the slot has 40.000 us", page)
        self.assertNotIn("does not fit", self.page(edited(("gPayloadLengthStatic = 8", "gPayloadLengthStatic = 14"))))
        self.assertIn("does not fit", self.page(edited(("gPayloadLengthStatic = 8", "gPayloadLengthStatic = 15"))))

    def test_a_refusal_is_explained(self):
        self.write("a.toml", edited(("gdNIT = 2000", "gdNIT = 2001")))
        err = self.flexlab("run", "a.toml", status=1)[1]
        self.assertIn("params: constraint 1", err)
        self.assertIn("5000 is not 60 * 50 + 2001 = 5001", err)

    def series(self, *last):
        return self.series_of([900000000 if cycle < 2 else 40000000 for cycle in range(400)], *last)

    def test_the_series_is_taken_where_it_is_there(self):
        self.write("a.toml", EXAMPLE)
        env = self.series("greatest,80000000,5,4900,", "synced,yes,,,", "within,yes,,,")
        page = self.one_line(self.flexlab("run", "a.toml", env=env)[0])
        self.assertIn("skew in sync 2.000 us at most", page)
        self.assertIn("(cycle 5, macrotick 4900)", page)
        self.assertIn("within yes:", page)
        self.assertNotIn("Not installed", page)
        env = self.series("greatest,400000000,5,4900,", "synced,yes,,,", "within,no,5,17,")
        page = self.one_line(self.flexlab("run", "a.toml", env=env)[0])
        self.assertIn("within NO: since it was first in sync the skew was above the bound, first in cycle 5, "
                      "macrotick 17", page)
        self.assertIn("not understood: within,maybe", self.flexlab("run", "a.toml", env=self.series("within,maybe"),
                                                                   status=6)[1])

    @needs_series
    def test_the_page_with_a_series_has_the_same_numbers(self):
        lost = EXAMPLE + '[[oscillator]]\nnodes = 1\ncycles = "200-"\nppm = -1400\n'
        late = edited(("drift = 150", "drift = 200"))
        never = edited(("start_us = 1.5", "start_us = 900"))
        for text in (EXAMPLE, late, never, lost):
            without, page = self.page(text), self.page(text, env={"FLEXRAY_SERIES": SERIES})
            self.assertIn("Not installed", without)
            self.assertNotIn("Not installed", page)
            for words in (r"in sync (?:yes|N).*? covered", r"skew in sync [\d.]+ us at most.*? \(", r"within (?:yes|NO)"):
                found = re.search(words, without)
                if found:
                    self.assertIn(found[0], page)

    def test_a_series_that_does_not_fit_the_trace(self):
        self.write("a.toml", edited(("drift = 150", "drift = 10")))
        env = self.series("greatest,80000000,5,4900,", "synced,yes,,,", "within,yes,,,")
        self.assertIn("and the trace does not", self.flexlab("run", "a.toml", env=env, status=6)[1])

    def test_what_is_not_understood_is_no_page(self):
        strange = self.write("strange", "#!/bin/sh\necho hello\n")
        os.chmod(strange, 0o755)
        self.write("a.toml", EXAMPLE)
        self.assertIn("not understood: hello", self.flexlab("run", "--flexray", strange, "a.toml", status=6)[1])

    def test_a_missing_program(self):
        self.write("a.toml", EXAMPLE)
        err = self.flexlab("run", "--flexray", "none", "a.toml", status=4)[1]
        self.assertIn("none, which --flexray names, is no program", err)


class Words(Bench):
    def test_an_older_python_is_told(self):
        program = (f"import runpy, sys\nsys.version_info = (3, 10, 12, 'final', 0)\nsys.modules['tomllib'] = None\n"
                   f"sys.argv = [{FLEXLAB!r}, 'run', 'a.toml']\nrunpy.run_path({FLEXLAB!r}, run_name='__main__')\n")
        ended = subprocess.run([sys.executable, "-c", program], capture_output=True, text=True, check=False, cwd=self.room)
        self.assertEqual(ended.returncode, 4)
        self.assertIn("flexlab: it needs Python 3.11 or later, and this is Python 3.10", ended.stderr)
        self.assertNotIn("Traceback", ended.stderr)

    def test_help(self):
        self.assertIn("exit statuses", self.flexlab("--help")[0])
        for request in ("new", "build", "run", "power", "settle", "precision", "worst", "explain", "study", "capture",
                        "pcap"):
            told = self.flexlab(request, "--help")[0]
            self.assertIn("usage: flexlab " + request, told)
            self.assertIn("exit statuses", told)

    def test_wrong_words(self):
        for words in ((), ("go",), ("run",), ("run", "a", "b"), ("run", "--fast", "a"), ("new",)):
            self.flexlab(*words, status=2)


if __name__ == "__main__":
    unittest.main()
