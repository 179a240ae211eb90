"""What the sharper bounds say of a run is of the double cycles from DOUBLE on, the first in sharp sync by the numbers for the flutter
from it on: each line of `run .. sharp` and of `flexray-series .. sharp` is that of another program, of small random runs whose delays
flutter, whose oscillators and delays are off and whose frames are lost before DOUBLE and behind. FLEXRAY_SHARP_RUNS is how many are
tried here (40)."""
import collections
import os
import random
import subprocess
import unittest

import sharp_peer
from bench import FLEXRAY, SERIES, Bench, example_calls, needs_series
from clocks_peer import PRODUCTION
from flexray import texts

RUNS = int(os.environ.get("FLEXRAY_SHARP_RUNS", "40"))
NODES = "".join(f"node,{node},{node},AB,1\n" for node in (1, 2, 3))
PARAMS = "".join(f"param,{name},{value},,\n" for name, value in PRODUCTION.items()) + NODES


def files_of(drift, script="", doubles=4):
    return sharp_peer.Files(PARAMS, f"doubles,{doubles},,,,\n" + "".join(f"{line}\n" for line in drift.split()), script)


class Definitions(unittest.TestCase):
    """The second program itself, where one can see what is right."""

    def test_the_flutter_falls_and_has_its_last_place(self):
        found = files_of("delay,3,1,A,1,7000300 delay,3,1,A,2,7000000 delay,1,2,B,5,7000200 delay,1,2,B,6,7000000 "
                         "delay,2,1,A,5,7000200 delay,1,2,A,6,9000000 delay,2,3,A,7,7000100")
        self.assertEqual([found.flutter(double) for double in range(4)], [300, 200, 200, 100])
        self.assertEqual([found.fluttering(double) for double in range(4)],
                         [(300, 0, 3, 1, "A"), (200, 2, 1, 2, "B"), (200, 2, 1, 2, "B"), (100, 3, 2, 3, "A")])
        self.assertIsNone(files_of("delay,1,2,A,4,9000000").fluttering(0))
        beside = files_of("delay,1,2,A,3,7000009 delay,2,1,A,3,7000009 delay,2,3,A,3,7000008", "arbitrary,1,,,,,\n")
        self.assertEqual(beside.fluttering(0), (8, 1, 2, 3, "A"))

    def test_which_gaps_count(self):
        """Lengths and delays from the first cycle of the double cycle on, changes into a later one, links from the double cycle on."""
        far, wide = 7_000_000 + PRODUCTION["xDelayError"] + 1, 1_000_000 + PRODUCTION["xRateBound"] + 1
        for drift, script, wanted in (
                (f"length,2,0,{wide} length,2,2,1000000", "", {0: ["length 2 0 1000101", "change 2 2 -101"], 1: [], 2: []}),
                (f"length,2,2,{wide}", "", {0: ["length 2 2 1000101", "change 2 2 101"], 1: ["length 2 2 1000101"],
                                            3: ["length 2 6 1000101"]}),
                ("length,1,0,1000000 length,1,4,1000001", "", {0: ["change 1 4 1"], 1: ["change 1 4 1"], 2: [], 3: []}),
                ("length,1,0,1000000 length,1,5,1000001", "", {2: ["change 1 5 1"], 3: []}),
                (f"delay,1,3,A,0,7000000 delay,1,3,A,3,{far} delay,1,3,A,5,7000000", "",
                 {0: ["delay 1 3 A 3 12000001"], 1: ["delay 1 3 A 3 12000001"], 2: ["delay 1 3 A 4 12000001"], 3: []}),
                ("", "lose,2,1,2,A,,\nlose,3,1,2,B,,\n", {0: ["link 1 2 1"], 1: ["link 1 2 1"], 2: []}),
                ("", "arbitrary,1,,,,,\n", {0: ["count 2 1"], 3: ["count 2 1"]})):
            found = files_of(drift, script)
            for since, gaps in wanted.items():
                with self.subTest(drift=drift, script=script, since=since):
                    self.assertEqual(found.gaps(since), gaps)


@needs_series
class Texts(Bench):
    def answered(self, program, *words):
        return subprocess.run([program, *words], capture_output=True, text=True, check=True).stdout

    def hold(self, files, paths):
        """Both texts of a run against those of the second program, and what is read of them."""
        told = sharp_peer.Texts(files, self.answered(FLEXRAY, "trace", *paths))
        series, report = self.answered(SERIES, *paths, "sharp"), self.answered(FLEXRAY, "run", *paths, "sharp")
        self.assertEqual(series.splitlines(), told.series().splitlines())
        self.assertEqual(report, told.report() + self.answered(FLEXRAY, "run", *paths))
        read, found = texts.sharp_series(series), texts.sharp_report(report)
        turn = files.fluttering(told.since)
        self.assertEqual((read.flutter, read.fluttering), (turn[0], (*turn[2:], turn[1])) if turn else (0, None))
        self.assertEqual((found.flutter, found.fluttering, found.losses), (read.flutter, read.fluttering, read.losses))
        self.assertEqual((read.sharp_synced, found.in_sync, read.losses), (told.double, told.double, told.lost()))
        return told

    def test_random_runs(self):
        seen = collections.Counter()
        for seed in range(RUNS):
            run = sharp_peer.Run(random.Random(seed))
            texts_of = run.params, run.drift, run.script
            paths = [self.write(f"{name}.csv", text) for name, text in zip(("params", "drift", "script"), texts_of)]
            with self.subTest(seed=seed):
                told = self.hold(sharp_peer.Files(*texts_of), paths)
                files, first = told.files, told.double
                seen["never"] += first is None
                seen["covered"] += not told.gaps
                seen["through losses"] += bool(told.bounds)
                if first:
                    seen["an earlier gap"] += len(files.gaps(0)) > len(files.gaps(first))
                    seen["an earlier flutter"] += files.flutter(0) > files.flutter(first)
                    seen["an earlier loss"] += any(one.word != "all" for one in told.heard[:first])
                    seen["a later loss"] += any(one.word != "all" for one in told.heard[first:])
                    seen["a later flutter"] += files.flutter(first) > 0
        if RUNS >= 40:
            self.assertEqual({what for what, count in seen.items() if count < RUNS // 20}, set(), seen)

    def test_examples(self):
        count = 0
        for call in example_calls():
            paths = [str(path) for path in call.files]
            if call.words[-1:] == ["sharp"] and call.status == 0 and len(paths) == 3:
                read = [path.read_text("utf-8") for path in call.files]
                if "pDelayCompensationA" not in read[0]:
                    with self.subTest(call=call.name):
                        self.hold(sharp_peer.Files(*read), paths)
                        count += 1
        self.assertGreater(count, 6)

    def test_what_does_not_fit_is_found(self):
        """A delay that flutters more, one cycle later, and a frame that is lost and not reckoned so."""
        run = next(run for run in map(sharp_peer.Run, map(random.Random, range(1000))) if not run.script and run.doubles > 4)
        paths = [self.write(f"{name}.csv", text) for name, text in zip(("params", "drift", "script"), (run.params, run.drift, run.script))]
        one, two = run.correct[:2]
        row = f"delay,{one},{two},A,{2 * run.doubles - 1},{99 * sharp_peer.MILLION}\n"
        kept = "".join(line for line in run.drift.splitlines(True) if not line.startswith(row[:row.rindex(",")]))
        with self.assertRaises(AssertionError):
            self.hold(sharp_peer.Files(run.params, kept + row, run.script), paths)
        with self.assertRaises(AssertionError):
            lost = "".join(f"lose,{2 * run.doubles - 1},{one},{two},{channel},,\n" for channel in "AB")
            self.hold(sharp_peer.Files(run.params, run.drift, lost), paths)


if __name__ == "__main__":
    unittest.main()
