"""The worst run of a cluster: what is found is covered and in sync, is written, and is the same for the same words."""
import os
import re
import unittest

from bench import EXAMPLE, REPOSITORY, Bench, edited

# The example in as few lines as its precision needs, so that the runs are short.
SMALL = edited(("gPayloadLengthStatic = 8", "gPayloadLengthStatic = 0"))
WORDS = ("--runs", "12", "--double-cycles", "6")


class Worst(Bench):
    def page(self, text, *words, status=0):
        self.write("a.toml", text)
        out, err = self.flexlab("worst", *(words or WORDS), "a.toml", status=status)
        return self.one_line(out if status == 0 else err)

    def report(self, folder):
        paths = [self.path("a.worst", folder, f"{name}.csv") for name in ("params", "drift", "script")]
        status, text, _ = self.flexray("run", *paths)
        self.assertEqual(status, 0)
        return text

    def test_both_runs_are_covered_in_sync_and_as_told(self):
        page = self.page(SMALL)
        precision = 316062960
        for folder, name in (("edge", "Edge of sync"), ("kept", "Worst found")):
            text = self.report(folder)
            self.assertIn("\ncovered yes\nin sync 0\n", text)
            skew, cycle, macrotick = map(int, re.search(r"greatest skew (\d+) cycle (\d+) macrotick (\d+)", text).groups())
            self.assertIn(f"{name} {skew * 25 / 10**9:.3f} us, {100 * skew / precision:.1f} % (cycle {cycle}, macrotick "
                          f"{macrotick})", page)
        told = {name: float(re.search(rf"{name} [\d.]+ us, ([\d.]+) %", page)[1]) for name in ("Edge of sync", "By hand",
                                                                                              "Worst found")}
        self.assertGreater(told["Edge of sync"], 98.5)
        self.assertGreater(told["By hand"], 30)
        self.assertGreaterEqual(told["Worst found"], told["By hand"])
        who = self.read("a.worst", "kept", "who.txt")
        self.assertEqual(sorted(set(re.findall(r"^node (\d)", who, re.M))), ["1", "2", "3", "4", "5"])
        self.assertIn("is told in odd cycles by node 6: late", who)

    def test_the_same_words_find_the_same(self):
        pages = []
        for words in (WORDS, WORDS, (*WORDS, "--seed", "2"), (*WORDS, "--jobs", "2")):
            self.page(SMALL, *words)
            pages.append((self.read("a.worst", "worst.txt"), self.read("a.worst", "kept", "drift.csv")))
        self.assertEqual(pages[0], pages[1])
        skews = [float(re.search(r"Worst found +([\d.]+)", page)[1]) for page, _ in pages]
        # Two seeds side by side are the better of both.
        self.assertEqual(skews[3], max(skews[0], skews[2]))

    def test_good_oscillators_do_not_reach_the_edge(self):
        page = self.page(edited(("oscillator_ppm = 200", "oscillator_ppm = 50"), text=SMALL))
        self.assertIn("oscillators within 50 ticks (about ppm) cannot make lengths differ by lambda: it takes 96 for that",
                      page)

    def test_nodes_that_join_are_left_out(self):
        page = self.page(SMALL + "[[join]]\nnode = 5\nreference = 1\ndouble_cycle = 1\n")
        self.assertIn("Left out nodes that join", page)

    def test_where_no_run_is_covered(self):
        for text, told in ((edited(("pClusterDriftDamping = 5", "pClusterDriftDamping = 2"), text=SMALL), "C1 of the classical bound fails, so no run"),
                           (SMALL.replace("late = [2, 4]", "late = 2").replace("to = [3, 4]", "to = 3") + "[[say]]\nnode = 4\nto = 1\ncycles = 3\n",
                            "3 correct sync nodes do not outweigh 2 arbitrary ones"),
                           (re.sub(r'channels = "AB"(\ncoldstart = true\nppm = "drift")', r'channels = "B"\1', SMALL).replace(
                               'from = 1\nto = [3, 4]', 'from = 2\nto = [3, 4]').replace("early = [1, 3, 5]", "early = [1, 3]"),
                            "no channel carries the frames of node 1 to node 5")):
            with self.subTest(told=told):
                self.assertIn(told, self.page(text, status=1))
        alone = SMALL[:SMALL.index("[[node]]")] + '[[node]]\nid = 1\nkey_slot = 1\nchannels = "A"\n'
        self.assertIn("no two correct nodes", self.page(alone, status=1))

    def test_wrong_words(self):
        self.write("a.toml", SMALL)
        for words in (("--runs", "0"), ("--jobs", "0"), ("--seconds", "0"), ("--double-cycles", "1")):
            self.flexlab("worst", *words, "a.toml", status=2)


class Examples(Bench):
    """What docs/PRECISION.md says of kept runs stands in their files."""

    def test_how_tight_it_is(self):
        for name, least, most in (("offset/edge", 98.8, 98.9), ("worst/alone", 16.1, 16.2), ("worst/one", 40.3, 40.4),
                                  ("worst/two", 57.5, 57.7), ("worst/bench", 39.9, 40.1)):
            with open(os.path.join(REPOSITORY, "examples", name, "printed.txt"), encoding="ascii") as file:
                text = file.read()
            self.assertIn("\ncovered yes\nin sync 0\n", text)
            numbers = [int(re.search(rf"^{words} (\d+)", text, re.M)[1]) for words in ("greatest skew", "precision")]
            self.assertTrue(least <= 100 * numbers[0] / numbers[1] <= most, name)


if __name__ == "__main__":
    unittest.main()
