"""The verdict in front of a page, all gaps of a cluster beside the first one that the report names, and the frames that are lost."""
import json
import unittest

from bench import EXAMPLE, FLEXRAY, Bench, edited

from flexlab.base.files import write_files
from flexlab.program import calls, report
from flexlab.runs.every_gap import every_gap
from flexlab.toml.cluster import read_cluster

SHORT = edited(("double_cycles = 200", "double_cycles = 30"))
LOST = '\n[[lose]]\nfrom = 1\nto = 2\ncycles = "20-21"\n'
FEWER = ("late = [2, 4]", "late = [2]")
SECOND = '\n[[two_faced]]\nnode = 4\ncycles = "all"\nearly = [1, 3, 5]\nlate = [2]\nmicroticks = 60\n'
# Clusters whose checks hold: what is put in, and which kinds of gap they have, in the order in which they are looked for.
GAPS = {
    "none": ((), "", []),
    "count": ((FEWER,), SECOND, ["count"]),
    "length": ((("drift = 150", "drift = 250"),), "", ["length"]),
    "change": ((), '\n[[oscillator]]\nnodes = 4\ncycles = "10-20"\nppm = 60\n', ["change"]),
    "delay": ((("microticks = 0.3", "microticks = 0.7"),), "", ["delay"]),
    "link": ((), LOST, ["link"]),
    "one channel": ((), LOST.replace("to = 2", 'to = 2\nchannels = "B"'), []),
    "two cycles": ((), LOST.replace('"20-21"', '"21-22"'), ["link"]),
    "all": ((FEWER, ("drift = 150", "drift = 250"), ("microticks = 0.3", "microticks = 0.7")),
            SECOND + '\n[[oscillator]]\nnodes = 3\ncycles = "10-20"\nppm = 60\n' + LOST, ["count", "length", "change", "delay", "link"]),
}


class Gaps(Bench):
    def test_the_first_is_that_of_the_report(self):
        for name, (changes, more, kinds) in GAPS.items():
            with self.subTest(name=name):
                cluster = read_cluster(self.write("a.toml", edited(*changes, text=SHORT) + more))
                gaps = every_gap(cluster)
                self.assertEqual([gap[0] for gap in gaps], kinds)
                status, text, told = calls.call(FLEXRAY, ["run", *write_files(cluster, self.path("lab"))])
                self.assertEqual(status, 0, told)
                self.assertEqual(report.read_report(text).gap, gaps[0] if gaps else None)

    def test_they_are_told_with_the_count_first(self):
        changes, more, kinds = GAPS["all"]
        self.write("a.toml", edited(*changes, text=SHORT) + more)
        page = self.one_line(self.flexlab("run", "a.toml")[0])
        self.assertTrue(page.startswith("Verdict NOT PROVED: 3 correct sync nodes do not outweigh 2 arbitrary ones"), page[:200])
        self.assertIn("(and 4 more, below)", page)
        told = "do not outweigh", "the oscillator of node", "the microtick of node", "frames of node 1 travel", "no channel carries"
        places = [page.index(text, page.index("Gaps ")) for text in told]
        self.assertEqual(places, sorted(places))
        self.assertRegex(page, r"Lost \d+ times a frame of node 1 does not reach a receiver, or is damaged, in cycles 20 to 21 on "
                               r"channels A and B")
        found = json.loads(self.flexlab("run", "a.toml", "--json")[0])
        self.assertEqual([gap.split()[0] for gap in found["gaps"]], kinds)
        self.assertEqual((found["verdict"]["proved"], len(found["gaps_told"])), (False, 5))
        self.assertEqual(found["lost"], [{"sender": 1, "first_cycle": 20, "last_cycle": 21, "times": 4, "channels": "AB"}])


class Verdicts(Bench):
    def test_what_is_proved(self):
        self.write("a.toml", SHORT)
        out = self.flexlab("run", "a.toml")[0]
        told = "Verdict proved: from cycle 4 on no macroticks of correct nodes lie further apart than 3.756 us, the precision Cluster"
        self.assertTrue(self.one_line(out).startswith(told), out)
        found = json.loads(self.flexlab("run", "a.toml", "--json")[0])
        self.assertEqual((found["verdict"]["proved"], found["verdict"]["from_cycle"], found["verdict"]["until_cycle"], found["gaps"]),
                         (True, 4, None, []))
        self.assertEqual(found["verdict"]["ticks"], found["sharp"]["precision"]["ticks"])
        for request in ("precision", "settle", "power"):
            self.assertTrue(self.flexlab(request, "a.toml")[0].startswith("Verdict "), request)

    def test_nodes_that_join_by_the_checks(self):
        """A check of the precision is told in front, and the page does not advise by the classical bound."""
        text = EXAMPLE.replace("double_cycles = 200", "double_cycles = 40") + "\n[[join]]\nnode = 5\nreference = 1\ndouble_cycle = 10\n"
        self.write("a.toml", text + '\n[[lose]]\nfrom = 1\nto = "all"\nchannels = "B"\ncycles = "40-"\n')
        page = self.one_line(self.flexlab("run", "a.toml")[0])
        self.assertTrue(page.startswith("Verdict NOT PROVED: "), page[:100])
        self.assertIn("check C6 fails", page)
        self.assertIn("all checks hold with pRateCorrectionOut = 82. Precision", page)
        self.assertIn("it is the reference of node 5", page)


if __name__ == "__main__":
    unittest.main()
