"""What machines read: JSON in place of pages, with the numbers of flexray; what is required; and versions."""
import json
import os
import re
import subprocess
import unittest

from bench import EXAMPLE, FLEXRAY, REPOSITORY, TOOLS, Bench, edited, needs
from flexlab.captures import frames, packets

with open(os.path.join(REPOSITORY, "VERSION"), encoding="ascii") as version:
    VERSION = version.read().strip()


class Json(Bench):
    def object(self, *words, status=0):
        found = json.loads(self.flexlab(*words, "--json", status=status)[0])
        self.assertEqual(found["version"], VERSION)
        return found

    def test_a_run(self):
        self.write("a.toml", edited(("drift = 150", "drift = 200"), ("pOffsetCorrectionOut = 320", "pOffsetCorrectionOut = 300")))
        found, report = self.object("run", "a.toml"), self.read("a.lab", "report.txt")
        self.assertIn(f"precision {found['precision']['ticks']}\n", report)
        self.assertEqual(found["precision"]["us"], found["precision"]["ticks"] * 25 / 10 ** 9)
        self.assertIn(f"covered no {found['gap']}\n", report)
        self.assertFalse(found["covered"])
        self.assertIn("pOffsetCorrectionOut", " ".join(found["gap_told"]))
        greatest = found["greatest_skew"]
        self.assertIn(f"greatest skew {greatest['ticks']} cycle {greatest['cycle']} macrotick {greatest['macrotick']}\n", report)
        self.assertIn(f"in sync {found['in_sync']['double_cycle']}\n", report)
        self.assertEqual(found["in_sync"]["ms"], 5 * found["in_sync"]["cycle"])
        self.assertTrue(found["in_sync"]["at_end"])
        self.assertGreaterEqual(found["skew_in_sync"]["cycle"], found["in_sync"]["cycle"])
        checks = "".join(f"{check['check']} {'holds' if check['holds'] else 'fails'} {check['left']} {check['right']}\n"
                         for check in found["checks"])
        self.assertTrue(self.read("a.lab", "bound.txt").endswith(checks))
        for node in found["nodes"]:
            self.assertIn("node {node} {state} next {next_ticks} rate {rate} offset {offset}\n".format(**node), report)
        self.assertEqual(found["cluster"]["parameters"]["gdNIT"], 2000)
        self.assertEqual(found["cluster"]["arbitrary"], [6])
        # The bound of the report stands under its name too, and sync by the precision under the name of pages.
        self.assertEqual(set(found["classical"]), {"covered", "gap", "gap_told", "in_sync", "precision", "skew_in_sync", "within_precision",
                                                   "checks"})
        self.assertEqual({name: found[name] for name in found["classical"]}, found["classical"])
        self.assertEqual(found["sharp"]["in_sync"], found["sharp"]["in_sharp_sync"])

    def test_a_run_that_is_never_in_sync(self):
        self.write("a.toml", edited(("start_us = 1.5", "start_us = 900")))
        found = self.object("run", "a.toml")
        self.assertEqual((found["in_sync"]["double_cycle"], found["in_sync"]["ms"], found["skew_in_sync"],
                          found["within_precision"]), (None, None, None, None))

    def test_a_study(self):
        self.write("a.toml", edited(("double_cycles = 200", "double_cycles = 20")))
        out, err = self.flexlab("study", "a.toml", "--vary", "cluster.gdNIT", "--values", "2000,2001", "--json", status=1)
        found = json.loads(out)
        self.assertEqual([run["status"] for run in found["runs"]], [0, 1])
        self.assertEqual((found["keys"], found["failed"], found["missing"]), (["cluster.gdNIT"], 1, 0))
        self.assertIn("study.csv", err)

    def test_an_explanation(self):
        self.write("params.csv", "param,gdNIT,0,,\n")
        found = self.object("explain", "bound", "params.csv", status=1)
        self.assertEqual((found["accepted"], found["line"]), (False, "params: record 1: OutOfRange"))
        self.assertIn('field 3 (gdNIT) is "0"', " ".join(found["told"]))
        found = self.object("explain", "bound", os.path.join(REPOSITORY, "examples", "reference", "params.csv"))
        self.assertEqual((found["accepted"], found["line"], found["told"]), (True, None, []))

    @needs("tshark")
    def test_a_capture(self):
        made = [(1000 * (100 * cycle + slot), channel, frames.regular_frame(channel, slot, cycle, 8, True, True, False))
                for cycle in range(10) for slot in (1, 2) for channel in "AB"]
        made[9] = made[9][0], "B", made[9][2][:-1] + bytes([made[9][2][-1] ^ 1])
        packets.write_capture(self.path("a.pcap"), made)
        found = self.object("capture", "a.pcap", "--nm", "2", status=1)
        self.assertEqual((found["packets"], found["whole"], found["cycles"]), (40, 39, [0, 9]))
        self.assertEqual([damaged["packet"] for damaged in found["damaged"]], [10])
        self.assertEqual([row["missing"] for row in found["ids"]], [[], [], [2], []])
        self.assertEqual(len(found["vectors"]), 1)


class Required(Bench):
    def test_what_is_met_and_what_is_not(self):
        self.write("a.toml", EXAMPLE)
        self.flexlab("run", "--require", "covered,in-sync,within=7.9", "a.toml")
        out, err = self.flexlab("run", "--require", "covered,within=2", "a.toml", status=7)
        self.assertIn("Precision", out)
        self.assertRegex(err, r"^flexlab: not met: within=2: the skew in sync is \d\.\d+ us$")
        self.write("a.toml", edited(("pOffsetCorrectionOut = 320", "pOffsetCorrectionOut = 300")))
        err = self.flexlab("run", "--require", "covered,in-sync", "--json", "a.toml", status=7)[1]
        self.assertRegex(err, r"^flexlab: not met: covered: covered no check 3 \d+ \d+$")
        self.flexlab("run", "a.toml")

    def test_sync_that_is_lost_or_never_there(self):
        self.write("a.toml", EXAMPLE + '[[oscillator]]\nnodes = 1\ncycles = "200-"\nppm = -1400\n')
        self.assertIn("sync was lost in double cycle", self.flexlab("run", "--require", "in-sync", "a.toml", status=7)[1])
        self.write("a.toml", edited(("start_us = 1.5", "start_us = 900")))
        err = self.flexlab("run", "--require", "in-sync,within=100", "a.toml", status=7)[1]
        self.assertEqual(err.count("never in sync"), 2)

    def test_wrong_words(self):
        self.write("a.toml", EXAMPLE)
        for words in ("cover", "within", "within=-1", "within=x", "covered,in_sync"):
            self.assertIn("is none of covered, in-sync, within=USEC",
                          self.flexlab("run", "--require", words, "a.toml", status=2)[1])


class Version(Bench):
    def ran(self, *words):
        ended = subprocess.run(words, capture_output=True, text=True, check=False, cwd=self.room,
                               env={**os.environ, "FLEXRAY": FLEXRAY})
        self.assertEqual(ended.returncode, 0, ended.stderr)
        return ended.stdout

    def test_each_tells_the_same(self):
        self.assertRegex(VERSION, r"^\d+\.\d+\.\d+$")
        self.assertEqual(self.flexlab("--version")[0], f"flexlab {VERSION}\n")
        self.assertEqual(self.flexlab("-V")[0], f"flexlab {VERSION}\n")
        for path in ("flexray", "flexray-series", "tools/test", "tools/package"):
            self.assertEqual(self.ran(os.path.join(REPOSITORY, path), "--version"), f"{path} {VERSION}\n")
        with open(os.path.join(REPOSITORY, "CHANGELOG.md"), encoding="utf-8") as file:
            self.assertIn(f"\n## {VERSION}\n", file.read())

    def test_the_launchers_list_the_commands(self):
        with open(os.path.join(REPOSITORY, "docs", "flexray.1"), encoding="utf-8") as file:
            commands = set(re.findall(r"^\.B flexray (\w+)$", file.read(), re.M)) - {"help", "version"}
        for word in ("--help", "-h"):
            told = self.ran(os.path.join(REPOSITORY, "flexray"), word)
            self.assertEqual(set(re.findall(r"^  flexray (\w+) ", told, re.M)), commands)
        self.assertIn("usage: flexray-series PARAMS DRIFT SCRIPT", self.ran(os.path.join(REPOSITORY, "flexray-series"), "--help"))

    @needs("dpkg-deb")
    def test_the_package_has_it(self):
        package = self.ran(os.path.join(TOOLS, "package"), self.room).strip()
        self.assertTrue(os.path.basename(package).startswith(f"flexray_{VERSION}+"), package)
        subprocess.run(["dpkg-deb", "-x", package, self.path("root")], check=True)
        self.assertEqual(self.ran(self.path("root", "usr", "bin", "flexlab"), "--version"), f"flexlab {VERSION}\n")
        self.assertTrue(os.path.exists(self.path("root", "usr", "share", "doc", "flexray", "changelog.gz")))
        with open(self.path("root", "usr", "share", "doc", "flexray", "copyright"), encoding="ascii") as file:
            self.assertIn("a licence has not been chosen yet", file.read())


if __name__ == "__main__":
    unittest.main()
