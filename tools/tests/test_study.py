"""Studies: one line a run, the same numbers as the page's, stopped ones go on, failed ones are lines."""
import csv
import io
import json
import os
import random
import re
import signal
import subprocess
import sys
import time
import unittest
import unittest.mock

from bench import EXAMPLE, FLEXLAB, FLEXRAY, SERIES, Bench, edited, needs, needs_series
from flexlab.base.ending import Stop
from flexlab.cli.words import joined, parser
from flexlab.program import calls
from flexlab.base.files import drift_lines, parameter_lines, script_lines
from flexlab.runs import quick, study
from flexlab.toml.again import Again
from flexlab.toml.cluster import read_cluster
from flexlab.toml.draws import is_number, places

SHORT = edited(("double_cycles = 200", "double_cycles = 100"))


def lives(process):
    """Whether a process is there, and does not wait only for its end to be heard of."""
    try:
        with open(f"/proc/{process}/stat", encoding="ascii", errors="replace") as file:
            return file.read().rpartition(")")[2].split()[0] not in "ZX"
    except OSError:
        return False


class Studies(Bench):
    def lines(self, folder="a.study"):
        with open(self.path(folder, "study.csv"), encoding="utf-8", newline="") as file:
            return list(csv.DictReader(file))

    def test_a_value_is_varied(self):
        self.write("a.toml", SHORT)
        out = self.flexlab("study", "a.toml", "--vary", "values.drift", "--values", "50:200:75", "--keep", "all")[0]
        lines = self.lines()
        self.assertEqual([line["values.drift"] for line in lines], ["50", "125", "200"])
        self.assertTrue(all(line["status"] == "0" and line["covered"] == "yes" for line in lines))
        self.assertEqual([json.loads(line)["run"] for line in self.read("a.study", "study.jsonl").splitlines()], [1, 2, 3])
        self.assertEqual(len({line["greatest_skew_us"] for line in lines}), 3)
        self.assertIn("run 3 of 3", out)
        drift = self.read("a.study", "runs", "00002", "drift.csv")
        self.assertIn("length,1,0,999875,,\n", drift)
        self.write("a.toml", edited(("drift = 150", "drift = 125"), text=SHORT))
        page = self.one_line(self.flexlab("run", "a.toml")[0])
        self.assertIn(f"skew in sync {float(lines[1]['skew_in_sync_us']):.3f} us", page)

    def test_a_run_that_is_not_covered_names_its_gap(self):
        self.write("a.toml", SHORT)
        out = self.flexlab("study", "a.toml", "--vary", "values.drift", "--values", "200,250")[0]
        self.assertIn("values.drift 200: in sync from 2, covered yes, skew", out)
        self.assertIn("values.drift 250: in sync from 2, covered no (length 1 0 999750), skew", out)

    def test_one_node_of_several(self):
        self.write("a.toml", SHORT)
        self.flexlab("study", "a.toml", "--vary", "node[3].ppm", "--values", "-60,-40.5", "--keep", "all")
        self.assertIn("length,3,0,1000041,,\n", self.read("a.study", "runs", "00002", "drift.csv"))

    def test_a_failed_run_is_a_line(self):
        self.write("a.toml", SHORT)
        self.flexlab("study", "a.toml", "--vary", "cluster.gdNIT", "--values", "2000,2001,16000", status=1)
        lines = self.lines()
        self.assertEqual([line["status"] for line in lines], ["0", "1", "5"])
        self.assertIn("params: constraint 1", lines[1]["told"])
        self.assertIn("16000 is not a whole number", lines[2]["told"])

    def test_a_stopped_study_goes_on(self):
        slow = self.write("slow", f"#!/bin/sh\necho \"$@\" >>{self.path('calls')}\nsleep 0.2\nexec {FLEXRAY} \"$@\"\n")
        os.chmod(slow, 0o755)
        self.write("a.toml", SHORT)
        words = ["study", "a.toml", "--vary", "values.drift", "--values", "10:80:10", "--jobs", "1", "--flexray", slow]
        started = subprocess.Popen([sys.executable, FLEXLAB, *words], cwd=self.room, start_new_session=True,
                                   stdout=subprocess.DEVNULL, stderr=subprocess.DEVNULL)
        results = self.path("a.study", "study.jsonl")
        end = time.monotonic() + 60
        while time.monotonic() < end and not (os.path.exists(results) and self.read("a.study", "study.jsonl").count("\n") > 1):
            time.sleep(0.02)
        os.killpg(started.pid, signal.SIGINT)
        started.wait(30)
        time.sleep(1.5)
        done = self.read("a.study", "study.jsonl").splitlines()
        self.assertTrue(2 <= len(done) < 8, done)
        # A line that was cut is none, and its run is run again.
        with open(results, "a", encoding="utf-8") as file:
            file.write('{"run": 8, "sta')
        calls = self.bounds()
        out = self.flexlab(*words)[0]
        self.assertIn(f"{len(done)} of 8 runs are there already", out)
        self.assertEqual(len(self.lines()), 8)
        self.assertEqual(self.read("a.study", "study.jsonl").splitlines()[:len(done)], done)
        # Eight less those that were there, and three that are run again for their files.
        self.assertEqual(self.bounds() - calls, 8 - len(done) + 3)

    def left(self, end, *words):
        """Ends a study of long runs by a signal to its process alone once three of its copies run something, and hands back with which
        status it ended, and those that are there some seconds later."""
        os.makedirs(self.path("tmp"), exist_ok=True)
        if os.path.exists(self.path("copies")):
            os.remove(self.path("copies"))
        slow = self.write("slow", f"#!/bin/sh\necho $PPID >>{self.path('copies')}\nsleep 0.1\nexec {FLEXRAY} \"$@\"\n")
        os.chmod(slow, 0o755)
        self.write("a.toml", SHORT)
        env = {**os.environ, "FLEXLAB_LIBRARY": "no", "FLEXRAY_SERIES": "", "TMPDIR": self.path("tmp")}
        started = subprocess.Popen([sys.executable, FLEXLAB, "study", "a.toml", "--vary", "values.drift", "--values", "1:200:1", "--jobs", "3",
                                    "--flexray", slow, *words], cwd=self.room, env=env, stdout=subprocess.DEVNULL, stderr=subprocess.PIPE)
        until = time.monotonic() + 60
        while time.monotonic() < until and not (os.path.exists(self.path("copies")) and len(set(self.read("copies").split())) > 2):
            time.sleep(0.02)
        copies = set(self.read("copies").split())
        started.send_signal(end)
        err = started.communicate(timeout=120)[1].decode()
        self.assertNotIn("Traceback", err)
        until = time.monotonic() + 60
        while time.monotonic() < until and any(map(lives, copies)):
            time.sleep(0.02)
        return started.returncode, [copy for copy in copies if lives(copy)]

    def test_a_study_that_is_ended_leaves_no_process(self):
        """One that was killed while it handed on its results kept a lock for which the others waited for ever."""
        self.assertEqual(self.left(signal.SIGTERM), (-signal.SIGTERM, []))
        self.assertEqual(os.listdir(self.path("tmp")), [])
        self.assertEqual(self.left(signal.SIGKILL, "-o", "b"), (-signal.SIGKILL, []))

    @needs("parallel")
    def test_nor_does_one_by_parallel(self):
        self.assertEqual(self.left(signal.SIGTERM, "--hosts", "3/:"), (-signal.SIGTERM, []))
        self.assertEqual([name for name in os.listdir(self.path("tmp")) if name.startswith("flexlab-")], [])

    def bounds(self):
        """How often flexray was asked for the bounds of a cluster, as it is once a run."""
        return len(re.findall(r"^bound \S+$", self.read("calls"), re.M))

    def test_failed_runs_again(self):
        broken = self.write("broken", f"#!/bin/sh\n[ -e {self.path('mended')} ] || exit 9\nexec {FLEXRAY} \"$@\"\n")
        os.chmod(broken, 0o755)
        self.write("a.toml", SHORT)
        words = ["study", "a.toml", "--vary", "values.drift", "--values", "10,20", "--flexray", broken]
        self.flexlab(*words, status=1)
        self.assertEqual([line["status"] for line in self.lines()], ["6", "6"])
        self.write("mended", "")
        self.flexlab(*words, status=1)
        self.flexlab(*words, "--again")
        self.assertEqual([line["status"] for line in self.lines()], ["0", "0"])

    def test_paths_with_blanks(self):
        os.makedirs(self.path("a b"))
        self.write("a b/my cluster's.toml", SHORT)
        self.flexlab("study", "a b/my cluster's.toml", "--vary", "node[6].id", "--values", "6,7", "-o", "q r$.study", status=1)
        self.assertEqual([line["status"] for line in self.lines("q r$.study")], ["0", "5"])

    def test_another_study_is_not_mixed_in(self):
        self.write("a.toml", SHORT)
        self.flexlab("study", "a.toml", "--vary", "values.drift", "--values", "10")
        words = ("study", "a.toml", "--vary", "values.drift", "--values")
        self.assertIn("another study", self.flexlab(*words, "20", status=2)[1])
        self.write("a.toml", SHORT + "# changed\n")
        self.assertIn("another study", self.flexlab(*words, "10", status=2)[1])

    def test_a_grid(self):
        self.write("a.toml", SHORT)
        self.flexlab("study", "a.toml", "--vary", "values.drift", "--values", "50,150", "--vary", "node[3].ppm", "--values",
                     "-60,-40,-20", "--keep", "worst:1")
        lines = self.lines()
        self.assertEqual([(line["values.drift"], line["node[3].ppm"]) for line in lines],
                         [(one, other) for one in ("50", "150") for other in ("-60", "-40", "-20")])
        worst = max(lines, key=lambda line: float(line["later_skew_us"]))
        self.assertEqual(os.listdir(self.path("a.study", "runs")), [f"{int(worst['run']):05}"])
        drift = self.read("a.study", "runs", f"{int(worst['run']):05}", "drift.csv")
        self.assertIn(f"length,3,0,{1000000 - int(worst['node[3].ppm'])},,", drift)
        for words in (("--vary", "values.drift", "--values", "1", "--vary", "node[3].ppm"), ("--keep", "best:1"),
                      ("--vary", "values.drift", "--values", "1", "--vary", "values.drift", "--values", "2")):
            self.flexlab("study", "a.toml", *words, "-o", "b", status=2)

    def test_draws(self):
        text = edited(('ppm = "-drift"', "ppm = { uniform = [-150, 150] }"), ("ppm = 20\n\n[[node]]",
                      "ppm = { normal = [0, 30], limit = 100 }\n\n[[node]]"), text=SHORT)
        self.write("a.toml", text)
        out = self.flexlab("study", "a.toml", "--draws", "6", "--keep", "worst:2")[0]
        lines = self.lines()
        for name, most in (("node[2].ppm", 150), ("node[4].ppm", 100)):
            self.assertEqual(len({line[name] for line in lines}), 6)
            self.assertTrue(all(-most <= float(line[name]) <= most for line in lines))
        order = sorted(lines, key=lambda line: (-float(line["later_skew_us"]), int(line["run"])))
        self.assertIn(f"Worst run       {order[0]['run']}: draw {order[0]['draw']}: later skew "
                      f"{float(order[0]['later_skew_us']):.3f} us; files in a.study/runs/{int(order[0]['run']):05}/", out)
        self.assertIn("6 of 6, 6 of them covered", out)
        # A run by itself draws the same, and another seed something else.
        page = self.one_line(self.flexlab("run", "a.toml", "--draw", order[0]["draw"])[0])
        self.assertIn(f"Drawn node[2].ppm = {order[0]['node[2].ppm']}, node[4].ppm = {order[0]['node[4].ppm']}", page)
        self.assertNotIn(order[0]["node[2].ppm"], self.flexlab("run", "a.toml", "--seed", "2", "--draw", order[0]["draw"])[0])
        self.write("b.toml", text.replace("[run]", "[run]\nseed = 2"))
        self.assertEqual(self.flexlab("run", "a.toml", "--seed", "2")[0].split("In sync")[0],
                         self.flexlab("run", "b.toml")[0].split("In sync")[0])

    def test_what_is_no_distribution(self):
        for value, told in (("{ uniform = [1] }", "a number that is drawn is"), ("{ uniform = [2, 1] }", "which is backward"),
                            ("{ normal = [0, -1] }", "below 0"), ("{ normal = [0, 9], limit = 0.1 }", "at least a tenth"),
                            ("{ uniform = [1, 2], limit = 3 }", "limit goes with normal"),
                            ("{ even = [1, 2] }", "a number that is drawn is")):
            self.write("a.toml", edited(("ppm = -40", f"ppm = {value}")))
            line = next(at for at, text in enumerate(self.read("a.toml").splitlines(), 1) if value in text)
            err = self.flexlab("run", "a.toml", status=5)[1]
            self.assertIn(f"a.toml:{line}: node[3].ppm: ", err)
            self.assertIn(told, err)
        self.write("a.toml", EXAMPLE)
        self.assertIn("has no number that is drawn", self.flexlab("study", "a.toml", "--draws", "2", status=2)[1])
        self.write("a.toml", edited(("[run]", "[run]\nseed = -1")))
        self.assertIn("run.seed: -1 is not a whole number", self.flexlab("run", "a.toml", status=5)[1])

    def test_hosts_that_are_spelt_otherwise(self):
        self.write("a.toml", SHORT)
        for host in ("host/:", "0/host", "8/", "/host", "8/4/host", "-oProxyCommand=x", "8/-oProxyCommand=x"):
            _, err = self.flexlab("study", "a.toml", "--vary", "values.drift", "--values", "50", f"--hosts={host},:", status=2)
            self.assertEqual(err.strip(), f"flexlab: --hosts: {host} is neither HOST nor COUNT/HOST, as in host1,8/host2,: "
                                          "where : is this machine")

    def test_words_for_other_programs_that_are_none(self):
        self.write("a.toml", SHORT)
        for words, told in ((("--hosts", "one", "--ssh="), "--ssh: a command is wanted"),
                            (("--hosts", "one", "--ssh", "'"), "--ssh ': a quotation"), (("--parallel='",), "--parallel ': a quotation"),
                            (("--parallel=\\",), "--parallel \\: a quotation")):
            err = self.flexlab("study", "a.toml", "--vary", "values.drift", "--values", "50", *words, status=2)[1]
            self.assertTrue(err.startswith(f"flexlab: {told}"), err)

    @needs("parallel")
    def test_hosts_need_no_folder_in_common(self):
        far = self.path("far away")
        os.mkdir(far)
        ssh = self.write("ssh", "#!/bin/sh\nwhile [ \"${1#-}\" != \"$1\" ]; do case $1 in -o | -l | -p) shift ;; esac; shift; "
                                f"done\nhost=$1; shift; [ \"$1\" != -- ] || shift\necho $host >>{self.path('asked')}\n"
                                "[ $host != dead ] || { echo 'ssh: connect to host dead: no route' >&2; exit 255; }\n"
                                # A login has a shell, whatever this environment has.
                                f"cd '{far}' && SHELL=/bin/sh exec sh -c \"$*\"\n")
        os.chmod(ssh, 0o755)
        self.write("a.toml", SHORT)
        words = ("study", "a.toml", "--vary", "values.drift", "--values", "50,100,150", "--ssh", ssh, "--jobs", "1")
        out, err = self.flexlab(*words, "--hosts", "one,dead,two")
        self.assertIn("Removed dead", err)
        self.assertEqual([line["status"] for line in self.lines()], ["0"] * 3)
        self.assertIn("3 of 3, 3 of them covered", out)
        self.assertEqual(os.listdir(far), [])
        self.assertIn("two", self.read("asked"))
        # The same runs by this machine alone.
        self.flexlab(*words, "-o", "here")
        self.assertEqual(*(re.sub(r",\d+\.\d\d,", ",,", self.read(folder, "study.csv")) for folder in ("a.study", "here")))
        err = self.flexlab(*words, "--hosts", "dead", "-o", "c", status=4)[1]
        self.assertIn("GNU parallel has no host to run on", err)
        # Where no host has flexlab the runs are missing, and the same words go on.
        out, err = self.flexlab(*words, "--hosts", "one", "--host-flexlab", "flexlab-that-is-not-there", "-o", "b", status=1)
        self.assertIn("flexlab-that-is-not-there: not found", err)
        self.assertIn("Missing         3 of 3 runs", out)
        self.flexlab(*words, "--hosts", "one", "-o", "b")
        self.assertEqual([line["status"] for line in self.lines("b")], ["0"] * 3)

    def test_a_large_study_is_one_file(self):
        self.flexlab("study", "--seeds", "1:300:1", "--doubles", "1", "-o", "m", "--jobs", "2")
        self.assertEqual(self.read("m", "study.jsonl").count("\n"), 300)
        self.assertEqual(sorted(os.listdir(self.path("m")))[0], "study.csv")
        self.assertNotIn("runs", os.listdir(self.path("m")))

    def test_seeds(self):
        self.flexlab("study", "--seeds", "7,8", "--doubles", "2")
        lines = self.lines("make.study")
        report = self.flexray("make", "7", "2")[1]
        self.assertIn(f"greatest skew {round(float(lines[0]['greatest_skew_us']) * 40000000)} "[:20], report)
        self.assertEqual([line["seed"] for line in lines], ["7", "8"])

    def test_wrong_words(self):
        self.write("a.toml", EXAMPLE)
        for words in (("a.toml",), ("a.toml", "--vary", "values.drift"), ("--seeds", "x"), ("--seeds", "-1"),
                      ("--seeds", "4294967296"), ("--seeds", "1", "--doubles", "0"), ("a.toml", "--seeds", "1"),
                      ("a.toml", "--vary", "values.drift", "--values", "1:2:0"),
                      ("a.toml", "--vary", "values.drift", "--values", "2:1:1")):
            with self.subTest(words=words):
                self.flexlab("study", *words, status=2)
        words = ("study", "a.toml", "--vary", "values.none", "--values", "1")
        self.assertIn("no value `values.none`", self.flexlab(*words, status=5)[1])

    def test_without_parallel(self):
        """Of this machine alone nothing is needed but flexlab."""
        self.write("a.toml", SHORT)
        words = ("study", "a.toml", "--vary", "values.drift", "--values", "10,20")
        err = self.flexlab(*words, env={"PATH": "/nowhere"})[1]
        self.assertEqual(err, "")
        self.assertEqual(len(self.lines()), 2)
        err = self.flexlab(*words, "--hosts", ":", "-o", "b", env={"PATH": "/nowhere"}, status=4)[1]
        self.assertIn("parallel is missing: install the Debian package parallel", err)

    def test_runs_leave_no_files(self):
        self.write("a.toml", SHORT)
        os.mkdir(self.path("room"))
        self.flexlab("study", "a.toml", "--vary", "values.drift", "--values", "10,20", "--keep", "none", env={"TMPDIR": self.path("room")})
        self.assertEqual(os.listdir(self.path("room")), [])
        self.assertNotIn("runs", os.listdir(self.path("a.study")))

    def test_progress_is_told(self):
        self.write("a.toml", SHORT)
        out = self.flexlab("study", "--seeds", "1:300:1", "--doubles", "1", "-o", "m", "--jobs", "2")[0]
        self.assertEqual(len(re.findall(r"^\d+ of 300 runs, \d+ s; \d+ s are left$", out, re.M)), 10)

    def test_figures_of_the_report_alone(self):
        """They are those of the whole study, and the other columns are empty; no trace and no series are asked for."""
        counting = self.write("counting", f"#!/bin/sh\necho \"$1\" >>{self.path('calls')}\nexec {FLEXRAY} \"$@\"\n")
        os.chmod(counting, 0o755)
        self.write("a.toml", SHORT)
        words = ("study", "a.toml", "--vary", "values.drift", "--values", "50,250", "--keep", "none")
        self.flexlab(*words, "-o", "all")
        self.flexlab(*words, "-o", "short", "--figures", "report", "--flexray", counting)
        whole, short = self.lines("all"), self.lines("short")
        told = ("status", "covered", "in_sync_double", "precision_us", "greatest_skew_us", "greatest_cycle", "greatest_macrotick", "cut",
                "gap", "sharply_covered", "sharp_gap", "sharp_precision_us")
        for one, other in zip(whole, short):
            self.assertEqual([one[name] for name in told], [other[name] for name in told])
            empty = ("later_skew_us", "in_sync_at_end", "in_sharp_sync_double", "sharp_skew_us")
            self.assertEqual([other[name] for name in empty], [""] * 4)
            self.assertIn(other["skew_in_sync_us"], ("", one["skew_in_sync_us"]))
        # The bounds are the same in both runs, so one process asks for them once.
        calls = self.read("calls").split()
        self.assertEqual(calls.count("run"), 2)
        self.assertEqual(set(calls), {"run", "bound"})
        self.assertIn("another study", self.flexlab(*words, "-o", "short", status=2)[1])

    def test_figures_by_one_call(self):
        """A run is one call of flexray, and its bounds are asked for by none."""
        counting = self.write("counting", f"#!/bin/sh\necho \"$1 ${{5-}}\" >>{self.path('calls')}\nexec {FLEXRAY} \"$@\"\n")
        os.chmod(counting, 0o755)
        self.write("a.toml", SHORT)
        words = ("study", "a.toml", "--vary", "values.drift", "--values", "50,250", "--keep", "none", "--figures", "sharp")
        out = self.flexlab(*words, "-o", "one", "--flexray", counting)[0]
        self.assertEqual(self.read("calls"), "run sharp\n" * 2)
        self.assertIn("; skew in sharp sync ", out)
        self.assertIn("another study", self.flexlab(*words[:-2], "-o", "one", status=2)[1])
        # Where that call fails, the run is told as it is elsewhere.
        failing = self.flexlab("study", "a.toml", "--vary", "cluster.gdNIT", "--values", "2001", "--figures", "sharp", "-o", "f", status=1)[0]
        self.assertIn("params: constraint 1", failing)

    @needs("parallel")
    @needs("gnuplot")
    def test_the_picture(self):
        self.write("a.toml", SHORT)
        self.flexlab("study", "a.toml", "--vary", "values.drift", "--values", "10,20,250")
        with open(self.path("a.study", "study.png"), "rb") as file:
            self.assertEqual(file.read(8), b"\x89PNG\r\n\x1a\n")
        self.assertIn("not covered", self.read("a.study", "study.svg"))


MORE = """
[[lose]]
from = 2
to = 4
channels = "A"
cycles = 50
[[flip]]
from = 3
channels = "B"
cycles = "60-61"
bit = 40
[[say]]
node = 6
to = 1
cycles = 402
us = 2.5
frame = "300601"
[[join]]
node = 5
reference = 1
double_cycle = 20
[[delay]]
from_cycle = 7
ns = "drift"
[[power]]
nodes = [1, 2]
on_ms = 5
"""
STUDIES = os.path.join(os.path.dirname(os.path.realpath(__file__)), "studies")


class AsBefore(Bench):
    """Studies of which studies/ has the results: by the programs with flexray-series and without it, byte for byte. They are as they were
    when each run was made with its trace, but for the gaps of the sharper bounds, which are asked from the first double cycle in sync
    on, and for what the report alone tells of these bounds. The column of seconds is empty there."""

    def results(self, name, env, *more):
        folder = name + ".study"
        toml = [f"{name}.toml"] if os.path.exists(os.path.join(STUDIES, f"{name}.toml")) else []
        for file in toml:
            with open(os.path.join(STUDIES, file), encoding="utf-8") as text:
                self.write(file, text.read())
        with open(os.path.join(STUDIES, f"{name}.words"), encoding="utf-8") as file:
            words = file.read().split("\n")[:-1]
        env = {**os.environ, "FLEXRAY": FLEXRAY, "FLEXLAB_LIBRARY": "no", **env}
        subprocess.run([sys.executable, FLEXLAB, "study", *toml, *words, *more, "--keep", "none", "-o", folder, "--jobs", "2"], cwd=self.room,
                       env=env, capture_output=True, check=False)
        with open(self.path(folder, "study.csv"), "rb") as file:
            data = file.read()
        head, *rows = csv.reader(io.StringIO(data.decode("utf-8"), newline=""))
        # What is taken apart is written again byte for byte, so nothing but these two columns is other than it was.
        self.assertEqual(self.written([head, *rows]), data)
        seconds, told = head.index("seconds"), head.index("told")
        for row in rows:
            self.assertRegex(row[seconds], r"^\d+\.\d\d$")
            row[seconds], row[told] = "", row[told].replace(self.room + "/", "")
        return self.written([head, *rows])

    @staticmethod
    def written(rows):
        found = io.StringIO(newline="")
        csv.writer(found, lineterminator="\n").writerows(rows)
        return found.getvalue().encode("utf-8")

    def wanted(self, name, kind):
        with open(os.path.join(STUDIES, f"{name}.{kind}.csv"), "rb") as file:
            return file.read()

    def names(self):
        found = sorted(name[:-6] for name in os.listdir(STUDIES) if name.endswith(".words"))
        self.assertGreaterEqual(len(found), 8)
        return found

    def test_without_series(self):
        for name in self.names():
            with self.subTest(name=name):
                self.assertEqual(self.results(name, {"FLEXRAY_SERIES": ""}), self.wanted(name, "plain"))

    @needs_series
    def test_with_series(self):
        for name in self.names():
            with self.subTest(name=name):
                self.assertEqual(self.results(name, {"FLEXRAY_SERIES": SERIES}), self.wanted(name, "series"))

    @needs_series
    def test_by_the_library(self):
        if calls.by_library(FLEXRAY) is None:
            self.skipTest("the library of flexray is not there")
        for name in self.names():
            with self.subTest(name=name):
                self.assertEqual(self.results(name, {"FLEXLAB_LIBRARY": "yes"}), self.wanted(name, "series"))

    def test_by_one_call_each(self):
        """With the figures of the sharper bounds alone the columns are the same, but for those that need the skew of each cycle, which
        are empty; two of these are there where the report tells them."""
        seen = dict.fromkeys(("skew_in_sync_us", "in_sync_at_end", "sharp_skew_us"), 0)
        for name in self.names():
            if name == "made":
                continue
            with self.subTest(name=name):
                wanted = list(csv.DictReader(io.StringIO(self.wanted(name, "series").decode("utf-8"))))
                rows = list(csv.DictReader(io.StringIO(self.results(name, {"FLEXRAY_SERIES": ""}, "--figures", "sharp").decode("utf-8"))))
                self.assertEqual(len(rows), len(wanted))
                for row, full in zip(rows, wanted):
                    for column, value in full.items():
                        if column.startswith(("later_", "cycles_")):
                            self.assertIn(row.get(column, ""), ("",), column)
                        elif column in ("skew_in_sync_us", "percent_of_precision", "in_sync_at_end"):
                            self.assertIn(row[column], ("", value), column)
                        else:
                            self.assertEqual(row[column], value, column)
                    for column in seen:
                        seen[column] += row[column] != ""
        self.assertGreater(min(seen.values()), 10, seen)

    def test_clusters_that_are_read_again(self):
        """They are those that are read anew, and so are refusals."""
        compared = refused = 0
        for name in self.names():
            path = os.path.join(STUDIES, f"{name}.toml")
            if not os.path.exists(path):
                continue
            with open(os.path.join(STUDIES, f"{name}.words"), encoding="utf-8") as file:
                words = parser().parse_args(joined(["study", path, *file.read().split("\n")[:-1]]))
            plan, again = study.plan_of(words), Again(path)
            for _, values, draw in study.points(plan):
                changes = {key: study.number_said(value) for key, value in zip(plan["keys"], values)}
                refused += self.is_refused(again, path, changes, (plan["seed"], draw))
                compared += 1
        self.assertGreater(compared, 40)
        self.assertGreater(refused, 2)

    def is_refused(self, again, path, *how):
        """Whether a cluster is refused, in the same words when it is read again and anew; else it is the same."""
        found = []
        for read in (again.cluster, lambda *rest: read_cluster(path, *rest)):
            try:
                found.append(read(*how))
            except Stop as stop:
                found.append(stop.line)
        self.assertEqual(*found)
        return isinstance(found[0], str)

    def test_any_numbers_that_are_changed(self):
        """In any order, a few at once, whether they are taken or not; with files that are written of what was kept."""
        path = self.write("a.toml", edited(("ppm = 20\n\n[[node]]", "ppm = { uniform = [-150, 150] }\n\n[[node]]")) + MORE)
        again, chance = Again(path), random.Random(7)
        caller = quick.Caller(FLEXRAY, path, self.room)
        keys = [f"{name}.{key}" if index is None else f"{name}[{index + 1}].{key}" for name, index, table in places(again.entries)
                for key, value in table.items() if is_number(value) or isinstance(value, str) and value.lstrip("-") == "drift"]
        self.assertGreater(len(keys), 50)
        values = [study.number_said(text) for text in ("0", "1", "2", "3", "7", "40", "-1", "0.5", "150", "1000", "99999999")]
        seen = {True: 0, False: 0}
        for draw in range(1, 201):
            changes = {key: chance.choice(values) for key in chance.sample(keys, chance.choice((0, 1, 1, 2)))}
            is_refused = self.is_refused(again, path, changes, (5, draw // 2))
            seen[is_refused] += 1
            if not is_refused:
                cluster = again.cluster(changes, (5, draw // 2))
                texts = [b"".join(line.encode() for line in lines(cluster)) for lines in (parameter_lines, drift_lines, script_lines)]
                self.assertEqual(caller.texts(cluster), texts)
        self.assertGreater(min(seen.values()), 40, seen)


if __name__ == "__main__":
    unittest.main()
