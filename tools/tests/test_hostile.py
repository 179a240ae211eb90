"""Files, words and moments that a stranger can choose: each ends in an answer or a refusal by name, never in a traceback."""
import gzip
import json
import os
import random
import resource
import signal
import struct
import subprocess
import sys
import tempfile
import time
import unittest
import unittest.mock
import zlib

import mutations
from bench import FLEXLAB, FLEXRAY, REPOSITORY, Bench, edited, needs
from flexlab.base import ranges
from flexlab.captures import observer
from flexlab.cli.words import main

SHORT = edited(("double_cycles = 200", "double_cycles = 8"))
OBSERVER = "[observer]\nresolution_ns = 1\ndrift_ppm = 50\ndelay_from_ns = 0\ndelay_to_ns = 4000\n"
MANY = "a number has at most 30 digits before the point, and as many behind it"


class Forked(Bench):
    """Calls are forks of this process, which has the modules already: half of what a short call takes is to have these."""

    def flexlab(self, *words, status=0, env=None, cwd=None):
        with tempfile.TemporaryFile() as out, tempfile.TemporaryFile() as err:
            child = os.fork()
            if child == 0:
                ended = 70
                try:
                    signal.alarm(300)
                    os.chdir(cwd or self.room)
                    os.environ.update({"FLEXRAY": FLEXRAY, "FLEXRAY_SERIES": "", "FLEXLAB_LIBRARY": "no", **(env or {})})
                    with open(os.devnull, "rb") as none:
                        for to, of in enumerate((none, out, err)):
                            os.dup2(of.fileno(), to)
                    sys.stdout, sys.stderr = (open(to, "w", encoding="utf-8", closefd=False) for to in (1, 2))
                    ended = main([*words])
                    sys.stdout.flush()
                    sys.stderr.flush()
                finally:
                    os._exit(ended)
            ended = os.waitstatus_to_exitcode(os.waitpid(child, 0)[1])
            texts = []
            for file in (out, err):
                file.seek(0)
                texts.append(file.read().decode("utf-8").replace("\r\n", "\n"))
        self.assertEqual(ended, status, f"{words}: {''.join(texts)}")
        self.assertNotIn("Traceback", texts[1])
        return tuple(texts)


class Numbers(Forked):
    def refused(self, key, value, told):
        self.write("a.toml", SHORT.replace(f"\n{key} =", f"\n{key} = {value} #", 1))
        err = self.flexlab("build", "a.toml", status=5)[1]
        line = next(at for at, text in enumerate(self.read("a.toml").splitlines(), 1) if text.startswith(f"{key} = {value[:9]}"))
        self.assertIn(f"a.toml:{line}: ", err)
        self.assertIn(told, err)
        self.assertLess(len(err), 1000)

    def test_numbers_of_a_file_are_bounded_before_they_are_numbers(self):
        for value in ("1e999999999", "1e-999999999", "-1e31", "0e999999999", "1" + "0" * 40, "0." + "1" * 5000, "1" * 200 + ".0",
                      "0x" + "F" * 5000, "1e-31"):
            with self.subTest(value=value[:20]):
                self.refused("microtick_ns", value, MANY)
        self.refused("microtick_ns", "9" * 5000, MANY)
        self.refused("double_cycles", "1e999999999", MANY)

    def test_numbers_that_are_drawn(self):
        for value in ("{ uniform = [-1e400, 1e400] }", "{ uniform = [0, 1" + "0" * 400 + "] }", "{ normal = [0, 1e999999999] }"):
            self.refused("ppm", value, "a number that is drawn is")

    def test_a_seed(self):
        self.write("a.toml", SHORT.replace("\n[run]", "\n[run]\nseed = 1e999999999", 1))
        self.assertIn("run.seed: 1e999999999 is not a whole number", self.flexlab("build", "a.toml", status=5)[1])

    def test_what_is_nested(self):
        for value in ("[" * 3000 + "]" * 3000, "[" * 30 + "]" * 30, "{ a = " * 3000 + "1" + " }" * 3000):
            self.write("a.toml", SHORT.replace("\nmicrotick_ns =", f"\nmicrotick_ns = {value} #", 1))
            self.assertIn("nested deeper here than any value is", self.flexlab("build", "a.toml", status=5)[1])
        self.write("a.toml", SHORT.replace("\n[values]", "\n[values]\n" + "a." * 5000 + "a = 1", 1))
        self.assertIn("nested deeper", self.flexlab("build", "a.toml", status=5)[1])

    def test_digits_of_other_scripts(self):
        self.write("a.toml", SHORT)
        study = ("study", "a.toml", "--vary", "node[1].ppm", "--values")
        self.assertIn("no value `node[\u00b2].ppm`",
                      self.flexlab("study", "a.toml", "--vary", "node[\u00b2].ppm", "--values", "1", status=5)[1])
        self.assertIn("a list of numbers is wanted", self.flexlab(*study, "\u0663", status=2)[1])
        for jobs in ("\u00b2", "\u0663", "0", "1" * 30, "x"):
            self.assertIn("--jobs", self.flexlab(*study, "1", f"--jobs={jobs}", status=2)[1])
        self.assertIn("is not a whole number", self.flexlab("run", "a.toml", "--seed", "\u0663", status=2)[1])
        self.write("b.toml", SHORT.replace("\nnodes =", '\nnodes = "\u0661-\u0663" #', 1))
        self.assertIn("is not a node number", self.flexlab("build", "b.toml", status=5)[1])

    def test_numbers_of_words(self):
        self.write("a.toml", SHORT)
        for values in ("1e999999999", "0:1e999999999:1", "0:1:1e-999999999", "1" * 5000, "nan", "inf", "1:2:nan", "0:1e9:1e-9"):
            err = self.flexlab("study", "a.toml", "--vary", "node[1].ppm", "--values", values, status=2)[1]
            self.assertIn("a list of numbers is wanted", err)
        err = self.flexlab("study", "a.toml", "--vary", "node[1].ppm", "--values", "1:9000:1", "--vary", "node[2].ppm", "--values",
                           "1:9000:1", status=2)[1]
        self.assertIn("81000000 runs", err)
        for words in (("settle", "a.toml", "--start-us", "1" * 200), ("precision", "a.toml", "--flutter-ns", "1e999999999"),
                      ("run", "a.toml", "--require", "within=" + "9" * 9000), ("worst", "a.toml", "--seed", "9" * 9000)):
            self.assertLess(len(self.flexlab(*words, status=2)[1].split("\n")[-2]), 10000)

    def test_rows_are_counted_before_they_are_made(self):
        text = edited(("double_cycles = 200", "double_cycles = 100000"))
        nodes = "".join(f'[[node]]\nid = {number}\nchannels = "AB"\nkey_slot = {number}\n' for number in range(7, 60))
        self.write("a.toml", text + nodes + '[[lose]]\nfrom = "all"\nto = "all"\ncycles = "all"\n')
        # Rows are made up to the most that there may be, which takes seconds: a call of the test takes a sixteenth of them.
        with unittest.mock.patch.object(ranges, "FILE_BYTES", ranges.FILE_BYTES // 16):
            self.assertIn("script.csv would have more than", self.flexlab("build", "a.toml", status=5)[1])

    def test_faults_of_a_long_file_are_told_in_time(self):
        """One line is looked for by each of thousands of faults, and no more than some are told."""
        begun = sum(resource.getrusage(resource.RUSAGE_CHILDREN)[:2])
        self.write("a.toml", SHORT + "[[oscillator]]\nnodes = 1\nppm = true\n" * 20000)
        err = self.flexlab("build", "a.toml", status=5)[1]
        self.assertIn("a.toml: and 19900 more", err)
        self.write("a.toml", SHORT + '[[oscillator]]\nnodes = 1\ncycles = "90000-"\nppm = 1\n' * 20000)
        self.assertEqual(self.flexlab("build", "a.toml")[1].count("lies behind the end"), 20002)
        # Some seconds of the processor; where each fault reads the file again it is minutes.
        self.assertLess(sum(resource.getrusage(resource.RUSAGE_CHILDREN)[:2]) - begun, 40)


class Devices(Forked):
    def test_what_is_no_file(self):
        os.mkfifo(self.path("pipe"))
        self.write("a.toml", SHORT + OBSERVER)
        for words in (("build", "pipe"), ("capture", "pipe"), ("log", "pipe", "a.toml"), ("observe", "a.toml", "pipe"),
                      ("log", "pipe", "a.toml", "--columns", "time=a,channel=b,bytes=c"), ("study", "pipe", "--draws", "1")):
            self.assertIn("pipe: it is a named pipe, and a file is wanted", self.flexlab(*words, status=3)[1])
        for words in (("build", "/dev/zero", "-o", "x"), ("capture", "/dev/zero", "-o", "x"), ("log", "/dev/zero", "a.toml", "-o", "x")):
            self.assertIn("/dev/zero: it is a device, and a file is wanted", self.flexlab(*words, status=3)[1])
        self.assertIn("Is a directory", self.flexlab("build", ".", "-o", "x", status=3)[1])

    def test_standard_output_that_takes_nothing(self):
        self.write("a.toml", SHORT)
        for words in ("--help", "run --help", "new -", "build a.toml"):
            out = self.shell(f"exec flexlab {words} >/dev/full")
            self.assertEqual((out.returncode, out.stderr.splitlines()[-1:]),
                             (3, ["flexlab: standard output: No space left on device"]), words)


class Faults(Bench):
    def test_a_fault_of_flexlab_has_a_status_of_its_own(self):
        """A part of Python that breaks its word stands for a fault that nobody thought of."""
        self.write("a.toml", SHORT)
        self.write("sitecustomize.py", "import subprocess\nsubprocess.Popen.__init__ = lambda *_, **__: [].pop()\n"
                                       "subprocess.Popen.__del__ = lambda *_: None\n")
        err = self.flexlab("run", "a.toml", status=8, env={"PYTHONPATH": self.room})[1]
        self.assertRegex(err, r"^flexlab: a fault of flexlab \S+, which is to be reported, with its words and files: \w+ in \w+\.py, "
                              r"line \d+: .*\n$")
        out = self.shell(f"PYTHONPATH={self.room} FLEXLAB_DEBUG=1 exec flexlab run a.toml")
        self.assertEqual(out.returncode, 8)
        self.assertIn("Traceback", out.stderr)

    def test_a_program_that_prints_nothing(self):
        """An answer without a bound is no bound that has no checks."""
        path = self.write("mute", "#!/bin/sh\nexit 0\n")
        os.chmod(path, 0o755)
        self.write("a.toml", SHORT)
        for words in (("precision",), ("run",), ("pcap",), ("settle",)):
            err = self.flexlab(*words, "a.toml", "--flexray", path, status=6)[1]
            self.assertRegex(err, "^flexlab: flexray printed a [a-z]+ that is not understood: the end of the text\n$")

    def test_a_control_character_of_a_record_is_spelt_out(self):
        self.write("a.toml", SHORT)
        self.flexlab("build", "a.toml", "-o", "x")
        self.write("a.csv", "delay,2,1,\x18" + "0" * 400 + ",,\n")
        out = self.flexlab("explain", "--line", "drift: record 1: Link", "run", "x/params.csv", "a.csv", "x/script.csv", status=1)[0]
        self.assertIn("the channel is \\x180", out)
        self.assertTrue(all(one.isprintable() for one in out.replace("\n", "")), repr(out))
        self.assertLess(max(map(len, out.splitlines())), 300)


COLUMNS = ("--columns", "time=Zeit [\u00b5s],channel=Kanal,bytes=Daten", "--time-unit", "us")
ROWS = ("Zeit [\u00b5s];Kanal;Daten;Text\n100;A;38 01 20 61 40;gr\u00f6\u00dfer\n200;B;38 01 20 61 40;\u00b5\n", )


class Tables(Forked):
    def log(self, data, status=0, columns=COLUMNS):
        with open(self.path("a.csv"), "wb") as file:
            file.write(data)
        out, err = self.flexlab("log", "a.csv", "a.toml", *columns, "-o", "log.csv", status=status)
        return self.read("log.csv") if status == 0 else err

    def setUp(self):
        super().setUp()
        self.write("a.toml", SHORT + OBSERVER)

    def test_each_encoding_gives_the_same_log(self):
        text = ROWS[0]
        logs = {encoding: self.log(text.encode(encoding)) for encoding in ("utf-8", "utf-8-sig", "latin-1", "cp1252", "utf-16")}
        logs["be"] = self.log(b"\xfe\xff" + text.encode("utf-16-be"))
        logs["crlf"] = self.log(text.replace("\n", "\r\n").encode("latin-1"))
        logs["tab"] = self.log(text.replace(";", "\t").encode("latin-1"))
        self.assertEqual(set(logs.values()), {logs["utf-8"]}, logs)
        self.assertEqual(logs["utf-8"].count("head,"), 2)
        self.assertIn("it has zero bytes, so it is no text, or one in UTF-16 without a byte order mark",
                      self.log(text.encode("utf-16-le"), 5))

    def test_a_field_of_any_length(self):
        text = ROWS[0].replace("gr\u00f6\u00dfer", "x" * 300000)
        self.assertEqual(self.log(text.encode()), self.log(ROWS[0].encode()))

    def test_numbers_of_another_form_are_named(self):
        for time_, told in (("0,0012", "the time '0,0012' is not a number from 0 on, since it has a decimal comma: have the table "
                                       "written with points"), ("1'234'567.5", "since it has marks between thousands"),
                            ("1.234.567,5", "since it has marks between thousands"), ("\u0663", "is not a number from 0 on"),
                            ("-1", "is not a number from 0 on"), ("1e5", "is not a number from 0 on"),
                            ("9" * 5000, "is not a number from 0 on")):
            err = self.log(ROWS[0].replace("100;", f"{time_};").encode(), 5)
            self.assertIn(f"a.csv:2: the time '{time_[:5]}", err)
            self.assertIn(told, err)
            self.assertLess(len(err), 1000)


class Bombs(Forked):
    def test_an_option_of_a_pcapng_file_that_ends_before_its_value(self):
        options = struct.pack("<HH", 9, 1)
        data = mutations.pcapng_of(9)[:28] + struct.pack("<IIHHI", 1, 20 + len(options), 210, 0, 0) + options
        with open(self.path("a.pcapng"), "wb") as file:
            file.write(data)
        self.assertEqual(observer.step_of(self.path("a.pcapng")), 1000)

    def test_a_blf_file(self):
        body = zlib.compress(bytes(4 << 20), 9)
        for size in (4 << 20, 0, 0xFFFFFFFF):
            one = struct.pack("<4sHHIIH6xI4x", b"LOBJ", 16, 1, 32 + len(body), 10, 2, size) + body
            with open(self.path("a.blf"), "wb") as file:
                file.write(b"LOGG" + struct.pack("<I", 144) + bytes(136) + one * 400)
            # The size that a container tells is not what bounds it: of those that lie, less is unpacked here.
            most, words = (256, ()) if size == 4 << 20 else (16, ("--most-mib", "16"))
            err = self.flexlab("capture", "a.blf", *words, status=5)[1]
            self.assertIn(f"a.blf: it unpacks to more than {most} MiB, which is the most that is taken; --most-mib raises that", err)
        self.assertIn("more than 1 MiB", self.flexlab("capture", "a.blf", "--most-mib", "1", status=5)[1])
        for count in ("0", "-1", "x", "9" * 30):
            self.flexlab("capture", "a.blf", f"--most-mib={count}", status=2)

    @needs("tshark")
    def test_a_packed_capture(self):
        size = 65535
        one = struct.pack("<IIII", 1, 0, size, size) + bytes([1, 0]) + bytes(size - 2)
        with gzip.open(self.path("a.pcap.gz"), "wb") as file:
            file.write(struct.pack("<IHHiIII", 0xA1B23C4D, 2, 4, 0, 0, 65535, 210) + one * 100)
        err = self.flexlab("capture", "a.pcap.gz", "--most-mib", "1", status=5)[1]
        self.assertIn("a.pcap.gz: it unpacks to more than 1 MiB", err)
        self.assertIn("100 packets", self.flexlab("capture", "a.pcap.gz", status=1)[0])


class Stopped(Forked):
    """^C, two at once, and a file system that takes no more."""

    def slow(self, seconds):
        """A flexray that tells of each call, and takes its time."""
        path = self.write("slow", f"#!/bin/sh\necho call >>{self.path('calls')}\nsleep {seconds}\nexec {FLEXRAY} \"$@\"\n")
        os.chmod(path, 0o755)
        return path

    def begin(self, *words, env=None):
        env = {**os.environ, "FLEXRAY": FLEXRAY, "FLEXRAY_SERIES": "", "FLEXLAB_LIBRARY": "no", **(env or {})}
        ended = subprocess.Popen([sys.executable, FLEXLAB, *words], stdout=subprocess.PIPE, stderr=subprocess.PIPE, text=True, env=env,
                                 cwd=self.room, start_new_session=True)
        self.addCleanup(self.end, ended)
        return ended

    @staticmethod
    def end(ended):
        try:
            os.killpg(ended.pid, signal.SIGKILL)
        except ProcessLookupError:
            pass
        ended.communicate()

    def wait_for(self, name, lines=1):
        for _ in range(4000):
            if os.path.exists(self.path(name)) and self.read(name).count("\n") >= lines:
                return
            time.sleep(0.05)
        self.fail(f"{name} does not come")

    def stop(self, ended, status=130):
        """Sends ^C to flexlab alone, which has to end long before what it called does."""
        begun = time.monotonic()
        ended.send_signal(signal.SIGINT)
        out, err = ended.communicate(timeout=20)
        self.assertEqual(ended.returncode, status, err)
        self.assertNotIn("Traceback", err)
        self.assertIn("flexlab: stopped", err)
        self.assertLess(time.monotonic() - begun, 10)
        self.assertEqual([name for _, _, files in os.walk(self.room) for name in files if name.endswith(".part")], [])
        return out, err

    def test_while_it_begins(self):
        self.write("argparse.py", f"import time\nopen({self.path('here')!r}, 'w').write('\\n')\ntime.sleep(60)\n")
        ended = self.begin("--help", env={"PYTHONPATH": self.room})
        self.wait_for("here")
        self.assertEqual(self.stop(ended)[1], "flexlab: stopped\n")

    def test_a_call_of_the_library(self):
        """A call in C hears no signal: ^C does not wait for it."""
        sleep = "import ctypes; from flexlab.program.calls import beside; beside(lambda: ctypes.CDLL(None).sleep(60))"
        text = (f"import sys; sys.path.insert(0, {os.path.join(REPOSITORY, 'python')!r})\nprint(flush=True)\ntry:\n    exec({sleep!r})\n"
                "except KeyboardInterrupt:\n    sys.exit('flexlab: stopped')\n")
        ended = subprocess.Popen([sys.executable, "-c", text], stdout=subprocess.PIPE, stderr=subprocess.PIPE, text=True)
        self.addCleanup(ended.kill)
        ended.stdout.readline()
        time.sleep(0.5)
        self.stop(ended, 1)

    def test_a_run(self):
        self.write("a.toml", SHORT)
        ended = self.begin("run", "a.toml", "--flexray", self.slow(60))
        self.wait_for("calls")
        self.stop(ended)
        self.assertEqual(sorted(os.listdir(self.path("a.lab"))), ["drift.csv", "params.csv", "script.csv"])

    def test_a_search_of_several_seeds(self):
        self.write("a.toml", SHORT)
        ended = self.begin("worst", "a.toml", "--jobs", "3", "--runs", "100000", "--seconds", "1000", "--flexray", self.slow(0))
        # Of one seed a dozen divisions come first.
        self.wait_for("calls", 16)
        self.stop(ended)
        self.assertEqual(os.listdir(self.path("a.worst")), [])

    def study(self, *more):
        return ("study", "a.toml", "--vary", "values.drift", "--values", "10:60:10", "--keep", "none", "--jobs", "2", *more)

    @needs("parallel")
    def test_a_study_that_is_shared_out(self):
        self.write("a.toml", SHORT)
        self.write("calls", "")
        ended = self.begin(*self.study("--flexray", self.slow(1.5)))
        self.wait_for("a.study/study.jsonl")
        self.assertIn("the same words go on", self.stop(ended, 130)[1])
        self.assertIn("run 6 of 6", self.flexlab(*self.study())[0])
        self.assertEqual(len(self.read("a.study", "study.csv").splitlines()), 7)

    def test_two_at_once(self):
        self.write("a.toml", SHORT)
        first = self.begin("run", "a.toml", "--flexray", self.slow(0.5))
        self.wait_for("calls")
        second = self.begin("run", "a.toml")
        pages = [one.communicate(timeout=200) for one in (first, second)]
        self.assertEqual((first.returncode, second.returncode), (0, 0), pages)
        self.assertEqual(pages[0][0], pages[1][0])
        self.assertIn("another flexlab writes into a.lab: this one waits until it has ended", pages[1][1])

    def test_two_studies_share_their_runs(self):
        self.write("a.toml", SHORT)
        first = self.begin(*self.study("--flexray", self.slow(0.2)))
        self.wait_for("calls")
        second = self.begin(*self.study())
        pages = [one.communicate(timeout=200) for one in (first, second)]
        self.assertEqual((first.returncode, second.returncode), (0, 0), pages)
        self.assertIn("another flexlab writes into a.study", pages[1][1])
        self.assertIn("6 of 6 runs are there already", pages[1][0])

    def limited(self, most, *words):
        """flexlab where no file can be longer, and no other program is on the path."""
        text = (f"import os, resource, sys\nresource.setrlimit(resource.RLIMIT_FSIZE, ({most}, {most}))\n"
                "os.execv(sys.executable, [sys.executable, *sys.argv[1:]])\n")
        env = {**os.environ, "FLEXRAY": FLEXRAY, "FLEXRAY_SERIES": "", "FLEXLAB_LIBRARY": "no", "PATH": "/nowhere"}
        return subprocess.run([sys.executable, "-c", text, FLEXLAB, *words], capture_output=True, text=True, check=False, env=env,
                              cwd=self.room, timeout=300)

    def test_no_room_on_the_disk(self):
        """A limit of the length of files stands for a full disk: it fails in the same calls."""
        self.write("a.toml", SHORT)
        self.assertEqual(self.shell("flexlab build a.toml").returncode, 0)
        kept = self.read("a.lab", "script.csv")
        self.write("a.toml", SHORT.replace("microtick_ns = 25", "microtick_ns = 25.5"))
        ended = self.limited(1000, "build", "a.toml")
        self.assertEqual((ended.returncode, ended.stderr), (3, "flexlab: a.lab/script.csv: File too large\n"))
        self.assertEqual(self.read("a.lab", "script.csv"), kept)
        self.assertEqual(sorted(os.listdir(self.path("a.lab"))), ["drift.csv", "params.csv", "script.csv"])
        ended = self.limited(1000, "new", "b.toml")
        self.assertEqual((ended.returncode, ended.stderr), (3, "flexlab: b.toml: File too large\n"))
        self.assertFalse(os.path.exists(self.path("b.toml")))

    def test_a_study_goes_on_behind_a_full_disk(self):
        words = "study --seeds 1:8:1 --doubles 1 -o m --jobs 1"
        ended = self.limited(2000, *words.split())
        self.assertEqual(ended.returncode, 3, ended.stdout + ended.stderr)
        self.assertIn("m/study.jsonl: File too large", ended.stderr)
        out, _ = self.flexlab(*words.split())
        self.assertRegex(out, "^[1-7] of 8 runs are there already")
        self.assertEqual([line.split(",")[0] for line in self.read("m", "study.csv").splitlines()[1:]], list("12345678"))
        for data in ("", "[", "[" * 5000, "\0"):
            self.write("m/study.json", data)
            self.assertIn("m/study.json: it is no plan of a study", self.flexlab(*words.split(), status=3)[1])

    @needs("gnuplot")
    def test_lines_that_are_none_of_the_study(self):
        words = "study --seeds 1:3:1 --doubles 1 -o m --jobs 1".split()
        self.flexlab(*words)
        table, lines = self.read("m", "study.csv"), self.read("m", "study.jsonl").splitlines()
        bad = {**json.loads(lines[0]), "precision_us": "1\nend\nsystem('touch RUN')\n"}
        others = ("5", "null", "[]", "{}", '{"run": 1}', '{"run": {}}', "[" * 5000, json.dumps({**bad, "run": 2}), json.dumps(bad),
                  json.dumps({**json.loads(lines[0]), "run": 10**9}), json.dumps({**json.loads(lines[0]), "seed": "`x`"}), "\udcff")
        with open(self.path("m", "study.jsonl"), "w", encoding="utf-8", errors="surrogateescape") as file:
            file.write("\n".join((*others, lines[1], lines[2])) + "\n")
        out, _ = self.flexlab(*words)
        self.assertIn("2 of 3 runs are there already", out)
        self.assertEqual([line.rsplit(",", 2)[0] for line in self.read("m", "study.csv").splitlines()],
                         [line.rsplit(",", 2)[0] for line in table.splitlines()])
        self.assertFalse(os.path.exists(self.path("RUN")))


class Mutations(unittest.TestCase):
    """A few mutated inputs of each kind, of a seed that is printed; `bench/inputs` tries many."""

    def test_no_input_ends_in_a_fault(self):
        seed = os.environ.get("FLEXLAB_SEED") or str(random.SystemRandom().randrange(10**9))
        print(f"mutations of seed {seed} (FLEXLAB_SEED={seed} has the same again)", file=sys.stderr)
        made = mutations.sent()
        for kind in mutations.KINDS:
            with self.subTest(kind=kind, seed=seed):
                statuses, faults = mutations.tried(kind, made, seed, 20, "")
                self.assertEqual(faults, [])
                self.assertEqual(sum(statuses.values()), 20)

    def test_a_capture_that_ends_within_its_head(self):
        """Also where tshark is stood in for it is refused, as tshark does it."""
        with unittest.mock.patch.object(mutations, "of_bytes", lambda draw, data: data[:draw.randrange(24)]):
            statuses, faults = mutations.tried("pcap", mutations.sent(), "1", 40, "")
        self.assertEqual(faults, [])
        self.assertGreater(statuses[5], 20)

    def test_what_falls_short_is_seen(self):
        """A flexlab that breaks at a word, hangs at another one or answers otherwise is told as that."""
        made = mutations.sent()
        for change, told in ((lambda words: 1 // 0, "ZeroDivisionError"), (lambda words: 5, "without a word"), (spin, "did not end"),
                             (lambda words: 0, "a change that changes nothing gives another answer")):
            was, mutations.CPU_SECONDS = mutations.cli.DO["log"], 1.0
            seen = []

            def log(words, was=was, change=change, seen=seen):
                seen.append(words)
                return was(words) if len(seen) == 1 else change(words)

            try:
                mutations.cli.DO["log"] = log
                _, faults = mutations.tried("pcap", made, "1", 20, "")
            finally:
                mutations.cli.DO["log"], mutations.CPU_SECONDS = was, 20.0
            self.assertIn(told, "".join(faults))


def spin(_):
    while True:
        pass


if __name__ == "__main__":
    unittest.main()
