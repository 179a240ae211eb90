"""The Python package: every example against its stored text, what is raised, small places, threads, and that units are those of
flexlab."""
import inspect
import io
import os
import pickle
import random
import re
import subprocess
import sys
import threading
import tomllib
import unittest
import zipfile
from concurrent.futures import ThreadPoolExecutor
from fractions import Fraction
from pathlib import Path

from bench import FLEXRAY, REPOSITORY, SERIES, Bench, example_call, example_calls, needs, needs_series

PACKAGE = os.path.join(REPOSITORY, "python")
sys.path.insert(0, PACKAGE)

import flexray  # noqa: E402
from flexray import library, texts  # noqa: E402
from flexlab.program import calls as program  # noqa: E402
from flexlab.program import stamp  # noqa: E402
from flexlab.base import units  # noqa: E402
from flexlab.base.version import version  # noqa: E402

try:
    library.version()
    MISSING = None
except flexray.LibraryMissing as missing:
    MISSING = str(missing)

EXAMPLES = Path(REPOSITORY, "examples")
with open(os.path.join(REPOSITORY, "tools", "commands.toml"), "rb") as table:
    TABLE = tomllib.load(table)
REQUESTS = [request for request in TABLE["request"] if "python" in request]
NUMBERS = [word for word, told in TABLE["words"].items() if told["is"] == "number"]
OFFSET = [Path(EXAMPLES, "offset", f"{name}.csv") for name in ("params", "drift", "script")]


def examples():
    """(name, whether it is of flexray-series, words, files in the order of the words, status, text, line)."""
    for call in example_calls():
        names = iter(("first", "second", "third"))
        spelt = [next(names) if (call.folder / word).is_file() else word for word in call.words]
        yield (call.name, call.is_series, spelt, [path.read_bytes() for path in call.files], call.status, call.text.decode(),
               call.line.decode().strip())


def fits(form, word):
    """Whether this is a word of a request where the table has that."""
    if form in NUMBERS:
        return word.isdigit()
    return word in {"A|B": ("A", "B")}.get(form, ("first", "second", "third") if form.isupper() else (form,))


def typed(is_series, words, files):
    """The function of the table of requests for these words, and what it is called with."""
    function, forms = next((request["python"], forms) for request in REQUESTS for forms in [request["words"].split()]
                           if is_series == ("program" in request) and len(forms) == len(words) and all(map(fits, forms, words)))
    given = {form.lower(): int(word) for form, word in zip(forms, words) if form in NUMBERS}
    given.update(("channel", word) for form, word in zip(forms, words) if form == "A|B")
    given.update({"join": True} if "join" in forms else {})
    # Its other arguments are the files, in their order.
    others = [name for name in inspect.signature(getattr(flexray, function)).parameters if name not in ("join", *given)]
    return function, {**given, **dict(zip(others, files, strict=True))}


def printed(name, form):
    """The number that one line of this form has in what an example prints."""
    found, = re.findall(f"(?m)^{form}$", Path(EXAMPLES, name, "printed.txt").read_text())
    return int(found)


class Index:
    """A whole number of another type, as numpy has them."""

    def __init__(self, number: int) -> None:
        self.number = number

    def __index__(self) -> int:
        return self.number


class Arguments(Bench):
    """What is wrong with a call is told before the library is asked, so these need none."""

    def told(self, kind, wanted, call, *given, **named):
        with self.assertRaises(kind) as raised:
            call(*given, **named)
        self.assertEqual(type(raised.exception), kind)
        self.assertRegex(str(raised.exception), wanted)
        self.assertLess(len(str(raised.exception)), 250)
        return raised.exception

    def test_a_place_of_less_than_nothing_is_refused(self):
        """The library writes as far as it is told that a place goes, and ctypes makes 2 ** 64 - 1 of -1."""
        for call in (flexray.request, flexray.series_request):
            for name in ("room", "line_room"):
                for room in (-1, -2 ** 63, 2 ** 63, 2 ** 64):
                    self.told(ValueError, f"^{name}: {room} is no length of a place", call, ["bound", "first"], b"", **{name: room})
                for room in (1.5, True, "7"):
                    self.told(TypeError, f"^{name}: .* is no whole number", call, ["bound", "first"], b"", **{name: room})

    def test_what_is_no_file_is_told(self):
        """5 is not five zero bytes."""
        for given in (5, True, 10 ** 10, -1, [1, 2], 1.5, None, ["params\n"]):
            self.told(TypeError, "^params: .* is no content of a file: give its bytes, its text, or its path", flexray.run, given, b"", b"")
            self.told(TypeError, "^second: .* is no content of a file", flexray.request, ["run", "first", "second", "third"], b"", given)
            self.told(TypeError, "^frame: .* is no content of a file", flexray.frame, "A", given)
        with open(OFFSET[0], "rb") as file:
            self.told(TypeError, r"^drift: .* its read\(\) answers", flexray.run, b"", file, b"")
        self.told(TypeError, r"^script: .* its read\(\) answers", flexray.run, b"", b"", io.BytesIO(b"x"))
        self.told(TypeError, "^first: 'text' is no content", flexray.request, ["bound", "first"], "text")
        self.told(ValueError, "^params: .* is no text of records", flexray.bound, "a" * 100000)
        self.told(ValueError, "^params: the text has a half of a pair of surrogates at 2", flexray.bound, "a,\udcff\n")
        self.told(ValueError, "^params: embedded null byte", flexray.bound, Path("a\0b"))

    def test_words_that_are_no_list_of_texts_are_told(self):
        for words in ("bound", b"bound", [1, 2], [b"bound"]):
            self.told(TypeError, "^words: .* is no list of texts", flexray.request, words)
        self.told(ValueError, "^words: a word has a line feed", flexray.request, ["bound", "first\njoin"])
        self.told(TypeError, "^join: 'no' is neither True nor False", flexray.bound, b"", join="no")

    def test_numbers_and_channels_are_told_with_their_range(self):
        params = OFFSET[0]
        for name, wanted, call, given in (
                ("start", "-1 is not from 0 to 1000000000000", flexray.settle, (params, -1, 0)),
                ("rate", "1000000000001 is not from 0 to 1000000000000", flexray.settle, (params, 0, 10 ** 12 + 1)),
                ("flutter", "20000001 is not from 0 to 20000000", flexray.sharp_bound, (params, 20000001)),
                ("flutter", "-1 is not from", flexray.sharp_settle, (params, 0, 0, -1)),
                ("width", "13 is not from 1 to 12", flexray.nm, (13, b"")),
                ("seed", "4294967296 is not from 0 to 4294967295", flexray.make, (2 ** 32, 1)),
                ("seed", "a whole number of 16610 bits is not", flexray.make, (10 ** 5000, 1)),
                ("doubles", "0 is not from 1 to 10000", flexray.make, (7, 0)),
                ("channel", "'C' is neither A nor B", flexray.frame, ("C", b"")),
                ("channel", "'A\\\\nB' is neither A nor B", flexray.capture, ("A\nB", b""))):
            raised = self.told(flexray.Usage, f"^{name}: {wanted}", call, *given)
            self.assertEqual((raised.status, raised.line), (2, "usage: flexray COMMAND WORDS"))
            copied = pickle.loads(pickle.dumps(raised))
            self.assertEqual((str(copied), copied.line), (str(raised), raised.line))
        for value in (1.5, True, "7", None):
            self.told(TypeError, "^seed: .* is no whole number", flexray.make, value, 2)
        self.told(TypeError, "^channel: None is neither", flexray.frame, None, b"")

    def test_ranges_are_those_of_the_program(self):
        params = self.path("params.csv")
        Path(params).write_bytes(OFFSET[0].read_bytes())
        self.write("vectors.csv", "")
        for words, least, most in ((["settle", params, "N", "0"], 0, 10 ** 12), (["settle", params, "0", "N"], 0, 10 ** 12),
                                   (["bound", params, "sharp", "N"], 0, 20000000), (["nm", "N", "vectors.csv"], 1, 12),
                                   (["make", "N", "1"], 0, 2 ** 32 - 1), (["make", "7", "N"], 1, 10000)):
            for number, is_usage in ((least - 1, True), (least, False), (most, False), (most + 1, True)):
                if (words[0], number) != ("make", 10000):
                    status = self.flexray(*(str(number) if word == "N" else word for word in words))[0]
                    self.assertEqual(status == 2, is_usage, (words, number))

    def test_whole_numbers_of_other_types_are_taken(self):
        self.assertEqual(library.whole("start", Index(7)), 7)
        self.told(flexray.Usage, "^doubles: 0 is not", flexray.make, Index(7), Index(0))
        self.assertEqual(flexray.to_us(Index(40_000_000), 25), 1.0)

    def test_units_of_no_length_are_told(self):
        for microtick in (0, -25, "0", Fraction(-1, 2)):
            for call in (flexray.to_us, flexray.to_ns, flexray.from_us, flexray.from_ns):
                self.told(ValueError, "^microtick_ns: .* is not above 0", call, 5, microtick)
        for value in ("x", "", float("nan"), float("inf"), "1e999999999", "1e-999999999", "9" * 5000 + "e1"):
            self.told(ValueError, "^microtick_ns: .* is no number", flexray.to_us, 5, value)
            self.told(ValueError, "^ticks: .* is no number", flexray.to_us, value, 25)
            self.told(ValueError, "^ppm: .* is no number", flexray.length_of, value)
        self.told(TypeError, "^ticks: None is no number", flexray.to_microticks, None)
        self.told(ValueError, "^ppm: -1000000 is not above -1000000", flexray.length_of, -1000000)
        self.told(ValueError, "^length: 0 is not above 0", flexray.ppm_of, 0)


@unittest.skipIf(MISSING, f"the library is not built: {MISSING}")
class Calls(Bench):
    def test_every_example_is_what_the_program_prints(self):
        for name, is_series, words, files, status, text, line in examples():
            call = flexray.series_request if is_series else flexray.request
            self.assertEqual(call(words, *files), flexray.Answer(status, text, line), name)

    def test_every_example_as_a_typed_call(self):
        called = set()
        for name, is_series, words, files, _, text, line in examples():
            with self.subTest(name):
                function, given = typed(is_series, words, files)
                found = getattr(flexray, function)(**given)
                self.assertEqual(found.text, text)
                if line:
                    self.assertEqual((found.passes, found.line), (False, line))
                self.assertEqual(type(found).__name__, inspect.signature(getattr(flexray, function)).return_annotation)
                called.add(function)
        self.assertEqual(called, {request["python"] for request in REQUESTS})

    def test_what_a_sharp_check_says(self):
        files = [Path(EXAMPLES, "faults", "arbitrary", "params.csv"), Path(EXAMPLES, "faults", "check-beside", "trace.csv")]
        found = flexray.sharp_check(*files)
        self.assertEqual((found.passes, found.flutter, found.kind, found.precision, found.in_sync, found.lasts, found.unlike),
                         (True, 1000000, "beside", printed("faults/check-beside", r"precision (\d+)"), 0, None, 2))
        self.assertEqual([check.number for check in found.checks], [1, 2, 3])
        self.assertEqual((found.greatest.ticks, found.within, found.beyond), (2500000, True, None))
        text = found.text.replace("in sync 0 on\nunlike 2\ngreatest skew 2500000 cycle 0 macrotick 0\nwithin yes", "{}")
        never = flexray.texts.sharp_verdict(text.format("in sync never\nwithin -"))
        self.assertEqual((never.in_sync, never.unlike, never.greatest, never.within, never.beyond), (None, None, None, None, None))
        late = flexray.texts.sharp_verdict(text.format("in sync 3 12\ngreatest skew 7 cycle 6 macrotick 1\nwithin no 8 cycle 9 macrotick 2"))
        self.assertEqual((late.in_sync, late.lasts, late.within, late.beyond), (3, 12, False, flexray.results.Skew(8, 9, 2)))

    def test_what_a_sharp_report_says(self):
        files = [Path(EXAMPLES, "sharp", f"{name}.csv") for name in ("params", "drift", "script")]
        found, series = flexray.sharp_run(*files), flexray.sharp_series(*files)
        self.assertEqual(found.report, flexray.run(*files))
        self.assertTrue(found.text.endswith(found.report.text))
        self.assertEqual((found.flutter, found.precision, found.kind, found.covered, found.gaps, found.in_sync, found.lasts,
                          found.greatest, found.within, found.beyond),
                         (series.flutter, series.precision, series.kind, series.sharp_covered, (), series.sharp_synced, series.lasts,
                          series.sharp_greatest, series.sharp_within, series.sharp_beyond))
        self.assertEqual((found.in_sync, found.lasts, found.greatest.ticks), (2, None, 18_760_436))
        bound = printed("sharp/report", r"sharp lost 0 last - bound (\d+) double 2")
        self.assertEqual((found.losses, series.losses), ((0, None, bound, 2),) * 2)
        self.assertEqual((found.flutter, found.fluttering, series.fluttering), (0, None, None))
        # Of this one a delay flutters, and it says which and until when.
        files = example_call("sharp/report-walk").files
        found, series = flexray.sharp_run(*files), flexray.sharp_series(*files)
        self.assertEqual((found.flutter, found.fluttering), (10_000_000, flexray.Fluttering(1, 2, "A", 89)))
        self.assertEqual((series.flutter, series.fluttering), (found.flutter, found.fluttering))

    REPORT = ("sharp flutter 7 delay 3 12 B 4\nsharp precision 36003994 alone\nsharp covered yes\nsharp in sync no\nsharp within -\n"
              "sharp lost 0 last - bound -\n")

    def test_where_a_report_says_that_delays_flutter(self):
        below = Path(EXAMPLES, "offset", "run", "printed.txt").read_text()
        found = texts.sharp_report(self.REPORT + below)
        self.assertEqual((found.flutter, found.fluttering, found.in_sync), (7, flexray.Fluttering(3, 12, "B", 4), None))
        self.assertIsNone(texts.sharp_report(self.REPORT.replace("7 delay 3 12 B 4", "0") + below).fluttering)
        for told in ("7", "0 delay 3 12 B 4", "07 delay 3 12 B 4", "7 delay 3 12 4", "7 delay 3 12 C 4", "7 delay 3 12 B", "7 delay 3 12 B 4 5"):
            with self.subTest(told=told), self.assertRaises(texts.Strange):
                texts.sharp_report(self.REPORT.replace("7 delay 3 12 B 4", told) + below)

    def test_what_a_report_says(self):
        report = flexray.run(*OFFSET)
        self.assertEqual((report.nodes, report.covered, report.gap, report.in_sync), (2, True, (), 0))
        self.assertEqual(report.greatest, flexray.Skew(2500000, 0, 0))
        self.assertEqual(report.ends[1], flexray.NodeEnd(2, "active", 800001500000, 0, 0))
        with self.assertRaises(AttributeError):
            report.nodes = 3

    def test_what_a_log_tells(self):
        params, log = (Path(EXAMPLES, "observe", f"{name}.csv") for name in ("params", "log"))
        found = flexray.observe(params, log)
        self.assertEqual(found, texts.observation(Path(EXAMPLES, "observe", "observe", "printed.txt").read_text()))
        self.assertEqual(found.precision, flexray.sharp_bound(params, found.flutter).alone.precision)
        self.assertEqual((found.faults, found.missed, found.sync, found.verdict),
                         ((), (), ("0", "judged", "2", "2", "-", "-", "-"), ("within", "0", "2")))
        self.assertEqual((found.judged, found.doubles), (2, 2))
        self.assertEqual(found.senders[1], flexray.ObservedSender(2, "A", 4, 0, 3, 0))
        self.assertEqual(found.numbers, ("sure",))
        odd = flexray.observe(params, re.sub("(head,5007000,)A(.*)", r"\1A\2\n\1B\2", log.read_text()))
        self.assertEqual(odd.faults, (flexray.ObservedFault(1, 1, "stranger", ("B", "5007000", "1", "-")),))
        wrong = flexray.observe(*example_call("bench/fault").files)
        self.assertEqual(wrong.verdict, ("no", "11", "offset", "3"))
        self.assertEqual(wrong.faults[0], flexray.ObservedFault(11, 3, "offset", ("29", "32", "-12", "15")))
        self.assertEqual(wrong.missed[0], flexray.ObservedMissed(11, 3, "offset", 2))
        stated = flexray.observe(params, "flutter,0,,,\nlost,1,,,\n" + log.read_text())
        self.assertEqual((stated.precision, stated.flutter, stated.lost), (found.precision - 6 * found.flutter, 0, 1))
        silent = flexray.observe(params, re.sub("head,.*\n", "", log.read_text()))
        self.assertEqual((silent.cycles, silent.nodes, silent.log, silent.first, silent.last),
                         ((), (), flexray.LogCounts(0, 0, 0, 0, 0, 0), None, None))
        self.assertEqual((silent.precision, silent.within, silent.over, silent.open), (found.precision, 0, 0, 0))
        for given, wanted in (("unit,0,,,\n", ("log", 1, "OutOfRange")),
                              ("unit,40000,,,\n", ("log", None, "missing drift"))):
            with self.assertRaises(flexray.Refused) as raised:
                flexray.observe(params, given)
            self.assertEqual((raised.exception.role, raised.exception.record, raised.exception.reason), wanted)
        with self.assertRaises(flexray.ReadFault) as raised:
            flexray.observe(params, Path(self.room, "none.csv"))
        self.assertEqual(raised.exception.role, "log")

    def test_gaps_are_words(self):
        report = flexray.run(*example_call("offset/lost").files)
        self.assertEqual((report.covered, report.gap[0]), (False, "link"))

    def test_bytes_texts_and_paths_are_the_same(self):
        given = [path.read_bytes() for path in OFFSET]
        for files in (OFFSET, [data.decode() for data in given], [bytearray(data) for data in given],
                      [memoryview(data) for data in given]):
            self.assertEqual(flexray.run(*files), flexray.run(*given))

    def test_a_path_as_text_is_told(self):
        with self.assertRaisesRegex(ValueError, r"params: 'params.csv' is no text of records; .*pathlib.Path"):
            flexray.bound("params.csv")
        with self.assertRaises(TypeError):
            flexray.frame("A", "400404D0")

    def test_refusals(self):
        params, drift, script = (path.read_text() for path in OFFSET)
        for files, wanted in (
                ((params, drift.replace("doubles,2", "doubles,0"), script), ("drift", 1, "OutOfRange")),
                ((params, drift, "lose,0,9,1,A,,\n"), ("script", 1, "UnknownNode")),
                ((re.sub("param,gdNIT.*\n", "", params), drift, script), ("params", None, "missing gdNIT")),
                ((params.replace("gdNIT,800", "gdNIT,801"), drift, script), ("params", None, "constraint 1"))):
            with self.assertRaises(flexray.Refused) as raised:
                flexray.run(*files)
            self.assertEqual((raised.exception.role, raised.exception.record, raised.exception.reason), wanted)

    def test_other_failures(self):
        with self.assertRaises(flexray.ReadFault) as raised:
            flexray.bound(Path(self.room, "none.csv"))
        self.assertEqual(raised.exception.role, "params")
        self.assertIsInstance(raised.exception.__cause__, FileNotFoundError)
        with self.assertRaises(flexray.TooLong) as raised:
            flexray.bound(b"\n" * (library.MOST + 1))
        self.assertEqual(raised.exception.role, "params")
        self.assertRaises(flexray.Usage, flexray.settle, OFFSET[0], -1, 0)
        self.assertRaises(flexray.Usage, flexray.frame, "C", b"")
        self.assertRaises(flexray.Usage, flexray.sharp_bound, OFFSET[0], 20000001)
        self.assertRaises(TypeError, flexray.make, 1.5, 2)
        with self.assertRaises(flexray.NoFrame) as raised:
            flexray.frame("A", b"1234567")
        self.assertEqual(raised.exception.reason, "short 7")
        self.assertEqual(flexray.request(["run", "first", "nowhere", "third"], OFFSET[0].read_bytes()).status, library.READ_FAULT)
        self.assertEqual(flexray.request([]).status, library.USAGE)

    def test_a_word_with_a_line_feed_is_no_two_words(self):
        self.assertRaises(ValueError, flexray.request, ["bound", "first\njoin"], OFFSET[0].read_bytes())

    def test_small_places(self):
        text = (EXAMPLES / "offset" / "run" / "printed.txt").read_text()
        files = [path.read_bytes() for path in OFFSET]
        for room in (0, 1, len(text) - 1, len(text), len(text) + 1):
            self.assertEqual(flexray.request(["run", "first", "second", "third"], *files, room=room).text, text)
        for room in (0, 1, 5, 512):
            self.assertEqual(flexray.request(["run"], room=room, line_room=room).line, "usage: flexray COMMAND WORDS")

    def test_bytes_at_random_are_answered(self):
        chance = random.Random(7)
        for _ in range(200):
            data = bytes(chance.choice(b"param,node\n0123456789-AB\x00\xff\"") for _ in range(chance.randrange(200)))
            self.assertIn(flexray.request(["bound", "first"], data).status, (library.DONE, library.REFUSED))

    def test_eight_threads_at_once(self):
        known, gate = list(examples()), threading.Barrier(8)

        def all_of(shift):
            gate.wait()
            for name, is_series, words, files, status, text, line in known[shift:] + known[:shift]:
                call = flexray.series_request if is_series else flexray.request
                if call(words, *files) != flexray.Answer(status, text, line):
                    return name
            return None

        with ThreadPoolExecutor(8) as pool:
            self.assertEqual(list(pool.map(all_of, range(0, 32, 4))), [None] * 8)

    def test_a_thread_with_the_stack_that_the_header_asks_for(self):
        found = []
        before = threading.stack_size(512 * 1024 + 128 * 1024)
        try:
            files = [Path(EXAMPLES, "bench", f"{name}.csv") for name in ("params", "drift", "script")]
            thread = threading.Thread(target=lambda: found.append(flexray.run(*files).text))
            thread.start()
            thread.join()
        finally:
            threading.stack_size(before)
        self.assertEqual(found, [(EXAMPLES / "bench" / "run" / "printed.txt").read_text()])

    def test_a_run_that_the_examples_do_not_have(self):
        """Where the programs are built: a long series, whose text does not fit the first place, and a trace."""
        params, _, script = OFFSET
        drift = "doubles,3000,,,,\nlength,1,0,999900,,\n"
        path = Path(self.write("drift.csv", drift))
        library._rooms.clear()
        words = [str(params), str(path), str(script)]
        wanted = subprocess.run([FLEXRAY, "trace", *words], capture_output=True, text=True, check=True).stdout
        self.assertEqual(flexray.trace(params, path, script).text, wanted)
        self.assertEqual(len(flexray.trace(params, path, script).cycles), 12000)
        if SERIES:
            wanted = subprocess.run([SERIES, *words, "sharp"], capture_output=True, text=True, check=True).stdout
            self.assertEqual(flexray.sharp_series(params, drift, script).text, wanted)

    def test_the_version(self):
        version = Path(REPOSITORY, "VERSION").read_text().strip()
        self.assertEqual((flexray.version(), library.NAME), (version, f"libflexray.so.{version.split('.')[0]}"))

    def test_the_scripts_of_the_examples(self):
        env = {**os.environ, "PYTHONPATH": PACKAGE, "PYTHONDONTWRITEBYTECODE": "1"}
        for name in ("bench", "offset"):
            ended = subprocess.run([sys.executable, EXAMPLES / "python" / "run.py", EXAMPLES / name], capture_output=True, text=True,
                                   check=False, env=env)
            self.assertEqual((ended.stdout, ended.stderr), ((EXAMPLES / name / "run" / "printed.txt").read_text(), ""))
        ended = subprocess.run([sys.executable, EXAMPLES / "python" / "study.py"], capture_output=True, text=True, check=False, env=env)
        self.assertEqual((ended.returncode, ended.stderr), (0, ""))
        self.assertIn("\n      100 %       yes     3.420 us", ended.stdout)
        self.assertTrue(ended.stdout.endswith("drift, record 1: OutOfRange\n"), ended.stdout)

    def test_the_wheel(self):
        ended = subprocess.run([sys.executable, "-B", os.path.join(PACKAGE, "build_wheel.py"), self.room, library.path()],
                               capture_output=True, text=True, check=True)
        path = ended.stdout.strip()
        self.assertTrue(path.endswith("-py3-none-linux_x86_64.whl"), path)
        with zipfile.ZipFile(path) as wheel:
            wheel.extractall(self.path("site"))
        env = {"PYTHONPATH": self.path("site"), "PATH": os.environ["PATH"]}
        ended = subprocess.run([sys.executable, "-c", "import flexray; print(flexray.make(7, 1).text, end=''); "
                                "print(flexray.library.path())"], capture_output=True, text=True, check=True, env=env, cwd=self.room)
        self.assertEqual(ended.stdout, (EXAMPLES / "make" / "short" / "printed.txt").read_text()
                         + os.path.realpath(self.path("site", "flexray", "libflexray.so.0")) + "\n")


@unittest.skipIf(MISSING, f"the library is not built: {MISSING}")
class Flexlab(Bench):
    """flexlab by the library in its own process."""

    def setUp(self):
        super().setUp()
        self.found = [program.by_library(FLEXRAY), SERIES and program.by_library(SERIES)]
        if not self.found[0]:
            self.skipTest("the program that is tested is not the one that flexlab finds, or the library is of other sources")

    def test_each_call_is_that_of_the_program(self):
        os.makedirs(self.path("folder.csv"))
        self.write("params.csv", "param\n")
        params, drift, script = map(str, OFFSET)
        observed = [str(EXAMPLES / "observe" / f"{name}.csv") for name in ("params", "log")]
        for words in (["bound", params], ["bound", params, "join"], ["bound", params, "sharp", "0"], ["bound", params, "sharp", "-1"],
                      ["run", params, drift, script], ["run", params, drift], ["run", params, drift, self.path("none.csv")],
                      ["run", self.path("params.csv"), self.path("none.csv"), script], ["bound", self.path("folder.csv")],
                      ["settle", params, "1", "first"], ["make", "7", "1"], ["make", "first"], ["frame", "C", params],
                      ["frame", "A", params], [], ["walk"], ["bound", "first"], ["check", params, script],
                      ["observe", *observed], ["observe", params, drift], ["observe", params]):
            self.assertEqual(program.call(FLEXRAY, words), self.by_process(FLEXRAY, words), words)
        self.assertIsNotNone(program.answered(FLEXRAY, ["run", params, drift, script]))
        self.assertIsNotNone(program.answered(FLEXRAY, ["observe", *observed]))
        if self.found[1]:
            for words in ([params, drift, script], [params, drift, script, "sharp"], [params, drift, script, "blunt"], [params]):
                self.assertEqual(program.call(SERIES, words), self.by_process(SERIES, words), words)

    def by_process(self, name, words):
        ended = subprocess.run([name, *words], capture_output=True, text=True, check=False)
        return ended.returncode, ended.stdout, ended.stderr.strip()

    def test_a_program_that_is_named_is_called(self):
        other = self.write("flexray", "#!/bin/sh\necho called; exit 3\n")
        os.chmod(other, 0o755)
        self.assertEqual(program.call(other, ["bound", str(OFFSET[0])]), (3, "called\n", ""))

    def test_pages_and_studies_are_the_same(self):
        toml = str(EXAMPLES / "bench" / "bench.toml")
        pages = []
        for told in ("yes", "no"):
            env = {"FLEXLAB_LIBRARY": told, "FLEXRAY_SERIES": SERIES or ""}
            page = self.flexlab("run", "--out", "lab", toml, env=env)[0]
            study = self.flexlab("study", toml, "--vary", "node[1].ppm", "--values", "0,50,100", "--out", told, "--keep", "none",
                                 env=env)[0]
            table = [line.split(",") for line in self.read(told, "study.csv").splitlines()]
            seconds = table[0].index("seconds")
            pages.append((page, [row[:seconds] + row[seconds + 1:] for row in table], study.count("\n")))
        self.assertEqual(pages[0], pages[1])


class Stamped(Bench):
    """Which library flexlab takes: one that was compiled from the sources that it stands beside, and no other of the same version."""

    def stand_in(self, build):
        """A shared object of the present version with this build ID."""
        major, minor, patch = (int(part) for part in version().split("."))
        self.write("stand_in.c", f"""#include <stdint.h>
uint32_t flexray_version(void) {{ return {major * 10000 + minor * 100 + patch}; }}
uint32_t flexray_request(void) {{ return 2; }}
uint32_t flexray_series_request(void) {{ return 2; }}
""")
        path = self.path("libflexray.so.0")
        subprocess.run(["cc", "-shared", "-fPIC", f"-Wl,--build-id={build}", self.path("stand_in.c"), "-o", path], check=True)
        return path

    def taken(self, path):
        """The library that flexlab takes where this one is found first."""
        ended = subprocess.run([sys.executable, "-B", "-c", "from flexlab.program import calls\nfound = calls.package()\n"
                                "print(found and found.library.path())"], capture_output=True, text=True, check=True,
                               env={**os.environ, "PYTHONPATH": PACKAGE, "FLEXRAY_LIBRARY": path, "FLEXLAB_LIBRARY": "yes"})
        return ended.stdout.strip()

    @needs("cc")
    def test_it_is_of_these_sources(self):
        own = stamp.stamp(REPOSITORY)
        path = self.stand_in(f"0x{own}")
        self.assertEqual(self.taken(path), path)
        self.assertEqual(self.taken(self.stand_in("0x" + "5a" * 20)), "None")
        self.assertEqual(self.taken(self.stand_in("none")), "None")
        self.write("libflexray.so.0", "no library")
        self.assertEqual(self.taken(path), "None")

    def test_a_stamp_is_that_of_the_code(self):
        """It changes with a source that the library stands on, and with no proof, test or name of another crate."""
        top = self.path("top")
        for name, text in (("crates.txt", "low:\nflexray_c staticlib: low csv\nother: low\n"), ("crates/low/src/lib.rt", "a"),
                           ("crates/low/src/deep/part.rt", "b"), ("crates/low/proofs/A.antt", "c"), ("crates/other/src/lib.rt", "d"),
                           ("crates/flexray_c/src/lib.rt", "e")):
            os.makedirs(os.path.dirname(os.path.join(top, name)), exist_ok=True)
            self.write(os.path.join("top", name), text)
        first = stamp.stamp(top)
        self.assertRegex(first, "^[0-9a-f]{40}$")
        self.write("top/crates/low/proofs/A.antt", "other")
        self.write("top/crates/other/src/lib.rt", "other")
        self.write("top/crates.txt", "low: # lowest\nflexray_c staticlib: low csv\nother: low csv\n")
        self.assertEqual(stamp.stamp(top), first)
        seen = {first}
        for name, text in (("crates/low/src/deep/part.rt", "bb"), ("crates/low/src/lib.rt", "aa"), ("crates/flexray_c/src/more.rt", ""),
                           ("crates.txt", "low: hex\nflexray_c staticlib: low csv\n")):
            self.write(os.path.join("top", name), text)
            seen.add(stamp.stamp(top))
        self.assertEqual(len(seen), 5)
        self.write("top/stamp", "as the package says\n")
        self.assertEqual(stamp.stamp(top), "as the package says")
        self.assertIsNone(stamp.stamp(self.room))


class Alone(Bench):
    """What needs no library."""

    def test_units_are_those_of_flexlab(self):
        for ppm in ("0", "150", "-150", "0.1", "1498.25", "-700.5"):
            self.assertEqual(flexray.length_of(ppm), units.length_of(Fraction(ppm)))
        for ticks in (0, 1, -40000000, 252043600):
            self.assertEqual(flexray.to_us(ticks, 25), float(units.us_of_ticks(ticks, 25)))
            self.assertEqual(flexray.from_us(str(Fraction(ticks, 40000000)), 25), ticks)
        self.assertEqual(flexray.from_ns(0.1, 12.5), units.ticks_of_ns(Fraction("0.1"), Fraction("12.5")))
        self.assertEqual(flexray.from_microticks("-0.3"), -300000)
        self.assertEqual(flexray.ppm_of(1000000), 0.0)

    def test_a_missing_library_is_told(self):
        env = {**os.environ, "PYTHONPATH": PACKAGE, "FLEXRAY_LIBRARY": self.path("none.so")}
        ended = subprocess.run([sys.executable, "-B", "-c", "import flexray\ntry:\n    flexray.make(7, 1)\n"
                                "except flexray.LibraryMissing as missing:\n    print(missing)\n"], capture_output=True, text=True,
                               check=True, env=env)
        self.assertIn("tools/library builds it", ended.stdout)

    def test_irregular_frames_of_a_log(self):
        lines = Path(EXAMPLES, "observe", "observe", "printed.txt").read_text().splitlines(keepends=True)
        found = texts.observation("".join([*lines[:5], "fault,1,1,stranger,B,9,1,-\nfault,1,2,form,A,9,2,-\n", *lines[5:]]))
        self.assertEqual(found.faults, (flexray.ObservedFault(1, 1, "stranger", ("B", "9", "1", "-")),
                                        flexray.ObservedFault(1, 2, "form", ("A", "9", "2", "-"))))

    def test_what_an_observation_says(self):
        text = Path(EXAMPLES, "observe", "observe", "printed.txt").read_text()
        found = texts.observation(text)
        precision = printed("observe/observe", r"precision,(\d+),1000000,0,,,,")
        self.assertEqual((found.text, found.precision, found.flutter, found.lost), (text, precision, 1000000, 0))
        self.assertEqual(found.log, flexray.LogCounts(8, 0, 0, 0, 0, 0))
        self.assertEqual(found.cycles, (flexray.ObservedCycle(0, 2, 1439448, 4520752, "within"),
                                        flexray.ObservedCycle(1, 2, 1439800, 5598648, "within"),
                                        flexray.ObservedCycle(2, 2, 0, 2520752, "within"),
                                        flexray.ObservedCycle(3, 2, 0, None, "open")))
        lengths = (199999960000, 200000040000)
        self.assertEqual(found.nodes, (flexray.ObservedNode(0, 1, *lengths, 0, 2),
                                       flexray.ObservedNode(0, 2, *lengths, -2, 0),
                                       flexray.ObservedNode(1, 1, *lengths, None, None),
                                       flexray.ObservedNode(1, 2, *lengths, None, None)))
        self.assertEqual((found.first, found.last, found.within, found.over, found.open), (0, 3, 3, 0, 1))

    def test_counts_of_a_log(self):
        """Other numbers in each place: a row over the precision, a double cycle without a sender, each count."""
        found = texts.observation("precision,7,8,9,,,,\ncycle,4,2,8,9,over,,\ncycle,5,2,1,-,open,,\nnode,2,1,-3,5,-,-,\n"
                                  "node,2,64,4,6,-9,-8,\nfault,5,64,twice,B,9,8,-\nfault,5,-,skew,8,-,-,7\ncycle,6,0,0,-,open,,\ncycle,7,0,0,-,open,,\n"
                                  "sender,64,B,3,4,5,2,\nsender,1,A,0,-,-,4,\nlog,1,2,3,4,5,6,\n"
                                  "numbers,premise,,,,,,\nsync,-,open,0,2,count,-,-\ncycles,4,7,0,1,3,,\nverdict,no,5,twice,64,,,\n")
        self.assertEqual([(row.cycle, row.senders, row.low, row.high, row.says) for row in found.cycles],
                         [(4, 2, 8, 9, "over"), (5, 2, 1, None, "open"), (6, 0, 0, None, "open"),
                          (7, 0, 0, None, "open")])
        self.assertEqual([(row.double, row.node, row.length_low, row.length_high, row.offset_low, row.offset_high)
                          for row in found.nodes], [(2, 1, -3, 5, None, None), (2, 64, 4, 6, -9, -8)])
        counts = found.log
        self.assertEqual((counts.judged, counts.damaged, counts.arbitrary, counts.other, counts.stray, counts.behind),
                         (1, 2, 3, 4, 5, 6))
        self.assertEqual((found.first, found.last, found.within, found.over, found.open), (4, 7, 0, 1, 3))
        self.assertEqual(found.faults, (flexray.ObservedFault(5, 64, "twice", ("B", "9", "8", "-")),
                                        flexray.ObservedFault(5, None, "skew", ("8", "-", "-", "7"))))
        self.assertEqual(found.senders, (flexray.ObservedSender(64, "B", 3, 4, 5, 2),
                                         flexray.ObservedSender(1, "A", 0, None, None, 4)))
        self.assertEqual((found.numbers, found.sync, found.verdict),
                         (("premise",), ("-", "open", "0", "2", "count", "-", "-"), ("no", "5", "twice", "64")))
        self.assertEqual((found.precision, found.flutter, found.lost), (7, 8, 9))
        self.assertEqual((found.judged, found.doubles, found.missed, found.spreads), (0, 2, (), ()))

    def test_own_numbers_of_a_log(self):
        """Of double cycles that are judged, each behind its faults and what nodes missed."""
        found = texts.observation("precision,7,0,0,,,,\ncycle,4,1,0,0,within,,\ncycle,5,1,0,0,within,,\nnode,2,1,3,5,0,0,\nspread,2,5,6,0,9,,\n"
                                  "cycle,6,1,0,0,within,,\ncycle,7,1,0,-,open,,\nfault,6,-,start,8,9,-,7\nmissed,7,1,offset,2,,,\n"
                                  "missed,7,1,rate,-,,,\nspread,3,1,2,3,4,,\nsender,1,A,4,4,7,0,\nlog,4,0,0,0,0,0,\nnumbers,premise,,,,,,\n"
                                  "sync,2,judged,2,2,-,-,-\ncycles,4,7,3,0,1,,\nverdict,no,6,start,-,,,\n")
        self.assertEqual(found.spreads, (flexray.ObservedSpread(2, 5, 6, 0, 9), flexray.ObservedSpread(3, 1, 2, 3, 4)))
        self.assertEqual(found.missed, (flexray.ObservedMissed(7, 1, "offset", 2), flexray.ObservedMissed(7, 1, "rate", None)))
        self.assertEqual(([fault.kind for fault in found.faults], len(found.cycles), found.judged), (["start"], 4, 2))

    @needs_series
    def test_a_series_in_which_all_nodes_halt(self):
        """Where no node runs a skew is told all the same."""
        files = list(map(str, example_call("sharp/walk").files))
        bound = printed("sharp/series-walk", r"179,no,0,0,no,all,(\d+)")
        for parse, words, last in ((texts.series, [], flexray.SeriesCycle(179, False, 0, 0)),
                                   (texts.sharp_series, ["sharp"], flexray.SeriesCycle(179, False, 0, 0, False, "all", bound))):
            text = subprocess.run([SERIES, *files, *words], capture_output=True, text=True, check=True).stdout
            told = parse(text)
            self.assertEqual((told.text, len(told.cycles), told.cycles[-1]), (text, 180, last))
            self.assertEqual((told.greatest, told.synced, told.lost), (flexray.Skew(0, 0, 0), False, 3))

    HEAD = "cycle,in_sync,skew,macrotick,sharp,heard,bound\n"
    ROWS = ("0,no,119988000,4999,no,all,40000000\n", "1,no,178800000,4900,no,all,40000000\n", "2,yes,148983950,4999,no,most,50000000\n",
            "3,yes,181796250,4900,yes,any,50000000\n")
    END = ("greatest,181796250,3,4900,\nsynced,yes,,,\nwithin,yes,,,\nflutter,7,,,delay 3 12 B 4\nsharp,150237926,beside,,\nsharp covered,yes,,,\n"
           "sharp synced,-,,,\nsharp greatest,-,-,-,\nsharp within,-,,,\nlost,0,-,-,-\n")

    def test_the_cycles_of_a_series(self):
        """One by one, and by their columns."""
        cycles = texts.sharp_series("".join([self.HEAD, *self.ROWS, self.END])).cycles
        rows = [flexray.SeriesCycle(0, False, 119988000, 4999, False, "all", 40000000),
                flexray.SeriesCycle(1, False, 178800000, 4900, False, "all", 40000000),
                flexray.SeriesCycle(2, True, 148983950, 4999, False, "most", 50000000),
                flexray.SeriesCycle(3, True, 181796250, 4900, True, "any", 50000000)]
        self.assertEqual((list(cycles), len(cycles), cycles[2], cycles[-1], cycles[1:3], cycles[::-2]),
                         (rows, 4, rows[2], rows[3], tuple(rows[1:3]), (rows[3], rows[1])))
        self.assertRaises(IndexError, lambda: cycles[4])
        self.assertEqual((cycles.in_sync, cycles.skews), ((False, False, True, True), (119988000, 178800000, 148983950, 181796250)))
        self.assertEqual((cycles.macroticks, cycles.sharp), ((4999, 4900, 4999, 4900), (False, False, False, True)))
        self.assertEqual((cycles.heard, cycles.bounds), (("all", "all", "most", "any"), (40000000, 40000000, 50000000, 50000000)))
        without = re.sub(r"(all|most|any),\d+$", r"\1,-", "".join([self.HEAD, *self.ROWS, self.END]), flags=re.M)
        self.assertEqual(texts.sharp_series(without).cycles.bounds, (None,) * 4)
        # Before the first double cycle in sharp sync none has a number.
        later = "".join([self.HEAD, *(row.replace("40000000", "-") for row in self.ROWS), self.END])
        self.assertEqual(texts.sharp_series(later).cycles.bounds, (None, None, 50000000, 50000000))
        plain = "".join([self.HEAD, *self.ROWS, self.END.partition("flutter")[0]]).replace(",sharp,heard,bound", "")
        plain = texts.series(re.sub(r",(no|yes)?(,(all|most|any),\d+)?$", "", plain, flags=re.M)).cycles
        self.assertEqual((list(plain)[3], plain[3], plain.sharp), (flexray.SeriesCycle(3, True, 181796250, 4900),) * 2 + ((),))
        self.assertNotEqual(plain, cycles)
        self.assertEqual({pickle.loads(pickle.dumps(cycles))}, {cycles})
        self.assertEqual(len(texts.sharp_series(self.HEAD + self.END).cycles), 0)

    def test_the_last_lines_of_a_series(self):
        found = texts.sharp_series("".join([self.HEAD, *self.ROWS, self.END]))
        self.assertEqual((found.greatest, found.synced, found.lost, found.within, found.beyond),
                         (flexray.Skew(181796250, 3, 4900), True, None, True, None))
        self.assertEqual((found.flutter, found.precision, found.kind, found.sharp_covered, found.sharp_gap, found.sharp_synced, found.lasts,
                          found.sharp_greatest, found.sharp_within, found.sharp_beyond),
                         (7, 150237926, "beside", True, (), None, None, None, None, None))
        self.assertEqual(found.fluttering, flexray.Fluttering(sender=3, receiver=12, channel="B", double=4))
        self.assertEqual(found.losses, (0, None, None, None))
        end = ("greatest,-,-,-,\nsynced,no,0,,\nwithin,-,,,\nflutter,0,,,\nsharp,39007594,alone,,\nsharp covered,no,,,check 3 5 6\n"
               "sharp synced,1,62,,\nsharp greatest,56495900,3,4687,\nsharp within,no,3,4687,\n"
               "lost,2,5,75011786,1\n")
        found = texts.sharp_series(self.HEAD + end)
        self.assertEqual((found.greatest, found.synced, found.lost, found.within, found.beyond), (None, False, 0, None, None))
        self.assertEqual((found.flutter, found.precision, found.kind, found.sharp_covered, found.sharp_gap, found.sharp_synced, found.lasts,
                          found.sharp_greatest, found.sharp_within, found.sharp_beyond),
                         (0, 39007594, "alone", False, ("check", "3", "5", "6"), 1, 62, flexray.Skew(56495900, 3, 4687), False, (3, 4687)))
        self.assertEqual((found.losses, found.fluttering), ((2, 5, 75011786, 1), None))
        self.assertIsNone(texts.sharp_series(self.HEAD + end.replace("1,62", "1,on")).lasts)
        for old, new in (("greatest,-,-,-,", "greatest,-,-,7,"), ("synced,no,0,,", "synced,no,,,"), ("synced,no,0,,", "synced,yes,0,,"),
                         ("within,-,,,", "within,maybe,,,"), ("flutter,0,,,", "flutter,-,,,"), ("39007594,alone", "1,both"),
                         ("flutter,0,,,", "flutter,7,,,"), ("flutter,0,,,", "flutter,0,,,delay 1 2 A 3"),
                         ("flutter,0,,,", "flutter,7,,,delay 1 2 3"), ("flutter,0,,,", "flutter,7,delay 1 2 A 3,,"),
                         ("check 3 5 6", "check 3 5"), ("no,,,check 3 5 6", "no,,,"), ("no,,,check 3 5 6", "yes,,,check 3 5 6"),
                         ("synced,1,62", "synced,-,62"), ("synced,1,62", "synced,1,"), ("sharp within,", "sharp inside,"),
                         ("lost,2,5", "lost,-,5"), ("75011786,1", "75011786,-"), ("lost,2,5,75011786,1\n", "")):
            with self.subTest(new=new), self.assertRaises(texts.Strange):
                self.assertIn(old, end)
                texts.sharp_series(self.HEAD + end.replace(old, new, 1))

    def test_rows_of_a_series_of_another_form(self):
        kept = ",all,40000000"
        for row in ("2,yes,148983950,4999\n", f"2,yes,148983950,4999,no{kept},no\n", f"2,maybe,148983950,4999,no{kept}\n", "\n",
                    f"2,yes,-,-,no{kept}\n", f"2,yes,148983950,4999{kept}\n2,yes,148983950,4999,no,no{kept}\n",
                    f"2,yes,148983950,4999,no{kept},", f"2,yes,148983950,\n4999,no{kept}\n", f"2,yes,\xb2,4999,no{kept}\n",
                    f"2,yes,-5,4999,no{kept}\n", f"2,yes,,4999,no{kept}\n", f"4,yes,148983950,4999,no{kept}\n", f"2,yes,1 ,4999,no{kept}\n",
                    f"02,yes,148983950,4999,no{kept}\n", f"2,yes,148983950,4999,no{kept}\r\n", f"2,yes,1_0,4999,no{kept}\n",
                    "2,yes,148983950,4999,no,some,40000000\n", "2,yes,148983950,4999,no,all,many\n", "2,yes,148983950,4999,no,all,-\n"):
            for rows in (self.ROWS[:2] + (row,), self.ROWS[:2] + (row, self.ROWS[3])):
                with self.subTest(row=row), self.assertRaises(texts.Strange) as strange:
                    texts.sharp_series("".join([self.HEAD, *rows, self.END]))
                self.assertIn(strange.exception.line, (*"".join(rows).split("\n"), rows[-1]))
        for text, told in (("", ""), (self.HEAD, "the end of the text"), ("cycle,in_sync\n", "cycle,in_sync"),
                           (self.HEAD + self.ROWS[0] + "x" + self.END, "x")):
            with self.assertRaises(texts.Strange) as strange:
                texts.sharp_series(text)
            self.assertEqual(strange.exception.line, told)

    def test_lines_on_standard_error(self):
        for line, kind, role, number, words in (
                ("usage: flexray COMMAND WORDS", "usage", "", None, ()), ("no memory", "no memory", "", None, ()),
                ("write fault", "write fault", "", None, ()), ("log: read fault", "read fault", "log", None, ()),
                ("capture: too long", "too long", "capture", None, ()), ("drift: record 17: OutOfRange", "record", "drift", 17, ("OutOfRange",)),
                ("params: missing gdNIT", "missing", "params", None, ("gdNIT",)), ("params: constraint 4", "constraint", "params", 4, ()),
                ("trace: incomplete 12", "incomplete", "trace", 12, ()), ("frame: short 7", "frame", "frame", None, ("short", "7")),
                ("frame: header crc kept 1F1 computed 2F2", "frame", "frame", None, ("header crc", "1F1", "2F2")),
                ("frame: length stated 12 given 9", "frame", "frame", None, ("length", "12", "9")),
                ("frame: frame crc kept 000001 computed ABCDEF", "frame", "frame", None, ("frame crc", "000001", "ABCDEF")),
                ("frame: zero id", "frame", "frame", None, ("zero id",)),
                ("frame: startup without sync", "frame", "frame", None, ("startup without sync",)),
                ("trace: record 3 start 5 expected 6", "breach", "trace", 3, ("start", "5", "6")),
                ("trace: record 3 state halt expected active", "breach", "trace", 3, ("state", "halt", "active")),
                ("trace: record 3 silent passive", "breach", "trace", 3, ("silent", "passive")),
                ("trace: record 40 deviation 99 expected -6 to 4", "breach", "trace", 40, ("deviation", "99", "-6", "4")),
                ("trace: record 3 apart 2", "breach", "trace", 3, ("apart", "2")),
                ("trace: not covered delay 1 2 B 3 -4", "gap", "trace", None, ("delay", "1", "2", "B", "3", "-4"))):
            self.assertEqual(texts.failure(line), flexray.Failure(line, kind, role, number, words))
        for line in ("", "params: constraint 9", "drift: constraint 1", "params: record 1", "params: record x: Shape", "file: read fault",
                     "trace: record 3 deviation 99 expected -6", "trace: record 3 speed 1 expected 2", "frame: long 7", "no memory left",
                     "trace: not covered length 1 2", f"params: record {'1' * 19}: Shape"):
            self.assertRaises(texts.Strange, texts.failure, line)

    def test_lines_that_say_that_something_fails(self):
        text = ("y1 5\nC1 fails 1 2\nC2 holds 3 4\nalone C3 fails -1 2\nbeside settles no check 4 5 6\nsettles 7\nsettles no check 1 2 3\n"
                "covered no length 1 2 3\ncovered no check 3 5 6\ncovered yes\nfault none\nfault 12 short 3\n")
        check = flexray.FailedCheck
        self.assertEqual([(told.check, told.side, told.is_way, told.gap, told.fault) for told in texts.failing(text)],
                         [(check(1, 1, 2), "", False, (), None), (check(3, -1, 2), "alone", False, (), None),
                          (check(4, 5, 6), "beside", True, (), None), (check(1, 2, 3), "", True, (), None),
                          (None, "", False, ("length", "1", "2", "3"), None), (None, "", False, ("check", "3", "5", "6"), None),
                          (None, "", False, (), "short 3")])
        self.assertTrue(all(told.line in text.splitlines() for told in texts.failing(text)))

    def test_the_cycle_rows_of_a_trace(self):
        text = Path(EXAMPLES, "offset", "trace", "printed.txt").read_text()
        self.assertEqual(tuple(texts.cycle_rows(io.StringIO(text))), texts.trace(text).cycles)
        self.assertGreater(len(texts.trace(text).deviations), 0)

    def test_what_is_not_understood_is_no_answer(self):
        self.assertRaises(ValueError, texts.report, "nodes 2 sync 2 arbitrary 0 doubles 2\nprecision many\n")
        for row in ("other,1", "dev,1,2", "dev,1,2,3,A,x,,", "join,1,,2,,,,", "arbitrary,", "run,x"):
            self.assertRaises(texts.Strange, texts.trace, f"run,1,,,,,,\n{row}\n")
        report = Path(EXAMPLES, "offset", "lost", "printed.txt").read_text()
        self.assertEqual(texts.report(report).gap, tuple(re.search("^covered no (.*)$", report, re.M)[1].split()))
        for gap in ("no", "no link 1 2", "no count 1 2 3", "no check x 1 2", "yes link 1 2 3", "no delay 1 2 C 3 4"):
            self.assertRaises(texts.Strange, texts.report, re.sub("(?m)^covered .*$", f"covered {gap}", report))
        for row in ("cycle,1,2", "cycle,1,2,3,4,5,six,active"):
            self.assertRaises(texts.Strange, texts.trace, f"run,1,,,,,,\n{row}\n")
            self.assertRaises(texts.Strange, list, texts.cycle_rows([f"{row}\n"]))
        ends = ["greatest,5,6,7", "synced,yes,,", "within,no,6,7"]
        self.assertEqual(texts.series("\n".join(["cycle,in_sync,skew,macrotick", *ends])).beyond, (6, 7))
        for at, row in ((0, "greatest,5,-,7"), (2, "within,no,6,"), (2, "within,no,,"), (2, "within,yes,6,7")):
            given = [*ends[:at], row, *ends[at + 1:]]
            self.assertRaises(texts.Strange, texts.series, "\n".join(["cycle,in_sync,skew,macrotick", *given]))
        lines = Path(EXAMPLES, "observe", "observe", "printed.txt").read_text().splitlines(keepends=True)
        for at in (0, len(lines) - 4, len(lines) - 2, len(lines) - 1):
            self.assertRaises(ValueError, texts.observation, "".join(lines[:at] + lines[at + 1:]))
        self.assertRaises(ValueError, texts.observation, "".join(lines).replace("within", "beneath"))


if __name__ == "__main__":
    unittest.main()
