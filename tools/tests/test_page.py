"""The page in a headless Chromium, opened from disk: every example against its stored text, edits against the program, refusals,
keyboard, narrow screens."""
import base64
import gzip
import json
import os
import re
import subprocess
import tomllib
import unittest
from pathlib import Path

from bench import FLEXRAY, REPOSITORY, SERIES, TOOLS, Bench, edited, example_call, example_calls
from browser import Browser, chromium
from test_python import examples

PAGE = os.environ.get("FLEXRAY_PAGE") or os.path.join(REPOSITORY, "out", "page", "flexray.html")
EXAMPLES = Path(REPOSITORY, "examples")
FILES = ("params", "drift", "script")
WHY = ("chromium is not installed" if not chromium() else
       "the page is not built: tools/page builds it" if not os.path.exists(PAGE) else None)
STATE = "document.documentElement.dataset.state"
IDLE = f'{STATE} !== "busy"'


def significant(text):
    """The records of a file in an order of their own; what holds where no record says it need not be written."""
    return sorted(line for line in text.splitlines() if line and not re.fullmatch(r"start,\d+,0,0,,|length,\d+,0,1000000,,", line))


@unittest.skipIf(WHY, WHY)
class Page(Bench):
    browser = None

    @classmethod
    def setUpClass(cls):
        cls.browser = Browser()
        cls.browser.open(PAGE)
        cls.browser.until('document.documentElement !== null && document.documentElement.dataset.state === "ready"')

    @classmethod
    def tearDownClass(cls):
        cls.browser.close()

    def setUp(self):
        super().setUp()
        self.run_in = self.browser.evaluate

    def tearDown(self):
        self.assertEqual(self.browser.faults, [])

    def settle(self):
        self.browser.until(IDLE)

    def take(self, name):
        self.run_in(f'$("example").value = {json.dumps(name)}; $("example").onchange(); 0')
        self.settle()

    def text_of(self, name):
        return self.run_in(f"page.found.texts[{json.dumps(name)}]")

    def answered(self, words, files, is_series):
        lists = json.dumps([list(data) for data in files])
        return self.run_in(f"program.request({json.dumps(words)}, {lists}.map((list) => Uint8Array.from(list)), "
                           f"{json.dumps(is_series)}).then(({{ status, text, line }}) => [status, text, line])")

    def put(self, selector, value):
        """Types into a field, as its events go."""
        self.run_in(f'{{ const field = document.querySelector({json.dumps(selector)}); field.value = {json.dumps(value)}; '
                    'field.dispatchEvent(new Event("input", { bubbles: true })); }')

    def by_program(self, files):
        """What the programs print of these files."""
        paths = [self.write(f"{name}.csv", text) for name, text in zip(FILES, files)]
        found = [subprocess.run([FLEXRAY, "run", *paths], capture_output=True, text=True, check=True).stdout]
        if SERIES:
            found.append(subprocess.run([SERIES, *paths, "sharp"], capture_output=True, text=True, check=True).stdout)
        return found

    def test_every_example_is_what_the_program_prints(self):
        for name, is_series, words, files, status, text, line in examples():
            with self.subTest(name):
                self.assertEqual(self.answered(words, files, is_series), [status, text, line])

    def test_each_example_that_the_page_offers(self):
        names = self.run_in('[...$("example").options].map((option) => option.value).filter(Boolean)')
        self.assertGreater(len(names), 15)
        for name in names:
            with self.subTest(name):
                self.take(name)
                self.assertEqual(self.run_in("document.documentElement.dataset.state"), "ready")
                call = example_call(name)
                printed = "series" if call.is_series else "report"
                self.assertEqual(self.text_of(printed), call.text.decode())
                self.run_in(f'page.printed = "{printed}"; selectTab("answers", "As printed")')
                self.assertEqual(self.run_in('$("printed").textContent'), call.text.decode())
                self.run_in('selectTab("answers", "Summary")')
                cycles = self.run_in("page.found.series.skew.length")
                self.assertEqual(cycles, 2 * int(re.search(r"^doubles,(\d+)", call.files[1].read_text(), re.M)[1]))

    def test_the_form_writes_what_it_read(self):
        for call in example_calls():
            if len(call.files) == 3:
                with self.subTest(call.name):
                    files = {name: path.read_text() for name, path in zip(FILES, call.files)}
                    written = self.run_in(f"(() => {{ const read = readCluster({json.dumps(files)}, '25'); return typeof read === "
                                          "'string' ? read : writeCluster(read); })()")
                    self.assertEqual(written["wrong"], [])
                    for name in FILES:
                        self.assertEqual(significant(written["files"][name]), significant(files[name]))

    def test_an_edit_is_what_the_program_answers(self):
        self.take("bench/run")
        self.run_in('selectTab("editor", "Nodes")')
        self.put('[aria-label="ppm, node 1"]', "200")
        self.settle()
        files = [(EXAMPLES / "bench" / f"{name}.csv").read_text() for name in FILES]
        files[1] = files[1].replace("length,1,0,999850,,", "length,1,0,999800,,")
        self.assertEqual([self.text_of("report"), self.text_of("series")][:len(self.by_program(files))], self.by_program(files))
        self.assertNotEqual(self.text_of("report"), (EXAMPLES / "bench" / "run" / "printed.txt").read_text())

    def test_units_of_a_bench(self):
        self.take("offset/run")
        self.run_in('selectTab("editor", "Nodes")')
        self.assertEqual(self.run_in("document.querySelector('[aria-label=\"start, us, node 2\"]').value"), "0.0625")
        for given, ticks in (("0.1", "4000000"), ("1.23456789", "49382716"), ("0,5", "20000000")):
            self.put('[aria-label="start, us, node 2"]', given)
            self.settle()
            self.assertIn(f"\nstart,2,{ticks},0,,\n", self.run_in("page.files.drift"))
        for ppm, length in (("150", 999850), ("-150", 1000150), ("1498.25", 998504), ("0.4", 1000000)):
            self.assertEqual(self.run_in(f"String(lengthOf('{ppm}'))"), str(length))

    def test_a_ramp_is_that_of_flexlab(self):
        self.take("bench/run")
        self.run_in('selectTab("editor", "Clocks and delays")')
        row = [self.run_in(f"document.querySelector('[aria-label=\"{head}, change 1\"]').value")
               for head in ("node", "from cycle", "ppm", "to cycle", "ppm there")]
        self.assertEqual(row[0::2], ["3", "-40", "20"])
        self.put('[aria-label="to cycle, change 1"]', "120")
        self.settle()
        text = (EXAMPLES / "bench" / "bench.toml").read_text().replace('"100-180"', f'"{row[1]}-120"').replace('"181-"', '"121-"')
        self.flexlab("build", "-o", self.path("made"), self.write("ramp.toml", text))
        self.assertEqual(sorted(self.run_in("page.files.drift").splitlines()), sorted(self.read("made", "drift.csv").splitlines()))

    def files_of(self, text):
        return self.run_in(f"filesOfToml({json.dumps(text)}).files")

    def same_files(self, found, folder):
        for name in FILES:
            self.assertEqual(significant(found[name]), significant(self.read(folder, f"{name}.csv")), name)

    def test_toml_is_that_of_flexlab(self):
        """What the page makes of a TOML file is what flexlab makes of it."""
        paths = [EXAMPLES / "bench" / "bench.toml", EXAMPLES / "sharp" / "sharp.toml", Path(TOOLS, "..", "python", "flexlab", "toml", "example.toml")]
        for path in paths:
            with self.subTest(path.name):
                self.flexlab("build", "-o", self.path("made"), str(path))
                self.same_files(self.files_of(path.read_text()), "made")

    def test_the_form_as_toml(self):
        """flexlab makes of the TOML file of each example what its files are; and so does the page."""
        for call in example_calls():
            if len(call.files) == 3:
                with self.subTest(call.name):
                    files = {name: path.read_text() for name, path in zip(FILES, call.files)}
                    text = self.run_in(f"tomlOf(readCluster({json.dumps(files)}, '25'))")
                    self.flexlab("build", "-o", self.path("made"), self.write("form.toml", text))
                    self.same_files(files, "made")
                    self.same_files(self.files_of(text), "made")

    def test_names_and_both_compensations_go_through_the_form(self):
        """Names are of any printable characters, and stand in the TOML file alone."""
        name = "Gate'way \\ <b>\"ä\" # $(x)"
        text = edited(("pDelayCompensation = 0", "pDelayCompensationA = 0\npDelayCompensationB = 1"),
                      ("id = 1\n", f"id = 1\nname = {json.dumps(name)}\n"), ("id = 6\n", "id = 6\nname = 'Lügner'\n"))
        self.flexlab("build", "-o", self.path("made"), self.write("named.toml", text))
        self.same_files(self.files_of(text), "made")
        self.run_in('selectTab("editor", "TOML")')
        self.put("#file-toml", text)
        self.settle()
        self.run_in('selectTab("editor", "Nodes")')
        self.assertEqual(self.run_in("document.querySelector('[aria-label=\"name, node 1\"]').value"), name)
        self.put('[aria-label="name, node 2"]', "Bremse")
        self.settle()
        self.run_in('selectTab("answers", "Nodes")')
        self.assertIn(name, self.run_in('$("results-panel").innerText'))
        written = self.run_in("tomlOf(page.cluster)")
        found = {node["id"]: node.get("name") for node in tomllib.loads(written)["node"]}
        self.assertEqual({node: told for node, told in found.items() if told}, {1: name, 2: "Bremse", 6: "Lügner"})
        self.flexlab("build", "-o", self.path("again"), self.write("again.toml", written))
        for file in FILES:
            self.assertEqual(significant(self.read("again", f"{file}.csv")), significant(self.read("made", f"{file}.csv")), file)
        self.run_in('selectTab("editor", "Nodes")')
        self.put('[aria-label="name, node 2"]', "Lügner")
        self.settle()
        # Both that have it are marked.
        self.assertEqual(self.run_in('$("state").textContent'), "2 fields are not understood")

    def test_toml_that_cannot_be_read(self):
        bench = (EXAMPLES / "bench" / "bench.toml").read_text()
        self.take("bench/run")
        self.run_in('selectTab("editor", "TOML")')
        for old, new, wanted in (("ppm = 150", "ppm = { uniform = [0, 1] }",
                                  "line 39: node[1].ppm: numbers that are drawn are for flexlab alone"),
                                 ("ppm = 150", "ppm = fast", "line 39: fast is no value that this page reads; a text has quotes"),
                                 ("double_cycles = 200", "", "run: the key `double_cycles` is missing"),
                                 ("id = 1\n", "id = 1\nname = '2'\n",
                                  "node[1].name: node 1: it is a number, and a node's number is its id"),
                                 ("pDelayCompensation = 0", "pDelayCompensation = 0\npDelayCompensationB = 0",
                                  "cluster.pDelayCompensationB: `pDelayCompensation` stands beside it, which is for both channels"),
                                 ("late = [2, 4]", "late = [2, 9]", "two_faced[1].late: there is no node 9; nodes are 1, 2, 3, 4, 5")):
            self.assertIn(old, bench)
            self.put("#file-toml", bench.replace(old, new, 1))
            self.settle()
            self.assertIn(wanted, self.run_in('$("toml-fault").textContent'))
            self.assert_stale("The TOML file is not understood", wanted)
        self.put("#file-toml", bench.replace("ppm = 150", "ppm = 200", 1))
        self.settle()
        self.assertEqual(self.run_in('$("toml-fault").textContent'), "")
        self.assertIn("\nlength,1,0,999800,,\n", self.run_in("page.files.drift"))

    def assert_stale(self, title, why):
        """The verdict has no colours, and a card in sight says that it is of the cluster before, and why."""
        state, classes, told = self.run_in('[document.documentElement.dataset.state, ["verdict", "results"].map((id) => '
                                           '$(id).classList.contains("stale")), $("stale").innerText]')
        self.assertEqual((state, classes), ("stale", [True, True]))
        self.assertIn("What stands below is of the cluster before", told)
        self.assertIn(title, told)
        self.assertIn(why, told)
        self.assertTrue(self.in_sight("#stale"))

    def in_sight(self, selector):
        """Whether it is seen whole, but for a part of a pixel: a page scrolls by parts of pixels."""
        return self.run_in(f"(() => {{ const box = document.querySelector({json.dumps(selector)}).getBoundingClientRect(); "
                           "return box.height > 0 && box.top > -1 && box.bottom < innerHeight + 1; })()")

    def test_what_is_not_understood_is_marked_and_nothing_is_run(self):
        self.take("offset/run")
        self.run_in('selectTab("editor", "Nodes")')
        self.put('[aria-label="ppm, node 1"]', "fast")
        self.settle()
        self.assertEqual(self.run_in("document.querySelector('[aria-label=\"ppm, node 1\"]').getAttribute('aria-invalid')"), "true")
        self.assertEqual(self.run_in('$("state").textContent'), "1 field is not understood")
        self.assert_stale("1 field is not understood", "Nodes, node 1, ppm “fast”: a number of ppm is wanted.")
        self.assertEqual(self.text_of("report"), (EXAMPLES / "offset" / "run" / "printed.txt").read_text())
        # From another tab the field is found again, with what was typed.
        self.run_in('selectTab("editor", "Cluster"); [...document.querySelectorAll("#stale button")].at(-1).click()')
        self.assertEqual(self.run_in("[page.editor, document.activeElement.getAttribute('aria-label'), document.activeElement.value]"),
                         ["Nodes", "ppm, node 1", "fast"])
        self.put('[aria-label="ppm, node 1"]', "0")
        self.settle()
        self.assertEqual(self.run_in('[document.documentElement.dataset.state, $("notice").innerText, $("verdict").className]'),
                         ["ready", "", ""])

    def test_a_microtick_that_is_none(self):
        self.take("offset/run")
        self.run_in('selectTab("editor", "Cluster")')
        for text in ("x", "0", "-25", "1001", ""):
            self.put("#microtick", text)
            self.settle()
            self.assert_stale("1 field is not understood",
                              f"Cluster, microtick “{text}”: a number of nanoseconds from 1 to 1000 is wanted.")
            self.assertEqual(self.run_in('$("microtick").getAttribute("aria-invalid")'), "true")
        self.put("#microtick", "12,5")
        self.settle()
        self.assertEqual(self.run_in('[page.microtick, $("microtick").getAttribute("aria-invalid"), $("notice").innerText]'),
                         ["12.5", "false", ""])

    def hand_in(self, by="choice", **files):
        """Files as a person chooses them, or drops them on the page; a name has _ for its point."""
        made = json.dumps([[name.replace("_", "."), text] for name, text in files.items()])
        event = ('$("files").files = all.files; $("files").dispatchEvent(new Event("change"));' if by == "choice" else
                 'document.body.dispatchEvent(new DragEvent("drop", { dataTransfer: all, bubbles: true, cancelable: true }));')
        state = self.run_in(f"(() => {{ const all = new DataTransfer(); for (const [name, text] of {made}) all.items.add(new File([typeof "
                            f"text === 'string' ? text : Uint8Array.from(text)], name)); {event} return {STATE}; }})()")
        # What is shown is of the cluster before as soon as there is a file, and not when it is read.
        self.assertIn(state, ("busy", "stale"))
        self.settle()

    def test_an_example_brings_its_microtick(self):
        bench = (EXAMPLES / "bench" / "bench.toml").read_text()
        self.take("bench/run")
        wanted = self.run_in('$("verdict").innerText')
        self.assertIn("3.756 us", wanted)
        self.hand_in(mine_toml=bench.replace("microtick_ns = 25", "microtick_ns = 50"))
        self.assertEqual(self.run_in('[page.microtick, $("source").textContent]'), ["50", "mine.toml: a microtick lasts 50 ns."])
        # Files of records say nothing of it: what the field says is taken, and the page says so.
        self.hand_in(drift_csv=(EXAMPLES / "bench" / "drift.csv").read_text())
        self.assertEqual(self.run_in('$("source").textContent'), "drift.csv: a microtick lasts 50 ns, as the field under Cluster says, "
                         "since such files have ticks alone. params and script as before.")
        self.take("bench/run")
        self.assertEqual(self.run_in('[page.microtick, $("source").textContent]'), ["25", "Example bench/run: a microtick lasts 25 ns."])
        self.assertEqual(self.run_in('$("verdict").innerText'), wanted)

    def test_a_file_that_is_none(self):
        self.take("offset/run")
        bench = (EXAMPLES / "bench" / "bench.toml").read_text()
        for files, title, why in (({"mine_toml": "this is none"}, "mine.toml is not opened", "line 1: this is none stands in no table"),
                                  ({"mine_toml": bench.replace("microtick_ns = 25", "microtick_ns = 0")}, "mine.toml is not opened",
                                   "line 5: bench.microtick_ns: 0 is not a number from 1 to 1000 ns"),
                                  ({"mine_toml": list(b"# \xe4\n")}, "mine.toml is not opened", "It is no UTF-8"),
                                  ({"notes_txt": "x"}, "notes.txt is not opened",
                                   "A .toml file is wanted, or files whose names hold params"),
                                  ({"drift_csv": "x", "drift2_csv": "y"}, "drift2.csv is not opened", "one file of each is wanted")):
            self.hand_in(**files)
            self.assert_stale(title, why)
            self.assertEqual(self.run_in('$("example").value'), "offset/run")
        self.run_in('document.querySelector("#stale button").click()')
        self.settle()
        self.assertEqual(self.run_in('[document.documentElement.dataset.state, $("notice").innerText]'), ["ready", ""])

    def test_the_same_file_is_read_again(self):
        bench = (EXAMPLES / "bench" / "bench.toml").read_text()
        self.hand_in(mine_toml=bench)
        self.assertEqual(self.run_in('[$("files").value, $("files").files.length, page.cluster.doubles]'), ["", 0, "200"])
        self.hand_in(mine_toml=bench.replace("double_cycles = 200", "double_cycles = 9"))
        self.assertEqual(self.run_in("page.cluster.doubles"), "9")

    def test_a_file_that_is_dropped_is_taken(self):
        self.take("offset/run")
        self.hand_in("drop", mine_toml=(EXAMPLES / "bench" / "bench.toml").read_text())
        self.assertEqual(self.run_in('[page.source.name, page.cluster.nodes.length]'), ["mine.toml", 5])

    def test_a_hostile_file_changes_no_later_answer(self):
        bench = (EXAMPLES / "bench" / "bench.toml").read_text()
        self.hand_in(mine_toml=bench)
        before = self.run_in("page.files")
        self.hand_in(proto_toml=f"{bench}\n[__proto__]\nstart_us = 100\nrate = 7\n")
        self.assert_stale("proto.toml is not opened", "there is no table `__proto__`")
        self.hand_in(mine_toml=bench)
        self.assertEqual(self.run_in("page.files"), before)
        # One that goes on for long is told at once, and the page answers meanwhile.
        self.hand_in(long_toml=bench.replace("double_cycles = 200", "double_cycles = 100000000000"))
        self.assert_stale("long.toml is not opened", "is not a whole number from 1 to 100000")
        self.hand_in(open_toml=bench + "\nx = [\n" + "1,\n" * 200000)
        self.assert_stale("open.toml is not opened", "a list has no ] at its end")

    def test_reading_can_be_stopped(self):
        self.take("offset/run")
        bench = (EXAMPLES / "bench" / "bench.toml").read_text()
        text = bench.replace("double_cycles = 200", "double_cycles = 90000")
        self.run_in(f"opened([new File([{json.dumps(text)}], 'long.toml')]); 0")
        self.browser.until('reader.waiting.size === 1 || document.documentElement.dataset.state !== "busy"')
        self.assertFalse(self.run_in('$("stop").hidden'))
        self.run_in('$("stop").click()')
        self.assert_stale("Stopped before it was computed", "")
        self.assertEqual(self.run_in("page.cluster.doubles"), "2")

    def test_a_refusal_is_in_sight_and_so_is_the_field(self):
        self.browser.size(1280, 800)
        self.addCleanup(self.browser.size, 1400, 1000)
        self.take("bench/run")
        self.run_in('selectTab("editor", "Cluster")')
        for name in ("pAllowPassiveToActive", "gMacroPerCycle", "xRateBound"):
            field = f"#parameter-{name}"
            before = self.run_in(f"document.querySelector('{field}').value")
            self.run_in(f"document.querySelector('{field}').focus(); document.querySelector('{field}').scrollIntoView({{ block: 'end' }})")
            self.put(field, "999999")
            self.refused()
            self.assertTrue(self.in_sight("#refusal .big"), name)
            self.assertTrue(self.in_sight(field), name)
            self.put(field, before)
            self.settle()

    def test_tables_fit_at_1280(self):
        self.addCleanup(self.browser.size, 1400, 1000)
        for width in (1280, 1366, 1600):
            self.browser.size(width, 800)
            for name in ("joins/growing", "bench/run"):
                self.take(name)
                for tab in ("Nodes", "Clocks and delays", "Faults"):
                    self.run_in(f"selectTab('editor', '{tab}')")
                    self.assertEqual(self.run_in("Math.max(0, ...[...document.querySelectorAll('#editor-panel .scroll')].map((one) => "
                                                 "one.scrollWidth - one.clientWidth))"), 0, (width, name, tab))

    def test_the_focus_stays_where_rows_come_and_go(self):
        self.take("bench/run")
        self.run_in('selectTab("editor", "Clocks and delays")')
        count = self.run_in("page.cluster.delays.length")
        for at in range(count, 0, -1):
            number = min(at, 2)
            self.run_in(f"globalThis.button = document.querySelector('[aria-label=\"Remove delay {number}\"]'); button.focus(); "
                        "button.click()")
            left = at - 1
            self.assertEqual(self.run_in("document.activeElement.getAttribute('aria-label') || document.activeElement.textContent"),
                             f"Remove delay {min(number, left)}" if left else "Add delay")
        self.run_in("document.activeElement.click()")
        self.assertEqual(self.run_in("document.activeElement.getAttribute('aria-label')"), "from nodes, delay 1")
        self.settle()

    def test_panels_have_names_and_the_curve_has_numbers(self):
        self.take("bench/run")
        for which, tab in (("editor", "Faults"), ("answers", "Checks")):
            self.run_in(f'selectTab("{which}", "{tab}")')
        self.assertEqual(self.run_in("[...document.querySelectorAll('[role=tabpanel]')].map((one) => "
                                     "document.getElementById(one.getAttribute('aria-labelledby')).textContent)"), ["Faults", "Checks"])
        rows = self.run_in("[...document.querySelectorAll('#curve tbody tr')].map((row) => [...row.cells].map((cell) => cell.textContent))")
        skew = self.run_in("page.found.series.skew.map(usNumber)")
        self.assertEqual(len(rows), 20)
        for told, least, most, cycle in rows:
            first, last = map(int, told.split(" to "))
            self.assertEqual((least, most), (f"{min(skew[first:last + 1]):.3f}", f"{max(skew[first:last + 1]):.3f}"))
            self.assertEqual(f"{skew[int(cycle)]:.3f}", most)
        self.assertEqual(rows[-1][0].split(" to ")[1], "399")

    def refused(self):
        self.settle()
        self.assertEqual(self.run_in("document.documentElement.dataset.state"), "failed")
        return self.run_in('$("refusal").innerText')

    def test_refusals_are_explained(self):
        self.take("bench/run")
        self.run_in('selectTab("editor", "Cluster")')
        self.put("#parameter-gdNIT", "2001")
        told = self.refused()
        self.assertIn("constraint 1", told)
        self.assertIn("5000 is not 60 · 50 + 2001 = 5001; with gdNIT 2000 it is", told)
        self.put("#parameter-gdNIT", "2000")
        self.put("#parameter-pClusterDriftDamping", "101")
        self.assertIn("pClusterDriftDamping “101” is not from 0 to 100 microticks.", self.refused())
        self.run_in('document.querySelector("#refusal button").click()')
        self.assertEqual(self.run_in("(() => { const area = document.activeElement; return area.id + ' ' + "
                                     "area.value.slice(area.selectionStart, area.selectionEnd); })()"),
                         "file-params param,pClusterDriftDamping,101,,")
        for name, text, wanted in (("script", "lose,0,9,1,A,,\n", "SENDER “9” is none of the nodes 1, 2, 3, 4, 5."),
                                   ("script", "say,0,1,2,A,0,\n", "The sender has to be an arbitrary node"),
                                   ("script", "lose,0,1,2,A,\n", "It has 6 fields, and a record of this file has 7"),
                                   ("drift", "doubles,many,,,,\n", "COUNT “many” is no whole number"),
                                   ("drift", "length,1,0,999900,,\n", "says how many double cycles the run has"),
                                   ("drift", "speed,1,0,999900,,\n", "“speed” is none of doubles, start, length, delay"),
                                   ("params", "param,gMacroPerCycle,5000,,\n", "gives no such line")):
            self.take("bench/run")
            self.run_in('selectTab("editor", "Files")')
            self.put(f"#file-{name}", text)
            told = self.refused()
            if name == "params":
                self.assertRegex(told, r"params.csv lacks pMicroPerCycle[\s\S]*10 to 640000")
            else:
                self.assertIn(wanted, told)

    def test_a_file_that_the_form_cannot_show_is_run_all_the_same(self):
        self.take("offset/run")
        self.run_in('selectTab("editor", "Files")')
        quoted = (EXAMPLES / "offset" / "drift.csv").read_text().replace("doubles,2", '"doubles",2')
        self.put("#file-drift", quoted)
        self.settle()
        self.assertEqual(self.text_of("report"), (EXAMPLES / "offset" / "run" / "printed.txt").read_text())
        self.run_in('selectTab("editor", "Nodes")')
        self.assertIn("cannot show these files", self.run_in('$("editor-panel").innerText'))

    def test_gaps_are_told(self):
        self.take("offset/lost")
        self.assertIn("no channel carries the frames of node 1 to node 2", self.run_in('$("verdict").innerText'))

    def bounds_of(self, name, *words):
        """What `flexray bound` prints of the parameters of an example."""
        return subprocess.run([FLEXRAY, "bound", str(example_call(name).files[0]), *words], capture_output=True, text=True,
                              check=True).stdout

    def test_three_precisions_stand_beside_the_curve(self):
        self.take("bench/run")
        told = self.run_in('$("precisions").innerText')
        for text, size in ((self.bounds_of("bench/run", "sharp", "0"), 40000000), (self.bounds_of("bench/run"), 40000000)):
            for ticks in re.findall(r"^(?:\w+ )?precision (\d+)$", text, re.M):
                self.assertIn(f"{int(ticks) / size:.3f} us", told)
        self.assertRegex(self.run_in('document.querySelector("#precisions strong").innerText'), "beside arbitrary nodes")
        self.assertNotIn("join", told)
        self.assertEqual(self.run_in('document.querySelectorAll("#chart svg:first-child line.level").length'), 3)

    def test_a_held_walk(self):
        """C1 fails, and what is said of it is no advice; of a run in which rates walk it is."""
        for name, told in (("sharp/series-held", "C1 of these fails, but the walk is held"), ("sharp/walk", "for 62 double cycles")):
            with self.subTest(name):
                self.take(name)
                self.run_in('selectTab("answers", "Checks")')
                text = self.run_in('$("results-panel").innerText')
                self.assertIn(told, text)
                self.assertIn("it fails, but the walk is held" if "held" in told else "turn pClusterDriftDamping up", text.split("Of the classical")[0])
                self.assertEqual("proved for" in self.run_in('$("verdict").innerText'), "held" not in told)
                self.run_in('selectTab("answers", "Summary")')

    def test_nothing_is_proved_of_a_run_with_a_gap(self):
        """Its series has a number of double cycles all the same: how long the rate limit holds the walk."""
        for name, text, gap in (("script", "arbitrary,3,,,,,\n", r"check 3 \d+ \d+"), ("drift", "length,3,170,1000900,,\n", "length 3 170 1000900")):
            with self.subTest(gap):
                self.take("sharp/walk")
                self.run_in('selectTab("editor", "Files")')
                self.put(f"#file-{name}", text if name == "script" else self.run_in('$("file-drift").value') + text)
                self.settle()
                self.assertRegex(self.text_of("series"), rf"\nsharp covered,no,,,{gap}\nsharp synced,0,62,,\n[\s\S]*\nlost,0,-,-,-\n")
                self.assertNotIn("proved", self.run_in('$("verdict").innerText'))

    def test_checks_of_nodes_that_join(self):
        """The bounds are those of a cluster that nodes join, and whether C6 to C9 hold is told."""
        for name in ("sharp/series-joins", "joins/run", "joins/growing", "joins/missed"):
            with self.subTest(name):
                self.take(name)
                texts = [self.bounds_of(name, "sharp", self.run_in("String(page.found.flutter)"), "join"), self.bounds_of(name, "join")]
                self.assertEqual([self.text_of("sharp"), self.text_of("bound")], texts)
                kind, told = self.run_in("page.found.series.last.sharp[1]"), []
                for text in texts:
                    failing = re.findall(rf"^(?:{kind} )?(C[6-9]) fails", text, re.M)
                    told.append(f"{', '.join(failing)} fail{'s' if len(failing) == 1 else ''}" if failing else "C6 to C9 hold")
                self.assertIn(f"Nodes that join: {told[0]}, by the classical bound {told[1]}", self.run_in('$("precisions").innerText'))
                for part in told:
                    self.assertIn(f"nodes that join: {part}", self.run_in('$("verdict").innerText'))
                self.run_in('selectTab("answers", "Checks")')
                rows = self.run_in('[...document.querySelectorAll("#results-panel td:first-child")].map((cell) => cell.textContent)')
                self.assertEqual(rows, 2 * [f"C{number}" for number in range(1, 10)])
                self.run_in('selectTab("answers", "Summary")')

    def test_keys(self):
        self.take("offset/run")
        self.run_in('selectTab("editor", "Cluster"); $("tab-editor-Cluster").focus()')
        for key, wanted in (("ArrowRight", "Nodes"), ("ArrowLeft", "Cluster"), ("ArrowLeft", "TOML")):
            self.browser.key(key)
            self.assertEqual(self.run_in("[page.editor, document.activeElement.textContent]"), [wanted, wanted])
        turn = self.run_in("page.turn")
        self.browser.key("Enter", modifiers=2)
        self.settle()
        self.assertEqual(self.run_in("page.turn"), turn + 1)

    def test_every_field_has_a_name(self):
        self.take("bench/run")
        for tab in self.run_in("Object.keys(EDITOR)"):
            self.run_in(f"selectTab('editor', {json.dumps(tab)})")
            self.assertEqual(self.run_in("[...document.querySelectorAll('#editor-panel input, #editor-panel select, #editor-panel "
                                         "textarea')].filter((field) => !field.getAttribute('aria-label') && !field.labels.length)"
                                         ".length"), 0, tab)

    def test_nothing_is_wider_than_the_screen(self):
        self.addCleanup(self.browser.dark, False)
        self.addCleanup(self.browser.size, 1400, 1000)
        for width in (1400, 820, 390, 320):
            self.browser.size(width, 900)
            for name in ("joins/growing", "sharp/walk"):
                self.take(name)
                for tab in self.run_in("Object.keys(EDITOR)"):
                    for answer in self.run_in("Object.keys(RESULTS)"):
                        self.run_in(f"selectTab('editor', {json.dumps(tab)}); selectTab('answers', {json.dumps(answer)})")
                        self.assertLessEqual(self.run_in("document.documentElement.scrollWidth"), width, (width, name, tab, answer))

    def test_words_can_be_read_in_both_colours(self):
        """The contrast of what is written to what is behind it, as WCAG reckons it."""
        self.addCleanup(self.browser.dark, False)
        self.take("offset/lost")
        contrast = """(() => {
            const light = (text) => { const parts = text.match(/[\\d.]+/g).slice(0, 3).map((one) => one / 255)
                .map((one) => (one <= 0.04045 ? one / 12.92 : ((one + 0.055) / 1.055) ** 2.4));
                return 0.2126 * parts[0] + 0.7152 * parts[1] + 0.0722 * parts[2]; };
            const behind = (one) => { for (let at = one; at; at = at.parentElement) {
                const colour = getComputedStyle(at).backgroundColor; if (!/, 0\\)$/.test(colour)) return colour; } return "rgb(255,255,255)"; };
            return Math.min(...[...document.querySelectorAll("h1, h2, h3, p, td, th, .big, label, small, button, legend, .name, span")]
                .filter((one) => one.textContent.trim() && one.offsetParent).map((one) => {
                    const both = [light(getComputedStyle(one).color), light(behind(one))].sort((low, high) => high - low);
                    return (both[0] + 0.05) / (both[1] + 0.05); })); })()"""
        for is_dark in (False, True):
            self.browser.dark(is_dark)
            self.assertGreater(self.run_in(contrast), 4.5, is_dark)

    def test_it_asks_for_nothing_from_outside(self):
        text = Path(PAGE).read_text(encoding="utf-8")
        self.assertEqual(set(re.findall(r"https?://[^\s\"'`]*", text)), {"http://www.w3.org/2000/svg"})
        self.assertIsNone(re.search(r"<(?:script|link|img|iframe)[^>]*(?:src|href)=", text))
        self.assertIn("is covered by no proof", text)

    def test_a_long_run_can_be_stopped(self):
        self.take("offset/run")
        self.run_in('selectTab("editor", "Cluster")')
        self.put("#doubles", "100000")
        self.browser.until('document.documentElement.dataset.state === "busy" && program.waiting.size === 1')
        self.run_in('$("stop").click()')
        self.assertEqual(self.run_in('$("state").textContent'), "stopped")
        self.assert_stale("Stopped before it was computed", "")
        self.put("#doubles", "2")
        self.settle()
        self.assertEqual(self.text_of("report"), (EXAMPLES / "offset" / "run" / "printed.txt").read_text())


class Builder(Bench):
    """tools/page, as far as it needs no toolchain."""

    def page(self, *words, status=0):
        ended = subprocess.run([os.path.join(TOOLS, "page"), *words], capture_output=True, text=True, check=False, cwd=self.room)
        self.assertEqual(ended.returncode, status, ended.stderr)
        self.assertNotIn("Traceback", ended.stderr)
        return ended.stdout + ended.stderr

    def test_a_kept_module_makes_the_same_page_twice(self):
        with open(self.path("module.wasm"), "wb") as file:
            file.write(b"\0asm\1\0\0\0")
        texts = []
        for name in ("a.html", "b.html"):
            self.assertEqual(self.page("--module", "module.wasm", "--out", name), f"{name}\n")
            texts.append(self.read(name))
        self.assertEqual(texts[0], texts[1])
        self.assertIsNone(re.search(r"@[A-Z]+@", texts[0]))
        found = re.search(r'id="module">([^<]*)<', texts[0])[1]
        self.assertEqual(gzip.decompress(base64.b64decode(found)), b"\0asm\1\0\0\0")

    def test_a_page_is_whole_or_as_it_was(self):
        """Where the disk is full in the middle of a page, here by a limit of a file's length, the one that was there stays."""
        with open(self.path("module.wasm"), "wb") as file:
            file.write(b"\0asm\1\0\0\0")
        self.page("--module", "module.wasm", "--out", "a.html")
        before = self.read("a.html")
        words = [os.path.join(TOOLS, "page"), "--module", "module.wasm", "--out", "a.html"]
        ended = subprocess.run(["sh", "-c", 'ulimit -f 16; exec "$@"', "sh", *words], capture_output=True, text=True, check=False, cwd=self.room)
        self.assertEqual((ended.returncode, ended.stdout), (3, ""), ended.stderr)
        self.assertEqual(self.read("a.html"), before)
        self.assertEqual(sorted(os.listdir(self.room)), ["a.html", "module.wasm"])

    def test_wrong_words(self):
        self.assertIn("usage: tools/page", self.page("--help"))
        self.assertEqual(self.page("--version"), f"tools/page {Path(REPOSITORY, 'VERSION').read_text()}")
        for words in (["--out"], ["page.html"], ["--output", "page.html"], ["--kept", "--kept"]):
            self.assertIn("usage: tools/page", self.page(*words, status=2))
        self.assertIn("none.wasm: No such file", self.page("--module", "none.wasm", status=3))


if __name__ == "__main__":
    unittest.main()
