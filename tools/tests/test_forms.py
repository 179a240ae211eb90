"""The forms of records: what tools/forms writes from the specification stands in the repository, and follows each change of that."""
import contextlib
import importlib.machinery
import importlib.util
import io
import os
import re
import shutil
import subprocess
import sys
import tempfile
import unittest
from pathlib import Path
from types import ModuleType

TOOLS = Path(__file__).resolve().parent.parent
REPOSITORY = TOOLS.parent
sys.path.insert(0, str(REPOSITORY / "python"))

from flexlab.program import forms  # noqa: E402
from flexlab.program.records import Record  # noqa: E402

# Of a file of a specification what is changed in it, and what stands in specified.py then: ranges, also those that another file
# says, kinds, names, words.
CHANGES = (
    ("fr_drift", "Holding", "0 199_999", "0 199_998", '("FROM", "number", 0, 199998)'),
    ("fr_script", "Deed", "pos 1_000_000_000_000", "pos 1_000_000_000_001", '("SHIFT", "number", -1000000000001, 1000000000001)'),
    ("fr_script", "Deed", "8 * (8 + 2", "8 * (9 + 2", '"bit": ("gPayloadLengthStatic", (0, 0), (16, 71))'),
    ("fr_cluster", "Ranges", "name.gdNIT = 15_999", "name.gdNIT = 15_998", '"gdNIT": (1, 15998)'),
    ("fr_cluster", "Ranges", "name.xDelayError = 0", "name.xDelayError = 1", '"xDelayError": (1, 10000000)'),
    ("fr_log", "Numbers", "head.Lost = 14", "head.Lost = 15", '"lost": (("COUNT", "number", 0, 15), EMPTY'),
    ("fr_trace", "Holding", "p.offset_limit", "p.rate_limit", '"offset": ("pRateCorrectionOut", (-1, 0), (1, 0))'),
    ("fr_trace", "Rows", 'codes "halt"', 'codes "halted"', '"state": ("active", "passive", "halted")'),
    ("fr_params", "Holding", "text 1 1023", "text 1 1022", '("KEY", "key", 1, 1022)'),
    ("fr_params", "Holding", "if is_blank text then [] else number_field text", "number_field text", '("KEY", "number", 1, 1023)'),
    ("fr_params", "Holding", "`slot,SLOT,NODE", "`slot,NODE,SLOT", '("NODE", "node", 1, 1023), ("SLOT", "number", 1, 64)'),
    ("fr_base", "Channels", 'codes "B"', 'codes "b"', '"channel": ("A", "b")'),
)
# What is told where a shape is not known, or files do not fit together.
STRANGE = (
    ("fr_cluster", "Values", "p.rate_limit", "p.rate_bound", "crates/fr_drift/specs/Holding.antt: a shape that is not known here: "),
    ("fr_log", "Holding", 'codes "head"', 'codes "heads"', "not known here: of heads no one comment has the form"),
    ("fr_log", "Holding", "is_blank (field_of r 1) ||", "is_blank (field_of r 3) ||", "not known here: delay in "),
    ("fr_nm", "Holding", "524", "522", "not known here: fields hex are 524 and 522"),
    ("fr_cold", "Holding", "misses_form 3", "misses_form 4", "not known here: of cycles field 4 is nothing"),
    ("fr_cold", "Holding", "is_out_of_range (power_form r)", "false", "not known here: OutOfRange"),
    ("fr_drift", "Holding", "has_bad_channels (drift_form p r)", "false", "not known here: BadChannel"),
    ("fr_drift", "Holding", "field_of r 4 ∷ field_of r 5 ∷ []", "field_of r 5 ∷ []", "field 5 is nothing"),
    ("fr_script", "Holding", "-- `lose,CYCLE", "-- `lost,CYCLE,,,,,` `lose,CYCLE", "a comment has lost,CYCLE,,,,,, and no record has this form"),
)
# Of a printed line the same: what stands in lines.py, as an expression, and what then, so that none of its words stands here. The words
# are others, a value is signed or has more digits, one of several texts is another, and these begin with no word that is the same.
LINES = (
    ("fr_lines", "Text", 'heard_text sums =\n    codes "', 'heard_text sums =\n    codes "(all) ', r'HEARD = r"', r'HEARD = r"\\(all\\) '),
    ("fr_lines", "Text", "decimal sums.stored", "signed_decimal sums.stored", r'(HEARD = r"[^(]*\()', r"\1-?"),
    ("fr_lines", "Text", "hexadecimal 6 crcs", "hexadecimal 8 crcs", r"(SENT = .*)\{6\}", r"\1{8}"),
    ("fr_base", "States", 'state_text Halt = codes "', 'state_text Halt = codes "un', r"(NODE = .*\|)(\w+\))", r"\1un\2"),
    ("fr_coverage", "Phrases", 'sync_text None = codes "', 'sync_text None = codes "not ', r'(SYNC = r")([^(]*)\((\w+)\|', r"\1(not \2\3|\2"),
)
# Of a bound the same, with what stands in bounds.py and in a table of docs/PRECISION.md then.
BOUNDS = (
    ("SharpBounds", "false p flutter =\n    2 * steady_error p flutter", "false p flutter =\n    steady_error p flutter",
     "    return steady_error(p, flutter) + longest_micro(p) + 2 * p", "| lambda, of even cycles | `e + Qp + 2 c Qp + 2 J` | `4 e"),
    ("SharpBounds", "4 * arrival_error p + 7", "4 * (arrival_error p + 2) + 7", "+ 4 * (arrival_error(p) + 2) + 7 *", "4 J + 4 E1 + 8 + 7 Qp` |"),
    ("SharpBounds", "odd_spread p lengths = lengths + 2", "odd_spread p lengths = lengths + 3", "return lengths + 3 * cycle_change(p)",
     "`pi + 2 lambda + 3 J + 2 Qp`"),
    ("Bounds", "y1_of p = 2 * arrival_error p", "y1_of p = 3 * arrival_error p", "return 3 * arrival_error(p) + 2", "| y1 | `3 E1 + 2 Qp + 3 J` | how"),
)
# A new row of the script, which is one change of its specification.
MUTE = """-- `mute,NODE,CYCLE,CHANNEL,,,`
abbrev pub mute_form : FileRecord → Form
mute_form r = record {
  empty = field_of r 4 ∷ field_of r 5 ∷ field_of r 6 ∷ [];
  known = true;
  numbers = number_field (field_of r 1) 1 64 ∷ number_field (field_of r 2) 0 199_999 ∷ [];
  short = true;
  spelt = is_some (channel_of (field_of r 3));
}

"""
FILES = ("python/flexlab/base/specified.py", "page/forms.js", "docs/FORMATS.md", "python/flexray/lines.py", "python/flexlab/base/bounds.py",
         "docs/PRECISION.md")


def tool() -> ModuleType:
    loader = importlib.machinery.SourceFileLoader("forms_tool", str(TOOLS / "forms"))
    spec = importlib.util.spec_from_loader("forms_tool", loader)
    assert spec
    found = importlib.util.module_from_spec(spec)
    loader.exec_module(found)
    return found


class Case(unittest.TestCase):
    """A copy of what the tool reads."""

    def setUp(self) -> None:
        room = tempfile.TemporaryDirectory()
        self.addCleanup(room.cleanup)
        self.top = Path(room.name)
        for specs in (REPOSITORY / "crates").glob("*/specs"):
            shutil.copytree(specs, self.top / specs.relative_to(REPOSITORY))
        for name in set(re.findall(r"^```text (\S+)", (REPOSITORY / "docs/FORMATS.md").read_text(encoding="utf-8"), re.M)):
            shutil.copytree(REPOSITORY / name, self.top / name)
        for name in FILES:
            (self.top / name).parent.mkdir(parents=True, exist_ok=True)
            shutil.copy(REPOSITORY / name, self.top / name)
        self.tool = tool()

    def ends(self, status: int, *told: str, here: Path | None = None, words: tuple[str, ...] = ("--check",)) -> str:
        self.tool.HERE, out = str(here or self.top), io.StringIO()
        with contextlib.redirect_stdout(out):
            self.assertEqual(self.tool.main(list(words)), status, out.getvalue())
        for text in told:
            self.assertIn(text, out.getvalue())
        return out.getvalue()

    def change(self, name: str, old: str, new: str) -> None:
        text = (self.top / name).read_text(encoding="utf-8")
        self.assertIn(old, text)
        (self.top / name).write_text(text.replace(old, new), encoding="utf-8")


class Held(Case):
    def test_the_repository(self) -> None:
        self.assertEqual(self.ends(0, here=REPOSITORY), "")
        self.assertEqual(self.ends(0), "")

    def test_what_is_changed_in_the_specification_is_written(self) -> None:
        self.tool.HERE = str(self.top)
        for crate, name, old, new, written in CHANGES:
            path = f"crates/{crate}/specs/{name}.antt"
            before = (self.top / path).read_text(encoding="utf-8")
            with self.subTest(path=path, new=new):
                self.change(path, old, new)
                found = self.tool.Specified()
                self.assertEqual(found.strange, [])
                self.assertIn(written, found.text())
                self.assertNotIn(written, (REPOSITORY / FILES[0]).read_text(encoding="utf-8"))
            (self.top / path).write_text(before, encoding="utf-8")

    def test_what_is_changed_in_a_printed_line_is_written(self) -> None:
        self.tool.HERE = str(self.top)
        lines = (REPOSITORY / FILES[3]).read_text(encoding="utf-8")
        for crate, name, old, new, found, written in LINES:
            path = f"crates/{crate}/specs/{name}.antt"
            before = (self.top / path).read_text(encoding="utf-8")
            with self.subTest(path=path, new=new):
                self.change(path, old, new)
                self.assertEqual(self.tool.lines_text(), re.sub(f"^{found}", written, lines, flags=re.M))
                self.assertNotEqual(self.tool.lines_text(), lines)
            (self.top / path).write_text(before, encoding="utf-8")
        self.change("crates/fr_lines/specs/Text.antt", "decimal cut", "shown cut")
        self.ends(1, "a printed line or a bound has a shape that is not known here: ")

    def test_what_is_changed_in_a_bound_is_written(self) -> None:
        for name, old, new, *written in BOUNDS:
            path = f"crates/fr_bound/specs/{name}.antt"
            before = (self.top / path).read_text(encoding="utf-8")
            with self.subTest(new=new):
                self.change(path, old, new)
                self.assertEqual(self.ends(0, words=()), "")
                for file, text in zip(FILES[4:], written, strict=True):
                    self.assertIn(text, (self.top / file).read_text(encoding="utf-8"))
                    self.assertNotIn(text, (REPOSITORY / file).read_text(encoding="utf-8"))
            (self.top / path).write_text(before, encoding="utf-8")
        self.change("docs/PRECISION.md", "| | Without | Beside |", "| Bound | Without | Beside |")
        self.ends(1, "docs/PRECISION.md: it has no table | | Without | Beside |", words=())
        self.change("crates/fr_bound/specs/Bounds.antt", "precision_of p = pi_of p", "precision_of p = nat_abs p")
        self.ends(1, "a printed line or a bound has a shape that is not known here: ", words=())

    def test_what_is_strange_in_the_specification_is_told(self) -> None:
        for crate, name, old, new, told in STRANGE:
            path = f"crates/{crate}/specs/{name}.antt"
            before = (self.top / path).read_text(encoding="utf-8")
            with self.subTest(path=path, new=new):
                self.change(path, old, new)
                self.ends(1, told, words=())
            (self.top / path).write_text(before, encoding="utf-8")

    def test_a_new_row_and_a_new_parameter_are_one_change_of_the_specification(self) -> None:
        for folder in ("python/flexlab", "python/flexray"):
            shutil.copytree(REPOSITORY / folder, self.top / folder, dirs_exist_ok=True, ignore=shutil.ignore_patterns("__pycache__"))
        (self.top / "tools").mkdir()
        shutil.copy(TOOLS / "forms", self.top / "tools" / "forms")
        script, ranges, names = (f"crates/{path}.antt" for path in ("fr_script/specs/Holding", "fr_cluster/specs/Ranges", "fr_params/specs/Names"))
        self.change(script, "abbrev pub script_form", MUTE + "abbrev pub script_form")
        self.change(script, "    else None", '    else if bytes_eq (field_of r 0) (codes "mute") then Some (mute_form r)\n    else None')
        self.change(ranges, "least name.xDelayError = 0", "least name.xDelayError = 0\nleast name.xNew = 3")
        self.change(ranges, "greatest name.xDelayError", "greatest name.xNew = 40\ngreatest name.xDelayError")
        self.change(names, "word_of name.xDelayError", 'word_of name.xNew = codes "xNew"\nword_of name.xDelayError')

        def ended(*words: str) -> list[str]:
            found = subprocess.run([sys.executable, "-B", self.top / "tools" / "forms", *words], capture_output=True, text=True, check=False)
            return [found.stderr[-300:], *found.stdout.splitlines()]

        specified = "tools/forms: python/flexlab/base/specified.py is not what comes of the specification: run tools/forms"
        self.assertEqual(ended("--check"), ["", specified])
        lacking = ["", "tools/forms: python/flexlab/base/ranges.py: MEANT lacks xNew",
                   "tools/forms: docs/FORMATS.md, The fault script: it lacks the form mute,NODE,CYCLE,CHANNEL,,,"]
        self.assertEqual(ended(), lacking)
        self.assertEqual(ended("--check"), lacking)
        self.assertIn('    ["mute", [\n      { name: "NODE", kind: "node", least: 1, most: 64 },\n      { name: "CYCLE", kind: "number", least: 0,',
                      (self.top / FILES[1]).read_text(encoding="utf-8"))
        samples = {"examples/a/params.csv": "param,{0},5,,\n", "crates/b/src/lib.rt": "param,{0},5,,\\n\\\n", "tools/c.toml": "{0} = 5\n"}
        for name, line in samples.items():
            (self.top / name).parent.mkdir(parents=True, exist_ok=True)
            (self.top / name).write_text("".join(line.format(one) for one in ("gMacroPerCycle", "xRateBound", "xDelayError")), encoding="utf-8")
        self.assertEqual(sorted(ended("--give", "xNew=7")), sorted([*lacking, *samples, "python/flexlab/toml/example.toml"]))
        self.assertEqual(ended("--give", "xNew=7"), ["", "", *lacking[1:]])
        for name, line in samples.items():
            self.assertEqual((self.top / name).read_text(encoding="utf-8"), "".join((
                line.format("gMacroPerCycle"), line.format("xRateBound"), line.format("xNew").replace("5", "7"), line.format("xDelayError"))))
        self.assertIn('"xNew": (3, 40)', (self.top / FILES[0]).read_text(encoding="utf-8"))

    def test_a_file_that_was_changed_is_told(self) -> None:
        for name, old, new, told in (
                (FILES[0], "99999", "99998", f"{FILES[0]} is not what comes of the specification"),
                ("page/forms.js", "99999", "99998", "page/forms.js is not"),
                (FILES[3], 'HEARD = r"', 'HEARD = r"so ', f"{FILES[3]} is not what comes of the specification"),
                ("page/forms.js", "heard: /^", "heard: /^so ", "page/forms.js is not"),
                ("docs/FORMATS.md", "SHIFT within 1000000000000 ticks", "SHIFT within 100 ticks", "docs/FORMATS.md is not"),
                ("docs/FORMATS.md", "| 10 to 16000 |", "| 1 to 16000 |", "docs/FORMATS.md is not"),
                ("docs/FORMATS.md", "| `on,NODE,TIME` |", "| `on,TIME,NODE` |", "docs/FORMATS.md is not"),
                ("docs/FORMATS.md", "| `lost,COUNT,,,` |", "| several |", "The log: it lacks the form lost,COUNT,,,"),
                ("docs/FORMATS.md", "| `dev` |", "| others |", "The trace: it lacks the ranges of dev"),
                ("docs/FORMATS.md", "`on,2,4`", "`on,2,`", "an example that is a record, in place of on,2,"),
                ("docs/FORMATS.md", "It has six fields", "It has five fields", "The drift file: it lacks the words: six fields a record"),
                ("docs/FORMATS.md", "CYCLE and FROM are 0", "CYCLE and FROM are 1", "it lacks '- ID, NODE, SENDER, RECEIVER and REFERENCE are 1"),
                ("docs/FORMATS.md", "## The power file", "## Power", "it has no part The power file"),
                ("docs/FORMATS.md", "\nlambda 30005200\n", "\nlambda 30005201\n", "docs/FORMATS.md is not"),
                ("docs/FORMATS.md", "joins/bound 10-14\n", "joins/bound 10-15\n", "examples/joins/bound has no lines 10-15"),
                ("docs/FORMATS.md", "joins/bound 10-14\n", "joins/bound 0-14\n", "examples/joins/bound has no lines 0-14"),
                ("docs/FORMATS.md", "joins/bound 10-14\n", "joins/bound 10-13\n", "docs/FORMATS.md is not"),
                ("docs/FORMATS.md", "text examples/joins/bound", "text examples/join/bound", "no example prints text examples/join/bound"),
                ("docs/FORMATS.md", "joins/bound 10-14\n", "joins/bound 10 to\n", "no example prints text examples/joins/bound 10 to"),
                ("examples/offset/run/printed.txt", "\nheard ", "\nhears ", "docs/FORMATS.md is not"),
                ("examples/frame/capture/printed.txt", "frames 2", "frames 3", "docs/FORMATS.md is not")):
            before = (self.top / name).read_text(encoding="utf-8")
            with self.subTest(name=name, new=new):
                self.change(name, old, new)
                self.ends(1, told)
            (self.top / name).write_text(before, encoding="utf-8")

    def test_what_an_example_prints_is_written(self) -> None:
        before = (self.top / "docs/FORMATS.md").read_text(encoding="utf-8")
        for name in ("offset/run", "sharp/report"):
            self.change(f"examples/{name}/printed.txt", "doubles", "twice")
        self.assertEqual(self.ends(0, words=()), "")
        after = (self.top / "docs/FORMATS.md").read_text(encoding="utf-8")
        changed = [(one, other) for one, other in zip(before.splitlines(), after.splitlines(), strict=True) if one != other]
        self.assertEqual(changed, [("nodes 2 sync 2 arbitrary 0 doubles 2", "nodes 2 sync 2 arbitrary 0 twice 2"),
                                   ("nodes 8 sync 8 arbitrary 0 doubles 12", "nodes 8 sync 8 arbitrary 0 twice 12")])

    def test_it_writes_what_it_asks_for(self) -> None:
        self.change("docs/FORMATS.md", "KEY 1 to 1023 or empty", "KEY 1 to 10")
        self.change("page/forms.js", "99999", "99998")
        self.change(FILES[0], "99999", "99998")
        self.change(FILES[3], 'HEARD = r"', 'HEARD = r"so ')
        self.change(FILES[4], "3 * cycle_change", "2 * cycle_change")
        self.change(FILES[5], "2 Qp + 4 c Qp + 4 J", "Qp + 4 c Qp + 4 J")
        self.ends(1)
        self.assertEqual(self.ends(0, words=()), "")
        self.ends(0)
        for name in FILES:
            self.assertEqual((self.top / name).read_bytes(), (REPOSITORY / name).read_bytes())


class Forms(unittest.TestCase):
    def test_a_record_of_each_form_has_it(self) -> None:
        for role, form in forms.FORMS.items():
            for kind, fields in form.kinds.items():
                self.assertEqual(len(fields) + bool(kind), form.width)
                self.assertIs(forms.form_of(role, Record(1, 1, "", [kind, *["1"] * len(fields)])), fields)
        bare = forms.FORMS["log"].bare["delay"]
        self.assertIs(forms.form_of("log", Record(1, 1, "", ["delay", "", "", "0", "5"])), bare)
        self.assertEqual(forms.spelling("delay", bare), "delay,,,LOW,HIGH")
        for role, once in forms.ONCE.items():
            for kind, names in once.items():
                self.assertLessEqual(set(names), {field.name for field in forms.FORMS[role].kinds[kind]})
        self.assertEqual(forms.spelt("params", "version"), "version,2,,,")
        self.assertTrue(re.fullmatch(r"say(,[A-Z]+){6}", forms.spelt("script", "say")))


if __name__ == "__main__":
    os.chdir(TOOLS)
    unittest.main()
