"""The table of requests: what tools/commands writes of it stands in the repository, and its requests are those of the programs, of the
Python package and of the C header."""
from __future__ import annotations

import contextlib
import importlib.machinery
import importlib.util
import io
import os
import re
import shlex
import shutil
import subprocess
import sys
import tempfile
import unittest
from pathlib import Path
from types import ModuleType

TOOLS = Path(__file__).resolve().parent.parent
REPOSITORY = TOOLS.parent
sys.path.insert(0, str(REPOSITORY / "python"))
sys.dont_write_bytecode = True

from flexlab.program import requests  # noqa: E402
from flexray import calls  # noqa: E402

# tools/test says where the program is; what needs it is left out without.
FLEXRAY = os.environ.get("FLEXRAY", "")
HEADER = (REPOSITORY / "include" / "flexray.h").read_text(encoding="utf-8")


def loaded() -> ModuleType:
    loader = importlib.machinery.SourceFileLoader("commands_tool", str(TOOLS / "commands"))
    spec = importlib.util.spec_from_loader("commands_tool", loader)
    assert spec
    found = importlib.util.module_from_spec(spec)
    loader.exec_module(found)
    return found


TOOL = loaded()
TABLE = TOOL.Table(TOOL.text_of(TOOL.TABLE))


def ended(*words: str, cwd: Path = REPOSITORY) -> tuple[int, str, str]:
    found = subprocess.run(words, capture_output=True, text=True, check=False, cwd=cwd)
    return found.returncode, found.stdout, found.stderr


class Written(unittest.TestCase):
    """A copy of what the tool reads and writes."""

    def setUp(self) -> None:
        room = tempfile.TemporaryDirectory()
        self.addCleanup(room.cleanup)
        self.top = Path(room.name)
        for name in (*TOOL.FILES, TOOL.TABLE, "python/flexray/calls.py"):
            (self.top / name).parent.mkdir(parents=True, exist_ok=True)
            shutil.copy(REPOSITORY / name, self.top / name)
        self.tool = loaded()

    def ends(self, status: int, *words: str, here: Path | None = None) -> str:
        self.tool.HERE, out = str(here or self.top), io.StringIO()
        with contextlib.redirect_stdout(out):
            self.assertEqual(self.tool.main(list(words)), status, out.getvalue())
        return out.getvalue()

    def change(self, name: str, old: str, new: str) -> None:
        text = (self.top / name).read_text(encoding="utf-8")
        self.assertIn(old, text)
        (self.top / name).write_text(text.replace(old, new, 1), encoding="utf-8")

    def test_the_repository(self) -> None:
        self.assertEqual(self.ends(0, "--check", here=REPOSITORY), "")

    def test_a_file_that_was_changed_is_told_and_written(self) -> None:
        changes = (("pages.rt", "the report of a run", "a report"), ("Pages.antt", "make SEED", "make WITH"), ("programs", "observe", "watch"),
                   ("launch", "the same, held", "held"),
                   ("completion/flexray", "bound FILE join", "bound FILE joins"), ("flexray-series", "FILE sharp", "FILE blunt"),
                   ("completion/flexlab", "frame capture", "capture"), ("requests.py", '"script": 3', '"script": 2'),
                   ("flexray.1", ".B lost", ".I lost"), ("flexray-series.1", ".B sharp", ".RB [ sharp ]"),
                   ("libflexray.3", "The report of a run", "A report"), ("flexray.h", "uint64_t flutter", "uint32_t flutter"),
                   ("FORMATS.md", "0 to 20000000 |", "1 to 2 |"), ("PYTHON.md", '`run(params, drift, script=b"")`', "`run(params)`"))
        self.assertEqual(len(changes), len(TOOL.FILES))
        for (_, old, new), name in zip(changes, TOOL.FILES):
            with self.subTest(name=name):
                self.change(name, old, new)
                self.assertEqual(self.ends(1, "--check"), f"tools/commands: {name} is not what comes of {TOOL.TABLE}: run tools/commands\n")
                self.assertEqual(self.ends(0), "")
                self.assertEqual((self.top / name).read_bytes(), (REPOSITORY / name).read_bytes())

    def test_a_new_request_is_one_row(self) -> None:
        with (self.top / TOOL.TABLE).open("a", encoding="utf-8") as file:
            file.write('\n[[request]]\nwords = "walk PARAMS COUNT"\nwhat = "how far one walks"\ncrate = "flexray_cli"\npython = "run"\n'
                       'call = "flexray_walk"\n')
        self.assertEqual(self.ends(0), "")
        for name, told in (("crates/fr_whole/src/pages.rt", "  flexray walk PARAMS COUNT          how far one walks\n"),
                           ("tools/programs", "flexray         walk            flexray_cli\n"), ("tools/completion/flexray", "walk FILE NUMBER\n"),
                           ("tools/completion/flexlab", " walk\""), ("docs/flexray.1", ".B flexray walk\n.I PARAMS COUNT\n"),
                           ("docs/flexray.1", ".TP\n.B flexray walk\n.I PARAMS COUNT\nHow far one walks.\n.TP\n.B flexray help\n"),
                           ("docs/libflexray.3", ".B flexray_walk\nHow far one walks.\n"),
                           ("include/flexray.h", "\n/* `flexray walk PARAMS COUNT`: how far one walks; COUNT is 1 to 1,000. */\nstatic inline uint32_t "
                            "flexray_walk(const uint8_t *params, size_t params_length, uint32_t count, "),
                           ("include/flexray.h", '    FLEXRAY_INLINE_WORDS("walk\\nfirst\\n%llu", (unsigned long long)count);\n    return '
                            "FLEXRAY_INLINE_REQUEST(flexray_request, params, params_length, &none, 0, &none, 0);\n}\n"),
                           ("python/flexlab/program/requests.py", '"walk PARAMS COUNT": {"params": 1},'),
                           ("docs/FORMATS.md", "| `walk PARAMS COUNT` | how far one walks |\n"), ("docs/FORMATS.md", "COUNT of `bound` and `walk`"),
                           ("docs/PYTHON.md", "`run PARAMS DRIFT SCRIPT`, `walk PARAMS COUNT`")):
            self.assertIn(told, (self.top / name).read_text(encoding="utf-8"), name)

    def test_faults_of_the_table(self) -> None:
        before = (self.top / TOOL.TABLE).read_text(encoding="utf-8")
        for old, new, told in (
                ('"upgrade PARAMS"', '"bound PARAMS"', "bound PARAMS stands there twice"),
                ('"upgrade PARAMS"', '"upgrade FILES"', "FILES in upgrade FILES is neither"),
                ('role = "vectors"\n', "", "nm WIDTH FILE has no role, and a FILE has one"),
                ('"nm WIDTH FILE"', '"nm FILE"', "WIDTH is of no request"),
                ('program = "flexray-series"', 'program = "flexray-serial"', "flexray-serial is no program of it"),
                ('python = "nm"', 'pythons = "nm"', "unexpected keyword argument 'pythons'"),
                ('python = "nm"', 'python = "vectors"', "python/flexray/calls.py has no function vectors")):
            with self.subTest(told=told):
                self.change(TOOL.TABLE, old, new)
                self.assertIn(told, self.ends(1, "--check"))
            (self.top / TOOL.TABLE).write_text(before, encoding="utf-8")

    def test_a_file_without_a_place_is_told(self) -> None:
        for name, place in (("docs/flexray.1", ".SH SYNOPSIS"), ("docs/FORMATS.md", "| Word | What it is | Range |")):
            self.change(name, place, "nothing")
            self.assertIn(f"{name}: there is no place for it", self.ends(1, "--check"))


class Answered(unittest.TestCase):
    """Who else has a request for each row, and a row for each request."""

    def test_the_rows(self) -> None:
        self.assertIn("run PARAMS DRIFT SCRIPT sharp", requests.REQUESTS)
        for request in TABLE.requests:
            if not request.is_page:
                self.assertRegex(request.what, r"^\w.*\w$")

    def test_the_python_package(self) -> None:
        self.assertEqual({request.python for request in TABLE.requests if request.python}, set(calls.__all__) - {"Input", "Raw"})

    def test_the_header(self) -> None:
        named = set(re.findall(r"uint32_t (flexray_\w+)\(", HEADER))
        self.assertEqual({request.call for request in TABLE.requests if request.call},
                         {name for name in named if not re.match(r"flexray_frame_(?!line)|flexray_(series_)?request$|flexray_version$", name)})
        page = (REPOSITORY / "docs" / "libflexray.3").read_text(encoding="utf-8")
        for request in TABLE.requests:
            if request.call:
                self.assertRegex(page, rf"\b{request.call}\b")
                self.assertTrue(any(f"`{request.program} {words}`" in HEADER for words in (request.words, request.words.replace("A|B", "A"))),
                                request.words)


class Completion(unittest.TestCase):
    def setUp(self) -> None:
        room = tempfile.TemporaryDirectory()
        self.addCleanup(room.cleanup)
        self.room = Path(room.name)
        (self.room / "mine.csv").touch()

    def complete(self, *words: str) -> list[str]:
        script = (f". {TOOLS}/completion/{words[0]}\nCOMP_WORDS=({' '.join(map(shlex.quote, words))})\n"
                  f"COMP_CWORD={len(words) - 1}\n_{words[0].replace('-', '_')}\nprintf '%s\\n' \"${{COMPREPLY[@]}}\"\n")
        return ended("bash", "-c", script, cwd=self.room)[1].split()

    def test_each_word_that_is_spelt_so_is_completed_behind_those_before_it(self) -> None:
        for request in TABLE.requests:
            for spelt in request.each():
                words = [request.program, *spelt.removeprefix(request.program).split()]
                for place, word in enumerate(words[1:], 1):
                    if word.islower() or word in "AB":
                        self.assertIn(word, self.complete(*words[:place], ""), spelt)
        self.assertEqual(set(self.complete("flexray", "")), {request.parts[0] for request in TABLE.requests if request.program == "flexray"})

    def test_files_where_one_is_given(self) -> None:
        for words in (["flexray", "run"], ["flexray-series"], ["flexray", "frame", "B"], ["flexray-series", "a", "b"]):
            self.assertEqual(self.complete(*words, "mi"), ["mine.csv"])
        for words in (["make"], ["settle", "mine.csv"], ["run", "a", "b", "c", "sharp"], ["walk"]):
            self.assertEqual(self.complete("flexray", *words, "mi"), [], words)
        self.assertEqual(self.complete("flexray-series", "a", "b", "c", ""), ["sharp"])


class Itself(unittest.TestCase):
    """What launcher and program say of themselves."""

    def test_the_launcher_has_the_help_without_the_program(self) -> None:
        for word in ("--help", "-h", "help"):
            status, told, _ = ended(str(REPOSITORY / "flexray"), word)
            self.assertEqual((status, told.split("\n\n")[:2]), (0, "\n".join(TOOL.help_lines(TABLE)).split("\n\n")[:2]))
            status, told, _ = ended(str(REPOSITORY / "flexray-series"), word)
            self.assertEqual((status, told.split("\n\n")[:2]),
                             (0, ["usage: flexray-series PARAMS DRIFT SCRIPT", "\n".join(TOOL.rows_of_help(TABLE, "flexray-series"))]))

    def test_the_version_is_that_of_the_file(self) -> None:
        version = f"flexray {(REPOSITORY / 'VERSION').read_text(encoding='utf-8')}"
        for word in ("--version", "-V", "version"):
            self.assertEqual(ended(str(REPOSITORY / "flexray"), word), (0, version, ""))
        if FLEXRAY:
            self.assertEqual(ended(FLEXRAY, "version"), (0, version, ""))

    @unittest.skipUnless(FLEXRAY, "the variable FLEXRAY names no program")
    def test_the_program_prints_the_help(self) -> None:
        self.assertEqual(ended(FLEXRAY, "help"), (0, "\n".join(TOOL.help_lines(TABLE)) + "\n", ""))

    @unittest.skipUnless(FLEXRAY, "the variable FLEXRAY names no program")
    def test_the_program_knows_each_row(self) -> None:
        """With files that are not there, it is no usage; and with a word more it is, but for those that are a row too."""
        with tempfile.TemporaryDirectory() as room:
            for request in TABLE.of("flexray"):
                words = [str(TABLE.words[word]["range"][0]) if TABLE.is_a(word, "number") else "A" if TABLE.is_a(word, "channel")
                         else "none" if word in TABLE.words else word for word in request.parts]
                has_file = any(TABLE.is_a(word, "file") for word in request.parts)
                self.assertEqual(ended(FLEXRAY, *words, cwd=Path(room))[0], 3 if has_file else 0, words)
                self.assertEqual(ended(FLEXRAY, *words, "more", cwd=Path(room))[0::2], (2, "usage: flexray COMMAND WORDS\n"), words)


if __name__ == "__main__":
    unittest.main()
