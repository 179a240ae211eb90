"""tools/try-cases --try: the calls are gathered, made at once and held against the cases, with a toolchain that calls the program in the
place of rt."""
from __future__ import annotations

import os
import re
import shutil
import subprocess
import sys

from bench import FLEXRAY, REPOSITORY, TOOLS, Bench, example_call

# It answers as `rt try --cases FOLDER` does; the words of a call that is to go wrong stand in the variable WRONG.
RT = """#!{python}
import os, subprocess, sys
folder = sys.argv[3]
with open(os.environ["CALLS"], "a", encoding="utf-8") as calls:
    calls.write(" ".join([os.path.basename(os.getcwd()), *sys.argv[1:3]]) + "\\n")
for name in sorted(one for one in os.listdir(folder) if not one.endswith(".args")):
    words = []
    if os.path.exists(os.path.join(folder, name + ".args")):
        with open(os.path.join(folder, name + ".args"), encoding="utf-8") as file:
            words = file.read().splitlines()
    ran = subprocess.run(["{program}", *words], capture_output=True, text=True, cwd="{empty}", check=False)
    wrong = os.environ["WRONG"]
    if wrong and wrong in words:
        print(f"checked: no-answer: it did not end\\ncase={{name}} run=no-answer proved=no", file=sys.stderr)
        continue
    if os.environ["OTHER"] and os.environ["OTHER"] in words:
        ran.stdout += "more\\n"
    print(f"== {{name}}\\n{{ran.stdout}}", end="", flush=True)
    print(f"{{ran.stderr}}checked: ended status=0\\ncase={{name}} run=ended status={{ran.returncode}} runners=1 proved=no", file=sys.stderr)
"""


class Cases(Bench):
    def setUp(self) -> None:
        super().setUp()
        os.makedirs(self.path("empty"))
        os.makedirs(self.path("bin"))
        self.write("bin/rt", RT.format(python=sys.executable, program=FLEXRAY, empty=self.path("empty")))
        os.chmod(self.path("bin/rt"), 0o755)

    def tried(self, *parts: str, wrong: str = "", other: str = "") -> subprocess.CompletedProcess[str]:
        env = {**os.environ, "PATH": f"{self.path('bin')}:{os.environ['PATH']}", "CALLS": self.path("calls"), "WRONG": wrong,
               "OTHER": other, "TMPDIR": self.path()}
        return subprocess.run([os.path.join(TOOLS, "try-cases"), "--try", *parts], capture_output=True, text=True, check=False, env=env)

    def test_the_calls_of_all_parts_go_to_one_trial(self) -> None:
        ran = self.tried("records", "seeds", "latest-starts")
        self.assertEqual((ran.returncode, ran.stdout), (0, "25 passed, 0 failed, 0 left out; nothing of this is proved\n"), ran.stderr)
        self.assertEqual(self.read("calls"), "flexray_cli try --cases\n")
        self.assertEqual(sorted(os.listdir(self.path())), ["bin", "calls", "empty"])

    def test_another_answer_is_told(self) -> None:
        ran = self.tried("seeds", other="-0")
        self.assertEqual(ran.returncode, 1)
        self.assertIn("seed -0: ", ran.stdout)
        self.assertTrue(ran.stdout.endswith("1 passed, 1 failed, 0 left out; nothing of this is proved\n"), ran.stdout)

    def test_a_call_without_an_answer_is_left_out(self) -> None:
        ran = self.tried("seeds", wrong="-0")
        self.assertEqual((ran.returncode, ran.stdout), (0, "1 passed, 0 failed, 1 left out; nothing of this is proved\n"))

    def written(self, worked: str, *words: str) -> tuple[str, str]:
        """What the tool writes in the place of these cases, and what it prints, where there is one example, of other text."""
        for name in ("offset/params.csv", "offset/drift.csv", "offset/script.csv", "offset/run/words"):
            os.makedirs(self.path("examples", "offset", "run"), exist_ok=True)
            shutil.copy(os.path.join(REPOSITORY, "examples", name), self.path("examples", name))
        self.write("examples/offset/run/printed.txt", "nodes 3\n")
        shutil.copytree(os.path.join(TOOLS, "cases"), self.path("tools", "cases"), dirs_exist_ok=True)
        shutil.copy(os.path.join(TOOLS, "try-cases"), self.path("tools", "try-cases"))
        self.write("tools/cases/worked", worked)
        env = {**os.environ, "PATH": f"{self.path('bin')}:{os.environ['PATH']}", "CALLS": self.path("calls"), "WRONG": "sharp", "OTHER": ""}
        os.makedirs(self.path("crates", "flexray_cli"), exist_ok=True)
        ran = subprocess.run([self.path("tools", "try-cases"), "--write", *words], capture_output=True, text=True, check=False, env=env)
        self.assertEqual((ran.returncode, "Traceback" in ran.stderr), (0, False), ran.stderr)
        self.assertEqual(self.read("examples", "offset", "run", "printed.txt"), example_call("offset/run").text.decode())
        return self.read("tools", "cases", "worked"), ran.stdout

    def test_what_the_program_answers_is_written(self) -> None:
        with open(os.path.join(TOOLS, "cases", "worked"), encoding="utf-8") as file:
            worked = file.read()
        # Without the longest run, and with other numbers and words, a line more and one less, other statuses and lines.
        worked = worked.partition("\n# The longest run.")[0]
        other = re.sub(r"^(\| precision )\d+$", r"\g<1>7", worked, flags=re.M).replace("| heard ", "| heard kept ")
        other = re.sub(r"^\| cut \d+\n", "", other, flags=re.M).replace("| y1 ", "| y0 5\n| y1 ")
        other = other.replace("ends 5 params: constraint 1", "ends 0\n| y1 5").replace("| alone precision 96003994\n| beside", "| beside")
        self.assertGreater(sum(one not in worked.splitlines() for one in other.splitlines()), 40)
        written, told = self.written(other, FLEXRAY)
        self.assertEqual(written, worked)
        self.assertRegex(told, r"\A\d+ passed, 0 failed\n\Z")
        # By the toolchain, where what has no answer stays as it is.
        left, told = self.written(other, "--try")
        self.assertRegex(told, r"\A\d+ passed, 0 failed, [1-9]\d* left out; nothing of this is proved\n\Z")
        for block, before, after in zip(left.split("\n\n"), other.split("\n\n"), worked.split("\n\n"), strict=True):
            self.assertEqual(block, before if re.search("^call .*sharp", block, re.M) else after)

    def test_a_part_that_is_none(self) -> None:
        ran = self.tried("seeds", "none")
        self.assertEqual((ran.returncode, ran.stdout), (2, ""))
        self.assertIn("there is no part none: the parts are examples, rows", ran.stderr)
