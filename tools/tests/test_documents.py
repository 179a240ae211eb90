"""tools/statement, tools/house, tools/promises and tools/prose, over a small repository that is written here; and tools/pictures."""
import importlib.machinery
import importlib.util
import os
import shutil
import subprocess
import sys
import tempfile
import textwrap
import unittest

TOOLS = os.path.dirname(os.path.dirname(os.path.realpath(__file__)))

FILES = {
    "crates.txt": "fr_low:   # the lowest\nfr_high: fr_low\n",
    "docs/ARCHITECTURE.md": "# A map\n",
    "README.md": "# A repository\n\n[a part](docs/PROMISES.md#what-is-proved), and `docs/PROMISES.md`, \"What is trusted\"\n",
    "docs/PROMISES.md": """\
        # Promises

        ## What is proved

        - **First.** So it is.

          *By* the laws `a_law`, `other` of `fr_low` (`src/laws.rt`); `Thing::ask` of `fr_high` (`src/thing.rt`): `ends`, by
          `IsWhole` of `fr_high` (`specs/Whole.antt`).

        | Claim | Carried by |
        |---|---|
        | **In a row.** So it is. | theorems `a_law`, `other` of `fr_low` (`src/laws.rt`); `Thing::ask` of `fr_high` (`src/thing.rt`): `ends`, theorem `a_law` of `fr_low` (`src/laws.rt`) |
        | **Of all.** So it is. | every function |

        ## What is trusted

        - **Second.** See `IsWhole` in `crates/fr_high/specs/Whole.antt` and [`IsPart`](../crates/fr_low/specs/Part.antt).
        """,
    "crates/fr_low/src/laws.rt": """\
        pub fn a_law()
            ensures { IsPart }
        {}

        pub fn other()
            ensures { IsPart }
        {}
        """,
    "crates/fr_low/specs/Part.antt": """\
        -- a part
        abbrev pub IsPart : Nat → Type 0
        IsPart n =
            n ≡ n

        -- by cases
        abbrev pub IsEnd : Asked → Type 0
        IsEnd (run n) = IsPart n
        IsEnd (stop n) = IsStop n

        abbrev pub IsStop : Nat → Type 0
        IsStop n = n ≡ n
        """,
    "crates/fr_high/src/thing.rt": """\
        use fr_low::a_law;

        pub struct Thing {
            it: u8,
        }

        impl Thing {
            pub fn ask(&self) -> u8
                requires small { self.it ≤ 9 }
                ensures ends { IsWhole result }
            {
                self.it
            }
        }
        """,
    "crates/fr_high/specs/Whole.antt": """\
        use Rattle.fr_low.specs.Part.{IsPart, IsEnd as ends}

        -- a whole
        pub record IsWhole (n : Nat) : Type 0 where
          -- its part
          pub part : IsPart n
          pub end : ends n
        """,
}


def loaded(name):
    """A tool as a module."""
    loader = importlib.machinery.SourceFileLoader(name, os.path.join(TOOLS, name))
    sys.dont_write_bytecode = True
    found = importlib.util.module_from_spec(importlib.util.spec_from_loader(name, loader))
    loader.exec_module(found)
    return found


class Case(unittest.TestCase):
    def setUp(self):
        room = tempfile.TemporaryDirectory()
        self.addCleanup(room.cleanup)
        self.top = room.name
        for path, text in FILES.items():
            self.write(path, textwrap.dedent(text))

    def write(self, path, text):
        os.makedirs(os.path.dirname(os.path.join(self.top, path)) or self.top, exist_ok=True)
        with open(os.path.join(self.top, path), "w", encoding="utf-8") as file:
            file.write(text)

    def read(self, path):
        with open(os.path.join(self.top, path), encoding="utf-8") as file:
            return file.read()

    def change(self, path, old, new):
        text = self.read(path)
        self.assertIn(old, text)
        self.write(path, text.replace(old, new))

    def run_tool(self, name, *words):
        return subprocess.run([os.path.join(TOOLS, name), *words, "--top", self.top], capture_output=True, text=True, check=False)

    def ends(self, status, told, name, *words):
        """The tool ends with the status, and tells this on one of its streams."""
        ran = self.run_tool(name, *words)
        self.assertEqual(ran.returncode, status, ran.stdout + ran.stderr)
        self.assertIn(told, ran.stdout + ran.stderr)
        return ran.stdout


class Statement(Case):
    def test_counts_what_is_cited(self):
        self.ends(0, "IsWhole: 4 definitions, 11 lines", "statement", "IsWhole")

    def test_stops_and_cases(self):
        self.ends(0, "2 definitions, 6 lines", "statement", "IsWhole", "--stop", "IsEnd")
        self.ends(0, "1 definitions, 3 lines", "statement", "IsWhole", "--stop", "fr_low")
        self.ends(0, "3 definitions, 8 lines", "statement", "IsWhole", "--case", "run")

    def test_of_several_cases_the_first_that_a_definition_has_is_read(self) -> None:
        self.ends(0, "3 definitions, 8 lines", "statement", "IsWhole", "--case", "core", "run")
        self.ends(0, "4 definitions, 10 lines", "statement", "IsWhole", "--case", "stop", "run")
        self.ends(0, "4 definitions, 11 lines", "statement", "IsWhole", "--case", "core")

    def test_what_a_file_lists_is_held(self) -> None:
        self.write("tools/statements.toml", '[whole]\nnames = ["IsWhole"]\nmost = 4\nmost_lines = 11\n'
                                            '[part]\nnames = ["IsWhole"]\ncase = ["run"]\nstop = "\\n  IsPart\\n"\nmost = 2\n')
        told = self.ends(0, "IsWhole: 4 definitions, 11 lines", "statement", "--held")
        self.assertEqual(len(told.splitlines()), 2, told)
        self.change("tools/statements.toml", "most = 2", "most = 1")
        self.ends(1, "2 definitions, and at most 1 are allowed", "statement", "--held")
        self.change("tools/statements.toml", '["IsWhole"]\nmost = 4', '["IsNothing"]\nmost = 4')
        self.ends(2, "no definition has this name", "statement", "--held")
        for words in ((), ("IsWhole", "--held")):
            self.ends(2, "give a NAME, or --held", "statement", *words)

    def test_limits(self):
        self.ends(0, "4 definitions", "statement", "IsWhole", "--most", "4", "--most-lines", "11")
        self.ends(1, "at most 3 are allowed", "statement", "IsWhole", "--most", "3")
        self.ends(1, "at most 10 are allowed", "statement", "IsWhole", "--most-lines", "10")

    def test_names(self):
        self.ends(2, "no definition has this name", "statement", "IsNothing")
        self.write("crates/fr_low/specs/More.antt", "abbrev pub IsStop : Type 0\nIsStop = Unit\n")
        self.ends(2, "several have", "statement", "IsStop")
        self.ends(0, "1 definitions", "statement", "More.IsStop")


class House(Case):
    def test_within_its_limits(self):
        self.ends(0, "crates 2 (at most 59)", "house")

    def test_a_crate_that_is_not_cited(self):
        self.change("crates/fr_high/src/thing.rt", "use fr_low::a_law;\n", "")
        self.change("crates/fr_high/specs/Whole.antt", "Rattle.fr_low.specs", "Rattle.std.specs")
        self.ends(1, "fr_high: fr_low", "house")

    def test_a_word_twice(self):
        for number in range(6):
            for place in ("low", "high"):
                self.write(f"crates/fr_{place}/specs/W{number}.antt", f"abbrev pub IsWord{number} : Type 0\n")
        self.ends(1, "words that two files of specs/ define: 6", "house")

    def test_a_wide_clause(self):
        self.change("crates/fr_high/src/thing.rt", "IsWhole result", "IsWhole" + " result" * 15)
        self.ends(1, "crates/fr_high/src/thing.rt:10", "house")

    def test_edits_and_lines(self):
        for number in range(7):
            self.write(f"crates/fr_low/must-fail/{number}.edit", "file: src/laws.rt\n")
        self.ends(1, "fr_low 7", "house")
        self.write("docs/ARCHITECTURE.md", "a line\n" * 351)
        self.ends(1, "lines of docs/ARCHITECTURE.md 351", "house")

    def test_what_hurts(self):
        self.write("crates/fr_low/src/long.rt", "".join(
            f"fn wide_{number}(&self, a: Vec<(u8, u8)>, b: u8, c: u8, d: u8, e: u8, f: u8)\n{{\n}}\n\n" for number in range(42)))
        self.ends(1, "functions with more than 6 arguments: 42 (at most 22)", "house")
        self.write("crates/fr_low/src/long.rt", "fn six(&self, a: Map<u8, u8>, b: fn(u8, u8) -> u8, c: u8, d: u8, e: u8)\n{\n}\n")
        self.ends(0, "functions with more than 6 arguments: 0", "house")
        most = loaded("house").MOST_REPEATED
        # One repeats another already.
        self.write("crates/fr_low/src/said.rt", "".join(
            f"fn same_{number}()\n    ensures {{ IsSo result }}\n{{\n}}\n\n" for number in range(most + 1)))
        self.ends(1, f"lines of clauses that repeat another {most + 1:,} (at most {most:,})", "house")
        self.write("crates/fr_low/src/said.rt", "")
        for name in ("low", "high", "low/proofs/deep"):
            self.write(f"crates/fr_{name}/proofs/Long.antt".replace("deep/proofs/", "deep/"), "-- a line\n" * 9001)
        self.ends(1, "crates over 9,000 lines of proofs: 2 (at most 0)", "house")
        # Of the last two of the kinds that it counts, one in documents and one in proofs, which it does not look at.
        (unproved, _), (word, most) = ((spelt.replace("\\b", ""), most) for _, spelt, most in loaded("house").SPREAD[-2:])
        for number in range(most + 1):
            self.write(f"docs/part_{number}.md", f"{word} 4\n")
            self.write(f"crates/fr_low/proofs/part_{number}.antt", f"-- {unproved}\n" * 3)
        self.ends(1, f"{word}: {most + 1} (at most {most})", "house")
        self.ends(1, f"{unproved}: 0 (at most", "house")


class Promises(Case):
    def test_all_is_there(self):
        self.ends(0, "12 names and clauses", "promises")

    def test_what_is_not_there_is_told(self):
        for path, old, new, told in (
            ("crates/fr_low/src/laws.rt", "fn other", "fn another", "other of fr_low"),
            ("crates/fr_high/src/thing.rt", "ensures ends", "ensures goes", "no clause ends"),
            ("crates/fr_low/specs/Part.antt", "IsPart", "IsPiece", "IsPart in crates/fr_low/specs/Part.antt"),
            ("docs/PROMISES.md", "## What is proved", "## What holds", "no heading what-is-proved"),
            ("docs/PROMISES.md", "## What is trusted\n\n", "", "nothing is said to carry this"),
            ("docs/PROMISES.md", "## What is trusted", "## What is believed", "no part What is trusted of PROMISES"),
            ("docs/PROMISES.md", "| every function |", "| |", "nothing is said to carry this"),
            ("docs/PROMISES.md", "| every function |", "| some of it |", "nothing is said to carry this"),
            ("docs/PROMISES.md", "| Claim | Carried by |", "| Claim | Place |", "nothing is said to carry this"),
            ("docs/PROMISES.md", "(`src/thing.rt`): `ends`, theorem", "(`src/thing.rt`): `goes`, theorem", "no clause goes"),
            ("docs/ARCHITECTURE.md", "# A map", "# A map of `fr_gone`, `IsGone`", "no crate fr_gone"),
        ):
            with self.subTest(told=told):
                kept = self.read(path)
                self.change(path, old, new)
                self.ends(1, told, "promises")
                self.write(path, kept)

    def test_what_moved_is_mended(self):
        text = self.read("crates/fr_low/src/laws.rt")
        first, second = text.split("\n\n")
        self.write("crates/fr_low/src/laws.rt", first + "\n")
        self.write("crates/fr_high/src/others.rt", second)
        os.rename(os.path.join(self.top, "crates/fr_low/specs/Part.antt"), os.path.join(self.top, "crates/fr_low/specs/Piece.antt"))
        self.ends(1, "it is in crates/fr_high/src/others.rt", "promises")
        self.ends(0, "mended", "promises", "--write")
        mended = " ".join(self.read("docs/PROMISES.md").split())
        self.assertIn("`a_law` of `fr_low` (`src/laws.rt`), `other` of `fr_high` (`src/others.rt`)", mended)
        self.assertIn("[`IsPart`](../crates/fr_low/specs/Piece.antt)", mended)
        self.assertIn("(`src/others.rt`); `Thing::ask` of `fr_high` (`src/thing.rt`): `ends`, theorem `a_law` of `fr_low` (`src/laws.rt`) |", mended)
        self.ends(0, "12 names and clauses", "promises")


class Prose(Case):
    def counts(self, text):
        """How many sentences a document has, and how many words they have together."""
        self.write("docs/ONE.md", text)
        ran = self.run_tool("prose", "--only", os.path.join(self.top, "docs/ONE.md"))
        row = ran.stdout.splitlines()[1].split()
        return int(row[2]), int(row[3])

    def test_sentences_and_words(self):
        for text, sentences, words in (
            ("One two three. Four `five six`, seven!\n", 2, 6),
            ("One [two three](docs/ONE.md#four-five). *Six* seven? 8 nine\n", 3, 7),
            ("One two, e.g. Three, and version 2.1 of it .. Four.\n", 1, 10),
            ("One two\nthree. Four\nfive\n\nsix\n", 3, 6),
            ("- **one**: two\n  three\n- four. Five\n  1. six\n", 4, 6),
            ("# One two\n\n| three | four, five |\n|---|---|\n\n![six](seven.svg)\n\n[`it`]: crates/it\n\n---\n", 0, 0),
            ("| one | two three. |\n|---|---|\n| five | six. Seven eight |\n| **nine** | ten. |\n", 4, 6),
            ("| `a \\| b. C` | one **two.** |\n| three | four (`a.`). |\n| version 2.1 | [e.g. five](six.md) |\n", 2, 4),
            ("One:\n\n```\ntwo. Three four\n\nfive\n```\n\nSix:\n\n    seven eight.\n\n    Nine\n\nTen\n", 3, 3),
            ("- one\n\n  two three\n\n      four. Five\n\n  *By* `six`, `seven` of `eight`.\n\nNine\n", 3, 4),
            ("- one\n\nTwo\n\n    three four\n", 2, 2),
        ):
            with self.subTest(text=text):
                self.assertEqual(self.counts(text), (sentences, words))

    def test_a_long_sentence(self):
        self.write("docs/ONE.md", "Short.\n\n" + "word " * 38 + "end.\n")
        self.ends(0, "docs/ONE.md:3: 39 words: word word", "prose", "--longest", "1")
        self.write("docs/ONE.md", "Short.\n\n" + "word " * 40 + "end.\n")
        self.ends(1, "docs/ONE.md: 21.0 words a sentence, and at most 20 are allowed", "prose")
        self.write("docs/ONE.md", "Short.\n\n| " + "word " * 42 + "| " + "word " * 40 + "end. |\n")
        self.ends(1, "docs/ONE.md: 21.0 words a sentence, and at most 20 are allowed", "prose")
        self.ends(0, "docs/PROMISES.md", "prose", "--only", os.path.join(self.top, "docs/PROMISES.md"))

    def test_listed_words(self):
        for text, told in (
            ("It holds,\nbut for one.\n", 'docs/ONE.md:2: "but for": except for'),
            ("| a | it Is told |\n", 'docs/ONE.md:1: "Is told"'),
            ("# What is seen of a run\n", 'docs/ONE.md:1: "seen of"'),
            ("- one\n- six wrong bodies\n", 'docs/ONE.md:2: "wrong bodies": mutant'),
        ):
            with self.subTest(text=text):
                self.write("docs/ONE.md", text)
                self.ends(1, told, "prose")
        for text in ("`it is told`, and tools/edits/try-all\n", "```\nbut for one\n```\n", "[it](amid/amid.md), they are told apart\n"):
            with self.subTest(text=text):
                self.write("docs/ONE.md", text)
                self.ends(0, "ONE.md", "prose")

    def test_lines(self):
        self.write("CHANGELOG.md", "\n" * 5549)
        self.ends(0, "5,570 (at most 5,570)", "prose")
        self.write("examples/README.md", "\n" * 10)
        self.ends(0, "5,570 (at most 5,570)", "prose")
        self.write("CONTRIBUTING.md", "\n")
        self.ends(1, "5,571 lines, and at most 5,570 are allowed", "prose")


class Pictures(unittest.TestCase):
    def setUp(self):
        room = tempfile.TemporaryDirectory()
        self.addCleanup(room.cleanup)
        self.top, here = room.name, os.path.dirname(TOOLS)
        shutil.copy(os.path.join(here, "crates.txt"), self.top)
        shutil.copytree(os.path.join(here, "examples"), os.path.join(self.top, "examples"))
        os.mkdir(os.path.join(self.top, "docs"))
        for name in os.listdir(os.path.join(here, "docs")):
            if name.endswith(".svg"):
                shutil.copy(os.path.join(here, "docs", name), os.path.join(self.top, "docs"))

    def check(self):
        """What it tells of the pictures that are not as they would be drawn."""
        ran = subprocess.run([os.path.join(TOOLS, "pictures"), "--check", "--top", self.top], capture_output=True, text=True, check=False)
        self.assertEqual(ran.returncode, 1 if ran.stderr else 0, ran.stderr)
        return ran.stderr

    def change(self, path, old, new):
        path = os.path.join(self.top, path)
        with open(path, encoding="utf-8") as file:
            text = file.read()
        self.assertIn(old, text)
        with open(path, "w", encoding="utf-8") as file:
            file.write(text.replace(old, new, 1))

    def test_they_are_as_they_are_drawn(self):
        self.assertEqual(self.check(), "")

    def test_each_is_drawn_of_its_numbers(self):
        for path, old, new, told in (
            ("crates.txt", "fr_nm: fr_base fr_crc fr_text fr_frame fr_program csv", "fr_nm: fr_base csv", "docs/crates.svg"),
            ("examples/offset/trace/printed.txt", "dev,0,2,1,A,-3", "dev,0,2,1,A,-2", "docs/double-cycle.svg"),
            ("examples/observe/log.csv", "head,37062,", "head,37052,", "docs/observer.svg"),
            ("examples/joins/script.csv", "join,1,3,1", "join,2,3,1", "docs/joining.svg"),
            ("examples/sharp/burst/printed.txt", "28,yes,47382720", "28,yes,57382720", "docs/burst.svg"),
            ("examples/sharp/burst/script.csv", "lose,12,", "lose,16,", "docs/burst.svg"),
            ("examples/sharp/burst/printed.txt", "sharp covered,no", "sharp covered,yes", "examples/sharp/burst does not print"),
            ("crates.txt", "fr_nm: ", "fr_new: ", "of no group, or of no line of crates.txt: fr_new, fr_nm"),
            ("docs/promises.svg", "burst", "first", "docs/promises.svg is not as it would be drawn"),
        ):
            with self.subTest(told=told, new=new):
                kept = os.path.join(self.top, "kept")
                shutil.copy(os.path.join(self.top, path), kept)
                self.change(path, old, new)
                self.assertIn(told, self.check())
                shutil.copy(kept, os.path.join(self.top, path))

    def test_the_numbers_of_losses(self):
        pictures = loaded("pictures")
        params = pictures.Files(self.top).params("sharp")
        # Those of docs/PRECISION.md, "Where frames are lost", computed there from the definitions, with a flutter of 250 ticks.
        self.assertEqual(pictures.bounds(params, 250, [True, False, True]), [36005494, 48007094, 75011786])
        # Those that `flexray bound PARAMS sharp FLUTTER lost 1` prints.
        printed = [line.split() for line in pictures.Files(self.top).lines("examples/sharp/bound-lost/printed.txt")]
        aparts = [int(line[2]) for line in printed if line[0] == "apart"]
        self.assertEqual(len(aparts), 4)
        self.assertEqual(pictures.bounds(params, 0, [False, True, True, True]), aparts)


if __name__ == "__main__":
    unittest.main()
