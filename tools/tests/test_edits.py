"""tools/edits/try: which edit does not apply, and how edits are tried together, in a repository of one crate."""
import os
import shutil
import subprocess
import tempfile
import unittest

TRY = os.path.join(os.path.dirname(os.path.dirname(os.path.realpath(__file__))), "edits", "try")
SOURCE = "one\ntwo\ntwo\n"


class Repository(unittest.TestCase):
    """A repository of one crate, in a folder of its own."""

    def setUp(self) -> None:
        self.room = tempfile.mkdtemp()
        self.addCleanup(shutil.rmtree, self.room)
        self.write("crates/fr_one/src/lib.rt", SOURCE)
        os.makedirs(f"{self.room}/tools/edits")
        shutil.copy(TRY, f"{self.room}/tools/edits/try")

    def write(self, path, text):
        os.makedirs(os.path.dirname(f"{self.room}/{path}"), exist_ok=True)
        with open(f"{self.room}/{path}", "w", encoding="utf-8") as file:
            file.write(text)

    def told(self, *words):
        ran = subprocess.run([f"{self.room}/tools/edits/try", *words], stdout=subprocess.PIPE, stderr=subprocess.PIPE,
                             text=True)
        return ran.returncode, ran.stdout + ran.stderr


class Edits(Repository):
    def test_both_places_are_looked_at(self):
        for folder in ("crates/fr_one/must-fail", "tools/edits/fr_one"):
            self.write(f"{folder}/good_in_{folder[:5]}.edit", "file: src/lib.rt\nold: one\nnew: three\n")
        self.assertEqual(self.told("--applies"), (0, "2 edits, each applies\n"))
        for folder in ("crates/fr_one/must-fail", "tools/edits/fr_one"):
            path = f"{folder}/stale.edit"
            self.write(path, "file: src/lib.rt\nold: four\nnew: three\n")
            status, text = self.told("--applies")
            self.assertEqual(status, 1)
            self.assertIn(f"{path}: a text stands 0 times in src/lib.rt: four\n", text)
            os.remove(f"{self.room}/{path}")

    def test_an_edit_is_read_line_by_line(self):
        for text, why in (
                ("file: src/lib.rt\nold: two\nnew: three\n", "a text stands 2 times"),
                ("file: src/none.rt\nold: one\nnew: three\n", "there is no file src/none.rt"),
                ("file: ../lib.rt\nold: one\nnew: three\n", "../lib.rt is no file of"),
                ("file: src/lib.rt\nnew: three\n", "a new text comes before"),
                ("file: src/lib.rt\nold: one\nnew: one\n", "it changes nothing"),
                ("file: src/lib.rt\nold: one\nnew: three\nfour\n", "a line is not read: four"),
                ("", "it changes nothing"),
                # A later change is looked for behind the earlier one.
                ("file: src/lib.rt\nold: one\nnew: three\nold: one\nnew: four\n", "a text stands 0 times"),
                ("file: src/lib.rt\nold: one\nnew: three\nold: three\nnew:\n", None)):
            self.write("tools/edits/fr_one/it.edit", text)
            status, told = self.told("--applies")
            self.assertEqual(status, 1 if why else 0, text)
            self.assertIn(why or "each applies", told, text)

    def test_a_folder_without_its_crate(self):
        self.write("tools/edits/fr_two/it.edit", "file: src/lib.rt\nold: one\nnew: three\n")
        status, told = self.told("--applies")
        self.assertEqual(status, 1)
        self.assertIn("tools/edits/fr_two: there is no crate of that name\n", told)

    def test_the_same_name_in_both_places(self):
        for folder in ("crates/fr_one/must-fail", "tools/edits/fr_one"):
            self.write(f"{folder}/it.edit", "file: src/lib.rt\nold: one\nnew: three\n")
        self.assertEqual(self.told("--applies")[0], 1)

    def test_wrong_words(self):
        for words in ((), ("--none",), ("fr_one",), ("fr_one/it",), ("..",), ("--applies", "fr_one")):
            self.assertEqual(self.told(*words)[0], 2, words)


BODIES = """\
pub struct Cell {
    place: u8,
}

impl Cell {
    pub fn place(&self) -> u8
        ensures { result ≡ self.now.place }
    {
        // place
        self.place
    }
}

impl From<u8> for Cell {
    fn from(place: u8) -> Cell {
        // from
        Cell { place }
    }
}

pub fn first(cells: &[Cell]) -> u8
    requires { 0 < length cells.now }
    ensures { result ≡ 1 }
{
    // first
    cells[0].place() // again
}

const MOST: u8 = 9;
"""

# In place of rt. What it says of a function goes by the words in its body: `wrong` has a goal of its own that is left, `called` only
# calls what is not proved, `unread` is not read at all; all else is proved.
RT = """\
#!/usr/bin/env python3
import os, re, sys
NAMES = {"place": "inner::Cell::place", "from": "inner::CellFromu8::from", "first": "inner::first"}
with open(os.environ["CALLS"], "a") as file:
    print(os.path.basename(os.getcwd()), *sys.argv[1:], file=file)

def states(text):
    lines, found, heads = text.split("\\n"), {}, []
    for at, line in enumerate(lines, 1):
        head = re.match(r" *(?:pub )?fn (\\w+)", line)
        if head:
            heads.append((at, head.group(1)))
    for (at, name), end in zip(heads, [it for it, _ in heads[1:]] + [len(lines)]):
        body = "\\n".join(lines[at - 1:end - 1])
        found[name] = (at, "wrong" if "wrong" in body or "wrong" in text.split("const MOST")[-1] else "called" if "called" in body else "proved")
    return found

if sys.argv[1] == "check":
    text = open("src/inner.rt").read()
    if "unread" in text:
        print("src/inner.rt:1:1: error[E0]: it is not read")
        sys.exit(1)
    asked = [word for word in sys.argv[2:] if word != "--only"]
    bad = 0
    for name, (at, state) in states(text).items():
        if asked and NAMES[name] not in asked:
            continue
        if state == "wrong":
            print(f"note: src/inner.rt:{at}:5: it is not proved that what the function ensures holds when it returns")
            print(f"fn fr_one::{NAMES[name]}: no proof: expected answers")
        elif state == "called":
            print(f"fn fr_one::{NAMES[name]}: not proved; it calls `fr_one::x`, which is not proved")
        else:
            print(f"fn fr_one::{NAMES[name]}: proved")
        bad |= state != "proved"
    sys.exit(bad)
well = True
for edit in sorted(os.listdir("crates/fr_one/must-fail")):
    told = open(f"crates/fr_one/must-fail/{edit}").read()
    well &= "wrong" in told or "called" in told
    print(f"must-fail fr_one/{edit}: {'refused' if well else 'NOT REFUSED'}")
sys.exit(not well)
"""


class Together(Repository):
    """Edits of one function each are tried in one check."""

    def setUp(self) -> None:
        super().setUp()
        self.write("crates/fr_one/src/lib.rt", "mod inner;\n")
        self.write("crates/fr_one/src/inner.rt", BODIES)
        self.write("crates.txt", "fr_one:\n")
        self.write("HANDLES", "Handles allowed: none.\n")
        self.write("bin/rt", RT)
        os.chmod(f"{self.room}/bin/rt", 0o755)

    def edit(self, name: str, old: str, new: str) -> None:
        self.write(f"tools/edits/fr_one/{name}.edit", f"file: src/inner.rt\nold: {old}\nnew: {new}\n")

    def tried(self, *words: str) -> tuple[int, str, list[str]]:
        """The exit status, what is told, and the calls of rt."""
        calls = f"{self.room}/calls"
        open(calls, "w", encoding="utf-8").close()
        ran = subprocess.run([f"{self.room}/tools/edits/try", *words], capture_output=True, text=True, check=False,
                             env={**os.environ, "PATH": f"{self.room}/bin:{os.environ['PATH']}", "CALLS": calls})
        with open(calls, encoding="utf-8") as file:
            return ran.returncode, ran.stdout + ran.stderr, file.read().splitlines()

    def test_three_functions_in_one_check(self) -> None:
        self.edit("a", "// place", "// wrong")
        self.edit("b", "// from", "// wrong")
        self.edit("c", "// first", "// wrong")
        status, told, calls = self.tried("fr_one")
        self.assertEqual((status, calls), (0, ["fr_one check", "fr_one check --only inner::Cell::place --only inner::CellFromu8::from --only inner::first"]),
                         told)
        for name, function in (("a", "inner::Cell::place"), ("b", "inner::CellFromu8::from"), ("c", "inner::first")):
            self.assertIn(f"fr_one/{name}.edit: refused in {function}: it is not proved that", told)
        self.assertIn("3 edits, each refused\n", told)

    def test_two_of_one_function_take_two_checks(self) -> None:
        self.edit("a", "// first", "// wrong")
        self.edit("b", "// again", "// wrong")
        status, told, calls = self.tried("fr_one")
        self.assertEqual((status, len(calls)), (0, 3), told)

    def test_what_is_proved_is_tried_alone_and_told(self) -> None:
        self.edit("a", "// place", "// wrong")
        self.edit("b", "// from", "// right")
        status, told, calls = self.tried("fr_one")
        self.assertEqual((status, calls[-1].split()[1:]), (1, ["must-fail", "fr_one"]), told)
        self.assertIn("fr_one/a.edit: refused in", told)
        self.assertIn("b.edit: NOT REFUSED", told)
        self.assertNotIn("must-fail fr_one/a.edit", told)
        self.assertIn("2 edits, and not each refused: fr_one\n", told)

    def test_a_call_of_what_is_not_proved_is_no_refusal(self) -> None:
        self.edit("a", "// place", "// wrong")
        self.edit("b", "// first", "// called")
        status, told, calls = self.tried("fr_one")
        self.assertEqual((status, calls[-1].split()[1:]), (0, ["must-fail", "fr_one"]), told)
        self.assertIn("must-fail fr_one/b.edit: refused", told)

    def test_one_that_is_not_read_hides_no_other(self) -> None:
        self.edit("a", "// place", "// wrong")
        self.edit("b", "// from", "// unread")
        self.edit("c", "// first", "// wrong")
        status, told, calls = self.tried("fr_one")
        self.assertEqual(status, 1, told)
        for name in "ac":
            self.assertIn(f"fr_one/{name}.edit: refused in", told)
        self.assertEqual(calls[-1].split()[1:], ["must-fail", "fr_one"])
        self.assertIn("must-fail fr_one/b.edit: NOT REFUSED", told)

    def test_what_is_no_body_of_one_function_is_tried_alone(self) -> None:
        self.edit("a", "const MOST: u8 = 9;", "const MOST: u8 = 8; // wrong")
        self.edit("b", "pub fn first(cells: &[Cell]) -> u8", "pub fn first(cells: &[Cell]) -> u8 // wrong")
        self.write("tools/edits/fr_one/c.edit", "file: src/inner.rt\nold: // place\nnew: // wrong\nold: // from\nnew: // wrong\n")
        status, told, calls = self.tried("fr_one")
        self.assertEqual((status, calls), (0, ["fr_one check", calls[-1]]), told)
        for name in "abc":
            self.assertIn(f"must-fail fr_one/{name}.edit: refused", told)

    def test_a_crate_that_is_not_proved_is_told(self) -> None:
        self.edit("a", "// place", "// wrong")
        self.edit("b", "// from", "// wrong")
        self.write("crates/fr_one/src/inner.rt", BODIES.replace("const MOST: u8 = 9;", "const MOST: u8 = 9; // wrong"))
        status, told, calls = self.tried("fr_one")
        self.assertEqual((status, calls), (1, ["fr_one check"]), told)
        self.assertIn("fr_one: it is not proved as it stands, so none of its edits was tried", told)

    def test_alone(self) -> None:
        self.edit("a", "// place", "// wrong")
        self.edit("b", "// from", "// wrong")
        status, told, calls = self.tried("--alone", "fr_one")
        self.assertEqual((status, len(calls), calls[0].split()[1:]), (0, 1, ["must-fail", "fr_one"]), told)


if __name__ == "__main__":
    unittest.main()
