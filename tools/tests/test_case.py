"""`flexlab case`: the page for a safety case has the program's numbers, rounded to the safe side, and escapes whatever a file says."""
import hashlib
import html.parser
import json
import os
import re
import unittest
from fractions import Fraction

from bench import FLEXRAY, REPOSITORY, Bench, edited

from flexlab.pages.case import LAWS

SHARP = os.path.join(REPOSITORY, "examples", "sharp", "sharp.toml")


class Tags(html.parser.HTMLParser):
    """The tags of a page, and its text."""

    def __init__(self, page):
        super().__init__()
        self.tags, self.text, self.open = set(), "", []
        self.feed(page)
        self.close()

    def handle_starttag(self, tag, attrs):
        self.tags.add(tag)
        if tag not in ("meta", "br"):
            self.open.append(tag)

    def handle_endtag(self, tag):
        assert self.open.pop() == tag, tag

    def handle_data(self, data):
        self.text += data


class Case(Bench):
    def setUp(self):
        super().setUp()
        with open(SHARP, encoding="utf-8") as file:
            self.sharp = file.read()

    def case(self, *words, text=None, status=0):
        self.write("a.toml", text or self.sharp)
        if os.path.exists(self.path("a.case.html")):
            os.remove(self.path("a.case.html"))
        out, err = self.flexlab("case", "a.toml", *words, status=status)
        self.assertEqual(os.path.exists(self.path("a.case.html")), status == 0)
        return out if status == 0 else err

    def test_the_numbers_are_the_program_s(self):
        for arbitrary, kind in ((0, "alone"), (1, "beside"), (2, "beside")):
            found = json.loads(self.case("--flutter-ns", "5", "--arbitrary", str(arbitrary), "--json"))
            self.flexlab("build", "a.toml", "-o", ".")
            status, told, _ = self.flexray("bound", "params.csv", "sharp", "200000")
            self.assertEqual(status, 0)
            precision = int(re.search(rf"(?m)^{kind} precision (\d+)$", told)[1])
            self.assertEqual(found["precision_ticks"], precision)
            exact = Fraction(precision, 1000000) * Fraction(found_microtick(self.sharp)) / 1000
            self.assertGreaterEqual(Fraction(str(found["precision_us"])), exact)
            self.assertLess(Fraction(str(found["precision_us"])), exact + Fraction(1, 1000))
            self.assertIn(f"further apart than {found['precision_us']:.3f} us ({precision} ticks)", found["claim"][0])
            self.assertEqual(found["sha256"]["what `flexray bound params.csv sharp 200000` printed"],
                             hashlib.sha256(told.encode()).hexdigest())
            self.assertEqual([(one["check"], one["left"], one["right"]) for one in found["checks"]],
                             [(f"C{at}", int(left), int(right)) for at, left, right in re.findall(
                                 rf"(?m)^(?:{kind} )?C(\d) holds (-?\d+) (-?\d+)$", told)])

    def test_the_page(self):
        self.case("--flutter-ns", "5", "--arbitrary", "1")
        page = self.read("a.case.html")
        found = Tags(page)
        self.assertEqual(found.open, [])
        self.assertFalse(found.tags & {"script", "img", "link", "iframe", "a"})
        for title in ("1. Claim", "2. Premises, and who has to see to each", "3. Evidence: what the claim rests on", "6. Not covered"):
            self.assertIn(title, found.text)
        self.assertIn("@media print", page)
        self.assertIn("Beside the correct nodes stands at most one arbitrary sync node, which may say anything", found.text)
        for number in range(1, 10):
            self.assertIn(f"<td>P{number}</td>", page)
        for path in ("a.toml", FLEXRAY):
            with open(os.path.join(self.room, path), "rb") as file:
                self.assertIn(hashlib.sha256(file.read()).hexdigest(), page)
        self.flexlab("build", "a.toml", "-o", ".")
        self.assertIn(hashlib.sha256(self.read("params.csv").encode()).hexdigest(), page)
        # What is asked of oscillators is not less than the proof asks: 100 ticks too short are 99.99 ppm.
        self.assertIn("99.990 ppm (xRateBound, 100 ticks)", found.text)
        self.assertIn("File exists", self.flexlab("case", "a.toml", "--flutter-ns", "5", status=3)[1])

    def test_whatever_a_file_says_is_escaped(self):
        name = "<script>alert(1)</script>&\\\"'"
        self.case("--flutter-ns", "5", text=self.sharp.replace("id = 1\n", f'id = 1\nname = "{name}"\n', 1))
        page = self.read("a.case.html")
        self.assertNotIn("<script", page)
        self.assertIn("&lt;script&gt;alert(1)&lt;/script&gt;&amp;&quot;&#x27;", page)
        self.assertIn("<script>alert(1)</script>&\"'", Tags(page).text)
        self.write("<b>.toml", self.sharp)
        self.flexlab("case", "<b>.toml", "--flutter-ns", "5", "-o", "b.html")
        self.assertNotIn("<b>", self.read("b.html"))

    def test_nothing_is_claimed_where_a_check_fails(self):
        err = self.case("--flutter-ns", "5", text=edited(("pOffsetCorrectionOut = 320", "pOffsetCorrectionOut = 20")), status=1)
        self.assertIn("nothing can be claimed:\ncheck C3 fails", err)
        err = self.case("--flutter-ns", "5", text=edited(("gdNIT = 2000", "gdNIT = 2001")), status=1)
        self.assertIn("flexray refuses the parameters", err)
        # Two arbitrary nodes ask for six correct ones: the example has five sync nodes.
        self.assertIn("nothing is proved beside 2 arbitrary nodes of 5 sync nodes", self.case("--flutter-ns", "5", "--arbitrary", "2",
                                                                                              text=edited(), status=1))
        # A node that joins outweighs nobody.
        joined = edited() + "\n[[join]]\nnode = 3\nreference = 1\ndouble_cycle = 20\n[[join]]\nnode = 4\nreference = 1\ndouble_cycle = 20\n"
        self.assertIn("beside 1 arbitrary nodes of 3 sync nodes that do not join", self.case("--flutter-ns", "5", text=joined, status=1))

    def test_a_claim_for_some_time(self):
        found = json.loads(self.case("--flutter-ns", "5", "--json", text=self.sharp.replace("pClusterDriftDamping = "
                                                                                            "1", "pClusterDriftDamping = 0", 1)
                                     if "pClusterDriftDamping = 1" in self.sharp else edited(("pClusterDriftDamping = "
                                                                                              "5", "pClusterDriftDamping = 1"))))
        self.assertGreater(found["lasts_double_cycles"], 0)
        self.assertIn(f"for the {found['lasts_double_cycles']} double cycles from there on (", found["claim"][0])
        found = json.loads(self.case("--flutter-ns", "5", "--json", text=edited()))
        self.assertIsNone(found["lasts_double_cycles"])
        self.assertIn("to the end of the run, of up to 200,000 cycles", found["claim"][0])

    def test_premises_that_the_file_s_own_run_breaks_are_told(self):
        self.assertEqual(json.loads(self.case("--flutter-ns", "5", "--json"))["broken_by_the_file"], [])
        self.assertNotIn("does not keep them", self.read("a.case.html"))
        breaking = {"in cycle 0 the oscillator of node": self.sharp.replace("ppm = 95\n", "ppm = 950\n", 1),
                    "in double cycle 10 no channel carries the frames of node 1 to node 2":
                        self.sharp + '\n[[lose]]\nfrom = 1\nto = 2\ncycles = "20-21"\n'}
        for told, text in breaking.items():
            found = json.loads(self.case("--flutter-ns", "5", "--json", text=text))
            self.assertEqual([line.startswith(told) for line in found["broken_by_the_file"]], [True], found["broken_by_the_file"])
            self.assertIn(found["broken_by_the_file"][0], Tags(self.read("a.case.html")).text)
            os.remove(self.path("a.case.html"))
            self.assertIn(f"keeps not all premises: {told}", self.flexlab("case", "a.toml", "--flutter-ns", "5")[1])

    def test_words(self):
        self.assertIn("--flutter-ns", self.case(status=2))
        self.assertIn("a number of nanoseconds is wanted", self.case("--flutter-ns", "1e9", status=2))
        self.assertIn("20 microticks, is taken", self.case("--flutter-ns", "999999", status=2))
        self.assertIn("invalid choice", self.case("--flutter-ns", "1", "--arbitrary", "3", status=2))
        self.assertIn("it has 1 arbitrary nodes, more than --arbitrary 0", self.case("--flutter-ns", "1", "--arbitrary", "0", text=edited(),
                                                                                     status=5))
        fluttering = edited() + "\n[[delay]]\nfrom = 1\nto = 2\nfrom_cycle = 11\nmicroticks = 0.4\n"
        self.assertIn("its delays flutter by 2.500 ns, more than --flutter-ns 1", self.case("--flutter-ns", "1", text=fluttering, status=5))

    def test_the_law_and_the_statement_are_there(self):
        for law, place, statement, specs in LAWS.values():
            with open(os.path.join(REPOSITORY, place), encoding="utf-8") as file:
                self.assertRegex(file.read(), rf"pub fn {law}\b")
            with open(os.path.join(REPOSITORY, specs), encoding="utf-8") as file:
                self.assertRegex(file.read(), rf"(?m)^(?:abbrev|record|def)? ?.*\b{statement}\b")
            with open(os.path.join(REPOSITORY, "docs", "STATEMENT.md"), encoding="utf-8") as file:
                self.assertIn(f"`{law}`", file.read())


def found_microtick(text):
    return re.search(r"(?m)^microtick_ns = ([\d.]+)", text)[1]


if __name__ == "__main__":
    unittest.main()
