"""Refusals explained: every reason word, every constraint, missing names, checks and gaps, with their numbers."""
import os
import re
import unittest

from bench import REPOSITORY, Bench
from flexlab.pages import explain

OFFSET = os.path.join(REPOSITORY, "examples", "faults")


def load(name):
    with open(os.path.join(OFFSET, name), encoding="utf-8") as file:
        return file.read()


PARAMS, DRIFT, SCRIPT = load("params.csv"), load("drift.csv"), load("script.csv")

# file, what is changed, into what, the line of flexray, what the explanation has to say
CASES = (
    ("params", "param,gdNIT,800,,", "param;gdNIT;800;;", "params: record 6: Shape", "this line has semicolons"),
    ("params", "param,gdNIT,800,,", "# rest", "params: record 6: Shape", "there are no comments"),
    ("params", "param,gdNIT,800,,", "param,gdNIT,800", "params: record 6: Shape", "2 more belong to it"),
    ("params", "param,gdNIT,800,,", "param,gdNIT,800,, ", "params: record 6: Shape", "a blank is a text too"),
    ("params", "param,gdNIT,800,,", "parm,gdNIT,800,,", "params: record 6: UnknownName", "did you mean `param`?"),
    ("params", "param,gdNIT,800,,", "param,gdNit,800,,", "params: record 6: UnknownName", "did you mean `gdNIT`?"),
    ("params", "param,gdNIT,800,,", "param,gdNIT,8OO,,", "params: record 6: NotNumber", 'field 3 (VALUE) is "8OO"'),
    ("params", "param,gdNIT,800,,", "param,gdNIT, 800,,", "params: record 6: NotNumber", "a blank stands beside "
                                                                                         "the number"),
    ("params", "param,gdNIT,800,,", "param,gdNIT,8.5,,", "params: record 6: NotNumber", "numbers are whole"),
    ("params", "param,gdNIT,800,,", "param,gdNIT,16000,,", "params: record 6: OutOfRange",
     'field 3 (gdNIT) is "16000", which is not from 1 to 15999 macroticks'),
    ("params", "param,gdNIT,800,,", "param,gMacroPerCycle,800,,", "params: record 6: Repeated",
     "line 1 is of the same: param,gMacroPerCycle,5000,,"),
    ("params", "node,4,4,AB,0", "node,4,1024,AB,0", "params: record 23: OutOfRange", "field 3 (KEY)"),
    ("params", "node,4,4,AB,0", "node,4,4,BA,0", "params: record 23: BadChannel", "it has to be A, B or AB"),
    ("params", "node,4,4,AB,0", "node,4,,AB,1", "params: record 23: Role", "a coldstart node needs a key slot"),
    ("params", "node,4,4,AB,0", "node,3,4,AB,0", "params: record 23: Repeated", "line 22 is of the same: "
                                                                                "node,3,3,AB,0"),
    ("params", "slot,6,2,0,2", "slot,6,9,0,2", "params: record 25: UnknownNode", "no record before it is that node's"),
    ("params", "slot,6,2,0,2", "slot,6,2,0,3", "params: record 25: Role", "REPETITION is 3"),
    ("params", "slot,6,2,0,2", "slot,6,2,2,2", "params: record 25: Role", "BASE is 2, and it has to be below"),
    ("params", "param,gdNIT,800,,\n", "", "params: missing gdNIT", "from 1 to 15999 macroticks: the rest of the cycle"),
    ("params", "gMacroPerCycle,5000", "gMacroPerCycle,5001", "params: constraint 1",
     "5001 is not 140 * 30 + 800 = 5000: 1 macrotick too many"),
    ("params", "gdActionPointOffset,7", "gdActionPointOffset,30", "params: constraint 2", "30 is not below 30"),
    ("params", "gOffsetCorrectionStart,4900", "gOffsetCorrectionStart,4200", "params: constraint 3",
     "gOffsetCorrectionStart, 4200, is not above 4200 and below 5000"),
    ("params", "pOffsetCorrectionOut,254", "pOffsetCorrectionOut,16000", "params: constraint 4",
     "(200000 - 81) * (5000 - 4900) = 19991900 is less than 5000 * (5000 - 4900 + 16000 + 1) = 80505000"),
    ("params", "pOffsetCorrectionOut,254", "pOffsetCorrectionOut,16000", "params: constraint 4",
     "gOffsetCorrectionStart = 4589 or earlier is one way, pOffsetCorrectionOut = 3897 or lower is another"),
    ("params", "pMicroPerCycle,200000", "pMicroPerCycle,5080", "params: constraint 4",
     "no gOffsetCorrectionStart behind the static slots and no pOffsetCorrectionOut helps"),
    ("params", "Passive,2", "Passive,5", "params: constraint 5", "5 is above 4"),
    ("params", "node,5,5,AB,0", "node,5,141,AB,0", "params: constraint 7",
     "line 24: node 5 has key slot 141, and there are 140 static slots"),
    ("params", "node,5,5,AB,0", "node,5,4,AB,0", "params: constraint 7", "line 24: node 5 has key slot 4, as node "
                                                                         "4 has"),
    ("params", "slot,6,2,0,2", "slot,141,2,0,2", "params: constraint 8", "line 25: slot 141 of node 2 is none of "
                                                                         "the 140"),
    ("params", "slot,6,2,0,2", "slot,5,2,0,2", "params: constraint 8", "line 25: slot 5 of node 2 is the key slot "
                                                                       "of node 5"),
    ("params", "param,pDelayCompensation,0,,", "param,pDelayCompensationA,0,,", "params: record 16: UnknownName",
     "which is no parameter of a file of version 1; did you mean `pDelayCompensation`?"),
    ("params", "param,gMacroPerCycle,5000,,", "version,2,,,\nparam,gMacroPerCycle,5000,,",
     "params: record 17: UnknownName", "which is no parameter of a file of version 2"),
    ("params", "param,gMacroPerCycle,5000,,", "version,3,,,\nparam,gMacroPerCycle,5000,,",
     "params: record 1: OutOfRange", "field 2 (VERSION) is \"3\", which is not from 2 to 2"),
    ("params", "slot,6,2,0,2", "version,2,,,", "params: record 25: Role", "a `version` record is the first of its "
                                                                         "file"),
    ("drift", "doubles,2,,,,\n", "", "drift: missing doubles", "`doubles,COUNT,,,,`"),
    ("drift", "start,3,2500000,0,,", "start,9,2500000,0,,", "drift: record 2: UnknownNode",
     'field 2 (NODE) is "9", and the parameters have the nodes 1, 2, 3, 4, 5'),
    ("drift", "start,3,2500000,0,,", "start,3,2500000,82,,", "drift: record 2: OutOfRange",
     'field 4 (RATE) is "82", which is not from -81 to 81 microticks'),
    ("drift", "start,3,2500000,0,,", "length,3,0,150,,", "drift: record 2: OutOfRange",
     "an oscillator that is 150 ppm fast has 999850"),
    ("drift", "delay,1,3,B,0,500000", "delay,1,1,B,0,500000", "drift: record 3: Role", "SENDER and RECEIVER are "
                                                                                       "both node 1"),
    ("drift", "delay,1,3,B,0,500000", "delay,1,3,C,0,500000", "drift: record 3: BadChannel", "it has to be A or B"),
    ("drift", "delay,1,3,B,0,500000", "doubles,4,,,,", "drift: record 3: Repeated", "line 1 is of the same"),
    ("script", "lose,2,2,4,A,,", "lose,2,5,4,A,,", "script: record 7: Role", "node 5, is arbitrary (line 1), and "
                                                                             "says only"),
    ("script", "lose,2,2,4,A,,", "lose,2,2,5,A,,", "script: record 7: Role", "the receiver, node 5, is arbitrary"),
    ("script", "lose,2,2,4,A,,", "say,2,2,4,A,0,", "script: record 7: Role", "`arbitrary,2,,,,,` has to come before"),
    ("script", "lose,2,2,4,A,,", "arbitrary,4,,,,,", "script: record 7: Role", "line 2 is of another kind"),
    ("script", "lose,2,2,4,A,,", "say,2,5,4,A,1000000000001,", "script: record 7: OutOfRange",
     'field 6 (SHIFT) is "1000000000001", which is not from -1000000000000 to 1000000000000 ticks'),
    ("script", "lose,2,2,4,A,,", "flip,2,2,4,A,96,", "script: record 7: OutOfRange",
     'field 6 (BIT) is "96", which is not from 0 to 95 bits'),
    ("script", "C0FFEE", "C0FFEZ", "script: record 5: NotHex", '"Z" at place 6 is no hexadecimal digit'),
    ("script", "C0FFEE", "C0FFE", "script: record 5: NotHex", "5 digits, and two make a byte"),
    ("script", "lose,2,2,4,A,,", "flip,1,1,2,B,7,", "script: record 7: Repeated", "line 6 is of the same: "
                                                                                  "flip,1,1,2,B,40,"),
    ("script", "lose,2,2,4,A,,", "join,1,4,2,,, ", "script: record 7: Shape", "a blank is a text too"),
    ("script", "lose,2,2,4,A,,", "join,1,4,2,,", "script: record 7: Shape", "1 more belong to it"),
    ("script", "lose,2,2,4,A,,", "join,1,4,x,,,", "script: record 7: NotNumber", 'field 4 (REFERENCE) is "x"'),
    ("script", "lose,2,2,4,A,,", "join,100000,4,2,,,", "script: record 7: OutOfRange",
     'field 2 (DOUBLE) is "100000", which is not from 0 to 99999 double cycles'),
    ("script", "lose,2,2,4,A,,", "join,1,4,9,,,", "script: record 7: UnknownNode", 'field 4 (REFERENCE) is "9"'),
    ("script", "lose,2,2,4,A,,", "join,1,4,4,,,", "script: record 7: Role", "NODE and REFERENCE are both node 4"),
    ("script", "lose,2,2,4,A,,", "join,1,4,5,,,", "script: record 7: Role", "REFERENCE, node 5, is arbitrary (line 1)"),
    ("script", "lose,2,2,4,A,,", "join,1,5,4,,,", "script: record 7: Role", "NODE, node 5, is arbitrary (line 1)"),
    ("script", "lose,2,2,4,A,,", "join,1,4,2,,,\njoin,2,3,4,,,", "script: record 8: Role",
     "REFERENCE, node 4, joins itself (line 7)"),
    ("script", "lose,2,2,4,A,,", "join,1,4,2,,,\njoin,2,2,1,,,", "script: record 8: Role",
     "NODE, node 2, is a reference (line 7)"),
    ("script", "lose,2,2,4,A,,", "join,1,4,2,,,\njoin,2,4,1,,,", "script: record 8: Repeated",
     "line 7 is of the same: join,1,4,2,,,"),
)


class Explain(Bench):
    def files(self, params=PARAMS, drift=DRIFT, script=SCRIPT):
        self.write("params.csv", params)
        self.write("drift.csv", drift)
        self.write("script.csv", script)
        return "run", "params.csv", "drift.csv", "script.csv"

    def explained(self, line, words):
        """What `flexlab explain` prints behind the line, without a process of its own for each case."""
        paths = [self.path(word) if word.endswith(".csv") else word for word in words]
        return "\n".join(explain.explain_line(line, paths))

    def test_it_calls_flexray_itself(self):
        words = self.files(params=PARAMS.replace("gdNIT,800", "gdNIT,0"))
        out = self.flexlab("explain", *words, status=1)[0].splitlines()
        self.assertEqual(out[:2], ["params: record 6: OutOfRange", "params.csv:6: param,gdNIT,0,,"])

    def test_every_case(self):
        seen = set()
        for role, old, new, line, told in CASES:
            with self.subTest(new=new):
                texts = {"params": PARAMS, "drift": DRIFT, "script": SCRIPT}
                self.assertIn(old, texts[role])
                texts[role] = texts[role].replace(old, new, 1)
                words = self.files(**texts)
                self.assertEqual(self.flexray(*words)[2], line)
                out = self.explained(line, words)
                self.assertIn(told, out)
                if "record" in line:
                    text = texts[role].splitlines()[int(re.search(r"\d+", line)[0]) - 1]
                    self.assertIn(f"{role}.csv:{re.search(r'[0-9]+', line)[0]}: {text}", out)
                seen.add(line.split()[-1] if "record" in line else line)
        for reason in ("Shape", "UnknownName", "NotNumber", "OutOfRange", "UnknownNode", "BadChannel", "Role", "NotHex",
                       "Repeated", *(f"params: constraint {number}" for number in (1, 2, 3, 4, 5, 7, 8))):
            self.assertIn(reason, seen)

    def test_the_way_to_sync(self):
        with open(os.path.join(REPOSITORY, "examples", "reference", "params.csv"), encoding="ascii") as file:
            self.write("params.csv", file.read())
        out = self.flexlab("explain", "settle", "params.csv", "190438201", "30005200")[0]
        self.assertIn("it asks: pOffsetCorrectionOut * Qm >= peak + E1 + Qp", out)
        self.assertIn("give a lower START or RATE", out)
        self.assertIn("C3 asks for 255 at least", out)
        self.write("params.csv", re.sub("pOffsetCorrectionOut,254", "pOffsetCorrectionOut,255", self.read("params.csv")))
        self.assertIn("nothing in its answer needs",
                      self.flexlab("explain", "settle", "params.csv", "190438201", "30005200")[0])

    def test_a_line_without_the_files(self):
        for line in ("trace: record 40 deviation 99 expected -6 to 4", "trace: not covered length 1 0 999000",
                     "params: record 6: Shape", "params: constraint 1", "drift: missing doubles", "script: too long"):
            with self.subTest(line=line):
                words = "check" if line.startswith("trace") else "run"
                err = self.flexlab("explain", "--line", line, words, status=2)[1]
                self.assertRegex(err, f"the words do not name the [a-z]+ file: .* flexray {words} PARAMS")
        self.files()
        self.write("trace.csv", "run,1,,,,,,\n")
        out = self.flexlab("explain", "--line", "trace: record 40 deviation 99 expected -6 to 4", "check", "params.csv",
                           "trace.csv", status=1)[0]
        self.assertIn("it has no record 40", out)
        self.flexlab("explain", "--line", "trace: record 1 start 1 expected 2", "check", "params.csv", "none.csv", status=3)

    def test_which_word_is_wrong(self):
        self.files()
        for words, told in ((("settle", "params.csv", "2us", "0"), "2us is not a whole number from 0 to 1000000000000, for "
                                                                   "START"),
                            (("nm", "13", "x"), "13 is not a whole number from 1 to 12, for WIDTH: bytes"),
                            (("frame", "C", "x"), "C is not A or B, the channel")):
            out = self.flexlab("explain", *words, status=1)[0]
            self.assertIn(told, out)
            self.assertIn(f"and behind {words[0]} {len(words) - 1} were given", out)

    def test_files_of_another_tool(self):
        self.files()
        self.write("a.toml", "[run]\n")
        out = self.flexlab("explain", "run", "a.toml", "drift.csv", "script.csv", status=1)[0]
        self.assertIn("`flexlab run ", out)
        with open(self.path("a.pcap"), "wb") as file:
            file.write(b"\xd4\xc3\xb2\xa1" + bytes(20))
        self.assertIn("a.pcap is a pcap file", self.flexlab("explain", "capture", "A", "a.pcap")[0])

    def test_several_constraints_are_told_at_once(self):
        words = self.files(params=PARAMS.replace("Passive,2", "Passive,5").replace("gdNIT,800", "gdNIT,801"))
        out = self.flexlab("explain", *words, status=1)[0]
        self.assertIn("constraint 5 does not hold either:", out)
        self.assertIn("5 is above 4", out)

    def test_link(self):
        words = self.files(params=PARAMS.replace("node,3,3,AB,0", "node,3,3,A,0"), script="")
        out = self.flexlab("explain", *words, status=1)[0]
        self.assertIn("drift: record 3: Link", out)
        self.assertIn("the channel is B, and the receiver, node 3, has A (line 22 of the parameters)", out)

    def test_references(self):
        for node, line, told in (("node,4,,AB,0", "Role", "REFERENCE, node 4, has no key slot (line 23"),
                                 ("node,4,4,B,0", "Link", "node 3 has A (line 22 of the parameters), and node 4 "
                                                          "has B")):
            with self.subTest(node=node):
                params = PARAMS.replace("node,4,4,AB,0", node).replace("node,3,3,AB,0", "node,3,3,A,0")
                words = self.files(params=params, drift="doubles,4,,,,\n", script="join,0,3,4,,,\n")
                self.assertEqual(self.flexray(*words)[2], f"script: record 1: {line}")
                self.assertIn(told, self.explained(f"script: record 1: {line}", words))

    def test_constraint_6(self):
        params = re.sub(r"^node,.*\n|^slot,.*\n", "", PARAMS, flags=re.M) + "node,1,,A,0\n"
        self.files(params=params)
        self.assertIn("0 have one: none", self.flexlab("explain", "bound", "params.csv", status=1)[0])
        many = PARAMS.replace("slot,6,2,0,2\n", "") + "".join(f"node,{at},{at},AB,0\n" for at in range(6, 17))
        self.files(params=many)
        self.assertIn("16 have one", self.flexlab("explain", "bound", "params.csv", status=1)[0])

    def test_lines_are_those_of_the_editor(self):
        words = self.files(params="\n\n" + PARAMS.replace("gdNIT,800", "gdNIT,0"))
        out = self.flexlab("explain", *words, status=1)[0]
        self.assertIn("params: record 6: OutOfRange", out)
        self.assertIn("params.csv:8: param,gdNIT,0,,", out)
        words = self.files(drift=DRIFT.replace("\n", "\r\n"), script=SCRIPT.replace("\n", "\r") + "\r\rlose,x,2,4,A,,")
        out = self.flexlab("explain", *words, status=1)[0]
        self.assertIn("script: record 8: NotNumber", out)
        self.assertIn('script.csv:10: lose,x,2,4,A,,', out)

    def test_files_in_the_wrong_order(self):
        self.files()
        out = self.flexlab("explain", "run", "drift.csv", "params.csv", "script.csv", status=1)[0]
        self.assertIn("it looks like a record of a drift file", out)

    def test_power_and_vectors(self):
        self.files()
        for text, line, told in (("on,1,5\noff,1,5\n", "power: record 2: Role", "times ascend"),
                                 ("off,1,5\n", "power: record 1: Role", "the first record of node 1 has to be `on`"),
                                 ("on,3,5\n", "power: record 1: Role", "node 3 is no coldstart node (line 22"),
                                 ("on,1,5,\n", "power: record 1: Shape", "the record has 4 fields"),
                                 ("on,1,5\n", "power: missing cycles", "`cycles,COUNT,`")):
            with self.subTest(text=text):
                self.write("power.csv", text)
                out = self.flexlab("explain", "cold", "params.csv", "power.csv", status=1)[0]
                self.assertEqual(out.splitlines()[0], line)
                self.assertIn(told, out)
        self.write("vectors.csv", "200000,A,00\n")
        out = self.flexlab("explain", "nm", "2", "vectors.csv", status=1)[0]
        self.assertIn('field 1 (CYCLE) is "200000", which is not from 0 to 199999', out)

    def test_a_log(self):
        self.files()
        head = "unit,40000,,,\ndrift,50,,,\ndelay,,,0,5\n"
        for text, line, told in (("unit,0,,,\n", "log: record 1: OutOfRange", "which is not from 1 to 1000000000 ticks"),
                                 ("since,3,,,\n", "log: record 1: Role", "CYCLE is 3, and it has to be even"),
                                 ("flutter,,,,\n", "log: record 1: NotNumber", 'field 2 (TICKS) is ""'),
                                 ("lost,15,,,\n", "log: record 1: OutOfRange", 'field 2 (COUNT) is "15", which is not from 0 to 14'),
                                 ("lost,1,,,\nlost,1,,,\n", "log: record 2: Repeated", "line 1 is of the same"),
                                 ("delay,,A,0,5\n", "log: record 1: Shape", 'field 3 (to be left empty) is "A"'),
                                 ("delay,1,,0,5\n", "log: record 1: Shape", "NODE is there and CHANNEL is empty"),
                                 ("delay,1,A,6,5\n", "log: record 1: Role", "LOW is 6, above HIGH, 5"),
                                 ("delay,9,A,0,5\n", "log: record 1: UnknownNode", "the parameters have the nodes 1, 2"),
                                 ("delay,,,0,5\ndelay,,,0,6\n", "log: record 2: Repeated", "line 1 is of the same"),
                                 ("frame,1,A,00,\n", "log: record 1: Role", "`unit,TICKS,,,` has to come before"),
                                 (head + "head,5,A,00,\nframe,4,B,00,\n", "log: record 5: Role",
                                  "and line 4 has 5: stamps ascend"),
                                 (head + "head,5,A,00,\nwhole,,,,\n", "log: record 5: Role",
                                  "stand before the entries, and line 4"),
                                 (head + "head,900000000000000,A,00,\n", "log: record 4: OutOfRange",
                                  "36000000000000000000 ticks"),
                                 (head + "frame,5,C,00,\n", "log: record 4: BadChannel", "it has to be A or B"),
                                 (head + "frame,5,A,0,\n", "log: record 4: NotHex", "two make a byte"),
                                 (head + "trame,5,A,0,\n", "log: record 4: UnknownName", "did you mean `frame`?"),
                                 ("", "log: missing unit", "`unit,TICKS,,,`"),
                                 ("unit,1,,,\n", "log: missing drift", "`drift,PPM,,,`"),
                                 ("unit,1,,,\ndrift,1,,,\n", "log: missing delay",
                                  "no record `delay,,,LOW,HIGH` for all others")):
            with self.subTest(text=text):
                self.write("log.csv", text)
                out = self.flexlab("explain", "observe", "params.csv", "log.csv", status=1)[0]
                self.assertEqual(out.splitlines()[0], line)
                self.assertIn(told, out)

    def test_a_capture_in_place_of_a_log(self):
        self.files()
        self.write("bus.asc", "date Tue\n0.5 Fr RMSG\n")
        out = self.one_line(self.flexlab("explain", "observe", "params.csv", "bus.asc", status=1)[0])
        self.assertIn("bus.asc: this is a capture, and flexray reads logs: `flexlab log bus.asc CLUSTER.toml` writes one", out)

    def test_checks_and_gaps_of_an_answer(self):
        for old, new, told in (
                ("pClusterDriftDamping,4", "pClusterDriftDamping,2", "C1 asks for 4 at least"),
                ("pRateCorrectionOut,81", "pRateCorrectionOut,80", "pRateCorrectionOut: it is 80, and with all "
                                                                   "else as it is C2 "
                                                                  "asks for 81 at least"),
                ("pOffsetCorrectionOut,254", "pOffsetCorrectionOut,253", "C3 asks for 254 at least"),
                ("gdActionPointOffset,7", "gdActionPointOffset,6", "C4 asks for 7 at least"),
                ("gdActionPointOffset,7", "gdActionPointOffset,24", "gdStaticSlot: it is 30, and with all else as "
                                                                    "it is C5 asks for 31 at least")):
            with self.subTest(new=new):
                self.assertIn(old, PARAMS)
                words = self.files(params=PARAMS.replace(old, new))
                out = self.flexlab("explain", "bound", "params.csv")[0]
                self.assertIn(told, out)
                self.assertIn("Qm = 1000000 - xRateBound", out)
                self.assertIn("covered no check", self.flexlab("explain", *words)[0])
        self.files()
        joining = self.flexlab("explain", "bound", "params.csv", "join")[0]
        for told in ("C6 asks for 84 at least", "C7 asks for 454 at least", "C8 asks for 12 at least"):
            self.assertIn(told, joining)
        joining = self.flexlab("explain", *self.files(script=SCRIPT + "join,0,4,1,,,\n"))[0]
        for told in ("covered no check 6", "C6 asks for 84 at least"):
            self.assertIn(told, joining)
        words = self.files(script=SCRIPT.replace("lose,2,2,4,A,,", "lose,2,2,4,A,,\nlose,2,2,4,B,,"))
        self.assertIn("no channel carries the frames of node 2 to node 4", self.flexlab("explain", *words)[0])
        self.assertIn("nothing in its answer needs", self.flexlab("explain", *self.files())[0])

    def test_gaps_name_nodes_and_times(self):
        """Files for flexray have neither names of nodes nor nanoseconds."""
        for drift, *told in (
                ("length,1,2,1000900,,\n", "covered no length 1 2 1000900",
                 "in cycle 2 the oscillator of node 1 is off by -899.19 ppm", "turn limits.oscillator_ppm"),
                ("length,1,2,1000150,,\nlength,1,3,1000120,,\n", "covered no change 1 2 150",
                 "in cycle 2 the microtick of node 1 changes by 150 ticks (about ppm)", "turn limits.change_ppm_per_cycle"),
                ("delay,2,4,A,1,9000000\n", "covered no delay 2 4 A 1 9000000", "at a microtick of 25 ns:",
                 "in cycle 1 frames of node 2 travel 0.225 us to node 4 on channel A",
                 "turn limits.delay_error_us, or pDelayCompensation")):
            with self.subTest(drift=drift):
                out = self.flexlab("explain", *self.files(drift=DRIFT + drift))[0]
                for part in told:
                    self.assertIn(part, out)

    def test_gaps_by_another_file_than_flexray_read(self):
        self.files(params="param,gdNIT,800,,\n")
        self.write("trace.csv", "run,1,,,,,,\n")
        for gap, name in (("length 1 2 1000900", "xRateBound"), ("change 1 2 900", "xChangeBound"), ("check 1 5 6", "xRateBound"),
                          ("delay 1 2 A 2 9000000", "pDelayCompensationA")):
            with self.subTest(gap=gap):
                err = self.flexlab("explain", "--line", f"trace: not covered {gap}", "check", "params.csv", "trace.csv", status=3)[1]
                self.assertIn(f"params.csv: it has no record of {name}; is it another file than flexray read?", err)

    def test_a_trace_that_breaks_a_law(self):
        self.files()
        self.write("trace.csv", self.flexray("trace", "params.csv", "drift.csv", "script.csv")[1])
        for line, told in (("trace: record 3 start 5 expected 0", "the record has 5, and the records before it ask "
                                                                  "for 0"),
                           ("trace: record 4 deviation 9 expected -1 to 1", "ask for -1 to 1"),
                           ("trace: record 4 silent halt", "a node in state halt"),
                           ("trace: incomplete 7", "after its 7 records the trace is not whole"),
                           ("trace: record 4: Role", "the record may not come next"),
                           ("trace: not covered link 1 2 3", "no common channel has `dev` rows of node 2 about node 1"),
                           ("trace: not covered length 1 4 1000300", "node 1 is off by -299.91 ppm")):
            with self.subTest(line=line):
                out = self.flexlab("explain", "--line", line, "check", "params.csv", "trace.csv", status=1)[0]
                self.assertIn(told, out)
                if "record " in line:
                    number = int(line.split()[2].rstrip(":"))
                    self.assertIn(f"trace.csv:{number}: {self.read('trace.csv').splitlines()[number - 1]}", out)

    def test_traces_of_clusters_that_nodes_join(self):
        def line(number, text=None):
            lines = trace.splitlines()
            lines[number - 1:number] = [text] if text is not None else []
            return "".join(f"{one}\n" for one in lines)

        with open(os.path.join(REPOSITORY, "examples", "joins", "trace", "printed.txt"), encoding="utf-8") as file:
            trace = file.read()
        with open(os.path.join(REPOSITORY, "examples", "joins", "params.csv"), encoding="utf-8") as file:
            params = file.read()
        words = "check", "params.csv", "trace.csv"
        for changed, made, told, says in (
                (params, line(2, "join,3,1,1,,,1,"), "record 2: Shape", "to be left empty"),
                (params, line(2, "join,3,1,,,,,"), "record 2: NotNumber", 'field 4 (DOUBLE) is ""'),
                (params, line(2, "join,3,1,100000,,,,"), "record 2: OutOfRange", "is not from 0 to 99999 double "
                                                                                 "cycles"),
                (params, line(2, "join,3,4,1,,,,"), "record 2: UnknownNode", 'field 3 (REFERENCE) is "4"'),
                (params, line(2, "join,3,3,1,,,,"), "record 2: Role", "NODE and REFERENCE are both node 3"),
                (params, line(2, "join,3,1,1,,,,\njoin,3,1,1,,,,"), "record 3: Role", "line 2 has node 3"),
                (params, line(2, "join,2,1,1,,,,\njoin,3,2,1,,,,"), "record 3: Role", "node 2, joins itself (line 2)"),
                (params, line(2, "join,3,1,2,,,,"), "record 41: Role", "it has cycle rows from cycle 10 on, or none"),
                (params.replace("node,1,1,A,1", "node,1,1,B,1"), trace, "record 2: Link", "no channel in common"),
                (params, line(37, "dev,8,1,3,A,9,,"), "record 37 deviation 9 expected -1 to 0", "the record has 9")):
            with self.subTest(told=told, says=says):
                self.write("params.csv", changed)
                self.write("trace.csv", made)
                status, _, err = self.flexray(*words)
                self.assertEqual((status, err), (5 if ": " in told else 1, f"trace: {told}"))
                self.assertIn(says, self.explained(err, words))
        with open(os.path.join(REPOSITORY, "examples", "joins", "apart", "trace.csv"), encoding="utf-8") as file:
            late = file.read()
        for made, told, says in (
                (late, "record 41 apart 4", "node 3 has its first row here, and in double cycle 4 (cycles 8 and 9)"),
                (line(32, "dev,7,1,2,A,0,,\ndev,7,1,3,A,0,,"), "record 33 apart 3", "slot 3 has no row in cycle 7")):
            with self.subTest(told=told):
                self.write("params.csv", params)
                self.write("trace.csv", made)
                self.assertEqual(self.flexray(*words), (1, "", f"trace: {told}"))
                self.assertIn(says, self.explained(f"trace: {told}", words))

    def test_other_lines(self):
        self.files()
        self.assertIn("none.csv (params): No such file", self.flexlab("explain", "bound", "none.csv", status=1)[0])
        self.assertIn("flexray run PARAMS DRIFT SCRIPT", self.flexlab("explain", "run", "params.csv", status=1)[0])
        self.assertIn("there are these requests", self.flexlab("explain", "simulate", status=1)[0])
        with open(self.path("frame.bin"), "wb") as file:
            file.write(bytes.fromhex("2005 02B389 1234".replace(" ", "")))
        self.assertIn("a frame has at least 8 bytes", self.flexlab(
            "explain", "frame", "A", "frame.bin", status=1)[0])
        self.assertIn("a frame without its frame CRC", self.flexlab(
            "explain", "--line", "frame: length stated 24 given 21", "frame", "A", "frame.bin", status=1)[0])


if __name__ == "__main__":
    unittest.main()
