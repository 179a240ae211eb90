"""`flexlab export`: changed numbers go back into the file, what follows goes with them, and every other byte stays."""
import json
import os
import re
import unittest

import fieldfiles
from bench import Bench, in_process
from test_import import ARXML, FIBEX, KINDS, LIMITS, put, sample

from flexlab.base.files import parameter_lines
from flexlab.toml.cluster import read_cluster

CHANGED = {"pClusterDriftDamping = 1": "pClusterDriftDamping = 2", "pAllowPassiveToActive = 0": "pAllowPassiveToActive = 3"}
# Changes of the ARXML sample from which others follow: its microticks are 125 in a macrotick.
FOLLOWED = {"gMacroPerCycle = 1280": "gMacroPerCycle = 1284", "gdNIT = 92": "gdNIT = 96", "pMicroPerCycle = 160000": "pMicroPerCycle = "
                                                                                                                     "160500",
            "gdActionPointOffset = 4": "gdActionPointOffset = 3", "pDelayCompensationA = 4": "pDelayCompensationA = 6",
            "pAllowHaltDueToClock = 1": "pAllowHaltDueToClock = 0"}
FOLLOWS = {"NETWORK-IDLE-TIME": ("70", "74"), "CYCLE": ("0.002", "0.00200625"), "MACRO-INITIAL-OFFSET-A": ("5", "4"),
           "MACRO-INITIAL-OFFSET-B": ("5", "4"), "MICRO-INITIAL-OFFSET-A": ("29", "27"), "LISTEN-TIMEOUT": ("320962", "321962")}


class Export(Bench):
    def setUp(self):
        super().setUp()
        before = os.getcwd()
        os.chdir(self.room)
        self.addCleanup(os.chdir, before)

    def called(self, *words, status=0):
        found, out, err = in_process(*words)
        self.assertEqual(found, status, err)
        return out if status == 0 else err

    def keep(self, name, data):
        with open(self.path(name), "wb") as file:
            file.write(data if isinstance(data, bytes) else data.encode("utf-8"))

    def bytes_of(self, name):
        with open(self.path(name), "rb") as file:
            return file.read()

    def imported(self, name, text, changes=(), words=()):
        """Imports a file, and writes its TOML file with (old, new) put in."""
        self.keep(name, text)
        told = self.called("import", name, "-o", "-", *LIMITS, *(words or KINDS.get(name, ("--delay-ns", "100-300"))))
        for old, new in changes:
            self.assertRegex(told, rf"(?m)^{re.escape(old)}(?!\w)")
            told = re.sub(rf"(?m)^{re.escape(old)}(?!\w)", new, told)
        self.write("net.toml", told)

    def only_numbers_differ(self, before, after):
        """The lines of both files are the same but for texts between > and <, which are numbers or words of truth; how many."""
        one, two = before.split("\n"), after.split("\n")
        self.assertEqual(len(one), len(two))
        count = 0
        for old, new in zip(one, two):
            self.assertEqual(re.sub(r"(?<=>)\s*(?:[\d.xXA-Fe-]+|true|false)\s*(?=<)", "", old),
                             re.sub(r"(?<=>)\s*(?:[\d.xXA-Fe-]+|true|false)\s*(?=<)", "", new))
            count += sum(first != second for first, second in zip(re.findall(r">([^<]*)<", old), re.findall(r">([^<]*)<", new)))
        return count

    def test_only_changed_numbers_differ(self):
        for name in KINDS:
            with self.subTest(name):
                text = sample(name)
                self.imported(name, text, CHANGED.items())
                told = json.loads(self.called("export", name, "--from", "net.toml", "-o", "new", "--json"))
                after = self.bytes_of("new").decode("utf-8")
                self.assertEqual(self.only_numbers_differ(text, after), len(told["changes"]))
                self.assertEqual({(one["element"], one["old"], one["new"], one["follows"]) for one in told["changes"]},
                                 {("CLUSTER-DRIFT-DAMPING", "1", "2", False), ("ALLOW-PASSIVE-TO-ACTIVE", "0", "3", False)})
                self.assertEqual(len(told["changes"]), 2 * text.count("DECODING-CORRECTION>") // 2)
                self.assertIn("ACCEPTED-STARTUP-RANGE", told["left"][0])
                self.assertEqual(self.bytes_of(name).decode("utf-8"), text)
                wanted = "".join(parameter_lines(read_cluster("net.toml")))
                os.rename("new", name)
                self.write("again.toml", self.called("import", name, "-o", "-", *LIMITS, *KINDS[name]))
                self.assertEqual("".join(parameter_lines(read_cluster("again.toml"))), wanted)

    def test_what_follows_is_changed_with_it(self):
        self.imported("motion-arxml43.arxml", ARXML, FOLLOWED.items())
        page = self.one_line(self.called("export", "motion-arxml43.arxml", "--from", "net.toml"))
        self.assertIn("Written motion-arxml43.new.arxml: all other bytes are those of motion-arxml43.arxml", page)
        after = self.bytes_of("motion-arxml43.new.arxml").decode("utf-8")
        self.only_numbers_differ(ARXML, after)
        for name, (old, new) in FOLLOWS.items():
            self.assertEqual(after.count(f"<{name}>{new}</{name}>"), ARXML.count(f"<{name}>{old}</{name}>"), name)
            self.assertIn(f"{name}: {old} becomes {new}, line", page)
        for name in ("MACROTICK-DURATION", "MICRO-INITIAL-OFFSET-B", "SYMBOL-WINDOW"):
            self.assertEqual(re.findall(rf"<{name}>.*?<", after), re.findall(rf"<{name}>.*?<", ARXML))

    def test_flags_and_blanks_stay_as_the_file_has_them(self):
        self.imported("backbone-fibex41.xml", FIBEX, [("pAllowHaltDueToClock = 0", "pAllowHaltDueToClock = 1"),
                                                      ("pOffsetCorrectionOut = 180", "pOffsetCorrectionOut = 95")])
        self.called("export", "backbone-fibex41.xml", "--from", "net.toml", "-o", "new.xml")
        after = self.bytes_of("new.xml").decode("utf-8")
        self.assertEqual(after.replace("CLOCK>true<", "CLOCK>false<").replace("OUT> 95 <", "OUT> 180 <"), FIBEX)
        self.assertEqual((after.count("CLOCK>true<"), after.count("OUT> 95 <")), (6, 6))

    def test_what_does_not_follow_by_its_formula_is_refused(self):
        self.imported("a.arxml", put(ARXML, ("<CYCLE>0.002<", "<CYCLE>0.00201<")), FOLLOWED.items(), KINDS["motion-arxml43.arxml"])
        err = self.called("export", "a.arxml", "--from", "net.toml", status=5)
        self.assertIn("a.arxml:890: CYCLE, 0.00201: it is not what 160000 microticks come to in the file", err)
        self.assertFalse(os.path.exists("a.new.arxml"))
        page = self.one_line(self.called("export", "a.arxml", "--from", "net.toml", "--anyway"))
        self.assertIn("SEE TO IT line 890: CYCLE, 0.00201", page)
        self.assertIn("<CYCLE>0.00201<", self.bytes_of("a.new.arxml").decode("utf-8"))
        self.imported("b.arxml", put(ARXML, ("OFFSET-A>29<", "OFFSET-A>30<")), [("pDelayCompensationA = 4", "pDelayCompensationA = 6")],
                      KINDS["motion-arxml43.arxml"])
        self.assertIn("MICRO-INITIAL-OFFSET-A, 30: it follows from the action point", self.called("export", "b.arxml", "--from", "net.toml",
                                                                                                  status=5))

    def test_a_tail_without_room_for_the_file_s_parts(self):
        self.imported("a.arxml", ARXML, [("gMacroPerCycle = 1280", "gMacroPerCycle = 1210"), ("gdNIT = 92", "gdNIT = 22"),
                                         ("gOffsetCorrectionStart = 1240", "gOffsetCorrectionStart = 1192")], KINDS["motion-arxml43.arxml"])
        self.assertIn("leaves the file's NETWORK-IDLE-TIME 0 macroticks beside its dynamic segment and symbol window",
                      self.called("export", "a.arxml", "--from", "net.toml", status=5))
        self.imported("b.arxml", ARXML, [("gPayloadLengthStatic = 16", "gPayloadLengthStatic = 7")], KINDS["motion-arxml43.arxml"])
        self.assertIn("a static frame of 16 bytes has no room in 7 words", self.called("export", "b.arxml", "--from", "net.toml", status=5))

    def test_another_file_than_was_imported(self):
        self.imported("motion-arxml43.arxml", ARXML, CHANGED.items())
        self.keep("motion-arxml43.arxml", ARXML + "\n")
        err = self.called("export", "motion-arxml43.arxml", "--from", "net.toml", status=5)
        self.assertIn("net.toml: it was made of another file than motion-arxml43.arxml is now: its head has the SHA-256 23b05794", err)
        self.assertFalse(os.path.exists("motion-arxml43.new.arxml"))
        self.called("export", "motion-arxml43.arxml", "--from", "net.toml", "--anyway")
        self.write("bare.toml", re.sub(r"(?m)^#.*\n", "", self.read("net.toml")))
        err = self.called("export", "motion-arxml43.arxml", "--from", "bare.toml", "-o", "x", status=5)
        self.assertIn("bare.toml: its head has no SHA-256 of", err)

    def test_only_numbers_of_parameters_go_back(self):
        name = "motion-arxml43.arxml"
        for old, new, told in (("key_slot = 3", "key_slot = 9", "key_slot of ECU_RL is 9, and in motion-arxml43.arxml 3"),
                               ('name = "ECU_RL"', 'name = "Other"', "its nodes are not those of motion-arxml43.arxml: ECU_RL, Other are "
                                                                     "in"),
                               ("base = 7", "base = 6", "its [[slot]] tables are not those of"), ("start_bits = 6", "start_bits = "
                                                                                                                    "7", "bench."),
                               ("microtick_ns = 12.5", "microtick_ns = 25", "bench.microtick_ns is 25, and in"),
                               ("coldstart = true", "coldstart = false", "coldstart of ECU_FL is False, and in")):
            with self.subTest(new=new):
                self.imported(name, ARXML, [(old, new)])
                self.assertIn(told, self.called("export", name, "--from", "net.toml", status=5))
                self.assertEqual(sorted(os.listdir(".")), [name, "net.toml"])

    def test_files_are_not_written_over_and_nothing_is_written_of_nothing(self):
        name = "motion-arxml43.arxml"
        self.imported(name, ARXML)
        self.assertIn(f"nothing: {name} has the parameters of net.toml", self.one_line(self.called("export", name, "--from", "net.toml")))
        self.assertEqual(sorted(os.listdir(".")), [name, "net.toml"])
        for path in (name, "net.toml"):
            self.assertIn("File exists", self.called("export", name, "--from", "net.toml", "-o", path, status=3))
        self.assertIn("none.toml: No such file", self.called("export", name, "--from", "none.toml", status=3))

    def test_a_number_that_is_no_plain_text(self):
        for new in ("<!-- x -->1", "&#49;", "<![CDATA[1]]>"):
            with self.subTest(new=new):
                self.imported("a.arxml", put(ARXML, ("DAMPING>1<", f"DAMPING>{new}<")), CHANGED.items(), KINDS["motion-arxml43.arxml"])
                self.assertIn("a.arxml:46: CLUSTER-DRIFT-DAMPING: a comment, a section or a reference stands in this number",
                              self.called("export", "a.arxml", "--from", "net.toml", status=5))
                self.assertEqual(sorted(os.listdir(".")), ["a.arxml", "net.toml"])

    def test_random_files(self):
        """Of any encoding, prefixes and line ends: the result imports to what is wanted, and is as long as its numbers make it."""
        written = 0
        for seed in range(24):
            made = fieldfiles.Made(seed, is_plain=seed % 6 < 4)
            name, data = ("r.xml", fieldfiles.fibex(made)) if seed % 2 else ("r.arxml", fieldfiles.arxml(made))
            p = made.p
            changes = [(f"pOffsetCorrectionOut = {p['pOffsetCorrectionOut']}", "pOffsetCorrectionOut = "
                                                                               f"{max(1, p['pOffsetCorrectionOut'] - 1)}"),
                       ("gMaxWithoutClockCorrectionPassive = "
                        f"{p['gMaxWithoutClockCorrectionPassive']}", "gMaxWithoutClockCorrectionPassive = 1")]
            with self.subTest(seed=seed):
                self.imported(name, data, changes, made.words())
                for path in ("new", "r.toml"):
                    if os.path.exists(path):
                        os.remove(path)
                status, out, err = in_process("export", name, "--from", "net.toml", "-o", "new", "--json")
                if status:
                    self.assertIn("a comment, a section or a reference stands in this number", err)
                    self.assertFalse(os.path.exists("new"))
                    continue
                found = json.loads(out)["changes"]
                if not found:
                    continue
                written += 1
                after, letters = self.bytes_of("new"), 2 if data[:2] in (b"\xff\xfe", b"\xfe\xff") else 1
                self.assertEqual(len(after) - len(data), letters * sum(len(one["new"]) - len(one["old"]) for one in found))
                self.keep("n.xml", after)
                self.write("r.toml", self.called("import", "n.xml", "-o", "-", *made.words()))
                self.assertEqual("".join(parameter_lines(read_cluster("r.toml"))), "".join(parameter_lines(read_cluster("net.toml"))))
        self.assertGreater(written, 12)


if __name__ == "__main__":
    unittest.main()
