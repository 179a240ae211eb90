"""`flexlab import`: samples against what is wanted of them, random files of the same kinds, and files that are broken or mean harm."""
import json
import os
import re
import resource
import subprocess
import sys
import tomllib
import unittest

import fieldfiles
from bench import FLEXLAB, REPOSITORY, TOOLS, Bench, in_process

from flexlab.base.files import parameter_lines
from flexlab.toml.cluster import read_cluster

SAMPLES = os.path.join(TOOLS, "tests", "imports")
# The samples with the words that give the limits of their parameter files.
KINDS = {"backbone-fibex41.xml": ("--delay-a-ns", "0-400", "--delay-b-ns", "200-700"),
         "motion-arxml43.arxml": ("--delay-a-ns", "0-112.5", "--delay-b-ns", "75-200")}
LIMITS = ("--oscillator-ppm", "100", "--change-ppm", "0")


def sample(name):
    with open(os.path.join(SAMPLES, name), encoding="utf-8", newline="") as file:
        return file.read()


FIBEX, ARXML = sample("backbone-fibex41.xml"), sample("motion-arxml43.arxml")
LAUGHS = ('<!DOCTYPE x [<!ENTITY a "ha">' + "".join(f'<!ENTITY {chr(98 + n)} "{f"&{chr(97 + n)};" * 10}">' for n in range(9)) + "]>")
DOCTYPE = "it has a document type (DOCTYPE), which FIBEX and ARXML files have not: nothing of it is read"


def put(text, *changes):
    """A sample with (old, new) put in; each old text has to be there."""
    for old, new in changes:
        if old not in text:
            raise AssertionError(f"the sample has no {old!r}")
        text = text.replace(old, new, 1)
    return text


def headed(head, text):
    """A sample with something between its declaration and its outermost element."""
    place = text.index("?>") + 2
    return text[:place] + head + text[place:]


SECOND = re.search(r"\t\t\t<CLUSTER .*?</CLUSTER>\n", FIBEX, re.S)[0]
TWO = put(FIBEX, ("\t\t</CLUSTERS>", SECOND.replace('"_3"', '"_4"').replace("FR_Backbone", "FR_Other") + "\t\t</CLUSTERS>"))
CONDITIONAL = re.search(r" *<(FLEXRAY-COMMUNICATION-CONTROLLER-CONDITIONAL)>.*?</\1>\n", ARXML, re.S)[0]
PORT = "/Topology/Ecus/ECU_FL/FrConn_AB/FP_Key_ECU_FL_AB_Tx<"
NESTED = "<a>" * 100000 + "</a>" * 100000
EVIL = "Steer&#10;[limits]&#10;oscillator_ppm = 0"

# name: (text or bytes, further words, status, what standard error or the TOML has to say)
BROKEN = {
    "laughs": (headed(LAUGHS, FIBEX), (), 5, DOCTYPE),
    "external entity": (headed('<!DOCTYPE x [<!ENTITY e SYSTEM "file:///etc/passwd">]>', put(FIBEX, ("Demo<", "&e;<"))), (), 5, DOCTYPE),
    "external DTD": (headed('<!DOCTYPE AUTOSAR SYSTEM "http://127.0.0.1/x.dtd">', ARXML), (), 5, DOCTYPE),
    "parameter entity": (headed('<!DOCTYPE x [<!ENTITY % p SYSTEM "x"> %p;]>', ARXML), (), 5, DOCTYPE),
    "undefined entity": (put(FIBEX, ("Demo<", "&none;<")), (), 5, "it is no XML: undefined entity"),
    "deep": (put(FIBEX, ("<PROJECT", NESTED + "<PROJECT")), (), 5, "elements lie in more than 200 others"),
    "deep inside what is passed over": (put(FIBEX, ("<v:PARAM", NESTED + "<v:PARAM")), (), 5, "elements lie in more than 200 others"),
    "huge attribute": (put(FIBEX, ('<PROJECT ID="P1"', f'<PROJECT ID="{"x" * 20000000}"')), (), 5, "a text of more than 8 MiB begins here"),
    "huge comment": (put(FIBEX, ("<PROJECT", f"<!--{'x' * 20000000}--><PROJECT")), (), 5, "a text of more than 8 MiB begins here"),
    "huge number": (put(FIBEX, ("PER-CYCLE>5000<", f"PER-CYCLE>{'5' * 20000}<")), (), 5, "a text of more than 10000 letters"),
    "long name": (put(ARXML, ("<SHORT-NAME>ECU_FL<", f"<SHORT-NAME>{'x' * 20000}<")), (), 5, "a text of more than 10000 letters"),
    "cut": (FIBEX[:9000], (), 5, "it is no XML: "),
    "empty": ("", (), 5, "it is no XML: no element found"),
    "blank": (" \n", (), 5, "it is no XML: "),
    "binary": (bytes(range(256)) * 20, (), 5, "it is no XML: not well-formed"),
    "HTML": ("<html><body>FIBEX</body></html>", (), 5, "neither FIBEX nor ARXML: its outermost element is html"),
    "foreign name space": (put(FIBEX, ('xmlns="http://www.asam.net/xml/fbx"', 'xmlns="urn:other"')), (), 5, "neither FIBEX nor ARXML"),
    "no name space": ("<AUTOSAR><AR-PACKAGES/></AUTOSAR>", (), 5, "AUTOSAR, without a name space"),
    "wrong encoding": (put(ARXML, ("Central_1", "Zenträl")).encode("latin-1"), (), 5, "it is no XML: not well-formed"),
    "unknown encoding": (put(FIBEX, ('encoding="utf-8"', 'encoding="x-none"')), (), 5, "it is no XML"),
    "second ID": (put(FIBEX, ('<CONTROLLER ID="c0"', '<CONTROLLER ID="c0"'), ('<ECU ID="E1"', '<ECU ID="E0"')), (), 5,
                  "its ID, E0, is that of"),
    "second path": (put(ARXML, ("<SHORT-NAME>ECU_FR<", "<SHORT-NAME>ECU_FL<")), (), 5, "its path, /Topology/Ecus/ECU_FL, is that of"),
    "channel that leads nowhere": (put(FIBEX, ('CHANNEL-REF ID-REF="_11"', 'CHANNEL-REF ID-REF="_99"')), (), 5,
                                   "a.xml:7: CHANNEL-REF: it refers to _99, which is not in the file; give all files of the system"),
    "sender that leads nowhere": (put(FIBEX, ('REF ID-REF="tAGw_1"/></OUT', 'REF ID-REF="tNo"/></OUT')), (), 5,
                                  "a.xml:35: FRAME-TRIGGERING-REF: it refers to tNo"),
    "port that leads nowhere": (put(ARXML, (PORT, "/A/B<")), (), 5, "FRAME-PORT-REF: it refers to /A/B, which is not in the file"),
    "relative path": (put(ARXML, (PORT, "Ecus/B<")), (), 5, "Ecus/B is no path from the root: relative references are not read"),
    "variants": (put(ARXML, (CONDITIONAL, CONDITIONAL * 2)), (), 5, "post-build variants are not told apart here"),
    "two clusters": (TWO, (), 5, "it has 2 FlexRay clusters: FR_Backbone (line 7), FR_Other (line 9); name one by --cluster"),
    "one of two clusters": (TWO, ("--cluster", "FR_Other"), 0, "cluster FR_Other, by flexlab import"),
    "none of two clusters": (TWO, ("--cluster", "X"), 2, "no cluster has that name; there are FR_Backbone"),
    "no cluster": (put(FIBEX, (SECOND, "")), (), 5, "a.xml: it has no FlexRay cluster"),
    "no ECU": (re.sub(r"<ECUS>.*</ECUS>", "", FIBEX, flags=re.S), (), 5, "no node of cluster FR_Backbone is in the file"),
    "microticks that differ": (put(FIBEX, ("<fr:MICROTICK> 0.050", "<fr:MICROTICK> 0.025")), (), 5,
                               "a.xml: MICROTICK differs: 0.050 of Steer, Brake, Susp, .. (line 50); 0.025 of Gateway (line 38). All nodes "
                               "of "
                               "flexray have one value: --take ECU takes that of one"),
    "values of one": (put(FIBEX, ("<fr:RATE-CORRECTION-OUT> 601", "<fr:RATE-CORRECTION-OUT> 600")), ("--take", "Gateway"), 0,
                      "pRateCorrectionOut = 600    # 38"),
    "values of nobody": (FIBEX, ("--take", "X"), 2, "--take X: there is no such ECU; there are Steer, Gateway"),
    "missing number": (put(FIBEX, ("<fr:MACRO-PER-CYCLE>5000</fr:MACRO-PER-CYCLE>", "")), (), 5,
                       "a.xml:7: CLUSTER: MACRO-PER-CYCLE is missing in the cluster; give it by --set gMacroPerCycle=NUMBER"),
    "missing number that is given": (FIBEX.replace("<fr:CLUSTER-DRIFT-DAMPING>1</fr:CLUSTER-DRIFT-DAMPING>", ""),
                                     ("--set", "pClusterDriftDamping=2"), 0, "pClusterDriftDamping = 2    # by --set"),
    "given beside the file's": (FIBEX, ("--set", "pClusterDriftDamping=2"), 2, "--set pClusterDriftDamping: the file has it"),
    "hexadecimal": (put(FIBEX, ("PER-CYCLE>5000<", "PER-CYCLE>0x1388<")), (), 0, "gMacroPerCycle = 5000    # 8"),
    "fraction": (put(ARXML, ("PER-CYCLE>1280<", "PER-CYCLE>1280.5<")), (), 5,
                 "a.xml:892: MACRO-PER-CYCLE: 1280.5 is no whole number from 10 to 16000 macroticks"),
    "number of a billion digits": (put(FIBEX, ("PER-CYCLE>5000<", "PER-CYCLE>1e999999999<")), (), 5, "1e999999999 is no number"),
    "infinity": (put(ARXML, ("DURATION>0.0000000125<", "DURATION>INF<")), (), 5, "MICROTICK-DURATION: INF is no number"),
    "another unit": (FIBEX.replace("<fr:MICROTICK> 0.050", "<fr:MICROTICK> 50"), (), 5,
                     "MICROTICK: 50 is 50000 ns, the file's unit being taken for us; a microtick lasts 12.5, 25, 50 or 100 ns"),
    "cycle that does not add up": (put(FIBEX, ("<fr:STATIC-SLOT>50<", "<fr:STATIC-SLOT>200<")), (), 5,
                                   "the cycle does not add up: 32 static slots of 200 macroticks are 6400, and the cycle has 5000"),
    "cycle of two lengths": (put(FIBEX, ("<fr:CYCLE>10000.0<", "<fr:CYCLE>10001<")), (), 0,
                             "# NOTE a.xml:8: CYCLE is 10001 us, and 200000 microticks are 10000 us: microticks count"),
    "parts that do not add up": (put(FIBEX, ("<fr:N-I-T>115<", "<fr:N-I-T>116<")), (), 0,
                                 "# NOTE a.xml:8: the parts behind the static slots are 3401 macroticks, and the cycle has 3400 there"),
    "broken constraint": (put(ARXML, ("CORRECTION-START>1240<", "CORRECTION-START>1100<")), (), 5,
                          "gOffsetCorrectionStart, 1100, is not above 1188 and below 1280; line 900: gNumberOfStaticSlots 44; line 904"),
    "external correction": (put(FIBEX, ("<fr:LISTEN-TIMEOUT>", "<fr:EXTERN-RATE-CORRECTION>1</fr:EXTERN-RATE-CORRECTION>"
                                        "<fr:LISTEN-TIMEOUT>")),
                            (), 5, "EXTERN-RATE-CORRECTION: 1 of Gateway: external clock correction breaks the premises"),
    "no external correction": (put(FIBEX, ("<fr:LISTEN-TIMEOUT>", "<fr:EXTERN-RATE-CORRECTION>0.0</fr:EXTERN-RATE-CORRECTION>"
                                           "<fr:LISTEN-TIMEOUT>")), (), 0, "pRateCorrectionOut = 601"),
    "two key slots": (put(ARXML, ("<KEY-SLOT-ID>", "<TWO-KEY-SLOT-MODE>true</TWO-KEY-SLOT-MODE><KEY-SLOT-ID>")), (), 5,
                      "nodes with two key slots (TT-L and TT-E of version 3) are left out of the model"),
    "flag that is none": (put(ARXML, ("CLOCK>1<", "CLOCK>yes<")), (), 5, "ALLOW-HALT-DUE-TO-CLOCK: yes is not true, false, 1 or 0"),
    "key slot without a number": (put(FIBEX, ("STARTUP-SYNC>2<", "STARTUP-SYNC>two<")), (), 5, "STARTUP-SYNC: two is no number"),
    "payload in bytes": (put(FIBEX, ("STATIC>12<", "STATIC>8<")), (), 0, "frames of static slots have more than 16 bytes"),
    "more sync nodes than allowed": (put(FIBEX, ("SYNC-NODE-MAX>5<", "SYNC-NODE-MAX>4<")), (), 0, "5 nodes have a key slot for sync, and "
                                                                                                  "4"),
    "another version": (put(FIBEX, ("VERSION>2.1<", "VERSION>3.0.1<")), (), 0, "the protocol is of version 3.0.1, and flexray's is 2.1"),
    "name with line breaks": (put(FIBEX, ("SHORT-NAME>Steer<", f"SHORT-NAME>{EVIL}<")), (), 0, 'name = "Steer[limits]oscillator_ppm = 0"'),
    "name of the cluster with line breaks": (put(FIBEX, ("FR_Backbone<", f"{EVIL}<")), (), 0, "cluster Steer[limits]oscillator_ppm = 0, "
                                                                                              "by"),
    "name with quotes": (put(FIBEX, ("SHORT-NAME>Steer<", "SHORT-NAME>St&quot;e\\er<")), (), 0, 'name = "St\\"e\\\\er"'),
    "ECU without a controller": (put(FIBEX, ('<CONTROLLER ID="c5" xsi:type="fr:CONTROLLER-TYPE">', "<OTHER>"),
                                     ("</CONTROLLER>\n\t\t\t</CONTROLLERS></ECU>\n\t\t</ECUS>",
                                      "</OTHER></CONTROLLERS></ECU></ECUS>")), (), 5,
                                 "ECU Radar is on channel B, and of no FlexRay controller there the parameters are told"),
    "ECU that is left out": (FIBEX, ("--leave-out", "Radar"), 0, "# NOTE ECU Radar is left out, as --leave-out asks: what is promised is "
                                                                 "of a cluster without it"),
    "ECU that is left out of an ARXML file": (ARXML, ("--leave-out", "Sensor"), 0, "2 frames of static slots have no sender in the file"),
    "another name": (FIBEX.replace("fr:N-I-T", "fr:NIT").replace("fr:MACRO-PER-CYCLE", "fr:MACROS"), ("--map", "map.toml"), 0,
                     "gMacroPerCycle = 5000    # 8"),
    "delays that spread too far": (ARXML, ("--delay-ns", "50-300"), 5, "20 microticks, and 10 are the range of flexray's xDelayError. A "
                                                                       "compensation amid them is 14 microticks"),
    "UTF-16": (put(FIBEX, ('encoding="utf-8"', 'encoding="utf-16"')).encode("utf-16"), (), 0, "gMacroPerCycle = 5000    # 8"),
    "byte order mark": ("\ufeff" + FIBEX, (), 0, "gMacroPerCycle = 5000    # 8"),
    "Latin-1": (put(FIBEX, ('encoding="utf-8"', 'encoding="iso-8859-1"'), ("Steer<", "Stör<")).encode("latin-1"), (), 0, 'name = "Stör"'),
    "prefixes exchanged": (FIBEX.replace("n1:", "zz:").replace("xmlns:n1", "xmlns:zz").replace("fr:", "n1:").replace("xmlns:fr", "xmlns:n1")
                           .replace("zz:", "fr:").replace("xmlns:zz", "xmlns:fr"), (), 0, "gMacroPerCycle = 5000    # 8"),
}


class Import(Bench):
    def setUp(self):
        super().setUp()
        before = os.getcwd()
        os.chdir(self.room)
        self.addCleanup(os.chdir, before)

    def called(self, *words):
        """Status, standard output and standard error, in this process: many files are read."""
        return in_process("import", *words)

    def keep(self, name, data):
        with open(self.path(name), "wb") as file:
            file.write(data if isinstance(data, bytes) else data.encode("utf-8"))

    def test_the_samples(self):
        """What was wanted before names and limits were keys: all its lines are there, and beside them lines of the file and names."""
        for name, delays in KINDS.items():
            with self.subTest(name):
                self.keep(name, sample(name).encode("utf-8"))
                status, _, err = self.called(name, "-o", "a.toml", *LIMITS, *delays)
                self.assertEqual(status, 0, err)
                found = self.read("a.toml").splitlines()
                wanted = sample(os.path.splitext(name)[0] + ".toml").splitlines()
                names = [re.search(r"# (\w+)$", line)[1] for line in wanted if line.startswith("[[node]]")]
                self.assertEqual([re.match(r'name = "(\w+)"    # \d+$', line)[1] for line in found if line.startswith("name")], names)
                found = [line for line in found if not line.startswith("name = ")]
                limits = found.index("[limits]                    # no such file has these: they are promises of the hardware")
                self.assertEqual(found[limits + 1:limits + 3], ["oscillator_ppm = 100    # --oscillator-ppm",
                                                                "change_ppm_per_cycle = 0    # --change-ppm"])
                self.assertRegex(found[limits + 3], r"^delay_error_ns = (250|62\.5)    # --delay-ns: A .*; B ")
                for at, (one, other) in enumerate(zip(found, wanted, strict=True)):
                    if limits < at <= limits + 3:
                        continue
                    plain = re.sub(r"^\[\[node\]\] +# \w+$", "[[node]]", other)
                    if re.match(r"(microtick_ns|bit_rate_mbit|key_slot|slot) = [\d.]+$", plain):
                        self.assertRegex(one, rf"^{re.escape(plain)}    # \d+$")
                    else:
                        self.assertEqual(one, plain)
                self.flexlab("build", "a.toml", "-o", "built")
                self.assertEqual(self.read("built", "params.csv"), sample(os.path.splitext(name)[0] + ".csv"))
                os.remove("a.toml")

    def test_each_line_is_the_number_s(self):
        for name, text in (("a.xml", FIBEX), ("a.arxml", ARXML)):
            self.keep(name, text)
            status, out, _ = self.called(name, "--json", "-o", name + ".toml")
            self.assertEqual(status, 0)
            found, lines = json.loads(out), text.split("\n")
            self.assertEqual(len(found["used"]), 19)
            for one in found["used"]:
                self.assertIn(f"{one['element']}>", lines[one["line"] - 1], one)
                if one["key"] not in ("microtick_ns", "bit_rate_mbit", "pAllowHaltDueToClock"):
                    self.assertRegex(lines[one["line"] - 1], rf"{one['element']}> ?{one['value']} ?<")
            for node in found["nodes"]:
                self.assertRegex("".join(lines[node["line"] - 4:node["line"] + 1]), rf">{node['name']}<|ECU")
            self.assertEqual(found["asked"], ["oscillator_ppm", "change_ppm_per_cycle", "delay_error_ns"])

    def test_what_is_asked_is_refused_by_run_until_it_is_given(self):
        self.keep("a.xml", FIBEX)
        self.assertEqual(self.called("a.xml")[0], 0)
        err = self.flexlab("build", "a.toml", status=5)[1]
        self.assertIn("limits: it wants `oscillator_ppm` or `xRateBound`", err)
        _, out, err = self.called("a.xml")
        self.assertEqual((out, err), ("", "flexlab: a.toml: File exists, and is not written over; name another one by -o\n"))

    def test_broken_files_and_files_that_mean_harm(self):
        self.write("map.toml", '[fibex]\nnit = "fr:NIT"\ngMacroPerCycle = "fr:MACROS"\n')
        self.assertGreaterEqual(len(BROKEN), 40)
        for name, (text, words, wanted, told) in BROKEN.items():
            with self.subTest(name):
                self.keep("a.xml", text)
                status, out, err = self.called("a.xml", "-o", "-", *words)
                self.assertEqual(status, wanted, err)
                self.assertIn(told, err if status else out)
                self.assertEqual(bool(out), status == 0)
                if status == 0:
                    self.assertEqual(sorted(tomllib.loads(out)["limits"]), [])
                self.assertTrue(status == 0 or err.startswith("flexlab: "), err)

    def test_no_file_and_wrong_words(self):
        self.keep("a.xml", FIBEX)
        for words, status, told in ((("none.xml",), 3, "none.xml: No such file"), (("a.xml", "--delay-ns", "300"), 2, "FROM-TO in ns is "
                                                                                                                      "wanted"),
                                    (("a.xml", "--delay-ns", "300-50"), 2, "FROM-TO in ns"),
                                    (("a.xml", "--oscillator-ppm", "1e9"), 2, "1498.25"),
                                    (("a.xml", "--oscillator-ppm", "1500"), 2, "a number from 0 to 1498.25 ppm is wanted"),
                                    (("a.xml", "--delay-ns", "1-2", "--delay-a-ns", "1-2"), 2, "stands beside --delay-ns"),
                                    (("a.xml", "--delay-a-ns", "100-200"), 2, "--delay-b-ns is missing"),
                                    (("a.xml", "--set", "x=1"), 2, "there is no such parameter"),
                                    (("a.xml", "--set", "xRateBound=1"), 2, "there is no such parameter"),
                                    (("a.xml", "--set", "gMacroPerCycle=9"), 2, "a whole number from 10 to 16000"),
                                    (("a.xml", "--leave-out", "X"), 2, "there is no such ECU"),
                                    (("a.xml", "--json", "-o", "-"), 2, "--json is in place of the page, and -o - prints another text"),
                                    (("a.xml", "--json", "--list"), 2, "and --list prints another text there"), ((), 2, "")):
            with self.subTest(words=words):
                found, _, err = self.called(*words)
                self.assertEqual(found, status, err)
                self.assertIn(told, err)

    def test_random_files_of_the_same_kinds(self):
        for seed in range(60):
            for form in (fieldfiles.fibex, fieldfiles.arxml):
                with self.subTest(seed=seed, form=form.__name__):
                    made = fieldfiles.Made(seed)
                    self.keep("r.xml", form(made))
                    status, out, err = self.called("r.xml", "-o", "-", *made.words())
                    self.assertEqual(status, 0, err)
                    self.write("r.toml", out)
                    self.assertEqual("".join(parameter_lines(read_cluster("r.toml"))), made.wanted())
                    told = tomllib.loads(out)
                    self.assertEqual([node["name"] for node in told["node"]], [made.nodes[at][0] for at in made.ordered()])
                    self.assertEqual(told["bench"], {"microtick_ns": float(made.microtick), "bit_rate_mbit": made.bit_rate / 1000000,
                                                     "start_bits": made.start_bits})

    def test_split_files(self):
        """ECUs in a file of their own: one of both alone leads nowhere, both are the whole."""
        first, last = ARXML.index("          <ELEMENTS>\n        <ECU-INSTANCE"), ARXML.rindex("</ECU-INSTANCE>") + len("</ECU-INSTANCE>\n")
        head = ARXML[:ARXML.index("  <AR-PACKAGES>")]
        self.keep("ecus.arxml", head + "<AR-PACKAGES><AR-PACKAGE><SHORT-NAME>Topology</SHORT-NAME><AR-PACKAGES><AR-PACKAGE><SHORT-NAME>Ecus"
                                       f"</SHORT-NAME>{ARXML[first:last]}</ELEMENTS></AR-PACKAGE></AR-PACKAGES></AR-PACKAGE></AR-PACKAGES>"
                                       "</AUTOSAR>")
        self.keep("net.arxml", ARXML[:first] + "<ELEMENTS>" + ARXML[last:])
        self.keep("whole.arxml", ARXML)
        status, out, err = self.called("net.arxml", "-o", "-")
        self.assertEqual((status, out), (5, ""))
        self.assertIn("COMMUNICATION-CONNECTOR-REF: it refers to /Topology/Ecus/ECU_FL/FrConn_AB, which is not in the file; give all files "
                      "of", err)
        status, out, err = self.called("net.arxml", "ecus.arxml", "-o", "-")
        self.assertEqual(status, 0, err)
        plain = lambda text: [line.split("    #")[0] for line in text.splitlines() if not line.startswith("#")]  # noqa: E731
        self.assertEqual(plain(out), plain(self.called("whole.arxml", "-o", "-")[1]))
        self.assertRegex(out, r"\npMicroPerCycle = 160000    # ecus.arxml:\d+\n")
        self.assertEqual(self.called("whole.arxml", "ecus.arxml", "-o", "-")[0], 5)
        self.keep("a.xml", FIBEX)
        self.assertIn("files of one system are of one format", self.called("a.xml", "net.arxml", "-o", "-")[2])

    def dumps(self, made):
        """Writes the dumps of a cluster, and hands back their names in the order of its nodes."""
        for name, text in fieldfiles.registers(made).items():
            self.write(f"{name}.txt", text)
        return [f"{node[0]}.txt" for node in made.nodes]

    def test_registers(self):
        for seed in range(40):
            with self.subTest(seed=seed):
                made = fieldfiles.Made(seed)
                status, out, err = self.called(*self.dumps(made), "--chip", "e-ray", "-o", "-", "--set",
                                               f"microtick_ns={float(made.microtick)}", *made.words())
                self.assertEqual(status, 0, err)
                self.write("r.toml", out)
                # Frames in further slots are in none of these registers.
                wanted = "".join(line for line in made.wanted().splitlines(keepends=True) if not line.startswith("slot,"))
                self.assertEqual("".join(parameter_lines(read_cluster("r.toml"))), wanted)
                told = tomllib.loads(out)
                self.assertEqual((told["bench"]["bit_rate_mbit"], told["bench"]["start_bits"]), (made.bit_rate / 1000000, made.start_bits))
                self.assertEqual({node["name"] for node in told["node"]}, {node[0] for node in made.nodes})
                self.assertIn("# NOTE bits of registers are from memory, and were held against no manual", out)

    def test_registers_that_are_refused(self):
        made = fieldfiles.Made(3)
        names = self.dumps(made)
        words = (*names, "--chip", "e-ray", "-o", "-", "--set", "microtick_ns=25")
        first = next(f"{node[0]}.txt" for node in made.nodes if node[2])
        whole = self.read(first)
        self.assertEqual(self.called(*words)[0], 0)
        for text, status, told in (
                (whole + "GTUC1 0\nGTUC1 0\n", 5, "stands in line"), (whole + "GTUC1 is 7\n", 5, "is neither ADDRESS VALUE nor NAME VALUE"),
                (re.sub(r"(?m)^WRHS1.*\n", "", whole), 5, "SUCC1.TXSY: the node sends sync frames, and its key slot is not told"),
                (re.sub(r"(?m)^(SUCC1|0x\w{5}080)\b.*\n", "", whole), 5, "SUCC1 is missing, or says that the node is on no channel"),
                (re.sub(r"(?m)^(GTUC11|0x\w{5}0C8)\b.*\n", "GTUC11 1\n", whole), 5, "external clock correction breaks the premises"),
                (re.sub(r"(?m)^(GTUC2|0x\w{5}0A4)\b.*\n", "GTUC2 0x1234\n", whole), 5, "all nodes of a cluster have one"),
                (re.sub(r"(?m)^(GTUC10|0x\w{5}0C4)\b.*\n", "GTUC10 0x10001\n", whole), 5, "GTUC10.MOC differs: "),
                ("", 5, "it has no register of an E-Ray that is read"), ("0FC 3\n", 5, "it has no register of an E-Ray"),
                ("x" * 1100000, 5, "a dump of registers has not")):
            with self.subTest(told=told):
                self.write(first, text)
                found, out, err = self.called(*words)
                self.assertEqual((found, out), (status, ""))
                self.assertIn(told, err)
        self.write(first, whole)
        self.assertIn("MICROTICK-DURATION is missing in the controllers: give it by --set microtick_ns=25", self.called(*words[:-2])[2])
        self.assertIn("--chip is for dumps of registers", self.called(*words, "--list")[2])

    def test_list(self):
        self.keep("a.arxml", ARXML)
        status, out, _ = self.called("a.arxml", "--list")
        self.assertEqual(status, 0)
        self.assertIn("FrCluster, line 514 of a.arxml", out)
        self.assertIn("ECU_FL (line 39), channels AB, key slot 1, coldstart", out)
        self.assertFalse(os.path.exists("a.toml"))
        self.keep("two.xml", TWO)
        self.assertEqual(self.called("two.xml", "--list")[1].count("key slot 2, coldstart"), 2)

    def test_a_file_of_many_megabytes_in_little_memory(self):
        """All but the FlexRay part is passed over, so memory does not grow with the file."""
        foreign = "".join("<I-SIGNAL-I-PDU "
                          f"UUID='{at}'><SHORT-NAME>P{at}</SHORT-NAME><LENGTH>8</LENGTH><X><Y>{at}</Y></X></I-SIGNAL-I-PDU>\n"
                          for at in range(1000))
        place = ARXML.index("<FLEXRAY-FRAME>")
        with open(self.path("big.arxml"), "w", encoding="utf-8", newline="") as file:
            file.write(ARXML[:place])
            for _ in range(250):
                file.write(foreign)
            file.write(ARXML[place:])
        self.assertGreater(os.path.getsize("big.arxml"), 25000000)
        room = 220 * 1048576
        ended = subprocess.run([sys.executable, FLEXLAB, "import", "big.arxml", "-o", "big.toml"], capture_output=True, text=True,
                               cwd=self.room, preexec_fn=lambda: resource.setrlimit(resource.RLIMIT_DATA, (room, room)), check=False)
        self.assertEqual(ended.returncode, 0, ended.stderr)
        most = self.peak("big.arxml", "-o", "-")
        self.keep("small.arxml", ARXML)
        self.assertLess(most - self.peak("small.arxml", "-o", "-"), 8 * 1024)

    def peak(self, *words):
        """The most memory of a call, in KiB."""
        program = ("import resource, subprocess, sys; subprocess.run(sys.argv[1:], stdout=subprocess.DEVNULL, check=True); "
                   "print(resource.getrusage(resource.RUSAGE_CHILDREN).ru_maxrss)")
        return int(subprocess.run([sys.executable, "-c", program, sys.executable, FLEXLAB, "import", *words], capture_output=True,
                                  text=True, cwd=self.room, check=True).stdout)

    def test_the_example(self):
        folder = os.path.join(REPOSITORY, "examples", "import")
        with open(os.path.join(folder, "flexlab.words"), encoding="utf-8") as file:
            words = file.read().split()
        out, err = self.flexlab(*words, "-o", "-", cwd=folder)
        with open(os.path.join(folder, "backbone.toml"), encoding="utf-8") as file:
            self.assertEqual(out, file.read())
        self.assertIn("flexlab: note: backbone.xml:18: slot 12 has several senders (Susp, Radar)", err)


if __name__ == "__main__":
    unittest.main()
