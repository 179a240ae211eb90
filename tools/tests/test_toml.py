"""TOML files: wrong values are refused with line, key and range; right ones are in the files as they should be."""
import html
import json
import os
import re
import unittest

from bench import EXAMPLE, REPOSITORY, Bench, edited, needs


def line_with(text, part):
    return next(number for number, line in enumerate(text.splitlines(), 1) if part in line)


REFUSED = (
    # what is changed, into what, and what the line on standard error has to say
    ("gdNIT = 2000", "gdNIT = 16000", "cluster.gdNIT: 16000 is not a whole number from 1 to 15999 macroticks"),
    ("gdNIT = 2000", "gdNit = 2000", "a.toml:26: cluster.gdNit: there is no such key; did you mean `gdNIT`?"),
    ("gdNIT = 2000", "", "cluster: the key `gdNIT` is missing: a whole number from 1 to 15999"),
    ("gdNIT = 2000", "gdNIT = 2000\ngdNitt = 1", "cluster.gdNitt: there is no such key; did you mean `gdNIT`?"),
    ("gdNIT = 2000", "gdNIT = 2000.5", "cluster.gdNIT: 2000.5 is not a whole number"),
    ("gdNIT = 2000", "gdNIT = 2000\nxRateBound = 200", "cluster.xRateBound: there is no such key: it belongs into [limits]"),
    ("gdNIT = 2000", 'gdNIT = "2000"', "(there: drift); write it without quotes"),
    ("[[slot]]", "[slot]", "a.toml:85: `slot` has to be [[slot]] tables"),
    ("gdNIT = 2000", "gdNIT = true", "cluster.gdNIT: true is not a whole number"),
    ("gdNIT = 2000", "gdNIT = inf", "cluster.gdNIT: Infinity is not a whole number"),
    ("microtick_ns = 25", "microtick_ns = 0", "bench.microtick_ns: 0 is not a number from 1 to 1000 ns"),
    ("bit_rate_mbit = 10", "bit_rate_mbit = 20", "bench.bit_rate_mbit: 20 is not a number from 1 to 10 Mbit/s"),
    ("oscillator_ppm = 200", "oscillator_ppm = 1600", "limits.oscillator_ppm: 1600 is not a number from 0 to 1498.25 ppm"),
    ("oscillator_ppm = 200", "oscillator_ppm = 1498.26", "take xRateBound = 1500 in place of it"),
    ("oscillator_ppm = 200", "oscilator_ppm = 200", "limits.oscilator_ppm: there is no such key; did you mean `oscillator_ppm`?"),
    ("oscillator_ppm = 200", "oscillator_ppm = 200\nxRateBound = 3", "one of both"),
    ("delay_error_us = 0.0125", "delay_error_us = 0.3", "limits.delay_error_us: 0.3 is not a number from 0 to 0.25 us; if the "
                                                                "delays of the cluster spread further, put "
                                                                "cluster.pDelayCompensation amid them"),
    ("delay_error_us = 0.0125", "delay_error_us = 0.01\ndelay_error_ns = 1", "it wants one of `delay_error_us`"),
    ("double_cycles = 200", "double_cycles = 0", "run.double_cycles: 0 is not a whole number from 1 to 100000"),
    ("id = 4", "id = 3", "node[4].id: node 3 is there already"),
    ("id = 4", "id = 65", "node[4].id: 65 is not a whole number from 1 to 64"),
    ("ppm = -40", 'ppm = "speed"', 'node[3].ppm: "speed" is neither a number from -333333 to 1000000 ppm nor a name of '
                                   "[values] (there: drift)"),
    ("ppm = -40", "ppm = 1000001", "node[3].ppm: 1000001 is not a number from -333333 to 1000000 ppm"),
    ('channels = "A"', 'channels = "BA"', 'node[5].channels: "BA" is not "A", "B" or "AB"'),
    ('channels = "A"', 'channels = "A"\ncoldstart = true', "node[5].coldstart: a coldstart node needs a `key_slot`"),
    ("start_us = 1.5", "start_us = 25000.1", "node[2].start_us: 25000.1 is not a number from 0 to 25000 us"),
    ("start_us = 1.5", "start_us = -1", "node[2].start_us: -1 is not a number from 0"),
    ("node = 1\nbase", "node = 9\nbase", "slot[1].node: there is no node 9; nodes are 1, 2, 3, 4, 5, 6"),
    ("repetition = 2", "repetition = 3", "slot[1].repetition: 3 is not 1, 2, 4, 8, 16, 32 or 64"),
    ("base = 0", "base = 2", "slot[1].base: 2 is not below the repetition, 2"),
    ('cycles = "100-180"', 'cycles = "100-200000"', 'oscillator[1].cycles: "100-200000" is not a cycle from 0 to '
                                                  "199999"),
    ('cycles = "100-180"', 'cycles = "180-100"', 'oscillator[1].cycles: "180-100" runs backward'),
    ('cycles = "100-180"', 'cycls = "100-180"', 'oscillator[1].cycls: there is no such key; did you mean `cycles`?'),
    ('nodes = 3\ncycles = "100', 'nodes = "4-3"\ncycles = "100', 'oscillator[1].nodes: "4-3" runs backward'),
    ("microticks = 0.3", "microticks = 1001", "delay[1].microticks: 1001 is not a number from 0 to 1000"),
    ("microticks = 0.3", "", "it wants one of `us`, `ns`, `microticks`, `ticks`, and not 0"),
    ('channels = "B"\nns', 'channels = "B"\nfrom_cycle = 200000\nns', "delay[2].from_cycle: 200000 is not a whole number"),
    ("from = 1\nto = [3, 4]", "from = 1\nto = 5", "delay[2].channels: no two of these nodes have a common channel "
                                                  "of B"),
    ("early = [1, 3, 5]", "early = [1, 2]", "two_faced[1].late: node 2 is in two"),
    ("node = 6\ncycles", "node = 5\ncycles", "two_faced[1].node: node 5 has no key slot"),
    ("[run]", "[runs]", "a.toml:43: there is no table `runs`; did you mean `run`?"),
    ("[run]", "[run", "a.toml:43: this is not TOML"),
    ("start_us = 1.5", "start_us = 1,5", "a.toml:61: this is not TOML: Expected newline or end of document after a statement (at "
                                         "line 61, column 13): start_us = 1,5; a number has a point, no comma"),
    ('channels = "A"', "channels = A", "channels = A; a text has quotes"),
    ("drift = 150", 'drift = "x"', 'values.drift: "x" is not a number'),
    ("pDelayCompensation = 0", "pDelayCompensation = 0\npDelayCompensationB = 1", "a.toml:37: cluster.pDelayCompensationB: "
     "`pDelayCompensation` stands beside it, which is for both channels"),
    ("pDelayCompensation = 0", "pDelayCompensationA = 1", "cluster: the key `pDelayCompensationB` is missing: a whole number from 0 "
                                                          "to 200 microticks"),
    ("pDelayCompensation = 0", "pDelayCompensationA = 201\npDelayCompensationB = 0", "cluster.pDelayCompensationA: 201 is not"),
    ("pDelayCompensation = 0", "pDelayCompensationA = 0\npDelayCompensationC = 0", "pDelayCompensationC: there is no such key"),
    ("delay_error_us = 0.0125", "delay_error_us = 0.3", "Ten microticks are the range of flexray's xDelayError, and none of the "
                                                        "standard: a greater spread wants a longer microtick"),
    ("id = 4", 'id = 4\nname = ""', 'node[4].name: "" is not a text of 1 to 128 printable characters, without blanks at its ends'),
    ("id = 4", 'id = 4\nname = " a"', 'node[4].name: " a" is not a text of'),
    ("id = 4", 'id = 4\nname = "a\\nb"', 'node[4].name: "a\\nb" is not a text of'),
    ("id = 4", 'id = 4\nname = "a\\u202eb"', 'node[4].name: "a\\u202eb" is not a text of'),
    ("id = 4", f'id = 4\nname = "{"x" * 129}"', f'node[4].name: "{"x" * 32}.." is not a text of'),
    ("id = 4", "id = 4\nname = 7", "node[4].name: 7 is not a text of"),
    ("id = 4", 'id = 4\nname = "7"', 'node[4].name: "7" is a number, and a node\'s number is its id'),
    ("[[slot]]", '[[node]]\nid = 7\nname = "a"\nchannels = "A"\n[[node]]\nid = 8\nname = "a"\nchannels = "A"\n[[slot]]',
     'node[8].name: node 7 has the name "a" already'),
)

MORE = (
    ("[[lose]]\nfrom = 6\nto = 1\ncycles = 3\n", "lose[1].from: node 6 is arbitrary"),
    ("[[lose]]\nfrom = 1\nto = 2\ncycles = 200000\n", "lose[1].cycles: 200000 is not a cycle from 0 to 199999"),
    ("[[flip]]\nfrom = 1\nto = 2\ncycles = 3\nbit = 192\n", "flip[1].bit: 192 is not a whole number from 0 to 191"),
    ("[[say]]\nnode = 6\nto = 1\ncycles = 3\nus = 1\n", "cycle 3, node 6 to node 1, channel A: another table says"),
    ("[[say]]\nnode = 6\nto = 1\ncycles = 3\nframe = \"ABC\"\n", 'say[1].frame: "ABC" is not text of hexadecimal '
                                                                 'digits'),
    ("[[two_faced]]\nnode = 6\nmicroticks = 1\n", "two_faced[2]: it wants receivers"),
    ("[[join]]\nnode = 3\nreference = 1\n", "join[1]: the key `double_cycle` is missing"),
    ("[[join]]\nnode = 3\nreference = 1\ndouble_cycle = 100000\n", "join[1].double_cycle: 100000 is not a whole number "
                                                                  "from 0 to 99999"),
    ("[[join]]\nnode = 3\nreference = 3\ndouble_cycle = 1\n", "join[1].reference: node 3 cannot be its own reference"),
    ("[[join]]\nnode = 3\nreference = [1, 2]\ndouble_cycle = 1\n", "join[1].reference: one node is wanted"),
    ("[[join]]\nnode = 3\nreference = 5\ndouble_cycle = 1\n", "join[1].reference: node 5 has no key slot"),
    ("[[join]]\nnode = 6\nreference = 1\ndouble_cycle = 1\n", "join[1].node: node 6 is arbitrary"),
    ("[[join]]\nnode = 3\nreference = 6\ndouble_cycle = 1\n", "join[1].reference: node 6 is arbitrary"),
    ("[[join]]\nnode = 2\nreference = 1\ndouble_cycle = 1\n", "join[1].node: node 2 has a start or a rate"),
    ("[[join]]\nnode = 3\nreference = 1\ndouble_cycle = 1\n" * 2, "join[2].node: node 3 joins already"),
    ("[[join]]\nnode = 3\nreference = 4\ndouble_cycle = 1\n[[join]]\nnode = 4\nreference = 1\ndouble_cycle = 1\n",
     "join[1].reference: node 4 joins itself"),
)


class Toml(Bench):
    def refused(self, text, told):
        self.write("a.toml", text)
        err = self.flexlab("build", "a.toml", status=5)[1]
        self.assertIn(told, err)
        return err

    def test_wrong_values(self):
        for old, new, told in REFUSED:
            with self.subTest(new=new):
                self.refused(edited((old, new)), told)

    def test_wrong_rows(self):
        for rows, told in MORE:
            with self.subTest(rows=rows):
                self.refused(EXAMPLE + rows, told)

    def test_the_line_is_told(self):
        for old, new in (("gdNIT = 2000", "gdNIT = 16000"), ("ppm = 20 ", "ppm = 2000000 "), ("id = 6", "id = 66"),
                         ("microticks = 100", "microticks = 1000001")):
            text = edited((old.strip(), new.strip()))
            err = self.refused(text, "is not a")
            self.assertIn(f"a.toml:{line_with(text, new.strip())}: ", err)

    def test_all_faults_are_told_at_once(self):
        text = edited(("gdNIT = 2000", "gdNit = 2000"), ("ppm = 20\n\n", "pmm = 20\n\n"),
                      ("start_us = 1.5", "start_us = -1"), ("oscillator_ppm = 200", "oscillator_ppm = 1600"))
        told = self.refused(text, "did you mean").splitlines()
        self.assertEqual([int(line.split(":")[2]) for line in told],
                         [line_with(text, part) for part in ("gdNit", "oscillator_ppm = 1600", "start_us = -1", "pmm")])
        self.assertNotIn("missing", "".join(told))

    def test_faults_of_the_last_tables_too(self):
        text = edited(("gdNIT = 2000", "gdNIT = 0")) + "[[lose]]\nfrom = 1\nto = 9\ncycles = 3\n"
        told = self.refused(text, "cluster.gdNIT: 0 is not")
        self.assertIn("lose[1].to: there is no node 9", told)

    def test_a_byte_order_mark(self):
        self.write("a.toml", "\ufeff" + EXAMPLE)
        self.flexlab("build", "a.toml")
        self.assertIn("a.toml:26: cluster.gdNIT: 0 is", self.refused("\ufeff" + edited(("gdNIT = 2000", "gdNIT = 0")), ""))

    def test_every_ppm_of_the_range_is_taken(self):
        told = self.refused(edited(("oscillator_ppm = 200", "oscillator_ppm = 1500")), "limits.oscillator_ppm: 1500 is not")
        most = re.search(r"from 0 to ([\d.]+) ppm", told)[1]
        self.write("a.toml", edited(("oscillator_ppm = 200", f"oscillator_ppm = {most}")))
        self.flexlab("build", "a.toml")
        self.assertIn("param,xRateBound,1500,,", self.read("a.lab", "params.csv"))

    def test_rows_behind_the_end_of_the_run(self):
        self.write("a.toml", edited(("double_cycles = 200", "double_cycles = 70")) + '[[lose]]\nfrom = 1\nto = 2\n'
                   'channels = "A"\ncycles = "138-160"\n[[join]]\nnode = 4\nreference = 1\ndouble_cycle = 70\n')
        err = self.flexlab("build", "a.toml")[1]
        self.assertIn("oscillator[2].cycles: it lies behind the end of the run, whose last cycle is 139", err)
        self.assertIn("join[1].double_cycle: it lies behind the end", err)
        self.assertNotIn("oscillator[1]", err)
        self.assertIn("lose,139,1,2,A,,\n", self.read("a.lab", "script.csv"))
        self.assertNotIn("lose,140", self.read("a.lab", "script.csv"))
        # The ramp is that of the longer run, as far as this one goes.
        short = [line for line in self.read("a.lab", "drift.csv").splitlines() if line.startswith("length,3,")]
        self.write("a.toml", EXAMPLE)
        self.flexlab("build", "a.toml")
        long = [line for line in self.read("a.lab", "drift.csv").splitlines() if line.startswith("length,3,")]
        self.assertEqual(short, [line for line in long if int(line.split(",")[2]) < 140])
        self.assertGreater(len(short), 10)
        self.assertEqual(self.flexray("run", "a.lab/params.csv", "a.lab/drift.csv", "a.lab/script.csv")[0], 0)

    def test_oscillators_and_delays_of_arbitrary_nodes(self):
        self.write("a.toml", edited(("from = 1\nto = [3, 4]", "from = 6\nto = [3, 4]")) + "[[oscillator]]\nnodes = [1, 6]\n"
                   'ppm = 3\n[[oscillator]]\nnodes = "all"\nppm = 3\n[[delay]]\nfrom = 1\nto = "2-6"\nns = 30\n')
        err, last = self.flexlab("build", "a.toml")[1].splitlines(), EXAMPLE.count("\n")
        self.assertEqual([line.split(": ")[2:5] for line in err],
                         [["a.toml:" + str(line), key, "node 6 is arbitrary, so it has no clock and its frames come when they "
                           "are said to"] for line, key in ((last + 2, "oscillator[3].nodes"), (110, "delay[2].from"),
                                                            (last + 9, "delay[3].to"))])
        drift = self.read("a.lab", "drift.csv")
        self.assertIn("length,1,0,999997,,", drift)
        self.assertIn("delay,1,5,A,0,1200000", drift)
        for row in ("length,6", "delay,6", "delay,1,6"):
            self.assertNotIn(row, drift)
        self.assertIn("WARNING a.toml:110: delay[2].from: node 6 is arbitrary",
                      self.one_line(self.flexlab("run", "a.toml")[0]))

    def test_broken_constraints_are_told_by_the_lines_of_the_file(self):
        text = edited(("gdNIT = 2000", "gdNIT = 2001"), ("Passive = 2", "Passive = 5"), ("key_slot = 2", "key_slot = 3"))
        self.write("a.toml", text)
        for request in ("build", "run"):
            err = self.flexlab(request, "a.toml", status=1)[1]
            self.assertIn("a.toml: flexray refuses the parameters that come of it: params: constraint 1", err)
            self.assertIn("5000 is not 60 * 50 + 2001 = 5001: 1 macrotick too few in gMacroPerCycle, so gdNIT = 2000", err)
            self.assertIn(f"line {line_with(text, 'gdNIT = 2001')}: gdNIT 2001", err)
            self.assertIn("constraint 5 asks", err)
            self.assertIn(f"line {line_with(text, 'id = 3') + 1}: node 3 has key slot 3, as node 2 has", err)
            self.assertNotIn("params.csv", err)
        for change in (("gdActionPointOffset = 10", "gdActionPointOffset = 50"), ("slot = 10", "slot = 61"),
                       ("gOffsetCorrectionStart = 4900", "gOffsetCorrectionStart = 3000"),
                       ("pOffsetCorrectionOut = 320", "pOffsetCorrectionOut = 16000")):
            self.write("a.toml", edited(change))
            err = self.flexlab("build", "a.toml", status=1)[1]
            self.assertEqual(err.count(" asks: "), 1, err)
            self.assertIn(f"line {line_with(edited(change), change[1])}: ", err)

    def test_a_constraint_without_room_is_mended_by_what_is_told(self):
        start, limit = "gOffsetCorrectionStart = 4900", "pOffsetCorrectionOut = 320"
        self.write("a.toml", edited((start, "gOffsetCorrectionStart = 4998")))
        _, err = self.flexlab("build", "a.toml", status=1)
        told = dict(re.findall(r"(\w+) = (\d+) or (?:earlier|lower)", err))
        self.assertEqual(sorted(told), ["gOffsetCorrectionStart", "pOffsetCorrectionOut"], err)
        late, most = int(told["gOffsetCorrectionStart"]), int(told["pOffsetCorrectionOut"])
        for first, most_, status in ((late, 320, 0), (late + 1, 320, 1), (4998, most, 0), (4998, most + 1, 1)):
            self.write("a.toml", edited((start, f"gOffsetCorrectionStart = {first}"), (limit, f"pOffsetCorrectionOut = {most_}")))
            self.flexlab("build", "a.toml", status=status)

    def test_without_the_program_constraints_are_not_checked(self):
        self.write("a.toml", edited(("gdNIT = 2000", "gdNIT = 2001")))
        self.assertIn("the constraints of the parameters are not checked",
                      self.flexlab("build", "a.toml", env={"FLEXRAY": self.path("none")})[1])

    def test_no_file(self):
        self.assertIn("none.toml: No such file", self.flexlab("build", "none.toml", status=3)[1])

    def test_the_files(self):
        self.write("a.toml", EXAMPLE)
        self.flexlab("build", "a.toml")
        drift, script, params = (self.read("a.lab", f"{name}.csv") for name in ("drift", "script", "params"))
        for row in ("doubles,200,,,,", "length,1,0,999850,,", "length,2,0,1000150,,", "length,3,0,1000040,,",
                    "length,5,0,1000000,,", "start,2,60000000,0,,", "delay,1,2,A,0,300000", "delay,1,3,B,0,480000",
                    "delay,1,3,A,0,300000", "length,3,180,999980,,"):
            self.assertIn(f"{row}\n", drift)
        for row in ("arbitrary,6,,,,,", "say,0,6,1,A,-100000000,", "say,399,6,2,B,100000000,",
                    "say,7,6,5,A,-100000000,"):
            self.assertIn(f"{row}\n", script)
        for row in ("param,xRateBound,200,,", "param,xChangeBound,1,,", "param,xDelayError,500000,,",
                    "param,gdStaticSlot,50,,", "node,1,1,AB,1", "node,5,,A,0", "slot,10,1,0,2"):
            self.assertIn(f"{row}\n", params)
        self.assertNotIn("6,5,B", script)
        self.assertNotIn("length,6", drift)

    def test_a_ramp_steps_by_single_ticks(self):
        self.write("a.toml", EXAMPLE)
        self.flexlab("build", "a.toml")
        rows = [line.split(",") for line in self.read("a.lab", "drift.csv").splitlines()
                if line.startswith("length,3,")]
        lengths = [int(row[3]) for row in rows]
        self.assertEqual((lengths[0], lengths[-1], len(lengths)), (1000040, 999980, 61))
        self.assertTrue(all(before - after == 1 for before, after in zip(lengths, lengths[1:])))

    def test_every_unit_of_a_time(self):
        for written in ("us = 0.0125", "ns = 12.5", "microticks = 0.5", "ticks = 500000"):
            self.write("a.toml", edited(("microticks = 0.3", written)))
            self.flexlab("build", "a.toml")
            self.assertIn("delay,1,2,A,0,500000\n", self.read("a.lab", "drift.csv"))

    def test_rows_of_frames(self):
        self.write("a.toml", EXAMPLE + "[[lose]]\nfrom = 1\nto = \"all\"\nchannels = \"A\"\ncycles = \"5-6\"\n"
                                       "[[flip]]\nfrom = 3\nto = 2\ncycles = 9\nbit = 191\n")
        self.flexlab("build", "a.toml")
        script = self.read("a.lab", "script.csv")
        for row in [f"lose,{cycle},1,{node},A,," for cycle in (5, 6) for node in (2, 3, 4, 5)] + [
                "flip,9,3,2,A,191,", "flip,9,3,2,B,191,"]:
            self.assertIn(f"{row}\n", script)

    def test_a_compensation_for_each_channel(self):
        text = edited(("pDelayCompensation = 0", "pDelayCompensationA = 0\npDelayCompensationB = 9"),
                      ('channels = "B"\nns = 12', 'channels = "B"\nns = 225'))
        self.write("a.toml", text)
        self.flexlab("build", "a.toml")
        params = self.read("a.lab", "params.csv")
        self.assertTrue(params.startswith("version,2,,,\nparam,gMacroPerCycle,5000,,\n"))
        self.assertIn("param,pRateCorrectionOut,81,,\nparam,pDelayCompensationA,0,,\nparam,pDelayCompensationB,9,,\nparam,xRate", params)
        self.assertNotIn("pDelayCompensation,", params)
        # The program takes them, and the page tells which of both a delay is off from.
        page = self.one_line(self.flexlab("run", "a.toml")[0])
        self.assertIn("travel 0.008 us to node 2 on channel B; the compensation is 0.225 us, and xDelayError allows for 0.013 us", page)
        self.assertIn("turn limits.delay_error_us, or pDelayCompensationB", page)

    def test_names_of_nodes(self):
        name = "Gate'way `touch pwned` $(x) _^{a}"
        text = edited(("id = 1\n", f"id = 1\nname = \"{name}\"\n"), ("id = 3\n", 'id = 3\nname = "Brems_Öl"\n'),
                      ("id = 6\n", "id = 6\nname = 'L\"ügner'\n"))
        self.write("a.toml", text)
        page = self.flexlab("run", "a.toml")[0]
        self.assertRegex(page, r"(?m)^   3 active .*  Brems_Öl$")
        self.assertIn('   6 (L"ügner) arbitrary: it says', page)
        found = json.loads(self.flexlab("run", "--json", "a.toml")[0])
        self.assertEqual(found["cluster"]["names"], {"1": name, "3": "Brems_Öl", "6": 'L"ügner'})
        self.assertEqual(self.read("a.lab", "params.csv").count("node,"), 6)

    @needs("gnuplot")
    def test_names_in_pictures_are_data(self):
        name = "x' `touch pwned` $(x)"
        self.write("a.toml", edited(("id = 1\n", f"id = 1\nname = \"{name}\"\n"), ("id = 3\n", 'id = 3\nname = "Brems_{Öl}"\n')))
        self.flexlab("run", "-p", "a.toml")
        self.assertFalse(os.path.exists(self.path("pwned")))
        drawn = html.unescape(self.read("a.lab", "terms.svg"))
        self.assertIn(f"node 1 {name[:18]}..", drawn)
        self.assertIn("node 3 Brems_{Öl}", drawn)

    def test_rows_of_nodes_that_join(self):
        self.write("a.toml", EXAMPLE + "[[join]]\nnode = 5\nreference = 2\ndouble_cycle = 20\n"
                                       "[[join]]\nnode = 3\nreference = 1\ndouble_cycle = 4\n")
        self.flexlab("build", "a.toml")
        self.assertTrue(self.read("a.lab", "script.csv").startswith(
            "arbitrary,6,,,,,\njoin,4,3,1,,,\njoin,20,5,2,,,\nsay,0,6,1,A,"))

    def test_the_files_of_the_example_are_those_of_its_toml(self):
        folder = os.path.join(REPOSITORY, "examples", "bench")
        self.flexlab("build", "-o", ".", os.path.join(folder, "bench.toml"))
        for name in ("params.csv", "drift.csv", "script.csv"):
            with open(os.path.join(folder, name), encoding="ascii") as file:
                self.assertEqual(file.read(), self.read(name))

    def test_the_cluster_of_production_shape_has_the_parameters_beside_it(self):
        folder = os.path.join(REPOSITORY, "examples", "sharp")
        self.flexlab("build", "-o", ".", os.path.join(folder, "sharp.toml"))
        with open(os.path.join(folder, "params.csv"), encoding="ascii") as file:
            self.assertEqual(sorted(file), sorted(self.read("params.csv").splitlines(keepends=True)))

    def test_new_does_not_write_over_a_file(self):
        self.write("a.toml", "kept")
        self.assertIn("a.toml: File exists", self.flexlab("new", "a.toml", status=3)[1])
        self.assertEqual(self.read("a.toml"), "kept")
        self.assertEqual(self.flexlab("new", "-")[0], EXAMPLE)


if __name__ == "__main__":
    unittest.main()
