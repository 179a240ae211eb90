"""The page's scripts under node: what they make of TOML files is what flexlab makes of them, hostile files are refused with a reason,
in little time, and leave nothing behind.

The mutations are of a seed that is printed where a test fails, and which FLEXLAB_SEED sets; FLEXRAY_MUTATIONS is how many of each kind
there are. bench/mutate-page has more of them.
"""
import json
import os
import random
import re
import shutil
import subprocess
import time
import unittest
from collections.abc import Callable, Sequence
from pathlib import Path
from typing import Any

import mutations
from bench import EXAMPLE, REPOSITORY, TOOLS, Bench, ExampleCall, example_calls
from mutated import Mutated
from flexlab.base import files as flexlab_files, ranges
from flexlab.base.ending import Stop
from flexlab.toml.cluster import read_cluster
from flexlab.toml.source import KEYS, SINGLE
from flexray import results, texts

EXAMPLES = Path(REPOSITORY, "examples")
FILES = ("params", "drift", "script")
SEED = int(os.environ.get("FLEXLAB_SEED") or time.time_ns() % 1_000_000)
COUNT = int(os.environ.get("FLEXRAY_MUTATIONS") or 90)
# Processor seconds that a task may take on a busy machine; a form may make more than a million records.
SECONDS = 20
REASONS = ("Shape", "UnknownName", "NotNumber", "OutOfRange", "UnknownNode", "BadChannel", "Role", "Link", "NotHex", "Repeated")
# What flexlab alone reads: a fault there is none of what the page has.
OF_FLEXLAB = ("power[", "power:", "observer", "asc")


def checks_of(side: str, checks: Sequence[results.Check]) -> list[dict[str, Any]]:
    return [{"side": side, "number": one.number, "holds": one.holds, "left": str(one.left), "right": str(one.right)} for one in checks]


def run_taken(text: str) -> dict[str, Any]:
    told = texts.report(text)
    ends = [{"node": str(end.node), "state": end.state, "rate": str(end.rate), "offset": str(end.offset)} for end in told.ends]
    skew = told.greatest
    return {"counts": {"nodes": told.nodes, "sync": told.sync, "arbitrary": told.arbitrary, "doubles": told.doubles},
            "precision": str(told.precision), "covered": told.covered, "gap": " ".join(told.gap), "inSync": told.in_sync,
            "greatest": {"ticks": str(skew.ticks), "cycle": skew.cycle, "macrotick": skew.macrotick}, "sentA": str(told.sent_a.frames),
            "sentB": str(told.sent_b.frames), "heard": " ".join(f"{name} {count}" for name, count in vars(told.heard).items()),
            "cut": str(told.cut), "ends": ends}


def bound_taken(text: str) -> dict[str, Any]:
    told = texts.bound(text)
    return {"checks": checks_of("", told.checks), "y1": str(told.y1), "lambda": str(told.lambda_), "pi": str(told.pi),
            "precision": str(told.precision), **({} if told.reach is None else {"reach": str(told.reach)})}


SIDES = ("alone", "beside")


def sharp_bound_taken(text: str) -> dict[str, Any]:
    told = texts.sharp_bound(text)
    found: dict[str, Any] = {"flutter": str(told.flutter), "lasts": "on" if told.lasts is None else str(told.lasts)}
    for side, bounds in zip(SIDES, (told.alone, told.beside)):
        found.update({f"{side} lambda": str(bounds.lambda_), f"{side} pi": str(bounds.pi), f"{side} precision": str(bounds.precision),
                      side: [{**one, "side": ""} for one in checks_of("", bounds.checks)]})
        if told.joins:
            found[f"{side} reach"] = str(bounds.reach)
            found["first rates last"] = "on" if told.first_rates_last is None else str(told.first_rates_last)
    return found


def sharp_bound_shown(taken: dict[str, Any]) -> dict[str, Any]:
    """The checks by side: those of no side are of both."""
    checks = taken.pop("checks")
    return {**taken, **{side: [{**one, "side": ""} for one in checks if one["side"] in ("", side)] for side in SIDES}}


def series_taken(text: str) -> dict[str, Any]:
    told = texts.sharp_series(text)
    first, skew, sharp = told.sharp_synced, told.greatest, told.sharp_greatest
    return {"skew": list(told.cycles.skews), "flutter": [str(told.flutter)], "sharp": [str(told.precision), told.kind],
            "sharp covered": ["yes" if told.sharp_covered else "no"], "sharp synced": ["-" if first is None else str(first)],
            "greatest": [str(skew.ticks) if skew else "-"], "sharp greatest": [str(sharp.ticks) if sharp else "-"],
            "synced": ["yes" if told.synced else "no"]}


def series_shown(taken: dict[str, Any]) -> dict[str, Any]:
    """What the page shows of the lines below the cycles: their first words."""
    counts = {"sharp": 2}
    names = ("flutter", "sharp", "sharp covered", "sharp synced", "greatest", "sharp greatest", "synced")
    return {"skew": taken["skew"], **{name: taken["last"][name][:counts.get(name, 1)] for name in names}}


# Of each kind of text what the package says of it, and of some what of the page's answer that is held against.
TAKEN: dict[str, Callable[[str], dict[str, Any]]] = {
    "run": run_taken, "bound": bound_taken, "bound join": bound_taken, "bound sharp": sharp_bound_taken,
    "bound sharp join": sharp_bound_taken, "series by both": series_taken}
SHOWN = {"bound sharp": sharp_bound_shown, "bound sharp join": sharp_bound_shown, "series by both": series_shown}


def runs() -> list[ExampleCall]:
    return [call for call in example_calls() if len(call.files) == 3]


@unittest.skipUnless(shutil.which("node"), "node is not installed: the Debian package is nodejs")
class Scripts(Bench):
    def setUp(self) -> None:
        super().setUp()
        self.process = subprocess.Popen(["node", os.path.join(TOOLS, "tests", "page_scripts.js")], stdin=subprocess.PIPE,
                                        stdout=subprocess.PIPE, text=True, encoding="utf-8", errors="surrogatepass")
        self.addCleanup(self.end)

    def end(self) -> None:
        for stream in (self.process.stdin, self.process.stdout):
            if stream:
                stream.close()
        self.process.wait()

    def ask(self, task: str, most: float = SECONDS, **given: Any) -> dict[str, Any]:
        """What the scripts answer: no fault of theirs, in time, and with nothing left behind."""
        assert self.process.stdin and self.process.stdout
        self.process.stdin.write(json.dumps({"task": task, **given}) + "\n")
        self.process.stdin.flush()
        line = self.process.stdout.readline()
        self.assertTrue(line, f"node ended (seed {SEED})")
        found: dict[str, Any] = json.loads(line)
        self.assertNotIn("fault", found, f"{found} (seed {SEED})")
        self.assertLess(found["seconds"], most, f"seed {SEED}")
        self.assertTrue(found["clean"], f"something is left in the prototypes (seed {SEED})")
        if "no" in found:
            self.assertLess(len(found["no"]), 500, f"seed {SEED}")
        return found

    def test_tables_keys_and_ranges_are_those_of_flexlab(self) -> None:
        found = self.ask("tables")
        self.assertEqual({name: sorted(keys) for name, keys in found["tables"].items()}, {name: sorted(keys) for name, keys in KEYS.items()})
        self.assertEqual(sorted(found["one"]), sorted(SINGLE))
        self.assertEqual({name: (least, most) for name, least, most, *_ in found["ranges"]},
                         {name: (one.least, one.most) for name, one in {**ranges.PARAMETERS, **ranges.OF_CHANNELS}.items()})

    def test_refusals_of_numbers_are_those_of_flexlab(self) -> None:
        bench = (EXAMPLES / "bench" / "bench.toml").read_text()
        tried = 0
        for table, key in (("bench", "microtick_ns"), ("cluster", "gPayloadLengthStatic"), ("cluster", "pAllowHaltDueToClock"),
                           ("limits", "oscillator_ppm"), ("limits", "delay_error_us"), ("run", "double_cycles"), ("node", "ppm"),
                           ("node", "key_slot"), ("node", "start_us"), ("delay", "microticks"), ("oscillator", "ppm_from")):
            for number in ("-1e15", "1e15", '"x"'):
                text = re.sub(rf"(?ms)^(\[+{table}\].*?^){key} = [^\n]*", rf"\g<1>{key} = {number}", bench, count=1)
                self.assertNotEqual(text, bench, key)
                told = re.sub(r"^line \d+: ", "", self.ask("toml", text=text)["no"])
                self.assertRegex(told, rf"^{table}(\[\d\])?\.{key}: .* (is not|is neither) a (whole )?number from ")
                self.assertIn(told, self.by_flexlab(text))
                tried += 1
        self.assertEqual(tried, 33)
        beside = bench.replace("[limits]\n", "[limits]\nxDelayError = 5\n").replace("[limits] ", "[limits]\nxDelayError = 5\n#")
        told = re.sub(r"^line \d+: ", "", self.ask("toml", text=beside)["no"])
        self.assertEqual(told, "limits.delay_error_us: `xDelayError` (ticks) stands beside it: it wants one of both")
        self.assertIn(told, self.by_flexlab(beside))

    def test_printed_texts_are_taken_apart_as_by_the_package(self) -> None:
        """Of each example whose text the page shows, what it shows is what the package flexray says of that text."""
        tried = dict.fromkeys(TAKEN, 0)
        for call in example_calls():
            words = [word for word in (call.words[0], *call.words[2:]) if word in ("run", "bound", "sharp", "join", "lost")]
            kind = " ".join(["series"] * call.is_series + words).replace("series sharp", "series by both")
            if call.status == 0 and kind in TAKEN:
                with self.subTest(call.name):
                    tried[kind] += 1
                    taken = self.ask("printed", kind=kind.partition(" ")[0], text=call.text.decode())
                    shown = SHOWN.get(kind, dict)({name: taken[name] for name in taken if name not in ("seconds", "clean")})
                    self.assertEqual(shown, TAKEN[kind](call.text.decode()))
        self.assertTrue(all(tried.values()), tried)

    def test_of_what_runs_something_is_proved(self) -> None:
        """Of one that is covered, or covered through losses: it then has a bound. Others have a number of double cycles too."""
        text = (EXAMPLES / "sharp" / "series" / "printed.txt").read_text()
        for covered, synced, lost, wanted in (("yes,,,", "2,62", "0,-,36003994,2", "proved for 62 double cycles from there on"),
                                              ("no,,,link 1 2 4", "2,62", "1,4,36003994,2", "proved for 62 double cycles from there on"),
                                              ("no,,,link 1 2 4", "2,0", "1,4,36003994,2", "nothing is proved from there on"),
                                              ("no,,,count 2 1", "2,62", "0,-,-,-", ""), ("no,,,check 2 2 3", "2,0", "0,-,-,-", ""),
                                              ("yes,,,", "2,on", "0,-,36003994,2", ""), ("yes,,,", "-,", "0,-,-,-", "")):
            with self.subTest(covered=covered, synced=synced):
                given = re.sub(r"(?m)^(sharp covered|sharp synced|lost),.*$", lambda line: {
                    "sharp covered": f"sharp covered,{covered}", "sharp synced": f"sharp synced,{synced},,",
                    "lost": f"lost,{lost}"}[line[1]], text)
                self.assertEqual(self.ask("lasting", text=given)["words"], wanted)

    def by_flexlab(self, text: str) -> Any:
        """{file: its lines in an order of their own}, or the line of the refusal."""
        path = self.path("cluster.toml")
        Path(path).write_bytes(text.encode("utf-8", "surrogatepass"))
        try:
            cluster = read_cluster(path)
        except Stop as stop:
            return stop.line
        lines = {"params": flexlab_files.parameter_lines, "drift": flexlab_files.drift_lines, "script": flexlab_files.script_lines}
        return {name: sorted(line.rstrip("\n") for line in of(cluster)) for name, of in lines.items()}

    @staticmethod
    def in_order(files: dict[str, str]) -> dict[str, list[str]]:
        return {name: sorted(text.splitlines()) for name, text in files.items()}

    def held_against_flexlab(self, text: str, what: str) -> bool:
        """Whether the page takes a text. What it takes, flexlab takes with the same files."""
        found = self.ask("toml", text=text)
        if "no" in found:
            return False
        wanted = self.by_flexlab(text)
        if isinstance(wanted, str) and any(f": {word}" in wanted for word in OF_FLEXLAB):
            return False
        told = f"{what}\n{text}"
        self.assertEqual(self.in_order(found["files"]), wanted, told)
        if found["form"] == "object":
            self.assertEqual(found["wrong"], [], told)
            for name in FILES:
                self.assertEqual(self.without_words(found["written"][name]), self.without_words(found["files"][name]), told)
            if found["toml"]:
                again = self.ask("toml", text=found["toml"])
                self.assertNotIn("no", again, told)
                for name in FILES:
                    self.assertEqual(self.without_words(again["files"][name]), self.without_words(found["files"][name]), told)
        return True

    @staticmethod
    def without_words(text: str) -> list[str]:
        """Records that say something: a length that is the nominal one is none, where no other one is before it."""
        kept, known = [], {}
        for line in text.splitlines():
            fields = line.split(",")
            if fields[0] == "length":
                before = known.get(fields[1], "1000000")
                known[fields[1]] = fields[3]
                if before == fields[3]:
                    continue
            kept.append(line)
        return sorted(kept)

    def test_mutated_toml_files_are_those_of_flexlab_or_refused(self) -> None:
        mutated, taken = Mutated(SEED), 0
        texts = [EXAMPLE, (EXAMPLES / "bench" / "bench.toml").read_text(), (EXAMPLES / "sharp" / "sharp.toml").read_text()]
        texts = [text.replace("double_cycles = 200", "double_cycles = 12") for text in texts]
        for text in texts:
            self.assertTrue(self.held_against_flexlab(text, "unchanged"))
        draw = random.Random(SEED)
        for number in range(COUNT):
            text = texts[number % 3]
            # Each third is one of those that flexlab is tried with; the page refuses what is no UTF-8 before.
            made = mutations.of_text(draw, text.encode()).decode("utf-8", "replace") if number % 3 == 2 else mutated.toml(text)
            taken += self.held_against_flexlab(made, f"seed {SEED}, number {number}")
        # A mutation that everything refuses would show nothing.
        self.assertGreaterEqual(taken, max(1, COUNT // 20), f"seed {SEED}")

    def test_mutated_files_of_records(self) -> None:
        """What the form shows of three files is what they say, or it says that it cannot; each refusal is explained."""
        mutated, shown = Mutated(SEED + 1), 0
        small = [call for call in runs() if call.files[1].stat().st_size < 20000]
        for number in range(COUNT):
            call = small[number % len(small)]
            files = {name: path.read_text() for name, path in zip(FILES, call.files)}
            role = FILES[number % 3]
            files[role] = mutated.records(files[role])
            count = len([line for line in files[role].splitlines() if line])
            line = f"{role}: record {1 + mutated.chance.randrange(count + 2)}: {mutated.chance.choice(REASONS)}"
            found = self.ask("files", files=files, microtick="25", line=line)
            told = f"seed {SEED}, number {number}, {call.name}, {line}\n{files[role]}"
            self.assertLess(sum(map(len, found["told"])), 2500, told)
            if found["form"] == "object" and not found["wrong"]:
                shown += 1
        self.assertGreaterEqual(shown, max(1, COUNT // 20), f"seed {SEED}")

    def test_a_form_that_is_filled_in_anyhow(self) -> None:
        """Fields of a form are texts of a person: each is written or said to be wrong, and nothing else comes of it."""
        mutated = Mutated(SEED + 2)
        base = self.ask("toml", text=EXAMPLE.replace("double_cycles = 200", "double_cycles = 12"))
        self.assertEqual(base["form"], "object")
        node = {"id": "1", "name": "", "key": "1", "channels": "AB", "cold": False, "arbitrary": False, "ppm": "0", "start": "0",
                "rate": "0", "double": "", "reference": ""}
        rows = {"nodes": [{**node, "id": str(number), "key": str(number), "arbitrary": number == 3} for number in (1, 2, 3)],
                "slots": [{"slot": "9", "node": "1", "base": "0", "repetition": "1"}],
                "lengths": [{"node": "1", "first": "3", "last": "9", "from": "0", "to": "5"},
                            {"node": "2", "first": "3", "last": "", "from": "9", "to": ""}],
                "delays": [{"from": "all", "to": "1-2", "channels": "AB", "cycles": "0-8/2", "ns": "12"}],
                "faults": [{"kind": "say", "from": "3", "to": "all", "channels": "A", "cycles": "all", "value": "1", "bytes": ""},
                           {"kind": "lose", "from": "1", "to": "2", "channels": "AB", "cycles": "5", "value": "", "bytes": ""}]}
        texts = ("", "x", "0", "-1", "1e9", "9" * 40, "1-64", "64-1", "all", "0-199999", "0-199999/3", "0-199999,0-199999", "200000",
                 "1,2,3", "__proto__", "toString", ",", "\u0663", " 7 ", "0,5")
        for _ in range(COUNT):
            cluster = {"microtick": "25", "version": 1, "parameters": {"gMacroPerCycle": "5000"}, "doubles": "5",
                       **json.loads(json.dumps(rows))}
            for _ in range(mutated.chance.randrange(1, 4)):
                part = mutated.chance.choice(list(rows))
                row = mutated.chance.choice(cluster[part])
                keys = [key for key in row if isinstance(row[key], str) and key not in ("kind", "channels")]
                row[mutated.chance.choice(keys)] = mutated.chance.choice(texts)
            if mutated.chance.random() < 0.2:
                cluster[mutated.chance.choice(("doubles", "microtick"))] = mutated.chance.choice(texts)
            found = self.ask("form", cluster=cluster)
            if "0-199999/3" not in str(cluster) and not any("0-199999" in row["cycles"] for row in cluster["delays"]):
                # Else there may be too many tables for a TOML file.
                self.assertEqual(found["toml"] is None, bool(found["wrong"]), f"seed {SEED}: {cluster}")
            for part, at, field, why in found["wrong"]:
                self.assertIn(part, (*rows, "run"))
                self.assertTrue(why and field and (at is None or 0 <= at < len(cluster[part])))

    def test_names_that_objects_have(self) -> None:
        """A table, a key or a record that is called as something of JavaScript is refused, and later files are as before."""
        bench = (EXAMPLES / "bench" / "bench.toml").read_text()
        before = self.ask("toml", text=bench)["files"]
        for name in ("__proto__", "constructor", "toString", "hasOwnProperty", "valueOf"):
            for table in (f"[{name}]", f"[[{name}]]"):
                self.assertIn(f"there is no table `{name}`", self.ask("toml", text=f"{bench}\n{table}\nstart_us = 100\nrate = 7\n")["no"])
            self.assertIn(f"node[1].{name}: there is no such key",
                          self.ask("toml", text=bench.replace("id = 1\n", f"id = 1\n{name} = 7\n", 1))["no"])
            self.assertIn("neither", self.ask("toml", text=bench.replace("ppm = 150", f'ppm = "{name}"', 1))["no"])
            self.assertEqual(self.ask("toml", text=bench)["files"], before)
            files = {"params": "", "drift": f"{name},1,2,3,4,5\n", "script": f"{name},1,2,3,4,5,6\n"}
            for role in ("drift", "script"):
                told = self.ask("files", files=files, microtick="25", line=f"{role}: record 1: UnknownName")["told"]
                self.assertIn(f"“{name}” is none of", told[2])
                self.ask("files", files=files, microtick="25", line=f"{role}: record 1: Repeated")
            params = f"{name},1,,,\nparam,{name},7,,\nparam,gdNIT,x,,\n"
            for record, reason in ((1, "UnknownName"), (2, "UnknownName"), (2, "OutOfRange"), (3, "NotNumber")):
                self.ask("files", files={**files, "params": params}, microtick="25", line=f"params: record {record}: {reason}")

    def test_limits_are_told_before_anything_is_counted(self) -> None:
        bench = (EXAMPLES / "bench" / "bench.toml").read_text()

        def no(wanted: str, *changes: tuple[str, str], more: str = "") -> None:
            text = bench
            for old, new in changes:
                self.assertIn(old, text)
                text = text.replace(old, new, 1)
            found = self.ask("toml", text=text + more)
            self.assertIn(wanted, found.get("no", f"taken: {found.get('form')}"))

        no("run.double_cycles: 100000000000 is not a whole number from 1 to 100000",
           ("double_cycles = 200", "double_cycles = 100000000000"))
        no("has 300000 letters, and is no number", ("ppm = 150", "ppm = " + "9" * 300000))
        for number in ("9" * 31, "1e30", "1e999999999", "1e-31", "1e-999999999", "0e-31", "0." + "1" * 31, "0x" + "f" * 30):
            no("a number has at most 30 digits before the point, and as many behind it", ("ppm = 150", f"ppm = {number}"))
        no("limits.oscillator_ppm: 1000000 is not a number from 0 to 1498.25 ppm", ("oscillator_ppm = 200", "oscillator_ppm = 1000000"))
        no("node[1].ppm: -1000000 is not a number from -333333 to 1000000 ppm", ("ppm = 150", "ppm = -1000000"))
        for size in ("0", "-1", "0.5", "1001"):
            no(f"bench.microtick_ns: {size} is not a number from 1 to 1000 ns", ("microtick_ns = 25", f"microtick_ns = {size}"))
        no("values lie more than 8 deep", ("ppm = 150", "ppm = " + "[" * 3000 + "]" * 3000))
        no("1118481 at most", ("double_cycles = 200", "double_cycles = 100000"), ("late = [2, 4]", "late = [2, 3, 4]"),
           ("early = [1, 3]", "early = [1]"), more='[[lose]]\nfrom = "1-4"\nto = "1-4"\ncycles = "all"\n')
        no("there is no node 6", ("late = [2, 4]", f'late = "{",".join(["1-64"] * 20000)}"'))
        no("a list has no ] at its end", more="\nx = [\n" + "1,\n" * 200000)

    def test_long_texts_are_gone_through_once(self) -> None:
        """A text that is four times as long takes about four times as long."""
        bench = (EXAMPLES / "bench" / "bench.toml").read_text()
        for more in (lambda count: "\nx = [\n" + "1,\n" * count, lambda count: "\n# " + "x" * 10 * count, lambda count: "\n" * 10 * count,
                     lambda count: "\nx = '" + "a" * 10 * count, lambda count: '\nx = "' + "\\\\" * 5 * count,
                     lambda count: "\n" + '[[oscillator]]\nnodes = 1\nppm = 1\n' * (count // 20)):
            taken = []
            for count in (15000, 60000):
                taken.append(self.ask("toml", most=30, text=bench + more(count))["seconds"])
            # Of four times as long a text a quadratic way takes sixteen times as long.
            self.assertLess(taken[1], 8 * taken[0] + 0.3, taken)

    def test_a_ramp_over_many_cycles_is_soon_found(self) -> None:
        """Few changes in many cycles: the next one is looked for, and not each cycle."""
        nodes = "".join(f"node,{node},{node if node < 16 else ''},AB,0\n" for node in range(1, 65))
        steps = "".join(f"length,{node},{cycle},{ticks},,\n" for node in range(1, 65)
                        for cycle, ticks in ((0, 1000000), (1, 999999), (2, 999998), (3, 999997), (199990, 999996)))
        found = self.ask("files", files={"params": nodes, "drift": f"doubles,100000,,,,\n{steps}", "script": ""}, microtick="25", line="")
        self.assertEqual(found["form"], "object")
        wanted = [line for line in steps.splitlines() if not line.endswith(",0,1000000,,")]
        self.assertEqual(sorted(found["written"]["drift"].splitlines()), sorted(["doubles,100000,,,,", *wanted]))


if __name__ == "__main__":
    unittest.main()
