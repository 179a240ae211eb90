"""The table of keys of the TOML file: what tools/keys writes of it stands in the repository, and the schema takes and refuses what
flexlab takes and refuses."""
import contextlib
import importlib.machinery
import importlib.util
import io
import json
import os
import re
import shutil
import tempfile
import tomllib
import unittest
from collections.abc import Iterator
from fractions import Fraction
from pathlib import Path
from types import ModuleType
from typing import Any

from bench import EXAMPLE, REPOSITORY, TOOLS
from flexlab.base.ending import Stop
from flexlab.toml import keys
from flexlab.toml.cluster import read_cluster
from flexlab.toml.keys import Key, Kind

WRITTEN = ("page/keys.js", "docs/flexlab.schema.json", "docs/FLEXLAB.md")


def tool() -> ModuleType:
    loader = importlib.machinery.SourceFileLoader("keys_tool", os.path.join(TOOLS, "keys"))
    spec = importlib.util.spec_from_loader("keys_tool", loader)
    assert spec
    found = importlib.util.module_from_spec(spec)
    loader.exec_module(found)
    return found


SCHEMA: dict[str, Any] = json.loads(Path(REPOSITORY, "docs", "flexlab.schema.json").read_text(encoding="utf-8"))
TYPES = {"object": dict, "array": list, "string": str, "boolean": bool}


def is_of(kind: str, value: object) -> bool:
    if kind in ("number", "integer"):
        return isinstance(value, (int, float)) and not isinstance(value, bool) and (kind == "number" or value == int(value))
    return isinstance(value, TYPES[kind])


def fits(value: Any, schema: dict[str, Any]) -> bool:
    """Whether a value is one of a schema, by the words of schemas that this one has; another word is a fault of the test."""
    for word, told in schema.items():
        if word in ("description", "default", "title", "$comment", "$schema", "definitions"):
            fit = True
        elif word == "$ref":
            fit = fits(value, SCHEMA["definitions"][told.removeprefix("#/definitions/")])
        elif word == "type":
            fit = is_of(told, value)
        elif word in ("minimum", "maximum"):
            fit = not is_of("number", value) or (value >= told if word == "minimum" else value <= told)
        elif word == "pattern":
            fit = not isinstance(value, str) or re.search(told, value, re.ASCII) is not None
        elif word == "maxLength":
            fit = not isinstance(value, str) or len(value) <= told
        elif word in ("enum", "const"):
            fit = value in told if word == "enum" else value == told
        elif word in ("anyOf", "oneOf", "allOf"):
            count = sum(fits(value, one) for one in told)
            fit = count == 1 if word == "oneOf" else count == len(told) if word == "allOf" else count > 0
        elif word == "not":
            fit = not fits(value, told)
        elif word == "required":
            fit = not isinstance(value, dict) or all(name in value for name in told)
        elif word == "properties":
            fit = not isinstance(value, dict) or all(fits(value[name], one) for name, one in told.items() if name in value)
        elif word == "additionalProperties":
            known = schema.get("properties", {})
            fit = not isinstance(value, dict) or all(told is not False and fits(value[name], told) for name in value if name not in known)
        elif word == "items":
            fit = not isinstance(value, list) or all(fits(one, told) for one in value)
        elif word in ("minItems", "maxItems"):
            fit = not isinstance(value, list) or (len(value) >= told if word == "minItems" else len(value) <= told)
        else:
            raise AssertionError(f"the test knows no word {word} of schemas")
        if not fit:
            return False
    return True


class Written(unittest.TestCase):
    def check(self, here: str) -> tuple[int, str]:
        found, told = tool(), io.StringIO()
        found.HERE = here
        with contextlib.redirect_stdout(told):
            return found.main(["--check"]), told.getvalue()

    def test_what_stands_in_the_repository_is_what_it_writes(self) -> None:
        self.assertEqual(self.check(REPOSITORY), (0, ""))

    def test_a_file_that_was_changed_is_told(self) -> None:
        for changed in WRITTEN:
            with self.subTest(changed), tempfile.TemporaryDirectory() as room:
                for name in WRITTEN:
                    os.makedirs(os.path.dirname(os.path.join(room, name)), exist_ok=True)
                    shutil.copy(os.path.join(REPOSITORY, name), os.path.join(room, name))
                path = Path(room, changed)
                path.write_text(path.read_text(encoding="utf-8").replace("gMacroPerCycle", "gMacroPerCircle"), encoding="utf-8")
                status, told = self.check(room)
                self.assertEqual(status, 1)
                self.assertEqual(re.findall(r"tools/keys: (\S+) is not", told), [changed])


class Schema(unittest.TestCase):
    def setUp(self) -> None:
        self.room = tempfile.TemporaryDirectory()
        self.addCleanup(self.room.cleanup)

    def refusal(self, text: str) -> str:
        """What flexlab says of a text; nothing where it takes it."""
        path = Path(self.room.name, "cluster.toml")
        path.write_text(text, encoding="utf-8")
        try:
            read_cluster(str(path))
        except Stop as stop:
            return stop.line
        return ""

    def test_the_examples(self) -> None:
        for name in ("bench/bench.toml", "sharp/sharp.toml", "import/backbone.toml"):
            with self.subTest(name):
                self.assertTrue(fits(tomllib.loads(Path(REPOSITORY, "examples", name).read_text(encoding="utf-8")), SCHEMA))
        self.assertTrue(fits(tomllib.loads(EXAMPLE), SCHEMA))

    def test_each_table_has_its_keys(self) -> None:
        self.assertEqual(list(SCHEMA["properties"]), list(keys.TABLES))
        for name, table in keys.TABLES.items():
            found = SCHEMA["properties"][name]
            found = found["items"] if table.is_many else found
            self.assertEqual(list(found.get("properties", {})), list(table.keys))

    def changed(self, table: str, key: str, spelt: str) -> str:
        """The base with another value of a key, in the first table of that name."""
        lines, inside, done = [], False, False
        for line in EXAMPLE.splitlines():
            if line.startswith("["):
                inside = line.strip("[] ").split("#")[0].strip("[] ") == table
            if inside and re.match(rf"{key}\s*=", line) and not done:
                line, done = f"{key} = {spelt}", True
            lines.append(line)
        self.assertTrue(done, f"{table}.{key}")
        return "\n".join(lines) + "\n"

    @staticmethod
    def there() -> Iterator[Key]:
        """The keys that the base has, in the first table of each name."""
        entries = tomllib.loads(EXAMPLE)
        for name, table in keys.TABLES.items():
            first = entries.get(name, {})
            first = first[0] if isinstance(first, list) else first
            yield from (key for key in table.keys.values() if key.name in first)

    def test_both_refuse_a_number_that_is_outside_its_range(self) -> None:
        tried = 0
        for key in self.there():
            if key.least and key.most and key.least.unit == key.most.unit == key.unit:
                for beyond in (key.least.value - 1, key.most.value + 1):
                    text = self.changed(key.table, key.name, str(beyond) if beyond.denominator == 1 else f"{float(beyond)}")
                    with self.subTest(f"{key.table}.{key.name} = {beyond}"):
                        self.assertFalse(fits(tomllib.loads(text), SCHEMA))
                        self.assertRegex(self.refusal(text), rf"{key.table}(\[1\])?\.{key.name}: .* is not a (whole )?number from")
                        tried += 1
        self.assertGreater(tried, 40)

    def test_both_refuse_a_value_of_another_kind(self) -> None:
        for key in self.there():
            wrong = '"7 of them"' if key.kind is not Kind.TEXT else "7"
            text = self.changed(key.table, key.name, wrong)
            with self.subTest(f"{key.table}.{key.name} = {wrong}"):
                self.assertFalse(fits(tomllib.loads(text), SCHEMA))
                self.assertRegex(self.refusal(text), rf"{key.table}(\[1\])?\.{key.name}: ")

    def test_both_refuse_a_key_that_is_unknown_missing_or_there_beside_another_of_its_choice(self) -> None:
        def other(pattern: str, more: str = "") -> str:
            return re.sub(rf"(?m)^{pattern}.*\n", more, EXAMPLE, count=1)

        for text in (EXAMPLE + "nothing = 1\n", EXAMPLE + "[nothing]\n", other("double_cycles"), other("gdNIT"), other("oscillator_ppm"),
                     other(r"\[limits\]", "[limits]\nxRateBound = 1\n"), other(r"\[cluster\]", "[cluster]\npDelayCompensationA = 1\n"),
                     other(r"\[\[two_faced\]\]", "[[two_faced]]\nus = 1\n")):
            self.assertNotEqual(text, EXAMPLE)
            self.assertFalse(fits(tomllib.loads(text), SCHEMA), text)
            self.assertNotEqual(self.refusal(text), "", text)

    def test_both_take_names_of_values_and_numbers_that_are_drawn(self) -> None:
        for spelt in ('"-drift"', "{ uniform = [-1, 1] }", "{ normal = [0, 3.5], limit = 9, whole = true }"):
            text = self.changed("node", "ppm", spelt)
            self.assertTrue(fits(tomllib.loads(text), SCHEMA), spelt)
            self.assertEqual(self.refusal(text), "")


class Ranges(unittest.TestCase):
    def test_a_range_in_ticks_by_the_length_of_the_microtick(self) -> None:
        key = keys.TABLES["limits"].keys["delay_error_ns"]
        self.assertEqual(key.span(keys.sizes(25)), (0, 250))
        self.assertEqual(keys.TABLES["power"].keys["on_ms"].span(keys.sizes(25, 1000)), (0, 16000))
        self.assertEqual(keys.TABLES["observer"].keys["resolution_ns"].span(keys.sizes(25)), (Fraction(1, 1000), 25000))

    def test_each_default_is_of_its_range(self) -> None:
        for key in keys.every():
            if isinstance(key.default, Fraction):
                least, most = key.span(keys.sizes(1, 1))
                self.assertTrue(least <= key.default <= most, key)


if __name__ == "__main__":
    unittest.main()
