"""Hostile texts: mutations of TOML files and of files of records that keep their structure, each from a seed."""
import random
import re

from flexlab.toml.keys import TABLES, every

# What stands in the place of a value: numbers at and beyond their ranges, texts, lists, and what is no TOML.
NUMBERS = (
    "0", "1", "-1", "2", "3", "5", "15", "16", "63", "64", "65", "99", "127", "128", "1023", "1024", "0.5", "-0.0", "1.5", "12.5",
    "25", "1e1", "1e-3", "+7", "100000", "100001", "199999", "200000", "333333", "1000000", "-1000000", "999999999999",
    "1000000000001", "1e12", "1e999999999", "1e-999999999", "9" * 70, "0." + "3" * 70, "0x10", "0o7", "0b11", "1_000", "1__0", "01",
    "inf", "nan", "-inf", "1.", ".5", "1e", "--1")
TEXTS = (
    '"all"', '"1-4,6"', '"1"', '"0-399"', '"3-"', '"5-1"', '"200000"', '"A"', '"B"', '"AB"', '"BA"', '"ab"', '""', '"a"', "'x'",
    '"drift"', '"-drift"', '"\\u0041"', '"\\x"', '"__proto__"', '"constructor"', '"00ff"', '"0g"', '"\u0663"', '"\u00b2"',
    '"1-64,1-64"', '"\ud7ff"', '"unclosed', '"a"b"', '"""a"""')
OTHERS = (
    "true", "false", "[]", "[1, 2]", "[1, [2]]", '["1-2", 3]', "[1", "[" * 50, "{}", "{ uniform = [0, 1] }",
    "{ normal = [0, 30], limit = 1 }", "{ a", "1979-05-27", "", "= 1", "1, 2", "1 2", "# 1", "all")
NAMES = (
    "__proto__", "constructor", "toString", "hasOwnProperty", "valueOf", "prototype", "length", "nod", "node", "Node", "cluster",
    "bench", "values", "limits", "run", "join", "say", "us", "ns", "ticks", "microticks", "ppm_from", "ppm_to", "id", "from", "to",
    "channels", "cycles", "name", "a.b", '"id"', "x" * 300)
FIELDS = (
    "0", "1", "2", "-1", "5", "64", "65", "1000000", "999999999999999999", "9" * 30, "A", "B", "AB", "ab", "", " 1", "1 ", "+1", "0x1",
    "1.0", '"1"', "param", "node", "length", "delay", "lose", "say", "__proto__", "constructor", "toString", "00", "0g", "\u00e9",
    "\u0000", "x" * 500)

# Keys of tables of which there may be several, and values that most of these take.
LISTED = tuple(name for name, table in TABLES.items() if table.is_many)
KEYS = sorted({key.name for key in every() if key.table in LISTED})
GOOD = {"node": '"1"', "nodes": '"all"', "from": '"all"', "to": '"all"', "cycles": '"3-9"', "channels": '"A"', "us": "0.5", "ppm": "20",
        "ppm_from": "0", "ppm_to": "9", "bit": "9", "early": "[1, 2]"}


class Mutated:
    """Texts of one seed."""

    def __init__(self, seed: int) -> None:
        self.chance = random.Random(seed)

    def toml(self, text: str) -> str:
        """A TOML file with one to four things that are otherwise."""
        for _ in range(self.chance.choice((1, 1, 1, 2, 2, 3, 4))):
            how = (self.value, self.value, self.key, self.table, self.line, self.letters, self.added, self.added, *[self.nudged] * 6)
            text = self.chance.choice(how)(text)
        return text

    def any_value(self) -> str:
        return self.chance.choice(self.chance.choice((NUMBERS, NUMBERS, TEXTS, OTHERS)))

    def replaced(self, pattern: str, text: str, by: str) -> str:
        found = list(re.finditer(pattern, text, re.M))
        if not found:
            return text
        one = self.chance.choice(found)
        return text[:one.start(1)] + by + text[one.end(1):]

    def value(self, text: str) -> str:
        return self.replaced(r"^[\w-]+\s*=\s*([^#\n]*?)\s*(?:#.*)?$", text, self.any_value())

    def nudged(self, text: str) -> str:
        """A number that is a little otherwise, which is mostly taken."""
        found = [one for one in re.finditer(r"^[\w-]+\s*=\s*(-?\d+)\s*(?:#.*)?$", text, re.M)]
        if not found:
            return text
        one = self.chance.choice(found)
        number = int(one[1])
        by = self.chance.choice((f"{number + 1}", f"{number - 1}", f"{number * 2}", f"{number // 2}", f"{number}.5", f"{number}.0",
                                 f"{number}e0"))
        return text[:one.start(1)] + by + text[one.end(1):]

    def key(self, text: str) -> str:
        return self.replaced(r"^([\w-]+)\s*=", text, self.chance.choice(NAMES))

    def table(self, text: str) -> str:
        head = self.chance.choice(("[%s]", "[[%s]]", "[%s", "[[%s]", "[ %s ]")) % self.chance.choice(NAMES)
        return self.replaced(r"^(\[\[?[\w-]+\]\]?)\s*(?:#.*)?$", text, head)

    def added(self, text: str) -> str:
        """A table of its own behind the others, of keys that tables have."""
        name = self.chance.choice((*LISTED, *LISTED, *NAMES))
        keys = self.chance.sample(KEYS, self.chance.randrange(1, 6))
        values = [GOOD.get(key, "2") if self.chance.random() < 0.8 else self.any_value() for key in keys]
        return text + f"\n[[{name}]]\n" + "".join(f"{key} = {value}\n" for key, value in zip(keys, values))

    def line(self, text: str) -> str:
        """A line is left out, stands twice, or at another place."""
        lines = text.split("\n")
        at, other = self.chance.randrange(len(lines)), self.chance.randrange(len(lines))
        how = self.chance.randrange(3)
        if how == 0:
            del lines[at]
        else:
            lines.insert(other, lines[at] if how == 1 else lines.pop(at))
        return "\n".join(lines)

    def letters(self, text: str) -> str:
        """Some letters are left out, doubled, or others."""
        at = self.chance.randrange(max(1, len(text)))
        length = self.chance.choice((1, 1, 2, 5, 40))
        put = self.chance.choice(("", text[at:at + length] * 2, self.chance.choice("[]{}=\"'#,.\n\r\t\0\x7f\\-+_\u00e9\U0001f600")))
        return text[:at] + put + text[at + length:]

    def records(self, text: str) -> str:
        """A file of records with one to four fields or records that are otherwise."""
        for _ in range(self.chance.choice((1, 1, 2, 3, 4))):
            lines = text.split("\n")
            at = self.chance.randrange(len(lines))
            fields = lines[at].split(",")
            how = self.chance.randrange(6)
            if how < 3:
                fields[self.chance.randrange(len(fields))] = self.chance.choice(FIELDS)
                lines[at] = ",".join(fields)
            elif how == 3:
                del fields[self.chance.randrange(len(fields))]
                lines[at] = ",".join(fields)
            else:
                text = self.line(text) if how == 4 else self.letters(text)
                continue
            text = "\n".join(lines)
        return text
