"""Numbers of a TOML file that are drawn: { uniform = [FROM, TO] }, or { normal = [MEAN, DEVIATION], limit = MOST }. Each
place draws by itself, from the seed, the number of the draw and its name, so that the same words give the same run."""
import math
import random
from decimal import Decimal
from fractions import Fraction
from collections.abc import Iterator
from typing import Any, TypeGuard

from ..base.ending import REFUSED, Stop, printable
from .keys import TABLES
from .places import line_of

FORMS = "{ uniform = [FROM, TO] } or { normal = [MEAN, DEVIATION], limit = MOST }, and whole = true for whole numbers"
# What tomllib hands out of a table.
Entries = dict[str, Any]
SEED = TABLES["run"].keys["seed"].whole_span()
TRIES = 10000


def is_number(value: object) -> TypeGuard[int | Decimal | Fraction]:
    return isinstance(value, (int, Decimal, Fraction)) and not isinstance(value, bool) and not (
        isinstance(value, Decimal) and not value.is_finite())


def pair(value: object) -> bool:
    return isinstance(value, list) and len(value) == 2 and all(is_number(one) for one in value)


def fault(value: Entries) -> str | None:
    """What is wrong with a distribution, or None."""
    kinds = [kind for kind in ("uniform", "normal") if kind in value]
    if len(kinds) != 1 or set(value) - {*kinds, "limit", "whole"} or not pair(value[kinds[0]]):
        return f"a number that is drawn is {FORMS}"
    if not isinstance(value.get("whole", False), bool):
        return "whole is true or false"
    first, second = value[kinds[0]]
    if kinds[0] == "uniform":
        return ("limit goes with normal" if "limit" in value else
                f"uniform runs from {first} to {second}, which is backward" if second < first else None)
    if second < 0:
        return f"the deviation, {second}, is below 0"
    if "limit" in value and not (is_number(value["limit"]) and value["limit"] * 10 >= second):
        return f"limit, the greatest distance from the mean, has to be a number of at least a tenth of {second}"
    return None


def one(value: Entries, name: str, seed: int, number: int) -> Fraction:
    """The number that this place draws, with six digits behind the point."""
    source = random.Random(f"{seed}/{number}/{name}")
    for _ in range(TRIES):
        if "uniform" in value:
            first, last = (float(bound) for bound in value["uniform"])
            found = first + (last - first) * source.random()
        else:
            mean, deviation = (float(bound) for bound in value["normal"])
            away = deviation * math.sqrt(-2 * math.log(1 - source.random())) * math.cos(2 * math.pi * source.random())
            if "limit" in value and abs(away) > float(value["limit"]):
                continue
            found = mean + away
        return Fraction(round(found)) if value.get("whole") else Fraction(round(found * 10 ** 6), 10 ** 6)
    return Fraction(value["normal"][0])


def places(entries: Entries) -> Iterator[tuple[str, int | None, Entries]]:
    """(table, number from 0 or None, entries) of each table of the file."""
    for name, table in entries.items():
        for index, one_table in enumerate(table) if isinstance(table, list) else [(None, table)]:
            if isinstance(one_table, dict):
                yield name, index, one_table


def draw(path: str, text: str, entries: Entries, seed: int | None, number: int) -> dict[str, Fraction]:
    """Puts numbers in place of distributions, and hands back what was drawn by name. The key `seed` of [run] is the seed
    where none is given."""
    own = entries.get("run", {}).pop("seed", 1) if isinstance(entries.get("run"), dict) else 1
    if not is_number(own) or own != int(own) or not SEED[0] <= own <= SEED[1]:
        raise Stop(REFUSED, f"{path}:{line_of(text, 'run', None, 'seed')}: run.seed: {printable(str(own))} is not a whole number from "
                            f"{SEED[0]} to {SEED[1]}")
    seed = int(own) if seed is None else seed
    found: dict[str, Fraction] = {}
    for table, index, holder in places(entries):
        for key, value in holder.items():
            if isinstance(value, dict):
                name = f"{printable(table)}.{printable(key)}" if index is None else f"{printable(table)}[{index + 1}].{printable(key)}"
                wrong = fault(value)
                if wrong:
                    line = line_of(text, table, index, key)
                    raise Stop(REFUSED, f"{path}{f':{line}' if line else ''}: {name}: {wrong}")
                found[name] = holder[key] = one(value, name, seed, number)
    return found
