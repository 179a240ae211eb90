"""Where a key of a TOML file stands: tomllib tells no lines, so they are looked for in the text."""
import functools
import re

HEAD = re.compile(r"\s*\[\[?\s*([\w-]+)\s*\]\]?\s*(#.*)?$")
KEY = re.compile(r"\s*(?:\"([^\"]*)\"|'([^']*)'|([\w-]+))\s*=")


@functools.lru_cache(maxsize=4)
def lines_of(text: str) -> dict[tuple[str, int], tuple[int, dict[str, int]]]:
    """The line of each table, by its name and its number of that name, and of each key in it."""
    found: dict[tuple[str, int], tuple[int, dict[str, int]]] = {}
    seen: dict[str, int] = {}
    keys: dict[str, int] = {}
    for number, line in enumerate(text.split("\n"), 1):
        head = HEAD.match(line)
        if head:
            keys = {}
            found[head[1], seen.get(head[1], 0)] = number, keys
            seen[head[1]] = seen.get(head[1], 0) + 1
        else:
            key = KEY.match(line)
            if key:
                keys.setdefault(key[1] or key[2] or key[3] or "", number)
    return found


def line_of(text: str, table: str, index: int | None, key: str | None) -> int | None:
    """The line, from 1, of a key in the table of this number (from 0), or of the table itself.

    Inline tables and dotted keys are not looked into: there the line of the table is told, or None.
    """
    found = lines_of(text).get((table, index or 0))
    if found is None:
        return None
    line, keys = found
    return line if key is None else keys.get(key, line)
