"""What a line of flexray on standard error says, with the files that it speaks of."""
import os
import re
import shlex
from fractions import Fraction
from dataclasses import dataclass
from collections.abc import Sequence

from flexray import texts
from flexray.results import FailedCheck

from .advice import (FORMULA, LETTERS, SHARP_FORMULA, SHARP_LETTERS, SHARP_WAY_FORMULA, SHARP_WAY_LETTERS, TURNS, WAY_FORMULA,
                     advise)
from ..toml.constraints import broken, explain_constraint
from ..base.ending import USAGE as WORDS
from ..base.files import check_is_file
from ..base.ending import DONE, FILE, NO, Stop, printable
from ..program.forms import FORMS, spelling
from .gaps import check_words, gap_words, held_words, sharp_check_words, sharp_way_words
from ..base.ranges import Parameters
from ..program.known import Known, version_of
from ..runs.least import Kind, sharp_bounds_of
from ..base.ranges import FILE_BYTES, NAMES, table
from ..program.reasons import EXPLAIN, MEANING, short
from ..program.records import Record, load
from ..program.requests import REQUESTS
from .machine import printed
from ..runs.sharp import MOST
from ..program import calls as programs


def forms() -> dict[str, str]:
    """By the first word how requests are spelt: `run PARAMS DRIFT SCRIPT or run PARAMS DRIFT SCRIPT sharp`."""
    found: dict[str, list[str]] = {}
    for words in REQUESTS:
        found.setdefault(words.split()[0], []).append(words)
    return {first: " or ".join(filter(None, [", ".join(several[:-1]), several[-1]])) for first, several in found.items()}


USAGE = forms()
# How names of files end that `flexlab log` turns into logs, beside CSV files.
CAPTURES = (".asc", ".blf", ".pcap", ".pcapng")


def file_of(role: str, words: Sequence[str]) -> str | None:
    """The path that has this role in flexray's words, or None."""
    if len(words) == 3 and words[0] not in programs.FILES:
        place = {"params": 0, "drift": 1, "script": 2}.get(role)
    else:
        place = programs.FILES.get(words[0] if words else "", {}).get(role)
    return words[place] if place is not None and place < len(words) else None


def named(role: str, words: Sequence[str]) -> str:
    """The path that has this role, or the end of flexlab where the words do not name it."""
    path = file_of(role, words)
    if path is None:
        form = USAGE.get(words[0] if words else "", "")
        raise Stop(WORDS, f"the words do not name the {role} file: they are those that flexray had, "
                          + (f"flexray {form}" if form else "as in flexlab explain run PARAMS DRIFT SCRIPT"))
    return path


def known_of(words: Sequence[str]) -> Known:
    has_none = words and words[0] in programs.FILES and "params" not in programs.FILES[words[0]]
    path = None if has_none else named("params", words)
    try:
        return Known(path)
    except OSError as fault:
        raise Stop(FILE, f"{path}: {fault.strerror}")


class Given(dict[str, int]):
    """The parameters of a file that flexray read. One that is not there ends flexlab: then this is another file."""

    def __init__(self, known: Known) -> None:
        super().__init__({name: value for name, (value, _) in known.values.items()})
        self.known = known

    def __missing__(self, name: str) -> int:
        return self.known.value(name)


def explain_line(line: str, words: Sequence[str]) -> list[str]:
    """Lines that explain a line of flexray's standard error; `words` are those that flexray had."""
    try:
        told = texts.failure(line)
    except texts.Strange:
        return [f"this line is none that flexlab knows: {line}"]
    if told.kind == "usage":
        return explain_usage(words)
    if told.kind == "read fault":
        return explain_read(told.role, file_of(told.role, words))
    if told.kind == "too long":
        path = named(told.role, words)
        return [f"{path}: it has {os.path.getsize(path)} bytes, and a file may have {FILE_BYTES}"]
    if told.kind == "frame":
        return explain_frame(*told.words)
    if told.kind == "record" and told.role in FORMS and told.words[0] in EXPLAIN:
        return explain_record(told.role, told.number or 0, told.words[0], words)
    if told.kind == "breach":
        return explain_breach(told.number or 0, *told.words, words=words)
    if told.kind == "gap":
        return explain_gap_of_trace(told.words, words)
    if told.kind == "missing":
        return explain_missing(told.role, told.words[0], words)
    if told.kind == "constraint":
        return explain_constraints(told.number or 0, words)
    if told.kind == "incomplete":
        return [f"{file_of(told.role, words)}: after its {told.number} records the trace is not whole: in the last "
                "cycle a correct node that takes part has no cycle row"]
    if told.kind in ("no memory", "write fault"):
        return ["memory ran out" if told.kind == "no memory" else "standard output could not be written: is the disk full, "
                "or did the program that reads it end?"]
    return [f"this line is none that flexlab knows: {line}"]


def explain_constraints(first: int, words: Sequence[str]) -> list[str]:
    """The constraint that a line names, and those that do not hold either."""
    known = known_of(words)
    found = [f"{named('params', words)}: constraint {first}:", *explain_constraint(first, known)]
    for number in broken(known):
        if number != first:
            found += [f"constraint {number} does not hold either:", *("  " + line for line in explain_constraint(number, known))]
    return found


# The words of a request that are no files, by their place: a name, and what they may be.
WORD = {
    ("settle", 2): ("START", 0, 1000000000000, "ticks by which the first starts may differ, 1000000 in a microtick"),
    ("settle", 3): ("RATE", 0, 1000000000000, "ticks by which the first lengths of cycles may differ"),
    ("settle", 5): ("FLUTTER", 0, MOST, "ticks by which a delay may differ between the two cycles of a double cycle"),
    ("bound", 3): ("FLUTTER", 0, MOST, "ticks by which a delay may differ between the two cycles of a double cycle"),
    ("make", 1): ("SEED", 0, 4294967295, ""), ("make", 2): ("DOUBLES", 1, 10000, "double cycles"),
    ("nm", 1): ("WIDTH", 1, 12, "bytes"),
}


def wrong_word(request: str, word: str, place: int) -> str | None:
    """What is wrong with one of the words behind a request, or None."""
    if request in ("frame", "capture") and place == 1 and word not in ("A", "B"):
        return f"{short(word)} is not A or B, the channel"
    if (request, place) in WORD:
        name, least, most, unit = WORD[request, place]
        if not re.fullmatch(r"\d{1,18}", word, re.ASCII) or not least <= int(word) <= most:
            return f"{short(word)} is not a whole number from {least} to {most}, for {name}" + (f": {unit}" if unit else "")
    return None


def is_power(words: Sequence[str]) -> bool:
    """Whether the words are `settle PARAMS power ..`."""
    return len(words) > 2 and words[0] == "settle" and words[2] == "power"


def explain_usage(words: Sequence[str]) -> list[str]:
    if words and words[0] in USAGE:
        found = [f"the words have to be: flexray {USAGE[words[0]]}",
                 f"and behind {words[0]} {len(words) - 1} were given: {short(' '.join(words[1:]))}"]
        places = [5 if place == 3 else 0 for place in range(1, len(words))] if is_power(words) else range(1, len(words))
        return found + [wrong for wrong in map(wrong_word, [words[0]] * len(words), words[1:], places) if wrong]
    return ["there are these requests:", *(f"  flexray {form}" for form in USAGE.values())]


def explain_read(role: str, path: str | None) -> list[str]:
    if path is None:
        return [f"the file that is the {role} could not be read"]
    try:
        check_is_file(path)
        with open(path, "rb") as file:
            file.read(1)
    except (OSError, Stop) as fault:
        return [f"{path} ({role}): {fault.strerror if isinstance(fault, OSError) else fault.line.removeprefix(path + ': ')}"]
    return [f"{path} ({role}): it could not be read then; now it can"]


# Of the records that have to be there, what each says.
MISSING = {
    "doubles": "with how many double cycles the run has", "cycles": "with how many cycles the startup has",
    "unit": "with how many ticks a unit of stamps is long",
    "drift": "with how many parts per million the clock of the analyzer may be off",
    "delay": "for some channel of a correct node with a key slot",
}


def explain_missing(role: str, name: str, words: Sequence[str]) -> list[str]:
    path = named(role, words)
    if name in NAMES:
        least, most, unit, meaning = NAMES[name]
        known = known_of(words)
        missing = [other for other in table(version_of(known.records)) if other not in known.values]
        return [f"{path}: there is no record `param,{name},VALUE,,`",
                f"{name} is from {least} to {most} {unit}".rstrip() + f": {meaning}",
                *([f"these are missing too: {', '.join(other for other in missing if other != name)}"]
                  if len(missing) > 1 else [])]
    form = FORMS.get(role)
    if form is None or name not in form.kinds or name not in MISSING:
        return [f"{path}: there is no record `{name}`"]
    fields, bare = form.kinds[name], form.bare.get(name)
    more = f"and no record `{spelling(name, bare)}` for all others" if bare else f"{fields[0].least} to {fields[0].most}"
    return [f"{path}: there is no record `{spelling(name, fields)}` {MISSING[name]}, {more}"]


def explain_frame(fault: str, *numbers: str) -> list[str]:
    """The fault of bytes that are no frame, with its numbers."""
    if fault == "length":
        stated, given = map(int, numbers)
        found = [f"the header says {stated} bytes, and the file has {given}"]
        if stated == given + 3:
            found.append("it has 3 bytes less than the header says: a frame without its frame CRC (its trailer)")
        return found
    if fault == "short":
        return [f"a frame has at least 8 bytes, and the file has {numbers[0]}"]
    return [{"header crc": "the header CRC in the bytes is not that of the header's fields: bits changed, or these "
                           "are no bytes of a frame (a pcap file goes to `flexlab capture`)",
             "frame crc": "the frame CRC is not that of the bytes before it on this channel: bits changed, or the frame "
                          "is of the other channel",
             "zero id": "the frame ID is 0, and IDs begin with 1",
             "startup without sync": "the startup indicator is set and the sync indicator is not"}[fault]]


def loaded(path: str) -> list[Record]:
    try:
        return load(path)
    except OSError as fault:
        raise Stop(FILE, f"{path}: {fault.strerror}")


def beyond(path: str, number: int) -> str:
    return f"{path}: it has no record {number}; is it another file than flexray read?"


def explain_record(role: str, number: int, reason: str, words: Sequence[str]) -> list[str]:
    path, cluster = named(role, words), known_of(words)
    if role == "log" and path.lower().endswith(CAPTURES):
        return [f"{path}: this is a capture, and flexray reads logs: `flexlab log {shlex.quote(path)} CLUSTER.toml` writes one, and "
                "`flexlab observe` asks flexray itself"]
    found = loaded(path)
    if number > len(found):
        return [beyond(path, number)]
    record = found[number - 1]
    if path.endswith(".toml"):
        return [f"{path}: this is a TOML file, and flexray reads its own three files: `flexlab run {shlex.quote(path)}` writes and "
                "runs them"]
    try:
        # Whatever a cause quotes of the record, no control character of it reaches the terminal.
        causes = ["".join(map(printable, cause)) for cause in EXPLAIN[reason](role, record, cluster, found[:number - 1])]
    except (LookupError, ValueError):
        # A line that is given need not be one of these files: what it tells is then not there to be shown.
        causes = []
    return [f"{path}:{record.line}: {short(record.text)}", f"{reason}: {MEANING[reason]}",
            *(causes or ["no field of it is found to be so; is it another file than flexray read?"])]


LAWS = {
    "start": "a cycle starts where the node's cycle before ended: start + (N + rate + offset) microticks, in ticks",
    "rate": "the rate term stays within a double cycle, and is then that of the deviations recorded in it, in "
            "microticks",
    "state": "a node is active at first, and takes one step of operation control after each double cycle",
    "offset": "the offset term is 0 in even cycles and in halt, else that of the deviations of the cycle, in "
              "microticks",
    "deviation": "a deviation is how far the sender's action point lies after the receiver's by their rows, as "
                 "exactly as delays and whole microticks allow, in microticks",
    "silent": "nothing is measured of a correct node that is not active, nor by one in halt",
    "apart": "a node that joins takes part from its first row on, and is then in sync with the others; nothing is "
             "measured of it before",
}


def explain_gap_of_trace(gap: Sequence[str], words: Sequence[str]) -> list[str]:
    """A trace that has a gap."""
    if gap[0] == "link":
        return [f"in double cycle {gap[3]} no common channel has `dev` rows of node {gap[2]} about node {gap[1]} "
                f"in both its cycles ({2 * int(gap[3])} and {2 * int(gap[3]) + 1})"]
    if gap[0] == "join":
        return [f"node {gap[1]} joins, and the sharp bounds are of traces that no node joins; without the word sharp it is judged"]
    return explain_gap(gap, words)


def explain_breach(number: int, law: str, has: str, *wanted: str, words: Sequence[str]) -> list[str]:
    """A record of a trace that breaks a law."""
    path = named("trace", words)
    records = loaded(path)
    if number > len(records):
        return [beyond(path, number)]
    record = records[number - 1]
    found = [f"{path}:{record.line}: {short(record.text)}", LAWS[law]]
    if law == "silent":
        return found + [f"this record speaks of a node in state {has}"]
    if law == "apart":
        return found + [apart(record, int(has))]
    return found + [f"the record has {has}, and the records before it ask for {' to '.join(wanted)}"]


def apart(record: Record, double: int) -> str:
    cycles = f"double cycle {double} (cycles {2 * double} and {2 * double + 1})"
    if record.fields[0] == "dev":
        return f"the node of slot {record.fields[3]} has no row in cycle {record.fields[1]}, of {cycles}"
    return (f"node {record.fields[2]} has its first row here, and in {cycles} the rows are not in sync: a start lies "
            "further than pi from another, a length further than lambda, or a node is not active")


def explain_check(check: FailedCheck, words: Sequence[str], way: bool = False) -> list[str]:
    number, left, right = check.number, check.left, check.right
    known = known_of(words)
    parameters = Given(known)
    name = advise(number, right, parameters)[0]
    formula = WAY_FORMULA.get(number, FORMULA[number]) if way else FORMULA[number]
    return [f"C{number} fails: {left} against {right}", f"it asks: {formula}", f"with {LETTERS}",
            *check_words(number, left, right, parameters, way)[1:], f"{name} stands on line {known.line(name)}"]


def flutter_of(text: str, words: Sequence[str]) -> int:
    """The flutter that a request by the sharper bounds states, or that its text has, as that of a trace."""
    if words[0] == "check":
        return int(text.split(maxsplit=2)[1])
    return int(words[words.index("power" if is_power(words) else "sharp", 2) + 1])


def explain_sharp_check(name: str, check: FailedCheck, words: Sequence[str], flutter: int) -> list[str]:
    """A failing check of the sharper bounds, of a kind by its name, as `bound .. sharp FLUTTER`, also with `join`,
    `settle .. sharp FLUTTER`, `settle .. power FLUTTER` and `check .. sharp` tell it."""
    number, left, right = check.number, check.left, check.right
    known, way = known_of(words), words[0] == "settle" and not is_power(words)
    parameters = Given(known)
    kind = Kind(name == "beside", flutter, max(key for _, key, _ in known.keys()))
    told = (sharp_way_words if way else sharp_check_words)(number, left, right, parameters, kind)
    # `bound PARAMS sharp FLUTTER` alone is of runs that lose no frame and that no node joins.
    if number == 1 and words[0] == "bound" and len(words) == 4 and sharp_bounds_of(parameters, kind).is_held:
        return [f"it asks: {SHARP_FORMULA[1]}", f"with {SHARP_LETTERS}", held_words(left, right)]
    formula, letters = (SHARP_WAY_FORMULA, SHARP_WAY_LETTERS) if way else (SHARP_FORMULA, SHARP_LETTERS)
    turned = TURNS[number]
    return [f"it asks: {formula[number]}", f"with {letters}", *told[1:], f"{turned} stands on line {known.line(turned)}"]


def explain_answer(text: str, words: Sequence[str]) -> list[str]:
    """What an accepted request's text says that needs explanation: failing checks, and the first gap."""
    found = []
    for told in texts.failing(text):
        found.append(told.line)
        if told.check and ("sharp" in words[2:] or is_power(words)):
            name = "beside" if "\nkind beside\n" in text else told.side
            found += ["  " + part for part in explain_sharp_check(name, told.check, words, flutter_of(text, words))]
        elif told.check:
            found += ["  " + part for part in explain_check(told.check, words, told.is_way)]
        elif told.gap and told.gap[0] == "check":
            found += ["  " + part for part in explain_check(FailedCheck(*map(int, told.gap[1:])), words)]
        elif told.gap:
            found += ["  " + part for part in explain_gap(told.gap, words)]
        else:
            found.append("  behind this place no frame begins")
            path = file_of("capture", words)
            if path and is_pcap(path):
                found.append(f"  {path} is a pcap file, and flexray takes frames alone: `flexlab capture {shlex.quote(path)}`")
    return found


def is_pcap(path: str) -> bool:
    """Whether a file begins as pcap or pcapng files do."""
    check_is_file(path)
    with open(path, "rb") as file:
        return file.read(4) in (b"\xd4\xc3\xb2\xa1", b"\xa1\xb2\xc3\xd4", b"\x4d\x3c\xb2\xa1", b"\xa1\xb2\x3c\x4d",
                                b"\x0a\x0d\x0d\x0a")


@dataclass
class Nameless:
    """A cluster as files for flexray have it: without names, and without a microtick's length, for which one is taken."""
    parameters: Parameters
    microtick_ns: Fraction

    def called(self, number: int) -> str:
        return str(number)


def explain_gap(gap: Sequence[str], words: Sequence[str]) -> list[str]:
    """A gap in words; files for flexray tell no nanoseconds, so a microtick of 25 ns is assumed, and said."""
    found = gap_words(gap, Nameless(Given(known_of(words)), Fraction(25)))
    return ["at a microtick of 25 ns:", *found] if gap[0] == "delay" else found


def explain(words: Sequence[str], line: str | None, given: str | None, as_json: bool = False) -> int:
    """Prints the explanation; runs flexray where no line is given."""
    accepted, found = False, list[str]()
    if line is None:
        status, text, line = programs.call(programs.flexray(given, words), words)
        accepted = status == 0
        if accepted:
            line, found = None, explain_answer(text, words)
    if not accepted:
        found = explain_line(line or "", words)
    if as_json:
        printed({"words": words, "accepted": accepted, "line": line, "told": found})
    elif accepted:
        print("\n".join(found or ["flexray accepted these files, and nothing in its answer needs explanation"]))
    else:
        print("\n".join([line or "", *found]))
    return DONE if accepted else NO
