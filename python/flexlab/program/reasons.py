"""Why a record is refused: for each reason the field, its text, and what it should be."""
import re
from collections.abc import Callable, Iterable, Iterator
from typing import NamedTuple

from .forms import FORMS, LIMITED, NUMERIC, OF_FRAMES, ONCE, SPELT, Field, placed, span, spelt
from .known import Known, sure, version_of, whole
from ..base.ending import printable
from .records import Record
from ..base.ranges import FRAME_DIGITS, REPETITIONS, TIMES, table
from ..toml.values import near

MEANING = {
    "Shape": "the record has not the file's number of fields, or a field that has to be empty is not",
    "UnknownName": "the first field is none of the file's kinds, or a name is not in the table",
    "NotNumber": "a field has to be a number and is none",
    "OutOfRange": "a number is outside its range",
    "UnknownNode": "the node is not there",
    "BadChannel": "the channels are spelt otherwise",
    "Role": "the fields do not go together, or the record may not stand there",
    "Link": "the channel is not common to both nodes, or they have none in common",
    "NotHex": "bytes are not hexadecimal",
    "Repeated": "there is such a record already",
}


class Joined(NamedTuple):
    """A row of a node that joins."""
    node: int
    reference: int
    record: Record


def short(text: str) -> str:
    """A text of a record as it may stand on a line."""
    text = printable(text)
    return text if len(text) <= 72 else f"{text[:60]}.. ({len(text)} characters)"


def many(count: int, what: str) -> str:
    return f"{count} {what}" + ("" if count == 1 else "s")


def at(place: int, name: str, text: str) -> str:
    return f'field {place} ({name}) is "{short(text)}"'


def hint(text: str, known: Iterable[str]) -> str:
    found = near(text, known)
    return f"; did you mean `{found}`?" if found else ""


def shape(role: str, record: Record, cluster: Known, earlier: list[Record]) -> Iterator[str]:
    wanted = FORMS[role].width
    if len(record.fields) != wanted:
        yield f"the record has {many(len(record.fields), 'field')}, and a record of this file has {wanted}"
        if ";" in record.text:
            yield "fields are divided by commas; this line has semicolons"
        if record.text.lstrip().startswith("#"):
            yield "there are no comments: a line that begins with # is a record like every other"
        elif len(record.fields) < wanted:
            yield f"commas are missing: {wanted - len(record.fields)} more belong to it, empty fields at its end too"
        for other, form in FORMS.items():
            if other != role and form.width == len(record.fields) and record.fields[0] in form.kinds:
                yield f"it looks like a record of a {other} file: are the words in the right order?"
    if role == "log" and record.fields[0] == "delay" and len(record.fields) == wanted and (
            record.fields[1] and not record.fields[2]):
        yield "NODE is there and CHANNEL is empty: both have to be there, or both empty for all others"
    for place, described, text in placed(role, record):
        if described.kind == "empty" and text:
            yield f"{at(place, 'to be left empty', text)}" + (": a blank is a text too" if not text.strip() else "")


def unknown_name(role: str, record: Record, cluster: Known, earlier: list[Record]) -> Iterator[str]:
    kinds = FORMS[role].kinds
    if record.fields[0] not in kinds and "" not in kinds:
        yield f"{at(1, 'kind', record.fields[0])}, and kinds are {', '.join(kinds)}{hint(record.fields[0], kinds)}"
    for place, described, text in placed(role, record):
        version = version_of([*earlier, record])
        if described.kind == "name" and text not in table(version):
            yield (f"{at(place, 'NAME', text)}, which is no parameter of a file of version {version}"
                   f"{hint(text, table(version))}")
        if described.kind == "state" and text not in SPELT["state"]:
            yield f"{at(place, 'STATE', text)}, and states are {', '.join(SPELT['state'])}"


def is_numeric(described: Field, text: str) -> bool:
    return described.kind in NUMERIC and not (described.kind == "key" and text == "")


def not_number(role: str, record: Record, cluster: Known, earlier: list[Record]) -> Iterator[str]:
    for place, described, text in placed(role, record):
        if is_numeric(described, text) and whole(text) is None:
            yield at(place, described.name, text) + number_hint(text)


def number_hint(text: str) -> str:
    if not text:
        return ": it is empty, and a number has to stand there"
    if text != text.strip():
        return ": a blank stands beside the number, and blanks are not taken off"
    if re.fullmatch(r"-?\d{19,}", text):
        return f": it has {len(text.lstrip('-'))} digits, and a number has at most 18"
    if re.fullmatch(r"-?\d*[.,]\d*", text):
        return ": numbers are whole; a tick is a millionth of a microtick"
    if text.startswith("+"):
        return ": a number has no + before it"
    return ": a number is an optional - and 1 to 18 decimal digits"


def out_of_range(role: str, record: Record, cluster: Known, earlier: list[Record]) -> Iterator[str]:
    for place, described, text in placed(role, record):
        found, value = span(described, record, cluster), whole(text)
        if found and value is not None and not found[0] <= value <= found[1]:
            name = record.fields[1] if described.kind == "value" else described.name
            yield f"{at(place, name, text)}, which is not from {found[0]} to {found[1]} {found[2]}".rstrip() + cause(
                described, record)
        if described.kind == "hex" and len(text.encode()) > FRAME_DIGITS:
            yield f"field {place} (BYTES) has {len(text.encode())} bytes, and at most {FRAME_DIGITS} are allowed"
    unit, stamp = unit_of(earlier), whole(record.fields[1]) if role == "log" and is_entry(record) else None
    if unit and stamp is not None and TIMES[0] <= stamp <= TIMES[1] < stamp * unit:
        yield f"STAMP is {stamp} units, and these are {stamp * unit} ticks, more than {TIMES[1]}"


def is_entry(record: Record) -> bool:
    return record.fields[0] in ("frame", "head")


def unit_of(earlier: list[Record]) -> int | None:
    """How many ticks a unit of the stamps of a log is long by the records before one, or None."""
    return next((whole(other.fields[1]) for other in earlier if other.fields[0] == "unit"), None)


def cause(described: Field, record: Record) -> str:
    if record.fields[0] == "length" and described.name == "TICKS":
        return " (the length of a microtick: 1000000 is nominal, and an oscillator that is 150 ppm fast has 999850)"
    if described.kind == "bit":
        return " (the last bit of a frame of 8 + 2 gPayloadLengthStatic bytes)"
    return f" ({LIMITED[described.kind].parameter} of the parameters)" if described.kind in LIMITED else ""


def unknown_node(role: str, record: Record, cluster: Known, earlier: list[Record]) -> Iterator[str]:
    for place, described, text in placed(role, record):
        if described.kind != "node":
            continue
        if role == "params":
            there = [whole(other.fields[1]) for other in earlier if other.fields[0] == "node"]
            if whole(text) not in there:
                later = cluster.nodes.get(sure(text))
                yield (f"{at(place, described.name, text)}, and no record before it is that node's"
                       + (f"; its record comes later, on line {later.record.line}" if later else ""))
        elif whole(text) not in cluster.nodes:
            named = ", ".join(map(str, sorted(cluster.nodes))) or "none"
            yield f"{at(place, described.name, text)}, and the parameters have the nodes {named}"


def bad_channel(role: str, record: Record, cluster: Known, earlier: list[Record]) -> Iterator[str]:
    for place, described, text in placed(role, record):
        if described.kind in ("channel", "channels") and text not in SPELT[described.kind]:
            *others, last = SPELT[described.kind]
            yield f"{at(place, described.name, text)}, and it has to be {', '.join(others)} or {last}"


def arbitrary_before(earlier: list[Record]) -> dict[int | None, Record]:
    return {whole(other.fields[1]): other for other in earlier if other.fields[0] == "arbitrary"}


def role_of(role: str, record: Record, cluster: Known, earlier: list[Record]) -> Iterator[str]:
    kind, fields = record.fields[0], record.fields
    if role == "params" and kind == "node" and whole(fields[4]) == 1 and not fields[2]:
        yield "COLD is 1 and KEY is empty: a coldstart node needs a key slot"
    if role == "params" and kind == "version":
        yield f"a `version` record is the first of its file, and line {earlier[0].line} comes before it"
    if role == "params" and kind == "slot":
        base, repetition = sure(fields[3]), sure(fields[4])
        if repetition not in REPETITIONS:
            yield f"REPETITION is {repetition}, and it has to be 1, 2, 4, 8, 16, 32 or 64"
        if base >= repetition:
            yield f"BASE is {base}, and it has to be below REPETITION, {repetition}"
    if role == "drift" and kind == "delay" and whole(fields[1]) == whole(fields[2]):
        yield f"SENDER and RECEIVER are both node {fields[1]}"
    if role == "script":
        yield from script_role(record, cluster, earlier)
    if role == "power":
        yield from power_role(record, cluster, earlier)
    if role == "trace":
        yield from trace_role(record, cluster, earlier)
    if role == "log":
        yield from log_role(record, cluster, earlier)


def join_role(node: int, reference: int, cluster: Known, earlier: list[Joined], arbitrary: dict[int | None, Record]) -> Iterator[str]:
    """Of a row of a node that joins; `earlier` are such rows, as pairs of numbers with their records."""
    if node == reference:
        yield f"NODE and REFERENCE are both node {node}"
    for name, number in (("NODE", node), ("REFERENCE", reference)):
        if number in arbitrary:
            yield f"{name}, node {number}, is arbitrary (line {arbitrary[number].line}), and only correct nodes join"
    if reference in cluster.nodes and cluster.nodes[reference].key is None:
        yield (f"REFERENCE, node {reference}, has no key slot (line {cluster.nodes[reference].record.line} of the "
               "parameters), so there is nothing of it to listen to")
    for joined, of, row in earlier:
        if joined == reference:
            yield f"REFERENCE, node {reference}, joins itself (line {row.line}): a reference is there from cycle 0 on"
        if of == node:
            yield f"NODE, node {node}, is a reference (line {row.line}): a reference is there from cycle 0 on"


def script_joins(earlier: list[Record]) -> list[Joined]:
    return [Joined(sure(other.fields[2]), sure(other.fields[3]), other) for other in earlier if other.fields[0] == "join"]


def script_role(record: Record, cluster: Known, earlier: list[Record]) -> Iterator[str]:
    kind, fields, arbitrary = record.fields[0], record.fields, arbitrary_before(earlier)
    if kind == "join":
        yield from join_role(sure(fields[2]), sure(fields[3]), cluster, script_joins(earlier), arbitrary)
        return
    if kind == "arbitrary":
        node = sure(fields[1])
        if node in cluster.nodes and cluster.nodes[node].key is None:
            yield f"node {node} has no key slot (line {cluster.nodes[node].record.line} of the parameters)"
        other = next((other for other in earlier if other.fields[0] != "arbitrary"), None)
        if other:
            yield f"`arbitrary` records come first, and line {other.line} is of another kind"
        return
    sender, receiver = sure(fields[2]), sure(fields[3])
    if sender == receiver:
        yield f"SENDER and RECEIVER are both node {sender}"
    if receiver in arbitrary:
        yield f"the receiver, node {receiver}, is arbitrary (line {arbitrary[receiver].line}), and hears nothing"
    if kind == "say" and sender not in arbitrary:
        yield f"the sender, node {sender}, is not named arbitrary: `arbitrary,{sender},,,,,` has to come before"
    if kind != "say" and sender in arbitrary:
        yield f"the sender, node {sender}, is arbitrary (line {arbitrary[sender].line}), and says only what `say` says"


def trace_joins(earlier: list[Record]) -> list[Joined]:
    return [Joined(sure(other.fields[1]), sure(other.fields[2]), other) for other in earlier if other.fields[0] == "join"]


def trace_role(record: Record, cluster: Known, earlier: list[Record]) -> Iterator[str]:
    kind, fields, joins = record.fields[0], record.fields, trace_joins(earlier)
    found: list[str] = []
    if kind == "join":
        found = list(join_role(sure(fields[1]), sure(fields[2]), cluster, joins, arbitrary_before(earlier)))
        if joins and sure(fields[1]) <= joins[-1].node:
            found.append(f"`join` rows ascend by NODE, and line {joins[-1].record.line} has node {joins[-1].node}")
    if kind == "cycle":
        for node, _, row in joins:
            first = 2 * sure(row.fields[3]) + 6
            if node == whole(fields[2]):
                found.append(f"node {node} joins (line {row.line}): it has cycle rows from cycle {first} on, or none")
    yield from found
    if not found or kind == "cycle":
        yield ("the record may not come next: the run row, arbitrary nodes and nodes that join, each in ascending "
               "order, then for each cycle the cycle row of each correct node that takes part, with its dev rows, "
               "ascending by slot and channel")


def power_role(record: Record, cluster: Known, earlier: list[Record]) -> Iterator[str]:
    node, time = sure(record.fields[1]), sure(record.fields[2])
    if node in cluster.nodes and cluster.nodes[node].coldstart not in ("1", "01"):
        yield f"node {node} is no coldstart node (line {cluster.nodes[node].record.line} of the parameters)"
    own = [other for other in earlier if other.fields[0] in ("on", "off") and whole(other.fields[1]) == node]
    if not own and record.fields[0] == "off":
        yield f"the first record of node {node} has to be `on`"
    if own and own[-1].fields[0] == record.fields[0]:
        yield f"node {node} is `{record.fields[0]}` already since line {own[-1].line}"
    if own and time <= sure(own[-1].fields[2]):
        yield f"TIME is {time}, and line {own[-1].line} of node {node} has {own[-1].fields[2]}: times ascend"


def log_role(record: Record, cluster: Known, earlier: list[Record]) -> Iterator[str]:
    kind, fields = record.fields[0], record.fields
    last = next((other for other in reversed(earlier) if is_entry(other)), None)
    if is_entry(record):
        if unit_of(earlier) is None:
            yield f"no record before it says how long a unit of stamps is: `{spelt('log', 'unit')}` has to come before"
        if last and sure(fields[1]) < sure(last.fields[1]):
            yield f"STAMP is {fields[1]}, and line {last.line} has {last.fields[1]}: stamps ascend"
        return
    if last:
        first = next(other for other in earlier if is_entry(other))
        yield f"`{kind}` records stand before the entries, and line {first.line} is one"
    if kind == "since" and sure(fields[1]) % 2:
        yield f"CYCLE is {fields[1]}, and it has to be even"
    if kind == "delay" and sure(fields[3]) > sure(fields[4]):
        yield f"LOW is {fields[3]}, above HIGH, {fields[4]}"
    if kind == "arbitrary" and sure(fields[1]) in cluster.nodes and cluster.nodes[sure(fields[1])].key is None:
        yield f"node {fields[1]} has no key slot (line {cluster.nodes[sure(fields[1])].record.line} of the parameters)"


def none_in_common(node: int, reference: int, cluster: Known) -> Iterator[str]:
    told = [f"node {number} has {cluster.nodes[number].channels} (line {cluster.nodes[number].record.line} of the parameters)"
            for number in (node, reference) if number in cluster.nodes]
    yield ", and ".join(told) + ": they have no channel in common"


def link(role: str, record: Record, cluster: Known, earlier: list[Record]) -> Iterator[str]:
    if record.fields[0] == "join":
        first = 2 if role == "script" else 1
        yield from none_in_common(sure(record.fields[first]), sure(record.fields[first + 1]), cluster)
        return
    if role == "trace":
        yield "the channel is not common to the receiver and the node whose key slot it is"
        return
    if role == "log":
        node = sure(record.fields[1])
        if node in cluster.nodes:
            yield (f"the channel is {short(record.fields[2])}, and node {node} has {cluster.nodes[node].channels} "
                   f"(line {cluster.nodes[node].record.line} of the parameters)")
        return
    first = 1 if record.fields[0] == "delay" else 2
    sender, receiver, channel = sure(record.fields[first]), sure(record.fields[first + 1]), record.fields[first + 2]
    for name, node in (("sender", sender), ("receiver", receiver)):
        if node in cluster.nodes and channel not in cluster.nodes[node].channels:
            yield (f"the channel is {short(channel)}, and the {name}, node {node}, has {cluster.nodes[node].channels} "
                   f"(line {cluster.nodes[node].record.line} of the parameters)")


def not_hex(role: str, record: Record, cluster: Known, earlier: list[Record]) -> Iterator[str]:
    for place, described, text in placed(role, record):
        if described.kind == "hex":
            wrong = re.search(r"[^0-9A-Fa-f]", text)
            if wrong:
                yield f'field {place} (BYTES): "{wrong.group()}" at place {wrong.start() + 1} is no hexadecimal digit'
            elif len(text) % 2:
                yield f"field {place} (BYTES) has {len(text)} digits, and two make a byte"


def same_key(role: str, record: Record) -> tuple[int | str, ...] | None:
    """What a record may be there once of, or None where its kind may be there again."""
    kind = record.fields[0]
    named = ONCE.get(role, {}).get(kind)
    if named is None:
        return None
    texts = [text for text, field in zip(record.fields[1:], FORMS[role].kinds[kind]) if field.name in named]
    values: list[int | str] = [text if (number := whole(text)) is None else number for text in texts]
    return "frames" if role == "script" and kind in OF_FRAMES else kind, *values


def repeated(role: str, record: Record, cluster: Known, earlier: list[Record]) -> Iterator[str]:
    key = same_key(role, record)
    for other in earlier:
        if key and same_key(role, other) == key:
            yield f"line {other.line} is of the same: {other.text}"


EXPLAIN: dict[str, Callable[[str, Record, Known, list[Record]], Iterator[str]]] = {
    "Shape": shape, "UnknownName": unknown_name, "NotNumber": not_number, "OutOfRange": out_of_range,
    "UnknownNode": unknown_node, "BadChannel": bad_channel, "Role": role_of, "Link": link, "NotHex": not_hex,
    "Repeated": repeated,
}
