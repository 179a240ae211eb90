"""The request `export`: changed parameters of a TOML file back into the FIBEX or ARXML file that they came from.

Only the texts of changed numbers are other bytes, and of those that follow from them by a formula. Formulas are from memory of the
standard, so each is first held against what the file has: where it does not give that, nothing is guessed.
"""
import argparse
import os
import re
import sys
from collections.abc import Iterator
from dataclasses import dataclass
from fractions import Fraction

from ..base import ranges
from ..base.ending import DONE, FILE, PROGRAM, REFUSED, Refused, Stop
from ..base import files
from ..base.units import rounded
from ..pages.machine import printed
from ..pages.page import field
from ..toml.cluster import Cluster, read_cluster
from .imported import Asked, Imported, Importing, key_of, plain
from .importing import renamed_of
from .names import CLUSTER, CONTROLLER
from .network import Controller, Network, read_network
from .numbers import nanoseconds, near, number, shown
from .xml_file import Element, printable

NIT = (2, 805)
PIECE = 1048576
# What hangs on the precision and on no formula of parameters alone.
BY_HAND = ("startup_range",)


@dataclass
class Edit:
    """A number that becomes another one, and why; `own` where the TOML file has it, else it follows."""
    element: Element
    key: str
    new: str
    ecu: str = ""
    own: bool = True


class Exporting:
    """What becomes of a file: edits of what differs, then of what follows from it."""

    def __init__(self, found: Imported, cluster: Cluster, anyway: bool):
        self.found, self.cluster, self.anyway = found, cluster, anyway
        self.network: Network = found.network
        self.edits: list[Edit] = []
        self.left: list[str] = []
        self.changed: set[str] = set()
        self.path = self.network.files[0].path

    def refuse(self, why: str) -> Stop:
        return Stop(REFUSED, f"{self.cluster.path}: {why}")

    def leave(self, element: Element, why: str) -> None:
        """A number that ought to change and is not known how: refused, or with --anyway left and told."""
        if not self.anyway:
            raise Refused(element.file.path, element.line, f"{element.plain}, {shown(element)}: {why}; with --anyway it is left as it is")
        self.left.append(f"line {element.line}: {element.plain}, {shown(element)}: {why}")

    # ---- the same cluster

    def hold_shapes(self) -> None:
        """Only numbers of parameters go back: nodes and slots have to be those of the file."""
        own = {node.name: node for node in self.found.nodes}
        told = {node.name or f"node {node.number}": node for node in self.cluster.nodes.values()}
        if sorted(own) != sorted(told):
            other = sorted(set(own) ^ set(told))
            raise self.refuse(f"its nodes are not those of {self.path}: {', '.join(other[:4])} {'is' if len(other) == 1 else 'are'} in one "
                              "of both alone; nodes go by their names")
        for name, node in own.items():
            there = told[name]
            for what, one, two in (("key_slot", key_of(node), there.key_slot), ("channels", "".join(sorted(node.channels)), there.channels),
                                   ("coldstart", node.is_startup, there.coldstart)):
                if one != two:
                    raise self.refuse(f"{what} of {name} is {two}, and in {self.path} {one}: frames hang on it, so the tool that made the "
                                      "file "
                                      "has to change it")
        numbers = {node.number: told[name].number for name, node in own.items()}
        slots = sorted((one.slot, numbers[one.node.number], one.base, one.repetition) for one in self.found.slots)
        if slots != sorted(self.cluster.slots):
            raise self.refuse(f"its [[slot]] tables are not those of {self.path}: the tool that made the file has to change frames")
        for key, length, other_length in (("microtick_ns", Fraction(self.found.bench["microtick_ns"].text), self.cluster.microtick_ns),
                                          ("bit_rate_mbit", self.bench("bit_rate_mbit", 10), self.cluster.bit_rate),
                                          ("start_bits", self.bench("start_bits", 15), Fraction(self.cluster.start_bits))):
            if length != other_length:
                raise self.refuse(f"bench.{key} is {plain(other_length)}, and in {self.path} {plain(length)}: it is hardware, or the "
                                  "decoding of frames "
                                  "hangs on it, so the tool that made the file has to change it")

    def bench(self, key: str, default: int) -> Fraction:
        return Fraction(self.found.bench[key].text) if key in self.found.bench else Fraction(default)

    # ---- what differs

    def old(self, name: str) -> int:
        """A parameter as the file has it; of a compensation that of its channel."""
        if name.startswith("pDelayCompensation"):
            return ranges.compensation({key: int(told.text) for key, told in self.found.parameters.items()}, name[-1])
        return self.found.value(name)

    def new(self, name: str) -> int:
        if name.startswith("pDelayCompensation"):
            return ranges.compensation(self.cluster.parameters, name[-1])
        return self.cluster.parameters[name]

    def differ(self) -> None:
        for row in (*CLUSTER, *CONTROLLER):
            if row.key not in ranges.NAMES or self.old(row.key) == self.new(row.key):
                continue
            channel = row.key[-1] if row.key.startswith("pDelayCompensation") else ""
            if channel and not any(channel in node.channels for node in self.found.nodes):
                continue
            self.changed.add(row.key)
            places: list[tuple[Element | None, str]] = [(self.network.values.get(row.key), "")]
            if row in CONTROLLER:
                places = [(node.values.get(row.key), node.name) for node in self.found.nodes if channel in node.channels or not channel]
            for element, ecu in places:
                if element is None:
                    name = row.name(self.network.form).split("|")[0].split(":")[-1]
                    raise self.refuse(f"{row.key} is {self.new(row.key)}, and {self.path} has no {name}{' of ' + ecu if ecu else ''} to "
                                      "put it "
                                      "into")
                self.put(element, row.key, self.new(row.key), ecu)
        if self.old("gdNIT") != self.new("gdNIT"):
            self.changed.add("gdNIT")

    def put(self, element: Element, key: str, new: int, ecu: str = "", own: bool = True) -> None:
        text = element.text.strip()
        if text in ("true", "false"):
            told = "true" if new else "false"
        elif text[:2] in ("0x", "0X"):
            told = f"{text[:2]}{new:X}"
        else:
            told = str(new)
        if told != text:
            self.edits.append(Edit(element, key, told, ecu, own))

    # ---- what follows

    def follow(self) -> None:
        if self.changed & {"gdNIT", "gdActionPointOffset"}:
            self.follow_nit()
        if self.changed & {"pMicroPerCycle", "gMacroPerCycle"}:
            self.follow_times()
        if "gPayloadLengthStatic" in self.changed:
            self.hold_payloads()
        for node in self.found.nodes:
            for channel in sorted(node.channels):
                if self.changed & {"gdActionPointOffset", f"pDelayCompensation{channel}", "pMicroPerCycle", "gMacroPerCycle"}:
                    self.follow_initial(node, channel)
            if self.changed & {"pMicroPerCycle", "pRateCorrectionOut"}:
                self.follow_drift(node)
        moved = self.changed & {"pClusterDriftDamping", "pMicroPerCycle", "pRateCorrectionOut", "gMacroPerCycle", "pDelayCompensationA",
                                "pDelayCompensationB"}
        for key in BY_HAND:
            have = [node.values[key] for node in self.found.nodes if key in node.values]
            if moved and have:
                self.left.append(f"line {have[0].line}: {have[0].plain}, {shown(have[0])}: it hangs on the precision, so see whether it "
                                 "still suffices")

    def follow_nit(self) -> None:
        """The file's NIT is what is left of all behind the static slots."""
        values = self.network.values
        nit = values.get("nit")
        if nit is None:
            return
        count, length, window, point = (int(number(values[key])) if key in values else 0
                                        for key in ("minislots", "minislot", "symbol_window", "minislot_point"))

        def rest(name: str, read: bool) -> int:
            value = self.old if read else self.new
            return value("gdNIT") - window - (count * length + max(0, value("gdActionPointOffset") - point) if count else 0)
        if rest("old", True) != number(nit):
            self.leave(nit, f"the parts behind the static slots do not add up to {self.old('gdNIT')} macroticks in the file, so its new "
                            "value "
                            "is not known")
            return
        new = rest("new", False)
        if not NIT[0] <= new <= NIT[1]:
            raise self.refuse(f"gdNIT = {self.new('gdNIT')} leaves the file's {nit.plain} {new} macroticks beside its dynamic segment and "
                              f"symbol window, and the standard has {NIT[0]} to {NIT[1]}: change the dynamic segment with your tool first")
        self.put(nit, "gdNIT", new, own=False)

    def follow_times(self) -> None:
        form, microtick = self.network.form, self.cluster.microtick_ns
        for key, old, new in (("cycle", Fraction(self.old("pMicroPerCycle")), Fraction(self.new("pMicroPerCycle"))),
                              ("macrotick", Fraction(self.old("pMicroPerCycle"), self.old("gMacroPerCycle")),
                               Fraction(self.new("pMicroPerCycle"), self.new("gMacroPerCycle")))):
            element = self.network.values.get(key)
            if element is None or old == new:
                continue
            if not near(nanoseconds(element, form), old * microtick):
                self.leave(element, f"it is not what {self.old('pMicroPerCycle')} microticks come to in the file, so its new value is not "
                                    "known")
                continue
            unit = 1000 if form == "FIBEX" else 1000000000
            self.edits.append(Edit(element, key, digits(new * microtick / unit), own=False))

    def hold_payloads(self) -> None:
        most = 2 * self.new("gPayloadLengthStatic")
        for sending in self.network.sendings:
            if sending.bytes is not None and number(sending.bytes) > most and any(
                    slot <= self.old("gNumberOfStaticSlots") for slot, _ in Importing.timings_of(self.network, sending)):
                raise sending.bytes.refused(f"a static frame of {shown(sending.bytes)} bytes has no room in {most // 2} words, which "
                                            "gPayloadLengthStatic is to be")

    def follow_initial(self, node: Controller, channel: str) -> None:
        """Where a node that integrates begins: behind the action point by what a frame was under way and decoded."""
        decoding = node.values.get("decoding")
        macro, micro = node.values.get(f"macro_initial_{channel}"), node.values.get(f"micro_initial_{channel}")
        if macro is None and micro is None:
            return

        def initial(read: bool) -> tuple[int, int]:
            value = self.old if read else self.new
            nominal = Fraction(value("pMicroPerCycle"), value("gMacroPerCycle"))
            wait = int(number(decoding)) + value(f"pDelayCompensation{channel}") if decoding is not None else 0
            whole = -(-wait // nominal)
            return value("gdActionPointOffset") + int(whole), rounded(whole * nominal - wait)
        for element, old, new in zip((macro, micro), initial(True), initial(False)):
            if element is None:
                continue
            if decoding is None or old != number(element):
                self.leave(element, "it follows from the action point, the compensation and the decoding correction, and the formula gives "
                                    f"{old if decoding is not None else 'nothing without the last'} for what the file has")
            else:
                self.put(element, element.plain, new, node.name, False)

    def follow_drift(self, node: Controller) -> None:
        """The standard's drift of 1500 ppm, and the timeout of a node that listens."""
        drift, timeout = node.values.get("max_drift"), node.values.get("listen_timeout")

        def most(micros: int) -> int:
            return int(-(-(2 * micros * Fraction(15, 10000)) // (1 - Fraction(15, 10000))))
        old_drift, new_drift = ((self.old("pRateCorrectionOut"), self.new("pRateCorrectionOut")) if drift is None else
                                (int(number(drift)), int(number(drift))))
        if drift is not None and "pMicroPerCycle" in self.changed:
            if most(self.old("pMicroPerCycle")) != number(drift):
                self.leave(drift, f"it follows from pMicroPerCycle, and the formula gives {most(self.old('pMicroPerCycle'))} for what the "
                                  "file has")
            else:
                new_drift = most(self.new("pMicroPerCycle"))
                self.put(drift, drift.plain, new_drift, node.name, False)
        if timeout is None or (old_drift == new_drift and "pMicroPerCycle" not in self.changed):
            return
        old = 2 * (self.old("pMicroPerCycle") + old_drift)
        if old != number(timeout):
            self.leave(timeout, f"it follows from pMicroPerCycle and the drift, and the formula gives {old} for what the file has")
        else:
            self.put(timeout, timeout.plain, 2 * (self.new("pMicroPerCycle") + new_drift), node.name, False)


def digits(value: Fraction) -> str:
    """A length with as many digits as it needs, and twelve that count at most."""
    text = f"{value.numerator / value.denominator:.12g}"
    if "e" in text:
        text = f"{value.numerator / value.denominator:.18f}".rstrip("0")
    return text


# ---- the new file


def spans(network: Network, edits: list[Edit]) -> Iterator[tuple[int, int, bytes]]:
    """(first byte, byte behind the last, new bytes) of each edit, ascending."""
    file = network.files[0]
    with open(file.path, "rb") as source:
        for edit in sorted(edits, key=lambda one: one.element.start):
            element = edit.element
            if element.start < 0:
                raise element.refused("a comment, a section or a reference stands in this number: write it as plain digits first")
            source.seek(element.start)
            raw = source.read(element.end - element.start)
            if raw != element.text.encode(file.encoding, "replace"):
                raise element.refused("a comment, a section or a reference stands in this number: write it as plain digits first")
            yield element.start, element.end, element.text.replace(element.text.strip(), edit.new).encode(file.encoding)


def write(network: Network, edits: list[Edit], path: str) -> None:
    """Writes the file with the new texts in their places, and all else as it is."""
    places = list(spans(network, edits))
    with open(network.files[0].path, "rb") as source, files.new(path) as target:
        at = 0
        for first, behind, new in [*places, (os.path.getsize(network.files[0].path), -1, b"")]:
            while at < first:
                piece = source.read(min(PIECE, first - at))
                if not piece:
                    raise Stop(FILE, f"{network.files[0].path}: it became shorter meanwhile")
                target.write(piece)
                at += len(piece)
            target.write(new)
            if behind >= 0:
                source.seek(behind)
                at = behind


def hold_hash(cluster: Cluster, network: Network, anyway: bool) -> None:
    """The file has to be the one that the TOML file was made of."""
    file = network.files[0]
    told = re.findall(r"(?m)^# SHA-256 of [^\n]{1,200}: ([0-9a-f]{64})$", cluster.text)
    if file.sha256 in told or anyway:
        return
    raise Stop(REFUSED, f"{cluster.path}: " + (f"it was made of another file than {file.path} is now: its head has the SHA-256 {told[0]}, "
                                               "and "
                                               f"that file has {file.sha256}" if told else
                                               f"its head has no SHA-256 of {file.path}, so it may be of another cluster")
               + "; with --anyway it is taken all the same")


def edit_lines(edits: list[Edit], own: bool) -> list[str]:
    """Edits of one kind, those of all ECUs together."""
    groups: dict[tuple[str, str, str], list[Edit]] = {}
    for edit in edits:
        if edit.own == own:
            groups.setdefault((edit.element.plain, shown(edit.element), edit.new), []).append(edit)
    return [f"{name}: {old} becomes {new}, line{'s' if len(some) > 1 else ''} "
            + ", ".join(map(str, sorted(edit.element.line for edit in some)[:12])) + (", .." if len(some) > 12 else "")
            for (name, old, new), some in groups.items()]


def export_file(words: argparse.Namespace) -> int:
    """The request."""
    stem, ending = os.path.splitext(words.file)
    path = words.out or f"{stem}.new{ending}"
    if os.path.exists(path):
        raise Stop(FILE, f"{path}: File exists, and is not written over; name another one by -o")
    renamed = renamed_of(words.map)
    network = read_network([words.file], words.cluster, renamed, words.leave_out or [])
    cluster = read_cluster(words.source)
    hold_hash(cluster, network, words.anyway)
    found = Importing(network, Asked()).made()
    exporting = Exporting(found, cluster, words.anyway)
    exporting.hold_shapes()
    exporting.differ()
    exporting.follow()
    if exporting.edits:
        part = f"{path}.part"
        try:
            write(network, exporting.edits, part)
            hold_written(part, words, cluster, exporting)
            os.rename(part, path)
        finally:
            if os.path.exists(part):
                os.remove(part)
    if words.json:
        printed({"file": words.file, "from": words.source, "written": path if exporting.edits else None, "left": exporting.left,
                 "changes": [{"line": edit.element.line, "element": edit.element.plain, "ecu": edit.ecu or None, "old": shown(edit.element),
                              "new": edit.new, "follows": not edit.own} for edit in exporting.edits]})
        return DONE
    own, follows = edit_lines(exporting.edits, True), edit_lines(exporting.edits, False)
    lines = field("Changed", *(own or [f"nothing: {words.file} has the parameters of {words.source}"]))
    if follows:
        lines += field("Follows", "by formulas from memory of the standard, each of which gives what the file had:", *follows)
    for one in exporting.left:
        lines += field("SEE TO IT", one)
    if exporting.edits:
        lines += field("Written", f"{path}: all other bytes are those of {words.file}")
    sys.stdout.write("\n".join(lines) + "\n")
    return DONE


def hold_written(part: str, words: argparse.Namespace, cluster: Cluster, exporting: Exporting) -> None:
    """What was written is read again, and has to be the cluster of the TOML file."""
    again = Importing(read_network([part], words.cluster, renamed_of(words.map), words.leave_out or []), Asked()).made()
    check = Exporting(again, cluster, True)
    check.hold_shapes()
    check.differ()
    if check.changed or check.edits:
        raise Stop(PROGRAM, f"{printable(words.file)}: {', '.join(sorted(check.changed))} would not be as wanted in the new file: nothing "
                            "is "
                            f"written ({len(exporting.edits)} numbers were to be changed)")
