"""The request `import`: a cluster out of FIBEX or ARXML files, and what of it was used, derived, left out and asked."""
import argparse
import os
import re
import sys
import tomllib
from fractions import Fraction

from ..base import ranges
from ..base.ending import DONE, FILE, USAGE, Stop
from ..base.files import put_new, read
from ..pages.machine import printed
from ..pages.page import field
from ..toml.keys import MOST_PPM
from ..toml.source import MOST_BYTES
from .imported import ASKED, Asked, Imported, Importing, known_and_unused, key_of, plain
from .names import CLUSTER, CLUSTER_CHECKED, CONTROLLER, CONTROLLER_CHECKED, CONTROLLER_OFF, KEY_SLOT_ARXML
from .network import Network, read_network
from .registers import register_network
from .text import notes_of, toml_of
from .xml_file import XmlFile, printable

NUMBER = r"\d{1,9}(?:\.\d{1,9})?"


def number_of(option: str, text: str | None, most: Fraction, unit: str) -> Fraction | None:
    if text is None:
        return None
    if not re.fullmatch(NUMBER, text, re.ASCII) or Fraction(text) > most:
        raise Stop(USAGE, f"{option} {printable(text)}: a number from 0 to {plain(most)} {unit} is wanted")
    return Fraction(text)


def span_of(option: str, text: str) -> tuple[Fraction, Fraction]:
    found = re.fullmatch(rf"({NUMBER})-({NUMBER})", text, re.ASCII)
    if not found or Fraction(found[1]) > Fraction(found[2]) or Fraction(found[2]) > 1000000:
        raise Stop(USAGE, f"{option} {printable(text)}: FROM-TO in ns is wanted, as 50-300")
    return Fraction(found[1]), Fraction(found[2])


def given_of(words: list[str]) -> dict[str, Fraction]:
    """The values of --set, which have to be in the ranges of flexlab."""
    found: dict[str, Fraction] = {}
    for word in words:
        name, _, text = word.partition("=")
        least, most = (1, 1000) if name == "microtick_ns" else ranges.NAMES[name][:2] if name in ranges.NAMES and name[0] != "x" else (1, 0)
        if least > most:
            raise Stop(USAGE, f"--set {printable(word)}: there is no such parameter; write NAME=NUMBER, as pClusterDriftDamping=2")
        if not re.fullmatch(NUMBER, text, re.ASCII) or not least <= Fraction(text) <= most or (
                name != "microtick_ns" and Fraction(text).denominator != 1):
            raise Stop(USAGE, f"--set {printable(word)}: a {'' if name == 'microtick_ns' else 'whole '}number from {least} to {most} is "
                              "wanted")
        found[name] = Fraction(text)
    return found


def asked_of(words: argparse.Namespace) -> Asked:
    delays = {}
    for channel in "AB":
        own = getattr(words, f"delay_{channel.lower()}_ns")
        if own is not None and words.delay_ns is not None:
            raise Stop(USAGE, f"--delay-{channel.lower()}-ns stands beside --delay-ns, which is of both channels")
        if own is not None or words.delay_ns is not None:
            delays[channel] = span_of(f"--delay-{channel.lower()}-ns" if own is not None else "--delay-ns", own or words.delay_ns)
    return Asked(number_of("--oscillator-ppm", words.oscillator_ppm, MOST_PPM, "ppm"),
                 number_of("--change-ppm", words.change_ppm, Fraction(1499), "ppm a cycle"), delays, given_of(words.set or []), words.take)


def renamed_of(path: str | None) -> dict[str, dict[str, str]]:
    """Other names of elements: of a TOML file with [fibex] and [arxml], each with keys of the table of names."""
    if path is None:
        return {}
    try:
        found = tomllib.loads(read(path, MOST_BYTES).decode("utf-8-sig"))
    except (ValueError, RecursionError) as fault:
        raise Stop(USAGE, f"{path}: this is not TOML: {printable(str(fault))}")
    keys = {row.key for row in (*CLUSTER, *CLUSTER_CHECKED, *CONTROLLER, *CONTROLLER_OFF, *CONTROLLER_CHECKED, *KEY_SLOT_ARXML)}
    for form, pairs in found.items():
        if form not in ("fibex", "arxml") or not isinstance(pairs, dict):
            raise Stop(USAGE, f"{path}: `{printable(form)}` is none of the tables [fibex] and [arxml]")
        for key, name in pairs.items():
            if key not in keys:
                raise Stop(USAGE, f"{path}: {form}.{printable(key)}: there is no such key; there are {', '.join(sorted(keys))}")
            if not isinstance(name, str) or not re.fullmatch(r"(?:(?:ho|fr):)?[A-Za-z_][A-Za-z0-9_.-]{0,120}", name, re.ASCII):
                raise Stop(USAGE, f"{path}: {form}.{key}: the name of an element is wanted, of FIBEX with fr: or ho: before it")
    return found


# ---- what is told


def used_of(found: Imported) -> list[dict[str, object]]:
    """Each number with its place."""
    rows = [*found.bench.items(), *found.parameters.items()]
    return [{"key": key, "value": told.text, "file": told.element.file.path, "line": told.element.line, "element": told.element.plain}
            for key, told in rows if told.element is not None and key != "gdNIT"]


def derived_of(found: Imported) -> list[str]:
    p = found.value
    lines = [f"gdNIT = {p('gdNIT')}: {p('gMacroPerCycle')} - {p('gNumberOfStaticSlots')} * {p('gdStaticSlot')}"]
    lines += [f"{key} = {told.text}: {told.why}" for key, told in {**found.parameters, **found.limits}.items()
              if told.element is None and key != "gdNIT"]
    if found.slots:
        lines.append(f"{len(found.slots)} further slots, of the frames that nodes send in them")
    return lines


def missing_of(found: Imported) -> list[str]:
    return [f"{key} ({option}): {why}" for key, (option, why) in ASKED.items() if key not in found.limits]


def imported_object(found: Imported, path: str) -> dict[str, object]:
    network = found.network
    return {
        "files": [{"file": file.path, "form": file.form, "form_version": file.version, "sha256": file.sha256} for file in network.files],
        "cluster": network.name, "used": used_of(found), "derived": derived_of(found), "left_out": known_and_unused(network),
        "asked": [key for key in ASKED if key not in found.limits], "notes": notes_of(found),
        "nodes": [{"node": node.number, "name": node.name, "key_slot": key_of(node), "channels": "".join(sorted(node.channels)),
                   "coldstart": node.is_startup, "file": node.element.file.path, "line": node.element.line} for node in found.nodes],
        "slots": [{"slot": one.slot, "node": one.node.number, "base": one.base, "repetition": one.repetition} for one in found.slots],
        "written": path}


def page(found: Imported, path: str, called: str) -> str:
    network = found.network
    lines = []
    for file in network.files:
        lines += field("Read", f"{file.path}: {file.form} {file.version}, SHA-256 {file.sha256}")
    keys = sum(key_of(node) is not None for node in found.nodes)
    lines += field("Cluster", f"{network.name}: {len(found.nodes)} nodes, {keys} of them sync nodes; nodes have the names of their ECUs")
    lines += field("Used", f"{len(used_of(found))} numbers, each with its line in the file that is written")
    lines += field("Derived", *derived_of(found))
    lines += field("Left out", ", ".join(known_and_unused(network)) or "nothing of the cluster and its controllers",
                   *([] if words_of_registers(network) else ["and all of the file that is no FlexRay cluster, ECU or frame"]))
    for note in notes_of(found):
        lines += field("NOTE", note)
    if missing_of(found):
        lines += field("Asked", "no such file has these; give them as options, or write them into the file:", *missing_of(found))
    else:
        lines += field("Asked", "nothing more")
    lines += field("Not seen", "no file of a real tool was at hand when this was written: hold the numbers against your file by their "
                               "lines")
    if path:
        lines += field("Written", f"{path}; next: {called} run {path}")
    return "\n".join(lines) + "\n"


def words_of_registers(network: Network) -> bool:
    return network.form == "registers"


def list_page(words: argparse.Namespace, renamed: dict[str, dict[str, str]]) -> str:
    """The clusters of the files, with their nodes."""
    lines = []
    files = [XmlFile(path, renamed) for path in words.files]
    clusters = [root for file in files for root in file.roots if root.name in ("CLUSTER", "FLEXRAY-CLUSTER")]
    for cluster in clusters:
        lines += field("Cluster", f"{printable(cluster.short_name()) or 'without a name'}, line {cluster.line} of {cluster.file.path}")
        network = read_network(words.files, cluster.short_name(), renamed, words.leave_out or [])
        for node in network.controllers:
            slot = key_of(node)
            lines += field("", f"{node.ecu} (line {node.element.line}), channels {''.join(sorted(node.channels))}, "
                           + ("no key slot for sync" if slot is None else f"key slot {slot}{', coldstart' if node.is_startup else ''}"))
    return "\n".join(lines or field("Cluster", "there is no FlexRay cluster")) + "\n"


def out_of(words: argparse.Namespace) -> str:
    """The file that is written; one that is there already is not."""
    path = words.out or os.path.splitext(words.files[0])[0] + ".toml"
    if path != "-" and os.path.exists(path):
        raise Stop(FILE, f"{path}: File exists, and is not written over; name another one by -o")
    return str(path)


def import_files(words: argparse.Namespace, called: str) -> int:
    """The request."""
    renamed = renamed_of(words.map)
    if words.chip and (words.list or words.map or words.cluster or words.leave_out):
        raise Stop(USAGE, "--chip is for dumps of registers, and --list, --map, --cluster and --leave-out are for FIBEX and ARXML")
    if words.json and (words.list or words.out == "-"):
        raise Stop(USAGE, f"--json is in place of the page, and {'--list' if words.list else '-o -'} prints another text there")
    if words.list:
        sys.stdout.write(list_page(words, renamed))
        return DONE
    asked, path = asked_of(words), out_of(words)
    network = (register_network(words.files) if words.chip else
               read_network(words.files, words.cluster, renamed, words.leave_out or []))
    found = Importing(network, asked).made()
    text = toml_of(found)
    if path == "-":
        sys.stdout.write(text)
        for note in notes_of(found):
            print(f"flexlab: note: {note}", file=sys.stderr)
        return DONE
    put_new(path, text)
    if words.json:
        printed(imported_object(found, path))
    else:
        sys.stdout.write(page(found, path, called))
    return DONE
