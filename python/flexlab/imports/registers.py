"""Registers of a controller as a node: dumps of a Bosch E-Ray, one file a node, are a network like any other.

The bits are from memory and were held against no manual and no chip. A dump says what a controller really runs by.
"""
import hashlib
import os
import re
from dataclasses import dataclass

from ..base.ending import FILE, REFUSED, Refused, Stop
from .network import Controller, Network
from .xml_file import Element, Source, printable

# Register: offset, and the fields that are read: first bit, count of bits, key, and what is added to the field's number.
E_RAY: dict[str, tuple[int, tuple[tuple[str, int, int, str, int], ...]]] = {
    "SUCC1": (0x080, (("TXST", 8, 1, "startup", 0), ("TXSY", 9, 1, "sync", 0), ("PTA", 16, 5, "pAllowPassiveToActive", 0),
                      ("HCSE", 23, 1, "pAllowHaltDueToClock", 0), ("CCHA", 26, 1, "on_A", 0), ("CCHB", 27, 1, "on_B", 0))),
    "SUCC3": (0x088, (("WCP", 0, 4, "gMaxWithoutClockCorrectionPassive", 0), ("WCF", 4, 4, "gMaxWithoutClockCorrectionFatal", 0))),
    "PRTC1": (0x090, (("TSST", 0, 4, "start_bits", 0), ("BRP", 14, 2, "bit_rate", 0))),
    "MHDC": (0x098, (("SFDL", 0, 7, "gPayloadLengthStatic", 0),)),
    "GTUC1": (0x0A0, (("UT", 0, 20, "pMicroPerCycle", 0),)),
    "GTUC2": (0x0A4, (("MPC", 0, 14, "gMacroPerCycle", 0), ("SNM", 16, 4, "sync_nodes", 0))),
    "GTUC3": (0x0A8, (("UIOA", 0, 8, "micro_initial_A", 0), ("UIOB", 8, 8, "micro_initial_B", 0), ("MIOA", 16, 7, "macro_initial_A", 0),
                      ("MIOB", 24, 7, "macro_initial_B", 0))),
    "GTUC4": (0x0AC, (("OCS", 16, 14, "gOffsetCorrectionStart", 1),)),
    "GTUC5": (0x0B0, (("DCA", 0, 8, "pDelayCompensationA", 0), ("DCB", 8, 8, "pDelayCompensationB", 0),
                      ("CDD", 16, 5, "pClusterDriftDamping", 0), ("DEC", 24, 8, "decoding", 0))),
    "GTUC6": (0x0B4, (("ASR", 0, 11, "startup_range", 0), ("MOD", 16, 11, "max_drift", 0))),
    "GTUC7": (0x0B8, (("SSL", 0, 10, "gdStaticSlot", 0), ("NSS", 16, 10, "gNumberOfStaticSlots", 0))),
    "GTUC9": (0x0C0, (("APO", 0, 6, "gdActionPointOffset", 0),)),
    "GTUC10": (0x0C4, (("MOC", 0, 14, "pOffsetCorrectionOut", 0), ("MRC", 16, 11, "pRateCorrectionOut", 0))),
    "GTUC11": (0x0C8, (("GTUC11", 0, 32, "pExternRateCorrection", 0),)),
    # The header of message buffer 0, which has the key slot; it is read by its name alone, since what stands at its place
    # depends on the buffer that was asked for last.
    "WRHS1": (-1, (("FID", 0, 11, "key_slot", 0),)),
}
CLUSTER_KEYS = ("gMacroPerCycle", "gNumberOfStaticSlots", "gdStaticSlot", "gdActionPointOffset", "gPayloadLengthStatic",
                "gOffsetCorrectionStart", "gMaxWithoutClockCorrectionPassive", "gMaxWithoutClockCorrectionFatal", "start_bits", "bit_rate",
                "sync_nodes")
BIT_RATES = (10000000, 5000000, 2500000, 2500000)
# The space of a controller; higher bits of an address are where it lies in its chip.
SPACE = 0x7FF
MOST_BYTES = 1048576


@dataclass
class Register:
    value: int
    line: int


class Dump(Source):
    """A dump: `ADDRESS VALUE` or `NAME VALUE` a line, hexadecimal; what stands behind # or // is passed over."""

    def __init__(self, path: str):
        self.path, self.form, self.version = path, "registers", "E-Ray"
        try:
            with open(path, "rb") as file:
                data = file.read(MOST_BYTES + 1)
        except OSError as fault:
            raise Stop(FILE, f"{path}: {fault.strerror}")
        if len(data) > MOST_BYTES:
            raise Stop(REFUSED, f"{path}: it has more than {MOST_BYTES} bytes, and a dump of registers has not")
        self.sha256 = hashlib.sha256(data).hexdigest()
        self.registers: dict[str, Register] = {}
        offsets = {offset: name for name, (offset, _) in E_RAY.items()}
        for number, line in enumerate(data.decode("latin-1").splitlines(), 1):
            text = re.split(r"#|//|;", line)[0].strip()
            if not text:
                continue
            found = re.fullmatch(r"([A-Za-z_]\w{0,15}|(?:0[xX])?[0-9A-Fa-f]{1,8})[\s=:,|]+(?:0[xX])?([0-9A-Fa-f]{1,8})", text, re.ASCII)
            if not found:
                raise Refused(path, number, f"{printable(text, 60)} is neither ADDRESS VALUE nor NAME VALUE, in hexadecimal digits")
            name = found[1].upper()
            if name not in E_RAY and re.fullmatch(r"(?:0X)?[0-9A-F]{1,8}", name):
                name = offsets.get(int(name.removeprefix("0X"), 16) & SPACE, "")
            if name not in E_RAY:
                continue
            if name in self.registers:
                raise Refused(path, number, f"register {name} stands in line {self.registers[name].line} too")
            self.registers[name] = Register(int(found[2], 16), number)
        if not self.registers:
            raise Stop(REFUSED, f"{path}: it has no register of an E-Ray that is read: {', '.join(E_RAY)}")

    def element(self, register: str, label: str, text: str) -> Element:
        found = Element(label, self, self.registers[register].line, None)
        found.text = text
        return found

    def values(self) -> dict[str, Element]:
        """The fields by key."""
        found: dict[str, Element] = {}
        for name, (_, fields) in E_RAY.items():
            if name in self.registers:
                for label, first, bits, key, more in fields:
                    number = (self.registers[name].value >> first) % (1 << bits) + more
                    found[key] = self.element(name, f"{name}.{label}", str(BIT_RATES[number] if key == "bit_rate" else number))
        return found


def register_network(paths: list[str]) -> Network:
    """The cluster of dumps, one a node with the name of its file."""
    dumps = [Dump(path) for path in paths]
    head = Element("registers", dumps[0], 1, None)
    values: dict[str, Element] = {}
    controllers = []
    for dump in dumps:
        own = dump.values()
        for key in CLUSTER_KEYS:
            if key in own and values.setdefault(key, own[key]).text != own[key].text:
                raise own[key].refused(f"{own[key].text}, and {values[key].text} in {values[key].place}: all nodes of a cluster have one")
        channels = {channel for channel in "AB" if own.get(f"on_{channel}") is not None and own[f"on_{channel}"].text == "1"}
        if not channels:
            raise Refused(dump.path, 1, "SUCC1 is missing, or says that the node is on no channel")
        is_sync = "sync" in own and own["sync"].text == "1"
        if is_sync and "key_slot" not in own:
            raise own["sync"].refused("the node sends sync frames, and its key slot is not told: add the header of message buffer 0, as "
                                      "`WRHS1 VALUE`, whose last eleven bits are the slot")
        name = printable(os.path.splitext(os.path.basename(dump.path))[0])
        controllers.append(Controller(name, "E-Ray", Element(name, dump, 1, None), own, own.get("key_slot"), is_sync,
                                      "startup" in own and own["startup"].text == "1" and is_sync, channels))
    labels = {key: f"{name}.{label}" for name, (_, fields) in E_RAY.items() for label, _, _, key, _ in fields}
    found = Network("registers", dumps, "of these nodes", head, values, controllers, labels=labels)
    found.note(None, "bits of registers are from memory, and were held against no manual: compare some numbers with yours; frames in other "
                     "slots are in no such register")
    return found
