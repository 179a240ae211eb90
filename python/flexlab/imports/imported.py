"""A cluster of flexlab out of a network: its numbers with their places, its nodes and slots, and what was derived, left out and asked."""
import re
from collections.abc import Iterable
from dataclasses import dataclass, field
from fractions import Fraction

from ..base import ranges
from ..base.ending import REFUSED, USAGE, Stop
from ..base.units import decimal
from ..program.known import KeySlot, KnownSlot, Place
from ..toml.constraints import broken, explain_constraint
from .names import CLUSTER, CONTROLLER, CONTROLLER_CHECKED, CONTROLLER_OFF, TIMING
from .network import Controller, Network, Sending
from .numbers import flag, microtick, nanoseconds, near, number, shown, whole
from .xml_file import Element, printable

MOST_ERROR = 10
SLOTS = (1, 1023)
# What a file has not: key of the TOML, the word of flexlab that gives it, and what it promises.
ASKED = {
    "oscillator_ppm": ("--oscillator-ppm", "no oscillator is ever further off"),
    "change_ppm_per_cycle": ("--change-ppm", "none changes by more from one cycle to the next"),
    "delay_error_ns": ("--delay-ns", "no delay is further from the compensation"),
}


@dataclass
class Told:
    """A number of the TOML: its text, the element that has it, and what stands beside its line."""
    text: str
    element: Element | None = None
    why: str = ""


@dataclass
class Slot:
    slot: int
    node: Controller
    base: int
    repetition: int
    element: Element


@dataclass
class Asked:
    """What the words of flexlab say that no such file has."""
    oscillator_ppm: Fraction | None = None
    change_ppm: Fraction | None = None
    delays: dict[str, tuple[Fraction, Fraction]] = field(default_factory=dict)
    given: dict[str, Fraction] = field(default_factory=dict)
    take: str | None = None


@dataclass
class Imported:
    """What is written: tables of the TOML, in the order of the file."""
    network: Network
    bench: dict[str, Told]
    parameters: dict[str, Told]
    limits: dict[str, Told]
    nodes: list[Controller]
    slots: list[Slot]

    def value(self, name: str) -> int:
        return int(self.parameters[name].text)


class Known:
    """The parameters as the words about constraints want them, with the lines of the imported file."""

    def __init__(self, found: Imported):
        self.found = found
        self.slots = {one.slot: KnownSlot(one.node.number, Place(self.place(one.element))) for one in found.slots}

    def place(self, element: Element | None) -> str:
        return "-" if element is None else self.found.network.place(element)

    def parameter(self, name: str) -> int:
        return self.found.value(name)

    def value(self, name: str) -> int:
        return self.found.value(name)

    def line(self, name: str) -> str:
        return self.place(self.found.parameters[name].element)

    def keys(self) -> list[KeySlot]:
        return [KeySlot(node.number, key, Place(self.place(node.key_slot)))
                for node in self.found.nodes if (key := key_of(node)) is not None]


def key_of(controller: Controller) -> int | None:
    """The key slot of a sync node; one that is not used for sync is none of flexlab."""
    if not controller.is_sync or controller.key_slot is None:
        return None
    return whole(controller.key_slot, *SLOTS)


def listed(nodes: Iterable[Controller], key: str) -> str:
    """The values of a controller's parameter, each with whose it is."""
    groups: dict[str, list[Controller]] = {}
    for node in nodes:
        groups.setdefault(shown(node.values[key]), []).append(node)
    return "; ".join(f"{text} of {', '.join(one.name for one in some[:3])}{', ..' if len(some) > 3 else ''} "
                     f"(line {some[0].values[key].line})" for text, some in groups.items())


def named(controllers: list[Controller]) -> None:
    """Gives each node a name that no other has: its ECU's, with the controller's where an ECU has several."""
    several = {one.ecu for one in controllers if sum(other.ecu == one.ecu for other in controllers) > 1}
    seen: set[str] = set()
    for one in controllers:
        base = (f"{one.ecu}/{one.own}" if one.ecu in several else one.ecu)[:120].strip() or "ECU"
        base = f"ECU {base}" if base.isdecimal() else base
        one.name = next(name for name in (base, *(f"{base} {at}" for at in range(2, 70))) if name not in seen)
        seen.add(one.name)


class Importing:
    """Makes a cluster of a network; each method takes a part of it."""

    def __init__(self, network: Network, asked: Asked):
        self.network, self.asked = network, asked
        self.used: set[str] = set()
        if len(network.controllers) > 64:
            raise network.element.refused(f"it has {len(network.controllers)} nodes, and flexray takes 64")
        named(network.controllers)
        ordered = [one for one in network.controllers if key_of(one) is not None]
        ordered.sort(key=lambda one: key_of(one) or 0)
        self.nodes = ordered + [one for one in network.controllers if key_of(one) is None]
        for at, one in enumerate(self.nodes, 1):
            one.number = at
        if asked.take is not None and all(one.ecu != asked.take and one.name != asked.take for one in self.nodes):
            raise Stop(USAGE, f"--take {asked.take}: there is no such ECU; there are {', '.join(one.name for one in self.nodes)}")

    # ---- values

    def given(self, key: str, name: str, where: str) -> Told:
        """A value that the file has not: of --set, or refused."""
        if key in self.asked.given:
            self.used.add(key)
            return Told(plain(self.asked.given[key]), None, "by --set")
        raise self.network.element.refused(f"{name} is missing {where}; give it by --set {key}=NUMBER")

    def of_cluster(self) -> dict[str, Told]:
        found: dict[str, Told] = {}
        for row in CLUSTER:
            if row.key not in ranges.NAMES:
                continue
            element = self.network.values.get(row.key)
            if element is None:
                found[row.key] = self.given(row.key, self.network.label(row), "in the cluster")
                continue
            least, most, unit, _ = ranges.NAMES[row.key]
            found[row.key] = Told(str(whole(element, least, most, unit)), element)
        return found

    def of_nodes(self, key: str, nodes: list[Controller], name: str) -> tuple[Element | None, Controller | None]:
        """The value that all nodes have, with whose it is: that of the first one, or of --take."""
        have = [node for node in nodes if key in node.values]
        if not have:
            return None, None
        if self.asked.take is not None:
            taken = next(node for node in nodes if self.asked.take in (node.ecu, node.name))
            have = [taken] if taken in have else have
        values = {self.exact(key, node.values[key]) for node in have}
        if len(values) > 1:
            raise Stop(REFUSED, f"{self.network.files[0].path}: {name} differs: {listed(have, key)}. All nodes of flexray have one value: "
                                "--take ECU takes that of one, and what follows is then of a cluster of such nodes")
        if len(have) < len(nodes) and self.asked.take is None:
            missing = next(node for node in nodes if key not in node.values)
            self.network.note(missing.element, f"{name} is missing there, and taken to be that of the others")
        first = next(node for node in self.network.controllers if node in have)
        return first.values[key], first

    def exact(self, key: str, element: Element) -> Fraction:
        if key == "microtick_ns":
            return microtick(element, self.network.form)
        return Fraction(flag(element)) if key == "pAllowHaltDueToClock" else number(element)

    def of_controllers(self) -> dict[str, Told]:
        found: dict[str, Told] = {}
        for row in CONTROLLER:
            channel = row.key[-1] if row.key.startswith("pDelayCompensation") else ""
            nodes = [node for node in self.nodes if channel in node.channels] if channel else self.nodes
            name = self.network.label(row)
            element, _ = self.of_nodes(row.key, nodes, name)
            if channel and not nodes:
                continue
            if element is None:
                if row.key == "microtick_ns" and row.key not in self.asked.given:
                    raise self.network.element.refused(f"{name} is missing in the controllers: give it by --set microtick_ns=25")
                found[row.key] = self.given(row.key, name, "in the controllers")
            elif row.key == "microtick_ns":
                length = microtick(element, self.network.form)
                found[row.key] = Told(plain(length), element)
            elif row.key == "pAllowHaltDueToClock":
                found[row.key] = Told(str(int(flag(element))), element)
            else:
                least, most, unit, _ = ranges.NAMES[row.key]
                found[row.key] = Told(str(whole(element, least, most, unit)), element)
        return found

    def refuse_what_moves_clocks(self) -> None:
        """What the model leaves out and that moves clocks has to be off."""
        for node in self.nodes:
            for row in CONTROLLER_OFF:
                element = node.values.get(row.key)
                if element is not None and (flag(element) if row.kind == "flag" else number(element) != 0):
                    raise element.refused(f"{shown(element)} of {node.name}: "
                                          + ("nodes with two key slots (TT-L and TT-E of version 3) are left out of the model"
                                             if row.kind == "flag" else "external clock correction breaks the premises of every promise "
                                             "of flexray: it has to be 0"))

    # ---- the whole

    def bench(self, of_nodes: dict[str, Told]) -> dict[str, Told]:
        found = {"microtick_ns": of_nodes["microtick_ns"]}
        rate, start = self.network.values.get("bit_rate"), self.network.values.get("start_bits")
        if rate is not None:
            mbit = number(rate) / 1000000
            if not 1 <= mbit <= 10:
                raise rate.refused(f"{shown(rate)} bit/s is no number from 1,000,000 to 10,000,000")
            found["bit_rate_mbit"] = Told(plain(mbit), rate)
        if start is not None:
            found["start_bits"] = Told(str(whole(start, 1, 15, "bits")), start)
        return found

    def parameters(self, of_nodes: dict[str, Told]) -> dict[str, Told]:
        found = self.of_cluster()
        macros, slots, slot = (int(found[name].text) for name in ("gMacroPerCycle", "gNumberOfStaticSlots", "gdStaticSlot"))
        rest = macros - slots * slot
        if not 1 <= rest <= 15999:
            element = found["gMacroPerCycle"].element or self.network.element
            raise element.refused(f"the cycle does not add up: {slots} static slots of {slot} macroticks are {slots * slot}, and the cycle "
                                  f"has {macros}")
        nit = self.network.values.get("nit")
        found["gdNIT"] = Told(str(rest), nit, "all behind the static slots; the file's NIT is a part of it" if nit is not None
                              else "all behind the static slots")
        found.update({name: told for name, told in of_nodes.items() if name != "microtick_ns"})
        one, two = found.get("pDelayCompensationA"), found.get("pDelayCompensationB")
        if one is None or two is None or one.text == two.text:
            # Of a channel that no node is on nothing is wanted, and of equal ones one is enough.
            same = one or two
            assert same is not None
            places = [told.element for told in (one, two) if told and told.element is not None]
            beside = f"and {self.network.place(places[1])}" if len(places) == 2 else same.why
            found = {name: told for name, told in found.items() if not name.startswith("pDelayCompensation")}
            found["pDelayCompensation"] = Told(same.text, same.element, beside)
        order = ranges.table(ranges.version_of({name: 0 for name in found}))
        return {name: found[name] for name in order if name in found}

    def limits(self, parameters: dict[str, Told], microtick_ns: Fraction) -> dict[str, Told]:
        found: dict[str, Told] = {}
        for key, value in (("oscillator_ppm", self.asked.oscillator_ppm), ("change_ppm_per_cycle", self.asked.change_ppm)):
            if value is not None:
                found[key] = Told(plain(value), None, ASKED[key][0])
        if self.asked.delays:
            found["delay_error_ns"] = self.delay_error(parameters, microtick_ns)
        return found

    def delay_error(self, parameters: dict[str, Told], microtick_ns: Fraction) -> Told:
        """How far the delays that are told lie from the compensation of their channel."""
        error, words = Fraction(0), []
        for channel in sorted({channel for node in self.nodes for channel in node.channels}):
            if channel not in self.asked.delays:
                raise Stop(USAGE, f"--delay-{channel.lower()}-ns is missing: nodes are on channel {channel} too (or --delay-ns, of both)")
            low, high = self.asked.delays[channel]
            name = ranges.compensation_name({key: 0 for key in parameters}, channel)
            wait = int(parameters[name].text) * microtick_ns
            here = max(abs(low - wait), abs(high - wait))
            words.append(f"{channel} {plain(low)}-{plain(high)} beside {plain(wait)}")
            if here > MOST_ERROR * microtick_ns:
                amid = round((low + high) / 2 / microtick_ns)
                raise Stop(REFUSED, f"{self.network.files[0].path}: delays of {plain(low)} to {plain(high)} ns on channel {channel} lie up "
                                    f"to {plain(here)} ns off its compensation, {plain(wait)} ns: {plain(here / microtick_ns)} microticks, "
                                    f"and {MOST_ERROR} are the range of flexray's xDelayError. A compensation amid them is {amid} "
                                    "microticks")
            error = max(error, here)
        return Told(plain(error), None, f"--delay-ns: {'; '.join(words)}")

    def made(self) -> Imported:
        self.refuse_what_moves_clocks()
        of_nodes = self.of_controllers()
        bench, parameters = self.bench(of_nodes), self.parameters(of_nodes)
        microtick_ns = Fraction(bench["microtick_ns"].text)
        found = Imported(self.network, bench, parameters, self.limits(parameters, microtick_ns), self.nodes,
                         self.slots(int(parameters["gNumberOfStaticSlots"].text)))
        known = Known(found)
        for key in self.asked.given:
            if key not in self.used:
                raise Stop(USAGE, f"--set {key}: the file has it; change it in the file that is written")
        faults = [f"{self.network.files[0].path}: constraint {number_} asks: " + "; ".join(explain_constraint(number_, known))
                  for number_ in broken(known)]
        if faults:
            raise Stop(REFUSED, "\nflexlab: ".join(faults))
        self.held_against(found, microtick_ns)
        return found

    def held_against(self, found: Imported, microtick_ns: Fraction) -> None:
        """Notes on what the file says twice and not alike."""
        values, note, form = self.network.values, self.network.note, self.network.form
        cycle = found.value("pMicroPerCycle") * microtick_ns
        if "cycle" in values and not near(nanoseconds(values["cycle"], form), cycle):
            told = nanoseconds(values["cycle"], form)
            micros = found.value("pMicroPerCycle")
            note(values["cycle"], f"CYCLE is {plain(told / 1000)} us, and {micros} microticks are {plain(cycle / 1000)} us: "
                                  "microticks count")
        if "macrotick" in values and not near(nanoseconds(values["macrotick"], form) * found.value("gMacroPerCycle"), cycle):
            told = nanoseconds(values["macrotick"], form)
            note(values["macrotick"], f"a macrotick is {plain(told / 1000)} us, and {found.value('gMacroPerCycle')} of them are no cycle "
                                      f"of {plain(cycle / 1000)} us: microticks count")
        if "bit" in values and "bit_rate" in values and not near(nanoseconds(values["bit"], form) * number(values["bit_rate"]),
                                                                 Fraction(1000000000)):
            note(values["bit"], f"a bit of {shown(values['bit'])} is not one of {shown(values['bit_rate'])} bit/s")
        parts = [values.get(key) for key in ("nit", "minislot", "minislots", "symbol_window", "minislot_point")]
        if all(part is not None for part in parts):
            nit, length, count, window, point = (int(number(part)) for part in parts if part is not None)
            dynamic = length * count + max(0, found.value("gdActionPointOffset") - point) if count else 0
            if nit + dynamic + window != found.value("gdNIT"):
                note(values["nit"], f"the parts behind the static slots are {nit + dynamic + window} macroticks, and the cycle has "
                                    f"{found.value('gdNIT')} there, which count")
        keys = [node for node in self.nodes if key_of(node) is not None]
        if "sync_nodes" in values and len(keys) > number(values["sync_nodes"]):
            note(values["sync_nodes"], f"{len(keys)} nodes have a key slot for sync, and {shown(values['sync_nodes'])} are allowed")
        if self.network.protocol is not None and not self.network.protocol.text.strip().startswith("2.1"):
            note(self.network.protocol, f"the protocol is of version {shown(self.network.protocol)}, and flexray's is 2.1")
        most = 2 * found.value("gPayloadLengthStatic")
        static = [(one, number(one.bytes)) for one in self.network.sendings if one.bytes is not None and self.is_static(one, found)]
        longer = [one for one, size in static if size > most]
        if longer:
            note(longer[0].bytes, f"{len(longer)} frames of static slots have more than {most} bytes, two for each of the "
                                  f"{most // 2} words of PAYLOAD-LENGTH-STATIC: is that one in bytes?")

    def is_static(self, sending: Sending, found: Imported) -> bool:
        return any(slot <= found.value("gNumberOfStaticSlots") for slot, _ in self.timings(sending))

    # ---- frames in slots

    def timings(self, sending: Sending) -> Iterable[tuple[int, set[int]]]:
        return self.timings_of(self.network, sending)

    @staticmethod
    def timings_of(network: Network, sending: Sending) -> Iterable[tuple[int, set[int]]]:
        """(slot, cycles) of a frame's timings."""
        names = TIMING[network.form]
        for timing in sending.element.all(names["timing"]):
            slot = timing.find(names["slot"])
            if slot is None:
                continue
            counter, base, repetition = (timing.find(names[key]) for key in ("counter", "base", "repetition"))
            if counter is not None:
                yield whole(slot, 1, 2047), {whole(counter, 0, 63)}
            elif base is not None and repetition is not None:
                step = repetition_of(network, repetition)
                yield whole(slot, 1, 2047), set(range(whole(base, 0, 63), 64, step))

    def slots(self, count: int) -> list[Slot]:
        keys = {key_of(node): node for node in self.nodes if key_of(node) is not None}
        sent: dict[int, dict[str, tuple[Controller, set[int], Element]]] = {}
        silent = 0
        for sending in self.network.sendings:
            for slot, cycles in self.timings(sending):
                if slot > count:
                    continue
                silent += not sending.senders
                for node in sending.senders:
                    if keys.get(slot) is node:
                        continue
                    if slot in keys:
                        self.network.note(sending.element, f"slot {slot} is the key slot of {keys[slot].name}, and {node.name} sends there "
                                                           "too: that frame is left out")
                        continue
                    _, known, _ = sent.setdefault(slot, {}).setdefault(node.name, (node, set(), sending.element))
                    known |= cycles
        if silent:
            self.network.note(None, f"{silent} frames of static slots have no sender in the "
                                    f"{'file' if len(self.network.files) == 1 else 'files'}: they are left out")
        return [self.slot(slot, nodes) for slot, nodes in sorted(sent.items())]

    def slot(self, slot: int, nodes: dict[str, tuple[Controller, set[int], Element]]) -> Slot:
        node, cycles, element = next(iter(nodes.values()))
        if len(nodes) > 1:
            self.network.note(element, f"slot {slot} has several senders ({', '.join(nodes)}), and flexray has one a slot: {node.name} is "
                                       "taken")
        first = min(cycles)
        step = next(step for step in reversed(ranges.REPETITIONS) if len({cycle % step for cycle in cycles}) == 1)
        if cycles != set(range(first % step, 64, step)):
            self.network.note(element, f"the frames of slot {slot} come in {len(cycles)} of 64 cycles, which is no base and repetition: "
                                       f"base {first % step}, repetition {step} covers them and more")
        return Slot(slot, node, first % step, step, element)


def repetition_of(network: Network, element: Element) -> int:
    """The repetition: a number, or CYCLE-REPETITION-n of AUTOSAR."""
    last = element.text.strip().removeprefix("CYCLE-REPETITION-")
    if network.form == "ARXML" and re.fullmatch(r"\d{1,2}", last, re.ASCII) and 1 <= int(last) <= 64:
        return int(last)
    return whole(element, 1, 64, "cycles")


def plain(value: Fraction) -> str:
    """A number as TOML has it: no more digits than it needs."""
    if value.denominator == 1:
        return str(value.numerator)
    return decimal(value, 9).rstrip("0").rstrip(".")


def known_and_unused(network: Network) -> list[str]:
    """The names of what stands in the cluster and its controllers and is left out."""
    rows = CONTROLLER_CHECKED
    have = {key for controller in network.controllers for key in controller.values}
    found = {network.label(row) for row in rows if row.key in have}
    return sorted(found | {printable(name, 64) for name in network.omitted})
