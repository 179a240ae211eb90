"""A FlexRay cluster as FIBEX and ARXML files have it, in one form: values with their places, controllers, frames in slots."""
from collections.abc import Iterable, Iterator, Sequence
from dataclasses import dataclass, field

from ..base.ending import REFUSED, USAGE, Refused, Stop
from . import names
from .names import ARXML, CONTROLLER, CONTROLLER_CHECKED, CONTROLLER_OFF, FIBEX, KEY_SLOT, KEY_SLOT_ARXML, KEY_SLOT_FIBEX, Row
from .numbers import flag
from .xml_file import Element, Source, XmlFile, is_flexray, printable


@dataclass
class Controller:
    """A FlexRay controller of an ECU: its values by key, its key slot, and the channels that its connectors are on."""
    ecu: str
    own: str
    element: Element
    values: dict[str, Element]
    key_slot: Element | None = None
    is_sync: bool = False
    is_startup: bool = False
    channels: set[str] = field(default_factory=set)
    omitted: set[str] = field(default_factory=set)
    number: int = 0
    name: str = ""


@dataclass
class Sending:
    """A frame in slots of a channel, and who sends it."""
    element: Element
    channel: str
    senders: list[Controller]
    bytes: Element | None = None


@dataclass
class Network:
    """The cluster that is imported."""
    form: str
    files: Sequence[Source]
    name: str
    element: Element
    values: dict[str, Element]
    controllers: list[Controller] = field(default_factory=list)
    sendings: list[Sending] = field(default_factory=list)
    protocol: Element | None = None
    notes: list[tuple[Element | None, str]] = field(default_factory=list)
    omitted: set[str] = field(default_factory=set)
    labels: dict[str, str] = field(default_factory=dict)

    def label(self, row: Row) -> str:
        """What the files call a value, in a line of flexlab."""
        return self.labels.get(row.key) or row.name(self.form).split("|")[0].split(":")[-1]

    def place(self, element: Element) -> str:
        """Where an element stands: its line, with the file where there are several."""
        return element.place if len(self.files) > 1 else str(element.line)

    def note(self, element: Element | None, words: str) -> None:
        self.notes.append((element, words))


class Reading:
    """What both formats share: values by the table, and by what --map puts before it; references; controllers."""

    def __init__(self, form: str, files: list[XmlFile], renamed: dict[str, str], left: list[str]):
        self.form, self.files, self.renamed, self.left = form, files, renamed, left
        self.found: dict[int, Controller] = {}
        self.order: list[Controller] = []

    def value(self, element: Element, row: Row) -> Element | None:
        other = self.renamed.get(row.key)
        own = element.find(other) if other else None
        return own if own is not None else element.find(row.name(self.form))

    def values(self, element: Element, rows: Iterable[Row]) -> dict[str, Element]:
        found = {row.key: self.value(element, row) for row in rows}
        return {key: value for key, value in found.items() if value is not None}

    def nowhere(self, element: Element, told: str) -> Refused:
        where = "the file; give all files of the system" if len(self.files) == 1 else "none of the files"
        which = "which is not in " if len(self.files) == 1 else "which is in "
        return element.refused(f"it refers to {printable(told) or 'nothing'}, {which}{where}")

    def chosen(self, clusters: list[Element], wanted: str | None) -> Element:
        """The cluster that is imported: the only one, or that of --cluster."""
        listed = ", ".join(f"{printable(one.short_name()) or 'without a name'} (line {one.line})" for one in clusters)
        path = ", ".join(file.path for file in self.files)
        if not clusters:
            raise Stop(REFUSED, f"{path}: it has no FlexRay cluster")
        if wanted is None and len(clusters) > 1:
            raise Stop(REFUSED, f"{path}: it has {len(clusters)} FlexRay clusters: {listed}; name one by --cluster")
        found = [one for one in clusters if wanted in (None, one.short_name())]
        if len(found) != 1:
            raise Stop(USAGE, f"--cluster {wanted}: {'no' if not found else 'more than one'} cluster has that name; there are {listed}")
        return found[0]

    def controller(self, ecu: Element, element: Element, inside: Element) -> Controller:
        """The record of a controller, whose values stand in `inside`; the same for the same element."""
        if id(element) not in self.found:
            rows = (*CONTROLLER, *CONTROLLER_OFF, *CONTROLLER_CHECKED)
            made = Controller(printable(ecu.short_name()), printable(element.short_name()), element, self.values(inside, rows),
                              omitted=set(inside.omitted))
            self.key_slot(made, inside)
            self.found[id(element)] = made
            self.order.append(made)
        return self.found[id(element)]

    def key_slot(self, made: Controller, inside: Element) -> None:
        if self.form == "FIBEX":
            usage = inside.find(KEY_SLOT)
            startup, sync = (usage.find(KEY_SLOT_FIBEX[kind]) if usage else None for kind in ("startup", "sync"))
            if startup and sync:
                raise startup.refused(f"it stands beside another use of the key slot, in line {sync.line}")
            made.key_slot, made.is_sync, made.is_startup = startup or sync, bool(startup or sync), bool(startup)
            return
        found = self.values(inside, KEY_SLOT_ARXML)
        made.key_slot = found.get("key_slot")
        made.is_sync, made.is_startup = (key in found and flag(found[key]) for key in ("sync", "startup"))
        if made.is_sync and made.key_slot is None:
            raise found["sync"].refused("the key slot is used for sync, and there is no KEY-SLOT-ID")


def letter(channel: Element, path: str) -> str:
    """A or B, of the channel's name in the file."""
    told = channel.find(path)
    text = told.text.strip() if told else ""
    if text not in ("A", "B", "CHANNEL-A", "CHANNEL-B"):
        raise (told or channel).refused(f"{printable(text) or 'nothing'} is neither channel A nor channel B")
    return text[-1]


def twice(channels: Iterable[tuple[Element, str]]) -> None:
    seen: dict[str, Element] = {}
    for channel, name in channels:
        if name in seen:
            raise channel.refused(f"it is channel {name}, as that of line {seen[name].line}")
        seen[name] = channel


# ---- FIBEX


class Fibex(Reading):
    """A cluster of FIBEX, whose parts refer to each other by IDs."""

    def network(self, wanted: str | None) -> Network:
        roots = [root for file in self.files for root in file.roots]
        cluster = self.chosen([one for one in roots if one.name == "CLUSTER"], wanted)
        ids, channels = self.by_id(roots), {}
        for ref in cluster.all(FIBEX["channels"]):
            told = refer(ref)
            if told not in ids or ids[told].name != "CHANNEL":
                raise self.nowhere(ref, told)
            channels[told] = letter(ids[told], FIBEX["channel_name"])
        twice((ids[told], name) for told, name in channels.items())
        if not channels:
            raise cluster.refused("it has no channel, so none of its nodes is known")
        found = Network("FIBEX", self.files, printable(cluster.short_name()) or "without a name", cluster,
                        self.values(cluster, (*names.CLUSTER, *names.CLUSTER_CHECKED)), self.order,
                        protocol=cluster.find(FIBEX["version"]), omitted=set(cluster.omitted))
        damping = cluster.find("fr:CLUSTER-DRIFT-DAMPING")
        if damping:
            found.note(damping, f"{damping.plain} of the cluster, {printable(damping.text.strip(), 32)}, is left out: the controllers' "
                                "counts")
        sent = [pair for root in roots if root.name == "ECU" and root.short_name() not in self.left
                for pair in self.ecu(root, channels)]
        triggerings = {told: list(ids[told].all(FIBEX["triggerings"])) for told in channels}
        places = self.by_id(one for some in triggerings.values() for one in some)
        senders: dict[int, list[Controller]] = {}
        for ref, controller in sent:
            if refer(ref) not in places:
                raise self.nowhere(ref, refer(ref))
            senders.setdefault(id(places[refer(ref)]), []).append(controller)
        lost = 0
        for told, some in triggerings.items():
            for triggering in some:
                named = triggering.find(FIBEX["frame"])
                frame = ids.get(refer(named)) if named else None
                lost += bool(named and not frame)
                found.sendings.append(Sending(triggering, channels[told], senders.get(id(triggering), []),
                                              frame.find(FIBEX["bytes"]) if frame else None))
        lost_frames(found, lost)
        return found

    @staticmethod
    def by_id(elements: Iterable[Element]) -> dict[str, Element]:
        found: dict[str, Element] = {}
        for element in elements:
            name = element.attributes.get("ID")
            if name in found:
                raise element.refused(f"its ID, {printable(name)}, is that of {found[name].place} too")
            if name is not None:
                found[name] = element
        return found

    def ecu(self, ecu: Element, channels: dict[str, str]) -> Iterator[tuple[Element, Controller]]:
        """The references of an ECU to what it sends on these channels, each with its controller."""
        own = [one for one in ecu.all(FIBEX["controllers"]) if is_flexray(one)]
        known = {one.attributes.get("ID", ""): one for one in own}
        others = {name for file in self.files for name in file.channel_ids}
        for connector in ecu.all(FIBEX["connectors"]):
            of_channel, of_controller = connector.find(FIBEX["of_channel"]), connector.find(FIBEX["of_controller"])
            if of_channel is None:
                continue
            told = refer(of_channel)
            if told not in channels:
                if told not in others:
                    raise self.nowhere(of_channel, told)
                continue
            element = known.get(refer(of_controller)) if of_controller else own[0] if len(own) == 1 else None
            if element is None and of_controller and own:
                raise self.nowhere(of_controller, refer(of_controller))
            if element is None:
                raise connector.refused(f"ECU {printable(ecu.short_name())} is on channel {channels[told]}, and of no FlexRay controller "
                                        "there the parameters are told; leave the ECU out by --leave-out, and it is no node")
            controller = self.controller(ecu, element, element)
            controller.channels.add(channels[told])
            for ref in connector.all(FIBEX["sent"]):
                yield ref, controller


def refer(element: Element) -> str:
    told = element.attributes.get("ID-REF")
    if told is None:
        raise element.refused("it has no ID-REF")
    return told


def lost_frames(network: Network, count: int) -> None:
    if count:
        network.note(None, f"{count} references to frames lead nowhere: their payloads are not held against the cluster's")


# ---- ARXML


class Arxml(Reading):
    """A cluster of AUTOSAR, whose parts refer to each other by paths of short names."""

    def __init__(self, form: str, files: list[XmlFile], renamed: dict[str, str], left: list[str]):
        super().__init__(form, files, renamed, left)
        self.paths: dict[str, Element] = {}

    def network(self, wanted: str | None) -> Network:
        roots = [root for file in self.files for root in file.roots]
        for root in roots:
            self.put(root, root.path())
        cluster = self.chosen([one for one in roots if one.name == "FLEXRAY-CLUSTER"], wanted)
        inside = self.conditional(cluster, ARXML["variants"])
        channels = [(channel, letter(channel, ARXML["channel_name"])) for channel in inside.all(ARXML["channels"])]
        twice(channels)
        if not channels:
            raise cluster.refused("it has no channel, so none of its nodes is known")
        found = Network("ARXML", self.files, printable(cluster.short_name()) or "without a name", cluster,
                        self.values(inside, (*names.CLUSTER, *names.CLUSTER_CHECKED)), self.order,
                        protocol=inside.find(ARXML["version"]), omitted=set(inside.omitted))
        on: list[tuple[Element, str]] = []
        for channel, name in channels:
            on += [(self.target(ref, "FLEXRAY-COMMUNICATION-CONNECTOR"), name) for ref in channel.all(ARXML["connector_refs"])]
        # AUTOSAR 3: the connector names its channel.
        by_path = {channel.path(): name for channel, name in channels}
        for root in roots:
            for connector in root.all(ARXML["connectors"]):
                ref = connector.find(ARXML["of_channel"])
                if ref is not None and path_of(ref) in by_path:
                    on.append((connector, by_path[path_of(ref)]))
        # Nodes are in the order of the files, whatever the order of the channel's references.
        places = {id(connector): at for at, connector in enumerate(one for root in roots for one in root.all(ARXML["connectors"]))}
        for connector, name in sorted(on, key=lambda one: places[id(one[0])]):
            if ecu_of(connector).short_name() not in self.left:
                self.of_connector(connector).channels.add(name)
        lost = 0
        for channel, name in channels:
            for triggering in channel.all(ARXML["triggerings"]):
                ports = [self.target(ref, "FRAME-PORT") for ref in triggering.all(ARXML["ports"])]
                senders = [self.of_connector(connector_of(port)) for port in ports
                           if is_out(port) and ecu_of(port).short_name() not in self.left]
                ref = triggering.find(ARXML["frame"])
                frame = self.paths.get(path_of(ref)) if ref else None
                lost += bool(ref and not frame)
                found.sendings.append(Sending(triggering, name, senders, frame.find(ARXML["bytes"]) if frame else None))
        lost_frames(found, lost)
        return found

    def put(self, element: Element, path: str) -> None:
        """Puts an element and those inside it into the table of paths."""
        rest = [(element, path)]
        while rest:
            one, path = rest.pop()
            if one.short_name():
                if path in self.paths:
                    raise one.refused(f"its path, {printable(path)}, is that of {self.paths[path].place} too")
                self.paths[path] = one
            for child in one.children:
                name = child.short_name()
                rest.append((child, f"{path}/{name}" if name else path))

    def conditional(self, element: Element, path: str) -> Element:
        """Where an element's values are: in its only variant, or in itself."""
        found = list(element.all(path))
        if len(found) > 1:
            raise found[1].refused(f"it is a second variant of {printable(element.short_name())}, beside that of line {found[0].line}: "
                                   "post-build variants are not told apart here, so give a file with one of them")
        return found[0] if found else element

    def target(self, ref: Element, name: str) -> Element:
        found = self.paths.get(path_of(ref))
        if found is None or found.name != name:
            raise self.nowhere(ref, ref.text.strip())
        return found

    def of_connector(self, connector: Element) -> Controller:
        ecu = ecu_of(connector)
        own = list(ecu.all(ARXML["controllers"]))
        ref = connector.find(ARXML["of_controller"])
        element = self.target(ref, "FLEXRAY-COMMUNICATION-CONTROLLER") if ref is not None else own[0] if len(own) == 1 else None
        if element is None:
            raise connector.refused(f"it names no controller, and ECU {printable(ecu.short_name())} has {len(own)} of FlexRay")
        return self.controller(ecu, element, self.conditional(element, ARXML["controller_variants"]))


def path_of(ref: Element) -> str:
    """The path that a reference has, which has to be a whole one."""
    told = ref.text.strip()
    if "BASE" in ref.attributes or not told.startswith("/"):
        raise ref.refused(f"{printable(told) or 'nothing'} is no path from the root: relative references are not read")
    return told


def ecu_of(element: Element) -> Element:
    while element.parent is not None:
        element = element.parent
    return element


def connector_of(port: Element) -> Element:
    found = port
    while found.parent is not None and found.name != "FLEXRAY-COMMUNICATION-CONNECTOR":
        found = found.parent
    return found


def is_out(port: Element) -> bool:
    told = port.find(ARXML["direction"])
    return told is not None and told.text.strip() == "OUT"


def read_network(paths: list[str], wanted: str | None, renamed: dict[str, dict[str, str]], left: list[str]) -> Network:
    """The FlexRay cluster of files, which are one model; ECUs of these names are left out."""
    files = [XmlFile(path, renamed) for path in paths]
    form = files[0].form
    other = next((file for file in files if file.form != form), None)
    if other:
        raise Stop(REFUSED, f"{other.path}: it is {other.form}, and {files[0].path} is {form}: files of one system are of one format")
    ecus = {root.short_name() for file in files for root in file.roots if root.name in ("ECU", "ECU-INSTANCE")}
    for name in left:
        if name not in ecus:
            raise Stop(USAGE, f"--leave-out {name}: there is no such ECU")
    own = renamed.get(form.lower(), {})
    found = Fibex(form, files, own, left).network(wanted) if form == "FIBEX" else Arxml(form, files, own, left).network(wanted)
    if not found.controllers:
        raise found.element.refused(f"no node of cluster {found.name} is in "
                                    + ("the file; give all files of the system" if len(files) == 1 else "these files"))
    for name in left:
        found.note(None, f"ECU {printable(name)} is left out, as --leave-out asks: what is promised is of a cluster without it")
    for controller in found.controllers:
        found.omitted |= controller.omitted
    return found
