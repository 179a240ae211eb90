"""The names of FIBEX and ARXML: one table, to be mended here where a file of a real tool has another name.

All are from memory of the schemas: no schema and no file of a real tool was at hand. Several spellings of one name stand in one text,
with a | between; the first that is there counts. `--map` of flexlab puts another one before them.
"""
from dataclasses import dataclass

# Name spaces of FIBEX, each with the prefix that the table gives it; of AUTOSAR any that begins so.
FIBEX_SPACES = {"http://www.asam.net/xml/fbx": "", "http://www.asam.net/xml": "ho:", "http://www.asam.net/xml/fbx/flexray": "fr:"}
AUTOSAR_SPACE = "http://autosar.org/"
SCHEMA_INSTANCE = "http://www.w3.org/2001/XMLSchema-instance"

COUNT, TIME, BITS, FLAG = "count", "time", "bit/s", "flag"


@dataclass(frozen=True)
class Row:
    """A value: its key, its names in both formats, and what its text is: a count, a time (us in FIBEX, s in ARXML), bit/s, a flag."""
    key: str
    fibex: str
    arxml: str
    kind: str = COUNT

    def name(self, form: str) -> str:
        return self.fibex if form == "FIBEX" else self.arxml


# Below the cluster: what flexlab has itself.
CLUSTER = (
    Row("gMacroPerCycle", "fr:MACRO-PER-CYCLE", "MACRO-PER-CYCLE"),
    Row("gNumberOfStaticSlots", "fr:NUMBER-OF-STATIC-SLOTS", "NUMBER-OF-STATIC-SLOTS"),
    Row("gdStaticSlot", "fr:STATIC-SLOT", "STATIC-SLOT-DURATION|STATIC-SLOT"),
    Row("gdActionPointOffset", "fr:ACTION-POINT-OFFSET", "ACTION-POINT-OFFSET"),
    Row("gPayloadLengthStatic", "fr:PAYLOAD-LENGTH-STATIC", "PAYLOAD-LENGTH-STATIC"),
    Row("gOffsetCorrectionStart", "fr:OFFSET-CORRECTION-START", "OFFSET-CORRECTION-START"),
    Row("gMaxWithoutClockCorrectionPassive", "fr:MAX-WITHOUT-CLOCK-CORRECTION-PASSIVE", "MAX-WITHOUT-CLOCK-CORRECTION-PASSIVE"),
    Row("gMaxWithoutClockCorrectionFatal", "fr:MAX-WITHOUT-CLOCK-CORRECTION-FATAL", "MAX-WITHOUT-CLOCK-CORRECTION-FATAL"),
    Row("start_bits", "fr:T-S-S-TRANSMITTER", "TRANSMISSION-START-SEQUENCE-DURATION|T-S-S-TRANSMITTER"),
    Row("bit_rate", "SPEED", "BAUDRATE|SPEED", BITS),
)

# Below the cluster: what is held against these, and what follows from them.
CLUSTER_CHECKED = (
    Row("nit", "fr:N-I-T", "NETWORK-IDLE-TIME|N-I-T"),
    Row("minislot", "fr:MINISLOT", "MINISLOT-DURATION|MINISLOT"),
    Row("minislots", "fr:NUMBER-OF-MINISLOTS", "NUMBER-OF-MINISLOTS"),
    Row("symbol_window", "fr:SYMBOL-WINDOW", "SYMBOL-WINDOW"),
    Row("minislot_point", "fr:MINISLOT-ACTION-POINT-OFFSET", "MINISLOT-ACTION-POINT-OFFSET"),
    Row("sync_nodes", "fr:SYNC-NODE-MAX", "SYNC-FRAME-ID-COUNT-MAX|SYNC-NODE-MAX"),
    Row("macrotick", "fr:MACROTICK", "MACROTICK-DURATION|MACROTICK", TIME),
    Row("cycle", "fr:CYCLE", "CYCLE", TIME),
    Row("bit", "fr:BIT", "BIT", TIME),
)

# Below the controller.
CONTROLLER = (
    Row("microtick_ns", "fr:MICROTICK", "MICROTICK-DURATION|MICROTICK", TIME),
    Row("pMicroPerCycle", "fr:MICRO-PER-CYCLE", "MICRO-PER-CYCLE"),
    Row("pAllowHaltDueToClock", "fr:ALLOW-HALT-DUE-TO-CLOCK", "ALLOW-HALT-DUE-TO-CLOCK", FLAG),
    Row("pAllowPassiveToActive", "fr:ALLOW-PASSIVE-TO-ACTIVE", "ALLOW-PASSIVE-TO-ACTIVE"),
    Row("pClusterDriftDamping", "fr:CLUSTER-DRIFT-DAMPING", "CLUSTER-DRIFT-DAMPING"),
    Row("pOffsetCorrectionOut", "fr:OFFSET-CORRECTION-OUT", "OFFSET-CORRECTION-OUT"),
    Row("pRateCorrectionOut", "fr:RATE-CORRECTION-OUT", "RATE-CORRECTION-OUT"),
    Row("pDelayCompensationA", "fr:DELAY-COMPENSATION-A", "DELAY-COMPENSATION-A"),
    Row("pDelayCompensationB", "fr:DELAY-COMPENSATION-B", "DELAY-COMPENSATION-B"),
)

# Below the controller: what a model of one set of parameters leaves out and that moves clocks: it has to be 0 or false.
CONTROLLER_OFF = (
    Row("pExternOffsetCorrection", "fr:EXTERN-OFFSET-CORRECTION", "EXTERN-OFFSET-CORRECTION", TIME),
    Row("pExternRateCorrection", "fr:EXTERN-RATE-CORRECTION", "EXTERN-RATE-CORRECTION", TIME),
    Row("two_key_slots", "fr:TWO-KEY-SLOT-MODE", "TWO-KEY-SLOT-MODE", FLAG),
)

# Below the controller: what follows from the parameters by a formula of the standard.
CONTROLLER_CHECKED = (
    Row("decoding", "fr:DECODING-CORRECTION", "DECODING-CORRECTION"),
    Row("macro_initial_A", "fr:MACRO-INITIAL-OFFSET-A", "MACRO-INITIAL-OFFSET-A"),
    Row("macro_initial_B", "fr:MACRO-INITIAL-OFFSET-B", "MACRO-INITIAL-OFFSET-B"),
    Row("micro_initial_A", "fr:MICRO-INITIAL-OFFSET-A", "MICRO-INITIAL-OFFSET-A"),
    Row("micro_initial_B", "fr:MICRO-INITIAL-OFFSET-B", "MICRO-INITIAL-OFFSET-B"),
    Row("listen_timeout", "fr:LISTEN-TIMEOUT", "LISTEN-TIMEOUT"),
    Row("max_drift", "fr:MAX-DRIFT", "MAX-DRIFT"),
    Row("startup_range", "fr:ACCEPTED-STARTUP-RANGE", "ACCEPTED-STARTUP-RANGE"),
    Row("latest_tx", "fr:LATEST-TX", "LATEST-TX"),
)

# The key slot: of FIBEX one of these two has the slot as its text; of ARXML a slot and two flags.
KEY_SLOT_FIBEX = {"startup": "fr:STARTUP-SYNC", "sync": "fr:SYNC"}
KEY_SLOT = "fr:KEY-SLOT-USAGE"
KEY_SLOT_ARXML = (
    Row("key_slot", "", "KEY-SLOT-ID"),
    Row("sync", "", "KEY-SLOT-USED-FOR-SYNC", FLAG),
    Row("startup", "", "KEY-SLOT-USED-FOR-START-UP|KEY-SLOT-USED-FOR-STARTUP", FLAG),
)

# A frame in a slot. FIBEX has base and repetition in the timing itself, ARXML below COMMUNICATION-CYCLE.
TIMING = {
    "FIBEX": {"timing": "TIMINGS/ABSOLUTELY-SCHEDULED-TIMING", "slot": "SLOT-ID", "base": "BASE-CYCLE", "repetition": "CYCLE-REPETITION",
              "counter": "CYCLE-COUNTER"},
    "ARXML": {"timing": "ABSOLUTELY-SCHEDULED-TIMINGS/FLEXRAY-ABSOLUTELY-SCHEDULED-TIMING", "slot": "SLOT-ID",
              "base": "COMMUNICATION-CYCLE/CYCLE-REPETITION/BASE-CYCLE",
              "repetition": "COMMUNICATION-CYCLE/CYCLE-REPETITION/CYCLE-REPETITION",
              "counter": "COMMUNICATION-CYCLE/CYCLE-COUNTER/CYCLE-COUNTER|CYCLE-COUNTER"},
}

# The elements that are read whole wherever they stand below these parents; all else of a file is passed over.
ROOTS = {
    "FIBEX": {"CLUSTER": "CLUSTERS", "CHANNEL": "CHANNELS", "ECU": "ECUS", "FRAME": "FRAMES"},
    "ARXML": {"FLEXRAY-CLUSTER": "ELEMENTS", "ECU-INSTANCE": "ELEMENTS", "FLEXRAY-FRAME": "ELEMENTS"},
}

# Where the parts of a cluster stand.
FIBEX = {
    "short_name": "ho:SHORT-NAME", "version": "PROTOCOL-VERSION", "channels": "CHANNEL-REFS/CHANNEL-REF",
    "channel_name": "fr:FLEXRAY-CHANNEL-NAME", "triggerings": "FRAME-TRIGGERINGS/FRAME-TRIGGERING", "frame": "FRAME-REF",
    "controllers": "CONTROLLERS/CONTROLLER", "connectors": "CONNECTORS/CONNECTOR", "of_channel": "CHANNEL-REF",
    "of_controller": "CONTROLLER-REF", "sent": "OUTPUTS/OUTPUT-PORT/FRAME-TRIGGERING-REF", "bytes": "BYTE-LENGTH",
}
ARXML = {
    "short_name": "SHORT-NAME", "version": "PROTOCOL-VERSION",
    "variants": "FLEXRAY-CLUSTER-VARIANTS/FLEXRAY-CLUSTER-CONDITIONAL", "channels": "PHYSICAL-CHANNELS/FLEXRAY-PHYSICAL-CHANNEL",
    "channel_name": "CHANNEL-NAME", "connector_refs": "COMM-CONNECTORS/COMMUNICATION-CONNECTOR-REF-CONDITIONAL/COMMUNICATION-CONNECTOR-REF",
    "triggerings": "FRAME-TRIGGERINGS/FLEXRAY-FRAME-TRIGGERING", "frame": "FRAME-REF", "ports": "FRAME-PORT-REFS/FRAME-PORT-REF",
    "controllers": "COMM-CONTROLLERS/FLEXRAY-COMMUNICATION-CONTROLLER",
    "controller_variants": "FLEXRAY-COMMUNICATION-CONTROLLER-VARIANTS/FLEXRAY-COMMUNICATION-CONTROLLER-CONDITIONAL",
    "connectors": "CONNECTORS/FLEXRAY-COMMUNICATION-CONNECTOR", "of_controller": "COMM-CONTROLLER-REF", "of_channel": "CHANNEL-REF",
    "frame_ports": "ECU-COMM-PORT-INSTANCES/FRAME-PORT", "direction": "COMMUNICATION-DIRECTION", "bytes": "FRAME-LENGTH",
}


def spellings(text: str) -> list[str]:
    return text.split("|")


def wanted(form: str, renamed: dict[str, str]) -> set[str]:
    """The names of all elements that are kept inside the roots of a format."""
    rows = [*CLUSTER, *CLUSTER_CHECKED, *CONTROLLER, *CONTROLLER_OFF, *CONTROLLER_CHECKED]
    paths = [*(FIBEX if form == "FIBEX" else ARXML).values(), *TIMING[form].values(), *(row.name(form) for row in rows)]
    paths += [KEY_SLOT, *KEY_SLOT_FIBEX.values()] if form == "FIBEX" else [row.arxml for row in KEY_SLOT_ARXML]
    found = {name for path in paths for spelling in spellings(path) for name in spelling.split("/")}
    return found | set(renamed.values())
