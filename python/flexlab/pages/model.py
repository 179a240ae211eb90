"""What the model leaves out and a bench has: whether a frame's bits fit into the static slot."""
from fractions import Fraction

from ..base.units import decimal
from ..toml.cluster import Cluster


def frame_bits(cluster: Cluster) -> int:
    """Bits of a static frame on the wire: its start, 10 for each of 8 bytes and of the payload, and 2 at its end."""
    return cluster.start_bits + 1 + 10 * (8 + 2 * cluster.parameters["gPayloadLengthStatic"]) + 2


def warnings(cluster: Cluster) -> list[str]:
    """Lines of what flexray accepts and a bus would not carry."""
    parameters = cluster.parameters
    macrotick = Fraction(parameters["pMicroPerCycle"]) * cluster.microtick_ns / parameters["gMacroPerCycle"]
    room = (parameters["gdStaticSlot"] - parameters["gdActionPointOffset"]) * macrotick
    bits = frame_bits(cluster) + 11
    need = bits * Fraction(1000) / cluster.bit_rate
    found = []
    if need > room:
        found.append(
            f"a static frame does not fit into its slot: {frame_bits(cluster)} bits and 11 of idle last "
            f"{decimal(need / 1000, 3)} us at {decimal(cluster.bit_rate, 1)} Mbit/s, and behind the action point the "
            f"slot has {decimal(room / 1000, 3)} us; raise gdStaticSlot or lower gPayloadLengthStatic (flexray takes "
            "a frame as one instant, and accepts this)")
    if not 1000 <= macrotick <= 6000:
        found.append(f"a macrotick lasts {decimal(macrotick / 1000, 3)} us; the standard has 1 to 6 us")
    if cluster.microtick_ns not in (Fraction(25, 2), 25, 50):
        found.append(f"a microtick lasts {decimal(cluster.microtick_ns, 3)} ns; the standard has 12.5, 25 and 50 ns")
    if parameters["gdStaticSlot"] * parameters["gNumberOfStaticSlots"] * macrotick > 16000000:
        found.append("the static segment is longer than 16 ms, the longest cycle of the standard")
    return found
