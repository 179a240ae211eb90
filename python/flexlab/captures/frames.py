"""The regular frames of a cluster as bytes (docs/PROTOCOL.md, "Frames", "The two CRCs", "Regular frames")."""
from functools import cache

START = {"A": 0xFEDCBA, "B": 0xABCDEF}


def crc(width: int, generator: int, register: int, number: int, bits: int) -> int:
    """The shift register of docs/PROTOCOL.md over the low bits of a number, the highest first."""
    top, mask = 1 << (width - 1), (1 << width) - 1
    for bit in range(bits - 1, -1, -1):
        out = bool(register & top) != bool(number >> bit & 1)
        register = (register << 1 & mask) ^ (generator if out else 0)
    return register


BYTES = [crc(24, 0x5D6DCB, byte << 16, 0, 8) for byte in range(256)]


def frame_crc(channel: str, data: bytes) -> int:
    register = START[channel]
    for byte in data:
        register = (register << 8 & 0xFFFFFF) ^ BYTES[register >> 16 ^ byte]
    return register


def header_crc(slot: int, words: int, sync: bool, startup: bool) -> int:
    return crc(11, 0x385, 0x01A, sync << 19 | startup << 18 | slot << 7 | words, 20)


def header_bytes(slot: int, cycle: int, words: int, valid: bool, sync: bool, startup: bool, preamble: bool = False) -> bytes:
    head = header_crc(slot, words, sync, startup)
    first = preamble << 6 | valid << 5 | sync << 4 | startup << 3 | slot >> 8
    return bytes([first, slot & 255, words << 1 | head >> 10, head >> 2 & 255, (head & 3) << 6 | cycle % 64])


@cache
def header_crcs(slot: int, words: int) -> dict[int, tuple[bool, bool]]:
    """The header CRCs that a frame can have, each with its sync and startup indicators; none has startup without sync."""
    return {header_crc(slot, words, *both): both for both in ((False, False), (True, False), (True, True))}


def proved_header(slot: int, words: int, kept: int, cycle: int) -> bytes | None:
    """The header with this header CRC, or None where no indicators give it. By its CRC alone are slot, length, sync and
    startup what they are; the cycle count has none, and the null frame indicator says that there is data."""
    if not (1 <= slot <= 2047 and 0 <= words <= 127 and 0 <= cycle <= 63) or kept not in header_crcs(slot, words):
        return None
    return header_bytes(slot, cycle, words, True, *header_crcs(slot, words)[kept])


def frame_bytes(channel: str, slot: int, cycle: int, payload: bytes, valid: bool, sync: bool = False, startup: bool = False,
                preamble: bool = False) -> bytes:
    data = header_bytes(slot, cycle, len(payload) // 2, valid, sync, startup, preamble) + payload
    return data + frame_crc(channel, data).to_bytes(3, "big")


def regular_frame(channel: str, slot: int, cycle: int, words: int, valid: bool, sync: bool, startup: bool) -> bytes:
    payload = bytes((7 * slot + 3 * (cycle % 64) + at) % 256 if valid else 0 for at in range(2 * words))
    return frame_bytes(channel, slot, cycle, payload, valid, sync, startup)
