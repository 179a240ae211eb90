"""What became of the packets of a capture, and what is known of their frames."""
from dataclasses import dataclass, field
from typing import NamedTuple

from .packets import Packet


class Header(NamedTuple):
    """What the header of a frame says: its ID, how many two-byte words its payload has, and its cycle count."""
    id: int
    words: int
    cycle: int


class Place(NamedTuple):
    """A cycle of the capture, counted on, and an ID in it."""
    cycle: int
    id: int


class Ends(NamedTuple):
    """Where a capture begins and ends."""
    first: Place
    last: Place


@dataclass
class Taken:
    """The packets of a capture, and by their numbers what is known of them: of whole frames, of those without a frame CRC whose header
    is right, and of damaged ones the fault, None until it is looked for."""
    packets: list[Packet]
    whole: dict[int, Header] = field(default_factory=dict)
    headed: dict[int, Header] = field(default_factory=dict)
    damaged: dict[int, str | None] = field(default_factory=dict)
    bare: list[Packet] = field(default_factory=list)
    symbols: list[Packet] = field(default_factory=list)
    other: list[Packet] = field(default_factory=list)
    cycles: dict[int, int] = field(default_factory=dict)
    ends: Ends | None = None
    # What shows that the file has lost something, with how much.
    lost: dict[str, int] = field(default_factory=dict)

    @property
    def known(self) -> dict[int, Header]:
        """What is known of frames: of whole ones all, of those without a frame CRC what their header says."""
        return {**self.headed, **self.whole}
