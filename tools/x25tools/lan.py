"""What a local network carries of X.25: the header of a captured frame, lapbether's frames of
LAPB, LLC's packets.

lapbether (Linux) sends a frame of LAPB, without its frame check sequence, after its length in two
octets, the low one first, by Ethernet type 6000 and to all stations. LLC (ISO 8802-2) carries the
packets of ISO 8208 by the service access point 7e.
"""

from __future__ import annotations

from collections import Counter
from typing import Iterator, NamedTuple, Optional, Tuple

from x25tools.early import Early
from x25tools.x25lines import MOST_OCTETS, fcs

ETHERNET, LINUX_COOKED, LINUX_COOKED_2 = 1, 113, 276
VLAN_TAGS = (0x8100, 0x88A8, 0x9100)
LAPBETHER, TYPE_IPV4, TYPE_IPV6 = 0x6000, 0x0800, 0x86DD
# Up to this number the type of an Ethernet frame is a length, and an LLC header follows.
MOST_LLC = 1500
# How Linux's cooked captures mark LLC, and what the host itself sent.
COOKED_LLC = 4
X25_ACCESS_POINT = 0x7E
NUMBERS = 128
# What a header is followed by: the type of what is carried, the address of its sender and of its
# receiver, its octets.
Carried = tuple[int, bytes, bytes, bytes]


def _ethernet(octets: bytes) -> Carried:
    header, kind = 14, octets[12] << 8 | octets[13]
    while kind in VLAN_TAGS and len(octets) >= header + 4:
        header, kind = header + 4, octets[header + 2] << 8 | octets[header + 3]
    body = octets[header:]
    return (
        (COOKED_LLC, octets[6:12], octets[:6], body[:kind])
        if kind <= MOST_LLC
        else (kind, octets[6:12], octets[:6], body)
    )


def _cooked(octets: bytes) -> Carried:
    return int.from_bytes(octets[14:16], "big"), octets[6:12], b"", octets[16:]


def _cooked_2(octets: bytes) -> Carried:
    return int.from_bytes(octets[0:2], "big"), octets[12:18], b"", octets[20:]


# For each link type with a header of a local network, its octets, and what reads it: the type of
# what is carried, the address of its sender and of its receiver (empty where it isn't captured),
# its octets.
HEADERS = {ETHERNET: (14, _ethernet), LINUX_COOKED: (16, _cooked), LINUX_COOKED_2: (20, _cooked_2)}


def address(octets: bytes) -> str:
    """An address as it is written, with colons."""
    return octets.hex(":")


def is_of_dte(frame: bytes) -> bool | None:
    """Whether a frame of LAPB, as its own address has it, is the DTE's; None for a supervisory
    frame, or none of LAPB.

    An I frame, SABM and DISC are commands, UA, DM and FRMR responses; the others are either.
    """
    if len(frame) < 2 or frame[0] not in (0x01, 0x03):
        return None
    control = frame[1]
    is_command = not control & 1 or control & 0xEF in (0x2F, 0x43)
    if not is_command and control & 0xEF not in (0x63, 0x0F, 0x87):
        return None
    return is_command == (frame[0] == 0x01)


class Lapbether:
    """The line between the first two stations that send frames of LAPB. `notes` counts what was
    left out, by why.

    Which station is the DTE is said beforehand, or by the first frame whose own address tells.
    """

    def __init__(self, dte: bytes | None, notes: Counter[str]) -> None:
        self._known = None if dte is None else (dte, True)
        self._stations: list[bytes] = []
        self._notes = notes

    def take(self, source: bytes, octets: bytes, is_cut: bool) -> Iterator[tuple[bool, bytes]]:
        """Yields whether a frame is the DTE's, and its octets with their frame check sequence:
        none where they aren't there."""
        length = int.from_bytes(octets[:2], "little")
        frame, is_there = octets[2 : 2 + length], len(octets) >= 2 + length >= 2
        if source not in self._stations:
            self._stations.append(source)
        if self._known is None and is_there and (told := is_of_dte(frame)) is not None:
            self._known = source, told
        if not is_there:
            self._notes[
                "frame that was captured in part"
                if is_cut
                else "frame of lapbether that is shorter than it says"
            ] += 1
        elif source not in self._stations[:2]:
            self._notes["frame of a third station of lapbether"] += 1
            return
        elif length + 2 > MOST_OCTETS:
            self._notes["frame that is longer than a line may be"] += 1
            is_there = False
        elif self._known is None:
            self._notes[
                "frame of lapbether before one that tells which end is the DTE (--dte says it)"
            ] += 1
        if self._known is not None:
            yield (
                (source == self._known[0]) == self._known[1],
                frame + fcs(frame) if is_there else b"",
            )

    def name(self) -> str:
        """The line, with its stations."""
        return " ".join(["lapbether", *map(address, self._stations[:2])])


class LlcFrame(NamedTuple):
    """A frame of LLC: its time, its stations (the receiver empty where it isn't captured), its
    octets, and whether they are a part of it alone."""

    time: int
    source: bytes
    target: bytes
    octets: bytes
    is_cut: bool

    def pair(self) -> frozenset[bytes]:
        """Both stations; cooked captures don't tell who receives: all of LLC is one connection
        there."""
        return frozenset((self.source, self.target) if self.target else (b"",))

    def numbers(self) -> tuple[int | None, int | None]:
        """N(S) of an I frame, and N(R) of that and of RR, RNR and REJ; None where it has none."""
        if len(self.octets) < 4 or self.octets[2] & 3 == 3:
            return None, None
        return None if self.octets[2] & 1 else self.octets[2] >> 1, self.octets[3] >> 1


# The time of a frame, the name of its connection, whether the DTE sent it, and the packet; None in
# its place is a gap.
LlcPacket = Tuple[int, str, bool, Optional[bytes]]


class Llc:
    """The connections of LLC's service access point 7e, each between two stations; the one that is
    seen first is the DTE. A frame that stands before what it acknowledges waits for that."""

    def __init__(self, dte: bytes | None, notes: Counter[str]) -> None:
        self._dte = dte
        self._dtes: dict[frozenset[bytes], bytes] = {}
        # The N(S) that is due of a station.
        self._next: dict[tuple[frozenset[bytes], bytes], int] = {}
        self._early = Early(self._is_early, self._read)
        self._notes = notes

    def take(self, frame: LlcFrame) -> list[LlcPacket]:
        """Answers the packets of the frames that are read now."""
        octets = frame.octets
        if (
            len(octets) < 3
            or octets[0] != X25_ACCESS_POINT
            or octets[1] & 0xFE != X25_ACCESS_POINT
        ):
            return []
        pair = frame.pair()
        said = self._dte if self._dte in pair or not frame.target else None
        self._dtes.setdefault(pair, said or frame.source)
        return self._early.take(pair, frame)

    def end(self) -> list[LlcPacket]:
        """Answers the packets of the frames that wait."""
        return self._early.end()

    def _is_early(self, frame: LlcFrame) -> bool:
        """Whether a frame acknowledges what hasn't come."""
        number = frame.numbers()[1]
        return (
            number is not None
            and frame.target != b""
            and bool(self._ahead(frame.pair(), frame.target, number))
        )

    def _read(self, frame: LlcFrame) -> list[LlcPacket]:
        """The packets of a frame, and where it shows that some are missing, a gap."""
        pair, octets = frame.pair(), frame.octets
        sent, wanted = frame.numbers()
        found: list[tuple[bytes, bytes | None]] = []
        if octets[2] & 3 == 3:
            self._begin(pair, octets[2])
            if octets[2] & 0xEF == 0x03:
                found.append((frame.source, octets[3:]))
        if wanted is not None and frame.target:
            found += self._gap(pair, frame.target, wanted)
        if sent is not None and self._ahead(pair, frame.source, sent) is not None:
            found += [*self._gap(pair, frame.source, sent), (frame.source, octets[4:])]
            self._next[pair, frame.source] = (sent + 1) % NUMBERS
        dte = self._dtes[pair]
        names = [address(dte), *(address(other) for other in pair - {dte} if other)]
        packets: list[LlcPacket] = []
        for source, packet in found:
            if packet and frame.is_cut:
                self._notes["packet that was captured in part"] += 1
                packet = None
            if packet != b"":
                packets.append((frame.time, "LLC " + " > ".join(names), source == dte, packet))
        return packets

    def _begin(self, pair: frozenset[bytes], control: int) -> None:
        """The numbers of a connection begin anew, by SABME."""
        if control & 0xEF == 0x6F:
            self._next.update({(pair, station): 0 for station in pair})

    def _gap(
        self, pair: frozenset[bytes], source: bytes, number: int
    ) -> list[tuple[bytes, bytes | None]]:
        """A gap of a station, where its I frame of this number comes next and others are due
        before it."""
        ahead = self._ahead(pair, source, number)
        if ahead is not None:
            self._next[pair, source] = number
        if not ahead:
            return []
        self._notes["gap in a connection of LLC"] += 1
        return [(source, None)]

    def _ahead(self, pair: frozenset[bytes], source: bytes, number: int) -> int | None:
        """How many I frames of a station are missing before the one of a number; None where it
        came before, as half of the numbers lie before the next one."""
        ahead = (number - self._next.get((pair, source), number)) % NUMBERS
        return None if ahead >= NUMBERS // 2 else ahead
