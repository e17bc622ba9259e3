"""Packets of IP, and what they carry; those that came in fragments are put together."""

from __future__ import annotations

import struct
from typing import NamedTuple

RAW_IP, OLD_RAW_IP, OTHER_RAW_IP, IPV4, IPV6 = 101, 12, 14, 228, 229
NULL, LOOP = 0, 108
# For each link type that holds IP and no addresses of a local network, the octets of its header.
AT = {NULL: 4, LOOP: 4, **dict.fromkeys((RAW_IP, OLD_RAW_IP, OTHER_RAW_IP, IPV4, IPV6), 0)}

IPV6_FRAGMENT = 44
# Extension headers of IPv6 that say their own length in the same way.
EXTENSIONS = (0, 43, 60)
MOST_EXTENSIONS = 8
# Of how many packets fragments are held.
MOST_IN_FRAGMENTS = 64

_IPV4 = struct.Struct(">BxHHHxB2x4s4s").unpack_from


class Carried(NamedTuple):
    """What a packet of IP carries: some octets may not be captured. A fragment has a number, which
    all of its packet have, the place of its octets there, and whether more are to come."""

    protocol: int
    source: bytes
    target: bytes
    octets: bytes
    length: int
    number: bytes = b""
    at: int = 0
    has_more: bool = False

    @property
    def is_fragment(self) -> bool:
        return self.at > 0 or self.has_more


def carried(octets: bytes) -> Carried | None:
    """What a packet of IP carries; None where it is none. One whose length is 0 was captured
    before the network card wrote that."""
    version = octets[0] >> 4 if octets else 0
    return _of_ipv4(octets) if version == 4 else _of_ipv6(octets) if version == 6 else None


def _of_ipv4(octets: bytes) -> Carried | None:
    if len(octets) < 20:
        return None
    first, total, number, fragment, protocol, source, target = _IPV4(octets)
    total = total or len(octets)
    header = 4 * (first & 0xF)
    if header < 20 or total < header:
        return None
    return Carried(
        protocol,
        source,
        target,
        octets[header:total],
        total - header,
        number.to_bytes(2, "big"),
        8 * (fragment & 0x1FFF),
        bool(fragment & 0x2000),
    )


def _of_ipv6(octets: bytes) -> Carried | None:
    """The same, after the extension headers."""
    if len(octets) < 40:
        return None
    protocol, length = octets[6], int.from_bytes(octets[4:6], "big") or len(octets) - 40
    source, target, payload = octets[8:24], octets[24:40], octets[40 : 40 + length]
    for _ in range(MOST_EXTENSIONS):
        if protocol not in EXTENSIONS or len(payload) < 8:
            break
        protocol, header = payload[0], 8 * (payload[1] + 1)
        payload, length = payload[header:], length - header
    if protocol != IPV6_FRAGMENT or len(payload) < 8:
        return Carried(protocol, source, target, payload, length)
    place = int.from_bytes(payload[2:4], "big")
    return Carried(
        payload[0],
        source,
        target,
        payload[8:],
        length - 8,
        payload[4:8],
        place & 0xFFF8,
        bool(place & 1),
    )


class Fragments:
    """The fragments of packets that aren't whole yet, of `MOST_IN_FRAGMENTS` packets at most."""

    def __init__(self) -> None:
        self._packets: dict[tuple[int, bytes, bytes, bytes], dict[int, Carried]] = {}

    def take(self, fragment: Carried) -> tuple[Carried | None, list[Carried]]:
        """Takes a fragment; answers the packet that is whole with it, and the fragments of a
        packet for which there is no place any more."""
        key = fragment.protocol, fragment.source, fragment.target, fragment.number
        parts = self._packets.setdefault(key, {})
        parts[fragment.at] = fragment
        given_up = (
            self._give_up(next(iter(self._packets)))
            if len(self._packets) > MOST_IN_FRAGMENTS
            else []
        )
        octets = b""
        while (part := parts.get(len(octets))) and len(part.octets) == part.length > 0:
            octets += part.octets
            if not part.has_more:
                del self._packets[key]
                return Carried(*key[:3], octets, len(octets)), given_up
        return None, given_up

    def end(self) -> list[Carried]:
        """Gives up what isn't whole; answers the fragments."""
        return [part for key in list(self._packets) for part in self._give_up(key)]

    def _give_up(self, key: tuple[int, bytes, bytes, bytes]) -> list[Carried]:
        return list(self._packets.pop(key).values())
