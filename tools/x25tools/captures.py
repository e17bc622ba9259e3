"""Capture files: the records of pcap and pcapng, read as they come, and pcapng written.

The formats are those of the IETF drafts draft-ietf-opsawg-pcap and draft-ietf-opsawg-pcapng.

A record is one captured packet, a tuple: its number from 1, the link type, its octets, whether
they are a part of it alone, its time in nanoseconds, whether the host that captured sent it, how
many of its octets are a frame check sequence, its flags, how many packets the program that
captured dropped just before it. None is what the capture doesn't say.
"""

from __future__ import annotations

import functools
import math
import struct
from collections import Counter
from typing import BinaryIO, Iterator, NamedTuple, Optional

from x25tools import x25lines
from x25tools.x25lines import NANOSECONDS, BadInput

PCAP_MAGIC = {
    b"\xa1\xb2\xc3\xd4": (">", 1000),
    b"\xd4\xc3\xb2\xa1": ("<", 1000),
    b"\xa1\xb2\x3c\x4d": (">", 1),
    b"\x4d\x3c\xb2\xa1": ("<", 1),
}
SECTION, INTERFACE, OLD_PACKET, SIMPLE_PACKET, STATISTICS, PACKET = 0x0A0D0D0A, 1, 2, 3, 5, 6
# What the blocks of packets begin with: the interface, the time, how many octets were captured and
# how many there were; of a simple one, that alone.
FIELDS = {PACKET: "IIIII", OLD_PACKET: "HxxIIII", SIMPLE_PACKET: "I"}
LENGTHS = {kind: struct.calcsize("<" + form) for kind, form in FIELDS.items()}
SECTION_TYPE = struct.pack("<I", SECTION)
BYTE_ORDER = 0x1A2B3C4D
BYTE_ORDERS = {struct.pack(order + "I", BYTE_ORDER): order for order in "<>"}

END_OF_OPTIONS, FLAGS, DROP_COUNT, RESOLUTION, CLOCK_OFFSET, FCS_LENGTH = 0, 2, 4, 9, 14, 13
# Of the statistics of an interface: what it dropped, and what the system did.
DROPS = 5, 7
# What is left out of a capture where it says so.
DROPPED = "frame that the program which captured dropped, the capture doesn't say where"
# Of the flags of a packet: the direction, and why it was received with an error.
INBOUND, OUTBOUND, DIRECTION = 1, 2, 3
IS_OUTBOUND = {INBOUND: False, OUTBOUND: True, 0: None, 3: None}
CRC_ERROR, TOO_SHORT = 1 << 24, 1 << 26

# What a capture begins with; no line begins with two octets of these.
BEGINNINGS = (*PCAP_MAGIC, SECTION_TYPE)
NO_CAPTURE = "neither a pcap nor a pcapng file"
# A record: see above.
Record = tuple[int, int, bytes, bool, Optional[int], Optional[bool], Optional[int], int, int]
# No capture program takes more of a packet; a longer record is a wrong length.
MOST_CAPTURED = 262_144
# A block that holds no packet may be longer than one that does, but not without bound.
MOST_BLOCK = 16_777_216


class Interface(NamedTuple):
    """What a section says of one of its interfaces; `ticks` of its clock are `tick` nanoseconds,
    and it began at `offset`."""

    link_type: int
    tick: int
    ticks: int
    offset: int
    fcs_octets: Optional[int]


def blocks(file: x25lines.Readable, notes: Counter[str] | None = None) -> Iterator[list[Record]]:
    """Yields the records of a capture, of whichever format, in lists, each of those that are there
    at once.

    A file that isn't one, or breaks off, is bad input, told after the records before that; an
    empty one has none. `notes` counts what the capture says was dropped, of which no record says
    where.
    """
    reader: _Pcap | _Pcapng | None = None
    rest = b""
    for octets in x25lines.pieces(file):
        rest += octets
        if reader is None and len(rest) >= 4:
            reader = _reader(rest[:4])
        records: list[Record] = []
        try:
            rest = rest[reader.read(rest, records) :] if reader else rest
        finally:
            yield records
        if notes is not None and reader is not None and reader.dropped:
            notes[DROPPED] = sum(reader.dropped.values())
    if rest:
        raise BadInput(f"the file ends within {reader.next()}" if reader else NO_CAPTURE)


def is_capture(file: x25lines.Readable) -> bool:
    """Whether a file is a capture, and not lines."""
    head = file.peek(4)[:4]
    return len(head) > 1 and any(it.startswith(head) for it in BEGINNINGS)


def _reader(magic: bytes) -> _Pcap | _Pcapng:
    """What reads a file that begins so."""
    if magic in PCAP_MAGIC:
        return _Pcap(*PCAP_MAGIC[magic])
    if magic == SECTION_TYPE:
        return _Pcapng()
    raise BadInput(NO_CAPTURE)


class _Pcap:
    """Reads a pcap file; `tick` is the nanoseconds of its unit of time."""

    dropped: dict[tuple[int, bytes], int] = {}

    def __init__(self, order: str, tick: int) -> None:
        self._file_header, self._header = (
            struct.Struct(order + "IHHiIII"), struct.Struct(order + "IIII")
        )
        self._tick = tick
        self._link_type = self._number = 0
        self._fcs_octets: int | None = None
        self._has_begun = False

    def next(self) -> str:
        """What is read next."""
        return f"record {self._number + 1}" if self._has_begun else "the file header"

    def read(self, octets: bytes, records: list[Record]) -> int:
        """Adds the records of these octets that are whole; answers how many octets these are."""
        at = 0
        if not self._has_begun:
            if len(octets) < self._file_header.size:
                return 0
            at = self._begin(octets)
        while at + 16 <= len(octets):
            whole, part, captured, length = self._header.unpack_from(octets, at)
            if captured > MOST_CAPTURED or not length:
                raise _wrong_length(captured, self._number + 1)
            end = at + 16 + captured
            if end > len(octets):
                break
            self._number += 1
            time = whole * NANOSECONDS + part * self._tick
            records.append((
                self._number,
                self._link_type,
                octets[at + 16 : end],
                captured < length,
                time,
                None,
                self._fcs_octets,
                0,
                0,
            ))
            at = end
        return at

    def _begin(self, octets: bytes) -> int:
        """Reads the header of the file; answers its length."""
        network = self._file_header.unpack_from(octets)[6]
        self._link_type, self._has_begun = network & 0x03FF_FFFF, True
        self._fcs_octets = 2 * (network >> 28) if network & 0x0400_0000 else None
        return self._file_header.size


def _wrong_length(captured: int, number: int) -> BadInput:
    """What is told of a record that says it has so many octets."""
    return BadInput(
        f"record {number} has a wrong length, {captured:,} octets"
        if captured
        else f"record {number} holds no octets"
    )


class _Pcapng:
    """Reads a pcapng file, block by block."""

    def __init__(self) -> None:
        self._number = self._sections = 0
        self._order = ""
        self._head = struct.Struct("<II").unpack_from
        # Of each section and interface what the last of its statistics says was dropped.
        self.dropped: dict[tuple[int, bytes], int] = {}

    def next(self) -> str:
        """What is read next."""
        return f"a block after record {self._number}" if self._order else "a section header"

    def read(self, octets: bytes, records: list[Record]) -> int:
        """Adds the records of these octets that are whole; answers how many octets these are."""
        at, most = 0, len(octets)
        while at + 8 <= most:
            kind, length = self._head(octets, at)
            # The type of a section reads the same in both orders.
            if kind == SECTION:
                if at + 12 > most:
                    break
                self._begin(octets[at + 8 : at + 12])
                length = self._head(octets, at)[1]
            if length % 4 or not (28 if kind == SECTION else 12) <= length <= MOST_BLOCK:
                raise BadInput(f"{self.next()} has a wrong length, {length:,} octets")
            end = at + length
            if end > most:
                break
            if self._word(octets, end - 4)[0] != length:
                raise BadInput(f"the two lengths of {self.next()} differ")
            if kind in FIELDS:
                self._number += 1
                records.append(self._packet(kind, octets, at + 8, end - 4))
            elif kind == INTERFACE:
                self._interfaces.append(_interface(octets[at + 8 : end - 4], self._order))
            elif kind == STATISTICS:
                self._count(octets[at + 8 : end - 4])
            at = end
        return at

    def _count(self, body: bytes) -> None:
        """Reads the statistics of an interface."""
        options = _options(body[12:], self._order) or {}
        counts = [
            struct.unpack(self._order + "Q", options[code])[0]
            for code in DROPS
            if len(options.get(code, b"")) == 8
        ]
        if sum(counts):
            self.dropped[self._sections, body[:4]] = sum(counts)

    def _begin(self, magic: bytes) -> None:
        """Begins a section, whose header shows the order of its octets."""
        if magic not in BYTE_ORDERS:
            raise BadInput("a section header has no byte order")
        self._sections += 1
        order = self._order = BYTE_ORDERS[magic]
        self._head, self._word = (
            struct.Struct(order + "II").unpack_from, struct.Struct(order + "I").unpack_from
        )
        self._fields = {
            kind: struct.Struct(order + form).unpack_from for kind, form in FIELDS.items()
        }
        self._interfaces: list[Interface] = []

    def _packet(self, kind: int, octets: bytes, start: int, end: int) -> Record:
        """The record of a packet, whose block has its body there."""
        number, fields, head = self._number, self._fields[kind], start
        start += LENGTHS[kind]
        if start > end:
            raise BadInput(f"record {number} is too short")
        if kind == SIMPLE_PACKET:
            # How many octets were captured isn't said, nor when.
            length, = fields(octets, head)
            index, captured = 0, min(length, end - start)
        else:
            index, high, low, captured, length = fields(octets, head)
        if captured > MOST_CAPTURED or not length or start + captured > end:
            raise _wrong_length(captured, number)
        if index >= len(self._interfaces):
            raise BadInput(
                f"record {number} names the interface {index}, which the file doesn't describe"
            )
        link_type, tick, ticks, offset, fcs_octets = self._interfaces[index]
        packet = octets[start : start + captured]
        if kind == SIMPLE_PACKET:
            return number, link_type, packet, captured < length, None, None, fcs_octets, 0, 0
        read = _flags(octets[start + (captured + 3 & ~3) : end], self._order)
        if read is None:
            raise BadInput(f"an option of record {number} has a wrong length")
        flags, dropped = read
        time = (high << 32 | low) * tick // ticks + offset
        is_outbound, fcs_octets = IS_OUTBOUND[flags & DIRECTION], flags >> 5 & 0xF or fcs_octets
        return (
            number,
            link_type,
            packet,
            captured < length,
            time if time > 0 else 0,
            is_outbound,
            fcs_octets,
            flags,
            dropped,
        )


def _interface(body: bytes, order: str) -> Interface:
    if len(body) < 8:
        raise BadInput("an interface block is too short")
    options = _options(body[8:], order)
    if options is None:
        raise BadInput("an option of an interface block has a wrong length")
    resolution = (options.get(RESOLUTION) or b"\x06")[0]
    ticks = 2 ** (resolution & 0x7F) if resolution & 0x80 else 10**resolution
    shared = math.gcd(ticks, NANOSECONDS)
    offset, fcs_octets = options.get(CLOCK_OFFSET, b""), options.get(FCS_LENGTH)
    seconds = struct.unpack(order + "q", offset)[0] if len(offset) == 8 else 0
    link_type = struct.unpack_from(order + "H", body)[0]
    return Interface(
        link_type,
        NANOSECONDS // shared,
        ticks // shared,
        seconds * NANOSECONDS,
        fcs_octets[0] if fcs_octets else None,
    )


# The options of most packets of a file are the same.
@functools.lru_cache(maxsize=256)
def _flags(octets: bytes, order: str) -> tuple[int, int] | None:
    """The flags of a packet with these options, and how many packets were dropped before it, 0
    where none of these has them; None where the options can't be read."""
    options = _options(octets, order)
    if options is None:
        return None
    flags, dropped = options.get(FLAGS, b""), options.get(DROP_COUNT, b"")
    return (
        struct.unpack(order + "I", flags)[0] if len(flags) == 4 else 0,
        struct.unpack(order + "Q", dropped)[0] if len(dropped) == 8 else 0,
    )


def _options(octets: bytes, order: str) -> dict[int, bytes] | None:
    """The options of a block, by their code, or None where one has a wrong length; of a code that
    comes twice the first counts."""
    options: dict[int, bytes] = {}
    at = 0
    while at + 4 <= len(octets):
        code, length = struct.unpack_from(order + "HH", octets, at)
        if code == END_OF_OPTIONS:
            break
        if length > len(octets) - at - 4:
            return None
        options.setdefault(code, octets[at + 4 : at + 4 + length])
        at += 4 + (length + 3) // 4 * 4
    return options


class Writer:
    """Writes a pcapng file of one section and one interface, whose clock counts nanoseconds."""

    def __init__(self, file: BinaryIO, link_type: int) -> None:
        self._file = file
        self._block(SECTION, struct.pack("<IHHq", BYTE_ORDER, 1, 0, -1))
        self._block(
            INTERFACE,
            struct.pack("<HHI", link_type, 0, 0)
            + _option(RESOLUTION, b"\x09")
            + _option(END_OF_OPTIONS, b""),
        )

    def packet(self, octets: bytes, time: int, flags: int) -> None:
        """Writes one packet, with its time in nanoseconds and its flags."""
        head = struct.pack(
            "<IIIII", 0, time >> 32 & 0xFFFF_FFFF, time & 0xFFFF_FFFF, len(octets), len(octets)
        )
        options = _option(FLAGS, struct.pack("<I", flags)) + _option(END_OF_OPTIONS, b"")
        self._block(PACKET, head + _padded(octets) + options)

    def _block(self, kind: int, body: bytes) -> None:
        length = struct.pack("<I", len(body) + 12)
        self._file.write(struct.pack("<I", kind) + length + body + length)


def _padded(octets: bytes) -> bytes:
    return octets + bytes(-len(octets) % 4)


def _option(code: int, value: bytes) -> bytes:
    return struct.pack("<HH", code, len(value)) + _padded(value)
