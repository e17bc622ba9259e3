"""X.25 over TCP (XOT, RFC 1613): from captured packets of IP to the X.25 packets of their
connections.

TCP's segments are put in order here. What the capture lacks is told by `Xot.notes`, and reading
goes on after it.
"""

from __future__ import annotations

import ipaddress
import struct
from collections import Counter
from typing import NamedTuple, Optional

from x25tools import ip
from x25tools.early import Early

XOT_PORT = 1998
# The ends of a segment: addresses, and ports.
Ends = tuple[bytes, bytes, int, int]

TCP = 6
SYN, ACK = 2, 16
WITHIN = (
    "segment that begins within a packet, after a gap or where the capture begins within a "
    "connection"
)
FRAGMENT = "fragment of IP whose packet wasn't captured whole"
TOO_LATE = "segment that stands after its acknowledgement: the capture isn't in order"
# How much is held of a connection while a segment is missing, and of how many connections.
MOST_SEGMENTS, MOST_STREAMS = 256, 4096
SEQUENCES = 1 << 32
# What a packet modulo 8 or 128 begins with, of its format; and the longest.
FORMATS, FORMAT, MOST_PACKET = (0x10, 0x20), 0x30, 4_099

class Segment(NamedTuple):
    """A segment: its time, its ends, where it stands, where those octets stand that its sender
    wants next, its flags, its octets."""

    time: int
    ends: Ends
    sequence: int
    wanted: int
    flags: int
    octets: bytes


_TCP, _HEADER, _PORTS = (struct.Struct(form).unpack_from for form in (">HHIIBB", ">HH", ">HH"))


def segment(carried: ip.Carried) -> tuple[Ends, int, int, int, bytes, int] | None:
    """The segment of TCP that a packet of IP carries: its ends (addresses and ports, source and
    target), where its octets stand in the stream, where those stand that its sender wants next,
    its flags, its octets, and how many of these weren't captured; None where it carries none."""
    tcp, length = carried.octets, carried.length
    if carried.protocol != TCP or len(tcp) < 20:
        return None
    source_port, target_port, sequence, wanted, words, flags = _TCP(tcp)
    header = words >> 4 << 2
    if not 20 <= header <= length:
        return None
    missing = length - len(tcp) if len(tcp) > header else length - header
    return (
        (carried.source, carried.target, source_port, target_port),
        sequence,
        wanted,
        flags,
        tcp[header:],
        missing,
    )


class Stream:
    """One direction of a connection, between two ends: puts segments in order, and cuts what comes
    into packets.

    Where a capture begins within a connection, and after a gap, the first segment that begins with
    a packet is the first that is read. `opened` is the number of the SYN that opened the
    connection, where it was seen.
    """

    def __init__(
        self, ends: Ends, is_of_dte: bool, opened: int | None, notes: Counter[str]
    ) -> None:
        source, target = ends[::2], ends[1::2]
        self.is_of_dte = is_of_dte
        client, server = (source, target) if self.is_of_dte else (target, source)
        self.name = f"XOT {_end(client)} > {_end(server)}"
        self.opened = opened
        self._notes = notes
        self._next: int | None = None
        # Where the last octets stood that were missing, and how many these were.
        self._missed = 0, 0
        self._ahead: dict[int, bytes] = {}
        self._held = b""
        self._is_lost = self._is_in_step = False

    def take(self, sequence: int, flags: int, octets: bytes) -> list[bytes | None]:
        """Takes the octets of a segment, which stand there in the stream; answers the X.25 packets
        that are whole now, and None where some are missing."""
        packets: list[bytes | None] = []
        if flags & SYN:
            sequence = (sequence + 1) % SEQUENCES
            if self._next is None:
                self._next, self._is_in_step = sequence, True
        if octets:
            if (sequence - self._missed[0]) % SEQUENCES < self._missed[1]:
                self._notes[TOO_LATE] += 1
            if self._next is None:
                self._next = sequence
            if self._next == sequence and not self._ahead:
                packets += self._hold(octets)
            else:
                self._ahead.setdefault(sequence, octets)
                packets += self._in_order()
                if len(self._ahead) > MOST_SEGMENTS:
                    packets += self._pass_gap()
        return packets

    def lacks(self, wanted: int) -> bool:
        """Whether some of what stands before that place hasn't come; an end of the stream counts
        as an octet."""
        return self._next is not None and self._distance(wanted) > (0 if self._ahead else 1)

    def taken(self, wanted: int) -> list[bytes | None]:
        """Takes the place up to which the other end has all; answers the packets that are whole
        now, with None where some weren't captured."""
        packets: list[bytes | None] = []
        while self.lacks(wanted):
            packets += self._pass_gap() if self._ahead else self._skip(wanted)
        return packets

    def end(self) -> list[bytes | None]:
        """Gives up what is missing; answers the packets after it, each after None, and notes what
        was left within one."""
        packets: list[bytes | None] = []
        while self._ahead:
            packets += self._pass_gap()
        if self._held:
            self._notes["packet broken off at the end of its connection"] += 1
            self._held = b""
        return packets

    def _distance(self, sequence: int) -> int:
        """How far behind the octet that is wanted next a number stands; below 0, before it."""
        assert self._next is not None
        distance = (sequence - self._next) % SEQUENCES
        return distance - SEQUENCES if distance >= SEQUENCES // 2 else distance

    def _in_order(self) -> list[bytes | None]:
        """Moves each segment that has become the next one, or overlaps it, to what is held;
        answers the packets that are whole now."""
        packets: list[bytes | None] = []
        while ready := [it for it in self._ahead if self._distance(it) <= 0]:
            for sequence in ready:
                packets += self._hold(self._ahead.pop(sequence)[-self._distance(sequence) :])
        return packets

    def _hold(self, octets: bytes) -> list[bytes | None]:
        """Takes the octets that are wanted next; answers the packets that are whole now."""
        assert self._next is not None
        self._held += octets
        self._next = (self._next + len(octets)) % SEQUENCES
        return self._packets()

    def _pass_gap(self) -> list[bytes | None]:
        """Goes on at the nearest segment; answers None and the packets that are whole now."""
        return [*self._skip(min(self._ahead, key=self._distance)), *self._in_order()]

    def _skip(self, sequence: int) -> list[bytes | None]:
        """Goes on there, and answers None; what was held ends within a packet, and so is
        dropped."""
        assert self._next is not None
        self._notes["gap in a connection, octets that weren't captured"] += 1
        self._held = b""
        self._is_lost = self._is_in_step = False
        self._missed, self._next = (self._next, (sequence - self._next) % SEQUENCES), sequence
        return [None]

    def _packets(self) -> list[bytes | None]:
        """Cuts the packets that are whole off what is held."""
        packets: list[bytes | None] = []
        held, at = self._held, 0
        while not self._is_lost and len(held) - at >= 4:
            version, length = _HEADER(held, at)
            if (
                version != 0
                or length == 0
                or not (self._is_in_step or _is_like_packet(held[at + 4 :], length))
            ):
                if not self._is_in_step:
                    self._notes[WITHIN] += 1
                    held = b""
                    break
                self._notes["connection that isn't XOT, or was read out of step"] += 1
                self._is_lost = True
                packets.append(None)
            elif len(held) - at < 4 + length:
                break
            else:
                packets.append(held[at + 4 : at + 4 + length])
                self._is_in_step = True
                at += 4 + length
        self._held = b"" if self._is_lost else held[at:]
        return packets


def _back(ends: Ends) -> Ends:
    """The ends of a segment that goes the other way."""
    return ends[1], ends[0], ends[3], ends[2]


def _end(end: tuple[bytes, int]) -> str:
    """An address and a port as they are written."""
    host = str(ipaddress.ip_address(end[0]))
    return f"[{host}]:{end[1]}" if ":" in host else f"{host}:{end[1]}"


def _is_like_packet(octets: bytes, length: int) -> bool:
    """True where octets, as far as they are there, may be a packet of X.25 of a length."""
    return 3 <= length <= MOST_PACKET and (not octets or octets[0] & FORMAT in FORMATS)


def is_like_xot(octets: bytes) -> bool:
    """True where octets are a whole packet of XOT: version 0, its length, an X.25 packet."""
    return (
        octets[:2] == b"\0\0"
        and int.from_bytes(octets[2:4], "big") == len(octets) - 4
        and _is_like_packet(octets[4:], len(octets) - 4)
    )


class Found(NamedTuple):
    """Packets that are whole now, with None where some are missing: the time of their segment,
    None at the end, and their stream."""

    time: Optional[int]
    stream: Stream
    packets: list[Optional[bytes]]


class Xot:
    """All connections of a capture to and from one port, each known by its two ends and the number
    of the SYN that opened it. A segment that stands before what it acknowledges waits for that.

    `notes` counts what was left out, by why, and `passed` what was no part of it.
    """

    def __init__(self, port: int, notes: Counter[str], passed: Counter[str]) -> None:
        self._port = port
        self._streams: dict[Ends, Stream] = {}
        self._fragments = ip.Fragments()
        self._early = Early(self._is_early, self._read)
        # Of ends whose stream hasn't begun the place that was wanted first; None where what is
        # wanted after that doesn't come.
        self._asked: dict[Ends, Optional[int]] = {}
        self._notes = notes
        self._passed = passed

    def take(self, octets: bytes, time: int = 0) -> list[Found]:
        """Takes a packet of IP, and its time; answers the streams that have whole X.25 packets
        now, each with these."""
        carried = ip.carried(octets)
        if carried and carried.is_fragment:
            carried, given_up = self._fragments.take(carried)
            self._tell(given_up)
            if carried is None:
                return []
        found = segment(carried) if carried else None
        if found is None:
            self._passed["packet of IP without a whole segment of TCP"] += 1
            return []
        ends, sequence, wanted, flags, octets, missing = found
        if self._port not in ends[2:]:
            port = min(ends[2:])
            self._passed[
                f"segment of TCP like XOT, to or from port {port} (--port)"
                if is_like_xot(octets)
                else f"segment of TCP of other ports than {self._port}"
            ] += 1
            return []
        if missing > 0:
            self._notes["segment that was captured in part"] += 1
        if not octets and not missing:
            self._passed["segment of TCP that brings no octets"] += 1
        both = frozenset((ends[::2], ends[1::2]))
        it = Segment(time, ends, sequence, wanted, flags, octets)
        return (
            [*self._early.give_up(both), *self._read(it)]
            if flags & SYN
            else self._early.take(both, it)
        )

    def _is_early(self, it: Segment) -> bool:
        """Whether a segment acknowledges what hasn't come."""
        back_ends = _back(it.ends)
        back = self._streams.get(back_ends)
        if not it.flags & ACK:
            return False
        if back is not None:
            return back.lacks(it.wanted)
        asked = self._asked.setdefault(back_ends, it.wanted)
        return asked is not None and 1 < (it.wanted - asked) % SEQUENCES < SEQUENCES // 2

    def _read(self, it: Segment) -> list[Found]:
        """Reads a segment."""
        time, ends, sequence, wanted, flags, octets = it
        back_ends = _back(ends)
        if back_ends not in self._streams and self._is_early(it):
            self._asked[back_ends] = None
        self._asked.pop(ends, None)
        opened = (wanted - 1 if flags & ACK else sequence) % SEQUENCES if flags & SYN else None
        ended = self._reopen(ends, back_ends, opened) if flags & SYN else []
        stream, back, closed = self._streams.get(ends), self._streams.get(back_ends), []
        if stream is None:
            is_of_dte = not back.is_of_dte if back else self._is_of_dte(ends, flags)
            stream = self._streams[ends] = Stream(
                ends, is_of_dte, back.opened if back else opened, self._notes
            )
            if len(self._streams) > MOST_STREAMS:
                closed = self._close(next(iter(self._streams)))
        # What its sender took of the other way came before this.
        taken = [Found(time, back, back.taken(wanted))] if back and flags & ACK else []
        return [*ended, *taken, Found(time, stream, stream.take(sequence, flags, octets)), *closed]

    def _is_of_dte(self, ends: Ends, flags: int) -> bool:
        """Whether the DTE sent the first segment that is seen of a connection. It opened the
        connection to the port; where both ends have that, and no SYN tells, the first one that is
        seen is taken for it."""
        answers = flags & SYN and flags & ACK
        return ends[3] == self._port and not (ends[2] == self._port and answers)

    def _reopen(self, ends: Ends, back_ends: Ends, opened: int | None) -> list[Found]:
        """Ends the connection of these ends where a SYN opens another one; answers what it still
        holds."""
        of_another = [
            it
            for it in (ends, back_ends)
            if it in self._streams and self._streams[it].opened != opened
        ]
        return [closed for it in of_another for closed in self._close(it)]

    def _tell(self, fragments: list[ip.Carried]) -> None:
        """Notes the fragments that hold some of what one end sent the other, or of a segment to or
        from the port."""
        for part in fragments:
            ports = () if part.at else _PORTS(part.octets) if len(part.octets) >= 4 else ()
            is_ours = (
                self._port in ports
                or any(ends[:2] == (part.source, part.target) for ends in self._streams)
            )
            if part.protocol == TCP and is_ours:
                self._notes[FRAGMENT] += 1
            else:
                self._passed["packet of IP without a whole segment of TCP"] += 1

    def end(self) -> list[Found]:
        """Ends all connections; answers what they still hold."""
        self._tell(self._fragments.end())
        return [
            *self._early.end(),
            *(closed for ends in list(self._streams) for closed in self._close(ends)),
        ]

    def _close(self, ends: Ends) -> list[Found]:
        stream = self._streams.pop(ends)
        return [Found(None, stream, stream.end())]
