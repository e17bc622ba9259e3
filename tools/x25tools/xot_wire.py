"""X.25 over TCP (XOT, RFC 1613) as a bridge's wire: each circuit of the station is a connection,
and the link below is played here.

A connection carries the packets of one virtual circuit, each after a header of four octets, the
version, 0, and its length. There is neither LAPB nor RESTART on it. What a station needs of these
comes from here: SABM, or UA to its own; an acknowledgement of each I frame as soon as it was sent,
since TCP loses nothing; and a RESTART of the other end. A CALL of the station makes a connection,
and one that another makes brings a CALL, which gets a channel that is free. A CALL and its
acceptance say packet sizes and windows on a connection, for which the station has `--say-sizes`.
Where a connection ends its circuit is cleared, and where the station restarts all of them end.
"""

from __future__ import annotations

import selectors
import socket
import time
from collections import deque
from selectors import EVENT_READ, EVENT_WRITE
from typing import Container, Iterable, Iterator

from x25tools import tcp, wires, x25lines

# An address to which a connection is made, and its family.
Target = tuple[socket.AddressFamily, tcp.Address]
UA, RR, RNR, SABM, DISC, DM, FRMR, POLL = 0x63, 0x01, 0x05, 0x2F, 0x43, 0x0F, 0x87, 0x10
CALL, CLEAR, CLEAR_CONFIRMATION, RESTART, RESTART_CONFIRMATION, DIAGNOSTIC = (
    0x0B, 0x13, 0x17, 0xFB, 0xFF, 0xF1
)
# What no connection carries, as it isn't of one circuit: registration and its confirmation, set-up
# of permanent circuits, restarts.
FOREIGN = (0xF3, 0xF7, 0xF5, RESTART, RESTART_CONFIRMATION)
# Causes of clears, and the diagnostic that no channel is free.
CONGESTION, OUT_OF_ORDER, NOT_OBTAINABLE, NO_CHANNEL = 5, 9, 13, 71
HEADER = 4
# So many connections may stand that have brought no CALL yet.
MOST_COMING = 16


class Link:
    """The other end of the station's link, which loses nothing: `frames` are those that wait for
    the station."""

    def __init__(self, end: str) -> None:
        self._command, self._response = (3, 1) if end == "dte" else (1, 3)
        self._ns = self._nr = 0
        self._owes = False
        self.is_up, self.is_busy = False, False
        self.frames = deque([self._sealed(self._command, SABM | POLL)])

    @staticmethod
    def _sealed(*octets: int) -> bytes:
        return bytes(octets) + x25lines.fcs(bytes(octets))

    def take(self, octets: bytes) -> bytes | int | None:
        """Takes a frame of the station; answers the packet that it brings, SABM or DISC where the
        link begins or ends, or None."""
        control = octets[1]
        kind, poll = control & ~POLL, control & POLL
        if not control & 1:
            self._nr, self._owes = (self._nr + 1) % 8, True
            return octets[2:-2]
        if kind in (SABM, DISC):
            self.frames.append(self._sealed(self._response, UA | poll))
        elif kind & 0x03 == 1:
            self.is_busy = kind & 0x0F == RNR
            if poll and octets[0] == self._response:
                self.frames.append(self._sealed(self._response, RR | POLL | self._nr << 5))
        if kind in (SABM, UA):
            self._ns = self._nr = 0
            self._owes, self.is_up, self.is_busy = False, True, False
            return SABM
        if kind in (DISC, DM, FRMR):
            self._owes = self.is_up = False
            return DISC
        return None

    def packed(self, packet: bytes) -> bytes:
        """A packet in an I frame, which acknowledges all that came."""
        octets = bytes([self._command, self._nr << 5 | self._ns << 1]) + packet
        self._ns, self._owes = (self._ns + 1) % 8, False
        return octets + x25lines.fcs(octets)

    def acknowledgement(self) -> bytes | None:
        """The frame that acknowledges what came, or None where that is done."""
        if not self._owes:
            return None
        self._owes = False
        return self._sealed(self._response, RR | self._nr << 5)

    def owes(self) -> bool:
        """Whether a frame waits for the station."""
        return self._owes or bool(self.frames)


class Circuit:
    """A connection and its channel, which is 0 before its CALL has come.

    `is_ending` is whether it closes once all is written, `events` what its file is watched for,
    and `counted` how many of the octets that wait are counted.
    """

    def __init__(
        self, connection: tcp.Connection, channel: int = 0, untried: Iterable[Target] = ()
    ) -> None:
        self.connection, self.channel, self.untried = connection, channel, list(untried)
        self.is_clearing, self.is_ending, self._open = False, False, b""
        self.events = self.counted = 0
        self.last = time.monotonic() + wires.PATIENCE

    def packets(self, octets: bytes) -> Iterator[bytes | None]:
        """Yields the packets that are whole now, and None after the last one where the connection
        isn't XOT."""
        self._open += octets
        while len(self._open) >= HEADER:
            version, length = (
                int.from_bytes(self._open[:2], "big"), int.from_bytes(self._open[2:4], "big")
            )
            if version or not 3 <= length <= x25lines.MOST_INFORMATION:
                yield None
                return
            if len(self._open) < HEADER + length:
                return
            packet, self._open = (
                self._open[HEADER : HEADER + length], self._open[HEADER + length :]
            )
            yield packet


class Channels:
    """Some channels, of which the lowest that isn't taken is found in no time: a bit for each."""

    def __init__(self, numbers: Iterable[int]) -> None:
        self._all = self._free = sum(1 << number for number in numbers)

    def lowest(self) -> int | None:
        """The lowest that is free, or None."""
        return (self._free & -self._free).bit_length() - 1 if self._free else None

    def take(self, number: int) -> None:
        """It is taken."""
        self._free &= ~(1 << number)

    def give_back(self, number: int) -> None:
        """It is free again, if it is one of them."""
        self._free |= self._all & 1 << number

    def give_all_back(self) -> None:
        """All are free."""
        self._free = self._all


class Xot(wires.Wire):
    """The circuits of a station: those that it makes, to `target`, and those that come, at
    `place`, on `channels`; each may be None.

    A turn does what has changed, and looks at no other circuit: there may be thousands. All their
    files are one for the bridge, that of a selector, which is ready while one of them is.
    """

    def __init__(
        self,
        end: str,
        note: wires.Note,
        target: tuple[str, int] | None,
        place: tuple[str, int] | None,
        channels: range,
        t3: float,
    ) -> None:
        self._note, self._t3, self._is_dte = note, t3, end == "dte"
        self._target = tcp.addresses(*target) if target else []
        self._selector = selectors.EpollSelector()
        self._server = tcp.server(*place) if place else None
        if self._server:
            self._selector.register(self._server, EVENT_READ)
        self._link, self._has_restarted = Link(end), False
        # Circuits by their channels. A channel that others' calls may have is free again once its
        # connection has ended, and a clear that this brought is confirmed.
        self._circuits: dict[int, Circuit] = {}
        self._channels = Channels(channels)
        # Connections that have brought no CALL, and those that are being made; the eldest is
        # first.
        self._coming: dict[Circuit, None] = {}
        self._making: dict[Circuit, None] = {}
        # Packets for the station.
        self._packets: deque[bytes] = deque()

    @property
    def due(self) -> float | None:  # type: ignore[override]
        if self._link.owes() or (self._packets and self._link.is_up and not self._link.is_busy):
            return 0
        return next((it.last for it in self._making), None)

    def readers(self) -> list[int]:
        return [self._selector.fileno()]

    def close(self) -> None:
        for key in list(self._selector.get_map().values()):
            if isinstance(key.data, Circuit):
                self._drop(key.data)
        if self._server:
            self._server.close()
        self._selector.close()

    def frames(self, ready: Container[int]) -> Iterator[bytes]:
        if self._selector.fileno() in ready:
            found = [key.data for key, _ in self._selector.select(0)]
            if None in found:
                self._accept()
            for it, connection in [(it, it.connection) for it in found if it]:
                # What is done for one may close another.
                if it.events and it.connection is connection:
                    self._read(it)
        while (it := next(iter(self._making), None)) and time.monotonic() >= it.last:
            self._lose(it, "it wasn't made in time")
        yield from self._for_the_station()

    def _accept(self) -> None:
        """A connection has come, which may bring a CALL."""
        assert self._server
        if came := tcp.accepted(self._server):
            it = Circuit(tcp.Connection(came, self._t3))
            self._coming[it] = None
            self._watch(it)
            if len(self._coming) > MOST_COMING:
                self._drop(next(iter(self._coming)))

    # ---- what the selector watches

    def _watch(self, it: Circuit) -> None:
        """Has a connection watched for what it waits for, and counts the octets that wait
        there."""
        connection = it.connection
        self.waits += connection.waits - it.counted
        it.counted = connection.waits
        events = EVENT_READ * connection.is_open | EVENT_WRITE * connection.wants_room()
        if not it.events:
            self._selector.register(connection.number, events, it)
        elif events != it.events:
            self._selector.modify(connection.number, events, it)
        it.events = events
        if connection.is_open:
            self._making.pop(it, None)

    def _forget(self, it: Circuit) -> None:
        """A connection is watched no more, and closes."""
        self._selector.unregister(it.connection.number)
        self._making.pop(it, None)
        self.waits -= it.counted
        it.events = it.counted = 0
        it.connection.close()

    def _for_the_station(self) -> Iterator[bytes]:
        """Yields the frames of the link that is played; each may be answered before the next."""
        link = self._link
        while True:
            if link.frames:
                yield link.frames.popleft()
            elif self._packets and link.is_up and not link.is_busy:
                yield link.packed(self._packets.popleft())
            elif (frame := link.acknowledgement()) is not None:
                yield frame
            else:
                return

    # ---- what comes by connections

    def _read(self, it: Circuit) -> None:
        connection = it.connection
        was_open = connection.is_open
        octets = connection.turn({connection.number})
        if connection.is_open and not was_open:
            self._note(f"channel {it.channel} is connected to {connection.other()}")
        if octets is None:
            self._lose(it, connection.why or "the other end has closed it")
            return
        self._watch(it)
        if it.is_ending:
            self._end(it)
            return
        for packet in it.packets(octets):
            if not self._take(it, packet):
                break

    def _take(self, it: Circuit, packet: bytes | None) -> bool:
        """Takes a packet of a connection; answers False where that has to end."""
        kind = packet[2] if packet else None
        if packet is None or kind in FOREIGN or (not it.channel and kind != CALL):
            why = (
                "it isn't X.25 over TCP"
                if packet is None
                else f"it brought {packet[:8].hex()}, which isn't of one circuit"
            )
            if packet is None:
                it.connection.part(wires.XOT_ALONE)
            if not it.channel:
                self._note(f"a connection from {it.connection.other()} is closed: {why}")
            self._lose(it, why)
            return False
        if not it.channel and not self._is_given_a_channel(it, packet):
            return False
        if kind != DIAGNOSTIC:
            self._hand_in(it.channel, packet)
        if it.is_clearing and kind in (CLEAR, CLEAR_CONFIRMATION):
            self._end(it)
            return False
        return True

    def _is_given_a_channel(self, it: Circuit, packet: bytes) -> bool:
        """Finds a channel for a CALL that came; without one it is cleared."""
        del self._coming[it]
        free = self._channels.lowest()
        if free is None or not self._link.is_up:
            self._put(it, packet[:2] + bytes([CLEAR, CONGESTION, NO_CHANNEL]))
            self._end(it)
            self._note("a call came, and no channel is free: it is cleared")
            return False
        it.channel = free
        self._circuits[free] = it
        self._channels.take(free)
        self._note(
            f"a connection has come from {it.connection.other()}, with a call on channel "
            f"{it.channel}"
        )
        return True

    def _hand_in(self, channel: int, packet: bytes) -> None:
        """Has the station take a packet, on its channel."""
        self._packets.append(bytes([packet[0] & 0xF0 | channel >> 8, channel & 0xFF]) + packet[2:])

    def _lose(self, it: Circuit, why: str) -> None:
        """A connection has ended, or has to: its circuit is cleared. Of one that isn't made yet
        the next address is tried."""
        if it.untried and not it.connection.is_open:
            self._call(it)
            return
        if it.channel and not it.is_ending:
            self._note(f"the connection of channel {it.channel} has ended: {why}")
            kind = [CLEAR_CONFIRMATION] if it.is_clearing else [CLEAR, OUT_OF_ORDER, 0]
            self._hand_in(it.channel, bytes([0x10, 0, *kind]))
            self._drop(it)
            if not it.is_clearing:
                self._channels.take(it.channel)
        else:
            self._drop(it)

    def _end(self, it: Circuit) -> None:
        """A circuit has come to its end: its connection closes once all is written."""
        if it.connection.waits:
            self._leave(it)
            it.is_ending = True
        else:
            self._drop(it)

    def _leave(self, it: Circuit) -> None:
        """A circuit's channel is free again."""
        if self._circuits.get(it.channel) is it:
            del self._circuits[it.channel]
            self._channels.give_back(it.channel)

    def _drop(self, it: Circuit) -> None:
        """Closes a connection."""
        self._leave(it)
        self._coming.pop(it, None)
        self._forget(it)

    def _drop_all(self) -> None:
        """Nothing stands any more, nor comes."""
        for it in list(self._circuits.values()):
            self._drop(it)
        self._channels.give_all_back()
        self._packets.clear()

    # ---- what the station sends

    def send(self, octets: bytes) -> None:
        it = self._link.take(octets)
        if it in (SABM, DISC):
            self._drop_all()
            self._has_restarted = False
        elif isinstance(it, bytes):
            self._send_packet(it)

    def _send_packet(self, packet: bytes) -> None:
        channel, kind = (packet[0] & 15) << 8 | packet[1], packet[2]
        circuit = self._circuits.get(channel)
        if kind == RESTART:
            self._drop_all()
            # The first one meets the other end's; those of the user are confirmed.
            self._packets.append(b"\x10\0\xff" if self._has_restarted else b"\x10\0\xfb\0\0")
            self._has_restarted = True
        elif kind == CALL:
            self._begin(channel, packet)
        elif circuit is None:
            if kind in (CLEAR, CLEAR_CONFIRMATION):
                self._channels.give_back(channel)
        else:
            self._put(circuit, packet)
            circuit.is_clearing = circuit.is_clearing or kind == CLEAR
            if kind == CLEAR_CONFIRMATION:
                self._end(circuit)

    def _begin(self, channel: int, packet: bytes) -> None:
        """The station calls: a connection is made, and the CALL waits for it."""
        if not self._target:
            self._note("a call needs a host to go to: --xot names it")
            self._channels.take(channel)
            self._hand_in(channel, bytes([0x10, 0, CLEAR, NOT_OBTAINABLE, 0]))
            return
        if other := self._circuits.get(channel):
            # Two calls collide: that of the DTE goes on (4.1.6).
            if not self._is_dte:
                return
            self._drop(other)
        it = self._circuits[channel] = Circuit(
            self._made(self._target[0]), channel, self._target[1:]
        )
        self._channels.take(channel)
        self._making[it] = None
        self._put(it, packet)

    def _call(self, it: Circuit) -> None:
        """Has a circuit's connection made to the next address; what waits goes over that."""
        made = self._made(it.untried.pop(0))
        made.send(it.connection.left())
        self._forget(it)
        it.connection, it.last = made, time.monotonic() + wires.PATIENCE
        self._making[it] = None
        self._watch(it)

    def _put(self, it: Circuit, packet: bytes) -> None:
        """Sends a packet over a connection."""
        it.connection.send(b"\0\0" + len(packet).to_bytes(2, "big") + packet)
        self._watch(it)

    def _made(self, target: Target) -> tcp.Connection:
        """A connection that is being made."""
        return tcp.Connection(socket.socket(target[0], socket.SOCK_STREAM), self._t3, target[1])
