"""What carries a bridge's frames to the other end: lines of a trace over a stream of octets, or
frames of lapbether.

A wire stands in a loop around `waiting.ready`. `readers` and `writers` are the numbers of the
files that it waits for, and `due` is when it wants a turn without them. `frames` is its turn: it
writes what there is room for, and yields the octets of each frame that came, with its frame check
sequence; it raises `Ended` where the wire has ended for good. `send` takes a frame that goes out:
while the wire isn't there (`is_there`) it is lost, as on any line. What becomes of the wire is
told by `note`, a function that the wire is given.
"""

from __future__ import annotations

import contextlib
import errno
import fcntl
import os
import select
import socket
import struct
import time
from typing import Callable, Container, Iterator

from x25tools import lan, tcp, x25lines
from x25tools.tcp import MOST_READ
from x25tools.x25lines import BadInput

# What a pipe has room for where it is ready: a write of this many octets doesn't block.
ROOM = select.PIPE_BUF
BROADCAST = b"\xff" * 6
# The shortest frame of Ethernet, without its frame check sequence.
LEAST_ETHERNET = 60
HEADER = 14
# Octets of a frame of lapbether that are no user data: its length, the address and control of
# LAPB, the header of a packet.
OVERHEAD = 7
# The codes of packet sizes, each 2 to its code.
MOST_SIZE = 12
# A peer is called that doesn't answer yet: for how long, and the pause, which grows where the
# bridge calls again and again. In seconds.
PATIENCE, PAUSE, MOST_PAUSE = 10, 0.1, 30
# How often an interface that is down is looked at, in seconds.
LOOK = 1
# What is told at both ends where one has --xot or --xot-listen, and the other lines of a trace.
XOT_ALONE = "one end alone speaks X.25 over TCP (--xot, --xot-listen)"
# Requests of Linux about an interface, and the flag that it is up.
GET_FLAGS, GET_MTU, IS_UP = 0x8913, 0x8921, 1
# What tells what becomes of a wire.
Note = Callable[[str], None]
GONE = {errno.ENETDOWN, errno.ENODEV, errno.ENXIO}


class Ended(Exception):
    """The wire has ended, and doesn't come again."""


class Wire:
    """What all wires have. `has_begun` is whether it was ever there, `waits` how many octets wait
    to be written."""

    has_fcs = True
    is_there = has_begun = True
    due: float | None = None
    waits = 0
    most_size = MOST_SIZE

    def readers(self) -> list[int]:
        """The files that something may come by."""
        return []

    def writers(self) -> list[int]:
        """The files that have to have room."""
        return []

    def send(self, octets: bytes) -> None:
        """Takes a frame that goes out."""
        raise NotImplementedError

    def frames(self, ready: Container[int]) -> Iterator[bytes]:
        """Writes and reads, and yields the frames that came."""
        raise NotImplementedError

    def close(self) -> None:
        """Lets go of what the wire has open."""


class Lines:
    """Lines of a trace as octets: those that `end` writes, and those that come from the other
    end."""

    def __init__(self, end: str, note: Note) -> None:
        self._own, self._other = ("> ", "<") if end == "dte" else ("< ", ">")
        self._ends = ("DTE", "DCE") if end == "dte" else ("DCE", "DTE")
        self._note = note
        self._open = b""

    def spelled(self, octets: bytes) -> bytes:
        """The line of a frame that this end sends."""
        return f"{self._own}{octets.hex()}\n".encode()

    def frames(self, octets: bytes) -> Iterator[bytes]:
        """Yields the frames of the lines that are whole now; what the other end says in a comment
        is told."""
        octets = self._open + octets
        # A packet of XOT begins so, and may never bring a line feed.
        if octets.startswith(b"\0"):
            raise BadInput(XOT_ALONE)
        *whole, self._open = octets.split(b"\n")
        for line in (line.removesuffix(b"\r") for line in whole):
            if line.startswith(b"#"):
                self._note(f"the other end says {x25lines.shown(line[1:].strip())}")
            elif line:
                yield self._frame(line)
        if len(self._open) > x25lines.MOST_CHARACTERS:
            raise BadInput("the line brought more characters than a line of a trace may have")

    def _frame(self, line: bytes) -> bytes:
        frame = x25lines.frame_line(line)
        if frame is None:
            raise BadInput(f"the line brought {x25lines.shown(line)}, which is no line of a trace")
        if frame.direction != self._other:
            raise BadInput("both ends are the {}: one has to be the {}".format(*self._ends))
        return frame.octets


class Standard(Wire):
    """Lines of a trace on standard input and output."""

    def __init__(self, end: str, note: Note) -> None:
        self._lines, self._left = Lines(end, note), bytearray()

    @property
    def waits(self) -> int:  # type: ignore[override]
        return len(self._left)

    def readers(self) -> list[int]:
        return [0]

    def writers(self) -> list[int]:
        return [1] if self._left else []

    def send(self, octets: bytes) -> None:
        self._left += self._lines.spelled(octets)

    def frames(self, ready: Container[int]) -> Iterator[bytes]:
        try:
            if 1 in ready:
                with contextlib.suppress(BlockingIOError):
                    del self._left[: os.write(1, self._left[:ROOM])]
            octets = os.read(0, MOST_READ) if 0 in ready else None
        except (BrokenPipeError, ConnectionResetError):
            octets = b""
        if octets == b"":
            raise Ended
        yield from self._lines.frames(octets or b"")


class OverTcp(Wire):
    """Lines of a trace over a connection of TCP; where it ends and `comes_again`, over the next
    one."""

    # What is told of a connection, before the other end's address.
    _connected = "connected to"

    def __init__(self, end: str, note: Note, t3: float, comes_again: bool) -> None:
        self._end, self._note, self._t3, self._comes_again = end, note, t3, comes_again
        self._connection: tcp.Connection | None = None
        self._lines: Lines | None = None
        self.has_begun = False

    @property
    def is_there(self) -> bool:  # type: ignore[override]
        return self._lines is not None

    @property
    def waits(self) -> int:  # type: ignore[override]
        return self._connection.waits if self._connection and self._lines else 0

    def readers(self) -> list[int]:
        return [self._connection.number] if self._connection and self._lines else []

    def writers(self) -> list[int]:
        return (
            [self._connection.number] if self._connection and self._connection.wants_room() else []
        )

    def send(self, octets: bytes) -> None:
        if self._connection and self._lines:
            self._connection.send(self._lines.spelled(octets))

    def frames(self, ready: Container[int]) -> Iterator[bytes]:
        connection = self._connection
        if not connection:
            return
        octets = connection.turn(ready)
        if octets is None:
            self._lose(connection.why or "the other end has closed it")
        elif connection.is_open:
            yield from self._taken(connection, self._there(connection), octets)

    def _taken(self, connection: tcp.Connection, lines: Lines, octets: bytes) -> Iterator[bytes]:
        try:
            yield from lines.frames(octets)
        except BadInput as error:
            connection.part(str(error))
            if not self._comes_again:
                raise
            self._lose(str(error))

    def _there(self, connection: tcp.Connection) -> Lines:
        """The lines of a connection that stands."""
        if not self._lines:
            self._lines, self.has_begun = Lines(self._end, self._note), True
            self._note(f"{self._connected} {connection.other()}")
        return self._lines

    def _lose(self, why: str) -> None:
        """The connection has ended."""
        if self._connection:
            self._connection.close()
        self._connection = self._lines = None
        self._note(f"the connection has ended: {why}")
        if not self._comes_again:
            raise Ended

    def close(self) -> None:
        if self._connection:
            self._connection.close()


class Listening(OverTcp):
    """Waits for a connection; while there is one, others are told so and closed. Where it `stays`,
    it waits for the next one."""

    _connected = "a connection has come from"

    def __init__(
        self, end: str, note: Note, place: tuple[str, int], t3: float, stays: bool
    ) -> None:
        super().__init__(end, note, t3, stays)
        self._server = tcp.server(*place)

    def readers(self) -> list[int]:
        return [self._server.fileno(), *super().readers()]

    def frames(self, ready: Container[int]) -> Iterator[bytes]:
        # Of a connection that has something to read that may be its end, which comes before the
        # next one.
        is_read = self._connection is not None and self._connection.number in ready
        yield from super().frames(ready)
        if (
            self._server.fileno() in ready
            and (self._connection is None or not is_read)
            and (came := tcp.accepted(self._server))
        ):
            self._take(came)

    def _take(self, came: socket.socket) -> None:
        connection = tcp.Connection(came, self._t3)
        if self._connection is None:
            self._connection = connection
            self._there(connection)
        else:
            self._note("another client came, and was told that the line is taken")
            connection.part("the line is taken")
            connection.close()

    def close(self) -> None:
        super().close()
        self._server.close()


class Calling(OverTcp):
    """Makes a connection, to one who may listen only after some seconds; where it `retries`, again
    and again, with a growing pause."""

    def __init__(
        self, end: str, note: Note, place: tuple[str, int], t3: float, retries: bool
    ) -> None:
        super().__init__(end, note, t3, retries)
        self._place, self._addresses, self._turns = place, tcp.addresses(*place), 0
        self._pause, self._is_told = PAUSE, False
        begin = self.due = time.monotonic()
        self._last = begin + PATIENCE

    def frames(self, ready: Container[int]) -> Iterator[bytes]:
        if self.due is not None and time.monotonic() >= self.due:
            self._try()
        for octets in super().frames(ready):
            self._pause = PAUSE
            yield octets

    def _try(self) -> None:
        """Calls the next address; one that is being called has had its time."""
        if self._connection:
            self._lose("it doesn't answer")
            return
        family, address = self._addresses[self._turns % len(self._addresses)]
        self._turns += 1
        self._connection = tcp.Connection(
            socket.socket(family, socket.SOCK_STREAM), self._t3, address
        )
        self.due = time.monotonic() + PATIENCE

    def _there(self, connection: tcp.Connection) -> Lines:
        self.due, self._is_told = None, False
        return super()._there(connection)

    def _lose(self, why: str) -> None:
        if self.is_there:
            super()._lose(why)
        else:
            if self._connection:
                self._connection.close()
            self._connection = None
            if not self._comes_again and time.monotonic() > self._last:
                raise BadInput(f"{tcp.written(self._place)}: {why}")
            if self._comes_again and not self._is_told:
                self._note(f"no connection to {tcp.written(self._place)} yet: {why}")
                self._is_told = True
        self._wait()

    def _wait(self) -> None:
        """Sets when the next address is called: at once, but for a pause after the last one."""
        pause = 0.0 if self._turns % len(self._addresses) else self._pause
        self.due = time.monotonic() + pause
        if self._comes_again and pause:
            self._pause = min(2 * self._pause, MOST_PAUSE)


class Datagrams(Wire):
    """Frames of lapbether, each in a frame of Ethernet, over a socket that sends to and takes from
    the other end alone."""

    has_fcs = False

    def __init__(
        self, note: Note, opened: socket.socket | None = None, source: bytes = b""
    ) -> None:
        self._note, self._source = note, source
        if opened:
            self._socket = opened
        self._last_error: int | None = None

    def readers(self) -> list[int]:
        return [self._socket.fileno()]

    def send(self, octets: bytes) -> None:
        """Sends a frame; where there is no room it is lost, as on any line."""
        try:
            self._socket.send(ethernet_frame(self._source, octets[:-2]))
            self._last_error = None
        except (BlockingIOError, ConnectionRefusedError):
            pass
        except OSError as error:
            self._fail(error)

    def frames(self, ready: Container[int]) -> Iterator[bytes]:
        if self._socket.fileno() in ready:
            try:
                frame = carried_frame(self._take())
            except (BlockingIOError, ConnectionRefusedError):
                frame = None
            except OSError as error:
                frame = None
                self._fail(error)
            if frame is not None:
                yield frame

    def _take(self) -> bytes:
        return self._socket.recv(MOST_READ)

    def _fail(self, error: OSError) -> None:
        """Nothing goes or comes for now; each reason is told once."""
        if error.errno != self._last_error:
            self._note(f"frames are lost: {error.strerror}")
        self._last_error = error.errno

    def close(self) -> None:
        self._socket.close()


def ethernet_frame(source: bytes, frame: bytes) -> bytes:
    """A frame of LAPB in one of Ethernet, as lapbether sends it: to all, after its length, without
    a frame check sequence."""
    octets = BROADCAST + source + lan.LAPBETHER.to_bytes(2, "big") + len(frame).to_bytes(
        2, "little"
    ) + frame
    return octets.ljust(LEAST_ETHERNET, b"\0")


def carried_frame(octets: bytes) -> bytes | None:
    """The frame of LAPB in one of Ethernet, with its frame check sequence; None where there is
    none."""
    frame, length = octets[HEADER + 2 :], int.from_bytes(octets[HEADER : HEADER + 2], "little")
    is_whole = (
        octets[HEADER - 2 : HEADER] == lan.LAPBETHER.to_bytes(2, "big") and len(frame) >= length
    )
    return frame[:length] + x25lines.fcs(frame[:length]) if is_whole else None


def over_udp(end: str, note: Note, local: int, host: str, remote: int) -> Datagrams:
    """Datagrams between a port of this host, at the one address from which the other host is
    reached, and a port of that host."""
    family, peer = tcp.addresses(host, remote, socket.SOCK_DGRAM)[0]
    with socket.socket(family, socket.SOCK_DGRAM) as probe:
        probe.connect(peer)
        own = probe.getsockname()[0]
    opened = socket.socket(family, socket.SOCK_DGRAM)
    try:
        opened.bind((own, local))
    except OSError as error:
        raise BadInput(f"{tcp.written((own, local))}: {error.strerror}") from error
    opened.connect(peer)
    opened.setblocking(False)
    x25lines.warn(f"bound to {tcp.written(opened.getsockname())}")
    # A made-up address of a station of Ethernet, marked as assigned by hand.
    return Datagrams(note, opened, bytes([2, 0, 0, 0, 0, 1 if end == "dte" else 2]))


class Ethernet(Datagrams):
    """An interface of Ethernet, by its name; while it is down or away, it is looked at once a
    second."""

    def __init__(self, note: Note, interface: str) -> None:
        if not hasattr(socket, "AF_PACKET"):
            raise BadInput("an interface of Ethernet can be joined on Linux alone")
        super().__init__(note)
        self._interface = interface
        self.is_there = self.has_begun = False
        try:
            mtu = self._open()
        except OSError as error:
            raise BadInput(f"{interface}: {error.strerror}") from error
        x25lines.warn(
            f"{interface} has an MTU of {mtu}: packets of up to {1 << self.most_size} octets fit "
            f"(size {self.most_size})"
        )
        if not self.is_there:
            note(f"{interface} is down; waiting for it")

    def _open(self) -> int:
        """Opens the interface, and looks whether it is up; answers its MTU."""
        self._socket = socket.socket(socket.AF_PACKET, socket.SOCK_RAW, 0)
        self._socket.bind((self._interface, lan.LAPBETHER))
        self._socket.setblocking(False)
        self._source = self._socket.getsockname()[4]
        self.is_there = bool(struct.unpack_from("h", self._asked(GET_FLAGS), 16)[0] & IS_UP)
        self.has_begun = self.has_begun or self.is_there
        self.due = None if self.is_there else time.monotonic() + LOOK
        mtu: int = struct.unpack_from("i", self._asked(GET_MTU), 16)[0]
        self.most_size = min(MOST_SIZE, max(0, mtu - OVERHEAD).bit_length() - 1)
        return mtu

    def _asked(self, request: int) -> bytes:
        """What Linux answers to a request about the interface."""
        return fcntl.ioctl(self._socket, request, struct.pack("16s24x", self._interface.encode()))

    def readers(self) -> list[int]:
        return super().readers() if self.is_there else []

    def send(self, octets: bytes) -> None:
        if self.is_there:
            super().send(octets)

    def frames(self, ready: Container[int]) -> Iterator[bytes]:
        if self.due is not None and time.monotonic() >= self.due:
            self._come_back()
        yield from super().frames(ready if self.is_there else ())

    def _come_back(self) -> None:
        try:
            self._socket.close()
            self._open()
        except OSError:
            self.due = time.monotonic() + LOOK
        if self.is_there:
            self._note(f"{self._interface} is up")

    def _take(self) -> bytes:
        octets, sender = self._socket.recvfrom(MOST_READ)
        return b"" if sender[2] == socket.PACKET_OUTGOING else octets

    def _fail(self, error: OSError) -> None:
        if error.errno in GONE:
            self._note(f"{self._interface}: {error.strerror}; waiting for it")
            self.is_there, self.due = False, time.monotonic() + LOOK
        else:
            super()._fail(error)
