"""A daemon that carries local connections as calls of X.25: examples/c/tunnel.c in Python, and
either may be at the other end.

    python3 tunnel.py dte 7001 7002 listen 8001 &     each client of TCP port 8001 becomes a call
    python3 tunnel.py dce 7002 7001 connect 8002 &    each call that comes becomes a connection to
                                                      the server of TCP port 8002
"""

import contextlib
import errno
import os
import select
import signal
import socket
import struct
import sys
import time

from x25 import DCE, DTE, Kind, Refused, Sizes, Station, Times

CHANNELS, PIECE, ROOM, MOST_WAIT = 16, 4096, 65536, 1000
TIMES = Times(t1=200, t3=1000, t20=180_000, t21=200_000, t22=180_000, t23=180_000, t26=180_000)
KILOBYTES = Sizes(10, 10, 7, 7)


def opened(connection, is_whole=False):
    """The end of a connection is an error to the one at its other end, as that of this program
    would be, until it is whole."""
    connection.setsockopt(socket.SOL_SOCKET, socket.SO_LINGER, struct.pack("ii", not is_whole, 0))
    connection.setblocking(False)
    return connection


class Circuit:
    """The connection of a channel: what was read of it and is to be sent, and what came and is to
    be written to it. E, qualified, says that no more messages come, K that all up to E came. It is
    cut where octets are missing, so its call is to be cleared."""

    def __init__(self, state, connection=None):
        self.state, self.connection = state, connection
        self.read, self.came = b"", bytearray()
        self.has_ended = self.told_end = self.is_slow = False
        self.end_came = self.told_came = self.all_came = False

    def leave(self, state, is_whole=False):
        if self.connection:
            opened(self.connection, is_whole).close()
        self.__init__(state)

    def reads(self):
        return self.state == "up" and not self.read and not self.has_ended

    def move(self, method, *words):
        """What a method of the connection answers, or None where it will later. Where it has
        failed the circuit is cut."""
        try:
            return method(*words)
        except BlockingIOError:
            return None
        except OSError:
            return self.leave("cut")


class Tunnel:
    """A station, its line, and the circuits by their channels."""

    def __init__(self, end, near, far, manner, port):
        self.is_dte, self.place = end == "dte", ("127.0.0.1", port)
        self.line = socket.socket(socket.AF_INET, socket.SOCK_DGRAM)
        self.line.bind(("127.0.0.1", near))
        self.line.connect(("127.0.0.1", far))
        self.line.setblocking(False)
        self.listener = (
            socket.create_server(self.place, backlog=CHANNELS) if manner == "listen" else None
        )
        self.circuits, self.waiting, self.ends, self.has_ended = {}, None, False, False
        self.begin()

    def begin(self):
        """Begins with a station whose link is down."""
        end = DTE if self.is_dte else DCE
        self.station = Station(
            end,
            n2=20,
            channels=CHANNELS,
            wide=True,
            message=PIECE,
            library=os.environ.get("X25_SO"),
        )
        self.station.set_times(TIMES)

    def did(self, call, *words):
        """What a call answered, where it did what it was asked. Then its frames are sent, and its
        events noted."""
        try:
            answer = call(*words)
        except Refused:
            return None
        for octets in answer.frames:
            # a datagram that isn't taken is a frame that is lost
            with contextlib.suppress(OSError):
                self.line.send(octets)
        for event in answer.events:
            self.note(event)
        return answer

    def note(self, event):
        """Notes what happened."""
        circuit = self.circuits.get(event.channel) or Circuit("free")
        if event.kind in (Kind.LINK_DOWN, Kind.RESTARTED, Kind.RESTART_ASKED):
            for each in self.circuits.values():
                each.leave("free")
        elif event.kind == Kind.DISCONNECTED:
            self.has_ended = True
        elif event.kind == Kind.INCOMING:
            self.circuits[event.channel] = Circuit("cut" if self.listener else "came")
        elif event.kind == Kind.CONNECTED:
            circuit.state = "up"
        elif event.kind in (Kind.RESET, Kind.RESET_DONE, Kind.FAULT):
            circuit.leave("cut")
        elif event.kind in (Kind.COLLIDED, Kind.CLEARED, Kind.CLEAR_DONE):
            circuit.all_came |= event.kind == Kind.CLEARED and event.cause == event.diagnostic == 0
            circuit.leave("free", circuit.told_came and circuit.all_came)
        elif event.kind == Kind.MESSAGE and circuit.state == "up":
            if event.q:
                setattr(circuit, "end_came" if event.user == b"E" else "all_came", True)
            elif len(circuit.came) + len(event.user) > ROOM:
                circuit.leave("cut")  # the other end doesn't heed `not_ready`
            else:
                circuit.came += event.user

    def go_on(self, channel, circuit):
        """Goes on with a channel as far as the station and the connection take it: what is refused
        is tried again next time."""
        station = self.station
        if circuit.state == "came" and self.did(station.accept, channel, KILOBYTES):
            circuit.state, circuit.connection = "up", opened(socket.socket())
            if circuit.connection.connect_ex(self.place) not in (0, errno.EINPROGRESS):
                circuit.leave("cut")
        if circuit.came:
            del circuit.came[: circuit.move(circuit.connection.send, circuit.came) or 0]
        if circuit.reads():
            octets = circuit.move(circuit.connection.recv, PIECE)
            circuit.read, circuit.has_ended = octets or b"", octets == b""
        if circuit.state == "cut":
            self.did(station.clear, channel, 0, 1)
        if circuit.read and self.did(station.send, channel, circuit.read):
            circuit.read = b""
        if circuit.has_ended and not circuit.read and not circuit.told_end:
            circuit.told_end = self.did(station.send, channel, b"E", True) is not None
        if circuit.is_slow != (len(circuit.came) > ROOM // 2):
            circuit.is_slow ^= self.did(
                station.ready if circuit.is_slow else station.not_ready, channel
            ) is not None
        if circuit.end_came and not circuit.came and not circuit.told_came:
            circuit.move(circuit.connection.shutdown, socket.SHUT_WR)
            circuit.told_came = self.did(station.send, channel, b"K", True) is not None
        if self.listener and circuit.told_came and circuit.all_came:
            self.did(station.clear, channel)  # refused where it is asked already

    def turn(self):
        """Does what is to be done, and waits for the line, the connections and what is due by the
        clock. Answers whether it goes on."""
        if self.ends:
            self.did(self.station.disconnect)  # refused where it is asked already
        elif self.is_dte:
            self.did(self.station.connect)  # refused where it is up, or being set up
        if self.waiting and (answer := self.did(self.station.call, "1", "2", b"", KILOBYTES)):
            self.circuits[answer.channel], self.waiting = Circuit("calling", self.waiting), None
        for channel, circuit in list(self.circuits.items()):
            self.go_on(channel, circuit)
        reads = [circuit.connection for circuit in self.circuits.values() if circuit.reads()]
        writes = [circuit.connection for circuit in self.circuits.values() if circuit.came]
        files = [
            self.line, *([self.listener] if self.listener and not self.waiting else []), *reads
        ]
        wait = self.station.next_timeout(int(time.monotonic() * 1000), MOST_WAIT) / 1000
        ready, _, _ = select.select(files, writes, [], wait)
        self.did(self.station.time, int(time.monotonic() * 1000))
        with contextlib.suppress(OSError):  # nothing came
            self.did(self.station.receive, self.line.recv(PIECE + 64))
        if self.listener in ready:
            self.waiting = opened(self.listener.accept()[0])
        return not self.has_ended

    def end(self, *_):
        self.ends = True


if __name__ == "__main__":
    end, near, far, manner, port = sys.argv[1:]
    tunnel = Tunnel(end, int(near), int(far), manner, int(port))
    signal.signal(signal.SIGTERM, tunnel.end)
    while tunnel.turn():
        pass
