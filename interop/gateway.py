"""Between a device of X.25 of a guest, whose packets come in datagrams, and connections of XOT:
one for each circuit, as a router makes them."""

import os
import select
import socket
import sys
import threading

sys.path.append(os.path.join(os.path.dirname(os.path.dirname(os.path.abspath(__file__))), "tools"))

from x25tools import wires  # noqa: E402

# What the first octet of a frame of such a device says: that a packet follows, or that the link is
# to be set up, or is.
DATA, CONNECT = b"\0", b"\1"
CALL, CLEAR, CLEAR_CONFIRMATION, RESTART, RESTART_CONFIRMATION = 0x0B, 0x13, 0x17, 0xFB, 0xFF
OUT_OF_ORDER = 9
# Calls of the other end get channels from this one down, those of the kernel go from 1 up.
HIGHEST = 255
STATION = bytes([2, 0, 0, 0, 0, 2])


class Gateway:
    """`local` and `remote` are the ports of the datagrams, `listens` and `calls` those of XOT on
    this host."""

    def __init__(self, local, remote, listens, calls):
        self._device = socket.socket(socket.AF_INET, socket.SOCK_DGRAM)
        self._device.bind(("127.0.0.1", local))
        self._device.connect(("127.0.0.1", remote))
        self._server = socket.create_server(("127.0.0.1", listens))
        self._calls = calls
        # Connections by their channels, and those that haven't brought a CALL.
        self._circuits, self._open = {}, {}
        threading.Thread(target=self._run, daemon=True).start()

    def begin(self):
        """Restarts the device, which sets it up."""
        self._give(b"\x10\0" + bytes([RESTART, 0, 0]))

    def _give(self, packet, kind=DATA):
        self._device.send(wires.ethernet_frame(STATION, kind + packet))

    def _run(self):
        while True:
            for ready in select.select([self._device, self._server, *self._open], [], [])[0]:
                if ready is self._device:
                    self._from_device(wires.carried_frame(self._device.recv(2000)))
                elif ready is self._server:
                    self._open[self._server.accept()[0]] = None, b""
                elif ready in self._open:
                    self._from_connection(ready)

    def _from_device(self, frame):
        if frame is None or frame[:1] != DATA:
            if frame and frame[:1] == CONNECT:
                self._give(b"", CONNECT)
            return
        packet = frame[1:-2]
        channel, kind = (packet[0] & 15) << 8 | packet[1], packet[2]
        if kind == RESTART:
            for each in list(self._open):
                self._drop(each)
            self._give(b"\x10\0" + bytes([RESTART_CONFIRMATION]))
        elif kind == CALL and channel not in self._circuits:
            self._circuits[channel] = connection = socket.create_connection((
                "127.0.0.1", self._calls
            ))
            self._open[connection] = channel, b""
        if channel in self._circuits:
            self._circuits[channel].sendall(b"\0\0" + len(packet).to_bytes(2, "big") + packet)
            if kind == CLEAR_CONFIRMATION:
                self._drop(self._circuits[channel])

    def _from_connection(self, connection):
        octets = connection.recv(65_536)
        channel, left = self._open[connection]
        if not octets:
            self._drop(connection)
            if channel is not None:
                self._give(bytes([0x10, channel, CLEAR, OUT_OF_ORDER, 0]))
            return
        left += octets
        while len(left) >= 4 and len(left) >= (end := 4 + int.from_bytes(left[2:4], "big")):
            packet, left = left[4:end], left[end:]
            if channel is None:
                channel = next(it for it in range(HIGHEST, 0, -1) if it not in self._circuits)
                self._circuits[channel] = connection
            self._give(bytes([packet[0] & 0xF0, channel]) + packet[2:])
            if packet[2] == CLEAR_CONFIRMATION:
                self._drop(connection)
                return
        self._open[connection] = channel, left

    def _drop(self, connection):
        channel, _ = self._open.pop(connection)
        self._circuits.pop(channel, None)
        connection.close()
