"""Tests of interop/gateway.py: the test is the guest's device, and the other end of the
connections of XOT."""

import os
import socket
import sys
import unittest

import samples
import support

sys.path.append(os.path.join(support.ROOT, "interop"))

import gateway  # noqa: E402
from tunnels import free_ports  # noqa: E402
from x25tools import wires  # noqa: E402

CALL, ACCEPT, CLEARED = bytes.fromhex("10050b00"), bytes.fromhex("10050f"), bytes.fromhex("100517")


class Gateway(unittest.TestCase):
    def setUp(self):
        self.device = socket.socket(socket.AF_INET, socket.SOCK_DGRAM)
        self.device.bind(("127.0.0.1", 0))
        self.server = socket.create_server(("127.0.0.1", 0))
        local, self.port = *free_ports(1), *free_ports(1, socket.SOCK_STREAM)
        self.gateway = gateway.Gateway(
            local, self.device.getsockname()[1], self.port, self.server.getsockname()[1]
        )
        self.device.connect(("127.0.0.1", local))
        for each in (self.device, self.server):
            each.settimeout(10)
            self.addCleanup(each.close)

    def sends(self, packet, kind=b"\0"):
        self.device.send(wires.ethernet_frame(bytes(6), kind + packet))

    def takes(self):
        return wires.carried_frame(self.device.recv(2000))[:-2]

    def connection(self, opened):
        """A connection that is closed when the test ends."""
        opened.settimeout(10)
        self.addCleanup(opened.close)
        return opened

    def packet(self, line):
        """The next packet of a connection; nothing at its end."""
        header = line.recv(4, socket.MSG_WAITALL)
        return line.recv(int.from_bytes(header[2:], "big"), socket.MSG_WAITALL) if header else b""

    def test_the_device_is_set_up(self):
        self.gateway.begin()
        self.assertEqual(self.takes(), bytes.fromhex("00" + "1000fb0000"))
        self.sends(bytes.fromhex("1000ff"))
        self.device.send(bytes(60))
        self.sends(b"", gateway.CONNECT)
        self.assertEqual(self.takes(), b"\1")
        self.sends(bytes.fromhex("1000fb0000"))
        self.assertEqual(self.takes(), bytes.fromhex("00" + "1000ff"))

    def test_a_call_of_the_kernel(self):
        self.sends(CALL)
        line = self.connection(self.server.accept()[0])
        self.assertEqual(self.packet(line), CALL)
        # Two packets whose connection cuts them anywhere, with a channel of the other end's.
        octets = samples.xot(b"\x10\1\x0f", bytes.fromhex("10010041"))
        line.sendall(octets[:5])
        line.sendall(octets[5:])
        self.assertEqual(
            [self.takes(), self.takes()], [b"\0" + ACCEPT, bytes.fromhex("00" + "10050041")]
        )
        line.sendall(samples.xot(bytes.fromhex("1001130000")))
        self.assertEqual(self.takes(), bytes.fromhex("00" + "1005130000"))
        self.sends(CLEARED)
        self.assertEqual((self.packet(line), self.packet(line)), (CLEARED, b""))

    def test_a_call_of_the_other_end(self):
        lines = [
            self.connection(socket.create_connection(("127.0.0.1", self.port))) for _ in range(2)
        ]
        for channel, line in zip((255, 254), lines):
            line.sendall(samples.xot(b"\x10\1" + CALL[2:]))
            self.assertEqual(self.takes(), b"\0\x10" + bytes([channel]) + CALL[2:])
        lines[0].close()
        self.assertEqual(self.takes(), bytes.fromhex("00" + "10ff130900"))
        self.sends(bytes.fromhex("1000fb0000"))
        self.assertEqual(
            (self.takes(), self.packet(lines[1])), (bytes.fromhex("00" + "1000ff"), b"")
        )


if __name__ == "__main__":
    unittest.main()
