"""Tests of XOT in bridge.py: what a wire makes of packets without the program, and circuits of
bridges with it."""

import contextlib
import functools
import io
import os
import re
import resource
import select
import shutil
import socket
import subprocess
import sys
import threading
import time
import unittest
from unittest import mock

import samples
import support
from support import ToolCase
from program import find_library

from x25tools import waiting, wires, x25lines, xot_wire

CALL = bytes.fromhex("10010b431234567000c0ffee")
IN_FULL = bytes.fromhex("10010b431234567006420707430202c0ffee")
ACCEPT = bytes.fromhex("10010f0006420707430202")
SECONDS = 120
# As many as there may be.
CIRCUITS = 4095
LIBRARY = find_library("so")


def x25_packet(channel, rest):
    """A packet of a channel."""
    return bytes([0x10 | channel >> 8, channel & 0xFF]) + bytes.fromhex(rest)


def make_room(test, count):
    """Has this process open so many files, or leaves a test out."""
    soft, hard = resource.getrlimit(resource.RLIMIT_NOFILE)
    if hard != resource.RLIM_INFINITY and hard < count + 100:
        test.skipTest(f"the system allows {hard} files")
    resource.setrlimit(resource.RLIMIT_NOFILE, (count + 100, hard))
    test.addCleanup(resource.setrlimit, resource.RLIMIT_NOFILE, (soft, hard))


class Wire(unittest.TestCase):
    """The wire alone: the test is its station and the other end."""

    def setUp(self):
        server = socket.create_server(("127.0.0.1", 0))
        self.addCleanup(server.close)
        self.notes = []
        self.wire = xot_wire.Xot(
            "dte", self.notes.append, server.getsockname(), None, range(1, 5), 0
        )
        self.addCleanup(self.wire.close)
        self.turn()
        self.says("0173")
        self.packet(0, "1000fb0000")
        self.packet(1, "10010b0000")
        self.line = server.accept()[0]
        self.addCleanup(self.line.close)
        self.line.settimeout(2)
        self.turn()
        self.assertEqual(Circuits.takes(self.line).hex(), "10010b0000")

    def says(self, frame):
        """The station sends a frame."""
        octets = bytes.fromhex(frame)
        self.wire.send(octets + x25lines.fcs(octets))

    def packet(self, number, packet):
        """The station sends a packet, in the I frame of a number."""
        self.says(f"01{2 * number:02x}{packet}")

    def turn(self):
        """What the bridge does until nothing is ready any more; answers the frames for the
        station."""
        frames = list(self.wire.frames(()))
        while ready := {
            it
            for files in select.select(self.wire.readers(), self.wire.writers(), [], 0.2)
            for it in files
        }:
            frames += self.wire.frames(ready)
        return frames

    def test_a_connection_closes_behind_the_confirmation_of_its_clear(self):
        """At once, though nothing more comes or goes."""
        self.packet(2, "1001130000")
        self.turn()
        self.assertEqual(Circuits.takes(self.line).hex(), "1001130000")
        self.line.sendall(samples.xot(bytes.fromhex("100117")))
        self.assertIn("100117", self.turn()[0].hex())
        self.assertEqual(self.line.recv(100), b"")

    def test_what_comes_and_goes_is_told(self):
        """A connection that this end makes, one that another makes, and one that has lines of a
        trace, at both ends."""
        self.assertEqual(
            self.notes, ["channel 1 is connected to {}:{}".format(*self.line.getsockname())]
        )
        self.notes.clear()
        with contextlib.redirect_stderr(io.StringIO()) as said:
            self.wire = xot_wire.Xot(
                "dce", self.notes.append, None, ("127.0.0.1", 0), range(1, 5), 0
            )
        self.addCleanup(self.wire.close)
        self.turn()
        self.wire.send(bytes.fromhex("0373") + x25lines.fcs(bytes.fromhex("0373")))
        places = []
        for octets in (samples.xot(CALL), b"> 013febdf\n"):
            line = socket.create_connection(
                ("127.0.0.1", int(said.getvalue().rpartition(":")[2])), timeout=2
            )
            self.addCleanup(line.close)
            places.append("{}:{}".format(*line.getsockname()))
            line.sendall(octets)
            self.turn()
        self.assertEqual(self.notes, [
            f"a connection has come from {places[0]}, with a call on channel 1",
            f"a connection from {places[1]} is closed: it isn't X.25 over TCP",
        ])
        self.assertEqual(line.recv(100).decode(), f"# {wires.XOT_ALONE}\n")

    def test_two_calls_on_one_channel(self):
        """That of the DTE goes on, whichever end the station is (4.1.6)."""
        for end, goes_on in (("dte", "10010b0000"), ("dce", None)):
            with self.subTest(end), socket.create_server(("127.0.0.1", 0)) as server:
                server.settimeout(0.2)
                with contextlib.redirect_stderr(io.StringIO()) as said:
                    self.wire = xot_wire.Xot(
                        end,
                        self.notes.append,
                        server.getsockname(),
                        ("127.0.0.1", 0),
                        range(1, 2),
                        0,
                    )
                self.addCleanup(self.wire.close)
                self.turn()
                self.says("0173" if end == "dte" else "0373")
                self.turn()
                line = socket.create_connection(
                    ("127.0.0.1", int(said.getvalue().rpartition(":")[2])), timeout=2
                )
                self.addCleanup(line.close)
                line.sendall(samples.xot(CALL))
                self.assertIn(CALL, [frame[2:-2] for frame in self.turn()])
                self.packet(0, "10010b0000")
                self.turn()
                if goes_on:
                    self.assertEqual(line.recv(100), b"")
                    made = server.accept()[0]
                    self.addCleanup(made.close)
                    self.turn()
                    self.assertEqual(Circuits.takes(made).hex(), goes_on)
                else:
                    self.assertRaises(TimeoutError, server.accept)
                    self.packet(1, "10010f")
                    self.turn()
                    self.assertEqual(Circuits.takes(line).hex(), "10010f")

    def test_all_circuits_at_once(self):
        """As many as there may be, each with its channel; a turn looks at what has changed
        alone."""
        make_room(self, 2 * CIRCUITS)
        with contextlib.redirect_stderr(io.StringIO()) as said:
            channels = range(1, CIRCUITS + 1)
            wire = xot_wire.Xot("dce", self.notes.append, None, ("127.0.0.1", 0), channels, 0)
        self.addCleanup(wire.close)
        self.looks = 0
        ua = bytes.fromhex("0373")
        list(wire.frames(()))
        wire.send(ua + x25lines.fcs(ua))
        port, lines = int(said.getvalue().rpartition(":")[2]), []
        with mock.patch.object(xot_wire.Circuit, "packets", self.looked(xot_wire.Circuit.packets)):
            for number in range(1, CIRCUITS + 1):
                line = socket.create_connection(("127.0.0.1", port), timeout=10)
                self.addCleanup(line.close)
                line.sendall(samples.xot(CALL))
                lines.append(line)
                self.assertEqual(self.packets(wire), [x25_packet(number, "0b431234567000c0ffee")])
            self.assertEqual(self.looks, CIRCUITS)
            self.assertIn(f"with a call on channel {CIRCUITS}", self.notes[-1])
            # No channel is free: a call is cleared.
            line = socket.create_connection(("127.0.0.1", port), timeout=10)
            self.addCleanup(line.close)
            line.sendall(samples.xot(CALL))
            while "no channel is free" not in self.notes[-1]:
                list(wire.frames(waiting.ready(wire.readers(), wire.writers(), 5)))
            self.assertEqual(wire.waits, len(samples.xot(bytes.fromhex("1001130547"))))
            list(wire.frames(waiting.ready(wire.readers(), wire.writers(), 5)))
            self.assertEqual(
                (Circuits.takes(line), Circuits.takes(line), wire.waits),
                (bytes.fromhex("1001130547"), b"", 0),
            )
            # What comes by one is read of one; what all bring is read of each.
            self.looks = 0
            lines[-1].sendall(samples.xot(bytes.fromhex("1001006869")))
            self.assertEqual(self.packets(wire), [x25_packet(CIRCUITS, "006869")])
            self.assertEqual(self.looks, 1)
            for number, line in enumerate(lines, 1):
                line.sendall(samples.xot(bytes.fromhex(f"100100{number:04x}")))
            came = []
            while len(came) < CIRCUITS:
                came += self.packets(wire)
            self.assertEqual(sorted(came), [x25_packet(it, f"00{it:04x}") for it in channels])
            self.assertEqual(self.looks, 1 + CIRCUITS)
        # A channel in the middle is free once its connection has ended and the clear is confirmed.
        lines[1000].close()
        self.assertEqual(self.packets(wire), [x25_packet(1001, "130900")])
        confirmation = bytes([1, 0, *x25_packet(1001, "17")])
        wire.send(confirmation + x25lines.fcs(confirmation))
        lines[1000] = socket.create_connection(("127.0.0.1", port), timeout=10)
        self.addCleanup(lines[1000].close)
        lines[1000].sendall(samples.xot(CALL))
        self.assertEqual(self.packets(wire), [x25_packet(1001, "0b431234567000c0ffee")])

    def looked(self, read):
        """A function of a circuit that counts its calls."""

        def counting(*given):
            self.looks += 1
            return read(*given)

        return counting

    def packets(self, wire):
        """The packets that come next by a wire; each frame that isn't one goes by."""
        packets = []
        while not packets:
            frames = list(wire.frames(waiting.ready(wire.readers(), wire.writers(), 5)))
            packets = [frame[2:-2] for frame in frames if not frame[1] & 1]
        return packets

    def test_a_connection_closes_behind_its_own_confirmation(self):
        self.line.sendall(samples.xot(bytes.fromhex("1001130000")))
        self.turn()
        self.packet(2, "100117")
        self.turn()
        self.assertEqual((Circuits.takes(self.line).hex(), self.line.recv(100)), ("100117", b""))


@support.needs_station
class Circuits(ToolCase):
    def begin(self, end, *words):
        """Starts a bridge, whose notices come one by one."""
        command = [
            sys.executable,
            "-u",
            os.path.join(support.TOOLS, "bridge.py"),
            end,
            "--x25",
            support.PROGRAM,
            "--quiet",
            "1",
            *words,
        ]
        child = subprocess.Popen(
            command,
            stdin=subprocess.PIPE,
            stdout=subprocess.PIPE,
            stderr=subprocess.PIPE,
            text=True,
            bufsize=1,
        )
        # Whoever waits in vain for a notice comes to the end of them.
        timer = threading.Timer(SECONDS, child.kill)
        timer.start()
        self.addCleanup(self.finish, child, timer)
        return child

    @staticmethod
    def finish(child, timer):
        timer.cancel()
        child.kill()
        child.wait()
        for file in (child.stdin, child.stdout, child.stderr):
            file.close()

    def listening(self, *words):
        """A bridge of the DCE that is called, and its port."""
        child = self.begin("dce", "--xot-listen", "0", "--stay", *words)
        return child, int(child.stderr.readline().rpartition(":")[2])

    def hears(self, child, beginning):
        """The next notice that begins so."""
        told = ["nothing"]
        while not told[-1].startswith(beginning):
            told.append(child.stdout.readline().rstrip("\n"))
            self.assertTrue(told[-1], (beginning, told))
        return told[-1]

    @staticmethod
    def asks(child, *commands):
        child.stdin.write("".join(f"{command}\n" for command in commands))
        child.stdin.flush()

    def client(self, port):
        """A connection of another who speaks XOT."""
        line = socket.create_connection(("127.0.0.1", port), timeout=30)
        self.addCleanup(line.close)
        return line

    @staticmethod
    def takes(line):
        """The next packet of a connection; nothing at its end."""
        header = line.recv(4, socket.MSG_WAITALL)
        return line.recv(int.from_bytes(header[2:], "big"), socket.MSG_WAITALL) if header else b""

    def test_one_who_calls(self):
        child, port = self.listening()
        line = self.client(port)
        # In two parts, and after a packet of the other end that it hasn't to know.
        line.sendall(samples.xot(b"\x10\x07" + CALL[2:])[:9])
        time.sleep(0.1)
        line.sendall(samples.xot(b"\x10\x07" + CALL[2:])[9:])
        self.hears(child, "dce incoming ch=1 at 1.0.0 called=123 calling=4567 data=c0ffee")
        self.asks(child, "dce accept 1")
        self.assertEqual(self.takes(line), ACCEPT)
        line.sendall(
            samples.xot(
                bytes.fromhex("1007006869"), bytes.fromhex("1000f121"), bytes.fromhex("10072341")
            )
        )
        self.assertEqual(
            self.hears(child, "dce message"), "dce message ch=1 at 1.0.0 q=0 data=6869"
        )
        self.assertEqual(self.hears(child, "dce interrupt"), "dce interrupt ch=1 at 1.0.0 data=41")
        self.assertEqual(
            [self.takes(line), self.takes(line)],
            [bytes.fromhex("100121"), bytes.fromhex("100127")],
        )
        self.asks(child, "dce send 1 1 616263")
        self.assertEqual(self.takes(line), bytes.fromhex("900120616263"))
        line.sendall(samples.xot(bytes.fromhex("1007130000")))
        self.hears(child, "dce cleared ch=1 cause=0 diag=0")
        self.assertEqual((self.takes(line), self.takes(line)), (bytes.fromhex("100117"), b""))

    def test_a_connection_that_ends_clears_its_circuit(self):
        child, port = self.listening("--channels", "2")
        lines = [self.client(port) for _ in range(2)]
        for channel, line in enumerate(lines, 1):
            line.sendall(samples.xot(CALL))
            self.hears(child, f"dce incoming ch={channel}")
            self.asks(child, f"dce accept {channel}")
            self.takes(line)
        lines[0].close()
        self.hears(child, "dce cleared ch=1 cause=9 diag=0")
        # Its channel is free again, and the other circuit stands.
        again = self.client(port)
        again.sendall(samples.xot(CALL))
        self.hears(child, "dce incoming ch=1")
        lines[1].sendall(samples.xot(bytes.fromhex("10010041")))
        self.hears(child, "dce message ch=2 at 1.0.0 q=0 data=41")
        # A clear that the other end never confirms.
        self.asks(child, "dce clear 2")
        self.takes(lines[1])
        self.assertEqual(self.takes(lines[1]), bytes.fromhex("1002130000"))
        lines[1].close()
        self.hears(child, "dce cleardone ch=2")

    def test_all_circuits_at_once(self):
        """As many as there may be: each is called, accepted, brings a message, and has one."""
        count = CIRCUITS if support.SHARE == 1 else 500
        make_room(self, count)
        child, port = self.listening("--channels", str(count))
        lines = []
        for channel in range(1, count + 1):
            lines.append(self.client(port))
            lines[-1].sendall(samples.xot(CALL))
            self.hears(child, f"dce incoming ch={channel} ")
            self.asks(child, f"dce accept {channel}")
        for channel, line in enumerate(lines, 1):
            self.assertEqual(self.takes(line), x25_packet(channel, ACCEPT[2:].hex()))
            line.sendall(samples.xot(x25_packet(1, f"00{channel:04x}")))
        came = [self.hears(child, "dce message ") for _ in lines]
        self.assertEqual(
            sorted(came),
            sorted(
                f"dce message ch={it} at 1.0.0 q=0 data={it:04x}" for it in range(1, count + 1)
            ),
        )
        self.asks(child, *(f"dce send {it} 0 {it:04x}" for it in range(1, count + 1)))
        for channel, line in enumerate(lines, 1):
            packets = [self.takes(line)]
            if packets[0] == x25_packet(channel, "21"):
                packets.append(self.takes(line))
            self.assertEqual(packets[-1], x25_packet(channel, f"20{channel:04x}"))

    def test_files_whose_numbers_are_over_1024(self):
        """As those of a bridge with so many circuits are."""
        taken = [os.open(os.devnull, os.O_RDONLY) for _ in range(1030)]
        try:
            for number in taken:
                os.set_inheritable(number, True)
            with mock.patch(
                "subprocess.Popen", functools.partial(subprocess.Popen, pass_fds=taken)
            ):
                dce, port = self.listening()
        finally:
            for number in taken:
                os.close(number)
        dce.stdin.write("wait dce incoming\ndce accept 1\n")
        with socket.create_connection(("127.0.0.1", port), timeout=60) as line:
            line.sendall(samples.xot(CALL))
            self.assertEqual(self.takes(line)[2], 0x0F)

    def test_more_calls_than_channels(self):
        child, port = self.listening("--channels", "1")
        lines = [self.client(port) for _ in range(2)]
        lines[0].sendall(samples.xot(CALL))
        self.hears(child, "dce incoming ch=1")
        lines[1].sendall(samples.xot(CALL))
        self.assertEqual(
            (self.takes(lines[1]), self.takes(lines[1])), (bytes.fromhex("1001130547"), b"")
        )
        self.hears(child, "# a call came, and no channel is free")

    def test_what_is_no_circuit(self):
        """Other versions, lengths and packets end a connection, and that alone; whoever doesn't
        speak XOT is told so."""
        child, port = self.listening()
        others = (
            b"GET / HTTP/1.1\r\n\r\n", b"\0\1\0\3" + CALL[:3], b"\0\0\0\2\x10\1", b"\0\0\xff\xff"
        )
        for octets in (*others, samples.xot(b"\x10\0\xfb\0\0"), samples.xot(b"\x10\1\0A"), b""):
            line = self.client(port)
            line.sendall(octets)
            line.shutdown(socket.SHUT_WR)
            self.assertEqual(
                line.makefile().read(), f"# {wires.XOT_ALONE}\n" * (octets in others), octets
            )
            line.close()
        line = self.client(port)
        line.sendall(samples.xot(CALL))
        self.hears(child, "dce incoming ch=1")
        line.sendall(samples.xot(b"\x10\0\xfb\0\0"))
        self.hears(
            child,
            "# the connection of channel 1 has ended: it brought 1000fb0000, which isn't of one "
            "circuit",
        )
        self.hears(child, "dce cleared ch=1 cause=9 diag=0")

    def test_a_thousand_connections(self):
        """Connections that bring no CALL, and ten million octets of something else; then a call
        comes, and a signal ends all."""
        child, port = self.listening()
        for _ in range(1000):
            self.client(port).close()
        line = self.client(port)
        with contextlib.suppress(ConnectionResetError, BrokenPipeError):
            line.sendall(b"a" * 10_000_000)
        line = self.client(port)
        line.sendall(samples.xot(CALL))
        self.hears(child, "dce incoming ch=1")
        self.asks(child, "dce accept 1")
        self.assertEqual(self.takes(line), ACCEPT)
        self.assertLess(
            int(
                re.search(r"VmRSS:\s*(\d+)", support.read(f"/proc/{child.pid}/status").decode())[1]
            ),
            40_000,
        )
        child.terminate()
        self.assertEqual((self.takes(line), child.wait(SECONDS)), (b"", 143))
        self.assertEqual(child.stdout.read().splitlines()[-1], "dce disconnected ua")

    def test_one_who_is_called(self):
        with socket.create_server(("127.0.0.1", 0)) as server:
            server.settimeout(30)
            child = self.begin(
                "dte",
                "--xot",
                "127.0.0.1:{}".format(server.getsockname()[1]),
                "--channels",
                "2",
                "--stay",
            )
            self.hears(child, "dte restarted")
            self.asks(child, "dte call 123 4567 c0ffee", "dte call 1 2 - 8 8 3 3")
            lines = [server.accept()[0] for _ in range(2)]
            for line in lines:
                self.addCleanup(line.close)
                line.settimeout(30)
        told = {it[1]: (it, line) for line in lines for it in [self.takes(line)]}
        numbers = sorted(told)
        (first, one), (second, other) = (
            told[number]
            for number in (numbers if told[numbers[0]][0].endswith(b"\xff\xee") else numbers[::-1])
        )
        self.assertEqual(
            (first[2:], second[2:]),
            (IN_FULL[2:], bytes.fromhex("0b111200"[:4] + "12" + "06420808430303")),
        )
        # An acceptance that says nothing takes what was proposed.
        other.sendall(samples.xot(second[:2] + b"\x0f"))
        self.assertRegex(self.hears(child, "dte connected"), "size=8,8 win=3,3$")
        one.sendall(samples.xot(first[:2] + b"\x13\x05\x00"))
        self.hears(child, f"dte cleared ch={first[1]} cause=5 diag=0")
        self.assertEqual((self.takes(one)[2:], self.takes(one)), (b"\x17", b""))
        self.asks(child, "dte restart")
        self.hears(child, "dte restartdone")
        self.assertEqual(self.takes(other), b"")
        self.asks(child, "dte disconnect", "wait dte linkdown", "dte connect")
        self.hears(child, "dte linkup")
        self.hears(child, "dte restarted")

    @unittest.skipUnless(LIBRARY, "the library for C isn't built")
    def test_stations_of_the_library(self):
        with socket.create_server(("127.0.0.1", 0)) as server:
            server.settimeout(30)
            child = self.begin(
                "dte",
                "--xot",
                "127.0.0.1:{}".format(server.getsockname()[1]),
                "--library",
                LIBRARY,
                "--stay",
            )
            self.asks(child, "wait dte restarted", "dte call 123 4567 c0ffee")
            line = server.accept()[0]
        self.addCleanup(line.close)
        line.settimeout(30)
        self.assertEqual(self.takes(line)[2:], IN_FULL[2:])
        child, port = self.listening("--library", LIBRARY)
        line = self.client(port)
        line.sendall(samples.xot(CALL))
        self.hears(child, "dce incoming ch=1 at 1.0.0 called=123 calling=4567 data=c0ffee")
        self.asks(child, "dce accept 1")
        self.assertEqual(self.takes(line), ACCEPT)

    def test_nobody_is_there(self):
        child = self.begin("dte", "--xot", "127.0.0.1:1", "--stay")
        self.asks(child, "wait dte restarted", "dte call 1 2 -")
        self.hears(child, "# the connection of channel 1 has ended: Connection refused")
        self.hears(child, "dte cleared ch=1 cause=9 diag=0")
        child, _ = self.listening()
        self.asks(child, "wait dce restarted", "dce call 1 2 -")
        self.hears(child, "dce cleared ch=1 cause=13 diag=0")

    def test_circuits_of_two_bridges(self):
        """Four circuits at once, made by either end, 200 messages each way on each; what goes
        between them is X.25 over TCP to others, too."""
        dce, port = self.listening("--channels", "4")
        between = Between(port)
        self.addCleanup(between.close)
        dte = self.begin("dte", "--xot", f"127.0.0.1:{between.port}", "--channels", "4", "--stay")
        proposals = ("", " 8 8 3 3", " 4 10 1 7", " 7 7 2 2")
        self.hears(dte, "dte restarted")
        channels = {}
        for number, proposal in enumerate(proposals):
            self.asks(dte, f"dte call 1 2 {number:02x}{proposal}")
            far = int(re.search(r"ch=(\d+)", self.hears(dce, "dce incoming"))[1])
            self.asks(dce, f"dce accept {far}")
            near = int(re.search(r"ch=(\d+)", self.hears(dte, "dte connected"))[1])
            channels[near] = far
        sent = {
            near: [
                f"{near:02x}{number:04x}" * (1 + 150 * (number % 50 == 3)) for number in range(200)
            ]
            for near in channels
        }
        came = {}

        def take(child, end):
            told = {}
            while sum(map(len, told.values())) < 800:
                found = re.match(
                    rf"{end} message ch=(\d+) at \S+ q=0 data=(\w+)", child.stdout.readline()
                )
                if found:
                    told.setdefault(int(found[1]), []).append(found[2])
            came[end] = told

        takers = [
            threading.Thread(target=take, args=(child, end), daemon=True)
            for child, end in ((dte, "dte"), (dce, "dce"))
        ]
        for taker in takers:
            taker.start()
        for place in range(200):
            for near, far in channels.items():
                self.asks(dte, f"dte send {near} 0 {sent[near][place]}")
                self.asks(dce, f"dce send {far} 0 {sent[near][place]}")
        for taker in takers:
            taker.join(SECONDS)
        self.assertEqual(came["dte"], sent)
        self.assertEqual(came["dce"], {far: sent[near] for near, far in channels.items()})
        for near, far in channels.items():
            self.asks(dte, f"dte clear {near}")
            self.hears(dte, f"dte cleardone ch={near}")
        capture = self.file("capture", between.capture())
        if shutil.which("tshark"):
            shown = subprocess.run(
                ["tshark", "-n", "-r", capture, "-Y", "x25"],
                capture_output=True,
                text=True,
                timeout=SECONDS,
            ).stdout
            self.assertGreater(shown.count("\n"), 1600)
            self.assertNotIn("alformed", shown)
        listed = support.run("pcap2x25.py", "--list", capture)
        self.assertEqual((listed.returncode, listed.stdout.count(b"\n")), (0, 4))
        for number in range(1, 5):
            trace = support.run("pcap2x25.py", "--connection", str(number), capture).stdout
            self.assertGreater(trace.count(b"\n"), 800)
            told = support.run(
                "x25dump.py",
                "--x25",
                support.PROGRAM,
                "--judge",
                "--connection",
                str(number),
                capture,
            )
            self.assertEqual(
                (told.returncode, re.findall(b".*(?: ! |fault).*", told.stdout)), (0, [])
            )
            self.assertNotIn(b" 0 judged", told.stdout)


class Between:
    """Carries connections to a port, and keeps what went."""

    def __init__(self, port):
        self._target, self._kept, self._lock = port, [], threading.Lock()
        self._server = socket.create_server(("127.0.0.1", 0))
        self.port = self._server.getsockname()[1]
        self._sockets = [self._server]
        threading.Thread(target=self._accept, daemon=True).start()

    def _accept(self):
        client = 0
        while True:
            try:
                near = self._server.accept()[0]
            except OSError:
                return
            far = socket.create_connection(("127.0.0.1", self._target))
            client += 1
            self._sockets += [near, far]
            for to_server, source, target in ((True, near, far), (False, far, near)):
                threading.Thread(
                    target=self._carry, args=(client, to_server, source, target), daemon=True
                ).start()

    def _carry(self, client, to_server, source, target):
        sequence = 0
        while True:
            try:
                octets = source.recv(1400)
                if not octets:
                    target.shutdown(socket.SHUT_WR)
                    return
                with self._lock:
                    self._kept.append(
                        samples.ipv4(
                            to_server, samples.tcp(to_server, sequence, octets), client=client
                        )
                    )
                sequence += len(octets)
                target.sendall(octets)
            except OSError:
                return

    def capture(self):
        """A capture of what went."""
        with self._lock:
            return samples.pcap(
                [(0, place, packet) for place, packet in enumerate(self._kept)], link_type=101
            )

    def close(self):
        for each in self._sockets:
            each.close()


if __name__ == "__main__":
    unittest.main()
