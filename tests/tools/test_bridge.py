"""Tests of bridge.py without the program: its answers are written by hand (fake_station.py), and
the test is the other end."""

import argparse
import contextlib
import fcntl
import os
import re
import select
import signal
import socket
import subprocess
import sys
import time
import unittest
from unittest import mock

import counted
import support
from counted import CountedCase
from support import ToolCase

from x25tools import bridge, places, tcp, users, wires, x25lines
from x25tools.circuits import Circuits
from x25tools.mishaps import Mishaps

FAKE = os.path.join(os.path.dirname(os.path.abspath(__file__)), "fake_station.py")
SABM, UA = "> 013febdf", "< 01738357"
DISC = "> 01538176"
RESTART, RESTARTED = "< 03001000fb0700c478", "> 01001000fb00007702"
CALLED = "< 030010010b000043a5"
CALL = "> 012210010b431234567000417605"


def sealed(octets):
    """Some octets with their frame check sequence."""
    return octets + x25lines.fcs(octets)


def line(octets):
    """A frame of the DCE as a line of a trace."""
    return f"< {octets.hex()}"


class Chances(unittest.TestCase):
    FRAMES = [sealed(bytes([1, number])) for number in range(200)]

    def fates(self, *given):
        mishaps = Mishaps(*given)
        return [mishaps.happen(frame) for frame in self.FRAMES], mishaps

    def test_nothing_happens(self):
        self.assertEqual(self.fates(0, 0, 1)[0], self.FRAMES)

    def test_all_are_lost(self):
        fates, mishaps = self.fates(1, 0, 1)
        self.assertEqual(set(fates), {None})
        self.assertEqual((mishaps.lost, mishaps.damaged), (200, 0))

    def test_damage_is_seen_by_the_frame_check_sequence(self):
        fates, mishaps = self.fates(0, 1, 1)
        self.assertEqual([x25lines.is_sealed(octets) for octets in fates], [False] * 200)
        self.assertEqual([len(octets) for octets in fates], [4] * 200)
        self.assertEqual((mishaps.lost, mishaps.damaged), (0, 200))

    def test_each_seed_has_its_chances(self):
        self.assertEqual(self.fates(0.3, 0.3, 5)[0], self.fates(0.3, 0.3, 5)[0])
        self.assertNotEqual(self.fates(0.3, 0.3, 5)[0], self.fates(0.3, 0.3, 6)[0])
        lost = self.fates(0.3, 0.3, 5)[0].count(None)
        self.assertTrue(30 < lost < 90, lost)

    def test_octets_that_are_no_frame(self):
        self.assertNotEqual(Mishaps(0, 1, 1).happen(b"\x01"), b"\x01")
        self.assertEqual(Mishaps(0, 1, 1).happen(b""), b"")


class Forms(unittest.TestCase):
    def test_lines_of_the_other_end(self):
        told = []
        lines = wires.Lines("dce", told.append)
        self.assertEqual(
            [*lines.frames(b"# hello\r\n\r\n\n1.5\t> 013febdf\r\n> 01")],
            [bytes.fromhex("013febdf")],
        )
        self.assertEqual([*lines.frames(b"7fef\n")], [bytes.fromhex("017fef")])
        self.assertEqual(told, ["the other end says 'hello'"])

    def test_lapbether(self):
        frame = bytes.fromhex("013f")
        octets = wires.ethernet_frame(bytes(6), frame)
        self.assertEqual(
            octets[:18], b"\xff" * 6 + bytes(6) + bytes.fromhex("6000") + b"\x02\0" + frame
        )
        self.assertEqual(len(octets), 60)
        self.assertEqual(wires.carried_frame(octets), sealed(frame))
        long = bytes(300)
        self.assertEqual(wires.ethernet_frame(bytes(6), long)[14:16], b"\x2c\x01")
        self.assertEqual(wires.carried_frame(wires.ethernet_frame(bytes(6), long)), sealed(long))

    def test_what_is_no_lapbether(self):
        octets = wires.ethernet_frame(bytes(6), bytes(100))
        for other in (b"", octets[:15], octets[:-1], octets[:12] + b"\x08\0" + octets[14:]):
            self.assertIsNone(wires.carried_frame(other))

    def test_words(self):
        self.assertEqual(places.host_and_port("7000"), ("127.0.0.1", 7000))
        self.assertEqual(places.host_and_port("there:7"), ("there", 7))
        self.assertEqual(places.ports("1:2"), (1, "127.0.0.1", 2))
        self.assertEqual(places.ports("1:there:2"), (1, "there", 2))
        self.assertEqual(places.host_and_port("[::1]:7000"), ("::1", 7000))
        self.assertEqual(places.ports("1:[fe80::1]:2"), (1, "fe80::1", 2))
        self.assertEqual(
            [places.xot_host(text) for text in ("there", "there:7", "[::1]", "[::1]:7")],
            [("there", 1998), ("there", 7), ("::1", 1998), ("::1", 7)],
        )
        for text in ("::1:7000", "[::1:7000", "1:2:3", ":x", "there:"):
            with self.assertRaises(argparse.ArgumentTypeError, msg=text):
                places.host_and_port(text)
        for words in (
            ["dte"],
            ["--udp", "1:2"],
            ["dte", "--udp", "1"],
            ["dte", "--udp", "1:x"],
            ["dte", "--listen", "70000"],
            ["dte", "--stdio", "--udp", "1:2"],
        ):
            self.assertEqual(support.run("bridge.py", *words).returncode, 2, words)
        self.assert_says(
            "come to more than 1", "dte", "--stdio", "--lose", "0.6", "--damage", "0.6"
        )
        self.assert_says("'9' is no number from 1 to 7", "dte", "--stdio", "--k", "9")
        self.assert_says("'0' is no number from 1 to 255", "dte", "--stdio", "--n2", "0")
        self.assert_says(
            "'4096' is no number from 1 to 4095", "dte", "--stdio", "--channels", "4096"
        )
        self.assert_says("'0' is no number from 1 to 65535", "dte", "--stdio", "--message", "0")
        self.assert_says(
            "more channels are one-way than there are",
            "dte",
            "--stdio",
            "--channels",
            "3",
            "--incoming",
            "2",
            "--outgoing",
            "2",
        )
        self.assert_says("name one line", "dte", "--stdio", "--xot", "there")
        self.assert_says("XOT loses and damages nothing", "dte", "--xot", "there", "--lose", "0.1")
        self.assert_says("in brackets", "dte", "--connect", "::1:7000")
        self.assert_says("neither HOST:PORT nor a port", "dte", "--connect", "nohost")
        self.assert_says("--retry is for --connect", "dte", "--listen", "0", "--retry")

    def assert_says(self, text, *words):
        done = support.run("bridge.py", *words)
        self.assertEqual(done.returncode, 2)
        self.assertIn(text, done.stderr.decode())


class Prospects(unittest.TestCase):
    """What can't be told any more, by what was told."""

    UP = ("dte linkup", "dte restarted cause=7 diag=0")
    CALL, CALLED = (
        "dte call ch=1 at 1.0.0 called=1 calling=2 data=-",
        "dte incoming ch=1 at 1.0.0 called=1 calling=2 data=-",
    )
    VAIN = (
        ("the link didn't come up", "dte linkup", ["dte connect", "dte linkdown retries"]),
        ("the link didn't come up", "dte restarted", ["dte connect", "dte linkdown dm"]),
        (
            "the link didn't come up",
            "dte incoming",
            ["dte connect", "dte linkup", "dte linkdown frmr-got"],
        ),
        ("the link was ended here", "dte incoming", [*UP, "dte disconnect", "dte linkdown local"]),
        ("the link was ended here", "dte cleared ch=1", ["dte disconnect"]),
        ("the link isn't up", "dte connected", []),
        (
            "the link isn't up",
            "dte message ch=1",
            [*UP, "dte connected ch=1", "dte linkdown disc"],
        ),
        ("no call waits", "dte connected", [*UP]),
        ("no call waits", "dte connected", [*UP, CALL, "dte cleared ch=1 cause=0 diag=0"]),
        ("no call waits", "dte connected", [*UP, CALL, "dte collided ch=1", CALLED]),
        ("no call waits", "dte connected", [*UP, CALL, "dte restarted cause=7 diag=0"]),
        ("no call is up", "dte message", [*UP, CALLED]),
        ("no call is up", "dte message ch=1 ", [*UP, "dte connected ch=12"]),
        ("no call is up", "dte interrupt ch=12", [*UP, "dte connected ch=1"]),
        ("no call is up", "dte message ch=40 ", [*UP, "dte connected ch=4095"]),
        ("no call is up", "dte message ch=0", [*UP, "dte connected ch=7"]),
        ("no call is up", "dte message ch=07", [*UP, "dte connected ch=7"]),
        ("no call is up", "dte message ch=7x", [*UP, "dte connected ch=7"]),
        ("no call is up", "dte message on", [*UP, "dte connected ch=7"]),
        (
            "no call is up",
            "dte message",
            [*UP, *("dte connected ch=1", "dte reset ch=1") * 2, "dte cleared ch=1"],
        ),
        (
            "no call is up",
            "dte confirmed",
            [*UP, "dte connected ch=1", "dte cleared ch=1 cause=0 diag=0"],
        ),
        ("no call is up", "dte wasreset", [*UP, "dte accept ch=1", "dte clear ch=1"]),
        (
            "nothing is being cleared",
            "dte cleardone",
            [*UP, "dte accept ch=1", "dte clear ch=1", "dte cleardone ch=1"],
        ),
        (
            "nothing is being reset",
            "dte resetdone",
            [*UP, "dte accept ch=1", "dte reset ch=1", "dte resetdone ch=1"],
        ),
        ("no restart", "dte restartdone", [*UP]),
        ("no restart", "dte restartdone", [*UP, "dte restart", "dte restartdone"]),
    )
    MAY = (
        ("dte incoming", [*UP, "dte linkdown disc"]),
        ("dte restarted", ["dte connect"]),
        ("dte restarted", ["dte connect", "dte linkup", "dte linkdown reset", "dte linkup"]),
        ("dte restarted", ["dte connect", "dte linkdown retries", "dte connect"]),
        ("dte linkup", ["dte disconnect", "dte connect"]),
        ("dte restartdone", [*UP, "dte restart"]),
        ("dte connected", [*UP, CALL]),
        ("dte connected ch=1", [*UP, CALL.replace("=1 at", "=12 at")]),
        ("dte message ch=1 at 1.0.0", [*UP, CALL]),
        ("dte message ch=40", [*UP, "dte connected ch=4095"]),
        ("dte message c", [*UP, "dte connected ch=4095"]),
        ("dte message", [*UP, "dte accept ch=1", "dte reset ch=1"]),
        ("dte confirmed ch=1", [*UP, "dte accept ch=1"]),
        ("dte cleardone", [*UP, "dte accept ch=1", "dte clear ch=1"]),
        ("dte resetdone ch=1", [*UP, "dte accept ch=1", "dte fault ch=1 diag=27"]),
        ("dte cleardone ch=1", [*UP, CALLED, "dte fault ch=1 diag=27"]),
        ("dte cleared", [*UP]),
        ("dte conn", []),
        ("dte linkdown", []),
        ("# the connection", ["dte disconnect"]),
        ("! 9", ["dte disconnect"]),
    )

    def told(self, notices):
        circuits = Circuits()
        for notice in notices:
            circuits.heed(notice)
        return circuits

    def test_what_does_not_come_any_more(self):
        for why, text, notices in self.VAIN:
            with self.subTest(f"{text}: {notices}"):
                self.assertRegex(self.told(notices).cannot_come(text), f"^{why}")

    def test_what_may_come(self):
        for text, notices in self.MAY:
            with self.subTest(f"{text}: {notices}"):
                self.assertEqual(self.told(notices).cannot_come(text), "")


class Steps:
    """A bridge over TCP whose other end is the test."""

    def begin(self, answers, *words, end="dte", user=b"", is_left_open=False):
        """Starts a bridge with these answers of its station, and joins it."""
        self.answers = self.file("answers", answers.encode())
        self.file("answers.asked", b"")
        program = self.file(
            "x25", f'#!/bin/sh\nexec "{sys.executable}" "{FAKE}" "{self.answers}" "$@"\n'.encode()
        )
        os.chmod(program, 0o755)
        self.child = self.started("--x25", program, "--listen", "0", "--quiet", "0.3", *words, end)
        self.come = []
        said = self.child.stderr.readline()
        self.program, self.place = program, ("127.0.0.1", int(said.rsplit(":", 1)[1]))
        self.join()
        self.gives(user)
        if not is_left_open:
            self.child.stdin.close()

    def gives(self, commands):
        """The user gives commands, as octets."""
        left = memoryview(commands)
        while left:
            left = left[os.write(self.child.stdin.fileno(), left) :]

    def join(self):
        """Joins the bridge as a client."""
        self.line = socket.create_connection(self.place, timeout=10)
        self.addCleanup(self.line.close)
        self.come.append("# a connection has come from {}:{}".format(*self.line.getsockname()))
        self.lines = self.lines_of(self.line)

    def sends(self, text):
        self.line.sendall(f"{text}\n".encode())

    def gets(self):
        return self.lines.readline().rstrip("\n")

    def end(self):
        """Waits for the end of the bridge; answers the status, the notices but for those that the
        test has come, and what it said."""
        notices, text = self.child.stdout.read().splitlines(), self.child.stderr.read()
        self.child.stdin.close()
        self.assertEqual([it for it in notices if " has come from " in it], self.come)
        return self.child.wait(), [it for it in notices if " has come from " not in it], text

    def asked(self, count=0):
        """What the station was asked, once it was asked so often: when, and what."""
        path, turns = self.answers + ".asked", 0
        while turns < 5000 and support.read(path).count(b"\n") < count:
            self.sleep(0.02)
            turns += 1
        with open(path, newline="\n") as file:
            rows = [row.rstrip("\n").split(" ", 1) for row in file]
        return [(float(when), event) for when, event in rows]

    def play(self, *turns, words=(), user=b""):
        """Begins a bridge whose station is asked these things in turn, each with what it
        answers."""
        rows = "".join(
            f"= {event}\n{answer}\n. off idle\n" if answer else f"= {event}\n. off idle\n"
            for event, answer in turns
        )
        self.begin(". off idle\n" + rows, *words, user=user)

    def again(self):
        """Joins the bridge once more, as another client."""
        self.lines.close()
        self.line.close()
        self.join()


class Joined(Steps, CountedCase):
    """In counted time."""

    def sleep(self, seconds):
        self.clock.sleep(seconds)

    def lines_of(self, line):
        return counted.Pipe(self.clock, line.fileno(), is_own=False)

    def test_commands_frames_and_notices(self):
        self.begin(
            f". off busy\n= dte connect\ndte connect\n{SABM}\n. start busy\n= {UA}\ndte linkup\n"
            f"{RESTARTED}\n. start busy\n= {RESTART}\ndte restarted cause=7 diag=0\n. off idle\n",
            "--t1",
            "60",
            user=b"dte connect\n",
        )
        self.assertEqual(self.gets(), SABM)
        self.sends(UA)
        self.assertEqual(self.gets(), RESTARTED)
        self.sends(RESTART)
        self.assertEqual(
            self.end(), (0, ["dte connect", "dte linkup", "dte restarted cause=7 diag=0"], "")
        )

    def test_t1_fires_where_it_began_anew(self):
        self.begin(
            f". off busy\n= dte connect\n{SABM}\n. start busy\n= t1 dte\n{SABM}\n. start busy\n= "
            "t1 dte\ndte linkdown retries\n. off busy\n",
            "--t1",
            "0.4",
            user=b"dte connect\n",
        )
        self.assertEqual(self.end()[:2], (0, ["dte linkdown retries"]))
        times = [when for when, _ in self.asked()]
        self.assertEqual(len(times), 3)
        for before, after in zip(times, times[1:]):
            # The time is told before the station is asked, and is that of the deadline.
            self.assertGreaterEqual(after - before, 0.3)

    def test_on_leaves_t1_as_it_is(self):
        self.begin(
            f". off busy\n= dte connect\n{SABM}\n. start busy\n= {UA}\n. on busy\n= t1 dte\n. off "
            "idle\n",
            "--t1",
            "2",
            user=b"dte connect\n",
        )
        self.gets()
        self.sleep(1)
        self.sends(UA)
        self.assertEqual(self.end()[0], 0)
        times = [when for when, _ in self.asked()]
        self.assertGreaterEqual(times[2] - times[0], 1.9)
        self.assertLess(times[2] - times[1], 2)

    def test_off_drops_t1(self):
        self.begin(
            f". off busy\n= dte connect\n{SABM}\n. start busy\n= {UA}\ndte linkup\n. off idle\n",
            "--t1",
            "0.2",
            user=b"dte connect\n",
        )
        self.gets()
        self.sends(UA)
        self.assertEqual(self.end()[0], 0)
        self.assertEqual([event for _, event in self.asked()], ["dte connect", UA])

    def test_what_has_no_room_is_asked_again_behind_the_next_frame(self):
        """Where too much waits in the link, all commands wait."""
        send = "dte send 1 0 41"
        self.begin(
            f". off idle\n= {send}\n! 10\n. off busy\n= {UA}\n. off busy\n= {send}\ndte send ch=1 "
            "at 1.0.0 q=0 data=41\n. off busy\n= dte ready 1\n! 30\n. off idle\n",
            user=f"{send}\ndte ready 1\n".encode(),
        )
        self.asked(1)
        self.sleep(0.3)
        self.assertEqual(len(self.asked()), 1)
        self.sends(UA)
        status, notices, said = self.end()
        words = "# ! 30, not in this state of the channel: 'dte ready 1'"
        self.assertEqual(
            (status, notices, said), (1, ["dte send ch=1 at 1.0.0 q=0 data=41", "! 30", words], "")
        )
        self.assertEqual([event for _, event in self.asked()], [send, UA, send, "dte ready 1"])

    def test_a_slow_circuit_holds_no_other(self):
        """Its messages stand aside in their order; what else is asked goes on, and a frame has
        them asked again."""
        first, second, other = "dte send 1 0 41", "dte send 1 0 42", "dte send 2 0 43"
        commands = [first, second, other, "dte ready 1", "dte int 1 07", "dte clear 2"]
        turns = [
            (first, "! 31"),
            (other, "dte send ch=2 at 1.0.0 q=0 data=43"),
            ("dte ready 1", ""),
            (first, "! 31"),
            ("dte int 1 07", ""),
            (first, "! 31"),
        ]
        turns += [
            ("dte clear 2", "dte clear ch=2"),
            (first, "! 31"),
            (UA, ""),
            (first, ""),
            (second, "! 31"),
            (RESTART, ""),
            (second, ""),
        ]
        self.play(*turns, words=["--quiet", "1"], user="\n".join(commands).encode())
        self.asked(8)
        self.sends(UA)
        self.asked(11)
        self.sends(RESTART)
        self.assertEqual(
            self.end(), (0, ["dte send ch=2 at 1.0.0 q=0 data=43", "dte clear ch=2"], "")
        )
        self.assertEqual([event for _, event in self.asked()], [event for event, _ in turns])

    def test_a_circuit_that_takes_nothing_is_cleared(self):
        """Its messages go first for as long as one is taken now and then; then they are refused,
        before anything else is asked."""
        sends = [f"dte send 1 0 {number:02x}" for number in range(60)]
        for last in (
            "dte clear 1", "dte clear 1 cause=9 diag=5", "dte with - 6279 clear 1",
            "dte reset 1 diag=5", "dte restart cause=200", "dte disconnect",
        ):
            with self.subTest(last):
                turns = [
                    (sends[0], ""),
                    (sends[1], "! 31"),
                    (UA, ""),
                    (sends[1], ""),
                    (sends[2], "! 31"),
                    (last, ""),
                    *((it, "! 30") for it in sends[2:]),
                    ("dte call 1 2 -", ""),
                ]
                self.play(
                    *turns,
                    words=["--quiet", "0.7"],
                    user="\n".join([*sends, last, "dte call 1 2 -"]).encode(),
                )
                self.asked(2)
                self.sleep(0.4)
                self.sends(UA)
                status, notices, said = self.end()
                asked = self.asked()
                self.assertEqual((status, notices.count("! 30"), said), (1, 58, ""))
                self.assertEqual([event for _, event in asked], [event for event, _ in turns])
                self.assertGreaterEqual(asked[5][0] - asked[3][0], 0.7)

    def test_wait_holds_commands_until_a_notice_comes(self):
        self.begin(
            f". off idle\n= {UA}\ndte linkup\n. off idle\n= {RESTART}\ndte restarted cause=7 "
            "diag=0\n. off idle\n= dte call 1 2 -\n. off idle\n",
            user=b"wait dte restarted\ndte call 1 2 -\n",
        )
        self.sends(UA)
        self.asked(1)
        self.sleep(0.3)
        self.assertEqual(len(self.asked()), 1)
        self.sends(RESTART)
        self.assertEqual(self.end()[0], 0)
        self.assertEqual([event for _, event in self.asked()], [UA, RESTART, "dte call 1 2 -"])

    def test_wait_for_what_does_not_come_any_more(self):
        """Because the call was cleared, the link didn't come up, or the other end alone tells
        it."""
        cleared, failed = (
            "dte connected ch=1\ndte cleared ch=1 cause=0 diag=0", "dte connect\ndte linkdown dm"
        )
        for why, text, told in (
            ("no call is up", "dte message", cleared),
            ("the link didn't come up", "dte restarted", failed),
            ("notices of this end begin with `dte `", "dce incoming", cleared),
        ):
            with self.subTest(text):
                self.play(
                    (UA, f"dte linkup\n{told}"),
                    ("dte ready 1", "dte ready ch=1"),
                    user=f"wait dte linkup\nwait {text}\ndte ready 1\n".encode(),
                )
                self.sends(UA)
                status, notices, said = self.end()
                self.assertEqual((status, said), (1, ""))
                self.assertEqual(
                    notices[-3:],
                    [
                        "! 61",
                        f"# ! 61, {why}; 1 command behind it: 'wait {text}'",
                        "dte ready ch=1",
                    ],
                )

    def test_a_wait_that_nothing_stands_behind(self):
        self.play((UA, "dte linkup"), user=b"wait dte linkup\nwait dte connected\n")
        self.sends(UA)
        self.assertEqual(
            self.end(),
            (
                1,
                [
                    "dte linkup",
                    "! 61",
                    "# ! 61, no call waits for an answer: 'wait dte connected'",
                ],
                "",
            ),
        )

    def test_wait_ends_in_its_time(self):
        self.play(
            ("dte ready 1", "dte ready ch=1"),
            words=["--wait", "0.5"],
            user=b"wait dte incoming\ndte ready 1\n",
        )
        self.assertEqual(
            self.end(),
            (
                1,
                [
                    "! 61",
                    "# ! 61, it hasn't come in 0.5 seconds; 1 command behind it: 'wait dte "
                    "incoming'",
                    "dte ready ch=1",
                ],
                "",
            ),
        )
        self.assertGreaterEqual(self.asked()[0][0], 0.4)

    def test_a_wait_that_holds_commands_is_told(self):
        (reader, writer), clock = os.pipe(), [1.0]
        self.addCleanup(os.close, reader)
        user = users.User(reader, users.Outlet(sys.stderr), 1)
        told = []
        with mock.patch.object(user, "tell", told.append), mock.patch.object(
            time, "monotonic", lambda: clock[0]
        ):
            os.write(writer, b"wait dte incoming\ndte accept 1\ndte ready 1\n")
            os.close(writer)
            user.read([reader])
            self.assertEqual((user.command(), user.silence()), (None, 1 + users.SILENCE))
            user.tell_silence()
            self.assertEqual(
                (told, user.silence()),
                (["# 'wait dte incoming' holds 2 commands behind it"], None),
            )

    def test_a_wait_that_holds_nothing_is_told(self):
        user, told = users.User(None, users.Outlet(sys.stderr), 1), []
        user.commands.add([b"wait dte cleared"])
        with mock.patch.object(user, "tell", told.append):
            self.assertIsNotNone(user.awaits() and user.silence())
            user.tell_silence()
        self.assertEqual(told, ["# 'wait dte cleared' waits"])

    def test_what_a_vain_wait_has_looked_at_is_there_for_the_next(self):
        user = users.User(None, users.Outlet(sys.stderr), 1)
        user.commands.add([
            b"wait dte call", b"wait dte connected", b"wait dte cleared", b"wait dte call"
        ])
        for notice in "dte call ch=1", "dte cleared ch=1":
            user.tell(notice)
        self.assertEqual(user.awaits()[0], "dte connected")
        user.end_wait()
        self.assertEqual(user.awaits()[0], "dte call")

    def test_a_signal_that_comes_just_before_a_wait_ends_it(self):
        for number in (signal.SIGINT, signal.SIGTERM):
            self.addCleanup(signal.signal, number, signal.getsignal(number))
        for come, number in (
            (lambda _: os.kill(os.getpid(), signal.SIGTERM), signal.SIGTERM),
            (users.Signals.leave, 0),
        ):
            with self.subTest(number), users.Signals() as signals:
                come(signals)
                signals.read(select.select(signals.readers(), [], [], 10)[0])
                self.assertEqual((signals.number, signals.readers()), (number, []))

    def test_a_line_that_asks_for_nothing(self):
        self.begin(
            ". off idle\n= dte dance\n? 60\n. off idle\n= dte connect\ndte connect\n. off idle\n",
            user=b"dte dance\ndte connect\n",
        )
        self.assertEqual(
            self.end(), (1, ["? 60", "# ? 60, no such line: 'dte dance'", "dte connect"], "")
        )

    def test_commands_of_another_kind(self):
        long = "dte send 1 0 " + "41" * 100_000
        given = [
            "dce connect", "t1 dte", UA, "drain 9", "", "dte", "DTE connect", "grüß", "\xff\xfe",
            long,
        ]
        octets = [
            command.encode("latin-1" if command.startswith("\xff") else "utf-8")
            for command in given
        ]
        self.begin(
            ". off idle\n= dte connect\ndte connect\n. off idle\n",
            user=b"\n".join([*octets, b"dte connect"]),
        )
        status, notices, said = self.end()
        self.assertEqual((status, said), (1, ""))
        self.assertEqual(notices[::2], ["? 60"] * 10 + ["dte connect"])
        for command, words in zip([*given[:-2], r"\xff\xfe", given[-1][:60]], notices[1::2]):
            self.assertRegex(words, f"^# [?] 60, no command .*: '{re.escape(command)}'")
        self.assertEqual([event for _, event in self.asked()], ["dte connect"])

    def test_lines_that_end_in_a_carriage_return(self):
        """As telnet, PuTTY and files of Windows have them: commands and what the line brings."""
        self.begin(
            f". off idle\n= {UA}\ndte linkup\n. off idle\n= dte call 1 2 -\n. off idle\n",
            user=b"wait dte linkup\r\ndte call 1 2 -\r\n",
        )
        self.sends(f"{UA}\r")
        self.assertEqual(self.end(), (0, ["dte linkup"], ""))
        self.assertEqual([event for _, event in self.asked()], [UA, "dte call 1 2 -"])

    def test_other_lines_of_the_line(self):
        packet = "\0\0\0\5\x10\1\x0b\0\0"
        for text, words in (
            ("hello", "no line of a trace"),
            (SABM, "both ends are the DTE"),
            ("< 0", "no line of a trace"),
            (packet, "X.25 over TCP (--xot"),
        ):
            with self.subTest(text):
                self.begin(". off idle\n", is_left_open=True)
                self.sends(text)
                told = self.lines.read()
                status, _, said = self.end()
                self.assertEqual(status, 2)
                self.assertIn(words, said)
                # The other end is told the same.
                self.assertEqual(told, "# " + said.removeprefix("bridge.py: "))

    def test_what_does_not_fit_ends_a_connection_alone(self):
        """With --stay: two of a kind, a packet of XOT that brings no line feed, a line of a trace
        to XOT."""
        both, alone = "both ends are the DTE: one has to be the DCE", wires.XOT_ALONE
        self.begin(f". off idle\n= {UA}\n. off idle\n", "--stay")
        for octets, why in ((f"{SABM}\n".encode(), both), (b"\0\0\0\5\x10\1\x0b\0\0", alone)):
            self.line.sendall(octets)
            self.assertEqual(self.lines.read(), f"# {why}\n")
            self.again()
        self.sends(UA)
        self.asked(1)
        self.child.terminate()
        self.assertEqual(
            self.end()[1], [f"# the connection has ended: {why}" for why in (both, alone)]
        )

    def test_the_line_ends_while_something_is_left_to_do(self):
        self.begin(
            f". off busy\n= dte connect\n{SABM}\n. start busy\n",
            "--t1",
            "60",
            user=b"dte connect\nwait dte linkup\n",
        )
        self.gets()
        self.lines.close()
        self.line.close()
        status, notices, said = self.end()
        self.assertEqual(
            (status, notices[-1]), (1, "# the connection has ended: the other end has closed it")
        )
        self.assertIn("the line has ended before all was done", said)

    def test_with_stay_it_listens_again(self):
        self.begin(
            f". off busy\n= dte connect\n{SABM}\n. start busy\n= {UA}\ndte linkup\n. off idle\n= "
            f"{RESTART}\n. off idle\n= dte disconnect\n. off busy\n",
            "--stay",
            "--t1",
            "60",
            user=b"dte connect\n",
        )
        self.gets()
        self.sends(UA)
        self.asked(2)
        self.again()
        self.sends(RESTART)
        self.asked(3)
        self.child.terminate()
        status, notices, said = self.end()
        self.assertEqual(
            (status, notices[:2], said),
            (143, ["dte linkup", "# the connection has ended: the other end has closed it"], ""),
        )
        self.assertEqual(len(self.come), 2)

    def test_a_second_client_is_told_and_closed(self):
        self.begin(f". off idle\n= {UA}\n. off idle\n", "--stay")
        self.sleep(0.2)
        with socket.create_connection(self.place, timeout=10) as second:
            self.assertEqual(second.recv(100), b"# the line is taken\n")
            self.assertEqual(second.recv(100), b"")
        self.sends(UA)
        self.assertEqual(len(self.asked(1)), 1)
        self.child.terminate()
        self.assertEqual(
            self.end()[1], ["# another client came, and was told that the line is taken"]
        )
        self.assertEqual(len(self.come), 1)

    def test_comments_of_the_other_end(self):
        self.begin(f". off idle\n= {UA}\n. off idle\n", "--quiet", "1")
        self.sends("# the line is taken")
        self.sends(UA)
        self.assertEqual(self.end()[1], ["# the other end says 'the line is taken'"])

    def test_a_signal_waits_no_longer_than_t1(self):
        self.begin(
            f". off busy\n= {UA}\ndte linkup\n. off idle\n= dte disconnect\ndte disconnect\n"
            f"{DISC}\n. off busy\n",
            "--t1",
            "0.5",
            "--stay",
        )
        self.sends(UA)
        self.asked(1)
        self.child.terminate()
        self.assertEqual(self.gets(), DISC)
        self.assertEqual(self.end()[0], 143)

    def test_a_call_on_a_channel_that_there_is_not(self):
        for channel in (5, 300, 4095):
            with self.subTest(channel):
                call = line(
                    sealed(
                        bytes([3, 0, 0x10 | channel >> 8, channel & 255])
                        + bytes.fromhex("0b00000000")
                    )
                )
                self.begin(
                    f". off idle\n= {call}\n. off idle\n= {call}\n. off idle\n", "--channels", "4"
                )
                self.sends(call)
                self.sends(call)
                self.assertEqual(
                    self.end()[1],
                    [
                        f"# a call came on channel {channel}, and there are 4: nothing answers it;"
                        f" --channels {channel} would have it"
                    ],
                )

    def test_a_frame_that_the_station_does_not_take(self):
        self.begin(f". off idle\n= {UA}\n? 60\n. off idle\n= {RESTART}\ndte linkup\n. off idle\n")
        self.sends(UA)
        self.sends(RESTART)
        self.assertEqual(
            self.end()[:2],
            (0, ["# the station takes no frame of 4 octets: it is lost", "dte linkup"]),
        )

    def test_the_other_end_is_asked_where_nothing_comes(self):
        """By a poll, with a circuit or without one, and again only when nothing came for as long
        once more."""
        for entries in ("dte restarted", "dte connected ch=3"):
            with self.subTest(entries):
                answers = (
                    f". off idle\n= {UA}\ndte linkup\n{entries}\n. +500 idle\n= probe\ndte "
                    f"timeout T3\n{RESTARTED}\n. start busy\n"
                )
                self.begin(
                    answers + f"= {UA}\n. +500 idle\n= probe\ndte timeout T3\n. off idle\n",
                    "--t3",
                    "0.5",
                    "--t1",
                    "60",
                    "--stay",
                )
                self.sends(UA)
                self.assertEqual(self.gets(), RESTARTED)
                self.sends(UA)
                times = [when for when, _ in self.asked(4)]
                self.assertGreater(times[1] - times[0], 0.4)
                self.assertGreater(times[3] - times[2], 0.4)
                self.child.terminate()
                self.assertEqual(self.end()[1][:2], ["dte linkup", entries])

    def test_the_other_end_is_not_asked(self):
        for words, entries in (
            (["--t3", "0"], "dte connected ch=3"), (["--t3", "0.2"], "dte linkdown disc")
        ):
            with self.subTest(words):
                self.begin(
                    f". off idle\n= {UA}\ndte linkup\n{entries}\n. off idle\n", *words, "--stay"
                )
                self.sends(UA)
                self.asked(1)
                self.sleep(0.7)
                self.assertEqual(len(self.asked()), 1)
                self.child.terminate()
                self.end()

    def test_an_answer_that_is_overdue(self):
        """The call is cleared, then the station restarts, then the link is set up anew, and that
        begins again: nothing waits for ever."""
        call = "dte call 1 12 - - - - - -"
        answers = (
            f". off idle\n= {UA}\ndte linkup\ndte restarted\n. off idle\n= {call}\ndte call ch=1\n"
            ". +600 due\n"
        )
        answers += (
            "= clear\ndte timeout T21 ch=1\ndte clear ch=1\n. +700 due\n= restart\ndte timeout "
            "T23 ch=1\ndte restart\n. +500 due\n"
        )
        answers += "= relink\ndte timeout T20\ndte relink\ndte linkdown local\n. start busy\n"
        answers += f"= {UA}\ndte linkup\n. +500 due\n= relink\ndte timeout T20\n. start busy\n"
        self.begin(
            answers,
            "--t3",
            "0",
            "--t1",
            "60",
            "--t20",
            "0.5",
            "--t21",
            "0.6",
            "--t22",
            "0",
            "--t23",
            "0.7",
            "--stay",
            is_left_open=True,
        )
        self.sends(UA)
        self.gives(f"{call}\n".encode())
        times = [when for when, _ in self.asked(5)]
        self.sends(UA)
        times = [when for when, _ in self.asked(7)]
        for place, least in ((2, 0.6), (3, 0.7), (4, 0.5), (6, 0.5)):
            self.assertGreater(times[place] - times[place - 1], least - 0.1, place)
        self.child.terminate()
        status, notices, _ = self.end()
        said = [notice for notice in notices if notice.startswith("# ")]
        self.assertEqual(
            said[:2],
            [
                "# T21 has passed: the call on channel 1 isn't answered",
                "# T23 has passed: the clearing of channel 1 isn't confirmed",
            ],
        )
        self.assertEqual(said[2:4], ["# T20 has passed: the restart isn't confirmed"] * 2)

    def test_what_is_overdue_is_refused(self):
        """It is told, and a reset is named too."""
        answers = (
            f". off idle\n= {UA}\ndte linkup\ndte restarted\n. off idle\n= {CALLED}\ndte incoming "
            "ch=1\ndte fault ch=1 diag=1\n. +300 due\n"
        )
        answers += "= clear\ndce timeout T12 ch=1\n! 10\n. +300 due\n"
        self.begin(
            answers + "= clear\ndce timeout T12 ch=1\ndte clear ch=1\n. off due\n",
            "--t3",
            "0",
            "--t22",
            "0.3",
            "--stay",
        )
        self.sends(UA)
        self.sends(CALLED)
        self.asked(4)
        self.child.terminate()
        notices = self.end()[1]
        self.assertEqual(
            notices.count("# T12 has passed: the reset of channel 1 isn't confirmed"), 2
        )
        self.assertIn("# what is asked as a timer passed is refused: 256 packets wait", notices)

    def test_sabme_is_answered_by_dm(self):
        """Where the station is down and reads packets in all forms: it is asked what it answers
        DISC by."""
        sabme, disc = (sealed(bytes([3, control])) for control in (0x7F, 0x53))
        dm = "> " + sealed(bytes([3, 0x1F])).hex()
        for words, heard, answered in (([], disc, [dm]), (["--no-wide"], sabme, [])):
            with self.subTest(words):
                self.begin(
                    "\n".join([". off idle", f"= {line(heard)}", *answered, ". off idle\n"]),
                    *words,
                )
                self.sends(line(sabme))
                self.assertEqual([self.gets() for _ in answered], answered)
                self.assertEqual(self.end(), (0, [], ""))
        # A link that comes up, or is up, has T1 or its own answer for it.
        self.begin(
            f". off idle\n= dte connect\n{SABM}\n. start busy\n= {line(sabme)}\n. on busy\n= "
            f"{UA}\ndte linkup\n. off idle\n= {line(sabme)}\n. off idle\n",
            user=b"dte connect\n",
        )
        self.gets()
        self.sends("\n".join([line(sabme), UA, line(sabme)]))
        self.assertEqual(self.end(), (0, ["dte linkup"], ""))

    def test_words_of_the_station(self):
        times = ["--t1", "1000", "--t3", "60000"]
        for words, given in (
            (
                ["--k", "3", "--long"],
                ["--k", "3", "--channels", "1", *times, "--long", "--wide", "--clock"],
            ),
            (
                ["--channels", "4", "--outgoing", "1"],
                ["--channels", "4", "--outgoing", "1", *times, "--wide", "--clock"],
            ),
            (
                ["--no-wide", "--t1", "0.0015", "--t3", "0", "--t21", "7"],
                ["--channels", "1", "--t1", "2", "--t3", "0", "--t21", "7000", "--clock"],
            ),
        ):
            parser = argparse.ArgumentParser()
            bridge.add_station_words(parser)
            bridge.add_line_words(parser)
            self.assertEqual(bridge.station_words(parser.parse_args(["dte", *words])), given)

    def test_trace_and_stats(self):
        trace = os.path.join(self.folder, "trace")
        self.begin(
            f". off busy\n= dte connect\n{SABM}\n. start busy\n= {UA}\ndte linkup\n. off idle\n",
            "--trace",
            trace,
            "--stats",
            "--t1",
            "60",
            user=b"dte connect\n",
        )
        self.gets()
        self.sends(UA)
        self.assertEqual(
            self.end()[2],
            "bridge.py: frames: 1 sent, 1 came; 0 + 0 lost, 0 + 0 damaged; T1 fired 0 times\n",
        )
        with open(trace, "rb") as file:
            frames = [x25lines.frame_line(row.rstrip(b"\n")) for row in file]
        self.assertEqual([frame.text() for frame in frames], [SABM, UA])
        self.assertLess(abs(frames[0].time / 1e9 - time.time()), 60)

    def test_losses(self):
        trace = os.path.join(self.folder, "trace")
        self.begin(
            f". off busy\n= dte connect\n{SABM}\n. off busy\n",
            "--lose",
            "1",
            "--trace",
            trace,
            user=b"dte connect\n",
        )
        self.sends(UA)
        self.assertEqual(self.gets(), "")
        self.assertEqual(self.end()[0], 0)
        self.assertEqual([event for _, event in self.asked()], ["dte connect"])
        with open(trace) as file:
            self.assertEqual(sorted(row.rstrip("\n").split("\t")[1] for row in file), [UA, SABM])

    def test_losses_that_heal(self):
        answers = (
            f". off busy\n= dte connect\n{SABM}\n. start busy\n= t1 dte\n{SABM}\n. start busy\n= "
            f"{UA}\ndte linkup\n. off idle\n"
        )
        self.begin(answers, "--lose", "1", "--heal", "--t1", "2", "--stats", user=b"dte connect\n")
        self.assertEqual(self.gets(), SABM)
        self.sends(UA)
        said = "bridge.py: frames: 2 sent, 1 came; 1 + 0 lost, 0 + 0 damaged; T1 fired 1 times\n"
        self.assertEqual(self.end(), (0, ["dte linkup"], said))
        self.assertEqual([event for _, event in self.asked()], ["dte connect", "t1 dte", UA])

    def test_damage(self):
        self.begin(
            f". off busy\n= dte connect\n{SABM}\n. off busy\n",
            "--damage",
            "1",
            user=b"dte connect\n",
        )
        octets = x25lines.frame_line(self.gets().encode()).octets
        self.assertEqual(len(octets), 4)
        self.assertFalse(x25lines.is_sealed(octets))
        self.assertEqual(self.end()[0], 0)


class Processes(Steps, ToolCase):
    """What has to be a process: its memory, its signals, what its station says, many octets."""

    sleep = staticmethod(time.sleep)

    def started(self, *words):
        command = [sys.executable, os.path.join(support.TOOLS, "bridge.py"), *words]
        child = subprocess.Popen(
            command,
            stdin=subprocess.PIPE,
            stdout=subprocess.PIPE,
            stderr=subprocess.PIPE,
            text=True,
        )
        self.addCleanup(self.ended, child)
        return child

    @staticmethod
    def ended(child):
        child.kill()
        child.wait()
        for pipe in (child.stdin, child.stdout, child.stderr):
            with contextlib.suppress(BrokenPipeError):
                pipe.close()

    def lines_of(self, line):
        lines = line.makefile("r")
        self.addCleanup(lines.close)
        return lines

    def test_ten_million_octets_without_a_line_end(self):
        self.begin(
            ". off idle\n= dte connect\n. off idle\n", user=b"a" * 10_000_000 + b"\ndte connect\n"
        )
        status, notices, _ = self.end()
        self.assertEqual((status, notices[0]), (1, "? 60"))
        self.assertIn("131,264 characters", notices[1])
        self.assertEqual(len(self.asked()), 1)

    def test_clients_of_other_protocols(self):
        """They are closed, and the next one is served: octets of another protocol, ten million
        without a line end, a scan of ports."""
        self.begin(f". off idle\n= {UA}\n. off idle\n", "--stay")
        for octets in (
            b"GET / HTTP/1.1\r\n\r\n", b"\x16\x03\x01" * 100 + b"\n", b"a" * 10_000_000, b""
        ):
            with contextlib.suppress(ConnectionResetError, BrokenPipeError):
                self.line.sendall(octets)
                self.line.shutdown(socket.SHUT_WR)
                self.line.recv(100)
            self.again()
        self.sends(UA)
        self.assertEqual(len(self.asked(1)), 1)
        self.child.terminate()
        notices = self.end()[1]
        self.assertEqual(len(notices), 4)
        self.assertIn("'GET / HTTP/1.1', which is no line of a trace", notices[0])
        self.assertIn("more characters than a line of a trace may have", notices[2])

    def test_a_thousand_clients(self):
        self.begin(f". off idle\n= {UA}\n. off idle\n", "--stay")
        memory = self.memory()
        for _ in range(1000):
            self.again()
        self.sends(UA)
        self.assertEqual(len(self.asked(1)), 1)
        self.assertLess(self.memory(), memory + 4000)
        self.child.terminate()
        self.assertEqual(self.end()[0], 143)

    def memory(self):
        """How much memory the bridge has, in kilobytes."""
        return int(
            re.search(
                r"VmRSS:\s*(\d+)", support.read(f"/proc/{self.child.pid}/status").decode()
            )[1]
        )

    def test_a_client_that_does_not_read(self):
        """Commands wait while a megabyte and what the system holds stands unsent; they go on once
        it is read."""
        count = 1500
        frame = sealed(bytes(4000)).hex()
        answer = f"= dte send 1 0 41\n> {frame}\n. off busy\n"
        self.begin(". off busy\n" + count * answer, "--stay", user=count * b"dte send 1 0 41\n")
        waiting = 0
        while waiting != len(self.asked(1)):
            waiting = len(self.asked())
            self.sleep(0.3)
        self.assertLess(waiting, count)
        self.assertLess(self.memory(), 60_000)
        for _ in range(count):
            self.assertEqual(self.gets(), f"> {frame}")
        self.assertEqual(len(self.asked(count)), count)
        self.child.terminate()
        self.assertEqual(self.end()[0], 143)

    def test_two_bridges_on_one_port(self):
        self.begin(". off idle\n", "--stay")
        place = "{}:{}".format(*self.place)
        with socket.socket(socket.AF_INET, socket.SOCK_DGRAM) as taken:
            taken.bind(("127.0.0.1", 0))
            port = taken.getsockname()[1]
            for words, named in (
                (["--listen", place], place),
                (["--xot-listen", place], place),
                (["--udp", f"{port}:1"], f"127.0.0.1:{port}"),
            ):
                done = support.run("bridge.py", "dce", *words, "--x25", self.program)
                self.assert_refused(done, f"{named}: Address already in use")
        self.child.terminate()
        self.end()

    def test_signals_end_the_link(self):
        self.addCleanup(signal.signal, signal.SIGHUP, signal.signal(signal.SIGHUP, signal.SIG_DFL))
        for number, status in ((signal.SIGTERM, 143), (signal.SIGINT, 130), (signal.SIGHUP, 129)):
            with self.subTest(number):
                self.begin(
                    f". off busy\n= {UA}\ndte linkup\n. off idle\n= dte disconnect\ndte "
                    f"disconnect\ndte linkdown local\n{DISC}\n. off busy\n= {UA}\n. off busy\n",
                    "--t1",
                    "60",
                    "--stay",
                )
                self.sends(UA)
                self.asked(1)
                self.child.send_signal(number)
                self.assertEqual(self.gets(), DISC)
                self.sends(UA)
                self.assertEqual(
                    self.end(),
                    (status, ["dte linkup", "dte disconnect", "dte linkdown local"], ""),
                )

    def test_a_bridge_that_leaves_sleeps(self):
        """Also where a `wait` that comes to nothing is first among the commands, and nobody
        answers DISC."""
        self.begin(
            f". off busy\n= {UA}\ndte linkup\n. off idle\n= dte disconnect\ndte disconnect\n"
            f"{DISC}\n. off busy\n",
            "--t1",
            "2",
            "--stay",
            user=b"wait dte linkup\nwait dte cleared\n",
            is_left_open=True,
        )
        self.sends(UA)
        self.asked(1)
        self.sleep(0.3)
        self.child.terminate()
        self.gets()
        begin = self.processor_time()
        self.sleep(1)
        self.assertLess(self.processor_time() - begin, 0.3)
        self.assertEqual(self.end()[0], 143)

    def processor_time(self):
        """How long the bridge has had a processor, in seconds."""
        fields = support.read(f"/proc/{self.child.pid}/stat").decode().rpartition(")")[2].split()
        return (int(fields[11]) + int(fields[12])) / os.sysconf("SC_CLK_TCK")

    def test_a_second_signal_ends_it_at_once(self):
        self.begin(
            f". off busy\n= {UA}\ndte linkup\n. off idle\n= dte disconnect\ndte disconnect\n"
            f"{DISC}\n. off busy\n",
            "--t1",
            "60",
            "--stay",
        )
        self.sends(UA)
        self.asked(1)
        self.child.terminate()
        self.gets()
        self.child.terminate()
        self.assertEqual(self.end()[0], -signal.SIGTERM)

    def test_connect_behind_disconnect_begins_a_new_station(self):
        """Once DISC is answered, or T1 has passed, as an answer that comes later would be taken
        for one to SABM."""
        for answer in (UA, "< 010f68ee", None):
            with self.subTest(answer):
                dead = "dte connect\n! 13\n. off busy\n"
                answers = f". off busy\n= dte disconnect\ndte disconnect\n{DISC}\n. off busy\n" + (
                    f"= {answer}\n. off busy\n= " if answer else "= "
                ) + dead
                self.begin(
                    answers, "--t1", "60" if answer else "3", user=b"dte disconnect\ndte connect\n"
                )
                self.assertEqual(self.gets(), DISC)
                self.sleep(0.5)
                self.assertEqual([event for _, event in self.asked()], ["dte disconnect"])
                if answer:
                    self.sends(answer)
                # The new station reads the same answers, and is asked for something else than the
                # first of them.
                status, notices, said = self.end()
                self.assertEqual((status, notices[:2]), (1, ["dte disconnect", "? 60"]))
                self.assertIn("asked 'dte connect' for 'dte disconnect'", said)
                self.assertEqual([event for _, event in self.asked()], ["dte connect"])

    def test_a_reader_of_notices_that_stalls(self):
        """T1 and frames go on, the channel by which messages come is held, and comes again when
        the reader has read."""
        frames = [line(sealed(bytes([3, 0, number]))) for number in range(120)]
        message = f"dte message ch=2 at 1.0.0 q=0 data={'41' * 2000}"
        # What stands in the pipe, which holds one, and in the bridge when it holds the channel.
        count = -(-(len(message) + 1 + users.SLOW) // (len(message) + 1))
        answers = ". off busy\n= dte connect\n. start busy\n"
        for number, frame in enumerate(frames):
            answers += f"= {frame}\n{message}\n. on busy\n"
            if number + 1 == count:
                answers += "= dte notready 2\ndte notready ch=2\n. on busy\n"
        # T1 fires in the midst of it.
        self.begin(
            answers + "= t1 dte\n. off busy\n= dte ready 2\ndte ready ch=2\n. off idle\n",
            "--t1",
            "4",
            "--stay",
            user=b"dte connect\n",
        )
        fcntl.fcntl(self.child.stdout, 1031, 4096)  # F_SETPIPE_SZ of Linux
        self.assertEqual(self.child.stdout.readline(), f"{self.come.pop()}\n")
        self.asked(1)
        for frame in frames:
            self.sends(frame)
        events = [event for _, event in self.asked(123)]
        self.assertEqual(
            (events[count + 1], events[-1], len(events)), ("dte notready 2", "t1 dte", 123)
        )
        notices = [self.child.stdout.readline().rstrip("\n") for _ in range(122)]
        self.assertEqual(notices.count(message), 120)
        self.assertEqual(
            [it for it in notices if it != message],
            ["# notices wait to be read: channel 2 is held", "dte notready ch=2"],
        )
        self.assertEqual([event for _, event in self.asked(124)][-1], "dte ready 2")
        self.child.terminate()
        self.end()

    def test_an_answer_that_is_none(self):
        for answer in ("hello", ". off", ". on idle idle"):
            with self.subTest(answer):
                self.begin(f". off busy\n= dte connect\n{answer}\n", user=b"dte connect\n")
                self.assertEqual(self.end()[0], 2)


def started(*words):
    """A bridge as a process."""
    command = [sys.executable, os.path.join(support.TOOLS, "bridge.py"), *words]
    return subprocess.Popen(
        command, stdin=subprocess.PIPE, stdout=subprocess.PIPE, stderr=subprocess.PIPE
    )


class Other(ToolCase):
    """Lines that aren't TCP, and programs that aren't there."""

    def program(self, answers):
        path = self.file(
            "x25",
            f'#!/bin/sh\nexec "{sys.executable}" "{FAKE}" '
            f'"{self.file("answers", answers.encode())}" "$@"\n'.encode(),
        )
        os.chmod(path, 0o755)
        return path

    def test_standard_input_and_output(self):
        program = self.program(
            f". off busy\n= dte connect\ndte connect\n{SABM}\n. start busy\n= {UA}\ndte linkup\n. "
            "off idle\n"
        )
        commands = self.file("commands", b"dte connect\n")
        child = started(
            "dte", "--stdio", "--t1", "60", "--quiet", "0.2", "--commands", commands, "--x25",
            program,
        )
        with child.stdin, child.stdout, child.stderr:
            self.assertEqual(child.stdout.readline().decode(), f"{SABM}\n")
            child.stdin.write(f"{UA}\n".encode())
            child.stdin.flush()
            self.assertEqual(
                (child.stdout.read(), child.stderr.read().decode(), child.wait(10)),
                (b"", "dte connect\ndte linkup\n", 0),
            )

    def test_no_program(self):
        self.assert_refused(
            support.run("bridge.py", "dte", "--udp", "0:1", "--x25", "/nowhere/x25"),
            "/nowhere/x25",
        )
        self.assert_refused(
            support.run("bridge.py", "dte", "--listen", "0", "--x25", "/bin/false"),
            "without a mark",
        )

    def test_a_first_mark_that_is_none(self):
        for answer in (". off", ". maybe idle", "hello", ". 1x idle"):
            with self.subTest(answer):
                self.assertEqual(
                    support.run(
                        "bridge.py", "dte", "--udp", "0:1", "--x25", self.program(f"{answer}\n")
                    ).returncode,
                    2,
                )

    def test_no_file(self):
        for word in ("--commands", "--trace", "--notices"):
            self.assert_refused(
                support.run("bridge.py", "dte", "--udp", "0:1", word, "/nowhere/file"),
                "/nowhere/file",
            )

    def test_a_file_that_is_full_is_named(self):
        program = self.program(f". off busy\n= dte connect\ndte connect\n{SABM}\n. off idle\n")
        commands = self.file("commands", b"dte connect\n")
        for word in ("--trace", "--notices"):
            done = support.run(
                "bridge.py", "dte", "--udp", "0:1", word, "/dev/full", "--commands", commands,
                "--x25", program,
            )
            self.assertEqual(
                (done.returncode, done.stderr.splitlines()[-1]),
                (2, b"bridge.py: /dev/full: No space left on device"),
            )

    def test_a_standard_file_that_is_closed_is_an_empty_one(self):
        program = self.program(f". off busy\n= dte connect\ndte connect\n{SABM}\n. off idle\n")
        words = [
            "dte",
            "--udp",
            "0:1",
            "--x25",
            program,
            "--quiet",
            "0.2",
            "--commands",
            self.file("commands", b"dte connect\n"),
        ]
        for number in range(3):
            command = [sys.executable, os.path.join(support.TOOLS, "bridge.py"), *words]
            done = subprocess.run(
                command,
                stdin=subprocess.DEVNULL,
                capture_output=True,
                timeout=60,
                preexec_fn=lambda: os.close(number),
            )
            self.assertEqual(
                (done.returncode, done.stdout),
                (0, b"" if number == 1 else b"dte connect\n"),
                done.stderr,
            )

    def test_it_calls_again_and_again(self):
        program = self.program(f". off busy\n= {UA}\n. off idle\n= {RESTART}\n. off idle\n")
        with socket.socket() as free:
            free.bind(("127.0.0.1", 0))
            place = free.getsockname()
        child = started(
            "dte",
            "--connect",
            "localhost:{}".format(place[1]),
            "--retry",
            "--stay",
            "--x25",
            program,
        )
        self.addCleanup(child.kill)
        with child.stdin, child.stdout, child.stderr:
            self.assertEqual(
                child.stdout.readline().decode(),
                f"# no connection to localhost:{place[1]} yet: Connection refused\n",
            )
            time.sleep(0.5)
            with socket.create_server(place) as server:
                for frame in (UA, RESTART):
                    with server.accept()[0] as line:
                        self.assertEqual(
                            child.stdout.readline().decode(),
                            f"# connected to 127.0.0.1:{place[1]}\n",
                        )
                        line.sendall(f"{frame}\n".encode())
                        line.shutdown(socket.SHUT_WR)
                        self.assertEqual(
                            child.stdout.readline(),
                            b"# the connection has ended: the other end has closed it\n",
                        )
            child.terminate()
            self.assertEqual((child.wait(10), child.stderr.read()), (143, b""))

    def test_nobody_listens(self):
        with mock.patch.object(wires, "PATIENCE", 0.5):
            wire = wires.Calling("dte", self.fail, ("127.0.0.1", 1), 60, False)
        self.addCleanup(wire.close)
        last = time.monotonic() + 10
        with self.assertRaisesRegex(x25lines.BadInput, "127.0.0.1:1: Connection refused"):
            while time.monotonic() < last:
                list(wire.frames(wire.writers()))
                time.sleep(0.02)

    def test_the_pause_grows(self):
        wire = wires.Calling("dte", lambda text: None, ("127.0.0.1", 1), 60, True)
        self.addCleanup(wire.close)
        pauses = []
        with mock.patch.object(time, "monotonic", lambda: sum(pauses)):
            for _ in range(12):
                wire.due = 0
                list(wire.frames([]))
                while wire.writers():
                    list(wire.frames(wire.writers()))
                pauses.append(wire.due - sum(pauses))
        self.assertEqual(
            [round(it, 1) for it in pauses],
            [0.1, 0.2, 0.4, 0.8, 1.6, 3.2, 6.4, 12.8, 25.6, 30, 30, 30],
        )

    @unittest.skipUnless(hasattr(socket, "TCP_KEEPIDLE"), "no keepalive that can be set")
    def test_the_system_asks_whether_the_other_end_is_there(self):
        for t3, kept in ((30, (1, 30)), (0, (0, None))):
            with self.subTest(t3), socket.socket() as opened:
                tcp.Connection(opened, t3)
                self.assertEqual(
                    opened.getsockopt(socket.SOL_SOCKET, socket.SO_KEEPALIVE), kept[0]
                )
                if t3:
                    self.assertEqual(
                        opened.getsockopt(socket.IPPROTO_TCP, socket.TCP_KEEPIDLE), kept[1]
                    )

    def test_datagrams_of_ipv6(self):
        with socket.socket(socket.AF_INET6, socket.SOCK_DGRAM) as peer:
            try:
                peer.bind(("::1", 0))
            except OSError:
                self.skipTest("no IPv6")
            peer.settimeout(10)
            program = self.program(f". off busy\n= dte connect\n{SABM}\n. off idle\n")
            child = started(
                "dte", "--udp", f"0:[::1]:{peer.getsockname()[1]}", "--quiet", "0.2", "--x25",
                program,
            )
            with child.stdout, child.stderr:
                child.stdin.write(b"dte connect\n")
                child.stdin.close()
                self.assertEqual(peer.recvfrom(2000)[1][0], "::1")
                self.assertRegex(child.stderr.read(), rb"bound to \[::1\]:\d+\n\Z")
                child.wait(10)

    def test_datagrams(self):
        peer = socket.socket(socket.AF_INET, socket.SOCK_DGRAM)
        self.addCleanup(peer.close)
        peer.bind(("127.0.0.1", 0))
        peer.settimeout(10)
        program = self.program(
            f". off busy\n= dte connect\n{SABM}\n. start busy\n= {UA}\ndte linkup\n. off idle\n"
        )
        child = started(
            "dte", "--udp", f"0:{peer.getsockname()[1]}", "--t1", "60", "--quiet", "0.2", "--x25",
            program,
        )
        child.stdin.write(b"dte connect\n")
        child.stdin.close()
        octets, sender = peer.recvfrom(2000)
        self.assertEqual(line(wires.carried_frame(octets)), SABM.replace(">", "<"))
        peer.sendto(bytes(60), sender)
        peer.sendto(wires.ethernet_frame(bytes(6), bytes.fromhex("0173")), sender)
        with child.stdout as out, child.stderr as said:
            self.assertEqual((out.read(), child.wait(10)), (b"dte linkup\n", 0))
            self.assertRegex(said.read(), rb"\Abridge.py: bound to 127\.0\.0\.1:\d+\n\Z")


if __name__ == "__main__":
    unittest.main()
