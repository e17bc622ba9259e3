"""Tests of x25pad.py: what is typed and what comes, character by character; and two of them over
two bridges, one at a terminal."""

import argparse
import contextlib
import io
import os
import re
import signal
import socket
import subprocess
import time
import unittest
from unittest import mock

import support
from support import ToolCase
from terminal import Terminal, script
from tunnels import free_ports

from x25tools import x25pad

CALL = "dte call 123 - 01000000"
COM = "dte call ch=1 at 1.0.0 called=123 calling=- data=01000000", "dte connected ch=1"
MESSAGE = "dte message ch=1 at 1.0.0 q="


class Seen(x25pad.Face):
    """A terminal whose screen is kept."""

    def __init__(self):
        super().__init__(True)
        self.octets = b""

    def write(self, octets):
        self.octets += octets


class Half(unittest.TestCase):
    """A PAD alone, the DTE's; the test is its user and its bridge."""

    def begin(self, *lines, **initial):
        self.face = Seen()
        self.pad = x25pad.Pad("dte", "-", {6: 5}, self.face)
        self.comes("dte restarted cause=0 diag=0", *lines)
        self.asked()

    def types(self, text):
        for octet in text.encode():
            self.pad.types(octet)

    def comes(self, *lines):
        for line in lines:
            self.pad.heeds(line)

    def asked(self):
        """What the bridge is asked, since the last time."""
        lines = self.pad.asks.decode().splitlines()
        self.pad.asks.clear()
        return lines

    def seen(self):
        """What was shown since the last time."""
        octets, self.face.octets = self.face.octets, b""
        return octets.decode()

    def connect(self):
        self.begin()
        self.types("123\r")
        self.comes(*COM)
        self.assertEqual((self.asked(), self.pad.stage), ([CALL], "open"))
        self.seen()

    def test_a_call_and_its_end(self):
        self.begin()
        self.assertEqual(self.seen(), "*")
        self.types("stat\r123\r")
        self.comes(*COM)
        self.assertEqual((self.asked(), self.seen()), ([CALL], "stat\r\nFREE\r\n*123\r\nCOM\r\n"))
        self.types("hi\r")
        self.comes(MESSAGE + "0 data=6f6b0d0a")
        self.types("\x10STAT\r\x10clr\r")
        self.assertEqual(
            (self.asked(), self.pad.stage), (["dte send 1 0 68690d", "dte clear 1"], "clearing")
        )
        self.comes("dte clear ch=1", "dte cleardone ch=1")
        self.assertEqual(self.seen(), "hi\rok\r\n*STAT\r\nENGAGED\r\n*clr\r\nCLR CONF\r\n*")
        self.assertEqual((self.pad.stage, self.pad.status), ("free", 0))

    def test_user_data_of_a_call(self):
        spaced = ("123 D hi", "6869"), ("123  d  hi", "6869"), ("123 D", "")
        for typed, data in (
            *spaced,
            ("123", ""),
            ("123Dhi", "6869"),
            ("123pHi", "4869"),
            ("123D", ""),
            ("123D ü", "20c3bc"),
        ):
            with self.subTest(typed):
                self.begin()
                self.types(f"{typed}\r")
                self.assertEqual(self.asked(), [CALL + data])

    def test_facilities_of_a_call(self):
        for typed, asked in (
            ("R-123", "with 0101 - call 123 - 01000000"),
            ("f-123D hi", "with 0180 - call 123 - 01000000206869"),
            ("f-123 D hi", "with 0180 - call 123 - 010000006869"),
            ("G07-123", "with 0307 - call 123 - 01000000"),
            ("r,F,g1234-123", "with 0181471234 - call 123 - 01000000"),
            ("123D" + 12 * "x", "call 123 - 01000000" + 12 * "78"),
            ("R,F-123D" + 124 * "x", "with 0181 - call 123 - 01000000" + 124 * "78"),
        ):
            with self.subTest(typed):
                self.begin()
                self.types(f"{typed}\r")
                self.assertEqual(self.asked(), [f"dte {asked}"])

    def test_more_text_than_a_call_has_room_for(self):
        for typed, count in (
            ("123D" + 13 * "x", 13),
            ("G07-123D" + 13 * "x", 13),
            ("R-123D" + 7 * "\u00e9", 14),
            ("F-123D" + 125 * "x", 125),
        ):
            with self.subTest(typed):
                self.begin()
                self.seen()
                for octet in f"{typed}\r".encode():
                    self.pad.types(octet)
                self.assertEqual((self.asked(), self.pad.stage, self.pad.status), ([], "free", 1))
                self.assertIn(
                    f"ERR  the text has {count} octets: 12 at most, with fast select 124",
                    self.seen(),
                )

    def test_what_comes_beside(self):
        self.begin()
        self.seen()
        self.comes(
            "dte incoming ch=1 at 1.0.0 called=1 calling=4567 data=-",
            "dte beside ch=1 fac=01010307 data=-",
            "dte accept ch=1",
        )
        self.assertEqual(
            self.seen(), "\r\n4567 COM\r\n# reverse charging, closed user group selection 07\r\n"
        )
        self.connect()
        self.comes("dte beside ch=1 fac=- data=57656c636f6d65", "dte beside ch=2 fac=0101 data=41")
        self.assertEqual(self.seen(), "Welcome")
        self.comes("dte cleared ch=1 cause=0 diag=0", "dte beside ch=1 fac=- data=62757379")
        self.assertEqual(self.seen(), "\r\nCLR DTE C:0 D:0\r\n*\r\n# 'busy'\r\n*")

    def test_calls_that_come_to_nothing(self):
        for lines, said in (
            (("dte call ch=1 at 1.0.0", "dte cleared ch=1 cause=13 diag=67"), "CLR NP C:13 D:67"),
            (("dte call ch=1 at 1.0.0", "dte cleared ch=1 cause=0 diag=0"), "CLR DTE C:0 D:0"),
            (("dte call ch=1 at 1.0.0", "dte collided ch=1"), "CLR OCC  both ends called"),
            (
                ("dte call ch=1 at 1.0.0", "dte fault ch=1 diag=20", "dte cleardone ch=1"),
                "CLR ERR",
            ),
            (
                ("! 41", "# ! 41, no channel is free: 'dte call 123'"),
                "# ! 41, no channel is free: 'dte call 123'",
            ),
        ):
            with self.subTest(said):
                self.begin()
                self.types("123\r")
                self.seen()
                self.comes(*lines)
                self.assertEqual((self.seen(), self.pad.stage), (f"{said}\r\n*", "free"))

    def test_calls_that_come(self):
        for data, calling, said, asked in (
            ("01000000", "4567", "4567 COM", ["accept 2", "send 2 1 020d04"]),
            ("-", "-", "COM", ["accept 2"]),
            ("cc", "4567", "# a call of 4567 with the user data cc is refused", ["clear 2"]),
        ):
            with self.subTest(data):
                self.begin()
                self.seen()
                self.comes(
                    f"dte incoming ch=2 at 1.0.0 called=1 calling={calling} data={data}",
                    "dte accept ch=2",
                )
                asked = [f"dte {it}" for it in asked]
                self.assertEqual((self.seen().split("\r\n")[1], self.asked()), (said, asked))
        self.connect()
        self.comes(
            "dte incoming ch=2 at 1.0.0 called=1 calling=2 data=01",
            "dte clear ch=2",
            "dte cleardone ch=2",
        )
        self.assertEqual((self.asked(), self.pad.stage), (["dte clear 2"], "open"))

    def test_the_user_data_of_a_call_that_comes_is_shown(self):
        self.begin()
        self.seen()
        self.comes("dte incoming ch=2 at 1.0.0 called=1 calling=4567 data=010000006869c3bc")
        self.assertEqual(self.seen(), "\r\n4567 COM\r\n# user data: 'hiü'\r\n")

    def test_lines_of_two_pads_stand_below_each_other(self):
        """The one that is called has parameter 13 so, and asks it of the other; not where its user
        has said what it is. After the call it is as before."""
        incoming = "dte incoming ch=2 at 1.0.0 called=1 calling=- data=01000000"
        self.begin(incoming)
        self.assertEqual(self.pad.parameters[13], 7)
        self.seen()
        self.comes("dte message ch=2 at 1.0.0 q=0 data=61620d")
        self.types("cd\r")
        self.assertEqual((self.seen(), self.asked()), ("ab\r\ncd\r\n", ["dte send 2 0 63640d0a"]))
        self.comes("dte cleared ch=2 cause=0 diag=0")
        self.assertEqual(self.pad.parameters[13], 0)
        self.face = Seen()
        self.pad = x25pad.Pad("dte", "-", {6: 5, 13: 2}, self.face)
        self.comes("dte restarted cause=0 diag=0", incoming)
        self.assertEqual((self.pad.parameters[13], self.asked()), (2, ["dte accept 2"]))

    def test_what_people_type_at_other_terminals(self):
        self.begin()
        for typed, said in (
            ("exit", "ERR  'exit' is no command: QUIT ends"),
            ("call 4567", "ERR  'call 4567' is no command: an address alone calls, as 4567"),
            ("disconnect", "ERR  'disconnect' is no command: CLR clears the call"),
            ("?", x25pad.HELP.replace("\n", "\r\n")),
        ):
            with self.subTest(typed):
                self.seen()
                self.types(f"{typed}\r")
                self.assertEqual(self.seen(), f"{typed}\r\n{said}\r\n*")

    def test_what_is_no_command(self):
        self.begin()
        for typed, said in (
            ("foo", "'foo' is no command: HELP shows them"),
            ("1234567890123456", "'1234567890123456' is no command: HELP shows them"),
            ("G1-123", "'G1-123' is no command: HELP shows them"),
            ("R,-123", "'R,-123' is no command: HELP shows them"),
            ("stat 1", "'stat 1' is no command: HELP shows them"),
            ("prof 2", "'prof 2' is no command: HELP shows them"),
            ("clr", "there is no call"),
            ("rset 2:0", "there is no call"),
            ("set", "'' are no parameters, as 2,3 to show and 2:0,3:2 to set"),
            ("set 2", "'2' are no parameters, as 2,3 to show and 2:0,3:2 to set"),
            ("set 2:256", "'2:256' are no parameters, as 2,3 to show and 2:0,3:2 to set"),
            ("set 128:1", "'128:1' are no parameters, as 2,3 to show and 2:0,3:2 to set"),
            ("par? 2:0", "'2:0' are no parameters, as 2,3 to show and 2:0,3:2 to set"),
        ):
            with self.subTest(typed):
                self.seen()
                self.types(f"{typed}\r")
                self.assertEqual(self.seen(), f"{typed}\r\nERR  {said}\r\n*")
        self.assertEqual((self.asked(), self.pad.status), ([], 1))
        self.comes("dte linkdown retries")
        self.types("123\r")
        self.assertTrue(self.seen().endswith("\r\nERR  the link isn't up\r\n"))

    def test_parameters(self):
        self.begin()
        for typed, said in (
            ("par? 1,2 ,3", "PAR 1:1,2:1,3:126"),
            ("SET? 2:0,3:2", "PAR 2:0,3:2"),
            ("set 4=255", ""),
            ("PAR?4", "PAR 4:255"),
            ("set 9:1,99:0,11:3,2:1", "PAR 9:INV,99:INV,11:INV"),
            ("par? 2,77", "PAR 2:1,77:INV"),
            ("prof 91", ""),
            ("set 6:5", ""),
            ("par? 1,2,3,4", "PAR 1:0,2:0,3:0,4:20"),
            ("prof 90", ""),
            (
                "par?",
                "PAR 1:1,2:1,3:126,4:0,5:0,6:5,7:2,8:0,9:0,10:0,11:14,12:0,13:0,14:0,15:0,16:127,"
                "17:24,18:18,19:2,20:0,21:0,22:0",
            ),
        ):
            with self.subTest(typed):
                self.seen()
                self.types(f"{typed}\r")
                self.assertEqual(
                    [line for line in self.seen().split("\r\n") if line.startswith("PAR ")],
                    [said] if said else [],
                )
        self.types("help\r")
        shown = self.seen()
        for name in (
            "STAT", "CLR", "ICLR", "INT", "RESET", "BREAK", "PAR?", "SET", "SET?", "PROF 90",
            "RPAR?", "RSET", "RSET?", "QUIT",
        ):
            self.assertIn(name, shown)

    def test_what_forwards(self):
        every = bytes(range(128)).decode()
        for value, octets in (
            (0, ""),
            (1, "0-9A-Za-z"),
            (2, "\r"),
            (4, "\x1b\x07\x05\x06"),
            (8, "\x7f\x18\x12"),
            (16, "\x03\x04"),
            (32, "\t\n\x0b\x0c"),
            (64, "\0-\x02\x08\x0e-\x11\x13-\x17\x19\x1a\x1c-\x1f"),
        ):
            with self.subTest(value):
                self.connect()
                self.pad.parameters.update({1: 0, 3: value})
                self.types(every)
                self.pad.forward()
                sent = [bytes.fromhex(line.split(" ")[-1]).decode() for line in self.asked()]
                self.assertEqual("".join(sent), every)
                wanted = re.findall(f"[{octets}]", every) if octets else []
                self.assertEqual([text[-1] for text in sent[: len(wanted)]], wanted)
                self.assertLessEqual(len(sent), len(wanted) + 1)

    def test_a_full_packet_and_the_idle_timer_forward(self):
        self.connect()
        self.pad.parameters.update({3: 0})
        self.types("a" * 130)
        self.assertEqual((self.asked(), self.pad.due), (["dte send 1 0 " + "61" * 128], None))
        self.pad.parameters.update({4: 10})
        with mock.patch.object(time, "monotonic", lambda: 100.0):
            self.types("b")
        self.assertEqual(self.pad.due, 100.5)
        self.pad.forward()
        self.assertEqual((self.asked(), self.pad.due), (["dte send 1 0 616162"], None))
        self.pad.parameters.update({15: 1})
        self.types("c")
        self.assertIsNone(self.pad.due)

    def test_editing(self):
        self.begin()
        self.types("12x\x7f3\x18\x7f123\x12")
        self.assertEqual(self.seen(), "*12x\b \b3\b \b\b \b\b \b123\r\n123")
        self.types("\r")
        self.comes(*COM)
        self.assertEqual(self.asked(), [CALL])
        self.types("a\x7f\r")
        self.pad.parameters.update({15: 1})
        self.types("ab\x7fc\r")
        self.pad.parameters.update({2: 0})
        self.seen()
        self.types("no\x18yes\r")
        self.assertEqual(
            (self.asked(), self.seen()),
            (
                [
                    "dte send 1 0 617f",
                    "dte send 1 0 0d",
                    "dte send 1 0 61630d",
                    "dte send 1 0 7965730d",
                ],
                "",
            ),
        )

    def test_line_feeds(self):
        self.connect()
        self.pad.parameters.update({13: 7})
        self.types("a\r")
        self.comes(MESSAGE + "0 data=410d42")
        self.assertEqual((self.asked(), self.seen()), (["dte send 1 0 610d0a"], "a\r\nA\r\nB"))

    def test_the_way_back_to_a_command(self):
        self.connect()
        self.pad.parameters.update({1: ord("~")})
        self.types("\x10~")
        self.assertEqual((self.asked(), self.seen()), (["dte send 1 0 10"], "\x10\r\n*"))
        self.types("set 1:0\r~x\r")
        self.assertEqual(self.asked(), ["dte send 1 0 7e780d"])

    def test_break_interrupt_and_reset(self):
        for value, asked in (
            (0, []),
            (1, ["int 1 00"]),
            (2, ["reset 1"]),
            (5, ["int 1 00", "send 1 1 03"]),
            (21, ["int 1 00", "send 1 1 030801"]),
        ):
            with self.subTest(value):
                self.connect()
                self.pad.parameters.update({7: value})
                self.types("\x10break\r")
                self.assertEqual(self.asked(), [f"dte {it}" for it in asked])
        self.comes(MESSAGE + "0 data=4142", MESSAGE + "1 data=020800", MESSAGE + "0 data=43")
        self.assertEqual(self.seen(), "*break\r\nC")
        self.types("\x10int\r\x10reset\r\x10iclr\r")
        self.assertEqual(self.asked(), ["dte int 1 00", "dte reset 1", "dte send 1 1 01"])
        self.types("abc")
        self.seen()
        self.comes(
            "dte interrupt ch=1 at 1.0.0 data=00",
            "dte resetdone ch=1",
            "dte wasreset ch=1 cause=5 diag=1",
            "dte intdone ch=1",
        )
        self.types("\r")
        self.assertEqual(
            (self.seen(), self.asked()),
            ("\r\nINT\r\nRESET\r\nRESET ERR C:5 D:1\r\n\r", ["dte send 1 0 0d"]),
        )

    def test_messages_of_x29(self):
        self.connect()
        for came, answer in (
            ("0202000302", ""),
            ("04020003000400", "00020003020400"),
            ("0603040f01", "0003040f01"),
            ("020963", "008902"),
            ("026300", "00e301"),
            ("020b01", "008b04"),
            ("0409006300", "000900e301"),
            ("0602000901", "0002008902"),
            ("02", ""),
            ("0402000300", "000201037e"),
            ("0203", "050202"),
            ("-", "0500"),
            ("09ff", "050109"),
            ("07", "050107"),
            ("030801", "020800"),
            ("0502ff", ""),
            (
                "04",
                "0001010201037e0400050006050702080009000a000b0e0c000d000e000f00107f11181212130214"
                "0015001600",
            ),
        ):
            with self.subTest(came):
                self.comes(MESSAGE + f"1 data={came}")
                self.assertEqual(self.asked(), [f"dte send 1 1 {answer}"] if answer else [])
        self.assertIn(
            "BREAK\r\n# the other end takes a message of X.29 for wrong: 0502ff\r\n", self.seen()
        )
        self.comes(MESSAGE + "1 data=00020183010901")
        self.assertIn("RPAR 2:1,3:INV,9:1\r\n", self.seen())

    def test_an_invitation_to_clear(self):
        self.connect()
        self.types("x")
        self.comes(MESSAGE + "0 data=6279650d", MESSAGE + "1 data=01")
        self.assertEqual(self.asked(), ["dte send 1 0 78", "dte clear 1"])
        self.comes("dte clear ch=1", "dte cleardone ch=1")
        self.assertEqual(self.seen(), "xbye\r\r\nCLR PAD\r\n*")

    def test_the_pad_at_the_other_end(self):
        self.connect()
        self.types("\x10rpar?\r\x10rpar? 2\r\x10rset 2:0\r\x10RSET?3:2,4:0\r\x10rset\r")
        self.assertEqual(
            self.asked(),
            [
                "dte send 1 1 04",
                "dte send 1 1 040200",
                "dte send 1 1 020200",
                "dte send 1 1 0603020400",
            ],
        )

    def test_a_link_that_goes_down(self):
        self.connect()
        self.comes("dte linkdown retries")
        self.assertEqual(
            (self.seen(), self.pad.status, self.pad.has_ended),
            ("CLR DER\r\n# linkdown retries\r\n", 1, True),
        )

    def test_no_signals(self):
        self.connect()
        self.pad.parameters.update({6: 0})
        self.comes("dte cleared ch=1 cause=0 diag=0", "# the connection has ended")
        self.assertEqual(self.seen(), "# the connection has ended\r\n")


class Told(unittest.TestCase):
    """A PAD of a file, which a bridge tells several lines at once."""

    CALL = "dce restarted cause=0 diag=0\ndce incoming ch=1 at 1.0.0 called=1 calling=- data=-\n"

    def ended(self, *lines):
        """The status once these lines have come after a call."""
        face = Seen()
        face.is_terminal = False
        pad = x25pad.Pad("dce", "-", {}, face)
        (out, tells), (asked, into) = os.pipe(), os.pipe()
        with open(out, "rb") as told, open(into, "wb") as asks:
            self.addCleanup(os.close, asked)
            child = mock.Mock(stdout=told, stdin=asks, wait=lambda: 0)
            options = argparse.Namespace(answer=True, quiet=60.0)
            session = x25pad.Session(pad, face, child, options, asked)
            session._is_over = True
            os.write(tells, (self.CALL + "".join(f"dce {line}\n" for line in lines)).encode())
            os.close(tells)
            with contextlib.redirect_stderr(io.StringIO()):
                return session.run()

    def test_a_line_that_goes_after_the_call_is_no_failure(self):
        cleared = "cleared ch=1 cause=0 diag=0"
        self.assertEqual(self.ended(cleared), 0)
        self.assertEqual(self.ended(cleared, "linkdown disc"), 0)
        self.assertEqual(self.ended("linkdown disc"), 1)


@support.needs_station
class Two(ToolCase):
    """Two of them, each with its bridge and its station."""

    def begin(self, *words):
        """Runs a PAD, whose user is a file."""
        command = [*script("x25pad.py", *words), "--x25", support.PROGRAM]
        child = subprocess.Popen(
            command,
            stdin=subprocess.PIPE,
            stdout=subprocess.PIPE,
            stderr=subprocess.PIPE,
            text=True,
            bufsize=1,
        )
        self.addCleanup(self.end, child)
        return child

    @staticmethod
    def end(child):
        """Ends what still runs."""
        child.kill()
        child.wait()
        for pipe in (child.stdin, child.stdout, child.stderr):
            with contextlib.suppress(BrokenPipeError):
                pipe.close()

    def host(self, *words, line="--listen"):
        """Runs the one that is called; answers it, and its port."""
        child = self.begin("dce", line, "0", "--answer", *words)
        while "listening on" not in (said := child.stderr.readline()):
            self.assertTrue(said)
        return child, re.search(r":(\d+)$", said)[1]

    def test_text_both_ways(self):
        for near, far, sizes in (
            ("--connect", "--listen", ""),
            ("--xot", "--xot-listen", "packet size 128/128, window size 2/2, "),
        ):
            with self.subTest(near):
                host, port = self.host("--set", "13:2", "--quiet", "60", line=far)
                caller = self.begin("dte", near, f"127.0.0.1:{port}", "--address", "4567")
                host.stdin.write("Welcome\nto all\n")
                host.stdin.close()
                caller.stdin.write(f"R,F,G07-123D{124 * 'h'}\nhello\nhost")
                caller.stdin.close()
                self.assertEqual((caller.stdout.read(), caller.wait(60)), ("Welcome\nto all\n", 0))
                self.assertEqual((host.stdout.read(), host.wait(60)), ("hello\nhost", 0))
                self.assertEqual(
                    re.findall("^[A-Z0-9].*", caller.stderr.read(), re.MULTILINE),
                    ["COM", "CLR CONF"],
                )
                asked = "reverse charging and fast select without restriction"
                asked += ", closed user group selection 07"
                told = f"4567 COM\n# user data: {124 * 'h'!r}\n# {sizes}{asked}\nCLR DTE C:0 D:0\n"
                self.assertIn(told, host.stderr.read())

    def test_a_command_for_each_call(self):
        """Two at once: each has its own, who calls and the user data; lines end as a PAD has
        them."""
        command = (
            'echo "$X25_CALLING to $X25_CALLED: $X25_DATA"; while read a; do echo "<$a>"; done'
        )
        words = "--channels", "2", "--stay", "--serve", command
        host, port = self.host(*words, line="--xot-listen")
        callers = [
            self.begin("dte", "--xot", f"127.0.0.1:{port}", "--address", it, "--quiet", "9")
            for it in "45"
        ]
        for caller in callers:
            caller.stdin.write("123 D hi\none\n")
            caller.stdin.flush()
        for caller, who in zip(callers, "45"):
            self.assertEqual(caller.stdout.readline(), f"{who} to 123: 6869\n")
            self.assertEqual(caller.stdout.readline(), "<one>\n")
        for caller in callers:
            caller.stdin.write("two\n")
            caller.stdin.close()
            self.assertEqual((caller.stdout.read(), caller.wait(60)), ("<two>\n", 0))
        host.terminate()
        self.assertEqual(host.wait(60), 143)

    def test_the_end_of_a_command_clears_its_call(self):
        """All that it has written comes before."""
        words = "--stay", "--serve", "head -c 20000 /dev/zero | tr '\\0' x; exit 3"
        host, port = self.host(*words, line="--xot-listen")
        for _ in range(2):
            caller = self.begin("dte", "--xot", f"127.0.0.1:{port}", "--quiet", "60")
            caller.stdin.write("123\n")
            caller.stdin.close()
            self.assertEqual((len(caller.stdout.read()), caller.wait(60)), (20_000, 0))
            self.assertIn("CLR PAD\n", caller.stderr.read())

    def test_the_end_of_a_call_ends_its_command(self):
        mark = os.path.join(self.folder, "hung")
        command = f"trap 'echo up > {mark}; exit' HUP; echo there; while :; do sleep 0.1; done"
        host, port = self.host("--stay", "--serve", command, line="--xot-listen")
        caller = self.begin("dte", "--xot", f"127.0.0.1:{port}", "--quiet", "0")
        caller.stdin.write("123\n")
        caller.stdin.flush()
        self.assertEqual(caller.stdout.readline(), "there\n")
        caller.stdin.close()
        self.assertEqual(caller.wait(60), 0)
        last = time.monotonic() + 20
        while not os.path.exists(mark) and time.monotonic() < last:
            time.sleep(0.05)
        self.assertEqual(support.read(mark), b"up\n")

    def test_what_is_typed_last_has_its_answer(self):
        """Though nothing has come for longer than --quiet says."""
        host, port = self.host("--stay", "--serve", "cat", line="--xot-listen")
        caller = self.begin("dte", "--xot", f"127.0.0.1:{port}", "--quiet", "3")
        caller.stdin.write("123\none\n")
        caller.stdin.flush()
        self.assertEqual(caller.stdout.readline(), "one\n")
        time.sleep(3.5)
        caller.stdin.write("two\n")
        caller.stdin.close()
        self.assertEqual((caller.stdout.read(), caller.wait(60)), ("two\n", 0))

    def test_a_bridge_that_dies_is_told(self):
        host, _ = self.host("--quiet", "60")
        (bridge,) = [
            int(it)
            for it in subprocess.run(
                ["pgrep", "-P", str(host.pid)], capture_output=True
            ).stdout.split()
        ]
        os.kill(bridge, signal.SIGKILL)
        self.assertEqual(host.wait(60), 1)
        self.assertIn("# the bridge was ended: Killed", host.stderr.read())

    def test_long_text_is_whole(self):
        host, port = self.host("--quiet", "60")
        caller = self.begin("dte", "--connect", f"127.0.0.1:{port}", "--set", "2:0,3:0")
        text = "".join(f"line {number} {'x' * (number % 300)}\n" for number in range(500))
        caller.stdin.write(f"1\n{text}")
        caller.stdin.close()
        host.stdin.close()
        self.assertEqual((caller.wait(60), host.stdout.read()), (0, text), caller.stderr.read())

    def test_calls_that_come_to_nothing(self):
        """One end has no PAD, but a user who clears; and a line that isn't there."""
        port = str(*free_ports(1, socket.SOCK_STREAM))
        for words, said, status in (
            (("dce", "--connect", f"127.0.0.1:{port}"), "Connection refused", 2),
            (("dte",), "name one line: --listen", 2),
            (("dte", "--listen", "0", "--commands", "x"), "are for a bridge alone", 2),
            (("dte", "--listen", "0", "--set", "9:1"), "'9:1' are no parameters", 2),
        ):
            with self.subTest(words):
                done = subprocess.run(
                    script("x25pad.py", *words, "--x25", support.PROGRAM),
                    stdin=subprocess.DEVNULL,
                    capture_output=True,
                    text=True,
                    timeout=60,
                )
                self.assertIn(said, done.stderr)
                self.assertEqual((done.returncode, done.stdout), (status, ""))
        bridge = subprocess.Popen(
            [*script("bridge.py", "dce", "--listen", port), "--x25", support.PROGRAM],
            stdin=subprocess.PIPE,
            stdout=subprocess.PIPE,
            stderr=subprocess.PIPE,
        )
        self.addCleanup(self.end, bridge)
        while b"listening" not in (told := bridge.stderr.readline()):
            self.assertTrue(told)
        bridge.stdin.write(b"wait dce incoming\ndce clear 1\nwait dce cleardone\n")
        bridge.stdin.flush()
        caller = self.begin("dte", "--connect", f"127.0.0.1:{port}")
        caller.stdin.write("1\n")
        caller.stdin.close()
        self.assertEqual((caller.wait(60), caller.stdout.read()), (1, ""))
        self.assertIn("CLR DTE C:0 D:0\n", caller.stderr.read())

    def test_a_signal_leaves_the_terminal_as_it_was(self):
        self.addCleanup(signal.signal, signal.SIGHUP, signal.signal(signal.SIGHUP, signal.SIG_DFL))
        for number in (signal.SIGTERM, signal.SIGHUP):
            terminal = Terminal([
                *script("x25pad.py", "dce", "--listen", "0"), "--x25", support.PROGRAM
            ])
            self.addCleanup(terminal.close)
            terminal.shows("listening on")
            self.assertFalse(terminal.echoes())
            os.kill(terminal.child, number)
            self.assertEqual((terminal.end()[0], terminal.echoes()), (128 + number, True))

    def test_x29_at_a_terminal(self):
        host, port = self.host()
        terminal = Terminal([
            *script("x25pad.py", "dte", "--connect", f"127.0.0.1:{port}"), "--x25", support.PROGRAM
        ])
        self.addCleanup(terminal.close)
        terminal.shows("\n*")
        for typed, shown in (
            ("123\r", "\nCOM"),
            ("\x10rpar? 2,3,99\r", "\nRPAR 2:1,3:126,99:INV"),
            ("\x10rset 2:0\r\x10rpar? 2\r", "\nRPAR 2:0"),
            ("\x10rset? 9:1,4:5\r", "\nRPAR 9:INV,4:5"),
            ("\x10set 7:21\r\x10break\r", "*break"),
            ("\x10stat\r", "\nENGAGED"),
        ):
            terminal.types(typed)
            terminal.shows(shown)
        told = []
        while told[-1:] != ["BREAK\n"]:
            told.append(host.stderr.readline())
            self.assertTrue(told[-1])
        # What the host sends is thrown away until it has answered the break.
        host.stdin.write("after\n")
        terminal.shows("after")
        terminal.types("\x10reset\r")
        terminal.shows("\nRESET")
        terminal.types("\x10iclr\r")
        terminal.shows("\nCLR DTE C:0 D:0\n*")
        terminal.types("\x04")
        self.assertEqual((terminal.end()[0], terminal.echoes()), (0, True))
        host.stdin.close()
        self.assertEqual(host.stdout.read(), "")
        self.assertEqual(
            re.findall("^[A-Z].*", "".join([*told, host.stderr.read()]), re.MULTILINE),
            ["COM", "INT", "BREAK", "RESET DTE C:0 D:0", "CLR PAD"],
        )

    def test_the_session_of_the_manual(self):
        """What stands in docs/BRIDGE.md, against the other end that stands above it."""
        text = re.sub("^    ", "", support.read("docs/BRIDGE.md").decode(), flags=re.MULTILINE)
        says, words = re.search(
            r"^printf '(.*)' \| x25 pad dce --xot-listen 7000 (.*)$", text, re.MULTILINE
        ).groups()
        host, port = self.host(*words.split()[1:], line="--xot-listen")
        host.stdin.write(says.replace("\\n", "\n"))
        host.stdin.close()
        command, *lines = re.search(
            r"^x25 pad dte --xot localhost:7000\n(?:.+\n)*", text, re.MULTILINE
        )[0].replace("7000", port).splitlines()
        terminal = Terminal([*script("x25pad.py", *command.split()[2:]), "--x25", support.PROGRAM])
        self.addCleanup(terminal.close)
        shown = ""
        for line in lines:
            if line.startswith("*"):
                terminal.types("\x10" if "COM\n" in shown and "CLR CONF\n" not in shown else "")
                terminal.shows(f"{shown}*")
                terminal.types(line[1:] + "\r")
            elif shown.endswith("Welcome\n"):
                terminal.shows(shown.rstrip("\n"))
                terminal.types(line + "\r")
            shown += f"{line}\n"
        self.assertEqual(terminal.end(), (0, shown.rstrip("\n")))
        self.assertEqual((host.stdout.read(), host.wait(60)), ("hello\n", 0))


if __name__ == "__main__":
    unittest.main()
