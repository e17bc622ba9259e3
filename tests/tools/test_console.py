"""Tests of the console of bridge.py: what is typed and shown, at a pseudo terminal."""

import os
import re
import signal
import socket
import subprocess
import sys
import time
import unittest

import support
from support import ToolCase
from terminal import Terminal, script
from tunnels import free_ports

from test_bridge import FAKE, SABM, UA
from x25tools import circuits, console

MESSAGE = "dte message ch=1 at 1.0.0 q=0 data="


class Typed(unittest.TestCase):
    """What is typed, and the line that it stands for."""

    def test_lines(self):
        for typed, line in (
            ("connect", "dte connect"),
            ("dte connect", "dte connect"),
            ('call 123 4567 "hello"', "dte call 123 4567 68656c6c6f"),
            ("call 123 -", "dte call 123 - -"),
            ('  call  1   2 "a b"  8 8 3 3 ', "dte call 1 2 612062 8 8 3 3"),
            ('send 1 0 "grüß"', "dte send 1 0 6772c3bcc39f"),
            ('send 1 0 "ab"0D0a"c"', "dte send 1 0 61620D0a63"),
            ('send 1 1 ""', "dte send 1 1 -"),
            ('send 1 1 d "A"', "dte send 1 1 d 41"),
            ("accept 1", "dte accept 1"),
            ("int 1 07", "dte int 1 07"),
            ("clear 1 cause=200 diag=5", "dte clear 1 cause=200 diag=5"),
            ("reset 1 diag=5", "dte reset 1 diag=5"),
            ("restart cause=200", "dte restart cause=200"),
            ("with 0101 - call 123 4567", "dte with 0101 - call 123 4567 -"),
            ('with - "bye" clear 1 cause=200', "dte with - 627965 clear 1 cause=200"),
            ("with - - d accept 1 8 8 3 3", "dte with - - d accept 1 8 8 3 3"),
            ("wait incoming", "wait dte incoming"),
            ('wait message ch=1 at 1.0.0 q=0 data="', None),
            ("wait dte incoming ch=1", "wait dte incoming ch=1"),
            ("wait # the connection", "wait # the connection"),
        ):
            with self.subTest(typed):
                if line is None:
                    self.assertRaises(console.Unknown, console.spelled, typed, "dte")
                else:
                    self.assertEqual(console.spelled(typed, "dte"), line)

    def test_what_is_no_line(self):
        for typed, words in (
            ("conect", "no command 'conect': did you mean `connect`?"),
            ("42", "no command '42': `help` names all"),
            ("dce connect", "no command 'dce': "),
            ("dte", "no command 'dte': "),
            ("accept", "it is `accept CHANNEL [S S W W]`"),
            ("send 1 0", "it is `send CHANNEL Q [d] DATA`"),
            ("send 1 0 41 42", "it is `send CHANNEL Q [d] DATA`"),
            ("send 1 0 d", "'d' is no octets"),
            ("pull now", "`pull` stands alone"),
            ("restart now", "it is `restart [cause=N] [diag=N]`"),
            ("clear 1 5", "it is `clear CHANNEL [cause=N] [diag=N]`"),
            ("clear 1 diag=5 cause=200", "it is `clear "),
            ("wait", "it is `wait TEXT`"),
            ("wait conected", "that `wait` would hold for good: no notice tells of 'conected'"),
            (
                "wait dce incoming",
                "that `wait` would hold for good: notices of this end begin with `dte `",
            ),
            ("call 12x 45", "'12x' is no address, digits or - for none: it is `call CALLED"),
            ("call 12 4-5", "'4-5' is no address"),
            ("accept one", "'one' is no channel, a number: it is `accept CHANNEL"),
            ("send 1 2 41", "'2' is no Q, 0 or 1: it is `send CHANNEL Q"),
            ("with", "it is `with FAC DATA [d] COMMAND`"),
            ("with 0101 call 1 2", "it is `with FAC DATA [d] COMMAND`"),
            ("with 0101 - d send 1 0 41", "it is `with FAC DATA [d] COMMAND`"),
            ("with 0101 - accept", "it is `accept CHANNEL [S S W W]`"),
            ("with 010 - accept 1", "'010' is no octets"),
            ('send 1 0 "hello', "a quote isn't closed"),
            (
                "send 1 0 hello",
                """'hello' is no octets: these are hexadecimal digits in pairs, or "text\"""",
            ),
            ("call 1 2 4", "'4' is no octets"),
            ("int 1 x", "'x' is no octets"),
        ):
            with self.subTest(typed), self.assertRaises(console.Unknown) as raised:
                console.spelled(typed, "dte")
            self.assertIn(words, str(raised.exception))

    def test_what_a_wait_can_wait_for(self):
        """Each entry that FORMATS has, whole or its beginning, and what isn't an entry."""
        text = support.read("docs/FORMATS.md").decode().split("## What `sim` writes")[1]
        entries = set(re.findall(r"^\| `?END|`([a-z]+)(?: [a-z]+=[^`]*| NAME| REASON)?`", text))
        entries &= set(circuits.EVENTS)
        self.assertGreater(len(entries), 20)
        for event in circuits.EVENTS:
            for waited in (f"dte {event}", f"dte {event} ch=1", f"dte {event[:2]}"):
                self.assertEqual(circuits.never_comes(waited, "dte"), "")
        for waited in ("d", "dte", "dte ", "# the line", "! 3", "?"):
            self.assertEqual(circuits.never_comes(waited, "dte"), "", waited)
        for waited in ("incoming", "dce message", "dte messages", "dte foo ch=1", "x"):
            self.assertTrue(circuits.never_comes(waited, "dte"), waited)

    def test_help_has_each_command(self):
        script = set(
            re.findall(
                r"^\| `END (\w+)|, `END (\w+)",
                support.read("docs/FORMATS.md").decode().split(
                    "## Lines of a script"
                )[1].split("## ")[0],
                re.MULTILINE,
            )
        )
        commands = {name for pair in script for name in pair if name}
        self.assertEqual(set(console.COMMANDS), commands | {"wait", "status", "help", "quit"})
        for name in console.COMMANDS:
            self.assertIn(f"\n  {name} ", "\n" + console.helped())
            self.assertEqual(console.helped(name).count("\n"), 2)
        self.assertLessEqual(max(map(len, console.helped().splitlines())), 100)


class Shown(unittest.TestCase):
    """Notices in words."""

    def test_notices(self):
        for notice, rows in (
            ("! 30", []),
            ("? 60", []),
            (
                "# ! 30, not in this state of the channel: 'dte send 1 0 41'",
                ["# ! 30, not in this state of the channel: 'dte send 1 0 41'"],
            ),
            ("dte accept ch=1", ["accept ch=1"]),
            (MESSAGE + "-", ["message ch=1 at 1.0.0 q=0 data=-"]),
            (MESSAGE + "68656c6c6f", ['message ch=1 at 1.0.0 q=0 data=68656c6c6f  ("hello")']),
            (
                MESSAGE + "68656c6c6f0d0a",
                ['message ch=1 at 1.0.0 q=0 data=68656c6c6f0d0a  ("hello"0d0a)'],
            ),
            (MESSAGE + "6772c3bcc39f", ['message ch=1 at 1.0.0 q=0 data=6772c3bcc39f  ("grüß")']),
            (MESSAGE + "00ff4142", ["message ch=1 at 1.0.0 q=0 data=00ff4142"]),
            (
                MESSAGE + "41" * 17,
                [
                    "message ch=1 at 1.0.0 q=0 data: 17 octets",
                    f"    0000  {'41 ' * 16} {'A' * 16}",
                    f"    0010  41{' ' * 46} A",
                ],
            ),
            (
                "dte cleared ch=1 cause=13 diag=67",
                [
                    "cleared ch=1 cause=13 diag=67  (not obtainable; invalid called address; the "
                    "call is refused, or has ended)"
                ],
            ),
            (
                "dte clear ch=1 cause=9 diag=5",
                ["clear ch=1 cause=9 diag=5  (out of order; diagnostic 5)"],
            ),
            ("dte restart diag=33", ["restart diag=33  (unidentifiable packet)"]),
            (
                "dte incoming ch=2 at 1.0.0 called=1 calling=- data=-",
                [
                    "incoming ch=2 at 1.0.0 called=1 calling=- data=-  (`accept 2` takes the "
                    "call, `clear 2` refuses it)"
                ],
            ),
            (
                "dte call ch=1 at 1.0.0 called=1 calling=2 data=6869 size=8,8 win=3,3",
                [
                    'call ch=1 at 1.0.0 called=1 calling=2 data=6869 size=8,8 win=3,3  ("hi"; no '
                    'answer yet)'
                ],
            ),
            ("dte linkdown retries", ["linkdown retries  (nobody answers)"]),
            (
                "dte fault ch=1 diag=27",
                [
                    "fault ch=1 diag=27  (packet type invalid for state d1; the other end broke a "
                    "rule)"
                ],
            ),
            (
                "dte confirmed ch=1 at 1.0.0 count=2",
                [
                    "confirmed ch=1 at 1.0.0 count=2  (the other end has taken what was sent with "
                    "d)"
                ],
            ),
            ("dte diagnostic diag=33", ["diagnostic diag=33  (unidentifiable packet)"]),
            (
                "dte beside ch=1 fac=0101 data=41",
                ['beside ch=1 fac=0101 data=41  (reverse charging; "A")'],
            ),
        ):
            with self.subTest(notice):
                self.assertEqual(console.shown(notice), rows)

    def test_what_is_too_long_is_said(self):
        rows = console.shown(
            "dte call ch=1 at 1.0.0 called=1 calling=2 data=" + "41" * 17 + " size=8,8 win=3,3"
        )
        self.assertEqual(
            (len(rows), rows[0]),
            (
                3,
                "call ch=1 at 1.0.0 called=1 calling=2 data: 17 octets size=8,8 win=3,3  (no "
                "answer yet)",
            ),
        )
        rows = console.shown(MESSAGE + "00" * 60_000)
        self.assertEqual(
            (len(rows), rows[0], rows[-1]),
            (66, "message ch=1 at 1.0.0 q=0 data: 60,000 octets", "    and 58,976 more"),
        )

    def test_each_reason_has_words(self):
        reasons = re.search(
            r"REASON is (.*?)\.", support.read("docs/FORMATS.md").decode(), re.DOTALL
        )[1]
        self.assertEqual(set(re.findall("`(.*?)`", reasons)), set(console.REASONS))


class Live(ToolCase):
    """A bridge at a terminal; the test is its station, by answers written by hand, and the other
    end."""

    def program(self, answers):
        self.answers = self.file("answers", answers.encode())
        program = self.file(
            "x25", f'#!/bin/sh\nexec "{sys.executable}" "{FAKE}" "{self.answers}" "$@"\n'.encode()
        )
        os.chmod(program, 0o755)
        return program

    def begin(self, answers, *words):
        program = self.program(answers)
        self.terminal = Terminal(
            script("bridge.py", "dte", "--listen", "0", "--x25", program, "--t1", "0.5", *words)
        )
        self.addCleanup(self.terminal.close)
        self.terminal.shows("dte>")

    def join(self):
        """The other end comes."""
        port = re.search(r"listening on 127.0.0.1:(\d+)", self.terminal.display.text())[1]
        self.line = socket.create_connection(("127.0.0.1", int(port)), timeout=10)
        self.addCleanup(self.line.close)
        self.terminal.shows("# a connection has come from")

    def asked(self, count):
        """What the station was asked, once that is so much."""
        last = time.monotonic() + 10
        while time.monotonic() < last:
            rows = support.read(self.answers + ".asked").decode().splitlines()
            if len(rows) >= count:
                break
            time.sleep(0.02)
        return [row.partition(" ")[2] for row in rows]

    def sends(self, text):
        self.line.sendall(f"{text}\n".encode())

    def test_a_greeting_a_command_and_the_end(self):
        self.begin(
            f". off busy\n= dte connect\ndte connect\n{SABM}\n. start busy\n= {UA}\ndte linkup\n. "
            "off idle\n= dte disconnect\ndte disconnect\ndte linkdown local\n. off busy\n"
        )
        self.join()
        self.assertIn(
            "This is the DTE, waiting for a connection, with 1 channel.\n`help` shows",
            self.terminal.shows("dte>"),
        )
        self.terminal.types("connect\r")
        self.terminal.shows("dte> connect\nconnect  (the link is to be set up)\ndte>")
        self.sends(UA)
        self.terminal.shows("linkup  (the link is up)\ndte>")
        self.assertFalse(self.terminal.echoes())
        self.terminal.types("quit\r")
        status, text = self.terminal.end()
        self.assertEqual(
            (status, text.splitlines()[-3:]),
            (0, ["dte> quit", "disconnect", "linkdown local  (it was ended here)"]),
        )

    def test_what_comes_stands_above_what_is_typed(self):
        """Also where the cursor is within the line, which goes on to be edited, and where the
        screen is full."""
        rows = "".join(f"= {UA}\n{MESSAGE}{number:04x}\n. off idle\n" for number in range(40))
        self.begin(". off idle\n" + rows + "= dte ready 12\ndte ready ch=12\n. off idle\n")
        self.join()
        self.terminal.types("redy 12" + "\x1b[D" * 5)
        self.terminal.shows("dte> redy 12")
        for number in range(40):
            self.sends(UA)
            self.terminal.shows(f"data={number:04x}")
        text = self.terminal.shows("\ndte> redy 12")
        self.assertEqual(
            [it[-4:] for it in text.splitlines() if it.startswith("message")],
            [f"{number:04x}" for number in range(40)],
        )
        self.terminal.types("a")
        self.terminal.shows("\ndte> ready 12")
        self.terminal.types("\r")
        self.terminal.shows("dte> ready 12\nready ch=12\ndte>")

    def test_editing(self):
        """A line of before comes again, and a word is completed."""
        self.begin(
            ". off idle\n= dte notready 1\n. off idle\n= dte notready 1\n. off idle\n= dte "
            "notready 2\n. off idle\n"
        )
        self.join()
        self.terminal.types("notready 1\r")
        self.asked(1)
        self.terminal.types("\x1b[A\r")
        self.asked(2)
        self.terminal.types("not\t2\r")
        self.assertEqual(self.asked(3), ["dte notready 1", "dte notready 1", "dte notready 2"])
        self.terminal.types("help not\t\r")
        self.terminal.shows("dte> help notready\n  notready CHANNEL")
        self.terminal.types("?\r")
        self.terminal.shows("  quit  ")
        self.terminal.types("dance\r")
        self.terminal.shows("no command 'dance'")

    def test_status(self):
        entry = "dte incoming ch=1 at 1.0.0 called=1 calling=- data=-"
        self.begin(f". off idle\n= {UA}\ndte linkup\n. off idle\n= {UA}\n{entry}\n. off idle\n")
        self.terminal.types("status\r")
        self.terminal.shows("dte> status\nthe line isn't there\nthe link is down\ndte>")
        self.join()
        self.sends(UA)
        self.terminal.shows("linkup")
        self.sends(UA)
        self.terminal.shows("refuses it)")
        self.terminal.types("status\r")
        self.terminal.shows("dte> status\nthe link is up\nchannel 1: called\ndte>")

    def test_other_ends(self):
        """The terminal is left as it was, after CTRL-D, CTRL-C, and the end of the line."""
        for typed, status in (("\x04", 0), ("\x03", 130), (None, 0)):
            with self.subTest(typed):
                self.begin(
                    f". off idle\n= {UA}\ndte linkup\n. off idle\n= dte disconnect\ndte linkdown "
                    "local\n. off idle\n"
                )
                self.join()
                self.sends(UA)
                self.terminal.shows("linkup")
                if typed is None:
                    self.line.close()
                else:
                    self.terminal.types(typed)
                self.assertEqual((self.terminal.end()[0], self.terminal.echoes()), (status, True))

    def test_a_line_that_ends_too_early(self):
        self.begin(f". off idle\n= {UA}\ndte linkup\n. off busy\n")
        self.join()
        self.sends(UA)
        self.terminal.shows("linkup")
        self.line.close()
        status, text = self.terminal.end()
        self.assertEqual(
            (status, text.splitlines()[-2:]),
            (
                1,
                [
                    "# the connection has ended: the other end has closed it",
                    "# the line has ended before all was done",
                ],
            ),
        )

    def test_ctrl_c_twice(self):
        """The second one ends it at once; the terminal is as it was."""
        self.begin(
            f". off idle\n= {UA}\ndte linkup\n. off idle\n= dte disconnect\ndte disconnect\n. off "
            "idle\n",
            "--t1",
            "60",
        )
        self.join()
        self.sends(UA)
        self.terminal.shows("linkup  (the link is up)\ndte>")
        self.terminal.types("\x03")
        self.terminal.shows("disconnect")
        self.terminal.types("\x03")
        self.assertEqual((self.terminal.end()[0], self.terminal.echoes()), (-signal.SIGINT, True))

    def test_a_command_before_anybody_is_there(self):
        self.begin(". off idle\n= dte ready 1\ndte ready ch=1\n. off idle\n")
        self.terminal.types("ready 1\r")
        self.terminal.shows("dte> ready 1\nthat waits: the line isn't there yet\ndte>")
        self.join()
        self.terminal.shows("\nready ch=1\ndte>")

    def test_a_job_in_the_background_is_no_console(self):
        """It would be stopped by its terminal."""
        command = " ".join(
            script(
                "bridge.py",
                "dte",
                "--listen",
                "0",
                "--x25",
                self.program(". off idle\n= dte disconnect\n. off idle\n"),
            )
        )
        self.terminal = Terminal(["bash", "-m", "-c", f"{command} & sleep 2; jobs; kill %1; wait"])
        self.addCleanup(self.terminal.close)
        text = self.terminal.end()[1]
        self.assertIn("Running", text)
        self.assertNotIn("This is the DTE", text)

    def test_a_dumb_terminal_is_no_console(self):
        program = self.program(
            ". off idle\n= dte ready 1\ndte ready ch=1\n. off idle\n= dte disconnect\n. off idle\n"
        )
        self.terminal = Terminal([
            "env",
            "TERM=dumb",
            *script("bridge.py", "dte", "--listen", "0", "--x25", program, "--t1", "0.5"),
        ])
        self.addCleanup(self.terminal.close)
        self.terminal.shows("listening on")
        self.join()
        self.terminal.types("dte ready 1\n")
        self.assertNotIn("This is the DTE", self.terminal.shows("dte ready ch=1"))

    def test_octets_that_are_no_text(self):
        self.begin(
            ". off idle\n= dte send 1 0 fffe\ndte send ch=1 at 1.0.0 q=0 data=fffe\n. off idle\n"
        )
        self.join()
        os.write(self.terminal.file, b'send 1 0 "\xff\xfe"\r')
        self.terminal.shows("\nsend ch=1 at 1.0.0 q=0 data=fffe\ndte>")

    def test_a_wait_does_not_hold_the_end(self):
        self.begin(". off idle\n")
        self.join()
        self.terminal.types("wait incoming\raccept 1\rquit\r")
        self.assertEqual(self.terminal.end()[0], 0)

    def test_a_refusal_is_told_once_in_words(self):
        self.begin(". off idle\n= dte accept 1\n! 30\n. off idle\n")
        self.join()
        self.terminal.types("accept 1\r")
        self.terminal.shows(
            "dte> accept 1\n# ! 30, not in this state of the channel: 'dte accept 1'\ndte>"
        )


@support.needs_station
class Manual(ToolCase):
    """The session of docs/BRIDGE.md, against the other end that stands above it."""

    def test_it_goes_as_it_stands_there(self):
        text = re.sub("^    ", "", support.read("docs/BRIDGE.md").decode(), flags=re.MULTILINE)
        port = str(*free_ports(1, socket.SOCK_STREAM))
        other = re.search(
            r"^printf .*\\\n.* \| x25 bridge dce --listen 7000 .*$", text, re.MULTILINE
        )[0]
        session = re.search(
            r"^x25 bridge dte --connect localhost:7000\nThis is(?:.+\n)*", text, re.MULTILINE
        )[0].replace("7000", port)
        command, *lines = session.splitlines()
        other = other.replace("7000", port).replace(
            "x25 bridge",
            f'"{sys.executable}" "{support.TOOLS}/bridge.py" --x25 "{support.PROGRAM}"',
        )
        with subprocess.Popen(
            ["bash", "-c", other],
            cwd=self.folder,
            stdout=subprocess.DEVNULL,
            stderr=subprocess.PIPE,
        ) as far:
            far.stderr.readline()
            terminal = Terminal(
                script("bridge.py", *command.split()[2:], "--x25", support.PROGRAM)
            )
            self.addCleanup(terminal.close)
            shown = ""
            for line in lines:
                if line.startswith("dte> "):
                    terminal.shows(f"{shown}dte>")
                    terminal.types(line[5:] + "\r")
                shown += f"{line}\n"
            self.assertEqual(terminal.end(), (1, shown.rstrip("\n")))
            self.assertEqual((far.stderr.read(), far.wait(60)), (b"", 0))


if __name__ == "__main__":
    unittest.main()
