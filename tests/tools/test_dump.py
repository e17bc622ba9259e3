"""Tests of x25dump.py: lines as they come, names, channels, connections, messages, numbers,
colours."""

import functools
import gzip
import json
import os
import pty
import re
import signal
import subprocess
import sys
import unittest

import samples
import support
from support import ToolCase

import golden
from x25tools import messages, x25names
from x25tools.x25lines import LACKS
from x25tools.x25lines import fcs

CALL, DATA = bytes.fromhex("10010b43123456700041"), bytes.fromhex("1001006869")
DECODED = b"""0.5\t> SABM cmd P=1
0.75\t< UA rsp F=1
< I cmd P=0 S=0 R=0 | CLEAR ch=7 cause=19 diag=1
dte cleared ch=7 cause=0 diag=0
! 30
< FRMR rsp F=0 why=200008
hello
"""
SHOWN = """0.5 > SABM cmd P=1
0.75 < UA rsp F=1
< I cmd P=0 S=0 R=0 | CLEAR ch=7 cause=19 diag=1  (local procedure error; invalid P(S))
dte cleared ch=7 cause=0 diag=0  (DTE originated)
! 30 not in this state of the channel
< FRMR rsp F=0 why=200008  (control 20, V(S)=0 V(R)=0, invalid N(R))
? 60 no such line
"""

OVER = " ~ manners: dce: more I frames are unacknowledged than k (2.4.8.6): at most 2"


def data(number, text, more=0, channel=1, acknowledged=0):
    """The text of an I frame with data."""
    return (
        f"I cmd P=0 S={number} R={acknowledged} | DATA ch={channel} S=0 R=0 M={more} Q=0 "
        f"data={text.encode().hex() or '-'}"
    )


def joined(frames, due=None):
    """Sort and octets of what frames, each direction and text, complete."""
    line = messages.Messages(due)
    found = [it for frame in frames for it in line.take([("", " ".join(frame))])]
    return [
        (sort, bytes.fromhex(digits).decode())
        for _, _, _, sort, digits, _ in [*found, *line.end()]
    ]


def shown_messages(text):
    """The messages of what x25dump.py shows: the end that gets each, its channel, Q, its octets as
    an entry has them."""
    found = []
    for line in text.splitlines():
        if head := re.match(r"([<>]) ch=(\d+) Q=(\d) message, ", line):
            found.append([{">": "dce", "<": "dte"}[head[1]], head[2], head[3], ""])
        elif line.startswith("    "):
            found[-1][3] += line[10:57].replace(" ", "")
        else:
            found.append(["", "", "", ""])
    return [(*it[:3], it[3] or "-") for it in found]


def shown(judged):
    """What is shown without the lines of how much was judged."""
    return re.sub(r"^(#\d+ )?# .*\n", "", judged, flags=re.MULTILINE)


class Names(unittest.TestCase):
    def test_causes_and_diagnostics_are_those_of_the_document(self):
        text = (
            support.read("docs/FORMATS.md")
            .decode()
            .split("### Names of causes and diagnostics")[1]
        )
        table = text.split("\n## ")[0]
        causes = {
            (sort, int(number)): name
            for sort, number, name in re.findall(
                r"\| (CLEAR|RESET|RESTART) (\d+) \| ([^|]+) \|", table
            )
        }
        self.assertEqual({it: x25names.CAUSES[it[0]][it[1]] for it in causes}, causes)
        diagnostics = {
            int(number): name
            for number, name in re.findall(r"^\| (\d+) \| ([^|]+) \|", table, re.MULTILINE)
        }
        self.assertEqual(diagnostics, x25names.DIAGNOSTICS)
        known = {
            (sort, number)
            for sort in ("CLEAR", "RESET", "RESTART")
            for number in x25names.CAUSES[sort]
        }
        self.assertEqual(set(causes), known)

    def test_numbers_without_a_name_are_told(self):
        self.assertEqual(
            x25names.words("> I cmd P=0 S=0 R=0 | RESET ch=1 cause=99 diag=250"),
            "cause 99; diagnostic 250",
        )
        self.assertIn(
            "modulo 128, which isn't read here",
            x25names.words("> I cmd P=0 S=0 R=0 | fault 21 diag=40"),
        )
        self.assertIn(
            "permanent circuit", x25names.words("> I cmd P=0 S=0 R=0 | fault 22 diag=33")
        )
        self.assertIn("a digit over 9", x25names.words("> I cmd P=0 S=0 R=0 | fault 24 diag=0"))
        self.assertIn("modulo 128", x25names.words("> SABME cmd P=1"))
        self.assertEqual(x25names.words("> SABM cmd P=1"), "")

    def test_numbers_in_other_forms(self):
        self.assertEqual(
            x25names.words("> I cmd P=0 S=0 R=0 | RESET ch=1 cause=5"), "local procedure error"
        )
        self.assertEqual(
            x25names.words("> I cmd P=0 S=0 R=0 | DIAG diag=33 expl=10010b"),
            "unidentifiable packet",
        )
        cleared = "> CLEAR ch=1 cause=0 diag=0 called=- calling=- fac=c10400010203 data=c0ffee"
        self.assertEqual(x25names.words(cleared), "DTE originated; call duration 00010203")

    def test_facilities(self):
        for octets, said in (
            ("0101", "reverse charging"),
            ("0181", "reverse charging and fast select without restriction"),
            ("01c0", "fast select with restriction"),
            ("0100", "no reverse charging"),
            ("420707430203", "packet size 128/128, window size 2/3"),
            (
                "02ab0312",
                "throughput class negotiation 9600/19200, closed user group selection 12",
            ),
            (
                "000fc90508123456ff",
                "DTE complementary services, called address extension 123456ff",
            ),
            (
                "0401490100",
                "charging information requested, transit delay selection and indication 256 ms",
            ),
            (
                "3f078000010203",
                "facility 3f 07, facility 80 000102, closed user group selection cut off",
            ),
            ("c900", "called address extension"),
            ("c906", "called address extension cut off"),
        ):
            self.assertEqual(
                x25names.words(f"> CALL ch=1 called=1 calling=2 fac={octets} data=-"), said
            )


class Joining(unittest.TestCase):
    def test_data_with_d_is_joined(self):
        frames = (
            (">", data(0, "a", 1)), (">", data(1, "b").replace(" Q=0", " Q=0 D=1") + " ~ wide")
        )
        self.assertEqual(joined(frames, 0), [("message", "ab")])

    def test_a_link_modulo_128_is_none_that_is_set_up(self):
        frames = (
            (">", data(0, "a", 1)),
            (">", "SABME cmd P=1 ~ wide"),
            ("<", "DM rsp F=1"),
            (">", data(1, "b")),
        )
        self.assertEqual(joined(frames, 0), [("message", "ab")])

    def test_data_is_joined_by_m_in_its_channel_and_way(self):
        frames = (
            (">", data(0, "a", 1)),
            (">", data(1, "x", 0, 2)),
            ("<", data(0, "y", 0)),
            (">", data(2, "b")),
        )
        self.assertEqual(
            joined(frames, 0), [("message", "x"), ("message", "y"), ("message", "ab")]
        )

    def test_a_repeated_frame_counts_once(self):
        frames = (
            (">", data(0, "a")),
            (">", data(0, "a")),
            ("<", "RR rsp F=0 R=1"),
            (">", data(1, "b")),
            ("<", "REJ rsp F=0 R=1"),
            (">", data(1, "b")),
        )
        self.assertEqual(joined(frames, 0), [("message", "a"), ("message", "b")])

    def test_a_frame_behind_a_lost_one_counts_when_it_comes_again(self):
        frames = (
            (">", "fault 2 fcs"),
            (">", data(1, "b")),
            ("<", "REJ rsp F=0 R=0"),
            (">", data(0, "a")),
            (">", data(1, "b")),
            ("<", "RR rsp F=0 R=2"),
        )
        self.assertEqual(joined(frames, 0), [("message", "a"), ("message", "b")])

    def test_a_frame_that_the_recorder_missed(self):
        frames = (">", data(1, "b")), ("<", "RR rsp F=0 R=2"), (">", data(2, "c"))
        unsure = "message, perhaps without its beginning"
        self.assertEqual(
            joined(frames, 0), [("packet not recorded", ""), (unsure, "b"), ("message", "c")]
        )
        frames = (
            (">", data(0, "a", 1)),
            (">", data(2, "b")),
            ("<", "RR rsp F=0 R=3"),
            (">", data(3, "c")),
            (">", data(4, "d", 0, 2)),
        )
        self.assertEqual(
            joined(frames, 0),
            [
                ("message broken off by packet not recorded", "a"),
                ("packet not recorded", ""),
                (unsure, "b"),
                ("message", "c"),
                (unsure, "d"),
            ],
        )

    def test_frames_that_were_not_recorded(self):
        """However many they are, eight among these; and of packets without frames, which come once
        each."""
        unsure = "message, perhaps without its beginning"
        restart = "I cmd P=0 S=1 R=0 | RESTART cause=0 diag=0"
        for is_made_up in False, True:
            line = messages.Messages(0, is_made_up)
            frames = [
                f"> {data(0, 'a', 1)}", "< ..", f"> {data(0, 'b')}", "< RR rsp F=0 R=1",
                f"> {restart}", f"> {data(2, 'c', 0, 2)}",
            ]
            found = line.take([("", frame) for frame in frames])
            self.assertEqual(
                [it[1:4] for it in found],
                [
                    (">", 1, "message broken off by missing frames"),
                    ("", None, f"# {LACKS}"),
                    (">", 1, unsure),
                    (">", 2, "message"),
                ],
            )

    def test_an_acknowledgement_of_what_was_not_sent_tells_nothing(self):
        frames = (
            (">", data(0, "a")),
            ("<", "RR rsp F=0 R=5"),
            ("<", "RR rsp F=0 R=1"),
            ("<", "RR rsp F=0 R=0"),
            (">", data(1, "b")),
        )
        self.assertEqual(joined(frames, 0), [("message", "a"), ("message", "b")])

    def test_a_trace_that_begins_in_the_midst(self):
        for frames, expected in (
            (
                [
                    (">", data(4, "b")),
                    ("<", "REJ rsp F=0 R=3"),
                    (">", data(3, "a")),
                    (">", data(4, "b")),
                ],
                ["a", "b"],
            ),
            (
                [
                    (">", data(4, "b")),
                    (">", data(5, "c")),
                    ("<", "RR rsp F=0 R=5"),
                    (">", data(6, "d")),
                ],
                ["b", "c", "d"],
            ),
            (
                [(">", data(number % 8, str(number))) for number in range(3, 20)],
                [str(number) for number in range(3, 20)],
            ),
            ([(">", data(4, "b"))], ["b"]),
        ):
            self.assertEqual(joined(frames), [("message", text) for text in expected])

    def test_what_ends_a_message(self):
        for packet in (
            "RESET ch=1 cause=0 diag=0", "RESETCONF ch=1", "RESTART cause=0 diag=0", "RESTARTCONF",
            "CLEAR ch=1 cause=0 diag=0", "CLEARCONF ch=1",
        ):
            # What the other end sends doesn't end it: it may cross.
            frames = (
                (">", data(0, "a", 1)),
                ("<", f"I cmd P=0 S=0 R=0 | {packet}"),
                (">", data(1, "b", 1)),
                (">", f"I cmd P=0 S=2 R=1 | {packet}"),
                (">", data(3, "c", 0, 1, 1)),
            )
            self.assertEqual(
                joined(frames, 0),
                [(f"message broken off by {packet.split()[0]}", "ab"), ("message", "c")],
            )
        frames = (
            (">", data(5, "a", 1)),
            ("<", "RR rsp F=0 R=6"),
            (">", "SABM cmd P=1"),
            (">", data(0, "b")),
        )
        self.assertEqual(
            joined(frames), [("message broken off by link set up", "a"), ("message", "b")]
        )


class Rows(unittest.TestCase):
    def test_rows_that_are_laid_out_together(self):
        octets = bytes(range(256)) * 257
        many = [
            octets[-count:] for count in (*range(1, 40), 4096, 65535, 65536, 65537)
        ] + [b"", b"  "]
        for some in many, many[:40]:
            rows = messages.all_dumped([it.hex() for it in some])
            self.assertEqual(rows, [f"\n{messages.dumped(it)}" if it else "" for it in some])
        self.assertEqual(
            messages.dumped(b"a\xff" * 9),
            "    0000 " + " 61 ff" * 8 + "  a." + "a." * 7 + "\n    0010  61 ff" + " " * 44 + "a.",
        )


class Dump(ToolCase):
    def dump(self, given, *words, status=0):
        done = support.run("x25dump.py", *words, given=given)
        self.assertEqual(done.returncode, status, done.stderr)
        return done.stdout.decode()

    def capture(self):
        """Two connections of XOT, with a call and a message each."""
        records = []
        for client in (1, 9):
            stream = samples.xot(CALL, DATA)
            records.append((
                client,
                0,
                samples.ethernet(samples.ipv4(True, samples.tcp(True, 1, stream), client=client)),
            ))
        return samples.pcap(records, link_type=1)

    @support.needs_program
    def test_decoded_lines_with_names(self):
        self.assertEqual(self.dump(DECODED, status=1), SHOWN)
        self.assertEqual(self.dump(gzip.compress(DECODED), status=1), SHOWN)

    def test_comments_empty_lines_and_lines_of_another_system(self):
        given = b"# made by hand\n\n> SABM cmd P=1\n# \xc3\xa4\n"
        self.assertEqual(self.dump(given), given.decode())
        self.assertEqual(
            self.dump(b"\xef\xbb\xbf" + given.replace(b"\n", b"\r\n")), given.decode()
        )
        # A capture begins with the octet of an empty line too.
        self.assertEqual(self.dump(b"\n" + given), "\n" + given.decode())
        self.assertEqual(self.dump(given, "--messages"), "")

    def test_data_that_is_no_digits(self):
        for digits in b"x", b"abc", b"", b"--":
            given = f"> {data(0, 'a')}\n".encode().replace(b"61", digits)
            for words in [], ["--messages"], ["--stats"]:
                self.assertEqual(
                    self.dump(given, *words, status=1).splitlines()[:1],
                    [] if words else ["? 60 no such line"],
                )

    @support.needs_program
    def test_text_that_is_no_trace(self):
        """A line of it is answered as any that is none, and at the end it is said once what was
        looked for."""
        for given, lines in (
            (b"# Notes\n01 3f eb df\n", 2),
            (b"# made by hand\n", 1),
            (b"May 12 10:11:12 TX 01 3f\n", 1),
        ):
            done = support.run("x25dump.py", "--x25", support.PROGRAM, given=given)
            self.assertEqual((done.returncode, done.stdout.count(b"\n")), (1, lines))
            self.assertIn(
                b"nothing was found: the input is no capture, and none of its lines is of a trace",
                done.stderr,
            )

    @support.needs_program
    def test_times_of_the_day(self):
        given = b"".join(
            b"%d.25\t> 013febdf\n" % (86_400 * day) for day in (20_000, 20_000, 20_001)
        )
        environment = {**os.environ, "TZ": "UTC"}
        for words, shown in (
            (
                [],
                "2024-10-04\n00:00:00.250 > SABM cmd P=1\n00:00:00.250 > SABM cmd P=1\n"
                "2024-10-05\n00:00:00.250 > SABM cmd P=1\n",
            ),
            (
                ["--epoch"],
                "".join(
                    f"{86_400 * day}.250000000 > SABM cmd P=1\n"
                    for day in (20_000, 20_000, 20_001)
                ),
            ),
        ):
            command = [
                sys.executable,
                os.path.join(support.TOOLS, "x25dump.py"),
                "--x25",
                support.PROGRAM,
                *words,
            ]
            self.assertEqual(
                subprocess.run(
                    command, input=given, capture_output=True, env=environment, timeout=60
                ).stdout.decode(),
                shown,
            )

    def test_long_data_is_folded(self):
        given = f"> {data(0, 'x' * 32)}\n> {data(1, 'x' * 33)}\n".encode()
        self.assertEqual(self.dump(given), given.decode())
        self.assertEqual(
            self.dump(given, "--fold"),
            given.decode().replace("78" * 33, "78" * 24 + "..(33 octets)"),
        )
        self.assertEqual(self.dump(given, "--fold", "--whole"), given.decode())

    @support.needs_program
    def test_one_channel(self):
        self.assertEqual(
            self.dump(DECODED, "--channel", "7", status=1), "".join(SHOWN.splitlines(True)[2:4])
        )
        self.assertEqual(
            self.dump(
                b"> I cmd P=0 S=0 R=0 | RESTART cause=0 diag=0\n", "--channel", "0"
            ).count("\n"),
            1,
        )

    def test_messages_as_digits_and_text(self):
        given = b"".join(
            b"1.5\t> " + data(number, "x" * 9, int(number == 0)).encode() + b"\n"
            for number in (0, 1)
        )
        rows = (
            "    0000  " + "78 " * 16 + " " + "x" * 16 + "\n    0010  " + "78 78".ljust(48) + " xx"
            "\n"
        )
        self.assertEqual(
            self.dump(given, "--messages"), "1.5 > ch=1 Q=0 message, 18 octets\n" + rows
        )
        for words in ["--messages"], ["--stats"], []:
            done = support.run("x25dump.py", *words, "--channel", "2", given=given)
            self.assertEqual(
                (done.returncode, done.stdout, done.stderr),
                (1, b"", b"x25dump.py: nothing was found on channel 2\n"),
            )

    def test_numbers(self):
        given = (
            b"1.5\t> SABM cmd P=1\n"
            b"2.5\t> " + data(0, "ab").encode() + b"\n3\t> " + data(0, "ab").encode() + b"\n"
        )
        rows = [row.split() for row in self.dump(given, "--stats").splitlines()]
        self.assertEqual(
            rows[:4],
            [
                ["the", "trace", ">", "<"],
                ["I", "2", "0"],
                ["SABM", "1", "0"],
                ["|", "DATA", "2", "0"],
            ],
        )
        self.assertEqual(
            rows[4:],
            [
                ["I", "frames", "out", "of", "order,", "or", "again", "1", "0"],
                ["octets", "of", "data", "4", "0"],
                ["from", "1.5", "to", "3"],
            ],
        )

    @support.needs_program
    def test_packets_in_other_forms(self):
        packets = (
            "50010b1112020101c0", "10010f11120000", "50010041", "10011305", "1000f12110010b",
            "90010b07061149301501320000",
        )
        given = b"".join(
            b"> " + (it + fcs(it)).hex().encode() + b"\n"
            for it in (b"\x01\x00" + bytes.fromhex(packet) for packet in packets)
        )
        self.assertEqual(self.dump(given, "--x25", support.PROGRAM).splitlines(), [
            "> I cmd P=0 S=0 R=0 | CALL ch=1 D=1 called=1 calling=2 fac=0101 data=c0  (reverse "
            "charging) ~ wide",
            "> I cmd P=0 S=0 R=0 | ACCEPT ch=1 called=1 calling=2 fac=- data=00 ~ wide",
            "> I cmd P=0 S=0 R=0 | DATA ch=1 S=0 R=0 M=0 Q=0 D=1 data=41 ~ wide",
            "> I cmd P=0 S=0 R=0 | CLEAR ch=1 cause=5  (network congestion) ~ wide",
            "> I cmd P=0 S=0 R=0 | DIAG diag=33 expl=10010b  (unidentifiable packet) ~ wide",
            "> I cmd P=0 S=0 R=0 | CALL ch=1 A=1 called=1/1/49301 calling=5/0/1320 fac=- data=-  "
            "(called: international number, E.164; calling: type 5, plan 0) ~ wide",
        ])
        self.assertEqual(self.dump(given, "--no-wide", "--x25", support.PROGRAM).count("fault"), 6)
        self.assertEqual(
            self.dump(given, "--channel", "1", "--x25", support.PROGRAM).count("\n"), 5
        )
        self.assertEqual(
            self.dump(given, "--channel", "0", "--x25", support.PROGRAM).count("\n"), 1
        )
        self.assertIn("octets of data", self.dump(given, "--stats", "--x25", support.PROGRAM))

    @support.needs_program
    def test_a_trace_by_the_program(self):
        trace = support.read("examples/exchange.trace")
        text = [
            re.sub(r"  \(.*\)$", "", line)
            for line in self.dump(trace, "--x25", support.PROGRAM).splitlines()
        ]
        self.assertEqual(text, support.decode(trace))
        self.assertIn(
            "Hello, X.25",
            self.dump(
                support.run("x25pcap.py", given=trace).stdout,
                "--messages",
                "--x25",
                support.PROGRAM,
            ),
        )

    @support.needs_program
    def test_a_long_trace_is_answered_in_blocks(self):
        """More than the pipes hold, of short frames whose answers are longer, and of the
        longest."""
        trace = b"> 013febdf\n< 01738357\n> 0\n" * 30_000 + (b"> " + b"00" * 4103 + b"\n") * 100
        text = self.dump(trace, "--x25", support.PROGRAM, status=1).replace(
            "? 60 no such line", "? 60"
        )
        done = subprocess.run(
            [support.PROGRAM, "decode", "--wide"], input=trace, capture_output=True, timeout=60
        )
        self.assertEqual(text, done.stdout.decode())
        judged = self.dump(trace[:60_000], "--judge", "--x25", support.PROGRAM, status=1).replace(
            "? 60 no such line", "? 60"
        )
        self.assertEqual(
            judged,
            subprocess.run(
                [support.PROGRAM, "judge", "--at", "line", "--wide"],
                input=trace[:60_000],
                capture_output=True,
                timeout=60,
            ).stdout.decode(),
        )

    @support.needs_program
    def test_messages_of_a_run_with_losses_have_those_that_its_users_were_told(self):
        """Of random runs each message that a user was told is shown, once and in its order; of
        those shown some may be lost by a reset."""
        count = 0
        for seed in range(1, 13):
            script = support.run("losses.py", str(seed), "400").stdout
            run = subprocess.run(
                [support.PROGRAM, "sim", "--tap"], input=script, capture_output=True, timeout=60
            ).stdout
            shown = shown_messages(self.dump(run, "--messages", "--x25", support.PROGRAM))
            told = re.findall(
                r"^(dte|dce) message ch=(\d+) at \S+ q=(\d) data=(\S+)$",
                run.decode(),
                re.MULTILINE,
            )
            for key in {(end, channel) for end, channel, _, _ in told}:
                rest = iter([it[2:] for it in shown if it[:2] == key])
                with self.subTest(seed=seed, key=key):
                    self.assertTrue(
                        all((q, data) in rest for *at, q, data in told if tuple(at) == key)
                    )
                    count += 1
        self.assertGreater(count, 12)

    @support.needs_program
    def test_connections_of_a_capture(self):
        rows = self.dump(self.capture(), "--x25", support.PROGRAM).splitlines()
        self.assertEqual(
            [rows[0], rows[3]],
            [
                f"connection {number}: XOT 10.0.0.{client}:40000 > 10.0.0.2:1998"
                for number, client in ((1, 1), (2, 9))
            ],
        )
        self.assertEqual(
            rows[4], "9.000000000 #2 > CALL ch=1 called=123 calling=4567 fac=- data=41"
        )
        one = self.dump(
            self.capture(), "--connection", "2", "--messages", "--x25", support.PROGRAM
        )
        self.assertEqual(
            one,
            "9.000000000 #2 > ch=1 Q=0 message, 2 octets\n    0000  "
            + "68 69".ljust(48)
            + " hi\n",
        )
        self.assert_refused(
            support.run(
                "x25dump.py", "--connection", "3", "--x25", support.PROGRAM, given=self.capture()
            ),
            "there is no connection 3: the last is 2",
        )

    @support.needs_program
    def test_a_broken_rule_stands_behind_its_frame(self):
        for name, words, status in (
            ("repeats_with_other_octets", [], 1),
            ("repeats", [], 0),
            ("over_window", ["--k", "2"], 0),
        ):
            case, = golden.cases([f"judge/{name}"])
            given, expected = case.input, case.output
            for more, answered in ([], status), (["--manners"], 1):
                self.assertEqual(
                    self.dump(
                        given, "--judge", *words, *more, "--x25", support.PROGRAM, status=answered
                    ),
                    expected.decode(),
                )
        judged = self.dump(given, "--judge", "--x25", support.PROGRAM)
        self.assertEqual(shown(judged), shown(expected.decode().replace(OVER, "")))
        self.assertEqual(
            self.dump(given, "--judge", "--manners", "--x25", support.PROGRAM), judged
        )
        self.assertEqual(
            self.dump(given, "--judge", "--strict", "--x25", support.PROGRAM, status=1), judged
        )

    @support.needs_program
    def test_connections_are_judged_apart(self):
        frames = [
            b"\x01\x01\x3f",
            b"\x00\x01\x73",
            b"\x01\x01\x00\x10\x01\x01",
            b"\x01\x01\x00\x10\x01\x01",
        ]
        rows = self.dump(
            samples.pcap([(at, 0, frame) for at, frame in enumerate(frames)]),
            "--judge",
            "--at",
            "line",
            "--manners",
            "--x25",
            support.PROGRAM,
            status=1,
        ).splitlines()
        self.assertEqual(
            [" ~ manners: " in row for row in rows], [False] * 4 + [True] + [False] * 4
        )
        judged = self.dump(self.capture(), "--judge", "--x25", support.PROGRAM, status=1)
        note = (
            " ~ note: not judged before a RESTART, a CLEAR or a CALL is answered (4.1): channel 1"
        )
        self.assertEqual(judged.count(note), 2)
        self.assertEqual(
            shown(judged.replace(note, "")), self.dump(self.capture(), "--x25", support.PROGRAM)
        )

    @support.needs_program
    def test_packets_without_frames_are_judged(self):
        """Ten messages, each taken, so that no window of the link is in the way, and then a P(S)
        that skips."""
        ways = [(True, CALL), (False, bytes.fromhex("10010f"))]
        for number in range(10):
            ways += [
                (True, bytes([0x10, 1, number % 8 << 1, 0x41])),
                (False, bytes([0x10, 1, (number + 1) % 8 << 5 | 1])),
            ]
        ways.append((True, bytes([0x10, 1, 3 << 1, 0x41])))
        records, sequences = [], {True: 1, False: 1}
        for at, (is_of_client, packet) in enumerate(ways):
            stream = samples.xot(packet)
            records.append((
                at,
                0,
                samples.ethernet(
                    samples.ipv4(
                        is_of_client, samples.tcp(is_of_client, sequences[is_of_client], stream)
                    )
                ),
            ))
            sequences[is_of_client] += len(stream)
        rows = self.dump(
            samples.pcap(records, link_type=1), "--judge", "--x25", support.PROGRAM, status=1
        ).splitlines()
        self.assertEqual(len(rows), 1 + len(ways) + 3)
        self.assertEqual([row for row in rows if " ! " in row], [rows[-4]])
        self.assertIn("P(S) isn't the next one (4.4.1.1): it should be 2", rows[-4])
        self.assertEqual(
            [row.partition(": ")[0] for row in rows[-3:]],
            ["# dte channel 1", "# dce channel 1", "# told"],
        )

    @support.needs_program
    def test_what_is_told_alone(self):
        case, = golden.cases(["judge/repeats_with_other_octets"])
        whole = self.dump(case.input, "--judge", "--x25", support.PROGRAM, status=1).splitlines()
        told = self.dump(case.input, "--told", "--x25", support.PROGRAM, status=1).splitlines()
        self.assertEqual(told, [row for row in whole if " ! " in row or row[0] == "#"])
        self.assertEqual(len([row for row in told if row[0] != "#"]), 1)

    @support.needs_program
    def test_objects_for_other_programs(self):
        """Each line is one, whatever the line was; numbers are numbers, and digits are text."""
        given = b"1.25\t> 012210010b431234567000417605\n< ..\ndte linkup\n? 60\n# \"\xc3\xa4\n"
        done = support.run("x25dump.py", "--json", "--x25", support.PROGRAM, given=given)
        call, gap, entry, refusal, comment = map(json.loads, done.stdout.decode().splitlines())
        self.assertEqual((call["time"], call["from"], call["connection"]), (1.25, "dte", 1))
        self.assertEqual(call["frame"], {"kind": "I", "is": "cmd", "P": 0, "S": 1, "R": 1})
        packet = {
            "kind": "CALL",
            "ch": 1,
            "called": "123",
            "calling": "4567",
            "fac": "",
            "data": "41",
        }
        self.assertEqual(call["packet"], packet)
        self.assertEqual((gap["gap"], gap["from"], gap["time"]), (True, "dce", None))
        self.assertEqual((entry["from"], entry["entry"]), ("dte", "linkup"))
        self.assertEqual((refusal["line"], comment["line"]), ("? 60", '# "ä'))
        case, = golden.cases(["judge/repeats_with_other_octets"])
        rows = self.dump(case.input, "--json", "--told", "--x25", support.PROGRAM, status=1)
        told, *counts = map(json.loads, rows.splitlines())
        self.assertEqual(told["told"]["end"], "dte")
        self.assertEqual((told["told"]["kind"], told["told"]["is_in_doubt"]), ("rule", False))
        self.assertEqual(counts[-1]["count"], "told: 1 rules, 0 manners")
        for words in ["--json", "--messages"], ["--json", "--stats"], ["--told", "--judge"]:
            self.assertEqual(support.run("x25dump.py", *words).returncode, 2)

    @support.needs_program
    def test_a_capture_without_x25(self):
        done = support.run("x25dump.py", given=samples.pcap([]))
        self.assertEqual((done.returncode, done.stdout), (1, b""))
        self.assertIn(b"nothing was found", done.stderr)

    @support.needs_program
    def test_a_line_is_shown_before_the_next_is_there(self):
        live = support.Live("x25dump.py", "--x25", support.PROGRAM)
        for given, shown in (
            (b"> 013febdf\n", b"> SABM cmd P=1\n"),
            (b"< 01738357\n", b"< UA rsp F=1\n"),
            (b"! 50\n", b"! 50 nothing is on the line\n"),
        ):
            live.give(given)
            self.assertEqual(live.some(), shown)
        self.assertEqual(live.end(), (0, b"", b""))

    @support.needs_program
    def test_ctrl_c_ends_it_with_what_was_judged(self):
        words, pipe = (
            [
                sys.executable,
                os.path.join(support.TOOLS, "x25dump.py"),
                "--judge",
                "--x25",
                support.PROGRAM,
            ],
            subprocess.PIPE,
        )
        # Whoever runs the tests in the background has this signal ignored.
        heed = functools.partial(signal.signal, signal.SIGINT, signal.SIG_DFL)
        with subprocess.Popen(
            words, stdin=pipe, stdout=pipe, stderr=pipe, start_new_session=True, preexec_fn=heed
        ) as child:
            child.stdin.write(b"> 013febdf\n")
            child.stdin.flush()
            self.assertEqual(child.stdout.readline(), b"> SABM cmd P=1\n")
            os.killpg(child.pid, signal.SIGINT)
            told = (
                b"# dte: 1 frames, 1 judged, 0 not judged\n# dce: 0 frames, 0 judged, 0 not "
                b"judged\n# told: 0 rules, 0 manners\n"
            )
            self.assertEqual((child.stdout.read(), child.wait(10)), (told, 130))

    @support.needs_program
    def test_a_capture_is_shown_record_by_record(self):
        live = support.Live("x25dump.py", "--x25", support.PROGRAM)
        live.give(samples.pcap([(5, 0, b"\x01\x01\x3f")]))
        written = live.some()
        while b"SABM" not in written:
            written += live.some()
        self.assertEqual(written, b"connection 1: LAPB\n5.000000000 > SABM cmd P=1\n")
        self.assertEqual(live.end(), (0, b"", b""))

    def test_colours_are_for_a_terminal(self):
        self.assertNotIn("\x1b", self.dump(b"> SABM cmd P=1\n"))
        for environment, has_colour in (({}, True), ({"NO_COLOR": "1"}, False)):
            read, write = pty.openpty()
            command = [
                sys.executable,
                os.path.join(support.TOOLS, "x25dump.py"),
                self.file("decoded", b"> SABM cmd P=1\n"),
            ]
            subprocess.run(
                command, stdout=write, timeout=60, check=True, env={**os.environ, **environment}
            )
            os.close(write)
            self.assertEqual(b"\x1b[" in os.read(read, 1000), has_colour)
            os.close(read)

    def test_refused(self):
        self.assert_refused(
            support.run("x25dump.py", "--x25", "/bin/true", given=b"> 013febdf\n"),
            "didn't answer line by line",
        )
        self.assert_refused(
            support.run("x25dump.py", os.path.join(self.folder, "none")), "No such file"
        )
        self.assert_refused(
            support.run("x25dump.py", given=samples.pcap([])[:9]),
            "the file ends within the file header",
        )
        self.assert_refused(
            support.run("x25dump.py", self.sparse("trace", b"> SABM cmd P=1\n")), "is longer than"
        )
        for words in (
            ["--verdict"],
            ["--messages", "--stats"],
            ["--stats", "--judge"],
            ["--judge", "--k", "8"],
            ["--channel", "4096"],
            ["--strict"],
            ["--manners"],
            ["--stats", "--at", "dte"],
            ["--port", "70000"],
            ["--lapb", "-1"],
        ):
            self.assertEqual(support.run("x25dump.py", *words).returncode, 2)


if __name__ == "__main__":
    unittest.main()
