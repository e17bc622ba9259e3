"""Tests of `x25dump.py --judge` on what a capture lacks: frames that are missing, cut or dropped,
and links and circuits that it doesn't judge alike."""

import struct
import subprocess
import unittest

import samples
import support
from support import PROGRAM, ToolCase

import tap_runs
from x25tools.x25lines import fcs

# In the gate; `make judge-runs` plays 1,000.
RUNS = 20
SABM, UA, DISC, SABME = 0x3F, 0x73, 0x53, 0x7F
LACKING = ", or the capture lacks frames"
UNSENT = "N(R) acknowledges what was never sent (2.3.4.9): at most 1"


def command(direction, control, packet=b""):
    """A direction, and the octets of a command."""
    return direction, bytes([1 if direction == ">" else 3, control]) + packet


def response(direction, control):
    """A direction, and the octets of a response."""
    return direction, bytes([3 if direction == ">" else 1, control])


def data(direction, number, acknowledged, octets=b"\x10\x01\x01"):
    """An I frame."""
    return command(direction, acknowledged << 5 | number << 1, octets)


def ready(direction, acknowledged):
    """RR."""
    return response(direction, acknowledged << 5 | 1)


def capture(frames):
    """A capture of frames with their directions; (direction, octets, length on the line) was
    cut."""
    return samples.pcap([
        (at, 0, bytes([direction == ">"]) + octets, *length)
        for at, (direction, octets, *length) in enumerate(frames)
    ])


def trace(frames):
    """The lines of frames with their directions."""
    return "".join(
        f"{direction} {(octets + fcs(octets)).hex()}\n" for direction, octets in frames
    ).encode()


SET_UP = [command(">", SABM), response("<", UA)]
# An I frame that isn't there is acknowledged.
MISSING = [*SET_UP, data(">", 0, 0), ready("<", 1), ready("<", 2)]
# The DCE's UA to the second SABM isn't there, and it is up.
UNANSWERED = [
    *SET_UP,
    command("<", DISC),
    response(">", UA),
    command(">", SABM),
    ready("<", 0),
    command(">", SABM),
    response("<", UA),
    ready("<", 0),
]


@support.needs_program
class Lacking(ToolCase):
    def judged(self, given, *words, status=0):
        """What is told of each frame, and the last line."""
        done = support.run("x25dump.py", "--judge", "--x25", PROGRAM, *words, given=given)
        self.assertEqual(done.returncode, status, done)
        *lines, last = done.stdout.decode().splitlines()
        self.said = done.stderr.decode()
        self.counts = [line for line in lines if line.startswith("# ")]
        return (
            [
                line[line.index(mark) :]
                for line in lines
                for mark in (" ! ", " !? ", " ~ manners: ", " ~? manners: ")
                if mark in line
            ],
            last,
        )

    def test_what_missing_frames_explain_is_marked(self):
        told, last = self.judged(capture(MISSING))
        self.assertEqual(told, [f" !? dce: {UNSENT}{LACKING}"])
        self.assertEqual(last, "# told: 0 rules, 0 manners, 1 in doubt")
        self.assertEqual(self.judged(capture(MISSING), "--strict", status=1), (told, last))

    def test_a_capture_that_has_all_frames(self):
        for at in "line", "dte", "dce":
            told, last = self.judged(capture(MISSING), "--at", at, status=1)
            self.assertEqual((told, last), ([f" ! dce: {UNSENT}"], "# told: 1 rules, 0 manners"))
        self.assertEqual(
            self.judged(trace(MISSING), status=1),
            ([f" ! dce: {UNSENT}"], "# told: 1 rules, 0 manners"),
        )

    def test_what_no_missing_frame_explains_is_not(self):
        self.assertEqual(
            self.judged(capture([*SET_UP, command(">", 0x0D)]), status=1)[0],
            [" ! dte: no frame of LAPB has these octets (2.3.5.4)"],
        )

    def test_the_far_ends_ua_may_have_been_lost(self):
        not_up = "dce: no I frame, RR, RNR or REJ while the link isn't up (2.4.4.2)"
        self.assertEqual(
            self.judged(capture(UNANSWERED), "--at", "line", status=1)[0], [f" ! {not_up}"]
        )
        for at in ["--at", "dte"], []:
            self.assertEqual(
                self.judged(capture(UNANSWERED), *at),
                ([f" !? {not_up}{LACKING}"], "# told: 0 rules, 0 manners, 1 in doubt"),
            )
            self.assertEqual(
                [line.partition(" frames")[0] for line in self.counts], ["# dte: 4", "# dce: 5"]
            )
        self.assertEqual(len(self.judged(capture(UNANSWERED), "--at", "dce", status=1)[0]), 1)

    def test_manners_of_the_far_end(self):
        frames = [*SET_UP, data(">", 0, 0), data(">", 2, 0), data("<", 0, 0), data("<", 2, 0)]
        skips = "N(S) skips (2.4.5.1): it should be 1"
        told, last = self.judged(capture(frames), "--at", "dte", "--manners", status=1)
        self.assertEqual(
            told, [f" ~ manners: dte: {skips}", f" ~? manners: dce: {skips}{LACKING}"]
        )
        self.assertEqual(last, "# told: 0 rules, 1 manners, 1 in doubt")

    def test_a_frame_captured_in_part_may_have_been_any(self):
        whole, (direction, octets) = [*SET_UP, data(">", 0, 0)], data(">", 1, 0)
        frames = [*whole, (direction, octets[:3], len(octets) + 9), ready("<", 2)]
        self.assertEqual(self.judged(capture(frames), "--at", "line", status=1)[0], [])
        self.assertIn("left out: frame that was captured in part (1)", self.said)
        self.assertEqual(self.counts[0], "# dte: 3 frames, 2 judged, 1 not judged")

    def test_frames_that_the_program_dropped(self):
        def file(dropped, statistics=0):
            packets = b""
            for at, (direction, octets) in enumerate(MISSING):
                octets = bytes([0 if direction == ">" else 1, 0, 0, 0, 1]) + octets
                body = struct.pack("<IIIII", 0, 0, at, len(octets), len(octets)) + octets + bytes(
                    -len(octets) % 4
                )
                body += samples.option(2, struct.pack("<I", 2 if direction == ">" else 1))
                packets += samples.block(
                    6,
                    body
                    + samples.option(4, struct.pack("<Q", dropped if at == 4 else 0))
                    + samples.option(0, b""),
                )
            counts = samples.block(
                5,
                struct.pack("<III", 0, 0, 0)
                + samples.option(5, struct.pack("<Q", statistics))
                + samples.option(0, b""),
            )
            return samples.section() + samples.interface(196) + packets + counts

        self.assertEqual(len(self.judged(file(0), "--at", "line", status=1)[0]), 1)
        self.assertEqual(
            self.judged(file(3), "--at", "line", status=1), ([], "# told: 0 rules, 0 manners")
        )
        self.assertIn("left out: frame that the program which captured dropped (3)", self.said)
        self.judged(file(0, 7), status=1)
        self.assertIn(
            "left out: frame that the program which captured dropped, the capture doesn't say "
            "where (7)",
            self.said,
        )
        doubt = "so --at doesn't hold: what was dropped may explain what is told"
        self.assertNotIn(doubt, self.said)
        self.judged(file(0, 7), "--at", "line", status=1)
        self.assertIn(doubt, self.said)

    def test_numbers_modulo_128_are_not_judged(self):
        frames = [
            command(">", SABME),
            response("<", UA),
            command(">", 0, b"\x00\x10\x01\x01"),
            response("<", 1),
            command(">", 2, b"\x00\x10\x01\x01"),
            *SET_UP,
            data(">", 0, 0),
        ]
        self.assertEqual(
            self.judged(capture(frames), "--at", "line"), ([], "# told: 0 rules, 0 manners")
        )
        shown = support.run(
            "x25dump.py", "--judge", "--x25", PROGRAM, given=capture(frames)
        ).stdout.decode()
        self.assertEqual(
            shown.count(" ~ note: not judged from here on: numbers are modulo 128\n"), 1
        )
        self.assertEqual(
            [line.partition(", ")[0] for line in shown.splitlines() if " frames, " in line],
            ["# dte: 5 frames", "# dce: 3 frames"],
        )

    def test_numbers_modulo_128_whose_set_up_is_not_there(self):
        """RR with a second octet of control shows it, where no SABM stands before, or a SABME
        waits for its answer."""
        numbered = [
            (direction, bytes([1 if direction == ">" else 3, at << 1, at << 1]) + b"\x10\x01\x01")
            for at in (5, 6)
            for direction in "><"
        ]
        acknowledged = [("<", bytes([1, 1, 12])), (">", bytes([3, 1, 12]))]
        for set_up, at in (
            ([], []),
            ([], ["--at", "line"]),
            ([command("<", SABME)], ["--at", "dce"]),
            ([*SET_UP, command("<", SABME)], ["--at", "dce"]),
        ):
            given = capture([*set_up, *acknowledged, *numbered, *acknowledged])
            told, last = self.judged(given, *at, status=int(set_up[:2] != SET_UP))
            self.assertEqual((told, last), ([], "# told: 0 rules, 0 manners"))
            self.assertEqual(
                self.counts[0].partition(" judged")[0],
                f"# dte: {4 + (set_up[:2] == SET_UP)} frames, {int(set_up[:2] == SET_UP)}",
            )
        of_five = [("<", bytes([1, 0x21, 0]))]
        told = "dce: no frame of LAPB has these octets (2.3.5.4)"
        self.assertEqual(
            self.judged(capture([*SET_UP, *of_five]), "--at", "line", status=1)[0], [f" ! {told}"]
        )
        self.assertEqual(self.judged(capture([*SET_UP, *of_five]))[0], [f" !? {told}{LACKING}"])
        # I frames alone don't show it, so what is told of them is in doubt.
        alone = [
            (direction, bytes([1 if direction == ">" else 3, at << 1, at << 1]) + b"\x10\x01\x01")
            for at in range(5, 30)
            for direction in "><"
        ]
        told, _ = self.judged(trace(alone))
        self.assertGreater(len(told), 9)
        self.assertEqual({it[:4] for it in told}, {" !? "})

    def test_numbers_modulo_128_that_the_other_end_refuses(self):
        frames = [
            *SET_UP,
            data(">", 0, 0),
            ready("<", 1),
            command(">", SABME),
            response("<", 0x1F),
            *SET_UP,
            data(">", 0, 0),
        ]
        self.assertEqual(
            self.judged(capture(frames), "--at", "line", "--manners"),
            ([], "# told: 0 rules, 0 manners"),
        )
        self.assertEqual(
            [line.partition(" frames")[0] for line in self.counts if " frames" in line],
            ["# dte: 5", "# dce: 4"],
        )

    def test_an_empty_input(self):
        done = support.run("x25dump.py", "--judge", "--x25", PROGRAM)
        self.assertEqual(
            (done.returncode, done.stdout, done.stderr),
            (1, b"", b"x25dump.py: nothing was found: the input is empty\n"),
        )

    def test_how_a_capture_may_be_misread_is_said(self):
        other = [({">": "<", "<": ">"}[direction], octets) for direction, octets in MISSING]
        sealed = [(direction, octets + fcs(octets)) for direction, octets in MISSING]
        for frames, words, said in (
            (MISSING, [], ""),
            (
                other,
                [],
                "x25dump.py: no frame has its sender's address: --swap exchanges the directions\n",
            ),
            (other, ["--swap"], ""),
            (
                sealed,
                [],
                "x25dump.py: each frame ends in its frame check sequence already: --fcs adds "
                "none\n",
            ),
            (sealed, ["--fcs"], ""),
            (
                MISSING,
                ["--fcs"],
                "x25dump.py: no frame ends in its frame check sequence: with --no-fcs each gets "
                "one\n",
            ),
        ):
            done = support.run(
                "x25dump.py", "--judge", "--x25", PROGRAM, *words, given=capture(frames)
            )
            self.assertEqual((done.stderr.decode(), done.returncode), (said, 1 if said else 0))
            self.assertNotIn(b" ! ", done.stdout)
        done = support.run(
            "x25dump.py",
            "--judge",
            "--no-fcs",
            "--x25",
            PROGRAM,
            given=samples.pcap([(0, 0, b"\1\1\x3f")], network_flags=0x1400_0000),
        )
        self.assertIn(b" > SABM cmd P=1\n", done.stdout)

    def test_how_a_trace_may_be_misread_is_said(self):
        swapped = trace(MISSING).replace(b">", b"x").replace(b"<", b">").replace(b"x", b"<")
        bare = b"".join(line[:-4] + b"\n" for line in trace(MISSING).splitlines())
        right = support.run("x25dump.py", "--judge", "--x25", PROGRAM, given=trace(MISSING)).stdout
        for given, word, said in (
            (
                swapped,
                "--swap",
                b"no frame has its sender's address: --swap exchanges the directions",
            ),
            (
                bare,
                "--no-fcs",
                b"no frame ends in its frame check sequence: with --no-fcs each gets one",
            ),
        ):
            done = support.run("x25dump.py", "--judge", "--x25", PROGRAM, given=given)
            self.assertEqual((done.returncode, done.stderr), (1, b"x25dump.py: " + said + b"\n"))
            self.assertNotIn(b" ! ", done.stdout)
            done = support.run("x25dump.py", "--judge", word, "--x25", PROGRAM, given=given)
            self.assertEqual((done.stdout, done.stderr), (right, b""))

    def test_a_trace_of_one_end_alone(self):
        of_dte = trace([command(">", SABM), command(">", DISC), data(">", 0, 0)])
        hint = (
            b"x25dump.py: no frame is of the DCE: if its frames are missing, --at either says so\n"
        )
        for words, sign, status, said in (
            ([], b" ! ", 1, hint),
            (["--at", "line"], b" ! ", 1, hint),
            (["--at", "either"], b" !? ", 0, b""),
        ):
            done = support.run("x25dump.py", "--judge", *words, "--x25", PROGRAM, given=of_dte)
            self.assertEqual((done.returncode, done.stderr), (status, said))
            self.assertIn(sign, done.stdout)

    def test_directions_are_right_where_one_frame_has_its_senders_address(self):
        told = "dce: no frame of LAPB has these octets (2.3.5.4)"
        of_dte = ("<", bytes([1, SABM]))
        self.assertEqual(
            self.judged(trace([of_dte]), status=1),
            ([f" !? {told}, or the frame is misread"], "# told: 0 rules, 0 manners, 1 in doubt"),
        )
        self.assertEqual(
            self.judged(trace([command(">", SABM), of_dte]), status=1)[0], [f" ! {told}"]
        )

    def test_a_tap_that_marks_all_frames_as_of_one_end(self):
        hint = (
            "x25dump.py: all frames are marked as the {}'s, and their addresses are of both ends\n"
        )
        for direction, end in (">", "DTE"), ("<", "DCE"):
            told, _ = self.judged(
                capture([(direction, octets) for _, octets in MISSING]), status=1
            )
            self.assertEqual(self.said, hint.format(end))
            self.assertEqual([it for it in told if it.startswith(" ! ")], [])
            self.assertIn(", or the frame is misread", "".join(told))

    def test_flags_and_bits_are_told(self):
        """Neither needs a word about frame check sequences beside it."""
        turned = bytes(int(f"{octet:08b}"[::-1], 2) for octet in range(256))
        for change, said in (
            (
                lambda octets: b"\x7e" + octets + fcs(octets) + b"\x7e",
                "each frame stands between flags (7e)",
            ),
            (lambda octets: octets.translate(turned), "each frame begins with 80 or c0"),
        ):
            given = [(direction, change(octets)) for direction, octets in MISSING]
            for words in [], ["--fcs"]:
                self.judged(capture(given), *words, status=1)
                self.assertIn(said, self.said)
                self.assertNotIn("check sequence", self.said)

    def test_where_nothing_is_judged_the_status_says_it(self):
        """As of a link whose set-up isn't there."""
        self.judged(capture([data(">", 3, 2), ready("<", 4)]), status=1)
        self.assertEqual(self.said, "x25dump.py: no frame and no packet was judged\n")

    def test_a_capture_that_breaks_off_is_counted_too(self):
        done = support.run("x25dump.py", "--judge", "--x25", PROGRAM, given=capture(MISSING)[:-1])
        self.assertEqual(
            (done.returncode, done.stderr), (2, b"x25dump.py: the file ends within record 5\n")
        )
        self.assertTrue(
            done.stdout.endswith(
                b"# dce: 2 frames, 2 judged, 0 not judged\n# told: 0 rules, 0 manners\n"
            ),
            done.stdout,
        )

    def test_what_has_no_frames_is_not_judged(self):
        for given, said in (
            (
                b"# none\n\n",
                b"nothing was found: the input is no capture, and none of its lines is of a "
                b"trace, as `> 013febdf` is",
            ),
            (
                b"> SABM cmd P=1\n",
                b"nothing was judged: no line has a frame in hexadecimal digits",
            ),
            (
                b"> SABM cmd P=1\n> 013febdf\n",
                b"left out: line of `x25 decode`, which isn't judged (1)",
            ),
        ):
            done = support.run("x25dump.py", "--judge", "--x25", PROGRAM, given=given)
            self.assertEqual((done.returncode, done.stderr), (1, b"x25dump.py: " + said + b"\n"))


@support.needs_program
class Circuits(ToolCase):
    """Packets over TCP."""

    CALL, ACCEPTED, DATA = (
        bytes.fromhex("10010b43123456700041"), bytes.fromhex("10010f"), bytes.fromhex("1001006869")
    )

    def judged(self, ways, status, lost=(), is_opened=False):
        """The lines of a connection whose packets go these ways, and which is seen to be opened;
        those of `lost` weren't captured."""
        syn = samples.tcp(True, 0, b"", 2)
        records, sequences = (
            [(0, 0, samples.ethernet(samples.ipv4(True, syn)))] * is_opened, {True: 1, False: 1}
        )
        for at, (is_of_client, packet) in enumerate(ways):
            stream = samples.xot(packet)
            if at not in lost:
                segment = samples.tcp(
                    is_of_client,
                    sequences[is_of_client],
                    stream,
                    wanted=sequences[not is_of_client],
                )
                records.append((at, 0, samples.ethernet(samples.ipv4(is_of_client, segment))))
            sequences[is_of_client] += len(stream)
        self.captured = samples.pcap(records, link_type=1)
        done = support.run("x25dump.py", "--judge", "--x25", PROGRAM, given=self.captured)
        self.assertEqual(done.returncode, status, done)
        return done.stdout.decode().splitlines()[1:]

    def test_each_end_may_have_a_number_of_its_own(self):
        ways = [
            (True, self.CALL),
            (False, bytes.fromhex("10090f")),
            (True, self.DATA),
            (False, bytes.fromhex("100961")),
        ]
        lines = self.judged(ways, 1)
        self.assertTrue(
            lines[-4].endswith(
                "< RR ch=9 R=3 ! dce: P(R) acknowledges what was never sent (4.4.1.3): at most 1"
            ),
            lines,
        )
        self.assertEqual(
            lines[-3:-1],
            [
                "# dte channel 1: 2 packets, 1 judged, 1 not judged",
                "# dce channel 9: 2 packets, 1 judged, 1 not judged",
            ],
        )

    def test_each_line_has_the_number_of_its_end(self):
        """Also one that ends in it, and a note."""
        ways = [
            (True, self.CALL),
            (False, bytes.fromhex("10090f")),
            (True, bytes.fromhex("1001130000")),
            (False, bytes.fromhex("100917")),
        ]
        self.assertTrue(self.judged(ways, 0)[-4].endswith("< CLEARCONF ch=9"))
        lines = self.judged(
            [
                (True, self.DATA),
                (False, bytes.fromhex("100921")),
                (True, self.DATA),
                (False, bytes.fromhex("100941")),
            ],
            1,
            lost=[2],
        )
        self.assertTrue(
            lines[-4].endswith(
                "< RR ch=9 R=2 ~ note: not judged before a RESTART, a CLEAR or a CALL is answered "
                "(4.1): channel 9"
            ),
            lines,
        )

    def test_one_that_was_captured_from_its_beginning_on_has_no_call_then(self):
        ways = [(True, self.CALL), (False, self.ACCEPTED), (False, self.ACCEPTED)]
        lines = self.judged(ways, 1, is_opened=True)
        self.assertEqual(
            [line[line.index(" ! ") :] for line in lines if " ! " in line],
            [" ! dce: CALL ACCEPTED of no call, or not as proposed (4.1.4, 6.12)"],
        )
        self.assertEqual(
            lines[-3:-1],
            [
                "# dte channel 1: 1 packets, 1 judged, 0 not judged",
                "# dce channel 1: 2 packets, 2 judged, 0 not judged",
            ],
        )
        self.assertEqual(
            [line for line in self.judged(ways, 1, lost=[0], is_opened=True) if " ! " in line], []
        )

    def test_judge_hears_a_link_around_packets_from_x25dump_alone(self):
        ways = [(True, self.CALL), (False, self.ACCEPTED), (True, self.DATA)]
        self.assertIn(
            "# dte channel 1: 2 packets, 2 judged, 0 not judged",
            self.judged(ways, 0, is_opened=True),
        )
        lines = support.run("pcap2x25.py", given=self.captured).stdout
        done = subprocess.run([PROGRAM, "judge"], input=lines, capture_output=True, timeout=60)
        self.assertIn(
            "# dte channel 1: 2 packets, 0 judged, 2 not judged", done.stdout.decode().splitlines()
        )

    def test_a_gap_is_shown_and_stands_in_a_trace(self):
        ways = [
            (True, self.CALL),
            (False, self.ACCEPTED),
            (True, self.DATA),
            (True, self.DATA),
            (False, bytes.fromhex("100141")),
        ]
        lines = self.judged(ways, 1, lost=[2])
        self.assertEqual(
            [line for line in lines if "lacks" in line],
            ["4.000000000 > ..  (the capture lacks frames here)"],
        )
        self.assertIn("lacks", lines[2])
        shown = support.run("pcap2x25.py", given=self.captured).stdout.decode()
        self.assertEqual(
            [line[:4] + line[4:6] for line in shown.splitlines()],
            ["> 0100", "< 0320", "> ..", "> 0122", "< 0342"],
        )

    def test_what_sets_up_a_permanent_circuit_is_named_and_passed_over(self):
        """Nothing is known of its channel after it, and nothing is told of either end."""
        packets = bytes.fromhex("1001f500090202080707"), bytes.fromhex("1001f5")
        ways = [
            (True, packets[0]),
            (False, packets[1]),
            (True, self.DATA),
            (False, bytes.fromhex("100121")),
        ]
        for is_opened in False, True:
            lines = self.judged(ways, 1, is_opened=is_opened)
            words = "  (sets up a permanent circuit of XOT; what it says isn't read)"
            shown = [line.partition(" ")[2] for line in lines[:2]]
            self.assertEqual(
                shown, [f"> PVC ch=1 data=00090202080707{words}", f"< PVC ch=1 data=-{words}"]
            )
            self.assertEqual([line for line in lines if " ! " in line or " !? " in line], [])
        done = support.run("x25dump.py", "--x25", PROGRAM, given=self.captured)
        self.assertIn(b"> PVC ch=1 data=00090202080707  (sets up", done.stdout)
        self.assertEqual(done.returncode, 0)

    def test_behind_a_gap_the_channel_is_not_known(self):
        ways = [
            (True, self.CALL),
            (False, self.ACCEPTED),
            *[(True, bytes([0x10, 1, number << 1, 0x41])) for number in (0, 1, 2)],
            (False, bytes([0x10, 1, 0x61])),
        ]
        self.assertEqual([line for line in self.judged(ways, 0) if "!" in line], [])
        self.assertEqual([line for line in self.judged(ways, 1, lost=[3]) if "!" in line], [])


@support.needs_program
class Runs(ToolCase):
    def test_nothing_is_told_without_doubt(self):
        for seed in range(RUNS):
            self.assertEqual(tap_runs.play(PROGRAM, seed)[0], [], f"seed {seed}")


if __name__ == "__main__":
    unittest.main()
