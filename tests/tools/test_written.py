"""Tests of the lines that the scripts read: as people have them, and as x25dump.py writes them."""

import os
import unittest

import samples
import support
from support import ToolCase

from x25tools import written

FORMS = b"""10:11:12.5 > 013febdf
2026-03-02
10:11:12.500 < 01 73 83 57
1.5 > 01 3F EB DF 
2026-03-02T10:15:02,25\t> 013febdf
#2 > 013febdf
"""
SHOWN = """10:11:12.5 > SABM cmd P=1
2026-03-02
10:11:12.500 < UA rsp F=1
1.500000000 > SABM cmd P=1
2026-03-02 10:15:02,25 > SABM cmd P=1
#2 > SABM cmd P=1
"""
CALL, ACCEPT, DATA = (
    bytes.fromhex("10010b43123456700041"),
    bytes.fromhex("10010f"),
    bytes.fromhex("1001006869"),
)


def dump(given, *words, **environment):
    return support.subprocess.run(
        [support.sys.executable, os.path.join(support.TOOLS, "x25dump.py"), *words],
        input=given,
        capture_output=True,
        timeout=60,
        env={**os.environ, "TZ": "UTC", **environment},
    )


def xot():
    """Two connections of XOT, with a call and a message each; of the second one some octets
    weren't captured."""
    call, accept, data = (samples.xot(packet) for packet in (CALL, ACCEPT, DATA))
    records = []
    for client in (1, 9):
        rows = [
            (True, 0, b"", 2),
            (True, 1, call),
            (False, 1, accept),
            (True, 1 + len(call) + 2 * (client == 9), data),
        ]
        records += [
            (
                10**9,
                0,
                samples.ethernet(samples.ipv4(way, samples.tcp(way, *rest), client=client)),
            )
            for way, *rest in rows
        ]
    return samples.pcap(records, link_type=1)


class Lines(unittest.TestCase):
    def test_parts(self):
        for line, parts in (
            (b"> 013febdf", ("", 1, written.FRAME, b"> 013febdf")),
            (b"0.5\t#12 < 01 73 8357", ("0.5", 12, written.FRAME, b"< 01738357")),
            (b"> ..  (the capture lacks frames here)", ("", 1, written.GAP, b"> ..")),
            (
                b"> CLEAR ch=1 cause=5  (network congestion) ~ wide",
                ("", 1, written.PACKET_TEXT, b"> CLEAR ch=1 cause=5 ~ wide"),
            ),
            (b"> RR cmd P=0 R=0", ("", 1, written.TEXT, b"> RR cmd P=0 R=0")),
            (
                b"< RR ch=1 R=0 ! dce: no call (4.3)",
                ("", 1, written.PACKET_TEXT, b"< RR ch=1 R=0 ! dce: no call (4.3)"),
            ),
            (b"> INT ch=1 data=xy", ("", 1, written.NONE, b"> INT ch=1 data=xy")),
            (b"> 013", ("", 1, written.NONE, b"> 013")),
            (b"> hello", ("", 1, written.NONE, b"> hello")),
            (b"013febdf", ("", 1, written.NONE, b"013febdf")),
        ):
            with self.subTest(line):
                self.assertEqual(written.read(line), parts)

    def test_lines_without_a_direction(self):
        for line, parts in (
            (b"013febdf", ("", 1, written.FRAME, b"< 013febdf")),
            (b"10:11:12.5 01 3f eb df", ("10:11:12.5", 1, written.FRAME, b"< 013febdf")),
            (b"0.5\t01 3f", ("0.5", 1, written.FRAME, b"< 013f")),
            (b"> 013f", ("", 1, written.FRAME, b"> 013f")),
            (b"", ("", 1, written.NONE, b"")),
            (b"drain 5", ("", 1, written.NONE, b"drain 5")),
        ):
            with self.subTest(line):
                self.assertEqual(written.read(line, "dce"), parts)

    def test_times(self):
        self.assertEqual(written.nanoseconds("10:11:12.5"), 36_672_500_000_000)
        self.assertEqual(written.nanoseconds("1.5"), 1_500_000_000)
        self.assertEqual(
            written.nanoseconds("1970-01-12 00:00:00,25") % 1_000_000_000, 250_000_000
        )
        self.assertIsNone(written.nanoseconds("1.2.3"))


class Dump(ToolCase):
    @support.needs_program
    def test_forms_that_people_have(self):
        done = dump(FORMS, "--x25", support.PROGRAM)
        self.assertEqual((done.stdout.decode(), done.returncode), (SHOWN, 0))
        self.assertEqual(
            support.run("chart.py", "--x25", support.PROGRAM, given=FORMS).stdout.count(
                b"SABM cmd P=1 --"
            ),
            4,
        )
        back = support.run(
            "pcap2x25.py",
            "--time",
            given=support.run("x25pcap.py", given=FORMS.replace(b"2026-03-02\n", b"")).stdout,
        ).stdout.split(b"\n")
        self.assertEqual(
            back[:3],
            [
                b"36672.500000000\t> 013febdf",
                b"36672.500000000\t< 01738357",
                b"1.500000000\t> 013febdf",
            ],
        )

    @support.needs_program
    def test_text_without_directions(self):
        given = b"10:11:12.5 013febdf\n01 3f eb df\n"
        done = dump(given, "--from", "dte", "--x25", support.PROGRAM)
        self.assertEqual(
            (done.stdout, done.returncode), (b"10:11:12.5 > SABM cmd P=1\n> SABM cmd P=1\n", 0)
        )
        done = dump(given, "--x25", support.PROGRAM)
        self.assertEqual((done.stdout.count(b"? 60"), done.returncode), (2, 1))
        self.assertIn(
            b"no direction: --from dte or --from dce says whose frames these are (2)", done.stderr
        )
        self.assertEqual(support.run("x25pcap.py", given=b"013febdf\n").returncode, 2)
        frames = support.run(
            "pcap2x25.py",
            given=support.run("x25pcap.py", "--from", "dce", given=b"013febdf\n").stdout,
        )
        self.assertEqual(frames.stdout, b"< 013febdf\n")

    @support.needs_program
    def test_what_it_writes_it_reads(self):
        """What was shown is shown again as it stands, and its messages are the same; no program is
        needed for that."""
        capture = support.read("examples/line.pcapng")
        for given in capture, xot():
            for words in [], ["--judge"], ["--epoch"]:
                shown = dump(given, *words, "--x25", support.PROGRAM).stdout
                self.assertGreater(shown.count(b"\n"), 8)
                self.assertEqual(dump(shown, X25="/none").stdout.decode(), shown.decode())
                messages = [
                    dump(
                        it,
                        "--messages",
                        *[word for word in words if word != "--judge"],
                        "--x25",
                        support.PROGRAM,
                    ).stdout
                    for it in (given, shown)
                ]
                self.assertEqual(messages[0].decode(), messages[1].decode())
                self.assertIn(b"message, ", messages[1])


if __name__ == "__main__":
    unittest.main()
