"""Tests of chart.py: charts of decoded lines, of lines of a trace, and of runs."""

import os
import unittest
from xml.etree import ElementTree

import support
from support import ToolCase

from x25tools import drawing

FAKE = os.path.join(os.path.dirname(os.path.abspath(__file__)), "fake_x25.py")
DECODED = b"""> SABM cmd P=1
< UA rsp F=1
> I cmd P=0 S=0 R=0 | RESTART cause=0 diag=0
? 60
< fault 2 fcs
"""
DECODED_CHART = """\
  DTE                                              DCE
   |                                                |
   |-- SABM cmd P=1 ------------------------------->|
   |<--------------------------------- UA rsp F=1 --|
   |-- I cmd P=0 S=0 R=0 | RESTART cause=0 diag=0 ->|
   |                      ? 60                      |
   |<-------------------------------- fault 2 fcs --|
"""
RUN = b"""> 013febdf
dce linkup
< 01738357
< 03001000fb0700c478
dte linkup
> 01001000fb00007702
! 51
"""
RUN_CHART = """\
  DTE                                                      DCE
   |                                                        |
   |-- SABM cmd P=1 --------------------------------------->|
   |                                                 linkup o
   |<----------------------------------------- UA rsp F=1 --|
   |<--------- I cmd P=0 S=0 R=0 | RESTART cause=7 diag=0 --|
   o linkup                                                 |
   |-- I cmd P=0 S=0 R=0 | RESTART cause=0 diag=0 --------->|
   |                          ! 51                          |
"""
SCRIPT = b"""damage > 0 013febdf
damage > 1 00
damage > 0 00
deliver >
deliver >
t1 dte
drain 5
lose < 0
dte call 1 2 -
"""
SCRIPT_CHART = """\
  DTE                                                                          DCE
   |                                                                            |
   |-- SABM cmd P=1 ----------------------------------------------------------->|
   |                                                                     linkup o
   |<------------------------------------------------------------- UA rsp F=1 --|
   |<----------------------------- I cmd P=0 S=0 R=0 | RESTART cause=7 diag=0 --|
   o linkup                                                                     |
   |~~ I cmd P=0 S=0 R=0 | RESTART cause=0 diag=0 ~~~~~~~~~~~~~~~~~~~ damaged ~>|
   |                                    ! 52                                    |
   |                                    ! 51                                    |
   |                                    ! 50                                    |
   o timer T1 fires                                                             |
   |-- RR cmd P=1 R=0 --------------------------------------------------------->|
   |<--------------------------------------------------------- RR rsp F=1 R=0 --|
   o restarted cause=7 diag=0                                                   |
   |-- RR rsp F=0 R=1 --------------------------------------------------------->|
   |-- I cmd P=0 S=0 R=1 | RESTART cause=0 diag=0 ----------------------------->|
   |                                                   restarted cause=0 diag=0 o
   |                    lost X-------------------------------- RR rsp F=0 R=1 --|
   o call ch=1 at 1.0.0 called=1 calling=2 data=-                               |
   |.. I cmd P=0 S=1 R=1 | CALL ch=1 called=1 calling=2 fac=- ..  on the line .>|
"""
SVG = "{http://www.w3.org/2000/svg}"


class Charts(ToolCase):
    def chart(self, given, *words):
        done = support.run("chart.py", *words, given=given)
        self.assertEqual((done.returncode, done.stderr), (0, b""))
        return done.stdout.decode()

    def test_decoded_lines(self):
        self.assertEqual(self.chart(DECODED, "--width", "48"), DECODED_CHART)

    def test_a_run_with_its_tap(self):
        self.assertEqual(self.chart(RUN, "--width", "56", "--x25", FAKE), RUN_CHART)

    def test_a_script_shows_what_it_loses_and_damages(self):
        self.assertEqual(self.chart(SCRIPT, "--script", "--x25", FAKE), SCRIPT_CHART)

    def test_times(self):
        self.assertTrue(self.chart(b"1.5\t> SABM cmd P=1\n").endswith(">|  1.5\n"))
        self.assertTrue(
            self.chart(b"1.5\t> 013febdf\n", "--x25", FAKE).endswith(">|  1.500000000\n")
        )

    @support.needs_program
    def test_a_capture(self):
        """It is drawn as the lines that pcap2x25 writes, one connection of it."""
        capture = os.path.join(support.ROOT, "examples", "line.pcapng")
        trace = support.run("pcap2x25.py", "--time", capture).stdout
        drawn = self.chart(trace, "--x25", support.PROGRAM)
        self.assertEqual(
            (self.chart(b"", "--x25", support.PROGRAM, capture), drawn.count("\n")),
            (drawn, trace.count(b"\n") + 2),
        )
        self.assertRegex(drawn, r"(?m)-- SABM cmd P=1 -+>\|  2026-03-0[123] \d\d:\d\d:02\.000$")
        done = support.run("chart.py", "--connection", "2", capture)
        self.assertEqual(
            (done.returncode, done.stderr),
            (2, b"chart.py: there is no connection 2: the last is 1\n"),
        )

    def test_long_texts_are_cut(self):
        for line in (
            b"> I cmd P=0 S=0 R=0 | DATA ch=1 S=0 R=0 M=0 Q=0 data=" + b"00" * 4096,
            b"dce message ch=1 at 1.0.0 q=0 data=" + b"00" * 65535,
        ):
            rows = self.chart(line + b"\n").splitlines()[2:]
            self.assertEqual([len(row) for row in rows], [81])
            self.assertIn("..", rows[0])

    def test_all_rows_are_as_wide(self):
        rows = [
            drawing.Frame(direction, "x" * length, fate)
            for direction in "<>"
            for length in (0, 1, 30, 200)
            for fate in (None, "lost", "damaged", "on the line")
        ]
        rows += [
            drawing.Entry(end, "y" * length) for end in ("dte", "dce") for length in (0, 200)
        ] + [drawing.Note("z"), drawing.Note("z" * 200)]
        for width in (40, 76, 401):
            self.assertEqual({len(drawing.Text(width).row(row)) for row in rows}, {width + 5})

    def test_svg(self):
        root = ElementTree.fromstring(self.chart(SCRIPT, "--svg", "--script", "--x25", FAKE))
        lines = root.findall(f"{SVG}line")
        sorts = [line.get("class") for line in lines]
        self.assertEqual(
            {sort: sorts.count(sort) for sort in set(sorts)},
            {"life": 2, "frame": 7, "damaged": 1, "lost": 1, "waiting": 1},
        )
        self.assertEqual(len(root.findall(f"{SVG}circle")), 6)
        texts = [text.text for text in root.iter(f"{SVG}text")]
        self.assertIn("RR rsp F=0 R=1  (lost)", texts)
        self.assertIn("timer T1 fires", texts)
        self.assertEqual(texts[:2], ["DTE", "DCE"])
        # An arrow to the DTE goes to the left; that of a lost frame ends before it arrives.
        lost = next(line for line in lines if line.get("class") == "lost")
        self.assertGreater(int(lost.get("x1")), int(lost.get("x2")))
        self.assertGreater(int(lost.get("x2")), int(lines[0].get("x1")))

    def test_svg_of_nothing(self):
        ElementTree.fromstring(self.chart(b"", "--svg"))

    @support.needs_program
    def test_frames_are_decoded_by_the_program(self):
        trace = support.read("examples/exchange.trace")
        decoded = ("\n".join(support.decode(trace)) + "\n").encode()
        self.assertEqual(self.chart(trace, "--x25", support.PROGRAM), self.chart(decoded))

    @support.needs_program
    def test_a_row_is_written_before_the_next_line_is_there(self):
        live = support.Live("chart.py", "--x25", support.PROGRAM)
        live.give(b"> 013febdf\n")
        written = live.some()
        while b"SABM" not in written:
            written += live.some()
        live.give(b"< RR rsp F=0 R=1\n")
        self.assertIn(b"RR rsp F=0 R=1", live.some())
        self.assertEqual(live.end(), (0, b"", b""))

    @support.needs_program
    def test_the_picture_of_the_manual(self):
        picture = self.chart(
            support.read("examples/repeat.trace"), "--svg", "--x25", support.PROGRAM
        )
        self.assertEqual(picture, support.read("docs/repeat.svg").decode())

    @support.needs_program
    def test_nothing_waits_behind_heal(self):
        chart = self.chart(b"lose > 0\nheal\n", "--script", "--x25", support.PROGRAM)
        self.assertEqual(chart.count("lost"), 1)
        self.assertNotIn("on the line", chart)
        self.assertIn("restarted cause=0 diag=0 o", chart)
        chart = self.chart(b"heal\ndte call 1 2 -\n", "--script", "--x25", support.PROGRAM)
        self.assertEqual(chart.count("on the line"), 1)

    @support.needs_program
    def test_many_frames(self):
        chart = self.chart(b"> 013febdf\n? 60\n" * 5000, "--x25", support.PROGRAM)
        self.assertEqual(chart.count("SABM cmd P=1"), 5000)


class Refused(ToolCase):
    def test_lines_that_are_none(self):
        for line in (
            b"x", b"> 0", b"> what", b"dte", b"> SABM cmd P=1\r\r", b"\xff\xfe", b"! x",
            b"dte \x1b[2J",
        ):
            with self.subTest(line):
                self.assert_refused(
                    support.run("chart.py", "--x25", FAKE, given=DECODED + line + b"\n"),
                    "line 6 is no line of decode",
                )

    def test_scripts_that_are_none(self):
        for line in (b"drain 0", b"deliver", b" # comment"):
            with self.subTest(line):
                self.assert_refused(
                    support.run(
                        "chart.py",
                        "--script",
                        "--x25",
                        FAKE,
                        given=b"damage > 0 013febdf\n" + line + b"\n",
                    ),
                    f"line 2 of the script: no such event '{line.decode()}'",
                )

    def test_programs_that_are_none(self):
        for program, words in (
            (os.path.join(self.folder, "none"), "No such file"),
            ("/bin/true", "didn't answer line by line"),
        ):
            self.assert_refused(support.run("chart.py", "--x25", program, given=RUN), words)
        self.assert_refused(
            support.run("chart.py", "--script", "--x25", "/bin/echo", given=b"deliver >\n"),
            "didn't answer event by event",
        )
        self.assert_refused(
            support.run("chart.py", "--script", "--x25", FAKE, given=b"deliver >\n"),
            "sim: the script is another one",
        )

    def test_a_large_sparse_file(self):
        self.assert_refused(
            support.run("chart.py", self.sparse("trace", DECODED)), "line 6 is longer than"
        )

    def test_too_many_rows_for_a_picture(self):
        self.assert_refused(
            support.run("chart.py", "--svg", given=b"? 60\n" * 10_001), "at most 10,000 rows"
        )

    def test_help_and_bad_words(self):
        self.assertEqual(support.run("chart.py", "--help").returncode, 0)
        for words in (["--width", "5"], ["--width", "x"], ["--what"]):
            self.assertEqual(support.run("chart.py", *words).returncode, 2)


if __name__ == "__main__":
    unittest.main()
