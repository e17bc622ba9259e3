"""Tests of x25report.py: what the page says, that a capture can put nothing into it but text, and
what a browser shows of it, where there is one."""

import json
import os
import re
import shutil
import subprocess
import unittest

import samples
import support
from support import ToolCase

from x25tools import x25report
from x25tools.pcap2x25 import Connection
from x25tools.x25lines import fcs

BROWSER = next(
    filter(None, map(shutil.which, ("chromium", "chromium-browser", "google-chrome"))), None
)
OWNED = "document.title='owned'"
HOSTILE = f'</script><script>{OWNED}</script><img src=x onerror="{OWNED}">'


def line(direction, *octets):
    frame = bytes(octets)
    return f"{direction} {(frame + fcs(frame)).hex()}\n"


def report(given, *words, status=None):
    """The page of some octets."""
    done = support.run("x25report.py", *words, "--x25", support.PROGRAM, given=given)
    if status is not None:
        assert done.returncode == status, done.stderr
    return done.stdout.decode()


def rows_of(page):
    """The rows of the timeline of a page."""
    return json.loads(
        re.search(r'<script type="application/json" id="data">(.*?)</script>', page)[1]
    )


def cells_of(page, heading):
    """The cells of the rows below a heading, as text."""
    part = page.split(f"<h2>{heading}</h2>")[1].split("<h2")[0]
    rows = re.findall(r"<tr[^>]*>(<td.*?)</tr>", part)
    return [re.sub("<[^>]*>", "", it.replace("</td>", "|")).split("|")[:-1] for it in rows]


@support.needs_program
class Page(ToolCase):
    def test_it_says_what_there_is(self):
        page = report(support.read("examples", "line.pcapng"), status=0)
        summary = re.sub("<[^>]*>", " ", page.split('<ul id="summary">')[1].split("</ul>")[0])
        self.assertIn(
            "#1 LAPB. The DTE sent 12 frames, the DCE 12; all frames and packets were judged.",
            summary,
        )
        self.assertIn("No end broke a rule for certain; what is told is in doubt once.", summary)
        call, = cells_of(page, "Calls")
        self.assertEqual(
            call[:4] + call[7:],
            ["#1 ch=1", "DTE", "4567", "123", "25", "0", "cleared by the DTE: DTE originated"],
        )
        told, = cells_of(page, "What is told")
        self.assertEqual(told[:2] + told[3:], ["DTE", "in doubt: rule", "1"])
        self.assertIn("P(S) isn", told[2])
        rows = rows_of(page)
        self.assertEqual(len(rows), 24)
        self.assertEqual(rows[0][1:5], [1, ">", None, "SABM cmd P=1"])
        place, = [number for number, row in enumerate(rows) if row[6:7] == ["doubt"]]
        self.assertEqual(rows[place][3], 1)
        self.assertIn("it should be 1, or the capture lacks frames", rows[place][7])

    def test_it_asks_no_network(self):
        page = report(support.read("examples", "xot.pcap"))
        self.assertEqual(re.findall(r"https?:|//[a-z]|src=|@import|url\(|<link", page), [])
        self.assertIn("default-src 'none'", page)

    def test_a_rule_has_the_text_of_the_document(self):
        given = "".join([line(">", 1, 0x3F), line("<", 1, 0x73), line("<", 1, 0x61)]).encode()
        page = report(given, "--at", "line", status=1)
        text = " ".join(support.read("docs", "JUDGE.md").decode().split())
        told = cells_of(page, "What is told")[0][2]
        self.assertIn("N(R) acknowledges what was never sent", told)
        self.assertNotIn("docs/JUDGE.md has its text", told)
        self.assertIn("N(R) acknowledges what was never sent", text)
        self.assertIn("broke a rule once", page)

    def test_hostile_text_stays_text(self):
        given = f"# {HOSTILE}\ndte {HOSTILE}\n> SABM cmd P=1 {HOSTILE}\n@TITLE@ @DATA@\n".encode()
        page = support.run(
            "x25report.py",
            "--x25",
            support.PROGRAM,
            self.file(f"a{HOSTILE.replace('/', '')}@CALLS@", given),
        ).stdout.decode()
        self.assertEqual(page.count("<script"), 2)
        self.assertEqual(page.count("</script>"), 2)
        self.assertEqual(page.count("<img"), 0)
        texts = [row[4] for row in rows_of(page)]
        self.assertIn(f"# {HOSTILE}", texts)

    def test_what_cannot_be_read(self):
        done = support.run(
            "x25report.py",
            "--x25",
            support.PROGRAM,
            given=samples.pcap([(5, 0, b"\x01\x01\x3f")])[:-1],
        )
        self.assertEqual(done.returncode, 2)
        self.assertIn("The file breaks off", done.stdout.decode())
        self.assertIn(b"the file ends within record 1", done.stderr)
        done = support.run("x25report.py", "--x25", support.PROGRAM, given=b"")
        self.assertEqual((done.returncode, b"nothing was found" in done.stderr), (1, True))
        self.assertIn("No call was seen", done.stdout.decode())


class Calls(unittest.TestCase):
    """How a call ended, and by whom."""

    def ended(self, *packets):
        calls = x25report.Calls(Connection(1, "XOT a > b", True))
        calls.take(
            [(str(at), f"{it[0]} I cmd P=0 S=0 R=0 | {it[2:]}") for at, it in enumerate(packets)]
        )
        return [(it.how, it.octets[">"], it.octets["<"], it.accepted != "") for it in calls.all()]

    def test_each_end(self):
        call, accept = "> CALL ch=1 called=1 calling=2 fac=- data=-", "< ACCEPT ch=1 fac=-"
        data = "> DATA ch=1 S=0 R=0 M=0 Q=0 data=6869"
        for packets, ended in (
            (
                (call, accept, data, "> CLEAR ch=1 cause=0 diag=0", "< CLEARCONF ch=1"),
                ("cleared by the DTE: DTE originated", 2, 0, True),
            ),
            (
                (call, "< CLEAR ch=1 cause=13 diag=67"),
                ("refused by the DCE: not obtainable; invalid called address", 0, 0, False),
            ),
            (
                (call, "> CLEAR ch=1 cause=0 diag=0"),
                ("given up by the DTE: DTE originated", 0, 0, False),
            ),
            (
                (call, accept, "< RESTART cause=7 diag=0"),
                ("ended by a restart of the DCE: network operational", 0, 0, True),
            ),
            ((call, accept, data), ("the capture ends while the call is up", 2, 0, True)),
            ((call,), ("the call isn't answered", 0, 0, False)),
        ):
            with self.subTest(packets):
                self.assertEqual(self.ended(*packets), [ended])

    def test_calls_one_after_another(self):
        first = [
            "> CALL ch=1 called=1 calling=2 fac=- data=-",
            "< CLEAR ch=1 cause=1 diag=0",
            "> CLEARCONF ch=1",
        ]
        ended = self.ended(*first, *first[:2], "< CALL ch=2 called=3 calling=4 fac=- data=-")
        self.assertEqual(
            [it[0] for it in ended],
            ["refused by the DCE: number busy"] * 2 + ["the call isn't answered"],
        )


class Trips(unittest.TestCase):
    def test_round_trips_and_what_goes_again(self):
        trips = x25report.Trips()
        trips.begin()
        self.assertEqual(
            [trips.send(number, at) for number, at in ((0, 1.0), (1, 2.0), (1, 3.0), (2, 4.0))],
            [False, False, True, False],
        )
        self.assertIsNone(trips.acknowledge(2, 5.0))
        self.assertEqual(trips.acknowledge(3, 5.5), 1.5)
        self.assertIsNone(trips.acknowledge(3, 6.0))
        self.assertEqual(
            [trips.send(number % 8, 7.0 + number) for number in range(3, 20)], [False] * 17
        )


@support.needs_program
@unittest.skipUnless(BROWSER, "there is no Chromium")
class Browser(ToolCase):
    """What a browser makes of the page."""

    def dom(self, page, fragment=""):
        """The page as it stands once its script has run."""
        path = self.file("page.html", page.encode())
        words = [
            "--headless",
            "--no-sandbox",
            "--disable-gpu",
            f"--user-data-dir={self.folder}/profile",
        ]
        command = [
            BROWSER,
            *words,
            "--window-size=1300,1500",
            "--dump-dom",
            f"file://{path}{fragment}",
        ]
        done = subprocess.run(command, capture_output=True, text=True, timeout=120)
        return done.stdout

    def rows(self, dom):
        """The rows that the timeline shows."""
        shown = dom.partition('<div id="room"')[2].partition("<noscript>")[0]
        parts = re.findall(r'<div class="row([^"]*)"[^>]*>(.*?)</div>', shown)
        return [(kind.strip(), re.sub("<[^>]*>", "|", text)) for kind, text in parts]

    def test_the_timeline(self):
        dom = self.dom(report(support.read("examples", "line.pcapng")))
        rows = self.rows(dom)
        self.assertGreater(len(rows), 15)
        self.assertIn("SABM cmd P=1", rows[0][1])
        self.assertEqual([kind for kind, _ in rows if kind], ["told doubt"])
        self.assertIn("24 of 24 rows", dom)

    def test_many_frames_are_folded(self):
        """Of 100,000 frames a few are there as elements, and it is quick."""
        poll = "".join([line(">", 1, 0x11), line("<", 1, 0x11)])
        given = line(">", 1, 0x3F) + line("<", 1, 0x73) + poll * 50_000 + line("<", 1, 0x61)
        page = report(given.encode(), "--at", "line", status=1)
        self.assertEqual(len(rows_of(page)), 100_003)
        rows = self.rows(self.dom(page))
        self.assertEqual([kind for kind, _ in rows], ["fold", "", "", "", "told rule"])
        self.assertIn("99999 frames of which nothing is told", rows[0][1])
        rows = self.rows(self.dom(page, "#row-50000"))
        self.assertEqual([kind for kind, _ in rows].count("fold"), 2)
        self.assertIn("at", [kind for kind, _ in rows])

    def test_hostile_text_does_nothing(self):
        given = f"# {HOSTILE}\ndte {HOSTILE}\n".encode()
        name = f"a{HOSTILE.replace('/', '')}"
        page = support.run(
            "x25report.py", "--x25", support.PROGRAM, self.file(name, given)
        ).stdout.decode()
        dom = self.dom(page)
        self.assertNotIn("<title>owned", dom)
        self.assertNotIn("<img", dom)
        self.assertEqual(len(self.rows(dom)), 2)

    def test_a_picture(self):
        path = self.file("page.html", report(support.read("examples", "xot-gap.pcap")).encode())
        words = [
            "--headless",
            "--no-sandbox",
            "--disable-gpu",
            f"--user-data-dir={self.folder}/profile",
        ]
        picture = os.path.join(self.folder, "page.png")
        command = [
            BROWSER,
            *words,
            "--window-size=1000,1200",
            f"--screenshot={picture}",
            f"file://{path}",
        ]
        subprocess.run(command, capture_output=True, timeout=120, check=True)
        self.assertEqual(support.read(picture)[:4], b"\x89PNG")


if __name__ == "__main__":
    unittest.main()
