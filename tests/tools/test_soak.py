"""Tests of interop/soak.py: it sees messages that are lost, doubled, out of order or changed, and
two stations pass it for some seconds."""

import contextlib
import io
import os
import queue
import re
import subprocess
import sys
import time
import types
import unittest
from unittest import mock

import support
from support import ToolCase

sys.path.append(os.path.join(support.ROOT, "interop"))

import soak  # noqa: E402


def message(number, length=5):
    return soak.octets_of(number, length)


class Checked(unittest.TestCase):
    def setUp(self):
        self.ways = soak.Ways()
        for number in (1, 2, 3):
            self.ways.send(4, message(number))

    def come(self, *numbers):
        for number in numbers:
            self.ways.come(4, message(number))

    def assert_wrong(self, words, *numbers):
        with self.assertRaisesRegex(soak.Wrong, words):
            self.come(*numbers)

    def test_all_comes_back(self):
        self.come(1, 2, 3)
        self.assertEqual(
            (self.ways.messages, self.ways.octets, self.ways.all_under_way()), (3, 27, 0)
        )

    def test_what_is_lost_is_seen(self):
        self.assert_wrong("channel 4: 00000003.* came for 00000002", 1, 3)
        self.assertEqual(self.ways.all_under_way(), 1)

    def test_what_comes_twice(self):
        self.assert_wrong("message 1 came after 1", 1, 1)

    def test_what_comes_out_of_order(self):
        self.assert_wrong("came for 00000001", 2, 1)

    def test_what_is_changed(self):
        with self.assertRaisesRegex(soak.Wrong, "came for"):
            self.ways.come(4, message(1)[:-1] + "0")
        with self.assertRaisesRegex(soak.Wrong, "never sent"):
            self.ways.come(5, message(9))

    def test_an_age_may_drop_what_is_under_way(self):
        self.come(1)
        self.ways.begin_age([4])
        self.ways.send(4, message(6))
        self.assertEqual(self.ways.all_under_way(), 1)
        # An echo of before may still come, but not after a later one.
        self.come(3, 6)
        self.assert_wrong("message 2 came after 6", 2)

    def test_what_an_age_does_not_excuse(self):
        self.ways.begin_age([4])
        for number in (6, 7):
            self.ways.send(4, message(number))
        self.assert_wrong("came for 00000006", 7)


class Judged(ToolCase):
    """Which end broke a rule before what nobody asked for: by the judge's answer, written by
    hand."""

    def test_the_rule_on_its_channel(self):
        it = soak.Round.__new__(soak.Round)
        it.channels, it.lose, it.stats, it.counts, it._ways, it._guest = (
            4, 0, "", soak.Counter(calls=1), soak.Ways(), "the kernel"
        )
        it.unasked = [
            (1100.0, "dce fault ch=2 diag=27"),
            (1100.0, "dce fault ch=3 diag=27"),
            (1100.0, "dce linkdown frmr-sent"),
            (1200.0, "dce fault ch=2 diag=27"),
        ]
        it._ways.messages = 1
        covered = soak.Counter({("dte", "frames", "all"): 1234, ("dte", "frames", "judged"): 9})
        it.judged = lambda: ([(1095.0, "2", "dte: one"), (1096.0, "4", "dte: other")], covered)
        row, (coverage, *lines), is_right = it.row(None)
        self.assertEqual(
            coverage,
            "  judged: of the near end 0 of 0 frames and 0 of 0 packets; of the far end 9 of "
            "1,234 frames and 0 of 0 packets",
        )
        self.assertRegex(lines[0], "fault ch=2 .*by judge dte: one$")
        self.assertRegex(lines[1], "fault ch=3 .*no rule is broken there before it$")
        self.assertRegex(lines[2], "linkdown .*by judge dte: other$")
        self.assertRegex(lines[3], "fault ch=2 .*no rule is broken there before it$")
        self.assertTrue(is_right)
        self.assertEqual(dict(zip(soak.COLUMNS, row))["unasked"], 4)
        self.assertEqual(([coverage, *lines], is_right), it.row(None)[1:])
        row, lines, is_right = it.row("Wrong: lost")
        self.assertEqual(
            (dict(zip(soak.COLUMNS, row))["wrong"], lines[0], is_right),
            (1, "  wrong: Wrong: lost", False),
        )
        it.judged = lambda: ([], soak.Counter({("dte", "frames", "all"): 1234}))
        self.assertEqual(it.row(None)[1][0], "  wrong: x25 judge judged nothing")
        it.judged = lambda: ([], soak.Counter())
        self.assertEqual(it.row(None)[1][0], "  wrong: x25 judge doesn't say how much it judged")
        it._ways.messages = 0
        self.assertEqual(it.row(None)[1][0], "  wrong: no message came back")
        it.counts = soak.Counter()
        row, lines, is_right = it.row(None)
        self.assertEqual(
            (dict(zip(soak.COLUMNS, row))["wrong"], lines[0], is_right),
            (1, "  wrong: no call was made", False),
        )


class OverXot(unittest.TestCase):
    """What the far end's user sends back on a channel that another circuit has by then."""

    def test_another_channel(self):
        ways = soak.Ways(is_xot=True)
        ways.send(4, message(1))
        ways.send(5, message(2))
        ways.begin_age([4])
        ways.come(5, message(1))
        ways.come(5, message(2))
        self.assertEqual((ways.messages, ways.all_under_way()), (1, 0))
        ways.send(5, message(3))
        with self.assertRaisesRegex(soak.Wrong, "came for 00000003"):
            ways.come(5, message(4))


class Tables(unittest.TestCase):
    def test_rows_of_a_kind_are_summed(self):
        one = [4, 3, 1.04, 100, 2000, 30_000, 4, 5, 6, 7, 8, 90_000, 100, 19, 0, 0, 0, 0, 0]
        other = [4, 3, 1.0, 1, 1, 1, 1, 1, 1, 1, 1, 1, 1, 20, 1, 1, 1, 1, 1]
        third = [14, *one[1:]]
        self.assertEqual(
            soak.shown(one),
            "| 4 | 3 | 1.0 | 100 | 2,000 | 30,000 | 4 | 5 | 6 | 7 | 8 | 90,000 | 100 | 19 MB | 0 "
            "| 0 | 0 | 0 | 0 |",
        )
        self.assertEqual(
            soak.summed([one, third, other]),
            [
                [4, 3, 2.04, 101, 2001, 30_001, 5, 6, 7, 8, 9, 90_001, 101, 20, 1, 1, 1, 1, 1],
                third,
            ],
        )


class Halves(unittest.TestCase):
    """What Linux makes of a message in two over a reset, and what it doesn't explain."""

    def setUp(self):
        self.ways = soak.Ways(is_linux=True)
        for number in (1, 2):
            self.ways.send(4, message(number, 300))
        self.ways.begin_age([4])
        self.ways.send(4, message(3))

    def test_a_front_is_joined_to_the_next_message(self):
        self.ways.come(4, message(1, 300)[:256] + message(3))
        self.assertEqual(
            (self.ways.messages, self.ways.halves, self.ways.all_under_way()), (1, 1, 0)
        )

    def test_a_rest_comes_by_itself(self):
        self.ways.come(4, message(2, 300)[256:])
        self.ways.come(4, message(3))
        self.assertEqual((self.ways.messages, self.ways.halves), (1, 1))

    def test_other_octets(self):
        for data in (message(1, 300)[:256] + message(4), "41" * 20 + message(3), message(9)):
            with self.assertRaises(soak.Wrong):
                self.ways.come(4, data)
        with self.assertRaises(soak.Wrong):
            soak.Ways().come(4, message(2, 300)[256:])


class Told(unittest.TestCase):
    """What nobody asked for, by the notices of the near end."""

    def unasked(self, *notices, asked=0, is_xot=False):
        it = soak.Round.__new__(soak.Round)
        it.counts, it.unasked, it._asked_to_set_up = (
            soak.Counter(), [], time.monotonic() - 1000 + asked
        )
        it._options = types.SimpleNamespace(xot=is_xot)
        for line in notices:
            it._count("dce", line.split(" ")[1], dict(soak.FIELD.findall(line)), line)
        return [line for _, line in it.unasked]

    def test_faults_causes_and_links(self):
        odd = [
            "dce fault ch=1 diag=27",
            "dce cleared ch=1 cause=19 diag=20",
            "dce wasreset ch=1 cause=5 diag=1",
            "dce linkdown retries",
            "dce restarted cause=1 diag=0",
        ]
        usual = [
            "dce cleared ch=1 cause=0 diag=0",
            "dce wasreset ch=1 cause=128 diag=0",
            "dce restarted cause=7 diag=0",
            "dce linkup",
        ]
        self.assertEqual(self.unasked(*odd, *usual), odd)
        ends = ["dce cleared ch=1 cause=9 diag=0", "dce cleared ch=1 cause=5 diag=71"]
        self.assertEqual(
            (self.unasked(*ends), self.unasked(*ends, odd[1], is_xot=True)), (ends, [odd[1]])
        )
        links = ["dce linkdown dm", "dce linkdown reset", "dce linkdown frmr-got"]
        self.assertEqual(self.unasked("dce linkdown disc", "dce linkdown local", *links), links)
        self.assertEqual(self.unasked(*links, asked=999), links[2:])


class Guest(unittest.TestCase):
    """What stands on the console of a guest, and whether it goes on."""

    def test_lines_of_the_console(self):
        guest = soak.Guest(None, None)
        for line in (
            "", "accepted 3 from=1", "[   12.345678] lapb: link lost", "connected 4 from=1",
            "accepted", "linked", "closed 3 remote cause=0 diag=0",
        ):
            guest.heed(line)
        self.assertEqual((guest.slots, guest.is_down), ({4}, False))

    def test_a_kernel_that_has_gone_wrong(self):
        wrong = (
            "[   61.1] BUG: scheduling while atomic: init/1/0x00000102",
            "watchdog: BUG: soft lockup - CPU#0 stuck for 26s!",
            "rcu: INFO: rcu_sched self-detected stall on CPU",
        )
        wrong += (
            "[    9.9] Kernel panic - not syncing: Fatal exception",
            "[    9.9] Oops: 0000 [#1] PREEMPT SMP",
            "INFO: task init:1 blocked for more than 120 seconds.",
        )
        for line in wrong:
            it = soak.Round.__new__(soak.Round)
            it.far = soak.Guest(None, None)
            with self.subTest(line), self.assertRaisesRegex(soak.Missing, "the kernel says"):
                it._heed("kernel", line)
        self.assertFalse(
            any(
                map(
                    soak.is_trouble,
                    ("message 3 len=2", "closed 3 remote cause=0 diag=0", "[    1.0] lapb: debug"),
                )
            )
        )

    def guest(self, script):
        """A guest that is a script of the shell."""
        guest = soak.Voice("kernel", ["sh", "-c", script], queue.Queue())
        self.addCleanup(guest.end, 0)
        return guest

    def test_whether_it_goes_on(self):
        with mock.patch.object(soak, "ANSWERING", 1):
            self.assertEqual(
                soak.why_stopped(
                    self.guest("echo message 1; while read line; do echo set; done"), 1
                ),
                "",
            )
            self.assertEqual(
                soak.why_stopped(self.guest("while read line; do echo set; done"), 0),
                "made no call",
            )
            self.assertEqual(
                soak.why_stopped(self.guest("while read line; do :; done"), 1), "doesn't answer"
            )
            for script, why in (
                ("echo panic", "has ended"),
                (
                    "echo '[ 6.1] BUG: scheduling while atomic'; read line",
                    "has a kernel in trouble",
                ),
            ):
                guest, last = self.guest(script), time.monotonic() + 10
                while not (guest.has_ended or guest.troubles) and time.monotonic() < last:
                    time.sleep(0.02)
                self.assertEqual(soak.why_stopped(guest, 1), why)

    def test_one_that_has_stopped_is_booted_anew(self):
        """Whatever has become of it, the next round meets another one."""
        booted, rounds = [], []

        def prepared(_):
            booted.append(self.guest("while read line; do :; done"))
            return booted[-1]

        class Dead:
            counts, covered = soak.Counter(calls=1), soak.Counter()

            def __init__(self, options, number, guest):
                rounds.append(guest)

            def run(self):
                pass

            def row(self, wrong):
                return [0] * len(soak.COLUMNS), [], True

        words = ["soak.py", "--minutes", "0.03", "--guest", "folder"]
        with mock.patch.object(soak, "ANSWERING", 0.5), mock.patch.object(
            soak, "prepared", prepared
        ), mock.patch.object(soak, "Round", Dead), mock.patch.object(
            sys, "argv", words
        ), contextlib.redirect_stdout(io.StringIO()) as said:
            self.assertEqual(soak.main(), 1)
        self.assertGreater(len(rounds), 1)
        self.assertEqual(booted, rounds)
        self.assertIn("  the guest doesn't answer, and is booted anew\n", said.getvalue())


class Ended(unittest.TestCase):
    def test_a_guest_that_ends(self):
        lines = queue.Queue()
        guest = soak.Voice("kernel", ["sh", "-c", "read line; echo panic"], lines)
        guest.tell("link")
        self.assertEqual(lines.get(timeout=10), ("kernel", "panic"))
        guest.end(10)
        self.assertEqual((guest.has_ended, list(guest.last)), (True, ["panic"]))
        guest = soak.Voice("kernel", ["true"], lines)
        last = time.monotonic() + 10
        with self.assertRaisesRegex(soak.Missing, "kernel has ended"):
            while time.monotonic() < last:
                guest.tell("link")
        guest.end(10)


class Packages(ToolCase):
    """What is missing is asked for before anything is built or proved."""

    def asked(self, depends):
        """What build.sh does where apt-cache answers so, and nothing stands at /usr/src."""
        self.file("apt-cache", f"#!/bin/sh\nprintf '{depends}'\n".encode())
        os.chmod(f"{self.folder}/apt-cache", 0o755)
        environment = {**os.environ, "PATH": f"{self.folder}:{os.environ['PATH']}"}
        command = [os.path.join(support.ROOT, "interop", "build.sh"), f"{self.folder}/guest"]
        done = subprocess.run(command, env=environment, capture_output=True, text=True, timeout=60)
        self.assertEqual(
            (done.returncode, done.stdout, os.path.exists(f"{self.folder}/guest")), (2, "", False)
        )
        return done.stderr

    def test_packages_that_are_missing(self):
        said = self.asked("linux-image-amd64\\n  Depends: linux-image-9.9.0-1-amd64\\n")
        self.assertRegex(
            said,
            "^packages are missing: apt-get update && apt-get install --no-install-recommends "
            "linux-source-9.9 linux-headers-9.9.0-1-amd64",
        )

    def test_lists_of_packages_that_are_missing(self):
        self.assertIn("apt-get update", self.asked(""))

    def test_the_page_names_them(self):
        page, script = (
            support.read("interop", name).decode() for name in ("README.md", "build.sh")
        )
        named = set(
            re.search(
                r"install --no-install-recommends (.*?)\n\n", page, re.DOTALL
            )[1].replace("\\", "").split()
        )
        listed = {
            line.split()[1]
            for line in re.search(
                r"<<END\n(.*?)^END", script, re.DOTALL | re.MULTILINE
            )[1].splitlines()
        }
        self.assertEqual(
            named,
            {
                it.replace("$version", "VERSION").replace("$name", "linux-source-6.1")
                for it in listed
            },
        )


class Make(ToolCase):
    def test_a_program_that_stands_there_needs_no_kit(self):
        for name in ("Makefile", "crates.txt"):
            self.file(name, support.read(name))
        for folder in ("crates", "build"):
            os.mkdir(os.path.join(self.folder, folder))
        self.file("build/x25", b"")
        environment = {**os.environ, "MAKEFLAGS": "", "PATH": "/usr/bin:/bin"}
        done = subprocess.run(
            ["make", "-n", "--no-print-directory", "interop"],
            cwd=self.folder,
            env=environment,
            capture_output=True,
            text=True,
            timeout=60,
        )
        self.assertEqual(
            (done.returncode, done.stdout),
            (0, "interop/build.sh build/interop\npython3 interop/play.py build/interop\n"),
            done.stderr,
        )

    def test_the_guest_comes_before_the_program(self):
        for name in ("Makefile", "crates.txt"):
            self.file(name, support.read(name))
        os.mkdir(f"{self.folder}/interop")
        self.file("interop/build.sh", b"#!/bin/sh\necho packages are missing >&2\nexit 2\n")
        os.chmod(f"{self.folder}/interop/build.sh", 0o755)
        done = subprocess.run(
            ["make", "--no-print-directory", "interop"],
            cwd=self.folder,
            env={**os.environ, "MAKEFLAGS": ""},
            capture_output=True,
            text=True,
            timeout=60,
        )
        self.assertEqual((done.returncode, done.stdout), (2, "interop/build.sh build/interop\n"))
        self.assertIn("packages are missing", done.stderr)


@support.needs_station
class Run(ToolCase):
    def test_some_seconds(self):
        for words in ([], ["--xot"]):
            with self.subTest(words):
                # A machine that does much else gets nothing done in a few.
                self.assertTrue(any(self.messages(seconds, *words) > 5 for seconds in (5, 20, 60)))

    def messages(self, seconds, *words):
        """How many messages come in rounds of so many seconds, of which nothing is wrong."""
        command = [
            sys.executable,
            os.path.join(support.ROOT, "interop", "soak.py"),
            "--minutes",
            "0.1",
            "--round",
            str(seconds),
            "--seed",
            "3",
            *words,
        ]
        done = subprocess.run(
            [*command, "--x25", support.PROGRAM, "--traces", self.folder],
            capture_output=True,
            text=True,
            timeout=600,
        )
        rounds, sums = (
            [line for line in table.splitlines() if line.startswith("|")]
            for table in done.stdout.split("\n\n")
        )
        self.assertEqual((sums[:2], len(sums)), (rounds[:2], len(rounds)))
        rows = [dict(zip(soak.COLUMNS, re.split(r" \| ", row.strip("| ")))) for row in rounds[2:]]
        if any(row["calls"] == "0" for row in rows):
            self.assertEqual((done.returncode, done.stderr), (1, ""), done.stdout)
            return 0
        self.assertEqual((done.returncode, done.stderr), (0, ""), done.stdout)
        self.assertRegex(
            done.stdout.splitlines()[-1],
            r"^judged: of the near end [1-9][\d,]* of [\d,]+ frames and [1-9][\d,]* of [\d,]+ "
            r"packets; of the far end [1-9]",
        )
        for row in rows:
            self.assertEqual(
                [row[name] for name in ("wrong", "broken by the near end", "by the far end")],
                ["0"] * 3,
                row,
            )
        return sum(int(row["messages"].replace(",", "")) for row in rows)


if __name__ == "__main__":
    unittest.main()
