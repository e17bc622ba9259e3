"""Tests of `x25 station`: each answer is written before the next line is read, two stations joined
run a call, and the channels of one send in turn."""

import collections
import subprocess
import unittest

import support

from x25tools.piped import Station


@support.needs_program
class Joined(unittest.TestCase):
    def setUp(self):
        self.ends = {end: Station(support.PROGRAM, end) for end in ("dte", "dce")}
        for station in self.ends.values():
            station.begin()
            self.addCleanup(station.__exit__)

    def told(self, end, line):
        """What both ends tell until no frame is on its way any more."""
        entries, lines = [], [(end, line)]
        while lines:
            at, line = lines.pop(0)
            answer = self.ends[at].ask(line)
            entries += answer.notices
            lines += [("dce" if at == "dte" else "dte", frame.text()) for frame in answer.frames]
        return entries

    def test_a_call(self):
        self.assertEqual(
            [station.first for station in self.ends.values()],
            [([], [], None, "off", False, False, None)] * 2,
        )
        up = self.told("dte", "dte connect")
        self.assertEqual(
            sorted(up[1:]),
            [
                "dce linkup",
                "dce restarted cause=0 diag=0",
                "dte linkup",
                "dte restarted cause=7 diag=0",
            ],
        )
        call = "ch=1 at 1.0.0 called=123 calling=4567 data=-"
        self.assertEqual(
            self.told("dte", "dte call 123 4567 -"), [f"dte call {call}", f"dce incoming {call}"]
        )
        self.assertEqual(
            self.told("dce", "dce accept 1"), ["dce accept ch=1", "dte connected ch=1"]
        )
        self.assertEqual(
            self.told("dte", "dte send 1 0 6869"),
            ["dte send ch=1 at 1.0.0 q=0 data=6869", "dce message ch=1 at 1.0.0 q=0 data=6869"],
        )
        self.assertEqual(
            [station.ask("t1 " + end) for end, station in self.ends.items()],
            [([], [], "! 11", "off", True, False, None)] * 2,
        )

    def test_the_end(self):
        """Nothing comes after the last mark, and the status says that something was refused."""
        for line, answer, status in ((b"t1 dte\n", b"! 11\n. off busy\n", 1), (b"", b"", 0)):
            done = subprocess.run(
                [support.PROGRAM, "station", "dte"], input=line, capture_output=True, timeout=60
            )
            self.assertEqual((done.stdout, done.returncode), (b". off busy\n" + answer, status))


@support.needs_program
class Turns(unittest.TestCase):
    """More is sent on each channel than the line carries: in each turn the users of a DTE ask,
    that of the highest channel first, and then FRAMES frames arrive."""

    FRAMES = 8

    def joined(self, channels):
        """Both stations, with a call on each channel, of packets of 128 octets and windows of
        7."""
        words = ["--channels", str(channels)]
        self.ends = {end: Station(support.PROGRAM, end, words) for end in ("dte", "dce")}
        self.line, self.came = collections.deque(), collections.Counter()
        for station in self.ends.values():
            station.begin()
            self.addCleanup(station.__exit__)
        accepts = [f"dce accept {channel + 1}" for channel in range(channels)]
        for line in ["dte connect", *["dte call 1 2 - 7 7 7 7"] * channels, *accepts]:
            self.ask(line[:3], line)
            self.arrives(10)

    def ask(self, end, line):
        answer = self.ends[end].ask(line)
        self.line.extend((end, frame.text()) for frame in answer.frames)
        messages = [entry for entry in answer.notices if entry.startswith("dce message ")]
        self.came.update(entry.split()[2] for entry in messages)

    def arrives(self, frames):
        """So many frames at most arrive, in the order in which they were sent."""
        while frames and self.line:
            end, frame = self.line.popleft()
            self.ask("dce" if end == "dte" else "dte", frame)
            frames -= 1

    def test_no_channel_waits_for_the_others(self):
        for channels, turns in ((4, 100), (16, 120), (60, 160)):
            with self.subTest(channels):
                self.joined(channels)
                for _ in range(turns):
                    for channel in range(channels, 0, -1):
                        self.ask("dte", f"dte send {channel} 0 -")
                    self.arrives(self.FRAMES)
                counts = [self.came[f"ch={channel + 1}"] for channel in range(channels)]
                self.assertGreater(sum(counts), turns)
                self.assertLessEqual(max(counts) - min(counts), 1, counts)


if __name__ == "__main__":
    unittest.main()
