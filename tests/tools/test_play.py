"""Tests of interop/play.py: the facilities that the kernel's calls have, beside a guest and a
station that are none."""

import os
import sys
import unittest

import support
from support import ToolCase

sys.path.append(os.path.join(support.ROOT, "interop"))
import play  # noqa: E402
from kernel import Missing  # noqa: E402


class Standing:
    """A guest and a station: the guest calls with some facilities, and the station tells of the
    call as it is told to."""

    patience = 1

    def __init__(self, trace, facilities, data):
        self.trace, self.told, self.guest, self.ours = trace, [], self, self
        field = bytes.fromhex(facilities)
        call = (
            bytes.fromhex("010010010b33222111") + bytes([len(field)]) + field + bytes.fromhex(data)
        )
        with open(trace, "w") as file:
            file.write(f"0.1\t< {call.hex()}0000\n0.2\t> {call.hex()}0000\n0.3\t> 03210000\n")

    def order(self, command, _):
        self.told.append(command)

    def tell(self, command):
        self.told.append(command)

    def mark(self):
        return 0

    def heed(self, command, _):
        self.told.append(command)
        return "dce incoming ch=1 at 1.0.0 called=111 calling=222 data=aabb"

    def hear(self, *_):
        return ["connected 3 size=7,7 win=2,2"]

    def both(self, act, *_):
        act()


class Facilities(ToolCase):
    def test_how_they_are_spelled(self):
        """Fast select with reverse charging, throughput, and after a marker address extensions, of
        both ends (7.2.2)."""
        self.assertEqual(play.facilities_of("0", "0", "-", "-"), (b"", b""))
        self.assertEqual(
            play.facilities_of("bb", "81", "-", "-"), (bytes.fromhex("018102bb"), b"")
        )
        self.assertEqual(
            play.facilities_of("0", "0", "12345", "678"),
            (b"", bytes.fromhex("000fcb0405123450c903036780")),
        )

    def test_a_call_that_comes_with_them(self):
        it = Standing(f"{self.folder}/trace", "018102bb420707430202000fc903036780", "aabb")
        play.taken(it, ("bb", "81", "-", "678"), "aabb")
        self.assertEqual(
            it.told, ["options bb 81 - 678", "call 111 222 aabb", "dce accept 1", "dce clear 1"]
        )

    def test_a_call_that_comes_otherwise(self):
        for facilities, data in (("0181", "aabb"), ("018102bb", "aabbcc")):
            with self.assertRaises(Missing):
                play.taken(
                    Standing(f"{self.folder}/trace", facilities, data),
                    ("bb", "81", "-", "-"),
                    data,
                )


if __name__ == "__main__":
    unittest.main()
