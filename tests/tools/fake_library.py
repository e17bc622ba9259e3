"""A library for C that plays what a test says, for the tests of the binding of Python: no station
is behind it."""

import ctypes
import time

from x25tools import linked  # noqa: F401, which finds x25
import x25

FRAME, TIMER = 1, 2


def number(size):
    """The number in a size that was converted for C, `<cparam 'L' (64)>`."""
    return int(repr(size).rpartition("(")[2].rstrip(")>"))


class Library:
    """Each call that lets something happen takes the next row of `plays`: its number, the frames,
    the kinds of events and the timer that it leaves. Without rows it gives back the octets that
    come. Of frames that come at once, each takes a row."""

    def __init__(self, plays=()):
        self.plays = list(plays)
        self.items = []

    def _happen(self, octets=b""):
        number, frames, kinds, timer = self.plays.pop(0) if self.plays else (0, [octets], [], 0)
        if number == 0:
            self.items = [
                *((FRAME, octets, 0) for octets in frames),
                *((kind, b"", 0) for kind in kinds),
                (TIMER, b"", timer),
            ]
        return number

    def x25_new(self, slot, end, settings):
        return 0

    def x25_free(self, slot):
        pass

    def x25_connect(self, slot):
        return self._happen()

    def x25_receive(self, slot, octets, count):
        return self._happen(octets)

    def x25_receive_all(self, slot, octets, count, counts, most, taken):
        whole, refusal, done = [], 0, 0
        for done in range(number(most)):
            refusal = self._happen()
            if refusal:
                break
            whole += self.items[:-1]
        self.items = [*whole, (TIMER, b"", self.items[-1][2])]
        taken._obj.value = done
        return refusal

    def x25_take_all(self, slot, first, items, most, room, size):
        time.sleep(0)
        taken = self.items[number(first) : number(first) + number(most)]
        for i, (kind, octets, timer) in enumerate(taken):
            x25._ITEM.pack_into(
                items._obj, i * x25._ITEM.size, kind, *[0] * 10, timer, 0, 0, 0, len(octets), 0
            )
        octets = b"".join(octets for _, octets, _ in taken)
        ctypes.memmove(room, octets, len(octets))
        time.sleep(0)
        return len(taken)

    def x25_refusal_text(self, number, room, size):
        ctypes.memmove(room, b"why", 3)
        return 3
