#!/usr/bin/env python3
"""Times two stations in memory (`bench/station.rt.txt`): messages a second, and allocations a
message.

    station.py [COUNT]

It builds the program first, proved, in a folder of its own under `build/`. The allocations are
counted by valgrind, where that is there.
"""
import sys

from building import built
from timing import rates

rates(
    built("stations", "station.rt.txt", "x25_station", ["1", "3"]),
    "message",
    int(sys.argv[1]) if len(sys.argv) > 1 else 100_000,
)
