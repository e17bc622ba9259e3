#!/usr/bin/env python3
"""Times two link stations in memory (`bench/two_stations.rt.txt`): packets a second, and
allocations a packet.

    link.py [COUNT]

It builds the program first, proved, in a folder of its own under `build/`. The allocations are
counted by valgrind, where that is there.
"""
import sys

from building import built
from timing import rates

rates(
    built("two_stations", "two_stations.rt.txt", "x25_link", ["1", "3"]),
    "packet",
    int(sys.argv[1]) if len(sys.argv) > 1 else 200_000,
)
