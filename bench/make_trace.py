#!/usr/bin/env python3
"""Writes a trace for `x25 decode`: I frames with DATA packets of 0 to 128 octets, RR frames, and
faults.

    make_trace.py LINES [SEED]

The same numbers give the same trace.
"""
import os
import random
import sys

from building import TOP

sys.path.insert(0, os.path.join(TOP, "tools"))

from x25tools.x25lines import fcs  # noqa: E402


def sealed(octets):
    return octets + fcs(octets)


def data_frame(random, to_dce):
    """An I frame with a DATA packet on one of the channels 1 to 16."""
    ns, nr = random.randrange(8), random.randrange(8)
    ps, pr, more = random.randrange(8), random.randrange(8), random.randrange(2)
    packet = bytes([0x10, random.randint(1, 16), pr << 5 | more << 4 | ps << 1])
    packet += random.randbytes(random.randint(0, 128))
    return sealed(bytes([0x01 if to_dce else 0x03, nr << 5 | ns << 1]) + packet)


def receive_ready(random, to_dce):
    return sealed(bytes([0x03 if to_dce else 0x01, random.randrange(8) << 5 | 0x01]))


def damaged(random, to_dce):
    octets = bytearray(data_frame(random, to_dce))
    octets[random.randrange(len(octets))] ^= 1 << random.randrange(8)
    return bytes(octets)


def main():
    lines = int(sys.argv[1])
    source = random.Random(int(sys.argv[2]) if len(sys.argv) > 2 else 1)
    kinds = [data_frame] * 6 + [receive_ready] * 3 + [damaged]
    for _ in range(lines):
        to_dce = source.random() < 0.5
        octets = source.choice(kinds)(source, to_dce)
        print(">" if to_dce else "<", octets.hex())


if __name__ == "__main__":
    main()
