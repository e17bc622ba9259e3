#!/usr/bin/env python3
"""Counts how often `build/x25 sim` takes memory: for a message on a quiet line, sent, delivered
and acknowledged, and for a line of a random script of `tools/losses.py`.

    allocations.py [PROGRAM]

Each figure is that of a script of twice as many rounds less that of the script, by the round, so
that what is set aside once isn't in it. It needs valgrind.
"""
import os
import sys

from building import TOP
from scripts import SET_UP_OF_THREE, SIM_OF_THREE, of_losses
from timing import allocations

program = sys.argv[1] if len(sys.argv) > 1 else os.path.join(TOP, "build", "x25")


def messages(octets, rounds):
    """A script that sends so many messages of so many octets, and delivers all frames after
    each."""
    return SET_UP_OF_THREE + f"dte send 3 0 {'a5' * octets}\ndrain 65535\n" * rounds


KINDS = {
    "a message of 1 octet": (lambda rounds: messages(1, rounds), 1_000),
    "a message of 128 octets": (lambda rounds: messages(128, rounds), 1_000),
    "a message of 1,280 octets": (lambda rounds: messages(1_280, rounds), 200),
    "a line of a random script": (of_losses, 5_000),
}

for kind, (script_of, rounds) in KINDS.items():
    few, many = (
        allocations([program, *SIM_OF_THREE], script_of(count).encode(), statuses=(0, 1))
        for count in (rounds, 2 * rounds)
    )
    print(f"{kind}: {(many - few) / rounds:.2f} allocations")
