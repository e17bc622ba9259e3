#!/usr/bin/env python3
"""Times `build/x25 sim` on scripts of several kinds: processor time (user and system), lines of
the script a second of it, time on the clock, and peak memory.

    sim.py [LINES [RUNS [PROGRAM]]]

The kinds: a random script that `tools/losses.py` writes; one that leaves its frames on the line;
and such a one whose last third loses them from the middle of the line, or damages the one in the
middle (of a longer line the furthest that a line of a script can name).
"""
import os
import sys
import tempfile

from building import TOP
from scripts import SET_UP_OF_THREE, SIM_OF_THREE, of_losses
from timing import timed

lines = int(sys.argv[1]) if len(sys.argv) > 1 else 100_000
runs = int(sys.argv[2]) if len(sys.argv) > 2 else 3
program = sys.argv[3] if len(sys.argv) > 3 else os.path.join(TOP, "build", "x25")

POLLS = 240
# The most that a place of a script's line can be.
FURTHEST = 65_535


def frames_left(count):
    """A script of about so many lines, and how many frames it leaves on the line to the DTE:
    answers to polls, one of POLLS delivered."""
    rounds = max(1, count // (2 * POLLS + 2))
    polled = "t1 dte\ndeliver >\n" * POLLS + "deliver <\nlose > 0\n"
    return SET_UP_OF_THREE + "dte send 3 0 61\nlose > 0\n" + polled * rounds, rounds * (POLLS - 1)


def lost_from_the_middle(count):
    script, left = frames_left(count * 2 // 3)
    return script + "".join(f"lose < {min(rest // 2, FURTHEST)}\n" for rest in range(left, 0, -1))


def damaged_in_the_middle(count):
    script, left = frames_left(count * 2 // 3)
    return script + f"damage < {min(left // 2, FURTHEST)} 00ff\n" * left


KINDS = {
    "random": of_losses,
    "frames left on the line": lambda count: frames_left(count)[0],
    "lost from the middle": lost_from_the_middle,
    "damaged in the middle": damaged_in_the_middle,
}

for kind, script_of in KINDS.items():
    text = script_of(lines)
    count = text.count("\n")
    with tempfile.TemporaryFile() as script:
        script.write(text.encode())
        for _ in range(runs):
            # Status 1: some lines of a random script are refused.
            used, seconds, peak = timed(
                [program, *SIM_OF_THREE], script, statuses=(0, 1) if kind == "random" else (0,)
            )
            print(
                f"{kind}: {count:,} lines, {used:.3f} s of processor time, {count / used:,.0f} "
                "lines a second; "
                f"{seconds:.3f} s on the clock; peak memory {peak / 1024:.1f} MB"
            )
