#!/usr/bin/env python3
"""Counts the instructions that a line of a trace takes `build/x25 judge`, and `decode` beside it,
by callgrind.

    judge.py [PROGRAM]

The traces are what `sim --tap` puts on the line for scripts of the race, at most 5,000 frames of
each; and as many of its mix, which are of no session. What an empty input takes isn't in a figure.
"""
import os
import subprocess
import sys
import tempfile

from building import TOP
from race import mixed, trace as trace_of
from scripts import SIM, both_ways, chance, one_octet, random_line, round_of_16, script, user
from timing import instructions

program = os.path.abspath(sys.argv[1]) if len(sys.argv) > 1 else os.path.join(TOP, "build", "x25")

KINDS = {
    "random lines, 4 channels": (4, random_line, 4_000),
    "16 channels": (16, round_of_16, 60),
    "128 octets both ways": (1, both_ways, 1_000),
    "65,535 octets": (1, lambda: f"dte send 1 0 {user(65_535)}\ndrain 65535\n", 3),
    "one octet": (1, one_octet, 1_500),
}


def frames(channels, one, times):
    """The lines of a trace: the frames that a script puts on the line."""
    made = subprocess.run(
        [program, *SIM, "--channels", str(channels), "--tap"],
        input=script(channels, one, times).encode(),
        stdout=subprocess.PIPE,
    )
    return [line for line in made.stdout.splitlines(True) if line[:2] in (b"> ", b"< ")][:5_000]


def taken(task, trace):
    """The instructions of a run of the task on a trace, less those of an empty one."""
    counts = []
    for lines in (trace, []):
        with tempfile.TemporaryFile() as file:
            file.writelines(lines)
            file.seek(0)
            counts.append(instructions([program, *task], file, (0, 1)))
    return counts[0] - counts[1]


def told(name, trace):
    """Writes the line of a trace."""
    judge, decode = (
        taken(task, trace) / len(trace) for task in (["judge", "--at", "line"], ["decode"])
    )
    print(
        f"{name:24s} judge {judge:6,.0f} a line, decode {decode:5,.0f}: {judge / decode:.2f} times"
    )


for name, (channels, one, times) in KINDS.items():
    chance.seed(name)
    told(name, frames(channels, one, times))
told("a mix of no session", trace_of(mixed, 5_000).encode().splitlines(True))
