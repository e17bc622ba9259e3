#!/usr/bin/env python3
"""Times octets of a synchronous line (`bench/line.rt.txt`): through `put_octets` and
`feed_next_octets`.

    line.py [REPOSITORY]

It builds the program first, proved, in a folder of its own under `build/`, over the `x25_bits` of
this repository, or of the one given. The speeds are in processor time, of the content for
`put_octets`, else of the line; each is the best of three.
"""
import os
import resource
import subprocess
import sys

from building import TOP, built

source = os.path.abspath(sys.argv[1]) if len(sys.argv) > 1 else TOP
CONTENT = 1_030_000


def seconds(call, kind, number, rounds):
    """The processor time of one run, and the count that it writes."""
    before = resource.getrusage(resource.RUSAGE_CHILDREN)
    result = subprocess.run(
        [program, call, kind, str(number), str(rounds)], capture_output=True, text=True, check=True
    )
    after = resource.getrusage(resource.RUSAGE_CHILDREN)
    return after.ru_utime + after.ru_stime - before.ru_utime - before.ru_stime, int(result.stdout)


def speed(call, kind, number):
    """Megaoctets a second, and what is made in a round."""
    started, octets = min(seconds(call, kind, number, 0) for _ in range(3))
    rounds = 1
    taken, count = seconds(call, kind, number, rounds)
    while taken - started < 0.3 and rounds < 4096:
        rounds *= 2
        taken, count = seconds(call, kind, number, rounds)
    taken = min([taken] + [seconds(call, kind, number, rounds)[0] for _ in range(2)])
    size = CONTENT if call == "put" else octets
    return size * rounds / max(taken - started, 1e-9) / 1e6, (count - octets) // rounds


program = built("line", "line.rt.txt", "x25_bits", ["next", "flags", "0", "0"], source)
for kind, numbers in (
    ("random", (4, 130, 1030)), ("text", (4, 130, 1030)), ("flags", range(8)), ("ones", (0,))
):
    for number in numbers:
        what = {"flags": f"flags {number} bits on", "ones": "1 bits"}.get(
            kind, f"frames of {number} {kind} octets"
        )
        shown = []
        for call in ("next",) if kind in ("flags", "ones") else ("put", "next"):
            megaoctets, found = speed(call, kind, number)
            shown.append(
                f"{call} {megaoctets:.1f} MB/s" + (f" ({found} spans)" if call != "put" else "")
            )
        print(f"{what}: " + ", ".join(shown), flush=True)
