#!/usr/bin/env python3
"""Times `build/x25 decode` on a made trace: processor time (user and system), lines and MB a
second of it, time on the clock, and peak memory; and `wc -l` on the same trace, which only reads
it.

    decode.py [LINES [RUNS]]
"""
import os
import subprocess
import sys
import tempfile

from building import TOP
from timing import timed

program = os.path.join(TOP, "build", "x25")
lines = int(sys.argv[1]) if len(sys.argv) > 1 else 300_000
runs = int(sys.argv[2]) if len(sys.argv) > 2 else 3

with tempfile.TemporaryFile() as trace:
    subprocess.run(
        [sys.executable, os.path.join(TOP, "bench", "make_trace.py"), str(lines)],
        stdout=trace,
        check=True,
    )
    size = trace.tell()
    for _ in range(runs):
        reading, _, _ = timed(["wc", "-l"], trace)
        used, seconds, peak = timed([program, "decode"], trace)
        print(
            f"{used:.3f} s of processor time, {lines / used:,.0f} lines a second, "
            f"{size / used / 1e6:.1f} MB a second; "
            f"{seconds:.3f} s on the clock; wc -l {reading:.3f} s; peak memory {peak / 1024:.1f} "
            "MB"
        )
