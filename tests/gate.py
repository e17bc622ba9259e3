#!/usr/bin/env python3
"""The whole gate: `rt ci`, then the library for C, then the golden cases on the programs that it
left, then the tests of the tools.

The tests of the tools that need no program run before, too: they take a minute, and the first that
fails ends the gate. The line 'N passed, M failed' of `rt ci` is held back, and the last line is
one such line that counts all three: proofs and must-fail edits, the library for C, a golden case
for each build of the program, a test of the tools. The line before it has the minutes of
processors that the whole run and each part took, and those on the clock. Exit status: 0 nothing
failed, 1 something did.
"""

from __future__ import annotations

import os
import re
import resource
import shutil
import subprocess
import sys
import time

import check_tools
import golden
from program import ROOT

CLOSING = re.compile(r"(\d+) passed, (\d+) failed\n?")
# What `rt ci` leaves: LLVM's build, and that of Rattle's own compiler where that compiles the
# program.
BUILD, SECOND_BUILD = "crates/x25/out/x25", "crates/x25/out/x25.by-rattle"
PLAYER = "crates/x25_refusals/out/x25_refusals"


def quick() -> bool:
    """Runs the tests of the tools that need no program, before all else; answers whether they
    pass."""
    command = [sys.executable, os.path.join(ROOT, "tests", "check_tools.py"), "--first-failure"]
    return subprocess.run(
        command, cwd=ROOT, env={**os.environ, "X25": "", "X25_REFUSALS": "", "X25_LIBRARY": ""}
    ).returncode == 0


def proofs() -> tuple[int, int]:
    """Runs `rt ci`, passing on what it prints but for its closing line; answers the numbers of
    that line."""
    counts = None
    with subprocess.Popen(
        ["rt", "ci"], cwd=ROOT, stdout=subprocess.PIPE, text=True, errors="replace"
    ) as child:
        for line in child.stdout or ():
            closing = CLOSING.fullmatch(line)
            if closing:
                counts = int(closing[1]), int(closing[2])
            else:
                print(line, end="", flush=True)
    passed, failed = counts or (0, 1)
    return passed, max(failed, 1) if child.returncode else failed


def library() -> tuple[int, int]:
    """Builds the library for C over what `rt ci` left, where there is a C compiler and rt takes
    that; answers how many archives were built and how many not."""
    if not shutil.which("cc"):
        print("the library for C: left out, for there is no C compiler")
        return 0, 0
    status = subprocess.run(
        [os.path.join(ROOT, ".ci", "prove"), "--built", "x25_c"], cwd=ROOT
    ).returncode
    if status == 3:
        return 0, 0
    if status == 0:
        status = subprocess.run(["make", "-s", "build/libx25.so"], cwd=ROOT).returncode
    return (1, 0) if status == 0 else (0, 1)


def golden_cases() -> tuple[int, int]:
    """Runs the golden cases on each build of the program; without the first they have failed."""
    passed = failed = 0
    for build in (BUILD, SECOND_BUILD):
        program = os.path.join(ROOT, build)
        if os.path.isfile(program):
            agreeing, differing = golden.run(program, golden.names())
            print(f"golden cases on {build}: {agreeing} agree, {differing} differ")
            passed, failed = passed + agreeing, failed + differing
        else:
            print(f"golden cases: {build} isn't there")
            failed += build == BUILD
    return passed, failed


def tools() -> tuple[int, int]:
    """Runs the tests of the tools, those that need a program on the one that `rt ci` built."""
    os.environ["X25"] = os.path.join(ROOT, BUILD)
    os.environ["X25_REFUSALS"] = os.path.join(ROOT, PLAYER)
    return check_tools.run()


def processor_seconds() -> float:
    """The processor time of this process and of all below it that have ended."""
    return sum(
        usage.ru_utime + usage.ru_stime
        for usage in map(resource.getrusage, (resource.RUSAGE_SELF, resource.RUSAGE_CHILDREN))
    )


def main() -> int:
    begun = time.monotonic()
    if not quick():
        print("0 passed, 1 failed")
        return 1
    counts: list[tuple[int, int]] = []
    spent: list[str] = []
    for name, part in (
        ("rt ci", proofs),
        ("library for C", library),
        ("golden cases", golden_cases),
        ("tools", tools),
    ):
        before = processor_seconds()
        counts.append(part())
        spent.append(f"{name} {(processor_seconds() - before) / 60:.1f}")
    passed, failed = (sum(column) for column in zip(*counts))
    print(
        f"{processor_seconds() / 60:.1f} processor minutes ({', '.join(spent)}), "
        f"{(time.monotonic() - begun) / 60:.0f} on the clock"
    )
    print(f"{passed} passed, {failed} failed")
    return 1 if failed else 0


if __name__ == "__main__":
    sys.exit(main())
