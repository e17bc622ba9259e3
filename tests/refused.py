#!/usr/bin/env python3
"""Refuses one allocation, each in turn, and looks at what is done then: by the program on golden
cases, and by the player of scripts.

    refused.py [--program PROGRAM] [--player PLAYER] [--every K] [NAME ..]

The program `x25`, where its Nth allocation is refused, has to write a beginning of what the case
wants, say `no memory` on standard error and end with status 3, where `decode` and `deframe` write
nothing; or, where it can do without, as where a list that was filled is made smaller, to do all
that the case wants. The player `x25_refusals` plays scripts at a world, and makes a call that was
refused again: it has to print all that it prints where none is refused, beside which call it was,
and end with status 0. Which calls met how many refusals is said.

N is 1, 2, 3, .. up to the number of allocations of the run; with --every K, N is 1 to 20 and each
Kth from there. With names, these golden cases alone. It needs a C compiler, `cc`, and the GNU C
library. Exit status: 0 all is so, 1 something differs, 2 there is no program, no compiler or no
such case.
"""

from __future__ import annotations

import argparse
import collections
import os
import re
import shutil
import subprocess
import sys
import tempfile
from concurrent.futures import ThreadPoolExecutor
from typing import Iterable

import golden
from program import find_player, find_program

SOURCE = os.path.join(os.path.dirname(os.path.abspath(__file__)), "refuse_allocation.c")
CASES = [
    "deframe/other_spans",
    "frame/trace",
    "decode/packets_of_each_kind",
    "sim/clears_cross",
    "sim/down_connect",
    "sim/early_timer",
    "sim/link_gives_up",
    "sim/lost_message_comes_again",
    "sim/messages_on_a_call",
    "sim/negotiated_call",
    "sim/reset",
    "sim/restart",
    "station/clock_asks_on",
]
FIRST = 20
NO_MEMORY, DONE_WITHOUT = "no memory", "done without"
REFUSED = b" refused\n"
# What is said beside of what a line of a script asks for and doesn't get.
BESIDE = re.compile(rb"^line \d+: ! .*\n", re.MULTILINE)


class Refusing:
    """A program whose allocations can be refused, by a library that is built in a folder."""

    def __init__(self, program: str, folder: str) -> None:
        self.program, self.folder = program, folder
        self.library = os.path.join(folder, "refuse_allocation.so")
        subprocess.run(["cc", "-O2", "-shared", "-fPIC", "-o", self.library, SOURCE], check=True)

    def run(
        self, words: Iterable[str] = (), given: bytes = b"", **named: str
    ) -> subprocess.CompletedProcess[bytes]:
        """Runs the program on these words and octets, with these variables set for the library."""
        environment = {**os.environ, "LD_PRELOAD": self.library, **named}
        return subprocess.run(
            [self.program, *words], input=given, env=environment, capture_output=True, timeout=60
        )

    def allocations(self, words: Iterable[str] = (), given: bytes = b"") -> int:
        """How many allocations the run asks for, where none is refused."""
        file = os.path.join(self.folder, "count")
        self.run(words, given, COUNT=file)
        with open(file) as count:
            return int(count.read())


def chosen(count: int, every: int) -> list[int]:
    """The numbers of the allocations that are refused, of so many."""
    return [number for number in range(1, count + 1) if number <= FIRST or number % every == 0]


def case_answer(refusing: Refusing, case: golden.Case, number: int) -> str:
    """Runs a golden case with this allocation refused; answers NO_MEMORY or DONE_WITHOUT where all
    is as it has to be, else what isn't."""
    done = refusing.run(case.words, case.input, REFUSE=str(number))
    said = BESIDE.sub(b"", done.stderr)
    if (done.stdout, done.returncode, said) == (case.output, case.status, b""):
        return DONE_WITHOUT
    if case.words[0] in ("decode", "deframe") and done.stdout:
        return f"{case.words[0]}, which takes its memory first, wrote {done.stdout[:200]!r}"
    if not case.output.startswith(done.stdout):
        return golden.first_difference(case.output, done.stdout)
    if (done.returncode, said) != (3, b"no memory\n"):
        return f"status {done.returncode}, standard error {done.stderr!r}"
    return NO_MEMORY


def run(program: str, names: list[str], every: int) -> int:
    """Runs the cases; says how many refusals each met, and which allocation was refused where
    something differs; answers how many differ."""
    total = 0
    with tempfile.TemporaryDirectory() as folder, ThreadPoolExecutor(os.cpu_count()) as pool:
        refusing = Refusing(program, folder)
        for case in golden.cases(names):
            count = refusing.allocations(case.words, case.input)
            numbers = chosen(count, every)
            answers = list(pool.map(lambda number: case_answer(refusing, case, number), numbers))
            differing = [
                row for row in zip(numbers, answers) if row[1] not in (NO_MEMORY, DONE_WITHOUT)
            ]
            for number, difference in differing:
                print(f"{case.name}, allocation {number} refused: {difference}")
            print(
                f"{case.name}: {len(numbers)} of {count} allocations refused in turn: "
                f"{answers.count(NO_MEMORY)} no memory, "
                f"{answers.count(DONE_WITHOUT)} done without, {len(differing)} differ"
            )
            total += len(differing)
    return total


def player_answer(refusing: Refusing, whole: bytes, number: int) -> tuple[str | None, str | None]:
    """Runs the player with this allocation refused; answers the call that met it, None where none
    did, and what isn't as it has to be."""
    done = refusing.run(REFUSE=str(number))
    lines = done.stdout.splitlines(keepends=True)
    met = [line for line in lines if line.endswith(REFUSED)]
    text = b"".join(line for line in lines if line not in met)
    if text != whole:
        return None, golden.first_difference(whole, text)
    if (done.returncode, done.stderr) != (0, b""):
        return None, f"status {done.returncode}, standard error {done.stderr!r}"
    if len(met) > 1:
        return None, f"one refusal was met more than once: {b''.join(met)!r}"
    return met[0].removesuffix(REFUSED).decode() if met else None, None


def play(player: str, every: int) -> int:
    """Runs the player; says how many refusals each call met, and which allocation was refused
    where something differs; answers how many differ."""
    with tempfile.TemporaryDirectory() as folder, ThreadPoolExecutor(os.cpu_count()) as pool:
        refusing = Refusing(player, folder)
        whole = refusing.run().stdout
        count = refusing.allocations()
        numbers = chosen(count, every)
        answers = list(pool.map(lambda number: player_answer(refusing, whole, number), numbers))
    differing = [
        (number, difference) for number, (_, difference) in zip(numbers, answers) if difference
    ]
    for number, difference in differing:
        print(f"the player, allocation {number} refused: {difference}")
    met = collections.Counter(name for name, _ in answers if name)
    print(
        f"the player: {len(numbers)} of {count} allocations refused in turn: {sum(met.values())} "
        "met by calls, "
        f"{len(numbers) - sum(met.values()) - len(differing)} by the player itself, "
        f"{len(differing)} differ"
    )
    for name, count in sorted(met.items()):
        print(f"  {name}: {count} refusals")
    return len(differing)


def main() -> int:
    parser = argparse.ArgumentParser(
        description=__doc__, formatter_class=argparse.RawDescriptionHelpFormatter
    )
    parser.add_argument(
        "--program",
        default=find_program(),
        help="the program x25 to run; else the one that was built last",
    )
    parser.add_argument(
        "--player",
        default=find_player(),
        help="the player x25_refusals to run; else the one that was built last",
    )
    parser.add_argument(
        "--every", type=int, default=1, metavar="K", help="refuse each Kth allocation; else each"
    )
    parser.add_argument(
        "name",
        nargs="*",
        help="a golden case or a subject to run; else thirteen cases, and the player",
    )
    options = parser.parse_args()
    every = max(options.every, 1)
    cases, unknown = golden.chosen(options.name or CASES)
    if options.program is None or not os.path.isfile(options.program):
        parser.error("the program x25 isn't built: `make x25` builds it")
    if not options.name and (options.player is None or not os.path.isfile(options.player)):
        parser.error("the player x25_refusals isn't built: `make refused` builds it")
    if shutil.which("cc") is None:
        parser.error("there is no C compiler `cc`")
    if unknown:
        parser.error(f"no such case: {' '.join(unknown)}")
    differing = run(options.program, cases, every)
    if not options.name:
        differing += play(options.player, every)
    print(f"refused allocations: {differing} runs differ")
    return 1 if differing else 0


if __name__ == "__main__":
    sys.exit(main())
