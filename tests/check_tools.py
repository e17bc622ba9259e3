#!/usr/bin/env python3
"""Runs the tests of tests/tools, several files at once, and says which were left out, and why.

    check_tools.py [--first-failure] [--jobs N] [NAME ..]

A NAME is that of a file tests/tools/test_NAME.py; with none, all are run: first those that most
changes can break, which take seconds. Each file runs in a process of its own, and is told in that
order. With --first-failure the first test that fails is the last one that is told.

Some are of the scripts of tools/, .ci/ and tests/, some of the documents, and those that need the
program run it: the one that the variable X25 names, or else the one that was built last, build/x25
or crates/x25/out/x25. Where that isn't there, or tshark, groff or another of the programs that
some compare with, these tests are left out.

Exit status: 0 all that ran pass, 1 one fails, 2 for bad words.
"""

from __future__ import annotations

import argparse
import json
import os
import subprocess
import sys
import time
import unittest
from collections import Counter
from concurrent.futures import ThreadPoolExecutor
from typing import Any, NamedTuple, Sequence

FOLDER = os.path.join(os.path.dirname(os.path.abspath(__file__)), "tools")
FIRST = ["edits", "sources", "golden", "crates", "said", "documents"]
# Those that take longest begin after these.
LONGEST = ["oracle", "silent", "judge", "peers", "bridge", "bridged", "pad", "xot_wire", "dump"]
# How many of the tests that take longest are named.
SLOWEST = 10


class Result(unittest.TextTestResult):
    """A result that counts the tests that pass, and keeps how long each took."""

    def __init__(self, *given: Any, **named: Any) -> None:
        super().__init__(*given, **named)
        self.passed = 0
        self.seconds: dict[str, float] = {}

    def startTest(self, test: unittest.TestCase) -> None:
        self._begun = time.monotonic()
        super().startTest(test)

    def stopTest(self, test: unittest.TestCase) -> None:
        self.seconds[test.id()] = time.monotonic() - self._begun
        super().stopTest(test)

    def addSuccess(self, test: unittest.TestCase) -> None:
        super().addSuccess(test)
        self.passed += 1


class Told(NamedTuple):
    """What a file of tests came to: its counts, why some were left out, and how long each took."""

    passed: int
    failed: int
    left_out: dict[str, int]
    seconds: dict[str, float]


def names() -> list[str]:
    """The names of all files of tests, in the order in which they are told."""
    files = (os.path.splitext(file) for file in os.listdir(FOLDER) if file.startswith("test_"))
    found = sorted(name[len("test_") :] for name, ending in files if ending == ".py")
    return sorted(found, key=lambda name: place_of(name, FIRST))


def place_of(name: str, some: Sequence[str]) -> int:
    """The place of a name among some; after all of them where it isn't there."""
    return some.index(name) if name in some else len(some)


def alone(name: str, at_first_failure: bool) -> int:
    """Runs a file in this process; the last line on standard output is what it came to."""
    sys.path.insert(0, FOLDER)
    tests = unittest.defaultTestLoader.loadTestsFromName(f"test_{name}")
    runner = unittest.TextTestRunner(resultclass=Result, failfast=at_first_failure)
    result = runner.run(tests)
    assert isinstance(result, Result)
    bad = len(result.failures) + len(result.errors) + len(result.unexpectedSuccesses)
    left_out = Counter(reason for _, reason in result.skipped)
    print(json.dumps(Told(result.passed, bad, left_out, result.seconds)))
    return 1 if bad else 0


def told_of(name: str, at_first_failure: bool) -> tuple[str, Told]:
    """Runs a file in a process of its own; answers what is to be said of it, and what it came
    to."""
    command = [sys.executable, os.path.abspath(__file__), "--alone", name]
    command += ["--first-failure"] * at_first_failure
    done = subprocess.run(
        command, stdin=subprocess.DEVNULL, capture_output=True, text=True, errors="replace"
    )
    *said, last = done.stdout.splitlines() or [""]
    try:
        told = Told(*json.loads(last))
    except (ValueError, TypeError):
        said, told = [*said, last], Told(0, 1, {}, {})
    seconds = sum(told.seconds.values())
    line = f"{name}: {told.passed} passed, {told.failed} failed, {seconds:.1f} seconds"
    return "\n".join([*said, done.stderr.strip("\n"), line] if told.failed else [line]), told


def run(
    chosen: Sequence[str] = (), at_first_failure: bool = False, jobs: int = 0
) -> tuple[int, int]:
    """Runs the tests; answers how many pass and how many fail. Those left out count as neither."""
    passed = failed = 0
    left_out: Counter[str] = Counter()
    seconds: dict[str, float] = {}
    with ThreadPoolExecutor(jobs or len(os.sched_getaffinity(0)) + 1) as pool:
        told_in_order = chosen or names()
        begun = sorted(told_in_order, key=lambda name: place_of(name, FIRST + LONGEST))
        files = {name: pool.submit(told_of, name, at_first_failure) for name in begun}
        for name in told_in_order:
            text, told = files[name].result()
            print(text, flush=True)
            passed, failed = passed + told.passed, failed + told.failed
            left_out.update(told.left_out)
            seconds.update(told.seconds)
            if failed and at_first_failure:
                pool.shutdown(wait=False, cancel_futures=True)
                break
    for test, time_taken in sorted(seconds.items(), key=lambda it: -it[1])[:SLOWEST]:
        print(f"{time_taken:6.1f} seconds: {test}")
    for reason, count in left_out.items():
        print(f"left out: {count} tests, for {reason}")
    return passed, failed


def main() -> int:
    parser = argparse.ArgumentParser(
        description=__doc__, formatter_class=argparse.RawDescriptionHelpFormatter
    )
    parser.add_argument(
        "--first-failure", action="store_true", help="end at the first test that fails"
    )
    parser.add_argument(
        "--jobs",
        type=int,
        default=0,
        metavar="N",
        help="how many files at once (processors and one)",
    )
    parser.add_argument("--alone", metavar="NAME", help=argparse.SUPPRESS)
    parser.add_argument(
        "name",
        nargs="*",
        choices=[*names(), []],
        metavar="NAME",
        help="a file tests/tools/test_NAME.py to run; else all",
    )
    options = parser.parse_args()
    if options.alone:
        return alone(options.alone, options.first_failure)
    passed, failed = run(options.name, options.first_failure, options.jobs)
    print(f"{passed} passed, {failed} failed")
    return 1 if failed else 0


if __name__ == "__main__":
    sys.exit(main())
