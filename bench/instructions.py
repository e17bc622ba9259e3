#!/usr/bin/env python3
"""Counts what a line of a script takes `build/x25 sim`: instructions, and loads that can't be
forwarded from the stores just before them.

    instructions.py [PROGRAM [--functions]]

A load waits for a store that it overlaps and that doesn't hold all of it, some 12 cycles. Here it
counts where that is the last such store of the 40 before it, at most 120 instructions ago. Each
figure is that of a script of twice as many rounds less that of the script, by the line, so that
what is done once isn't in it. With `--functions` the loads are also told by function. It needs
valgrind, and for the functions objdump.
"""
import bisect
import collections
import os
import subprocess
import sys
import tempfile

from building import TOP
from scripts import POLLING, SIM, both_ways, chance, one_octet, refused, set_up, undelivered
from timing import instructions

given = [word for word in sys.argv[1:] if not word.startswith("--")]
program = given[0] if given else os.path.join(TOP, "build", "x25")

STORES, REACH = 40, 120

KINDS = {
    "messages of one octet": ("", one_octet, 200),
    "messages of 128 octets both ways": ("", both_ways, 100),
    "refusals": ("", refused, 400),
    "frames that aren't delivered": (POLLING, undelivered, 1),
}


class Loads:
    """The loads of a run that couldn't be forwarded, by the address of the instruction, counted as
    the run goes on."""

    def __init__(self):
        self.stores = collections.deque(maxlen=STORES)
        self.held_back = collections.Counter()
        self.instructions, self.address = 0, 0

    def take(self, line):
        """Takes a line of what valgrind's lackey says of memory: an instruction, a load, a store,
        or one that is both."""
        kind = line[:3]
        if kind not in ("I  ", " L ", " S ", " M "):
            return
        first, _, size = line[3:].partition(",")
        start, end = int(first, 16), int(first, 16) + int(size)
        if kind == "I  ":
            self.instructions, self.address = self.instructions + 1, start
            return
        if kind != " S " and self.is_held_back(start, end):
            self.held_back[self.address] += 1
        if kind != " L ":
            self.stores.append((self.instructions, start, end))

    def is_held_back(self, start, end):
        """Whether the last store that overlaps these octets is near, and doesn't hold all of
        them."""
        for at, first, last in reversed(self.stores):
            if self.instructions - at > REACH:
                return False
            if first < end and last > start:
                return not (first <= start and end <= last)
        return False


def loads(path):
    """The loads of a run on a script that couldn't be forwarded."""
    counted = Loads()
    reading, writing = os.pipe()
    words = ["valgrind", "--tool=lackey", "--trace-mem=yes", f"--log-fd={writing}", program, *SIM]
    with open(path, encoding="ascii") as script:
        run = subprocess.Popen(words, stdin=script, stdout=subprocess.DEVNULL, pass_fds=[writing])
    os.close(writing)
    with os.fdopen(reading, errors="replace") as said:
        for line in said:
            counted.take(line)
    run.wait()
    return counted.held_back


class Functions:
    """Which function of the program an address of a run lies in."""

    def __init__(self):
        listed = subprocess.run(
            ["nm", "-C", "--defined-only", program], check=True, stdout=subprocess.PIPE, text=True
        ).stdout
        rows = sorted(
            (int(words[0], 16), words[2])
            for words in (line.split(" ", 2) for line in listed.splitlines())
            if words[1] in "tT"
        )
        self.starts, self.names = [row[0] for row in rows], [row[1] for row in rows]

    def name(self, address):
        # valgrind lays a program that can lie anywhere at one of these.
        for base in (0x108000, 0x109000, 0x400000):
            place = bisect.bisect_right(self.starts, address - base) - 1
            if 0 <= place < len(self.names) - 1:
                return self.names[place]
        return "a library"


def script_of(kind, rounds, path):
    """Writes a script of so many rounds, and says how many lines it has."""
    begun, round_of, _ = KINDS[kind]
    chance.seed(kind)
    text = set_up(1) + begun + "".join(round_of() for _ in range(rounds))
    with open(path, "w", encoding="ascii") as file:
        file.write(text)
    return text.count("\n")


def counted(kind, rounds, path):
    """Lines, instructions and loads of a run on so many rounds."""
    lines = script_of(kind, rounds, path)
    with open(path, encoding="ascii") as script:
        taken = instructions([program, *SIM], script, statuses=(0, 1))
    return lines, taken, loads(path)


def main():
    with tempfile.TemporaryDirectory() as folder:
        path = os.path.join(folder, "script")
        for kind, (_, _, rounds) in KINDS.items():
            few, many = (counted(kind, count, path) for count in (rounds, 2 * rounds))
            lines = many[0] - few[0]
            more = many[2] - few[2]
            print(
                f"{kind}: {(many[1] - few[1]) / lines:,.0f} instructions and "
                f"{sum(more.values()) / lines:.1f} loads not forwarded a line"
            )
            if "--functions" in sys.argv:
                tell_functions(more, lines)


def tell_functions(more, lines):
    functions, by_name = Functions(), collections.Counter()
    for address, count in more.items():
        by_name[functions.name(address)] += count
    for name, count in by_name.most_common(12):
        print(f"  {count / lines:.2f} {name}")


main()
