#!/usr/bin/env python3
"""Races `build/x25` with another program that decodes and simulates as it does, in turn on the
same fifteen inputs.

    race.py OTHER [ROUNDS [CASE ..]]

For each input it prints the median over the rounds of OTHER's processor time by ours, so that 1 is
level and more is ahead, and the nanoseconds of a line of both at their best. Status 1 where the
two don't answer the same, octet for octet. The inputs are made from a seed. The table of
docs/PERFORMANCE.md is beside a decoder and a simulator in plain Rust, tuned by hand, that are no
part of this repository: the program whose SHA-256 begins with f56e4e801cadd562.
"""
import hashlib
import os
import statistics
import subprocess
import sys
import tempfile

from building import TOP
from make_trace import sealed
from scripts import (
    POLLING, SIM, both_ways, chance, one_octet, random_line, refused, round_of_16, script,
    undelivered, user,
)
from timing import timed

OURS = os.path.join(TOP, "build", "x25")


def line(is_dte, octets):
    return f"{'>' if is_dte else '<'} {octets.hex()}\n"


def information(packet):
    """A line with an I frame that carries the packet."""
    is_dte = chance.random() < 0.5
    numbers = chance.randrange(8) << 5 | chance.randrange(8) << 1
    return line(is_dte, sealed(bytes([1 if is_dte else 3, numbers]) + packet))


def data(length):
    numbers = chance.randrange(8) << 5 | chance.randrange(2) << 4 | chance.randrange(8) << 1
    return information(bytes([0x10, chance.randint(1, 16), numbers]) + chance.randbytes(length))


def supervisory():
    is_dte, is_command = chance.random() < 0.5, chance.random() < 0.2
    control = (
        chance.randrange(8) << 5 | chance.randrange(2) << 4 | chance.choice([1, 1, 1, 1, 5, 9])
    )
    return line(is_dte, sealed(bytes([1 if is_dte != is_command else 3, control])))


def damaged():
    text = data(chance.randint(0, 128))
    octets = bytearray.fromhex(text[2:])
    octets[chance.randrange(len(octets))] ^= 1 << chance.randrange(8)
    return line(text[0] == ">", octets)


def call():
    called, calling = (
        "".join(chance.choices("0123456789", k=chance.randint(1, 15))) for _ in "ab"
    )
    digits = called + calling + "0" * (len(called + calling) % 2)
    head = bytes([0x10, chance.randint(1, 16), 0x0B, len(calling) << 4 | len(called)])
    return information(
        head + bytes.fromhex(digits) + b"\0" + chance.randbytes(chance.randint(0, 16))
    )


def mixed():
    kinds = [
        lambda: data(chance.randint(0, 128)),
        lambda: data(128),
        lambda: data(chance.randint(0, 40)),
        supervisory,
        supervisory,
        damaged,
    ]
    return chance.choice(kinds)()


def trace(one, lines):
    """A trace of so many lines, of 20,000 different ones at most."""
    lines_made = [one() for _ in range(min(lines, 20_000))]
    return "".join(lines_made[place % len(lines_made)] for place in range(lines))


DECODE = ["decode"]
CASES = {
    "decode mix": (DECODE, lambda: trace(mixed, 500_000)),
    "decode DATA 3": (DECODE, lambda: trace(lambda: data(3), 600_000)),
    "decode DATA 128": (DECODE, lambda: trace(lambda: data(128), 250_000)),
    "decode DATA 1024": (DECODE, lambda: trace(lambda: data(1024), 50_000)),
    "decode supervisory": (DECODE, lambda: trace(supervisory, 900_000)),
    "decode damaged": (DECODE, lambda: trace(damaged, 400_000)),
    "decode calls": (DECODE, lambda: trace(call, 400_000)),
    "sim random": ([*SIM, "--channels", "4"], lambda: script(4, random_line, 100_000)),
    "sim random, --tap": (
        [*SIM, "--channels", "4", "--tap"], lambda: script(4, random_line, 100_000)
    ),
    "sim 65,535 octets": (
        SIM, lambda: script(1, lambda: f"dte send 1 0 {user(65_535)}\ndrain 65535\n", 30)
    ),
    "sim 128, both ways": (SIM, lambda: script(1, both_ways, 20_000)),
    "sim one octet": (SIM, lambda: script(1, one_octet, 60_000)),
    "sim 16 channels": ([*SIM, "--channels", "16"], lambda: script(16, round_of_16, 1_500)),
    "sim undelivered": (SIM, lambda: script(1, undelivered, 60, POLLING)),
    "sim refusals": (SIM, lambda: script(1, refused, 300_000)),
}


def answer(words, file):
    """The status, and the SHA-256 of what is written."""
    file.seek(0)
    child = subprocess.Popen(words, stdin=file, stdout=subprocess.PIPE, stderr=subprocess.DEVNULL)
    digest = hashlib.sha256()
    for octets in iter(lambda: child.stdout.read(1 << 20), b""):
        digest.update(octets)
    return child.wait(), digest.hexdigest()


def race(other, rounds, words, text):
    """Whether both answer the same, the ratio, and the nanoseconds of a line of ours and of the
    other."""
    with tempfile.TemporaryFile("w+") as file:
        file.write(text)
        file.flush()
        same = answer([OURS, *words], file) == answer([other, *words], file)
        used = {OURS: [], other: []}
        for count in range(rounds):
            for program in (OURS, other)[:: 1 if count % 2 else -1]:
                used[program].append(timed([program, *words], file, (0, 1))[0])
    ratio = statistics.median(
        theirs / max(ours, 1e-6) for ours, theirs in zip(used[OURS], used[other])
    )
    return same, ratio, *(min(times) / text.count("\n") * 1e9 for times in used.values())


def main():
    other = os.path.abspath(sys.argv[1])
    rounds = int(sys.argv[2]) if len(sys.argv) > 2 else 7
    differ = []
    for name, (words, make) in CASES.items():
        if any(word in name for word in sys.argv[3:] or [""]):
            chance.seed(name)
            same, ratio, ours, theirs = race(other, rounds, words, make())
            print(
                f"{name:20s} {ratio:5.2f}   {ours:6.0f} ns a line, the other {theirs:6.0f}",
                "" if same else "  ANSWERS DIFFER",
                flush=True,
            )
            differ += [] if same else [name]
    sys.exit(1 if differ else 0)


if __name__ == "__main__":
    main()
