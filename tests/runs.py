"""What the scripts of random runs share: their words, the seeds, what they say of runs that are
judged, codes, and the numbers of an end."""

import argparse
import os
import random
import re
import sys

from program import ROOT, find_program

sys.path.insert(0, os.path.join(ROOT, "tools"))

from x25tools.x25lines import fcs  # noqa: E402

CALL, ACCEPTED, CLEAR, CLEAR_CONFIRMATION, RESET, RESET_CONFIRMATION = (
    0x0B, 0x0F, 0x13, 0x17, 0x1B, 0x1F
)
INTERRUPT, INTERRUPT_CONFIRMATION = 0x23, 0x27
RESTART, RESTART_CONFIRMATION = 0xFB, 0xFF
RR, RNR, REJ = 0x01, 0x05, 0x09
SABM, DISC, UA, DM, FRMR = 0x2F, 0x43, 0x63, 0x0F, 0x87
P_OR_F = 0x10
OTHERS = {">": "<", "<": ">"}

# What `judge` tells of a frame, a rule or manners: what stands after its mark.
TOLD = re.compile(r" (?:!|~ manners:) (d[tc]e: .*)")


def frame(mark, is_command, control, information=b""):
    """The octets of a frame of the end whose lines have this mark."""
    octets = bytes([1 if is_command == (mark == ">") else 3, control]) + information
    return octets + fcs(octets)


class Numbers:
    """What an end counts by whole numbers, of its link or of a channel: what it sent, what of this
    is acknowledged, what it took, and what of that it acknowledged."""

    def __init__(self):
        self.sent = self.acked = self.taken = self.told = 0

    def hears(self, number):
        """By an N(R) or P(R) all below it is acknowledged."""
        self.acked += (number - self.acked) % 8

    def wants(self, number):
        """Whether this N(S) or P(S) is that of what it takes next."""
        return number == self.taken % 8

    def takes(self, number):
        """Takes what has this number, where it is wanted, and says whether it was."""
        is_wanted = self.wants(number)
        self.taken += is_wanted
        return is_wanted


def words(about, runs):
    """The parser of the words that each such script takes."""
    parser = argparse.ArgumentParser(
        description=about, formatter_class=argparse.RawDescriptionHelpFormatter
    )
    parser.add_argument(
        "runs", metavar="RUNS", type=int, nargs="?", default=runs, help=f"how many runs ({runs:,})"
    )
    parser.add_argument(
        "--from",
        dest="first",
        metavar="SEED",
        type=int,
        help="the seed of the first run; else it is a new one, and is said",
    )
    parser.add_argument("--program", default=find_program(), help="the program")
    return parser


def options_of(parser):
    """The words that were given; where there is no program, the script ends."""
    options = parser.parse_args()
    if options.program is None:
        parser.error("there is no program: make x25")
    if options.first is None:
        options.first = random.randrange(1 << 30)
        print(f"from seed {options.first} on", flush=True)
    options.seeds = range(options.first, options.first + options.runs)
    return options


def tell(options, told):
    """Says of each run the first line that tells a rule, where one does, and what came of all;
    answers the exit status.

    `told` answers for a seed the lines that tell a rule, and how many frames the run has.
    """
    frames = faults = 0
    for seed in options.seeds:
        lines, count = told(seed)
        frames += count
        faults += bool(lines)
        if lines:
            print(f"seed {seed}: {lines[0]}")
    print(f"{options.runs} runs, {frames} frames, {faults} told of")
    return 1 if faults else 0
