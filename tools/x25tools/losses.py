"""Writes a random script for `x25 sim`: calls, data both ways, resets and interrupts, with losses,
damage and early timers.

    losses.py SEED LINES [--loss P] [--damage P] [--t1 P] [--channels N] [--heal] | x25 sim
    --channels N

P is the probability that a line is of that kind. With --heal the users are ready to take messages
after these lines, and then the line between the stations is good for a moment: what was sent
arrives. The same numbers give the same script, on any machine and any Python. The script doesn't
know what the stations do with it, so some of its lines are refused (`! N`); that is meant.

Exit status: 0, or 2 for bad words.
"""

from __future__ import annotations

import argparse
import random
import sys
from typing import Iterator, Sequence, TypeVar

from x25tools import x25lines
from x25tools.places import within

ENDS, DIRECTIONS = ("dte", "dce"), (">", "<")
MOST_CHANNELS = 16
# Places on the line that losses and damage fall on: near the front, where frames are.
MOST_PLACE = 4
MOST_DAMAGED = 12
# How long a message is, in octets: nothing, one, about a packet, some packets.
LENGTHS = (0, 1, 2, 17, 127, 128, 129, 256, 300, 700)


T = TypeVar("T")


class Dice:
    """Random choices that rest on `Random.random` alone, the one call whose numbers Python
    promises to keep."""

    def __init__(self, seed: int) -> None:
        self._random = random.Random(seed).random

    def fraction(self) -> float:
        """A number from 0 to below 1."""
        return self._random()

    def chance(self, probability: float) -> bool:
        """True with that probability."""
        return self._random() < probability

    def below(self, bound: int) -> int:
        """A whole number from 0 to below the bound."""
        return int(self._random() * bound)

    def one_of(self, choices: Sequence[T]) -> T:
        """One of some choices, each as likely."""
        return choices[self.below(len(choices))]

    def octets(self, count: int) -> str:
        """So many octets, as a script writes them."""
        return bytes(self.below(256) for _ in range(count)).hex() or "-"

    def digits(self, most: int) -> str:
        """An address of one to so many digits."""
        return "".join(str(self.below(10)) for _ in range(1 + self.below(most)))


class Script:
    """The lines of one script."""

    def __init__(self, dice: Dice, channels: int, loss: float, damage: float, t1: float) -> None:
        self._dice = dice
        self._channels = channels
        self._chances = ((loss, self._loss), (damage, self._damage), (t1, self._t1))
        # Of the commands data are the most, and what ends a circuit the least.
        kinds = (
            (self._send, 12),
            (self._call, 4),
            (self._accept, 4),
            (self._interrupt, 3),
            (self._reset, 1),
            (self._ready, 2),
            (self._clear, 1),
        )
        self._commands = [command for command, weight in kinds for _ in range(weight)]

    def lines(self, count: int) -> Iterator[str]:
        """Yields that many lines; the first lets the set-up end, the next two open a circuit."""
        opening = (
            "drain 100",
            f"dte call {self._dice.digits(15)} {self._dice.digits(15)} -",
            "drain 100",
            f"dce accept {self._channels}",
            "drain 100",
        )
        for number in range(count):
            yield opening[number] if number < len(opening) else self._line()

    def healing(self) -> Iterator[str]:
        """Yields the lines by which a run ends with all that was sent handed up."""
        for channel in range(1, self._channels + 1):
            yield from (f"{end} ready {channel}" for end in ENDS)
        yield "heal"

    def _line(self) -> str:
        draw = self._dice.fraction()
        for probability, line in self._chances:
            if draw < probability:
                return line()
            draw -= probability
        return self._dice.one_of((self._command, self._deliver, self._deliver))()

    def _command(self) -> str:
        # Seldom, for it ends all circuits.
        if self._dice.chance(0.01):
            return f"{self._end()} restart"
        return self._dice.one_of(self._commands)()

    def _end(self) -> str:
        return self._dice.one_of(ENDS)

    def _direction(self) -> str:
        return self._dice.one_of(DIRECTIONS)

    def _channel(self) -> int:
        return 1 + self._dice.below(self._channels)

    def _place(self) -> int:
        return self._dice.below(MOST_PLACE)

    def _call(self) -> str:
        return (
            f"{self._end()} call {self._dice.digits(15)} {self._dice.digits(15)} "
            f"{self._dice.octets(self._dice.below(17))}"
        )

    def _accept(self) -> str:
        return f"{self._end()} accept {self._channel()}"

    def _send(self) -> str:
        q = 1 if self._dice.chance(0.1) else 0
        return (
            f"{self._end()} send {self._channel()} {q} "
            f"{self._dice.octets(self._dice.one_of(LENGTHS))}"
        )

    def _interrupt(self) -> str:
        return f"{self._end()} int {self._channel()} {self._dice.octets(1 + self._dice.below(32))}"

    def _reset(self) -> str:
        return f"{self._end()} reset {self._channel()}"

    def _ready(self) -> str:
        return (
            f"{self._end()} {'ready' if self._dice.chance(0.7) else 'notready'} {self._channel()}"
        )

    def _clear(self) -> str:
        return f"{self._end()} clear {self._channel()}"

    def _deliver(self) -> str:
        return (
            f"drain {1 + self._dice.below(20)}"
            if self._dice.chance(0.2)
            else f"deliver {self._direction()}"
        )

    def _loss(self) -> str:
        return f"lose {self._direction()} {self._place()}"

    def _damage(self) -> str:
        return f"damage {self._direction()} {self._place()} {self._unsealed()}"

    def _unsealed(self) -> str:
        """Octets that are no frame: a receiver sees that they are damaged."""
        octets = self._dice.octets(1 + self._dice.below(MOST_DAMAGED))
        return "00" if x25lines.is_sealed(bytes.fromhex(octets)) else octets

    def _t1(self) -> str:
        return f"t1 {self._end()}"


def words() -> argparse.Namespace:
    """The words after the script's name."""
    parser = x25lines.parser(__doc__)
    parser.add_argument(
        "seed",
        metavar="SEED",
        type=within(int, 0, 2**64 - 1),
        help="a whole number that the random ones come from",
    )
    parser.add_argument(
        "lines", metavar="LINES", type=within(int, 0, 10**9), help="how many lines to write"
    )
    parser.add_argument(
        "--loss",
        metavar="P",
        type=within(float, 0, 1),
        default=0.05,
        help="lines that lose a frame (0.05)",
    )
    parser.add_argument(
        "--damage",
        metavar="P",
        type=within(float, 0, 1),
        default=0.02,
        help="lines that damage a frame (0.02)",
    )
    parser.add_argument(
        "--t1",
        metavar="P",
        type=within(float, 0, 1),
        default=0.05,
        help="lines that let timer T1 fire (0.05)",
    )
    parser.add_argument(
        "--channels",
        metavar="N",
        type=within(int, 1, MOST_CHANNELS),
        default=1,
        help="logical channels, 1 to 16 (1)",
    )
    parser.add_argument("--heal", action="store_true", help="end the script by `heal`")
    options = parser.parse_args()
    if options.loss + options.damage + options.t1 > 1:
        parser.error("the three probabilities come to more than 1")
    return options


def main() -> int:
    options = words()
    script = Script(Dice(options.seed), options.channels, options.loss, options.damage, options.t1)
    for line in script.lines(options.lines):
        sys.stdout.write(line + "\n")
    for line in script.healing() if options.heal else ():
        sys.stdout.write(line + "\n")
    return 0
