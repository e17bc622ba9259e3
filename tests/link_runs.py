"""Random traces of an end that keeps the rules of the link beside one that sends what it likes,
judged beside an oracle.

    link_runs.py [--program PROGRAM] [--from SEED] [RUNS]

The end, either of the two, is the link of ends.py. It keeps rules 1 to 6 and 20 to 24 of
docs/PEER.md over any number of set-ups, but that it sends SABM again at any moment while it awaits
UA. It hears and takes what comes, or passes over it. Lines of both ends are damaged in the trace:
such a line of the other end is a loss, and one of its own may have been any frame that it sends.
No rule of order may be told of it, and what is told of both is compared with what rules.py says,
as in rules_runs.py. `make judge-runs` plays 10,000.

Exit status: 0; 1 where one was, or an end was missed or accused, with the seed of that run; 2 for
bad words, or where there is no program.
"""

import random
import sys

import ends
import rules_runs
import runs
from ends import ASKING, IN, OUT
from runs import DISC, DM, FRMR, P_OR_F, REJ, RR, SABM, UA

ROW = {"deaf": (0.15,), "late": (1,), "again": (0.3,), "talks": (0.4,), "polls": (0.4,)}
# What the other end sends, the kinds that it sends most several times.
INFO = 0
KINDS = {SABM: 12, DISC: 2, UA: 8, DM: 1, FRMR: 1, INFO: 16, RR: 8, REJ: 4}
DAMAGE = (0, 0.1, 0.2)
# What its I frames carry.
PACKETS = [bytes([0x10, 1, kind]) for kind in (RR, 0x21, 0x41)]


class Run:
    """The end, what is on the way to it, and the trace of both."""

    def __init__(self, seed):
        self.dice = dice = random.Random(seed)
        self.mark, self.other = "><" if seed % 2 else "<>"
        self.damage = {mark: dice.choice(DAMAGE) for mark in "><"}
        self.trace, self.way = [], []
        self.end = ends.Link(dice, ends.drawn(dice, ROW), self.mark, self.end_puts)
        # The numbers that the other end sends and wants next.
        self.next = self.wanted = 0
        for _ in range(10 + dice.randrange(50)):
            self.step()

    def chance(self, odds):
        return self.dice.random() < odds

    def put(self, mark, is_command, control, information=b""):
        """Lays a frame on the trace, damaged at times; answers its octets, or None."""
        octets = runs.frame(mark, is_command, control, information)
        is_good = not self.chance(self.damage[mark])
        self.trace.append(f"{mark} {(octets if is_good else octets[:-2] + bytes(2)).hex()}\n")
        return octets if is_good else None

    def end_puts(self, is_command, control, information=b""):
        """The end sends a frame, which the other end takes at times."""
        is_good = self.put(self.mark, is_command, control, information) is not None
        if not control & 1 and is_good and self.chance(0.7):
            self.wanted = (control >> 1) + 1 & 7

    def bit(self):
        return P_OR_F if self.chance(0.4) else 0

    def step(self):
        chance, end = self.dice.random(), self.end
        if chance < 0.42:
            self.other_sends()
        elif chance < 0.62:
            if self.way:
                end.comes(self.way.pop(0))
        elif chance < 0.9:
            if end.stand == IN:
                # No number is left out.
                if end.sent == len(end.given):
                    end.given.append(self.dice.choice(PACKETS))
                end.speaks()
        elif chance < 0.95:
            kinds = [octets[1] & ~P_OR_F for octets in self.way]
            if end.stand == ASKING or end.may_ask((), kinds):
                end.asks(self.bit())
        elif chance < 0.97:
            end.closes()
        elif chance < 0.98:
            self.put(self.mark, False, DM)
            end.stand = OUT if end.stand == IN else end.stand
        elif chance < 0.985:
            end.stand = OUT

    def other_sends(self):
        """The other end sends any frame, with numbers that are right at times."""
        (kind,) = self.dice.choices(list(KINDS), KINDS.values())
        if kind in (SABM, DISC, UA, DM, FRMR):
            information = bytes(3) if kind == FRMR else b""
            octets = self.put(self.other, kind in (SABM, DISC), kind | self.bit(), information)
        else:
            control = kind | self.bit() | self.right(self.wanted, 0.7) << 5
            if kind == INFO:
                ns = self.right(self.next, 0.75)
                self.next = (ns + 1) % 8
                packet = self.dice.choice(PACKETS[:2])
                octets = self.put(self.other, True, control | ns << 1, packet)
            else:
                octets = self.put(self.other, self.chance(0.5), control)
        if kind in (SABM, UA) and self.chance(0.8):
            self.next = self.wanted = 0
        if octets is not None:
            self.way.append(octets)

    def right(self, number, odds):
        """A number, or any."""
        return number if self.chance(odds) else self.dice.randrange(8)


def play(program, seed):
    """What comes of a run, of which the end has broken no rule."""
    run = Run(seed)
    played = rules_runs.compared(program, seed, [(run.trace, None)])
    told = rules_runs.told_of(rules_runs.judged(program, run.trace))
    order = [it for it in told if it.end == run.mark and it.is_rule and not it.is_of_packets]
    return played._replace(wrong=[f"seed {seed}: {rule}" for rule in order] + played.wrong)


if __name__ == "__main__":
    sys.exit(rules_runs.main(play, __doc__, 10_000))
