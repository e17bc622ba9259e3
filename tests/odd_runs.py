"""Random runs of a station beside an end whose packets break rules, judged beside an oracle:
nothing may be told of the station.

    odd_runs.py [--program PROGRAM] [--from SEED] [--midst] [RUNS]

The station is `x25 station`, of either end, with a user who calls, accepts, sends, clears, resets
and restarts at random. The other end is that of ends.py, but that its packets break rules: they
have wrong P(S)s and P(R)s at times, are confirmations of nothing, calls where a call is, data of
any length, and octets that are no packet, and it confirms late or never. What `judge` tells of
both is compared with what rules.py says, as in rules_runs.py. With --midst each run is judged from
a frame in its midst on: then the faults of the other end may stand before the trace begins, so a
station may be told of at times.

Exit status: 0; 1 where a rule or manners were told of the station, or the other end was missed or
accused, with the seed of that run; 2 for bad words, or where there is no program.
"""

import random
import sys

import ends
import rules_runs
import runs
from runs import ACCEPTED, CALL, CLEAR, CLEAR_CONFIRMATION, INTERRUPT, INTERRUPT_CONFIRMATION
from runs import P_OR_F, RESET, RESET_CONFIRMATION, RESTART, RESTART_CONFIRMATION, RNR, RR, SABM

from x25tools.piped import Station  # where runs finds it

STEPS, MOST_OUT = 80, 6
MARKS = {"dte": ">", "dce": "<"}
OTHERS = {"dte": "dce", "dce": "dte"}
ROW = {
    "lazy": (0.05, 0.2, 0.5, 0.8),
    "lags": (0.3,),
    "restarts": (0.02,),
    "clears": (0.05,),
    "resets": (0.05,),
    "insists": (0.3,),
    "is_prompt": (True, False),
    "kinds": ((5, 2, 1, 1),),
    "more": (0.05,),
    "window": (2, 7),
}
# What it sends though it may not, the kinds that it sends most several times; None is no packet.
DATA = 0
KINDS = {DATA: 8, RR: 3, RNR: 1, CALL: 5, ACCEPTED: 3, CLEAR: 4, CLEAR_CONFIRMATION: 3, RESET: 3}
KINDS |= {RESET_CONFIRMATION: 2, INTERRUPT: 2, INTERRUPT_CONFIRMATION: 1, RESTART: 1}
KINDS |= {RESTART_CONFIRMATION: 1, None: 1}
BODIES = {CALL: b"\x11\x21\0", RESET: b"\0\0", INTERRUPT: b"\1"}
CAUSES = {CLEAR: (0, 1, 128), RESTART: (0, 7)}
# The user of the station asks for these.
USER = {"call 1 2 -": 1, "accept {}": 2, "clear {}": 1, "send {} 0 {}": 2, "int {} 01": 1}
USER |= {"reset {}": 1, "restart": 0.2, "pull": 0.8}


class Layer(ends.Layer):
    """A packet layer that sends what it may not, and numbers that are wrong at times."""

    def __init__(self, *given):
        super().__init__(*given)
        self.right = self.dice.choice((0.5, 0.7, 0.9))

    def wrong(self, number):
        """A number, or at times any."""
        return number if self.chance(0.95) else self.dice.randrange(8)

    def number(self, channel):
        return self.wrong(channel.sent % 8) << 1

    def acknowledges(self, channel):
        return self.wrong(super().acknowledges(channel) >> 5) << 5

    def speaks(self):
        if self.chance(self.right):
            super().speaks()
        else:
            self.anything()

    def anything(self):
        """Any packet, or octets that are none, on a channel that may not be there."""
        dice = self.dice
        (kind,) = dice.choices(list(KINDS), KINDS.values())
        h = dice.choice([*self.channels] * 20 + [len(self.channels) + 1])
        channel = self.channels.get(h) or ends.Channel()
        if kind is None:
            octets = dice.randbytes(dice.randrange(4))
            self.puts(bytes([dice.randrange(256), h, dice.randrange(256)]) + octets)
        elif kind == DATA:
            length = dice.choice((0, 1, 3, 128, 129))
            numbers = self.acknowledges(channel) | self.number(channel)
            self.sends(h, numbers, b"A" * length, self.chance(0.1))
        elif kind in (RR, RNR):
            self.sends(h, self.acknowledges(channel) | kind)
        else:
            body = BODIES.get(kind, b"")
            if kind in CAUSES:
                body = bytes([dice.choice(CAUSES[kind]), dice.randrange(100)])
            self.sends(0 if kind in (RESTART, RESTART_CONFIRMATION) else h, kind, body)


class Run:
    """A station, the odd end, the frames on the way between them, and all of them as a trace."""

    def __init__(self, program, seed):
        self.dice = dice = random.Random(seed)
        self.end = "dce" if seed % 2 else "dte"
        self.mark = MARKS[OTHERS[self.end]]
        self.channels = range(1, 1 + dice.choice((1, 2, 3)))
        words = ["--channels", str(len(self.channels)), "--n2", "255"]
        self.station = Station(program, self.end, words)
        self.trace, self.there, self.back = [], [], []
        self.link = ends.Link(dice, ends.Choices(), self.mark, self.puts)
        self.link.begins()
        choices = ends.drawn(dice, ROW)
        self.layer = Layer(dice, choices, self.link.given.append, self.channels, self.end == "dte")

    def puts(self, is_command, control, information=b""):
        """The odd end sends a frame."""
        octets = runs.frame(self.mark, is_command, control, information)
        self.trace.append(f"{self.mark} {octets.hex()}\n")
        self.there.append(self.trace[-1])

    def says(self, line):
        """The station is asked something, and sends frames."""
        frames = [f"{it.direction} {it.octets.hex()}\n" for it in self.station.ask(line).frames]
        self.trace += frames
        self.back += frames

    def deliver(self):
        if self.there:
            self.says(self.there.pop(0).rstrip())

    def take(self):
        """The next frame comes to the odd end."""
        packet = self.link.comes(bytes.fromhex(self.back.pop(0)[2:])) if self.back else None
        if packet is not None:
            self.layer.take(packet)

    def asks(self):
        """What the user of the station asks for."""
        (words,) = self.dice.choices(list(USER), USER.values())
        octets = "ab" * self.dice.choice((1, 1, 5, 200))
        return f"{self.end} {words.format(self.dice.choice(self.channels), octets)}"

    def step(self):
        chance = self.dice.random()
        if chance < 0.35 and self.link.sent - self.link.acked < MOST_OUT:
            self.layer.turn()
            self.link.goes_on(self.link.sent)
        elif chance < 0.6:
            self.deliver()
        elif chance < 0.8:
            self.take()
        elif chance < 0.85:
            self.link.says(RR, False)
        else:
            self.says(self.asks())

    def play(self):
        with self.station:
            self.puts(True, SABM | P_OR_F)
            self.deliver()
            self.back.clear()
            self.layer.restart = ends.ASKS
            self.layer.sends(0, RESTART, b"\0\0")
            self.link.goes_on(0)
            for _ in range(STEPS):
                self.step()


def play(program, seed, from_midst=False):
    """What comes of a run, of the whole trace or of it from a frame in its midst on."""
    run = Run(program, seed)
    run.play()
    lines = run.trace[random.Random(seed).randrange(len(run.trace)) if from_midst else 0 :]
    played = rules_runs.compared(program, seed, [(lines, None)])
    told = [text for text in rules_runs.judged(program, lines) if runs.TOLD.search(text)]
    wrong = [text for text in told if runs.TOLD.search(text)[1].startswith(run.end)]
    return played._replace(wrong=[f"seed {seed}: {text}" for text in wrong] + played.wrong)


def main():
    parser = runs.words(__doc__, 5_000)
    parser.add_argument(
        "--midst", action="store_true", help="judge each trace from a frame in its midst on"
    )
    options = runs.options_of(parser)
    return rules_runs.tell(options, lambda seed: play(options.program, seed, options.midst))


if __name__ == "__main__":
    sys.exit(main())
