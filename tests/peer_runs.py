"""Random runs of one station and a peer that keeps the rules of docs/PEER.md, and is odd in all
that these leave free.

    peer_runs.py [--program PROGRAM] [--from SEED] [RUNS]

The station is `x25 station dte`; the peer is the DCE, as ends.py has it. Its link sends again at
any time and in any order, polls and answers unasked, says nothing for long, acknowledges late, and
passes over frames that it might hear or take. Octets that are no frame come too, and the line
loses frames both ways. Calls and messages go both ways above. What either end took has to be a
beginning of what was handed down at the other, after each step; no FRMR may be sent. At the end
the line is good and the peer plain, and everything has to arrive.

Exit status: 0; 1 where a run fails, with its seed; 2 for bad words, or where there is no program.
"""

import random
import sys
from collections import defaultdict

import ends
import runs
from runs import CLEAR, FRMR, P_OR_F, RESET, RESTART, RR, UA

from x25tools import piped  # where runs finds it
from x25tools.x25lines import BadInput

CHANNELS = (1, 2)
STEPS, ROUNDS = 250, 30
# How likely each of what the user of the station asks for is.
USER = {"send {} {} {octets}": 10, "accept {}": 5, "call 123 4567 {octets}": 3}


class Failed(Exception):
    """What held of neither end, as text."""


def begins(taken, given, what):
    if taken != given[: len(taken)]:
        raise Failed(f"{what}: {taken} of {given}")


class Layer(ends.Layer):
    """The packet layer of the peer, which finds whether the station makes errors of procedure."""

    def hears(self, packet):
        kind = packet[2]
        if (
            kind in (CLEAR, RESET, RESTART)
            and packet[3] not in ((0, 7) if kind == RESTART else (0,))
        ):
            raise Failed(f"the station finds an error of procedure: {packet.hex()}")
        super().hears(packet)

    def unexpected(self, packet, why):
        raise Failed(f"{packet.hex()}: {why}")


class Station(piped.Station):
    """The program, and a user who asks this and that of two channels."""

    WORDS = ["--n2", "255", "--channels", "2"]
    KINDS = {"send": "message", "int": "interrupt", "call": "call"}
    TOLD = {"message": "message", "interrupt": "interrupt", "incoming": "call"}
    # Whether its link may go down.
    MAY_END = False

    def __init__(self, program, way, dice, user):
        super().__init__(program, "dte", self.WORDS)
        self.way, self.dice, self.user = way, dice, user
        self.given, self.taken = defaultdict(list), defaultdict(list)
        self.made = 0
        self.begin()
        self.heeds(self.first)

    def heeds(self, answer):
        """Takes what the station answers."""
        if answer.refusal == "? 60":
            raise Failed("the station takes a line for none")
        for notice in answer.notices:
            words = notice.split()
            if words[1] == "fault" or words[1] == "linkdown" and not self.MAY_END:
                raise Failed(f"the station: {notice}")
            self.tells(words)
        for frame in answer.frames:
            self.way.append(frame.octets)
        self.timer = answer.t1 != "off"

    def tells(self, words):
        """An entry of the transcript."""
        said = dict(word.partition("=")[::2] for word in words[2:])
        for kinds, lists in ((self.KINDS, self.given), (self.TOLD, self.taken)):
            if words[1] in kinds:
                octets = b"" if said["data"] == "-" else bytes.fromhex(said["data"])
                lists[kinds[words[1]], int(said["ch"]), words[4]].append(octets)

    def ask(self, line):
        self.heeds(super().ask(line))

    def turn(self):
        """The user asks for one thing, which may be refused."""
        self.made += 1
        (words,) = self.dice.choices(list(self.user), self.user.values())
        octets = (b"s%d" % self.made).hex()
        channel, q = self.dice.choice(CHANNELS), self.dice.randrange(2)
        self.ask("dte " + words.format(channel, q, octets=octets))


class Run:
    """A run, by a row of choices of the peer, and one of the line and the user."""

    ROW = {
        "deaf": (0, 0.1, 0.4),
        "late": (0, 0.5, 0.9),
        "again": (0, 0.1, 0.4),
        "talks": (0, 0.1, 0.4),
        "kinds": ((1, 0, 0, 0), (4, 1, 0, 0)),
    }
    LOSS, NOISE, FIRES, PLAIN = (0, 0.05, 0.2), (0, 0.1), (0.01, 0.05), 0
    # Whether all has to arrive at the station, too.
    ALL_ARRIVES = True

    def __init__(self, program, seed, link=ends.Link, layer=Layer, station=Station):
        self.dice = dice = random.Random(seed)
        self.out, self.back = [], []
        self.choices, self.kind_of_layer = ends.drawn(dice, self.ROW), layer
        self.link = link(dice, self.choices, "<", self.puts)
        self.layer = self.anew()
        self.station = station(program, self.out, dice, self.wants())
        self.loss, self.noise, self.fires = map(dice.choice, (self.LOSS, self.NOISE, self.FIRES))
        self.is_plain = self.chance(self.PLAIN)

    def wants(self):
        """What the user asks for."""
        return USER

    def anew(self):
        """A packet layer that begins."""
        return self.kind_of_layer(self.dice, self.choices, self.link.given.append, CHANNELS)

    def chance(self, odds):
        return self.dice.random() < odds

    # ---- the line

    def puts(self, is_command, control, rest=b""):
        """The peer sends a frame."""
        self.back.append(runs.frame("<", is_command, control, rest))

    def comes(self, is_plain=False):
        """The front frame comes to the peer."""
        octets = self.out.pop(0)
        if is_plain or not self.chance(self.loss):
            self.hands_up(octets, is_plain)
        return octets

    def hands_up(self, octets, is_plain):
        if octets[1] & ~P_OR_F == FRMR:
            raise Failed("the station sends FRMR")
        packet = self.link.comes(octets, is_plain)
        if packet is not None:
            self.layer.take(packet)

    def delivered(self, is_plain=False):
        """The front frame comes to the station."""
        octets = self.back.pop(0)
        if is_plain or not self.chance(self.loss):
            self.station.ask("< " + octets.hex())

    def answered(self):
        """The front frame comes to the peer, and is answered."""
        octets = self.comes(is_plain=True)
        is_poll = octets[0] == 1 and octets[1] & 3 != 3 and octets[1] & P_OR_F
        self.link.says(RR, False, bool(is_poll))

    def exchange(self):
        """What the peer has to send goes, and all that is on the line comes."""
        self.link.goes_on(self.link.sent)
        self.empty()

    def empty(self):
        """What is on the line comes, and is answered."""
        while self.out or self.back:
            while self.back:
                self.delivered(is_plain=True)
            while self.out:
                self.answered()

    # ---- the run

    def step(self):
        for _ in range(3):
            if self.dice.randrange(3):
                self.layer_turns()
            else:
                self.station.turn()
            (self.exchange if self.is_plain else self.moves)()

    def layer_turns(self):
        self.layer.turn(len(self.link.given) > self.link.sent + 3)

    def moves(self):
        """The front frame of either way comes, or the peer sends, or T1 of the station fires."""
        what = self.dice.randrange(5)
        if what < 2 and self.out:
            self.comes()
        elif what < 4 and self.back:
            self.delivered()
        elif what == 4 and len(self.back) < 8:
            self.speaks()
        if self.station.timer and self.may_fire() and self.chance(self.fires):
            self.station.ask("t1 dte")

    def speaks(self):
        self.link.speaks()
        if self.chance(self.noise):
            self.back.append(self.dice.randbytes(self.dice.randrange(3)))

    def may_fire(self):
        """Whether timer T1 of the station may run out."""
        return True

    def holds(self):
        self.hold(self.station.given, self.station.taken, self.layer)

    def hold(self, given, taken, layer):
        """What was handed down and up at the station, and this layer of the peer."""
        for key, lists in taken.items():
            carried = [plain(key, octets) for octets in layer.carried[key]]
            begins(lists, carried, f"what the peer's packets carry, {key}")
        for key, lists in layer.came.items():
            came = [plain(key, octets) for octets in lists]
            begins(came, given[key], f"what the station's user handed down, {key}")

    def settle(self):
        """The line is good, and the peer takes all and says so; then all has come that the station
        sent where a call is open."""
        for _ in range(ROUNDS):
            self.layer.settles()
            self.exchange()
            while self.layer.inbox:
                self.layer.takes_all()
                self.exchange()
            self.holds()
            self.station.ask("dte pull")
            self.link.goes_on(self.link.acked)
            if self.station.timer:
                self.station.ask("t1 dte")
        for h, channel in self.layer.are_up():
            key = "message", h, self.layer.name(channel)
            self.arrives(key, self.station.given[key], self.layer.came[key])
            if self.ALL_ARRIVES:
                self.arrives(key, self.layer.carried[key], self.station.taken[key])

    @staticmethod
    def arrives(key, given, came):
        if came != given:
            raise Failed(f"{came} came of {given}, {key}")

    def play(self):
        self.station.ask("dte connect")
        self.out.clear()
        self.link.begins()
        self.layer = self.anew()
        self.puts(False, UA | P_OR_F)
        self.delivered(is_plain=True)
        self.go()

    def go(self):
        for _ in range(STEPS):
            self.step()
            self.holds()
        self.settle()


def plain(key, octets):
    """The user data of a call after its addresses and its empty facilities; else what it is."""
    return octets[5:] if key[0] == "call" else octets


def play(program, seed, kind=Run, **given):
    """Answers why the run of this seed fails, or None."""
    run = kind(program, seed, **given)
    try:
        run.play()
    except (Failed, BadInput) as failed:
        return str(failed)
    finally:
        run.station.__exit__()
    return None


def main(held, about, play=play):
    options = runs.options_of(runs.words(about, 10_000))
    for seed in options.seeds:
        why = play(options.program, seed)
        if why:
            print(f"seed {seed}: {why}")
            return 1
    print(f"{options.runs} runs: {held}")
    return 0


if __name__ == "__main__":
    sys.exit(main("order was kept, no FRMR was sent, and everything arrived", __doc__))
