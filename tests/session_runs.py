"""Random runs of one station and a peer that keeps the rules of docs/PEER.md, over links that
either end sets up anew at any moment.

    session_runs.py [--program PROGRAM] [--from SEED] [RUNS]

The station is `x25 station dte`; its user and the peer's packet layer are those of
`packet_runs.py`. The peer's link (ends.py) asks for set-up, answers SABM or passes it over, waits
on where both ask, leaves its session by DISC or without a frame, and sends DM and FRMR, at any
moment that rules 20 to 24 leave free; with each session its packet layer begins anew (25). The
line loses and damages frames both ways, at any place. Timer T1 of the station, while that awaits
UA, runs out only where docs/PEER.md lets it. After each step sessions have met one to one and in
order, the session of an end that is in one has met no other than the latest of the other end, and
in one that met none nothing is taken at either end; of two that met, what `packet_runs.py` says of
the one session there. No FRMR may be sent, and no error of procedure told or sent. At the end the
line is good, the link is set up where it isn't, and all that is open has to come.

Exit status: 0; 1 where a run fails, with its seed; 2 for bad words, or where there is no program.
"""

import sys
from collections import defaultdict
from functools import partial

import ends
import peer_runs
from ends import IN
from packet_runs import PacketRun
from peer_runs import Failed, Layer
from runs import P_OR_F, RR, SABM, UA

from x25tools.x25lines import is_sealed  # where runs finds it

# How often the link is set up anew, or ended, each time that it might be.
ODDS = (0.003, 0.01, 0.05)


def kind_of(octets):
    """The control field of a frame without N(R), and without P; 1 of a frame with N(R), and None
    of what reads as no frame."""
    if not is_sealed(octets):
        return None
    return octets[1] & ~P_OR_F if octets[1] & 3 == 3 else 1


class Way(list):
    """Octets on the line, front first, each with the session of its end that it was sent in."""

    def __init__(self, session):
        super().__init__()
        self.session = session

    def append(self, octets):
        super().append((self.session(), octets))

    def kinds(self):
        return [kind_of(octets) for _, octets in self]


class Link(ends.Link):
    """The link of the peer, session by session; `anew` is told of each (25)."""

    session = 0

    def begins(self):
        super().begins()
        self.session += 1
        self.anew()


class Station(peer_runs.Station):
    """The station session by session, and its user."""

    WORDS = ["--n2", "5", "--channels", "2"]
    MAY_END = True

    def __init__(self, *given):
        self.begun, self.is_up, self.awaits_ua = 0, False, False
        super().__init__(*given)
        self.sessions = [(self.given, self.taken)]

    def tells(self, words):
        if words[1] in ("connect", "linkup", "linkdown"):
            self.awaits_ua, self.is_up = words[1] == "connect", words[1] == "linkup"
        if words[1] == "linkup":
            self.begun += 1
            self.given, self.taken = defaultdict(list), defaultdict(list)
            self.sessions.append((self.given, self.taken))
        super().tells(words)


class SessionRun(PacketRun):
    """A run over links that are set up anew."""

    def __init__(self, program, seed, link=Link, layer=Layer):
        super().__init__(program, seed, link, layer, Station)
        self.out = self.station.way = Way(lambda: self.station.begun)
        self.back = Way(lambda: self.link.session)
        # No end is in session 0.
        self.layers, self.met = [self.layer], []
        self.link.anew = self.session_begins
        self.odds = self.dice.choice(ODDS)

    def session_begins(self):
        self.layer = self.anew()
        self.layers.append(self.layer)

    # ---- the line

    def comes(self, is_plain=False):
        session, octets = self.out.pop(0)
        kind = kind_of(octets)
        if kind == 1 and self.link.hears_numbers():
            self.meets(session, self.link.session)
        if kind is not None:
            self.hands_up(octets, is_plain)
        return octets

    def delivered(self, is_plain=False):
        session, octets = self.back.pop(0)
        if kind_of(octets) == 1 and self.station.is_up:
            self.meets(self.station.begun, session)
        self.station.ask("< " + octets.hex())

    def loses(self):
        """Octets are lost, or visibly damaged, at any place of the line."""
        way = self.dice.choice((self.out, self.back))
        if way and self.chance(self.loss):
            place = self.dice.randrange(len(way))
            session, octets = way.pop(place)
            if octets and self.chance(0.5):
                at, bit = self.dice.randrange(len(octets)), 1 << self.dice.randrange(8)
                way.insert(
                    place, (session, octets[:at] + bytes([octets[at] ^ bit]) + octets[at + 1 :])
                )

    def may_fire(self):
        """While the station awaits UA its T1 is longer than SABM and UA are on the line, and a
        SABM that crossed it."""
        if not self.station.awaits_ua:
            return True
        kinds = zip(self.back, self.back.kinds())
        crossing = {session for (session, _), kind in kinds if kind == SABM}
        is_clear = SABM not in self.out.kinds() and UA not in self.back.kinds()
        return is_clear and crossing <= {self.link.session}

    def meets(self, near, far):
        """An end hears, in its session, a frame with N(R) of the other's."""
        if any((near < a) != (far < b) or (near == a) != (far == b) for a, b in self.met):
            raise Failed(f"sessions {near} and {far} meet after {self.met}")
        if (near, far) not in self.met:
            self.met.append((near, far))

    # ---- the run

    def layer_turns(self):
        """As long as the link is in a session (25)."""
        if self.link.stand == IN:
            super().layer_turns()

    def speaks(self):
        if self.link.stand == IN:
            super().speaks()

    def answered(self):
        if self.link.stand == IN:
            super().answered()
        else:
            self.comes(is_plain=True)

    def exchange(self):
        if self.link.stand == IN:
            super().exchange()
        else:
            self.empty()

    def step(self):
        self.loses()
        self.link.sets_up(self.odds, self.back.kinds(), self.out.kinds())
        station = self.station
        if not station.is_up and not station.awaits_ua and self.chance(0.1):
            station.ask("dte connect")
        if station.awaits_ua and self.may_fire() and self.chance(0.1):
            station.ask("t1 dte")
        super().step()

    def holds(self):
        near, far, is_in = self.station.begun, self.link.session, self.link.stand == IN
        for one, other in self.met:
            is_wrong = self.station.is_up and one == near and other != far
            if is_wrong or is_in and other == far and one != near:
                raise Failed(
                    f"session {one} of the station met {other}; they are {near} and {far}"
                )
        mine = [other for one, other in self.met if one == near]
        theirs = [one for one, other in self.met if other == far]
        if (
            any(self.station.taken.values()) and not mine
            or any(self.layer.came.values()) and not theirs
        ):
            raise Failed(f"what was taken in sessions {near} and {far}, which met none")
        for one, other in [(near, other) for other in mine] + [(one, far) for one in theirs]:
            self.hold(*self.station.sessions[one], self.layers[other])

    def settle(self):
        """The link is set up where it isn't."""
        for _ in range(5):
            self.exchange()
            if self.station.is_up and self.link.stand == IN:
                # Its polls may all be lost; one more, and it would give up.
                self.link.says(RR, False, True)
                return super().settle()
            if self.station.awaits_ua:
                self.station.ask("t1 dte")
            else:
                self.link.asks()
        raise Failed("the link isn't up")

    def play(self):
        """From nothing."""
        self.go()


play = partial(peer_runs.play, kind=SessionRun)

if __name__ == "__main__":
    held = "order was kept session by session, and no error of procedure was found"
    sys.exit(peer_runs.main(held, __doc__, play))
