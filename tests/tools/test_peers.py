"""Tests of the station with ends that keep the rules of docs/PEER.md, and with such as break
one."""

import unittest
from functools import partial

import support

import ends
import packet_runs
import peer_runs
import session_runs
from ends import ASKS, IN
from peer_runs import Layer
from runs import P_OR_F, RESET_CONFIRMATION, UA

RUNS = 30


# ---- the link


class OtherPacket(ends.Link):
    """Rule 1 is broken: a number carries another packet."""

    def packet(self, number):
        return self.dice.choice(self.given)


class EightBehind(ends.Link):
    """Rule 3 is broken."""

    def numbers(self):
        return range(max(0, self.sent - 8), min(self.acked + 7, len(self.given)))


class TakesAny(ends.Link):
    """Rule 4 is broken."""

    def wants(self, number):
        return True


class AcknowledgesMore(ends.Link):
    """Rule 5 is broken: one more than it took."""

    def acknowledges(self, late):
        return self.taken + late


class AcknowledgesLess(ends.Link):
    """Rule 5 is broken: N(R) falls."""

    def acknowledges(self, late):
        return self.dice.randint(0, self.taken) if late else self.taken


class HearsMore(ends.Link):
    """Rule 6 is broken: all that was sent counts as acknowledged."""

    def hears(self, number):
        self.acked = self.sent


# ---- the packet layer


class SendsAfterItsReset(Layer):
    """Rule 9 is broken."""

    def speaks_open(self, channel, h):
        super().speaks_open(channel, h)
        if channel.reset == ASKS:
            super().speaks_open(channel, h)


class ConfirmsNone(Layer):
    """Rule 10 is broken: RESET CONFIRMATION of no RESET."""

    def speaks_open(self, channel, h):
        if self.chance(0.1):
            self.sends(h, RESET_CONFIRMATION)
        super().speaks_open(channel, h)


class TakesWhileResetting(Layer):
    """Rule 11 is broken: it takes what was sent to it before its RESET came."""

    def resetting(self, channel, h, kind, packet):
        super().resetting(channel, h, kind, packet)
        if kind & 1 == 0:
            name = f"{self.restarts}.{channel.clears}.{channel.resets + 1}"
            self.came["message", h, name].append(packet[3:])


class KeepsNumbersAtReset(Layer):
    """Rule 12 is broken: after a reset its P(S) goes on."""

    def number(self, channel):
        return (channel.sent + channel.resets) % 8 << 1


class TakesOutOfOrder(Layer):
    """Rule 14 is broken."""

    def next(self):
        return self.dice.randrange(len(self.inbox))


class SkipsANumber(Layer):
    """Rule 15 is broken."""

    def number(self, channel):
        return (channel.sent + (channel.sent > 1)) % 8 << 1


class AcknowledgesMorePackets(Layer):
    """Rule 17 is broken: one more than it took."""

    def acknowledges(self, channel):
        return (super().acknowledges(channel) + (1 << 5)) % 256


class OtherQualifier(Layer):
    """Rule 18 is broken."""

    def qualifier(self, channel):
        return self.dice.randrange(2)


class ConfirmsNoInterrupt(Layer):
    """Rule 19 is broken."""

    def may_confirm(self, channel):
        return True


# ---- sessions


class HearsOutside(session_runs.Link):
    """Rule 20 is broken: it takes packets in no session."""

    def hears_numbers(self):
        return True


class KeepsNumbers(session_runs.Link):
    """Rule 21 is broken: the numbers of the session before go on."""

    def begins(self):
        taken, told = self.taken, self.told
        super().begins()
        self.taken, self.told = taken, told


class AnswersUnasked(session_runs.Link):
    """Rule 22 is broken: it sends UA to no SABM."""

    def sets_up(self, *given):
        if self.chance(0.1):
            self.puts(False, UA | P_OR_F)
        super().sets_up(*given)


class StaysAsItAsks(session_runs.Link):
    """Rule 23 is broken: it goes on in its session after SABM."""

    def asks(self, poll=P_OR_F):
        stand = self.stand
        super().asks(poll)
        self.stand = stand if stand == IN else self.stand


class AsksAgain(session_runs.Link):
    """Rule 24 is broken: it sends SABM where one is on the line."""

    def may_ask(self, own, others):
        return True


class FiresEarly(session_runs.SessionRun):
    """Timer T1 of the station runs out though SABM or UA is on the line."""

    def may_fire(self):
        return True


class KeepsPackets(session_runs.SessionRun):
    """Rule 25 is broken: its packet layer takes what its link took in the session before."""

    def session_begins(self):
        inbox = self.layer.inbox
        super().session_begins()
        self.layer.inbox = list(inbox)


LINKS = (OtherPacket, EightBehind, TakesAny, AcknowledgesMore, AcknowledgesLess, HearsMore)
LAYERS = (SendsAfterItsReset, ConfirmsNone, TakesWhileResetting, KeepsNumbersAtReset)
LAYERS += (TakesOutOfOrder, SkipsANumber, AcknowledgesMorePackets, OtherQualifier)
LAYERS += (ConfirmsNoInterrupt,)
SESSIONS = (HearsOutside, KeepsNumbers, AnswersUnasked, StaysAsItAsks, AsksAgain)


@support.needs_station
class Peers(unittest.TestCase):
    def keeps(self, play):
        told = [play(support.PROGRAM, seed) for seed in range(1, RUNS + 1)]
        self.assertEqual(told, [None] * RUNS)

    def is_seen(self, what, play):
        with self.subTest(what.__name__):
            self.assertTrue(any(play(support.PROGRAM, seed) for seed in range(1, RUNS + 1)))

    def test_links_that_keep_the_rules(self):
        self.keeps(peer_runs.play)

    def test_layers_that_keep_the_rules(self):
        self.keeps(packet_runs.play)

    def test_sessions_that_keep_the_rules(self):
        self.keeps(session_runs.play)

    def test_a_broken_rule_of_the_link_is_seen(self):
        for link in LINKS:
            self.is_seen(link, partial(peer_runs.play, link=link))

    def test_a_broken_rule_of_the_packet_layer_is_seen(self):
        for layer in LAYERS:
            self.is_seen(layer, partial(packet_runs.play, layer=layer))

    def test_a_broken_rule_of_set_up_is_seen(self):
        for link in SESSIONS:
            self.is_seen(link, partial(session_runs.play, link=link))
        for run in (FiresEarly, KeepsPackets):
            self.is_seen(run, partial(peer_runs.play, kind=run))


if __name__ == "__main__":
    unittest.main()
