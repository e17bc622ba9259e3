"""One end of another make: its link and its packet layer, as the random runs play them.

What an end has to keep are the rules of docs/PEER.md. Each stands by its number at the method that
keeps it, so a test that breaks a rule has a method of its own. All else is free, and left to
chance: `Choices` says how likely each is. A run draws them from a row, a tuple of values for each.
"""

from collections import defaultdict
from typing import NamedTuple

from runs import ACCEPTED, CALL, CLEAR, CLEAR_CONFIRMATION, DISC, DM, FRMR, INTERRUPT
from runs import INTERRUPT_CONFIRMATION, P_OR_F, REJ, RESET, RESET_CONFIRMATION, RESTART
from runs import RESTART_CONFIRMATION, RNR, RR, SABM, UA, Numbers

# Where a link stands: in no session, awaiting the UA to its SABM, or in a session.
OUT, ASKING, IN = "out", "asking", "in"
# Where an end stands with RESTART, CLEAR or RESET: its own is out, or the other end's isn't
# answered.
READY, ASKS, WAS_ASKED = "ready", "asks", "was asked"
# Where a channel stands with its call.
FREE, CALLING, CALLED, OPEN = "free", "calling", "called", "open"
CONFIRMATIONS = {
    RESTART: RESTART_CONFIRMATION, CLEAR: CLEAR_CONFIRMATION, RESET: RESET_CONFIRMATION
}
# What a call says: two addresses, and no facilities.
CALLS = bytes.fromhex("431234567000")
# Causes and diagnostics of requests, of a DCE and of a DTE.
CAUSES = {True: ((0, 0), (3, 80), (128, 1), (9, 0)), False: ((0, 0), (128, 1))}


class Choices(NamedTuple):
    """How likely an end does what is free, each time that it might; and how it does it."""

    # It passes over a frame, or over the N(R) in it.
    deaf: float = 0
    # It acknowledges less than it might: of the link, of a channel.
    late: float = 0
    lags: float = 0
    # It sends again an I frame that it may send, and says RR, RNR or REJ unasked.
    again: float = 0
    talks: float = 0
    polls: float = 0.2
    # It takes no packet that has come, and sends one.
    lazy: float = 0
    speaks: float = 1
    # It restarts, clears, resets.
    restarts: float = 0
    clears: float = 0
    resets: float = 0
    # It sends a request again while that is out, as T20, T22 and T23 have it: a break of rule 9.
    insists: float = 0
    # It answers a request as soon as it takes it; else it may take one that ends this one first.
    is_prompt: bool = True
    # How likely it sends data, RR or RNR, an interrupt, and a confirmation of one.
    kinds: tuple = (2, 1, 1, 1)
    # A message has more packets; the most data packets that stand unacknowledged, at most 7.
    more: float = 0.3
    window: int = 7


def drawn(dice, row):
    """The choices of a run, from a row of values for each."""
    return Choices(**{name: dice.choice(values) for name, values in row.items()})


class Link(Numbers):
    """The link of an end, the packets that it was handed down, and where it stands.

    `mark` begins its lines, and `puts` takes each frame: whether it is a command, its control
    field and what follows. It hears (6) and wants (4) what `Numbers` says.
    """

    def __init__(self, dice, choices, mark, puts):
        super().__init__()
        self.dice, self.choices, self.mark, self.puts = dice, choices, mark, puts
        self.stand, self.given = OUT, []

    def chance(self, odds):
        return self.dice.random() < odds

    # ---- set-up

    def begins(self):
        """A session begins, with all numbers 0 (21)."""
        Numbers.__init__(self)
        self.stand, self.given = IN, []

    def may_ask(self, own, others):
        """It is patient (24): of its own kinds of frames on the line, and of the other end's."""
        return not {SABM, DISC} & set(own) and UA not in others

    def asks(self, poll=P_OR_F):
        """It sends SABM, and leaves its session (23)."""
        self.stand = ASKING
        self.puts(True, SABM | poll)

    def closes(self):
        """It sends DISC, and leaves its session (23)."""
        self.stand = OUT
        self.puts(True, DISC | self.dice.choice((0, P_OR_F)))

    def answers(self, control, is_plain=False):
        """It answers SABM or DISC by UA (22); where it awaits UA itself, it may wait on (21)."""
        if control & ~P_OR_F == DISC:
            self.stand = OUT
        elif is_plain or self.stand != ASKING or self.chance(0.5):
            self.begins()
        self.puts(False, UA | (control & P_OR_F if is_plain or self.chance(0.9) else 0))

    def sets_up(self, odds, own, others):
        """It begins or ends something, or does what is free: with the kinds of frames on the
        line."""
        is_out = self.stand != IN and self.chance(0.1)
        if (is_out or self.chance(odds)) and self.may_ask(own, others):
            self.asks(self.dice.choice((0, P_OR_F, P_OR_F, P_OR_F)))
        elif self.chance(odds / 3):
            self.closes()
        elif self.chance(odds / 3):
            self.stand = OUT
        elif self.chance(odds / 3):
            kinds = ((DM | P_OR_F, b""), (DM, b""), (FRMR, b"\0\0\x01"))
            self.puts(False, *self.dice.choice(kinds))

    # ---- what comes

    def hears_numbers(self):
        """It hears frames with N(R), and takes packets, in a session alone (20)."""
        return self.stand == IN

    def comes(self, octets, is_plain=False):
        """A frame comes; answers the packet that it takes."""
        control = octets[1]
        hears, takes = (is_plain or not self.chance(self.choices.deaf) for _ in range(2))
        if control & 3 != 3:
            return self.comes_numbered(octets, hears, takes) if self.hears_numbers() else None
        if hears and control & ~P_OR_F in (SABM, DISC):
            self.answers(control, is_plain)
        elif hears and control & ~P_OR_F == UA and self.stand == ASKING:
            self.begins()
        return None

    def comes_numbered(self, octets, hears, takes):
        control = octets[1]
        if hears:
            self.hears(control >> 5)
        is_taken = not control & 1 and takes and self.takes(control >> 1 & 7)
        return octets[2:-2] if is_taken else None

    # ---- what it sends

    def numbers(self):
        """The numbers that it may send (2, 3)."""
        return range(max(0, self.sent - 7), min(self.acked + 7, len(self.given)))

    def packet(self, number):
        """The packet of this number, each time (1)."""
        return self.given[number]

    def acknowledges(self, late):
        """What an N(R) stands for: from the last one to the number of packets it took (5)."""
        return self.dice.randint(self.told, self.taken) if late else self.taken

    def says(self, control, is_command, poll=False, late=False, packet=b""):
        """It sends a frame with an N(R)."""
        self.told = self.acknowledges(late)
        self.puts(is_command, self.told % 8 << 5 | poll << 4 | control, packet)

    def item(self, number, poll=False, late=False):
        """It sends the I frame of this number."""
        self.sent = max(self.sent, number + 1)
        self.says(number % 8 << 1, True, poll, late, self.packet(number))

    def speaks(self):
        """It sends an I frame, which may go again, and RR, RNR or REJ unasked; or neither."""
        late, poll = self.chance(self.choices.late), self.chance(self.choices.polls)
        numbers = self.numbers()
        if numbers and self.chance(self.choices.again):
            self.item(self.dice.choice(numbers), poll, late)
        elif self.sent in numbers:
            self.item(self.sent, poll, late)
        if self.chance(self.choices.talks):
            kind = self.dice.choice((RR, RR, RNR, REJ))
            self.says(kind, self.chance(0.5), poll, late)

    def goes_on(self, first):
        """It sends all that it may, from a number on."""
        for number in range(first, min(self.acked + 7, len(self.given))):
            self.item(number)


class Channel(Numbers):
    """A channel: where it stands with CLEAR, with its call and with RESET, and what it counts."""

    def __init__(self, clears=0):
        self.clears, self.stage, self.clear = clears, FREE, READY
        self.begin(0)

    def begin(self, resets):
        """A stretch begins: all numbers are 0, and no interrupt is out (12)."""
        super().__init__()
        self.resets, self.reset = resets, READY
        self.owed, self.is_out = 0, False
        # Q and the octets of the message that it sends, and the octets of the one that comes.
        self.begun, self.joined = None, b""

    def asked(self):
        """Whether it owes a confirmation."""
        return WAS_ASKED in (self.clear, self.reset)


class Layer:
    """The packet layer of an end; `puts` takes each packet that it sends.

    `carried` and `came` have what its packets carried and what it took: messages, interrupts and
    calls, each list by what it is, its channel and the name of the stretch.
    """

    def __init__(self, dice, choices, puts, channels, is_dce=True):
        self.dice, self.choices, self.puts, self.is_dce = dice, choices, puts, is_dce
        self.restarts, self.restart = 0, READY
        self.channels = {number: Channel() for number in channels}
        self.inbox = []
        self.carried, self.came = defaultdict(list), defaultdict(list)
        self.made = 0

    def chance(self, odds):
        return self.dice.random() < odds

    def take(self, packet):
        """The link has taken a packet; the layer does so when it likes."""
        self.inbox.append(packet)

    def turn(self, is_full=False):
        """It takes a packet, or sends one, unless too much waits; or it does nothing."""
        place = self.next() if self.inbox and not self.chance(self.choices.lazy) else None
        if place is not None:
            self.hears(self.inbox.pop(place))
        elif not is_full and self.chance(self.choices.speaks):
            self.speaks()

    def takes_all(self):
        """It takes what it may."""
        while self.inbox and (place := self.next()) is not None:
            self.hears(self.inbox.pop(place))

    # ---- what it takes

    def next(self):
        """The place of a packet that it may take: the first of a channel (14), or RESTART where it
        is in front. What it owes an answer there it answers first (10), or takes what ends
        that."""
        if self.restart == WAS_ASKED:
            return None
        if self.restart == ASKS or self.inbox[0][2] in (RESTART, RESTART_CONFIRMATION):
            return 0
        first = {}
        for place, packet in enumerate(self.inbox):
            if packet[2] in (RESTART, RESTART_CONFIRMATION):
                break
            first.setdefault(packet[1], place)
        free = [
            h for h, place in first.items() if self.inbox[place][2] == CLEAR or not self.asked(h)
        ]
        return first[self.dice.choice(free)] if free else None

    def asked(self, h):
        return h in self.channels and self.channels[h].asked()

    def hears(self, packet):
        kind, h = packet[2], packet[1]
        if kind in (RESTART, RESTART_CONFIRMATION):
            self.restarted(kind)
        elif self.restart == READY and h in self.channels:
            self.hears_channel(h, kind, packet)
        if self.choices.is_prompt:
            self.confirms(h)

    def unexpected(self, packet, why):
        """A packet came that no end that keeps the rules sends."""

    def restarted(self, kind):
        """Either ends its own RESTART (11); else one is to be confirmed (10), and no call is left
        (12)."""
        if self.restart == READY and kind == RESTART_CONFIRMATION:
            self.unexpected(bytes([0x10, 0, kind]), "it confirms no RESTART")
            return
        self.restart = READY if self.restart == ASKS else WAS_ASKED
        self.restarts += 1
        self.channels = {number: Channel() for number in self.channels}

    def hears_channel(self, h, kind, packet):
        channel = self.channels[h]
        if channel.clear == ASKS:
            if kind in (CLEAR, CLEAR_CONFIRMATION):
                self.channels[h] = Channel(channel.clears + 1)
        elif kind == CLEAR:
            self.channels[h] = Channel(channel.clears + 1)
            self.channels[h].clear = WAS_ASKED
        elif channel.stage == OPEN and channel.reset == ASKS:
            self.resetting(channel, h, kind, packet)
        elif channel.stage == OPEN and kind == RESET:
            channel.begin(channel.resets + 1)
            channel.reset = WAS_ASKED
        elif channel.stage == OPEN:
            self.hears_open(channel, h, kind, packet)
        elif kind == CALL and (channel.stage == FREE or channel.stage == CALLING and self.is_dce):
            # Of two calls that of the DTE goes ahead (13).
            channel.stage = CALLED
            self.came["call", h, self.name(channel, is_call=True)].append(packet[4:])
        elif kind == ACCEPTED and channel.stage == CALLING:
            channel.stage = OPEN
        elif kind != CALL or channel.stage != CALLING:
            self.unexpected(packet, f"the channel is {channel.stage}")

    def resetting(self, channel, h, kind, packet):
        """While its RESET is out all else is dropped (11)."""
        if kind in (RESET, RESET_CONFIRMATION):
            channel.begin(channel.resets + 1)

    def hears_open(self, channel, h, kind, packet):
        name = self.name(channel)
        if kind & 1 == 0 or kind & 31 in (RR, RNR):
            channel.hears(kind >> 5)
        if kind & 1 == 0:
            channel.taken += 1
            channel.joined += packet[3:]
            if not kind & 16:
                self.came["message", h, name].append(channel.joined)
                channel.joined = b""
        elif kind == INTERRUPT:
            channel.owed += 1
            self.came["interrupt", h, name].append(packet[3:])
        elif kind == INTERRUPT_CONFIRMATION:
            channel.is_out = False
        elif kind & 31 not in (RR, RNR):
            self.unexpected(packet, "a call is up")

    # ---- what it sends

    def name(self, channel, is_call=False):
        """The name of a stretch: its restarts, clears and resets."""
        return f"{self.restarts}.{channel.clears}.{0 if is_call else channel.resets}"

    def sends(self, h, kind, rest=b"", q=0):
        self.puts(bytes([0x10 | q << 7, h, kind]) + rest)

    def octets(self):
        """Octets that come no second time."""
        self.made += 1
        return b"%d" % self.made

    def confirms(self, h):
        """One confirmation of a request (10)."""
        channel = self.channels.get(h)
        if self.restart == WAS_ASKED:
            self.restart = READY
            self.sends(0, RESTART_CONFIRMATION)
        elif channel is not None and channel.clear == WAS_ASKED:
            channel.clear = READY
            self.sends(h, CLEAR_CONFIRMATION)
        elif channel is not None and channel.reset == WAS_ASKED:
            channel.reset = READY
            self.sends(h, RESET_CONFIRMATION)

    def requests(self, h, kind):
        self.sends(h, kind, bytes(self.dice.choice(CAUSES[self.is_dce])))

    def insists(self, h, kind):
        """A request that is out goes again, or nothing goes (9)."""
        if self.chance(self.choices.insists):
            self.requests(h, kind)

    def speaks(self):
        """One packet, or none."""
        h = self.dice.choice(list(self.channels))
        if self.restart == WAS_ASKED:
            self.confirms(0)
        elif self.restart == ASKS:
            self.insists(0, RESTART)
        elif self.chance(self.choices.restarts):
            self.restart = ASKS
            self.requests(0, RESTART)
        else:
            self.speaks_on(self.channels[h], h)

    def speaks_on(self, channel, h):
        if channel.clear == WAS_ASKED:
            self.confirms(h)
        elif channel.clear == ASKS:
            self.insists(h, CLEAR)
        elif self.chance(self.choices.clears):
            channel.clear = ASKS
            self.requests(h, CLEAR)
        elif channel.stage == FREE:
            channel.stage = CALLING
            call = CALLS + self.octets()
            self.carried["call", h, self.name(channel, is_call=True)].append(call[1:])
            self.sends(h, CALL, call)
        elif channel.stage == CALLED:
            channel.stage = OPEN
            self.sends(h, ACCEPTED)
        elif channel.stage == OPEN and channel.reset == WAS_ASKED:
            self.confirms(h)
        elif channel.stage == OPEN and channel.reset == ASKS:
            self.insists(h, RESET)
        elif channel.stage == OPEN:
            self.speaks_open(channel, h)

    def number(self, channel):
        """P(S) is the next one (15)."""
        return channel.sent % 8 << 1

    def may_send(self, channel):
        """So many data packets may stand unacknowledged (16)."""
        return channel.sent < channel.acked + self.choices.window

    def acknowledges(self, channel):
        """A P(R): from the last one to the number of data packets that it took (17)."""
        lags = self.chance(self.choices.lags)
        channel.told = self.dice.randint(channel.told, channel.taken) if lags else channel.taken
        return channel.told % 8 << 5

    def qualifier(self, channel):
        """One Q in a message (18)."""
        return channel.begun[0] if channel.begun else self.dice.randrange(2)

    def may_interrupt(self, channel):
        """One interrupt at a time (19)."""
        return not channel.is_out

    def may_confirm(self, channel):
        """One confirmation of each (19)."""
        return channel.owed > 0

    def speaks_open(self, channel, h):
        if self.chance(self.choices.resets):
            channel.reset = ASKS
            self.requests(h, RESET)
            return
        (what,) = self.dice.choices(range(4), self.choices.kinds)
        if what == 0 and self.may_send(channel):
            self.sends_data(channel, h)
        elif what == 1:
            self.sends(h, self.acknowledges(channel) | self.dice.choice((RR, RNR)))
        elif what == 2 and self.may_interrupt(channel):
            channel.is_out = True
            octets = self.octets()
            self.carried["interrupt", h, self.name(channel)].append(octets)
            self.sends(h, INTERRUPT, octets)
        elif what == 3 and self.may_confirm(channel):
            channel.owed -= 1
            self.sends(h, INTERRUPT_CONFIRMATION)

    def sends_data(self, channel, h):
        octets, more, q = self.octets(), self.chance(self.choices.more), self.qualifier(channel)
        kind = self.acknowledges(channel) | more << 4 | self.number(channel)
        channel.sent += 1
        channel.begun = (q, (channel.begun[1] if channel.begun else b"") + octets)
        if not more:
            self.carried["message", h, self.name(channel)].append(channel.begun[1])
            channel.begun = None
        self.sends(h, kind, octets, q)

    def are_up(self):
        """The channels on which a call is up and nothing is out, with their numbers."""
        if self.restart == READY:
            for h, channel in self.channels.items():
                if channel.stage == OPEN and channel.reset == channel.clear == READY:
                    yield h, channel

    def settles(self):
        """All that came is acknowledged and confirmed, and it is ready."""
        for h, channel in self.are_up():
            channel.told = channel.taken
            self.sends(h, channel.told % 8 << 5 | RR)
            for _ in range(channel.owed):
                self.sends(h, INTERRUPT_CONFIRMATION)
            channel.owed = 0
