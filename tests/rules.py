"""The rules of docs/PEER.md, told apart from `x25 judge`: in which states each end of a trace may
be.

Of each end all is held that it may have come to: where it stands with the link, with restarts and
with each channel, by whole numbers, and what of the other end may come to it yet. What it loses
nothing by it hears and takes at once; in front of anything else it waits, or goes on. A frame
leaves the states that may send it. Where none is left the end has broken a rule, whatever came,
was lost or still waits.

SABM, RESTART, CLEAR and RESET may be sent again while they wait. CLEAR and RESTART end what waits
for an answer. A number goes first after all below it, as a tape doesn't show what is left out.

As a trace begins each end may be anywhere, and SABM and DISC of before may come, but no UA, and
nothing with a number. Octets that spell no frame may have been any, or none, and may have come or
not. After a gap of an end that is so again, but that anything of it may come. In front of an end a
trace lacks what the line lost of the other one. What an I frame carried that wasn't seen isn't
known, nor is where its end is with packets then, up to the next set-up.
"""

from typing import NamedTuple, Optional, Tuple, Union

from runs import (
    ACCEPTED, CALL, CLEAR, CLEAR_CONFIRMATION, DISC, DM, FRMR, INTERRUPT, INTERRUPT_CONFIRMATION
)
from runs import (
    OTHERS, REJ, RESET, RESET_CONFIRMATION, RESTART, RESTART_CONFIRMATION, RNR, RR, SABM, UA
)

DATA, INFO = 0, 0
# What may stand in a trace beside frames: octets that spell no frame, and a gap, any number of
# frames. And what stood before it began.
UNREAD, UNSEEN, BEFORE = "unread", "unseen", "before"
USUAL, USUAL_WINDOWS = (128, 128), (2, 2)
UNNUMBERED = (SABM, DISC, UA, DM, FRMR)


class Packet(NamedTuple):
    """A packet; `sizes` are those of the called and of the calling end, where a call says them,
    and so are `windows`."""

    channel: int
    kind: int
    pr: Optional[int] = None
    ps: Optional[int] = None
    q: bool = False
    m: bool = False
    size: int = 0
    sizes: Optional[Tuple[int, int]] = None
    windows: Optional[Tuple[int, int]] = None


def packet_of(octets):
    """The packet that octets spell, in the form in which a station writes it."""
    if len(octets) < 3:
        return None
    channel, kind, rest = (octets[0] & 15) << 8 | octets[1], octets[2], octets[3:]
    if not kind & 1 and octets[0] & 0x70 == 0x10 and channel:
        return Packet(
            channel,
            DATA,
            kind >> 5,
            kind >> 1 & 7,
            bool(octets[0] & 0x80),
            bool(kind & 0x10),
            len(rest),
        )
    if octets[0] & 0xF0 != 0x10 or (channel == 0) != (kind in (RESTART, RESTART_CONFIRMATION)):
        return None
    if kind & 0x1F in (RR, RNR) and not rest:
        return Packet(channel, kind & 0x1F, kind >> 5)
    if kind in (CALL, ACCEPTED):
        sizes, windows = said_in(rest, 0x42), said_in(rest, 0x43)
        return Packet(
            channel, kind, sizes=sizes and (1 << sizes[0], 1 << sizes[1]), windows=windows
        )
    return (
        Packet(channel, kind) if kind in KINDS and len(rest) in LENGTHS.get(kind, (0,)) else None
    )


def said_in(octets, code):
    """What a facility of a call says of the called and of the calling end, after its addresses."""
    if not octets:
        return None
    place = 1 + (octets[0] // 16 + octets[0] % 16 + 1) // 2
    field = octets[place + 1 : place + 1 + sum(octets[place : place + 1])]
    while field:
        if field[0] == code:
            return field[1], field[2]
        field = field[(2, 3, 4)[field[0] >> 6] if field[0] < 0xC0 else 2 + field[1] :]
    return None


KINDS = (
    CALL, ACCEPTED, CLEAR, CLEAR_CONFIRMATION, RESET, RESET_CONFIRMATION, INTERRUPT,
    INTERRUPT_CONFIRMATION, RESTART, RESTART_CONFIRMATION,
)
# How many octets come after its kind, where any do.
LENGTHS = {CLEAR: (2,), RESET: (2,), RESTART: (2,), INTERRUPT: range(1, 33)}


def resolved(low, number):
    """The first whole number from `low` on that is this one modulo 8."""
    return low + (number - low) % 8


def is_toward(proposed, usual, answered):
    """Whether what is answered lies between what was proposed and what is usual."""
    return all(
        min(a, b) <= n <= max(a, b) for a, b, n in zip(proposed, usual, answered or proposed)
    )


# ---- an end of a channel

IDLE, CALLS, CALLED, TALKS, RESETS, WAS_RESET, CLEARS, WAS_CLEARED = range(8)


class Channel(NamedTuple):
    stand: int = IDLE
    sizes: Tuple[int, int] = USUAL
    windows: Tuple[int, int] = USUAL_WINDOWS
    most: int = 0
    sent: int = 0
    acked: int = 0
    taken: int = 0
    told: int = 0
    q: Optional[bool] = None
    is_out: bool = False
    owed: int = 0

    def takes(self, is_dce, packet):
        """Where it stands once a packet has come."""
        kind, stand = packet.kind, self.stand
        if stand == CLEARS:
            return Channel() if kind in (CLEAR, CLEAR_CONFIRMATION) else self
        if kind == CLEAR:
            return Channel(WAS_CLEARED)
        if kind == CALL and (stand == IDLE or stand == CALLS and is_dce):
            return Channel(CALLED, packet.sizes or USUAL, packet.windows or USUAL_WINDOWS)
        if kind == ACCEPTED and stand == CALLS:
            return Channel(TALKS, most=(packet.sizes or self.sizes)[1])
        if stand == RESETS and kind in (RESET, RESET_CONFIRMATION):
            return Channel(TALKS, most=self.most)
        return self.talking(packet) if stand == TALKS else self

    def talking(self, packet):
        if packet.kind == RESET:
            return Channel(WAS_RESET, most=self.most)
        if packet.kind == INTERRUPT:
            return self._replace(owed=self.owed + 1)
        if packet.kind == INTERRUPT_CONFIRMATION:
            return self._replace(is_out=False)
        if packet.pr is None:
            return self
        return self._replace(
            acked=resolved(self.acked, packet.pr), taken=self.taken + (packet.ps == self.taken % 8)
        )

    def waits_for_nothing(self, packet):
        """Whether it loses nothing by taking a packet at once."""
        if packet.kind == INTERRUPT_CONFIRMATION and self.stand == TALKS:
            return self.is_out
        if self.stand == CLEARS:
            return packet.kind not in (CLEAR, CLEAR_CONFIRMATION)
        is_of_a_call = packet.pr is not None or packet.kind in (INTERRUPT, INTERRUPT_CONFIRMATION)
        return is_of_a_call and self.stand in (IDLE, CALLS, TALKS, RESETS)

    def sends(self, packet):
        """Where it stands once it has sent a packet, or None where it may not."""
        kind, stand = packet.kind, self.stand
        if kind == CLEAR and stand != WAS_CLEARED:
            return Channel(CLEARS)
        if kind == CALL and stand == IDLE:
            return Channel(CALLS, packet.sizes or USUAL)
        if kind == ACCEPTED and stand == CALLED:
            is_right = (
                is_toward(self.sizes, USUAL, packet.sizes)
                and is_toward(self.windows, USUAL_WINDOWS, packet.windows)
            )
            return Channel(TALKS, most=(packet.sizes or self.sizes)[0]) if is_right else None
        if kind == CLEAR_CONFIRMATION and stand == WAS_CLEARED:
            return Channel()
        if kind == RESET_CONFIRMATION and stand == WAS_RESET:
            return Channel(TALKS, most=self.most)
        if kind == RESET and stand in (TALKS, RESETS):
            return Channel(RESETS, most=self.most)
        return self.says(packet) if stand == TALKS else None

    def says(self, packet):
        if packet.kind == INTERRUPT:
            return None if self.is_out else self._replace(is_out=True)
        if packet.kind == INTERRUPT_CONFIRMATION:
            return self._replace(owed=self.owed - 1) if self.owed else None
        if packet.pr is None or resolved(self.told, packet.pr) > self.taken:
            return None
        told = self._replace(told=resolved(self.told, packet.pr))
        if packet.kind != DATA:
            return told
        is_right = (
            packet.ps == self.sent % 8
            and self.sent < self.acked + 7
            and packet.size <= self.most
            and self.q in (None, packet.q)
        )
        return (
            told._replace(sent=self.sent + 1, q=packet.q if packet.m else None)
            if is_right
            else None
        )


# ---- an end of the packet layer, with what came to its link and it hasn't taken yet

READY, RESTARTS, WAS_RESTARTED = range(3)


class Layer(NamedTuple):
    restart: int = READY
    channels: Tuple[Tuple[int, Channel], ...] = ()
    way: Tuple[Packet, ...] = ()

    def channel(self, number):
        return dict(self.channels).get(number, Channel())

    def with_channel(self, number, channel):
        channels = {**dict(self.channels), number: channel}
        return self._replace(
            channels=tuple(sorted(item for item in channels.items() if item[1] != Channel()))
        )

    def front(self, number):
        """The place of the first packet of a channel, where no RESTART and no confirmation of one
        is in front of it."""
        for place, packet in enumerate(self.way):
            if packet.channel in (number, 0):
                return place if packet.channel == number else None
        return None

    def takes(self, is_dce, place):
        packet = self.way[place]
        rest = self._replace(way=self.way[:place] + self.way[place + 1 :])
        if packet.channel == 0 and self.restart == RESTARTS:
            return rest._replace(restart=READY)
        if packet.channel == 0:
            return Layer(WAS_RESTARTED, way=rest.way) if packet.kind == RESTART else rest
        return rest if self.restart != READY else rest.with_channel(
            packet.channel, self.channel(packet.channel).takes(is_dce, packet)
        )

    def settled(self, is_dce):
        """With all taken that it loses nothing by taking at once."""
        layer, place, seen = self, 0, {0}
        while place < len(layer.way) and layer.way[place].channel:
            packet = layer.way[place]
            is_dropped = (
                layer.restart == RESTARTS
                or layer.restart == READY
                and layer.channel(packet.channel).waits_for_nothing(packet)
            )
            if is_dropped and packet.channel not in seen:
                layer = layer.takes(is_dce, place)
            else:
                seen.add(packet.channel)
                place += 1
        return layer

    def onward(self, is_dce, number):
        """All that it may be on a channel, now or once more has come, and as little on the others
        as may be."""
        layer = self.settled(is_dce)
        yield layer
        place = layer.front(number)
        if place is not None and number:
            yield from layer.takes(is_dce, place).onward(is_dce, number)
        elif layer.front(0) is not None:
            for _ in range(layer.front(0) + 1):
                layer = layer.takes(is_dce, 0)
            yield from layer.onward(is_dce, number)

    def sends(self, packet):
        if packet.kind == RESTART:
            return Layer(RESTARTS, way=self.way)
        if packet.kind == RESTART_CONFIRMATION:
            return self._replace(restart=READY) if self.restart == WAS_RESTARTED else None
        channel = self.channel(packet.channel).sends(packet) if self.restart == READY else None
        return self.with_channel(packet.channel, channel) if channel else None


# ---- an end of the link

# ANYWHERE is any of the others, with any numbers.
OUT, ASKS, IN, ANYWHERE = range(4)
# As many frames as may be missing, and more than a trace has.
MANY = 1 << 30


class Frame(NamedTuple):
    """A frame, with its end, `>` or `<`: of an unnumbered one its kind, else INFO, RR, RNR or REJ;
    or one that LAPB doesn't have; or UNREAD or UNSEEN."""

    end: str
    kind: Union[int, str, None]
    nr: Optional[int] = None
    ns: Optional[int] = None
    information: bytes = b""


def frame_of(end, octets):
    """What the octets of a frame are, without its frame check sequence."""
    control, information = octets[1], octets[2:]
    if not control & 1:
        return Frame(end, INFO, control >> 5, control >> 1 & 7, information)
    if control & 3 == 1:
        return (
            Frame(end, control & 15, control >> 5)
            if control & 15 in (RR, RNR, REJ) and not information
            else Frame(end, None)
        )
    kind = control & 0xEF
    return (
        Frame(end, kind)
        if kind in UNNUMBERED and len(information) == (3 if kind == FRMR else 0)
        else Frame(end, None)
    )


class Link(NamedTuple):
    """`given` has what the last seven I frames carried, None where that isn't known. There is no
    layer where it isn't known what that took."""

    stand: int = OUT
    sent: int = 0
    acked: int = 0
    taken: int = 0
    told: int = 0
    given: Tuple[Optional[bytes], ...] = ()
    layer: Optional[Layer] = None
    way: Tuple[Frame, ...] = ()

    def front(self):
        return self.way[0].kind if self.way else None

    def passed(self):
        """Once it has passed what is in front."""
        return self._replace(way=self.way[1:])

    def hears(self, frame):
        """It hears and takes what it may of a frame in front."""
        rest = self.passed()
        if self.stand != IN or frame.nr is None:
            return rest
        rest = rest._replace(acked=resolved(self.acked, frame.nr))
        if frame.ns != self.taken % 8:
            return rest
        packet = packet_of(frame.information)
        layer = (
            rest.layer._replace(way=rest.layer.way + (packet,))
            if rest.layer and packet
            else rest.layer
        )
        return rest._replace(taken=self.taken + 1, layer=layer)

    def begun(self, is_known):
        return Link(IN, layer=Layer() if is_known else None, way=self.way)

    def settled(self):
        """With all heard and taken in front of a frame that it may also pass over."""
        link = self
        while (
            link.way
            and link.front() not in (SABM, DISC, UNREAD, UNSEEN, BEFORE)
            and (link.front() != UA or link.stand not in (ASKS, ANYWHERE))
        ):
            link = link.hears(link.way[0])
        return link

    def onward(self, is_known):
        """All that it may be, now or once more has come."""
        link = self.settled()
        front = link.front()
        yield link
        if link.stand == IN and front == UNREAD:
            yield from link.passed()._replace(
                acked=link.acked + 7, taken=link.taken + 1, layer=None
            ).onward(is_known)
        elif link.way:
            yield from link.passed().onward(is_known)
        if link.stand == ASKS and front in (UA, UNREAD):
            yield from link.passed().begun(is_known).onward(is_known)
        if link.stand == ASKS and front == UNSEEN:
            yield from link.begun(is_known).onward(is_known)
        if link.stand == IN and front == UNSEEN and link.acked < MANY:
            for taken in range(MANY, MANY + 8):
                yield from link._replace(acked=MANY, taken=taken, layer=None).onward(is_known)

    def sends(self, frame, is_known):
        """What it may be once it has sent a frame, but for what its layer says."""
        kind = frame.kind
        if kind == UA:
            yield from self.answers(is_known)
        elif (
            kind == SABM
            and (self.stand in (ASKS, ANYWHERE) or all(other.kind != UA for other in self.way))
        ):
            yield Link(ASKS, way=self.way)
        elif kind == DM and self.stand in (ASKS, ANYWHERE):
            yield self
        elif kind in (DISC, FRMR, DM):
            yield Link(OUT, way=self.way)
        elif kind == UNREAD:
            yield from self.might_send(frame, is_known)
        elif frame.nr is not None and self.stand == ANYWHERE:
            yield self
        elif (
            frame.nr is not None
            and self.stand == IN
            and resolved(self.told, frame.nr) <= self.taken
        ):
            told = self._replace(told=resolved(self.told, frame.nr))
            if frame.ns is None:
                yield told
            else:
                yield from told.numbers(frame)

    def answers(self, is_known):
        """After a UA, to SABM or DISC in front, or to one that isn't seen."""
        front = self.front()
        rest = self.passed() if front in (SABM, DISC, UNREAD) else self
        if front == DISC:
            yield Link(way=rest.way)
        if front in (SABM, UNREAD, UNSEEN, BEFORE):
            yield rest.begun(is_known)
            if self.stand in (ASKS, ANYWHERE):
                yield Link(ASKS, way=rest.way)

    def might_send(self, frame, is_known):
        """After octets that spell no frame, which may have been any, or none. DISC, DM and FRMR
        leave nothing more to send than none."""
        yield self
        for kind in (SABM, UA):
            yield from self.sends(frame._replace(kind=kind), is_known)
        if self.stand == IN and self.sent < self.acked + 7:
            yield self._replace(sent=self.sent + 1, given=(self.given + (None,))[-7:], layer=None)

    def numbers(self, frame):
        number = resolved(max(0, self.sent - 7), frame.ns)
        if number >= self.acked + 7 or number > self.sent:
            return
        if number == self.sent:
            yield self._replace(sent=number + 1, given=(self.given + (frame.information,))[-7:])
        elif self.given[number - self.sent] in (None, frame.information):
            place = len(self.given) + number - self.sent
            yield self._replace(
                given=(*self.given[:place], frame.information, *self.given[place + 1 :])
            )


class Ends:
    """Both ends of a trace: for each the states in which it may be, at first any, and what these
    are for the link alone. `links` and `packets` have the places where an end broke its first rule
    of each layer. After the first one of the link, at `known`, nothing is known of packets, nor at
    each place in `blind`, as no layer is of some state. `at` is the sign of the end in front of
    which the trace is taken, or None."""

    def __init__(self, at=None):
        self.states = {
            end: [Link(ANYWHERE, way=(Frame(other, BEFORE),))] for end, other in OTHERS.items()
        }
        self.bare = dict(self.states)
        self.far = at and OTHERS[at]
        self.places, self.known = 0, None
        self.links, self.packets, self.blind = {}, {}, set()

    def onward(self, end, is_bare=False):
        """The states in which an end may be in front of a frame. What the line lost of the far end
        it has sent there, and nothing came of it."""
        is_known = self.known is None and not is_bare
        links = fresh = dict.fromkeys(
            later
            for link in (self.bare if is_bare else self.states)[end]
            for later in link.onward(is_known)
        )
        while end == self.far and fresh:
            lost = (
                sent for link in fresh for sent in link.might_send(Frame(end, UNREAD), is_known)
            )
            fresh = {
                later: None
                for link in lost
                for later in link.onward(is_known)
                if later not in links
            }
            links.update(fresh)
        return list(links)

    def allowed(self, frame, is_bare=False):
        """What its end may be once it has sent a frame: for the link, and for both layers."""
        is_known = self.known is None and not is_bare
        links = [
            (link, sent)
            for link in self.onward(frame.end, is_bare)
            for sent in link.sends(frame, is_known)
        ]
        packet, both = packet_of(frame.information), []
        for link, sent in links:
            if frame.ns is None or sent.sent == link.sent or sent.layer is None:
                both.append(sent)
            elif packet:
                layers = [
                    layer.sends(packet)
                    for layer in sent.layer.onward(frame.end == "<", packet.channel)
                ]
                both += [sent._replace(layer=layer) for layer in layers if layer]
        return list(dict.fromkeys(sent for _, sent in links)), list(dict.fromkeys(both))

    def passes(self, frame):
        """A frame goes."""
        if frame.kind == UNSEEN:
            self.states = {
                end: [
                    Link(
                        ANYWHERE, way=(Frame(OTHERS[end], BEFORE if end == frame.end else UNSEEN),)
                    )
                ]
                for end in OTHERS
            }
            self.bare = dict(self.states)
        elif frame.end not in self.links:
            self.judges(frame)
        if self.known is not None:
            self.states = dict(self.bare)
        if frame.kind != UNSEEN:
            for states in (self.states, self.bare):
                states[OTHERS[frame.end]] = self.shown(states[OTHERS[frame.end]], frame)
        self.places += 1

    def judges(self, frame):
        end = frame.end
        links, both = self.allowed(frame)
        self.bare[end] = self.allowed(frame, is_bare=True)[0]
        if not self.bare[end]:
            self.links[end] = self.places
            self.known = self.places if self.known is None else self.known
        elif links and not both:
            self.packets.setdefault(end, self.places)
        if not links or any(link.layer is None for link in links):
            self.blind.add(self.places)
        self.states[end] = both or self.bare[end]

    @staticmethod
    def shown(links, frame):
        return list(
            dict.fromkeys(link._replace(way=link.way + (frame,)).settled() for link in links)
        )
