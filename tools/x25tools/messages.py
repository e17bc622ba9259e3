"""Messages out of the frames of a line: what each end's link took, in order and once, and its data
joined by the M bit.

Where frames weren't recorded, what was begun is broken off: what comes next on its channel may be
the rest of it.
"""

from __future__ import annotations

import functools
import re
from typing import Iterable, Optional, Sequence

from x25tools.x25lines import LACKS, OTHER, is_gap

# The numbers of a frame: N(S) of an I frame, and N(R) of that and of RR, RNR and REJ.
NUMBERED = re.compile(
    "[<>] (?:I cmd P=[01] S=([0-7])|(?:RR|RNR|REJ) (?:cmd|rsp) [PF]=[01]) R=([0-7])"
)
# What sets the link up.
SET_UPS = "SABM ", "UA "
# The packets that have what a user sent, without that.
DATA, INTERRUPT = (
    re.compile("DATA ch=([0-9]+) S=[0-7] R=[0-7] M=([01]) Q=([01])(?: D=1)?"),
    re.compile("INT ch=([0-9]+)"),
)
# What an end sends of these ends what it had begun; where the other end asks for it, the answer
# does.
ENDED = re.compile(r"((?:RESTART|CLEAR|RESET)(?:CONF)?|CALL|ACCEPT)\b(?: ch=([0-9]+))?")
MODULUS = 8
UNRECORDED = "packet not recorded"
# A message is shown in parts of about this many octets where it is longer.
MOST_MESSAGE = 1 << 20
# How many forms of frames and packets are kept as they were read.
KEPT = 4096
# The time of the frame that completes a message, `>` or `<`, the channel (None: of the whole
# line), its sort, its octets as digits, and Q if it has one.
Message = tuple[str, str, Optional[int], str, str, str]

A_ROW = 16
# Each octet as it is shown as text.
SHOWN = bytes(octet if 0x20 <= octet < 0x7F else ord(".") for octet in range(256))
# A row after its line feed, with four digits of its place, and where these, the digits of its
# octets and their text stand; and how many rows have so few.
ROW = "\n    0000  " + "   " * A_ROW + " " * (1 + A_ROW)
PLACE_AT, DIGITS_AT, TEXT_AT, PLACE_DIGITS = 5, 11, 12 + 3 * A_ROW, 4
MOST_ROWS = 0x10000 // A_ROW
PLACES = "".join([f"{A_ROW * row:04x}" for row in range(MOST_ROWS)]).encode()


def dumped(octets: bytes) -> str:
    """The rows of some octets, as text: where each stands, its octets in hexadecimal digits and as
    text."""
    rows = ((at, octets[at : at + A_ROW]) for at in range(0, len(octets), A_ROW))
    return "\n".join([
        f"    {at:04x}  {row.hex(' '):{3 * A_ROW}} {row.translate(SHOWN).decode()}"
        for at, row in rows
    ])


def all_dumped(many: Sequence[str]) -> list[str]:
    """The rows of each of some octets, given as digits, as `dumped` has them, each after a line
    feed. They are laid out together, column by column, which is ten times as fast."""
    counts = [-(-len(digits) // (2 * A_ROW)) for digits in many]
    if max(counts, default=0) > MOST_ROWS:
        return [f"\n{dumped(bytes.fromhex(digits))}" if digits else "" for digits in many]
    laid = "".join([digits.ljust(2 * A_ROW * rows) for digits, rows in zip(many, counts)])
    text = bytes.fromhex(laid.replace(" ", "0")).translate(SHOWN)
    page, digits_of = bytearray(ROW.encode() * sum(counts)), laid.encode()
    places = b"".join([PLACES[: PLACE_DIGITS * rows] for rows in counts])
    for column in range(PLACE_DIGITS):
        page[PLACE_AT + column :: len(ROW)] = places[column::PLACE_DIGITS]
    for column in range(A_ROW):
        page[DIGITS_AT + 3 * column :: len(ROW)] = digits_of[2 * column :: 2 * A_ROW]
        page[DIGITS_AT + 3 * column + 1 :: len(ROW)] = digits_of[2 * column + 1 :: 2 * A_ROW]
        page[TEXT_AT + column :: len(ROW)] = text[column::A_ROW]
    shown, found, end = page.decode(), [], 0
    for digits, rows in zip(many, counts):
        begin, end = end, end + len(ROW) * rows
        # Without what the last row lacks.
        found.append(shown[begin : end - A_ROW * rows + len(digits) // 2])
    return found


@functools.lru_cache(KEPT)
def numbers_of(frame: str) -> tuple[str, int | None, int | None, bool]:
    """Of a frame, without its packet: its direction, N(S) and N(R) where it has them, and whether
    it sets the link up."""
    found = NUMBERED.match(frame)
    sent, heard = (
        [None if number is None else int(number) for number in found.groups()]
        if found
        else [None, None]
    )
    return frame[0], sent, heard, frame.startswith(SET_UPS, 2)


@functools.lru_cache(KEPT)
def data_of(packet: str) -> tuple[int, bool, str] | None:
    """Channel, M and Q of a DATA packet, without its data; None of another packet."""
    found = DATA.fullmatch(packet)
    return (int(found[1]), found[2] == "1", found[3]) if found else None


class Way:
    """The packets of the I frames of one way, as the end that receives them takes them; `due` is
    the number of the first, where that is known.

    The frame that is due is taken at once. One out of order is held: it counts only where the
    other end acknowledges it, so that the recorder missed a frame and that end didn't. Where the
    first number isn't known the first N(R) of the other end tells it.
    """

    def __init__(self, due: int | None = None) -> None:
        self.due = self.acknowledged = due
        self.held: dict[int, str] = {}

    def take(self, number: int, packet: str) -> Sequence[str]:
        """Takes the I frame of a number; returns its packet where it is due."""
        if number == self.due:
            self.held.pop(number, None)
            self.due = (number + 1) % MODULUS
            return (packet,)
        if self.due is None:
            self.held[number] = packet
            return self.end() if len(self.held) == MODULUS - 1 else ()
        if self.acknowledged is None or self._after(number) > self._after(self.due):
            self.held[number] = packet
        return ()

    def acknowledge(self, number: int) -> Sequence[str | None]:
        """Takes an N(R); returns the packets that it shows were taken, and None for each of these
        that is missing."""
        if self.due is None:
            taken: list[str | None] = [*self._begin(number)]
        elif (
            self.acknowledged is None
            or (number - self.acknowledged) % MODULUS <= (self.due - self.acknowledged) % MODULUS
        ):
            taken = []
        elif (number - 1) % MODULUS not in self.held:
            # What it acknowledges wasn't seen: it tells nothing, and may be wrong.
            return []
        else:
            taken = []
            while self.due != number:
                taken.append(self.held.get(self.due))
                self.due = (self.due + 1) % MODULUS
            self.held.clear()
        self.acknowledged = number
        return taken

    def end(self) -> list[str]:
        """Returns what is held of a way that nothing was heard of, in the order in which it
        came."""
        if self.due is not None or not self.held:
            return []
        self.due = (list(self.held)[-1] + 1) % MODULUS
        taken = list(self.held.values())
        self.held.clear()
        return taken

    def _begin(self, number: int) -> list[str]:
        """Begins where the other end stands; returns what is held and lies just before that, or
        from there on without a gap."""
        first = number
        while (first - 1) % MODULUS in self.held:
            first = (first - 1) % MODULUS
        self.due, taken = first, []
        while self.due in self.held:
            taken.append(self.held.pop(self.due))
            self.due = (self.due + 1) % MODULUS
        return taken

    def _after(self, number: int) -> int:
        assert self.acknowledged is not None
        return (number - self.acknowledged) % MODULUS


class Messages:
    """Joins the messages of one line; `due` is the first number, if it is known. Frames that were
    made up bring each packet once."""

    def __init__(self, due: int | None = None, is_made_up: bool = False) -> None:
        self._ways = {direction: Way(due) for direction in OTHER}
        self._is_made_up = is_made_up
        # After frames that weren't recorded the channels on which a message has ended since, by
        # way; None where nothing is missing.
        self._whole: dict[str, set[int] | None] = dict.fromkeys(OTHER)
        self._begun: dict[tuple[str, int], bytearray] = {}
        self._completed: list[Message] = []
        self._time = ""

    def take(self, frames: Iterable[tuple[str, str]]) -> list[Message]:
        """Takes some frames, each its time and its text by `x25 decode`; answers the messages that
        they complete."""
        for self._time, text in frames:
            if is_gap(text):
                self._pass_gap()
                continue
            frame, _, packet = text.partition(" | ")
            if self._is_made_up:
                self._packet(frame[0], packet)
                continue
            direction, sent, heard, sets_up = numbers_of(frame)
            if heard is not None:
                for taken in self._ways[OTHER[direction]].acknowledge(heard):
                    self._packet(OTHER[direction], taken)
            if sent is not None:
                for taken in self._ways[direction].take(sent, packet):
                    self._packet(direction, taken)
            elif sets_up:
                self._ways = {way: Way(0) for way in OTHER}
                for way in OTHER:
                    self._break_off(way, None, "link set up")
        return self._told()

    def end(self) -> list[Message]:
        """Answers what is known at the end alone."""
        for direction, way in self._ways.items():
            for taken in way.end():
                self._packet(direction, taken)
        return self._told()

    def _told(self) -> list[Message]:
        completed, self._completed = self._completed, []
        return completed

    def _pass_gap(self) -> None:
        """Frames of either end weren't recorded."""
        self._ways = {way: Way() for way in OTHER}
        for way in OTHER:
            self._lose(way, "missing frames")
        self._complete("", None, f"# {LACKS}")

    def _lose(self, direction: str, why: str) -> None:
        """Breaks off what an end had begun, the rest of which may come."""
        self._break_off(direction, None, why)
        self._whole[direction] = set()

    def _packet(self, direction: str, packet: str | None) -> None:
        """Takes the packet of an I frame that was taken; None where it isn't known."""
        if packet is None:
            self._lose(direction, UNRECORDED)
            self._complete(direction, None, UNRECORDED)
            return
        head, _, rest = packet.partition(" data=")
        digits = "" if rest[:1] == "-" else rest.partition(" ")[0]
        if data := data_of(head):
            channel, goes_on, q = data
            if goes_on or (self._begun and (direction, channel) in self._begun):
                held = self._begun.setdefault((direction, channel), bytearray())
                held += digits.encode()
                if goes_on and len(held) < 2 * MOST_MESSAGE:
                    return
                digits = self._begun.pop((direction, channel)).decode()
            beginning = (
                "" if self._is_whole(direction, channel) else ", perhaps without its beginning"
            )
            self._complete(
                direction,
                channel,
                ("message that goes on" if goes_on else "message") + beginning,
                digits,
                q,
            )
        elif found := INTERRUPT.fullmatch(head):
            self._complete(direction, int(found[1]), "interrupt", digits)
        elif found := ENDED.match(head):
            ended = int(found[2]) if found[2] else None
            self._break_off(direction, ended, found[1])
            if ended is None:
                self._whole[direction] = None
            else:
                self._is_whole(direction, ended)

    def _is_whole(self, direction: str, channel: int) -> bool:
        """Whether what an end sent on a channel is there from its beginning; from here on it
        is."""
        whole = self._whole[direction]
        if whole is None or channel in whole:
            return True
        whole.add(channel)
        return False

    def _break_off(self, direction: str, channel: int | None, why: str) -> None:
        """Drops what an end had begun on a channel, or on all, and tells it."""
        for key in [
            key for key in self._begun if key[0] == direction and channel in (None, key[1])
        ]:
            self._complete(*key, f"message broken off by {why}", self._begun.pop(key).decode())

    def _complete(
        self, direction: str, channel: int | None, sort: str, digits: str = "", q: str = ""
    ) -> None:
        self._completed.append((self._time, direction, channel, sort, digits, q))
