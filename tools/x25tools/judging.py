"""Has `x25 judge` judge the frames of each connection of a capture by themselves.

What is told of a frame that is read in another way than it was sent has the mark of what may be
missing.
"""

from __future__ import annotations

import argparse
import re
from collections import Counter
from typing import Iterator, Sequence

from x25tools import decoding, lan, pvc, x25lines
from x25tools.pcap2x25 import Connection
from x25tools.x25lines import OTHER, fcs, is_sealed

AT = ("line", "dte", "dce", "either")
ENDS = {"dte": ">", "dce": "<"}

# SABM of the DTE, and the UA of the DCE.
SET_UP = ["> 013febdf", "< 01738357"]
# RESTART of the DTE and its confirmation, each in an I frame.
RESTARTED = ["> 01001000fb00007702", "< 03201000ff05d7"]
SABM, SABME, UA, DISC, DM, FRMR, P_OR_F = 0x2F, 0x6F, 0x63, 0x43, 0x0F, 0x87, 0x10
# The octets of RR, RNR or REJ with their frame check sequence, by what numbers count by: modulo
# 128 they have a second octet of control.
OCTETS_OF_READY = {4: 8, 5: 128}

# Before the end and the rule that it breaks, and before the same of manners; where frames that the
# capture lacks would explain it, or words by which it is read; and what is said after that.
RULE, MANNERS = " ! ", " ~ manners: "
IN_DOUBT = {RULE: " !? ", MANNERS: " ~? manners: "}
IF_LACKING, IF_MISREAD = ", or the capture lacks frames", ", or the frame is misread"
# No frame that is missing explains this, but the words by which frames are read may.
CERTAIN = "no frame of LAPB"
UNJUDGED = " ~ note: not judged from here on: numbers are modulo 128"
# What is said of the link, where its frames are made up.
TAKEN_UP = (
    " ~ note: V(S) of both ends is known: N(S) and N(R) are judged from here on (2.4.5)"
)

# A line that waits for its answer; whether frames of both directions came up to it, one of them
# with the address of its sender, and whether numbers are known to be modulo 8.
Waiting = tuple[str, bool, bool]

COUNTS = re.compile(
    r"# (dte|dce)(?: channel (\d+))?: (\d+) (?:frames|packets), (\d+) judged, \d+ not judged"
)
TOLD = re.compile(
    r"# told: (\d+) rules, (\d+) manners(?:, (\d+) in doubt)?|# nothing was judged: .*"
)


def add_words(parser: argparse.ArgumentParser) -> None:
    """Adds the words that say what a judge goes by to a parser of words."""
    parser.add_argument(
        "--k", type=int, choices=range(1, 8), default=7, help="the window that --judge goes by (7)"
    )
    parser.add_argument(
        "--size",
        type=int,
        choices=[2**n for n in range(4, 13)],
        default=128,
        help="with --judge: the network's packet size where a call names none (128)",
    )
    parser.add_argument(
        "--window",
        type=int,
        choices=range(1, 8),
        default=2,
        help="with --judge: the network's window of a channel where a call names none (2)",
    )
    parser.add_argument(
        "--at",
        choices=AT,
        help="with --judge: the capture has all frames of the line, or all that this end sent and"
        " that came to it; or neither (either; of lines of a trace, line)",
    )
    parser.add_argument(
        "--manners",
        action="store_true",
        help="with --judge: status 1 too where manners were broken",
    )
    parser.add_argument(
        "--strict",
        action="store_true",
        help=(
            "with --judge: status 1 too where a frame wasn't judged, or the capture may explain "
            "what is told"
        ),
    )


def words_of(options: argparse.Namespace) -> list[str]:
    """What a judge goes by, in words of the program."""
    numbers = {"--k": options.k, "--size": options.size, "--window": options.window}
    return [word for option, number in numbers.items() for word in (option, str(number))]


def is_faulty(text: str, options: argparse.Namespace) -> bool:
    """Whether what is told of a frame makes the status 1."""
    marks = [RULE, MANNERS] if options.manners else [RULE]
    return any(mark in text or (options.strict and IN_DOUBT[mark] in text) for mark in marks)


def _octets(line: str) -> bytes:
    """The octets of the frame of a line."""
    return bytes.fromhex(line[2:])


def _control(line: str) -> int | None:
    """The control field of the frame of a line, without P or F; None where it has none."""
    return int(line[4:6], 16) & ~P_OR_F if len(line) >= 6 else None


def _sealed(direction: str, octets: bytes) -> str:
    """The line of some octets, with their frame check sequence after them."""
    return f"{direction} {(octets + fcs(octets)).hex()}"


def _ready(direction: str, number: int) -> str:
    """The line of an RR of this direction with this N(R)."""
    return _sealed(direction, bytes([3 if direction == ">" else 1, number << 5 | 1]))


class Judge:
    """Judges each connection by itself.

    Around packets that came without frames it hears a link that is set up and takes each of them
    at once, so that only they are judged. `at` is the place of the capture.
    """

    def __init__(self, program: str | None, words: list[str], reading: list[str], at: str) -> None:
        self._asked = program, words, reading, at
        self._lines: dict[Connection, Frames] = {}

    def __enter__(self) -> Judge:
        return self

    def __exit__(self, *_: object) -> None:
        for line in self._lines.values():
            line.close()

    def texts(self, asked: str, connections: Sequence[Connection]) -> list[str]:
        """The answers to the lines of a trace in a text, each of a connection, with what is told
        of each after it, and what is shown of a gap."""
        lines = asked.splitlines()
        places_of: dict[Connection, list[int]] = {}
        for place, connection in enumerate(connections):
            places_of.setdefault(connection, []).append(place)
        texts = [""] * len(lines)
        for connection, places in places_of.items():
            if connection not in self._lines:
                self._lines[connection] = self._begun(connection)
            for place, text in zip(
                places, self._lines[connection].texts([lines[place] for place in places])
            ):
                texts[place] = text
        return texts

    def _begun(self, connection: Connection) -> Frames:
        """What judges a connection."""
        if not connection.is_made_up:
            return Frames(*self._asked)
        kind = Circuit if connection.is_xot() else Packets
        return kind(*self._asked, connection.is_opened)

    def counts(self) -> Iterator[tuple[int, str]]:
        """Yields the number of each connection, and a line of how much was judged, of its frames
        and of the packets of each channel, or of what was told."""
        for connection, line in self._lines.items():
            yield from ((connection.number, text) for text in line.counts())


class Frames:
    """The frames of one connection."""

    def __init__(self, program: str | None, words: list[str], reading: list[str], at: str) -> None:
        self._program, self._reading, self._at = program, reading, at
        self._judge = decoding.Decoder(program, ["--at", self._place(), *words, *reading], "judge")
        self._decoder = decoding.Decoder(program, reading)
        # How many frames of each direction the judge wasn't given, and of how much that it told
        # the way of reading may be the cause.
        self._unjudged = dict.fromkeys(OTHER, 0)
        self._doubts: Counter[str] = Counter()
        # What numbers count by, 0 where it isn't known; and the direction of a SABME that waits
        # for its answer.
        self._modulus, self._asks_128 = 0, ""
        # Whether a frame had the address of its sender, and the directions of frames.
        self._has_own = False
        self._directions: set[str] = set()

    def _place(self) -> str:
        """Where the capture was made, as the judge is told."""
        return self._at

    def close(self) -> None:
        """Ends the programs."""
        for program in self._judge, self._decoder:
            program.__exit__()

    def texts(self, lines: list[str]) -> list[str]:
        """The answers to some lines."""
        texts: list[str] = []
        waiting: list[Waiting] = []
        for line in lines:
            was_128 = self._modulus == 128
            if x25lines.is_gap(line):
                self._modulus = 128 if was_128 else 0
            else:
                self._see(line)
                if self._modulus == 128 or _control(line) == SABME:
                    texts += [
                        *self._answers(waiting),
                        self._read(line) + ("" if was_128 or self._modulus != 128 else UNJUDGED),
                    ]
                    continue
            is_read_right = self._has_own and len(self._directions) == 2
            waiting.append((line, is_read_right, self._modulus == 8 and not self._asks_128))
        return [*texts, *self._answers(waiting)]

    def _see(self, line: str) -> None:
        """Sees of a frame what numbers count by: by a set-up or, where one may not be there, by
        RR, RNR or REJ; and whether it has its sender's address."""
        control, direction = _control(line), line[0]
        self._directions.add(direction)
        if not self._has_own:
            self._has_own = lan.is_of_dte(_octets(line)) == (direction == ">")
        if (
            control is None
            or not control & 1
            or (control & 3 == 1 and self._modulus and not self._asks_128)
            or not is_sealed(_octets(line))
        ):
            return
        if control & 3 == 1:
            if self._modulus != 128:
                self._modulus = OCTETS_OF_READY.get(len(_octets(line)), self._modulus)
        elif control == SABM:
            if self._modulus == 128:
                self._judge.texts(f"{direction} {x25lines.GAP}\n")
            self._modulus, self._asks_128 = 8, ""
        elif control == SABME:
            self._asks_128 = direction
        elif control == UA and self._asks_128 == OTHER[direction]:
            self._modulus, self._asks_128 = 128, ""
        elif control in (DISC, DM, FRMR):
            self._asks_128 = ""

    def _read(self, line: str) -> str:
        """The answer to a line that isn't judged: one of a link modulo 128, or SABME, which the
        judge hears as a frame of which nothing is known."""
        text, = self._decoder.texts(f"{line}\n")
        if self._modulus == 128:
            self._unjudged[line[0]] += 1
        else:
            self._judge.texts(f"{line[0]} \n")
        return text

    def _answers(self, waiting: list[Waiting]) -> list[str]:
        """The answers to the lines that wait, each with what is told of it."""
        asked: list[str] = []
        places: list[int] = []
        for line, _, _ in waiting:
            places.append(len(asked))
            asked += self._heard(line)
        answers = self._judge.texts("".join([f"{line}\n" for line in asked]))
        texts = [self._said(of, answers[place]) for of, place in zip(waiting, places)]
        waiting.clear()
        return texts

    def _heard(self, line: str) -> list[str]:
        """The line as it is judged, and what is judged after it."""
        return [line]

    def _said(self, of: Waiting, text: str) -> str:
        """An answer, with the mark of what the way in which the capture is read may explain."""
        mark = next((mark for mark in IN_DOUBT if mark in text), None)
        doubt = self._doubt(of, text) if mark else ""
        if mark is None or not doubt:
            return text
        self._doubts[mark] += 1
        return text.replace(mark, IN_DOUBT[mark], 1) + doubt

    def _doubt(self, of: Waiting, text: str) -> str:
        """What else may explain what is told, empty where nothing does."""
        line, is_read_right, is_8 = of
        octets = _octets(line)
        if CERTAIN not in text:
            return "" if is_8 else IF_LACKING
        if is_sealed(octets[:-2]) or not is_read_right and lan.is_of_dte(octets) is not None:
            return IF_MISREAD
        has_more_control = octets[1] & 3 == 1 and OCTETS_OF_READY.get(len(octets)) == 128
        return IF_LACKING if has_more_control and self._at == "either" else ""

    def counts(self) -> Iterator[str]:
        """Yields the lines of how much was judged and of what was told."""
        for line in self._judge.last_lines():
            if found := COUNTS.fullmatch(line):
                yield from self._counted(found[1], found[2], *map(int, found.group(3, 4)))
            elif found := TOLD.fullmatch(line):
                rules, manners, in_doubt = (int(it or 0) for it in found.groups())
                in_doubt += sum(self._doubts.values())
                more = f", {in_doubt} in doubt" if in_doubt else ""
                yield (
                    f"# told: {rules - self._doubts[RULE]} rules, "
                    f"{manners - self._doubts[MANNERS]} manners{more}"
                )

    def _counted(self, end: str, channel: str | None, seen: int, judged: int) -> Iterator[str]:
        """Yields the line of an end, or of a channel of it."""
        if channel is not None:
            yield (
                f"# {end} channel {self._shown(end, int(channel))}: {seen} packets, {judged} "
                f"judged, {seen - judged} not judged"
            )
        else:
            seen += self._unjudged[ENDS[end]]
            yield f"# {end}: {seen} frames, {judged} judged, {seen - judged} not judged"

    def _shown(self, _: str, channel: int) -> int:
        """The number of a channel as an end has it."""
        return channel


class Packets(Frames):
    """The packets of a connection without frames, each in an I frame that was made up. TCP and LLC
    show where one is missing. One that was captured from its beginning on begins without a
    call."""

    def __init__(
        self, program: str | None, words: list[str], reading: list[str], at: str, is_opened: bool
    ) -> None:
        super().__init__(program, words, reading, at)
        self._next, self._heard_before = dict.fromkeys(OTHER, 0), 0
        before = (
            SET_UP + [heard for line in RESTARTED[: 2 * is_opened] for heard in self._heard(line)]
        )
        self._judge.texts("".join([f"{line}\n" for line in before]))
        self._heard_before = int(is_opened)

    def _place(self) -> str:
        return "line"

    def _heard(self, line: str) -> list[str]:
        """The line, and the RR by which the other end says that it took it; after a gap the RR of
        both, which say from where on they go."""
        direction = line[0]
        if x25lines.is_gap(line):
            return [line, *(_ready(it, self._next[OTHER[it]]) for it in OTHER)]
        self._next[direction] = (self._next[direction] + 1) % 8
        control, before = int(line[4:6], 16), self._heard_before
        numbers = (((control >> 5) + before) << 5 | ((control >> 1) + before) % 8 << 1) & 0xFF
        heard = _sealed(
            direction,
            bytes((int(line[2:4], 16), numbers))
            + self._packet(direction, bytes.fromhex(line[6:-4])),
        )
        return [heard, _ready(OTHER[direction], self._next[direction])]

    def _packet(self, _: str, packet: bytes) -> bytes:
        """The packet as it is judged."""
        return packet

    def _said(self, of: Waiting, text: str) -> str:
        return super()._said(of, text).removesuffix(TAKEN_UP)

    def _see(self, _: str) -> None:
        self._modulus, self._has_own, self._directions = 8, True, set(OTHER)

    def _counted(self, end: str, channel: str | None, seen: int, judged: int) -> Iterator[str]:
        before = self._heard_before if channel == "0" else 0
        return (
            super()._counted(end, channel, seen - before, judged - before)
            if channel is not None and seen > before
            else iter(())
        )


class Circuit(Packets):
    """The packets of a connection of XOT, which is one circuit, whatever number each end has for
    it: where the numbers differ, both are judged by that of the end whose packet came first."""

    def __init__(
        self, program: str | None, words: list[str], reading: list[str], at: str, is_opened: bool
    ) -> None:
        # Of each direction the numbers that were used; and where one is judged by another, both.
        self._used: dict[str, set[int]] = {direction: set() for direction in OTHER}
        self._renamed: dict[str, tuple[int, int]] = {}
        super().__init__(program, words, reading, at, is_opened)

    def _heard(self, line: str) -> list[str]:
        """Of what sets up a permanent circuit a gap: nothing is known of its channel after it."""
        if not pvc.sets_up(line):
            return super()._heard(line)
        self._next[line[0]] = (self._next[line[0]] + 1) % 8
        return super()._heard(f"{line[0]} {x25lines.GAP}")

    def _packet(self, direction: str, packet: bytes) -> bytes:
        if len(packet) < 2:
            return packet
        channel, used, others = (
            (packet[0] & 0x0F) << 8 | packet[1],
            self._used[direction],
            self._used[OTHER[direction]],
        )
        if channel and not used and len(others) == 1 and channel not in others:
            self._renamed[direction] = channel, next(iter(others))
        used |= {channel} - {0}
        own, judged_by = self._renamed.get(direction, (-1, -1))
        return (
            packet
            if channel != own
            else bytes([packet[0] & 0xF0 | judged_by >> 8, judged_by & 0xFF]) + packet[2:]
        )

    def _said(self, of: Waiting, text: str) -> str:
        text = pvc.text(of[0]) or super()._said(of, text)
        if of[0][0] not in self._renamed:
            return text
        own, judged_by = self._renamed[of[0][0]]
        return re.sub(rf"(?<= ch=){judged_by}\b|(?<=: channel ){judged_by}$", str(own), text)

    def _shown(self, end: str, channel: int) -> int:
        own, judged_by = self._renamed.get(ENDS[end], (-1, -1))
        return own if channel == judged_by else channel
