"""Shows a capture or a trace line by line, as it comes: time, direction, the text of `x25 decode
--wide`, and its numbers in words.

    x25dump.py FILE
    tcpdump -U -w - port 1998 | x25dump.py
    tail -f trace | x25dump.py --channel 1
    x25 sim --tap < script | x25dump.py --messages

Reads captures, as pcap2x25.py does (its --help has the link types and the words --swap to --dte),
the lines of a trace (--swap and --no-fcs are for these too, and --from for those without a
direction), the lines of `x25 decode`, those of `x25 sim --tap`, and what it writes itself but for
--messages and --stats; each also packed by gzip. A time may stand before a line, in seconds or
that of the day, as 10:11:12.5, and blanks between octets. Empty lines and comments, which begin
with `#`, are shown as they are; a line that is none of these is answered by `? 60`, as `decode`
does. Of a capture all connections are shown, each but the first with its number before the
direction, and named where it begins; --connection takes one of them. Frames that were made up
around packets aren't shown, their packets are.

  --messages  shows what the ends' users sent: data packets joined by M, and interrupts, as
              hexadecimal digits and text. Each comes once, though its frame be repeated; where
              frames are missing those that are begun are broken off
  --stats     writes at the end how many frames, packets and octets of data went each way, and how
              many I frames came out of order or again
  --judge     says after a frame which end broke which rule or which manners of the link or the
              packet layer with it, and what may be noted (`x25 judge`), of each connection by
              itself; --k is the window. Of packets without frames (XOT, LLC) the rules of the
              packet layer alone; not of lines of `x25 decode`. At the end, or at CTRL-C, it says
              how many frames and packets there were, and how many of them were judged
  --at        says where a capture was made: `dte` or `dce`, in front of that end, so that of the
              other one's frames those are missing that the line lost; or on the `line`, and it has
              all frames. At `either`, or where nothing is said, a capture may lack any frame. What
              such frames would explain stands after ` !? ` and ` ~? manners: `, and makes the
              status 1 with --strict alone; so does what --swap, --fcs or --no-fcs would explain.
              After frames that the capture says are missing, which `> ..` or `< ..` shows, both
              ends are judged anew; nothing is judged of a link modulo 128. Lines of a trace are
              all that was on the line, where nothing is said
  --strict, --manners
              make the status 1 too where a frame or a packet wasn't judged, or where manners were
              broken
  --told      judges too, and shows alone the frames of which a rule or manners are told, and how
  much was judged --json      writes each frame as an object of JSON in a line, with the fields of
  frame and packet and what is told; times in seconds --channel   shows the packets of a channel
  alone; 0 is that of RESTART. With --stats it counts them --epoch     shows times as they are in a
  capture, in seconds, and not as the time of the day, with the date where it changes --fold
  shows of data over 32 octets the first 24 and how many there are, as on a terminal; --whole shows
  all there too --no-wide   reads as `x25 decode` does, which has `fault` for packets in another
  form than a station writes

The program is the one that --x25 or the variable X25 names, or `x25` of the PATH, or else the one
that was built or installed with this script, or that of `make look`, which is unproved. Colours
are for a terminal alone, and not where the variable NO_COLOR is set.

Exit status: 0; 1 where a line was none, a rule was broken, nothing was found, something was left
out, or no frame reads so (--swap, --fcs, --no-fcs); 2 for bad words or bad input, after what
stands before it.
"""

from __future__ import annotations

import argparse
import functools
import itertools
import json
import operator
import os
import re
import sys
import zlib
from collections import Counter, defaultdict
from typing import Callable, Iterable, Iterator, TextIO, Union

from x25tools import (
    captures,
    decoding,
    fields,
    judging,
    pcap2x25,
    pvc,
    written,
    x25lines,
    x25names,
)
from x25tools.ahead import ahead
from x25tools.messages import KEPT, Message, Messages, all_dumped
from x25tools.pcap2x25 import Connection
from x25tools.places import within
from x25tools.x25lines import BadInput

RED, BLUE, GREEN, GREY, PLAIN = "\x1b[31m", "\x1b[34m", "\x1b[32m", "\x1b[90m", "\x1b[0m"
COLOURS = {">": BLUE, "<": GREEN}
CHANNEL = re.compile(r" ch=(\d+)")
OF_NO_CHANNEL = re.compile(r"\| (?:RESTART|DIAG|REG)|^(?:dte|dce) restart")
CONNECTION = operator.itemgetter(1)
# Data of more than 32 octets, and how many of its digits are shown where it is folded.
LONG_DATA, FOLDED = re.compile("(?<==)[0-9a-f]{66,}"), 48
# Where the packet begins in the text of a frame that was made up.
PACKET_AT = len("> I cmd P=0 S=0 R=0 | ")
# What stands before what is told of a frame, or noted.
RULES, NOTES = (
    (judging.RULE, judging.IN_DOUBT[judging.RULE]), (judging.IN_DOUBT[judging.MANNERS], " ~ ")
)
# Texts without any of these are shown as they are. Others may be refusals or gaps, or have rules,
# notes, or numbers that x25names has words for: `diag=`, `why=`, and `fac=`, which stands after
# `calling=` or in an ACCEPT; or name what sets up a permanent circuit.
SIGNS = *"!?~gyEV", x25lines.GAP
# What the program answers to a packet whose type it doesn't know.
UNIDENTIFIABLE = "| fault 22 "
# Lines that a judge is given.
DIGITS = written.FRAME, written.GAP
# Something to show: see `Reader`; and what puts a text into a colour.
Thing = tuple[str, Connection, str]
Paint = Callable[[str, str], str]


def channel_of(text: str) -> int | None:
    """The channel of a frame's packet, or of an entry; None where it has none."""
    found = CHANNEL.search(text)
    return int(found[1]) if found else 0 if OF_NO_CHANNEL.search(text) else None


class Reader:
    """Yields what there is to show of a capture or of lines, in blocks of what is there at once;
    `status` is 1 where something wasn't read.

    Each thing is its time as text, its connection, and its text: a frame's with its direction, an
    entry with its end, a refusal.
    """

    def __init__(
        self, decoder: decoding.Decoder | judging.Judge, options: argparse.Namespace
    ) -> None:
        self._decoder = decoder
        self._options = options
        self._time = x25lines.seconds if options.epoch else x25lines.moment
        self.status = 0
        # With --judge: the directions of the frames in digits that there were, and how many lines
        # of `x25 decode`.
        self._directions: set[str] = set()
        self._texts_seen = 0
        # Of lines: those without a direction, the last date, and the connections, by number and
        # whether they have packets alone, with their names.
        self._bare_seen, self._day, self._has_frames = 0, "", False
        self._connections: dict[tuple[int, bool], Connection] = {}
        self._names: dict[int, str] = {}

    def shown(self, file: x25lines.Readable) -> Iterator[list[Thing]]:
        """Whatever the file holds."""
        channel = self._options.channel
        is_there = channel is None
        for block in self._captured(file) if captures.is_capture(file) else self._lines(file):
            is_there = is_there or any(channel_of(text) == channel for _, _, text in block)
            if (
                self._options.judge
                and any(judging.is_faulty(text, self._options) for _, _, text in block)
            ):
                self.status = 1
            yield block
        if not is_there:
            self._say(f"nothing was found on channel {channel}")

    def _captured(self, file: x25lines.Readable) -> Iterator[list[Thing]]:
        for found in ahead(self._found(file)):
            if isinstance(found, int):
                self.status = max(self.status, found)
                continue
            connections, times, asked = found
            texts = self._decoder.texts(asked, connections)
            for place, text in enumerate(texts):
                if UNIDENTIFIABLE in text and connections[place].is_xot():
                    texts[place] = pvc.text(asked.splitlines()[place]) or text
            yield list(zip(map(self._time, times), connections, texts))

    def _found(
        self, file: x25lines.Readable
    ) -> Iterator[tuple[list[Connection], list[int], str] | int]:
        """Yields the connections, the times and the text of the lines of the frames of a capture,
        in blocks, and at the end the status."""
        converter = pcap2x25.Converter(self._options)
        wanted = self._options.connection
        for found in converter.blocks(captures.blocks(file, converter.notes)):
            if wanted is not None:
                are_wanted = [connection.number == wanted for connection in found[0]]
                found = pcap2x25.picked(found, are_wanted)
            connections, times, lines = found
            yield connections, times, "".join(lines)
        if 0 < len(converter.connections()) < (wanted or 1):
            raise BadInput(
                f"there is no connection {wanted}: the last is {len(converter.connections())}"
            )
        if (
            self._options.at not in (None, "either")
            and captures.DROPPED in converter.notes
            and not all(it.is_made_up for it in converter.connections())
        ):
            x25lines.warn("so --at doesn't hold: what was dropped may explain what is told")
        yield converter.tell()

    def _lines(self, file: x25lines.Readable) -> Iterator[list[Thing]]:
        doubts, is_empty, has_found = pcap2x25.Doubts(), not file.peek(1), False
        with decoding.Decoder(self._options.x25, reading(self._options)) as decoder:
            for _, lines in x25lines.blocks_of_lines(file):
                given = [written.read(line, self._options.sent_by) for line in lines]
                if self._options.swap or self._options.fcs is False:
                    given = [self._as_asked(line) for line in given]
                for line in itertools.takewhile(lambda _: not doubts.are_enough(), given):
                    if (frame := x25lines.frame_line(line.rest)) and frame.octets:
                        doubts.see(frame.direction == ">", frame.octets, True)
                answers = (
                    self._judged(given) if self._options.judge else written.answers(decoder, given)
                )
                things = [thing for pair in zip(given, answers) for thing in self._things(*pair)]
                has_found = has_found or any(text[:1] not in "?#" for _, _, text in things)
                yield things

        if self._bare_seen:
            remedy = "--from dte or --from dce says whose frames these are"
            self._say(f"no direction: {remedy} ({self._bare_seen})")
        if is_empty:
            self._say("nothing was found: the input is empty")
        elif not has_found:
            self._say(
                "nothing was found: the input is no capture, and none of its lines is of a trace, "
                "as `> 013febdf` is"
            )
        elif self._options.judge and not self._directions:
            self._say("nothing was judged: no line has a frame in hexadecimal digits")
        elif self.status and len(self._directions) == 1 and self._options.at in (None, "line"):
            self._say(
                f"no frame is of the {'DCE' if '>' in self._directions else 'DTE'}: if its frames "
                "are missing, --at either says so"
            )
        elif self._texts_seen:
            self._say(f"left out: line of `x25 decode`, which isn't judged ({self._texts_seen})")
        self.status = max(self.status, doubts.tell())

    def _say(self, text: str) -> None:
        """Says on standard error what isn't there, or wasn't read."""
        x25lines.warn(text)
        self.status = 1

    def _as_asked(self, line: written.Line) -> written.Line:
        """A line with its direction exchanged, or with a frame check sequence added, where it has
        a frame in digits."""
        frame = x25lines.frame_line(line.rest)
        if frame is None:
            return line
        direction = x25lines.OTHER[frame.direction] if self._options.swap else frame.direction
        octets = frame.octets + (x25lines.fcs(frame.octets) if self._options.fcs is False else b"")
        return line._replace(rest=f"{direction} {octets.hex()}".encode())

    def _judged(self, given: list[written.Line]) -> list[str]:
        """The answers to the frames among some lines, with what is told of each after it; to the
        others nothing."""
        frames = [line for line in given if line.kind in DIGITS]
        self._directions |= {line.rest[:1].decode() for line in frames}
        asked = "".join([line.rest.decode() + "\n" for line in frames])
        texts = iter(
            self._decoder.texts(asked, [self._connection(line.number, False) for line in frames])
        )
        return [next(texts) if line.kind in DIGITS else "" for line in given]

    def _connection(self, number: int, has_packets_alone: bool) -> Connection:
        """The connection of a line, which has a name where a line before it says so."""
        key = number, has_packets_alone
        if key not in self._connections:
            self._connections[key] = Connection(number, self._names.get(number), has_packets_alone)
        return self._connections[key]

    def _clock(self, time: str) -> str:
        """A time of a line as it is shown, with the date that stood before it."""
        return f"{self._day} {time}" if self._day and ":" in time[:3] else time

    def _things(self, line: written.Line, answer: str) -> Iterator[Thing]:
        """Yields what there is to show of a line, by its answer."""
        if written.DAY.fullmatch(line.rest):
            self._day = line.rest.decode()
            return
        if found_name := written.NAMED.fullmatch(line.rest):
            self._names[int(found_name[1])] = found_name[2].decode("utf-8", "replace")
            return
        is_of_packets = (
            line.kind == written.PACKET_TEXT
            or line.kind == written.GAP
            and (line.number, True) in self._connections
        )
        connection = self._connection(line.number, is_of_packets)
        if line.kind in DIGITS:
            # Of text times are shown as they stand there, and so are those of its gaps.
            self._has_frames = self._has_frames or line.kind == written.FRAME
            found = x25lines.nanoseconds(line.time) if self._has_frames else None
            yield self._clock(line.time) if found is None else self._time(
                found
            ), connection, answer
        elif line.kind != written.NONE:
            self._texts_seen += self._options.judge
            front = written.MADE_UP if line.kind == written.PACKET_TEXT else b""
            yield self._clock(line.time), connection, (
                line.rest[:2] + front + line.rest[2:]
            ).decode()
        elif x25lines.is_passed_over(line.rest):
            yield "", connection, line.rest.decode("utf-8", "replace")
        else:
            yield "", connection, self._other(line.rest)

    def _other(self, line: bytes) -> str:
        """What there is to show of a line that holds no frame."""
        if x25lines.ENTRY_LINE.fullmatch(line) or x25lines.REFUSAL_LINE.fullmatch(line):
            return line.decode()
        self._bare_seen += written.is_bare(line)
        self.status = 1
        return "? 60"


class Days:
    """Parts times into the date, which is shown in a line of its own where it changes, and the
    time of the day."""

    def __init__(self, paint: Paint) -> None:
        self._paint = paint
        self._day: str | None = None

    def part(self, time: str) -> tuple[list[str], str]:
        """The lines to show before a time, and what is left of it."""
        if len(time) != x25lines.MOMENT:
            return [], time
        day, _, clock = time.partition(" ")
        lines = [] if day == self._day else [self._paint(GREY, day)]
        self._day = day
        return lines, clock


class Lines:
    """Shows each frame and entry in a line; long data may be folded."""

    def __init__(self, paint: Paint, is_folded: bool) -> None:
        self._paint = paint
        self._is_folded = is_folded
        self._days = Days(paint)
        self._named: set[int] = set()

    def take(self, block: list[Thing]) -> list[str]:
        """Answers the lines of the things of a block."""
        texts = "".join([text for _, _, text in block])
        has_plain_texts = (
            self._paint is unpainted
            and not self._is_folded
            and not any(sign in texts for sign in SIGNS)
        )
        lines, last, front, is_made_up = [], None, "", False
        for time, connection, text in block:
            if connection is not last:
                last, is_made_up = connection, connection.is_made_up
                front = f" #{connection.number} " if connection.number > 1 else " "
                if connection.number not in self._named:
                    self._named.add(connection.number)
                    if connection.name is not None:
                        lines.append(
                            self._paint(GREY, f"connection {connection.number}: {connection.name}")
                        )
            if is_made_up and not x25lines.is_gap(text):
                text = text[:2] + text[PACKET_AT:]
            if not has_plain_texts:
                text = self._text(text)
            if not time:
                lines.append(f"{front[1:]}{text}")
                continue
            day, time = self._days.part(time)
            lines += day
            lines.append(f"{time}{front}{text}")
        return lines

    def _text(self, text: str) -> str:
        if text.startswith(("!", "?")):
            return self._paint(RED, f"{text} {x25names.refusal(text)}".rstrip())
        if x25lines.is_passed_over(text.encode()):
            return self._paint(GREY, text)
        mark = next((mark for mark in (*RULES, *NOTES) if mark in text), None)
        whole, _, remark = text.partition(mark) if mark else (text, "", "")
        said = x25names.words(whole)
        shown = self._paint(
            colour_of(whole), LONG_DATA.sub(folded, whole) if self._is_folded else whole
        )
        if said:
            shown += self._paint(GREY, f"  ({said})")
        return (
            shown + self._paint(RED if mark in RULES else GREY, mark + remark) if mark else shown
        )

    def end(self) -> list[str]:
        """Nothing is left at the end."""
        return []


def folded(found: re.Match[str]) -> str:
    """The beginning of some digits, and how many octets they are."""
    return f"{found[0][:FOLDED]}..({len(found[0]) // 2} octets)"


def colour_of(text: str) -> str:
    """The colour of a frame or an entry."""
    if text.startswith("FRMR", 2) or "fault" in text:
        return RED
    return COLOURS.get(text[0], PLAIN)


@functools.lru_cache(KEPT)
def heading(
    paint: Paint, direction: str, channel: int | None, sort: str, count: int, q: str
) -> str:
    """What stands above the rows of a message of so many octets."""
    if channel is None:
        return paint(RED, f"{direction} {sort}".lstrip())
    return paint(
        COLOURS[direction],
        f"{direction} ch={channel}{f' Q={q}' if q else ''} {sort}, {count:,} "
        f"octet{'s' if count != 1 else ''}",
    )


class Joined:
    """Shows messages."""

    def __init__(self, paint: Paint, channel: int | None) -> None:
        self._paint = paint
        self._channel = channel
        self._days = Days(paint)
        self._lines: dict[Connection, Messages] = {}

    def take(self, block: list[Thing]) -> list[str]:
        """Answers the lines of the messages that the frames of a block complete."""
        lines: list[str] = []
        for connection, things in itertools.groupby(block, key=CONNECTION):
            if connection not in self._lines:
                self._lines[connection] = Messages(is_made_up=connection.is_made_up)
            frames = [(time, text) for time, _, text in things if text[:1] in x25lines.OTHER]
            lines += self._rows(connection, self._lines[connection].take(frames))
        return lines

    def _rows(self, connection: Connection, messages: list[Message]) -> list[str]:
        """The lines of messages of a connection."""
        lines: list[str] = []
        number = f"#{connection.number} " if connection.number > 1 else ""
        if self._channel is not None:
            messages = [it for it in messages if it[2] in (None, self._channel)]
        for (time, direction, channel, sort, digits, q), rows in zip(
            messages, all_dumped([it[4] for it in messages])
        ):
            if time:
                day, time = self._days.part(time)
                lines += day
                time += " "
            lines.append(
                f"{time}{number}"
                f"{heading(self._paint, direction, channel, sort, len(digits) // 2, q)}{rows}"
            )
        return lines

    def end(self) -> Iterator[str]:
        """Yields the lines of what is known at the end alone; messages that are begun there aren't
        shown."""
        for connection, line in self._lines.items():
            yield from self._rows(connection, line.end())


class Objects:
    """Writes each thing as an object of JSON in a line, for programs such as jq."""

    def take(self, block: list[Thing]) -> list[str]:
        """Answers the lines of the things of a block."""
        return [self._line(*thing) for thing in block]

    def _line(self, time: str, connection: Connection, text: str) -> str:
        found: dict[str, object] = {"connection": connection.number, "name": connection.name}
        if x25lines.is_gap(text):
            found |= {"from": x25lines.ENDS[text[0]], "gap": True}
        elif text[:1] in x25lines.OTHER:
            frame = fields.read(text, connection.is_made_up)
            found |= {"from": x25lines.ENDS[text[0]], "frame": frame.frame}
            found |= {"packet": frame.packet, "text": frame.text, "words": frame.words or None}
            if frame.verdict:
                found["told"] = frame.verdict._asdict()
        elif entry := x25lines.ENTRY_LINE.fullmatch(text.encode()):
            found |= {"from": entry[1].decode(), "entry": entry[2].decode()}
        else:
            found["line"] = text
        # A number has all its places so, which a float of Python would lose.
        moment = time if x25lines.TIME.fullmatch(time) else json.dumps(time or None)
        return f'{{"time": {moment}, {json.dumps(found)[1:]}'

    def end(self) -> list[str]:
        """Nothing is left at the end."""
        return []


AGAIN, OCTETS = "I frames out of order, or again", "octets of data"
# The frames of a text, each in a line with a blank at its end: of an I frame N(S); the kind of the
# frame or, after a bar, of its packet; the data of DATA.
COUNTED = re.compile(
    r"^.(?: I cmd P=[01] S=([0-7]) R=[0-7])? (\| DATA(?= ch=\d+ S=[0-7] R=[0-7] M=[01] Q=[01](?: "
    r"D=1)? data=-?([^ ]*))|(?:\| )?[^ ]+).*$",
    re.MULTILINE
)
DATA = "| DATA"
SET_UPS, IN_ORDER = ("SABM ", "UA "), "01234567"


class Statistic:
    """Counts frames, packets and octets of data each way, by connection."""

    def __init__(self) -> None:
        self._counts: defaultdict[int, Counter[tuple[str, str]]] = defaultdict(Counter)
        self._names: dict[int, str | None] = {}
        self._due: dict[tuple[int, str], int] = {}
        self._times: list[str] = []

    def take(self, block: list[Thing]) -> list[str]:
        """Counts the frames of a block; shows nothing."""
        for connection, things in itertools.groupby(block, key=CONNECTION):
            frames = [
                it for it in things if it[2][:1] in x25lines.OTHER and not x25lines.is_gap(it[2])
            ]
            if not frames:
                continue
            self._names[connection.number] = connection.name
            self._times = [*(self._times[:1] or [frames[0][0]]), frames[-1][0]]
            begin = 0
            for end in [
                place
                for place, (_, _, text) in enumerate(frames)
                if text[2:3] != "I" and text.startswith(SET_UPS, 2)
            ]:
                self._count(connection, frames[begin:end])
                # A set-up begins the numbers anew.
                self._due = {
                    key: due for key, due in self._due.items() if key[0] != connection.number
                }
                begin = end
            self._count(connection, frames[begin:])
        return []

    def _count(self, connection: Connection, frames: list[Thing]) -> None:
        """Counts frames among which only the first may set the link up."""
        counts = self._counts[connection.number]
        for direction in x25lines.OTHER:
            texts = [text for _, _, text in frames if text[0] == direction]
            if not texts:
                continue
            found: list[tuple[str, str, str]] = COUNTED.findall(" \n".join([*texts, ""]))
            numbers, kinds, data = zip(*found)
            for kind, count in Counter(kinds).items():
                counts[kind, direction] += count
            if DATA in kinds:
                counts[OCTETS, direction] += sum(map(len, data)) // 2
            if (sent := "".join(numbers)) and not connection.is_made_up:
                counts["I", direction] += len(sent)
                if again := self._again((connection.number, direction), sent):
                    counts[AGAIN, direction] += again

    def _again(self, way: tuple[int, str], numbers: str) -> int:
        """How many of these numbers, each of one digit, aren't the one that is due."""
        due = self._due.get(way, int(numbers[0]))
        if (IN_ORDER * (len(numbers) // 8 + 2))[due : due + len(numbers)] == numbers:
            self._due[way] = (due + len(numbers)) % 8
            return 0
        again = 0
        for number in map(int, numbers):
            if number == due:
                due = (number + 1) % 8
            else:
                again += 1
        self._due[way] = due
        return again

    def end(self) -> Iterator[str]:
        """Yields the lines of the statistic."""
        for connection, name in self._names.items():
            yield (
                f"connection {connection}: {name}" if name else "the trace"
            ).ljust(34) + f"{'>':>10}{'<':>10}"
            counts = self._counts[connection]
            for kind in sorted({kind for kind, _ in counts}, key=_place):
                yield f"  {kind:32}{counts[kind, '>']:10}{counts[kind, '<']:10}"
        if self._times and self._times[0]:
            yield f"from {self._times[0]} to {self._times[-1]}"


def _place(kind: str) -> tuple[int, int, str]:
    """Frames come first, then packets, then what was counted of them."""
    return (
        (0, decoding.FRAMES.index(kind), "")
        if kind in decoding.FRAMES
        else (1 if kind[0] == "|" else 2, 0, kind)
    )


# What makes lines of things.
View = Union[Lines, Joined, Statistic, Objects]


def painted(colour: str, text: str) -> str:
    """A text in a colour."""
    return f"{colour}{text}{PLAIN}"


def unpainted(_: str, text: str) -> str:
    """A text as it is."""
    return text


def painter() -> Paint:
    """What puts a text into a colour: on a terminal alone."""
    return painted if sys.stdout.isatty() and not os.environ.get("NO_COLOR") else unpainted


def words() -> argparse.Namespace:
    """The words after the script's name."""
    parser = x25lines.parser(__doc__)
    x25lines.add_input(parser, "the capture or the trace")
    parser.add_argument(
        "--channel", type=within(int, 0, 4095), metavar="N", help="show this logical channel alone"
    )
    which = parser.add_mutually_exclusive_group()
    which.add_argument("--messages", action="store_true", help="show messages, not frames")
    which.add_argument("--stats", action="store_true", help="show numbers at the end, not frames")
    which.add_argument(
        "--judge",
        action="store_true",
        help="say which end broke which rule of the link or the packet layer",
    )
    which.add_argument(
        "--told", action="store_true", help="judge, and show alone what is told of: rules, manners"
    )
    parser.add_argument("--json", action="store_true", help="write objects of JSON, a line each")
    parser.add_argument(
        "--long",
        action="store_true",
        help="a CALL may have 128 octets of user data, as with `decode --long`",
    )
    parser.add_argument(
        "--wide",
        action=argparse.BooleanOptionalAction,
        default=True,
        help="read as `decode --wide` does, as without a word, or as `decode` does",
    )
    parser.add_argument(
        "--epoch", action="store_true", help="show times as seconds, not as the time of the day"
    )
    parser.add_argument(
        "--fold",
        action="store_true",
        default=sys.stdout.isatty(),
        help="show the beginning of long data and its length, as on a terminal",
    )
    parser.add_argument(
        "--whole",
        dest="fold",
        action="store_false",
        help="show all digits of long data, also on a terminal",
    )
    pcap2x25.add_capture_words(parser)
    judging.add_words(parser)
    decoding.add_program(parser)
    options = parser.parse_args()
    options.judge = options.judge or options.told
    if options.json and (options.messages or options.stats):
        parser.error("--json is for frames, and not for --messages or --stats")
    options.epoch = options.epoch or options.json
    if not options.judge and (options.at or options.manners or options.strict):
        parser.error("--at, --manners and --strict are for --judge")
    return options


def reading(options: argparse.Namespace) -> list[str]:
    """How octets are read, in words of the program."""
    return [*(["--long"] if options.long else []), *(["--wide"] if options.wide else [])]


def asked(
    options: argparse.Namespace, file: x25lines.Readable
) -> decoding.Decoder | judging.Judge:
    """What is asked for the text of a frame. Lines of a trace are all that was on the line, where
    nothing else is said."""
    if not options.judge:
        return decoding.Decoder(options.x25, reading(options))
    return judging.Judge(
        options.x25,
        judging.words_of(options),
        reading(options),
        options.at or ("either" if captures.is_capture(file) else "line"),
    )


def is_told(text: str) -> bool:
    """Whether a rule or manners are told of a frame, or a line was none."""
    return any(mark in text for mark in fields.TOLD) or text[:1] in "!?"


def show(view: View, blocks: Iterable[list[Thing]], out: TextIO) -> None:
    """Writes what a view makes of the things of each block; also what it has at the end, where the
    user ends it."""
    try:
        for block in blocks:
            out.write("\n".join([*view.take(block), ""]))
    finally:
        out.write("\n".join([*view.end(), ""]))


def main() -> int:
    options = words()
    paint = painter()
    with x25lines.opened(options.file) as file, asked(options, file) as decoder:
        reader = Reader(decoder, options)
        blocks = reader.shown(file)
        view: View
        if options.messages:
            view = Joined(paint, options.channel)
        elif options.stats:
            view = Statistic()
        else:
            view = Objects() if options.json else Lines(paint, options.fold)
        if options.told:
            blocks = ([it for it in block if is_told(it[2])] for block in blocks)
        if options.channel is not None and not options.messages:
            blocks = (
                [it for it in block if channel_of(it[2]) == options.channel] for block in blocks
            )
        bad: BaseException | None = None
        try:
            show(view, blocks, sys.stdout)
        except (BadInput, EOFError, zlib.error, KeyboardInterrupt) as error:
            bad = error
        counts = list(decoder.counts()) if isinstance(decoder, judging.Judge) else []
    for number, line in counts:
        if options.json:
            print(json.dumps({"connection": number, "count": line.removeprefix("# ")}))
        else:
            print(f"#{number} {line}" if number > 1 else line)
    if bad is not None:
        raise bad
    judged = [line for _, line in counts if " judged, " in line]
    if judged and all(" 0 judged, " in line for line in judged):
        if not reader.status:
            x25lines.warn("no frame and no packet was judged")
        return 1
    return (
        1
        if options.strict and any(not line.endswith(" 0 not judged") for line in judged)
        else reader.status
    )
