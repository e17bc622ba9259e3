"""Lines as people have them: what may stand before a frame, blanks among its digits, and what
x25dump.py writes.

Before a direction may stand a time and a tab or blanks, and the number of a connection after `#`.
A time is seconds, or that of the day, as 10:11:12.5, perhaps with the date before it. A line
without a direction is a frame's where it is said whose frames those are.
"""

from __future__ import annotations

import re
import time
from typing import NamedTuple

from x25tools import decoding, x25lines

CLOCK = rb"(?:[0-9]{4}-[0-9]{2}-[0-9]{2}[ T])?[0-9]{1,2}:[0-9]{2}:[0-9]{2}(?:[.,][0-9]{1,9})?"
# A time, the number of a connection, and what comes after both.
FRONT = re.compile(rb"(?:([0-9.]{1,30}|%b)[\t ]+)?(?:#([1-9][0-9]{0,4}) )?([<>] ?.*)" % CLOCK)
# The same of a line without a direction: a number is a time where it has a point or a tab after
# it.
BARE = re.compile(
    rb"([0-9]{1,10}(?:\t+|\.[0-9]{1,9}[\t ]+)|%b[\t ]+)?()((?:[0-9a-fA-F]{2} *)+)" % CLOCK
)
SPACED = re.compile(rb"([<>]) ([0-9a-fA-F ]*)")
HEX = re.compile(rb"[0-9a-fA-F]*")
# What x25dump.py writes after a frame: words, and then what is told of it.
WORDS = re.compile(rb"  \(.*\)(?=$| [!~]\??[ a-z])")
# A packet that x25dump.py shows without its frame, which was made up; and what stands before the
# others then.
PACKET = re.compile(
    rb"[<>] (?:(?:CALL|ACCEPT|CLEAR|CLEARCONF|DATA|RR|RNR|REJ|INT|INTCONF|RESET|RESETCONF) ch="
    rb"|RESTART cause=|RESTARTCONF\b|DIAG diag=|REG(?:CONF)? data=|PVC |fault [0-9]+ diag=)"
)
MADE_UP = b"I cmd P=0 S=0 R=0 | "
# Lines of x25dump.py that hold no frame: the date, and the name of a connection.
DAY = re.compile(rb"[0-9]{4}-[0-9]{2}-[0-9]{2}")
NAMED = re.compile(rb"connection ([1-9][0-9]{0,4}): (.*)")
MOMENT = re.compile(
    r"(?:([0-9]{4})-([0-9]{2})-([0-9]{2})[ T])?"
    r"([0-9]{1,2}):([0-9]{2}):([0-9]{2})(?:[.,]([0-9]{1,9}))?"
)


# What a line holds: a frame in digits, a gap, the text of a frame, that of a packet alone,
# something else.
FRAME, GAP, TEXT, PACKET_TEXT, NONE = range(5)


class Line(NamedTuple):
    """A line: the time as it is given, or nothing; the number of its connection; what it holds;
    direction and digits or text, or where it is no line of a frame all of it."""

    time: str
    number: int
    kind: int
    rest: bytes


def read(line: bytes, sent_by: str | None = None) -> Line:
    """A line in its parts; `sent_by` is `dte` or `dce` where a line without a direction is a frame
    of that end."""
    if line[:2] in (b"> ", b"< ") and _is_frame(line):
        return Line("", 1, FRAME, line)
    found = FRONT.fullmatch(line)
    if found is None and sent_by is not None and (found := BARE.fullmatch(line)):
        rest = (b"> " if sent_by == "dte" else b"< ") + found[3]
    elif found is None:
        return Line("", 1, NONE, line)
    else:
        rest = found[3]
    kind, rest = _kind(rest)
    time = (found[1] or b"").strip().replace(b"T", b" ").decode()
    return Line(time, int(found[2] or 1), kind, rest) if kind != NONE else Line("", 1, NONE, line)


def answers(decoder: decoding.Asked, given: list[Line]) -> list[str]:
    """What the program answers to the frames among some lines; a gap is its own answer, to the
    others it is nothing."""
    asked = b"".join([line.rest + b"\n" for line in given if line.kind == FRAME])
    texts = iter(decoder.texts(asked.decode("latin-1")))
    return [
        next(texts) if line.kind == FRAME else line.rest.decode() if line.kind == GAP else ""
        for line in given
    ]


def is_bare(line: bytes) -> bool:
    """Whether a line may be a frame without its direction."""
    return BARE.fullmatch(line) is not None


def _is_frame(rest: bytes) -> bool:
    """Whether direction and digits are those of a frame."""
    return (
        len(rest) % 2 == 0
        and len(rest) <= x25lines.MOST_LINE
        and HEX.fullmatch(rest, 2) is not None
    )


def _kind(rest: bytes) -> tuple[int, bytes]:
    """What a direction and what comes after it hold, and these without blanks among digits and
    without words."""
    if SPACED.fullmatch(rest):
        rest = rest[:2] + rest[2:].replace(b" ", b"")
    if b"  (" in rest:
        rest = WORDS.sub(b"", rest, 1)
    if _is_frame(rest):
        return FRAME, rest
    if x25lines.is_gap(rest.decode("latin-1")):
        return GAP, rest
    is_of_digits = not decoding.NO_DIGITS.search(rest)
    return (
        PACKET_TEXT
        if is_of_digits and PACKET.match(rest)
        else TEXT
        if is_of_digits and decoding.TEXT_LINE.fullmatch(rest)
        else NONE,
        rest,
    )


def nanoseconds(text: str) -> int | None:
    """The nanoseconds of a time that is given: since midnight, where it is that of the day alone,
    or else as this machine's time zone has the date; None where it is none."""
    found = MOMENT.fullmatch(text)
    if not found:
        return x25lines.nanoseconds(text)
    hours, minutes, seconds = (int(it) for it in found.groups()[3:6])
    whole = 3600 * hours + 60 * minutes + seconds
    if found[1]:
        year, month, day = (int(it) for it in found.groups()[:3])
        whole = int(time.mktime((year, month, day, hours, minutes, seconds, 0, 0, -1)))
    return whole * x25lines.NANOSECONDS + int((found[7] or "").ljust(9, "0"))
