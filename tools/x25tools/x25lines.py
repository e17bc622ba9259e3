"""Lines of a trace, as `x25 decode` reads them, and what the scripts of this folder share.

A line is `> HEX` (from the DTE to the DCE) or `< HEX` (from the DCE to the DTE), the octets of a
frame with its frame check sequence, perhaps with the time in seconds and a tab before that; or `>
..` or `< ..`, where frames of that end may be missing; or it is empty, or a comment, which begins
with `#`. It may end with a carriage return. docs/FORMATS.md describes all these.
"""

from __future__ import annotations

import argparse
import binascii
import contextlib
import functools
import gzip
import io
import os
import re
import sys
import zlib
from time import localtime, strftime
from typing import Any, Callable, Iterator, NamedTuple, NoReturn, Optional, Protocol

# Of a frame: 4,099 octets of information between address and control and the frame check sequence.
MOST_OCTETS = 4103
MOST_INFORMATION = MOST_OCTETS - 4
# The characters of a line of a trace without a time.
MOST_LINE = 2 + 2 * MOST_OCTETS
# A time, a tab, a direction, a blank and the digits; what is longer is no line of a trace or a
# run.
MOST_CHARACTERS = 131_264
NANOSECONDS = 10**9
# The latest time that a line can have, and the first one that is taken for a date: others count
# from some moment of their own.
MOST_TIME = 10**10 * NANOSECONDS - 1
FIRST_DATE = 10**8 * NANOSECONDS
# The characters of a date and the time of the day, in milliseconds.
MOMENT = len("2026-03-02 10:15:02.000")
GZIP = b"\x1f"
# What is read at once.
PIECE = 65_536

# The other direction of each.
OTHER = {">": "<", "<": ">"}
# The end that sends so.
ENDS = {">": "dte", "<": "dce"}
# What stands after the direction, in place of octets, where any number of that end's frames may be
# missing; and what that is in words.
GAP, LACKS = "..", "the capture lacks frames here"

# The mark of UTF-8, with which some editors begin a file.
MARK = b"\xef\xbb\xbf"

# The scripts by the names that they have where they are installed, and what names one in a text.
NAMES = {
    "bridge": "x25bridge",
    "chart": "x25chart",
    "pcap2x25": "pcap2x25",
    "x25dump": "x25dump",
    "x25pad": "x25pad",
    "x25pcap": "x25pcap",
    "x25report": "x25report",
    "x25tools": "x25tools",
}
SCRIPT = re.compile(rf"(?:(?:python3 )?tools/|\b)({'|'.join(NAMES)})\.py\b")

TIME = re.compile(r"([0-9]{1,10})(?:\.([0-9]{1,9}))?")
FRAME_LINE = re.compile(rb"(?:([0-9]{1,10}(?:\.[0-9]{1,9})?)\t)?([<>]) ([0-9a-fA-F]*)")

# The other lines of a run of `x25 sim`: an entry of an end, a refusal, a line that was no event.
ENTRY_LINE = re.compile(rb"(dte|dce) ([a-z][ -~]*)")
REFUSAL_LINE = re.compile(rb"! [0-9]+|\? 60")


class Readable(Protocol):
    """A file of octets: what is there of it is read at once."""

    def read1(self, size: int = ..., /) -> bytes: ...
    def peek(self, size: int = ..., /) -> bytes: ...
    def __enter__(self) -> Readable: ...
    def __exit__(self, *_: object) -> object: ...


class BadInput(Exception):
    """What was read isn't what the script reads; the text says where and why."""


# Each octet with its bits in the other order.
_REVERSED = bytes(int(f"{octet:08b}"[::-1], 2) for octet in range(256))


def fcs(octets: bytes) -> bytes:
    """The frame check sequence of some octets (X.25 section 2.2.7), two octets, the low one first.

    The division by x^16 + x^12 + x^5 + 1 is `crc_hqx`'s; that takes the high bit of an octet
    first, and a line the low one.
    """
    remainder = binascii.crc_hqx(octets.translate(_REVERSED), 0xFFFF) ^ 0xFFFF
    return remainder.to_bytes(2, "big").translate(_REVERSED)


def is_sealed(octets: bytes) -> bool:
    """True where there are four octets or more and the last two are the frame check sequence of
    the rest."""
    return len(octets) >= 4 and fcs(octets[:-2]) == octets[-2:]


class FrameLine(NamedTuple):
    """One frame of a trace: `>` or `<`, its octets with the frame check sequence, the time in
    nanoseconds if it was given."""

    direction: str
    octets: bytes
    time: Optional[int] = None

    def text(self, timed: bool = False) -> str:
        """The line, without its line feed; with the time before it where that is wanted."""
        line = f"{self.direction} {self.octets.hex()}"
        return f"{seconds(self.time or 0)}\t{line}" if timed else line


def seconds(nanoseconds: int | None) -> str:
    """A time as a decimal number of seconds with nine places; None is written as nothing."""
    if nanoseconds is None:
        return ""
    digits = str(nanoseconds) if nanoseconds >= NANOSECONDS else f"{nanoseconds:010}"
    return f"{digits[:-9]}.{digits[-9:]}"


@functools.lru_cache(maxsize=1)
def _second(seconds_of: int) -> str:
    """The date and the time of the day of a second, as the time zone of this machine has it."""
    return strftime("%Y-%m-%d %H:%M:%S", localtime(seconds_of))


def moment(nanoseconds: int | None) -> str:
    """A time as a date and the time of the day, in milliseconds; as seconds where it is no date;
    None is written as nothing."""
    if nanoseconds is None or nanoseconds < FIRST_DATE:
        return seconds(nanoseconds)
    whole, part = divmod(nanoseconds, NANOSECONDS)
    return f"{_second(whole)}.{part // 1_000_000:03}"


def is_gap(text: str) -> bool:
    """True for the line of a gap, and for the answer to it."""
    return text[2:] == GAP and text[:1] in OTHER


def is_passed_over(line: bytes) -> bool:
    """True for an empty line and for a comment."""
    return not line or line[:1] == b"#"


def nanoseconds(time: str) -> int | None:
    """The nanoseconds of a time, a decimal number of seconds; None where it is none."""
    found = TIME.fullmatch(time)
    return int(found[1]) * NANOSECONDS + int((found[2] or "").ljust(9, "0")) if found else None


def frame_line(line: bytes) -> FrameLine | None:
    """The frame of a line of a trace, given as octets without its line feed; None where it is
    none."""
    found = FRAME_LINE.fullmatch(line)
    if not found or len(found[3]) % 2 or len(found[3]) > 2 * MOST_OCTETS:
        return None
    time, direction, digits = found.groups()
    return FrameLine(
        direction.decode(),
        bytes.fromhex(digits.decode()),
        nanoseconds(time.decode()) if time else None,
    )


def pieces(file: Readable) -> Iterator[bytes]:
    """Yields the octets of a binary file piece by piece: what is there, and no more than a pipe
    holds. So a file comes in large pieces, and what comes live as it comes."""
    return iter(lambda: file.read1(PIECE), b"")


def bare(line: bytes) -> bytes:
    """A line without the carriage return at its end and the mark of UTF-8 at its front."""
    return line.removesuffix(b"\r").removeprefix(MARK)


def blocks_of_lines(file: Readable) -> Iterator[tuple[int, list[bytes]]]:
    """Yields the lines of a binary file, each its octets without the line feed, the carriage
    return before it and a mark of UTF-8, in blocks: the number of the first, and those that are
    there at once."""
    number, rest = 1, b""
    for octets in pieces(file):
        text = rest + octets
        *lines, rest = text.split(b"\n")
        # The others lie within the piece.
        if len(lines[0] if lines else rest) > MOST_CHARACTERS:
            raise BadInput(f"line {number} is longer than {MOST_CHARACTERS:,} characters")
        if lines:
            yield (
                number, [bare(line) for line in lines] if b"\r" in text or MARK in text else lines
            )
            number += len(lines)
    if rest:
        yield number, [bare(rest)]


def lines_of(file: Readable) -> Iterator[tuple[int, bytes]]:
    """Yields number and octets of each line of a binary file, without its line feed."""
    for number, lines in blocks_of_lines(file):
        yield from enumerate(lines, number)


def shown(line: bytes) -> str:
    """The beginning of a line, for a message: as UTF-8, or where it is none with what isn't ASCII
    as hexadecimal digits."""
    text: str | bytes = line
    with contextlib.suppress(UnicodeDecodeError):
        text = line.decode()
    return repr(text[:60]).removeprefix("b") + (".." if len(text) > 60 else "")


def opened(path: str) -> Readable:
    """Opens a file to read its octets, unpacked where gzip packed it; `-` is standard input."""
    if path == "-":
        file: Any = sys.stdin.buffer
    else:
        try:
            file = open(path, "rb")
        except OSError as error:
            raise BadInput(f"{path}: {error.strerror}") from error
    # No line and no capture begins with the first octet of a packed file.
    given: Readable = gzip.GzipFile(fileobj=file) if file.peek(1)[:1] == GZIP else file
    return given


def add_input(parser: argparse.ArgumentParser, what: str) -> None:
    """Adds the argument FILE, `-` for standard input, to a parser of words."""
    parser.add_argument(
        "file",
        nargs="?",
        default="-",
        metavar="FILE",
        help=f"{what}; standard input where it is missing or `-`",
    )


def named(text: str) -> str:
    """A text with the names of scripts that they have here: those of files, or where they are
    installed others."""
    name = os.path.basename(sys.argv[0].partition(" ")[0])
    return text if name.endswith(".py") else SCRIPT.sub(lambda found: NAMES[found[1]], text)


def parser(text: str | None, **more: Any) -> argparse.ArgumentParser:
    """A parser of words that has a script's text as its help."""
    form = argparse.RawDescriptionHelpFormatter
    return argparse.ArgumentParser(description=named(text or ""), formatter_class=form, **more)


def warn(text: object) -> None:
    """Says something on standard error, after the script's name, by one write: lines of two
    processes stay apart."""
    sys.stderr.write(f"{os.path.basename(sys.argv[0])}: {named(str(text))}\n")


def run(main: Callable[[], int]) -> NoReturn:
    """Runs a script's `main` and ends with the status that it answers; bad input is told in a line
    and ends with 2.

    Each line is written as soon as it is known, also on a pipe. A standard file that is closed is
    an empty one, so that no other file has its number.
    """
    for name, mode in ("stdin", "r"), ("stdout", "w"), ("stderr", "w"):
        if getattr(sys, name) is None:
            setattr(sys, name, open(os.devnull, mode))
    if isinstance(sys.stdout, io.TextIOWrapper):
        sys.stdout.reconfigure(line_buffering=True)
    try:
        status = main()
        sys.stdout.flush()
    except BadInput as error:
        sys.stdout.flush()
        warn(error)
        status = 2
    except (EOFError, zlib.error):
        sys.stdout.flush()
        warn("the file, packed by gzip, is cut off or damaged")
        status = 2
    except BrokenPipeError:
        # The reader of standard output has gone, as `head` does; nothing more can be written
        # there.
        os.dup2(os.open(os.devnull, os.O_WRONLY), sys.stdout.fileno())
        status = 1
    except KeyboardInterrupt:
        status = 130
    except OSError as error:
        warn(f"{error.filename}: {error.strerror}" if error.filename else error.strerror or error)
        status = 2
    sys.exit(status)
