"""Writes the lines of a trace as a capture (pcapng) that Wireshark and tshark open with their LAPB
dissector.

    x25pcap.py [FILE] > trace.pcapng
    x25 sim --tap < script | x25pcap.py -o run.pcapng

Reads `> HEX` and `< HEX` lines, with blanks between the octets too, and with a time before them:
in seconds, or that of the day, as 10:11:12.5. With --from a line without a direction is a frame of
that end. The other lines of a run of `x25 sim --tap` (entries, `! N`, `? 60`), empty lines and
comments are passed over. A line without a time gets its number as milliseconds, so that it is
found again.

The link type is SITA (196) and not LAPB_WITH_DIR (207), which Wireshark 4.0 doesn't open; the
direction stands in the flags of each packet, outbound being from the DTE to the DCE. The frame
check sequence is cut off, as the dissector expects. A line that is too short for one, or whose
check sequence is wrong, goes in whole, as no LAPB frame, with that error in the packet's flags.

Exit status: 0, or 2 for bad words or bad input.
"""

from __future__ import annotations

import sys
from typing import BinaryIO

from x25tools import captures, written, x25lines
from x25tools.x25lines import BadInput

SITA = 196
# Of the five octets that a SITA frame begins with: in the first whether it was received, in the
# last the protocol.
RECEIVED = 1
NO_PROTOCOL, LAPB = 0, 1

MILLISECOND = 10**6


def packet(frame: x25lines.FrameLine) -> tuple[bytes, int]:
    """The octets of a packet for a frame, and its flags."""
    flags = captures.OUTBOUND if frame.direction == ">" else captures.INBOUND
    first = 0 if frame.direction == ">" else RECEIVED
    if x25lines.is_sealed(frame.octets):
        return bytes([first, 0, 0, 0, LAPB]) + frame.octets[:-2], flags
    error = captures.TOO_SHORT if len(frame.octets) < 4 else captures.CRC_ERROR
    return bytes([first, 0, 0, 0, NO_PROTOCOL]) + frame.octets, flags | error


def convert(file: x25lines.Readable, out: BinaryIO, sent_by: str | None) -> int:
    """Writes a packet for each frame line of a file, those of a block of lines at once; answers
    the status."""
    writer, gaps = captures.Writer(out, SITA), 0
    for first, lines in x25lines.blocks_of_lines(file):
        for number, line in enumerate(lines, first):
            given = written.read(line, sent_by)
            frame, time = (
                x25lines.frame_line(given.rest),
                written.nanoseconds(given.time) if given.time else number * MILLISECOND,
            )
            if frame is not None and time is not None:
                octets, flags = packet(frame)
                writer.packet(octets, time, flags)
            elif x25lines.is_gap(given.rest.decode("latin-1")):
                gaps += 1
            elif not (
                x25lines.is_passed_over(line)
                or x25lines.ENTRY_LINE.fullmatch(line)
                or x25lines.REFUSAL_LINE.fullmatch(line)
            ):
                raise BadInput(
                    f"line {number} is no line of a trace or a run: {x25lines.shown(line)}"
                )
        out.flush()
    if gaps:
        x25lines.warn(f"left out: gap, which such a capture can't have ({gaps})")
    return 1 if gaps else 0


def main() -> int:
    parser = x25lines.parser(__doc__)
    x25lines.add_input(parser, "the trace")
    parser.add_argument(
        "-o", "--output", metavar="CAPTURE", help="the file to write; else standard output"
    )
    parser.add_argument(
        "--from",
        dest="sent_by",
        choices=["dte", "dce"],
        help="whose frames those without a direction are",
    )
    options = parser.parse_args()
    if options.output is None and sys.stdout.isatty():
        parser.error(
            "a capture isn't for a terminal: give -o CAPTURE, or send standard output to a file"
        )
    with x25lines.opened(options.file) as file:
        if captures.is_capture(file):
            raise BadInput("this is a capture already; pcap2x25.py makes lines of one")
        if options.output is None:
            return convert(file, sys.stdout.buffer, options.sent_by)
        with open(options.output, "wb") as out:
            return convert(file, out, options.sent_by)
