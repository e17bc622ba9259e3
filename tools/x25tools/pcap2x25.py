"""Turns a capture (pcap or pcapng, also packed by gzip) into the lines that `x25 decode` reads.

    pcap2x25.py FILE | x25 decode
    pcap2x25.py --time FILE > timed; cut -f2 timed | x25 decode | paste <(cut -f1 timed) -
    pcap2x25.py --list FILE

Link types that are read:

  207        LAPB_WITH_DIR, a direction and a frame of LAPB
  196        SITA, where it holds LAPB; so what x25pcap.py writes, too
  1, 113, 276
             Ethernet and Linux's cooked captures: LAPB over Ethernet as Linux speaks it
             (lapbether, type 6000), packets of X.25 over LLC (access point 7e), and X.25 over TCP
             as routers speak it (XOT, RFC 1613, port 1998), in fragments of IP, too
  0, 108, 101, 12, 14, 228, 229
             loopback and IP itself: XOT
  --lapb N   any other that holds frames of LAPB and nothing else (147 is the first of those for
             private use)

What was sent by the host that captured is taken as the DTE's (`>`); --swap says that this host is
the DCE. Of lapbether the first frame whose own address tells (all but RR, RNR and REJ) says which
station is the DTE. A frame without its frame check sequence, as captures hold them, gets one. XOT
and LLC carry packets without frames: each is put into an I frame that is made up, whose N(S) and
N(R) count the packets of its connection both ways. `x25 judge` sees no set-up of a link then, and
judges few of these packets: x25dump.py --judge has them judged. The end that opened a connection
to the port of XOT is the DTE; of LLC the one that is seen first, and of XOT where both ends have
that port. --dte names the DTE of lapbether and LLC by its address.

One connection is written: the first, or the one that --connection names by its number in --list.
All frames of LAPB are one connection, those of lapbether another; each two ends (addresses and
ports) of XOT are one, each two stations of LLC.

Of a frame of LAPB that was captured in part nothing is known: its line has no octets. Where frames
of an end aren't there, as TCP or the capture says, a line `> ..` or `< ..` stands for them.

Exit status: 0; 1 where nothing was found, something was left out, or no frame reads so (--swap,
--fcs, --no-fcs), which standard error names; 2 for bad words or bad input. Traffic that is no X.25
is passed over, and told where nothing was found. Before bad input is told, the lines of all
records before it are written.
"""

from __future__ import annotations

import argparse
import itertools
import re
import sys
from collections import Counter
from typing import Callable, Iterable, Iterator

from x25tools import captures, ip, lan, places, x25lines, xot
from x25tools.x25lines import OTHER, BadInput

LAPB_WITH_DIRECTION, SITA = 207, 196
SITA_HEADER, SITA_RECEIVED, SITA_NO_PROTOCOL, SITA_LAPB = 5, 1, 0, 1
# Commands of the DTE and responses of the DCE have the address B.
ADDRESS = {">": 0x01, "<": 0x03}
# What lies between frames on a line; and the address of a frame whose bits stand in the other
# order.
FLAG, REVERSED = b"\x7e", (b"\x80", b"\xc0")
# These are the octets of a frame of which nothing is known.
UNREAD = b""
SHORT = "record that is shorter than its header"
# The connections, the times and the lines of some frames.
Found = tuple[list["Connection"], list[int], list[str]]
# A list of connections isn't kept without bound.
MOST_CONNECTIONS = 65_536


class Connection:
    """What two ends sent each other: its number from 1, its name, how many frames there were each
    way, whether they are made up, and whether it was captured from its beginning on."""

    def __init__(
        self, number: int, name: str | None, is_made_up: bool, is_opened: bool = False
    ) -> None:
        self.number = number
        self.name = name
        self.is_made_up = is_made_up
        self.is_opened = is_opened
        self.sent = dict.fromkeys(OTHER, 0)

    def __eq__(self, other: object) -> bool:
        return isinstance(other, Connection) and self.number == other.number

    def __hash__(self) -> int:
        return self.number

    def is_xot(self) -> bool:
        """Whether it is one of XOT."""
        return self.is_made_up and (self.name or "").startswith("XOT ")

    def row(self) -> str:
        """The line of a list of connections."""
        return f"{self.number}\t{self.name}\t> {self.sent['>']}\t< {self.sent['<']}"


class Doubts:
    """Whether the frames of a capture are what its reader takes them for: by which end sent each,
    and by its frame check sequence.

    What the first frames show is enough.
    """

    MOST = 1_000

    def __init__(self) -> None:
        self._frames: Counter[object] = Counter()
        self._seen = 0
        # Whether frames are of the DTE, as they are read.
        self._directions: set[bool] = set()

    def see(self, is_of_dte: bool, octets: bytes, has_fcs: bool) -> None:
        """Takes a frame that is read as the DTE's or not, with or without its frame check
        sequence."""
        if self.are_enough():
            return
        self._seen += 1
        self._directions.add(is_of_dte)
        self._frames["flagged" if octets[:1] == octets[-1:] == FLAG else "without flags"] += 1
        self._frames["reversed" if octets[:1] in REVERSED else "straight"] += 1
        is_sealed = x25lines.is_sealed(octets)
        self._frames["sealed" if is_sealed else "unsealed", has_fcs] += 1
        by_address = lan.is_of_dte(octets) if is_sealed or not has_fcs else None
        self._frames[
            "silent" if by_address is None else "own" if by_address == is_of_dte else "other"
        ] += 1

    def are_enough(self) -> bool:
        """Whether no more frames need be seen."""
        return self._seen >= self.MOST

    def said(self) -> Iterator[str]:
        """Yields what is said of them at the end."""
        if self._frames["flagged"] and not self._frames["without flags"]:
            yield "each frame stands between flags (7e), which aren't part of it: leave them out"
            return
        if self._frames["reversed"] and not self._frames["straight"]:
            yield "each frame begins with 80 or c0: bits of octets stand in the other order"
            return
        if len(self._directions) == 1 and 0 < self._frames["own"] <= 4 * self._frames["other"]:
            end = "DTE" if True in self._directions else "DCE"
            yield f"all frames are marked as the {end}'s, and their addresses are of both ends"
        if self._frames["other"] and not self._frames["own"]:
            yield "no frame has its sender's address: --swap exchanges the directions"
        if self._frames["sealed", False] and not self._frames["unsealed", False]:
            yield "each frame ends in its frame check sequence already: --fcs adds none"
        if self._frames["unsealed", True] and not self._frames["sealed", True]:
            yield "no frame ends in its frame check sequence: with --no-fcs each gets one"

    def tell(self) -> int:
        """Says it on standard error; answers the status."""
        said = list(self.said())
        for doubt in said:
            x25lines.warn(doubt)
        return 1 if said else 0


class Converter:
    """Turns records into frames. `notes` counts what was left out, by why, and `passed` what was
    no X.25.

    What reads a kind of record adds each frame that it finds in it, by `_add`.
    """

    def __init__(self, options: argparse.Namespace) -> None:
        self._options = options
        self._found: Found = [], [], []
        self._number = self._now = 0
        self._readers: dict[int, Callable[..., None]] = {kind: self._lan for kind in lan.HEADERS}
        self._readers |= {kind: self._ip for kind in ip.AT}
        self._readers |= {LAPB_WITH_DIRECTION: self._with_direction, SITA: self._sita}
        if options.lapb is not None:
            self._readers[options.lapb] = self._bare
        self._connections: dict[str, Connection] = {}
        # Of those of which something wasn't captured before the first packet: whether that was the
        # DTE's.
        self._late: dict[str, set[bool]] = {}
        self.notes: Counter[str] = Counter()
        self.passed: Counter[str] = Counter()
        self._doubts = Doubts()
        self._xot = xot.Xot(options.port, self.notes, self.passed)
        self._lapbether = lan.Lapbether(options.dte, self.notes)
        self._llc = lan.Llc(options.dte, self.notes)

    def connections(self) -> list[Connection]:
        """The connections up to here, in the order of their numbers."""
        return list(self._connections.values())

    def blocks(self, blocks: Iterable[list[captures.Record]]) -> Iterator[Found]:
        """Yields, for each block of records, the connections, the times and the lines of its
        frames; a record without a time stands at 0. Bad input is told after the frames before
        it."""
        for records in blocks:
            self._found = [], [], []
            try:
                for (
                    self._number, link_type, octets, is_cut, time,
                    is_outbound, fcs_octets, flags, dropped,
                ) in records:
                    self._now = time or 0
                    if dropped:
                        self._add_gaps("frame that the program which captured dropped", dropped)
                    if self._now > x25lines.MOST_TIME:
                        self.notes["time that no line can have: 0 stands for it"] += 1
                        self._now = 0
                    read = self._readers.get(link_type) or self._other
                    read(link_type, octets, is_cut, is_outbound, fcs_octets == 2, flags)
            finally:
                yield self._found
        self._found = [], [], []
        self._add_streams(self._xot.end())
        self._add_llc(self._llc.end())
        yield self._found

    def _other(self, link_type: int, *_: object) -> None:
        """A record of another link type."""
        self.notes[
            f"record of the link type {link_type}, of which nothing is read (--help lists those "
            "that are)"
        ] += 1

    def _ip(self, link_type: int, octets: bytes, *_: object) -> None:
        """Packets of IP, with or without a header of their own: XOT."""
        self._add_streams(self._xot.take(octets[ip.AT[link_type] :], self._now))

    def _lan(self, link_type: int, octets: bytes, is_cut: bool, *_: object) -> None:
        """Ethernet and cooked captures: frames of lapbether, packets of LLC and of XOT."""
        least, carried = lan.HEADERS[link_type]
        if len(octets) < least:
            self.passed["frame that is shorter than its header"] += 1
            return
        kind, source, target, octets = carried(octets)
        if kind in (lan.TYPE_IPV4, lan.TYPE_IPV6):
            self._add_streams(self._xot.take(octets, self._now))
        elif kind == lan.LAPBETHER:
            for is_of_dte, frame in self._lapbether.take(source, octets, is_cut):
                self._add("lapbether", self._lapbether.name(), is_of_dte, frame)
        elif kind == lan.COOKED_LLC and octets[:1] == bytes([lan.X25_ACCESS_POINT]):
            self._add_llc(self._llc.take(lan.LlcFrame(self._now, source, target, octets, is_cut)))
        else:
            self.passed[
                "frame of LLC with another access point"
                if kind == lan.COOKED_LLC
                else f"frame of the type {kind:04x}"
            ] += 1

    def _with_direction(
        self,
        _: int,
        octets: bytes,
        is_cut: bool,
        is_outbound: bool | None,
        has_fcs: bool,
        *__: object,
    ) -> None:
        """LAPB_WITH_DIR: an octet that is 0 where the frame was received, then the frame."""
        if octets:
            self._add_frame(octets[0] != 0, octets[1:], is_cut, has_fcs)
        else:
            self._add_gaps(SHORT, 1)

    def _sita(
        self, _: int, octets: bytes, is_cut: bool, is_sent: bool | None, has_fcs: bool, flags: int
    ) -> None:
        """SITA: five octets, the last of them the protocol, then the frame."""
        if len(octets) < SITA_HEADER:
            self._add_gaps(SHORT, 1)
            return
        protocol = octets[4]
        if is_sent is None:
            is_sent = not octets[0] & SITA_RECEIVED
        if protocol == SITA_LAPB:
            self._add_frame(is_sent, octets[SITA_HEADER:], is_cut, has_fcs)
        elif protocol == SITA_NO_PROTOCOL and flags & (captures.CRC_ERROR | captures.TOO_SHORT):
            # What came with an error was captured as it stood on the line.
            self._add_frame(is_sent, octets[SITA_HEADER:], is_cut, True, True)
        else:
            self.notes[f"SITA record of protocol {protocol}"] += 1

    def _bare(
        self, _: int, octets: bytes, is_cut: bool, is_sent: bool | None, has_fcs: bool, *__: object
    ) -> None:
        """A frame with no header of the capture's own before it."""
        if is_sent is None:
            if self._options.sent_by is None:
                raise BadInput(
                    f"record {self._number} has no direction: say whose frames these are with "
                    "--from dte or --from dce"
                )
            is_sent = self._options.sent_by == "dte"
        self._add_frame(is_sent, octets, is_cut, has_fcs)

    def _add_frame(
        self, is_of_dte: bool, octets: bytes, is_cut: bool, has_fcs: bool, has_error: bool = False
    ) -> None:
        """Adds a frame of LAPB, with a frame check sequence where the capture lacks it."""
        if self._options.fcs is not None:
            has_fcs = self._options.fcs
        if is_cut:
            self.notes["frame that was captured in part"] += 1
            octets = UNREAD
        else:
            if not has_error:
                self._doubts.see(is_of_dte != self._options.swap, octets, has_fcs)
            octets += b"" if has_fcs else x25lines.fcs(octets)
        if len(octets) > x25lines.MOST_OCTETS:
            self.notes["frame that is longer than a line may be"] += 1
            octets = UNREAD
        self._add("LAPB", "LAPB", is_of_dte, octets)

    def _add_streams(self, streams: Iterable[xot.Found]) -> None:
        """Adds the packets that came by streams of XOT, each with the time of its segment."""
        now = self._now
        for time, stream, packets in streams:
            self._now = now if time is None else time
            for packet in packets:
                self._add_packet(
                    f"{stream.name} {stream.opened}",
                    stream.name,
                    stream.is_of_dte,
                    packet,
                    stream.opened is not None,
                )
        self._now = now

    def _add_llc(self, packets: Iterable[lan.LlcPacket]) -> None:
        """Adds the packets that came by LLC, each with the time of its frame."""
        now = self._now
        for self._now, name, is_of_dte, packet in packets:
            self._add_packet(name, name, is_of_dte, packet, False)
        self._now = now

    def _add_gaps(self, note: str, count: int) -> None:
        """So many frames aren't there, of whichever connections; the numbers of TCP and LLC show
        where theirs are missing."""
        self.notes[note] += count
        for key, connection in self._connections.items():
            if not connection.is_made_up:
                for is_of_dte in True, False:
                    self._add(key, key, is_of_dte, None)

    def _add_packet(
        self, key: str, name: str, is_of_dte: bool, packet: bytes | None, is_opened: bool
    ) -> None:
        """Adds the packet of a connection without frames of LAPB, which was seen to be opened, or
        wasn't; None is a gap."""
        if packet is not None and len(packet) > x25lines.MOST_INFORMATION:
            self.notes["packet that is longer than a frame may be"] += 1
            packet = None
        if packet is None and key not in self._connections:
            self._late.setdefault(key, set()).add(is_of_dte)
        self._add(key, name, is_of_dte, packet, True, is_opened and key not in self._late)

    def _add(
        self,
        key: str,
        name: str,
        is_of_dte: bool,
        octets: bytes | None,
        is_made_up: bool = False,
        is_opened: bool = False,
    ) -> None:
        """Adds a frame of the connection with a key, or a packet, which is put into the next I
        frame of its direction; None is a gap, where there is such a connection."""
        direction = "<>"[is_of_dte != self._options.swap]
        connection = self._connections.get(key)
        if octets is None:
            if connection is not None:
                self._add_line(connection, f"{direction} {x25lines.GAP}\n")
            return
        if connection is None and (connection := self._begun(key, name, is_made_up, is_opened)):
            for late in sorted(self._late.get(key, ())):
                self._add(key, name, late, None)
        if connection is not None:
            connection.name = name
            if is_made_up:
                octets = bytes((
                    ADDRESS[direction],
                    (
                        connection.sent[OTHER[direction]] << 5
                        | connection.sent[direction] << 1 & 0x0E
                    ) & 0xFF,
                )) + octets
                octets += x25lines.fcs(octets)
            connection.sent[direction] += 1
            self._add_line(connection, f"{direction} {octets.hex()}\n")

    def _add_line(self, connection: Connection, line: str) -> None:
        """Adds a line of a connection."""
        connections, times, lines = self._found
        connections.append(connection)
        times.append(self._now)
        lines.append(line)

    def _begun(self, key: str, name: str, is_made_up: bool, is_opened: bool) -> Connection | None:
        """A new connection, or None where there are too many."""
        if len(self._connections) == MOST_CONNECTIONS:
            self.notes[f"frame of a connection after the first {MOST_CONNECTIONS:,}"] += 1
            return None
        self._connections[key] = Connection(
            len(self._connections) + 1, name, is_made_up, is_opened
        )
        return self._connections[key]

    def tell(self) -> int:
        """Says on standard error what was left out and why; answers the status."""
        for note, count in self.notes.items():
            x25lines.warn(f"left out: {note} ({count})")
        status = self._doubts.tell()
        if not self._connections:
            x25lines.warn(
                "nothing was found"
                + ("" if self.notes or self.passed else ": the capture has no records")
            )
            for note, count in self.passed.items():
                x25lines.warn(f"passed over: {note} ({count})")
        return 1 if self.notes or not self._connections else status


def station(text: str) -> bytes:
    """A word that is the address of a station."""
    if not re.fullmatch("[0-9a-fA-F]{2}(:[0-9a-fA-F]{2}){5}", text):
        raise argparse.ArgumentTypeError(f"{text!r} is no address like 02:00:00:00:00:01")
    return bytes.fromhex(text.replace(":", ""))


def connection_number(text: str) -> int:
    """A word that is the number of a connection."""
    if not re.fullmatch("[1-9][0-9]{0,4}", text):
        raise argparse.ArgumentTypeError(f"{text!r} is no number of a connection, from 1")
    return int(text)


def add_capture_words(parser: argparse.ArgumentParser) -> None:
    """Adds the words that say how a capture is read."""
    parser.add_argument("--swap", action="store_true", help="exchange the directions")
    parser.add_argument(
        "--fcs",
        action=argparse.BooleanOptionalAction,
        help="the frames have their frame check sequence: add none; or they lack it",
    )
    parser.add_argument(
        "--lapb",
        type=places.within(int, 0, 65535),
        metavar="N",
        help="the link type N holds frames of LAPB",
    )
    parser.add_argument(
        "--from",
        dest="sent_by",
        choices=["dte", "dce"],
        help="whose frames those without a direction are",
    )
    parser.add_argument(
        "--port",
        type=places.port,
        default=xot.XOT_PORT,
        metavar="N",
        help="the port of XOT (1998)",
    )
    parser.add_argument(
        "--dte",
        type=station,
        metavar="ADDRESS",
        help="which station of lapbether or LLC is the DTE",
    )
    parser.add_argument(
        "--connection",
        type=connection_number,
        metavar="N",
        help="the connection to write, by its number in --list",
    )


def words() -> argparse.Namespace:
    """The words after the script's name."""
    parser = x25lines.parser(__doc__)
    x25lines.add_input(parser, "the capture")
    parser.add_argument(
        "--time", action="store_true", help="begin each line with the time in seconds and a tab"
    )
    parser.add_argument(
        "--list",
        action="store_true",
        help="write no frames but the connections: number, name, frames or packets each way",
    )
    add_capture_words(parser)
    return parser.parse_args()


def picked(found: Found, are_picked: list[bool]) -> Found:
    """The connections, the times and the lines of those frames that are picked."""
    connections, times, lines = found
    return (
        list(itertools.compress(connections, are_picked)),
        list(itertools.compress(times, are_picked)),
        list(itertools.compress(lines, are_picked)),
    )


def write_list(converter: Converter, blocks: Iterable[list[captures.Record]]) -> int:
    """Writes the connections of a capture."""
    for _ in converter.blocks(blocks):
        pass
    for connection in converter.connections():
        sys.stdout.write(connection.row() + "\n")
    return converter.tell()


def lines_of(
    converter: Converter, file: x25lines.Readable, options: argparse.Namespace
) -> Iterator[tuple[list[int], list[str]]]:
    """Yields the times and the lines of the connection that is wanted, or of the first, those of
    each block at once."""
    wanted = options.connection or 1
    for connections, times, lines in converter.blocks(captures.blocks(file, converter.notes)):
        are_wanted = [connection.number == wanted for connection in connections]
        yield (
            list(itertools.compress(times, are_wanted)),
            list(itertools.compress(lines, are_wanted)),
        )
    if 0 < len(converter.connections()) < wanted:
        raise BadInput(
            f"there is no connection {wanted}: the last is {len(converter.connections())}"
        )


def tell_of_one(converter: Converter, options: argparse.Namespace) -> int:
    """Tells what was left out of the lines of a connection; answers the status."""
    status, others = converter.tell(), len(converter.connections()) - 1
    if others > 0 and options.connection is None:
        x25lines.warn(
            f"left out: {others} more connections (pcap2x25 --list names them, --connection N "
            "takes one)"
        )
        return 1
    return status


def write_lines(converter: Converter, file: x25lines.Readable, options: argparse.Namespace) -> int:
    """Writes the lines of a connection, those of each block at once."""
    for times, lines in lines_of(converter, file, options):
        if options.time:
            lines = [f"{x25lines.seconds(time)}\t{line}" for time, line in zip(times, lines)]
        sys.stdout.write("".join(lines))
    return tell_of_one(converter, options)


def main() -> int:
    options = words()
    converter = Converter(options)
    with x25lines.opened(options.file) as file:
        return (
            write_list(converter, captures.blocks(file, converter.notes))
            if options.list
            else write_lines(converter, file, options)
        )
