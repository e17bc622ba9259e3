"""Capture files for the tests, made octet by octet, apart from the code that is tested."""

import struct

LITTLE, BIG = "<", ">"


def pcap(records, link_type=207, order=LITTLE, nano=False, network_flags=0):
    """A pcap file; a record is (seconds, part of a second, octets) or (.., .., octets, length on
    the line)."""
    magic = 0xA1B23C4D if nano else 0xA1B2C3D4
    file = struct.pack(order + "IHHiIII", magic, 2, 4, 0, 0, 65535, link_type | network_flags)
    for seconds, part, octets, *length in records:
        file += struct.pack(
            order + "IIII", seconds, part, len(octets), *(length or [len(octets)])
        ) + octets
    return file


def block(kind, body, order=LITTLE):
    """A block of a pcapng file."""
    body += bytes(-len(body) % 4)
    length = struct.pack(order + "I", len(body) + 12)
    return struct.pack(order + "I", kind) + length + body + length


def option(code, value, order=LITTLE):
    """An option of a block."""
    return struct.pack(order + "HH", code, len(value)) + value + bytes(-len(value) % 4)


def section(order=LITTLE):
    """A section header block."""
    return block(0x0A0D0D0A, struct.pack(order + "IHHq", 0x1A2B3C4D, 1, 0, -1), order)


def interface(link_type, options=b"", order=LITTLE):
    """An interface description block."""
    return block(1, struct.pack(order + "HHI", link_type, 0, 0) + options, order)


def packet(octets, ticks=0, flags=None, order=LITTLE, index=0):
    """An enhanced packet block, with its direction and errors in `flags`."""
    body = struct.pack(
        order + "IIIII", index, ticks >> 32, ticks & 0xFFFFFFFF, len(octets), len(octets)
    ) + octets
    body += bytes(-len(octets) % 4)
    if flags is not None:
        body += option(2, struct.pack(order + "I", flags), order) + option(0, b"", order)
    return block(6, body, order)


def simple_packet(octets):
    """A simple packet block."""
    return block(3, struct.pack("<I", len(octets)) + octets)


def old_packet(octets, ticks=0):
    """A packet block, as it was before the enhanced one."""
    return block(
        2,
        struct.pack("<HHIIII", 0, 0, ticks >> 32, ticks & 0xFFFFFFFF, len(octets), len(octets))
        + octets,
    )


def tcp(to_server, sequence, octets, flags=0x10, port=1998, wanted=0):
    """A segment of TCP between port 40000 of a client and a server's port, whose sender wants the
    other way from there on."""
    ends = (40000, port) if to_server else (port, 40000)
    return struct.pack(
        ">HHIIBBHHH", *ends, sequence % (1 << 32), wanted, 5 << 4, flags, 1000, 0, 0
    ) + octets


def ipv4(to_server, segment, fragment=0, client=1, number=0):
    """A packet of IPv4 with a segment, or part of one; clients are told apart by the last octet of
    their address."""
    ends = (b"\x0a\x00\x00" + bytes([client]), b"\x0a\x00\x00\x02")
    source, target = ends if to_server else ends[::-1]
    return struct.pack(
        ">BBHHHBBH", 0x45, 0, 20 + len(segment), number, fragment, 64, 6, 0
    ) + source + target + segment


def ipv6(to_server, segment):
    """A packet of IPv6 with a segment after an extension header."""
    ends = (b"\xfe\x80" + bytes(13) + b"\x01", b"\xfe\x80" + bytes(13) + b"\x02")
    source, target = ends if to_server else ends[::-1]
    extended = struct.pack(">BBHI", 6, 0, 0x0104, 0) + segment
    return struct.pack(">IHBB", 6 << 28, len(extended), 60, 64) + source + target + extended


def ipv6_fragment(segment, place, number=1):
    """A fragment of IPv6, to the server, with what stands at that place of a segment; its lowest
    bit is 1 where more come."""
    extended = struct.pack(">BBHI", 6, 0, place, number) + segment
    return struct.pack(
        ">IHBB", 6 << 28, len(extended), 44, 64
    ) + b"\xfe\x80" + bytes(13) + b"\x01" + b"\xfe\x80" + bytes(13) + b"\x02" + extended


def ethernet(packet, kind=0x0800, tags=b""):
    """A frame of Ethernet, filled up to its least length."""
    frame = bytes(12) + tags + struct.pack(">H", kind) + packet
    return frame + bytes(max(0, 60 - len(frame)))


def xot(*packets):
    """X.25 packets as XOT puts them into a stream."""
    return b"".join(struct.pack(">HH", 0, len(packet)) + packet for packet in packets)


def station(number):
    """The address of a station of Ethernet."""
    return bytes([2, 0, 0, 0, 0, number])


def lapbether(source, frame, length=None):
    """A frame of LAPB without its frame check sequence, as Linux's lapbether sends it over
    Ethernet."""
    length = len(frame) if length is None else length
    body = b"\xff" * 6 + station(source) + b"\x60\x00" + struct.pack("<H", length) + frame
    return body + bytes(max(0, 60 - len(body)))


def llc(source, target, control, octets=b""):
    """A frame of LLC with the access point 7e at both ends."""
    body = b"\x7e\x7e" + control + octets
    frame = station(target) + station(source) + struct.pack(">H", len(body)) + body
    return frame + bytes(max(0, 60 - len(frame)))


# A call over XOT: a question and its answer, and a packet over the size that was agreed. Each
# packet has its time in seconds and its direction.
PACKETS_OF_XOT = [
    (0.010, ">", "10010b43" "12345670" "06" "420707" "430202" "c0000000"),
    (0.051, "<", "10010f00" "06" "420707" "430202"),
    (0.130, ">", "100100" + b"0200 AUTH 4712 25.00".hex()),
    (0.181, "<", "100121"),
    (0.312, "<", "100120" + b"0210 OK 83151".hex()),
    (0.314, ">", "100121"),
    (0.920, ">", "100122" + (b"0220 BATCH " + b"4711;" * 36).hex()),
    (0.965, "<", "10011b0527"),
    (0.967, ">", "10011f"),
    (2.510, ">", "1001130000"),
    (2.551, "<", "100117"),
]
BEGIN_OF_XOT = 1772446502
PORTS_OF_XOT = {">": 40001, "<": 1998}
HOSTS_OF_XOT = {">": bytes([192, 0, 2, 10]), "<": bytes([192, 0, 2, 20])}


def segment_of_xot(mark, flags, octets, sequence):
    """A frame of Ethernet with a segment of TCP of the end whose packets have this mark."""
    other = "<" if mark == ">" else ">"
    ports = PORTS_OF_XOT[mark], PORTS_OF_XOT[other]
    head = struct.pack(
        ">HHIIBBHHH", *ports, sequence[mark], sequence[other], 5 << 4, flags, 65535, 0, 0
    )
    sequence[mark] += len(octets) + bool(flags & 3)
    length = 20 + len(head) + len(octets)
    packet = struct.pack(
        ">BBHHHBBH", 0x45, 0, length, 0, 0x4000, 64, 6, 0
    ) + HOSTS_OF_XOT[mark] + HOSTS_OF_XOT[other]
    stations = (station(2), station(1)) if mark == ">" else (station(1), station(2))
    return b"".join(stations) + b"\x08\x00" + packet + head + octets


def capture_of_xot(left_out=None):
    """A capture of that call, or one that lacks the packet of this place."""
    sequence, records = {">": 1000, "<": 5000}, []

    def add(time, mark, flags, octets=b"", is_there=True):
        made = segment_of_xot(mark, flags, octets, sequence)
        if is_there:
            records.append((BEGIN_OF_XOT + int(time), round(time % 1 * 1_000_000), made))

    for time, mark, flags in ((0.001, ">", 0x02), (0.002, "<", 0x12), (0.003, ">", 0x10)):
        add(time, mark, flags)
    for place, (time, mark, digits) in enumerate(PACKETS_OF_XOT):
        add(time, mark, 0x18, xot(bytes.fromhex(digits)), place != left_out)
    for mark, flags in ((">", 0x11), ("<", 0x11), (">", 0x10)):
        add(2.6, mark, flags)
    return pcap(records, link_type=1)
