#!/usr/bin/env python3
"""Packets of each form that section 5 of X.25 has modulo 8, with each facility that sections 6 and
7 name, and the frames that LAPB modulo 8 lacks.

    corpus.py > corpus.trace

Each packet stands in an I frame of the DTE, on a channel of its own where it has one, so that a
decoder which remembers calls has none to remember.
"""

import sys

import support  # noqa: F401, so that tools/ is found
from x25tools.x25lines import fcs

# A value of each facility whose code has a name, and one of each class whose code has none.
FACILITIES = """
0100 0101 0180 01c0 01d1 01ff 0233 02ab 02cd 0312 0400 0401 0801 087f 0912 0a33 0b01 0742 3f00
410102 420707 42040c 430207 440102 471234 480012 490100 4a0001 7f0000 800000aa bf010203
c10400010203 c2080000000100000002 c3050106123456 c4021234 c50411223344 c6024142 c90502081234ff
c9030412ff ca0200ff ca0600ff01000200 cb0502081234ff cb0304abcd d106c20612345600 d20102
d206010203040506 cc0400112233 ff021122 d300
""".split()
MARKED = [
    "000f", "0000", "00ff", "000fc9030412ff", "0101420808430707000fcb0304abcd",
    "00000333000fca0200ff", "01010202", "420707420909", "c10400010203c2080000000100000002",
]
FRAMES = (
    "016f 017f 010f 011f 01af82 01bf 03af 03bf8200 01e3aabb 03f3 0103c0 0313 012d 013d 036d "
    "030d".split()
)
# The third octet of each packet by its name; those below carry P(R) too.
CALL, ACCEPT, CLEAR, CLEARCONF, INT, INTCONF, RESET, RESETCONF = (
    "0b", "0f", "13", "17", "23", "27", "1b", "1f"
)
RESTART, RESTARTCONF, DIAG, REG, REGCONF = "fb", "ff", "f1", "f3", "f7"
RR, RNR, REJ = 1, 5, 9
ADDRESSES = [
    ("", ""), ("1", "2"), ("", "12345"), ("123", ""), ("123456789012345", "543210987654321")
]
# Of addresses with their types and plans, which stand first: as a tool for tests has them, as half
# octets.
TYPED = [
    ("", ""),
    ("114930123", "1345"),
    ("", "132080753"),
    ("2012345", ""),
    ("1", "13"),
    ("50c0a80001", "10123"),
    ("13123456789012345", "115432109876543210987"),
]
USER_DATA = ["c0", "c0ffee", "c0" * 16]


def addresses(called, calling):
    """The octets of two addresses, as digits."""
    return f"{len(calling):x}{len(called):x}{called}{calling}" + "0" * (
        (len(called) + len(calling)) % 2
    )


def typed(called, calling):
    """The octets of two addresses with their types and plans, as half octets."""
    return f"{len(called):02x}{len(calling):02x}{called}{calling}" + "0" * (
        (len(called) + len(calling)) % 2
    )


def field(octets):
    """A field of facilities, with its length."""
    return f"{len(octets) // 2:02x}{octets}"


def forms():
    """Yields the first digit of each packet, and its octets from the third on."""
    ends = [addresses(*pair) for pair in ADDRESSES]
    for bits in "15":
        for kind in (CALL, ACCEPT):
            yield from (
                (bits, kind + end + rest)
                for end in ends
                for rest in ("", "00", *(f"00{user}" for user in USER_DATA))
            )
        yield bits, ACCEPT
    for bits, kinds in (("9", (CALL, ACCEPT, CLEARCONF, CLEAR + "0541")), ("d", (CALL, ACCEPT))):
        yield from (
            (bits, kind + typed(*pair) + rest)
            for kind in kinds
            for pair in TYPED
            for rest in ("", "00", "03420707")
        )
    yield from (("9", kind) for kind in (ACCEPT, CLEARCONF, CLEAR + "05", CLEAR + "0541"))
    for facility in [*FACILITIES, *MARKED]:
        for kind in (CALL, ACCEPT, CLEARCONF, CLEAR + "0000"):
            yield "1", kind + ends[1] + field(facility)
    for facility in ("0180", "01c0"):
        yield from (
            ("1", kind + ends[0] + field(facility) + "c0" * 128)
            for kind in (CALL, ACCEPT, CLEAR + "0000")
        )
    for cause in ("00", "01", "05", "81"):
        yield from (
            ("1", kind + cause + rest) for kind in (CLEAR, RESET) for rest in ("", "00", "41")
        )
    for end in ends:
        yield "1", CLEARCONF + end
        yield "1", CLEAR + "0541" + end
        yield "1", CLEAR + "0541" + end + "00c0ffee"
    yield from (("1", kind) for kind in (CLEARCONF, RESETCONF, INTCONF))
    yield from (("1", INT + "c0" * count) for count in (1, 32))
    for number in range(8):
        yield from (("1", f"{kind | number << 5:02x}") for kind in (RR, RNR, REJ))
        for bits in "159d":
            yield (
                bits,
                f"{number << 5 | (7 - number) << 1 | (number & 1) << 4:02x}"
                + "c0" * (16 * number),
            )


def of_no_channel():
    """Yields the octets of each packet of channel 0 from the third on."""
    yield from (RESTART + rest for rest in ("00", "07", "0000", "0741"))
    yield RESTARTCONF
    yield from (DIAG + rest for rest in ("00", "21", "2110", "211001", "2110010b"))
    yield from (
        kind + rest
        for kind, rest in (
            (REG, "0000"),
            (REG, "112101050101"),
            (REGCONF, "05000000"),
            (REGCONF, "0500112101050101"),
        )
    )


def packets():
    """Yields the octets of each packet."""
    for channel, (bits, rest) in enumerate(forms(), 1):
        yield bytes.fromhex(f"{bits}{channel:03x}{rest}")
    for rest in of_no_channel():
        yield bytes.fromhex(f"1000{rest}")


def frames():
    """Yields the octets of each frame, without its frame check sequence."""
    for number, packet in enumerate(packets()):
        yield bytes([1, number % 8 << 1]) + packet
    yield from map(bytes.fromhex, FRAMES)


def trace(given):
    """The lines of a trace of these frames from the DTE."""
    return "".join(f"> {(octets + fcs(octets)).hex()}\n" for octets in given).encode()


if __name__ == "__main__":
    sys.stdout.buffer.write(trace(frames()))
