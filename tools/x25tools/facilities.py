"""Facilities of a packet in words (X.25 sections 6 and 7, annex G). The names are those of other
decoders, as tshark's."""

from __future__ import annotations

from typing import Iterator

CLASSES = {0: 1, 1: 2, 2: 3}
MARKER, CHARGING, THROUGHPUT, CHARGES, SIZES, WINDOWS, DELAY, CALLED, CALLING = (
    0x00, 0x01, 0x02, 0x04, 0x42, 0x43, 0x49, 0xC9, 0xCB
)
NAMES = {
    THROUGHPUT: "throughput class negotiation",
    0x03: "closed user group selection",
    CHARGES: "charging information",
    0x08: "called address modified",
    0x09: "closed user group with outgoing access selection",
    0x0A: "minimum throughput class",
    0x0B: "negotiation of express data",
    0x41: "bilateral closed user group selection",
    SIZES: "packet size",
    WINDOWS: "window size",
    0x44: "RPOA selection",
    0x47: "extended closed user group selection",
    0x48: "extended closed user group with outgoing access selection",
    DELAY: "transit delay selection and indication",
    0xC1: "call duration",
    0xC2: "segment count",
    0xC3: "call redirection or deflection notification",
    0xC4: "extended RPOA selection",
    0xC5: "monetary unit",
    0xC6: "network user identification selection",
    CALLED: "called address extension",
    0xCA: "end to end transit delay",
    CALLING: "calling address extension",
    0xD1: "call deflection selection",
    0xD2: "priority",
}
MARKERS = {
    0x00: "network complementary services, calling DTE",
    0xFF: "network complementary services, called DTE",
    0x0F: "DTE complementary services",
}
FAST_SELECT = {2: "fast select without restriction", 3: "fast select with restriction"}
DIVERSION = {1: "ICRD prevention requested", 2: "ICRD allowance requested", 3: "ICRD not allowed"}
# Of a throughput class the bits in a second.
RATES = {
    3: 75, 4: 150, 5: 300, 6: 600, 7: 1200, 8: 2400, 9: 4800, 10: 9600, 11: 19200, 12: 48000,
    13: 64000,
}


def split(octets: bytes) -> Iterator[tuple[int, bytes | None]]:
    """Yields the code and the value of each facility; None for a value whose octets are
    missing."""
    at = 0
    while at < len(octets):
        code, length, at = octets[at], CLASSES.get(octets[at] >> 6), at + 1
        if length is None:
            length, at = int.from_bytes(octets[at : at + 1], "big"), at + 1
        yield code, octets[at : at + length] if at + length <= len(octets) else None
        at += length


def words(octets: bytes) -> str:
    """What a field of facilities says."""
    return ", ".join(_words(code, value) for code, value in split(octets))


def _words(code: int, value: bytes | None) -> str:
    if code == MARKER and value:
        return MARKERS.get(value[0], f"marker {value[0]:02x}")
    if code == CHARGING and value:
        return " and ".join(_charging(value[0]))
    name = NAMES.get(code, f"facility {code:02x}")
    return f"{name} cut off" if value is None else f"{name} {_value(code, value)}".rstrip()


def _charging(octet: int) -> list[str]:
    """What the facility of reverse charging and fast select asks for."""
    asked = ["reverse charging"] if octet & 1 else []
    asked += [
        names[bits]
        for names, bits in ((FAST_SELECT, octet >> 6), (DIVERSION, octet >> 4 & 3))
        if bits in names
    ]
    return asked or ["no reverse charging"]


def _value(code: int, value: bytes) -> str:
    """A value: what is said of the data that the called end sends, and then of that of the calling
    end, or as digits."""
    if code == SIZES:
        return "/".join(str(1 << size) if 4 <= size <= 12 else f"2^{size}" for size in value)
    if code == WINDOWS:
        return "/".join(str(window) for window in value)
    if code == THROUGHPUT:
        return "/".join(
            str(RATES.get(rate, f"class {rate}")) for rate in (value[0] >> 4, value[0] & 15)
        )
    if code == CHARGES:
        return "requested" if value[0] & 1 else "not requested"
    if code == DELAY:
        return f"{int.from_bytes(value, 'big')} ms"
    if code in (CALLED, CALLING):
        return value[1:].hex()[: value[0] & 0x3F] if value else ""
    return value.hex()
