#!/usr/bin/env python3
"""Makes lines of a trace of lines of `x25 decode`: the way back, for examples of documents and for
cases.

    texts.py < TEXT > TRACE

A line `> I cmd P=0 S=2 R=2 | CLEARCONF ch=1` becomes the octets of that frame. What is told after
a frame, from ` ! `, ` !? `, ` ~ ` or ` ~? ` on, is passed over, and so are lines that begin with
`#`. A line `> ..` stays. A fault of decode stands for one frame or packet that has it. So do these
lines:

    UP      SABM of the DTE and UA
    CALL    UP, RESTART of both ends, and a call of the DTE on channel 1 that is accepted
    CALL16  CALL with packets of 16 octets

After UP the next N(S) of each end is 0, after the others 2.
"""

from __future__ import annotations

import re
import sys
from typing import Iterator

from runs import frame

UNNUMBERED = {"SABM": 0x2F, "DISC": 0x43, "UA": 0x63, "DM": 0x0F, "FRMR": 0x87}
SUPERVISORY = {"RR": 0x01, "RNR": 0x05, "REJ": 0x09}
PLAIN = {"CLEARCONF": 0x17, "RESETCONF": 0x1F, "INTCONF": 0x27, "RESTARTCONF": 0xFF}
REASONED = {"CLEAR": 0x13, "RESET": 0x1B, "RESTART": 0xFB}
CALLS = {"CALL": 0x0B, "ACCEPT": 0x0F}
# Octets that decode answers by a fault: of a packet, and of a whole frame.
FAULTS_OF_PACKETS = {"fault 22 diag=33": "10010d", "fault 25 diag=65": "1001 0b 11 12 02 0101"}
DAMAGED = "0100ffff"

UP = ["> SABM cmd P=1", "< UA rsp F=1"]
CALL = [
    *UP,
    "> I cmd P=0 S=0 R=0 | RESTART cause=0 diag=0",
    "< I cmd P=0 S=0 R=1 | RESTART cause=7 diag=0",
    "> I cmd P=0 S=1 R=1 | CALL ch=1 called=1 calling=2 fac=- data=-",
    "< I cmd P=0 S=1 R=2 | ACCEPT ch=1 fac=-",
]
STARTS = {"UP": UP, "CALL": CALL, "CALL16": [text.replace("fac=-", "fac=420404") for text in CALL]}


def octets_of(digits: str) -> bytes:
    return b"" if digits == "-" else bytes.fromhex(digits)


def packet_of(text: str) -> bytes:
    """The octets of a packet."""
    if text in FAULTS_OF_PACKETS:
        return octets_of(FAULTS_OF_PACKETS[text])
    kind, *rest = text.split()
    given = dict(word.split("=") for word in rest)
    channel = int(given.get("ch", 0))
    head = bytes([0x10 | channel >> 8, channel & 0xFF])
    if kind in PLAIN:
        return head + bytes([PLAIN[kind]])
    if kind in REASONED:
        return head + bytes([REASONED[kind], int(given["cause"]), int(given["diag"])])
    if kind in CALLS:
        called, calling, facilities = (given.get(it, "-") for it in ("called", "calling", "fac"))
        addresses = "".join(it for it in (called, calling) if it != "-")
        lengths = bytes([(calling != "-") * len(calling) << 4 | (called != "-") * len(called)])
        block = lengths + bytes.fromhex(addresses + "0" * (len(addresses) % 2))
        block += bytes([len(octets_of(facilities))]) + octets_of(facilities)
        is_bare = kind == "ACCEPT" and block == bytes(2)
        return head + bytes([CALLS[kind]]) + (b"" if is_bare else block) + octets_of(
            given.get("data", "-")
        )
    if kind in SUPERVISORY:
        return head + bytes([SUPERVISORY[kind] | int(given["R"]) << 5])
    if kind == "INT":
        return head + b"\x23" + octets_of(given["data"])
    numbers = int(given["R"]) << 5 | int(given["M"]) << 4 | int(given["S"]) << 1
    return bytes([head[0] | int(given["Q"]) << 7, head[1], numbers]) + octets_of(given["data"])


def line_of(text: str) -> str:
    """The line of a trace that is answered by a text of `decode`."""
    mark, _, said = text.partition(" ")
    if said == ".." or text.startswith("#"):
        return text
    if said == "fault 2 fcs":
        return f"{mark} {DAMAGED}"
    if fault := re.fullmatch("fault 4 undefined ctl=(..)", said):
        return f"{mark} {frame(mark, True, int(fault[1], 16)).hex()}"
    head, _, packet = said.partition(" | ")
    kind, role, *rest = head.split()
    given = dict(word.split("=") for word in rest)
    control = int(given.get("P", given.get("F", 0))) << 4
    if kind in UNNUMBERED:
        control |= UNNUMBERED[kind]
    else:
        number = int(given["S"]) << 1 if kind == "I" else SUPERVISORY[kind]
        control |= int(given["R"]) << 5 | number
    return (
        f"{mark} {frame(mark, role == 'cmd', control, packet_of(packet) if packet else b'').hex()}"
    )


def lines_of(text: str) -> Iterator[str]:
    """The lines of a trace of a text."""
    for line in text.splitlines():
        bare = re.split(r" !\??(?= )| ~\??(?= )", line)[0]
        for it in STARTS.get(bare, [bare]):
            if it and not it.startswith("#"):
                yield line_of(it)


if __name__ == "__main__":
    sys.stdout.writelines(f"{line}\n" for line in lines_of(sys.stdin.read()))
