"""Names of causes, diagnostics, facilities, refusals and of what a FRMR says. docs/FORMATS.md has
the refusals, and says of the others whose they are."""

from __future__ import annotations

from typing import Iterator

from x25tools import facilities, records, x25lines

ORIGINATED = "DTE originated"
CLEARING = {
    1: "number busy",
    3: "invalid facility request",
    5: "network congestion",
    9: "out of order",
    11: "access barred",
    13: "not obtainable",
    17: "remote procedure error",
    19: "local procedure error",
    21: "RPOA out of order",
    25: "reverse charging acceptance not subscribed",
    33: "incompatible destination",
    41: "fast select acceptance not subscribed",
    57: "ship absent",
}
RESETTING = {
    1: "out of order",
    3: "remote procedure error",
    5: "local procedure error",
    7: "network congestion",
    9: "remote DTE operational",
    15: "network operational",
    17: "incompatible destination",
    29: "network out of order",
}
RESTARTING = {
    1: "local procedure error",
    3: "network congestion",
    7: "network operational",
    127: "registration or cancellation confirmed",
}
DIAGNOSTICS = {
    0: "no additional information",
    1: "invalid P(S)",
    2: "invalid P(R)",
    16: "packet type invalid",
    **{16 + n: f"packet type invalid for state r{n}" for n in (1, 2, 3)},
    **{19 + n: f"packet type invalid for state p{n}" for n in range(1, 8)},
    **{26 + n: f"packet type invalid for state d{n}" for n in (1, 2, 3)},
    32: "packet not allowed",
    33: "unidentifiable packet",
    34: "call on one-way logical channel",
    35: "packet type invalid on a permanent virtual circuit",
    36: "packet on unassigned logical channel",
    37: "reject not subscribed to",
    38: "packet too short",
    39: "packet too long",
    40: "invalid general format identifier",
    41: "restart or registration packet with a logical channel",
    42: "packet type not compatible with facility",
    43: "unauthorized interrupt confirmation",
    44: "unauthorized interrupt",
    45: "unauthorized reject",
    46: "TOA/NPI address subscription facility not subscribed to",
    48: "time expired",
    49: "time expired for incoming call",
    50: "time expired for clear indication",
    51: "time expired for reset indication",
    52: "time expired for restart indication",
    53: "time expired for call deflection",
    64: "call set-up problem",
    65: "facility code not allowed",
    66: "facility parameter not allowed",
    67: "invalid called address",
    68: "invalid calling address",
    69: "invalid facility length",
    70: "incoming call barred",
    71: "no logical channel available",
    72: "call collision",
    73: "duplicate facility requested",
    74: "address length not zero",
    75: "facility length not zero",
    76: "facility not provided when expected",
    77: "invalid CCITT-specified DTE facility",
    78: "too many call redirections or deflections",
    80: "miscellaneous",
    81: "improper cause code from DTE",
    82: "octet not aligned",
    83: "inconsistent Q bit setting",
    84: "NUI problem",
    112: "international problem",
    113: "remote network problem",
    114: "international protocol problem",
    115: "international link out of order",
    116: "international link busy",
    117: "transit network facility problem",
    118: "remote network facility problem",
    119: "international routing problem",
    120: "temporary routing problem",
    121: "unknown called DNIC",
    122: "maintenance action",
    144: "timer expired or retransmission count surpassed",
    145: "timer expired or retransmission count surpassed for interrupt",
    146: "timer expired or retransmission count surpassed for data",
    147: "timer expired or retransmission count surpassed for reject",
    160: "DTE-specific signals",
    161: "DTE operational",
    162: "DTE not operational",
    163: "DTE resource constraint",
    164: "fast select not subscribed",
    165: "invalid partially full data packet",
    166: "D-bit procedure not supported",
    167: "registration or cancellation confirmed",
}
REFUSALS = {
    9: "the link isn't up",
    10: "256 packets wait",
    11: "timer T1 isn't running",
    12: "the link is being set up",
    13: "the link was ended",
    15: "the link is up",
    30: "not in this state of the channel",
    31: "8 messages wait",
    32: "a message that is too long",
    33: "an interrupt isn't confirmed yet",
    34: "a parameter is out of range",
    40: "a restart is under way",
    41: "no channel is free",
    42: "no such channel",
    50: "nothing is on the line",
    51: "no frame at that place",
    52: "the damage can't be seen: the octets pass the frame check sequence",
    54: "timer T1, while the SABM of the end or a UA to it is on the line",
    60: "no such line",
    61: "what a `wait` waits for doesn't come",
    70: "no memory",
}
# Why a packet doesn't decode, and where that may be our limit.
FAULTS = {
    20: "packet too short",
    21: "invalid general format identifier: modulo 128, which isn't read here, or no X.25",
    22: (
        "unidentifiable packet: also what sets up a permanent circuit in XOT, which isn't read "
        "here"
    ),
    23: "packet too long",
    24: "a digit over 9, or a filler that isn't 0",
    25: "facility code not allowed",
    26: "facility parameter not allowed: cut off or out of range",
}
# Frames that set up a link that isn't read here.
EXTENDED = "asks for a link modulo 128, whose frames aren't read here"
# The grounds of a FRMR, from the lowest bit of its third octet.
GROUNDS = (
    "undefined control",
    "information that mustn't be there",
    "information too long",
    "invalid N(R)",
)

# The type and the numbering plan of an address, which section 5.2.1.2 has.
NUMBER_TYPES = {0: "network-dependent number", 1: "international number", 2: "national number"}
PLANS = {1: "E.164", 3: "X.121"}

# What has words, and stands in a text.
EXPLAINED = ("cause=", "diag=", "fac=", "why=", " A=1 ", " PVC ch=", "SABME cmd")
CAUSES = {
    "CLEAR": CLEARING, "RESET": RESETTING, "RESTART": RESTARTING, "clear": CLEARING,
    "reset": RESETTING, "restart": RESTARTING,
}
CAUSES |= {"cleared": CLEARING, "wasreset": RESETTING, "restarted": RESTARTING}


def _cause(names: dict[int, str], cause: int) -> str:
    return ORIGINATED if cause == 0 or cause >= 128 else names.get(cause, f"cause {cause}")


def _diagnostic(diagnostic: int) -> str:
    return DIAGNOSTICS.get(diagnostic, f"diagnostic {diagnostic}")


def _grounds(octets: bytes) -> str:
    """What a FRMR says: the numbers of the end that refuses, and why."""
    said = [ground for bit, ground in enumerate(GROUNDS) if octets[2] & 1 << bit]
    return ", ".join([
        f"control {octets[0]:02x}", f"V(S)={octets[1] >> 1 & 7} V(R)={octets[1] >> 5}", *said
    ])


def _typed(end: str, kind: int, plan: int) -> str:
    """What an address says of itself."""
    return f"{end}: {NUMBER_TYPES.get(kind, f'type {kind}')}, {PLANS.get(plan, f'plan {plan}')}"


def words(text: str) -> str:
    """What the numbers of a text of `x25 decode`, or of an entry, say in words; nothing where it
    has no such numbers."""
    if text[2:] == x25lines.GAP:
        return x25lines.LACKS
    if not any(map(text.__contains__, EXPLAINED)):
        return ""
    record = records.read(text)
    return "; ".join(_said(*record.subject())) if record else ""


def _said(kind: str, text: str) -> Iterator[str]:
    """Yields what the fields of a packet, a frame or an entry say."""
    fields = records.values(text)
    diagnostic = fields.get("diag")
    if kind in CAUSES and "cause" in fields:
        yield _cause(CAUSES[kind], int(fields["cause"]))
        if diagnostic and int(diagnostic):
            yield _diagnostic(int(diagnostic))
    elif kind == "fault" and diagnostic and "ch" not in fields:
        yield FAULTS[int(text.partition(" ")[0])]
    elif diagnostic:
        yield _diagnostic(int(diagnostic))
    elif kind == "PVC":
        yield "sets up a permanent circuit of XOT; what it says isn't read"
    elif kind == "SABME":
        yield EXTENDED
    elif "why" in fields:
        yield _grounds(bytes.fromhex(fields["why"]))
    if fields.get("A") == "1":
        for end in "called", "calling":
            number_type, *plan = fields.get(end, "-").split("/")
            if len(plan) == 2:
                yield _typed(end, int(number_type, 16), int(plan[0], 16))
    if fields.get("fac", "-") != "-":
        yield facilities.words(bytes.fromhex(fields["fac"]))


def refusal(line: str) -> str:
    """What `! 30`, or its kin, says in words."""
    return REFUSALS.get(int(line.split(" ")[1]), "")
