"""What sets up a permanent circuit in XOT (RFC 1613), which X.25 itself doesn't have.

It is a packet with the type f5, and is read by that name alone: what its octets say isn't.
"""

from __future__ import annotations

from x25tools import x25lines

TYPE, TYPE_AT = "f5", 10


def sets_up(line: str) -> bool:
    """Whether the line of a frame that was made up around a packet of XOT brings such a packet."""
    return line[TYPE_AT : TYPE_AT + 2] == TYPE


def text(line: str) -> str:
    """What is shown of such a line, after the frame that was made up; nothing of another line."""
    frame = x25lines.frame_line(line.encode()) if sets_up(line) else None
    if frame is None:
        return ""
    address, control, group, channel = frame.octets[:4]
    numbers = f"S={control >> 1 & 7} R={control >> 5}"
    data = frame.octets[5:-2].hex() or "-"
    where = f"ch={(group & 15) << 8 | channel}"
    return f"{frame.direction} I cmd P=0 {numbers} | PVC {where} data={data}"
