"""The fields of a line of text that the program writes, as `x25 tabs` has them apart."""

from __future__ import annotations

import re
from typing import NamedTuple

# What is said of a frame begins so; the form of its packet may come first.
SAID, WIDE = re.compile("[!~]"), "~ wide"
DIRECTIONS, ENDS = (">", "<"), ("dte", "dce")


class Record(NamedTuple):
    """The time before a line; its direction, or the end of an entry; the frame and its numbers;
    the packet, or what an entry is, and its fields; `wide`, where a packet is in another form;
    what is told of the frame."""

    time: str
    sender: str
    frame: str
    numbers: str
    packet: str
    fields: str
    form: str
    told: str

    def subject(self) -> tuple[str, str]:
        """The packet, or else the frame, and its fields."""
        return (self.packet, self.fields) if self.packet else (self.frame, self.numbers)


def read(line: str) -> Record | None:
    """The record of a line; None of one that is neither of a frame nor of an entry."""
    before, is_timed, after = line.partition("\t")
    time, rest = (before, after) if is_timed else ("", line)
    sender, _, text = rest.partition(" ")
    if sender in ENDS:
        kind, _, fields = text.partition(" ")
        return Record(time, sender, "", "", kind, fields, "", "")
    if sender not in DIRECTIONS:
        return None
    found = SAID.search(text)
    plain, said = (text[: found.start()], text[found.start() :]) if found else (text, "")
    is_wide = said.startswith(WIDE)
    told = said[len(WIDE) :].removeprefix(" ") if is_wide else said
    frame, _, packet = plain.partition("|")
    kind, _, numbers = frame.partition(" ")
    inner, _, fields = packet.removeprefix(" ").partition(" ")
    form = "wide" if is_wide else ""
    numbers, fields = numbers.removesuffix(" "), fields.removesuffix(" ")
    return Record(time, sender, kind, numbers, inner, fields, form, told)


def values(fields: str) -> dict[str, str]:
    """The values of fields by their names."""
    parts = (word.partition("=") for word in fields.split(" "))
    return {name: value for name, is_field, value in parts if is_field}
