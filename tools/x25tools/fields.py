"""The fields of what `x25 decode` and `x25 judge` write of a frame, as values for other
programs."""

from __future__ import annotations

from typing import Dict, NamedTuple, Optional, Union

from x25tools import judging, records, x25names

Fields = Dict[str, Union[str, int]]
# What may stand after a frame: by its mark, whether it is a rule, manners or a note, and whether
# that is in doubt.
MARKS = {
    judging.RULE: ("rule", False),
    judging.IN_DOUBT[judging.RULE]: ("rule", True),
    judging.MANNERS: ("manners", False),
    judging.IN_DOUBT[judging.MANNERS]: ("manners", True),
    " ~ note: ": ("note", False),
}
TOLD = [mark for mark, (kind, _) in MARKS.items() if kind != "note"]
NUMBERS = frozenset(("P", "F", "S", "R", "M", "Q", "D", "A", "ch", "cause", "diag"))
WIDE = " ~ wide"


class Verdict(NamedTuple):
    """What is told of a frame: a rule, manners or a note; whether it is in doubt; of which end;
    the text."""

    kind: str
    is_in_doubt: bool
    end: Optional[str]
    text: str


class Frame(NamedTuple):
    """A frame: its direction, its fields, those of its packet where it has one, its text without
    what is told, what its numbers say in words, and what is told of it."""

    direction: str
    frame: Optional[Fields]
    packet: Optional[Fields]
    text: str
    words: str
    verdict: Optional[Verdict]


def fields_of(text: str) -> Fields:
    """The kind of a frame or a packet, and its fields; a number where it is one."""
    kind, *words = text.split(" ")
    if kind == "fault":
        return {"kind": kind, "number": int(words[0]), "why": " ".join(words[1:])}
    fields: Fields = {"kind": kind}
    for word in words:
        name, is_field, value = word.partition("=")
        if not is_field:
            fields["is"] = word
        elif name in NUMBERS and value.isdigit():
            fields[name] = int(value)
        else:
            fields[name] = "" if value == "-" else value
    return fields


def verdict_of(told: str) -> Optional[Verdict]:
    """What is told of a frame, from its mark on; None where nothing is."""
    mark = next((mark for mark in MARKS if told.startswith(mark[1:])), None)
    if mark is None:
        return None
    (kind, is_in_doubt), text = MARKS[mark], told[len(mark) - 1 :]
    end, has_end, rest = text.partition(": ")
    if kind == "note" or not has_end or end not in judging.ENDS:
        return Verdict(kind, is_in_doubt, None, text)
    return Verdict(kind, is_in_doubt, end, rest)


def read(text: str, is_made_up: bool) -> Frame:
    """A line of the program without its time; the frame around a packet may be made up."""
    record = records.read(text)
    assert record
    whole = text.removesuffix(f" {record.told}") if record.told else text
    frame, packet = f"{record.frame} {record.numbers}", f"{record.packet} {record.fields}"
    return Frame(
        record.sender,
        None if is_made_up else fields_of(frame.rstrip()),
        fields_of(packet.rstrip()) if record.packet else None,
        packet.rstrip() if is_made_up else whole[2:],
        x25names.words(whole),
        verdict_of(record.told),
    )
