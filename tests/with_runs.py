"""Random `with` lines: what a user gives beside a call, its acceptance and its clearing comes out
of `decode --wide` as it was given.

    with_runs.py [--program PROGRAM] [--from SEED] [RUNS]

Each run is a script of calls between two stations. Each call, acceptance and clearing is a `with`
line: any whole facilities, user data and D, or none of these, any addresses, packet sizes and
windows, a cause and a diagnostic. Before some stands one of what can't be given, which is to be
refused (34) and to change nothing: facilities cut off, more than 103 octets of them, a packet size
or a window before a marker, more than 128 octets of user data, user data beside a call, or D of a
clearing. Of the packets that `sim --tap` shows `decode --wide` has to say just what was given,
after what the station writes itself; and the other end's user has to hear it. `make with-runs`
plays 100,000 lines.

Exit status: 0; 1 where a run fails, with its seed; 2 for bad words, or where there is no program.
"""

import re
import subprocess
import sys
from typing import NamedTuple

import runs

from x25tools import facilities, losses  # where runs finds it

CALLS = 34
WORDS = ["--wide", "--long"]
MOST_FACILITIES, MOST_USER, MARKER = 103, 128, 0x00
SIZES, WINDOWS = facilities.SIZES, facilities.WINDOWS
MARKS = {"dte": ">", "dce": "<"}
OTHER = {"dte": "dce", "dce": "dte"}
# Who hears what an end sends.
HEARS = {">": "dce", "<": "dte"}
# What the text of a packet leaves out is none.
NOTHING = {"D": "0", "called": "-", "calling": "-", "fac": "-", "data": "-"}
USUAL = (7, 7, 2, 2)
# The causes of a clearing that an end may give: some of a DCE's, all of a DTE's.
CAUSES = {"dte": (0, *range(129, 256)), "dce": (0, 1, 9, 13, 25, 41)}
PACKET = re.compile(r"([<>]) I .* \| (CALL|ACCEPT|CLEAR) (.*)")
FIELD = re.compile(r"(\w+)=(\S+)")
BESIDE = re.compile(r"(d[tc]e) beside ch=1 (.*)")


class Given(NamedTuple):
    """What is given: facilities, user data, D."""

    facilities: bytes
    user: bytes
    d: bool

    def words(self):
        return f"with {hexadecimal(self.facilities)} {hexadecimal(self.user)}{' d' * self.d}"


class Said(NamedTuple):
    """What is said of a packet: its end, what it is, its fields, and what the other end's user
    hears beside it."""

    mark: str
    packet: str
    fields: dict
    beside: str


def hexadecimal(octets):
    return octets.hex() or "-"


def facility(dice, marked):
    """One facility; after a marker it may be a packet size or a window, too."""
    code = dice.below(256)
    while code in (SIZES, WINDOWS) and not marked:
        code = dice.below(256)
    length = facilities.CLASSES.get(code >> 6)
    if length is None:
        length = dice.one_of((0, 1, 2, 8, 30))
        return bytes([code, length]) + octets(dice, length)
    return bytes([code]) + octets(dice, length)


def octets(dice, count):
    return bytes(dice.below(256) for _ in range(count))


def some_facilities(dice):
    """Whole facilities, as many as there is room for or fewer."""
    some, marked = b"", False
    for _ in range(dice.one_of((0, 1, 1, 2, 3, 5, 40))):
        if dice.chance(0.1):
            more, marked = bytes([MARKER]) + octets(dice, 1), True
        else:
            more = facility(dice, marked)
            marked = marked or more[0] == MARKER
        if len(some + more) > MOST_FACILITIES:
            break
        some += more
    return some


def given(dice, kind):
    """What may be given with a packet of this kind."""
    user = b"" if kind == "call" else octets(dice, dice.one_of((0, 0, 1, 16, 17, MOST_USER)))
    return Given(some_facilities(dice), user, kind != "clear" and dice.chance(0.3))


def refused(dice, kind):
    """What may not."""
    it = given(dice, kind)
    ways = [
        it._replace(facilities=it.facilities + facility(dice, True)[:1]),
        it._replace(facilities=bytes([0x3F, 0]) * (MOST_FACILITIES // 2 + 1)),
        it._replace(
            facilities=bytes([dice.one_of((SIZES, WINDOWS)), 2, 2])
            + some_facilities(dice)[: MOST_FACILITIES - 3]
        ),
        it._replace(user=octets(dice, MOST_USER + 1)),
    ]
    ways += [it._replace(user=b"\x41")] if kind == "call" else []
    ways += [it._replace(d=True)] if kind == "clear" else []
    return dice.one_of(ways)


def own_facilities(numbers, but):
    """The facilities that a station writes: packet sizes and windows, each where they aren't those
    that are understood."""
    parts = ((SIZES, numbers[:2], but[:2]), (WINDOWS, numbers[2:], but[2:]))
    return b"".join(bytes([code, *these]) for code, these, usual in parts if these != usual)


def address(dice):
    return "-" if dice.chance(0.1) else dice.digits(15)


def numbers_of(dice):
    """Packet sizes and windows, of the called end and of the calling one."""
    return (
        USUAL
        if dice.chance(0.5)
        else (4 + dice.below(9), 4 + dice.below(9), 1 + dice.below(7), 1 + dice.below(7))
    )


def between(dice, numbers):
    """Numbers each from the one proposed to the usual one."""
    return tuple(dice.one_of((one, usual)) for one, usual in zip(numbers, USUAL))


def shown(it, fields, own):
    """The fields of a packet that gives this, after facilities of the station's own, and what is
    heard beside it."""
    field = hexadecimal(own + it.facilities)
    is_other = bool(it.facilities or it.user or it.d)
    user = hexadecimal(it.user)
    beside = f"fac={field} data={user}" if is_other and (field, user) != ("-", "-") else ""
    return {"D": "1" if it.d else "0", "fac": field, "data": user, **fields}, beside


def script(seed):
    """The lines of a run, what is to be said of its packets, and how many lines are to be
    refused."""
    dice = losses.Dice(seed)
    lines, said, count = ["drain 99"], [], 0

    def ask(end, kind, rest, packet, fields, own):
        nonlocal count
        if dice.chance(0.3):
            lines.append(f"{end} {refused(dice, kind).words()} {rest}")
            count += 1
        it = given(dice, kind)
        lines.extend((f"{end} {it.words()} {rest}", "drain 99"))
        said.append(Said(MARKS[end], packet, *shown(it, fields, own)))

    for _ in range(CALLS):
        end, called, calling = dice.one_of(losses.ENDS), address(dice), address(dice)
        user = hexadecimal(octets(dice, dice.one_of((0, 1, 16, MOST_USER))))
        proposed = numbers_of(dice)
        agreed = between(dice, proposed)
        numbers = "" if proposed == USUAL else " " + " ".join(map(str, proposed))
        fields = {"called": called, "calling": calling, "data": user}
        ask(
            end,
            "call",
            f"call {called} {calling} {user}{numbers}",
            "CALL",
            fields,
            own_facilities(proposed, USUAL),
        )
        ask(
            OTHER[end],
            "accept",
            f"accept 1 {' '.join(map(str, agreed))}",
            "ACCEPT",
            {},
            own_facilities(agreed, proposed),
        )
        end = dice.one_of(losses.ENDS)
        cause, diagnostic = dice.one_of(CAUSES[end]), dice.below(256)
        ask(
            end,
            "clear",
            f"clear 1 cause={cause} diag={diagnostic}",
            "CLEAR",
            {"cause": str(cause), "diag": str(diagnostic)},
            b"",
        )
    return lines, said, count


def faults(program, seed):
    """What is wrong with a run, and how many lines it has that give something."""
    lines, said, count = script(seed)
    played = subprocess.run(
        [program, "sim", "--tap", *WORDS],
        input="\n".join(lines) + "\n",
        stdout=subprocess.PIPE,
        text=True,
    ).stdout
    told = played.splitlines()
    trace = "".join(line + "\n" for line in told if line[:2] in ("> ", "< "))
    decoded = subprocess.run(
        [program, "decode", *WORDS], input=trace, stdout=subprocess.PIPE, text=True
    ).stdout
    read = [PACKET.fullmatch(line.removesuffix(" ~ wide")) for line in decoded.splitlines()]
    found = [
        (packet[1], packet[2], NOTHING | dict(FIELD.findall(packet[3])))
        for packet in read
        if packet
    ]
    wanted = [(it.mark, it.packet, NOTHING | {"ch": "1"} | it.fields) for it in said]
    heard = [line for line in told if BESIDE.match(line)]
    beside = [f"{HEARS[it.mark]} beside ch=1 {it.beside}" for it in said if it.beside]
    wrong = [
        f"{one!r} for {other!r}" for one, other in (*firsts(found, wanted), *firsts(heard, beside))
    ]
    refusals = [line for line in told if line[:1] in "!?"]
    if refusals != ["! 34"] * count:
        wrong.append(f"{count} lines are to be refused: {refusals}")
    return wrong, len(said) + count


def firsts(some, others):
    """The first place in which two lists differ."""
    if some != others:
        at = next(
            (at for at, (one, other) in enumerate(zip(some, others)) if one != other),
            min(len(some), len(others)),
        )
        yield some[at : at + 1], others[at : at + 1]


def main():
    options = runs.options_of(runs.words(__doc__, 760))
    lines = failed = 0
    for seed in options.seeds:
        wrong, count = faults(options.program, seed)
        lines += count
        failed += bool(wrong)
        if wrong:
            print(f"seed {seed}: {wrong[0]}")
    print(f"{options.runs} runs, {lines} lines, {failed} runs wrong")
    return 1 if failed else 0


if __name__ == "__main__":
    sys.exit(main())
