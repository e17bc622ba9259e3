"""Random short tapes of ends that keep the rules, and of ends that break some, judged beside an
oracle.

    rules_runs.py [--program PROGRAM] [--from SEED] [RUNS]

A tape begins with a set-up, a RESTART and its confirmation, or with a SABM that goes three times
and a RESTART after the second. Then come frames that their ends may send by rules.py, and at times
any: I frames with packets on two channels, RR, RNR and REJ, and in half of the tapes SABM, UA,
DISC, DM and FRMR. In copies of it a frame is left out, comes twice, or changes places with the
next one; and in others what a trace may lack is missing: its beginning, a stretch in place of
which gaps stand, frames that the line loses before a place where it is taken, or frames that can't
be read. An end is accused where `judge` tells a rule of it without doubt, and by rules.py it has
broken none of that layer up to there. It is missed where it breaks its first rule of a layer, and
`judge` tells nothing of it up to there but counts that as judged.

Exit status: 0; 1 where one was missed or accused, with the seed; 2 for bad words, or where there
is no program.
"""

import re
import subprocess
import sys
from typing import NamedTuple

import rules
import runs
from rules import DATA, INFO, KINDS, UNREAD, UNSEEN, Frame
from runs import (
    ACCEPTED, CALL, CLEAR, CLEAR_CONFIRMATION, DISC, DM, FRMR, INTERRUPT, OTHERS, P_OR_F
)
from runs import REJ, RESET, RESET_CONFIRMATION, RESTART, RESTART_CONFIRMATION, RNR, RR, SABM, UA

from x25tools import losses, x25lines  # where runs finds it

NAMES = {">": "dte", "<": "dce"}
# What `judge` tells of a frame that breaks a rule of order of the link layer.
ORDER = (
    "no frame of LAPB", "UA answers", "no I frame", "N(R) ", "an I frame sent again",
    "more I frames are unacknowledged",
)
# A rule or manners, with a sign where what isn't in the trace would explain that.
TOLD = re.compile(r" (?:!|~)(\??)(?: manners:)? (d[tc]e: .*)")
LENGTH, COPIES = 16, 3
# The seeds of runs of which something false was told once: the gate plays them too.
ONCE_WRONG = (
    120, 190, 324, 770_054, 790_015, 790_054, 800_057, 800_164, 810_077, 810_111, 810_146, 810_192,
    820_050,
)
# What a frame and a packet is, the kinds that come most several times; the last is none of X.25.
UNNUMBERED = (SABM,) * 4 + (UA,) * 6 + (DISC, DM, FRMR)
PACKETS = (
    (DATA,) * 10
    + (RR, RNR) * 2
    + KINDS * 2
    + (CALL, ACCEPTED, CLEAR_CONFIRMATION, RESET_CONFIRMATION, RESTART_CONFIRMATION, 0x33)
)
BODIES = {RESTART: b"\0\0", CLEAR: b"\0\0", RESET: b"\0\0", INTERRUPT: b"\1", CALL: b"\0\0"}
# What a call says of packet sizes, 16 octets.
SMALL = b"\0\3\x42\4\4"
UNDEFINED = 0x0D


def packet(channel, kind, more=None, q=False):
    return bytes((0x90 if q else 0x10, channel, kind)) + (
        BODIES.get(kind, b"") if more is None else more
    )


BEGINNING = (
    Frame(">", SABM),
    Frame("<", UA),
    Frame(">", INFO, 0, 0, packet(0, RESTART)),
    Frame("<", INFO, 1, 0, packet(0, RESTART_CONFIRMATION)),
    Frame(">", RR, 1),
)
ASKED_THRICE = (
    Frame("<", SABM),
    Frame(">", UA),
    Frame("<", SABM),
    Frame("<", INFO, 0, 0, packet(0, RESTART)),
    Frame("<", SABM),
    Frame(">", UA),
)


def line(frame, bit):
    """The line of a frame with this P or F bit."""
    control = (
        UNDEFINED
        if frame.kind is None
        else frame.kind | (frame.ns or 0) << 1 | (frame.nr or 0) << 5
    )
    is_command = frame.kind in (SABM, DISC, INFO)
    information = bytes(3) if frame.kind == FRMR else frame.information
    return f"{frame.end} {runs.frame(frame.end, is_command, control | bit, information).hex()}\n"


class Tape:
    """A tape, and where its ends may stand while it is made."""

    def __init__(self, seed):
        self.dice, self.ends, self.frames = losses.Dice(seed), rules.Ends(), []
        self.honest, self.set_ups = self.dice.one_of((0.8, 0.93, 1)), self.dice.one_of((0, 0.12))
        self.beginning = self.dice.one_of((BEGINNING, BEGINNING, BEGINNING, ASKED_THRICE))
        for frame in self.beginning:
            self.add(frame)
        for _ in range(LENGTH):
            self.add(self.next())

    def add(self, frame):
        self.frames.append(frame)
        self.ends.passes(frame)

    def next(self):
        """A frame that its end may send, where one is found soon, or at times any."""
        for _ in range(20 if self.dice.chance(self.honest) else 1):
            frame = self.any_of(self.dice.one_of("<>"))
            if frame.end not in self.ends.links and self.ends.allowed(frame)[1]:
                break
        return frame

    def right(self, low, high):
        """A number modulo 8: one of these, or at times any."""
        return (
            self.dice.below(8)
            if self.dice.chance(0.04)
            else (low + self.dice.below(high - low + 1)) % 8
        )

    def any_of(self, end):
        link, chance = (
            self.dice.one_of(self.ends.onward(end) or [rules.Link()]), self.dice.fraction()
        )
        nr = self.right(link.told, link.taken)
        if chance < self.set_ups or link.stand != rules.IN:
            return Frame(end, self.dice.one_of(UNNUMBERED))
        if chance < 0.22:
            return Frame(end, self.dice.one_of((RR, RNR, REJ)), nr)
        if chance < 0.28 and link.given:
            back = 1 + self.dice.below(len(link.given))
            return Frame(end, INFO, nr, (link.sent - back) % 8, link.given[-back])
        if chance < 0.3:
            return Frame(end, None)
        number = 1 + self.dice.chance(0.3)
        layer = self.dice.one_of([*(link.layer or rules.Layer()).onward(end == "<", number)])
        return Frame(
            end,
            INFO,
            nr,
            self.right(link.sent, link.sent),
            self.packet(number, layer.channel(number)),
        )

    def packet(self, number, channel):
        kind, pr = self.dice.one_of(PACKETS), self.right(channel.told, channel.taken) << 5
        if kind in (RESTART, RESTART_CONFIRMATION):
            return packet(0, kind)
        if kind in (CALL, ACCEPTED) and self.dice.chance(0.3):
            return packet(number, kind, SMALL)
        if kind == DATA:
            size = channel.most + self.dice.below(2) if self.dice.chance(0.1) else 1
            more = P_OR_F if self.dice.chance(0.3) else 0
            return packet(
                number,
                pr | more | self.right(channel.sent, channel.sent) << 1,
                b"a" * size,
                self.dice.chance(0.2),
            )
        return packet(number, kind | pr if kind in (RR, RNR) else kind)

    def copies(self):
        """The lines of the tape, and of some in which a frame after its beginning is left out,
        comes twice, or changes places with the next one."""
        yield self.lines(self.frames)
        for _ in range(COPIES):
            place = len(self.beginning) + self.dice.below(LENGTH - 1)
            one, two = self.frames[place : place + 2]
            yield self.lines([
                *self.frames[:place],
                *self.dice.one_of(([two], [one, one, two], [two, one], [one, two, one])),
                *self.frames[place + 2 :],
            ])

    def lines(self, frames):
        return [line(frame, P_OR_F if self.dice.chance(0.3) else 0) for frame in frames]


# ---- traces in which something is missing


def from_the_midst(dice, lines):
    return lines[dice.below(len(lines)) :], None


def with_gaps(dice, lines):
    """A stretch is left out, and of each of its ends there is a gap."""
    place = dice.below(len(lines))
    later = place + 1 + dice.below(4)
    return (
        lines[:place]
        + [f"{end} {x25lines.GAP}\n" for end in sorted({line[0] for line in lines[place:later]})]
        + lines[later:],
        None,
    )


def at_an_end(dice, lines):
    """The line loses some frames of the far end before the place where the trace is taken."""
    at = dice.one_of("<>")
    return [line for line in lines if line[0] == at or not dice.chance(0.15)], at


def damaged(dice, lines):
    """The frame check sequences of some frames are wrong."""
    return [f"{line[:-5]}0000\n" if dice.chance(0.1) else line for line in lines], None


MISSING = (from_the_midst, with_gaps, at_an_end, damaged)


# ---- what is told


class Told(NamedTuple):
    """What `judge` tells of a frame: its place, its end, whether it is a rule and of packets. Else
    it is that a number is left out, of manners. It is sure where nothing that isn't in the trace
    would explain it."""

    place: int
    end: str
    is_rule: bool
    is_of_packets: bool
    is_sure: bool = True


def told_of(texts):
    """What is told in the answers to lines."""
    for place, text in enumerate(texts):
        found = TOLD.search(text)
        if found and ("manners:" not in text or "N(S) skips" in text):
            # The oracle doesn't look whether the octets of a packet spell one.
            is_rule = "manners:" not in text and "no packet of X.25" not in text
            yield Told(
                place,
                text[0],
                is_rule,
                not found[2][len("dte: ") :].startswith((*ORDER, "N(S)")),
                not found[1],
            )


def frame_in(line):
    """What stands in a line."""
    end, text = line[0], line[2:].strip()
    octets = b"" if text == x25lines.GAP else bytes.fromhex(text)
    if text == x25lines.GAP or not x25lines.is_sealed(octets):
        return Frame(end, UNSEEN if text == x25lines.GAP else UNREAD)
    return rules.frame_of(end, octets[:-2])


def judged(program, lines, at=None):
    words = ["--at", NAMES[at] if at else "line"]
    return subprocess.run(
        [program, "judge", *words], input="".join(lines), stdout=subprocess.PIPE, text=True
    ).stdout.splitlines()


def counts_as_judged(program, lines, at, is_of_packets):
    """Whether the last frame, or the packet in it, is counted as judged, in the line of its end or
    of its channel."""
    frame = frame_in(lines[-1])
    name = NAMES[frame.end] + (
        f" channel {int.from_bytes(frame.information[:2], 'big') & 0xFFF}" if is_of_packets else ""
    )
    before, now = (
        re.search(
            rf"^# {name}: .* (\d+) judged", "\n".join(judged(program, some, at)), re.MULTILINE
        )
        for some in (lines[:-1], lines)
    )
    return now is not None and int(now[1]) > int(before[1] if before else 0)


class Fault(NamedTuple):
    what: str
    place: int
    end: str
    is_of_packets: bool


def faults(ends, told):
    """Of whom a rule is told that it hasn't broken, and of whom nothing is told where it has
    broken one."""
    for end in OTHERS:
        for is_of_packets, broken in ((False, ends.links), (True, ends.packets)):
            first = broken.get(end, ends.places)
            # What is told of packets isn't compared where nothing is known of them.
            last = first if ends.known is None or not is_of_packets else min(first, ends.known + 1)
            blind = ends.blind if is_of_packets else ()
            accused = [
                rule.place
                for rule in told
                if rule[1:] == (end, True, is_of_packets, True) and rule.place not in blind
            ]
            if accused and accused[0] < last:
                yield Fault("accused", accused[0], end, is_of_packets)
            elif end in broken and not any(
                rule.end == end and (rule.place == first or rule.is_rule and rule.place < first)
                for rule in told
            ):
                yield Fault("missed", first, end, is_of_packets)


def compare(program, lines, at=None):
    """Whether lines break a rule, and what is wrong with what is told of them, where they are
    taken at an end, or on the line."""
    ends, wrong = rules.Ends(at), []
    for text in lines:
        ends.passes(frame_in(text))
    for what, place, end, is_of_packets in faults(ends, [*told_of(judged(program, lines, at))]):
        if what == "accused" or counts_as_judged(program, lines[: place + 1], at, is_of_packets):
            wrong.append(
                f"{NAMES[end]} is {what} at line {place + 1} of\n{''.join(lines[: place + 1])}"
            )
    return bool(ends.links or ends.packets), wrong


class Played(NamedTuple):
    """What came of the tapes of a run: how many there are, in how many a rule is broken, and what
    is wrong with what was told."""

    tapes: int
    broken: int
    wrong: list


def compared(program, seed, traces):
    """What comes of the traces of a run, each with the end where it is taken."""
    played = [compare(program, lines, at) for lines, at in traces]
    return Played(
        len(played),
        sum(broken for broken, _ in played),
        [f"seed {seed}: {text}" for _, wrong in played for text in wrong],
    )


def play(program, seed):
    tape = Tape(seed)
    traces = [(lines, None) for lines in tape.copies()]
    return compared(program, seed, traces + [lacks(tape.dice, traces[0][0]) for lacks in MISSING])


def main(play, about, count):
    """Plays the runs of some words; answers the exit status."""
    options = runs.options_of(runs.words(about, count))
    return tell(options, lambda seed: play(options.program, seed))


def tell(options, play):
    """Says of each run what is wrong with it, and what came of all; answers the exit status."""
    tapes = broken = wrong = 0
    for seed in options.seeds:
        played = play(seed)
        tapes, broken, wrong = (
            tapes + played.tapes, broken + played.broken, wrong + len(played.wrong)
        )
        for text in played.wrong:
            print(text)
    print(f"{options.runs} runs, {tapes} tapes, {broken} with a broken rule, {wrong} wrong")
    return 1 if wrong else 0


if __name__ == "__main__":
    sys.exit(main(play, __doc__, 2_500))
