"""Random traces of two ends that keep the rules, from a frame in their midst on.

    midst_runs.py [--program PROGRAM] [--from SEED] [RUNS]

A link is set up, at times by SABMs whose answers are lost, and the ends exchange I frames, some
of them after others that the line lost. REJ, an answer to P=1, and T1 set an end back. The trace
has what both sent. It begins at a line in the midst; in some a line is damaged, or a stretch is
left out, with gaps in its place. No rule of the link layer may be told of it without doubt.

Where `judge` says that it takes the link up, a copy of the trace ends in one of the frames after
that, with a wrong number: an N(R) of what was never sent, an N(S) that skips, or other octets of
a number. Of those nine tenths at least are to be told.

Exit status: 0; 1 where an end was told of, or too few were; 2 for bad words, or no program.
"""

from __future__ import annotations

import re
import subprocess
import sys
from typing import List, NamedTuple, Optional

import runs
from runs import OTHERS, P_OR_F, REJ, RR, SABM, UA, Numbers

from x25tools import losses, x25lines  # where runs finds it

# What is told without doubt, a rule or manners.
SURE = re.compile(r" (?:!|~ manners:) d[tc]e: (.*)")
TAKEN_UP = "V(S) of both ends is known"
LENGTH = 150


class Line(NamedTuple):
    """A line of the trace, and its frame: with N(S), N(R), V(S) of the other end and its
    octets."""

    text: str
    end: str
    ns: Optional[int] = None
    nr: Optional[int] = None
    most: int = 0
    information: bytes = b""


class Frame(NamedTuple):
    kind: object
    ns: int = 0
    nr: int = 0
    pf: bool = False
    is_command: bool = True
    information: bytes = b""


class End:
    """An end: what is on the way to it, where it stands, and from where it sends again."""

    def __init__(self) -> None:
        self.way: List[Frame] = []
        self.is_up, self.asks, self.answers, self.rejects = False, False, False, False
        self.begin()

    def begin(self) -> None:
        self.numbers, self.given, self.next = Numbers(), [], 0
        self.rejects = self.polls = False


class Run:
    """Both ends, and the trace."""

    def __init__(self, seed: int) -> None:
        self.dice = losses.Dice(seed)
        self.loss, self.window = self.dice.one_of((0, 0.02, 0.1)), self.dice.one_of((2, 4, 7))
        self.busy, self.late = self.dice.one_of((0.5, 0.8)), self.dice.one_of((0.2, 0.6))
        self.ends = {">": End(), "<": End()}
        self.lines: List[Line] = []
        while len(self.lines) < LENGTH:
            self.step(self.dice.one_of("><"))

    def put(self, mark: str, frame: Frame) -> None:
        end, other = self.ends[mark], self.ends[OTHERS[mark]]
        control = frame.nr % 8 << 5 | (P_OR_F if frame.pf else 0)
        control |= frame.ns % 8 << 1 if frame.kind == "I" else frame.kind
        octets = runs.frame(mark, frame.is_command, control, frame.information)
        has_number = frame.kind in ("I", RR, REJ)
        ns, nr = frame.ns if frame.kind == "I" else None, frame.nr if has_number else None
        text, most = f"{mark} {octets.hex()}\n", other.numbers.sent
        self.lines.append(Line(text, mark, ns, nr, most, frame.information))
        if has_number:
            end.numbers.told = frame.nr
        if not self.dice.chance(self.loss):
            other.way.append(frame)

    def step(self, mark: str) -> None:
        end, chance = self.ends[mark], self.dice.fraction()
        if not end.is_up and not end.way and (mark == ">" or self.dice.chance(0.1)):
            if not any(frame.kind == UA for frame in end.way):
                end.asks = True
                self.put(mark, Frame(SABM, pf=True))
        elif end.way and chance < 1 - self.late:
            self.take(mark, end, end.way.pop(0))
        elif end.is_up and chance < 1 - self.late * (1 - self.busy):
            self.send(mark, end)
        elif end.is_up and end.numbers.acked < end.numbers.sent and self.dice.chance(0.1):
            self.wait(mark, end)
        elif end.is_up and self.dice.chance(0.02) and not end.way:
            self.ask_again(mark, end)

    def ask_again(self, mark: str, end: End) -> None:
        if self.dice.chance(0.1):
            end.is_up, end.asks = False, True
            self.put(mark, Frame(SABM, pf=True))

    def wait(self, mark: str, end: End) -> None:
        """T1: the first that is unacknowledged again with P=1, or a poll."""
        if self.dice.chance(0.5):
            end.next = end.numbers.acked
            self.info(mark, end, True)
        elif not end.polls:
            end.polls = True
            self.put(mark, Frame(RR, nr=end.numbers.taken, pf=True))

    def info(self, mark: str, end: End, is_poll: bool = False) -> None:
        number = end.next
        if number == end.numbers.sent:
            end.given.append(bytes([0x10, 1, self.dice.one_of((RR, 0x21, 0x41))]))
            end.numbers.sent += 1
        end.next = number + 1
        self.put(mark, Frame("I", number, end.numbers.taken, is_poll, True, end.given[number]))

    def send(self, mark: str, end: End) -> None:
        if self.dice.chance(self.busy) and end.next < end.numbers.acked + self.window:
            self.info(mark, end)
        elif end.numbers.told < end.numbers.taken:
            self.put(mark, Frame(RR, nr=end.numbers.taken, is_command=False))

    def take(self, mark: str, end: End, frame: Frame) -> None:
        if frame.kind == SABM:
            self.put(mark, Frame(UA, pf=frame.pf, is_command=False))
            if not end.asks:
                end.is_up = True
                end.begin()
        elif frame.kind == UA:
            if end.asks:
                end.is_up, end.asks = True, False
                end.begin()
        elif end.is_up:
            self.hear(mark, end, frame)

    def hear(self, mark: str, end: End, frame: Frame) -> None:
        numbers = end.numbers
        if (frame.nr - numbers.acked) % 8 <= numbers.sent - numbers.acked:
            numbers.acked += (frame.nr - numbers.acked) % 8
        end.next = max(end.next, numbers.acked)
        if frame.kind == REJ or frame.pf and not frame.is_command:
            end.polls = end.polls and not (frame.pf and not frame.is_command)
            end.next = numbers.acked
        if frame.kind == "I":
            if numbers.takes(frame.ns % 8):
                end.rejects = False
            elif not end.rejects and (frame.ns - numbers.taken) % 8 < 4:
                end.rejects = True
                self.put(mark, Frame(REJ, nr=numbers.taken, is_command=False, pf=frame.pf))
                return
        if frame.pf and frame.is_command:
            self.put(mark, Frame(RR, nr=numbers.taken, is_command=False, pf=True))


# ---- traces


def texts(lines: List[Line]) -> List[str]:
    return [line.text for line in lines]


def lacking(dice: losses.Dice, lines: List[Line]) -> List[str]:
    """The trace with a damaged line, or with gaps in place of a stretch."""
    place = dice.below(len(lines))
    if dice.chance(0.5):
        damaged = f"{lines[place].text[:-5]}0000\n"
        return texts(lines[:place]) + [damaged] + texts(lines[place + 1 :])
    later = place + 1 + dice.below(8)
    gaps = [f"{end} {x25lines.GAP}\n" for end in sorted({line.end for line in lines[place:later]})]
    return texts(lines[:place]) + gaps + texts(lines[later:])


def answers(program: str, lines: List[str]) -> List[str]:
    done = subprocess.run([program, "judge", "--at", "line"], input="".join(lines),
                          stdout=subprocess.PIPE, text=True)
    return done.stdout.splitlines()[: len(lines)]


def broken(dice: losses.Dice, line: Line) -> Optional[str]:
    """A line with a wrong number, where it has one."""
    numbers = dict(ns=line.ns, nr=line.nr, information=line.information)
    if line.nr is None:
        return None
    kind = dice.below(3)
    if kind == 0 or line.ns is None:
        numbers["nr"] = line.most + 1
    elif kind == 1:
        numbers["ns"] = line.ns + 2
    else:
        numbers["information"] = bytes([0x10, 1, 0x61])
        numbers["ns"] = line.ns - 1
    octets = bytes.fromhex(line.text[2:])
    control = numbers["nr"] % 8 << 5 | octets[1] & 0x1F
    if line.ns is not None:
        control = control & 0xF1 | numbers["ns"] % 8 << 1
    sealed = octets[:1] + bytes([control]) + (numbers["information"] or b"")
    return f"{line.end} {(sealed + x25lines.fcs(sealed)).hex()}\n"


class Played(NamedTuple):
    up: int
    broken: int
    told: int
    wrong: List[str]


def play(program: str, seed: int) -> Played:
    run = Run(seed)
    lines = run.lines[run.dice.below(60) :]
    wrong = []
    for trace in (texts(lines), lacking(run.dice, lines)):
        for place, text in enumerate(answers(program, trace)):
            found = SURE.search(text)
            if found:
                wrong.append(
                    f"seed {seed}: line {place + 1}: {text}\n{''.join(trace[: place + 1])}"
                )
                break
    told = answers(program, texts(lines))
    up = next((place for place, text in enumerate(told) if TAKEN_UP in text), None)
    if up is None:
        return Played(0, 0, 0, wrong)
    places = [place for place in range(up + 1, len(lines)) if lines[place].nr is not None]
    if not places:
        return Played(1, 0, 0, wrong)
    place = run.dice.one_of(places)
    text = broken(run.dice, lines[place])
    told = answers(program, texts(lines[:place]) + [text])[-1]
    return Played(1, 1, SURE.search(told) is not None, wrong)


def main() -> int:
    options = runs.options_of(runs.words(__doc__, 2_000))
    up = count = told = wrong = 0
    for seed in options.seeds:
        played = play(options.program, seed)
        up, count, told = up + played.up, count + played.broken, told + played.told
        wrong += len(played.wrong)
        for text in played.wrong:
            print(text)
    print(
        f"{options.runs} runs, {up} taken up, {told} of {count} wrong numbers told, {wrong} wrong"
    )
    return 1 if wrong or told < 0.9 * count else 0


if __name__ == "__main__":
    sys.exit(main())
