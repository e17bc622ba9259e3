"""A run of `x25 sim --tap --events` from its script: its lines, and what became of each frame that
was put on the line."""

from __future__ import annotations

import re
import subprocess
from typing import Iterable, Iterator, NamedTuple, Sequence

from x25tools import decoding
from x25tools.drawing import DAMAGED, LOST, WAITING
from x25tools.x25lines import BadInput

# What stands before an event in a run, after the lines that it made.
MARK = ". "
SECONDS = 60
DIRECTIONS = (">", "<")
# What the program says of a line that is no event.
# A line that is none of a script; one that is refused is an event of the run.
NO_EVENT = re.compile(r"^line (\d+): (?!! )(.*)$", re.MULTILINE)


class Run(NamedTuple):
    """The lines of a run, and by the place of a line what became of its frame."""

    lines: list[bytes]
    fates: dict[int, str]


def answer(program: str, words: Sequence[str], given: bytes) -> tuple[str, str]:
    """What a program writes for some words and some input, and what it says on standard error; bad
    input where it can't be run, or refuses."""
    decoding.say_if_unproved(program)
    try:
        done = subprocess.run([program, *words], input=given, capture_output=True, timeout=SECONDS)
    except OSError as error:
        raise BadInput(f"{program}: {error.strerror}") from error
    except subprocess.TimeoutExpired as error:
        raise BadInput(f"{program} {words[0]} didn't end within {SECONDS} seconds") from error
    if done.returncode not in (0, 1):
        said = (
            done.stderr.decode(errors="replace").strip().splitlines()
            or [f"status {done.returncode}"]
        )
        raise BadInput(f"{program} {words[0]}: {said[0]}")
    return done.stdout.decode("ascii", "replace"), done.stderr.decode(errors="replace")


def run(program: str, script: bytes, words: Sequence[str]) -> Run:
    """Runs a script."""
    line = Line()
    follow(line, steps(program, script, words))
    return line.run()


def steps(program: str, script: bytes, words: Sequence[str]) -> Iterator[tuple[str, list[str]]]:
    """Yields the events of the run of a script, each with the lines that it made; the first also
    with the frames that are on the line before it."""
    text, said = answer(program, ["sim", "--loose", "--tap", "--events", *words], script)
    if found := NO_EVENT.search(said):
        raise BadInput(f"line {found[1]} of the script: {found[2]}")
    made: list[str] = []
    for line in text.splitlines():
        if line.startswith(MARK):
            yield line[len(MARK) :], made
            made = []
        else:
            made.append(line)
    if made:
        raise BadInput(f"{program} sim didn't answer event by event")


def follow(line: Line, events: Iterable[tuple[str, list[str]]]) -> None:
    """Follows a line over a run, whose events each made some lines."""
    for event, made in events:
        # The SABM of a link that is just set up is on the line before it is delivered.
        if event == "deliver >" and not line.lines:
            line.put([made.pop(0)])
        line.step(event, made)
        if event.startswith("t1 ") and not is_refused(made):
            line.lines.append(f"{event[3:]} timer T1 fires")
        line.put(made)


def is_refused(made: list[str]) -> bool:
    """True where an event was refused, by the lines that it made."""
    return len(made) == 1 and made[0].startswith("! ")


class Line:
    """The line between the stations while a run is followed: for each direction the places of the
    frames that are on it."""

    def __init__(self) -> None:
        self.lines: list[str] = []
        self._waiting: dict[str, list[int]] = {direction: [] for direction in DIRECTIONS}
        self._fates: dict[int, str] = {}

    def put(self, made: Iterable[str]) -> None:
        """Takes lines of the run, and puts their frames on the line."""
        for text in made:
            if text[:1] in self._waiting:
                self._waiting[text[0]].append(len(self.lines))
            self.lines.append(text)

    def deliver(self, direction: str) -> None:
        """Takes the first frame off the line, where there is one."""
        if self._waiting[direction]:
            self._waiting[direction].pop(0)

    def step(self, event: str, made: list[str]) -> None:
        """What an event does to the frames on the line, where it was accepted."""
        kind, *fields = event.split(" ")
        if is_refused(made):
            return
        if kind == "deliver":
            self.deliver(fields[0])
        elif kind in ("lose", "damage"):
            places, place = self._waiting[fields[0]], int(fields[1])
            if place >= len(places):
                raise BadInput(f"the program accepted {event!r}, and no such frame is on the line")
            self._fates[places[place]] = LOST if kind == "lose" else DAMAGED
            if kind == "lose":
                places.pop(place)

    def run(self) -> Run:
        """The run up to here; what is on the line still waits there."""
        left = [place for places in self._waiting.values() for place in places]
        fates = {place: WAITING for place in left if place not in self._fates} | self._fates
        return Run([line.encode() for line in self.lines], fates)
