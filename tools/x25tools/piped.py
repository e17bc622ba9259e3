"""A station behind a pipe, which is the program's `station` as a child process: asked event by
event.

Each line that it is given is answered by notices (entries of its end), frames to send, or a
refusal (`! N`, or `? 60` for a line that asks for nothing), and then by a mark, `. T1 WORK`, or
with `--clock` `. NEXT WORK`; the first mark comes before anything is asked. An answer is read up
to its mark before the next event, so that neither pipe can fill.
"""

from __future__ import annotations

import re
import subprocess
from typing import List, NamedTuple, Optional, Sequence

from x25tools import x25lines
from x25tools.decoding import MISSING_STATION, Child, let_end, pipes, say_if_unproved
from x25tools.x25lines import BadInput, FrameLine

T1 = {b"off", b"on", b"start"}
NEXT = re.compile(rb"-|[0-9]+")
WORK = {b"idle": True, b"due": True, b"busy": False}


class Answer(NamedTuple):
    """What an event is answered by: entries as text, frames to send, the refusal as text; what T1
    does, nothing where there is a clock, whether all is done, whether an answer of the other end
    is due then; and by the clock when something is due, in milliseconds."""

    notices: List[str]
    frames: List[FrameLine]
    refusal: Optional[str]
    t1: str
    is_idle: bool
    awaits: bool = False
    due: Optional[int] = None


class Station:
    """The station of an end. `first` is what it says before anything is asked."""

    def __init__(self, program: str | None, end: str, words: Sequence[str] = ()) -> None:
        if program is None:
            raise BadInput(MISSING_STATION)
        say_if_unproved(program)
        self._name = f"{program} station {end}"
        self._command = [program, "station", end, *words]
        self._child: Child | None = None

    def __enter__(self) -> Station:
        self.begin()
        return self

    def __exit__(self, *_: object) -> None:
        if self._child is not None:
            let_end(self._child)

    def begin(self) -> None:
        """Begins the station, in place of one that ran."""
        self.__exit__()
        try:
            # In a session of its own CTRL-C doesn't end it before the one who asks it.
            self._child = subprocess.Popen(
                self._command,
                start_new_session=True,
                stdin=subprocess.PIPE,
                stdout=subprocess.PIPE,
            )
        except OSError as error:
            raise BadInput(f"{self._command[0]}: {error.strerror}") from error
        self._given, self._made = pipes(self._child)
        self._said: Optional[int] = None
        self.first = self._answer(b"")

    def ask(self, event: str, now: Optional[int] = None) -> Answer:
        """The answer to an event, a line without its line feed, at a time in milliseconds at which
        nothing is due."""
        octets = event.encode("latin-1")
        said = [] if now is None or now == self._said else [b"@ %d" % now]
        self._said = now
        try:
            self._given.writelines(line + b"\n" for line in [*said, octets])
            self._given.flush()
        except BrokenPipeError as error:
            raise BadInput(f"{self._name} has ended") from error
        for line in said:
            self._answer(line)
        return self._answer(octets)

    def _answer(self, event: bytes) -> Answer:
        notices: list[str] = []
        frames: list[FrameLine] = []
        refusal = None
        for line in self._made:
            line = line.rstrip(b"\n")
            if line.startswith(b". "):
                return Answer(notices, frames, refusal, *self._mark(line))
            if frame := x25lines.frame_line(line):
                frames.append(frame)
            elif x25lines.REFUSAL_LINE.fullmatch(line):
                refusal = line.decode()
            elif x25lines.ENTRY_LINE.fullmatch(line):
                notices.append(line.decode())
            else:
                raise BadInput(
                    f"{self._name} wrote {x25lines.shown(line)}, which is no part of an answer"
                )
        raise BadInput(
            f"{self._name} ended without a mark"
            + (f" after {x25lines.shown(event)}" if event else ": is it a program with that word?")
        )

    def _mark(self, line: bytes) -> tuple[str, bool, bool, Optional[int]]:
        words = line.split(b" ")
        if (
            len(words) != 3
            or words[1] not in T1 and not NEXT.fullmatch(words[1])
            or words[2] not in WORK
        ):
            raise BadInput(f"{self._name} wrote {x25lines.shown(line)}, which is no mark")
        if words[1] in T1:
            return words[1].decode(), WORK[words[2]], False, None
        return "", WORK[words[2]], words[2] == b"due", int(words[1]) if words[1] != b"-" else None
